"""The public items of the crates' code, and which crates name each."""

import collections
import functools
import glob
import os
import re

import crates

# A public item: a function, a type, a trait or a constant. What stands in an `impl` has the name `Type::item`.
ITEM = re.compile(r"(?m)^(?P<indent> *)pub (?:unsafe |const (?=fn)|extern \"C\" )*(?P<kind>fn|struct|enum|trait|type|const|static) (?P<name>\w+)")
OWNER = re.compile(r"(?m)^impl\b(?P<says>[^{]*)")
COMMENT = re.compile(r"(?m)^\s*//.*$|(?<=[;{},]) +//.*$")
# What the prover reads, up to its opening brace.
CLAUSE = re.compile(r"\b(?:requires|ensures|invariant|ghost(?! use))\b[^;{}]*\{")
GHOST_USE = re.compile(r"\bghost use [^;]*;")
TACTIC = re.compile(r"#!?\[tactic\(.*?\)\]", re.S)
USE = re.compile(r"\buse [^;]*;")
PASSED = re.compile(r"\bpub use [^;]*;")
# A call or a path; a function that is passed as a value stands in an import.
CALLED = re.compile(r"(?<!fn )\b(\w+)\s*(?:::<[^()]*>)?\(|::(\w+)")
# A trait that a type meets: what is proved of the two may name the type in crates above.
MEETS = re.compile(r"(?m)^impl\b[^{]* for (?P<name>\w+)")
SPAN = re.compile(r"`([^`\n]+)`")
NO_PAGES = ("docs/DEFINITIONS.md", "docs/CRATES.md", "CHANGELOG.md")
# A function up to its body, and a type with what it holds.
FUNCTION = re.compile(r"(?m)^(?P<indent> *)(?P<public>pub |pub\(crate\) )?(?:unsafe |const |extern \"C\" )*fn (?P<name>\w+)[^;{}]*\{")
TYPE = re.compile(r"(?m)^(?P<public>pub |pub\(crate\) )?(?P<kind>struct|enum|trait) (?P<name>\w+)[^;{}]*\{")


def closing(text, at):
    """The place behind the brace that closes the one before `at`."""
    depth = 1
    while depth and at < len(text):
        depth += {"{": 1, "}": -1}.get(text[at], 0)
        at += 1
    return at


def without(pattern, text):
    """A text without each place where a pattern begins, up to the brace that closes."""
    kept, at = [], 0
    for it in pattern.finditer(text):
        if it.start() >= at:
            kept.append(text[at : it.start()])
            at = closing(text, it.end())
    return "".join([*kept, text[at:]])


def running(text):
    """The text of a file that runs: without comments, clauses and what clauses import."""
    return without(CLAUSE, TACTIC.sub("", GHOST_USE.sub("", COMMENT.sub("", text))))


def named_type(says):
    """The type of an `impl`: of `<J: Job> Wire for Plan<J>` it is `Plan`."""
    while re.search(r"<[^<>]*>", says):
        says = re.sub(r"<[^<>]*>", "", says)
    return re.split(r"\bwhere\b", says.split(" for ")[-1])[0].strip().lstrip("&").split("::")[-1].strip()


Item = collections.namedtuple("Item", "crate path kind name owner line at")


def whole(item):
    return f"{item.owner}::{item.name}" if item.owner else item.name


def items_of(crate, path, text):
    """The public items of a file."""
    owners = [(it.start(), named_type(it["says"])) for it in OWNER.finditer(text)]
    for it in ITEM.finditer(text):
        owner = next((name for at, name in reversed(owners) if at < it.start()), None) if it["indent"] else None
        yield Item(crate, path, it["kind"], it["name"], owner, text.count("\n", 0, it.start()) + 1, it.start())


def is_theorem(item, text):
    """Whether a function does nothing: its clauses are a theorem, which is proved only where a function states it."""
    return item.kind == "fn" and body_of(item, text) == ""


def body_of(item, text):
    """What stands between the braces of a function."""
    rest = without(CLAUSE, COMMENT.sub("", text[item.at :]))
    at = rest.index("{") + 1
    return rest[at : closing(rest, at) - 1].strip()


class Code:
    """The code of all crates."""

    def __init__(self, top):
        self.top, self.uses, self.texts = top, crates.uses(top), {}
        for crate in self.uses:
            self.texts[crate] = {}
            for path in sorted(glob.glob(f"{top}/crates/{crate}/src/**/*.rt", recursive=True)):
                with open(path, encoding="utf-8") as it:
                    self.texts[crate][path] = it.read()
        self.runs = {crate: {path: running(text) for path, text in texts.items()} for crate, texts in self.texts.items()}
        self.above = collections.defaultdict(set)
        for crate in self.uses:
            for below in crates.needed(crate, top):
                if below != crate:
                    self.above[below].add(crate)

    @functools.cached_property
    def items(self):
        return [it for crate, texts in self.texts.items() for path, text in texts.items() for it in items_of(crate, path, text)]

    @functools.lru_cache(maxsize=None)
    def called(self, crate):
        """What the code of a crate calls, or names in a path or an import."""
        found = set()
        for text in self.runs[crate].values():
            found.update(name for both in CALLED.findall(USE.sub("", text)) for name in both if name)
            found.update(word for it in USE.findall(text) for word in re.findall(r"\w+", it))
        return found

    @functools.lru_cache(maxsize=None)
    def own(self, crate):
        """All words of the code of a crate that runs, names in the heads of their functions and what it passes on aside."""
        return {word for text in self.runs[crate].values() for word in re.findall(r"(?<!fn )\b\w+", PASSED.sub("", text))}

    @functools.lru_cache(maxsize=None)
    def defined(self, crate, part="specs"):
        """All words of a crate's definitions, or of its proofs."""
        found = set()
        for path in glob.glob(f"{self.top}/crates/{crate}/{part}/**/*.antt", recursive=True):
            with open(path, encoding="utf-8") as it:
                found.update(re.findall(r"\w+", it.read()))
        return found

    @functools.lru_cache(maxsize=None)
    def words(self, crate):
        """All words of a crate: of its code, its definitions and its proofs."""
        code = {word for text in self.texts[crate].values() for word in re.findall(r"\w+", text)}
        return code | self.defined(crate) | self.defined(crate, "proofs")

    @functools.lru_cache(maxsize=None)
    def meeting(self, crate):
        """The types of a crate that meet a trait."""
        return {it["name"] for text in self.runs[crate].values() for it in MEETS.finditer(text)}

    @functools.cached_property
    def pages(self):
        """What the pages for readers name between back quotes, by page; those that are made from the sources do not count."""
        found = {}
        for path in glob.glob(f"{self.top}/**/*.md", recursive=True):
            page = os.path.relpath(path, self.top)
            if page not in NO_PAGES:
                with open(path, encoding="utf-8") as it:
                    found[page] = {span.split("(")[0] for span in SPAN.findall(it.read())}
        return found

    def is_in_a_page(self, item):
        """Whether a page names an item: by its whole name, or the README of its crate by its own."""
        own = self.pages.get(f"crates/{item.crate}/README.md", set())
        return item.name in own or any(whole(item) in spans for spans in self.pages.values())

    def face(self, crate, private):
        """What others may see of a crate's code: the heads of its public functions, public fields and variants, `impl` blocks. Functions
        that are to be private are left out."""
        return "\n".join(face_of(USE.sub("", text), private) for text in self.runs[crate].values())


def face_of(text, private):
    """What others may see of a file."""
    owners = [(it.start(), it["says"]) for it in OWNER.finditer(text)]
    kept, at = [], 0
    for it in sorted([*FUNCTION.finditer(text), *TYPE.finditer(text)], key=lambda it: it.start()):
        if it.start() < at:
            continue
        kept.append(text[at : it.start()])
        at = closing(text, it.end())
        if it.re is FUNCTION:
            owner = next((says for start, says in reversed(owners) if start < it.start()), "") if it["indent"] else ""
            name = f"{named_type(owner)}::{it['name']}" if owner else it["name"]
            is_seen = it["public"] == "pub " or " for " in owner and not it["public"]
            kept.append(it[0] if is_seen and name not in private else "")
        elif it["public"] == "pub ":
            inside = text[it.start() : at]
            kept.append("\n".join(line for line in inside.split("\n") if line.startswith("pub ") or " pub " in line) if it["kind"] == "struct" else inside)
    return "".join([*kept, text[at:]])


def is_seen(item, face):
    """Whether a type stands in what others may see of its crate, its own definition and the heads of its `impl` blocks aside."""
    face = re.sub(rf"(?m)^ *pub {item.kind} {item.name}\b", "", face)
    own = lambda it: "" if named_type(it["says"]) == item.name else re.sub(rf"\b{item.name}\b(?=(?:<[^{{]*>)? for )", "", it[0])
    return re.search(rf"\b{item.name}\b", OWNER.sub(own, face)) is not None
