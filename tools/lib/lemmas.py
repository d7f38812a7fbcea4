"""The lemmas and definitions of the crates, and which of them something names.

A name is looked up as the prover does: in the file itself, among what it imports (under another name too), behind the name of a module,
by its whole path, and through a module that passes it on. Names that a function or a pattern binds are not told from declarations of the
file, so that a lemma called as a variable of its file counts as used.
"""

import collections
import functools
import glob
import os
import re

WORD = r"[^\s(){}\[\].;,@\"«»]+"
# A name, or names that dots join: `c.requires`, `no_vote.KeepFault`, `Rattle.tables.proofs.Lookups.first_more`.
PATH = re.compile(rf"{WORD}(?:\.{WORD})*")
COMMENT = re.compile(r"(?m)(?:^|(?<=\s))--.*$")
IMPORT = re.compile(r"(?m)^ *(?P<marks>(?:unfoldable )?(?:pub )?)use (?P<at>[^\s{}]+?)(?:\.\{(?P<names>[^}]*)\}| as (?P<alias>\S+))?$")
MODULE = re.compile(r"^ *(?:pub )?mod (\w+)")
MARKS = r"(?P<marks>(?:(?:pattern|unfoldable|abbrev|pub) )*)"
DECLARED = re.compile(rf"^ *{MARKS}(?:(?P<kind>record|data|ruleset) )?(?P<name>{WORD})(?P<typed> (?:\{{[^}}]*\}} )?:(?: |$))?")
HEADS = ("use ", "pub use ", "unfoldable pub use ", "mod ", "pub mod ", "infix")
# In the code of a crate: what a clause takes from elsewhere, and the lemmas that a tactic is handed.
GHOST_USE = re.compile(r"\bghost use (?P<at>[\w.]+?)(?:\.\{(?P<names>[^}]*)\}| as (?P<alias>\w+))?;", re.S)
RUST_PATH = re.compile(r"\b\w+(?:::\w+)+")


class Declared:
    """A declaration: its name, its lines (from `head`, where its comment begins, up to `end`), and the paths that it names."""

    def __init__(self, module, name, kind, is_pub, start):
        self.module, self.name, self.kind, self.is_pub = module, name, kind, is_pub
        self.head = self.start = start
        self.end, self.words = start + 1, set()

    @property
    def key(self):
        return self.module, self.name


class File:
    """A file of `specs/` or `proofs/`: its module, what it takes from others and passes on, and what it declares."""

    def __init__(self, path, module, text):
        self.path, self.module, self.text = path, module, text
        self.raw = text.split("\n")
        self.lines = COMMENT.sub("", text).split("\n")
        self.items, self.modules, self.passed = {}, {}, {}
        self.children = [it[1] for it in map(MODULE.match, self.lines) if it]
        for it in IMPORT.finditer("\n".join(self.lines)):
            take(it, self.items, self.modules)
            if "pub" in it["marks"]:
                take(it, self.passed, {})
        self.declared = declarations(self)


def take(it, items, modules):
    """What an import brings: items, each with its module and its name there, or a module."""
    for name in (it["names"] or "").split(","):
        name, _, other = name.strip().partition(" as ")
        if name:
            at, _, last = f"{it['at']}.{name}".rpartition(".")
            items[(other or last).strip()] = at, last
    if it["names"] is None:
        modules[it["alias"] or it["at"].rpartition(".")[2]] = it["at"]


def indent_of(line):
    return len(line) - len(line.lstrip())


def begins(line):
    """The declaration that begins in this line, or none if the line goes on with one."""
    it = DECLARED.match(line)
    return it if it and (it["kind"] or it["typed"]) else None


def declarations(file):
    """What a file declares, in order. Names in the parameters of a `module _` block count for each declaration in it."""
    found, now, blocks, at = [], None, [(0, set())], 0
    while at < len(file.lines):
        line, first, at = file.lines[at], at, at + 1
        if not line.strip():
            continue
        while indent_of(line) < blocks[-1][0]:
            blocks.pop()
            now = None
        if indent_of(line) == blocks[-1][0]:
            it = begins(line)
            if line.strip().startswith((*HEADS, "module ")):
                now = None
                if line.strip().startswith("module "):
                    at = head_end(file.lines, first)
                    inner = next((it for it in file.lines[at:] if it.strip()), "")
                    blocks.append((indent_of(inner), blocks[-1][1] | set(PATH.findall("\n".join(file.lines[first:at])))))
                continue
            if line.strip().split()[-1] == "mutual":
                now = Declared(file.module, f"mutual {at}", "mutual", False, first)
                found.append(now)
            elif it:
                now = Declared(file.module, it["name"], it["kind"] or "", "pub" in it["marks"].split(), first)
                now.words |= blocks[-1][1]
                found.append(now)
        if now is None:
            raise ValueError(f"{file.path}:{at}: no declaration: {line}")
        now.end = at
        now.words |= set(PATH.findall(line))
    for it in found:
        it.head = comment_above(file, it.start)
    return found


def head_end(lines, at):
    """The line behind the head of a block, which ends in `where`."""
    while not lines[at].rstrip().endswith("where"):
        at += 1
    return at + 1


def comment_above(file, at):
    """The line where the comment right above a declaration begins; a heading (`-- ---- ..`) is not its own."""
    is_its_own = lambda line: line.strip().startswith("--") and not line.strip().startswith("-- ----") and indent_of(line) == indent_of(file.raw[at])
    while at and is_its_own(file.raw[at - 1]):
        at -= 1
    return at


def module_of(path, top):
    """The module of a file: `tables.proofs.Lookups`."""
    parts = os.path.relpath(path, f"{top}/crates")[: -len(".antt")].split("/")
    return ".".join(parts[:-1] if parts[-1] == "Lib" else parts)


class Tree:
    """All files of specs/, proofs/ and src/ of a repository."""

    def __init__(self, top):
        self.top, self.files, self.code = top, {}, {}
        for part in ("specs", "proofs"):
            for path in sorted(glob.glob(f"{top}/crates/*/{part}/**/*.antt", recursive=True)):
                with open(path, encoding="utf-8") as it:
                    file = File(path, module_of(path, top), it.read())
                self.files[file.module] = file
        for path in sorted(glob.glob(f"{top}/crates/*/src/**/*.rt", recursive=True)):
            with open(path, encoding="utf-8") as it:
                self.code[path] = it.read()
        self.declared = {it.key: it for file in self.files.values() for it in file.declared}

    def is_found_by_name(self, file):
        """Whether no `mod` line leads to a file: it answers the goals of a function, or states its invariants."""
        parts = file.module.split(".")
        if len(parts) == 2:
            return False
        above = self.files.get(".".join(parts[:-1]))
        return above is None or parts[-1] not in above.children or self.is_found_by_name(above)

    @functools.cached_property
    def answers(self):
        """The modules of files that answer goals: the prover finds them by their names, or they name the goals."""
        names_goals = lambda file: any(it.endswith((".Goals", ".Given")) for it in file.modules.values())
        return {file.module for file in self.files.values() if self.is_found_by_name(file) or names_goals(file)}

    def item(self, module, name):
        """The declaration that a name of a module means, also if the module passes it on."""
        while (module, name) not in self.declared:
            file = self.files.get(module)
            if file is None or name not in file.passed:
                return None
            module, name = file.passed[name]
            module = plain(module)
        return module, name

    def at_path(self, parts):
        """The declaration that a whole path leads to: a module, an item in it, and perhaps fields behind it."""
        for cut in range(len(parts) - 1, 0, -1):
            module = plain(".".join(parts[:cut]))
            if module in self.files:
                return self.item(module, parts[cut])
        return None

    def meant(self, path, file, local):
        """The declaration that a path in a file means, or none if it means nothing of this repository."""
        first, *rest = path.split(".")
        found = None
        if first in file.items:
            module, name = file.items[first]
            found = self.item(plain(module), name)
        if found is None and rest and first in file.modules:
            found = self.at_path([*file.modules[first].split("."), *rest])
        if found is None and first == "Rattle":
            found = self.at_path([first, *rest])
        return found or ((file.module, first) if first in local else None)


def plain(module):
    return module[len("Rattle.") :] if module.startswith("Rattle.") else module


def names_in_code(tree, path):
    """The declarations that a file of code names: by `ghost use`, by a whole path, or to a tactic."""
    text = re.sub(r"(?m)^\s*//.*$", "", tree.code[path])
    own, items, modules = os.path.relpath(path, f"{tree.top}/crates").split("/")[0], {}, {}
    for it in GHOST_USE.finditer(text):
        take(it, items, modules)
    found = {tree.item(plain(module), name) for module, name in items.values()}
    for word in PATH.findall(text):
        parts = word.split(".")
        if parts[0] in modules and len(parts) > 1:
            found.add(tree.at_path([*modules[parts[0]].split("."), *parts[1:]]))
        elif parts[0] == "Rattle":
            found.add(tree.at_path(parts))
    for word in RUST_PATH.findall(text):
        parts = word.split("::")
        found.add(tree.at_path([own, *parts[1:]] if parts[0] == "crate" else parts))
    return found - {None}


def graph(tree):
    """Each declaration with those that it names."""
    named = {}
    for file in tree.files.values():
        local = {it.name for it in file.declared}
        for it in file.declared:
            named[it.key] = {tree.meant(path, file, local) for path in it.words} - {None, it.key}
    return named


def roots(tree):
    """The declarations that stand by themselves: what code names, answers, what a module passes on, operators, `data` and `mutual` blocks."""
    found = set()
    for path in tree.code:
        found |= names_in_code(tree, path)
    for file in tree.files.values():
        found |= {tree.item(plain(module), name) for module, name in file.passed.values()}
        is_answer = file.module in tree.answers
        found |= {it.key for it in file.declared if it.kind in ("data", "mutual") or "◌" in it.name or is_answer and it.is_pub}
    return found - {None}


def unused(tree):
    """The declarations that nothing names, and those that only these name, by file."""
    named, todo, seen = graph(tree), list(roots(tree)), set()
    while todo:
        it = todo.pop()
        if it not in seen:
            seen.add(it)
            todo += named[it]
    return [it for it in tree.declared.values() if it.key not in seen]
