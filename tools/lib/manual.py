"""Reads the manual: its examples, its forms and its tables; and the forms and lines that the program's sources have."""

import glob
import hashlib
import os
import re
import subprocess
import sys

import language
from programs import TOP

FENCE = re.compile(r"^```(\w*) ?(.*)$")
SPAN = re.compile(r"`([^`]+)`")
COMES, NEVER = "to come", "no schedule"


def read(path):
    with open(f"{TOP}/{path}", encoding="utf-8") as it:
        return it.read()


def spans(text):
    """The code spans of a text that stand outside its fenced blocks."""
    return set(SPAN.findall(re.sub(r"(?ms)^```.*?^```$", "", text)))


class Example:
    """A schedule in a document, with the report that the document gives it."""

    def __init__(self, place, heading, schedule):
        self.place, self.heading, self.schedule = place, heading, schedule
        self.report, self.is_tail = None, False

    def lines(self):
        """The lines of the schedule that count, with their numbers."""
        numbered = enumerate(self.schedule.decode().split("\n"), 1)
        return [(number, line) for number, line in numbered if line and not line.startswith("#")]

    def refused(self):
        """The line and the cause of its refusal, or none."""
        found = re.fullmatch(r"refused line (\d+) cause (\d+)\n", self.report or "")
        return (int(found[1]), int(found[2])) if found else None

    def fault(self, answer):
        """What is wrong with the program's answer, or nothing."""
        if self.report is None:
            return "has no report behind it"
        status, wrote = answer or (None, b"")
        wrote, wanted = wrote.decode(errors="replace"), 3 if self.refused() else 0
        if status != wanted:
            return f"ended with {'no status' if status is None else status}, and not with {wanted}"
        is_same = ("\n" + wrote).endswith("\n" + self.report) if self.is_tail else wrote == self.report
        return None if is_same else f"gives another report:\n{wrote}"


def blocks(text):
    """The fenced blocks of a document: the line, the heading that they stand under, the language, the words after it, the text."""
    heading, inside, found = "", None, []
    for number, line in enumerate(text.split("\n"), 1):
        fence = FENCE.match(line)
        if inside is None and fence:
            inside = (number, heading, fence[1], fence[2].split(), [])
        elif inside is not None and line == "```":
            found.append((*inside[:4], "".join(f"{it}\n" for it in inside[4])))
            inside = None
        elif inside is not None:
            inside[4].append(line)
        elif line.startswith("#"):
            heading = line.lstrip("#").strip()
    return found


def examples(path):
    """The examples of a document. A block `schedule python` is a program that prints the schedule; `report tail` is a report's end."""
    found = []
    for number, heading, language, words, text in blocks(read(path)):
        if words[:1] == ["of"]:
            continue
        if language == "schedule":
            made = subprocess.run([sys.executable, "-c", text], stdout=subprocess.PIPE, check=True).stdout if words == ["python"] else text.encode()
            found.append(Example(f"{path}:{number}", heading, made))
        elif language == "report" and found and found[-1].report is None:
            found[-1].report, found[-1].is_tail = text, words == ["tail"]
    return found


def quotes(path):
    """What a document quotes `of` a schedule file: the place, `schedule` or `report`, the file, the text."""
    return [(f"{path}:{number}", language, words[1], text) for number, _, language, words, text in blocks(read(path)) if words[:1] == ["of"]]


def commands(path):
    """What a document shows of `$ ./committee WORDS`, with `< FILE` or without: the place, the words, standard input, what is written."""
    found = []
    for number, _, language, _, text in blocks(read(path)):
        line, _, wanted = text.partition("\n")
        shown = re.fullmatch(r"\$ \./committee ([^<]*?)(?: < (.*))?", line)
        if shown and not language:
            found.append((f"{path}:{number}", shown[1].split(), open(f"{TOP}/{shown[2]}", "rb").read() if shown[2] else b"", wanted.encode()))
    return found


# What the sources declare by which the words of a schedule, the causes and the lines of a report are found, in whatever crate they stand.
WORDS, CAUSES, LINES = "pub enum InputWord {", "pub enum Cause {", "pub enum VoteText {"


def home_of(declared):
    """The crate whose sources have this declaration, and the text of the file that has it."""
    for path in sorted(glob.glob(f"{TOP}/crates/*/src/**/*.rt", recursive=True)):
        with open(path, encoding="utf-8") as it:
            text = it.read()
        if declared in text:
            return os.path.relpath(path, f"{TOP}/crates").split(os.sep)[0], text
    raise SystemExit(f"no source has {declared}")


def source_with(declared):
    return home_of(declared)[1]


def variants(text):
    """The variants of each enum: its name, its comment, and what it holds."""
    found = {}
    for name, body in re.findall(r"(?ms)^pub enum (\w+) \{\n(.*?)^\}", text):
        found[name] = re.findall(r"(?m)((?:^    /// .*\n)+)^    (\w+)((?:.|\n)*?)(?=\n    ///|\Z)", body)
    return found


def forms():
    """The forms of the language: the code spans of the comments at the words of a schedule."""
    comments = re.findall(r"(?m)^ *///(.*)$", source_with(WORDS))
    return set(SPAN.findall("\n".join(comments)))


def without_form():
    """Variants of the words whose comments have no code span, other than those whose form is a name alone."""
    found = variants(source_with(WORDS))
    return [f"{enum}::{name}" for enum, all_of in found.items() for comment, name, _ in all_of if enum in ("Setup", "Event", "InputWord") and not SPAN.search(comment)]


def literals():
    """The words of the language: those that the specifications of its crate spell out, and the natives of their table."""
    found, crate = set(), home_of(WORDS)[0]
    for path in glob.glob(f"{TOP}/crates/{crate}/specs/**/*.antt", recursive=True):
        with open(path, encoding="utf-8") as it:
            found |= set(re.findall(r'codes "([^"]*)"', it.read()))
    return found | set(language.NATIVES)


def causes():
    """The numbers of the causes of a refusal."""
    text = source_with(CAUSES)
    return sorted(int(it) for it in re.findall(r"Cause::\w+ => (\d+)", text))


def forms_of(comment):
    """The forms of a line or of its ending, by its comment: its first code span, and each that stands after an `or`."""
    first = SPAN.search(comment)
    return [first[1], *re.findall(r" or `([^`]+)`", comment)] if first else []


def lines():
    """The forms of all lines of a report. Where two lines end in the same texts, the second one's form is its head and `..`."""
    found, text, written = variants(source_with(LINES)), [], set()
    for comment, name, held in found["Line"]:
        heads, kind = forms_of(comment), re.search(r"text: (\w+)", held)
        if not heads:
            raise SystemExit(f"the line {name} of a report has no form in its comment")
        if kind is None:
            text += heads
        elif kind[1] in written:
            text += [f"{head}.." for head in heads]
        else:
            written.add(kind[1])
            text += [head + ending for head in heads for ending_of in found[kind[1]] for ending in forms_of(ending_of[0])]
    others = [name for name in found if name not in written and name != "Line"]
    return text + [form for name in others for comment, _, _ in found[name] for form in forms_of(comment)]


def rows(path):
    """The rows of the tables of lines in a document: the form, and what stands in the last cell."""
    found, is_table = {}, False
    for line in read(path).split("\n"):
        cells = [it.strip() for it in line.strip("|").split(" | ")] if line.startswith("|") else []
        if line.startswith("| Line |"):
            is_table = True
        elif not cells:
            is_table = False
        elif is_table and SPAN.match(line[2:]):
            found[SPAN.match(line[2:])[1]] = cells[-1].rstrip(" |")
    return found


def pattern(form):
    """What finds a form in the lines of a report: capital words stand for words."""
    said = re.sub(r"\bvV\b", "v\\\\d+", re.escape(form.removesuffix("..")).replace("\\ ", " "))
    said = re.sub(r"(?<![a-z\\])[A-Z][A-Z0-9]*", "\\\\S+", said)
    is_line = form.startswith("  ") or ":" in form or form.startswith(("refused", "certified"))
    return re.compile(f"(?m)^{said}" if is_line else f"(?m)^  \\S+ v\\d+.* {said}( |$)")


def reports():
    """The report of each case of conformance, by its name."""
    found = {}
    for path in sorted(glob.glob(f"{TOP}/conformance/*/*.report")):
        with open(path, encoding="utf-8", errors="replace") as it:
            found[os.path.relpath(path, f"{TOP}/conformance").removesuffix(".report")] = it.read()
    return found


def section(path, heading):
    """What stands under a heading of a document."""
    found = re.search(rf"(?ms)^#+ {re.escape(heading)}$(.*?)(?=^#|\Z)", read(path))
    return found[1] if found else ""


def table_bytes(path, heading):
    """The bytes that the table of a chapter has in its column Bytes, one after the other."""
    column, found = None, ""
    for line in section(path, heading).split("\n"):
        cells = [it.strip() for it in line.strip("|").split("|")] if line.startswith("|") else []
        if "Bytes" in cells:
            column = cells.index("Bytes")
        elif column is not None and len(cells) > column:
            found += "".join(re.findall(r"`([0-9a-f]+)`", cells[column]))
    return bytes.fromhex(found)


def tagged(tag, text):
    """The digest of bytes under a tag, in hexadecimal."""
    return hashlib.sha256(bytes([tag]) + text).hexdigest()


def worked_digests(path):
    """The digests that a document of formats must name, by what they are of: made of the bytes in its own tables."""
    tx, eight_zeros = table_bytes(path, "A transaction"), bytes(8)
    return {
        "the name `alice`": tagged(0x41, b"alice"),
        "the name `bob`": tagged(0x41, b"bob"),
        "number 0, the id of `g0`": tagged(0x47, eight_zeros),
        "version 1 of `g0`": tagged(0x4F, table_bytes(path, "An object")),
        "the transaction `t1`": tagged(0x54, tx),
        "number 0 of `t1`, the id of `t1.0`": tagged(0x49, bytes.fromhex(tagged(0x54, tx)) + eight_zeros),
        "the effects of `t1`": tagged(0x45, table_bytes(path, "Effects")),
    }


def slug(heading):
    """The anchor of a heading, as it is made on the pages of a repository."""
    return re.sub(r"[^a-z0-9 _-]", "", heading.lower()).replace(" ", "-")


def broken_links(path):
    """The links of a document to files or headings that are not there."""
    return broken_links_in(path, read(path))


def broken_links_in(path, text):
    """The links of a text at this path that lead nowhere."""
    found, text = [], re.sub(r"(?ms)^```.*?^```$", "", text)
    for target in re.findall(r"\]\(([^)\s]+)\)", text):
        file, _, anchor = target.partition("#")
        at = os.path.normpath(f"{os.path.dirname(path)}/{file}") if file else path
        if target.startswith("http"):
            continue
        if not os.path.exists(f"{TOP}/{at}"):
            found.append(f"{path}: the link {target} leads nowhere")
        elif anchor and anchor not in {slug(it) for it in re.findall(r"(?m)^#+ (.*)$", read(at))}:
            found.append(f"{path}: the link {target} leads to no heading")
    return found
