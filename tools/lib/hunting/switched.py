"""All must-fail edits in one build: a copy of the sources in which each edited function has its edited body beside it, behind a number.

An edit replaces lines by lines, so an edited file has its functions at the same lines. The body B of a function that the edits 3 and 8
change becomes `if edit_is(3) { B with 3 } else if edit_is(8) { B with 8 } else { B }`. A C function reads the variable KOTHAYSU_EDIT: the
program is that of the edit with this number, and without the variable the right one.
"""

import glob
import os
import re
import shutil
from collections import namedtuple

# The number of the edit that a run has; and a file, to which a run adds the numbers of all edits whose functions it called.
VARIABLE, REACHED = "KOTHAYSU_EDIT", "KOTHAYSU_REACHED"
# It is written when a function is first called: a program that can start threads ends without the destructors of C.
CHOICE = f"""#include <stdio.h>
#include <stdlib.h>
static unsigned char asked[1024];
static unsigned chosen;
static int known;
static void tell(unsigned number) {{
    const char *path = getenv("{REACHED}");
    FILE *file = path ? fopen(path, "a") : NULL;
    if (!file)
        return;
    fprintf(file, "%u\\n", number);
    fclose(file);
}}
unsigned kothaysu_edit(unsigned number) {{
    if (!known) {{
        const char *text = getenv("{VARIABLE}");
        chosen = text ? (unsigned)atoi(text) : 0;
        known = 1;
    }}
    if (!__atomic_exchange_n(&asked[number % 1024], 1, __ATOMIC_RELAXED))
        tell(number);
    return number == chosen;
}}
"""
ASKS = """
unsafe extern "C" { safe fn kothaysu_edit(number: u32) -> u32; }

pub(crate) fn edit_is(number: u32) -> bool {
    kothaysu_edit(number) == 1
}
"""
FUNCTION = re.compile(r"( *)(?:pub(?:\([a-z]+\))? )?(?:const )?(?:unsafe )?fn \w")
# An edit: its number, its crate, its name, and the texts that it replaces: the file, what stands there once, and what comes in its place.
Edit = namedtuple("Edit", "number crate name pairs")


def read(path):
    with open(path, encoding="utf-8") as it:
        return it.read()


def pairs_of(text):
    """The file, the old and the new text of each pair; a pair without a file is in that of the one before."""
    found, file, old = [], None, None
    for line in text.split("\n"):
        word, _, rest = line.partition(": ")
        if word == "file":
            file = rest
        elif word == "old":
            old = rest
        elif word == "new":
            found.append((file, old, rest))
    return found


def edits(top):
    """All edits of the repository, numbered from 1 in the order of their crates and names."""
    paths = sorted(glob.glob(f"{top}/crates/*/must-fail*/*.edit"), key=lambda it: (it.split("/")[-3], os.path.basename(it)))
    return [Edit(number, path.split("/")[-3], os.path.basename(path)[:-5], pairs_of(read(path))) for number, path in enumerate(paths, 1)]


def edited(top, edit):
    """The files that an edit changes, with the text that it leaves."""
    texts = {}
    for file, old, new in edit.pairs:
        path = f"crates/{edit.crate}/{file}"
        text = texts.get(path) or read(f"{top}/{path}")
        if text.count(old) != 1:
            raise SystemExit(f"{edit.crate}/{edit.name}: the text to change stands {text.count(old)} times in {file}")
        texts[path] = text.replace(old, new)
    return texts


def body_of(lines, at):
    """The lines of the body of the function that has this line, without its braces: the first, and the one after the last."""
    for head in range(at, -1, -1):
        found = FUNCTION.match(lines[head])
        if not found or lines[head].endswith(";"):
            continue
        indent = found[1]
        begin = next(it for it in range(head, len(lines)) if lines[it].endswith("{") and re.match(rf"{indent}\S", lines[it]))
        end = next(it for it in range(begin, len(lines)) if lines[it] == f"{indent}}}")
        if begin < at < end:
            return begin + 1, end
    raise ValueError(f"line {at + 1} is in no function")


def changed(top, edit):
    """The bodies that an edit changes: by the file and the body's place, its lines with the edit."""
    found = {}
    for path, text in edited(top, edit).items():
        before, after = read(f"{top}/{path}").split("\n"), text.split("\n")
        for at, (one, other) in enumerate(zip(before, after, strict=True)):
            if one != other:
                begin, end = body_of(before, at)
                found[path, begin, end] = after[begin:end]
    return found


def switched(lines, bodies):
    """The lines of a file in which each of these bodies is chosen by the edit's number. The last body comes first, so that places stay."""
    lines = list(lines)
    for (begin, end), choices in sorted(bodies.items(), reverse=True):
        right, made = lines[begin:end], []
        for number, body in choices:
            made += [f"if crate::edit_is({number}) {{", *body, "} else "]
        lines[begin:end] = [*made, "{", *right, "}"]
    return lines


def make(top, room, wanted):
    """Writes the sources with these edits into the folder."""
    shutil.rmtree(f"{room}/crates", ignore_errors=True)
    shutil.copytree(f"{top}/crates", f"{room}/crates", ignore=shutil.ignore_patterns("out", "must-fail*", "tests"))
    for name in ("crates.txt", "HANDLES"):
        shutil.copy(f"{top}/{name}", room)
    files = {}
    for edit in wanted:
        for (path, begin, end), body in changed(top, edit).items():
            files.setdefault(path, {}).setdefault((begin, end), []).append((edit.number, body))
    for path, bodies in files.items():
        with open(f"{room}/{path}", "w", encoding="utf-8") as it:
            it.write("\n".join(switched(read(f"{top}/{path}").split("\n"), bodies)))
    crates = sorted({it.crate for it in wanted})
    for crate in crates:
        with open(f"{room}/crates/{crate}/src/lib.rt", "a", encoding="utf-8") as it:
            it.write(ASKS)
    os.makedirs(f"{room}/crates/{crates[0]}/c", exist_ok=True)
    with open(f"{room}/crates/{crates[0]}/c/edit.c", "w", encoding="utf-8") as it:
        it.write(CHOICE)
