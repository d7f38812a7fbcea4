"""What rattle is told of a crate that is checked over libraries which were built before, and the must-fail edits: for tools/beside, tools/tower and tools/edits."""

import glob
import hashlib
import importlib.machinery
import os
import re
import shutil
import sys
import types

RT = shutil.which("rt")
KIT = os.path.dirname(os.path.dirname(os.path.realpath(RT))) if RT else ""
RATTLE = f"{KIT}/bin/rattle"
KEPT = ["--incremental", "out/beside/kept"]
# The folder of a crate's edits that no gate tries.
DEAR = "must-fail-dear"
# A line that is a comment, by the end of the file's name.
COMMENT = {".rt": re.compile(r"(?m)^[ \t]*//.*\n?"), ".antt": re.compile(r"(?m)^[ \t]*--.*\n?")}


def need_kit():
    """Stops with a sentence if there is no kit."""
    if not KIT:
        raise SystemExit("the kit's rt is not on the PATH")


def kit_of_edits():
    """The kit's own reading of must-fail edits, and of what a check says to one."""
    need_kit()
    module = types.ModuleType("rt")
    module.__file__ = f"{KIT}/bin/rt"
    sys.path.insert(0, f"{KIT}/bin")
    importlib.machinery.SourceFileLoader("rt", module.__file__).exec_module(module)
    return module


def edits(top, name, folder="must-fail"):
    """The paths of the edits in this folder of a crate."""
    return sorted(glob.glob(f"{top}/crates/{name}/{folder}/*.edit"))


def tried(name):
    """Where the file is that says of which sources the expensive edits of a crate were last refused, from the top."""
    return f"crates/{name}/{DEAR}/tried.sum"


def sum_of_tried(top, uses, name):
    """A checksum of a crate's expensive edits, and of the code of the crate and of all that it stands on."""
    total = hashlib.sha256()
    for crate in [name, *sorted(below(uses, name))]:
        total.update(f"{crate}: {' '.join(uses[crate])}\0".encode())
        for path, text in sorted(sources(top, crate).items()):
            total.update(f"{path}\0{text}\0".encode())
    for edit in edits(top, name, DEAR):
        with open(edit, "rb") as it:
            total.update(os.path.basename(edit).encode() + b"\0" + it.read() + b"\0")
    return total.hexdigest()


def below(uses, name, found=None):
    """The repository's crates that a crate reaches."""
    found = {} if found is None else found
    for use in uses.get(name, []):
        if use in uses and use not in found:
            found[use] = None
            below(uses, use, found)
    return list(found)


def unbuilt(uses, name, libraries):
    """The crates below one that have no library, or that stand on such a crate, lowest first."""
    found = []
    for use in uses[name]:
        if use in uses:
            found += [it for it in unbuilt(uses, use, libraries) if it not in found]
            if use not in found and (libraries[use] is None or any(it in found for it in uses[use])):
                found.append(use)
    return found


def sources(top, name, tests=False):
    """The code that a crate's library is made of, by the path in the crate: without lines that are comments, and without tests. With
    `tests`: the whole texts."""
    folder, found = f"{top}/crates/{name}", {}
    for part in ("src", "specs", "proofs"):
        for at, _, files in os.walk(f"{folder}/{part}"):
            for file in files:
                path = os.path.relpath(f"{at}/{file}", folder)
                if not tests and "tests" in path:
                    continue
                with open(f"{at}/{file}", encoding="utf-8") as it:
                    text = it.read()
                found[path] = text if tests else code_in(path, text)
    return found


def code_in(path, text):
    """A text without lines that are comments and without the module of its tests."""
    of_this_kind = COMMENT.get(os.path.splitext(path)[1])
    code = re.sub(r"(?m)^#\[cfg\(test\)\]\n.*\n", "", text)
    return (of_this_kind.sub("", code) if of_this_kind else code).rstrip()


def is_program(top, name):
    return os.path.exists(f"{top}/crates/{name}/src/main.rt")


def words(top, uses, name, libraries, links, jobs=1, sources=()):
    """What rattle is told of the crate and of what it stands on. `links` names the crates of which it is said that they link nothing;
    `sources` those below, lowest first, that have no library and are read as they stand."""
    need_kit()
    root = f"src/{'main' if is_program(top, name) else 'lib'}.rt"
    told = ["--crate-name", name, root, "--extern", f"std={KIT}/rlibs/std.rlib", "-L", f"dependency={KIT}/rlibs"]
    named = dict.fromkeys(use for it in [name, *sources] for use in uses[it] if use not in sources)
    for use in named:
        told += ["--extern", f"{use}={libraries.get(use, f'{KIT}/rlibs/{use}.rlib')}"]
    if sources:
        told += ["--extern", f"core={KIT}/rlibs/core.rlib"]
    for it in sources:
        told += ["--lib", f"{it}:core,std,{','.join(uses[it])}={top}/crates/{it}/src/lib.rt"]
    for folder in dict.fromkeys(os.path.dirname(it) for it in libraries.values()):
        told += ["-L", f"dependency={folder}"]
    told += ["--antt-project", f"{KIT}/rattle/logic/antt-project.json", "--logic-built", f"{KIT}/logic_built", "--jobs", str(jobs)]
    for it in links:
        told += ["--links", f"{it}="]
    return told
