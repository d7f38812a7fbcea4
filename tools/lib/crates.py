"""The crates of the repository, the checksum of what a program is made of, and the kit."""

import functools
import hashlib
import os
import shutil
import subprocess

import seen

TOP = os.path.dirname(os.path.dirname(os.path.dirname(os.path.abspath(__file__))))
NAME = "committee"
PARTS = ("src", "specs", "proofs", "c")


def uses(top=TOP):
    """Each crate of crates.txt with the crates and libraries that it names."""
    with open(f"{top}/crates.txt", encoding="utf-8") as it:
        lines = [line.split("#")[0].strip() for line in it]
    parts = [line.partition(":") for line in lines if line]
    return {head.split()[0]: tail.split() for head, _, tail in parts}


def is_program(name, top=TOP):
    return os.path.exists(f"{top}/crates/{name}/src/main.rt")


def names_of_programs(top=TOP):
    """The crates that are programs, `committee` first."""
    return sorted((it for it in uses(top) if is_program(it, top)), key=lambda it: (it != NAME, it))


def is_static(name, top=TOP):
    """Whether crates.txt calls the crate a static library."""
    with open(f"{top}/crates.txt", encoding="utf-8") as it:
        return any(line.partition(":")[0].split() == [name, "staticlib"] for line in it)


def needed(name=NAME, top=TOP):
    """The crate and all crates below it, each after those that it names."""
    known, found = uses(top), []

    def visit(crate):
        for below in known[crate]:
            if below in known and below not in found:
                visit(below)
        if crate not in found:
            found.append(crate)

    visit(name)
    return found


def files_of(crate, top=TOP):
    """The files that a crate is made of, by their path from the top, in order."""
    found = []
    for part in PARTS:
        for at, _, names in os.walk(f"{top}/crates/{crate}/{part}"):
            found += [f"{at}/{name}"[len(top) + 1 :] for name in names]
    return sorted(found)


def sources_sum(name=NAME, top=TOP):
    """A checksum of all that a program is made of in this repository."""
    known, total = uses(top), hashlib.sha256()
    for crate in needed(name, top):
        total.update(f"{crate}: {' '.join(known[crate])}\n".encode())
        for path in files_of(crate, top):
            total.update(f"{path} {sum_of_file(f'{top}/{path}')}\n".encode())
    return total.hexdigest()


def sum_of_file(path):
    with open(path, "rb") as it:
        return hashlib.sha256(it.read()).hexdigest()


def sum_seen(path):
    """The checksum of a file, whose bytes are read only if it has changed since they were last read."""
    return seen.known(kept_answer(path), [path], lambda: sum_of_file(path))


def sources_files(name=NAME, top=TOP):
    """The paths of all that a program is made of, and of the list of crates."""
    return [f"{top}/crates.txt", *(f"{top}/{path}" for crate in needed(name, top) for path in files_of(crate, top))]


def sources_seen(name=NAME, top=TOP):
    """The checksum of the sources, whose bytes are read only if one of them has changed since they were last read."""
    return seen.known(kept_answer(f"{name} {top}"), sources_files(name, top), lambda: sources_sum(name, top))


def kit_files():
    """The paths of `rt`, of what stands beside it, and of the kit's name; none if this kit has no such file."""
    at = os.path.dirname(os.path.realpath(shutil.which("rt") or "rt"))
    named = f"{os.path.dirname(at)}/KIT-ID"
    return [named, *sorted(it.path for it in os.scandir(at) if it.is_file())] if os.path.isfile(named) else []


def kit_asked():
    """The line that `rt version` says."""
    return subprocess.run(["rt", "version"], stdin=subprocess.DEVNULL, capture_output=True, text=True).stdout.strip()


@functools.lru_cache(maxsize=None)
def kit():
    """The one line that names the kit, or none if there is no `rt`. Of a kit that stands as it did when it was last asked, and whose
    KIT-ID is that line, it is known; any other is asked."""
    if not shutil.which("rt"):
        return None
    files = kit_files()
    line = seen.known(kept_answer(f"kit {files}"), files, kit_asked) if files else ""
    return (line if files and line == seen.said_in(files[0]) else kit_asked()) or None


def cache():
    """The folder outside the repository where builds are kept."""
    return f"{os.environ.get('XDG_CACHE_HOME') or os.path.expanduser('~/.cache')}/kothaysu"


def kept_answer(what):
    """Where the answer to a question about files is kept."""
    return f"{cache()}/seen/{hashlib.sha256(what.encode(errors='surrogateescape')).hexdigest()[:16]}"


def version(top=TOP):
    with open(f"{top}/VERSION", encoding="utf-8") as it:
        return it.read().strip()
