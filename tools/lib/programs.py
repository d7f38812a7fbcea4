"""The programs of the repository: where the proved ones are, and runs of them, of another program, or of the unproved builds.

A proved program counts only while a note beside it says that it was made of the sources, the kit and the bytes that stand here
now. `note` writes that note, for those who have just proved and built it.
"""

import errno
import os
import re
import shutil
import subprocess

import kept
from crates import NAME, TOP, files_of, is_program, is_static, kit, names_of_programs, needed, sources_sum, sum_of_file, uses

__all__ = ["NAME", "TOP", "files_of", "is_program", "is_static", "kit", "names_of_programs", "needed", "sources_sum", "uses"]
SECONDS = 600
NO_PROGRAM = "there is no proved program of these sources: ./prove builds it (an hour or so), --unproved takes the unproved build"
WORDS = """--ours        the proved program of these sources if it is built, else the unproved build
--proved      the proved program
--unproved    the unproved build, made once (a minute or two)
PROGRAM ..    another program, with words of its own before those of a case"""


def program_of(name=NAME, top=TOP):
    return f"{top}/crates/{name}/out/{name}"


def text_of_note(sources, name=NAME, top=TOP):
    """What the note beside a program says if it is of these sources."""
    return f"sources {sources}\nkit {kit()}\nprogram {sum_of_file(program_of(name, top))}\n"


def note(sources, name=NAME, top=TOP):
    """Notes that a program was proved and built of the sources of this checksum. Answers whether they still stand here."""
    if sources != sources_sum(name, top) or not os.path.isfile(program_of(name, top)):
        return False
    with open(f"{program_of(name, top)}.proved", "w", encoding="utf-8") as it:
        it.write(text_of_note(sources, name, top))
    return True


def proved(name=NAME, top=TOP):
    """The path of the proved program of these sources and this kit, or none."""
    try:
        with open(f"{program_of(name, top)}.proved", encoding="utf-8") as it:
            said = it.read()
        return program_of(name, top) if kit() and said == text_of_note(sources_sum(name, top), name, top) else None
    except OSError:
        return None


def unproved(name=NAME):
    """The path of the kept unproved build, made now if there is none; none if this kit leaves nothing to keep or nothing is built."""
    if not kit():
        return None
    build = kept.Build(name)
    at = build.stands()
    if at is None and not build.cannot():
        with kept.Moving(f"building {name} without a proof, once for these sources: a minute or two on an idle machine"):
            at = build.stands() if build.make() == kept.KEPT else None
    return at


class Program:
    """A program that reads from standard input and takes words."""

    def __init__(self, words):
        self.words = words

    def answers(self, cases):
        """The status and the output of each case, by its name. A case is a name, its words and its text."""
        if not shutil.which(self.words[0]):
            raise FileNotFoundError(errno.ENOENT, "there is no such program", self.words[0])
        import concurrent.futures  # here, since a launcher has no use for it

        with concurrent.futures.ThreadPoolExecutor(len(os.sched_getaffinity(0))) as pool:
            found = pool.map(lambda case: self.answer(*case[1:]), cases)
            return dict(zip([name for name, *_ in cases], found))

    def answer(self, words, text):
        try:
            ran = subprocess.run([*self.words, *words], input=text, stdout=subprocess.PIPE, stderr=subprocess.DEVNULL, timeout=SECONDS)
        except subprocess.TimeoutExpired:
            return None, b""
        return ran.returncode, ran.stdout


class Unproved:
    """The unproved build of these sources where it cannot be kept: built for all cases of one call by `rt try`."""

    def __init__(self, name=NAME):
        self.name = name

    def answers(self, cases):
        import tempfile  # here, since a launcher has no use for it

        with tempfile.TemporaryDirectory(prefix=f"{self.name}-cases-") as room:
            for place, (_, words, text) in enumerate(cases):
                with open(f"{room}/{place}", "wb") as it:
                    it.write(text)
                with open(f"{room}/{place}.args", "w", encoding="utf-8") as it:
                    it.write("".join(f"{word}\n" for word in words))
            ran = subprocess.run(["rt", "try", "--cases", room], cwd=f"{TOP}/crates/{self.name}", stdin=subprocess.DEVNULL, capture_output=True)
        return {cases[place][0]: it for place, it in read_cases(ran.stdout, ran.stderr).items() if place < len(cases)}


def read_cases(out, err):
    """What `rt try --cases` says of each numbered case: its status, none if it did not end, and its output."""
    wrote = {}
    for part in re.split(rb"(?m)^== (?=\d+\n)", out)[1:]:
        place, _, text = part.partition(b"\n")
        wrote[int(place)] = text
    found = {}
    for line in err.decode(errors="replace").splitlines():
        said = re.match(r"case=(\d+) (?:.*\bstatus=(\d+))?", line)
        if said:
            place = int(said[1])
            found[place] = int(said[2]) if said[2] else None, wrote.get(place, b"")
    return found


def program_for(words, name=NAME):
    """The program that the words of a tool name (WORDS); without words the proved one. None if it does not stand here."""
    words = words or ["--proved"]
    if words[0] not in ("--ours", "--proved", "--unproved"):
        return Program(words)
    at = proved(name) if words[0] != "--unproved" else None
    if at or words[0] == "--proved":
        return Program([at]) if at else None
    at = unproved(name)
    if at:
        return Program([at])
    return Unproved(name) if kit() else None
