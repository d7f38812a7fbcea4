"""The unproved build of a program: made once for each checksum of the sources and the kit, and kept apart from the proved one.

`rt try` builds the sources without a proof, under checks of every address, and the program stands below TMPDIR while it runs there.
It is taken from there by a second link, and stands as NAME.unproved in the cache, with a note of what it is made of. A kit that
builds otherwise leaves nothing to take; that is noted too, so that nobody looks again.
"""

import ctypes
import fcntl
import glob
import hashlib
import os
import re
import shutil
import signal
import subprocess
import sys
import threading
import time

import seen
from crates import TOP, cache, kit, kit_files, sources_files, sources_seen, sources_sum, sum_of_file, sum_seen

# Each case is one more chance to see the program while it stands, for some 40 milliseconds; on a busy machine some are missed.
CASES, PAUSE = 60, 0.01
WEEK = 7 * 24 * 3600
KEPT, NOT_KEPT, NOT_BUILT, CHANGED = "kept", "not kept", "not built", "changed"
PR_SET_PDEATHSIG = 1


class Build:
    """The kept build of a program: where it stands, and the note that has to stand beside it."""

    def __init__(self, name, top=TOP):
        self.name, self.top = name, top
        self.sources = sources_seen(name, top)
        self.made_of = f"sources {self.sources}\nkit {kit()}\n"
        key = hashlib.sha256(self.made_of.encode()).hexdigest()[:16]
        self.place = f"{cache()}/unproved/{name}-{key}"
        self.program, self.note, self.log = f"{self.place}/{name}.unproved", f"{self.place}/note", f"{self.place}/log"

    def stands(self):
        """The path of the kept program, if it is whole and made of these sources by this kit; else none."""
        try:
            if said_in(self.note) != f"UNPROVED\n{self.made_of}program {sum_seen(self.program)}\n":
                return None
            os.utime(self.note)
            return self.program
        except OSError:
            return None

    def cannot(self):
        """Whether this kit is known to leave no program."""
        try:
            return said_in(self.note) == f"UNPROVED\n{self.made_of}no program\n"
        except OSError:
            return False

    def write_note(self, what):
        with open(f"{self.note}.new", "w", encoding="utf-8") as it:
            it.write(f"UNPROVED\n{self.made_of}{what}\n")
        os.replace(f"{self.note}.new", self.note)

    def make(self):
        """Builds and keeps the program, unless another run just did. Answers KEPT, NOT_KEPT, NOT_BUILT if the log says why not, or
        CHANGED if it cannot be said of which sources the program is."""
        os.makedirs(self.place, exist_ok=True)
        with open(f"{self.place}/lock", "w", encoding="utf-8") as lock:
            fcntl.flock(lock, fcntl.LOCK_EX)
            if self.stands():
                return KEPT
            if self.cannot():
                return NOT_KEPT
            for left in glob.glob(f"{self.place}/try-*"):
                shutil.rmtree(left, ignore_errors=True)
            room = f"{self.place}/try-{os.getpid()}"
            before = self.look()
            try:
                return self.try_in(room, before) if self.sources == sources_sum(self.name, self.top) else CHANGED
            finally:
                shutil.rmtree(room, ignore_errors=True)

    def look(self):
        """How the sources and the kit stand now."""
        return seen.look([*sources_files(self.name, self.top), *kit_files()])[0]

    def try_in(self, room, before):
        """Runs a try on empty cases, and keeps the program that it makes, if sources and kit stand as they did before."""
        for part in ("cases", "tmp", "links"):
            os.makedirs(f"{room}/{part}")
        for case in range(CASES):
            open(f"{room}/cases/{case}", "w", encoding="utf-8").close()
        with open(self.log, "w", encoding="utf-8") as log:
            how = {"stdin": subprocess.DEVNULL, "stdout": log, "stderr": log, "env": {**os.environ, "TMPDIR": f"{room}/tmp"}}
            words = ["rt", "try", "--cases", f"{room}/cases"]
            tried = subprocess.Popen(words, cwd=f"{self.top}/crates/{self.name}", preexec_fn=dies_with_parent(signal.SIGTERM), **how)
            good = watched(tried, f"{room}/tmp", f"{room}/links", self.log)
        if self.look() != before:
            return CHANGED
        if good is None:
            if not statuses_in(self.log):
                return NOT_BUILT
            self.write_note("no program")
            return NOT_KEPT
        os.replace(good, self.program)
        self.write_note(f"program {sum_of_file(self.program)}")
        forget_old(self.name)
        return KEPT


def said_in(path):
    with open(path, encoding="utf-8", errors="replace") as it:
        return it.read()


def statuses_in(log):
    """The statuses of the cases that have ended, by the log of a try."""
    return re.findall(r"(?m)^case=\d+ run=ended status=(\d+)", said_in(log))


def watched(tried, below, links, log):
    """Links each program that stands below the folder of a try, and answers the first link that ends as a case of the try did; none if
    there is none. With the program at hand the try is ended: the cases that are left would show nothing more.

    A program counts as whole once a case has ended after it was linked, or the try has."""
    taken, seen, young, odd = [], set(), [], []
    while True:
        over, ended = tried.poll() is not None, statuses_in(log)
        ripe = [it for it, since in young if over or len(ended) > since] + (odd if over else [])
        good = next((it for it in ripe if ended and answers_alike(it, int(ended[0]))), None)
        if good or over:
            end(tried)
            return good
        odd, young = odd + ripe, [it for it in young if it[0] not in ripe]
        for path in glob.glob(f"{below}/*/*/program") + glob.glob(f"{below}/*/program"):
            try:
                which = os.stat(path).st_ino
                if which not in seen:
                    os.link(path, f"{links}/{len(taken)}")
                    taken.append(f"{links}/{len(taken)}")
                    young.append((taken[-1], len(ended)))
                    seen.add(os.stat(taken[-1]).st_ino)
            except OSError:
                continue
        time.sleep(PAUSE)


def end(tried):
    """Ends a try, which removes what it has below its folder."""
    tried.terminate()
    try:
        tried.wait(timeout=20)
    except subprocess.TimeoutExpired:
        tried.kill()
        tried.wait()


def answers_alike(program, status):
    """Whether a program that was taken ends as the try's did, without words and input. What it writes into its folder goes with the links."""
    try:
        ran = subprocess.run([program], cwd=os.path.dirname(program), stdin=subprocess.DEVNULL, capture_output=True, timeout=60)
    except (OSError, subprocess.TimeoutExpired):
        return False
    return ran.returncode == status


def forget_old(name):
    """Removes the builds of a program that nobody has used for a week, and the answers about files that were found before that."""
    notes = [f"{place}/note" for place in glob.glob(f"{cache()}/unproved/{name}-*")]
    for path in [*notes, *glob.glob(f"{cache()}/seen/*")]:
        try:
            if time.time() - os.path.getmtime(path) > WEEK:
                shutil.rmtree(os.path.dirname(path), ignore_errors=True) if path in notes else os.remove(path)
        except OSError:
            continue


def dies_with_parent(number):
    """What a child does before it becomes its program, so that the system sends it a signal when its parent ends."""
    parent = os.getpid()
    library = ctypes.CDLL(None, use_errno=True)

    def prepare():
        library.prctl(PR_SET_PDEATHSIG, number, 0, 0, 0)
        if os.getppid() != parent:
            os._exit(1)

    return prepare


class Moving:
    """A line on standard error while something takes its time: it moves on a terminal, and is written once elsewhere."""

    def __init__(self, text):
        self.text, self.ended = text, threading.Event()

    def __enter__(self):
        if not sys.stderr.isatty():
            print(f"{self.text} ..", file=sys.stderr, flush=True)
            return self
        self.thread = threading.Thread(target=self.move, daemon=True)
        self.thread.start()
        return self

    def move(self):
        began = time.monotonic()
        while not self.ended.wait(0.25):
            seconds = int(time.monotonic() - began)
            print(f"\r{self.text} {'|/-' [seconds % 3]} {seconds} s", end="", file=sys.stderr, flush=True)

    def __exit__(self, *_):
        self.ended.set()
        if sys.stderr.isatty():
            self.thread.join()
            print(f"\r{' ' * (len(self.text) + 16)}\r", end="", file=sys.stderr, flush=True)
