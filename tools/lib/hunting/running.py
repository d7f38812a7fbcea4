"""Programs that read a schedule from standard input: their answers, within limits, and how two answers differ."""

import resource
import signal
import subprocess
import tempfile
from collections import namedtuple

from .plain import world

Answer = namedtuple("Answer", "status report")
# What a report may have at most; no schedule of a hunt gives a hundredth of it.
MOST_BYTES = 256 << 20
# A run that only waits takes no time of a processor: it ends after so many times as many seconds by the clock.
WAITING = 30


class Program:
    """A program by its words, with the seconds of a processor and the bytes of memory that it may take."""

    def __init__(self, words, seconds, memory):
        self.words, self.seconds, self.memory = [*words, "run"], seconds, memory

    def limit(self, process):
        """Limits a process that has just begun. To set limits before it begins would take a fork of this whole process for each run."""
        for what, most in ((resource.RLIMIT_CPU, self.seconds), (resource.RLIMIT_AS, self.memory), (resource.RLIMIT_FSIZE, MOST_BYTES), (resource.RLIMIT_CORE, 0)):
            resource.prlimit(process, what, (most, most + (what == resource.RLIMIT_CPU)))

    def answer(self, text):
        """The status and the report; a status that is a text says how it did not end by itself."""
        with tempfile.TemporaryFile() as given, tempfile.TemporaryFile() as wrote:
            given.write(text)
            given.seek(0)
            with subprocess.Popen(self.words, stdin=given, stdout=wrote, stderr=subprocess.DEVNULL) as process:
                self.limit(process.pid)
                try:
                    status = process.wait(WAITING * self.seconds)
                except subprocess.TimeoutExpired:
                    process.kill()
                    status = -signal.SIGXCPU
            wrote.seek(0)
            if status == -signal.SIGXCPU:
                return Answer(f"no end within {self.seconds} seconds", wrote.read())
            return Answer(status if status >= 0 else f"ended by signal {-status}", wrote.read())


    def complaint(self, text):
        """What the program writes to standard error."""
        with tempfile.TemporaryFile() as given, tempfile.TemporaryFile() as wrote:
            given.write(text)
            given.seek(0)
            with subprocess.Popen(self.words, stdin=given, stdout=subprocess.DEVNULL, stderr=wrote) as process:
                self.limit(process.pid)
                try:
                    process.wait(WAITING * self.seconds)
                except subprocess.TimeoutExpired:
                    process.kill()
            wrote.seek(0)
            return wrote.read()


class Plain:
    """The plain model of the rules."""

    def answer(self, text):
        return Answer(*world.run(text))


def lines_of(report):
    return report.decode("latin-1").split("\n")


def difference(wanted, had):
    """The first line that differs, as a text of a few lines; none where both answers are the same."""
    if wanted == had:
        return None
    ours, theirs = lines_of(wanted.report), lines_of(had.report)
    at = next((place for place, (one, other) in enumerate(zip(ours, theirs)) if one != other), min(len(ours), len(theirs)))
    said = [f"status {had.status}, wanted {wanted.status}"] if wanted.status != had.status else []
    if wanted.report != had.report:
        said += [f"line {at + 1} of the report", f"  wanted {line_at(ours, at)}", f"  had    {line_at(theirs, at)}"]
    return "\n".join(said)


def line_at(lines, at):
    """A line, or that there is none; behind the last line feed stands nothing."""
    return lines[at] if at < len(lines) and (lines[at] or at + 1 < len(lines)) else "(nothing)"
