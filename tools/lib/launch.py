"""What ./committee, ./inspect and ./validator do: help, the proved program, or the unproved build of the same sources, which is kept."""

import contextlib
import os
import re
import signal
import subprocess
import sys

import crates
import kept
import programs

HELP, VERSION = ([], ["help"], ["--help"], ["-h"]), ["--version"]
# The commands that read no schedule from standard input.
NO_SCHEDULE = ("make", "check")
# The programs that read a schedule from standard input, after which the script may have something to say.
READS_SCHEDULE = ("committee", "inspect")
WRONG_WORDS, REFUSED, KEEP_FAULT, NEGATIVE = 2, 3, 6, 8
# What is easily forgotten of a program's words.
FORGOTTEN = {
    "committee": "the schedule comes on standard input, as in ./committee run < FILE, and `in JOURNAL` comes last",
    "inspect": "the schedule comes on standard input, as in ./inspect digests < FILE",
}
HANDED_ON = (signal.SIGINT, signal.SIGTERM, signal.SIGHUP, signal.SIGQUIT, signal.SIGUSR1, signal.SIGUSR2)


class Launch:
    """One run of a program by its name."""

    def __init__(self, name, words):
        self.name, self.words = name, words

    def say(self, text):
        print(f"{self.name}: {text}", file=sys.stderr, flush=True)

    def of_prove(self):
        """What ./prove is told to prove this program: nothing for committee, which it proves by itself."""
        return "" if self.name == "committee" else f" {self.name}"

    def program(self):
        """The program to run: the proved one or the kept unproved one; none if there is neither, and standard error says why."""
        at = programs.proved(self.name)
        if at:
            return at
        build = kept.Build(self.name)
        at = build.stands()
        if at is None and not build.cannot():
            at = self.built(build)
            if at is None:
                return None
        if at:
            self.say(f"UNPROVED build (./prove{self.of_prove()} makes the proved program)")
        return at or self.by_try()

    def built(self, build):
        """The program once it is built and kept; no text if this kit leaves nothing to keep; none if it cannot be built."""
        try:
            with kept.Moving(f"{self.name}: building the sources without a proof, once: a minute or two on an idle machine"):
                came = build.make()
        except OSError as fault:
            self.say(f"{fault.filename or build.place}: {fault.strerror}, so the unproved build is not kept")
            return ""
        except KeyboardInterrupt:
            self.say("the build was interrupted; the next run begins it again")
            raise
        if came == kept.KEPT:
            return build.stands()
        if came == kept.NOT_BUILT:
            self.say(f"the sources could not be built; {build.log} says why:")
            print("".join(kept.said_in(build.log).splitlines(True)[:20]), end="", file=sys.stderr)
            return None
        if came == kept.CHANGED:
            self.say("the sources changed while they were built: run it again")
            return None
        return ""

    def by_try(self):
        """Runs a build of this time alone, where none can be kept. The words may name no file: the run is not in this folder."""
        self.say(f"UNPROVED build, made for this run: 60 seconds and 1 MiB of output at most (./prove{self.of_prove()} makes the proved program)")
        if "in" in self.words:
            self.say(f"`in FILE` needs the proved program, since this kit's unproved run keeps no file: ./prove{self.of_prove()}")
            return None
        with kept.Moving(f"{self.name}: building the sources without a proof: a minute or two on an idle machine"):
            ran = subprocess.run(["rt", "try", "--", *self.words], cwd=f"{crates.TOP}/crates/{self.name}", capture_output=True)
        said = ran.stderr.decode(errors="replace")
        ended = re.match(r"run=ended status=(\d+) ", said.splitlines()[-1] if said else "")
        if not ended:
            self.say(f"the unproved run gave no answer. Make the schedule smaller, or build the proved program: ./prove{self.of_prove()}")
            return None
        sys.stdout.buffer.write(ran.stdout)
        sys.stdout.flush()
        print(own_words(said), end="", file=sys.stderr)
        return int(ended[1])

    def run(self):
        """Runs the program and answers its status."""
        if not programs.kit():
            self.say("the kit's `rt` is not on the PATH, so nothing can be built or told apart")
            return 1
        at = self.program()
        if isinstance(at, str):
            at = self.ended(at)
        if self.name in READS_SCHEDULE:
            for line in self.hints(at):
                self.say(line)
        return 1 if at is None else at

    def hints(self, status):
        """What to say after a run that ended with this status."""
        command = self.words[0] if self.words else ""
        if status == WRONG_WORDS:
            yield f"{FORGOTTEN[self.name]}; ./{self.name} help says what the words mean, and docs/COMMANDS.md which numbers fit"
        if status == REFUSED and command not in NO_SCHEDULE:
            yield f"the text is not a schedule. What to change: {self.advice()}"
        if status == KEEP_FAULT and command == "replay":
            yield "if a record is bad, the file is damaged, or a run of another set-up kept it"
        if status == NEGATIVE and command in ("run", "make"):
            yield "a journal file keeps one run. Name a new file after `in`, or remove this one"
        if status == NEGATIVE and command == "chain":
            yield "there is no such chain, and the line that was written in its place says why"

    def ended(self, program):
        """Becomes the program; or, if something may have to be said after it, starts it and answers its status."""
        sys.stdout.flush()
        words = [program, *self.words]
        if self.name not in READS_SCHEDULE:
            os.execv(program, words)
        return status_of(words)

    def advice(self):
        """The command that explains a refusal, with the schedule's file if standard input is one."""
        file = os.readlink("/proc/self/fd/0") if os.path.exists("/proc/self/fd/0") else ""
        near = os.path.relpath(file) if os.path.isfile(file) else "FILE"
        file = file if near.startswith("..") else near
        return f"./committee run < {file} | tools/explain {file} -"


def own_words(said):
    """What the program itself wrote to standard error, without the lines of the try."""
    tries = re.compile(r"(rt: |interpreter: |checked: |races: |run=|note: )")
    return "".join(line for line in said.splitlines(True) if not tries.match(line))


def status_of(words):
    """Runs a program that ends when this process does and gets its signals. Answers its status, or ends by the signal that ended it."""
    prepare = kept.dies_with_parent(signal.SIGKILL)
    signal.pthread_sigmask(signal.SIG_BLOCK, HANDED_ON)
    child = os.fork()
    if child == 0:
        try:
            prepare()
            signal.pthread_sigmask(signal.SIG_UNBLOCK, HANDED_ON)
            os.execv(words[0], words)
        finally:
            os._exit(1)

    def hand_on(number, _):
        """Hands a signal on to the program, if it has not ended."""
        with contextlib.suppress(ProcessLookupError):
            os.kill(child, number)

    for number in HANDED_ON:
        if signal.getsignal(number) != signal.SIG_IGN:
            signal.signal(number, hand_on)
    signal.pthread_sigmask(signal.SIG_UNBLOCK, HANDED_ON)
    _, status = os.waitpid(child, 0)
    status = os.waitstatus_to_exitcode(status)
    if status < 0:
        signal.signal(-status, signal.SIG_DFL) if -status in HANDED_ON else None
        os.kill(os.getpid(), -status)
    return status if status >= 0 else 128 - status


def version(name):
    """What `--version` says."""
    kit = programs.kit()
    if not kit:
        stands = "not known, since the kit's `rt` is not on the PATH"
    elif programs.proved(name):
        stands = "proved"
    else:
        stands = f"UNPROVED build, kept in {crates.cache()}" if kept.Build(name).stands() else "not built yet; the first run builds it, UNPROVED"
    return f"{name} {crates.version()}\nkit: {kit or 'none'}\nprogram: {stands}"


def main(name, help_text, words):
    """Answers the status of a run of the program by its name."""
    if words in HELP:
        print(help_text, end="")
        return 0
    if words == VERSION:
        print(version(name))
        return 0
    return Launch(name, words).run()
