"""One life of the program `validator`: it is started, asked through pipes, and may be killed while it is asked."""

import os
import select
import subprocess
import sys
import time

sys.path.insert(0, os.path.dirname(os.path.dirname(os.path.abspath(__file__))))
import kept

HANG = 300
SIGKILL = 9


class Died(Exception):
    """The process ended, and the line of the request under way did not come whole."""


class Refused(Exception):
    """The program did not start a member: its line and status say why."""


def made(program, member, genesis, journal):
    """Has the program make the journal of a member. Answers its line."""
    ran = subprocess.run([program, "init", str(member), genesis, "in", journal], stdin=subprocess.DEVNULL, capture_output=True, timeout=HANG)
    line = ran.stdout.decode().rstrip("\n")
    if ran.returncode:
        raise Refused(f"validator init {member}: {line or 'no line'} (status {ran.returncode})")
    return line


class Process:
    """A process that serves."""

    def __init__(self, program, member, genesis, journal):
        how = {"stdin": subprocess.PIPE, "stdout": subprocess.PIPE, "stderr": subprocess.DEVNULL, "bufsize": 0}
        self.child = subprocess.Popen([program, str(member), genesis, "in", journal], preexec_fn=kept.dies_with_parent(SIGKILL), **how)
        self.member, self.left, self.killed = member, b"", False

    def ready(self):
        """The words of its first line by their names, once it has started from its records."""
        line = self.line()
        words = line.split(" ")
        if words[0] != "ready":
            self.stop()
            raise Refused(f"validator {self.member}: {line} (status {self.child.returncode})")
        return dict(zip(words[2::2], map(int, words[3::2])))

    def line(self):
        """The next whole line."""
        until = time.monotonic() + HANG
        while b"\n" not in self.left:
            if not select.select([self.child.stdout], [], [], max(0, until - time.monotonic()))[0]:
                raise TimeoutError(f"no answer in {HANG} seconds")
            more = self.child.stdout.read(1 << 16)
            if not more:
                self.child.wait()
                raise Died(f"status {self.child.returncode}")
            self.left += more
        line, _, self.left = self.left.partition(b"\n")
        return line.decode()

    def ask(self, request):
        """The answer to a request."""
        try:
            given, at = request.encode() + b"\n", 0
            while at < len(given):
                at += self.child.stdin.write(given[at:])
        except (BrokenPipeError, ValueError):
            self.child.wait()
            raise Died(f"status {self.child.returncode}") from None
        return self.line()

    def kill(self):
        """Ends the process as kill -9 does. Answers whether that ended it, and not something before."""
        if self.killed or self.child.poll() is not None:
            return False
        self.killed = True
        self.child.kill()
        return True

    def stop(self):
        """Ends it by the end of its input. Answers its status."""
        self.child.stdin.close()
        try:
            return self.child.wait(HANG)
        finally:
            self.child.stdout.close()
