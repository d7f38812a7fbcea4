"""What `inspect states L` says of the members of a run, after each line at which what they have may change.

Only a program that stands here is asked: nothing is built for a view, which says less without it.
"""

import concurrent.futures
import os
import re
import subprocess
import time

import kept
import programs
import schedules

# All lines of a run together; those that are not answered by then are left out.
SECONDS = 20


def program():
    """The program `inspect` of these sources: the proved one, else the unproved build that is kept; none if neither stands."""
    return programs.proved("inspect") or (kept.Build("inspect").stands() if programs.kit() else None)


def lines_of(events):
    """The lines after which members may have other objects or another epoch than before."""
    found = []
    for event in events:
        is_run = event.word == "run" and (schedules.executions(event) or event.answer == "stopped")
        if is_run or event.word in ("turn", "restart") and re.match(r"epoch |stopped|records ", event.answer):
            found.append(event.number)
    return found


def read(text):
    """The members of an answer: nothing of one that is faulty or down, else its epoch, its place in the sequence and its objects."""
    found = []
    for line in text.splitlines():
        if line.startswith("  "):
            name, version, rest = line[2:].split(" ", 2)
            found[-1]["objects"].append((name, int(version[1:]), rest))
        else:
            head = re.fullmatch(r"member \d+: (?:down|faulty|epoch (\d+) entries (\d+) checkpoints \d+ objects \d+)", line)
            found.append({"epoch": int(head[1]), "entries": int(head[2]), "objects": []} if head[1] else None)
    return found


def asked(at, schedule, lines):
    """The members after each of these lines, by the program; only those up to the first line that was not answered in time."""
    end = time.monotonic() + SECONDS

    def answer(line):
        try:
            left = end - time.monotonic()
            ran = subprocess.run([at, "states", str(line)], input=schedule, stdout=subprocess.PIPE, stderr=subprocess.DEVNULL, timeout=max(left, 0.001))
        except subprocess.TimeoutExpired:
            return None
        return read(ran.stdout.decode("latin-1")) if ran.returncode == 0 else None

    found = {}
    with concurrent.futures.ThreadPoolExecutor(len(os.sched_getaffinity(0))) as pool:
        for line, told in zip(lines, pool.map(answer, lines)):
            if told is None:
                end = 0
            elif end:
                found[line] = told
    return found
