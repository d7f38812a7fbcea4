"""Reads a schedule and its report side by side: each event with the lines that it gave."""

import re
import sys

SETUP = ("member", "coin", "counter", "cap", "writers")
# The words of an event whose second word is a member.
OF_MEMBER = ("vote", "fvote", "send", "see", "run", "close", "end", "turn", "show", "stop", "restart", "raw", "ack")


class Line:
    """A line of a schedule that counts: its number, its text and its words, and what the report says of it."""

    def __init__(self, number, text):
        self.number, self.text, self.words, self.said = number, text, text.split(" "), []

    word = property(lambda self: self.words[0])
    is_setup = property(lambda self: self.word in SETUP)
    # `order end M`; without a member it is the order of a transaction named `end`
    is_order_end = property(lambda self: self.words[:2] == ["order", "end"] and len(self.words) > 2)

    @property
    def member(self):
        """The member that the event asks, or none."""
        at = 2 if self.is_order_end else 1
        if (self.is_order_end or self.word in OF_MEMBER) and len(self.words) > at and self.words[at].isdigit():
            return int(self.words[at])
        return None

    @property
    def tx(self):
        """The name of the transaction that the event is about, or none."""
        at = {"tx": 1, "cert": 1, "final": 1, "vote": 2, "fvote": 2, "send": 2, "ack": 2}.get(self.word)
        if self.word == "order" and not self.is_order_end and self.words[1:] != ["commit"]:
            at = 1
        return self.words[at] if at and len(self.words) > at else None

    @property
    def answer(self):
        """What stands after the head of the first line that it gave, or nothing."""
        return self.said[0].partition(": ")[2] if self.said else ""


def lines_of(text):
    """The lines of a schedule that count."""
    numbered = enumerate(text.decode("latin-1").split("\n"), 1)
    return [Line(number, line) for number, line in numbered if line and not line.startswith("#")]


def refusal(report):
    """The line and the cause, where the report is a refusal."""
    found = re.fullmatch(r"refused line (\d+) cause (\d+)\n?", report)
    return (int(found[1]), int(found[2])) if found else None


def entries(event):
    """The lines that a `see` event has of entries."""
    return [line for line in event.said if line.startswith(f"see {event.words[1]} entry ")] if event.word == "see" else []


def is_of(event, line):
    """Whether a line of the report is one more of a `see` event, which has no more entries than it asks for."""
    return event.word == "see" and line.startswith(f"see {event.words[1]} entry ") and 0 < len(entries(event)) < int(event.words[2])


def checkpoints(event):
    """What a `see` or a `run` says of the checkpoints that were built."""
    return [line.strip() for line in event.said if line.startswith("  checkpoint ")]


def read(schedule, report):
    """The set-up lines and the events of a schedule, each event with its lines of the report."""
    found = lines_of(schedule)
    setup, events = [it for it in found if it.is_setup], [it for it in found if not it.is_setup]
    at = -1
    for line in report.splitlines():
        if not line.startswith("  ") and not (0 <= at < len(events) and is_of(events[at], line)):
            at += 1
        if 0 <= at < len(events):
            events[at].said.append(line)
    return setup, events


def executions(event):
    """What a run says of each transaction that it executed: name, `done`, `failed` or `aborted`, version, gas, and the line."""
    found = []
    for line in event.said[1:]:
        done = re.fullmatch(r"  (\S+) (done|failed|aborted)\b.* v(\d+) gas (\d+)", line)
        if done:
            found.append((done[1], done[2], int(done[3]), int(done[4]), line.strip()))
    return found


def reverted(event):
    """The transactions that a turn says were taken back."""
    return [line.removeprefix("  reverted ") for line in event.said[1:] if line.startswith("  reverted ")] if event.word == "turn" else []


def shown(event):
    """What a show says of each object: name, version, owner and content."""
    found = [re.fullmatch(r"  (\S+) v(\d+) (.*)", line) for line in event.said[1:]] if event.word == "show" else []
    return [(it[1], int(it[2]), it[3]) for it in found if it]


def references(line):
    """The versions that a `tx` line names: how (gas, o, i, s or r), the object, the version."""
    found = [("gas", *line.words[4].rstrip("!").split("@"))]
    for word in line.words[6:]:
        named = re.fullmatch(r"([oisr]):([\w.]+)@(\d+)!?", word)
        if named:
            found.append((named[1], named[2], named[3]))
    return [(how, name, int(version)) for how, name, version in found]


def touched(event):
    """The objects that an event names, by a reference or by an answer that has a version."""
    found = [name for _, name, _ in references(event)] if event.word == "tx" else []
    said = [name for line in event.said for name in re.findall(r"([a-z][\w.]*)@\d+", line)]
    return list(dict.fromkeys(found + said + [name for name, *_ in shown(event)]))


def named(event):
    """The transactions that an event is about: the one of its line, and those that its report names."""
    found = [event.tx] if event.tx else []
    for line in event.said[1:]:
        words = line.split(" ")
        if line.startswith("  checkpoint "):
            found += words[4:]
        elif line.startswith("  reverted "):
            found.append(words[3])
        elif event.word == "run" and line.startswith("  "):
            found.append(words[2])
    answers = [it.partition(": ")[2] for it in entries(event)] if event.word == "see" else [event.answer]
    for answer in answers:
        for said in re.findall(r"(?:admitted|dropped|pending|deferred|waits|by|on|halted|fork \S+) ((?:[a-z]\w*)(?: [a-z]\w*)*)", answer):
            found += said.split(" ")
    return list(dict.fromkeys(found))


class Unreadable(Exception):
    """A file that a tool is handed cannot be read, or is not what it should be."""


def brief(text):
    """A text, or its beginning and a sign that it goes on."""
    return text if len(text) <= 60 else f"{text[:57]}..."


def misfit(schedule, report):
    """What in a report is not of this schedule, or nothing. A report may end before its schedule does."""
    if refusal(report):
        line, cause = refusal(report)
        numbers = {it.number for it in lines_of(schedule)}
        return None if cause in range(1, 14) and (line in numbers or line == 0 and cause < 3) else f"its refusal names line {line} and cause {cause}"
    _, events = read(schedule, report)
    taken = sum(len(it.said) for it in events)
    for event in events:
        head = event.said[0].partition(": ")[0].partition(" entry ")[0] if event.said else ""
        if event.said and head != event.text[: len(head)]:
            return f"line {event.number} of the schedule is `{brief(event.text)}`, and there it says `{brief(event.said[0])}`"
    return None if taken == len(report.splitlines()) else "it has more lines than the schedule has events"


def read_files(schedule, report):
    """The bytes of a schedule and the text of its report, which may be `-` for standard input."""
    try:
        with open(schedule, "rb") as it:
            text = it.read()
        if report == "-":
            said = sys.stdin.buffer.read().decode("latin-1")
        else:
            with open(report, encoding="latin-1", newline="\n") as it:
                said = it.read()
    except OSError as fault:
        raise Unreadable(f"{fault.filename}: {fault.strerror}") from None
    wrong = misfit(text, said)
    if wrong:
        raise Unreadable(f"{'standard input' if report == '-' else report} is not a report of {schedule}: {wrong}")
    return text, said
