"""How often each form of a line, each answer, cause and status came: what there is comes from the tables of the manual."""

import re
from collections import Counter

import manual
import schedules

from .plain.natives import NAMES

COMMANDS, SCHEDULES, REPORTS = "docs/COMMANDS.md", "docs/SCHEDULES.md", "docs/REPORTS.md"
# What is in a table, and no schedule can bring about, with the reason.
NEVER = {
    "native coin_burn code 2": "a cap counts all coins of its currency",
    "bytes why 8": "nothing that members are handed holds a text",
    "report `make N: transactions A checkpoints B objects C sum D`": "the line of another command",
    "report `restart M: bad record PLACE`": "needs altered records, which no schedule leaves",
    "status 1": "of the script ./committee alone",
    "status 2": "of words that are no command",
    "status 4": "needs a fault of standard input",
    "status 5": "needs a fault of standard output",
    "status 6": "needs a fault of the records",
    "status 7": "needs a fault of memory",
    "status 8": "of other commands",
}


def table(text, heading, column="N"):
    """The first cells of the rows below a heading, of the table that begins with this column."""
    part = re.split(rf"(?m)^#+ {heading}\n", text, maxsplit=1)[1]
    rows = part.split(f"| {column} |", 1)[1].split("\n")[2:]
    return [re.match(r"\| ([^|]+) \|", row)[1] for row in rows[: next((at for at, row in enumerate(rows) if not row.startswith("|")), len(rows))]]


def forms():
    """The words of set-up lines, events, inputs, arguments and commands."""
    lines = ["member honest", "member faulty", "coin", "counter", "cap", "writers", "tx", "vote", "fvote", "fvote with origins", "cert", "send", "order T", "order commit", "order end"]
    lines += ["see", "run", "close", "end", "turn", "show", "stop kept", "stop lost", "restart", "raw vote", "raw hold", "ack", "ack !", "final"]
    words = [*(f"input {it}:" for it in "naxoisr"), "argument gas", "argument iN", "argument rN", "argument rN.K", "mark ?", "mark !"]
    return [f"line {it}" for it in lines] + words + [f"command {it}" for it in ("split", "merge", "transfer", "vec", *NAMES)]


def wanted():
    """All that the tables name, in their order, but for what no schedule can bring about."""
    schedules_text, reports_text = manual.read(SCHEDULES), manual.read(REPORTS)
    found = forms() + [f"status {it}" for it in table(manual.read(COMMANDS), "Commands", "Status")]
    found += [f"refusal cause {it}" for it in re.findall(r"(?m)^### Cause (\d+):", schedules_text)]
    found += [f"report `{form}`" for form, shown in manual.rows(REPORTS).items() if shown != manual.NEVER and not form.endswith("..")]
    found += [f"{kind} {it}" for it in table(reports_text, "Shapes") for kind in ("invalid", "shape") if (kind, it) != ("invalid", "13")]
    found += [f"bytes why {it}" for it in table(reports_text, "Bytes", "W")] + [f"block cause {it}" for it in table(schedules_text, "Commands", "Cause")]
    for row in re.findall(r"(?m)^\| `(\w+)` \| .* \| .* \| (.*) \|$", schedules_text.split("### Natives")[1].split("## ")[0]):
        found += [f"native {row[0]} code {it}" for it in re.findall(r"(?:^|; )(\d) ", row[1])]
    return [it for it in found if it not in NEVER]


# `raw M vote: ..` stands for the answers of another line.
PATTERNS = {f"report `{form}`": manual.pattern(form) for form in manual.rows(REPORTS) if not form.endswith("..")}


def count(schedule, answer):
    """How often each of them came in one run."""
    report, found = answer.report.decode("latin-1"), Counter([f"status {answer.status}"])
    refused = re.fullmatch(r"refused line \d+ cause (\d+)\n", report)
    if refused:
        found[f"refusal cause {refused[1]}"] += 1
    else:
        found.update(of_lines(schedule))
    found.update({name: len(pattern.findall(report)) for name, pattern in PATTERNS.items()})
    found.update(f"bytes why {it}" for it in re.findall(r"(?m): malformed at \d+ why (\d+)$", report))
    found.update(f"{kind} {it}" for kind, it in re.findall(r"(?m)^\S+ \d+ \S+: (invalid|shape) (\d+)$", report))
    found.update(f"block cause {it}" for it in re.findall(r"(?m)^  \S+ failed at \d+ cause (\d+) ", report))
    found.update(aborts(schedule, report))
    return +found


def of_lines(schedule):
    """What the lines of a schedule are, and what is in them."""
    found = Counter()
    for line in schedules.lines_of(schedule):
        words = line.words
        second = {"member": words[2:3], "stop": words[2:3], "raw": words[2:3], "order": [words[1]] if words[1] == "commit" or line.is_order_end else ["T"]}.get(words[0], [])
        found[" ".join(["line", words[0], *second])] += 1
        if words[0] == "fvote" and len(words) > 3:
            found["line fvote with origins"] += 1
        if words[0] == "ack" and len(words) > 3:
            found["line ack !"] += 1
        if words[0] == "tx":
            found.update(of_tx(words))
    return found


def of_tx(words):
    found = [f"input {word[:2]}" for word in words[6:] if "(" not in word] + [f"command {word.split('(')[0]}" for word in words[6:] if "(" in word]
    for argument in re.findall(r"(?<=[(,])[a-z][\w.]*", " ".join(words[6:])):
        if argument.isalpha() and argument != "gas":
            continue  # the kind of a vector
        name = "gas" if argument == "gas" else re.sub(r"\d+", lambda it: "N" if it.start() == 1 else "K", argument)
        found.append(f"argument {name}")
    return found + ["mark ?"] * words[2].endswith("?") + ["mark !"] * (words[4].endswith("!") or any(word.endswith("!") for word in words[6:]))


def aborts(schedule, report):
    """The natives that aborted, with their codes: a transaction goes by the first line that made it."""
    done = re.findall(r"(?m)^  (\S+) aborted at (\d+) code (\d+) ", report)
    lines = {it.words[1]: it.words for it in schedules.lines_of(schedule) if it.word == "tx"} if done else {}
    for name, command, code in done:
        commands = [word for word in lines.get(name, []) if "(" in word]
        if commands:
            yield f"native {commands[int(command)].split('(')[0]} code {code}"


def listing(counts):
    """A line for each with how often it came, and at the end those that never did."""
    names = wanted()
    lines = [f"{counts.get(name, 0):8} {name}" for name in names]
    missing = [name for name in names if not counts.get(name)]
    return [*lines, *(f"not looked for: {name}: {why}" for name, why in NEVER.items()), f"of {len(names)}, never: {', '.join(missing) or 'none'}"]
