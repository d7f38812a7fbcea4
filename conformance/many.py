#!/usr/bin/env python3
"""Writes the cases of 200 transactions that a member executes with 1, 4 and 16 workers: the schedules of generate.py, and one report.

Written from the rules alone, apart from the program: what each kind of transaction votes, writes and costs is worked out here.

usage: conformance/many.py --write   writes the cases
       conformance/many.py --check   writes nothing, and says which of their files are not as it would write them, one line each
"""

import os
import sys

sys.dont_write_bytecode = True
import generate

HERE = os.path.dirname(os.path.abspath(__file__))
NUMBER = 200
WORKERS = (1, 4, 16)
MEMBERS = range(4)
VOTERS = range(3)
MARK = 64
# The four kinds take turns: a split, a transfer of what it made, a write of the counter and a read of it.
SPLIT, MOVE, WRITE, READ = range(4)


def kind(k):
    return k % 4


def origins(k):
    """The origins that a vote names: of the coin that pays none, and of the second object the split before if that made it."""
    return {SPLIT: "-", MOVE: f"- t{k - 1}", WRITE: "- -", READ: "- -"}[kind(k)]


def version(k):
    """One more than the greatest version among the objects: coins have 1, a split's coin 2; the counter has 1, and one more by each write."""
    writes_before = k // 4 + (kind(k) == READ)
    return {SPLIT: 2, MOVE: 3}.get(kind(k), 1 + 1 + writes_before)


def gas(k):
    """1000, and 100 for each command."""
    return 1200 if kind(k) == SPLIT else 1100


def needs(k):
    """What must be executed before: for a transfer the split, for a write the write before, for a read the write that it follows."""
    before = {SPLIT: -1, MOVE: k - 1, WRITE: k - 4, READ: k - 1}[kind(k)]
    return [before] if before >= 0 else []


def rounds(held, executed):
    """What a run executes, in order: in each round all that is ready, in the order in which it came."""
    executed, order = set(executed), []
    while True:
        ready = [k for k in held if k not in executed and all(it in executed for it in needs(k))]
        if not ready:
            return order
        executed.update(ready)
        order += ready


def run(member, held, executed=()):
    order = rounds(held, executed)
    yield f"run {member}: executed {len(order)}"
    for k in order:
        yield f"  t{k} done v{version(k)} gas {gas(k)}"


def checkpoint(number, first, after, tail=""):
    return f"  checkpoint {number}:" + "".join(f" t{k}" for k in range(first, after)) + tail


def made():
    """The transactions are made, voted for and certified; the splits are sent to the three voters and executed."""
    for k in range(NUMBER):
        yield f"tx t{k}: made"
        for member in VOTERS:
            yield f"vote {member} t{k}: voted {origins(k)}"
        yield f"cert t{k}: formed by 0 1 2"
        if kind(k) == SPLIT:
            for member in VOTERS:
                yield f"send {member} t{k}: held"
                yield from run(member, [k])


def entries():
    """The entries of the sequence before the Ends: a transaction, or None for a mark."""
    return [it for k in range(NUMBER) for it in ([k, None] if (k + 1) % MARK == 0 else [k])]


def seen(member):
    for place, k in enumerate(entries()):
        yield f"see {member} entry {place}: " + ("commit" if k is None else f"admitted t{k}")


def executed():
    """All is ordered, seen and executed; the run that completes the checkpoints of the marks builds them."""
    for place, k in enumerate(entries()):
        yield f"order {'commit' if k is None else f't{k}'}: entry {place}"
    splits = [k for k in range(NUMBER) if kind(k) == SPLIT]
    others = [k for k in range(NUMBER) if kind(k) != SPLIT]
    for member in (3, 0, 1, 2):
        yield from seen(member)
        yield from run(member, range(NUMBER)) if member == 3 else run(member, splits + others, splits)
        for number in range(NUMBER // MARK):
            yield checkpoint(number, number * MARK, number * MARK + MARK)


def ended():
    """Three members say their Ends, which all see; the last of them cuts what is left."""
    place, last = len(entries()), NUMBER // MARK
    for member in VOTERS:
        yield from [f"close {member}: closed", f"end {member}: said", f"order end {member}: entry {place + member}"]
    for member in MEMBERS:
        for other in VOTERS:
            yield f"see {member} entry {place + other}: end of {other} weight {other + 1} of 4" + (", epoch ended" if other == 2 else "")
        yield checkpoint(last, last * MARK, NUMBER, " last")
        yield f"turn {member}: epoch 1 reverted 0"


def shown():
    """The coins that paid, the counter with one more for each write, and the coins of 5, which went from u1 on to u0."""
    splits = [k for k in range(NUMBER) if kind(k) == SPLIT]
    yield f"show 0: epoch 1 objects {NUMBER + 1 + len(splits)}"
    for k in range(NUMBER):
        rest = 1000000 - gas(k) - (5 if kind(k) == SPLIT else 0)
        yield f"  g{k} v{version(k)} u{1 if kind(k) == MOVE else 0} coin 0 {rest}"
    writes = [k for k in range(NUMBER) if kind(k) == WRITE]
    yield f"  c0 v{version(writes[-1])} shared 1 counter {len(writes)}"
    for k in splits:
        yield f"  t{k}.0 v3 u0 coin 0 5"


def text(lines):
    return "".join(f"{line}\n" for line in lines)


def files():
    """The files of the cases, by their paths."""
    report = text([*made(), *executed(), *ended(), *shown()])
    for workers in WORKERS:
        name = f"execution/two-hundred-with-{workers}-worker{'s' if workers > 1 else ''}"
        about = f"200 transactions, of which 100 name one counter, are executed with {workers} worker{'s' if workers > 1 else ''}: the report is the same for 1, 4 and 16."
        rules = "run.done run.rounds run.same shared.assigned checkpoint.built checkpoint.same checkpoint.last turn.turned"
        yield from {
            f"{name}.schedule": text(generate.lines(NUMBER, workers)),
            f"{name}.report": report,
            f"{name}.status": "0\n",
            f"{name}.about": f"{about}\nrules: {rules}\n",
        }.items()


def main(words):
    if words not in (["--write"], ["--check"]):
        print(__doc__, end="", file=sys.stderr)
        return 2
    wrong = 0
    for path, wanted in files():
        if words == ["--write"]:
            with open(f"{HERE}/{path}", "w", encoding="utf-8") as it:
                it.write(wanted)
        elif not os.path.exists(f"{HERE}/{path}") or open(f"{HERE}/{path}", encoding="utf-8").read() != wanted:
            wrong += 1
            print(f"{path} is not as many.py writes it")
    return wrong > 0


if __name__ == "__main__":
    sys.exit(main(sys.argv[1:]))
