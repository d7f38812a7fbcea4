#!/usr/bin/env python3
"""Which causes, limits, pairs of causes and first ones of several the cases show, from the tables of the manual, and which they do not.

usage: conformance/tables.py            says for each table how many of it the cases have, and names what is missing
       conformance/tables.py --missing  says only what is missing and could be there; the exit status is 1 if something is

The orders are those that docs/REPORTS.md, docs/SCHEDULES.md and docs/COMMANDS.md state. A pair is shown where, in some case, both apply and
the first is named: the plain model of the rules runs each case of `run`, and is asked of each refusal what else would have applied. It reads
the chains of `check` too, and what a case of `check` wants must be what the model says. Which of several things a line names is in
conformance/firsts.py. Answers, causes and statuses are those that tools/hunt counts.
"""

import os
import re
import sys
from collections import Counter

sys.dont_write_bytecode = True
HERE = os.path.dirname(os.path.abspath(__file__))
TOP = os.path.dirname(HERE)
sys.path.insert(0, f"{TOP}/tools/lib")
import firsts
from hunting import coverage, running
from hunting.plain import chain, member, text, tx, wire, world
from hunting.plain.block import MOST, Block, Halt, Item, is_of_kind
from hunting.plain.natives import NATIVES
from hunting.plain.sequence import Admission


def read(path):
    with open(path, "rb") as it:
        return it.read()


def cases():
    """The schedules of `run`, by their names, and the answers that are wanted."""
    for folder, _, names in sorted(os.walk(HERE)):
        for name in sorted(it for it in names if it.endswith(".schedule")):
            at = f"{folder}/{name.removesuffix('.schedule')}"
            if not os.path.exists(f"{at}.args") and not os.path.exists(f"{at}.program"):
                yield os.path.relpath(at, HERE), read(f"{folder}/{name}"), running.Answer(int(read(f"{at}.status")), read(f"{at}.report"))


def chains():
    """The cases of `check`: the name, the stakes, the digest of the transaction, the bytes, and the status and the line that are wanted."""
    for name in sorted(it.removesuffix(".schedule") for it in os.listdir(f"{HERE}/check") if it.endswith(".schedule")):
        at = f"{HERE}/check/{name}"
        _, stakes, digest = read(f"{at}.args").decode().split()
        wanted = int(read(f"{at}.status")), read(f"{at}.report").decode().rstrip("\n")
        yield f"check/{name}", [int(it) for it in stakes.split(",")], bytes.fromhex(digest), read(f"{at}.schedule"), wanted


def orders():
    """The orders that the manual states: what they are of, and the answers in their order."""
    said = read(f"{TOP}/docs/REPORTS.md").decode()
    found = {}
    for heading, body in re.findall(r"(?ms)^## (.*?)\n(.*?)(?=^## |\Z)", said):
        for of, names in re.findall(r"(?:(?:of|for)(?: a| an)? `(\w+)`[^`.;]*?)?(?:in this |in the )order:? ((?:`[^`]+`[^`.;]*)+)", body):
            listed = re.findall(r"`([^`]+)`", names)
            if len(listed) > 1:
                found.setdefault(of or heading.strip("` ").split("`")[0], []).append(listed)
    return found


class Watch:
    """What the cases show: pairs by what they are of, values at limits, and which of several is told."""

    def __init__(self):
        self.pairs, self.limits, self.came, self.firsts, self.is_quiet = {}, set(), Counter(), firsts.Firsts(), False

    def note(self, of, applying):
        """These apply, in their order: the first is named."""
        for other in applying[1:]:
            self.pairs.setdefault(of, set()).add((applying[0], other))


def applies(call, *values):
    """Whether a case refuses; where it cannot even be asked it does not apply."""
    try:
        call(*values)
    except member.Refusal:
        return True
    except (AttributeError, KeyError, TypeError, IndexError):
        return False
    return False


def refusals_of_vote(it, data):
    """All refusals of a vote that apply, in the order of the manual."""
    found = ["halted"] * (it.halted is not None)
    try:
        value, seal = wire.decoded(wire.SIGNED, data)
    except wire.Malformed:
        return [*found, "malformed"]
    made = tx.Transaction(value)
    found += ["wrong epoch"] * (made.epoch != it.epoch) + ["again"] * (made.digest in it.votes) + ["closed"] * it.closed
    found += ["invalid"] * (tx.fault_of(made) is not None) + ["unsealed"] * (seal != wire.seal(("user", made.sender), made.bytes))
    for name, case in (("absent", it.absent), ("consumed", it.consumed), ("wrong digest", it.wrong_digest), ("wrong owner", it.wrong_owner), ("wrong kind", it.wrong_kind)):
        found += [name] * any(applies(case, made, named) for named in made.named)
    found += ["poor gas"] * applies(it.poor_gas, made)
    return found + ["locked"] * any(it.locks.get(key, made.digest) != made.digest for key in made.consumed)


def refusals_of_hold(it, data):
    """All refusals of a certificate that apply."""
    found = ["halted"] * (it.halted is not None)
    try:
        value, origins, seals = wire.decoded(wire.CERTIFICATE, data)
    except wire.Malformed:
        return [*found, "malformed"]
    made, total = tx.Transaction(value), sum(it.committee)
    numbers = [number for number, _ in seals]
    known = [number for number in numbers if number < len(it.committee)]
    found += ["wrong epoch"] * (made.epoch != it.epoch) + ["again"] * (made.digest in it.held) + ["closed"] * it.closed
    found += ["shape"] * (tx.fault_of(made) is not None or len(origins) != len(made.named))
    found += ["order"] * (numbers != sorted(set(numbers)) or len(known) < len(numbers)) + ["short stake"] * (3 * sum(it.committee[number] for number in set(known)) <= 2 * total)
    found += ["bad seal"] * bool(bad_seals(made, origins, seals))
    others = [held for held in it.held.values() if held.tx.digest != made.digest]
    return found + ["fork"] * any(key in held.tx.consumed for held in others for key in made.consumed)


def bad_seals(made, origins, seals):
    """The members of a certificate whose seals are not accepted."""
    statement = ("vote", made.epoch, made.digest, origins)
    return [number for number, seal in seals if seal != wire.member_seal(number, statement)]


class Watched(world.World):
    """The world of the plain model, which notes what applies before it answers."""

    def __init__(self, watch):
        super().__init__()
        self.watch = watch

    def hand_vote(self, head, number, data):
        seat = self.seats[number]
        if seat.member:
            refusals = refusals_of_vote(seat.member, data)
            self.watch.note("vote", refusals)
            try:
                made = tx.Transaction(wire.decoded(wire.SIGNED, data)[0])
                firsts.note_vote(self.watch.firsts, seat.member, made, next(iter(refusals), None), applies)
                self.watch.note("shapes", [str(it) for it in tx.faults_of(made)])
                self.note_sizes(made)
            except wire.Malformed:
                pass
        return super().hand_vote(head, number, data)

    def note_sizes(self, made):
        """How great a transaction is, beside the first fault of its shape."""
        fault, versions = tx.fault_of(made), [it.version for it in made.named]
        longest = max((len(tx.arguments(it)) for it in made.commands), default=0)
        for what, value in (("bytes", len(made.bytes)), ("commands", len(made.commands)), ("inputs", len(made.inputs)), ("arguments", longest), ("least version", min(versions)), ("version", max(versions))):
            self.watch.limits.add((what, value, fault))

    def hand_certificate(self, head, number, data):
        if self.seats[number].member:
            refusals = refusals_of_hold(self.seats[number].member, data)
            self.watch.note("send", refusals)
            if refusals[:1] == ["bad seal"]:
                value, *more = wire.decoded(wire.CERTIFICATE, data)
                firsts.note_seals(self.watch.firsts, bad_seals(tx.Transaction(value), *more))
        return super().hand_certificate(head, number, data)

    def do_send(self, number, name):
        if self.made[name].certificate is None:
            self.watch.note("send", ["no certificate"] + ["down"] * (self.seats[number].member is None) + ["halted"] * bool(self.seats[number].member and self.seats[number].member.halted))
        return super().do_send(number, name)

    def do_order(self, what, value):
        if what == "tx" and self.made[value].certificate is None:
            self.watch.note("order", ["no certificate"] + ["not taken"] * (self.made[value].tx.epoch != len(self.entries) - 1))
        return super().do_order(what, value)

    def collected(self, stated, members, thing):
        had = [stated[it] for it in members if it in stated]
        missing, short = len(had) < len(members), 3 * sum(self.stakes[it] for it in members) <= 2 * sum(self.stakes)
        of = "cert" if thing == "vote" else "final"
        self.watch.note(of, [f"no {thing}"] * missing + ["short"] * short + ["differ"] * any(it != had[0] for it in had))
        if missing or not short:
            firsts.note_collected(self.watch.firsts, of, thing, stated, members)
        return super().collected(stated, members, thing)

    def of_member(self, of, number, causes):
        it = self.seats[number].member
        if it:
            self.watch.note(of, ["halted"] * (it.halted is not None) + [name for name, holds in causes(it) if holds])

    def do_see(self, number, count):
        self.of_member("see", number, lambda it: [("nothing", it.seen >= len(self.entries[it.epoch]))])
        return super().do_see(number, count)

    def see_entry(self, seat, head, entry):
        it = seat.member
        if entry[0] == "certificate":
            made = member.Certificate(tx.Transaction(entry[1]), *entry[2:])
            held = it.held.get(made.tx.digest)
            self.watch.note("ignored", ["certificate"] * applies(it.check_certificate, made) + ["repeat"] * bool(held and held.placed))
        return super().see_entry(seat, head, entry)

    def do_close(self, number):
        self.of_member("close", number, lambda it: [("again", it.closed)])
        return super().do_close(number)

    def do_end(self, number):
        self.of_member("end", number, lambda it: [("not closed", not it.closed), ("waits", any(not held.placed for held in it.held.values()))])
        firsts.note_end(self.watch.firsts, self.seats[number].member)
        return super().do_end(number)

    def do_turn(self, number):
        firsts.note_turn(self.watch.firsts, self.seats[number].member)
        self.of_member("turn", number, lambda it: [("not ended", not it.ended), ("waits", any(not it.is_done(digest) for digest in it.admission.admitted))])
        return super().do_turn(number)

    def reference(self, it, version, spoiled):
        firsts.note_reference(self.watch.firsts, self, self.id_of(it), version)
        return super().reference(it, version, spoiled)

    def do_fvote(self, number, name, words):
        if not words:
            firsts.note_copied_vote(self.watch.firsts, self.roles, self.votes.get(self.made[name].tx.digest, {}))
        return super().do_fvote(number, name, words)

    def do_ack(self, number, name, spoiled):
        digest = self.made[name].tx.digest
        if self.seats[number] is None:
            firsts.note_copied_effects(self.watch.firsts, self, digest)
        else:
            self.of_member("ack", number, lambda it: [("not executed", not it.is_executed([digest]))])
        return super().do_ack(number, name, spoiled)


def watched_take(watch, take):
    """The taking of an argument, which notes all causes that apply to it."""

    def watched(self, argument, mode, kind=None, gives_gas=False):
        if not watch.is_quiet:
            watch.note("argument", causes_of(self, argument, mode, kind, gives_gas))
        return take(self, argument, mode, kind, gives_gas)

    return watched


def causes_of(block, argument, mode, kind, gives_gas):
    """All causes that apply to an argument, in the order in which they are tried."""
    try:
        place = block.place(argument)
    except Halt:
        return ["2"]
    value, taken = place.value, mode in ("value", "coins")
    if value is None:
        return ["1"] + ["5"] * (taken and place.access == "gas" and not gives_gas) + ["7"] * (place.named_by == block.at)
    if mode in ("number", "address"):
        return ["4"] if not isinstance(value, bytes) else ["3"] * (len(value) != (8 if mode == "number" else 32))
    lent = place.access in ("immutable", "s", "r") or (place.access == "gas" and not gives_gas)
    return ["4"] * (not is_of_kind(value, mode, kind)) + ["5"] * (taken and lent) + ["6"] * (mode == "mutable" and place.access in ("immutable", "r")) + ["7"] * (isinstance(value, Item) and place.named_by == block.at)


def modes_of(command):
    """How a command takes its arguments, in their order; and whether a native has another number of them."""
    name, *rest = command
    if name == "split":
        return [(rest[0], "mutable", "coin"), *((it, "number") for it in rest[1])], False
    if name == "merge":
        return [(rest[0], "mutable", "coin"), *((it, "value", "coin") for it in rest[1])], False
    if name == "transfer":
        return [*((it, "value", None, True) for it in rest[0]), (rest[1], "address")], False
    if name == "vec":
        return [(it, "value", rest[0][0]) for it in rest[1]], False
    modes = NATIVES[rest[0]].modes
    return [(it, *mode) for it, mode in zip(rest[1], modes)], len(modes) != len(rest[1])


def causes_of_each(block, taken):
    """All causes that apply to each argument of a command, if those before it are taken that are not at fault; nothing is changed."""
    found, named = [], {}
    for it in taken:
        argument, mode, kind, gives_gas = (*it, None, None)[:4]
        found.append(causes_of(block, argument, mode, kind, gives_gas))
        if not found[-1] and mode not in ("number", "address"):
            place = block.place(argument)
            named.setdefault(id(place), (place, place.named_by))
            place.named_by = block.at
    for place, before in named.values():
        place.named_by = before
    return found


def whole_of(block, command, good):
    """What applies to a whole command by those of its arguments that are not at fault: causes, or the codes of a native."""
    values = [block.place(it[0]).value for it in good]
    if command[0] == "split":
        balance = values[0].content[2] if good and good[0][1] == "mutable" else MOST
        return ["8"] * (sum(int.from_bytes(it, "little") for it in values if isinstance(it, bytes)) > balance)
    if command[0] == "merge" and good and good[0][1] == "mutable":
        (_, currency, balance), withheld = values[0].content, block.tx.budget if block.place(good[0][0]) is block.gas else 0
        return ["10"] * any(it.content[1] != currency for it in values[1:]) + ["9"] * (balance + withheld + sum(it.content[2] for it in values[1:]) > MOST)
    return codes_of(NATIVES[command[1]].name, [it for it in values if not isinstance(it, bytes)], [int.from_bytes(it, "little") for it in values if isinstance(it, bytes)]) if command[0] == "call" else []


def codes_of(name, values, numbers):
    """All codes of a native that apply to what it was handed: to items or vectors, and to numbers, as many as there are."""
    contents = [it.content for it in values if isinstance(it, Item)]
    if name == "coin_burn" and len(contents) == 2:
        return ["1"] * (contents[0][1] != contents[1][1]) + ["2"] * (contents[0][2] < contents[1][2])
    if name == "coin_join_all" and values:
        items = values[0][1]
        return ["1"] * (not items) + ["2"] * (len({it.content[1] for it in items}) > 1) + ["3"] * (sum(it.content[2] for it in items) > MOST)
    if name == "vault_deposit" and len(contents) == 2:
        return ["1"] * (contents[0][1] != contents[1][1]) + ["2"] * (contents[0][2] + contents[1][2] > MOST)
    if name == "vault_withdraw" and len(contents) == 2:
        return ["1"] * (contents[1] != ("key", values[0].id)) + ["2"] * bool(numbers and contents[0][2] < numbers[0])
    if name == "share" and values:
        return ["1"] * (values[0].number is None) + ["2"] * (contents[0][0] not in ("counter", "vault"))
    if name == "counter_add_limited" and contents and numbers:
        total = contents[0][1] + numbers[0]
        return ["1"] * (total > MOST) + ["2"] * (len(contents) == 2 and total > contents[1][1])
    return []


def note_command(watch, block, command):
    """What applies to a command: from left to right, then as a whole; of a native first the number of its arguments."""
    taken, is_miscounted = modes_of(command)
    found = causes_of_each(block, taken)
    if is_miscounted:
        watch.note("native", ["11", *dict.fromkeys(it for them in found for it in them)])
        return
    told = [them[0] for them in found if them]
    whole = whole_of(block, command, [it for it, them in zip(taken, found) if not them])
    watch.note("arguments", told)
    if told and whole:
        watch.note("command", [told[0], *(["code"] if command[0] == "call" else whole)])
    elif whole:
        watch.note(f"native {NATIVES[command[1]].name}" if command[0] == "call" else "command", whole)


def watched_run(watch, name, original):
    """A command that is noted before it runs."""

    def run(self, *values):
        note_command(watch, self, (name, *values))
        return original(self, *values)

    return run


def causes_of_text(watch, data):
    """The causes against the first bad line of a text."""
    try:
        text.read(data)
        return True
    except text.Refused as refused:
        found = refused
    reader, lines = text.Reader(), data.split(b"\n")
    for line in lines[: max(found.line - 1, 0)]:
        if line and not line.startswith(b"#"):
            reader.line(line)
    if found.line:
        line = lines[found.line - 1]
        clean = bytes(it for it in line if 0x20 <= it <= 0x7E)
        event, cause = reader.line(clean)
        causes = sorted({*([3] if clean != line else []), *([cause] if cause else []), *reader.causes})
        watch.note("refused", [str(it) for it in causes])
        firsts.note_text(watch.firsts, reader, lines, found.line, found.cause)
        watch.limits.add(("text", line.decode("latin-1"), found.cause))
    else:
        watch.note("refused", [str(found.cause)])
    return False


def watching(watch):
    """What the calls of the model are replaced by, so that they note what they do: the class, the name and the call."""
    originals = {it: getattr(Block, it) for it in ("run", "take", "split", "merge", "transfer", "vec", "call")}
    yield Block, "run", firsts.watched_block(watch, originals)
    yield Block, "take", watched_take(watch, originals["take"])
    yield from ((Block, name, watched_run(watch, name, originals[name])) for name in list(originals)[2:])
    calls = {it: getattr(member.Member, it) for it in ("run", "built", "see", "turn", "take")}
    yield from ((member.Member, name, call) for name, call in firsts.watched_member(watch.firsts, calls).items())
    yield Admission, "settle", firsts.watched_settle(watch.firsts, Admission.settle)


def watched():
    """What all cases show, and the lines of those that are schedules."""
    watch, taken = Watch(), set()
    replaced = [(of, name, getattr(of, name), call) for of, name, call in watching(watch)]
    for of, name, _, call in replaced:
        setattr(of, name, call)
    for _, data, report in cases():
        watch.came.update(coverage.count(data, report))
        if causes_of_text(watch, data):
            taken.update(data.decode("latin-1").split("\n"))
            it = Watched(watch)
            for event in text.read(data):
                it.step(event)
    for of, name, original, _ in replaced:
        setattr(of, name, original)
    for _, stakes, digest, data, _ in chains():
        try:
            links = wire.decoded(chain.CHAIN, data)
        except wire.Malformed:
            continue
        bad = chain.first_bad(stakes, links)
        if bad:
            watch.note("check", [str(it) for it in bad[1]])
        firsts.note_chain(watch.firsts, stakes, digest, links)
    return watch, taken


# The limits of the manual's table: what is last taken, and what is first refused. Each is looked for in a line, or in the size of a transaction.
def in_line(pattern):
    return lambda watch, taken: any(re.search(pattern, line) for line in taken)


def refused(cause, pattern):
    return lambda watch, taken: any(what == "text" and fault == cause and re.search(pattern, line) for what, line, fault in watch.limits)


def size(what, value, fault=None):
    """A transaction of this size whose first fault is this one; or, of what is taken, none at all or one behind."""
    return lambda watch, taken: any((name, had) == (what, value) and (found == fault or (fault is None and found is None)) for name, had, found in watch.limits)


GREAT, NEXT = r"18446744073709551615", r"18446744073709551616"
LIMITS = {
    "members": [in_line(r"^vote 63 "), refused(7, "^member ")],
    "stake of a member": [in_line("^member 1 "), in_line("^member 4294967295 "), refused(5, "^member 0 "), refused(5, "^member 4294967296 ")],
    "characters of a name": [in_line(r"^coin [a-z]{16} "), in_line(r"^tx [a-z]{16} "), refused(4, r"^coin \w+ \w{17} |^c\w+ \w{17} "), refused(4, r"^tx \w{17} ")],
    "a number": [in_line(rf"^coin \w+ \w+ {GREAT}"), in_line(rf"^counter \w+ {GREAT}"), in_line(rf" n:{GREAT}"), in_line(rf"^tx \w+ \w+ {GREAT} \S+ {GREAT} "), refused(5, rf"^coin \w+ \w+ {NEXT}"), refused(5, rf"^counter \w+ {NEXT}"), refused(5, rf" n:{NEXT}"), refused(5, rf"^tx \w+ \w+ {NEXT} "), refused(5, rf"@{NEXT} "), refused(5, rf"@1 {NEXT}$")],
    "input, result and command numbers in arguments": [in_line(r"\(i65535\)"), in_line(r"\(r65535\)"), in_line(r"\(r65535\.65535\)"), refused(5, r"\(i65536\)"), refused(5, r"\(r65536\)"), refused(5, r"\(r65536\.0\)"), refused(5, r"\(r0\.65536\)")],
    "workers of a run": [in_line(r"^run \d+ 1$"), in_line(r"^run \d+ 16$"), refused(5, r"^run \d+ 0$"), refused(5, r"^run \d+ 17$")],
    "entries of a `see` line": [in_line(r"^see \d+ 1$"), in_line(r"^see \d+ 4294967295$"), refused(5, r"^see \d+ 0$"), refused(5, r"^see \d+ 4294967296$")],
    "writers of a shared object between two marks": [in_line("^writers 1$"), in_line("^writers 65535$"), refused(5, "^writers 0$"), refused(5, "^writers 65536$")],
    "commands of a transaction": [size("commands", 1024), size("commands", 1025, 3)],
    "inputs": [size("inputs", 256), size("inputs", 257, 4)],
    "arguments of one command": [size("arguments", 512), size("arguments", 513, 12)],
    "bytes of a transaction": [size("bytes", 131_072), size("bytes", 131_073, 1)],
    "a version that a reference names": [size("least version", 1), size("version", tx.BOUND - 2), size("least version", 0, 11), size("version", tx.BOUND - 1, 11)],
    "currency of a cap": [in_line(r"^cap \w+ \w+ 1$"), in_line(rf"^cap \w+ \w+ {GREAT}"), refused(5, r"^cap \w+ \w+ 0$"), refused(13, "^cap ")],
}
GREAT_CAUSES = ("refusal cause 1", "refusal cause 8")
TOO_GREAT = {"bytes of a schedule": "the text has 16 MiB", "`tx` lines": "the text has 65,535 lines; docs/SCHEDULES.md has it as an example"}


def limits(watch, taken):
    """What is missing of the limits in the manual's table."""
    part = read(f"{TOP}/docs/SCHEDULES.md").decode().split("\n## Limits\n")[1].split("\n## ")[0]
    named = re.findall(r"(?m)^\| (?!What)([^|-][^|]*?) \| ", part)
    missing = [f"limit `{name}`: is in no list of conformance/tables.py" for name in named if name not in LIMITS and name not in TOO_GREAT]
    for name, wanted in LIMITS.items():
        missing += [f"limit of {name}: number {place + 1} of {len(wanted)} is in no case" for place, holds in enumerate(wanted) if not holds(watch, taken)]
    return missing, sum(map(len, LIMITS.values()))


# Of the pairs that an order states, those that cannot come or that no case is made for, with the reason.
SAME = "what was voted for had a right shape, was there, and was the sender's"
VALID = "a fork is of valid certificates"
LINES = "the text has 65,536 lines"
NOT_BOTH = {
    "vote": {("wrong epoch", "again"): "votes are forgotten at a turn", **{("again", it): SAME for it in ("invalid", "absent", "wrong digest", "wrong owner", "wrong kind", "poor gas", "locked")}},
    "send": {
        ("wrong epoch", "again"): "certificates are forgotten at a turn", ("again", "fork"): "what is held makes no fork",
        **{(it, "fork"): VALID for it in ("shape", "order", "short stake", "bad seal")},
        **{("no certificate", it): "there is none to look at" for it in ("wrong epoch", "again", "closed", "shape", "order", "short stake", "bad seal", "fork")},
    },
    "shapes": {
        **{("2", it): "without commands" for it in ("3", "6", "7", "8", "9", "12")},
        ("1", "9"): "a native that is none comes in bytes alone, two digits each",
    },
    "refused": {
        **{(it, "8"): LINES for it in "34567"}, **{("8", it): LINES for it in ("9", "10", "11", "12", "13")}, **{("4", it): "what has no form is read no further" for it in ("6", "7", "9", "10", "11", "12", "13")},
        **{("7", it): "the line of a member names nothing" for it in ("9", "10", "11", "12", "13")},
        **{("6", it): "a line of the set-up names nothing that was made" for it in ("10", "11", "12")}, ("9", "11"): "no line has both", ("9", "12"): "no line has both",
        ("11", "12"): "one number is one of the two", ("12", "13"): "where members are listed both roles may stand",
    },
    "argument": {
        **{("2", it): "a result that is none has no value" for it in ("1", "4", "5", "6", "7")}, **{("1", it): "a place that is used up has no value" for it in ("4", "5", "6", "7")},
        ("5", "6"): "one argument is taken in one way", ("6", "7"): "what is changed is a command's first argument",
    },
}
OUT = ("full", "malformed", "down", "said", "entry", "final", "closed")


def wanted_pairs():
    """For each order the pairs that it states and that can come."""
    stated, found = orders(), {}
    lists = {"vote": stated["vote"][0], "send": stated["send"][0], "order": stated["order"][0], "see": stated["see"][0], "ignored": ["certificate", "repeat"], "cert": ["no vote", "short", "differ"]}
    lists.update({"close": stated["close"][0], "end": stated["end"][0], "turn": stated["turn"][0], "ack": stated["ack"][0], "final": stated["final"][0]})
    lists["shapes"] = [str(it) for it in range(1, 13)]
    lists["refused"] = [str(it) for it in range(3, 14)]
    lists["argument"] = ["2", "1", "4", "5", "6", "7"]
    lists["check"] = re.findall(r"(?m)^\| (\d) \|", read(f"{TOP}/docs/COMMANDS.md").decode().split("| Cause | The link |")[1].split("```")[0])
    for of, names in lists.items():
        kept = [it for it in names if it not in OUT or (it == "closed" and of in ("vote", "send"))]
        pairs = [(one, other) for place, one in enumerate(kept) for other in kept[place + 1 :]]
        found[of] = [it for it in pairs if it not in NOT_BOTH.get(of, {})]
    return {**found, **of_commands()}


def of_commands():
    """The pairs of two arguments of a command, the left one told; of one argument and the whole command; of the number of a native's arguments; of the codes of a native."""
    found = {"arguments": [(one, other) for one in "213456" for other in "213457" if one != other and (one, other) not in (("3", "5"), ("3", "7"))]}
    found["command"] = [*((it, "8") for it in "2134"), *((it, whole) for whole in ("10", "9") for it in "21457"), ("10", "9"), *((it, "code") for it in "2134")]
    found["native"] = [("11", it) for it in "213456"]
    for name in ("coin_burn", "vault_deposit", "vault_withdraw", "share", "counter_add_limited"):
        found[f"native {name}"] = [("1", "2")]
    return {**found, "native coin_join_all": [("2", "3")]}


def answers(watch):
    """What the tables of the manual name and no case has; and how much they name."""
    names = [it for it in coverage.wanted() if it not in GREAT_CAUSES]
    return [f"`{name}` is in no case" for name in names if not watch.came[name]], len(names)


def misread(watch):
    """The cases of `check` and of `inspect chain` of which the plain model says something else."""
    for name, stakes, digest, data, wanted in chains():
        had = chain.check(stakes, digest, data)
        if had != wanted:
            yield f"{name}: the plain model says {had}, and the case {wanted}"
    for name in sorted(it.removesuffix(".args") for it in os.listdir(f"{HERE}/inspect") if it.endswith(".args")):
        what, *words = read(f"{HERE}/inspect/{name}.args").decode().split()
        if what == "chain" and read(f"{HERE}/inspect/{name}.status") in (b"0\n", b"8\n"):
            said = firsts.note_sealed(watch.firsts, read(f"{HERE}/inspect/{name}.schedule"), int(words[0]), [int(it) for it in words[1].split(",")])
            status, report = (b"8\n", f"{said}\n".encode()) if said else (b"0\n", read(f"{HERE}/inspect/{name}.report"))
            if (status, report) != (read(f"{HERE}/inspect/{name}.status"), read(f"{HERE}/inspect/{name}.report")):
                yield f"inspect/{name}: the plain model says {said}"


def main(words):
    if words not in ([], ["--missing"]):
        print(__doc__, end="", file=sys.stderr)
        return 2
    watch, taken = watched()
    (missing, count), (unseen, named), wrong = limits(watch, taken), answers(watch), list(misread(watch))
    untold = list(watch.firsts.missing())
    lines = [f"answers, causes and statuses: {named - len(unseen)} of {named}", f"limits: {count - len(missing)} of {count}", *(f"limit `{name}`: not tried: {why}" for name, why in TOO_GREAT.items())]
    for of, pairs in wanted_pairs().items():
        absent = [it for it in pairs if it not in watch.pairs.get(of, ())]
        without = NOT_BOTH.get(of, {})
        lines.append(f"pairs of {of}: {len(pairs) - len(absent)} of {len(pairs)}{f'; {len(without)} cannot come, or none is made' if without else ''}")
        missing += [f"pair of {of}: `{one}` before `{other}` is in no case" for one, other in absent]
    lines.append(f"first of several: {firsts.count() - len(untold)} of {firsts.count()}")
    missing += [*untold, *unseen, *wrong]
    print("\n".join(missing if words else [*lines, *missing]))
    return 1 if words and missing else 0


if __name__ == "__main__":
    sys.exit(main(sys.argv[1:]))
