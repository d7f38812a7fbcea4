"""Lines that name one of several things that apply: which one is told, and what a program would tell that took another one.

A case shows that the first is named only if another order would tell something else there. FIRSTS says for each such line where the manual
or rules.txt states its order, and which other orders a case must refute: tables.py runs the cases and looks which of them it did.
"""

import os

from hunting.plain import chain, text, world
from hunting.plain.block import Halt
from hunting.plain.member import refuse

TOP = os.path.dirname(os.path.dirname(os.path.abspath(__file__)))
CAUSES = ("absent", "consumed", "wrong digest", "wrong owner", "wrong kind")
OBJECTS = ("the last", "an input before the gas coin", "the least id", "the greatest id")
OF_VOTES = "Within one of them the first object counts, the gas coin before the inputs."
COLLECTED = ("the last", "beside the member before it")
FIRSTS = {
    **{f"vote {it}": (OF_VOTES, OBJECTS) for it in (*CAUSES, "locked")},
    "object of a vote": ("The answer is the first line that applies, in this order:", [f"{other} of an earlier object before {one}" for place, one in enumerate(CAUSES) for other in (*CAUSES[place + 1 :], "locked")]),
    "cert no vote": ("member M made no vote for T; M is the first such", ["the last"]),
    "cert differ": ("A is the first member of the line, and B the first that named other origins", COLLECTED),
    "final no ack": ("member M has not acknowledged T in T's epoch; M is the first such", ["the last"]),
    "final differ": ("A is the first member of the line, and B the first that acknowledged other effects", COLLECTED),
    "send bad seal": ("of several such members the first is named", ["the last"]),
    "fork": ("The fork names the first version that the second certificate consumes and an earlier one consumed", (*OBJECTS, "the certificate that came first")),
    "run executed": ("in rounds: what was ready, in the order in which certificates came, then what that made ready", ("the last", "as soon as it is ready", "the least digest")),
    "run left": ("then those that can never be executed (`absent`, `unfit`), in the order in which their certificates came", ("the last", "the least digest")),
    "run absent": ("of several such versions the first is named", ["the last"]),
    "see pending": ("T waits in the sequence for T2, the first of its origins that is not admitted", ("the last", "the least digest", "the first in the sequence")),
    "see deferred": ("OBJ is the first such object of T", ("the last", "the least id", "the greatest id")),
    "see admitted": ("one at a time, the first in the sequence of those that waited", ("the order of the sequence", "one pass after another", "the least digest")),
    "checkpoint": ("becomes a checkpoint, in the order of admission", ("the order in which certificates came", "the order of execution", "the least digest")),
    "end waits": ("T is the first such certificate that came", ("the last", "the least digest")),
    "turn waits": ("T is the first such in the order of admission", ("the last", "the order in which certificates came", "the least digest")),
    "turn reverted": ("the oldest comes first", ("the newest first", "the order in which certificates came", "the least digest")),
    "reference": ("at the lowest-numbered honest member that is up and holds that version", ("the last", "the lowest-numbered honest member")),
    "fvote": ("the last vote for T of the lowest-numbered honest member that voted for it", ("the last", "the member that voted first")),
    "ack of a faulty member": ("the lowest-numbered honest member that is up and executed T in its present epoch", ["the lowest-numbered honest member"]),
    "refused line": ("Otherwise L is the first bad line, and C the least cause that applies to it.", ("the last", "the least cause")),
    "command of a block": ("Commands run in order, all or none.", ("the last", "the least cause")),
    "check link": ("the first bad link, counted from 0, and its first cause", ("the last", "the least cause")),
    "check included": ("K is the number of the first checkpoint that lists the transaction", ["the last"]),
    "inspect chain": ("K is the first of MEMBERS that has not built every checkpoint that M has", ("the last", "the member that built least")),
}


class Firsts:
    """What the cases show: for each line the other orders that would have told something else."""

    def __init__(self):
        self.shown = {}

    def note(self, of, told, others):
        self.shown.setdefault(of, set()).update(name for name, other in others.items() if other != told)

    def note_objects(self, of, several):
        """Of several objects of a transaction, by their references in its order."""
        inputs = [it for it in several if it.how != "gas"]
        others = {"the last": several[-1], "an input before the gas coin": (inputs or several)[0], **by_id(several, lambda it: it.id)}
        self.note(of, several[0], others)

    def missing(self):
        """The orders that are stated nowhere, and those that no case refutes."""
        stated = stated_orders()
        for of, (sentence, others) in FIRSTS.items():
            if sentence not in stated:
                yield f"first of {of}: neither the manual nor rules.txt says `{sentence}`"
            yield from (f"first of {of}: no case tells it from `{it}`" for it in others if it not in self.shown.get(of, ()))


def stated_orders():
    found = ""
    for name in ("docs/SCHEDULES.md", "docs/REPORTS.md", "docs/COMMANDS.md", "conformance/rules.txt"):
        with open(f"{TOP}/{name}", encoding="utf-8") as it:
            found += it.read()
    return found


def count():
    return sum(len(others) for _, others in FIRSTS.values())


def by_id(several, id_of):
    return {"the least id": min(several, key=id_of), "the greatest id": max(several, key=id_of)}


# Votes and certificates.


def note_vote(firsts, it, made, told, applies):
    """Which object a refusal of a vote names, and which one it would name if all were asked of one object before the next."""
    cases = {"absent": it.absent, "consumed": it.consumed, "wrong digest": it.wrong_digest, "wrong owner": it.wrong_owner, "wrong kind": it.wrong_kind}
    cases["locked"] = lambda made, named: refuse(named.how in ("gas", "owned") and it.locks.get((named.id, named.version), made.digest) != made.digest, "locked")
    if told not in cases:
        return
    firsts.note_objects(f"vote {told}", [named for named in made.named if applies(cases[told], made, named)])
    first = next((name for named in made.named for name in cases if applies(cases[name], made, named)), told)
    firsts.note("object of a vote", told, {f"{first} of an earlier object before {told}": first})


def note_collected(firsts, of, thing, stated, members):
    """Which member a `cert` or `final` line names that has said nothing, or something else than the first."""
    silent = [it for it in members if it not in stated]
    if silent:
        firsts.note(f"{of} no {thing}", silent[0], {"the last": silent[-1]})
        return
    differing = [(members[0], it) for it in members if stated[it] != stated[members[0]]]
    if differing:
        place = members.index(differing[0][1])
        firsts.note(f"{of} differ", differing[0], {"the last": differing[-1], "beside the member before it": (members[place - 1], members[place])})


def note_seals(firsts, bad):
    """The members of a certificate whose seals are not accepted, if nothing comes before that."""
    firsts.note("send bad seal", bad[0], {"the last": bad[-1]})


def note_fork(firsts, it, made):
    """Which version a fork names, and by which certificate that is held, which came in this order."""
    holder = {key: held for held in reversed(it.held.values()) for key in held.tx.consumed}
    several = [named for named in made.named if named.how in ("gas", "owned") and (named.id, named.version) in holder]
    if several and made.digest not in it.held:
        firsts.note_objects("fork", several)
        earliest = next(held for held in it.held.values() if held in [holder[named.id, named.version] for named in several])
        firsts.note("fork", holder[several[0].id, several[0].version], {"the certificate that came first": earliest})


# Execution and the sequence.


def note_run(firsts, it, done, left):
    """In which order transactions were executed, and which are left."""
    order = [tx.digest for tx, _, _ in done]
    makers = {digest: {maker for _, maker in it.wants(it.held[digest])} for digest in order}
    firsts.note("run executed", order, {"the last": by_rounds(order, makers, it.held, reversed), "as soon as it is ready": at_once(order, makers, it.held), "the least digest": by_rounds(order, makers, it.held, sorted)})
    named = [digest for digest, _ in left]
    firsts.note("run left", named, {"the last": named[::-1], "the least digest": sorted(named)})
    for digest, key in left:
        if key:
            missing = [key for key, maker in it.wants(it.held[digest]) if it.store.get(key) is None or it.store.get(key).producer != maker]
            firsts.note("run absent", missing[0], {"the last": missing[-1]})


def by_rounds(order, makers, held, arranged):
    """What is executed in rounds if those of one round come in another order."""
    found, waiting = [], [it for it in held if it in makers]
    while waiting:
        left = set(waiting)
        ready = [it for it in waiting if not makers[it] & left]
        if not ready:
            return order
        found += arranged(ready)
        waiting = [it for it in waiting if makers[it] & left]
    return found


def at_once(order, makers, held):
    """What is executed if always the first that is ready comes next."""
    found, waiting, left = [], [it for it in held if it in makers], set(makers)
    while waiting:
        first = next((it for it in waiting if not makers[it] & left), None)
        if first is None:
            return order
        waiting.remove(first)
        left.remove(first)
        found.append(first)
    return found


def note_waits(firsts, it, what):
    """What an entry that was not admitted is said to wait for."""
    certificate = next((waiting for waiting in it.admission.pending if what[1:2] == (waiting.tx.digest,)), None)
    if what[0] == "pending":
        origins = [origin for origin in certificate.origins if origin is not None and origin not in it.admission.admitted]
        placed = [held.tx.digest for held in it.admission.pending if held.tx.digest in origins]
        firsts.note("see pending", origins[0], {"the last": origins[-1], "the least digest": min(origins), "the first in the sequence": (placed or origins)[0]})
    elif what[0] == "deferred":
        full = [named.id for named in certificate.tx.shared if named.how == "s" and it.admission.writers.get(named.id, 0) >= it.limit]
        firsts.note("see deferred", full[0], {"the last": full[-1], **by_id(full, lambda id: id)})


def note_admitted(firsts, admission, before, admitted):
    """In which order those are admitted that waited; `before` are those that stood in the sequence, in its order."""
    waiting = [it for it in before if it.tx.digest in admitted]
    found = {"the order of the sequence": [it.tx.digest for it in waiting], "the least digest": sorted(admitted)}
    passes, left = [], list(waiting)
    while left and admission.limit is None:
        for it in list(left):
            if not {origin for origin in it.origins if origin is not None} & {other.tx.digest for other in left}:
                left.remove(it)
                passes.append(it.tx.digest)
    firsts.note("see admitted", admitted, {**found, "one pass after another": passes if admission.limit is None else admitted})


def note_built(firsts, it, built):
    """In which order a checkpoint has its transactions."""
    executed = [digest for digest, _, _ in it.store.changes]
    for _, txs, _ in built:
        firsts.note("checkpoint", txs, {"the order in which certificates came": [held for held in it.held if held in txs], "the order of execution": [digest for digest in executed if digest in txs], "the least digest": sorted(txs)})


def note_end(firsts, it):
    """Which certificate an End waits for."""
    several = [held.tx.digest for held in it.held.values() if not held.placed] if it and it.closed and not it.halted else []
    if several:
        firsts.note("end waits", several[0], {"the last": several[-1], "the least digest": min(several)})


def note_turn(firsts, it):
    """Which transaction a turn waits for."""
    several = [digest for txs, _ in it.cuts for digest in txs if not it.is_done(digest)] if it and it.ended and not it.halted else []
    if several:
        came = next(digest for digest in it.held if digest in several)
        firsts.note("turn waits", several[0], {"the last": several[-1], "the order in which certificates came": came, "the least digest": min(several)})


def note_reverted(firsts, held, reverted):
    """In which order a turn takes back; `held` are the certificates in the order in which they came."""
    came = [digest for digest in held if digest in reverted]
    firsts.note("turn reverted", reverted, {"the newest first": reverted[::-1], "the order in which certificates came": came, "the least digest": sorted(reverted)})


def watched_member(firsts, original):
    """The calls of a member that note in which order they name what they name."""

    def run(self):
        done, left = original["run"](self)
        note_run(firsts, self, done, left)
        return done, left

    def built(self):
        found = original["built"](self)
        note_built(firsts, self, found)
        return found

    def see(self, entry):
        what, found = original["see"](self, entry)
        note_waits(firsts, self, what)
        return what, found

    def turn(self):
        held = list(self.held)
        reverted = original["turn"](self)
        note_reverted(firsts, held, reverted)
        return reverted

    def take(self, certificate):
        note_fork(firsts, self, certificate.tx)
        return original["take"](self, certificate)

    return {"run": run, "built": built, "see": see, "turn": turn, "take": take}


def watched_settle(firsts, original):
    """The admission of what waits, which notes the order."""

    def settle(self):
        before = list(self.pending)
        admitted, dropped = original(self)
        note_admitted(firsts, self, before, admitted)
        return admitted, dropped

    return settle


def watched_block(watch, originals):
    """A block that notes which of its commands is named, if one fails; what it tries for that is not noted."""

    def run(self):
        try:
            originals["run"](self)
        except Halt as halt:
            watch.is_quiet = True
            note_commands(watch.firsts, self, halt, originals)
            watch.is_quiet = False
            raise

    return run


# What a line of the schedule looks up.


def note_reference(firsts, it, id, version):
    """Whose version a reference takes the digest of: each honest member that is up has one, or none."""
    versions = [seat.member and seat.member.store.get((id, version)) for seat in it.seats if seat]
    held = [one.it for one in versions if one]
    if held:
        firsts.note("reference", held[0], {"the last": held[-1], "the lowest-numbered honest member": versions[0] and versions[0].it})


def note_copied_vote(firsts, roles, votes):
    """The vote that a faulty member copies; the votes stand in the order in which members voted first."""
    honest = {number: said for number, said in votes.items() if roles[number] == "honest"}
    if honest:
        firsts.note("fvote", honest[min(honest)], {"the last": honest[max(honest)], "the member that voted first": next(iter(honest.values()))})


def note_copied_effects(firsts, it, digest):
    """The effects that a faulty member copies."""
    effects = [seat.member.held[digest].effects if seat.member and digest in seat.member.held else None for seat in it.seats if seat]
    told = next((one for one in effects if one), None)
    firsts.note("ack of a faulty member", told, {"the lowest-numbered honest member": (effects or [told])[0]})


# Texts, blocks, chains.


def note_text(firsts, reader, lines, number, cause):
    """Which of several bad lines of a text is named: this one, which the reader has taken."""
    bad = [(number, cause)]
    for place, line in enumerate(lines[number:], number + 1):
        if line and not line.startswith(b"#"):
            _, other = reader.line(line)
            bad += [(place, other)] if other else []
    firsts.note("refused line", bad[0], {"the last": bad[-1], "the least cause": min(bad, key=lambda it: it[1])})


def note_commands(firsts, block, halt, originals):
    """Which of several commands of a block that cannot be run is named: what the others would say if it had given nothing."""
    at, bad = block.at, [(block.at, halt.how, halt.number)]
    for block.at, command in enumerate(block.tx.commands[at + 1 :], at + 1):
        block.results.append([])
        try:
            originals[command[0]](block, *command[1:])
        except Halt as other:
            bad += [(block.at, other.how, other.number)] if (other.how, other.number) != ("failed", 2) else []
        except (IndexError, AttributeError, TypeError):
            continue
    block.at = at
    firsts.note("command of a block", bad[0], {"the last": bad[-1], "the least cause": min(bad, key=lambda it: it[2])})


def note_chain(firsts, stakes, digest, links):
    """Which of several bad links is named, or which checkpoint that lists the transaction."""
    before, bad = None, []
    for place, link in enumerate(links):
        found = chain.causes(stakes, place, before, link)
        bad += [(place, found[0])] if found else []
        before = link[0]
    if bad:
        firsts.note("check link", bad[0], {"the last": bad[-1], "the least cause": min(bad, key=lambda it: it[1])})
    listed = [place for place, (checkpoint, _) in enumerate(links) if any(item == digest for item, _ in checkpoint[3])]
    if listed and not bad:
        firsts.note("check included", listed[0], {"the last": listed[-1]})


def note_sealed(firsts, data, number, members):
    """What `inspect chain` says if this member is not honest and up, or of the first of these members that has not built each checkpoint
    that it has; none if all have."""
    it = world.World()
    for event in text.read(data):
        it.step(event)
    if it.seats is None:
        it.open()
    built = {place: seat.member.checkpoints for place, seat in enumerate(it.seats) if seat and seat.member}
    if number not in built:
        return f"inspect chain {number}: no honest member that is up"
    lacking = [(place, built.get(place, 0)) for place in members if built.get(place, 0) < built[number]]
    if not lacking:
        return None
    firsts.note("inspect chain", lacking[0], {"the last": lacking[-1], "the member that built least": min(lacking, key=lambda it: it[1])})
    return f"inspect chain {number}: no seal of member {lacking[0][0]} on checkpoint {lacking[0][1]}"
