"""What must hold of a report by itself, with no second program. Each oracle answers what is wrong, or nothing.

Those in ALWAYS hold of each schedule. Those in UNDER_PREMISES hold where less than a third of the stake is faulty and no seal of an
honest member is forged; only then are they asked.
"""

import re

from .reading import UNKNOWN, Run

KEEPS = ("vote", "send", "raw", "see", "run", "close", "turn")


def heads(run):
    """Each event gives one line that begins with its words; more lines are those of a see, a run, a turn and a show."""
    for event in run.events:
        head = head_of(event)
        if not event.said or not event.said[0].startswith(head):
            return f"line {event.number} gives no line that begins with: {head}"
        more = [line for line in event.said[1:] if not line.startswith("  ") and event.word != "see"]
        if more or (len(event.said) > 1 and event.word not in ("see", "run", "turn", "show")):
            return f"line {event.number} gives a line too much: {event.said[1]}"
    said = sum(len(event.said) for event in run.events)
    return None if said == len(run.lines) else "the report has lines that no event gives"


def head_of(event):
    """How the line of an event begins."""
    words = event.words
    if event.word == "see":
        return f"see {words[1]}"
    count = {"tx": 2, "vote": 3, "fvote": 3, "cert": 2, "send": 3, "raw": 3, "ack": 3, "final": 2, "order": 3 if event.is_order_end else 2}
    return " ".join(words[: count.get(event.word, 2)]) + ": "


def votes_of(run):
    """Each vote that an honest member gave: the event, the member, the transaction and the word."""
    for event in run.events:
        word = event.answer.split(" ")[0]
        if event.word == "vote" and word in ("voted", "again"):
            yield event, event.member, run.txs[event.tx], word


def one_vote_a_version(run):
    """No honest member votes in one epoch for two transactions that consume one version."""
    given = {}
    for event, member, tx, _ in votes_of(run):
        for version in tx.consumed:
            first = given.setdefault((member, tx.epoch, version), tx)
            if first.key != tx.key:
                return f"member {member} voted for {first.name} and, in line {event.number}, for {tx.name}, which consumes the same version"
    return None


def the_same_vote_again(run):
    """A vote that is given again names the origins of the first one."""
    first = {}
    for event, member, tx, word in votes_of(run):
        origins = event.answer.split(" ")[1:]
        if UNKNOWN in origins or run.alone(tx.name) is None:
            continue
        if word == "again" and first.get((member, tx.key), origins) != origins:
            return f"line {event.number}: member {member} votes again for {tx.name}, with other origins than before"
        first[member, tx.key] = origins
    return None


def origins_of_a_vote(run):
    """A vote names one origin for each object."""
    for event, _, tx, _ in votes_of(run):
        wanted = 1 + sum(sort in "oisr" for sort, _ in tx.line[6])
        if len(event.answer.split(" ")) - 1 != wanted:
            return f"line {event.number}: {wanted} objects, and as many origins are wanted: {event.answer}"
    return None


def weights(run):
    """Certificates and final transactions have a quorum; what is short has none; the weights are those of the set-up."""
    for event in run.events:
        if event.word not in ("cert", "final"):
            continue
        had = run.weight(map(int, event.words[2:]))
        formed = event.answer.startswith(("formed by", "final by"))
        short = event.answer.startswith("short")
        if (formed or event.answer.startswith("differ")) and not run.is_quorum(had) or (short and run.is_quorum(had)):
            return f"line {event.number}: the members have {had} of {run.total}: {event.answer}"
        if short and event.answer != f"short {had} of {run.total}":
            return f"line {event.number}: the members have {had} of {run.total}: {event.answer}"
    return None


def ends(run):
    """The weight at an End is that of all who were counted, and the epoch has ended where they are a quorum."""
    for member in run.honest:
        counted = {}
        for epoch, _, said, is_whole in entries_of(run, member):
            end = re.match(r"end of (\d+) weight (\d+) of (\d+)(, epoch ended)?$", said)
            if end and is_whole:
                members = counted.setdefault(epoch, [])
                members.append(int(end[1]))
                had = run.weight(members)
                if len(set(members)) < len(members) or (int(end[2]), int(end[3]), bool(end[4])) != (had, run.total, run.is_quorum(had)):
                    return f"member {member}: those who ended epoch {epoch} have {had} of {run.total}: {said}"
    return None


def entries_of(run, member):
    """What a member said of entries: the epoch, the number, the words, and whether it told all entries before. At a stop with the
    record kept the entry is taken, and nothing is told of it."""
    epoch, is_whole, armed = 0, True, None
    for event in (it for it in run.events if it.member == member and not it.is_order_end):
        if event.word in ("stop", "restart"):
            armed = event.words[2] if event.word == "stop" else None
        for line in event.said if event.word == "see" else []:
            it = re.match(rf"see {member} entry (\d+): (.*)$", line)
            if it and it[2] != "stopped":
                yield epoch, int(it[1]), it[2], is_whole
        if event.word in KEEPS and event.said[-1].endswith(": stopped"):
            is_whole = is_whole and (event.word != "see" or armed != "kept")
        if event.word == "turn" and (event.answer.startswith("epoch") or (event.answer == "stopped" and armed == "kept")):
            epoch, is_whole = epoch + 1, True
        armed = None if event.said[-1].endswith(": stopped") else armed


def ordered(run):
    """Entries are numbered from 0 in each epoch."""
    last = -1
    for event in run.events:
        entry = re.match(r"entry (\d+)$", event.answer) if event.word == "order" else None
        if entry and int(entry[1]) not in (last + 1, 0):
            return f"line {event.number}: entry {last + 1} or 0 is wanted: {event.answer}"
        last = int(entry[1]) if entry else last
    return None


def gas_and_version(run):
    """A transaction pays 1000 and 100 for each command, and what it writes has a version above all that it names."""
    for event in run.events:
        for line in event.said[1:] if event.word == "run" else []:
            done = re.match(r"  (\S+) (?:done|failed|aborted)\b.* v(\d+) gas (\d+)$", line)
            tx = run.alone(done[1]) if done else None
            if tx is None:
                continue
            least = 1 + max(tx.versions)
            if int(done[3]) != 1000 + 100 * len(tx.commands):
                return f"line {event.number}: {len(tx.commands)} commands cost something else: {line.strip()}"
            if int(done[2]) < least or (not tx.is_shared and int(done[2]) != least):
                return f"line {event.number}: version {least} is wanted{', or a greater one' if tx.is_shared else ''}: {line.strip()}"
    return None


def records(run):
    """A restart finds one record for each call that kept one, and for each stop with its record kept."""
    counts, armed = dict.fromkeys(run.honest, 0), {}
    for event in run.events:
        member = event.member
        if event.word == "stop":
            armed[member] = event.words[2]
        elif event.word == "restart":
            if event.answer != f"records {counts[member]}":
                return f"line {event.number}: {counts[member]} records are wanted: {event.answer}"
            armed.pop(member, None)
        elif event.word in KEEPS and member in counts:
            counts[member] += kept(event) + (event.said[-1].endswith(": stopped") and armed.pop(member, "") == "kept")
    return None


def kept(event):
    """How many records the call kept, where it did not stop at them."""
    if event.word == "see":
        return len([line for line in event.said if re.match(r"see \d+ entry \d+: (?!stopped)", line)])
    keeps = {"vote": "voted", "send": "held|fork", "raw": "voted|held|fork", "run": "executed [1-9]", "close": "closed", "turn": "epoch"}
    return bool(re.match(keeps[event.word], event.answer))


def down(run):
    """A member answers `down` from its stop to its restart, and at no other time; it stops where a stop is armed."""
    is_down, armed = set(), set()
    for event in run.events:
        member, asks = event.member, event.word in (*KEEPS, "end", "show", "ack") and not event.is_order_end
        said = event.said[-1] if event.said else ""
        if event.word == "stop":
            armed.add(member)
        elif event.word == "restart":
            is_down.discard(member)
            armed.discard(member)
        elif asks and member in run.honest and event.answer != "no certificate":
            if (event.answer == "down") != (member in is_down):
                return f"line {event.number}: member {member} is {'down' if member in is_down else 'up'}: {said}"
            if said.endswith(": stopped"):
                if member not in armed:
                    return f"line {event.number}: no stop is armed: {said}"
                is_down.add(member)
                armed.discard(member)
    return None


def epochs(run):
    """A member's turns come one epoch at a time, and show says the epoch in which it is. Of a turn that stopped it is not known whether it was kept."""
    now, stopped = dict.fromkeys(run.honest, 0), dict.fromkeys(run.honest, 0)
    for event in run.events:
        member, found = event.member, re.match(r"epoch (\d+)", event.answer)
        if event.word == "turn" and event.answer == "stopped":
            stopped[member] += 1
        if event.word in ("turn", "show") and found and member in now:
            wanted = now[member] + (event.word == "turn")
            if not wanted <= int(found[1]) <= wanted + stopped[member]:
                return f"line {event.number}: epoch {wanted} is wanted: {event.said[0]}"
            now[member], stopped[member] = int(found[1]), 0
    return None


def sums(run):
    """What a member's coins and vaults hold of a currency is the supply of its cap; of currency 0 no more than there was at the beginning."""
    opening = sum(int(it.words[3]) for it in run.setup if it.word == "coin")
    for event in run.events:
        if event.word != "show":
            continue
        held, caps = {0: 0}, {}
        for line in event.said[1:]:
            it = re.search(r" (coin|vault|cap) (\d+) (\d+)$", line)
            if it and it[1] == "cap":
                caps[int(it[2])] = int(it[3])
            elif it:
                held[int(it[2])] = held.get(int(it[2]), 0) + int(it[3])
        wrong = next((it for it in {*held, *caps} - {0} if held.get(it, 0) != caps.get(it, 0)), None)
        if wrong is not None:
            return f"line {event.number}: coins and vaults hold {held.get(wrong, 0)} of currency {wrong}, and its cap says {caps.get(wrong, 0)}"
        if held[0] > opening:
            return f"line {event.number}: there is {held[0]} of currency 0, and there was {opening}"
    return None


def what_was_paid(run):
    """Where no run and no turn of a member stopped, it has what there was of currency 0, less the gas of what it executed and kept."""
    opening = sum(int(it.words[3]) for it in run.setup if it.word == "coin")
    for member in run.honest:
        paid = {}
        for event in (it for it in run.events if it.member == member):
            if event.answer == "stopped" and event.word in ("run", "turn"):
                break
            for line in event.said[1:]:
                done, back = re.match(r"  (\S+) (?:done|failed|aborted)\b.* gas (\d+)$", line), re.match(r"  reverted (\S+)$", line)
                if done or back:
                    name = (done or back)[1]
                    paid[name] = paid.get(name, 0) + (int(done[2]) if done else -paid.get(name, 0))
            if UNKNOWN in paid:
                break
            if event.word == "show" and event.answer != "down":
                had = sum(int(it[1]) for it in (re.search(r" (?:coin|vault) 0 (\d+)$", line) for line in event.said[1:]) if it)
                if had != opening - sum(paid.values()):
                    return f"line {event.number}: {opening} less {sum(paid.values())} of gas is wanted, and there is {had}"
    return None


def shown(run):
    """As many objects are shown as the first line says, each once, and within an epoch no version falls."""
    last = {}
    for event in run.events:
        count = re.match(r"epoch (\d+) objects (\d+)$", event.answer) if event.word == "show" else None
        if not count:
            continue
        found = [re.match(r"  (\S+) v(\d+) ", line) for line in event.said[1:]]
        names = [it[1] for it in found if it and it[1] != UNKNOWN]
        if len(found) != int(count[2]) or None in found or len(set(names)) < len(names):
            return f"line {event.number}: not {count[2]} objects, each once"
        for it in found:
            key = (event.member, count[1], it[1])
            if it[1] != UNKNOWN and int(it[2]) < last.get(key, 0):
                return f"line {event.number}: {it[1]} had version {last[key]} before: {it[0].strip()}"
            last[key] = int(it[2])
    return None


def built(run):
    """The lines of checkpoints: the member, the number and the line."""
    for event in run.events:
        for line in event.said[1:]:
            it = re.match(r"  checkpoint (\d+):", line)
            if it and event.word in ("see", "run"):
                yield event, event.member, int(it[1]), line.strip()


def checkpoints_ascend(run):
    """A member's checkpoints have ascending numbers."""
    last = {}
    for event, member, number, line in built(run):
        if number <= last.get(member, -1):
            return f"line {event.number}: checkpoint {last[member]} stands before: {line}"
        last[member] = number
    return None


# Under the premises.


def checkpoints_agree(run):
    """Checkpoints of honest members with one number are the same."""
    first = {}
    for event, member, number, line in built(run):
        if f" {UNKNOWN}" not in line and first.setdefault(number, (member, line))[1] != line:
            return f"line {event.number}: member {member} built {line}, and member {first[number][0]} {first[number][1]}"
    return None


def effects_agree(run):
    """Honest members that execute a transaction say the same of it."""
    first = {}
    for event in run.events:
        for line in event.said[1:] if event.word == "run" else []:
            done = re.match(r"  (\S+) ((?:done|failed|aborted)\b.*)$", line)
            if done and run.alone(done[1]) and first.setdefault(done[1], (event.member, done[2]))[1] != done[2]:
                return f"line {event.number}: member {event.member} says {done[1]} {done[2]}, and member {first[done[1]][0]} {first[done[1]][1]}"
    return None


def entries_agree(run):
    """What honest members say of an entry is the same, whenever they see it."""
    first = {}
    for member in run.honest:
        for epoch, number, said, _ in entries_of(run, member):
            if f" {UNKNOWN}" not in said and first.setdefault((epoch, number), (member, said))[1] != said:
                return f"entry {number} of epoch {epoch}: member {member} says {said}, and member {first[epoch, number][0]} {first[epoch, number][1]}"
    return None


def final_stands(run):
    """What is final is never taken back, and no honest member says otherwise."""
    final = {event.tx for event in run.events if event.word == "final" and event.answer.startswith("final by") and run.alone(event.tx)}
    for event in run.events:
        for line in event.said[1:] if event.word == "turn" else []:
            if line.removeprefix("  reverted ") in final:
                return f"line {event.number}: {line.strip()}, which is final"
    return None


def checkpointed_stays(run):
    """What stands in a checkpoint is never taken back."""
    listed = {name for _, _, _, line in built(run) for name in line.split(" ")[2:] if run.alone(name)} - {"last"}
    for event in run.events:
        for line in event.said[1:] if event.word == "turn" else []:
            if line.removeprefix("  reverted ") in listed:
                return f"line {event.number}: {line.strip()}, which stands in a checkpoint"
    return None


def no_alarm(run):
    """No line says fork, halted, absent of a run, or unfit."""
    for event in run.events:
        for line in event.said:
            is_left = event.word == "run" and re.match(r"  \S+ (absent \S+|unfit)$", line)
            is_fork = not line.startswith("  ") and re.search(r": (fork|halted) ", line)
            if is_left or is_fork:
                return f"line {event.number}: less than a third of the stake is faulty, and no seal is forged: {line.strip()}"
    return None


def differ_by_the_faulty(run):
    """Two honest members never differ in what they acknowledge."""
    for event in run.events:
        it = re.match(r"differ (\d+) (\d+)$", event.answer) if event.word == "final" else None
        if it and int(it[1]) in run.honest and int(it[2]) in run.honest:
            return f"line {event.number}: honest members differ: {event.said[0]}"
    return None


ALWAYS = (
    heads, one_vote_a_version, the_same_vote_again, origins_of_a_vote, weights, ends, ordered, gas_and_version, records, down, epochs, sums,
    what_was_paid, shown, checkpoints_ascend,
)
UNDER_PREMISES = (checkpoints_agree, effects_agree, entries_agree, final_stands, checkpointed_stays, no_alarm, differ_by_the_faulty)
NAMES = [it.__name__ for it in (*ALWAYS, *UNDER_PREMISES)]


def complaints(schedule, answer):
    """The oracles that a report breaks: pairs of a name and what is wrong. A schedule's own text is one, else it is not asked."""
    if answer.status != 0:
        return [("status", f"the text is a schedule, and the status is {answer.status}")]
    run = Run(schedule, answer.report.decode("latin-1"))
    first = heads(run)
    if first:
        return [("heads", first)]
    found = []
    for oracle in (*ALWAYS[1:], *(UNDER_PREMISES if run.premises else ())):
        said = oracle(run)
        if said:
            found.append((oracle.__name__, said))
    return found
