"""Replays a report: what each step shows of each member, each transaction, the sequence and each object.

A step is an event of the schedule; step 0 is the set-up. What a step changes are entries `panel, section, item, value`, and a value of
None takes the entry away. The panels are the numbers of the members, `committee`, `txs` and `objects`. Everything in them is what a
line of the report says, or follows from it by the rules of the schedules. What does not is left out, and a note of the member
says where the report is silent. States of the members after some lines (states.py) add owners, contents and created objects, as long
as they fit the report.
"""

import json
import re

import language
import schedules

# The sections of a member that an epoch change empties.
OF_EPOCH = ("votes", "locks", "held", "admitted", "waiting", "dropped", "stuck", "acks")
# The note of a vote at whose record its member stopped.
UNHEARD = "the vote for {} is in its records, but nobody got it"
# The commands that may use up an owned object that they are handed by value: the places of such arguments.
USING_UP = {"merge": slice(1, None), "vec": slice(1, None), "coin_burn": slice(1, 2), "vault_deposit": slice(1, 2)}


def listed(names):
    """Names in a row: `a`, `a and b`, `a, b and c`."""
    names = [str(it) for it in names]
    return " and ".join([", ".join(names[:-1]), names[-1]] if names[1:] else names)


def members_named(numbers):
    """`member 0`, or `members 0, 1 and 2`."""
    return f"member{'s' if len(numbers) > 1 else ''} {listed(numbers)}"


class Step:
    """An event, the entries that it changes, and what waits after it. The set-up is a step without an event."""

    def __init__(self, event):
        self.event, self.changes, self.waiting = event, [], []


class Member:
    """A member of the committee, and what of it is not shown: for each object the versions that it had, the oldest first."""

    def __init__(self, number, words):
        self.number, self.name, self.stake, self.is_honest = number, str(number), int(words[1]), words[2] == "honest"
        self.stacks = {}


class Run:
    """The steps of a run, and what is told of each transaction and object, as pairs of a line number and a sentence."""

    def __init__(self, schedule, report, states=None):
        self.setup, self.events = schedules.read(schedule, report)
        self.known, self.unfit = states or {}, None
        self.members = [Member(at, it.words) for at, it in enumerate(it for it in self.setup if it.word == "member")]
        self.total = sum(it.stake for it in self.members)
        self.txs, self.same, self.state, self.stories = {}, {}, {}, {"tx": {}, "object": {}}
        self.open, self.sequences, self.origins_said, self.origins, self.acks = 0, {0: []}, {}, {}, {}
        self.steps = [Step(None)]
        self.set_up()
        for event in self.events:
            self.steps.append(Step(event))
            if event.said:
                self.take(event)
            if self.unfit is None and event.number in self.known:
                self.take_states(event.number, self.known[event.number])

    # -- entries, and sentences

    def get(self, panel, section, item):
        return self.state.get(panel, {}).get(section, {}).get(item)

    def entries(self, panel, section):
        return self.state.get(panel, {}).get(section, {})

    def put(self, panel, section, item, value):
        """Sets an entry, or takes it away; nothing is changed by what is there already."""
        if self.get(panel, section, item) == value:
            return
        self.steps[-1].changes.append((panel, section, item, value))
        entries = self.state.setdefault(panel, {}).setdefault(section, {})
        if value is None:
            del entries[item]
        else:
            entries[item] = value

    def tell(self, kind, name, line, text):
        """Adds a sentence to what is told of a transaction or an object."""
        if name != "?":
            self.stories[kind].setdefault(name, []).append((line, text))

    def note(self, member, line, text):
        """Says of a member where the report is silent."""
        self.put(member.name, "notes", f"{line} {text}", {"line": line, "text": text})

    def no_note(self, member, text):
        """Takes a note away, since the report says by now what it was silent about."""
        for item in [it for it, note in self.entries(member.name, "notes").items() if note["text"] == text]:
            self.put(member.name, "notes", item, None)

    def weight(self, numbers):
        return sum(self.members[it].stake for it in numbers if it < len(self.members))

    def stake_of(self, numbers):
        """The stake of some members, and how much of the whole it is."""
        weight = self.weight(numbers)
        return f"stake {weight} of {self.total}, {'more' if 3 * weight > 2 * self.total else 'not more'} than two thirds"

    def states(self):
        """Each step with the state after it: panel, section, item, value. The state is one and changes from step to step."""
        found = {}
        for step in self.steps:
            for panel, section, item, value in step.changes:
                entries = found.setdefault(panel, {}).setdefault(section, {})
                if value is None:
                    del entries[item]
                else:
                    entries[item] = value
            yield step, found

    def state_at(self, line):
        """The state after the last event that does not stand below this line."""
        last = max(place for place, step in enumerate(self.steps) if step.event is None or step.event.number <= line)
        return next(state for place, (_, state) in enumerate(self.states()) if place == last)

    # -- the set-up

    def set_up(self):
        self.put("committee", "is", "epoch", 0)
        for line in self.setup:
            content = {"coin": lambda it: (it[2], f"coin 0 {it[3]}"), "cap": lambda it: (it[2], f"cap {it[3]} 0"), "counter": lambda it: ("shared 1", f"counter {it[2]}")}.get(line.word)
            if content:
                owner, text = content(line.words)
                self.put("objects", line.words[1], "1 ", {"v": 1, "by": "", "line": line.number, "owner": owner, "content": text, "told": line.number})
                self.tell("object", line.words[1], line.number, f"It is there when epoch 0 opens, in version 1: {owner}, {text}.")
        for member in self.members:
            if member.is_honest:
                self.put(member.name, "is", "epoch", 0)
                self.put(member.name, "is", "next", 0)
                for line in self.setup:
                    if line.word in ("coin", "cap", "counter"):
                        self.push(member, line.words[1], 1, "", line.number)

    # -- the objects of a member

    def push(self, member, name, version, by, line, is_sure=True):
        """A member has a new version of an object."""
        stack = member.stacks.setdefault(name, [])
        if not stack or stack[-1][:2] != (version, by):
            stack.append((version, by, line))
        self.put(member.name, "objects", name, {"v": version, "by": by, "line": stack[-1][2], "sure": is_sure})

    def made(self, name, version, by, line):
        """A version of an object was made, which may be known already."""
        item = f"{version} {by}"
        if self.get("objects", name, item) is None:
            self.put("objects", name, item, {"v": version, "by": by, "line": line})

    def learn(self, name, version, by, line, owner, content=None):
        """The report says who owns a version, and perhaps what it is."""
        item = f"{version} {by}"
        known = self.get("objects", name, item) or {"v": version, "by": by, "line": line}
        if known.get("owner") != owner or (content and known.get("content") != content):
            more = {"content": content} if content else {}
            self.put("objects", name, item, {**known, "owner": owner, "told": line, **more})

    def by_of(self, member, name, version):
        """The transaction that made this version at this member, or nothing where the report does not say so."""
        return next((by for at, by, _ in reversed(member.stacks.get(name, [])) if at == version), name.partition(".")[0] if "." in name and name not in member.stacks else "?")

    # -- the events

    def take(self, event):
        """Takes one event with its lines."""
        handler = getattr(self, f"on_{event.word}", None)
        member = self.members[event.member] if event.member is not None and event.member < len(self.members) else None
        if event.word in schedules.OF_MEMBER and member is None:
            return
        if event.is_order_end:
            self.on_order_end(event)
        elif handler:
            handler(event, member)
        if member and member.is_honest and event.answer.startswith("halted ") and not self.get(member.name, "is", "halted"):
            self.put(member.name, "is", "halted", {"line": event.number, "text": event.answer.removeprefix("halted ")})

    def stopped(self, event, member):
        """A member stops at its record. Answers whether the record is kept."""
        armed = self.get(member.name, "is", "armed")
        self.put(member.name, "is", "armed", None)
        self.put(member.name, "is", "down", {"line": event.number})
        return armed is not None and armed["text"] == "kept"

    def on_tx(self, event, _):
        self.txs[event.tx] = event
        self.put("txs", event.tx, "made", {"line": event.number})
        versions = [f"{name}@{version}" for how, name, version in schedules.references(event) if how in ("gas", "o")]
        self.tell("tx", event.tx, event.number, f"{event.words[2].rstrip('?')} makes it for epoch {event.words[3]}. It consumes {listed(versions)}.")

    def locks_of(self, tx):
        """The versions that a vote for a transaction locks: its gas coin and its owned inputs."""
        return [(name, int(version)) for how, name, version in schedules.references(self.txs[tx]) if how in ("gas", "o")] if tx in self.txs else []

    def on_vote(self, event, member):
        tx, answer, line = event.tx, event.answer, event.number
        if answer.startswith(("voted", "again")):
            self.same_as(tx, [it for it in self.entries(member.name, "votes") if answer.startswith("again")])
            self.no_note(member, UNHEARD.format(self.name_of(tx)))
            if self.get(member.name, "votes", self.name_of(tx)) is None:
                self.vote(member, self.name_of(tx), line, answer.split(" ")[1:])
        elif answer == "stopped":
            if self.stopped(event, member):
                self.vote(member, tx, line, None)
                self.note(member, line, UNHEARD.format(tx))
        elif answer != "down":
            self.put("txs", tx, f"refused {member.name}", {"line": line, "text": answer})
            self.tell("tx", tx, line, f"Member {member.name} does not vote for it: {answer}.")
            self.learn_of_refusal(member, answer, line)

    def same_as(self, tx, known):
        """Two names may stand for one transaction: a vote that was given before says so."""
        if tx in self.txs and tx not in known:
            for name in known:
                if name in self.txs and self.txs[name].words[2:] == self.txs[tx].words[2:]:
                    self.same.setdefault(tx, name)

    def name_of(self, tx):
        return self.same.get(tx, tx)

    def vote(self, member, tx, line, origins):
        """A member's vote, with the locks that come with it."""
        self.put(member.name, "votes", tx, {"line": line, "origins": origins})
        self.put("txs", tx, f"vote {member.name}", {"line": line})
        self.origins_said[member.number, tx] = origins
        locked = self.locks_of(tx)
        for name, version in locked:
            self.put(member.name, "locks", f"{name}@{version}", {"tx": tx, "line": line})
            self.tell("object", name, line, f"Member {member.name} locks version {version} for {tx}, until it leaves its epoch: it votes for nothing else that consumes this version.")
            if name not in member.stacks:
                self.push(member, name, version, self.by_of(member, name, version), line)
            self.learn(name, version, self.by_of(member, name, version), line, self.txs[tx].words[2].rstrip("?"))
        self.tell("tx", tx, line, f"Member {member.name} votes for it, and locks {listed(f'{name}@{version}' for name, version in locked)} for it.")

    def learn_of_refusal(self, member, answer, line):
        """What the refusal of a vote says of the member."""
        locked, consumed = re.fullmatch(r"locked (\S+) by (\S+)", answer), re.fullmatch(r"consumed (\S+) by (\S+)", answer)
        if locked:
            self.tell("object", locked[1].partition("@")[0], line, f"Member {member.name} refuses another transaction that consumes {locked[1]}: it is locked for {locked[2]}.")
            if self.get(member.name, "locks", locked[1]) is None:
                self.put(member.name, "locks", locked[1], {"tx": locked[2], "line": line})
        elif consumed:
            self.executed_before(member, consumed[2], line)
        elif answer == "closed":
            self.put(member.name, "is", "closed", self.get(member.name, "is", "closed") or {"line": line})

    def on_fvote(self, event, member):
        self.put(member.name, "votes", event.tx, {"line": event.number, "origins": event.words[3:] or None})
        self.origins_said[member.number, event.tx] = event.words[3:]
        self.put("txs", event.tx, f"vote {member.name}", {"line": event.number})
        self.tell("tx", event.tx, event.number, f"Faulty member {member.name} makes a vote for it.")

    def on_cert(self, event, _):
        if event.answer.startswith("formed by"):
            by = [int(it) for it in event.answer.split(" ")[2:]]
            self.put("txs", event.tx, "cert", {"line": event.number, "by": by, "weight": self.weight(by)})
            known = next((self.origins_said[it, event.tx] for it in by if self.origins_said.get((it, event.tx))), [])
            self.origins[event.tx] = [it for it in dict.fromkeys(known) if it not in ("-", "?")]
            self.tell("tx", event.tx, event.number, f"The votes of {members_named(by)} certify it ({self.stake_of(by)}).")
        else:
            self.tell("tx", event.tx, event.number, f"No certificate is formed: {event.answer}.")

    def on_final(self, event, _):
        named = [int(it) for it in event.words[2:]]
        if event.answer.startswith("final by"):
            if self.get("txs", event.tx, "final") is None:
                self.put("txs", event.tx, "final", {"line": event.number, "by": named, "weight": self.weight(named)})
            lines = listed(self.acks[event.tx][it] for it in named if it in self.acks.get(event.tx, {}))
            text = f"Final: {members_named(named)} acknowledged the same effects (line{'s' if len(named) > 1 else ''} {lines}), with {self.stake_of(named)}. So no end of an epoch takes it back, as long as faulty members have less than a third of the stake."
        else:
            text = f"Not final by {members_named(named)}: {event.answer}."
        self.tell("tx", event.tx, event.number, text)

    def on_ack(self, event, member):
        if event.answer == "said":
            self.acks.setdefault(event.tx, {})[member.number] = event.number
            self.put(member.name, "acks", event.tx, {"line": event.number})
            self.put("txs", event.tx, f"ack {member.name}", {"line": event.number})
            self.tell("tx", event.tx, event.number, f"Member {member.name} acknowledges its effects.")
            if member.is_honest:
                self.executed_before(member, event.tx, event.number)

    def on_send(self, event, member):
        tx, answer = event.tx, event.answer
        if answer in ("held", "again"):
            self.hold(member, tx, event.number)
        elif answer == "stopped":
            if self.stopped(event, member):
                self.note(member, event.number, f"the certificate of {tx} is in its records; whether it holds it or met a fork shows later")
        elif answer.startswith("fork "):
            self.fork(member, answer, event.number)
        elif answer not in ("down", "no certificate"):
            self.tell("tx", tx, event.number, f"Member {member.name} does not take its certificate: {answer}.")

    def hold(self, member, tx, line):
        """A member holds a certificate, if it did not before."""
        if tx != "?" and self.get(member.name, "held", tx) is None:
            self.put(member.name, "held", tx, {"line": line})
            self.put("txs", tx, f"held {member.name}", {"line": line})
            self.tell("tx", tx, line, f"Member {member.name} holds its certificate.")

    def fork(self, member, answer, line):
        """A member meets two certificates that consume one version."""
        version, first, second = answer.split(" ")[1:4]
        self.put(member.name, "is", "halted", {"line": line, "text": f"{first} {second}"})
        for one, other in ((first, second), (second, first)):
            self.tell("tx", one, line, f"Member {member.name} meets a fork: {other} is certified too, and consumes {version} as well.")
        self.tell("object", version.partition("@")[0], line, f"Member {member.name} meets a fork: {first} and {second} are both certified, and consume {version}.")

    def on_raw(self, event, member):
        answer, what = event.answer, event.words[2]
        if answer.startswith("fork "):
            self.fork(member, answer, event.number)
        elif answer == "stopped":
            if self.stopped(event, member):
                self.note(member, event.number, f"bytes that it was handed ({what}) are in its records; the report does not say whose")
        elif what == "vote" and answer.startswith("voted"):
            self.note(member, event.number, "it voted for a transaction that it was handed as bytes; the report does not name it")
        elif what == "hold" and answer == "held":
            self.note(member, event.number, "it holds a certificate that it was handed as bytes; the report does not name it")

    # -- the sequence

    def append(self, event, what):
        """An entry is appended to the sequence of the open epoch. Its number says where a new epoch opened."""
        number = int(event.answer.split(" ")[1])
        if number < len(self.sequences[self.open]):
            self.rise(event.number)
        self.sequences[self.open].append(what)
        self.put("committee", "sequence", f"{self.open} {number}", {"what": what, "line": event.number, "epoch": self.open, "n": number})
        return number

    def rise(self, line):
        """The open epoch ends."""
        self.put("committee", "ended", str(self.open), {"line": line})
        self.open += 1
        self.sequences[self.open] = []
        self.put("committee", "is", "epoch", self.open)

    def on_order(self, event, _):
        if event.answer.startswith("entry "):
            tx = None if event.words[1:] == ["commit"] else event.tx
            number = self.append(event, tx or "a mark")
            if tx:
                self.put("txs", tx, f"entry {self.open} {number}", {"line": event.number, "epoch": self.open, "n": number})
                self.tell("tx", tx, event.number, f"It is entry {number} of the sequence of epoch {self.open}.")

    def on_order_end(self, event):
        if event.answer.startswith("entry "):
            self.append(event, f"End of {event.words[2]}")
            ended = {int(it.removeprefix("End of ")) for it in self.sequences[self.open] if it.startswith("End of ")}
            if 3 * self.weight(ended) > 2 * self.total:
                self.rise(event.number)

    def on_see(self, event, member):
        said = None
        for line in event.said:
            found = re.fullmatch(r"see \d+ entry (\d+): (.*)", line)
            if found:
                said = int(found[1]), found[2]
                self.see_entry(event, member, *said)
            elif line.startswith("  checkpoint "):
                self.checkpoint(member, line, event.number)

    def see_entry(self, event, member, number, answer):
        """A member takes one entry."""
        is_kept = True
        if answer == "stopped":
            is_kept = self.stopped(event, member)
            if is_kept:
                self.note(member, event.number, f"entry {number} is in its records; what it made of it is not reported")
        if is_kept:
            self.put(member.name, "is", "next", number + 1)
        if answer.startswith("fork "):
            self.fork(member, answer, event.number)
        ended = re.fullmatch(r"end of (\d+) weight (\d+) of \d+(, epoch ended)?", answer)
        if ended:
            self.put(member.name, "is", "ends", {"weight": int(ended[2]), "ended": ended[3] is not None, "line": event.number})
        waits = re.fullmatch(r"(pending|deferred) (\S+) on (\S+)", answer)
        if waits:
            self.hold(member, waits[2], event.number)
            self.put(member.name, "waiting", waits[2], {"line": event.number, "how": waits[1], "on": waits[3]})
            self.tell("tx", waits[2], event.number, f"Member {member.name} sees it in the sequence, where it waits for {waits[3]}.")
        admitted, dropped = admitted_of(answer)
        for name in (admitted + dropped)[:1] if not answer.startswith("commit") else []:
            self.hold(member, name, event.number)
        for name in admitted:
            self.admit(member, name, event.number, number)
        for name in dropped:
            self.put(member.name, "waiting", name, None)
            self.put(member.name, "dropped", name, {"line": event.number})
            self.tell("tx", name, event.number, f"Member {member.name} drops it: it names as shared what is not shared, and is never executed.")

    def admit(self, member, tx, line, entry):
        self.put(member.name, "waiting", tx, None)
        self.put(member.name, "admitted", tx, {"line": line, "entry": entry})
        self.tell("tx", tx, line, f"Member {member.name} admits it: its place in the sequence counts.")

    def checkpoint(self, member, line, at):
        """A member builds a checkpoint of transactions that it executed."""
        number, _, rest = line.removeprefix("  checkpoint ").partition(":")
        names = rest.split()
        is_last = names[-1:] == ["last"] and not self.may_be_in("last", names[:-1], member)
        names = names[:-1] if is_last else names
        self.put(member.name, "checkpoints", number, {"line": at, "txs": names, "last": is_last})
        for name in names:
            self.executed_before(member, name, at)
            self.put("txs", name, f"checkpoint {member.name}", {"line": at, "n": int(number)})
            self.tell("tx", name, at, f"It is in checkpoint {number} of member {member.name}, so the member keeps it at the end of the epoch.")

    def may_be_in(self, tx, names, member):
        """Whether a transaction of this name may stand in a checkpoint, where it does not stand there yet."""
        return tx in self.txs and tx not in names and self.get(member.name, "admitted", tx) is not None and self.get("txs", tx, f"checkpoint {member.name}") is None

    # -- execution

    def on_run(self, event, member):
        if event.answer == "stopped" and self.stopped(event, member):
            self.note(member, event.number, "what it executed here is in its records and not in the report")
            self.put(member.name, "is", "silent", {"line": event.number})
        for name, how, version, gas, line in schedules.executions(event):
            self.execute(member, event.number, name, how, version, gas, line)
        for line in event.said[1:]:
            stuck = re.fullmatch(r"  (\S+) (absent \S+|unfit)", line)
            if stuck:
                self.put(member.name, "stuck", stuck[1], {"line": event.number, "text": stuck[2]})
                self.tell("tx", stuck[1], event.number, f"Member {member.name} cannot execute it: {stuck[2]}.")
            if line.startswith("  checkpoint "):
                self.checkpoint(member, line, event.number)
        if event.answer.startswith("executed "):
            self.steps[-1].waiting = self.waiting(member)

    def execute(self, member, line, tx, how, version, gas, text):
        """A member executes a transaction: what it names as owned or to be written has the new version, whether it failed or not."""
        epoch = self.get(member.name, "is", "epoch")
        told = {"line": line, "how": how, "v": version, "gas": gas, "epoch": epoch, "text": text.removeprefix(f"{tx} ")}
        self.put(member.name, "executed", tx, told)
        self.put("txs", tx, f"executed {member.name}", told)
        self.put("txs", tx, f"back {member.name}", None)
        self.put(member.name, "stuck", tx, None)
        self.tell("tx", tx, line, f"Member {member.name} executes it: {told['text']}.")
        if tx not in self.txs:
            self.put(member.name, "is", "silent", {"line": line})
        unsure = used_up(self.txs[tx]) if tx in self.txs and how == "done" else []
        for kind, name, at in schedules.references(self.txs[tx]) if tx in self.txs else []:
            if kind in ("gas", "o", "s"):
                is_first = self.get("objects", name, f"{version} {tx}") is None
                self.made(name, version, tx, line)
                self.push(member, name, version, tx, line, name not in unsure)
                if is_first:
                    self.tell("object", name, line, f"{tx} {'writes' if kind == 's' else f'consumes version {at} and writes'} version {version}{', or uses it up' if name in unsure else ''} (first at member {member.name}).")

    def executed_before(self, member, tx, line):
        """Something says that a member executed a transaction, which no line of its own told."""
        if tx != "?" and self.get(member.name, "executed", self.name_of(tx)) is None:
            told = {"line": line, "how": "executed", "epoch": self.get(member.name, "is", "epoch")}
            self.put(member.name, "executed", tx, told)
            self.put("txs", tx, f"executed {member.name}", told)

    def on_show(self, event, member):
        found = re.fullmatch(r"epoch (\d+) objects \d+", event.answer)
        if not found:
            return
        self.put(member.name, "is", "epoch", int(found[1]))
        self.put(member.name, "is", "silent", None)
        for name, version, owner, content in self.has(member, schedules.shown(event), event.number):
            self.tell("object", name, event.number, f"Member {member.name} shows version {version}: {owner}, {content}.")

    def has(self, member, objects, line):
        """A member has exactly these objects. Answers each that has a name: its version, owner and content."""
        found = []
        for name in [it for it in self.entries(member.name, "objects") if it not in {name for name, *_ in objects}]:
            self.put(member.name, "objects", name, None)
            member.stacks.pop(name)
            self.tell("object", name, line, f"Member {member.name} does not have it any more.")
        for name, version, text in objects:
            if name != "?":
                owner, content = owner_of(text)
                self.push(member, name, version, self.by_of(member, name, version), line)
                self.learn(name, version, self.by_of(member, name, version), line, owner, content)
                found.append((name, version, owner, content))
        return found

    # -- states

    def fits(self, member, told):
        """Whether what a state says of a member is not otherwise by the report."""
        objects = {name: version for name, version, _ in told["objects"]}
        sure = {name: it["v"] for name, it in self.entries(member.name, "objects").items() if it["sure"]}
        is_silent = self.get(member.name, "is", "silent") is not None
        return is_silent or told["epoch"] == self.get(member.name, "is", "epoch") and sure == {it: objects.get(it) for it in sure}

    def take_states(self, line, members):
        """The members after a line, as they stand by the definitions."""
        pairs = [it for it in zip(self.members, members) if it[1] is not None]
        if len(members) != len(self.members) or not all(self.fits(*it) for it in pairs):
            self.unfit = line
            return
        for member, told in pairs:
            self.put(member.name, "is", "epoch", told["epoch"])
            self.put(member.name, "is", "silent", None)
            new = {name for name, version, _ in told["objects"] if "content" not in (self.get("objects", name, f"{version} {self.by_of(member, name, version)}") or {})}
            for name, version, owner, content in self.has(member, told["objects"], line):
                if name in new:
                    self.tell("object", name, line, f"Member {member.name} has version {version}: {owner}, {content}.")

    # -- stops, and the end of an epoch

    def on_stop(self, event, member):
        if event.answer.startswith("armed "):
            self.put(member.name, "is", "armed", {"line": event.number, "text": event.answer.removeprefix("armed ")})

    def on_restart(self, event, member):
        if event.answer.startswith("records "):
            self.put(member.name, "is", "down", None)
            self.put(member.name, "is", "armed", None)
            self.put(member.name, "is", "records", {"line": event.number, "n": int(event.answer.split(" ")[1])})

    def on_close(self, event, member):
        is_closed = event.answer in ("closed", "again") or event.answer == "stopped" and self.stopped(event, member)
        if is_closed and self.get(member.name, "is", "closed") is None:
            self.put(member.name, "is", "closed", {"line": event.number})

    def on_end(self, event, member):
        if event.answer == "said":
            self.put(member.name, "is", "end", {"line": event.number})

    def on_turn(self, event, member):
        found = re.fullmatch(r"epoch (\d+) reverted \d+", event.answer)
        if found:
            self.turn(member, event.number, int(found[1]), schedules.reverted(event))
        elif event.answer == "stopped" and self.stopped(event, member):
            executed = self.entries(member.name, "executed")
            back = [it for it in executed if self.get("txs", it, f"checkpoint {member.name}") is None]
            self.turn(member, event.number, self.get(member.name, "is", "epoch") + 1, back)
            self.note(member, event.number, "its turn is in its records; what it took back follows from its checkpoints, and is not reported")
            self.put(member.name, "is", "silent", {"line": event.number})

    def turn(self, member, line, epoch, back):
        """A member is in the next epoch, and took transactions back."""
        left = self.get(member.name, "is", "epoch")
        for item in [*self.entries(member.name, "locks")]:
            lock = self.get(member.name, "locks", item)
            self.tell("object", item.partition("@")[0], line, f"Member {member.name} leaves epoch {left}: its lock of {item} for {lock['tx']} is gone.")
        for name in back:
            self.take_back(member, line, name, left)
        for section in OF_EPOCH:
            for item in [*self.entries(member.name, section)]:
                self.put(member.name, section, item, None)
        for item in ("closed", "end", "ends"):
            self.put(member.name, "is", item, None)
        self.put(member.name, "is", "epoch", epoch)
        self.put(member.name, "is", "next", 0)

    def take_back(self, member, line, tx, left):
        """A member takes a transaction back: each object has the version before it again."""
        is_ordered = tx in self.sequences.get(left, [])
        why = "no checkpoint of its has it" if is_ordered else f"it stands in no checkpoint, since no `order {tx}` line put it into the sequence of epoch {left}"
        self.put(member.name, "executed", tx, None)
        self.put("txs", tx, f"executed {member.name}", None)
        self.put("txs", tx, f"back {member.name}", {"line": line, "epoch": left})
        self.tell("tx", tx, line, f"Member {member.name} takes it back at the end of epoch {left}: {why}.")
        for name, stack in [*member.stacks.items()]:
            kept = [it for it in stack if it[1] != tx]
            if len(kept) == len(stack):
                continue
            if kept:
                member.stacks[name] = kept
                self.put(member.name, "objects", name, {"v": kept[-1][0], "by": kept[-1][1], "line": kept[-1][2], "sure": True})
                self.tell("object", name, line, f"Member {member.name} takes {tx} back: it has version {kept[-1][0]} again.")
            else:
                member.stacks.pop(name)
                self.put(member.name, "objects", name, None)
                self.tell("object", name, line, f"Member {member.name} takes {tx} back, and with it this object.")

    # -- what waits

    def waiting(self, member):
        """Of each certificate that a member holds now and has not executed: what it waits for, and what to do, as far as it is known."""
        found, executed = [], self.entries(member.name, "executed")
        done = [self.txs[it].words[2:] for it in executed if it in self.txs]
        for tx in self.entries(member.name, "held"):
            stuck = any(tx in self.entries(member.name, it) for it in ("stuck", "dropped", "waiting"))
            if tx in executed or tx not in self.txs or stuck or self.txs[tx].words[2:] in done:
                continue
            shared = [name for kind, name, _ in schedules.references(self.txs[tx]) if kind in ("s", "r")]
            origins = [it for it in self.origins.get(tx, []) if it not in executed]
            if shared and tx not in self.entries(member.name, "admitted"):
                order = "" if tx in self.sequences.get(self.get(member.name, "is", "epoch"), []) else f"an `order {tx}` line puts it there, and "
                found.append((tx, f"{tx} waits for its place in the sequence, since it names the shared object {shared[0]}", f"{order}a `see {member.name}` line hands it to the member"))
            elif origins and not any("executed" in it["text"] for it in self.entries(member.name, "notes").values()):
                found.append((tx, f"{tx} waits for {listed(origins)}, which member {member.name} has not executed", f"`send` or `see` lines hand it the certificate{'s' if origins[1:] else ''}, and a `run` line executes"))
        return found


def admitted_of(answer):
    """The transactions that an entry admitted, and those that it dropped."""
    found = re.fullmatch(r"(?:commit )?admitted (.+?)(?: dropped (.+))?|(?:commit )?dropped (.+)", answer)
    if not found:
        return [], []
    return (found[1] or "").split(), (found[2] or found[3] or "").split()


def owner_of(text):
    """The owner and the content that a show says of an object."""
    words = text.split(" ")
    at = 2 if words[0] == "shared" else 1
    return " ".join(words[:at]), " ".join(words[at:])


def used_up(tx):
    """The objects that a transaction may have used up: inputs that some command takes by value for good."""
    inputs, found = language.inputs_of(tx), []
    for name, args in language.commands_of(tx):
        for arg in args[USING_UP[name]] if name in USING_UP else []:
            place = int(arg[1:]) if re.fullmatch(r"i\d+", arg) else len(inputs)
            if place < len(inputs) and inputs[place].startswith("o:"):
                found.append(inputs[place][2:].partition("@")[0])
    return found


def text_of(value):
    """An entry as one line of JSON."""
    return json.dumps(value, separators=(",", ":"), ensure_ascii=True)
