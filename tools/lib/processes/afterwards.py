"""What is looked at after a run: the promises of each member, the chain, and the same run as a schedule."""

import re
import subprocess

import wire

CLASSES = {"again": "given", "voted": "given", "held": "given", "closed": "given", "said": "given", "end": "given", "ack": "given"}


class Afterwards:
    """Counts what holds and says what does not."""

    def __init__(self, committee):
        self.committee = committee
        self.passed = self.failed = 0
        self.chain = []

    def expect(self, what, holds, more=""):
        self.passed, self.failed = self.passed + bool(holds), self.failed + (not holds)
        if not holds:
            print(f"FAILED: {what}{f': {more}' if more else ''}")

    def members(self):
        """What each member said over its lives, and what its file has."""
        for member in self.committee.members:
            state = member.ask("state")
            self.expect(f"the state of member {member.number}", state.endswith(" ok"), state)
            self.expect(f"where the lives of member {member.number} begin", not member.faults, "; ".join(member.faults[:3]))
            self.expect(f"what member {member.number} said twice", not member.given.contradicted, "; ".join(member.given.contradicted[:1]))
            twice = self.versions_voted_for_twice(member)
            self.expect(f"versions for which member {member.number} voted twice", not twice, f"{twice[:1]}")
            lost = self.votes_not_kept(member)
            self.expect(f"votes of member {member.number} that its file lacks", not lost, f"{len(lost)}")

    def versions_voted_for_twice(self, member):
        """The versions of one epoch that two transactions consume which the member voted for in any life."""
        found, by = [], {}
        for epoch, _, of in member.given.votes:
            about = (epoch, self.committee.wallets.made[of].consumes)
            if by.setdefault(about, of) != of:
                found.append(about)
        return found

    def votes_not_kept(self, member):
        """The votes that were given and do not stand in the member's file."""
        stand = {record for place, record in wire.records(member.start_words[3]) if place == member.number}
        found = []
        for (_, _, of), spelled in member.given.votes.items():
            said = wire.read_sealed(spelled)
            if b"\x00" + self.committee.wallets.made[of].spelled + wire.origins(said.what[1]) not in stand:
                found.append(of)
        return found

    def certificates(self):
        """No two certificates of one epoch consume one version."""
        spent, twice = {}, []
        for made in self.committee.certificates:
            if spent.setdefault((made.epoch, made.consumes), made) is not made:
                twice.append(made.name)
        self.expect("certificates that consume one version", not twice, ", ".join(twice[:3]))

    def checkpoints(self):
        """Every member has the same checkpoints; the chain of them is sealed by all of them."""
        count = int(self.committee.members[0].ask("state").split(" ")[10])
        for place in range(count + 1):
            answers = {it.number: it.ask(f"checkpoint {place}").split(" ") for it in self.committee.members}
            spelled = {words[1] if words[0] == "checkpoint" else "none" for words in answers.values()}
            alike = len(spelled) == 1 and (spelled == {"none"}) == (place == count)
            self.expect(f"checkpoint {place} of all members", alike, str({number: words[0] for number, words in answers.items()}))
            if place < count and len(spelled) == 1:
                seals = [(number, wire.read_sealed(bytes.fromhex(words[2])).seal) for number, words in answers.items()]
                self.chain.append((bytes.fromhex(*spelled), seals))

    def bytes_of_chain(self):
        return wire.sequence([wire.link(*it) for it in self.chain])

    def finals(self):
        """Every transaction that was final stands in the chain, with the effects that were acknowledged."""
        stands = dict(item for spelled, _ in self.chain for item in wire.read_checkpoint(spelled).items)
        lost = [self.committee.wallets.made[it].name for it, effects in self.committee.final.items() if stands.get(it) != effects]
        self.expect("final transactions that the chain lacks", not lost, ", ".join(lost[:5]))
        self.expect("any transaction is final", self.committee.final)

    def certified(self, program, samples=3):
        """`committee check` certifies the chain by the stakes, with some of the final transactions in it."""
        given, stakes = self.bytes_of_chain(), ",".join(["1"] * self.committee.size)
        for of in list(self.committee.final)[-samples:]:
            ran = subprocess.run([program, "check", stakes, of.hex()], input=given, capture_output=True)
            wanted = rf"certified {len(self.chain)} included in \d+\n"
            self.expect("the chain by `committee check`", ran.returncode == 0 and re.fullmatch(wanted, ran.stdout.decode()), ran.stdout.decode())

    def text(self, most=None):
        """The run as a schedule, or its first events."""
        return self.committee.genesis + "".join(f"{line}\n" for line in self.committee.log.lines[:most])

    def same_schedule(self, program, most):
        """`committee run` answers the first events of the run as the processes answered them."""
        ran = subprocess.run([program, "run"], input=self.text(most).encode(), capture_output=True)
        self.expect("the schedule of the run", ran.returncode == 0, f"status {ran.returncode}: {ran.stdout[-200:].decode()}")
        heads = [line for line in ran.stdout.decode().split("\n") if line and not line.startswith("  ")]
        self.expect("a line of the report for each line of the schedule", len(heads) == len(self.committee.log.lines[:most]))
        others = self.other_answers(heads)
        self.expect("answers of processes and of `committee run`", not others, "; ".join(others[:3]))
        others = [line for line in heads if line.startswith("final ") and ": final by " not in line]
        self.expect("finals of `committee run`", not others, "; ".join(others[:3]))

    def same_chain(self, program, most):
        """`inspect` finds of each member the front of this chain that it has after the first events, and nobody to blame.

        Where the events are cut, a member may be down, and of those that are up one may have built more than another.
        """
        text, whole = self.text(most).encode(), most is None or most >= len(self.committee.log.lines)
        counts, others = [], []
        for number in (it.number for it in self.committee.members):
            ran = subprocess.run([program, "chain", str(number), str(number)], input=text, capture_output=True)
            if ran.stdout == f"inspect chain {number}: no honest member that is up\n".encode() and not whole:
                continue
            counts.append(wire.Reader(ran.stdout or b"\x00").length())
            front = self.chain[: counts[-1]]
            wanted = wire.sequence([wire.link(spelled, [it for it in seals if it[0] == number]) for spelled, seals in front])
            if ran.returncode or ran.stdout != wanted:
                others.append(f"member {number}: status {ran.returncode}, {len(ran.stdout)} bytes")
        count = max(counts, default=0)
        complete = not whole or set(counts) == {len(self.chain)}
        self.expect("the chains of `inspect chain`", not others and complete and (count or not counts), "; ".join(others))
        ran = subprocess.run([program, "blame"], input=text, capture_output=True)
        self.expect("blame by `inspect blame`", ran.returncode == 0 and ran.stdout == b"", ran.stdout.decode())
        return count

    def other_answers(self, heads):
        """Where a report answers something else than a process did. What a process did and could not say is not compared."""
        said = {}
        for member in self.committee.members:
            said.update(member.by_line)
        found = []
        for place, head in enumerate(heads):
            answer = said.get(place)
            if answer and in_one_word(answer, self.committee.log.lines[place]) != of_report(head):
                found.append(f"{head!r} where a process answered {answer[:80]!r}")
        return found


def in_one_word(answer, line):
    """What a process answered, by its first word or its cause."""
    words, asked = answer.split(" "), line.split(" ")[0]
    if asked in ("see", "run", "turn"):
        return asked if words[0] in ("seen", "ran", "turned") else " ".join(words[:2])
    if words[0] == "refused":
        return words[1]
    return CLASSES.get(words[0], words[0])


def of_report(head):
    """The same of a line of a report."""
    event, _, said = head.partition(": ")
    asked, words = event.split(" ")[0], said.split(" ")
    if asked == "see" and words[0] in ("admitted", "pending", "deferred", "dropped", "commit", "end", "ignored"):
        return "see"
    if asked == "run" and words[0] == "executed":
        return "run"
    if asked == "turn" and words[0] == "epoch":
        return "turn"
    return CLASSES.get(words[0], words[0])
