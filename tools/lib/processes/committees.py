"""A committee of processes: rounds of votes, certificates, entries, runs and acknowledgements, and the end of an epoch."""

import concurrent.futures
import threading
import time

import members
import process
import wire

WORKERS = 4
PATIENCE = 600


class Faulty:
    """A member without a process that signs whatever it is asked, and says now and then that effects were others."""

    def __init__(self, number, log, chance):
        self.number, self.log, self.chance = number, log, chance
        self.signed = 0

    def sign(self, statement):
        self.signed += 1
        return wire.read_sealed(wire.sealed(self.number, statement))

    def vote(self, made, made_by):
        self.log.say(f"fvote {self.number} {made.name}")
        return self.sign(wire.vote(made.epoch, made.digest, made_by))

    def acknowledge(self, made, effects):
        """Says these effects, or others."""
        spoiled = self.chance.random() < 0.2
        self.log.say(f"ack {self.number} {made.name}{' !' if spoiled else ''}")
        said = bytes([effects[0] ^ 1]) + effects[1:] if spoiled else effects
        return self.sign(wire.acknowledgement(made.epoch, made.digest, said))


class Round:
    """What is known of the transactions that are under way in an epoch."""

    def __init__(self):
        self.open, self.votes, self.certified, self.acknowledged = [], {}, {}, {}


class Committee:
    """The processes, the wallets and the sequencer. All members have one stake."""

    def __init__(self, program, folder, size, faulty, wallets, sequence, chance, garbage=0.0):
        self.size, self.wallets, self.sequence, self.chance, self.garbage = size, wallets, sequence, chance, garbage
        self.log, self.epoch, self.lock = members.Log(), 0, threading.Lock()
        honest = size - faulty
        genesis = ["member 1 honest"] * honest + ["member 1 faulty"] * faulty + wallets.genesis()
        self.genesis = "".join(f"{line}\n" for line in genesis)
        with open(f"{folder}/genesis", "w", encoding="utf-8") as it:
            it.write(self.genesis)
        for number in range(honest):
            process.made(program, number, f"{folder}/genesis", f"{folder}/journal-{number}")
        self.members = [members.Member(program, it, f"{folder}/genesis", f"{folder}/journal-{it}", self.log) for it in range(honest)]
        self.faulty = [Faulty(honest + it, self.log, chance) for it in range(faulty)]
        self.now = Round()
        self.certificates, self.final, self.refused, self.rounds, self.spoiled = [], {}, {}, 0, 0
        self.seconds = {}
        self.pool = concurrent.futures.ThreadPoolExecutor(max(1, honest))

    def is_quorum(self, count):
        return 3 * count > 2 * self.size

    def each(self, name, what):
        """Has `what` done with each member that is up, side by side. Answers how many it was done with."""

        def one(member):
            try:
                member.settle()
                what(member)
            except members.Down:
                return 0
            return 1

        began = time.monotonic()
        try:
            return sum(self.pool.map(one, self.members))
        finally:
            self.seconds[name] = self.seconds.get(name, 0) + time.monotonic() - began

    def add(self, entry, event=None):
        """Appends an entry to the sequence of the open epoch."""
        began = time.monotonic()
        self.sequence.add(self.epoch, entry)
        if event:
            self.log.say(event)
        self.seconds["order"] = self.seconds.get("order", 0) + time.monotonic() - began

    def ask_votes(self, member):
        """Asks a member for its votes for all that is under way, in an order of its own; now and then once more."""
        with self.lock:
            batch = self.chance.sample(self.now.open, len(self.now.open))
            again = {it.digest for it in batch if self.chance.random() < 0.1}
        for made in batch:
            votes = self.now.votes[made.digest]
            if member.number in votes and made.digest not in again:
                continue
            answer = member.ask(f"vote {made.sealed.hex()}", f"vote {member.number} {made.name}")
            words = answer.split(" ")
            if words[0] in ("voted", "again"):
                votes[member.number] = wire.read_sealed(bytes.fromhex(words[1]))
            elif answer:
                cause = " ".join(words[1:3]) if words[1] == "wrong" else words[1]
                with self.lock:
                    self.refused[cause] = self.refused.get(cause, 0) + 1

    def certify(self, made):
        """Forms the certificate of a transaction if members enough gave one vote. Answers its bytes, or none."""
        votes = self.now.votes[made.digest]
        said = [it.what[1] for it in votes.values()]
        made_by = max(said, key=said.count, default=(None,) * made.objects)
        for faulty in self.faulty:
            if faulty.number not in votes:
                votes[faulty.number] = faulty.vote(made, made_by)
        same = sorted(number for number, it in votes.items() if it.what[1] == made_by)
        if not self.is_quorum(len(same)):
            return None
        self.log.say(f"cert {made.name} {' '.join(map(str, same))}")
        return wire.certificate(made.spelled, made_by, [(number, votes[number].seal) for number in same])

    def certify_all(self):
        """Forms what certificates can be formed, and appends them and a mark to the sequence."""
        formed = {it: self.certify(it) for it in self.now.open}
        for made, certificate in formed.items():
            if certificate:
                self.now.certified[made.digest] = certificate
                self.certificates.append(made)
        spent = {it.consumes for it, certificate in formed.items() if certificate}
        self.now.open = [it for it in self.now.open if it.consumes not in spent]
        return [it for it, certificate in formed.items() if certificate]

    def hold(self, member, batch):
        """Hands a member some of the certificates before the sequence does."""
        for made in batch:
            if made.digest[member.number % 32] % 2:
                member.ask(f"hold {self.now.certified[made.digest].hex()}", f"send {member.number} {made.name}")

    def catch_up(self, member):
        """Hands a member what it has not seen of the sequence, has it run, and turns it until it is in the open epoch."""
        while True:
            for entry in self.sequence.since(member.epoch, member.seen):
                member.ask(f"see {member.seen} {entry.hex()}", f"see {member.number} 1")
            member.ask(f"run {WORKERS}", f"run {member.number} {WORKERS}")
            if member.epoch == self.epoch:
                return
            answer = member.ask("turn", f"turn {member.number}")
            if answer.startswith("refused"):
                member.faults.append(f"member {member.number}, turn: {answer}")
                return

    def ask_acknowledgements(self, member):
        """Asks a member for what it says of each certified transaction."""
        for digest, said in list(self.now.acknowledged.items()):
            if member.number not in said:
                name = self.wallets.made[digest].name
                words = member.ask(f"ack {digest.hex()}", f"ack {member.number} {name}").split(" ")
                if words[0] == "ack":
                    said[member.number] = wire.read_sealed(bytes.fromhex(words[1])).what[1]

    def conclude(self):
        """Finds which transactions are final now, and asks what they did."""
        for digest, said in list(self.now.acknowledged.items()):
            made = self.wallets.made[digest]
            if said:
                effects = said[min(said)]
                said.update({it.number: it.acknowledge(made, effects).what[1] for it in self.faulty if it.number not in said})
                same = sorted(it for it, what in said.items() if what == effects)
                if self.is_quorum(len(same)) and self.learn(made, effects):
                    self.log.say(f"final {made.name} {' '.join(map(str, same))}")
                    self.final[digest] = effects
                    del self.now.acknowledged[digest]

    def learn(self, made, effects):
        """Asks members for the effects of a transaction until one has them, and hands them to the wallets."""
        for member in self.members:
            try:
                member.settle()
                words = member.ask(f"effects {made.digest.hex()}").split(" ")
            except members.Down:
                continue
            if words[0] == "effects":
                spelled = bytes.fromhex(words[1])
                if wire.digest(b"E", spelled) != effects:
                    member.faults.append(f"member {member.number}: effects of {made.name} are not those that were acknowledged")
                self.wallets.executed(wire.read_effects(spelled))
                return True
        return False

    def round(self, most, double):
        """New transactions, and each step for all that is under way."""
        self.rounds += 1
        self.each("catch up", self.catch_up)
        batch = self.wallets.spend(self.epoch, most, double)
        for made in batch:
            self.log.say(made.line)
            self.now.votes[made.digest] = {}
        self.now.open += batch
        self.each("vote", self.ask_votes)
        certified = self.certify_all()
        self.each("hold", lambda it: self.hold(it, certified))
        for made in certified:
            self.now.acknowledged[made.digest] = {}
            self.add(wire.entry_of_certificate(self.now.certified[made.digest]), f"order {made.name}")
            self.spoil()
        self.add(wire.MARK, "order commit")
        self.each("see and run", self.catch_up)
        self.each("acknowledge", self.ask_acknowledgements)
        self.conclude()

    def spoil(self):
        """Appends bytes that are no entry now and then, as anybody may who reaches the log."""
        if self.chance.random() < self.garbage:
            self.add(self.chance.choice((b"", b"\x07", b"\x00\x01", self.chance.randbytes(40), b"\x01" + wire.sealed(0, wire.end(self.epoch))[:-1] + b"\x00")))
            self.spoiled += 1

    def state_end(self, member, ends):
        """Closes a member that has seen all, and asks for its End."""
        self.catch_up(member)
        if member.number not in ends:
            member.ask("close", f"close {member.number}")
            words = member.ask("end", f"end {member.number}").split(" ")
            if words[0] == "end":
                ends[member.number] = bytes.fromhex(words[1])
            elif words[0]:
                member.faults.append(f"member {member.number}, end: {' '.join(words)}")

    def acknowledge_all(self):
        """Waits until each certified transaction of the epoch is final, so that the wallets know what became of their coins."""
        until = time.monotonic() + PATIENCE
        while self.now.acknowledged:
            if time.monotonic() > until:
                raise TimeoutError("a certified transaction does not become final")
            self.each("catch up", self.catch_up)
            self.each("acknowledge", self.ask_acknowledgements)
            self.conclude()

    def turn(self):
        """Ends the epoch by the Ends of a quorum, and turns all that are up."""
        self.acknowledge_all()
        ends, until = {it.number: wire.sealed(it.number, wire.end(self.epoch)) for it in self.faulty}, time.monotonic() + PATIENCE
        while not self.is_quorum(len(ends)):
            if time.monotonic() > until:
                raise TimeoutError("there are no Ends of a quorum")
            self.each("end", lambda it: self.state_end(it, ends))
        for number in sorted(ends)[: 2 * self.size // 3 + 1]:
            self.add(wire.entry_of_end(ends[number]), f"order end {number}")
        self.epoch += 1
        self.now = Round()
        self.each("turn", self.catch_up)

    def settle(self):
        """Waits until each member is up, has answered all, and has seen the whole sequence."""
        until = time.monotonic() + PATIENCE
        while self.each("catch up", self.catch_up) < len(self.members):
            if time.monotonic() > until:
                raise TimeoutError("a member does not come up")
            time.sleep(0.05)
        self.acknowledge_all()

    def stop(self):
        """Ends all processes by the end of their input. Answers their statuses."""
        return [it.stop() for it in self.members]
