"""One honest member: what it answers to what it is handed. Its records are in the world; taking one again does what the call did."""

from . import block, wire
from .sequence import Admission
from .store import Store
from .tx import Transaction, fault_of


class Refusal(Exception):
    """A call is refused: the word of the report, and what stands behind it."""

    def __init__(self, word, *values):
        super().__init__(word, *values)
        self.word, self.values = word, values


def refuse(applies, word, *values):
    if applies:
        raise Refusal(word, *values)


class Certificate:
    def __init__(self, tx, origins, seals):
        self.tx, self.origins, self.seals = tx, origins, seals
        self.placed, self.same_origins, self.effects = False, False, None


class Member:
    def __init__(self, number, committee, limit, objects):
        self.number, self.committee, self.limit, self.epoch, self.checkpoints = number, committee, limit, 0, 0
        self.open(Store(objects))

    def open(self, store):
        """Begins an epoch with these objects."""
        self.store, self.closed, self.halted, self.ended, self.seen = store, False, None, False, 0
        self.votes, self.locks, self.held, self.cuts = {}, {}, {}, []
        self.admission = Admission(self.limit, store.opening_shared)
        self.ends = set()

    # Votes.

    def vote(self, data, keep):
        """The origins of a vote, and whether it is a new one."""
        self.check_halted()
        value, seal = decoded(wire.SIGNED, data)
        tx = Transaction(value)
        refuse(tx.epoch != self.epoch, "wrong epoch", tx.epoch, self.epoch)
        if tx.digest in self.votes:
            return tx, self.votes[tx.digest], False
        refuse(self.closed, "closed")
        fault = fault_of(tx)
        refuse(fault is not None, "invalid", fault)
        refuse(seal != wire.seal(("user", tx.sender), tx.bytes), "unsealed")
        origins = self.decide(tx)
        keep(("vote", tx, origins))
        self.take_vote(tx, origins)
        return tx, origins, True

    def take_vote(self, tx, origins):
        self.votes[tx.digest] = origins
        self.locks.update({key: tx.digest for key in tx.consumed})

    def decide(self, tx):
        """The origins for a new vote. Each case is tried on all objects before the next one."""
        for case in (self.absent, self.consumed, self.wrong_digest, self.wrong_owner, self.wrong_kind):
            for named in tx.named:
                case(tx, named)
        self.poor_gas(tx)
        for key in tx.consumed:
            refuse(key in self.locks, "locked", key, self.locks.get(key))
        return tuple(self.store.producer((it.id, it.version)) for it in tx.named)

    def absent(self, tx, named):
        is_shared = named.how in ("s", "r")
        there = self.store.has(named.id) if is_shared else self.store.get((named.id, named.version))
        refuse(not there, "absent", (named.id, named.version))

    def consumed(self, tx, named):
        key = named.id, named.version
        if named.how in ("gas", "owned"):
            by = self.store.get(key).consumer
            refuse(by is not None, "consumed", key, by)

    def wrong_digest(self, tx, named):
        if named.digest is not None:
            held = self.store.get((named.id, named.version)).it
            refuse(wire.object_digest(held) != named.digest, "wrong digest", (named.id, named.version))

    def wrong_owner(self, tx, named):
        if named.how in ("gas", "owned"):
            owner = self.store.get((named.id, named.version)).it.owner
            refuse(owner[0] == "address" and owner[1] != tx.sender, "wrong owner", (named.id, named.version))

    def wrong_kind(self, tx, named):
        held = self.store.live.get(named.id) if named.how in ("s", "r") else self.store.get((named.id, named.version)).it
        refuse(held is None or not is_of_kind(named, held), "wrong kind", (named.id, named.version))

    def poor_gas(self, tx):
        held = self.store.get((tx.named[0].id, tx.named[0].version)).it
        refuse(held.content[2] < tx.budget, "poor gas", held.content[2], tx.budget)

    # Certificates.

    def hold(self, data, keep):
        """Whether the certificate is newly held."""
        self.check_halted()
        value, origins, seals = decoded(wire.CERTIFICATE, data)
        certificate = Certificate(Transaction(value), origins, seals)
        tx = certificate.tx
        refuse(tx.epoch != self.epoch, "wrong epoch", tx.epoch, self.epoch)
        if tx.digest in self.held:
            return False
        refuse(self.closed, "closed")
        self.check_certificate(certificate)
        keep(("hold", certificate.tx, origins, seals))
        self.take(certificate)
        refuse(self.halted is not None, "fork", *(self.halted or ()))
        return True

    def check_certificate(self, certificate):
        tx, seals = certificate.tx, certificate.seals
        fault = fault_of(tx) or (13 if len(certificate.origins) != len(tx.named) else None)
        refuse(fault is not None, "shape", fault)
        members = [member for member, _ in seals]
        ascend = all(one < other for one, other in zip(members, members[1:]))
        refuse(not ascend or any(it >= len(self.committee) for it in members), "order")
        weight = sum(self.committee[it] for it in members)
        refuse(3 * weight <= 2 * sum(self.committee), "short stake", weight, sum(self.committee))
        statement = ("vote", tx.epoch, tx.digest, certificate.origins)
        for member, seal in seals:
            refuse(seal != wire.member_seal(member, statement), "bad seal", member)

    def take(self, certificate):
        """Holds a valid certificate that is not held, or halts at a fork."""
        for key in certificate.tx.consumed:
            first = next((it.tx.digest for it in self.held.values() if key in it.tx.consumed), None)
            if first is not None:
                self.halted = (key, first, certificate.tx.digest)
                return
        self.held[certificate.tx.digest] = certificate

    def check_halted(self):
        refuse(self.halted is not None, "halted", *(self.halted or ())[1:])

    # The sequence.

    def see(self, entry):
        """What became of an entry, and the checkpoints that it completed."""
        self.seen += 1
        what = getattr(self, f"see_{entry[0]}")(*entry[1:])
        return what, self.built()

    def see_certificate(self, value, origins, seals):
        certificate = Certificate(Transaction(value), origins, seals)
        tx = certificate.tx
        if tx.epoch != self.epoch:
            return ("ignored", "epoch")
        try:
            self.check_certificate(certificate)
        except Refusal:
            return ("ignored", "certificate")
        if tx.digest in self.held and self.held[tx.digest].placed:
            return ("ignored", "repeat")
        if tx.digest not in self.held:
            self.take(certificate)
            if self.halted:
                return ("fork", *self.halted)
        held = self.held[tx.digest]
        held.placed, held.same_origins = True, held.origins == origins
        admitted, dropped = self.admission.push(certificate)
        return ("taken", admitted, dropped) if admitted or dropped else self.waits(certificate)

    def waits(self, certificate):
        origin = self.admission.missing(certificate)
        if origin is not None:
            return ("pending", certificate.tx.digest, origin)
        return ("deferred", certificate.tx.digest, self.admission.full_for(certificate))

    def see_end(self, member, statement, seal):
        if statement[0] != "end" or statement[1] != self.epoch:
            return ("ignored", "epoch" if statement[0] == "end" else "statement")
        if member >= len(self.committee) or seal != wire.member_seal(member, statement):
            return ("ignored", "seal")
        if member in self.ends:
            return ("ignored", "repeat")
        self.ends.add(member)
        weight, total = sum(self.committee[it] for it in self.ends), sum(self.committee)
        if 3 * weight > 2 * total:
            self.ended = True
            self.cuts.append((self.admission.cut(), True))
        return ("end", member, weight, total, self.ended)

    def see_commit(self):
        txs = self.admission.cut()
        if txs:
            self.cuts.append((txs, False))
        return ("commit", *self.admission.mark())

    def built(self):
        """The checkpoints whose transactions are all executed, by the certificates that were admitted."""
        found = []
        while self.cuts and all(self.is_done(it) for it in self.cuts[0][0]):
            txs, last = self.cuts.pop(0)
            found.append((self.checkpoints, txs, last))
            self.checkpoints += 1
        return found

    def is_done(self, digest):
        return self.held[digest].effects is not None and self.held[digest].same_origins

    # Execution.

    def wants(self, held):
        """For each object the version that is needed, and who must have made it; none where the certificate is not admitted and must be."""
        assigned = iter(self.admission.admitted.get(held.tx.digest, ()))
        if held.tx.is_shared and held.tx.digest not in self.admission.admitted:
            return None
        found = []
        for named, origin in zip(held.tx.named, held.origins):
            version, maker = next(assigned) if named.how in ("s", "r") else (named.version, origin)
            found.append(((named.id, version), maker))
        return found

    def first_missing(self, wants):
        """The first version that is not there, or was made by another transaction."""
        for key, maker in wants:
            held = self.store.get(key)
            if held is None or held.producer != maker:
                return key
        return None

    def objects_for(self, held):
        """What a certificate is executed on, where it is ready."""
        wants = self.wants(held)
        if held.effects is not None or wants is None or self.first_missing(wants):
            return None
        objects = [self.store.get(key).it for key, _ in wants]
        return objects if block.fits(held.tx, objects) else None

    def run(self):
        """What was executed, in rounds, and what is left."""
        done = []
        while True:
            ready = [(held, self.objects_for(held)) for held in self.held.values()]
            ready = [(held, objects) for held, objects in ready if objects is not None]
            if not ready:
                return done, self.left()
            done += [self.execute(held, objects) for held, objects in ready]

    def execute(self, held, objects):
        status, version, effects, written, deleted = block.execute(held.tx, objects)
        held.effects = effects
        self.store.write(held.tx, written, deleted)
        return held.tx, status, version

    def left(self):
        found = []
        for held in self.held.values():
            wants = self.wants(held)
            if held.effects is None and wants is not None and self.is_executed([*held.origins, *(it for _, it in wants)]):
                key = self.first_missing(wants)
                found.append((held.tx.digest, key))
        return found

    def is_executed(self, digests):
        return all(it is None or (it in self.held and self.held[it].effects is not None) for it in digests)

    # The end of an epoch.

    def end(self):
        self.check_halted()
        refuse(not self.closed, "not closed")
        first = next((it.tx.digest for it in self.held.values() if not it.placed), None)
        refuse(first is not None, "waits", first)

    def check_turn(self):
        self.check_halted()
        refuse(not self.ended, "not ended")
        first = next((it for txs, _ in self.cuts for it in txs if not self.is_done(it)), None)
        refuse(first is not None, "waits", first)

    def turn(self):
        """The transactions that are taken back."""
        store, reverted = self.store.turned(self.admission.admitted)
        self.epoch += 1
        self.open(store)
        return reverted

    def acknowledge(self, digest):
        self.check_halted()
        held = self.held.get(digest)
        refuse(held is None or held.effects is None, "not executed")
        return held.effects

    # Records.

    def again(self, record):
        """Does what the call did that kept this record."""
        kind, *values = record
        if kind == "vote":
            self.take_vote(*values)
        elif kind == "hold":
            self.take(Certificate(*values))
        elif kind == "see":
            self.see(*values)
        elif kind == "close":
            self.closed = True
        elif kind == "run":
            self.run()
            self.built()
        else:
            self.turn()


def decoded(kind, data):
    try:
        return wire.decoded(kind, data)
    except wire.Malformed as fault:
        raise Refusal("malformed", fault.at, fault.why) from fault


def is_of_kind(named, held):
    if named.how == "gas":
        return held.owner[0] == "address" and held.content[:2] == ("coin", 0)
    if named.how == "owned":
        return held.owner[0] == "address"
    return held.owner == (("frozen",) if named.how == "immutable" else ("shared", named.version))
