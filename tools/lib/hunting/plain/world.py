"""The committee and the sequence: each event of a schedule is one step, and gives its lines of the report."""

from . import text, wire
from .member import Member, Refusal
from .names import Names
from .tx import Object, Transaction

EVENT_WITH_STOP = ("vote", "send", "raw", "see", "run", "close", "turn")


class Stopped(Exception):
    """A member stopped at its record."""


class Made:
    """A transaction that a line made, under one name."""

    def __init__(self, tx, signed):
        self.tx, self.signed, self.certificate = tx, signed, None


class Seat:
    """An honest member: its records, the stop that is armed, and the member while it is up."""

    def __init__(self, make):
        self.make, self.records, self.armed, self.member = make, [], None, make()

    def keep(self, record):
        armed, self.armed = self.armed, None
        if armed != "lost":
            self.records.append(record)
        if armed:
            self.member = None
            raise Stopped

    def restart(self):
        self.armed, self.member = None, self.make()
        for record in self.records:
            self.member.again(record)


class World:
    def __init__(self):
        self.stakes, self.roles, self.limit, self.objects, self.ids, self.names = [], [], None, [], {}, Names()
        self.seats, self.made, self.votes, self.acks, self.ends = None, {}, {}, {}, {}
        self.entries, self.open_ends = [[]], set()

    def step(self, event):
        """The lines that an event gives."""
        does = getattr(self, f"do_{event.word}")
        if event.word in ("member", "coin", "counter", "cap", "writers"):
            does(*event.values)
            return []
        if self.seats is None:
            self.open()
        said = does(*event.values)
        return [said] if isinstance(said, str) else said

    # The set-up.

    def do_member(self, stake, role):
        self.stakes.append(stake)
        self.roles.append(role)

    def do_writers(self, limit):
        self.limit = limit

    def add(self, name, owner, content):
        id = wire.genesis_id(len(self.ids))
        self.ids[name] = id
        self.names.setup(name, id)
        self.objects.append(Object(id, 1, owner, content))

    def do_coin(self, name, owner, balance):
        self.add(name, ("address", self.names.user(owner)), ("coin", 0, balance))

    def do_counter(self, name, value):
        self.add(name, ("shared", 1), ("counter", value))

    def do_cap(self, name, owner, currency):
        self.add(name, ("address", self.names.user(owner)), ("cap", currency, 0))

    def open(self):
        def seat(number):
            return Seat(lambda: Member(number, self.stakes, self.limit, self.objects))

        self.seats = [seat(number) if role == "honest" else None for number, role in enumerate(self.roles)]

    # Names and references.

    def up(self):
        """The honest members that are up, by their numbers."""
        return [seat.member for seat in self.seats if seat and seat.member]

    def id_of(self, it):
        return self.ids[it] if isinstance(it, str) else self.names.write_created(self.made[it[0]].tx.digest, it[1])

    def reference(self, it, version, spoiled):
        id = self.id_of(it)
        held = next((member.store.get((id, version)) for member in self.up() if member.store.get((id, version))), None)
        digest = wire.object_digest(held.it) if held else wire.ZERO
        return id, version, wire.spoiled(digest) if spoiled else digest

    def input(self, sort, value):
        if sort in "nax":
            return ("pure", wire.U64.put(value) if sort == "n" else self.names.user(value) if sort == "a" else value)
        if sort in "oi":
            return ("owned" if sort == "o" else "immutable", self.reference(*value))
        return ("shared", self.id_of(value[0]), value[1], sort == "s")

    def do_tx(self, name, sender, spoiled, epoch, gas, budget, inputs, commands):
        address = self.names.user(sender)
        value = epoch, address, self.reference(*gas), budget, tuple(self.input(*it) for it in inputs), tuple(commands)
        tx = Transaction(value)
        signed = tx.sealed()
        if spoiled:
            signed = signed[:-32] + wire.spoiled(signed[-32:])
        self.made[name] = Made(tx, signed)
        self.names.tx(name, tx)
        return f"tx {name}: made"

    # Calls of members.

    def asked(self, head, number, call):
        """The line of a call: what `call` answers of the seat, or why there is no answer."""
        seat = self.seats[number]
        if seat.member is None:
            return f"{head}: down"
        try:
            return f"{head}: {call(seat)}"
        except Stopped:
            return f"{head}: stopped"
        except Refusal as refusal:
            return f"{head}: {self.refused(refusal)}"

    def refused(self, refusal):
        """The words of a refusal."""
        values = refusal.values
        if refusal.word in ("absent", "wrong digest", "wrong owner", "wrong kind"):
            return f"{refusal.word} {self.names.of_key(values[0])}"
        if refusal.word in ("consumed", "locked"):
            return f"{refusal.word} {self.names.of_key(values[0])} by {self.names.of_tx(values[1])}"
        if refusal.word == "fork":
            return self.forked(*values)
        if refusal.word in ("halted", "waits"):
            return " ".join([refusal.word, *(self.names.of_tx(it) for it in values)])
        between = {"malformed": ("at ", " why "), "wrong epoch": ("had ", " want "), "poor gas": ("had ", " want "), "short stake": ("", " of ")}.get(refusal.word, ("", ""))
        return refusal.word + "".join(f"{' ' if not place else ''}{between[place]}{it}" for place, it in enumerate(values))

    def forked(self, key, first, second):
        return f"fork {self.names.of_key(key)} {self.names.of_tx(first)} {self.names.of_tx(second)}"

    def origins(self, origins):
        return "".join(f" {'-' if it is None else self.names.of_tx(it)}" for it in origins)

    def hand_vote(self, head, number, data):
        def call(seat):
            tx, origins, is_new = seat.member.vote(data, seat.keep)
            self.votes.setdefault(tx.digest, {})[number] = origins
            return ("voted" if is_new else "again") + self.origins(origins)

        return self.asked(head, number, call)

    def hand_certificate(self, head, number, data):
        return self.asked(head, number, lambda seat: "held" if seat.member.hold(data, seat.keep) else "again")

    def do_vote(self, number, name):
        return self.hand_vote(f"vote {number} {name}", number, self.made[name].signed)

    def do_send(self, number, name):
        if self.made[name].certificate is None:
            return f"send {number} {name}: no certificate"
        return self.hand_certificate(f"send {number} {name}", number, self.made[name].certificate)

    def do_raw(self, number, call, data):
        hand = self.hand_vote if call == "vote" else self.hand_certificate
        return hand(f"raw {number} {call}", number, data)

    def do_fvote(self, number, name, words):
        tx = self.made[name].tx
        votes = self.votes.setdefault(tx.digest, {})
        honest = [votes[it] for it in sorted(votes) if self.roles[it] == "honest"]
        said = [None if it is None else self.made[it].tx.digest for it in words]
        votes[number] = tuple(said) if words else honest[0] if honest else (None,) * len(tx.named)
        return f"fvote {number} {name}: voted{self.origins(votes[number])}"

    def collected(self, stated, members, thing):
        """What these members stated, where a quorum said the same, or why it is not collected."""
        for it in members:
            refuse_collect(it not in stated, f"no {thing} of {it}")
        weight, total = sum(self.stakes[it] for it in members), sum(self.stakes)
        refuse_collect(3 * weight <= 2 * total, f"short {weight} of {total}")
        for it in members:
            refuse_collect(stated[it] != stated[members[0]], f"differ {members[0]} {it}")
        return stated[members[0]]

    def do_cert(self, name, members):
        made = self.made[name]
        try:
            origins = self.collected(self.votes.get(made.tx.digest, {}), members, "vote")
        except Refusal as refusal:
            return f"cert {name}: {refusal.word}"
        statement = ("vote", made.tx.epoch, made.tx.digest, origins)
        seals = tuple((it, wire.member_seal(it, statement)) for it in members)
        made.certificate = wire.CERTIFICATE.put((made.tx.value, origins, seals))
        return f"cert {name}: formed by {' '.join(map(str, members))}"

    # The sequence.

    def append(self, entry):
        self.entries[-1].append(entry)
        return f"entry {len(self.entries[-1]) - 1}"

    def do_order(self, what, value):
        if what == "commit":
            return f"order commit: {self.append(('commit',))}"
        if what == "end":
            return f"order end {value}: {self.order_end(value)}"
        made = self.made[value]
        if made.certificate is None:
            return f"order {value}: no certificate"
        if made.tx.epoch != len(self.entries) - 1:
            return f"order {value}: not taken"
        return f"order {value}: {self.append(('certificate', *wire.decoded(wire.CERTIFICATE, made.certificate)))}"

    def order_end(self, number):
        epoch = len(self.entries) - 1
        if self.seats[number] is None:
            self.ends[number] = epoch
        if number not in self.ends:
            return "no statement"
        if self.ends[number] != epoch:
            return "not taken"
        statement = ("end", epoch)
        said = self.append(("end", number, statement, wire.member_seal(number, statement)))
        self.open_ends.add(number)
        if 3 * sum(self.stakes[it] for it in self.open_ends) > 2 * sum(self.stakes):
            self.entries.append([])
            self.open_ends = set()
        return said

    def do_see(self, number, count):
        seat, lines = self.seats[number], []
        if seat.member is None:
            return f"see {number}: down"
        if seat.member.halted:
            return f"see {number}: halted {' '.join(map(self.names.of_tx, seat.member.halted[1:]))}"
        entries, first = self.entries[seat.member.epoch], seat.member.seen
        for place in range(first, min(first + count, len(entries))):
            lines += self.see_entry(seat, f"see {number} entry {place}", entries[place])
            if seat.member is None or seat.member.halted:
                break
        return lines or f"see {number}: nothing"

    def see_entry(self, seat, head, entry):
        try:
            seat.keep(("see", entry))
        except Stopped:
            return [f"{head}: stopped"]
        what, built = seat.member.see(entry)
        return [f"{head}: {self.seen(*what)}", *self.checkpoints(built)]

    def seen(self, what, *values):
        """The words of what became of an entry."""
        if what in ("taken", "commit"):
            parts = [(word, "".join(f" {self.names.of_tx(it)}" for it in txs)) for word, txs in zip(("admitted", "dropped"), values)]
            return " ".join(([what] if what == "commit" else []) + [word + txs for word, txs in parts if txs])
        if what == "pending":
            return f"pending {self.names.of_tx(values[0])} on {self.names.of_tx(values[1])}"
        if what == "deferred":
            return f"deferred {self.names.of_tx(values[0])} on {self.names.of_object(values[1])}"
        if what == "end":
            member, weight, total, ended = values
            return f"end of {member} weight {weight} of {total}{', epoch ended' if ended else ''}"
        return self.forked(*values) if what == "fork" else f"ignored {values[0]}"

    def checkpoints(self, built):
        return [f"  checkpoint {number}:{''.join(f' {self.names.of_tx(it)}' for it in txs)}{' last' if last else ''}" for number, txs, last in built]

    # Execution and the end of an epoch.

    def do_run(self, number, workers):
        more = []

        def call(seat):
            member = seat.member
            member.check_halted()
            done, left = member.run()
            if done:
                seat.keep(("run",))
            more.extend(f"  {self.names.of_tx(tx.digest)} {ended(*status)} v{version} gas {tx.cost}" for tx, status, version in done)
            more.extend(f"  {self.names.of_tx(it)} {f'absent {self.names.of_key(key)}' if key else 'unfit'}" for it, key in left)
            more.extend(self.checkpoints(member.built()))
            return f"executed {len(done)}"

        return [self.asked(f"run {number}", number, call), *more]

    def do_close(self, number):
        def call(seat):
            seat.member.check_halted()
            if seat.member.closed:
                return "again"
            seat.keep(("close",))
            seat.member.closed = True
            return "closed"

        return self.asked(f"close {number}", number, call)

    def do_end(self, number):
        def call(seat):
            seat.member.end()
            self.ends[number] = seat.member.epoch
            return "said"

        return self.asked(f"end {number}", number, call)

    def do_turn(self, number):
        more = []

        def call(seat):
            seat.member.check_turn()
            seat.keep(("turn",))
            reverted = seat.member.turn()
            more.extend(f"  reverted {self.names.of_tx(it)}" for it in reverted)
            return f"epoch {seat.member.epoch} reverted {len(reverted)}"

        return [self.asked(f"turn {number}", number, call), *more]

    def do_show(self, number):
        member = self.seats[number].member
        if member is None:
            return f"show {number}: down"
        objects = sorted(member.store.live_objects(), key=lambda it: self.names.rank(it.id)[:-1])
        return [f"show {number}: epoch {member.epoch} objects {len(objects)}", *(f"  {self.shown(it)}" for it in objects)]

    def shown(self, it):
        owner = {"address": lambda: self.names.of_user(it.owner[1]), "shared": lambda: f"shared {it.owner[1]}"}.get(it.owner[0], lambda: "frozen")()
        kind, *values = it.content
        values = [self.names.of_object(values[0])] if kind == "key" else values
        return f"{self.names.of_object(it.id)} v{it.version} {owner} {kind} {' '.join(map(str, values))}"

    # Stops and finality.

    def do_stop(self, number, what):
        self.seats[number].armed = what
        return f"stop {number}: armed {what}"

    def do_restart(self, number):
        self.seats[number].restart()
        return f"restart {number}: records {len(self.seats[number].records)}"

    def do_ack(self, number, name, spoiled):
        digest = self.made[name].tx.digest
        if self.seats[number] is None:
            copied = next((it.held[digest].effects for it in self.up() if digest in it.held and it.held[digest].effects), wire.ZERO)
            self.acks.setdefault(digest, {})[number] = wire.spoiled(copied) if spoiled else copied
            return f"ack {number} {name}: said"

        def call(seat):
            self.acks.setdefault(digest, {})[number] = seat.member.acknowledge(digest)
            return "said"

        return self.asked(f"ack {number} {name}", number, call)

    def do_final(self, name, members):
        try:
            self.collected(self.acks.get(self.made[name].tx.digest, {}), members, "ack")
        except Refusal as refusal:
            return f"final {name}: {refusal.word}"
        return f"final {name}: final by {' '.join(map(str, members))}"


def refuse_collect(applies, why):
    if applies:
        raise Refusal(why)


def ended(how, command=0, number=0):
    """The words of a status."""
    if how == "done":
        return how
    return f"{how} at {command} {'cause' if how == 'failed' else 'code'} {number}"


def run(data):
    """The status and the report of a schedule."""
    try:
        events = text.read(data)
    except text.Refused as refused:
        return 3, f"refused line {refused.line} cause {refused.cause}\n".encode()
    world = World()
    lines = [line for event in events for line in world.step(event)]
    return 0, "".join(f"{line}\n" for line in lines).encode()
