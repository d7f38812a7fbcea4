"""Values as bytes and what is to be said of them, written from docs/FORMATS.md and docs/COMMANDS.md alone.

It shares nothing with the library but these pages. A fault is the pair of its offset and its kind.
"""

import hashlib

SECRET = b"\x5a" * 32
ZERO = bytes(32)


class Fault(Exception):
    """The first wrong byte of an input."""

    def __init__(self, at, why):
        super().__init__(at, why)
        self.at, self.why = at, why


# ---- writing


def number(value, width):
    return value.to_bytes(width, "little")


def length(value):
    """A number in bytes of seven bits, the lowest first."""
    out = bytearray()
    while value > 127:
        out.append(value & 127 | 128)
        value >>= 7
    return bytes(out) + bytes([value])


def sequence(items):
    return length(len(items)) + b"".join(items)


def tagged(tag, given):
    return hashlib.sha256(tag.encode() + given).digest()


def seal(member, statement):
    return tagged("S", SECRET + b"\x00" + number(member, 4) + statement)


def vote(epoch, tx, origins):
    return b"\x00" + number(epoch, 8) + tx + sequence([b"\x00" if it is None else b"\x01" + it for it in origins])


def checkpoint_statement(epoch, place, digest):
    return b"\x02" + number(epoch, 8) + number(place, 8) + digest


def acknowledgement(epoch, tx, effects):
    return b"\x03" + number(epoch, 8) + tx + effects


def sealed(member, statement, by=None):
    return number(member, 4) + statement + (by if by is not None else seal(member, statement))


def reference_to(name, version, digest):
    return name + number(version, 8) + digest


def transaction(sender, gas, epoch=0, budget=2000, inputs=(), commands=(b"\x00\x00\x00",)):
    """A transaction; its command calls native 0 with no arguments unless others are given."""
    return number(epoch, 8) + sender + gas + number(budget, 8) + sequence(list(inputs)) + sequence(list(commands))


def certificate(tx, origins, members, epoch=0):
    statement = vote(epoch, tagged("T", tx), origins)
    listed = sequence([b"\x00" if it is None else b"\x01" + it for it in origins])
    return tx + listed + sequence([number(it, 4) + seal(it, statement) for it in members])


def checkpoint(epoch, place, parent, items=(), last=False):
    return number(epoch, 8) + number(place, 8) + parent + sequence([tx + effects for tx, effects in items]) + bytes([last])


def link(of, epoch, place, members=(0, 1, 2)):
    statement = checkpoint_statement(epoch, place, tagged("C", of))
    return of + sequence([number(it, 4) + seal(it, statement) for it in members])


# ---- reading


class Reader:
    """Reads items from the front of bytes, and raises the first fault."""

    def __init__(self, given):
        self.given, self.at = given, 0

    def fixed(self, width):
        if self.at + width > len(self.given):
            raise Fault(self.at, 1)
        self.at += width
        return self.given[self.at - width : self.at]

    def number(self, width):
        return int.from_bytes(self.fixed(width), "little")

    def flag(self):
        byte = self.fixed(1)[0]
        if byte > 1:
            raise Fault(self.at - 1, 2)
        return byte == 1

    def uleb(self):
        begun, value = self.at, 0
        for place in range(5):
            if self.at == len(self.given):
                self.at = begun
                raise Fault(begun, 1)
            byte, self.at = self.given[self.at], self.at + 1
            if place == 4 and byte > 15:
                raise Fault(begun, 4)
            value |= (byte & 127) << 7 * place
            if byte < 128:
                if byte == 0 and place:
                    raise Fault(begun, 3)
                return value
        raise Fault(begun, 4)

    def length(self):
        begun, value = self.at, self.uleb()
        if value > 2147483647:
            raise Fault(begun, 5)
        return value

    def variant(self, known):
        begun, value = self.at, self.uleb()
        if value not in known:
            raise Fault(begun, 6)
        return value

    def text(self):
        """Bytes with a length: one item."""
        begun, size = self.at, self.length()
        if self.at + size > len(self.given):
            raise Fault(begun, 1)
        return self.fixed(size)

    def sequence(self, read):
        return [read() for _ in range(self.length())]

    def option(self):
        return self.fixed(32) if self.flag() else None

    def end(self):
        if self.at < len(self.given):
            raise Fault(self.at, 7)

    # -- values

    def reference(self):
        self.fixed(32), self.number(8), self.fixed(32)

    def argument(self):
        kind = self.variant(range(4))
        for _ in range((0, 1, 1, 2)[kind]):
            self.number(2)

    def input(self):
        kind = self.variant(range(4))
        if kind == 0:
            self.text()
        elif kind < 3:
            self.reference()
        else:
            self.fixed(32), self.number(8), self.flag()

    def command(self):
        kind = self.variant((0, 1, 2, 3, 5))
        if kind == 0:
            self.number(1), self.sequence(self.argument)
        elif kind == 1:
            self.sequence(self.argument), self.argument()
        elif kind in (2, 3):
            self.argument(), self.sequence(self.argument)
        else:
            self.variant(range(6)), self.sequence(self.argument)

    def transaction(self):
        """The epoch of a transaction, and its bytes."""
        begun, epoch = self.at, self.number(8)
        self.fixed(32), self.reference(), self.number(8)
        self.sequence(self.input), self.sequence(self.command)
        return epoch, self.given[begun : self.at]

    def object(self):
        self.fixed(32), self.number(8)
        owner = self.variant(range(3))
        if owner < 2:
            self.fixed(32) if owner == 0 else self.number(8)
        content = self.variant(range(6))
        if content == 4:
            self.fixed(32)
        else:
            for _ in range((2, 2, 1, 2, 0, 1)[content]):
                self.number(8)

    def effects(self):
        self.fixed(32)
        status = self.variant(range(3))
        if status:
            self.number(2), self.number(1)
        self.number(8), self.number(8), self.number(4)
        self.sequence(self.written), self.sequence(lambda: self.fixed(32))

    def written(self):
        self.fixed(32)
        owner = self.variant(range(3))
        if owner < 2:
            self.fixed(32) if owner == 0 else self.number(8)
        self.fixed(32)

    def member_seal(self):
        return self.number(4), self.fixed(32)

    def certificate(self):
        epoch, tx = self.transaction()
        return epoch, tx, self.sequence(self.option), self.sequence(self.member_seal)

    def statement(self):
        """What a statement acknowledges, none for the others, and its bytes."""
        begun, kind, said = self.at, self.variant(range(4)), None
        epoch = self.number(8)
        if kind == 0:
            self.fixed(32), self.sequence(self.option)
        elif kind == 2:
            self.number(8), self.fixed(32)
        elif kind == 3:
            said = (epoch, self.fixed(32), self.fixed(32))
        return said, self.given[begun : self.at]

    def sealed(self):
        member = self.number(4)
        said, statement = self.statement()
        return member, said, statement, self.fixed(32)

    def link(self):
        begun = self.at
        epoch, place, parent = self.number(8), self.number(8), self.fixed(32)
        items = self.sequence(lambda: (self.fixed(32), self.fixed(32)))
        last = self.flag()
        return {"epoch": epoch, "number": place, "parent": parent, "items": items, "last": last, "digest": tagged("C", self.given[begun : self.at]), "seals": self.sequence(self.member_seal)}


def read(kind, given):
    """The value that all the bytes spell; Fault else."""
    reader = Reader(given)
    value = reader.sequence(reader.link) if kind == "chain" else reader.sequence(reader.sealed) if kind == "final" else getattr(reader, kind)()
    reader.end()
    return value


# ---- judging: the answer as (code, cause, first, second) of kothaysu.h


def is_quorum(stakes, members):
    return 3 * sum(stakes[it] for it in members) > 2 * sum(stakes)


def is_roll(stakes, members):
    return all(a < b for a, b in zip(members, members[1:])) and all(it < len(stakes) for it in members)


def is_keyed(member, statement, by):
    return by == seal(member, statement)


def link_cause(stakes, before, it, accepts):
    """The first cause why a link does not go on from the one before it, 0 for none."""
    members = [member for member, _ in it["seals"]]
    statement = checkpoint_statement(it["epoch"], it["number"], it["digest"])
    if it["number"] != (before["number"] + 1 if before else 0):
        return 1
    if it["parent"] != (before["digest"] if before else ZERO):
        return 2
    if it["epoch"] != (before["epoch"] + before["last"] if before else 0):
        return 3
    if not is_roll(stakes, members):
        return 4
    if not is_quorum(stakes, members):
        return 5
    return 0 if all(accepts(member, statement, by) for member, by in it["seals"]) else 6


def judge_chain(stakes, links, accepts):
    before = None
    for place, it in enumerate(links):
        cause = link_cause(stakes, before, it, accepts)
        if cause:
            return 5, cause, place, 0
        before = it
    return 0, 0, len(links), 0


def judge_final(stakes, said, accepts):
    members = [member for member, _, _, _ in said]
    for place, (_, it, _, _) in enumerate(said):
        if it is None:
            return 11, 0, place, 0
    if not is_roll(stakes, members):
        return 8, 0, 0, 0
    if not is_quorum(stakes, members):
        return 9, 0, sum(stakes[it] for it in members), sum(stakes)
    for member, it, _, _ in said[1:]:
        if it != said[0][1]:
            return 12, 0, members[0], member
    for member, _, statement, by in said:
        if not accepts(member, statement, by):
            return 10, 0, member, 0
    return 0, 0, 0, 0


def answer(kind, stakes, given, accepts=is_keyed):
    """What a call of `kothaysu.h` answers for a chain or acknowledgements; of anything else whether it can be read."""
    try:
        value = read(kind, given)
    except Fault as fault:
        return 3, fault.why, fault.at, 0
    if kind == "chain":
        return judge_chain(stakes, value, accepts)
    if kind == "final":
        return judge_final(stakes, value, accepts)
    return 0, 0, 0, 0
