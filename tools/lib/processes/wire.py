"""The bytes that members are handed and answer, spelled and read by docs/FORMATS.md alone, apart from the program."""

import collections
import hashlib

SECRET = b"\x5a" * 32
ZERO = bytes(32)
MARK = b"\x02"
VOTE, END, CHECKPOINT, ACKNOWLEDGEMENT = range(4)
COUNTER_ADD = 5

# One version of an object, as a transaction names it.
Reference = collections.namedtuple("Reference", "id version digest")
# What a member stated under its seal: `kind` is one of the four above, `what` the fields after the epoch.
Sealed = collections.namedtuple("Sealed", "member kind epoch what seal spelled")
Effects = collections.namedtuple("Effects", "transaction status version written deleted")
Checkpoint = collections.namedtuple("Checkpoint", "epoch number parent items last")


def number(value, width=8):
    return value.to_bytes(width, "little")


def length(count):
    """A length in seven bits a byte, the lowest first."""
    spelled = b""
    while count > 127:
        spelled, count = spelled + bytes([count % 128 + 128]), count // 128
    return spelled + bytes([count])


def sequence(items):
    return length(len(items)) + b"".join(items)


def sized(given):
    return length(len(given)) + given


def digest(tag, spelled):
    return hashlib.sha256(tag + spelled).digest()


def address(name):
    return digest(b"A", name.encode())


def opening_id(place):
    """The id of the coin, counter or cap at this place of the set-up."""
    return digest(b"G", number(place))


def opening_coin(place, owner, balance):
    """The reference to the first version of a coin of the set-up."""
    of = opening_id(place) + number(1)
    return Reference(of[:32], 1, digest(b"O", of + b"\x00" + address(owner) + b"\x00" + number(0) + number(balance)))


def spelled_reference(it):
    return it.id + number(it.version) + it.digest


def pure(value):
    return b"\x00" + sized(value)


def shared(identity, since):
    """An input that is a shared object, to be written."""
    return b"\x03" + identity + number(since) + b"\x01"


def argument(place):
    """The argument that names an input."""
    return b"\x01" + number(place, 2)


def result(place):
    """The argument that names the one result of a command."""
    return b"\x02" + number(place, 2)


GAS = b"\x00"


def call(native, arguments):
    return b"\x00" + number(native, 1) + sequence(arguments)


def transfer(values, to):
    return b"\x01" + sequence(values) + to


def split(coin, amounts):
    return b"\x02" + coin + sequence(amounts)


def transaction(epoch, sender, gas, budget, inputs, commands):
    return number(epoch) + address(sender) + spelled_reference(gas) + number(budget) + sequence(inputs) + sequence(commands)


def seal_of_user(name, spelled):
    return digest(b"S", SECRET + b"\x01" + address(name) + spelled)


def seal_of_member(member, statement):
    return digest(b"S", SECRET + b"\x00" + number(member, 4) + statement)


def origins(digests):
    """The origins of a vote: for each object the digest of the transaction of the epoch that made it, or none."""
    return sequence([b"\x00" if it is None else b"\x01" + it for it in digests])


def vote(epoch, of, made_by):
    return b"\x00" + number(epoch) + of + origins(made_by)


def end(epoch):
    return b"\x01" + number(epoch)


def checkpoint_statement(epoch, place, of):
    return b"\x02" + number(epoch) + number(place) + of


def acknowledgement(epoch, of, effects):
    return b"\x03" + number(epoch) + of + effects


def sealed(member, statement):
    """The statement of a member under its seal."""
    return number(member, 4) + statement + seal_of_member(member, statement)


def seals(pairs):
    return sequence([number(member, 4) + seal for member, seal in sorted(pairs)])


def certificate(spelled, made_by, pairs):
    """A transaction without its seal, the origins of the votes, and the seals of the members."""
    return spelled + origins(made_by) + seals(pairs)


def entry_of_certificate(spelled):
    return b"\x00" + spelled


def entry_of_end(spelled):
    return b"\x01" + spelled


def link(checkpoint, pairs):
    """A link of a chain: the bytes of a checkpoint, and seals over its statement."""
    return checkpoint + seals(pairs)


class Reader:
    """Reads values one after the other."""

    def __init__(self, given):
        self.given, self.at = given, 0

    def take(self, count):
        taken = self.given[self.at : self.at + count]
        if len(taken) != count:
            raise ValueError(f"the bytes end at {len(self.given)}")
        self.at += count
        return taken

    def number(self, width=8):
        return int.from_bytes(self.take(width), "little")

    def length(self):
        value, shift = 0, 0
        while True:
            byte = self.number(1)
            value, shift = value | (byte & 127) << shift, shift + 7
            if byte < 128:
                return value

    def items(self, read):
        return [read() for _ in range(self.length())]

    def option(self):
        return self.take(32) if self.number(1) else None

    def owner(self):
        """The address that owns an object; none if it is shared or immutable."""
        kind = self.number(1)
        if kind == 1:
            self.take(8)
        return self.take(32) if kind == 0 else None

    def ended(self, value):
        if self.at != len(self.given):
            raise ValueError(f"{len(self.given) - self.at} bytes are left")
        return value


def read_sealed(given):
    """A sealed statement. Its seal is checked."""
    it = Reader(given)
    member, kind, epoch = it.number(4), it.number(1), it.number()
    if kind == VOTE:
        what = (it.take(32), tuple(it.items(it.option)))
    elif kind == END:
        what = ()
    elif kind == CHECKPOINT:
        what = (it.number(), it.take(32))
    else:
        what = (it.take(32), it.take(32))
    statement, seal = given[4 : it.at], it.take(32)
    if seal != seal_of_member(member, statement):
        raise ValueError(f"the seal of member {member} is another one")
    return it.ended(Sealed(member, kind, epoch, what, seal, given))


def read_effects(given):
    """What a transaction did: its status is 0 if it was done; it wrote objects, each an id, an owner and a digest."""
    it = Reader(given)
    of, status = it.take(32), it.number(1)
    if status:
        it.take(3 if status == 1 else 10)
    version, _, _ = it.number(), it.number(), it.number(4)
    written = it.items(lambda: (it.take(32), it.owner(), it.take(32)))
    return it.ended(Effects(of, status, version, written, it.items(lambda: it.take(32))))


def read_checkpoint(given):
    it = Reader(given)
    epoch, place, parent = it.number(), it.number(), it.take(32)
    items = it.items(lambda: (it.take(32), it.take(32)))
    return it.ended(Checkpoint(epoch, place, parent, items, it.number(1) == 1))


def records(path):
    """The records that count in a journal file: the list and the bytes of each."""
    with open(path, "rb") as it:
        data = it.read()
    found, at = [], 0
    while at + 9 <= len(data) and data[at] == 1:
        count, place = int.from_bytes(data[at + 1 : at + 5], "little"), int.from_bytes(data[at + 5 : at + 9], "little")
        if at + 9 + count >= len(data):
            break
        found.append((place, data[at + 9 : at + 9 + count]))
        at += 9 + count
    return found
