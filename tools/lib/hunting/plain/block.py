"""The execution of one transaction: its commands in order, all or none."""

from . import wire
from .natives import NATIVES
from .tx import BOUND, Object

MOST = 2**64 - 1


class Halt(Exception):
    """A block stops: `failed` for a cause, or `aborted` with a code."""

    def __init__(self, how, number):
        super().__init__(how, number)
        self.how, self.number = how, number


def fail(cause, applies=True):
    if applies:
        raise Halt("failed", cause)


class Item:
    """An object while a block runs, with its number where the block created it."""

    def __init__(self, id, content, number=None):
        self.id, self.content, self.number = id, content, number


class Place:
    """What an argument can name: bytes, an item, or a vector of items; how it may be taken; and the last command that named it."""

    def __init__(self, access, value):
        self.access, self.value, self.named_by = access, value, -1


class Block:
    def __init__(self, tx, objects, version):
        self.tx, self.version, self.created, self.placed, self.results = tx, version, 0, [], []
        found = iter(objects)
        self.gas = Place("gas", Item(tx.gas[0], lowered(next(found).content, tx.budget)))
        self.inputs = [place_of(it, found) for it in tx.inputs]
        self.at = 0

    def run(self):
        for self.at, command in enumerate(self.tx.commands):
            given = getattr(self, command[0])(*command[1:])
            self.results.append([Place("result", it) for it in given])
        self.at = len(self.tx.commands)
        fail(12, any(it.value is not None for row in self.results for it in row))

    def new(self, content):
        """A new object under the next number."""
        made = Item(wire.created_id(self.tx.digest, self.created), content, self.created)
        self.created += 1
        return made

    def place(self, argument):
        """The place that an argument names."""
        if argument[0] == "gas":
            return self.gas
        if argument[0] == "input":
            return self.inputs[argument[1]]
        row = self.results[argument[1]]
        number = argument[2] if argument[0] == "nested" else 0
        fail(2, number >= len(row) or (argument[0] == "result" and len(row) != 1))
        return row[number]

    def take(self, argument, mode, kind=None, gives_gas=False):
        """The place of an argument that is taken as a number or an address, by value, by mutable reference or by reference."""
        place = self.place(argument)
        fail(1, place.value is None)
        if mode in ("number", "address"):
            return self.pure(place, 8 if mode == "number" else 32)
        fail(4, not is_of_kind(place.value, mode, kind))
        fail(5, mode in ("value", "coins") and (place.access in ("immutable", "s", "r") or (place.access == "gas" and not gives_gas)))
        fail(6, mode == "mutable" and place.access in ("immutable", "r"))
        fail(7, place.named_by == self.at)
        place.named_by = self.at
        return place

    def pure(self, place, length):
        fail(4, not isinstance(place.value, bytes))
        fail(3, len(place.value) != length)
        return int.from_bytes(place.value, "little") if length == 8 else place.value

    def split(self, coin, amounts):
        coin = self.take(coin, "mutable", "coin")
        amounts = [self.take(it, "number") for it in amounts]
        _, currency, balance = coin.value.content
        fail(8, sum(amounts) > balance)
        coin.value.content = ("coin", currency, balance - sum(amounts))
        return [self.new(("coin", currency, it)) for it in amounts]

    def merge(self, target, sources):
        target = self.take(target, "mutable", "coin")
        sources = [self.take(it, "value", "coin") for it in sources]
        _, currency, balance = target.value.content
        fail(10, any(it.value.content[1] != currency for it in sources))
        total = balance + sum(it.value.content[2] for it in sources)
        fail(9, total + (self.tx.budget if target is self.gas else 0) > MOST)
        target.value.content = ("coin", currency, total)
        for it in sources:
            it.value = None
        return []

    def transfer(self, values, to):
        values = [self.take(it, "value", gives_gas=True) for it in values]
        to = self.take(to, "address")
        for it in values:
            self.give(it, ("address", to))
        return []

    def give(self, place, owner):
        self.placed.append((place.value, owner))
        place.value = None

    def vec(self, kind, values):
        values = [self.take(it, "value", kind[0]) for it in values]
        items = [it.value for it in values]
        for it in values:
            it.value = None
        return [(kind[0], items)]

    def call(self, number, arguments):
        native = NATIVES[number]
        fail(11, len(arguments) != len(native.modes))
        taken = [self.take(it, *mode) for it, mode in zip(arguments, native.modes)]
        code, given = native.does(self, *taken)
        if code:
            raise Halt("aborted", code)
        return given


def lowered(coin, amount):
    return ("coin", coin[1], coin[2] - amount)


def place_of(it, found):
    """The place of an input; the objects that are not bytes are taken in order."""
    if it[0] == "pure":
        return Place("pure", it[1])
    access = ("s" if it[3] else "r") if it[0] == "shared" else it[0]
    handed = next(found)
    return Place(access, Item(handed.id, handed.content))


def is_of_kind(value, mode, kind):
    if mode == "coins":
        return isinstance(value, tuple) and value[0] == "coin"
    return isinstance(value, Item) and kind in (None, value.content[0])


def fits(tx, objects):
    """Whether the objects are what the transaction says of them."""
    return all(fits_as(tx, named, it) for named, it in zip(tx.named, objects)) and max(it.version for it in objects) + 1 < BOUND


def fits_as(tx, named, it):
    if named.how in ("s", "r"):
        return it.owner == ("shared", named.version)
    if (it.id, it.version) != (named.id, named.version) or wire.object_digest(it) != named.digest:
        return False
    if named.how == "immutable":
        return it.owner == ("frozen",)
    is_gas = it.content[:2] == ("coin", 0) and it.content[2] >= tx.budget
    return it.owner == ("address", tx.sender) and (named.how == "owned" or is_gas)


def execute(tx, objects):
    """The status, the version, the effects' digest, the written objects and the deleted ids of a transaction on these objects."""
    version = 1 + max(it.version for it in objects)
    block = Block(tx, objects, version)
    try:
        block.run()
        status, (written, deleted), drawn = ("done",), left_by(block, objects), block.created
    except Halt as halt:
        status, written, deleted, drawn = (halt.how, block.at, halt.number), unchanged(tx, objects, version), [], 0
    listed = tuple((it.id, it.owner, wire.object_digest(it)) for it in written)
    effects = (tx.digest, status, version, tx.cost, drawn, listed, tuple(deleted))
    return status, version, wire.effects_digest(effects), written, deleted


def unchanged(tx, objects, version):
    """What a failed block writes: its gas coin pays, and all else stays."""
    kept = [it._replace(version=version) for named, it in zip(tx.named, objects) if named.how not in ("immutable", "r")]
    return [kept[0]._replace(content=lowered(kept[0].content, tx.cost)), *kept[1:]]


def left_by(block, objects):
    """The written objects and the deleted ids of a block whose commands all ran."""
    placed = {item.id: (item, owner) for item, owner in block.placed}
    refund, written, deleted = block.tx.budget - block.tx.cost, [], []
    places = [block.gas, *(place for place, it in zip(block.inputs, block.tx.inputs) if it[0] != "pure")]
    for place, named, it in zip(places, block.tx.named, objects):
        item, owner = (place.value, it.owner) if place.value is not None else placed.get(it.id, (None, None))
        if item is None:
            deleted.append(it.id)
        elif named.how not in ("immutable", "r"):
            content = lowered(item.content, -refund) if named.how == "gas" else item.content
            written.append(Object(it.id, block.version, owner, content))
    created = sorted((it for it in placed.values() if it[0].number is not None), key=lambda it: it[0].number)
    return written + [Object(item.id, block.version, owner, item.content) for item, owner in created], deleted
