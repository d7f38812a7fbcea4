"""A transaction, what it names, and the faults of its shape."""

from collections import namedtuple

from . import natives, wire

Named = namedtuple("Named", "how id version digest")
Object = namedtuple("Object", "id version owner content")
BOUND = 1 << 62
MAX_BYTES, MAX_COMMANDS, MAX_INPUTS, MAX_ARGUMENTS, LAST_NATIVE = 131_072, 1024, 256, 512, len(natives.NAMES) - 1


class Transaction:
    """A transaction from its value or its bytes, with its digest and the objects that it names, the gas coin first."""

    def __init__(self, value):
        self.epoch, self.sender, self.gas, self.budget, self.inputs, self.commands = value
        self.value, self.bytes = value, wire.TX.put(value)
        self.digest = wire.tx_digest(self.bytes)
        self.named = [Named("gas", *self.gas), *named_by(self.inputs)]
        self.cost = 1000 + 100 * len(self.commands)

    @property
    def consumed(self):
        """The versions that it consumes, as pairs of id and version."""
        return [(it.id, it.version) for it in self.named if it.how in ("gas", "owned")]

    @property
    def shared(self):
        return [it for it in self.named if it.how in ("s", "r")]

    @property
    def is_shared(self):
        return any(it[0] == "shared" for it in self.inputs)

    @property
    def may_create(self):
        """How many ids it can draw at most."""
        return sum(len(it[2]) if it[0] == "split" else 2 * (it[0] == "call") for it in self.commands)

    def sealed(self):
        return self.bytes + wire.seal(("user", self.sender), self.bytes)


def named_by(inputs):
    for it in inputs:
        if it[0] in ("owned", "immutable"):
            yield Named(it[0], *it[1])
        elif it[0] == "shared":
            yield Named("s" if it[3] else "r", it[1], it[2], None)


def arguments(command):
    """The arguments of a command, the one beside its list too."""
    lists = [it for it in command[1:] if isinstance(it, tuple) and (not it or isinstance(it[0], tuple))]
    alone = [it for it in command[1:] if isinstance(it, tuple) and it and isinstance(it[0], str) and it[0] in wire.ARGUMENT.numbers]
    return [*alone, *(one for it in lists for one in it)]


def is_late(argument, place):
    return argument[0] in ("result", "nested") and argument[1] >= place


def lacks_operands(command):
    operands = {"split": 2, "merge": 2, "transfer": 1}.get(command[0])
    return operands is not None and not command[operands]


def faults_of(tx):
    """The numbers of all faults of the shape, the least first."""
    placed = [(place, it) for place, command in enumerate(tx.commands) for it in arguments(command)]
    ids = [it.id for it in tx.named]
    faults = {
        1: len(tx.bytes) > MAX_BYTES,
        2: not tx.commands,
        3: len(tx.commands) > MAX_COMMANDS,
        4: len(tx.inputs) > MAX_INPUTS,
        5: len(set(ids)) < len(ids),
        6: any(it[0] == "input" and it[1] >= len(tx.inputs) for _, it in placed),
        7: any(is_late(it, place) for place, it in placed),
        8: any(lacks_operands(it) for it in tx.commands),
        9: any(it[0] == "call" and it[1] > LAST_NATIVE for it in tx.commands),
        10: tx.budget < tx.cost,
        11: any(not 1 <= it.version <= BOUND - 2 for it in tx.named),
        12: any(len(arguments(it)) > MAX_ARGUMENTS for it in tx.commands),
    }
    return [number for number, holds in faults.items() if holds]


def fault_of(tx):
    """The least number of a fault of the shape, or none."""
    return next(iter(faults_of(tx)), None)
