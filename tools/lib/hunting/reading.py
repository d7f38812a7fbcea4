"""A report beside its schedule, for what must hold of it: the committee, the transactions, and each event with its lines."""

import re
from collections import namedtuple

import schedules

from .plain import text, wire

# What two lines cannot differ in and make one transaction. Digests of references are left out: they are not in the text.
Tx = namedtuple("Tx", "name key line consumed commands versions is_shared epoch")
# What two `?` may be is not known.
UNKNOWN = "?"


class Run:
    """What a schedule says and what its report says, read once."""

    def __init__(self, schedule, report):
        self.setup, self.events = schedules.read(schedule, report)
        self.lines = report.split("\n")[:-1]
        members = [it.words for it in self.setup if it.word == "member"]
        self.stakes = [int(it[1]) for it in members]
        self.honest = [number for number, it in enumerate(members) if it[2] == "honest"]
        self.total = sum(self.stakes)
        self.txs = self.read_txs(schedule)
        self.by_key = {}
        for it in self.txs.values():
            self.by_key.setdefault(it.key, []).append(it)

    def read_txs(self, schedule):
        """The transactions by their names."""
        found = {}
        for event in text.read(schedule):
            if event.word == "tx":
                it = read_tx(event.values, found)
                found[it.name] = it
        return found

    @property
    def faulty_stake(self):
        return self.total - sum(self.stakes[it] for it in self.honest)

    @property
    def premises(self):
        """Whether less than a third of the stake is faulty and no certificate came in as bytes, which may have forged seals."""
        forged = any(it.word == "raw" and it.words[2] == "hold" and re.match("held|fork|again", it.answer) for it in self.events)
        return 3 * self.faulty_stake < self.total and not forged

    def alone(self, name):
        """The transaction of this name where no other line can have made the same one, or one that is called by its name."""
        it = self.txs.get(name)
        return it if it is not None and len(self.by_key[it.key]) == 1 else None

    def weight(self, members):
        return sum(self.stakes[it] for it in members)

    def is_quorum(self, weight):
        return 3 * weight > 2 * self.total


def object_key(it, txs):
    """An object by its name, or by its transaction and its number."""
    return it if isinstance(it, str) else (txs[it[0]].key, it[1])


def reference_key(value, txs):
    return object_key(value[0], txs), value[1], value[2]


def read_tx(values, txs):
    name, sender, _, epoch, gas, budget, inputs, commands = values
    gas = reference_key(gas, txs)
    read = [(sort, *input_key(sort, value, txs)) for sort, value in inputs]
    key = epoch, sender, gas, budget, tuple(read), tuple(commands)
    consumed = [gas[:2], *(it[1:3] for it in read if it[0] == "o")]
    versions = [gas[1], *(it[2] for it in read if it[0] in "oi")]
    return Tx(name, key, values, consumed, commands, versions, any(it[0] in "sr" for it in read), epoch)


def input_key(sort, value, txs):
    if sort in "oi":
        return reference_key(value, txs)
    if sort in "sr":
        return object_key(value[0], txs), value[1]
    # Numbers, addresses and bytes are all bytes.
    return (wire.U64.put(value) if sort == "n" else wire.address_of(value) if sort == "a" else value,)
