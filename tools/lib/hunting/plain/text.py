"""The language of schedules: each line as an event, or the first bad line and the least cause against it (docs/SCHEDULES.md)."""

import re
from collections import namedtuple

from . import wire
from .natives import NAMES

Event = namedtuple("Event", "word values")
NAME = re.compile(r"[a-z][a-z0-9_]{0,15}")
U64, U32 = 2**64 - 1, 2**32 - 1
MAX_TEXT, MAX_MEMBERS, MAX_TXS = 16_777_216, 64, 65_535


class Refused(Exception):
    """The text is no schedule."""

    def __init__(self, line, cause):
        super().__init__(f"refused line {line} cause {cause}")
        self.line, self.cause = line, cause


class NoForm(Exception):
    """The line has none of the forms."""


def form(holds):
    if not holds:
        raise NoForm


class Reader:
    """What the lines so far have named, and the causes against the line at hand."""

    def __init__(self):
        self.roles, self.objects, self.txs, self.currencies = [], {}, {}, set()
        self.writers, self.has_events, self.causes = None, False, []

    def line(self, text):
        """The event of a line, or the least cause against it."""
        self.causes = []
        if not all(0x20 <= byte <= 0x7E for byte in text):
            return None, 3
        words = text.decode().split(" ")
        try:
            event = self.event(words)
        except NoForm:
            return None, 4
        return event, min(self.causes, default=None)

    def note(self, cause, applies):
        if applies:
            self.causes.append(cause)

    def event(self, words):
        reads = getattr(self, f"line_{words[0]}", None) if words[0].isalpha() else None
        form(reads is not None)
        try:
            values = reads(*words[1:])
        except TypeError as fault:
            # Too few or too many words for the form; anything else is a fault of this reader.
            form(not re.search(r"line_\w+\(\)", str(fault)))
            raise
        is_setup = words[0] in ("member", "coin", "counter", "cap", "writers")
        self.note(6, is_setup and self.has_events)
        self.has_events = self.has_events or not is_setup
        return Event(words[0], values)

    # The words of lines.

    def number(self, word, least=0, most=U64):
        form(re.fullmatch("[0-9]+", word))
        value = int(word) if len(word) < 25 else U64 + 1
        self.note(5, not least <= value <= most or (word[0] == "0" and len(word) > 1))
        return value

    def name(self, word):
        form(NAME.fullmatch(word))
        return word

    def member(self, word, role=None):
        number = self.number(word)
        known = number < len(self.roles)
        self.note(11, not known)
        self.note(12, known and role is not None and self.roles[number] != role)
        return number

    def members(self, words):
        form(words)
        found = [self.member(it) for it in words]
        self.note(13, any(one >= other for one, other in zip(found, found[1:])))
        return found

    def tx(self, word):
        self.note(10, self.name(word) not in self.txs)
        return word

    def object(self, word):
        """A name of the set-up, or a pair of a transaction and a number."""
        if "." in word:
            tx, number = word.split(".", 1)
            return self.tx(tx), self.number(number)
        self.note(10, self.name(word) not in self.objects)
        return word

    def object_at(self, word):
        form("@" in word)
        it, version = word.split("@", 1)
        return self.object(it), self.number(version)

    def reference(self, word):
        return (*self.object_at(word.removesuffix("!")), word.endswith("!"))

    # Set-up lines.

    def line_member(self, stake, role):
        form(role in ("honest", "faulty"))
        self.note(7, len(self.roles) >= MAX_MEMBERS)
        stake = self.number(stake, 1, U32)
        self.roles.append(role)
        return stake, role

    def made(self, name):
        self.note(9, self.name(name) in self.objects)
        self.objects[name] = None
        return name

    def line_coin(self, name, owner, balance):
        return self.made(name), self.name(owner), self.number(balance)

    def line_counter(self, name, value):
        return self.made(name), self.number(value)

    def line_cap(self, name, owner, currency):
        values = self.made(name), self.name(owner), self.number(currency, 1)
        self.note(13, values[2] in self.currencies)
        self.currencies.add(values[2])
        return values

    def line_writers(self, limit):
        self.note(13, self.writers is not None)
        self.writers = self.number(limit, 1, 65_535)
        return (self.writers,)

    # Events.

    def line_tx(self, name, sender, epoch, gas, budget, *words):
        place = next((at for at, word in enumerate(words) if "(" in word), len(words))
        head = self.name(name), self.name(sender.removesuffix("?")), sender.endswith("?"), self.number(epoch), self.reference(gas), self.number(budget)
        inputs, commands = [self.input(it) for it in words[:place]], [self.command(it) for it in words[place:]]
        self.note(8, len(self.txs) >= MAX_TXS)
        self.note(9, name in self.txs)
        self.txs[name] = None
        return (*head, inputs, commands)

    def input(self, word):
        form(word[1:2] == ":" and word[0] in "naxoisr")
        sort, rest = word[0], word[2:]
        if sort == "x":
            return sort, self.hex(rest)
        reads = {"n": self.number, "a": self.name, "o": self.reference, "i": self.reference}.get(sort, self.object_at)
        return sort, reads(rest)

    def hex(self, word):
        form(re.fullmatch("([0-9a-f]{2})*", word))
        return bytes.fromhex(word)

    def command(self, word):
        form(word.endswith(")") and "(" in word)
        head, inside = word[:-1].split("(", 1)
        if head == "vec":
            kind, *values = inside.split(",")
            form(kind in KINDS)
            return ("vec", (kind,), self.arguments(values))
        if head in NAMES:
            return ("call", NAMES.index(head), self.arguments(inside.split(",") if inside else []))
        form(head in ("split", "merge", "transfer"))
        found = self.arguments(inside.split(","))
        return ("transfer", found[:-1], found[-1]) if head == "transfer" else (head, found[0], found[1:])

    def arguments(self, words):
        return tuple(self.argument(it) for it in words)

    def argument(self, word):
        if word == "gas":
            return ("gas",)
        found = re.fullmatch(r"(?:i([^.]*)|r([^.]*)|r([^.]*)\.(.*))", word)
        form(found)
        if found[1] is not None:
            return ("input", self.number(found[1], 0, 65_535))
        if found[2] is not None:
            return ("result", self.number(found[2], 0, 65_535))
        return ("nested", self.number(found[3], 0, 65_535), self.number(found[4], 0, 65_535))

    def line_vote(self, member, tx):
        return self.member(member, "honest"), self.tx(tx)

    def line_fvote(self, member, tx, *origins):
        return self.member(member, "faulty"), self.tx(tx), [None if it == "-" else self.tx(it) for it in origins]

    def line_cert(self, tx, *members):
        return self.tx(tx), self.members(members)

    line_send, line_final = line_vote, line_cert

    def line_order(self, first, *more):
        if first == "end" and more:
            form(len(more) == 1)
            return ("end", self.member(more[0]))
        form(not more)
        return ("commit", None) if first == "commit" else ("tx", self.tx(first))

    def line_see(self, member, entries):
        return self.member(member, "honest"), self.number(entries, 1, U32)

    def line_run(self, member, workers):
        return self.member(member, "honest"), self.number(workers, 1, 16)

    def line_close(self, member):
        return (self.member(member, "honest"),)

    line_end = line_turn = line_show = line_restart = line_close

    def line_stop(self, member, what):
        form(what in ("kept", "lost"))
        return self.member(member, "honest"), what

    def line_raw(self, member, call, data):
        form(call in ("vote", "hold") and data)
        return self.member(member, "honest"), call, self.hex(data)

    def line_ack(self, member, tx, *mark):
        form(mark in ((), ("!",)))
        return self.member(member, "faulty" if mark else None), self.tx(tx), bool(mark)


KINDS = [it[0] for it in wire.KIND.variants.values()]


def read(data):
    """The events of a text in order, or the exception that says why it is no schedule."""
    if len(data) > MAX_TEXT:
        raise Refused(0, 1)
    lines = data.split(b"\n")
    if not any(line.startswith(b"member ") for line in lines):
        raise Refused(0, 2)
    reader, events = Reader(), []
    for number, line in enumerate(lines, 1):
        if line and not line.startswith(b"#"):
            event, cause = reader.line(line)
            if cause:
                raise Refused(number, cause)
            events.append(event)
    return events
