"""Small wrong programs: the plain model with one mistake, for the tests of the hunt. `python3 wrong.py MISTAKE run` reads a schedule."""

import itertools
import os
import re
import sys

sys.dont_write_bytecode = True
sys.path.insert(0, os.path.dirname(os.path.dirname(os.path.abspath(__file__))))
from hunting.plain import block, member, sequence, store, text, wire, world

MISTAKES = {}


def mistake(does):
    MISTAKES[does.__name__] = does
    return does


def none():
    """No mistake at all."""


MISTAKES["none"] = none


@mistake
def no_locks():
    """Votes lock nothing: an honest member votes for two transactions of one coin."""
    member.Member.take_vote = lambda self, tx, origins: self.votes.update({tx.digest: origins})


@mistake
def other_origins_again():
    """A vote that is given again names no origins."""
    right = member.Member.vote

    def vote(self, data, keep):
        tx, origins, is_new = right(self, data, keep)
        return tx, origins if is_new else (None,) * len(origins), is_new

    member.Member.vote = vote


@mistake
def too_few_origins():
    """A vote leaves the gas coin out."""
    world.World.origins = lambda self, origins: "".join(f" {'-' if it is None else self.names.of_tx(it)}" for it in origins[1:])


@mistake
def two_thirds():
    """Two thirds of the stake are enough."""

    def collected(self, stated, members, thing):
        for it in members:
            world.refuse_collect(it not in stated, f"no {thing} of {it}")
        weight, total = sum(self.stakes[it] for it in members), sum(self.stakes)
        world.refuse_collect(3 * weight < 2 * total, f"short {weight} of {total}")
        for it in members:
            world.refuse_collect(stated[it] != stated[members[0]], f"differ {members[0]} {it}")
        return stated[members[0]]

    world.World.collected = collected


@mistake
def ends_by_count():
    """The weight at an End is the number of members."""
    right = member.Member.see_end

    def see_end(self, *entry):
        said = right(self, *entry)
        return (said[0], said[1], len(self.ends), *said[3:]) if said[0] == "end" else said

    member.Member.see_end = see_end


@mistake
def entries_from_one():
    """Entries are numbered from 1."""

    def append(self, entry):
        self.entries[-1].append(entry)
        return f"entry {2 * len(self.entries[-1]) - 1}"

    world.World.append = append


@mistake
def half_the_gas():
    """A command costs 50."""
    original = world.World.do_run
    world.World.do_run = lambda self, *values: [line if " gas " not in line else line[:-2] + "50" for line in original(self, *values)]


@mistake
def version_of_the_gas():
    """What is written has one more than the version of the gas coin alone."""
    right = block.execute

    def execute(tx, objects):
        others = [it._replace(version=objects[0].version) for it in objects]
        return right(tx, others)

    block.execute = execute


@mistake
def ten_times_the_records():
    """A restart says ten times as many records as there are."""
    original = world.World.do_restart
    world.World.do_restart = lambda self, number: original(self, number) + ("0" if self.seats[number].records else "")


@mistake
def stops_are_passed_over():
    """A member that stopped is up."""
    right = world.Seat.keep

    def keep(self, record):
        it = self.member
        try:
            right(self, record)
        except world.Stopped:
            self.member = it
            raise

    world.Seat.keep = keep


@mistake
def two_epochs_at_once():
    """A turn rises the epoch by two in its line."""
    original = world.World.do_turn
    world.World.do_turn = lambda self, number: [line.replace("epoch 1 ", "epoch 2 ") for line in original(self, number)]


@mistake
def a_split_makes_money():
    """What a split gives is not taken from the coin."""
    block.Block.split = free_split


def free_split(self, coin, amounts):
    coin = self.take(coin, "mutable", "coin")
    amounts = [self.take(it, "number") for it in amounts]
    _, currency, balance = coin.value.content
    block.fail(8, sum(amounts) > balance)
    return [self.new(("coin", currency, it)) for it in amounts]


@mistake
def failure_costs_nothing():
    """A failed block pays no gas."""
    block.unchanged = lambda tx, objects, version: [it._replace(version=version) for named, it in zip(tx.named, objects) if named.how not in ("immutable", "r")]


@mistake
def objects_twice():
    """An object is shown twice."""
    original = store.Store.live_objects
    store.Store.live_objects = lambda self: original(self) + original(self)[:1]


@mistake
def checkpoints_begin_anew():
    """Checkpoints are numbered from 0 in each epoch."""
    original = member.Member.turn

    def turn(self):
        self.checkpoints = 0
        return original(self)

    member.Member.turn = turn


@mistake
def odd_checkpoints():
    """Members with an odd number list the transactions of a checkpoint in reverse."""
    original = member.Member.built
    member.Member.built = lambda self: [(number, txs[:: -1 if self.number % 2 else 1], last) for number, txs, last in original(self)]


@mistake
def odd_readers():
    """Members with an odd number execute a reader of a shared object on its newest version."""
    original = member.Member.wants

    def wants(self, held):
        found = original(self, held)
        if found is None or self.number % 2 == 0:
            return found
        newest = {named.id: self.store.live.get(named.id) for named in held.tx.named if named.how == "r"}
        return [(key, maker) if not newest.get(key[0]) else ((key[0], newest[key[0]].version), self.store.producer((key[0], newest[key[0]].version))) for key, maker in found]

    member.Member.wants = wants


@mistake
def odd_order():
    """Members with an odd number admit the last one first."""
    original = member.Member.see_certificate
    member.Member.see_certificate = lambda self, *entry: ("ignored", "repeat") if self.number % 2 and self.seen % 3 == 0 else original(self, *entry)


@mistake
def all_is_reverted():
    """A turn takes back what stands in checkpoints too."""
    original = store.Store.turned
    store.Store.turned = lambda self, kept: original(self, {})


@mistake
def odd_statuses():
    """Members with an odd number say of what is done that it failed."""
    original = world.World.do_run
    world.World.do_run = lambda self, number, workers: [line.replace(" done ", " failed at 0 cause 8 ") if number % 2 else line for line in original(self, number, workers)]


@mistake
def odd_effects():
    """Members with an odd number acknowledge other effects."""
    original = member.Member.acknowledge
    member.Member.acknowledge = lambda self, digest: wire.spoiled(original(self, digest)) if self.number % 2 else original(self, digest)


@mistake
def what_is_final_is_reverted():
    """A turn says of all that was acknowledged that it is taken back."""
    original = world.World.do_turn

    def do_turn(self, number):
        said = original(self, number)
        return said + [f"  reverted {self.names.of_tx(it)}" for it in self.acks] if "reverted" in said[0] else said

    world.World.do_turn = do_turn


@mistake
def versions_fall():
    """The second show of a member says of each object that it has version 0."""
    original = world.World.do_show

    def do_show(self, number):
        lines, self.shows = original(self, number), getattr(self, "shows", 0) + 1
        return lines if isinstance(lines, str) or self.shows == 1 else [line.replace(" v", " v0", 1).replace(" v01", " v0") for line in lines]

    world.World.do_show = do_show


@mistake
def no_producers():
    """Versions are there, whoever made them is forgotten, so that what depends on them is absent."""
    store.Store.producer = lambda self, key: None


@mistake
def refuses_a_schedule():
    """Names of 16 characters are refused."""
    text.NAME = re.compile(r"[a-z][a-z0-9_]{0,14}")


@mistake
def takes_what_is_none():
    """A run with 17 workers is taken."""
    text.Reader.line_run = lambda self, number, workers: (self.member(number, "honest"), self.number(workers, 1, 17))


@mistake
def says_nothing():
    """A show writes no line."""
    world.World.do_show = lambda self, number: []


@mistake
def hangs():
    """A line `order commit` has no end."""
    original = world.World.do_order
    world.World.do_order = lambda self, what, value: all(itertools.count(1)) if what == "commit" else original(self, what, value)


@mistake
def crashes():
    """A restart ends the program by a signal."""
    world.World.do_restart = lambda self, number: os.abort()


@mistake
def eats_memory():
    """A turn takes all memory that there is."""
    original = world.World.do_turn
    world.World.do_turn = lambda self, number: original(self, number) if bytes(1 << 36) else None


@mistake
def last_byte_unread():
    """Bytes behind a value are taken."""
    wire.decoded = lambda kind, data: kind.read(wire.Bytes(data))


@mistake
def writers_forgotten():
    """There is no limit of writers."""
    sequence.Admission.full_for = lambda self, certificate: None


def main(words):
    if len(words) != 2 or words[0] not in MISTAKES or words[1] != "run":
        print(__doc__, file=sys.stderr)
        return 2
    MISTAKES[words[0]]()
    status, report = world.run(sys.stdin.buffer.read())
    sys.stdout.buffer.write(report)
    return status


if __name__ == "__main__":
    sys.exit(main(sys.argv[1:]))
