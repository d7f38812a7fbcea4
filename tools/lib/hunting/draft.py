"""A schedule in the making: its lines, the world that the plain model makes of them, and what can be asked of it."""

from .plain import text
from .plain.world import World


class Draft:
    def __init__(self, random):
        self.random, self.lines, self.report, self.reader, self.world = random, [], [], text.Reader(), World()
        self.names, self.counted = [], 0

    def say(self, line):
        """Adds a line, and answers what the report says of it."""
        event, cause = self.reader.line(line.encode())
        if cause:
            raise ValueError(f"the generator wrote a bad line, cause {cause}: {line}")
        self.lines.append(line)
        said = self.world.step(event)
        self.report += said
        return said

    def chance(self, likely):
        return self.random.random() < likely

    def one_of(self, many):
        many = list(many)
        return self.random.choice(many) if many else None

    # Members.

    @property
    def honest(self):
        return [number for number, role in enumerate(self.world.roles) if role == "honest"]

    @property
    def faulty(self):
        return [number for number, role in enumerate(self.world.roles) if role == "faulty"]

    def member(self, number):
        """The member where it is honest and up."""
        seat = self.world.seats[number] if self.world.seats else None
        return seat.member if seat else None

    @property
    def up(self):
        return [number for number in self.honest if self.member(number)]

    def some_member(self):
        """An honest member, one that is up for the most part."""
        return self.one_of(self.up if self.up and self.chance(0.95) else self.honest)

    def is_quorum(self, members):
        return 3 * sum(self.world.stakes[it] for it in members) > 2 * sum(self.world.stakes)

    @property
    def open_epoch(self):
        return len(self.world.entries) - 1

    # Transactions and objects.

    def new_name(self):
        self.counted += 1
        odd = {3: "commit", 5: "end", 8: "last", 11: "g0", 14: "a_name_of_16_let"}
        name = odd.get(self.counted) if self.chance(0.1) else None
        name = name if name and name not in self.world.made else f"t{self.counted}"
        self.names.append(name)
        return name

    def tx(self):
        """The name of a transaction, of a late one for the most part, or none."""
        late = self.names[-6:] if self.chance(0.8) else self.names
        return self.one_of(it for it in late if it in self.world.made)

    def objects(self, number):
        """The live objects of a member by the names by which a line can have them, with the names of the owners."""
        member, names = self.member(number), self.world.names
        found = [(names.of_object(it.id), it) for it in (member.store.live_objects() if member else self.world.objects)]
        return sorted(((name, it) for name, it in found if name != "?"), key=lambda pair: pair[0])

    def gone(self, number):
        """The names of objects that a member has seen deleted."""
        names = [self.world.names.of_object(id) for id, it in self.member(number).store.live.items() if it is None]
        return sorted(it for it in names if it != "?")

    def owner(self, it):
        """The name of the user who owns it, or none."""
        return self.world.names.users.get(it.owner[1]) if it.owner[0] == "address" else None
