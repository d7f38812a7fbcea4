"""What things are called in a report, by the lines that ran so far."""

from . import wire


class Names:
    def __init__(self):
        self.users, self.txs, self.objects, self.created = {}, {}, {}, 0

    def user(self, name):
        """The address of a user whom a line names."""
        address = wire.address_of(name)
        self.users.setdefault(address, name)
        return address

    def setup(self, name, id):
        self.objects.setdefault(id, (0, len(self.objects), name))

    def tx(self, name, made):
        """A line names a transaction: the first name stays."""
        self.txs.setdefault(made.digest, (len(self.txs), name, made.may_create))

    def write_created(self, tx, number):
        """A line writes an object that a transaction creates: its id."""
        id, (place, name, _) = wire.created_id(tx, number), self.txs[tx]
        self.objects.setdefault(id, (1, place, number, f"{name}.{number}"))
        return id

    def name_created(self):
        """Names all that the transactions so far can create."""
        for digest in list(self.txs)[self.created :]:
            for number in range(self.txs[digest][2]):
                self.write_created(digest, number)
        self.created = len(self.txs)

    def rank(self, id):
        """Where an object stands among others, and its name last."""
        if id not in self.objects:
            self.name_created()
        return self.objects.get(id, (2, id, "?"))

    def of_object(self, id):
        return self.rank(id)[-1]

    def of_key(self, key):
        return f"{self.of_object(key[0])}@{key[1]}"

    def of_tx(self, digest):
        return self.txs[digest][1] if digest in self.txs else "?"

    def of_user(self, address):
        return self.users.get(address, "?")
