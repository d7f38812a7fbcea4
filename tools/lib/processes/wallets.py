"""The wallets: who has which coin, and the transactions that they make. Some spend a coin twice."""

import wire

COUNTERS = 2
BALANCE = 10**12
USERS = ("alice", "bob", "carol", "dave")


class Coin:
    """A coin of the set-up: its name in a schedule, and the version that lives."""

    def __init__(self, place, owner):
        self.name, self.owner = f"g{place}", owner
        self.reference = wire.opening_coin(place, owner, BALANCE)
        self.locked_in = None


class Transaction:
    """A transaction that a wallet sealed: its bytes, and its line in a schedule."""

    def __init__(self, name, epoch, coin, inputs, commands, words, objects):
        self.name, self.epoch, self.coin, self.objects = name, epoch, coin, objects
        self.spelled = wire.transaction(epoch, coin.owner, coin.reference, 2000, inputs, commands)
        self.sealed = self.spelled + wire.seal_of_user(coin.owner, self.spelled)
        self.digest = wire.digest(b"T", self.spelled)
        self.consumes = (coin.reference.id, coin.reference.version)
        self.line = f"tx {name} {coin.owner} {epoch} {coin.name}@{coin.reference.version} 2000 {words}"


class Wallets:
    """All coins, and what was made of them."""

    def __init__(self, coins, chance):
        self.coins = [Coin(place, USERS[place % len(USERS)]) for place in range(coins)]
        self.addresses = {wire.address(name): name for name in USERS}
        self.chance, self.made = chance, {}
        self.doubles = 0

    def genesis(self):
        """The set-up lines of the objects."""
        lines = [f"coin {it.name} {it.owner} {BALANCE}" for it in self.coins]
        return lines + [f"counter c{place} 5" for place in range(COUNTERS)]

    def made_of(self, epoch, coin, to, kind):
        """A transaction of a kind: it sends the coin, a part of it, or counts one up."""
        name, receiver = f"t{len(self.made)}", wire.pure(wire.address(to))
        if kind == "send":
            inputs, commands = [receiver], [wire.transfer([wire.GAS], wire.argument(0))]
            words, objects = f"a:{to} transfer(gas,i0)", 1
        elif kind == "split":
            inputs = [wire.pure(wire.number(5)), receiver]
            commands = [wire.split(wire.GAS, [wire.argument(0)]), wire.transfer([wire.result(0)], wire.argument(1))]
            words, objects = f"n:5 a:{to} split(gas,i0) transfer(r0,i1)", 1
        else:
            place = self.chance.randrange(COUNTERS)
            inputs = [wire.pure(wire.number(1)), wire.shared(wire.opening_id(len(self.coins) + place), 1)]
            commands = [wire.call(wire.COUNTER_ADD, [wire.argument(1), wire.argument(0)])]
            words, objects = f"n:1 s:c{place}@1 counter_add(i1,i0)", 2
        made = Transaction(name, epoch, coin, inputs, commands, words, objects)
        self.made[made.digest] = made
        return made

    def spend(self, epoch, most, double):
        """New transactions over as many coins as may be, with a second one over some of them."""
        free = [it for it in self.coins if it.locked_in != epoch]
        batch = []
        for coin in self.chance.sample(free, min(most, len(free))):
            kinds, others = self.chance.choices(("send", "split", "count"), k=2), [it for it in USERS if it != coin.owner]
            first, second = self.chance.sample(others, 2)
            batch.append(self.made_of(epoch, coin, first, kinds[0]))
            coin.locked_in = epoch
            if self.chance.random() < double:
                other = self.made_of(epoch, coin, second, "split" if kinds[0] == "send" else "send")
                batch.append(other)
                self.doubles += 1
        return batch

    def executed(self, effects):
        """Takes what a transaction did: its coin has a new version, and may have a new owner."""
        made = self.made[effects.transaction]
        for identity, owner, digest in effects.written:
            if identity == made.coin.reference.id:
                made.coin.reference = wire.Reference(identity, effects.version, digest)
                made.coin.owner = self.addresses[owner]
                made.coin.locked_in = None
