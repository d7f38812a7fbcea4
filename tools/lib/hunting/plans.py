"""Transactions that do something: their inputs and commands, made of what is there, and how they are spoiled."""

from collections import namedtuple

from .plain.natives import NAMES
from .plain.text import KINDS

# What a command can be given: the word, the kind, the currency of coins and vaults, and whether the block created it.
Value = namedtuple("Value", "word kind currency fresh")
USERS = ("alice", "bob", "carol", "dave")
NUMBERS = (0, 1, 2, 5, 10, 100, 999, 5000)
EDGES = (2**63, 2**64 - 2, 2**64 - 1)


class Plan:
    """The words of one transaction in progress."""

    def __init__(self, random, wildness, edge=0.04):
        self.random, self.wildness, self.edge = random, wildness, edge
        self.inputs, self.commands, self.spent, self.values = [], [], [], [Value("gas", "coin", 0, False)]

    def input(self, word):
        self.inputs.append(word)
        return f"i{len(self.inputs) - 1}"

    def number(self, *likely):
        """An input with a number: one of these for the most part, or a small one, or one at an edge."""
        common = likely if likely and self.random.random() < 0.7 else NUMBERS
        value = self.random.choice(EDGES if self.random.random() < self.edge else common)
        word = f"n:{value}" if self.random.random() < 0.9 else f"x:{value.to_bytes(8, 'little').hex()}"
        if self.random.random() < self.wildness / 4:
            word = f"x:{bytes(self.random.choice((0, 7, 9, 32))).hex()}"
        return self.named(word)

    def named(self, word):
        """An input with this word, the one that is there if there is one."""
        return f"i{self.inputs.index(word)}" if word in self.inputs else self.input(word)

    def address(self):
        word = f"a:{self.random.choice(USERS)}"
        if self.random.random() < self.wildness / 4:
            word = f"x:{bytes(self.random.choice((8, 31, 32))).hex()}"
        return self.named(word)

    def pick(self, kind=None, **holds):
        """Something of a kind that can be named, or none."""
        found = [it for it in self.values if kind in (None, it.kind) and all(getattr(it, name) == value for name, value in holds.items())]
        return self.random.choice(found) if found else None

    def spend(self, *values):
        self.spent += [it.word for it in values]
        self.values = [it for it in self.values if it not in values]

    def say(self, head, arguments, *given):
        """A command, and what it gives: kinds with their currencies."""
        words = [self.wild() if it not in KINDS and self.random.random() < self.wildness / 6 else it for it in arguments]
        if head in NAMES and self.random.random() < self.wildness / 15:
            words = self.random.choice((words[:-1], [*words, "gas"]))
        if len(words) > 1 and head != "vec" and self.random.random() < self.wildness / 12:
            words[-1] = words[0]
        place = len(self.commands)
        self.commands.append(f"{head}({','.join(words)})")
        for number, (kind, currency) in enumerate(given):
            self.values.append(Value(f"r{place}" if len(given) == 1 else f"r{place}.{number}", kind, currency, True))

    def wild(self):
        """Any argument, with results of earlier commands."""
        place = len(self.commands)
        choices = ["gas", f"i{self.random.randrange(len(self.inputs) or 1)}", *self.spent[-2:]]
        if place:
            choices += [f"r{self.random.randrange(place)}", f"r{self.random.randrange(place)}.{self.random.randrange(3)}"]
        return self.random.choice(choices)

    # Steps: each says whether there was something to do it with.

    def split(self):
        coin = self.pick("coin")
        amounts = [self.number() for _ in range(self.random.choice((1, 1, 2, 3)))] if coin else []
        if coin:
            self.say("split", [coin.word, *amounts], *[("coin", coin.currency)] * len(amounts))
        return bool(coin)

    def merge(self):
        target = self.pick("coin")
        source = self.pick("coin", currency=target.currency) if target and self.random.random() < 0.85 else self.pick("coin")
        if not source or source == target or source.word == "gas":
            return False
        self.spend(source)
        self.say("merge", [target.word, source.word])
        return True

    def join(self):
        """Some coins, often of one currency, or none, in a vector, and then in one."""
        first = self.pick("coin")
        coins = [it for it in self.values if it.kind == "coin" and it.word != "gas" and (it.currency == first.currency or self.random.random() < 0.3)] if first else []
        coins = coins[: self.random.choice((0, 1, 2, 3))] if self.random.random() < 0.3 else coins
        self.spend(*coins)
        self.say("vec", ["coin", *(it.word for it in coins)])
        self.say("coin_join_all", [f"r{len(self.commands) - 1}"], ("coin", coins[0].currency if coins else 0))
        return True

    def mint(self):
        cap = self.pick("cap")
        if cap:
            self.say("coin_mint", [cap.word, self.number()], ("coin", cap.currency))
        return bool(cap)

    def flood(self):
        """More of a currency than 64 bits hold."""
        cap = self.pick("cap")
        for amount in (2**64 - 1, self.random.choice((1, 2**63))) if cap else ():
            self.say("coin_mint", [cap.word, self.named(f"n:{amount}")], ("coin", cap.currency))
        return bool(cap)

    def stranger(self):
        """A coin of another currency, merged into one of the currency of gas, joined with one, or burned by a cap."""
        target, cap = self.pick("coin", currency=0), self.pick("cap")
        if target is None:
            return False
        self.say("coin_zero", [self.named("n:99")], ("coin", 99))
        source = self.values.pop()
        how = self.random.choice(("merge", "join", "burn" if cap else "merge"))
        if how == "join" and target.word != "gas":
            self.spend(target)
            self.say("vec", ["coin", target.word, source.word])
            self.say("coin_join_all", [f"r{len(self.commands) - 1}"], ("coin", 0))
        elif how == "burn":
            self.say("coin_burn", [cap.word, source.word])
        else:
            self.say("merge", [target.word, source.word])
        return True

    def overflow(self):
        """An addition within a limit that 64 bits do not hold."""
        self.say("counter_new", [self.named("n:1")], ("counter", None))
        self.say("limit_new", [self.named(f"n:{2**64 - 1}")], ("limit", None))
        counter, limit = self.values[-2:]
        self.say("counter_add_limited", [counter.word, self.named(f"n:{2**64 - 1}"), limit.word])
        return True

    def burn(self):
        cap = self.pick("cap")
        coin = (self.pick("coin", currency=cap.currency) or self.pick("coin", fresh=True)) if cap else None
        if coin:
            self.spend(coin)
            self.say("coin_burn", [cap.word, coin.word])
        return bool(coin)

    def zero(self):
        currency = self.random.choice((0, 0, 7, 8, 99))
        self.say("coin_zero", [self.number(currency)], ("coin", currency))
        return True

    def counter(self):
        self.say("counter_new", [self.number()], ("counter", None))
        return True

    def add(self):
        counter, limit = self.pick("counter"), self.pick("limit")
        if counter and limit and self.random.random() < 0.7:
            self.say("counter_add_limited", [counter.word, self.number(1, 2), limit.word])
        elif counter:
            self.say("counter_add", [counter.word, self.number(1, 2, 3)])
        return bool(counter)

    def require(self):
        counter = self.pick("counter")
        if counter:
            self.say("counter_require", [counter.word, self.number(0, 0, 1, 5, 6)])
        return bool(counter)

    def vault(self):
        currency = self.random.choice((0, 0, 7, 8))
        self.say("vault_new", [self.number(currency)], ("vault", currency), ("key", None))
        return True

    def deposit(self):
        vault = self.pick("vault")
        coin = (self.pick("coin", currency=vault.currency) or self.pick("coin")) if vault else None
        if not coin or coin.word == "gas":
            return False
        self.spend(coin)
        self.say("vault_deposit", [vault.word, coin.word])
        return True

    def hoard(self):
        """A new vault with two coins in it."""
        coins = [it for it in self.values if it.kind == "coin" and it.currency == 0 and it.word != "gas"][:2]
        if len(coins) < 2:
            return False
        self.say("vault_new", [self.number(0)], ("vault", 0), ("key", None))
        vault = self.values[-2]
        for coin in coins:
            self.spend(coin)
            self.say("vault_deposit", [vault.word, coin.word])
        return True

    def keys(self):
        """Two vaults, and one opened with a key of either."""
        for _ in range(2):
            self.vault()
        self.withdraw()
        return True

    def bounded(self):
        """A counter, a limit, and an addition within it or not."""
        counter = self.pick("counter")
        if counter is None:
            self.say("counter_new", [self.number()], ("counter", None))
            counter = self.values[-1]
        self.say("limit_new", [self.number(5, 10, 100)], ("limit", None))
        self.say("counter_add_limited", [counter.word, self.number(1, 2, 5), self.values[-1].word])
        return True

    def withdraw(self):
        vault, key = self.pick("vault"), self.pick("key")
        if vault and key:
            self.say("vault_withdraw", [vault.word, key.word, self.number(0, 1)], ("coin", vault.currency))
        return bool(vault and key)

    def limit(self):
        self.say("limit_new", [self.number(5, 10, 100)], ("limit", None))
        return True

    def share(self):
        it = self.pick(self.random.choice(("counter", "vault")), fresh=True) or (self.pick() if self.random.random() < 0.2 else None)
        if it:
            self.spend(it)
            self.say("share", [it.word])
        return bool(it)

    def freeze(self):
        it = self.pick()
        if not it or it.word == "gas":
            return False
        self.spend(it)
        self.say("freeze", [it.word])
        return True

    def transfer(self):
        it = self.pick()
        more = self.pick() if self.random.random() < 0.3 else None
        given = [one for one in dict.fromkeys((it, more)) if one]
        if not given or (given[0].word == "gas" and self.random.random() < 0.5):
            return False
        self.spend(*given)
        self.say("transfer", [*(one.word for one in given), self.address()])
        return True

    def vectors(self):
        self.say("vec", [self.random.choice(("coin", "cap", "counter", "vault", "key", "limit"))])
        return True

    def finish(self):
        """Gives away what would be left at the end."""
        left = [it for it in self.values if it.word.startswith("r")]
        if left:
            self.spend(*left)
            self.say("transfer", [*(it.word for it in left), self.address()])
        if not self.commands:
            self.say("transfer", ["gas", self.address()])


STEPS = {
    "split": 8, "transfer": 6, "merge": 3, "join": 2, "mint": 4, "burn": 2, "zero": 1, "counter": 3, "add": 6, "require": 3,
    "vault": 3, "deposit": 3, "withdraw": 3, "limit": 2, "share": 4, "freeze": 2,
    "hoard": 4, "keys": 0.5, "bounded": 1.5, "vectors": 0.15, "flood": 0.5, "stranger": 1, "overflow": 0.3,
}


def fill(plan, count):
    """Some steps, and an end."""
    done = 0
    for _ in range(4 * count):
        done += getattr(plan, plan.random.choices(list(STEPS), STEPS.values())[0])()
        if done >= count:
            break
    if plan.random.random() > plan.wildness / 3:
        plan.finish()
    elif not plan.commands:
        plan.zero()
