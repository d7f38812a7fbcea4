"""The natives: how each takes its arguments, and what it does. Each answers a code to abort with, or nothing, and its results."""

from collections import namedtuple

Native = namedtuple("Native", "name modes does")
MOST = 2**64 - 1
NUMBER, COINS, ANY = ("number",), ("coins", "coin"), ("value",)


def of(mode, kind):
    return (mode, kind)


def coin_zero(block, currency):
    return 0, [block.new(("coin", currency, 0))]


def coin_mint(block, cap, amount):
    _, currency, supply = cap.value.content
    if supply + amount > MOST:
        return 1, []
    cap.value.content = ("cap", currency, supply + amount)
    return 0, [block.new(("coin", currency, amount))]


def coin_burn(block, cap, coin):
    (_, currency, supply), (_, burnt, balance) = cap.value.content, coin.value.content
    if currency != burnt or supply < balance:
        return 1 if currency != burnt else 2, []
    cap.value.content, coin.value = ("cap", currency, supply - balance), None
    return 0, []


def coin_join_all(block, coins):
    items, coins.value = coins.value[1], None
    if not items:
        return 1, []
    if len({it.content[1] for it in items}) > 1:
        return 2, []
    total = sum(it.content[2] for it in items)
    if total > MOST:
        return 3, []
    items[0].content = ("coin", items[0].content[1], total)
    return 0, [items[0]]


def counter_new(block, value):
    return 0, [block.new(("counter", value))]


def counter_add(block, counter, amount):
    value = counter.value.content[1] + amount
    if value > MOST:
        return 1, []
    counter.value.content = ("counter", value)
    return 0, []


def counter_require(block, counter, least):
    return int(counter.value.content[1] < least), []


def vault_new(block, currency):
    vault = block.new(("vault", currency, 0))
    return 0, [vault, block.new(("key", vault.id))]


def vault_deposit(block, vault, coin):
    (_, currency, balance), (_, given, amount) = vault.value.content, coin.value.content
    if currency != given or balance + amount > MOST:
        return 1 if currency != given else 2, []
    vault.value.content, coin.value = ("vault", currency, balance + amount), None
    return 0, []


def vault_withdraw(block, vault, key, amount):
    _, currency, balance = vault.value.content
    if key.value.content != ("key", vault.value.id) or balance < amount:
        return 1 if key.value.content != ("key", vault.value.id) else 2, []
    vault.value.content = ("vault", currency, balance - amount)
    return 0, [block.new(("coin", currency, amount))]


def share(block, it):
    if it.value.number is None:
        return 1, []
    if it.value.content[0] not in ("counter", "vault"):
        return 2, []
    block.give(it, ("shared", block.version))
    return 0, []


def freeze(block, it):
    block.give(it, ("frozen",))
    return 0, []


def limit_new(block, value):
    return 0, [block.new(("limit", value))]


def counter_add_limited(block, counter, amount, limit):
    value = counter.value.content[1] + amount
    if value > MOST or value > limit.value.content[1]:
        return 1 if value > MOST else 2, []
    counter.value.content = ("counter", value)
    return 0, []


MODES = {
    coin_zero: [NUMBER],
    coin_mint: [of("mutable", "cap"), NUMBER],
    coin_burn: [of("mutable", "cap"), of("value", "coin")],
    coin_join_all: [COINS],
    counter_new: [NUMBER],
    counter_add: [of("mutable", "counter"), NUMBER],
    counter_require: [of("reference", "counter"), NUMBER],
    vault_new: [NUMBER],
    vault_deposit: [of("mutable", "vault"), of("value", "coin")],
    vault_withdraw: [of("mutable", "vault"), of("reference", "key"), NUMBER],
    share: [ANY],
    freeze: [ANY],
    limit_new: [NUMBER],
    counter_add_limited: [of("mutable", "counter"), NUMBER, of("reference", "limit")],
}
NATIVES = [Native(does.__name__, modes, does) for does, modes in MODES.items()]
NAMES = [it.name for it in NATIVES]
