"""Situations that chance alone seldom makes: lines that belong together, over what a draft has."""

from . import actions


def crowd(draft, style):
    """Several transactions that write the same shared objects, one after the other in the sequence, with marks between."""
    number = draft.one_of(it for it in draft.up if is_open(draft, it))
    shared = [it for it in draft.objects(number) if it[1].owner[0] == "shared"] if number is not None else []
    shared = draft.random.sample(shared, min(len(shared), draft.random.choice((1, 2, 2))))
    if not shared:
        return
    for _ in range(draft.random.choice((2, 3, 4))):
        name = writer(draft, number, shared)
        if name is not None:
            actions.gather(draft, name)
            draft.say(f"order {name}")
    for _ in range(draft.random.choice((0, 1, 2))):
        draft.say(f"see {number} 9")
        draft.say("order commit")
    draft.say(f"see {number} 99")
    draft.say(f"run {number} {draft.random.choice((1, 4))}")


def is_open(draft, number):
    """Whether a member takes what is of the open epoch."""
    member = draft.member(number)
    return not member.closed and not member.halted and member.epoch == draft.open_epoch


def writer(draft, number, shared):
    """A transaction that writes some of these shared objects."""
    gas = actions.gas_coin(draft, draft.objects(number))
    if gas is None:
        return None
    some = draft.random.sample(shared, draft.random.randrange(1, len(shared) + 1))
    counters = [f"counter_add(i{place},i0)" for place, (_, it) in enumerate(some, 1) if it.content[0] == "counter"]
    inputs = ["n:1", *(f"s:{name}@{it.owner[1]}" for name, it in some)]
    return plain(draft, gas, [*inputs, *(counters or ["vec(coin)"])])


def plain(draft, gas, words, mark="", budget=0):
    """A transaction that this coin pays, of these inputs and commands."""
    cost = actions.COST + actions.EACH * sum("(" in it for it in words)
    return actions.said(draft, [draft.owner(gas[1]), str(draft.open_epoch), f"{gas[0]}@{gas[1].version}{mark}", str(cost + budget), *words])


# With a quorum of faulty members.


def staged(draft, style):
    """One of the situations that a faulty quorum can make; or none, if there is no such quorum."""
    number = draft.one_of(it for it in draft.up if is_open(draft, it))
    if number is None or not draft.is_quorum(draft.faulty):
        return actions.force(draft, style)
    draft.one_of((misnamed, misnamed, misshapen, misshapen, other_origins, unmade_origin, twins))(draft, number)


def gas_of(draft, number):
    """A coin that can pay."""
    return actions.gas_coin(draft, draft.objects(number))


def paid_alone(draft, number, mark="", budget=0):
    """A transaction that gives its gas coin away."""
    gas = gas_of(draft, number)
    return plain(draft, gas, ["a:bob", "transfer(gas,i0)"], mark, budget) if gas else None


def misnamed(draft, number):
    """A certificate of a transaction that names an object as what it is not: no member executes it."""
    objects = draft.objects(number)
    gas = actions.gas_coin(draft, objects)
    owned = [f"s:{name}@{it.version}" for name, it in objects if draft.owner(it) and gas and name != gas[0]]
    shared = [f"s:{name}@{it.owner[1] + 1}" for name, it in objects if it.owner[0] == "shared"]
    others = [pair for pair in objects if draft.owner(pair[1]) and pair[1].content[0] == "coin" and pair[1].content[1]]
    if gas is None:
        return
    if others and draft.chance(0.3):
        name = plain(draft, draft.one_of(others), ["vec(coin)"])
    elif owned or shared:
        name = plain(draft, gas, [draft.one_of(draft.one_of(it for it in (owned, shared) if it)), "vec(coin)"])
    else:
        return
    actions.forced(draft, name)
    draft.say(f"order {name}")
    draft.say(f"see {number} 99")
    draft.say(f"run {number} 1")


def misshapen(draft, number):
    """A certificate of a transaction with a fault in its shape."""
    gas = gas_of(draft, number)
    if gas is None:
        return
    twice = f"i:{gas[0]}@{gas[1].version}"
    words = draft.one_of(((), ("transfer(gas,i0)",), ("merge(gas)",), ("n:1", "freeze(r0)"), (twice, "freeze(i0)"), ("vec(coin)", "split(gas)", "freeze(r2)")))
    name = plain(draft, gas, words, budget=-draft.one_of((0, 0, 1)))
    actions.forced(draft, name)
    draft.say(f"send {number} {name}")


def other_origins(draft, number):
    """A transaction that is executed by a certificate with other origins than those of the one in the sequence."""
    first = paid_alone(draft, number)
    if first is None:
        return
    actions.forced(draft, first)
    draft.say(f"send {number} {first}")
    second = paid_alone(draft, number)
    if second is None or second == first:
        return
    actions.forced(draft, second, ["-"])
    draft.say(f"send {number} {second}")
    draft.say(f"run {number} 1")
    draft.say(f"order {first}")
    actions.forced(draft, second, [first])
    draft.say(f"order {second}")
    draft.say(draft.one_of(("order commit", f"send {number} {second}")))
    draft.say(f"see {number} 99")
    draft.say(f"run {number} 1")


def unmade_origin(draft, number):
    """A reader of a shared object, by an origin that is in the sequence and that no member executes."""
    shared = draft.one_of(it for it in draft.objects(number) if it[1].owner[0] == "shared")
    origin = paid_alone(draft, number, mark="!") if shared else None
    gas = gas_of(draft, number)
    if origin is None or gas is None:
        return
    reader = plain(draft, gas, [f"r:{shared[0]}@{shared[1].owner[1]}", "vec(coin)"])
    actions.forced(draft, origin)
    actions.forced(draft, reader, ["-", origin])
    for name in (origin, reader):
        draft.say(f"order {name}")
    draft.say(f"see {number} 99")
    draft.say(f"run {number} 1")


def twins(draft, number):
    """Two transactions that write the same version, each executed by another member: their votes for what follows name other origins."""
    other = draft.one_of(it for it in draft.up if it != number and is_open(draft, it))
    gas = gas_of(draft, number) if other is not None else None
    if gas is None:
        return
    for more, member in enumerate((number, other)):
        name = plain(draft, gas, ["a:bob", "transfer(gas,i0)"], budget=more)
        actions.forced(draft, name)
        draft.say(f"send {member} {name}")
        draft.say(f"run {member} 1")
    name = actions.said(draft, ["bob", str(draft.open_epoch), f"{gas[0]}@{gas[1].version + 1}", "1100", "a:alice", "transfer(gas,i0)"])
    for member in sorted((number, other)):
        draft.say(f"vote {member} {name}")
    faulty = draft.one_of(draft.faulty)
    draft.say(f"fvote {faulty} {name}")
    draft.say(f"cert {name} {' '.join(map(str, sorted((number, other, faulty))))}")
    actions.forced(draft, name)
