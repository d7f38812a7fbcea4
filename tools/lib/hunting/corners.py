"""Corners: schedules of one situation each, which chance hardly ever makes. The lines that lead there vary, and others follow."""

from . import actions
from .draft import Draft
from .plain import wire

HONEST = ("1 honest", "1 honest", "1 honest", "1 honest")
# A faulty member that is a quorum by itself, and one honest member, or two.
BESIDE_FAULTY = ("1 honest", "9 faulty")
TWO_BESIDE_FAULTY = ("1 honest", "1 honest", "9 faulty")
MOST = 2**64 - 1


def text(random, turn, style):
    """A text of the profile `corners`: the corners take turns, and lines of this style follow."""
    draft = Draft(random)
    CORNERS[turn % len(CORNERS)](draft)
    for _ in range(random.randrange(12)):
        name = random.choices(list(AFTER), AFTER.values())[0]
        getattr(actions, name)(draft, style)
    for number in draft.honest:
        draft.say(f"show {number}")
    return "".join(f"{line}\n" for line in draft.lines).encode()


AFTER = {"make": 3, "vote": 3, "carry": 4, "whole": 3, "send": 2, "see": 2, "run": 2, "show": 1, "commit": 1, "close": 0.5}


def begin(draft, members, *objects, coins=4):
    """Members in some order, coins of alice that can pay, and other objects."""
    for it in draft.random.sample(members, len(members)):
        draft.say(f"member {it}")
    for number in range(coins):
        draft.say(f"coin g{number} alice {draft.random.choice((5000, 20_000, 1_000_000))}")
    for it in objects:
        draft.say(it)


def tx(draft, gas, *words, sender="alice", budget=0):
    """A transaction that this reference pays, with a budget of its cost and so much more."""
    cost = actions.COST + actions.EACH * sum("(" in it for it in words)
    return actions.said(draft, [sender, str(draft.open_epoch), gas, str(cost + budget), *words])


def execute(draft, name, *members, sequenced=True):
    """Votes, a certificate, the sequence, and the execution at these members, or at all that are up."""
    actions.gather(draft, name)
    if sequenced:
        draft.say(f"order {name}")
    for number in members or draft.up:
        draft.say(f"send {number} {name}")
        draft.say(f"see {number} 99")
        draft.say(f"run {number} {draft.random.choice((1, 2, 16))}")


def ask(draft, name):
    """All honest members are asked for a vote."""
    for number in draft.random.sample(draft.up, len(draft.up)):
        draft.say(f"vote {number} {name}")


def input_of(draft, number, kind, letter=None):
    """An input that names a live object of this kind, as what it is or by another letter."""
    name, it = next(pair for pair in draft.objects(number) if pair[1].content[0] == kind)
    return f"{letter}:{name}@{it.version}" if letter else actions.input_word(draft, name, it)


# Votes.


def gone_as_shared(draft):
    """A coin that was merged away is named as a shared object."""
    begin(draft, HONEST)
    execute(draft, tx(draft, "g0@1", "o:g1@1", "merge(gas,i0)", budget=draft.random.choice((0, 500))))
    ask(draft, tx(draft, "g2@1", f"{draft.one_of('sr')}:g1@{draft.random.choice((1, 2))}", "vec(coin)"))


def paid_in_gold(draft):
    """A coin of another currency pays."""
    begin(draft, HONEST, f"cap m0 alice {draft.random.choice((1, 7, 8))}")
    made = tx(draft, "g0@1", "o:m0@1", f"n:{draft.random.choice((9000, MOST))}", "a:alice", "coin_mint(i0,i1)", "transfer(r0,i2)")
    execute(draft, made)
    ask(draft, tx(draft, f"{made}.0@2", draft.one_of(("vec(coin)", "n:0")), "vec(coin)"))


def owned_by_nobody(draft):
    """A shared or a frozen object is named as one that its sender owns."""
    begin(draft, HONEST, "counter c0 5")
    word = "o:c0@1"
    if draft.chance(0.5):
        execute(draft, tx(draft, "g0@1", "o:g1@1", "freeze(i0)"))
        word = "o:g1@2"
    ask(draft, tx(draft, "g2@1", word, "vec(coin)"))


# Certificates.


def sealed_twice(draft):
    """A certificate in which a member stands twice."""
    begin(draft, HONEST)
    made = draft.world.made[tx(draft, "g0@1", "a:bob", "transfer(gas,i0)")].tx
    statement = "vote", made.epoch, made.digest, tuple(None for _ in made.named)
    members = draft.random.sample(range(4), draft.random.choice((2, 3, 4)))
    members = sorted([*members, draft.one_of(members)])
    data = wire.CERTIFICATE.put((made.value, statement[3], tuple((it, wire.member_seal(it, statement)) for it in members)))
    draft.say(f"raw {draft.one_of(draft.up)} hold {data.hex()}")


def made_by_another(draft):
    """A certificate that names an executed transaction as the origin of what another one made."""
    begin(draft, BESIDE_FAULTY)
    one, other = (tx(draft, f"g{number}@1", "a:bob", "transfer(gas,i0)") for number in (0, 1))
    for name in (one, other):
        execute(draft, name, sequenced=draft.chance(0.5))
    late = tx(draft, "g0@2", "a:carol", "transfer(gas,i0)", sender="bob")
    actions.forced(draft, late, [draft.one_of((other, other, one))])
    for line in (f"send {draft.up[0]} {late}", f"run {draft.up[0]} 1"):
        draft.say(line)


def unmade_origin(draft):
    """Certificates that wait for an origin that no member executes; some of them could not be executed either."""
    begin(draft, BESIDE_FAULTY, "counter c0 5")
    origin = tx(draft, "g0@1!", "a:bob", "transfer(gas,i0)")
    readers = [tx(draft, f"g{number}@{version}", "n:0", "r:c0@1", "counter_require(i1,i0)") for number, version in ((1, 1), (2, 7), (2, 1))]
    actions.forced(draft, origin)
    for name in readers:
        actions.forced(draft, name, ["-", draft.one_of((origin, origin, "-"))])
    for name in (origin, *draft.random.sample(readers, 3)):
        draft.say(f"order {name}")
    for line in (f"see {draft.up[0]} 99", f"run {draft.up[0]} 1"):
        draft.say(line)


def votes_that_differ(draft):
    """Two members executed two transactions that write one version, so their votes for what follows differ; a faulty one says what one of them said."""
    begin(draft, TWO_BESIDE_FAULTY)
    for more, number in enumerate(draft.random.sample(draft.honest, 2)):
        name = tx(draft, "g0@1", "a:bob", "transfer(gas,i0)", budget=more)
        actions.forced(draft, name)
        for line in (f"send {number} {name}", f"run {number} 1"):
            draft.say(line)
    late = tx(draft, "g0@2", "a:carol", "transfer(gas,i0)", sender="bob")
    ask(draft, late)
    draft.say(f"fvote {draft.faulty[0]} {late}")
    for number in draft.up:
        draft.say(f"cert {late} {' '.join(map(str, sorted((number, draft.faulty[0]))))}")


# Blocks.


def to_the_brim(draft):
    """Two amounts that are together what 64 bits hold, or one more, or one less."""
    begin(draft, HONEST, "cap m0 alice 7")
    part = draft.random.choice((1, 2, 2**32, 2**63))
    rest = MOST - part + draft.random.choice((0, 0, 0, -1, 1))
    mints = ["o:m0@1", f"n:{part}", f"n:{rest}", "a:alice", "n:7", "coin_mint(i0,i1)", "coin_mint(i0,i2)"]
    ways = ("merge(r1,r0)", "transfer(r1,i3)"), ("vec(coin,r0,r1)", "coin_join_all(r2)", "transfer(r3,i3)"), ("vault_new(i4)", "vault_deposit(r2.0,r0)", "vault_deposit(r2.0,r1)", "share(r2.0)", "transfer(r2.1,i3)")
    execute(draft, tx(draft, "g0@1", *mints, *draft.one_of((ways[0], *ways))))


def one_of_two(draft):
    """A command that gives two things is named as if it gave one."""
    begin(draft, HONEST)
    many = draft.one_of(("split(gas,i0,i0)", "split(gas,i0,i0,i0)", "vault_new(i0)"))
    ways = ("freeze(r0)",), ("transfer(r0,i1)",), ("merge(gas,r0)",), ("split(r0,i0)", "transfer(r1,i1)"), ("split(gas,i0)", "freeze(r1)", "vec(coin,r0)")
    execute(draft, tx(draft, "g0@1", "n:0", "a:bob", many, *draft.one_of(ways)))


def frozen_key(draft):
    """A vault that all share is opened by a key that is frozen, or that all share."""
    begin(draft, HONEST, coins=2)
    draft.say("coin h0 bob 50000")
    how = draft.one_of(("freeze(r0.1)", "freeze(r0.1)", "share(r0.1)"))
    execute(draft, tx(draft, "g0@1", "n:0", "vault_new(i0)", "share(r0.0)", how))
    if any(it.content[0] == "key" for _, it in draft.objects(draft.up[0])):
        words = input_of(draft, draft.up[0], "vault", "s"), input_of(draft, draft.up[0], "key"), "n:0", "a:bob", "vault_withdraw(i0,i1,i2)", "transfer(r0,i3)"
        execute(draft, tx(draft, "h0@1", *words, sender="bob"))


# The end of an epoch.


def taken_back_in_a_row(draft):
    """A member executed several transactions that nobody ordered: the end takes all of them back."""
    begin(draft, HONEST)
    late = draft.one_of(draft.honest)
    for number in range(draft.random.choice((2, 3, 4))):
        execute(draft, tx(draft, f"g{number}@1", "n:5", "a:alice", "split(gas,i0)", "transfer(r0,i1)"), late, sequenced=draft.chance(0.1))
    for number in draft.random.sample([it for it in draft.up if it != late], 3):
        for line in (f"see {number} 99", f"run {number} 1", f"close {number}", f"end {number}", f"order end {number}"):
            draft.say(line)
    for number in (late, *draft.random.sample(draft.up, 2)):
        for line in (f"see {number} 99", f"run {number} 1", f"turn {number}", f"show {number}"):
            draft.say(line)


CORNERS = (
    gone_as_shared, paid_in_gold, owned_by_nobody, sealed_twice, made_by_another, unmade_origin, votes_that_differ, to_the_brim, one_of_two, frozen_key,
    taken_back_in_a_row,
)
