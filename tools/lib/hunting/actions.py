"""What a schedule does next: each action adds a line or a few to a draft, chosen so that most of them do something."""

from .plain import wire
from .plain.natives import NAMES
from .plans import USERS, Plan, Value, fill

COST, EACH = 1000, 100


# Transactions.


def make(draft, style):
    """A transaction of what some member has; now and then spoiled, or one that was made before."""
    if draft.names and draft.chance(style.repeats):
        return repeat(draft)
    number = draft.one_of(draft.up) if draft.up else 0
    objects = draft.objects(number)
    gas = gas_coin(draft, objects)
    if gas is None:
        return None
    plan = Plan(draft.random, style.wildness if draft.chance(0.5) else 0, style.edge)
    sender = draft.owner(gas[1]) or draft.one_of(USERS)
    take_inputs(draft, plan, [it for it in objects if it[0] != gas[0]], sender, style)
    fill(plan, draft.random.choice((1, 1, 2, 3, 4, 6)))
    member = draft.member(number)
    words = words_of(draft, plan, sender, gas, member.epoch if member else 0)
    for _ in range(2):
        if draft.chance(style.spoiled):
            words = spoil(draft, words, objects)
    return said(draft, words)


def said(draft, words):
    name = draft.new_name()
    draft.say(" ".join(["tx", name, *words]))
    return name


def gas_coin(draft, objects):
    """A coin that can pay for the most part."""
    coins = [it for it in objects if it[1].content[:2] == ("coin", 0) and draft.owner(it[1])]
    rich = [it for it in coins if it[1].content[2] >= 2500]
    free = [it for it in rich if not is_locked(draft, it[1])]
    return draft.one_of(free if free and draft.chance(0.85) else rich if rich and draft.chance(0.95) else coins)


def is_locked(draft, it):
    """Whether some member voted for a transaction that consumes this version."""
    return any((it.id, it.version) in draft.member(number).locks for number in draft.up)


def take_inputs(draft, plan, objects, sender, style):
    """Objects that the sender can have, as inputs, and what they are."""
    mine = [it for it in objects if draft.owner(it[1]) == sender]
    others = [it for it in objects if it[1].owner[0] != "address"]
    count = draft.random.choice((0, 0, 1, 1, 2) if style.edge < 0.2 else (1, 2, 2, 3))
    picked = draft.random.sample(mine, min(len(mine), count))
    shared = draft.random.sample(others, min(len(others), draft.random.choice((0, 1, 1, 2)))) if draft.chance(style.sharing) else []
    for name, it in picked + shared:
        word = plan.input(input_word(draft, name, it))
        currency = it.content[1] if it.content[0] in ("coin", "cap", "vault") else None
        plan.values.append(Value(word, it.content[0], currency, False))


def input_word(draft, name, it):
    if it.owner[0] == "address":
        return f"o:{name}@{it.version}"
    if it.owner[0] == "frozen":
        return f"i:{name}@{it.version}"
    return f"{'r' if draft.chance(0.3) else 's'}:{name}@{it.owner[1]}"


def words_of(draft, plan, sender, gas, epoch):
    cost = COST + EACH * len(plan.commands)
    budget = cost + draft.random.choice((0, 0, 300, 1000, 1000))
    return [sender, str(epoch), f"{gas[0]}@{gas[1].version}", str(budget), *plan.inputs, *plan.commands]


def repeat(draft):
    """The same line under another name."""
    earlier = draft.one_of(it for it in draft.lines if it.startswith("tx "))
    name = draft.new_name()
    draft.say(" ".join(["tx", name, *earlier.split(" ")[2:]]))
    return name


# What is wrong with a transaction. The words are sender, epoch, gas, budget, inputs and commands.


def spoil(draft, words, objects):
    return draft.one_of(SPOILS)(draft, list(words), objects)


def spoil_seal(draft, words, objects):
    return [f"{words[0].rstrip('?')}?", *words[1:]]


def spoil_digest(draft, words, objects):
    at = draft.one_of(at for at, word in enumerate(words) if at == 2 or word.startswith(("o:", "i:")))
    return [*words[:at], f"{words[at].rstrip('!')}!", *words[at + 1 :]]


def spoil_version(draft, words, objects):
    """A version before or behind, at a limit, or of a shared object another initial one."""
    at = draft.one_of(at for at, word in enumerate(words) if "@" in word)
    head, version = words[at].rstrip("!").split("@")
    other = draft.one_of((int(version) - 1, int(version) - 1, int(version) + 1, 0, 4611686018427387902, 4611686018427387903))
    return [*words[:at], f"{head}@{max(other, 0)}", *words[at + 1 :]]


def spoil_sender(draft, words, objects):
    return [draft.one_of(it for it in USERS if it != words[0]), *words[1:]]


def spoil_epoch(draft, words, objects):
    later = min(int(words[1]) + 1, 2**64 - 1)
    return [words[0], str(draft.one_of((0, later, later, 2**64 - 1))), *words[2:]]


def spoil_budget(draft, words, objects):
    commands = sum("(" in it for it in words)
    return [*words[:3], str(draft.one_of((0, COST + EACH * commands - 1, 200_000, 2**64 - 1))), *words[4:]]


def spoil_gas(draft, words, objects):
    """Something else pays: a coin of another currency, if there is one, or any object."""
    others = [pair for pair in objects if pair[1].content[0] == "coin" and pair[1].content[1] and draft.owner(pair[1])]
    name, it = draft.one_of(others if others and draft.chance(0.5) else objects)
    owner = draft.owner(it)
    return [owner or words[0], words[1], f"{name}@{it.version}", *words[3:]]


def spoil_sort(draft, words, objects):
    """An input of another sort, or one that stands there twice."""
    name, it = draft.one_of(objects)
    word = f"{draft.one_of('oisr')}:{name}@{it.version}"
    at = next((at for at, word in enumerate(words) if "(" in word), len(words))
    return [*words[:at], word, *([word] if draft.chance(0.2) else []), *words[at:]]


def spoil_name(draft, words, objects):
    """An object that nobody has."""
    name = draft.tx()
    missing = f"{name}.{draft.one_of((0, 1, 99))}@{draft.one_of((1, 2, 3))}" if name else words[2].rstrip("!")
    return spoil_end(words, draft.one_of((f"o:{missing}", f"i:{missing}", f"s:{missing}")))


def spoil_gone(draft, words, objects):
    """An object that was deleted, as a shared one."""
    gone = draft.gone(draft.one_of(draft.up)) if draft.up else []
    return spoil_end(words, f"s:{draft.one_of(gone)}@{draft.one_of((1, 2))}") if gone else spoil_name(draft, words, objects)


def spoil_initial(draft, words, objects):
    """A shared object with another initial version."""
    it = draft.one_of(it for it in objects if it[1].owner[0] == "shared" and not any(f":{it[0]}@" in word for word in words))
    return spoil_end(words, f"s:{it[0]}@{it[1].owner[1] + draft.one_of((1, 1, 2))}") if it else words


def spoil_sort_and_budget(draft, words, objects):
    """An owned object named as immutable, and more of a budget than the gas coin has."""
    mine = [(name, it) for name, it in objects if draft.owner(it) == words[0] and not any(word.startswith(f"{name}@") or f":{name}@" in word for word in words)]
    if not mine:
        return spoil_budget(draft, words, objects)
    name, it = draft.one_of(mine)
    return spoil_end([*words[:3], str(2**64 - 1), *words[4:]], f"i:{name}@{it.version}")


def spoil_end(words, word):
    """A further input."""
    at = next((at for at, it in enumerate(words) if "(" in it), len(words))
    return [*words[:at], word, *words[at:]]


def spoil_shape(draft, words, objects):
    """A fault of the shape, or two."""
    inputs, commands = [it for it in words[4:] if "(" not in it], [it for it in words[4:] if "(" in it]
    if draft.chance(0.12):
        return [*words[:4], *inputs]
    late = len(commands) + draft.one_of((0, 1))
    bad = ("split(gas)", "merge(gas)", "transfer(gas)", f"transfer(i{len(inputs)})", "transfer(r0,i0)", f"split(gas,i{len(inputs)})", f"freeze(r{late})", f"freeze(r{late}.0)")
    return [*words[:4], *inputs, *commands, *draft.random.sample(bad, draft.random.choice((1, 1, 2)))]


SPOILS = (
    spoil_seal, spoil_digest, spoil_version, spoil_version, spoil_sender, spoil_sender, spoil_epoch, spoil_budget, spoil_budget,
    spoil_gas, spoil_gas, spoil_sort, spoil_sort, spoil_name, spoil_shape, spoil_shape, spoil_shape, spoil_gone, spoil_initial,
    spoil_sort_and_budget,
)


# Votes and certificates.


def vote(draft, style):
    name = draft.tx()
    if name is None:
        return
    if draft.faulty and draft.chance(0.3):
        return faulty_vote(draft, draft.one_of(draft.faulty), name)
    draft.say(f"vote {draft.some_member()} {name}") if draft.honest else None


def faulty_vote(draft, number, name):
    words = []
    if draft.chance(0.1):
        count = len(draft.world.made[name].tx.named) + draft.random.choice((0, 0, 0, 1, -1))
        words = [draft.one_of(("-", "-", draft.tx())) for _ in range(max(count, 0))]
    draft.say(" ".join(["fvote", str(number), name, *words]))


def gather(draft, name):
    """Votes for a transaction of members that have not voted, until they are a quorum, and its certificate."""
    tx = draft.world.made[name].tx
    members = draft.random.sample(range(len(draft.world.roles)), len(draft.world.roles))
    for number in members:
        voted = draft.world.votes.get(tx.digest, {})
        if draft.is_quorum(voted):
            break
        if number in draft.faulty:
            faulty_vote(draft, number, name)
        elif number not in voted and draft.member(number):
            draft.say(f"vote {number} {name}")
    certify(draft, name)


def certify(draft, name):
    """A certificate of those who voted, as few as are needed for the most part."""
    voted = sorted(draft.world.votes.get(draft.world.made[name].tx.digest, {}))
    members = [*voted]
    while len(members) > 1 and draft.chance(0.7):
        fewer = [it for it in members if it != draft.one_of(members)]
        if fewer and (draft.is_quorum(fewer) or draft.chance(0.03)):
            members = fewer
        else:
            break
    if draft.chance(0.03) or not members:
        members = sorted({*members, draft.random.randrange(len(draft.world.roles))})
    draft.say(f"cert {name} {' '.join(map(str, members))}")


def cert(draft, style):
    name = draft.tx()
    if name:
        certify(draft, name)


def force(draft, style):
    """A certificate by the votes of faulty members, of any transaction, and what honest members make of it."""
    name = draft.tx()
    if name is None or not draft.is_quorum(draft.faulty):
        return carry(draft, style)
    words = []
    if draft.chance(0.25):
        words = [draft.one_of(("-", "-", draft.tx())) for _ in draft.world.made[name].tx.named][: draft.random.choice((9, 9, 1))]
    forced(draft, name, words)
    if draft.chance(0.6):
        order(draft, style, name)
        see(draft, style)
    if draft.chance(0.7):
        send(draft, style, name)
    run(draft, style)


def forced(draft, name, origins=()):
    """The votes of all faulty members for these origins, or as honest members have voted, and their certificate."""
    for number in draft.faulty:
        draft.say(" ".join(["fvote", str(number), name, *origins]))
    draft.say(f"cert {name} {' '.join(map(str, draft.faulty))}")


def carry(draft, style):
    """Brings a transaction further: votes and a certificate, or to members, or into the sequence."""
    name = draft.tx()
    if name is None:
        return
    if draft.world.made[name].certificate is None:
        return gather(draft, name)
    choice = draft.random.random()
    if choice < 0.45:
        order(draft, style, name)
    else:
        send(draft, style, name)
        if draft.up and draft.chance(0.6):
            run(draft, style)


def whole(draft, style):
    """A transaction from its line to its execution somewhere."""
    name = make(draft, style)
    if name is None:
        return
    gather(draft, name)
    if draft.chance(0.7):
        order(draft, style, name)
    for number in draft.random.sample(draft.up, min(len(draft.up), draft.random.choice((1, 2)))):
        if draft.chance(0.6):
            draft.say(f"send {number} {name}")
        if draft.chance(0.6):
            draft.say(f"see {number} 9")
        draft.say(f"run {number} {draft.random.choice((1, 2, 16))}")


def send(draft, style, name=None):
    name = name or draft.tx()
    if name and draft.honest:
        draft.say(f"send {draft.some_member()} {name}")


# The sequence and execution.


def order(draft, style, name=None):
    name = name or draft.tx()
    if name and name not in ("commit",):
        draft.say(f"order {name}")


def commit(draft, style):
    draft.say("order commit")


def see(draft, style):
    behind = [it for it in draft.up if draft.member(it).seen < len(draft.world.entries[draft.member(it).epoch])]
    number = draft.one_of(behind) if behind and draft.chance(0.9) else draft.some_member()
    if number is not None:
        draft.say(f"see {number} {draft.random.choice((1, 1, 2, 9, 99))}")


def run(draft, style):
    number = draft.some_member()
    if number is not None:
        draft.say(f"run {number} {draft.random.choice((1, 1, 4, 16))}")


def show(draft, style):
    number = draft.some_member()
    if number is not None:
        draft.say(f"show {number}")


# The end of an epoch.


def close(draft, style):
    number = draft.some_member()
    if number is not None:
        draft.say(f"close {number}")


def end(draft, style):
    closed = [it for it in draft.up if draft.member(it).closed]
    number = draft.one_of(closed) if closed and draft.chance(0.8) else draft.some_member()
    if number is not None:
        draft.say(f"end {number}")


def order_end(draft, style):
    said = sorted(set(draft.world.ends) | set(draft.faulty))
    number = draft.one_of(said) if said and draft.chance(0.9) else draft.random.randrange(len(draft.world.roles))
    draft.say(f"order end {number}")


def turn(draft, style):
    ended = [it for it in draft.up if draft.member(it).ended]
    number = draft.one_of(ended) if ended and draft.chance(0.9) else draft.some_member()
    if number is not None:
        draft.say(f"turn {number}")


# The calls of a member, with a transaction.
CALLS = ("close {0}", "end {0}", "turn {0}", "see {0} 1", "run {0} 1", "vote {0} {1}", "send {0} {1}", "ack {0} {1}", "show {0}", "restart {0}")


def ask_halted(draft, style):
    """Some things of a member that has met a fork."""
    number, name = draft.one_of(it for it in draft.up if draft.member(it).halted), draft.tx()
    if number is not None and name:
        for line in draft.random.sample(CALLS, 3):
            draft.say(line.format(number, name))


def alone(draft, style):
    """A member executes what nobody else holds and nobody orders: it is taken back when the epoch ends."""
    number = draft.one_of(it for it in draft.up if not draft.member(it).closed)
    name = make(draft, style) if number is not None else None
    if name is None:
        return None
    gather(draft, name)
    draft.say(f"send {number} {name}")
    draft.say(f"run {number} 1")
    return number


def end_epoch(draft, style):
    """All that it takes to end the open epoch, and to turn."""
    likely, late = draft.random.choice((0.3, 0.8, 1)), None
    for name in [it for it in draft.names if it in draft.world.made and draft.world.made[it].certificate]:
        if draft.world.made[name].tx.epoch == draft.open_epoch and draft.chance(likely) and name != "commit":
            draft.say(f"order {name}")
    if draft.chance(0.4):
        late = alone(draft, style)
    before = draft.open_epoch
    members = draft.random.sample(range(len(draft.world.roles)), len(draft.world.roles))
    for number in sorted(members, key=lambda it: it == late):
        if draft.open_epoch > before:
            break
        if number in draft.honest:
            for line in (f"see {number} 99", f"close {number}", f"end {number}"):
                draft.say(line)
        draft.say(f"order end {number}")
    for number in draft.up:
        if draft.chance(0.8):
            turn_whole(draft, number)


def turn_whole(draft, number):
    """A member sees what there is, executes it for the most part, and turns."""
    draft.say(f"see {number} 99")
    if draft.chance(0.9):
        draft.say(f"run {number} 2")
    stops = draft.chance(0.08)
    if stops:
        draft.say(f"stop {number} {draft.random.choice(('kept', 'lost'))}")
    draft.say(f"turn {number}")
    if stops:
        draft.say(f"restart {number}")


# Stops.


def stop(draft, style):
    number = draft.some_member()
    if number is not None:
        draft.say(f"stop {number} {draft.random.choice(('kept', 'lost'))}")


def stop_at(draft, style):
    """A stop at a call that keeps a record, for the most part."""
    number = draft.one_of(draft.up)
    if number is None:
        return
    draft.say(f"stop {number} {draft.random.choice(('kept', 'lost'))}")
    member, name = draft.member(number), draft.tx()
    calls = [f"turn {number}"] * 3 if member.ended else [f"see {number} 2", f"run {number} 1", f"close {number}"]
    calls += [f"vote {number} {name}", f"send {number} {name}"] if name else []
    draft.say(draft.one_of(calls))
    if draft.chance(0.7):
        draft.say(f"restart {number}")
        draft.say(f"show {number}")


def restart(draft, style):
    down = [it for it in draft.honest if not draft.member(it)]
    number = draft.one_of(down) if down and draft.chance(0.95) else draft.some_member()
    if number is not None:
        draft.say(f"restart {number}")


# Finality.


def ack(draft, style):
    done = sorted({(number, name) for number in draft.up for name in draft.names if is_executed(draft, number, name)})
    number, name = draft.one_of(done) if done and draft.chance(0.9) else (draft.some_member(), draft.tx())
    if draft.faulty and draft.chance(0.3):
        number = draft.one_of(draft.faulty)
        if name and draft.chance(0.2):
            return draft.say(f"ack {number} {name} !")
    if name and number is not None:
        draft.say(f"ack {number} {name}")


def is_executed(draft, number, name):
    made = draft.world.made.get(name)
    held = draft.member(number).held.get(made.tx.digest) if made else None
    return held is not None and held.effects is not None


def final(draft, style):
    said = {name: sorted(draft.world.acks.get(made.tx.digest, {})) for name, made in draft.world.made.items()}
    some = [name for name in said if said[name]]
    name = draft.one_of(some) if some and draft.chance(0.95) else draft.tx()
    if name:
        members = said.get(name) or [draft.random.randrange(len(draft.world.roles))]
        if draft.chance(0.1):
            members = sorted({*members, draft.random.randrange(len(draft.world.roles))})
        draft.say(f"final {name} {' '.join(map(str, members))}")


def acknowledge(draft, style):
    """All who executed a transaction acknowledge it, and it is collected."""
    done = [name for name in draft.names if any(is_executed(draft, number, name) for number in draft.up)]
    name = draft.one_of(done)
    for number in draft.up + draft.faulty if name else []:
        draft.say(f"ack {number} {name}{' !' if number in draft.faulty and draft.chance(0.2) else ''}")
    if name:
        final(draft, style)


# Bytes.


def raw(draft, style):
    """Bytes in place of a transaction or a certificate: true ones, and altered ones."""
    name = draft.tx()
    if name is None or not draft.honest:
        return
    made, call = draft.world.made[name], draft.random.choice(("vote", "hold"))
    if draft.chance(0.4):
        data = bytes_of_other(draft, made, call)
    else:
        data = made.signed if call == "vote" else made.certificate or forged(draft, made.tx)
    if draft.chance(0.6):
        data = altered(draft, data)
    draft.say(f"raw {draft.some_member()} {call} {data.hex()}")


def bytes_of_other(draft, made, call):
    """Those of a transaction that no line made: another budget, or a native that is none."""
    from .plain.tx import Transaction

    epoch, sender, gas, budget, inputs, commands = made.tx.value
    if draft.chance(0.2):
        commands = (*commands, ("call", draft.random.choice((len(NAMES), 200)), ()))
    other = Transaction((epoch, sender, gas, min(budget + draft.random.randrange(1, 3), 2**64 - 1), inputs, commands))
    return other.sealed() if call == "vote" else forged(draft, other)


def forged(draft, tx):
    """A certificate that was not collected: of a quorum with seals, or with something wrong."""
    members = list(range(len(draft.world.roles)))
    origins = tuple(None for _ in tx.named)
    if draft.chance(0.15):
        origins = origins[1:]
    if draft.chance(0.2):
        members = draft.one_of((members[:1], members[::-1], [*members, len(members)], [members[0], *members], []))
    statement = ("vote", tx.epoch, tx.digest, origins)
    seals = [(it, wire.member_seal(it, statement)) for it in members]
    if seals and draft.chance(0.2):
        at = draft.random.randrange(len(seals))
        seals[at] = (seals[at][0], wire.spoiled(seals[at][1]))
    return wire.CERTIFICATE.put((tx.value, origins, tuple(seals)))


def altered(draft, data):
    """Bytes that are changed at one place, cut, or made longer."""
    at, how = draft.random.randrange(len(data)), draft.random.random()
    if how < 0.2:
        return data[: at or 1]
    if how < 0.35:
        return data + bytes(draft.random.randrange(1, 4))
    # For the most part where lengths and the numbers of variants stand, after the fixed fields of a transaction; the first is how many inputs it has.
    if len(data) > 130 and draft.chance(0.7):
        at = draft.one_of((120, draft.random.randrange(120, min(len(data), 190)), draft.random.randrange(120, min(len(data), 190))))
    other = draft.one_of((b"\x80\x00", b"\x81\x00", b"\xff\xff\xff\xff\x1f", b"\xff\xff\xff\xff\x0f", b"\x80\x80\x80\x80\x08", b"\x02", b"\x04", b"\x06", b"\x0e", b"\x7f", b""))
    return (data[:at] + other + data[at + 1 :]) or b"\0"
