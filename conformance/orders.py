#!/usr/bin/env python3
"""Writes the cases of orders and of limits: of causes that apply together the first, of limits the last that is taken and the first that is not.

usage: conformance/orders.py

The texts stand here. Their reports are those of the plain model of the rules in tools/lib/hunting/plain, which was written from the manual
and shares nothing with the program. Each case is written anew; cases of other origin are left alone.
"""

import os
import sys

sys.dont_write_bytecode = True
HERE = os.path.dirname(os.path.abspath(__file__))
sys.path.insert(0, f"{os.path.dirname(HERE)}/tools/lib")
import firsts
from hunting.plain import wire, world
from hunting.plain.tx import Transaction


def write(case, lines, about, rules):
    """A case with the report of the plain model. A text may be given as lines or whole."""
    text = lines if isinstance(lines, bytes) else "".join(f"{line}\n" for line in lines).encode("latin-1")
    status, report = world.run(text)
    put(case, {"schedule": text, "report": report, "status": f"{status}\n".encode(), "about": f"{about}\nrules: {rules}\n".encode()})


def put(case, parts):
    """Writes the files of a case."""
    for ending, data in parts.items():
        with open(f"{HERE}/{case}.{ending}", "wb") as it:
            it.write(data)


# Votes: each pair of two refusals, the first of which is told.

VOTE_SETUP = ["member 1 honest", "member 1 honest", "member 1 honest", "coin spent alice 5000", "coin taken alice 5000", "coin mine alice 5000", "coin his bob 5000", "coin odd alice 5000", "coin gone alice 5000"]
# How each refusal is brought about: what changes of the words of a transaction.
VOTE_FAULTS = {
    "wrong-epoch": {"epoch": "1"},
    "invalid": {"commands": "transfer(gas,i9)"},
    "unsealed": {"sender": "alice?"},
    "absent": {"input": "o:gone@7"},
    "consumed": {"input": "o:spent@1"},
    "wrong-digest": {"input": "o:mine@1!"},
    "wrong-owner": {"input": "o:his@1"},
    "wrong-kind": {"input": "i:odd@1"},
    "poor-gas": {"budget": "9000"},
    "locked": {"input": "o:taken@1"},
}


def vote_setup(coins):
    """One transaction consumed `spent` and another one locked `taken` at member 0; member 1 is closed; member 2 is as it was."""
    lines = [*VOTE_SETUP, *(f"coin {it} alice 8000" for it in ["p0", "p1", *coins])]
    lines += ["tx spends alice 0 p0@1 2000 o:spent@1 a:bob transfer(i0,i1)", "tx takes alice 0 p1@1 2000 o:taken@1 a:bob transfer(i0,i1)"]
    lines += [f"vote {it} spends" for it in range(3)] + ["cert spends 0 1 2", "send 0 spends", "send 1 spends", "run 0 1", "run 1 1", "vote 0 takes", "vote 1 takes", "close 1"]
    return lines


def vote_line(name, coin, faults):
    """A transaction with these faults."""
    words = {"sender": "alice", "epoch": "0", "budget": "2000", "commands": "transfer(gas,i0)"}
    inputs = ["a:bob"]
    for it in faults:
        change = VOTE_FAULTS[it]
        inputs += [change["input"]] if "input" in change else []
        words.update({key: value for key, value in change.items() if key != "input"})
    return f"tx {name} {words['sender']} {words['epoch']} {coin}@1 {words['budget']} {' '.join(inputs)} {words['commands']}"


def one_object(faults):
    """Whether two faults are of one object that would be named twice, which is a fault of the shape."""
    named = [VOTE_FAULTS[it]["input"][2:].split("@")[0] for it in faults if "input" in VOTE_FAULTS[it]]
    return len(set(named)) < len(named)


def votes():
    order = list(VOTE_FAULTS)
    for place, first in enumerate(order[:-1]):
        pairs = [(first, other) for other in order[place + 1 :] if not one_object((first, other))]
        if not pairs:
            continue
        names = [f"p{number + 2}" for number in range(len(pairs))]
        lines = vote_setup(names)
        for coin, pair in zip(names, pairs):
            name = f"t{coin[1:]}"
            # The line makes both orders of the inputs, so that it is not the place that decides.
            lines += [vote_line(name, coin, pair), vote_line(f"{name}_b", coin, pair[::-1]), f"vote 0 {name}", f"vote 0 {name}_b", f"vote 1 {name}"]
        said = ", ".join(f"`{other.replace('-', ' ')}`" for _, other in pairs)
        write(f"votes/order-{first}-first", lines, f"`{first.replace('-', ' ')}` is told where one of these applies too, whichever object stands first: {said}. A closed member says so before all but `wrong epoch`.", f"vote.{first if first != 'invalid' else 'voted'} vote.closed vote.order" if first != "invalid" else "shape.6 vote.closed vote.order")
    write("votes/order-again-and-closed", [*vote_setup(["p2"]), "tx t alice 0 p2@1 2000 a:bob transfer(gas,i0)", "vote 1 takes", "vote 1 spends", "vote 1 t", "vote 0 t", "close 0", "vote 0 t", "vote 0 spends"], "A vote that was given is given again even if the member is closed, the coin is spent, or another one holds the lock.", "vote.again vote.closed vote.order")


# Votes and runs: what may stand in each place, by kind and owner.

KINDS = ["member 1 honest", "member 9 faulty", "coin g0 alice 1000000", "cap m0 alice 7", "cap m1 bob 8", "coin own alice 5000", "coin his bob 5000", "coin ice alice 5", "counter c0 5"]
MADE = "tx make alice 0 g0@1 9000 o:m0@1 n:50 n:7 n:3 a:alice o:ice@1 coin_mint(i0,i1) counter_new(i3) counter_new(i3) vault_new(i2) vault_new(i2) limit_new(i3) limit_new(i3) share(r1) share(r3.0) freeze(r5) freeze(i5) transfer(r0,r2,r3.1,r4.0,r4.1,r6,i4)"
# The objects behind that: by name and version, or the version since which they would be shared.
THINGS = ("own@1", "his@1", "m0@2", "m1@1", "ice@2", "c0@1", "make.0@2", "make.1@2", "make.2@2", "make.3@2", "make.4@2", "make.5@2", "make.6@2", "make.7@2", "make.8@2", "c0@2", "make.1@3")


def kinds_setup(count):
    coins = [f"coin p{number} alice 3000" for number in range(count)]
    return [*KINDS, *coins, MADE, "vote 0 make", "fvote 1 make", "cert make 0 1", "send 0 make", "run 0 1", "show 0"]


def kind_lines():
    """A transaction for each thing in each place: as gas, owned, immutable, shared to be written and to be read."""
    for number, thing in enumerate(THINGS):
        yield f"tx g{number} alice 0 {thing} 2000 a:bob transfer(gas,i0)"
        for sort in "oisr":
            yield f"tx {sort}{number} alice 0 p{4 * number + 'oisr'.index(sort)}@1 2000 {sort}:{thing} vec(coin)"


def kinds():
    lines = kinds_setup(4 * len(THINGS))
    made = list(kind_lines())
    names = [it.split(" ")[1] for it in made]
    write("votes/kinds-and-owners", [*lines, *made, *(f"vote 0 {it}" for it in names)], "Objects of all kinds and owners, each as gas, as an owned, an immutable and a shared input.", "vote.wrong-kind vote.wrong-owner vote.voted")
    forced = [line for it in names for line in (forced_vote(it), f"cert {it} 1")]
    held = [f"send 0 {it}" for it in names if it[0] in "oi"]
    write("execution/kinds-that-do-not-fit", [*lines, *made, *forced, *held, "run 0 1", "show 0"], "Certificates that a faulty quorum formed, each with one of many objects as an owned or an immutable input: one that fits is executed, one that does not is unfit.", "run.unfit run.absent run.done")
    seen = ["order make", *(f"order {it}" for it in names if it[0] in "sr")]
    write("sequence/kinds-that-are-not-shared", [*lines, *made, *forced, *seen, "see 0 99", "run 0 1", "show 0"], "Certificates that a faulty quorum formed, each with one of many objects as a shared input: with no origin, one that was not shared when the epoch opened is dropped; the others are admitted, and executed if they fit.", "see.dropped see.admitted run.unfit")
    gas = [f"send 0 {it}" for it in names if it[0] == "g"]
    write("execution/gas-that-does-not-fit", [*lines, *made, *forced, *gas, "run 0 1", "show 0"], "Certificates that a faulty quorum formed, each with one of many objects as its gas.", "run.unfit run.absent run.done")


def forced_vote(name):
    """A vote that names who made the object."""
    origin = "make" if THINGS[int(name[1:])].split("@")[0].startswith(("make", "m0", "ice")) else "-"
    return f"fvote 1 {name} {origin if name[0] == 'g' else f'- {origin}'}"


# Certificates as bytes: each pair of refusals.


class Bytes:
    """Certificates that are spelled here, of transfers of alice's coins, whose versions are those of the set-up."""

    def __init__(self, members, coins):
        self.members, self.coins = members, coins

    def tx(self, number, epoch=0, budget=2000, other=0, coin=None):
        at = number if coin is None else coin
        sender, id = wire.address_of("alice"), wire.genesis_id(at)
        digest = wire.object_digest((id, 1, ("address", sender), ("coin", 0, self.coins[at])))
        to = wire.address_of("bob")
        return Transaction((epoch, sender, (id, 1, digest), budget, (("pure", to),), (("transfer", (("gas",),), ("input", other)),)))

    def certificate(self, tx, members=None, origins=None, spoil=None):
        origins = (None,) * len(tx.named) if origins is None else origins
        statement = ("vote", tx.epoch, tx.digest, origins)
        seals = [(it, wire.member_seal(it, statement)) for it in (self.members if members is None else members)]
        for place in spoil if isinstance(spoil, tuple) else () if spoil is None else (spoil,):
            seals[place] = (seals[place][0], wire.spoiled(seals[place][1]))
        return wire.CERTIFICATE.put((tx.value, origins, tuple(seals)))


def certificates():
    it = Bytes((0, 1, 2), [9000] * 4)
    lines = ["member 1 honest", "member 1 honest", "member 1 honest", *(f"coin g{number} alice 9000" for number in range(4))]
    good, bad_shape, late = it.tx(0), it.tx(0, other=9), it.tx(0, epoch=1)
    second = it.tx(0, budget=3000)

    def hand(certificate, member=0):
        lines.append(f"raw {member} hold {certificate.hex()}")

    # A member that holds nothing: shape, order, short stake, bad seal, each before those behind it.
    for origins in (None, ()):
        for members in ((0, 1, 2), (2, 1, 0), (0, 0, 1, 2), (0, 1, 7), (0, 1), (1, 0), ()):
            for spoil in (None, 0, -1):
                if members or spoil is None:
                    hand(it.certificate(bad_shape, members, origins, spoil))
                    hand(it.certificate(good, members, origins, spoil)) if origins == () or members != (0, 1, 2) or spoil is not None else None
    hand(it.certificate(late, (1, 0), (), 0))
    # One that holds it: again comes before all that is wrong with the certificate; a fork behind that.
    hand(it.certificate(good))
    for members, origins, spoil in (((0, 1, 2), (), None), ((1, 0), None, None), ((0,), None, None), ((0, 1, 2), None, 1)):
        hand(it.certificate(good, members, origins, spoil))
        hand(it.certificate(second, members, origins, spoil))
    # A closed one: again, and then closed before the rest; another epoch before both.
    lines.append("close 0")
    for tx in (good, second, bad_shape, late):
        hand(it.certificate(tx, (1, 0)))
    lines.append("close 1")
    hand(it.certificate(bad_shape, (1, 0)), 1)
    hand(it.certificate(late, (0, 1, 2)), 1)
    hand(it.certificate(second, spoil=2), 1)
    # A fork, and then halted before everything.
    hand(it.certificate(good), 2)
    hand(it.certificate(second), 2)
    for tx in (good, second, bad_shape, late):
        hand(it.certificate(tx, (1, 0)), 2)
    lines += ["raw 2 hold 00", "raw 2 vote 00", "stop 2 lost", "close 2", "restart 2", "raw 2 hold 00"]
    write("certificates/order-of-refusals", lines, "Certificates as bytes with two faults or more: the first of `halted`, `malformed`, `wrong epoch`, `again`, `closed`, `shape`, `order`, `short stake`, `bad seal`, `fork` is named.", "send.shape send.order send.short-stake send.bad-seal send.again send.closed send.wrong-epoch send.order-of-refusals fork.halts")


# Shapes: a transaction for each fault, with all faults of greater numbers that it can have beside it.

SHAPE_FAULTS = {
    3: {"commands": ["coin_zero(i0)"] * 1025},
    4: {"inputs": ["n:0"] * 257},
    5: {"inputs": ["o:own@1", "o:own@1"]},
    6: {"commands": ["freeze(i9999)"]},
    7: {"commands": ["freeze(r9999)"]},
    8: {"commands": ["split(gas)"]},
    10: {"budget": "999"},
    11: {"inputs": ["i:ice@0"]},
    12: {"commands": [f"vec(coin,{','.join(['gas'] * 513)})"]},
}


def shape_line(name, faults):
    inputs, commands, budget = ["n:0"], ["coin_zero(i0)"], "900000"
    for it in faults:
        inputs += SHAPE_FAULTS[it].get("inputs", [])
        commands += SHAPE_FAULTS[it].get("commands", [])
        budget = SHAPE_FAULTS[it].get("budget", budget)
    return f"tx {name} alice 0 g0@1 {budget} {' '.join(inputs)} {' '.join(commands)}"


def shapes():
    order = sorted(SHAPE_FAULTS)
    lines = ["member 1 honest", "coin g0 alice 1000000", "coin own alice 5", "coin ice alice 5"]
    for place, first in enumerate(order):
        for other in order[place + 1 :]:
            lines += [shape_line(f"s{first}_{other}", (first, other)), f"vote 0 s{first}_{other}"]
    for other in ("n:0 n:0 o:own@1 o:own@1", "i:ice@0", "n:0 " * 257):
        name = f"none{len(lines)}"
        lines += [f"tx {name} alice 0 g0@1 999 {other.strip()}", f"vote 0 {name}"]
    lines += [f"tx great alice 0 g0@0 999 x:{'00' * 131072}", "vote 0 great"]
    write("shapes/order-of-faults", lines, "Each pair of faults of a shape that a line can bring about: the lesser number is named.", "shape.least shape.1 shape.2 shape.3 shape.4 shape.5 shape.6 shape.7 shape.8 shape.10")


# So many references of one object have more bytes than a transaction may have; a reference is 73 bytes.
MANY_BYTES = ["o:g@1"] * 1800


def bytes_first():
    """A transaction of too many bytes with each other fault of a shape that a line can have: too many inputs, and one object twice, are in all."""
    lines = ["member 1 honest", "coin g alice 1000000"]
    tails = {"other_2": [], **{f"other_{it}": SHAPE_FAULTS[it]["commands"] for it in (3, 6, 7, 8, 12)}}
    for name, commands in tails.items():
        lines += [f"tx {name} alice 0 g@1 900000 {' '.join([*MANY_BYTES, *commands])}", f"vote 0 {name}"]
    write("shapes/bytes-before-all", lines, "Too many bytes, and each other fault that a line can have beside them: the bytes are named.", "shape.1 shape.least")


def shapes_of_certificates():
    """A faulty quorum certifies what nobody should vote for: the shape is told of the certificate as well."""
    lines = ["member 1 honest", "member 9 faulty", "coin g0 alice 1000000", "coin g alice 1000000", "coin own alice 5", "coin ice alice 5"]
    made = {f"shape_{it}": shape_line(f"shape_{it}", [it]) for it in SHAPE_FAULTS}
    made["shape_2"] = "tx shape_2 alice 0 g0@1 900000 n:0"
    made["shape_1"] = f"tx shape_1 alice 0 g@1 900000 {' '.join(MANY_BYTES)} freeze(gas)"
    for name, line in made.items():
        lines += [line, f"fvote 1 {name}", f"cert {name} 1", f"send 0 {name}"]
    write("certificates/each-fault-of-a-shape", lines, "Certificates of transactions with each fault of a shape that a line can have, formed by a faulty quorum: none is held.", "send.shape " + " ".join(f"shape.{it}" for it in sorted({1, 2, *SHAPE_FAULTS})))


def native_that_is_none():
    """A native above 13, which only bytes can have, beside each other fault of a shape."""
    native = ("call", 14, ())
    faults = {
        "commands": {"commands": (native,) * 1025}, "inputs": {"inputs": (("pure", b""),) * 257}, "twice": {"inputs": (("owned", (wire.genesis_id(0), 1, wire.ZERO)),)},
        "no-input": {"commands": (native, ("vec", ("coin",), (("input", 9),)))}, "late": {"commands": (native, ("vec", ("coin",), (("result", 1),)))}, "empty": {"commands": (native, ("split", ("gas",), ()))},
        "budget": {"budget": 0}, "version": {"gas": (wire.genesis_id(0), 0, wire.ZERO)}, "arguments": {"commands": (native, ("call", 0, (("gas",),) * 513))},
    }
    lines = ["member 1 honest", "coin g0 alice 9000"]
    for change in faults.values():
        made = {"gas": (wire.genesis_id(0), 1, wire.ZERO), "budget": 900_000, "inputs": (), "commands": (native,), **change}
        spelled = wire.TX.put((0, wire.address_of("alice"), made["gas"], made["budget"], made["inputs"], made["commands"]))
        lines.append(f"raw 0 vote {(spelled + wire.seal(('user', wire.address_of('alice')), spelled)).hex()}")
    write("raw/a-native-that-is-none-and-another-fault", lines, f"A native above 13, and another fault of the shape: {', '.join(faults)}. The least number is named.", "shape.9 shape.least")


def shape_limits():
    """The last that is taken, and the first that is not, of commands of all sorts and of versions."""
    lines = ["member 1 honest", "coin g0 alice 1000000"]
    words = {
        "in_last": "n:0 coin_zero(i0)", "in_past": "n:0 coin_zero(i1)", "r_last": "n:0 coin_zero(i0) freeze(r0)", "r_own": "n:0 coin_zero(i0) freeze(r1)", "r_first": "n:0 freeze(r0)",
        "k_last": "n:0 coin_zero(i0) freeze(r0.65535)", "k_own": "n:0 coin_zero(i0) freeze(r1.0)", "to_past": "a:bob transfer(gas,i1)", "to_own": "a:bob transfer(gas,r0)", "split_past": "n:0 split(i1,i0)",
        "merge_own": "n:0 merge(r0,i0)", "merge_none": "n:0 merge(gas)", "to_none": "a:bob transfer(i0)", "vec_none": "vec(coin)", "native_none": "freeze()",
        "split_512": f"n:0 split(gas,{','.join(['i0'] * 511)})", "split_513": f"n:0 split(gas,{','.join(['i0'] * 512)})",
        "merge_512": f"n:0 merge(gas,{','.join(['i0'] * 511)})", "merge_513": f"n:0 merge(gas,{','.join(['i0'] * 512)})",
        "to_512": f"a:bob transfer({','.join(['i0'] * 512)})", "to_513": f"a:bob transfer({','.join(['i0'] * 513)})",
        "vec_512": f"vec(coin,{','.join(['gas'] * 512)})", "vec_513": f"vec(coin,{','.join(['gas'] * 513)})",
        "call_512": f"freeze({','.join(['gas'] * 512)})", "call_513": f"freeze({','.join(['gas'] * 513)})",
        "i_last": "i:g1@4611686018427387902 vec(coin)", "i_past": "i:g1@4611686018427387903 vec(coin)", "i_zero": "i:g1@0 vec(coin)",
        "s_last": "s:c0@4611686018427387902 vec(coin)", "s_past": "r:c0@4611686018427387903 vec(coin)", "s_zero": "s:c0@0 vec(coin)",
        "inputs_256": f"{'n:0 ' * 256}coin_zero(i255)", "inputs_257": f"{'n:0 ' * 257}coin_zero(i255)",
        "shared_twice": "s:c0@1 r:c0@1 vec(coin)", "gas_twice": "o:g0@1 vec(coin)", "gas_shared": "s:g0@1 vec(coin)", "versions_of_one": "i:g1@1 i:g1@2 vec(coin)",
    }
    lines += ["coin g1 alice 5", "counter c0 5"]
    for name, tail in words.items():
        cost = 1000 + 100 * tail.count("(")
        lines += [f"tx {name} alice 0 g0@1 {cost} {tail}", f"vote 0 {name}", f"tx {name}_b alice 0 g0@1 {cost - 1} {tail}", f"vote 0 {name}_b"]
    lines += ["tx v_zero alice 0 g0@0 1100 vec(coin)", "vote 0 v_zero", "tx v_last alice 0 g0@4611686018427387902 1100 vec(coin)", "vote 0 v_last", "tx v_past alice 0 g0@4611686018427387903 1100 vec(coin)", "vote 0 v_past"]
    write("shapes/limits-in-each-place", lines, "The last input, result, argument and version that is taken, and the first that is not, in the places of all commands; each budget at the cost and one below it.", "shape.4 shape.5 shape.6 shape.7 shape.8 shape.10 shape.11 shape.12 shape.least")


# The text: a case for each pair of causes, and for each limit of a number or a name.

GOOD = ["member 1 honest", "member 1 honest", "member 1 faulty", "coin g0 alice 10000", "cap m0 bob 7", "writers 3", "tx t1 alice 0 g0@1 2000 a:bob transfer(gas,i0)", "vote 0 t1"]
PAIRS = {
    "3-before-4": "vote  0 t1\t", "3-before-5": "vote 00 t1\t", "3-before-6": "coin z alice 1\x7f", "3-before-9": "tx t1 al\u00e9 0 g0@1 2000", "3-before-10": "vote 0 t9\x1f", "3-before-11": "vote 9 t1\r", "3-before-12": "vote 2 t1\x00",
    "4-before-5": "run 00 x", "4-before-6": "coin z Alice 1", "4-before-9": "tx t1 alice 0 g0@1 2000 transfer()", "4-before-10": "vote 0 t9 t1", "4-before-11": "show 9 9", "4-before-12": "fvote 0", "4-before-13": "final t1 1 0 x",
    "5-before-6": "coin z alice 01", "5-before-9": "tx t1 alice 00 g0@1 2000", "5-before-10": "vote 00 t9", "5-before-11": "run 9 17", "5-before-12": "see 2 0", "5-before-13": "cert t1 01 0",
    "6-before-9": "coin g0 alice 1", "6-before-13": "writers 3", "6-before-13-of-a-cap": "cap z bob 7",
    "9-before-10": "tx t1 alice 0 g9@1 2000", "10-before-11": "vote 9 t9", "10-before-12": "fvote 0 t9", "10-before-13": "cert t9 1 0", "10-of-an-origin-before-11": "fvote 9 t1 t9", "11-before-13": "final t1 9 0", "11-before-13-alike": "cert t1 9 9",
    "12-of-the-mark": "ack 1 t1 !",
}
SETUP_PAIRS = {"5-before-9-in-set-up": "coin g0 alice 01", "9-before-13-in-set-up": "cap g0 bob 7", "5-before-13-in-set-up": "writers 65536", "5-before-13-of-a-cap": "cap z bob 07", "13-of-writers-in-set-up": "writers 3"}
# One line behind the good text: what it shows, and the line.
LIMITS = {
    "stake-0": "member 0 honest", "stake-past": "member 4294967296 faulty", "balance-past": "coin z alice 18446744073709551616", "counter-past": "counter z 18446744073709551616", "currency-0": "cap z alice 0",
    "currency-past": "cap z alice 18446744073709551616", "counter-zeros": "counter z 00", "name-17-of-a-counter": "counter abcdefghijklmnopq 5", "name-17-of-an-owner": "coin z abcdefghijklmnopq 5", "name-of-a-cap-in-capitals": "cap Z alice 9",
}
EVENT_LIMITS = {
    "epoch-past": "tx z alice 18446744073709551616 g0@1 2000", "budget-past": "tx z alice 0 g0@1 18446744073709551616", "version-past": "tx z alice 0 g0@18446744073709551616 2000", "version-zeros": "tx z alice 0 g0@01 2000",
    "number-past": "tx z alice 0 g0@1 2000 n:18446744073709551616", "number-zeros": "tx z alice 0 g0@1 2000 n:00", "creation-past": "tx z alice 0 t1.18446744073709551616@1 2000", "creation-zeros": "tx z alice 0 t1.00@1 2000",
    "input-past": "tx z alice 0 g0@1 2000 freeze(i65536)", "input-zeros": "tx z alice 0 g0@1 2000 n:0 freeze(i00)", "result-past": "tx z alice 0 g0@1 2000 freeze(r65536)", "nested-past": "tx z alice 0 g0@1 2000 freeze(r0.65536)",
    "nested-command-past": "tx z alice 0 g0@1 2000 freeze(r65536.0)", "nested-zeros": "tx z alice 0 g0@1 2000 freeze(r0.01)", "shared-version-past": "tx z alice 0 g0@1 2000 s:g0@18446744073709551616", "shared-version-spoiled": "tx z alice 0 g0@1 2000 s:g0@1!",
    "owned-without-version": "tx z alice 0 g0@1 2000 o:g0", "workers-0": "run 0 0", "workers-zeros": "run 0 01", "entries-past": "see 0 4294967296", "entries-zeros": "see 0 09", "member-past": "show 18446744073709551616", "member-zeros": "close 01", "member-3": "cert t1 3", "member-64": "ack 64 t1",
    "name-17-of-a-transaction": "tx abcdefghijklmnopq alice 0 g0@1 2000", "name-17-of-a-sender": "tx z abcdefghijklmnopq 0 g0@1 2000", "name-17-of-an-address": "tx z alice 0 g0@1 2000 a:abcdefghijklmnopq", "name-17-of-an-object": "tx z alice 0 abcdefghijklmnopq@1 2000",
    "capital-in-hex": "raw 0 vote 0A", "no-bytes": "raw 0 hold", "hex-of-half-a-byte": "tx z alice 0 g0@1 2000 x:000", "no-argument": "tx z alice 0 g0@1 2000 split()", "no-kind": "tx z alice 0 g0@1 2000 vec()", "kind-in-capitals": "tx z alice 0 g0@1 2000 vec(Coin)",
    "comma-at-the-end": "tx z alice 0 g0@1 2000 vec(coin,)", "input-behind-a-command": "tx z alice 0 g0@1 2000 vec(coin) n:0", "argument-without-number": "tx z alice 0 g0@1 2000 freeze(i)", "nested-without-number": "tx z alice 0 g0@1 2000 freeze(r0.)",
    "members-none": "final t1", "members-twice": "final t1 0 0", "mark-of-an-ack": "ack 2 t1 !!", "a-mark-apart": "tx z alice ? 0 g0@1 2000", "order-end-with-more": "order end 0 1", "order-commit-with-more": "order commit 0", "a-faulty-restart": "restart 2", "a-faulty-stop": "stop 2 kept", "a-faulty-raw": "raw 2 vote 00", "a-faulty-send": "send 2 t1",
}


def cause_of(lines):
    return world.run("".join(f"{line}\n" for line in lines).encode("latin-1"))[1].decode().split(" ")[-1].strip()


def text():
    for name, line in PAIRS.items():
        write(f"grammar/refused-{name}", [*GOOD, line], f"Of several causes against a line the least is named: `{printable(line)}`.", f"refused.{cause_of([*GOOD, line])} text.first")
    for name, line in SETUP_PAIRS.items():
        lines = [*GOOD[:6], line, *GOOD[6:]]
        write(f"grammar/refused-{name}", lines, f"Of several causes against a line of the set-up the least is named: `{line}`.", f"refused.{cause_of(lines)} text.first")
    for name, line in [*LIMITS.items(), *EVENT_LIMITS.items()]:
        lines = [*GOOD[:6], line, *GOOD[6:]] if name in LIMITS else [*GOOD, line]
        cause = cause_of(lines)
        rule = {"4": "refused.4 text.names" if "name" in name else "refused.4", "5": "refused.5 text.numbers"}.get(cause, f"refused.{cause}")
        write(f"grammar/refused-limit-{name}", lines, f"A line with one thing that its form or its place does not allow: `{line}`.", rule)
    members = ["member 1 honest"] * 64
    write("grammar/refused-3-before-7", [*members, "member 1 honest\x7f"], "The 65th member in a line with a byte that is not printable: the least cause is that of the byte.", "refused.3 text.first")
    write("grammar/refused-3-before-13", [*GOOD[:6], "writers 6\x7f", *GOOD[6:]], "A second limit of writers in a line with a byte that is not printable: the least cause is that of the byte.", "refused.3 text.first")
    write("grammar/refused-5-before-7", [*members, "member 0 honest"], "The 65th member with a stake of 0: the least cause is that of the number.", "refused.5 text.first")
    write("grammar/refused-6-before-7", [*members, "show 0", "member 1 honest"], "The 65th member after an event: the least cause is that of the late line.", "refused.6 text.first")


def printable(line):
    return "".join(it if " " <= it <= "~" else f"\\x{ord(it):02x}" for it in line)


def taken_limits():
    """What is at a limit, and is taken."""
    lines = ["member 4294967295 honest", "member 1 faulty", "writers 65535", "coin abcdefghijklmnop abcdefghijklmnop 18446744073709551615", "coin z_9 a 0", "counter c0 18446744073709551615", "cap m0 a 1", "cap m1 a 18446744073709551615"]
    lines += ["tx abcdefghijklmnop abcdefghijklmnop 18446744073709551615 abcdefghijklmnop@18446744073709551615 18446744073709551615 n:18446744073709551615 a:abcdefghijklmnop x: o:abcdefghijklmnop@0 freeze(i65535) freeze(r65535) freeze(r65535.65535)"]
    lines += ["tx t0 a? 0 z_9@1! 0 s:abcdefghijklmnop.18446744073709551615@18446744073709551615", "vote 0 abcdefghijklmnop", "vote 0 t0", "see 0 4294967295", "see 0 1", "run 0 16", "run 0 1", "cert t0 0 1", "order end 1", "raw 0 vote 00", "show 0"]
    write("grammar/limits-that-are-taken", lines, "Numbers and names at their limits, each in its place.", "text.numbers text.names")
    write("grammar/64-members", [*["member 4294967295 honest"] * 64, "coin g0 a 1100", "tx t0 a 0 g0@1 1100 vec(coin)", *[f"vote {it} t0" for it in range(64)], f"cert t0 {' '.join(map(str, range(42)))}", f"cert t0 {' '.join(map(str, range(43)))}"], "64 members of the greatest stake: 42 are no quorum, 43 are one.", "cert.short cert.formed text.numbers")


# Bytes: faults in each item behind the first ones.


def late_faults():
    tx = Bytes((0, 1, 2), [9000]).tx(0)
    value = tx.value
    inputs = (("pure", b"\1"), ("owned", value[2]), ("immutable", value[2]), ("shared", value[2][0], 1, True))
    commands = (("call", 13, (("gas",), ("input", 1))), ("transfer", (("result", 0),), ("nested", 0, 1)), ("split", ("gas",), (("input", 0),)), ("merge", ("gas",), (("input", 0),)), ("vec", ("limit",), (("gas",),)))
    whole = Transaction((*value[:4], inputs, commands))
    signed = whole.sealed()
    origins = (None, b"\7" * 32, None, None)
    certificate = wire.CERTIFICATE.put((whole.value, origins, ((0, b"\1" * 32), (1, b"\2" * 32))))
    lines = ["member 1 honest", "coin g0 alice 9000"]
    for call, data in (("vote", signed), ("hold", certificate)):
        for at in places(whole, data):
            for other in (b"\x80\x00", b"\xff\xff\xff\xff\x10", b"\x80\x80\x80\x80\x08", b"\x09", b"\x04"):
                lines.append(f"raw 0 {call} {(data[:at] + other + data[at + 1 :]).hex()}")
            lines.append(f"raw 0 {call} {data[:at].hex()}")
        lines += [f"raw 0 {call} {it.hex()}" for it in (data + b"\0", data[:-1], data[:-32])]
    return lines


def places(tx, data):
    """Where the lengths, the numbers of variants and the bools of these bytes stand: found by reading, since each item begins somewhere."""
    found = []

    class Noting(wire.Bytes):
        def uleb(self):
            found.append(self.at)
            return super().uleb()

        def take(self, count):
            if count == 1:
                found.append(self.at)
            return super().take(count)

    (wire.SIGNED if len(data) == len(tx.bytes) + 32 else wire.CERTIFICATE).read(Noting(data))
    return sorted(set(found))


def late():
    lines = late_faults()
    head, votes_lines, holds = lines[:2], [it for it in lines if " vote " in it], [it for it in lines if " hold " in it]
    write("raw/faults-in-each-item-of-a-vote", [*head, *votes_lines], "A transaction with every sort of input, argument and command: at each length, number of a variant and bool five other bytes, and the bytes cut there.", "wire.1 wire.2 wire.3 wire.4 wire.5 wire.6 wire.7")


# Blocks: of causes that apply together the first one.

# Commands of one transaction each; the inputs are always the same.
INPUTS = "n:1 n:9999999 x:00 a:bob o:own@1 s:c0@1 r:c1@1 o:m0@1"
BLOCKS = {
    "left_to_right": "split(i5,i2)", "left_to_right_2": "split(gas,i2,i4)", "left_to_right_3": "split(gas,i4,i2)", "number_is_object": "split(gas,i4)", "object_is_number": "split(i0,i0)", "short_number_as_coin": "merge(gas,i2)",
    "spent_and_kind": "freeze(i4) counter_add(i4,i0)", "spent_and_alias": "freeze(i4) merge(i4,i4)", "none_and_spent": "freeze(i4) freeze(r0)", "kind_before_value": "merge(i5,i5)", "kind_before_mutable": "coin_mint(i6,i0)", "value_before_alias": "transfer(i5,i5,i3)",
    "value_of_gas": "merge(i4,gas)", "gas_twice": "transfer(gas,gas,i3)", "gas_in_vec": "vec(coin,gas)", "gas_frozen": "freeze(gas)", "gas_then_used": "transfer(gas,i3) split(gas,i0)", "mutable_before_alias": "counter_add_limited(i6,i0,i6)", "alias_of_reads": "counter_require(i5,i0)",
    "count_before_kind": "counter_add(i4)", "count_before_none": "freeze()", "count_too_many": "counter_add(i5,i0,i0)", "count_before_spent": "freeze(i4) freeze(i4,i4)", "address_short": "transfer(i4,i2)", "address_is_object": "transfer(gas,i4)", "values_before_address": "transfer(i5,i2)",
    "currency_before_overflow": "coin_mint(i7,i0) merge(gas,r0)", "currency_of_second": "coin_mint(i7,i0) merge(gas,i4,r0)", "balance_whole": "split(gas,i0,i1)", "balance_shown": "split(i4,i1)", "sum_before_number": "split(gas,i1,i2)",
    "abort_before_unused": "counter_new(i0) counter_add(i5,i0)", "unused_vector": "vec(cap)", "unused_of_two": "split(gas,i0,i0) transfer(r0.0,i3)", "none_of_two": "split(gas,i0,i0) transfer(r0,i3)", "none_of_third": "split(gas,i0,i0) transfer(r0.2,i3)", "none_of_nothing": "freeze(i4) transfer(r0,i3)",
    "write_to_read_only": "counter_add(i6,i0)", "read_of_read_only": "counter_require(i6,i0)", "share_of_an_input": "share(i4)", "share_of_a_key": "vault_new(i0) share(r0.1)", "share_twice": "counter_new(i0) share(r0) share(r0)", "freeze_and_share": "counter_new(i0) freeze(r0) share(r0)",
    "vault_other_coin": "vault_new(i0) vault_deposit(r0.0,i4)", "vault_other_key": "vault_new(i0) vault_new(i0) vault_withdraw(r0.0,r1.1,i0)", "vault_less": "vault_new(i0) vault_withdraw(r0.0,r0.1,i0)", "kind_before_alias": "vault_new(i0) vault_deposit(r0.0,r0.0)", "kind_before_value_2": "merge(gas,i5)", "gas_by_value_twice": "merge(gas,gas)", "key_by_value_then_used": "vault_new(i0) transfer(r0.1,i3) vault_withdraw(r0.0,r0.1,i0)",
    "join_two": "coin_mint(i7,i0) vec(coin,r0,i4) coin_join_all(r1)", "join_none": "vec(coin) coin_join_all(r0)", "join_other_kind": "vec(cap,i7) coin_join_all(r0)", "burn_other": "coin_burn(i7,i4)", "limit_at": "limit_new(i1) counter_new(i1) counter_add_limited(r1,i0,r0)", "limit_past_64": "limit_new(i1) counter_add_limited(i5,i0,r0)", "add_past_64": "counter_add(i5,i0)", "require_more": "counter_require(i6,i1)",
}


def block_cases():
    """Each block in an epoch of its own objects: a cap for each, since its input consumes it."""
    names = list(BLOCKS)
    lines = ["member 1 honest", *(f"coin p{it} alice 3000" for it in range(len(names))), *(f"coin own{it} alice 700" for it in range(len(names)))]
    lines += [f"cap m{it} alice {7 + it}" for it in range(len(names))] + ["counter c0 18446744073709551615", "counter c1 5"]
    made = [f"{name[:14]}{number}"[:16] for number, name in enumerate(names)]
    for number, (name, commands) in enumerate(zip(made, BLOCKS.values())):
        inputs = INPUTS.replace("own@1", f"own{number}@1").replace("m0@1", f"m{number}@1")
        lines += [f"tx {name} alice 0 p{number}@1 1500 {inputs} {commands}", f"vote 0 {name}", f"cert {name} 0", f"order {name}"]
    write("blocks/order-of-causes", [*lines, "see 0 99", "run 0 4", "show 0"], "Blocks to which several causes apply, at one argument, at two, and at the whole command: the first one is named.", "cause.1 cause.2 cause.3 cause.4 cause.5 cause.6 cause.7 cause.8 cause.10 cause.11 cause.12 block.order abort.share abort.vault_withdraw")
    great = ["member 1 honest", "coin g0 alice 18446744073709551615", "coin g1 alice 18446744073709551615", "coin g2 alice 5000", "coin g3 alice 18446744073709551614", "coin g4 alice 1", "coin g5 alice 9000", "cap m0 alice 7"]
    great += ["tx over alice 0 g0@1 1500 o:g1@1 n:1 o:m0@1 coin_mint(i2,i1) merge(gas,i0,r0)", "tx past alice 0 g2@1 1500 o:g3@1 o:g4@1 merge(i0,i1) merge(gas,i0)", "tx last alice 0 g5@1 1500 n:0 a:bob vault_new(i0) share(r0.0) transfer(r0.1,i1)"]
    for name in ("over", "past", "last"):
        great += [f"vote 0 {name}", f"cert {name} 0", f"send 0 {name}"]
    write("blocks/order-of-currency-and-overflow", [*great, "run 0 1", "show 0"], "A merge of another currency above 64 bits fails for the currency; the withheld budget counts in a merge into the gas coin; a sum of 64 bits is taken.", "cause.9 cause.10 block.order")


# Commands of which two arguments are at fault, or one and the whole: `r1.9` is no result, `i7` is used up, `i2` is too short, `i0` no object.
PLACES = "n:1 n:9999999 x:00 a:bob o:own@1 s:c0@1 r:c1@1 o:m0@1 i:ice.0@2 o:big@1"
BEFORE = "coin_mint(i7,i0) counter_new(i0) freeze(i7)"
AT_FAULT = {"2": "r1.9", "1": "i7", "4": "i0", "5": "i5", "3": "i2", "7": "i4,i4"}


def two_at_fault():
    """Commands with two arguments at fault by their causes; then such with one at fault where the whole command fails too, or the count of arguments."""
    for first in "2145":
        for other in "213457":
            if other != first:
                yield f"{first}_then_{other}", f"transfer({AT_FAULT[first]},{AT_FAULT[other]}{'' if other == '3' else ',i3'})"
    for other, word in {"2": "r1.9", "1": "i7", "4": "i4"}.items():
        yield f"3_then_{other}", f"split(gas,i2,{word})"
        yield f"{other}_then_8", f"split(gas,i1,{word})"
        yield f"{other}_then_key", f"vault_new(i0) vault_new(i0) vault_withdraw(r3.0,r4.1,{word})"
    yield "3_then_8", "split(gas,i1,i2)"
    yield "3_then_key", "vault_new(i0) vault_new(i0) vault_withdraw(r3.0,r4.1,i2)"
    for other, word in {"2": "r1.9", "1": "i7", "4": "i0", "5": "gas", "7": "i4,i4"}.items():
        yield f"6_then_{other}", f"merge(i8,{word})"
        yield f"{other}_then_10", f"merge(gas,r0,{word})"
        yield f"{other}_then_9", f"merge(i4,i9,{word if other != '7' else 'i9'})"
    yield "6_then_3", "counter_add(i6,i2)"
    for other, word in {"2": "r1.9", "1": "i7", "4": "i0"}.items():
        yield f"{other}_then_sum", f"counter_add_limited(i5,i0,{word})"
    for other, words in {"2": "freeze(r1.9,i4)", "1": "freeze(i7,i4)", "3": "counter_new(i2,i0)", "4": "counter_add(i0)", "5": "freeze(i5,i5)", "6": "counter_add(i6)"}.items():
        yield f"11_then_{other}", words
    # Of two codes of a native the first.
    yield "key_then_less", "vault_new(i0) vault_new(i0) vault_withdraw(r3.0,r4.1,i0)"


def left_to_right():
    """Each command in a transaction of its own, with objects of its own."""
    them = list(two_at_fault())
    lines = ["member 1 honest", "coin p alice 9000"]
    for number in range(len(them)):
        lines += [f"coin p{number} alice 3000", f"coin own{number} alice 700", f"cap m{number} alice {7 + number}", f"coin big{number} alice 18446744073709551615"]
    lines += ["counter c0 18446744073709551615", "counter c1 5", "tx ice alice 0 p@1 2000 n:5 split(gas,i0) freeze(r0)", "vote 0 ice", "cert ice 0", "order ice", "see 0 1", "run 0 1"]
    for number, (name, commands) in enumerate(them):
        inputs = PLACES.replace("own@1", f"own{number}@1").replace("m0@1", f"m{number}@1").replace("big@1", f"big{number}@1")
        made = f"c{name}"
        lines += [f"tx {made} alice 0 p{number}@1 2000 {inputs} {BEFORE} {commands}", f"vote 0 {made}", f"cert {made} 0", f"order {made}"]
    write("blocks/left-to-right", [*lines, "see 0 99", "run 0 4"], "Commands of which two arguments are at fault: the first one's cause is named, whichever number it has; causes of arguments come before those of the whole command and the codes of a native, and the number of a native's arguments before all.", "cause.1 cause.2 cause.3 cause.4 cause.5 cause.6 cause.7 cause.11 block.order")


def native_codes():
    """Of two codes of one native that both apply the first is named."""
    lines = ["member 1 honest", "coin g0 alice 9000", "coin g1 alice 9000", "coin big0 alice 18446744073709551615", "coin big1 alice 18446744073709551615", "cap m0 alice 7", "cap m1 alice 8"]
    lines += ["tx deposit alice 0 g0@1 2000 o:big0@1 o:m0@1 n:1 n:0 a:bob vault_new(i3) vault_deposit(r0.0,i0) coin_mint(i1,i2) vault_deposit(r0.0,r2) transfer(r0.0,r0.1,i4)"]
    lines += ["tx join alice 0 g1@1 2000 o:big1@1 o:m1@1 n:1 a:bob coin_mint(i1,i2) vec(coin,i0,r0) coin_join_all(r1) transfer(r2,i3)"]
    for name in ("deposit", "join"):
        lines += [f"vote 0 {name}", f"cert {name} 0", f"send 0 {name}"]
    write("blocks/two-codes-of-a-native", [*lines, "run 0 1"], "A deposit of another currency above 64 bits, and a vector of two currencies whose sum is above 64 bits: the first code is named.", "abort.vault_deposit abort.coin_join_all")


# What is asked of members in the sequence, at the end of an epoch and of acknowledgements.


def calls():
    lines = ["member 1 honest", "member 1 honest", "member 2 honest", "member 5 faulty", "coin g0 alice 9000", "coin g1 alice 9000", "coin g2 alice 9000", "tx t0 alice 0 g0@1 2000 a:bob transfer(gas,i0)", "tx t1 alice 0 g0@1 2000 a:carol transfer(gas,i0)", "tx t2 alice 1 g1@1 2000 a:bob transfer(gas,i0)", "tx t3 alice 0 g2@1 2000 a:bob transfer(gas,i0)"]
    lines += ["order t2", "fvote 3 t2", "cert t2 2", "cert t2 3", "cert t2 2 3", "vote 2 t0", "fvote 3 t0 t3", "cert t0 1 2 3", "cert t0 2 3", "fvote 3 t0", "cert t0 2 3", "fvote 3 t1", "vote 2 t3", "fvote 3 t3", "cert t3 2 3"]
    lines += ["send 0 t2", "order t2", "send 0 t0", "end 0", "turn 0", "ack 0 t0", "ack 0 t3", "final t0 0", "final t0 0 3", "close 0", "end 0", "order t0", "see 0 1", "end 0", "turn 0", "run 0 1", "turn 0", "ack 0 t0", "final t0 0", "ack 3 t0 !", "final t0 3", "final t0 0 3", "final t0 0 2 3"]
    lines += ["send 2 t0", "run 2 1", "ack 2 t0", "final t0 2 3", "final t0 0 2 3", "final t0 0 3", "final t0 0 1 3", "ack 3 t0", "final t0 0 2 3", "final t0 2 3"]
    # A stop at a call that keeps no record does not come; a member that is down says so before all else.
    lines += ["stop 1 lost", "end 1", "turn 1", "ack 1 t0", "see 1 1", "send 1 t0", "send 1 t2", "see 1 1", "close 1", "end 1", "turn 1", "ack 1 t0", "run 1 1", "show 1", "vote 1 t0", "restart 1", "see 1 1", "see 1 1"]
    write("epochs/order-of-refusals-of-calls", lines, "Of `end`, `turn`, `ack`, `final`, `cert`, `order` and of members that are down: if several answers apply the first is given.", "end.not-closed end.waits turn.not-ended ack.not-executed final.no-ack final.short final.differ order.no-certificate order.not-taken cert.no-vote cert.short cert.differ stop.down")


def repeats():
    """What is in the sequence comes again: with a valid certificate, and with one that is not."""
    lines = ["member 1 honest", "member 2 faulty", "member 6 faulty", "coin g0 alice 9000", "tx t0 alice 0 g0@1 2000 a:bob transfer(gas,i0)", "fvote 2 t0", "cert t0 2", "fvote 1 t0", "fvote 2 t0", "cert t0 1 2", "order t0", "fvote 1 t0 - -", "fvote 2 t0 - -", "cert t0 1 2", "order t0"]
    lines += ["see 0 2", "fvote 1 t0", "fvote 2 t0", "cert t0 1 2", "order t0", "see 0 1", "run 0 1", "see 0 1"]
    write("sequence/an-invalid-certificate-of-what-stands-there", lines, "An entry with an invalid certificate of a transaction that is in the sequence is ignored for its certificate, and one with a valid certificate as a repeat.", "see.certificate see.repeat")


def halted():
    """A closed member that meets a fork in the sequence, asked for everything that it would refuse otherwise."""
    lines = [*vote_setup([f"p{number}" for number in range(2, 14)])]
    lines[:3] = ["member 1 honest", "member 1 honest", "member 1 honest", "member 20 faulty"]
    lines = [line.replace("cert spends 0 1 2", "fvote 3 spends").replace("send 0 spends", "cert spends 0 3") for line in lines]
    lines += ["send 0 spends", "run 0 1", "close 0", "tx rival alice 0 spent@1 2000 a:bob transfer(gas,i0)", "fvote 3 rival", "cert rival 3", "order rival", "see 0 1"]
    faults = [(it,) for it in VOTE_FAULTS]
    for number, fault in enumerate(faults):
        lines += [vote_line(f"h{number}", f"p{number + 2}", fault), f"vote 0 h{number}"]
    lines += ["vote 0 takes", "vote 0 spends", "send 0 spends", "send 0 takes", "close 0", "end 0", "turn 0", "run 0 1", "see 0 1", "ack 0 takes", "ack 0 spends", "raw 0 vote 00", "raw 0 hold 00", "show 0", "stop 0 lost", "close 0", "restart 0", "close 0"]
    write("forks/halted-comes-first", lines, "A closed member that met a fork in the sequence says `halted` to whatever it is asked, whichever other refusal applies; `no certificate` comes before that.", "fork.halts see.fork see.halted turn.halted end.halted ack.halted vote.order")


def natives_at_limits():
    """Each native at its limit, and one past it: blocks of one coin and one cap each."""
    most, big = 2**64 - 1, "n:18446744073709551615"
    made = {
        "add_last": (f"{big} n:0 a:bob", "counter_new(i0) counter_add(r0,i1) transfer(r0,i2)"), "add_past": (f"{big} n:1 a:bob", "counter_new(i0) counter_add(r0,i1) transfer(r0,i2)"),
        "limit_last": ("n:4 n:6 n:10 a:bob", "counter_new(i0) limit_new(i2) counter_add_limited(r0,i1,r1) transfer(r0,r1,i3)"), "limit_past": ("n:4 n:7 n:10 a:bob", "counter_new(i0) limit_new(i2) counter_add_limited(r0,i1,r1) transfer(r0,r1,i3)"),
        "limit_64": (f"{big} n:1 a:bob", "counter_new(i0) limit_new(i0) counter_add_limited(r0,i1,r1) transfer(r0,r1,i2)"), "require_last": ("n:4 n:4 a:bob", "counter_new(i0) counter_require(r0,i1) transfer(r0,i2)"), "require_past": ("n:4 n:5 a:bob", "counter_new(i0) counter_require(r0,i1) transfer(r0,i2)"),
        "mint_last": (f"{big} n:0 a:bob", "coin_mint(CAP,i0) coin_mint(CAP,i1) transfer(r0,r1,i2)"), "mint_past": (f"{big} n:1 a:bob", "coin_mint(CAP,i0) coin_mint(CAP,i1) transfer(r0,r1,i2)"), "burn_all": ("n:9", "coin_mint(CAP,i0) coin_burn(CAP,r0)"),
        "draw_all": ("n:9 n:CUR a:bob", "coin_mint(CAP,i0) vault_new(i1) vault_deposit(r1.0,r0) vault_withdraw(r1.0,r1.1,i0) transfer(r1.0,r1.1,r3,i2)"), "draw_past": ("n:9 n:CUR n:10 a:bob", "coin_mint(CAP,i0) vault_new(i1) vault_deposit(r1.0,r0) vault_withdraw(r1.0,r1.1,i2) transfer(r1.0,r1.1,r3,i3)"),
        "join_one": ("n:9 a:bob", "coin_mint(CAP,i0) vec(coin,r0) coin_join_all(r1) transfer(r2,i1)"), "split_all": ("n:1500 a:bob", "split(gas,i0) transfer(r0,i1)"), "split_past": ("n:1501 a:bob", "split(gas,i0) transfer(r0,i1)"),
    }
    setup, events = ["member 1 honest"], []
    for number, (name, (inputs, commands)) in enumerate(made.items()):
        setup += [f"coin p{number} alice 3000", f"cap m{number} alice {7 + number}"]
        cap = f"i{len(inputs.split(' '))}"
        events += [f"tx {name} alice 0 p{number}@1 1500 {inputs.replace('CUR', str(7 + number))} o:m{number}@1 {commands.replace('CAP', cap)}", f"vote 0 {name}", f"cert {name} 0", f"send 0 {name}"]
    sums = {"d_last": (most, 0), "d_past": (most, 1), "j_last": (most - 1, 1), "j_past": (most, 1)}
    for number, (name, (one, other)) in enumerate(sums.items()):
        setup += [f"coin q{number} alice 3000", f"coin a{number} alice {one}", f"coin b{number} alice {other}"]
        does = "vault_new(i2) vault_deposit(r0.0,i0) vault_deposit(r0.0,i1) transfer(r0.0,r0.1,i3)" if name[0] == "d" else "vec(coin,i0,i1) coin_join_all(r0) transfer(r1,i3)"
        events += [f"tx {name} alice 0 q{number}@1 1500 o:a{number}@1 o:b{number}@1 n:0 a:bob {does}", f"vote 0 {name}", f"cert {name} 0", f"send 0 {name}"]
    write("blocks/natives-at-their-limits", [*setup, *events, "run 0 1", "show 0"], "Each native, and a split, at the last number that it takes and at the first that it does not.", "abort.counter_add abort.counter_add_limited abort.counter_require abort.coin_mint abort.vault_withdraw abort.vault_deposit abort.coin_join_all cause.8")


def frozen_key():
    """A key that is frozen opens its vault all the same: it is only read."""
    lines = ["member 1 honest", "coin g0 alice 9000", "coin g1 bob 9000", "tx t0 alice 0 g0@1 2000 n:0 vault_new(i0) share(r0.0) freeze(r0.1)", "vote 0 t0", "cert t0 0", "order t0", "see 0 1", "run 0 1"]
    lines += ["tx t1 bob 0 g1@1 2000 s:t0.0@2 i:t0.1@2 n:0 a:bob vault_withdraw(i0,i1,i2) transfer(r0,i3)", "vote 0 t1", "cert t1 0", "order t1", "see 0 1", "run 0 1", "show 0"]
    write("shared/a-frozen-key-opens-its-vault", lines, "A key is read by a withdrawal, so a frozen one opens its vault for anybody.", "shared.assigned block.version")


def other_origin():
    """A certificate that names another transaction of the epoch as the origin than the one that made the version."""
    lines = ["member 1 honest", "member 9 faulty", "coin g0 alice 9000", "coin g1 alice 9000", "tx t0 alice 0 g0@1 2000 a:bob transfer(gas,i0)", "tx t1 alice 0 g1@1 2000 a:bob transfer(gas,i0)"]
    for name in ("t0", "t1"):
        lines += [f"vote 0 {name}", f"fvote 1 {name}", f"cert {name} 0 1", f"send 0 {name}"]
    lines += ["run 0 1", "tx t2 bob 0 g0@2 2000 a:carol transfer(gas,i0)", "fvote 1 t2 t1", "cert t2 1", "send 0 t2", "run 0 1", "tx t3 bob 0 g1@2 2000 a:carol transfer(gas,i0)", "fvote 1 t3 t1", "cert t3 1", "send 0 t3", "run 0 1", "show 0"]
    write("execution/absent-by-another-origin", lines, "A faulty quorum names t1 as the origin of a version that t0 made: the version is absent, though both are executed.", "run.absent")


def taken_back():
    """What an epoch change takes back: a deletion, and what stands in the sequence and was not admitted."""
    lines = ["member 1 honest"] * 4 + ["coin g0 alice 9000", "coin g1 alice 700", "tx t1 alice 0 g0@1 2000 o:g1@1 merge(gas,i0)"]
    lines += [*(f"vote {number} t1" for number in range(3)), "cert t1 0 1 2", "send 3 t1", "run 3 1", "show 3"]
    for number in range(3):
        lines += [f"close {number}", f"end {number}", f"order end {number}"]
    lines += ["see 3 9", "turn 3", "show 3", "tx t2 alice 1 g0@1 2000 o:g1@1 a:bob transfer(i0,i1)", "vote 3 t2"]
    write("epochs/what-was-merged-away-comes-back", lines, "A merge that is in no checkpoint is taken back: the coin that was merged away is there again, in its old version.", "turn.turned show.objects vote.voted")
    lines = ["member 1 honest", "member 9 faulty", "coin g0 alice 9000", "tx t1 alice 0 g0@1 2000 a:bob transfer(gas,i0)", "fvote 1 t1", "cert t1 1", "send 0 t1", "run 0 1"]
    lines += ["tx t2 bob 0 g0@2 2000 a:carol transfer(gas,i0)", "fvote 1 t2 t1", "cert t2 1", "send 0 t2", "run 0 1", "show 0", "order t2", "order end 1", "see 0 9", "turn 0", "show 0"]
    write("epochs/a-pending-one-is-taken-back", lines, "A transaction that was executed and is in the sequence, but waits there for its origin, was not admitted: the epoch change takes it back.", "turn.turned see.pending")


def written_and_merged():
    """What an epoch writes and then merges away is not there when the next one opens."""
    lines = ["member 1 honest", "coin g0 alice 9000", "coin g1 alice 700", "tx t1 alice 0 g0@1 2000 o:g1@1 a:alice transfer(i0,i1)"]
    for name, words in (("t1", None), ("t2", "alice 0 g0@2 2000 o:g1@2 merge(gas,i0)")):
        lines += [f"tx {name} {words}"] if words else []
        lines += [f"vote 0 {name}", f"cert {name} 0", f"order {name}", "see 0 1", "run 0 1"]
    lines += ["show 0", "close 0", "end 0", "order end 0", "see 0 1", "turn 0", "show 0", "tx t3 alice 1 g0@3 2000 o:g1@2 a:bob transfer(i0,i1)", "vote 0 t3"]
    write("epochs/what-was-written-and-merged-away-stays-away", lines, "A coin that one transaction of the epoch wrote and a later one merged away, both in its last checkpoint, is not there in the next epoch.", "turn.turned show.objects vote.absent")


def two_heirs():
    """What one transaction makes is spent by two others in the same run: each gets its own of the values."""
    lines = ["member 1 honest", "member 1 honest", "member 9 faulty", "coin g0 alice 9000", "tx t1 alice 0 g0@1 2000 n:2500 n:2600 a:alice split(gas,i0,i1) transfer(r0.0,r0.1,i2)", "fvote 2 t1", "cert t1 2", "send 1 t1", "run 1 1"]
    for number in range(2):
        lines += [f"tx u{number} alice 0 t1.{1 - number}@2 1500 a:bob transfer(gas,i0)", f"fvote 2 u{number} t1", f"cert u{number} 2"]
    lines += [*(f"send 0 {it}" for it in ("t1", "u0", "u1")), *(f"send 1 {it}" for it in ("u0", "u1")), "run 0 1", "run 1 2", "show 0", "show 1", "restart 0", "show 0"]
    write("execution/two-heirs-in-one-run", lines, "Two coins that one transaction makes are spent by two others in the same run, the second coin first; and again when the run is read back at a start.", "run.done run.rounds run.same restart.records")


def created_second():
    """A vote as bytes for a transaction that pays with the second coin that another one created: its id is of the number 1."""
    lines = ["member 1 honest", "coin g0 alice 9000", "tx t1 alice 0 g0@1 2000 n:2500 n:2600 a:alice split(gas,i0,i1) transfer(r0.0,r0.1,i2)", "vote 0 t1", "cert t1 0", "send 0 t1", "run 0 1"]
    sender, to = wire.address_of("alice"), wire.address_of("bob")
    paid = wire.object_digest((wire.genesis_id(0), 1, ("address", sender), ("coin", 0, 9000)))
    amounts = tuple(("pure", wire.U64.put(it)) for it in (2500, 2600))
    made = (0, sender, (wire.genesis_id(0), 1, paid), 2000, (*amounts, ("pure", sender)), (("split", ("gas",), (("input", 0), ("input", 1))), ("transfer", (("nested", 0, 0), ("nested", 0, 1)), ("input", 2))))
    id = wire.created_id(Transaction(made).digest, 1)
    for amount in (2600, 2500):
        digest = wire.object_digest((id, 2, ("address", sender), ("coin", 0, amount)))
        lines.append(f"raw 0 vote {Transaction((0, sender, (id, 2, digest), 1500, (('pure', to),), (('transfer', (('gas',),), ('input', 0)),))).sealed().hex()}")
    write("raw/pays-with-what-was-created-second", lines[:-2] + lines[:-3:-1], "The bytes name the second coin that a transaction created, by the id of its number: first with another digest, then with the right one.", "vote.voted vote.wrong-digest name.created")


def longest_length():
    """A length of 2147483647, the last that is read, and the next one: the number of inputs, after the fixed fields of a transaction."""
    lines = ["member 1 honest", *(f"raw 0 {call} {'00' * 120}{length}" for call in ("vote", "hold") for length in ("ffffffff07", "8080808008"))]
    write("raw/longest-length", lines, "A length of 2147483647 is read, and the bytes end inside what it counts; one more is too long.", "wire.1 wire.5")


def no_bytes():
    """A `raw` line with a last space and no bytes after it; the same of an input is taken."""
    write("grammar/refused-raw-of-no-bytes", ["member 1 honest", "coin g0 alice 9000", "tx t1 alice 0 g0@1 2000 x: vec(coin)", "raw 0 vote "], "A raw line needs at least one byte; an input x: does not.", "refused.4")


# Of several things that a line could name, which one is told: conformance/firsts.py says what each case tells apart.

FIRST = "Of several that apply the first is named"


def first_objects():
    """Each cause of a vote against the gas coin and two inputs, and against two inputs in both orders."""
    coins = [f"{owner}{number}" for owner in ("spent", "taken", "good", "his", "odd") for number in range(3)]
    lines = ["member 1 honest", "coin p alice 9000", "coin q alice 9000", *(f"coin {it} {'bob' if it.startswith('his') else 'alice'} 9000" for it in coins), "cap m alice 7", *(f"coin p{number} alice 9000" for number in range(12))]
    lines += ["tx spends alice 0 p@1 2000 a:bob o:spent0@1 o:spent1@1 o:spent2@1 transfer(i1,i2,i3,i0)", "vote 0 spends", "cert spends 0", "send 0 spends", "run 0 1", "tx takes alice 0 q@1 2000 a:bob o:taken0@1 o:taken1@1 o:taken2@1 transfer(i1,i2,i3,i0)", "vote 0 takes"]
    faults = {"absent": "o:{}@7", "consumed": "o:{}@1", "digest": "o:{}@1!", "owner": "o:{}@1", "kind": "i:{}@1", "locked": "o:{}@1"}
    named = {"absent": "good", "consumed": "spent", "digest": "good", "owner": "his", "kind": "odd", "locked": "taken"}
    for place, (fault, word) in enumerate(faults.items()):
        gas, *inputs = (f"{named[fault]}{number}" for number in range(3))
        words = [word.format(it) for it in inputs]
        paid = "m@1" if fault == "kind" else word.format(gas)[2:]
        for name, coin, given in ((f"{fault}_gas", paid, words), (f"{fault}_1", f"p{2 * place}@1", words), (f"{fault}_2", f"p{2 * place + 1}@1", words[::-1])):
            lines += [f"tx {name} alice 0 {coin} 2000 a:bob {' '.join(given)} transfer(gas,i0)", f"vote 0 {name}"]
    write("votes/first-object-of-a-refusal", lines, f"{FIRST}: of three objects that are absent, consumed, of another digest, owner or kind, or locked, the gas coin, and of two inputs the first of the transaction.", "vote.absent vote.consumed vote.wrong-digest vote.wrong-owner vote.wrong-kind vote.locked")


def first_members():
    """Votes and acknowledgements of faulty members that say nothing, or something else."""
    lines = ["member 1 honest", *["member 9 faulty"] * 4, "coin g0 alice 9000", "tx t alice 0 g0@1 2000 a:bob transfer(gas,i0)", "cert t 1 2 3 4", "final t 1 2 3 4", "fvote 1 t -", "fvote 2 t -", "cert t 0 1 2 3 4", "cert t 1 2 3 4", "fvote 3 t t", "fvote 4 t - -", "cert t 1 2 3 4"]
    lines += ["fvote 3 t -", "cert t 1 2 3", "send 0 t", "run 0 1", "ack 1 t", "ack 2 t", "final t 0 1 2 3 4", "final t 1 2 3 4", "ack 3 t !", "ack 4 t !", "final t 1 2 3 4"]
    write("certificates/first-member-of-several", lines, f"{FIRST}: the first member that made no vote or acknowledgement, and the first that said something else than the first of all.", "cert.no-vote cert.differ final.no-ack final.differ")


def first_seals():
    """Certificates as bytes of which two seals are bad."""
    it = Bytes((0, 1, 2), [9000])
    lines = ["member 1 honest"] * 3 + ["coin g0 alice 9000"]
    for spoils in ((1, 2), (0, 2), (0, 1, 2)):
        lines.append(f"raw 0 hold {it.certificate(it.tx(0), spoil=spoils).hex()}")
    write("certificates/first-bad-seal", lines, f"{FIRST}: the first member whose seal is bad.", "send.bad-seal")


def first_of_a_fork():
    """Certificates that consume what two others consume: members that hold those two in both orders."""
    lines = [*["member 1 honest"] * 4, "member 99 faulty", *(f"coin {it} alice 9000" for it in ("a", "b", "p0", "p1", "p2", "p3"))]
    made = {"ta": "p0@1 2000 o:a@1", "tb": "p1@1 2000 o:b@1", "ab": "p2@1 2000 o:a@1 o:b@1", "ba": "p3@1 2000 o:b@1 o:a@1", "gas": "p1@1 2000 o:a@1"}
    for name, words in made.items():
        lines += [f"tx {name} alice 0 {words} a:bob transfer(i0,i{words.count('o:')})", f"fvote 4 {name}", f"cert {name} 4"]
    for member, fork in enumerate(("ab", "ba", "gas")):
        lines += [f"send {member} ta", f"send {member} tb", f"send {member} {fork}"]
    write("forks/first-version-of-a-fork", [*lines, "send 3 tb", "send 3 ta", "order ab", "see 3 1"], f"{FIRST}: a fork names the first version of the second certificate that an earlier one consumed, whichever of those came first.", "fork.first see.fork")


def first_left():
    """What a run leaves, and the versions that are not there; two members get the certificates in both orders."""
    lines = ["member 1 honest", "member 1 honest", "member 99 faulty", *(f"coin {it} alice 9000" for it in ("u", "v", "w", "x", "y", "p0", "p1", "p2"))]
    for name, words in {"uv": "p0@1 2000 o:u@3 o:v@3", "xw": "p1@1 2000 o:x@3 o:w@3", "gas": "p2@5 2000 o:y@3"}.items():
        lines += [f"tx {name} alice 0 {words} a:bob transfer(gas,i{words.count('o:')})", f"fvote 2 {name}", f"cert {name} 2"]
    for member, order in enumerate((("uv", "xw", "gas"), ("gas", "xw", "uv"))):
        lines += [*(f"send {member} {it}" for it in order), f"run {member} 1"]
    write("execution/first-absent-version", lines, f"{FIRST}: of versions that are not there; and what is left comes in the order of its certificates.", "run.absent")


def first_origins():
    """A sequence that begins with what waits: of two origins the first is named, and what is free then comes in the order of the sequence, again and again from its beginning."""
    lines = ["member 1 honest", "coin g0 alice 10000", "coin g1 alice 10000", "tx t0 alice 0 g0@1 2000 n:3000 n:3000 a:alice split(gas,i0,i1) transfer(r0.0,r0.1,i2)", "tx t1 alice 0 g1@1 2000 n:2500 n:2500 n:2500 a:alice split(gas,i0,i1,i2) transfer(r0.0,r0.1,r0.2,i3)"]
    for name in ("t0", "t1"):
        lines += [f"vote 0 {name}", f"cert {name} 0", f"send 0 {name}"]
    lines += ["run 0 1", "tx t2 alice 0 t0.0@2 1200 n:300 n:1200 n:100 a:alice split(gas,i0,i1,i2) transfer(r0.0,r0.1,r0.2,i3)", "vote 0 t2", "cert t2 0", "send 0 t2", "run 0 1"]
    made = {"ta": "t1.0@2 1100 o:t2.0@3", "tb": "t2.1@3 1100 o:t1.1@2", "x": "t0.1@2 1100", "y": "t1.2@2 1100 o:t2.2@3"}
    for name, words in made.items():
        lines += [f"tx {name} alice 0 {words} a:bob transfer(gas,i{words.count('o:')})", f"vote 0 {name}", f"cert {name} 0"]
    lines += [f"order {it}" for it in ("ta", "tb", "t2", "x", "y", "t1", "t0", "commit")]
    write("sequence/first-origin-of-several", [*lines, "see 0 9", "run 0 1"], f"{FIRST}: of origins that are not admitted, in the order of the objects; what no longer waits is admitted from the beginning of the sequence on, again after each.", "see.pending see.admitted checkpoint.cut")


def first_full():
    lines = ["member 1 honest", "writers 1", *(f"coin g{number} alice 9000" for number in range(3)), "counter c0 5", "counter c1 5"]
    for number, (one, other) in enumerate((("c0", "c1"), ("c0", "c1"), ("c1", "c0"))):
        lines += [f"tx t{number} alice 0 g{number}@1 2000 n:1 s:{one}@1 s:{other}@1 counter_add(i1,i0) counter_add(i2,i0)", f"vote 0 t{number}", f"cert t{number} 0", f"order t{number}"]
    write("sequence/first-full-object-of-several", [*lines, "see 0 9"], f"{FIRST}: of objects that have as many writers as the limit allows, in the order of the inputs.", "writers.deferred")


def first_waiting():
    """Certificates that came in one order and stand in the sequence in another, at two members."""
    lines = ["member 1 honest", "member 1 honest", "member 9 faulty", *(f"coin g{number} alice 9000" for number in range(4))]
    for number in range(4):
        lines += [f"tx t{number} alice 0 g{number}@1 2000 a:bob transfer(gas,i0)", f"fvote 2 t{number}", f"cert t{number} 2"]
    lines += [*(f"send 0 t{number}" for number in range(4)), *(f"send 1 t{number}" for number in (3, 2, 1, 0)), "close 0", "close 1", "end 0", "end 1"]
    lines += [*(f"order t{number}" for number in (2, 0, 3, 1)), "order end 2", "see 0 9", "see 1 9", "turn 0", "turn 1"]
    write("epochs/first-that-is-waited-for", lines, f"{FIRST}: an End waits for the certificate that came first, a turn for the one that was admitted first.", "end.waits turn.waits")


def first_reverted():
    """Members that executed in another order than certificates came."""
    lines = ["member 1 honest", "member 1 honest", "member 9 faulty", "coin g0 alice 9000", "coin g1 alice 9000"]
    for name, words in {"t0": "alice 0 g0@1", "t1": "alice 0 g1@1"}.items():
        lines += [f"tx {name} {words} 2000 a:bob transfer(gas,i0)", f"fvote 2 {name}", f"cert {name} 2", f"send 1 {name}", "run 1 1"]
    for name, words in {"u0": "bob 0 g0@2", "u1": "bob 0 g1@2"}.items():
        lines += [f"tx {name} {words} 2000 a:carol transfer(gas,i0)", f"fvote 2 {name} t{name[1]}", f"cert {name} 2", f"send 1 {name}"]
    lines += ["run 1 1", *(f"send 0 {it}" for it in ("u1", "u0", "t1", "t0")), "run 0 1", "order end 2", "see 0 1", "see 1 1", "turn 0", "turn 1"]
    write("epochs/what-was-executed-first-is-taken-back-first", lines, "What a turn takes back comes in the order in which it was executed, and not in that in which certificates came.", "turn.reverted run.rounds")


def first_holders():
    """Two members that hold other objects in one version, or the same object from two transactions."""
    lines = ["member 1 honest", "member 1 honest", "member 9 faulty", *(f"coin g{number} alice 9000" for number in range(3))]
    made = {"a0": "g0@1 2000 n:5 a:bob", "a1": "g0@1 2000 n:7 a:bob", "b0": "g1@1 2000 n:5 a:bob", "b1": "g1@1 2000 n:5 a:carol"}
    for name, words in made.items():
        lines += [f"tx {name} alice 0 {words} split(gas,i0) transfer(r0,i1)", f"fvote 2 {name}", f"cert {name} 2", f"send {name[1]} {name}"]
    lines += ["run 0 1", "run 1 1", "tx c alice 0 g0@2 2000 a:bob transfer(gas,i0)", "vote 0 c", "vote 1 c", "tx d alice 0 g1@2 2000 a:bob transfer(gas,i0)", "vote 1 d", "fvote 2 d", "vote 0 d", "fvote 2 d"]
    lines += ["tx e alice 0 g2@1 2000 a:bob transfer(gas,i0)", "fvote 2 e", "cert e 2", "ack 2 e", "send 1 e", "run 1 1", "ack 1 e", "final e 1 2", "ack 2 e", "final e 1 2", "stop 0 lost", "close 0", "tx f alice 0 g0@2 2000 a:dave transfer(gas,i0)", "vote 1 f"]
    write("faulty/what-the-first-member-holds", lines, "A reference, a faulty member's vote and its acknowledgement take what the lowest-numbered honest member has that can say it: of two members that hold other versions, voted with other origins, or of which one has not executed or is down.", "fvote.copies ack.faulty")


def first_texts():
    write("grammar/refused-first-of-two-lines", ["member 1 honest", "coin g0 alice 5", "show 1", "show", "run 0 17"], f"{FIRST}: the first bad line, though a later one has a lesser cause.", "text.first refused.11")


def first_commands():
    lines = ["member 1 honest", "coin g0 alice 9000", "coin g1 alice 9000"]
    for number, commands in enumerate(("split(gas,i0) counter_new(i1)", "counter_new(i1) split(gas,i0)")):
        lines += [f"tx t{number} alice 0 g{number}@1 2000 n:9000 x:00 {commands}", f"vote 0 t{number}", f"cert t{number} 0", f"send 0 t{number}"]
    write("blocks/first-command-at-fault", [*lines, "run 0 1"], f"{FIRST}: of two commands at fault, whichever cause is the lesser.", "cause.8 cause.3")


def first_sealers():
    """Members that built two checkpoints, one and none; the chain of the first under the seals of the others."""
    lines = ["member 1 honest"] * 4 + ["member 9 faulty", "coin g0 alice 9000", "coin g1 alice 9000"]
    for number in range(2):
        lines += [f"tx t{number} alice 0 g{number}@1 2000 a:bob transfer(gas,i0)", f"fvote 4 t{number}", f"cert t{number} 4", f"order t{number}", "order commit"]
    lines += ["see 0 4", "run 0 1", "see 1 2", "run 1 1", "see 3 4", "run 3 1"]
    text = "".join(f"{line}\n" for line in lines).encode()
    for name, number, about in (("without-a-seal", 0, f"{FIRST}: the first of the members that has not built each checkpoint, and the first checkpoint without its seal."), ("of-a-faulty-member", 4, "A faulty member has no chain.")):
        said = firsts.note_sealed(firsts.Firsts(), text, number, [0, 1, 2, 3])
        put(f"inspect/chain-{name}", {"schedule": text, "report": f"{said}\n".encode(), "status": b"8\n", "about": f"{about}\nrules: inspect.chain\n".encode(), "args": f"chain\n{number}\n0,1,2,3\n".encode(), "program": b"inspect\n"})


def of_several():
    """The cases of conformance/firsts.py."""
    for writes in (first_objects, first_members, first_seals, first_of_a_fork, first_left, first_origins, first_full, first_waiting, first_reverted, first_holders, first_texts, first_commands, first_sealers):
        writes()


def main():
    of_several()
    written_and_merged()
    two_heirs()
    created_second()
    longest_length()
    no_bytes()
    taken_back()
    natives_at_limits()
    other_origin()
    frozen_key()
    halted()
    repeats()
    votes()
    kinds()
    certificates()
    shapes()
    shape_limits()
    text()
    taken_limits()
    late()
    block_cases()
    left_to_right()
    native_codes()
    native_that_is_none()
    bytes_first()
    shapes_of_certificates()
    calls()
    return 0


if __name__ == "__main__":
    sys.exit(main())
