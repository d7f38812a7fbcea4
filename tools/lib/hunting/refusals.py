"""Texts that are no schedules, and texts that are nearly none: one line of a good text is changed."""

import re

GOOD = (
    "member 1 honest", "member 1 honest", "member 1 faulty", "coin g0 alice 10000", "counter c0 5", "cap m0 a_name_of_16_let 7", "writers 3",
    "tx t1 alice 0 g0@1 2000 n:5 a:bob split(gas,i0) transfer(r0,i1)", "tx t2 bob 0 g0@1! 2000 x:00 s:c0@1 vec(coin) coin_join_all(r0)",
    "tx t3 alice? 0 t1.0@2 2000 o:m0@1 coin_mint(i0,gas)", "vote 0 t1", "vote 1 t1", "fvote 2 t1", "fvote 2 t1 - t2", "cert t1 0 1 2", "send 0 t1",
    "order t1", "order commit", "see 0 9", "run 0 1", "close 0", "end 0", "order end 2", "order end 0", "turn 0", "stop 1 kept", "stop 1 lost",
    "restart 1", "raw 0 vote 00", "raw 1 hold ff00", "ack 0 t1", "ack 2 t1 !", "final t1 0 2", "show 0",
)
# Words that come in the place of one of a line.
WORDS = (
    "", "0", "00", "01", "007", "1", "64", "65", "9", "65535", "65536", "16", "17", "4294967295", "4294967296", "18446744073709551615",
    "18446744073709551616", "99999999999999999999999999", "-1", "+1", "1e3", "alice", "abcdefghijklmnop", "abcdefghijklmnopq", "A", "a-b", "a_1",
    "_a", "1a", "t1", "t9", "g0", "g9", "t1.0@1", "t1.00@1", "t9.0@1", "g0@1", "g0@01", "g0@", "@1", "g0", "g0@1!!", "g0@18446744073709551616", "honest", "faulty", "kept", "lost", "commit", "end", "last",
    "n:", "n:01", "n:18446744073709551615", "n:18446744073709551616", "a:", "a:Bob", "x:", "x:0", "x:0A", "x:00", "o:g0", "o:g0@1", "s:g0@1", "s:g0@1!", "r:c0@1", "i:c0@1!", "q:1",
    "gas", "split()", "split(gas)", "split(gas,)", "split(gas,i0", "merge()", "transfer()", "transfer(i0)", "vec()", "vec(coin)", "vec(gold)", "vec(coin,)", "vec(coin,gas)", "freeze()", "freeze(i65535)", "freeze(i65536)", "freeze(i01)", "freeze(r0.65536)",
    "freeze(r0.)", "freeze(r.0)", "freeze(i)", "freeze(g0)", "nothing(i0)", "share(i0,i0,i0)", "!", "?", "-", "\t", "\x7f", "é", "\r", "#",
)


# Lines with a place for a member, a transaction, members and numbers, each of which may be good or bad in several ways.
FORMS = (
    "cert {t} {ms}", "cert {t} {ms}", "final {t} {ms}", "final {t} {ms}", "writers {n}", "cap {o} bob {n}", "coin {r} alice 1", "cert t1 {ms}", "vote {m} t1",
    "vote {m} {t}", "fvote {m} {t}", "fvote {m} {t} - {t}", "cert {t} {ms}", "send {m} {t}", "order {t}", "order end {m}", "see {m} {n}", "run {m} {n}",
    "close {m}", "end {m}", "turn {m}", "show {m}", "stop {m} kept", "restart {m}", "raw {m} vote 00", "raw {m} hold {x}", "ack {m} {t}", "ack {m} {t} !", "final {t} {ms}",
    "member {n} honest", "member {n} faulty", "coin {o} alice {n}", "counter {o} {n}", "cap {o} bob {n}", "writers {n}",
    "tx {o} alice {n} {r}@{n} {n} n:{n} o:{r}@{n} s:{r}@{n} split(gas,i{n}) freeze(r{n}.{n})", "tx {o} {o} {n} {r}@{n}! 2000 x:{x} a:{o} vec(coin,i{n})",
)
# What may stand in each place: first what is good there, then what is not.
PARTS = {
    "m": (("0", "1"), ("2", "9", "3", "00", "18446744073709551616", "-")),
    "t": (("t1", "t2"), ("t9", "T1", "t1.0", "t_of_17_characters")),
    "ms": (("0 1", "0 2", "0"), ("1 0", "0 0", "2 1", "0 9", "00 1", "9 0", "")),
    "n": (("1", "2", "7"), ("0", "01", "17", "65535", "65536", "4294967295", "4294967296", "18446744073709551615", "18446744073709551616", "")),
    "o": (("z1", "z2"), ("g0", "g9", "Z", "1z")),
    "r": (("g0", "t1.0"), ("g9", "t9.0", "t1.00", "t1.")),
    "x": (("00", "ff00"), ("0", "", "0G", "FF")),
}


# Lines that are refused for one cause, at the end of the good text; those of the set-up at its end.
BY_CAUSE = (
    "member 0 honest", "member 4294967296 faulty", "coin z alice 00", "cap z bob 0", "writers 0", "writers 65536", "run 0 17", "run 0 0", "see 0 0", "see 0 4294967296",
    "tx z alice 0 g0@1 18446744073709551616", "tx z alice 18446744073709551616 g0@1 0", "tx z alice 0 g0@1 0 freeze(i65536)", "tx z alice 0 g0@1 0 freeze(r0.65536)",
    "coin g0 bob 1", "counter m0 1", "cap c0 bob 9", "tx t1 bob 0 g0@1 1", "tx t3 bob 0 t1.0@2 1",
    "vote 0 t9", "fvote 2 t9", "fvote 2 t1 - t9", "cert t9 0", "send 0 t9", "order t9", "ack 0 t9", "ack 2 t9 !", "final t9 0", "tx z alice 0 g9@1 1", "tx z alice 0 z.0@1 1", "tx z alice 0 g0@1 1 r:t9.0@1",
    "vote 3 t1", "fvote 3 t1", "cert t1 0 3", "send 3 t1", "order end 3", "see 9 1", "run 3 1", "close 3", "end 3", "turn 3", "show 3", "stop 3 lost", "restart 3", "ack 3 t1", "final t1 3", "raw 3 vote 00",
    "vote 2 t1", "fvote 0 t1", "send 2 t1", "see 2 1", "run 2 1", "close 2", "end 2", "turn 2", "show 2", "stop 2 kept", "restart 2", "raw 2 hold 00", "raw 2 vote 00", "ack 0 t1 !",
    "cert t1 1 0", "cert t1 0 0", "final t1 1 0", "final t1 2 2", "writers 4", "cap z bob 7", "counter a_name_of_17_lett 5",
)
SETUP = ("member", "coin", "counter", "cap", "writers")


def by_cause(lines, line):
    """The good text with one of these lines."""
    at = 7 if line.startswith(SETUP) else len(lines)
    return [*lines[:at], line, *lines[at:]]


def filled(random):
    """A line in which none, one or two places are not good; now and then with a byte that no line may have."""
    pieces = re.split(r"\{(\w+)\}", random.choice(FORMS))
    places = list(range(1, len(pieces), 2))
    bad = random.sample(places, min(len(places), random.choice((0, 1, 1, 2, 2))))
    for at in places:
        pieces[at] = random.choice(PARTS[pieces[at]][at in bad])
    line = "".join(pieces)
    return line if random.random() < 0.93 else line + random.choice(("\t", "\r", "\x7f", "\x00", "é"))


def text(random, turn):
    """A text of the profile `refused`: each third has the next line of those for one cause, and after all of these come the great ones."""
    lines, place, chance = list(GOOD), turn % (3 * len(BY_CAUSE) + 6), random.random()
    if place >= 3 * len(BY_CAUSE):
        return great(place - 3 * len(BY_CAUSE))
    if place % 3 == 0:
        return "".join(f"{line}\n" for line in by_cause(lines, BY_CAUSE[place // 3])).encode()
    if chance < 0.1:
        return "\n".join(without(random, lines)).encode("latin-1")
    if chance < 0.65:
        lines.insert(random.choice((7, len(lines), random.randrange(len(lines) + 1))), filled(random))
    else:
        at = random.randrange(len(lines))
        lines[at] = change(random, lines[at])
    if random.random() < 0.2:
        lines = moved(random, lines)
    if random.random() < 0.05:
        lines = ["member 1 honest"] * random.choice((61, 62)) + lines
    ends = random.choice(("\n", "\n", "", "\n\n", "\n#"))
    return ("\n".join(lines) + ends).encode("latin-1")


def change(random, line):
    """The line with a word more, less, or another one."""
    words = line.split(" ")
    at, how = random.randrange(len(words)), random.random()
    if how < 0.1:
        return line + random.choice((" ", "  ", " 1", " t1"))
    if how < 0.2 and len(words) > 1:
        return " ".join(words[:at] + words[at + 1 :])
    if how < 0.3:
        return " ".join([*words[:at], words[at], *words[at:]])
    if how < 0.4 and len(words) > 2:
        other = random.randrange(len(words))
        words[at], words[other] = words[other], words[at]
        return " ".join(words)
    return " ".join([*words[:at], random.choice(WORDS), *words[at + 1 :]])


def moved(random, lines):
    """The lines with one of them at another place, or twice."""
    at, to = random.randrange(len(lines)), random.randrange(len(lines) + 1)
    line = lines[at]
    rest = lines if random.random() < 0.5 else lines[:at] + lines[at + 1 :]
    return [*rest[:to], line, *rest[to:]]


def without(random, lines):
    """No members, or no lines at all."""
    kept = [it for it in lines if not it.startswith("member")]
    return random.choice(([], [""], ["#member 1 honest"], kept, ["member", *kept], [" member 1 honest", *kept], ["member x", *kept], ["member 1 honest"]))


def great(which):
    """A text at one of its limits, or past it: of bytes, of members, or of transactions."""
    if which < 2:
        return b"member 1 honest\nshow 0\n#".ljust(16_777_216 + which, b"#")
    if which < 4:
        return ("member 1 honest\n" * (62 + which) + "show 0\n").encode()
    head = "member 1 honest\ncoin g alice 0\n"
    return (head + "".join(f"tx t{number} a 0 g@1 0\n" for number in range(65_531 + which))).encode()
