#!/usr/bin/env python3
"""Writes the cases of `check`: chains of checkpoints as bytes, with the line that the program must write.

Written from nothing but docs/FORMATS.md and the rules, apart from the program.

usage: conformance/chains.py --write   writes the cases
       conformance/chains.py --check   writes nothing, and says which of them are not as it would write them, one line each
"""
import hashlib
import os
import sys
from itertools import combinations

HERE = os.path.dirname(os.path.abspath(__file__))
EQUAL = "1,1,1,1"
GREATEST = ",".join(["4294967295"] * 64)
SECRET = b"\x5a" * 32
TX = b"\x11" * 32
EFFECTS = b"\x22" * 32
ZERO = bytes(32)


def number(value, width):
    return value.to_bytes(width, "little")


def sequence(items):
    """A list of at most 127 spelled items."""
    return bytes([len(items)]) + b"".join(items)


def checkpoint(epoch, place, parent, items=(), last=False):
    listed = sequence([tx + effects for tx, effects in items])
    return number(epoch, 8) + number(place, 8) + parent + listed + bytes([last])


def digest(spelled):
    return hashlib.sha256(b"\x43" + spelled).digest()


def seal(member, epoch, place, of):
    """The seal of a member over the statement that a checkpoint of this number and digest is its epoch's."""
    statement = b"\x02" + number(epoch, 8) + number(place, 8) + of
    return hashlib.sha256(b"\x53" + SECRET + b"\x00" + number(member, 4) + statement).digest()


def sealed(members, epoch, place, of):
    return sequence([number(member, 4) + seal(member, epoch, place, of) for member in members])


def link(epoch, place, parent, items=(), last=False, members=(0, 1, 2), seals=None):
    """A link, and the digest of its checkpoint."""
    spelled = checkpoint(epoch, place, parent, items, last)
    of = digest(spelled)
    return spelled + (sealed(members, epoch, place, of) if seals is None else seals), of


def chain(links):
    return sequence([spelled for spelled, _ in links])


FIRST = link(0, 0, ZERO, [(TX, EFFECTS)])
LAST = link(0, 1, FIRST[1], last=True)
NEXT = link(1, 2, LAST[1], [(ZERO, EFFECTS)])
WHOLE = [FIRST, LAST, NEXT]
OTHER = digest(b"other")


def bad(place, cause, links, why):
    return chain(links), f"refused link {place} cause {cause}", 8, why


# The causes in their order, each with what a first link has in its place.
CAUSES = {"number": ("place", 1), "parent": ("parent", OTHER), "epoch": ("epoch", 1), "order": ("members", (0, 2, 1)), "stake": ("members", (0, 1)), "seal": ("of", OTHER)}
UNORDERED_AND_FEW = (1, 0)


def spoiled(*causes):
    """A first link to which all these causes apply."""
    made = {"epoch": 0, "place": 0, "parent": ZERO, "members": (0, 1, 2), "of": None}
    made.update(CAUSES[it] for it in causes)
    if {"order", "stake"} <= set(causes):
        made["members"] = UNORDERED_AND_FEW
    at = made["epoch"], made["place"]
    spelled = checkpoint(*at, made["parent"])
    of = digest(spelled)
    return spelled + sealed(made["members"], *at, made["of"] or of), of


def pairs():
    """Of each two causes the first is named."""
    names = {it: "order of the members" if it == "order" else it for it in CAUSES}
    for one, other in combinations(CAUSES, 2):
        said = f"The {names[one]} and the {names[other]} are at fault: the {names[one]} is named."
        yield f"{one}-before-{other}", *bad(0, list(CAUSES).index(one) + 1, [spoiled(one, other)], said)


def one_bad_seal(which):
    """A first link under three seals of which one is over another digest."""
    spelled = checkpoint(0, 0, ZERO)
    of = digest(spelled)
    made = [number(it, 4) + seal(it, 0, 0, OTHER if it == which else of) for it in range(3)]
    return spelled + sequence(made), of


def seals():
    """Each seal is looked at, and all that it states."""
    for which, word in enumerate(("first", "second", "last")):
        yield f"{word}-seal", *bad(0, 6, [one_bad_seal(which)], f"Of three seals the {word} one is over another digest.")
    spelled = checkpoint(0, 0, ZERO)
    of = digest(spelled)
    yield "seals-of-others", *bad(0, 6, [(spelled + sequence([number(it, 4) + seal(it + 1, 0, 0, of) for it in range(3)]), of)], "Each seal is that of the next member.")
    yield "seals-of-another-number", *bad(0, 6, [(spelled + sealed((0, 1, 2), 0, 1, of), of)], "The seals are over another number, with the digest of this checkpoint.")
    yield "seals-of-another-epoch", *bad(0, 6, [(spelled + sealed((0, 1, 2), 1, 0, of), of)], "The seals are over another epoch, with the digest of this checkpoint.")
    yield "a-member-twice", *bad(0, 4, [link(0, 0, ZERO, members=(0, 1, 1, 2))], "A member is named twice.")
    yield "no-seal", *bad(0, 5, [link(0, 0, ZERO, members=())], "No seal at all is no quorum.")


def quorums():
    """A quorum has more than two thirds of the stake: stakes, and what comes of the members that sealed."""
    def made(name, stakes, members, is_quorum, why):
        links = [link(0, 0, ZERO, members=members)]
        said = (chain(links), "certified 1 not included", 0, why) if is_quorum else bad(0, 5, links, why)
        return name, *said, stakes
    yield made("two-thirds", "1,1,1", (0, 1), False, "Two of three equal stakes are two thirds, and not more.")
    yield made("three-thirds", "1,1,1", (0, 1, 2), True, "All members are a quorum.")
    yield made("one-of-one", "1", (0,), True, "A committee of one member.")
    yield made("three-of-five", "2,1,1,1", (0, 1), False, "Three of a stake of five are less than two thirds, though a third of the stake is rounded down to one.")
    yield made("four-of-five", "2,1,1,1", (0, 1, 2), True, "Four of a stake of five are more than two thirds.")
    yield made("one-member-is-a-quorum", "5,1,1", (0,), True, "Five of a stake of seven are more than two thirds: stakes count, and not members.")
    yield made("two-members-are-none", "5,1,1", (1, 2), False, "Two members of three have two of a stake of seven.")
    yield made("sealed-by-greatest-stakes", GREATEST, range(43), True, "43 of 64 members with the greatest stake are a quorum.")
    yield made("short-of-greatest-stakes", GREATEST, range(42), False, "42 of 64 members with the greatest stake are none.")


def lengths():
    """Lengths that are spelled otherwise, or too great."""
    def made(name, spelled, at, why, said):
        return name, spelled, f"refused malformed at {at} why {why}", 8, said
    yield made("length-too-long", b"\x80\x00", 0, 3, "A length of 0 is encoded with two bytes.")
    yield made("length-of-33-bits", b"\xff\xff\xff\xff\x1f", 0, 4, "A length of 33 bits is encoded.")
    yield made("length-out-of-range", b"\x80\x80\x80\x80\x08", 0, 5, "A length of 2147483648 is encoded, one more than the greatest.")
    yield made("longest-length", b"\xff\xff\xff\xff\x07", 5, 1, "The greatest length is taken; the bytes end in the first link.")
    yield made("no-link-behind-a-length", b"\x01", 1, 1, "The length says one link, and there is none.")
    spelled = checkpoint(0, 0, ZERO)
    yield made("length-of-items-too-long", b"\x01" + spelled[:48] + b"\x80\x00", 49, 3, "The length of a checkpoint's items is encoded with two bytes.")


def cases():
    """Each case by its name: the bytes, the line, the status, and a sentence on what it shows; and the stakes, if they are not four of 1."""
    two = chain([FIRST, LAST])
    yield "included", two, "certified 2 included in 0", 0, "A chain of two checkpoints, of which the first lists the transaction."
    yield "empty-chain", b"\x00", "certified 0 not included", 0, "An empty chain is certified, and lists nothing."
    yield "over-an-epoch", chain(WHOLE), "certified 3 included in 0", 0, "Behind a last checkpoint the next epoch goes on, with numbers that go on too."
    yield "not-included", chain([link(0, 0, ZERO, [(OTHER, EFFECTS)])]), "certified 1 not included", 0, "The checkpoint lists another transaction."
    again = link(0, 1, FIRST[1], [(TX, EFFECTS)])
    yield "first-of-two", chain([FIRST, again]), "certified 2 included in 0", 0, "Where two checkpoints list it, the first is named."
    begun = link(0, 0, ZERO, [(OTHER, EFFECTS)])
    ended = link(0, 1, begun[1], last=True)
    third = link(1, 2, ended[1], [(TX, EFFECTS)])
    yield "included-in-the-third", chain([begun, ended, third]), "certified 3 included in 2", 0, "The number of the checkpoint that lists it is its place in the whole chain, over the epochs."
    yield "all-members", chain([link(0, 0, ZERO, members=(0, 1, 2, 3))]), "certified 1 not included", 0, "More seals than a quorum are as good."
    yield "no-bytes", b"", "refused malformed at 0 why 1", 8, "No bytes at all are no chain."
    yield "cut", two[:-1], f"refused malformed at {len(two) - 32} why 1", 8, "One byte of the last seal is missing."
    yield "one-byte-more", two + b"\x00", f"refused malformed at {len(two)} why 7", 8, "One byte comes after the chain."
    yield "last-is-no-bool", two[:-len(sealed((0, 1, 2), 0, 1, LAST[1])) - 1] + b"\x02" + two[-len(sealed((0, 1, 2), 0, 1, LAST[1])):], f"refused malformed at {len(two) - 109 - 1} why 2", 8, "Whether a checkpoint is its epoch's last is 0 or 1."
    numbers = ("first", "after-another", "after-last")
    fronts, parents, epochs = ([], [FIRST], [FIRST, LAST]), (ZERO, FIRST[1], LAST[1]), (0, 0, 1)
    for place, (where, front, parent, epoch) in enumerate(zip(numbers, fronts, parents, epochs)):
        def made(name, cause, one, why, where=where, front=front, place=place):
            return f"{name}-{where}", *bad(place, cause, [*front, one], why)
        yield made("number", 1, link(epoch, place + 1, parent), "A checkpoint's number is its place in the chain.")
        yield made("parent", 2, link(epoch, place, OTHER), "A checkpoint names the digest of the one before it; the first one names zeros.")
        yield made("epoch", 3, link(epoch + 1, place, parent), "An epoch begins after a last checkpoint, and nowhere else.")
        yield made("order", 4, link(epoch, place, parent, members=(0, 2, 1)), "Members are in ascending order, each once.")
        yield made("unknown", 4, link(epoch, place, parent, members=(0, 1, 4)), "Each is a member of the committee.")
        yield made("stake", 5, link(epoch, place, parent, members=(0, 1)), "Two of four equal stakes are no quorum.")
        yield made("seal", 6, link(epoch, place, parent, seals=sealed((0, 1, 2), epoch, place, OTHER)), "A seal over another digest is not accepted.")
    yield "epoch-stays-after-last", *bad(2, 3, [FIRST, LAST, link(0, 2, LAST[1])], "Behind a last checkpoint the epoch is the next one.")
    yield "first-bad-link", *bad(0, 6, [link(0, 0, ZERO, seals=sealed((0, 1, 2), 1, 0, OTHER)), link(0, 5, OTHER)], "The first bad link is named.")
    yield "second-item", chain([link(0, 0, ZERO, [(OTHER, EFFECTS), (TX, EFFECTS)])]), "certified 1 included in 0", 0, "The checkpoint lists the transaction as its second item."
    eight = [FIRST]
    for place in range(1, 8):
        eight.append(link(0, place, eight[-1][1]))
    yield "eight-checkpoints", chain(eight), "certified 8 included in 0", 0, "Eight checkpoints of one epoch, each under the seals of its own digest."
    yield from (*pairs(), *seals(), *quorums(), *lengths())


def main(words):
    if words not in (["--write"], ["--check"]):
        print(__doc__, end="", file=sys.stderr)
        return 2
    wrong = 0
    for name, given, line, status, why, *stakes in cases():
        files = {
            "schedule": given,
            "report": line.encode() + b"\n",
            "status": f"{status}\n".encode(),
            "args": f"check\n{stakes[0] if stakes else EQUAL}\n{TX.hex()}\n".encode(),
            "about": f"{why}\nrules: check.{'certified' if status == 0 else 'malformed' if 'malformed' in line else 'link'}\n".encode(),
        }
        for ending, text in files.items():
            path = f"{HERE}/check/{name}.{ending}"
            if "--check" in words:
                if not os.path.exists(path) or open(path, "rb").read() != text:
                    wrong += 1
                    print(f"check/{name}.{ending} is not as chains.py writes it")
            else:
                with open(path, "wb") as it:
                    it.write(text)
    return wrong > 0


if __name__ == "__main__":
    sys.exit(main(sys.argv[1:]))
