#!/usr/bin/env python3
"""Writes the cases with a journal file: records as bytes that `replay` reads, and the bytes that `run` leaves.

Written from docs/FORMATS.md and the rules alone, apart from the program.

usage: conformance/journals.py --write   writes the cases
       conformance/journals.py --check   writes nothing, and says which of them are not as it would write them, one line each
"""
import hashlib
import os
import sys

HERE = os.path.dirname(os.path.abspath(__file__))
SECRET = b"\x5a" * 32


def number(value, width):
    return value.to_bytes(width, "little")


def length(count):
    """A length in seven bits a byte, the lowest first."""
    return bytes([count]) if count < 128 else bytes([count % 128 + 128]) + length(count // 128)


def sequence(items):
    return length(len(items)) + b"".join(items)


def digest(tag, spelled):
    return hashlib.sha256(tag + spelled).digest()


def seal(member, statement):
    """The seal of a member over what it states."""
    return digest(b"\x53", SECRET + b"\x00" + number(member, 4) + statement)


def address(name):
    return digest(b"\x41", name)


def coin(version, owner, balance, place=0):
    """A reference to a version of the coin at a place of the set-up."""
    of = digest(b"\x47", number(place, 8)) + number(version, 8)
    return of + digest(b"\x4f", of + b"\x00" + owner + b"\x00" + number(0, 8) + number(balance, 8))


def pure(value):
    return b"\x00" + length(len(value)) + value


def transaction(epoch, sender, gas, inputs, commands):
    """A transaction with a budget of 2000."""
    return number(epoch, 8) + sender + gas + number(2000, 8) + sequence(inputs) + sequence(commands)


ALICE, BOB = address(b"alice"), address(b"bob")
SEND_ALL = [b"\x01" + sequence([b"\x00"]) + b"\x01" + number(0, 2)]
SEND_SOME = [b"\x02\x00" + sequence([b"\x01" + number(0, 2)]), b"\x01" + sequence([b"\x02" + number(0, 2)]) + b"\x01" + number(1, 2)]
NO_ORIGIN = sequence([b"\x00"])


def vote(spelled, origins=NO_ORIGIN):
    """The record of a vote."""
    return b"\x00" + spelled + origins


def certificate(spelled, members, origins=NO_ORIGIN):
    """The certificate of these members' votes."""
    statement = b"\x00" + spelled[:8] + digest(b"\x54", spelled) + origins
    return spelled + origins + sequence([number(member, 4) + seal(member, statement) for member in members])


def hold(spelled, members, origins=NO_ORIGIN):
    """The record of a certificate that is held."""
    return b"\x01" + certificate(spelled, members, origins)


def see(entry):
    """The record of an entry that is seen."""
    return b"\x02" + length(len(entry)) + entry


def end(member, epoch):
    """The entry of a member's End."""
    statement = b"\x01" + number(epoch, 8)
    return b"\x01" + number(member, 4) + statement + seal(member, statement)


def done(spelled, gas, drawn, written):
    """The digest of the effects of a transaction that was done at version 2: the ids, owners and digests of what it wrote."""
    of = digest(b"\x54", spelled)
    return digest(b"\x45", of + b"\x00" + number(2, 8) + number(gas, 8) + number(drawn, 4) + sequence(written) + sequence([]))


def ran(spelled, effects):
    """The record of a run of one transaction."""
    return b"\x06" + sequence([digest(b"\x54", spelled) + effects])


def turned(given, bit):
    """The bytes with the last bit of one of them turned."""
    place = bit % len(given)
    return given[:place] + bytes([given[place] ^ 1]) + given[place + 1:]


def written(reference, owner):
    """A coin among the objects that effects have as written."""
    return reference[:32] + b"\x00" + owner + reference[40:]


def journal(records):
    """A file with these records of members, and the next gate, which is closed."""
    return b"".join(b"\x01" + number(len(record), 4) + number(member, 4) + record for member, record in records) + b"\x00"


# A coin goes to bob and, in the next epoch, back to alice: what a member keeps that is a committee by itself.
GIVEN = transaction(0, ALICE, coin(1, ALICE, 10000), [pure(BOB)], SEND_ALL)
BACK = transaction(1, BOB, coin(2, BOB, 8900), [pure(ALICE)], SEND_ALL)
EFFECTS = done(GIVEN, 1100, 0, [written(coin(2, BOB, 8900), BOB)])
VOTE, HOLD, RAN = vote(GIVEN), hold(GIVEN, [0]), ran(GIVEN, EFFECTS)
SEE_CERT, SEE_MARK, SEE_END = see(b"\x00" + certificate(GIVEN, [0])), see(b"\x02"), see(end(0, 0))
CLOSE, TURN, NEXT_VOTE = b"\x03", b"\x05", vote(BACK)
WHOLE = [VOTE, HOLD, RAN, SEE_CERT, SEE_MARK, CLOSE, SEE_END, TURN, NEXT_VOTE]
NO_ITEMS = b"\x06"
OTHER_RAN = turned(RAN, -1)
OLD_RAN = b"\x04" + sequence([digest(b"\x54", GIVEN)])
OLD_OTHER = turned(OLD_RAN, 2)

ONE = b"member 1 honest\ncoin g0 alice 10000\n"
FOUR = b"member 1 honest\n" * 4 + b"coin g0 alice 10000\n"
PAID = b"tx t1 alice 0 g0@1 2000 a:bob transfer(gas,i0)\nvote 0 t1\ncert t1 0\n"

# The places of a member's records: what stands there, what else is tried, and why that is bad.
PLACES = [
    ("vote", VOTE, [("a-turn", TURN, "no turn is due"), ("one-of-epoch-1", NEXT_VOTE, "the transaction is of the next epoch")]),
    ("hold", HOLD, [("a-vote", VOTE, "it has voted for the transaction already"), ("a-run", RAN, "it holds nothing that could run")]),
    ("run", RAN, [("a-hold", HOLD, "it holds the certificate already"), ("one-of-other-effects", OTHER_RAN, "the run had other effects")]),
    ("old-run", OLD_RAN, [("a-turn", TURN, "no turn is due"), ("one-of-another", OLD_OTHER, "it holds no such transaction")]),
    ("entry", SEE_CERT, [("a-hold", HOLD, "it holds the certificate already"), ("a-run", RAN, "it has run the transaction already")]),
    ("mark", SEE_MARK, [("a-turn", TURN, "no turn is due"), ("a-vote", VOTE, "it has voted for the transaction already")]),
    ("close", CLOSE, [("a-turn", TURN, "the epoch has not ended"), ("a-run", RAN, "it has run the transaction already")]),
    ("end", SEE_END, [("a-close", CLOSE, "it is closed already"), ("a-turn", TURN, "the epoch has not ended")]),
    ("turn", TURN, [("a-close", CLOSE, "it is closed already"), ("an-end", SEE_END, "after the end of the epoch there is no entry")]),
    ("next-vote", NEXT_VOTE, [("a-turn", TURN, "it has turned already"), ("one-of-epoch-0", VOTE, "the transaction is of the epoch before")]),
]


def started(name, records, lines, why):
    """A case in which member 0 starts from these records."""
    report = f"restart 0: records {len(records)}\n" + "".join(f"{line}\n" for line in lines)
    return {"name": f"replay/{name}", "why": why, "rules": "replay.started", "records": [(0, it) for it in records], "report": report, "status": 0}


def bad(name, records, place, why):
    """A case in which the record at a place is none that a member would have kept."""
    report = f"restart 0: bad record {place}\n"
    return {"name": f"replay/{name}", "why": why, "rules": "replay.bad-record", "records": [(0, it) for it in records], "report": report, "status": 6}


def altered():
    """Each record in turn cut, with a byte more, and in place of it others that decode and that no call would have kept."""
    for name, record, others in PLACES:
        place = 2 if name == "old-run" else WHOLE.index(record)

        def at(other, place=place):
            return [*WHOLE[:place], other, *WHOLE[place + 1:]]

        yield bad(f"{name}-cut", at(record[:-1]), place, "The record lacks its last byte.")
        yield bad(f"{name}-and-a-byte", at(record + b"\x00"), place, "There is a byte after the record.")
        yield bad(f"{name}-is-no-record", at(NO_ITEMS), place, "In its place there is a run without its items, which is not a record.")
        for what, other, why in others:
            yield bad(f"{name}-is-{what}", at(other), place, f"The record reads, and no call would have kept it: {why}.")


def starts():
    """Records from which member 0 starts, and some from which it does not."""
    opened = ["show 0: epoch 0 objects 1", "  g0 v1 alice coin 0 10000"]
    sent = ["show 0: epoch 0 objects 1", "  g0 v2 ? coin 0 8900"]
    behind = ["show 0: epoch 1 objects 1", "  g0 v2 ? coin 0 8900"]
    undone = ["show 0: epoch 1 objects 1", "  g0 v1 alice coin 0 10000"]
    yield started("two-epochs", WHOLE, behind, "Each kind of record, through the end of an epoch. Bob has no line in the set-up, so he is `?`.")
    yield started("old-run", [*WHOLE[:2], OLD_RAN, *WHOLE[3:]], behind, "The record of a run in the older form, without effects, starts the same.")
    yield started("voted-and-closed", [VOTE, CLOSE], opened, "A vote and a close change no object.")
    yield started("held-and-run", [HOLD, RAN], sent, "A run is made again from its record.")
    yield started("held-and-run-of-old", [HOLD, OLD_RAN], sent, "So is one whose record names no effects.")
    yield started("seen-and-run", [SEE_CERT, SEE_MARK, RAN], sent, "What came by the sequence is held, and can be run after a mark.")
    yield started("ordered-and-turned", [SEE_CERT, RAN, SEE_END, TURN], behind, "What was ordered opens the next epoch.")
    yield started("not-ordered-and-turned", [HOLD, RAN, SEE_END, TURN], undone, "What was executed and is in no checkpoint is taken back by the turn.")
    yield bad("no-kind", [b"\x09"], 0, "There is no record of kind 9.")
    yield bad("closed-twice", [CLOSE, CLOSE], 1, "A closed member keeps no record of a close.")
    yield bad("closed-and-voted", [CLOSE, VOTE], 1, "A closed member gives no new vote.")
    yield bad("run-twice", [HOLD, RAN, RAN], 2, "A transaction is executed once.")
    yield bad("turned-at-once", [TURN], 0, "A new member has seen no end of its epoch.")
    yield bad("turned-unrun", [SEE_CERT, SEE_END, TURN], 2, "A turn waits for what was ordered and is not executed.")


CERTIFIED = FOUR + b"tx t1 alice 0 g0@1 2000 n:500 a:bob split(gas,i0) transfer(r0,i1)\nvote 0 t1\nvote 1 t1\nvote 2 t1\ncert t1 0 1 2\nsend 0 t1\nrun 0 2\nshow 0\n"


def certified():
    """The records of that schedule."""
    some = transaction(0, ALICE, coin(1, ALICE, 10000), [pure(number(500, 8)), pure(BOB)], SEND_SOME)
    new = digest(b"\x49", digest(b"\x54", some) + number(0, 8))
    made = digest(b"\x4f", new + number(2, 8) + b"\x00" + BOB + b"\x00" + number(0, 8) + number(500, 8))
    wrote = [written(coin(2, ALICE, 8300), ALICE), new + b"\x00" + BOB + made]
    effects = done(some, 1200, 1, wrote)
    return [(0, vote(some)), (1, vote(some)), (2, vote(some)), (0, hold(some, [0, 1, 2])), (0, ran(some, effects))]


def laid(name, rules, words, records, report, status, why):
    """A case of CERTIFIED in which a file with these records lies there, and stays as it is."""
    found = {"name": f"journal/{name}", "rules": rules, "why": why, "schedule": CERTIFIED, "words": words}
    return {**found, "records": records, "after": records, "report": report, "status": status}


def not_taken():
    """Files that are not taken, and the one that a run left, started from."""
    whole = certified()
    run, check, desk = "run in journal", f"check 1,1,1,1 {'11' * 32} in journal", "desk 2 in journal"
    shown = "restart 0: records 3\nshow 0: epoch 0 objects 2\n  g0 v2 alice coin 0 8300\n  ? v2 ? coin 0 500\n"
    full = "journal: not empty\n"
    yield laid("run-again", "journal.not-empty", run, whole, full, 8, "A file with records is not run into again.")
    yield laid("check-beside-records", "journal.not-empty", check, whole[:1], full, 8, "No other command takes a file with a record either, though it would keep none.")
    yield laid("desk-beside-records", "journal.not-empty", desk, whole[:1], full, 8, "The desk, which has a keeper of its own, does not take it.")
    yield laid("replayed-behind-a-run", "replay.started", "replay 0 in journal", whole, shown, 0, "Member 0 starts from the file that the run left; bob, whom no line of the set-up names, is `?`, and so is the object that the run made.")
    of_64, of_65, of_63 = [*whole[:2], (64, CLOSE)], [(0, VOTE), (65, VOTE), (64, CLOSE)], [(0, CLOSE), (63, CLOSE)]
    for name, words in (("replay", "replay 0 in journal"), ("run", run)):
        at = len(journal(of_64[:2])) - 1
        yield laid(f"bad-member-behind-two-{name}", "journal.bad-member", words, of_64, f"journal: bad member at {at}\n", 8, f"There is no member 64: the record's gate is named. The command is `{name}`.")
    at = len(journal(of_65[:1])) - 1
    yield laid("bad-member-the-first-of-two", "journal.bad-member", "replay 0 in journal", of_65, f"journal: bad member at {at}\n", 8, "Two records are of members that no committee has; the first is named.")
    yield laid("bad-member-at-the-start", "journal.bad-member", run, [(4294967295, CLOSE)], "journal: bad member at 0\n", 8, "The first record is of the greatest number that is written there.")
    opened = "restart 0: records 1\nshow 0: epoch 0 objects 1\n  g0 v1 alice coin 0 10000\n"
    yield laid("highest-member-of-a-file", "journal.bad-member replay.started", "replay 0 in journal", of_63, opened, 0, "Member 63 is the last that a file may have records of, whatever the schedule's committee.")


def told():
    """Starts of the second member, and over a file of which the last byte is missing."""
    two = ONE.replace(b"member 1 honest\n", b"member 1 honest\nmember 1 honest\n", 1)
    opened = "show {}: epoch 0 objects 1\n  g0 v1 alice coin 0 10000\n"
    yield {"name": "replay/second-member", "rules": "replay.started", "why": "The member that is named is started, and not another one.", "schedule": two, "words": "replay 1", "status": 0, "report": f"restart 1: records 0\n{opened.format(1)}"}
    yield {
        "name": "replay/last-gate-missing", "rules": "replay.started", "why": "A record counts if it lies in the file with the gate after it: without that byte the last one does not.",
        "records": [(0, VOTE), (0, CLOSE)], "cut": 1, "status": 0, "report": f"restart 0: records 1\n{opened.format(0)}",
    }


def kept():
    """What a run leaves in a new file."""
    yield {
        "name": "journal/certified", "rules": "journal.kept", "why": "The records of three votes, a certificate and a run, of all members in one file, in the order in which they were kept.",
        "schedule": CERTIFIED,
        "after": certified(), "status": 0,
        "report": "tx t1: made\nvote 0 t1: voted -\nvote 1 t1: voted -\nvote 2 t1: voted -\ncert t1: formed by 0 1 2\nsend 0 t1: held\nrun 0: executed 1\n  t1 done v2 gas 1200\n"
                  "show 0: epoch 0 objects 2\n  g0 v2 alice coin 0 8300\n  t1.0 v2 bob coin 0 500\n",
    }
    yield {
        "name": "journal/two-epochs", "rules": "journal.kept restart.turns", "why": "Each kind of record, through the end of an epoch, and a start from them.",
        "schedule": ONE + PAID + b"send 0 t1\nrun 0 1\norder t1\norder commit\nsee 0 2\nclose 0\nend 0\norder end 0\nsee 0 1\nturn 0\ntx t2 bob 1 g0@2 2000 a:alice transfer(gas,i0)\nvote 0 t2\nrestart 0\n",
        "after": [(0, it) for it in WHOLE], "status": 0,
        "report": "tx t1: made\nvote 0 t1: voted -\ncert t1: formed by 0\nsend 0 t1: held\nrun 0: executed 1\n  t1 done v2 gas 1100\norder t1: entry 0\norder commit: entry 1\n"
                  "see 0 entry 0: admitted t1\nsee 0 entry 1: commit\n  checkpoint 0: t1\nclose 0: closed\nend 0: said\norder end 0: entry 2\nsee 0 entry 2: end of 0 weight 1 of 1, epoch ended\n"
                  "  checkpoint 1: last\nturn 0: epoch 1 reverted 0\ntx t2: made\nvote 0 t2: voted -\nrestart 0: records 9\n",
    }
    yield {
        "name": "journal/seen-and-run", "rules": "journal.kept see.holds checkpoint.built", "why": "A certificate that came by the sequence has the record of its entry alone. A call that changes nothing keeps no record.",
        "schedule": ONE + PAID + b"order t1\norder commit\nsee 0 1\nsend 0 t1\nrun 0 1\nrun 0 1\nsee 0 9\nsee 0 9\nvote 0 t1\n",
        "after": [(0, VOTE), (0, SEE_CERT), (0, RAN), (0, SEE_MARK)], "status": 0,
        "report": "tx t1: made\nvote 0 t1: voted -\ncert t1: formed by 0\norder t1: entry 0\norder commit: entry 1\nsee 0 entry 0: admitted t1\nsend 0 t1: again\nrun 0: executed 1\n  t1 done v2 gas 1100\n"
                  "run 0: executed 0\nsee 0 entry 1: commit\n  checkpoint 0: t1\nsee 0: nothing\nvote 0 t1: again -\n",
    }
    spent = transaction(0, BOB, coin(2, BOB, 8900), [b"\x01" + coin(1, BOB, 500, 1), pure(ALICE)], [b"\x01" + sequence([b"\x00", b"\x01" + number(0, 2)]) + b"\x01" + number(1, 2)])
    origins = sequence([b"\x01" + digest(b"\x54", GIVEN), b"\x00"])
    yield {
        "name": "journal/with-an-origin", "rules": "journal.kept vote.voted cert.formed", "why": "Votes and a certificate that name the transaction that made a version, and none for one with which the epoch opened: each member seals the vote.",
        "schedule": b"member 1 honest\nmember 1 honest\nmember 1 honest\ncoin g0 alice 10000\ncoin g1 bob 500\ntx t1 alice 0 g0@1 2000 a:bob transfer(gas,i0)\nvote 0 t1\nvote 1 t1\nvote 2 t1\n"
                    b"cert t1 0 1 2\nsend 0 t1\nrun 0 1\nsend 1 t1\nrun 1 1\nsend 2 t1\nrun 2 1\ntx t2 bob 0 g0@2 2000 o:g1@1 a:alice transfer(gas,i0,i1)\nvote 0 t2\nvote 1 t2\nvote 2 t2\ncert t2 0 1 2\nsend 1 t2\n",
        "after": [(member, VOTE) for member in (0, 1, 2)]
                 + [(member, record) for member in (0, 1, 2) for record in (hold(GIVEN, [0, 1, 2]), RAN)]
                 + [(member, vote(spent, origins)) for member in (0, 1, 2)] + [(1, hold(spent, [0, 1, 2], origins))], "status": 0,
        "report": "tx t1: made\nvote 0 t1: voted -\nvote 1 t1: voted -\nvote 2 t1: voted -\ncert t1: formed by 0 1 2\n" + "".join(
            f"send {member} t1: held\nrun {member}: executed 1\n  t1 done v2 gas 1100\n" for member in (0, 1, 2)
        ) + "tx t2: made\nvote 0 t2: voted t1 -\nvote 1 t2: voted t1 -\nvote 2 t2: voted t1 -\ncert t2: formed by 0 1 2\nsend 1 t2: held\n",
    }


def files_of(case):
    """The files of a case, by their endings."""
    words = case.get("words", "run in journal" if "after" in case else "replay 0 in journal").replace(" ", "\n") + "\n"
    files = {
        "schedule": case.get("schedule", ONE),
        "report": case["report"].encode(),
        "status": f"{case['status']}\n".encode(),
        "args": words.encode(),
        "about": f"{case['why']}\nrules: {case['rules']}\n".encode(),
    }
    if "records" in case:
        files["journal"] = journal(case["records"])[: -case["cut"] if "cut" in case else None]
    if "after" in case:
        files["journal.after"] = journal(case["after"])
    return files


def main(words):
    if words not in (["--write"], ["--check"]):
        print(__doc__, end="", file=sys.stderr)
        return 2
    wrong = 0
    for case in [*starts(), *altered(), *told(), *kept(), *not_taken()]:
        os.makedirs(os.path.dirname(f"{HERE}/{case['name']}"), exist_ok=True)
        for ending, text in files_of(case).items():
            path = f"{HERE}/{case['name']}.{ending}"
            if "--check" in words:
                if not os.path.exists(path) or open(path, "rb").read() != text:
                    wrong += 1
                    print(f"{case['name']}.{ending} is not as journals.py writes it")
            else:
                with open(path, "wb") as it:
                    it.write(text)
    return wrong > 0


if __name__ == "__main__":
    sys.exit(main(sys.argv[1:]))
