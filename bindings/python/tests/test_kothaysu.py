"""Tests of the module: the cases of conformance, the worked bytes of docs/FORMATS.md, and values that reference.py writes.

usage: python3 -m unittest discover bindings/python/tests    with $KOTHAYSU_LIBRARY at the shared library
"""

import glob
import itertools
import os
import re
import sys
import unittest

HERE = os.path.dirname(os.path.abspath(__file__))
TOP = os.path.dirname(os.path.dirname(os.path.dirname(HERE)))
sys.dont_write_bytecode = True
sys.path[:0] = [os.path.dirname(HERE), HERE]
import kothaysu
import reference

STAKES = [1, 1, 1, 1]
KEYED = kothaysu.Keyed(reference.SECRET)
GAS, SENDER, TX, EFFECTS = b"\x07" * 32, b"\x08" * 32, b"\x11" * 32, b"\x22" * 32


def read(path):
    with open(path, "rb") as it:
        return it.read()


def said(call, *words):
    """The answer of a call, or its error."""
    try:
        return call(*words)
    except kothaysu.KothaysuError as error:
        return error


def accepted(listing, given):
    """Whatever the bytes have, as accepted seals; none where they are no value."""
    listed = said(listing, given)
    return kothaysu.Accepted(listed if isinstance(listed, list) else [])


def payment(gas=GAS, budget=2000, members=(0, 1, 2)):
    """A certificate of a transaction that pays with this coin."""
    tx = reference.transaction(SENDER, reference.reference_to(gas, 1, EFFECTS), budget=budget)
    return reference.certificate(tx, [None], members)


def coin_at(place, owner, balance):
    """A reference to version 1 of the coin at this place of a schedule."""
    named = reference.tagged("G", reference.number(place, 8)) + reference.number(1, 8)
    content = b"\x00" + owner + b"\x00" + reference.number(0, 8) + reference.number(balance, 8)
    return named + reference.tagged("O", named + content)


def certificates_of(schedule):
    """The certificates of a schedule in which users send their gas coins on, by name and in order."""
    coins, transactions, found = {}, {}, {}
    for kind, name, *words in (it.split() for it in schedule.splitlines() if it):
        if kind == "coin":
            coins[name] = coin_at(len(coins), reference.tagged("A", words[0].encode()), int(words[1]))
        if kind == "tx":
            sender, epoch, gas, budget, receiver, what = words
            if what != "transfer(gas,i0)":
                raise ValueError(f"a block that is not read here: {what}")
            given = b"\x00\x20" + reference.tagged("A", receiver.removeprefix("a:").encode())
            gas = coins[gas.removesuffix("@1")]
            sender = reference.tagged("A", sender.encode())
            transactions[name] = int(epoch), reference.transaction(sender, gas, int(epoch), int(budget), [given], [b"\x01\x01\x00\x01\x00\x00"])
        if kind == "cert":
            epoch, tx = transactions[name]
            found[name] = reference.certificate(tx, [None], [int(it) for it in words], epoch)
    return found


def is_read(schedule):
    """Whether each transaction of a schedule sends its gas coin on, and all certificates are formed by lines."""
    lines = [it.split() for it in schedule.splitlines() if it]
    blocks = [it[7:] for it in lines if it[0] == "tx"]
    return bool(blocks) and all(it == ["transfer(gas,i0)"] for it in blocks) and all(it[0] != "raw" for it in lines)


class Cases(unittest.TestCase):
    """The cases of conformance, whose reports come from other programs."""

    def test_blame(self):
        """Each pair of certificates of a schedule gives the line of `inspect blame`, or none."""
        paths = [it for it in sorted(glob.glob(f"{TOP}/conformance/inspect/blame-*.schedule")) if is_read(read(it).decode())]
        self.assertGreater(len(paths), 1)
        for path in paths:
            schedule = read(path).decode()
            stakes = [int(it) for it in re.findall(r"(?m)^member (\d+)", schedule)]
            certificates = certificates_of(schedule)
            for certificate in certificates.values():
                self.assertEqual(len(kothaysu.check_certificate(stakes, certificate, KEYED)), 2)
            lines = [self.line_of_blame(stakes, *pair) for pair in itertools.combinations(certificates.items(), 2)]
            self.assertEqual("".join(lines), read(path.replace(".schedule", ".report")).decode(), path)

    def line_of_blame(self, stakes, one, other):
        found = said(kothaysu.blame, one[1], other[1])
        if isinstance(found, kothaysu.NoRivals):
            return ""
        stake = sum(stakes[it] for it in found.members)
        return f"blame {one[0]} {other[0]}: members {' '.join(map(str, found.members))} stake {stake} of {sum(stakes)}\n"

    def test_check(self):
        """Each chain gives the line of `committee check`."""
        paths = sorted(glob.glob(f"{TOP}/conformance/check/*.args"))
        self.assertGreater(len(paths), 30)
        for path in paths:
            words, chain = read(path).decode().split(), read(path.replace(".args", ".schedule"))
            stakes, tx = [int(it) for it in words[1].split(",")], bytes.fromhex(words[2])
            self.assertEqual(self.line(stakes, chain, tx), read(path.replace(".args", ".report")).decode(), path)

    def line(self, stakes, chain, tx):
        links = said(kothaysu.check_chain, stakes, chain, KEYED)
        if isinstance(links, kothaysu.TooLarge):
            return "refused too large\n"
        if isinstance(links, kothaysu.Malformed):
            return f"refused malformed at {links.at} why {links.why}\n"
        if isinstance(links, kothaysu.BadLink):
            return f"refused link {links.place} cause {links.cause}\n"
        found = said(kothaysu.find_transaction, chain, tx)
        where = "not included" if isinstance(found, kothaysu.NotIncluded) else f"included in {found[0]}"
        return f"certified {links} {where}\n"

    def test_hold(self):
        """Each certificate that a schedule hands to a member as bytes gives what its report says."""
        seen = set()
        for path in sorted(glob.glob(f"{TOP}/conformance/*/*.schedule")):
            schedule = read(path).decode("latin-1")
            report = read(path.replace(".schedule", ".report")).decode("latin-1")
            # A schedule that is refused hands nothing to anybody.
            if " hold " not in schedule or os.path.exists(path.replace(".schedule", ".args")) or report.startswith("refused "):
                continue
            stakes = [int(it) for it in re.findall(r"(?m)^member (\d+) ", schedule)]
            given = re.findall(r"(?m)^raw \d+ hold ([0-9a-f]*)$", schedule)
            told = re.findall(r"(?m)^raw \d+ hold: (.*)$", report)
            self.assertEqual(len(given), len(told), path)
            for hexes, line in zip(given, told):
                # A member says these before it looks whether the certificate is valid.
                if line.split()[0] not in ("again", "wrong", "down", "closed", "halted", "stopped"):
                    seen.add(self.hold(stakes, bytes.fromhex(hexes), line))
        self.assertEqual(seen, {"valid", "malformed", "shape", "order", "short", "bad"})

    def hold(self, stakes, cert, line):
        """The kind of the line, which is that of the answer."""
        found = said(kothaysu.check_certificate, stakes, cert, KEYED)
        if line.split()[0] in ("held", "fork"):
            self.assertIsInstance(found, tuple, line)
            return "valid"
        lines = {
            kothaysu.Malformed: lambda it: f"malformed at {it.at} why {it.why}",
            kothaysu.Shape: lambda it: f"shape {it.fault}",
            kothaysu.Order: lambda it: "order",
            kothaysu.ShortStake: lambda it: f"short stake {it.weight} of {it.total}",
            kothaysu.BadSeal: lambda it: f"bad seal {it.member}",
        }
        self.assertEqual(lines[type(found)](found), line)
        return line.split()[0]


class Seals(unittest.TestCase):
    """Seals that a caller has verified."""

    def test_all_of_a_chain(self):
        """With each listed seal accepted a chain is certified, and with one fewer its link is bad."""
        first = reference.checkpoint(0, 0, reference.ZERO, [(TX, EFFECTS)])
        second = reference.checkpoint(0, 1, reference.tagged("C", first))
        chain = reference.sequence([reference.link(first, 0, 0), reference.link(second, 0, 1)])
        listed = kothaysu.seals_of_chain(chain)
        self.assertEqual([it.member for it in listed], [0, 1, 2, 0, 1, 2])
        self.assertEqual(listed[4].statement, reference.checkpoint_statement(0, 1, reference.tagged("C", second)))
        self.assertEqual(listed[4].seal, reference.seal(1, listed[4].statement))
        self.assertEqual(kothaysu.check_chain(STAKES, chain, kothaysu.Accepted(listed)), 2)
        self.assertEqual(kothaysu.check_chain(STAKES, chain, kothaysu.Accepted(listed[::-1])), 2)
        for left_out in range(6):
            seals = kothaysu.Accepted(listed[:left_out] + listed[left_out + 1 :])
            self.assertEqual(said(kothaysu.check_chain, STAKES, chain, seals), kothaysu.BadLink(left_out // 3, 6))
        self.assertEqual(kothaysu.find_transaction(chain, TX), (0, EFFECTS))

    def test_real_signatures(self):
        """The 32 bytes may stand for a signature of any kind: what counts is that the caller accepts it."""
        of = reference.checkpoint(0, 0, reference.ZERO)
        chain = reference.sequence([of + reference.sequence([reference.number(it, 4) + bytes([it]) * 32 for it in range(3)])])
        listed = kothaysu.seals_of_chain(chain)
        self.assertEqual(kothaysu.check_chain(STAKES, chain, kothaysu.Accepted(listed)), 1)
        self.assertEqual(said(kothaysu.check_chain, STAKES, chain, KEYED), kothaysu.BadLink(0, 6))
        swapped = [kothaysu.Seal(it.member, it.statement, listed[(at + 1) % 3].seal) for at, it in enumerate(listed)]
        self.assertEqual(said(kothaysu.check_chain, STAKES, chain, kothaysu.Accepted(swapped)), kothaysu.BadLink(0, 6))
        stated = [kothaysu.Seal(it.member, it.statement + b"\x00", it.seal) for it in listed]
        self.assertEqual(said(kothaysu.check_chain, STAKES, chain, kothaysu.Accepted(stated)), kothaysu.BadLink(0, 6))

    def test_certificate(self):
        """The same of a certificate."""
        cert = payment()
        listed = kothaysu.seals_of_certificate(cert)
        tx = reference.read("certificate", cert)[1]
        self.assertEqual(kothaysu.check_certificate(STAKES, cert, kothaysu.Accepted(listed)), (reference.tagged("T", tx), 0))
        self.assertEqual(said(kothaysu.check_certificate, STAKES, cert, kothaysu.Accepted(listed[1:])), kothaysu.BadSeal(0))
        self.assertEqual(said(kothaysu.check_certificate, STAKES, cert, kothaysu.Accepted([])), kothaysu.BadSeal(0))


class Finality(unittest.TestCase):
    def test_a_quorum(self):
        """Three of four acknowledge one thing: it is final; each cause in its order."""
        ack = reference.acknowledgement(0, TX, EFFECTS)
        other = reference.acknowledgement(0, TX, TX)
        whole = reference.sequence([reference.sealed(it, ack) for it in range(3)])
        self.assertEqual(kothaysu.check_final(STAKES, whole, KEYED), kothaysu.Final(0, TX, EFFECTS))
        self.assertEqual(kothaysu.check_final(STAKES, whole, kothaysu.Accepted(kothaysu.seals_of_acknowledgements(whole))).tx, TX)
        for seals, error in (
            ([(0, ack, None), (1, b"\x01" + bytes(8), None), (2, ack, None)], kothaysu.NoAcknowledgement(1)),
            ([(0, ack, None), (2, ack, None), (1, ack, None)], kothaysu.Order()),
            ([(0, ack, None), (1, ack, None), (4, ack, None)], kothaysu.Order()),
            ([(0, ack, None), (1, ack, None)], kothaysu.ShortStake(2, 4)),
            ([], kothaysu.ShortStake(0, 4)),
            ([(0, ack, None), (1, ack, None), (3, other, None)], kothaysu.Differ(0, 3)),
            ([(0, ack, None), (1, ack, reference.ZERO), (3, ack, None)], kothaysu.BadSeal(1)),
        ):
            given = reference.sequence([reference.sealed(*it) for it in seals])
            found = said(kothaysu.check_final, STAKES, given, KEYED)
            self.assertEqual((type(found), str(found)), (type(error), str(error)))


class Blaming(unittest.TestCase):
    def test_both(self):
        """Those who sealed two certificates for one coin."""
        found = kothaysu.blame(payment(), payment(budget=3000, members=(1, 2, 3)))
        self.assertEqual(found, kothaysu.Blame([1, 2], GAS, 1))

    def test_none(self):
        """One certificate, or two coins, blame nobody."""
        for other in (payment(), payment(gas=TX)):
            self.assertIsInstance(said(kothaysu.blame, payment(), other), kothaysu.NoRivals)
        self.assertEqual(said(kothaysu.blame, b"", payment()), kothaysu.Malformed(0, 1))

    def test_many(self):
        """More members than the module makes room for at first."""
        many = range(200)
        found = kothaysu.blame(payment(members=many), payment(budget=3000, members=many))
        self.assertEqual(found.members, list(many))


class Digests(unittest.TestCase):
    def test_worked_bytes(self):
        """The digests that docs/FORMATS.md says of its worked bytes."""
        text = read(f"{TOP}/docs/FORMATS.md").decode()
        cert = bytes.fromhex(re.search(r"raw 0 hold ([0-9a-f]+)", text).group(1))
        tx, epoch = kothaysu.check_certificate(STAKES, cert, KEYED)
        self.assertEqual(epoch, 0)
        self.assertIn(tx.hex(), text)
        self.assertEqual(kothaysu.transaction_digest(reference.read("certificate", cert)[1]), tx)

    def test_each(self):
        """Each digest is that of its tag and the bytes."""
        coin = GAS + reference.number(3, 8) + b"\x00" + SENDER + b"\x00" + reference.number(0, 8) + reference.number(5, 8)
        done = TX + b"\x00" + reference.number(2, 8) + reference.number(1200, 8) + reference.number(1, 4) + reference.sequence([GAS + b"\x02" + TX]) + b"\x00"
        tx = reference.transaction(SENDER, reference.reference_to(GAS, 1, EFFECTS))
        for call, tag, given in ((kothaysu.object_digest, "O", coin), (kothaysu.effects_digest, "E", done), (kothaysu.transaction_digest, "T", tx)):
            self.assertEqual(call(given), reference.tagged(tag, given))
            self.assertEqual(said(call, given[:-1] + b""), kothaysu.Malformed(*self.fault(tag, given[:-1])))
            self.assertEqual(said(call, given + b"\x00"), kothaysu.Malformed(len(given), 7))

    def fault(self, tag, given):
        with self.assertRaises(reference.Fault) as raised:
            reference.read({"O": "object", "E": "effects", "T": "transaction"}[tag], given)
        return raised.exception.at, raised.exception.why


class Words(unittest.TestCase):
    def test_committees(self):
        """Stakes that are no committee."""
        for stakes, error in (([], (1, 0)), ([1] * 65, (2, 0)), ([1, 0, 1], (3, 1))):
            self.assertEqual(said(kothaysu.check_chain, stakes, b"\x00", KEYED), kothaysu.NoCommittee(*error))
        self.assertEqual(kothaysu.check_chain([1] * 64, b"\x00", KEYED), 0)

    def test_too_large(self):
        """One byte more than the most."""
        for call in (kothaysu.transaction_digest, kothaysu.seals_of_chain, kothaysu.seals_of_certificate, kothaysu.seals_of_acknowledgements):
            self.assertIsInstance(said(call, bytes(16777217)), kothaysu.TooLarge)
        self.assertIsInstance(said(kothaysu.check_chain, STAKES, bytes(16777217), KEYED), kothaysu.TooLarge)
        self.assertEqual(said(kothaysu.check_chain, STAKES, bytes(16777216), KEYED), kothaysu.Malformed(1, 7))

    def test_each_error_has_a_sentence(self):
        """The numbers stand in the sentences."""
        self.assertEqual(str(kothaysu.ShortStake(2, 4)), "the members have 2 of 4 of the stake, which is not more than two thirds")
        self.assertEqual(str(kothaysu.BadLink(7, 6)), "link 7 is bad: one of its seals is not accepted")

    def test_words_that_are_no_bytes(self):
        """A digest of another length, and a stake that is no number of 32 bits, are refused before any call."""
        with self.assertRaises(ValueError):
            kothaysu.find_transaction(b"\x00", b"")
        with self.assertRaises(ValueError):
            kothaysu.check_chain([2**32], b"\x00", KEYED)

    def test_version(self):
        self.assertEqual(kothaysu.version(), 100)


if __name__ == "__main__":
    unittest.main()
