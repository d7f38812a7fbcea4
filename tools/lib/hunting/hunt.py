"""One seed after the other: a schedule, the answers of two programs, the oracles; and a difference made small."""

import time
from collections import Counter, namedtuple

import shrinking

from . import coverage, oracles, profiles, running
from .plain import text as language

Finding = namedtuple("Finding", "seed profile kind said schedule wanted had")
# How a hunt is done: the program, the one that it is held to (or none), the profile (or none), and whether answers are counted.
Ways = namedtuple("Ways", "program against profile counts")


def is_schedule(text):
    try:
        language.read(text)
    except language.Refused:
        return False
    return True


def judged(ways, text):
    """What is wrong with the program's answer to a schedule: how it is found and what is said of it, or none; and both answers."""
    had = ways.program.answer(text)
    wanted = ways.against.answer(text) if ways.against else None
    if isinstance(had.status, str):
        return ("end", had.status), wanted, had
    told = running.difference(wanted, had) if wanted else None
    if told:
        return ("difference", told), wanted, had
    if had.status == 3 and not had.report.startswith(b"refused line "):
        return ("refusal", "status 3, and no line that says why"), wanted, had
    if (had.status == 3) == is_schedule(text):
        return ("refusal", f"the text is {'a' if had.status == 3 else 'no'} schedule, and the status is {had.status}"), wanted, had
    complaint = next(iter(oracles.complaints(text, had)), None) if had.status != 3 else None
    return complaint, wanted, had


def tried(ways, seed):
    """What comes of a seed: a finding or none, and how often each answer came."""
    text = profiles.schedule(seed, ways.profile)
    wrong, wanted, had = judged(ways, text)
    counts = coverage.count(text, wanted or had) if ways.counts else Counter()
    if wrong is None:
        return None, counts
    return Finding(seed, profiles.profile_of(seed, ways.profile), *wrong, text, wanted, had), counts


def smaller(ways, finding, seconds, say):
    """The finding in the smallest schedule that is found in so many seconds: wrong in the same way."""
    until, was_refused = time.monotonic() + seconds, b"refused" == (finding.wanted or finding.had).report[:7]

    def shows(lines):
        if time.monotonic() > until:
            return False
        wrong, wanted, had = judged(ways, joined(lines))
        return wrong is not None and wrong[0] == finding.kind and (was_refused or not (wanted or had).report.startswith(b"refused"))

    if len(finding.schedule) > 1 << 20:
        return finding
    search = shrinking.Search(lambda many: [shows(it) for it in many], say)
    lines = shrinking.shrink(finding.schedule.decode("latin-1").split("\n"), search)
    if lines is None:
        return finding
    wrong, wanted, had = judged(ways, joined(lines))
    # What is wrong at one time alone was found all the same.
    return finding if wrong is None else finding._replace(said=wrong[1], schedule=joined(lines), wanted=wanted, had=had)


def joined(lines):
    return "".join(f"{line}\n" for line in lines).encode("latin-1")
