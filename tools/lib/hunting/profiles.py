"""The profiles of a hunt: how often a schedule does what, and what its committee is like."""

import random as randoms

from . import actions, corners, refusals, scenes, sizes
from .draft import Draft
from .plans import USERS


class Style:
    """Weights of the actions; how often much of the stake is faulty; and how often transactions repeat, go wild, are spoiled, share and have great numbers."""

    def __init__(self, weights, faulty=0.0, repeats=0.03, wildness=0.2, spoiled=0.15, sharing=0.35, writers=0.2, edge=0.04, lines=(30, 90)):
        self.weights, self.faulty, self.repeats, self.wildness = weights, faulty, repeats, wildness
        self.spoiled, self.sharing, self.writers, self.edge, self.lines = spoiled, sharing, writers, edge, lines


BASE = {"make": 3, "vote": 5, "cert": 2, "carry": 10, "whole": 6, "send": 3, "order": 2, "commit": 2, "see": 5, "run": 4, "show": 1}
ENDS = {"close": 1.5, "end": 1.5, "order_end": 1.5, "turn": 2, "end_epoch": 1.5}
STOPS = {"stop": 3, "stop_at": 4, "restart": 5}
FINAL = {"ack": 3, "final": 2, "acknowledge": 2}

STYLES = {
    "votes": Style({**BASE, "make": 8, "vote": 14}, spoiled=0.5, repeats=0.1),
    "blocks": Style({**BASE, "whole": 25, "make": 0}, wildness=0.9, spoiled=0.02, sharing=0.3),
    "natives": Style({**BASE, "whole": 25, "make": 0, "show": 3}, wildness=0.05, spoiled=0, sharing=0.4, lines=(60, 120)),
    "edges": Style({**BASE, "whole": 25, "make": 0, "show": 3}, wildness=0.05, spoiled=0, sharing=0.4, edge=0.4, lines=(60, 120)),
    "shared": Style({**BASE, "whole": 24, "order": 6, "commit": 2, "see": 6, "crowd": 6}, sharing=0.95, writers=0.7, wildness=0.1, spoiled=0.03, lines=(60, 140)),
    "epochs": Style({**BASE, **ENDS, "commit": 3, "crowd": 2}, sharing=0.6, writers=0.4, lines=(50, 130)),
    "stops": Style({**BASE, **STOPS, **ENDS}, lines=(50, 120)),
    "finality": Style({**BASE, **FINAL, "close": 0.5, "end_epoch": 1}, lines=(40, 110)),
    "faulty": Style({**BASE, **ENDS, **FINAL, "make": 8, "vote": 8, "force": 20, "staged": 12, "ask_halted": 6}, faulty=0.9, spoiled=0.35, repeats=0.06, lines=(40, 120)),
    "raw": Style({**BASE, "raw": 16, "ask_halted": 2}, faulty=0.2),
    "mixed": Style({**BASE, **ENDS, **STOPS, **FINAL, "raw": 2, "force": 3, "staged": 2, "crowd": 1, "ask_halted": 2}, faulty=0.3, lines=(60, 160)),
}
OTHERS = {"refused": refusals.text, "limits": sizes.text, "corners": lambda random, turn: corners.text(random, turn, STYLES["mixed"])}
PROFILES = (*STYLES, *OTHERS)
# The turns of a hunt of all profiles. A refused text shows one fault alone, and costs little. Each second turn of `edges` is one of `corners`.
ROUND = (*STYLES, "refused", "shared", "limits", "refused", "refused", "refused")
TURNS = (*ROUND, *("corners" if it == "edges" else it for it in ROUND))


def set_up(draft, style):
    """A committee, some of it faulty, and objects."""
    count = draft.random.choice((1, 3, 4, 4, 4, 4, 5, 7))
    stakes = [draft.random.choice((1, 1, 1, 2, 3)) if draft.chance(0.4) else 1 for _ in range(count)]
    roles = roles_for(draft, style, stakes)
    lines = [f"member {stake} {role}" for stake, role in zip(stakes, roles)]
    if draft.chance(style.writers):
        lines.append(f"writers {draft.random.choice((1, 1, 1, 2, 3))}")
    for number in range(draft.random.choice((3, 5, 8))):
        rich = draft.random.choice((10_000, 50_000, 1_000_000))
        balance = draft.random.choice((0, 900, 1100, 2500)) if draft.chance(0.12) else 2**64 - 1 if draft.chance(style.edge) else rich
        lines.append(f"coin g{number} {draft.one_of(USERS[: 3 if style.edge < 0.2 else 1])} {balance}")
    lines += [f"counter c{number} {2**64 - 3 if draft.chance(0.1) else draft.random.choice((0, 5, 100))}" for number in range(draft.random.choice((0, 1, 2) if style.sharing < 0.5 else (1, 2)))]
    lines += [f"cap m{number} {draft.one_of(USERS[:3])} {7 + number}" for number in range(draft.random.choice((0, 1, 1, 2)))]
    for line in lines:
        draft.say(line)


def roles_for(draft, style, stakes):
    """Who is faulty: less than a third of the stake, or, where the style says so, as much as comes."""
    total, left = sum(stakes), []
    most = total * draft.random.choice((0.4, 0.8, 1)) if draft.chance(style.faulty) else (total - 1) // 3 if draft.chance(0.4) else 0
    for number in draft.random.sample(range(len(stakes)), len(stakes) - (len(stakes) > 1)):
        if sum(stakes[it] for it in [*left, number]) <= most:
            left.append(number)
    return ["faulty" if number in left else "honest" for number in range(len(stakes))]


def styled(random, style):
    """A schedule of a style, and the report of the plain model."""
    draft = Draft(random)
    set_up(draft, style)
    most = random.randrange(*style.lines)
    while len(draft.lines) < most:
        name = random.choices(list(style.weights), style.weights.values())[0]
        getattr(scenes if hasattr(scenes, name) else actions, name)(draft, style)
        if not draft.names:
            actions.make(draft, style) or draft.say("order commit")
    for number in draft.honest:
        draft.say(f"show {number}")
    return draft.lines


def turns_of(wanted):
    """The profiles in their turns: one, some, or all where none is wanted."""
    return (wanted,) if isinstance(wanted, str) else wanted or TURNS


def profile_of(seed, wanted=None):
    """The profile of a seed."""
    turns = turns_of(wanted)
    return turns[seed % len(turns)]


def turn_of(seed, wanted=None):
    """How many seeds below this one have its profile."""
    turns = turns_of(wanted)
    rounds, place = divmod(seed, len(turns))
    return rounds * turns.count(turns[place]) + turns[:place].count(turns[place])


def schedule(seed, wanted=None):
    """The text of a seed: the same one each time."""
    profile = profile_of(seed, wanted)
    random = randoms.Random(f"{profile} {seed}")
    if profile in OTHERS:
        return OTHERS[profile](random, turn_of(seed, wanted))
    return "".join(f"{line}\n" for line in styled(random, STYLES[profile])).encode()
