"""A chain of checkpoints, and what a client says of it that trusts only the stakes: docs/COMMANDS.md."""

from . import wire

CHECKPOINT = wire.Struct(wire.U64, wire.U64, wire.FIXED, wire.List(wire.Struct(wire.FIXED, wire.FIXED)), wire.BOOL)
CHAIN = wire.List(wire.Struct(CHECKPOINT, wire.SEALS))
MOST_BYTES = 16_777_216


def causes(stakes, place, before, link):
    """All causes that apply to the link at this place, which has to go on from `before`: a checkpoint, or none."""
    checkpoint, seals = link
    epoch, number, parent, _, _ = checkpoint
    members = [it for it, _ in seals]
    known = [it for it in set(members) if it < len(stakes)]
    statement = ("checkpoint", epoch, number, digest_of(checkpoint))
    found = [1] * (number != place) + [2] * (parent != (digest_of(before) if before else wire.ZERO))
    found += [3] * (epoch != (before[0] + before[-1] if before else 0))
    found += [4] * (members != sorted(set(members)) or len(known) < len(set(members)))
    found += [5] * (3 * sum(stakes[it] for it in known) <= 2 * sum(stakes))
    return found + [6] * any(made != wire.member_seal(it, statement) for it, made in seals)


def digest_of(checkpoint):
    return wire.digest(0x43, CHECKPOINT.put(checkpoint))


def first_bad(stakes, links):
    """The place of the first bad link and the causes that apply to it; or none."""
    before = None
    for place, link in enumerate(links):
        found = causes(stakes, place, before, link)
        if found:
            return place, found
        before = link[0]
    return None


def check(stakes, tx, data):
    """The status and the line of `check`."""
    if len(data) > MOST_BYTES:
        return 8, "refused too large"
    try:
        links = wire.decoded(CHAIN, data)
    except wire.Malformed as fault:
        return 8, f"refused {fault}"
    bad = first_bad(stakes, links)
    if bad:
        return 8, f"refused link {bad[0]} cause {bad[1][0]}"
    listed = [number for number, (checkpoint, _) in enumerate(links) if any(item == tx for item, _ in checkpoint[3])]
    return 0, f"certified {len(links)} {f'included in {listed[0]}' if listed else 'not included'}"
