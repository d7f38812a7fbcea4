"""What a run says of itself: kills, votes, transactions a second, and where the time went."""

import os
import random
import time

import members
import process
import wallets
import wire


def told(committee, killer, etcd, seconds, seed):
    """Writes the numbers of a run."""
    starts, lives = (sum(getattr(it, what) for it in committee.members) for what in ("starts", "lives"))
    votes, others = sum(len(it.given.votes) for it in committee.members), sum(len(it.given.others) for it in committee.members)
    said = sum(it.given.count for it in committee.members)
    asked = sum(it.deaths_asked for it in committee.members)
    contradicted = sum(len(it.given.contradicted) for it in committee.members)
    print(f"seed {seed}: {committee.rounds} rounds, {committee.epoch} epochs ended, {seconds:.1f} s")
    print(f"processes: {killer.done} kills, {killer.at_once} at once at most, {asked} while a request or a start was under way")
    print(f"lives: {starts} starts of {len(committee.members)} members, {lives} came to their first line")
    if etcd:
        print(f"etcd: {len(etcd.nodes)} nodes, {etcd.kills} kills of the leader")
    print(f"said under seals: {votes} votes, {others} Ends, acknowledgements and checkpoints, {said} times in all; {contradicted} contradicted")
    made, final = len(committee.wallets.made), len(committee.final)
    refused = ", ".join(f"{count} {cause}" for cause, count in sorted(committee.refused.items()))
    print(f"transactions: {made} made, {committee.wallets.doubles} coins spent twice; {len(committee.certificates)} certified, {final} final")
    print(f"votes refused: {refused or 'none'}")
    steps = ", ".join(f"{name} {it:.1f}" for name, it in committee.seconds.items())
    print(f"a second: {final / seconds:.1f} final transactions; seconds of the steps: {steps}")


def votes(program, seconds, folder, coins):
    """Says how many votes a second one process gives whose file stands in a folder."""
    mine = wallets.Wallets(max(coins, 1), random.Random(0))
    genesis, journal = f"{folder}/genesis-{os.getpid()}", f"{folder}/journal-{os.getpid()}"
    with open(genesis, "w", encoding="utf-8") as it:
        it.write("member 1 honest\n" + "".join(f"{line}\n" for line in mine.genesis()))
    try:
        process.made(program, 0, genesis, journal)
        member = members.Member(program, 0, genesis, journal, members.Log())
        asked = [f"vote {mine.made_of(0, coin, 'bob', 'send').sealed.hex()}" for coin in mine.coins]
        member.settle()
        member.standing()
        given, began = 0, time.monotonic()
        for request in asked:
            given += member.ask(request).startswith("voted ")
            if time.monotonic() - began > seconds:
                break
        taken = time.monotonic() - began
        member.stop()
        print(f"{given} votes in {taken:.2f} s, {given / taken:.0f} a second; {len(wire.records(journal)) - 1} stand in the file, {os.path.getsize(journal)} bytes")
    finally:
        for path in (genesis, journal):
            os.path.exists(path) and os.remove(path)
    return 0
