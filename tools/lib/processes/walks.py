"""A committee that goes on standing between commands: each member is asked through two named pipes in the committee's folder."""

import contextlib
import errno
import fcntl
import json
import os
import select
import signal
import subprocess
import sys
import time

import process
import sequences
import wire

HANG = 120
USE = """usage: tools/committee_of_processes walk make FOLDER GENESIS    makes the journals of all honest members (--validator PROGRAM)
       .. walk start FOLDER                  starts the members that are down
       .. walk pay FOLDER NAME FROM COIN TO AMOUNT   makes a payment out of a coin of the genesis, and calls it NAME
       .. walk vote FOLDER NAME M ..         asks members for their votes; votes of a quorum make the certificate
       .. walk finish FOLDER NAME            hands the certificate to all, orders it with a mark, has all run, and asks what they did
       .. walk ask FOLDER M REQUEST ..       one request, and the answer as the member gives it
       .. walk stop FOLDER                   ends all members
"""


class Wrong(Exception):
    """What was asked cannot be done; the text says why."""


class Standing:
    """The members of a folder."""

    def __init__(self, folder):
        self.folder = folder
        self.sequence = sequences.FileSequence(f"{folder}/sequence")
        with open(f"{folder}/genesis", encoding="utf-8") as it:
            self.lines = [line.split() for line in it.read().splitlines()]
        roles = [line[2] for line in self.lines if line[:1] == ["member"]]
        self.stakes = [int(line[1]) for line in self.lines if line[:1] == ["member"]]
        self.honest = [place for place, role in enumerate(roles) if role == "honest"]

    def journal(self, member):
        return f"{self.folder}/journal-{member}"

    def pipe(self, member, end, how):
        """An open end of a member's pipe."""
        path = f"{self.folder}/{member}.{end}"
        if not os.path.exists(path):
            os.mkfifo(path)
        return os.open(path, how)

    def is_up(self, member):
        """Whether a process reads the member's requests."""
        try:
            os.close(self.pipe(member, "in", os.O_WRONLY | os.O_NONBLOCK))
            return True
        except OSError as fault:
            if fault.errno != errno.ENXIO:
                raise
            return False

    def start(self, program, member):
        """Starts a member. It holds both ends of its pipes, so its input ends with itself alone. Answers its first line."""
        given, said = self.pipe(member, "in", os.O_RDWR), self.pipe(member, "out", os.O_RDWR)
        heard = self.pipe(member, "out", os.O_RDONLY | os.O_NONBLOCK)
        try:
            words = [program, str(member), f"{self.folder}/genesis", "in", self.journal(member)]
            child = subprocess.Popen(words, stdin=given, stdout=said, stderr=subprocess.DEVNULL, start_new_session=True)
            os.close(said)
            with open(f"{self.folder}/{member}.pid", "w", encoding="utf-8") as it:
                it.write(f"{child.pid}\n")
            return line_of(heard, member, f"ended before its first line; this says why: {' '.join(words)}")
        finally:
            os.close(given)
            os.close(heard)

    @contextlib.contextmanager
    def alone(self, member):
        """Nobody else asks this member meanwhile."""
        with open(f"{self.folder}/{member}.lock", "w", encoding="utf-8") as it:
            fcntl.flock(it, fcntl.LOCK_EX)
            yield

    def ask(self, member, request):
        """The answer of a member."""
        with self.alone(member):
            if not self.is_up(member):
                raise Wrong(f"member {member} is down: `walk start {self.folder}` starts it")
            heard = self.pipe(member, "out", os.O_RDONLY | os.O_NONBLOCK)
            given = self.pipe(member, "in", os.O_WRONLY)
            try:
                os.write(given, request.encode() + b"\n")
                return line_of(heard, member)
            finally:
                os.close(given)
                os.close(heard)

    def coin(self, name):
        """The reference to the version of a coin that lives at the first member that is up."""
        named = [line[1] for line in self.lines if line[:1] in (["coin"], ["counter"], ["cap"])]
        if name not in named:
            raise Wrong(f"the genesis has no object {name}")
        member = next((it for it in self.honest if self.is_up(it)), None)
        if member is None:
            raise Wrong("all members are down")
        words = self.ask(member, f"object {wire.opening_id(named.index(name)).hex()}").split(" ")
        if words[0] != "object":
            raise Wrong(f"member {member} has no object {name}")
        spelled = bytes.fromhex(words[1])
        return wire.Reference(spelled[:32], int.from_bytes(spelled[32:40], "little"), wire.digest(b"O", spelled))

    def payment(self, name):
        """What is known of a payment."""
        try:
            with open(f"{self.folder}/{name}.json", encoding="utf-8") as it:
                return json.load(it)
        except FileNotFoundError:
            raise Wrong(f"there is no payment {name}: `walk pay` makes one") from None

    def keep(self, name, known):
        with open(f"{self.folder}/{name}.json", "w", encoding="utf-8") as it:
            json.dump(known, it)

    def is_quorum(self, of):
        return 3 * sum(self.stakes[it] for it in of) > 2 * sum(self.stakes)


def line_of(heard, member, ended="ended before it answered: start it, and ask again"):
    """The next whole line of a member's pipe; or it is said that the member `ended`."""
    text, until = b"", time.monotonic() + HANG
    while not text.endswith(b"\n"):
        if not select.select([heard], [], [], max(0, until - time.monotonic()))[0]:
            raise Wrong(f"member {member} gave no answer in {HANG} seconds")
        more = os.read(heard, 1 << 16)
        if not more:
            raise Wrong(f"member {member} {ended}")
        text += more
    return text.decode().rstrip("\n")


def make(folder, genesis, program):
    """Makes the journals."""
    if os.path.exists(f"{folder}/genesis"):
        raise Wrong(f"{folder} has a committee: `walk start` starts it; name another folder for a new one")
    os.makedirs(folder, exist_ok=True)
    with open(genesis, "rb") as given, open(f"{folder}/genesis", "wb") as it:
        it.write(given.read())
    with open(f"{folder}/program", "w", encoding="utf-8") as it:
        it.write(program)
    standing = Standing(folder)
    for member in standing.honest:
        print(process.made(program, member, f"{folder}/genesis", standing.journal(member)))


def start(standing):
    with open(f"{standing.folder}/program", encoding="utf-8") as it:
        program = it.read()
    for member in standing.honest:
        if not standing.is_up(member):
            line = standing.start(program, member)
            if not line.startswith("ready "):
                raise Wrong(f"member {member} does not start: {line}")
            print(line, flush=True)


def pay(standing, name, sender, coin, to, amount):
    """Makes a payment."""
    if not amount.isdigit() or int(amount) >= 1 << 64:
        raise Wrong(f"{amount} is not an amount")
    epoch = int(standing.ask(standing.honest[0], "state").split(" ")[2])
    inputs = [wire.pure(wire.number(int(amount))), wire.pure(wire.address(to))]
    commands = [wire.split(wire.GAS, [wire.argument(0)]), wire.transfer([wire.result(0)], wire.argument(1))]
    spelled = wire.transaction(epoch, sender, standing.coin(coin), 2000, inputs, commands)
    of = wire.digest(b"T", spelled).hex()
    standing.keep(name, {"digest": of, "spelled": spelled.hex(), "sealed": (spelled + wire.seal_of_user(sender, spelled)).hex(), "votes": {}})
    print(f"{name} {of}")


def vote(standing, name, asked):
    """Asks for votes, and forms the certificate if they are enough."""
    known = standing.payment(name)
    for member in asked:
        words = standing.ask(member, f"vote {known['sealed']}").split(" ")
        print(f"member {member}: {' '.join(words) if words[0] == 'refused' else words[0]}")
        if words[0] in ("voted", "again"):
            known["votes"][str(member)] = words[1]
    votes = {int(member): wire.read_sealed(bytes.fromhex(spelled)) for member, spelled in known["votes"].items()}
    made_by = votes[min(votes)].what[1] if votes else ()
    same = sorted(member for member, it in votes.items() if it.what[1] == made_by)
    if standing.is_quorum(same):
        known["certificate"] = wire.certificate(bytes.fromhex(known["spelled"]), made_by, [(it, votes[it].seal) for it in same]).hex()
        print(f"{name}: certified by {' '.join(map(str, same))}")
    standing.keep(name, known)


def finish(standing, name):
    """Brings a certified payment to its end."""
    known = standing.payment(name)
    if "certificate" not in known:
        raise Wrong(f"{name} has no certificate: a quorum has to vote for it")
    epoch, acknowledged = int(standing.ask(standing.honest[0], "state").split(" ")[2]), {}
    standing.sequence.add(epoch, wire.entry_of_certificate(bytes.fromhex(known["certificate"])))
    standing.sequence.add(epoch, wire.MARK)
    for member in standing.honest:
        standing.ask(member, f"hold {known['certificate']}")
        at = int(standing.ask(member, "state").split(" ")[4])
        for place, entry in enumerate(standing.sequence.since(epoch, at), at):
            standing.ask(member, f"see {place} {entry.hex()}")
        standing.ask(member, "run 1")
        words = standing.ask(member, f"ack {known['digest']}").split(" ")
        checkpoints = standing.ask(member, "state").split(" ")[10]
        print(f"member {member}: {words[0]}, checkpoints {checkpoints}")
        if words[0] == "ack":
            acknowledged[member] = wire.read_sealed(bytes.fromhex(words[1])).what[1]
    said = list(acknowledged.values())
    same = [it for it, what in acknowledged.items() if what == max(said, key=said.count)]
    print(f"{name}: {'final by' if standing.is_quorum(same) else 'not final, said by'} {' '.join(map(str, same))}")


def stop(standing):
    """Ends all members as a crash does: there is no other way to end that a member has to be ready for."""
    for member in standing.honest:
        if standing.is_up(member):
            with open(f"{standing.folder}/{member}.pid", encoding="utf-8") as it:
                os.kill(int(it.read()), signal.SIGKILL)


def member_of(standing, word):
    """The honest member of this number."""
    if not word.isdigit() or int(word) not in standing.honest:
        raise Wrong(f"{word} is not an honest member of {standing.folder}")
    return int(word)


def walk(words, program):
    """A command of a walk. Answers its status."""
    takes = {"make": 2, "start": 1, "pay": 6, "vote": 3, "finish": 2, "ask": 3, "stop": 1}
    if not words or len(words) - 1 < takes.get(words[0], len(words)):
        print(USE, end="", file=sys.stderr)
        return 2
    try:
        if words[0] == "make":
            at = program("validator", words[4] if words[3:4] == ["--validator"] and len(words) > 4 else None)
            if not at:
                raise Wrong("there is no program `validator` here: --validator names one")
            make(words[1], words[2], at)
            return 0
        if not os.path.exists(f"{words[1]}/genesis"):
            raise Wrong(f"there is no committee in {words[1]}: `walk make` makes one")
        standing = Standing(words[1])
        if words[0] == "vote":
            vote(standing, words[2], [member_of(standing, it) for it in words[3:]])
        elif words[0] == "ask":
            print(standing.ask(member_of(standing, words[2]), " ".join(words[3:])))
        else:
            {"start": start, "pay": pay, "finish": finish, "stop": stop}[words[0]](standing, *words[2 : takes[words[0]] + 1])
    except (Wrong, process.Refused) as fault:
        print(fault, file=sys.stderr)
        return 1
    return 0
