"""A member over all lives of its process: what is asked once is answered once, however often the process dies meanwhile."""

import random
import threading
import time

import process
import wire


class Down(Exception):
    """The member is down, and is to stay so for a while."""


class Log:
    """What happened, in an order that a schedule may have: a call of a member stands after what it was handed was made."""

    def __init__(self):
        self.lines, self.lock = [], threading.Lock()

    def say(self, line):
        """Adds a line. Answers its place."""
        with self.lock:
            self.lines.append(line)
            return len(self.lines) - 1


class Given:
    """What a member said in all its lives under its seal: each statement by what it is about, the first time it came."""

    def __init__(self):
        self.votes, self.others, self.contradicted = {}, {}, []
        self.count = 0

    def take(self, spelled):
        """Takes a sealed statement. One that says something else than an earlier one about the same is noted."""
        it = wire.read_sealed(spelled)
        self.count += 1
        kept = self.votes if it.kind == wire.VOTE else self.others
        about = (it.epoch, it.kind, *it.what[:1])
        if kept.setdefault(about, spelled) != spelled:
            self.contradicted.append(f"member {it.member} said {kept[about].hex()} and then {spelled.hex()}")
        return it


class Member:
    """An honest member: its file, the process that serves it now, and the request that has no answer yet."""

    def __init__(self, program, number, genesis, journal, log):
        self.start_words = (program, number, genesis, journal)
        self.number, self.log = number, log
        self.lock = threading.RLock()
        self.process = self.ready = self.pending = None
        self.given = Given()
        self.epoch = self.seen = 0
        self.starts = self.lives = self.deaths_asked = 0
        self.rests_until = 0
        self.faults = []
        self.by_line = {}

    def standing(self):
        """Starts the process if it is down and does not rest."""
        if self.process and self.process.child.poll() is None:
            return
        if time.monotonic() < self.rests_until:
            raise Down()
        self.starts += 1
        self.process = process.Process(*self.start_words)
        self.ready = self.process.ready()
        if self.lives:
            self.log.say(f"restart {self.number}")
        self.lives += 1
        self.began()

    def began(self):
        """Looks whether the life goes on where the last one was: with the request under way done, or not done."""
        was, now = (self.epoch, self.seen), (self.ready["epoch"], self.ready["seen"])
        asked = self.pending[0].split(" ")[0] if self.pending else ""
        may = [was] + ([(was[0], was[1] + 1)] if asked == "see" else [(was[0] + 1, 0)] if asked == "turn" else [])
        if now not in may:
            self.faults.append(f"member {self.number} was at entry {was[1]} of epoch {was[0]}, and starts at {now[1]} of {now[0]}")

    def ask(self, request, event=None):
        """The answer to a request; no text if a life before did what was asked and did not say so."""
        with self.lock:
            self.settle()
            self.pending = (request, event, 0)
            return self.settle()

    def settle(self):
        """Has the request under way answered, by as many lives as it takes."""
        while self.pending:
            request, event, tries = self.pending
            try:
                self.standing()
                answer = "" if tries and self.is_done(request) else self.process.ask(request)
            except process.Died:
                self.deaths_asked += 1
                self.pending = (request, event, tries + 1)
                continue
            self.pending = None
            self.answered(request, event, answer)
            return answer
        return ""

    def is_done(self, request):
        """Whether the life before did it: a new life says how far it is."""
        word = request.split(" ")[0]
        now = (self.ready["epoch"], self.ready["seen"])
        return word == "see" and now == (self.epoch, self.seen + 1) or word == "turn" and now == (self.epoch + 1, 0)

    def answered(self, request, event, answer):
        """Notes an answer."""
        word, said = request.split(" ")[0], answer.split(" ")
        if word == "see" and said[0] in ("", "seen", "fork"):
            self.seen += 1
        if word == "turn" and said[0] in ("", "turned"):
            self.epoch, self.seen = self.epoch + 1, 0
        if event:
            self.by_line[self.log.say(event)] = answer
        if said[0] in ("voted", "again", "end", "ack", "checkpoint") and word in ("vote", "end", "ack", "checkpoint"):
            self.given.take(bytes.fromhex(said[-1]))

    def kill(self, rests=0):
        """Ends the process as kill -9 does, whatever it is about. It is started again after so many seconds, when it is next asked."""
        if self.process is None or not self.process.kill():
            return False
        self.rests_until = time.monotonic() + rests
        return True

    def stop(self):
        """Ends the process by the end of its input."""
        if self.process and self.process.child.poll() is None:
            return self.process.stop()
        return 0


class Killer(threading.Thread):
    """Kills processes at random moments: one, several or all at once, and now and then the leader of etcd."""

    def __init__(self, members, kills, seconds, chance, etcd=None):
        super().__init__(daemon=True)
        self.members, self.kills, self.seconds, self.chance, self.etcd = members, kills, seconds, random.Random(chance), etcd
        self.done, self.at_once, self.ended = 0, 0, threading.Event()

    def run(self):
        pause = self.seconds / max(1, self.kills)
        while self.done < self.kills and not self.ended.wait(self.chance.uniform(0, 2 * pause)):
            many = self.chance.choice((1, 1, 1, 2, len(self.members)))
            rests = self.chance.choice((0, 0, 0, pause, 4 * pause)) if many == 1 else 0
            killed = sum(it.kill(rests) for it in self.chance.sample(self.members, many))
            self.done += killed
            self.at_once = max(self.at_once, killed)
            if self.etcd and self.chance.random() < 0.1:
                self.etcd.kill_leader()
