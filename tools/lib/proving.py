"""In which order, and with how many jobs, crates are proved: the crates with the longest chain above them first."""

import os

from crates import TOP, files_of, uses

# The memory of a check, and of each further job of it.
GIGABYTES, FOR_A_JOB = 3.0, 1.5
# A job more than one costs processor time: a check of 490 seconds took 312 with four jobs, and 740 of the processor. So it pays only
# for what is left alone, and for crates that take a while.
MOST_JOBS, WORTH = 4, 60
PART_OF_TIME = {1: 1.0, 2: 0.78, 3: 0.69, 4: 0.64}
SECONDS_A_BYTE = 0.004


def costs(names, top=TOP):
    """The seconds of each crate: those of the table, or what its sources weigh."""
    table = {}
    with open(f"{top}/tools/costs.txt", encoding="utf-8") as it:
        for line in it:
            words = line.split()
            if len(words) == 2 and words[1].isdigit():
                table[words[0]] = int(words[1])
    weight = lambda name: sum(os.path.getsize(f"{top}/{path}") for path in files_of(name, top))
    return {name: table.get(name) or max(5, int(weight(name) * SECONDS_A_BYTE)) for name in names}


class Schedule:
    """The crates that are left and those that run, with their jobs."""

    def __init__(self, names, known, seconds, processors, gigabytes):
        self.below = {name: {it for it in known[name] if it in names} for name in names}
        self.seconds, self.processors, self.gigabytes = seconds, processors, gigabytes
        self.left, self.running, self.chains = list(names), {}, {}
        for name in reversed(self.left):
            above = [self.chains[it] for it in self.left if name in self.below[it]]
            self.chains[name] = seconds[name] + max(above, default=0)

    def ready(self):
        """The crates that wait for none, the longest chain first."""
        waits = {*self.left, *self.running}
        free = [it for it in self.left if not self.below[it] & waits]
        return sorted(free, key=lambda it: (-self.chains[it], it))

    def memory(self):
        """What the running checks may take."""
        return sum(GIGABYTES + FOR_A_JOB * (jobs - 1) for jobs in self.running.values())

    def start(self, free=None, looks=True):
        """Starts what may be started beside the rest, and answers it: crates with their jobs. `free` is the memory that is left now.
        If it looks ahead, a crate gets the jobs with which all would end first."""
        started, room = [], self.gigabytes - self.memory()
        room = room if free is None else min(room, free)
        ready = self.ready()
        for place, name in enumerate(ready):
            idle = self.processors - sum(self.running.values())
            if idle < 1 or self.running and room < GIGABYTES:
                break
            jobs = 1
            if self.seconds[name] > WORTH:
                most = max(1, min(MOST_JOBS, self.processors, 1 + int((room - GIGABYTES) / FOR_A_JOB)))
                jobs = self.best_jobs(name, most) if looks else min(most, max(1, idle // (len(ready) - place)))
            room -= GIGABYTES + FOR_A_JOB * (jobs - 1)
            self.begin(name, jobs)
            started.append((name, jobs))
        return started

    def begin(self, name, jobs):
        self.left.remove(name)
        self.running[name] = jobs

    def best_jobs(self, name, most):
        """With how many jobs of a crate all would end first, by the costs."""
        ends = {}
        for jobs in range(1, most + 1):
            other = self.copy()
            other.begin(name, jobs)
            ends[jobs] = simulated(other, looks=False)[1]
        return min(ends, key=lambda jobs: (ends[jobs], jobs))

    def done(self, name):
        del self.running[name]

    def copy(self):
        other = object.__new__(Schedule)
        other.__dict__ = {**self.__dict__, "left": list(self.left), "running": dict(self.running)}
        return other


def took(seconds, jobs):
    """How long a check takes by the clock."""
    return seconds * PART_OF_TIME.get(jobs, PART_OF_TIME[MOST_JOBS])


def simulated(schedule, since=None, looks=True):
    """Runs a schedule by the costs alone: when each crate begins and ends, and its jobs; and when all ends. `since` has when what
    runs already began, at most 0."""
    schedule, now, rows, ends = schedule.copy(), 0.0, [], {}
    for name, jobs in schedule.running.items():
        ends[name] = max(0.0, (since or {}).get(name, 0.0) + took(schedule.seconds[name], jobs))
    while schedule.left or ends:
        for name, jobs in schedule.start(looks=looks):
            ends[name] = now + took(schedule.seconds[name], jobs)
            rows.append((now, ends[name], name, jobs))
        first = min(ends, key=lambda it: (ends[it], it))
        now = ends.pop(first)
        schedule.done(first)
    return rows, now
