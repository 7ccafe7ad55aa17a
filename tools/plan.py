# SPDX-License-Identifier: MIT OR Apache-2.0
"""Which crates are proved next, and how many processes work on each."""
from crates import listed, made_of
from machine import free_memory, processors

# What a proof may take in bytes, and what each further process that works on it may take.
MEMORY_OF_A_PROOF, MEMORY_OF_A_JOB = 3_000_000_000, 1_500_000_000
MOST_JOBS = 4


def memory_of(jobs):
    return MEMORY_OF_A_PROOF + (jobs - 1) * MEMORY_OF_A_JOB


class Plan:
    """What is left to prove of some crates, given in the order of needed(), and what is being proved."""

    def __init__(self, crates):
        self.uses, self.memory, self.running = listed(), 0.85 * free_memory(), {}
        self.lines = {crate: sum(file.read_bytes().count(b"\n") for file in made_of([crate])) for crate in crates}
        # how many lines the longest chain of crates has that begins with each and goes up
        self.chains = {}
        for crate in reversed(crates):
            above = [self.chains[each] for each in self.chains if crate in self.uses[each]]
            self.chains[crate] = self.lines[crate] + max(above, default=0)
        self.left = sorted(crates, key=lambda crate: -self.chains[crate])

    def has_room(self):
        """Whether a proof that keeps no work may take the memory that it needs."""
        return self.memory >= MEMORY_OF_A_PROOF

    def is_first(self, crate):
        """Whether the longest chain of what is left begins with the crate."""
        return self.chains[crate] == max(self.chains[each] for each in (*self.left, *self.running))

    def jobs_for(self, crate, others):
        """How many processes work on the crate's proof, or 0 for none, where so many other proofs are ready.

        One process takes the least processor time. Four take the least time by the clock, so the crate that most others
        wait for gets as many.
        """
        # (twice as many as there are processors: a proof's first and last steps are one process)
        idle = 2 * processors() - sum(self.running.values())
        room = self.memory - sum(memory_of(jobs) for jobs in self.running.values())
        jobs = min(MOST_JOBS if self.is_first(crate) else 1, processors(), idle)
        while jobs > 1 and memory_of(jobs) + others * MEMORY_OF_A_PROOF > room:
            jobs -= 1
        return jobs if jobs > 0 and memory_of(jobs) <= room else 0

    def begin(self):
        """The crates whose proofs begin now, each with how many processes work on it."""
        waiting = {*self.left, *self.running}
        ready = [crate for crate in self.left if not waiting & {*self.uses[crate]}]
        for place, crate in enumerate(ready):
            jobs = self.jobs_for(crate, len(ready) - place - 1) or (0 if self.running else 1)
            if jobs:
                self.left.remove(crate)
                self.running[crate] = jobs
                yield crate, jobs

    def end(self, crate):
        del self.running[crate]

    def lines_left(self):
        return sum(self.lines[crate] for crate in (*self.left, *self.running))
