# SPDX-License-Identifier: MIT OR Apache-2.0
"""What is told of a build, and its log."""
import sys
import time

from crates import is_program, needed, product_of


def name_of(crate):
    """What is built of the crate, as a user knows it."""
    return crate.replace("_", "-") if is_program(crate) else product_of(crate).name


def in_minutes(seconds):
    count = round(seconds / 60)
    return f"{count} minutes" if count > 1 else "a minute"


class Report:
    """Tells of each crate that is done, and each minute what is left."""

    def __init__(self, crates, plan, log):
        self.name = name_of(crates[0]) if len(crates) == 1 else "tools/build"
        self.plan, self.log, self.count, self.lines = plan, log, len(plan.left), plan.lines_left()
        self.done, self.start = 0, time.monotonic()
        self.say(f"{self.count} of {len(needed(*crates))} crates are to be proved and built, which can take minutes")

    def say(self, line):
        self.said = time.monotonic()
        print(f"{self.name}: {line}", file=sys.stderr, flush=True)

    def keep(self, crate, text):
        self.log.write(f"== {crate}\n{text}")
        self.log.flush()

    def so_far(self):
        """How long the build has taken, and how long it may still take where all lines take as long as those so far."""
        passed, left = time.monotonic() - self.start, self.plan.lines_left()
        minutes, seconds = divmod(int(passed), 60)
        ended = self.lines - left
        more = f", about {in_minutes(passed * left / ended)} left" if ended and left else ""
        return f"{minutes}:{seconds:02d} so far{more}"

    def tell(self, crate, verb):
        self.done += 1
        others = ", ".join(self.plan.running)
        self.say(f"{verb} {self.done} of {self.count}: {crate}, {self.so_far()}{'; now ' if others else ''}{others}")

    def tell_still(self):
        self.say(f"still {', '.join(self.plan.running)}; {self.done} of {self.count} done, {self.so_far()}")

    def silence(self, seconds):
        """How long nothing has to be told until the last line is so many seconds old."""
        return max(self.said + seconds - time.monotonic(), 0)
