"""Crates whose edits are tried side by side, as many rounds as there is time for."""
import os

# What a crate's first check takes, and an edit, in seconds of one processor, until a round has
# shown what they take on this machine.
FIRST, EACH = 120, 25
# About how long a round lasts, in seconds: the clock is looked at between them.
LONG = 300


def processors():
    """How many checks run side by side: a processor each, and four gigabytes."""
    number = int(os.environ.get("RT_JOBS") or len(os.sched_getaffinity(0)))
    return max(1, number)


class Rounds:
    """What is tried next, by the clock and by what the rounds before took."""

    def __init__(self, until, numbers, clock=None):
        import time

        self.until, self.numbers, self.clock = until, numbers, clock or time.time
        self.pace, self.left = 1.0, []

    def cost(self, name):
        """What a crate's edits are likely to take, in seconds of one processor."""
        return self.pace * (FIRST + EACH * self.numbers[name])

    def took(self, names, seconds):
        """Learns from a round how fast the machine is."""
        asked = sum(self.cost(it) for it in names) / self.pace / processors()
        self.pace = max(0.3, (self.pace + seconds / asked) / 2)

    def lasts(self, names):
        """How long these are likely to take side by side: never less than a first check, and then
        its edits, on as many processors as there are."""
        alone = self.pace * FIRST if names else 0
        return max(alone, sum(self.cost(it) for it in names) / processors())

    def of(self, names):
        """Rounds of crates in this order. What there is no time for is left."""
        names = list(names)
        while names:
            now, room = [], self.until - self.clock()
            while names and self.lasts(now) < LONG and self.lasts([*now, names[0]]) <= room:
                now.append(names.pop(0))
            if not now:
                # (a shorter one may still find its time)
                self.left.append(names.pop(0))
                continue
            yield now
