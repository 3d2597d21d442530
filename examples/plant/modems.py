"""The modems of the plant: what they have to send, when they ask for it, and what they do where nobody hears them.
Times are minislots, and each modem draws from a generator of its own, so one seed gives one plant."""

import random
from typing import NamedTuple

MILLISECOND = 80
SECOND = 1000 * MILLISECOND
UNIT, MOST_UNITS = 4, 65535  # A modem asks in units of so many bytes, and for no more units than this.
MOST_RETRIES = 16
PACKET = 1524
# A modem that is always on asks again for its flow after so long.
BLOCKED_FOR = (SECOND, 3 * SECOND)


class Modem:
    """A modem with one flow, which it wants while it is `on`. `life` is what the plant counts of it, where it lives."""

    contends = False
    on_for = off_for = None

    def __init__(self, sid, flow, seed, now):
        self.sid, self.flow, self.life, self.given_up = sid, flow, None, 0
        self.chance = random.Random(f"{seed} {sid}")
        self.on, self.changes_at = True, None
        if self.on_for:
            on, off = sum(self.on_for), sum(self.off_for)
            self.on = self.chance.randrange(on + off) < on
            self.changes_at = now + self.draw((0, (self.on_for if self.on else self.off_for)[1]))
        self.begin(now)

    def draw(self, span):
        return self.chance.randrange(span[0], span[1] + 1)

    def begin(self, now):
        """It has nothing to send, and has not asked."""
        self.queued, self.asked_at, self.missed = 0, None, False

    def pass_to(self, now):
        """It is switched on or off where it is time for that; a telephone begins or ends its call."""
        if self.changes_at is not None and now >= self.changes_at:
            self.on = not self.on
            span = self.on_for if self.on else self.off_for
            self.changes_at = now + self.draw(span) if span else None
            self.begin(now)

    def is_blocked(self, now):
        """There is no flow for it: it tries again when it would have ended."""
        self.on, self.changes_at = False, now + self.draw(self.off_for or BLOCKED_FOR)

    def fill(self, at):
        """What it has got to send up to this minislot is in its queue."""

    def sent(self, count, at):
        self.queued -= count

    def misses(self):
        """It has not read a MAP in which it has a grant, and asks anew for all that it has."""
        self.missed, self.asked_at = True, None

    def wants(self):
        """The bytes that it would ask for: one request at a time, and none while something is still to be granted, but
        where it asks anew."""
        if self.asked_at is not None or (self.life.outstanding() and not self.missed):
            return 0
        return UNIT * min(-(-self.queued // UNIT), MOST_UNITS)

    def reads(self, map_, named):
        """What has become of its request: a MAP has a grant or a pending one for it, or is later and has neither."""
        if self.asked_at is not None and self.sid in named:
            self.asked_at = None
            self.is_heard()
        elif self.asked_at is not None and map_.ack > self.asked_at:
            self.asked_at = None
            self.is_lost(map_)

    def is_heard(self):
        """Its request was heard."""

    def is_lost(self, map_):
        """Its request was not heard."""


class Telephone(Modem):
    """Calls of some seconds, in which it speaks and is silent by turns. A voice packet goes in each unsolicited grant
    while it speaks. Where it is polled in their place it asks for them when it speaks again."""

    on_for, off_for = (3 * SECOND, 20 * SECOND), (2 * SECOND, 15 * SECOND)
    speaks_for, is_silent_for = (SECOND // 2, 3 * SECOND), (SECOND // 4, 3 * SECOND)

    def begin(self, now):
        super().begin(now)
        self.speaks, self.turns_at = True, now + self.draw(self.speaks_for)

    def fill(self, at):
        while self.turns_at <= at:
            self.speaks = not self.speaks
            self.turns_at += self.draw(self.speaks_for if self.speaks else self.is_silent_for)

    def wants(self):
        return UNIT if self.speaks and self.asked_at is None else 0


class Camera(Modem):
    """A picture each 40 milliseconds, each 25th a great one. It asks where it is polled, and with its data."""

    def begin(self, now):
        super().begin(now)
        self.pictures, self.next_at = 0, now + self.draw((0, 40 * MILLISECOND))

    def fill(self, at):
        while self.next_at <= at:
            self.queued += self.draw((1500, 4500) if self.pictures % 25 else (9000, 14000))
            self.pictures += 1
            self.next_at += 40 * MILLISECOND


class Habits(NamedTuple):
    """Files of so many bytes, small ones and one of `odds` great, with a rest after each. No more than `window` bytes
    are in the modem at a time."""

    small: tuple
    great: tuple
    odds: int
    rest: tuple
    window: int


class Computer(Modem):
    """Files from a host. It asks in the request region, with backoff as the MAP says, and with its data."""

    contends = True
    on_for, off_for = (2 * SECOND, 20 * SECOND), (SECOND // 2, 3 * SECOND)

    def __init__(self, sid, flow, seed, now, habits):
        self.habits = habits
        super().__init__(sid, flow, seed, now)

    def begin(self, now):
        super().begin(now)
        self.file, self.file_at = 0, now + self.draw(self.habits.rest)
        self.is_heard()

    def fill(self, at):
        if not self.file and not self.queued and at >= self.file_at:
            self.file = self.draw(self.habits.small if self.chance.randrange(self.habits.odds) else self.habits.great)
        more = min(self.file, self.habits.window - self.queued)
        self.file, self.queued = self.file - more, self.queued + more

    def sent(self, count, at):
        super().sent(count, at)
        if not self.file and not self.queued:
            self.file_at = at + self.draw(self.habits.rest)

    # Contention: it passes over so many opportunities as it draws from a window of 2 to the power of the exponent.

    def is_heard(self):
        self.exponent, self.passes, self.retries = None, 0, 0

    def is_lost(self, map_):
        """The window is twice as great, up to the greatest. After so many retries it gives a packet up."""
        if self.retries == MOST_RETRIES:
            self.given_up += 1
            self.sent(min(self.queued, PACKET), map_.start)
            self.is_heard()
        else:
            self.retries += 1
            self.draw_from(min(self.exponent + 1, map_.data_end))

    def draw_from(self, exponent):
        self.exponent, self.passes = exponent, self.chance.randrange(2**exponent)

    def turn(self, map_, chances):
        """Which of so many opportunities of a region it asks in, if in one of these."""
        if not self.wants():
            return None
        if self.exponent is None:
            self.draw_from(map_.data_start)
        place, self.passes = self.passes, self.passes - chances
        return place if place < chances else None
