"""What the plant counts itself: by what it says, what it is answered, and the MAPs as it reads them."""

from collections import Counter, deque

CALLS = ("admit", "ask", "build", "header", "heard", "remove", "reserve", "skip", "status")
# Of these it is told how many there were where there was one.
MORE_CALLS = ("change", "replace", "rest", "wake")
USES = ("request", "poll", "unsolicited", "opportunity", "data", "idle")
PART = 1280000  # So many parts of a byte: a ceiling of 1 bit per second gives one in each tick.
PEAK_BURST = 1522  # The burst of a peak, in bytes.


def rank_of(flow):
    """Polled flows are served before all priorities; one with voice grants never asks."""
    return {"polled": 8, "unsolicited": None}.get(flow["kind"], flow.get("priority"))


def percentile(ordered, percent):
    """The least of the ordered values that at least so many in a hundred do not exceed."""
    return ordered[-(-percent * len(ordered) // 100) - 1]


def summary(delays):
    if not delays:
        return None
    ordered = sorted(delays)
    middle, p99 = percentile(ordered, 50), percentile(ordered, 99)
    return {"greatest": ordered[-1], "least": ordered[0], "middle": middle, "p99": p99}


class Bucket:
    """What a ceiling allows, full at first: its rate fills it again, and it holds its burst."""

    def __init__(self, rate, burst, now):
        self.rate, self.burst, self.parts, self.at = rate, burst, burst * PART, now

    def allows(self, ticks, start):
        """How many bytes it allows at a minislot of so many ticks."""
        more = (start - self.at) * ticks * self.rate
        self.parts, self.at = min(self.parts + more, self.burst * PART), start
        return self.parts // PART

    def take(self, count):
        self.parts -= count * PART


def rate_of(flow, now):
    return Bucket(flow.get("rate", 0), flow.get("burst", 0), now)


def peak_of(flow, now):
    return Bucket(flow.get("peak", 0), PEAK_BURST, now)


def reserved_of(flow, now):
    return Bucket(flow.get("reserved", 0), flow.get("reserved_burst", 0), now)


class Life:
    """A flow from its admission to its removal."""

    def __init__(self, config, sid, flow, first):
        self.config, self.sid, self.flow = config, sid, flow
        self.first, self.last = first, None
        self.asked = self.granted = self.asks = self.replaces = self.replaced = self.under = 0
        self.unserved, self.delays = deque(), []
        # Of what waits up to two batches: where each ends in the bytes asked, and the least minislot of its requests.
        self.batches = []
        self.rate, self.peak, self.reserved = rate_of(flow, first), peak_of(flow, first), reserved_of(flow, first)
        self.voice_at, self.late = None, 0
        self.rests, self.silent = False, 0

    def outstanding(self):
        return self.sums()[2]

    def sums(self):
        """What the call `status` has to answer: nothing of a flow that does not ask."""
        asks = self.flow["kind"] != "unsolicited"
        return (self.asked, self.granted, self.asked - self.granted) if asks else (0, 0, 0)

    def ask(self, count, heard):
        if not self.outstanding():
            self.batches.clear()
        self.asked, self.asks = self.asked + count, self.asks + 1
        self.unserved.append((self.asked, heard))
        if len(self.batches) == 2:
            heard = min(heard, self.batches.pop()[1])
        self.batches.append((self.asked, heard))

    def ends_map(self):
        """A MAP has been obeyed: where all of the first batch is granted, the second is the first."""
        if self.batches and self.batches[0][0] <= self.granted:
            self.batches.pop(0)

    def since(self):
        """The least minislot at which a request of its batches was heard."""
        return min(heard for _, heard in self.batches)

    def replace(self, count, heard):
        """A request in the place of those that are not served, which nobody serves any more."""
        self.replaces, self.replaced = self.replaces + 1, self.replaced + len(self.unserved)
        self.unserved.clear()
        self.asked = self.granted
        if count:
            self.ask(count, heard)

    def change(self, flow, now):
        """Other parameters. A ceiling or a reservation of which a number is another begins full, the others go on."""
        if any(flow.get(it) != self.flow.get(it) for it in ("rate", "burst")):
            self.rate = rate_of(flow, now)
        if flow.get("peak", 0) != self.flow.get("peak", 0):
            self.peak = peak_of(flow, now)
        if any(flow.get(it, 0) != self.flow.get(it, 0) for it in ("reserved", "reserved_burst")):
            self.reserved = reserved_of(flow, now)
        self.flow = flow

    def hears(self, speaks):
        """What came in a voice grant, or that nothing came."""
        self.silent = 0 if speaks else self.silent + 1

    def rest(self):
        self.rests, self.silent = True, 0

    def wake(self):
        self.rests, self.silent, self.voice_at = False, 0, None

    def voice(self, start):
        """A voice grant. It is late where it comes after more than an interval and its jitter."""
        self.granted += self.flow["size"]
        between = self.flow["interval_us"] + self.flow["jitter_us"]
        if self.voice_at is not None and (start - self.voice_at) * 25 * self.config["ticks"] > 4 * between:
            self.late += 1
        self.voice_at = start

    def begins_frame(self, start):
        """A frame starts, and is counted where the flow waits under its reservation: that has room for the quantum, or
        for less where that is all."""
        wanted = min(self.outstanding(), self.config["quantum"])
        if self.reserved.rate and 0 < wanted <= self.reserved.allows(self.config["ticks"], start):
            self.under += 1

    def grant(self, start, slots):
        """The bytes of a data grant: what it carries, as far as they were asked for and the ceilings let them. Where
        the reservation has room for the quantum, or for less where that is all, the grant is of it and within it."""
        room = (slots - self.config["overhead"]) * self.config["bytes_per_slot"]
        count = min(self.outstanding(), room, self.config["grant_cap"], *self.ceilings(start))
        reserved = self.reserved.allows(self.config["ticks"], start)
        if self.reserved.rate and reserved >= min(self.outstanding(), self.config["quantum"]):
            count = min(count, reserved)
            self.reserved.take(count)
        self.rate.take(count)
        self.peak.take(count)
        self.granted += count
        while self.unserved and self.unserved[0][0] <= self.granted:
            self.delays.append(start + slots - self.unserved.popleft()[1])
        return count

    def ceilings(self, start):
        """How many bytes each ceiling allows at a minislot; a rate or a peak of 0 is none."""
        return [it.allows(self.config["ticks"], start) for it in (self.rate, self.peak) if it.rate]

    def waited(self, now, least):
        """How many requests were served or wait now, and how many of them took as long as this."""
        waiting = [] if self.last else [now - heard for _, heard in self.unserved]
        return len(self.delays) + len(waiting), sum(it >= least for it in (*self.delays, *waiting))

    def told(self, now, has_replaced):
        told = {"asked": self.asked, "asks": self.asks, "delay": summary(self.delays), "dropped": len(self.unserved),
                "from": self.first, "granted": self.granted, "kind": self.flow["kind"],
                "outstanding": self.outstanding(), "served": len(self.delays), "sid": self.sid, "to": self.last,
                "waiting": 0}
        if has_replaced:
            told["replaced"] = self.replaced
        if self.last is None:
            told.update(dropped=0, to=now, waiting=len(self.unserved))
        if self.flow["kind"] == "best_effort":
            told["priority"] = self.flow["priority"]
        if self.reserved.rate:
            told["under"] = self.under
        return told


class Counts:
    """The whole channel."""

    def __init__(self, config):
        self.config, self.lives, self.live = config, [], {}
        self.calls, self.refused, self.use = Counter(), Counter(), Counter()
        self.frames = self.skips = 0
        self.first = self.last = None
        self.requests, self.blocked = Counter(), 0
        self.grants = self.sent = self.room = self.missed = 0

    def called(self, name, refusal):
        self.calls[name] += 1
        if refusal is not None:
            self.refused[refusal] += 1

    def begins(self, sid, flow, now):
        self.live[sid] = Life(self.config, sid, flow, now)
        self.lives.append(self.live[sid])
        return self.live[sid]

    def ends(self, sid, now):
        self.live.pop(sid).last = now

    def frame(self, start):
        self.frames += 1
        self.first = start if self.first is None else self.first
        self.last = start + self.config["frame"]
        for life in self.live.values():
            life.begins_frame(start)

    def has_replaced(self):
        """Whether a request came in the place of those before: only then it is told what was replaced."""
        return any(life.replaces for life in self.lives)

    def rank(self, rank):
        lives = [life for life in self.lives if rank_of(life.flow) == rank]
        told = [life.told(None, self.has_replaced()) for life in lives]
        names = ["asks", "dropped", "granted", "served", "waiting", *(["replaced"] if self.has_replaced() else [])]
        sums = {name: sum(one[name] for one in told) for name in names}
        delays = [delay for life in lives for delay in life.delays]
        return {**sums, "delay": summary(delays), "rank": "polled" if rank == 8 else rank}

    def starved(self, now, least):
        """The part that polled flows have of all bytes that were granted to who asks; and, where it is above a half,
        the ranks behind them of whose requests a tenth takes as long as this."""
        lives = [(rank_of(life.flow), life) for life in self.lives]
        granted = {True: 0, False: 0}
        for rank, life in lives:
            granted[rank == 8] += life.granted if rank is not None else 0
        part, late = granted[True] / max(1, sum(granted.values())), []
        for rank in sorted({rank for rank, _ in lives if rank is not None and rank < 8}, reverse=True):
            asks, slow = map(sum, zip(*(life.waited(now, least) for its, life in lives if its == rank)))
            late += [(rank, slow, asks)] if part > 0.5 and 10 * slow >= asks > 0 else []
        return part, late

    def uses(self):
        """What minislots may be for: idle ones are told apart where they may be open to requests."""
        return (*USES, "open") if self.config.get("open_idle") else USES

    def report(self, now):
        asked = {rank_of(life.flow) for life in self.lives if life.asks}
        calls = [*CALLS, *(name for name in MORE_CALLS if self.calls[name])]
        return {"calls": {name: self.calls[name] for name in calls}, "frames": self.frames, "from": self.first,
                "lives": [life.told(now, self.has_replaced()) for life in self.lives],
                "priorities": [self.rank(rank) for rank in sorted(asked, reverse=True)],
                "refused": {str(number): count for number, count in self.refused.items()}, "skips": self.skips,
                "to": self.last, "use": {use: self.use[use] for use in self.uses()}}
