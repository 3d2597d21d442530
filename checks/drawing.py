"""Scripts that are drawn call by call, where the plain scheduler (plain.py) stands, so that they meet what a run can
meet; and the text of their histories. A third of the channels have burst profiles (drawn_bursts.py)."""

from drawn_bursts import profile, with_bursts
from plain import ALL_MODEMS, HEADING, LAST_CLOCK, MOST_BYTES, PRIORITIES, RESERVATION, SIDS, Scheduler, line_of
from texts import LEFT_OUT, LIMITS, MISSING, PROFILES, completed


def shuffled(draw, members):
    """An object with its members in any order."""
    names = [*members]
    draw.shuffle(names)
    return {name: members[name] for name in names}


# The usages of opportunities, those first that come more often; and the SIDs at which the ranges of theirs begin and
# end, and those beside.
USAGES = ["initial"] * 4 + ["station"] * 4 + ["request", "quiet", "data", "initial_to"] * 2
EDGES = [0, 1, 8191, 8192, 15872, 15873, 16127, 16128, ALL_MODEMS - 1, ALL_MODEMS, 2**16 - 1]


def best_effort(priority):
    """A best effort flow without a ceiling."""
    return {"kind": "best_effort", "priority": priority, "rate": 0, "burst": 0}


class Drawing:
    """A script that is drawn call by call, where the plain scheduler stands."""

    MORE, FRAMES = (0, 30, 150, 300), (16, 40, 64, 100, 150, 256)

    def __init__(self, random_numbers):
        self.draw = random_numbers
        self.config = self.with_idles(self.drawn_config())
        self.told = self.spelled()
        self.plain = Scheduler(self.config)
        self.sids = [self.draw.randint(1, 8191) for _ in range(self.draw.choice([3, 12, 12, 100]))]
        # how many best effort flows of ten have a reservation
        self.reserving = self.draw.choice([0, 0, 1, 5])
        self.admissions, self.builds = self.draw.choice([4, 4, 60]), self.draw.choice([6, 6, 6, 60])
        kinds = ["best_effort", "polled", "unsolicited"]
        self.kinds = self.draw.choice([kinds, kinds + kinds[:1] * 6, kinds[1:], kinds[2:]])
        self.ranging = self.draw.choice([[], ["reserve"] * 3 + ["header"], ["reserve"] * 24 + ["header"]])
        self.ranging = self.ranging + ["header"] * ("settle" in self.config)
        few = ["replace"] * 3 + ["change"] * 3 + ["rest", "wake"]
        self.changing = self.draw.choice([[], [], few, few * 3])
        edges = self.edges()
        self.counts = [1, 64, 100, 544, 1522, 3000, 9000, 100000, MOST_BYTES, *edges]
        self.sizes = self.draw.choice([[0, 1, 20, 60, 60, 200, 200, 5000], [1, 1, 8], [*edges, 20]])
        room = self.config["frame"] - self.config["req_slots"]
        self.asked = self.asked_minislots(room)
        self.usages = self.draw.choice([USAGES, USAGES, USAGES[:8]])
        # one in three is as long as bursts are
        bursts = [self.plain.bursts.length(it) for it in (1, 64, 100, *edges)]
        self.lengths = self.draw.choice([[1, 2, 4, 4, 8, room // 3, room - 1, room, room, room + 1, 0, 2**32 - 1],
                                         [1, 1, 1, 2], [3, 4, 6, 10], [*bursts, *(it - 1 for it in bursts)]])

    def edges(self):
        """Two numbers of bytes at which a burst gets longer or is sent by another profile, each with the next one."""
        sent = [(self.plain.bursts.length(it), self.plain.bursts.usage(it)) for it in range(1600)]
        last = [it for it in range(1, 1599) if sent[it] != sent[it + 1]]
        return [it + more for it in self.draw.sample(last, min(2, len(last))) for more in (0, 1)]

    def asked_minislots(self, room):
        """Numbers of minislots that a request asks for: mostly such as carry some bytes, beside those that carry none,
        the last that do not carry too many, and the first that do."""
        length = self.plain.bursts.length
        least, most = length(1), length(MOST_BYTES + 1) - 1
        edges = [least, least - 1, 0, most, most + 1, 2**32 - 1]
        return [*range(least, least + 8), *[length(it) for it in self.counts[1:5]] * 2, room, 2 * room, *edges]

    def spelled(self):
        """The configuration as the script has it, of which the history writes another text: a field or a profile may be
        missing or not, fields that nobody reads beside bursts stand there, and the keys are in any order."""
        told, draw = {**self.config}, self.draw
        if "bursts" in told:
            bursts = told["bursts"]
            bursts = shuffled(draw, {"unsolicited": bursts["long"], **bursts} if draw.random() < 0.5 else bursts)
            unread = [{}, {"overhead": "x"}, {"bytes_per_slot": None, "overhead": [2]}, {"bytes_per_slot": 0}]
            told |= {"bursts": bursts, **draw.choice(unread)}
        elif told["phy"] == 0 and draw.random() < 0.5:
            del told["phy"]
        told |= {name: MISSING[name] for name in LEFT_OUT if name not in told and draw.random() < 0.3}
        return shuffled(draw, told)

    def drawn_config(self):
        """The configuration as the history has it."""
        config = self.drawn_sizes()
        return with_bursts(self.draw, config) if self.draw.random() < 0.34 else config

    def drawn_sizes(self):
        draw = self.draw
        frame = draw.choice(self.FRAMES)
        overhead, per_slot = draw.randint(1, 4), draw.choice([8, 16, 32, 64, 100])
        region = draw.randint(1, min(8, frame - overhead - 9))
        quantum = draw.randint(64, max(64, min(1522, (frame - region - overhead) * per_slot)))
        if overhead + -(-quantum // per_slot) > frame - region:
            per_slot, quantum = 100, 64
        return {
            "ticks": draw.choice([1, 2, 4, 8, 16]), "bytes_per_slot": per_slot, "overhead": overhead, "frame": frame,
            "cycle": draw.choice([1, 2, 4, 6, 12, 20, 64]), "req_slots": region, "poll_slots": draw.randint(1, 3),
            "lead": draw.choice([0, frame, 4096 - 2 * frame]), "short_max": draw.randint(0, frame),
            "quantum": quantum, "grant_cap": draw.randint(quantum, 5 * quantum), "receivers": draw.randint(1, 3),
            "calls": draw.choice([40, *[1000] * 6]), "start": frame * draw.choice([0, 20, 2**31 // frame, 10**12]),
            "ranging_start": draw.randint(0, 15), "ranging_end": draw.randint(0, 15), "data_start": draw.randint(0, 15),
            "data_end": draw.randint(0, 15), "channel": draw.randint(0, 255), "ucd_count": draw.randint(0, 255),
            "phy": draw.randint(0, 1), **self.drawn_limits(),
        }

    def drawn_limits(self):
        """The limits that are others than those of missing fields."""
        draw = self.draw
        limits = {"flows": draw.choice([64, 64, 63, 65, 8191]), "pending": draw.choice([64, 64, 63, 65, 125])}
        limits |= {"periodic": draw.choice([40, 40, 39, 41, 2560])}
        return {name: number for name, number in limits.items() if number != MISSING[name]}

    def with_idles(self, config):
        """The configuration with idles that are open or not, and MAPs that settle or not behind a change of the UCD
        count: for less than a frame, for one or for several, to the minislot."""
        draw, frame = self.draw, config["frame"]
        some = [1, frame - 1, frame, frame, frame + 1, frame + 1, 2 * frame, 2 * frame + 1, 3 * frame]
        settle = draw.choice([0] * 10 + some + [draw.choice([draw.randint(1, 5 * frame), 4096])])
        return completed({**config, "open_idle": draw.randint(0, 1), "settle": min(settle, 4096)})

    def times(self):
        """An interval of whole frames that part the cycle, or mostly so, and a jitter."""
        quarters = 25 * self.config["ticks"]
        frames = self.draw.choice([it for it in range(1, 65) if self.config["cycle"] % it == 0])
        frames = self.draw.choice([frames] * 12 + [0, 65, frames * 3])
        micros = frames * self.config["frame"] * quarters / 4
        interval = int(micros) + (self.draw.random() < 0.05) * self.draw.randint(1, 60)
        return {"interval_us": interval, "jitter_us": self.draw.choice([0, 0, 50, 400, 3000]) * quarters // 100}

    def ceiling(self):
        rate = self.draw.choice([0, 0, 64000, 300000, 5000000])
        burst = self.draw.choice([self.config["quantum"], 1522, 5000, 100000])
        return {"rate": rate, "burst": burst if self.draw.random() < 0.95 else 63, **self.peak(rate)}

    def peak(self, rate):
        """A peak in one of three: none at all, one that brings next to nothing, or one below the rate, at it or above
        it."""
        if self.draw.random() < 0.67:
            return {}
        return {"peak": self.draw.choice([0, 0, 1, 8000, 64000, 64001, rate // 2, rate, 3 * rate, 5000000, 2**32 - 1])}

    def reservation(self):
        """The minimum reserved rate of some flows: mostly one that brings the quantum in a frame, in a few, or in less
        than one, with a burst of the quantum or of a few; in some a number is missing, or the burst is too low."""
        if self.draw.random() >= self.reserving / 10:
            return {}
        config, quantum, draw = self.config, self.config["quantum"], self.draw
        in_frame = 1280000 * quantum // (config["frame"] * config["ticks"])
        rate = draw.choice([2 * in_frame, in_frame, *[in_frame // 2, in_frame // 3] * 2, in_frame // 7])
        rate = draw.choice([min(rate, 2**32 - 1)] * 9 + [0, 1, 64000, 2**32 - 1])
        more = [1, 17, quantum, 2 * quantum, 1522, 10**5]
        burst = draw.choice([*[quantum] * 4, *(quantum + it for it in more)])
        numbers = {"reserved": rate, "reserved_burst": burst if draw.random() < 0.96 else quantum - 1}
        if draw.random() < 0.03:
            del numbers[draw.choice([*numbers])]
        return numbers

    def flow(self):
        return self.flow_of(self.draw.choice(self.kinds))

    def flow_of(self, kind):
        if kind == "best_effort":
            return {"kind": kind, "priority": self.draw.choice([*range(8)] * 8 + [8, 255]),
                    **self.ceiling(), **self.reservation()}
        if kind == "polled":
            return {"kind": kind, **self.times(), **self.ceiling()}
        flow = {"kind": kind, "size": self.draw.choice(self.sizes), **self.times()}
        return flow if self.draw.random() < 0.4 else {**flow, "grants": self.draw.choice([0, 1, 1, 1, 2, 2, 3, 8, 9])}

    def sid(self, is_live):
        """An SID that is live or not, mostly, as is wanted."""
        wanted = [it for it in self.sids if (it in self.plain.flows) == is_live]
        if self.draw.random() < 0.04:
            return self.draw.choice([0, 8192, 65535, 4711])
        return self.draw.choice(wanted if wanted and self.draw.random() < 0.95 else self.sids)

    def clock(self):
        """A time at which the next frame can be built, or mostly so."""
        just = self.plain.next - self.config["lead"]
        early = max(0, self.plain.next + self.config["frame"] - 4096)
        times = [max(0, just)] * 6 + [early, max(0, early - 1), max(0, just) + 1, LAST_CLOCK + 1, max(0, just - 3)]
        return self.draw.choice(times)

    def receiver(self):
        return self.draw.choice([*range(self.config["receivers"])] * 8 + [self.config["receivers"], 255])

    def near(self, receiver):
        """A minislot round the receiver's progress and the next frame."""
        of = self.plain.progress[receiver] if receiver < self.config["receivers"] else self.config["start"]
        end = self.plain.next
        between = self.draw.randint(min(of, end), end)
        return max(0, self.draw.choice([of, of, end - 1, end - 1, of - 1, end, end + 1, between]))

    def next_call(self):
        receiver, kinds = self.receiver(), ["ask"] * 9 + ["build"] * self.builds
        kinds += ["admit"] * self.admissions + ["heard"] * 2
        kind = self.draw.choice(kinds + ["status", "status", "remove", "skip"] + self.ranging + self.changing)
        if kind == "admit":
            return {"call": kind, "sid": self.sid(False), "flow": self.flow()}
        if kind in ("remove", "status"):
            return {"call": kind, "sid": self.sid(True)}
        if kind in ("ask", "replace"):
            asked = {"sid": self.sid(True), **self.amount(kind)}
            return {"call": kind, "receiver": receiver, **asked, "heard": self.near(receiver)}
        if kind == "change":
            return self.change(self.sid(True))
        if kind in ("rest", "wake"):
            return {"call": kind, "sid": self.unsolicited()}
        if kind == "heard":
            return {"call": kind, "receiver": receiver, "upto": self.near(receiver)}
        if kind == "reserve":
            return self.reserve()
        if kind == "header":
            return self.header()
        late = self.draw.choice([0, 0, 1, 1, 2, 3]) * self.config["frame"] if kind == "skip" else 0
        return {"call": kind, "now": self.clock() + late}

    def change(self, sid):
        """A change of some parameters of a live flow, or of all, mostly to those of its kind."""
        drawn, live = self.flow(), self.plain.flows.get(sid)
        if live and self.draw.random() < 0.9:
            drawn = self.flow_of(live.kind)
            names = [it for it in drawn if self.draw.random() < self.draw.choice([0.1, 0.3, 0.6])]
            drawn = {**live.spec, **{it: drawn[it] for it in names}}
        return {"call": "change", "sid": sid, "flow": drawn}

    def unsolicited(self):
        """An SID, mostly that of a live flow of unsolicited grants."""
        wanted = [sid for sid, flow in self.plain.flows.items() if flow.kind == "unsolicited"]
        return self.draw.choice(wanted) if wanted and self.draw.random() < 0.8 else self.sid(True)

    def amount(self, kind="ask"):
        """How much a request asks for: bytes, and one in five minislots. One that replaces others may ask for none."""
        if kind == "replace" and self.draw.random() < 0.25:
            return {"bytes": 0}
        if self.draw.random() < 0.2:
            return {"slots": self.draw.choice(self.asked)}
        count = self.draw.choice(self.counts)
        return {"bytes": count if self.draw.random() < 0.97 else self.draw.choice([0, MOST_BYTES + 1, 2**32 - 1])}

    def reserve(self):
        """A Reserve, mostly short and of a length that a frame has."""
        usage = self.draw.choice(self.usages)
        to = {"sid": self.sid_for(usage)} if SIDS[usage] else {}
        return {"call": "reserve", "usage": usage, **to, "slots": self.draw.choice(self.lengths)}

    def lawful_reserve(self, slots):
        """A Reserve of so many minislots, of any usage, whose SID is lawful."""
        usage = self.draw.choice(self.usages)
        to = {"sid": self.draw.choice(self.draw.choice(SIDS[usage]))} if SIDS[usage] else {}
        return {"call": "reserve", "usage": usage, **to, "slots": slots}

    def sid_for(self, usage):
        """Whom an opportunity goes to: a modem whose flow lives or not; requests may go to those of a priority or all,
        and go often to a modem whose flow rests."""
        drawn = self.draw.random()
        if drawn < 0.15:
            return self.draw.choice(EDGES)
        resting = [sid for sid, flow in self.plain.flows.items() if flow.rests]
        if usage == "request" and resting and drawn < 0.5:
            return self.draw.choice(resting)
        if usage == "request" and drawn < 0.65:
            return self.draw.choice([*PRIORITIES, *[ALL_MODEMS] * 300])
        return self.sid(self.draw.random() < 0.5)

    def header(self):
        """A header: its UCD count may be that of the last header or of the configuration."""
        drawn = {key: self.draw.choice([*range(16)] * 3 + [16, 255]) for key in HEADING}
        last, own = self.plain.heading["ucd_count"], self.config["ucd_count"]
        return {"call": "header", **drawn, "ucd_count": self.draw.choice([*[drawn["ucd_count"]] * 3, last, own])}

    def build(self):
        """A build of the next frame, which is not refused."""
        return {"call": "build", "now": max(0, self.plain.next - self.config["lead"])}

    def begun(self):
        """The calls before those that are drawn one by one."""
        return iter(())

    def calls(self):
        if "settle" in self.config and self.draw.random() < 0.2:
            yield self.header()
        yield from self.begun()
        for _ in range(self.draw.choice(self.MORE)):
            yield self.next_call()

    def play(self):
        """The calls of the script and the plain scheduler's lines."""
        calls, lines = [], []
        for call in self.calls():
            calls.append(call)
            lines.append(line_of(self.plain.call(call)))
        return calls, lines


class Changing(Drawing):
    """A script on a channel on which few grants and polls may be in an interval, and few of them have room in a frame,
    whose flows are often changed and often rest, and that may show only some of those that wait."""

    MORE, FRAMES = (100, 200), (16, 40, 40, 64)

    def __init__(self, random_numbers):
        super().__init__(random_numbers)
        self.sids, self.admissions, self.builds = self.sids[: self.draw.randint(3, 8)], 6, 8
        self.changing = ["replace"] * 6 + ["change"] * 16 + ["rest"] * 6 + ["wake"] * 2
        self.ranging = self.ranging and self.draw.choice([self.ranging, ["reserve"] * 12 + ["header"]])
        self.usages, self.lengths = self.usages + ["request"] * 8, self.lengths + [1, 2, 2, 2, 4, 4]
        self.kinds = self.draw.choice([["best_effort"], ["unsolicited"], ["unsolicited", "polled", "best_effort"]])
        most = self.plain.capacity(self.config["frame"] - self.config["req_slots"])
        self.sizes = [1, 1, *(max(1, most * parts // 12) for parts in (1, 3, 4, 6, 9, 12))]
        self.counts = [1, 64, 100, *(max(1, most * parts // 4) for parts in (1, 1, 2, 3, 4, 5, 8, 20))]

    def reserve(self):
        """Often requests of a modem whose flow rests, in the minislots of a poll."""
        resting = [sid for sid, flow in self.plain.flows.items() if flow.rests]
        if resting and self.draw.random() < 0.4:
            slots = self.config["poll_slots"]
            return {"call": "reserve", "usage": "request", "sid": self.draw.choice(resting), "slots": slots}
        return super().reserve()

    def drawn_limits(self):
        limits = {"periodic": self.draw.choice([2, 3, 5, 8]), "pending": self.draw.choice([1, 2, 64])}
        return {name: number for name, number in limits.items() if number != MISSING[name]}


class Reserving(Drawing):
    """A script on a channel whose best effort flows have reservations, most of them, and ask for more than their frames
    have room for, some of which are polled; they are often changed, or removed and admitted again."""

    MORE, FRAMES = (100, 200, 300), (40, 40, 64, 100)

    def __init__(self, random_numbers):
        super().__init__(random_numbers)
        draw = self.draw
        self.sids, self.admissions, self.reserving = self.sids[: draw.randint(2, 6)], 4, draw.choice([5, 8, 10])
        self.builds, self.ranging = draw.choice([12, 24]), draw.choice([[], [], ["header"] * 2])
        self.changing = draw.choice([[], ["replace"] * 2 + ["change"] * 3, ["change"] * 6])
        self.kinds = ["best_effort"] * draw.choice([4, 8, 16]) + draw.choice([["polled"], ["polled", "unsolicited"]])
        most = self.plain.capacity(self.config["frame"] - self.config["req_slots"])
        self.counts = [1, 16, 64, 100, *(max(1, most * parts // 4) for parts in (1, 2, 3, 4, 8, 8, 20, 40))]

    def drawn_sizes(self):
        """A quantum of which a frame has room for several, mostly, and a request region that leaves it."""
        sizes = super().drawn_sizes()
        room = (sizes["frame"] - sizes["req_slots"] - 4) * sizes["bytes_per_slot"]
        quantum = min(sizes["quantum"], max(64, room // self.draw.choice([1, 3, 5, 8])))
        caps = [quantum, 2 * quantum, 5 * quantum, 100 * quantum]
        return {**sizes, "quantum": quantum, "grant_cap": self.draw.choice(caps)}

    def ceiling(self):
        """One flow in three has a ceiling, near its reservation."""
        if self.draw.random() < 0.65:
            return {"rate": 0, "burst": 0, **self.peak(0)}
        in_frame = 1280000 * self.config["quantum"] // (self.config["frame"] * self.config["ticks"])
        rate = self.draw.choice([in_frame // 4, in_frame // 2, in_frame, 2 * in_frame, 5 * in_frame])
        burst = self.config["quantum"] * self.draw.choice([1, 2, 3])
        return {"rate": min(rate, 2**32 - 1), "burst": burst, **self.peak(min(rate, 2**31))}

    def change(self, sid):
        """One in two is of some of the numbers of its ceilings and its reservation alone, or takes it away."""
        live = self.plain.flows.get(sid)
        if live is None or live.kind != "best_effort" or self.draw.random() < 0.5:
            return super().change(sid)
        drawn = {"peak": self.draw.choice([0, 5000000, 2**32 - 1]), **self.flow_of(live.kind)}
        if self.draw.random() < 0.1:
            # names no reservation
            told = {name: it for name, it in live.spec.items() if name not in RESERVATION}
            return {"call": "change", "sid": sid, "flow": told}
        names = self.draw.choice([["reserved"], ["reserved_burst"], ["rate"], ["burst"], ["peak"], ["priority"],
                                  ["reserved", "reserved_burst"], ["reserved", "rate"]])
        return {"call": "change", "sid": sid, "flow": {**live.spec, **{it: drawn[it] for it in names if it in drawn}}}


class Blocked(Drawing):
    """A script that begins with Reserves for which a poll in each frame leaves no room, and as many MAPs as let them
    lapse, or nearly so; MAPs that settle may stand between."""

    def drawn_config(self):
        return {**super().drawn_config(), "calls": 1000, "ticks": 4, "cycle": 1}

    def with_idles(self, config):
        """MAPs settle in most."""
        drawn, some = super().with_idles(config), self.draw.choice([0, 1, config["frame"], config["frame"] + 1])
        return drawn if "settle" in drawn else completed({**drawn, "settle": some})

    def begun(self):
        frame, region = self.config["frame"], self.config["req_slots"]
        times = {"interval_us": 25 * frame, "jitter_us": 0}
        yield {"call": "admit", "sid": 8191, "flow": {"kind": "polled", **times, "rate": 0, "burst": 0}}
        for _ in range(self.draw.choice([1, 15, 16, 17, 40, 65])):
            yield self.lawful_reserve(frame - region)
        last = self.plain.maps + self.draw.choice([62, 63, 63, 64, 65])
        headers = self.draw.sample(range(62), 3) if "settle" in self.config else []
        for number in range(300):
            if self.plain.maps == last:
                break
            if number in headers:
                yield self.header()
            yield self.build()
            if self.draw.random() < 0.1:
                yield self.lawful_reserve(self.draw.randint(1, 4))
        if self.draw.random() < 0.6:
            yield {"call": "remove", "sid": 8191}
            yield self.build()


class Crowded(Drawing):
    """A script that begins with forty polls, each behind a minislot or more that is nobody's, 64 flows that ask, and up
    to sixteen Reserves: its MAP has up to 240 elements."""

    MORE, FLOWS = (0, 10, 30), 64

    def drawn_config(self):
        frame = self.draw.randint(260, 320)
        sizes = {"frame": frame, "req_slots": 1, "poll_slots": 1, "cycle": 2, "quantum": 64, "grant_cap": 64}
        times = {"ticks": 4, "start": 11 * frame, "lead": frame}
        config = {**self.drawn_sizes(), **sizes, **times, "calls": 1000, "bytes_per_slot": 64, "overhead": 1}
        return completed({**config, "bursts": self.bursts()} if self.draw.random() < 0.34 else config)

    def bursts(self):
        """Profiles by which each burst has a minislot beside those of 64 bytes each."""
        guard = self.draw.randint(1, 64)
        numbers = {"bits": 8, "parity": 0, "preamble": 64 - guard, "guard": guard}
        return {"symbols": 64, **{name: profile(self.draw, **numbers) for name in PROFILES}}

    def admit(self, sid, frames, jitter, **flow):
        times = {"interval_us": 25 * self.config["frame"] * frames, "jitter_us": 25 * jitter}
        return {"call": "admit", "sid": sid, "flow": {**times, **flow}}

    def polled(self, sid, jitter=0):
        return self.admit(sid, 1, jitter, kind="polled", rate=0, burst=0)

    def begun(self):
        """A grant that is removed again keeps the minislots before a poll free. The last poll but one is elsewhere in
        the other frame of the cycle, where it keeps the last from the first minislot."""
        yield self.build()
        for sid in range(40, 2, -1):
            yield self.admit(100, 1, 0, kind="unsolicited", size=64 * (2 * sid - 2))
            yield self.polled(sid)
            yield {"call": "remove", "sid": 100}
        yield self.admit(100, 2, 0, kind="unsolicited", size=128)
        yield self.polled(2, 3)
        yield {"call": "remove", "sid": 100}
        yield self.polled(1)
        for sid in range(41, self.FLOWS + 1):
            flow = {"kind": "best_effort", "priority": 7, "rate": 0, "burst": 0}
            yield {"call": "admit", "sid": sid, "flow": flow}
        heard = self.plain.next - 1
        for sid in range(1, self.FLOWS + 1):
            yield {"call": "ask", "receiver": 0, "sid": sid, "bytes": 6400, "heard": heard}
        slots = self.draw.choice([[2], [2, 2, 2, 1, 3], [2, self.config["frame"] - 1]])
        for _ in range(self.draw.choice([0, 1, 15, 16, 17, 20])):
            yield self.lawful_reserve(self.draw.choice(slots))
        yield self.build()
        yield self.build()


class Limited(Drawing):
    """A script on a channel that says how many flows may live, how many a MAP shows and how many grants and polls an
    interval has: mostly few, so that many flows wait that are not shown. It hears more, and half of them begin near a
    wrap of the minislots on the wire."""

    MORE = (60, 150, 300)

    def __init__(self, random_numbers):
        super().__init__(random_numbers)
        if self.draw.random() < 0.8:
            self.kinds = ["best_effort"] * 8 + ["polled", "unsolicited"]
            self.builds, self.admissions = 6, self.draw.choice([4, 12])
            # in each frame there is room for some of what is asked for
            most = self.plain.capacity(self.config["frame"] - self.config["req_slots"])
            self.counts = [1, 16, 64, 100, *(max(1, most * parts // 4) for parts in (1, 1, 2, 3, 4, 5, 8, 20))]
        self.hears = self.draw.choice([0.05, 0.15, 0.25])

    def limits(self):
        """Limits of which any may be missing."""
        few = {"flows": [1, *range(2, 7), 5, 6, 6, 6], "pending": [1, 1, 1, 1, 2, 2, 3, 4], "periodic": [*range(6)]}
        return {name: self.draw.choice(most) for name, most in few.items() if self.draw.random() < 0.85}

    def drawn_config(self):
        config = {**super().drawn_config(), **self.limits()}
        if self.draw.random() < 0.4:
            config["grant_cap"] = config["quantum"]
        if self.draw.random() < 0.5:
            config["start"] = config["frame"] * (2**32 // config["frame"] - self.draw.choice([0, 1, 1, 2, 3, 6]))
        return completed(config)

    def spelled(self):
        """A limit stands there too where it is what a text means that lacks it."""
        told = super().spelled()
        said = {name: most for name, most in LIMITS.items() if name not in told and self.draw.random() < 0.3}
        return shuffled(self.draw, {**told, **said})

    def next_call(self):
        drawn, receiver = self.draw.random(), self.receiver()
        if drawn < self.hears:
            upto = self.near(receiver) if self.draw.random() < 0.5 else self.plain.next
            return {"call": "heard", "receiver": receiver, "upto": upto}
        asking = [sid for sid, flow in self.plain.flows.items() if flow.kind != "unsolicited"]
        return self.request(self.draw.choice(asking)) if drawn < 0.5 and asking else super().next_call()

    def request(self, sid):
        """A request that is not refused, but for its bytes."""
        receiver = self.draw.randrange(self.config["receivers"])
        least, last = self.plain.progress[receiver], self.plain.next - 1
        heard = self.draw.randint(min(least, last), last)
        kind = self.draw.choice(["ask"] * 3 + (["replace"] if self.changing else []))
        return {"call": kind, "receiver": receiver, "sid": sid, **self.amount(kind), "heard": max(0, heard)}


class Settling(Limited):
    """A script on a channel on which MAPs settle, whose headers often have another count, or that of one before, and
    that often leaves frames out."""

    MORE, FRAMES = (60, 150), (16, 40, 40, 64)

    def __init__(self, random_numbers):
        super().__init__(random_numbers)
        self.ranging = ["header"] * 4 + ["skip"] * 3 + ["reserve"] * self.draw.choice([0, 1, 3])
        self.builds, self.changing = 16, ["rest", "wake"]
        self.kinds = self.draw.choice([["best_effort"], ["best_effort", "polled", "unsolicited"]])

    def limits(self):
        return {"pending": self.draw.choice([1, 1, 2, 64])}

    def with_idles(self, config):
        frame = config["frame"]
        frames = self.draw.choice([frame, 2 * frame, 3 * frame, 6 * frame])
        settle = self.draw.choice([1, frame - 1, frames, frames, frames + 1])
        return completed({**config, "open_idle": self.draw.randint(0, 1), "settle": settle})

    def header(self):
        own = self.config["ucd_count"]
        return {**super().header(), "ucd_count": self.draw.choice([own, own, own ^ 1, own ^ 1, own ^ 128])}


class Waiting(Limited):
    """A script that begins with up to 300 flows of which more ask than a MAP shows, in any order, with small requests
    and large ones, and with grants and polls in most minislots of a frame."""

    MORE, MOST, FRAMES = (0, 20, 60), 320, (150, 256, 400)

    def limits(self):
        flows = self.draw.choice([70, 130, 200, 300, 8191])
        limits = {"flows": flows, "pending": self.draw.choice([1, 8, 63, 64, 64, 64, 65, 90, 125])}
        return {**limits, "periodic": self.draw.choice([0, 39, 41, 60, 2560])}

    def drawn_sizes(self):
        """Frames in which more polls have room than may stand there."""
        sizes = super().drawn_sizes()
        frame = sizes["frame"]
        times = {"lead": self.draw.choice([0, frame]), "start": frame * self.draw.choice([0, 20, 10**12])}
        return {**sizes, "poll_slots": 1, "ticks": 4, "calls": 3000, **times}

    def polls(self):
        """As many polls as frames may have and some more, or a few, and a flow with several grants in an interval."""
        frames = self.draw.choice([1, 2 - self.config["cycle"] % 2])
        times = {"interval_us": 25 * self.config["frame"] * frames, "jitter_us": 0}
        late = {**times, "jitter_us": 25 * self.config["frame"], "grants": self.draw.randint(1, 8)}
        for sid in range(8191, 8191 - self.draw.choice([0, 5, 42 * frames]), -1):
            yield {"call": "admit", "sid": sid, "flow": {"kind": "polled", **times, "rate": 0, "burst": 0}}
            if self.draw.random() < 0.04:
                yield {"call": "admit", "sid": 8000, "flow": {"kind": "unsolicited", "size": 1, **late}}

    def begun(self):
        yield self.build()
        yield from self.polls()
        self.sids = self.draw.sample(range(1, 7900), min(self.config.get("flows", 64), self.MOST) + 2)
        for sid in self.sids:
            ceiling = self.ceiling() if self.draw.random() < 0.1 else {"rate": 0, "burst": 0}
            ceiling |= self.reservation() if self.draw.random() < 0.2 else {}
            flow = {"kind": "best_effort", "priority": self.draw.choice([0, 3, 3, 3, 7]), **ceiling}
            yield {"call": "admit", "sid": sid, "flow": flow}
        for _ in range(self.draw.choice([2, 5])):
            some = self.draw.sample(self.sids, self.draw.choice([10, 60, len(self.sids)]))
            for sid in [*some, *range(8191, 8180, -1)]:
                heard = self.near(0) if self.draw.random() < 0.2 else self.plain.next - 1 - self.draw.randrange(10)
                count = self.draw.choice([1, 16, 64, 64, 100, 100, 300, 1522])
                yield {"call": "ask", "receiver": 0, "sid": sid, "bytes": count, "heard": max(0, heard)}
            for receiver in range(self.config["receivers"]):
                upto = max(0, self.plain.next - self.draw.choice([0, 0, 5, 10]))
                yield {"call": "heard", "receiver": receiver, "upto": upto}
            for _ in range(self.draw.choice([1, 1, 2, 3])):
                yield self.build()


class Thousands(Waiting):
    """The same with thousands of flows."""

    MORE, MOST = (100,), 7000

    def limits(self):
        flows = self.draw.choice([2000, 7000, 8191])
        return {"flows": flows, "pending": self.draw.choice([64, 125]), "periodic": self.draw.choice([60, 2560])}

    def drawn_sizes(self):
        return {**super().drawn_sizes(), "calls": 100000}

    def next_call(self):
        """What a script of this kind begins with comes first."""
        self.first = getattr(self, "first", None) or super().begun()
        return next(self.first, None) or super().next_call()

    def begun(self):
        return iter(())


class CrowdedMore(Crowded):
    """The same with more flows, of which a MAP shows another number."""

    def drawn_config(self):
        most = self.draw.choice([1, 63, 64, 65, 80, 125, 125])
        self.FLOWS = max(64, most) + self.draw.choice([0, 0, 1, 40])
        return completed({**super().drawn_config(), "flows": self.FLOWS + 1, "pending": most})


def limited_of(random_numbers):
    """A drawn script on a channel with other limits."""
    return random_numbers.choice([Limited] * 10 + [Waiting] * 3 + [CrowdedMore] * 2)(random_numbers)


def drawing_of(random_numbers):
    """A drawn script: of thirteen one changes its flows often, two have many reservations, one settles often, one
    begins so that Reserves lapse, and one so that its MAPs are crowded."""
    kinds = [Drawing] * 7 + [Changing, Settling, Blocked, Crowded] + [Reserving] * 2
    return random_numbers.choice(kinds)(random_numbers)


def as_written(entries):
    """Entries as a history has them: grants are always written, and a peak and the numbers of a reservation where they
    are above 0."""
    for entry in entries:
        flow = {**entry["call"].get("flow", {})}
        if flow.get("kind") == "unsolicited":
            flow = {"grants": 1, **flow}
        for name in ("peak", "reserved", "reserved_burst"):
            if flow.get(name) == 0:
                del flow[name]
        yield {**entry, "call": {**entry["call"], "flow": flow}} if flow else entry
