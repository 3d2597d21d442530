"""A plain scheduler: the rules of the profile read again, apart from the code that is proved. It keeps all grants of a
flow and goes through every window of them, tries every minislot for a placement (plain_places.py), and asks every flow
at each offset. It is slow, and says what the program has to say; and a plain auditor, which says what an audit has to
say."""

import copy
import itertools

from plain_bursts import Bursts, ceiling_of
from plain_places import Places
from texts import LIMITS, completed

ALL_MODEMS, REQUEST, INITIAL, STATION, NULL = 0x3FFF, 1, 3, 4, 7
# The most data grants of a MAP, and data and pending grants of one together.
MOST_GRANTS, MOST_TOGETHER = 93, 157
MOST_BYTES, LAST_CLOCK, AHEAD = 1048560, 2**60, 4096
MOST_RESERVES, MOST_WAITING, LAST_MAP = 64, 16, 64
# The SIDs that an opportunity of each usage may go to: those of modems, of requests of a priority, and of all modems.
# An opportunity of another usage has none.
MODEMS, PRIORITIES = range(1, 8192), range(15873, 16128)
SIDS = {name: [MODEMS] for name in ("initial_to", "station", "data")}
SIDS |= {"request": [MODEMS, PRIORITIES, [ALL_MODEMS]], "initial": [], "quiet": []}
HEADING = ["ucd_count", "ranging_start", "ranging_end", "data_start", "data_end"]
# The parameters that a flow's place in the cycle goes by, those of its rate ceiling, and the bytes of a peak's burst;
# those of its reservation, and the rank of a flow under that, which is that of a polled flow.
PLACING, CEILING, PEAK_BURST = ("interval_us", "jitter_us", "size", "grants"), ("rate", "burst"), 1522
RESERVATION, FIRST_RANK = ("reserved", "reserved_burst"), 8


class Flow:
    """A live flow: its parameters, what it asked, its data grants as (start, bytes), how many of them were before the
    present periods of its rate ceiling and its peak ceiling, those of the present period of its reservation that were
    given under it, its place in the cycle, and whether it rests. Its requests that wait are in two batches, each as
    (minislot at which it was heard, bytes asked with it)."""

    def __init__(self, spec):
        self.spec, self.kind, self.asked, self.grants = spec, spec["kind"], 0, []
        self.first, self.second = [], []
        self.phase = self.offset = self.interval = self.before = self.before_peak = 0
        self.starts, self.rests, self.reserved_grants = {}, False, []

    def changed(self, spec):
        """The flow with other parameters: it is awake, a ceiling or the reservation begins anew where a number of it is
        another, and it has no place where one of those is another that this goes by."""
        other = copy.copy(self)
        other.spec, other.rests = spec, False
        if any(spec.get(it) != self.spec.get(it) for it in CEILING):
            other.before = len(self.grants)
        if spec.get("peak", 0) != self.spec.get("peak", 0):
            other.before_peak = len(self.grants)
        if any(spec.get(it, 0) != self.spec.get(it, 0) for it in RESERVATION):
            other.reserved_grants = []
        if any(spec.get(it, 1) != self.spec.get(it, 1) for it in PLACING):
            other.starts = {}
        return other

    def ceilings(self):
        """Its ceilings: of each the rate, the burst, and the grants of its present period."""
        yield self.spec["rate"], self.spec["burst"], self.grants[self.before :]
        yield self.spec.get("peak", 0), PEAK_BURST, self.grants[self.before_peak :]

    def reservation(self):
        """The rate, the burst and the grants that its reservation is kept by: a rate of 0 where it has none."""
        has_one = self.kind == "best_effort"
        rate, burst = (self.spec.get(it, 0) if has_one else 0 for it in RESERVATION)
        return rate, burst, self.reserved_grants

    def grant(self, start, count, is_reserved):
        """A data grant, which may be one under its reservation."""
        self.grants.append((start, count))
        if is_reserved:
            self.reserved_grants.append((start, count))

    def granted(self):
        return sum(count for _, count in self.grants)

    def grants_since(self, start):
        """Its data grants from this minislot on, the last one first."""
        return list(itertools.takewhile(lambda it: it[0] >= start, reversed(self.grants)))

    def outstanding(self):
        return self.asked - self.granted()

    def ask(self, count, heard):
        """A request: it is the first batch alone where nothing was outstanding, and else joins the second."""
        is_first = self.outstanding() == 0
        self.asked += count
        if is_first:
            self.first, self.second = [(heard, self.asked)], []
        else:
            self.second.append((heard, self.asked))

    def replace(self, count, heard):
        """A request in the place of those before: it is the first batch alone, and none where it is for nothing."""
        self.asked = self.granted() + count
        self.first, self.second = [(heard, self.asked)] if count else [], []

    def move_on(self):
        """Behind a MAP the second batch becomes the first where all bytes asked with the first are granted."""
        if self.outstanding() == 0:
            self.first, self.second = [], []
        elif self.granted() >= self.first[-1][1]:
            self.first, self.second = self.second, []

    def since(self):
        """The least minislot at which a request of its batches was heard."""
        return min(heard for heard, _ in self.first + self.second)

    def last(self):
        """The start of its last grant, and a minislot before all where it has none."""
        return self.grants[-1][0] if self.grants else -1

    def rank(self, is_reserved=False):
        """Its rank, which is that of a polled flow where it is under its reservation."""
        return FIRST_RANK if is_reserved or self.kind == "polled" else self.spec["priority"]

    def each(self):
        """How many grants or polls it has in an interval."""
        return self.spec.get("grants", 1) if self.kind == "unsolicited" else 1


class Wanted:
    """An opportunity that was reserved: SID, usage code and minislots; how many MAPs came before that do not settle,
    and which one of them has it."""

    def __init__(self, sid, usage, slots, maps):
        self.sid, self.usage, self.slots, self.maps, self.met = sid, usage, slots, maps, None


# The lawful values of the fields that a history may lack, whose faults go on behind those of the fields before them.
LAWFUL = {"flows": (1, 8191), "pending": (1, 125), "periodic": (0, 2560), "open_idle": (0, 1), "settle": (0, 4096)}
FIRST_FAULT = 21


def fault_of(config):
    """The number of the first of these fields that is not lawful in a configuration, or none."""
    for number, (name, (least, most)) in enumerate(LAWFUL.items(), FIRST_FAULT):
        if not least <= config.get(name, LIMITS[name]) <= most:
            return number
    return None


class Refused(Exception):
    """That a call is refused, with the number of the refusal and what it tells."""


def refuse(number, *value):
    raise Refused(number, *value)


class Scheduler(Places):
    """The scheduler of a configuration, which is a lawful one. Each call gives the reply as a history has it."""

    # How many minislots a burst takes, how long a flow waits, and whom an opportunity may go to.
    Bursts, Flow, sids = Bursts, Flow, SIDS

    def __init__(self, config):
        self.config = completed(config)
        self.limits = {name: self.config.get(name, most) for name, most in LIMITS.items()}
        self.bursts = self.Bursts(self.config)
        self.frame, self.next = config["frame"], config["start"]
        self.progress = [config["start"]] * config["receivers"]
        self.flows, self.entries, self.reserves, self.maps = {}, [], [], 0
        self.heading = {key: config[key] for key in HEADING}
        # The UCD count of the MAP before, or the configuration's, and where MAPs start that have another.
        self.count_before, self.changes = config["ucd_count"], []

    def slots_for(self, count):
        return self.bursts.length(count)

    # The calls.

    def call(self, call):
        """The reply to a call, or None where the history is full."""
        if len(self.entries) == self.config["calls"]:
            return None
        try:
            reply = getattr(self, call["call"])(call)
        except Refused as refused:
            number, *value = refused.args
            reply = {"kind": "refused", "number": number, **({"value": value[0]} if value else {})}
        self.entries.append({"call": call, "reply": reply, "seat": 0, "ticket": len(self.entries)})
        return reply

    def live(self, sid):
        if sid == 0 or sid > 8191:
            refuse(1)
        return self.flows.get(sid) or refuse(7)

    def admit(self, call):
        sid, spec = call["sid"], call["flow"]
        if sid == 0 or sid > 8191:
            refuse(1)
        if sid in self.flows:
            refuse(2)
        self.check_parameters(spec)
        if len(self.flows) >= self.limits["flows"]:
            refuse(4)
        flow = self.Flow(spec)
        reply = {"kind": "admitted", **self.take_in(flow)}
        self.flows[sid] = flow
        return reply

    def change(self, call):
        sid, spec = call["sid"], call["flow"]
        flow = self.live(sid)
        if spec["kind"] != flow.kind:
            refuse(21)
        self.check_parameters(spec)
        changed = flow.changed(spec)
        self.flows = {other: it for other, it in self.flows.items() if other != sid}
        try:
            reply = {"kind": "changed", **self.take_in(changed)}
        except Refused:
            self.flows[sid] = flow
            raise
        self.flows[sid] = changed
        return reply

    def take_in(self, flow):
        """A flow that is to be one of those that live, which has a place in the cycle or gets one: what is told of
        it."""
        if flow.kind == "best_effort":
            return {}
        if self.periodic() + flow.each() > self.limits["periodic"]:
            refuse(5)
        if not flow.starts and not self.place(flow):
            refuse(6)
        return self.told_of(flow)

    def periodic(self):
        """How many grants and polls the live flows have in an interval, all together."""
        return sum(it.each() for it in self.flows.values() if it.kind != "best_effort")

    def check_parameters(self, spec):
        config, kind = self.config, spec["kind"]
        room = self.frame - config["req_slots"]
        if kind == "unsolicited" and (spec["size"] == 0 or self.bursts.unsolicited(spec["size"]) > room):
            refuse(3, 1)
        if kind != "best_effort":
            slots, left = self.slots_of(spec["interval_us"])
            if left:
                refuse(3, 2)
            if slots == 0 or slots % self.frame:
                refuse(3, 3)
            if config["cycle"] % (slots // self.frame):
                refuse(3, 4)
        if kind == "best_effort" and spec["priority"] > 7:
            refuse(3, 5)
        if kind != "unsolicited" and spec["rate"] > 0 and spec["burst"] < config["quantum"]:
            refuse(3, 6)
        if kind == "unsolicited" and not 1 <= spec.get("grants", 1) <= 8:
            refuse(3, 7)
        if kind == "best_effort" and spec.get("reserved", 0) > 0 and spec.get("reserved_burst", 0) < config["quantum"]:
            refuse(3, 8)

    def remove(self, call):
        self.live(call["sid"])
        del self.flows[call["sid"]]
        return {"kind": "removed"}

    def ask(self, call):
        flow, count = self.request(call, 1)
        flow.ask(count, call["heard"])
        return {"kind": "taken"}

    def replace(self, call):
        flow, count = self.request(call, 0)
        flow.replace(count, call["heard"])
        return {"kind": "taken"}

    def request(self, call, least):
        """The flow that a request is for, and its bytes, which are as many as this or more."""
        flow = self.live(call["sid"])
        if flow.kind == "unsolicited":
            refuse(8)
        if call["receiver"] >= self.config["receivers"]:
            refuse(9)
        count = self.asked(call)
        if not least <= count <= MOST_BYTES:
            refuse(10)
        if call["heard"] < self.progress[call["receiver"]]:
            refuse(11, self.progress[call["receiver"]])
        if call["heard"] >= self.next:
            refuse(12, self.next)
        return flow, count

    def asked(self, call):
        """The bytes that a request asks for: those that it names, or the most of a data grant of so many minislots."""
        return self.capacity(call["slots"]) if "slots" in call else call["bytes"]

    def capacity(self, slots):
        return self.bursts.capacity(slots)

    def heard(self, call):
        if call["receiver"] >= self.config["receivers"]:
            refuse(9)
        if call["upto"] > self.next:
            refuse(12, self.next)
        if call["upto"] < self.progress[call["receiver"]]:
            refuse(13, self.progress[call["receiver"]])
        self.progress[call["receiver"]] = call["upto"]
        return {"kind": "noted"}

    def build(self, call):
        now = call["now"]
        if now > LAST_CLOCK:
            refuse(14)
        if self.next + self.frame > now + AHEAD:
            refuse(15, self.next)
        if now + self.config["lead"] > self.next:
            refuse(16, self.next)
        reply = self.map_of(self.next)
        self.next += self.frame
        return reply

    def skip(self, call):
        now = call["now"]
        if now > LAST_CLOCK:
            refuse(14)
        if now + self.config["lead"] <= self.next:
            refuse(17, self.next)
        self.next = ceiling_of(now + self.config["lead"], self.frame) * self.frame
        return {"kind": "skipped", "next": self.next}

    def reserve(self, call):
        lawful = self.sids[call["usage"]]
        if lawful and not any(call["sid"] in some for some in lawful):
            refuse(1)
        if not 1 <= call["slots"] <= self.frame - self.config["req_slots"]:
            refuse(18)
        if len(self.due()) >= MOST_RESERVES:
            refuse(19)
        self.reserves.append(Wanted(*self.word_of(call), call["slots"], self.maps))
        return {"kind": "reserved"}

    def word_of(self, call):
        """The SID and the usage code of the element that an opportunity is in a MAP."""
        usage, codes = call["usage"], {"initial_to": INITIAL, "station": STATION, "request": REQUEST}
        if usage == "initial":
            return ALL_MODEMS, INITIAL
        if usage == "quiet":
            return 0, self.long_usage()
        return call["sid"], self.usage_in(call["slots"]) if usage == "data" else codes[usage]

    def usage_in(self, slots):
        """The usage code of a data grant of as many bytes as so many minislots carry; a long one where that is none."""
        count = self.capacity(slots)
        return self.usage(count) if count else self.long_usage()

    def due(self):
        """The Reserves that no MAP has met and that have not lapsed, of all that were ever asked for, in order."""
        return [it for it in self.reserves if it.met is None and self.maps - it.maps < LAST_MAP]

    def header(self, call):
        if any(call[key] > 15 for key in HEADING[1:]):
            refuse(20)
        self.heading = {key: call[key] for key in HEADING}
        return {"kind": "noted"}

    def rest(self, call):
        flow = self.unsolicited(call["sid"])
        if self.slots_of_flow(flow) < self.config["poll_slots"]:
            refuse(23)
        flow.rests = True
        return {"kind": "noted"}

    def wake(self, call):
        self.unsolicited(call["sid"]).rests = False
        return {"kind": "noted"}

    def unsolicited(self, sid):
        flow = self.live(sid)
        return flow if flow.kind == "unsolicited" else refuse(22)

    def status(self, call):
        flow = self.live(call["sid"])
        return {"kind": "flow", "asked": flow.asked, "granted": flow.granted(), "outstanding": flow.outstanding()}

    # The MAP of a frame.

    def periodic_in(self, start):
        """What stands in a frame by its placement: offset, SID, usage, minislots, in order."""
        place, found = start // self.frame % self.config["cycle"], []
        for sid, flow in self.flows.items():
            found += [(at, sid, *self.standing(flow)) for at in self.starts_of(flow, place)]
        return sorted(found)

    def starts_of(self, flow, place):
        """Where a flow has minislots in the frames at this place of the cycle. One that rests has the first of its
        starts alone."""
        starts = flow.starts.get(place, [])
        return starts[:1] if flow.rests else starts

    def standing(self, flow):
        """The usage and the minislots of what a flow has at each: a poll, also while it rests, or a grant."""
        if flow.kind == "polled" or flow.rests:
            return REQUEST, self.config["poll_slots"]
        return self.unsolicited_usage(flow.spec["size"]), self.slots_of_flow(flow)

    def usage(self, count):
        """The usage code of a data grant of so many bytes."""
        short, long = (9, 10) if self.config["phy"] == 1 else (5, 6)
        return short if self.bursts.usage(count) == "short" else long

    def unsolicited_usage(self, count):
        return 11 if self.config["phy"] == 1 else self.usage(count)

    def long_usage(self):
        return 10 if self.config["phy"] == 1 else 6

    def keeps(self, rate, burst, grants, start, count):
        """Whether these grants, with this one behind them, keep rate and burst over every window that ends in it."""
        total = 0
        for first, part in reversed([*grants, (start, count)]):
            total += part
            if rate and 1280000 * total > (start - first) * self.config["ticks"] * rate + 1280000 * burst:
                return False
        return True

    def keeps_ceilings(self, flow, start, count):
        return all(self.keeps(*ceiling, start, count) for ceiling in flow.ceilings())

    def may_have(self, flow, start, count, room):
        return self.slots_for(count) <= room and self.keeps_ceilings(flow, start, count)

    def keeps_reservation(self, flow, start, count):
        """Whether its grants under its reservation, with one of so many bytes, are within it."""
        return self.keeps(*flow.reservation(), start, count)

    def wanted_by(self, flow):
        """The bytes that a flow has to be able to send where it is served."""
        return min(flow.outstanding(), self.config["quantum"])

    def is_eligible(self, flow, start, room):
        if flow.kind == "unsolicited" or flow.outstanding() == 0:
            return False
        return self.may_have(flow, start, self.wanted_by(flow), room)

    def is_reserved(self, flow, start, room):
        """Whether a flow is under its reservation there."""
        is_kept = flow.reservation()[0] > 0 and self.keeps_reservation(flow, start, self.wanted_by(flow))
        return is_kept and self.is_eligible(flow, start, room)

    def rank_of(self, flow, start, room):
        return flow.rank(self.is_reserved(flow, start, room))

    def turn_of(self, sid, flow, start, room):
        """Where a flow stands among those that may be served there: the least is the first."""
        return -self.rank_of(flow, start, room), flow.last(), sid

    def next_flow(self, start, room):
        """The flow that is served at a minislot, with so much room, or none."""
        able = [(sid, flow) for sid, flow in self.flows.items() if self.is_eligible(flow, start, room)]
        return min((self.turn_of(*it, start, room) for it in able), default=[None])[-1]

    def most(self, flow, start, room, is_reserved=False):
        """The greatest number of bytes that a flow may be granted there, which may be under its reservation."""
        def may_have(count):
            is_kept = not is_reserved or self.keeps_reservation(flow, start, count)
            return is_kept and self.may_have(flow, start, count, room)

        least, most = 0, min(flow.outstanding(), self.config["grant_cap"])
        while least < most:
            middle = (least + most + 1) // 2
            least, most = (middle, most) if may_have(middle) else (least, middle - 1)
        return least

    # What stands at a minislot that nothing periodic has, with so much room: SID, usage, bytes and minislots.

    def opportunity_at(self, room, waiting):
        """The first opportunity that waits, is not met and fits, or none."""
        for wanted in waiting:
            if wanted.met is None and wanted.slots <= room:
                wanted.met = self.maps
                return wanted.sid, wanted.usage, 0, wanted.slots
        return None

    def grant_at(self, start, room, waiting):
        """The data grant to the flow that is served, or none."""
        granted = sum(len(flow.grants_since(self.next)) for flow in self.flows.values())
        sid = self.next_flow(start, room) if granted < self.most_grants() - len(waiting) else None
        if sid is None:
            return None
        flow = self.flows[sid]
        is_reserved = self.is_reserved(flow, start, room)
        count = self.most(flow, start, room, is_reserved)
        flow.grant(start, count, is_reserved)
        return sid, self.usage(count), count, self.slots_for(count)

    def most_grants(self):
        """The most data grants of a MAP without opportunities."""
        return min(MOST_GRANTS, MOST_TOGETHER - self.limits["pending"])

    def idle_at(self, room):
        """An idle, which is open to the requests of all modems where a poll has room in it, and idles are to be."""
        return (ALL_MODEMS, REQUEST, 0, room) if self.is_open(room) else (0, self.long_usage(), 0, room)

    def is_open(self, room):
        return self.config.get("open_idle", 0) == 1 and room >= self.config["poll_slots"]

    def chosen_at(self, start, room, waiting):
        return self.opportunity_at(room, waiting) or self.grant_at(start, room, waiting) or self.idle_at(room)

    def waiting(self):
        """The Reserves that wait for the next MAP."""
        return self.due()[:MOST_WAITING]

    def fill(self, start, periodic):
        """The elements of a frame up to the Null, each as (SID, usage, offset), and their bytes."""
        elements, counts = [(ALL_MODEMS, REQUEST, 0)], [0]
        waiting, at = self.waiting(), self.config["req_slots"]
        for stop, *placed in [*periodic, (self.frame,)]:
            while at < stop:
                sid, usage, count, slots = self.chosen_at(start + at, stop - at, waiting)
                elements.append((sid, usage, at))
                counts.append(count)
                at += slots
            if placed:
                sid, usage, slots = placed
                elements.append((sid, usage, stop))
                counts.append(0)
                at = stop + slots
        self.maps += 1
        return elements, counts

    def settles(self, start):
        """Whether the MAP of this frame settles: its UCD count is another than that of the MAP before, or one for which
        that holds starts by less than so many minislots before it."""
        if self.is_changed():
            self.changes.append(start)
        self.count_before = self.heading["ucd_count"]
        return any(self.is_near(it, start) for it in self.changes)

    def is_changed(self):
        return self.heading["ucd_count"] != self.count_before

    def is_near(self, change, start):
        return start - change < self.config.get("settle", 0)

    def settled(self):
        """The elements of a MAP that settles, up to the Null, and their bytes: nobody has a minislot of its frame. What
        waits for an opportunity does not age by it."""
        return [(0, self.long_usage(), 0)], [0]

    def in_order(self):
        """The flows that wait, those first that have waited since the least minislot."""
        waiting = [(flow.since(), sid) for sid, flow in self.flows.items() if flow.outstanding() > 0]
        return [sid for _, sid in sorted(waiting)]

    def shown(self, waiting):
        """Those of the flows that wait, in their order, to which a MAP has pending grants."""
        return waiting[: self.limits["pending"]]

    def acknowledged(self, hidden):
        """The acknowledge time of a MAP behind which these flows wait that it does not show."""
        return min([*self.progress, *(self.flows[sid].since() for sid in hidden)])

    def map_of(self, start):
        settles = self.settles(start)
        elements, counts = self.settled() if settles else self.fill(start, self.periodic_in(start))
        elements.append((0, NULL, self.frame))
        for flow in self.flows.values():
            flow.move_on()
        waiting = self.in_order()
        shown = self.shown(waiting)
        elements += [(sid, self.long_usage(), self.frame) for sid in sorted(shown)]
        counts += [0] * (1 + len(shown))
        ack = self.acknowledged([sid for sid in waiting if sid not in shown])
        return {"kind": "map", "start": start, "ack": ack, "hex": self.payload(start, ack, elements), "bytes": counts}

    def payload(self, start, ack, elements):
        config = self.config
        head = bytes([config["channel"], self.heading["ucd_count"], len(elements), 0])
        times = (start % 2**32).to_bytes(4, "big") + (ack % 2**32).to_bytes(4, "big")
        windows = bytes(self.heading[it] for it in HEADING[1:])
        words = [(sid << 18 | usage << 14 | offset).to_bytes(4, "big") for sid, usage, offset in elements]
        return (head + times + windows + b"".join(words)).hex()


class Auditor(Scheduler):
    """Judges entries, each behind those before it: a flow that is placed may have any lawful placement."""

    def judges(self, entry):
        """Whether the reply of an entry is one that the scheduler may give."""
        self.found = entry["reply"]
        return self.call(entry["call"]) == self.found

    def place(self, flow):
        """The placement that the entry tells, where that is lawful, or else the scheduler's own."""
        return self.adopt(flow, self.found) or super().place(flow)


def verdict_of(config, entries):
    """The line of the audit of a history."""
    auditor = Auditor({**config, "calls": len(entries) + 1})
    for place, entry in enumerate(entries):
        if not auditor.judges(entry):
            return f"illegal {place}\n"
    return f"legal {len(entries)}\n"


def line_of(reply):
    """The line of an answer, as a run writes it."""
    if reply is None:
        return "history full"
    kind = reply["kind"]
    if "starts" in reply:
        return " ".join([kind, str(reply["reference"]), *map(str, reply["starts"])])
    numbers = {"map": ["hex"], "skipped": ["next"], "flow": ["asked", "granted", "outstanding"]}
    numbers["refused"] = ["number", "value"]
    return " ".join([kind, *(str(reply[it]) for it in numbers.get(kind, []) if it in reply)])
