"""A plain reading of a history: how its channel did. It goes through the whole list again for each number, keeps every
request and every grant of a flow, and looks each delay up among them. It is slow, and says what the report has to
say. A history may say of how many entries at its front nothing is told: `passed`."""

from itertools import accumulate, groupby

from changed import keeps
from plain import Auditor, LAST_MAP
from plain_bursts import Bursts

REQUEST, NULL = 1, 7
ALL_MODEMS = 0x3FFF
# The burst of each peak rate, in bytes.
PEAK_BURST = 1522
CALLS = ("admit", "ask", "build", "header", "heard", "remove", "reserve", "skip", "status")
# Of these a report tells how many there were where there was one.
MORE_CALLS = ("change", "replace", "rest", "wake")
USES = ("data", "idle", "opportunity", "poll", "request", "unsolicited")
# The uses of minislots that hold back no data.
FREE = ("data", "idle", "open")


def elements_of(reply):
    """The elements of a MAP, as (SID, IUC, offset)."""
    words = bytes.fromhex(reply["hex"])[16:]
    numbers = [int.from_bytes(words[at:at + 4], "big") for at in range(0, len(words), 4)]
    return [(number >> 18, number >> 14 & 15, number & 0x3FFF) for number in numbers]


def allocations_of(reply):
    """The elements before the Null, each as (SID, IUC, offset, length, bytes)."""
    found, elements = [], elements_of(reply)
    for place, (sid, iuc, offset) in enumerate(elements):
        if iuc == NULL:
            return found
        found.append((sid, iuc, offset, elements[place + 1][2] - offset, reply["bytes"][place]))
    return found


def settles(reply):
    """Whether a MAP settles: it has no request region, as it has nothing for anybody."""
    return elements_of(reply)[0][0] != ALL_MODEMS


class Meeting(Auditor):
    """Takes the entries of a legal history, and reads in each MAP which opportunities it meets. Where an element begins
    there may be the poll or unsolicited grant whose place that is, else the first opportunity that waits, is not met
    and has room: what the element says does not count."""

    def offsets_of(self, entry):
        """At which offsets the MAP of an entry meets an opportunity."""
        if entry["reply"]["kind"] == "map":
            return self.offsets_in(elements_of(entry["reply"]))
        self.judges(entry)
        return set()

    def offsets_in(self, elements):
        start = self.next
        self.next += self.frame
        if self.settles(start):
            return set()
        stops, waiting = [*(it[0] for it in self.periodic_in(start)), self.frame], self.waiting()
        met = {offset for _, _, offset in elements[1:]
               if self.opportunity_at(min(stop for stop in stops if stop >= offset) - offset, waiting)}
        self.maps += 1
        return met


    def lapsed(self):
        """How many Reserves were met by none of so many MAPs that do not settle."""
        return sum(1 for it in self.reserves if it.met is None and self.maps - it.maps >= LAST_MAP)


def met_in(config, entries):
    """For each entry of a legal history the offsets at which its MAP meets an opportunity."""
    meeting = Meeting({**config, "calls": len(entries) + 1})
    return [meeting.offsets_of(entry) for entry in entries]


def accepted(entry, call, kind):
    return entry["call"]["call"] == call and entry["reply"]["kind"] == kind


def begins(entry, sid):
    return accepted(entry, "admit", "admitted") and entry["call"]["sid"] == sid


def ends(entry, sid):
    return accepted(entry, "remove", "removed") and entry["call"]["sid"] == sid


def is_replacement(entry):
    """Whether this is an accepted request that supersedes those before, of whichever flow."""
    return accepted(entry, "replace", "taken")


def uses_told(config):
    """The uses that a report tells: open idles where idles are open."""
    return sorted([*USES, "open"]) if config.get("open_idle") == 1 else USES


def use_of(kinds, met, sid, iuc, offset):
    """What an element at this offset is for, where flows of these kinds live, and opportunities are met at these
    offsets."""
    if offset in met:
        return "opportunity"
    if iuc == REQUEST and sid == ALL_MODEMS:
        return "request" if offset == 0 else "open"
    if iuc == REQUEST:
        return "poll"
    if sid == 0:
        return "idle"
    return "unsolicited" if kinds[sid] == "unsolicited" else "data"


def asked_by(config, call):
    """The bytes of a request: those that it names, or the most of a data grant of so many minislots."""
    return Bursts(config).capacity(call["slots"]) if "slots" in call else call["bytes"]


def next_after(config, entries):
    start = config["start"]
    for entry in entries:
        if entry["reply"]["kind"] == "skipped":
            start = entry["reply"]["next"]
        elif entry["reply"]["kind"] == "map":
            start += config["frame"]
    return start


def entries_before(history, milliseconds):
    """How many entries come before the first at whose time the next frame starts so many milliseconds after the start,
    or later."""
    config, entries = history["config"], history["entries"]
    return next((at for at in range(len(entries)) if
                 (next_after(config, entries[:at]) - config["start"]) * config["ticks"] >= 160 * milliseconds),
                len(entries))


def windowed(history, first, last):
    """What is told of a history from so many milliseconds on, and before so many where they are given, with the words
    that ask for it."""
    until = len(history["entries"]) if last is None else entries_before(history, last)
    return {"config": history["config"], "entries": history["entries"][:until], "whole": history,
            "passed": min(entries_before(history, first), until),
            "words": ["--from", str(first), *([] if last is None else ["--to", str(last)])]}


def passed_in(history):
    return history.get("passed", 0)


def told_of(history):
    """The entries of which something is told."""
    return history["entries"][passed_in(history):]


def minislots_of_frames(history):
    """For each frame that is told of what each of its minislots is for, in order."""
    config, entries, kinds = history["config"], history["entries"], {}
    for at, (entry, met) in enumerate(zip(entries, met_in(config, entries))):
        if accepted(entry, "admit", "admitted"):
            kinds[entry["call"]["sid"]] = entry["call"]["flow"]["kind"]
        elif accepted(entry, "remove", "removed"):
            del kinds[entry["call"]["sid"]]
        elif entry["reply"]["kind"] == "map" and at >= passed_in(history):
            yield entry["reply"]["start"], [use_of(kinds, met, sid, iuc, offset)
                                            for sid, iuc, offset, length, _ in allocations_of(entry["reply"])
                                            for _ in range(length)]


def uses_of_frames(history):
    """For each of these frames how many minislots there are for each use."""
    for start, minislots in minislots_of_frames(history):
        yield start, {name: minislots.count(name) for name in uses_told(history["config"])}


def uses(history):
    """The minislots of all these frames together, by what they are for."""
    frames = [count for _, count in uses_of_frames(history)]
    return {name: sum(count[name] for count in frames) for name in uses_told(history["config"])}


def longest_run(minislots):
    """The most of these in a row that hold back no data."""
    runs = groupby(minislots, lambda use: use in FREE)
    return max((len(list(run)) for is_free, run in runs if is_free), default=0)


def progress_of(config, entries, receiver):
    """The minislot before which a receiver has handed in all that it heard."""
    told = [entry["call"]["upto"] for entry in entries
            if accepted(entry, "heard", "noted") and entry["call"]["receiver"] == receiver]
    return told[-1] if told else config["start"]


def lapsed_in(history):
    """How many Reserves lapsed with MAPs that are told of."""
    config, entries = history["config"], history["entries"]
    meeting, before = Meeting({**config, "calls": len(entries) + 1}), 0
    for at, entry in enumerate(entries):
        before = meeting.lapsed() if at == passed_in(history) else before
        meeting.offsets_of(entry)
    return meeting.lapsed() - before if told_of(history) else 0


def extremes(history):
    """What is least or greatest among the MAPs that are told of, and how many Reserves lapsed."""
    config, entries = history["config"], history["entries"]
    built = [(at, entry["call"]["now"], entry["reply"]) for at, entry in enumerate(entries)
             if at >= passed_in(history) and entry["reply"]["kind"] == "map"]
    lags = {receiver: [max(reply["start"] - progress_of(config, entries[:at], receiver), 0) for at, _, reply in built]
            for receiver in range(config["receivers"])}
    return {"elements": max((len(elements_of(reply)) for _, _, reply in built), default=0),
            "gap": min((longest_run(frame) for _, frame in minislots_of_frames(history)), default=None),
            "lags": {receiver: max(lags[receiver]) for receiver in lags if built},
            "lapsed": lapsed_in(history),
            "margin": min((reply["start"] - now for _, now, reply in built), default=None)}


def reservation_of(flow):
    """The minimum reserved rate of a flow and its burst: a rate of 0 where it has none."""
    return [flow.get(name, 0) if flow["kind"] == "best_effort" else 0 for name in ("reserved", "reserved_burst")]


def ceilings_of(flow):
    """The maximum sustained rate of a flow and its burst, and its peak rate with that of one: a rate of 0 is none."""
    if flow["kind"] == "unsolicited":
        return (0, 0), (0, 0)
    return (flow["rate"], flow["burst"]), (flow.get("peak", 0), PEAK_BURST)


class Request:
    """A request at this place of a life: its delay, or None where it was not served, and whether it was replaced. All
    that the flow had asked with it has to be granted before the next request that supersedes it."""

    def __init__(self, life, at):
        wanted, later = life.asked_with(at), next((place for place in life.replacements if place > at), None)
        ends = [end for place, end, reached in life.grants if reached >= wanted and (later is None or place < later)]
        self.heard = life.since[at]["call"]["heard"]
        self.delay = ends[0] - self.heard if ends else None
        self.is_replaced = self.delay is None and later is not None


class Waiting:
    """A flow through its life: the bytes that it waits for, and at how many starts of MAPs that are told of it waited for
    some and stood so to its rates."""

    def __init__(self, life):
        self.config, self.flow, self.waits, self.times = life.config, life.first, 0, 0
        for place, entry in enumerate(life.since):
            self.waits = life.asks[place] + (0 if place in life.replacements else self.waits)
            if place in life.changes:
                self.change(entry["call"]["flow"])
                self.flow = entry["call"]["flow"]
            if entry["reply"]["kind"] == "map":
                self.map(entry["reply"], life.data_in(place), place >= life.passed)

    def map(self, reply, grants, is_told):
        if is_told and self.waits > 0 and not settles(reply) and self.is_so(reply["start"]):
            self.times += 1
        for start, count in grants:
            self.grant(start, count)
            self.waits -= count

    def wanted(self):
        return min(self.waits, self.config["quantum"])


class Reservation(Waiting):
    """Under its minimum reserved rate, with the data grants under it since the flow has its numbers, as (start, bytes)."""

    def __init__(self, life):
        self.grants = []
        super().__init__(life)

    def change(self, flow):
        if reservation_of(flow) != reservation_of(self.flow):
            self.grants = []

    def is_so(self, start):
        """Whether the bytes that the flow wants at least keep its reservation, behind the grants under it."""
        rate, burst = reservation_of(self.flow)
        return rate > 0 and keeps(self.config["ticks"], rate, burst, [*self.grants, (start, self.wanted())])

    def grant(self, start, count):
        if self.is_so(start):
            self.grants.append((start, count))


class Ceilings(Waiting):
    """At its rate or its peak, with the data grants since the flow has the numbers of each."""

    def __init__(self, life):
        self.grants = [[], []]
        super().__init__(life)

    def change(self, flow):
        for at, (old, new) in enumerate(zip(ceilings_of(self.flow), ceilings_of(flow))):
            if old != new:
                self.grants[at] = []

    def is_so(self, start):
        """Whether one of them has no room for the bytes that the flow wants at least."""
        wanted = (start, self.wanted())
        return any(not keeps(self.config["ticks"], rate, burst, [*grants, wanted])
                   for (rate, burst), grants in zip(ceilings_of(self.flow), self.grants))

    def grant(self, start, count):
        for grants in self.grants:
            grants.append((start, count))


class Life:
    """A life of a flow: the admission at this place, and the entries up to its end, of which each meets opportunities
    at these offsets. Of so many of these entries nothing is told."""

    def __init__(self, history, met, at):
        config, entries = history["config"], history["entries"]
        self.passed = max(passed_in(history) - at - 1, 0)
        self.config, self.sid, self.first = config, entries[at]["call"]["sid"], entries[at]["call"]["flow"]
        self.ended = False
        self.since = []
        for entry in entries[at + 1:]:
            if begins(entry, self.sid) or ends(entry, self.sid):
                self.ended = True
                break
            self.since.append(entry)
        self.is_told = len(self.since) >= self.passed
        self.from_slot = next_after(config, entries[:at + 1 + self.passed])
        self.to_slot = next_after(config, entries[:at + 1 + len(self.since)])
        # What its MAPs have of it, but for opportunities: the place of the entry, start, end, bytes and IUC.
        self.allocations = [(place, start, start + length, count, iuc)
                            for place, entry in enumerate(self.since) if entry["reply"]["kind"] == "map"
                            for sid, iuc, offset, length, count in allocations_of(entry["reply"])
                            for start in [entry["reply"]["start"] + offset]
                            if sid == self.sid and offset not in met[at + 1 + place]]
        # The data grants of that, each with the bytes granted up to it and with it.
        given = [(place, end, count) for place, _, end, count, _ in self.allocations if count > 0]
        self.grants = [(place, end, reached)
                       for (place, end, _), reached in zip(given, accumulate(count for _, _, count in given))]
        # The places of the requests that supersede those before, and the bytes of the request at each place.
        self.replacements = self.places("replace", "taken")
        asking = {*self.places("ask", "taken"), *self.replacements}
        self.asks = [asked_by(config, entry["call"]) if place in asking else 0
                     for place, entry in enumerate(self.since)]
        self.changes = self.places("change", "changed")
        self.flow = self.flow_before(len(self.since))
        self.requests = [Request(self, place) for place, count in enumerate(self.asks)
                         if count > 0 and place >= self.passed]

    def places(self, call, kind):
        return [place for place, entry in enumerate(self.since)
                if accepted(entry, call, kind) and entry["call"]["sid"] == self.sid]

    def flow_before(self, at):
        """Its parameters before a place: those of its last change."""
        changes = [place for place in self.changes if place < at]
        return self.since[changes[-1]]["call"]["flow"] if changes else self.first

    def data_in(self, at):
        """Its data grants in the MAP of a place, as (start, bytes)."""
        return [(start, count) for place, start, _, count, _ in self.allocations if place == at and count > 0]

    def granted_before(self, at):
        return max((reached for place, _, reached in self.grants if place < at), default=0)

    def asked_with(self, at):
        """The bytes asked with the request at a place: those granted up to the last one that superseded others, and
        those of it and of all behind it."""
        last = max((place for place in self.replacements if place <= at), default=None)
        asked = sum(self.asks[last or 0:at + 1])
        return asked + (0 if last is None else self.granted_before(last))

    def asked(self):
        """The bytes outstanding where what is told begins, and those asked since."""
        return self.asked_with(len(self.since) - 1) - self.granted_before(self.passed)

    def carried(self):
        return self.asked_with(self.passed - 1) - self.granted_before(self.passed)

    def granted(self):
        """The bytes granted: of an unsolicited flow as many for each grant as its parameters said then."""
        if self.flow["kind"] != "unsolicited":
            return self.granted_before(len(self.since)) - self.granted_before(self.passed)
        return sum(self.flow_before(place)["size"] for place, *_, iuc in self.allocations
                   if iuc != REQUEST and place >= self.passed)

    def delays(self):
        return [request.delay for request in self.requests if request.delay is not None]

    def oldest(self):
        """For how many minislots the request that was heard first, of those that wait, has waited."""
        heard = [request.heard for request in self.requests if request.delay is None and not request.is_replaced]
        return None if self.ended or not heard else max(self.to_slot - min(heard), 0)

    def held(self):
        """At how many starts of MAPs it waited at a ceiling, where it has one."""
        has_one = any(rate > 0 for rate, _ in ceilings_of(self.flow))
        return Ceilings(self).times if has_one else None

    def told(self):
        delays, replaced = self.delays(), sum(1 for request in self.requests if request.is_replaced)
        left = len(self.requests) - len(delays) - replaced
        told = {"asked": self.asked(), "asks": len(self.requests), "delay": summary(delays),
                "dropped": left if self.ended else 0, "from": self.from_slot, "granted": self.granted(),
                "kind": self.flow["kind"],
                "outstanding": self.asked_with(len(self.since) - 1) - self.granted_before(len(self.since)),
                "replaced": replaced, "served": len(delays), "sid": self.sid, "to": self.to_slot,
                "waiting": 0 if self.ended else left}
        if self.flow["kind"] == "best_effort":
            told["priority"] = self.flow["priority"]
        if self.carried() > 0:
            told["carried"] = self.carried()
        if reservation_of(self.flow)[0] > 0:
            told["under"] = Reservation(self).times
        return told


def percentile(values, percent):
    """The least value that at least so many in a hundred do not exceed."""
    for value in sorted(set(values)):
        if 100 * sum(1 for other in values if other <= value) >= percent * len(values):
            return value
    return None


def summary(delays):
    if not delays:
        return None
    return {"greatest": max(delays), "least": min(delays), "middle": percentile(delays, 50),
            "p99": percentile(delays, 99)}


def lives_of(history):
    """The lives that did not end before what is told."""
    met = met_in(history["config"], history["entries"])
    lives = [Life(history, met, at) for at, entry in enumerate(history["entries"])
             if accepted(entry, "admit", "admitted")]
    return [life for life in lives if life.is_told]


def rank_of(life):
    return {"unsolicited": None, "polled": 8}.get(life.flow["kind"], life.flow.get("priority"))


def rank_name(told):
    """The rank of the flow of a life as a report tells it, where the flow has one."""
    return "polled" if told["kind"] == "polled" else told.get("priority")


def rank_told(rank, lives):
    own = [life for life in lives if rank_of(life) == rank]
    told = [life.told() for life in own]
    sums = {name: sum(one[name] for one in told)
            for name in ("asks", "dropped", "granted", "replaced", "served", "waiting")}
    return {**sums, "delay": summary([d for life in own for d in life.delays()]),
            "rank": "polled" if rank == 8 else rank}


def calls_of(entries):
    """How many calls there were of each kind, of some kinds where there was one."""
    names = [entry["call"]["call"] for entry in entries]
    return {name: names.count(name) for name in (*CALLS, *MORE_CALLS) if name in CALLS or name in names}


def named_by(call):
    """The SID that a call names as that of a flow: none of a reserve, whatever it is for."""
    return call.get("sid") if call["call"] != "reserve" else None


def refused_sids(history):
    """How many refused calls that are told of name each SID that one names."""
    named = [named_by(entry["call"]) for entry in told_of(history) if entry["reply"]["kind"] == "refused"]
    return {sid: named.count(sid) for sid in named if sid is not None}


def metrics_alone(history):
    """The numbers that a report tells as metrics alone."""
    return {"refused_sids": refused_sids(history),
            "lives": [{"oldest": life.oldest(), "held": life.held()} for life in lives_of(history)]}


def report(history):
    """The numbers of a history's document."""
    config, entries = history["config"], told_of(history)
    maps = [entry["reply"] for entry in entries if entry["reply"]["kind"] == "map"]
    numbers = [entry["reply"]["number"] for entry in entries if entry["reply"]["kind"] == "refused"]
    lives = lives_of(history)
    ranks = [rank for rank in range(8, -1, -1) if any(rank_of(life) == rank and life.requests for life in lives)]
    told = {"calls": calls_of(entries), "frames": len(maps), "from": maps[0]["start"] if maps else None,
            "lives": [life.told() for life in lives],
            "priorities": [rank_told(rank, lives) for rank in ranks],
            "refused": {str(number): numbers.count(number) for number in set(numbers)},
            "skips": sum(1 for entry in entries if entry["reply"]["kind"] == "skipped"),
            "to": maps[-1]["start"] + config["frame"] if maps else None, "use": uses(history)}
    if not any(map(is_replacement, entries)):
        for one in [*told["lives"], *told["priorities"]]:
            del one["replaced"]
    return told
