"""What histories have reached of flows that are changed, requests that are replaced and flows that rest, and whether
their laws hold. It is read in the entries alone, and knows nothing of how a MAP is made or a placement is found."""

from plain_bursts import Bursts
from reached import REQUEST, Following
from texts import LIMITS

CHANGES = {
    # parameters
    "a change of nothing", "a change of the priority alone", "a change of a flow with bytes outstanding",
    "a flow is served first behind a change that raises its priority", "a change of another kind is refused",
    "a change of no flow is refused", "a change is refused for its SID", "a change is refused for its parameters",
    # placements
    "a placement is kept", "a placement is kept with a later reference", "a flow is placed anew where it stood",
    "a flow is placed anew elsewhere", "a flow is placed anew in minislots of its own and others",
    "a flow with several grants is placed anew", "a flow comes into minislots that another left by a change",
    "a change is refused for the grants in an interval", "a change is refused for want of a place",
    "a flow stands where it stood behind a change that was refused",
    # ceilings
    "a ceiling that began anew lets more than with the grants before", "a ceiling goes on over a change",
    "a flow gets a ceiling by a change", "a flow loses its ceiling by a change",
    # peaks
    "a peak that began anew lets more than with the grants before", "a peak goes on over a change",
    "a flow gets a peak by a change", "a flow loses its peak by a change", "a change of the peak alone",
    "a peak begins anew while its flow's rate goes on", "a rate begins anew while its flow's peak goes on",
    "a grant is as long as the peak lets it be", "a grant is as long as the rate lets it be, below its peak",
    "a grant is as long as a peak below the rate lets it be",
    # requests that replace others
    "a request replaces others with fewer bytes", "a request replaces others with more bytes",
    "a request replaces others with none", "a request of nothing, where nothing is outstanding",
    "a request that replaces others stands for bytes by minislots", "minislots that carry no byte replace others",
    "a replacing request of too many bytes is refused", "a replacing request is refused for its receiver",
    "a replacing request is refused, heard too early", "a replacing request is refused, heard too late",
    "a replacing request is refused, for its flow does not ask", "a replacing request of no flow is refused",
    "a pending grant is taken away", "a request is replaced that had no grant", "a request is replaced in part granted",
    "a request that replaced others is replaced", "a request stands behind one that replaced others",
    "a request of a polled flow is replaced", "a request that replaced others is served whole",
    # rest
    "a flow rests", "a flow rests that rests", "a flow wakes", "a flow wakes that is awake",
    "a flow that rests has its poll", "one with several grants in an interval has one poll",
    "a flow that rests is removed", "a change wakes a flow that keeps its place", "a change wakes a flow that moves",
    "a refused change wakes no flow", "a flow has its grants again",
    "data stand in minislots that a flow left which rests", "nobody has minislots that a flow left which rests",
    "an opportunity stands in minislots that a flow left which rests",
    "minislots that a flow left which rests are open",
    "a MAP that settles leaves out what is polled", "a MAP that settles leaves out what is unsolicited",
    "a MAP that settles leaves out the poll of a flow that rests",
    "a flow that rests asks, and is refused", "a flow is admitted beside one that rests",
    "a rest is refused, for the flow is not unsolicited", "a wake is refused, for the flow is not unsolicited",
    "a rest is refused, for a poll is longer than its grant", "a rest of no flow is refused",
    "a wake of no flow is refused",
}

PLACING, CEILING, PEAK_BURST = ("interval_us", "jitter_us", "size", "grants"), ("rate", "burst"), 1522
MISSING = {"grants": 1, "peak": 0}


class Life:
    """A life of a flow: its parameters, its sums, its requests as (bytes asked with it, whether it replaced others),
    its data grants of each period of its rate ceiling and of its peak as (start, bytes), its placement, and whether it
    rests. Beside that what was of late: its priority was raised, it rested, a change was refused for its place."""

    def __init__(self, flow):
        self.flow, self.asked, self.granted, self.requests, self.periods, self.peaks = flow, 0, 0, [], [[]], [[]]
        self.placed, self.rests = {}, False
        self.is_raised = self.has_rested = self.stayed = False

    def kind(self):
        return self.flow["kind"]

    def ceiling(self):
        return [self.flow.get(it) for it in CEILING]

    def peak(self):
        return self.flow.get("peak", 0)

    def placing(self):
        return [{**MISSING, **self.flow}.get(it) for it in PLACING]

    def each(self):
        return self.flow.get("grants", 1) if self.kind() == "unsolicited" else 1

    def outstanding(self):
        return self.asked - self.granted


class Changed:
    """What the entries that were read have reached, and where one breaks a law."""

    def __init__(self, config):
        self.config, self.bursts, self.frame = config, Bursts(config), config["frame"]
        self.lives, self.next, self.shown, self.left = {}, config["start"], set(), []
        self.most = config.get("periodic", LIMITS["periodic"])
        self.events, self.faults, self.place = set(), [], 0
        self.following, self.found = Following(config), None

    def says(self, event, where=True):
        if where:
            self.events.add(event)

    def breaks(self, law, where):
        if where:
            self.faults.append((self.place, law))

    def read(self, entries):
        for self.place, entry in enumerate(entries):
            call, reply, self.found = entry["call"], entry["reply"], self.following.follow(entry)
            kind = "refused" if reply["kind"] == "refused" else "read"
            read = getattr(self, f"{kind}_{call['call']}", None)
            if read:
                read(call, reply)
        return self

    # Minislots.

    def slots_of(self, micros):
        return 4 * micros // (25 * self.config["ticks"])

    def interval(self, flow):
        return self.slots_of(flow["interval_us"]) // self.frame

    def slots_of_grant(self, life):
        is_polled = life.kind() == "polled"
        return self.config["poll_slots"] if is_polled else self.bursts.unsolicited(life.flow["size"])

    def stand(self, life, reply):
        """A life gets the placement of a reply, which has to be a lawful one."""
        interval, each, starts = self.interval(life.flow), life.each(), reply["starts"]
        frame, offset = divmod(reply["reference"], self.frame)
        places = range(frame % interval, self.config["cycle"], interval)
        life.placed = {place: starts[at * each : (at + 1) * each] for at, place in enumerate(places)}
        self.breaks("another number of starts", len(starts) != each * len(places))
        self.breaks("a reference that is not the next", not 0 <= reply["reference"] - self.next < interval * self.frame)
        self.breaks("an offset in the request region", offset < self.config["req_slots"])
        last, slots = offset + self.slots_of(life.flow["jitter_us"]), self.slots_of_grant(life)
        late = [it for it in starts if not offset <= it <= min(last, self.frame - slots)]
        self.breaks("a start out of its time", late)
        self.breaks("minislots of two", any(not self.is_apart(place) for place in places))

    def is_apart(self, place):
        """Whether no minislot at a place of the cycle is of two placements, those of flows that rest among them."""
        taken = []
        for life in self.lives.values():
            for start in life.placed.get(place, []):
                taken += range(start, start + self.slots_of_grant(life))
        return len(taken) == len({*taken})

    def minislots(self, life):
        """The minislots of a cycle that a placement has."""
        slots = self.slots_of_grant(life) if life.placed else 0
        return {(place, at) for place, it in life.placed.items() for start in it for at in range(start, start + slots)}

    # Lives.

    def read_admit(self, call, reply):
        life = self.lives[call["sid"]] = Life(call["flow"])
        if "starts" in reply:
            self.stand(life, reply)
            self.says("a flow is admitted beside one that rests", any(it.rests for it in self.lives.values()))
            self.comes(life)

    def comes(self, life):
        here = self.minislots(life)
        self.says("a flow comes into minislots that another left by a change",
                  any(here & there for other, there in self.left if other is not life))

    def read_remove(self, call, reply):
        self.says("a flow that rests is removed", self.lives.pop(call["sid"]).rests)

    def read_change(self, call, reply):
        life, flow = self.lives[call["sid"]], call["flow"]
        self.breaks("a change of another kind", flow["kind"] != life.kind())
        before, ceiling, placing, rested = {**MISSING, **life.flow}, life.ceiling(), life.placing(), life.rests
        peak, others = life.peak(), {it for it in before if before[it] != {**MISSING, **flow}.get(it)}
        self.says("a change of nothing", not others)
        self.says("a change of the priority alone", others == {"priority"})
        self.says("a change of the peak alone", others == {"peak"})
        self.says("a change of a flow with bytes outstanding", life.outstanding() > 0)
        there, placed = self.minislots(life), life.placed
        life.is_raised = flow.get("priority", 0) > before.get("priority", 0)
        life.flow, life.rests, life.stayed = flow, False, False
        life.has_rested |= rested
        self.breaks("starts of a flow that has no place", ("starts" in reply) != ("interval_us" in flow))
        if "starts" in reply:
            self.stand(life, reply)
            self.moves(life, reply, life.placing() == placing, placed, there, rested)
        is_anew = self.begins(life, ceiling), self.begins_peak(life, peak)
        self.says("a peak begins anew while its flow's rate goes on", is_anew == (False, True) and ceiling[0])
        self.says("a rate begins anew while its flow's peak goes on", is_anew == (True, False) and peak)

    def moves(self, life, reply, is_kept, placed, there, rested):
        here = self.minislots(life)
        if is_kept:
            self.breaks("a placement that is not kept", life.placed != placed)
            self.says("a placement is kept")
            self.says("a placement is kept with a later reference", self.next > self.config["start"])
            self.says("a change wakes a flow that keeps its place", rested)
            return
        self.says("a change wakes a flow that moves", rested)
        self.says("a flow is placed anew where it stood", life.placed == placed)
        self.says("a flow is placed anew elsewhere", life.placed != placed)
        self.says("a flow is placed anew in minislots of its own and others", here & there and here - there)
        self.says("a flow with several grants is placed anew", life.each() > 1)
        self.comes(life)
        self.left.append((life, there - here))
        total = sum(it.each() for it in self.lives.values() if it.kind() != "best_effort")
        self.breaks("more grants in an interval than may be", total > self.most)

    def begins(self, life, ceiling):
        """Whether the rate ceiling of a flow begins anew, which was this."""
        if life.ceiling() == ceiling:
            self.says("a ceiling goes on over a change", ceiling[0] and life.periods[-1])
            return False
        life.periods.append([])
        self.says("a flow gets a ceiling by a change", ceiling[0] == 0 and life.ceiling()[0])
        self.says("a flow loses its ceiling by a change", ceiling[0] and life.ceiling()[0] == 0)
        return True

    def begins_peak(self, life, peak):
        """The same of its peak."""
        if life.peak() == peak:
            self.says("a peak goes on over a change", peak and life.peaks[-1])
            return False
        life.peaks.append([])
        self.says("a flow gets a peak by a change", peak == 0)
        self.says("a flow loses its peak by a change", life.peak() == 0)
        return True

    def refused_change(self, call, reply):
        number, life = reply["number"], self.lives.get(call["sid"])
        self.says("a change is refused for its SID", number == 1)
        self.says("a change of no flow is refused", number == 7)
        self.breaks("a change of another kind is not refused so",
                    life and (call["flow"]["kind"] != life.kind()) != (number == 21))
        self.says("a change of another kind is refused", number == 21)
        self.says("a change is refused for its parameters", number == 3)
        self.says("a change is refused for the grants in an interval", number == 5)
        self.says("a change is refused for want of a place", number == 6)
        if life and number in (5, 6):
            life.stayed = True
            self.breaks("no place for a flow that keeps its own", Life(call["flow"]).placing() == life.placing())

    # Requests.

    def count(self, call):
        return self.bursts.capacity(call["slots"]) if "slots" in call else call["bytes"]

    def read_ask(self, call, reply):
        life, count = self.lives[call["sid"]], self.count(call)
        self.says("a request stands behind one that replaced others",
                  any(is_new and asked > life.granted for asked, is_new in life.requests))
        life.asked += count
        life.requests.append((life.asked, False))

    def read_replace(self, call, reply):
        life, count = self.lives[call["sid"]], self.count(call)
        before, waiting = life.outstanding(), [it for it in life.requests if it[0] > life.granted]
        self.says("a request replaces others with fewer bytes", 0 < count < before)
        self.says("a request replaces others with more bytes", 0 < before < count)
        self.says("a request replaces others with none", count == 0 < before)
        self.says("a request of nothing, where nothing is outstanding", count == before == 0)
        self.says("a request that replaces others stands for bytes by minislots", "slots" in call and count > 0)
        self.says("minislots that carry no byte replace others", "slots" in call and count == 0 < before)
        self.says("a pending grant is taken away", count == 0 and call["sid"] in self.shown)
        self.says("a request of a polled flow is replaced", waiting and life.kind() == "polled")
        self.says("a request that replaced others is replaced", any(is_new for _, is_new in waiting))
        if waiting:
            begun = max((asked for asked, _ in life.requests if asked <= life.granted), default=0)
            is_in_part = life.granted > begun and life.granted > 0
            self.says(f"a request is replaced {'in part granted' if is_in_part else 'that had no grant'}")
        life.asked = life.granted + count
        life.requests = [it for it in life.requests if it not in waiting] + ([(life.asked, True)] if count else [])
        self.shown.discard(call["sid"])

    def refused_replace(self, call, reply):
        number, life = reply["number"], self.lives.get(call["sid"])
        self.says("a replacing request of no flow is refused", number == 7)
        self.says("a replacing request is refused, for its flow does not ask", number == 8)
        self.says("a replacing request is refused for its receiver", number == 9)
        self.says("a replacing request of too many bytes is refused", number == 10)
        self.breaks("a replacing request that is not of too many bytes", number == 10 and self.count(call) <= 1048560)
        self.says("a replacing request is refused, heard too early", number == 11)
        self.says("a replacing request is refused, heard too late", number == 12)
        self.breaks("another refusal of a flow that does not ask",
                    life and (life.kind() == "unsolicited") != (number == 8))

    def refused_ask(self, call, reply):
        life = self.lives.get(call["sid"])
        self.says("a flow that rests asks, and is refused", life and life.rests)

    def read_status(self, call, reply):
        life = self.lives[call["sid"]]
        sums = life.asked, life.granted, life.outstanding()
        self.breaks("other sums", (reply["asked"], reply["granted"], reply["outstanding"]) != sums)

    # Rest.

    def read_rest(self, call, reply):
        life = self.lives[call["sid"]]
        self.breaks("a flow rests that is not unsolicited", life.kind() != "unsolicited")
        self.breaks("a flow rests whose grant holds no poll", self.slots_of_grant(life) < self.config["poll_slots"])
        self.says("a flow rests that rests", life.rests)
        life.rests, life.has_rested = True, False
        self.says("a flow rests")

    def read_wake(self, call, reply):
        life = self.lives[call["sid"]]
        self.breaks("a flow wakes that is not unsolicited", life.kind() != "unsolicited")
        self.says(f"a flow wakes{'' if life.rests else ' that is awake'}")
        life.rests, life.has_rested = False, life.has_rested or life.rests

    def refused_rest(self, call, reply, name="rest"):
        number, life = reply["number"], self.lives.get(call["sid"])
        self.says(f"a {name} of no flow is refused", number == 7)
        self.says(f"a {name} is refused, for the flow is not unsolicited", number == 22)
        self.says("a rest is refused, for a poll is longer than its grant", number == 23)
        self.breaks("a rest or wake is refused for the kind alone", number == 22 and life.kind() == "unsolicited")
        is_short = life and life.kind() == "unsolicited" and self.slots_of_grant(life) < self.config["poll_slots"]
        self.breaks("a rest is refused for its length alone", (number == 23) != bool(is_short and name == "rest"))

    def refused_wake(self, call, reply):
        self.refused_rest(call, reply, "wake")

    # Frames.

    def read_skip(self, call, reply):
        self.next = reply["next"]

    def read_build(self, call, reply):
        found, start = self.found, reply["start"]
        if found.settles:
            self.leaves_out(start // self.frame % self.config["cycle"])
        else:
            self.is_on_time(found, start // self.frame % self.config["cycle"])
        for place, (sid, _, offset, _, count) in enumerate(found.grants):
            self.grant(self.lives[sid], start + offset, count)
            is_first = place == 0 and self.lives[sid].is_raised
            self.says("a flow is served first behind a change that raises its priority", is_first)
            self.lives[sid].is_raised = False
        self.shown = {sid for sid, _, _ in found.pending}
        for sid, life in self.lives.items():
            self.breaks("more is granted than was asked for", life.granted > life.asked)
            self.breaks("a pending grant of nothing", sid in self.shown and life.outstanding() == 0)
        self.next = start + self.frame

    def grant(self, life, start, count):
        """A data grant keeps both ceilings of their periods over each window that ends in it."""
        self.breaks("a data grant of nothing", count > life.outstanding())
        rate, peak = life.ceiling(), (life.peak(), PEAK_BURST)
        is_new = self.is_kept("ceiling", *rate, life.periods, start, count)
        self.says("a ceiling that began anew lets more than with the grants before", is_new)
        is_new = self.is_kept("peak", *peak, life.peaks, start, count)
        self.says("a peak that began anew lets more than with the grants before", is_new)
        self.binds(life, rate, peak, start, count)
        life.periods[-1].append((start, count))
        life.peaks[-1].append((start, count))
        was, life.granted = life.granted, life.granted + count
        self.says("a request that replaced others is served whole",
                  any(is_new and was < asked <= life.granted for asked, is_new in life.requests))

    def is_kept(self, name, rate, burst, periods, start, count):
        """A data grant keeps a ceiling: whether it would not with the grants before its period."""
        ticks, last = self.config["ticks"], (start, count)
        self.breaks(f"a data grant above the {name}", not keeps(ticks, rate, burst, [*periods[-1], last]))
        whole = [*(it for period in periods for it in period), last]
        return len(periods) > 1 and not keeps(ticks, rate, burst, whole)

    def binds(self, life, rate, peak, start, count):
        """Which of both ceilings a grant of one byte more would not keep."""
        ticks, more = self.config["ticks"], (start, count + 1)
        is_held = count < life.outstanding() and not keeps(ticks, *peak, [*life.peaks[-1], more])
        is_by_rate = count < life.outstanding() and not keeps(ticks, *rate, [*life.periods[-1], more])
        self.says("a grant is as long as the peak lets it be", is_held and not is_by_rate)
        self.says("a grant is as long as a peak below the rate lets it be", is_held and 0 < peak[0] < rate[0])
        is_below = is_by_rate and not is_held and rate[0] < peak[0]
        self.says("a grant is as long as the rate lets it be, below its peak", is_below)

    def leaves_out(self, place):
        """A MAP that settles has nothing periodic."""
        stands = [life for life in self.lives.values() if life.placed.get(place)]
        for life in stands:
            kind = "the poll of a flow that rests" if life.rests else f"what is {life.kind()}"
            self.says(f"a MAP that settles leaves out {kind}")

    def is_on_time(self, found, place):
        """Each flow has what its placement wants in this frame, and no other stands there that is periodic."""
        wanted, left = set(), set()
        for sid, life in self.lives.items():
            starts = life.placed.get(place, [])
            is_poll, slots = life.kind() == "polled" or life.rests, self.slots_of_grant(life) if starts else 0
            length = self.config["poll_slots"] if is_poll else slots
            stand = starts[:1] if life.rests else starts
            wanted |= {(sid, is_poll, start, length) for start in stand}
            self.says("a flow stands where it stood behind a change that was refused", starts and life.stayed)
            self.says("a flow has its grants again", starts and life.has_rested and not life.rests)
            if life.rests and starts:
                self.says("a flow that rests has its poll")
                self.says("one with several grants in an interval has one poll", len(starts) > 1)
                self.says("a refused change wakes no flow", life.stayed)
                free = {at for start in starts for at in range(start, start + slots)}
                left |= free - {*range(stand[0], stand[0] + length)}
        told = {(sid, usage == REQUEST, offset, slots) for sid, usage, offset, slots, _ in found.periodic}
        self.breaks("what is periodic is not on time", wanted != told or len(told) != len(found.periodic))
        self.leaves(found, left)

    def leaves(self, found, left):
        """Who has minislots that flows left which rest. What is idle ends at what is periodic, or at the Null."""
        for sid, usage, offset, slots, count in found.front:
            if left & {*range(offset, offset + slots)}:
                self.says("data stand in minislots that a flow left which rests", count > 0)
                it = (sid, usage, offset, slots, count)
                self.says("an opportunity stands in minislots that a flow left which rests", it in found.opportunities)
                is_idle = it in found.idles
                self.says("nobody has minislots that a flow left which rests", is_idle)
                self.says("minislots that a flow left which rests are open", is_idle and sid)
        stops = {it[2] for it in found.periodic} | {self.frame}
        self.breaks("an idle that ends where nothing stands", any(it[2] + it[3] not in stops for it in found.idles))


def rank_of(flow):
    """The rank of a flow by its parameters: 8 where it is polled, else its priority, and 0 where it has none."""
    return 8 if flow["kind"] == "polled" else flow.get("priority", 0)


def keeps(ticks, rate, burst, grants):
    """Whether the windows of grants that end in the last one keep a ceiling."""
    end, total = grants[-1][0], 0
    for start, count in reversed(grants):
        total += count
        if rate and 1280000 * total > (end - start) * ticks * rate + 1280000 * burst:
            return False
    return True
