"""What histories have reached of flows with a minimum reserved rate, and whether their laws hold. It is read in the
entries alone, and knows nothing of how a MAP is made."""

from changed import keeps, rank_of
from plain_bursts import Bursts
from reached import GRANTS, PENDING, TOGETHER, Following

RESERVED = {
    # who is served
    "a flow under its reservation is served before one of a higher rank",
    "a flow under its reservation is served before a polled one",
    "a polled flow is served before one under its reservation",
    "a flow under its reservation is served before another that was served later",
    "a flow under its reservation is served before another of a higher SID",
    "a flow is served by its own rank, whose reservation is used up",
    "a flow is served under its reservation and by its own rank in one MAP",
    "a flow is under its reservation again, which was used up",
    "a flow is under its reservation at a later offset of a MAP, and was not at an earlier one",
    "grants by the own rank are not of the reservation",
    "the reservation is enough for what is left, below the quantum",
    "a flow at its ceiling is not under its reservation", "a flow without room is not under its reservation",
    "an idle stands while a flow waits that has a reservation",
    "a MAP that settles has nothing for a flow under its reservation",
    # how much it is granted
    "a grant is as long as the reservation lets it be", "a grant under a reservation is as long as the rate lets it be",
    "a grant under a reservation is as long as the peak lets it be",
    "a grant under a reservation is as long as there is room", "a grant under a reservation is all that is left",
    "a grant by the own rank is longer than the reservation would let it be",
    # changes and lives
    "a change of the reserved rate alone", "a change of the reserved burst alone",
    "a flow gets a reservation by a change", "a flow loses its reservation by a change",
    "a reservation goes on over a change", "a reservation that began anew lets more than with the grants before",
    "a reservation begins anew while its flow's rate goes on",
    "a rate begins anew while its flow's reservation goes on",
    "a reservation begins anew while its flow's peak goes on",
    "a peak begins anew while its flow's reservation goes on",
    "a reservation of a new life lets more than with the grants before",
    "a flow is refused for its reserved burst", "a change is refused for the reserved burst",
}

# What a flow has by these parameters: the numbers of each, and the bytes of a peak's burst.
NUMBERS = {"rate": ("rate", "burst"), "peak": ("peak",), "reserved": ("reserved", "reserved_burst")}
PEAK_BURST = 1522


class Life:
    """A life of a flow: its parameters, its sums, the start of its last data grant, and its data grants of each period
    as (start, bytes): of its rate and its peak all, of its reservation those under it; beside that all its grants of
    the present period of its reservation, and what was of late: its reservation was used up."""

    def __init__(self, flow):
        self.flow, self.asked, self.granted, self.last, self.is_used = flow, 0, 0, -1, False
        self.periods, self.all = {name: [[]] for name in NUMBERS}, []

    def outstanding(self):
        return self.asked - self.granted

    def numbers(self, name):
        """The numbers of a ceiling or the reservation."""
        return [self.flow.get(it, 0) for it in NUMBERS[name]]

    def limit(self, name):
        """The rate and the burst of one."""
        return (*self.numbers(name), PEAK_BURST)[:2]

    def has_reservation(self):
        return self.flow["kind"] == "best_effort" and self.numbers("reserved")[0] > 0

    def is_polled(self):
        return self.flow["kind"] == "polled"


class Reserved:
    """What the entries that were read have reached, and where one breaks a law."""

    def __init__(self, config):
        self.config, self.bursts, self.frame = config, Bursts(config), config["frame"]
        self.following, self.lives, self.ended = Following(config), {}, {}
        self.events, self.faults, self.place = set(), [], 0

    def says(self, event, where=True):
        if where:
            self.events.add(event)

    def breaks(self, law, where):
        if where:
            self.faults.append((self.place, law))

    def read(self, entries):
        for self.place, entry in enumerate(entries):
            call, reply, found = entry["call"], entry["reply"], self.following.follow(entry)
            is_refused = reply["kind"] == "refused"
            read = getattr(self, f"{'refused' if is_refused else 'read'}_{call['call']}", None)
            if found:
                self.map(found, reply["start"])
            elif read:
                read(call, reply)
        return self

    # Lives.

    def read_admit(self, call, reply):
        self.lives[call["sid"]] = Life(call["flow"])
        self.breaks("a reserved burst below the quantum", self.is_low(call["flow"]))

    def is_low(self, flow):
        """Whether the burst of a reservation is below the quantum."""
        is_below = flow.get("reserved", 0) > 0 and flow.get("reserved_burst", 0) < self.config["quantum"]
        return flow["kind"] == "best_effort" and is_below

    def read_remove(self, call, reply):
        self.ended[call["sid"]] = self.lives.pop(call["sid"])

    def refused_admit(self, call, reply, name="flow"):
        """A flow is refused for its reserved burst where nothing else is wrong in it."""
        is_so = reply["number"] == 3 and reply["value"] == 8
        self.says(f"a {name} is refused for {'the' if name == 'change' else 'its'} reserved burst", is_so)
        self.breaks("refused for its reserved burst alone", is_so and not self.is_low(call["flow"]))

    def refused_change(self, call, reply):
        self.refused_admit(call, reply, "change")

    def read_change(self, call, reply):
        life, before = self.lives[call["sid"]], self.lives[call["sid"]].flow
        had, numbers = life.has_reservation(), {name: life.numbers(name) for name in NUMBERS}
        life.flow = call["flow"]
        self.breaks("a reserved burst below the quantum", self.is_low(life.flow))
        others = {it for it in {*before, *life.flow} if before.get(it, 0) != life.flow.get(it, 0)}
        has = life.has_reservation()
        self.says("a change of the reserved rate alone", others == {"reserved"} and had and has)
        self.says("a change of the reserved burst alone", others == {"reserved_burst"} and had)
        self.says("a flow gets a reservation by a change", has and not had)
        self.says("a flow loses its reservation by a change", had and not has)
        anew = {name for name in NUMBERS if life.numbers(name) != numbers[name]}
        for name in anew:
            life.periods[name].append([])
        if "reserved" in anew:
            life.all = []
        goes_on = had and "reserved" not in anew and life.periods["reserved"][-1]
        self.says("a reservation goes on over a change", goes_on)
        for name in ("rate", "peak"):
            is_kept = name not in anew and numbers[name][0] and life.periods[name][-1]
            is_alone = had and "reserved" in anew and is_kept
            self.says(f"a reservation begins anew while its flow's {name} goes on", is_alone)
            self.says(f"a {name} begins anew while its flow's reservation goes on", name in anew and goes_on)

    # Requests.

    def count(self, call):
        return self.bursts.capacity(call["slots"]) if "slots" in call else call["bytes"]

    def read_ask(self, call, reply):
        self.lives[call["sid"]].asked += self.count(call)

    def read_replace(self, call, reply):
        life = self.lives[call["sid"]]
        life.asked = life.granted + self.count(call)

    # MAPs.

    def keeps(self, life, name, start, count, grants=None):
        """Whether a data grant keeps a ceiling or the reservation, beside those of its period or others."""
        grants = life.periods[name][-1] if grants is None else grants
        return keeps(self.config["ticks"], *life.limit(name), [*grants, (start, count)])

    def keeps_ceilings(self, life, start, count):
        return self.keeps(life, "rate", start, count) and self.keeps(life, "peak", start, count)

    def fits(self, count, room):
        return self.bursts.length(count) <= room

    def least(self, life):
        return min(life.outstanding(), self.config["quantum"])

    def is_eligible(self, life, start, room):
        least = self.least(life)
        return least > 0 and self.fits(least, room) and self.keeps_ceilings(life, start, least)

    def is_under(self, life, start, room):
        """Whether a flow is under its reservation."""
        is_left = life.has_reservation() and self.keeps(life, "reserved", start, self.least(life))
        return is_left and self.is_eligible(life, start, room)

    def map(self, found, start):
        having = [life for life in self.lives.values() if life.has_reservation()]
        if found.settles:
            is_under = any(self.is_under(life, start, self.frame) for life in having)
            self.says("a MAP that settles has nothing for a flow under its reservation", is_under)
            return
        left = min(GRANTS, TOGETHER - self.config.get("pending", PENDING)) - len(found.waited)
        stops, self.under, self.by_rank, self.waits = [it[2] for it in found.periodic], set(), set(), set()
        for it in found.front[1:]:
            sid, _, offset, _, count = it
            room = min([at for at in stops if at > offset], default=self.frame) - offset
            if it in found.grants:
                self.grant(sid, start + offset, room, count, having)
                left -= 1
            elif it in found.idles:
                self.idle(start + offset, room, left, having)

    def idle(self, start, room, left, having):
        """Nobody stands where a flow is under its reservation, and a data grant is left to give."""
        waiting = [life for life in having if life.outstanding() > 0]
        self.breaks("an idle where a flow is under its reservation",
                    left > 0 and any(self.is_under(life, start, room) for life in waiting))
        self.says("an idle stands while a flow waits that has a reservation", left > 0 and waiting)

    def grant(self, sid, start, room, count, having):
        life = self.lives[sid]
        is_under = life in having and self.is_under(life, start, room)
        if having:
            self.turn(sid, life, is_under, start, room, having)
        if life in having:
            self.amount(sid, life, is_under, start, room, count)
        for name in ("rate", "peak"):
            life.periods[name][-1].append((start, count))
        if is_under:
            life.periods["reserved"][-1].append((start, count))
        life.all.append((start, count))
        life.granted, life.last = life.granted + count, start
        (self.under if is_under else self.by_rank).add(sid)
        both = self.under & self.by_rank
        self.says("a flow is served under its reservation and by its own rank in one MAP", sid in both)

    def turn(self, sid, life, is_under, start, room, having):
        """A flow under its reservation and a polled one have the same rank, above all others."""
        others = [(other, it) for other, it in self.lives.items() if it is not life and it.outstanding() > 0]
        under = [(it.last, other) for other, it in others if it in having and self.is_under(it, start, room)]
        polled = [(it.last, other) for other, it in others if it.is_polled() and self.is_eligible(it, start, room)]
        is_first = is_under or life.is_polled()
        self.breaks("a data grant of a lower rank where a flow is under its reservation", under and not is_first)
        self.breaks("a data grant of a lower rank where a polled flow may be served", polled and not is_first)
        turn, own = life.last, rank_of(life.flow)
        self.breaks("a data grant out of its turn", is_first and any((turn, sid) > it for it in [*under, *polled]))
        higher = any(own < rank_of(it.flow) < 8 and self.is_eligible(it, start, room) for _, it in others)
        self.says("a flow under its reservation is served before one of a higher rank", is_under and higher)
        self.says("a flow under its reservation is served before a polled one", is_under and polled)
        self.says("a polled flow is served before one under its reservation", life.is_polled() and under)
        is_later = any(last > turn for last, _ in under)
        self.says("a flow under its reservation is served before another that was served later", is_under and is_later)
        is_alike = any(last == turn for last, _ in under)
        self.says("a flow under its reservation is served before another of a higher SID", is_under and is_alike)
        self.stay(others, start, room, having)
        self.says("a flow is under its reservation at a later offset of a MAP, and was not at an earlier one",
                  is_under and sid in self.waits)

    def stay(self, others, start, room, having):
        """Why others that have a reservation are not under it."""
        for sid, it in others:
            if it in having and not self.is_under(it, start, room):
                is_left, least = self.keeps(it, "reserved", start, self.least(it)), self.least(it)
                self.says("a flow at its ceiling is not under its reservation",
                          is_left and not self.keeps_ceilings(it, start, least))
                self.says("a flow without room is not under its reservation", is_left and not self.fits(least, room))
                self.waits |= {sid} if not is_left else set()

    def amount(self, sid, life, is_under, start, room, count):
        """A grant under a reservation is within it, and as long as it may be."""
        left, more = life.outstanding(), count + 1
        is_kept = self.keeps(life, "reserved", start, count)
        self.says("a flow is served by its own rank, whose reservation is used up", not is_under)
        is_longer = not is_under and not is_kept
        self.says("a grant by the own rank is longer than the reservation would let it be", is_longer)
        if not is_under:
            life.is_used = True
            return
        self.says("a flow is under its reservation again, which was used up", life.is_used)
        life.is_used = False
        self.breaks("a data grant above the reservation", not is_kept)
        more_kept = self.keeps(life, "reserved", start, more)
        holds = {"rate": not self.keeps(life, "rate", start, more), "peak": not self.keeps(life, "peak", start, more),
                 "room": not self.fits(more, room), "left": count == left, "cap": count == self.config["grant_cap"]}
        self.breaks("a data grant shorter than it may be", more_kept and not any(holds.values()))
        self.says("a grant is as long as the reservation lets it be", not more_kept and not any(holds.values()))
        for name in ("rate", "peak"):
            is_alone = holds[name] and more_kept and sum(holds.values()) == 1
            self.says(f"a grant under a reservation is as long as the {name} lets it be", is_alone)
        self.says("a grant under a reservation is as long as there is room", holds["room"] and more_kept)
        self.says("a grant under a reservation is all that is left", holds["left"])
        self.says("the reservation is enough for what is left, below the quantum",
                  left < self.config["quantum"] and not self.keeps(life, "reserved", start, self.config["quantum"]))
        self.others(sid, life, start, count)

    def others(self, sid, life, start, count):
        """What the reservation would not let it have, were other grants of it too."""
        self.says("grants by the own rank are not of the reservation",
                  not self.keeps(life, "reserved", start, count, life.all))
        before = [it for period in life.periods["reserved"] for it in period]
        self.says("a reservation that began anew lets more than with the grants before",
                  not self.keeps(life, "reserved", start, count, before))
        ended = self.ended.get(sid)
        if ended:
            before = ended.periods["reserved"][-1] + life.periods["reserved"][-1]
            self.says("a reservation of a new life lets more than with the grants before",
                      not self.keeps(life, "reserved", start, count, before))
