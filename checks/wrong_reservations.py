"""Plain schedulers (plain.py) of which each has one rule of minimum reserved rates wrong, as it is likely to be read.
"""

from plain import FIRST_RANK, PEAK_BURST, RESERVATION, Flow, Refused, Scheduler, refuse

# Which grants are counted.


class AllGrantsAreOfIt(Flow):
    """Grants by the own rank are charged to the reservation."""

    def grant(self, start, count, is_reserved):
        super().grant(start, count, True)


class ChargedOfLastMapAlone(Scheduler):
    """Grants before in the same MAP are not counted."""

    def keeps_reservation(self, flow, start, count):
        rate, burst, grants = flow.reservation()
        return self.keeps(rate, burst, [it for it in grants if it[0] < self.next], start, count)


class OneInAMap(Scheduler):
    """A MAP has one grant under the reservation of a flow."""

    def is_reserved(self, flow, start, room):
        had = any(it[0] >= self.next for it in flow.reserved_grants)
        return not had and super().is_reserved(flow, start, room)


class OneWindow(Flow):
    """A reservation bounds all grants of its period together, and no fewer."""

    def reservation(self):
        rate, burst, grants = super().reservation()
        return rate, burst, [(grants[0][0], sum(count for _, count in grants))] if grants else []


class NotWhereThePriorityServes(Scheduler):
    """A grant is not counted that the flow would have had by its own rank too."""

    def grant_at(self, start, room, waiting):
        with_rank, self.turn_of = self.turn_of, lambda sid, flow, *_: (-flow.rank(), flow.last(), sid)
        first = self.next_flow(start, room)
        self.turn_of = with_rank
        found = super().grant_at(start, room, waiting)
        if found and found[0] == first and self.flows[first].reserved_grants[-1:] == [(start, found[2])]:
            self.flows[first].reserved_grants.pop()
        return found


# Who is under a reservation.


class AtTheStartOfTheMap(Scheduler):
    """It is tested at the start of the MAP."""

    def keeps_reservation(self, flow, start, count):
        return super().keeps_reservation(flow, self.next, count)


class AtTheEndOfTheGrant(Scheduler):
    """It is tested where the grant ends."""

    def keeps_reservation(self, flow, start, count):
        return super().keeps_reservation(flow, start + self.slots_for(count), count)


class ByTheQuantum(Scheduler):
    """A flow with fewer bytes outstanding has to be able to send the quantum."""

    def is_reserved(self, flow, start, room):
        is_kept = self.keeps_reservation(flow, start, self.config["quantum"])
        return is_kept and super().is_reserved(flow, start, room)


class ByAllThatIsOutstanding(Scheduler):
    """The reservation has to be enough for all that is outstanding."""

    def is_reserved(self, flow, start, room):
        is_kept = self.keeps_reservation(flow, start, min(flow.outstanding(), self.config["grant_cap"]))
        return is_kept and super().is_reserved(flow, start, room)


class ByOneByte(Scheduler):
    """It is enough that one byte is left of the reservation."""

    def is_reserved(self, flow, start, room):
        is_kept = flow.reservation()[0] > 0 and self.keeps_reservation(flow, start, 1)
        return is_kept and self.is_eligible(flow, start, room)


class NoReservation(Flow):
    def reservation(self):
        return 0, 0, []


class NeverUsedUp(Flow):
    """A flow is under its reservation whatever was granted."""

    def reservation(self):
        rate, _, _ = super().reservation()
        return rate, 2**60, []


class FirstWhenUsedUp(Scheduler):
    """A flow with a reservation is served first also where that is used up."""

    def rank_of(self, flow, start, room):
        return FIRST_RANK if flow.reservation()[0] else super().rank_of(flow, start, room)


class WithoutTheCeiling(Scheduler):
    """A flow that its reservation would let send is served whatever its ceilings are."""

    def keeps_ceilings(self, flow, start, count):
        is_kept = flow.reservation()[0] > 0 and self.keeps_reservation(flow, start, count)
        return is_kept or super().keeps_ceilings(flow, start, count)


class WithoutTheCeilingByTheTest(Scheduler):
    """A flow that its reservation would let send the quantum is served with what its ceilings leave."""

    def is_eligible(self, flow, start, room):
        count = self.wanted_by(flow)
        if flow.reservation()[0] and count and self.keeps_reservation(flow, start, count):
            return self.slots_for(count) <= room and self.keeps_ceilings(flow, start, 1)
        return super().is_eligible(flow, start, room)


class WithoutThePeak(Flow):
    """A flow with a reservation has no peak."""

    def ceilings(self):
        return [*super().ceilings()][: 1 if self.reservation()[0] else 2]


class NoneAboveTheRate(Flow):
    """A reservation above the rate is none."""

    def reservation(self):
        rate, *more = super().reservation()
        return 0 if 0 < self.spec["rate"] < rate else rate, *more


class InBurstsOfAPeak(Flow):
    """A reservation has the burst of a peak."""

    def reservation(self):
        rate, _, grants = super().reservation()
        return rate, PEAK_BURST, grants


class InBurstsOfTheRate(Flow):
    """A reservation has the burst of the rate."""

    def reservation(self):
        rate, burst, grants = super().reservation()
        return rate, self.spec["burst"] or burst, grants


# How much it is granted.


class PastIt(Scheduler):
    """A grant under a reservation is as long as one by the own rank."""

    def most(self, flow, start, room, is_reserved=False):
        return super().most(flow, start, room)


class NoMoreThanTheQuantum(Scheduler):
    """A grant under a reservation has at most the quantum."""

    def most(self, flow, start, room, is_reserved=False):
        found = super().most(flow, start, room, is_reserved)
        return min(found, self.config["quantum"]) if is_reserved else found


class BoundedWhenUsedUp(Scheduler):
    """A grant by the own rank has no more bytes than the reservation leaves, where it leaves some."""

    def most(self, flow, start, room, is_reserved=False):
        is_left = flow.reservation()[0] > 0 and self.keeps_reservation(flow, start, 1)
        return super().most(flow, start, room, is_reserved or is_left)


# Turns.


class BeforePolled(Scheduler):
    """A flow under its reservation is served before polled ones whatever their turn."""

    def turn_of(self, sid, flow, start, room):
        rank, *turn = super().turn_of(sid, flow, start, room)
        return rank - self.is_reserved(flow, start, room), *turn


class BehindPolled(Scheduler):
    """A polled flow is served before those under their reservations whatever their turn."""

    def turn_of(self, sid, flow, start, room):
        rank, *turn = super().turn_of(sid, flow, start, room)
        return rank - (flow.kind == "polled"), *turn


class AmongTheHighestPriority(Flow):
    """A flow under its reservation is served as one of the highest rank below polled ones."""

    def rank(self, is_reserved=False):
        return FIRST_RANK - 1 if is_reserved else super().rank()


class OneRankHigher(Flow):
    """A flow under its reservation is served as one of the next rank."""

    def rank(self, is_reserved=False):
        return super().rank() + is_reserved


class PrioritiesAmongThem(Scheduler):
    """Of those under their reservations the one of the highest rank is served first."""

    def turn_of(self, sid, flow, start, room):
        rank, *turn = super().turn_of(sid, flow, start, room)
        return rank, -flow.rank(), *turn


class TurnsOfTheirOwn(Scheduler):
    """Those under their reservations are served by their last grants under these."""

    def turn_of(self, sid, flow, start, room):
        rank, last, sid = super().turn_of(sid, flow, start, room)
        if self.is_reserved(flow, start, room):
            last = flow.reserved_grants[-1][0] if flow.reserved_grants else -1
        return rank, last, sid


# Changes and lives.


class GoesOn(Flow):
    """A changed reservation has the level of the one before."""

    def changed(self, spec):
        other = super().changed(spec)
        other.reserved_grants = self.reserved_grants
        return other


class GoesOnWithTheSameRate(Flow):
    """A change of the burst alone keeps the period of the reservation."""

    def changed(self, spec):
        other = super().changed(spec)
        if spec.get("reserved", 0) == self.spec.get("reserved", 0):
            other.reserved_grants = self.reserved_grants
        return other


class GoesOnWithTheSameBurst(Flow):
    """A change of the reserved rate alone keeps the period of the reservation."""

    def changed(self, spec):
        other = super().changed(spec)
        if spec.get("reserved_burst", 0) == self.spec.get("reserved_burst", 0):
            other.reserved_grants = self.reserved_grants
        return other


class AnyChangeFills(Flow):
    """A reservation begins anew with each change."""

    def changed(self, spec):
        other = super().changed(spec)
        other.reserved_grants = []
        return other


class FilledBy(Flow):
    """A reservation begins anew where this is another, too."""

    NAME = "rate"

    def changed(self, spec):
        other = super().changed(spec)
        if spec.get(self.NAME, 0) != self.spec.get(self.NAME, 0):
            other.reserved_grants = []
        return other


class FilledByTheBurst(FilledBy):
    NAME = "burst"


class FilledByThePeak(FilledBy):
    NAME = "peak"


class FilledByTheRank(Flow):
    """A reservation begins anew where the rank of its flow is another."""

    def changed(self, spec):
        other = super().changed(spec)
        if self.kind == "best_effort" and other.rank() != self.rank():
            other.reserved_grants = []
        return other


class FillsTheCeiling(Flow):
    """The rate ceiling begins anew with the reservation."""

    def changed(self, spec):
        other = super().changed(spec)
        if any(spec.get(it, 0) != self.spec.get(it, 0) for it in RESERVATION):
            other.before = len(self.grants)
        return other


class FillsThePeak(Flow):
    """The peak begins anew with the reservation."""

    def changed(self, spec):
        other = super().changed(spec)
        if any(spec.get(it, 0) != self.spec.get(it, 0) for it in RESERVATION):
            other.before_peak = len(self.grants)
        return other


class KeepsTheOldOne(Flow):
    """A change gives no other reservation."""

    def changed(self, spec):
        old = {name: it for name, it in self.spec.items() if name in RESERVATION}
        return super().changed({**{name: it for name, it in spec.items() if name not in RESERVATION}, **old})


class KeepsOneThatIsLeftOut(Flow):
    """A change that names none leaves it."""

    def changed(self, spec):
        return super().changed({**{name: it for name, it in self.spec.items() if name in RESERVATION}, **spec})


class SurvivesARemoval(Scheduler):
    """A flow that is admitted where one was removed has what is left of that one's reservation."""

    def remove(self, call):
        flow = self.flows.get(call["sid"])
        reply = super().remove(call)
        self.left = {**getattr(self, "left", {}), call["sid"]: flow.reserved_grants}
        return reply

    def admit(self, call):
        reply = super().admit(call)
        self.flows[call["sid"]].reserved_grants = [*getattr(self, "left", {}).get(call["sid"], [])]
        return reply


# Refusals.


class TakesAnyBurst(Scheduler):
    """No burst of a reservation is too low."""

    def check_parameters(self, spec):
        super().check_parameters({**spec, "reserved": 0})


class RefusesTheQuantum(Scheduler):
    """A reservation of the quantum's burst is refused."""

    def check_parameters(self, spec):
        super().check_parameters(spec)
        if spec.get("reserved", 0) > 0 and spec.get("reserved_burst", 0) == self.config["quantum"]:
            refuse(3, 8)


class RefusesABurstWithoutARate(Scheduler):
    """A burst below the quantum is refused where the reserved rate is 0, too."""

    def check_parameters(self, spec):
        super().check_parameters(spec)
        if spec["kind"] == "best_effort" and spec.get("reserved_burst", 0) < self.config["quantum"]:
            refuse(3, 8)


class RefusedFirst(Scheduler):
    """The burst of a reservation is tested before the other parameters."""

    def check_parameters(self, spec):
        if spec.get("reserved", 0) > 0 and spec.get("reserved_burst", 0) < self.config["quantum"]:
            refuse(3, 8)
        super().check_parameters(spec)


class RefusedAsTheBurst(Scheduler):
    """The burst of a reservation is told as that of the rate."""

    def check_parameters(self, spec):
        try:
            super().check_parameters(spec)
        except Refused as refused:
            refuse(*((3, 6) if refused.args == (3, 8) else refused.args))


class RefusesMoreThanTheRate(Scheduler):
    """A reservation above the rate is refused."""

    def check_parameters(self, spec):
        super().check_parameters(spec)
        if 0 < spec.get("rate", 0) < spec.get("reserved", 0):
            refuse(3, 8)


KINDS = [it for it in list(globals().values()) if isinstance(it, type) and it not in (Flow, Scheduler, Refused)]
# A wrong flow makes a wrong scheduler.
WRONG_RESERVATIONS = [it for it in KINDS if issubclass(it, Scheduler)]
WRONG_RESERVATIONS += [type(it.__name__, (Scheduler,), {"Flow": it}) for it in KINDS if issubclass(it, Flow)]
