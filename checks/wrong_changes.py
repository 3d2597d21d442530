"""Plain schedulers (plain.py) of which each has one rule of replace, change, rest or wake wrong, as it is likely to be
read."""

from plain import CEILING, MOST_BYTES, PLACING, Flow, Refused, Scheduler, refuse

# Requests that replace others.


class AddsToWhatWaits(Flow):
    """A request that is to replace others joins them."""

    def replace(self, count, heard):
        if count:
            self.ask(count, heard)


class AskedForItsBytesAlone(Flow):
    """It asked for the bytes of the request, and what was granted before is of them."""

    def replace(self, count, heard):
        super().replace(max(0, count - self.granted()), heard)


class NeverAsksForLess(Flow):
    """A request for fewer bytes than wait changes nothing."""

    def replace(self, count, heard):
        if count >= self.outstanding():
            super().replace(count, heard)


class NothingReplacesNothing(Flow):
    """A request for nothing changes nothing."""

    def replace(self, count, heard):
        if count:
            super().replace(count, heard)


class WaitsSinceTheFirst(Flow):
    """It waits since the first request, whatever replaced that."""

    def replace(self, count, heard):
        before = self.first
        super().replace(count, heard)
        self.first = before + self.first if count else []


class JoinsTheSecondBatch(Flow):
    """What replaces others stands behind the first batch."""

    def replace(self, count, heard):
        before = self.first
        super().replace(count, heard)
        if count and before:
            self.first, self.second = before, self.first


class KeepsTheSecondBatch(Flow):
    """What replaces others is the first batch, beside a second that stays."""

    def replace(self, count, heard):
        behind = self.second
        super().replace(count, heard)
        self.second = behind if count else []


class ServedLater(Flow):
    """What was replaced is served behind what replaced it."""

    def replace(self, count, heard):
        waiting = self.outstanding()
        super().replace(count, heard)
        self.later = (waiting, heard)

    def move_on(self):
        super().move_on()
        if self.outstanding() == 0 and getattr(self, "later", (0, 0))[0]:
            later, self.later = self.later, (0, 0)
            self.ask(*later)


class GrantsOfTheRequestAlone(Flow):
    """What was granted before is forgotten."""

    def replace(self, count, heard):
        self.forgotten = super().granted()
        super().replace(count, heard)

    def granted(self):
        return super().granted() - getattr(self, "forgotten", 0)


class PendingOfNothing(Scheduler):
    """A flow whose requests nothing replaced has its pending grant in one MAP more."""

    def replace(self, call):
        flow = self.flows.get(call["sid"])
        waits = flow is not None and flow.outstanding() > 0
        reply = super().replace(call)
        if waits and flow.outstanding() == 0:
            flow.had = call["heard"]
        return reply

    def in_order(self):
        left = [sid for sid, flow in self.flows.items() if hasattr(flow, "had") and flow.outstanding() == 0]
        for sid in left:
            self.flows[sid].first = [(self.flows[sid].had, 0)]
            del self.flows[sid].had
        return [*super().in_order(), *left]


class RefusesNothing(Scheduler):
    """A request for nothing is refused, as one that replaces none."""

    def replace(self, call):
        self.request(call, 1)
        return super().replace(call)


class TakesTooMany(Scheduler):
    """A request that replaces others may ask for any number of bytes."""

    def request(self, call, least):
        if least == 0 and self.asked(call) > MOST_BYTES:
            call = {**call, "bytes": MOST_BYTES}
            call.pop("slots", None)
        return super().request(call, least)


class HeardAtAnyTime(Scheduler):
    """What replaces others may have been heard before the progress of its receiver."""

    def replace(self, call):
        try:
            return super().replace(call)
        except Refused as refused:
            if refused.args[0] != 11:
                raise
            self.flows[call["sid"]].replace(self.asked(call), call["heard"])
            return {"kind": "taken"}


class NotesAReplacement(Scheduler):
    def replace(self, call):
        return {**super().replace(call), "kind": "noted"}


# Changes.


class KeepsTheOldRank(Flow):
    def changed(self, spec):
        other = super().changed(spec)
        other.old_rank = self.rank() if self.kind != "unsolicited" else 0
        return other

    def rank(self, is_reserved=False):
        return getattr(self, "old_rank", super().rank(is_reserved))


class NewLife(Flow):
    """A change begins a new life, in the placement that the flow had."""

    def changed(self, spec):
        other, new = super().changed(spec), type(self)(spec)
        new.starts, new.phase, new.offset, new.interval = other.starts, other.phase, other.offset, other.interval
        return new


class ForgetsRequests(Flow):
    def changed(self, spec):
        other = super().changed(spec)
        other.asked, other.first, other.second = other.granted(), [], []
        return other


class HasItsTurnAgain(Flow):
    """A changed flow is served as one that had no grant."""

    def changed(self, spec):
        other = super().changed(spec)
        other.had = len(self.grants)
        return other

    def last(self):
        return super().last() if len(self.grants) > getattr(self, "had", 0) else -1


class WaitsSinceTheChange(Flow):
    """What a changed flow asked for is in one batch."""

    def changed(self, spec):
        other = super().changed(spec)
        other.first, other.second = [*self.first, *self.second], []
        return other


class AnyChangeFillsTheCeiling(Flow):
    def changed(self, spec):
        other = super().changed(spec)
        other.before = len(self.grants)
        return other


class TheCeilingGoesOn(Flow):
    """A changed ceiling has the level of the one before."""

    def changed(self, spec):
        other = super().changed(spec)
        other.before = self.before
        return other


class TheRateAloneGoesOn(Flow):
    """The ceiling begins anew where its burst is another."""

    def changed(self, spec):
        other = super().changed(spec)
        if spec.get("burst") == self.spec.get("burst"):
            other.before = self.before
        return other


class TheBurstAloneGoesOn(Flow):
    """The ceiling begins anew where its rate is another."""

    def changed(self, spec):
        other = super().changed(spec)
        if spec.get("rate") == self.spec.get("rate"):
            other.before = self.before
        return other


class ThePeakGoesOn(Flow):
    """A changed peak has the level of the one before."""

    def changed(self, spec):
        other = super().changed(spec)
        other.before_peak = self.before_peak
        return other


class AnyChangeFillsThePeak(Flow):
    def changed(self, spec):
        other = super().changed(spec)
        other.before_peak = len(self.grants)
        return other


class ThePeakFillsTheCeiling(Flow):
    """The rate ceiling begins anew with the peak."""

    def changed(self, spec):
        other = super().changed(spec)
        other.before = max(other.before, other.before_peak)
        return other


class TheCeilingFillsThePeak(Flow):
    """The peak begins anew with the rate ceiling."""

    def changed(self, spec):
        other = super().changed(spec)
        other.before_peak = max(other.before, other.before_peak)
        return other


class KeepsTheOldPeak(Flow):
    """A change gives no other peak."""

    def changed(self, spec):
        old = {name: it for name, it in self.spec.items() if name == "peak"}
        return super().changed({**{name: it for name, it in spec.items() if name != "peak"}, **old})


class KeepsAPeakThatIsLeftOut(Flow):
    """A change that names no peak leaves it."""

    def changed(self, spec):
        return super().changed({**{name: it for name, it in self.spec.items() if name == "peak"}, **spec})


class NothingIsChanged(Flow):
    """A flow that keeps its place keeps its parameters."""

    def changed(self, spec):
        other = super().changed(spec)
        if other.starts or self.kind == "best_effort":
            other.spec = self.spec
        return other


class AlwaysPlacedAnew(Flow):
    """A flow is placed anew by each change."""

    def changed(self, spec):
        other = super().changed(spec)
        other.starts = {}
        return other


class PlacedAnewByTheCeiling(Flow):
    """A flow is placed anew where its ceiling is another."""

    def changed(self, spec):
        other = super().changed(spec)
        if any(spec.get(it) != self.spec.get(it) for it in CEILING):
            other.starts = {}
        return other


class AlwaysInItsPlace(Flow):
    """A flow keeps its place whatever is changed."""

    def changed(self, spec):
        other = super().changed(spec)
        other.starts = self.starts
        return other


class InItsPlaceBy(Flow):
    """A flow keeps its place where this alone is another by which that goes."""

    NAME = PLACING[0]

    def changed(self, spec):
        other = super().changed(spec)
        if [it for it in PLACING if spec.get(it, 1) != self.spec.get(it, 1)] == [self.NAME]:
            other.starts = self.starts
        return other


IN_ITS_PLACE = [type(f"{it}InItsPlace", (InItsPlaceBy,), {"NAME": it}) for it in PLACING]


class BesideItself(Scheduler):
    """A flow is placed anew beside its own minislots."""

    def change(self, call):
        flow = self.flows.get(call["sid"])
        self.beside = flow if flow is not None and flow.starts else None
        try:
            return super().change(call)
        finally:
            self.beside = None

    def taken_in(self, place):
        flow, taken = getattr(self, "beside", None), super().taken_in(place)
        for start in flow.starts.get(place, ()) if flow else ():
            taken.update(range(start, start + self.slots_of_flow(flow)))
        return taken


class KeepsTheOldMinislots(Scheduler):
    """The minislots that a flow had before a change stay taken."""

    def change(self, call):
        flow = self.flows.get(call["sid"])
        reply = super().change(call)
        if flow.starts and self.flows[call["sid"]].starts != flow.starts:
            self.old = [*getattr(self, "old", []), flow]
        return reply

    def taken_in(self, place):
        taken = super().taken_in(place)
        for flow in getattr(self, "old", []):
            for start in flow.starts.get(place, ()):
                taken.update(range(start, start + self.slots_of_flow(flow)))
        return taken


class StandsTwice(Scheduler):
    """A flow that was placed anew stands where it stood too."""

    def change(self, call):
        flow = self.flows.get(call["sid"])
        reply = super().change(call)
        self.flows[call["sid"]].old = flow.starts
        return reply

    def starts_of(self, flow, place):
        starts = super().starts_of(flow, place)
        return sorted({*starts, *getattr(flow, "old", {}).get(place, ())})


class CountsItsOwnGrants(Scheduler):
    """The grants of a changed flow in an interval are counted with those that it had."""

    def change(self, call):
        flow = self.flows.get(call["sid"])
        self.more = flow.each() if flow is not None and flow.kind != "best_effort" else 0
        try:
            return super().change(call)
        finally:
            self.more = 0

    def periodic(self):
        return super().periodic() + getattr(self, "more", 0)


class AnyNumberOfGrants(Scheduler):
    """A change is not refused for the grants in an interval."""

    def change(self, call):
        limit, self.limits["periodic"] = self.limits["periodic"], 2**32
        try:
            return super().change(call)
        finally:
            self.limits["periodic"] = limit


class ParametersBeforeTheKind(Scheduler):
    """Wrong parameters are told before another kind."""

    def change(self, call):
        self.live(call["sid"])
        self.check_parameters(call["flow"])
        return super().change(call)


class KindBeforeTheFlow(Scheduler):
    """A change of no flow is one to another kind."""

    def change(self, call):
        is_none = 1 <= call["sid"] <= 8191 and call["sid"] not in self.flows
        return super().change(call) if not is_none else refuse(21)


class AnyKind(Scheduler):
    """A flow may get another kind, and is admitted anew then."""

    def change(self, call):
        flow = self.live(call["sid"])
        if flow.kind == call["flow"]["kind"]:
            return super().change(call)
        del self.flows[call["sid"]]
        try:
            return {**self.admit(call), "kind": "changed"}
        except Refused:
            self.flows[call["sid"]] = flow
            raise


class AdmitsWhatDoesNotLive(Scheduler):
    """A change of no flow admits one."""

    def change(self, call):
        is_none = 1 <= call["sid"] <= 8191 and call["sid"] not in self.flows
        return {**self.admit(call), "kind": "changed"} if is_none else super().change(call)


class ARefusedChangeRemoves(Scheduler):
    """A flow for whose change there is no place is gone."""

    def change(self, call):
        try:
            return super().change(call)
        except Refused as refused:
            if refused.args[0] == 6:
                del self.flows[call["sid"]]
            raise


class ARefusedChangeWakes(Scheduler):
    def change(self, call):
        try:
            return super().change(call)
        except Refused as refused:
            if refused.args[0] in (3, 5, 6):
                self.flows[call["sid"]].rests = False
            raise


class ARefusedChangeChanges(Scheduler):
    """A change that is refused for its place gives the flow its other parameters."""

    def change(self, call):
        try:
            return super().change(call)
        except Refused as refused:
            if refused.args[0] == 6:
                flow = self.flows[call["sid"]]
                flow.spec = {**flow.spec, "size": call["flow"].get("size")} if flow.kind == "unsolicited" else flow.spec
            raise


class TellsTheFirstReference(Scheduler):
    """A flow that keeps its place is told the nominal time that it was told at first."""

    def told_of(self, flow):
        told = super().told_of(flow)
        flow.told = told if getattr(flow, "told", {}).get("starts") != told["starts"] else flow.told
        return flow.told


class TellsNoPlacement(Scheduler):
    """Nothing is told of a placement that is kept."""

    def change(self, call):
        flow = self.flows.get(call["sid"])
        reply = super().change(call)
        return {"kind": "changed"} if reply.get("starts") and self.flows[call["sid"]].starts is flow.starts else reply


class AdmitsAChange(Scheduler):
    """A change is answered as an admission is."""

    def change(self, call):
        return {**super().change(call), "kind": "admitted"}


# Flows that rest.


class RestsOnBehindAChange(Flow):
    def changed(self, spec):
        other = super().changed(spec)
        other.rests = self.rests
        return other


class NeverRests(Scheduler):
    def rest(self, call):
        reply = super().rest(call)
        self.flows[call["sid"]].rests = False
        return reply


class NeverWakes(Scheduler):
    def wake(self, call):
        flow = self.unsolicited(call["sid"])
        rests = flow.rests
        reply = super().wake(call)
        flow.rests = rests
        return reply


class GivesItsPlaceAway(Scheduler):
    """The minislots of a flow that rests are free for others that come."""

    def taken_in(self, place):
        resting = [flow for flow in self.flows.values() if flow.rests]
        flows, self.flows = self.flows, {sid: it for sid, it in self.flows.items() if it not in resting}
        taken, self.flows = super().taken_in(place), flows
        for start in (start for flow in resting for start in flow.starts.get(place, ())[:1]):
            taken.update(range(start, start + self.config["poll_slots"]))
        return taken


class PolledAtEachStart(Scheduler):
    def starts_of(self, flow, place):
        return flow.starts.get(place, [])


class PolledAtTheLastStart(Scheduler):
    def starts_of(self, flow, place):
        starts = flow.starts.get(place, [])
        return starts[-1:] if flow.rests else starts


class NotPolled(Scheduler):
    """A flow that rests has nothing in a frame."""

    def starts_of(self, flow, place):
        return [] if flow.rests else super().starts_of(flow, place)


class PolledInEachFrame(Scheduler):
    """A flow that rests has a poll in each frame in which no other has its minislots."""

    def starts_of(self, flow, place):
        if not flow.rests or flow.starts.get(place):
            return super().starts_of(flow, place)
        first, slots = flow.starts[flow.phase][0], self.config["poll_slots"]
        return [first] if self.taken_in(place).isdisjoint(range(first, first + slots)) else []


class PolledToAll(Scheduler):
    """The poll of a flow that rests is one of all modems."""

    def fill(self, start, periodic):
        resting = {sid for sid, flow in self.flows.items() if flow.rests}
        return super().fill(start, [(at, 0x3FFF if sid in resting else sid, *rest) for at, sid, *rest in periodic])


class AsLongAsItsGrant(Scheduler):
    """The poll of a flow that rests has all minislots of its grant."""

    def standing(self, flow):
        usage, slots = super().standing(flow)
        return usage, self.slots_of_flow(flow) if flow.rests else slots


class AGrantOfAPoll(Scheduler):
    """A flow that rests has a grant of as many minislots as a poll."""

    def standing(self, flow):
        usage, slots = super().standing(flow)
        return self.unsolicited_usage(1) if flow.rests else usage, slots


class TheRestIsIdle(Scheduler):
    """The other minislots of a flow that rests are nobody's."""

    def periodic_in(self, start):
        found, place = super().periodic_in(start), start // self.frame % self.config["cycle"]
        polled = self.config["poll_slots"]
        for flow in self.flows.values():
            for at in flow.starts.get(place, ()) if flow.rests else ():
                begin = at + polled if at == flow.starts[place][0] else at
                if begin < at + self.slots_of_flow(flow):
                    found.append((begin, 0, self.long_usage(), at + self.slots_of_flow(flow) - begin))
        return sorted(found)


class RoomUpToItsPlace(Scheduler):
    """Data end where the place of a flow that rests begins or ends, and begin there."""

    def chosen_at(self, start, room, waiting):
        place, at = start // self.frame % self.config["cycle"], start % self.frame
        ends = {end for flow in self.flows.values() if flow.rests for begin in flow.starts.get(place, ())
                for end in (begin, begin + self.slots_of_flow(flow))}
        return super().chosen_at(start, min([room, *(it - at for it in ends if it > at)]), waiting)


class WakesAFrameLate(Scheduler):
    def wake(self, call):
        flow = self.unsolicited(call["sid"])
        flow.wakes = flow.rests
        return {"kind": "noted"}

    def map_of(self, start):
        reply = super().map_of(start)
        for flow in self.flows.values():
            if getattr(flow, "wakes", False):
                flow.rests = flow.wakes = False
        return reply


class RestsAFrameLate(Scheduler):
    def rest(self, call):
        reply = super().rest(call)
        flow = self.flows[call["sid"]]
        flow.rests, flow.soon = False, True
        return reply

    def map_of(self, start):
        reply = super().map_of(start)
        for flow in self.flows.values():
            if getattr(flow, "soon", False):
                flow.rests, flow.soon = True, False
        return reply


class RestsForAFrame(Scheduler):
    """A flow has its grants again behind its first poll."""

    def map_of(self, start):
        reply, place = super().map_of(start), start // self.frame % self.config["cycle"]
        for flow in self.flows.values():
            flow.rests = flow.rests and not flow.starts.get(place)
        return reply


class APolledFlowRests(Scheduler):
    def unsolicited(self, sid):
        flow = self.live(sid)
        return flow if flow.kind != "best_effort" else refuse(22)


class AnyGrantRests(Scheduler):
    """A flow rests though a poll is longer than its grant."""

    def rest(self, call):
        self.unsolicited(call["sid"]).rests = True
        return {"kind": "noted"}


class AsLongAsAPollIsTooShort(Scheduler):
    """A grant of as many minislots as a poll is too short."""

    def rest(self, call):
        is_short = self.slots_of_flow(self.unsolicited(call["sid"])) <= self.config["poll_slots"]
        return refuse(23) if is_short else super().rest(call)


class WakesByTheLength(Scheduler):
    """A wake is refused too where a poll is longer than the grant."""

    def wake(self, call):
        if self.slots_of_flow(self.unsolicited(call["sid"])) < self.config["poll_slots"]:
            refuse(23)
        return super().wake(call)


class RestsOnce(Scheduler):
    """A flow that rests may not rest."""

    def rest(self, call):
        flow = self.flows.get(call["sid"])
        return refuse(22) if flow is not None and flow.rests else super().rest(call)


class WakesOnlyWhatRests(Scheduler):
    def wake(self, call):
        flow = self.unsolicited(call["sid"])
        return super().wake(call) if flow.rests else refuse(22)


class TakesARest(Scheduler):
    """A rest is answered as a request is."""

    def rest(self, call):
        return {**super().rest(call), "kind": "taken"}


class ARestingFlowAsks(Scheduler):
    """A flow that rests may ask, and nothing comes of it."""

    def request(self, call, least):
        flow = self.flows.get(call["sid"])
        return (Flow(flow.spec), 0) if flow is not None and flow.rests else super().request(call, least)


class KeepsRestingBehindARemoval(Scheduler):
    """Who is admitted where a flow rested rests too."""

    def remove(self, call):
        resting = getattr(self, "resting", set())
        flow = self.flows.get(call["sid"])
        reply = super().remove(call)
        self.resting = resting | {call["sid"]} if flow.rests else resting
        return reply

    def admit(self, call):
        reply = super().admit(call)
        self.flows[call["sid"]].rests = call["sid"] in getattr(self, "resting", ()) and "starts" in reply
        return reply


KINDS = [it for it in list(globals().values()) if isinstance(it, type)]
OF_FLOWS = [it for it in KINDS if it.__bases__ == (Flow,) and it is not InItsPlaceBy] + IN_ITS_PLACE
# A wrong flow makes a wrong scheduler.
WRONG_CHANGES = [it for it in KINDS if it.__bases__ == (Scheduler,)]
WRONG_CHANGES += [type(it.__name__, (Scheduler,), {"Flow": it}) for it in OF_FLOWS]
