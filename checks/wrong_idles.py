"""Plain schedulers (plain.py) of which each has one rule of open idles, or of MAPs that settle behind a change of the
UCD count, wrong, as it is likely to be read."""

from plain import ALL_MODEMS, REQUEST, Refused, Scheduler
from plain_bursts import ceiling_of

# Open idles.


class NeverOpen(Scheduler):
    def is_open(self, room):
        return False


class OpenThoughItIsNotToBe(Scheduler):
    def is_open(self, room):
        return room >= self.config["poll_slots"]


class OpenThoughNoPollFits(Scheduler):
    def is_open(self, room):
        return self.config.get("open_idle", 0) == 1


class OpenAboveAPoll(Scheduler):
    """An idle as long as a poll is closed."""

    def is_open(self, room):
        return super().is_open(room) and room > self.config["poll_slots"]


class OpenAMinislotSooner(Scheduler):
    """An idle that is shorter than a poll by a minislot is open."""

    def is_open(self, room):
        return super().is_open(room + 1)


class OpenByTheRegion(Scheduler):
    """An idle is open that is as long as the request region."""

    def is_open(self, room):
        return self.config.get("open_idle", 0) == 1 and room >= self.config["req_slots"]


class OpenOncePerMap(Scheduler):
    """Only the first idle that a poll fits is open."""

    def is_open(self, room):
        is_first = getattr(self, "opened", None) != self.maps
        if is_first and super().is_open(room):
            self.opened = self.maps
            return True
        return False


class OpenBeforeTheNullAlone(Scheduler):
    """An idle before a poll or an unsolicited grant is closed."""

    def chosen_at(self, start, room, waiting):
        found = super().chosen_at(start, room, waiting)
        is_last = start + room == self.next + self.frame
        return found if is_last or found[:2] != (ALL_MODEMS, REQUEST) else (0, self.long_usage(), 0, room)


class OpenWhereNobodyWaits(Scheduler):
    """Idles are closed while bytes are outstanding."""

    def is_open(self, room):
        return super().is_open(room) and all(flow.outstanding() == 0 for flow in self.flows.values())


class OpenToNobody(Scheduler):
    def idle_at(self, room):
        return (0, *super().idle_at(room)[1:])


class OpenAsRequestsAndData(Scheduler):
    """An open idle has the code of Request/Data."""

    def idle_at(self, room):
        sid, usage, *rest = super().idle_at(room)
        return sid, 2 if usage == REQUEST else usage, *rest


class OpenAsLongAsAPoll(Scheduler):
    """An open idle has the minislots of a poll, and the next begins behind it."""

    def idle_at(self, room):
        found = super().idle_at(room)
        return (*found[:3], self.config["poll_slots"]) if found[1] == REQUEST else found


class OpenInWholePolls(Scheduler):
    """What is left behind as many polls as an open idle holds is closed."""

    def idle_at(self, room):
        found, left = super().idle_at(room), room % self.config["poll_slots"]
        return (*found[:3], room - left) if found[1] == REQUEST else found


class OpenCountsAsBytes(Scheduler):
    """An open idle has its minislots for bytes."""

    def idle_at(self, room):
        found = super().idle_at(room)
        return (*found[:2], room, room) if found[1] == REQUEST else found


class JoinsTheRequestRegion(Scheduler):
    """An open idle behind the request region is a part of that."""

    def fill(self, start, periodic):
        elements, counts = super().fill(start, periodic)
        if elements[1:] and elements[1][:2] == (ALL_MODEMS, REQUEST):
            del elements[1], counts[1]
        return elements, counts


class OpenBeforeData(Scheduler):
    """Requests come before data where a poll fits."""

    def chosen_at(self, start, room, waiting):
        return self.opportunity_at(room, waiting) or (
            self.idle_at(room) if self.is_open(room) else super().chosen_at(start, room, waiting))


# Which MAPs settle.


class NothingSettles(Scheduler):
    def settles(self, start):
        return super().settles(start) and False


class SettlesInTheFirstAlone(Scheduler):
    """Only the MAP that changes settles."""

    def is_near(self, change, start):
        return super().is_near(change, start) and change == start


class SettlesBehindTheFirstAlone(Scheduler):
    """The MAP that changes does not settle."""

    def is_near(self, change, start):
        return super().is_near(change, start) and change < start


class TheFirstWhereNothingSettles(Scheduler):
    """A MAP that changes settles where no minislot is to."""

    def is_near(self, change, start):
        return start == change or super().is_near(change, start)


class SettlesAFrameMore(Scheduler):
    """A MAP settles too that starts as late as is to settle."""

    def is_near(self, change, start):
        return self.config.get("settle", 0) > 0 and start - change <= self.config["settle"]


class SettlesInWholeFramesAlone(Scheduler):
    """A MAP settles whose frame ends in time, or which changes."""

    def is_near(self, change, start):
        return super().is_near(change, start) and (
            start == change or super().is_near(change, start + self.frame - 1))


class SettlesAFrameLess(Scheduler):
    """One MAP too few settles where whole frames are to."""

    def is_near(self, change, start):
        return super().is_near(change, start) and (start == change or super().is_near(change, start + self.frame))


class SettlesByMaps(Scheduler):
    """Frames that are left out do not count."""

    def settles(self, start):
        super().settles(start)
        self.made = [*getattr(self, "made", []), start]
        most = ceiling_of(self.config.get("settle", 0), self.frame)
        return any(len(self.made) - 1 - self.made.index(it) < most for it in self.changes)


class SettlesInTicks(Scheduler):
    """As many ticks settle as minislots are to."""

    def is_near(self, change, start):
        return super().is_near(change * self.config["ticks"], start * self.config["ticks"])


class SettlesFromTheHeader(Scheduler):
    """What settles begins where the frame would start that was next when the count was set."""

    def header(self, call):
        reply = super().header(call)
        self.told = self.next
        return reply

    def settles(self, start):
        super().settles(start)
        self.changes = [getattr(self, "told", it) if it == start else it for it in self.changes]
        return any(self.is_near(it, start) for it in self.changes)


class EndsWithASkip(Scheduler):
    """Behind frames that are left out nothing settles but a change."""

    def skip(self, call):
        reply, self.changes = super().skip(call), []
        return reply


class SettlesInWireTime(Scheduler):
    """Minislots are compared as on the wire."""

    def is_near(self, change, start):
        return super().is_near(change % 2**32, start % 2**32) and start % 2**32 >= change % 2**32


class EachHeaderSettles(Scheduler):
    """A header settles that has the count which stands."""

    def header(self, call):
        reply, self.is_told = super().header(call), True
        return reply

    def is_changed(self):
        is_told, self.is_told = getattr(self, "is_told", False), False
        return is_told


class AnyCountThatWasSetSettles(Scheduler):
    """A MAP settles behind a header of another count, though the next has that of the MAP before again."""

    def header(self, call):
        before = self.heading["ucd_count"]
        reply = super().header(call)
        self.is_set = getattr(self, "is_set", False) or call["ucd_count"] != before
        return reply

    def is_changed(self):
        is_set, self.is_set = getattr(self, "is_set", False), False
        return is_set


class EachNumberOfAHeaderSettles(Scheduler):
    """A MAP settles whose windows are others."""

    def is_changed(self):
        before, self.before = getattr(self, "before", self.heading), self.heading
        return super().is_changed() or before != self.heading


class ARefusedHeaderSettles(Scheduler):
    """A header that is refused settles, and changes no count."""

    def header(self, call):
        try:
            return super().header(call)
        except Refused:
            self.is_refused = call["ucd_count"] != self.heading["ucd_count"]
            raise

    def is_changed(self):
        is_refused, self.is_refused = getattr(self, "is_refused", False), False
        return is_refused or super().is_changed()


class TheFirstNeverChanges(Scheduler):
    """The first MAP is compared with none."""

    def is_changed(self):
        is_first, self.is_behind = not hasattr(self, "is_behind"), True
        return super().is_changed() and not is_first


class TheFirstAlwaysChanges(Scheduler):
    """The first MAP settles, whatever its count is."""

    def is_changed(self):
        is_first, self.is_behind = not hasattr(self, "is_behind"), True
        return super().is_changed() or is_first


class TheFirstBehindASkipChanges(Scheduler):
    """A MAP behind frames that were left out is compared with none."""

    def skip(self, call):
        reply, self.count_before = super().skip(call), None
        return reply


class AgainstTheConfiguration(Scheduler):
    """A MAP changes where its count is another than the configuration's, and the MAP before had another."""

    def is_changed(self):
        return super().is_changed() and self.heading["ucd_count"] != self.config["ucd_count"]


class WhileItIsAnother(Scheduler):
    """Each MAP of another count than the configuration's changes."""

    def is_changed(self):
        return self.heading["ucd_count"] != self.config["ucd_count"]


class SettlesForAGreaterCount(Scheduler):
    """A count that falls is no change."""

    def is_changed(self):
        return self.heading["ucd_count"] > self.count_before


class SettlesForTheNextCount(Scheduler):
    """A count that is not the next one is no change."""

    def is_changed(self):
        return self.heading["ucd_count"] == (self.count_before + 1) % 256


class NoChangeWhileItSettles(Scheduler):
    """A count that changes while another settles begins nothing anew."""

    def settles(self, start):
        before, settled = [*self.changes], any(self.is_near(it, start) for it in self.changes)
        found = super().settles(start)
        if settled:
            self.changes = before
        return found


class TheLastCountEndsIt(Scheduler):
    """A count that is changed back while it settles ends that."""

    def settles(self, start):
        first = getattr(self, "first", None)
        if self.is_changed() and any(self.is_near(it, start) for it in self.changes):
            if self.heading["ucd_count"] == first:
                self.count_before, self.changes = first, []
        elif self.is_changed():
            self.first = self.count_before
        return super().settles(start)


class OldCountWhileItSettles(Scheduler):
    """MAPs that settle have the count before."""

    def payload(self, start, ack, elements):
        text, count = super().payload(start, ack, elements), self.heading["ucd_count"]
        if not any(self.is_near(it, start) for it in self.changes):
            self.old = count
        old = getattr(self, "old", self.config["ucd_count"])
        return f"{text[:2]}{old:02x}{text[4:]}" if elements[0][2] == 0 == elements[0][0] else text


# What a MAP has that settles.


class OpenWhileItSettles(Scheduler):
    """The idle of a MAP that settles is open."""

    def settled(self):
        return [self.idle_at(self.frame)[:2] + (0,)], [0]


class RegionWhileItSettles(Scheduler):
    """A MAP that settles has its request region."""

    def settled(self):
        region = self.config["req_slots"]
        return [(ALL_MODEMS, REQUEST, 0), (0, self.long_usage(), region)], [0, 0]


class IdleBehindTheRegion(Scheduler):
    """The idle of a MAP that settles begins behind a request region that is not there."""

    def settled(self):
        return [(0, self.long_usage(), self.config["req_slots"])], [0]


class NothingWhileItSettles(Scheduler):
    """A MAP that settles has its Null alone."""

    def settled(self):
        return [], []


class ShortIdleWhileItSettles(Scheduler):
    def settled(self):
        return [(0, 9 if self.config["phy"] == 1 else 5, 0)], [0]


class LongIdleOfAnyChannel(Scheduler):
    """The idle of a MAP that settles has the code of a channel without an Advanced PHY."""

    def settled(self):
        return [(0, 6, 0)], [0]


class Standing(Scheduler):
    """What is periodic stands in a MAP that settles, where it is of these usages, and idles before and behind it."""

    USAGES = (REQUEST,)

    def settled(self):
        elements, at = [], 0
        for offset, sid, usage, slots in self.periodic_in(self.next):
            if usage in self.USAGES:
                elements += [(0, self.long_usage(), at)] * (at < offset) + [(sid, usage, offset)]
                at = offset + slots
        elements += [(0, self.long_usage(), at)] * (at < self.frame)
        return elements, [0] * len(elements)


GRANTS = (5, 6, 9, 10, 11)
STANDING = [type(name, (Standing,), {"USAGES": usages}) for name, usages in [
    ("PollsWhileItSettles", (REQUEST,)), ("UnsolicitedWhileItSettles", GRANTS),
    ("PeriodicWhileItSettles", (REQUEST, *GRANTS))]]


class OnlyRequestsWait(Scheduler):
    """A MAP that settles has no request region, and is filled as ever behind it."""

    def settled(self):
        elements, counts = self.fill(self.next, self.periodic_in(self.next))
        return [(0, self.long_usage(), 0), *elements[1:]], counts


class OpportunitiesWhileItSettles(Scheduler):
    """A MAP that settles has opportunities behind an idle in the place of its region."""

    def settled(self):
        at, elements, counts = self.config["req_slots"], [(0, self.long_usage(), 0)], [0]
        waiting, chosen = self.waiting(), True
        while chosen and at < self.frame:
            chosen = self.opportunity_at(self.frame - at, waiting)
            sid, usage, _, slots = chosen or (0, self.long_usage(), 0, 0)
            elements.append((sid, usage, at))
            at += slots
        return elements, [0] * len(elements)


class DataWhileItSettles(Scheduler):
    """A MAP that settles has data grants, and nothing else but idles."""

    def settled(self):
        at, elements, counts = 0, [], []
        while at < self.frame:
            room = self.frame - at
            found = self.grant_at(self.next + at, room, []) or (0, self.long_usage(), 0, room)
            elements.append((*found[:2], at))
            counts.append(found[2])
            at += found[3]
        return elements, counts


class NoPendingWhileItSettles(Scheduler):
    """A MAP that settles shows no flow, and acknowledges as ever."""

    def payload(self, start, ack, elements):
        is_settled = elements[0][2] == 0 == elements[0][0]
        return super().payload(start, ack, elements[:2] if is_settled else elements)


class ShowsNoneWhileItSettles(Scheduler):
    """A MAP that settles shows no flow, and acknowledges nothing that waits."""

    def map_of(self, start):
        self.is_settled = False
        return super().map_of(start)

    def settled(self):
        self.is_settled = True
        return super().settled()

    def shown(self, waiting):
        return [] if self.is_settled else super().shown(waiting)


class AcknowledgesNothingWhileItSettles(Scheduler):
    """A MAP that settles acknowledges what the one before it did."""

    def acknowledged(self, hidden):
        if not any(self.is_near(it, self.next) for it in self.changes):
            self.ack = super().acknowledged(hidden)
        return getattr(self, "ack", self.config["start"])


class AcknowledgesTheLeastWhileItSettles(Scheduler):
    """What a MAP that settles does not show holds nothing back."""

    def acknowledged(self, hidden):
        is_settled = any(self.is_near(it, self.next) for it in self.changes)
        return super().acknowledged([] if is_settled else hidden)


class AgesWhileItSettles(Scheduler):
    """A Reserve ages by a MAP that settles."""

    def settled(self):
        self.maps += 1
        return super().settled()


class LapsesWhileItSettles(Scheduler):
    """A Reserve lapses with a MAP that settles."""

    def settled(self):
        self.reserves = []
        return super().settled()


class AgesByTheFirstAlone(Scheduler):
    """A Reserve ages by the MAP that changes, and not by those that settle behind it."""

    def settled(self):
        self.maps += self.changes[-1] == self.next
        return super().settled()


class NeverAgesBehindAChange(Scheduler):
    """A Reserve over whose wait a MAP settled waits for as many MAPs anew."""

    def settled(self):
        for wanted in self.due():
            wanted.maps = self.maps
        return super().settled()


KINDS = [it for it in list(globals().values()) if isinstance(it, type)]
WRONG_IDLES = [it for it in KINDS if it.__bases__ == (Scheduler,) and it is not Standing] + STANDING
