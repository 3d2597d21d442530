"""Plain schedulers (plain.py) of which each has one rule of the usages of opportunities wrong, as it is likely to be
read: whom each may go to, what its element says, and that it grants nothing."""

from plain import ALL_MODEMS, MODEMS, PRIORITIES, REQUEST, SIDS, STATION, Scheduler, refuse

# Whom opportunities may go to.

EVERYBODY = [MODEMS, PRIORITIES, [ALL_MODEMS]]
OTHER_SIDS = {
    "RequestsToTheSidBeforePriorities": {"request": [MODEMS, range(15872, 16128), [ALL_MODEMS]]},
    "RequestsToTheSidBehindPriorities": {"request": [MODEMS, range(15873, 16129), [ALL_MODEMS]]},
    "NoRequestsToTheFirstPriority": {"request": [MODEMS, range(15874, 16128), [ALL_MODEMS]]},
    "NoRequestsToTheLastPriority": {"request": [MODEMS, range(15873, 16127), [ALL_MODEMS]]},
    "NoRequestsByPriorities": {"request": [MODEMS, [ALL_MODEMS]]},
    "NoRequestsOfAll": {"request": [MODEMS, PRIORITIES]},
    "NoRequestsOfOneModem": {"request": [PRIORITIES, [ALL_MODEMS]]},
    "RequestsToTheSidBeforeAll": {"request": [MODEMS, PRIORITIES, [ALL_MODEMS - 1, ALL_MODEMS]]},
    "RequestsToAnySid": {"request": [range(1, 2**14)]},
    "RequestsToNobody": {"request": [range(8192), PRIORITIES, [ALL_MODEMS]]},
    "InitialToEverybody": {"initial_to": EVERYBODY},
    "InitialToAModemOrAll": {"initial_to": [MODEMS, [ALL_MODEMS]]},
    "DataToEverybody": {"data": EVERYBODY},
    "DataToNobody": {"data": [range(8192)]},
    "DataToOneSidMore": {"data": [range(1, 8193)]},
    "NoDataToTheLastModem": {"data": [range(1, 8191)]},
    "NoInitialToTheLastModem": {"initial_to": [range(1, 8191)]},
    "StationToEverybody": {"station": EVERYBODY},
}


class RefusesForTheLengthFirst(Scheduler):
    """A length that no frame has is told before an SID that is none."""

    def reserve(self, call):
        if not 1 <= call["slots"] <= self.frame - self.config["req_slots"]:
            refuse(18)
        return super().reserve(call)


class RefusesDataWithoutAFlow(Scheduler):
    def reserve(self, call):
        if call["usage"] == "data" and call["sid"] in MODEMS and call["sid"] not in self.flows:
            refuse(7)
        return super().reserve(call)


class RefusesDataToAFlowThatDoesNotAsk(Scheduler):
    def reserve(self, call):
        if call["usage"] == "data" and call["sid"] in self.flows and self.flows[call["sid"]].kind == "unsolicited":
            refuse(8)
        return super().reserve(call)


class RefusesRequestsWithoutAFlow(Scheduler):
    def reserve(self, call):
        if call["usage"] == "request" and call["sid"] in MODEMS and call["sid"] not in self.flows:
            refuse(7)
        return super().reserve(call)


class RefusesDataThatCarryNothing(Scheduler):
    def reserve(self, call):
        reply = super().reserve(call)
        return reply if call["usage"] != "data" or self.capacity(call["slots"]) else refuse(18)


# Quiet windows.


class QuietIsFilled(Scheduler):
    """Data stand in the minislots of a quiet window, or an idle."""

    def opportunity_at(self, room, waiting):
        found = super().opportunity_at(room, waiting)
        return found if found and found[0] else None


class QuietIsOpen(Scheduler):
    """A quiet window is open where an idle as long would be."""

    def opportunity_at(self, room, waiting):
        found = super().opportunity_at(room, waiting)
        return (*self.idle_at(found[3])[:2], *found[2:]) if found and found[0] == 0 else found


class QuietJoinsTheIdle(Scheduler):
    """A quiet window and the idle behind it are one element."""

    def fill(self, start, periodic):
        elements, counts = super().fill(start, periodic)
        idle = 0, self.long_usage()
        for at in reversed(range(2, len(elements))):
            if elements[at][:2] == elements[at - 1][:2] == idle:
                del elements[at], counts[at]
        return elements, counts


class QuietIsShorter(Scheduler):
    """A quiet window has a minislot less, which is guard time."""

    def opportunity_at(self, room, waiting):
        found = super().opportunity_at(room, waiting)
        return (*found[:3], found[3] - 1) if found and found[0] == 0 and found[3] > 1 else found


class QuietGoesLast(Scheduler):
    """A quiet window stands behind all others that fit."""

    def opportunity_at(self, room, waiting):
        return super().opportunity_at(room, sorted(waiting, key=lambda it: it.sid == 0))


class QuietToAll(Scheduler):
    """A quiet window reads like requests of all modems."""

    def word_of(self, call):
        return (ALL_MODEMS, REQUEST) if call["usage"] == "quiet" else super().word_of(call)


class QuietOfAnyChannel(Scheduler):
    """A quiet window has the code of a channel without an Advanced PHY."""

    def word_of(self, call):
        return (0, 6) if call["usage"] == "quiet" else super().word_of(call)


class QuietIsShort(Scheduler):
    """A quiet window has the code of a short grant."""

    def word_of(self, call):
        return (0, self.long_usage() - 1) if call["usage"] == "quiet" else super().word_of(call)


class AnIdleMeetsAQuietWindow(Scheduler):
    """An idle that is long enough meets a quiet window, which stands nowhere else."""

    def chosen_at(self, start, room, waiting):
        others = [it for it in waiting if it.sid]
        found = self.opportunity_at(room, others) or self.grant_at(start, room, waiting)
        for wanted in waiting:
            if not found and wanted.sid == 0 and wanted.slots <= room and wanted.met is None:
                wanted.met = self.maps
        return found or self.idle_at(room)


# Requests.


class RequestsAsRequestsAndData(Scheduler):
    """Requests have the code of Request/Data."""

    def word_of(self, call):
        sid, code = super().word_of(call)
        return sid, 2 if code == REQUEST else code


class RequestsToTheNextSid(Scheduler):
    """Requests of a modem go to the SID behind its own."""

    def word_of(self, call):
        sid, code = super().word_of(call)
        return sid + (code == REQUEST and sid in MODEMS), code


class RequestsToAll(Scheduler):
    """Requests of one modem, or of those of some priorities, are those of all."""

    def word_of(self, call):
        sid, code = super().word_of(call)
        return (ALL_MODEMS, code) if code == REQUEST else (sid, code)


class RequestsAsLongAsPolls(Scheduler):
    """Requests have no more minislots than a poll."""

    def reserve(self, call):
        reply = super().reserve(call)
        if call["usage"] == "request":
            self.reserves[-1].slots = min(call["slots"], self.config["poll_slots"])
        return reply


class PolledMeetsRequests(Scheduler):
    """Requests of a modem are met by a poll of its flow."""

    def periodic_in(self, start):
        found = super().periodic_in(start)
        for wanted in self.waiting():
            if wanted.usage == REQUEST and any(it[1:3] == (wanted.sid, REQUEST) for it in found):
                wanted.met = self.maps
        return found


class OpenIdlesMeetRequests(Scheduler):
    """Requests of all modems are left to an idle that is open to them."""

    def opportunity_at(self, room, waiting):
        left = [it for it in waiting if (it.sid, it.usage) == (ALL_MODEMS, REQUEST) and self.is_open(it.slots)]
        return super().opportunity_at(room, [it for it in waiting if it not in left])


# One modem ranges.


class InitialToAsStation(Scheduler):
    """One modem ranges by Station Maintenance, whatever was asked for."""

    def word_of(self, call):
        sid, code = super().word_of(call)
        return sid, STATION if call["usage"] == "initial_to" else code


class InitialToOfAll(Scheduler):
    """Where one modem is to range as one that joins, all may."""

    def word_of(self, call):
        sid, code = super().word_of(call)
        return ALL_MODEMS if call["usage"] == "initial_to" else sid, code


# Data.


class DataByTheMinislots(Scheduler):
    """Data are short in as many minislots as short ones may have."""

    def usage_in(self, slots):
        return self.long_usage() - (slots <= self.config["short_max"])


class DataOfNoBytesAreShort(Scheduler):
    def usage_in(self, slots):
        return super().usage_in(slots) if self.capacity(slots) else self.long_usage() - 1


class DataAlwaysLong(Scheduler):
    def usage_in(self, slots):
        return self.long_usage()


class DataAlwaysShort(Scheduler):
    def usage_in(self, slots):
        return self.long_usage() - 1


class DataAsUnsolicited(Scheduler):
    """Data on an Advanced PHY channel have the code of unsolicited grants."""

    def usage_in(self, slots):
        return 11 if self.long_usage() == 10 else super().usage_in(slots)


class DataOfAnyChannel(Scheduler):
    """Data have the codes of a channel without an Advanced PHY."""

    def usage_in(self, slots):
        code = super().usage_in(slots)
        return {9: 5, 10: 6}.get(code, code)


class DataOfAByteEach(Scheduler):
    """Data have the usage of as many bytes as they have minislots."""

    def usage_in(self, slots):
        return self.usage(slots)


class UnsolicitedMeetsData(Scheduler):
    """Data to a modem are met by an unsolicited grant of its flow."""

    def periodic_in(self, start):
        found = super().periodic_in(start)
        for wanted in self.waiting():
            if wanted.usage in (5, 6, 9, 10) and any(it[1] == wanted.sid and it[2] != REQUEST for it in found):
                wanted.met = self.maps
        return found


class DataTellTheirBytes(Scheduler):
    """The bytes that data carry are told, as those of a data grant are."""

    def opportunity_at(self, room, waiting):
        found = super().opportunity_at(room, waiting)
        return self.told(*found) if found and found[0] and found[1] in (5, 6, 9, 10) else found

    def told(self, sid, code, count, slots):
        return sid, code, self.capacity(slots), slots

    def asking(self, sid):
        """The flow of an SID, where it asked for more than it was granted."""
        flow = self.flows.get(sid)
        return flow if flow and flow.kind != "unsolicited" and flow.outstanding() > 0 else None


class DataAreCharged(DataTellTheirBytes):
    """The bytes of data count as granted to the flow of their SID that waits, and are not told."""

    def told(self, sid, code, count, slots):
        flow = self.asking(sid)
        if flow:
            flow.grants.append((self.next, min(self.capacity(slots), flow.outstanding())))
        return sid, code, 0, slots


class DataServeTheFlow(DataTellTheirBytes):
    """Data to a flow that waits are its grant."""

    def told(self, sid, code, count, slots):
        flow = self.asking(sid)
        if flow:
            count = min(self.capacity(slots), flow.outstanding())
            flow.grants.append((self.next, count))
        return sid, code, count, slots


class DataTakeTheTurn(DataTellTheirBytes):
    """A flow to whose SID data stand has had its turn."""

    def told(self, sid, code, count, slots):
        if sid in self.flows:
            self.flows[sid].grants.append((self.next, 0))
        return sid, code, 0, slots


class DataOnlyWhereNobodyWaits(DataTellTheirBytes):
    """Data to a flow that waits are left out, for it has its grant."""

    def opportunity_at(self, room, waiting):
        return Scheduler.opportunity_at(self, room, [it for it in waiting if not (
            it.usage in (5, 6, 9, 10) and it.sid and self.asking(it.sid))])


KINDS = [it for it in list(globals().values()) if isinstance(it, type) and it is not Scheduler]
WRONG_OPPORTUNITIES = KINDS + [type(name, (Scheduler,), {"sids": {**SIDS, **of}}) for name, of in OTHER_SIDS.items()]
