"""What histories have reached of flows that wait, that MAPs show and that may live, and whether the laws of
acknowledging hold. It is read in the entries alone, and knows nothing of how a MAP is made: which requests are served
is counted in bytes, and there are no batches."""

from plain_bursts import Bursts
from reached import ELEMENTS, GRANTS, LONG, TOGETHER, Following
from texts import LIMITS

STARTS, WIRE = 40, 2**32

FLOWS = {
    "a flow is refused, for the only one that may lives", "a flow is refused, for more than 64 live",
    "a periodic flow is refused, for none may live", "a periodic flow is refused, and would not be with one grant",
    "more than 64 flows live", "grants and polls of more than 40 in an interval",
    "forty starts in a frame, and no more", "all flows that wait are shown", "as many flows wait as a MAP shows",
    "a flow is not shown", "one flow is shown",
    "64 flows are shown and more wait", "125 flows are shown and more wait", "a flow of a higher SID is shown first",
    "a shown flow is not shown later", "a flow is shown later", "a flow that is not shown is removed",
    "a flow that is not shown asks again", "a flow that is not shown has a grant", "a polled flow is not shown",
    "the acknowledge time is held back", "it stays where progress goes on", "it moves on and is held back again",
    "it moves on up to the least progress", "it is held back before a wrap of the minislots",
    "it is held back behind a wrap of the minislots", "it passes a request that waits",
    "it passes a request that is the first of its flow", "it is held back by a request that is served",
    "data grants as many as pending ones leave", "data grants as many as pending ones and opportunities leave",
    "240 elements with 64 pending ones", "240 elements with more pending ones",
    "a request of a flow that is not shown is replaced", "a request of a flow that is not shown is replaced with none",
    "it is held back by a request that replaced others", "it is held back in a MAP that settles",
}


class Asking:
    """A life of a flow: what it may have, its requests as (minislot, bytes asked with it), and the bytes granted."""

    def __init__(self, flow):
        self.flow, self.asked, self.granted, self.requests = flow, 0, 0, []

    def ask(self, count, heard):
        self.asked += count
        self.requests.append((heard, self.asked))

    def replace(self, count, heard):
        """A request in the place of those that wait, of which nobody is served any more."""
        self.asked = self.granted + count
        self.requests = [(heard, self.asked)] if count else []

    def waits(self):
        return self.asked > self.granted

    def unserved(self):
        """The minislots at which its requests were heard that wait."""
        return [heard for heard, asked in self.requests if asked > self.granted]

    def each(self):
        """How many grants or polls it has in an interval."""
        return {"best_effort": 0, "polled": 1}.get(self.flow["kind"], self.flow.get("grants", 1))


class Waited:
    """What the entries that were read have reached, and where one breaks a law."""

    def __init__(self, config):
        self.config, self.limits = config, {name: config.get(name, most) for name, most in LIMITS.items()}
        self.bursts, self.progress = Bursts(config), [config["start"]] * config["receivers"]
        self.lives, self.ack, self.held, self.shown, self.hidden = {}, 0, False, set(), set()
        self.replaced, self.events, self.faults = set(), set(), []
        self.following, self.found = Following(config), None

    def says(self, event, where=True):
        if where:
            self.events.add(event)

    def breaks(self, law, where):
        if where:
            self.faults.append((self.place, law))

    def read(self, entries):
        for place, entry in enumerate(entries):
            self.place, self.found = place, self.following.follow(entry)
            call, reply = entry["call"], entry["reply"]
            read = getattr(self, call["call"], None)
            if read and reply["kind"] == "refused":
                self.refused(call, reply["number"])
            elif read:
                read(call, reply)
        return self

    def periodic(self):
        return sum(it.each() for it in self.lives.values())

    def refused(self, call, number):
        flows, periodic = self.limits["flows"], self.limits["periodic"]
        self.breaks("a flow is refused before as many live as may", number == 4 and len(self.lives) != flows)
        self.says("a flow is refused, for the only one that may lives", number == 4 and flows == 1)
        self.says("a flow is refused, for more than 64 live", number == 4 and flows > LIMITS["flows"])
        if number == 5:
            own, live = Asking(call["flow"]).each(), self.periodic()
            live -= self.lives[call["sid"]].each() if call["call"] == "change" else 0
            self.breaks("a periodic flow is refused that may live", live + own <= periodic)
            self.says("a periodic flow is refused, for none may live", periodic == 0)
            is_close = own > 1 and live < periodic
            self.says("a periodic flow is refused, and would not be with one grant", is_close)

    # The calls that are accepted.

    def admit(self, call, reply):
        self.lives[call["sid"]] = Asking(call["flow"])
        self.breaks("more flows than may live", len(self.lives) > self.limits["flows"])
        self.breaks("more grants in an interval than may be", self.periodic() > self.limits["periodic"])
        self.says("more than 64 flows live", len(self.lives) > LIMITS["flows"])
        self.says("grants and polls of more than 40 in an interval", self.periodic() > LIMITS["periodic"])

    def remove(self, call, reply):
        del self.lives[call["sid"]]
        self.says("a flow that is not shown is removed", call["sid"] in self.hidden)
        self.shown.discard(call["sid"])
        self.hidden.discard(call["sid"])

    def ask(self, call, reply):
        count = self.bursts.capacity(call["slots"]) if "slots" in call else call["bytes"]
        self.lives[call["sid"]].ask(count, call["heard"])
        self.says("a flow that is not shown asks again", call["sid"] in self.hidden)

    def replace(self, call, reply):
        count = self.bursts.capacity(call["slots"]) if "slots" in call else call["bytes"]
        life = self.lives[call["sid"]]
        is_hidden = call["sid"] in self.hidden and life.waits()
        self.says("a request of a flow that is not shown is replaced", is_hidden and count)
        self.says("a request of a flow that is not shown is replaced with none", is_hidden and not count)
        life.replace(count, call["heard"])
        self.replaced |= {(call["sid"], call["heard"])}

    def change(self, call, reply):
        self.lives[call["sid"]].flow = call["flow"]
        self.breaks("more grants in an interval than may be by a change", self.periodic() > self.limits["periodic"])

    def heard(self, call, reply):
        self.progress[call["receiver"]] = call["upto"]

    def build(self, call, reply):
        found = self.found
        for sid, _, _, _, count in found.grants:
            self.lives[sid].granted += count
            self.says("a flow that is not shown has a grant", sid in self.hidden and self.lives[sid].waits())
        waiting = {sid for sid, life in self.lives.items() if life.waits()}
        shown = [sid for sid, _, _ in found.pending]
        self.shows(found, waiting, shown)
        self.acknowledges(reply, waiting, waiting - set(shown))
        self.counts(found, shown)
        self.says("it is held back in a MAP that settles", found.settles and reply["ack"] < min(self.progress))
        self.follows(reply, set(shown), waiting - set(shown))

    # A MAP.

    def shows(self, found, waiting, shown):
        most, hidden = self.limits["pending"], waiting - set(shown)
        usages = {(usage in LONG, offset) for _, usage, offset in found.pending}
        self.breaks("pending grants that are no long ones at the end", not usages <= {(True, self.config["frame"])})
        self.breaks("pending grants that do not ascend", sorted(set(shown)) != shown)
        self.breaks("a pending grant to a flow that does not wait", not set(shown) <= waiting)
        self.breaks("another number of pending grants", len(shown) != min(most, len(waiting)))
        self.says("all flows that wait are shown", waiting and not hidden)
        self.says("as many flows wait as a MAP shows", len(waiting) == most)
        self.says("a flow is not shown", hidden)
        self.says("one flow is shown", hidden and most == 1)
        self.says("64 flows are shown and more wait", hidden and most == LIMITS["pending"])
        self.says("125 flows are shown and more wait", hidden and most == 125)
        self.says("a flow of a higher SID is shown first", hidden and max(shown) > min(hidden))
        self.says("a polled flow is not shown", any(self.lives[it].flow["kind"] == "polled" for it in hidden))
        self.says("a shown flow is not shown later", self.shown & hidden)
        self.says("a flow is shown later", self.hidden & set(shown))

    def acknowledges(self, reply, waiting, hidden):
        ack, least = reply["ack"], min(self.progress)
        self.breaks("the acknowledge time falls", ack < self.ack)
        self.breaks("it is above the least progress", ack > least)
        self.breaks("it is held back where all are shown", len(waiting) <= self.limits["pending"] and ack != least)
        passed = {sid for sid in waiting if min(self.lives[sid].unserved()) < ack}
        self.breaks("it passes a request that waits, of a flow that is not shown", passed & hidden)
        self.says("it passes a request that waits", passed)
        for sid in passed:
            self.says("it passes a request that is the first of its flow", self.lives[sid].granted == 0)
        requests = {heard for sid in hidden for heard, _ in self.lives[sid].requests}
        self.breaks("it is held back by no request of a flow that is not shown", ack != least and ack not in requests)
        unserved = {heard for sid in hidden for heard in self.lives[sid].unserved()}
        self.says("it is held back by a request that is served", ack != least and ack not in unserved)
        self.says("it is held back by a request that replaced others",
                  ack != least and any((sid, ack) in self.replaced for sid in hidden))

    def counts(self, found, shown):
        leave = TOGETHER - self.limits["pending"]
        most = min(GRANTS, leave)
        self.breaks("more elements than 240", found.elements > ELEMENTS)
        self.breaks("more data grants than pending ones leave", len(found.grants) > most)
        self.breaks("more starts in a frame than 40", len(found.periodic) > STARTS)
        is_more = self.periodic() > STARTS
        self.says("forty starts in a frame, and no more", is_more and len(found.periodic) == STARTS)
        self.says("data grants as many as pending ones leave", len(found.grants) == leave < GRANTS)
        beside = found.opportunities and len(found.grants) + len(found.opportunities) == leave < GRANTS
        self.says("data grants as many as pending ones and opportunities leave", beside)
        self.says("240 elements with 64 pending ones", found.elements == ELEMENTS and len(shown) == LIMITS["pending"])
        self.says("240 elements with more pending ones", found.elements == ELEMENTS and len(shown) > LIMITS["pending"])

    def follows(self, reply, shown, hidden):
        ack, least = reply["ack"], min(self.progress)
        is_held = ack < least
        self.says("the acknowledge time is held back", is_held)
        self.says("it stays where progress goes on", is_held and self.held and ack == self.ack and least > self.least)
        self.says("it moves on and is held back again", is_held and self.held and ack > self.ack)
        self.says("it moves on up to the least progress", not is_held and self.held and ack > self.ack)
        wraps = ack // WIRE < least // WIRE
        self.says("it is held back before a wrap of the minislots", is_held and wraps)
        self.says("it is held back behind a wrap of the minislots", is_held and not wraps and 0 < ack // WIRE < 2)
        self.ack, self.held, self.least, self.shown, self.hidden = ack, is_held, least, shown, hidden
