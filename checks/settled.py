"""What histories have reached of idles that are open to requests and of MAPs that settle behind a change of the UCD
count, and whether their laws hold. It is read in the entries alone, and knows nothing of how a MAP is made."""

from reached import MODEMS, REQUEST, Following

WIRE = 2**32

IDLES = {
    # open idles
    "an idle is open", "an idle as long as a poll is open", "an idle that is a minislot shorter than a poll is closed",
    "several idles are open", "an idle is open and another is not", "an idle is open behind the request region",
    "an idle is open behind data", "an idle is open behind an opportunity",
    "an idle is open behind a poll or an unsolicited grant", "an idle is open before a poll or an unsolicited grant",
    "an idle is open while a flow waits", "an idle is open where a burst descriptor is",
    "an idle is closed that would hold a poll", "an idle is open and another closed on an Advanced PHY channel",
    # which MAPs settle
    "the first MAP changes", "a later MAP changes", "a MAP changes where none settles",
    "a MAP settles for less than a frame", "a MAP settles for a frame", "a MAP settles for several frames",
    "a MAP settles behind the one that changes", "the last minislot settles a frame",
    "a MAP starts as late as is to settle", "a MAP starts a minislot later than that",
    "the count that stands is set again", "a count is set that no MAP has", "a refused header has another count",
    "a count is changed back", "a count changes while another settles", "a count is changed back while it settles",
    "a MAP settles behind frames that are left out", "frames are left out that would settle",
    "a MAP changes behind frames that were left out since its header", "a MAP settles behind a wrap of the minislots",
    # what a MAP has that settles
    "a flow waits while a MAP settles", "the first request of a flow waits while a MAP settles",
    "a MAP settles on an Advanced PHY channel", "a MAP settles where idles are open",
    "data are granted behind a MAP that settles",
}


class Settled:
    """What the entries that were read have reached, and where one breaks a law."""

    def __init__(self, config):
        self.config, self.frame, self.following = config, config["frame"], Following(config)
        self.is_open, self.settle = config.get("open_idle", 0) == 1, config.get("settle", 0)
        self.long = 10 if config["phy"] == 1 else 6
        # the counts that MAPs had, the one before them first; that of the last header; where a MAP changed last
        self.counts, self.count, self.changed = [config["ucd_count"]], config["ucd_count"], None
        self.next, self.since, self.left_out, self.granted, self.behind = config["start"], set(), 0, set(), False
        self.events, self.faults, self.place = set(), [], 0

    def says(self, event, where=True):
        if where:
            self.events.add(event)

    def breaks(self, law, where):
        if where:
            self.faults.append((self.place, law))

    def read(self, entries):
        for self.place, entry in enumerate(entries):
            call, reply, found = entry["call"], entry["reply"], self.following.follow(entry)
            if call["call"] == "header":
                self.header(call, reply)
            elif reply["kind"] == "skipped":
                self.skip(reply)
            elif found:
                self.map(reply, found)
            elif reply["kind"] in ("admitted", "removed"):
                self.granted.discard(call["sid"])
        return self

    # Before a MAP.

    def header(self, call, reply):
        is_other = call["ucd_count"] != self.counts[-1]
        if reply["kind"] == "refused":
            self.since |= {"a refused header has another count"} if is_other else set()
            return
        self.since |= {"another count"} if is_other else {"the count that stands is set again"}
        self.count, self.left_out = call["ucd_count"], 0

    def skip(self, reply):
        self.left_out += (reply["next"] - self.next) // self.frame
        self.next = reply["next"]

    # A MAP.

    def map(self, reply, found):
        start, is_changed = reply["start"], self.count != self.counts[-1]
        self.changes(start, is_changed)
        settles = self.changed is not None and start - self.changed < self.settle
        self.breaks("a MAP settles that ought not to, or does not", found.settles != settles)
        self.breaks("another count", found.heading[0] != self.count)
        if settles:
            self.settles(found)
        else:
            self.idles(found)
        self.times(start, settles, is_changed)
        self.granted |= {it[0] for it in found.grants}
        self.says("data are granted behind a MAP that settles", self.behind and found.grants)
        self.counts.append(self.count)
        self.next, self.since, self.left_out, self.behind = start + self.frame, set(), 0, settles

    def changes(self, start, is_changed):
        if self.settle and not is_changed:
            self.events |= self.since - {"another count"}
            self.says("a count is set that no MAP has", "another count" in self.since)
        if not is_changed:
            return
        settled = self.changed is not None and start - self.changed < self.settle
        is_back = self.settle and self.count in self.counts
        self.says(f"{'the first' if len(self.counts) == 1 else 'a later'} MAP changes", self.settle)
        self.says("a MAP changes where none settles", not self.settle)
        self.says("a count is changed back", is_back)
        self.says("a count changes while another settles", settled)
        self.says("a count is changed back while it settles", settled and is_back)
        self.says("a MAP changes behind frames that were left out since its header", self.settle and self.left_out)
        self.changed = start

    def times(self, start, settles, is_changed):
        """How long after the last change a MAP starts."""
        if self.changed is None or not self.settle:
            return
        late = start - self.changed
        more = "a frame" if self.settle == self.frame else "several frames"
        self.says(f"a MAP settles for {'less than a frame' if self.settle < self.frame else more}", settles)
        self.says("a MAP settles behind the one that changes", settles and late)
        self.says("the last minislot settles a frame", late == self.settle - 1 > 0)
        self.says("a MAP starts as late as is to settle", late == self.settle)
        self.says("a MAP starts a minislot later than that", late == self.settle + 1)
        self.says("a MAP settles behind frames that are left out", settles and not is_changed and self.left_out)
        would = not settles and self.left_out and start - self.left_out * self.frame - self.changed < self.settle
        self.says("frames are left out that would settle", would)
        wraps = start // WIRE > self.changed // WIRE
        self.says("a MAP settles behind a wrap of the minislots", settles and wraps)

    def settles(self, found):
        self.breaks("a MAP that settles has more than an idle", found.front != [(0, self.long, 0, self.frame, 0)])
        waiting = {sid for sid, _, _ in found.pending}
        self.says("a flow waits while a MAP settles", waiting)
        self.says("the first request of a flow waits while a MAP settles", waiting - self.granted)
        self.says("a MAP settles on an Advanced PHY channel", self.config["phy"] == 1)
        self.says("a MAP settles where idles are open", self.is_open)

    def idles(self, found):
        poll, region = self.config["poll_slots"], (MODEMS, REQUEST, 0, self.config["req_slots"], 0)
        self.breaks("no request region at the head", found.front[0] != region)
        closed = [it for it in found.idles if it not in found.open]
        open_lengths, lengths = [it[3] for it in found.open], [it[3] for it in closed]
        self.breaks("an idle is open that is not to be", open_lengths and not self.is_open)
        self.breaks("an idle is open that holds no poll", min(open_lengths, default=poll) < poll)
        self.breaks("an idle is closed that holds a poll", self.is_open and max(lengths, default=0) >= poll)
        self.breaks("bytes of an idle, or another usage", any(it[4] for it in found.idles) or
                    any(it[:2] != (0, self.long) for it in closed))
        self.says("an idle is closed that would hold a poll", not self.is_open and max(lengths, default=0) >= poll)
        self.says("an idle that is a minislot shorter than a poll is closed", self.is_open and poll - 1 in lengths)
        self.says("an idle as long as a poll is open", poll in open_lengths)
        self.says("several idles are open", len(open_lengths) > 1)
        self.says("an idle is open and another is not", open_lengths and lengths)
        are_both = open_lengths and lengths and self.config["phy"] == 1
        self.says("an idle is open and another closed on an Advanced PHY channel", are_both)
        self.says("an idle is open while a flow waits", open_lengths and found.pending)
        for idle in found.open:
            self.beside(found, idle)

    def beside(self, found, idle):
        """What stands before an idle that is open, and behind it."""
        place = found.front.index(idle)
        before, behind = found.front[place - 1], found.front[place + 1 : place + 2]
        self.says("an idle is open")
        self.says("an idle is open where a burst descriptor is", "bursts" in self.config)
        self.says("an idle is open behind the request region", place == 1)
        self.says("an idle is open behind data", before in found.grants)
        self.says("an idle is open behind an opportunity", before in found.opportunities)
        self.says("an idle is open behind a poll or an unsolicited grant", before in found.periodic)
        self.says("an idle is open before a poll or an unsolicited grant", behind and behind[0] in found.periodic)
        self.breaks("an idle ends where neither a poll nor a grant stands", behind and behind[0] not in found.periodic)
