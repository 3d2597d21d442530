"""What histories with Reserves and headers have reached, and whether their MAPs keep the laws of both; and the same of
the bursts of their grants. It is read in the entries alone, calls, replies and payloads. What an element is, is told by
where it begins, and never by its word: an opportunity may read like a poll, an idle or a grant."""

from plain_bursts import Bursts

MODEMS, REQUEST, INITIAL, STATION, NULL = 0x3FFF, 1, 3, 4, 7
SHORT, LONG, UNSOLICITED = (5, 9), (6, 10), 11
WAITING, LAST_MAP, GRANTS, ELEMENTS, MOST_BYTES = 16, 64, 93, 240, 1048560
# Data and pending grants together, and the latter where a configuration does not say how many.
TOGETHER, PENDING = 157, 64
HEADING = ("ucd_count", "ranging_start", "ranging_end", "data_start", "data_end")

WANTED = {
    "a Reserve is refused for its length", "a Reserve is refused, for 64 wait",
    "a header is refused", "any modem may range", "one modem ranges", "a modem without a flow ranges",
    "one as long as a frame has room is met", "sixteen stand in one MAP", "two alike stand in one MAP",
    "of two alike one is met", "a seventeenth waits", "a seventeenth waits that would fit",
    "a seventeenth goes, for one before it was met", "a seventeenth goes, for one before it lapsed",
    "one that does not fit holds up none behind it", "one that does not fit holds up no data", "a Reserve lapses",
    "the last MAP meets one", "an opportunity stands before data", "data stand before an opportunity",
    "an opportunity ends at a poll or an unsolicited grant", "polls and grants alone leave no room for the first",
    "data take no more than opportunities leave of 93", "240 elements", "one is met behind a skip",
    "one is met behind a refused build", "one is met behind the removal of its flow", "a MAP has a new header",
    "a MAP has the last of two headers", "a refused header changes no MAP", "the history is full while one waits",
    "one is met behind a MAP that settles", "one lapses behind a MAP that settles",
    "the last MAP meets one behind a MAP that settles",
    # each usage, and whom it may be to
    *(f"{it} is met" for it in ("initial", "initial_to", "station", "request", "quiet", "data")),
    *(f"{it} lapses" for it in ("initial", "initial_to", "station", "request", "quiet", "data")),
    *(f"{it} to SID {sid} is reserved" for it in ("initial_to", "station", "request", "data") for sid in (1, 8191)),
    *(f"request to SID {sid} is reserved" for sid in (15873, 16127, 16383)),
    *(f"{it} to SID {sid} is refused" for it in ("initial_to", "station", "request", "data")
      for sid in (0, 8192, 15872, 16128, 16382, 65535)),
    *(f"{it} to SID {sid} is refused" for it in ("initial_to", "station", "data") for sid in (15873, 16127, 16383)),
    *(f"{it} to the SID of a flow that is {kind}" for it in ("initial_to", "station", "request", "data")
      for kind in ("best_effort", "polled", "unsolicited", "not there")),
    "requests of modems by their priorities", "requests of all modems", "a quiet window as long as a frame has room",
    # what reads like something else
    "a quiet window and an idle behind it are alike", "a quiet window stands where idles are open",
    "a quiet window stands on an Advanced PHY channel",
    "requests of a modem beside a poll of its flow", "requests of a modem whose flow rests, beside its poll",
    "requests of all modems before an idle that is open to them", "requests of all modems where no idle is open",
    "data that are short", "data that are long", "data that carry no byte",
    "data that carry no byte, in as few minislots as short ones",
    "data on an Advanced PHY channel", "data where burst descriptors are", "data beside a grant to the same SID",
    "data to a flow that waits, without a grant", "data beside an unsolicited grant of the same SID",
    "two of one SID and length and of other usages in one MAP",
}


# What the bursts of channels with profiles meet, and requests in minislots.
BURSTS = {
    "a short grant", "a long grant", "a long grant that has no more minislots than short ones may have",
    "a burst that is longer by a minislot than the one with a byte less", "a burst without parity",
    "a burst without preamble and guard time", "a burst of whole codewords", "a last codeword that is shortened",
    "a last codeword that is shortened and filled up to 16 bytes", "a last codeword that is not shortened",
    "a burst of several codewords", "a short grant in a slower modulation than long ones", "minislots of one tick",
    "an unsolicited grant that is short", "an unsolicited grant that is long",
    "an unsolicited grant by its own profile",
    "an unsolicited grant by the profile of long ones", "several unsolicited grants in a frame",
    "a request in minislots is taken", "a request in minislots that carry no byte is refused",
    "a request in minislots that carry too many bytes is refused", "a request in minislots without burst profiles",
}


class Wait:
    """A Reserve that waits: its usage, whom it is for, how long, and the usage code of its element; the MAPs since, and
    what else came since."""

    def __init__(self, call, config, bursts):
        self.usage, self.slots = call["usage"], call["slots"]
        self.sid = {"initial": MODEMS, "quiet": 0}.get(self.usage, call.get("sid"))
        self.maps, self.since = 0, set()
        short, long = (SHORT[1], LONG[1]) if config["phy"] == 1 else (SHORT[0], LONG[0])
        self.bytes = bursts.capacity(self.slots) if self.usage == "data" else 0
        self.is_short = self.bytes > 0 and bursts.usage(self.bytes) == "short"
        codes = {"initial": INITIAL, "initial_to": INITIAL, "station": STATION, "request": REQUEST}
        self.code = codes.get(self.usage, short if self.is_short else long)

    def kind(self):
        return self.usage, self.sid, self.slots


class Map:
    """A MAP by its payload and its bytes: the allocations up to the Null, as (SID, usage, offset, minislots, bytes).
    What each is, is told by where polls and unsolicited grants begin, and by the Reserves that wait: where none of the
    former does, the first of the latter stands that has room up to the next."""

    def __init__(self, reply, starts, waits):
        raw = bytes.fromhex(reply["hex"])
        self.heading = [raw[1], *raw[12:16]]
        words = [int.from_bytes(raw[at : at + 4]) for at in range(16, len(raw), 4)]
        parts = [(it >> 18, it >> 14 & 15, it & 0x3FFF) for it in words]
        self.elements = len(parts)
        null = [usage for _, usage, _ in parts].index(NULL)
        self.pending = parts[null + 1 :]
        ends = [offset for _, _, offset in parts[1:]]
        self.front = [(*part, end - part[2], count) for part, end, count in zip(parts[:null], ends, reply["bytes"])]
        # where it settles an idle stands in the place of the request region
        self.settles = self.front[0][0] == 0
        self.waited, self.met = [*waits], {}
        self.periodic, self.opportunities, self.grants, self.idles = [], [], [], []
        self.read(starts, parts[null][2])
        self.open = [it for it in self.idles if it[:2] == (MODEMS, REQUEST)]

    def read(self, starts, frame):
        """Tells the allocations apart."""
        if self.settles:
            self.idles.append(self.front[0])
            starts, self.waited = [], []
        for it in self.front[1:]:
            room = min([at for at in starts if at > it[2]], default=frame) - it[2]
            fits = [wait for wait in self.waited if wait not in self.met.values() and wait.slots <= room]
            if it[2] in starts:
                self.periodic.append(it)
            elif fits:
                self.opportunities.append(it)
                self.met[it] = fits[0]
            else:
                (self.grants if it[4] else self.idles).append(it)

    def gaps(self):
        """The minislots that stand together behind the request region, between polls and unsolicited grants."""
        stops = [(it[2], it[2] + it[3]) for it in self.periodic] + [(self.front[-1][2] + self.front[-1][3],) * 2]
        begins = [self.front[0][3], *(end for _, end in stops)]
        return [stop - begin for begin, (stop, _) in zip(begins, stops)]


class Following:
    """Goes along with the entries, as far as one has to know them to read a MAP: the flows that live, where each stands
    in the cycle as it is told, which of them rest, and the Reserves that wait."""

    def __init__(self, config):
        self.config, self.bursts = config, Bursts(config)
        self.flows, self.starts, self.resting, self.waits = {}, {}, set(), []

    def follow(self, entry):
        """Takes in an entry, and gives its MAP, or none where it has none."""
        call, reply = entry["call"], entry["reply"]
        sid = call.get("sid")
        if reply["kind"] in ("admitted", "changed"):
            self.flows[sid], self.starts[sid] = call["flow"], self.told(call["flow"], reply)
            self.resting.discard(sid)
        elif reply["kind"] == "removed":
            del self.flows[sid], self.starts[sid]
            self.resting.discard(sid)
        elif call["call"] in ("rest", "wake") and reply["kind"] == "noted":
            self.resting = self.resting | {sid} if call["call"] == "rest" else self.resting - {sid}
        elif reply["kind"] == "reserved":
            self.waits.append(Wait(call, self.config, self.bursts))
        return self.map(reply) if reply["kind"] == "map" else None

    def told(self, flow, reply):
        """Where a flow has its starts in the frames of the cycle."""
        if "starts" not in reply:
            return {}
        interval = 4 * flow["interval_us"] // (25 * self.config["ticks"]) // self.config["frame"]
        places = range(reply["reference"] // self.config["frame"] % interval, self.config["cycle"], interval)
        each = len(reply["starts"]) // len(places)
        return {place: reply["starts"][at * each : (at + 1) * each] for at, place in enumerate(places)}

    def map(self, reply):
        place = reply["start"] // self.config["frame"] % self.config["cycle"]
        starts = {sid: it.get(place, []) for sid, it in self.starts.items()}
        starts = [start for sid, them in starts.items() for start in (them[:1] if sid in self.resting else them)]
        found = Map(reply, starts, self.waits[:WAITING])
        if not found.settles:
            met = [*found.met.values()]
            self.waits = [it for it in self.waits if it not in met]
            for wait in self.waits:
                wait.maps += 1
            found.lapsed = [it for it in self.waits if it.maps == LAST_MAP]
            self.waits = [it for it in self.waits if it.maps < LAST_MAP]
        return found


class Reached:
    """What the entries that were read have reached, and where one breaks a law."""

    def __init__(self, config):
        self.config, self.room = config, config["frame"] - config["req_slots"]
        self.heading, self.headers, self.refused_header = [config[key] for key in HEADING], 0, False
        self.following, self.seventeenth, self.waiting = Following(config), {}, set()
        self.events, self.faults = set(), []

    def says(self, event, where=True):
        if where:
            self.events.add(event)

    def read(self, entries):
        for place, entry in enumerate(entries):
            self.place, waits = place, [*self.following.waits]
            call, reply, found = entry["call"], entry["reply"], self.following.follow(entry)
            read = getattr(self, call["call"], None)
            if found:
                self.map(found, waits)
            elif read:
                read(call, reply)
        self.says("the history is full while one waits", self.following.waits and len(entries) == self.config["calls"])
        return self

    def breaks(self, law, where):
        if where:
            self.faults.append((self.place, law))

    # The calls.

    def reserve(self, call, reply):
        waits, usage, sid = self.following.waits, call["usage"], call.get("sid")
        number, is_taken = reply.get("number"), reply["kind"] == "reserved"
        self.says(f"{usage} to SID {sid} is {'reserved' if is_taken else 'refused'}", is_taken or number == 1)
        self.breaks("an SID of nobody", is_taken and not is_lawful(usage, sid))
        self.breaks("an SID is refused that may be", number == 1 and is_lawful(usage, sid))
        self.breaks("a length that no frame has", is_taken and not 1 <= call["slots"] <= self.room)
        self.breaks("a 65th", len(waits) > 64)
        self.says("a seventeenth waits", len(waits) > WAITING)
        self.says("a Reserve is refused for its length", number == 18)
        self.says("a Reserve is refused, for 64 wait", number == 19 and len(waits) == 64)
        if is_taken and sid is not None:
            kind = self.following.flows.get(sid, {"kind": "not there"})["kind"]
            self.says(f"{usage} to the SID of a flow that is {kind}")

    def header(self, call, reply):
        if reply["kind"] == "noted":
            self.heading, self.headers = [call[key] for key in HEADING], self.headers + 1
        else:
            self.says("a header is refused", reply["number"] == 20)
            self.refused_header = call["ucd_count"] != self.heading[0]

    def remove(self, call, reply):
        for wait in self.following.waits:
            if reply["kind"] == "removed" and wait.sid == call["sid"] and wait.usage != "quiet":
                wait.since.add("the removal of its flow")

    def skip(self, call, reply):
        for wait in self.following.waits:
            if reply["kind"] == "skipped":
                wait.since.add("a skip")

    def build(self, call, reply):
        for wait in self.following.waits:
            wait.since.add("a refused build")

    # A MAP.

    def map(self, found, waits):
        self.breaks("another header than the last", found.heading != self.heading)
        self.says("a MAP has a new header", self.headers > 0)
        self.says("a MAP has the last of two headers", self.headers > 1)
        self.says("a refused header changes no MAP", self.refused_header)
        self.headers, self.refused_header = 0, False
        if found.settles:
            for wait in waits:
                wait.since.add("a MAP that settles")
            return
        first, behind, met = waits[:WAITING], waits[WAITING:], [*found.met.values()]
        unmet = [it for it in first if it not in met]
        self.words(found, first)
        self.orders(found, first, met, unmet, behind)
        self.alike(found)
        self.counts(found, first)
        self.lapses(found.lapsed, met, behind)
        self.waiting = {sid for sid, _, _ in found.pending}

    def words(self, found, first):
        """Each opportunity reads as it was asked for, and nothing else reads as only one may."""
        for (sid, code, offset, slots, count), wait in found.met.items():
            wanted = wait.sid, wait.code, wait.slots, 0
            self.breaks("another word, length or bytes", (sid, code, slots, count) != wanted)
            alike = [it for it in first if it.kind() == wait.kind() and it is not wait]
            self.says("of two alike one is met", any(it not in found.met.values() for it in alike))
            self.meets(wait)
        for it in found.front[1:]:
            is_theirs = it[1] in (INITIAL, STATION) or 8191 < it[0] < MODEMS
            self.breaks("an opportunity that does not wait", is_theirs and it not in found.opportunities)
        kinds = [it.kind() for it in found.met.values()]
        self.says("two alike stand in one MAP", len(set(kinds)) < len(kinds))
        of_others = {(usage, *rest) for usage, *rest in kinds}
        self.says("two of one SID and length and of other usages in one MAP",
                  len({tuple(rest) for _, *rest in of_others}) < len(of_others))

    def meets(self, wait):
        self.says(f"{wait.usage} is met")
        self.says("any modem may range", wait.usage == "initial")
        self.says("one modem ranges", wait.usage == "station")
        self.says("one as long as a frame has room is met", wait.slots == self.room)
        is_last, has_settled = wait.maps == LAST_MAP - 1, "a MAP that settles" in wait.since
        self.says("the last MAP meets one", is_last)
        self.says("the last MAP meets one behind a MAP that settles", is_last and has_settled)
        for what in wait.since:
            self.says(f"one is met behind {what}")
        self.says(f"a seventeenth goes, for one before it {self.seventeenth.get(wait)}", wait in self.seventeenth)

    def orders(self, found, first, met, unmet, behind):
        gaps = found.gaps()
        if first:
            is_met, has_gap = first[0] in met, first[0].slots <= max(gaps)
            self.breaks("the first is met exactly where there is a gap for it", is_met != has_gap)
            self.says("polls and grants alone leave no room for the first", not has_gap)
        places = [first.index(it) for it in met]
        jumped = [it for it in unmet if places and first.index(it) < max(places)]
        self.says("one that does not fit holds up none behind it", jumped)
        self.says("one that does not fit holds up no data", unmet and found.grants)
        least = min((it.slots for it in unmet), default=self.room + 1)
        self.breaks("an idle where one fits", any(it[3] >= least for it in found.idles))
        idle = max((it[3] for it in found.idles), default=0)
        self.says("a seventeenth waits that would fit", any(it.slots <= idle for it in behind))
        for (sid, _, offset, slots, _), wait in found.met.items():
            self.says("an opportunity stands before data", any(it[2] > offset for it in found.grants))
            self.says("data stand before an opportunity", any(it[2] < offset for it in found.grants))
            ends = [it[2] for it in found.periodic]
            self.says("an opportunity ends at a poll or an unsolicited grant", offset + slots in ends)
            is_without = wait.usage == "station" and sid not in self.following.flows
            self.says("a modem without a flow ranges", is_without)

    def alike(self, found):
        """What reads like something else, and stands beside it or not."""
        others = [it for it in found.front[1:] if it not in found.opportunities]
        for it, wait in found.met.items():
            beside = {"quiet": self.quiet, "request": self.requests, "data": self.data}.get(wait.usage)
            if beside:
                beside(found, it, wait, [other for other in others if other[0] == it[0]])

    def quiet(self, found, it, wait, alike):
        is_before = any(other[:3] == (0, it[1], it[2] + it[3]) for other in alike)
        self.says("a quiet window and an idle behind it are alike", is_before)
        self.says("a quiet window as long as a frame has room", wait.slots == self.room)
        self.says("a quiet window stands where idles are open", self.config.get("open_idle", 0) == 1)
        self.says("a quiet window stands on an Advanced PHY channel", self.config["phy"] == 1)

    def requests(self, found, it, wait, alike):
        self.says("requests of modems by their priorities", 15873 <= wait.sid <= 16127)
        self.says("requests of all modems", wait.sid == MODEMS)
        polls = [other for other in alike if other in found.periodic and other[1] == REQUEST]
        self.says("requests of a modem beside a poll of its flow", polls and wait.sid not in self.following.resting)
        self.says("requests of a modem whose flow rests, beside its poll", polls and wait.sid in self.following.resting)
        is_open = any(other in found.open and other[2] == it[2] + it[3] for other in alike)
        self.says("requests of all modems before an idle that is open to them", is_open)
        self.says("requests of all modems where no idle is open", wait.sid == MODEMS and not found.open)

    def data(self, found, it, wait, alike):
        self.says("data that are short", wait.is_short)
        self.says("data that are long", wait.bytes and not wait.is_short)
        self.says("data that carry no byte", not wait.bytes)
        few = not wait.bytes and wait.slots <= self.config["short_max"]
        self.says("data that carry no byte, in as few minislots as short ones", few)
        self.says("data on an Advanced PHY channel", self.config["phy"] == 1)
        self.says("data where burst descriptors are", "bursts" in self.config)
        has_grant = any(other in found.grants for other in alike)
        self.says("data beside a grant to the same SID", has_grant)
        self.says("data to a flow that waits, without a grant", not has_grant and wait.sid in self.waiting)
        unsolicited = any(other in found.periodic and other[1] != REQUEST for other in alike)
        self.says("data beside an unsolicited grant of the same SID", unsolicited)

    def counts(self, found, first):
        most = min(GRANTS, TOGETHER - self.config.get("pending", PENDING)) - len(first)
        self.breaks("more elements than 240", found.elements > ELEMENTS)
        self.breaks("more opportunities than wait", len(found.opportunities) > len(first))
        self.breaks("more data grants than opportunities leave", len(found.grants) > most)
        self.says("sixteen stand in one MAP", len(found.opportunities) == WAITING)
        self.says("data take no more than opportunities leave of 93", first and len(found.grants) == most)
        self.says("240 elements", found.elements == ELEMENTS)

    def lapses(self, lapsed, met, behind):
        self.says("a Reserve lapses", lapsed)
        self.says("one lapses behind a MAP that settles", any("a MAP that settles" in it.since for it in lapsed))
        for wait in lapsed:
            self.says(f"{wait.usage} lapses")
        for wait in self.following.waits[:WAITING]:
            if wait in behind:
                self.seventeenth[wait] = "was met" if met else "lapsed"


def is_lawful(usage, sid):
    """Whether an opportunity of a usage may go to an SID, or may have none."""
    is_modem = sid is not None and 1 <= sid <= 8191
    is_more = usage == "request" and sid is not None and (15873 <= sid <= 16127 or sid == MODEMS)
    return is_modem or is_more or usage in ("initial", "quiet")


class Sent:
    """What the bursts of a history have reached, and where one breaks a law: of a number of bytes each is as long, and
    of one usage; more bytes take no fewer minislots; a short one has no more minislots than short ones may have."""

    def __init__(self, config):
        self.config, self.bursts, self.following = config, config.get("bursts"), Following(config)
        self.lengths, self.events, self.faults = {}, set(), []

    def read(self, entries):
        for place, entry in enumerate(entries):
            found = self.following.follow(entry)
            if found:
                self.map(place, found)
            if entry["call"]["call"] == "ask" and "slots" in entry["call"]:
                self.asked(entry["call"]["slots"], entry["reply"])
        in_order = [self.lengths[it][0] for it in sorted(self.lengths)]
        self.breaks(len(entries), "more bytes in fewer minislots", in_order != sorted(in_order))
        steps = [it for it in self.lengths if it + 1 in self.lengths and self.lengths[it] < self.lengths[it + 1]]
        self.says("a burst that is longer by a minislot than the one with a byte less", steps)
        self.says("minislots of one tick", self.config["ticks"] == 1 and self.lengths)
        return self

    def says(self, event, where=True):
        if self.bursts and where:
            self.events.add(event)

    def breaks(self, place, law, where):
        if where:
            self.faults.append((place, law))

    def asked(self, slots, reply):
        """A request in minislots, whose symbols have at most a byte each, and no more than 1791 of which carry none."""
        if not self.bursts:
            self.events.add("a request in minislots without burst profiles")
            return
        few = slots * self.bursts["symbols"] <= MOST_BYTES
        self.says("a request in minislots is taken", reply["kind"] == "taken")
        self.says(f"a request in minislots that carry {'no byte' if few else 'too many bytes'} is refused",
                  reply.get("number") == 10)

    def map(self, place, found):
        for _, usage, _, slots, count in found.grants:
            known = self.lengths.setdefault(count, (slots, usage))
            self.breaks(place, "two lengths or usages of as many bytes", known != (slots, usage))
            self.usage(place, usage, slots)
            if self.bursts:
                self.codewords(self.bursts["short" if usage in SHORT else "long"], usage, count)
        unsolicited = [it for it in found.periodic if it[1] != REQUEST]
        for _, usage, _, slots, _ in unsolicited:
            self.breaks(place, "the usage of unsolicited grants", (usage == UNSOLICITED) != (self.config["phy"] == 1))
            self.unsolicited(place, usage, slots)
        self.says("several unsolicited grants in a frame", len(unsolicited) > 1)

    def usage(self, place, usage, slots):
        """A data grant of a usage, or an unsolicited one that has that of a data grant."""
        most, usages = self.config["short_max"], (9, 10) if self.config["phy"] == 1 else (5, 6)
        self.breaks(place, "a usage that is none of this channel", usage not in usages)
        self.breaks(place, "a short grant above short_max", usage in SHORT and slots > most)
        self.breaks(place, "a long grant up to short_max", usage in LONG and slots <= most and not self.bursts)
        self.says("a short grant", usage in SHORT)
        self.says("a long grant", usage in LONG)
        self.says("a long grant that has no more minislots than short ones may have", usage in LONG and slots <= most)

    def unsolicited(self, place, usage, slots):
        if usage == UNSOLICITED:
            has_own = self.bursts and "unsolicited" in self.bursts
            self.says(f"an unsolicited grant by {'its own profile' if has_own else 'the profile of long ones'}")
        else:
            self.usage(place, usage, slots)
            self.says(f"an unsolicited grant that is {'short' if usage in SHORT else 'long'}")

    def codewords(self, profile, usage, count):
        """The codewords of a data grant by its profile."""
        left, parity = count % profile["information"], profile["parity"] > 0
        shortened = parity and left > 0 and profile["shortened"] == 1
        self.says("a burst without parity", not parity)
        self.says("a burst without preamble and guard time", profile["preamble"] + profile["guard"] == 0)
        self.says("a burst of whole codewords", parity and left == 0)
        self.says("a burst of several codewords", parity and count > profile["information"])
        self.says("a last codeword that is shortened", shortened and left >= 16)
        self.says("a last codeword that is shortened and filled up to 16 bytes", shortened and left < 16)
        self.says("a last codeword that is not shortened", parity and left > 0 and profile["shortened"] == 0)
        is_slower = usage in SHORT and profile["bits"] < self.bursts["long"]["bits"]
        self.says("a short grant in a slower modulation than long ones", is_slower)


def reached_in(histories, reading):
    """What histories have reached together, each with its configuration, and the laws that they break."""
    events, faults = set(), []
    for number, (config, entries) in enumerate(histories):
        reached = reading(config).read(entries)
        events |= reached.events
        faults += [(number, *it) for it in reached.faults]
    return events, faults
