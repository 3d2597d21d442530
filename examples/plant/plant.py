#!/usr/bin/env python3
"""A plant of 30 modems on one channel, whose scheduler is `mapsched live`: calls that come and go, polled cameras,
computers that contend for requests. It goes frame by frame: the plant hands in what was heard, has a MAP built, reads
it, and its modems obey it. At the end it prints what it counted itself. docs/PLANT.md tells what it models."""

import argparse
import json
import os
import random
import shutil
import signal
import subprocess
import sys

sys.dont_write_bytecode = True

from again import Again  # noqa: E402
from channel import CONFIG, FASTER_HOME, HOME, LATE_BY, MISSED, MOST, NOISE, READING, REQUEST_SLOTS  # noqa: E402
from channel import SILENT, TIER_FOR, TIERS, WELL_FOR, Crowd, modems_of  # noqa: E402
from client import Changed, Ended, Fault, Live, Refused  # noqa: E402
from counts import Counts  # noqa: E402
from maps import ALL_MODEMS, NOBODY, REQUEST, read_map  # noqa: E402
from modems import SECOND  # noqa: E402
from page import page, warnings  # noqa: E402

SCRIPT = os.path.realpath(f"{__file__}/../../../mapsched")
NO_PROGRAM = "there is no mapsched on the path: install its package, or name the program with --program"
BUILDING = "there is no mapsched on the path: the repository's script builds it first, which can take half an hour"


class Wrong(Exception):
    """What a MAP or an answer has is not what the plant counts."""


def expect(holds, what):
    if not holds:
        raise Wrong(what)


class Stopped(Exception):
    """A signal that ends the plant."""

    def __init__(self, number, _):
        super().__init__(number)
        self.number = number

    @classmethod
    def raised(cls, *told):
        raise cls(*told)


class Burst:
    """A request on its way: what the receiver has heard, and hands in when it has read it."""

    def __init__(self, modem, count, begin, slots):
        self.sid, self.count, self.begin, self.read_at = modem.sid, count, begin, begin + slots + READING
        self.is_voice, self.replaces = modem.flow["kind"] == "unsolicited", modem.missed


class Voice:
    """A voice grant, in which something came or nothing."""

    def __init__(self, modem, begin, slots):
        self.life, self.speaks, self.read_at = modem.life, modem.speaks, begin + slots + READING


class Plant:
    """The channel's time, its receiver and its modems. `live` is who answers the calls."""

    def __init__(self, live, config=CONFIG, seed=1, crowd=Crowd(), has_tiers=False):
        self.live, self.config, self.counts = live, config, Counts(config)
        self.next = self.progress = config["start"]
        self.bursts, self.voices = [], []
        self.modems = {modem.sid: modem for modem in modems_of(seed, self.next, crowd, has_tiers)}
        self.tiers = TIERS if has_tiers else [HOME, FASTER_HOME]
        self.chance = random.Random(f"{seed} head end")
        self.late_at = self.next + self.chance.randrange(*WELL_FOR)
        self.tier_at = self.next + self.chance.randrange(*TIER_FOR)

    def call(self, name, *numbers):
        answer = getattr(self.live, name)(*numbers)
        self.counts.called(name, answer.number if isinstance(answer, Refused) else None)
        return answer

    def run(self, seconds):
        end = self.config["start"] + int(seconds * SECOND)
        while self.next < end:
            self.frame()

    def compare_sums(self):
        """Asks for the sums of each flow, which have to be those that were counted."""
        for sid, life in self.counts.live.items():
            expect(self.call("status", sid) == life.sums(), f"SID {sid} has other sums than {life.sums()}")

    def frame(self):
        """One frame: the MAP is built as late as it can be, but where the head end was busy."""
        now = self.next - self.config["lead"]
        if now >= self.late_at:
            now += self.chance.randrange(*LATE_BY)
            self.late_at = now + self.chance.randrange(*WELL_FOR)
        self.switch(now)
        self.change_tier(now)
        self.hand_in(now)
        self.let_rest(now)
        map_ = read_map(self.build(now), self.next)
        expect(map_.start == self.next, f"a MAP of {map_.start}, not of {self.next}")
        self.next += self.config["frame"]
        self.counts.frame(map_.start)
        self.obey(map_)

    def build(self, now):
        payload = self.call("build", now)
        if payload == Refused(16, self.next):
            self.next = self.call("skip", now)
            self.counts.skips += 1
            payload = self.call("build", now)
        expect(isinstance(payload, bytes), f"no MAP at {now}: {payload}")
        return payload

    # What the head end hands in.

    def switch(self, now):
        """Flows begin and end with what their modems want."""
        for sid, modem in self.modems.items():
            modem.pass_to(now)
            if modem.on and not modem.life:
                if isinstance(self.call("admit", sid, modem.flow), Refused):
                    modem.is_blocked(now)
                    self.counts.blocked += 1
                else:
                    modem.life = self.counts.begins(sid, modem.flow, self.next)
            elif modem.life and not modem.on:
                self.call("remove", sid)
                self.counts.ends(sid, self.next)
                modem.life = None

    def change_tier(self, now):
        """Now and then a home gets another tier, and has that too when it is switched on again."""
        homes = [modem for modem in self.modems.values() if modem.life and modem.flow in self.tiers]
        if now >= self.tier_at and homes:
            self.tier_at = now + self.chance.randrange(*TIER_FOR)
            modem = self.chance.choice(homes)
            modem.flow = self.tiers[(self.tiers.index(modem.flow) + 1) % len(self.tiers)]
            expect(self.call("change", modem.sid, modem.flow) == Changed(), f"SID {modem.sid} has no other tier")
            modem.life.change(modem.flow, self.next)

    def let_rest(self, now):
        """The receiver tells which voice grants were left empty: who has left some, one behind the other, rests."""
        read = [voice for voice in self.voices if voice.read_at <= now]
        self.voices = [voice for voice in self.voices if voice.read_at > now]
        for voice in read:
            voice.life.hears(voice.speaks)
        for sid, life in self.counts.live.items():
            if life.silent >= SILENT and not life.rests:
                expect(self.call("rest", sid) is None, f"SID {sid} does not rest")
                life.rest()

    def take(self, burst):
        """A request goes to the scheduler. That of a telephone wakes its flow."""
        if burst.is_voice:
            if self.call("wake", burst.sid) is None:
                self.counts.live[burst.sid].wake()
            return
        name = "replace" if burst.replaces else "ask"
        if self.call(name, 0, burst.sid, burst.count, burst.begin) is None:
            getattr(self.counts.live[burst.sid], name)(burst.count, burst.begin)

    def hand_in(self, now):
        """The receiver hands in the requests that it has read, and tells its progress: up to the first unread one."""
        read = [burst for burst in self.bursts if burst.read_at <= now]
        self.bursts = [burst for burst in self.bursts if burst.read_at > now]
        for burst in sorted(read, key=lambda burst: burst.begin):
            self.take(burst)
        upto = min([now, self.next, *(burst.begin for burst in self.bursts)])
        self.progress = max(self.progress, upto)
        self.call("heard", 0, self.progress)

    # What the modems do with a MAP.

    def obey(self, map_):
        granted = {element.sid for element in map_.elements if element.iuc != REQUEST and element.sid != NOBODY}
        for modem in self.modems.values():
            modem.reads(map_, granted.union(map_.pending))
        for element in map_.elements:
            self.counts.use[self.use(map_, element)] += element.slots
        owed = self.shown()
        expect(map_.pending == owed, f"pending are {map_.pending}, not {owed}")

    def shown(self):
        """The SIDs of the flows that a MAP shows by pending grants: of those that wait after it the first so many, by the
        minislot since which they wait."""
        waiting = []
        for sid, life in self.counts.live.items():
            life.ends_map()
            if life.outstanding():
                waiting.append((life.since(), sid))
        return sorted(sid for _, sid in sorted(waiting)[:self.config.get("pending", 64)])

    def use(self, map_, element):
        """What an element's minislots are used for, when it has been used."""
        at, modem = map_.start + element.offset, self.modems.get(element.sid)
        if element.sid == NOBODY:
            return "idle"
        if element.sid == ALL_MODEMS:
            self.contend(map_, at, element.slots // REQUEST_SLOTS)
            return "open" if element.offset else "request"
        modem.fill(at)
        if element.iuc == REQUEST:
            self.ask(modem, at, element.slots, "poll")
            return "poll"
        if modem.flow["kind"] == "unsolicited":
            modem.life.voice(at)
            self.voices.append(Voice(modem, at, element.slots))
            self.counts.grants += 1
            return "unsolicited"
        self.send(modem, at, element.slots)
        return "data"

    def contend(self, map_, at, chances):
        """A request region, or an idle that is open to requests: of those that begin in one opportunity none is heard."""
        count, tries = self.counts.requests, {}
        for modem in self.modems.values():
            if modem.contends and modem.life:
                modem.fill(at)
                tries.setdefault(modem.turn(map_, chances), []).append(modem)
        tries.pop(None, None)
        count["opportunities"] += chances
        for place, modems in sorted(tries.items()):
            if len(modems) == 1:
                self.ask(modems[0], at + place * REQUEST_SLOTS, REQUEST_SLOTS, "alone")
                continue
            count["collisions"] += 1
            count["collided"] += len(modems)
            for modem in modems:
                modem.asked_at = at + place * REQUEST_SLOTS

    def ask(self, modem, begin, slots, how):
        """A modem sends a request, where it has one, and mostly it is heard."""
        wanted = modem.wants()
        if wanted:
            modem.asked_at = begin
            self.counts.requests[how] += 1
            if how == "with data" or self.chance.randrange(NOISE):
                self.bursts.append(Burst(modem, wanted, begin, slots))
                modem.missed = False
            else:
                self.counts.requests["noise"] += 1

    def send(self, modem, at, slots):
        """A modem fills its grant, and where nothing is to come any more it asks with the data for what is left. Now and
        then it has not read the MAP, and sends nothing."""
        modem.life.grant(at, slots)
        room = (slots - self.config["overhead"]) * self.config["bytes_per_slot"]
        self.counts.room += room
        if not self.chance.randrange(MISSED):
            self.counts.missed += 1
            modem.misses()
            return
        self.counts.sent += min(modem.queued, room)
        modem.sent(min(modem.queued, room), at + slots)
        self.ask(modem, at, slots, "with data")


def program():
    """The one on the path, or else the script of the repository, which first proves and builds what is out of date."""
    if shutil.which("mapsched"):
        return "mapsched"
    if not os.access(SCRIPT, os.X_OK):
        raise Fault(NO_PROGRAM)
    print(f"plant.py: {BUILDING}", file=sys.stderr)
    subprocess.run([SCRIPT, "--version"], stdout=subprocess.DEVNULL, check=True)
    return SCRIPT


def name_checked(name):
    """A program that was named, where there is one."""
    if not shutil.which(name):
        raise Fault(f"there is no program {name} that can be run: --program names mapsched")
    return name


def tell_what_is_left(live, journal):
    """A journal may go on behind the calls that this plant has made, where an earlier one ran for longer."""
    made, left = live.made_again()
    if left:
        print(f"plant.py: {journal} is of a longer run: it had these {made} calls and has {left} more, and it stays as "
              "it was", file=sys.stderr)


def arguments():
    reader = argparse.ArgumentParser(description="A plant of 30 modems, or of others, scheduled by mapsched live.")
    reader.add_argument("--program", help="by default mapsched on the path, or else the repository's script")
    reader.add_argument("--seconds", type=float, default=60, help="of plant time (60)")
    modems = "a third telephones, a sixth cameras, and computers (30)"
    reader.add_argument("--modems", metavar="N", type=int, help=modems)
    reader.add_argument("--telephones", metavar="N", type=int, help="so many of the modems are telephones")
    reader.add_argument("--cameras", metavar="N", type=int, help="so many are cameras")
    reader.add_argument("--tiers", action="store_true", help="homes have three tiers, with reserved and peak rates")
    reader.add_argument("--flows", metavar="N", type=int, help="so many flows may be live at a time (64)")
    reader.add_argument("--pending", metavar="N", type=int, help="a MAP shows so many that wait (64)")
    reader.add_argument("--periodic", metavar="N", type=int, help="so many telephones and cameras have a place (40)")
    reader.add_argument("--seed", type=int, default=1, help="another plant for another number (1)")
    reader.add_argument("--open-idle", action="store_true", help="modems may ask in idle minislots too")
    reader.add_argument("--journal", metavar="FILE", help="keeps a journal; where it has calls, the plant goes on")
    reader.add_argument("--json", action="store_true", help="prints all numbers in JSON, delays in minislots")
    given = reader.parse_args()
    if given.seconds <= 0:
        reader.error("--seconds: a plant runs for some time")
    given.crowd = crowd_of(given)
    if min(given.crowd) < 0 or not sum(given.crowd):
        reader.error(f"--modems: a plant cannot have {it_has(given.crowd)}")
    if max(given.crowd[:2]) > MOST:
        reader.error(f"a plant has at most {MOST} telephones and {MOST} cameras")
    return given


def crowd_of(given):
    """The modems that were asked for, with as many computers as the telephones and cameras leave."""
    whole = sum(Crowd()) if given.modems is None else given.modems
    telephones = whole // 3 if given.telephones is None else given.telephones
    cameras = whole // 6 if given.cameras is None else given.cameras
    return Crowd(telephones, cameras, Crowd().computers if given.modems is None else whole - telephones - cameras)


def config_of(given):
    """The channel's configuration, with what was asked for."""
    asked = {"flows": given.flows, "pending": given.pending, "periodic": given.periodic}
    asked["open_idle"] = 1 if given.open_idle else None
    return {**CONFIG, **{name: value for name, value in asked.items() if value is not None}}


def it_has(crowd):
    return ", ".join(f"{many} {kind}" for kind, many in crowd._asdict().items())


def how_to_go_on(journal):
    """What to do when it was broken off."""
    if journal:
        print(f"plant.py: run the same command again to resume: {journal} has the calls up to here", file=sys.stderr)


def main():
    given = arguments()
    for number in (signal.SIGINT, signal.SIGTERM):
        signal.signal(number, Stopped.raised)
    try:
        chosen = name_checked(given.program) if given.program else program()
        config = config_of(given)
        with (Again if given.journal else Live)(config, chosen, given.journal) as live:
            plant = Plant(live, config, given.seed, given.crowd, given.tiers)
            plant.run(given.seconds)
            if given.journal:
                tell_what_is_left(live, given.journal)
    except (Fault, Wrong, OSError, subprocess.SubprocessError) as fault:
        if isinstance(fault, Ended) and fault.status is not None and fault.status < 0:
            how_to_go_on(given.journal)
        sys.exit(f"plant.py: {fault}")
    except Stopped as stopped:
        how_to_go_on(given.journal)
        sys.exit(128 + stopped.number)
    for warning in warnings(plant):
        print(f"plant.py: warning: {warning}", file=sys.stderr)
    # Who reads no further ends it, as he ends other programs.
    signal.signal(signal.SIGPIPE, signal.SIG_DFL)
    if given.json:
        print(json.dumps(plant.counts.report(plant.next), sort_keys=True, separators=(",", ":")))
    else:
        print(page(plant, given.seed, given.journal), end="")


if __name__ == "__main__":
    main()
