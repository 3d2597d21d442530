"""What no table has: drawn scripts beside the program, closing, values that do not fit, threads, and the structs."""

import ctypes
import dataclasses
import json
import os
import subprocess
import tempfile
import threading
import unittest
from shutil import which

import mapsched
from mapsched import Admit, Ask, BadConfig, BadJournal, BadMap, BestEffort, Build, Built, Bursts, Change, Changed
from mapsched import Closed, Config, Element, FlowBytes, HandedOver, Header, HistoryFull, NoHistory, Noted, Placed
from mapsched import Polled, Profile, Refusal, Refused, Replace, Reserve, Reserved, Rest, Scheduler, Status, Taken
from mapsched import Unsolicited, Wake
from mapsched import library

from . import tables
from .tables import texts

CONFIG = Config(**json.loads(texts.CONFIG))
PROGRAM = os.environ.get("MAPSCHED_PROGRAM")
STRUCTS = {
    "profile": library.ProfileNumbers, "bursts": library.BurstsNumbers, "config": library.ConfigNumbers,
    "call": library.CallNumbers, "stamp": library.StampNumbers,
    "reply": library.ReplyNumbers, "entry": library.EntryNumbers, "element": library.ElementNumbers,
    "map": library.MapNumbers, "scheduler": library.Handle,
}


# 64-QAM at 5.12 million symbols a second, in minislots of 64 symbols.
SHORT = Profile(preamble=32, guard=22, bits=6, parity=6, information=76, shortened=1)
LONG = dataclasses.replace(SHORT, parity=9, information=232)
BURSTS = Bursts(64, SHORT, LONG)


def with_bursts(bursts):
    """The base configuration with burst descriptors, in MAPs of 80 minislots of 12.5 microseconds."""
    sizes = {"ticks": 2, "frame": 80, "lead": 80, "short_max": 6, "bytes_per_slot": None, "overhead": None}
    return Config(**{**vars(CONFIG), **sizes, "bursts": bursts})


class BesideTheProgram(unittest.TestCase):
    @unittest.skipUnless(PROGRAM, "MAPSCHED_PROGRAM names no program")
    def test_drawn_scripts_have_the_same_lines_and_the_same_history(self):
        for number in range(1000, 1040):
            drawing = tables.drawing_of(number)
            script = json.dumps({"config": drawing.config, "calls": drawing.play()[0]})
            lines, history = tables.run(script)
            for words, wanted in [(["run"], "".join(f"{it}\n" for it in lines)), (["run", "--history"], history)]:
                ran = subprocess.run([PROGRAM, *words], input=script, capture_output=True, encoding="utf-8")
                self.assertEqual((ran.returncode, ran.stdout), (0, wanted), f"script {number}")


    @unittest.skipUnless(PROGRAM, "MAPSCHED_PROGRAM names no program")
    def test_a_scheduler_that_forgets_leaves_the_journal_of_the_program(self):
        for number in range(1000, 1010):
            drawing = tables.drawing_of(number)
            calls, config = drawing.play()[0], {**drawing.config, "calls": 10000}
            with Scheduler(Config(**config)) as scheduler:
                parts = [scheduler.opening()]
                for place, call in enumerate(calls):
                    scheduler.call(mapsched.call_of(call))
                    if place % 7 == 3:
                        parts.append(scheduler.lines())
                        scheduler.forget()
                parts.append(scheduler.lines())
            script = json.dumps({"config": config, "calls": calls})
            for words, text, wanted in [(["run", "--journal"], script, "".join(parts)),
                                        (["audit", "--journal"], "".join(parts), f"legal {len(calls)}\n")]:
                ran = subprocess.run([PROGRAM, *words], input=text, capture_output=True, encoding="utf-8")
                self.assertEqual((ran.returncode, ran.stdout, ran.stderr), (0, wanted, ""), f"script {number}")


def drawn_calls(number):
    """The configuration and the calls of a drawn script, of which a scheduler may keep few."""
    drawing = tables.drawing_of(number)
    return Config(**{**drawing.config, "calls": 10000}), [mapsched.call_of(it) for it in drawing.play()[0]]


def resumed(journal):
    """The scheduler that goes on after a journal, which stands in a file."""
    with tempfile.TemporaryDirectory() as room:
        with open(f"{room}/journal", "wb") as it:
            it.write(journal)
        scheduler = Scheduler.resume(f"{room}/journal")
        with open(f"{room}/journal", "rb") as it:
            assert it.read() == journal, "the file was changed"
    return scheduler


class Resuming(unittest.TestCase):
    def test_a_scheduler_that_goes_on_after_a_journal_answers_as_the_one_that_wrote_it(self):
        for number in range(4000, 4020):
            config, calls = drawn_calls(number)
            half, replies = len(calls) // 2, []
            with Scheduler(config) as whole:
                replies += [whole.call(it) for it in calls[:half]]
                journal = whole.opening() + whole.lines()
                replies += [whole.call(it) for it in calls[half:]]
                wanted = whole.opening() + whole.lines()
            for torn in ("", '{"', wanted[len(journal) : -1].partition("\n")[0]):
                with resumed((journal + torn).encode()) as after:
                    self.assertEqual((len(after), after.kept_from), (half, half))
                    self.assertEqual(after.journal_bytes, len(journal))
                    if half:
                        self.assertRaises(HandedOver, after.history_text)
                    self.assertEqual([after.call(it) for it in calls[half:]], replies[half:], f"script {number}")
                    self.assertEqual(journal + after.lines(), wanted)
            self.assertIsNone(Scheduler(config).journal_bytes)

    def test_a_journal_that_is_wrong_has_its_line(self):
        with Scheduler(CONFIG) as scheduler:
            for now in (760, 800, 840):
                scheduler.call(Build(now))
            opening, lines = scheduler.opening(), scheduler.lines().splitlines(True)
        other, late = opening.replace('"ticks":4', '"ticks":3'), lines[1].replace('"ack":800', '"ack":801')
        self.assertNotEqual((other, late), (opening, lines[1]))
        for journal, line, status in [
            ("", 0, 11), (opening[:-1], 0, 11), (lines[0], 0, 11), (other, 0, 11), (opening + opening, 1, 11),
            (opening + lines[0] + "\n" + lines[1], 2, 11), (opening + lines[0] + " " * 65537 + "\n", 2, 11),
            (opening + lines[0] + late + "\n", 2, 8), (opening + lines[1], 1, 8),
        ]:
            with self.assertRaises(BadJournal) as raised:
                resumed(journal.encode())
            self.assertEqual((raised.exception.line, raised.exception.status), (line, status), journal[:200])
            self.assertEqual(str(raised.exception), f"bad journal at {line}")
        self.assertRaises(FileNotFoundError, Scheduler.resume, "/no/such/journal")

    @unittest.skipUnless(PROGRAM, "MAPSCHED_PROGRAM names no program")
    def test_the_journal_of_the_program_is_gone_on_after(self):
        script = texts.read("examples/two_maps.json")
        journal = subprocess.run([PROGRAM, "run", "--journal"], input=script.encode(), capture_output=True).stdout
        with resumed(journal) as scheduler:
            self.assertEqual(len(scheduler), 4)
            self.assertIsInstance(scheduler.call(Build(840)), Built)
            audited = subprocess.run([PROGRAM, "audit", "--journal"], input=journal + scheduler.lines().encode(),
                                     capture_output=True)
        self.assertEqual(audited.stdout, b"legal 5\n")


class Words(unittest.TestCase):
    def test_each_refusal_has_its_words(self):
        for told, words in texts.rows("meanings_of_refusals"):
            number, _, value = told.removeprefix("refused ").partition(" ")
            refused = Refused(Refusal(int(number)), int(value.replace("#", "800")) if value else None)
            self.assertEqual(refused.words, words.replace("#", "800"), told)

    def test_the_library_has_the_version_of_the_module(self):
        self.assertEqual(mapsched.library_version(), mapsched.__version__)


class Frames(unittest.TestCase):
    def test_the_frame_of_a_payload_is_the_one_of_the_checks(self):
        payload, frame = bytes.fromhex(texts.PAYLOAD), bytes.fromhex(texts.FRAME)
        self.assertEqual(mapsched.map_frame(payload), frame)
        other = mapsched.map_frame(payload, bytes(range(6)))
        self.assertEqual((len(other), other[12:18]), (len(frame), bytes(range(6))))
        self.assertEqual(len(mapsched.map_frame(bytes(976))), 1006)
        for wrong in ((bytes(977),), (payload, bytes(5)), (payload, bytes(7))):
            self.assertRaises(ValueError, mapsched.map_frame, *wrong)

    def test_a_request_frame_is_read(self):
        asks, tells = bytes.fromhex("c4090011fd28"), bytes.fromhex("c80064001104b9")
        self.assertEqual(mapsched.read_request(asks), mapsched.AsksMinislots(9, 17))
        self.assertEqual(mapsched.read_request(tells), mapsched.TellsQueue(100, 17))
        for frame, number, words in [(b"", 1, "length"), (tells[:6], 2, "kind"),
                                     (bytes.fromhex("c4094011fd28"), 3, "sid"), (asks[:5] + b"\x29", 4, "hcs")]:
            with self.assertRaises(mapsched.BadRequest) as raised:
                mapsched.read_request(frame)
            self.assertEqual((raised.exception.number, str(raised.exception)), (number, f"fault {number}: {words}"))


class BesideAPlainScheduler(unittest.TestCase):
    def test_drawn_opportunities_and_headers_have_the_same_lines(self):
        met = set()
        for number in range(2000, 2060):
            drawing = tables.drawing_of(number)
            drawing.ranging = ["reserve"] * 60 + ["header"]
            calls, lines = drawing.play()
            with Scheduler(Config(**drawing.config)) as scheduler:
                self.assertEqual([*tables.lines_of(scheduler, calls)], lines, f"script {number}")
                made = [mapsched.call_of(call) for call in calls[: len(scheduler)]]
                self.assertEqual([it.call for it in scheduler], made, f"script {number}")
                met |= {it.reply.line for it in scheduler if isinstance(it.call, (Reserve, Header))}
        self.assertLessEqual({"reserved", "noted", "refused 1", "refused 18", "refused 19", "refused 20"}, met)

    def test_drawn_changes_have_the_same_lines(self):
        met = set()
        for number in range(3000, 3040):
            drawing = tables.drawing_of(number)
            drawing.changing = ["replace"] * 6 + ["change"] * 10 + ["rest"] * 4 + ["wake"] * 2
            calls, lines = drawing.play()
            with Scheduler(Config(**drawing.config)) as scheduler:
                self.assertEqual([*tables.lines_of(scheduler, calls)], lines, f"script {number}")
                made = [mapsched.call_of(call) for call in calls[: len(scheduler)]]
                self.assertEqual([it.call for it in scheduler], made, f"script {number}")
                met |= {type(it.reply) for it in scheduler if isinstance(it.call, (Replace, Change, Rest, Wake))}
        self.assertEqual(met, {Taken, Changed, Noted, Refused})


class Module(unittest.TestCase):
    def test_a_closed_scheduler_takes_no_call(self):
        scheduler = Scheduler(CONFIG)
        scheduler.close()
        scheduler.close()
        for use in (lambda: scheduler.call(Build(760)), lambda: len(scheduler), lambda: scheduler[0],
                    scheduler.history_text, lambda: next(scheduler.history()), scheduler.forget,
                    scheduler.lines, scheduler.opening, lambda: scheduler.kept_from):
            self.assertRaises(Closed, use)

    def test_a_value_that_does_not_fit_is_not_cut_off(self):
        with Scheduler(CONFIG) as scheduler:
            for call in (Status(65536), Status(-1), Build(2**64), Ask(256, 1, 1, 1), Status("5"), Status(1.0),
                         Reserve("initial", 2**32), Reserve("station", 4, 65536), Reserve("all", 4), Reserve(0, 4),
                         Reserve("request", 2, -1),
                         Header(256, 0, 0, 0, 0), Header(1, 0, 0, 0, -1)):
                self.assertRaises(ValueError, scheduler.call, call)
            self.assertRaises(ValueError, scheduler.call, Build(760), seat=2**32)
            self.assertRaises(TypeError, scheduler.call, {"call": "build", "now": 760})
            self.assertEqual(len(scheduler), 0)
        self.assertRaises(ValueError, Scheduler, mapsched.Config(**{**vars(CONFIG), "channel": 256}))

    def test_a_request_asks_for_bytes_or_for_what_minislots_carry(self):
        asks = [Ask(0, 17, 100, 801), Ask(receiver=0, sid=17, bytes=100, heard=801), Ask(0, 17, heard=801, slots=9)]
        self.assertEqual(asks[0], asks[1])
        with Scheduler(CONFIG) as scheduler:
            scheduler.call(Build(760))
            scheduler.call(Admit(17, BestEffort(priority=3, rate=0, burst=0)))
            self.assertEqual([scheduler.call(ask) for ask in asks], [Taken()] * 3)
            self.assertEqual([it.call for it in scheduler][2:], asks)
            for slots in (0, 2, 65538, 2**28 + 3, 2**32 - 1):
                self.assertEqual(scheduler.call(Ask(0, 17, heard=801, slots=slots)).line, "refused 10")
            self.assertEqual(scheduler.call(Status(17)).line, "flow 312 0 312")
            self.assertRaises(ValueError, scheduler.call, Ask(0, 17, heard=801, slots=2**32))
        for told in ({}, {"bytes": 100, "slots": 9}):
            self.assertRaises(TypeError, Ask, 0, 17, heard=801, **told)
        for told in ({"bytes": 100}, {"slots": 9}):
            self.assertRaises(TypeError, Ask, 0, 17, **told)

    def test_a_flow_has_a_peak_where_it_is_told_one(self):
        flow = BestEffort(priority=3, rate=0, burst=0)
        self.assertEqual(flow, BestEffort(3, 0, 0, 0))
        told = {"kind": "best_effort", "priority": 3, "rate": 0, "burst": 0, "peak": 1}
        admission = mapsched.call_of({"call": "admit", "sid": 17, "flow": told})
        self.assertEqual(admission, Admit(17, dataclasses.replace(flow, peak=1)))
        with Scheduler(CONFIG) as scheduler:
            for call in (Build(760), admission, Ask(0, 17, 3000, 801)):
                scheduler.call(call)
            for now in (800, 840, 880, 920):
                self.assertIsInstance(scheduler.call(Build(now)), Built)
            self.assertEqual(scheduler.call(Status(17)), FlowBytes(3000, 1522, 1478))
            self.assertEqual(scheduler.call(Change(17, flow)), Changed())
            self.assertEqual([scheduler[1].call, scheduler[8].call], [admission, Change(17, flow)])
            self.assertRaises(ValueError, scheduler.call, Admit(18, dataclasses.replace(flow, peak=2**32)))
        self.assertRaises(TypeError, Unsolicited, size=1, interval_us=1000, jitter_us=0, peak=1)

    def test_a_flow_has_a_reservation_where_it_is_told_one(self):
        flow, other = BestEffort(priority=0, rate=0, burst=0), BestEffort(priority=7, rate=0, burst=0)
        self.assertEqual(flow, BestEffort(0, 0, 0, 0, 0, 0))
        told = {"kind": "best_effort", "priority": 0, "rate": 0, "burst": 0, "reserved": 512000, "reserved_burst": 64}
        admission = mapsched.call_of({"call": "admit", "sid": 20, "flow": told})
        self.assertEqual(admission, Admit(20, dataclasses.replace(flow, reserved=512000, reserved_burst=64)))
        more, less = dataclasses.replace(admission.flow, reserved_burst=65), dataclasses.replace(flow, reserved=1)
        with Scheduler(CONFIG) as scheduler:
            for call in (Build(760), admission, Admit(21, other), Ask(0, 20, 3000, 801), Ask(0, 21, 3000, 801)):
                scheduler.call(call)
            for now, granted in ((800, 64), (840, 128)):
                self.assertIsInstance(scheduler.call(Build(now)), Built)
                self.assertEqual(scheduler.call(Status(20)), FlowBytes(3000, granted, 3000 - granted))
            self.assertEqual(scheduler.call(Change(20, more)), Changed())
            scheduler.call(Build(880))
            self.assertEqual(scheduler.call(Change(20, less)).line, "refused 3 8")
            self.assertEqual(scheduler.call(Change(20, flow)), Changed())
            scheduler.call(Build(920))
            self.assertEqual(scheduler.call(Status(20)), FlowBytes(3000, 193, 2807))
            self.assertEqual(scheduler.call(Status(21)), FlowBytes(3000, 1872, 1128))
            self.assertEqual([scheduler[1].call, scheduler[9].call], [admission, Change(20, more)])
            for name in ("reserved", "reserved_burst"):
                wrong = dataclasses.replace(flow, **{name: 2**32})
                self.assertRaises(ValueError, scheduler.call, Admit(18, wrong))
        self.assertRaises(TypeError, Polled, interval_us=1000, jitter_us=0, rate=0, burst=0, reserved=1)

    def test_a_request_supersedes_those_before(self):
        requests = [Replace(0, 17, 200, 841), Replace(0, 17, heard=841, slots=9), Replace(0, 17, 0, 841)]
        with Scheduler(CONFIG) as scheduler:
            for call in (Build(760), Admit(17, BestEffort(priority=3, rate=0, burst=0)), Ask(0, 17, 1000, 801)):
                scheduler.call(call)
            self.assertEqual(scheduler.call(Replace(0, 17, 1048561, 801)).line, "refused 10")
            self.assertIsInstance(scheduler.call(Build(800)), Built)
            for request, left in zip(requests, (200, 112, 0)):
                self.assertEqual(scheduler.call(request), Taken())
                self.assertEqual(scheduler.call(Status(17)), FlowBytes(544 + left, 544, left))
            self.assertEqual([it.call for it in scheduler][5::2], requests)
        for told in ({}, {"bytes": 100, "slots": 9}):
            self.assertRaises(TypeError, Replace, 0, 17, heard=801, **told)

    def test_a_telephone_rests_wakes_and_is_changed(self):
        voice = Unsolicited(size=232, interval_us=1000, jitter_us=0, grants=1)
        smaller = dataclasses.replace(voice, size=96)
        starts = (4,) * CONFIG.cycle
        steps = [
            (Admit(5, voice), Placed(804, starts), ("long", 21)), (Rest(5), Noted(), ("request", 6)),
            (Wake(5), Noted(), ("long", 21)), (Rest(5), Noted(), ("request", 6)),
            (Change(5, smaller), Changed(964, starts), ("short", 12)), (Rest(5), Noted(), ("request", 6)),
            (Change(5, smaller), Changed(1044, starts), ("short", 12)),
        ]
        with Scheduler(CONFIG) as scheduler:
            for frame, (call, reply, (usage, end)) in enumerate(steps):
                self.assertEqual(scheduler.call(call), reply)
                found = mapsched.decode(scheduler.call(Build(760 + 40 * frame)).payload).elements
                self.assertEqual([(it.usage, it.sid, it.offset) for it in found[1:2]], [(usage, 5, 4)])
                self.assertEqual(found[2].offset, end)
            self.assertEqual([it.call for it in scheduler][::2], [call for call, *_ in steps])
            self.assertEqual([it.reply for it in scheduler][::2], [reply for _, reply, _ in steps])

    def test_a_flow_that_is_not_changed_and_does_not_rest_is_refused_by_its_number(self):
        data, polled = BestEffort(priority=3, rate=0, burst=0), Polled(interval_us=1000, jitter_us=0, rate=0, burst=0)
        short = Unsolicited(size=1, interval_us=1000, jitter_us=0, grants=1)
        with Scheduler(Config(**{**vars(CONFIG), "poll_slots": 4})) as scheduler:
            for sid, flow in enumerate((data, polled, short), 6):
                scheduler.call(Admit(sid, flow))
            self.assertEqual(scheduler.call(Change(6, data)), Changed())
            for call, refusal in [
                (Change(6, polled), Refusal.OTHER_KIND), (Change(9, data), Refusal.NO_SUCH_FLOW),
                (Change(8, dataclasses.replace(short, size=0)), Refusal.BAD_PARAMETERS),
                (Rest(6), Refusal.NOT_UNSOLICITED), (Wake(7), Refusal.NOT_UNSOLICITED),
                (Rest(8), Refusal.TOO_SHORT), (Wake(0), Refusal.NO_SUCH_SID),
            ]:
                self.assertEqual(scheduler.call(call).refusal, refusal)

    def test_as_many_flows_live_as_there_are_sids(self):
        flow = BestEffort(priority=3, rate=0, burst=0)
        with Scheduler(Config(**{**vars(CONFIG), "calls": 20000, "flows": 8191, "pending": 2})) as scheduler:
            scheduler.call(Build(760))
            for sid in range(1, 8192):
                self.assertEqual(scheduler.call(Admit(sid, flow)).line, "admitted")
            for heard, sid in enumerate((8191, 1, 4000, 4001), 801):
                self.assertEqual(scheduler.call(Ask(0, sid, 1000, heard)), Taken())
            found = mapsched.decode(scheduler.call(Build(800)).payload)
            self.assertEqual(mapsched.audit(scheduler.history_text()).entries, 1 + 8191 + 4 + 1)
        rows = [("request", 0x3FFF, 0), ("long", 1, 4), ("null", 0, 40), ("long", 1, 40), ("long", 8191, 40)]
        self.assertEqual([(it.usage, it.sid, it.offset) for it in found.elements], rows)
        self.assertEqual(found.ack, 800)

    def test_burst_descriptors_say_what_a_grant_takes(self):
        sizes = {64: ("short", 3), 211: ("short", 6), 212: ("long", 6), 240: ("long", 7), 1526: ("long", 36)}
        with Scheduler(with_bursts(BURSTS)) as scheduler:
            scheduler.call(Build(720))
            for sid, size in enumerate(sizes, 17):
                scheduler.call(Admit(sid, BestEffort(priority=24 - sid, rate=0, burst=0)))
                scheduler.call(Ask(0, sid, size, 801))
            found = mapsched.decode(scheduler.call(Build(800)).payload).elements
        grants = [(it.usage, after.offset - it.offset) for it, after in zip(found, found[1:]) if 17 <= it.sid <= 21]
        self.assertEqual(grants, [*sizes.values()])

    def test_burst_descriptors_may_be_mappings_and_lack_that_of_unsolicited_grants(self):
        told = dataclasses.asdict(BURSTS)
        for unsolicited in (None, LONG, SHORT):
            bursts = dataclasses.replace(BURSTS, unsolicited=unsolicited)
            mapping = {**told, "unsolicited": unsolicited and vars(unsolicited), "unread": 7}
            self.assertEqual(with_bursts(mapping), with_bursts(bursts))
            with Scheduler(with_bursts(mapping)) as scheduler:
                found = json.loads(scheduler.opening())["config"]
            wanted = {"symbols": 64, "short": vars(SHORT), "long": vars(LONG)}
            wanted |= {"unsolicited": vars(SHORT)} if unsolicited is SHORT else {}
            self.assertEqual(found["bursts"], wanted)
            self.assertFalse({"bytes_per_slot", "overhead"} & {*found})

    def test_burst_descriptors_that_are_none_are_faults(self):
        for bursts, fault in [(5, TypeError), ({"symbols": 64}, TypeError), ({**vars(BURSTS), "long": None}, TypeError),
                              ({**vars(BURSTS), "short": vars(CONFIG)}, TypeError), (None, ValueError),
                              (Bursts(2**32, SHORT, LONG), ValueError), (Bursts("64", SHORT, LONG), ValueError),
                              (Bursts(64, SHORT, dataclasses.replace(LONG, bits=-1)), ValueError)]:
            self.assertRaises(fault, lambda: mapsched.check(with_bursts(bursts)))
        with self.assertRaises(BadConfig) as raised:
            mapsched.check(with_bursts(Bursts(64, SHORT, dataclasses.replace(LONG, bits=9))))
        self.assertEqual((raised.exception.number, raised.exception.field), (20, "bursts"))

    def test_open_idles_and_settling_are_fields_of_a_configuration(self):
        for told in ({}, {"open_idle": 1}, {"settle": 4096}, {"open_idle": 1, "settle": 40}):
            with Scheduler(dataclasses.replace(CONFIG, **told)) as scheduler:
                found = json.loads(scheduler.opening())["config"]
            self.assertEqual({name: found[name] for name in ("open_idle", "settle") if name in found}, told)
        for told, number in [({"open_idle": 2, "settle": 4097}, 24), ({"open_idle": 255}, 24), ({"settle": 4097}, 25)]:
            with self.assertRaises(BadConfig) as raised:
                mapsched.check(dataclasses.replace(CONFIG, **told))
            self.assertEqual((raised.exception.number, raised.exception.field), (number, [*told][0]))
        for told in ({"open_idle": 256}, {"settle": 2**32}, {"settle": -1}, {"open_idle": None}):
            self.assertRaises(ValueError, lambda: mapsched.check(dataclasses.replace(CONFIG, **told)))

    def test_an_opportunity_stands_in_the_next_map(self):
        wants = [Reserve("initial", 8), Reserve("station", 4, sid=9)]
        with Scheduler(CONFIG) as scheduler:
            self.assertEqual([scheduler.call(it) for it in wants], [Reserved(), Reserved()])
            found = mapsched.decode(scheduler.call(Build(760)).payload)
            self.assertEqual([it.call for it in scheduler][:2], wants)
            self.assertEqual(scheduler.call(Reserve("initial", 8, sid=9)), Reserved())
            self.assertEqual(scheduler[-1].call, Reserve("initial", 8))
        rows = [("request", 0x3FFF, 0), ("initial", 0x3FFF, 4), ("station", 9, 12), ("long", 0, 16), ("null", 0, 40)]
        self.assertEqual([(it.usage, it.sid, it.offset) for it in found.elements], rows)

    def test_each_usage_has_its_number_and_its_sid(self):
        wants = [(Reserve("initial", 8), 0, 0), (Reserve("station", 4, sid=9), 1, 9),
                 (Reserve("initial_to", 8, sid=9), 2, 9), (Reserve("request", 2, sid=16383), 3, 16383),
                 (Reserve("quiet", 8), 4, 0), (Reserve("data", 4, sid=8191), 5, 8191)]
        for call, usage, sid in wants:
            numbers = mapsched.calls.numbers_of(call)
            self.assertEqual((numbers.usage, numbers.sid, numbers.slots), (usage, sid, call.slots), call)
            self.assertEqual(mapsched.calls.from_numbers(numbers), call)
        self.assertEqual(mapsched.calls.numbers_of(Reserve("quiet", 8, sid=9)).sid, 0)

    def test_a_reserve_of_each_usage_stands_in_its_map(self):
        for call, row in [(Reserve("initial_to", 8, sid=9), ("initial", 9, 4)), (Reserve("quiet", 8), ("long", 0, 4)),
                          (Reserve("request", 2, sid=15873), ("request", 15873, 4))]:
            with Scheduler(CONFIG) as scheduler:
                self.assertEqual(scheduler.call(call), Reserved())
                built = scheduler.call(Build(760))
            found = mapsched.decode(built.payload).elements[1]
            self.assertEqual((found.usage, found.sid, found.offset), row)

    def test_a_wrong_opportunity_or_header_is_refused_by_its_number(self):
        with Scheduler(CONFIG) as scheduler:
            for call, number in [
                (Reserve("station", 4), 1), (Reserve("station", 0, 8192), 1), (Reserve("station", 0, 9), 18),
                (Reserve("request", 2, 8192), 1), (Reserve("request", 2, 15872), 1), (Reserve("data", 2, 16383), 1),
                (Reserve("initial_to", 2), 1), (Reserve("quiet", 37), 18),
                (Reserve("initial", 37), 18), (Header(1, 16, 0, 0, 0), 20), (Header(1, 0, 16, 0, 0), 20),
                (Header(1, 0, 0, 255, 0), 20), (Header(1, 0, 0, 0, 16), 20),
            ]:
                self.assertEqual(scheduler.call(call), Refused(mapsched.Refusal(number)), call)
            for _ in range(64):
                self.assertEqual(scheduler.call(Reserve("initial", 36)), Reserved())
            self.assertEqual(scheduler.call(Reserve("initial", 36)).line, "refused 19")

    def test_a_header_stands_in_every_map_after_it(self):
        def heading(now):
            found = mapsched.decode(scheduler.call(Build(now)).payload)
            return Header(found.ucd_count, found.ranging_start, found.ranging_end, found.data_start, found.data_end)

        with Scheduler(CONFIG) as scheduler:
            first, second = Header(1, 0, 0, 0, 0), Header(255, 3, 15, 4, 8)
            self.assertEqual(heading(760), first)
            self.assertEqual(scheduler.call(second), Noted())
            self.assertEqual(scheduler.call(Header(7, 1, 2, 3, 16)).line, "refused 20")
            self.assertEqual((heading(800), heading(840), scheduler[1].call), (second, second, second))

    def test_a_full_history_is_a_fault_and_changes_nothing(self):
        with Scheduler(Config(**{**vars(CONFIG), "calls": 1})) as scheduler:
            self.assertIsInstance(scheduler.call(Build(760)), Built)
            text = scheduler.history_text()
            self.assertRaises(HistoryFull, scheduler.call, Build(800))
            self.assertEqual((scheduler.history_text(), len(scheduler), bool(scheduler)), (text, 1, True))
            self.assertEqual(scheduler[-1], scheduler[0])
            for place in (1, -2):
                self.assertRaises(IndexError, scheduler.__getitem__, place)

    def test_a_scheduler_that_forgets_goes_on(self):
        with Scheduler(Config(**{**vars(CONFIG), "calls": 2})) as scheduler, Scheduler(CONFIG) as whole:
            for place in range(7):
                if place - scheduler.kept_from == 2:
                    self.assertRaises(HistoryFull, scheduler.call, Status(5))
                    scheduler.forget()
                self.assertEqual(scheduler.call(Build(760 + 40 * place)), whole.call(Build(760 + 40 * place)))
            self.assertEqual((scheduler.kept_from, len(scheduler), len([*scheduler])), (6, 7, 1))
            self.assertEqual([*scheduler], [whole[6]])
            for use in (lambda: scheduler[5], lambda: scheduler[-2], scheduler.history_text):
                self.assertRaises(HandedOver, use)

    def test_the_lines_are_those_of_what_is_kept(self):
        with Scheduler(CONFIG) as scheduler:
            self.assertEqual(json.loads(scheduler.opening()), {"config": json.loads(texts.whole(texts.CONFIG))})
            self.assertEqual(scheduler.lines(), "")
            for place in range(3):
                scheduler.call(Build(760 + 40 * place))
            entries = json.loads(scheduler.history_text())["entries"]
            self.assertEqual([json.loads(it) for it in scheduler.lines().splitlines()], entries)
            scheduler.forget()
            self.assertEqual(scheduler.lines(), "")
            scheduler.call(Build(880))
            self.assertEqual([json.loads(it)["ticket"] for it in scheduler.lines().splitlines(True)], [3])
            self.assertTrue(scheduler.lines().endswith("}\n"))

    def test_the_stamp_is_recorded(self):
        with Scheduler(CONFIG) as scheduler:
            scheduler.call(Build(760), seat=7, ticket=2**64 - 1)
            self.assertEqual((scheduler[0].seat, scheduler[0].ticket), (7, 2**64 - 1))

    def test_what_is_no_json_is_no_history(self):
        for text in ("", "{", b"\xff"):
            with self.assertRaises(NoHistory) as raised:
                mapsched.audit(text)
            self.assertEqual((str(raised.exception), raised.exception.place), ("not json", None))
        with self.assertRaises(NoHistory) as raised:
            mapsched.audit(b" " * 16777217)
        self.assertEqual(str(raised.exception), "text too long")

    def test_an_illegal_history_has_its_entry(self):
        _, history = tables.run(texts.read("examples/two_maps.json"))
        self.assertEqual(mapsched.audit(history.replace('"ack":800', '"ack":801', 1)), mapsched.Illegal(0))

    def test_numbers_that_are_no_map_have_their_fault(self):
        good = mapsched.decode(bytes.fromhex("03010300000003200000032000000000fffc4000000180040001c028"))
        null, early = Element(0, 7, 40), Element(0, 6, 41)
        for elements, number, element in [
            ([null] * 241, 1, None), ([Element(16384, 6, 0), null], 2, 0), ([early, null], 3, 1), ([early], 4, None),
            ([null, null], 5, 1),
        ]:
            with self.assertRaises(BadMap) as raised:
                mapsched.encode(mapsched.Map(**{**vars(good), "elements": tuple(elements)}))
            self.assertEqual((raised.exception.number, raised.exception.element), (number, element))

    def test_threads_may_share_a_scheduler(self):
        with Scheduler(CONFIG) as scheduler:
            work = [threading.Thread(target=lambda: [scheduler.call(Status(5)) for _ in range(100)]) for _ in range(8)]
            for it in work:
                it.start()
            for it in work:
                it.join()
            self.assertEqual([it.ticket for it in scheduler], [*range(800)])

    @unittest.skipUnless(which("cc"), "there is no C compiler")
    def test_the_structs_are_those_of_the_header(self):
        lines = ["#include <mapsched.h>", "#include <stdio.h>", "int main(void) {"]
        wanted = []
        for name, struct in STRUCTS.items():
            lines.append(f'printf("%zu\\n", sizeof(struct mapsched_{name}));')
            wanted.append(ctypes.sizeof(struct))
            for field in library.members_of(struct):
                lines.append(f'printf("%zu\\n", offsetof(struct mapsched_{name}, {field}));')
                wanted.append(getattr(struct, field).offset)
        for name in ("MAX_STARTS", "MAX_BYTES", "MAX_ELEMENTS"):
            lines.append(f'printf("%d\\n", MAPSCHED_{name});')
            wanted.append(getattr(library, name))
        with tempfile.TemporaryDirectory() as room:
            with open(f"{room}/sizes.c", "w", encoding="utf-8") as it:
                it.write("\n".join([*lines, "return 0; }", ""]))
            subprocess.run(["cc", f"-I{tables.HERE}/include", "-o", f"{room}/sizes", f"{room}/sizes.c"], check=True)
            found = subprocess.run([f"{room}/sizes"], capture_output=True, check=True).stdout.split()
        self.assertEqual([int(it) for it in found], wanted)

    def test_the_name_of_the_library_has_the_version(self):
        major, minor, _ = mapsched.__version__.split(".")
        self.assertEqual(library.SONAME, f"libmapsched.so.{major if major != '0' else f'0.{minor}'}")
