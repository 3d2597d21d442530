"""README's script, each row of the tables of docs/REFERENCE.md, and of the tables of the checks."""

import dataclasses
import json
import re
import subprocess
import sys
import unittest
from typing import get_args

import mapsched
from mapsched import BadConfig, BadPayload, Config, Illegal, Legal, NoHistory, Refusal, Scheduler

from . import tables
from .tables import texts

CONFIG = json.loads(texts.CONFIG)


class Documents(unittest.TestCase):
    def test_the_script_prints_its_lines(self):
        lines, history = tables.run(texts.read("examples/two_maps.json"))
        wanted = re.search(r"\n((?:    (?:map [0-9a-f]+|admitted|taken)\n)+)", texts.read("README.md"))[1]
        self.assertEqual(lines, [line.strip() for line in wanted.splitlines()])
        self.assertEqual(mapsched.audit(history), Legal(4))

    def test_the_lines_of_readme_print_the_first_map(self):
        lines = re.search(r"```python\n(.*?)```", texts.read("README.md"), re.S)[1]
        program = [sys.executable, "-c", lines.replace("examples/", f"{tables.HERE}/examples/")]
        said = subprocess.run(program, check=True, stdout=subprocess.PIPE, encoding="utf-8").stdout
        self.assertIn(f"    map {said}", texts.read("README.md"))

    def test_each_field_is_one_of_the_configuration(self):
        numbered = {}
        for numbers, names, *_ in tables.reference_rows("The configuration"):
            names = re.findall(r"`(\w+)`", names)
            numbered |= {name: number for name, number in zip(names, re.findall(r"\d+", numbers))}
            for name in names:
                self.assertIn(name, {it.name for it in dataclasses.fields(Config)})
        self.assertEqual([*numbered], mapsched.faults._FIELDS)
        edits = texts.rows("fields_of_a_configuration")
        wrong = {texts.field_of(row): fault for row, fault in edits if "bad" in fault}
        self.assertEqual(wrong, {name: f"bad config {number}" for name, number in numbered.items()})

    def test_each_member_of_burst_descriptors_is_one_of_the_module(self):
        for place, kind in enumerate([mapsched.Bursts, mapsched.Profile], 1):
            rows = tables.reference_rows("The configuration", place)
            names = [re.search(r"`(\w+)`", name)[1] for name, *_ in rows]
            self.assertEqual(names, [it.name for it in dataclasses.fields(kind)])

    def test_each_wrong_value_is_told_by_its_number(self):
        for row, wanted in texts.rows("fields_of_a_configuration"):
            config = Config(**json.loads(texts.edited(texts.CONFIG, *row.split(" -> "))))
            with self.subTest(row):
                if wanted == "a script":
                    mapsched.check(config)
                    Scheduler(config).close()
                    continue
                for opens in (mapsched.check, Scheduler):
                    with self.assertRaises(BadConfig) as raised:
                        opens(config)
                    self.assertEqual(f"bad config {raised.exception.number}", wanted)
                    self.assertIn(f'"{raised.exception.field}":', row)

    def test_each_call_and_flow_is_one_of_the_module(self):
        members = {}
        for place in (0, 1):
            for name, cell, _ in tables.reference_rows("Calls and lines", place):
                kind = getattr(mapsched, name.strip("`").title().replace("_", ""))
                members[kind] = [it.name for it in dataclasses.fields(kind)]
                self.assertEqual(sorted(re.findall(r"`(\w+)`", cell)), sorted(members[kind]))
        self.assertEqual({*members}, {*get_args(mapsched.Call), *get_args(mapsched.Flow)})

    def test_each_refusal_is_met(self):
        numbers = [int(number) for number, *_ in tables.reference_rows("Refusals")]
        self.assertEqual(numbers, [int(it) for it in Refusal])
        met = set()
        scripts = [json.loads(texts.script_in(run)) for runs in texts.RUNS for run in runs.split("\n\n")]
        for number in range(20):
            drawing = tables.drawing_of(number)
            scripts.append({"calls": drawing.play()[0], "config": drawing.config})
        for script in scripts:
            with Scheduler(Config(**script["config"])) as scheduler:
                list(tables.lines_of(scheduler, script["calls"]))
                met |= {it.reply.refusal for it in scheduler if isinstance(it.reply, mapsched.Refused)}
        self.assertEqual(met, set(Refusal))


class Tables(unittest.TestCase):
    def test_each_answer_has_its_line(self):
        for run in [run for runs in texts.RUNS for run in runs.split("\n\n")]:
            with self.subTest(run[:60]):
                lines, history = tables.run(texts.script_in(run))
                self.assertEqual(lines, [answer for _, answer in texts.answered(run)])
                entries = len([it for it in lines if it != "history full"])
                self.assertEqual(mapsched.audit(history), Legal(entries))

    def test_each_call_is_read_back(self):
        script = json.loads(texts.script_in(texts.CALLS))
        with Scheduler(Config(**script["config"])) as scheduler:
            calls = [mapsched.call_of(it) for it in script["calls"]]
            replies = [scheduler.call(it) for it in calls]
            entries = [*scheduler.history()]
        self.assertEqual([it.call for it in entries], calls)
        self.assertEqual([it.reply for it in entries], replies)
        self.assertEqual([(it.seat, it.ticket) for it in entries], [(0, place) for place in range(len(calls))])

    def test_each_reply_has_its_text(self):
        calls = [call for call, _ in texts.blocks_of(texts.REPLIES)]
        _, history = tables.run(texts.script_of(texts.CONFIG, ",".join(calls)))
        self.assertEqual(history, texts.history_of(texts.CONFIG, texts.REPLIES))

    def test_a_history_with_an_edit_has_its_fault(self):
        text = texts.history_of(texts.CONFIG, texts.REPLIES).replace('"seat":0', '"seat":7')
        for row, wanted in texts.rows("edits_of_a_history"):
            with self.subTest(row):
                edited = texts.edited(text, *row.split(" -> ", 1))
                if texts.FAULTS.fullmatch(wanted):
                    with self.assertRaises((NoHistory, BadConfig)) as raised:
                        mapsched.audit(edited)
                    self.assertEqual(str(raised.exception).partition(":")[0], wanted)
                else:
                    self.assertIsInstance(mapsched.audit(edited), (Legal, Illegal))

    def test_a_payload_has_its_table(self):
        for block in texts.read("checks/rows/tables_of_payloads").split("\n\n"):
            payload, _, table = block.partition("\n")
            found = mapsched.decode(bytes.fromhex(payload))
            self.assertEqual(found.table().rstrip("\n"), table.rstrip("\n"))
            if found.elements and all(it.iuc < 15 for it in found.elements):
                self.assertEqual(mapsched.encode(found).hex(), payload)

    def test_what_is_no_payload_has_its_fault(self):
        for text, wanted in texts.rows("texts_that_are_no_payload"):
            if wanted != "fault hex":
                with self.subTest(text), self.assertRaises(BadPayload) as raised:
                    mapsched.decode(bytes.fromhex(text))
                number, element = raised.exception.number, raised.exception.element
                self.assertEqual(wanted, f"fault {number}" + ("" if element is None else f" {element}"))
