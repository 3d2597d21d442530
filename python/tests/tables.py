"""The tables of the repository's checks, and the drawn scripts, as the tests of the module read them."""

import importlib.machinery
import importlib.util
import json
import os
import re
import sys

HERE = os.path.dirname(os.path.dirname(os.path.dirname(os.path.realpath(__file__))))
sys.path.insert(0, f"{HERE}/checks")

import texts  # noqa: E402

from mapsched import Config, HistoryFull, Scheduler, call_of  # noqa: E402


def drawing_of(number):
    """A drawn script: `checks/plain_runs` draws it."""
    loader = importlib.machinery.SourceFileLoader("plain_runs", f"{HERE}/checks/plain_runs")
    module = importlib.util.module_from_spec(importlib.util.spec_from_loader("plain_runs", loader))
    loader.exec_module(module)
    return module.Drawing(module.random.Random(module.SEED + number))


def lines_of(scheduler, calls):
    """The lines of the calls, as `mapsched run` prints them."""
    for call in calls:
        try:
            yield scheduler.call(call_of(call)).line
        except HistoryFull as fault:
            yield str(fault)


def run(script):
    """The lines of a script, and the text of its history."""
    script = json.loads(script)
    with Scheduler(Config(**script["config"])) as scheduler:
        return [*lines_of(scheduler, script["calls"])], scheduler.history_text()


def reference_rows(heading, table=0):
    """The rows of a table of docs/REFERENCE.md behind a heading, each as its cells: of the first one, or so many on."""
    text = texts.read("docs/REFERENCE.md").partition(f"\n## {heading}\n")[2]
    lines = re.findall(r"(?:^\|.*\n)+", text, re.M)[table].splitlines()
    return [[it.strip() for it in line.strip("|").split("|")] for line in lines[2:]]
