"""Drawn conversations that are recorded in a journal, with the answers and the entries that the plain scheduler
(plain.py) has for them, and the built program that is talked to."""

import contextlib
import importlib.machinery
import importlib.util
import json
import os
import random
import subprocess
import tempfile

from plain import line_of
from texts import HERE, compact

NO_END = 10**9


def script(name):
    """A check whose file has no ending, as a module."""
    path = f"{HERE}/checks/{name}"
    loader = importlib.machinery.SourceFileLoader(name, path)
    module = importlib.util.module_from_spec(importlib.util.spec_from_loader(name, loader))
    loader.exec_module(module)
    return module


PLAIN_RUNS = script("plain_runs")


class Talk:
    """A drawn conversation: its calls, an answer to each, and its journal, as the plain scheduler has them. Its channel
    may be one of another kind (drawing.py)."""

    def __init__(self, seed, length, calls=None, kind=PLAIN_RUNS.Drawing):
        drawing = kind(random.Random(seed))
        drawing.config["calls"] = calls or drawing.draw.choice([1, 7, 40, 1000])
        drawing.plain.config["calls"] = NO_END
        self.config, self.calls, self.answers, self.plain = drawing.config, [], [], drawing.plain
        for _ in range(length):
            call = drawing.next_call()
            self.calls.append(compact(call).encode() + b"\n")
            self.answers.append(line_of(drawing.plain.call(call)).encode() + b"\n")
        self.opening = compact({"config": self.config}).encode() + b"\n"
        # the same, in another form
        told = {**drawing.told, "calls": self.config["calls"]}
        self.spelled = json.dumps({"config": told}).encode() + b"\n"
        entries = PLAIN_RUNS.as_written(drawing.plain.entries)
        self.lines = [self.opening, *(compact(entry).encode() + b"\n" for entry in entries)]

    def journal(self, entries=None):
        return b"".join(self.lines if entries is None else self.lines[: entries + 1])

    def told(self, start=0):
        return b"".join(self.calls[start:])

    def said(self, start=0):
        return b"".join(self.answers[start:])


@contextlib.contextmanager
def journal(text=None):
    """The path of a journal with these bytes, or of none."""
    with tempfile.TemporaryDirectory() as folder:
        path = f"{folder}/journal"
        if text is not None:
            write(path, text)
        yield path


def write(path, text):
    with open(path, "wb") as it:
        it.write(text)


def read(path):
    with open(path, "rb") as it:
        return it.read()


def live(program, path, text, *words, **how):
    """How a whole conversation ends: its status, what it writes and what it says."""
    ran = subprocess.run([program.path, "live", "--journal", path, *words], input=text, capture_output=True, **how)
    return ran.returncode, ran.stdout, ran.stderr.decode()


def failed(what, path, error):
    """What is told where a call of the system failed: this call on this file or folder, for this reason, which is told
    in the words of the C library where it is a number."""
    return f"journal failed\n{what} {path}: {os.strerror(error) if isinstance(error, int) else error}\n"


def resumed(entries, cut=0):
    return f"resumed {entries}\n" + (f"cut {cut}\n" if cut else "")
