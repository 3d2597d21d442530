"""Talks with `mapsched live`, a scheduler in a process of its own, through its pipes. One file over Python's standard
library, to be copied. Python 3.9 or later, on Linux.

    with Live(config) as live:
        live.admit(17, {"kind": "best_effort", "priority": 3, "rate": 0, "burst": 0})
        live.build(now=760)
        live.ask(receiver=0, sid=17, count=100, heard=801)
        payload = live.build(now=800)

Each method makes one call and gives its answer as a value. A refusal is a value too, `Refused`: the scheduler has
recorded it, and nothing else has changed. What goes wrong is an exception, a `Fault`. One thread at a time."""

import json
import os
import re
import select
import subprocess
import tempfile
from typing import NamedTuple, Optional


class Refused(NamedTuple):
    """A call that was refused: the number of the refusal, and the value that some have."""

    number: int
    value: Optional[int] = None


class Admitted(NamedTuple):
    """An admission. A periodic flow has its first nominal minislot, and its starts in each nominal frame."""

    reference: Optional[int] = None
    starts: tuple = ()


class Changed(NamedTuple):
    """A change. A periodic flow has its first nominal minislot, and its starts in each nominal frame."""

    reference: Optional[int] = None
    starts: tuple = ()


class Sums(NamedTuple):
    """The bytes of a flow."""

    asked: int
    granted: int
    outstanding: int


class Fault(Exception):
    """What was asked for was not done."""


class BadLine(Fault):
    """A line was no call, and nothing has changed: a number below 0, say."""


class NotRecorded(Fault):
    """There was no memory for a call, and nothing has changed. It may be made again."""


class Ended(Fault):
    """The program has ended, or does not answer: its exit status, where it has one, and what it said."""

    def __init__(self, status, said):
        super().__init__(f"mapsched live: status {status}: {said}")
        self.status, self.said = status, said


# The answers that tell nothing more than that the call was accepted, and those that may have a placement.
NOTHING_TOLD = ("removed", "taken", "noted", "reserved")
PLACED = {"admitted": Admitted, "changed": Changed}


def answer_of(line):
    """The value of a line that answers a call."""
    kind, *words = line.split(" ")
    if kind in NOTHING_TOLD:
        return None
    if kind == "map":
        return bytes.fromhex(words[0])
    if kind == "bad":
        raise BadLine(line)
    if kind in ("out", "history"):
        raise NotRecorded(line)
    numbers = [int(word) for word in words]
    if kind in PLACED:
        return PLACED[kind](numbers[0], tuple(numbers[1:])) if numbers else PLACED[kind]()
    return {"refused": Refused, "flow": Sums, "skipped": int}[kind](*numbers)


def answer_in(reply):
    """The same value, where a journal has the reply."""
    kind = reply["kind"]
    if kind in NOTHING_TOLD:
        return None
    if kind == "map":
        return bytes.fromhex(reply["hex"])
    if kind in PLACED:
        return PLACED[kind](reply.get("reference"), tuple(reply.get("starts", ())))
    if kind == "refused":
        return Refused(reply["number"], reply.get("value"))
    return reply["next"] if kind == "skipped" else Sums(reply["asked"], reply["granted"], reply["outstanding"])


class Live:
    """A conversation with the program. With `journal`, a file, each call is in it before its answer comes, and a
    conversation that broke off is gone on with where the file has calls. Where the program does not begin, as with a
    wrong configuration, `Ended` comes at the first call at the latest. `patience` is how many seconds an answer may
    take, the reading of a long journal before the first one among them."""

    def __init__(self, config, program="mapsched", journal=None, sync=False, patience=60):
        opening = json.dumps({"config": config}) + "\n"
        words = [program, "live", *([f"--journal={journal}"] if journal else []), *(["--sync"] if sync else [])]
        # A file takes what it says: a pipe that nobody reads would be full one day, and the program would wait.
        self._errors = tempfile.TemporaryFile()
        self._program = subprocess.Popen(
            words, stdin=subprocess.PIPE, stdout=subprocess.PIPE, stderr=self._errors, bufsize=0
        )
        self._poll, self._patience, self._heard, self._answered = select.poll(), patience, b"", False
        self._poll.register(self._program.stdout, select.POLLIN)
        self._exchange(opening, 0)

    def __enter__(self):
        return self

    def __exit__(self, kind, *_):
        if kind is None:
            self.close()
        else:
            self.kill()

    # The calls, each with its answer.

    def admit(self, sid, flow):
        """`Admitted`, or `Refused`. The flow is a dict, as a script has it."""
        return self.call({"call": "admit", "sid": sid, "flow": flow})

    def change(self, sid, flow):
        """`Changed`, or `Refused`: a live flow gets other parameters of its kind. What it asked for stays."""
        return self.call({"call": "change", "sid": sid, "flow": flow})

    def remove(self, sid):
        """None, or `Refused`."""
        return self.call({"call": "remove", "sid": sid})

    def ask(self, receiver, sid, count, heard):
        """None, or `Refused`: a receiver heard at this minislot that a flow asks for so many bytes."""
        return self.call({"call": "ask", "receiver": receiver, "sid": sid, "bytes": count, "heard": heard})

    def ask_minislots(self, receiver, sid, slots, heard):
        """The same of a modem that asks for minislots, as those before DOCSIS 3.0 do: for what so many carry."""
        return self.call({"call": "ask", "receiver": receiver, "sid": sid, "slots": slots, "heard": heard})

    def replace(self, receiver, sid, count, heard):
        """The same of a modem that asks anew: it waits for so many bytes in the place of all before, or for none."""
        return self.call({"call": "replace", "receiver": receiver, "sid": sid, "bytes": count, "heard": heard})

    def replace_minislots(self, receiver, sid, slots, heard):
        """The same in minislots."""
        return self.call({"call": "replace", "receiver": receiver, "sid": sid, "slots": slots, "heard": heard})

    def rest(self, sid):
        """None, or `Refused`: a flow of unsolicited grants is polled in their place."""
        return self.call({"call": "rest", "sid": sid})

    def wake(self, sid):
        """None, or `Refused`: it has its grants again."""
        return self.call({"call": "wake", "sid": sid})

    def heard(self, receiver, upto):
        """None, or `Refused`: a receiver has handed in all that it heard before this minislot."""
        return self.call({"call": "heard", "receiver": receiver, "upto": upto})

    def build(self, now):
        """The payload of the next frame's MAP, as bytes, or `Refused`."""
        return self.call({"call": "build", "now": now})

    def skip(self, now):
        """The start of the frame that comes next now, or `Refused`."""
        return self.call({"call": "skip", "now": now})

    def status(self, sid):
        """`Sums`, or `Refused`."""
        return self.call({"call": "status", "sid": sid})

    def reserve(self, usage, slots, sid=None):
        """None, or `Refused`: a later MAP is to have an opportunity of so many minislots, `initial` for all modems or
        `quiet` for none, or of another usage for those of a SID."""
        modems = {} if sid is None else {"sid": sid}
        return self.call({"call": "reserve", "usage": usage, "slots": slots, **modems})

    def header(self, ucd_count, ranging_start, ranging_end, data_start, data_end):
        """None, or `Refused`: the UCD count and the exponents of the backoff windows in the MAPs after it."""
        windows = {"ranging_start": ranging_start, "ranging_end": ranging_end}
        windows |= {"data_start": data_start, "data_end": data_end}
        return self.call({"call": "header", "ucd_count": ucd_count, **windows})

    def call(self, call):
        """The answer to a call that is a dict, as a script has it."""
        return answer_of(self._exchange(json.dumps(call) + "\n", 1)[0])

    def calls(self, calls):
        """The answers to many calls, which are written at once. Where one is a fault, all were made none the less."""
        lines = self._exchange("".join(json.dumps(call) + "\n" for call in calls), len(calls))
        return [answer_of(line) for line in lines]

    # The process.

    def said(self):
        """What the program has said on standard error up to now."""
        if not self._errors.closed:
            self._said = os.pread(self._errors.fileno(), 65536, 0).decode(errors="replace").strip()
        return self._said

    def resumed(self):
        """How many calls the journal had, and None before the first answer, when that is not known. After a crash the
        calls that had no answer are among them or not: this number tells."""
        if not self._answered:
            return None
        found = re.search(r"^resumed (\d+)$", self.said(), re.MULTILINE)
        return int(found[1]) if found else 0

    def close(self):
        """Ends the conversation: the program ends with status 0, or `Ended` is raised. One that was ended stays so."""
        if self._program.stdin.closed:
            return
        self._program.stdin.close()
        try:
            status = self._program.wait(self._patience)
        except subprocess.TimeoutExpired:
            self.kill()
            raise Ended(None, "does not end") from None
        self._let_go()
        if status:
            raise Ended(status, self.said())

    def kill(self):
        """Ends the program at once. A journal has every call that was answered."""
        self._program.kill()
        self._program.wait()
        self._let_go()

    def _let_go(self):
        self.said()
        for file in (self._program.stdin, self._program.stdout, self._errors):
            file.close()

    def _exchange(self, text, count):
        """Writes a text and reads so many lines, each as soon as it can be. Who only wrote, while the program waits for
        room for its own answers, would wait for ever."""
        left, lines = text.encode(), []
        if self._program.stdin.closed:
            raise self._ended()
        if left:
            self._poll.register(self._program.stdin, select.POLLOUT)
        while left or len(lines) < count:
            ready = dict(self._poll.poll(self._patience * 1000))
            if not ready:
                raise Ended(None, "no answer")
            if self._program.stdin.fileno() in ready:
                left = self._write(left)
            if self._program.stdout.fileno() in ready:
                lines += self._read()
        self._answered |= count > 0
        return lines

    def _write(self, left):
        """Writes what a pipe that has room takes without waiting, and gives the rest."""
        try:
            left = left[os.write(self._program.stdin.fileno(), left[: select.PIPE_BUF]) :]
        except BrokenPipeError:
            raise self._ended() from None
        if not left:
            self._poll.unregister(self._program.stdin)
        return left

    def _read(self):
        """The whole lines that have come."""
        piece = os.read(self._program.stdout.fileno(), 65536)
        if not piece:
            raise self._ended()
        *lines, self._heard = (self._heard + piece).split(b"\n")
        return [line.decode() for line in lines]

    def _ended(self):
        return Ended(self._program.wait(self._patience), self.said())
