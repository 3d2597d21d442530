#!/usr/bin/env python3
"""A chassis of many channels by the clock: so many schedulers are told, 500 times a second, what the plant of
examples/plant tells its own for one frame of 2 milliseconds: some three calls, the last of them a build. They are
processes of the program, or units of systemd behind their sockets. Prints what processor time they took, how long it
took until all had their MAPs, how late the turns began, and how many turns were above some bounds. The status is 1
where one has another answer than its plant had. docs/OPERATION.md tells what to look at."""

import argparse
import json
import os
import random
import resource
import select
import signal
import socket
import subprocess
import sys
import tempfile
import time

sys.dont_write_bytecode = True
PLANT = os.path.realpath(f"{__file__}/../../plant")
sys.path.insert(1, PLANT)

from channel import CONFIG  # noqa: E402
from client import Fault  # noqa: E402
from plant import name_checked, program  # noqa: E402

# Seconds of a frame, how many plants there are, and milliseconds above which turns are counted.
FRAME, SEEDS, BOUNDS = 0.002, 4, (1, 2, 4, 8)
# So many seconds behind the clock it gives up.
BEHIND = 5
NEW_JOURNAL = "another answer than its plant had (a unit has to begin with a new journal)"


def turns_of(chosen, seed, seconds):
    """What a plant tells a scheduler, frame by frame, each with the answers."""
    with tempfile.TemporaryDirectory() as folder:
        words = ["--seed", str(seed), "--seconds", str(seconds), "--program", chosen, "--journal", f"{folder}/journal"]
        subprocess.run([sys.executable, f"{PLANT}/plant.py", *words], check=True, stdout=subprocess.DEVNULL)
        with open(f"{folder}/journal", "rb") as it:
            first, *lines = it.readlines()
    calls = [json.dumps(json.loads(line)["call"], separators=(",", ":")).encode() + b"\n" for line in lines]
    answers = subprocess.run([chosen, "live"], input=first + b"".join(calls), capture_output=True, check=True).stdout
    turns, told, said = [], first, b""
    for call, answer in zip(calls, answers.splitlines(True)):
        told, said = told + call, said + answer
        if b'"build"' in call:
            turns.append((told, said))
            told = said = b""
    return turns


def turns_with(chosen, seed, seconds, flows):
    """What a channel of so many flows is told instead: all are admitted, and then each frame has four requests, in all
    some 0.8 of what it carries, how far they were heard, and its build."""
    draw, frame, start = random.Random(seed), CONFIG["frame"], CONFIG["start"]
    flow = {"kind": "best_effort", "priority": 3, "rate": 0, "burst": 0}
    told = [[{"config": {**CONFIG, "flows": flows}}, {"call": "build", "now": start - CONFIG["lead"]}]]
    told[0] += ({"call": "admit", "sid": sid, "flow": flow} for sid in range(1, flows + 1))
    for at in range(1, int(seconds / FRAME) + 1):
        heard = start + at * frame - 1
        asked = {"call": "ask", "receiver": 0, "heard": heard}
        asks = [{**asked, "sid": draw.randint(1, flows), "bytes": draw.choice([64, 300, 1000])} for _ in range(4)]
        upto = {"call": "heard", "receiver": 0, "upto": heard}
        told.append([*asks, upto, {"call": "build", "now": heard + 1 - CONFIG["lead"]}])
    lines = [b"".join(json.dumps(it, separators=(",", ":")).encode() + b"\n" for it in turn) for turn in told]
    said = subprocess.run([chosen, "live"], input=b"".join(lines), capture_output=True, check=True).stdout
    answers = iter(said.splitlines(True))
    return [(turn, b"".join(next(answers) for _ in range(turn.count(b'"call"')))) for turn in lines]


class Channel:
    """A scheduler that is talked with, through the pipes of a process or a connection."""

    def __init__(self, name, turns, to, back):
        self.name, self.turns, self.to, self.back = name, turns, to, back

    def fileno(self):
        return self.back

    def tell(self, at):
        self.told, self.said = time.perf_counter(), b""
        try:
            os.write(self.to, self.turns[at][0])
        except OSError as fault:
            raise Fault(f"channel {self.name} has ended: {fault.strerror}") from None

    def take(self, at):
        """Reads what there is. Whether it has all answers of the turn then."""
        piece, wanted = os.read(self.back, 65536), self.turns[at][1]
        if not piece:
            raise Fault(f"channel {self.name} has ended in frame {at}")
        self.said += piece
        if self.said.count(b"\n") < wanted.count(b"\n"):
            return False
        if self.said != wanted:
            raise Fault(f"channel {self.name} has in frame {at} {NEW_JOURNAL}: {self.said.decode().strip()}")
        return True

    def hear(self, at):
        while not self.take(at):
            pass
        return 1000 * (time.perf_counter() - self.told)


def processes(chosen, plants, count, processors):
    """A process for each channel, on these processors where some are named."""
    talks = []
    for at in range(count):
        talks.append(subprocess.Popen([chosen, "live"], stdin=subprocess.PIPE, stdout=subprocess.PIPE, bufsize=0))
        if processors:
            os.sched_setaffinity(talks[at].pid, processors)
    pipes = [(talk.stdin.fileno(), talk.stdout.fileno()) for talk in talks]
    return talks, [Channel(at + 1, plants[at % SEEDS], *pipes[at]) for at in range(count)]


def connections(folder, plants, count):
    """A connection to the socket of each channel, which has its number for a name."""
    talks = []
    for at in range(1, count + 1):
        talks.append(socket.socket(socket.AF_UNIX))
        try:
            talks[-1].connect(f"{folder}/{at}")
        except OSError as fault:
            raise Fault(f"{folder}/{at}: {fault.strerror}: systemctl start mapsched-live@{at}.socket") from None
    return talks, [Channel(at + 1, plants[at % SEEDS], *2 * [talk.fileno()]) for at, talk in enumerate(talks)]


def uncarried(channels):
    return f"this machine does not carry {len(channels)} channels"


def pace(channels, count):
    """Takes so many turns by the clock. How long each took, and how late each began, and how long each channel did."""
    took, late, each, begun = [], [], [], time.perf_counter()
    for at in range(count):
        due = begun + at * FRAME
        time.sleep(max(0.0, due - time.perf_counter()))
        start = time.perf_counter()
        if start - due > BEHIND:
            raise Fault(f"{BEHIND} seconds behind the clock in frame {at}: {uncarried(channels)}")
        for channel in channels:
            channel.tell(at)
        each += [channel.hear(at) for channel in channels]
        took.append(1000 * (time.perf_counter() - start))
        late.append(1000 * (start - due))
    return took, late, each


def pace_apart(channels, count):
    """The same, where the channels begin their frames one after the other, and each is heard when it answers."""
    late, each, waiting, step, begun = [], [], {}, FRAME / len(channels), time.perf_counter()

    def hear(seconds):
        for one in select.select(list(waiting), [], [], seconds)[0]:
            if one.take(waiting[one]):
                each.append(1000 * (time.perf_counter() - one.told))
                del waiting[one]

    for turn in range(count * len(channels)):
        at, channel, due = turn // len(channels), channels[turn % len(channels)], begun + turn * step
        while (early := due - time.perf_counter()) > 0 or channel in waiting:
            hear(early if early > 0 else None)
        behind = time.perf_counter() - due
        if behind > BEHIND:
            raise Fault(f"{BEHIND} seconds behind the clock in frame {at}: {uncarried(channels)}")
        late.append(1000 * behind)
        channel.tell(at)
        waiting[channel] = at
    while waiting:
        hear(None)
    return each, late, each


def seconds_of(who):
    used = resource.getrusage(who)
    return used.ru_utime + used.ru_stime


def spread(numbers):
    ordered = sorted(numbers)
    found = (ordered[int(part * (len(ordered) - 1))] for part in (0.5, 0.99, 0.999, 1))
    return "{:.2f} in the middle, {:.2f} for 99 in 100, {:.2f} for 999 in 1000, {:.2f} at most".format(*found)


def measure(given, chosen, plants):
    count = min(len(turns) for turns in plants)
    before, own = seconds_of(resource.RUSAGE_CHILDREN), seconds_of(resource.RUSAGE_SELF)
    if given.sockets:
        talks, channels = connections(given.sockets, plants, given.channels)
    else:
        talks, channels = processes(chosen, plants, given.channels, given.processors)
    if given.flows:
        for channel in channels:
            channel.tell(0)
            channel.hear(0)
            channel.turns = channel.turns[1:]
        count -= 1
    began = time.perf_counter()
    took, late, each = (pace_apart if given.apart else pace)(channels, count)
    lasted, own = time.perf_counter() - began, seconds_of(resource.RUSAGE_SELF) - own
    for talk in talks:
        if given.sockets:
            talk.close()
        else:
            talk.stdin.close()
            talk.wait()
    # Who reads no further ends it, as he ends other programs.
    signal.signal(signal.SIGPIPE, signal.SIG_DFL)
    print(f"{given.channels} channels, {count} frames of {1000 * FRAME:g} ms in {lasted:.2f} s")
    if not given.sockets:
        print(f"cores of the schedulers: {(seconds_of(resource.RUSAGE_CHILDREN) - before) / lasted:.2f}")
    print(f"cores of this driver: {own / lasted:.2f}")
    if not given.apart:
        print(f"milliseconds until all have their MAPs: {spread(took)}")
    print(f"milliseconds until one has its MAP: {spread(each)}")
    print(f"milliseconds behind the clock at the beginning: {spread(late)}")
    print("turns that took longer:", ", ".join(f"than {it} ms {sum(ms > it for ms in took)}" for it in BOUNDS))
    print("processes that ran or waited for a processor, in the last 1, 5 and 15 minutes:", *os.getloadavg())


def processors_in(text):
    return {int(it) for it in text.split(",")}


def arguments():
    reader = argparse.ArgumentParser(description="Many channels by the clock, scheduled by mapsched live.")
    reader.add_argument("--program", help="by default mapsched on the path, or else the repository's script")
    reader.add_argument("--channels", type=int, default=64, help="how many there are (64)")
    reader.add_argument("--seconds", type=float, default=10, help="how long they run (10)")
    reader.add_argument("--flows", type=int, help="tells channels of so many flows, in place of plants")
    reader.add_argument("--apart", action="store_true", help="the channels' frames begin one after the other")
    reader.add_argument("--processors", metavar="LIST", type=processors_in, help="where the schedulers run, as 1,2,3")
    reader.add_argument("--sockets", metavar="FOLDER", help="talks with the units behind its sockets 1, 2, .. instead")
    given = reader.parse_args()
    if given.channels < 1 or given.seconds <= 0:
        reader.error("a chassis has channels, and runs for some time")
    return given


def main():
    given = arguments()
    try:
        chosen = name_checked(given.program) if given.program else program()
        turns = (lambda *words: turns_with(*words, given.flows)) if given.flows else turns_of
        plants = [turns(chosen, seed, given.seconds) for seed in range(1, min(SEEDS, given.channels) + 1)]
        measure(given, chosen, plants)
    except (Fault, OSError, subprocess.SubprocessError) as fault:
        sys.exit(f"chassis.py: {fault}")
    except KeyboardInterrupt:
        sys.exit(130)


if __name__ == "__main__":
    main()
