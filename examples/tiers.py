#!/usr/bin/env python3
"""Draws what three modems of different tiers get on one channel in ten seconds, of which the slowest sends all the
time, another from the third second on, and the fastest from the fifth to the eighth: `tiers.py [MAPSCHED]` has the
program make the MAPs, and writes a picture in SVG. docs/OPERATION.md tells of it, in "Tiers"."""

import json
import subprocess
import sys

# 5.12 Mbit/s in minislots of 25 microseconds; a frame lasts 10 milliseconds.
CONFIG = {
    "ticks": 4, "bytes_per_slot": 16, "overhead": 2, "frame": 400, "cycle": 1, "req_slots": 8, "poll_slots": 2,
    "lead": 400, "short_max": 8, "quantum": 512, "grant_cap": 2000, "receivers": 1, "calls": 10000, "start": 8000,
    "ranging_start": 0, "ranging_end": 0, "data_start": 0, "data_end": 0, "channel": 3, "ucd_count": 1,
}
FRAMES, IN_STEP = 1000, 25
# Of each tier its SID, what is drawn of it, its parameters, and the seconds in which its modem has bytes to send.
TIERS = [
    (17, "gold", "#b8860b", {"priority": 5, "rate": 5000000, "burst": 100000, "peak": 8000000, "reserved": 1000000,
                             "reserved_burst": 3044}, range(4, 8)),
    (18, "silver", "#4682b4", {"priority": 3, "rate": 2000000, "burst": 50000, "peak": 3000000, "reserved": 512000,
                               "reserved_burst": 2000}, range(2, 10)),
    (19, "bronze", "#a0522d", {"priority": 1, "rate": 1000000, "burst": 20000, "peak": 2000000, "reserved": 256000,
                               "reserved_burst": 1522}, range(10)),
]
WIDTH, HEIGHT, LEFT, TOP, MOST = 640, 240, 50, 20, 5


def calls():
    """Each modem tells at the head of each of its seconds that it has more to send than the channel carries."""
    for sid, _, _, numbers, _ in TIERS:
        yield {"call": "admit", "sid": sid, "flow": {"kind": "best_effort", **numbers}}
    start = CONFIG["start"]
    for number in range(FRAMES):
        yield {"call": "build", "now": start - CONFIG["lead"]}
        start += CONFIG["frame"]
        for sid, _, _, _, seconds in TIERS:
            second, is_head = divmod(number + 1, 100)
            if is_head == 0 and (second in seconds or second - 1 in seconds):
                count = 1000000 if second in seconds else 0
                yield {"call": "replace", "receiver": 0, "sid": sid, "bytes": count, "heard": start - 1}
        if number == 0:
            yield {"call": "ask", "receiver": 0, "sid": TIERS[-1][0], "bytes": 1000000, "heard": start - 1}


def bytes_of(program):
    """The bytes of each flow in each frame."""
    script = json.dumps({"config": CONFIG, "calls": [*calls()]})
    how = {"input": script, "stdout": subprocess.PIPE, "encoding": "utf-8", "check": True}
    ran = subprocess.run([program, "run", "--journal"], **how)
    frames = {sid: [] for sid, *_ in TIERS}
    for line in ran.stdout.splitlines()[1:]:
        reply = json.loads(line)["reply"]
        if reply["kind"] != "map":
            continue
        words = [int(reply["hex"][at : at + 8], 16) for at in range(32, len(reply["hex"]), 8)]
        for sid, them in frames.items():
            them.append(sum(count for word, count in zip(words, reply["bytes"]) if word >> 18 == sid))
    return frames


def steps(frames):
    """The megabits per second of each quarter of a second."""
    for at in range(0, len(frames), IN_STEP):
        yield sum(frames[at : at + IN_STEP]) * 8 / (IN_STEP / 100) / 1000000


def place(second, rate):
    return LEFT + second * WIDTH / 10, TOP + HEIGHT - rate * HEIGHT / MOST


def line_of(frames):
    """The points of a line that has a step for each quarter of a second."""
    for number, rate in enumerate(steps(frames)):
        for second in (number / 4, (number + 1) / 4):
            yield "{:g},{:.1f}".format(*place(second, rate))


def picture(frames):
    """The lines of the picture."""
    yield (f'<svg xmlns="http://www.w3.org/2000/svg" width="{LEFT + WIDTH + 20}" height="{TOP + HEIGHT + 60}" '
           'font-family="sans-serif" font-size="12">')
    yield '<rect width="100%" height="100%" fill="white"/>'
    for rate in range(MOST + 1):
        _, y = place(0, rate)
        yield f'<path d="M{LEFT} {y:g}h{WIDTH}" stroke="#ddd"/>'
        yield f'<text x="{LEFT - 8}" y="{y + 4:g}" text-anchor="end">{rate}</text>'
    for second in range(11):
        x, y = place(second, 0)
        yield f'<text x="{x:g}" y="{y + 18:g}" text-anchor="middle">{second}</text>'
    for number, (sid, name, colour, numbers, _) in enumerate(TIERS):
        yield f'<polyline fill="none" stroke="{colour}" stroke-width="2" points="{" ".join(line_of(frames[sid]))}"/>'
        told = f"{name}: {numbers['reserved'] / 1000:g} to {numbers['rate'] / 1000:g} kbit/s"
        yield f'<text x="{LEFT + 10 + 210 * number}" y="{TOP + HEIGHT + 50}" fill="{colour}">{told}</text>'
    yield f'<text x="{LEFT}" y="{TOP - 6}">Mbit/s</text>'
    yield f'<text x="{LEFT + WIDTH}" y="{TOP + HEIGHT + 34}" text-anchor="end">seconds</text>'
    yield "</svg>"


if __name__ == "__main__":
    print("\n".join(picture(bytes_of(*sys.argv[1:2] or ["mapsched"]))))
