#!/usr/bin/env python3
"""How long data wait for their first grant, with idle minislots open to requests and without: computers that send a few
packets at a time, on channels that carry about a tenth, a half and nine tenths of what they can. Prints a table in
milliseconds."""

import argparse
import sys

sys.dont_write_bytecode = True

from channel import CONFIG, DISK  # noqa: E402
from client import Live  # noqa: E402
from counts import summary  # noqa: E402
from modems import MILLISECOND, Computer, Habits  # noqa: E402
from plant import Plant  # noqa: E402

# Some four kilobytes at a time, each computer nearly five times a second.
PACKETS = Habits((2000, 6000), (2000, 6000), 2, (100 * MILLISECOND, 300 * MILLISECOND), 8000)
CROWDS = (6, 33, 64)


class Sender(Computer):
    """A computer that is always on, and notes how long what it gets waits from its arrival to the end of a first grant."""

    on_for = off_for = arrived = None

    def __init__(self, sid, seed, now, waits):
        self.waits = waits
        super().__init__(sid, DISK, seed, now, PACKETS)

    def fill(self, at):
        if not self.file and not self.queued and at >= self.file_at:
            self.arrived = self.file_at
        super().fill(at)

    def sent(self, count, at):
        super().sent(count, at)
        if count and self.arrived is not None:
            self.waits.append(at - self.arrived)
            self.arrived = None


def run(program, seconds, seed, senders, config):
    """The waits, and which part of the frames behind the request regions data took."""
    waits = []
    with Live(config, program) as live:
        plant = Plant(live, config, seed)
        plant.modems = {300 + at: Sender(300 + at, seed, plant.next, waits) for at in range(senders)}
        plant.run(seconds)
    use = plant.counts.use
    return summary(waits), use["data"] / (use["data"] + use["idle"] + use["open"])


def main():
    reader = argparse.ArgumentParser(description="How long data wait for a grant, with open idles and without.")
    reader.add_argument("--program", default="mapsched")
    reader.add_argument("--seconds", type=float, default=20, help="of plant time for each line (20)")
    reader.add_argument("--seed", type=int, default=1)
    given = reader.parse_args()
    print("computers  open_idle   load   middle  99 in 100 greatest")
    for senders in CROWDS:
        for is_open in (0, 1):
            config = {**CONFIG, "flows": 8191, "open_idle": is_open}
            waits, load = run(given.program, given.seconds, given.seed, senders, config)
            shown = "".join(f"{waits[part] / MILLISECOND:9.2f}" for part in ("middle", "p99", "greatest"))
            print(f"{senders:9}{is_open:11}{100 * load:6.0f} %{shown}")


if __name__ == "__main__":
    main()
