"""Which plant it is: its channel, its modems and its troubles."""

from typing import NamedTuple

from modems import MILLISECOND, SECOND, Camera, Computer, Habits, Telephone

# 10.24 Mbit/s in minislots of 12.5 microseconds; a frame lasts 2 milliseconds, its MAP is built 1.6 before it.
CONFIG = {
    "ticks": 2, "bytes_per_slot": 16, "overhead": 2, "frame": 160, "cycle": 10, "req_slots": 6, "poll_slots": 3,
    "lead": 128, "short_max": 18, "quantum": 256, "grant_cap": 2000, "receivers": 1, "calls": 1000, "start": 1600,
    "ranging_start": 0, "ranging_end": 3, "data_start": 2, "data_end": 6, "channel": 3, "ucd_count": 1, "phy": 1,
}
# The burst of a request: 2 minislots of guard time and preamble, and 1 with its 7 bytes.
REQUEST_SLOTS = 3
# So long after the end of a burst the receiver hands in what was in it.
READING = 16
# One request of so many is lost to noise, and so is one grant: its modem does not read the MAP.
NOISE, MISSED = 200, 300
# A telephone rests that has left so many grants empty, one behind the other.
SILENT = 3
# So long it takes until a subscriber has another tier.
TIER_FOR = (SECOND, 3 * SECOND)
# So long it goes well, and so late is the head end then.
WELL_FOR, LATE_BY = (SECOND, 6 * SECOND), (3 * MILLISECOND, 9 * MILLISECOND)

VOICE = [
    {"kind": "unsolicited", "size": size, "interval_us": interval, "jitter_us": 2000, "grants": 1}
    for size, interval in [(232, 20000), (152, 10000)]
]
VIDEO = {"kind": "polled", "interval_us": 20000, "jitter_us": 4000, "rate": 2000000, "burst": 20000}
OFFICE = {"kind": "best_effort", "priority": 5, "rate": 2000000, "burst": 20000}
HOME = {"kind": "best_effort", "priority": 2, "rate": 1000000, "burst": 10000}
FASTER_HOME = {**HOME, "rate": 3000000, "burst": 20000}
DISK = {"kind": "best_effort", "priority": 0, "rate": 0, "burst": 0}
# Three tiers of homes: what each may have at most, for a moment at most, and at least.
TIERS = [
    {**HOME, "rate": rate, "burst": 10000, "peak": 3 * rate, "reserved": reserved, "reserved_burst": 512}
    for rate, reserved in [(1000000, 256000), (2000000, 512000), (5000000, 1000000)]
]

HABITS = [
    *3 * [(OFFICE, Habits((90, 900), (20000, 60000), 60, (5 * MILLISECOND, 30 * MILLISECOND), 16000))],
    *9 * [(HOME, Habits((90, 700), (8000, 40000), 60, (5 * MILLISECOND, 40 * MILLISECOND), 12000))],
    *3 * [(DISK, Habits((90, 900), (900000, 3000000), 2, (SECOND, 3 * SECOND), 24000))],
]


# So many telephones or cameras have SIDs of their own.
MOST = 100


class Crowd(NamedTuple):
    """How many modems there are. Of 15 computers 3 are of offices, 9 of homes, and 3 save their disks elsewhere."""

    telephones: int = 10
    cameras: int = 5
    computers: int = 15


def modems_of(seed, now, crowd, has_tiers=False):
    habits = [HABITS[at * len(HABITS) // crowd.computers] for at in range(crowd.computers)]
    if has_tiers:
        habits = [(TIERS[at % 3] if flow == HOME else flow, its) for at, (flow, its) in enumerate(habits)]
    return [
        *(Telephone(101 + at, VOICE[at % 2], seed, now) for at in range(crowd.telephones)),
        *(Camera(201 + at, VIDEO, seed, now) for at in range(crowd.cameras)),
        *(Computer(301 + at, flow, seed, now, its) for at, (flow, its) in enumerate(habits)),
    ]
