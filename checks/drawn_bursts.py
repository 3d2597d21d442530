"""Burst profiles that are drawn: of one modulation, or short grants in a slower one than long ones; short grants that
take more minislots than long ones; last codewords that are shortened or not; no parity; no preamble and guard time;
minislots of few symbols and of many."""

from plain_bursts import Bursts
from texts import PROFILES, completed


def profile(draw, **numbers):
    """A lawful profile with these numbers."""
    parity = numbers.get("parity", draw.choice([0, 1, 4, 6, 9, 16]))
    most = min(253, 255 - 2 * parity)
    drawn = {
        "preamble": draw.choice([0, 8, 32, 32, 64, 500, 1536]), "guard": draw.choice([0, 5, 22, 22, 255]),
        "bits": draw.randint(1, 8), "parity": parity, "information": draw.choice([16, draw.randint(16, most), most]),
        "shortened": draw.randint(0, 1),
    }
    return {**drawn, **numbers}


def usual(draw, **numbers):
    """The profiles of short and of long grants on a usual channel, both with these numbers beside."""
    numbers = {"preamble": 32, "guard": 22, "bits": 6, "shortened": 1, **numbers}
    short, long = {"parity": 6, "information": 76}, {"parity": 9, "information": 232}
    return profile(draw, **short, **numbers), profile(draw, **long, **numbers)


def slower_short(draw):
    """Short grants in QPSK, long ones in 64-QAM."""
    short, long = usual(draw)
    return {**short, "bits": 2, "preamble": draw.choice([32, 64])}, long


def longer_short(draw):
    """Short grants that take more minislots than long ones of as many bytes, at least of some numbers."""
    short = profile(draw, bits=draw.choice([1, 2]), parity=draw.choice([4, 16]), information=draw.choice([16, 40]))
    long = profile(draw, bits=draw.choice([6, 8]), preamble=draw.choice([0, 32]), guard=22)
    return short, long


def any_two(draw, **numbers):
    return profile(draw, **numbers), profile(draw, **numbers)


def alike(draw):
    """Both have one profile."""
    return (profile(draw),) * 2


KINDS = [
    usual,
    lambda draw: usual(draw, shortened=0),
    slower_short,
    slower_short,
    longer_short,
    longer_short,
    alike,
    any_two,
    lambda draw: any_two(draw, parity=0),
    lambda draw: any_two(draw, preamble=0, guard=0),
    lambda draw: any_two(draw, shortened=1, information=draw.choice([16, 17, 40, 76]), parity=draw.choice([1, 6])),
]


def drawn_bursts(draw):
    """Profiles of a kind. That of unsolicited grants may be missing, and then the history has none either."""
    short, long = draw.choice(KINDS)(draw)
    symbols = draw.choice([16, 64, 64, 64, 128, 512, 4096, draw.randint(1, 4096)])
    bursts = dict(zip(PROFILES, [short, long, draw.choice([long, profile(draw), short])]), symbols=symbols)
    return completed({"bursts": bursts})["bursts"]


def has_room(config):
    """Whether a burst of one byte fits behind the request region, and one of the quantum."""
    bursts, room = Bursts(config), config["frame"] - config["req_slots"]
    return bursts.slots("long", 1) <= room and bursts.length(config["quantum"]) <= room


def short_most(draw, bursts, frame):
    """A greatest length of short grants: mostly that of some number of bytes, or one beside it."""
    some = bursts.slots("short", draw.choice([64, 64, 100, 200, 544])) + draw.choice([-1, 0, 0, 0, 1, 2])
    return draw.choice([min(frame, some)] * 8 + [0, frame])


def with_bursts(draw, config):
    """A lawful configuration whose bursts are drawn, in the place of the bytes of a minislot and the overhead."""
    while True:
        drawn = completed({**config, "bursts": drawn_bursts(draw), "quantum": 64})
        drawn["short_max"] = short_most(draw, Bursts(drawn), config["frame"])
        if has_room(drawn):
            break
    quanta = [it for it in [64, *range(100, 1500, 50), 1522] if has_room({**drawn, "quantum": it})]
    quantum = draw.choice([64, 64, draw.choice(quanta)])
    return {**drawn, "quantum": quantum, "grant_cap": draw.choice([quantum, draw.randint(quantum, 5 * quantum), 9000])}
