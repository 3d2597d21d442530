"""The state that a plain scheduler (plain.py) is in, read from all that it keeps, as the first line of a segment has
it."""

import zlib

from drawing import as_written
from texts import compact, completed

# The parts of a byte in which levels are counted.
PARTS = 1280000


def level_of(ticks, rate, burst, grants, slot):
    """What a rate and a burst leave at a minislot behind these grants, by each window that ends there."""
    if rate == 0:
        return None
    least, total = PARTS * burst, 0
    for start, count in reversed(grants):
        total += count
        least = min(least, PARTS * (burst - total) + (slot - start) * ticks * rate)
    return least


def levels_of(ticks, flow):
    """The levels of its rate, of its peak and of its reservation, where its last data grant starts."""
    if flow.kind == "unsolicited":
        return None, None, None
    slot = flow.last()
    ceilings = [*flow.ceilings(), flow.reservation()]
    return [level_of(ticks, *it, slot) for it in ceilings]


def batches_of(flow):
    """Where its first batch ends, and when its two batches were heard first."""
    if flow.outstanding() == 0:
        return None
    second = min((heard for heard, _ in flow.second), default=None)
    return {"end": flow.first[-1][1], "first": min(heard for heard, _ in flow.first), "second": second}


def place_of(flow):
    if flow.kind == "best_effort":
        return None
    starts = [start for place in sorted(flow.starts) for start in flow.starts[place]]
    return {"offset": flow.offset, "phase": flow.phase, "rests": int(flow.rests), "starts": starts}


def flow_of(ticks, sid, flow):
    sustained, peak, reserved = levels_of(ticks, flow)
    spec = next(as_written([{"call": {"flow": flow.spec}}]))["call"]["flow"]
    return {
        "asked": flow.asked, "batches": batches_of(flow), "flow": spec, "granted": flow.granted(),
        "last": flow.grants[-1][0] if flow.grants else None, "peak": peak, "place": place_of(flow),
        "reserved": reserved, "sid": sid, "sustained": sustained,
    }


def reserves_of(plain):
    """The Reserves that wait, with how many MAPs came since each."""
    accepted = [it["call"] for it in plain.entries if it["reply"]["kind"] == "reserved"]
    due = plain.due()
    return [
        {"maps": plain.maps - wanted.maps, "sid": call.get("sid"), "slots": call["slots"], "usage": call["usage"]}
        for call, wanted in zip(accepted, plain.reserves, strict=True) if any(wanted is it for it in due)
    ]


def state_of(plain):
    """The state, as an object."""
    maps = [it["reply"] for it in plain.entries if it["reply"]["kind"] == "map"]
    return {
        "ack": maps[-1]["ack"] if maps else plain.config["start"],
        "change": plain.changes[-1] if plain.changes else None,
        "entries": len(plain.entries),
        "flows": [flow_of(plain.config["ticks"], sid, plain.flows[sid]) for sid in sorted(plain.flows)],
        "header": plain.heading, "next": plain.next, "progress": plain.progress, "reserves": reserves_of(plain),
        "ucd_count": plain.count_before,
    }


def segment_of(config, number, state):
    """The first line of a segment, as an object."""
    crc = zlib.crc32(compact(state).encode())
    return {"segment": {"config": completed(config), "crc": crc, "number": number, "state": state}}


def line_after(plain):
    """The first line of the segment that could follow what a plain scheduler recorded."""
    return compact(segment_of(plain.config, 2, state_of(plain))) + "\n"
