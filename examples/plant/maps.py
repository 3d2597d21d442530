"""Reads the payload of a MAP: 16 bytes, and four for each element. It takes what it is given for a lawful MAP, as a
modem does behind its checks of the frame; `mapsched decode` tells of faults."""

import struct
from typing import NamedTuple

REQUEST, NULL = 1, 7
ALL_MODEMS, NOBODY = 0x3FFF, 0


class Element(NamedTuple):
    """Minislots from an offset on that a SID has for a use. One of `NOBODY` is idle."""

    sid: int
    iuc: int
    offset: int
    slots: int


class Map(NamedTuple):
    """A MAP, with its times as whole numbers that do not wrap. `pending` are the SIDs that are to wait for a grant."""

    start: int
    ack: int
    data_start: int
    data_end: int
    elements: list
    pending: list


def unwrapped(low, near):
    """The number with these low 32 bits that is nearest to another."""
    return near + (low - near + 2**31) % 2**32 - 2**31


def read_map(payload, near):
    """The MAP of a payload, where the time that it is for is near this minislot."""
    _, _, count, _, start, ack, _, _, data_start, data_end = struct.unpack_from(">4B2I4B", payload)
    words = struct.unpack_from(f">{count}I", payload, 16)
    parts = [(word >> 18, word >> 14 & 15, word & 0x3FFF) for word in words]
    null = [iuc for _, iuc, _ in parts].index(NULL)
    ends = [offset for _, _, offset in parts[1 : null + 1]]
    elements = [Element(*part, end - part[2]) for part, end in zip(parts, ends)]
    pending = [sid for sid, _, _ in parts[null + 1 :]]
    return Map(unwrapped(start, near), unwrapped(ack, near), data_start, data_end, elements, pending)
