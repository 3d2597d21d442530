"""The MAP as a value, and its payload as bytes."""

from __future__ import annotations

from ctypes import byref, c_size_t, c_uint8
from dataclasses import dataclass

from .faults import BadMap, want
from .library import MAX_BYTES, MAX_ELEMENTS, ElementNumbers, MapNumbers, bytes_of, fill, run

_USAGES = (
    "reserved request request_data initial station short long null data_ack aphy_short aphy_long aphy_ug "
    "reserved reserved reserved reserved"
).split()
_HEAD = "channel ucd_count reserved ranging_start ranging_end data_start data_end ack".split()


@dataclass(frozen=True)
class Element:
    """An information element: who (the SID), what for (the usage code), and from which minislot of the frame on."""

    sid: int
    iuc: int
    offset: int

    @property
    def usage(self) -> str:
        """The name of the usage code, as `mapsched decode` prints it."""
        return _USAGES[self.iuc]


@dataclass(frozen=True)
class Map:
    """The fields of a MAP. `start` and `ack` are the low 32 bits of minislots."""

    channel: int
    ucd_count: int
    start: int
    ack: int
    ranging_start: int
    ranging_end: int
    data_start: int
    data_end: int
    elements: tuple[Element, ...]
    reserved: int = 0

    def table(self) -> str:
        """The table that `mapsched decode` prints."""
        head = f"channel {self.channel} ucd {self.ucd_count} elements {len(self.elements)} reserved {self.reserved}\n"
        windows = f"ranging {self.ranging_start} {self.ranging_end} data {self.data_start} {self.data_end}"
        rows = (f"{it.sid:5} {it.iuc:2} {it.offset:5} {it.usage}\n" for it in self.elements)
        return f"{head}start {self.start} ack {self.ack} {windows}\n{''.join(rows)}"


def decode(payload: bytes) -> Map:
    """Reads the payload of a MAP, or raises BadPayload."""
    numbers, element = MapNumbers(), c_size_t()
    want(run("decode", bytes_of(payload), len(payload), numbers, byref(element)), element.value)
    elements = tuple(Element(it.sid, it.iuc, it.offset) for it in numbers.elements[: numbers.count])
    fields = {name: getattr(numbers, name) for name in _HEAD}
    return Map(start=numbers.alloc_start, elements=elements, **fields)


def encode(of: Map) -> bytes:
    """Writes the payload of a MAP, or raises BadMap; ValueError where a number does not fit its field."""
    count = len(of.elements)
    if count > MAX_ELEMENTS:
        raise BadMap(301, 1, None)
    numbers = fill(MapNumbers(), alloc_start=of.start, count=count, **{name: getattr(of, name) for name in _HEAD})
    for place, it in enumerate(of.elements):
        numbers.elements[place] = fill(ElementNumbers(), sid=it.sid, iuc=it.iuc, offset=it.offset)
    room, length, element = (c_uint8 * MAX_BYTES)(), c_size_t(), c_size_t()
    want(run("encode", numbers, room, MAX_BYTES, byref(length), byref(element)), element.value)
    return bytes(room[: length.value])
