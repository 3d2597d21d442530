"""The shared library: where it is found, the structs of its header, and the types of its functions."""

from __future__ import annotations

import ctypes
import os
from ctypes import POINTER, Structure, Union, byref, c_size_t, c_uint8, c_uint16, c_uint32, c_uint64, c_void_p

MAX_STARTS, MAX_BYTES, MAX_ELEMENTS = 512, 976, 240
_NO_ROOM = 7
# The library's name has the version up to which its interface stays the same (docs/VERSIONS.md).
SONAME = "libmapsched.so.0.2"


# checks/tables: configuration begin
class ProfileNumbers(Structure):
    """struct mapsched_profile"""

    _fields_ = [
        *((name, c_uint32) for name in ("preamble", "guard", "bits", "parity", "information", "shortened")),
    ]


class BurstsNumbers(Structure):
    """struct mapsched_bursts"""

    _fields_ = [
        ("symbols", c_uint32),
        *((name, ProfileNumbers) for name in ("short_data", "long_data", "unsolicited")),
    ]


class ConfigNumbers(Structure):
    """struct mapsched_config"""

    _fields_ = [
        *((name, c_uint32) for name in ("ticks", "bytes_per_slot", "overhead", "frame", "cycle", "req_slots")),
        *((name, c_uint32) for name in ("poll_slots", "lead", "short_max", "quantum", "grant_cap", "calls")),
        ("start", c_uint64),
        *((name, c_uint8) for name in ("receivers", "ranging_start", "ranging_end", "data_start", "data_end")),
        *((name, c_uint8) for name in ("channel", "ucd_count", "phy", "open_idle")),
        ("has_bursts", c_uint32),
        ("bursts", BurstsNumbers),
        *((name, c_uint32) for name in ("flows", "pending", "has_periodic", "periodic", "settle")),
    ]
# checks/tables: configuration end


# checks/tables: call begin
class _FlowOrUsage(Union):
    _fields_ = [("flow", c_uint32), ("usage", c_uint32)]


class _SizeOrSlots(Union):
    _fields_ = [("size", c_uint32), ("slots", c_uint32)]


class _ReceiverOrUcdCount(Union):
    _fields_ = [("receiver", c_uint8), ("ucd_count", c_uint8)]


class _PriorityOrRangingStart(Union):
    _fields_ = [("priority", c_uint8), ("ranging_start", c_uint8)]


class _GrantsOrRangingEnd(Union):
    _fields_ = [("grants", c_uint8), ("ranging_end", c_uint8)]


class CallNumbers(Structure):
    """struct mapsched_call, in which the numbers of an opportunity and of a header share the places of others"""

    _anonymous_ = ["_flow", "_size", "_receiver", "_priority", "_grants"]
    _fields_ = [
        ("kind", c_uint32),
        ("_flow", _FlowOrUsage),
        ("_size", _SizeOrSlots),
        *((name, c_uint32) for name in ("interval_us", "jitter_us", "rate", "burst")),
        ("bytes", c_uint32),
        ("minislot", c_uint64),
        ("sid", c_uint16),
        ("_receiver", _ReceiverOrUcdCount),
        ("_priority", _PriorityOrRangingStart),
        ("_grants", _GrantsOrRangingEnd),
        *((name, c_uint8) for name in ("data_start", "data_end")),
        ("has_slots", c_uint8),
        ("peak", c_uint32),
        *((name, c_uint32) for name in ("reserved", "reserved_burst")),
    ]
# checks/tables: call end


class StampNumbers(Structure):
    """struct mapsched_stamp"""

    _fields_ = [("ticket", c_uint64), ("seat", c_uint32)]


class ReplyNumbers(Structure):
    """struct mapsched_reply"""

    _fields_ = [
        *((name, c_uint32) for name in ("kind", "refusal", "starts_count", "length")),
        *((name, c_uint64) for name in ("value", "asked", "granted", "outstanding")),
        ("starts", c_uint16 * MAX_STARTS),
        ("payload", c_uint8 * MAX_BYTES),
    ]


class EntryNumbers(Structure):
    """struct mapsched_entry"""

    _fields_ = [("stamp", StampNumbers), ("call", CallNumbers), ("reply", ReplyNumbers)]


class ElementNumbers(Structure):
    """struct mapsched_element"""

    _fields_ = [("sid", c_uint16), ("offset", c_uint16), ("iuc", c_uint8)]


class MapNumbers(Structure):
    """struct mapsched_map"""

    _fields_ = [
        *((name, c_uint32) for name in ("alloc_start", "ack", "count")),
        *((name, c_uint8) for name in ("channel", "ucd_count", "reserved", "ranging_start", "ranging_end")),
        *((name, c_uint8) for name in ("data_start", "data_end")),
        ("elements", ElementNumbers * MAX_ELEMENTS),
    ]


class Handle(Structure):
    """struct mapsched_scheduler"""

    _fields_ = [("full", c_uint32), ("at", c_void_p)]


_BYTES, _SIZE = POINTER(c_uint8), POINTER(c_size_t)
_FUNCTIONS = {
    "check": [POINTER(ConfigNumbers)],
    "open": [POINTER(Handle), POINTER(ConfigNumbers)],
    "call": [POINTER(Handle), POINTER(StampNumbers), POINTER(CallNumbers), POINTER(ReplyNumbers)],
    "resume": [POINTER(Handle), _BYTES, c_size_t, _SIZE],
    "count": [POINTER(Handle), _SIZE],
    "kept_from": [POINTER(Handle), _SIZE],
    "forget": [POINTER(Handle)],
    "entry": [POINTER(Handle), c_size_t, POINTER(EntryNumbers)],
    "history": [POINTER(Handle), _BYTES, c_size_t, _SIZE],
    "lines": [POINTER(Handle), _BYTES, c_size_t, _SIZE],
    "opening": [POINTER(Handle), _BYTES, c_size_t, _SIZE],
    "audit": [_BYTES, c_size_t, _SIZE],
    "decode": [_BYTES, c_size_t, POINTER(MapNumbers), _SIZE],
    "encode": [POINTER(MapNumbers), _BYTES, c_size_t, _SIZE, _SIZE],
    "map_frame": [_BYTES, c_size_t, _BYTES, _BYTES, c_size_t, _SIZE],
    "request": [_BYTES, c_size_t, POINTER(c_uint32), POINTER(c_uint16), POINTER(c_uint16)],
    "version": [_BYTES, c_size_t, _SIZE],
    "status_words": [c_uint32, _BYTES, c_size_t, _SIZE],
    "refusal_words": [c_uint32, c_uint64, _BYTES, c_size_t, _SIZE],
    "close": [POINTER(Handle)],
}


def _load() -> ctypes.CDLL:
    """The library that the variable MAPSCHED_LIBRARY names, or else the one that is installed."""
    path = os.environ.get("MAPSCHED_LIBRARY") or SONAME
    try:
        found = ctypes.CDLL(path)
    except OSError as error:
        told = f"{error}: install the package libmapsched-dev, or let MAPSCHED_LIBRARY name the library"
        raise ImportError(told) from error
    for name, types in _FUNCTIONS.items():
        function = getattr(found, f"mapsched_{name}")
        function.argtypes, function.restype = types, c_uint32
    return found


_library = _load()


def run(name: str, *arguments: object) -> int:
    """Calls a function of the library by its name without `mapsched_`, and gives its status."""
    return getattr(_library, f"mapsched_{name}")(*arguments)


def text_of(name: str, *arguments: object) -> tuple[int, bytes]:
    """The status of a function that writes a text behind its other arguments, and that text, whatever its length."""
    length, room = c_size_t(), (c_uint8 * 1)()
    status = run(name, *arguments, room, 0, byref(length))
    if status == _NO_ROOM:
        room = (c_uint8 * length.value)()
        status = run(name, *arguments, room, length.value, byref(length))
    return status, bytes(room)[: length.value]


def members_of(struct: type) -> dict[str, type]:
    """The members of a struct with their types, those in its unions too."""
    members: dict[str, type] = {}
    for name, kind in struct._fields_:  # type: ignore[attr-defined]
        members |= members_of(kind) if issubclass(kind, Union) else {name: kind}
    return members


def fill(numbers: Structure, **values: int) -> Structure:
    """Writes values into a struct. One that does not fit raises ValueError, where C would cut it off."""
    types = members_of(type(numbers))
    for name, value in values.items():
        most = (1 << 8 * ctypes.sizeof(types[name])) - 1
        if not isinstance(value, int) or not 0 <= value <= most:
            raise ValueError(f"{name} is {value!r}, and not a whole number from 0 to {most}")
        setattr(numbers, name, value)
    return numbers


def bytes_of(text: bytes) -> ctypes.Array:
    """Bytes as the library reads them, and one byte where there is none."""
    return (c_uint8 * max(1, len(text))).from_buffer_copy(text or b"\0")
