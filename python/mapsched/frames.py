"""Frames: the management message of a MAP is written, and the request frames of modems are read."""

from __future__ import annotations

from ctypes import byref, c_uint16, c_uint32
from dataclasses import dataclass
from typing import Union

from .faults import want
from .library import MAX_BYTES, bytes_of, run, text_of

# The sender from which `mapsched run --frames` and `mapsched pcap` send.
ADDRESS = bytes.fromhex("020000000001")


@dataclass(frozen=True)
class AsksMinislots:
    """A request frame: its minislots, which are the `slots` of an `Ask`."""

    minislots: int
    sid: int


@dataclass(frozen=True)
class TellsQueue:
    """A queue-depth request: the units of its flow's queue, which come to the `bytes` of a `Replace`."""

    units: int
    sid: int


def map_frame(payload: bytes, address: bytes = ADDRESS) -> bytes:
    """The MAC management message of a MAP's payload, with its two checksums, from an address of six bytes. The payload
    is not read; ValueError where it is longer than that of any MAP, or the address has another length."""
    if len(payload) > MAX_BYTES or len(address) != 6:
        raise ValueError(f"a payload of {len(payload)} bytes, and an address of {len(address)}")
    status, frame = text_of("map_frame", bytes_of(payload), len(payload), bytes_of(address))
    want(status)
    return frame


def read_request(frame: bytes) -> Union[AsksMinislots, TellsQueue]:
    """Reads a request frame or a queue-depth request, or raises BadRequest."""
    kind, number, sid = c_uint32(), c_uint16(), c_uint16()
    want(run("request", bytes_of(frame), len(frame), byref(kind), byref(number), byref(sid)))
    return (TellsQueue if kind.value else AsksMinislots)(number.value, sid.value)
