"""Why a call was not recorded, or a text not read: exceptions, one for each group of statuses of the header."""

from __future__ import annotations

from typing import Optional

from .library import text_of

# checks/tables: texts begin
_FIELDS = [
    "ticks", "bytes_per_slot", "overhead", "frame", "cycle", "req_slots", "poll_slots", "lead", "short_max", "quantum",
    "grant_cap", "receivers", "calls", "start", "ranging_start", "ranging_end", "data_start", "data_end", "phy",
    "bursts", "flows", "pending", "periodic", "open_idle", "settle",
]
_PAYLOAD = ["too short", "too many elements", "wrong length", "an expansion", "a descent", "no null", "a second null"]
_MAP = ["too many elements", "out of range", "a descent", "no null", "a second null"]
# checks/tables: texts end


class Fault(Exception):
    """Nothing has changed, and this is why. `status` is the number of the header."""

    def __init__(self, status: int, words: str) -> None:
        super().__init__(words)
        self.status = status


class Closed(Fault):
    """The scheduler is closed."""


class HistoryFull(Fault):
    """As many entries are kept as the configuration allows, or 2**44 calls were recorded."""


class HandedOver(Fault, LookupError):
    """An entry, or one of the history whose text is wanted, is no longer kept."""


class OutOfMemory(Fault, MemoryError):
    """There is no memory for what was to be done."""


class BadConfig(Fault, ValueError):
    """`number` is that of the first wrong field in docs/REFERENCE.md, `field` its name."""

    def __init__(self, status: int, number: int) -> None:
        self.number, self.field = number, _FIELDS[number - 1]
        super().__init__(status, f"bad config {number}: {self.field}")


class NoHistory(Fault, ValueError):
    """A text is no history. `place` is the entry, from 1, or 0 for the document, or None for what is no JSON."""

    def __init__(self, status: int, words: str, place: Optional[int]) -> None:
        self.place = place
        super().__init__(status, words)


class BadJournal(Fault, ValueError):
    """A journal is wrong. `line` is the first, from 0, that is no entry or may not follow those before it; 0 where the
    first is no lawful configuration, or there is none."""

    def __init__(self, status: int, line: int) -> None:
        self.line = line
        super().__init__(status, f"bad journal at {line}")


class BadPayload(Fault, ValueError):
    """`number` is the fault of a payload in docs/REFERENCE.md, `element` where it is, from 0, where one is told."""

    def __init__(self, status: int, number: int, element: Optional[int]) -> None:
        self.number, self.element = number, element
        super().__init__(status, f"fault {number}: {_PAYLOAD[number - 1]}" + _at(element))


class BadMap(Fault, ValueError):
    """`number` is the fault of numbers that are no MAP in the header's list, `element` where it is, from 0."""

    def __init__(self, status: int, number: int, element: Optional[int]) -> None:
        self.number, self.element = number, element
        super().__init__(status, f"fault {number}: {_MAP[number - 1]}" + _at(element))


class BadRequest(Fault, ValueError):
    """Bytes are no request frame. `number` is their first fault in the header's list."""

    def __init__(self, status: int) -> None:
        self.number = status - BAD_REQUEST
        super().__init__(status, f"fault {self.number}: {text_of('status_words', status)[1].decode()}")


def _at(element: Optional[int]) -> str:
    return "" if element is None else f" at element {element}"


OK, ILLEGAL, NO_HISTORY, BAD_REQUEST = 0, 8, 11, 400
_BAD_CONFIG, _BAD_PAYLOAD, _BAD_MAP = 100, 200, 300
_WORDS = {9: "text too long", 10: "not json"}


def fault_of(status: int, place: int = 0) -> Fault:
    """The exception of a status other than OK, with the place that the library told."""
    if status == 1:
        return Closed(status, "the scheduler is closed")
    if status == 4:
        return HistoryFull(status, "history full")
    if status == 5:
        return OutOfMemory(status, "out of memory")
    if status == 18:
        return HandedOver(status, "not kept")
    if status in _WORDS:
        return NoHistory(status, _WORDS[status], None)
    if status == NO_HISTORY:
        return NoHistory(status, f"bad script at {place}", place)
    return _numbered(status, place)


def _numbered(status: int, place: int) -> Fault:
    if _BAD_CONFIG < status < _BAD_PAYLOAD:
        return BadConfig(status, status - _BAD_CONFIG)
    if _BAD_PAYLOAD < status < _BAD_MAP:
        number = status - _BAD_PAYLOAD
        return BadPayload(status, number, place if number in (4, 5, 7) else None)
    if status > BAD_REQUEST:
        return BadRequest(status)
    if status > _BAD_MAP:
        number = status - _BAD_MAP
        return BadMap(status, number, place if number in (2, 3, 5) else None)
    return Fault(status, f"status {status}")


def want(status: int, place: int = 0) -> None:
    """Raises the exception of a status, if there is one."""
    if status != OK:
        raise fault_of(status, place)
