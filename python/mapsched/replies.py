"""What a scheduler answers. A refusal is a reply as others are; each reply has the line that `mapsched run` prints."""

from __future__ import annotations

from dataclasses import dataclass
from enum import IntEnum
from typing import Optional, Union

from .library import ReplyNumbers, text_of


class Refusal(IntEnum):
    """Why a call is refused, by its number in docs/REFERENCE.md."""

    # checks/tables: refusals begin
    NO_SUCH_SID = 1
    LIVE_ALREADY = 2
    BAD_PARAMETERS = 3
    TOO_MANY_FLOWS = 4
    TOO_MANY_GRANTS = 5
    NO_PLACE = 6
    NO_SUCH_FLOW = 7
    DOES_NOT_ASK = 8
    NO_SUCH_RECEIVER = 9
    BAD_BYTES = 10
    HEARD_TOO_OLD = 11
    TOO_FAR = 12
    PROGRESS_FALLS = 13
    BAD_CLOCK = 14
    TOO_EARLY = 15
    TOO_LATE = 16
    NOTHING_TO_SKIP = 17
    BAD_LENGTH = 18
    TOO_MANY_RESERVES = 19
    BAD_BACKOFF = 20
    OTHER_KIND = 21
    NOT_UNSOLICITED = 22
    TOO_SHORT = 23
    # checks/tables: refusals end


# checks/tables: values begin
_WITH_VALUE = {3, 11, 12, 13, 15, 16, 17}
# checks/tables: values end


@dataclass(frozen=True)
class Admitted:
    """A best effort flow is admitted."""

    line = "admitted"


@dataclass(frozen=True)
class Placed:
    """A periodic flow is admitted: its first nominal minislot, and its starts in each nominal frame of the cycle."""

    reference: int
    starts: tuple[int, ...]

    @property
    def line(self) -> str:
        return " ".join(["admitted", str(self.reference), *map(str, self.starts)])


@dataclass(frozen=True)
class Changed:
    """A flow has other parameters: a periodic one its first nominal minislot and its starts, as in `Placed`."""

    reference: Optional[int] = None
    starts: tuple[int, ...] = ()

    @property
    def line(self) -> str:
        return "changed" if self.reference is None else " ".join(map(str, ["changed", self.reference, *self.starts]))


@dataclass(frozen=True)
class Removed:
    """A flow is removed."""

    line = "removed"


@dataclass(frozen=True)
class Taken:
    """A request is taken."""

    line = "taken"


@dataclass(frozen=True)
class Noted:
    """A receiver's progress, a header, or that a flow rests or wakes, is noted."""

    line = "noted"


@dataclass(frozen=True)
class Built:
    """The MAP of the frame at `start`, as the bytes behind the MAC management header."""

    start: int
    payload: bytes

    @property
    def line(self) -> str:
        return f"map {self.payload.hex()}"


@dataclass(frozen=True)
class Skipped:
    """Frames are left out; the next one starts at `next`."""

    next: int

    @property
    def line(self) -> str:
        return f"skipped {self.next}"


@dataclass(frozen=True)
class FlowBytes:
    """The bytes that a flow asked for, was granted, and still waits for."""

    asked: int
    granted: int
    outstanding: int

    @property
    def line(self) -> str:
        return f"flow {self.asked} {self.granted} {self.outstanding}"


@dataclass(frozen=True)
class Refused:
    """A refused call, which changed nothing. docs/REFERENCE.md tells which refusals have a value, and
    what it is."""

    refusal: Refusal
    value: Optional[int] = None

    @property
    def line(self) -> str:
        return f"refused {self.refusal:d}" + ("" if self.value is None else f" {self.value}")

    @property
    def words(self) -> str:
        """What it means, as `mapsched run --explain` prints it."""
        return text_of("refusal_words", self.refusal, self.value or 0)[1].decode()


@dataclass(frozen=True)
class Reserved:
    """An opportunity waits for a MAP."""

    line = "reserved"


Reply = Union[Admitted, Placed, Changed, Removed, Taken, Noted, Built, Skipped, FlowBytes, Refused, Reserved]


def _starts(numbers: ReplyNumbers) -> tuple[int, ...]:
    return tuple(numbers.starts[: numbers.starts_count])


def _refused(numbers: ReplyNumbers) -> Refused:
    return Refused(Refusal(numbers.refusal), numbers.value if numbers.refusal in _WITH_VALUE else None)


# By the numbers of the header.
_KINDS = [
    lambda numbers: Admitted(),
    lambda numbers: Placed(numbers.value, _starts(numbers)),
    lambda numbers: Removed(),
    lambda numbers: Taken(),
    lambda numbers: Noted(),
    lambda numbers: Built(numbers.value, bytes(numbers.payload[: numbers.length])),
    lambda numbers: Skipped(numbers.value),
    lambda numbers: FlowBytes(numbers.asked, numbers.granted, numbers.outstanding),
    _refused,
    lambda numbers: Reserved(),
    lambda numbers: Changed(numbers.value, _starts(numbers)) if numbers.starts_count else Changed(),
]


def from_numbers(numbers: ReplyNumbers) -> Reply:
    """The reply of a struct that the library wrote."""
    return _KINDS[numbers.kind](numbers)
