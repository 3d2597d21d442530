"""What a scheduler is told: the configuration of its channel, flows and calls. docs/REFERENCE.md has the lawful
values."""

from __future__ import annotations

from dataclasses import dataclass, fields
from typing import Any, Mapping, Optional, Union

from .library import BurstsNumbers, CallNumbers, ConfigNumbers, fill


@dataclass(frozen=True)
class Profile:
    """The burst descriptor of a usage."""

    # checks/tables: profile begin
    preamble: int
    guard: int
    bits: int
    parity: int
    information: int
    shortened: int
    # checks/tables: profile end


@dataclass(frozen=True)
class Bursts:
    """The burst descriptors of a channel. Profiles may be mappings, and `unsolicited` is as `long` where it is None."""

    # checks/tables: bursts begin
    symbols: int
    short: Profile
    long: Profile
    unsolicited: Optional[Profile] = None
    # checks/tables: bursts end

    def __post_init__(self) -> None:
        for name in self._told():
            _become(self, name, Profile)

    def _told(self) -> list[str]:
        return [name for name in _PROFILES if name != "unsolicited" or self.unsolicited is not None]

    def numbers(self) -> BurstsNumbers:
        """The struct for the library; ValueError where a value does not fit."""
        numbers = fill(BurstsNumbers(), symbols=self.symbols)
        for name in self._told():
            fill(getattr(numbers, _PROFILES[name]), **_values(getattr(self, name)))
        return numbers


@dataclass(frozen=True)
class Config:
    """The configuration of a channel, with the names that a script has: `Config(**script["config"])`. Either `bursts`
    is told, which may be a mapping, or `bytes_per_slot` and `overhead` are."""

    # checks/tables: fields begin
    ticks: int
    frame: int
    cycle: int
    req_slots: int
    poll_slots: int
    lead: int
    short_max: int
    quantum: int
    grant_cap: int
    receivers: int
    calls: int
    start: int
    ranging_start: int
    ranging_end: int
    data_start: int
    data_end: int
    channel: int
    ucd_count: int
    phy: int = 0
    bytes_per_slot: Optional[int] = None
    overhead: Optional[int] = None
    bursts: Optional[Bursts] = None
    flows: int = 64
    pending: int = 64
    periodic: int = 40
    open_idle: int = 0
    settle: int = 0
    # checks/tables: fields end

    def __post_init__(self) -> None:
        if self.bursts is not None:
            _become(self, "bursts", Bursts)

    def numbers(self) -> ConfigNumbers:
        """The struct for the library; ValueError where a value does not fit."""
        values = {"has_periodic": 1} | _values(self)
        values |= {name: _NOT_LAWFUL for name in ("flows", "pending") if values[name] == 0}
        bursts = values.pop("bursts")
        if bursts is None:
            return fill(ConfigNumbers(), **values)
        values = {name: value for name, value in values.items() if name not in _NOT_WITH_BURSTS}
        numbers = fill(ConfigNumbers(), has_bursts=1, **values)
        numbers.bursts = bursts.numbers()
        return numbers


def _become(value: object, name: str, kind: type) -> None:
    """Makes a member of a value that is being made one of this kind, from a mapping too, whose other keys are passed
    over; TypeError where it is none."""
    member = getattr(value, name)
    if isinstance(member, Mapping):
        told = {it.name: member[it.name] for it in fields(kind) if it.name in member}
        object.__setattr__(value, name, kind(**told))
    elif not isinstance(member, kind):
        raise TypeError(f"{name} is {member!r}")


# Stands for a member that is not told, and has to be.
_MUST: Any = object()


def _one_of(value: object, *names: str) -> None:
    """TypeError where not exactly one of these members is told, or another is not told that has to be."""
    values = _values(value)
    if [values[name] is None for name in names].count(False) != 1:
        raise TypeError(f"exactly one of {' and '.join(names)} has to be told")
    for name, told in values.items():
        if told is _MUST:
            raise TypeError(f"{name} has to be told")


# checks/tables: flows and calls begin
@dataclass(frozen=True)
class Unsolicited:
    """A flow with grants of `size` bytes in each interval, and no requests."""

    size: int
    interval_us: int
    jitter_us: int
    grants: int = 1


@dataclass(frozen=True)
class Polled:
    """A flow that is asked once in each interval. A rate of 0 is no ceiling, and neither is a peak of 0."""

    interval_us: int
    jitter_us: int
    rate: int
    burst: int
    peak: int = 0


@dataclass(frozen=True)
class BestEffort:
    """A flow that asks in the request region. Priority 7 is the highest; a reserved rate of 0 is no reservation."""

    priority: int
    rate: int
    burst: int
    peak: int = 0
    reserved: int = 0
    reserved_burst: int = 0


Flow = Union[Unsolicited, Polled, BestEffort]


@dataclass(frozen=True)
class Admit:
    """Admits a flow under an SID. The reply is `Admitted` or `Placed`."""

    sid: int
    flow: Flow


@dataclass(frozen=True)
class Remove:
    """Removes a flow. The reply is `Removed`."""

    sid: int


@dataclass(frozen=True)
class Ask:
    """A request that a receiver heard at a minislot: for `bytes`, or for what so many minislots carry, `slots`. The
    reply is `Taken`."""

    receiver: int
    sid: int
    bytes: Optional[int] = None
    heard: int = _MUST
    slots: Optional[int] = None

    def __post_init__(self) -> None:
        _one_of(self, "bytes", "slots")


@dataclass(frozen=True)
class Heard:
    """A receiver has handed in all that it heard before `upto`. The reply is `Noted`."""

    receiver: int
    upto: int


@dataclass(frozen=True)
class Build:
    """Builds the MAP of the next frame. The reply is `Built`."""

    now: int


@dataclass(frozen=True)
class Skip:
    """Leaves out the frames for which it is too late. The reply is `Skipped`."""

    now: int


@dataclass(frozen=True)
class Status:
    """Asks for the bytes of a flow. The reply is `FlowBytes`."""

    sid: int


@dataclass(frozen=True)
class Reserve:
    """Asks for an opportunity of so many minislots: `initial` or `quiet`, which have no SID and pass one over, or
    `initial_to`, `station`, `request` or `data` for the modems of an SID. The reply is `Reserved`."""

    usage: str
    slots: int
    sid: int = 0


@dataclass(frozen=True)
class Header:
    """Sets the UCD count and the exponents of the backoff windows for every MAP after it. The reply is `Noted`."""

    ucd_count: int
    ranging_start: int
    ranging_end: int
    data_start: int
    data_end: int


@dataclass(frozen=True)
class Replace:
    """A request, as in an ask, that supersedes those before: the flow waits for so much and no more, with 0 for
    nothing. The reply is `Taken`."""

    receiver: int
    sid: int
    bytes: Optional[int] = None
    heard: int = _MUST
    slots: Optional[int] = None

    def __post_init__(self) -> None:
        _one_of(self, "bytes", "slots")


@dataclass(frozen=True)
class Change:
    """Gives a live flow other parameters of the same kind. What it asked for and what it was granted stay. The reply is
    `Changed`."""

    sid: int
    flow: Flow


@dataclass(frozen=True)
class Rest:
    """Lets an unsolicited flow rest: it is polled in the place of its grants. The reply is `Noted`."""

    sid: int


@dataclass(frozen=True)
class Wake:
    """Gives an unsolicited flow that rests its grants again. The reply is `Noted`."""

    sid: int


Call = Union[Admit, Remove, Ask, Heard, Build, Skip, Status, Reserve, Header, Replace, Change, Rest, Wake]
# checks/tables: flows and calls end

# checks/tables: names begin
# By the numbers of the header, and by the names in a script.
_CALLS = {
    "admit": Admit, "remove": Remove, "ask": Ask, "heard": Heard, "build": Build, "skip": Skip, "status": Status,
    "reserve": Reserve, "header": Header, "replace": Replace, "change": Change, "rest": Rest, "wake": Wake,
}
_FLOWS = {"unsolicited": Unsolicited, "polled": Polled, "best_effort": BestEffort}
_USAGES = ["initial", "station", "initial_to", "request", "quiet", "data"]
# The members that the struct has as `minislot`.
_MINISLOTS = {"heard", "upto", "now"}
# The fields that are not read where there are burst descriptors, and what the struct has for profiles.
_NOT_WITH_BURSTS = {"bytes_per_slot", "overhead"}
_PROFILES = {"short": "short_data", "long": "long_data", "unsolicited": "unsolicited"}
# checks/tables: names end
# A value of `flows` and `pending` that is a fault, where 0 is none in the struct.
_NOT_LAWFUL = 2**32 - 1
_CALL_TYPES, _FLOW_TYPES = list(_CALLS.values()), list(_FLOWS.values())
# The usages that no SID stands beside.
_WITHOUT_SID = ("initial", "quiet")
# The calls that ask for bytes, or for what minislots carry.
_REQUESTS = (Ask, Replace)


def call_of(members: Mapping[str, Any]) -> Call:
    """The call of a script's object, as `json` reads it: `call_of({"call": "build", "now": 760})`."""
    rest = {name: value for name, value in members.items() if name != "call"}
    if "flow" in rest:
        flow = dict(rest["flow"])
        rest["flow"] = _FLOWS[flow.pop("kind")](**flow)
    return _CALLS[members["call"]](**rest)


def _values(value: object) -> dict[str, Any]:
    return {it.name: getattr(value, it.name) for it in fields(value)}  # type: ignore[arg-type]


def numbers_of(call: Call) -> CallNumbers:
    """The struct of a call; ValueError where a value does not fit, TypeError for what is no call."""
    if type(call) not in _CALL_TYPES:
        raise TypeError(f"{call!r} is no call")
    values = _values(call)
    if "flow" in values:
        flow = values["flow"]
        if type(flow) not in _FLOW_TYPES:
            raise TypeError(f"{flow!r} is no flow")
        values |= {"flow": _FLOW_TYPES.index(type(flow)), **_values(flow)}
    if isinstance(call, Reserve):
        if call.usage not in _USAGES:
            raise ValueError(f"{call.usage!r} is no usage")
        values |= {"usage": _USAGES.index(call.usage), "sid": 0 if call.usage in _WITHOUT_SID else call.sid}
    if isinstance(call, _REQUESTS):
        values["has_slots"] = int(call.slots is not None)
        del values["slots" if call.slots is None else "bytes"]
    values = {"minislot" if name in _MINISLOTS else name: value for name, value in values.items()}
    return fill(CallNumbers(), kind=_CALL_TYPES.index(type(call)), **values)


def from_numbers(numbers: CallNumbers) -> Call:
    """The call of a struct that the library wrote."""
    kind = _CALL_TYPES[numbers.kind]
    values = {it.name: getattr(numbers, "minislot" if it.name in _MINISLOTS else it.name) for it in fields(kind)}
    if "flow" in values:
        flow = _FLOW_TYPES[numbers.flow]
        values["flow"] = flow(*(getattr(numbers, it.name) for it in fields(flow)))
    if "usage" in values:
        values["usage"] = _USAGES[numbers.usage]
    if kind in _REQUESTS:
        del values["bytes" if numbers.has_slots else "slots"]
    return kind(**values)
