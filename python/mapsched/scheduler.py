"""The scheduler, its history, and the audit of a history."""

from __future__ import annotations

import os
from ctypes import byref, c_size_t
from dataclasses import dataclass
from threading import Lock
from typing import Iterator, Optional, Union

from . import calls, replies
from .calls import Call, Config
from .faults import ILLEGAL, NO_HISTORY, BadJournal, want
from .library import EntryNumbers, Handle, ReplyNumbers, StampNumbers, bytes_of, fill, run, text_of
from .replies import Reply


@dataclass(frozen=True)
class Entry:
    """A recorded call, with the seat and the ticket that were handed in, and its reply."""

    seat: int
    ticket: int
    call: Call
    reply: Reply


@dataclass(frozen=True)
class Legal:
    """Each reply of a history may follow the entries before it: how many entries it has."""

    entries: int


@dataclass(frozen=True)
class Illegal:
    """The first entry, from 0, whose reply may not follow those before it."""

    entry: int


def check(config: Config) -> None:
    """Raises BadConfig where a configuration is not lawful."""
    want(run("check", config.numbers()))


def library_version() -> str:
    """The version of the library, which may be another than that of the module within the same interface."""
    status, version = text_of("version")
    want(status)
    return version.decode()


def audit(history: Union[str, bytes]) -> Union[Legal, Illegal]:
    """The verdict on the text of a history, whoever wrote it. What is none raises NoHistory or BadConfig."""
    text = history.encode() if isinstance(history, str) else history
    place = c_size_t()
    status = run("audit", bytes_of(text), len(text), byref(place))
    if status == ILLEGAL:
        return Illegal(place.value)
    want(status, place.value)
    return Legal(place.value)


class Scheduler:
    """The scheduler of one channel, from its configuration on; BadConfig where that is not lawful.

    Threads may share it: their calls are made one after the other. `close`, or the end of a `with`, frees it.
    """

    # How many bytes the whole lines of the journal have after which it goes on; None where it began without one.
    journal_bytes: Optional[int] = None

    def __init__(self, config: Config) -> None:
        self._handle, self._lock = Handle(), Lock()
        want(run("open", self._handle, config.numbers()))

    @classmethod
    def resume(cls, path: Union[str, "os.PathLike[str]"]) -> "Scheduler":
        """The scheduler that goes on after the journal in a file, whose entries are judged one by one: they are its
        whole history, and none is kept. Bytes behind the last newline are left out; the file stays as it is, and
        `journal_bytes` tells where its whole lines end. Raises BadJournal, and what `open` raises."""
        with open(path, "rb") as file:
            journal = file.read()
        found, place = cls.__new__(cls), c_size_t()
        found._handle, found._lock = Handle(), Lock()
        status = run("resume", found._handle, bytes_of(journal), len(journal), byref(place))
        if status in (ILLEGAL, NO_HISTORY):
            raise BadJournal(status, place.value + (status == ILLEGAL))
        want(status)
        found.journal_bytes = place.value
        return found

    def __enter__(self) -> "Scheduler":
        return self

    def __exit__(self, *_: object) -> None:
        self.close()

    def __del__(self) -> None:
        if "_lock" in self.__dict__:
            self.close()

    def close(self) -> None:
        """Frees the scheduler. Every later call raises Closed, but for another close."""
        with self._lock:
            if self._handle.full:
                run("close", self._handle)

    def call(self, call: Call, *, seat: int = 0, ticket: Optional[int] = None) -> Reply:
        """Makes a call, which is recorded, and gives its reply; a refusal is a reply. The ticket is the number of calls
        before it, where none is given. Raises HistoryFull or OutOfMemory, and then nothing has changed."""
        numbers, reply = calls.numbers_of(call), ReplyNumbers()
        with self._lock:
            of = self._count() if ticket is None else ticket
            want(run("call", self._handle, fill(StampNumbers(), ticket=of, seat=seat), numbers, reply))
        return replies.from_numbers(reply)

    def _count(self) -> int:
        count = c_size_t()
        want(run("count", self._handle, byref(count)))
        return count.value

    def __len__(self) -> int:
        """How many calls were recorded, those included that are no longer kept."""
        with self._lock:
            return self._count()

    @property
    def kept_from(self) -> int:
        """The number of the first recorded call that is kept, from 0: so many were let go."""
        place = c_size_t()
        with self._lock:
            want(run("kept_from", self._handle, byref(place)))
        return place.value

    def forget(self) -> None:
        """Lets go of all recorded calls that are kept, so that there is room for others. Their numbers are not given
        again."""
        with self._lock:
            want(run("forget", self._handle))

    def __bool__(self) -> bool:
        return True

    def __getitem__(self, place: int) -> Entry:
        """The recorded call of this number, from 0; a negative one counts from the end. Raises HandedOver where it is
        no longer kept."""
        numbers = EntryNumbers()
        with self._lock:
            count = self._count()
            if not -count <= place < count:
                raise IndexError(f"the history has {count} entries, and not one of the number {place}")
            want(run("entry", self._handle, place % count, numbers))
        call, reply = calls.from_numbers(numbers.call), replies.from_numbers(numbers.reply)
        return Entry(numbers.stamp.seat, numbers.stamp.ticket, call, reply)

    def history(self) -> Iterator[Entry]:
        """The recorded calls that are kept, in order, those included that are made while it is read. Raises HandedOver
        where the next one is let go while it is read."""
        place = self.kept_from
        while place < len(self):
            yield self[place]
            place += 1

    __iter__ = history

    def _text(self, name: str) -> str:
        """The text that a function of the library writes."""
        with self._lock:
            status, text = text_of(name, self._handle)
        want(status)
        return text.decode()

    def history_text(self) -> str:
        """The text of the history, as `mapsched run --history` prints it. Raises HandedOver where a part of it is no
        longer kept."""
        return self._text("history")

    def lines(self) -> str:
        """The recorded calls that are kept, with their replies, as lines of a journal: each ends with a newline, and
        where none is kept there is no line. The first is that of the number `kept_from`."""
        return self._text("lines")

    def opening(self) -> str:
        """The first line of a journal, the configuration. With the lines before each `forget` behind it, and those at
        the end, it is what `mapsched audit --journal` reads."""
        return self._text("opening")
