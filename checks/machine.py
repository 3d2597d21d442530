"""What the machine gives a run of many checks: folders where there is room, turns, and words on what it refused."""

import contextlib
import os
import re
import shutil
import tempfile
import threading

# A folder for temporary files with so much room is taken before any other, in bytes.
ENOUGH = 8 << 30


class Trouble(Exception):
    """That a check was not made, or not to its end, whatever its text is."""


def free_memory():
    """The memory that can be had, in bytes."""
    with open("/proc/meminfo", encoding="utf-8") as it:
        return 1024 * int(re.search(r"MemAvailable: *(\d+)", it.read())[1])


def jobs(others=0):
    """How many works of the prover run at a time: one for each processor, and for each 2.5 GB of the memory that is free
    beside so many others, which may take 3 GB each."""
    return max(1, min(len(os.sched_getaffinity(0)), (free_memory() - others * 3_000_000_000) // 2_500_000_000))


def free_in(folder):
    """The room on the disk of a folder, in bytes, and none where there is no such folder."""
    try:
        found = os.statvfs(folder)
    except OSError:
        return 0
    return found.f_bavail * found.f_frsize


def places(beside):
    """The folders in which others can be made: the usual one, and this one beside what was built, best first."""
    found = [beside]
    with contextlib.suppress(OSError):
        os.makedirs(beside, exist_ok=True)
    with contextlib.suppress(OSError):
        found.insert(0, tempfile.gettempdir())
    return sorted(found, key=lambda it: -min(free_in(it), ENOUGH))


@contextlib.contextmanager
def folder(prefix, beside):
    """A folder where there is room, which is removed at the end. That it cannot be removed is not told."""
    for place in places(beside):
        try:
            made = tempfile.mkdtemp(prefix=prefix, dir=place)
            break
        except OSError as error:
            why = error
    else:
        raise why
    try:
        yield made
    finally:
        shutil.rmtree(made, ignore_errors=True)


def told(error, *folders):
    """The kind and the text of an error, and what was free on the machine."""
    free = [f"{free_in(it) >> 20} MB in {it}" for it in dict.fromkeys(folders)]
    free.append(f"{free_memory() >> 20} MB of memory")
    text = " ".join(str(error).split())[:300]
    return f"{type(error).__name__}: {text} (free: {', '.join(free)})"


class Turns:
    """Lets so many works run side by side, and one with no other beside it where it asks for that."""

    def __init__(self, many):
        self.many, self.door, self.free = many, threading.Lock(), threading.Semaphore(many)

    @contextlib.contextmanager
    def taken(self, is_alone):
        mine = self.many if is_alone else 1
        with self.door:
            for _ in range(mine):
                self.free.acquire()
        try:
            yield
        finally:
            for _ in range(mine):
                self.free.release()
