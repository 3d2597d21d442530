"""Commands of which calls of the C library fail, one after the other, as checks/refusing.c lets them."""

import os
import select
import signal

import kit
from recorded import read, write
from texts import LIMIT

# What marks a call that failed, by the setting that lets it fail.
MARKS = {"REFUSED": "m", "REFUSED_FROM": "m", "FAILED_READ": "r", "ENDED_READ": "r", "FAILED_WRITE": "w"}
MARKS |= {"FULL_WRITE": "w", "FAILED_CALL": "f", "FULL_CALL": "f"}


def ended_by_then(process):
    """The exit status of a process of ours. One that hangs, as where a seat waits for ever, is killed."""
    watched = os.pidfd_open(process)
    if not select.select([watched], [], [], LIMIT)[0]:
        os.kill(process, signal.SIGKILL)
    os.close(watched)
    return os.waitstatus_to_exitcode(os.waitpid(process, 0)[1])


class Failing:
    """Runs commands so, over files in a folder. Several processes may use one of these side by side."""

    def __init__(self, folder, tally):
        self.folder, self.library = folder, f"{folder}/refusing.so"
        tools = f"{kit.path()}/toolchain/bin"
        words = ["-O1", "-fPIC", "-shared", "-nostdlib", f"-fuse-ld={tools}/ld.lld", "-o", self.library]
        tally.works("build of what refuses", kit.run(kit.HERE, f"{tools}/clang", *words, "checks/refusing.c"))

    def run(self, command, given=b"", *settings):
        """How a run ends, what it writes and says, and the marks of the calls that failed."""
        files = [f"{self.folder}/{os.getpid()}.{it}" for it in ("input", "output", "error", "marks")]
        write(files[0], given)
        opened = [(os.POSIX_SPAWN_OPEN, 0, files[0], os.O_RDONLY, 0)]
        new = os.O_WRONLY | os.O_CREAT | os.O_TRUNC
        opened += [(os.POSIX_SPAWN_OPEN, number, files[number], new, 0o600) for number in (1, 2, 3)]
        environment = {**os.environ, "LD_PRELOAD": self.library, **dict(it.split("=") for it in settings)}
        how = {"file_actions": opened, "setsigdef": [signal.SIGPIPE]}
        started = os.posix_spawn(command[0], command, environment, **how)
        status = ended_by_then(started)
        return status, read(files[1]), read(files[2]).decode(), read(files[3]).decode()

    def each(self, key, command, given=b"", settings=(), prepare=lambda: None):
        """Runs with the first call of a kind failing, then the second, and so on until none does: the setting, the
        marks where a call failed, and how the run ended. The last one is whole."""
        place, marks = 0, MARKS[key]
        while MARKS[key] in marks:
            place += 1
            prepare()
            *end, marks = self.run(command, given, f"{key}={place}", *settings)
            yield f"{key}={place}", marks if MARKS[key] in marks else "", *end

    def all_of(self, series):
        """The same, all of them."""
        return [*self.each(*series)]


def counted(tally, name, runs):
    """These runs, and behind the last that a call failed in one of them."""
    place = 0
    for place, run in enumerate(runs):
        yield run
    tally.count(f"{name}: nothing failed", place > 0, True)
    print(f"{place} by {name}", flush=True)
