"""The upstream scheduler of one TDMA channel of a cable modem termination system (DOCSIS 3.0), from Python.

It is the proved library of the package libmapsched-dev, called by ctypes. A `Scheduler` takes calls, which are values,
and gives replies, which are values too, refusals among them; what is not recorded or not read is a `Fault`.

    from mapsched import Build, Config, Scheduler

    with Scheduler(Config(ticks=4, ..)) as scheduler:
        reply = scheduler.call(Build(now=760))

docs/PYTHON.md has a whole example. Units: minislots, bytes, microseconds, bits per second.
"""

# checks/tables: imports begin
from .calls import Admit, Ask, BestEffort, Build, Bursts, Call, Change, Config, Flow, Header, Heard, Polled, Profile
from .calls import Remove, Replace, Reserve, Rest, Skip, Status, Unsolicited, Wake, call_of
# checks/tables: imports end
from .faults import BadConfig, BadJournal, BadMap, BadPayload, BadRequest, Closed, Fault, HandedOver, HistoryFull
from .faults import NoHistory, OutOfMemory
from .frames import AsksMinislots, TellsQueue, map_frame, read_request
from .maps import Element, Map, decode, encode
from .replies import Admitted, Built, Changed, FlowBytes, Noted, Placed, Refusal, Refused, Removed, Reply, Reserved
from .replies import Skipped, Taken
from .scheduler import Entry, Illegal, Legal, Scheduler, audit, check, library_version

__version__ = "0.2.0"

# checks/tables: exports begin
__all__ = [
    "Admit", "Admitted", "Ask", "AsksMinislots", "BadConfig", "BadJournal", "BadMap", "BadPayload", "BadRequest",
    "BestEffort", "Build", "Built", "Bursts", "Call", "Change", "Changed", "Closed", "Config", "Element", "Entry",
    "Fault", "Flow", "FlowBytes", "HandedOver", "Header", "Heard", "HistoryFull", "Illegal", "Legal", "Map",
    "NoHistory", "Noted", "OutOfMemory", "Placed", "Polled", "Profile", "Refusal", "Refused", "Remove", "Removed",
    "Replace", "Reply", "Reserve", "Reserved", "Rest", "Scheduler", "Skip", "Skipped", "Status", "Taken", "TellsQueue",
    "Unsolicited", "Wake", "audit", "call_of", "check", "decode", "encode", "library_version", "map_frame",
    "read_request",
]
# checks/tables: exports end
