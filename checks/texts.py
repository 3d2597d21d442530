"""Scripts, histories and scripts of storms as texts; commands as they are run, and how many ended as they have to. The
base configuration, whose keys ascend, the forms of calls, which have a place for each number of a row, and the tables
are in checks/rows."""

import json
import os
import re
import subprocess
import sys

from kit import tables

HERE = os.path.dirname(os.path.dirname(os.path.realpath(__file__)))
# A run that has not ended after so many seconds hangs: a storm in which a seat waits for ever does.
LIMIT = 300
FAULTS = re.compile(r"input failed|input too long|not json|bad script at \d+|bad config \d+")


def read(path):
    with open(f"{HERE}/{path}", encoding="utf-8") as it:
        return it.read()


def rows(name):
    """The rows of a table, each with its answer. Lines without an arrow are headings."""
    return [line.split(" => ", 1) for line in read(f"checks/rows/{name}").splitlines() if " => " in line]


def table(name):
    """A table of checks/rows as it stands, with no empty line behind it."""
    return read(f"checks/rows/{name}").rstrip("\n")


CONFIG, FORMS, BURSTS = table("base_configuration"), table("forms_of_calls"), table("burst_profiles")
PLAIN, SEVERAL = table("runs"), table("runs_with_several_grants")
CROWDS = [table("runs_of_many_flows"), table("a_run_of_many_grants"), table("a_run_of_forty_grants")]
RANGING, BURSTY = table("runs_with_opportunities"), table("runs_with_bursts")
LIMITED, CHANGED = table("runs_with_many_flows"), table("runs_with_changed_flows")
OPENED, SETTLED, PEAKED = table("runs_with_open_idles"), table("runs_that_settle"), table("runs_with_peaks")
RESERVED_RATES = table("runs_with_reservations")
RUNS = [PLAIN, SEVERAL, RANGING, BURSTY, LIMITED, CHANGED, OPENED, SETTLED, PEAKED, RESERVED_RATES, *CROWDS]
REPLIES, BUILD = table("a_history_with_each_reply"), table("a_history_of_one_build")
CALLS = read("checks/rows/calls_of_each_name")

# The payload of the first MAP under the base configuration, its whole frame, its table and its drawing.
PAYLOAD = "03010300000003200000032000000000fffc4000000180040001c028"
FRAME = f"c2000034d68901e02f0000010200000000010022000003010300{PAYLOAD}c286f0a5"
TABLE = dict(it.split("\n", 1) for it in table("tables_of_payloads").split("\n\n"))[PAYLOAD] + "\n"
LEGEND = """    SID offset slots usage
A 16383      0     4 request region
B     0      4    36 idle
"""
DRAWING = f"    0 {'A' * 4}{'B' * 36}\n{LEGEND}"


def edited(text, old, new):
    assert old in text, f"no such part: {old}"
    return text.replace(old, new, 1)


def compact(value):
    """A value as the program writes it."""
    return json.dumps(value, sort_keys=True, separators=(",", ":"))


# What a text that lacks a field of the configuration means, where that is a number.
MISSING = {it["name"]: it["missing"] for it in tables()["field"] if isinstance(it.get("missing"), int)}
# The fields that no history has where they are those.
LEFT_OUT = [it["name"] for it in tables()["field"] if it.get("left_out")]
# What they are then: the most flows that may live, that a MAP shows as waiting, and grants and polls in an interval;
# whether idles are open, and how many minislots a new UCD count settles.
LIMITS = {name: MISSING[name] for name in LEFT_OUT}
# The fields that nobody reads where `bursts` stands, and the profiles that stand in that, each with these numbers.
UNIFORM = [name for it in tables()["field"] for name in it.get("instead_of", [])]
PROFILES = [it["name"] for it in tables()["burst"] if "bits" not in it]
PROFILE = [it["name"] for it in tables()["profile"]]


def completed(config):
    """A configuration as a history has it: with all fields but those that are left out; `bursts` stands in the place of
    those that nobody reads beside it, and has a profile of unsolicited grants where that is not the one of long grants.
    """
    config = {**MISSING, **config}
    config = {key: it for key, it in config.items() if key not in LEFT_OUT or it != MISSING[key]}
    if "bursts" not in config:
        return config
    bursts = config["bursts"]
    profiles = {name: {key: bursts[name][key] for key in PROFILE} for name in PROFILES if name in bursts}
    if profiles.get("unsolicited") == profiles["long"]:
        del profiles["unsolicited"]
    bursts = {"symbols": bursts["symbols"], **profiles}
    return {key: config[key] for key in config if key not in UNIFORM} | {"bursts": bursts}


def whole(config):
    """A configuration as a history has it, as a text."""
    return compact(completed(json.loads(config)))


def maps_in_readme():
    """The MAPs that README prints, a line each."""
    return "".join(f"{it}\n" for it in re.findall(r"^    map (.*)$", read("README.md"), re.M))


def config_of(table):
    """The base configuration with the edits of a table, which are lines with an arrow `->`, and in which `#bursts`
    stands for burst profiles."""
    config = CONFIG
    for line in table.splitlines():
        if " -> " in line:
            config = edited(config, *line.replace("#bursts", BURSTS).split(" -> ", 1))
    return config


# The base configuration with burst profiles.
DESCRIBED = config_of('"bytes_per_slot":16 -> "bursts":#bursts\n"short_max":8 -> "short_max":6')
DESCRIBED = edited(DESCRIBED, '"overhead":2,', "")


def field_of(row):
    """The field that an edit of a configuration is about: the first that it writes."""
    return row.partition(" -> ")[2].split('"')[1]


def json_of(row):
    """The JSON text of the call in a row."""
    name, *numbers = row.split(" ")
    form = dict(line.split(" ", 1) for line in FORMS.splitlines())[name]
    assert form.count("#") == len(numbers), row
    for number in numbers:
        form = form.replace("#", number, 1)
    return form


def line_in_json(told):
    """An object as a line of compact JSON, with its keys in ascending order."""
    return json.dumps(told, sort_keys=True, separators=(",", ":")) + "\n"


def payload_in_json(table, **more):
    """The line of JSON for a payload with this table, and with these members more."""
    counts, times, *lines = (it.split() for it in table.rstrip().split("\n"))
    names = "start", "ack", "ranging_start", "ranging_end", "data_start", "data_end"
    told = dict(zip(names, (int(times[at]) for at in (1, 3, 5, 6, 8, 9))))
    told |= {"kind": "map", "channel": int(counts[1]), "ucd_count": int(counts[3]), "reserved": int(counts[7])}
    told["elements"] = [
        {"sid": int(sid), "iuc": int(code), "offset": int(offset), "usage": name} for sid, code, offset, name in lines]
    return line_in_json(told | more)


def fault_in_json(fault, words, **more):
    """The line of JSON for a line `fault ..` that means this, and with these members more."""
    _, number, *place = fault.split(" ")
    if number in ("hex", "long"):
        told = {"fault": number}
    elif number == "frame":
        told = {"fault": number, "number": int(place.pop())}
    else:
        told = {"fault": "payload", "number": int(number)}
    if place:
        told["element"] = int(place[0])
    return line_in_json(told | {"words": words} | more)


def verdict_in_json(line, **more):
    """The line of JSON for the line of a verdict of `audit`, and with these members more."""
    verdict, number = line.split()
    told = {"entries": int(number), "legal": True} if verdict == "legal" else {"illegal": int(number), "legal": False}
    return line_in_json(told | more)


def script_of(config, calls):
    return f'{{"config":{config},"calls":[{calls}]}}'


def storm_of(config, scripts):
    return f'{{"config":{config},"scripts":[{scripts}]}}'


def answered(table):
    return [line.split(" => ", 1) for line in table.splitlines() if " => " in line]


def script_in(table):
    """The script of a table: its configuration and its calls."""
    return script_of(config_of(table), ",".join(json_of(row) for row, _ in answered(table)))


def blocks_of(blocks):
    """The calls of blocks, each with its reply, whose lines are joined."""
    parts = [block.partition("\n") for block in blocks.split("\n\n")]
    return [(call, lines.replace("\n", "")) for call, _, lines in parts if lines]


def history_of(config, blocks):
    """The text of the history of blocks, whose calls were made one after the other."""
    entries = [
        f'{{"call":{call},"reply":{reply},"seat":0,"ticket":{ticket}}}'
        for ticket, (call, reply) in enumerate(blocks_of(blocks))
    ]
    return f'{{"config":{whole(config)},"entries":[{",".join(entries)}]}}\n'


def journal_of(history):
    """The journal of a history, which is a text."""
    told = json.loads(history)
    return "".join(f"{compact(line)}\n" for line in ({"config": told["config"]}, *told["entries"]))


def explained(answer, meanings, seen):
    """The line of an answer with what it means behind it, where it is a refusal."""
    number, value = answer.split(" ")[1], answer.split(" ")[-1]
    has_minislot = len(answer.split(" ")) == 3 and number != "3"
    key = f"refused {number} #" if has_minislot else answer
    seen.add(key)
    return f"{answer}  # {meanings[key].replace('#', value)}"


VOICE = '{"call":"admit","flow":{"interval_us":10000,"jitter_us":800,"kind":"unsolicited","size":200},"sid":5}'


def voice(reference, starts, sid=5, grants=None):
    """A block: a voice flow of 15 minislots each ten frames, up to 32 late, is admitted with this placement. It has so
    many grants in an interval, or does not say how many, which is one."""
    call = edited(VOICE, '"sid":5', f'"sid":{sid}')
    call = call if grants is None else edited(call, '"flow":{', f'"flow":{{"grants":{grants},')
    return f'{call}\n{{"kind":"admitted","reference":{reference},"starts":[{starts}]}}'


def revoiced(reference, starts, size=200):
    """A block: the voice flow is changed, where its size is another, and has this placement then."""
    call = edited(edited(VOICE, "admit", "change"), '"size":200', f'"size":{size}')
    return f'{call}\n{{"kind":"changed","reference":{reference},"starts":[{starts}]}}'


def ended(command, given="", **how):
    """The exit status of a command, what it writes, and the first line of what it says. It is given this text, but
    where it has another standard input; one that cannot be started has the status that a shell gives it, and one that
    hangs ends the check."""
    if "stdin" not in how:
        how["input"] = given.encode() if isinstance(given, str) else given
    how = {"stdout": subprocess.PIPE, "stderr": subprocess.PIPE, "timeout": LIMIT, **how}
    try:
        ran = subprocess.run(command, **how)
    except OSError as error:
        return 127, "", str(error)
    except subprocess.TimeoutExpired:
        print(f"FAILED: {' '.join(map(str, command))}: no end after {LIMIT} seconds: {str(given)[:400]}")
        print("0 passed, 1 failed")
        sys.exit(1)
    return ran.returncode, (ran.stdout or b"").decode(), ran.stderr.decode().partition("\n")[0]


class Tally:
    """How many of the things that were tried went as they have to."""

    def __init__(self):
        self.passed = self.failed = 0

    def count(self, what, found, *lawful):
        """Compares what is found, as the end of a run, with what is lawful."""
        if found in lawful:
            self.passed += 1
        else:
            self.failed += 1
            print(f"FAILED: {what[:400]}: {str(found)[:400]}, not {str(lawful[0])[:400]}")

    def ends(self, command, given, status, output, error="", **how):
        """A command ends with this status, and writes and says this."""
        self.count(f"{' '.join(command)}: {given[:400]}", ended(command, given, **how), (status, output, error))

    def works(self, what, ran):
        """A command that ran (kit.py) has succeeded."""
        self.count(what, ran.returncode == 0 or ran.stdout[-400:], True)

    def told(self):
        """Prints the last line of a check, and gives the exit status."""
        print(f"{self.passed} passed, {self.failed} failed")
        return 1 if self.failed else 0


# The commands that only the program with all of them has.
LATER = {"draw", "audit", "report", "storm", "check", "live", "bursts", "state"}


class Program(Tally):
    """The program, and how many of its runs ended as they have to. Beside it may stand the program that is built first,
    of which the same is wanted where it has the command."""

    def __init__(self, path, first=None):
        super().__init__()
        self.path, self.first = path, first

    def run(self, words, given="", **how):
        """The exit status of a run, what it writes, and the first line of what it says."""
        return ended([self.path, *words], given, **how)

    def wants(self, words, given, status, output, error="", **how):
        """A run ends with this status, and writes and says this."""
        self.ends([self.path, *words], given, status, output, error, **how)
        if self.first and not LATER.intersection(words[:1]):
            self.ends([self.first, *words], given, status, output, error, **how)

    def has_line(self, words, given, line, *, name=""):
        """A text has this fault, or it is read: a script that is run, or a history that is judged."""
        status, output, error = self.run(words, given)
        is_read = not error and (status == 0 or (words == ["audit"] and status == 1)) and output != ""
        if FAULTS.fullmatch(line):
            self.count(f"{' '.join(words)}: {name or given}", (status, output, error), (3, "", line))
        else:
            self.count(f"{' '.join(words)}: {name or given}", is_read, True)


def run_all(checks, path=f"{HERE}/crates/mapsched/out/mapsched", first=None):
    """Makes these checks of the program, or else of what the gate built, counts its runs, and gives the exit status."""
    program = Program(os.path.realpath(path), first and os.path.realpath(first))
    os.environ.pop("COLUMNS", None)
    for check in checks:
        before = program.passed + program.failed
        check(program)
        print(f"{program.passed + program.failed - before} {check.__name__}", flush=True)
    return program.told()
