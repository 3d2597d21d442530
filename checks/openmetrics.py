"""The OpenMetrics text format, version 1.0: a strict reader of what `report --openmetrics` may write of it, which has
neither timestamps nor exemplars; and the samples that the numbers of a report have in it. Where Debian's package
python3-prometheus-client is there, its reader has to find the same."""

import re
from fractions import Fraction

from plain_report import rank_name

try:
    from prometheus_client.openmetrics.parser import text_string_to_metric_families
except ImportError:
    text_string_to_metric_families = None

NAME, LABEL = "[a-zA-Z_:][a-zA-Z0-9_:]*", "[a-zA-Z_][a-zA-Z0-9_]*"
TOLD = re.compile(rf"# (TYPE|UNIT|HELP) ({NAME}) (.+)")
# In a value a backslash stands before another one, a quote or an n alone.
VALUE = r'(?:[^"\\]|\\[\\"n])*'
SAMPLE = re.compile(rf'({NAME})(?:\{{((?:{LABEL}="{VALUE}"(?:,(?!\}})|(?=\}})))*)\}})? ([0-9]+(?:\.[0-9]+)?)')
PAIR = re.compile(rf'({LABEL})="({VALUE})"')
# The ends of the names of a type's samples.
ENDS = {"counter": {"_total"}, "gauge": {""}, "summary": {"", "_count", "_sum"}, "info": {"_info"}}
QUANTILES = re.compile(r"0\.[0-9]*[1-9]|0\.0|1\.0")
TICK = Fraction(625, 10 ** 8)
CALLS = ("admit", "ask", "build", "change", "header", "heard", "remove", "replace", "reserve", "rest", "skip", "status",
         "wake")


def wants(is_so, words):
    if not is_so:
        raise ValueError(words)


class Family:
    """A family of metrics: what is told of it, and its samples, each a name, labels and a number."""

    def __init__(self, name):
        self.name, self.told, self.samples = name, {}, []

    def tell(self, kind, text):
        wants(not self.samples and kind not in self.told, f"{kind} of {self.name} comes again, or behind a sample")
        self.told[kind] = text

    def ends(self):
        """All that is told of it goes together."""
        kind, unit = self.told.get("TYPE"), self.told.get("UNIT")
        wants(kind in ENDS, f"the type of {self.name}")
        wants("HELP" in self.told and not re.search(r'\\[^\\n"]', self.told["HELP"]), f"the help of {self.name}")
        wants(unit is None or kind != "info" and self.name.endswith(f"_{unit}"), f"the unit of {self.name}")
        wants(not self.name.endswith(("_total", "_info", "_count", "_sum", "_created")), f"the name {self.name}")
        metrics = []
        for name, labels, number in self.samples:
            quantile = labels.get("quantile")
            wants(kind != "info" or number == 1, f"{name} is not 1")
            is_of_summary = kind == "summary" and name == self.name
            wants(bool(quantile and QUANTILES.fullmatch(quantile)) == is_of_summary, f"the quantile of {name}")
            metrics.append(frozenset((key, labels[key]) for key in labels if key != "quantile"))
        firsts = [it for at, it in enumerate(metrics) if metrics[at - 1:at] != [it]]
        wants(len(firsts) == len(set(firsts)), f"metrics of {self.name} are mixed")


def sample(line):
    """The name, the labels and the number of a line."""
    found = SAMPLE.fullmatch(line)
    wants(found, f"no sample: {line}")
    pairs = PAIR.findall(found[2] or "")
    labels = {key: re.sub(r"\\(.)", lambda it: {"n": "\n"}.get(it[1], it[1]), value) for key, value in pairs}
    wants(len(labels) == len(pairs) and not any(it.startswith("__") for it in labels), f"the labels of {line}")
    return found[1], labels, Fraction(found[3])


def families(text):
    """The families of a text, in their order."""
    *lines, last, behind = ("\n" + text).split("\n")
    wants((last, behind) == ("# EOF", "") and "\r" not in text, "the end")
    found, names, seen = [], set(), set()
    for line in lines[1:]:
        told = TOLD.fullmatch(line)
        if told:
            if not found or found[-1].name != told[2]:
                wants(told[2] not in names, f"{told[2]} comes again")
                names.add(told[2])
                found.append(Family(told[2]))
            found[-1].tell(told[1], told[3])
            continue
        name, labels, number = sample(line)
        wants(found and name.removeprefix(found[-1].name) in ENDS.get(found[-1].told.get("TYPE"), ()), f"whose {name} is")
        series = (name, frozenset(labels.items()))
        wants(series not in seen, f"{line} comes again")
        seen.add(series)
        found[-1].samples.append((name, labels, number))
    for family in found:
        family.ends()
    return found


def samples_of(text):
    """Each sample of a text, by its name and its labels, and its number."""
    return {(name, frozenset(labels.items())): number for it in families(text) for name, labels, number in it.samples}


def is_read_by_others(text):
    """Whether Debian's reader, where it is there, finds as many samples with the same numbers, as near as it has them."""
    if text_string_to_metric_families is None:
        return True
    read = {(it.name, frozenset(it.labels.items())): float(it.value)
            for family in text_string_to_metric_families(text) for it in family.samples}
    return read == {key: float(number) for key, number in samples_of(text).items()}


class Wanted:
    """The samples that the numbers of a report have, its extremes and those that are told here alone among them, where
    a minislot has so many ticks."""

    def __init__(self, ticks, told, extremes, alone):
        self.minislot, self.samples = ticks * TICK, {}
        self.channel(told)
        self.extremes(extremes)
        for sid, count in alone["refused_sids"].items():
            self.add("sid_refusals_total", count, sid=sid)
        for rank in told["priorities"]:
            self.rank(rank)
        for place, (life, more) in enumerate(zip(told["lives"], alone["lives"], strict=True)):
            self.life(place, life)
            if more["oldest"] is not None:
                self.add_time("flow_oldest_request_seconds", more["oldest"], life=place, sid=life["sid"])
            if more["held"] is not None:
                self.add("flow_at_ceiling_frames_total", more["held"], life=place, sid=life["sid"])

    def add(self, name, value, **labels):
        self.samples[f"mapsched_{name}", frozenset((key, str(it)) for key, it in labels.items())] = value

    def add_time(self, name, minislots, **labels):
        self.add(name, minislots * self.minislot, **labels)

    def channel(self, told):
        self.add("frames_total", told["frames"])
        self.add("skips_total", told["skips"])
        if told["frames"]:
            self.add_time("first_frame_start_seconds", told["from"])
            self.add_time("last_frame_end_seconds", told["to"])
        for it in CALLS:
            self.add("calls_total", told["calls"].get(it, 0), call=it)
        for it in range(1, 24):
            self.add("refusals_total", told["refused"].get(str(it), 0), number=it)
        for it in told["use"]:
            self.add_time("use_seconds_total", told["use"][it], use=it)

    def extremes(self, told):
        self.add("most_elements", told["elements"])
        self.add("lapsed_reserves_total", told["lapsed"])
        if told["margin"] is not None:
            self.add_time("least_margin_seconds", told["margin"])
        if told["gap"] is not None:
            self.add("least_free_minislots", told["gap"])
        for receiver, lag in told["lags"].items():
            self.add_time("receiver_most_lag_seconds", lag, receiver=receiver)

    def delays(self, name, delay, **labels):
        for part, key in (("0.0", "least"), ("0.5", "middle"), ("0.99", "p99"), ("1.0", "greatest")):
            if delay:
                self.add_time(name, delay[key], quantile=part, **labels)

    def rank(self, told):
        for name, key in (("granted_bytes", "granted"), ("requests", "asks"), ("served_requests", "served"),
                          ("waiting_requests", "waiting"), ("dropped_requests", "dropped"),
                          ("replaced_requests", "replaced")):
            self.add(f"rank_{name}", told.get(key, 0), rank=told["rank"])
        self.delays("rank_delay_seconds", told["delay"], rank=told["rank"])

    def life(self, place, told):
        of, rank = {"life": place, "sid": told["sid"]}, rank_name(told)
        self.add("flow_info", 1, **of, kind=told["kind"], **({} if rank is None else {"rank": rank}))
        self.add_time("flow_start_seconds", told["from"], **of)
        self.add_time("flow_end_seconds", told["to"], **of)
        for name, key in (("asked_bytes", "asked"), ("granted_bytes_total", "granted"),
                          ("outstanding_bytes", "outstanding"), ("requests_total", "asks"),
                          ("served_requests_total", "served"), ("waiting_requests", "waiting"),
                          ("dropped_requests_total", "dropped"), ("replaced_requests_total", "replaced")):
            self.add(f"flow_{name}", told.get(key, 0), **of)
        if "under" in told:
            self.add("flow_under_reservation_frames_total", told["under"], **of)
        self.delays("flow_delay_seconds", told["delay"], **of)
