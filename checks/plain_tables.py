"""The text of a report, from its numbers: what stands in each line and in each column of its tables. Rounding is that of
fractions, and a number without room is tried in each unit."""

from fractions import Fraction
from math import floor

from plain_report import is_replacement, lives_of, told_of

UNITS = ("", "k", "M", "G", "T", "P", "E", "Z", "Y", "R", "Q")
BESIDE = (("request", "admit"), ("poll", "remove"), ("unsolicited", "ask"), ("opportunity", "heard"), ("data", "build"),
          ("idle", "skip"))
ALONE = ("reserve", "header", "status")
SECOND, FEW, IN_A_LINE = 160000, 30, 5
# Calls that have a line where there was one.
SELDOM = ("replace", "change", "rest", "wake")
RATES = "bits per second asked, granted and at most; delays in milliseconds\n"
# The headings of ranks and of lives, and the widths of their columns: without replaced requests, and with them.
RANKS = ("rank       bytes    asks  served  wait  drop   least  middle     p99    most ms\n",
         "rank       bytes   asks served wait drop repl   least  middle     p99    most ms\n")
FLOWS = (" SID kind   asked/s  granted  ceiling   asks wait drop  middle     p99    most\n",
         " SID kind   asked/s granted ceiling  asks wait drop repl  middle     p99    most\n")
RANK_COUNTS = ((("granted", 9), ("asks", 7), ("served", 7), ("waiting", 5), ("dropped", 5)),
               (("granted", 9), ("asks", 6), ("served", 6), ("waiting", 4), ("dropped", 4), ("replaced", 4)))
LIFE_COUNTS = ((("asks", 6), ("waiting", 4), ("dropped", 4)),
               (("asks", 5), ("waiting", 4), ("dropped", 4), ("replaced", 4)))
RATE = (8, 7)
RESERVED = ("flows with a minimum reserved rate: frames at whose start they waited under it\n"
            " SID kind   reserved   frames       %\n")


def nearest(value):
    return floor(value + Fraction(1, 2))


def fitted(number, width):
    """A number in the first unit in which it has room, rounded down."""
    texts = [f"{number // 1000 ** power}{unit}" for power, unit in enumerate(UNITS)]
    return next((text for text in texts if len(text) <= width), texts[-1])


def column(text, width):
    return " " + text.rjust(width)


def number(value, width):
    return column("-" if value is None else fitted(value, width), width)


def percent(part, whole):
    if whole == 0:
        return column("-", 7)
    hundredths = nearest(Fraction(10000 * part, whole))
    return column(f"{hundredths // 100}.{hundredths % 100:02}", 7)


class Tables:
    """The tables of a history's report that has these numbers."""

    def __init__(self, history, told):
        self.ticks, self.frame, self.told = history["config"]["ticks"], history["config"]["frame"], told
        self.lives = list(zip(lives_of(history), told["lives"]))
        self.replaced = any(map(is_replacement, told_of(history)))

    def milliseconds(self, minislots, width):
        micros = nearest(Fraction(25 * self.ticks * minislots, 4))
        text = f"{micros // 1000}.{micros % 1000:03}"
        return text if len(text) <= width else fitted(micros // 1000, width)

    def delays(self, delay, *names):
        return "".join(column("-" if delay is None else self.milliseconds(delay[name], 7), 7) for name in names)

    def rate(self, count, life):
        time = (life["to"] - life["from"]) * self.ticks
        return number(8 * count * SECOND // time if time else None, RATE[self.replaced])

    def head(self):
        told = self.told
        if not told["frames"]:
            return f"no frames, {told['skips']} skips\n"
        time = self.milliseconds(told["to"] - told["from"], 20)
        return (f"{told['frames']} frames, minislots {told['from']} to {told['to']}, {time} ms, "
                f"{told['skips']} skips\n")

    def uses(self):
        use, calls = self.told["use"], self.told["calls"]
        # Open idles, where they are told, stand beside a call that else stands alone.
        beside = [*BESIDE, ("open", "reserve")] if "open" in use else BESIDE
        shown = [call for _, call in beside]
        lines = [f"{name:11}{number(use[name], 14)}{percent(use[name], sum(use.values()))}        {call:7}"
                 f"{number(calls[call], 11)}\n" for name, call in beside]
        alone = [call for call in (*ALONE, *SELDOM) if call in calls and call not in shown]
        lines += [f"{'':42}{call:7}{number(calls[call], 11)}\n" for call in alone]
        return "\nuse              minislots       %        calls\n" + "".join(lines)

    def refused(self):
        cells = [f" {name:>3}:{number(self.told['refused'][name], 8)}" for name in sorted(self.told["refused"], key=int)]
        lines = ["\nrefused" + "".join(cells[at:at + IN_A_LINE]) for at in range(0, len(cells), IN_A_LINE)]
        return "".join(lines) + ("\n" if cells else "")

    def rank(self, rank):
        name = rank["rank"] if rank["rank"] == "polled" else f"best {rank['rank']}"
        counts = "".join(number(rank[key], width) for key, width in RANK_COUNTS[self.replaced])
        return (name + counts
                + self.delays(rank["delay"], "least", "middle", "p99", "greatest") + "\n")

    def name(self, told):
        kind = {"unsolicited": "unsol", "polled": "polled"}.get(told["kind"], f"best {told.get('priority')}")
        return f"{told['sid']:>4} {kind:6}"

    def life(self, life, told):
        counts = "".join(number(told[key], width) for key, width in LIFE_COUNTS[self.replaced])
        return (self.name(told) + self.rate(told["asked"], told) + self.rate(told["granted"], told)
                + number(life.flow.get("rate") or None, RATE[self.replaced]) + counts
                + self.delays(told["delay"], "middle", "p99", "greatest") + "\n")

    def lines(self, line, lives, is_all):
        """The lines of these lives in their order, of the first few where not all are asked for."""
        # Python's sort keeps the order of those that are alike.
        by_bytes = sorted(lives, key=lambda it: (-it[1]["asked"], it[0].ended))[:FEW]
        few = "" if is_all or len(lives) <= FEW else (
            f"{FEW} of {len(lives)} lives of flows: those that asked for most bytes\n")
        return "".join(line(*it) for it in (lives if is_all else by_bytes)) + few

    def flows(self, is_all):
        if not self.lives:
            return ""
        order = "in the order of their admissions" if is_all else "those first that asked for the most bytes"
        lines = self.lines(self.life, self.lives, is_all)
        return f"\nflows, {order}:\n{RATES}{FLOWS[self.replaced]}{lines}"

    def waited(self, life, told):
        """How often a flow waited under its reservation."""
        frames = (told["to"] - told["from"]) // self.frame
        return (self.name(told) + number(life.flow["reserved"], 8) + number(told["under"], 8)
                + percent(told["under"], frames) + "\n")

    def reserved(self, is_all):
        lives = [it for it in self.lives if "under" in it[1]]
        return f"\n{RESERVED}{self.lines(self.waited, lives, is_all)}" if lives else ""

    def text(self, is_all):
        ranks = "".join(self.rank(rank) for rank in self.told["priorities"])
        return (self.head() + self.uses() + self.refused() + (f"\n{RANKS[self.replaced]}{ranks}" if ranks else "")
                + self.flows(is_all) + self.reserved(is_all))
