"""A plain reading of the picture of a report, and what it has to show: the heights of the stacked areas, what each step
says of itself, the parts in the legend, the ticks of the three axes, and the marks and numbers of the delays of each
rank, and what an empty chart says. All of it is taken from the numbers of the plain report and from the MAPs
themselves, frame by frame."""

import re
import xml.etree.ElementTree as tree

from plain_report import report, uses_of_frames, uses_told

SVG = "{http://www.w3.org/2000/svg}"
MOST_STEPS, RIGHT, UP, ACROSS = 800, 10240, 3200, 6400
# From the bottom up, as they are stacked; the picture draws the highest first.
STACKED = ("request", "poll", "unsolicited", "opportunity", "data", "open", "idle")
SHOWN = ("least", "middle", "p99", "greatest")
COUNTED = ("served", "waiting", "dropped", "replaced")
NUMBER = r"(\d+(?:\.\d)?)"
DELAYS = ("Delays of requests by rank, in ms: from where a request was heard to the end of the data grant that served "
          "it.")
LOGARITHMIC = " The axis is logarithmic."
NO_FRAME, NO_DELAY = "No MAP was built, so there is no frame.", "No request was accepted, so there is no delay."


def tenths(text):
    """A place in tenths of a unit."""
    whole, _, part = text.partition(".")
    return 10 * int(whole) + int(part or 0)


def milliseconds(config, minislots):
    """So many minislots in milliseconds, as pictures have them: the nearest microsecond, a half upwards."""
    micros = (minislots * config["ticks"] * 25 + 2) // 4
    return f"{micros // 1000}.{micros % 1000:03}"


def stacked(config):
    """The uses that are stacked: open idles where idles are open."""
    return [name for name in STACKED if name in uses_told(config)]


def width_of(frames):
    """How many frames a step has: the least power of two with which there are no more than 800 steps."""
    width = 1
    while frames > MOST_STEPS * width:
        width *= 2
    return width


class Step:
    """As many frames: the first one and the one behind the last, from when to when they reach, in minislots from the
    start of the first frame of all, and what their minislots are for."""

    def __init__(self, config, frames, first, behind):
        self.config, self.first, self.behind = config, first, behind
        self.begin, self.end = (frames[at][0] - frames[0][0] for at in (first, behind - 1))
        self.end += config["frame"]
        self.whole = frames[-1][0] + config["frame"] - frames[0][0]
        self.use = {name: sum(use[name] for _, use in frames[first:behind]) for name in stacked(config)}

    def places(self):
        """Where it begins and ends, in tenths of a unit: the chart reaches from the start of the first frame of all to
        the end of the last one."""
        return RIGHT * self.begin // self.whole, RIGHT * self.end // self.whole

    def edge(self, upto):
        """Where a use and all below it stand in it: from where, how high, up to where."""
        names = stacked(self.config)
        below = names[:names.index(upto) + 1]
        begin, end = self.places()
        return begin, UP * sum(self.use[name] for name in below) // (self.end - self.begin), end

    def told(self):
        use, times = self.use, [milliseconds(self.config, slots) for slots in (self.begin, self.end)]
        opened = f"open idle {use['open']}, " if "open" in use else ""
        words = (f"frames {self.first} to {self.behind - 1}, {times[0]} to {times[1]} ms, minislots: "
                 f"request region {use['request']}, polls {use['poll']}, unsolicited {use['unsolicited']}, "
                 f"opportunities {use['opportunity']}, data grants {use['data']}, {opened}idle {use['idle']}")
        return (*self.places(), words)


def steps_of(config, frames):
    """The steps of so many frames."""
    width = width_of(len(frames))
    return [Step(config, frames, at, min(at + width, len(frames))) for at in range(0, len(frames), width)]


def ticks_to(full):
    """The numbers at an axis that ends at this one: from 0 on, by the least round number of which ten reach it."""
    step = next(digit * 10 ** power for power in range(20) for digit in (1, 2, 5) if 10 * digit * 10 ** power >= full)
    return [step * place for place in range(11) if step * place <= full]


def time_axis(config, whole):
    """What the axis of time is in, milliseconds or from 10 seconds on seconds, and its ticks, each at its place. So
    many minislots are on it, and microseconds are counted in quarters, since a tick has 25."""
    quarters = 25 * config["ticks"] * whole
    unit, name = (4000, "seconds") if quarters >= 4 * 10 ** 7 else (4, "milliseconds")
    return name, [(RIGHT * number * unit // max(quarters, 1), f"{number // 1000}.{number % 1000:03}")
                  for number in ticks_to(quarters // unit)]


def level(amount):
    """How high an amount stands where each doubling is 1024 higher: evenly between two powers of two, rounded down."""
    power = 1 << max(amount.bit_length() - 1, 0)
    return 1024 * (power.bit_length() - 1) + 1024 * amount // power


class DelayAxis:
    """The axis of the delays of ranks. It ends at the tenth of a millisecond that the greatest one reaches, and is
    logarithmic, from the least delay above 0 on, where the greatest is more than a hundred times as long."""

    def __init__(self, config, delays):
        self.ticks, most = config["ticks"], max(delays, default=0)
        least = min((slots for slots in delays if slots), default=most)
        self.tenths, self.start = (most * self.ticks + 15) // 16, least if most > 100 * least else None
        # Its ends where it is logarithmic, in quarters of a microsecond.
        self.begin, self.end = 25 * self.ticks * least, 400 * self.tenths

    def is_logarithmic(self):
        return self.start is not None

    def by_level(self, quarters):
        low, high = level(self.begin), level(self.end)
        return ACROSS * max(level(quarters) - low, 0) // (high - low)

    def place(self, slots):
        """Where a delay stands."""
        if self.is_logarithmic():
            return self.by_level(25 * self.ticks * slots)
        return ACROSS * (slots * self.ticks) // max(16 * self.tenths, 1)

    def marks(self):
        """Its ticks, in milliseconds: of a logarithmic one at 1, 2 and 5 times the powers of ten, or at the powers of
        ten alone where it reaches further than ten thousand times its start."""
        if not self.is_logarithmic():
            return [(ACROSS * number // max(self.tenths, 1), f"{number // 10}.{number % 10}")
                    for number in ticks_to(self.tenths)]
        digits = (1,) if self.end > 10000 * self.begin else (1, 2, 5)
        micros = [digit * 10 ** power for power in range(20) for digit in digits if digit * 10 ** power <= 10 ** 19]
        return [(self.by_level(4 * number), str(number // 1000) if number >= 1000 else f"0.{number:03}")
                for number in micros if self.begin <= 4 * number <= self.end]


def axes_of(config, whole, delays):
    """The ticks of minislots, of time, and of delays, each at its place."""
    return ([(UP * number // config["frame"], str(number)) for number in ticks_to(config["frame"])],
            time_axis(config, whole), delays.marks())


def span_of(config, first, behind):
    return first, behind, milliseconds(config, behind - first)


def rank_of(config, rank, axis):
    """A row of delays: its name, how many requests were served, wait, were dropped and, where that is told, were
    replaced, the places of its marks, and its numbers."""
    name = "polled" if rank["rank"] == "polled" else f"priority {rank['rank']}"
    counts, delay = tuple(rank[kind] for kind in COUNTED if kind in rank), rank["delay"]
    if delay is None:
        return name, counts, None, []
    places = {kind: axis.place(delay[kind]) for kind in SHOWN}
    return name, counts, places, [milliseconds(config, delay[kind]) for kind in SHOWN]


def shown(history):
    """What the picture of the report on a history has to show."""
    config, told = history["config"], report(history)
    frames = list(uses_of_frames(history))
    steps, whole = steps_of(config, frames), (told["to"] or 0) - (told["from"] or 0)
    all_slots = max(sum(told["use"].values()), 1)
    axis = DelayAxis(config, [rank["delay"][kind] for rank in told["priorities"] if rank["delay"] for kind in SHOWN])
    return {"width": width_of(len(frames)), "frames": told["frames"], "skips": told["skips"],
            "span": told["from"] is not None and span_of(config, told["from"], told["to"]),
            "frame": (config["frame"], milliseconds(config, config["frame"])),
            "axes": axes_of(config, whole, axis), "logarithmic": axis.is_logarithmic(),
            "parts": {name: (2000 * told["use"][name] + all_slots) // (2 * all_slots) for name in told["use"]},
            "areas": [(name, [step.edge(name) for step in steps]) for name in reversed(stacked(config))],
            "steps": [step.told() for step in steps],
            "ranks": [rank_of(config, rank, axis) for rank in told["priorities"]],
            "empty": [*([] if frames else [NO_FRAME]), *([] if told["priorities"] else [NO_DELAY])]}


def area_in(path):
    """The use and the outline of an area that was drawn."""
    (name,) = set(path.get("class").split()) - {"area"}
    edge = rf"H{NUMBER}V-{NUMBER}H{NUMBER}V0"
    outline = re.fullmatch(rf"M0 0((?:{edge})*)z", path.get("d"))
    return name, [tuple(map(tenths, places)) for places in re.findall(edge, outline[1])]


def step_in(path):
    left, right = re.fullmatch(rf"M{NUMBER} 0V-320H{NUMBER}V0z", path.get("d")).groups()
    return tenths(left), tenths(right), path.findtext(f"{SVG}title")


def axes_in(text):
    """The ticks of the three axes, from the text itself: each has its number behind it."""
    up = re.findall(rf"class='tick' d='M0-{NUMBER}h1024'/><text class='end' x='-8' y='-{NUMBER}' dy='4'>(\d+)<", text)
    right = re.findall(rf"class='tick' d='M{NUMBER} 6V-320'/><text class='at' x='{NUMBER}' y='20'>([\d.]+)<", text)
    (name,) = re.findall(r"y='38'>time from the start of the first frame, in (\w+)<", text)
    delays = re.findall(rf"class='tick' d='M{NUMBER}-4V(\d+)'/><text class='at' x='{NUMBER}' y='-10'>([\d.]+)<", text)
    places = [[line, at] for line, at, _ in [*up, *right]] + [[line, at] for line, _, at, _ in delays]
    if any(len(set(place)) > 1 for place in places):
        raise ValueError("the line of a tick is not where its number is")
    return ([(tenths(at), number) for _, at, number in up],
            (name, [(tenths(at), number) for _, at, number in right]),
            [(tenths(at), number) for _, _, at, number in delays])


def marks_in(row):
    """The places of the marks of a row of delays."""
    paths = [path.get("d") for path in row.iter(f"{SVG}path")]
    least, p99 = re.fullmatch(rf"M{NUMBER} 9V23H{NUMBER}V9z", paths[0]).groups()
    from_least, greatest = re.fullmatch(rf"M{NUMBER} 16H{NUMBER}", paths[1]).groups()
    (at_greatest,) = re.fullmatch(rf"M{NUMBER} 8v16", paths[2]).groups()
    (at_p99,) = re.fullmatch(rf"M{NUMBER} 9l7 14h-14z", paths[3]).groups()
    (middle,) = [circle.get("cx") for circle in row.iter(f"{SVG}circle")]
    if (from_least, at_greatest, at_p99) != (least, greatest, p99) or len(paths) != 4:
        raise ValueError("marks of one delay at two places")
    return {"least": tenths(least), "middle": tenths(middle), "p99": tenths(p99), "greatest": tenths(greatest)}


def frame_in(title):
    slots, time = re.search(r"of (\d+) minislots, ([\d.]+) ms each", title).groups()
    return int(slots), time


def rank_in(row, columns):
    """A row of delays, in which each number stands below its column."""
    name, *numbers = [(text.text, text.get("x")) for text in row.iter(f"{SVG}text")]
    places = {at: number for number, at in numbers}
    if len(places) != len(numbers) or not places.keys() <= columns.keys():
        raise ValueError("a number is below no column")
    by_name = {columns[at]: number for at, number in places.items()}
    delays = [by_name[kind] for kind in ("least", "middle", "99 in 100", "greatest") if kind in by_name]
    counts = tuple(int(by_name[kind]) for kind in COUNTED if kind in by_name)
    return name[0], counts, marks_in(row) if delays else None, delays


def read_picture(text):
    """What a picture shows, in the words of `shown`."""
    picture = tree.fromstring(text)
    paths = list(picture.iter(f"{SVG}path"))
    texts = [found.text for found in picture.iter(f"{SVG}text")]
    (title,) = [found for found in texts if found.startswith("Use of minislots over time.")]
    (caption,) = [found for found in texts if found.startswith("Delays of requests by rank")]
    if caption not in (DELAYS, DELAYS + LOGARITHMIC):
        raise ValueError("the delays are not said to be what they are")
    span = re.search(r"Minislots (\d+) to (\d+), ([\d.]+) ms", title)
    names = ("request region", "polls", "unsolicited", "opportunities", "data grants", "open idle", "idle")
    words = dict(zip(names, STACKED))
    ground = picture.find(f"{SVG}rect")
    if ground is None or [ground.get(name) for name in ("width", "height", "fill")] != ["100%", "100%", "#fff"]:
        raise ValueError("the picture is on no white ground")
    keys = [re.fullmatch(rf"({'|'.join(words)}) {NUMBER} %", found) for found in texts]
    rows = [group for group in picture.iter(f"{SVG}g") if group.get("transform", "").startswith("translate(0 ")]
    # The names of the columns of numbers, by their places.
    (chart,) = [group for group in picture.iter(f"{SVG}g") if group.get("transform") == "translate(96 560)"]
    columns = {text.get("x"): text.text for text in chart.findall(f"{SVG}text") if text.get("class") == "end"}
    return {"width": int(next(re.match(r"Frames in a step: (\d+)\.", found)[1] for found in texts
                              if found.startswith("Frames in a step"))),
            "frames": int(re.search(r"Frames: (\d+),", title)[1]), "skips": int(re.search(r"Skips: (\d+)\.", title)[1]),
            "span": bool(span) and (int(span[1]), int(span[2]), span[3]),
            "frame": frame_in(title), "axes": axes_in(text), "logarithmic": caption.endswith(LOGARITHMIC),
            "parts": {words[key[1]]: tenths(key[2]) for key in keys if key},
            "areas": [area_in(path) for path in paths if "area" in path.get("class", "").split()],
            "steps": [step_in(path) for path in paths if path.get("class") == "step"],
            "ranks": [rank_in(row, columns) for row in rows],
            "empty": [found for found in texts if found in (NO_FRAME, NO_DELAY)]}
