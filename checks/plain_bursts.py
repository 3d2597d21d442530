"""Bursts read again from their definition: which codewords a burst has, which symbols, how many minislots, by which
profile it is sent, and the most bytes that so many minislots carry, which are looked for by halves; and what the
command `bursts` tells of them, as JSON has it and as a text."""

import functools

# The fewest information bytes of a last codeword that is shortened.
LEAST_INFORMATION = 16
# The bytes of the bursts that the command always tells of, and of those of requests.
USUAL, REQUESTS = [64, 128, 256, 512, 1024, 1522], [6, 7]
# The greatest numbers of a profile; two are not 0 either.
GREATEST = {"preamble": 1536, "guard": 255, "bits": 8, "parity": 16, "information": 253, "shortened": 1}


def ceiling_of(whole, part):
    """The least whole number that is not below a quotient."""
    return -(-whole // part)


class Bursts:
    """The bursts of a configuration, as a history has it."""

    def __init__(self, config):
        self.config, self.described = config, config.get("bursts")
        # each is looked for once
        self.slots, self.capacity = functools.cache(self.slots), functools.cache(self.capacity)

    def coded(self, profile, count):
        """The bytes of a burst with their parity: a codeword begins at each k-th byte."""
        begins = range(0, count, profile["information"])
        if profile["parity"] == 0 or len(begins) == 0:
            return count
        parity, last = 2 * profile["parity"], self.last(profile, count - begins[-1])
        return (len(begins) - 1) * (profile["information"] + parity) + last + parity

    def last(self, profile, left):
        """The information bytes of a last codeword that has so many bytes: it may be shortened."""
        is_shortened = profile["shortened"] == 1 and left < profile["information"]
        return max(left, LEAST_INFORMATION) if is_shortened else profile["information"]

    def symbols(self, profile, count):
        """The symbols of a burst: its preamble, those that its bits need, and its guard time."""
        return profile["preamble"] + ceiling_of(8 * self.coded(profile, count), profile["bits"]) + profile["guard"]

    def profile(self, name):
        """The profile of a usage. That of unsolicited grants may be missing, and is then that of long ones."""
        return self.described.get(name) or self.described["long"]

    def slots(self, name, count):
        """The minislots of a burst of so many bytes in a profile."""
        if self.described:
            return ceiling_of(self.symbols(self.profile(name), count), self.described["symbols"])
        return self.config["overhead"] + ceiling_of(count, self.config["bytes_per_slot"])

    def usage(self, count):
        """The usage of a data grant of so many bytes."""
        short = self.slots("short", count)
        return "short" if short <= self.config["short_max"] and short <= self.slots("long", count) else "long"

    def length(self, count):
        """The minislots of a data grant of so many bytes."""
        return self.slots(self.usage(count), count)

    def unsolicited(self, count):
        """The minislots of an unsolicited grant of so many bytes."""
        return self.slots("unsolicited", count) if self.config["phy"] == 1 else self.length(count)

    def most(self, slots):
        """A number of bytes that so many minislots cannot pass: a symbol has at most eight bits."""
        return slots * (self.described["symbols"] if self.described else self.config["bytes_per_slot"])

    def capacity(self, slots):
        """The most bytes of a data grant of at most so many minislots, none where there is no number above 0. More
        bytes take no fewer minislots, which plain_runs tries."""
        fits, too_many = 0, self.most(slots) + 1
        while too_many - fits > 1:
            middle = (fits + too_many) // 2
            fits, too_many = (middle, too_many) if self.length(middle) <= slots else (fits, middle)
        return fits

    def capacities(self):
        """The most bytes of data grants of no minislot up to a whole frame: more bytes are never fewer minislots."""
        count, found = 0, []
        for slots in range(self.config["frame"] + 1):
            while self.length(count + 1) <= slots:
                count += 1
            found.append(count)
        return found

    def raw_bits(self, usage):
        """The bits of a minislot in which nothing but data stands."""
        if self.described:
            return self.described["symbols"] * self.profile(usage)["bits"]
        return 8 * self.config["bytes_per_slot"]

    def told(self, count):
        """What is told of bursts of so many bytes."""
        usage, slots = self.usage(count), self.length(count)
        efficiency = 80000 * count // (slots * self.raw_bits(usage))
        by = {"profiles": {it: self.slots(it, count) for it in ("long", "short", "unsolicited")}} if self.described else {}
        return {"bytes": count, "efficiency": efficiency, "minislots": slots, **by, "usage": usage}

    def requests(self):
        """What is told of requests, where a lawful profile of theirs stands among the others."""
        profile = (self.described or {}).get("request")
        if not isinstance(profile, dict) or not is_lawful(profile):
            return {}
        return {"request": {str(it): self.slots("request", it) for it in REQUESTS}}


def is_lawful(profile):
    """Whether a profile has each number, and none that it may not have."""
    ranges = {**{name: (0, most) for name, most in GREATEST.items()}, "bits": (1, 8), "information": (16, 253)}
    has_all = all(isinstance(profile.get(it), int) and low <= profile[it] <= most for it, (low, most) in ranges.items())
    return has_all and profile["information"] + 2 * profile["parity"] <= 255


def told_of(config, *more):
    """What the command tells of a configuration's bursts, these among them."""
    bursts = Bursts(config)
    return {"bursts": [bursts.told(it) for it in [*USUAL, *more]], "capacity": bursts.capacities(), **bursts.requests()}


def text_of(told):
    """The same as a text."""
    of_profiles = {"short": 8, "long": 8, "unsolicited": 13} if "profiles" in told["bursts"][0] else {}
    text = "   bytes" + "".join(f"{name:>{width}}" for name, width in of_profiles.items())
    text += "  usage  minislots  efficiency\n"
    for it in told["bursts"]:
        by = "".join(f"{it['profiles'][name]:{width}}" for name, width in of_profiles.items())
        percent = f"{it['efficiency'] // 100}.{it['efficiency'] % 100:02}%"
        text += f"{it['bytes']:8}{by}{it['usage']:>7}{it['minislots']:11}{percent:>12}\n"
    if "request" in told:
        six, seven = told["request"].values()
        text += f"\nrequest: {six} minislots for 6 bytes, {seven} for 7 bytes\n"
    text += "\nminislots" + "".join(f"     +{it}" for it in range(10))
    for slots, count in enumerate(told["capacity"]):
        text += ("" if slots % 10 else f"\n{slots:9}") + f"{count:7}"
    return f"{text}\n"
