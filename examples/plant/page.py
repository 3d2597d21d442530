"""What the plant prints at its end, in 80 columns."""

from modems import MILLISECOND, SECOND

PARTS = ("least", "middle", "p99", "greatest")
# What refusals mean that a plant can meet.
REFUSALS = {
    4: "no more flows: as many are live as `flows` of the configuration",
    5: "too many grants: in an interval they would be above `periodic` of the configuration",
    6: "no place: the cycle has none for this flow",
    7: "no flow with this SID is live",
    16: "too late: the clock with its lead is past the next frame",
}


def of_all(part, whole):
    return f"{100 * part / whole:5.1f} %" if whole else "    - %"


def in_milliseconds(delay, part):
    return f"{delay[part] / MILLISECOND:9.2f}" if delay else f"{'-':>9}"


def use_lines(use):
    """The minislots of all frames by what they were for."""
    whole = sum(use.values())
    return [f"  {name:12}{slots:10}  {of_all(slots, whole)}" for name, slots in use.items() if slots]


def request_lines(plant, refused):
    """How often modems could ask in the request region, and what became of requests."""
    count = plant.counts.requests
    given_up = sum(modem.given_up for modem in plant.modems.values())
    chances, alone, collisions = (count[name] for name in ("opportunities", "alone", "collisions"))
    replaced = sum(life.replaced for life in plant.counts.lives)
    meanings = {number: REFUSALS.get(int(number), "docs/REFERENCE.md has it") for number in refused}
    told = [f"    {many:6} with {number}: {meanings[number]}" for number, many in refused.items()]
    return [
        f"  {chances} chances to ask in the request region: in {alone} one request,",
        f"  in {collisions} a collision, in {chances - alone - collisions} nothing",
        f"  {count['collided']} requests collided, {count['noise']} were lost to noise, {given_up} packets were given up",
        f"  {count['poll']} requests in polls, {count['with data']} with data",
        f"  {plant.counts.missed} grants were missed, and {replaced} requests replaced by those that asked anew",
        *(["  refusals by the scheduler:", *told] if told else []),
    ]


def rank_lines(ranks):
    """Requests by who is served first, and their delays."""
    lines = ["  served first       asks dropped waiting    least   middle  99 in 100 greatest"]
    for rank in ranks:
        name = "polled" if rank["rank"] == "polled" else f"priority {rank['rank']}"
        counts = f"{rank['asks']:11}{rank['dropped']:8}{rank['waiting']:8}"
        lines.append(f"  {name:12}{counts}{''.join(in_milliseconds(rank['delay'], key) for key in PARTS)}")
    return lines


def flow_lines(counts):
    """Voice and data."""
    voice = [life for life in counts.lives if life.flow["kind"] == "unsolicited"]
    late = sum(life.late for life in voice)
    asked = sum(life.asked for life in counts.lives)
    granted = sum(life.granted for life in counts.lives) - sum(life.granted for life in voice)
    return [
        f"  {len(voice)} voice calls; {counts.grants} voice grants, {late} of them late;"
        f" {counts.blocked} flows blocked",
        f"  {counts.calls['rest']} rests in silence, {counts.calls['wake']} wakes; {counts.calls['change']} tiers changed",
        f"  {asked} bytes of data asked for, {granted} granted",
        f"  {counts.sent} bytes sent in data grants that had room for {counts.room}",
    ]


def warnings(plant):
    """What a user of another plant than the usual one may not expect."""
    counts = plant.counts
    flows, periodic = plant.config.get("flows", 64), plant.config.get("periodic", 40)
    if counts.refused[4]:
        yield (f"this channel has at most {flows} live flows, so {counts.refused[4]} admissions were refused: of"
               f" {len(plant.modems)} modems the others waited for their turn")
    if counts.refused[5] or counts.refused[6]:
        yield (f"telephones and cameras found no room: {counts.refused[5]} admissions were above {periodic} grants and"
               f" polls, and {counts.refused[6]} had no lawful place")
    part, late = counts.starved(plant.next, SECOND)
    for rank, slow, asks in late:
        yield (f"polled flows are served first, and starve priority {rank}: they have {int(100 * part)} % of the bytes,"
               f" and {slow} of its {asks} requests took a second or more")


def page(plant, seed, journal):
    counts, told = plant.counts, plant.counts.report(plant.next)
    whole = plant.next - plant.config["start"]
    left_out = whole // plant.config["frame"] - told["frames"]
    frames = f"{told['frames']} frames, {left_out} left out at {told['skips']} times"
    return "\n".join([
        f"{whole / SECOND:.3f} s of plant time, seed {seed}: {frames}",
        "minislots", *use_lines(told["use"]),
        "requests", *request_lines(plant, told["refused"]),
        "delays in milliseconds, from a request to the end of the grant that serves it",
        *rank_lines(told["priorities"]),
        "flows", *flow_lines(counts),
        *(["journal", f"  mapsched audit --journal < {journal}"] if journal else []), "",
    ])
