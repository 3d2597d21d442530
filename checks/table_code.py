"""What `checks/tables` compares with the tables, and does not write: names, numbers, types, ranges and words in the
code in Rattle, and numbers in documents and tests that stand in sentences or in lists of their own. Where a definition
in `specs` says the same, the prover holds it against the code."""

import glob
import functools
import json
import os
import re

from kit import HERE
from table_texts import (
    BASE, BURSTS, CALLS, FIELDS, FLAGGED, FLOWS, GROUPS, LIMITS, MEMBER, MEMBERS, MISSING, NUMBERED, OBJECTS, PROFILES,
    REASONS, REFUSALS, STATUSES, SYMBOLS, TABLES, by_size, class_of, instead, limits as limits_in_c, words_of_group,
)
from texts import LEFT_OUT, PROFILE, UNIFORM, field_of, read, rows


def number_of(text):
    """A number as the code writes it, a limit by its name among them, or the text where it is none."""
    found = re.fullmatch(r"([\d_]+)(?: << (\d+))?", text.strip(" ()"))
    name = re.sub(r"(\.into\(\)| as u64)$", "", text)
    if name.startswith("MAX_") and name in (known := limits()):
        return known[name]
    return int(found[1]) << int(found[2] or 0) if found else text


def code_of(path):
    """The text of a file; where there is none, an empty one, which is not what is wanted."""
    return read(path) if os.path.exists(f"{HERE}/{path}") else ""


def block(path, head, tail="\n}"):
    """The text of a file between the end of a head and a tail."""
    return code_of(path).partition(head)[2].partition(tail)[0]


def arms(path, kind):
    """The numbers and names of the arms of a `match` whose patterns or whose values are of this kind."""
    text = code_of(path)
    found = [(name, int(number)) for name, number in re.findall(rf"\b{kind}::(\w+)(?:\(_\))? => (\d+),", text)]
    found += [(name, int(number)) for number, name in re.findall(rf"\b(\d+) => {kind}::(\w+)", text)]
    return sorted(found, key=lambda it: it[1])


def counted(names):
    return [(name, number) for number, name in enumerate(names, 1)]


def variants(path, head):
    """The names of the variants of an enumeration, each with whether it has a value."""
    return re.findall(r"^    (\w+)(\()?.*,$", block(path, head), re.M)


def members(path, head):
    """The names of the members of a struct with their types."""
    return re.findall(r"^    pub (\w+): (\w+),$", block(path, head), re.M)


def constants(path, head=None):
    """The numbers of a module by their names."""
    text = block(path, head) if head else code_of(path)
    return {name: number_of(number) for name, number in re.findall(r"\bconst (\w+): \w+ = ([^;]+);", text)}


@functools.cache
def limits():
    """The limits of the crates of plain values by their names."""
    homes = [code_of(f"crates/{it}.rt") for it in ("minislots/src/lib", "sched_calls/src/lib", "sched_calls/src/call")]
    found = [it for home in homes for it in re.findall(r"\bconst (MAX_\w+): \w+ = ([\d_]+);", home)]
    return {name: int(number) for name, number in found}


# The fields of a configuration


def in_order(rows):
    return [(it["name"], f"u{it['bits']}" if "bits" in it else class_of(it["name"])) for it in rows]


def tested():
    """The fields in the order in which the code has and tests them: an object stands behind those in whose place it
    is."""
    last = {it["instead_of"][-1]: it for it in FIELDS if "instead_of" in it}
    rows = [it for it in FIELDS if it["name"] not in OBJECTS]
    return [it for row in rows for it in (row, last.get(row["name"])) if it]


def ranges():
    """The least and the greatest value of each field in the code, where they are numbers."""
    pattern = r"ConfigFault::(\w+)(?: if [^=]+)? => \(([^,]+), (.+)\),$"
    found = re.findall(pattern, code_of("crates/minislots/src/config/ranges.rt"), re.M)
    return {name: [it if isinstance(it, int) else None for it in map(number_of, them)] for name, *them in found}


def forms_of_fields(name):
    """The members in a form of the code: each name, what stands there, and what is said of where it is missing."""
    text = block("crates/json_fields/src/forms.rt", f"pub static {name}: ", ")];")
    return re.findall(r'\(\s*"(\w+)",\s*(.*?),\s*(MUST|Missing::\w+(?:\(\d+\))?),?\s*\)', text, re.S)


def form_of_field(it):
    """What the form of a configuration has to say of a field."""
    holds = f"U{it['bits']}" if "bits" in it else f"Holds::Object(Sort::{class_of(it['name'])})"
    if it["name"] in UNIFORM:
        return it["name"], holds, "Missing::UnlessBursts"
    return it["name"], holds, "Missing::Nothing" if it["name"] in OBJECTS else lacking(it)


def form_in_bursts(it):
    """What the forms of burst descriptors have to say of a member."""
    holds = "Holds::Lawful(MOST_U32, {}, {})".format(*it["range"]) if "bits" in it else "PROFILE"
    return it["name"], holds, f"Missing::{class_of(it['as'])}" if "as" in it else "MUST"


def values_of(path, head):
    """The numbers of a configuration in a test: those of its bursts by their places, where these have no names."""
    text = block(path, head)
    found = re.findall(r"(\w+)(?: =|:) (\d+)", text)
    found += [pair for it in re.findall(r"= Uniform ([\d ]+);", text) for pair in zip(UNIFORM, it.split())]
    return {name: int(number) for name, number in found}


def ranges_in_bursts():
    """The range of each number of burst descriptors in the code."""
    path = "crates/minislots/src/bursts.rt"
    text, known = code_of(path), constants(path)
    found = {name: [0, int(most)] for name, most in re.findall(r"^ +(?:&& )?self\.(\w+) <= (\d+)$", text, re.M)}
    within = re.findall(r"is_within\((\w+), (\d+), self\.(\w+)\)", text)
    return found | {name: [known.get(least) or int(least), int(most)] for least, most, name in within}


def of_bursts():
    """Burst descriptors: their members, the range of each number, how they are read, and their structs of C."""
    bursts, plain, rows = "crates/minislots/src/bursts.rt", "crates/mapsched_c/src/bursts.rt", TABLES["profile"]
    uniform = re.findall(r"(\w+): u32,", block(bursts, "Uniform {", "}"))
    yield f"{bursts}: Bursts", uniform, UNIFORM
    wanted = [(it["name"], f"u{it['bits']}" if "bits" in it else "Profile") for it in BURSTS]
    yield f"{bursts}: Descriptors", members(bursts, "pub struct Descriptors {"), wanted
    yield f"{bursts}: Profile", members(bursts, "pub struct Profile {"), in_order(rows)
    wanted = {it["name"]: it["range"] for it in (*rows, *BURSTS) if "range" in it}
    yield f"{bursts}: ranges", ranges_in_bursts(), wanted
    forms = "crates/json_fields/src/forms.rt"
    yield f"{forms}: PROFILES", forms_of_fields("PROFILES"), [*map(form_in_bursts, rows)]
    yield f"{forms}: BURSTS", forms_of_fields("BURSTS"), [*map(form_in_bursts, BURSTS)]
    yield f"{plain}: PlainProfile", members(plain, "pub struct PlainProfile {"), in_order(rows)
    wanted = [(name, "u32") for name in SYMBOLS] + [(name, "PlainProfile") for name in PROFILES.values()]
    yield f"{plain}: PlainBursts", members(plain, "pub struct PlainBursts {"), wanted
    yield f"{plain}: numbers", re.findall(r"(\w+): self\.\1,", code_of(plain)), PROFILE + SYMBOLS


def of_writing():
    """The keys and the numbers of a configuration in the text of a history, those of a profile first."""
    writer = "crates/history_writing/src/history/config.rt"
    text, others = code_of(writer), sorted({*BASE, *MISSING} - {*UNIFORM} - {*LEFT_OUT})
    keys = [it for names in re.findall(r"^static \w+: \[&str; \d+\] = \[(.*?)\];", text, re.M | re.S)
            for it in re.findall(r'"(\w+)"', names)]
    yield f"{writer}: keys", keys, sorted(PROFILE) + others
    found = re.findall(r'put_optional\(out, "(\w+)", config\.(\w+) as u64, (\d+)\)', text)
    wanted = [(name, name, str(MISSING[name])) for name in sorted(LEFT_OUT)]
    yield f"{writer}: what may be left out", found, wanted
    numbers = re.findall(r"^        (?:config|profile)\.(\w+)", text, re.M)
    yield f"{writer}: numbers", numbers, sorted(PROFILE) + others
    more = {*UNIFORM, *OBJECTS, *LEFT_OUT, *(it["name"] for it in BURSTS)}
    yield f"{writer}: other keys", {*re.findall(r'"(\w+)"', text)} - {*keys}, more


def of_fields():
    by_place = [(it, f"u{bits}") for bits, names in by_size() for it in names]
    numbered = [class_of(it) for it in NUMBERED]
    config, plain = "crates/minislots/src/config.rt", "crates/mapsched_c/src/config.rt"
    had = [it for it in tested() if it["name"] not in UNIFORM]
    yield f"{config}: Config", members(config, "pub struct Config {"), in_order(had)
    wanted = [class_of(it["name"]) for it in tested() if it["name"] in NUMBERED]
    yield f"{config}: ConfigFault", [it for it, _ in variants(config, "pub enum ConfigFault {")], wanted
    wanted = {class_of(it["name"]): it["range"] for it in FIELDS if it["name"] in NUMBERED and "range" in it}
    wanted = {name: [it if isinstance(it, int) else None for it in them] for name, them in wanted.items()}
    for name, found in ranges().items():
        least, most = wanted.pop(name, [None, None])
        yield f"the range of {name} in minislots", found, [least, most]
    yield "fields without a range in minislots", [*wanted], []
    yield "crates/text_stream/src/fault.rt", arms("crates/text_stream/src/fault.rt", "ConfigFault"), counted(numbered)
    told, wanted = "crates/live_command/src/field.rt", [it["name"] for it in FIELDS if it["name"] not in OBJECTS]
    found = re.findall(r'Field::(\w+) => "(\w+)",', code_of(told))
    yield f"{told}: Field", found, [(class_of(it), it) for it in wanted]
    yield f"{told}: Member", re.findall(r'Member::\w+ => "(\w+)",', code_of(told)), PROFILE
    ordered = sorted(FIELDS, key=lambda it: it["name"] not in NUMBERED)
    yield "crates/json_fields/src/forms.rt: CONFIGS", forms_of_fields("CONFIGS"), [*map(form_of_field, ordered)]
    reader = code_of("crates/json_fields/src/config.rt") + code_of("crates/json_fields/src/bursts.rt")
    names = {it["name"] for it in (*FIELDS, *BURSTS)} | {*PROFILE}
    yield "crates/json_fields/src/config.rt, bursts.rt", set(re.findall(r'"(\w+)"', reader)) - {"config"}, names
    behind = [it for name in OBJECTS for it in [(f"has_{name}", "u32"), (name, f"Plain{class_of(name)}")]]
    behind += [(name, "u32") for name, _ in limits_in_c()]
    yield f"{plain}: PlainConfig", members(plain, "pub struct PlainConfig {"), by_place + behind
    others = [it["name"] for it in LIMITS if it["missing"]]
    wanted = UNIFORM + [it["name"] for it in FIELDS if it["name"] not in UNIFORM + OBJECTS + others]
    yield f"{plain}: config", re.findall(r"(\w+): self\.\1,", code_of(plain)), wanted
    found = re.findall(r"(\w+): or_missing\(self\.\1, (\d+)\),", code_of(plain))
    found += re.findall(r"if self\.has_(\w+) == 0 \{\s+(\d+)\s+\} else \{\s+self\.\1\s", code_of(plain))
    wanted = [(name, str(MISSING[name])) for name in sorted(others, key=lambda it: it in FLAGGED)]
    yield f"{plain}: what may be missing", found, wanted


def of_tests():
    """The base configuration of tests in Rattle and of the first example, and each field's edges."""
    base = {**BASE, **MISSING}
    homes = {"tests/src/base.rt": "BASE: Config = Config {", "sched_calls/proofs/Base.antt": "base = record {"}
    for path, head in homes.items():
        yield f"crates/{path}", values_of(f"crates/{path}", head), base
    yield "examples/two_maps.json", json.loads(read("examples/two_maps.json"))["config"], BASE
    edges = {(field_of(row), wanted) for row, wanted in rows("fields_of_a_configuration") if "bad" in wanted}
    yield "checks/rows/fields_of_a_configuration", edges, {(name, f"bad config {at}") for name, at in counted(NUMBERED)}


# Calls, flows and their members


def held(holds, named):
    """The bits and the range of what stands under a key."""
    found = re.fullmatch(r"Holds::\w+\(u(\d+)::MAX(?: as u64)?(?:, (.*), (.*))?\)", named.get(holds, holds))
    return (None, None) if not found else (int(found[1]), found[2] and [number_of(found[2]), number_of(found[3])])


def forms():
    """The forms of calls and flows: of each its members, and of each member its bits, its range and what it is where it
    is missing."""
    text = code_of("crates/json_fields/src/forms.rt")
    named = dict(re.findall(r"const (\w+): Holds = (.*?);", text))
    single = r'const (\w+): Member = \(\s*"(\w+)",\s*(.*?),\s*(MUST|Missing::\w+(?:\(\d+\))?),?\s*\);'
    single = {name: them for name, *them in re.findall(single, text, re.S)}
    text = text.partition("static CALLS")[2].partition("static ENTRIES")[0]
    for name, of in re.findall(r'\(\s*"(\w+)",\s*&\[(.*?)\],?\s*\)', text, re.S):
        found = re.findall(r'\("(\w+)", (\w+), (\w+)\)|\b([A-Z_]+)\b', of)
        found = [single[it] if it else them for *them, it in found]
        yield name, {key: (*held(holds, named), missing) for key, holds, missing in found}


def lacking(it):
    """What is said of a member in a form of the code, for where it is missing."""
    return f"Missing::Number({it['missing']})" if "missing" in it else "MUST"


def of_forms():
    wanted = {it["name"]: it for it in (*CALLS, *FLOWS)}
    found = dict(forms())
    yield "crates/json_fields/src/forms.rt: names", [*found], [*wanted]
    for name, of in found.items():
        it = wanted.get(name, {"members": []})
        keys = sorted([*it["members"], *instead(it)])
        yield f"the form of {name} in json_fields", sorted({*of} - {"call", "kind"}), keys
        for key in {*of} - {"call", "kind"}:
            member = MEMBER.get(key, {})
            others = dict.fromkeys(it.get("optional", []), "Missing::Nothing")
            for pair in instead(it).items():
                others |= {one: f"Missing::Unless{class_of(other)}" for one, other in (pair, pair[::-1])}
            missing = others.get(key) or lacking(member)
            between = it.get("ranges", {}).get(key, member.get("range"))
            says = (member.get("bits"), between, missing)
            yield f"{key} in the form of {name} in json_fields", of[key], says


def of_calls():
    spec, plain = "crates/sched_calls/src/spec.rt", "crates/mapsched_c/src/call.rt"
    for it in FLOWS:
        found = re.findall(r"(\w+): (\w+),", block(spec, f"    {class_of(it['name'])} {{", "}"))
        yield f"{spec}: {it['name']}", found, [(name, f"u{MEMBER[name]['bits']}") for name in it["members"]]
    kinds = {"kind": [it["name"] for it in CALLS], "flow": [it["name"] for it in FLOWS]}
    for name, of in {**kinds, "usage": MEMBER["usage"]["names"]}.items():
        found = constants(plain, f"pub mod {name} {{")
        yield f"{plain}: {name}", found, {it.upper(): number for number, it in enumerate(of)}
    places = [([*it["shared"]][:1] if "shared" in it else it["names"], it["bits"]) for it in TABLES["place"]]
    places = [(name, f"u{bits}") for names, bits in places for name in names]
    yield f"{plain}: PlainCall", members(plain, "pub struct PlainCall {"), places
    replies = {it.get("code", it["name"]): number for number, it in enumerate(TABLES["reply"])}
    yield "crates/mapsched_c/src/reply.rt", constants("crates/mapsched_c/src/reply.rt", "pub mod answer {"), replies
    usages = MEMBER["usage"]["names"]
    words = re.findall(r'"(\w+)"', block("crates/file_words/src/sort.rt", "pub static USAGES: ", "];"))
    yield "crates/file_words/src/sort.rt: USAGES", words, usages
    for path, of, rest in [("call", CALLS, {"call", *usages}), ("flow", FLOWS, {"kind"})]:
        found = set(re.findall(r'"(\w+)"', code_of(f"crates/call_reading/src/{path}.rt"))) - rest
        wanted = {it for row in of for it in (row["name"], *row["members"], *instead(row))}
        yield f"crates/call_reading/src/{path}.rt", found, wanted
    totals = members("crates/sched_report/src/calls.rt", "pub struct Calls {")
    yield "crates/sched_report/src/calls.rt", [name for name, _ in totals], sorted(it["name"] for it in CALLS)
    for form in read("checks/rows/forms_of_calls").splitlines():
        call = json.loads(form.partition(" ")[2].replace("#", "0"))
        flow, it = call.get("flow"), next(it for it in CALLS if it["name"] == call["call"])
        flow_members = next(them["members"] for them in FLOWS if them["name"] == flow["kind"]) if flow else []
        lacks = {*it["members"], *flow_members} - {*call, *(flow or [])}
        allowed = {*it.get("optional", []), *(name for name in flow_members if "missing" in MEMBER[name])}
        allowed |= {other for name, other in instead(it).items() if name in call}
        yield f"checks/rows/forms_of_calls: {form}", lacks - allowed, set()


# Refusals, reasons, statuses and faults


def strings(path, head):
    """The words of the arms of a `match` in a function, by the names of the variants."""
    text = block(path, head, "\n}\n")
    found = {}
    for names, words in re.findall(r"((?:\w+::\w+[^=]*?\|?\s*)+)=>\s*\{?\s*b\"([^\"]*)\"", text):
        found |= {name: words for name in re.findall(r"::(\w+)", names)}
    return found


def meanings():
    """What refusals mean: the words, with # where there is a minislot and the number where there is another."""
    path = "crates/sched_lines/src/meaning.rt"
    before, behind = strings(path, "fn words_before"), strings(path, "fn words_behind")
    told = re.findall(r"Refusal::(\w+) => Some\((\w+) as u64\)", block(path, "fn number_told", "\n}\n"))
    told = {refusal: str(number_of(name)) for refusal, name in told}
    told |= {name: "#" for name in re.findall(r"Refusal::(\w+)\(slot\)", block(path, "fn number_told", "\n}\n"))}
    return {name: words + told.get(name, "") + behind.get(name, "") for name, words in before.items()}


def of_refusals():
    codes, reasons = counted(it["code"] for it in REFUSALS), counted(it["code"] for it in REASONS)
    found = variants("crates/sched_calls/src/reply.rt", "pub enum Refusal {")
    valued = [(it["code"], "(" if "value" in it else "") for it in REFUSALS]
    yield "crates/sched_calls/src/reply.rt: Refusal", found, valued
    found = variants("crates/sched_calls/src/spec.rt", "pub enum FlowFault {")
    yield "crates/sched_calls/src/spec.rt: FlowFault", found, [(it["code"], "") for it in REASONS]
    for path in ("crates/sched_lines/src/line.rt", "crates/history_reading/src/recorded/refusal.rt"):
        yield f"{path}: Refusal", arms(path, "Refusal"), codes
        yield f"{path}: FlowFault", arms(path, "FlowFault"), reasons
    words = {it["code"]: it["words"] for it in REFUSALS if "words" in it}
    yield "crates/sched_lines/src/meaning.rt", meanings(), words
    found = strings("crates/sched_lines/src/meaning.rt", "fn fault_words")
    yield "crates/sched_lines/src/meaning.rt: reasons", found, {it["code"]: it["words"] for it in REASONS}
    count = constants("crates/sched_report/src/calls.rt").get("REFUSALS")
    yield "crates/sched_report/src/calls.rt: REFUSALS", count, len(REFUSALS)
    found = block("crates/file_words/src/walk.rt", "fn is_refusal", "\n}\n")
    values = [number for number, it in enumerate(REFUSALS, 1) if "value" in it and it["code"] != "BadFlow"]
    values = " | ".join(map(str, values))
    for part in (f"reason <= {len(REASONS)},", f"({values}, value)", f"(1..={len(REFUSALS)}, None)"):
        yield f"crates/file_words/src/walk.rt: {part}", part in found, True


def of_words():
    """What the exports say of statuses, in the code and in its contract."""
    code, contract = "crates/mapsched_c/src/words.rt", "crates/mapsched_c/specs/Words.antt"
    wanted = [[it["text"] for it in STATUSES], *map(words_of_group, GROUPS)]
    found = re.findall(r"^static \w+: \[&\[u8\]; \d+\] = \[(.*?)\];", code_of(code), re.M | re.S)
    yield code, [re.findall(r'b"([^"]*)"', it) for it in found], wanted
    found = re.findall(r"^\w+ =\n((?:    .*\n)+)", code_of(contract), re.M)
    found = [re.findall(r'codes "([^"]*)"', it) for it in found if "codes" in it]
    yield contract, found, wanted


def of_faults():
    wanted = {it["name"]: number for number, it in enumerate(STATUSES)} | {it["name"]: it["number"] for it in GROUPS}
    yield "crates/mapsched_c/src/status.rt", constants("crates/mapsched_c/src/status.rt"), wanted
    yield from of_words()
    for path, name, kind in [("fault", "DecodeFault", "payload"), ("map_fault", "MapFault", "map")]:
        found = [it for it, _ in variants(f"crates/map_codec/src/{path}.rt", f"pub enum {name} {{") if it != "Memory"]
        yield f"crates/map_codec/src/{path}.rt", found, [it["code"] for it in TABLES[kind]]
    words = strings("crates/decode_command/src/explained_fault.rt", "fn fault_words")
    for it in TABLES["payload"]:
        wanted = it["words"].partition(" #")[0]
        yield f"crates/decode_command/src/explained_fault.rt: {it['code']}", words.get(it["code"]), wanted
    paths = glob.glob("crates/*/src/fault.rt", root_dir=HERE)
    said = {line for path in paths for line in re.findall(r'#\[error\("([^"\\]*)', code_of(path))}
    said = {re.sub(r" \{\d*\}$", " N", it) for it in said}
    for it in TABLES["input"]:
        yield f"no fault of the code: {it['line']}", it["line"] in said, True
    bases = [int(it["number"]) for it in GROUPS if it.get("faults") != "request"]
    found = re.findall(r"_BAD_CONFIG, _BAD_PAYLOAD, _BAD_MAP = (.*)", read("python/mapsched/faults.py"))
    yield "python/mapsched/faults.py", found, [", ".join(map(str, bases))]


# Documents, and the greatest values in the header


def of_documents():
    found = re.findall(r"(\d+)\s+`(\w+)`", read("README.md").partition("`bad config N`")[2].partition("Their")[0])
    yield "README.md, the fields", found, [(str(number), name) for name, number in counted(NUMBERED)]
    found = re.search(r"\ball but (.*?) (?:is|are) required", read("docs/REFERENCE.md"))
    wanted = [*MISSING, *OBJECTS]
    yield "docs/REFERENCE.md, fields that may be missing", found and re.findall(r"`(\w+)`", found[1]), wanted
    for it in GROUPS:
        found = re.search(rf"`{it['name']}` and 1 to (\d+)", read("docs/C.md"))
        yield f"docs/C.md, {it['name']}", found and int(found[1]), len(words_of_group(it))
    most = {it["name"].upper(): it["range"][1] for it in (*FIELDS, *MEMBERS) if "range" in it}
    most |= {"REQUEST_BYTES": most["BYTES"], "CLOCK": most["NOW"]}
    text = re.sub(r"UINT64_C\((\d+)\)", r"\1", read("include/mapsched.h"))
    for name in ("SID", "PRIORITY", "GRANTS", "CYCLE", "REQUEST_BYTES", "CLOCK", "RECEIVERS", "CALLS"):
        found = re.search(rf"#define MAPSCHED_MAX_{name} (.*)", text)
        yield f"include/mapsched.h, MAPSCHED_MAX_{name}", found and number_of(found[1]), most[name]


def compared():
    """Each comparison: its words, what is found and what the tables say."""
    for part in (of_fields, of_bursts, of_writing, of_tests, of_forms, of_calls, of_refusals, of_faults, of_documents):
        yield from part()
