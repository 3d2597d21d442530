"""What `checks/tables` writes: the texts that follow from the tables of the repository, each a list of lines. Where a
text stands in a file is told at the end, in PARTS and WHOLE."""

import itertools
import re
import textwrap

from kit import tables
from texts import LEFT_OUT, MISSING, PROFILE, UNIFORM, compact, read

TABLES = tables()
FIELDS, CALLS, FLOWS, MEMBERS = (TABLES[it] for it in ("field", "call", "flow", "member"))
REFUSALS, REASONS, STATUSES, GROUPS = (TABLES[it] for it in ("refusal", "reason", "status", "group"))
BURSTS = TABLES["burst"]
NUMBERED = [it["name"] for it in FIELDS if it.get("number", True)]
MEMBER = {it["name"]: it for it in MEMBERS}
# The fields that are objects.
OBJECTS = [it["name"] for it in FIELDS if "bits" not in it]
# The fields that stand behind the others in C, and those of them that go by a flag, since 0 is lawful and another value
# than the missing one.
LIMITS = [it for it in FIELDS if it["name"] in LEFT_OUT and it["bits"] == 32]
FLAGGED = [it["name"] for it in LIMITS if it["range"][0] == 0 and it["missing"] != 0]
# The members of `bursts` that are numbers, and those that are profiles, with their names in C.
SYMBOLS = [it["name"] for it in BURSTS if "bits" in it]
PROFILES = {it["name"]: it["c"] for it in BURSTS if "bits" not in it}
# The base configuration.
BASE = {it["name"]: it["base"] for it in FIELDS if "base" in it}
# The members that are minislots, which the struct of C has as one.
MINISLOTS = [it["name"] for it in MEMBERS if it.get("bits") == 64]
# Whole numbers by their bits, as Python's `struct` has them.
FORMS = {8: "B", 16: "H", 32: "I", 64: "Q"}
WIDTH = 120


def words_of_group(group):
    """The texts of the faults that a group of statuses numbers from 1."""
    return [it["text"] for it in TABLES[group["faults"]]] if "faults" in group else NUMBERED


def class_of(name):
    """A name in words as a name of a type: `best_effort` as `BestEffort`."""
    return "".join(it.title() for it in name.split("_"))


def code(names, between=", "):
    return between.join(f"`{it}`" for it in names)


def quoted(names):
    return [f'"{it}"' for it in names]


def packed(items, most):
    """Items with commas between them, as many in a line as have at most so many characters."""
    lines = []
    for item in items:
        if lines and len(f"{lines[-1]}, {item}") <= most:
            lines[-1] += f", {item}"
        else:
            lines.append(item)
    return lines


def listed(head, items, tail, indent=""):
    """A list between its brackets, in one line or in several."""
    whole = f"{indent}{head}{', '.join(items)}{tail}"
    if len(whole) <= WIDTH:
        return [whole]
    lines = [f"{indent}    {it}," for it in packed(items, WIDTH - len(indent) - 5)]
    return [f"{indent}{head}", *lines, f"{indent}{tail}"]


# docs/REFERENCE.md


def row(*cells):
    return f"| {' | '.join(cells)} |".replace("|  |", "| |")


def table(heads, rows):
    return [row(*heads), "|" + "---|" * len(heads), *itertools.starmap(row, rows)]


def instead(it):
    """The members of a call that may stand in the place of others, with these."""
    return it.get("instead", {})


def values_of(it):
    return it.get("values") or code(it.get("names", [])) or "{} to {}".format(*it["range"])


def together(rows):
    """Rows that follow one another with the same values and meaning."""
    return [[*them] for _, them in itertools.groupby(rows, lambda it: (values_of(it), it["meaning"]))]


def reference_fields():
    rows = []
    for them in together(FIELDS):
        names = [it["name"] for it in them]
        numbers = [str(NUMBERED.index(it) + 1) for it in names if it in NUMBERED]
        examples = [f"none: {it['missing']}" if "missing" in it else str(it.get("base", "none")) for it in them]
        examples = ", ".join(dict.fromkeys(examples))
        meaning = them[0]["meaning"]
        if "instead_of" in them[0]:
            meaning += f", in the place of {code(them[0]['instead_of'], ' and ')}"
        rows.append([", ".join(numbers), code(names), values_of(them[0]), examples, meaning])
    return table(["N", "Field", "Values", "Example", "Meaning"], rows)


def reference_bursts():
    rows = []
    for it in BURSTS:
        missing = f" (may be missing: as `{it['as']}`)" if "as" in it else ""
        rows.append([f"`{it['name']}`{missing}", values_of(it) if "bits" in it else "a profile", it["meaning"]])
    return table(["Member of `bursts`", "Values", "Meaning"], rows)


def reference_profile():
    rows = [[f"`{it['name']}`", values_of(it), it["meaning"]] for it in TABLES["profile"]]
    return table(["Member of a profile", "Values", "Meaning"], rows)


def reference_members(it):
    """The members of a call or a flow, with what is to be said of one."""
    more = {"flow": " (the next table)"}
    more |= {name: f" (may be missing: {member['missing']})" for name, member in MEMBER.items() if "missing" in member}
    more |= {name: f" or `{other}`" for other, name in instead(it).items()}
    return ", ".join(f"`{name}`{more.get(name, '')}" for name in it["members"])


def reference_calls():
    return table(["Call", "Members", "Line"], [[f"`{it['name']}`", reference_members(it), it["line"]] for it in CALLS])


def reference_flows():
    rows = [[f"`{it['name']}`", reference_members(it), it["service"]] for it in FLOWS]
    return table(["Flow (`kind`)", "Members", "Service of the standard"], rows)


def reference_values():
    rows = []
    for them in together(MEMBERS):
        names = [it["name"] for it in them]
        names = code([names[0], names[-1]], " .. ") if len(names) > 2 else code(names)
        rows.append([names, values_of(them[0]), them[0]["meaning"]])
    return table(["Member", "Values", "Meaning"], rows)


def reference_refusals():
    rows = [[str(number), it["when"], code(it["calls"]), it.get("value", "")] for number, it in enumerate(REFUSALS, 1)]
    return table(["No", "Refusal", "Calls", "Value"], rows)


def reference_reasons():
    reasons = "; ".join(f"{number} {it['when']}" for number, it in enumerate(REASONS, 1))
    number = 1 + [it["code"] for it in REFUSALS].index("BadFlow")
    return textwrap.wrap(f"Reasons of refusal {number}, in their order: {reasons}.", WIDTH)


def reference_payload():
    rows = [["`fault hex`", "the text is not hexadecimal"]]
    for number, it in enumerate(TABLES["payload"], 1):
        rows.append([f"`fault {number}{' I' if '#' in it['words'] else ''}`", it["when"]])
    rows.append(["`fault frame N`", f"the first of {TABLES['frame']['when']}"])
    return table(["Line", "When"], rows)


def reference_input():
    return table(["Fault of the input", "When"], [[f"`{it['line']}`", it["when"]] for it in TABLES["input"]])


# include/mapsched.h


def noted(lines, notes, indent):
    """Lines of C with their notes behind them, one below the other."""
    most = 1 + max((len(line) for line, note in zip(lines, notes) if note), default=0)
    return [
        f"{indent}{line.ljust(most)}/* {note} */" if note else f"{indent}{line}" for line, note in zip(lines, notes)
    ]


def enum(name, numbers, notes):
    """An enumeration of C; in one line where nothing has a note."""
    items = [f"MAPSCHED_{it.upper()} = {number}" for it, number in numbers]
    if not any(notes):
        return [f"enum mapsched_{name} {{ {', '.join(items)} }};"]
    lines = [f"{it}," for it in items[:-1]] + items[-1:]
    return [f"enum mapsched_{name} {{", *noted(lines, notes, "  "), "};"]


def in_order(rows):
    return [(it["name"], number) for number, it in enumerate(rows)]


def notes_of(rows):
    return [it.get("note") for it in rows]


def c_counts():
    counts = [("CONFIG_FIELDS", len(NUMBERED))]
    counts += [(f"{it['faults'].upper()}_FAULTS", len(words_of_group(it))) for it in GROUPS if "faults" in it]
    return [f"#define MAPSCHED_{name} {count}" for name, count in counts]


def c_statuses():
    notes = notes_of(STATUSES)
    for it in GROUPS:
        notes.append(it["note"].replace("#", f"{it['number'] + 1} to {it['number'] + len(words_of_group(it))}"))
    return enum("status", in_order(STATUSES) + [(it["name"], it["number"]) for it in GROUPS], notes)


def by_size():
    """The fields but the limits by their sizes."""
    rows = [it for it in FIELDS if it not in LIMITS]
    return [(bits, [it["name"] for it in rows if it.get("bits") == bits]) for bits in (32, 64, 8)]


def limits():
    """The limits as C has them, each with what is to be said of a 0 in it; a flag stands before its limit."""
    told = []
    for it in LIMITS:
        name, missing = it["name"], it["missing"]
        if name in FLAGGED:
            told += [(f"has_{name}", f"0: {name} is not read, and is {missing}"), (name, None)]
        else:
            told.append((name, f"0: {missing}" if missing else None))
    return told


def c_members(kind, names):
    """Members of a struct of C that have the same type."""
    return [f"  {kind} {them};" for them in packed(names, WIDTH - len(f"  {kind} ;"))]


def c_struct(name, *members):
    return [f"struct mapsched_{name} {{", *itertools.chain(*members), "};"]


def c_bursts():
    """The structs of burst descriptors."""
    profiles = c_members("struct mapsched_profile", PROFILES.values())
    notes = [f"{it['c']} may be zeroes: as {PROFILES[it['as']]}" for it in BURSTS if "as" in it]
    profile = c_struct("profile", c_members("uint32_t", PROFILE))
    return [*profile, "", *c_struct("bursts", c_members("uint32_t", SYMBOLS), noted(profiles, notes, ""))]


def c_config():
    members = [c_members(f"uint{bits}_t", names) for bits, names in by_size()]
    for name in OBJECTS:
        note = f"0: {' and '.join(UNIFORM)} are read, and not {name}"
        members += [noted([f"uint32_t has_{name};"], [note], "  "), [f"  struct mapsched_{name} {name};"]]
    members.append(noted([f"uint32_t {name};" for name, _ in limits()], [note for _, note in limits()], "  "))
    return [*c_bursts(), "", *c_struct("config", *members)]


def c_kinds():
    return [*enum("call_kind", in_order(CALLS), notes_of(CALLS)), "", *enum("flow_kind", in_order(FLOWS), [])]


def c_usages():
    usage = MEMBER["usage"]
    return enum("usage", [(it, number) for number, it in enumerate(usage["names"])], usage["notes"])


def c_call():
    lines = []
    for is_shared, places in itertools.groupby(TABLES["place"], lambda it: "shared" in it):
        places = [*places]
        if not is_shared:
            names = [f"uint{it['bits']}_t {', '.join(it['names'])};" for it in places]
            lines += noted(names, notes_of(places), "  ")
            continue
        for it in places:
            names = [f"uint{it['bits']}_t {name};" for name in it["shared"]]
            lines += ["  union {", *noted(names, it["shared"].values(), "    "), "  };"]
    return ["struct mapsched_call {", *lines, "};"]


def c_replies():
    return enum("reply_kind", in_order(TABLES["reply"]), notes_of(TABLES["reply"]))


def c_texts():
    names = ["fields", "faults", "map_faults", "request_faults"]
    lists = {"texts": [it["text"] for it in STATUSES], **dict(zip(names, map(words_of_group, GROUPS)))}
    lines = [listed(f"static const char *const {it}[] = {{", quoted(of), "};", "  ") for it, of in lists.items()]
    return [*itertools.chain(*lines)]


# python/mapsched, and an example that writes the structs of C


def fields_of_struct(kind, names):
    """Members of one type in the fields of a struct of ctypes."""
    head, tail = f"        *((name, {kind}) for name in (", ")),"
    lines = packed(quoted(names), WIDTH - len(head + tail))
    return [f"{head}{them}{tail}" if ", " in them else f"        ({them}, {kind})," for them in lines]


def struct_of_ctypes(name, *fields):
    """A struct of C without unions in ctypes."""
    head = [f"class {class_of(name)}Numbers(Structure):", f'    """struct mapsched_{name}"""', ""]
    return [*head, "    _fields_ = [", *itertools.chain(*fields), "    ]"]


def python_config_numbers():
    profiles = fields_of_struct("ProfileNumbers", PROFILES.values())
    fields = [fields_of_struct(f"c_uint{bits}", names) for bits, names in by_size()]
    for it in OBJECTS:
        fields.append([f'        ("has_{it}", c_uint32),', f'        ("{it}", {class_of(it)}Numbers),'])
    fields.append(fields_of_struct("c_uint32", [name for name, _ in limits()]))
    return [
        *struct_of_ctypes("profile", fields_of_struct("c_uint32", PROFILE)), "", "",
        *struct_of_ctypes("bursts", fields_of_struct("c_uint32", SYMBOLS), profiles), "", "",
        *struct_of_ctypes("config", *fields),
    ]


def python_call_numbers():
    unions, members, names = [], [], []
    for place in TABLES["place"]:
        kind = f"c_uint{place['bits']}"
        if "shared" not in place:
            members += fields_of_struct(kind, place["names"])
            continue
        first, union = next(iter(place["shared"])), f"_{'Or'.join(map(class_of, place['shared']))}"
        fields = [f"({it}, {kind})" for it in quoted(place["shared"])]
        unions += [f"class {union}(Union):", *listed("_fields_ = [", fields, "]", "    "), "", ""]
        members.append(f'        ("_{first}", {union}),')
        names.append(f"_{first}")
    told = "struct mapsched_call, in which the numbers of an opportunity and of a header share the places of others"
    head = ["class CallNumbers(Structure):", f'    """{told}"""', ""]
    names = listed("_anonymous_ = [", quoted(names), "]", "    ")
    return [*unions, *head, *names, "    _fields_ = [", *members, "    ]"]


def dataclass(name, told, members, rest=()):
    """A frozen class with these members, each with its type, and the rest of its lines."""
    told = textwrap.wrap(f'"""{told}"""', WIDTH, initial_indent="    ", subsequent_indent="    ")
    return ["@dataclass(frozen=True)", f"class {name}:", *told, "", *(f"    {it}" for it in members), *rest, "", ""]


def python_fields():
    must = [f"    {name}: int" for name in BASE if name not in UNIFORM]
    missing = {name: f"    {name}: int = {number}" for name, number in MISSING.items()}
    last = [missing.pop(name) for name in LEFT_OUT]
    objects = [f"    {name}: Optional[{class_of(name)}] = None" for name in OBJECTS]
    return [*must, *missing.values(), *(f"    {name}: Optional[int] = None" for name in UNIFORM), *objects, *last]


def python_bursts():
    lines = [f"    {name}: int" for name in SYMBOLS]
    for it in BURSTS:
        if "bits" not in it:
            lines.append(f"    {it['name']}: " + ("Optional[Profile] = None" if "as" in it else "Profile"))
    return lines


def python_profile():
    return [f"    {name}: int" for name in PROFILE]


def typed(it, name):
    """A member of a call or a flow, with its type and what it is where it is not told."""
    kind = {"flow": "Flow", "usage": "str"}.get(name, "int")
    missing = 0 if name in it.get("optional", []) else MEMBER.get(name, {}).get("missing")
    return f"{name}: {kind}" + ("" if missing is None else f" = {missing}")


def python_class(it):
    """The class of a call or a flow. Of two members exactly one is told where one stands in the place of the other;
    those behind have a value too then, which says that they are not told."""
    members, others = [typed(it, name) for name in it["members"]], instead(it)
    name, told, rest = class_of(it["name"]), it["python"], []
    for other, replaced in others.items():
        at = it["members"].index(replaced)
        behind = [f"{member} = _MUST" for member in members[at + 1 :]]
        members = [*members[:at], f"{replaced}: Optional[int] = None", *behind, f"{other}: Optional[int] = None"]
        test = f"        _one_of(self, {', '.join(quoted([replaced, other]))})"
        rest = ["", "    def __post_init__(self) -> None:", test]
    return dataclass(name, told, members, rest)


def python_classes(rows, name):
    lines = [line for it in rows for line in python_class(it)]
    return lines + listed(f"{name} = Union[", [class_of(it["name"]) for it in rows], "]")


def python_calls():
    return [*python_classes(FLOWS, "Flow"), "", "", *python_classes(CALLS, "Call")]


def python_names():
    lines = ["# By the numbers of the header, and by the names in a script."]
    for name, rows in {"_CALLS": CALLS, "_FLOWS": FLOWS}.items():
        lines += listed(f"{name} = {{", [f'"{it["name"]}": {class_of(it["name"])}' for it in rows], "}")
    lines += listed("_USAGES = [", quoted(MEMBER["usage"]["names"]), "]")
    lines += ["# The members that the struct has as `minislot`."]
    lines += listed("_MINISLOTS = {", quoted(MINISLOTS), "}")
    lines += ["# The fields that are not read where there are burst descriptors, and what the struct has for profiles."]
    lines += listed("_NOT_WITH_BURSTS = {", quoted(UNIFORM), "}")
    return lines + listed("_PROFILES = {", [f'"{name}": "{of}"' for name, of in PROFILES.items()], "}")


def exported():
    """What the module takes from `calls.py`."""
    values = ["Bursts", "Call", "Config", "Flow", "Profile", "call_of"]
    return sorted([class_of(it["name"]) for it in (*CALLS, *FLOWS)] + values)


def python_imports():
    return [f"from .calls import {them}" for them in packed(exported(), WIDTH - len("from .calls import "))]


def python_exports():
    others = re.findall(r"^from \.(?!calls\b)\w+ import (.*)$", read("python/mapsched/__init__.py"), re.M)
    names = sorted(exported() + [name for line in others for name in line.split(", ")])
    return listed("__all__ = [", quoted(names), "]")


def python_faults():
    lists = {"_FIELDS": NUMBERED}
    lists |= {f"_{it['faults'].upper()}": words_of_group(it) for it in GROUPS if it.get("faults") in ("payload", "map")}
    return [line for name, words in lists.items() for line in listed(f"{name} = [", quoted(words), "]")]


def python_refusals():
    return [f"    {name} = {number + 1}" for name, number in in_order(REFUSALS)]


def python_values():
    return listed("_WITH_VALUE = {", [str(number) for number, it in enumerate(REFUSALS, 1) if "value" in it], "}")


def example_names():
    (_, words), (_, longs), (_, bytes_) = by_size()
    lists = {"KINDS": [it["name"] for it in CALLS], "FLOWS": [it["name"] for it in FLOWS]}
    lists |= {"USAGES": MEMBER["usage"]["names"], "WORDS": words, "LONGS": longs, "BYTES": bytes_}
    lists |= {"SYMBOLS": SYMBOLS, "PROFILES": PROFILES, "PROFILE": PROFILE, "LIMITS": [name for name, _ in limits()]}
    lines = [line for name, of in lists.items() for line in listed(f"{name} = [", quoted(of), "]")]
    places = []
    for it in TABLES["place"]:
        names = [[it] for it in it["names"]] if "names" in it else [[*it["shared"]]]
        names = [MINISLOTS if them == ["minislot"] else them for them in names]
        places += [f'("{FORMS[it["bits"]]}", [{", ".join(quoted(them))}])' for them in names]
    lines += listed("PLACES = [", places, "]")
    missing = {it["name"]: it["missing"] for it in MEMBERS if "missing" in it}
    config = {**MISSING, **{f"has_{name}": 1 for name in FLAGGED}, **dict.fromkeys(UNIFORM, 0)}
    for name, of in {"CONFIG": config, "FLOW": missing}.items():
        lines += listed(f"MISSING_IN_{name} = {{", [f'"{it}": {number}' for it, number in of.items()], "}")
    return lines


# The tests: the base configuration once for each language, and the meanings of refusals and faults


def base_in_json():
    return [compact(BASE)]


def base_in_c():
    told = "The base configuration of tests, as rows/base_configuration has it, of a scheduler that keeps so many calls"
    told = [f"/* {told};", " * checks/tables writes it. */", "#include <mapsched.h>", ""]
    names = [name for _, names in by_size() for name in names if BASE.get(name)]
    values = [f".{it} = {'(kept)' if it == 'calls' else BASE[it]}" for it in names]
    lines = [f"   {it}, \\" for it in packed(values, WIDTH - len("   , \\"))]
    lines[0], lines[-1] = f"  {{{lines[0].strip()}", lines[-1].replace(", \\", "}")
    return [*told, "#define BASE_CONFIGURATION(kept) \\", *lines]


def meanings_of_refusals():
    lines = ["where a refusal has a minislot, the number sign stands for it"]
    for number, it in enumerate(REFUSALS, 1):
        if it["code"] == "BadFlow":
            lines += [f"refused {number} {reason} => {them['words']}" for reason, them in enumerate(REASONS, 1)]
        else:
            lines.append(f"refused {number}{' #' if 'value' in it else ''} => {it['words']}")
    return lines


def meanings_of_faults():
    lines = ["The number of a fault, or hex or odd for a text that is not hexadecimal, and what it means."]
    lines += [f"{key} => {words}" for key, words in TABLES["hexadecimal"].items()]
    return lines + [f"{number} => {it['words']}" for number, it in enumerate(TABLES["payload"], 1)]


# Files that are written as a whole.
WHOLE = {
    "checks/base_configuration.h": base_in_c,
    "checks/rows/base_configuration": base_in_json,
    "checks/rows/meanings_of_refusals": meanings_of_refusals,
    "checks/rows/meanings_of_faults": meanings_of_faults,
}
# Parts of files, each between two comments.
PARTS = {
    "docs/REFERENCE.md": {
        "fields": reference_fields, "bursts": reference_bursts, "profile": reference_profile,
        "calls": reference_calls, "flows": reference_flows, "members": reference_values,
        "refusals": reference_refusals, "reasons": reference_reasons, "faults of a payload": reference_payload,
        "faults of the input": reference_input,
    },
    "include/mapsched.h": {
        "counts": c_counts, "statuses": c_statuses, "configuration": c_config, "kinds": c_kinds, "usages": c_usages,
        "call": c_call, "replies": c_replies, "texts": c_texts,
    },
    "python/mapsched/__init__.py": {"imports": python_imports, "exports": python_exports},
    "python/mapsched/calls.py": {
        "fields": python_fields, "bursts": python_bursts, "profile": python_profile, "flows and calls": python_calls,
        "names": python_names,
    },
    "python/mapsched/faults.py": {"texts": python_faults},
    "python/mapsched/library.py": {"configuration": python_config_numbers, "call": python_call_numbers},
    "python/mapsched/replies.py": {"refusals": python_refusals, "values": python_values},
    "examples/c/script_to_structs": {"names": example_names},
}
