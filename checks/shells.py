"""What the man page and the completions of words know of the program: under an empty name the words that may stand
first, and under each command its options, those behind which a name of a file belongs with a sign. bash is asked, the
other texts are read. Beside it stands what the program's help has."""

import re

from texts import ended

ASKED = '. {}; COMP_WORDS=(mapsched {} "") COMP_CWORD={}; _mapsched; echo "${{COMPREPLY[*]}}"'


def row_of(text):
    """The names of an option, in whose row the value or the action behind it says whether it wants a file."""
    sign = " FILE" if re.search(r"<FILE>|:_files'| -F ", text) else ""
    return {f"{it}{sign}" for it in re.findall(r"(?<![\w-])--?[A-Za-z]\w*", text.partition("[")[0])}


def whole(known):
    """The commands may stand first, and so may `help`, of which nothing else is compared."""
    known.pop("help", None)
    return {**known, "": known[""] | {"help", *known} - {""}}


def in_the_help(program):
    known, first = {}, program.run(["help"])[1]
    for name in ("", *re.findall(r"^  (\w+) +[A-Z]", first.partition("\nOptions:")[0], re.M)):
        rows = (program.run(["help", name])[1] if name else first).partition("\nOptions:\n")[2]
        known[name] = set().union(*map(row_of, re.findall(r"^ +(-\S.*?)  ", rows, re.M)))
    return whole(known)


def in_the_page(text):
    known = {}
    for title, lines in re.findall(r"^\.S[SH] (.*)\n((?:(?!\.S[SH] ).*\n)*)", text.replace("\\-", "-"), re.M):
        name = title.split()[1] if title.startswith("mapsched ") else ""
        known.setdefault(name, set()).update(*map(row_of, re.findall(r"^\.TP\n\.B (-.*)", lines, re.M)))
    return whole(known) if "help" in known else known


def in_zsh(text):
    first, _, rest = text.partition("  case ")
    cases = dict(re.findall(r"^    (\w+)\)\n(.*?)^      ;;", rest, re.M | re.S))
    known = {name: re.findall(r"^        (.*?'\[.*)", lines, re.M) for name, lines in cases.items()}
    known = {name: set().union(*map(row_of, rows)) for name, rows in known.items() if name != "help"}
    first = known.pop("mapsched") | set(re.findall(r"^    '(\w+):", first, re.M))
    return {**known, "": first}


def in_fish(text):
    known = {}
    for name, words in re.findall(r"^complete -c mapsched -n '?__mapsched_asks ?(\w*)'? (.*)", text, re.M):
        words = re.sub(r"-s (?=\w )", "-", re.sub("-l ", "--", words.partition("-d ")[0]))
        known.setdefault(name, set()).update(row_of(re.sub("-[rx] ", "", words)) - {"-F FILE", "-a"})
        known[name].update(re.findall(r"^-a (\w+) $", words))
    known.pop("help", None)
    return known


def in_bash(path, *words):
    """What bash completes behind these words; names of files where it is nothing."""
    asked = ASKED.format(path, " ".join(f"'{it}'" for it in words), len(words) + 1)
    return set(ended(["bash", "-c", asked])[1].split())
