"""What the verdict on a wrong body rests on, as a digest, and the verdicts that are kept, in must-fail/digests.md.

A wrong body is refused at its own function, over the contracts of what that calls. So the verdict rests on the wrong
body itself; the bodies that it changes, or all of the crate where it was refused alone, at whichever function; all else
of the crate's sources, its signatures, contracts, types, constants and models, and its specs/; the same of the crates
below, of which no body is seen and no function that only they can name; the toolchain. It does not rest on comments,
blank space, hints on inlining, other bodies and proofs: a proof shows that a right body meets its contract, and makes
no other right."""

import contextlib
import datetime
import hashlib
import json
import os
import re
import shutil
import threading
import time

import functions
import kit
from edits import Edit, names_of
from kit import HERE, read, run

# To be raised where what counts as refused is changed: then no verdict is kept.
WAY = 1
# Of Rattle what parts its words, comments with it, or a text or a character, which stay as they are.
GAP = re.compile(
    r"""(?P<gap>(?:\s|//[^\n]*)+) | (?<!\w)b?r(?P<marks>\#*)".*?"(?P=marks) | b?"(?:\\.|[^"\\])*"
    | b?'(?:\\(?:u\{\w+\}|x\w\w|.)|[^\\'\n])'""",
    re.X | re.S,
)
# Of specs/ a text, or a comment, which begins where a name could.
COMMENT = re.compile(r'"(?:\\.|[^"\\])*"|(?P<comment>(?<!\S)--.*)')
# The attributes and comments right above a function, those of its attributes that only help its proof, and those that
# only help its speed.
ABOVE = re.compile(r"(?:^[ \t]*(?://[^\n]*|#\[(?:[^][]|\[[^][]*\])*\])\n)*\Z", re.M)
HELP = re.compile(r"#\[tactic\((?:[^][]|\[[^][]*\])*\)\]")
HINT = re.compile(r"#\[(?:inline(?:\(\w+\))?|cold)\]")


def commit():
    """The commit that the tree stands on, or nothing where there is none."""
    found = run(HERE, "git", "rev-parse", "HEAD").stdout.strip() if shutil.which("git") else ""
    return found if re.fullmatch("[0-9a-f]{40,}", found) else ""


def digest(*parts):
    """A digest of some texts, the same on every machine."""
    return hashlib.sha256(json.dumps(parts).encode()).hexdigest()[:32]


def plain(text):
    """A text of Rattle without its comments, and one blank where there are some."""
    # A comment that ends before its line does is left, with all else.
    return text if "/*" in text else GAP.sub(lambda it: " " if it["gap"] else it[0], text).strip()


def plain_spec(text):
    """A text of specs/ without its comments and empty lines; the layout of the others has a meaning."""
    if "{-" in text:
        return text
    lines = [COMMENT.sub(lambda it: "" if it["comment"] else it[0], line).rstrip() for line in text.split("\n")]
    return "\n".join(it for it in lines if it)


def is_hidden(text, function):
    """Whether a crate above cannot name a function: it is neither public nor of a trait."""
    is_open = function[0].lstrip().startswith(("pub ", "extern "))
    return not is_open and " for " not in (functions.block_of(text, function) if function[1] else "")


class Part:
    """A function of a crate, with what stands between it and the one above it in its file, as verdicts see them."""

    def __init__(self, text, start, function, name, cycle):
        self.name, self.cycle, self.is_hidden = name, cycle, is_hidden(text, function)
        body, end = functions.body_of(text, function)
        self.end = end + len(function[1]) + 1
        above = ABOVE.search(text[start : function.start()].rpartition("\n\n")[2])[0]
        self.between = plain(text[start : function.start() - len(above)])
        above = HINT.sub("", above)
        self.above, self.body = plain(above), plain(text[body : self.end])
        self.head = plain(HELP.sub("", above) + text[function.start() : body])


class Sources:
    """The sources of a crate, as verdicts see them."""

    def __init__(self, folder):
        texts, of_specs = functions.files_of(folder), functions.files_below(folder, "specs")
        others = {file: text for file, text in functions.files_below(folder, "src").items() if file not in texts}
        self.specs = digest({file: plain_spec(text) for file, text in of_specs.items()}, others)
        self.parts, self.ends = {it: [] for it in texts}, {}
        for file, function, _, name, cycle in functions.proved_in(folder):
            text, parts = texts[file], self.parts[file]
            start = parts[-1].end if parts else 0
            # A macro may have functions in it that are none, so its file stays as it is, as does what makes constants.
            is_seen = "macro_rules!" in text or "const fn" in function[0] or function.start() < start
            if functions.body_of(text, function) and not is_seen:
                parts.append(Part(text, start, function, name, cycle))
        for file, parts in self.parts.items():
            self.ends[file] = plain(texts[file][parts[-1].end if parts else 0 :])
        self.bodiless = self.seen(lambda it: [it.between, it.head])
        self.from_above = self.seen(lambda it: [it.between] if it.is_hidden else [it.between, it.head])
        self.whole = self.seen(lambda it: [it.between, it.above, it.head, it.body])

    def seen(self, texts_of_part):
        """A digest of the texts of all files, with these of each function."""
        found = {file: [it for part in parts for it in texts_of_part(part)] for file, parts in self.parts.items()}
        return digest({file: " ".join(it for it in [*texts, self.ends[file]] if it) for file, texts in found.items()})

    def bodies(self, edit):
        """The functions that a wrong body changes, with what helps to prove them, and the others of their cycles."""
        found = [(file, it) for file, parts in self.parts.items() for it in parts]
        mine = [(file, it) for file, it in found if functions.is_of(it.name, edit.functions)]
        cycles = {(file, it.cycle) for file, it in mine if it.cycle}
        mine += [(file, it) for file, it in found if (file, it.cycle) in cycles and (file, it) not in mine]
        return [(file, it.name, it.above, it.head, it.body) for file, it in mine]


def texts_of(folder):
    """A digest of the texts of a crate that those above it may see, as they are."""
    return digest(functions.files_below(folder, "src"), functions.files_below(folder, "specs"))


def stamps_of(folder):
    """What is another where a text of a crate that those above it may see was changed, and be it back, or is gone."""
    walked = [it for part in ("src", "specs") for it in os.walk(f"{folder}/{part}")]
    found = [(path, os.stat(path)) for at, _, names in walked for path in [f"{at}/{it}" for it in names]]
    return sorted((path, it.st_ino, it.st_size, it.st_mtime_ns, it.st_ctime_ns) for path, it in found)


class Lines:
    """A file with a line for each name and a digest of it, written at once. After a merge a name may have several."""

    def __init__(self, path):
        self.path, self.door = path, threading.Lock()

    def found(self):
        lines = read(self.path).splitlines() if os.path.isfile(self.path) else []
        return {tuple(it.split(" ", 1)) for it in lines if " " in it}

    def has(self, name, *digests):
        return any((name, it) in self.found() for it in digests)

    def has_name(self, name):
        return name in {it for it, _ in self.found()}

    def put(self, name, said, names):
        """Lets the name have this digest alone, or none, and leaves out those that are not among the names."""
        with self.door, contextlib.suppress(OSError):
            old = self.found()
            new = {it for it in old if it[0] != name and it[0] in names} | ({(name, said)} if said else set())
            if new != old:
                os.makedirs(os.path.dirname(self.path), exist_ok=True)
                with open(f"{self.path}.new.md", "w", encoding="utf-8") as file:
                    file.writelines(f"{it} {at}\n" for it, at in sorted(new))
                os.replace(f"{self.path}.new.md", self.path)


class Grounds:
    """What verdicts on the wrong bodies of the crates rest on."""

    def __init__(self):
        self.stands_on, self.toolchain = kit.crates(), kit.version()
        folders = {it: f"{HERE}/crates/{it}" for it in self.stands_on}
        self.sources = {it: Sources(folder) for it, folder in folders.items()}
        self.read = {}
        self.texts = {it: self.texts_in(folder) for it, folder in folders.items()}
        self.seen = {it: self.seen_in(it) for it in self.stands_on}

    def seen_in(self, name):
        """What all verdicts in a crate rest on: the toolchain, its own specs/, and what it sees of those below it."""
        below = [(it, self.sources[it]) for it in sorted(kit.below_of(name, self.stands_on))]
        statements = [(it, self.stands_on[it], at.specs, at.from_above) for it, at in below]
        return digest(WAY, self.toolchain, name, self.stands_on[name], self.sources[name].specs, statements)

    def texts_in(self, folder):
        """The digest of the texts of a crate that those above it may see, read again where they may have changed."""
        stamps = stamps_of(folder)
        if self.read.get(folder, ((), ""))[0] != stamps:
            self.read[folder] = stamps, texts_of(folder)
        return self.read[folder][1]

    def changed(self, name, built):
        """The crates whose texts are not those that digests were made of: a crate here, and those below it, here or in
        the folder where they were built."""
        places = [(it, at) for it in sorted(kit.below_of(name, self.stands_on)) for at in {HERE, built}]
        return {it for it, at in [(name, HERE), *places] if self.texts_in(f"{at}/crates/{it}") != self.texts[it]}

    def together(self, name, edit):
        """The digest of a verdict at the functions that a wrong body changes."""
        it = self.sources[name]
        own = [edit.pairs, sorted(edit.functions), it.bodies(edit), it.bodiless]
        return digest("at its functions", self.seen[name], own)

    def alone(self, name, edit):
        """The digest of a verdict at any function of the crate."""
        return digest("at any function", self.seen[name], edit.pairs, self.sources[name].whole)

    def tree(self, name):
        """The digest of all that can be read where the wrong bodies of a crate are tried, with proofs and comments."""
        crates = sorted({name, *kit.below_of(name, self.stands_on)})
        parts = [(f"{HERE}/crates/{it}", part) for it in crates for part in ("src", "specs", "proofs")]
        texts = [functions.files_below(*it) for it in parts]
        return digest(WAY, self.toolchain, crates, [self.stands_on[it] for it in crates], texts)


class Verdicts:
    """The verdicts on the wrong bodies of a crate: why each is tried in this run, if it is, and those that are kept."""

    def __init__(self, name, grounds):
        self.name, self.grounds, folder = name, grounds, f"{HERE}/crates/{name}"
        self.kept = Lines(f"{folder}/must-fail/digests.md")
        # Those refused in a run of all, so that one that was broken off is taken up where it stood.
        self.whole = Lines(f"{HERE}/out/whole_run/{name}")
        self.edits = {it.name: it for it in (Edit(folder, file) for file in names_of(folder))}
        digests = (grounds.together, grounds.alone)
        self.digests = {it: [of(name, edit) for of in digests] for it, edit in self.edits.items()}
        self.why = {it: self.why_tried(folder, it) for it in self.edits}
        self.trees, self.before = {}, set()

    def why_tried(self, folder, it):
        """Why a wrong body is tried, whichever are drawn, or nothing where its verdict is kept."""
        if not self.edits[it].applied(folder, {}):
            return "cannot be applied"
        if not self.kept.has_name(it):
            return "no digest"
        # One that is tried alone from the first has no verdict at its functions.
        together, alone = self.digests[it]
        mine = (together, alone) if self.edits[it].functions else (alone,)
        return "" if self.kept.has(it, *mine) else "another digest"

    def take_all(self):
        """Has all tried, but for those refused in such a run that was broken off, if nothing at all is changed."""
        tree = self.grounds.tree(self.name)
        self.trees = {it: digest(tree, edit.pairs) for it, edit in self.edits.items()}
        self.before = {it for it, at in self.trees.items() if not self.why[it] and self.whole.has(it, at)}
        self.why = {it: "" if it in self.before else "by --all" for it in self.edits}

    def refuse(self, it, is_alone, built):
        """Keeps the verdict that a wrong body is refused over what was built in a folder."""
        changed = self.grounds.changed(self.name, built)
        if changed:
            print(f"{self.name}/{it}: not kept, since there are other texts now, of {', '.join(changed)}", flush=True)
            return
        self.kept.put(it, self.digests[it][is_alone], self.edits)
        if self.trees:
            self.whole.put(it, self.trees[it], self.edits)

    def forget(self, it):
        """Keeps no verdict on a wrong body."""
        self.kept.put(it, None, self.edits)


def draw(found, seed):
    """Draws a tenth of the wrong bodies whose verdicts are kept, which are tried all the same: others for each seed.
    They are those of a few crates, since the first check in each crate reads all that is below it."""
    kept = {name: [it for it in verdicts.edits if not verdicts.why[it]] for name, verdicts in found.items()}
    wanted = -(-sum(map(len, kept.values())) // 10)
    for name in sorted(kept, key=lambda it: digest(seed, it)):
        drawn = sorted(kept[name], key=lambda it: digest(seed, it))[:wanted]
        found[name].why.update(dict.fromkeys(drawn, "drawn"))
        wanted -= len(drawn)


def seed():
    """The commit, by which wrong bodies are drawn, or the time where there is none."""
    return commit() or str(time.time_ns())


def end_whole_run(many):
    """Notes the day and the commit of a run in which all wrong bodies were tried and refused."""
    of_runs = r"crates/\w+/must-fail/digests\.md|checks/whole_run"
    words = ["git", "status", "--porcelain", "--untracked-files=all", "--", "crates", "crates.txt", "checks"]
    changed = run(HERE, *words).stdout.splitlines() if commit() else []
    with_changes = any(not re.fullmatch(of_runs, it[3:]) for it in changed)
    day = datetime.datetime.now(datetime.timezone.utc).date()
    with open(f"{HERE}/checks/whole_run", "w", encoding="utf-8") as it:
        it.write(f"{day} {commit() or 'no commit'}{' with changes' * with_changes}: {many} wrong bodies, all refused\n")
    shutil.rmtree(f"{HERE}/out/whole_run", ignore_errors=True)
