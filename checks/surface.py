"""What other crates see of a crate, as its text tells it: functions with clauses, types, constants, definitions."""

import re

import functions
from kit import HERE

PUBLIC = re.compile(r"^( *)(pub )?((?:const |unsafe |extern \"C\" )*)fn (\w+)", re.M)
ITEM = re.compile(r"^pub (?:const )?(struct|enum|union|trait|const|static|type) (\w+)", re.M)
USE = re.compile(r"^pub use ([\w:]+?)(?:::\{([^}]*)\})?;", re.M)
MODULE = re.compile(r"^pub mod (\w+)", re.M)
# A definition, also one in a module: what is indented and has none of these words is a field.
DEFINITION = re.compile(
    r"^(?:(?=\S)|\s+(?=(?:abbrev|unfoldable|(?:pub )?(?:record|data)) ))(?:(?:abbrev|unfoldable) )*(pub )?"
    r"(?:(?:record|data) )?([^\s:(){};=]+)(?: [({].*[)}])? :(?: |$)"
)
CLAUSE = re.compile(r"(?:requires|ensures)(?: \w+)? $")


class Function:
    """A public function: its name with its type's, its file, what is said of it, and its signature with its clauses."""

    def __init__(self, file, owner, found, text):
        self.file, self.name = file, f"{owner}::{found[4]}" if owner else found[4]
        self.told, self.head = told_in(text, found.start()), head_of(text, found)
        self.promises = re.findall(r"^\s*ensures\b", self.head, re.M)


def told_above(lines, at, mark):
    """The lines of the comment with this mark above a line, over the attributes between."""
    said = []
    while at and lines[at - 1].strip().startswith((mark, "#[", ")]")):
        at -= 1
        line = lines[at].strip()
        said += [line.removeprefix(mark).removeprefix(" ")] if line.startswith(mark) else []
    return said[::-1]


def told_in(text, start):
    """The text of the `///` above a place of a text."""
    return "\n".join(told_above(text.split("\n"), text.count("\n", 0, start), "///"))


def head_of(text, found):
    """The signature of a function and its clauses, without the indent of the function."""
    start, depth, at = found.start(), 0, found.end()
    while at < len(text):
        if text.startswith("//", at):
            at = text.index("\n", at)
        letter, before = text[at], text[max(start, at - 60) : at]
        if depth == 0 and (letter == ";" or (letter == "{" and not CLAUSE.search(before))):
            break
        depth += (letter in "([{") - (letter in ")]}")
        at += 1
    lines = text[start:at].rstrip().split("\n")
    return "\n".join(it.removeprefix(found[1]) for it in lines)


def shown_by(texts, module=""):
    """The names of a crate that others can name, each with the module in which it is defined."""
    text, found = texts.get(file_of(module, texts), ""), {}
    for path, names in USE.findall(text):
        parts = [it.strip() for it in names.split(",") if it.strip()] or [path.rpartition("::")[2]]
        inside = (path if names else path.rpartition("::")[0]).removeprefix("self::")
        is_whole = inside.startswith("crate::")
        inside = inside.removeprefix("crate::") if is_whole else "::".join(it for it in (module, inside) if it)
        for name in parts:
            found[name] = shown_by(texts, inside).get(name, inside)
    for name in MODULE.findall(text):
        inside = f"{module}::{name}" if module else name
        if file_of(inside, texts) in texts:
            found |= {it: inside for it in own_names(texts[file_of(inside, texts)])}
    return found | {it: module for it in own_names(text)}


def own_names(text):
    """The public functions, types and constants of a module itself."""
    return {it[4] for it in PUBLIC.finditer(text) if it[2] and not it[1]} | {it[2] for it in ITEM.finditer(text)}


def file_of(module, texts):
    """The file of a module."""
    return f"src/{module.replace('::', '/')}.rt" if module else "src/lib.rt"


def functions_of(folder):
    """The public functions of a crate, in the order of their files."""
    texts = functions.files_of(folder)
    shown = shown_by(texts)
    for file, text in texts.items():
        module = functions.module_of(file)
        for it in PUBLIC.finditer(text):
            block = functions.block_of(text, it) if it[1] else ""
            if not it[1] and it[2] and ("extern" in it[3] or shown.get(it[4]) == module):
                yield Function(file, "", it, text)
            elif block.startswith("pub trait") and owner_of(block) in shown:
                yield Function(file, owner_of(block), it, text)
            elif it[2] and block.startswith("impl") and owner_of(block) in shown:
                yield Function(file, owner_of(block), it, text)


def owner_of(block):
    """The type or the trait of a block of methods."""
    found = functions.IMPL.match(block)
    return found[3] if found else re.match(r"pub trait (\w+)", block)[1]


def items_of(folder):
    """The public types, traits and constants of a crate: the file, the name, what is said of each, and its text."""
    texts = functions.files_of(folder)
    shown = shown_by(texts)
    for file, text in texts.items():
        for it in ITEM.finditer(text):
            if shown.get(it[2]) != functions.module_of(file):
                continue
            line = text[it.start() : text.index("\n", it.start())]
            body = text[it.start() : text.find("\n}", it.start()) + 2] if line.endswith("{") else line
            yield file, it[1], it[2], told_in(text, it.start()), body


def seen_as(folder, name):
    """How contracts see a type, and what they ask of it as of some trait: the ghosts of its impls."""
    for text in functions.files_of(folder).values():
        for it in re.finditer(rf"^impl\b[^\n]* for {name}\b[^\n]* \{{\n(.*?)^\}}", text, re.M | re.S):
            ghosts = re.findall(r"^    ghost (?!use ).*?;$", it[1], re.M | re.S)
            if ghosts:
                yield "\n".join([it[0].split("\n")[0], *ghosts, "}"])


def definitions_of(folder):
    """The definitions of a crate that others may name: the file, the name, and the comment above each."""
    for file, text in functions.files_below(folder, "specs").items():
        lines = text.split("\n")
        for at, line in enumerate(lines):
            found = DEFINITION.match(line)
            if found and found[1]:
                yield file, found[2], " ".join(told_above(lines, at, "--"))


def specs_of(folder):
    """The files of definitions of a crate, without what they use."""
    for file, text in functions.files_below(folder, "specs").items():
        lines = [it for it in text.split("\n") if not re.match(r"(pub )?use ", it)]
        if any(lines):
            yield file, "\n".join(lines).strip("\n")


def said_of(crate):
    """What a crate's root says of the crate."""
    texts = [functions.text_of(f"{HERE}/crates/{crate}", f"src/{root}.rt") for root in ("lib", "main")]
    return "\n".join(it.strip() for it in re.findall(r"^//!(.*)", "".join(texts), re.M))


def about(crate):
    """The first sentence of it."""
    return re.split(r"(?<=\.) (?=[A-Z])", " ".join(said_of(crate).split("\n\n")[0].split()))[0]
