"""The functions of a crate by the prover's names, as a text tells them, and what stands in for a function's proof."""

import functools
import itertools
import os
import re
import shutil

from kit import read

FUNCTION = re.compile(r"^( *)(?:pub(?:\([a-z]+\))? )?(?:const |extern \"C\" )?fn (\w+)", re.M)
IMPL = re.compile(r"^impl(?:<.*?>)? (?:(?:\w+::)*(\w+)(?:<(\w+)(?:<\w*>)?>)?(?:<.*?>)? for )?(\w+)", re.M)
# A type with its own name, below which its methods go, and what else may have methods.
TYPE = re.compile(r"^(?:pub(?:\([a-z]+\))? )?(?:struct|enum) (\w+)", re.M)
BLOCK = re.compile(r"^(?:impl|(?:pub(?:\([a-z]+\))? )?trait|extern) ?.*", re.M)
CYCLE = re.compile(r"^ *#\[cycle\((\w+)\)\]", re.M)
# An impl whose type, as the prover names it, is one word: what it is given is a lifetime or a parameter.
OF_TYPE = re.compile(r"impl(?:<.*?>)? (?:.* for )?(\w+)(?:<(?:(?:'\w+|[A-Z])(?:, )?)+>)? \{")
CONST = re.compile(r"(?:pub(?:\([a-z]+\))? )?const (\w+):")
# The proof of a function that antt takes on trust, which no verdict does: it has a hole.
STAND_IN = """use Rattle.{crate}.proofs.{stated}.{{statement}}

pub {name}_spec : {{M : Type 1}} → statement M
{name}_spec = ?
"""


def text_of(folder, file):
    """The text of a file of a crate, and none where there is no such file."""
    return read(f"{folder}/{file}") if os.path.isfile(f"{folder}/{file}") else ""


@functools.cache
def heads_in(text):
    """The heads of the functions of a text, as FUNCTION finds them."""
    return list(FUNCTION.finditer(text))


def function_round(text, start, end):
    """The function round a place in a text, as FUNCTION finds it, or None where there is none."""
    above = list(itertools.takewhile(lambda it: it.start() < end, heads_in(text)))
    # A function ends at the first brace that closes in its own column.
    if start < 0 or not above or re.search(rf"^{above[-1][1]}}}", text[above[-1].end() : start], re.M):
        return None
    return above[-1]


def function_at(folder, file, old):
    """The end of the prover's name of the function with this text, or None where none has it."""
    text = text_of(folder, file)
    found = function_round(text, text.find(old), text.find(old) + len(old))
    return found and name_of(file, text, found)


def name_of(file, text, function):
    """The end of the prover's name of a function that was found in the text of a file."""
    if not function[1]:
        module = module_of(file)
        return f"{module}::{function[2]}" if module else function[2]
    # A method goes by its type, wherever the impl stands, with the trait and the type that the trait has behind it.
    impls = [it for it in IMPL.finditer(text) if it.start() < function.start()]
    if not impls:
        return None
    trait = "".join(it for it in impls[-1].group(1, 2) if it and it != "Drop")
    return f"{impls[-1][3]}{trait}::{function[2]}"


def module_of(file):
    """The module that a file of a crate is, and nothing for its root."""
    module = file.removeprefix("src/").removesuffix(".rt").replace("/", "::")
    return "" if module == "lib" else module


def files_below(folder, part):
    """The texts of the files in a part of a crate."""
    paths = [f"{at}/{it}" for at, _, names in os.walk(f"{folder}/{part}") for it in names]
    return {os.path.relpath(it, folder): read(it) for it in sorted(paths)}


def files_of(folder):
    """The texts of a crate's source files."""
    return {file: text for file, text in files_below(folder, "src").items() if file.endswith(".rt")}


def is_of(said, names):
    """Whether the prover's name of a function is one of these, of which each is the end of such a name."""
    return any(f"::{said}".endswith(f"::{it}") for it in names)


def block_of(text, function):
    """The first line of the impl, trait or block of C functions that a method stands in."""
    return next((it[0] for it in reversed(list(BLOCK.finditer(text, 0, function.start())))), "")


def those_of(folder, file, old):
    """The functions that a change of this text of a file changes: the one round it, or those that name a constant."""
    found = function_at(folder, file, old)
    return {found} if found else naming(folder, old)


def naming(folder, old):
    """The functions that name the constant which this text gives its value, none where it is no constant."""
    found, names = CONST.search(old), set()
    for inside, text in files_of(folder).items() if found else ():
        above = [function_round(text, *it.span()) for it in re.finditer(rf"\b{found[1]}\b", text)]
        names |= {name_of(inside, text, it) for it in above if it}
    return names - {None}


def cycle_of(text, function):
    """The cycle of calls that a function's attribute names, or None where it names none."""
    found = CYCLE.search(text[: function.start()].rpartition("\n\n")[2])
    return found and found[1]


def cycles_of(folder, pairs):
    """The cycles of calls that the functions with the texts of these changes are in, by file and name."""
    found = set()
    for file, old, _ in pairs:
        text = text_of(folder, file)
        above = function_round(text, text.find(old), text.find(old) + len(old))
        found |= {f"{file} {cycle_of(text, above)}"} if above and cycle_of(text, above) else set()
    return found


def proved_in(folder):
    """The functions of a crate whose proofs can be stood in for: the file, where it has the function, the prover's name
    of it, the end of that name, and its cycle of calls. Those of a trait's own methods are left out."""
    texts = files_of(folder)
    modules = {it[1]: module_of(file) for file, text in texts.items() for it in TYPE.finditer(text)}
    for file, text in texts.items():
        for it in FUNCTION.finditer(text):
            of_type = OF_TYPE.match(block_of(text, it)) if it[1] else None
            cycle, name = cycle_of(text, it), name_of(file, text, it)
            if not it[1]:
                yield file, it, f"{module_of(file)}::{it[2]}".removeprefix("::"), name, cycle
            elif of_type and not cycle:
                yield file, it, f"{modules.get(of_type[1], module_of(file))}::{name}".removeprefix("::"), name, None


def body_of(text, function):
    """Where the lines of a function's body start and end in a text, or None where it has no lines of its own."""
    # Only the heads and the ends of a function stand in its own column.
    for it in re.compile(rf"^{function[1]}[^ \n].*\n", re.M).finditer(text, function.start()):
        if re.search(r"[;}]\n", it[0]):
            return None
        if it[0].endswith("{\n"):
            return it.end(), re.compile(rf"^{function[1]}}}", re.M).search(text, it.end()).start()
    return None


def stand_in(room, crate, is_kept):
    """Lets the functions of a crate in a room have no bodies, as far as they are not kept, and puts stand-ins in the
    place of their proofs. Those of a cycle of calls are kept together. So no body is read but those of the kept."""
    found = list(proved_in(room))
    kept = {(file, cycle) for file, _, _, name, cycle in found if cycle and is_kept(name)}
    texts = files_of(room)
    for file, function, proof, name, cycle in reversed(found):
        if is_kept(name) or (file, cycle) in kept:
            continue
        span = body_of(texts[file], function)
        # What a constant is made with keeps its body.
        if span and "const fn" not in function[0]:
            texts[file] = f"{texts[file][:span[0]]}{function[1]}    loop {{}}\n{texts[file][span[1]:]}"
        write_stand_in(room, crate, proof)
        if cycle:
            shutil.rmtree(f"{room}/proofs/{module_of(file).replace('::', '/')}/+{cycle}", ignore_errors=True)
    for file, text in texts.items():
        names = {cycle for inside, *_, cycle in found if cycle and inside == file and (file, cycle) not in kept}
        lines = [it for it in text.split("\n") if not any(it.strip() == f"#[cycle({name})]" for name in names)]
        with open(f"{room}/{file}", "w", encoding="utf-8") as it:
            it.write("\n".join(lines))


def write_stand_in(room, crate, name):
    """Puts a stand-in in the place of a function's proof, in the room where the crate is checked."""
    path = name.replace("::", ".")
    folder = f"{room}/proofs/{path.replace('.', '/')}"
    shutil.rmtree(folder, ignore_errors=True)
    os.makedirs(folder)
    with open(f"{folder}/Proof.antt", "w", encoding="utf-8") as it:
        it.write(STAND_IN.format(crate=crate, stated=f"{path}.Statement", name=name.rpartition("::")[2]))
