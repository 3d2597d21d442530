"""The toolchain's prover and compiler, called over libraries that were proved in some folder, as `rt ci` calls it."""

import functools
import glob
import os
import subprocess
import tomllib

HERE = os.path.dirname(os.path.dirname(os.path.realpath(__file__)))
# The static library for C, where `rt lib` or checks/static_library made it in this tree.
LIBRARY = f"{HERE}/crates/mapsched_c/out/libmapsched_c.a"
WARNINGS = ["-Wall", "-Wextra", "-Werror"]


def read(path):
    with open(path, encoding="utf-8", errors="replace") as it:
        return it.read()


def tables():
    """What stands in the tables of the repository, under its names there."""
    found = {}
    for path in sorted(glob.glob(f"{HERE}/tables/*.toml")):
        found |= tomllib.loads(read(path))
    return found


def run(folder, *words, **more):
    """Runs a command in a folder, with what it says in one text."""
    how = {"cwd": folder, "stdin": subprocess.DEVNULL, "stdout": subprocess.PIPE, "stderr": subprocess.STDOUT}
    return subprocess.run(words, encoding="utf-8", errors="replace", **how, **more)


@functools.cache
def path():
    """The folder of the toolchain."""
    return os.path.dirname(run(HERE, "rt", "doc").stdout.strip())


def version():
    """The line that the toolchain has for itself."""
    return run(HERE, "rt", "version").stdout.strip()


def crates():
    """What each crate of the repository stands on, by crates.txt."""
    lines = [it.partition(":") for it in read(f"{HERE}/crates.txt").splitlines() if not it.startswith("#")]
    return {crate.split()[0]: words.split() for crate, _, words in lines if crate}


def below_of(crate, stands_on):
    """The crates of the repository that a crate stands on."""
    return {below for it in stands_on.get(crate, []) if it in stands_on for below in [it, *below_of(it, stands_on)]}


def build_of_c(compiler, source, library, made, *flags):
    """Builds the program of a source over the static library."""
    words = [compiler, "-std=c11", *WARNINGS, "-O2", *flags, f"-I{HERE}/include", f"{HERE}/{source}", library]
    return run(HERE, *words, f"{path()}/c/liblibc_c.a", "-pthread", "-o", made)


def program_of_c(name, library, folder):
    """The program of a source in this folder, over the static library, made in that folder."""
    ran = build_of_c(os.environ.get("CC", "gcc"), f"checks/{name}.c", os.path.abspath(library), f"{folder}/{name}")
    print(ran.stdout, end="", flush=True)
    ran.check_returncode()
    return f"{folder}/{name}"


def words_over(built, kit, name, *own):
    """The words behind `rattle check` or `rattle build` for a library, over those that were built in a folder."""
    stands_on = crates()
    below = {it: f"{built}/crates/{it}/out/rlib" for it in sorted(below_of(name, stands_on))}
    rlibs = {it: f"{below.get(it, f'{kit}/rlibs')}/{it}.rlib" for it in ["std", *stands_on[name]]}
    words = ["--crate-name", name, "src/lib.rt", "--links", f"{name}=", *own]
    words += [word for it in rlibs.items() for word in ("--extern", "=".join(it))]
    words += [word for it in [f"{kit}/rlibs", *below.values()] for word in ("-L", f"dependency={it}")]
    words += ["--antt-project", f"{kit}/rattle/logic/antt-project.json", "--logic-built", f"{kit}/logic_built"]
    return words
