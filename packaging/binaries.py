"""What was proved and built, as it is handed out: the program, the static library with the toolchain's C part in it,
and the shared library made of both, without debugging symbols, names of files or times."""

import os
import re
import shutil
import subprocess
import tempfile


class Trouble(Exception):
    """That something is missing, or is not as it has to be."""


def run(*words):
    """Runs a command, and gives what it writes."""
    ran = subprocess.run(words, capture_output=True, encoding="utf-8")
    if ran.returncode != 0:
        raise Trouble(f"{' '.join(words)}: {ran.stderr.strip()}")
    return ran.stdout


def read(path):
    with open(path, "rb") as it:
        return it.read()


def soname(version):
    """The name under which programs look for the shared library: with the part of the version within which its
    interface stays the same (docs/VERSIONS.md)."""
    major, minor, _ = version.split(".")
    return f"libmapsched.so.{major if major != '0' else f'0.{minor}'}"


def toolchain():
    """The folder of the toolchain."""
    return os.path.dirname(run("rt", "doc").strip())


def built(tree, path):
    """What a tree has built, which has to be there."""
    if not os.path.exists(f"{tree}/crates/{path}"):
        raise Trouble(f"{tree}/crates/{path} is missing: it is made by the proof, and by checks/static_library")
    return f"{tree}/crates/{path}"


def stripped(path, *how):
    run("strip", *how, "--remove-section=.comment", "--remove-section=.note", path)
    return read(path)


def program(tree, room):
    """The program."""
    path = f"{room}/mapsched"
    shutil.copy(built(tree, "mapsched/out/mapsched"), path)
    return stripped(path)


def static_library(tree, room):
    """One archive of the library's objects and of those of the toolchain's C part, in this order."""
    path, folder = f"{room}/libmapsched.a", tempfile.mkdtemp(dir=room)
    parts = [built(tree, "mapsched_c/out/libmapsched_c.a"), f"{toolchain()}/c/liblibc_c.a"]
    for part in parts:
        subprocess.run(["ar", "x", part], cwd=folder, check=True)
    names = [name for part in parts for name in run("ar", "t", part).split()]
    if len(set(names)) != len(names):
        raise Trouble(f"two objects have one name: {names}")
    run("ar", "rcD", path, *(f"{folder}/{name}" for name in names))
    stripped(path, "--strip-debug", "--enable-deterministic-archives")
    run("ranlib", "-D", path)
    return read(path)


def shared_library(header, version, room):
    """The same objects as one shared library, which has the functions of the header and shows no other name."""
    path, shown = f"{room}/{soname(version)}", f"{room}/shown"
    names = re.findall(r"^uint32_t (mapsched_\w+)\(", header, re.M)
    with open(shown, "w", encoding="utf-8") as it:
        it.write(f"{{ global: {' '.join(f'{name};' for name in names)} local: *; }};\n")
    words = ["-shared", "-soname", soname(version), f"--version-script={shown}", "--no-undefined", "--gc-sections"]
    words += ["-z", "now", "-z", "relro", "-z", "noexecstack", "--build-id=sha1", "-o", path]
    libc = run("gcc", "-print-file-name=libc.so.6").strip()
    words += ["--whole-archive", f"{room}/libmapsched.a", "--no-whole-archive", libc]
    run(f"{toolchain()}/toolchain/bin/ld.lld", *words)
    content = stripped(path, "--strip-unneeded")
    found = set(re.findall(r" [TWDBV] (\w+)", run("nm", "-D", "--defined-only", path)))
    if found != set(names):
        raise Trouble(f"the shared library shows {sorted(found ^ set(names))}")
    return content


def least_libc(*paths):
    """The oldest version of the C library with which these files run."""
    found = {it for path in paths for it in re.findall(r"GLIBC_([0-9.]+)", run("readelf", "-V", path))}
    return max(found, key=lambda it: [int(part) for part in it.split(".")])
