"""Packages of Debian, made of files that are held in memory: nothing in them comes from the machine or the hour."""

import email.utils
import gzip
import hashlib
import os
import re
import subprocess
import textwrap

MAINTAINER = "mapsched <mapsched@mapsched.invalid>"
ARCHITECTURE = "amd64"

DESCRIPTIONS = {
    "mapsched": (
        "upstream scheduler of a cable modem termination system",
        "It decides who may send in each minislot of one TDMA channel (DOCSIS 3.0):\n"
        "it takes service flows, requests and clock values, and gives replies,\n"
        "bandwidth allocation MAPs and a history that can be audited. This package\n"
        "has the program, which runs scripts in JSON, draws frames and judges\n"
        "histories. The scheduler is proved against its contracts.",
    ),
    "libmapsched-dev": (
        "upstream scheduler of a cable modem termination system (library)",
        "It decides who may send in each minislot of one TDMA channel (DOCSIS 3.0):\n"
        "it takes service flows, requests and clock values, and gives replies,\n"
        "bandwidth allocation MAPs and a history that can be audited. This package\n"
        "has the header for C and C++, the static and the shared library, and\n"
        "examples. The scheduler is proved against its contracts.",
    ),
}

COPYRIGHT = """Format: https://www.debian.org/doc/packaging-manuals/copyright-format/1.0/
Upstream-Name: mapsched

Files: *
Copyright: the authors of mapsched
License: none-yet
 No licence has been given yet. Until its owner gives one, nobody but the owner
 may copy, change or distribute this software.
"""


def compressed(text):
    """A text as gzip packs it, with no name and no hour."""
    return gzip.compress(text.encode(), 9, mtime=0)


def changelog(package, version, changes, epoch):
    """The changes of the newest version as Debian has them."""
    newest = re.split(r"^## .*\n", changes, flags=re.M)[1]
    items = re.findall(r"^- (.*(?:\n  .*)*)", newest, re.M)
    wrapped = (textwrap.fill(" ".join(it.split()), 78, initial_indent="  * ", subsequent_indent="    ") for it in items)
    hour = email.utils.formatdate(epoch, usegmt=False).replace("-0000", "+0000")
    lines = "\n".join(wrapped)
    return f"{package} ({version}) unstable; urgency=medium\n\n{lines}\n\n -- {MAINTAINER}  {hour}\n"


def control(package, version, size, fields):
    """The fields of a package; the size is that of its files, in kilobytes."""
    about, words = DESCRIPTIONS[package]
    lines = [f"Package: {package}", f"Version: {version}", f"Architecture: {ARCHITECTURE}"]
    lines += [f"Maintainer: {MAINTAINER}", f"Installed-Size: {size}"]
    lines += [f"{name}: {value}" for name, value in fields.items()]
    return "\n".join([*lines, f"Description: {about}", *(f" {line}" for line in words.split("\n")), ""])


def lay(root, files, epoch):
    """Writes files into a folder: bytes with a mode, or the aim of a symbolic link; all of one hour."""
    for path, (content, mode) in sorted(files.items()):
        at = f"{root}/{path}"
        os.makedirs(os.path.dirname(at), exist_ok=True)
        if mode is None:
            os.symlink(content, at)
        else:
            with open(at, "wb") as it:
                it.write(content)
            os.chmod(at, mode)
    for folder, _, names in os.walk(root, topdown=False):
        os.chmod(folder, 0o755)
        for name in [*names, "."]:
            os.utime(f"{folder}/{name}", (epoch, epoch), follow_symlinks=False)


def kilobytes(files):
    """What the files take, each folder a kilobyte, as Debian counts."""
    folders = {os.path.dirname(path) for path in files}
    return sum(1 if mode is None else -(-len(content) // 1024) for content, mode in files.values()) + len(folders)


def sums(files):
    """The digest of each file, but for symbolic links."""
    kept = sorted((path, content) for path, (content, mode) in files.items() if mode)
    return "".join(f"{hashlib.md5(content).hexdigest()}  {path}\n" for path, content in kept)


def build(package, version, files, fields, scripts, epoch, room, out):
    """Makes a package of these files, and gives its name. `scripts` are further files of its control part."""
    root, name = f"{room}/tree_of_{package}", f"{package}_{version}_{ARCHITECTURE}.deb"
    parts = {"control": control(package, version, kilobytes(files), fields), "md5sums": sums(files), **scripts}
    lay(root, {**files, **{f"DEBIAN/{it}": (text.encode(), 0o644) for it, text in parts.items()}}, epoch)
    words = ["dpkg-deb", "--root-owner-group", "-Zxz", "-z9", "--build", root, f"{out}/{name}"]
    subprocess.run(words, check=True, stdout=subprocess.DEVNULL, env={**os.environ, "SOURCE_DATE_EPOCH": str(epoch)})
    return name
