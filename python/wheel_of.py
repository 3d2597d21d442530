"""Makes the wheel of the module, for pip: the files as they stand, and what a wheel has to tell of them. It stands on
the standard library alone, so that an installation needs neither a network nor a build tool."""

import base64
import hashlib
import os
import re
import zipfile

HERE = os.path.dirname(os.path.abspath(__file__))
NAME = "mapsched"


def read(path):
    with open(os.path.join(HERE, path), "rb") as it:
        return it.read()


def version():
    return re.search(r'^__version__ = "(.*)"$', read("mapsched/__init__.py").decode(), re.M)[1]


def described():
    """What the module is called, and what it needs."""
    words = re.search(r'^description = "(.*)"$', read("pyproject.toml").decode(), re.M)[1]
    python = re.search(r'^requires-python = "(.*)"$', read("pyproject.toml").decode(), re.M)[1]
    lines = ["Metadata-Version: 2.1", f"Name: {NAME}", f"Version: {version()}", f"Summary: {words}"]
    return "\n".join([*lines, f"Requires-Python: {python}", ""])


def record_of(files):
    """The list of the files, each with its digest and its length."""
    lines = []
    for path, content in files.items():
        digest = base64.urlsafe_b64encode(hashlib.sha256(content).digest()).rstrip(b"=").decode()
        lines.append(f"{path},sha256={digest},{len(content)}\n")
    return "".join(lines)


def build_wheel(wheel_directory, config_settings=None, metadata_directory=None):
    about = f"{NAME}-{version()}.dist-info"
    sources = sorted(it for it in os.listdir(f"{HERE}/{NAME}") if it.endswith(".py") or it == "py.typed")
    files = {f"{NAME}/{it}": read(f"{NAME}/{it}") for it in sources}
    wheel = "Wheel-Version: 1.0\nGenerator: mapsched\nRoot-Is-Purelib: true\nTag: py3-none-any\n"
    files |= {f"{about}/METADATA": described().encode(), f"{about}/WHEEL": wheel.encode()}
    files[f"{about}/RECORD"] = (record_of(files) + f"{about}/RECORD,,\n").encode()
    name = f"{NAME}-{version()}-py3-none-any.whl"
    with zipfile.ZipFile(os.path.join(wheel_directory, name), "w", zipfile.ZIP_DEFLATED) as archive:
        for path, content in files.items():
            entry = zipfile.ZipInfo(path)
            entry.compress_type, entry.external_attr = zipfile.ZIP_DEFLATED, 0o644 << 16
            archive.writestr(entry, content)
    return name
