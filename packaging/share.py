"""What the packages have of the program's help under `share`: the man page and the completions of words.
`packaging/share` has the same, for those who use the program where it was built, but for the day of a release in the
man page: `python3 packaging/share.py [PROGRAM]` writes it, of that program's help, or else of the one built here."""

import os
import sys

sys.dont_write_bytecode = True

from completions import COMPLETIONS  # noqa: E402
from pages import program_page  # noqa: E402

HERE = os.path.dirname(os.path.realpath(__file__))
PAGE = "share/man/man1/mapsched.1"


def shared(program, version, day=""):
    """The texts, each with its path."""
    return {PAGE: program_page(program, version, day), **{path: make(program) for path, make in COMPLETIONS.items()}}


def main(program=f"{HERE}/../crates/mapsched/out/mapsched"):
    with open(f"{HERE}/../VERSION", encoding="utf-8") as it:
        version = it.read().strip()
    for path, text in shared(program, version).items():
        os.makedirs(os.path.dirname(f"{HERE}/{path}"), exist_ok=True)
        with open(f"{HERE}/{path}", "w", encoding="utf-8") as it:
            it.write(text)


if __name__ == "__main__":
    main(*sys.argv[1:])
