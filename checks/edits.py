"""A wrong body: a change of the code to another meaning, crates/NAME/must-fail/*.edit."""

import os

import functions
from kit import read


def names_of(folder):
    """The files of a crate's wrong bodies."""
    if not os.path.isdir(f"{folder}/must-fail"):
        return []
    return sorted(it for it in os.listdir(f"{folder}/must-fail") if it.endswith(".edit"))


class Edit:
    """A wrong body: the texts that it changes, and the functions that they stand in."""

    def __init__(self, folder, name):
        self.name, self.pairs, said = name.removesuffix(".edit"), [], {"file": "", "old": ""}
        for line in read(f"{folder}/must-fail/{name}").split("\n"):
            key, _, text = line.partition(":")
            said[key] = text.removeprefix(" ")
            if key == "new":
                self.pairs.append((said["file"], said["old"], said["new"]))
        # None of them where a text stands in no function and gives no constant its value, so that any may be changed.
        found = [functions.those_of(folder, file, old) for file, old, _ in self.pairs]
        self.functions = set().union(*found) if all(found) else set()
        # Those with one proof are not tried together.
        self.places = self.functions | functions.cycles_of(folder, self.pairs)

    def is_inside(self, folder):
        """Whether it changes functions alone; what changes more is tried with no other."""
        return all(functions.function_at(folder, file, old) for file, old, _ in self.pairs)

    def applied(self, folder, texts):
        """The texts of the crate's files with this change too, or None where an old text is not there once."""
        texts = dict(texts)
        for file, old, new in self.pairs:
            if not os.path.isfile(f"{folder}/{file}"):
                return None
            texts[file] = texts.get(file) or read(f"{folder}/{file}")
            if texts[file].count(old) != 1:
                return None
            texts[file] = texts[file].replace(old, new)
        return texts if self.pairs else None
