"""A conversation that is gone on with from its beginning: who makes the same calls again gets the answers that the
journal has, and behind the last of them those of the program, which goes on where the journal ends."""

import json

from client import Fault, Live, answer_in


def entries_of(path):
    """The entries of a journal's whole lines, as they were when it was opened; none where there is no journal."""
    try:
        with open(path, "rb") as journal:
            lines = [line for line in journal if line.endswith(b"\n")]
    except FileNotFoundError:
        return []
    return [json.loads(line) for line in lines[1:]]


class Again(Live):
    """The class `Live` with a journal, for a program that makes the same calls each time."""

    def __init__(self, config, program, journal, **other):
        self._entries, self._made = entries_of(journal), 0
        super().__init__(config, program, journal, **other)

    def made_again(self):
        """How many calls were answered by the journal, and how many more it had."""
        return self._made, len(self._entries) - self._made

    def call(self, call):
        if self._made == len(self._entries):
            return super().call(call)
        entry = self._entries[self._made]
        self._made += 1
        if entry["call"] != call:
            which = "the journal is of another plant (another seed, or other modems?)"
            raise Fault(f"{which}: it has {entry['call']}, not {call}")
        return answer_in(entry["reply"])
