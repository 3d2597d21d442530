"""Takes the steps of threads that run code in every order: each goes on up to its next step among threads, which takes
place at once. Whoever asks says what a step does to what all threads see; to sleep on a word of a table and to be woken
is told here: a thread sleeps if the low half of its word is the number given, until one wakes it, or for no reason."""

from typing import NamedTuple

from code_steps import Run, Wrong


class Found(NamedTuple):
    """What threads can reach: how many states, whether one of them is lost, what is wrong, and the states in which all
    have ended. A thread is lost where no steps lead to the end of all, but by getting up for no reason."""

    states: int
    is_lost: bool
    wrong: str = ""
    ends: tuple = ()


def put(row, place, value):
    return row[:place] + (value,) + row[place + 1 :]


class Threads:
    """Threads: what each is at by a number, with its frames, the step that it takes next, and whether it sleeps there.
    `world` tells what the code calls beyond itself (`outside`), what a step does (`stepped`) and a word (`word`), and
    which steps go with the one before, since no other thread can take one that bears on them (`quiet`)."""

    def __init__(self, program, world):
        self.program, self.world, self.numbers, self.kept, self.following = program, world, {}, [], {}

    def started(self, name, *given):
        """A thread that calls this function."""
        run = Run(self.program, self.world.outside, [])
        run.enter(name, given)
        return self.on(run)

    def on(self, run):
        asked = run.on()
        return self.number((run.kept(), asked, False))

    def number(self, it):
        if it not in self.numbers:
            self.numbers[it] = len(self.kept)
            self.kept.append(it)
        return self.numbers[it]

    def after(self, thread, told):
        """What a thread is at once its step has told this."""
        if (thread, told) not in self.following:
            run = Run(self.program, self.world.outside, self.kept[thread][0])
            run.frames[-1][3].append(told)
            self.following[thread, told] = self.on(run)
        return self.following[thread, told]

    def asleep(self, thread):
        return self.kept[thread][2]

    def risen(self, at, index):
        """The threads where one that slept goes on."""
        frames, asked, _ = self.kept[at[index]]
        return put(at, index, self.after(self.number((frames, asked, False)), ()))

    def taken(self, state, at, index):
        """The state after the next step of a thread, if it can take one."""
        frames, asked, is_asleep = self.kept[at[index]]
        if asked is None or is_asleep:
            return None
        name, given = asked
        if name == "Steps::park":
            sleeps = self.world.word(state, given[0], given[2]) % (1 << 32) == given[3]
            return state, put(at, index, self.number((frames, asked, True)) if sleeps else self.after(at[index], ()))
        if name == "Steps::wake_one":
            return state, self.woken(put(at, index, self.after(at[index], ())), given)
        found = self.world.stepped(state, index, name, given)
        while found:
            state, told = found
            at = put(at, index, self.after(at[index], told))
            asked = self.kept[at[index]][1]
            if not asked or asked[0] not in self.world.quiet:
                return state, at
            found = self.world.stepped(state, index, *asked)
        return None

    def woken(self, at, word):
        """The threads where one that sleeps on this word goes on, if one does."""
        for index, thread in enumerate(at):
            frames, asked, is_asleep = self.kept[thread]
            if is_asleep and (asked[1][0], asked[1][2]) == word:
                return self.risen(at, index)
        return at

    def next(self, state, at):
        """The states after one step of any thread, and those after one that slept got up for no reason."""
        taken = [self.taken(state, at, index) for index in range(len(at))]
        risen = [(state, self.risen(at, index)) for index, thread in enumerate(at) if self.asleep(thread)]
        return [it for it in taken if it], risen

    def tried(self, start):
        """What the threads can reach, or a part of it where no step is left there, but one has not ended."""
        found, new, ends = {start: ()}, [start], []
        try:
            while new:
                it = new.pop()
                taken, risen = self.next(*it)
                found[it] = taken
                if all(self.kept[thread][1] is None for thread in it[1]):
                    ends.append(it)
                elif not taken:
                    return Found(len(found), True)
                for then in taken + risen:
                    if then not in found:
                        found[then] = ()
                        new.append(then)
        except Wrong as wrong:
            return Found(len(found), True, str(wrong))
        return Found(len(found), not leads_everywhere(found, ends), ends=tuple(ends))


def leads_everywhere(found, ends):
    """Whether from each state steps lead to one of these."""
    before = {it: [] for it in found}
    for it, following in found.items():
        for then in following:
            before[then].append(it)
    leads, new = set(ends), list(ends)
    while new:
        for it in before[new.pop()]:
            if it not in leads:
                leads.add(it)
                new.append(it)
    return len(leads) == len(found)


def changed(texts, pairs):
    """The files with these texts changed, wherever they stand."""
    for old, new in pairs:
        if not any(old in text for text in texts):
            raise SystemExit(f"no file has {old}")
        texts = [text.replace(old, new) for text in texts]
    return texts


def count_rows(rows):
    """Prints each row with whether it holds, and their number, and gives the exit status."""
    failed = count = 0
    for name, holds in rows:
        print(f"{'passed' if holds else 'FAILED'}: {name}", flush=True)
        failed, count = failed + (not holds), count + 1
    print(f"{count - failed} passed, {failed} failed")
    return int(failed > 0)
