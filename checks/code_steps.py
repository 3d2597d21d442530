"""Functions in their source, run up to the next step at which other threads can come between, for checks that take the
steps of the code in every order: what a thread is at then is plain data.

It reads what the queue of calls is written in: no closures, and no traits but those that it is told of. Whoever runs
code gives what that calls beyond the functions that were read, and takes its steps among threads."""

import re
from typing import NamedTuple

from code_reading import Reader, tokens


class Function(NamedTuple):
    """A function as steps of a machine with a stack: how many names it has, and which live at each step."""

    name: str
    parameters: int
    count: int
    code: tuple
    live: tuple


class Program:
    """The functions and constants of some files, by the names of their types and their own."""

    def __init__(self, texts, constants):
        self.functions, self.made, self.constants, self.lending, found = {}, {}, {}, set(), []
        for text in texts:
            for name, value in re.findall(r"^(?:pub )?const (\w+): \w+ = (\d+);", text, re.M):
                self.constants[name] = int(value)
            found += self.heads(text)
        self.constants.update({**constants, "SeqCst": ()})
        for owner, name, parameters, body in found:
            full = f"{owner}::{name}" if owner else name
            self.functions[full] = (owner, parameters, body)

    def function(self, name):
        """A function's steps, which are made when it is first called."""
        if name not in self.made:
            owner, parameters, body = self.functions[name]
            self.made[name] = Maker(self, owner).function(name, parameters, Reader(tokens(body), 0).block())
        return self.made[name]

    def heads(self, text):
        """The type, the name, the parameters and the body of each function of a file."""
        owner, lines = "", text.split("\n")
        for at, line in enumerate(lines):
            if line.startswith("impl"):
                owner = re.match(r"impl(?:<[^>]*(?:<[^>]*>)?[^>]*>)? (?:.* for )?(\w+)", line)[1]
            it = re.match(r"( *)(?:pub(?:\(crate\))? )?fn (\w+)", line)
            if not it:
                continue
            start = at if line.endswith(" {") else lines.index(f"{it[1]}{{", at)
            head = " ".join(lines[at : start + 1])
            body = lines[start : lines.index(f"{it[1]}}}", start) + 1]
            body[0] = "{"
            if re.search(r"\(\s*&(?:'\w+ )?mut self", head):
                self.lending.add(it[2])
            yield owner if it[1] else "", it[2], parameters_of(head), "\n".join(body)


def parameters_of(head):
    """The names of a function's parameters, of its first line."""
    words = tokens(head)
    at, depth, found = words.index("fn") + 2, 0, []
    if words[at] == "<":
        reader = Reader(words, at)
        reader.skip("<", ">")
        at = reader.at
    while at < len(words):
        depth += {"(": 1, "<": 1, ")": -1, ">": -1}.get(words[at], 0)
        if not depth:
            return found
        if depth == 1 and (words[at] == "self" or words[at + 1] == ":"):
            found.append(words[at])
        at += 1
    return found


class Maker:
    """Makes the steps of one function."""

    def __init__(self, program, owner):
        self.program, self.owner, self.code, self.count, self.lent = program, owner, [], 0, set()

    def function(self, name, parameters, body):
        scope = {}
        for parameter in parameters:
            self.bind(scope, parameter)
        self.make(body, scope)
        self.emit("return")
        return Function(name, len(parameters), self.count, tuple(map(tuple, self.code)), self.living())

    def emit(self, *step):
        """Puts one more step behind the others, and gives its place."""
        self.code.append(list(step))
        return len(self.code) - 1

    def bind(self, scope, name):
        """A new place for a name."""
        scope[name] = self.count
        self.count += 1
        return scope[name]

    def here(self, *steps):
        """Lets these jumps end here."""
        for step in steps:
            self.code[step][-1] = len(self.code)

    def pattern(self, it, scope):
        """A pattern with the places of its names."""
        kind = it[0]
        if kind == "name":
            return ("name", self.bind(scope, it[1]))
        if kind == "const":
            return ("is", self.program.constants[it[1]])
        if kind == "tuple":
            return ("tuple", tuple(self.pattern(inner, scope) for inner in it[1]))
        if kind == "case":
            return ("case", it[1], tuple(self.pattern(inner, scope) for inner in it[2]))
        if kind == "fields":
            return ("fields", tuple((name, self.pattern(inner, scope)) for name, inner in it[2]))
        return it

    def make(self, it, scope):
        """The steps that put the value of an expression on the stack."""
        getattr(self, f"of_{it[0]}")(scope, *it[1:])

    def of_number(self, scope, value):
        self.emit("push", value)

    def of_name(self, scope, name):
        if name in scope:
            self.emit("load", scope[name])
        elif name in ("true", "false", "None"):
            self.emit("push", {"true": True, "false": False, "None": ("None",)}[name])
        else:
            self.emit("push", self.program.constants[name.split("::")[-1]])

    def of_never(self, scope):
        self.emit("never")

    def of_block(self, scope, statements):
        scope, is_value = dict(scope), False
        for it in statements:
            is_value = it[0] not in ("drop", "let")
            if it[0] == "let":
                self.binding(scope, *it[1:])
            elif is_value:
                self.make(it, scope)
            else:
                self.make(it[1], scope)
                self.emit("pop")
        if not is_value:
            self.emit("push", ())

    def binding(self, scope, pattern, value, other):
        """The steps of a let, with what is done where the value has another form."""
        self.make(value, scope)
        test = self.emit("match", self.pattern(pattern, scope), None)
        if other:
            on = self.emit("jump", None)
            self.here(test)
            self.make(other, scope)
            self.here(on)

    def of_return(self, scope, value):
        self.make(value or ("tuple", []), scope)
        self.emit("return")

    def of_tuple(self, scope, parts):
        for it in parts:
            self.make(it, scope)
        self.emit("tuple", len(parts))

    def of_struct(self, scope, name, fields):
        for _, it in fields:
            self.make(it, scope)
        self.emit("struct", name, tuple(name for name, _ in fields))

    def of_field(self, scope, left, name):
        self.make(left, scope)
        self.emit("field", name)

    def of_one(self, scope, sign, inner):
        self.make(inner, scope)
        if sign == "!":
            self.emit("not")

    def of_both(self, scope, sign, left, right):
        self.make(left, scope)
        if sign in ("&&", "||"):
            self.emit("copy")
            test = self.emit("jump unless" if sign == "&&" else "jump if", None)
            self.emit("pop")
            self.make(right, scope)
            self.here(test)
        else:
            self.make(right, scope)
            self.emit("both", sign)

    def of_lend(self, scope, inner):
        self.lent.add(scope[inner[1]])
        self.emit("lend", scope[inner[1]])

    def of_set(self, scope, left, sign, value):
        self.make(("both", sign, left, value) if sign else value, scope)
        if left[0] == "name":
            self.emit("store", scope[left[1]])
        else:
            self.emit("set field", scope[left[1][1]], left[2])
        self.emit("push", ())

    def of_if(self, scope, test, then, other):
        self.make(test, scope)
        unless = self.emit("jump unless", None)
        self.make(then, scope)
        end = self.emit("jump", None)
        self.here(unless)
        self.make(other, scope)
        self.here(end)

    def of_match(self, scope, value, arms):
        self.make(value, scope)
        ends = []
        for pattern, body in arms:
            inner = dict(scope)
            self.emit("copy")
            test = self.emit("match", self.pattern(pattern, inner), None)
            self.emit("pop")
            self.make(body, inner)
            ends.append(self.emit("jump", None))
            self.here(test)
        self.emit("never")
        self.here(*ends)

    def of_while(self, scope, test, body):
        start = len(self.code)
        self.make(test, scope)
        unless = self.emit("jump unless", None)
        self.make(body, scope)
        self.emit("pop")
        self.emit("jump", start)
        self.here(unless)
        self.emit("push", ())

    def of_for(self, scope, pattern, over, body):
        inner, ends = dict(scope), []
        if over[0] == "range":
            self.make(over[1], scope)
            at = self.bind(inner, "at of a loop")
            self.emit("store", at)
        start = len(self.code)
        if over[0] == "range":
            self.emit("load", at)
            self.make(over[2], inner)
            self.emit("both", "<")
            ends.append(self.emit("jump unless", None))
            self.of_set(inner, ("name", "at of a loop"), "+", ("number", 1))
            self.emit("pop")
        self.make(body, inner)
        self.emit("pop")
        self.emit("jump", start)
        self.here(*ends)
        self.emit("push", ())

    def of_try(self, scope, inner):
        self.make(inner, scope)
        self.emit("try")

    def of_call(self, scope, path, given):
        for it in given:
            self.make(it, scope)
        name = path.replace("Self::", f"{self.owner}::")
        self.emit("call", name, len(given))

    def of_method(self, scope, name, left, given):
        if name in self.program.lending and left[0] == "name":
            self.of_lend(scope, left)
        else:
            self.make(left, scope)
        for it in given:
            self.make(it, scope)
        self.emit("method", name, len(given) + 1)

    def living(self):
        """For each step the places whose values are read behind it, or lent."""
        live, changed = [set(self.lent) for _ in self.code] + [set(self.lent)], True
        while changed:
            changed = False
            for at in reversed(range(len(self.code))):
                kind, *words = self.code[at]
                behind = set() if kind in ("jump", "return", "never") else set(live[at + 1])
                if kind.startswith("jump") or kind == "match":
                    behind |= live[words[-1]] if words[-1] is not None else set()
                if kind in ("store",):
                    behind -= {words[0]}
                if kind == "match":
                    behind -= set(places(words[0]))
                if kind in ("load", "lend", "set field"):
                    behind |= {words[0]}
                behind |= self.lent
                if behind != live[at]:
                    live[at], changed = behind, True
        return tuple(frozenset(it) for it in live)


def places(pattern):
    """The places that a pattern binds."""
    if pattern[0] == "name":
        yield pattern[1]
    for inner in pattern[-1] if pattern[0] in ("tuple", "case", "fields") else ():
        yield from places(inner[1] if pattern[0] == "fields" else inner)


def matches(pattern, value, names):
    """Whether a value has this pattern, whose names are then bound."""
    kind = pattern[0]
    if kind == "name":
        names[pattern[1]] = value
        return True
    if kind == "any":
        return True
    if kind == "is":
        return value == pattern[1]
    if kind == "tuple":
        return all(matches(inner, it, names) for inner, it in zip(pattern[1], value))
    if kind == "case":
        return value[0] == pattern[1] and all(matches(inner, it, names) for inner, it in zip(pattern[2], value[1:]))
    return all(matches(inner, dict(value[1])[name], names) for name, inner in pattern[1])


BOTH = {
    "==": lambda a, b: a == b,
    "!=": lambda a, b: a != b,
    "<": lambda a, b: a < b,
    ">": lambda a, b: a > b,
    "<=": lambda a, b: a <= b,
    ">=": lambda a, b: a >= b,
    "|": lambda a, b: a | b,
    "&": lambda a, b: a & b,
    "<<": lambda a, b: a << b & (1 << 64) - 1,
    "+": lambda a, b: a + b,
    "-": lambda a, b: a - b,
    "*": lambda a, b: a * b,
    "/": lambda a, b: a // b,
    "%": lambda a, b: a % b,
}
WRAP = {"wrapping_add": "+", "wrapping_sub": "-", "wrapping_mul": "*", "saturating_add": "+"}


class Wrong(Exception):
    """That the code does what it never may."""


class Run:
    """A thread's frames, each with a function's name, the place in it, its names and its stack. `outside` tells of what
    it calls beyond the functions that were read whether that is no step among threads, and the value, or the step."""

    def __init__(self, program, outside, frames):
        self.program, self.outside = program, outside
        self.frames = [[name, at, list(names), list(stack)] for name, at, names, stack in frames]

    def kept(self):
        """What the thread is at, without values that it does not read again."""
        found = []
        for name, at, names, stack in self.frames:
            live = self.program.function(name).live[at]
            found.append((name, at, tuple(it if k in live else None for k, it in enumerate(names)), tuple(stack)))
        return tuple(found)

    def enter(self, name, given):
        """Begins a call of a function that was read."""
        function = self.program.function(name)
        if len(given) != function.parameters:
            raise Wrong(f"{name} is given {len(given)}")
        self.frames.append([name, 0, [*given] + [None] * (function.count - len(given)), []])

    def on(self):
        """Goes on up to the next step among threads, and tells it, or None at the end."""
        while self.frames:
            frame = self.frames[-1]
            kind, *words = self.program.function(frame[0]).code[frame[1]]
            frame[1] += 1
            asked = getattr(self, "do_" + kind.replace(" ", "_"))(frame, frame[3], *words)
            if asked is not None:
                return asked
        return None

    def do_push(self, frame, stack, value):
        stack.append(value)

    def do_pop(self, frame, stack):
        stack.pop()

    def do_copy(self, frame, stack):
        stack.append(stack[-1])

    def do_load(self, frame, stack, place):
        stack.append(frame[2][place])

    def do_store(self, frame, stack, place):
        frame[2][place] = stack.pop()

    def do_lend(self, frame, stack, place):
        value = frame[2][place]
        is_lent = isinstance(value, tuple) and value[:1] == ("lent",)
        stack.append(value if is_lent else ("lent", len(self.frames) - 1, place))

    def there(self, value):
        """What is lent, or the value itself."""
        if isinstance(value, tuple) and value[:1] == ("lent",):
            return self.frames[value[1]][2][value[2]]
        return value

    def do_set_field(self, frame, stack, place, name):
        value = frame[2][place]
        names, at = (self.frames[value[1]][2], value[2]) if value[:1] == ("lent",) else (frame[2], place)
        fields = {**dict(names[at][1]), name: stack.pop()}
        names[at] = (names[at][0], tuple(sorted(fields.items())))

    def do_never(self, frame, stack):
        raise Wrong(f"{frame[0]} comes to what is never reached")

    def do_jump(self, frame, stack, to):
        frame[1] = to

    def do_jump_if(self, frame, stack, to):
        if stack.pop():
            frame[1] = to

    def do_jump_unless(self, frame, stack, to):
        if not stack.pop():
            frame[1] = to

    def do_match(self, frame, stack, pattern, other):
        if not matches(pattern, stack.pop(), frame[2]):
            if other is None:
                raise Wrong(f"{frame[0]} binds what has another form")
            frame[1] = other

    def do_tuple(self, frame, stack, count):
        parts = tuple(stack[len(stack) - count :])
        del stack[len(stack) - count :]
        stack.append(parts)

    def do_struct(self, frame, stack, name, fields):
        values = stack[len(stack) - len(fields) :]
        del stack[len(stack) - len(fields) :]
        stack.append((name, tuple(sorted(zip(fields, values)))))

    def do_field(self, frame, stack, name):
        value = self.there(stack.pop())
        fields = value[1] if len(value) > 1 and isinstance(value[1], tuple) else ()
        found = [it for it in fields if isinstance(it, tuple) and it[0] == name]
        stack.append(found[0][1] if found else self.outside(f"{value[0]}.{name}", (value,))[1])

    def do_not(self, frame, stack):
        stack.append(not stack.pop())

    def do_both(self, frame, stack, sign):
        right, left = stack.pop(), stack.pop()
        stack.append(BOTH[sign](left, right))

    def do_try(self, frame, stack):
        value = stack.pop()
        if value[0] in ("None", "Err"):
            self.leave(value)
        else:
            stack.append(value[1])

    def do_return(self, frame, stack):
        self.leave(stack.pop())

    def leave(self, value):
        """Ends the call that was begun last, with this value."""
        self.frames.pop()
        if self.frames:
            self.frames[-1][3].append(value)

    def do_call(self, frame, stack, name, count):
        given = stack[len(stack) - count :]
        del stack[len(stack) - count :]
        if name in self.program.functions:
            self.enter(name, given)
        elif name in ("Some", "Ok", "Err") or name.startswith("Slip::"):
            stack.append((name.split("::")[-1], *given))
        else:
            return self.ask(stack, name, given)

    def do_method(self, frame, stack, name, count):
        given = stack[len(stack) - count :]
        del stack[len(stack) - count :]
        left = self.there(given[0])
        if name in WRAP:
            stack.append(BOTH[WRAP[name]](left, given[1]) % (1 << 64))
        elif name == "trailing_zeros":
            stack.append((left & -left).bit_length() - 1 if left else 64)
        elif name == "count_ones":
            stack.append(bin(left).count("1"))
        elif name in ("is_none", "is_some") and left[0] in ("None", "Some"):
            stack.append((left[0] == "Some") == (name == "is_some"))
        elif f"{left[0]}::{name}" in self.program.functions:
            own = name in self.program.lending
            self.enter(f"{left[0]}::{name}", given if own else [left, *given[1:]])
        else:
            return self.ask(stack, f"{left[0]}::{name}", [left, *given[1:]])

    def ask(self, stack, name, given):
        """A call of what was not read: its value, or a step among threads, whose value comes later."""
        is_here, value = self.outside(name, tuple(given))
        if not is_here:
            return value
        stack.append(value)
        return None
