"""Reads the text of functions as nested tuples: what the queue of calls is written in, which has no closures. Types and
contracts are passed over."""

import re

TOKEN = re.compile(
    r"(?P<skip>\s+|//[^\n]*)|(?P<number>0x[0-9a-f_]+|\d[\d_]*)|(?P<name>'?[A-Za-z_]\w*(?:!(?!=))?)"
    r"|(?P<sign>\.\.|::|=>|->|==|!=|<=|>=|&&|\|\||<<|[|&+*/%-]=|[-+*/%&|<>=!?.,;:(){}\[\]#])"
)
LEVELS = [("||",), ("&&",), ("==", "!=", "<", ">", "<=", ">="), ("|",), ("&",), ("<<",), ("+", "-"), ("*", "/", "%")]
BLOCKS = ("if", "match", "for", "while", "{", "unsafe")


def tokens(text):
    """The words and signs of a text, with an end behind them."""
    found, at = [], 0
    while at < len(text):
        it = TOKEN.match(text, at)
        at = it.end() if it else at + 1
        if it and it.lastgroup != "skip":
            found.append(it[0])
    return found + ["", "", ""]


class Reader:
    """Reads expressions and patterns, as nested tuples."""

    def __init__(self, words, at):
        self.words, self.at = words, at

    def next(self):
        return self.words[self.at]

    def take(self, wanted=None):
        """The next word, which has to be this one, if any is named."""
        word = self.words[self.at]
        if wanted and word != wanted:
            raise SyntaxError(f"{word} where {wanted} stands, behind {' '.join(self.words[self.at - 8 : self.at])}")
        self.at += 1
        return word

    def skip(self, opening, closing):
        """Passes over what stands between two signs that come in pairs."""
        depth = 0
        while True:
            depth += {opening: 1, closing: -1}.get(self.take(), 0)
            if not depth:
                return

    def path(self):
        """A path without what stands in angles."""
        found = [self.take()]
        while self.next() == "::":
            self.take()
            if self.next() == "<":
                self.skip("<", ">")
            else:
                found.append(self.take())
        return "::".join(found[-2:])

    def some(self, what, closing, *words):
        """What stands in a list up to its end."""
        found = []
        while self.next() != closing:
            found.append(what(*words))
            if self.next() != closing:
                self.take(",")
        self.take(closing)
        return found

    def pattern(self):
        """A pattern: of any value, a number, a name, a case, or what has parts."""
        if self.next() in ("mut", "&"):
            self.take()
        if self.next() == "(":
            self.take()
            return ("tuple", self.some(self.pattern, ")"))
        if self.next()[0].isdigit():
            return ("is", int(self.take()))
        path = self.path()
        if self.next() == "(":
            self.take()
            return ("case", path.split("::")[-1], self.some(self.pattern, ")"))
        if self.next() == "{":
            self.take()
            return ("fields", path, self.some(self.field_pattern, "}"))
        if path == "_":
            return ("any",)
        if path == "None":
            return ("case", "None", [])
        return ("const", path) if path.isupper() else ("name", path)

    def field_pattern(self):
        if self.next() == "mut":
            self.take()
        name = self.take()
        if self.next() == ":":
            self.take()
            return name, self.pattern()
        return name, ("name", name)

    def block(self):
        """The statements of a block, of which the last may be its value."""
        self.take("{")
        found = []
        while self.next() != "}":
            if self.next() == ";":
                self.take()
            elif self.next() == "let":
                found.append(self.binding())
            else:
                start = self.next()
                it = self.expression()
                is_value = self.next() != ";"
                if is_value and self.next() != "}" and start not in BLOCKS:
                    raise SyntaxError(f"{self.next()} behind an expression")
                found.append(it if is_value and self.next() == "}" else ("drop", it))
        self.take("}")
        return ("block", found)

    def binding(self):
        """A let, with what stands behind its else."""
        self.take("let")
        pattern = self.pattern()
        if self.next() == ":":
            while self.next() != "=":
                self.take()
        self.take("=")
        value, other = self.expression(), None
        if self.next() == "else":
            self.take()
            other = self.block()
        return ("let", pattern, value, other)

    def expression(self, is_bare=False):
        if self.next() == "return":
            self.take()
            return ("return", None if self.next() in (";", "}", ",") else self.expression())
        left = self.level(0, is_bare)
        if self.next() == "=" or re.fullmatch(r"[|&+*/%-]=", self.next()):
            return ("set", left, self.take()[:-1], self.expression())
        if self.next() == "..":
            self.take()
            return ("range", left, self.level(0, is_bare))
        return left

    def level(self, at, is_bare):
        if at == len(LEVELS):
            return self.cast(is_bare)
        left = self.level(at + 1, is_bare)
        while self.next() in LEVELS[at]:
            left = ("both", self.take(), left, self.level(at + 1, is_bare))
        return left

    def cast(self, is_bare):
        left = self.unary(is_bare)
        while self.next() == "as":
            self.take()
            self.path()
        return left

    def unary(self, is_bare):
        if self.next() in ("!", "*"):
            return ("one", self.take(), self.unary(is_bare))
        if self.next() == "&":
            self.take()
            is_mutable = self.next() == "mut"
            if is_mutable:
                self.take()
            inner = self.unary(is_bare)
            return ("lend", inner) if is_mutable else inner
        return self.behind(self.first(is_bare))

    def behind(self, left):
        """What stands behind a value: fields, calls of methods, and a question mark."""
        while self.next() in (".", "?"):
            if self.take() == "?":
                left = ("try", left)
                continue
            name = self.path()
            if self.next() == "(":
                self.take()
                left = ("method", name, left, self.some(self.expression, ")"))
            else:
                left = ("field", left, name)
        return left

    def first(self, is_bare):
        word = self.next()
        if word[0].isdigit():
            return ("number", int(self.take().replace("_", ""), 0))
        if word == "(":
            self.take()
            if self.next() == ")":
                self.take()
                return ("tuple", [])
            inner = self.expression()
            if self.next() == ")":
                self.take()
                return inner
            self.take(",")
            return ("tuple", [inner] + self.some(self.expression, ")"))
        if word == "unsafe":
            self.take()
        if self.next() == "{":
            return self.block()
        if word in ("if", "match", "for", "while"):
            return getattr(self, f"an_{word}")()
        path = self.path()
        if path == "unreachable!":
            self.take("(")
            self.take(")")
            return ("never",)
        if self.next() == "(":
            self.take()
            return ("call", path, self.some(self.expression, ")"))
        if self.next() == "{" and not is_bare and path[0].isupper():
            self.take()
            return ("struct", path, self.some(self.field_value, "}"))
        return ("name", path)

    def field_value(self):
        name = self.take()
        if self.next() == ":":
            self.take()
            return name, self.expression()
        return name, ("name", name)

    def an_if(self):
        self.take("if")
        pattern = None
        if self.next() == "let":
            self.take()
            pattern = self.pattern()
            self.take("=")
        test, then, other = self.expression(True), self.block(), ("tuple", [])
        if self.next() == "else":
            self.take()
            other = self.an_if() if self.next() == "if" else self.block()
        if pattern:
            return ("match", test, [(pattern, then), (("any",), other)])
        return ("if", test, then, other)

    def an_match(self):
        self.take("match")
        value, arms = self.expression(True), []
        self.take("{")
        while self.next() != "}":
            pattern = self.pattern()
            self.take("=>")
            arms.append((pattern, self.expression()))
            if self.next() == ",":
                self.take()
        self.take("}")
        return ("match", value, arms)

    def an_for(self):
        self.take("for")
        pattern = self.pattern()
        self.take("in")
        return ("for", pattern, self.expression(True), self.block())

    def an_while(self):
        self.take("while")
        return ("while", self.expression(True), self.block())
