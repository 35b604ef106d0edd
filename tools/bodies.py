"""A function's body taken apart, for tools/mutants: blocks of statements, matches of arms, conditions, struct literals,
and who is in scope where."""
import re
from collections import namedtuple

Arm = namedtuple("Arm", "bound first behind")  # the names that its pattern binds with their types, and its body
Condition = namedtuple("Condition", "word first behind")
Field = namedtuple("Field", "name type first behind short")  # of a struct literal; `short`: named as its variable

WORDS = {"return", "if", "while", "match", "for", "in", "loop", "else", "let", "mut", "as", "break", "continue"}
LOOPS = {"while", "for", "loop"}
ENDING = LOOPS | {"if", "match"}  # such a statement needs no semicolon
COMPARISONS = ("<", "<=", ">", ">=", "==", "!=")
ARITHMETIC = ("+", "-", "*", "/", "%")
BITS = ("&", "|", "^", "<<", ">>")
LOGIC = ("&&", "||")
OPERATORS = COMPARISONS + ARITHMETIC + BITS + LOGIC
ASSIGNMENTS = {"="} | {mark + "=" for mark in ARITHMETIC + BITS}


def pointed(type_):
    """what a reference's type points to; any other type as it is"""
    return re.sub("^&(mut )?", "", type_)


class Body:
    """the body of a function, or the value of a constant"""

    def __init__(self, file, world, owner):
        self.file, self.world, self.owner = file, world, owner
        self.blocks, self.matches, self.conditions, self.literals, self.returns = [], [], [], [], []
        self.scopes = {}  # of each token of an expression: the variables in scope, with their types
        self.lets = {}  # of each `let`: the names that it binds, and which of them were there before with the same type
        self.patterns, self.types = set(), set()  # tokens of arms' patterns; of types and of names that are declared

    # ---- walking

    def block(self, open_, scope):
        scope, statements = dict(scope), list(self.statements(open_))
        self.blocks.append(statements)
        for first, behind in statements:
            if self.file.word(first) == "let":
                self.let(first, behind, scope)
            else:
                self.expression(first, behind, dict(scope))

    def statements(self, open_):
        """the statements of a block, semicolons included; the last one may be the block's value"""
        file, close = self.file, self.file.closing[open_]
        first = at = open_ + 1
        while at < close:
            word, at = file.word(at), file.behind(at)
            if word == ";" or (word == "{" and self.lead(first) in ENDING and file.word(at) != "else"):
                yield first, at
                first = at
        if first < close:
            yield first, close

    def lead(self, first):
        """the word that says what a statement is"""
        return self.file.word(first + 2 if self.file.kind(first) == "label" else first)

    def let(self, first, behind, scope):
        file, crate = self.file, self.world.crate
        equals = file.find(("=",), first, behind)
        colon, end = file.find((":",), first, equals), file.find(("else", ";"), equals, behind)
        self.types.update(range(first, equals))
        self.expression(equals + 1, behind, dict(scope))
        if colon < equals:
            type_ = crate.type(file, colon + 1, equals, self.owner)
        else:
            type_ = self.type_of(equals + 1, end, scope)
        names = self.bound(first + 1, colon, type_)
        self.lets[first] = names, {name for name in names if name in scope and scope[name] == names[name]}
        scope.update(names)

    def expression(self, at, behind, scope):
        file = self.file
        while at < behind:
            word = file.word(at)
            self.scopes[at] = scope
            if word in ("if", "while", "match", "for"):
                at = self.headed(at, scope)
            elif word == "{" and file.kind(at - 1) == "name" and file.word(at - 1) not in WORDS:
                at = self.literal(at, scope)
            elif word == "{":
                self.block(at, scope)
                at = file.behind(at)
            elif word == "as":
                at = self.cast(at)
            else:
                if word == "return":
                    self.returns.append((at + 1, file.find((";", ","), at, behind)))
                at += 1

    def cast(self, at):
        """the place behind the type of a cast"""
        at += 1
        while self.file.kind(at) == "name" or self.file.word(at) == "::":
            self.types.add(at)
            at += 1
        return at

    def headed(self, at, scope):
        """if, while, for and match: the place behind the head and its block"""
        file, word = self.file, self.file.word(at)
        open_ = file.find(("{", ")"), at, len(file.tokens))
        first, inner = at + 1, dict(scope)
        if file.word(open_) == ")":  # what a pattern of `matches!` asks beside: it has no block
            self.conditions.append(Condition(word, first, open_))
            return first
        if file.word(first) == "let" or word == "for":
            mark = file.find(("=", "in"), first, open_)
            self.types.update(range(first, mark))
            type_ = "usize" if word == "for" else self.type_of(mark + 1, open_, scope)
            inner.update(self.bound(first if word == "for" else first + 1, mark, type_))
            first = mark + 1
        elif word in ("if", "while"):
            self.conditions.append(Condition(word, first, open_))
        self.expression(first, open_, scope)
        if word == "match":
            self.arms(open_, scope)
        else:
            self.block(open_, inner)
        return file.behind(open_)

    def arms(self, open_, scope):
        file, at, close, arms = self.file, open_ + 1, self.file.closing[open_], []
        self.matches.append(arms)
        while at < close:
            arrow = file.find(("=>",), at, close)
            self.patterns.update(range(at, arrow))
            bound, first = self.bound(at, arrow, None), arrow + 1
            behind = file.behind(first) if file.word(first) == "{" else file.find((",",), first, close)
            arms.append(Arm(bound, first, behind))
            self.expression(first, behind, dict(scope, **bound))
            at = behind + (file.word(behind) == ",")

    def literal(self, open_, scope):
        """a struct literal: its fields are noted, and the place behind it is returned"""
        file, fields = self.file, []
        declared = self.world.structs.get(self.world.full(self.path(open_ - 1)[1], self.owner), {})
        for first, behind in file.split(",", open_ + 1, file.closing[open_]):
            name, short = file.word(first), behind == first + 1
            value = first if short or name == ".." else first + 2
            if name != "..":
                fields.append(Field(name, declared.get(name), value, behind, short))
            self.expression(value, behind, scope)
        self.literals.append(fields)
        return file.behind(open_)

    def bound(self, first, behind, type_):
        """the names that a pattern binds, with their types"""
        file = self.file
        if file.word(first) == "mut":
            first += 1
        parts = [(part, type_) for part in file.split("|", first, behind)]
        open_ = file.find(("(",), first, behind)
        if len(parts) == 1 and open_ < behind:
            inner, held = list(file.split(",", open_ + 1, file.closing[open_])), list(self.variant(open_ - 1) or ())
            parts = list(zip(inner, held + [None] * len(inner)))
        elif len(parts) == 1:
            word, single = file.word(first), behind == first + 1
            return {word: type_} if single and re.match("[a-z]", word) and word not in ("true", "false") else {}
        return {name: told for part, its in parts for name, told in self.bound(*part, its).items()}

    # ---- names and types

    def path(self, at):
        """where the path that ends at a token begins, and its parts"""
        first, parts = at, [self.file.word(at)]
        while self.file.word(first - 1) == "::":
            first -= 2
            parts.insert(0, self.file.word(first))
        return first, parts

    def variant(self, at):
        """what the variant holds whose path ends at a token; None where it is no variant"""
        enum, _, name = self.world.full(self.path(at)[1], self.owner).rpartition("::")
        return self.world.enums.get(enum, {}).get(name)

    def is_value(self, statements, place):
        """whether a statement of a block is the block's value"""
        first, behind = statements[place]
        if place < len(statements) - 1 or self.file.word(behind - 1) == ";":
            return False
        return self.lead(first) not in LOOPS | {"if"} or self.file.find(("else",), first, behind) < behind

    def is_variable(self, at):
        """whether a token of an expression is a variable"""
        file = self.file
        return file.word(at) in self.scopes.get(at, ()) and file.word(at - 1) not in (".", "::") \
            and file.word(at + 1) not in ("::", "(", ":")

    def is_binary(self, at):
        """whether an operator has an operand before it"""
        kind, word = self.file.kind(at - 1), self.file.word(at - 1)
        return kind in ("number", "byte", "bytes") or word in (")", "]") or (kind == "name" and word not in WORDS)

    def operators(self, first, behind):
        """the operators at the top level of an expression"""
        while first < behind:
            if self.file.word(first) in OPERATORS + ("as",) and self.is_binary(first):
                yield first
            first = self.file.behind(first)

    def type_of(self, first, behind, scope):
        """the type of an expression, where its form tells it; else None"""
        file, found = self.file, list(self.operators(first, behind))
        words = [file.word(at) for at in found]
        if file.word(first) == "!" or any(word in COMPARISONS + LOGIC for word in words):
            return "bool"
        if found and words[-1] == "as":
            return self.world.crate.type(file, found[-1] + 1, behind, self.owner)
        if found:
            return self.type_of(first, found[0], scope)
        if file.word(first) in ("&", "*"):
            held = self.type_of(first + 1, behind, scope)
            return held and ("&" + held if file.word(first) == "&" else pointed(held))
        at, type_ = self.primary(first, scope)
        while type_ and at < behind:
            at, type_ = self.suffix(at, type_)
        return type_

    def primary(self, first, scope):
        """the place behind what an expression begins with, and its type"""
        file, kind, word = self.file, self.file.kind(first), self.file.word(first)
        if kind == "number":
            return first + 1, re.sub("^[0-9_]*", "", word) or "usize"
        if kind in ("byte", "bytes"):
            return first + 1, "u8" if kind == "byte" else "&[u8]"
        if word in ("true", "false"):
            return first + 1, "bool"
        if word in scope and file.word(first + 1) != "::":
            return first + 1, scope[word]
        if word in ("(", "["):
            close, mark = file.closing[first], file.find((";",), first + 1, file.closing[first])
            held = self.type_of(first + 1, mark, scope)
            return close + 1, held if word == "(" else held and "[%s;%s]" % (held, file.plain(mark + 1, close))
        return self.named(first)

    def named(self, at):
        """the place behind a path and what is called or made by it, and the type of that"""
        file, world = self.file, self.world
        while file.word(at + 1) == "::":
            at += 2
        full, called = world.full(self.path(at)[1], self.owner), file.word(at + 1) == "("
        if called and full in world.functions:
            return file.behind(at + 1), world.functions[full].returns
        if full in world.constants:
            return at + 1, world.constants[full].type
        if self.variant(at) is not None:
            return file.behind(at + 1) if called else at + 1, full.rpartition("::")[0]
        return (file.behind(at + 1), full) if full in world.structs else (at + 1, None)

    def suffix(self, at, type_):
        """the place behind a field, a call or an index, and its type"""
        file, plain, name = self.file, pointed(type_), self.file.word(at + 1)
        if file.word(at) == "[":
            close, held = file.closing[at], re.fullmatch(r"\[(.*?)(;\w+)?\]", plain)
            ranged = file.find(("..", "..="), at + 1, close) < close
            return close + 1, held and ("[%s]" % held[1] if ranged else held[1])
        if file.word(at + 2) == "(":
            called = self.world.functions.get("%s::%s" % (plain, name))
            return file.behind(at + 2), "usize" if name == "len" else called and called.returns
        return at + 2, self.world.structs.get(plain, {}).get(name)
