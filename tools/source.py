"""The code of a crate as tools/mutants needs it: tokens and items.

A clause, a `ghost` item or an attribute is one token that nothing looks into. A type is its text, with the crate before
the name of a declared one: `&[u8]`, `synth::State`."""
import os
import re
from collections import namedtuple

import edits

Token = namedtuple("Token", "kind text start end")
Function = namedtuple("Function", "name owner public method parameters returns open")  # `owner`: the type of its `impl`
Constant = namedtuple("Constant", "name owner public type first behind")

TOKEN = re.compile(r"""(?P<space>\s+|//[^\n]*)|(?P<bytes>b"(?:[^"\\]|\\.)*")|(?P<byte>b'(?:[^'\\]|\\.)[^']*')"""
                   r"""|(?P<text>"[^"]*")|(?P<number>[0-9]\w*)|(?P<name>[A-Za-z_]\w*)|(?P<label>'[a-z_]\w*)"""
                   r"""|(?P<mark><<=|>>=|\.\.=|::|->|=>|==|!=|<=|>=|&&|\|\||<<|>>|[-+*/%&|^]=|\.\.|.)""", re.S)
CLAUSE = re.compile(r"ghost\s+use\b[^;]*;|(?:requires|ensures)\b\s*\*?\s*\w*\s*\{|ghost\b[^{};()]*\{|#!?\[[^\]\n]*\]")
BRACES = re.compile(r'"(?:[^"\\]|\\.)*"|[{}]')
BRACKETS = {"(": ")", "[": "]", "{": "}"}


def clause_end(text, at):
    """the place behind the braces that open at `at`"""
    depth = 0
    for found in BRACES.finditer(text, at):
        depth += {"{": 1, "}": -1}.get(found[0], 0)
        if depth == 0:
            return found.end()
    raise ValueError("a clause without an end")


def tokens(text):
    """the tokens of a file, without blanks and comments"""
    found, at = [], 0
    while at < len(text):
        clause = CLAUSE.match(text, at)
        if clause:
            end = clause_end(text, clause.end() - 1) if clause[0].endswith("{") else clause.end()
            found.append(Token("clause", text[at:end], at, end))
        else:
            token = TOKEN.match(text, at)
            end = token.end()
            if token.lastgroup != "space":
                found.append(Token(token.lastgroup, token[0], at, end))
        at = end
    return found


def pairs(words):
    """for each opening bracket the place of the closing one"""
    closing, opened = {}, []
    for at, token in enumerate(words):
        if token.kind == "mark" and token.text in BRACKETS:
            opened.append(at)
        elif token.kind == "mark" and token.text in BRACKETS.values():
            closing[opened.pop()] = at
    return closing


class File:
    """a file of a crate: its tokens and their brackets"""

    def __init__(self, crate, name):
        self.name = name
        with open(os.path.join(edits.folder(crate), name), encoding="utf-8") as code:
            self.text = code.read()
        self.tokens = tokens(self.text)
        self.closing = pairs(self.tokens)

    def word(self, at):
        return self.tokens[at].text if 0 <= at < len(self.tokens) else ""

    def kind(self, at):
        return self.tokens[at].kind if 0 <= at < len(self.tokens) else ""

    def span(self, first, behind):
        """the places in the text of some tokens"""
        return self.tokens[first].start, self.tokens[behind - 1].end

    def said(self, first, behind):
        """the text of some tokens"""
        start, end = self.span(first, behind)
        return self.text[start:end]

    def plain(self, first, behind):
        """some tokens as one line, without comments"""
        return " ".join(token.text for token in self.tokens[first:behind])

    def behind(self, at):
        """the place behind a token, or behind the bracket that it opens"""
        return self.closing.get(at, at) + 1

    def find(self, words, first, behind):
        """the first of the words at the top level of some tokens; `behind` where there is none"""
        while first < behind and self.word(first) not in words:
            first = self.behind(first)
        return first

    def split(self, mark, first, behind):
        """the parts of some tokens between a mark"""
        while first < behind:
            end = self.find((mark,), first, behind)
            if first < end:
                yield first, end
            first = end + 1


class Crate:
    """the items of a crate"""

    def __init__(self, name):
        self.name, self.structs, self.enums, self.functions, self.constants = name, {}, {}, [], []
        files = [File(name, path) for path in edits.sources(name)]
        self.types = {file.word(at + 1) for file in files for at in range(len(file.tokens))
                      if file.word(at) in ("struct", "enum", "type")}
        for file in files:
            self.items(file, 0, len(file.tokens), None)

    def items(self, file, at, behind, owner):
        kinds = {"struct": self.struct, "enum": self.enum, "const": self.constant, "fn": self.function}
        while at < behind:
            if file.word(at) == "impl":
                body = file.find(("{",), at, behind)
                self.items(file, body + 1, file.closing[body], file.word(at + 1))
                at = file.behind(body)
            elif file.word(at) in kinds:
                at = kinds[file.word(at)](file, at, behind, owner)
            else:
                at = file.behind(at)

    def type(self, file, first, behind, owner=None):
        """a type's text"""
        said = []
        for at in range(first, behind):
            word = file.word(at)
            if word == "Self":
                word = "%s::%s" % (self.name, owner)
            elif word in self.types and file.word(at - 1) != "::":
                word = "%s::%s" % (self.name, word)
            if file.kind(at) != "label":
                said.append(word + " " if word == "mut" else word)
        return "".join(said)

    def fields(self, file, open_, owner):
        """name and type of each field or parameter"""
        for first, end in file.split(",", open_ + 1, file.closing[open_]):
            colon = file.find((":",), first, end)
            yield file.word(colon - 1), self.type(file, colon + 1, end, owner)

    def struct(self, file, at, behind, owner):
        open_ = file.find(("{", "(", ";"), at, behind)
        if file.word(open_) == "{":
            self.structs["%s::%s" % (self.name, file.word(at + 1))] = dict(self.fields(file, open_, owner))
        return file.behind(open_)

    def enum(self, file, at, behind, owner):
        open_ = file.find(("{",), at, behind)
        variants = {}
        for first, end in file.split(",", open_ + 1, file.closing[open_]):
            held = file.split(",", first + 2, end - 1) if first + 1 < end else ()
            variants[file.word(first)] = tuple(self.type(file, *part, owner) for part in held)
        self.enums["%s::%s" % (self.name, file.word(at + 1))] = variants
        return file.behind(open_)

    def constant(self, file, at, behind, owner):
        equals, end = file.find(("=",), at, behind), file.find((";",), at, behind)
        type_, public = self.type(file, at + 3, equals, owner), file.word(at - 1) == "pub"
        self.constants.append((file, Constant(file.word(at + 1), owner, public, type_, equals + 1, end)))
        return end + 1

    def function(self, file, at, behind, owner):
        first, name, open_ = at - 1, file.word(at + 1), file.find(("(",), at, behind)
        while file.word(first) in ("extern", '"C"'):
            first -= 1
        parameters = list(self.fields(file, open_, owner))
        arrow = file.behind(open_)
        body = file.find(("{",), arrow, behind)
        end = next(place for place in range(arrow, body + 1) if place == body or file.kind(place) == "clause")
        returns = self.type(file, arrow + 1, end, owner) if file.word(arrow) == "->" else ""
        public, method = file.word(first) == "pub", bool(parameters) and parameters[0][0] == "self"
        self.functions.append((file, Function(name, owner, public, method, parameters, returns, body)))
        return file.behind(body)


class World:
    """a crate and what it can name of those that it knows"""

    def __init__(self, name):
        self.crates = {known: Crate(known) for known in edits.crates()[name] + [name]}
        self.crate = self.crates[name]
        self.structs, self.enums, self.functions, self.constants = {}, {}, {}, {}
        for crate in self.crates.values():
            self.structs.update(crate.structs)
            self.enums.update(crate.enums)
            for named, items in ((self.functions, crate.functions), (self.constants, crate.constants)):
                for _, item in items:
                    if item.public or crate is self.crate:
                        named["::".join(part for part in (crate.name, item.owner, item.name) if part)] = item

    def full(self, path, owner):
        """a path from its crate on"""
        if path[0] == "Self":
            path = [owner] + path[1:]
        return "::".join(path if path[0] in self.crates and len(path) > 1 else [self.crate.name] + path)

    def short(self, full):
        """a full path as the crate itself writes it"""
        return full.partition("::")[2] if full.startswith(self.crate.name + "::") else full
