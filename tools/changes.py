"""The small changes of a crate's code that tools/mutants tries. A change puts one stretch of a file in another's place.
Only bodies of functions and values of constants are changed: never contracts, comments, types and signatures."""
import re
from collections import namedtuple

from bodies import ARITHMETIC, ASSIGNMENTS, BITS, COMPARISONS, ENDING, LOGIC, Body, pointed

Change = namedtuple("Change", "kind file place start end text")
CONSTANTS = "constants"  # the place of a change that is in no function
GROUPS = (("comparison", COMPARISONS), ("arithmetic", ARITHMETIC), ("bits", BITS), ("logic", LOGIC))
SAME_BEFORE_ZERO = ({"==", "<="}, {"!=", ">"})  # of numbers without a sign
SAME_BEHIND_ZERO = ({"==", ">="}, {"!=", "<"})
ESCAPES = {r"\r": r"\n", r"\n": r"\r", r"\t": " ", r"\0": "0", r"\\": "/", r"\"": "'", r"\'": '"'}

# Each of these yields kind, first token, the token behind, and the text in their place.


def operators(body):
    """an operator for another of its group"""
    file = body.file
    for at in sorted(body.scopes):
        word = file.word(at)
        same = SAME_BEFORE_ZERO if file.word(at + 1) == "0" else SAME_BEHIND_ZERO if file.word(at - 1) == "0" else ()
        for kind, group in GROUPS:
            if word in group and body.is_binary(at):
                yield from ((kind, at, at + 1, mark) for mark in group if mark != word and {mark, word} not in same)
            elif word in ASSIGNMENTS and word[:-1] in group:
                yield from ((kind, at, at + 1, mark + "=") for mark in group if mark != word[:-1])


def numbers(body):
    """a number off by one, 0 or 1"""
    file = body.file
    for at in sorted(body.patterns | set(body.scopes)):
        number = re.fullmatch(r"([0-9]+)((?:[ui](?:8|16|32|64|size))?)", file.word(at))
        if number and (file.word(at - 1), file.word(at + 1)) != (";", "]"):  # an array's length is its type's
            value = int(number[1])
            for other in sorted({value - 1, value + 1, 0, 1} - {value, -1}):
                yield "number", at, at + 1, "%d%s" % (other, number[2])


def booleans(body):
    """true for false, a condition negated or decided"""
    file = body.file
    for at in sorted(body.scopes):
        if file.word(at) in ("true", "false"):
            yield "boolean", at, at + 1, "false" if file.word(at) == "true" else "true"
        elif file.word(at) == "!":
            yield "negation", at, at + 1, ""
    for word, first, behind in body.conditions:
        if file.word(first) != "!":
            yield "negation", first, behind, "!(%s)" % file.said(first, behind)
        if word == "if":
            yield "branch", first, behind, "true"
            yield "branch", first, behind, "false"


def variables(body):
    """a variable for another of its type"""
    file, short = body.file, {field.first for fields in body.literals for field in fields if field.short}
    for at in sorted(body.scopes):
        if body.is_variable(at):
            word, scope = file.word(at), body.scopes[at]
            for other in sorted(scope):
                if other != word and scope[word] and scope[other] == scope[word]:
                    yield "variable", at, at + 1, "%s: %s" % (word, other) if at in short else other


def items(body):
    """a variant for another of its enum that holds the same, a constant for another of its type beside it"""
    file, world = body.file, body.world
    for at in sorted(body.scopes):
        if file.kind(at) != "name" or body.is_variable(at) or file.word(at - 1) == "." or file.word(at + 1) == "::":
            continue
        full = world.full(body.path(at)[1], body.owner)
        home, _, word = full.rpartition("::")
        variants, constant = world.enums.get(home, {}), world.constants.get(full)
        for other in variants:
            if word in variants and other != word and variants[other] == variants[word]:
                yield "variant", at, at + 1, other
        for other, found in world.constants.items():
            if constant and other != full and other.rpartition("::")[0] == home and found.type == constant.type:
                yield "constant", at, at + 1, found.name


def signature(function):
    return function.method and function.owner, [type_ for _, type_ in function.parameters], function.returns


def called(body, at):
    """where the path of a called function begins, and its full name; None where the token is no such function"""
    file, functions = body.file, body.world.functions
    if file.kind(at) != "name" or file.word(at + 1) != "(":
        return at, None
    if file.word(at - 1) == ".":
        methods = (full for full, found in functions.items() if found.method and found.name == file.word(at))
        return at, next(methods, None)
    first, path = body.path(at)
    full = body.world.full(path, body.owner)
    return first, full if full in functions else None


def callees(body, function):
    """another function with the same parameters and the same result, but not the one that calls"""
    for at in sorted(body.scopes):
        first, full = called(body, at)
        for other, found in body.world.functions.items() if full else ():
            if other != full and found is not function and signature(found) == signature(body.world.functions[full]):
                yield "callee", first, at + 1, found.name if found.method else body.world.short(other)


def literals(body):
    """a byte of a byte string, or a byte literal, changed"""
    file = body.file
    for at in sorted(body.scopes):
        word = file.word(at)
        for found in re.finditer(r"\\x..|\\.|[^\\]", word[2:-1]) if file.kind(at) in ("byte", "bytes") else ():
            other = ESCAPES.get(found[0])
            if len(found[0]) == 1:
                other = chr(ord(found[0]) + (-1 if found[0] in "!&[~" else 1))  # these stand before quotes, \ and DEL
            if other:
                yield file.kind(at), at, at + 1, word[:2 + found.start()] + other + word[2 + found.end():]


def indexes(body):
    """an index, or an end of a range, off by one"""
    file = body.file
    for at in sorted(body.scopes):
        if file.word(at) != "[" or not body.is_binary(at):
            continue
        for first, behind in file.split("..", at + 1, file.closing[at]):
            loose = any(file.word(mark) in COMPARISONS + BITS + LOGIC for mark in body.operators(first, behind))
            text = "(%s)" % file.said(first, behind) if loose else file.said(first, behind)
            if not text.isdigit():  # a number is changed as a number
                yield "index", first, behind, text + " + 1"
                yield "index", first, behind, text + " - 1"


def members(body):
    """another field of the same struct and type"""
    file = body.file
    for at in sorted(body.scopes):
        first = at
        while file.word(first - 1) == ".":
            first -= 2
        if first < at and body.is_variable(first) and file.word(at + 1) != "(":
            struct = body.type_of(first, at - 1, body.scopes[first])
            declared = body.world.structs.get(struct and pointed(struct), {})
            for other in declared:
                if other != file.word(at) and declared[other] == declared.get(file.word(at)):
                    yield "member", at, at + 1, other


def fields(body):
    """a field of a struct literal with the value of another of its type"""
    file = body.file
    for literal in body.literals:
        for one in literal:
            for other in literal:
                same = file.plain(one.first, one.behind) == file.plain(other.first, other.behind)
                if one.type and one.type == other.type and not same:
                    text = file.said(other.first, other.behind)
                    yield "field", one.first, one.behind, "%s: %s" % (one.name, text) if one.short else text


def swapped(file, one, two, comma=""):
    """the text from one stretch of tokens to a later one, with the two exchanged, and a comma behind each if asked"""
    between = file.text[file.span(*one)[1]:file.span(*two)[0]]
    after_one, after_two = ("" if file.word(part[1]) == comma else comma for part in (one, two))
    return file.said(*two) + after_one + between + file.said(*one) + after_two


def arms(body):
    """the bodies of two arms exchanged, where both bind the names that the two use"""
    file = body.file

    def uses(arm):
        words = {file.word(at) for at in range(arm.first, arm.behind) if body.is_variable(at)}
        return {(word, type_) for word, type_ in arm.bound.items() if word in words}

    for match in body.matches:
        for place, one in enumerate(match):
            for two in match[place + 1:]:
                same = file.plain(one.first, one.behind) == file.plain(two.first, two.behind)
                if not same and uses(one) <= set(two.bound.items()) and uses(two) <= set(one.bound.items()):
                    yield "arms", one.first, two.behind, swapped(file, one[1:], two[1:], ",")


class Effects:
    """what a statement does: the variables that it uses and those that it changes or binds, and how it leaves"""

    def __init__(self, body, first, behind):
        file, places = body.file, range(first, behind)
        used = [at for at in places if body.is_variable(at)]
        self.used = {file.word(at) for at in used}
        self.changed = {file.word(at) for at in used if (body.scopes[at][file.word(at)] or "").startswith("&mut")}
        for at in places:
            if file.word(at) in ASSIGNMENTS and at in body.scopes:
                start = max(place for place in range(at) if file.word(place) in (";", "{", "}", "=>"))
                self.changed.update([file.word(root) for root in used if start < root < at][:1])
        self.leaves = {file.plain(*found) for found in body.returns if first <= found[0] < behind}
        self.leaves |= {file.word(at) for at in places if file.word(at) in ("break", "continue")}
        self.bound, self.shadows = (set(names) for names in body.lets.get(first, ((), ())))

    def needs(self, other):
        """whether this one goes by what the other did"""
        return self.used & (other.changed | other.bound) or (self.leaves and other.changed)

    def ordered(self, other):
        """whether it matters which of the two is first"""
        return self.needs(other) or other.needs(self) or (self.leaves and other.leaves and self.leaves != other.leaves)


def statements(body):
    """a statement dropped, and two neighbours exchanged; not where a name would be missing"""
    for block in body.blocks:
        effects = [Effects(body, *statement) for statement in block]
        for place, (first, behind) in enumerate(block):
            one = effects[place]
            if not body.is_value(block, place) and one.bound == one.shadows:
                yield "dropped", first, behind, ""
            if place + 1 < len(block) and not body.is_value(block, place + 1):
                two = effects[place + 1]
                if one.ordered(two) and not two.used & (one.bound - one.shadows):
                    yield "exchanged", first, block[place + 1][1], swapped(body.file, block[place], block[place + 1])


def returns(body):
    """what is returned for what is returned elsewhere in the function, where its names are in scope"""
    file, last, places = body.file, body.blocks[0][-1:], list(body.returns)
    places += [found for found in last if file.word(found[1] - 1) != ";" and body.lead(found[0]) not in ENDING]
    for first, behind in places:
        for other in places:
            names = {file.word(at): body.scopes[at][file.word(at)] for at in range(*other) if body.is_variable(at)}
            same = file.plain(first, behind) == file.plain(*other)
            if not same and names.items() <= body.scopes[first].items():
                yield "return", first, behind, file.said(*other)


def bodies(world):
    """the bodies of the crate's functions and the values of its constants, with their function and their place"""
    for file, function in world.crate.functions:
        body, owner = Body(file, world, function.owner), "%s::%s" % (world.crate.name, function.owner)
        body.block(function.open, {name: type_ or owner for name, type_ in function.parameters})
        yield body, function, function.name
    for file, constant in world.crate.constants:
        body = Body(file, world, constant.owner)
        body.expression(constant.first, constant.behind, {})
        yield body, None, CONSTANTS


def of_body(body, function):
    for kinds in (operators, numbers, booleans, variables, items, literals, indexes, members, fields,
                  arms, statements):
        yield from kinds(body)
    yield from callees(body, function)
    if function:
        yield from returns(body)


def changes(world):
    """every change of a crate's code, each once"""
    found = {}
    for body, function, place in bodies(world):
        for kind, first, behind, text in of_body(body, function):
            start, end = body.file.span(first, behind)
            found.setdefault((body.file.name, start, end, text), Change(kind, body.file, place, start, end, text))
    return list(found.values())
