"""The expression language: where a text is no expression, which names it has, and what it comes to."""

from __future__ import annotations

import re
from dataclasses import dataclass
from typing import Callable, Union

Token = Union[int, bool, str, list, dict]

_WORD = re.compile(
    r'(?P<digits>[0-9]+)|(?P<name>[A-Za-z_][A-Za-z0-9_]*)|(?P<string>"(?:[^"\\]|\\["\\ntr])*")'
    r"|(?P<sign><=|>=|==|!=|&&|\|\||[-+*/%<>!?:.(){},=])"
)
_BLANKS = re.compile(r"[ \t\r\n]*")
_LEVELS = (("||",), ("&&",), ("==", "!="), ("<", "<=", ">", ">="), ("+", "-"), ("*", "/", "%"))
_COUNTED = frozenset("- ! * / % + < <= > >= == != && || ? . (".split())
FUNCTIONS = {"abs": 1, "max": 2, "min": 2}
LARGEST = 2**63 - 1


class Fault(Exception):
    """What is wrong, and at which character of the text."""

    def __init__(self, offset: int, reason: str):
        super().__init__(reason)
        self.offset = offset
        self.reason = reason


@dataclass(frozen=True)
class Word:
    kind: str
    text: str
    offset: int


@dataclass(frozen=True)
class Tree:
    """A node of an expression: its kind, its word, and its parts."""

    kind: str
    word: str
    offset: int
    parts: tuple[Tree, ...] = ()


def words_of(text: str) -> list[Word]:
    """The words of a text up to its end, which is a word of its own."""
    found, position = [], _BLANKS.match(text).end()
    while position < len(text):
        match = _WORD.match(text, position)
        if match is None:
            raise Fault(position, _no_word(text, position))
        if match.lastgroup == "name" and len(match[0]) > 64:
            raise Fault(position, "a name has 64 letters at most")
        found.append(Word(match.lastgroup, match[0], position))
        position = _BLANKS.match(text, match.end()).end()
    return found + [Word("end", "", len(text))]


def _no_word(text: str, position: int) -> str:
    if text[position] == '"':
        return 'this text is never closed by a double quote, or has an escape other than \\" \\\\ \\n \\t \\r'
    if text[position] == "'":
        return "a text stands in double quotes"
    if text[position] in "&|":
        return f"'{text[position]}' stands twice: {text[position] * 2}"
    return f"{text[position]!r} begins no word of an expression"


class _Parser:
    """The grammar, one function a form. Open brackets are counted before, so the depth has a bound."""

    def __init__(self, text: str):
        self.words = words_of(text)
        self.number = 0

    @property
    def word(self) -> Word:
        return self.words[self.number]

    def passes(self, *signs: str) -> Word | None:
        """Passes one of these signs if it comes next."""
        word = self.word
        if word.kind == "sign" and word.text in signs:
            self.number += 1
            return word
        return None

    def wants(self, sign: str, after: str) -> None:
        if not self.passes(sign):
            raise Fault(self.word.offset, f"'{sign}' is wanted {after}")

    def whole(self) -> Tree:
        tree = self.expression()
        if self.word.kind != "end":
            raise Fault(self.word.offset, f"an operator is wanted before '{self.word.text}', or the text ends here")
        return tree

    def expression(self) -> Tree:
        condition = self.level(0)
        question = self.passes("?")
        if not question:
            return condition
        first = self.expression()
        self.wants(":", "between the two values of '?'")
        return Tree("choice", "?", question.offset, (condition, first, self.expression()))

    def level(self, number: int) -> Tree:
        if number == len(_LEVELS):
            return self.unary()
        tree = self.level(number + 1)
        while operator := self.passes(*_LEVELS[number]):
            tree = Tree("binary", operator.text, operator.offset, (tree, self.level(number + 1)))
            if _LEVELS[number][0] == "<" and self.word.text in _LEVELS[number]:
                raise Fault(self.word.offset, "comparisons don't follow each other: join them by &&")
        return tree

    def unary(self) -> Tree:
        word = self.passes("-", "!")
        if word is None:
            return self.postfix()
        following, after = self.word, self.words[min(self.number + 1, len(self.words) - 1)]
        if word.text == "-" and following.kind == "digits" and after.text not in ("(", "."):
            self.number += 1
            return self.literal("-" + following.text, word.offset)
        return Tree("unary", word.text, word.offset, (self.unary(),))

    def postfix(self) -> Tree:
        tree = self.primary()
        while True:
            if bracket := self.passes("("):
                tree = Tree("element", "(", bracket.offset, (tree, self.expression()))
                self.wants(")", "after an index")
            elif dot := self.passes("."):
                if self.word.kind != "name":
                    raise Fault(self.word.offset, "the name of a field is wanted after '.'")
                name = self.word
                self.number += 1
                if name.text == "length" and self.word.text == "(" and self.words[self.number + 1].text == ")":
                    self.number += 2
                    tree = Tree("length", "length", dot.offset, (tree,))
                else:
                    tree = Tree("field", name.text, name.offset, (tree,))
            else:
                return tree

    def primary(self) -> Tree:
        word = self.word
        self.number += word.kind != "end"
        if word.kind == "digits":
            return self.literal(word.text, word.offset)
        if word.kind == "string":
            return Tree("string", unquoted(word.text), word.offset)
        if word.kind == "name":
            return self.named(word)
        if word.text == "(":
            tree = self.expression()
            self.wants(")", "here: a bracket is open")
            return tree
        if word.text == "{":
            return self.braces(word)
        self.number -= word.kind != "end"
        what = "where the text ends" if word.kind == "end" else f"before '{word.text}'"
        raise Fault(word.offset, f"a value is wanted {what}")

    def literal(self, digits: str, offset: int) -> Tree:
        if len(digits) > 20 or not -LARGEST - 1 <= int(digits) <= LARGEST:
            raise Fault(offset, "this number has more than 64 bits")
        return Tree("number", digits, offset)

    def named(self, word: Word) -> Tree:
        if word.text in ("true", "false"):
            return Tree("truth", word.text, word.offset)
        if word.text not in FUNCTIONS:
            return Tree("name", word.text, word.offset)
        self.wants("(", f"after the function {word.text}")
        parts = [self.expression()]
        while len(parts) < FUNCTIONS[word.text]:
            self.wants(",", f"here: {word.text} takes two values")
            parts.append(self.expression())
        self.wants(")", f"after the values of {word.text}")
        return Tree("call", word.text, word.offset, tuple(parts))

    def braces(self, word: Word) -> Tree:
        """An array or a record."""
        if self.passes("}"):
            return Tree("array", "{", word.offset)
        if self.word.kind == "name" and self.words[self.number + 1].text == "=":
            return self.record(word)
        parts = [self.expression()]
        while self.passes(","):
            parts.append(self.expression())
        self.wants("}", "after the elements of an array")
        return Tree("array", "{", word.offset, tuple(parts))

    def record(self, word: Word) -> Tree:
        fields: dict[str, Tree] = {}
        while True:
            name = self.word
            if name.kind != "name" or name.text in (*FUNCTIONS, "true", "false"):
                raise Fault(name.offset, "the name of a field is wanted here")
            if name.text in fields:
                raise Fault(name.offset, f"the record has the field '{name.text}' twice")
            self.number += 1
            self.wants("=", "after the name of a field")
            fields[name.text] = self.expression()
            if not self.passes(","):
                break
        self.wants("}", "after the fields of a record")
        return Tree("record", "{", word.offset, tuple(Tree("member", key, part.offset, (part,)) for key, part in fields.items()))


def unquoted(text: str) -> str:
    escapes = {"n": "\n", "t": "\t", "r": "\r"}
    return re.sub(r"\\(.)", lambda match: escapes.get(match[1], match[1]), text[1:-1])


def depth_fault(text: str) -> Fault | None:
    """Where a text passes a limit of expressions: bytes, open brackets or operators."""
    if len(text.encode("utf-8")) > 65536:
        return Fault(0, "an expression has at most 65,536 bytes")
    open_brackets, operators, position = 0, 0, _BLANKS.match(text).end()
    while match := _WORD.match(text, position):
        open_brackets += (match[0] in "({" and match.lastgroup == "sign") - (match[0] in ")}" and match.lastgroup == "sign")
        open_brackets = max(open_brackets, 0)
        operators += match.lastgroup == "sign" and match[0] in _COUNTED
        if open_brackets > 64:
            return Fault(match.start(), "more than 64 brackets are open here")
        if operators > 256:
            return Fault(match.start(), "more than 256 operators and opening brackets")
        position = _BLANKS.match(text, match.end()).end()
    return None


def parse(text: str) -> Tree:
    """The tree of a text, or Fault at the first place where it is no expression."""
    deep = depth_fault(text)
    if deep:
        raise deep
    return _Parser(text).whole()


def names_of(tree: Tree) -> list[tuple[str, int]]:
    """The names in a tree that have to be in scope, and where they stand."""
    found, waiting = [], [tree]
    while waiting:
        part = waiting.pop()
        if part.kind == "name":
            found.append((part.word, part.offset))
        waiting.extend(part.parts)
    return sorted(found, key=lambda pair: pair[1])


def _integer(value: Token, tree: Tree) -> int:
    if isinstance(value, bool) or not isinstance(value, int):
        raise Fault(tree.offset, "a whole number is wanted here")
    return value


def _within(value: int, tree: Tree) -> int:
    if not -LARGEST - 1 <= value <= LARGEST:
        raise Fault(tree.offset, "the result leaves 64 bits")
    return value


def _quotient(a: int, b: int, tree: Tree) -> int:
    if b == 0:
        raise Fault(tree.offset, "this divides by zero")
    return abs(a) // abs(b) * (1 if (a < 0) == (b < 0) else -1)


_NUMBERS: dict[str, Callable[[int, int, Tree], Token]] = {
    "+": lambda a, b, tree: _within(a + b, tree),
    "-": lambda a, b, tree: _within(a - b, tree),
    "*": lambda a, b, tree: _within(a * b, tree),
    "/": lambda a, b, tree: _within(_quotient(a, b, tree), tree),
    "%": lambda a, b, tree: a - b * _quotient(a, b, tree),
    "<": lambda a, b, tree: a < b,
    "<=": lambda a, b, tree: a <= b,
    ">": lambda a, b, tree: a > b,
    ">=": lambda a, b, tree: a >= b,
}


def evaluate(tree: Tree, scope: dict[str, Token]) -> Token:
    """What a tree comes to, or Fault. Kinds are looked at as far as they matter here."""
    if tree.kind == "number":
        return int(tree.word)
    if tree.kind == "truth":
        return tree.word == "true"
    if tree.kind == "string":
        return tree.word
    if tree.kind == "name":
        if tree.word not in scope:
            raise Fault(tree.offset, f"the name '{tree.word}' isn't in scope")
        return scope[tree.word]
    if tree.kind == "array":
        return [evaluate(part, scope) for part in tree.parts]
    if tree.kind == "record":
        return {part.word: evaluate(part.parts[0], scope) for part in tree.parts}
    if tree.kind == "choice":
        return evaluate(tree.parts[1 if evaluate(tree.parts[0], scope) is True else 2], scope)
    if tree.kind == "binary":
        return _binary(tree, scope)
    return _applied(tree, [evaluate(part, scope) for part in tree.parts])


def _binary(tree: Tree, scope: dict[str, Token]) -> Token:
    left = evaluate(tree.parts[0], scope)
    if tree.word in ("&&", "||"):
        return evaluate(tree.parts[1], scope) if left is (tree.word == "&&") else left
    right = evaluate(tree.parts[1], scope)
    if tree.word in ("==", "!="):
        return (left == right) == (tree.word == "==")
    if tree.word == "+" and isinstance(left, str) and isinstance(right, str):
        return left + right
    return _NUMBERS[tree.word](_integer(left, tree), _integer(right, tree), tree)


def _applied(tree: Tree, values: list[Token]) -> Token:
    """An operator, call or postfix form on the values of its parts."""
    if tree.kind == "unary":
        return (not values[0]) if tree.word == "!" else _within(-_integer(values[0], tree), tree)
    if tree.kind == "call":
        numbers = [_integer(value, tree) for value in values]
        return _within(abs(numbers[0]), tree) if tree.word == "abs" else (max if tree.word == "max" else min)(numbers)
    if tree.kind == "length" and isinstance(values[0], (list, str)):
        return len(values[0])
    if tree.kind == "field" and isinstance(values[0], dict) and tree.word in values[0]:
        return values[0][tree.word]
    if tree.kind == "element" and isinstance(values[0], list):
        index = _integer(values[1], tree)
        if not 0 <= index < len(values[0]):
            raise Fault(tree.offset, f"the array has {len(values[0])} elements, counted from 0")
        return values[0][index]
    raise Fault(tree.offset, "a value of another kind is wanted here")
