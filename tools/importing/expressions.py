"""Evaluates expressions of numbers, variables and a few functions, exactly as long as they can be."""

import re
from collections.abc import Callable, Mapping
from fractions import Fraction

from .fixed import BOOLEAN
from .functions import FUNCTIONS, Fault, elementwise, joined, power, product, quotient, ranged
from .values import Matrix, Value, scalar

TOKEN = re.compile(
    r"(?P<number>(?:\d+\.?\d*|\.\d+)(?:[eE][+-]?\d+)?)|(?P<name>[A-Za-z]\w*(?:\.[A-Za-z]\w*)*)"
    r"|(?P<operator>\.\*|\./|\.\^|\.'|==|~=|<=|>=|&&|\|\||[-+*/^'()\[\],;:<>~&|])|(?P<blank>[ \t\r]+|\.\.\.[^\n]*\n)|(?P<line>\n)"
)
CONSTANTS = {"true": scalar(1, BOOLEAN), "false": scalar(0, BOOLEAN), "on": scalar(1), "off": scalar(0)}
RELATIONS: dict[str, Callable] = {
    "==": lambda a, b: a == b, "~=": lambda a, b: a != b, "<": lambda a, b: a < b,
    "<=": lambda a, b: a <= b, ">": lambda a, b: a > b, ">=": lambda a, b: a >= b,
}  # fmt: skip
DEEPEST = 60
LONGEST = 200_000


class Unknown(Fault):
    """A name that has no value."""


def tokens(text: str) -> list[tuple[str, str, bool]]:
    """Kind and text of each token, and whether a blank stands before it."""
    if len(text) > LONGEST:
        raise Fault(f"{len(text)} characters, at most {LONGEST}")
    found, place, blank = [], 0, False
    while place < len(text):
        if text[place] == "'" and not (found and not blank and (found[-1][0] in ("number", "name") or found[-1][1] in ")]'")):
            quoted = re.compile(r"'((?:[^'\n]|'')*)'").match(text, place)
            if not quoted:
                raise Fault("a quote without an end")
            found.append(("string", quoted[1].replace("''", "'"), blank))
            place, blank = quoted.end(), False
            continue
        token = TOKEN.match(text, place)
        if not token:
            raise Fault(f"the character {text[place]!r}")
        if token.lastgroup == "blank":
            blank = True
        else:
            found.append(("operator" if token.lastgroup == "line" else token.lastgroup or "", ";" if token.lastgroup == "line" else token[0], blank))
            blank = False
        place = token.end()
    return found


class Parser:
    """Evaluates as it reads. `depth` counts what is open, `lists` whether a blank parts elements."""

    def __init__(self, text: str, names: Mapping[str, Value]):
        self.tokens, self.place, self.names = tokens(text), 0, names
        self.depth, self.lists = 0, False

    def now(self) -> str:
        """The operator here, or nothing."""
        here = self.tokens[self.place] if self.place < len(self.tokens) else ("", "", False)
        return here[1] if here[0] == "operator" else ""

    def parts(self) -> bool:
        """Whether the sign here begins a new element of a list, as in `[1 -2]`."""
        after = self.tokens[self.place + 1 : self.place + 2]
        return self.lists and self.tokens[self.place][2] and bool(after) and not after[0][2]

    def take(self, *operators: str) -> str:
        found = self.now()
        if found and found in operators:
            self.place += 1
            return found
        return ""

    def expect(self, operator: str) -> None:
        if not self.take(operator):
            raise Fault(f"{operator!r} is missing")

    def whole(self) -> Value:
        value = self.expression()
        if self.place < len(self.tokens):
            raise Fault(f"{self.tokens[self.place][1]!r} can't stand there")
        return value

    def expression(self) -> Value:
        self.depth += 1
        if self.depth > DEEPEST:
            raise Fault(f"more than {DEEPEST} deep")
        value = self.related()
        self.depth -= 1
        return value

    def related(self) -> Value:
        value = self.range()
        while self.now() in RELATIONS:
            relation = RELATIONS[self.take(*RELATIONS)]
            value = elementwise(lambda a, b: Fraction(relation(a, b)), value, self.range())
        return value

    def range(self) -> Value:
        first = self.sum()
        if not self.take(":"):
            return first
        second = self.sum()
        return ranged(first, self.sum(), second) if self.take(":") else ranged(first, second, scalar(1))

    def sum(self) -> Value:
        value = self.product()
        while self.now() in ("+", "-") and not self.parts():
            sign = self.take("+", "-")
            value = elementwise((lambda a, b: a + b) if sign == "+" else (lambda a, b: a - b), value, self.product())
        return value

    def product(self) -> Value:
        value = self.signed()
        while self.now() in ("*", "/", ".*", "./"):
            operator = self.take("*", "/", ".*", "./")
            other = self.signed()
            value = product(value, other, operator == "*") if operator in ("*", ".*") else quotient(value, other, operator == "/")
        return value

    def signed(self) -> Value:
        sign = self.take("+", "-", "~")
        if not sign:
            return self.raised()
        self.depth += 1
        if self.depth > DEEPEST:
            raise Fault(f"more than {DEEPEST} deep")
        value = self.signed()
        self.depth -= 1
        changes = {"+": lambda a: a, "-": lambda a: -a, "~": lambda a: Fraction(a == 0)}
        return elementwise(changes[sign], value)

    def raised(self) -> Value:
        value = self.turned()
        while self.now() in ("^", ".^"):
            operator = self.take("^", ".^")
            sign = self.take("+", "-")
            other = self.turned()
            value = power(value, elementwise(lambda a: -a, other) if sign == "-" else other, operator == "^")
        return value

    def turned(self) -> Value:
        value = self.single()
        while self.now() in ("'", ".'") and not self.tokens[self.place][2]:
            self.take("'", ".'")
            if not isinstance(value, Matrix):
                raise Fault("a transpose of no matrix")
            value = value.transposed()
        return value

    def single(self) -> Value:
        if self.place >= len(self.tokens):
            raise Fault("it ends too early")
        kind, text, _ = self.tokens[self.place]
        self.place += 1
        if kind == "number":
            return scalar(decimal(text))
        if kind == "string":
            return text
        if kind == "name":
            return self.named(text)
        if text == "(":
            lists, self.lists = self.lists, False
            value = self.expression()
            self.expect(")")
            self.lists = lists
            return value
        if text == "[":
            return self.bracketed()
        raise Fault(f"{text!r} can't stand there")

    def bracketed(self) -> Value:
        lists, self.lists = self.lists, True
        lines: list[list[Value]] = [[]]
        while not self.take("]"):
            if self.place >= len(self.tokens):
                raise Fault("']' is missing")
            if self.take(";"):
                lines.append([])
            elif not self.take(","):
                lines[-1].append(self.expression())
        self.lists = lists
        return joined(lines)

    def arguments(self) -> list[Value]:
        lists, self.lists = self.lists, False
        found: list[Value] = []
        while not self.take(")"):
            if self.now() == ":" and self.tokens[self.place + 1 : self.place + 2] and self.tokens[self.place + 1][1] in (",", ")"):
                self.place += 1
                found.append(":")
            else:
                found.append(self.expression())
            if self.now() != ")":
                self.expect(",")
        self.lists = lists
        return found

    def named(self, name: str) -> Value:
        calls = self.now() == "(" and not (self.lists and self.tokens[self.place][2])
        if name in self.names:
            value = self.names[name]
            return indexed(value, self.called(), name) if calls else value
        if name in FUNCTIONS:
            return FUNCTIONS[name](*self.called()) if calls else FUNCTIONS[name]()
        if name in CONSTANTS:
            return CONSTANTS[name]
        raise Unknown(f"{name} has no value")

    def called(self) -> list[Value]:
        self.expect("(")
        return self.arguments()


def decimal(text: str) -> Fraction:
    """The exact value of a number, whose exponent is of a size that a double has."""
    digits, _, exponent = text.lower().partition("e")
    if len(digits) > 400 or len(exponent) > 4:
        raise Fault("a number of more than 400 digits")
    return Fraction(digits if not digits.endswith(".") else digits + "0") * Fraction(10) ** int(exponent or 0)


def places(index: Value, most: int, name: str) -> list[int]:
    if index == ":":
        return list(range(most))
    if not isinstance(index, Matrix):
        raise Fault(f"an index of {name} that is no number")
    found = index.numbers
    if any(number != int(number) or not 1 <= number <= most for number in found):
        raise Fault(f"an index of {name} outside of 1 to {most}")
    return [int(number) - 1 for number in found]


def indexed(value: Value, indices: list[Value], name: str) -> Value:
    if not isinstance(value, Matrix) or len(indices) not in (1, 2):
        raise Fault(f"{name} can't be indexed so")
    high, wide = value.shape
    if len(indices) == 2:
        rows, columns = places(indices[0], high, name), places(indices[1], wide, name)
        return Matrix(tuple(tuple(value.rows[i][j] for j in columns) for i in rows), value.kind)
    numbers = value.numbers
    found = tuple(numbers[k] for k in places(indices[0], len(numbers), name))
    stands = indices[0] == ":" or (high > 1 and wide == 1)
    return Matrix(tuple((it,) for it in found) if stands else (found,), value.kind)


def evaluate(text: str, names: Mapping[str, Value]) -> Value:
    """The value of an expression; raises Fault where it has none, and Unknown for a name without a value."""
    try:
        return Parser(text.strip(), names).whole()
    except (OverflowError, ValueError, ZeroDivisionError, TypeError) as fault:
        raise Fault(str(fault) or "no number") from fault
