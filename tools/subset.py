"""A reader of the Verilog subset (docs/FORMATS.md) for the tools: the module of a text as its parts.

It is no part of what is proved. It reads the whole grammar, and looks at no condition beyond it.
"""

import re
import sys
from dataclasses import dataclass
from typing import Dict, Iterator, List, Optional, Tuple, Union

from written import Failed

# Expressions nest at most 256 deep, and each level takes some calls.
sys.setrecursionlimit(10_000)


@dataclass(frozen=True)
class Name:
    """A net or a register as a whole."""

    name: str


@dataclass(frozen=True)
class Part:
    """Bits `high` to `low` of a net; a select of one bit has them equal."""

    name: str
    high: int
    low: int


@dataclass(frozen=True)
class Number:
    width: int
    signed: bool
    value: int


@dataclass(frozen=True)
class Concat:
    parts: Tuple["Expression", ...]


@dataclass(frozen=True)
class Repeat:
    count: int
    part: "Expression"


@dataclass(frozen=True)
class Cast:
    """`$signed` or `$unsigned`."""

    signed: bool
    part: "Expression"


@dataclass(frozen=True)
class Unary:
    operator: str
    part: "Expression"


@dataclass(frozen=True)
class Binary:
    """Two operands; of a shift the right one is a number."""

    operator: str
    left: "Expression"
    right: "Expression"


@dataclass(frozen=True)
class Choice:
    condition: "Expression"
    yes: "Expression"
    no: "Expression"


Expression = Union[Name, Part, Number, Concat, Repeat, Cast, Unary, Binary, Choice]


@dataclass(frozen=True)
class Net:
    """A net, a register or a port; ports have a direction and attributes."""

    name: str
    width: int
    signed: bool
    direction: str = ""
    attributes: Tuple[Tuple[str, int], ...] = ()

    def attribute(self, name: str) -> Optional[int]:
        return dict(self.attributes).get(name)


@dataclass(frozen=True)
class Register:
    """What a register takes: `reset` while `reset` is 1, else `value` where `enable` is true, or always."""

    name: str
    reset: Number
    enable: Optional[Expression]
    value: Expression


@dataclass
class Module:
    name: str
    attributes: Dict[str, int]
    nets: Dict[str, Net]
    assigns: Dict[str, Expression]
    registers: Dict[str, Register]

    def ports(self, direction: str) -> List[Net]:
        return [net for net in self.nets.values() if net.direction == direction]


TOKEN = re.compile(
    r"(?:[ \t\n\f\r]|//[^\n]*|/\*.*?\*/)*"
    r"(?:(?P<sized>[0-9]{1,9}'[sS]?(?:[bB][01]+|[dD][0-9]+|[hH][0-9a-fA-F]+))|(?P<word>\$?[A-Za-z_][A-Za-z0-9_]*|[0-9]+)"
    r"|(?P<mark>>>>|<<|>>|<=|>=|==|!=|&&|\|\||\(\*|\*\)|[-+*&|^~!<>?:;,=@(){}\[\]])|(?P<end>\Z))",
    re.S,
)
BINARY = {"+", "-", "*", "&", "|", "^", "==", "!=", "<", "<=", ">", ">=", "&&", "||", "<<", ">>", ">>>"}
BASES = {"b": 2, "d": 10, "h": 16}


def tokens(text: str) -> Iterator[Tuple[str, str, int]]:
    """The tokens of a text, each with its kind and its place."""
    place = 0
    while True:
        found = TOKEN.match(text, place)
        if found is None:
            raise Failed(f"line {text.count(chr(10), 0, place) + 1}: not in the Verilog subset")
        kind = found.lastgroup or "end"
        yield kind, found.group(kind), found.start(kind)
        if kind == "end":
            return
        place = found.end()


class Reader:
    """Reads a text from the first token on."""

    def __init__(self, text: str) -> None:
        self.text, self.tokens, self.at = text, list(tokens(text)), 0

    def fail(self) -> Failed:
        line = self.text.count("\n", 0, self.tokens[self.at][2]) + 1
        return Failed(f"line {line}: not in the Verilog subset")

    def shows(self, *words: str) -> bool:
        """Whether these tokens stand here."""
        return tuple(token[1] for token in self.tokens[self.at : self.at + len(words)]) == words

    def passes(self, word: str) -> bool:
        """Goes over a token, if it stands here."""
        is_there = self.shows(word)
        self.at += is_there
        return is_there

    def expect(self, *words: str) -> None:
        for word in words:
            if not self.passes(word):
                raise self.fail()

    def word(self, form: str) -> str:
        kind, found, _ = self.tokens[self.at]
        if kind != "word" or not re.fullmatch(form, found):
            raise self.fail()
        self.at += 1
        return found

    def identifier(self) -> str:
        return self.word(r"[A-Za-z_]\w*")

    def decimal(self) -> int:
        return int(self.word("[0-9]{1,9}"))

    def attributes(self) -> Dict[str, int]:
        found: Dict[str, int] = {}
        if self.passes("(*"):
            while True:
                name = self.identifier()
                self.expect("=")
                found[name] = self.decimal()
                if not self.passes(","):
                    break
            self.expect("*)")
        return found

    def shape(self) -> Tuple[int, bool]:
        """The width and the sign of a declaration."""
        signed, width = self.passes("signed"), 1
        if self.passes("["):
            width = self.decimal() + 1
            self.expect(":", "0", "]")
        return width, signed

    def module(self) -> Module:
        attributes = self.attributes()
        self.expect("module")
        made = Module(self.identifier(), attributes, {}, {}, {})
        self.expect("(")
        while True:
            self.port(made)
            if not self.passes(","):
                break
        self.expect(")", ";")
        while not self.passes("endmodule"):
            self.item(made)
        if self.tokens[self.at][0] != "end":
            raise self.fail()
        return made

    def port(self, made: Module) -> None:
        attributes = self.attributes()
        direction = self.word("input|output")
        self.expect("wire")
        width, signed = self.shape()
        name = self.identifier()
        made.nets[name] = Net(name, width, signed, direction, tuple(attributes.items()))

    def item(self, made: Module) -> None:
        kind = self.word("wire|reg|assign|always")
        if kind == "assign":
            name = self.identifier()
            self.expect("=")
            made.assigns[name] = self.expression()
            self.expect(";")
        elif kind == "always":
            taken = self.register()
            made.registers[taken.name] = taken
        else:
            width, signed = self.shape()
            name = self.identifier()
            made.nets[name] = Net(name, width, signed)
            self.expect(";")

    def register(self) -> Register:
        self.expect("@", "(", "posedge", "clk", ")", "begin", "if", "(", "reset", ")")
        name = self.identifier()
        self.expect("<=")
        reset, enable = self.sized(), None
        self.expect(";", "else")
        if self.passes("if"):
            self.expect("(")
            enable = self.expression()
            self.expect(")")
        self.expect(name, "<=")
        value = self.expression()
        self.expect(";", "end")
        return Register(name, reset, enable, value)

    def sized(self) -> Number:
        kind, found, _ = self.tokens[self.at]
        if kind != "sized":
            raise self.fail()
        self.at += 1
        width, _, rest = found.lower().partition("'")
        signed = rest.startswith("s")
        rest = rest[signed:]
        return Number(int(width), signed, int(rest[1:], BASES[rest[0]]))

    def expression(self) -> Expression:
        if self.passes("("):
            made = self.in_parentheses()
            self.expect(")")
            return made
        if self.passes("{"):
            return self.in_braces()
        if self.shows("$signed") or self.shows("$unsigned"):
            signed = self.word(r"\$\w+") == "$signed"
            self.expect("(")
            made = Cast(signed, self.expression())
            self.expect(")")
            return made
        if self.tokens[self.at][0] == "sized":
            return self.sized()
        return self.named()

    def named(self) -> Expression:
        name = self.identifier()
        if not self.passes("["):
            return Name(name)
        high = low = self.decimal()
        if self.passes(":"):
            low = self.decimal()
        self.expect("]")
        return Part(name, high, low)

    def in_braces(self) -> Expression:
        if self.tokens[self.at][1].isdigit():
            count = self.decimal()
            self.expect("{")
            made: Expression = Repeat(count, self.expression())
            self.expect("}")
        else:
            parts = [self.expression()]
            while self.passes(","):
                parts.append(self.expression())
            made = Concat(tuple(parts))
        self.expect("}")
        return made

    def in_parentheses(self) -> Expression:
        for operator in "-~!":
            if self.passes(operator):
                return Unary(operator, self.expression())
        left = self.expression()
        operator = self.tokens[self.at][1]
        if self.passes("?"):
            yes = self.expression()
            self.expect(":")
            return Choice(left, yes, self.expression())
        if operator not in BINARY:
            raise self.fail()
        self.at += 1
        return Binary(operator, left, self.sized() if operator in ("<<", ">>", ">>>") else self.expression())


def module_of(text: str) -> Module:
    """The module of a text; fails with the line from which on it isn't in the subset."""
    return Reader(text).module()


def parts_of(expression: Expression) -> Tuple[Expression, ...]:
    """The expressions right inside another."""
    if isinstance(expression, Concat):
        return expression.parts
    if isinstance(expression, (Repeat, Cast, Unary)):
        return (expression.part,)
    if isinstance(expression, Binary):
        return (expression.left, expression.right)
    if isinstance(expression, Choice):
        return (expression.condition, expression.yes, expression.no)
    return ()


def names_in(expression: Optional[Expression]) -> Iterator[str]:
    """Each net that an expression reads, as often as it does."""
    left = [expression] if expression is not None else []
    while left:
        one = left.pop()
        if isinstance(one, (Name, Part)):
            yield one.name
        left += parts_of(one)
