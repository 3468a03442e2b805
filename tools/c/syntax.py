"""C as a typed tree, and its text."""
from __future__ import annotations

import dataclasses
from collections.abc import Callable, Iterable, Iterator
from typing import TypeAlias

from translate import Type as Meaning

WIDTH = 100
INDENT = "    "
# The operators, by how tightly they bind.
LEVELS = {12: "* / %", 11: "+ -", 10: "<< >>", 9: "< <= > >=", 8: "== !=", 7: "&", 6: "^", 5: "|", 4: "&&", 3: "||"}
PRECEDENCE = {operator: level for level, operators in LEVELS.items() for operator in operators.split()}
PRIMARY, UNARY, CHOICE = 15, 14, 2
SWAPPED = {"==": "==", "!=": "!=", "<": ">", "<=": ">=", ">": "<", ">=": "<="}
OPPOSITE = {"==": "!=", "!=": "==", "<": ">=", "<=": ">", ">": "<=", ">=": "<"}
COMPARISONS = set(OPPOSITE)
LOGICAL = {"&&", "||"}
BITWISE = {"&", "|", "^"}


# Types.


class Width:
    """What a number of 64 bits counts: bytes of memory or not. Numbers that are compared, added or assigned have one width."""

    def __init__(self, is_size: bool | None = None) -> None:
        self.same: Width | None = None
        self.decided = is_size

    def root(self) -> Width:
        at = self
        while at.same:
            at = at.same
        return at

    @property
    def is_size(self) -> bool:
        return bool(self.root().decided)

    def join(self, other: Width) -> bool:
        """Makes both the same. Returns whether they can be."""
        one, two = self.root(), other.root()
        if one is two:
            return True
        if None not in (one.decided, two.decided) and one.decided != two.decided:
            return False
        one.decided = two.decided if one.decided is None else one.decided
        two.same = one
        return True


@dataclasses.dataclass(eq=False)
class Number:
    bits: int
    width: Width | None = None

    def text(self) -> str:
        return "size_t" if self.width and self.width.is_size else f"uint{self.bits}_t"


@dataclasses.dataclass(frozen=True)
class Named:
    name: str

    def text(self) -> str:
        return self.name


@dataclasses.dataclass(frozen=True)
class Code(Named):
    """The enum of a number in a struct of the header. How wide an enum is depends on what a compiler is told, and so it is no type there."""

    def text(self) -> str:
        return "uint8_t"


@dataclasses.dataclass(eq=False)
class Pointer:
    to: Type
    is_const: bool = False

    def text(self) -> str:
        return f"{'const ' if self.is_const else ''}{self.to.text()} *"


Type: TypeAlias = Number | Named | Pointer
BOOL, VOID = Named("bool"), Named("void")
BYTE = Number(8)
SIZE = Width(True)


def pointed(of: Type) -> Type:
    """The type of what a pointer leads to."""
    if not isinstance(of, Pointer):
        raise TypeError(of)
    return of.to


def width_of(of: Type) -> Width | None:
    """What a number counts, if it has 64 bits."""
    return of.width if isinstance(of, Number) else None


def bits(of: Type) -> int:
    """How many bits a number has."""
    if not isinstance(of, Number):
        raise TypeError(of)
    return of.bits


def declared(of: Type, name: str) -> str:
    """The declaration of a name of this type."""
    text = of.text()
    return text + name if text.endswith("*") else f"{text} {name}"


# Expressions. `of` is the type.


@dataclasses.dataclass(eq=False)
class Variable:
    """A parameter or a local of a function."""

    of: Type
    name: str | None = None
    is_parameter: bool = False
    local: int = -1
    meaning: Meaning = None  # the type of the MIR
    hint: str | None = None  # a name, if the source has none
    is_named: bool = False  # whether the source has a name for it

    def known_name(self) -> str:
        if self.name is None:
            raise TypeError("a variable without a name")
        return self.name


@dataclasses.dataclass(eq=False)
class Var:
    variable: Variable

    @property
    def of(self) -> Type:
        return self.variable.of


@dataclasses.dataclass(eq=False)
class Literal:
    value: int
    of: Type
    names: tuple[str, ...] = ()  # of bits or of a register that together are this number
    is_bits: bool = False  # written as bits are
    is_of_register: bool = False  # written so too, unless it has a name


@dataclasses.dataclass(eq=False)
class Word:
    """A constant that has a name: of an enum, `true`, `NULL`."""

    name: str
    of: Type


@dataclasses.dataclass(eq=False)
class Field:
    base: Expression
    name: str
    of: Type


@dataclasses.dataclass(eq=False)
class Deref:
    pointer: Expression

    @property
    def of(self) -> Type:
        return pointed(self.pointer.of)


@dataclasses.dataclass(eq=False)
class Index:
    pointer: Expression
    index: Expression

    @property
    def of(self) -> Type:
        return pointed(self.pointer.of)


@dataclasses.dataclass(eq=False)
class AddressOf:
    place: Expression
    of: Type


@dataclasses.dataclass(eq=False)
class Unary:
    operator: str
    operand: Expression
    of: Type


@dataclasses.dataclass(eq=False)
class Binary:
    operator: str
    left: Expression
    right: Expression
    of: Type


@dataclasses.dataclass(eq=False)
class Cast:
    of: Type
    operand: Expression


@dataclasses.dataclass(eq=False)
class CallOf:
    """A call. If it is pure it has no effect and reads nothing but its arguments. `expects` are the types of the parameters, and `fields`
    says what is in each member of the struct that a maker makes: the number of an argument, or a constant; `meaning` is its type in the source."""

    name: str
    arguments: list[Expression]
    of: Type
    is_pure: bool = False
    expects: tuple[Type, ...] = ()
    fields: dict[str, int | Expression] | None = None
    meaning: Meaning = None

    def members(self) -> dict[str, Expression]:
        """What a maker puts into each member."""
        return {name: self.arguments[what] if isinstance(what, int) else what for name, what in (self.fields or {}).items()}


@dataclasses.dataclass(eq=False)
class Initial:
    """What a struct has first, where it is declared: a value for each member, in order."""

    values: list[Expression]
    of: Type
    maker: CallOf | None = None  # what would make it


@dataclasses.dataclass(eq=False)
class Choice:
    condition: Expression
    yes: Expression
    no: Expression

    @property
    def of(self) -> Type:
        return self.yes.of


Expression: TypeAlias = Var | Literal | Word | Field | Deref | Index | AddressOf | Unary | Binary | Cast | CallOf | Initial | Choice
Change: TypeAlias = Callable[[Expression], Expression]
CHILDREN: dict[type[Expression], tuple[str, ...]] = {
    Field: ("base",),
    Deref: ("pointer",),
    Index: ("pointer", "index"),
    AddressOf: ("place",),
    Unary: ("operand",),
    Binary: ("left", "right"),
    Cast: ("operand",),
    CallOf: ("arguments",),
    Initial: ("values",),
    Choice: ("condition", "yes", "no"),
}


def parts(one: Expression) -> list[Expression]:
    """The expressions that an expression is made of."""
    out = []
    for name in CHILDREN.get(type(one), ()):
        value = getattr(one, name)
        out += value if isinstance(value, list) else [value]
    return out


def every(one: Expression) -> Iterator[Expression]:
    """An expression and all that it is made of."""
    yield one
    for part in parts(one):
        yield from every(part)


def rebuilt(one: Expression, change: Change) -> Expression:
    """An expression with each of its parts as `change` makes it, from the inside out."""
    names = CHILDREN.get(type(one), ())
    if names:
        new = {}
        for name in names:
            value = getattr(one, name)
            new[name] = [rebuilt(item, change) for item in value] if isinstance(value, list) else rebuilt(value, change)
        if any(new[name] is not getattr(one, name) for name in names):
            one = dataclasses.replace(one, **new)
    return change(one)


# Statements.


@dataclasses.dataclass(eq=False)
class Set:
    """An assignment, or the initialisation of a variable that is declared here."""

    to: Expression
    value: Expression
    declares: bool = False


@dataclasses.dataclass(eq=False)
class Declare:
    variable: Variable


@dataclasses.dataclass(eq=False)
class Do:
    call: Expression


@dataclasses.dataclass(eq=False)
class If:
    condition: Expression
    yes: list[Statement]
    no: list[Statement]


@dataclasses.dataclass(eq=False)
class Switch:
    on: Expression
    cases: list[Case]  # expressions or None for all others, and statements


@dataclasses.dataclass(eq=False)
class While:
    condition: Expression
    body: list[Statement]


@dataclasses.dataclass(eq=False)
class For:
    first: Set
    condition: Expression
    step: Set
    body: list[Statement]


@dataclasses.dataclass(eq=False)
class Block:
    """What an `Exit` of this label leaves. C has none: they go before the text is made."""

    label: int
    body: list[Statement]


@dataclasses.dataclass(eq=False)
class Loop:
    label: int
    body: list[Statement]


@dataclasses.dataclass(eq=False)
class Exit:
    label: int


@dataclasses.dataclass(eq=False)
class Return:
    value: Expression | None = None


@dataclasses.dataclass(eq=False)
class Break:
    pass


@dataclasses.dataclass(eq=False)
class Continue:
    pass


Statement: TypeAlias = Set | Declare | Do | If | Switch | While | For | Block | Loop | Exit | Return | Break | Continue
Case: TypeAlias = tuple[list[Expression] | None, list[Statement]]
EXPRESSIONS: dict[type[Statement], tuple[str, ...]] = {
    Set: ("to", "value"),
    Do: ("call",),
    If: ("condition",),
    Switch: ("on",),
    While: ("condition",),
    For: ("condition",),
    Return: ("value",),
}


def expressions(statement: Statement) -> list[Expression]:
    """The expressions of a statement itself, without those of statements in it."""
    return [one for one in (getattr(statement, name) for name in EXPRESSIONS.get(type(statement), ())) if one is not None]


def lists(statement: Statement) -> list[list[Statement]]:
    """The lists of statements in a statement."""
    if isinstance(statement, If):
        return [statement.yes, statement.no]
    if isinstance(statement, Switch):
        return [body for _, body in statement.cases]
    if isinstance(statement, (While, For, Block, Loop)):
        return [statement.body]
    return []


def all_statements(statements: Iterable[Statement]) -> Iterator[Statement]:
    for one in statements:
        yield one
        if isinstance(one, For):
            yield one.first
            yield one.step
        for body in lists(one):
            yield from all_statements(body)


def all_parts(statements: Iterable[Statement]) -> Iterator[Expression]:
    """All expressions of statements, with all that they are made of."""
    for statement in all_statements(statements):
        for one in expressions(statement):
            yield from every(one)


def leaves(statements: list[Statement]) -> bool:
    """Whether nothing goes on behind these statements."""
    if not statements:
        return False
    last = statements[-1]
    if isinstance(last, (Return, Break, Continue, Exit)):
        return True
    if isinstance(last, If):
        return leaves(last.yes) and leaves(last.no)
    if isinstance(last, Switch):
        has_all = any(labels is None for labels, _ in last.cases)
        return has_all and all(body and isinstance(body[-1], Return) or leaves_switch(body) for _, body in last.cases)
    return False


def leaves_switch(body: list[Statement]) -> bool:
    """Whether a case ends without leaving its switch downwards: `break` would."""
    return leaves(body) and not isinstance(body[-1], Break)


def negated(one: Expression) -> Expression:
    """The opposite of a condition."""
    if isinstance(one, Unary) and one.operator == "!":
        return one.operand
    if isinstance(one, Binary) and one.operator in OPPOSITE:
        return Binary(OPPOSITE[one.operator], one.left, one.right, one.of)
    if isinstance(one, Word) and one.name in ("true", "false"):
        return Word("false" if one.name == "true" else "true", one.of)
    return Unary("!", one, BOOL)


# Text.


def number_text(one: Literal) -> str:
    if one.names:
        return " | ".join(one.names)
    if one.is_bits or one.is_of_register and one.value > 1:
        return f"{one.value:#04x}"
    is_size = isinstance(one.of, Number) and one.of.width and one.of.width.is_size
    if is_size and one.value == (1 << 64) - 1:
        return "SIZE_MAX"
    # Without a macro: a kernel that has types of its own defines `UINT32_C`, and has nothing like it for 64 bits.
    if one.value == (1 << 64) - 1:
        return "(uint64_t)-1"
    if one.value >= 1 << 32:
        return f"UINT64_C({one.value})" if one.value < 1 << 63 else f"UINT64_C({one.value:#x})"
    if one.value > 0x7FFF:
        return f"UINT32_C({one.value})"
    return str(one.value)


def level(one: Expression) -> int:
    """How tightly an expression binds."""
    if isinstance(one, Literal):
        return PRECEDENCE["|"] if len(one.names) > 1 else PRIMARY
    if isinstance(one, (Unary, Cast, AddressOf, Deref)):
        return UNARY
    if isinstance(one, Binary):
        return PRECEDENCE[one.operator]
    return CHOICE if isinstance(one, Choice) else PRIMARY


def at_level(one: Expression, least: int) -> str:
    return text(one) if level(one) >= least else f"({text(one)})"


def side(one: Expression, operator: str, is_right: bool) -> str:
    """The text of an operand: in parentheses where C's precedence asks for them, or where few people know it."""
    mine, its = PRECEDENCE[operator], level(one)
    if its >= UNARY:
        return text(one)
    known = its > mine or its == mine and not is_right
    are_compared = mine in (8, 9) and its in (8, 9)
    is_unusual = are_compared or its != mine and (operator in BITWISE or operator in ("<<", ">>") or mine in (8, 9) and its < 11 or operator == "||")
    return text(one) if known and not is_unusual else f"({text(one)})"


def branch(one: Expression) -> str:
    """The text of what a choice may be. g++ warns of one that is a name of an enum if the other is none."""
    is_of_enum = isinstance(one, Word) and isinstance(one.of, Code) or isinstance(one, Literal) and len(one.names) == 1 and one.value <= 0x7FFF
    return text(Cast(one.of, one)) if is_of_enum else at_level(one, 3)


def text(one: Expression) -> str:
    """The text of an expression."""
    if isinstance(one, Var):
        return one.variable.known_name()
    if isinstance(one, Literal):
        return number_text(one)
    if isinstance(one, Word):
        return one.name
    if isinstance(one, Field):
        if isinstance(one.base, Deref):
            return f"{at_level(one.base.pointer, PRIMARY)}->{one.name}"
        return f"{at_level(one.base, PRIMARY)}.{one.name}"
    if isinstance(one, Deref):
        return f"*{at_level(one.pointer, UNARY)}"
    if isinstance(one, Index):
        return f"{at_level(one.pointer, PRIMARY)}[{text(one.index)}]"
    if isinstance(one, AddressOf):
        return f"&{at_level(one.place, UNARY)}"
    if isinstance(one, Unary):
        return f"{one.operator}{at_level(one.operand, UNARY)}"
    if isinstance(one, Cast):
        return f"({one.of.text()}){at_level(one.operand, UNARY)}"
    if isinstance(one, Binary):
        return f"{side(one.left, one.operator, False)} {one.operator} {side(one.right, one.operator, True)}"
    if isinstance(one, Choice):
        return f"{at_level(one.condition, 3)} ? {branch(one.yes)} : {branch(one.no)}"
    if isinstance(one, CallOf):
        return f"{one.name}({', '.join(map(text, one.arguments))})"
    if isinstance(one, Initial):
        return f"{{ {', '.join(map(text, one.values))} }}"
    raise TypeError(one)


def set_text(one: Set) -> str:
    """An assignment without its semicolon."""
    to, value = text(one.to), one.value
    if one.declares:
        return f"{declared(one.to.of, to)} = {text(value)}"
    if isinstance(value, Binary) and value.operator not in COMPARISONS | LOGICAL and text(value.left) == to:
        if value.operator in "+-" and isinstance(value.right, Literal) and value.right.value == 1:
            return f"{at_level(one.to, PRIMARY)}{value.operator * 2}"
        return f"{to} {value.operator}= {text(value.right)}"
    return f"{to} = {text(value)}"


def lines(statements: list[Statement], depth: int = 1) -> list[str]:
    """The lines of statements."""
    out, tab = [], INDENT * depth
    for one in statements:
        if isinstance(one, Set):
            out += wrapped(f"{tab}{set_text(one)};")
        elif isinstance(one, Declare):
            out.append(f"{tab}{declared(one.variable.of, one.variable.known_name())};")
        elif isinstance(one, Do):
            out += wrapped(f"{tab}{text(one.call)};")
        elif isinstance(one, Return):
            out += wrapped(f"{tab}return {text(one.value)};" if one.value is not None else f"{tab}return;")
        elif isinstance(one, (Break, Continue)):
            out.append(f"{tab}{type(one).__name__.lower()};")
        elif isinstance(one, If):
            out += if_lines(one, depth)
        elif isinstance(one, While):
            is_endless = isinstance(one.condition, Word) and one.condition.name == "true"
            out += block("for (;;)" if is_endless else f"while ({text(one.condition)})", one.body, depth)
        elif isinstance(one, For):
            out += block(f"for ({set_text(one.first)}; {text(one.condition)}; {set_text(one.step)})", one.body, depth)
        elif isinstance(one, Switch):
            out += switch_lines(one, depth)
        else:
            raise TypeError(one)
    return out


def block(top: str, body: list[Statement], depth: int, braces: bool = False) -> list[str]:
    """A line with the statements that it has, in braces if they are more than one line."""
    tab, inner = INDENT * depth, lines(body, depth + 1)
    first = wrapped(tab + top)
    if len(inner) == 1 and len(first) == 1 and not braces and not isinstance(body[0], (If, While, For)):
        return [*first, *inner]
    first[-1] += " {"
    return [*first, *inner, f"{tab}}}"]


def branches(one: If) -> list[list[Statement]]:
    """What a choice does in each case: an `else if` is a case of it."""
    if len(one.no) == 1 and isinstance(one.no[0], If):
        return [one.yes, *branches(one.no[0])]
    return [one.yes, *([one.no] if one.no else [])]


def if_lines(one: If, depth: int, of_chain: bool | None = None) -> list[str]:
    tab = INDENT * depth
    # All cases have braces, or none.
    has_braces = bool(one.no) and any(len(body) != 1 or not is_short(body) for body in branches(one)) if of_chain is None else of_chain
    out = block(f"if ({text(one.condition)})", one.yes, depth, has_braces)
    if not one.no:
        return out
    if len(one.no) == 1 and isinstance(one.no[0], If):
        rest = if_lines(one.no[0], depth, has_braces)
        rest[0] = f"{tab}}} else {rest[0].strip()}" if out[-1] == f"{tab}}}" else f"{tab}else {rest[0].strip()}"
        return (out[:-1] if out[-1] == f"{tab}}}" else out) + rest
    rest = block("else", one.no, depth, has_braces)
    if out[-1] == f"{tab}}}":
        rest[0] = f"{tab}}} {rest[0].strip()}"
        out = out[:-1]
    return out + rest


def is_short(body: list[Statement]) -> bool:
    return len(lines(body)) == 1 and isinstance(body[0], (Set, Do, Return, Break, Continue))


def switch_lines(one: Switch, depth: int) -> list[str]:
    tab = INDENT * depth
    out = [f"{tab}switch ({text(one.on)}) {{"]
    for order, (labels, body) in enumerate(one.cases):
        out += [f"{tab}case {text(label)}:" for label in labels or []]
        if labels is None or order == len(one.cases) - 1 and not any(labels is None for labels, _ in one.cases):
            out.append(f"{tab}default:")
        # No declaration may be behind a label.
        has_own = any(isinstance(each, Declare) or isinstance(each, Set) and each.declares for each in body)
        out[-1] += " {" if has_own else ""
        out += lines(body, depth + 1)
        if not leaves(body):
            out.append(f"{tab}{INDENT}break;")
        if has_own:
            out.append(f"{tab}}}")
    return [*out, f"{tab}}}"]


def wrapped(line: str, first: bool = True) -> list[str]:
    """A line in pieces that fit, each behind the first further to the right."""
    if len(line) <= WIDTH:
        return [line]
    tab = len(line) - len(line.lstrip())
    at = break_at(line, tab)
    if at is None:
        return [line]
    behind = tab + len(INDENT) if first else tab
    return [line[:at].rstrip(), *wrapped(" " * behind + line[at:].lstrip(), False)]


def break_at(line: str, tab: int) -> int | None:
    """Where a line that is too long is cut: as far out of brackets as can be, and there as late as can be."""
    depth, best = 0, None
    rank: float | None
    for at in range(tab + 8, WIDTH):
        depth += (line[at - 1] in "([{") - (line[at - 1] in ")]}")
        before = line[:at].rstrip()
        rank = None
        if line[at - 1] == " " and before.endswith((",", "&&", "||")):
            rank = depth
        elif line[at - 1] == " " and (before.endswith(" =") or line[at:].startswith(("? ", ": "))):
            rank = depth + 0.5
        elif line[at - 1] == " " and before.endswith((" |", " +", " <", "==")):
            rank = depth + 1
        elif line[at - 1] == "(" and line[at] != ")":
            rank = depth + 1.5
        if rank is not None and (best is None or rank <= best[0]):
            best = (rank, at)
    return best and best[1]
