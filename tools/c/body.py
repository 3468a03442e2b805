"""One function of the MIR as C, statement by statement: what comes out is right and not yet pleasant. `passes` makes it so."""
from __future__ import annotations

import dataclasses
import re
from collections.abc import Callable, Sequence
from typing import TYPE_CHECKING, Generic, TypeAlias, TypeVar

import results
import syntax as c
from names import snake
from representation import FEW, Kind, safe
from translate import Type, Unknown
from tree import (
    OF_CALLER,
    Address,
    Aggregate,
    Assign,
    Block,
    Call,
    Case,
    Exit,
    Int,
    Key,
    Loop,
    Never,
    Nothing,
    One,
    Operand,
    Place,
    Repeat,
    Return,
    SizeOf,
    Statement,
    Static,
    Switch,
    Truth,
    Two,
    Value,
    Webs,
    walk,
)

if TYPE_CHECKING:
    from library import Library

OPERATORS = dict(zip("Add Sub Mul Div Rem Shl Shr And Or Xor Eq Ne Lt Le".split(), "+ - * / % << >> & | ^ == != < <=".split()))
BRANCH = ("core::result::ResultTry::branch", "core::option::OptionTry::branch")
NO_RESIDUAL = "core::option::OptionFromResidualNoValue::from_residual"
FIRST_CHUNK = "core::slice::arrays::slice+T::first_chunk"
COPY_SLICE = "core::slice::edits::slice+T::copy_from_slice"
SAME_ARRAYS = "core::cmp::arrays::ArrayPartialEq::eq"
ROTATE = "core::slice::edits::slice+T::rotate_left"
COPY_DOWN = "std_alloc::shifts::copy_down"
OVER_A_SLICE = (FIRST_CHUNK, COPY_SLICE, ROTATE, COPY_DOWN)
ALL_BITS = "bitflags::traits::Flags::all"
# What is by hand in C, by the method of the MIR.
OF_C: dict[str, tuple[str, c.Type]] = {
    f"{OF_CALLER}uart_spec::backend::Backend 0": ("uart_device_read", c.BYTE),
    f"{OF_CALLER}uart_spec::backend::Backend 1": ("uart_device_write", c.VOID),
    f"{OF_CALLER}uart_16550::patience::Patience 0": ("uart_patience_keep_waiting", c.BOOL),
    f"{OF_CALLER}uart_design_ware::registers::DesignWareRegisters 0": ("uart_device_read_usr", c.BYTE),
    f"{OF_CALLER}uart_ring::line::LinePorts 0": ("uart_line_ports_number", c.Number(64, c.SIZE)),
    f"{OF_CALLER}uart_ring::line::LinePorts 1": ("uart_line_ports_lower", c.BOOL),
    f"{OF_CALLER}uart_ring::line::LinePorts 2": ("uart_line_ports_raise", c.VOID),
}
SIZES = {"uart_line_ports_lower": (1, 2), "uart_line_ports_raise": (1,)}
FILLED = "std_alloc::vec::Vec::from_elem"
# The libraries of slices, in which each number of 64 bits is an index or a length.
OVER_SLICES = ("std_alloc::shifts::", "std::slices::")
# Returns the range that it is given, if that is within: it is proved to be, where this is called.
RANGE_WITHIN = "core::slice::ranges::range"
NATIVE = {*BRANCH, RANGE_WITHIN, FILLED, NO_RESIDUAL, SAME_ARRAYS, *OVER_A_SLICE, ALL_BITS}
U64 = c.Width(False)
# The parameters of functions of libraries whose sources are not read.
PARAMETERS = {"std_alloc::shifts::copy_up": ("items", "from", "to", "count")}


Part = TypeVar("Part", c.Variable, c.Expression)


@dataclasses.dataclass
class Pair(Generic[Part]):
    """A slice: where it begins, and how long it is."""

    pointer: Part
    length: Part


@dataclasses.dataclass
class ArrayAt:
    """An array behind a pointer to its first item."""

    pointer: c.Expression
    meaning: Type


@dataclasses.dataclass
class Tag:
    """Which variant a value is of."""

    value: c.Expression
    meaning: Type


# What a local of the MIR is in C, and what a value of it is. What has one value only is nothing.
Local: TypeAlias = "c.Variable | Pair[c.Variable] | None"
InC: TypeAlias = "c.Expression | Pair[c.Expression] | ArrayAt | Tag | None"


def expression(one: InC) -> c.Expression:
    """A value that is an expression of C."""
    if one is None or isinstance(one, (Pair, ArrayAt, Tag)):
        raise Unknown(f"a value that is no expression of C, but {type(one).__name__}")
    return one


def is_const(one: c.Expression) -> bool:
    """Whether a place is behind a pointer through which nothing is written."""
    while isinstance(one, c.Field):
        one = one.base
    return isinstance(one, (c.Deref, c.Index)) and isinstance(one.pointer.of, c.Pointer) and one.pointer.of.is_const


def start_of(array: InC, item: c.Type) -> c.Expression:
    """The pointer to the first item of an array."""
    return array.pointer if isinstance(array, ArrayAt) else c.Field(expression(array), "bytes", c.Pointer(item))


def settle_copies(copies: list[c.Set]) -> None:
    """Decides of numbers that are only copied whether they are sizes of memory. The MIR has no cast from `usize` to `u64`: it is a copy of one
    into the other. A number that is on neither side is no size if it can be, since 64 bits hold what any size does."""
    for wanted in (False, True, None):
        while any(joined(one, wanted) for one in copies):
            pass
    for one in copies:
        to, value = widths_of(one)
        if to.join(value):
            continue
        if to.is_size:
            raise Unknown("a number of 64 bits that becomes a size of memory")
        one.value = c.Cast(one.to.of, one.value)


def widths_of(copy: c.Set) -> tuple[c.Width, c.Width]:
    """What the numbers on both sides of a copy count."""
    to, value = c.width_of(copy.to.of), c.width_of(copy.value.of)
    if not to or not value:
        raise Unknown("a copy of what is no number of 64 bits")
    return to, value


def joined(copy: c.Set, wanted: bool | None) -> bool:
    """Makes both sides of a copy what one of them is, if that is wanted and the other may be either. Returns whether it did."""
    to, value = (one.root() for one in widths_of(copy))
    return to is not value and {to.decided, value.decided} == {wanted, None} and to.join(value)


class Body:
    def __init__(self, library: Library, key: Key) -> None:
        self.library, self.key = library, key
        self.types, self.source = library.types, library.source
        self.tree = library.forest.tree(key)
        Webs(self.tree).run()
        self.information = library.source.find(key[0])
        self.variables, self.labels, self.copies = dict[int, Local](), 0, list[c.Set]()
        self.single, self.changing = self.defined_once(), self.changed_in_part()
        self.result = self.declared_type(self.tree.locals[0], self.information.result if self.information else key[0])
        self.parameters = [self.parameter(order) for order in range(1, self.tree.params + 1)]
        self.statements = self.list_of(self.tree.body, [])
        settle_copies(self.copies)

    def defined_once(self) -> dict[int, Value | Call]:
        """The value, or the call, of each local that one assignment defines."""
        found = dict[int, list[Value | Call]]()
        for one in walk(self.tree.body):
            if isinstance(one, (Assign, Call)) and not one.place.steps:
                found.setdefault(one.place.local, []).append(one.value if isinstance(one, Assign) else one)
        return {local: values[0] for local, values in found.items() if len(values) == 1}

    def changed_in_part(self) -> set[int]:
        """The locals of which a part is written, or that have an address by which one can be."""
        out = set()
        for one in walk(self.tree.body):
            if isinstance(one, (Assign, Call)) and one.place.steps:
                out.add(one.place.local)
            if isinstance(one, Assign) and isinstance(one.value, Address):
                of = None if one.place.steps else self.tree.locals[one.place.local]
                if not (isinstance(of, tuple) and of[0] == "Ref" and not of[2]):
                    out.add(one.value.place.local)
        return out

    # Variables.

    def declared_type(self, of: Type, text: str) -> c.Type:
        """The type of a parameter or a result, of which this is the text in the source, or the name of the library's function."""
        is_size = re.search(r"\busize\b", text or "") is not None and not re.search(r"\bu64\b", text or "") or (text or "").startswith(OVER_SLICES)
        made = self.types.c(of, is_size)
        if isinstance(made, c.Number) and made.bits == 64 and made.width and made.width.root().decided is None:
            made.width = c.SIZE if is_size else U64
        return made

    def parameter(self, order: int) -> Local:
        of = self.tree.locals[order]
        info = self.information
        given = PARAMETERS.get(self.key[0], ())
        name, text = given[order - 1] if order <= len(given) else f"part{order}", self.key[0]
        if info and order <= len(info.parameters):
            name, text = info.parameters[order - 1]
        if name == "self":
            name = self.name_of_self(of)
        name = safe(name.lstrip("_"))
        kind = self.types.kind(of)
        if kind.kind == "unit":
            self.variables[order] = None
        elif kind.kind == "slice":
            self.variables[order] = Pair(
                c.Variable(self.types.pointer(kind.value), name, True, order), c.Variable(c.Number(64, c.SIZE), f"{name}_len", True, order)
            )
        else:
            self.variables[order] = c.Variable(self.declared_type(of, text), name, True, order, of)
        return self.variables[order]

    def name_of_self(self, of: Type) -> str:
        while of[0] == "Ref":
            of = of[1]
        name = of[1].split("::")[-1] if of[0] == "Named" else "self"
        return {"Uart16550": "uart", "Uart16550Ring": "ring", "Uart16550Tty": "tty"}.get(name, snake(name))

    def variable(self, local: int) -> Local:
        if local not in self.variables:
            self.variables[local] = self.new_variable(local)
        return self.variables[local]

    def new_variable(self, local: int) -> Local:
        of = self.tree.locals[local]
        kind = self.types.kind(of)
        if kind.kind == "unit":
            return None
        if kind.kind == "slice":
            return Pair(
                c.Variable(self.types.pointer(kind.value), None, False, local), c.Variable(c.Number(64, c.SIZE), None, False, local, hint="len")
            )
        if of == "Ptr":
            return c.Variable(c.Pointer(self.item_behind(local)), None, False, local, of)
        return c.Variable(self.result if local == 0 else self.types.c(of), None, False, local, of)

    def item_behind(self, local: int) -> c.Type:
        """The type of what a bare pointer is to: its base is a pointer with a type."""
        value = self.single.get(local)
        if isinstance(value, Two) and value.operation == "Offset":
            return c.pointed(expression(self.operand(value.first)).of)
        if isinstance(value, Place):
            return c.pointed(expression(self.load(value)).of)
        if isinstance(value, Address):
            of = self.place(value.place)[1]
            return self.types.c(of[1] if of[0] == "Array" else of)
        raise Unknown("a bare pointer that comes from nowhere")

    # Operands.

    def operand(self, one: Operand | Repeat) -> InC:
        if isinstance(one, Place):
            return self.load(one)
        if isinstance(one, Int):
            return c.Literal(one.value, c.Number(one.bits, c.Width() if one.bits == 64 else None))
        if isinstance(one, Truth):
            return c.Word("true" if one.value else "false", c.BOOL)
        if isinstance(one, Nothing):
            return None
        if isinstance(one, SizeOf):
            return c.Word(f"sizeof({self.types.c(one.of).text()})", c.Number(64, c.SIZE))
        raise Unknown(f"an operand {one}")

    def load(self, place: Place) -> InC:
        return self.place(place)[0]

    def start(self, local: int) -> InC:
        found = self.variable(local)
        if found is None:
            return None
        return Pair(c.Var(found.pointer), c.Var(found.length)) if isinstance(found, Pair) else c.Var(found)

    def place(self, place: Place) -> tuple[InC, Type]:
        """What the steps of a place lead to, and its type."""
        one, of, steps = self.start(place.local), self.tree.locals[place.local], list(place.steps)
        while steps:
            whole = place.local if len(steps) == len(place.steps) else None
            word, value = steps.pop(0)
            if word == "Deref":
                one, of = self.behind(one, value), value
            elif word == "Variant":
                one, of = self.part_of_variant(one, of, value, steps.pop(0)[1], whole)
            elif word == "Field":
                one, of = self.part(one, of, value)
            else:
                raise Unknown(f"a step {word}")
        return one, of

    def behind(self, one: InC, of: Type) -> InC:
        if of[0] == "Array":
            return ArrayAt(expression(one), of)
        if self.types.is_unit(of):
            return None
        return self.with_slice(c.Deref(expression(one)), of)

    def with_slice(self, one: c.Expression, of: Type) -> InC:
        """A slice that is in a struct, as a pair."""
        if self.types.kind(of).kind != "slice":
            return one
        pointer = self.types.pointer(self.types.kind(of).value)
        return Pair(c.Field(one, "data", pointer), c.Field(one, "len", c.Number(64, c.SIZE)))

    def part(self, one: InC, of: Type, order: int) -> tuple[InC, Type]:
        kind = self.types.kind(of)
        if kind.kind == "slice" and kind.inside is not None:
            return one, kind.inside
        if isinstance(one, Pair):
            return (one.pointer, kind.value) if order == 0 else (one.length, ("Int", 64))
        if kind.kind == "unit":
            return None, self.types.fields(of)[order][1]
        name, inner = self.types.fields(of)[order]
        if self.types.is_unit(inner):
            return None, inner
        if kind.kind == "wrapper":
            return one, inner
        if self.types.is_array_of_header(of, inner):
            whole = expression(one)
            return ArrayAt(c.Field(whole, name, c.Pointer(self.types.c(inner[1]), is_const(whole))), inner), inner
        made = self.types.c(inner, self.types.is_size(of, order))
        if isinstance(made, c.Number) and made.bits == 64 and kind.kind != "wrapper":
            made.width = None if self.types.is_of_library(of) else c.SIZE if self.types.is_size(of, order) else U64
        if inner == "Ptr":
            made = c.Pointer(c.BYTE)
        return self.with_slice(c.Field(expression(one), name, made), inner), inner

    def payload(self, one: InC, name: str, of: Type, whole: int | None) -> InC:
        """A part of a value of a type that any type may be a part of: its width is not known from there, unless the value is all of a local
        that a function of ours has returned, and that says of its numbers that they are no sizes."""
        made = self.types.c(of)
        if isinstance(made, c.Number) and self.types.kind(of).kind == "number":
            made = c.Number(made.bits, U64 if made.bits == 64 and self.has_no_size(whole) else None)
        return self.with_slice(c.Field(expression(one), name, made), of)

    def has_no_size(self, local: int | None) -> bool:
        """Whether a local is what a function of ours has returned, in which the source has `u64` and no `usize`."""
        value = self.single.get(local) if local is not None else None
        while isinstance(value, Place) and not value.steps or isinstance(value, Call) and value.function[0] in BRANCH:
            copied = value if isinstance(value, Place) else value.arguments[0]
            value = self.single.get(copied.local) if isinstance(copied, Place) else None
        info = self.source.find(value.function[0]) if isinstance(value, Call) else None
        return info is not None and "u64" in re.findall(r"\w+", info.result or "") and "usize" not in info.result

    def part_of_variant(self, one: InC, of: Type, tag: int, order: int, whole: int | None) -> tuple[InC, Type]:
        kind, shown = self.types.kind(of), of
        if of[0] == "Named" and of[1] == "core::ops::ControlFlow":
            shown = self.types.same_as(of)
        if order == 0:
            return Tag(expression(one), of), "Tag"
        _, parts = self.types.shape(of)
        inner = parts[tag][order - 1]
        if self.types.is_unit(inner):
            return None, inner
        if kind.kind == "option":
            if tag != kind.full:
                return None, inner
            return self.payload(one, kind.member, inner, whole), inner
        if kind.kind == "nullable" or kind.kind == "status":
            return one, inner
        if kind.kind in ("outcome", "either"):
            return self.payload(one, "error" if tag else "value", inner, whole), inner
        if kind.kind == "tagged":
            return self.payload(one, self.types.part_name(shown, tag, order - 1), inner, whole), inner
        raise Unknown(f"a part of a variant of {of}")

    # Values.

    def value(self, value: Value, of: Type) -> InC:
        """A value to be put into a place of this type of the MIR."""
        if isinstance(value, Address):
            return self.address(value.place)
        if isinstance(value, Aggregate):
            return self.aggregate(value.parts, of)
        if isinstance(value, One):
            return self.one(value)
        if isinstance(value, Two):
            return self.two(value)
        if isinstance(value, Static):
            return self.library.static(value, self.key[0])
        return self.named(self.operand(value), of)

    def named(self, one: InC, of: Type) -> InC:
        """A number with the names of its bits, if it is of a register."""
        return self.library.with_names(one, of) if isinstance(one, c.Literal) else one

    def address(self, place: Place) -> c.Expression | None:
        one, of = self.place(place)
        if one is None:
            return None
        if isinstance(one, ArrayAt) or of[0] == "Array":
            return start_of(one, self.types.c(of[1]))
        return c.AddressOf(expression(one), c.Pointer(self.types.c(of)))

    def one(self, value: One) -> c.Expression:
        operand = expression(self.operand(value.operand))
        if value.operation == "Not":
            if operand.of is c.BOOL:
                return c.Unary("!", operand, c.BOOL)
            return c.Cast(operand.of, c.Unary("~", operand, operand.of))
        if value.operation == "Cast":
            if value.how[:2] != ["Unsigned", "Unsigned"]:
                raise Unknown("a cast of signed numbers")
            bits = value.how[2]
            made = c.Number(bits, c.Width() if bits == 64 else None)
            if isinstance(operand, c.Literal):
                return c.Literal(operand.value, made)
            return c.Cast(made, operand)
        raise Unknown(f"an operation {value.operation}")

    def two(self, value: Two) -> c.Expression:
        if value.operation == "Offset":
            return self.offset(value)
        if value.sign == "Signed":
            raise Unknown("signed numbers")
        left, right = expression(self.operand(value.first)), expression(self.operand(value.second))
        operator = OPERATORS[value.operation]
        self.join(left, right, operator)
        if left.of is c.BOOL:
            return c.Binary({"&": "&&", "|": "||"}.get(operator, operator), left, right, c.BOOL)
        if operator in c.COMPARISONS:
            return c.Binary(operator, left, right, c.BOOL)
        of = left.of if not isinstance(left, c.Literal) or operator in ("<<", ">>") else right.of
        made = c.Binary(operator, left, right, of)
        # C computes with `int` what is smaller than it.
        return c.Cast(of, made) if c.bits(of) < 32 and operator not in c.BITWISE else made

    def offset(self, value: Two) -> c.Expression:
        base, index = expression(self.operand(value.first)), value.second
        item = c.pointed(base.of)
        if not (isinstance(item, c.Number) and item.bits == 8):
            index = self.unscaled(index, item)
        at = expression(self.operand(index))
        self.join(at, c.Literal(0, c.Number(64, c.SIZE)), "+")
        return c.AddressOf(c.Index(base, at), base.of)

    def unscaled(self, index: Operand, item: c.Type) -> Operand:
        """The number of the item whose offset in bytes this is."""
        if isinstance(index, Int) and index.value == 0:
            return index
        size = self.library.size_of(item)
        if isinstance(index, Int) and size and index.value % size == 0:
            return Int(index.value // size, index.bits)
        product = self.single.get(index.local) if isinstance(index, Place) and not index.steps else None
        if isinstance(product, Two) and product.operation == "Mul":
            factor = product.second
            if isinstance(factor, SizeOf) or isinstance(factor, Int) and factor.value == size:
                return product.first
        raise Unknown(f"an offset {index} of {item.text()}")

    @staticmethod
    def join(left: c.Expression, right: c.Expression, operator: str) -> None:
        """Two numbers that are computed with have one width."""
        one, other = c.width_of(left.of), c.width_of(right.of)
        if operator not in ("<<", ">>") and one and other and not one.join(other):
            raise Unknown("a size of memory together with another number of 64 bits")

    def aggregate(self, operands: Sequence[Operand | Repeat], of: Type) -> InC:
        kind = self.types.kind(of)
        word = kind.kind
        if word == "unit":
            return None
        parts = [self.operand(one) for one in operands]
        if word == "slice":
            return parts[0] if kind.inside is not None else Pair(*map(expression, parts))
        if word == "wrapper":
            return self.named(parts[kind.order], of)
        if word == "array":
            raise Unknown("an array of operands")
        if word == "struct":
            fields = [(name, part) for (name, inner), part in zip(self.types.fields(of), parts) if not self.types.is_unit(inner)]
            return self.library.made(of, None, [(name, self.in_struct(part)) for name, part in fields])
        number = operands[0]
        if not isinstance(number, Int):
            raise Unknown(f"a variant {number}")
        return self.variant(of, kind, number.value, parts[1:])

    def in_struct(self, one: InC) -> c.Expression:
        """A value as a part of a struct."""
        return self.library.slice_of(one) if isinstance(one, Pair) else expression(one)

    def variant(self, of: Type, kind: Kind, tag: int, values: Sequence[InC]) -> c.Expression:
        word = kind.kind
        # What has only one value is no part of a struct.
        parts = [self.in_struct(one) for one in values if one is not None]
        if word == "option":
            is_full = tag == kind.full
            if self.types.is_unit(kind.value):
                return c.Word("true" if is_full else "false", c.BOOL)
            flag = [(kind.flag, c.Word("true" if is_full else "false", c.BOOL))]
            return self.library.made(of, tag, flag + ([(kind.member, parts[0])] if is_full else []))
        if word == "nullable":
            return parts[0] if tag else c.Word("NULL", self.types.c(of))
        if word == "status":
            return parts[0] if tag else self.library.no_error(kind.error)
        if word == "outcome":
            if tag:
                return self.library.made(of, tag, [("error", parts[0])])
            # No error is what a struct begins with.
            return self.library.made(of, tag, [("value", parts[0])] if parts else [])
        if word == "either":
            flag = [("is_error", c.Word("true" if tag else "false", c.BOOL))]
            return self.library.made(of, tag, flag + [("error" if tag else "value", parts[0])])
        if of[0] == "Named" and of[1] == "core::ops::ControlFlow":
            raise Unknown("a ControlFlow that is made")
        constant = self.library.number_of(of, tag, parts)
        if word == "enum":
            return constant
        _, _, types = self.types.variants(of)[tag]
        filled = [
            (self.types.part_name(of, tag, order), self.in_struct(one))
            for order, (one, inner) in enumerate(zip(values, types))
            if one is not None and self.types.is_part(of, tag, inner)
        ]
        return self.library.made(of, tag, [("kind", constant), *filled])

    # Statements.

    def list_of(self, statements: list[Statement], labels: list[int]) -> list[c.Statement]:
        out = list[c.Statement]()
        for one in statements:
            out += self.statement(one, labels)
        return out

    def statement(self, one: Statement, labels: list[int]) -> list[c.Statement]:
        if isinstance(one, Assign):
            return self.assign(one.place, one.value)
        if isinstance(one, Call):
            return self.call(one)
        if isinstance(one, Switch):
            return self.switch(one, labels)
        if isinstance(one, (Block, Loop)):
            self.labels += 1
            mine = self.labels
            body = self.list_of(one.body, [mine, *labels])
            return [c.Block(mine, body) if isinstance(one, Block) else c.Loop(mine, body)]
        if isinstance(one, Exit):
            return [c.Exit(labels[one.depth])]
        if isinstance(one, Return):
            return [c.Return(self.returned())]
        if isinstance(one, Never):
            return []
        raise Unknown(f"a statement {one}")

    def returned(self) -> c.Expression | None:
        one = self.start(0)
        return None if one is None else self.in_struct(one)

    def assign(self, place: Place, value: Value) -> list[c.Statement]:
        to, of = self.place(place)
        if to is None:
            return []
        if isinstance(value, Repeat):
            return self.filled(to, value)
        if isinstance(value, Aggregate) and self.types.kind(of).kind == "struct":
            parts = [one for one in self.types.fields(of) if not self.types.is_unit(one[1])]
            is_filled = any(isinstance(one, Repeat) for one in value.parts)
            if is_filled or len(parts) > FEW or any(self.types.is_array_of_header(of, inner) for _, inner in parts):
                return self.part_by_part(to, of, value)
        if isinstance(value, Aggregate) and of[0] == "Array":
            start, items = start_of(to, self.types.c(of[1])), [expression(self.operand(one)) for one in value.parts]
            return [c.Set(c.Index(start, c.Literal(order, c.Number(64, c.SIZE))), one) for order, one in enumerate(items)]
        made = self.value(value, of)
        if isinstance(value, Place) and not value.steps and isinstance(to, c.Var) and isinstance(made, c.Var):
            if c.width_of(to.of) and c.width_of(made.of):
                self.copies.append(c.Set(to, made))
                return [self.copies[-1]]
        return self.put(to, made)

    def put(self, to: InC, value: InC) -> list[c.Statement]:
        """The statements that put a value into a place."""
        if value is None:
            return []
        if isinstance(to, Pair) and isinstance(value, Pair):
            return [*self.put(to.pointer, value.pointer), *self.put(to.length, value.length)]
        if isinstance(value, ArrayAt):
            count = c.Literal(value.meaning[2], c.Number(64, c.SIZE))
            start = start_of(to, c.BYTE)
            if value.meaning[1] != ("Int", 8):
                raise Unknown(f"an array of {value.meaning[1]} that is copied")
            return [c.Do(self.library.helper("uart_copy_bytes", [start, value.pointer, count], c.VOID))]
        if isinstance(to, ArrayAt):
            raise Unknown("an array behind a pointer is written")
        place, made = expression(to), expression(value)
        self.join(place, made, "=")
        return [c.Set(place, made)]

    def part_by_part(self, to: InC, of: Type, value: Aggregate) -> list[c.Statement]:
        """A struct of many parts: first a variable of its own, since a part may be made of what is there before."""
        made = c.Variable(self.types.c(of), None, False, -1, of, hint=self.name_of_self(of))
        start = self.mostly_of(value.parts, of)
        out: list[c.Statement] = [] if start is None else [c.Set(c.Var(made), expression(self.load(start)))]
        for order, ((name, inner), one) in enumerate(zip(self.types.fields(of), value.parts)):
            if not self.types.is_unit(inner) and (start is None or self.first_place(one) != Place(start.local, (*start.steps, ("Field", order)))):
                into, _ = self.part(c.Var(made), of, order)
                out += self.filled(into, one) if isinstance(one, Repeat) else self.put(into, self.named(self.operand(one), inner))
        return [*out, c.Set(expression(to), c.Var(made))]

    def first_place(self, one: Operand | Repeat) -> Operand | Repeat:
        """The part of a struct that never changes which an operand was copied from, or the operand itself."""
        value = self.single.get(one.local) if isinstance(one, Place) and not one.steps else None
        if not isinstance(value, Place) or not value.steps or any(word != "Field" for word, _ in value.steps):
            return one
        return value if value.local in self.single and value.local not in self.changing else one

    def mostly_of(self, parts: Sequence[Operand | Repeat], of: Type) -> Place | None:
        """Another struct of this type of which most parts are, or None."""
        places = [(order, one) for order, one in enumerate(map(self.first_place, parts)) if isinstance(one, Place)]
        found = [Place(one.local, one.steps[:-1]) for order, one in places if one.steps[-1:] == (("Field", order),)]
        most = max(found, key=found.count) if found else None
        return most if most and 2 * found.count(most) > len(parts) and self.place(most)[1] == of else None

    def filled(self, to: InC, value: Repeat) -> list[c.Statement]:
        item = expression(self.operand(value.item))
        start = start_of(to, c.BYTE)
        count = c.Literal(value.count, c.Number(64, c.SIZE))
        if isinstance(item.of, c.Number) and item.of.bits == 8:
            return [c.Do(self.library.helper("uart_fill_bytes", [start, item, count], c.VOID))]
        turn = c.Variable(c.Number(64, c.SIZE), hint="place")
        step = c.Set(c.Var(turn), c.Binary("+", c.Var(turn), c.Literal(1, c.Number(64, c.SIZE)), turn.of))
        return [
            c.For(
                c.Set(c.Var(turn), c.Literal(0, c.Number(64, c.SIZE))),
                c.Binary("<", c.Var(turn), count, c.BOOL),
                step,
                [c.Set(c.Index(start, c.Var(turn)), item)],
            )
        ]

    def call(self, one: Call) -> list[c.Statement]:
        to, of = self.place(one.place)
        value = self.called(one, of)
        if value is None:
            return []
        if to is None or isinstance(value, c.CallOf) and value.of is c.VOID:
            return [c.Do(value)] if isinstance(value, c.CallOf) and not value.is_pure else []
        if isinstance(to, Pair):
            return self.slice_from_call(to, of, value)
        return self.put(to, value)

    def slice_from_call(self, to: Pair[c.Expression], of: Type, value: InC) -> list[c.Statement]:
        if isinstance(value, Pair):
            return self.put(to, value)
        made = c.Variable(self.types.c(of), None, False, -1, of, hint="slice")
        return [c.Set(c.Var(made), expression(value)), *self.put(to, self.with_slice(c.Var(made), of))]

    def called(self, one: Call, of: Type) -> InC:
        """The value of a call."""
        name = one.function[0]
        if name in BRANCH or name == RANGE_WITHIN and one.function[1][0][1].endswith("::Range"):
            return self.operand(one.arguments[0])
        if name == NO_RESIDUAL:
            return self.aggregate((Int(0, 8),), of)
        if name == ALL_BITS:
            return self.named(c.Literal(self.library.all_bits(one.function), c.BYTE), one.function[1][0])
        arguments = [self.operand(argument) for argument in one.arguments]
        if name in OF_C:
            return self.call_of_c(*OF_C[name], [expression(argument) for argument in arguments])
        if name == FILLED:
            given = [expression(argument) for argument in arguments]
            self.join(given[2], c.Literal(0, c.Number(64, c.SIZE)), "=")
            if form := results.form_of(self.types, of, "uart_cells_in_memory", True):
                self.library.forms["uart_cells_in_memory"] = form
            return c.CallOf("uart_cells_in_memory", given, self.types.c(of))
        if name == SAME_ARRAYS:
            count = c.Literal(one.function[1][1][1], c.Number(64, c.SIZE))
            return self.library.helper("uart_same_bytes", [*map(expression, arguments), count], c.BOOL)
        first = arguments[0] if arguments else None
        if name in OVER_A_SLICE and isinstance(first, Pair):
            return self.called_over_slice(one, first, arguments[1:])
        return self.library.call(one.function, arguments, self)

    def called_over_slice(self, one: Call, items: Pair[c.Expression], others: list[InC]) -> c.Expression:
        """The value of a call of a library of slices, whose first argument is one."""
        name = one.function[0]
        if name == FIRST_CHUNK:
            least = c.Literal(one.function[1][1][1], c.Number(64, c.SIZE))
            return c.Choice(c.Binary(">=", items.length, least, c.BOOL), items.pointer, c.Word("NULL", items.pointer.of))
        if name == COPY_DOWN:
            places = [expression(other) for other in others]
            for place in places:
                self.join(place, c.Literal(0, c.Number(64, c.SIZE)), "=")
            return self.library.move_down(items.pointer, places)
        [other] = others
        if name == COPY_SLICE and isinstance(other, Pair):
            return self.library.helper("uart_copy_bytes", [items.pointer, other.pointer, items.length], c.VOID)
        if not (isinstance(other, c.Literal) and other.value == 1 and c.pointed(items.pointer.of).text() == "struct u16550_received"):
            raise Unknown("a rotation by more than one, or of other items than characters")
        return self.library.helper("uart_first_to_last", [items.pointer, items.length], c.VOID)

    def call_of_c(self, name: str, of: c.Type, arguments: list[c.Expression]) -> c.CallOf:
        for order in SIZES.get(name, ()):
            self.join(arguments[order], c.Literal(0, c.Number(64, c.SIZE)), "=")
        return c.CallOf(name, arguments, of)

    def switch(self, one: Switch, labels: list[int]) -> list[c.Statement]:
        on = self.operand(one.on)
        if isinstance(on, Tag):
            return self.switch_on_tag(on, one.cases, labels)
        number = expression(on)
        if number.of is c.BOOL:
            return [self.two_ways(number, one.cases, 1, labels)]
        return [self.choice(number, self.cases_of(one.cases, lambda value: [c.Literal(value, number.of)], labels))]

    def cases_of(self, cases: list[Case], label: Callable[[int], list[c.Expression]], labels: list[int]) -> list[c.Case]:
        """The cases in C, whose numbers are written in this way."""
        return [
            (None if numbers is None else [one for each in numbers for one in label(each)], self.list_of(body, labels)) for numbers, body in cases
        ]

    def two_ways(self, condition: c.Expression, cases: list[Case], yes_tag: int, labels: list[int]) -> c.If:
        other = next((body for numbers, body in cases if numbers is None), list[Statement]())
        yes = next((body for numbers, body in cases if numbers is not None and yes_tag in numbers), other)
        no = next((body for numbers, body in cases if numbers is not None and yes_tag not in numbers), other)
        return c.If(condition, self.list_of(yes, labels), self.list_of(no, labels))

    def switch_on_tag(self, tag: Tag, cases: list[Case], labels: list[int]) -> list[c.Statement]:
        kind, one, of = self.types.kind(tag.meaning), tag.value, tag.meaning
        if kind.kind == "option":
            condition = one if self.types.is_unit(kind.value) else c.Field(one, kind.flag, c.BOOL)
            return [self.two_ways(condition, cases, kind.full, labels)]
        if kind.kind == "nullable":
            return [self.two_ways(c.Binary("!=", one, c.Word("NULL", one.of), c.BOOL), cases, 1, labels)]
        if kind.kind == "either":
            return [self.two_ways(c.Field(one, "is_error", c.BOOL), cases, 1, labels)]
        if kind.kind in ("status", "outcome"):
            shown = one if kind.kind == "status" else c.Field(one, "error", self.types.c(kind.error))
            return [self.two_ways(self.library.is_error(shown, kind.error), cases, 1, labels)]
        number = one if kind.kind == "enum" else c.Field(one, "kind", self.types.tag(of))
        # A variant with an error in it has the numbers of that one.
        cases_of = self.cases_of(cases, lambda value: [c.Word(name, number.of) for name in self.types.numbers(of, value)], labels)
        return [self.choice(number, cases_of)]

    @staticmethod
    def choice(on: c.Expression, cases: list[c.Case]) -> c.Statement:
        """An `if` for two cases, and a `switch` for more."""
        if len(cases) == 2 and cases[0][0] is not None and len(cases[0][0]) == 1:
            return c.If(c.Binary("==", on, cases[0][0][0], c.BOOL), cases[0][1], cases[1][1])
        if len(cases) == 2 and cases[1][0] is not None and len(cases[1][0]) == 1:
            return c.If(c.Binary("==", on, cases[1][0][0], c.BOOL), cases[1][1], cases[0][1])
        return c.Switch(on, cases)


__all__ = ["NATIVE", "OF_C", "Body", "InC", "Pair", "expression"]
