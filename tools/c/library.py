"""All functions that are asked for, and what they need, as one file of C."""
from __future__ import annotations

import dataclasses
import re
from collections.abc import Callable, Mapping, Sequence
from typing import TypeAlias

import called
import in_place
import passes
import readable
import results
import structs
import syntax as c
from body import NATIVE, OF_C, Body, InC, Pair, expression
from comments import WIDTH, Said, Words
from names import Function, Source, snake
from reasons import Reason, with_reasons
from representation import INT, NO_DEVICE, Kind, Representation, comment_of, safe
from translate import Dictionary, Node, Program, Type, Types, Unknown, head
from tree import DEVICE, OF_CALLER, PATIENCE, PORTS, Assign, Forest, Key, Place, Static

# Parameters that are one constant in each call, by their places.
Known: TypeAlias = dict[int, c.Expression]
# What has the value that a member of a struct has for ever, where it is read.
Fixed: TypeAlias = Callable[[c.Expression], c.Expression]

# What C has for a type that has to have a trait.
OF_TRAITS = {
    "uart_spec::backend::Backend": DEVICE,
    "uart_16550::backend::PortAccess": DEVICE,
    "uart_16550::backend::ByteAccess": DEVICE,
    "uart_16550::patience::Patience": PATIENCE,
    "uart_ring::line::LinePorts": PORTS,
    "uart_design_ware::registers::DesignWareRegisters": DEVICE,
}
# The structs of C that are large, and arrays, which are copied byte by byte: as are those that have one of them.
LARGE = {"u16550_core_driver", "u16550_core_error_notes", "uart_bytes3", "uart_bytes16"}
HELPERS = {
    "uart_copy_bytes": """/* Copies so many bytes between two places that do not overlap. */
static inline void uart_copy_bytes(uint8_t *to, const uint8_t *from, size_t count)
{
    for (size_t i = 0; i < count; i++)
        to[i] = from[i];
}
""",
    "uart_fill_bytes": """/* Sets so many bytes to one value. */
static inline void uart_fill_bytes(uint8_t *to, uint8_t value, size_t count)
{
    for (size_t i = 0; i < count; i++)
        to[i] = value;
}
""",
    "uart_first_to_last": """/* Moves the first of some characters behind the others. */
static inline void uart_first_to_last(struct u16550_received *items, size_t count)
{
    struct u16550_received first = items[0];
    for (size_t i = 1; i < count; i++)
        items[i - 1] = items[i];
    items[count - 1] = first;
}
""",
    "uart_same_bytes": """/* Returns whether so many bytes are the same. */
static inline bool uart_same_bytes(const uint8_t *one, const uint8_t *other, size_t count)
{
    for (size_t i = 0; i < count; i++) {
        if (one[i] != other[i])
            return false;
    }
    return true;
}
""",
}
# The functions for arithmetic that not every processor has an instruction for, by the operator and how many bits a number has. They are by hand
# (layer_arithmetic.c).
ARITHMETIC = {
    ("/", 32): "uart_quotient_32",
    ("%", 32): "uart_rest_32",
    ("/", 64): "uart_quotient_64",
    ("%", 64): "uart_rest_64",
    ("*", 64): "uart_product_64",
}
# What moves items towards the front of their array. Of one loop gcc makes a call of memmove, around which a function has to keep its
# registers: a tick takes 38 instructions then, and not 26. So many at once are as many as such an array of the chip has: gcc moves them by a
# few registers, and calls nothing.
MOVE_DOWN = """/* Moves so many items towards the front of their array, by way of a place of their own. */
static inline void
NAME(ITEM *items, size_t from, size_t to, size_t count)
{
    ITEM moved[MOST];
    for (size_t done = 0; done < count; done += MOST) {
        size_t some = count - done < MOST ? count - done : MOST;
        for (size_t i = 0; i < some; i++)
            moved[i] = items[from + done + i];
        for (size_t i = 0; i < some; i++)
            items[to + done + i] = moved[i];
    }
}
"""
MOST_BYTES, MOST_STRUCTS = 64, 16
# The functions whose second argument is the offset of a register, and the names of these.
READ = dict(enumerate("DATA IER ISR LCR MCR LSR MSR SPR".split()))
WRITTEN = {**READ, 2: "FCR"}
LATCH = {0: "DLL", 1: "DLM"}
OFFSETS = {
    "uart_device_read": READ,
    "uart_read_register": READ,
    "uart_device_write": WRITTEN,
    "uart_write_register": WRITTEN,
    "uart_read_plain": READ,
    "uart_design_ware_load": READ,
    "uart_design_ware_store": WRITTEN,
}
# Those that are given nothing but constants there.
BY_OFFSET = ("uart_read_register", "uart_read_plain", "uart_write_register")
# Bytes that are characters.
CHARACTERS = {value: f"'{chr(value)}'" for value in range(32, 127) if chr(value) not in "'\\"} | {8: r"'\b'", 10: r"'\n'", 13: r"'\r'"}
# The registers, as variables that hold what one shows are called.
REGISTERS = re.compile(r"^(ier|isr|fcr|lcr|mcr|lsr|msr)(_|\d|$)")
# What may be a number of the source, and not one of a computation: what is beside such an operator.
BESIDE_NUMBERS = {"&", "|", "^", "==", "!=", "<", "<=", ">", ">="}


# A compiler is told to put a function in the place of its calls up to so many lines, and up to so many if one of the calls is in a loop: it
# would not by itself, and then a byte that is received takes twice as many instructions. Not one of more lines, as that which writes a
# burst: it is called once for 16 bytes, and at five places.
SHORT, SHORT_IN_LOOP = 6, 10
# Short ones that are called from so many places that a copy at each is no gain.
CALLED_OFTEN = ("uart_write_burst", "uart_send_gathered")


@dataclasses.dataclass(eq=False)
class Written:
    """A function in C."""

    name: str
    parameters: list[c.Variable]
    # All parameters of the source, also those that are known, which C has not.
    given: list[c.Variable]
    result: c.Type
    comment: str
    proved: list[str]
    # Whether it is not to stand in the place of its calls.
    is_apart: bool
    # The struct of its result, if that has more than one part, and how it returns them.
    whole: c.Type
    form: results.Form | None = None
    # The parameters by which it does.
    pointers: list[c.Variable] = dataclasses.field(default_factory=list)
    # How far it shifts what the source returns.
    shift: int = 0
    is_public: bool = False
    # What the source says of it, if it is a function there; and the numbers of the errors that it returns.
    source: Function | None = None
    errors: list[str] = dataclasses.field(default_factory=list)
    statements: list[c.Statement] = dataclasses.field(default_factory=list)
    # The reasons inside of it, each with its words in C.
    reasons: list[tuple[Reason, list[str]]] = dataclasses.field(default_factory=list)

    def publish(self, names: list[str]) -> None:
        """Makes it one of the header, whose parameters have the names that they have there."""
        self.is_public = True
        if len(names) != len(self.parameters):
            raise Unknown(f"{self.name} has {len(self.parameters)} parameters, and {len(names)} in the header")
        for one, name in zip(self.parameters, names):
            one.name = name

    def body(self) -> tuple[list[str], list[str]]:
        """What it is given, and what it does."""
        return [c.declared(one.of, one.known_name()) for one in self.parameters], c.lines(self.statements)

    def called_in_loops(self) -> set[str]:
        """The names of the functions that it calls in a loop."""
        loops = [one for one in c.all_statements(self.statements) if isinstance(one, (c.For, c.While, c.Loop))]
        return {part.name for part in c.all_parts(loops) if isinstance(part, c.CallOf)}

    def text(self, in_loops: set[str], short: int, apart: str, words: dict[str, str]) -> str:
        """Its text. `in_loops` are the functions that are called in loops, `short` is how many lines a short one has at most, `apart` is what
        one is declared as that is not to stand in the place of its calls, and `words` has what is said of some by their names."""
        body = c.lines(self.statements)
        is_short = len(body) <= (max(short, SHORT_IN_LOOP) if self.name in in_loops else short)
        word = (
            words[self.name]
            if self.name in words
            else ""
            if self.is_public
            else apart
            if self.is_apart
            else "static inline"
            if is_short
            else "static"
        )
        body = with_reasons(body, self.reasons, WIDTH)
        first = top(word, self.result, self.name, [c.declared(one.of, one.known_name()) for one in self.parameters])
        return "\n".join([self.comment + "\n".join(first), "{", *body, "}", ""])


def error_in(kind: Kind) -> Type | None:
    """The error that a result of this kind may be."""
    error = kind.error if kind.kind in ("status", "outcome", "either") else kind.value if kind.flag == "is_error" else None
    return error if isinstance(error, tuple) else None


def is_constant(value: c.Expression | None) -> bool:
    """Whether a value is a constant of an enum, or true or false."""
    return isinstance(value, c.Word) and (value.of is c.BOOL or isinstance(value.of, c.Named) and value.of.name.startswith("enum "))


def codes_by_constant(written: Written) -> dict[str, c.Literal]:
    """The codes that a function returns, each by the constant that it returns it for."""
    only = written.statements[0] if len(written.statements) == 1 else None
    cases = only.cases if isinstance(only, c.Switch) else []
    return {
        label.name: body[0].value
        for labels, body in cases
        for label in labels or ()
        if isinstance(label, c.Word) and len(body) == 1 and isinstance(body[0], c.Return) and isinstance(body[0].value, c.Literal)
    }


def code_of_constant(one: c.Expression, codes: Mapping[str, Mapping[str, c.Literal]]) -> c.Expression:
    """The code itself, in the place of a call that asks for that of a constant."""
    first = one.arguments[0] if isinstance(one, c.CallOf) and one.name in codes and len(one.arguments) == 1 else None
    return codes[one.name].get(first.name, one) if isinstance(one, c.CallOf) and isinstance(first, c.Word) else one


def of_parameters(value: c.Expression, written: Written) -> bool:
    """Whether a value of a function is computed of its parameters alone."""
    return all(part.variable in written.parameters for part in c.every(value) if isinstance(part, c.Var))


def is_known(value: c.Expression) -> bool:
    """Whether a value is such a constant, or a struct that is made of such."""
    if isinstance(value, c.CallOf):
        return value.is_pure and value.fields is not None and all(map(is_known, value.arguments))
    return is_constant(value)


def made_of(statements: list[c.Statement]) -> dict[c.Variable, c.Expression]:
    """The structs that are made of constants, by the variables that have them, and nothing else ever."""
    found, facts = dict[c.Variable, c.Expression](), passes.Facts(statements)
    for one in c.all_statements(statements):
        value = one.value if isinstance(one, c.Set) and isinstance(one.to, c.Var) else None
        maker = value.maker if isinstance(value, c.Initial) else value if structs.is_maker(value) else None
        if maker and is_known(maker) and isinstance(one, c.Set) and isinstance(one.to, c.Var) and facts.is_fixed(one.to.variable):
            found[one.to.variable] = maker
    return found


def is_known_or_number(value: c.Expression) -> bool:
    return is_known(value) or isinstance(value, c.Literal)


def with_arithmetic(one: c.Expression) -> c.Expression:
    """A product, a quotient or a rest by the function for it."""
    if not isinstance(one, c.Binary) or not isinstance(one.of, c.Number) or one.of.text() == "size_t":
        return one
    name = ARITHMETIC.get((one.operator, one.of.bits))
    if name is None or passes.is_power_of_two(one.right) or one.operator == "*" and passes.is_power_of_two(one.left):
        return one
    return c.CallOf(name, [one.left, one.right], one.of, True, (one.of, one.of))


def constants_in(value: c.Expression) -> list[c.Word]:
    """The constants that a struct is made of."""
    parts = (value.fields or {}).values() if isinstance(value, c.CallOf) else []
    return [one for one in parts if isinstance(one, c.Word)]


def with_arguments(value: c.Expression, parameters: list[c.Variable], arguments: list[c.Expression]) -> c.Expression:
    """What a call stands for, with its arguments in the place of the parameters."""
    return c.rebuilt(value, lambda part: arguments[parameters.index(part.variable)] if isinstance(part, c.Var) else part)


def as_bits(one: c.Expression) -> c.Expression:
    """A number that is written as bits are."""
    return dataclasses.replace(one, is_bits=one.value > 1) if isinstance(one, c.Literal) else one


def without_destructors(key: Key) -> Key:
    """A key without what says of types that nothing is to be done at their end: each crate says it by a name of its own."""
    return (key[0], key[1], tuple(one for one in key[2] if not one[0].endswith("::Destruct++none")))


def top(word: str, result: c.Type, name: str, parameters: Sequence[str]) -> list[str]:
    """The lines of the top of a function."""
    given = ", ".join(parameters) or "void"
    whole = f"{word} {c.declared(result, name)}({given})".lstrip()
    if len(whole) <= c.WIDTH:
        return [whole]
    return [f"{word} {result.text()}".strip(), *c.wrapped(f"{name}({given})")]


class Library:
    """`public` has the C names of types that the header has, `prefix` is that of its bits, and `names` those of functions that would have
    that of another one. `known` has the parameters that are one constant in all calls, which are left out: by the key of the function and
    the place among its parameters, the constant."""

    def __init__(
        self,
        program: Program,
        source: Source,
        public: dict[Type, str],
        own: Sequence[str],
        prefix: str,
        names: dict[Key, str] | None = None,
        known: dict[Key, Known] | None = None,
    ) -> None:
        self.forest = Forest(program, lambda name: name in NATIVE or name in OF_C, own)
        self.source, self.prefix, self.names = source, prefix, names or {}
        self.types = Representation(self.forest, source, public)
        # By its key each function, or None as long as it is translated; and those that are, in order.
        self.functions, self.order = dict[Key, Written | None](), list[Written]()
        # The name in the header, and those of the parameters there, by the function's name in the MIR.
        self.exports = dict[str, tuple[str, list[str]]]()
        # How functions return results, by their names; and what is by hand that they call.
        self.forms, self.helpers = dict[str, results.Form](), dict[str, str]()
        # The numbers that functions return, as far as they are seen, and those that stand for each in the enum of another error.
        self.numbers_of, self.other_numbers = dict[str, frozenset[str]](), dict[str, dict[str, str]]()
        # The numbers of the source that have a name there, what it says of them, and what stands in the place of calls of functions of libraries.
        self.numbers, self.about_numbers = dict[str, str](), dict[str, str]()
        self.inlined = dict[str, tuple[c.Expression, list[c.Variable]]]()
        self.bits, self.offsets, self.statics = dict[str, int](), dict[str, int](), dict[tuple[int, ...], str]()
        # The functions that move items, by their names.
        self.movers = dict[str, str]()
        # What the header calls the offsets of registers that are read, and of those that are written; and the numbers that functions return.
        self.registers, self.returned = list[dict[int, str]](), dict[int, str]()
        self.short, self.apart, self.words = SHORT, "static", dict.fromkeys(CALLED_OFTEN, "static")
        # Keys of one function by what they have in common, and the functions that only compute.
        self.same, self.quiet = dict[Key, Key](), set[str]()
        # The members of structs that have one value for ever, by the struct and the name: that value, or None if nobody reads it. Writes of
        # them go.
        self.fixed = dict[tuple[str, str], Fixed | None]()
        # The calls that are made in the place of those which only pass on their arguments, and parameters that nothing reads any more.
        self.passed_on, self.unread = set[str](), dict[str, set[int]]()
        self.written_out = called.WRITTEN_OUT
        self.instead = dict[str, tuple[c.Expression, list[c.Variable]]]()
        # The bits that results of a function have, if it returns nothing but constants.
        self.bits_of = dict[str, int]()
        # Whether functions that return codes of fields shift them; and the functions in whose place another one is called.
        self.are_codes_shifted, self.joined = False, set[str]()
        # What comments say otherwise in this pair.
        self.said = Said()
        # What is known of a function, by its name; and what stands in the place of its calls, if that is one value or one call.
        self.known, self.known_of = known or {}, dict[str, Known]()
        self.stands_for = dict[str, tuple[c.Expression, list[c.Variable]]]()

    def export(self, function: str, name: str, parameters: list[str]) -> None:
        """A function of the header: its name there, and those of its parameters."""
        self.exports[function] = (name, parameters)

    # What is asked for.

    def want(self, name: str) -> Written:
        """Translates a function of our crates over the device."""
        generics = self.forest.program.functions[name]["generics"]
        given: list[Type] = [DEVICE for _ in generics["types"]]
        for one in generics["bounds"]:
            if one["of"] in OF_TRAITS:
                given[one["types"][0]["Param"]] = OF_TRAITS[one["of"]]
        types = tuple(given)
        dictionaries = tuple(self.dictionary_for(one["of"], types) for one in generics["bounds"])
        return self.function((name, types, dictionaries))

    @staticmethod
    def dictionary_for(trait: str, types: Types) -> Dictionary:
        if trait in OF_TRAITS:
            return (OF_CALLER + trait, (), ())
        if trait.endswith("marker::Destruct"):
            return ("Destruct of nothing", types, ())
        raise Unknown(f"a function over {trait}")

    def function(self, key: Key) -> Written:
        """The function of a key, which is translated with all that it calls, before it."""
        key = self.same.setdefault(without_destructors(key), key)
        if key not in self.functions:
            self.functions[key] = None
            body = Body(self, key)
            parameters = [
                one for item in body.parameters if item is not None for one in ([item.pointer, item.length] if isinstance(item, Pair) else [item])
            ]
            info = body.information
            is_public = key[0] in self.exports
            # What is proved of a function of the header is said there.
            words = self.words_of(key, body)
            proved = (
                []
                if is_public
                else [" ".join(words.text([one])).replace(*called.PROVED.get(self.name_of(key), ("", ""))) for one in self.source.proved(info)]
            )
            known = self.known.get(key, {})
            comment = comment_of([*words.text(info.comment), *self.told_of(known, parameters)], proved=proved) if info else ""
            written = Written(
                self.name_of(key), parameters, parameters, body.result, comment, proved, info is not None and info.is_apart, body.result, source=info
            )
            if info and not self.exports:
                told = [(one, words.text(list(one.lines))) for one in info.reasons]
                written.reasons = [(one, said) for one, said in told if any(said)]
            if is_public:
                written.publish(self.exports[key[0]][1])
            self.put_known(body.statements, written, known)
            if not self.exports:
                note_names(body, parameters)
            self.put_members(body.statements)
            written.statements = in_place.run(passes.run(body.statements, body.result, self.with_names), self.is_large)
            if self.fixed:
                self.put_members(written.statements)
            # What is constant may be an argument that is known, of another call.
            if self.leave_out_known(written.statements, self.is_constant_call):
                written.statements = passes.refined(written.statements, self.with_names)
            if self.leave_out_known(written.statements):
                written.statements = passes.refined(written.statements, self.with_names)
            if self.exports:
                written.statements = passes.without_quiet(written.statements, self.quiet)
                # What nobody reads may have been all that kept a parameter from being one value for ever.
                while passes.remove_dead(written.statements) or passes.propagate(written.statements, self.with_names):
                    pass
                while passes.into_branches(written.statements, self.quiet):
                    written.statements = passes.refined(written.statements, self.with_names)
                passes.where_it_is(written.statements)
                if all(passes.is_quiet(one, self.quiet) for one in written.statements):
                    self.quiet.add(written.name)
            if self.fixed:
                self.put_members(written.statements)
                self.leave_out_unread(written)
                passes.without_idle_arrays(written.statements)
                for _ in range(2):
                    # A call that only computes is seen to be idle once nothing reads what it returns.
                    written.statements = passes.refined(passes.without_quiet(written.statements, self.quiet), self.with_names)
                if all(passes.is_quiet(one, self.quiet) for one in written.statements):
                    self.quiet.add(written.name)
                self.note_unread(written)
                passes.narrow_counters(written.statements)
            if not self.exports and not self.fixed:
                self.leave_out_unread(written)
                passes.narrow_counters(written.statements)
            self.note_passed_on(written)
            if not self.exports:
                self.convert(written, body)
            if not self.exports:
                self.make_readable(written, key[0].split("::")[0] in self.forest.own)
            if written.name in BY_OFFSET and not self.fixed:
                readable.with_byte(written.statements, written.parameters[1])
            written.statements = structs.hoisted(written.statements, self.name_of_struct)
            passes.on_expressions(written.statements, self.with_register)
            written.statements = readable.with_latch(written.statements, has_latch_bit, self.with_latch)
            passes.on_expressions(written.statements, with_arithmetic)
            if not self.exports:
                readable.without_idle_casts(written.statements, written.result)
            name_variables(body, written, self.parameters_of)
            if not self.exports:
                written.statements = readable.with_truths(written.statements)
            if self.registers:
                self.name_registers(written, *self.registers)
            if not self.exports:
                self.name_offsets(written)
                self.name_numbers(written, key, info)
            parameters = written.parameters
            if not self.exports and not written.is_public:
                parameters = self.without_unread_lengths(written)
            value = passes.only_value(written.statements, parameters)
            stands = self.exports and not is_public and (known or value is not None and is_constant(value))
            if value is not None and (stands or self.fixed and known and isinstance(value, c.Literal)):
                self.known_of[written.name], self.stands_for[written.name] = known, (value, parameters)
            if not self.exports and key[0].split("::")[0] not in self.forest.own and (value := passes.inner_value(written.statements)):
                self.inlined[written.name] = value, written.given
            passes.declare(written.statements)
            structs.placed(written.statements, self.members_of_maker)
            if not self.exports:
                written.statements = readable.with_whole_structs(written.statements, self.members_of)
            written.statements[:0] = passes.unread(written.statements, parameters)
            self.functions[key] = written
            self.order.append(written)
        found = self.functions[key]
        if found is None:
            raise Unknown(f"{key[0]} calls itself, or a function that could not be translated")
        return found

    def make_readable(self, written: Written, is_own: bool) -> None:
        """Gives a function the shapes that somebody would write. One that is not of our crates may be put in the place of its calls."""
        made = readable.without_flags(readable.with_joined_tests(written.statements))
        made = readable.without_overwritten(readable.with_one_variable(readable.without_result_flags(made)))
        results.without_idle_numbers(made, self.numbers_of, self.other_numbers, self.types.ok)
        made = passes.refined(made, self.with_names)
        passes.on_expressions(made, lambda one: readable.whole(one, self.members_of))
        made = readable.with_one_idle(readable.without_nulls(readable.without_single_cells(made)))
        made = readable.with_constant_arrays(
            made,
            lambda key: c.Word(self.statics[key], c.Pointer(c.BYTE, True)) if key in self.statics else None,
            lambda *given: self.helper("uart_copy_bytes", [*given], c.VOID),
        )
        made = readable.with_tables(made, self.table_of)
        made = readable.without_copies(readable.with_one_variable(readable.with_whole_structs(made, self.members_of)))
        if is_own:
            passes.on_expressions(made, readable.with_one_test)
        made = readable.without_nested_choices(readable.with_guards(made), name_of_choice)
        made = readable.with_one_register(readable.without_choices_of_choices(made))
        passes.on_expressions(made, readable.with_bytes)
        passes.on_expressions(made, readable.with_low_byte)
        passes.on_expressions(made, readable.with_one_number)
        passes.on_expressions(made, readable.with_constant_last)
        made = readable.without_tested_options(results.with_passed_numbers(made, self.numbers_of, self.types.ok))
        if numbers := results.numbers_of(made, self.numbers_of):
            self.numbers_of[written.name] = numbers
        written.statements = made

    def members_of(self, of: c.Type) -> list[str]:
        """The members of a struct of C, in order."""
        name = of.text().removeprefix("struct ")
        if text := next((text for its, text in self.types.declarations if its == name), None):
            return re.findall(r"(?m)^    [^\n/]*?(\w+)(?:\[\w+\])?;", text)
        known = next((its for its, shown in self.types.public.items() if shown == name), None)
        return [member for member, inner in self.types.fields(known) if not self.types.is_unit(inner)] if known else []

    def parameters_of(self, name: str) -> list[str]:
        """The names of the parameters of a function that is translated."""
        written = next((one for one in self.order if one.name == name), None)
        return [one.known_name() for one in written.parameters] if written else []

    def with_latch(self, one: c.CallOf) -> c.CallOf:
        """An access to one of the first two registers, while they are the divisor latch."""
        if one.name not in OFFSETS or not isinstance(one.arguments[1], c.Literal) or one.arguments[1].value not in LATCH:
            return one
        return dataclasses.replace(one, arguments=[one.arguments[0], self.register(one.arguments[1], LATCH), *one.arguments[2:]])

    def words_of(self, key: Key, body: Body) -> Words:
        """What the names in a function's comment are in C."""
        of = body.tree.locals[0]
        kind, crate = self.types.kind(of), key[0].split("::")[0]
        error = error_in(kind)
        numbers = dict[str, str]()
        if error and (told := self.types.told_of(error)):
            numbers = {name: " or ".join(those) for name, those in told.numbers_of_variants().items()}
        elif error:
            numbers = {name: number for name, number in self.types.failures.items()}
        is_true = of == "Bool" or kind.kind == "option" and kind.flag == "is_some"
        return Words(crate, frozenset() if self.exports else self.types.calls, numbers, is_true, self.types.ok, self.said)

    def errors_of(self, of: Type) -> list[str]:
        """The numbers of the errors in a result."""
        error = error_in(self.types.kind(of)) if of != "Unit" else None
        if error and self.types.gives_back(error):
            # What was given is given back with the error.
            error = self.types.fields(error)[1][1]
        if not error:
            return []
        told = self.types.told_of(error)
        return [one for those in told.numbers_of_variants().values() for one in those] if told else [self.types.failure(error)]

    def convert(self, written: Written, body: Body) -> None:
        """Makes a function return what it returns as C has it, and call others so."""
        result = body.information.result if body.information else ""
        is_size = re.search(r"\busize\b", result) is not None and not re.search(r"\bu64\b", result)
        form = results.form_of(self.types, body.tree.locals[0], written.name, is_size)
        taken = {one.name for one in written.parameters}
        names = [one.name if one.name not in taken else f"{one.name}_of" for one in (form.outs if form else ())]
        names = [called.POINTERS.get((written.name, one), one) for one in names]
        pointers = [c.Variable(c.Pointer(one.of), name, True, -1) for one, name in zip(form.outs if form else (), names)]
        written.statements = results.Conversion(self.forms, form, pointers).run(written.statements)
        if form:
            form, pointers = results.without_constants(written.statements, form, pointers)
        results.pass_on_pointers(written.statements)
        written.statements = passes.refined(written.statements, self.with_names)
        results.pass_on_pointers(written.statements)
        results.join_statuses(written.statements)
        if form:
            self.forms[written.name] = written.form = form
            written.result, written.pointers, written.parameters = form.status, pointers, [*written.parameters, *pointers]
        if written.result is INT:
            written.errors = self.errors_of(body.tree.locals[0])
        passes.settle(written.statements, written.result)

    # What is known of parameters.

    def constants(self) -> dict[Key, Known]:
        """The parameters that are one constant of an enum in all calls: as `known`."""
        calls, found = dict[str, list[list[c.Expression]]](), dict[Key, Known]()
        for one in self.order:
            made = made_of(one.statements)
            for part in c.all_parts(one.statements):
                if isinstance(part, c.CallOf):
                    given = [made.get(each.variable, each) if isinstance(each, c.Var) else each for each in part.arguments]
                    calls.setdefault(part.name, []).append(given)
        for key, written in self.functions.items():
            if written is None or written.is_public:
                continue
            facts = passes.Facts(written.statements)
            left = [order for order, one in enumerate(written.given) if one in written.parameters]
            mine = dict[int, c.Expression]()
            for order, parameter, *values in zip(left, written.parameters, *calls.get(written.name, ())):
                is_one = values and all(map(is_known_or_number if self.fixed else is_constant, values))
                if is_one and len(set(map(c.text, values))) == 1 and facts.is_fixed(parameter):
                    mine[order] = values[0]
            # With a number that is known a function is another one, unless it then has no parameter at all.
            is_all = len(mine) == len(written.parameters)
            if mine := {order: value for order, value in mine.items() if is_all or is_known(value)}:
                found[key] = mine
        return found

    def told_of(self, known: Known, parameters: list[c.Variable]) -> list[str]:
        """What a comment says of parameters that are left out. The header of a console says of all what they are."""
        if self.fixed:
            return []
        out = [""] if known else []
        for order, value in known.items():
            if isinstance(value, c.Literal):
                continue
            # Of a struct that is made of constants the last one says what it is.
            *_, word = [value] if isinstance(value, c.Word) else constants_in(value)
            kind = word.of.name if isinstance(word.of, c.Named) else ""
            shown = word.name.removeprefix(kind.removeprefix("enum ").upper() + "_").replace("_", " ").lower()
            out.append(f"The {parameters[order].name} is {shown} in each call, and so it is left out.")
        return out

    def put_known(self, statements: list[c.Statement], written: Written, known: Known) -> None:
        """Puts the constants in the place of parameters, which go."""
        constants = {written.parameters[order]: value for order, value in known.items()}

        def change(one: c.Expression) -> c.Expression:
            return constants.get(one.variable, one) if isinstance(one, c.Var) else one

        if known:
            passes.on_expressions(statements, change)
            written.parameters = [one for one in written.parameters if one not in constants]
            self.known_of[written.name] = known

    def put_members(self, statements: list[c.Statement]) -> None:
        """Puts their values in the place of members that are known, and leaves out what is written to them."""
        if not self.fixed:
            return

        def key_of(one: c.Expression) -> tuple[str, str] | None:
            return (one.base.of.text(), one.name) if isinstance(one, c.Field) else None

        def change(one: c.Expression) -> c.Expression:
            key = key_of(one)
            value = self.fixed.get(key) if key else None
            return passes.simpler(value(one) if value else one)

        for body in passes.every_list(statements):
            out = list[c.Statement]()
            for one in body:
                if isinstance(one, c.Set) and key_of(one.to) in self.fixed:
                    out += map(c.Do, passes.outer_calls(one.value))
                else:
                    out.append(one)
            body[:] = out
        passes.on_expressions(statements, change)

    def leave_out_unread(self, written: Written) -> None:
        """Leaves out what is given for parameters that nothing reads, and puts in the place of a call what it only passes its arguments on
        to, or the number that it is."""

        def change(one: c.Expression) -> c.Expression:
            if not isinstance(one, c.CallOf):
                return one
            left = [order for order in range(len(one.arguments)) if order not in self.unread.get(one.name, ())]
            arguments = [one.arguments[order] for order in left]
            if any(passes.outer_calls(each) for order, each in enumerate(one.arguments) if order not in left):
                raise Unknown(f"a call of {one.name} with one that would be left out")
            if one.name in self.instead:
                return c.rebuilt(with_arguments(*self.instead[one.name], arguments), passes.simpler)
            return dataclasses.replace(one, arguments=arguments, expects=tuple(one.expects[order] for order in left) if one.expects else ())

        passes.on_expressions(written.statements, change)
        readable.without_idle_masks(written.statements, self.bits_of)

    def without_unread_lengths(self, written: Written) -> list[c.Variable]:
        """Leaves out the lengths of arrays that nothing reads. Returns the parameters that are left."""
        reads = passes.Facts(written.statements).reads
        gone = {order for order, one in enumerate(written.parameters) if one.known_name().endswith("_len") and not reads.get(one)}
        if gone:
            self.unread[written.name] = self.unread.get(written.name, set()) | gone
            written.parameters = [one for order, one in enumerate(written.parameters) if order not in gone]
        return written.parameters

    def note_passed_on(self, written: Written) -> None:
        """Notes of a function that called.py names that the one which it calls stands in the place of its calls."""
        call = passes.passed_on(written.statements, written.parameters)
        if written.name in called.PASSED_ON and isinstance(call, c.CallOf):
            self.instead[written.name] = (call, [*written.parameters])
        last = written.statements[-1] if written.statements else None
        bits = readable.bits_of_results(written.statements)
        if bits is not None:
            self.bits_of[written.name] = bits
        if written.name in self.written_out and isinstance(last, c.Return) and last.value and of_parameters(last.value, written):
            self.instead[written.name] = (last.value, [*written.parameters])

    def note_unread(self, written: Written) -> None:
        """Leaves out the parameters that nothing reads, and notes of a function whether another one stands in the place of its calls."""
        reads = passes.Facts(written.statements).reads
        gone = {order for order, one in enumerate(written.parameters) if not reads.get(one)}
        if gone:
            self.unread[written.name] = gone
            written.parameters = [one for order, one in enumerate(written.parameters) if order not in gone]
        value = passes.passed_on(written.statements, written.parameters)
        if isinstance(value, c.Literal) or isinstance(value, c.CallOf) and value.name in self.passed_on:
            self.instead[written.name] = value, list(written.parameters)

    def is_constant_call(self, call: c.CallOf) -> bool:
        """Whether a call stands for a constant, and has no argument that is known."""
        value = self.stands_for[call.name][0] if call.name in self.stands_for else None
        return isinstance(value, c.Word) and not self.known_of.get(call.name)

    def leave_out_known(self, statements: list[c.Statement], which: Callable[[c.CallOf], bool] = lambda call: True) -> bool:
        """Leaves out the arguments that are known of these calls, and puts what a call stands for in its place. Returns whether there was
        one."""
        found, made = False, made_of(statements)

        def change(one: c.Expression) -> c.Expression:
            nonlocal found
            known = self.known_of.get(one.name) if isinstance(one, c.CallOf) and which(one) else None
            if not isinstance(one, c.CallOf) or known is None:
                return one
            found = True
            for order, value in known.items():
                argument = one.arguments[order]
                argument = made.get(argument.variable, argument) if isinstance(argument, c.Var) else argument
                if not is_known_or_number(argument) or c.text(argument) != c.text(value):
                    raise Unknown(f"a call of {one.name} without {c.text(value)}")
            left = [order for order in range(len(one.arguments)) if order not in known]
            arguments = [one.arguments[order] for order in left]
            stands = self.stands_for.get(one.name)
            # A constant takes no arguments, so none of them may be a call that does something.
            if stands and not (isinstance(stands[0], c.Word) and any(map(passes.outer_calls, arguments))):
                return with_arguments(*stands, arguments)
            return dataclasses.replace(one, arguments=arguments, expects=tuple(one.expects[order] for order in left))

        passes.on_expressions(statements, change)
        return found

    def name_of(self, key: Key) -> str:
        if key[0] in self.exports:
            return self.exports[key[0]][0]
        return self.names.get(key) or self.plain_name_of(key)

    def plain_name_of(self, key: Key) -> str:
        name = self.name_by_place(key)
        return called.FUNCTIONS.get(name, name) if not self.exports else name

    def name_by_place(self, key: Key) -> str:
        """A name by where a function is in the source."""
        path = key[0].split("::")
        name = snake(path[-1].replace("+", "_"))
        of = self.name_of_type(path[0], path[-2]) if path[-2][:1].isupper() else ""
        if len(path) > 2 and path[-3] == "embedded_io":
            of = ""
        if len(path) > 2 and path[-3] == "fn":
            # What is written within a function, without a name.
            of = snake(path[-2])
        if path[0] in self.forest.own:
            return "_".join(one for one in ("uart", of, name) if one)
        inner = [self.types.bare_name(one) for one in key[1] if one not in (DEVICE, PATIENCE, PORTS) and one[0] != "Num"]
        return re.sub(r"\W", "_", "_".join(["uart", of or path[-2], name, *inner]))

    def name_of_type(self, crate: str, name: str) -> str:
        """The name of the type of an implementation."""
        of = self.source.type_of(crate, name)
        shown = of if of and of != name and name[len(of) :] in self.source.traits else re.sub(r"[+].*", "", name)
        return re.sub("^uart(16550)?_?", "", snake(shown))

    def clashes(self) -> dict[Key, str]:
        """Names for the functions that would have one with another: a method has its name before that of its type, another function has that
        of its module, and where that is not enough the types that it is over."""
        plain, out = dict[str, list[Key]](), dict[Key, str]()
        for key in self.functions:
            name = self.exports[key[0]][0] if key[0] in self.exports else self.plain_name_of(key)
            plain.setdefault(name, []).append(key)
        for name, keys in plain.items():
            for key in keys:
                if len(keys) > 1 and key[0] not in self.exports:
                    out[key] = self.longer_name(key, name, keys)
                # In C++ a function would hide a struct of its name.
                if out.get(key, name) in self.types.names:
                    out[key] = f"{out.get(key, name)}_of"
        return out

    def longer_name(self, key: Key, name: str, keys: list[Key]) -> str:
        """A name for a function that has this one with others."""
        crate, *_, module, method = key[0].split("::")
        if module[:1].isupper():
            if any(other[0] in self.exports for other in keys):
                return f"uart_{snake(method)}_{self.name_of_type(crate, module)}"
            return name if crate == self.forest.own[-1] else f"{crate}_{name.removeprefix('uart_')}"
        same = [other for other in keys if other[0] == key[0]]
        differing = [order for order, of in enumerate(key[1]) if any(other[1][order] != of for other in same)]
        types = "".join(f"_{self.types.bare_name(key[1][order])}" for order in differing)
        is_alone = len({other[0] for other in keys}) == 1
        return f"{name}{types}" if is_alone else f"uart_{snake(module)}_{name.removeprefix('uart_')}{types}"

    # What bodies ask for.

    def call(self, key: Key, arguments: list[InC], body: Body) -> c.Expression:
        if key[0] not in self.forest.program.functions:
            raise Unknown(f"no function {key[0]}")
        written = self.function(key)
        given = list[c.Expression]()
        for one in arguments:
            given += [one.pointer, one.length] if isinstance(one, Pair) else [] if one is None else [expression(one)]
        if len(given) != len(written.given):
            raise Unknown(f"{len(given)} arguments for {written.name}")
        for order, (value, parameter) in enumerate(zip(given, written.given)):
            body.join(value, c.Var(parameter), "=")
            if isinstance(value, c.Literal):
                given[order] = self.with_names(value, parameter.meaning)
        if written.name in self.inlined and not any(isinstance(part, c.CallOf) for one in given for part in c.every(one)):
            return with_arguments(*self.inlined[written.name], given)
        return c.CallOf(written.name, given, written.whole, expects=tuple(one.of for one in written.given))

    def with_register(self, one: c.Expression) -> c.Expression:
        """A call with the name of a register in place of its offset."""
        if isinstance(one, c.CallOf) and len(one.arguments) > 1 and isinstance(one.arguments[1], c.Literal) and one.name in OFFSETS:
            offset = self.register(one.arguments[1], OFFSETS[one.name])
            return dataclasses.replace(one, arguments=[one.arguments[0], offset, *one.arguments[2:]])
        return one

    def is_large(self, of: c.Type) -> bool:
        """Whether a type of C is a struct that is large, or that has an array."""
        structs = in_place.large(self.types.declarations, LARGE)
        return isinstance(of, c.Named) and of.name.removeprefix("struct ") in structs

    def name_registers(self, written: Written, read: dict[int, str], set_to: dict[int, str]) -> None:
        """Names the registers with which an offset is compared."""
        names = set_to if any(one.name == "value" for one in written.parameters) else read

        def is_offset(one: c.Expression) -> bool:
            while isinstance(one, c.Cast):
                one = one.operand
            return isinstance(one, c.Var) and one.variable.name == "offset"

        def named(one: c.Expression) -> c.Expression:
            return c.Literal(one.value, one.of, (names[one.value],)) if isinstance(one, c.Literal) and one.value in names else one

        def change(one: c.Expression) -> c.Expression:
            if isinstance(one, c.Binary) and one.operator in ("==", "!=") and is_offset(one.left):
                return c.Binary(one.operator, one.left, named(one.right), one.of)
            return one

        passes.on_expressions(written.statements, change)
        for one in c.all_statements(written.statements):
            if isinstance(one, c.Switch) and is_offset(one.on):
                one.cases = [(numbers and list(map(named, numbers)), body) for numbers, body in one.cases]
            if (
                isinstance(one, c.Return)
                and isinstance(one.value, c.Literal)
                and written.is_public
                and one.value.value in self.returned
                and written.result.text() == "uint32_t"
            ):
                one.value = c.Literal(one.value.value, one.value.of, (self.returned[one.value.value],))

    def number_of(self, of: Type, tag: int, parts: Sequence[c.Expression]) -> c.Expression:
        """The number of a variant: that of an error which is in it, if there is one."""
        told = self.types.told_of(of)
        numbers = told.numbers.get(self.types.variants(of)[tag][0]) if told else None
        if not isinstance(numbers, Mapping):
            return c.Word(self.types.constant(of, tag), self.types.c(of))
        inner = self.types.variants(of)[tag][2][0]
        found = {self.types.constant(inner, order): numbers[name] for order, (name, _, _) in enumerate(self.types.variants(inner))}
        if all(one == other for one, other in found.items()):
            return parts[0]
        name = f"uart_{self.types.bare_name(of)}_of"
        if len(set(found.values())) == 1:
            return c.Word(next(iter(found.values())), INT)
        if len(found) > 2:
            raise Unknown(f"an error in {of[1]} with more than two variants")
        (one, its), (_, last) = found.items()
        self.other_numbers[name] = found
        self.helpers[name] = (
            f"/* Returns the number that the caller has for the same error. */\nstatic inline int {name}(int error)\n{{\n"
            f"    return error == {one} ? {its} : {last};\n}}\n"
        )
        return c.CallOf(name, [parts[0]], INT, True, (INT,))

    def name_offsets(self, written: Written) -> None:
        """Names the registers with which an offset is compared."""
        table = WRITTEN if any(one.name == "value" for one in written.parameters) else READ

        def change(one: c.Expression) -> c.Expression:
            if not (isinstance(one, c.Binary) and one.operator in ("==", "!=") and isinstance(one.left, c.Var) and isinstance(one.right, c.Literal)):
                return one
            is_offset = one.left.variable.name == "offset"
            return dataclasses.replace(one, right=self.register(one.right, table)) if is_offset else one

        passes.on_expressions(written.statements, change)

    def name_numbers(self, written: Written, key: Key, info: Function | None) -> None:
        """Names the bits that a register is tested for, and the numbers that the source has a name for where the function is."""
        crate, found, shown = key[0].split("::")[0], dict[int, list[str]](), dict[str, str]()

        def note(its: str, name: str, number: int, module: str) -> str:
            known = self.number_name(name, module)
            about = Words(its, self.types.calls, {}, said=self.said).text(self.source.about.get((its, name), []))
            self.about_numbers.setdefault(known, " ".join(about))
            shown[known] = f"{number:#04x}" if (its, name) in self.source.of_bits else str(number)
            return known

        for name in info.constants if info else ():
            its = crate if (crate, name) in self.source.constants else "uart_spec"
            value = self.source.constants.get((its, name))
            if value and not (value[1] == "offsets" or value[0] > 0x7FFF):
                found.setdefault(value[0], []).append(note(its, name, *value))
        for (its, name), (number, module) in self.source.constants.items():
            # What is in the place of its call names what is near.
            if info and its == crate and module == info.module and 1 < number <= 0x7FFF and number not in found:
                found[number] = [note(its, name, number, module)]
        known = {number: names[0] for number, names in found.items() if len(names) == 1}

        def named(one: c.Expression) -> c.Expression:
            if not isinstance(one, c.Literal) or one.names or one.is_bits or one.value not in known:
                return one
            self.numbers[known[one.value]] = shown[known[one.value]]
            return dataclasses.replace(one, names=(known[one.value],))

        def change(one: c.Expression) -> c.Expression:
            if isinstance(one, c.Binary) and one.operator in BESIDE_NUMBERS:
                one = dataclasses.replace(one, left=named(one.left), right=named(one.right))
                return self.with_bits(one)
            if isinstance(one, c.Unary) and one.operator == "~":
                return dataclasses.replace(one, operand=as_bits(named(one.operand)))
            if isinstance(one, c.CallOf):
                return dataclasses.replace(one, arguments=list(map(named, one.arguments)))
            return dataclasses.replace(one, yes=named(one.yes), no=named(one.no)) if isinstance(one, c.Choice) else one

        passes.on_expressions(written.statements, change)
        self.name_numbers_by_hand(written)
        is_text = info is not None and info.module == "tty"
        if is_text:
            passes.on_expressions(written.statements, with_characters)
        for one in c.all_statements(written.statements):
            if is_text and isinstance(one, c.Switch) and on_byte(one.on):
                one.cases = [(labels and [*map(as_character, labels)], body) for labels, body in one.cases]
            if isinstance(one, c.Switch):
                is_masked = isinstance(one.on, c.Binary) and one.on.operator == "&"
                one.cases = [(labels and [as_bits(named(each)) if is_masked else named(each) for each in labels], body) for labels, body in one.cases]
            elif isinstance(one, (c.Return, c.Set)) and one.value is not None:
                one.value = named(one.value)
            elif isinstance(one, c.For) and isinstance(one.condition, c.Binary):
                one.condition = dataclasses.replace(one.condition, right=named(one.condition.right))

    def name_numbers_by_hand(self, written: Written) -> None:
        """Names the numbers of a function that called.py has names for."""
        names = called.NUMBERS.get(written.name, {})

        def named(one: c.Expression) -> c.Expression:
            if not isinstance(one, c.Literal) or one.value not in names:
                return one
            name = names[one.value]
            if not re.match(r"UINT\d", name):
                self.numbers[name] = c.number_text(dataclasses.replace(one, names=(), is_bits="_CODE" in name or name.startswith("UART_ALL")))
            return dataclasses.replace(one, names=(name,))

        passes.on_expressions(written.statements, named)
        for one in c.all_statements(written.statements):
            if isinstance(one, c.Switch):
                one.on = c.rebuilt(one.on, named)
                one.cases = [(labels and [named(each) for each in labels], body) for labels, body in one.cases]

    def shift_codes(self) -> None:
        """Has the functions that return the code of a field return it where the field is in its register, with the names of its bits, where
        each call shifts it to there."""
        calls = [part for one in self.order for part in c.all_parts(one.statements)]
        for written in self.order:
            names = called.CODES.get(written.name)
            if names is None or self.known_of.get(written.name):
                continue
            count = sum(isinstance(part, c.CallOf) and part.name == written.name for part in calls)
            shifted = {shift[1] for part in calls if (shift := shift_of(part, written.name))}
            if len(shifted) > 1 or shifted and sum(shift_of(part, written.name) is not None for part in calls) != count:
                raise Unknown(f"calls of {written.name} that shift by more than one number")
            written.shift = shifted.pop() if shifted else 0
            for other in self.order:
                passes.on_expressions(other.statements, lambda part: found[0] if (found := shift_of(part, written.name)) else part)
            bits = dict[str, int]()
            for one in c.all_statements(written.statements):
                if isinstance(one, c.Return) and isinstance(one.value, c.Literal):
                    value = one.value.value << written.shift
                    mine = names.get(value, ())
                    bits |= {mine[-1]: value - sum(bits[each] for each in mine[:-1])} if mine else {}
                    one.value = c.Literal(value, one.value.of, tuple(f"{self.prefix}_{each}" for each in mine), is_bits=True)
            if list(bits) != list(dict.fromkeys(each for mine in names.values() for each in mine)):
                raise Unknown(f"{written.name} has not the codes of called.py")
            self.bits |= {f"{self.prefix}_{name}": value for name, value in bits.items()}
        for written in self.order:
            register = f"{written.name.split('_')[1].upper()}_"
            known = {value: names for codes in called.CODES.values() for value, names in codes.items() if names[0].startswith(register)}
            passes.on_expressions(written.statements, lambda one: self.with_code(one, known))
        codes = {one.name: codes_by_constant(one) for one in self.order if one.name in called.CODES}
        for written in self.order:
            passes.on_expressions(written.statements, lambda one: code_of_constant(one, codes))

    def with_code(self, one: c.Expression, known: Mapping[int, tuple[str, ...]]) -> c.Expression:
        """A constant code that is shifted to its field, by its name there, if that is one bit or one field."""
        shifted = one.operand if isinstance(one, c.Cast) else None
        if not isinstance(shifted, c.Binary) or shifted.operator != "<<":
            return one
        code, by = shifted.left, shifted.right
        if not isinstance(code, c.Literal) or not isinstance(by, c.Literal) or len(names := known.get(code.value << by.value, ())) != 1:
            return one
        self.bits[f"{self.prefix}_{names[0]}"] = code.value << by.value
        return c.Literal(code.value << by.value, one.of, (f"{self.prefix}_{names[0]}",))

    def join_same(self) -> None:
        """Calls one function in the place of another one that is the same."""
        found = {one.name: one for one in self.order}
        for name, other in called.SAME.items():
            if name in found and other in found and found[name].body() == found[other].body():
                self.joined.add(name)
        for one in self.order:
            passes.on_expressions(one.statements, self.joined_call)

    def joined_call(self, one: c.Expression) -> c.Expression:
        return dataclasses.replace(one, name=called.SAME[one.name]) if isinstance(one, c.CallOf) and one.name in self.joined else one

    def number_name(self, name: str, module: str) -> str:
        its = f"UART_{module.upper()}_{name}" if name in READ.values() or name in WRITTEN.values() or name == "NONE" else f"UART_{name}"
        return called.SAME_NUMBERS.get(its, its)

    def with_bits(self, one: c.Binary) -> c.Expression:
        """A test of a register, with the names of its bits, or of those that stay. Bits without a name are written as such."""
        if not isinstance(one.right, c.Literal) or one.right.names or one.operator not in ("&", "|", "^", "==", "!="):
            return one
        left = one.left.left if one.operator in ("==", "!=") and isinstance(one.left, c.Binary) and one.left.operator == "&" else one.left
        if left is one.left and one.operator in ("==", "!="):
            return one
        register = REGISTERS.match(left.variable.name or "") if isinstance(left, c.Var) else None
        of = ("Named", f"uart_spec::{register[1].upper()}", ()) if register else None
        for value in (one.right.value, 255 ^ one.right.value):
            literal = self.with_names(c.Literal(value, one.right.of), of)
            if literal.names and (value == one.right.value or one.operator == "&"):
                right = literal if value == one.right.value else c.Cast(c.BYTE, c.Unary("~", literal, c.BYTE))
                return dataclasses.replace(one, right=right)
        return dataclasses.replace(one, right=as_bits(one.right))

    def helper(self, name: str, arguments: list[c.Expression], of: c.Type) -> c.CallOf:
        self.helpers[name] = HELPERS[name]
        return c.CallOf(name, arguments, of)

    def move_down(self, items: c.Expression, places: list[c.Expression]) -> c.CallOf:
        """The call that moves items towards the front of their array: from where, to where, and how many."""
        item = c.pointed(items.of).text()
        is_byte = item == "uint8_t"
        name = f"uart_move_down_{'byte' if is_byte else re.sub(r'^struct (uart_|u16550_)?', '', item)}s"
        shown = MOVE_DOWN.replace("MOST", str(MOST_BYTES if is_byte else MOST_STRUCTS)).replace("NAME", name).replace("ITEM", item)
        self.movers[name] = shown.replace("items towards", f"{'bytes' if is_byte else name.rsplit('_', 1)[1]} towards")
        return c.CallOf(name, [items, *places], c.VOID)

    def register(self, literal: c.Literal, table: dict[int, str]) -> c.Literal:
        """The offset of a register by its name."""
        name = table.get(literal.value)
        if name is None:
            return literal
        self.offsets[name] = literal.value
        return c.Literal(literal.value, literal.of, (f"UART_{name}",))

    def with_names(self, literal: c.Literal, of: Type) -> c.Literal:
        """A number of a register by the names of its bits. Together they are the number, or it stays one."""
        if literal.names or not isinstance(of, tuple) or of[0] != "Named" or not literal.value:
            return literal
        crate, register = of[1].split("::")[0], of[1].split("::")[-1]
        bits = {name: value for name, value in self.source.bits.get((crate, register), {}).items() if not name.startswith("_") and value}
        exact = [name for name, value in bits.items() if value == literal.value] or field_of(bits, literal.value)
        single = [name for name, value in bits.items() if value & (value - 1) == 0 and value & literal.value]
        names = exact[:1] or (single if sum(bits[name] for name in single) == literal.value and len(single) <= 4 else [])
        if not names or exact == [] and sum(bits[name] for name in names) != literal.value:
            return dataclasses.replace(literal, is_of_register=bool(bits))
        # A header of the library for C has the names of the source.
        renamed = {} if self.exports else called.BITS
        own = {name: f"{register}_{name}" for name in names}
        shown = {f"{self.prefix}_{renamed.get(one, one)}": bits.get(name, literal.value) for name, one in own.items()}
        self.bits |= shown
        return c.Literal(literal.value, literal.of, tuple(shown))

    def size_of(self, item: c.Type) -> int | None:
        """How many bytes a number has in the MIR, or a struct of bytes."""
        if isinstance(item, c.Number):
            return item.bits // 8
        of = next((of for of, name in self.types.public.items() if item.text() == f"struct {name}"), None)
        if of is None:
            return None
        fields = self.types.fields(of)
        are_bytes = all(self.types.c(inner).text() == "uint8_t" for _, inner in fields)
        return len(fields) if are_bytes else None

    def static(self, value: Static, function: str) -> c.Word:
        """A constant array, as a pointer to its first item."""
        kind, inner = head(value.node)
        if kind == "Parts" and all(head(one)[0] == "Int" for one in inner):
            values = [head(one)[1]["value"] for one in inner]
        elif kind == "Ints":
            values = inner["values"]
        else:
            raise Unknown(f"a static {kind}")
        if value.of[0] != "Array" or value.of[1] != ("Int", 8):
            raise Unknown(f"a static of {value.of}")
        key = tuple(values)
        if key not in self.statics:
            base = safe(snake(function.split("::")[-1]))
            count = sum(name.startswith(f"uart_{base}_bytes") for name in self.statics.values())
            self.statics[key] = called.ARRAYS.get(bytes(key)) or f"uart_{base}_bytes{count + 1 if count else ''}"
        return c.Word(self.statics[key], c.Pointer(c.BYTE, True))

    def table_of(self, values: tuple[int, ...]) -> c.Word | None:
        """A constant array of these bytes, if called.py has a name for it."""
        name = called.TABLES.get(values)
        if name:
            self.statics[values] = name
        return c.Word(name, c.Pointer(c.BYTE, True)) if name else None

    def all_bits(self, key: Key) -> int:
        """The bits that `Flags::all` joins: those of the table in the MIR."""
        dictionary = key[2][0]
        name = self.forest.program.methods.get((dictionary[0], 0))
        if name is None:
            listed = self.forest.program.implementations[dictionary[0]]["methods"]
            name = listed[0]
        statics = [head(one)[1] for one in self.forest.program.functions[name]["body"] if head(one)[0] == "LendStatic"]
        return table_of_bits(statics)

    # Structs.

    def made(self, of: Type, tag: int | str | None, fields: Sequence[tuple[str, c.Expression]]) -> c.CallOf:
        """A struct of these parts, as a call of a function that would make it."""
        if of[0] == "Named" and of[1] == "core::ops::ControlFlow":
            raise Unknown("a ControlFlow that is made")
        kind, name = self.types.kind(of), self.types.plain_name(of)
        made = self.types.c(of)
        variable = [(field, value) for field, value in fields if not isinstance(value, c.Word)]
        types = self.types_of_members(of)
        return c.CallOf(
            self.maker_name(of, kind, tag, name),
            [value for _, value in variable],
            made,
            True,
            tuple(types.get(field, value.of) for field, value in variable),
            {**dict(fields), **{field: order for order, (field, _) in enumerate(variable)}},
            of,
        )

    def members_of_maker(self, maker: c.CallOf) -> list[tuple[str, c.Expression]]:
        """The members of a struct that is made, each with what it has if nobody gives it a value."""
        types = self.types_of_members(maker.meaning)
        return [(name, c.Word(self.zero(inner), types[name])) for name, inner in self.members(maker.meaning)]

    def name_of_struct(self, maker: c.CallOf) -> str:
        """What a struct is called that is made within a statement."""
        return re.sub(r"^(maybe_)", "", self.types.bare_name(maker.meaning))

    def maker_name(self, of: Type, kind: Kind, tag: int | str | None, name: str) -> str:
        bare = re.sub(r"^(uart|u16550_core|u16550)_", "", name)
        if kind.kind == "option":
            bare = bare.removeprefix("maybe_")
            is_full = tag == kind.full
            if kind.flag == "is_error":
                return f"uart_{'failed' if is_full else 'no'}_{bare}"
            return f"uart_{'some' if is_full else 'no'}_{bare}"
        if kind.kind in ("outcome", "either"):
            return f"uart_{'bad' if tag else 'good'}_{bare}"
        if tag is None:
            return f"uart_make_{bare}"
        return f"uart_{bare}_{tag if isinstance(tag, str) else snake(self.types.variants(of)[tag][0])}"

    def members(self, of: Type) -> list[tuple[str, Type]]:
        """The members of the struct of C: name and type of the MIR, or of C."""
        kind = self.types.kind(of)
        if kind.kind == "option":
            return [(kind.flag, "Bool"), (kind.member, kind.value)]
        if kind.kind == "outcome":
            return [("error", kind.error), ("value", kind.value)]
        if kind.kind == "either":
            return [("is_error", "Bool"), ("error", kind.error), ("value", kind.value)]
        if kind.kind == "tagged":
            return [("kind", ("Kind", of))] + [
                (self.types.part_name(of, tag, order), one)
                for tag, (_, _, part) in enumerate(self.types.variants(of))
                for order, one in enumerate(part)
                if self.types.is_part(of, tag, one)
            ]
        if kind.kind == "slice":
            return [("data", kind.value), ("len", ("Int", 64))]
        return [(name, inner) for name, inner in self.types.fields(of) if not self.types.is_unit(inner)]

    def types_of_members(self, of: Type) -> dict[str, c.Type]:
        out = dict[str, c.Type]()
        for name, inner in self.members(of):
            if inner[0] == "Kind":
                out[name] = self.types.tag(of)
            else:
                is_size = self.types.kind(of).kind == "slice" and name == "len" or self.types.kind(of).kind == "struct" and self.size_member(of, name)
                out[name] = c.Pointer(c.BYTE) if inner == "Ptr" else self.types.c(inner, is_size)
        return out

    def size_member(self, of: Type, name: str) -> bool:
        return any(field == name and self.types.is_size(of, order) for order, (field, _) in enumerate(self.types.fields(of)))

    def zero(self, of: Type) -> str:
        """The text of a value of which all is zero."""
        if of[0] == "Kind":
            first = self.types.constants(of[1])[0].split("=")[0].strip()
            return first
        kind = self.types.kind(of)
        if kind.kind == "bool":
            return "false"
        if kind.kind in ("number", "wrapper"):
            return "0" if self.types.c(of) is not c.BOOL else "false"
        if kind.kind in ("pointer", "nullable"):
            return "NULL"
        if kind.kind == "status":
            return self.zero(kind.error)
        if kind.kind == "array":
            return "{ { 0 } }"
        if kind.kind == "enum":
            return self.types.constants(of)[0].split("=")[0].strip()
        if kind.kind == "option" and self.types.is_unit(kind.value):
            return "false"
        if kind.kind == "device":
            return NO_DEVICE
        return "{ " + ", ".join(self.zero(inner) for _, inner in self.members(of)) + " }"

    def slice_of(self, pair: Pair[c.Expression]) -> c.CallOf:
        """A slice as the struct of C."""
        inner = pair.pointer.of
        if not (isinstance(inner, c.Pointer) and isinstance(inner.to, c.Number) and inner.to.bits == 8):
            raise Unknown(f"a slice in a struct, behind {inner.text()}")
        of = ("Struct", "&[]", (("Ref", ("Int", 8), not inner.is_const), ("Int", 64)))
        return self.made(of, None, [("data", pair.pointer), ("len", pair.length)])

    def no_error(self, of: Type) -> c.Expression:
        none = c.Word(self.types.constant(of, None), self.types.c(of))
        if self.types.kind(of).kind == "enum":
            return none
        return self.made(of, "none", [("kind", none)])

    def is_error(self, one: c.Expression, of: Type) -> c.Binary:
        none = self.types.constant(of, None)
        if self.types.kind(of).kind == "enum":
            return c.Binary("!=", one, c.Word(none, one.of), c.BOOL)
        number = self.types.tag(of)
        return c.Binary("!=", c.Field(one, "kind", number), c.Word(none, number), c.BOOL)

    # Text.

    def called(self) -> list[Written]:
        """The functions without those whose calls have gone on the way."""
        in_loops, out, text = self.called_in_loops(), list[Written](), "" if self.exports else None
        calls = {part.name for one in self.order for part in c.all_parts(one.statements) if isinstance(part, c.CallOf)}
        for one in reversed(self.order):
            if one.name not in calls and (one.name in self.inlined or one.name in called.PASSED_ON | self.written_out | self.joined):
                continue
            if text is None or one.is_public or re.search(rf"\b{one.name}\(", text):
                out.insert(0, one)
                text = None if text is None else text + one.text(in_loops, self.short, self.apart, self.words)
        return out

    def called_in_loops(self) -> set[str]:
        """The names of the functions that are called in loops."""
        return {name for one in self.order for name in one.called_in_loops()}

    def text(self) -> str:
        """The functions with what they need, without what the header has."""
        if not self.exports and not self.are_codes_shifted:
            self.shift_codes()
            self.join_same()
            self.are_codes_shifted = True
        in_loops = self.called_in_loops()
        functions = "\n".join(one.text(in_loops, self.short, self.apart, self.words) for one in self.called())
        out = [text for name, text in sorted(self.helpers.items()) if f"{name}(" in functions]
        for values, name in self.statics.items():
            is_text = all(one in CHARACTERS for one in values[:-1])
            shown = ", ".join(character(one) if is_text else str(one) for one in values)
            out.append("\n".join(c.wrapped(f"static const uint8_t {name}[{len(values)}] = {{ {shown} }};")) + "\n")
        out += [text for name, text in sorted(self.movers.items()) if f"{name}(" in functions]
        return "\n".join([*out, functions])


def field_of(bits: Mapping[str, int], value: int) -> list[str]:
    """The name of a field of a register, of which each bit has a name that ends with its number there."""
    fields = dict[str, int]()
    for name, bit in bits.items():
        if name[-1].isdigit() and bit & (bit - 1) == 0:
            field = name.rstrip("0123456789").rstrip("_")
            fields[field] = fields.get(field, 0) | bit
    return [name for name, joined in fields.items() if joined == value and joined & (joined - 1)]


def shift_of(one: c.Expression | c.Variable, name: str) -> tuple[c.CallOf, int] | None:
    """The call of this function that is shifted here, and how far."""
    shifted = one.operand if isinstance(one, c.Cast) else None
    if not isinstance(shifted, c.Binary) or shifted.operator != "<<" or not isinstance(shifted.right, c.Literal):
        return None
    call = readable.without_cast(shifted.left)
    return (call, shifted.right.value) if isinstance(call, c.CallOf) and call.name == name else None


def has_latch_bit(one: c.Expression) -> bool:
    """Whether a value that is written has DLAB set."""
    if isinstance(one, c.Binary) and one.operator == "|":
        return has_latch_bit(one.left) or has_latch_bit(one.right)
    return isinstance(one, c.Literal) and any(name.endswith("_LCR_DLAB") for name in one.names)


def on_byte(one: c.Expression) -> bool:
    """Whether this is a byte of a text."""
    return isinstance(one, c.Var) and one.of.text() == "uint8_t"


def with_characters(one: c.Expression) -> c.Expression:
    """A comparison of a byte of a text with a character."""
    is_test = isinstance(one, c.Binary) and one.operator in c.COMPARISONS and on_byte(one.left)
    return dataclasses.replace(one, right=as_character(one.right)) if isinstance(one, c.Binary) and is_test else one


def as_character(one: c.Expression) -> c.Expression:
    """A number as the character that it is."""
    if not isinstance(one, c.Literal) or one.names:
        return one
    return dataclasses.replace(one, names=(CHARACTERS[one.value],)) if one.value in CHARACTERS else as_bits(one)


def character(value: int) -> str:
    """A byte as the character that it is."""
    return CHARACTERS.get(value, str(value))


def table_of_bits(statics: list[Node]) -> int:
    """The bits of a table: each entry is a name and a value."""
    found = []

    def go(node: Node) -> None:
        if not isinstance(node, (dict, str)):
            return
        kind, value = head(node)
        if kind == "Int" and value["width"] == 8:
            found.append(value["value"])
        elif kind == "Parts":
            for one in value:
                go(one)
        elif kind == "Ints":
            return

    for _, _, node in statics:
        go(node)
    bits = 0
    for one in found:
        bits |= one
    return bits


# Names of variables.


def note_names(body: Body, parameters: Sequence[c.Variable]) -> None:
    """Notes which variables the source has a name for."""
    names = names_by_order(body)
    for variable in parameters:
        variable.is_named = True
    for one in c.all_statements(body.statements):
        if isinstance(one, c.Set) and isinstance(one.to, c.Var):
            variable = one.to.variable
            origin = body.tree.origin[variable.local] if 0 <= variable.local < len(body.tree.origin) else None
            variable.is_named = variable.is_named or origin in names and variable.hint != "len"


def name_variables(body: Body, written: Written, parameters_of: Callable[[str], list[str]]) -> None:
    """The names of the source for the locals, in order; else one that says what it is. Where no statement has both, two have one name."""
    taken = {one.name for one in written.parameters}
    names = names_by_order(body)
    unnamed = [part.variable for part in c.all_parts(written.statements) if isinstance(part, c.Var) and part.variable.name is None]
    hints = Hints(written.statements, parameters_of)
    homes = dict[str, list[tuple[int, ...]]]()
    for variable in sorted(dict.fromkeys(unnamed), key=lambda one: not one.is_named):
        origin = body.tree.origin[variable.local] if 0 <= variable.local < len(body.tree.origin) else None
        base = names.get(origin) if origin is not None else None
        if base and variable.hint == "len":
            base += "_len"
        if base == "byte" and isinstance(variable.of, c.Number) and variable.of.bits == 64:
            # The place of a byte, which the source does not name.
            base = "i"
        home = home_of(written.statements, variable)
        found = [base] if base else [*hints.of(variable), variable.hint or by_type(body, variable)]
        words = [safe(re.sub(r"\W", "_", one)) for one in found]
        free = [one for one in words if one not in taken and not any(is_within(home, other) for other in homes.get(one, ()))]
        name, count = free[0] if free else words[0], 1
        if name in {one.name for one in written.pointers}:
            name = words[0] = f"found_{name}"
        while name in taken or any(is_within(home, other) for other in homes.get(name, ())):
            count += 1
            name = f"{words[0]}{count}"
        variable.name = called.VARIABLES.get((written.name, name), name)
        for one in {name, variable.name}:
            homes.setdefault(one, []).append(home)


def home_of(statements: list[c.Statement], variable: c.Variable, path: tuple[int, ...] = ()) -> tuple[int, ...]:
    """Where a variable is declared: the lists that lead there, by what they are known by."""
    has = [one for one in statements if passes.mentions([one], variable)]
    path = (*path, id(statements))
    if len(has) == 1:
        if isinstance(has[0], c.For) and passes.uses(has[0].first, variable):
            return (*path, id(has[0]))
        inner = [body for body in c.lists(has[0]) if passes.mentions(body, variable)]
        if len(inner) == 1 and not passes.uses(has[0], variable):
            return home_of(inner[0], variable, (*path, id(has[0])))
    return path


def is_within(one: tuple[int, ...], other: tuple[int, ...]) -> bool:
    """Whether one of two places is in the other."""
    return all(mine == its for mine, its in zip(one, other))


def names_by_order(body: Body) -> dict[int, str]:
    out, at = {}, body.tree.params + 1
    for one in body.tree.body:
        # A parameter that is lent has a place of its own, which comes before all that is bound.
        if not (isinstance(one, Assign) and one.place == Place(at) and isinstance(one.value, Place) and not one.value.steps):
            break
        if not 0 < one.value.local <= body.tree.params:
            break
        at += 1
    for name in body.information.bindings if body.information else []:
        while at < body.tree.own and is_hidden(body, body.tree.locals[at], name):
            at += 1
        if at >= body.tree.own:
            break
        if name == "?":
            at += 2
            continue
        out[at] = name.lstrip("_") or "turn"
        at += 1
    return out


def is_hidden(body: Body, of: Type, name: str) -> bool:
    if name == "?":
        return False
    is_residual = of[0] == "Named" and of[1].endswith(("NoValue", "ErrResidual"))
    return bool(of == "Unit" or is_residual or of[0] == "Ref" and of[1][0] == "Array")


class Hints:
    """What variables may be called: what their value is a member of, or what computes it; and what they become."""

    def __init__(self, statements: list[c.Statement], parameters_of: Callable[[str], list[str]]) -> None:
        self.found = dict[c.Variable, list[str]]()
        for one in c.all_statements(statements):
            if isinstance(one, c.Set) and isinstance(one.to, c.Var) and isinstance(one.to.of, (c.Number, c.Named)):
                for name in of_value(one.value):
                    self.note(one.to.variable, name)
        for one in c.all_statements(statements):
            if isinstance(one, c.Set) and isinstance(one.to, c.Field) and isinstance(one.value, c.Var):
                self.note(one.value.variable, one.to.name if one.to.name not in GENERAL else None)
        for part in c.all_parts(statements):
            if isinstance(part, c.CallOf):
                for argument, name in zip(part.arguments, parameters_of(part.name)):
                    if isinstance(argument, c.Var) and isinstance(argument.of, c.Number):
                        self.note(argument.variable, name if name not in GENERAL else None)

    def note(self, variable: c.Variable, name: str | None) -> None:
        if name:
            self.found.setdefault(variable, []).append(name)

    def of(self, variable: c.Variable) -> list[str]:
        return self.found.get(variable, [])


# Names that say nothing of what has them.
GENERAL = {
    "value",
    "number",
    "bits",
    "one",
    "other",
    "dividend",
    "divisor",
    "second",
    "first",
    "is_some",
    "on",
    "word_length",
    "slots",
    "per",
    "times",
}


def of_value(value: c.Expression) -> list[str]:
    """What a variable may be called that has this value."""
    if isinstance(value, c.Field) and value.name == "is_some":
        inner = value.base
        return [f"has_{inner.name}"] if isinstance(inner, c.Field) else []
    if isinstance(value, c.Field) and isinstance(value.of, (c.Number, c.Named)):
        # What a member was, before it is changed.
        of_base = [value.base.name] if isinstance(value.base, c.Field) and value.name == "len" else []
        return [{"second": "number", "value": "number"}.get(value.name, value.name), *of_base]
    if isinstance(value, c.Binary) and value.operator in ("!=", "==") and isinstance(value.left, c.Binary) and value.left.operator == "&":
        mask = value.left.right
        return [mask.names[0].rsplit("_", 1)[-1].lower()] if isinstance(mask, c.Literal) and len(mask.names) == 1 else []
    if isinstance(value, c.Choice) and isinstance(value.condition, c.Binary) and value.condition.operator in ("<", "<="):
        # The smaller one of two sizes.
        is_least = readable.same(value.condition.left, value.yes) and readable.same(value.condition.right, value.no)
        return ["count", "some"] if is_least and value.of.text() == "size_t" else []
    if isinstance(value, c.CallOf) and isinstance(value.of, c.Number):
        name = re.sub(r"^uart_(ring_)?", "", value.name)
        if found := re.match(r"(ier|isr|fcr|lcr|mcr|lsr|msr)_(set|with|of)_", name):
            return [found[1]]
        name = re.sub(r"^(read|try|get|calc|take)_|_(32|64)$", "", name)
        return [{"device_read": "value"}.get(name, name)]
    return []


def name_of_choice(one: c.Choice) -> str:
    """What one value or another is called."""
    base = one.condition.base if isinstance(one.condition, c.Field) else None
    name = base.name if isinstance(base, c.Field) else base.variable.name or base.variable.hint if isinstance(base, c.Var) else None
    return called.CHOSEN.get(name or "", "chosen")


def by_type(body: Body, variable: c.Variable) -> str:
    of = variable.meaning
    if of is None:
        return "found"
    kind = body.types.kind(of).kind
    if body.types.plain_name(of).startswith("uart_pair_of"):
        return "pair"
    named = {
        "number": "number",
        "bool": "is_so",
        "pointer": "at",
        "array": "bytes",
        "option": "found",
        "status": "error",
        "outcome": "outcome",
        "either": "outcome",
        "nullable": "found",
        "slice": "slice",
    }
    return named.get(kind) or re.sub(r"^(uart|u16550_core|u16550)_", "", body.types.plain_name(of))


__all__ = ["Library", "Unknown"]
