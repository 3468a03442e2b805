"""Each function of the C beside its own MIR: a program that calls both on the same choices, by the means of the comparison that the Rust
crates have (tools/eraser/mir). The MIR is translated to Rust; on the side of C stand two functions for each type, which this writes: one
makes a value of choices, and one shows a value as words. Both do it part by part in the order of the source, as the side of the MIR does."""
from __future__ import annotations

import pathlib
import re
import subprocess
from collections.abc import Sequence
from typing import NamedTuple

import natives
import syntax as c
import values
from library import Library, Written
from listed import NOT_EMPTY
from representation import VECTOR
from results import Form
from translate import Dictionary, Native, Translation, Type, Unknown
from tree import DEVICE, MEMORY, OF_CALLER, PORTS, Key

FOLDER = pathlib.Path(__file__).resolve().parent
HEADER = FOLDER.parent.parent / "c"
RUN = FOLDER.parent / "eraser" / "mir" / "run" / "run.rs"
# Where in the C what is by hand begins, which nothing here calls.
BY_HAND = "/* --------------------------------------------------------------- what is by hand: memory of the caller"
EDGES = {0, 1, 2**8, 2**16, 2**31 - 1, 2**31, 2**32 - 1, 2**32, 2**63 - 1, 2**64 - 2, 2**64 - 1}
# The register of a DesignWare UART that lies beyond the eight.
USR = 31
QUEUE = "uart_ring::queue::ByteQueue"
KEPT = "uart_design_ware::kept::KeptCharacters"
# When a call breaks a contract in a way that the MIR does not notice, as Rust code over its arguments.
OUTSIDE = {
    "uart_kept_characters_keep": "a1.f1 >= 64",
    "uart_byte_queue_byte_at": "a2 >= a1.f2",
    "uart_copy_with_errors": "a2.f2 < a1.f2",
    "uart_byte_queue_front_parts": "a2 > a1.f2",
    "uart_byte_queue_receive_from": "a3 > a1.f0.f2 - a1.f2",
    "uart_receive": "a3 > a2.len() as u64 || a4 > a2.len() as u64 - a3",
}
HEAD_OF_C = """
#include <stdbool.h>
#include <stddef.h>
#include <stdint.h>
#include <string.h>

uint8_t beside_byte(void);
uint64_t beside_number(unsigned bits);
bool beside_bool(void);
uint64_t beside_pick(uint64_t bound);
void beside_array(bool begins);
size_t beside_length(size_t least);
size_t beside_bytes(size_t least, uint8_t *to);
size_t beside_memory_of(void);
uint8_t *beside_memory(size_t count);
void beside_queue(size_t *capacity, size_t *front, size_t *count, uint8_t *bytes);
void beside_show(uint64_t word);
uint8_t beside_read(void *context, uintptr_t offset);
void beside_write(void *context, uintptr_t offset, uint8_t value);
size_t beside_ports(void);
bool beside_lower(size_t port, size_t limit, uint32_t rounds);
void beside_raise(size_t port);

enum { BESIDE_MOST = 512 };

void beside_run(void);
int main(void)
{
    beside_run();
    return 0;
}

"""
# What the driver calls: memory of the caller, the ports of a line, and a device.
CALLED_BY_DRIVER = """
static bool uart_cells_in_memory(struct uart_memory *memory, uint8_t value, size_t count, struct u16550_core_vec_u8 *cells)
{
    if (count > memory->len)
        return false;
    cells->data = beside_memory(count);
    cells->len = cells->capacity = count;
    memory->len -= count;
    memset(cells->data, value, count);
    return true;
}

static inline size_t uart_line_ports_number(const struct uart_line_ports *ports)
{
    (void)ports;
    return beside_ports();
}

static bool uart_line_ports_lower(struct uart_line_ports *ports, size_t port, size_t limit, uint32_t rounds)
{
    (void)ports;
    return beside_lower(port, limit, rounds);
}

static void uart_line_ports_raise(struct uart_line_ports *ports, size_t port)
{
    (void)ports;
    beside_raise(port);
}

static struct u16550_device beside_device(void)
{
    struct u16550_device made = { { NULL, beside_read, beside_write }, 0, 1 };
    return made;
}
"""
HEAD_OF_RUST = "#![allow(warnings, clippy::all)]\npub mod run;\npub mod mir;\npub mod numbers;\n"


def called(arguments: list[str], result: str, call: str) -> Native:
    """What calls a function of the comparison."""
    return lambda translation, types: (arguments, result, f"crate::run::{call}")


def line_method(name: str, arguments: list[str], result: str) -> Native:
    """A method of the ports of a line, of which the comparison says what they do."""
    given = ", ".join(f"a{order}" for order in range(2, len(arguments) + 1))
    return called(arguments, result, f"{name}({given})")


NATIVES = natives.NATIVES | {
    ("of a device: uart_design_ware::registers::DesignWareRegisters", 0): called(["P"], "u8", f"read({USR}, crate::run::REGISTERS)"),
    ("of a device: uart_ring::line::LinePorts", 0): line_method("number_of_ports", ["P"], "u64"),
    ("of a device: uart_ring::line::LinePorts", 1): line_method("lower", ["P", "u64", "u64", "u32"], "bool"),
    ("of a device: uart_ring::line::LinePorts", 2): line_method("raise", ["P", "u64"], "()"),
}


def of_mir(of: Type) -> Type:
    """A type as the translation to Rust has it: a reference does not say whether what it is to may change."""
    if not isinstance(of, tuple):
        return of
    if of[:1] == ("Ref",):
        return ("Ref", of_mir(of[1]))
    return tuple(of_mir(one) for one in of)


def dictionary_of_mir(one: Dictionary) -> Dictionary:
    name, types, inner = one
    return (name.replace(OF_CALLER, "of a device: "), of_mir(types), tuple(map(dictionary_of_mir, inner)))


class Argument(NamedTuple):
    """One argument: the statements of C that make it, what is passed, what is shown behind the call; and the same of the MIR."""

    made: str
    # None is what the C cannot have.
    passed: Sequence[str | None]
    shown: str
    made_of_mir: str
    passed_of_mir: str
    shown_of_mir: str


class Beside:
    """What compares the functions of a library. `compared` has their names, and `left` those that are not, with the reason."""

    # Where in the C what is by hand begins, which nothing here calls; what stands in front of the C, and what it calls.
    by_hand, before, called_by_it, header = BY_HAND, "", CALLED_BY_DRIVER, "u16550.h"

    def __init__(self, library: Library) -> None:
        self.library, self.types = library, library.types
        self.translation = Translation(library.forest.program, NATIVES, library.forest.own)
        self.makers, self.showers, self.texts, self.calls = dict[Type, str](), dict[Type, str](), list[str](), list[str]()
        self.compared, self.left = list[str](), dict[str, str]()
        text = (HEADER / self.header).read_text(encoding="ascii")
        self.numbers = {name: int(value, 0) for name, value in re.findall(r"\b(U16550_\w+) = (-?\w+)", text)}
        called = self.called()
        for key, written in library.functions.items():
            if written is None or written.name not in called or written.name in self.compared:
                continue
            try:
                self.function(key, written)
                self.compared.append(written.name)
            except Unknown as cause:
                self.left[written.name] = str(cause)
        self.translation.translate()
        if self.translation.unknown:
            raise SystemExit(f"compare: not translated: {self.translation.unknown[:3]}")

    def called(self) -> set[str]:
        """The names of the functions that the C has."""
        return {one.name for one in self.library.called()}

    def fields(self, of: Type) -> list[tuple[str, Type]]:
        """The names and types of the members that a struct has in C."""
        return self.types.fields(of)

    def otherwise(self, found: list[int]) -> dict[str, tuple[str, str | None]]:
        """How the side of the MIR makes and shows types of which the C has less, as `values.OF_MIR`. `found` are the numbers that are tried."""
        out = dict[str, tuple[str, str | None]]()
        for _, (of, (kind, parts)) in list(self.translation.shapes.items()):
            told = self.types.told_of(of)
            if told:
                shown = " ".join(f"{tag} => {{ {self.shown_of_told(of, tag, part)} }}" for tag, part in enumerate(parts))
                out[of[1]] = (f'match self.v0.f0 {{ {shown} _ => panic!("no variant") }}', None)
            elif of[0] == "Named" and kind == "fields" and self.types.is_silent(of):
                out[of[1]] = ("let _ = out;", None)
        return out

    def shown_of_told(self, of: Type, tag: int, part: Sequence[tuple[Type, str]]) -> str:
        """How the side of the MIR shows a variant of an enum that a program knows: its number, and its parts if they are kept."""
        told, variant = self.types.told_of(of), self.types.variants(of)[tag]
        number = told.numbers.get(variant[0]) if told else None
        if number is None:
            return 'panic!("a variant without a number")'
        if isinstance(number, str):
            is_kept = told is not None and (told.is_kept or told.details is not None)
            fields = "".join(f" {values.field(self.translation, f'self.v{tag}.f{order}', one)}" for order, (one, _) in enumerate(part, 1))
            return f"out.push({self.numbers[number]});{fields if is_kept else ''}"
        inner = {self.types.constant(variant[2][0], order): number[name] for order, (name, _, _) in enumerate(self.types.variants(variant[2][0]))}
        cases = " ".join({f"{self.numbers[one]} => {self.numbers[other]}," for one, other in inner.items()})
        return (
            f"let inner = self.v{tag}.f1; let mut words = Vec::new(); inner.show(&mut words); out.push(match words[0] {{ {cases} _ => panic!() }});"
        )

    # Values on the side of C.

    def made_at(self, of: Type, at: str) -> str:
        """The statement that makes a value at this place."""
        if self.types.is_unit(of):
            return ""
        if of not in self.makers:
            text = self.make(of, "at[0]")
            self.makers[of] = f"make_{len(self.makers)}"
            made = self.types.c(of).text()
            self.texts.append(f"static void {self.makers[of]}({made} *at)\n{{\n    memset(at, 0, sizeof at[0]);\n{text}}}\n")
        return f"{self.makers[of]}(&{at});\n"

    def shown_at(self, of: Type, at: str) -> str:
        """The statement that shows the value at this place."""
        if self.types.is_unit(of):
            return ""
        if of not in self.showers:
            text = self.show(of, "at[0]")
            self.showers[of] = f"show_{len(self.showers)}"
            self.texts.append(f"static void {self.showers[of]}(const {self.types.c(of).text()} *at)\n{{\n    (void)at;\n{text}}}\n")
        return f"{self.showers[of]}(&{at});\n"

    def first(self, of: Type) -> int:
        """The number of the first variant in C."""
        return 1 if self.types.is_error(of) else 0

    def make(self, of: Type, at: str) -> str:
        kind = self.types.kind(of)
        word = kind.kind
        if of[0] == "Named" and of[1] == QUEUE:
            return self.make_queue(of)
        if of[0] == "Named" and of[1] == VECTOR:
            raise Unknown("a list that is made")
        if of[0] == "Named" and of[1] == KEPT:
            (cells, array), (count, _) = self.types.fields(of)
            return self.made_at(array, f"{at}.{cells}") + f"{at}.{count} = (size_t)beside_pick(65);\n"
        if word == "bool":
            return f"{at} = beside_bool();\n"
        if word == "number":
            return f"{at} = beside_byte();\n" if of[1] == 8 else f"{at} = (uint{of[1]}_t)beside_number({of[1]});\n"
        if word == "wrapper":
            least = f"if ({at} == 0)\n {at} = 1;\n" if of[0] == "Named" and "nonzero::NonZero" in of[1] else ""
            return self.make(kind.value, at) + least
        if word == "device":
            if of != DEVICE:
                raise Unknown(f"a value of {of[1]}")
            return f"{at} = beside_device();\n"
        if word == "option":
            inner, tag, flag, value = kind.value, kind.full, kind.flag, kind.member
            if self.types.is_unit(inner):
                return f"{at} = beside_pick(2) == {tag};\n"
            return f"{at}.{flag} = beside_pick(2) == {tag};\nif ({at}.{flag}) {{\n{self.made_at(inner, f'{at}.{value}')}}}\n"
        if word == "enum" and self.types.told_of(of):
            return self.make_told(of, at)
        if word == "enum":
            return f"{at} = ({self.types.c(of).text()})(beside_pick({len(self.types.variants(of))}) + {self.first(of)});\n"
        if word == "tagged":
            return self.make_tagged(of, at)
        if word == "array":
            made = self.made_at(of[1], f"{at}.bytes[i]")
            return f"beside_array(true);\nfor (size_t i = 0; i < {of[2]}; i++)\n {made}beside_array(false);\n"
        if word == "struct":
            return "".join(self.made_at(one, f"{at}.{name}") for name, one in self.fields(of))
        raise Unknown(f"a value of a type that is {word}")

    def make_told(self, of: Type, at: str) -> str:
        """The statements that make a number that a program knows."""
        variants = self.types.variants(of)
        cases = "".join(f"case {tag}:\n{at} = {self.types.constant(of, tag)};\nbreak;\n" for tag, _ in enumerate(variants))
        return f"switch (beside_pick({len(variants)})) {{\n{cases}default: break;\n}}\n"

    def kind_of(self, of: Type, tag: int) -> str:
        """What a struct has as the number of a variant."""
        return self.types.constant(of, tag) if self.types.told_of(of) else str(tag + self.first(of))

    def make_tagged(self, of: Type, at: str) -> str:
        cases, tags = "", self.types.tag(of).text()
        for tag, (_, _, part) in enumerate(self.types.variants(of)):
            parts = "".join(
                self.made_at(one, f"{at}.{self.types.part_name(of, tag, order)}") for order, one in enumerate(part) if not self.types.is_unit(one)
            )
            cases += f"case {tag}:\n{at}.kind = ({tags}){self.kind_of(of, tag)};\n{parts}break;\n"
        return f"switch (beside_pick({len(self.types.variants(of))})) {{\n{cases}default: break;\n}}\n"

    def make_queue(self, of: Type) -> str:
        (cells, _), (front, _), (count, _) = self.types.fields(of)
        return (
            f"uint8_t bytes[64];\nbeside_queue(&at->{cells}.capacity, &at->{front}, &at->{count}, bytes);\n"
            f"at->{cells}.len = at->{cells}.capacity;\nat->{cells}.data = beside_memory(at->{cells}.capacity);\n"
            f"for (size_t i = 0; i < at->{count}; i++)\n at->{cells}.data[(at->{front} + i) % at->{cells}.len] = bytes[i];\n"
        )

    def show(self, of: Type, at: str) -> str:
        kind = self.types.kind(of)
        word = kind.kind
        if of[0] == "Named" and of[1] == QUEUE:
            (cells, _), (front, _), (count, _) = self.types.fields(of)
            return (
                f"beside_show({at}.{cells}.len);\nbeside_show({at}.{count});\nfor (size_t i = 0; i < {at}.{count}; i++)\n"
                f" beside_show({at}.{cells}.data[({at}.{front} + i) % {at}.{cells}.len]);\n"
            )
        if of[0] == "Named" and of[1] == KEPT:
            (cells, array), (count, _) = self.types.fields(of)
            shown = self.shown_at(array[1], f"{at}.{cells}.bytes[i]")
            return f"beside_show({at}.{count});\nfor (size_t i = 0; i < {at}.{count}; i++)\n {shown}"
        if of[0] == "Named" and of[1] == VECTOR:
            return f"beside_show({at}.len);\nfor (size_t i = 0; i < {at}.len; i++)\n beside_show({at}.data[i]);\n"
        if word in ("bool", "number"):
            return f"beside_show((uint64_t){at});\n"
        if word == "wrapper":
            return self.show(kind.value, at)
        if word == "device":
            return ""
        if word == "option":
            inner, tag, flag, value = kind.value, kind.full, kind.flag, kind.member
            if self.types.is_unit(inner):
                return f"beside_show({at} ? {tag} : {1 - tag});\n"
            return f"beside_show({at}.{flag} ? {tag} : {1 - tag});\nif ({at}.{flag}) {{\n{self.shown_at(inner, f'{at}.{value}')}}}\n"
        if word == "nullable":
            return f"beside_show({at} != NULL);\nif ({at} != NULL) {{\n{self.shown_at(kind.value[1], f'(*{at})')}}}\n"
        if word == "status":
            fails = self.is_error(kind.error, at)
            return f"beside_show({fails});\nif ({fails}) {{\n{self.shown_at(kind.error, at)}}}\n"
        if word in ("outcome", "either"):
            value, error = kind.value, kind.error
            fails = f"{at}.is_error" if word == "either" else self.is_error(error, f"{at}.error")
            good, bad = self.shown_at(value, f"{at}.value"), self.shown_at(error, f"{at}.error")
            return f"beside_show({fails});\nif ({fails}) {{\n{bad}}} else {{\n{good}}}\n"
        if word == "enum" and self.types.told_of(of):
            return f"beside_show((uint64_t){at});\n"
        if word == "enum":
            return f"beside_show((uint64_t){at} - {self.first(of)});\n"
        if word == "tagged":
            cases = ""
            for tag, (_, _, part) in enumerate(self.types.variants(of)):
                parts = "".join(
                    self.shown_at(one, f"{at}.{self.types.part_name(of, tag, order)}")
                    for order, one in enumerate(part)
                    if not self.types.is_unit(one)
                )
                cases += f"case {self.kind_of(of, tag)}:\n{parts}break;\n"
            less = "" if self.types.told_of(of) else f" - {self.first(of)}"
            return f"beside_show((uint64_t){at}.kind{less});\nswitch ((unsigned){at}.kind) {{\n{cases}default: break;\n}}\n"
        if word == "array":
            return f"for (size_t i = 0; i < {of[2]}; i++)\n {self.shown_at(of[1], f'{at}.bytes[i]')}"
        if word == "pointer":
            return self.shown_at(of[1], f"(*{at})") if of != "Ptr" and of[1] not in ("Ptr", "Unit") else ""
        if word == "struct":
            return "".join(self.shown_at(one, f"{at}.{name}") for name, one in self.fields(of))
        raise Unknown(f"a result of a type that is {word}")

    def is_error(self, of: Type, at: str) -> str:
        none = self.types.constant(of, None)
        return f"{at} != {none}" if self.types.kind(of).kind == "enum" else f"{at}.kind != {none}"

    # Arguments and calls.

    def argument(self, order: int, of: Type, least: int) -> Argument:
        rust = self.translation.rust_outside
        mine = of_mir(of)
        if of == MEMORY or of[0] == "Ref" and of[1] == MEMORY:
            made = f"struct uart_memory a{order};\na{order}.len = beside_memory_of();\na{order}.data = NULL;\n"
            of_rust = f"crate::run::memory_of(choices); let mut a{order}: {rust(mine)} = core::mem::zeroed();"
            return Argument(made, [f"&a{order}"], "", of_rust, f"a{order}", "")
        if self.types.is_unit(of):
            return Argument("", [], "", f"let mut a{order}: {rust(mine)} = core::mem::zeroed();", f"a{order}", "")
        if of[0] == "Struct" and of[1] == "&[]":
            return self.slice_argument(order, of, least)
        if of == ("Ref", PORTS, True) or of == ("Ref", PORTS, False):
            ports = f"struct uart_line_ports a{order} = {{ NULL, 0 }};\n"
            return Argument(ports, [f"&a{order}"], "", f"let mut a{order} = 0u64;", f"&raw mut a{order} as *mut u8", "")
        inner, is_reference = (of[1], True) if of[0] == "Ref" else (of, False)
        if self.types.is_unit(inner):
            raise Unknown("a reference to nothing")
        made = f"{self.types.c(inner).text()} a{order};\n{self.made_at(inner, f'a{order}')}"
        of_rust = f"let mut a{order}: {rust(of_mir(inner))} = Value::make(choices);"
        if not is_reference:
            return Argument(made, [f"a{order}"], "", of_rust, f"a{order}", "")
        passed = f"a{order}.bytes" if self.types.kind(inner).kind == "array" else f"&a{order}"
        shown = self.shown_at(inner, f"a{order}")
        return Argument(made, [passed], shown, of_rust, f"&raw mut a{order} as *mut u8", f"Value::show(&a{order}, &mut out);")

    def known_argument(self, order: int, of: Type, value: c.Expression) -> Argument:
        """An argument that is one constant in each call, so that the C has no parameter for it."""
        raise Unknown(f"the argument {order} is known")

    def slice_argument(self, order: int, of: Type, least: int) -> Argument:
        item, can_change = of[2][0][1], of[2][0][2]
        name, rest = self.translation.rust(of_mir(of)), self.translation.rest(of_mir(of))
        passed = f"crate::mir::{name} {{ f0: a{order}.as_mut_ptr() as *mut u8, f1: a{order}.len() as u64{rest} }}"
        shown = f"for (size_t i = 0; i < n{order}; i++) {{\n{self.shown_at(item, f'a{order}[i]')}}}\n"
        shown = f"beside_show(n{order});\n{shown}" if can_change else ""
        of_rust = f"Value::show(&a{order}, &mut out);" if can_change else ""
        name = self.types.c(item).text()
        if item == ("Int", 8):
            made = f"uint8_t a{order}[BESIDE_MOST];\nsize_t n{order} = beside_bytes({least}, a{order});\n"
            mine = f"let mut a{order} = choices.bytes({least});"
        else:
            made = (
                f"{name} a{order}[BESIDE_MOST];\nsize_t n{order} = beside_length({least});\n"
                f"for (size_t i = 0; i < n{order}; i++) {{\n{self.made_at(item, f'a{order}[i]')}}}\n"
            )
            mine = f"let mut a{order}: Vec<{self.translation.rust_outside(of_mir(item))}> = choices.list({least});"
        return Argument(made, [f"a{order}", f"n{order}"], shown, mine, passed, of_rust)

    def function(self, key: Key, written: Written) -> None:
        name, types, dictionaries = key
        forest = self.library.forest
        function = forest.program.functions[name]
        locals_ = [forest.type(one["ty"], types) for one in function["locals"][: function["params"] + 1]]
        least = 1 if name.split("::")[-1] in NOT_EMPTY else 0
        listing, flat = list[Argument](), list[str | None]()
        for order, of in enumerate(locals_[1:], 1):
            known = self.library.known.get(key, {}).get(len(flat))
            listing.append(self.argument(order, of, least) if known is None else self.known_argument(order, of, known))
            flat += listing[-1].passed
        if len(flat) != len(written.given):
            raise Unknown(f"{len(flat)} arguments, and {len(written.given)} parameters")
        wanted = [one for one, parameter in zip(flat, written.given) if parameter in written.parameters]
        passed = [one for one in wanted if one is not None]
        if len(passed) < len(wanted):
            raise Unknown("an argument that the C cannot have")
        instance = self.translation.instance(name, of_mir(types), tuple(map(dictionary_of_mir, dictionaries)))
        outs = [f"result_{one.name}" for one in written.form.outs] if written.form else []
        call, result = f"{written.name}({', '.join([*passed, *(f'&{one}' for one in outs)])})", locals_[0]
        number = len(self.calls)
        if self.types.is_unit(result):
            call, shown = f"{call};\n", ""
        elif self.types.kind(result).kind == "slice":
            raise Unknown("a slice that is returned")
        elif written.form:
            made = "".join(f"{one.of.text()} {name};\nmemset(&{name}, 0, sizeof {name});\n" for one, name in zip(written.form.outs, outs))
            made += "".join(f"{one.of.text()} result_{one.name} = {number};\n" for one, number in written.form.constants)
            call = f"{made}{written.form.status.text()} status = {call};\n"
            shown = self.show_form(result, written.form)
        elif self.types.kind(result).kind == "status":
            call, shown = f"int status = {call};\n", self.show_error(self.types.kind(result).error, None)
        elif result[0] == "Ref":
            call, shown = f"{self.types.c(result).text()} result = {call};\n", self.shown_at(result[1], "(*result)")
        else:
            # What the C shifts to its place in a register is looked at there.
            of = self.types.c(result).text()
            value = f"({of})({call} >> {written.shift})" if written.shift else call
            call, shown = f"{of} result = {value};\n", self.shown_at(result, "result")
        body = "".join(one.made for one in listing) + call + shown + "".join(one.shown for one in listing)
        self.texts.append(f"void beside_call_{number}(void);\nvoid beside_call_{number}(void)\n{{\n{body}}}\n")
        of_result = "Value::show(&result, &mut out);"
        if result[0] == "Ref":
            of_result = f"Value::show(&*(result as *const {self.translation.rust_outside(of_mir(result[1]))}), &mut out);"
        made, behind = " ".join(one.made_of_mir for one in listing), " ".join(one.shown_of_mir for one in listing)
        given = ", ".join(one.passed_of_mir for one in listing)
        touches = "Device" if DEVICE in types or PORTS in types else "Nothing"
        outside = OUTSIDE.get(written.name)
        of_case = f"|choices| unsafe {{ {made} if {outside} {{ Of::NoWord }} else {{ Of::Contract }} }}" if outside else "|_| Of::Contract"
        self.calls.append(
            f'run.compare("{written.name}", With::{touches}, &[], {of_case}, |choices| unsafe {{ called(beside_call_{number}) }}, '
            f"|choices| unsafe {{ {made} let result = crate::mir::{instance}({given}); let mut out = Vec::new(); "
            f"{of_result} {behind} out }});"
        )

    # Results, of which a function returns a part and writes others.

    def show_form(self, of: Type, form: Form) -> str:
        """The statements that show what a function has returned, as `status`, and written."""
        kind = self.types.kind(of)
        value = next((one for one in form.outs if one.path == ("value",)), None)
        shown = self.shown_at(kind.value, f"result_{value.name}") if value else ""
        if form.status is c.BOOL:
            return f"beside_show(status ? {kind.full} : {1 - kind.full});\nif (status) {{\n{shown}}}\n"
        error = kind.value if kind.kind == "option" else kind.error
        return f"{self.show_error(error, form)}if (status == {self.types.ok}) {{\n{shown}}}\n"

    def show_error(self, of: Type, form: Form | None) -> str:
        """The statements that show whether there is an error, and which one."""
        outs = [*form.outs, *(one for one, _ in form.constants)] if form else []
        places = {one.path[-1:] if one.path else (): f"result_{one.name}" for one in outs if one.path != ("value",)}
        told = self.types.told_of(of)
        if told and told.details:
            shown = f"beside_show((uint64_t)status);\nswitch (status) {{\n{self.details(of, [*places.values()][0])}default: break;\n}}\n"
        elif told and not told.is_kept:
            shown = "beside_show((uint64_t)status);\n"
        elif form and (form.sign or form.outs and form.outs[-1].path[:1] == ("error",) and len(form.outs[-1].path) > 1):
            (_, given), (_, second) = self.types.fields(of)
            shown = self.shown_at(given, [*places.values()][0]) + ("" if self.types.is_unit(second) else "beside_show((uint64_t)status);\n")
        else:
            shown = "" if self.types.is_silent(of) else self.shown_at(of, [*places.values()][0])
        return f"beside_show(status != {self.types.ok});\nif (status != {self.types.ok}) {{\n{shown}}}\n"

    def details(self, of: Type, at: str) -> str:
        """The cases that show the parts of an error."""
        out = ""
        for tag, (_, _, part) in enumerate(self.types.variants(of)):
            named = [(self.types.part_name(of, tag, order), one) for order, one in enumerate(part) if self.types.is_part(of, tag, one)]
            is_struct = not self.types.c(of).text().startswith("size_t")
            places = [(f"{at}.{name}" if is_struct else at, one) for name, one in named]
            shown = "".join(self.shown_at(one, place) if one[0] == "Array" else f"beside_show((uint64_t){place});\n" for place, one in places)
            out += f"case {self.types.constant(of, tag)}:\n{shown}break;\n" if places else ""
        return out

    # The program.

    def of_c(self, source: str) -> str:
        """The text of C: the functions without what is by hand, and what calls each."""
        made = source.partition(self.by_hand)[0]
        # A part that a macro leaves out may go on in what is by hand.
        ends = "#endif\n" * (len(re.findall("^#if", made, re.M)) - len(re.findall("^#endif", made, re.M)))
        return HEAD_OF_C + self.before + made + ends + self.called_by_it + "\n".join(self.texts)

    def of_rust(self, source: str) -> dict[str, str]:
        """The texts of the files of Rust. Numbers that the C has are tried in each place of a number."""
        found = numbers(source)
        declared = "\n".join(f"fn beside_call_{number}();" for number in range(len(self.calls)))
        calls, texts = "\n".join(self.calls), values.of_mir(self.translation, self.otherwise(found))
        root = (
            f'{HEAD_OF_RUST}use run::{{Choices, Of, Run, Value, With, called}};\nunsafe extern "C-unwind" {{ {declared} }}\n'
            f"fn all(run: &mut Run) {{\n{calls}\n}}\n"
            f'#[unsafe(no_mangle)]\nextern "C" fn beside_run() {{ run::run(all, {len(self.translation.places)}) }}\n'
        )
        listed = f"pub const NUMBERS: [u64; {len(found)}] = {found};\n"
        return {
            "lib.rs": root,
            "numbers.rs": listed,
            "mir.rs": self.translation.module() + texts,
            "run.rs": RUN.read_text(encoding="utf-8") + (FOLDER / "compared" / "beside.rs").read_text(encoding="ascii"),
        }

    def build(self, source: str, folder: pathlib.Path) -> str:
        """Builds the side of the MIR in a folder. Returns nothing, or what the compiler says."""
        folder.mkdir(exist_ok=True)
        for name, text in self.of_rust(source).items():
            (folder / name).write_text(text, encoding="utf-8")
        words = "rustc --edition 2024 --crate-type staticlib --crate-name beside -C opt-level=1 -C overflow-checks=on -o".split()
        return compiled([*words, folder / "libbeside.a", folder / "lib.rs"])

    def link(self, source: str, folder: pathlib.Path, name: str) -> tuple[pathlib.Path | None, str]:
        """Builds the program over this text of the C. Returns its path, or None and what the compiler says."""
        text, program = folder / f"{name}.c", folder / name
        text.write_text(self.of_c(source), encoding="ascii")
        words = ["gcc", "-std=gnu99", "-O1", "-w", "-fexceptions", "-DUART_BY_SHIFTS", "-I", str(HEADER)]
        told = compiled([*words, text, folder / "libbeside.a", "-lpthread", "-ldl", "-lm", "-o", program])
        return (None, told) if told else (program, "")


def numbers(source: str) -> list[int]:
    """The numbers that are tried in each place of a number: those of the C, those next to them, and edges."""
    written = map(int, re.findall(r"\b\d+\b", source))
    return sorted({at for one in written for at in (one - 1, one, one + 1) if 0 <= at < 1 << 64} | EDGES)


def compiled(words: Sequence[str | pathlib.Path]) -> str:
    """Runs a compiler. Returns what it says if it fails."""
    done = subprocess.run([str(one) for one in words], capture_output=True, text=True, check=False)
    return done.stderr[-3000:] if done.returncode else ""


def reports(printed: str) -> dict[str, tuple[int, int, int, str]]:
    """What the program printed: for each function how many cases there were, how many were outside of its contract, how many differ, and
    the first that does."""
    found = dict[str, tuple[int, int, int, str]]()
    for line in printed.splitlines():
        word, *report = line.split("\t")
        if word == "compared":
            name, cases, _, _, outside, _, differ, first = report
            found[name] = (int(cases), int(outside), int(differ), first)
    return found


__all__ = ["Beside", "reports"]
