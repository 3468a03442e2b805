"""How each type of the MIR is a type of C."""
from __future__ import annotations

import dataclasses
import re
from collections.abc import Mapping, Sequence

import called
from comments import Said, Words, filled
from names import snake
import syntax
from names import Source
from syntax import BOOL, BYTE, SIZE, VOID, Code, Named, Number, Pointer, Width, declared
from translate import Type, Unknown, head
from tree import DEVICE, MEMORY, PATIENCE, PORTS, Forest

# What is a pair in the source: its name, and those of its members.
PAIRS = {"uart_pair_of_u8": ("uart_latch", ["dll", "dlm"]), "uart_pair_of_slice": ("uart_slices", ["front", "rest"])}
RESERVED = set(
    "char int short long switch default case break register if else for while do return signed unsigned float double const static "
    "auto union struct enum void bool true false class new delete this private public template typename".split()
)
OF_CALLER_TYPES = {DEVICE: "struct u16550_device", PATIENCE: "struct uart_patience", PORTS: "struct uart_line_ports", MEMORY: "struct uart_memory *"}
# The type of the numbers of errors.
INT = Named("int")
NO_DEVICE = "{ { NULL, NULL, NULL }, 0, 0 }"
VECTOR = "std_alloc::vec::Vec"
OPTION, RESULT = "core::option::Option", "core::result::Result"
# A struct of more parts than this is made part by part, and one of fewer by a function.
FEW = 3
# A comment of one line has fewer letters.
SHORT = 90


def is_closure(of: Type) -> bool:
    return isinstance(of, tuple) and of[0] == "Named" and of[1].endswith("+Self")


@dataclasses.dataclass(frozen=True)
class Told:
    """An enum of the source that a program knows: its type in C, and the number of each variant by its name. A variant with another such enum in
    it has the numbers of that one's variants, by their names."""

    of: syntax.Named
    numbers: Mapping[str, str | Mapping[str, str]]
    # Whether the parts of its variants are kept beside the number, in a struct. Else nobody reads them.
    is_kept: bool = False
    # Of an error whose parts a function writes through a pointer: the type of C behind that, its name, and the member that a part of a variant
    # is there, by the names of both; no name, if the pointer is to the part itself.
    details: tuple[str, str, Mapping[tuple[str, str], str]] | None = None

    def numbers_of_variants(self) -> dict[str, list[str]]:
        """The numbers of each variant, by its name."""
        return {name: [one] if isinstance(one, str) else [*dict.fromkeys(one.values())] for name, one in self.numbers.items()}


@dataclasses.dataclass(frozen=True)
class Kind:
    """What a type is in C, as a word, and what belongs to it."""

    kind: str
    # What is in it: the value of an option or of a result, the pointer of a slice, what a wrapper is around, a reference that may be null.
    value: Type = None
    # Of an option: the number of the variant that has the value, the member that tells of it, and the member that is it.
    full: int = 0
    flag: str = ""
    member: str = ""
    # The error of a result.
    error: Type = None
    # Which part of a wrapper is what it is around; and the part that is a slice of what has nothing else, as of an iterator.
    order: int = 0
    inside: Type = None


class Representation:
    """`public` has the C names of types that the header has already. The types that a driver with rings is made of are in the header."""

    def __init__(self, forest: Forest, source: Source, public: dict[Type, str]) -> None:
        self.forest, self.source, self.public = forest, source, public
        self.kinds, self.names, self.declarations = dict[Type, Kind](), dict[str, str](), list[tuple[str, str]]()
        self.in_header = set[Type]()
        # The enums that a program knows, and the numbers that it knows for errors of one kind, by their names in the source.
        self.told, self.failures, self.silent = dict[str, Told](), dict[str, str](), set[str]()
        # The calls of the header, without what their names begin with.
        self.calls, self.said = frozenset[str](), Said()
        # The number of no error.
        self.ok = "U16550_OK"

    def put_into_header(self, of: Type) -> None:
        """The names of this type, and of all that it is made of, begin as those of the header do."""
        if not isinstance(of, tuple) or of in self.in_header or of in OF_CALLER_TYPES:
            return
        self.in_header.add(of)
        for one in of[2] if of[0] in ("Named", "Struct") and of[1] != VECTOR else []:
            self.put_into_header(one)
        if of[0] == "Named":
            for part in self.shape(of)[1]:
                for one in part:
                    self.put_into_header(one)

    # What a type is.

    def kind(self, of: Type) -> Kind:
        if of not in self.kinds:
            self.kinds[of] = self.find_kind(of)
        return self.kinds[of]

    def is_unit(self, of: Type) -> bool:
        return self.kind(of).kind == "unit"

    def shape(self, of: Type) -> tuple[str, list[list[Type]]]:
        """Of a struct or an enum: "Fields" or "Variants", and the types of the parts of each."""
        if of[0] == "Struct":
            return "Fields", [list(of[2])]
        if of[1] not in self.forest.program.types:
            raise Unknown(f"the type {of[1]}")
        kind, value = head(self.forest.program.types[of[1]]["shape"])
        if of[1] == VECTOR:
            # Cells, length and capacity: where they come from is not kept.
            value = value[:3]
        return kind, [[self.forest.type(one, of[2]) for one in part] for part in ([value] if kind == "Fields" else value)]

    def find_kind(self, of: Type) -> Kind:
        if of in ("Unit", "Never"):
            return Kind("unit")
        if of == "Bool":
            return Kind("bool")
        if of[0] == "Ref" and is_closure(of[1]) and self.is_unit(of[1]):
            return Kind("unit")
        if of == "Ptr" or of[0] == "Ref":
            return Kind("pointer")
        if of[0] == "Int":
            return Kind("number")
        if of[0] == "Array":
            return Kind("array")
        if of in OF_CALLER_TYPES:
            return Kind("device")
        if of[0] == "Struct" and of[1] == "&[]":
            return Kind("slice", of[2][0])
        if of[0] == "Other":
            raise Unknown(f"the type {of}")
        name = of[1] if of[0] == "Named" else ""
        if name == "core::ops::ControlFlow":
            return self.kind(self.same_as(of))
        if name == OPTION:
            inner = of[2][0]
            return Kind("nullable", inner) if inner[0] == "Ref" else Kind("option", inner, 1, "is_some", "value")
        if name == RESULT:
            return self.kind_of_result(*of[2])
        shape, parts = self.shape(of)
        if name.endswith("ErrResidual"):
            return Kind("wrapper", parts[0][0])
        if shape == "Variants":
            told = self.told_of(of)
            is_plain = not (told.is_kept or told.details) if told else all(self.is_unit(one) for part in parts for one in part)
            return Kind("enum") if is_plain else Kind("tagged")
        full = [order for order, one in enumerate(parts[0]) if not self.is_unit(one)]
        if not full:
            return Kind("unit")
        if len(full) == 1 and self.kind(parts[0][full[0]]).kind == "slice":
            # As an iterator: what it is around is a slice, and so is it.
            return Kind("slice", self.kind(parts[0][full[0]]).value, inside=parts[0][full[0]])
        # One of the header is the struct that it is there.
        if len(full) == 1 and of not in self.public and self.kind(parts[0][full[0]]).kind in ("number", "bool"):
            return Kind("wrapper", parts[0][full[0]], order=full[0])
        return Kind("struct")

    def kind_of_result(self, value: Type, error: Type) -> Kind:
        """`Ok` is 0 in C, or what the error has for none: no error is number 0."""
        if self.is_unit(error):
            return Kind("option", value, 0, "is_some", "value")
        if self.kind(error).kind in ("enum", "tagged"):
            return Kind("status", error=error) if self.is_unit(value) else Kind("outcome", value, error=error)
        if self.is_unit(value):
            return Kind("option", error, 1, "is_error", "error")
        if self.kind(error).kind in ("wrapper", "struct"):
            return Kind("either", value, error=error)
        raise Unknown(f"a result of {value} and {error}")

    @staticmethod
    def same_as(of: Type) -> Type:
        """The result or option that a `ControlFlow` says the same as."""
        first, value = of[2]
        if first[1].endswith("NoValue"):
            return ("Named", RESULT, (value, "Unit"))
        return ("Named", RESULT, (value, first[2][0]))

    def told_of(self, of: Type) -> Told | None:
        """What a program knows of an enum."""
        return self.told.get(of[1].split("::")[-1]) if of[0] == "Named" else None

    def failure(self, of: Type) -> str:
        """The number of an error of one kind."""
        name = of[1].split("::")[-1]
        if name not in self.failures:
            raise Unknown(f"the error {name}, which has no number")
        return self.failures[name]

    def gives_back(self, of: Type) -> bool:
        """Whether an error has something beside its cause: a pair, what a constructor refused, or how much was done before a wait."""
        return self.plain_name(of).startswith("uart_pair_of_") or of[1].split("::")[-1] in ("Refused", "WaitError")

    def is_silent(self, of: Type) -> bool:
        """Whether nobody reads the parts of an error of one kind."""
        return of[1].split("::")[-1] in self.silent

    # Names.

    @staticmethod
    def own(of: Type) -> tuple[str, str]:
        path = of[1].split("::")
        return path[0], path[-1]

    def plain_name(self, of: Type) -> str:
        """The name of a type without `struct`."""
        if of in self.public:
            return self.public[of]
        of = self.canonical(of)
        name = self.other_name(of)
        if name in self.public.values():
            # The header has another type of this name.
            name = f"{self.own(of)[0]}_{name.removeprefix('uart_')}"
        return re.sub("^uart_", "u16550_core_", name) if self.is_in_header(of) else name

    def canonical(self, of: Type) -> Type:
        """The type of those that are the same in C: a result whose error says nothing is an option."""
        if not isinstance(of, tuple) or of[0] != "Named":
            return of
        if of[1] == "core::ops::ControlFlow":
            return self.canonical(self.same_as(of))
        kind = self.kind(of)
        return ("Named", OPTION, (kind.value,)) if kind.kind == "option" and kind.flag == "is_some" else of

    def other_name(self, of: Type) -> str:
        if of in ("Unit", "Bool", "Ptr"):
            return {"Unit": "nothing", "Bool": "bool", "Ptr": "pointer"}[of]
        if of[0] == "Int":
            return f"u{of[1]}"
        if of[0] == "Array":
            return f"uart_bytes{of[2]}" if of[1] == ("Int", 8) else f"uart_{self.bare_name(of[1])}_{of[2]}"
        if of[0] == "Ref":
            return f"{self.bare_name(of[1])}_at"
        if of[0] == "Num":
            return str(of[1])
        if of[0] == "Struct" and of[1] == "&[]":
            return "uart_slice_mut" if of[2][0][2] else "uart_slice"
        if of[0] == "Struct":
            names = [self.bare_name(one) for one in of[2]]
            pair = f"uart_pair_of_{names[0]}" if len(set(names)) == 1 else "uart_pair_of_" + "_and_".join(names)
            return PAIRS.get(pair, (pair, []))[0]
        kind = self.kind(of)
        if kind.kind == "option":
            return f"uart_maybe_{self.bare_name(kind.value)}"
        if kind.kind in ("outcome", "either"):
            return f"uart_{self.bare_name(kind.value)}_or_{self.bare_name(kind.error)}"
        base = snake(of[1].split("::")[-1])
        base = "pair_of" if base.startswith("(") else re.sub("uart16550_?", "", base) or "driver"
        inner = [self.bare_name(one) for one in of[2] if one not in OF_CALLER_TYPES]
        if base == "pair_of" and len(set(inner)) == 1:
            inner = inner[:1]
        made = "_".join(["uart", base, *inner])
        return PAIRS.get(made, (made, []))[0]

    def bare_name(self, of: Type) -> str:
        return re.sub(r"^(uart|u16550_core|u16550)_", "", self.plain_name(of))

    def variants(self, of: Type) -> list[tuple[str, list[str], list[Type]]]:
        """Of an enum: the name, the names of the parts and their types of each variant."""
        _, parts = self.shape(of)
        named = self.source.variants.get(self.own(of))
        if not named or len(named) != len(parts):
            named = [(f"Case{order}", [f"part{place}" for place, _ in enumerate(part)]) for order, part in enumerate(parts)]
        return [(name, fields, part) for (name, fields), part in zip(named, parts)]

    def fields(self, of: Type) -> list[tuple[str, Type]]:
        """Of a struct: the names and types of its parts."""
        parts = self.shape(of)[1][0]
        names = called.MEMBERS.get(self.own(of)) or self.source.fields.get(self.own(of)) if of[0] == "Named" else None
        if of[0] == "Named" and of[1] == VECTOR:
            names = ["data", "len", "capacity"]
        if not names:
            names = next((members for name, members in PAIRS.values() if self.plain_name(of) == name), None)
        if not names or len(names) != len(parts):
            names = [f"part{order}" for order, _ in enumerate(parts)] if len(parts) > 4 else ["first", "second", "third", "fourth"][: len(parts)]
        return list(zip(map(safe, names), parts))

    def is_size(self, of: Type, order: int) -> bool:
        """Whether a part of a struct counts bytes of memory."""
        if of[0] == "Named" and of[1] == VECTOR:
            return order > 0
        if of[0] == "Named" and "NonZero" in of[1]:
            return "Usize" in of[1]
        types = self.source.types_of_fields.get(self.own(of)) if of[0] == "Named" else None
        return types is not None and re.search(r"\b(usize|NonZeroUsize)\b", types[order]) is not None

    def is_of_library(self, of: Type) -> bool:
        """Whether a struct is one of a library that any type may be a part of: nobody says there what its numbers count."""
        is_known = of[0] != "Named" or of[1] == VECTOR or "NonZero" in of[1]
        return not is_known and self.own(of) not in self.source.types_of_fields

    def is_error(self, of: Type) -> bool:
        return str(of[1]).endswith("Error")

    def constant(self, of: Type, tag: int | None) -> str:
        """The C name of a variant, or of none."""
        if told := self.told_of(of):
            number = self.ok if tag is None else told.numbers.get(self.variants(of)[tag][0])
            if not isinstance(number, str):
                raise Unknown(f"the variant {tag} of {of[1]}, which has no number of its own")
            return number
        prefix = self.plain_name(of).upper()
        return f"{prefix}_NONE" if tag is None else f"{prefix}_{snake(self.variants(of)[tag][0]).upper()}"

    def numbers(self, of: Type, tag: int) -> list[str]:
        """The C names that tell of a variant: more than one, if it has an error in it."""
        told = self.told_of(of)
        number = told.numbers.get(self.variants(of)[tag][0]) if told else None
        return [*number.values()] if isinstance(number, Mapping) else [self.constant(of, tag)]

    def is_part(self, of: Type, tag: int, part: Type) -> bool:
        """Whether a part of a variant is one of the struct of C: not if it has one value only, or if the number of the variant tells it."""
        told = self.told_of(of)
        return not self.is_unit(part) and not (told and isinstance(told.numbers.get(self.variants(of)[tag][0]), Mapping))

    def part_name(self, of: Type, tag: int, order: int) -> str:
        """The name of a part of a variant in the struct of C."""
        name, fields, part = self.variants(of)[tag]
        if (told := self.told_of(of)) and told.details:
            return told.details[2][name, fields[order]]
        full = [one for one in part if not self.is_unit(one)]
        return safe(snake(name) if len(full) == 1 else f"{snake(name)}_{fields[order]}")

    # Types of C.

    def c(self, of: Type, is_size: bool | None = None) -> syntax.Type:
        """The C type of a value."""
        kind = self.kind(of)
        word = kind.kind
        if word == "unit":
            return VOID
        if word == "bool":
            return BOOL
        if word == "number":
            return Number(of[1], (Width(is_size) if of[1] == 64 else None))
        if word == "wrapper":
            return self.c(kind.value, None if self.is_of_library(of) else self.is_size(of, kind.order))
        if word == "pointer":
            return self.pointer(of)
        if word in ("nullable", "status"):
            return self.c(kind.error if word == "status" else kind.value)
        if word == "option" and self.is_unit(kind.value):
            return BOOL
        if of[0] == "Named" and of[1] == "core::ops::ControlFlow":
            return self.c(self.same_as(of))
        if word == "device":
            return Named(OF_CALLER_TYPES[of])
        if told := self.told_of(of) if word in ("enum", "tagged") else None:
            if word == "enum":
                return told.of
            if told.details:
                return Named(told.details[0])
        name = self.declare(of)
        return Code(name) if word == "enum" and self.is_in_header(of) else Named(name)

    def tag(self, of: Type) -> Named:
        """The C type of the number that says which variant an error is."""
        if told := self.told_of(of):
            return told.of
        return (Code if self.is_in_header(of) else Named)(f"enum {self.plain_name(of)}_kind")

    def is_in_header(self, of: Type) -> bool:
        return self.canonical(of) in self.in_header

    def pointer(self, of: Type) -> Pointer:
        if of == "Ptr":
            return Pointer(BYTE)
        inner = of[1][1] if of[1][0] == "Array" else of[1]
        return Pointer(self.c(inner), not of[2])

    def declare(self, of: Type) -> str:
        """The C name of a struct or an enum, which is declared once."""
        name = self.plain_name(of)
        if of[0] == "Named" and of[1] == OPTION:
            of = ("Named", OPTION, of[2])
        word = "enum" if self.kind(of).kind == "enum" else "struct"
        if name not in self.names:
            self.names[name] = f"{word} {name}"
            if of not in self.public:
                self.declarations.append((name, self.declaration(of, name)))
        return self.names[name]

    def is_array_of_header(self, of: Type, inner: Type) -> bool:
        """Whether a part of a struct is an array in C: only in a struct of the header, since an array cannot be assigned."""
        return of in self.public and inner[0] == "Array"

    def member(self, whole: Type, of: Type, name: str, is_size: bool | None = None) -> str:
        """A member of a struct of this type. In the header it is as wide as it is whatever a compiler is told, and by whatever name it has bool."""
        made = Pointer(BYTE) if of == "Ptr" else self.c(of, is_size)
        if self.is_in_header(whole) and made is BOOL:
            made = BYTE
        told = f" /* an {made.name} */" if isinstance(made, Code) else ""
        return f"    {declared(made, name)};{told}"

    def declaration(self, of: Type, name: str) -> str:
        kind = self.kind(of)
        comment = self.comment(of)
        if kind.kind == "enum":
            return f"{comment}enum {name} {{\n" + ",\n".join(self.constants(of)) + "\n};\n"
        return f"{comment}struct {name} {{\n" + "\n".join(self.members(of, name)) + "\n};\n"

    def constants(self, of: Type) -> list[str]:
        if self.told_of(of):
            return [self.ok if self.is_error(of) else self.constant(of, 0)]
        first = 1 if self.is_error(of) else 0
        none = [f"    {self.constant(of, None)} = 0"] if first else []
        return none + [f"    {self.constant(of, order)} = {order + first}" for order, _ in enumerate(self.variants(of))]

    def members(self, of: Type, name: str) -> list[str]:
        kind = self.kind(of)
        if kind.kind == "array":
            return [f"    {declared(self.c(of[1]), f'bytes[{of[2]}]')};"]
        if kind.kind == "option":
            return [self.member(of, "Bool", kind.flag), self.member(of, kind.value, kind.member)]
        if kind.kind == "outcome":
            return [self.member(of, kind.error, "error"), self.member(of, kind.value, "value")]
        if kind.kind == "either":
            return [self.member(of, "Bool", "is_error"), self.member(of, kind.error, "error"), self.member(of, kind.value, "value")]
        if kind.kind == "slice":
            return [self.member(of, kind.value, "data"), "    size_t len;"]
        if kind.kind == "tagged":
            tags = self.tag(of)
            if not self.told_of(of):
                self.declarations.append((f"{name}_kind", f"{tags.name} {{\n" + ",\n".join(self.constants(of)) + "\n};\n"))
            inner = [
                self.member(of, one, self.part_name(of, tag, order))
                for tag, (_, _, part) in enumerate(self.variants(of))
                for order, one in enumerate(part)
                if self.is_part(of, tag, one)
            ]
            told = f" /* an {tags.name} */" if isinstance(tags, Code) else ""
            return [f"    {declared(tags, 'kind')};{told}", *inner]
        return [self.member(of, one, field, self.is_size(of, order)) for order, (field, one) in enumerate(self.fields(of)) if not self.is_unit(one)]

    def comment(self, of: Type) -> str:
        if of[0] != "Named" or of[1].startswith("core"):
            return ""
        lines = self.source.comments.get(self.own(of), [])
        return comment_of(Words(of[1].split("::")[0], self.calls, {}, said=self.said).text(lines) if self.calls else lines)


def safe(name: str) -> str:
    return name + "_" if name in RESERVED else name


def comment_of(lines_of_source: list[str], proved: Sequence[str] = ()) -> str:
    """A comment of Rust as one of C: without examples, and without marks of Rust. What is proved comes behind it."""
    out, is_example = [], False
    for one in lines_of_source:
        if one.strip().startswith(("# Examples", "# Panics", "# Safety")):
            is_example = True
        elif one.startswith("# "):
            is_example = False
        if not is_example and not one.strip().startswith("```"):
            out.append(re.sub(r"\[?`([^`]*)`\]?(?:\([^)]*\))?", r"\1", one).replace("# ", "").replace("::", "_"))
    while out and not out[-1].strip():
        out.pop()
    while out and not out[0].strip():
        out.pop(0)
    out = filled(out)
    if proved:
        out += ([""] if out else []) + proved_lines(proved)
    if not out:
        return ""
    if len(out) == 1 and len(out[0]) < SHORT:
        return f"/* {out[0]} */\n"
    return "/*\n" + "".join(f" * {one}".rstrip() + "\n" for one in out) + " */\n"


def proved_lines(proved: Sequence[str]) -> list[str]:
    """What is proved, as the lines of a comment."""
    return [line for one in proved for line in filled([f"Proved: {one.replace('`', '').rstrip('.')}."])]


__all__ = ["SIZE", "Representation", "comment_of", "proved_lines", "safe"]
