"""The proved MIR of crates as Rust: each function that is asked for and what it reaches, over concrete types, with checked arithmetic.

The kit leaves the MIR that its proofs are about beside each library, in `toolchain/mir.json`: a list of functions, whose bodies are trees
in prefix order. Here a type is "Unit", "Bool", "Ptr", "Never", ("Int", bits), ("Ref", type), ("Struct", name, types),
("Array", type, length), ("Vector", type, length), ("Named", name, arguments) or ("Num", number), and a dictionary, the implementation of a
trait, is (name, types, dictionaries).
"""
import json
import pathlib
import sys
from collections.abc import Callable, Mapping, Sequence
from typing import Any

# A node of the MIR, as JSON has it: `head` says which of many forms it is of.
Node = Any
# A type as above: a name, or a tuple whose first part says what the others are.
Type = Any
Types = tuple[Type, ...]
# A dictionary, whose own dictionaries are as deep.
Dictionary = tuple[str, Types, tuple[Any, ...]]
Dictionaries = tuple[Dictionary, ...]
# A function by its name; or what has no MIR: ("native", name, or an implementation with the index of its method).
Key = Any
# The types of the arguments, the type of the result, and the body.
Made = tuple[list[str], str, str]
Native = Callable[["Translation", Types], Made]
# Of a struct or an enum: `fields` or `variants`, and of each variant the types of its fields and their names.
Parts = tuple[str, list[list[tuple[Type, str]]]]

# A body is as deep as its code is nested.
sys.setrecursionlimit(100_000)

BITWISE = {"And": "&", "Or": "|", "Xor": "^"}
ORDERS = {"Eq": "==", "Ne": "!=", "Lt": "<", "Le": "<="}

HEAD = """#![allow(warnings, clippy::all)]
//! The proved MIR, translated by translate.py.
use crate::run::{Choices, Value};
use std::{mem::zeroed, vec::Vec};
pub type P = *mut u8;
fn checked<T>(value: Option<T>) -> T {
    match value { Some(value) => value, None => panic!("the MIR overflows") }
}
macro_rules! narrow {
    ($value:expr, $to:ty) => {{ let value = $value; if value > <$to>::MAX as _ { panic!("the MIR narrows") } value as $to }};
}
#[repr(transparent)]
pub struct Shared<T>(pub T);
unsafe impl<T> Sync for Shared<T> {}
"""


class Unknown(Exception):
    """A form of the MIR that is not translated."""


def head(node: Node) -> tuple[str, Node]:
    """The kind of a node, and what belongs to it."""
    if isinstance(node, str):
        return node, None
    ((kind, value),) = node.items()
    return kind, value


class Program:
    """The functions, types and implementations of some crates."""

    def __init__(self, paths: Sequence[pathlib.Path]) -> None:
        self.functions, self.types, self.implementations = dict[str, Node](), dict[str, Node](), dict[str, Node]()
        for path in paths:
            with open(path, encoding="utf-8") as file:
                for name, function in json.load(file):
                    self.functions[name] = function
                    self.types |= {one["name"]: one for one in function["types"]}
                    self.implementations |= {one["name"]: one for one in function["generics"]["impls"]}
        self.methods: dict[tuple[str, int], str] = {}
        for name, function in self.functions.items():
            of = function["generics"]["method_of"]
            if of and "Impl" in of:
                self.methods[of["Impl"][0], of["Impl"][1]] = name


class Translation:
    """A program, and what of it has become Rust. `natives` has what is written by hand: by function, or by implementation and index of the
    method, a function of the translation and the types that returns the types of the arguments, the type of the result, and the body."""

    def __init__(self, program: Program, natives: Mapping[Any, Native], own: Sequence[str]) -> None:
        self.program, self.natives, self.own = program, natives, own
        self.instances: dict[tuple[Key, Types, Dictionaries], str] = {}
        self.waiting, self.texts = list[tuple[Key, Types, Dictionaries]](), list[str]()
        self.names_of_types, self.shapes = dict[Type, str](), dict[str, tuple[Type, Parts]]()
        self.statics, self.types_of_statics = dict[str, tuple[str, str]](), dict[str, Type]()
        self.places: dict[tuple[str, int, str], int] = {}
        self.unknown: list[tuple[Key, str]] = []

    # Types.

    def type(self, node: Node, types: Types) -> Type:
        """The type of a node, with these types for its parameters."""
        kind, value = head(node)
        if kind in ("Unit", "Bool", "Ptr", "Never"):
            return kind
        if kind == "Int":
            return ("Int", value)
        if kind == "Param":
            return types[value]
        if kind == "Ref":
            return ("Ref", self.type(value[2], types))
        if kind == "Struct":
            return ("Struct", value[0], tuple(self.type(one, types) for one in value[1]))
        if kind in ("Array", "Vector"):
            return (kind, self.type(value[0], types), self.number(value[1], types))
        if kind == "Named":
            return ("Named", value[0]["name"], tuple(self.type(one, types) for one in value[1]))
        if kind in ("Const", "Lit"):
            return ("Num", self.number(node, types))
        return ("Other", json.dumps(node))

    @staticmethod
    def number(node: Node, types: Types) -> int:
        kind, value = head(node)
        if kind == "Lit":
            return int(value)
        if kind == "Param":
            return int(types[value][1])
        if kind == "Const":
            return int(value[1] if isinstance(value, list) else value)
        raise Unknown(f"a number {kind}")

    def dictionary(self, node: Node, types: Types, dictionaries: Dictionaries) -> Dictionary:
        kind, value = head(node)
        if kind == "Given":
            return dictionaries[value]
        if kind == "Impl":
            inner = tuple(self.dictionary(one, types, dictionaries) for one in value[2])
            return (value[0], tuple(self.type(one, types) for one in value[1]), inner)
        raise Unknown(f"a dictionary {kind}")

    def rust(self, of: Type) -> str:
        """The Rust type of a type."""
        if of in self.names_of_types:
            return self.names_of_types[of]
        if of in ("Unit", "Never"):
            name = "()"
        elif of == "Bool":
            name = "bool"
        elif of == "Ptr" or of[0] == "Ref":
            name = "P"
        elif of[0] == "Int":
            name = f"u{of[1]}"
        elif of[0] in ("Array", "Vector"):
            name = f"[{self.rust(of[1])}; {of[2]}]"
        elif of[0] in ("Struct", "Named"):
            return self.shape(of)
        else:
            raise Unknown(f"the type {of}")
        self.names_of_types[of] = name
        return name

    def rust_outside(self, of: Type) -> str:
        """The Rust type of a type, as another module names it."""
        name = self.rust(of)
        return f"crate::mir::{name}" if name[0] in "ST" else name

    def shape(self, of: Type) -> str:
        """The name of the Rust type of a struct or an enum, which has the same fields in the same order."""
        name = f"{of[0][0].replace('N', 'T')}{len(self.shapes)}"
        self.names_of_types[of] = name
        self.shapes[name] = (of, ("", []))
        if of[0] == "Struct":
            kind, parts = "fields", [of[2]]
        else:
            if of[1] not in self.program.types:
                raise Unknown(f"the type {of[1]}")
            shape, value = head(self.program.types[of[1]]["shape"])
            if shape not in ("Fields", "Variants"):
                raise Unknown(f"a shape {shape}")
            kind = shape.lower()
            parts = [[self.type(one, of[2]) for one in part] for part in ([value] if kind == "fields" else value)]
        self.shapes[name] = (of, (kind, [[(one, self.rust(one)) for one in part] for part in parts]))
        return name

    def layout(self, of: Type) -> tuple[int, int]:
        """The bytes of a type and what they are aligned to, as the kit lays it out: an address has eight, whatever target is compiled for."""
        if of in ("Unit", "Never"):
            return 0, 1
        if of == "Bool":
            return 1, 1
        if of == "Ptr" or of[0] == "Ref":
            return 8, 8
        if of[0] == "Int":
            return of[1] // 8, of[1] // 8
        if of[0] in ("Array", "Vector"):
            size, align = self.layout(of[1])
            return size * of[2], align
        size, align = 0, 1
        for fields in self.variants(of):
            for place, count in self.places_of_fields(fields):
                size = max(size, place + count)
            align = max([align, *(self.layout(one)[1] for one in fields)])
        return -(-size // align) * align, align

    def variants(self, of: Type) -> list[list[Type]]:
        """The types of the fields of a struct, or of each variant of an enum, whose first one is its number."""
        kind, parts = self.parts(of)
        number = [("Int", 8)] if kind == "variants" else []
        return [[*number, *(one for one, _ in part)] for part in parts]

    def places_of_fields(self, fields: list[Type]) -> list[tuple[int, int]]:
        """Where each field begins, and how many bytes it has."""
        places, at = [], 0
        for one in fields:
            size, align = self.layout(one)
            at = -(-at // align) * align
            places.append((at, size))
            at += size
        return places

    def declared(self, of: Type, order: int) -> tuple[list[str], bool]:
        """The fields of a struct, or of the variant with this number, as Rust declares them, and whether there are bytes between them. They
        are where the kit has them: a number of 64 bits is aligned to eight bytes on each target, and an address has eight."""
        out, end, fields = [], 0, self.variants(of)[order]
        for at, (one, (place, size)) in enumerate(zip(fields, self.places_of_fields(fields))):
            if place > end:
                out.append(f"pub b{at}: [u8; {place - end}]")
            out.append(f"pub f{at}: {self.rust(one)}")
            if self.rust(one) == "P":
                out.append(f"pub a{at}: [u8; {size} - core::mem::size_of::<P>()]")
            end = place + size
        whole = self.layout(of)[0]
        if whole > end:
            out.append(f"pub e: [u8; {whole - end}]")
        return out, len(out) > len(fields)

    def rest(self, of: Type, order: int = 0) -> str:
        """What a value of this struct or variant ends with behind its fields: the bytes between them."""
        return ", ..unsafe { core::mem::zeroed() }" if self.declared(of, order)[1] else ""

    def at_byte(self, of: Type, offset: int) -> str:
        """The text behind a value of this type that names the part which begins at this byte."""
        if offset == 0:
            return ""
        if of[0] == "Array":
            size, _ = self.layout(of[1])
            return f"[{offset // size}]{self.at_byte(of[1], offset % size)}"
        if of[0] not in ("Struct", "Named"):
            raise Unknown(f"a byte inside of {of}")
        fields = [one for one, _ in self.parts(of)[1][0]]
        for order, (start, size) in enumerate(self.places_of_fields(fields)):
            if start <= offset < start + size:
                return f".f{order}{self.at_byte(fields[order], offset - start)}"
        raise Unknown(f"a byte behind {of}")

    def parts(self, of: Type) -> Parts:
        """What a struct or an enum has: `fields` or `variants`, and of each variant the types and their names."""
        return self.shapes[self.rust(of)][1]

    # Functions.

    def instance(self, name: Key, types: Types = (), dictionaries: Dictionaries = ()) -> str:
        """The Rust name of a function over concrete types."""
        key = (name, types, dictionaries)
        if key not in self.instances:
            self.instances[key] = f"f{len(self.instances)}"
            self.waiting.append(key)
        return self.instances[key]

    def method(self, dictionary: Dictionary, index: int, types: Types, dictionaries: Dictionaries) -> str:
        key = (dictionary[0], index)
        if key in self.natives:
            return self.instance(("native", key), dictionary[1] + types)
        name = self.program.methods.get(key)
        if name is None:
            listed = self.program.implementations.get(dictionary[0], {"methods": []})["methods"]
            name = listed[index] if index < len(listed) else None
        if name is None and index == 0 and "Destruct" in dictionary[0]:
            return self.instance(("native", "drop"), dictionary[1])
        if name is None:
            raise Unknown(f"the method {index} of {dictionary[0]}")
        return self.instance(name, dictionary[1] + types, dictionary[2] + dictionaries)

    def place(self, function: str, order: int, label: str) -> int:
        """The number of a place of an own function: its entry, or a branch, which all instances share."""
        return self.places.setdefault((function, order, label), len(self.places))

    def translate(self) -> None:
        while self.waiting:
            key = self.waiting.pop()
            try:
                self.texts.append(self.function(key))
            except (Unknown, KeyError) as cause:
                self.unknown.append((key[0], repr(cause)))

    def function(self, key: tuple[Key, Types, Dictionaries]) -> str:
        name, types, dictionaries = key
        native = self.natives.get(name[1] if isinstance(name, tuple) else name)
        if native or isinstance(name, tuple):
            if native is None:
                arguments, result, body = [self.rust(types[0])], "()", ""
            else:
                arguments, result, body = native(self, types)
            listed = ", ".join(f"a{order}: {one}" for order, one in enumerate(arguments, 1))
            return f"pub unsafe fn {self.instances[key]}({listed}) -> {result} {{ {body} }}"
        return Body(self, name, types, dictionaries).text(self.instances[key])

    def module(self) -> str:
        """The text of the module: types, statics and functions."""
        out = [HEAD]
        for name, (of, (kind, parts)) in list(self.shapes.items()):
            derive = "#[repr(C)] #[derive(Clone, Copy)] pub"
            fields = [", ".join(self.declared(of, order)[0]) for order in range(len(parts))]
            if kind == "fields":
                out.append(f"{derive} struct {name} {{ {fields[0]} }}")
                continue
            out += [f"{derive} struct {name}v{order} {{ {one} }}" for order, one in enumerate(fields)]
            cases = ", ".join(f"pub v{order}: {name}v{order}" for order in range(len(parts)))
            out.append(f"{derive} union {name} {{ {cases} }}" if parts else f"{derive} struct {name} {{ none: () }}")
        for name, (of, value) in self.statics.items():
            out.append(f"static {name}: Shared<{of}> = Shared({value});")
        return "\n".join(out + self.texts) + "\n"


class Body:
    """The body of one function, over concrete types, as Rust."""

    def __init__(self, translation: Translation, name: str, types: Types, dictionaries: Dictionaries) -> None:
        self.of, self.name, self.types, self.dictionaries = translation, name, types, dictionaries
        self.function = translation.program.functions[name]
        self.locals = [translation.type(one["ty"], types) for one in self.function["locals"]]
        self.lines, self.at, self.labels, self.branches = list[str](), 0, 0, 0

    def text(self, me: str) -> str:
        count, rust = self.function["params"], [self.of.rust(one) for one in self.locals]
        parameters = ", ".join(f"mut l{order + 1}: {rust[order + 1]}" for order in range(count))
        self.reach("entry")
        self.node([])
        if self.at != len(self.function["body"]):
            raise Unknown("a body with more than one tree")
        variables = [0, *range(count + 1, len(rust))]
        start = [f"let mut l{order}: {rust[order]} = zeroed();" for order in variables]
        comment = f"// {self.name}"
        return "\n".join([comment, f"pub unsafe fn {me}({parameters}) -> {rust[0]} {{", *start, *self.lines, "l0", "}"])

    def reach(self, label: str) -> None:
        """Notes that a place of an own function is reached."""
        if self.name.split("::")[0] in self.of.own:
            self.lines.append(f"crate::run::reach({self.of.place(self.name, self.branches, label)});")
        self.branches += 1

    # Statements.

    def node(self, labels: list[str]) -> None:
        statement = self.function["body"][self.at]
        self.at += 1
        kind, value = head(statement)
        write = getattr(self, f"write_{kind.lower()}", None)
        if write is None:
            raise Unknown(f"a statement {kind}")
        write(value, labels)

    def write_seq(self, _: Node, labels: list[str]) -> None:
        self.node(labels)
        self.node(labels)

    def write_skip(self, _: Node, labels: list[str]) -> None:
        pass

    def write_block(self, _: Node, labels: list[str], word: str = "") -> None:
        self.labels += 1
        label = f"'b{self.labels}"
        self.lines.append(f"{label}: {word}{{")
        if word:
            self.lines.append("crate::run::turn();")
        self.node([label, *labels])
        self.lines.append("}")

    def write_loop(self, value: Node, labels: list[str]) -> None:
        self.write_block(value, labels, "loop ")

    def write_return(self, _: Node, labels: list[str]) -> None:
        self.lines.append("return l0;")

    def write_exit(self, value: Node, labels: list[str]) -> None:
        self.lines.append(f"break {labels[value]};")

    def write_unreachable(self, _: Node, labels: list[str]) -> None:
        self.lines.append('panic!("unreachable in the MIR");')

    def write_if(self, value: Node, labels: list[str]) -> None:
        self.lines.append(f"if {self.operand(value)[0]} {{")
        self.reach("if")
        self.node(labels)
        self.lines.append("} else {")
        self.reach("else")
        self.node(labels)
        self.lines.append("}")

    def write_switch(self, value: Node, labels: list[str]) -> None:
        self.lines.append(f"match ({self.operand(value[0])[0]}) as u64 {{")
        for numbers in value[1]:
            self.lines.append(" | ".join(map(str, numbers)) + " => {")
            self.reach("case " + "|".join(map(str, numbers)))
            self.node(labels)
            self.lines.append("}")
        if value[2]:
            self.lines.append("_ => {")
            self.reach("other")
            self.node(labels)
            self.lines.append("}")
        else:
            self.lines.append('_ => panic!("no case in the MIR"),')
        self.lines.append("}")

    def write_assign(self, value: Node, labels: list[str]) -> None:
        text, of = self.place(value[0])
        self.lines.append(f"{text} = {self.value(value[1], of)};")

    def write_lendstatic(self, value: Node, labels: list[str]) -> None:
        of, name = self.of.type(value[1], self.types), f"C{len(self.of.statics)}"
        self.of.statics[name], self.of.types_of_statics[name] = ("", ""), of
        self.of.statics[name] = (self.of.rust(of), self.constant(value[2], of, name))
        self.lines.append(f"{self.place(value[0])[0]} = &raw const {name} as P;")

    def write_call(self, value: Node, labels: list[str]) -> None:
        called, arguments, result = value
        kind, what = head(called)
        given = what[1] if kind == "Fn" else what[2] if kind == "Method" else None
        if given is None:
            raise Unknown(f"a call {kind}")
        types = tuple(self.of.type(one, self.types) for one in given["types"])
        dictionaries = tuple(self.of.dictionary(one, self.types, self.dictionaries) for one in given["dicts"])
        if kind == "Fn":
            if what[0] not in self.of.program.functions and what[0] not in self.of.natives:
                raise Unknown(f"no function {what[0]}")
            name = self.of.instance(what[0], types, dictionaries)
        else:
            name = self.of.method(self.of.dictionary(what[0], self.types, self.dictionaries), what[1], types, dictionaries)
        listed = ", ".join(self.operand(one)[0] for one in arguments)
        self.lines.append(f"{self.place(result)[0]} = {name}({listed});")

    # Places and values.

    def place(self, node: Node) -> tuple[str, Type]:
        """The text of a place, and its type."""
        text, of = f"l{node['local']}", self.locals[node["local"]]
        for step in node["steps"]:
            kind, value = head(step)
            if kind == "Field":
                text += f".f{value}"
                if of[0] == "Variant":
                    of = ("Int", 8) if value == 0 else of[1][value - 1][0]
                else:
                    of = self.of.parts(of)[1][0][value][0]
            elif kind == "Variant":
                text, of = f"{text}.v{value}", ("Variant", self.of.parts(of)[1][value])
            elif kind == "Deref":
                of = self.of.type(value, self.types)
                text = f"(*({text} as *mut {self.of.rust(of)}))"
            else:
                raise Unknown(f"a step {kind}")
        return text, of

    def operand(self, node: Node) -> tuple[str, Type]:
        """The text of an operand, and its type."""
        kind, value = head(node)
        if kind in ("Copy", "Move"):
            return self.place(value)
        if kind == "Int":
            return f"{value['value'] % (1 << value['width'])}u{value['width']}", ("Int", value["width"])
        if kind == "Unit":
            return "()", "Unit"
        if kind in ("True", "False"):
            return kind.lower(), "Bool"
        if kind == "NumOf":
            return f"{self.of.number(value[1], self.types)}u{value[0]}", ("Int", value[0])
        if kind in ("SizeOf", "AlignOf"):
            # What the kit has put into the MIR of concrete types as a number.
            size, align = self.of.layout(self.of.type(value, self.types))
            return f"{size if kind == 'SizeOf' else align}u64", ("Int", 64)
        raise Unknown(f"an operand {kind}")

    def made(self, of: Type, parts: list[str], tag: int | None) -> str:
        """A struct of these parts, or the variant of this number."""
        name = self.of.rust(of)
        fields = ", ".join(f"f{order}: {one}" for order, one in enumerate(parts))
        rest = self.of.rest(of, tag or 0)
        if tag is None:
            return f"{name} {{ {fields}{rest if fields else ''} }}"
        return f"{name} {{ v{tag}: {name}v{tag} {{ {fields}{rest} }} }}"

    def aggregate(self, of: Type, nodes: list[Node], text: Callable[[Node, Type], str]) -> str:
        """An array, a struct or a variant of these nodes, each of which `text` writes, given its type."""
        if of == "Unit":
            return "()"
        if of[0] == "Array":
            return "[" + ", ".join(text(one, of[1]) for one in nodes) + "]"
        kind, parts = self.of.parts(of)
        if kind == "fields":
            return self.made(of, [text(one, part[0]) for one, part in zip(nodes, parts[0])], None)
        tag = nodes[0]["Int"]["value"]
        rest = [text(one, part[0]) for one, part in zip(nodes[1:], parts[tag])]
        return self.made(of, [f"{tag}u8", *rest], tag)

    def constant(self, node: Node, of: Type, static: str) -> str:
        """The text of what a static is made of."""
        kind, value = head(node)
        if kind == "Int":
            return str(bool(value["value"])).lower() if of == "Bool" else f"{value['value']}u{value['width']}"
        if kind in ("True", "False"):
            return kind.lower()
        if kind == "Unit":
            return "()"
        if kind == "Ints":
            return "[" + ", ".join(f"{one}u{value['width']}" for one in value["values"]) + "]"
        if kind == "Repeat":
            return f"[{self.constant(value[0], of[1] if of[0] == 'Array' else None, static)}; {value[1]}]"
        if kind == "Here":
            return f"&raw const {static}.0{self.of.at_byte(self.of.types_of_statics[static], value)} as P"
        if kind == "Parts":
            return self.aggregate(of, value, lambda one, part: self.constant(one, part, static))
        raise Unknown(f"a constant {kind}")

    def value(self, node: Node, of: Type) -> str:
        """The text of what is assigned to a place of this type."""
        kind, value = head(node)
        if kind == "Opd":
            return self.operand(value)[0]
        if kind == "AddrOf":
            return f"(&raw mut {self.place(value)[0]}) as P"
        if kind == "Repeat":
            return f"[{self.operand(value[0])[0]}; {self.of.number(value[1], self.types)}]"
        if kind == "Aggregate":
            return self.aggregate(of, value, lambda one, _: self.operand(one)[0])
        if kind == "Op1":
            return self.of_one(head(value[0]), *self.operand(value[1]), of)
        if kind == "Op2":
            return self.of_two(head(value[0]), self.operand(value[1]), self.operand(value[2]))
        if kind == "Vec2" and "Mask" in value[0]:
            one, other, sign = self.operand(value[1])[0], self.operand(value[2])[0], ORDERS[value[0]["Mask"]]
            return f"core::array::from_fn(|i| if {one}[i] {sign} {other}[i] {{ 255 }} else {{ 0 }})"
        if kind == "Vec1" and "Bitmask" in value[0]:
            lanes = f"{self.operand(value[1])[0]}.iter().enumerate()"
            return f"{lanes}.fold(0u64, |mask, (at, lane)| if *lane != 0 {{ mask | 1 << at }} else {{ mask }})"
        raise Unknown(f"a value {kind}")

    def of_one(self, operation: tuple[str, Node], text: str, of: Type, to: Type) -> str:
        kind, value = operation
        if kind == "Not":
            return f"!{text}"
        if kind == "Cast":
            signed, _, bits = value
            if value[0] == value[1] == "Unsigned":
                is_wide = of == "Bool" or of[1] <= bits
                return f"(({text}) as u{bits})" if is_wide else f"narrow!({text}, u{bits})"
            return f"(({text}) as i{of[1]} as i{bits} as u{bits})" if signed == "Signed" else f"(({text}) as u{bits})"
        if kind in ("CountOnes", "TrailingZeros"):
            function = {"CountOnes": "count_ones", "TrailingZeros": "trailing_zeros"}[kind]
            return f"({text}.{function}() as {self.of.rust(to)})"
        raise Unknown(f"an operation {kind}")

    @staticmethod
    def of_two(operation: tuple[str, Node], first: tuple[str, Type], second: tuple[str, Type]) -> str:
        (kind, sign), (one, of), (other, _) = operation, first, second
        if kind == "Offset":
            return f"({one}).wrapping_add({other} as usize)"
        if kind in BITWISE:
            return f"({one} {BITWISE[kind]} {other})"
        if kind == "WrapAdd":
            # Of a sum that may wrap the low bits are the same, whatever the sign.
            return f"({one}).wrapping_add({other})"
        if sign == "Signed":
            one, other = f"({one} as i{of[1]})", f"({other} as i{of[1]})"
        if kind in ORDERS:
            return f"({one} {ORDERS[kind]} {other})"
        if kind in ("Shl", "Shr"):
            other = f"{other} as u32"
        elif kind not in ("Add", "Sub", "Mul", "Div", "Rem"):
            raise Unknown(f"an operation {kind}")
        done = f"checked(({one}).checked_{kind.lower()}({other}))"
        return f"({done} as u{of[1]})" if sign == "Signed" else done
