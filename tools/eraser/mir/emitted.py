"""The declarations of an emitted crate, read from its text: types, functions and constants, private ones too.

What this reads wrongly does not compile, or has no partner in the MIR.
"""
import collections
import dataclasses
import pathlib
import re
from collections.abc import Iterable

BLANK = re.compile(r'//[^\n]*|b?"(?:\\.|[^"\\])*"|b?\'(?:\\.|[^\'\\])\'', re.DOTALL)
FUNCTION = re.compile(r"(?:^|\n)[ \t]*(pub(?:\([^)]*\))? )?(?:const )?fn (\w+)\s*(<[^(]*?>)?\s*\(", re.DOTALL)
TYPE = re.compile(r"((?:#\[[^\]]*\]\s*)*)(?:pub(?:\([^)]*\))? )?(struct|enum) (\w+)(<(?:[^<>]|<[^<>]*>)*>)?\s*(?:where[^{;]*)?([{(;])")
OWNER = re.compile(r"(?:^|\n)(impl|(?:pub(?:\([^)]*\))? )?trait)\b([^{;]*)\{")
CONSTANT = re.compile(r"\n( *)((?:pub(?:\([^)]*\))? )?)const (\w+)\s*:\s*([^=;]+?)\s*[=;]")
# A constant that stands in a list of parameters begins nothing.
BEGINS = re.compile(r"\b(?:fn|struct|enum|union|static) \w|(?<!<)(?<!, )\bconst [A-Z_]\w*\s*:")
# A constant that is a number.
VALUED = re.compile(r"\bconst (\w+)\s*:[^=;]+=\s*(\w+);")
CHARACTER = re.compile(r"\bb?'([^\\'])'")
NUMBER = re.compile(r"\b(0x[0-9a-fA-F_]+|0b[01_]+|\d[\d_]*)(?:_?[ui](?:8|16|32|64|size))?\b")


def begin(pattern: str, text: str) -> re.Match[str]:
    """What a text begins with, that rustc takes."""
    found = re.match(pattern, text)
    assert found, f"{text[:60]!r} does not begin as {pattern}"
    return found


@dataclasses.dataclass
class Type:
    """A struct or an enum. `parts` has the fields of the struct, or of each variant, as name and type; a name is a number in a tuple."""

    name: str
    module: str
    file: pathlib.Path
    is_enum: bool
    parameters: list[str]
    variants: list[tuple[str, list[tuple[str, str]]]]
    derives: list[str]

    def over(self, device: str) -> str:
        """The type, with the device for each parameter."""
        return f"{self.name}<{', '.join(device for _ in self.parameters)}>" if self.parameters else self.name


@dataclasses.dataclass
class Function:
    """A function. `owner` is the type of its `impl`, `trait` the trait of it, with their parameters; `is_declared` is one of a trait. `body`
    is its text with its braces, or nothing."""

    name: str
    module: str
    file: pathlib.Path
    is_public: bool
    generics: str
    parameters: list[str]
    result: str
    owner: str = ""
    trait: str = ""
    is_declared: bool = False
    body: str = ""

    def path(self) -> str:
        """The path that the eraser gives the function."""
        owner = begin(r"[\w:]+", self.owner)[0].split("::")[-1] if self.owner else self.trait
        return "::".join(one for one in (self.module, owner, self.name) if one)


class Emitted:
    """The declarations of the files below a folder `proved`."""

    def __init__(self, folder: pathlib.Path) -> None:
        self.modules, self.types, self.functions = dict[pathlib.Path, str](), list[Type](), list[Function]()
        self.constants, self.numbers = list[tuple[str, str, str, str, str]](), set[int]()
        # The numbers of the constants of each name.
        self.values: dict[str, set[int]] = {}
        # How many functions, types and constants each file begins, whatever is read of them; and what is read and left out.
        self.begun = dict[pathlib.Path, int]()
        self.read_constants, self.left = collections.Counter[pathlib.Path](), collections.Counter[pathlib.Path]()
        for file in sorted(folder.rglob("*.rs")):
            parts = [one for one in file.relative_to(folder).with_suffix("").parts if one != "mod"]
            if parts and "by_hand" not in parts:
                self.modules[file] = "::".join(parts)
                self.read(file, "::".join(parts))

    @staticmethod
    def numbers_in(text: str) -> set[int]:
        """The numbers in a text, and the characters."""
        found = {int(one[1].replace("_", ""), 0) for one in NUMBER.finditer(text)}
        return found | {ord(one) for one in CHARACTER.findall(text)}

    def leave_out(self, patterns: Iterable[str]) -> None:
        """Forgets what has one of these patterns in its path: it is not compared."""

        def is_left(one: Type | Function) -> bool:
            return not any(re.search(pattern, f"{one.module}::{getattr(one, 'owner', '')} {one.name}") for pattern in patterns)

        every: list[Type | Function] = [*self.types, *self.functions]
        self.left.update(one.file for one in every if not is_left(one))
        self.types = [one for one in self.types if is_left(one)]
        self.functions = [one for one in self.functions if is_left(one)]

    def missing(self) -> list[str]:
        """What was not read: of each file that begins more functions, types and constants than were read, how many more."""
        read = collections.Counter([*(one.file for one in self.functions), *(one.file for one in self.types)])
        read += self.read_constants + self.left
        return [f"{count - read[file]} items of {self.modules[file]}" for file, count in self.begun.items() if count != read[file]]

    def read(self, file: pathlib.Path, module: str) -> None:
        text = blank(file.read_text(encoding="ascii"))
        self.begun[file] = len(BEGINS.findall(text))
        self.numbers |= self.numbers_in(text)
        for found in VALUED.finditer(text):
            self.values.setdefault(found[1], set()).update(self.numbers_in(found[2]))
        for found in TYPE.finditer(text):
            self.types.append(read_type(found, text, file, module))
        owners = [(found.start(), closing(text, found.end() - 1), found) for found in OWNER.finditer(text)]
        for found in FUNCTION.finditer(text):
            owner = next((one for start, end, one in owners if start <= found.start() < end), None)
            self.functions.append(read_function(found, text, file, module, owner))
        for found in CONSTANT.finditer(text):
            owner = next((one for start, end, one in owners if start <= found.start() < end), None)
            self.read_constants[file] += 1
            self.constants.append((module, owner[2].strip() if owner else "", found[3], found[4], found[2].strip()))


def blank(text: str) -> str:
    """A text without comments, and with nothing in its strings."""
    return BLANK.sub(lambda found: " " if found[0].startswith("/") else '""' if '"' in found[0] else found[0], text)


def closing(text: str, at: int) -> int:
    """The offset of the bracket that closes the one here."""
    pairs = {"{": "}", "(": ")", ";": ";"}
    close, depth = pairs[text[at]], 0
    if close == ";":
        return at
    for here in range(at, len(text)):
        depth += {text[at]: 1, close: -1}.get(text[here], 0)
        if depth == 0:
            return here
    raise ValueError("a bracket that is not closed")


def split(text: str) -> list[str]:
    """The parts of a list that commas separate."""
    parts, depth, part = [], 0, ""
    for at, letter in enumerate(text):
        if letter in "([{<":
            depth += 1
        elif letter in ")]}" or letter == ">" and text[at - 1] != "-":
            depth -= 1
        if letter == "," and depth == 0:
            parts.append(part.strip())
            part = ""
        else:
            part += letter
    return [one for one in [*parts, part.strip()] if one]


def named(fields: str, is_tuple: bool) -> list[tuple[str, str]]:
    """Fields as name and type."""
    found = [re.sub(r"^(?:#\[[^\]]*\]\s*)*pub(?:\([^)]*\))?\s*", "", one) for one in split(fields)]
    if is_tuple:
        return [(str(order), one) for order, one in enumerate(found)]
    parts = (one.partition(":") for one in found)
    return [(name.strip(), of.strip()) for name, _, of in parts]


def read_type(found: re.Match[str], text: str, file: pathlib.Path, module: str) -> Type:
    close = closing(text, found.end() - 1)
    body = re.sub(r"#\[[^\]]*\]", "", text[found.end() : close])
    parameters = [re.sub(r"\s+=\s.*", "", one, flags=re.DOTALL) for one in split(found[4][1:-1])] if found[4] else []
    if found[2] == "struct":
        variants = [("", named(body, found[5] == "("))]
    else:
        variants = []
        for one in split(body):
            inner = re.match(r"\w+\s*([({])(.*)[)}]", one, re.DOTALL)
            variants.append((begin(r"\w+", one)[0], named(inner[2], inner[1] == "(") if inner else []))
    derives = re.findall(r"\w+", " ".join(re.findall(r"derive\(([^)]*)\)", found[1])))
    return Type(found[3], module, file, found[2] == "enum", parameters, variants, derives)


def body_of(text: str, at: int) -> str:
    """The body that begins here, or nothing."""
    return text[at : closing(text, at) + 1] if text[at] == "{" else ""


def read_function(found: re.Match[str], text: str, file: pathlib.Path, module: str, owner: re.Match[str] | None) -> Function:
    close = closing(text, found.end() - 1)
    rest = begin(r"\s*(?:->\s*([^{;]*?))?\s*(?:where[^{;]*)?[{;]", text[close + 1 :])
    function = Function(
        name=found[2],
        module=module,
        file=file,
        is_public=found[1] == "pub ",
        generics=found[3] or "",
        parameters=split(text[found.end() : close]),
        result=(rest[1] or "()").strip(),
        body=body_of(text, close + 1 + rest.end() - 1),
    )
    if owner and "trait" in owner[1]:
        function.is_declared, function.trait = True, begin(r"\s*\w+", owner[2])[0].strip()
    elif owner:
        parts = begin(r"(?s)(<(?:[^<>]|<[^<>]*>)*>)?\s*(.*?)\s*(?:\bwhere\b.*)?$", owner[2].strip())
        function.generics += parts[1] or ""
        *trait, function.owner = re.split(r"\s+for\s+", parts[2])
        function.trait = trait[0] if trait else ""
    return function
