"""What the MIR has lost and the source still has: the names of fields, variants, parameters, locals and bits, and what is written about
them. A wrong name is only ugly. No number is taken from here but to choose the names of bits, and the numbers of these are compared with
that of the MIR."""
from __future__ import annotations

import dataclasses
import pathlib
import re
from collections.abc import Callable, Iterable
from typing import TypeAlias

from reasons import Reason, of_body

# Where a definition is: a crate, a module and its name there.
Definition: TypeAlias = tuple[str, str, str]
# What has a name in a crate.
Named: TypeAlias = tuple[str, str]
OPENING = {"(": ")", "{": "}", "[": "]"}
# Definitions that contracts are built of, of which C says nothing: they say what a call of a driver is, and not which.
GENERAL = set("IfAny Implies IsCapacity IsOnly IsOnlyIfAny OnDriver OnRings Plain Saving TerminalMade Times".split())
# What others say, where their own words need what is around them in the contract.
SAID = {
    "HasParity": "these bits are a code of this parity",
    "HasTrigger": "these bits are the code of this trigger level",
    "HasWordLength": "these bits are the code of this word length",
    "IsCovering": "the exact quotient, rounded up; or none, if that does not fit into 64 bits, or is by 0",
    "IsWithin": "the exact quotient, rounded down; or none, if that does not fit into 64 bits, or is by 0",
    "SameOutside": "no other bit changes",
    "Sets": "no access is made, and nothing else of the driver changes",
}
# The name of what a definition is about, or the names, in front of what it says.
OF_CALL = re.compile(r"^`\w+`(?:, `\w+`)*(?:: |, (?=with ))")


def sought(pattern: str, text: str, flags: re.RegexFlag = re.NOFLAG) -> re.Match[str]:
    """The first place of a pattern, which has to be there."""
    found = re.search(pattern, text, flags)
    if not found:
        raise ValueError(f"{pattern!r} is not in {text[:80]!r}")
    return found


def snake(name: str) -> str:
    """A name of Rust as C has it."""
    if name.isupper():
        return name.lower()
    return re.sub(r"(?<=[a-z0-9])(?=[A-Z])|(?<=[A-Z])(?=[A-Z][a-z])", "_", name).lower()


def closing(text: str, at: int) -> int:
    """Where the bracket that opens at `at` closes."""
    opened, closed, depth = text[at], OPENING[text[at]], 0
    for order in range(at, len(text)):
        depth += (text[order] == opened) - (text[order] == closed)
        if depth == 0:
            return order
    return len(text)


def listed(text: str) -> list[str]:
    """The parts between commas that are in no brackets."""
    out, depth, last = list[str](), 0, 0
    for order, letter in enumerate(text):
        if letter in "([{<":
            depth += 1
        elif letter in ")]}" or (letter == ">" and text[order - 1] not in "-="):
            depth -= 1
        elif letter == "," and depth == 0:
            out.append(text[last:order])
            last = order + 1
    return [one.strip() for one in [*out, text[last:]] if one.strip()]


def bare(text: str) -> str:
    """Text without comments and attributes."""
    return re.sub(r"#\[[^\]]*\]", "", re.sub(r"//[^\n]*", "", text))


def in_front(text: str, at: int) -> list[str]:
    """The lines of comments and attributes in front of a place."""
    before, out = text[:at].rstrip("\n").split("\n"), list[str]()
    while before and re.match(r"\s*(///|#\[|//)", before[-1]):
        out.insert(0, before.pop().strip())
    return out


def documentation(text: str, at: int) -> list[str]:
    """The lines of the comment in front of a place."""
    return [re.sub(r"^///? ?", "", line) for line in in_front(text, at) if line.startswith("//")]


@dataclasses.dataclass
class Function:
    """What the source says of a function."""

    parameters: list[tuple[str, str]]
    result: str
    is_public: bool
    comment: list[str]
    bindings: list[str]
    # The definitions that its contract says what it does by.
    cited: list[str]
    # Its clauses, with their names, and where the definitions are that its file uses.
    ensures: list[tuple[str, str]] = dataclasses.field(default_factory=list)
    requires: list[tuple[str, str]] = dataclasses.field(default_factory=list)
    uses: dict[str, Definition] = dataclasses.field(default_factory=dict)
    # Whether it is not to stand in the place of its calls.
    is_apart: bool = False
    # The constants that its body names, and the module that it is in.
    constants: frozenset[str] = frozenset()
    module: str = ""
    # The reasons inside of its body.
    reasons: list[Reason] = dataclasses.field(default_factory=list)

    def with_comment(self, other: Function | None) -> Function:
        """The same with the comment of another one, if there is such a one."""
        return dataclasses.replace(self, comment=other.comment, ensures=[], uses={}) if other else self


def sources(top: pathlib.Path) -> list[pathlib.Path]:
    """The sources of a crate. Those of modules that its root exports as modules come first: what the root names itself hides what has the same
    name in such a one, as the errors of the driver those of the original."""
    exported = re.findall(r"(?m)^pub mod (\w+);", (top / "lib.rt").read_text(encoding="utf-8"))
    return sorted(top.rglob("*.rt"), key=lambda file: (file.relative_to(top).parts[0].removesuffix(".rt") not in exported, file))


class Source:
    def __init__(self, root: pathlib.Path, crates: Iterable[str]) -> None:
        # By crate and name: of a struct its fields and their types, and of an enum each variant with its parts.
        self.fields, self.types_of_fields = dict[Named, list[str]](), dict[Named, list[str]]()
        self.variants, self.comments = dict[Named, list[tuple[str, list[str]]]](), dict[Named, list[str]]()
        # The numbers of constants, the modules that they are in, and what is written about them.
        self.constants, self.about = dict[Named, tuple[int, str]](), dict[Named, list[str]]()
        # Those that the source writes as bits.
        self.of_bits = set[Named]()
        self.functions, self.bits = dict[tuple[str, str | None, str], Function](), dict[Named, dict[str, int]]()
        # Definitions by their names, and by crate, module and name.
        self.definitions, self.defined = dict[str, str](), dict[Definition, str]()
        self.traits = dict[str | None, tuple[str, dict[str, Function]]]()
        for crate in crates:
            for file in sorted((root / "crates" / crate / "specs").glob("*.antt")):
                self.define(crate, file.stem, file.read_text(encoding="utf-8").split("\n"))
            for file in sources(root / "crates" / crate / "src"):
                text = file.read_text(encoding="utf-8")
                self.read(crate, file.stem, re.sub(r"(?m)^\s*ghost use [^;]*;\n", "", text), used(text))

    def define(self, crate: str, module: str, lines: list[str]) -> None:
        """The comments in front of the definitions of a file."""
        for order, line in enumerate(lines):
            found = re.match(r"(?:abbrev|data|record)\s+(?:pub\s+)?(\w+)", line)
            if not found:
                continue
            comment = list[str]()
            for before in reversed(lines[:order]):
                if not before.startswith("--"):
                    break
                comment.insert(0, before[2:].strip())
            if comment:
                self.definitions[found[1]] = self.defined[crate, module, found[1]] = " ".join(comment)

    def defined_as(self, function: Function | None, name: str) -> str | None:
        """What is written of a definition, by the name that a function's file has for it."""
        definition = function.uses.get(name) if function else None
        return self.defined.get(definition) if definition else None

    def proved(self, function: Function | None) -> list[str]:
        """What is proved of a function, in the words of the definitions that its contract cites."""
        out = list[str]()
        for name in function.cited if function else []:
            if name in GENERAL:
                continue
            # Two crates may have definitions of one name.
            said = SAID.get(name) or self.defined_as(function, name) or self.definitions.get(name)
            words = OF_CALL.sub("", said or "")
            if words and words not in out and words.isascii():
                out.append(words)
        return out

    def clauses(self, function: Function, are_plain: Callable[[Definition | None], bool]) -> list[tuple[str, str]]:
        """What is proved of a function: each clause by its name, in the words of the definition that something then is, or as it is where it has
        conditions or says it by no definition. Definitions that are plain say only how C has a value."""
        out = []
        for name, clause in function.ensures:
            value = [one for one in re.findall(r"[\w.]+", clause.split("\u2261")[-1]) if not are_plain(function.uses.get(one))]
            words = self.defined_as(function, value[0]) if value and "\u2192" not in clause else None
            shown: str = OF_CALL.sub("", words) if words and words.isascii() else in_ascii(clause)
            out.append((name, shown if name or shown.startswith("result ") else f"the result is {shown}"))
        return out

    def read(self, crate: str, module: str, text: str, uses: dict[str, Definition]) -> None:
        for found in re.finditer(r"(?m)^(?:pub(?:\([a-z]+\))? )?(struct|enum) (\w+)[^;{(]*([;{(])", text):
            self.read_type(crate, text, found)
        blocks = [
            (found.start(), found[1] or found[2])
            for found in re.finditer(r"(?m)^impl(?:<[^{]*?>)? (?:[\w:<>]+ for )?(\w+)|^(?:pub )?trait (\w+)", text)
        ]
        for found in re.finditer(r"(?m)^( *)(pub(?:\([a-z]+\))? )?(?:const |extern \"C\" )?fn (\w+)(?:<[^(]*>)?\(", text):
            at, of = next((block for block in reversed(blocks) if block[0] < found.start()), (0, None)) if found[1] else (0, None)
            function = self.functions[crate, of, found[3]] = self.function(text, found, uses, module)
            if of is None:
                self.functions[crate, f"module {module}", found[3]] = function
            if re.match(r"(pub )?trait", text[at:]):
                # An implementation says less of it.
                self.functions[crate, None, found[3]] = function
                self.traits.setdefault(of, (crate, {}))[1][found[3]] = function
        for found in re.finditer(r"const (\w+): (\w+) = \w+\(([^;]*?)\);", text):
            value = number(found[3])
            if value is not None:
                self.bits.setdefault((crate, found[2]), {})[found[1]] = value
        for found in re.finditer(r"const (\w+): (\w+) = \2\(\s*((?:\2::\w+\.0[\s|,]*){2,})\);", text):
            bits = self.bits[crate, found[2]]
            bits[found[1]] = sum(bits[name] for name in set(re.findall(r"::(\w+)\.0", found[3])))
        for found in re.finditer(r"(?m)^(?:pub(?:\([a-z]+\))? )?const (\w+): (?:u8|u16|u32|u64|usize) = ([^;]*);", text):
            first, _, more = found[2].partition("+")
            known = self.constants.get((crate, first.strip())) or self.constants.get(("uart_spec", first.strip()))
            value = number(first) if known is None else known[0]
            if value is not None and number(more or "0") is not None:
                self.constants[crate, found[1]] = value + (number(more or "0") or 0), module
                self.about[crate, found[1]] = documentation(text, found.start())
                if re.match(r"\s*0[xb]", found[2]):
                    self.of_bits.add((crate, found[1]))
        # A second name of a bit says what we use it for. The first is that of the original crate.
        for found in re.finditer(r"const (\w+): (\w+) = \2\(\2::(\w+)\.0\);", text):
            bits = self.bits[crate, found[2]]
            bits[found[1]] = bits.pop(found[3])

    def read_type(self, crate: str, text: str, found: re.Match[str]) -> None:
        key, start = (crate, found[2]), found.end() - 1
        self.comments[key] = documentation(text, found.start())
        items = listed(bare(text[start + 1 : closing(text, start)])) if found[3] != ";" else []
        items = [one for one in items if not one.startswith("ghost ")]
        if found[1] == "struct":
            names = [re.sub(r"^(?:pub(?:\([a-z]+\))?\s+)?(\w+)\s*:.*", r"\1", one, flags=re.S) for one in items]
            self.fields[key] = names if found[3] == "{" else [f"part{order}" for order, _ in enumerate(items)]
            self.types_of_fields[key] = [one.split(":")[-1] if found[3] == "{" else one for one in items]
            return
        out = []
        for one in items:
            name = sought(r"\A(\w+)\s*([({])?", one)
            inner = listed(one[name.end() : closing(one, name.end() - 1)]) if name[2] else []
            out.append((name[1], [re.sub(r"\s*:.*", "", part, flags=re.S) if name[2] == "{" else "value" for part in inner]))
        self.variants[key] = out

    def function(self, text: str, found: re.Match[str], uses: dict[str, Definition], module: str) -> Function:
        end = closing(text, found.end() - 1)
        opened, in_line = text.find("\n" + found[1] + "{", end), text.find("{", end)
        opened = in_line if "\n" not in text[end:in_line] else opened + 1 + len(found[1])
        has_body = 0 < opened < len(text) and text[opened] == "{"
        parameters = []
        for one in listed(bare(text[found.end() : end])):
            name, _, of = one.partition(":")
            parameters.append(("self" if "self" in name else re.sub(r"^mut ", "", name.strip()).strip("&"), of.strip()))
        result = re.match(r"\)\s*->\s*([^\n{]+)", text[end:])
        body = bare(text[opened : closing(text, opened)]) if has_body else ""
        return Function(
            parameters,
            (result[1] if result else "").strip(),
            found[2] == "pub ",
            documentation(text, found.start()),
            bindings(body),
            cited(text[end:opened]) if has_body else [],
            clauses("ensures", text[end:opened]) if has_body else [],
            clauses("requires", text[end:opened]) if has_body else [],
            uses,
            "#[inline(never)]" in in_front(text, found.start()),
            frozenset(re.findall(r"(?<![\w:])(?<!\w\.)(?:\w+::)?([A-Z][A-Z0-9_]+)\b(?!::)", body)),
            module,
            of_body(text[opened : closing(text, opened)]) if has_body else [],
        )

    def find(self, name: str) -> Function | None:
        """What the source says of a function of the MIR, or None."""
        path = name.split("::")
        of = self.type_of(path[0], path[-2])
        crate, trait = self.traits.get(path[-2][len(of or "") :], (path[0], {}))
        if crate != path[0] and (path[0], of, path[-1]) in self.functions:
            found = self.functions[path[0], of, path[-1]]
            return found if found.comment else found.with_comment(trait.get(path[-1]))
        bare_name = re.sub(r"(Default|Clone|PartialEq|Flags|Backend|Read|Write|ReadReady|WriteReady)$", "", path[-2])
        places = [(path[0], of, path[-1]) for of in (f"module {path[-2]}", path[-2], None, bare_name)]
        return next((self.functions[place] for place in places if place in self.functions), None)

    def type_of(self, crate: str, name: str) -> str | None:
        """The type of a crate with whose name the name of an implementation begins, or None."""
        types = [of for its, of in [*self.fields, *self.variants] if its == crate and name.startswith(of)]
        return max(types, key=len) if types else None


def number(text: str) -> int | None:
    """The number that a text is, or None."""
    found = re.fullmatch(r"\s*(0x[0-9a-fA-F_]+|0b[01_]+|\d[\d_]*)\s*(?:<<\s*(\d+))?\s*", text)
    return int(found[1].replace("_", ""), 0) << int(found[2] or 0) if found else None


def cited(contract: str) -> list[str]:
    """The definitions that the `ensures` of a contract name, in order."""
    clauses = "".join(re.findall(r"(?s)\bensures\b(.*?)(?=\bensures\b|\brequires\b|\Z)", contract))
    return list(dict.fromkeys(re.findall(r"(?<![\w.])([A-Z]\w+)", clauses)))


def clauses(kind: str, contract: str) -> list[tuple[str, str]]:
    """The clauses of a contract that say what is so before, or afterwards: the name, if there is one, and the text."""
    out = []
    for found in re.finditer(rf"\b{kind}\b *(\w*) *\{{", contract):
        text = contract[found.end() : closing(contract, found.end() - 1)]
        out.append((found[1], re.sub(r"\s+", " ", text).strip()))
    return out


def used(text: str) -> dict[str, Definition]:
    """The definitions that a file uses, by how it writes them: a crate, a module and a name."""
    out = {}
    for crate, module, name in re.findall(r"(?m)^ghost use Rattle\.(\w+)\.specs\.(\w+) as (\w+);", text):
        for one in set(re.findall(rf"\b{name}\.(\w+)", text)):
            out[f"{name}.{one}"] = (crate, module, one)
    for crate, module, names in re.findall(r"(?m)^ghost use Rattle\.(\w+)\.specs\.(\w+)\.\{([^}]*)\};", text):
        for one in names.split(","):
            out[one.strip()] = (crate, module, one.strip())
    return out


SIGNS = {"\u2261": "=", "\u2262": "!=", "\u2192": "->", "\u22a5": "false", "\u00d7": "and", "\u2264": "<=", "\u2237": "::"}


def in_ascii(clause: str) -> str:
    return "".join(SIGNS.get(one, one) for one in clause)


def bindings(body: str) -> list[str]:
    """The names that a body binds, in order; "?" where it may return by a question mark."""
    out = []
    for found in re.finditer(r"\blet\s+(?:mut\s+)?([^=;]+?)(?::[^=;]+)?=|\bfor\s+(.+?)\s+in\b|([^{};,]*?)=>|(\?)[;),.]", body):
        if found[4]:
            out.append("?")
            continue
        pattern = re.sub(r"\bif\b.*", "", found[1] or found[2] or found[3] or "")
        pattern = re.sub(r"\w+\s*:(?!:)", "", pattern)
        out += [name for name in re.findall(r"(?<![\w:])([a-z_]\w*)\b(?!\s*(?:::|\())", pattern) if name not in ("mut", "ref", "true", "false", "_")]
    return out
