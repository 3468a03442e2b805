"""What the body of each emitted function does, counted beside its MIR: operations, comparisons, branches, calls, casts, places and numbers.

A condition that no case at random takes, as one on a product of two arguments, has an operation, a comparison and a branch, and the MIR has
none for them. So no body may have more of a kind than its MIR and that of its closures. The MIR may have more: what a loop counts, what
tests an index, and what a library's function is made of.

A `match` has a branch for each arm but the last, and what its patterns ask for are numbers: each number of a text has to be in the MIR as
often, whether it stands in a pattern, in a table or in a sum.
"""
import collections
import re
from collections.abc import Iterator, Mapping
from typing import NamedTuple

from emitted import Function
from translate import Node

TOKEN = re.compile(r"\"\"|b?'(?:\\.|[^'\\])[^']*'|'\w+|\w+|::|->|=>|&&|\|\||\.\.=|\.\.|<<=|>>=|<<|[-+*/%&|^<>=!]=|.", re.DOTALL)
# Words behind which no value ends.
NO_VALUE = set("if match return in while else let mut as break loop for move ref where".split())
OPERATIONS = {"*": "Mul", "/": "Div", "%": "Rem", "+": "Add", "-": "Sub", "&": "And", "|": "Or", "^": "Xor", "<<": "Shl", ">>": "Shr"}
COMPARED, BRANCH, METHOD = "a comparison", "a branch", "a method"
NOT, PLACE = "a `!`", "a place of a list"
NUMBER = re.compile(r"(0x[0-9a-fA-F_]+?|0b[01_]+?|[0-9][0-9_]*?)_?(?:[ui](?:8|16|32|64|size))?")
# A character or a byte as a number, if it is written as itself.
CHARACTER = re.compile(r"b?'([^\\'])'")


# The last number of a range.
class Last(NamedTuple):
    number: int


# How many bits a cast leaves. One to 64 bits leaves all of them: the MIR has none for a cast between `u64` and `usize`.
BITS = {"u8": 8, "u16": 16, "u32": 32}
# What takes a place of a list that has grown.
OF_PLACE = ("index", "index_mut")
# A comparison in the text, but for `<` and `>`, which may be of types; in the MIR, as an operation and as a call.
COMPARISONS, COMPARES, CALLED = ("==", "!=", "<=", ">="), ("Eq", "Ne", "Lt", "Le"), ("eq", "ne", "lt", "le", "gt", "ge")
# Functions of slices that the kit takes apart, and what `vec![in ..]` is in the copy: in the MIR there is no call of them.
NOT_CALLED = ("len", "iter", "iter_mut", "enumerate", "filled")


# How often each operation, call, number and so on is there.
Counts = collections.Counter[int | str | Last]


class Text:
    """The tokens of a body."""

    def __init__(self, body: str) -> None:
        self.tokens: list[str] = [one for one in TOKEN.findall(without_guard(body)) if one.strip()]

    def word(self, at: int) -> str:
        return self.tokens[at] if 0 <= at < len(self.tokens) else ""

    def ends_value(self, at: int) -> bool:
        """Whether a value may end here, so that a sign behind it stands between two."""
        word = self.word(at)
        return word in (")", "]", "}", '""') or bool(re.match(r"\w", word)) and word not in NO_VALUE

    def counts(self) -> Counts:
        found, parameters = Counts(), self.of_closures()
        for at, word in enumerate(self.tokens):
            operation = word.removesuffix("=") if word not in COMPARISONS else word
            # `>>` is two tokens here: types end so.
            if word == ">" and self.word(at + 1) in (">", ">=") and self.is_spaced_shift(at):
                operation = ">>"
            if operation in OPERATIONS and self.ends_value(at - 1):
                if operation != "|" or at not in parameters and not self.is_of_pattern(at):
                    found[OPERATIONS[operation]] += 1
            elif word in COMPARISONS:
                found[COMPARED] += 1
            elif word in ("if", "while", "for", "?") or word in ("&&", "||") and self.ends_value(at - 1):
                found[BRANCH] += 1
            elif word == "else" and self.word(at - 1) != "}" or word == "matches" and self.word(at + 1) == "!":
                found[BRANCH] += 1
            elif word == "match":
                found[BRANCH] += self.arms(at) - 1
            elif word == "!" and not self.ends_value(at - 1):
                found[NOT] += 1
            elif word == "as" and self.word(at + 1) in BITS:
                found[cast_to(BITS[self.word(at + 1)])] += 1
            elif word == "[" and self.ends_value(at - 1) and ".." not in self.inside(at):
                found[PLACE] += 1
            elif self.is_call(at):
                found[word] += 1
            else:
                found.update(self.number(at))
        return found

    def number(self, at: int) -> Iterator[Last | int]:
        """The number at this index, if there is one: the last one of a range is told apart, since the MIR may have the one behind it."""
        number, character = NUMBER.fullmatch(self.tokens[at]), CHARACTER.fullmatch(self.tokens[at])
        # a field of a tuple is no number
        if character or number and self.word(at - 1) != ".":
            value = ord(character[1]) if character else int(number[1].replace("_", ""), 0) if number else 0
            yield Last(value) if self.word(at - 1) == "..=" else value

    def inside(self, at: int) -> list[str]:
        """The tokens in the brackets at this index, without those in brackets of their own."""
        depth, found = 0, []
        for word in self.tokens[at:]:
            depth += {"(": 1, "[": 1, "{": 1, ")": -1, "]": -1, "}": -1}.get(word, 0)
            if depth == 0:
                break
            if depth == 1:
                found.append(word)
        return found

    def arms(self, at: int) -> int:
        """How many arms the `match` at this index has, without those that have a condition of their own, which is counted as one."""
        depth, opened = 0, at + 1
        while depth or self.word(opened) != "{":
            depth += {"(": 1, "[": 1, "{": 1, ")": -1, "]": -1, "}": -1}.get(self.word(opened), 0)
            opened += 1
        inside, found, is_pattern = self.inside(opened), 0, True
        for here, word in enumerate(inside):
            if word == "=>":
                found, is_pattern = found + 1, False
            elif word in (",", "}", "{"):
                is_pattern = True
            elif word == "if" and is_pattern and "=>" in inside[here : next_arm(inside, here)]:
                found -= 1
        return found

    def is_spaced_shift(self, at: int) -> bool:
        """Whether `> >` here is a shift, and not the end of two lists of types: a value stands in front, and a value behind."""
        return self.ends_value(at - 1) and self.word(at + 2) not in ("(", ")", ",", ";", "::", "{", ">", "=", "")

    def of_closures(self) -> set[int]:
        """The indices of the bars around the parameters of closures."""
        found, at = set[int](), 0
        while at < len(self.tokens):
            if self.tokens[at] == "|" and not self.ends_value(at - 1):
                end = next((here for here in range(at + 1, len(self.tokens)) if self.tokens[here] == "|"), at)
                found |= {at, end}
                at = end
            at += 1
        return found

    def is_of_pattern(self, at: int) -> bool:
        """Whether a bar stands between two patterns: of a case, or of `matches!`."""
        depth, is_behind_comma = 0, False
        for here in range(at - 1, -1, -1):
            word = self.tokens[here]
            if word in (")", "]", "}"):
                depth += 1
            elif word in ("(", "[", "{") and depth > 0:
                depth -= 1
            elif depth == 0 and word == "(" and self.word(here - 1) == "!":
                return is_behind_comma and self.word(here - 2) == "matches"
            elif depth == 0 and (word in ("{", "=>", ";") or word == "if" and not is_behind_comma):
                break
            elif depth == 0 and word in ("(", "["):
                is_behind_comma = False
            elif depth == 0 and word == ",":
                is_behind_comma = True
        if depth == 0 and self.word(here) in ("if", ";"):
            return False
        for here in range(at + 1, len(self.tokens)):
            word, is_of_fields = self.tokens[here], self.word(here + 1) == ".."
            if word == "=>":
                return True
            if word == ";" or word == "{" and not is_of_fields:
                return False
        return False

    def is_call(self, at: int) -> bool:
        if not re.fullmatch(r"[a-z_]\w*", self.tokens[at]) or self.tokens[at] in NO_VALUE or self.word(at - 1) == "fn":
            return False
        behind = at + 1
        if self.word(behind) == "::" and self.word(behind + 1) == "<":
            depth, behind = 1, behind + 2
            while depth and behind < len(self.tokens):
                depth += {"<": 1, ">": -1}.get(self.tokens[behind], 0)
                behind += 1
        return self.word(behind) == "("


def cast_to(bits: int) -> str:
    return f"a cast to {bits} bits"


def next_arm(words: list[str], at: int) -> int:
    """The index of the comma behind this index, or of the end."""
    return next((here for here in range(at, len(words)) if words[here] == ","), len(words)) + 1


def without_guard(body: str) -> str:
    """A body without the guard at its start, which the source does not have: what it tests is compared where the contract is broken."""
    found = re.match(r"\{\s*assert!\(", body)
    if not found:
        return body
    depth = 0
    for at in range(found.end() - 1, len(body)):
        depth += {"(": 1, ")": -1}.get(body[at], 0)
        if depth == 0:
            return "{" + body[at + 1 :]
    return body


def of_mir(body: Node) -> Counts:
    """The same of a body of the MIR."""
    found = Counts()

    def walk(node: Node) -> None:
        if isinstance(node, list):
            for one in node:
                walk(one)
        elif isinstance(node, dict):
            for kind, value in node.items():
                count(kind, value)
                walk(value)

    def count(kind: str, value: Node) -> None:
        if kind == "Op2":
            operation = value[0] if isinstance(value[0], str) else next(iter(value[0]))
            found[COMPARED if operation in COMPARES else PLACE if operation == "Offset" else operation] += 1
        elif kind == "Op1":
            found[NOT if value[0] == "Not" else cast_to(value[0]["Cast"][2])] += 1
        elif kind == "If":
            found[BRANCH] += 1
        elif kind == "Switch":
            # one for each case, and one for all others, of which the last one needs no branch
            found[BRANCH] += len(value[1]) + bool(value[2]) - 1
            found.update(number for case in value[1] for number in case)
        elif kind == "Int" and isinstance(value, dict):
            found[value["value"]] += 1
        elif kind == "Ints":
            found.update(value["values"])
        elif kind == "Lit" and isinstance(value, int):
            found[value] += 1
        elif kind == "Call" and "Fn" in value[0]:
            name = value[0]["Fn"][0].split("::")[-1]
            found[name] += 1
            found[COMPARED] += name in CALLED
            found[PLACE] += name in OF_PLACE
        elif kind == "Call":
            found[METHOD] += 1

    walk(body)
    return found


def with_closures(functions: Mapping[str, Node], name: str) -> Counts:
    """The counts of a function of the MIR with the types of its locals, and of the closures in it."""
    found = of_mir([functions[name]["body"], functions[name]["locals"]])
    module, _, last = name.rpartition("::")
    heads = [f"{module}::fn::{last}::"]
    if "::" in module:
        above, _, owner = module.rpartition("::")
        heads.append(f"{above}::fn::{owner}::{last}::")
    for other, function in functions.items():
        if "+Fn" not in other and other.startswith(tuple(heads)):
            found += of_mir([function["body"], function["locals"]])
    return found


def more(functions: Mapping[str, Node], pairs: dict[str, Function]) -> Iterator[str]:
    """Each pair of which the emitted body has more of a kind than its MIR, as a text. A method's name is not in a call of the MIR."""
    known = {name.split("::")[-1] for name in functions} - set(NOT_CALLED)
    kinds = {*OPERATIONS.values(), COMPARED, BRANCH, NOT, PLACE, *map(cast_to, BITS.values())}
    for name, function in pairs.items():
        if not function.body:
            continue
        made, proved = Text(function.body).counts(), with_closures(functions, name)
        for told, count in sorted(made.items(), key=str):
            kind = told.number if isinstance(told, Last) else told
            if isinstance(told, Last):
                spare = proved[told.number + 1]
            else:
                spare = proved[METHOD] if kind == COMPARED or kind in known else 0
            is_number = isinstance(kind, int)
            if (is_number or kind in kinds or kind in known) and count > proved[kind] + spare:
                what = f"the number {kind}" if is_number else kind
                yield f"{name}: the emitted body has {what} {count} times, and the MIR {proved[kind]} times"
