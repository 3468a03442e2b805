"""Reads the items of one file, and makes the list of edits that erase it.

An item is read whole: attributes, visibility, and all that belongs to it. So nothing of a dropped
item can be left in front of the next one, and each function is known by its whole path.
"""
from __future__ import annotations

import re
import types
from typing import NamedTuple, NoReturn

import table
import words
from tokens import Refused, tokens

# What the eraser knows: `table`, or that with other entries.
Tables = types.ModuleType | types.SimpleNamespace


# An edit of the text from `start` to `end`. The tokens in it become those of `text`.
class Edit(NamedTuple):
    rule: str
    start: int
    end: int
    text: str


# What was dropped, for the committed list.
class Dropped(NamedTuple):
    rule: str
    item: str
    what: str


# A function: its path and name, whether it is kept, what it is in, what it requires, whether it is a method.
class Function(NamedTuple):
    path: str
    name: str
    kept: bool
    owner: str | None
    requires: list[str]
    is_method: bool


# Where the parts of a function are: indices of tokens.
class Form(NamedTuple):
    path: str
    visibility: str
    owner: str | None
    first: int
    start: int
    generics: tuple[int, int]
    behind: int
    body: int
    close: int
    clauses: list[str]
    requires: list[str]
    has_body: bool
    is_lemma: bool
    is_method: bool


# The attributes of an item: the name of each, and its first and last token.
Attributes = list[tuple[str, int, int]]
FORMATTER = re.compile(r"fn (\w+) < (\w+) : ((?:std :: )?)fmt :: Write > " r"\( & self , f : & mut \3fmt :: Formatter < \2 > \) -> ")

# A result of which Rust does not warn by its type, and what says that a function changes something.
RESULT = re.compile(r"\) -> (?!(\w+ :: )*Result\b)")
CHANGES = re.compile(r"& ('\w+ )?mut\b")
OPENING = {"(": ")", "[": "]", "{": "}"}
ITEMS = ("fn", "impl", "mod", "trait", "struct", "enum", "use", "pub", "const", "type")
VISIBILITIES = ("pub", "pub ( crate )", "pub ( super )")
# What may stand before an operand that is cast: nothing that makes it a part of a larger one.
BEFORE_CAST = ("(", "[", "{", ",", ";", "*", "+", "=", "if", "match")


def match(pattern: str, text: str) -> re.Match[str]:
    """What a text begins with, that is of a form that `tokens` knows."""
    found = re.match(pattern, text)
    assert found
    return found


class File:
    """The items of one file. `module` is its path, as `uart_spec::registers::bits`."""

    def __init__(self, name: str, module: str, text: str, allow: Tables = table) -> None:
        self.name, self.module, self.text, self.table = name, module, text, allow
        self.code, self.comments = tokens(text)
        self.edits, self.dropped, self.functions = list[Edit](), list[Dropped](), list[Function]()
        self.places, self.forms = list[tuple[int, str]](), list[Form]()
        self.modules, self.types, self.traits = list[str](), list[str](), list[str]()
        self.models, self.open_types = list[str](), list[str]()
        self.ships = name.split("/")[0] in allow.SHIPS
        # Whether it is also compiled for targets where `usize` has 32 bits.
        self.has_narrow_targets = self.ships or name.split("/")[0] in allow.OF_THE_PAGE
        self.at = 0
        self.inner_attributes()
        self.items(len(self.code), module, None)
        self.allocating()
        self.by_hand()

    # Tokens.

    def word(self, at: int) -> str:
        return self.code[at].text if 0 <= at < len(self.code) else ""

    def kind(self, at: int) -> str:
        return self.code[at].kind if 0 <= at < len(self.code) else ""

    def next_code(self, offset: int) -> int | None:
        """Where the next token begins."""
        return next((token.start for token in self.code if token.start >= offset), None)

    def words(self, start: int, end: int) -> str:
        return " ".join(token.text for token in self.code[start:end])

    def begins(self, at: int, text: str) -> bool:
        return self.words(at, at + len(text.split())) == text

    def refuse(self, cause: str, at: int | None = None) -> NoReturn:
        at = self.at if at is None else at
        raise Refused(cause, self.code[min(at, len(self.code) - 1)].start if self.code else None)

    def closing(self, at: int) -> int:
        """The index of the bracket that closes the one at this index."""
        open_ones: list[str] = []
        for here in range(at, len(self.code)):
            if self.kind(here) != "sign":
                continue
            word = self.word(here)
            if word in OPENING:
                open_ones.append(OPENING[word])
            elif word in OPENING.values():
                if not open_ones or open_ones.pop() != word:
                    self.refuse("brackets that do not match", here)
                if not open_ones:
                    return here
        self.refuse("a bracket that is not closed", at)

    def behind_generics(self, at: int) -> int:
        """The index behind `<..>` at this index, or the index itself."""
        if self.word(at) != "<":
            return at
        depth = 0
        for here in range(at, len(self.code)):
            depth += {"<": 1, ">": -1}.get(self.word(here), 0)
            if depth == 0:
                return here + 1
        self.refuse("generics that are not closed", at)

    # Edits.

    def change(self, rule: str, first: int, last: int, text: str) -> None:
        """The tokens from `first` to `last` become this text."""
        self.edits.append(Edit(rule, self.code[first].start, self.code[last].end, text))

    def insert(self, rule: str, at: int, text: str) -> None:
        self.edits.append(Edit(rule, at, at, text))

    def drop(self, rule: str, first: int, last: int, item: str, what: str = "", comments: bool = True) -> None:
        """Drops whole lines: an item with the comments above it, or an attribute without them."""
        start, end = self.code[first].start, self.code[last].end
        before = self.code[first - 1].end if first > 0 else 0
        for comment in reversed(self.comments if comments else []):
            if before <= comment.start < start and not comment.text.startswith("//!"):
                between = self.text[comment.end : start]
                line = self.text.rfind("\n", 0, comment.start) + 1
                is_alone = not self.text[line : comment.start].strip()
                if between.strip() or between.count("\n") > 1 or not is_alone:
                    break
                start = comment.start
        line = self.text.rfind("\n", 0, start) + 1
        rest = re.compile(r" *(//[^/\n][^\n]*)?(\n|$)").match(self.text, end)
        if self.text[line:start].strip() or not rest:
            self.refuse(f"{rule}: something else on the line of what is dropped", first)
        newline = self.text.find("\n", end)
        self.edits.append(Edit(rule, line, newline + 1 if newline >= 0 else len(self.text), ""))
        self.dropped.append(Dropped(rule, item, what))

    # Items.

    def inner_attributes(self) -> None:
        while self.begins(self.at, "# ! ["):
            close = self.closing(self.at + 2)
            if self.word(self.at + 3) != "tactic":
                self.refuse("an inner attribute other than tactic")
            self.drop("tactic", self.at, close, self.module, comments=False)
            self.at = close + 1

    def items(self, end: int, path: str, owner: str | None) -> None:
        """Reads items up to this index. `owner` is what they are in, or None.

        It is `trait NAME`, `impl TYPE` or `impl TRAIT for TYPE`.
        """
        while self.at < end:
            self.item(end, path, owner)

    def item(self, end: int, path: str, owner: str | None) -> None:
        first = self.at
        attributes = []
        while self.begins(self.at, "# ["):
            close = self.closing(self.at + 1)
            attributes.append((self.word(self.at + 2), self.at, close))
            self.at = close + 1
        visibility = ""
        if self.word(self.at) == "pub":
            close = self.closing(self.at + 1) if self.word(self.at + 1) == "(" else self.at
            visibility = self.words(self.at, close + 1)
            if visibility not in VISIBILITIES:
                self.refuse(f"the visibility `{visibility}`")
            self.at = close + 1
        word = self.word(self.at)
        reads = {
            "use": self.use,
            "mod": self.mod,
            "const": self.constant,
            "type": self.constant,
            "struct": self.data,
            "enum": self.data,
            "trait": self.trait,
            "impl": self.implementation,
            "fn": self.function,
        }
        if self.kind(self.at) in ("ghost", "ghost use"):
            if attributes or visibility not in ("", "pub"):
                self.refuse("something in front of a ghost item that would be left behind", first)
            kind, text = self.code[self.at].kind, self.code[self.at].text
            self.drop(kind, first, self.at, path, match(r"ghost (?:use )?([\w.]+)", text)[1])
            self.at += 1
        elif word in reads:
            reads[word](first, attributes, visibility, path, owner, end)
        else:
            self.refuse(f"an item that begins with `{word}`")

    def attribute(self, attributes: Attributes, names: tuple[str, ...]) -> None:
        """Keeps, changes or refuses the attributes of an item that is kept."""
        for name, first, close in attributes:
            if name == "tactic":
                self.drop("tactic", first, close, self.module, comments=False)
            elif name not in names:
                self.refuse(f"the attribute `{name}` here", first)
            elif name == "inline" and self.words(first + 2, close) not in self.table.INLINES:
                self.refuse("an `inline` of another form", first)
            elif name in ("must_use", "default", "automatically_derived") and close != first + 3:
                self.refuse(f"a `{name}` of another form", first)

    def semicolon(self, at: int) -> int:
        """The index of the semicolon that ends an item."""
        while self.word(at) != ";" or self.kind(at) != "sign":
            if at >= len(self.code):
                self.refuse("an item with no end")
            at = self.closing(at) + 1 if self.word(at) in OPENING else at + 1
        return at

    def use(self, first: int, attributes: Attributes, visibility: str, path: str, owner: str | None, end: int) -> None:
        close = self.semicolon(self.at)
        if attributes or owner:
            self.refuse("an attribute of a `use`, or a `use` inside an item", first)
        text = self.words(self.at, close + 1)
        if text == "use thiserror :: Error ;":
            self.drop("thiserror", first, close, path)
        elif text == "use std :: marker :: Model ;":
            self.drop("model", first, close, path, "use")
        elif re.match(r"use (crate :: |super :: )?laws ::", text):
            self.drop("file", first, close, path, "use of laws")
        elif text == "use std :: fmt ;" and re.search(r"\.write_char\(", self.text):
            self.insert("writer", self.code[close].end, "\nuse std::fmt::Write as _;")
        self.at = close + 1

    def mod(self, first: int, attributes: Attributes, visibility: str, path: str, owner: str | None, end: int) -> None:
        name = self.word(self.at + 1)
        if self.word(self.at + 2) != ";" or owner:
            self.refuse("a module with a body")
        close = self.at + 2
        is_test = [self.words(a, b + 1) for _, a, b in attributes] == ["# [ cfg ( test ) ]"]
        file = self.file_of(name)
        if is_test:
            self.drop("tests", first, close, path, name)
        elif attributes or visibility not in ("", "pub"):
            self.refuse("an attribute or a visibility of a module that is not known", first)
        elif name == "laws":
            self.drop("file", first, close, path, name)
        else:
            self.modules.append(file)
        self.at = close + 1

    def file_of(self, module: str) -> str:
        """The file of a module that this file declares."""
        folder = self.name.rsplit("/", 1)[0]
        stem = self.name.rsplit("/", 1)[1][: -len(".rt")]
        return f"{folder}/{module}.rt" if stem == "lib" else f"{folder}/{stem}/{module}.rt"

    def constant(self, first: int, attributes: Attributes, visibility: str, path: str, owner: str | None, end: int) -> None:
        if self.word(self.at) == "const" and self.word(self.at + 1) == "fn":
            self.refuse("a `const fn` of the source")
        self.attribute(attributes, ())
        self.at = self.semicolon(self.at) + 1

    def number(self, at: int) -> int:
        try:
            return number(self.word(at))
        except ValueError:
            self.refuse("a number that is not whole", at)

    def derive(self, attributes: Attributes, is_register: bool) -> None:
        for name, first, close in attributes:
            if name != "derive":
                continue
            listed = self.words(first + 4, close - 1).split(" , ")
            kept = [one for one in listed if one not in ("Drop", "Error")]
            for one in kept:
                if one not in self.table.DERIVES:
                    self.refuse(f"the derive `{one}`", first)
            if is_register and "Debug" not in kept:
                self.refuse("a register without `Debug`", first)
            if is_register:
                kept.remove("Debug")
            rule = "debug" if is_register else "drop"
            if not kept:
                self.drop(rule, first, close, self.module, ", ".join(listed), comments=False)
            elif kept != listed:
                self.change(rule, first, close, f"#[derive({', '.join(kept)})]")
                self.dropped.append(Dropped(rule, self.module, ", ".join(one for one in listed if one not in kept)))

    def data(self, first: int, attributes: Attributes, visibility: str, path: str, owner: str | None, end: int) -> None:
        if owner:
            self.refuse("a type inside an item")
        name = self.word(self.at + 1)
        self.places.append((self.code[first].start, f"{path}::{name}"))
        self.types.append(name)
        at = self.behind_generics(self.at + 2)
        self.bounds(self.at + 2, at)
        is_register = self.words(at, at + 8) == "( pub ( super ) u8 ) ;"
        if is_register and not any(attribute == "derive" for attribute, _, _ in attributes):
            self.refuse("a register without `Debug`", first)
        self.attribute([one for one in attributes if one[0] != "derive"], ("automatically_derived",))
        self.derive(attributes, is_register)
        if f"{path}::{name}" in self.table.IN_ORDER:
            self.insert("order", self.code[first].start, "#[repr(C)]\n")
        if f"{path}::{name}" in self.table.MAY_GROW:
            self.insert("grows", self.code[first].start, '#[cfg_attr(not(feature = "exhaustive"), non_exhaustive)]\n')
        if f"{path}::{name}" in self.table.IS_OPEN:
            self.insert("grows", self.code[first].start, "#[non_exhaustive]\n")
        if self.word(at) == "{":
            close = self.closing(at)
            self.fields(at + 1, close, f"{path}::{name}")
        else:
            close = self.semicolon(at)
        inside = self.code[at:close]
        if any(token.text == "pub" for token in inside):
            self.open_types.append(name)
        if any(token.kind == "ghost" for token in inside):
            self.models.append(name)
        self.at = close + 1

    def fields(self, at: int, end: int, path: str) -> None:
        """The fields of a struct or the cases of an enum: ghost fields are dropped, and attributes are known ones."""
        while at < end:
            if self.kind(at) == "ghost":
                if self.word(at - 1) not in ("{", ",") and self.kind(at - 1) != "ghost":
                    self.refuse("something in front of a ghost field", at)
                self.drop("ghost", at, at, path, match(r"ghost (\w+)", self.word(at))[1])
            elif self.kind(at) in ("clause", "ghost use"):
                self.refuse("a clause in a type", at)
            elif self.begins(at, "# ["):
                close = self.closing(at + 1)
                if self.words(at, close + 1) != "# [ default ]":
                    self.refuse("an attribute of a field", at)
                at = close
            elif self.word(at) == "{":
                self.fields(at + 1, self.closing(at), path)
                at = self.closing(at)
            at += 1

    def bounds(self, first: int, end: int) -> None:
        """Drops `Drop` from the bounds between two indices."""
        for at in range(first, end):
            if self.word(at) != "Drop":
                continue
            if self.word(at - 1) == "+" and self.word(at + 1) in (",", ">", "+", "="):
                start = self.code[at - 2].end
                self.edits.append(Edit("drop", start, self.code[at].end, ""))
            elif self.word(at - 1) == ":" and self.word(at + 1) in (",", ">"):
                self.edits.append(Edit("drop", self.code[at - 2].end, self.code[at].end, ""))
            else:
                self.refuse("a bound `Drop` of another form", at)
            self.dropped.append(Dropped("drop", self.module, f"bound of {self.word(at - 2)}"))

    def where(self, at: int) -> int:
        """The index behind a `where` and its conditions, which are all `NAME: Drop`. It is dropped by the caller."""
        at += 1
        while self.kind(at) == "word":
            is_end = self.word(at + 3) in (",", "{") or self.kind(at + 3) == "clause"
            if self.words(at + 1, at + 3) != ": Drop" or not is_end:
                self.refuse("a `where` of more than `Drop`", at)
            at += 4 if self.word(at + 3) == "," else 3
        return at

    def trait(self, first: int, attributes: Attributes, visibility: str, path: str, owner: str | None, end: int) -> None:
        if owner:
            self.refuse("a trait inside an item")
        self.attribute(attributes, ())
        name = self.word(self.at + 1)
        self.traits.append(name)
        at = self.behind_generics(self.at + 2)
        self.bounds(self.at + 2, at)
        while self.word(at) != "{":
            if self.word(at) in ("where", ";", "<"):
                self.refuse("a trait of another form", at)
            at += 1
        close = self.closing(at)
        self.at = at + 1
        self.items(close, f"{path}::{name}", f"trait {name}")
        self.at = close + 1

    def implementation(self, first: int, attributes: Attributes, visibility: str, path: str, owner: str | None, end: int) -> None:
        if owner or visibility:
            self.refuse("an `impl` inside an item")
        self.attribute(attributes, ("automatically_derived",))
        known = len(self.edits)
        trait, name, at = self.implemented(path)
        close = self.closing(at)
        inside = self.code[at + 1 : close]
        rule = None
        if trait == "Model":
            if any(token.kind not in ("ghost", "ghost use") for token in inside):
                self.refuse("a `Model` with code")
            rule = "model"
            self.models.append(name)
        elif trait == "std :: error :: Error" and not inside and name in self.table.ERRORS.get(self.name, []):
            rule = "error"
        if rule:
            del self.edits[known:]
            self.drop(rule, first, close, f"{path}::{name}", "impl")
        else:
            self.at = at + 1
            kind = f"impl {trait} for {name}" if trait else f"impl {name}"
            self.items(close, f"{path}::{name}", kind)
        self.at = close + 1

    def implemented(self, path: str) -> tuple[str | None, str, int]:
        """The trait of an `impl` or None, its type, and the index of its brace."""
        head = self.behind_generics(self.at + 1)
        self.empty_generics(self.at + 1, head)
        self.bounds(self.at + 1, head)
        at, trait, target = head, None, head
        while self.word(at) not in ("{", "where"):
            if self.word(at) == "for":
                trait, target = self.words(head, at), at + 1
            if self.word(at) == "<":
                self.empty_generics(at, self.behind_generics(at))
            if self.word(at) == ";" or self.kind(at) == "clause":
                self.refuse("an `impl` of another form", at)
            at += 1
        name = self.word(target)
        if self.word(at) == "where":
            behind = self.where(at)
            start, end = self.code[at - 1].end, self.code[min(behind, len(self.code) - 1)].start
            self.edits.append(Edit("empty", start, end, " "))
            self.dropped.append(Dropped("empty", f"{path}::{name}", "where"))
            at = behind
        if self.word(at) != "{":
            self.refuse("an `impl` of another form", at)
        return trait, name, at

    def empty_generics(self, first: int, end: int) -> None:
        if end == first + 2:
            self.edits.append(Edit("empty", self.code[first].start, self.code[first + 1].end, ""))
            self.dropped.append(Dropped("empty", self.module, "<>"))

    # Functions.

    def function(self, first: int, attributes: Attributes, visibility: str, path: str, owner: str | None, end: int) -> None:
        name = self.word(self.at + 1)
        form = self.form(first, f"{path}::{name}", visibility, owner, end)
        self.places.append((self.code[first].start, form.path))
        if form.is_lemma:
            self.lemma(form, attributes)
        else:
            self.attribute(attributes, ("inline", "must_use"))
            self.result(form, attributes)
            self.functions.append(Function(form.path, name, True, owner, form.requires, form.is_method))
            self.forms.append(form)
            self.signature(form)
            self.contract(form)
            self.body(form)
            self.guard(form)
        self.at = form.close + 1

    def form(self, first: int, path: str, visibility: str, owner: str | None, end: int) -> Form:
        """Where the parts of a function are."""
        start = self.at
        generics = self.behind_generics(start + 2)
        if self.word(generics) != "(":
            self.refuse("a function without parameters", generics)
        parameters = self.closing(generics)
        at = parameters + 1
        while self.kind(at) != "clause" and self.word(at) not in ("where", "{", ";"):
            if at >= end:
                self.refuse("a function with no end")
            at = self.closing(at) + 1 if self.word(at) in OPENING else at + 1
        behind = at
        if self.word(at) == "where":
            at = self.where(at)
        clauses = []
        while self.kind(at) == "clause":
            clauses.append(" ".join(self.word(at).split()))
            at += 1
        if self.word(at) not in ("{", ";"):
            self.refuse("a function without a body or a semicolon", at)
        close = self.closing(at) if self.word(at) == "{" else at
        is_bare = parameters == generics + 1 and behind == parameters + 1
        ensures = [one for one in clauses if one.startswith("ensures")]
        first_parameter = self.words(generics + 1, parameters)
        return Form(
            path=path,
            visibility=visibility,
            owner=owner,
            first=first,
            start=start,
            generics=(start + 2, generics),
            behind=behind,
            body=at,
            close=close,
            clauses=clauses,
            requires=[one for one in clauses if one.startswith("requires")],
            has_body=self.word(at) == "{",
            is_lemma=bool(is_bare and ensures and self.word(at) == "{" and close == at + 1),
            is_method=re.match(r"(& ('\w+ )?)?(mut )?self\b", first_parameter) is not None,
        )

    def lemma(self, form: Form, attributes: Attributes) -> None:
        if form.owner:
            self.refuse("a lemma in an item", form.start)
        if any(name != "tactic" for name, _, _ in attributes):
            self.refuse("an attribute of a lemma", form.first)
        if form.visibility not in ("", "pub"):
            self.refuse("a lemma of another visibility", form.first)
        name = form.path.split("::")[-1]
        self.functions.append(Function(form.path, name, False, None, [], False))
        self.drop("lemma", form.first, form.close, form.path, f"{len(form.clauses)} clauses")

    def signature(self, form: Form) -> None:
        text = self.words(form.start, form.behind)
        found = FORMATTER.match(text)
        if text.startswith("fn fmt <") and not found:
            self.refuse("a `fmt` of another form", form.start)
        if found:
            head = "std::" if found[3] else ""
            last = form.start + len(found[0].split()) - 2
            to = f"fn {found[1]}(&self, f: &mut {head}fmt::Formatter<'_>)"
            self.change("formatter", form.start, last, to)
        else:
            self.bounds(*form.generics)
        if form.path in self.table.CONSTANT:
            self.insert("const", self.code[form.start].start, "const ")

    def result(self, form: Form, attributes: Attributes) -> None:
        """Lets Rust warn of a caller that drops a result: who calls what changes nothing of the caller's wants that. Of a `Result` Rust
        warns anyway."""
        text = self.words(form.generics[1], form.behind)
        is_marked = any(name == "must_use" for name, _, _ in attributes)
        if form.visibility == "pub" and not is_marked and RESULT.search(text) and not CHANGES.search(text):
            start = self.code[form.start - 1].start
            indent = self.text[self.text.rfind("\n", 0, start) + 1 : start]
            self.insert("result", start, f"#[must_use]\n{indent}")

    def contract(self, form: Form) -> None:
        """Drops what is between the signature and the body."""
        if form.body == form.behind:
            return
        start, end = self.code[form.behind - 1].end, self.code[form.body].start
        self.edits.append(Edit("clause", start, end, " " if form.has_body else ""))
        heads = [match(r"(requires|ensures\*?)( \w+)?", one)[0] for one in form.clauses]
        self.dropped.append(Dropped("clause" if heads else "drop", form.path, ", ".join(heads)))

    def body(self, form: Form) -> None:
        """Refuses what a body may not have."""
        for at in range(form.body + 1, form.close):
            if self.kind(at) in ("clause", "ghost", "ghost use"):
                self.refuse("a clause or a ghost item in a body", at)
            if self.word(at) in ITEMS or self.begins(at, "# [") or self.begins(at, "# ! ["):
                self.refuse(f"`{self.word(at)}` in a body", at)
            if self.has_narrow_targets and self.word(at) == "as" and self.word(at + 1) == "usize":
                self.cast(at, form.path)

    def guard(self, form: Form) -> None:
        """The test of what a function requires, or the reason why it has none. What does not ship is called by proved code alone."""
        if not self.ships:
            return
        body = self.words(form.body, form.close + 1)
        guard = self.table.GUARDS.get(form.path)
        tested_by = guard.tested_by if guard else self.table.IMPLEMENTED.get(form.path)
        if (guard.clauses if guard else []) != form.requires:
            found = "; ".join(form.requires) or "nothing"
            cause = f"{form.path} requires other things than its guard is for: {found}"
            self.refuse(cause, form.start)
        if tested_by and f" {tested_by.split('::')[-1]} (" not in body:
            self.refuse(f"{form.path} does not call {tested_by}", form.start)
        if guard is None:
            return
        owner = form.owner or ""
        is_reached = form.visibility == "pub" or owner.startswith("trait ") or " for " in owner
        if guard.reason == self.table.HIDDEN_INSIDE and not set(form.path.split("::")[-2:]) & set(self.table.HIDDEN):
            self.refuse(f"{form.path} can be reached, and its guard says that it is in no interface", form.start)
        if guard.reason == self.table.INSIDE and (is_reached or guard.test):
            self.refuse(f"{form.path} can be reached, and its guard says that it is private", form.start)
        if guard.reason == self.table.IN_FILE and (form.visibility or is_reached or guard.test):
            self.refuse(f"{form.path} can be reached, and its guard says that it is private to its file", form.start)
        if guard.reason == self.table.NO_BODY and form.has_body:
            self.refuse(f"{form.path} has a body, and its guard says that it has none", form.start)
        if not guard.test and not guard.tested_by and not guard.reason:
            self.refuse(f"{form.path} has neither a test nor a reason", form.start)
        if guard.test:
            line = self.text.rfind("\n", 0, self.code[form.body].start) + 1
            indent = match(" *", self.text[line:])[0] + "    "
            lines = [f"\n{indent}{one}" for one in guard.test.split("\n")]
            self.insert("guard", self.code[form.body].end, "".join(lines))

    def cast(self, at: int, whole: str) -> None:
        """A cast to `usize` is one of those that are listed for this function."""
        for what in self.table.CASTS.get(whole, []):
            count = len(what.split())
            if self.words(at - count, at) == what and self.word(at - count - 1) in BEFORE_CAST:
                return
        self.refuse("a cast to `usize` that is not listed", at)

    # What allocates.

    def allocating(self) -> None:
        """A method that is given an allocator is the one of the kit, and a list or a text is too: the file has a `use` of what it names."""
        dropped = words.Spans((edit.start, edit.end) for edit in self.edits if edit.end > edit.start)
        used = set()
        for at, token in enumerate(self.code):
            if token.kind != "word" or token.start in dropped:
                continue
            is_given = self.word(at + 1) == "(" and self.word(at + 2) == "alloc" and self.word(at + 3) in (")", ",")
            if self.word(at - 1) == "." and token.text in self.table.WITH_ALLOCATOR and is_given:
                self.change("allocator", at, at, f"{token.text}_with")
                used.add(f"{self.table.WITH_ALLOCATOR[token.text]} as _")
            elif token.text in self.table.ALLOCATED:
                used.add(token.text)
        if used:
            inner = [one.end for one in self.comments if one.text.startswith("//!")]
            start = self.text.find("\n", inner[-1]) + 1 if inner else 0
            self.insert("lists", start, "\n" * bool(inner) + f"use std::{{{', '.join(sorted(used))}}};\n")

    def by_hand(self) -> None:
        """Declares the module by hand of this file, behind all else."""
        declared = self.table.BY_HAND.get(self.name)
        if declared:
            self.insert("by hand", len(self.text), f"\n{declared}\n")


def number(text: str) -> int:
    """The value of a number without its suffix. Raises `ValueError` if it is no whole number."""
    digits = re.sub(r"(?<=[0-9a-fA-F])_?[ui](8|16|32|64|128|size)$", "", text)
    return int(digits.replace("_", ""), 0)
