"""What an emitted crate exports beside what the proved library exports: items, visibility, `const`, derives, fields and signatures.

The kit leaves what is public in a library as text in `lang/src`, a file for each file of the source, without bodies and comments. Emitted
text is read by the same reader. So a field or a function that is public in one of the two alone is found, as is an item that is no item of
the library, such as a `static`.
"""
import dataclasses
import pathlib
import re
import types

TOKEN = re.compile(r"'\w+(?!')|\w+|b?\"(?:\\.|[^\"\\])*\"|b?'(?:\\.|[^'\\])+'|::|->|=>|[^\s\w]")
COMMENT = re.compile(r"//[^\n]*")
WORDS_OF_ITEMS = ("fn", "struct", "enum", "union", "trait", "mod", "use", "const", "static", "type", "impl", "macro_rules")
# What no library has: what is kept between calls, what depends on how or where code is compiled, and code that is made.
FORBIDDEN = ("static", "macro_rules", "unsafe", "cfg", "env", "option_env", "include", "thread_local", "as_ptr", "addr_of", "size_of", "align_of")
RAW = ("* const", "* mut", "& raw")
# Attributes that say how something is compiled, and not what it is.
PLAIN = re.compile(r"(inline|automatically_derived|default|read_as|allow|must_use)\b|cfg_attr \( not \( feature = \"exhaustive\"")


@dataclasses.dataclass
class Item:
    """An item: its visibility, its name with the path inside of the crate, and the text of what can be seen of it."""

    name: str
    visibility: str
    text: str


class Reader:
    """Reads the items of a text, of Rust or of a library."""

    def __init__(self, text: str, module: str) -> None:
        self.words = TOKEN.findall(COMMENT.sub("", text))
        self.items = []
        self.words = self.without_clauses()
        # inside of functions too
        text = f" {' '.join(self.words)} "
        self.items += [Item(module, "", f"{words} ..") for words in FORBIDDEN + RAW if f" {words} " in text]
        self.read(0, len(self.words), module, "")

    def without_clauses(self) -> list[str]:
        """The words without the clauses and the ghost items of a library."""
        kept, at = [], 0
        while at < len(self.words):
            if self.words[at] in ("requires", "ensures"):
                at = self.closing(self.words.index("{", at))
            elif self.words[at] == "ghost":
                at = self.end_of_ghost(at)
            else:
                kept.append(self.words[at])
            at += 1
        return kept

    def end_of_ghost(self, at: int) -> int:
        """The index of the last word of a ghost item, which may have a proof, and a sign behind it."""
        if self.words[at + 1] == "use":
            return self.words.index(";", at)
        end = self.closing(self.words.index("{", at))
        if self.words[end + 1] == "by":
            end = self.closing(end + 2)
        return end + (self.words[end + 1] in (";", ","))

    def closing(self, at: int) -> int:
        """The index of the bracket that closes the one at this index."""
        depth = 0
        for here in range(at, len(self.words)):
            depth += {"(": 1, "[": 1, "{": 1, ")": -1, "]": -1, "}": -1}.get(self.words[here], 0)
            if depth == 0:
                return here
        raise ValueError("a bracket that is not closed")

    def end(self, at: int) -> int:
        """The index behind an item: of the `;` or of the braces that end it."""
        while at < len(self.words) and self.words[at] not in ("{", ";"):
            at = self.closing(at) if self.words[at] in ("(", "[") else at
            at += 1
        return at

    def read(self, at: int, end: int, owner: str, inside: str) -> None:
        """Reads items from `at` to `end`. `inside` is the visibility of what has none of its own, of a trait."""
        derives, attributes, visibility = [], [], inside
        while at < end:
            word = self.words[at]
            if word == "#":
                start = at + 1 + (self.words[at + 1] == "!")
                close = self.closing(start)
                text = " ".join(self.words[start + 1 : close])
                if text.startswith("derive ("):
                    derives += re.findall(r"\w+", text)[1:]
                elif not PLAIN.match(text) and start == at + 1:
                    attributes.append(text)
                at = close + 1
            elif word == "pub":
                close = self.closing(at + 1) if self.words[at + 1] == "(" else at
                visibility = "pub" if close == at else "restricted"
                at = close + 1
            elif word in WORDS_OF_ITEMS:
                at = self.item(at, owner, visibility, attributes, sorted(set(derives)))
                derives, attributes, visibility = [], [], inside
            else:
                at += 1

    def item(self, at: int, owner: str, visibility: str, attributes: list[str], derives: list[str]) -> int:
        """Reads the item at this index. Returns the index behind it."""
        word = self.words[at]
        is_const_fn = word == "const" and self.words[at + 1] == "fn"
        at += is_const_fn
        word, end = self.words[at], self.end(at)
        marks = "".join(f"#[{one}] " for one in attributes)
        if word == "use":
            end = self.words.index(";", at)
            self.uses(self.words[at + 1 : end], owner, visibility)
            return end + 1
        if word in ("const", "static", "type"):
            end = self.words.index(";", at)
            words = self.words[at:end]
            words = words[: words.index("=")] if "=" in words and word != "type" else words
            self.put(owner, words[1], visibility, marks + " ".join(words))
            return self.behind_value(at)
        close = self.closing(end) if self.words[end] == "{" else end
        if word == "impl":
            head = shortened(" ".join(self.words[at:end]))
            if " for " in head:
                self.put(owner, head, "pub", "")
            else:
                self.read(end + 1, close, f"{owner}::{behind_generics(head[len('impl ') :])}", "")
        elif word == "trait":
            self.put(owner, self.words[at + 1], visibility, marks + shortened(" ".join(self.words[at:end])))
            self.read(end + 1, close, f"{owner}::{self.words[at + 1]}", visibility)
        elif word == "fn":
            head = shortened(" ".join(self.words[at:end]))
            self.put(owner, self.words[at + 1], visibility, f"{marks}{'const ' if is_const_fn else ''}{head}")
        elif word in ("struct", "enum", "union"):
            head = shortened(" ".join(self.words[at : close + 1]))
            head = re.sub(r"# \[ default \] ", "", head)
            self.put(owner, self.words[at + 1], visibility, f"{marks}derive({', '.join(derives)}) {head}")
        else:
            self.put(owner, self.words[at + 1], visibility, " ".join(self.words[at : at + 2]))
        return close + 1

    def behind_value(self, at: int) -> int:
        """The index behind the `;` that ends a constant, whose value may have some inside."""
        while self.words[at] != ";":
            at = self.closing(at) if self.words[at] in ("(", "[", "{") else at
            at += 1
        return at + 1

    def uses(self, words: list[str], owner: str, visibility: str) -> None:
        if visibility != "pub":
            return
        text = " ".join(words)
        found = re.fullmatch(r"(.*) :: \{ (.*?) (?:, )?\}", text)
        for one in [f"{found[1]} :: {name}" for name in found[2].split(" , ")] if found else [text]:
            self.put(owner, f"use {one}", visibility, "")

    def put(self, owner: str, name: str, visibility: str, text: str) -> None:
        self.items.append(Item(f"{owner}::{name}", visibility, text))


def shortened(text: str) -> str:
    """A head without what erasure leaves out, and without signs that mean nothing: a bound `Drop`, empty parameters, a last comma, how many
    items an array has, whose number the MIR has, and whether a parameter is changed inside."""
    text = re.sub(r" as \w+(?= |$)", "", text) if text.startswith("impl") else text
    text = re.sub(r"(?<=:) Drop \+| \+ Drop\b| : Drop\b", "", text)
    text = re.sub(r" where(?: \w+(?: ,)?)*$", "", re.sub(r" +", " ", text.replace("< >", "")).rstrip())
    text = re.sub(r"(?<=[(,] )mut (?=\w)", "", text)
    text = re.sub(r"(?<= ; )[\w :]+(?= \])", "_", text)
    return re.sub(r" ,(?= [)\]}>])", "", text).rstrip(";").strip()


def behind_generics(text: str) -> str:
    """The text behind the parameters with which it begins."""
    words, depth = text.split(" "), 0
    if words[0] != "<":
        return text
    for at, word in enumerate(words):
        depth += {"<": 1, ">": -1}.get(word, 0)
        if depth == 0:
            return " ".join(words[at + 1 :])
    return text


def items(folder: pathlib.Path, ending: str) -> list[Item]:
    """The items of the files below a folder. What is by hand, and what is a law, has no place in the other."""
    found = []
    for path in sorted(folder.rglob(f"*{ending}")):
        parts = [one for one in path.relative_to(folder).with_suffix("").parts if one != "lib"]
        if "by_hand" not in parts and parts[-1:] != ["laws"]:
            found += Reader(path.read_text(encoding="utf-8"), "::".join(["crate", *parts])).items
    return found


class Rules:
    """How an item of a library is emitted, as the tables of the eraser say."""

    def __init__(self, table: types.ModuleType, crate: str) -> None:
        self.table, self.crate = table, crate

    def emitted(self, name: str, text: str) -> str | None:
        """The text of an item of the library as it is emitted, or None if it is not."""
        if re.search(r" Model for |::laws$", name) or re.fullmatch(r"fn \w+ \( \)", text):
            return None
        file = f"{self.crate}/src/{'/'.join(name.split('::')[1:2])}.rt"
        of_error = re.search(r"std :: error :: Error for (\w+)", name)
        if of_error and of_error[1] in self.table.ERRORS.get(file, []):
            return None
        path = re.sub(r" <.*?(?=::|$)", "", name.replace("crate", self.crate, 1))
        text = re.sub(r"derive\((.*?)\)", lambda found: f"derive({', '.join(one for one in found[1].split(', ') if one != 'Drop')})", text)
        if re.search(r"struct [A-Z]{3} \( pub \( super \) u8 \)$", text):
            text = text.replace("Debug, ", "")
        if path in self.table.IN_ORDER:
            text = f"#[repr ( C )] {text}"
        if path in self.table.IS_OPEN:
            text = f"#[non_exhaustive] {text}"
        return f"const {text}" if path in self.table.CONSTANT else text

    def is_of_pages(self, name: str, text: str) -> bool:
        """Whether an item is a module of the pages of definitions, which hold documentation alone, or the pages of another crate there."""
        is_page = re.fullmatch(r"crate::proved(::\w+)*", name) and re.fullmatch(r"mod \w+", text)
        return bool(is_page or re.fullmatch(r"crate::proved::use \w+ :: proved as \w+", name))


def differences(emitted: pathlib.Path, library: pathlib.Path, rules: Rules) -> tuple[list[str], int]:
    """What an emitted crate exports otherwise than the library: texts, and how many items were compared."""
    found, ours, proved = [], {}, {}
    for one in items(emitted, ".rs"):
        if one.visibility == "" and one.text.endswith(" .."):
            found.append(f"{one.name}: `{one.text.removesuffix(' ..')}`, which no library has")
        elif one.visibility == "pub" and not rules.is_of_pages(one.name, one.text):
            ours[one.name] = one.text
    for one in items(library, ".rt"):
        text = rules.emitted(one.name, one.text) if one.visibility == "pub" else None
        if text is not None:
            proved[one.name] = text
    for name in sorted(ours.keys() | proved.keys()):
        if name not in proved:
            found.append(f"{name}: exported, and not by the proved library")
        elif name not in ours:
            found.append(f"{name}: exported by the proved library alone")
        elif ours[name] != proved[name]:
            found.append(f"{name}: exported as `{ours[name]}`, and by the proved library as `{proved[name]}`")
    return found, len(ours)
