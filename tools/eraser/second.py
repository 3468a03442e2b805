"""A second reader of what the eraser made, written from ERASURE.md alone: it shares no code and no table with the first. The guards are
those of that page.

The first reader makes the emitted text. This one makes nothing: it goes through the source and the emitted file side by side, and each
token that is in one of them alone has to be one that a rule of the page names. `differences` gives the first token that no rule allows.
"""
import dataclasses
import functools
import pathlib
import re
from collections.abc import Callable

PAGE = pathlib.Path(__file__).resolve().parent / "ERASURE.md"
# A brace in a comment or in a text of ANTT is none, so no clause has either.
HIDES_BRACES = ("--", "{-", "-}")
OPEN = {"(": ")", "[": "]", "{": "}"}
# Signs of two or three letters that are one token.
SIGNS = ["..=", "::", "->", "=>", "==", "!=", "<=", ">=", "&&", "||", "..", "+=", "-=", "*=", "/=", "%=", "&=", "|=", "^="]
BLANK = " \n"
CONTRACTS = ("requires", "ensures", "ghost")
# Methods that get another name where their one argument is an allocator.
WITH_ALLOCATOR = ("collect", "to_vec", "to_string")
# The files whose errors of a cause have `Error` by hand in Rust, and these errors.
ERRORS = tuple(f"uart_{name}/src/errors.rt" for name in ("spec", "original", "rs485", "waits", "discovery"))
OF_A_CAUSE = "InitError|FrameError|LoopbackError|Uart16550TtyError|SendError|SharedError|StartError|Unfinished|TreeError"
EMPTY_ERROR = rf"(?:# \[ automatically_derived \] )?impl (?:< > )?std :: error :: Error for (?:{OF_A_CAUSE}) (?:< > where )?\{{ \}}"
# What a page of definitions is.
MODULE = r'(# \[ doc \( alias \( ("\w+"( , )?)+ \) \) \] )?pub mod \w+ \{ \}'
OF_OTHER = r"# \[ doc \( inline \) \] pub use \w+ :: proved as \w+ ;"
EMPTY_MODULES = re.compile(rf"(({MODULE}|{OF_OTHER}) ?)*")
# How many tokens are looked at for one rule.
MOST = 40


class Refused(Exception):
    """What no rule of the page allows."""


@dataclasses.dataclass(frozen=True)
class Token:
    """A token with its line. A whole clause or ghost item is one, of the kind of its first word."""

    text: str
    line: int
    kind: str = ""

    def __eq__(self, other: object) -> bool:
        return self.text == (other.text if isinstance(other, Token) else other)


class Scanner:
    """Reads the tokens of a text, letter by letter. Comments of Rust are none."""

    def __init__(self, text: str, has_clauses: bool) -> None:
        self.text, self.at, self.line, self.has_clauses = text, 0, 1, has_clauses

    def tokens(self) -> list[Token]:
        found = []
        while self.at < len(self.text):
            letter = self.text[self.at]
            if letter in BLANK:
                self.skip(1)
            elif self.begins("//"):
                self.skip(len(self.upto("\n")))
            elif self.begins("/*"):
                raise Refused(f"line {self.line}: a block comment")
            else:
                line = self.line
                word = self.one()
                if self.has_clauses and word in CONTRACTS:
                    found.append(Token(word + self.contract(word), line, word))
                else:
                    found.append(Token(word, line))
        return found

    def begins(self, text: str) -> bool:
        return self.text.startswith(text, self.at)

    def upto(self, mark: str) -> str:
        """The text from here to this mark, or to the end."""
        end = self.text.find(mark, self.at)
        return self.text[self.at : end if end >= 0 else len(self.text)]

    def skip(self, count: int) -> str:
        taken = self.text[self.at : self.at + count]
        self.line += taken.count("\n")
        self.at += count
        return taken

    def one(self) -> str:
        """The token that begins here."""
        letter, more = self.text[self.at], self.text[self.at + 1 : self.at + 2]
        if letter == '"' or letter == "b" and more == '"':
            return self.quoted('"')
        if letter == "b" and more == "'" or letter == "'" and not self.is_lifetime():
            return self.quoted("'")
        if letter == "'" or is_of_word(letter):
            end = self.at + 1
            while end < len(self.text) and (is_of_word(self.text[end]) or self.is_point(letter, end)):
                end += 1
            return self.skip(end - self.at)
        if not letter.isascii() or not letter.isprintable():
            raise Refused(f"line {self.line}: the letter {ascii(letter)} outside of a clause")
        return self.skip(next((len(sign) for sign in SIGNS if self.begins(sign)), 1))

    def is_point(self, first: str, at: int) -> bool:
        """Whether a point is part of a number."""
        return first.isdigit() and self.text[at] == "." and self.text[at + 1 : at + 2].isdigit()

    def is_lifetime(self) -> bool:
        """Whether the quote here begins a lifetime, and not a character."""
        return is_of_word(self.text[self.at + 1]) and self.text[self.at + 2 : self.at + 3] != "'"

    def quoted(self, mark: str) -> str:
        end = self.text.index(mark, self.at) + 1
        while self.text[end] != mark:
            end += 2 if self.text[end] == "\\" else 1
        return self.skip(end + 1 - self.at)

    def contract(self, word: str) -> str:
        """The rest of a clause or of a ghost item."""
        start = self.at
        if word == "ghost" and re.compile(r"\s+use\b").match(self.text, self.at):
            self.skip(len(self.upto(";")) + 1)
        else:
            self.braces()
            if word == "ghost":
                if re.compile(r"\s+by \{").match(self.text, self.at):
                    self.braces()
                if self.skip(1) not in (";", ","):
                    raise Refused(f"line {self.line}: a ghost item without an end")
        inside = self.text[start : self.at]
        hidden = next((one for one in HIDES_BRACES if one in inside), None)
        if hidden or re.search(r'"[^"\n]*[{}][^"\n]*"', inside):
            raise Refused(f"line {self.line}: a comment or a brace in a text hides where a clause ends")
        return inside

    def braces(self) -> None:
        """Goes behind the braces that are next: nothing but a head is in front of them."""
        if not re.fullmatch(r"\*?\s*(\w+\s*)?[:=]?\s*(by\s*)?", self.upto("{")):
            raise Refused(f"line {self.line}: a clause of no known head")
        self.skip(len(self.upto("{")))
        depth = 0
        while True:
            if self.at >= len(self.text):
                raise Refused("a clause that does not end")
            depth += {"{": 1, "}": -1}.get(self.skip(1), 0)
            if depth == 0:
                return


def is_of_word(letter: str) -> bool:
    return letter.isascii() and (letter.isalnum() or letter == "_")


def closing(tokens: list[Token], at: int) -> int:
    """The index of the bracket that closes the one at this index."""
    wanted = []
    for here in range(at, len(tokens)):
        text = tokens[here].text
        if text in OPEN:
            wanted.append(OPEN[text])
        elif wanted and text == wanted[-1]:
            wanted.pop()
            if not wanted:
                return here
    raise Refused(f"line {tokens[at].line}: a bracket that is not closed")


def begins(tokens: list[Token], at: int, words: str) -> bool:
    """Whether these words, with a space between two, stand here."""
    wanted = words.split()
    return [one.text for one in tokens[at : at + len(wanted)]] == wanted


class Source:
    """What is left of a source by the rules of the page that only drop. `bodies` has the indices that are inside of a function's body, and
    `required` those of the brace of a function that requires something."""

    def __init__(self, name: str, text: str) -> None:
        self.tokens, self.has_errors_by_hand = Scanner(text, True).tokens(), name in ERRORS
        self.left, self.bodies, self.required = list[Token](), set[int](), set[int]()
        self.items(0, len(self.tokens))

    def keep(self, first: int, end: int, is_body: bool = False) -> None:
        for at in range(first, end):
            if is_body and self.tokens[at].kind:
                raise Refused(f"line {self.tokens[at].line}: a clause in a body")
            if is_body:
                self.bodies.add(len(self.left))
            self.left.append(self.tokens[at])

    def items(self, at: int, end: int) -> None:
        """Goes over items: what is in braces of an `impl`, a `trait`, a type or a file."""
        while at < end:
            behind = self.dropped(at, end)
            if behind == at and self.tokens[at] == "fn":
                behind = self.function(at)
            elif behind == at:
                self.keep(at, at + 1)
                behind = at + 1
            at = behind

    def dropped(self, at: int, end: int) -> int:
        """The index behind what is dropped here, or this index."""
        tokens = self.tokens
        if tokens[at].kind == "ghost":
            return at + 1
        if tokens[at].kind:
            raise Refused(f"line {tokens[at].line}: a clause behind no signature")
        for head in ("# [ tactic (", "# ! [ tactic ("):
            if begins(tokens, at, head):
                return closing(tokens, at + head.split().index("[")) + 1
        for whole in ("use thiserror :: Error ;", "use std :: marker :: Model ;", "mod laws ;", "pub mod laws ;"):
            if begins(tokens, at, whole):
                return at + len(whole.split())
        if begins(tokens, at, "# [ cfg ( test ) ] mod") and tokens[at + 9] == ";":
            return at + 10
        if tokens[at] == "use" and "laws" in [one.text for one in tokens[at : self.semicolon(at)]]:
            return self.semicolon(at) + 1
        if self.has_errors_by_hand and self.error(at) != at:
            return self.error(at)
        if tokens[at] == "impl":
            return self.implementation(at)
        return self.lemma(at) or at

    def semicolon(self, at: int) -> int:
        return next(here for here in range(at, len(self.tokens)) if self.tokens[here] == ";")

    def implementation(self, at: int) -> int:
        """The index behind a model, or this index."""
        opened = next(here for here in range(at, len(self.tokens)) if self.tokens[here] == "{")
        head = " ".join(one.text for one in self.tokens[at:opened])
        inside = self.tokens[opened + 1 : closing(self.tokens, opened)]
        is_model = re.match(r"impl (< .* > )?Model for ", head) and all(one.kind == "ghost" for one in inside)
        return closing(self.tokens, opened) + 1 if is_model else at

    def error(self, at: int) -> int:
        """The index behind an empty implementation of `Error` here, with the attribute that the kit writes in front; or this index."""
        found = re.match(EMPTY_ERROR, " ".join(one.text for one in self.tokens[at : at + MOST]))
        return at + len(found[0].split()) if found else at

    def lemma(self, at: int) -> int | None:
        """The index behind a function that takes nothing, returns nothing, does nothing and ensures something; or None."""
        at += self.tokens[at] == "pub"
        if self.tokens[at] != "fn" or not begins(self.tokens, at + 2, "( )"):
            return None
        at, count = at + 4, 0
        while self.tokens[at].kind:
            count += self.tokens[at].kind == "ensures"
            at += 1
        return at + 2 if count and begins(self.tokens, at, "{ }") else None

    def function(self, at: int) -> int:
        """Goes over a function: its signature, its clauses, and its body, of which nothing is dropped."""
        tokens, here = self.tokens, at
        while not tokens[here].kind and tokens[here].text not in ("{", ";"):
            here = closing(tokens, here) + 1 if tokens[here].text in OPEN else here + 1
        self.keep(at, here)
        is_required = False
        while tokens[here].kind:
            if tokens[here].kind == "ghost":
                raise Refused(f"line {tokens[here].line}: a ghost item in a signature")
            is_required |= tokens[here].kind == "requires"
            here += 1
        if tokens[here] == ";":
            self.keep(here, here + 1)
            return here + 1
        if tokens[here] != "{":
            raise Refused(f"line {tokens[here].line}: something between the clauses and the body")
        if is_required:
            self.required.add(len(self.left))
        end = closing(tokens, here) + 1
        self.keep(here, end, True)
        return end


# What an emitted file may have more, outside of bodies, as patterns over tokens with a space between two: where, and what.
ROOT = (
    r"# ! \[ no_std \]|# ! \[ forbid \( unsafe_code \) \]|# ! \[ allow \( [\w:, ]+( , reason = \"[^\"]*\")? \) \]"
    r"|(# \[ macro_use \( [\w, ]+ \) \] )?extern crate \w+ as \w+ ;|pub mod proved ;"
    r"|const _ : \( \) = assert ! \( usize :: BITS (== 64|>= 32) , \"[^\"]*\" \) ;"
)
ANYWHERE = (
    r"use std :: fmt :: Write as _ ;|use std :: \{ [\w, ]+ \} ;|(pub )?mod by_hand ;|# \[ (repr \( C \)|must_use) \]"
    r"|# \[ (cfg_attr \( not \( feature = \"exhaustive\" \) , )?non_exhaustive( \))? \]"
)
GAINED = re.compile(rf"(?:{ANYWHERE})(?= |$)")
GAINED_ROOT = re.compile(rf"(?:{ROOT}|{ANYWHERE})(?= |$)")
FORMATTER = re.compile(r"fn (\w+) < (\w+) : ((?:std :: )?fmt) :: Write > \( & self , f : & mut \3 :: Formatter < \2 > \)")


@functools.lru_cache(maxsize=None)
def guards() -> list[tuple[str, ...]]:
    """The guards of the page, each as its tokens."""
    text = re.findall(r"```text\n(.*?)```", PAGE.read_text(encoding="ascii"), re.DOTALL)[0]
    found, start = [], 0
    tokens = [one.text for one in Scanner(text, False).tokens()]
    for at, one in enumerate(tokens):
        if one == ";":
            found.append(tuple(tokens[start : at + 1]))
            start = at + 1
    return found


class Reader:
    """The source beside the emitted file."""

    def __init__(self, name: str, source: str, emitted: str) -> None:
        self.source = Source(name, source)
        self.left, self.made = self.source.left, Scanner(emitted, False).tokens()
        self.is_root = name.endswith("/src/lib.rt")
        self.is_register = "/src/registers/" in name
        self.at = self.here = 0

    def word(self, ahead: int = 0) -> str:
        return self.left[self.at + ahead].text if self.at + ahead < len(self.left) else ""

    def emitted(self, ahead: int = 0) -> str:
        return self.made[self.here + ahead].text if self.here + ahead < len(self.made) else ""

    def read(self) -> None:
        """Raises `Refused` at the first token that no rule allows."""
        while self.at < len(self.left) or self.here < len(self.made):
            if self.at in self.source.bodies:
                self.body()
            elif not self.outside():
                self.refuse()

    def refuse(self) -> None:
        # a file may end too early, or have no token at all
        line = self.made[min(self.here, len(self.made) - 1)].line if self.made else 1
        shown = " ".join(one.text for one in self.made[self.here : self.here + 8])
        wanted = " ".join(one.text for one in self.left[self.at : self.at + 8])
        raise Refused(f"line {line}: `{shown}` is emitted, and the source has `{wanted}`")

    def step(self) -> None:
        if self.word() != self.emitted():
            self.refuse()
        self.at += 1
        self.here += 1

    def body(self) -> None:
        """One token of a body: the guard behind its brace, a method with an allocator, or the same token."""
        if self.at in self.source.required and self.emitted() == "{":
            self.step()
            self.here += self.guard()
            return
        is_given = self.at > 0 and self.left[self.at - 1] == "." and begins(self.left, self.at + 1, "( alloc")
        if is_given and self.word() in WITH_ALLOCATOR:
            if self.emitted() != f"{self.word()}_with":
                self.refuse()
            self.at += 1
            self.here += 1
            return
        self.step()

    def guard(self) -> int:
        """How many tokens the guard here has: none, if the body begins."""
        longest = max(map(len, guards()))
        stands = tuple(one.text for one in self.made[self.here : self.here + longest])
        return next((len(one) for one in guards() if stands[: len(one)] == one), 0)

    def outside(self) -> bool:
        """One step outside of bodies. Returns whether a rule allows it."""
        return self.of_drop() or self.of_derive() or self.of_formatter() or self.of_gain() or self.of_const() or self.same()

    def same(self) -> bool:
        if self.word() != self.emitted() or not self.word():
            return False
        self.step()
        return True

    def of_drop(self) -> bool:
        """`Drop` in a bound, a `where` of such bounds alone, and `<>`."""
        if self.word() in ("+", ":") and self.word(1) == "Drop" and self.word(2) in (",", ">", "+", "="):
            self.at += 2
            return True
        if self.word() == "where":
            end = self.at + 1
            while begins(self.left, end + 1, ": Drop"):
                end += 3 + (self.left[end + 3] == ",")
            if self.left[end].text in ("{", ";"):
                self.at = end
                return True
        if self.word() == "<" and self.word(1) == ">":
            self.at += 2
            return True
        return False

    def of_derive(self) -> bool:
        """The derives without `Drop`, and those of a register without `Debug`."""
        if not begins(self.left, self.at, "# [ derive ("):
            return False
        end = closing(self.left, self.at + 1)
        wanted = [one.text for one in self.left[self.at + 4 : end - 1] if one.text not in (",", "Drop")]
        if not wanted:
            self.at = end + 1
            return True
        if not begins(self.made, self.here, "# [ derive ("):
            return False
        close = closing(self.made, self.here + 1)
        found = " ".join(one.text for one in self.made[self.here + 4 : close - 1])
        allowed = [wanted, [one for one in wanted if one != "Debug"]] if self.is_register else [wanted]
        if found not in [" , ".join(one) for one in allowed]:
            return False
        self.at, self.here = end + 1, close + 1
        return True

    def of_formatter(self) -> bool:
        """`fmt` over a writer, which in Rust is over none."""
        found = FORMATTER.match(" ".join(one.text for one in self.left[self.at : self.at + MOST]))
        if not found:
            return False
        wanted = f"fn {found[1]} ( & self , f : & mut {found[3]} :: Formatter < '_ > )"
        if not begins(self.made, self.here, wanted):
            return False
        self.at += len(found[0].split())
        self.here += len(wanted.split())
        return True

    def of_gain(self) -> bool:
        """What an emitted file may have more. What the source has too is the source's."""
        # A space inside of a token, as in a string, would count for one between two.
        text = " ".join(one.text.replace(" ", "_") for one in self.made[self.here : self.here + MOST])
        found = (GAINED_ROOT if self.is_root else GAINED).match(text)
        if not found or begins(self.left, self.at, found[0]):
            return False
        self.here += len(found[0].split())
        return True

    def of_const(self) -> bool:
        if self.emitted() == "const" and self.emitted(1) == "fn" and self.word() == "fn":
            self.here += 1
            return True
        return False


def differences(name: str, source: str, emitted: str) -> list[str]:
    """The first token that no rule of the page allows, as a cause, or nothing."""
    try:
        Reader(name, source, emitted).read()
    except Refused as cause:
        return [f"{name}: second reader: {cause}"]
    return []


def of_page(name: str, emitted: str) -> list[str]:
    """What a page of definitions has beside empty modules."""
    text = " ".join(one.text for one in Scanner(emitted, False).tokens())
    return [] if EMPTY_MODULES.fullmatch(text) else [f"{name}: second reader: more than empty modules"]


def read_all(root: pathlib.Path, crates: list[str], expanded: Callable[[pathlib.Path, str], bytes]) -> tuple[int, list[str]]:
    """Reads each source beside its emitted file. Returns how many there are, and what no rule allows. `expanded` gives what the kit prints
    of a source that uses macros of errors."""
    count, causes = 0, []
    for crate in crates:
        sources, made = root / "crates" / crate / "src", root / "rust" / "proved" / crate / "src"
        paths = {path.relative_to(sources).with_suffix("") for path in sources.rglob("*.rt")}
        paths = {path for path in paths if path.name not in ("tests", "laws") and "tests" not in path.parts}
        there = {path.relative_to(made).with_suffix("") for path in made.rglob("*.rs")}
        there = {path for path in there if "by_hand" not in path.parts}
        causes += [f"{crate}/src/{path}.rt: second reader: nothing is emitted" for path in sorted(paths - there)]
        for path in sorted(there):
            name, emitted = f"{crate}/src/{path}.rt", (made / path.with_suffix(".rs")).read_text(encoding="utf-8")
            count += 1
            if path in paths:
                source = (sources / path.with_suffix(".rt")).read_bytes()
                source = expanded(root, name) if b"use thiserror::Error" in source else source
                causes += differences(name, source.decode("utf-8"), emitted)
            elif str(path) == "proved":
                causes += of_page(name, emitted)
            else:
                causes.append(f"{name}: second reader: emitted, and there is no source")
    return count, causes
