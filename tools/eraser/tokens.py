"""The tokens of a source in Rattle or Rust. A clause or a ghost item is one token."""
import re
import unicodedata
from typing import NamedTuple

import hiding


class Token(NamedTuple):
    kind: str
    text: str
    start: int
    end: int


class Refused(Exception):
    """What the eraser does not know. `at` is the offset in the text, or None."""

    def __init__(self, cause: str, at: int | None = None) -> None:
        super().__init__(cause)
        self.cause = cause
        self.at = at


TOKEN = re.compile(
    r"""(?P<space>[ \n]+)
    |(?P<comment>//[^\n]*)
    |(?P<string>b?"(?:\\[^\n]|[^"\\\n])*")
    |(?P<character>b?'(?:\\x[0-9a-fA-F]{2}|\\u\{[0-9a-fA-F]+\}|\\[^\n]|[^'\\\n])')
    |(?P<lifetime>'[A-Za-z_][A-Za-z_0-9]*)
    |(?P<number>[0-9](?:[0-9A-Za-z_]|\.(?=[0-9]))*)
    |(?P<word>[A-Za-z_][A-Za-z_0-9]*)
    |(?P<sign>::|->|=>|==|!=|<=|>=|&&|\|\||\.\.=|\.\.|[-+*/%&|^]=|[!#$%&()*+,\-./:;<=>?@\[\]^_{|}~])""",
    re.VERBOSE,
)
# What may be no letter, digit or sign: all but those of ASCII and ends of lines.
ODD = re.compile(r"[^\n -~]")
RAW = re.compile(r"b?r#*\"|r#|c\"")
STRING = re.compile(r'(?P<string>b?"(?:\\.|[^"\\])*")', re.DOTALL)
# What Rust code has and a clause does not.
CODE = re.compile(r"\b(fn|pub|impl|mod|use|struct|enum|trait|unsafe|extern|macro_rules)\b|->|=>|[;'`#\\\"@!?]|--|//|/\*|\*/")
# The letters and signs of clauses that are not ASCII.
LETTERS = set("≡≢≤◌∷→λ⟦⟧ℕ⊤⊥×↔𝓛⊎")
RECORD = re.compile(r"\brecord (?:[\w.]+ )?\{[^{}]*\}")
NAME = re.compile(r'"[A-Z_][A-Z_0-9]*"')
# A text in a clause, which is what is printed; and the prime of a name.
TEXT = re.compile(r'"[a-zA-Z :=]*"')
PRIME = re.compile(r"(?<=\w)'(?!\w)")


def closing_brace(text: str, start: int) -> int:
    """The offset behind the braces that open at `start`."""
    depth = 0
    for at in range(start, len(text)):
        depth += {"{": 1, "}": -1}.get(text[at], 0)
        if depth == 0:
            return at + 1
    raise Refused("braces of a clause that are not closed", start)


def check_clause(text: str, start: int, ghost: bool) -> None:
    """Refuses a clause with anything that code or a comment could be made of."""
    inner = PRIME.sub("", TEXT.sub("", text))
    if ghost:
        inner = NAME.sub("", inner)
    refuse(hiding.comment(inner), start)
    # the fields of a record are separated by semicolons
    while RECORD.search(inner):
        inner = RECORD.sub(lambda found: found[0].replace(";", "").replace("{", "(").replace("}", ")"), inner)
    found = CODE.search(inner)
    if found:
        raise Refused(f"`{found[0]}` in a clause", start)
    for letter in inner:
        if not letter.isascii() and letter not in LETTERS:
            raise Refused(f"the letter {ascii(letter)} in a clause", start)
    refuse(hiding.braces(text), start)


def refuse(cause: str | None, start: int) -> None:
    if cause:
        raise Refused(cause, start)


def clause(text: str, start: int, word: str, strict: bool = True) -> Token:
    """The token of a clause or a ghost item that begins with `word` at `start`."""
    if word != "ghost":
        head = re.compile(r"(requires|ensures)\*?(?: [a-z_0-9]+)? \{").match(text, start)
        if not head or word == "requires" and head[0].startswith("requires*"):
            raise Refused(f"a word `{word}` without a clause", start)
        end = closing_brace(text, head.end() - 1)
        if strict:
            check_clause(text[head.end() : end - 1], start, False)
        return Token("clause", text[start:end], start, end)
    if text.startswith("ghost use ", start):
        found = re.compile(r"ghost use [\w.]+(?:\.\{[^{};]*\}| as \w+)?;").match(text, start)
        if not found:
            raise Refused("a `ghost use` of no known form", start)
        refuse(hiding.comment(found[0]), start)
        check_clause(re.sub(r"[{}]", "", found[0][len("ghost use ") : -1]), start, False)
        refuse(hiding.in_ghost_use(found[0]), start)
        return Token("ghost use", found[0], start, found.end())
    head = re.compile(r"ghost (\w+)( =|:) \{").match(text, start)
    if not head:
        raise Refused("a ghost item of no known form", start)
    end = closing_brace(text, head.end() - 1)
    check_clause(text[head.end() : end - 1], start, True)
    proof = re.compile(r"\s+by \{").match(text, end)
    if proof:
        end = closing_brace(text, proof.end() - 1)
        check_clause(text[proof.end() : end - 1], start, True)
    if text[end : end + 1] not in (";", ","):
        raise Refused("a ghost item with no end", start)
    return Token("ghost", text[start : end + 1], start, end + 1)


def check_letters(text: str) -> None:
    """Refuses control characters, and what is not ASCII outside of clauses is refused by `tokens`."""
    for found in ODD.finditer(text):
        if unicodedata.category(found[0]) in ("Cc", "Cf", "Zl", "Zp", "Co", "Cn", "Cs"):
            raise Refused(f"the character {ascii(found[0])}", found.start())


def tokens(text: str, clauses: bool = True, strict: bool = True, signs: bool = False) -> tuple[list[Token], list[Token]]:
    """The tokens of a text, comments apart: (code, comments).

    If not strict, a string may have several lines, and a clause anything: for the sources of tests. With signs, documentation may have the
    signs of clauses.
    """
    check_letters(text)
    code, comments, at = list[Token](), list[Token](), 0
    while at < len(text):
        found = not strict and STRING.match(text, at) or TOKEN.match(text, at)
        if text[at] in "/*" and text[at : at + 2] in ("/*", "*/"):
            raise Refused("a block comment", at)
        if not found or text[at] in "brc" and RAW.match(text, at):
            raise Refused(f"no token: {ascii(text[at:at + 12])}", at)
        token = Token(found.lastgroup or "", found[0], at, found.end())
        is_told = signs and token.text.startswith("///")
        if not all(letter.isascii() or is_told and letter in LETTERS for letter in token.text):
            raise Refused(f"not ASCII: {ascii(token.text[:40])}", at)
        if clauses and token.kind == "word" and token.text in ("requires", "ensures", "ghost"):
            token = clause(text, at, token.text, strict)
        if token.kind == "comment":
            comments.append(token)
        elif token.kind != "space":
            code.append(token)
        at = token.end
    return code, comments
