"""The section `Proved` of each public function that has clauses, and the pages of the definitions that the clauses cite.

A section says each clause once: in words where its form is one of those below, and else as its code. What a definition means is said by the
comment above it in `crates/*/specs`, letter by letter. All clauses stand beneath as they are in the source, word by word.
"""
import pathlib
import re
from collections.abc import Iterator

import definitions
import table
from definitions import Place
from items import Edit, File, Form, match

# The package whose pages say how a section is read. All others use it.
GUIDES = "uart_spec"
# Packages that show the pages of another one, which no package of the users may name.
SHOWS = {"uart_live": ["uart_chip", "uart_events"]}
# Code that is longer is shown among the clauses alone, and arguments that are longer too.
LONG_CODE, LONG_ARGUMENTS = 80, 72

# How a clause that a definition is applied in begins: the words stand for the definition, and the language or doing is its argument.
ABOUT_CALLS = {
    "Made": "makes accesses as",
    "RingMade": "makes accesses as",
    "TerminalMade": "makes accesses as",
    "Did": "does as",
    "RingDid": "does as",
    "BusDid": "does as",
    "TerminalDid": "does as",
}
UNIQUE = {"IsOnly": "returns the one value for which", "IsOnlyIfAny": "returns the one value, if there is one, for which"}
# What a premise says of the result.
RETURNED = {
    "result ≡ true": "it returns `true`",
    "result ≡ false": "it returns `false`",
    "is_some result ≡ true": "it returns `Some`",
    "is_some result ≡ false": "it returns `None`",
}
OF_TRAIT = "What the proofs take each implementation to do. Nothing checks it of one that is written in Rust."
LENDS = "lends a part of it: what is changed there is changed here, and nothing else"
RESULT = ("result", "result.now")

# What binds names in a clause, which hide definitions of the same name.
BINDER = re.compile(r"\(([\w' ]+) : |λ ([\w' ]+)\.")
BOUND = re.compile(r"(\([\w' ]+ : [^()]*\) ?)+")
CLAUSE = re.compile(r"(requires|ensures\*?)(?: (\w+))? \{ ?(.*?) ?\}")
PATH = re.compile(r"[A-Za-z_][\w']*(\.[\w']+)*")
NUMBER = re.compile(r"0x[0-9A-F]+|[0-9]+")
PROPERTY = re.compile(r"\(λ (\w+)\. (.*)\)")
STAYS = re.compile(r"(\w+)\.new ≡ \1\.old")
BECOMES = re.compile(r"(\w+)\.new")
PART_OF_RESULT = re.compile(r"result(\.\w+)+|\w+")
ESCAPED = re.compile(r"(`[^`]*`)|([\[\]<>*|_\\])")
LINKED = re.compile(r"\[([^\]]*)\]\([^)]*::proved::[^)]*\)")
CLOSING = {"(": ")", "[": "]", "{": "}"}


# ---- the form of a clause


def parts(code: str, sign: str) -> list[str]:
    """The parts of a code between this sign, outside of brackets. Behind a `λ` there is none."""
    depth, found, at = 0, [], 0
    for i, letter in enumerate(code):
        depth += (letter in CLOSING) - (letter in CLOSING.values())
        if depth == 0 and letter == "λ":
            break
        if depth == 0 and letter == sign:
            found.append(code[at:i].strip())
            at = i + 1
    return [*found, code[at:].strip()]


def is_in_brackets(code: str) -> bool:
    return code.startswith("(") and code.endswith(")") and closing(code, 0) == len(code) - 1


def inside(code: str) -> str:
    """A code without the brackets around it, if they are not those of a tuple."""
    is_grouped = is_in_brackets(code) and len(parts(code[1:-1], ",")) == 1
    return inside(code[1:-1].strip()) if is_grouped else code


def closing(code: str, at: int) -> int | None:
    """The offset of the bracket that closes the one at this offset, or nothing."""
    depth = 0
    for i in range(at, len(code)):
        depth += (code[i] in CLOSING) - (code[i] in CLOSING.values())
        if depth == 0:
            return i
    return None


def applied(code: str) -> list[str] | None:
    """A function and its arguments, or nothing for what is no application of a name."""
    found, at = [], 0
    while at < len(code):
        if code[at] in CLOSING:
            end = closing(code, at)
            if end is None:
                return None
            end = end + 1 + len(match(r"(\.\w+)*", code[end + 1 :])[0])
        else:
            word = PATH.match(code, at) or NUMBER.match(code, at)
            end = word.end() if word else None
        if end is None or code[end : end + 1] not in ("", " "):
            return None
        found.append(code[at:end])
        at = end + 1
    return found if found and PATH.fullmatch(found[0]) else None


# ---- Markdown


def plain(words: str) -> str:
    """The words of a comment as Markdown: signs outside of code mean nothing."""
    return ESCAPED.sub(lambda found: found[1] or "\\" + found[2], words)


def own(definition: definitions.Definition) -> str:
    """The words of a definition, without the name of the call that they begin with."""
    return plain(re.sub(r"^`\w+`(, `\w+`)*: ", "", definition.words))


def module(name: str) -> str:
    return re.sub(r"(?<=[a-z0-9])(?=[A-Z])", "_", name).lower()


def link(place: Place, crate: str, words: str | None = None) -> str:
    """A link to the page of a definition."""
    of = "crate" if place[0] == crate else place[0]
    return f"[{words or f'`{place[2]}`'}]({of}::proved::{module(place[1])}#{place[2]})"


def shown(code: str) -> str:
    return f"`{code}`"


def sentence(text: str) -> str:
    """A text whose first word has a capital, also where it is a link."""
    return re.sub(r"\[?[a-z]", lambda found: found[0].upper(), text, count=1) if re.match(r"\[?[a-z]", text) else text


class Clauses:
    """The clauses of one function. `places` and `modules` are what its file names; names that it binds are none of them."""

    def __init__(self, crate: str, places: dict[str, Place], modules: dict[str, tuple[str, str]], known: dict[Place, definitions.Definition]) -> None:
        self.crate, self.places, self.modules, self.known = crate, places, modules, known
        # What was cited so far, and of what the words were said so far.
        self.cites, self.said = list[Place](), set[Place]()
        # Of the clause that is read: the names that mean definitions, what it cites, and how a text ends that ends with a definition.
        self.here, self.waiting, self.ends = dict[str, Place](), list[Place](), dict[Place, str]()

    def cited(self, code: str) -> list[Place]:
        return definitions.cited(code, self.here, self.modules, self.known)

    def read(self, code: str) -> tuple[str, list[Place]]:
        """A clause as a sentence, and the definitions that it cites and whose words are to be said."""
        bound = {name for group in BINDER.findall(code) for name in " ".join(group).split()}
        self.here = {name: place for name, place in self.places.items() if name not in bound}
        self.waiting, self.ends = [], {}
        self.cites += [place for place in self.cited(code) if place not in self.cites]
        text = self.statement(code)
        waiting = [place for place in dict.fromkeys(self.waiting) if place not in self.said]
        self.said.update(waiting)
        return text, waiting

    def line(self, code: str) -> tuple[str, list[str]]:
        """What a function promises, and the lines about what this cites."""
        text, waiting = self.read(code)
        last = next((place for place in waiting if text.endswith(self.ends.get(place, "\n"))), None)
        text += f": {own(self.known[last])}" if last else ""
        return text, [f"{link(place, self.crate)}: {own(self.known[place])}" for place in waiting if place != last]

    def condition(self, code: str) -> str:
        """What a function requires, with the words of what it cites in brackets."""
        text, waiting = self.read(code)
        return " ".join([text, *(f"({own(self.known[place])})" for place in waiting)])

    # The parts of a clause. What they cite is put into `waiting`.

    def statement(self, code: str) -> str:
        *premises, last = parts(code, "→")
        names = [name for one in premises if BOUND.fullmatch(one) for group in BINDER.findall(one) for name in group[0].split()]
        premises = [one for one in premises if not BOUND.fullmatch(one)]
        is_denied = last == "⊥" and bool(premises)
        last = premises.pop() if is_denied else last
        when = f"for each {' and '.join(map(shown, names))}: " if names else ""
        when += self.when(premises)
        return when + (f"it is not so that {self.premise(last)}" if is_denied else self.conclusion(last))

    def when(self, premises: list[str]) -> str:
        """How a sentence with these premises begins."""
        if not premises:
            return ""
        denied = parts(inside(premises[0]), "→")
        if len(premises) == 1 and len(denied) == 2 and denied[1] == "⊥":
            return f"unless {self.premise(denied[0])}: "
        return f"if {', and '.join(map(self.premise, premises))}: "

    def premise(self, code: str) -> str:
        code = inside(code)
        if code in RETURNED:
            return RETURNED[code]
        if len(parts(code, "→")) > 1:
            return self.code(code)
        joined = [(sign, word) for sign, word in (("⊎", "or"), ("×", "and")) if len(parts(code, sign)) > 1]
        if joined:
            sign, word = joined[0]
            found = parts(code, sign)
            if len(joined) > 1 or any(BOUND.fullmatch(one) for one in found):
                return self.code(code)
            return f" {word} ".join(self.premise(one) for one in found)
        sides = parts(code, "≡")
        if len(sides) == 2 and sides[0] in RESULT:
            return f"it returns {self.term(sides[1])}"
        return self.term(code)

    def conclusion(self, code: str) -> str:
        code = inside(code)
        if code.startswith("sem 𝓛 (Lends "):
            return LENDS
        both = parts(code, "×")
        if len(both) > 1 and len(parts(code, "⊎")) == 1 and not any(BOUND.fullmatch(one) for one in both):
            return ", and ".join(self.conclusion(one) for one in both)
        if len(parts(code, "⊎")) > 1 or len(both) > 1:
            return self.code(code)
        sides = parts(code, "↔")
        if len(sides) == 2 and sides[0] == "IsTrue result":
            return f"it returns `true` exactly if {self.premise(sides[1])}"
        sides = parts(code, "≡")
        if len(sides) == 2:
            return self.equal(code, *sides)
        found = applied(code)
        return self.application(code, found) if found else self.term(code)

    def equal(self, code: str, left: str, right: str) -> str:
        stays, becomes = STAYS.fullmatch(code), BECOMES.fullmatch(left)
        if stays:
            return "nothing changes" if stays[1] == "self" else f"`{stays[1]}` stays as it was"
        if left in RESULT:
            return f"returns {self.term(right)}"
        if left == "is_some result":
            return f"returns `Some` exactly if {self.term(right)}"
        if becomes:
            return f"`{becomes[1]}` becomes {self.term(right)}"
        if PART_OF_RESULT.fullmatch(left):
            return f"`{left}` is {self.term(right)}"
        return self.code(code)

    def application(self, code: str, found: list[str]) -> str:
        """A fact of a name with a meaning of its own, or of any other."""
        head, *arguments = found
        name = head.split(".")[-1]
        place = next(iter(self.cited(head)), None)
        if place and name in ABOUT_CALLS and arguments[2:] == ["self.old", "self.new"]:
            return f"{link(place, self.crate, ABOUT_CALLS[name])} {self.term(inside(arguments[1]))}"
        if place and name in UNIQUE and arguments[1:] == ["result"]:
            return f"{link(place, self.crate, UNIQUE[name])} {self.term(inside(arguments[0]))}"
        if head == "step" and arguments[0] == "self.old" and arguments[2:] == ["self.new"]:
            return f"makes this one access: {shown(inside(arguments[1]))}"
        if head == "IsOk" and arguments == ["result"]:
            return "returns `Ok`"
        if head == "IsOkUnless" and arguments[0] == "result":
            return f"returns `Ok`, or `Err` of {self.term(inside(arguments[1]))}"
        if head in ("IfOk", "IfErr", "OnErr") and arguments[0] == "result":
            return self.of_result("Ok" if head == "IfOk" else "Err", head, arguments[1])
        return self.term(code)

    def of_result(self, case: str, head: str, code: str) -> str:
        """What holds of a result of this case."""
        found = PROPERTY.fullmatch(code)
        if found:
            return f"if it returns `{case} {found[1]}`: {self.statement(found[2])}"
        if head == "OnErr":
            return f"if it returns `{case}`: {self.conclusion(code)}"
        return f"if it returns `{case}`, for its value {self.term(inside(code))}"

    def term(self, code: str) -> str:
        """A value or a fact: a definition and what it is applied to, or else the code."""
        found = applied(code)
        if found and len(found) == 2 and found[0] in ("Ok", "Err", "Some") and self.applies(inside(found[1])):
            return f"{shown(found[0])} of {self.term(inside(found[1]))}"
        place = next(iter(self.cited(found[0])), None) if found else None
        if not found or not place or found[0].count(".") > 1 or not found[0].endswith(place[2]):
            return self.code(code)
        self.waiting += [place, *self.cited(" ".join(found[1:]))]
        arguments = " ".join(found[1:])
        text = link(place, self.crate)
        text += f" {shown(arguments)}" if arguments and len(arguments) <= LONG_ARGUMENTS else ""
        self.ends[place] = text
        return text

    def applies(self, code: str) -> bool:
        """Whether a code is a definition that is applied to something."""
        found = applied(code)
        return found is not None and len(found) > 1 and bool(self.cited(found[0]))

    def code(self, code: str) -> str:
        """A code, or where it is if it is long."""
        self.waiting += self.cited(code)
        return shown(code) if len(code) <= LONG_CODE else "what the clause beneath says"


class Promises:
    """The sections of all files, and what they cite."""

    def __init__(self, root: pathlib.Path, crates: list[str]) -> None:
        self.definitions = definitions.read(root, tuple(crates))
        self.cites = dict[Place, str]()

    def edits(self, file: File) -> list[Edit]:
        """The sections of a file."""
        crate = file.name.split("/")[0]
        if not file.ships or crate in table.HIDDEN_IN:
            return []
        places, modules = definitions.imported(file.text)
        hidden = {match(r"ghost (\w+)", token.text)[1] for token in file.code if token.kind == "ghost"}
        places = {name: place for name, place in places.items() if name not in hidden}
        found = []
        for form, indent, at in functions(file):
            signature = file.words(form.start, form.behind)
            own_places = {name: place for name, place in places.items() if not re.search(rf"\b{re.escape(name)} : ", signature)}
            clauses = Clauses(crate, own_places, modules, self.definitions.known)
            lines = section(form, clauses)
            for place in clauses.cites:
                self.cites.setdefault(place, form.path)
            text = "".join(f"{indent}///{' ' * bool(line)}{line}\n" for line in lines)
            found.append(Edit("promise", at, at, text))
        return found

    def causes(self) -> Iterator[str]:
        """What reads badly at a call: a comment that is not about the one definition that the call cites."""
        for place, path in self.cites.items():
            one = self.definitions.known[place]
            if one.shares or not one.words:
                yield f"{definitions.path_of(place)}:{one.line}: a clause of {path} cites `{place[2]}`, which has no comment of its own"

    def page(self, crate: str, about: str) -> str:
        """The file `proved.rs` of a crate, of which is said what it is: a module for each file of specs/, with what clauses cite of it; or
        nothing."""
        members: dict[str, list[definitions.Definition]] = {}
        for place, one in self.definitions.known.items():
            if place in self.cites and place[0] == crate:
                members.setdefault(place[1], []).append(one)
        shows = [line for one in SHOWS.get(crate, ()) for line in ("", "#[doc(inline)]", f"pub use {one}::proved as of_{one.removeprefix('uart_')};")]
        if not members:
            return ""
        head = [f"Definitions of `{crate}`: {about}.", "", *(GUIDE if crate == GUIDES else OTHER_GUIDE).split("\n")]
        text = [f"//! {line}".rstrip() for line in head] + shows
        for name, found in members.items():
            text += ["", *(f"/// {line}".rstrip() for line in self.module(crate, name, found))]
            aliases = [one.place[2] for one in found if one.place[2] != module(name)]
            if aliases:
                text.append("#[doc(alias({}))]".format(", ".join(f'"{alias}"' for alias in aliases)))
            text.append(f"pub mod {module(name)} {{}}")
        return "\n".join(text) + "\n"

    def module(self, crate: str, name: str, found: list[definitions.Definition]) -> list[str]:
        """The lines of the page of a file of specs/."""
        lines = [plain(self.definitions.headings[crate, name]), "", f"From `{definitions.path_of((crate, name))}`."]
        for one in found:
            lines += ["", f'<span id="{one.place[2]}"></span>', "", f"# `{one.place[2]}`", "", sentence(plain(one.words)) + "."]
            lines += ["", "```text", *one.text.split("\n"), "```"]
            if one.uses:
                lines += ["", f"It uses {self.uses(one, crate)}."]
        return lines

    def uses(self, definition: definitions.Definition, crate: str) -> str:
        """The names that a definition uses: links, and then those that have no page, by file."""
        linked = [link(place, crate) for place in definition.uses if place in self.cites]
        files: dict[str, list[str]] = {}
        for place in definition.uses:
            if place not in self.cites:
                file = "this file" if place[:2] == definition.place[:2] else f"`{definitions.path_of(place)}`"
                files.setdefault(file, []).append(f"`{place[2]}`")
        return "; ".join([", ".join(linked)] * bool(linked) + [f"{', '.join(names)} of {file}" for file, names in files.items()])


def functions(file: File) -> Iterator[tuple[Form, str, int]]:
    """Each public function with clauses and documentation: its form, its indent, and where its documentation ends. What is in an `impl` of
    a trait has the documentation of the trait."""
    for form in file.forms:
        is_open = form.visibility == "pub" or (form.owner or "").startswith("trait ")
        if not form.clauses or not is_open:
            continue
        first = file.code[form.first].start
        line = file.text.rfind("\n", 0, first) + 1
        at = behind_documentation(file.text, line)
        if at is not None:
            yield form, file.text[line:first], at


def behind_documentation(text: str, at: int) -> int | None:
    """Where the documentation ends that is above a line, or above comments that are above it; nothing if there is none."""
    while at > 0:
        above = text.rfind("\n", 0, at - 1) + 1
        line = text[above:at].strip()
        if line.startswith("///"):
            return at
        if not line.startswith("//"):
            return None
        at = above
    return None


def section(form: Form, clauses: Clauses) -> list[str]:
    """The lines of a section."""
    requires, ensures = [], []
    for one in form.clauses:
        found = CLAUSE.fullmatch(one)
        assert found
        kind, name, code = found.groups()
        if kind == "requires":
            requires.append(clauses.condition(code))
            continue
        text, more = clauses.line(code)
        ensures.append(f"- *{name}*: {text}." if name else f"- {sentence(text)}.")
        ensures += [f"  - {line}." for line in more]
    if (form.owner or "").startswith("trait "):
        lines = ["", "# To be kept by an implementation", "", OF_TRAIT, ""]
    else:
        lines = ["", "# Proved", ""]
    if requires:
        lines += [f"If {', and '.join(requires)}:", ""]
    guide = f"({'crate' if clauses.crate == GUIDES else GUIDES}::proved)"
    lines += [*ensures, "", "<details><summary>The clauses</summary>", "", f"[How to read them]{guide}:", ""]
    return lines + ["```text", *form.clauses, "```", "", "</details>"]


GUIDE = """Each is one that a section "Proved" of a call names. The text and the comments are those of `crates/*/specs`, where the contracts are.

How is a section read? It has a line for each clause of the call's contract, which the prover has checked against the body of the call. What
a section does not say is not promised. A name that is a link is a definition: its page has the definition itself, and the words behind it
are the comment there. The clauses stand beneath, word by word.

| in a clause | is |
|---|---|
| `result` | what the call returns |
| `x.now` | the value behind a reference |
| `x.old`, `x.new` | the values behind a mutable reference, or of `self`, before and after the call |
| `≡`, `≢` | equal, not equal |
| `×`, `⊎`, `→`, `↔`, `⊥` | and, or, if .. then, exactly if, never |
| `λ x. P` | what `P` says of an `x` |
| `(x : T) → P` | `P` for each `x` of this type |
| `(x : T) × P` | `P` for some `x` of this type |
| `IfOk result P`, `IfErr result P` | if the result is `Ok`, or `Err`, `P` of its value |
| `[]`, `∷`, `++` | an empty list, an item in front of a list, two lists in a row |
| `length`, `take n`, `drop n` | of a list: its length, its first `n` items, all but these |

What is trusted beside the prover is said by `docs/RUST.md` of the repository."""
OTHER_GUIDE = """Each is one that a section "Proved" of a call names. How a section is read is said [here](uart_spec::proved)."""
