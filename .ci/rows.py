"""The promises that stand in comments at their first law, with what shows them: the rows of docs/EVIDENCE.md.

At a function the comment is the first below its signature, where the eraser drops comments:

    // promise: what is promised, in the words of the page
    // with: clauses of this function, further laws, and parts of definitions that say it
    // shown by: tests, scripts, sessions, programs
    // refused: wrong bodies, of this crate or as CRATE/NAME

In specs/ it stands above the comment of a definition, with an empty line behind it, and `with` names all that says it. A line that goes
on has three blanks behind its sign. If `with` names nothing of the function itself, the whole function says it.

What is proved beyond that, of a function or of a part of its contract, stands there too:

    // proved: what is proved, in a sentence
    // on: the contracts that say it, in Markdown
"""
import functools
import pathlib
import re
import subprocess
from typing import NamedTuple

TOP = pathlib.Path(__file__).resolve().parent.parent
KEYS = ("promise", "proved", "on", "with", "shown by", "refused")
BLOCK = re.compile(r"^ *(?P<sign>//|--) (?:promise|proved): .*\n(?:^ *(?P=sign)(?:   .*| (?:on|with|shown by|refused): .*)\n)*", re.M)
ENTRY = re.compile(rf"(?:^|(?<=\n))({'|'.join(KEYS)}): ")
SIGNATURE = re.compile(r'^ *(?:pub(?:\([a-z]+\))? )?(?:const )?(?:unsafe )?(?:extern "C" )?fn (\w+)', re.M)


class Row(NamedTuple):
    """A promise: what it says, the laws that say it, the tests that show it, and the wrong bodies that are refused for it."""

    kind: str
    promise: str
    names: list[str]
    shown: list[str]
    refused: list[str]
    on: str
    path: str

    def crate(self) -> str:
        """The crate where it stands."""
        return self.path.split("/")[1]


class Wrong(Exception):
    """A comment that is no row."""


def listed(text: str) -> list[str]:
    """The names of a list."""
    return [one for one in re.split(r",\s*", text.strip()) if one]


def entries(block: str) -> dict[str, str]:
    """What a comment says, by its words."""
    lines = [re.sub(r"^ *(?://|--) ", "", line) for line in block.rstrip("\n").split("\n")]
    found = ENTRY.split("\n".join(lines))[1:]
    return {key: " ".join(text.split()) for key, text in zip(found[::2], found[1::2])}


def row(block: re.Match[str], text: str, path: str) -> Row:
    """The row of a comment in a file."""
    told = entries(block[0])
    kind = "promise" if "promise" in told else "proved"
    names, own = listed(told.get("with", "")), ""
    if path.endswith(".rt"):
        above = [one for one in SIGNATURE.finditer(text, 0, block.start())]
        if not above:
            raise Wrong(f"{path}: a promise that stands at no function: {told[kind][:60]}")
        own = above[-1][1]
        names = names if any(name.split(".")[0] == own for name in names) else [own, *names]
    if not names and kind == "promise":
        raise Wrong(f"{path}: a promise in specs/ names what says it, behind 'with': {told[kind][:60]}")
    return Row(kind, told[kind], names, listed(told.get("shown by", "")), listed(told.get("refused", "")), told.get("on", ""), path)


def sources(crate: str) -> list[str]:
    """The files of a crate in which promises may stand: its laws first."""
    found = sorted(str(path.relative_to(TOP)) for path in (TOP / "crates" / crate).rglob("*") if path.suffix in (".rt", ".antt"))
    kept = [path for path in found if path.split("/")[2] in ("src", "specs")]
    return sorted(kept, key=lambda path: (not path.endswith("/laws.rt"), path.split("/")[2] == "specs", path))


@functools.cache
def of_crate(crate: str) -> tuple[Row, ...]:
    """The rows of a crate, in the order of its files."""
    found = []
    for path in sources(crate):
        text = (TOP / path).read_text(encoding="utf-8")
        found += [row(block, text, path) for block in BLOCK.finditer(text)]
    return tuple(found)


def without(comment: str) -> str:
    """A comment without the rows in it."""
    return BLOCK.sub("", comment)


@functools.cache
def tests() -> dict[str, list[str]]:
    """Where each test, script and session is."""
    found: dict[str, list[str]] = {}
    listed_files = subprocess.run(
        ["git", "-C", str(TOP), "ls-files", "crates", "rust", "examples", "integration", "tools"], capture_output=True, text=True, check=True
    )
    for path in listed_files.stdout.split("\n"):
        name = path.rsplit("/", 1)[-1]
        if name.endswith((".script", ".session")):
            found.setdefault(name.rsplit(".", 1)[0], []).append(path)
        elif path.endswith((".rs", ".rt")) and "/src/proofs" not in path and (TOP / path).exists():
            text = (TOP / path).read_text(encoding="utf-8")
            for one in re.findall(r"#\[test\]\s*(?:#\[[^\]]*\]\s*)*(?:pub )?fn (\w+)", text):
                found.setdefault(one, []).append(path)
    return found


@functools.cache
def gate() -> str:
    """The commands of the gate."""
    return (TOP / ".ci/run.py").read_text(encoding="utf-8")


def is_run(name: str, crate: str) -> bool:
    """Whether the gate runs a test, a script, a session or a program. Scripts and sessions it plays all, and so are all tests run, but
    those that cargo is told to leave out."""
    path = place_of_test(name, crate)
    if path == name:
        return f'"{name}' in gate()
    text = (TOP / path).read_text(encoding="utf-8")
    return not re.search(rf"#\[ignore[^]]*\]\s*(?:#\[[^\]]*\]\s*)*(?:pub )?fn {name}\b", text)


def place_of_test(name: str, crate: str) -> str:
    """Where a test is, or a program that shows something: of several, that of the crate."""
    if "/" in name and (TOP / name).exists():
        return name
    found = tests().get(name)
    if not found:
        raise Wrong(f"no test, script, session or program is called {name}")
    return min(found, key=lambda path: (crate not in path, not path.startswith("rust/proved"), path))
