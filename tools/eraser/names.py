"""Refuses names that mean one thing in Rattle and another in the emitted crates."""
import pathlib
import re

from items import File, Tables

ROOT = pathlib.Path(__file__).resolve().parent.parent.parent


def causes(files: list[File], allow: Tables) -> list[str]:
    """What is wrong with the names of these files."""
    found, own, traits = list[str](), {name for file in files for name in file.types}, {name for file in files for name in file.traits}
    for file in files:
        found += heads(file, allow) + for_others(file, own, traits)
    by_hand = methods_by_hand(allow, own)
    for name in sorted(({name for file in files for name in of_traits(file)} & by_hand.keys()) - allow.IN_BOTH.keys()):
        found.append(f"{by_hand[name]}: `{name}`, by hand in a type and of a trait of the emitted crates: Rust calls the first")
    return found


def reserved(allow: Tables) -> set[str]:
    """The heads of paths that are the names of crates."""
    return {*allow.CRATES, *allow.LIBRARIES, "core", "std", "alloc"}


def heads(file: File, allow: Tables) -> list[str]:
    """Each name of a crate in the code of a file is the head of a path: a module or an item with this name would hide the crate in Rust."""
    names, found = reserved(allow), []
    for at, token in enumerate(file.code):
        if token.kind != "word" or token.text not in names or is_parameter(file, at):
            continue
        before, after = file.word(at - 1), file.word(at + 1)
        is_head = before not in ("::", ".") and (after == "::" or before == "use")
        if before in ("struct", "enum", "type", "trait", "mod", "union", "as") or not is_head and before != "::":
            found.append(f"crates/{file.name}: refused: `{token.text}`, the name of a crate, for something else")
    return found


def for_others(file: File, types: set[str], traits: set[str]) -> list[str]:
    """Each own trait that is implemented for a type that is no own one. Rust takes a method of such a type before the one of a trait."""
    found = []
    for at, token in enumerate(file.code):
        if token.text != "impl" or token.kind != "word":
            continue
        opened = next(one for one in range(at, len(file.code)) if file.word(one) in ("{", ";"))
        words = [file.word(one) for one in range(file.behind_generics(at + 1), opened)]
        if "for" not in words:
            continue
        split = words.index("for")
        trait = words[: words.index("<") if "<" in words[:split] else split][-1]
        of = words[split + 1 :]
        head = of[: of.index("<") if "<" in of else of.index("where") if "where" in of else len(of)]
        if trait in traits and (not head or head[-1] not in types):
            found.append(f"crates/{file.name}: refused: `{trait}`, a trait of ours for a type of Rust's: {' '.join(of)}")
    return found


def is_parameter(file: File, at: int) -> bool:
    """Whether this is `alloc`, a parameter, which is no head of a path."""
    return file.word(at) == "alloc" and file.word(at + 1) != "::" and file.word(at - 1) not in ("mod", "struct", "enum", "trait", "type", "use")


def of_traits(file: File) -> set[str]:
    """The names of what a trait of this file has."""
    found, at = set(), 0
    while at < len(file.code):
        if file.word(at) != "trait" or file.kind(at) != "word":
            at += 1
            continue
        opened = at
        while file.word(opened) not in ("{", ";") and opened < len(file.code):
            opened += 1
        close = file.closing(opened) if file.word(opened) == "{" else opened
        found |= {file.word(one + 1) for one in range(opened, close) if file.word(one) in ("fn", "const") and file.word(one + 1) != "fn"}
        at = close + 1
    return found


def methods_by_hand(allow: Tables, own: set[str], root: pathlib.Path = ROOT) -> dict[str, str]:
    """The functions that files by hand put into these types, or by a macro into any, by name, with their file."""
    found: dict[str, str] = {}
    for path in sorted((root / allow.OUTPUT).rglob("*.rs")):
        name = path.relative_to(root / allow.OUTPUT)
        if is_test(name) or not is_by_hand(name):
            continue
        text = re.sub(r"(?m)//.*$", "", path.read_text(encoding="utf-8"))
        for block in re.finditer(r"(?m)^( *)impl\b(?:<[^{]*?>)? +([$\w:]+)([^{]*)\{.*?^\1\}", text, re.DOTALL):
            name = block[2].split("::")[-1]
            if not re.search(r"\bfor\b", block[3]) and (name in own or name.startswith("$")):
                for function in re.findall(r"\bfn (\w+)", block[0]):
                    found.setdefault(function, str(path.relative_to(root)))
    return found


def is_by_hand(path: pathlib.Path) -> bool:
    """Whether a file below the emitted folder is by hand, in an emitted crate: `by_hand.rs`, or one in a folder of that name."""
    return path.name == "by_hand.rs" or "by_hand" in path.parts


def is_test(path: pathlib.Path) -> bool:
    """Whether a file below the emitted folder is a test by hand, as `uart_ring/tests/calls.rs`. For cargo each is a crate of its own, which
    sees what the package exports and changes nothing in it."""
    return len(path.parts) > 2 and path.parts[1] == "tests"
