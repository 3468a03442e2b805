"""The emitted packages as one crate, a module for each, so that what is private in them can be compared too. Paths are the only code that
changes: what is the head of a path in a package, its own or that of another one, is a module here. Documentation is left out: it quotes
contracts, whose signs are not ASCII."""
import pathlib
import re
from collections.abc import Iterator

# What emitted code names in place of a library, and the module that has it here; that of the rings has other queues.
KIT = dict.fromkeys(["std", "bitflags", "arrayvec", "circular_buffer"], "crate::kit")
OF_RINGS = {**KIT, **dict.fromkeys(["std", "circular_buffer"], "crate::kit_of_rings")}
ROOT = "#![allow(warnings)]\nextern crate alloc;\nextern crate alloc as heap;\npub mod compared;\npub mod kit;\npub mod kit_of_rings;\npub mod mir;\n"
ROOT += "pub mod numbers;\npub mod proved;\npub mod run;\n"


def files(folder: pathlib.Path, target: pathlib.Path, heads: dict[str, str]) -> Iterator[tuple[pathlib.Path, str]]:
    """The files of a package below another folder, with other heads of paths."""
    for path in sorted(folder.rglob("*.rs")):
        if path.name == "tests.rs":
            continue
        name = path.relative_to(folder)
        yield target / ("mod.rs" if str(name) == "lib.rs" else name), rewritten(undocumented(path.read_text(encoding="utf-8")), heads)


def undocumented(text: str) -> str:
    """A text without the lines of its documentation."""
    return re.sub(r"(?m)^ *//[/!].*\n", "", text)


def rewritten(text: str, heads: dict[str, str]) -> str:
    text = re.sub(r"(?m)^(#!\[.*\]|#\[macro_use\(.*\)\]|extern crate .*;|#\[cfg\(.*\)\]\nextern crate .*;|#\[cfg\(test\)\]\nmod tests;)\n", "", text)
    # The macros of the kit are those of std here, but for two.
    text = re.sub(r"(?ms)^(?:///[^\n]*\n)*#\[macro_export\]\n.*?^\}\n", "", text)
    text = text.replace("format_fields!", "::core::format_args!").replace("format_fields, ", "")
    text = re.sub(r"\bvec!\[in ([^;\]]+); ([^;\]]+); ([^;\]]+)\]", r"std::filled(\1, \2, \3)", text)
    for head, to in heads.items():
        text = re.sub(rf"(?<![\w:.$]){head}(?=::| as )", to, text)
    return text


def texts(root: pathlib.Path, target: pathlib.Path, crates: list[str]) -> Iterator[tuple[pathlib.Path, str]]:
    """All files of the crate but what is written beside them, with their text."""
    rust = root / "rust"
    yield from files(rust / "kit" / "src", target / "kit", {"crate": "crate::kit"})
    yield from files(rust / "kit_of_rings" / "src", target / "kit_of_rings", {"crate": "crate::kit_of_rings", "geesetrunk_kit": "crate::kit"})
    for name in crates:
        heads = {"crate": f"crate::proved::{name}", **{one: f"crate::proved::{one}" for one in crates}}
        yield from files(rust / "proved" / name / "src", target / "proved" / name, {**heads, **(OF_RINGS if name == "uart_ring" else KIT)})
    yield target / "proved" / "mod.rs", "".join(f"pub mod {name};\n" for name in crates)
    yield target / "lib.rs", ROOT
