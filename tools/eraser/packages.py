"""The package of each emitted crate: its Cargo.toml, and what its root begins with."""
import pathlib
from collections.abc import Iterator

import examples
import table
from items import match

VERSION = "0.11.0-dev"
# Where the repository is, and its pages: the one place to set it, beside the manifests by hand, which `erase check` compares with it. Nobody
# can have this address, and `rust/for_release.py` makes no release with it.
REPOSITORY = HOMEPAGE = "https://geesetrunk.invalid"
# What shipped code needs of Rust, and what the programs do.
RUST = {True: "1.85", False: "1.87"}
KIT, KIT_OF_RINGS = "geesetrunk-kit", "geesetrunk-kit_of_rings"
FOLDERS = {KIT: "../../kit", KIT_OF_RINGS: "../../kit_of_rings"}
KEYWORDS = '["uart", "serial", "16550", "no_std", "verified"]'
CATEGORIES = '["embedded", "hardware-support", "no-std"]'
# The macros of std that are not those of Rust. A package takes these from the kit by name, so that no other macro of it has the place of
# one of Rust's, as of `assert`.
MACROS = {KIT: "format, format_fields, vec", KIT_OF_RINGS: "format_fields, vec"}
ALLOWED = "unused_imports, unused_labels, unused_parens, unused_braces, dead_code, clippy::all, clippy::pedantic"
WHY = "the text is that of the proved source, in the forms that Rattle has"


# What a package says of its targets that is not for users, by whether it is also for the page.
WIDTHS = {False: 'usize::BITS == 64, "what is not for users is for targets of 64 bits"', True: 'usize::BITS >= 32, "a script has up to 65,536 bytes"'}


class Crates:
    """What crates.txt says: which crates each one uses, and what it is."""

    def __init__(self, text: str) -> None:
        self.uses, self.about, about = {}, {}, ""
        for line in text.splitlines():
            if line.startswith("#"):
                about = line[1:].strip()
            elif ":" in line:
                head, used = line.split(":")
                self.uses[head.split()[0]], self.about[head.split()[0]] = used.split(), about


def crates(root: pathlib.Path) -> Crates:
    return Crates((root / "crates.txt").read_text(encoding="utf-8"))


def package(crate: str) -> str:
    return f"geesetrunk-proved-{crate}"


def libraries(crate: str, uses: list[str]) -> Iterator[tuple[str, str]]:
    """The libraries that a crate uses, each with the package that has it."""
    for name in ["std", *(one for one in table.LIBRARIES if one in uses)]:
        yield name, KIT_OF_RINGS if crate == table.OF_RINGS and name == "std" else KIT


def dependency(name: str, **entries: str) -> str:
    inside = ", ".join(f"{key} = {value}" for key, value in entries.items())
    return f"{name} = {{ {inside} }}\n"


def quoted(text: str) -> str:
    return f'"{text}"'


def manifest(crate: str, crates: Crates) -> str:
    """Cargo.toml of a crate."""
    uses, ships = crates.uses[crate], crate in table.SHIPS
    has_io = crate in table.EMBEDDED_IO
    text = "# Made by `tools/eraser/erase emit` from crates.txt. Do not edit.\n\n[package]\n"
    text += f'name = "{package(crate)}"\nversion = "{VERSION}"\nedition = "2024"\nrust-version = "{RUST[ships]}"\n'
    text += f'description = "Part of geesetrunk, and no interface: {crates.about[crate]}"\nlicense = "MIT OR Apache-2.0"\n'
    text += for_registries(crate) if ships else "publish = false\n"
    text += f'\n[lib]\nname = "proved_{crate}"\n'
    text += features(crate, uses)
    text += "\n[dependencies]\n"
    for name in dict.fromkeys(one for _, one in libraries(crate, uses)):
        on = {} if ships else {"features": '["std"]'}
        text += dependency(name, path=quoted(FOLDERS[name]), version=quoted(f"={VERSION}"), **on)
    for name in uses:
        if name in table.CRATES:
            on = {"features": '["exhaustive"]'} if crate in table.NAME_EACH and name in table.GROWING else {}
            text += dependency(name, package=quoted(package(name)), path=quoted(f"../{name}"), version=quoted(f"={VERSION}"), **on)
    if has_io:
        text += dependency("embedded-io", version=quoted("0.7"), optional="true")
    return text + for_tests(crate)


def for_registries(crate: str) -> str:
    """What the pages of registries show of a package that is published, and what is in it. Its tests are not: what they are compiled with is
    left out of what is published."""
    text = f'repository = "{REPOSITORY}"\nhomepage = "{HOMEPAGE}"\ndocumentation = "https://docs.rs/{package(crate)}"\n'
    text += f'keywords = {KEYWORDS}\ncategories = {CATEGORIES}\nreadme = "../../PART.md"\n'
    return text + f'include = ["/src", {quoted("/" + examples.SHARED_NAME) + ", " if crate in examples.SHARED else ""}"/LICENSE-*"]\n'


def features(crate: str, uses: list[str]) -> str:
    """The features of a crate."""
    lines = []
    if crate in table.EMBEDDED_IO:
        below = [quoted(f"{one}/embedded-io") for one in uses if one in table.EMBEDDED_IO]
        lines.append(f"embedded-io = [{', '.join([quoted('dep:embedded-io'), *below])}]\n")
    if crate in table.GROWING:
        lines += ["# For this repository's own packages, of the same version: a match names each case of an error.\n", "exhaustive = []\n"]
    return "".join(["\n[features]\n", *lines]) if lines else ""


def for_tests(crate: str) -> str:
    """What the examples and the tests of a crate are compiled with. Without a version, cargo leaves it out of what is published."""
    found = []
    if crate in examples.SHARED:
        facade, name, _ = examples.SHARED[crate]
        found.append(dependency(name, package=quoted(f"geesetrunk-{facade}"), path=quoted(f"../../{facade}")))
    for name in table.OF_TESTS.get(crate, []):
        found.append(dependency(name, package=quoted(package(name)), path=quoted(f"../{name}")))
    if crate in table.MAKE_RINGS:
        found.append(dependency(KIT_OF_RINGS, path=quoted(FOLDERS[KIT_OF_RINGS]), features='["alloc"]'))
    head = "\n# For the examples of the documentation, which name the package that users name, and for the tests.\n[dev-dependencies]\n"
    return head + "".join(found) if found else ""


def root(crate: str, crates: Crates, text: str) -> str:
    """The root of a crate, of which the eraser left this: attributes and libraries stand behind its documentation."""
    documentation = match(r"(?://![^\n]*\n)*", text)[0]
    lines = ["#![no_std]", "#![forbid(unsafe_code)]", f'#![allow({ALLOWED}, reason = "{WHY}")]', "#![allow(rustdoc::broken_intra_doc_links)]", ""]
    if crate not in table.SHIPS:
        lines += [f"const _: () = assert!({WIDTHS[crate in table.OF_THE_PAGE]});", ""]
    for name, of in libraries(crate, crates.uses[crate]):
        lines += [f"#[macro_use({MACROS[of]})]"] * (name == "std") + [f"extern crate {of.replace('-', '_')} as {name};"]
    return documentation + "\n".join(lines) + "\n\n" + text[len(documentation) :].lstrip("\n")
