"""What is by hand around the emitted packages: nothing there may change what the emitted code means."""
import os
import pathlib
import re
import tomllib
from collections.abc import Iterator
from typing import Any

import below
import names
import packages
import table

# Packages by hand that an emitted one is compiled with or under, each with the packages of this repository that it uses, by the names that
# it gives them.
UNDER = below.KITS
OVER = ["rust/uart_16550", "rust/uart_16550_chip"]
OF_KIT = {packages.KIT: packages.KIT, packages.KIT_OF_RINGS: packages.KIT_OF_RINGS}
USES: dict[str, dict[str, str]] = {
    "rust/kit": {},
    "rust/kit_of_rings": {packages.KIT: packages.KIT},
    "rust/uart_16550": {
        **OF_KIT,
        "uart_spec": "uart_spec",
        "uart_original": "uart_original",
        "uart_driver": "uart_16550",
        "uart_design_ware": "uart_design_ware",
        "uart_rs485": "uart_rs485",
        "uart_ring": "uart_ring",
        "uart_waits": "uart_waits",
        "uart_discovery": "uart_discovery",
    },
    "rust/uart_16550_chip": {packages.KIT: packages.KIT, **{name: name for name in ("uart_spec", "uart_live", "uart_virtual")}},
}
# What would take the place of a file, a module or a package of ours in the users' packages, whose examples alone read another file.
ELSEWHERE = re.compile(r"#!?\[\s*(path)\b|\b(include)\s*!|\bmod\s+(\w+)|\bas\s+(\w+)")
# Which compiler is used. It is what the machine has.
TOOLCHAIN = ["rust-toolchain", "rust-toolchain.toml"]
ODD = re.compile(r"\b(macro_use|no_implicit_prelude|register_tool|no_core|extern\s+crate)\b|#!?\[\s*(path)\b|\b(feature)\s*\(")
# Attributes that disable code by hand on some target, or let it be what Rust refuses.
CONDITION = re.compile(r"#!?\[\s*(cfg|cfg_attr|allow|expect)\b\s*(\([^\n]*\))")
CONDITIONS = ['(feature = "embedded-io")']
# What Cargo.toml may have: nothing that changes how the library is compiled.
PACKAGE = """
name version edition rust-version description keywords categories license readme include repository homepage documentation authors
publish metadata
""".split()
# What it says as the emitted ones do.
COMMON = {"version": packages.VERSION, "repository": packages.REPOSITORY, "homepage": packages.HOMEPAGE}
SECTIONS = ["package", "lib", "features", "dependencies", "dev-dependencies"]
# The workspace: stand-ins for five libraries, and profiles that change how fast a program is, and not what it does.
WORKSPACE = ["workspace", "patch", "profile"]
# What a profile inherits is cargo's own, or that of another profile here, of which the same is asked.
PROFILE = ["codegen-units", "debug", "incremental", "inherits", "lto", "opt-level", "panic", "strip"]
STAND_INS = {name: {"path": f"rust/uart_16550/tests/{name}"} for name in ("embedded-io", "embedded-io-async")}
STAND_INS["serde"] = {"path": "rust/uart_16550_chip/tests/serde"}
# Of a package beside these, which no emitted one is compiled with.
STAND_INS |= {name: {"path": f"rust/uart_16550_vmm/tests/{name}"} for name in ("vm-superio", "vm-device")}
# In .cargo/config.toml: that cargo asks no index; and below a package that uses one of Debian's, that they are in place of the index.
# What a file of Cargo has: tables, lists and values, as tomllib gives them.
Toml = dict[str, Any]
OFFLINE = {"net": {"offline": True}}
OF_DEBIAN = {"source": {"crates-io": {"replace-with": "debian"}, "debian": {"directory": "/usr/share/cargo/registry"}}}
WITH_DEBIAN = ["bench/vm-superio", "examples/census/vm-superio", "rust/guest/vm-superio", "rust/tests/from_vm_superio"]


def files_of(root: pathlib.Path) -> dict[str, str | None]:
    """The files by hand by name, as text, or None for what is no plain file."""
    files: dict[str, str | None] = {}
    folders = [*UNDER, *OVER]
    paths = [root / "Cargo.toml", *of_cargo(root)]
    for folder in folders:
        paths += [root / folder / "Cargo.toml", root / folder / "build.rs"]
        paths += (root / folder / "src").rglob("*")
    emitted = root / table.OUTPUT
    paths += [path for path in emitted.rglob("*") if is_around(path.relative_to(emitted))]
    for path in sorted(paths):
        if path.is_symlink():
            files[str(path.relative_to(root))] = None
        elif path.is_file():
            files[str(path.relative_to(root))] = path.read_text(encoding="utf-8")
    return files


def of_cargo(root: pathlib.Path) -> Iterator[pathlib.Path]:
    """The files that tell cargo and rustup how to build, wherever they are: what is built in a folder or below it reads them."""
    for at, folders, names_there in os.walk(root):
        folders[:] = [one for one in folders if one not in (".git", "target", "out")]
        here = pathlib.Path(at)
        yield from (here / name for name in names_there if name in TOOLCHAIN or here.name == ".cargo")


def is_around(path: pathlib.Path) -> bool:
    """Whether a file below the emitted folder is by hand and could change what a package means. A test cannot."""
    return path.name in ("build.rs", ".cargo") or names.is_by_hand(path) and not names.is_test(path)


def causes(there: dict[str, str | None]) -> list[str]:
    """What is wrong with the files by hand."""
    found = [f"{name}: not a plain file" for name, text in there.items() if text is None]
    files = {name: text for name, text in there.items() if text is not None}
    for name in ("Cargo.toml", *(f"{folder}/{file}" for folder in UNDER + OVER for file in ("Cargo.toml", "src/lib.rs"))):
        if name not in files:
            return found + [f"{name}: missing"]
    for name, text in files.items():
        if name.endswith("build.rs"):
            found.append(f"{name}: there")
        if "/.cargo/" in f"/{name}" and read(text) != (OF_DEBIAN if name.partition("/.cargo/")[0] in WITH_DEBIAN else OFFLINE):
            found.append(f"{name}: more than that cargo asks no index")
        if name.rpartition("/")[2] in TOOLCHAIN:
            found.append(f"{name}: another compiler than the machine has")
        if name.endswith(".rs"):
            found += code(name, text)
    found += by_hand(files) + below.causes(files)
    for folder in UNDER + OVER:
        found += cargo(f"{folder}/Cargo.toml", files[f"{folder}/Cargo.toml"], USES[folder])
    return found + workspace(files["Cargo.toml"])


def code(name: str, text: str) -> list[str]:
    """What is wrong with a file of code by hand: it may not reach what is in no interface, nor what requires something and tests nothing."""
    text, found = re.sub(r"(?m)//.*$", "", text), list[str]()
    is_under = any(name.startswith(f"{folder}/") for folder in UNDER)
    for folder in OVER:
        if name.startswith(f"{folder}/"):
            found += elsewhere(name, text, USES[folder])
    odd = ODD.search(text)
    if odd and name.startswith(f"{table.OUTPUT}/"):
        found.append(f"{name}: `{odd[1] or odd[2] or odd[3]}`")
    if not is_under and not name.startswith(f"{table.OUTPUT}/uart_chip/"):
        found += [f"{name}: `{one}`, which is in no interface" for one in table.HIDDEN + table.HIDDEN_IN if re.search(rf"\b{one}\b", text)]
    for path, guard in table.GUARDS.items():
        function = path.split("::")[-1]
        if guard.reason == table.INSIDE and re.search(rf"\b{function}\b", text):
            found.append(f"{name}: `{function}`, which requires something and tests nothing")
    return found


def elsewhere(name: str, text: str, uses: dict[str, str]) -> Iterator[str]:
    """What in a file of a users' package takes the place of a file of it, or of a package that it uses."""
    for path, include, module, other in ELSEWHERE.findall(text):
        if path or include:
            yield f"{name}: `{path or include}`, another file in place of one of the package"
        elif (module or other) in uses:
            yield f"{name}: `{module or other}`, the name of a package, for something else"


def by_hand(files: dict[str, str]) -> list[str]:
    """What is wrong with the modules by hand in emitted crates: each is declared once, by the emitted file, and nothing turns it off."""
    found, expected = [], set()
    for name in table.BY_HAND:
        folder = re.sub(r"/(lib)?\.rt$|\.rt$", "", name.replace("/src/lib.rt", "/src.rt"))
        expected.add(f"{table.OUTPUT}/{folder}/by_hand.rs")
    there = {name for name in files if name.startswith(f"{table.OUTPUT}/")}
    for name in sorted(expected - there):
        found.append(f"{name}: missing")
    for name in sorted(there):
        if name.endswith("/by_hand.rs") and name not in expected:
            found.append(f"{name}: no emitted file declares it")
        for condition in CONDITION.findall(files[name]):
            if condition[1] not in CONDITIONS:
                found.append(f"{name}: `{condition[0]}`")
    return found


def read(text: str) -> Toml | None:
    """A file of Cargo, or nothing if it is none."""
    try:
        return tomllib.loads(text)
    except tomllib.TOMLDecodeError:
        return None


def is_optional(wanted: Toml) -> bool:
    """Whether a dependency is there only if a feature asks for it."""
    return set(wanted) - {"default-features"} == {"version", "optional"} and wanted["optional"] is True


def package_of(name: str) -> dict[str, str]:
    """What Cargo.toml says of a package of this repository: its name, if that is not the one of the dependency, and where it is."""
    if name in packages.FOLDERS:
        return {"path": f"../{packages.FOLDERS[name].rpartition('/')[2]}"}
    return {"package": packages.package(name), "path": f"../proved/{name}"}


def cargo(name: str, text: str, uses: dict[str, str]) -> list[str]:
    """What is wrong with Cargo.toml of a package by hand, which uses these packages of this repository."""
    entries = read(text)
    if entries is None:
        return [f"{name}: cannot be read"]
    found = []
    package, library = entries.get("package", {}), entries.get("lib", {})
    if package.get("edition") != "2024":
        found.append(f'{name}: not `edition = "2024"`')
    found += [f"{name}: `{one}` of the package" for one in package if one not in PACKAGE]
    found += [f'{name}: not `{one} = "{value}"`' for one, value in COMMON.items() if package.get(one) != value]
    found += [f"{name}: `{one}` of the library" for one in library if one != "name"]
    found += [f"{name}: the section [{one}]" for one in entries if one not in SECTIONS]
    for one, wanted in entries.get("dependencies", {}).items():
        if isinstance(wanted, dict) and "path" in wanted:
            if wanted.get("version") != f"={package.get('version')}":
                found.append(f"{name}: the dependency {one} is of any version")
            elif one not in uses or {key: wanted[key] for key in wanted if key not in ("version", "optional")} != package_of(uses[one]):
                found.append(f"{name}: the dependency {one} is another package, or one that this package does not use")
        elif one not in STAND_INS or not is_optional(wanted):
            found.append(f"{name}: the dependency {one}")
    found += [f"{name}: no dependency {one}" for one in uses if one not in entries.get("dependencies", {})]
    return found


def workspace(text: str) -> list[str]:
    """What is wrong with Cargo.toml of the workspace."""
    entries = read(text)
    if entries is None:
        return ["Cargo.toml: cannot be read"]
    found = [f"Cargo.toml: the section [{one}]" for one in entries if one not in WORKSPACE]
    for name, profile in entries.get("profile", {}).items():
        found += [f"Cargo.toml: `{one}` of the profile {name}" for one in profile if one not in PROFILE]
    if entries.get("patch") != {"crates-io": STAND_INS}:
        found.append("Cargo.toml: more than the stand-ins has the place of another package")
    return found
