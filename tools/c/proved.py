"""The proved MIR of the functions of a header itself as a library for C: by the translation to Rust that the comparison of the Rust crates has.
A number that overflows in it ends the program."""
from __future__ import annotations

import pathlib
import re
import subprocess
from collections.abc import Mapping, Sequence

from translate import Node, Program, Translation, Type

FOLDER = pathlib.Path(__file__).resolve().parent
HEAD = """#![allow(warnings, clippy::all)]
mod run {
    pub struct Choices;
    pub trait Value {}
    pub fn turn() {}
    pub fn reach(_: usize) {}
}
pub mod mir;
"""


def rust_of(program: Program, exports: Mapping[str, str], own: Sequence[str]) -> tuple[str, str]:
    """The texts of the crate: its root, and the translation."""
    translation = Translation(program, {}, own)
    functions = {name: (translation.instance(function), program.functions[function]) for name, function in exports.items()}
    translation.translate()
    if translation.unknown:
        raise SystemExit(f"compare: not translated: {translation.unknown[:3]}")
    return HEAD + "".join(function_for_c(translation, name, *one) for name, one in functions.items()), translation.module()


def function_for_c(translation: Translation, name: str, own_name: str, function: Node) -> str:
    """A function as C calls it: a slice is a pointer and a length."""
    types = [translation.type(one["ty"], ()) for one in function["locals"][: function["params"] + 1]]
    parameters, given = [], []
    for order, of in enumerate(types[1:], 1):
        if of[:2] == ("Struct", "&[]"):
            parameters += [f"a{order}: *mut u8", f"n{order}: usize"]
            given.append(f"{translation.rust_outside(of)} {{ f0: a{order}, f1: n{order} as u64{translation.rest(of)} }}")
        else:
            parameters.append(f"a{order}: {of_c(translation, of, function, order)}")
            given.append(f"a{order}{' as u64' if of == ('Int', 64) else ''}")
    result = "" if types[0] == "Unit" else f" -> {of_c(translation, types[0], function, 0)}"
    value = f"mir::{own_name}({', '.join(given)}){' as usize' if types[0] == ('Int', 64) else ''}"
    return f'#[unsafe(no_mangle)]\npub unsafe extern "C" fn {name}({", ".join(parameters)}){result} {{ unsafe {{ {value} }} }}\n'


def of_c(translation: Translation, of: Type, function: Node, order: int) -> str:
    """The type that C has: a number of 64 bits of an interface is a size of memory."""
    return "usize" if of == ("Int", 64) else "*mut u8" if translation.rust(of) == "P" else translation.rust_outside(of)


def build(program: Program, exports: Mapping[str, str], own: Sequence[str], folder: pathlib.Path) -> tuple[pathlib.Path | None, str]:
    """Builds the library in this folder. Returns its path, or None and what the compiler says."""
    folder = pathlib.Path(folder)
    root, module = rust_of(program, exports, own)
    (folder / "lib.rs").write_text(root, encoding="utf-8")
    (folder / "mir.rs").write_text(re.sub(r"(?m)^use crate::run", "use super::run", module), encoding="utf-8")
    archive = folder / "libproved_mir.a"
    words = [
        "rustc",
        "--edition",
        "2024",
        "--crate-type",
        "staticlib",
        "--crate-name",
        "proved_mir",
        "-C",
        "opt-level=1",
        "-C",
        "panic=abort",
        "-o",
        archive,
        folder / "lib.rs",
    ]
    done = subprocess.run([str(one) for one in words], capture_output=True, text=True, check=False)
    return (archive, "") if done.returncode == 0 else (None, done.stderr[-3000:])
