"""The tests that are in Rattle as Rust tests: rust/proved_tests/src/erased.

Tests are not trusted, so this works on text: clauses and ghost items are taken out, and the words of REPLACED become others. A word that
nothing replaces is an error of rustc.
"""
import pathlib
import re

import crate
import tokens

OUTPUT = "rust/proved_tests/src/erased"

# The crates with tests.
CRATES = ["uart_calls"]

# Heads of paths. Who names an allocator makes rings, which have a kit of their own.
KIT = "geesetrunk_kit"
HEADS = {
    "bitflags": KIT,
    "arrayvec": KIT,
    "std::test": "crate::runtime",
    "std::process": "crate::runtime",
    "std::alloc": "geesetrunk_kit_of_rings::alloc",
}
REPLACED = [
    (r"(?m)^ *#!?\[tactic\(.*\)\]\n", ""),
    (r"(?m)^(?:use std::marker::Model;|use thiserror::Error;)\n", ""),
    (r"(?<=[(])Drop, |, Drop(?=[,)])", ""),
    (r", Error(?=[,)]\]?)(?=[^\n]*\)\]\n)|#\[derive\(Drop\)\]\n| *#\[error\([^\n]*\)\]\n", ""),
    (r" \+ Drop\b|: Drop\b", ""),
    (r"(fn \w+)\(rt: HostRuntime\)([^{]*)\{", r"\1()\2{\n    let rt = HostRuntime;"),
]
# What a derive of the sources writes, behind the file.
START_ERROR = """
impl std::fmt::Display for StartError {
    fn fmt(&self, f: &mut std::fmt::Formatter<'_>) -> std::fmt::Result {
        match self {
            StartError::NoRings(cause) => cause.fmt(f),
            StartError::NoDevice(cause) => cause.fmt(f),
        }
    }
}

impl std::error::Error for StartError {}
"""
PRELUDE = """#[allow(unused_imports)]
use crate::runtime::{AllocGlobal, HostRuntime, assert, assert_eq};
#[allow(unused_imports)]
use geesetrunk_kit::Vec;
"""


def erased(name: str, text: str) -> str:
    """A source of tests as Rust."""
    of = name.split("/")[0]
    code, _ = tokens.tokens(text, strict=False)
    out, at = [], 0
    for token in code:
        if token.kind in ("clause", "ghost", "ghost use"):
            start = text.rfind("\n", 0, token.start) + 1
            out.append(text[at : start if not text[start : token.start].strip() else token.start])
            at = token.end
    text = "".join(out) + text[at:]
    for pattern, to in REPLACED:
        text = re.sub(pattern, to, text)
    text = re.sub(r"(?<![\w:])crate::tests(?=::)", f"crate::erased::{of}", text)
    text = re.sub(r"(?<![\w:])crate(?=::)(?!::(erased|runtime))", of, text)
    for head, to in HEADS.items():
        text = re.sub(rf"(?<![\w:]){head}" + (r"\b" if "::" in head else r"(?=::)"), to, text)
    text = re.sub(r"(?m)^( *)//[/!]", r"\1//", text)
    return re.sub(r"\n{3,}", "\n\n", PRELUDE + text) + (START_ERROR if "enum StartError" in text else "")


def emitted(root: pathlib.Path) -> dict[str, bytes]:
    """The files of the erased tests by name, with their bytes."""
    files = {}
    for name, data in crate.sources(root, CRATES).items():
        of, _, file = name.partition("/src/tests")
        if not file:
            continue
        files[f"{of}/mod.rs" if file == ".rt" else f"{of}{file[: -len('.rt')]}.rs"] = erased(name, crate.text_of(name, data))
    head = "//! Made by `tools/eraser/erase emit` from the tests in `crates/`. Do not edit.\n#![allow(warnings)]\n\n"
    files["mod.rs"] = head + "".join(f"mod {of};\n" for of in CRATES)
    return {name: text.encode("utf-8") for name, text in files.items()}
