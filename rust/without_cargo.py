#!/usr/bin/env python3
"""Builds a package of this folder, and the packages that it depends on, with rustc alone, for a kernel that is built without cargo:
rust/without_cargo.py PACKAGE FOLDER [--features A,B] [--metadata] [-- RUSTC-OPTION..]

PACKAGE is the folder of the package, as rust/uart_16550. The libraries come into FOLDER, and the options come to each call of rustc, as
`--target x86_64-unknown-none -C panic=abort`. With `--metadata` nothing is compiled to machine code. RUSTC names another compiler.
Prints the options with which rustc compiles what uses the package. What a package depends on, and its features, are read in Cargo.toml.
"""
from __future__ import annotations

import argparse
import os
import pathlib
import subprocess
import sys
import tomllib
from collections.abc import Iterator, Sequence
from typing import Any, TypeAlias


# The packages that are read, by their folders.
Packages: TypeAlias = "dict[pathlib.Path, Package]"


class Package:
    """A package and its features that are on."""

    def __init__(self, folder: pathlib.Path, entries: dict[str, Any]) -> None:
        # What is in Cargo.toml.
        self.folder, self.entries, self.features = folder, entries, set[str]()

    def crate(self) -> str:
        return str(self.entries.get("lib", {}).get("name", self.entries["package"]["name"])).replace("-", "_")

    def dependencies(self, packages: Packages) -> Iterator[tuple[str, Package]]:
        """What the package depends on: the name that it has here, and the package. One that is optional is used if a feature that is on
        asks for it. What has no path is not here."""
        lists = (self.entries.get("features", {}).get(one, []) for one in self.features)
        asked = {one.removeprefix("dep:") for asks in lists for one in asks if one.startswith("dep:")}
        for name, wanted in self.entries.get("dependencies", {}).items():
            if "path" in wanted and wanted.get("optional") and name not in asked:
                continue
            if "path" in wanted:
                yield name, load((self.folder / wanted["path"]).resolve(), packages)
            elif name in self.features:
                sys.exit(f"{self.folder}: the feature {name} needs a crate that is not here")


def load(folder: pathlib.Path, packages: Packages) -> Package:
    if folder not in packages:
        packages[folder] = Package(folder, tomllib.loads((folder / "Cargo.toml").read_text(encoding="utf-8")))
    return packages[folder]


def turn_on(package: Package, feature: str, packages: Packages) -> None:
    """Turns a feature on, and those that come with it."""
    if feature in package.features:
        return
    package.features.add(feature)
    for more in package.entries.get("features", {}).get(feature, []):
        name, slash, of_other = more.partition("/")
        if slash:
            turn_on(dict(package.dependencies(packages))[name], of_other, packages)
        elif not more.startswith("dep:"):
            turn_on(package, more, packages)


def in_order(package: Package, packages: Packages, done: list[Package]) -> list[Package]:
    """The package behind all that it depends on."""
    for _, other in package.dependencies(packages):
        in_order(other, packages, done)
    if package not in done:
        done.append(package)
    return done


def build(
    folder: str | pathlib.Path, target: str | pathlib.Path, features: Sequence[str] = (), options: Sequence[str] = (), metadata: bool = False
) -> list[str]:
    """Builds the package in this folder into another folder. Returns the options for what uses it."""
    packages, target = dict[pathlib.Path, Package](), pathlib.Path(target)
    package = load(pathlib.Path(folder).resolve(), packages)
    for feature in features:
        turn_on(package, feature, packages)
    kind = "rmeta" if metadata else "rlib"
    library = {one: target / f"lib{one.crate()}.{kind}" for one in in_order(package, packages, [])}
    for one in library:
        externs = [f"--extern={name.replace('-', '_')}={library[other]}" for name, other in one.dependencies(packages)]
        on = [f'--cfg=feature="{feature}"' for feature in sorted(one.features)]
        edition = one.entries["package"]["edition"]
        common = [os.environ.get("RUSTC", "rustc"), f"--edition={edition}", "--crate-type=rlib", f"--crate-name={one.crate()}"]
        made = [*(["--emit=metadata"] if metadata else []), "-Aunexpected_cfgs", f"-Ldependency={target}", "-o", str(library[one])]
        subprocess.run([*common, *on, *externs, *options, *made, one.folder / "src/lib.rs"], check=True)
    return [f"--extern={package.crate()}={library[package]}", f"-Ldependency={target}"]


def main() -> None:
    words = argparse.ArgumentParser(prog="rust/without_cargo.py", description="Builds a package with rustc alone.")
    words.add_argument("package", help="the folder of the package, as rust/uart_16550")
    words.add_argument("folder", help="where the libraries come")
    words.add_argument("--features", default="", help="features that are on, separated by commas")
    words.add_argument("--metadata", action="store_true", help="make no machine code")
    words.epilog = "What is behind -- are options of each call of rustc."
    end = sys.argv.index("--") if "--" in sys.argv else len(sys.argv)
    given = words.parse_args(sys.argv[1:end])
    features = [feature for feature in given.features.split(",") if feature]
    print(*build(given.package, given.folder, features, sys.argv[end + 1 :], given.metadata))


if __name__ == "__main__":
    main()
