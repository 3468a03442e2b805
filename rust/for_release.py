#!/usr/bin/env python3
"""Makes the folder from which the packages are published: rust/for_release.py [--unreleased] FOLDER

FOLDER, which must not be there, gets the workspace as registries have it: without what makes cargo ask no index here, with the texts of the
licences in each package, and with READMEs that are right on the page of a registry. There they name a version in place of a checkout, and
what is in brackets for rustdoc leads to docs.rs. Prints the names of the packages that are published, each behind those that it uses.

Refuses what a release may not have: an address that nobody has, a change that has no version yet, packages of two versions. `--unreleased`
lets the first two be, as `integration/packages` does, which tries all of this in the gate.
"""
import argparse
import pathlib
import re
import shutil
import subprocess
import sys
import tempfile
import tomllib
from collections.abc import Iterator
from typing import Any

TOP = pathlib.Path(__file__).resolve().parent.parent
LICENCES = ["LICENSE-APACHE", "LICENSE-MIT"]
# The keys that each published package has, for the pages of registries.
KEYS = "name version edition rust-version description license readme repository homepage documentation keywords categories include".split()
# The host of an address that nobody has. No other name ends so: https://www.rfc-editor.org/rfc/rfc2606
NOBODY = ".invalid"
STAND_INS = re.compile(r"\n(?:#.*\n)*\[patch\.crates-io\]\n(?:.+\n)*")
# Members of the workspace that are not below rust, of which any number may be there.
OUTSIDE = re.compile(r', "examples/[^"]*"')
CHECKOUT = re.compile(r'path = "\.\./geesetrunk/rust/[^"]*"')
BESIDE = re.compile(r"With a checkout of the repository beside (your program|it):")
# The page of a registry is made of the README of a package that has one, beside it. What is not in the list is no Rust.
README, PAGE = "README.md", "REGISTRY.md"
RUST = ["", "rust", "no_run", "should_panic", "rust,no_run", "rust,should_panic"]
HIDDEN = re.compile(r"# .*|#")
CHANGES, SECTION = "CHANGELOG.md", re.compile(r"^## (.*)$", re.M)
BRACKETS = re.compile(r"\[`([^`\]]+)`\](?![(:\[])")


class Refused(Exception):
    """Why there can be no release."""


class Package:
    """A package of the workspace: its folder, and what its manifest says."""

    def __init__(self, folder: str) -> None:
        self.folder = folder
        # What a manifest has: tables, lists and values.
        self.entries: dict[str, Any] = tomllib.loads((TOP / folder / "Cargo.toml").read_text(encoding="utf-8"))
        self.about = self.entries["package"]
        self.name, self.version = self.about["name"], self.about.get("version")
        self.is_published = self.about.get("publish", True)

    def uses(self) -> Iterator[str]:
        """The folders of the packages that this one is compiled with."""
        for wanted in self.entries.get("dependencies", {}).values():
            if isinstance(wanted, dict) and "path" in wanted:
                yield str((TOP / self.folder / wanted["path"]).resolve().relative_to(TOP))


def packages() -> dict[str, Package]:
    """The published packages by folder, each behind those that it uses."""
    listed = subprocess.run(["git", "-C", TOP, "ls-files", "rust/*/Cargo.toml"], capture_output=True, text=True, check=True).stdout
    folders = [name.rpartition("/")[0] for name in listed.splitlines()]
    found = {folder: Package(folder) for folder in folders if "/tests/" not in folder}
    ordered: dict[str, Package] = {}

    def add(folder: str) -> None:
        if folder not in ordered:
            for below in found[folder].uses():
                add(below)
            ordered[folder] = found[folder]

    for folder, package in found.items():
        if package.is_published:
            add(folder)
    return ordered


def name_of(folder: str) -> str:
    """The name of the package in a folder, by the one rule that there is."""
    return folder.replace("rust/", "geesetrunk-", 1).replace("/", "-")


def causes(found: dict[str, Package], is_release: bool) -> Iterator[str]:
    """Why these packages cannot be published."""
    changed = subprocess.run(["git", "-C", TOP, "status", "--porcelain"], capture_output=True, text=True, check=True).stdout
    if is_release and changed:
        yield "the checkout has what is in no commit"
    versions = {package.version for package in found.values()}
    if len(versions) != 1:
        yield f"the packages have several versions: {', '.join(sorted(versions))}"
    newest = SECTION.search((TOP / CHANGES).read_text(encoding="utf-8")) if is_release else None
    ours = "|".join(map(re.escape, versions))
    if is_release and not (newest and re.fullmatch(rf"(?:{ours}), \d{{4}}-\d\d-\d\d", newest[1])):
        yield f"{CHANGES}: the newest section is '{newest[1] if newest else ''}', and not {', '.join(sorted(versions))} with a date"
    addresses = {package.about.get(key, "") for package in found.values() for key in ("repository", "homepage")}
    yield from (f"{one}: nobody has this address" for one in sorted(addresses) if is_release and NOBODY in one)
    for folder, package in found.items():
        at = f"{folder}/Cargo.toml"
        if not package.is_published:
            yield f"{at}: a published package uses this one, which is none"
        if package.name != name_of(folder):
            yield f"{at}: the name is not {name_of(folder)}"
        yield from (f"{at}: there is no `{key}`" for key in KEYS if not package.about.get(key))


def replaced(name: str, pattern: re.Pattern[str], new: str, text: str) -> str:
    """The text with what a pattern finds replaced, which must be there once."""
    text, count = pattern.subn(new, text)
    if count != 1:
        raise Refused(f"{name}: '{pattern.pattern}' is there {count} times, and not once")
    return text


def with_version(package: Package, text: str) -> str:
    """A page of a package that names the version in place of a checkout."""
    return BESIDE.sub("In the `Cargo.toml` of your program:", CHECKOUT.sub(f'version = "{package.version}"', text))


def page_of_registry(package: Package, text: str) -> str:
    """A README as the page of a registry shows it, which has no rustdoc: code says that it is Rust, without the lines that are hidden, and
    what is in brackets leads to what docs.rs finds by that name."""
    lines, language = [], None
    for line in text.splitlines():
        if line.startswith("```"):
            language = None if language is not None else line[3:]
            lines.append("```rust" if language in RUST else line)
        elif language not in RUST or not HIDDEN.fullmatch(line):
            lines.append(line)
    at = f"https://docs.rs/{package.name}/{package.version}/{package.entries['lib']['name']}/?go_to_first=true&search="
    links = [f"[`{word}`]: {at}{word}" for word in dict.fromkeys(BRACKETS.findall(text))]
    return "\n".join([*lines, *([""] if links else []), *links]) + "\n"


def make(found: dict[str, Package], target: pathlib.Path) -> None:
    """Makes what is in the folder."""
    listed = subprocess.run(["git", "-C", TOP, "ls-files", "-z", "Cargo.toml", "rust"], capture_output=True, text=True, check=True).stdout
    for name in filter(None, listed.split("\0")):
        if (TOP / name).is_file() and ".cargo" not in name.split("/"):
            (target / name).parent.mkdir(parents=True, exist_ok=True)
            shutil.copy2(TOP / name, target / name)
    manifest = target / "Cargo.toml"
    text = replaced("Cargo.toml", STAND_INS, "", manifest.read_text(encoding="utf-8"))
    manifest.write_text(OUTSIDE.sub("", text), encoding="utf-8")
    for folder, package in found.items():
        for licence in LICENCES:
            shutil.copy2(TOP / licence, target / folder / licence)
        for path in (target / folder).glob("*.md"):
            path.write_text(with_version(package, path.read_text(encoding="utf-8")), encoding="utf-8")
        if package.about["readme"] == README:
            text = (target / folder / README).read_text(encoding="utf-8")
            (target / folder / PAGE).write_text(page_of_registry(package, text), encoding="utf-8")
            manifest = target / folder / "Cargo.toml"
            text = replaced(str(manifest), re.compile(f'(?m)^readme = "{README}"$'), f'readme = "{PAGE}"', manifest.read_text(encoding="utf-8"))
            manifest.write_text(text, encoding="utf-8")


def main() -> None:
    words = argparse.ArgumentParser(prog="rust/for_release.py", description="Makes the folder from which the packages are published.")
    words.add_argument("folder", type=pathlib.Path, help="the folder, which must not be there")
    words.add_argument("--unreleased", action="store_true", help="for a try: the address and the version may be missing")
    given = words.parse_args()
    found = packages()
    refused = list(causes(found, not given.unreleased))
    if refused:
        raise Refused("\n".join(refused))
    if given.folder.absolute().resolve().is_relative_to(TOP):
        raise Refused(f"{given.folder} is in the checkout, where cargo asks no index")
    if given.folder.exists():
        raise Refused(f"{given.folder} is there")
    # It is whole or it is not there.
    with tempfile.TemporaryDirectory(dir=given.folder.absolute().parent, prefix="packages-") as room:
        make(found, pathlib.Path(room) / "made")
        (pathlib.Path(room) / "made").rename(given.folder)
    print(*(package.name for package in found.values()), sep="\n")


if __name__ == "__main__":
    try:
        main()
    except (OSError, Refused) as cause:
        sys.exit(f"for_release: {cause}")
