#!/usr/bin/env python3
"""Makes the archive of the C for a release: c/for_release.py [--unreleased] FOLDER

FOLDER, which is made if it is not there, gets u16550-VERSION.tar.gz: the pairs of files, what builds and installs them, the example, the
pages on how they are installed and used, and the licences. The same commit always gives the same bytes. Prints the path of the archive.

The version is that of the packages of Rust. Refuses a checkout that has what is in no commit, a changelog whose newest section is not
this version with a date, and an address that nobody has; `--unreleased` lets these be, as `integration/c` does, which tries all of
this in the gate.
"""
import argparse
import gzip
import io
import pathlib
import posixpath
import re
import subprocess
import sys
import tarfile
import tomllib
from collections.abc import Iterator

TOP = pathlib.Path(__file__).resolve().parent.parent
# What is beside the files of this folder. Links of its pages lead to what is in the archive, or out of it, into the repository.
BESIDE = {"LICENSE-APACHE": "LICENSE-APACHE", "LICENSE-MIT": "LICENSE-MIT", "C.md": "docs/C.md"}
# What `make check` runs.
BESIDE |= {f"check/{one}": f"tools/c/compared/{one}" for one in ("hosted.c", "choices.h", "calls.h", "console.h", "console_config.h", "port.h")} | {
    "check/each.h": "c/tests/each.h"
}
NOT_SHIPPED = re.compile(r"for_release\.py|tests/")
CHANGES = "CHANGELOG.md"
# The host of an address that nobody has: https://www.rfc-editor.org/rfc/rfc2606
NOBODY = ".invalid"
LINK = re.compile(r"\]\((?!https?:|#)([^)]*)\)")


class Refused(Exception):
    """Why there can be no release."""


def version() -> str:
    found = re.search(r'^#define U16550_VERSION "(.*)"$', (TOP / "c" / "u16550.h").read_text(encoding="ascii"), re.M)
    if not found:
        raise Refused("c/u16550.h: there is no version in it")
    return found[1]


def address() -> str:
    """Where the repository is: what the package of the driver says."""
    return str(tomllib.loads((TOP / "rust" / "uart_16550" / "Cargo.toml").read_text(encoding="utf-8"))["package"]["repository"])


def causes() -> Iterator[str]:
    """Why this checkout cannot be released."""
    if NOBODY in address():
        yield f"{address()}: nobody has this address"
    changed = subprocess.run(["git", "-C", TOP, "status", "--porcelain"], capture_output=True, text=True, check=True).stdout
    if changed:
        yield "the checkout has what is in no commit"
    newest = re.search(r"^## (.*)$", (TOP / CHANGES).read_text(encoding="utf-8"), re.M)
    if not newest or not re.fullmatch(rf"{re.escape(version())}, \d{{4}}-\d\d-\d\d", newest[1]):
        yield f"{CHANGES}: the newest section is '{newest[1] if newest else ''}', and not {version()} with a date"


def files() -> dict[str, bytes]:
    """The names in the archive, in order, with what they have."""
    listed = subprocess.run(["git", "-C", TOP, "ls-files", "-z", "c"], capture_output=True, text=True, check=True).stdout
    names = {name: name.removeprefix("c/") for name in filter(None, listed.split("\0")) if not NOT_SHIPPED.match(name.removeprefix("c/"))}
    names |= {source: name for name, source in BESIDE.items()}
    found = {name: (TOP / source).read_bytes() for source, name in names.items()}
    for source, name in names.items():
        if name.endswith(".md"):
            text = LINK.sub(lambda link: f"]({target(source, link[1], names)})", found[name].decode("utf-8"))
            found[name] = text.encode("utf-8")
    return dict(sorted(found.items()))


def target(page: str, link: str, names: dict[str, str]) -> str:
    """Where a link of a page leads from the archive, whose files have these names: to one of them, or into the repository."""
    path, mark, place = link.partition("#")
    source = posixpath.normpath(posixpath.join(posixpath.dirname(page), path))
    return f"{names.get(source) or f'{address()}/{source}'}{mark}{place}"


def archive(folder: pathlib.Path) -> pathlib.Path:
    """Writes the archive. Owners, times and modes of the checkout are not in it."""
    name = f"u16550-{version()}"
    made = io.BytesIO()
    with gzip.GzipFile(fileobj=made, mode="wb", mtime=0) as packed, tarfile.TarFile(fileobj=packed, mode="w", format=tarfile.USTAR_FORMAT) as tar:
        for inside, content in files().items():
            entry = tarfile.TarInfo(f"{name}/{inside}")
            entry.size, entry.mode = len(content), 0o644
            tar.addfile(entry, io.BytesIO(content))
    folder.mkdir(parents=True, exist_ok=True)
    path = folder / f"{name}.tar.gz"
    path.write_bytes(made.getvalue())
    return path


def main() -> None:
    words = argparse.ArgumentParser(prog="c/for_release.py", description="Makes the archive of the C for a release.")
    words.add_argument("folder", type=pathlib.Path, help="where the archive goes")
    words.add_argument("--unreleased", action="store_true", help="for a try: what is in no commit, and a version without a section, may be")
    given = words.parse_args()
    refused = [] if given.unreleased else list(causes())
    if refused:
        raise Refused("\n".join(refused))
    print(archive(given.folder))


if __name__ == "__main__":
    try:
        main()
    except (OSError, Refused) as cause:
        sys.exit(f"for_release: {cause}")
