"""Where the kit is, and the code that is proved of the crates."""
from __future__ import annotations

import pathlib
import shutil
import subprocess
import sys
from collections.abc import Iterable

from translate import Program

ROOT = pathlib.Path(__file__).resolve().parent.parent.parent
OF_KIT = ["core", "std", "std_heap", "std_alloc", "bitflags"]


def kit() -> pathlib.Path:
    """The folder of the kit."""
    if not shutil.which("rt"):
        sys.exit("there is no command `rt`: this needs the kit")
    page = subprocess.run(["rt", "doc"], check=True, capture_output=True, text=True).stdout.strip()
    return pathlib.Path(page).parent


def mir_of(folder: pathlib.Path, name: str, how: str) -> pathlib.Path:
    found = folder / f"{name}.rlib" / "toolchain" / "mir.json"
    if not found.exists():
        sys.exit(f"emit: {found}: missing: run {how}")
    return found


def program_of(own: Iterable[str], folder: pathlib.Path | None, how: str) -> Program:
    """The code of these crates, and of those of the kit that they use: in this folder, or where what is named leaves it."""
    folders = {name: folder or ROOT / "crates" / name / "out" / "rlib" for name in own}
    return Program([*(mir_of(kit() / "rlibs", name, how) for name in OF_KIT), *(mir_of(folders[name], name, how) for name in own)])
