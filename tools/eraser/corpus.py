"""Small programs with each form of the language that the sources use: `rt try` and rustc print the same.

The modules below corpus/ are erased as the sources are; of `main` the handle is taken out. They do not end in .rt, since `rt ci`
takes each such file for one of a crate.
"""
import pathlib
import re
import shutil
import subprocess
import tempfile
import types

import crate
import table
import words
from tokens import Refused

RUNNER = re.compile(r"(interpreter|checked|native): |run=")
FOLDER = pathlib.Path(__file__).resolve().parent / "corpus"
TABLE = types.SimpleNamespace(
    **{
        **vars(table),
        "CRATES": ["corpus"],
        "SHIPS": ["corpus"],
        "ERRORS": {},
        "BY_HAND": {},
        "CONSTANT": [],
        "IN_ORDER": [],
        "MAY_GROW": [],
        "IS_OPEN": [],
        "GUARDS": {},
        "IMPLEMENTED": {},
        "LARGE": {"corpus/src/values.rt": ["115_200"]},
        "CASTS": {f"corpus::traits::Cells::{name}": ["offset"] for name in ("read_one", "write_one")},
    }
)


def rust(texts: dict[str, str]) -> dict[str, str]:
    """The modules and `main` in Rust."""
    files = [crate.read(f"corpus/src/{name}", text, TABLE) for name, text in texts.items() if name != "main.rt"]
    for file in files:
        try:
            words.check(file)
        except Refused as cause:
            raise crate.Failed(crate.refusal(file.name, file.text, cause)) from cause
    done = {file.name.split("/")[-1].replace(".rt", ".rs"): crate.erase(file) for file in files}
    main = texts["main.rt"].replace("#![tactic(auto)]\n", "")
    main = main.replace("fn main(rt: HostRuntime) -> std::io::Result<()> {", "fn main() {").replace("    Ok(())\n}", "}")
    done["main.rs"] = re.sub(r"println!\(rt; (.*)\)\?;", r"println!(\1);", main)
    return done


def run() -> bool:
    texts = {path.stem + ".rt": path.read_text(encoding="ascii") for path in sorted(FOLDER.glob("*.rattle"))}
    with tempfile.TemporaryDirectory() as made:
        folder = pathlib.Path(made)
        for name, text in rust(texts).items():
            (folder / name).write_text(text, encoding="ascii")
        if shutil.which("rustc") is None:
            print("skipped: there is no rustc\n0 passed, 0 failed")
            return True
        options = ["--edition", "2024", "-A", "warnings", "-C", "overflow-checks=yes"]
        subprocess.run(["rustc", *options, "-o", folder / "program", folder / "main.rs"], check=True)
        in_rust = subprocess.run([folder / "program"], check=True, capture_output=True, text=True).stdout.splitlines()
        (folder / "crates.txt").write_text("corpus:\n", encoding="ascii")
        source = folder / "crates/corpus/src"
        source.mkdir(parents=True)
        for name, text in texts.items():
            (source / name).write_text(text, encoding="ascii")
        tried = subprocess.run(["rt", "try"], cwd=folder / "crates/corpus", capture_output=True, text=True, check=False)
        in_rattle = [line for line in tried.stdout.splitlines() if not RUNNER.match(line)]
    if tried.returncode != 0:
        print(f"rt try failed: {tried.stdout[-500:]}{tried.stderr[-500:]}\n0 passed, 1 failed")
        return False
    for mine, theirs in zip(in_rust, in_rattle):
        if mine != theirs:
            print(f"in Rust: {mine}\nin Rattle: {theirs}")
    same = sum(one == other for one, other in zip(in_rust, in_rattle))
    failed = max(len(in_rust), len(in_rattle), 1) - same
    print(f"{same} passed, {failed} failed")
    return failed == 0
