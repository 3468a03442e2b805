"""The constants, which the MIR does not have: a crate whose functions return one each is proved, and its MIR has the values.

A constant that is not public has no function here. It is in the MIR of the functions that use it.
"""
import hashlib
import pathlib
import re
import shutil
import subprocess
import tempfile

import emitted

NAME = "witness"
HEAD = "//! The public constants, a function for each: made by tools/eraser/mir/witness.py.\n#![tactic(auto)]\n"
USE = re.compile(r"\bpub use ([\w:]+)(?:::\{([^}]*)\})?;")
ITEM = re.compile(r"(?m)^pub (const|struct|enum|type) (\w+)")


class Exports:
    """What crates export: `types` by crate and name, and `constants` by the module that declares them and the name, with the path outside."""

    def __init__(self, folder: pathlib.Path, crates: list[str], declared: emitted.Emitted) -> None:
        self.folder = folder
        self.types, self.constants = dict[tuple[str, str], str](), dict[tuple[str, str], str]()
        self.names_of_types = {one.name for one in declared.types} | {"DATA", "SPR", "DLL", "DLM"}
        for crate in crates:
            self.walk((crate,))

    def walk(self, module: tuple[str, ...]) -> None:
        """Reads a public module, and those below it."""
        path = self.folder.joinpath(*module)
        file = path / "mod.rs" if (path / "mod.rs").exists() else path.with_suffix(".rs")
        text = emitted.blank(file.read_text(encoding="ascii"))
        for kind, name in ITEM.findall(text):
            self.export(module, module, name, kind)
        for head, names in USE.findall(text):
            parts = head.split("::")
            listed = re.findall(r"\w+", names)
            if not listed:
                listed, parts = parts[-1:], parts[:-1]
            origin = parts[2:] if parts[:2] == ["crate", "proved"] else [*module, *parts]
            for name in listed:
                self.export(module, tuple(origin), name, "")
        for name in re.findall(r"(?m)^pub mod (\w+);", text):
            self.walk((*module, name))

    def constant(self, module: str, name: str) -> str | None:
        """The path outside of a constant that this module declares, or None. Modules above it may export it again."""
        found = [path for (origin, one), path in self.constants.items() if one == name and f"{module}::".startswith(f"{origin}::")]
        return found[0] if found else None

    def export(self, module: tuple[str, ...], origin: tuple[str, ...], name: str, kind: str) -> None:
        outside = "::".join([*module, name])
        if kind != "const" and name in self.names_of_types:
            self.types.setdefault((module[0], name), outside)
        if kind in ("const", ""):
            self.constants.setdefault(("::".join(origin), name), outside)


def constants(declared: emitted.Emitted, folder: pathlib.Path, crates: list[str]) -> list[tuple[str, str, str, str]]:
    """The public constants: a name for the function, the type and the path outside, and where each is in the emitted crate."""
    exports, found = Exports(folder, crates, declared), []
    for module, owner, name, of, visibility in declared.constants:
        crate = module.split("::")[0]
        if visibility != "pub" or not re.fullmatch(r"\w*", owner):
            continue
        outside = exports.types.get((crate, owner)) if owner else exports.constant(module, name)
        if outside is None:
            continue
        of_outside = of if re.match(r"(u\d+|usize|bool)$", of) else exports.types[crate, of]
        path = f"{outside}::{name}" if owner else outside
        inside = "::".join(one for one in (module, owner, name) if one)
        found.append((f"{crate}_{owner or module.split('::')[-1]}_{name}".lower(), of_outside, path, inside))
    return found


def text_of(listed: list[tuple[str, str, str, str]]) -> str:
    functions = [f"/// Returns `{path}`.\npub fn {name}() -> {of} {{\n    {path}\n}}\n" for name, of, path, _ in listed]
    return HEAD + "\n" + "\n".join(functions)


def prove(
    kit: pathlib.Path, rlibs: dict[str, pathlib.Path], listed: list[tuple[str, str, str, str]], out: pathlib.Path
) -> tuple[pathlib.Path | None, str | None]:
    """Proves the crate, unless the same text was proved over the same libraries. Returns the file with its MIR, or what went wrong."""
    text = text_of(listed)
    inputs = [text.encode(), *((path / "toolchain" / "mir.json").read_bytes() for path in rlibs.values())]
    key = hashlib.sha256(b"\0".join(inputs)).hexdigest()
    mir = out / f"{NAME}-{key}.json"
    if mir.exists():
        return mir, None
    # `rt ci` takes no source that is in the repository and in no crate.
    with tempfile.TemporaryDirectory() as room:
        folder = pathlib.Path(room)
        (folder / "src").mkdir()
        (folder / "src" / "lib.rt").write_text(text, encoding="utf-8")
        words = [f"{kit}/bin/rattle", "build", "src/lib.rt", "--crate-name", NAME, "--jobs", "1"]
        words += ["--antt-project", f"{kit}/rattle/logic/antt-project.json", "--logic-built", f"{kit}/logic_built"]
        externs = {"std": kit / "rlibs" / "std.rlib", **rlibs}
        words += [word for name, path in externs.items() for word in ("--extern", f"{name}={path}")]
        folders = dict.fromkeys([kit / "rlibs", *(path.parent for path in rlibs.values())])
        words += [word for one in folders for word in ("-L", f"dependency={one}")]
        words += ["--statements", "-o", f"{NAME}.rlib"]
        done = subprocess.run(words, cwd=folder, capture_output=True, text=True, check=False)
        if done.returncode:
            return None, f"status {done.returncode}: {(done.stdout + done.stderr)[-2000:]}"
        out.mkdir(parents=True, exist_ok=True)
        made = mir.with_suffix(".new")
        shutil.copyfile(folder / f"{NAME}.rlib" / "toolchain" / "mir.json", made)
        made.replace(mir)
    return mir, None
