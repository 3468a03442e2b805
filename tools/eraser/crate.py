"""Reads the crates, erases each file, and makes all files of the emitted packages."""
import collections
import concurrent.futures
import functools
import hashlib
import os
import pathlib
import re
import shutil
import subprocess
import threading
from collections.abc import Callable

import documentation
import examples
import foreign
import guards
import names
import packages
import promises
import table
import widths
import words
from items import Dropped, Edit, File, Tables
from tokens import Refused, check_letters, tokens

LIST_TEXT = """# What the eraser dropped: rule, item, what.
"""
# What `rt version` says behind the name of the kit.
LOGIC = re.compile(r"\blogic [0-9a-f]{16}\b")
MANIFEST_TEXT = """# Made by `tools/eraser/erase emit`: the sum of the kit's logic, the SHA-256 of each source and of each file that was made of it.
"""


class Failed(Exception):
    """The causes why nothing was emitted, one for each line."""


def no_links(root: pathlib.Path, path: pathlib.Path) -> None:
    """Refuses a path below the root that leads over a link."""
    while path != root:
        if path.is_symlink():
            raise Failed(f"{path.relative_to(root)}: a symlink")
        path = path.parent


def sources(root: pathlib.Path, crates: list[str]) -> dict[str, bytes]:
    """The sources of the crates by name, as `uart_spec/src/lib.rt`, with their bytes."""
    found = {}
    for crate in crates:
        folder = root / "crates" / crate / "src"
        no_links(root, folder)
        for path in sorted(folder.rglob("*")):
            name = f"{crate}/src/{path.relative_to(folder)}"
            if path.is_symlink():
                raise Failed(f"crates/{name}: a symlink")
            if path.is_dir():
                continue
            if not re.fullmatch(r"[a-z0-9_/]+\.rt", name):
                raise Failed(f"crates/{name}: not a source")
            found[name] = path.read_bytes()
    return found


def kit() -> str:
    """The sum of the kit's logic. Two kits whose sums are the same prove the same: their names may differ."""
    if shutil.which("rt") is None:
        raise Failed("rt: not there")
    told = subprocess.run(["rt", "version"], check=True, capture_output=True, text=True).stdout
    logic = LOGIC.search(told)
    if logic is None:
        raise Failed(f"rt version: no sum of the logic in '{told.strip()}'")
    return logic[0]


def kept_folder() -> pathlib.Path:
    """Where what `rt expand` printed is kept, for each user of the machine."""
    home = os.environ.get("XDG_CACHE_HOME") or os.path.expanduser("~/.cache")
    return pathlib.Path(home) / "geesetrunk" / "expanded"


@functools.lru_cache(maxsize=None)
def macros(root: pathlib.Path, crate: str) -> bytes:
    """What could change the meaning of a macro's name in a crate, beside the file and the kit: its line of crates.txt, which names the
    libraries, and each line of its sources, and of those of the crates below it, that speaks of a macro."""
    lines = (root / "crates.txt").read_text(encoding="utf-8").splitlines()
    uses = {words[0]: line for line in lines if (words := re.findall(r"^\w+", line))}
    found = [crate]
    for name in found:
        found += [one for one in re.findall(r"\w+", uses[name]) if one in uses and one not in found]
    told = [uses[name] for name in found]
    for name in sorted(found):
        for path in sorted((root / "crates" / name / "src").rglob("*.rt")):
            told += re.findall(rb"[^\n]*\bmacro[^\n]*", path.read_bytes())
    return repr(told).encode()


def kit_files() -> bytes:
    """What tells one kit from another: its name, and the size and time of the compiler and of the library with the macro."""
    rt = pathlib.Path(shutil.which("rt") or "rt").resolve()
    top = rt.parent.parent
    paths = [rt, rt.parent / "rattle", top / "KIT-ID", *sorted((top / "rlibs" / "thiserror.rlib").rglob("*"))]
    return repr([(str(path), path.stat().st_size, path.stat().st_mtime_ns) for path in paths if path.exists()]).encode()


def expanded(root: pathlib.Path, name: str) -> bytes:
    """The source of a file with the implementations of thiserror written out. What was made of the same file by the same kit is taken from
    where it is kept, unless GEESETRUNK_ANEW is set."""
    crate, file = name.split("/", 1)
    key = hashlib.sha256(b"\0".join([kit_files(), name.encode(), macros(root, crate), (root / "crates" / name).read_bytes()])).hexdigest()
    kept = kept_folder() / key
    if not os.environ.get("GEESETRUNK_ANEW"):
        try:
            data = kept.read_bytes()
            # The first line is the sum of the others: half a file counts for nothing.
            head, _, text = data.partition(b"\n")
            if head.decode() == hashlib.sha256(text).hexdigest():
                return text
        except (OSError, UnicodeDecodeError):
            pass
    done = subprocess.run(["rt", "expand", "--file", file], cwd=root / "crates" / crate, capture_output=True, timeout=600, check=False)
    if done.returncode != 0:
        raise Failed(f"crates/{name}: rt expand failed: {done.stderr.decode()[-300:]}")
    try:
        kept.parent.mkdir(parents=True, exist_ok=True)
        made = kept.with_name(f"{key}.{os.getpid()}.{threading.get_ident()}")
        made.write_bytes(hashlib.sha256(done.stdout).hexdigest().encode() + b"\n" + done.stdout)
        made.replace(kept)
    except OSError:
        pass
    return done.stdout


def module_of(name: str) -> str:
    """`uart_spec/src/registers/bits.rt` is `uart_spec::registers::bits`."""
    parts = name[: -len(".rt")].split("/")
    parts.remove("src")
    return "::".join(parts[:1] if parts[1:] == ["lib"] else parts)


def target_of(name: str) -> str:
    return f"{name[:-len('.rt')]}.rs"


def is_read(name: str) -> bool:
    """Whether a source is more than tests or laws."""
    return not re.search(r"/src/tests(\.rt$|/)|/laws\.rt$", name)


def text_of(name: str, data: bytes) -> str:
    if b"\r" in data:
        raise Failed(f"crates/{name}: a carriage return")
    try:
        return data.decode("utf-8")
    except UnicodeDecodeError as cause:
        raise Failed(f"crates/{name}: {cause}") from cause


def read(name: str, text: str, allow: Tables = table) -> File:
    """A file's items. A refusal names the file and the line."""
    try:
        return File(name, module_of(name), text, allow)
    except Refused as cause:
        raise Failed(refusal(name, text, cause)) from cause


def refusal(name: str, text: str, cause: Refused) -> str:
    line = "" if cause.at is None else f":{text.count(chr(10), 0, cause.at) + 1}"
    return f"crates/{name}{line}: refused: {cause.cause}"


def is_inside(one: Edit, other: Edit) -> bool:
    """Whether an edit is inside another one, with which it goes."""
    if one is other or other.start == other.end:
        return False
    if one.start == one.end:
        return other.start < one.start < other.end
    return other.start <= one.start and one.end <= other.end


def apply(file: File) -> tuple[str, list[str]]:
    """The text with its edits, and its tokens as they are to be."""
    out, expected, at = [], [], 0
    edits = sorted(dict.fromkeys(file.edits), key=lambda edit: (edit.start, edit.end))
    outer = [one for one in edits if not any(is_inside(one, other) for other in edits)]
    starts = iter(file.code + [None])
    token = next(starts)
    for edit in outer:
        if edit.start < at:
            raise Refused(f"edits that overlap: {edit.rule}", edit.start)
        while token and token.end <= edit.start:
            expected.append(token.text)
            token = next(starts)
        while token and token.start < edit.end:
            token = next(starts)
        expected += [one.text for one in tokens(edit.text, False, signs=edit.rule == "promise")[0]]
        out += [file.text[at : edit.start], edit.text]
        at = edit.end
    while token:
        expected.append(token.text)
        token = next(starts)
    return "".join(out) + file.text[at:], expected


def tidy(text: str) -> str:
    """No blank lines at the ends of braces and of the file, and no two in a row."""
    text = re.sub(r"(///[^\n]*\n)\n+(?= *[A-Za-z])", r"\1", text)
    text = re.sub(r"[ ]+(?=\n)", "", text)
    text = re.sub(r"\n{3,}", "\n\n", text)
    text = re.sub(r"\{\n\n+", "{\n", text)
    text = re.sub(r"\n\n+( *\})", r"\n\1", text)
    return text.strip("\n") + "\n"


def erase(file: File, told: promises.Promises | None = None) -> str:
    """The Rust text of a file, with the sections that `told` has for it."""
    try:
        file.edits += documentation.edits(file)
        file.edits += told.edits(file) if told else []
        text, expected = apply(file)
        text = tidy(text)
        found = [token.text for token in tokens(text, False, signs=True)[0]]
    except Refused as cause:
        raise Failed(refusal(file.name, file.text, cause)) from cause
    if found != expected:
        place = next((i for i, pair in enumerate(zip(found, expected)) if pair[0] != pair[1]), -1)
        mine, theirs = (" ".join(one[max(place - 3, 0) : place + 5]) for one in (found, expected))
        raise Failed(f"crates/{file.name}: the tokens changed: {mine} is not {theirs}")
    return text


def emitted(
    root: pathlib.Path, allow: Tables = table, expand: Callable[[pathlib.Path, str], bytes] = expanded, kit_of: Callable[[], str] = kit
) -> dict[str, bytes]:
    """All files of the emitted folder by name, with their bytes."""
    return made(root, allow, expand, kit_of)[0]


def made(
    root: pathlib.Path, allow: Tables = table, expand: Callable[[pathlib.Path, str], bytes] = expanded, kit_of: Callable[[], str] = kit
) -> tuple[dict[str, bytes], str]:
    """All files of the emitted folder by name, with their bytes, and the list of what was dropped."""
    found = {name: data for name, data in sources(root, allow.CRATES).items() if is_read(name)}
    to_expand = [name for name in found if b"use thiserror::Error" in found[name]]
    with concurrent.futures.ThreadPoolExecutor(4) as pool:
        version = pool.submit(kit_of)
        in_full = dict(zip(to_expand, pool.map(lambda name: expand(root, name), to_expand)))
        texts = {name: text_of(name, in_full.get(name, data)) for name, data in found.items()}
        for name, data in found.items():
            text_of(name, data)
        crates = packages.crates(root)
        told = promises.Promises(root, allow.SHIPS)
        files, dropped = files_of(texts, crates, told, allow)
        listed = manifest(version.result(), {**found, **told.definitions.files}, files, allow)
    # Nobody reads 2,600 lines in a review. Its sum shows that the list changed, and `tools/eraser/erase dropped` prints it.
    files["MANIFEST"] = listed + f"{hashlib.sha256(dropped.encode()).hexdigest()}  dropped\n"
    return {name: text.encode("utf-8") for name, text in files.items()}, dropped


def pages(told: promises.Promises, crates: packages.Crates, allow: Tables) -> dict[str, str]:
    """The pages of definitions by name, once all sections are there: a file `proved.rs` of each crate of which a section names one."""
    causes = list(told.causes())
    if causes:
        raise Failed("\n".join(causes))
    made = {f"{crate}/src/proved.rs": told.page(crate, crates.about[crate]) for crate in allow.SHIPS}
    for name, text in made.items():
        try:
            check_letters(text)
        except Refused as cause:
            raise Failed(f"{name}: refused: {cause.cause}") from cause
    return {name: text for name, text in made.items() if text}


def files_of(texts: dict[str, str], crates: packages.Crates, told: promises.Promises, allow: Tables = table) -> tuple[dict[str, str], str]:
    """The Rust files and the list of what was dropped, of sources by name."""
    causes, read_files = [], []
    for name, text in texts.items():
        try:
            read_files.append(read(name, text, allow))
        except Failed as cause:
            causes.append(str(cause))
    for file in read_files:
        try:
            words.check(file)
        except Refused as cause:
            causes.append(refusal(file.name, file.text, cause))
    if causes:
        raise Failed("\n".join(causes))
    check_whole(read_files, texts, allow)
    files, dropped = dict[str, str](), collections.Counter[Dropped]()
    for name in allow.CRATES:
        files[f"{name}/Cargo.toml"] = packages.manifest(name, crates)
        if name in examples.SHARED:
            files[f"{name}/{examples.SHARED_NAME}"] = examples.shared(name)
    for file in read_files:
        dropped.update(one for one in file.dropped)
        text, crate = erase(file, told), file.name.split("/")[0]
        files[target_of(file.name)] = packages.root(crate, crates, text) if file.name == f"{crate}/src/lib.rt" else text
    for name, text in pages(told, crates, allow).items():
        files[name] = text
        files[name.replace("proved.rs", "lib.rs")] += "\npub mod proved;\n"
    lines = []
    for one, count in dropped.items():
        times = f" ({count} times)" if count > 1 else ""
        lines.append(" | ".join(part for part in one if part) + times + "\n")
    return files, LIST_TEXT + "".join(sorted(lines))


def check_whole(files: list[File], texts: dict[str, str], allow: Tables = table) -> None:
    """What is to be looked at over all files."""
    functions = [function for file in files for function in file.functions]
    paths = collections.Counter(function.path for function in functions)
    special = list(allow.GUARDS) + allow.CONSTANT + list(allow.IMPLEMENTED) + list(allow.CASTS)
    for path in special:
        if paths[path] != 1:
            raise Failed(f"{path}: listed, and there are {paths[path]} of it")
    tested = {path: guard.tested_by for path, guard in allow.GUARDS.items()}
    for path, tester in [*tested.items(), *allow.IMPLEMENTED.items()]:
        if tester is not None and not guards.is_tested(tester, allow):
            raise Failed(f"{path}: {tester} tests nothing")
    check_meaning(files, allow)
    reachable = {file for one in files for file in one.modules} | {f"{crate}/src/lib.rt" for crate in allow.CRATES}
    for file in files:
        if file.name not in reachable:
            raise Failed(f"crates/{file.name}: no module declares it")
        count = len(re.findall(r"(?m)^ *(?:pub(?:\([a-z]+\))? )?fn [a-z]", texts[file.name]))
        if count != len(file.functions):
            raise Failed(f"crates/{file.name}: {count} lines begin a function, and {len(file.functions)} were read")
    for name in reachable - {file.name for file in files}:
        raise Failed(f"crates/{name}: declared, and not there")
    check_traits(files, allow)


def check_meaning(files: list[File], allow: Tables) -> None:
    """Names and numbers that mean one thing in Rattle and another in the emitted crate."""
    causes = names.causes(files, allow) + guards.causes(files, allow)
    # What ships has no names of the others.
    shipped = [file for file in files if file.ships]
    narrow = [file for file in files if file.has_narrow_targets]
    kinds = {True: widths.names(shipped), False: widths.names(narrow)}
    known = {True: foreign.names(shipped, allow.SHIPS), False: foreign.names(narrow, allow.CRATES)}
    for file in narrow:
        try:
            widths.check(file, kinds[file.ships])
            foreign.check(file, known[file.ships])
        except Refused as cause:
            causes.append(refusal(file.name, file.text, cause))
    if causes:
        raise Failed("\n".join(causes))


def check_traits(files: list[File], allow: Tables) -> None:
    """What has an invariant has no field that others can set, and what a method of a trait requires is tested in each implementation."""
    shipped = [file for file in files if file.ships]
    for file in shipped:
        for name in set(file.models) & set(file.open_types):
            raise Failed(f"crates/{file.name}: {name} has an invariant and a field that others can set")
        for name in set(file.models) - set(file.types):
            raise Failed(f"crates/{file.name}: a model of {name}, which is a type of another file")
    traits = {name for file in shipped for name in file.traits}
    functions = [function for file in shipped for function in file.functions]
    for function in functions:
        implemented = re.match(r"impl (.* :: )?(\w+)( <.*>)? for ", function.owner or "")
        if not implemented or implemented[2] not in traits:
            continue
        trait = implemented[2]
        declared = [one for one in functions if (one.owner, one.name) == (f"trait {trait}", function.name)]
        if any(one.requires for one in declared) and function.path not in allow.IMPLEMENTED:
            cause = f"{trait} requires something of its callers, and nothing says what tests it"
            raise Failed(f"{function.path}: {cause}")


def manifest(logic: str, found: dict[str, bytes], files: dict[str, str], allow: Tables) -> str:
    lines = [f"kit {logic}\n"]
    for name, data in sorted(found.items()):
        lines.append(f"{hashlib.sha256(data).hexdigest()}  crates/{name}\n")
    for name, text in sorted(files.items()):
        lines.append(f"{hashlib.sha256(text.encode()).hexdigest()}  {allow.OUTPUT}/{name}\n")
    return MANIFEST_TEXT + "".join(lines)


def compare(files: dict[str, bytes], found: dict[str, bytes], odd: list[str]) -> list[str]:
    """What differs between the files that are expected and those that are there."""
    causes = [f"{name}: not a plain file" for name in odd]
    for name in sorted(files.keys() | found.keys()):
        if name not in found:
            causes.append(f"{name}: missing")
        elif name not in files:
            causes.append(f"{name}: not expected")
        elif files[name] != found[name]:
            causes.append(f"{name}: not what the sources give: run tools/eraser/erase emit")
    return causes


def there(folder: pathlib.Path) -> tuple[dict[str, bytes], list[str]]:
    """The files of a folder by name, with their bytes, and what is no plain file. What is by hand is left out."""
    found, odd = {}, []
    for path in sorted(folder.rglob("*")):
        if names.is_by_hand(path.relative_to(folder)) or names.is_test(path.relative_to(folder)):
            continue
        name = str(path.relative_to(folder))
        if path.is_symlink() or not (path.is_dir() or path.is_file()):
            odd.append(name)
        elif path.is_file():
            found[name] = path.read_bytes()
    return found, odd
