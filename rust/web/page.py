#!/usr/bin/env python3
"""Makes the page: puts what is in the folder `page`, the module and the examples into one file of HTML.

    rust/web/page.py MODULE.wasm > page.html
"""
import base64
import gzip
import json
import pathlib
import sys

HERE = pathlib.Path(__file__).resolve().parent
EXAMPLES = HERE.parent.parent / "examples"
# The scripts of the page, in the order in which each needs those before it.
SCRIPTS = ["names", "runner", "chip", "timeline", "script", "link", "recording", "live", "main"]
# Files that are larger are not put into the page.
MOST_BYTES = 6000


def texts(folder: pathlib.Path, ending: str) -> dict[str, str]:
    """The files of a folder with this ending, by their names without it."""
    files = sorted(folder.glob(f"*{ending}"))
    return {file.name.removesuffix(ending): file.read_text("ascii") for file in files if file.stat().st_size <= MOST_BYTES}


def links() -> dict[str, list[str]]:
    """The pairs of scripts for the two ends of a cable, by their names."""
    ends = texts(EXAMPLES / "link", ".script")
    names = [name.removesuffix("-left") for name in ends if name.endswith("-left")]
    return {name: [ends[f"{name}-left"], ends[f"{name}-right"]] for name in names}


def without_names(module: bytes) -> bytes:
    """A module of WebAssembly without its custom sections, which have the names of its functions."""
    kept, at = module[:8], 8
    while at < len(module):
        start, kind, size, shift = at, module[at], 0, 0
        at += 1
        # The length of a section, in groups of seven bits.
        while True:
            size |= (module[at] & 0x7F) << shift
            at, shift = at + 1, shift + 7
            if module[at - 1] < 0x80:
                break
        at += size
        if kind:
            kept += module[start:at]
    return kept


def element(name: str, kind: str, text: str) -> str:
    """An element with data. A text that would end it is written in another way, which JSON and base64 allow."""
    return f'<script id="{name}" type="{kind}">{text}</script>'


def in_json(value: object) -> str:
    return json.dumps(value, separators=(",", ":")).replace("<", "\\u003c")


def data(module: bytes) -> list[str]:
    """What the page has beside its scripts."""
    # A fixed time, so that the same module makes the same page.
    packed = base64.b64encode(gzip.compress(without_names(module), 9, mtime=0)).decode()
    return [
        element("examples-of-scripts", "application/json", in_json(texts(EXAMPLES, ".script"))),
        element("examples-of-links", "application/json", in_json(links())),
        element("examples-of-recordings", "application/json", in_json(texts(EXAMPLES / "recordings", ".recording"))),
        element("worker", "text/plain", (HERE / "page/worker.js").read_text(encoding="utf-8")),
        element("module", "text/plain", packed),
    ]


def page(module: bytes) -> str:
    """The text of the page."""
    text = (HERE / "page/index.html").read_text(encoding="utf-8")
    scripts = [(HERE / f"page/{name}.js").read_text(encoding="utf-8") for name in SCRIPTS]
    parts = {
        "/* STYLE */": (HERE / "page/style.css").read_text(encoding="utf-8"),
        "/* SCRIPTS */": "\n".join(scripts),
        "<!-- DATA -->": "\n".join(data(module)),
    }
    for place, part in parts.items():
        if text.count(place) != 1:
            sys.exit(f"page.py: {place} is there {text.count(place)} times")
        text = text.replace(place, part)
    return text


if __name__ == "__main__":
    sys.stdout.buffer.write(page(pathlib.Path(sys.argv[1]).read_bytes()).encode())
