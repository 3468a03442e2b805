"""The documentation of an emitted file: examples that compile in Rust, and what a guard panics for."""
import re
from collections.abc import Iterator

import examples
import hiding
from items import Edit, File
from tokens import Refused, Token

FENCE = re.compile(r"(//[/!]) ```(.*)$")


def edits(file: File) -> list[Edit]:
    """The edits of a file's documentation."""
    refused = hiding.in_documentation(file.comments)
    if refused:
        raise Refused(refused[1], refused[0].start)
    found = []
    for comments, path in blocks(file):
        found += example(file, comments, path)
        guard = file.table.GUARDS.get(path)
        if guard and guard.panics and path:
            found.append(panics(file, comments, path, guard.panics))
    return found


def continues(file: File, last: Token, comment: Token) -> bool:
    """Whether a comment is the next line of the same documentation."""
    return not file.text[last.end : comment.start].strip() and comment.text[:3] == last.text[:3]


def blocks(file: File) -> Iterator[tuple[list[Token], str | None]]:
    """Each run of lines of documentation, with the path of the item that it is about."""
    places = sorted(file.places)
    block: list[Token] = []
    for comment in [*(one for one in file.comments if re.match(r"//[/!]( |$)", one.text)), None]:
        if block and (comment is None or not continues(file, block[-1], comment)):
            item = next((path for start, path in places if start > block[0].start), None)
            between = next((start for start, _ in places if start > block[0].start), None)
            inner = block[0].text.startswith("//!")
            is_next = between is not None and file.next_code(block[-1].end) == between
            yield block, file.module if inner else item if is_next else None
            block = []
        if comment:
            block.append(comment)


def example(file: File, comments: list[Token], path: str | None) -> list[Edit]:
    """Hidden lines around each example, and the calls of its assertions without the handle. An example of what no user names is a text."""
    found, inside = [], False
    crate = file.name.split("/")[0]
    is_text = crate not in examples.SHARED
    fences = [place for place, comment in enumerate(comments) if FENCE.match(comment.text)]
    shown = [comment.text for comment in comments[fences[0] : fences[-1]]] if fences else []
    for comment in comments:
        fence = FENCE.match(comment.text)
        if fence and is_text:
            if not inside:
                found.append(Edit("documentation", comment.start, comment.end, f"{fence[1]} ```text"))
            inside = not inside
        elif fence:
            around = file.table.EXAMPLES.get(path) or examples.of_rings(path, "\n".join(shown)) or examples.of_driver(path)
            if fence[2] or around is None:
                raise Refused(f"an example that is not listed: {path}", comment.start)
            before, behind = around
            line = file.text.rfind("\n", 0, comment.start) + 1
            indent = file.text[line : comment.start]
            lines = [f"{indent}{fence[1]} {one}\n" for one in (behind if inside else before)]
            lines = [examples.named(crate, one) for one in lines]
            at = line if inside else comment.end + 1
            if lines:
                found.append(Edit("documentation", at, at, "".join(lines)))
            inside = not inside
        elif inside and not is_text and re.search(r"\brt\b", comment.text):
            text = re.sub(r"\b(assert(?:_eq|_ne)?!)\(rt;(?: |$)", r"\1(", comment.text)
            if re.search(r"\brt\b", text):
                raise Refused("an example with `rt` of another form", comment.start)
            found.append(Edit("documentation", comment.start, comment.end, text))
    if inside:
        raise Refused("an example with no end", comments[-1].start)
    return found


def panics(file: File, comments: list[Token], path: str, text: str) -> Edit:
    """A section Panics, before the examples or at the end."""
    if any(re.match(r"/// # Panics", comment.text) for comment in comments):
        raise Refused("a section Panics in the source", comments[0].start)
    place = next((one for one in comments if one.text == "/// # Examples"), None)
    line = file.text.rfind("\n", 0, comments[0].start) + 1
    indent = file.text[line : comments[0].start]
    lines = ["/// # Panics", "///"] + [f"/// {one}" for one in text.split("\n")]
    if place:
        at = file.text.rfind("\n", 0, place.start) + 1
        return Edit("panics", at, at, "".join(f"{indent}{one}\n" for one in lines + ["///"]))
    at = comments[-1].end + 1
    return Edit("panics", at, at, "".join(f"{indent}{one}\n" for one in ["///"] + lines))
