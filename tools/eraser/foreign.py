"""What code may name of core, of the kit and of the libraries, in a crate that is compiled for other targets than Rattle has.

In Rattle `usize` has 64 bits and numbers lie in memory from their low byte on. So each name of these lists means the same on each target of
Rust, whatever type it is of. A name that is neither here nor declared in the sources is refused, whether it is called or given as a value.
`widths.py` is about what is done with a `usize`.
"""
import functools
import re
from collections.abc import Iterator
from typing import NamedTuple, Protocol

import words
from items import File
from tokens import Token

# Methods, whatever they are of: slices, texts, options, results, iterators, queues, lists, registers, writers, numbers.
METHODS = """
all and_then any as_bytes as_mut_slice as_ref as_slice as_str bits capacity chunks_exact clear clone cmp collect contains copied
copy_from_slice copy_within count debug_struct difference enumerate extend_from_slice field filter filter_map find finish
finish_non_exhaustive first first_chunk flush fold get insert intersection intersects into is_ascii_digit is_ascii_hexdigit is_empty
is_err is_full is_none is_none_or is_ok is_power_of_two is_some iter iter_mut kind last len map map_err max min next nth ok ok_or pop
pop_front position push push_back push_str read remove replace size split split_at split_first split_last strip_prefix strip_suffix
symmetric_difference take then then_some to_string to_vec truncate try_extend_from_slice try_push union unwrap unwrap_or write write_all
write_char write_fmt write_str
""".split()
# Of these, those that give a `bool`, and the macro that does.
TRUTHS = """
all any contains intersects is_ascii_digit is_ascii_hexdigit is_empty is_err is_full is_none is_none_or is_ok is_power_of_two is_some
matches
""".split()
# Methods that mean the same at a site whose type is known: `widths.py` lists each.
AT_A_SITE = re.compile(r"(checked|saturating|wrapping|overflowing)_\w+|pow|abs_diff|isqrt|next_multiple_of|div_ceil|midpoint|rotate_\w+")
# What a path names, by the type, the trait or the module in front. Of `usize` it is what each target has room for. Of other numbers the
# order of bytes is told by the name: `from_ne_bytes`, `to_be` and the like are what the target is.
OF_NUMBERS = "MAX from from_be_bytes from_le_bytes to_be_bytes to_le_bytes".split()
PATHS = {
    **{number: OF_NUMBERS for number in ("u8", "u16", "u32", "u64")},
    "usize": ["from"],
    "char": ["from"],
    "str": ["from_utf8"],
    "std": "alloc cmp convert error fmt io num".split(),
    "alloc": "AllocError AllocFailed Global".split(),
    "cmp": ["Ordering"],
    "convert": ["From"],
    "error": ["Error"],
    "fmt": "Debug Display Error Formatter Result Write".split(),
    "io": "Error ErrorKind Read Result Write".split(),
    "num": "NonZeroU8 NonZeroU64 NonZeroUsize".split(),
    "arrayvec": "ArrayString ArrayVec".split(),
    "bitflags": "Flag Flags".split(),
    "circular_buffer": ["HeapCircularBuffer"],
    **{name: ["new"] for name in ("ArrayString", "ArrayVec", "NonZeroU8", "NonZeroU64", "NonZeroUsize", "String")},
    "Vec": "new with_capacity".split(),
    "HeapCircularBuffer": ["with_capacity"],
    "Display": ["fmt"],
    "ErrorKind": ["Interrupted"],
}
# The names that core has for values of any type, so that none says which type a value has.
OF_ANY_TYPE = {*METHODS, *OF_NUMBERS, "new"}
# What a trait of a library gives a type of ours.
OF_OURS = "all empty".split()
# Functions that each file has without an import. Their results, and what `drop` calls, are the target's.
PRELUDE = "align_of align_of_val drop size_of size_of_val".split()
# The functions of core's numbers, and those that give a number of any width, but for the methods above. No name of ours is one of them:
# a call of core's would pass for a call of ours.
OF_CORE = re.compile(
    r"BITS|(count|leading|trailing)_(zeros|ones)|bit_width|(isolate_)?(highest|lowest)_one|cast_(un)?signed|(rotate|funnel)_\w+"
    r"|(swap|reverse)_(bytes|bits)|(from|to)_(be|le|ne)(_bytes)?|(min|max)_value|pow|isqrt|ilog(2|10)?|midpoint|abs_diff"
    r"|(checked|strict|unchecked|saturating|wrapping|overflowing|carrying|borrowing|widening|unbounded)"
    r"_(add|sub|mul|div|rem|neg|sh[lr]|pow)(_\w+)?"
    r"|(div|rem)_(euclid|floor|ceil|exact)|sh[lr]_exact|(next|is)_multiple_of|next_power_of_two|(extract|deposit)_bits"
    r"|from_str_radix|from_ascii\w*|try_from|try_into|parse|sum|product|(size|align)_of(_val)?"
)
# An address in a text.
ADDRESS = re.compile(r"\{[^{}]*:[^{}]*p\}")


# What the sources declare: types with their parameters, modules, functions of a type, functions of a module, and cases and constants.
class Names(NamedTuple):
    types: set[str]
    modules: set[str]
    methods: set[str]
    functions: set[str]
    others: set[str]


# A name that is used: what it is behind, as `.` or the head of a path; what it is, and where.
class Mention(NamedTuple):
    behind: str
    word: str
    at: int


# The words of a file, of the sources or by hand.
class Words(Protocol):
    def word(self, at: int) -> str:
        ...

    def kind(self, at: int) -> str:
        ...

    def closing(self, at: int) -> int:
        ...


# Behind nothing: a function that is called by its name alone.
CALL = ""


def check(file: File, known: Names) -> None:
    """Refuses a name that is neither listed nor declared. `known` is what is declared in the files that this one may name."""
    for form in file.forms:
        if form.owner and OF_CORE.fullmatch(form.path.split("::")[-1]):
            file.refuse(f"`{form.path.split('::')[-1]}`, a function of a type, which core's numbers have too", form.start)
    for behind, word, at in mentions(file):
        if not is_known(behind, word, known):
            file.refuse(f"`{word}`, which is neither ours nor listed", at)
    for at, token in enumerate(file.code):
        if token.kind == "word" and token.text in PRELUDE:
            file.refuse(f"`{token.text}`, which depends on the target", at)
        if token.kind == "string" and ADDRESS.search(token.text):
            file.refuse("an address in a text", at)


def is_known(behind: str, word: str, known: Names) -> bool:
    if behind == CALL:
        return word in known.functions
    if behind == ".":
        return word in METHODS or word in known.methods or AT_A_SITE.fullmatch(word) is not None
    if behind in known.types:
        return word in known.methods or word in known.others or word in known.types or word in OF_OURS
    if behind in known.modules:
        return any(word in one for one in known)
    return word in PATHS.get(behind, [])


def names(files: list[File], crates: list[str]) -> Names:
    """What these files declare, whose crates have these names."""
    of_language = Names({"Self"}, {"self", "super", "crate", *crates}, set(), set(), set())
    return Names(*(set().union(*ones) for ones in zip(of_language, *map(declared, files))))


@functools.lru_cache(maxsize=None)
def declared(file: File) -> Names:
    """What one file declares."""
    types, others = {*file.types, *file.traits}, set()
    for at in range(len(file.code)):
        word, after = file.word(at), file.word(at + 1)
        if file.kind(at) != "word":
            continue
        if word in ("fn", "struct", "enum", "trait", "type"):
            types |= parameters(file, at + 2) | ({after} if word == "type" else set())
        elif word == "impl":
            types |= parameters(file, at + 1)
        elif word == "const":
            others.add(after)
        if word == "enum":
            others |= cases(file, file.behind_generics(at + 2))
    kept = [function for function in file.functions if function.kept]
    # a file that no module declares is refused elsewhere
    modules = {one.rpartition("/")[2].removesuffix(".rt") for one in (*file.modules, file.name)}
    return Names(types, modules, {one.name for one in kept if one.owner}, {one.name for one in kept if not one.owner}, others)


def parameters(file: File, at: int) -> set[str]:
    """The names of the parameters in the brackets at this index, if there are any."""
    found, depth = set(), 0
    for here in range(at, file.behind_generics(at)):
        depth += {"<": 1, ">": -1}.get(file.word(here), 0)
        if depth == 1 and file.word(here) in ("<", ","):
            found.add(file.word(here + (2 if file.word(here + 1) == "const" else 1)))
    return found


def cases(file: File, at: int) -> set[str]:
    """The cases of the enum whose brace is at this index."""
    found, end = set(), file.closing(at)
    at += 1
    while at < end:
        while file.begins(at, "# ["):
            at = file.closing(at + 1) + 1
        found.add(file.word(at))
        while at < end and file.word(at) != ",":
            at = file.closing(at) + 1 if file.word(at) in ("(", "{", "[") else at + 1
        at += 1
    return found


@functools.lru_cache(maxsize=None)
def mentions(file: File) -> list[Mention]:
    """The names that are used in the code of a file that is kept."""
    gone = words.Spans((edit.start, edit.end) for edit in file.edits if edit.rule not in words.REWRITES and edit.end > edit.start)
    found, at = list[Mention](), 0
    while at < len(file.code):
        token = file.code[at]
        if token.start in gone or token.kind != "word":
            at += 1
        elif token.text == "use":
            end = file.semicolon(at)
            found += imports(file, at + 1, end)
            at = end
        else:
            found += mention(file, at, token)
            at += 1
    return found


def mention(file: File, at: int, token: Token) -> Iterator[Mention]:
    """The name at this index as it is used, if it is a method, part of a path, or a function that is called."""
    before, after = file.word(at - 1), file.word(at + 1)
    if before == "." and after in ("(", "::"):
        yield Mention(".", token.text, at)
    elif before == "::":
        yield Mention(file.word(at - 2), token.text, at)
    elif before not in (".", "fn") and after == "(" and token.text[0].islower() and token.text not in words.KEYWORDS:
        # an attribute is no call
        if not file.begins(at - 2, "# ["):
            yield Mention(CALL, token.text, at)


def imports(file: Words, at: int, end: int, head: str = "") -> Iterator[Mention]:
    """What a `use` names, behind which module, between these indices."""
    while at < end:
        if file.word(at) == "{":
            close = file.closing(at)
            yield from imports(file, at + 1, close, head)
            at = close + 1
            continue
        path = head
        while file.kind(at) == "word" and file.word(at) != "as" or file.word(at) == "*":
            if path:
                yield Mention(path, file.word(at), at)
            path = file.word(at)
            at += 2 if file.word(at + 1) == "::" else 1
            if file.word(at - 1) != "::":
                break
        if file.word(at) == "{":
            close = file.closing(at)
            yield from imports(file, at + 1, close, path)
            at = close + 1
        while at < end and file.word(at) != ",":
            at += 1
        at += 1
