"""What the section of a call says of its clauses, as a table: planted clauses whose words a pattern could get wrong.

The clauses are those of a function of the crate `one`, whose file names these definitions.
"""
import definitions
import items
import promises

WORDS = {
    "Made": "the list that was made",
    "IsOnly": "the one",
    "Sends": "`send`: bytes are sent",
    "filled": "what was filled",
    "IsSmall": "it is small",
    "is_big": "whether it is big",
    "size": "its size in [bytes]",
    "todo": "what is to be done",
    "fields": "all fields",
}

# Clauses, and the lines of the section between its heading and the clauses. A link is shown as its text in square brackets.
SAID = [
    # a premise is no part of what is returned
    (["ensures { result ≡ false → self.new ≡ self.old }"], ["- If it returns `false`: nothing changes."]),
    (["ensures { is_some result ≡ true → buf.new ≡ buf.old }"], ["- If it returns `Some`: `buf` stays as it was."]),
    (["ensures { result ≡ Some n → n ≡ size self.now }"], ["- If it returns `Some n`: `n` is [`size`] `self.now`: its size in \\[bytes\\]."]),
    # a definition within a value is not the value
    (["ensures { result ≡ not (size self.now == 0) }"], ["- Returns `not (size self.now == 0)`.", "  - [`size`]: its size in \\[bytes\\]."]),
    (["ensures { result ≡ (fields self.now).limit }"], ["- Returns `(fields self.now).limit`.", "  - [`fields`]: all fields."]),
    (["ensures { result ≡ size self.now + 1 }"], ["- Returns `size self.now + 1`.", "  - [`size`]: its size in \\[bytes\\]."]),
    (["ensures { result ≡ fields.limit }"], ["- Returns `fields.limit`."]),
    # a part of the result is not the result
    (["ensures { result.0 ≡ size self.now }"], ["- `result.0` is [`size`] `self.now`: its size in \\[bytes\\]."]),
    (["ensures { result ≡ Ok (size self.now) }"], ["- Returns `Ok` of [`size`] `self.now`: its size in \\[bytes\\]."]),
    (["ensures { result ≡ Ok (1 + size self.now) }"], ["- Returns `Ok (1 + size self.now)`.", "  - [`size`]: its size in \\[bytes\\]."]),
    (["ensures { IsOkUnless result (x, E.Bad) }"], ["- Returns `Ok`, or `Err` of `(x, E.Bad)`."]),
    # what is denied
    (["ensures { (IsSmall x → ⊥) → result ≡ Err E.Bad }"], ["- Unless [`IsSmall`] `x`: returns `Err E.Bad`.", "  - [`IsSmall`]: it is small."]),
    (
        ["ensures { (IsSmall x × IsSmall y → ⊥) → result ≡ Err E.Bad }"],
        ["- Unless [`IsSmall`] `x` and [`IsSmall`] `y`: returns `Err E.Bad`.", "  - [`IsSmall`]: it is small."],
    ),
    (["ensures { result ≡ false → IsSmall x → ⊥ }"], ["- If it returns `false`: it is not so that [`IsSmall`] `x`: it is small."]),
    (
        ["ensures { (IsSmall x → ⊥) → result ≡ true → self.new ≡ self.old }"],
        ["- If `IsSmall x → ⊥`, and it returns `true`: nothing changes.", "  - [`IsSmall`]: it is small."],
    ),
    # both, and either
    (["ensures { IsOk result × (self.new ≡ size self.old) }"], ["- Returns `Ok`, and `self` becomes [`size`] `self.old`: its size in \\[bytes\\]."]),
    (["ensures { (result ≡ 1) ⊎ (result ≡ 2) }"], ["- `(result ≡ 1) ⊎ (result ≡ 2)`."]),
    (["ensures { (a < 1) ⊎ (2 < a) → result ≡ 3 }"], ["- If `a < 1` or `2 < a`: returns `3`."]),
    (["ensures { (x : ℕ) × (size x ≡ n) }"], ["- `(x : ℕ) × (size x ≡ n)`.", "  - [`size`]: its size in \\[bytes\\]."]),
    # names that are bound are no definitions
    (["ensures { (todo : Todo) → result ≡ Some todo → todo ≡ 3 }"], ["- For each `todo`: if it returns `Some todo`: `todo` is `3`."]),
    (["ensures { IfOk result (λ size. size ≡ 0 → length buf.now ≡ 0) }"], ["- If it returns `Ok size`: if `size ≡ 0`: `length buf.now ≡ 0`."]),
    (["ensures { result ≡ filled }"], ["- Returns `filled`."]),
    (["ensures { result ≡ self.filled }"], ["- Returns `self.filled`."]),
    # what stands for a definition is of a whole clause, about this call
    (
        ["ensures made { Made B.step (Sends b.now result) self.old self.new }"],
        ["- *made*: [makes accesses as] [`Sends`] `b.now result`: bytes are sent."],
    ),
    (
        ["ensures { Made B.step Sends a.old a.new }"],
        ["- [`Made`] `B.step Sends a.old a.new`: the list that was made.", "  - [`Sends`]: bytes are sent."],
    ),
    (["ensures { IsOnly (IsSmall 3) result }"], ["- [Returns the one value for which] [`IsSmall`] `3`: it is small."]),
    (["ensures { IsOnly (IsSmall 3) other }"], ["- [`IsOnly`] `(IsSmall 3) other`: the one.", "  - [`IsSmall`]: it is small."]),
    (["ensures { IfErr result (IsSmall 3) }"], ["- If it returns `Err`, for its value [`IsSmall`] `3`: it is small."]),
    (["ensures { IfErr other (IsSmall 3) }"], ["- `IfErr other (IsSmall 3)`.", "  - [`IsSmall`]: it is small."]),
    (["ensures { IsTrue result ↔ IsSmall self.now }"], ["- It returns `true` exactly if [`IsSmall`] `self.now`: it is small."]),
    (["ensures { is_some result ≡ is_big self.old }"], ["- Returns `Some` exactly if [`is_big`] `self.old`: whether it is big."]),
    # what is required; words are said once
    (
        ["requires low { n ≤ 3 }", "requires { IsSmall n }", "ensures a { IsSmall result }", "ensures b { size n ≡ 1 }", "ensures c { size n ≡ 2 }"],
        [
            "If `n ≤ 3`, and [`IsSmall`] `n` (it is small):",
            "",
            "- *a*: [`IsSmall`] `result`.",
            "- *b*: `size n ≡ 1`.",
            "  - [`size`]: its size in \\[bytes\\].",
            "- *c*: `size n ≡ 2`.",
        ],
    ),
    # long code is among the clauses alone
    ([f"ensures {{ size n ≡ {'1 + ' * 20}1 }}"], ["- What the clause beneath says.", "  - [`size`]: its size in \\[bytes\\]."]),
]


def section(clauses: list[str], owner: str | None = None) -> list[str]:
    """The section of a call with these clauses, one of whose parameters is called `filled`."""
    known = {}
    for name, words in WORDS.items():
        place = ("two", "Other", name)
        known[place] = definitions.Definition(place, words, False, f"abbrev pub {name} : ℕ", 1, [])
    places = {name: place for place in known for name in [place[2]] if name != "filled"}
    # What a section asks of a function; the rest is of any.
    form = items.Form("", "pub", owner, 0, 0, (0, 0), 0, 0, 0, clauses, [], True, False, False)
    return promises.section(form, promises.Clauses("one", places, {}, known))


def shown(lines: list[str]) -> list[str]:
    """The lines of a section between its heading and the clauses, with the texts of links."""
    end = lines.index("<details><summary>The clauses</summary>")
    return [promises.LINKED.sub(r"[\1]", line) for line in lines[3 : end - 1]]
