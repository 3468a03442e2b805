"""The eraser's own tests, as tables.

What it refuses, with the cause that it prints, and what its check finds.
"""
import contextlib
import pathlib
import sys
import tempfile
from collections.abc import Callable, Iterable, Iterator
from typing import TypeVar

import around
import attacks
import crate
import deceptions
import guards
import packages
import promised
import promises
import second
import table
import words
from tokens import Refused

ROOT = pathlib.Path(__file__).resolve().parent.parent.parent
sys.path.append(str(ROOT / "tools" / "eraser" / "mir"))

import interface  # noqa: E402
import listed  # noqa: E402
import planted  # noqa: E402

Key = TypeVar("Key")
Entry = TypeVar("Entry")

# Forms behind the code of uart_spec/src/backend.rt that are accepted, so that the refusals below have their own causes.
ACCEPTED = [
    "const A: u32 = 70_000;",
    "fn f(x: usize) -> usize {\n    x + 0xffff\n}",
    "fn f(x: u8) -> u8 {\n    x\n}",
    "fn f(x: [u8; 2]) -> u16 {\n    u16::from_le_bytes(x)\n}",
    "fn f(x: u8) -> u8\n    ensures { result ≡ x }\n{\n    x\n}",
    "fn f(x: &[u8]) -> u8 {\n    x[1..].len().min(3) as u8\n}",
    "fn f(x: Option<u8>) -> u8 {\n    x.unwrap_or(3)\n}",
    "pub struct S {\n    pub x: u8,\n}",
    "#[derive(Clone, Drop)]\npub struct S {\n    x: u8,\n    ghost in_range: { x ≤ 3 },\n}",
    "enum E {\n    A = 1,\n    B = 5,\n}",
    "pub trait T {\n    fn f(&self) -> u8;\n}",
    "pub struct S;\nimpl S {\n    fn g(&self) -> bool {\n        matches!(1, 1..=3)\n    }\n}",
    "#[inline(always)]\nfn f() -> u8 {\n    3\n}",
    "fn f(x: bool) -> bool {\n    !x\n}",
    "fn f(x: &[u8]) -> bool {\n    !x.is_empty()\n}",
    "fn f(x: Option<u16>) -> Option<u32> {\n    x.map(u32::from)\n}",
    "use std::num::NonZeroUsize;\nfn f(x: usize) -> Option<NonZeroUsize> {\n    NonZeroUsize::new(x)\n}",
    "fn f(x: Vec<Vec<u8>>) -> Option<Option<u8>> {\n    Some(x.first()?.first().copied())\n}",
]

# A function, and whether Rust is to warn of a caller that drops its result.
RESULTS = [
    ("pub fn f(x: u8) -> u8 {\n    x\n}", True),
    ("#[must_use]\npub fn f(x: u8) -> u8 {\n    x\n}", True),
    ("#[inline]\npub fn f<'a>(x: &'a [u8], y: u8) -> Option<&'a u8>\n    ensures { a }\n{\n    x.first()\n}", True),
    ("fn f(x: u8) -> u8 {\n    x\n}", False),
    ("pub(crate) fn f(x: u8) -> u8 {\n    x\n}", False),
    ("pub fn f(x: u8) {}", False),
    ("pub fn f(x: u8) -> Result<u8, u8> {\n    Ok(x)\n}", False),
    ("use std::fmt;\npub fn f(x: fmt::Result) -> fmt::Result {\n    x\n}", False),
    ("pub fn f(x: &mut u8) -> u8 {\n    *x\n}", False),
    ("pub fn f<'a>(x: &'a mut u8) -> &'a u8 {\n    x\n}", False),
]

# A form behind the code of the same file, and the cause.
FORMS = [
    # what a clause may not have
    ("fn f()\n    ensures { a } /* } */\n{\n    g\n}", "a block comment"),
    ("fn f(x: u8) -> u8\n    ensures { a /* } { */ }\n{\n    x\n}", "`/*` in a clause"),
    ("fn f(x: u8) -> u8\n    ensures { a -- b }\n{\n    x\n}", "`--` in a clause"),
    ("fn f(x: u8) -> u8\n    ensures { a // b }\n{\n    x\n}", "`//` in a clause"),
    ('fn f(x: u8) -> u8\n    ensures { "} {" }\n{\n    x\n}', '`"` in a clause'),
    ("fn f(x: u8) -> u8\n    ensures { '}' }\n{\n    x\n}", "`'` in a clause"),
    ("fn f(x: u8) -> u8\n    ensures { \\a. a }\n{\n    x\n}", "`\\` in a clause"),
    ("fn f(x: u8) -> u8\n    ensures { a } fn g() { b }\n{\n    x\n}", "a function without a body"),
    ("fn f(x: u8) -> u8\n    ensures { a ≡ { fn g() } }\n{\n    x\n}", "`fn` in a clause"),
    ("fn f(x: u8) -> u8\n    ensures { pub a }\n{\n    x\n}", "`pub` in a clause"),
    ("fn f(x: u8) -> u8\n    ensures { impl a }\n{\n    x\n}", "`impl` in a clause"),
    ("fn f(x: u8) -> u8\n    ensures { a -> b }\n{\n    x\n}", "`->` in a clause"),
    ("fn f(x: u8) -> u8\n    ensures { a; b }\n{\n    x\n}", "`;` in a clause"),
    ("fn f(x: u8) -> u8\n    ensures { a ≠ b }\n{\n    x\n}", "the letter '\\u2260' in a clause"),
    ("fn f(x: u8) -> u8\n    ensures a\n{\n    x\n}", "a word `ensures` without a clause"),
    ("fn f(x: u8) -> u8\n    ensures { a\n{\n    x\n}", "braces of a clause that are not closed"),
    ("fn f(x: u8) -> u8\n    requires* a { x }\n{\n    x\n}", "a word `requires` without a clause"),
    ("fn f(x: u8) -> u8 {\n    requires { x }\n    x\n}", "a clause or a ghost item in a body"),
    # ghost items
    ("ghost fn f() {}", "a ghost item of no known form"),
    ("ghost a = { b }\nfn f() {\n    b\n}", "a ghost item with no end"),
    ("ghost use a.{b; c};", "a `ghost use` of no known form"),
    ("pub(crate) ghost a = { b };\npub fn f(x: u8) -> u8 {\n    x\n}", "in front of a ghost item"),
    ("#[inline(always)]\nghost a = { b };\nfn f(x: u8) -> u8 {\n    x\n}", "in front of a ghost item"),
    ("ghost a = { b }; fn f(x: u8) -> u8 {\n    x\n}", "something else on the line of what is dropped"),
    ("struct S {\n    pub ghost a: { b },\n    x: u8,\n}", "in front of a ghost field"),
    # letters
    ("fn f(x: u8) -> u8 {\n    x\u00a0\n}", "no token"),
    ("fn f(x: u8) -> u8 { // a\rb\n    x\n}", "the character '\\r'"),
    ("fn f(x: u8) -> u8 {\n\tx\n}", "the character '\\t'"),
    ("// \u202e\nfn f(x: u8) -> u8 {\n    x\n}", "the character '\\u202e'"),
    ("// \u2028fn g() {}\nfn f(x: u8) -> u8 {\n    x\n}", "the character '\\u2028'"),
    ("// \u00e9\nfn f(x: u8) -> u8 {\n    x\n}", "not ASCII"),
    ("fn \u00e9() {}", "no token"),
    ('const A: &str = r"a";', "no token"),
    ('const A: &str = r#"a"#;', "no token"),
    ('const A: &str = "a\nb";', "no token"),
    # items
    ("unsafe fn f() {}", "an item that begins with `unsafe`"),
    ("const fn f() -> u8 {\n    3\n}", "a `const fn` of the source"),
    ("pub final fn f() -> u8 {\n    3\n}", "an item that begins with `final`"),
    ("static A: u8 = 1;", "an item that begins with `static`"),
    ("macro_rules! f { () => { } }", "an item that begins with `macro_rules`"),
    ('extern "C" fn f() {}', "an item that begins with `extern`"),
    ("mod a {\n    fn f() {}\n}", "a module with a body"),
    ("pub(in crate::a) fn f(x: u8) -> u8 {\n    x\n}", "the visibility"),
    ("mod uart_ring;", "`uart_ring`, the name of a crate, for something else"),
    ("mod core;", "`core`, the name of a crate, for something else"),
    ("mod alloc;", "`alloc`, the name of a crate, for something else"),
    ("mod bitflags;", "`bitflags`, the name of a crate, for something else"),
    ("mod std;", "`std`, the name of a crate, for something else"),
    ("mod more;", "uart_spec/src/backend/more.rt: declared, and not there"),
    ("#[cfg(unix)]\nfn f(x: u8) -> u8 {\n    x\n}", "the attribute `cfg`"),
    ("#[repr(packed)]\nstruct S(u8);", "the attribute `repr`"),
    ("#![allow(warnings)]", "an item that begins with `#`"),
    ("#[derive(Clone, Serialize)]\nstruct S(u8);", "the derive `Serialize`"),
    ("#[allow(unused)]\nuse crate::registers::IER;", "an attribute of a `use`"),
    # names that Rust could take for others
    # lemmas and models
    ("struct S {\n    pub x: u8,\n    ghost in_range: { x ≤ 3 },\n}", "S has an invariant and a field that others can set"),
    ("struct S {\n    pub(crate) x: u8,\n}\nimpl Model for S {\n    ghost view = { a };\n}", "S has an invariant and a field"),
    ("impl Model for Other {\n    ghost view = { a };\n}", "a model of Other, which is a type of another file"),
    ("struct S;\nimpl S {\n    fn law()\n        ensures { a }\n    {}\n}", "a lemma in an item"),
    ("pub trait T {\n    fn law()\n        ensures { a }\n    {}\n}", "a lemma in an item"),
    ("struct S;\nimpl Model for S {\n    fn f(&self) -> u8 {\n        3\n    }\n}", "a `Model` with code"),
    # bounds
    ("fn f<B>(x: B) -> B\nwhere\n    B: Drop,\n    B: Copy,\n{\n    x\n}", "a `where` of more than `Drop`"),
    ("fn f<B>(x: B) -> B\nwhere\n    B: Copy\n    ensures { a }\n{\n    x\n}", "a `where` of more than `Drop`"),
    ("fn f<B: Drop + Copy>(x: B) -> B {\n    x\n}", "a bound `Drop` of another form"),
    ("struct S;\nimpl fmt::Display for S {\n    fn fmt<W: Other>(&self, f: &mut F<W>) -> u8 {\n" "        3\n    }\n}", "a `fmt` of another form"),
    ("struct S;\nimpl Drop for S {\n    fn drop(self) {\n        let S = self;\n    }\n}", "the word `Drop`"),
    # guards
    ("pub fn f(x: u8) -> u8\n    requires { x ≤ 3 }\n{\n    x\n}", "backend::f requires other things than its guard is for: requires { x ≤ 3 }"),
    ("fn f(x: u8) -> u8\n    requires { x ≤ 3 }\n{\n    x\n}", "backend::f requires other things than its guard is for"),
    ("pub trait T {\n    fn f(&self, x: u8) -> u8\n        requires { x ≤ 3 }\n    {\n        x\n    }\n}", "backend::T::f requires other things"),
    (
        "pub struct S;\nimpl Backend for S {\n    fn read(&mut self, x: u8) -> u8 {\n        x\n    }\n\n"
        "    fn write(&mut self, x: u8, y: u8) {\n        return;\n    }\n}",
        "Backend requires something of its callers, and nothing says what tests it",
    ),
    # code
    ("fn f(x: u8) -> u8 {\n    unsafe { x }\n}", "the word `unsafe`"),
    ('fn f() {\n    println!("x")\n}', "the macro `println`"),
    ("fn f() {\n    MACRO!(x)\n}", "the macro `MACRO`"),
    ("fn f() {\n    assert!(true);\n}", "the macro `assert`"),
    ("fn f(rt: u8) -> u8 {\n    rt\n}", "the word `rt`"),
    ("fn f() {\n    prove!(true)\n}", "the word `prove`"),
    ("fn f() {\n    while true invariant { x } { }\n}", "the word `invariant`"),
    ("fn f() -> usize {\n    std::mem::size_of::<u8>()\n}", "the word `size_of`"),
    ("fn f(x: &dyn T) -> u8 {\n    3\n}", "the word `dyn`"),
    ("fn f() -> usize {\n    usize::MAX\n}", "a limit of `usize`"),
    ("fn f() -> u32 {\n    usize::BITS\n}", "a limit of `usize`"),
    ("const A: usize = 70_000;", "a number above 65,535"),
    ("fn f() -> usize {\n    70_000_usize\n}", "a number above 65,535"),
    ("fn f(x: usize) -> usize {\n    x + 0x1_0000\n}", "a number above 65,535"),
    ("fn f(x: u64) -> usize {\n    x as usize\n}", "a cast to `usize` that is not listed"),
    ("fn f(x: *const u8) -> u8 {\n    3\n}", "a raw pointer"),
    ("fn f(x: u8) -> u8 {\n    let y = &raw mut x;\n    3\n}", "a raw pointer"),
    ("fn f() -> u8 {\n    1.5 as u8\n}", "a number that is not whole"),
    ("fn f() -> u8 {\n    fn g() -> u8 {\n        3\n    }\n    3\n}", "`fn` in a body"),
    ("fn f() -> u8 {\n    use crate::a;\n    3\n}", "`use` in a body"),
    ("fn f() -> u8 {\n    #[cfg(unix)]\n    return 4;\n    3\n}", "`#` in a body"),
    ("fn f(x: u8) -> u8 {\n    (x]\n}", "brackets that do not match"),
    ("async fn f() {}", "an item that begins with `async`"),
    ("fn f() -> u8 {\n    1e3 as u8\n}", "a number that is not whole"),
    ("pub struct S(pub(super) u8);", "a register without `Debug`"),
    ("#[derive(Clone)]\npub struct S(pub(super) u8);", "a register without `Debug`"),
    # documentation
    ("/// ```\n/// f()\n/// ```\nfn f(x: u8) -> u8 {\n    x\n}", "an example that is not listed"),
]

# An edit of a source, and the cause.
SOURCES = [
    ("uart_spec/src/registers/prescaler_division.rt", "requires { pdf ≤ 15 }", "requires { pdf ≤ 31 }", "set_pdf requires other things"),
    ("uart_spec/src/registers/prescaler_division.rt", "        requires { pdf ≤ 15 }\n", "", "for: nothing"),
    ("uart_spec/src/baud.rt", "requires divisor { 0 < divisor }", "requires divisor { 1 < divisor }", "calc_frequency requires other things"),
    ("uart_spec/src/baud.rt", "pub fn calc_divisor(", "pub fn calc_divisors(", "calc_divisors requires other things"),
    ("uart_spec/src/baud.rt", "\nfn other_factor(", "\npub fn other_factor(", "other_factor can be reached"),
    # What is in the page has targets of 32 bits too.
    ("uart_language/src/fields.rt", "Ok(capacity as usize)", "Ok((1 + capacity) as usize)", "a cast to `usize` that is not listed"),
    ("uart_language/src/limits.rt", "MOST_READ: usize = MOST_BYTES + 1", "MOST_READ: usize = usize::MAX", "a limit of `usize`"),
    ("uart_judges/src/audit/unread.rt", "self.count.saturating_sub(1)", "self.count * self.count", "`count * self` is not listed"),
    ("uart_16550/src/driver/init.rt", "match calc_divisor(", "match calc_other(", "init does not call uart_spec::baud::calc_divisor"),
    (
        "uart_16550/src/mmio.rt",
        "let address = self.address(register_offset);",
        "let address = 3;",
        "MmioBackend::read does not call uart_16550::mmio::MmioBackend::address",
    ),
    ("uart_16550/src/pio.rt", "    fn port(&self", "    fn ports(&self", "PioBackend::ports requires other things"),
    ("uart_16550/src/driver.rt", "    pub(crate) fn read_plain", "    pub fn read_plain", "read_plain can be reached"),
    ("uart_spec/src/lib.rt", "mod config;\n", "", "config.rt: no module declares it"),
    ("uart_spec/src/lib.rt", "mod config;\n", "mod config;\nmod extra;\n", "extra.rt: declared, and not there"),
    ("uart_spec/src/lib.rt", "#![tactic(auto)]", "#![no_std]", "an inner attribute other than tactic"),
    ("uart_spec/src/config.rt", "    pub fn to_integer(self)", "    pub fn as_integer(self)", "BaudRate::to_integer: listed, and there are 0 of it"),
    (
        "uart_spec/src/backend.rt",
        "        ensures { step self.old (Write register_offset value) self.new };\n}",
        "        ensures { a } fn hidden(&mut self);\n}",
        "a function without a body or a semicolon",
    ),
    ("uart_spec/src/backend.rt", "    ghost step: {", "    ghost use a.b; ghost step: {", "something else on the line"),
    (
        "uart_spec/src/dump.rt",
        "/// # Errors\n    ///\n    /// `NonInteger",
        "/// # Panics\n    ///\n    /// `NonInteger",
        "a section Panics in the source",
    ),
    (
        "uart_16550/src/driver.rt",
        "assert_eq!(rt; uart.fifo_enabled(), true);",
        "check!(rt; uart.fifo_enabled(), true);",
        "an example with `rt` of another form",
    ),
    (
        "uart_16550/src/driver.rt",
        "assert_eq!(rt; uart.fifo_enabled(), true);",
        "assert_equal(&rt, uart.fifo_enabled(), true);",
        "an example with `rt` of another form",
    ),
]

# An edit of an emitted file, which the comparison of bytes finds.
BYTES = [
    ("uart_16550/src/driver/init.rs", "0x42", "0x43"),
    ("uart_spec/src/baud.rs", "/// not fit into 32 bits.\n", ""),
    ("uart_spec/src/baud.rs", "/// # Panics", "/// # Errors"),
    ("uart_16550/src/driver/init.rs", "/// Initialises the device", "/// Initializes the device"),
    ("uart_16550/src/driver.rs", "// Reads LSR, and", "// Reads LSR; \rlet x = 1; //"),
    ("uart_16550/src/driver.rs", "impl<B: Backend>", "impl<B:  Backend>"),
    ("uart_16550/src/driver.rs", "#[repr(C)]\n", ""),
    ("uart_spec/src/errors.rs", "non_exhaustive", "must_use"),
    ("uart_ring/src/lib.rs", "mod ring;", "pub mod ring;"),
    ("uart_ring/src/lib.rs", "#![forbid(unsafe_code)]\n", ""),
    ("uart_spec/src/lib.rs", "\nmod by_hand;", "\n#[cfg(unix)]\nmod by_hand;"),
    ("uart_spec/examples.rs", "(port % 8)", "(port % 9)"),
    ("uart_live/Cargo.toml", 'edition = "2024"', 'edition = "2021"'),
    ("uart_live/Cargo.toml", "../../kit", "../../other"),
    ("MANIFEST", "  dropped\n", "  dropped by hand\n"),
    ("MANIFEST", "kit ", "kit of another day "),
]

# An edit of a file by hand around the emitted packages, and the cause. An empty old text is a new file.
LAYOUT = "rust/proved/uart_spec/src/by_hand/layout.rs"
DURATION = "rust/proved/uart_spec/src/by_hand/duration.rs"
ERRORS = "rust/proved/uart_spec/src/by_hand/errors.rs"
SERIAL = "rust/uart_16550_chip/src/serial.rs"
REGISTERS = "rust/proved/uart_spec/src/registers/by_hand.rs"
KIT_ROOT = "rust/kit/src/lib.rs"
AROUND = [
    (LAYOUT, "impl ByteOrder {", "macro_rules! f { () => {} }\n#[macro_use]\nmod more {}\nimpl ByteOrder {", "`macro_use`"),
    (LAYOUT, "impl ByteOrder {", "extern crate std as core;\nimpl ByteOrder {", "`extern crate`"),
    (LAYOUT, "impl ByteOrder {", '#[path = "other.rs"]\nmod more;\nimpl ByteOrder {', "`path`"),
    (LAYOUT, "impl ByteOrder {", "#[cfg(unix)]\nimpl ByteOrder {", "`cfg`"),
    (LAYOUT, "impl ByteOrder {", "#[cfg_attr(all(), cfg(unix))]\nimpl ByteOrder {", "`cfg_attr`"),
    (LAYOUT, "impl ByteOrder {", "fn f() { other_factor() }\nimpl ByteOrder {", "`other_factor`, which requires"),
    (DURATION, "use core::time::Duration;", "use core::time::Duration;\nuse std::time::Instant;", "`time::Instant`"),
    (ERRORS, "$(impl Copy for $Error {})*", "$(impl Drop for $Error { fn drop(&mut self) {} })*", "the trait `Drop` for a type"),
    (REGISTERS, "SubAssign sub_assign difference;", "Deref deref difference;", "the trait `Deref` for a type"),
    (REGISTERS, "#[$says])*\n            fn $operator(&mut self", "#[$other])*\n            fn $operator(&mut self", "the attribute `$ other`"),
    (ERRORS, '#[cfg(feature = "embedded-io")]', '#[cfg(not(feature = "embedded-io"))]', "`cfg`"),
    ("rust/proved/uart_run/src/by_hand.rs", "", "impl X {}", "no emitted file declares it"),
    ("rust/proved/uart_run/build.rs", "", "fn main() {}", "build.rs: there"),
    ("rust/kit/build.rs", "", "fn main() {}", "build.rs: there"),
    ("rust/uart_16550/src/access.rs", "impl ", "fn f(u: &mut U) { u.write_register(9, 1) }\nimpl ", "`write_register`, which requires"),
    (SERIAL, "use crate::{Chip,", "use uart_chip::x;\nuse crate::{Chip,", "`uart_chip`, which is in no interface"),
    (SERIAL, "use crate::{Chip,", "use uart_live::Uart;\nuse crate::{Chip,", "`Uart`, which is in no interface"),
    ("rust/uart_16550_chip/src/lib.rs", "    Character, Chip,", "    Character, Uart, Chip,", "`Uart`, which is in no interface"),
    (".cargo/config.toml", "", "[build]\nrustflags = []\n", "more than that cargo asks no index"),
    (".cargo/config.toml", "", "[net]\nretry = 0\n", "more than that cargo asks no index"),
    ("rust/kit/.cargo/config.toml", "", "[build]\nrustflags = []\n", "more than that cargo asks no index"),
    ("rust/kit/Cargo.toml", 'edition = "2024"', 'edition = "2021"', 'not `edition = "2024"`'),
    ("rust/kit/Cargo.toml", f'version = "{packages.VERSION}"', 'version = "0.0.1"', "not `version = "),
    ("rust/kit/Cargo.toml", 'repository = "https://', 'repository = "http://', "not `repository = "),
    ("rust/uart_16550/Cargo.toml", "homepage = ", "authors = ", "not `homepage = "),
    ("rust/kit/Cargo.toml", "[features]\n", '[lib]\npath = "src/other.rs"\n[features]\n', "`path` of the library"),
    ("rust/kit/Cargo.toml", "[package]\n", '[package]\nbuild = "src/x.rs"\n', "`build` of the package"),
    ("rust/uart_16550/Cargo.toml", "[dependencies]\n", '[dependencies]\nbitflags = "2"\n', "the dependency bitflags"),
    (
        "rust/uart_16550/Cargo.toml",
        f'"../proved/uart_ring", version = "={packages.VERSION}"',
        '"../proved/uart_ring"',
        "the dependency uart_ring is of any version",
    ),
    ("rust/uart_16550/Cargo.toml", "[dependencies]\n", "[patch.crates-io]\n[dependencies]\n", "the section [patch]"),
    ("rust/uart_16550/Cargo.toml", "[dependencies]\n", "[target.'cfg(unix)'.dependencies]\nx = \"1\"\n[dependencies]\n", "the section [target]"),
    ("rust/uart_16550/Cargo.toml", "[package]\n", 'cargo-features = ["x"]\n[package]\n', "the section [cargo-features]"),
    ("rust/uart_16550/Cargo.toml", "[lib]\n", "[lib\n", "cannot be read"),
    # what the emitted code is compiled with: with those of attacks.py
    (KIT_ROOT, "#![forbid(unsafe_code)]\n", "", "other attributes of the file"),
    (
        "rust/kit/src/bits.rs",
        "    fn clear(&mut self)",
        "    fn eq(&self, _: &Self) -> bool {\n        true\n    }\n\n    fn clear(&mut self)",
        "`eq` of the trait `Flags`",
    ),
    ("rust/kit/src/bits.rs", "pub trait Bits:", "pub trait More {}\n\npub trait Bits:", "a trait `More`"),
    (
        "rust/kit/src/array.rs",
        "    pub const fn is_full",
        "    pub fn eq(&self, _: &Self) -> bool {\n        true\n    }\n\n    pub const fn is_full",
        "`eq` of a type",
    ),
    ("rust/kit_of_rings/src/memory.rs", "#[cfg(test)]\nmod tests;", "mod tests;", "tests that are compiled for users"),
    (
        "rust/kit_of_rings/src/lib.rs",
        "pub use memory::{Vec, filled};",
        "pub use memory::{Vec, filled};\npub use other::fmt;",
        "`pub use other :: fmt`",
    ),
    (LAYOUT, "impl ByteOrder {", "pub trait More {}\nimpl ByteOrder {", "a trait `More`"),
    ("rust/uart_16550/Cargo.toml", '"../proved/uart_ring", version', '"../other", version', "the dependency uart_ring is another package"),
    (
        "rust/kit/Cargo.toml",
        "[features]\n",
        f'[dependencies]\nx = {{ path = "../x", version = "={packages.VERSION}" }}\n[features]\n',
        "the dependency x is another package",
    ),
]

# An edit of an emitted file, and the first tokens that the second reader takes for no source's.
BAUD = "uart_spec/src/baud.rs"
SECOND = [
    # a condition on a product of two arguments, which no case at random takes
    (
        BAUD,
        "    whole_quotient(frequency, ticks)",
        "    if frequency as u64 * factor as u64 == 1 << 41 {\n        return None;\n    }\n    whole_quotient(frequency, ticks)",
        "`if frequency as u64 * factor",
    ),
    (BAUD, "dividend % divisor == 0", "dividend % divisor != 1", "`!= 1 { Some"),
    (BAUD, "        None\n", "", "`} } pub ( crate"),
    (
        BAUD,
        "assert!(\n        frequency != 0\n            && divisor",
        "assert!(\n        frequency != 1\n            && divisor",
        "`assert ! ( frequency",
    ),
    (
        BAUD,
        "    whole_quotient(frequency, ticks)",
        '    assert!(factor <= 15, "a prescaler division factor above 15");\n    whole_quotient(frequency, ticks)',
        "`assert ! ( factor",
    ),
    (BAUD, "// Returns the quotient", "use core::cmp;\n// Returns the quotient", "`use core :: cmp"),
    (BAUD, "\nfn other_factor(", "\npub fn other_factor(", "`pub fn other_factor"),
    ("uart_spec/src/dump.rs", "    pub fn baud_rate", "    #[inline]\n    pub fn baud_rate", "`# [ inline"),
    ("uart_spec/src/registers/line_status.rs", "#[derive(Clone, ", "#[derive(Copy, Clone, ", "`Copy , Clone"),
    ("uart_ring/src/ring.rs", "    urgent: Option<u8>,", "    pub urgent: Option<u8>,", "`pub urgent"),
    ("uart_judges/src/traces/parsing.rs", ".to_vec_with(alloc)", ".to_vec(alloc)", "`to_vec ( alloc"),
]
# A source in which a comment of the logic hides where a clause ends, and the text that the eraser once made of it.
HIDDEN_END = """fn go() -> u8
    ensures { result ≡ 1 {- } }
{
    2
}
fn other() -> u8
    ensures { 3 ≡ 3 { -} }
{
    1
}
"""

# A crate as it is emitted and as the kit leaves it, what the first may export otherwise, and edits of it with the cause.
EMITTED_CRATE = """//! A crate.
mod by_hand;
mod inner;
pub use inner::{Kept, Other};
#[derive(Clone, PartialEq)]
pub struct Kept<B> {
    pub count: u8,
    items: [u8; MOST],
    backend: B,
}

impl<B: Backend> Kept<B> {
    /// A text.
    pub fn take(&mut self, mut count: usize) -> u8 {
        self.hidden(count)
    }

    fn hidden(&self, count: usize) -> u8 {
        self.items[count]
    }
}
"""
PROVED_CRATE = """mod inner ;
pub use inner :: Kept ;
pub use inner :: Other ;
# [ derive ( Clone , PartialEq , Drop ) ] pub struct Kept < B > { pub count : u8 , items : [ u8 ; 16 ] , backend : B , ghost a : { b ≤ c } , }
impl < B : Backend + Drop > Kept < B > {
pub fn take ( & mut self , count : usize ) -> u8
        requires { count < length self.old.items }
        ensures kept { IfOk result (record x { a = b }) } ;
}
impl < B : Backend > Model for Kept < B > {
    ghost view = { x' };
}
pub fn a_law ( )
    ensures { x } ;
"""
EXPORTED = [
    ("    items: [", "    pub items: [", "crate::Kept: exported as `derive(Clone, PartialEq) struct Kept < B > { pub count : u8 , pub items"),
    ("    pub count: u8", "    count: u8", "crate::Kept: exported as"),
    ("pub count: u8", "pub count: u16", "crate::Kept: exported as"),
    ("    fn hidden", "    pub fn hidden", "crate::Kept < B >::hidden: exported, and not by the proved library"),
    ("    pub fn take", "    fn take", "crate::Kept < B >::take: exported by the proved library alone"),
    ("    pub fn take", "    pub const fn take", "crate::Kept < B >::take: exported as `const fn take"),
    ("mut count: usize", "mut count: u64", "crate::Kept < B >::take: exported as"),
    ("Clone, PartialEq", "Clone, Copy, PartialEq", "crate::Kept: exported as `derive(Clone, Copy, PartialEq)"),
    ("mod by_hand;", "pub mod by_hand;", "crate::by_hand: exported, and not by the proved library"),
    ("mod inner;", "pub mod inner;", "crate::inner: exported, and not by the proved library"),
    ("{Kept, Other}", "{Kept, Other, Third}", "crate::use inner :: Third: exported, and not"),
    ("mod inner;", "mod inner;\nstatic COUNT: u8 = 1;", "crate: `static`, which no library has"),
    ("        self.items[count]", "        static COUNT: u8 = 1;\n        self.items[count]", "crate: `static`, which no library has"),
    ("        self.items[count]", "        self as *const Self as u8", "crate: `* const`, which no library has"),
    ("        self.items[count]", "        cfg!(unix) as u8", "crate: `cfg`, which no library has"),
    ("mod inner;", "mod inner;\nimpl<B> Drop for Kept<B> {\n    fn drop(&mut self) {}\n}", "Drop for Kept < B >: exported, and not"),
]

# Edits of the sources of the chip, and the cause.
CHIP_SOURCES = [
    (
        "uart_live/src/fixed.rt",
        "pub struct FixedFifo<T, const FIFO: usize>",
        "pub struct FixedFifo<T: Drop + Copy, const FIFO: usize>",
        "a bound `Drop` of another form",
    ),
    ("uart_chip/src/fifo.rt", "< characters (size_of self.old) }", "≤ characters (size_of self.old) }", "Fifo::push requires other things"),
    ("uart_live/src/fixed.rt", "requires { capacity ≤ WIRE_ROOM }", "", "FixedWire::new requires other things"),
    ("uart_chip/src/lib.rt", "mod wire;", "mod wire;\nmod extra;", "extra.rt: declared, and not there"),
    ("uart_live/src/live.rt", "requires { offset < NUM_REGISTERS }\n        ensures answers", "ensures answers", "requires other things"),
    ("uart_virtual/src/port.rt", "    chip.write(offset, value);\n", "", "write_and_raise does not call uart_live::live::LiveChipWith::write"),
    ("uart_virtual/src/port.rt", "fn take<const FIFO: usize>(", "pub fn take<const FIFO: usize>(", "port::take can be reached"),
    ("uart_virtual/src/port.rt", "requires sends { sends_at_once chip.old ≡ true }", "", "port::send requires other things"),
    ("uart_chip/src/sending.rt", "requires { spec.sends_at_once", "requires { spec.is_ready", "send_at_once requires other things"),
]


class Tests:
    """The sources as they are, what is emitted of them, and the counts."""

    def __init__(self) -> None:
        self.passed, self.failed = 0, 0
        found = crate.sources(ROOT, table.CRATES)
        wanted = {name: data for name, data in found.items() if crate.is_read(name)}
        self.texts = {name: crate.text_of(name, crate.expanded(ROOT, name) if is_expanded(data) else data) for name, data in wanted.items()}
        self.read = {name: crate.read(name, text) for name, text in self.texts.items()}
        self.there, _ = crate.there(ROOT / table.OUTPUT)

    def count(self, holds: object, what: str) -> None:
        self.passed += bool(holds)
        self.failed += not holds
        if not holds:
            print(f"FAILED: {what}")

    def refused(self, name: str, text: str) -> str:
        """The cause for which this text of a source is refused, or nothing."""
        try:
            file = crate.read(name, text)
            words.check(file)
            crate.check_whole([file if one == name else other for one, other in self.read.items()], {**self.texts, name: text})
            crate.erase(crate.read(name, text))
        except crate.Failed as causes:
            return str(causes)
        except Refused as cause:
            return crate.refusal(name, text, cause)
        return ""

    def accepted(self) -> None:
        name = "uart_spec/src/backend.rt"
        for form in ACCEPTED:
            cause = self.refused(name, f"{self.texts[name]}\n{form}\n")
            self.count(cause == "", f"refused: {form!r}: {cause}")

    def results(self) -> None:
        """Which functions get `#[must_use]`, once: no caller of one that has it by hand is told twice."""
        name = "uart_spec/src/backend.rt"
        for form, is_wanted in RESULTS:
            made = crate.erase(crate.read(name, f"{self.texts[name]}\n{form}\n"))
            found = made.removeprefix(crate.erase(crate.read(name, self.texts[name]))).count("#[must_use]")
            self.count(found == int(is_wanted), f"{form!r}: {found} times `#[must_use]`")

    def forms(self, forms: Iterable[tuple[str, str]], name: str = "uart_spec/src/backend.rt") -> None:
        for form, cause in forms:
            found = self.refused(name, f"{self.texts[name]}\n{form}\n")
            self.count(cause in found, f"{form!r}: {found or 'accepted'}, and not: {cause}")

    def defined(self) -> None:
        for name, old, new in deceptions.DEFINED:
            text = (ROOT / "crates" / guards.MEANINGS[name][1]).read_text(encoding="utf-8")
            self.count(guards.is_defined(name, text), f"{name}: defined otherwise")
            is_seen = text.count(old) == 1 and not guards.is_defined(name, text.replace(old, new))
            self.count(is_seen, f"{name}: {old!r} to {new!r}: accepted")

    def sources(self, edits: Iterable[tuple[str, str, str, str]]) -> None:
        for name, old, new, cause in edits:
            text = self.texts[name]
            found = self.refused(name, text.replace(old, new, 1)) if old in text else "no such text"
            self.count(cause in found if cause else not found, f"{name}: {old!r} to {new!r}: {found or 'accepted'}, and not: {cause}")

    def emitted(self) -> None:
        for name, old, new in BYTES:
            text = self.there[name].decode()
            causes = self.compared(name, text.replace(old, new, 1).encode())
            self.count(old in text and causes == [f"{name}: not what the sources give: run tools/eraser/erase emit"], f"{name}: {old!r}: {causes}")

    def compared(self, name: str, data: bytes) -> list[str]:
        return crate.compare(self.there, {**self.there, name: data}, [])

    def files(self) -> None:
        """Files more and less, and what is no plain file."""
        self.count(self.compared("uart_spec/more.rs", b"") == ["uart_spec/more.rs: not expected"], "a file more")
        less = {name: data for name, data in self.there.items() if name != "uart_spec/src/baud.rs"}
        self.count(crate.compare(self.there, less, []) == ["uart_spec/src/baud.rs: missing"], "a file less")
        with tempfile.TemporaryDirectory() as made:
            folder = pathlib.Path(made)
            (folder / "link.rs").symlink_to("/dev/null")
            self.count(crate.there(folder) == ({}, ["link.rs"]), "a symlink in the emitted folder")
            source = folder / "crates" / "one" / "src"
            source.mkdir(parents=True)
            for name, cause in (
                ("link.rt", "crates/one/src/link.rt: a symlink"),
                ("a.txt", "crates/one/src/a.txt: not a source"),
                ("A.rt", "crates/one/src/A.rt: not a source"),
            ):
                if name == "link.rt":
                    (source / name).symlink_to("/dev/null")
                else:
                    (source / name).write_bytes(b"")
                self.count(failure(lambda: crate.sources(folder, ["one"])) == cause, cause)
                (source / name).unlink()
            (folder / "linked").symlink_to(folder / "crates")
            cause = failure(lambda: crate.no_links(folder, folder / "linked" / "one"))
            self.count(cause == "linked: a symlink", f"a folder that is a link: {cause}")
        self.count(failure(lambda: crate.text_of("a.rt", b"a\r\n")) == "crates/a.rt: a carriage return", "a carriage return")
        self.count("invalid" in failure(lambda: crate.text_of("a.rt", b"\xff")), "no UTF-8")

    def manifests(self) -> None:
        """Cargo.toml and the root of a crate, from a line of crates.txt."""
        crates = packages.Crates("# one\nuart_live: uart_chip bitflags thiserror\n# two\nuart_play: uart_live arrayvec\n")
        shipped, ours = packages.manifest("uart_live", crates), packages.manifest("uart_play", crates)
        for text, part in (
            (shipped, 'description = "Part of geesetrunk, and no interface: one"'),
            (shipped, f'uart_chip = {{ package = "geesetrunk-proved-uart_chip", path = "../uart_chip", version = "={packages.VERSION}" }}'),
            (shipped, f'geesetrunk-kit = {{ path = "../../kit", version = "={packages.VERSION}" }}'),
            (ours, 'features = ["std"]'),
            (ours, "publish = false"),
            (shipped, f'repository = "{packages.REPOSITORY}"\n'),
            (shipped, 'documentation = "https://docs.rs/geesetrunk-proved-uart_live"\n'),
            (shipped, 'include = ["/src", "/examples.rs", "/LICENSE-*"]\n'),
        ):
            self.count(part in text, f"{part}: not in {text}")
        self.count("publish" not in shipped and "thiserror" not in shipped, f"more in {shipped}")
        rings = packages.manifest("uart_ring", packages.Crates("# three\nuart_ring: uart_16550\n"))
        for_tests = 'uart_calls = { package = "geesetrunk-proved-uart_calls", path = "../uart_calls" }\n'
        self.count(for_tests in rings.partition("[dev-dependencies]")[2], f"{for_tests}: not in {rings}")
        root = packages.root("uart_play", crates, "//! A text.\n\nmod a;\n")
        self.count(root.startswith("//! A text.\n#![no_std]\n#![forbid(unsafe_code)]\n") and root.endswith("\n\nmod a;\n"), root)

    def promises(self) -> None:
        """What the sections of calls say, and what is refused there."""
        for clauses, expected in promised.SAID:
            lines = promised.section(clauses)
            found = promised.shown(lines)
            self.count(found == expected, f"{clauses}: {found}, and not: {expected}")
            self.count(lines[-len(clauses) - 3 : -3] == clauses, f"{clauses}: not word by word in {lines}")
        lines = promised.section(["ensures { step self.old (Read place result) self.new }"], "trait Backend")
        self.count("# Proved" not in lines and "- Makes this one access: `Read place result`." in lines, f"a trait: {lines}")
        told = promises.Promises(ROOT, table.SHIPS)
        for file in self.read.values():
            told.edits(file)
        self.count(not list(told.causes()), f"comments at calls: {list(told.causes())}")
        place = next(iter(told.cites))
        for comment, shares in (("", False), ("some words", True)):
            one = told.definitions.known[place]._replace(words=comment, shares=shares)
            with changed(told.definitions.known, place, one):
                found = list(told.causes())
                self.count(len(found) == 1 and found[0].endswith("has no comment of its own"), f"{place}: {comment!r}, {shares}: {found}")

    def around(self, edits: Iterable[tuple[str, str, str, str]]) -> None:
        for name, is_checked in (
            ("uart_ring/src/by_hand.rs", True),
            ("uart_ring/tests/calls.rs", False),
            ("uart_ring/tests/by_hand.rs", False),
            ("uart_ring/tests/build.rs", True),
            ("uart_ring/src/tests/by_hand.rs", True),
        ):
            self.count(around.is_around(pathlib.Path(name)) == is_checked, f"{name}: {not is_checked}")
        by_hand = around.files_of(ROOT)
        self.count(around.causes(by_hand) == [], f"around: {around.causes(by_hand)}")
        for name, old, new, cause in edits:
            text = by_hand.get(name) or ""
            found = around.causes({**by_hand, name: text.replace(old, new, 1) if old else new})
            self.count(old in text and any(cause in one for one in found), f"{name}: {old!r} to {new!r}: {found}")

    def second(self, edits: Iterable[tuple[str, str, str, str]]) -> None:
        """What the second reader finds in an emitted file, and that it reads no clause whose end is hidden."""
        count, causes = second.read_all(ROOT, table.CRATES, crate.expanded)
        self.count(count > 0 and not causes, f"second reader: {causes}")
        for name, old, new, cause in edits:
            source, text = self.texts[name.replace(".rs", ".rt")], self.there[name].decode()
            found = second.differences(name.replace(".rs", ".rt"), source, text.replace(old, new, 1))
            self.count(old in text and found and cause in found[0], f"second reader: {name}: {old!r} to {new!r}: {found}, and not: {cause}")
        for emitted in ("", "// nothing but a comment\n"):
            found = second.differences("one/src/a.rt", "fn go() -> u8 {\n    2\n}\n", emitted)
            self.count(found and "line 1: `` is emitted" in found[0], f"second reader: a file without a token: {found}")
        found = second.differences("one/src/lib.rt", HIDDEN_END, "fn go() -> u8 {\n    2\n}\nfn other() -> u8 {\n    1\n}\n")
        self.count(found and "hides where a clause ends" in found[0], f"second reader: a comment in a clause: {found}")

    def planted(self) -> None:
        """The second reader finds what is planted in emitted text to test the comparison, but for what only the other can find."""
        for one in planted.every():
            crate_name, _, path = one.file.partition("/")
            name = f"{crate_name}/src/{path}"
            source, text = self.texts[name.replace(".rs", ".rt")], self.there[name].decode()
            found = second.differences(name.replace(".rs", ".rt"), source, text.replace(one.old, one.new, 1))
            self.count(one.old in text and bool(found) == one.is_read, f"{one.name}: the second reader: {found}")
        names = [name for name, _ in attacks.table()]
        self.count(len(names) == len(set(names)), "two attacks with one name")

    def in_packages(self) -> None:
        """Each crate that ships is compared with its MIR."""
        self.count(not listed.in_no_package(table.SHIPS), f"packages of the comparison: {listed.in_no_package(table.SHIPS)}")
        found = listed.in_no_package([*table.SHIPS, "uart_new"])
        self.count(found == ["uart_new"], f"a crate in no package: {found}")
        crates, features, own = listed.PACKAGES["uart_16550"]
        with changed(listed.PACKAGES, "uart_16550", (crates, features, [one for one in own if one != "uart_rs485"])):
            found = listed.in_no_package(table.SHIPS)
            self.count(found == ["uart_rs485"], f"a crate that is taken out of its package: {found}")

    def needed(self) -> None:
        """An entry that no name needs is a failure, but for one of a crate that is not proved here: its library is not there."""
        used = {("COUNTED", key) for key in list(listed.COUNTED)[1:]} | {("INPUTS", key) for key in listed.INPUTS}
        found = {table: [key for one, key in listed.unneeded(used, []) if one == table] for table in ("COUNTED", "INPUTS", "DIFFER")}
        self.count(found == {"COUNTED": list(listed.COUNTED)[:1], "INPUTS": [], "DIFFER": list(listed.DIFFER)}, f"entries not needed: {found}")
        counted = [one for one in listed.unneeded(used, ["uart_judges"]) if one[0] == "COUNTED"]
        self.count(not counted, f"entries of a crate without a library: {counted}")

    def exported(self) -> None:
        """What a crate exports beside its library: nothing more, and nothing less."""
        with tempfile.TemporaryDirectory() as folder:
            emitted, library = (pathlib.Path(folder) / name for name in ("emitted", "library"))
            emitted.mkdir()
            library.mkdir()
            (library / "lib.rt").write_text(PROVED_CRATE, encoding="utf-8")
            for old, new, cause in [("", "", ""), *EXPORTED]:
                (emitted / "lib.rs").write_text(EMITTED_CRATE.replace(old, new, 1) if old else EMITTED_CRATE, encoding="utf-8")
                found, _ = interface.differences(emitted, library, interface.Rules(table, "one"))
                holds = any(cause in one for one in found) if cause else not found
                self.count(old in EMITTED_CRATE and holds, f"exported: {old!r} to {new!r}: {found}, and not: {cause}")

    def tables(self) -> None:
        """Entries of the table that nothing in the sources has, or that say too little."""
        guard = table.GUARDS["uart_spec::backend::Backend::read"]
        for what, name, value, cause in (
            ("GUARDS", "uart_spec::baud::no_function", guard, "no_function: listed, and there are 0 of it"),
            ("IMPLEMENTED", "uart_16550::mmio::MmioBackend::reads", "address", "reads: listed, and there are 0 of it"),
            ("IMPLEMENTED", "uart_16550::mmio::MmioBackend::read", "store_frame", "MmioBackend::read: store_frame tests nothing"),
            # Others of this name test it.
            ("IMPLEMENTED", "uart_16550::mmio::MmioBackend::read", "uart_spec::backend::Backend::read", "Backend::read tests nothing"),
            ("GUARDS", TESTED_BY_ITSELF, table.GUARDS[TESTED_BY_ITSELF]._replace(tested_by=TESTED_BY_ITSELF), "port::read tests nothing"),
            ("CASTS", "uart_spec::baud::cast", ["x"], "cast: listed, and there are 0 of it"),
        ):
            with changed(getattr(table, what), name, value):
                found = failure(lambda: crate.check_whole(list(self.read.values()), self.texts))
                self.count(cause in found, f"{what}: {found}, and not: {cause}")
        path = "uart_spec::registers::prescaler_division::PSD::set_pdf"
        name = "uart_spec/src/registers/prescaler_division.rt"
        for entry, cause in (
            (table.GUARDS[path]._replace(test=None), "has neither a test nor a reason"),
            (table.GUARDS[path]._replace(test=None, reason=table.INSIDE), "can be reached"),
            (table.GUARDS[path]._replace(test=None, reason=table.IN_FILE), "private to its file"),
            (table.GUARDS[path]._replace(test=None, reason=table.NO_BODY), "has a body"),
            (table.GUARDS[path]._replace(tested_by="other"), "does not call other"),
        ):
            with changed(table.GUARDS, path, entry):
                found = self.refused(name, self.texts[name])
                self.count(cause in found, f"{entry}: {found}, and not: {cause}")


TESTED_BY_ITSELF = "uart_virtual::port::read"


@contextlib.contextmanager
def changed(entries: dict[Key, Entry], name: Key, value: Entry) -> Iterator[None]:
    """The table with another entry."""
    old = entries.get(name)
    entries[name] = value
    try:
        yield
    finally:
        if old is None:
            del entries[name]
        else:
            entries[name] = old


def failure(call: Callable[[], object]) -> str:
    try:
        call()
    except crate.Failed as causes:
        return str(causes)
    return ""


def is_expanded(data: bytes) -> bool:
    return b"use thiserror::Error" in data


def run() -> bool:
    tests = Tests()
    tests.accepted()
    tests.results()
    tests.forms(FORMS)
    tests.sources(SOURCES)
    tests.forms(deceptions.FORMS)
    tests.forms(deceptions.OF_CHIP, "uart_chip/src/fifo.rt")
    tests.forms(deceptions.OF_PROGRAMS, "uart_run/src/running.rt")
    tests.sources(deceptions.SOURCES)
    tests.defined()
    tests.emitted()
    tests.files()
    tests.sources(CHIP_SOURCES)
    tests.manifests()
    tests.promises()
    tests.around(AROUND)
    tests.second(SECOND)
    tests.forms([one[1:] for one in attacks.FORMS])
    tests.around([one[1:] for one in attacks.AROUND])
    tests.planted()
    tests.in_packages()
    tests.needed()
    tests.exported()
    tests.tables()
    print(f"{tests.passed} passed, {tests.failed} failed")
    return tests.failed == 0
