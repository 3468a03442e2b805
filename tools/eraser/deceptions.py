"""Sources that mean one thing in Rattle and another in Rust, if they are erased. Each was accepted before there was a rule against it.

`FORMS` stands behind the code of uart_spec/src/backend.rt, `SOURCES` are edits of files, each with the cause of its refusal.
"""

FORMS = [
    # A comment in a clause: in Rattle the brace in it does not count, so that another function is the real one.
    ("fn go() -> u8\n    ensures { result ≡ 1 {- } }\n{\n    2\n}\n" "fn other() -> u8\n    ensures { 3 ≡ 3 { -} }\n{\n    1\n}", "`{-` in a clause"),
    ("pub struct S;\nimpl S {\n    ghost a = { 4 {- } };\n    const SIZE: u64 = 7;\n    ghost b = { { -} };\n}", "`{-` in a clause"),
    ("ghost use a.b.{- c};\nconst SIZE: u64 = 7;\nghost use a.b.{d -};", "`{-` in a clause"),
    ("ghost use a.b.{c -};", "`-}` in a clause"),
    ("fn f(x: u8) -> u8\n    ensures { a ≡ { b } }\n{\n    x\n}", "braces in a clause that are no record's"),
    ("fn f(x: u8) -> u8\n    ensures { records {b = 1} }\n{\n    x\n}", "braces in a clause that are no record's"),
    ("fn f(x: u8) -> u8\n    ensures { (record x) {b = 1} }\n{\n    x\n}", "braces in a clause that are no record's"),
    ("struct S;\nimpl S {\n    ghost a = { { b } };\n}", "braces in a clause that are no record's"),
    # The name of a crate for something of its own: the head of a path means the crate in Rust.
    ("pub struct uart_ring;", "`uart_ring`, the name of a crate, for something else"),
    ("pub enum uart_16550 {\n    A,\n}", "`uart_16550`, the name of a crate, for something else"),
    ("pub type bitflags = u8;", "`bitflags`, the name of a crate, for something else"),
    ("pub enum E {\n    uart_ring,\n}", "`uart_ring`, the name of a crate, for something else"),
    ("pub trait circular_buffer {}", "`circular_buffer`, the name of a crate, for something else"),
    # A range with no end behind a word that Rust does not take for a list: it ends in an overflow, and in Rattle at the last number.
    # An own method with the name of one that is by hand in the type: Rust calls the one by hand.
    ("pub trait T {\n    fn symmetric_difference(&self) -> u8;\n}", "`symmetric_difference`, by hand in a type and of a trait"),
    # `usize` has 64 bits in Rattle.
    ("type W = usize;\nfn f(x: u32) -> W {\n    x as W\n}", "another name for `usize`"),
    ("pub trait T {\n    type W = usize;\n}", "another name for `usize`"),
    ("fn f(x: u32) -> usize {\n    x as _\n}", "`as _`"),
    ("fn f(x: u64) -> u64 {\n    x as isize as u64\n}", "`isize`"),
    ("fn f() -> u64 {\n    isize::MAX as u64\n}", "`isize`"),
    ("fn f() -> u64 {\n    <usize>::MAX as u64\n}", "`MAX`, which is neither ours nor listed"),
    ("fn f() -> u64 {\n    !0usize as u64\n}", "`!` of what may be a `usize`"),
    ("fn f(x: usize) -> u64 {\n    !x as u64\n}", "`!` of what may be a `usize`"),
    ("fn f(x: &[u8]) -> u64 {\n    !(x.len()) as u64\n}", "`!` of what may be a `usize`"),
    ("fn f(n: usize) -> usize {\n    n * n * 4\n}", "`n * n` is not listed with its type"),
    ("fn f(n: usize) -> usize {\n    let mut m = n;\n    m *= n;\n    m\n}", "`m *= n` is not listed with its type"),
    ("fn f(n: usize) -> usize {\n    { n } * n\n}", "`} * n` is not listed with its type"),
    ("fn f(k: u32) -> usize {\n    1usize << k\n}", "`1usize << k` is not listed with its type"),
    ("fn f(k: u32) -> usize {\n    let mut m = k;\n    m <<= k;\n    3\n}", "`m <<= k` is not listed with its type"),
    ("fn f(n: usize) -> usize {\n    n.saturating_add(n)\n}", "`n . saturating_add` is not listed with its type"),
    ("fn f(n: usize) -> Option<usize> {\n    n.checked_add(n)\n}", "`n . checked_add` is not listed with its type"),
    ("const A: usize = 1 << 20;", "`1 << 20` is not listed with its type"),
    ("fn f(x: u8) -> usize {\n    !usize::from(x)\n}", "`!` of what may be a `usize`"),
    ("fn f(x: u8) -> usize {\n    !{ usize::from(x) }\n}", "`!` of what may be a `usize`"),
    ("fn f(x: u8) -> usize {\n    !if x == 3 { usize::from(x) } else { 4 }\n}", "`!` of what may be a `usize`"),
    ("fn f(y: bool, x: u8) -> usize {\n    let y = usize::from(x);\n    !y\n}", "`!` of what may be a `usize`"),
    ("fn f(x: usize, y: usize) -> bool {\n    x < y >> { 33 }\n}", "`y >> {` is not listed with its type"),
    ("fn f(x: usize) -> usize {\n    let mut y = x;\n    y >>= 33;\n    y\n}", "`y >>= 33` is not listed with its type"),
    # What core and the libraries have: it is listed, whether it is called, given as a value or imported.
    ("fn f(x: u64) -> bool {\n    Some(x).map(usize::try_from).is_some()\n}", "`try_from`, which is neither ours nor listed"),
    ("fn f(x: &[usize]) -> usize {\n    x.iter().copied().fold(1, Add::add)\n}", "`add`, which is neither ours nor listed"),
    ("fn f<T: TryFrom<u64>>(x: u64) -> bool {\n    T::try_from(x).is_ok()\n}", "`try_from`, which is neither ours nor listed"),
    ("fn f<T: std::ops::Not>(x: T) -> u8 {\n    3\n}", "`ops`, which is neither ours nor listed"),
    ("fn f() -> u8 {\n    align_of_val(&0usize) as u8\n}", "`align_of_val`, which is neither ours nor listed"),
    ("use std::mem::size_of_val;", "`mem`, which is neither ours nor listed"),
    ("use std::{mem as fmt};", "`mem`, which is neither ours nor listed"),
    ("use std::fmt::*;", "`*`, which is neither ours nor listed"),
    ("use std::num::{NonZeroU8, NonZeroU16};", "`NonZeroU16`, which is neither ours nor listed"),
    ("use std::num::NonZeroU64 as N;\nfn f() -> u32 {\n    N::BITS\n}", "`BITS`, which is neither ours nor listed"),
    ("pub struct S;\nimpl S {\n    pub fn parse(&self) -> u8 {\n        3\n    }\n}", "`parse`, a function of a type, which core's numbers have too"),
    # A trait of ours for a type of Rust's: Rust takes the method of core that has the same name.
    (
        "pub trait T {\n    fn first(&self) -> u8;\n}\nimpl T for [u8] {\n    fn first(&self) -> u8 {\n        9\n    }\n}",
        "a trait of ours for a type of Rust's",
    ),
    (
        "pub trait T {\n    fn get(&self) -> u8;\n}\nimpl<X> T for X {\n    fn get(&self) -> u8 {\n        9\n    }\n}",
        "a trait of ours for a type of Rust's",
    ),
    # Documentation that rustdoc runs as a test.
    ("/// Text.\n///\n///     assert!(false);\nfn f(x: u8) -> u8 {\n    x\n}", "documentation that is indented, which is code"),
    ("/// ~~~\n/// assert!(false);\n/// ~~~\nfn f(x: u8) -> u8 {\n    x\n}", "a fence of another form"),
    ("///  ```\n/// assert!(false);\n///  ```\nfn f(x: u8) -> u8 {\n    x\n}", "a fence of another form"),
    ("///```\n/// assert!(false);\n///```\nfn f(x: u8) -> u8 {\n    x\n}", "a fence of another form"),
    ("/// - ```\n///   assert!(false);\n///   ```\nfn f(x: u8) -> u8 {\n    x\n}", "a fence of another form"),
    # What a guard is for, under other definitions.
    ("ghost use Rattle.uart_spec.specs.Mine.{◌≤◌};", "signs of clauses that are not std's"),
    # What a public trait promises, and nothing proves of its users' implementations.
    ("pub trait T {\n    fn f(&self) -> u8\n        ensures low { result < 8 };\n}", "T::f promises what PROMISES does not have"),
]

SOURCES = [
    (
        "uart_spec/src/baud.rt",
        "ghost use Rattle.uart_spec.specs.Baud.{frequency_of, prescaler};",
        "ghost use Rattle.uart_spec.specs.Baud.{frequency_of};\nghost use Rattle.uart_spec.specs.Mine.{prescaler};",
        "`prescaler`, a word of a guard, is from Rattle.uart_spec.specs.Mine",
    ),
    (
        "uart_16550/src/driver/init.rt",
        "\nimpl<B: Backend> Uart16550<B> {",
        "\nghost IsComputable = { anything };\n\nimpl<B: Backend> Uart16550<B> {",
        "`IsComputable`, a word of a guard, is defined here",
    ),
]

# A word of a guard, and an edit of its definition.
DEFINED = [
    ("NUM_REGISTERS", "NUM_REGISTERS: usize = 8;", "NUM_REGISTERS: usize = 9;"),
    ("frequency_of", "= 16 * (prescaler factor + 1)", "= 8 * (prescaler factor + 1)"),
    ("prescaler", "unwrap_or factor 0", "unwrap_or factor 1"),
    ("IsComputable", "  pub baud_rate : 0 < to_integer config.baud_rate\n", ""),
    ("sends_at_once", "is_ready c.transmitter))", "(is_ready c.transmitter || true)))"),
    ("IsStill", "pub due : c.receiver.timeout_ticks ≡ c.receiver.timeout_limit", "pub due : c.receiver.timeout_ticks ≡ 0"),
    ("IsTold", "pub line : p.told.line ≡ is_up p.chip", "pub line : p.told.line ≡ false"),
]

# A form behind the code of uart_chip/src/fifo.rt.
OF_CHIP = [
    ("mod uart_live;", "`uart_live`, the name of a crate, for something else"),
    ("mod uart_chip;", "`uart_chip`, the name of a crate, for something else"),
    ("pub struct uart_live;", "`uart_live`, the name of a crate, for something else"),
    ("pub type arrayvec = u8;", "`arrayvec`, the name of a crate, for something else"),
    ("fn f(n: usize) -> usize {\n    n * n\n}", "`n * n` is not listed with its type"),
]

# A form behind the code of uart_run/src/running.rt, which does not ship.
OF_PROGRAMS = [
    ("mod uart_spec;", "`uart_spec`, the name of a crate, for something else"),
    ("mod std;", "`std`, the name of a crate, for something else"),
    ("fn f() {\n    unsafe {}\n}", "the word `unsafe`"),
    ("#[cfg(unix)]\nfn f(x: u8) -> u8 {\n    x\n}", "the attribute `cfg`"),
    ("fn f(x: u8) -> u8\n    ensures { a {- } -} }\n{\n    x\n}", "`{-` in a clause"),
]
