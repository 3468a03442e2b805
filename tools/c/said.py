"""What the source says of its calls, and C does not have or has otherwise: phrases of its comments and of its definitions, each with what
stands in C in its place. The driver has each of them, and the console some."""
from __future__ import annotations

SAID = (
    # Results that C has behind pointers, and errors without parts.
    (", with `done` 0, if `patience`", " if `patience`"),
    (", with `done` 0, after", " after"),
    ("a wait for one burst: k of the bytes were sent, or", "a wait for one burst: `*count` bytes from the front were sent, or"),
    ("a wait for bytes into n slots: some were received, or", "a wait for bytes: some were received, or"),
    (
        "`WaitError` if `patience` answered to wait no longer, or after",
        "`U16550_WAIT_ENDED` if `patience` answered to wait no longer, or `U16550_STALLED` after",
    ),
    (" in a row: `ended_by` tells which.", " in a row."),
    (", as many as the error reports, which tells what ended that wait", ", as many as `*stalled_at` says; the result tells what ended that wait"),
    ("and the error tells what ended it", "and the result tells what ended it"),
    (", as many as the error reports", ", as many as `*stalled_at` says"),
    (", as long as the error reports, at most", ", as long as `*stalled_at` says, at most"),
    ("- `NonInteger`, with the arguments, if", "- `NonInteger` if"),
    ("- `OutOfRange`, with the divisor, if", "- `OutOfRange` if"),
    ("- `OutOfRange`, with the nearest divisor, if", "- `OutOfRange` if"),
    ("- `TooFar`, with the nearest divisor, if", "- `TooFar` if"),
    ("a frequency of 0 gives `OutOfRange` with the divisor 0.", "a frequency of 0 gives `OutOfRange`."),
    (
        "an error with the divisor if it does not fit; an error with the arguments if no whole divisor does",
        "the error that says so if it does not fit, or if no whole divisor does",
    ),
    (
        "or the nearest divisor, which does not fit, or fits and is too far off, as each other divisor then is",
        "or the error that says that the nearest divisor does not fit, or fits and is too far off, as each other divisor then is",
    ),
    ("The backend is returned with the error, unchanged.", "Then `*device` is the backend, unchanged."),
    ("The driver is returned with the error, unchanged.", "Then `*driver` is the driver, unchanged."),
    ("Nothing was written then, and the driver is returned: `flush` it, and try again.", "Nothing was written then, and `*driver` is the driver."),
    # What a call does for more than one caller.
    (
        "A configuration that is not computable is no error of this call. Where it comes from elsewhere, call `checked_init`, which returns an"
        " error for it.",
        "Its callers have refused any other.",
    ),
    ("until the last write of `init`. A handler", "until the caller's last write. A handler"),
    (
        "The original driver makes this write, and `init` follows it.",
        "This write stays, since each access is one that the crate uart_16550 in Rust makes.",
    ),
    ("or as many as the receiver can hold. More are not discarded:", "at most 17, as many as a 16550 holds. More are not discarded:"),
    ("are discarded until none is available, or as many as the receiver can hold", "are discarded until none is available, or until there were 17"),
    (
        "Without FIFO each burst is one byte. A loop of its own for those would ask for less, and would be the same code again.",
        "Without FIFO each burst is one byte, which needs no loop of its own.",
    ),
    ("`None` is as 0, which divides by one, and `Some(15)` divides by 16.", "Without one it divides by one, and with 15 by 16."),
    # What is no reason in C.
    ("The result is written field by field, so that no value waits in a register for the others.", ""),
    ("A refusal returns the driver, which may hold a device that cannot be obtained again.", ""),
    (
        "The check stands once: where code is to be small, the compiler then inlines it, and drops what a constant configuration does not ask for."
        " Waiting and writing are two functions, and this one is inlined, so that each loop that sends holds one copy of the wait.",
        "It is apart from the write, so that each loop that sends has one copy of the wait, which a compiler inlines.",
    ),
    (
        ": the two are factors of one product. So both errors have one relation, 'this result and no other', over one equation that is a product,"
        " while the code divides.\n\nThe ticks are computed in 64 bits: they reach",
        ": it is frequency / (16 * (prescaler + 1) * factor), if that is a whole number. With the baud rate as the factor that is the divisor, and"
        " with the divisor it is the baud rate. The product is computed in 64 bits: it reaches",
    ),
    (
        "Returns the divisor that gives a baud rate at a clock frequency in hertz. Nothing is rounded.",
        "Returns the divisor that gives a baud rate at a clock frequency in hertz: frequency / (16 * (prescaler + 1) * baud_rate). Nothing is"
        " rounded.",
    ),
    (
        "Returns the factor if it is a factor. It is taken apart and put together again, so that the compiler sees that the test of the called"
        " function holds, and leaves no path to its panic.",
        "Returns the factor if it is at most 15, or if there is none.",
    ),
    (
        "the scratch register keeps both patterns; or it does not keep the first; or it keeps the first and not the second",
        "the first pattern is written and, if it is kept, the second; the result is whether both were kept",
    ),
    (
        " Each wait has a loop of its own over the limit, so the polls that count are those in a row: progress begins a new count.",
        " Each call counts anew: the polls that count are those in a row.",
    ),
    ("Reads a register of which no bits are saved.", "Reads a register, and saves nothing of what that clears in the chip."),
    (" This is a function of its own for callers that have tested the configuration already, and so have its divisor.", ""),
    # Codes of fields, which C has where they are in their register.
    ("Returns the code of this word length, in the low two bits.", "Returns this word length as LCR has it."),
    ("Returns the code of this parity, in the low three bits.", "Returns this parity as LCR has it."),
    ("Returns the code of this trigger level, in the low two bits.", "Returns this trigger level as FCR has it."),
    # What C has not.
    (", as in the example", ""),
    ("Allocates its memory; nothing later allocates.", "Takes its memory from `*alloc`."),
    ("Allocates all memory of the rings; no later call allocates.", "Takes all memory of the rings from `*alloc`."),
    ("if memory could not be allocated", "if `*alloc` has less memory"),
    ("take them by `receive_echo` between", "take them by `HalfDuplex::receive_bytes` between"),
    # Names of the definitions that are no parameters.
    ("how late it may begin where an access takes e clocks,", "how late the handler may begin where an access takes `access_clocks`,"),
    ("if each look takes at least e clocks", "if each look takes at least `access_clocks`"),
    ("the case has a name: it is not `Custom`", "a rate that has a name is never `Custom`"),
)
