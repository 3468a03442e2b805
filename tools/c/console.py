"""The pair u16550_console: a console over one chip at an address that is known when it is compiled."""
from __future__ import annotations

import pathlib
import re
import sys

import calls
import compilers
import driver
import names
import said
import syntax as c
from comments import Said
from driver import ROOT, text_of
from header import LICENCE
from kit import program_of
from library import Fixed, Known, Library, Unknown
from port import named_in
from representation import INT, OPTION, Told
from translate import Program
from tree import DEVICE, Key

OWN = ("uart_spec", "uart_16550")
# The struct of the driver, and its name in this pair.
DRIVER, CONSOLE = "struct u16550_core_driver", "struct u16550_console"
OF_DRIVER = "uart_16550::driver::Uart16550::"
# The functions of the driver that the layer calls.
CALLED = [
    *(
        OF_DRIVER + one
        for one in (
            "set_up",
            "attach",
            "test_loopback",
            "try_send_byte",
            "send_bytes_exact",
            "try_receive_byte",
            "lsr",
            "set_modem_control",
            "send_one",
        )
    ),
    "uart_16550::tty::Uart16550Tty::write_raw_text",
]
# The members of the driver that one program has only one value of.
SIXTEEN, LIMIT = "U16550_CORE_FIFO_SIZE_SIXTEEN", "U16550_CONSOLE_POLLS"
CONFIG = {
    "check_cts_before_sending": "false",
    "extra_stop_bits": "false",
    "data_bits": "U16550_CORE_WORD_LENGTH_EIGHT_BITS",
    "parity": "U16550_CORE_PARITY_DISABLED",
}
BITS = {"U16550_MCR_OUT_1": 4, "U16550_LCR_SET_BREAK": 64}
TOP = f"""{LICENCE}/*
 * u16550_console.c - a console over one 16550. u16550_console.h says how it is used.
 *
 * Made by tools/c/emit from the code that is proved. Do not edit. Names and comments are those of its source, and what is computed
 * is taken from what the proofs are about. The functions at the end are by hand.
 */
#include "u16550_console.h"
"""
# The numbers of errors. What a console never meets, as a remote that is not clear to send, has that of another one.
NUMBERS: dict[str, dict[str, str | dict[str, str]]] = {
    "InitError": {"DeviceNotPresent": "DEVICE_NOT_PRESENT", "Stalled": "INIT_STALLED"},
    "AttachError": {"DivisorLatchOpen": "DIVISOR_LATCH_OPEN", "Loopback": "LOOPBACK", "NoDivisor": "NO_DIVISOR"},
    "ByteSendError": {"NoCapacity": "NO_CAPACITY", "RemoteNotClearToSend": "NO_CAPACITY"},
    "LoopbackError": {
        "SendError": {"NoCapacity": "LOOPBACK_NO_CAPACITY", "RemoteNotClearToSend": "LOOPBACK_NO_CAPACITY"},
        "UnexpectedLoopbackByte": "LOOPBACK_UNEXPECTED_BYTE",
        "UnexpectedLoopbackMsg": "LOOPBACK_UNEXPECTED_MSG",
        "Stalled": "LOOPBACK_STALLED",
    },
}
# What comments of the source say of a driver that may be configured in more ways.
SAID = (
    ("enables them if there is a level, and returns whether", "enables them, and returns whether"),
    # Interrupts, which a console never enables, and changes of modem lines, which it does not tell.
    (
        "Interrupts are off from here on, until the last write of `init`. A handler would find a chip that is half set up, and while DLAB is set it"
        " could reach neither data nor IER.",
        "No interrupt comes from here on: a handler could reach neither data nor IER while DLAB is set.",
    ),
    (
        "These reads come last, just before the interrupts are enabled: errors, changes of modem lines and a pending THR_EMPTY that were left over"
        " would interrupt at once. Some arise in `init` itself: the write of MCR may have ended a loopback, and that changes modem lines. The read"
        " of ISR matters on a chip that shows THR_EMPTY while IER is 0.",
        "These reads clear what is left over: errors, changes of modem lines and a pending THR_EMPTY. Some arise in `init` itself: the write of MCR"
        " may have ended a loopback, and that changes modem lines.",
    ),
    (
        "On a PC the gate of the interrupt line is open while OUT2 is set.",
        "OUT2 is for who enables interrupts later: on a PC it opens the gate of their line.",
    ),
    (
        "Loopback connects the modem's inputs to the outputs. So the lines are read before.",
        "Loopback connects the modem's inputs to the outputs: the changes from before are cleared here.",
    ),
    (
        "The change bits that this read clears tell what the test did. What happened to the lines is found by comparing them with those before.",
        "The change bits that this read clears tell what the test did.",
    ),
    (
        " The first poll is separate, since it mostly finds one: then the limit is never read.",
        " The first poll mostly finds one, and so stands before the loop.",
    ),
    (
        "the FIFO step: FCR is written and, if a level is configured, ISR shows whether the FIFO is on",
        "FCR is written, and ISR shows whether the FIFO is on",
    ),
    ("with interrupts off, and with FIFOs of this level, if there is one", "with interrupts off, and resets the FIFOs"),
    ("and the FIFO step is made with this level", "and FCR is written, and ISR shows whether the FIFO is on"),
    (" No wait of `init` prevents that: call `flush` before, if it matters.", ""),
    (", and enables the configured interrupts", ", and enables no interrupt"),
    ("the statuses are read without being saved, and the interrupts enabled", "the statuses are read without being saved, and 0 is written to IER"),
    (
        " with this configuration, whose divisor this is. This is a function of its own for callers that have tested the configuration already,"
        " and so have its divisor.",
        " with this divisor.",
    ),
    ("the configuration is stored, the scratch register tested, divisor,", "the scratch register is tested, divisor,"),
    (" Or nothing is done, if there is no divisor; or all up to the test", " Or all is done up to the test"),
    (" `config` is not changed, since the clock of the chip is not known: it does not say what the chip has.", ""),
    (
        ", and saves the changes of the lines that are not due to the test",
        ", and reads MSR, so that no change of the lines which is due to the test stays",
    ),
    ("changes of the lines are saved, and the saved errors", "MSR is read, and the saved errors"),
    (" and, if the configuration checks CTS, the remote is clear to send", ""),
    (
        " If the configuration checks CTS and THR is empty, it also reads MCR and, unless that shows loopback, MSR. The errors and changes that"
        " these reads clear are saved for the next `lsr` and `msr`.",
        " The errors that this clears are saved for the next `lsr`.",
    ),
    (" and, if CTS is checked, the modem lines allow sending; or the error names which of these is not so", ", or does not"),
    ("\n- `RemoteNotClearToSend` if it is empty, but the remote does not assert CTS.", ""),
    (": also if the remote is not clear to send", ""),
    (", or CTS is checked and the remote is not clear to send", ""),
    (" (`fifo_size`)", ""),
    ("; `flush` of [`embedded_io`](crate::embedded_io) waits until all of it has left the chip", ""),
    (
        "The modem lines before and after the test are compared, and their changes saved for the next `msr`; of RI only its trailing edge. A line"
        " that changed and changed back in between is not reported.\n\n",
        "",
    ),
    (": `is_gone` tells", ""),
    (" Its cause is always `NoCapacity`.", ""),
    (" With 5 or 6 data bits a chip that cuts characters fails the test.", ""),
)
# The value of LCR that a console has for ever, which is that of a field of it.
FRAME, ITS_NAME = "U16550_LCR_WORD_LENGTH", "U16550_LCR_8N1"
# What these are called that a comment names.
NAMED = {
    "init": "u16550_console_init",
    "attach": "u16550_console_attach",
    "test_loopback": "u16550_console_test_loopback",
    "lsr": "u16550_console_lsr",
    "write_text": "u16550_console_write_text",
    "Uart16550Tty::write_text": "u16550_console_write_text",
    "check_present": "uart_check_present",
    "dll_dlm": "uart_dll_dlm",
    "ready_to_send": "uart_ready_to_send",
    "spin_limit": "U16550_CONSOLE_POLLS",
}
OK, STALLED = "U16550_CONSOLE_OK", "U16550_CONSOLE_STALLED"
# The functions whose one value stands in the place of their calls: the level of the FIFOs is known.
WRITTEN_OUT = {"uart_fcr_with_trigger_level", "uart_fcr_resetting_fifos"}
# The functions that write a struct through a pointer of this name, where the source returns it: compilers for 8 bits, as SDCC, return none.
BY_POINTER = {"uart_dll_dlm": "latch", "uart_tty_expand": "expansion"}
# The members of the driver that a console has not.
GONE = ("backend", "config", "fifo_size", "saved_msr", "spin_limit")


def constant(name: str) -> Fixed:
    return lambda one: c.Word(name, one.of)


def members(library: Library) -> dict[tuple[str, str], Fixed | None]:
    """What is known of members: the value that each has for ever."""
    level = next(one for one in library.forest.program.types if one.endswith("::FifoTriggerLevel"))

    def some_level(one: c.Expression) -> c.CallOf:
        # The level that Config::DEFAULT has.
        inner = c.Word("U16550_CORE_FIFO_TRIGGER_LEVEL_FOURTEEN", c.Code("enum u16550_core_fifo_trigger_level"))
        return library.made(("Named", OPTION, (("Named", level, ()),)), 1, [("is_some", c.Word("true", c.BOOL)), ("value", inner)])

    config = "struct u16550_core_config"
    return {
        (DRIVER, "fifo_size"): constant(SIXTEEN),
        (DRIVER, "spin_limit"): constant(LIMIT),
        (DRIVER, "backend"): constant("uart_chip"),
        (DRIVER, "config"): constant("uart_config"),
        (DRIVER, "saved_msr"): None,
        **{(config, name): constant(value) for name, value in CONFIG.items()},
        (config, "interrupts"): lambda one: c.Literal(0, one.of),
        (config, "fifo_trigger_level"): some_level,
    }


def made(folder: pathlib.Path | None) -> tuple[dict[str, str], Library]:
    """The texts of the header and of the source, and the library that was translated."""
    program, source, known = program_of(OWN, folder, "./prove uart_16550"), names.Source(ROOT, OWN), dict[Key, Known]()
    library = translated(program, source, known)
    while more := library.constants():
        known = {key: known.get(key, {}) | more.get(key, {}) for key in known.keys() | more.keys()}
        library = translated(program, source, known)
    if unused := library.said.unused(SAID):
        sys.exit(f"emit: console.py: no comment says {unused[0]!r}")
    text = driver_as_terminal(in_place_of_device(library.text()))
    for name, pointer in BY_POINTER.items():
        text = through_pointer(text, name, pointer, dict(library.types.declarations))
    if found := re.search(r"(?m)^static (?:inline )?struct \w+\s(?!\*)", text):
        sys.exit(f"emit: a function returns a struct: {found[0]}")
    layer = text_of("layer_console.c")
    text = called_by(text, layer)
    struct = next(one for name, one in library.types.declarations if f"struct {name}" == DRIVER)
    shown = re.sub(rf"(?m)^ *[^\n]*\b({'|'.join(GONE)});[^\n]*\n", "", struct[struct.index(DRIVER) :])
    # What the driver is made of, and a console has not, is not declared.
    own = named_in([one for one in library.types.declarations if one[1] != struct], text + layer + shown)
    if found := re.search(rf"\b(uart_config|uart_chip)\b|(->|\.)({'|'.join(GONE)})\b", re.sub(r"/\*[\s\S]*?\*/", "", text) + layer):
        sys.exit(f"emit: {found[0]} is left out, and is read")
    offsets = [f"    UART_{name} = {value}" for name, value in sorted(library.offsets.items(), key=lambda one: (one[1], one[0]))]
    bits = [
        f"    {name} = {value:#04x}"
        for name, value in sorted((library.bits | BITS).items(), key=driver.in_order)
        if re.search(rf"\b{name}\b", text + layer)
    ]
    numbers = (
        "\n/* Where the registers are, and their bits. */\nenum {\n" + ",\n".join(offsets + bits) + "\n};\n\n" + driver.numbers_of(library, text)
    )
    device = text_of("layer_console_top.c").replace("ACCESSES\n", accesses())
    of_source = "\n".join([TOP + numbers, device, "\n".join(own), text, layer])
    if f"~{FRAME}" in of_source or len(re.findall(rf"\b{FRAME}\b", of_source)) != 2:
        sys.exit(f"emit: {FRAME} is more than the frame of a console")
    of_source = of_source.replace(FRAME, ITS_NAME)
    files = {
        "u16550_console.h": LICENCE + text_of("console_h.h").replace("STRUCT\n", shown + "\n"),
        "u16550_console.c": compilers.with_limits(of_source) + compilers.functions(),
    }
    return {name: one.replace(DRIVER, CONSOLE) for name, one in files.items()}, library


def accesses() -> str:
    """How `u16550_new_mmio_wide` accesses registers: the barriers, and a load and a store between two of them."""
    guards, memory = text_of("layer_guards.c"), text_of("layer_memory.c")
    fence, ordered = guards.index("/* What is before this in the text"), memory.index("/*\n * Makes the processor finish")
    end = "#endif\n"
    return guards[fence : guards.index(end, fence) + len(end)] + "\n" + memory[ordered : memory.index("UART_WORD(8, ")]


def in_place_of_device(text: str) -> str:
    """A text in which the functions that reach the device are not given it: there is one."""
    return text.replace("(&uart_chip, ", "(")


def driver_as_terminal(text: str) -> str:
    """A text in which a terminal, which is a driver and nothing else, is one."""
    return re.sub(r"struct uart_tty \*tty\b", f"{DRIVER} *uart", text).replace("&tty->inner", "uart").replace("(tty, ", "(uart, ")


def through_pointer(text: str, name: str, pointer: str, declarations: dict[str, str]) -> str:
    """A text in which a function writes the members of its struct through a pointer."""
    found = re.search(rf"(?m)^static ((?:inline )?)struct (\w+) {name}\(([^()]*)\)\n\{{\n([\s\S]*?)^\}}\n", text)
    if not found:
        sys.exit(f"emit: {name} returns no struct")
    inline, struct, given, body = found.groups()
    members = re.findall(r"\b(\w+)(?:\[\d+\])?;", declarations[struct])

    def written(one: re.Match[str]) -> str:
        sets = [f"{one[1]}{pointer}->{member} = {value.strip()};\n" for member, value in zip(members, one[3].split(","), strict=True)]
        # A function ends behind its last statement.
        return "".join(sets) + ("" if one.end() == len(body) else f"{one[1]}return;\n")

    if own := re.match(rf" +struct {struct} (\w+);\n", body):
        body = body[own.end() :].replace(f"{own[1]}.", f"{pointer}->").replace(f"return {own[1]};", "return;")
    made = re.sub(rf"( +)struct {struct} (\w+) = \{{ ([^{{}}]*) \}};\n +return \2;\n", written, body)
    parameters = ", ".join([*([] if given == "void" else [given]), f"struct {struct} *{pointer}"])
    text = text[: found.start()] + f"static {inline}void {name}({parameters})\n{{\n{made}}}\n" + text[found.end() :]

    def called(one: re.Match[str]) -> str:
        arguments = ", ".join([*([one[3]] if one[3] else []), f"&{one[2]}"])
        return f"{one[1]}struct {struct} {one[2]};\n{one[1]}{name}({arguments});\n"

    return re.sub(rf"( +)struct {struct} (\w+) = {name}\(([^()]*)\);\n", called, text)


def called_by(text: str, layer: str) -> str:
    """A text without the functions whose calls have gone on the way."""
    pattern = r"(?m)^(?:/\*(?:(?!\*/)[\s\S])*\*/\n)?static [\w *]*?[\n *](uart_\w+)\([^(){};]*\)\n\{\n[\s\S]*?^\}\n\n?"
    while gone := [one for one in re.finditer(pattern, text) if len(re.findall(rf"\b{one[1]}\(", text + layer)) == 1]:
        for one in reversed(gone):
            text = text[: one.start()] + text[one.end() :]
    return text


def numbered(number: str | dict[str, str]) -> str | dict[str, str]:
    """The name of a number in the header."""
    return f"U16550_CONSOLE_{number}" if isinstance(number, str) else {one: f"U16550_CONSOLE_{its}" for one, its in number.items()}


def translated(program: Program, source: names.Source, known: dict[Key, Known]) -> Library:
    library = Library(program, source, {}, OWN, "U16550", known=known)
    library.fixed = members(library)
    library.types.told = {name: Told(INT, {one: numbered(number) for one, number in numbers.items()}) for name, numbers in NUMBERS.items()}
    library.types.failures, library.types.ok = {"StalledError": STALLED}, OK
    library.types.calls = frozenset(one.name for section in calls.SECTIONS for group in section.groups for one in group.calls)
    library.said = Said(driver.NAMED | NAMED, (*SAID, *said.SAID))
    library.passed_on, library.written_out = {"uart_device_read", "uart_device_write"}, WRITTEN_OUT
    library.types.put_into_header(("Named", OF_DRIVER.rsplit("::", 2)[0] + "::Uart16550", (DEVICE,)))
    for name in CALLED:
        try:
            library.want(name)
        except Unknown as cause:
            sys.exit(f"emit: {name}: {cause}")
    return library
