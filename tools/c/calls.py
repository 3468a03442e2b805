"""The interface of the driver for C, as one table: the numbers that functions return and their texts, the data, which values are refused,
and the functions. `emit` makes the header and the layer of it, and a list of all calls for tests."""
from table import SAME, ByHand, Call, Codes, Enum, Field, Group, Member, Number, Numbers, Section, Shared, Struct, Value

# What holds of each function, at the top of the headers.
RULES = """
Every function that returns an int returns U16550_OK, or a number of the enums below: a negative one if the call was a
misuse, which made no access and changed nothing, or a positive one, which is the error of the call. What a call reports
through a pointer is written only if it returns U16550_OK, unless the function says otherwise.

A pointer must point to what its type says, or be null. Null is refused, unless the function says otherwise. An array of
length 0 may be null. Arrays and structs of one call must not overlap, and nobody else changes them until the call has
returned."""

HANDLE = """
The memory of a driver. What is in it is the library's: it is here so that a C compiler knows how much it is. Leave it alone. It may be
copied to another place between two calls, if only one of the copies is used from then on. One thread at a time may use a driver;
drivers of different chips are independent. Nothing refuses two drivers of one chip: a call of one that comes between the accesses of
a call of the other loses bytes that were reported as sent, and stops rings.

Set it to zero before a first driver is made in it, unless it is static, and so zero from the start. What was left in it
may look like a driver, or like a call that is not done."""

CHIP = "The memory of a DesignWare UART: what the library keeps of it. It stays where it is as long as the driver is used."

BUS = """
The memory of a driver at a bus. As for a driver: it may be copied to another place between two calls, if only one of the copies is used
from then on, and it is zero before a first bus is made in it."""

NOTES = "The memory of notes of errors, which is the library's. It stays where it is as long as the driver notes errors."

# A row is read as a row: black would put each word of a long one on a line of its own.
# fmt: off
# What functions return. Negative numbers are misuses. `of` names the variants of errors of the proved code: each variant of an error that a
# function returns has a number here, or `emit` makes nothing.
NUMBERS: list[Numbers] = [
    Numbers("status", "", [
        Number("OK", 0, "no error"),
    ]),
    Numbers("misuse", "The call was a misuse. It made no access and changed nothing.", [
        Number("NULL_POINTER", -1, "a pointer is null"),
        Number("MISALIGNED", -2, "a pointer is not aligned"),
        Number("NOT_MADE", -3, "there is no driver in this memory", note=SAME),
        Number("BUSY", -4, "another call over this driver is not done",
            note="a call over this driver is not done: the caller is a callback or an interrupt handler"),
        Number("BAD_LENGTH", -5, "a length is larger than any array",
            note="no array is so long: it is larger than half of all memory, or holds the last address"),
        Number("BAD_CODE", -6, "a number stands for nothing", note="a number in a configuration or a state stands for nothing"),
        Number("NOT_COMPUTABLE", -7, "no divisor can be computed for the configuration",
            note="frequency or baud rate 0, or a prescaler division factor above 15"),
        Number("ZERO_LIMIT", -8, "the spin limit is 0", note="a spin limit of 0"),
        Number("NOT_UTF8", -9, "the text is not UTF-8"),
        Number("NO_RINGS", -10, "the driver has no rings"),
        Number("HAS_RINGS", -11, "the driver has rings already"),
        Number("NO_NOTES", -12, "the driver notes no errors"),
        Number("HAS_NOTES", -13, "the driver notes errors already"),
        Number("OTHER_LAYOUT", -14, "program and library were not compiled for each other",
            note="the library is of another version than the header, or was compiled with other options"),
    ]),
    Numbers("address_error", "Why the registers cannot be there.", [
        Number("BAD_BASE", 10, "the registers do not fit behind the base address",
            note="the last register is above the last address or port, or the base is 0 in memory"),
        Number("BAD_STRIDE", 11, "the stride is not a power of two", note="the stride is no power of two"),
        Number("BAD_WIDTH", 12, "a register has 8, 16 or 32 bits", note="a register has not 8, 16 or 32 bits"),
        Number("STRIDE_TOO_SMALL", 13, "the registers overlap: the stride is less than their width",
            note="the registers would overlap: the stride is less than their width"),
        Number("MISALIGNED_BASE", 14, "the base address is not aligned for the registers", note="the base is no multiple of the width"),
    ]),
    Numbers("init_error", "Why an initialisation failed.", [
        Number("INIT_DEVICE_NOT_PRESENT", 20, "there is no device", of=("InitError.DeviceNotPresent",)),
        Number("INIT_NON_INTEGER_DIVISOR", 21, "no whole divisor gives the baud rate",
            note="no whole divisor gives the baud rate; no access was made", of=("InitError.InvalidBaudRate.NonInteger",)),
        Number("INIT_DIVISOR_OUT_OF_RANGE", 22, "the divisor for the baud rate does not fit", note="it is above 65535; no access was made",
            of=("InitError.InvalidBaudRate.OutOfRange",)),
        Number("INIT_STALLED", 23, "the transmitter did not become empty",
            note="the transmitter did not become empty within the spin limit", of=("InitError.Stalled",)),
    ]),
    Numbers("loopback_error", "Why a loopback test failed.", [
        Number("LOOPBACK_NO_CAPACITY", 30, "loopback: the device took no byte", note="the device took no byte",
            of=("LoopbackError.SendError.NoCapacity",)),
        Number("LOOPBACK_NOT_CLEAR_TO_SEND", 31, "loopback: the remote is not clear to send", note="no call returns this",
            of=("LoopbackError.SendError.RemoteNotClearToSend",)),
        Number("LOOPBACK_UNEXPECTED_BYTE", 32, "loopback: another byte came back", of=("LoopbackError.UnexpectedLoopbackByte",)),
        Number("LOOPBACK_UNEXPECTED_MSG", 33, "loopback: another message came back", of=("LoopbackError.UnexpectedLoopbackMsg",)),
        Number("LOOPBACK_STALLED", 34, "loopback: the device did not respond in time", of=("LoopbackError.Stalled",)),
    ]),
    Numbers("remote_error", "Why the remote seems not to be connected.", [
        Number("REMOTE_NO_DSR", 40, "no remote is connected: DSR is clear", of=("RemoteReadyToReceiveError.NoRemoteConnectedNoDSR",)),
        Number("REMOTE_NO_CD", 41, "no remote is connected: CD is clear", note="no call returns this",
            of=("RemoteReadyToReceiveError.NoRemoteConnectedNoCD",)),
        Number("REMOTE_NOT_CLEAR_TO_SEND", 42, "the remote is not clear to send", of=("RemoteReadyToReceiveError.RemoteNotClearToSend",)),
    ]),
    Numbers("send_error", "Why no byte can be sent at the moment.", [
        Number("SEND_NO_CAPACITY", 50, "the transmitter has no room", of=("ByteSendError.NoCapacity",)),
        Number("SEND_NOT_CLEAR_TO_SEND", 51, "nothing is sent, because CTS is clear", note="CTS is clear, and the configuration checks it",
            of=("ByteSendError.RemoteNotClearToSend",)),
    ]),
    Numbers("receive_error", "", [
        Number("RECEIVE_NO_DATA", 60, "no byte was received"),
    ]),
    Numbers("stalled_error", "", [
        Number("STALLED", 70, "a wait came to the spin limit", note=SAME, of=("StalledError", "SendError.Stalled", "WaitEnd.SpinLimit")),
        Number("WAIT_ENDED", 71, "the caller waits no longer", note="keep_waiting returned 0", of=("WaitEnd.Patience",)),
    ]),
    Numbers("baud_rate_error", "", [
        Number("NON_INTEGER_BAUD_RATE", 80, "the divisor gives no whole baud rate", note="the divisor is 0, or gives no whole baud rate",
            of=("NonIntegerBaudRateError",)),
    ]),
    Numbers("ring_error", "Why there are no rings.", [
        Number("RING_BAD_CAPACITY", 90, "a ring has room for 1 to 4096 bytes", note="a capacity is 0 or more than U16550_MAX_CAPACITY",
            of=("RingError.BadCapacity",)),
        Number("RING_OUT_OF_MEMORY", 91, "the memory is too small for the rings",
            note="the memory is smaller than both capacities together", of=("RingError.OutOfMemory",)),
    ]),
    Numbers("stuck_error", "Why a chip is stuck.", [
        Number("RING_STUCK_UNKNOWN", 92, "the chip shows an unknown interrupt for ever", note="ISR shows an interrupt that has no name",
            of=("StuckError.Unknown",)),
        Number("RING_STUCK_PENDING", 93, "an interrupt does not go away",
            note="ISR shows an interrupt that was served and does not go away", of=("StuckError.Pending",)),
    ]),
    Numbers("unnoted_error", "", [
        Number("RING_UNNOTED", 94, "bytes of the receive ring have no note of their errors", note=SAME, of=("UnnotedError",)),
    ]),
    Numbers("frame_error", "Why no frame was set.", [
        Number("FRAME_NON_INTEGER_DIVISOR", 100, "frame: no whole divisor gives the baud rate",
            note="no whole divisor gives the baud rate; no access was made",
            of=("InvalidDivisorError.NonInteger", "FrameError.InvalidBaudRate.NonInteger")),
        Number("FRAME_DIVISOR_OUT_OF_RANGE", 101, "frame: the divisor for the baud rate does not fit",
            note="it is above 65535; no access was made", of=("InvalidDivisorError.OutOfRange", "FrameError.InvalidBaudRate.OutOfRange")),
        Number("FRAME_STALLED", 102, "frame: the transmitter did not become empty",
            note="the transmitter did not become empty within the spin limit; nothing was written", of=("FrameError.Stalled",)),
    ]),
    Numbers("nearest_error", "Why the nearest divisor for a baud rate cannot be used.", [
        Number("NEAREST_TOO_FAR", 110, "the nearest divisor is not near enough",
            note="its baud rate differs by more than so many thousandths", of=("NearestDivisorError.TooFar",)),
        Number("NEAREST_OUT_OF_RANGE", 111, "the nearest divisor does not fit",
            note="it is above 65535, or the frequency at which it is exact is above 32 bits", of=("NearestDivisorError.OutOfRange",)),
    ]),
    Numbers("attach_error", "Why a port could not be taken as it is.", [
        Number("ATTACH_DIVISOR_LATCH_OPEN", 120, "attach: the divisor latch was left open", note="DLAB is set",
            of=("AttachError.DivisorLatchOpen",)),
        Number("ATTACH_LOOPBACK", 121, "attach: the chip was left in loopback", of=("AttachError.Loopback",)),
        Number("ATTACH_NO_DIVISOR", 122, "attach: the port has no divisor",
            note="the divisor latch reads as 0: no port is set up there, or there is none", of=("AttachError.NoDivisor",)),
    ]),
    Numbers("fifos_error", "Why the FIFOs have no trigger level, or why their size was not found or not changed.", [
        Number("FIFOS_OFF", 130, "the FIFOs are off", note="no access was made", of=("FifoSizeError.FifosOff",)),
        Number("FIFOS_TOO_FEW", 131, "FIFO size: too few bytes came back",
            note="fewer than 16 bytes came back in loopback", of=("FifoSizeError.TooFew",)),
        Number("FIFOS_STALLED", 132, "FIFO size: the device did not respond in time",
            note="a wait came to the spin limit", of=("FifoSizeError.Stalled",)),
    ]),
    Numbers("configuration_error", "What a chip does not show of what was written to it. The first difference is told, in this order.", [
        Number("CONFIGURATION_NO_DIVISOR", 140, "configured: there is no divisor for the baud rate",
            note="the driver's configuration has no divisor; no access was made", of=("ConfigurationError.NoDivisor",)),
        Number("CONFIGURATION_LINE_CONTROL", 141, "configured: LCR does not show what was written",
            note="LCR shows another frame, or DLAB was not set or not cleared", of=("ConfigurationError.LineControl",)),
        Number("CONFIGURATION_MODEM_CONTROL", 142, "configured: MCR does not show what was written",
            of=("ConfigurationError.ModemControl",)),
        Number("CONFIGURATION_INTERRUPTS", 143, "configured: IER does not show what was written", of=("ConfigurationError.Interrupts",)),
        Number("CONFIGURATION_DIVISOR", 144, "configured: the divisor latch has another divisor", of=("ConfigurationError.Divisor",)),
        Number("CONFIGURATION_FIFOS", 145, "configured: the FIFOs are not as the driver takes them to be",
            note="ISR shows otherwise than u16550_fifo_enabled whether they are on", of=("ConfigurationError.Fifos",)),
    ]),
    Numbers("bus_error", "Why a call at a bus was not done.", [
        Number("BUS_BUSY", 160, "the transmitter is not empty", note="the transmitter is not empty; nothing was written", of=("BusyError",)),
        Number("BUS_NOT_SENDING", 161, "the direction is not to send", note="the direction is not to send; no access was made",
            of=("SendError.NotSending",)),
    ]),
    Numbers("design_ware_fault", "What a DesignWare UART did that could not be mended.", [
        Number("DESIGN_WARE_LINE_CONTROL", 150, "the UART stayed busy, and ignored LCR",
            note="it was busy for longer than the patience, and LCR does not have what was written"),
        Number("DESIGN_WARE_INTERRUPT", 151, "an interrupt of the UART does not end",
            note="busy detect, or a reception timeout without data, does not end"),
    ]),
    Numbers("time_error", "Why there is no such time.", [
        Number("TIME_NOTHING_LEFT", 170, "time: nothing is left for a handler", note="a handler is too late, however early it begins"),
        Number("TIME_NO_LIMIT", 171, "time: a look takes no time", note="a look takes no time, so no limit is long enough"),
        Number("TIME_OUT_OF_RANGE", 172, "time: it does not fit into 64 bits"),
    ]),
]

# The data, in the order of the header.
TYPES: list[Enum | Struct] = [
    Struct("io", """
How the device is reached. The functions get the context and an address: the offset of a register, 0 to 7, or after
u16550_new_port a port, or after u16550_new_mmio an address of memory. They must return, and must not throw. If one of
them calls a function over the same driver, that function returns U16550_BUSY.""", [
        Field("void *context"),
        Field("uint8_t (*read)(void *context, uintptr_t address)"),
        Field("void (*write)(void *context, uintptr_t address, uint8_t value)"),
    ]),
    Enum("byte_order", """
Which byte of a register of several bytes is the first in memory. The chip's eight bits are in the lowest byte.""", [
        Member("NATIVE_ENDIAN", 0, "that of the processor: no byte is moved"),
        Member("LITTLE_ENDIAN", 1, "the lowest"),
        Member("BIG_ENDIAN", 2, "the highest"),
    ]),
    Struct("layout", "How the registers of a device lie in memory, from the first one on.", [
        Field("uint8_t stride", "the distance between two registers in bytes: a power of two, and at least the width"),
        Field("uint8_t width", "how many bits each access has: 8, 16 or 32"),
        Field("uint8_t byte_order", "an enum u16550_byte_order; it means nothing if the width is 8"),
    ]),
    Enum("parity", "", [
        Member("PARITY_NONE", 0),
        Member("PARITY_ODD", 1),
        Member("PARITY_EVEN", 2),
        Member("PARITY_FORCED_1", 3),
        Member("PARITY_FORCED_0", 4),
    ]),
    Struct("config", "How a device is to be set up. Another number than these is refused by U16550_BAD_CODE.", [
        Field("uint32_t frequency", "of the clock, in hertz: usually 1843200"),
        Field("uint32_t baud_rate"),
        Field("uint32_t prescaler_division_factor", "0 to 15; counts only with has_prescaler"),
        Field("uint8_t has_prescaler", "0 or 1"),
        Field("uint8_t interrupts", "as in IER"),
        Field("uint8_t fifo_trigger_level", "0 for no FIFO, or 1, 4, 8, 14"),
        Field("uint8_t data_bits", "5 to 8"),
        Field("uint8_t extra_stop_bits", "0 or 1"),
        Field("uint8_t parity", "an enum u16550_parity"),
        Field("uint8_t check_cts_before_sending", "0 or 1"),
    ]),
    Struct("state", "What a driver keeps from call to call.", [
        Field("uint64_t spin_limit", "how many unsuccessful polls in a row a wait makes; not 0"),
        Field("struct u16550_config config"),
        Field("uint8_t fifo_enabled", "0 or 1"),
        Field("uint8_t saved_lsr", "errors that reads of LSR cleared in the chip, and that were not reported yet"),
        Field("uint8_t saved_msr", "the same for changes of the modem lines"),
        Field("uint16_t fifo_size", "how many characters the FIFOs are taken to hold: 16, 32, 64, 128 or 256"),
    ]),
    Struct("dump", "All registers at one time.", [
        Field("uint8_t ier, isr, lcr, mcr, lsr, msr, spr, dll, dlm"),
    ]),
    Enum("transmitter_wait", "When an initialisation waits until the transmitter is empty.", [
        Member("WAIT_FIRST", 0, "before divisor and frame are written: no character is broken that is going out"),
        Member("WAIT_LAST", 1, "after everything but the interrupts is written, as u16550_init does"),
        Member("WAIT_NEVER", 2),
    ]),
    Struct("setup", "What u16550_init_with does beside writing the configuration. u16550_init does { 1, U16550_WAIT_LAST, 0x0b }.", [
        Field("uint8_t checks_presence", "1: the scratch register is tested first; 0 for a chip without one"),
        Field("uint8_t wait", "an enum u16550_transmitter_wait"),
        Field("uint8_t outputs", "bits of MCR that are set, others are clear; loopback is left out"),
    ]),
    Enum("fifo_action", "What becomes of the FIFOs of a port that is left.", [
        Member("FIFOS_KEEP", 0),
        Member("FIFOS_RESET", 1, "they are emptied, and stay on if they are on"),
        Member("FIFOS_DISABLE", 2, "they are emptied and turned off"),
    ]),
    Struct("loopback_failure", "What came back in a loopback test. What does not belong to the error is 0.", [
        Field("uint8_t expected, actual"),
        Field("uint8_t expected_msg[16], actual_msg[16]"),
    ]),
    Struct("difference", "What was expected of a register, and what it shows. For FIFOs 1 says that they are on.", [
        Field("uint16_t expected, shown"),
    ]),
    Struct("received", """
A received byte, and the line errors that LSR showed with it. Parity, framing and break are of this byte. An overrun tells that
a character was lost: with the FIFO on right behind as many characters from this byte on as the FIFO holds, or one fewer, the 15th
or the 16th with a FIFO of 16; with the FIFO off before this byte.""", [
        Field("uint8_t byte", "0 for a break"),
        Field("uint8_t errors", "as in LSR"),
    ]),
    Enum("handle_end", "Why a call of u16550_ring_handle ended.", [
        Member("HANDLE_IDLE", 0, "ISR showed that no interrupt is pending"),
        Member("HANDLE_UNKNOWN", 1, "ISR showed an interrupt that has no name; it was not served"),
        Member("HANDLE_LIMIT", 2, "as many interrupts as the limit were served"),
    ]),
    Struct("handled", "What a call of u16550_ring_handle did.", [
        Field("size_t served", "how many interrupts"),
        Field("uint8_t end", "an enum u16550_handle_end"),
    ]),
    Struct("line_port", "A port of an interrupt line that several ports share, and what u16550_line_handle did there.", [
        Field("struct u16550 *uart", "a driver with rings; this alone is given"),
        Field("struct u16550_handled handled", "all 0 if the chip is stuck"),
        Field("int status", "U16550_OK, or an enum u16550_stuck_error if the chip is stuck"),
        Field("uint8_t enabled", "the interrupts that were enabled, for the library"),
    ]),
    Struct("urgent", "The urgent byte of rings.", [
        Field("uint8_t waits", "whether there is one"),
        Field("uint8_t byte", "0 if there is none"),
    ]),
    Enum("direction_line", "The output that switches the transceiver at a bus.", [
        Member("DIRECTION_RTS", 0),
        Member("DIRECTION_DTR", 1),
    ]),
    Struct("direction", """
How the transceiver at a bus is switched. The pin of an output is low while its bit in MCR is set: a transceiver at the pin itself, which
drives the bus while its input DE is high, sends while the bit is clear; with an inverter between them it sends while the bit is set.""", [
        Field("uint8_t line", "an enum u16550_direction_line"),
        Field("uint8_t sends_when_set", "0 or 1: it sends while the bit is set in MCR"),
    ]),
    Struct("stuck", "Whether a chip is stuck.", [
        Field("uint8_t is_stuck"),
        Field("uint8_t isr", "bits 3 to 0 of ISR, which showed why; 0 if it is not stuck"),
    ]),
]

BITS: list[Enum] = [
    Enum("ier_bits", "Bits of registers.", [
        Member("IER_DATA_READY", 0x01),
        Member("IER_THR_EMPTY", 0x02),
        Member("IER_RECEIVER_LINE_STATUS", 0x04),
        Member("IER_MODEM_STATUS", 0x08),
    ]),
    Enum("mcr_bits", "", [
        Member("MCR_DTR", 0x01),
        Member("MCR_RTS", 0x02),
        Member("MCR_OUT_1", 0x04),
        Member("MCR_OUT_2_INT_ENABLE", 0x08, "on a PC the interrupt line is connected only with this"),
        Member("MCR_LOOP_BACK", 0x10),
        Member("MCR_AUTO_FLOW", 0x20, "RTS and CTS by the chip, which a 16750, a 16950 and DesignWare UARTs can do"),
    ]),
    Enum("lsr_bits", "", [
        Member("LSR_DATA_READY", 0x01),
        Member("LSR_OVERRUN_ERROR", 0x02),
        Member("LSR_PARITY_ERROR", 0x04),
        Member("LSR_FRAMING_ERROR", 0x08),
        Member("LSR_BREAK_INTERRUPT", 0x10),
        Member("LSR_THR_EMPTY", 0x20),
        Member("LSR_TRANSMITTER_EMPTY", 0x40),
        Member("LSR_FIFO_DATA_ERROR", 0x80),
    ]),
    Enum("msr_bits", "", [
        Member("MSR_DELTA_CTS", 0x01),
        Member("MSR_DELTA_DSR", 0x02),
        Member("MSR_TRAILING_EDGE_RI", 0x04),
        Member("MSR_DELTA_CD", 0x08),
        Member("MSR_CTS", 0x10),
        Member("MSR_DSR", 0x20),
        Member("MSR_RI", 0x40),
        Member("MSR_CD", 0x80),
    ]),
]

# The errors that are kept with their parts; and those whose parts a function writes through a pointer: to what, its name, and which member each part
# is there.
KEPT, SILENT = ("StuckError",), ("NonIntegerBaudRateError",)
DETAILS = {
    "ConfigurationError": ("struct u16550_difference", "difference", {
        (variant, field): field
        for variant in ("LineControl", "ModemControl", "Interrupts", "Divisor", "Fifos")
        for field in ("expected", "shown")
    }),
    "LoopbackError": ("struct uart_loopback_failure", "failure", {
        ("UnexpectedLoopbackByte", "expected"): "expected",
        ("UnexpectedLoopbackByte", "actual"): "actual",
        ("UnexpectedLoopbackMsg", "expected"): "expected_msg",
        ("UnexpectedLoopbackMsg", "actual"): "actual_msg",
    }),
    "SendError": ("size_t", "stalled_at", {("Stalled", "value"): "stalled_at"}),
}

# What numbers of data stand for: the variants of the proved code have other numbers.
CODES = [
    Codes("FifoTriggerLevel", "uint8_t", {"One": 1, "Four": 4, "Eight": 8, "Fourteen": 14}),
    Codes("WordLength", "uint8_t", {"FiveBits": 5, "SixBits": 6, "SevenBits": 7, "EightBits": 8}),
    Codes("FifoSize", "uint16_t", {"Sixteen": 16, "ThirtyTwo": 32, "SixtyFour": 64, "OneHundredTwentyEight": 128,
                                   "TwoHundredFiftySix": 256}),
]

# The enums of the header that the proved code has too: its type, the enum, and the number of each variant. A number that a program gives is
# looked at if it is refused by U16550_BAD_CODE.
SHARED = [
    Shared("Parity", "parity", {"Disabled": "PARITY_NONE", "Odd": "PARITY_ODD", "Even": "PARITY_EVEN", "Forced1": "PARITY_FORCED_1",
                                "Forced0": "PARITY_FORCED_0"}, is_given=True),
    Shared("TransmitterWait", "transmitter_wait", {"First": "WAIT_FIRST", "Last": "WAIT_LAST", "Never": "WAIT_NEVER"}, is_given=True),
    Shared("FifoAction", "fifo_action", {"Keep": "FIFOS_KEEP", "Reset": "FIFOS_RESET", "Disable": "FIFOS_DISABLE"}, is_given=True),
    Shared("DirectionLine", "direction_line", {"Rts": "DIRECTION_RTS", "Dtr": "DIRECTION_DTR"}, is_given=True),
    Shared("DesignWareFault", "design_ware_fault", {"LineControlIgnored": "DESIGN_WARE_LINE_CONTROL",
                                                    "InterruptWithoutEnd": "DESIGN_WARE_INTERRUPT"}),
    Shared("HandleEnd", "handle_end", {"Idle": "HANDLE_IDLE", "Unknown": "HANDLE_UNKNOWN", "Limit": "HANDLE_LIMIT"}),
]

# Which values of parameters are refused, and what the proved function gets. They are tested in this order, once the driver is there and
# no other call over it is under way; a pointer that is written to is tested before that.
VALUES = [
    Value("const struct u16550_config *config", "uart_decode_computable(config, &decoded)", "decoded", "struct u16550_core_config decoded"),
    Value("const struct u16550_setup *setup", "uart_decode_setup(setup, &setup_of)", "&setup_of", "struct uart_setup setup_of"),
    Value("const struct u16550_dump *dump", ("dump == NULL", "U16550_NULL_POINTER"), "dump"),
    Value("uint8_t on", "uart_check_flag(on)", "on == 1"),
    Value("uint8_t characters", "uart_decode_fifo_trigger_level(characters, &level)", "level", "uint8_t level"),
    Value("uint8_t fifos", "uart_check_fifo_action(fifos)", "fifos"),
    Value("uint16_t fifo_size", "uart_decode_fifo_size(fifo_size, &size)", "size", "uint8_t size"),
    Value("uint64_t limit", ("limit == 0", "U16550_ZERO_LIMIT"), "limit"),
    Value("const uint8_t *urgent", "uart_decode_urgent(urgent, &urgent_byte)", "urgent_byte", "struct u16550_core_maybe_u8 urgent_byte"),
    Value("const uint8_t *first", "uart_array(first, first_len, 1, 1)", "first"),
    Value("const uint8_t *second", "uart_array(second, second_len, 1, 1)", "second"),
    Value("const uint8_t *buffer", "uart_array(buffer, len, 1, 1)", "buffer"),
    Value("uint8_t *buffer", "uart_array(buffer, len, 1, 1)", "buffer"),
    Value("uint8_t (*keep_waiting)(void *context), void *context", ("keep_waiting == NULL", "U16550_NULL_POINTER"), "&patience",
          "struct uart_patience patience = { keep_waiting, context }"),
    Value("struct u16550_received *received, size_t len", "uart_array(received, len, sizeof(struct u16550_received), 1)", "received, len"),
]

# What calls of a configuration return: one that needs a divisor, and one that needs none.
BY_DIVISOR = {"error": "InvalidDivisorError"}
CONVERTED = {"none": "TIME_OUT_OF_RANGE"}

# The functions. A `Call` is one call of the proved code, `uart_NAME` of driver or rings, or of a configuration if it takes that first; its
# guards come of what it takes.
SECTIONS: list[Section] = [
    Section("numbers and the version as texts", "", [
        Group("Returns a text for what a function returned, for a log. Never null.", [
            ByHand("text", "int status", returns="const char *"),
        ]),
        Group("Returns the version of the library, as U16550_VERSION was when it was compiled. Never null.", [
            ByHand("version", "void", returns="const char *"),
        ]),
    ]),
    Section("making a driver", """
These make a driver in the memory, in place of one that is there, whose rings end. They make no access. If a call over the
driver that is there is not done, they return U16550_BUSY. The driver has the default configuration, a spin limit of
1000000 polls, and takes the FIFOs to hold 16 characters.""", [
        Group("A driver whose functions get offsets.", [
            ByHand("new", "struct u16550 *uart, const struct u16550_io *io"),
        ]),
        Group("A driver whose functions get ports, from base on. Refused by U16550_BAD_BASE if base + 7 is above 65535.", [
            ByHand("new_port", "struct u16550 *uart, const struct u16550_io *io, uint16_t base", errors="BAD_BASE"),
        ]),
        Group("""
A driver whose functions get addresses of memory, from base on and stride apart. Refused by U16550_BAD_STRIDE if stride
is no power of two, else by U16550_BAD_BASE if base is 0 or base + 7 * stride is too large.""", [
            ByHand("new_mmio", "struct u16550 *uart, const struct u16550_io *io, uintptr_t base, uint8_t stride", errors="BAD_BASE BAD_STRIDE"),
        ]),
        Group("""
A driver for registers in memory that the library accesses itself, by functions of its own, which u16550_get_io returns.
Each access is one load or store of the width of the layout, in order: with a barrier before and behind it on architectures that need
one. A read gives the lowest eight bits of a register, and a write sets the others to 0. Refused by U16550_BAD_WIDTH, by
U16550_BAD_CODE if the byte order is none, else as u16550_new_mmio, else by U16550_STRIDE_TOO_SMALL or U16550_MISALIGNED_BASE.""", [
            ByHand("new_mmio_wide", "struct u16550 *uart, uintptr_t base, const struct u16550_layout *layout", errors="address_error"),
        ]),
        Group("""
A driver for a UART of Synopsys' DesignWare, as Rockchip, Allwinner, StarFive, Intel and others have it. Such a chip ignores a write of
LCR while it is busy, and interrupts for that and for reception timeouts without data. Here each write of LCR waits until the chip is not
busy, is read back, and loses none of what is received meanwhile, up to 64 characters; and these interrupts are ended. patience is how
many looks in a row a write of LCR waits; 0 is refused by U16550_ZERO_LIMIT.

The functions get the offset of a register, 0 to 7, or 31 for the register USR. With mmio there are none, and the registers lie in
memory as for u16550_new_mmio_wide. Each driver has its own chip, which is in no other use as long as the driver is used.""", [
            ByHand("new_design_ware",
                   "struct u16550 *uart, struct u16550_design_ware *chip, const struct u16550_io *io, uint64_t patience"),
            ByHand("new_mmio_design_ware",
                   "struct u16550 *uart, struct u16550_design_ware *chip, uintptr_t base, const struct u16550_layout *layout, "
                   "uint64_t patience", errors="address_error"),
        ]),
        Group("""
What went wrong since the last write of LCR that the chip took, as an enum u16550_design_ware_fault, or U16550_OK. After a fault the
chip's interrupts are off, whatever is written to IER. The calls return no error for it: u16550_check_configured does. Makes no access.
U16550_NOT_MADE if the driver has another chip.""", [
            ByHand("design_ware_fault", "struct u16550 *uart, struct u16550_design_ware *chip", errors="design_ware_fault"),
        ]),
        Group("A driver in this state, whose functions get offsets.", [
            ByHand("from_state", "struct u16550 *uart, const struct u16550_io *io, const struct u16550_state *state"),
        ]),
        Group("""
Ends a driver: the memory is the caller's again, and so is that of its rings. If a call over the driver is not done, this
returns U16550_BUSY, and the driver stays.""", [
            ByHand("end", "struct u16550 *uart"),
        ]),
    ]),
    Section("what a driver keeps; none of these makes an access", "", [
        Group("""
Writes the default: no interrupts, 1843200 Hz, 9600 baud, FIFO with trigger level 14, 8 data bits, 1 stop bit, no parity.""", [
            ByHand("default_config", "struct u16550_config *config"),
        ]),
        Group("""
Writes the configuration with the frequency at which the nearest divisor gives its baud rate exactly, if that differs from
its frequency by at most so many thousandths. u16550_init and u16550_set_frame accept it, and write the nearest divisor. The
line then has a rate that differs by as many thousandths at most. The two sides of a line may be some 45 thousandths
apart, so 20 for each is usual.
Returns an enum u16550_nearest_error if there is none. nearest may be config.""", [
            ByHand("nearest", "const struct u16550_config *config, uint32_t per_mille, struct u16550_config *nearest", errors="nearest_error"),
        ]),
        Group("", [
            ByHand("get_io", "struct u16550 *uart, struct u16550_io *io"),
            ByHand("set_io", "struct u16550 *uart, const struct u16550_io *io"),
            Call("get_config", "struct u16550 *uart, struct u16550_config *config", gives="config",
                 does="uart_encode_config(uart_config(DRIVER), &found)"),
            Call("get_state", "struct u16550 *uart, struct u16550_state *state", gives="state",
                 does="uart_encode_state(uart_state(DRIVER), &found)"),
            Call("fifo_enabled", "struct u16550 *uart, uint8_t *enabled", gives="enabled"),
            Call("spin_limit", "struct u16550 *uart, uint64_t *limit", gives="limit"),
            Call("set_spin_limit", "struct u16550 *uart, uint64_t limit"),
        ]),
        Group("""
How many characters the FIFOs are taken to hold: 16 at first, or what u16550_set_fifo_size set last: 16, 32, 64, 128 or 256. Another
number is refused by U16550_BAD_CODE. All that sends, and the rings, put as many bytes into one burst if the FIFO is on, so that a larger
size takes fewer interrupts for the same bytes. No other call changes it. It is taken on trust: with a size larger than the chip's the
bytes that do not fit are lost, and nothing tells. Some chips hold more than 16 only after they were told, as a 16750 by
u16550_enable_64_byte_fifos. u16550_find_fifo_size finds the size of FIFOs as they are set up.""", [
            Call("fifo_size", "struct u16550 *uart, uint16_t *fifo_size", gives="fifo_size", encode="fifo_size"),
            Call("set_fifo_size", "struct u16550 *uart, uint16_t fifo_size"),
        ]),
    ]),
    Section("how long things take", """
These take a configuration and no driver, and make no access. Times are in clocks of the chip's input, of which a second has frequency: so
nothing is rounded but by the last four calls. A configuration is refused as by u16550_set_frame; the last four need no divisor. fifo_size
is how many characters the FIFOs hold, as for u16550_set_fifo_size.""", [
        Group("""
How many clocks a character takes on the line: its start bit, data bits, parity bit and stop bits, with one and a half exact.""", [
            Call("character_clocks", "const struct u16550_config *config, uint64_t *clocks", gives="clocks", **BY_DIVISOR),
        ]),
        Group("""
The most clocks that a handler may be late, so that no character is dropped without flow control: from the receiver's interrupt to the
read of ISR, at the trigger level of the configuration. An access takes at most access_clocks, which u16550_clocks_covering has of
nanoseconds. At a line that several ports share, those before this one are served first, for at most before_clocks; at a line of its own
this is 0. With 0 for both it is the time until the first read of DATA. Returns U16550_TIME_NOTHING_LEFT if nothing is left, also if the
two accesses of a byte take longer than a character. The other end must be no faster than the configuration, also by its stop bits. If an
access takes a quarter of a character or more, a visit may end by its limit, and characters are lost in spite of the result.""", [
            Call("handler_budget", "const struct u16550_config *config, uint16_t fifo_size, uint64_t access_clocks, uint64_t before_clocks, "
                 "uint64_t *clocks", gives="clocks", none="TIME_NOTHING_LEFT", **BY_DIVISOR),
        ]),
        Group("""
How many characters arrive within so many clocks at most: what a mark of flow control has to leave room for, if these pass until the other
end holds back.""", [
            Call("characters_in", "const struct u16550_config *config, uint64_t clocks, uint64_t *characters",
                 gives="characters", **BY_DIVISOR),
        ]),
        Group("""
How many clocks a full transmitter takes to send all that it holds, the FIFO and the shift register: so long at most does a u16550_flush
take, if the other end does not hold the chip off.""", [
            Call("drain_clocks", "const struct u16550_config *config, uint16_t fifo_size, uint64_t *clocks", gives="clocks", **BY_DIVISOR),
        ]),
        Group("""
After how many clocks the chip interrupts if fewer characters wait than the trigger level: the time of four characters.""", [
            Call("timeout_clocks", "const struct u16550_config *config, uint64_t *clocks", gives="clocks", **BY_DIVISOR),
        ]),
        Group("""
The limit for u16550_set_spin_limit with which no wait for a working transmitter gives up, if each look takes at least access_clocks, and
the other end does not hold the chip off. u16550_clocks_within has these of nanoseconds. Returns U16550_TIME_NO_LIMIT if a look takes
none.""", [
            Call("spin_limit_for", "const struct u16550_config *config, uint16_t fifo_size, uint64_t access_clocks, uint64_t *limit",
                 gives="limit", none="TIME_NO_LIMIT", **BY_DIVISOR),
        ]),
        Group("""
Clocks as nanoseconds, and back. Those with 'within' round down: for a time that may be used up, and for the least that a look takes. Those
with 'covering' round up: for a time to wait, and for the most that an access takes. They return U16550_TIME_OUT_OF_RANGE if the result does
not fit into 64 bits.""", [
            Call("nanoseconds_within", "const struct u16550_config *config, uint64_t clocks, uint64_t *nanoseconds", gives="nanoseconds",
                 **CONVERTED),
            Call("nanoseconds_covering", "const struct u16550_config *config, uint64_t clocks, uint64_t *nanoseconds", gives="nanoseconds",
                 **CONVERTED),
            Call("clocks_within", "const struct u16550_config *config, uint64_t nanoseconds, uint64_t *clocks", gives="clocks", **CONVERTED),
            Call("clocks_covering", "const struct u16550_config *config, uint64_t nanoseconds, uint64_t *clocks", gives="clocks", **CONVERTED),
        ]),
    ]),
    Section("setting up", "", [
        Group("Whether a chip is there: its scratch register keeps two patterns.", [
            Call("check_present", "struct u16550 *uart, uint8_t *present", gives="present"),
        ]),
        Group("""
Sets the device up. Returns an enum u16550_init_error if it cannot be. A character in the shift register is not waited for before
divisor and frame change: the other end may receive it broken, and one that is arriving may be received broken here. On a line
that is in use call u16550_init_with and U16550_WAIT_FIRST.""", [
            Call("init", "struct u16550 *uart, const struct u16550_config *config", error="InitError"),
        ]),
        Group("""
Does the same otherwise: without the test of the scratch register, with the wait for the transmitter first or not at all,
with other outputs. If the wait that comes first ends by U16550_INIT_STALLED, nothing was written but the scratch register.""", [
            Call("init_with", "struct u16550 *uart, const struct u16550_config *config, const struct u16550_setup *setup",
                 error="InitError"),
        ]),
        Group("""
Tests the chip in loopback. Returns an enum u16550_loopback_error if it fails; *failure then has what came back. failure
may be null.""", [
            ByHand("test_loopback", "struct u16550 *uart, struct u16550_loopback_failure *failure", errors="loopback_error"),
        ]),
        Group("""
Finds how many characters the FIFOs hold as they are set up now, for u16550_set_fifo_size, which it does not call: 16, 32, 64,
128 or 256. Sends 257 bytes in loopback without looking, and counts those that come back. Nothing goes out on the line. Bytes
that were received before and not taken are lost, and so is what arrives meanwhile. It takes as long as the characters need on
the line. Returns an enum u16550_fifos_error if no size was found.""", [
            Call("find_fifo_size", "struct u16550 *uart, uint16_t *fifo_size", gives="fifo_size", error="FifoSizeError", encode="fifo_size"),
        ]),
        Group("""
Turns on the FIFOs of 64 characters of a 16750, once its transmitter is empty. *enabled is 1 if they hold 64 then: a
u16550_set_fifo_size with 64, which it does not call, is right. A 16750 empties its FIFOs, so bytes that were received before and
not taken are lost. Another chip loses nothing, and *enabled is 0. Call it again after a u16550_init that follows a reset of the
chip. Interrupts are off meanwhile, and DLAB is set for a moment, so nothing else may access the chip. Returns an enum
u16550_fifos_error if the FIFOs are off, or if the transmitter did not become empty.""", [
            Call("enable_64_byte_fifos", "struct u16550 *uart, uint8_t *enabled", gives="enabled", error="FifoSizeError"),
        ]),
        Group("""
Whether the chip shows what was written to it: the frame, these outputs, which after u16550_init are 0x0b, the interrupts, the
divisor, and whether the FIFOs are on. Call it after a call that sets the chip up, if the chip may ignore a write. Returns an
enum u16550_configuration_error if a register differs; *difference then has both values. difference may be null. It reads the
latch only if LCR shows DLAB, writes LCR back, and is without interrupts while it reads ISR.""", [
            ByHand("check_configured", "struct u16550 *uart, uint8_t outputs, struct u16550_difference *difference", errors="configuration_error"),
        ]),
        Group("Whether a remote is there and ready to receive. Returns an enum u16550_remote_error if not.", [
            Call("check_connected", "struct u16550 *uart", error="RemoteReadyToReceiveError"),
        ]),
        Group("""
Changes baud rate and frame to those of this configuration while the port runs: writes LCR, DLL, DLM and LCR, and nothing
else. So FIFOs, outputs to the modem and interrupts stay as they are, and no byte is discarded; characters that are on the
line may be cut, and a break ends. interrupts, fifo_trigger_level and check_cts_before_sending are not used. Returns an enum
u16550_frame_error if the divisor cannot be had.""", [
            Call("set_frame", "struct u16550 *uart, const struct u16550_config *config", error="InvalidDivisorError", arguments="&decoded"),
        ]),
        Group("Waits until all that was sent is on the line, within the spin limit, and then does the same.", [
            Call("set_frame_when_idle", "struct u16550 *uart, const struct u16550_config *config", error="FrameError",
                 arguments="&decoded"),
        ]),
        Group("""
Sets the trigger level of the receiver FIFO to 1, 4, 8 or 14 characters, without a reset: what is in the FIFOs stays. Returns
U16550_FIFOS_OFF, without an access, if the FIFOs are off.""", [
            Call("set_trigger_level", "struct u16550 *uart, uint8_t characters", false="FIFOS_OFF"),
        ]),
        Group("""
Leaves the port so that the chip interrupts nobody: writes 0 to IER, then the outputs to MCR without loopback, and does with
the FIFOs what an enum u16550_fifo_action says. Does not wait, and reads no received byte: on a chip that shows DATA_READY behind
a reset of its FIFOs, or after they were turned off, the next receive may return one that never arrived. u16550_init discards it.""", [
            Call("quiesce", "struct u16550 *uart, uint8_t outputs, uint8_t fifos"),
        ]),
        Group("""
Writes what a dump shows back to the chip, for example after it was without power: divisor and frame without DLAB, FCR, MCR
without loopback, SPR, and IER in the end. Both FIFOs are emptied; if they were on, they get the configured trigger level. It reads
no received byte, so on a chip as with u16550_quiesce receive what waits, and discard it.""", [
            Call("restore", "struct u16550 *uart, const struct u16550_dump *dump"),
        ]),
        Group("""
Takes a port as it was set up, for example by firmware: finds out whether the FIFO is on, and gives the divisor, which is
not 0. It reads LCR, MCR, the divisor latch, for which it sets DLAB and then writes LCR back, and ISR; nothing else is
written. The read of ISR acknowledges a THR_EMPTY interrupt. The driver's configuration stays as it was, since nobody knows
the chip's clock. Returns an enum u16550_attach_error if the port is not one to be taken. ISR was not read then, and the
driver is as it was.""", [
            Call("attach", "struct u16550 *uart, uint8_t *dll, uint8_t *dlm", pair="struct uart_latch",
                 error="AttachError"),
        ]),
        Group("""
For last words, in a panic. The call that the panic came into is never done, and every function over its driver returns
U16550_BUSY from then on. So make a driver for the same device in other memory, by u16550_new, u16550_new_port or
u16550_new_mmio, give it a spin limit, and call this over it. It takes the device over, whatever state that is in, so that text
goes out: it clears DLAB and the break, writes 0 to IER, and clears loopback and flow control in MCR, with DTR and RTS set. FIFOs,
baud rate and frame stay as they are. If the panic may have come into u16550_init or u16550_set_frame, call u16550_flush and
u16550_set_frame next. Then send: one byte at a time goes out, and each wait ends after the spin limit.

Whoever accessed the device before must not go on: mask the interrupts, and stop the other processors before.

Returns U16550_ATTACH_DIVISOR_LATCH_OPEN if DLAB or the break stays set after as many writes as the spin limit, as where no
device is, and U16550_ATTACH_LOOPBACK if the chip stays in loopback. Refused by U16550_HAS_RINGS if the driver has rings.""", [
            ByHand("emergency", "struct u16550 *uart", errors="ATTACH_DIVISOR_LATCH_OPEN ATTACH_LOOPBACK"),
        ]),
    ]),
    Section("outputs", "on is 0 or 1; another number is refused by U16550_BAD_CODE.", [
        Group("Writes MCR with these bits, an enum u16550_mcr_bits, but never loopback.", [
            Call("set_modem_control", "struct u16550 *uart, uint8_t outputs"),
        ]),
        Group("Asserts or clears one output, and leaves the others. Clears loopback.", [
            Call("set_rts", "struct u16550 *uart, uint8_t on"),
            Call("set_dtr", "struct u16550 *uart, uint8_t on"),
        ]),
        Group("Begins or ends a break.", [
            Call("set_break", "struct u16550 *uart, uint8_t on"),
        ]),
    ]),
    Section("sending and receiving", "", [
        Group("These two and the next two do not wait. They return U16550_RECEIVE_NO_DATA or an enum u16550_send_error.", [
            Call("ready_to_receive", "struct u16550 *uart", false="RECEIVE_NO_DATA"),
            Call("ready_to_send", "struct u16550 *uart", error="ByteSendError"),
            Call("try_receive_byte", "struct u16550 *uart, uint8_t *byte", gives="byte", none="RECEIVE_NO_DATA"),
            Call("try_send_byte", "struct u16550 *uart, uint8_t byte", error="ByteSendError"),
        ]),
        Group("""
Receive what is there, or send one burst, without waiting. *count is how many bytes it was, perhaps 0. A burst has as many bytes
as u16550_fifo_size says if the FIFO is on, else one.""", [
            Call("receive_bytes", "struct u16550 *uart, uint8_t *buffer, size_t len, size_t *count", gives="count"),
            Call("send_bytes", "struct u16550 *uart, const uint8_t *buffer, size_t len, size_t *count", gives="count"),
        ]),
        Group("""
The same as u16550_send_bytes for a chip whose transmitter FIFO has 16, 32, 64, 128 or 256 characters: one burst of that size,
whatever u16550_fifo_size says. On a chip with fewer the bytes that do not fit are lost.""", [
            Call("send_burst", "struct u16550 *uart, const uint8_t *buffer, size_t len, uint16_t fifo_size, size_t *count", gives="count"),
        ]),
        Group("""
The same as u16550_send_bytes for bytes in a circular buffer: an urgent byte, as XOFF is, and then the bytes of both parts, in one burst
wherever the parts meet. urgent may be null, and there is no such byte then. *count is how many of these bytes were sent, from the front:
the urgent one is the first of them.""", [
            Call("send_gathered", "struct u16550 *uart, const uint8_t *urgent, const uint8_t *first, size_t first_len, "
                 "const uint8_t *second, size_t second_len, size_t *count", gives="count"),
        ]),
        Group("""
The same as u16550_try_receive_byte and u16550_receive_bytes, with the line errors of each byte. A chip shows these once: if
an earlier call has looked at the first byte, its errors are missing here. The next u16550_lsr has all of them.""", [
            Call("try_receive_with_errors", "struct u16550 *uart, struct u16550_received *received", gives="received",
                 none="RECEIVE_NO_DATA"),
            Call("receive_with_errors", "struct u16550 *uart, struct u16550_received *received, size_t len, size_t *count", gives="count"),
        ]),
        Group("""
Receive or send all bytes, and wait for each. They return U16550_STALLED after as many unsuccessful polls in a row as the
spin limit. *done is how many bytes were done, also after a stall. done may be null.""", [
            Call("receive_bytes_exact", "struct u16550 *uart, uint8_t *buffer, size_t len, size_t *done", stalls="done"),
            Call("send_bytes_exact", "struct u16550 *uart, const uint8_t *buffer, size_t len, size_t *done", stalls="done"),
        ]),
        Group("""
The same as the two above, and wait no longer than keep_waiting wants: it gets the context after each unsuccessful
poll, and the wait ends by U16550_WAIT_ENDED if it returns 0. So a wait can end at a time, by whatever clock there is. The spin limit
ends it too, by U16550_STALLED. keep_waiting must not be null, and a call over this driver from it returns U16550_BUSY.""", [
            Call("receive_bytes_while", "struct u16550 *uart, uint8_t *buffer, size_t len, uint8_t (*keep_waiting)(void *context), "
                 "void *context, size_t *done", stalls="done"),
            Call("send_bytes_while", "struct u16550 *uart, const uint8_t *buffer, size_t len, uint8_t (*keep_waiting)(void *context), "
                 "void *context, size_t *done", stalls="done"),
        ]),
        Group("""
The same wait as u16550_flush, and no longer than keep_waiting wants.""", [
            Call("flush_while", "struct u16550 *uart, uint8_t (*keep_waiting)(void *context), void *context"),
        ]),
        Group("""
Some bytes after a wait for the first, and a wait until all is sent. These three return U16550_STALLED after as many unsuccessful
polls in a row as the spin limit. The last two do not wait: they say whether there is a byte, or room for one.""", [
            Call("read", "struct u16550 *uart, uint8_t *buffer, size_t len, size_t *count", gives="count"),
            Call("write", "struct u16550 *uart, const uint8_t *buffer, size_t len, size_t *count", gives="count"),
            Call("flush", "struct u16550 *uart"),
            Call("read_ready", "struct u16550 *uart, uint8_t *ready", gives="ready"),
            Call("write_ready", "struct u16550 *uart, uint8_t *ready", gives="ready"),
        ]),
        Group("Whether the transmitter has sent everything: the FIFO and the byte on the line. Does not wait.", [
            Call("is_idle", "struct u16550 *uart, uint8_t *idle", gives="idle"),
        ]),
        Group("""
Whether the chip is gone, as one that was unplugged: whether MCR shows 0xff, as most buses do where nobody answers. Then all that is
received is 0xff, and all sends succeed. Reads MCR once, which changes nothing. A bus of 0x7f or 0 is not told from a chip:
u16550_check_present, which writes SPR, tells it.""", [
            Call("is_gone", "struct u16550 *uart, uint8_t *gone", gives="gone"),
        ]),
        Group("""
Sends a text as terminals expect it: a line feed as carriage return and line feed, backspace and delete as backspace,
space and backspace. The text is UTF-8, and needs no zero at its end. After U16550_STALLED *done is how many bytes were
sent. done may be null.""", [
            ByHand("write_text", "struct u16550 *uart, const char *text, size_t len, size_t *done", errors="STALLED", stalls="done"),
        ]),
        Group("The same for a text that need not be UTF-8.", [
            ByHand("write_raw_text", "struct u16550 *uart, const char *text, size_t len, size_t *done", errors="STALLED", stalls="done"),
        ]),
    ]),
    Section("registers", "", [
        Group("LSR and MSR are joined with what the driver saved of them, which is then forgotten.", [
            Call("ier", "struct u16550 *uart, uint8_t *value", gives="value"),
            Call("isr", "struct u16550 *uart, uint8_t *value", gives="value"),
            Call("lcr", "struct u16550 *uart, uint8_t *value", gives="value"),
            Call("mcr", "struct u16550 *uart, uint8_t *value", gives="value"),
            Call("lsr", "struct u16550 *uart, uint8_t *value", gives="value"),
            Call("msr", "struct u16550 *uart, uint8_t *value", gives="value"),
            Call("spr", "struct u16550 *uart, uint8_t *value", gives="value"),
            Call("dll_dlm", "struct u16550 *uart, uint8_t *dll, uint8_t *dlm", pair="struct uart_latch"),
        ]),
        Group("MSR as it is now. The changes in it stay saved for the next u16550_msr.", [
            Call("peek_modem", "struct u16550 *uart, uint8_t *msr", gives="msr"),
        ]),
        Group("", [
            Call("enable_interrupts", "struct u16550 *uart, uint8_t interrupts"),
            Call("disable_interrupts", "struct u16550 *uart, uint8_t interrupts"),
        ]),
        Group("""
Makes the interrupt line fall, and rise again if an interrupt is enabled and pending: reads IER, writes 0, and writes what it
read. A controller that detects edges sees no new edge while the line stays high. Call this at the end of a handler that
leaves before ISR has shown that none is pending, and after the interrupt was masked at a controller that forgets edges.""", [
            Call("retrigger_interrupts", "struct u16550 *uart"),
        ]),
        Group("Reads all registers. What the driver saved of LSR and MSR is in the dump, and stays saved.", [
            Call("config_register_dump", "struct u16550 *uart, struct u16550_dump *dump", gives="dump"),
        ]),
        Group("""
The divisor of a dump, and the baud rate that it gives with the frequency and the prescaler of a configuration.""", [
            ByHand("dump_divisor", "const struct u16550_dump *dump, uint16_t *divisor", gives="divisor"),
            ByHand("dump_baud_rate", "const struct u16550_dump *dump, const struct u16550_config *config, uint32_t *baud_rate",
                   errors="baud_rate_error", gives="baud_rate"),
        ]),
    ]),
    Section("a bus of two wires, as RS-485", """
One end at a time sends at such a bus, and RTS or DTR switches the transceiver of this end. A bus takes a driver, and has the calls that keep
the direction: no byte is written while it is not to send, and it is given back only while the transmitter is empty. That is proved of the
code that this is made from, for these calls in any order. Delays are the caller's: between start_sending and the first byte as long as the
transceiver takes, and between the end of the last byte and try_finish about a bit, since some chips are empty when the stop bit begins.""", [
        Group("""
The outputs with the line as it is to be while the transceiver receives. Give them to u16550_init_with: u16550_init raises RTS and DTR, and
this end might hold the bus.""", [
            ByHand("direction_receiving", "const struct u16550_direction *direction, uint8_t outputs, uint8_t *receiving", gives="receiving"),
        ]),
        Group("""
Makes a bus of a driver that is set up: makes the accesses of u16550_bus_try_finish, and there is no driver in the memory of the driver any
more. Returns U16550_BUS_BUSY if the transmitter is not empty; the driver then stays. Refused by U16550_HAS_RINGS if it has rings. If a call
over a bus that is there is not done, it returns U16550_BUSY.""", [
            ByHand("bus_new", "struct u16550_bus *bus, struct u16550 *uart, const struct u16550_direction *direction", errors="BUS_BUSY"),
        ]),
        Group("""
Ends a bus, and makes a driver of it again, in this memory, as the constructors do: for other calls, as u16550_set_frame. Makes no access.
The direction stays as it is, so finish before.""", [
            ByHand("bus_end", "struct u16550_bus *bus, struct u16550 *uart"),
        ]),
        Group("Switches the transceiver to send: reads MCR, and writes it with the line so. From now on bytes may be sent.", [
            ByHand("bus_start_sending", "struct u16550_bus *bus"),
        ]),
        Group("""
Gives the bus back if the transmitter is empty: reads LSR once, and then MCR, which it writes with the line so that the transceiver
receives. Returns U16550_BUS_BUSY if it is not empty, and the direction stays. Does not wait.""", [
            ByHand("bus_try_finish", "struct u16550_bus *bus", errors="BUS_BUSY"),
        ]),
        Group("Whether the direction is to send. Makes no access.", [
            ByHand("bus_is_sending", "struct u16550_bus *bus, uint8_t *sending", gives="sending"),
        ]),
        Group("As u16550_flush and u16550_is_idle: a wait until the transmitter is empty, and a look at it. The direction stays.", [
            ByHand("bus_flush", "struct u16550_bus *bus", errors="STALLED"),
            ByHand("bus_is_idle", "struct u16550_bus *bus, uint8_t *idle", gives="idle"),
        ]),
        Group("""
As u16550_send_bytes and u16550_send_bytes_exact. Both return U16550_BUS_NOT_SENDING, without an access, if the direction is not to send;
*done is 0 then, and after U16550_STALLED how many bytes were written. done may be null.""", [
            ByHand("bus_send_bytes", "struct u16550_bus *bus, const uint8_t *buffer, size_t len, size_t *count",
                   errors="BUS_NOT_SENDING", gives="count"),
            ByHand("bus_send_bytes_exact", "struct u16550_bus *bus, const uint8_t *buffer, size_t len, size_t *done",
                   errors="BUS_NOT_SENDING STALLED", stalls="done"),
        ]),
        Group("""
As u16550_receive_bytes, u16550_receive_with_errors and u16550_lsr, in either direction. If the board hears what this end sends, those bytes
are received too.""", [
            ByHand("bus_receive_bytes", "struct u16550_bus *bus, uint8_t *buffer, size_t len, size_t *count", gives="count"),
            ByHand("bus_receive_with_errors", "struct u16550_bus *bus, struct u16550_received *received, size_t len, size_t *count", gives="count"),
            ByHand("bus_lsr", "struct u16550_bus *bus, uint8_t *value", gives="value"),
        ]),
    ]),
    Section("rings, for use with interrupts", """
Rings keep bytes until the chip has room for them, and received bytes until they are taken. Initialise the driver with
DATA_READY and RECEIVER_LINE_STATUS enabled, and call u16550_ring_try_handle in the interrupt handler. No ring call waits. All
calls above work on a driver with rings; what they send and receive bypasses the rings.

A handler that comes into the middle of another call gets U16550_BUSY, and comes again at once if the line stays high. So turn
the processor's interrupts off during each call that does not wait. During one that waits they may stay on: the handler then
masks the line at the interrupt controller on U16550_BUSY, and after the call the program unmasks it and calls
u16550_retrigger_interrupts. examples/console.c is such a handler.""", [
        Group("""
Gives a driver rings for so many bytes to be sent and so many received bytes, in this memory of size bytes. The memory is
the rings' until u16550_ring_end or u16550_end, or until another driver is made in the place of this one. Refused by an
enum u16550_ring_error.""", [
            ByHand("ring_new", "struct u16550 *uart, uint8_t *memory, size_t size, size_t tx_capacity, size_t rx_capacity", errors="ring_error"),
        ]),
        Group("Ends the rings, with the bytes in them. The driver stays.", [
            ByHand("ring_end", "struct u16550 *uart"),
        ]),
        Group("How many bytes wait to be sent, how many were received and not taken, and whether receiving is paused.", [
            Call("ring_transmit_len", "struct u16550 *uart, size_t *len", gives="len"),
            Call("ring_receive_len", "struct u16550 *uart, size_t *len", gives="len"),
            Call("ring_is_paused", "struct u16550 *uart, uint8_t *paused", gives="paused"),
        ]),
        Group("Queues bytes to be sent, as many as there is room for. *count is how many.", [
            Call("ring_queue", "struct u16550 *uart, const uint8_t *buffer, size_t len, size_t *count", gives="count"),
        ]),
        Group("How many more bytes can be queued.", [
            Call("ring_transmit_room", "struct u16550 *uart, size_t *room", gives="room"),
        ]),
        Group("""
Holds the bytes that are queued: what is in the chip goes out, and nothing more is handed over. The release starts sending
again, and misses no interrupt that came meanwhile.""", [
            Call("ring_hold_transmit", "struct u16550 *uart"),
            Call("ring_release_transmit", "struct u16550 *uart"),
            Call("ring_is_held", "struct u16550 *uart, uint8_t *held", gives="held"),
        ]),
        Group("""
Sends a byte before all that wait, as XON and XOFF are, also during a hold. There is one place: a byte that still waits there is
replaced, and *replaced is that byte. The second tells which byte still waits.""", [
            Call("ring_queue_urgent", "struct u16550 *uart, uint8_t byte, struct u16550_urgent *replaced", gives="replaced",
                 encode="urgent"),
            Call("ring_urgent", "struct u16550 *uart, struct u16550_urgent *urgent", gives="urgent", encode="urgent"),
        ]),
        Group("""
Drop the bytes that are queued, and those that were received and not taken. *count is how many. An urgent byte and what is in the
chip stay.""", [
            Call("ring_clear_transmit", "struct u16550 *uart, size_t *count", gives="count"),
            Call("ring_clear_receive", "struct u16550 *uart, size_t *count", gives="count"),
        ]),
        Group("""
The low mark, a number of queued bytes, is 0 at first. *low is whether their number fell from above the mark to the mark or
below since the last call. Ask at the end of the handler, and wake who waits for room.""", [
            Call("ring_set_low_mark", "struct u16550 *uart, size_t mark"),
            Call("ring_take_low", "struct u16550 *uart, uint8_t *low", gives="low"),
        ]),
        Group("Takes received bytes, as many as there are and as there is room for. *count is how many.", [
            Call("ring_take", "struct u16550 *uart, uint8_t *buffer, size_t len, size_t *count", gives="count"),
        ]),
        Group("""
Has the driver note the errors of each received byte from now on, for u16550_ring_take_with_errors. Call it before u16550_init. The
memory has room for the errors of so many bytes, one byte each: as many as the receive ring has room for. Refused by
U16550_RING_BAD_CAPACITY. It makes no access, and no call makes another one for it; rings without it cost what they cost before.

The notes lie between the driver and its functions until u16550_end_notes or u16550_end, and are in no other use so long; their
memory too. Meanwhile u16550_get_io returns functions of the library, u16550_set_io is to be given no others, and
u16550_design_ware_fault finds no chip. u16550_end_notes gives the driver its functions back.""", [
            ByHand("note_errors", "struct u16550 *uart, struct u16550_notes *notes, uint8_t *memory, size_t capacity", errors="RING_BAD_CAPACITY"),
            ByHand("end_notes", "struct u16550 *uart"),
        ]),
        Group("""
Takes received bytes as u16550_ring_take does, each with its errors; the two may be called in turn. With the FIFO on, the parity
error, the framing error and the break of a byte are exactly those of its character. An overrun of before the notes were made, or of
before u16550_init, is at no byte: u16550_ring_take_line alone tells of it.

A call that receives passes the rings by, and its bytes are the last that were read. So make one only while the receive ring is
empty; else errors stand at the wrong bytes until all bytes of the ring are taken.

Returns U16550_RING_UNNOTED if fewer errors are noted than bytes are in the receive ring: the notes have room for fewer, or were
made later. Then nothing is taken, and *count is how many bytes at the front have no note: u16550_ring_take takes them.""", [
            ByHand("ring_take_with_errors", "struct u16550 *uart, struct u16550_received *received, size_t len, size_t *count",
                   errors="RING_UNNOTED", gives="count"),
        ]),
        Group("""
Holds the other end back by RTS, or lets it go on: RTS goes off if there is room for fewer received bytes than hold, and on if there
is room for at least release. Between the two it stays as it is. The other end has to check CTS. Call it at the end of the handler,
and after each u16550_ring_take and u16550_ring_clear_receive: while the other end is held back no byte arrives, so nothing calls
the handler. rust/uart_16550/INTERRUPTS.md says which marks to choose; release is to be at most the capacity, or RTS never goes on
again. MCR is read, and written if RTS is not so yet: the other outputs as they were, and loopback off.""", [
            Call("ring_adjust_rts", "struct u16550 *uart, size_t hold, size_t release", arguments="uart_marks(hold, release)"),
        ]),
        Group("""
The same by XOFF and XON, where RTS is not wired. The character goes out before all that wait, as that of a u16550_ring_queue_urgent,
also during a hold. What was told last is not told again, and nothing is told while another urgent byte waits: the next call does it.
*told is the character. Choose hold with room for what comes until the other end has read an XOFF that goes out after what is in the
chip. Marks of 0 let the other end go on in any case.""", [
            Call("ring_adjust_xoff", "struct u16550 *uart, size_t hold, size_t release, struct u16550_urgent *told",
                 arguments="uart_marks(hold, release)", gives="told", encode="urgent"),
        ]),
        Group("""
Obeys the other end that tells this one XOFF and XON: holds the bytes that are queued at an XOFF, and releases them at an XON. Of the
bytes that came since the last call and are not taken yet, the last XON or XOFF counts, and *told is that one. All bytes stay to be
taken. The hold is that of u16550_ring_hold_transmit. Call it at the end of the handler.""", [
            Call("ring_obey_xoff", "struct u16550 *uart, struct u16550_urgent *told", gives="told", encode="urgent"),
        ]),
        Group("""
Starts sending again if bytes wait with no interrupt to come: when CTS came back and the configuration checks it; and after each
of these, which take the interrupt away: u16550_isr, u16550_config_register_dump, u16550_attach, u16550_disable_interrupts of
U16550_IER_THR_EMPTY, u16550_quiesce, u16550_restore, u16550_test_loopback, u16550_init and u16550_init_with.""", [
            Call("ring_resume_transmit", "struct u16550 *uart"),
        ]),
        Group("""
Serves interrupts until ISR shows that none is pending, but at most limit. Otherwise it makes the interrupt line fall and
rise again, as u16550_ring_retrigger does. *handled says how many it served, and why it ended.

Call it once in an interrupt handler, whether the controller detects levels or edges: the line was low at some time during
the call, so what is pending afterwards makes a new edge. It does not wait, and ends on a chip that shows an interrupt for
ever. But then the controller calls the handler for ever, unless somebody counts: u16550_ring_try_handle does.""", [
            Call("ring_handle", "struct u16550 *uart, size_t limit, struct u16550_handled *handled", gives="handled"),
        ]),
        Group("""
Handles the interrupt as u16550_ring_handle does, and ends a storm. If so many rounds in a row have ended with another end
than U16550_HANDLE_IDLE, and moved no byte between the rings and the chip, it reads ISR once more. If that still shows an
interrupt, the chip is stuck: the call writes 0 to IER, and returns an enum u16550_stuck_error. While the chip is stuck, each
further call writes 0 to IER again and returns the same, and the rings hand no byte to the chip. A limit below 6 counts as 6, so
that a chip that works is not found stuck: see rust/uart_16550/INTERRUPTS.md. 100 rounds are 3,200 interrupts without a pause, if
the limit is 32.""", [
            Call("ring_try_handle", "struct u16550 *uart, size_t limit, uint32_t rounds, struct u16550_handled *handled", gives="handled",
                 error="StuckError"),
        ]),
        Group("Whether the chip is stuck, and what ISR showed.", [
            ByHand("ring_stuck", "struct u16550 *uart, struct u16550_stuck *stuck", errors="stuck_error"),
        ]),
        Group("""
Starts a chip again that is stuck: enables these interrupts, U16550_IER_DATA_READY not while receiving is paused, and sends
what waits. After u16550_init, which enables interrupts itself, give 0.""", [
            Call("ring_restart", "struct u16550 *uart, uint8_t interrupts"),
        ]),
        Group("The same as u16550_retrigger_interrupts.", [
            Call("ring_retrigger", "struct u16550 *uart"),
        ]),
        Group("""
Serves the interrupts that are pending, at most U16550_MAX_INTERRUPTS, for a handler of your own. *count is how many. If it
is the most, or ISR shows an interrupt without a name, the line may still be high.""", [
            Call("ring_service", "struct u16550 *uart, size_t *count", gives="count"),
        ]),
        Group("""
Handles the interrupt of a line that these ports share, whether the controller detects levels or edges. At each port in turn it
does what u16550_ring_try_handle does, and disables the chip's interrupts; once all are disabled, so that the line is low, it
enables them again at each. So if the line is high afterwards, it has risen since, and a controller that detects edges calls the
handler again. A chip that is stuck stays off, and the others are served. *served is whether an interrupt was served at one of
them.

Call it once in the handler of the line, under one lock that all calls at these ports take. With a lock for each port another
processor could let the line of one rise before that of the next has fallen, and no edge would ever come again.

If one of the ports has no driver or no rings, or a call at it is not done, the number of this is returned, and nothing was done
at any.""", [
            ByHand("line_handle", "struct u16550_line_port *ports, size_t count, size_t limit, uint32_t rounds, uint8_t *served", gives="served"),
        ]),
        Group("LSR or MSR, joined with the errors or changes that were noted since the last of these calls.", [
            Call("ring_take_line", "struct u16550 *uart, uint8_t *lsr", gives="lsr"),
            Call("ring_take_modem", "struct u16550 *uart, uint8_t *msr", gives="msr"),
        ]),
        Group("""
Reads all registers, as u16550_config_register_dump does, and then starts sending again if bytes wait: the read of ISR may take
away the interrupt that would have sent them.""", [
            Call("ring_config_register_dump", "struct u16550 *uart, struct u16550_dump *dump", gives="dump"),
        ]),
    ], lines="#define U16550_MAX_CAPACITY 4096\n#define U16550_MAX_INTERRUPTS 8"),
]
