"""What has another name in C than in the source, or than its place would give it: as whoever writes drivers in C calls it."""
from __future__ import annotations

# Functions, by the names that their places in the source give them.
FUNCTIONS = {
    "uart_baud_rate_from_integer": "uart_baud_rate_from_bps",
    "uart_baud_rate_to_integer": "uart_baud_rate_bps",
    "uart_word_length_to_integer": "uart_word_length_bits",
    "uart_word_length_to_raw_bits": "uart_lcr_of_word_length",
    "uart_parity_to_raw_bits": "uart_lcr_of_parity",
    "uart_fifo_trigger_level_to_raw_bits": "uart_fcr_of_trigger_level",
    "uart_lcr_set_word_length": "uart_lcr_with_word_length",
    "uart_lcr_set_parity": "uart_lcr_with_parity",
    "uart_fcr_set_fifo_trigger_level": "uart_fcr_with_trigger_level",
    "uart_fifo_trigger_level_characters": "uart_rx_trigger_bytes",
    "uart_fifo_size_characters": "uart_fifo_depth",
    "uart_fifo_size_largest_up_to": "uart_fifo_size_up_to",
    "uart_frame_of": "uart_lcr_of_config",
    "uart_fifo_control_of": "uart_fcr_resetting_fifos",
    "uart_level_control_of": "uart_fcr_of_running_fifos",
    "uart_break_of": "uart_lcr_with_break",
    "uart_outputs_of": "uart_mcr_with_output",
    "uart_other_factor": "uart_divide_clock",
    "uart_known": "uart_valid_prescaler",
    "uart_accepted": "uart_computable_prescaler",
    "uart_halves": "uart_half_bits_of_character",
    "uart_spare": "uart_rx_spare",
    "uart_flag": "uart_bits_if",
    "uart_scaled": "uart_multiply_divide",
    "uart_shown_by": "uart_stuck_reason",
    "uart_expansion_of": "uart_tty_expand",
    "uart_design_ware_shown_isr": "uart_design_ware_isr_with_kept",
    "uart_byte_queue_fill_from_slice": "uart_byte_queue_append",
    "uart_byte_queue_front_slices": "uart_byte_queue_front_parts",
    "uart_byte_queue_as_slices": "uart_byte_queue_parts",
}
# Functions that only call another one, which stands in the place of their calls; and those that are another one, which is called instead.
PASSED_ON = {"uart_isr_interrupt_type"}
# Functions whose one value stands in the place of their calls: each field of a register is set once, and what may be asked for is asked where it
# is done.
WRITTEN_OUT = {
    "uart_lcr_with_word_length",
    "uart_lcr_with_parity",
    "uart_fcr_with_trigger_level",
    "uart_is_present",
    "uart_is_emptied",
    "uart_is_first",
    "uart_is_last",
}
SAME = {"uart_read_plain": "uart_read_register"}
# Members of structs, by their crate and name.
MEMBERS = {("uart_16550", "Expansion"): ["text", "len"]}
# Constant arrays, by what they hold.
ARRAYS = {b"hello world!1337": "uart_test_message", b"\b \b": "uart_erase_text", b"\r\n\0": "uart_newline_text"}
# Constant arrays of numbers, of which one or another is taken.
TABLES: dict[tuple[int, ...], str] = {
    (1, 4, 8, 14): "uart_levels_of_16",
    (8, 16, 24, 28): "uart_levels_of_32",
    (1, 16, 32, 56): "uart_levels_of_64",
    (16, 32, 112, 120): "uart_levels_of_128",
    (1, 64, 128, 254): "uart_levels_of_256",
}
# Variables, by the function and the name that they would have.
VARIABLES = {
    ("uart_half_bits_of_character", "number"): "parity",
    ("uart_lcr_of_config", "lcr2"): "length_bits",
    ("uart_lcr_of_config", "frame"): "lcr",
    ("uart_level_of", "fifo_trigger_level"): "level",
    ("uart_level_of", "fifo_trigger_level2"): "none",
    ("uart_change_fifos", "fifo_trigger_level"): "none",
    ("uart_half_bits_of_character", "number2"): "stop",
    ("uart_multiply_divide", "found"): "whole",
    ("uart_multiply_divide", "number"): "part",
    ("uart_config_character_clocks", "chosen"): "prescaler",
    ("uart_config_is_computable", "chosen"): "prescaler",
    ("uart_config_characters_in", "clocks2"): "character",
    ("uart_config_drain_clocks", "number"): "characters",
    ("uart_config_handler_budget", "number"): "first_byte",
    ("uart_config_handler_budget", "number2"): "served",
    ("uart_rx_spare", "fifo_depth"): "depth",
    ("uart_msr_changes_since", "bits_if"): "ri",
    ("uart_looped_lines", "flag_msr"): "cts",
    ("uart_looped_lines", "msr"): "dsr",
    ("uart_looped_lines", "flag_msr2"): "ri",
    ("uart_byte_queue_in_the_way", "number"): "used",
    ("uart_byte_queue_append", "byte_queue_capacity"): "capacity",
    ("uart_byte_queue_append", "number"): "room",
    ("uart_byte_queue_receive_from", "number"): "to_end",
    ("uart_byte_queue_front_parts", "number"): "to_end",
    ("uart_copy", "number"): "room",
    ("uart_ring_fill_receive_ring", "number"): "room",
    ("uart_ring_serve_up_to", "handled2"): "at_limit",
    ("uart_ring_tell", "number"): "character",
    ("uart_handle_line", "is_so"): "was_served",
    ("uart_design_ware_isr_with_kept", "is_so"): "is_kept",
    ("uart_error_notes_note_read", "chosen"): "errors",
    ("uart_tty_expand", "n"): "bytes",
    ("uart_tty_send_expansion", "b"): "expansion",
    ("uart_tty_write_raw_text", "found_stalled_at"): "sent",
    ("uart_attach", "found_latch"): "shown",
    ("uart_configured_divisor", "found_divisor"): "exact",
    ("uart_echo_whole", "found_actual"): "echo",
    ("uart_echo_each", "found_actual"): "echo",
    ("uart_receive_some", "found_count"): "received",
    ("uart_kept_characters_pop", "found_received"): "first",
    ("uart_kept_characters_take_errors", "found_errors"): "first",
    ("uart_ring_tell", "found_byte"): "replaced",
    ("uart_ring_look_once_more", "found_why"): "reason",
    ("uart_ring_handle_round", "found_handled"): "round",
    ("uart_ring_try_handle", "found_error"): "stuck",
    ("uart_ring_last_told", "found_byte"): "received",
    ("uart_ring_obey_xoff", "found_byte"): "last",
    ("uart_computable_prescaler", "found_prescaler"): "valid",
    ("uart_config_drain_clocks", "found_clocks"): "character",
    ("uart_config_timeout_clocks", "found_clocks"): "character",
    ("uart_config_register_dump_baud_rate", "found_baud_rate"): "exact",
    ("uart_config_handler_budget", "found_clocks"): "character",
    ("uart_restore", "config_register_dump_divisor"): "divisor",
    ("uart_leave_loopback", "msr_changes_since"): "changes",
    ("uart_half_duplex_turn", "direction_turned"): "turned",
}
# Pointers to what a function returns beside its parameters, by the function and the name that they would have.
POINTERS = {("uart_echo", "byte_of"): "echoed", ("uart_ring_queue_urgent", "byte_of"): "replaced"}
# Bits of registers, by the names that the source has for them.
BITS = {"LCR_PARITY0": "LCR_PARITY_ENABLE", "LCR_PARITY1": "LCR_PARITY_EVEN", "LCR_PARITY2": "LCR_PARITY_STICK"}
# Functions that return the code of a field: the names of the bits of their register that are this code, by their number there.
CODES: dict[str, dict[int, tuple[str, ...]]] = {
    "uart_lcr_of_word_length": {bits - 5: (f"LCR_WORD_LENGTH_{bits}",) for bits in (5, 6, 7, 8)},
    "uart_lcr_of_parity": {
        0x08: ("LCR_PARITY_ENABLE",),
        0x18: ("LCR_PARITY_ENABLE", "LCR_PARITY_EVEN"),
        0x28: ("LCR_PARITY_ENABLE", "LCR_PARITY_STICK"),
        0x38: ("LCR_PARITY_ENABLE", "LCR_PARITY_EVEN", "LCR_PARITY_STICK"),
    },
    "uart_fcr_of_trigger_level": {code << 6: (f"FCR_TRIGGER_{level}",) for code, level in enumerate((1, 4, 8, 14))},
}
# Numbers, by the function and how large they are. One that is in limits.h has its name there.
CODES_OF_INTERRUPTS = {
    0x00: "UART_CODE_MODEM_STATUS",
    0x02: "UART_CODE_THR_EMPTY",
    0x04: "UART_CODE_DATA_READY",
    0x06: "UART_CODE_LINE_STATUS",
    0x0A: "UART_CODE_DMA_TX_END",
    0x0C: "UART_CODE_TIMEOUT",
    0x0E: "UART_CODE_DMA_RX_END",
}
NANOSECONDS = {1_000_000_000: "UART_NANOSECONDS_PER_SECOND"}
NUMBERS: dict[str, dict[int, str]] = {
    "uart_config_is_computable": {15: "UART_MAX_PRESCALER"},
    "uart_valid_prescaler": {15: "UART_MAX_PRESCALER"},
    "uart_divide_clock": {16: "UART_SAMPLES_PER_BIT"},
    "uart_ticks_of": {16: "UART_SAMPLES_PER_BIT"},
    "uart_calc_divisor": {0xFFFF: "UINT16_MAX"},
    "uart_config_nearest": {0xFFFF: "UINT16_MAX", 0xFFFFFFFF: "UART_MOST_32"},
    "uart_multiply_divide": {(1 << 64) - 1: "UART_MOST_64"},
    "uart_config_handler_budget": {(1 << 64) - 1: "UART_MOST_64"},
    "uart_config_clocks_covering": NANOSECONDS,
    "uart_config_clocks_within": NANOSECONDS,
    "uart_config_nanoseconds_covering": NANOSECONDS,
    "uart_config_nanoseconds_within": NANOSECONDS,
    "uart_new_with_backend": {1_000_000: "UART_DEFAULT_SPIN_LIMIT", 1_843_200: "UART_DEFAULT_FREQUENCY"},
    "uart_design_ware_keep_waiting": {64: "UART_MOST_KEPT"},
    "uart_ring_look_once_more": {0xFF: "UART_ALL_INTERRUPTS"},
    "uart_ring_try_handle": {0xFF: "UART_ALL_INTERRUPTS"},
    "uart_ring_lower_line": {0xFF: "UART_ALL_INTERRUPTS"},
    "uart_interrupt_type_to_bits": CODES_OF_INTERRUPTS,
    "uart_interrupt_type_from_bits": {**CODES_OF_INTERRUPTS, 0x0F: "UART_CODE"},
}
# Numbers that have one name in C, and in the source another one in each place.
SAME_NUMBERS = {
    "UART_CAUSE": "UART_CODE",
    "UART_SERVING_NONE": "UART_CODE_NONE",
    "UART_SERVING_DATA": "UART_CODE_DATA_READY",
    "UART_TIMEOUT": "UART_CODE_TIMEOUT",
    "UART_BUSY_DETECT": "UART_CODE_BUSY_DETECT",
    "UART_BUSY": "UART_USR_BUSY",
    "UART_KEPT": "UART_MOST_KEPT",
    "UART_ROUNDS": "UART_MOST_ENDED",
    "UART_FLOOD": "UART_FLOOD_LENGTH",
}
# The numbers of a file in groups, each under what they are about.
NUMBER_GROUPS = (
    ("The clock.", "DEFAULT_FREQUENCY SAMPLES_PER_BIT MAX_PRESCALER NANOSECONDS_PER_SECOND MOST_32 MOST_64"),
    ("Waits, and the FIFOs.", "DEFAULT_SPIN_LIMIT FIFO_SIZE MOST_WAITING FLOOD_LENGTH"),
    ("Is there a chip, and does it work.", "FIRST_PATTERN SECOND_PATTERN UNDRIVEN TEST_BYTE"),
    (
        "The low four bits of ISR: which interrupt is pending. The last one is a DesignWare UART's.",
        "CODE CODE_NONE CODE_MODEM_STATUS CODE_THR_EMPTY CODE_DATA_READY CODE_LINE_STATUS CODE_TIMEOUT CODE_DMA_RX_END CODE_DMA_TX_END"
        " CODE_BUSY_DETECT",
    ),
    ("The rings.", "MAX_CAPACITY MAX_INTERRUPTS LEAST_LIMIT ALL_INTERRUPTS XON XOFF"),
    ("A DesignWare UART.", "USR_BUSY MOST_KEPT MOST_ENDED"),
)
# What is said of numbers that the source says nothing of, or says it of several.
ABOUT_NUMBERS = {
    "UART_DEFAULT_FREQUENCY": "Of a PC, in hertz.",
    "UART_SAMPLES_PER_BIT": "The receiver looks so often at a bit: the clock is divided by this too.",
    "UART_MAX_PRESCALER": "The prescaler has four bits, and divides by one more than they say.",
    "UART_DEFAULT_SPIN_LIMIT": "Looks at a register until a wait has failed.",
    "UART_CODE": "The bits themselves.",
    "UART_FIFO_SIZE": "Of a 16550, in characters.",
    "UART_TEST_BYTE": "What the loopback test sends first.",
    "UART_XON": "Flow control by characters: go on, and stop.",
    "UART_USR_BUSY": "The bit of USR.",
}
# What the definition that a function is proved by says of more than the function: each has a divisor already, or one byte.
PROVED = {
    **dict.fromkeys(("uart_set_up", "uart_set_up_with"), ("Or nothing is done, if there is no divisor; or all", "Or all")),
    "uart_send_one": (
        "these bytes, one by one: all of them, or a beginning",
        "a wait for room, and then the byte is written; or as many misses as the limit",
    ),
}
# What a value is called that an option has, or else another one.
CHOSEN = {"prescaler_division_factor": "prescaler", "factor": "prescaler"}
