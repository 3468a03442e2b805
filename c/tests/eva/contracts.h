/* SPDX-FileCopyrightText: 2025 Philipp Schuster, 2026 Geesetrunk */
/* SPDX-License-Identifier: MIT OR Apache-2.0 */
/*
 * Contracts of the functions of u16550.c in ACSL, for Frama-C: which numbers they return, what they have written then, that a misuse makes no
 * access, and what is proved of numbers and lengths in their source. Include it behind u16550.c.
 *
 * Made by tools/c/emit. Do not edit.
 */

/* Whether an access was made: the functions of the device set it. */
extern uint8_t uart_was_reached;

/*@
  ensures returns: \result == U16550_OK || \result == U16550_ATTACH_DIVISOR_LATCH_OPEN || \result == U16550_ATTACH_LOOPBACK
    || \result == U16550_ATTACH_NO_DIVISOR;
*/
static int uart_attach(struct u16550_core_driver *uart, struct uart_latch *latch);

/*@
  requires 0 < divisor;
  ensures written: \result ==> \initialized(quotient);
*/
static bool uart_whole_quotient(uint32_t dividend, uint64_t divisor, uint32_t *quotient);

/*@
  requires factor: 0 < factor;
  ensures written: \result ==> \initialized(quotient);
*/
static bool uart_divide_clock(uint32_t frequency, uint32_t factor,
    struct u16550_core_maybe_u32 prescaler_division_factor, uint32_t *quotient);

/*@
  requires frequency: 0 < frequency;
  requires baud_rate: 0 < baud_rate;
  ensures returns: \result == U16550_OK || \result == U16550_FRAME_NON_INTEGER_DIVISOR || \result == U16550_FRAME_DIVISOR_OUT_OF_RANGE;
  ensures written: \result == U16550_OK ==> \initialized(divisor);
*/
static int uart_calc_divisor(uint32_t frequency, uint32_t baud_rate,
    struct u16550_core_maybe_u32 prescaler_division_factor, uint16_t *divisor);

/*@
  ensures written: \result ==> \initialized(divisor);
*/
static bool uart_configured_divisor(const struct u16550_core_driver *uart, uint16_t *divisor);

/*@
  ensures returns: \result == U16550_OK || \result == U16550_CONFIGURATION_NO_DIVISOR || \result == U16550_CONFIGURATION_LINE_CONTROL
    || \result == U16550_CONFIGURATION_MODEM_CONTROL || \result == U16550_CONFIGURATION_INTERRUPTS
    || \result == U16550_CONFIGURATION_DIVISOR || \result == U16550_CONFIGURATION_FIFOS;
*/
static int uart_check_frame(struct u16550_core_driver *uart, uint8_t expected,
    struct u16550_difference *difference);

/*@
  ensures returns: \result == U16550_OK || \result == U16550_CONFIGURATION_NO_DIVISOR || \result == U16550_CONFIGURATION_LINE_CONTROL
    || \result == U16550_CONFIGURATION_MODEM_CONTROL || \result == U16550_CONFIGURATION_INTERRUPTS
    || \result == U16550_CONFIGURATION_DIVISOR || \result == U16550_CONFIGURATION_FIFOS;
*/
static int uart_check_outputs(struct u16550_core_driver *uart, uint8_t expected,
    struct u16550_difference *difference);

/*@
  ensures returns: \result == U16550_OK || \result == U16550_CONFIGURATION_NO_DIVISOR || \result == U16550_CONFIGURATION_LINE_CONTROL
    || \result == U16550_CONFIGURATION_MODEM_CONTROL || \result == U16550_CONFIGURATION_INTERRUPTS
    || \result == U16550_CONFIGURATION_DIVISOR || \result == U16550_CONFIGURATION_FIFOS;
*/
static int uart_check_interrupts(struct u16550_core_driver *uart, uint8_t expected,
    struct u16550_difference *difference);

/*@
  ensures returns: \result == U16550_OK || \result == U16550_CONFIGURATION_NO_DIVISOR || \result == U16550_CONFIGURATION_LINE_CONTROL
    || \result == U16550_CONFIGURATION_MODEM_CONTROL || \result == U16550_CONFIGURATION_INTERRUPTS
    || \result == U16550_CONFIGURATION_DIVISOR || \result == U16550_CONFIGURATION_FIFOS;
*/
static int uart_keep_line(struct u16550_core_driver *uart, uint8_t expected,
    struct u16550_difference *difference);

/*@
  ensures returns: \result == U16550_OK || \result == U16550_CONFIGURATION_NO_DIVISOR || \result == U16550_CONFIGURATION_LINE_CONTROL
    || \result == U16550_CONFIGURATION_MODEM_CONTROL || \result == U16550_CONFIGURATION_INTERRUPTS
    || \result == U16550_CONFIGURATION_DIVISOR || \result == U16550_CONFIGURATION_FIFOS;
*/
static int uart_check_divisor(struct u16550_core_driver *uart, uint16_t expected,
    struct u16550_difference *difference);

/*@
  ensures returns: \result == U16550_OK || \result == U16550_CONFIGURATION_NO_DIVISOR || \result == U16550_CONFIGURATION_LINE_CONTROL
    || \result == U16550_CONFIGURATION_MODEM_CONTROL || \result == U16550_CONFIGURATION_INTERRUPTS
    || \result == U16550_CONFIGURATION_DIVISOR || \result == U16550_CONFIGURATION_FIFOS;
*/
static int uart_check_fifos(struct u16550_core_driver *uart, uint8_t interrupts,
    struct u16550_difference *difference);

/*@
  ensures returns: \result == U16550_OK || \result == U16550_CONFIGURATION_NO_DIVISOR || \result == U16550_CONFIGURATION_LINE_CONTROL
    || \result == U16550_CONFIGURATION_MODEM_CONTROL || \result == U16550_CONFIGURATION_INTERRUPTS
    || \result == U16550_CONFIGURATION_DIVISOR || \result == U16550_CONFIGURATION_FIFOS;
*/
static int uart_check_registers(struct u16550_core_driver *uart, uint8_t frame, uint8_t outputs,
    uint8_t interrupts, uint16_t divisor, struct u16550_difference *difference);

/*@
  ensures returns: \result == U16550_OK || \result == U16550_CONFIGURATION_NO_DIVISOR || \result == U16550_CONFIGURATION_LINE_CONTROL
    || \result == U16550_CONFIGURATION_MODEM_CONTROL || \result == U16550_CONFIGURATION_INTERRUPTS
    || \result == U16550_CONFIGURATION_DIVISOR || \result == U16550_CONFIGURATION_FIFOS;
*/
static int uart_check_configured(struct u16550_core_driver *uart, uint8_t outputs,
    struct u16550_difference *difference);

/*@
  ensures returns: \result == U16550_OK || \result == U16550_REMOTE_NO_DSR || \result == U16550_REMOTE_NOT_CLEAR_TO_SEND;
*/
static int uart_check_connected(struct u16550_core_driver *uart);

/*@
  ensures returns: \result == U16550_OK || \result == U16550_FIFOS_OFF || \result == U16550_FIFOS_TOO_FEW
    || \result == U16550_FIFOS_STALLED;
  ensures written: \result == U16550_OK ==> \initialized(enabled);
*/
static int uart_enable_64_byte_fifos(struct u16550_core_driver *uart, bool *enabled);

/*@
  ensures written: \result ==> \initialized(byte);
*/
static bool uart_try_receive_byte(struct u16550_core_driver *uart, uint8_t *byte);

/*@
  ensures written: \result ==> \initialized(size);
*/
static bool uart_fifo_size_up_to(size_t characters, uint8_t *size);

/*@
  ensures returns: \result == U16550_OK || \result == U16550_FIFOS_OFF || \result == U16550_FIFOS_TOO_FEW
    || \result == U16550_FIFOS_STALLED;
  ensures written: \result == U16550_OK ==> \initialized(size);
*/
static int uart_find_size(struct u16550_core_driver *uart, uint8_t *size);

/*@
  ensures returns: \result == U16550_OK || \result == U16550_FIFOS_OFF || \result == U16550_FIFOS_TOO_FEW
    || \result == U16550_FIFOS_STALLED;
  ensures written: \result == U16550_OK ==> \initialized(size);
*/
static int uart_find_and_reset(struct u16550_core_driver *uart,
    struct u16550_core_maybe_fifo_trigger_level level, uint8_t *size);

/*@
  ensures returns: \result == U16550_OK || \result == U16550_FIFOS_OFF || \result == U16550_FIFOS_TOO_FEW
    || \result == U16550_FIFOS_STALLED;
  ensures written: \result == U16550_OK ==> \initialized(size);
*/
static int uart_find_fifo_size(struct u16550_core_driver *uart, uint8_t *size);

/*@
  ensures returns: \result == U16550_OK || \result == U16550_STALLED || \result == U16550_WAIT_ENDED;
*/
static int uart_flush_while(struct u16550_core_driver *uart, struct uart_patience *patience);

/*@
  ensures returns: \result == U16550_OK || \result == U16550_INIT_DEVICE_NOT_PRESENT || \result == U16550_INIT_NON_INTEGER_DIVISOR
    || \result == U16550_INIT_DIVISOR_OUT_OF_RANGE || \result == U16550_INIT_STALLED;
*/
static int uart_set_up(struct u16550_core_driver *uart, struct u16550_core_config config,
    uint16_t divisor);

/*@
  ensures returns: \result == U16550_OK || \result == U16550_INIT_DEVICE_NOT_PRESENT || \result == U16550_INIT_NON_INTEGER_DIVISOR
    || \result == U16550_INIT_DIVISOR_OUT_OF_RANGE || \result == U16550_INIT_STALLED;
*/
static int uart_init(struct u16550_core_driver *uart, struct u16550_core_config config);

/*@
  ensures returns: \result == U16550_OK || \result == U16550_INIT_DEVICE_NOT_PRESENT || \result == U16550_INIT_NON_INTEGER_DIVISOR
    || \result == U16550_INIT_DIVISOR_OUT_OF_RANGE || \result == U16550_INIT_STALLED;
*/
static int uart_set_up_with(struct u16550_core_driver *uart, struct u16550_core_config config,
    const struct uart_setup *setup, uint16_t divisor);

/*@
  ensures returns: \result == U16550_OK || \result == U16550_INIT_DEVICE_NOT_PRESENT || \result == U16550_INIT_NON_INTEGER_DIVISOR
    || \result == U16550_INIT_DIVISOR_OUT_OF_RANGE || \result == U16550_INIT_STALLED;
*/
static int uart_init_with(struct u16550_core_driver *uart, struct u16550_core_config config,
    const struct uart_setup *setup);

/*@
  ensures returns: \result == U16550_OK || \result == U16550_SEND_NO_CAPACITY || \result == U16550_SEND_NOT_CLEAR_TO_SEND;
*/
static int uart_ready_to_send(struct u16550_core_driver *uart);

/*@
  ensures count: \result <= buffer_len;
*/
static size_t uart_receive_bytes(struct u16550_core_driver *uart, uint8_t *buffer,
    size_t buffer_len);

/*@
  ensures written: \result ==> \initialized(byte);
*/
static bool uart_receive_one(struct u16550_core_driver *uart, uint8_t *byte);

/*@
  ensures returns: \result == U16550_OK || \result == U16550_STALLED;
  ensures written: \result != U16550_OK ==> \initialized(stalled_at);
*/
static int uart_receive_bytes_exact(struct u16550_core_driver *uart, uint8_t *buffer,
    size_t buffer_len, size_t *stalled_at);

/*@
  ensures returns: \result == U16550_OK || \result == U16550_STALLED || \result == U16550_WAIT_ENDED;
  ensures written: \result == U16550_OK ==> \initialized(byte);
*/
static int uart_receive_one_while(struct u16550_core_driver *uart, struct uart_patience *caller,
    uint8_t *byte);

/*@
  ensures returns: \result == U16550_OK || \result == U16550_STALLED || \result == U16550_WAIT_ENDED;
  ensures written: \result != U16550_OK ==> \initialized(stalled_at);
*/
static int uart_receive_bytes_while(struct u16550_core_driver *uart, uint8_t *buffer,
    size_t buffer_len, struct uart_patience *patience, size_t *stalled_at);

/*@
  ensures count: \result <= slots_len;
*/
static size_t uart_receive_with_errors(struct u16550_core_driver *uart,
    struct u16550_received *slots, size_t slots_len);

/*@
  ensures count: \result <= buffer_len;
*/
static size_t uart_send_burst(struct u16550_core_driver *uart, const uint8_t *buffer,
    size_t buffer_len, uint8_t size);

/*@
  requires 0 < bytes_len;
*/
static size_t uart_write_burst(struct u16550_core_driver *uart, const uint8_t *bytes,
    size_t bytes_len);

/*@
  ensures count: \result <= buffer_len;
*/
static size_t uart_send_bytes(struct u16550_core_driver *uart, const uint8_t *buffer,
    size_t buffer_len);

/*@
  requires 0 < bytes_len;
  ensures written: \result ==> \initialized(count);
*/
static bool uart_send_some(struct u16550_core_driver *uart, const uint8_t *bytes,
    size_t bytes_len, size_t *count);

/*@
  ensures returns: \result == U16550_OK || \result == U16550_STALLED;
  ensures written: \result != U16550_OK ==> \initialized(stalled_at);
*/
static int uart_send_bytes_exact(struct u16550_core_driver *uart, const uint8_t *bytes,
    size_t bytes_len, size_t *stalled_at);

/*@
  ensures returns: \result == U16550_OK || \result == U16550_STALLED || \result == U16550_WAIT_ENDED;
*/
static int uart_wait_to_send_while(struct u16550_core_driver *uart, struct uart_patience *patience);

/*@
  ensures returns: \result == U16550_OK || \result == U16550_STALLED || \result == U16550_WAIT_ENDED;
  ensures written: \result != U16550_OK ==> \initialized(stalled_at);
*/
static int uart_send_bytes_while(struct u16550_core_driver *uart, const uint8_t *bytes,
    size_t bytes_len, struct uart_patience *patience, size_t *stalled_at);

/*@
  ensures few: \result <= 1;
*/
static size_t uart_write_urgent(struct u16550_core_driver *uart,
    struct u16550_core_maybe_u8 urgent);

/*@
  ensures returns: \result == U16550_OK || \result == U16550_FRAME_NON_INTEGER_DIVISOR || \result == U16550_FRAME_DIVISOR_OUT_OF_RANGE;
*/
static int uart_set_frame(struct u16550_core_driver *uart, const struct u16550_core_config *config);

/*@
  ensures returns: \result == U16550_OK || \result == U16550_FRAME_NON_INTEGER_DIVISOR || \result == U16550_FRAME_DIVISOR_OUT_OF_RANGE
    || \result == U16550_FRAME_STALLED;
*/
static int uart_set_frame_when_idle(struct u16550_core_driver *uart,
    const struct u16550_core_config *config);

/*@
  ensures returns: \result == U16550_OK || \result == U16550_SEND_NO_CAPACITY || \result == U16550_SEND_NOT_CLEAR_TO_SEND;
*/
static int uart_try_send_byte(struct u16550_core_driver *uart, uint8_t byte);

/*@
  ensures returns: \result == U16550_OK || \result == U16550_LOOPBACK_NO_CAPACITY || \result == U16550_LOOPBACK_UNEXPECTED_BYTE
    || \result == U16550_LOOPBACK_UNEXPECTED_MSG || \result == U16550_LOOPBACK_STALLED;
*/
static int uart_exchange_byte(struct u16550_core_driver *uart,
    struct uart_loopback_failure *failure);

/*@
  ensures written: \result ==> \initialized(echoed);
*/
static bool uart_echo(struct u16550_core_driver *uart, uint8_t byte, uint8_t *echoed);

/*@
  ensures returns: \result == U16550_OK || \result == U16550_LOOPBACK_NO_CAPACITY || \result == U16550_LOOPBACK_UNEXPECTED_BYTE
    || \result == U16550_LOOPBACK_UNEXPECTED_MSG || \result == U16550_LOOPBACK_STALLED;
*/
static int uart_exchange_message(struct u16550_core_driver *uart,
    struct uart_loopback_failure *failure);

/*@
  ensures returns: \result == U16550_OK || \result == U16550_LOOPBACK_NO_CAPACITY || \result == U16550_LOOPBACK_UNEXPECTED_BYTE
    || \result == U16550_LOOPBACK_UNEXPECTED_MSG || \result == U16550_LOOPBACK_STALLED;
*/
static int uart_exchange(struct u16550_core_driver *uart, struct uart_loopback_failure *failure);

/*@
  ensures returns: \result == U16550_OK || \result == U16550_LOOPBACK_NO_CAPACITY || \result == U16550_LOOPBACK_UNEXPECTED_BYTE
    || \result == U16550_LOOPBACK_UNEXPECTED_MSG || \result == U16550_LOOPBACK_STALLED;
*/
static int uart_test_loopback(struct u16550_core_driver *uart,
    struct uart_loopback_failure *failure);

/*@
  requires 0 < buffer_len;
  ensures written: \result ==> \initialized(count);
*/
static bool uart_receive_some(struct u16550_core_driver *uart, uint8_t *buffer, size_t buffer_len,
    size_t *count);

/*@
  ensures returns: \result == U16550_OK || \result == U16550_STALLED;
  ensures written: \result == U16550_OK ==> \initialized(count);
*/
static int uart_read(struct u16550_core_driver *uart, uint8_t *buf, size_t buf_len, size_t *count);

/*@
  ensures returns: \result == U16550_OK || \result == U16550_STALLED;
  ensures written: \result == U16550_OK ==> \initialized(ready);
*/
static int uart_read_ready(struct u16550_core_driver *uart, bool *ready);

/*@
  ensures returns: \result == U16550_OK || \result == U16550_STALLED;
*/
static int uart_flush(struct u16550_core_driver *uart);

/*@
  ensures returns: \result == U16550_OK || \result == U16550_STALLED;
  ensures written: \result == U16550_OK ==> \initialized(count);
*/
static int uart_write(struct u16550_core_driver *uart, const uint8_t *buf, size_t buf_len,
    size_t *count);

/*@
  ensures returns: \result == U16550_OK || \result == U16550_STALLED;
  ensures written: \result == U16550_OK ==> \initialized(ready);
*/
static int uart_write_ready(struct u16550_core_driver *uart, bool *ready);

/*@
  ensures returns: \result == U16550_OK || \result == U16550_STALLED;
*/
static int uart_send_one(struct u16550_core_driver *uart, uint8_t byte);

/*@
  ensures returns: \result == U16550_OK || \result == U16550_STALLED;
  ensures written: \result != U16550_OK ==> \initialized(stalled_at);
*/
static int uart_send_singly(struct u16550_core_driver *uart, const uint8_t *bytes,
    size_t bytes_len, size_t *stalled_at);

/*@
  ensures returns: \result == U16550_OK || \result == U16550_STALLED;
  ensures written: \result == U16550_OK ==> \initialized(count);
  ensures written: \result != U16550_OK ==> \initialized(stalled_at);
*/
static int uart_tty_send_expansion(struct uart_tty *tty, uint8_t byte, size_t *count,
    size_t *stalled_at);

/*@
  ensures returns: \result == U16550_OK || \result == U16550_STALLED;
  ensures written: \result != U16550_OK ==> \initialized(stalled_at);
*/
static int uart_tty_write_raw_text(struct uart_tty *tty, const uint8_t *text, size_t text_len,
    size_t *stalled_at);

/*@
  ensures written: \result ==> \initialized(errors);
*/
static bool uart_kept_characters_take_errors(struct u16550_core_kept_characters *kept_characters,
    uint8_t *errors);

/*@
  ensures written: \result ==> \initialized(fault);
*/
static bool uart_design_ware_fault(const struct u16550_core_design_ware *design_ware,
    uint8_t *fault);

/*@
  ensures returns: \result == U16550_OK || \result == U16550_RING_BAD_CAPACITY || \result == U16550_RING_OUT_OF_MEMORY;
*/
static int uart_error_notes_new(struct uart_memory *alloc, struct u16550_device backend,
    size_t capacity, struct u16550_core_error_notes *error_notes, struct u16550_device *device);

/*@
  requires cell: cell <= cells;
  requires count: count <= cells;
*/
static size_t uart_cell_behind(size_t cell, size_t count, size_t cells);

/*@
  requires place <= slots_len;
*/
static size_t uart_copy(const uint8_t *bytes, size_t bytes_len, uint8_t *slots, size_t slots_len,
    size_t place);

/*@
  ensures written: \result ==> \initialized(may);
*/
static bool uart_ring_may_send(const struct u16550_core_ring *ring,
    struct uart_receive_marks marks, bool *may);

/*@
  ensures written: \result ==> \initialized(replaced);
*/
static bool uart_ring_queue_urgent(struct u16550_core_ring *ring, uint8_t byte, uint8_t *replaced);

/*@
  ensures written: \result ==> \initialized(byte);
*/
static bool uart_ring_tell(struct u16550_core_ring *ring, bool on, uint8_t *byte);

/*@
  ensures written: \result ==> \initialized(byte);
*/
static bool uart_ring_adjust_xoff(struct u16550_core_ring *ring, struct uart_receive_marks marks,
    uint8_t *byte);

/*@
  ensures returns: \result == U16550_OK || \result == U16550_RING_UNNOTED;
  ensures written: \result == U16550_OK ==> \initialized(count);
  ensures written: \result != U16550_OK ==> \initialized(unnoted);
*/
static int uart_copy_noted(const struct u16550_core_byte_queue *bytes,
    const struct u16550_core_byte_queue *noted, struct u16550_received *slots, size_t slots_len,
    size_t *count, size_t *unnoted);

/*@
  ensures returns: \result == U16550_OK || \result == U16550_RING_UNNOTED;
  ensures written: \result == U16550_OK ==> \initialized(count);
  ensures written: \result != U16550_OK ==> \initialized(unnoted);
*/
static int uart_ring_copy_with_notes(const struct u16550_core_ring *ring,
    const struct u16550_core_error_notes *notes, struct u16550_received *slots, size_t slots_len,
    size_t *count, size_t *unnoted);

/*@
  ensures written: \result ==> \initialized(interrupt);
*/
static bool uart_interrupt_type_from_bits(uint8_t isr_bits, uint8_t *interrupt);

/*@
  ensures count: \result <= slots;
*/
static size_t uart_receive(struct u16550_core_driver *uart, uint8_t *cells, size_t place,
    size_t slots);

/*@
  ensures within: \result <= slots;
*/
static size_t uart_byte_queue_receive_from(struct u16550_core_byte_queue *byte_queue,
    struct u16550_core_driver *uart, size_t slots);

/*@
  ensures returns: \result == U16550_OK || \result == U16550_RING_STUCK_UNKNOWN || \result == U16550_RING_STUCK_PENDING;
*/
static int uart_ring_handle_round(struct u16550_core_ring *ring, size_t limit, uint32_t rounds,
    struct u16550_handled *handled, struct u16550_core_stuck_error *error);

/*@
  ensures returns: \result == U16550_OK || \result == U16550_RING_STUCK_UNKNOWN || \result == U16550_RING_STUCK_PENDING;
*/
static int uart_ring_try_handle(struct u16550_core_ring *ring, size_t limit, uint32_t rounds,
    struct u16550_handled *handled, struct u16550_core_stuck_error *error);

/*@
  ensures returns: \result == U16550_OK || \result == U16550_RING_BAD_CAPACITY || \result == U16550_RING_OUT_OF_MEMORY;
*/
static int uart_ring_new(struct uart_memory *alloc, struct u16550_core_driver uart,
    size_t tx_capacity, size_t rx_capacity, struct u16550_core_ring *ring,
    struct u16550_core_driver *driver);

/*@
  ensures written: \result ==> \initialized(byte);
*/
static bool uart_ring_last_told(const struct u16550_core_ring *ring, uint8_t *byte);

/*@
  ensures written: \result ==> \initialized(byte);
*/
static bool uart_ring_obey_xoff(struct u16550_core_ring *ring, uint8_t *byte);

/*@
  ensures written: \result ==> \initialized(byte);
*/
static bool uart_ring_urgent(const struct u16550_core_ring *ring, uint8_t *byte);

/*@
  ensures returns: \result == U16550_OK || \result == U16550_STALLED;
*/
static int uart_half_duplex_flush(struct u16550_core_half_duplex *half_duplex);

/*@
  ensures returns: \result == U16550_OK || \result == U16550_BUS_BUSY;
*/
static int uart_half_duplex_new(struct u16550_core_driver uart,
    struct u16550_core_direction direction, struct u16550_core_half_duplex *half_duplex,
    struct u16550_core_driver *driver);

/*@
  ensures count: \result <= buffer_len;
*/
static size_t uart_half_duplex_receive_bytes(struct u16550_core_half_duplex *half_duplex,
    uint8_t *buffer, size_t buffer_len);

/*@
  ensures count: \result <= slots_len;
*/
static size_t uart_half_duplex_receive_with_errors(struct u16550_core_half_duplex *half_duplex,
    struct u16550_received *slots, size_t slots_len);

/*@
  ensures written: \result ==> \initialized(count);
*/
static bool uart_half_duplex_send_bytes(struct u16550_core_half_duplex *half_duplex,
    const uint8_t *buffer, size_t buffer_len, size_t *count);

/*@
  ensures returns: \result == U16550_OK || \result == U16550_STALLED || \result == U16550_BUS_NOT_SENDING;
  ensures written: \result == U16550_OK ==> \initialized(stalled_at);
*/
static int uart_half_duplex_send_bytes_exact(struct u16550_core_half_duplex *half_duplex,
    const uint8_t *bytes, size_t bytes_len, size_t *stalled_at);

/*@
  ensures returns: \result == U16550_OK || \result == U16550_FRAME_NON_INTEGER_DIVISOR || \result == U16550_FRAME_DIVISOR_OUT_OF_RANGE;
*/
static int uart_computable_prescaler(uint32_t frequency, uint32_t baud_rate,
    struct u16550_core_maybe_u32 prescaler_division_factor,
    struct u16550_core_maybe_u32 *prescaler);

/*@
  ensures returns: \result == U16550_OK || \result == U16550_FRAME_NON_INTEGER_DIVISOR || \result == U16550_FRAME_DIVISOR_OUT_OF_RANGE;
  ensures written: \result == U16550_OK ==> \initialized(divisor);
*/
static int uart_checked_divisor(uint32_t frequency, uint32_t baud_rate,
    struct u16550_core_maybe_u32 prescaler_division_factor, uint16_t *divisor);

/*@
  ensures some: 14 <= \result;
  ensures few: \result <= 24;
*/
static uint64_t uart_half_bits_of_character(const struct u16550_core_config *config);

/*@
  ensures returns: \result == U16550_OK || \result == U16550_FRAME_NON_INTEGER_DIVISOR || \result == U16550_FRAME_DIVISOR_OUT_OF_RANGE;
  ensures written: \result == U16550_OK ==> \initialized(clocks);
*/
static int uart_config_character_clocks(const struct u16550_core_config *config, uint64_t *clocks);

/*@
  ensures returns: \result == U16550_OK || \result == U16550_FRAME_NON_INTEGER_DIVISOR || \result == U16550_FRAME_DIVISOR_OUT_OF_RANGE;
  ensures written: \result == U16550_OK ==> \initialized(characters);
*/
static int uart_config_characters_in(const struct u16550_core_config *config, uint64_t clocks,
    uint64_t *characters);

/*@
  ensures written: \result ==> \initialized(result);
*/
static bool uart_multiply_divide(uint64_t value, uint32_t times, uint32_t per, uint32_t more,
    uint64_t *result);

/*@
  ensures written: \result ==> \initialized(clocks);
*/
static bool uart_config_clocks_covering(const struct u16550_core_config *config,
    uint64_t nanoseconds, uint64_t *clocks);

/*@
  ensures written: \result ==> \initialized(clocks);
*/
static bool uart_config_clocks_within(const struct u16550_core_config *config,
    uint64_t nanoseconds, uint64_t *clocks);

/*@
  ensures returns: \result == U16550_OK || \result == U16550_FRAME_NON_INTEGER_DIVISOR || \result == U16550_FRAME_DIVISOR_OUT_OF_RANGE;
  ensures written: \result == U16550_OK ==> \initialized(clocks);
*/
static int uart_config_drain_clocks(const struct u16550_core_config *config, uint8_t size,
    uint64_t *clocks);

/*@
  ensures some: 1 <= \result;
*/
static size_t uart_rx_trigger_bytes(uint8_t fifo_trigger_level, uint8_t size);

/*@
  ensures few: \result < 256;
*/
static uint32_t uart_rx_spare(const struct u16550_core_config *config, uint8_t size);

/*@
  ensures returns: \result == U16550_OK || \result == U16550_FRAME_NON_INTEGER_DIVISOR || \result == U16550_FRAME_DIVISOR_OUT_OF_RANGE;
*/
static int uart_config_handler_budget(const struct u16550_core_config *config, uint8_t size,
    uint64_t access_clocks, uint64_t before_clocks, struct uart_maybe_u64 *clocks);

/*@
  ensures written: \result ==> \initialized(nanoseconds);
*/
static bool uart_config_nanoseconds_covering(const struct u16550_core_config *config,
    uint64_t clocks, uint64_t *nanoseconds);

/*@
  ensures written: \result ==> \initialized(nanoseconds);
*/
static bool uart_config_nanoseconds_within(const struct u16550_core_config *config,
    uint64_t clocks, uint64_t *nanoseconds);

/*@
  ensures fits: \result < 1099511627776;
*/
static uint64_t uart_ticks_of(uint32_t baud_rate,
    struct u16550_core_maybe_u32 prescaler_division_factor);

/*@
  requires some: 16 <= ticks;
  requires ticks: ticks < 1099511627776;
  requires runs: 0 < frequency;
  requires frequency: frequency < 4294967296;
  ensures fits: ticks * \result < 2199023255552;
*/
static uint64_t uart_nearest_factor(uint64_t frequency, uint64_t ticks);

/*@
  ensures returns: \result == U16550_OK || \result == U16550_NEAREST_TOO_FAR || \result == U16550_NEAREST_OUT_OF_RANGE;
*/
static int uart_config_nearest(struct u16550_core_config config, uint32_t per_mille,
    struct u16550_core_config *nearest);

/*@
  ensures returns: \result == U16550_OK || \result == U16550_FRAME_NON_INTEGER_DIVISOR || \result == U16550_FRAME_DIVISOR_OUT_OF_RANGE;
*/
static int uart_config_spin_limit_for(const struct u16550_core_config *config, uint8_t size,
    uint64_t access_clocks, struct uart_maybe_u64 *limit);

/*@
  ensures returns: \result == U16550_OK || \result == U16550_FRAME_NON_INTEGER_DIVISOR || \result == U16550_FRAME_DIVISOR_OUT_OF_RANGE;
  ensures written: \result == U16550_OK ==> \initialized(clocks);
*/
static int uart_config_timeout_clocks(const struct u16550_core_config *config, uint64_t *clocks);

/*@
  requires frequency: 0 < frequency;
  requires divisor: 0 < divisor;
  ensures returns: \result == U16550_OK || \result == U16550_NON_INTEGER_BAUD_RATE;
  ensures written: \result == U16550_OK ==> \initialized(baud_rate);
*/
static int uart_calc_baud_rate(uint32_t frequency, uint32_t divisor,
    struct u16550_core_maybe_u32 prescaler_division_factor, uint32_t *baud_rate);

/*@
  ensures returns: \result == U16550_OK || \result == U16550_NON_INTEGER_BAUD_RATE;
*/
static int uart_config_register_dump_baud_rate(const struct u16550_dump *config_register_dump,
    const struct u16550_core_config *config, struct u16550_core_baud_rate *baud_rate);

/*@
  ensures returns: U16550_OTHER_LAYOUT <= \result <= U16550_OK;
  ensures misuse: \result < U16550_OK ==> uart_was_reached == \old(uart_was_reached);
*/
int (u16550_new)(struct u16550 *uart, const struct u16550_io *io);

/*@
  ensures returns: U16550_OTHER_LAYOUT <= \result <= U16550_OK || \result == U16550_BAD_BASE;
  ensures misuse: \result < U16550_OK ==> uart_was_reached == \old(uart_was_reached);
*/
int (u16550_new_port)(struct u16550 *uart, const struct u16550_io *io, uint16_t base);

/*@
  ensures returns: U16550_OTHER_LAYOUT <= \result <= U16550_OK || \result == U16550_BAD_BASE || \result == U16550_BAD_STRIDE;
  ensures misuse: \result < U16550_OK ==> uart_was_reached == \old(uart_was_reached);
*/
int (u16550_new_mmio)(struct u16550 *uart, const struct u16550_io *io, uintptr_t base,
    uint8_t stride);

/*@
  ensures returns: U16550_OTHER_LAYOUT <= \result <= U16550_OK || \result == U16550_BAD_BASE || \result == U16550_BAD_STRIDE
    || \result == U16550_BAD_WIDTH || \result == U16550_STRIDE_TOO_SMALL || \result == U16550_MISALIGNED_BASE;
  ensures misuse: \result < U16550_OK ==> uart_was_reached == \old(uart_was_reached);
*/
int (u16550_new_mmio_wide)(struct u16550 *uart, uintptr_t base, const struct u16550_layout *layout);

/*@
  ensures returns: U16550_OTHER_LAYOUT <= \result <= U16550_OK;
  ensures misuse: \result < U16550_OK ==> uart_was_reached == \old(uart_was_reached);
*/
int (u16550_new_design_ware)(struct u16550 *uart, struct u16550_design_ware *chip,
    const struct u16550_io *io, uint64_t patience);

/*@
  ensures returns: U16550_OTHER_LAYOUT <= \result <= U16550_OK || \result == U16550_BAD_BASE || \result == U16550_BAD_STRIDE
    || \result == U16550_BAD_WIDTH || \result == U16550_STRIDE_TOO_SMALL || \result == U16550_MISALIGNED_BASE;
  ensures misuse: \result < U16550_OK ==> uart_was_reached == \old(uart_was_reached);
*/
int (u16550_new_mmio_design_ware)(struct u16550 *uart, struct u16550_design_ware *chip,
    uintptr_t base, const struct u16550_layout *layout, uint64_t patience);

/*@
  ensures returns: U16550_OTHER_LAYOUT <= \result <= U16550_OK || \result == U16550_DESIGN_WARE_LINE_CONTROL
    || \result == U16550_DESIGN_WARE_INTERRUPT;
  ensures misuse: \result < U16550_OK ==> uart_was_reached == \old(uart_was_reached);
*/
int (u16550_design_ware_fault)(struct u16550 *uart, struct u16550_design_ware *chip);

/*@
  ensures returns: U16550_OTHER_LAYOUT <= \result <= U16550_OK;
  ensures misuse: \result < U16550_OK ==> uart_was_reached == \old(uart_was_reached);
*/
int (u16550_from_state)(struct u16550 *uart, const struct u16550_io *io,
    const struct u16550_state *state);

/*@
  ensures returns: U16550_OTHER_LAYOUT <= \result <= U16550_OK;
  ensures misuse: \result < U16550_OK ==> uart_was_reached == \old(uart_was_reached);
*/
int (u16550_end)(struct u16550 *uart);

/*@
  ensures returns: U16550_OTHER_LAYOUT <= \result <= U16550_OK;
  ensures misuse: \result < U16550_OK ==> uart_was_reached == \old(uart_was_reached);
*/
int (u16550_default_config)(struct u16550_config *config);

/*@
  ensures returns: U16550_OTHER_LAYOUT <= \result <= U16550_OK || \result == U16550_NEAREST_TOO_FAR
    || \result == U16550_NEAREST_OUT_OF_RANGE;
  ensures misuse: \result < U16550_OK ==> uart_was_reached == \old(uart_was_reached);
*/
int (u16550_nearest)(const struct u16550_config *config, uint32_t per_mille,
    struct u16550_config *nearest);

/*@
  ensures returns: U16550_OTHER_LAYOUT <= \result <= U16550_OK;
  ensures misuse: \result < U16550_OK ==> uart_was_reached == \old(uart_was_reached);
*/
int (u16550_get_io)(struct u16550 *uart, struct u16550_io *io);

/*@
  ensures returns: U16550_OTHER_LAYOUT <= \result <= U16550_OK;
  ensures misuse: \result < U16550_OK ==> uart_was_reached == \old(uart_was_reached);
*/
int (u16550_set_io)(struct u16550 *uart, const struct u16550_io *io);

/*@
  ensures returns: U16550_OTHER_LAYOUT <= \result <= U16550_OK;
  ensures misuse: \result < U16550_OK ==> uart_was_reached == \old(uart_was_reached);
*/
int (u16550_get_config)(struct u16550 *uart, struct u16550_config *config);

/*@
  ensures returns: U16550_OTHER_LAYOUT <= \result <= U16550_OK;
  ensures misuse: \result < U16550_OK ==> uart_was_reached == \old(uart_was_reached);
*/
int (u16550_get_state)(struct u16550 *uart, struct u16550_state *state);

/*@
  ensures returns: U16550_OTHER_LAYOUT <= \result <= U16550_OK;
  ensures misuse: \result < U16550_OK ==> uart_was_reached == \old(uart_was_reached);
  ensures written: \result == U16550_OK ==> \initialized(enabled);
  ensures flag: \result == U16550_OK ==> *enabled == 0 || *enabled == 1;
*/
int (u16550_fifo_enabled)(struct u16550 *uart, uint8_t *enabled);

/*@
  ensures returns: U16550_OTHER_LAYOUT <= \result <= U16550_OK;
  ensures misuse: \result < U16550_OK ==> uart_was_reached == \old(uart_was_reached);
  ensures written: \result == U16550_OK ==> \initialized(limit);
*/
int (u16550_spin_limit)(struct u16550 *uart, uint64_t *limit);

/*@
  ensures returns: U16550_OTHER_LAYOUT <= \result <= U16550_OK;
  ensures misuse: \result < U16550_OK ==> uart_was_reached == \old(uart_was_reached);
*/
int (u16550_set_spin_limit)(struct u16550 *uart, uint64_t limit);

/*@
  ensures returns: U16550_OTHER_LAYOUT <= \result <= U16550_OK;
  ensures misuse: \result < U16550_OK ==> uart_was_reached == \old(uart_was_reached);
  ensures written: \result == U16550_OK ==> \initialized(fifo_size);
*/
int (u16550_fifo_size)(struct u16550 *uart, uint16_t *fifo_size);

/*@
  ensures returns: U16550_OTHER_LAYOUT <= \result <= U16550_OK;
  ensures misuse: \result < U16550_OK ==> uart_was_reached == \old(uart_was_reached);
*/
int (u16550_set_fifo_size)(struct u16550 *uart, uint16_t fifo_size);

/*@
  ensures returns: U16550_OTHER_LAYOUT <= \result <= U16550_OK || \result == U16550_FRAME_NON_INTEGER_DIVISOR
    || \result == U16550_FRAME_DIVISOR_OUT_OF_RANGE;
  ensures misuse: \result < U16550_OK ==> uart_was_reached == \old(uart_was_reached);
  ensures written: \result == U16550_OK ==> \initialized(clocks);
*/
int (u16550_character_clocks)(const struct u16550_config *config, uint64_t *clocks);

/*@
  ensures returns: U16550_OTHER_LAYOUT <= \result <= U16550_OK || \result == U16550_TIME_NOTHING_LEFT
    || \result == U16550_FRAME_NON_INTEGER_DIVISOR || \result == U16550_FRAME_DIVISOR_OUT_OF_RANGE;
  ensures misuse: \result < U16550_OK ==> uart_was_reached == \old(uart_was_reached);
  ensures written: \result == U16550_OK ==> \initialized(clocks);
*/
int (u16550_handler_budget)(const struct u16550_config *config, uint16_t fifo_size,
    uint64_t access_clocks, uint64_t before_clocks, uint64_t *clocks);

/*@
  ensures returns: U16550_OTHER_LAYOUT <= \result <= U16550_OK || \result == U16550_FRAME_NON_INTEGER_DIVISOR
    || \result == U16550_FRAME_DIVISOR_OUT_OF_RANGE;
  ensures misuse: \result < U16550_OK ==> uart_was_reached == \old(uart_was_reached);
  ensures written: \result == U16550_OK ==> \initialized(characters);
*/
int (u16550_characters_in)(const struct u16550_config *config, uint64_t clocks,
    uint64_t *characters);

/*@
  ensures returns: U16550_OTHER_LAYOUT <= \result <= U16550_OK || \result == U16550_FRAME_NON_INTEGER_DIVISOR
    || \result == U16550_FRAME_DIVISOR_OUT_OF_RANGE;
  ensures misuse: \result < U16550_OK ==> uart_was_reached == \old(uart_was_reached);
  ensures written: \result == U16550_OK ==> \initialized(clocks);
*/
int (u16550_drain_clocks)(const struct u16550_config *config, uint16_t fifo_size, uint64_t *clocks);

/*@
  ensures returns: U16550_OTHER_LAYOUT <= \result <= U16550_OK || \result == U16550_FRAME_NON_INTEGER_DIVISOR
    || \result == U16550_FRAME_DIVISOR_OUT_OF_RANGE;
  ensures misuse: \result < U16550_OK ==> uart_was_reached == \old(uart_was_reached);
  ensures written: \result == U16550_OK ==> \initialized(clocks);
*/
int (u16550_timeout_clocks)(const struct u16550_config *config, uint64_t *clocks);

/*@
  ensures returns: U16550_OTHER_LAYOUT <= \result <= U16550_OK || \result == U16550_TIME_NO_LIMIT
    || \result == U16550_FRAME_NON_INTEGER_DIVISOR || \result == U16550_FRAME_DIVISOR_OUT_OF_RANGE;
  ensures misuse: \result < U16550_OK ==> uart_was_reached == \old(uart_was_reached);
  ensures written: \result == U16550_OK ==> \initialized(limit);
*/
int (u16550_spin_limit_for)(const struct u16550_config *config, uint16_t fifo_size,
    uint64_t access_clocks, uint64_t *limit);

/*@
  ensures returns: U16550_OTHER_LAYOUT <= \result <= U16550_OK || \result == U16550_TIME_OUT_OF_RANGE;
  ensures misuse: \result < U16550_OK ==> uart_was_reached == \old(uart_was_reached);
  ensures written: \result == U16550_OK ==> \initialized(nanoseconds);
*/
int (u16550_nanoseconds_within)(const struct u16550_config *config, uint64_t clocks,
    uint64_t *nanoseconds);

/*@
  ensures returns: U16550_OTHER_LAYOUT <= \result <= U16550_OK || \result == U16550_TIME_OUT_OF_RANGE;
  ensures misuse: \result < U16550_OK ==> uart_was_reached == \old(uart_was_reached);
  ensures written: \result == U16550_OK ==> \initialized(nanoseconds);
*/
int (u16550_nanoseconds_covering)(const struct u16550_config *config, uint64_t clocks,
    uint64_t *nanoseconds);

/*@
  ensures returns: U16550_OTHER_LAYOUT <= \result <= U16550_OK || \result == U16550_TIME_OUT_OF_RANGE;
  ensures misuse: \result < U16550_OK ==> uart_was_reached == \old(uart_was_reached);
  ensures written: \result == U16550_OK ==> \initialized(clocks);
*/
int (u16550_clocks_within)(const struct u16550_config *config, uint64_t nanoseconds,
    uint64_t *clocks);

/*@
  ensures returns: U16550_OTHER_LAYOUT <= \result <= U16550_OK || \result == U16550_TIME_OUT_OF_RANGE;
  ensures misuse: \result < U16550_OK ==> uart_was_reached == \old(uart_was_reached);
  ensures written: \result == U16550_OK ==> \initialized(clocks);
*/
int (u16550_clocks_covering)(const struct u16550_config *config, uint64_t nanoseconds,
    uint64_t *clocks);

/*@
  ensures returns: U16550_OTHER_LAYOUT <= \result <= U16550_OK;
  ensures misuse: \result < U16550_OK ==> uart_was_reached == \old(uart_was_reached);
  ensures written: \result == U16550_OK ==> \initialized(present);
  ensures flag: \result == U16550_OK ==> *present == 0 || *present == 1;
*/
int (u16550_check_present)(struct u16550 *uart, uint8_t *present);

/*@
  ensures returns: U16550_OTHER_LAYOUT <= \result <= U16550_OK || \result == U16550_INIT_DEVICE_NOT_PRESENT
    || \result == U16550_INIT_NON_INTEGER_DIVISOR || \result == U16550_INIT_DIVISOR_OUT_OF_RANGE || \result == U16550_INIT_STALLED;
  ensures misuse: \result < U16550_OK ==> uart_was_reached == \old(uart_was_reached);
*/
int (u16550_init)(struct u16550 *uart, const struct u16550_config *config);

/*@
  ensures returns: U16550_OTHER_LAYOUT <= \result <= U16550_OK || \result == U16550_INIT_DEVICE_NOT_PRESENT
    || \result == U16550_INIT_NON_INTEGER_DIVISOR || \result == U16550_INIT_DIVISOR_OUT_OF_RANGE || \result == U16550_INIT_STALLED;
  ensures misuse: \result < U16550_OK ==> uart_was_reached == \old(uart_was_reached);
*/
int (u16550_init_with)(struct u16550 *uart, const struct u16550_config *config,
    const struct u16550_setup *setup);

/*@
  ensures returns: U16550_OTHER_LAYOUT <= \result <= U16550_OK || \result == U16550_LOOPBACK_NO_CAPACITY
    || \result == U16550_LOOPBACK_UNEXPECTED_BYTE || \result == U16550_LOOPBACK_UNEXPECTED_MSG || \result == U16550_LOOPBACK_STALLED;
  ensures misuse: \result < U16550_OK ==> uart_was_reached == \old(uart_was_reached);
*/
int (u16550_test_loopback)(struct u16550 *uart, struct u16550_loopback_failure *failure);

/*@
  ensures returns: U16550_OTHER_LAYOUT <= \result <= U16550_OK || \result == U16550_FIFOS_OFF || \result == U16550_FIFOS_TOO_FEW
    || \result == U16550_FIFOS_STALLED;
  ensures misuse: \result < U16550_OK ==> uart_was_reached == \old(uart_was_reached);
  ensures written: \result == U16550_OK ==> \initialized(fifo_size);
*/
int (u16550_find_fifo_size)(struct u16550 *uart, uint16_t *fifo_size);

/*@
  ensures returns: U16550_OTHER_LAYOUT <= \result <= U16550_OK || \result == U16550_FIFOS_OFF || \result == U16550_FIFOS_TOO_FEW
    || \result == U16550_FIFOS_STALLED;
  ensures misuse: \result < U16550_OK ==> uart_was_reached == \old(uart_was_reached);
  ensures written: \result == U16550_OK ==> \initialized(enabled);
  ensures flag: \result == U16550_OK ==> *enabled == 0 || *enabled == 1;
*/
int (u16550_enable_64_byte_fifos)(struct u16550 *uart, uint8_t *enabled);

/*@
  ensures returns: U16550_OTHER_LAYOUT <= \result <= U16550_OK || \result == U16550_CONFIGURATION_NO_DIVISOR
    || \result == U16550_CONFIGURATION_LINE_CONTROL || \result == U16550_CONFIGURATION_MODEM_CONTROL
    || \result == U16550_CONFIGURATION_INTERRUPTS || \result == U16550_CONFIGURATION_DIVISOR || \result == U16550_CONFIGURATION_FIFOS;
  ensures misuse: \result < U16550_OK ==> uart_was_reached == \old(uart_was_reached);
*/
int (u16550_check_configured)(struct u16550 *uart, uint8_t outputs,
    struct u16550_difference *difference);

/*@
  ensures returns: U16550_OTHER_LAYOUT <= \result <= U16550_OK || \result == U16550_REMOTE_NO_DSR
    || \result == U16550_REMOTE_NOT_CLEAR_TO_SEND;
  ensures misuse: \result < U16550_OK ==> uart_was_reached == \old(uart_was_reached);
*/
int (u16550_check_connected)(struct u16550 *uart);

/*@
  ensures returns: U16550_OTHER_LAYOUT <= \result <= U16550_OK || \result == U16550_FRAME_NON_INTEGER_DIVISOR
    || \result == U16550_FRAME_DIVISOR_OUT_OF_RANGE;
  ensures misuse: \result < U16550_OK ==> uart_was_reached == \old(uart_was_reached);
*/
int (u16550_set_frame)(struct u16550 *uart, const struct u16550_config *config);

/*@
  ensures returns: U16550_OTHER_LAYOUT <= \result <= U16550_OK || \result == U16550_FRAME_NON_INTEGER_DIVISOR
    || \result == U16550_FRAME_DIVISOR_OUT_OF_RANGE || \result == U16550_FRAME_STALLED;
  ensures misuse: \result < U16550_OK ==> uart_was_reached == \old(uart_was_reached);
*/
int (u16550_set_frame_when_idle)(struct u16550 *uart, const struct u16550_config *config);

/*@
  ensures returns: U16550_OTHER_LAYOUT <= \result <= U16550_OK || \result == U16550_FIFOS_OFF;
  ensures misuse: \result < U16550_OK ==> uart_was_reached == \old(uart_was_reached);
*/
int (u16550_set_trigger_level)(struct u16550 *uart, uint8_t characters);

/*@
  ensures returns: U16550_OTHER_LAYOUT <= \result <= U16550_OK;
  ensures misuse: \result < U16550_OK ==> uart_was_reached == \old(uart_was_reached);
*/
int (u16550_quiesce)(struct u16550 *uart, uint8_t outputs, uint8_t fifos);

/*@
  ensures returns: U16550_OTHER_LAYOUT <= \result <= U16550_OK;
  ensures misuse: \result < U16550_OK ==> uart_was_reached == \old(uart_was_reached);
*/
int (u16550_restore)(struct u16550 *uart, const struct u16550_dump *dump);

/*@
  ensures returns: U16550_OTHER_LAYOUT <= \result <= U16550_OK || \result == U16550_ATTACH_DIVISOR_LATCH_OPEN
    || \result == U16550_ATTACH_LOOPBACK || \result == U16550_ATTACH_NO_DIVISOR;
  ensures misuse: \result < U16550_OK ==> uart_was_reached == \old(uart_was_reached);
  ensures written: \result == U16550_OK ==> \initialized(dll);
  ensures written: \result == U16550_OK ==> \initialized(dlm);
*/
int (u16550_attach)(struct u16550 *uart, uint8_t *dll, uint8_t *dlm);

/*@
  ensures returns: U16550_OTHER_LAYOUT <= \result <= U16550_OK || \result == U16550_ATTACH_DIVISOR_LATCH_OPEN
    || \result == U16550_ATTACH_LOOPBACK;
  ensures misuse: \result < U16550_OK ==> uart_was_reached == \old(uart_was_reached);
*/
int (u16550_emergency)(struct u16550 *uart);

/*@
  ensures returns: U16550_OTHER_LAYOUT <= \result <= U16550_OK;
  ensures misuse: \result < U16550_OK ==> uart_was_reached == \old(uart_was_reached);
*/
int (u16550_set_modem_control)(struct u16550 *uart, uint8_t outputs);

/*@
  ensures returns: U16550_OTHER_LAYOUT <= \result <= U16550_OK;
  ensures misuse: \result < U16550_OK ==> uart_was_reached == \old(uart_was_reached);
*/
int (u16550_set_rts)(struct u16550 *uart, uint8_t on);

/*@
  ensures returns: U16550_OTHER_LAYOUT <= \result <= U16550_OK;
  ensures misuse: \result < U16550_OK ==> uart_was_reached == \old(uart_was_reached);
*/
int (u16550_set_dtr)(struct u16550 *uart, uint8_t on);

/*@
  ensures returns: U16550_OTHER_LAYOUT <= \result <= U16550_OK;
  ensures misuse: \result < U16550_OK ==> uart_was_reached == \old(uart_was_reached);
*/
int (u16550_set_break)(struct u16550 *uart, uint8_t on);

/*@
  ensures returns: U16550_OTHER_LAYOUT <= \result <= U16550_OK || \result == U16550_RECEIVE_NO_DATA;
  ensures misuse: \result < U16550_OK ==> uart_was_reached == \old(uart_was_reached);
*/
int (u16550_ready_to_receive)(struct u16550 *uart);

/*@
  ensures returns: U16550_OTHER_LAYOUT <= \result <= U16550_OK || \result == U16550_SEND_NO_CAPACITY
    || \result == U16550_SEND_NOT_CLEAR_TO_SEND;
  ensures misuse: \result < U16550_OK ==> uart_was_reached == \old(uart_was_reached);
*/
int (u16550_ready_to_send)(struct u16550 *uart);

/*@
  ensures returns: U16550_OTHER_LAYOUT <= \result <= U16550_OK || \result == U16550_RECEIVE_NO_DATA;
  ensures misuse: \result < U16550_OK ==> uart_was_reached == \old(uart_was_reached);
  ensures written: \result == U16550_OK ==> \initialized(byte);
*/
int (u16550_try_receive_byte)(struct u16550 *uart, uint8_t *byte);

/*@
  ensures returns: U16550_OTHER_LAYOUT <= \result <= U16550_OK || \result == U16550_SEND_NO_CAPACITY
    || \result == U16550_SEND_NOT_CLEAR_TO_SEND;
  ensures misuse: \result < U16550_OK ==> uart_was_reached == \old(uart_was_reached);
*/
int (u16550_try_send_byte)(struct u16550 *uart, uint8_t byte);

/*@
  ensures returns: U16550_OTHER_LAYOUT <= \result <= U16550_OK;
  ensures misuse: \result < U16550_OK ==> uart_was_reached == \old(uart_was_reached);
  ensures written: \result == U16550_OK ==> \initialized(count);
*/
int (u16550_receive_bytes)(struct u16550 *uart, uint8_t *buffer, size_t len, size_t *count);

/*@
  ensures returns: U16550_OTHER_LAYOUT <= \result <= U16550_OK;
  ensures misuse: \result < U16550_OK ==> uart_was_reached == \old(uart_was_reached);
  ensures written: \result == U16550_OK ==> \initialized(count);
*/
int (u16550_send_bytes)(struct u16550 *uart, const uint8_t *buffer, size_t len, size_t *count);

/*@
  ensures returns: U16550_OTHER_LAYOUT <= \result <= U16550_OK;
  ensures misuse: \result < U16550_OK ==> uart_was_reached == \old(uart_was_reached);
  ensures written: \result == U16550_OK ==> \initialized(count);
*/
int (u16550_send_burst)(struct u16550 *uart, const uint8_t *buffer, size_t len,
    uint16_t fifo_size, size_t *count);

/*@
  ensures returns: U16550_OTHER_LAYOUT <= \result <= U16550_OK;
  ensures misuse: \result < U16550_OK ==> uart_was_reached == \old(uart_was_reached);
  ensures written: \result == U16550_OK ==> \initialized(count);
*/
int (u16550_send_gathered)(struct u16550 *uart, const uint8_t *urgent, const uint8_t *first,
    size_t first_len, const uint8_t *second, size_t second_len, size_t *count);

/*@
  ensures returns: U16550_OTHER_LAYOUT <= \result <= U16550_OK || \result == U16550_RECEIVE_NO_DATA;
  ensures misuse: \result < U16550_OK ==> uart_was_reached == \old(uart_was_reached);
*/
int (u16550_try_receive_with_errors)(struct u16550 *uart, struct u16550_received *received);

/*@
  ensures returns: U16550_OTHER_LAYOUT <= \result <= U16550_OK;
  ensures misuse: \result < U16550_OK ==> uart_was_reached == \old(uart_was_reached);
  ensures written: \result == U16550_OK ==> \initialized(count);
*/
int (u16550_receive_with_errors)(struct u16550 *uart, struct u16550_received *received,
    size_t len, size_t *count);

/*@
  ensures returns: U16550_OTHER_LAYOUT <= \result <= U16550_OK || \result == U16550_STALLED;
  ensures misuse: \result < U16550_OK ==> uart_was_reached == \old(uart_was_reached);
  ensures written: \result >= U16550_OK && done != \null ==> \initialized(done);
*/
int (u16550_receive_bytes_exact)(struct u16550 *uart, uint8_t *buffer, size_t len, size_t *done);

/*@
  ensures returns: U16550_OTHER_LAYOUT <= \result <= U16550_OK || \result == U16550_STALLED;
  ensures misuse: \result < U16550_OK ==> uart_was_reached == \old(uart_was_reached);
  ensures written: \result >= U16550_OK && done != \null ==> \initialized(done);
*/
int (u16550_send_bytes_exact)(struct u16550 *uart, const uint8_t *buffer, size_t len, size_t *done);

/*@
  ensures returns: U16550_OTHER_LAYOUT <= \result <= U16550_OK || \result == U16550_STALLED || \result == U16550_WAIT_ENDED;
  ensures misuse: \result < U16550_OK ==> uart_was_reached == \old(uart_was_reached);
  ensures written: \result >= U16550_OK && done != \null ==> \initialized(done);
*/
int (u16550_receive_bytes_while)(struct u16550 *uart, uint8_t *buffer, size_t len,
    uint8_t (*keep_waiting)(void *context), void *context, size_t *done);

/*@
  ensures returns: U16550_OTHER_LAYOUT <= \result <= U16550_OK || \result == U16550_STALLED || \result == U16550_WAIT_ENDED;
  ensures misuse: \result < U16550_OK ==> uart_was_reached == \old(uart_was_reached);
  ensures written: \result >= U16550_OK && done != \null ==> \initialized(done);
*/
int (u16550_send_bytes_while)(struct u16550 *uart, const uint8_t *buffer, size_t len,
    uint8_t (*keep_waiting)(void *context), void *context, size_t *done);

/*@
  ensures returns: U16550_OTHER_LAYOUT <= \result <= U16550_OK || \result == U16550_STALLED || \result == U16550_WAIT_ENDED;
  ensures misuse: \result < U16550_OK ==> uart_was_reached == \old(uart_was_reached);
*/
int (u16550_flush_while)(struct u16550 *uart, uint8_t (*keep_waiting)(void *context),
    void *context);

/*@
  ensures returns: U16550_OTHER_LAYOUT <= \result <= U16550_OK || \result == U16550_STALLED;
  ensures misuse: \result < U16550_OK ==> uart_was_reached == \old(uart_was_reached);
  ensures written: \result == U16550_OK ==> \initialized(count);
*/
int (u16550_read)(struct u16550 *uart, uint8_t *buffer, size_t len, size_t *count);

/*@
  ensures returns: U16550_OTHER_LAYOUT <= \result <= U16550_OK || \result == U16550_STALLED;
  ensures misuse: \result < U16550_OK ==> uart_was_reached == \old(uart_was_reached);
  ensures written: \result == U16550_OK ==> \initialized(count);
*/
int (u16550_write)(struct u16550 *uart, const uint8_t *buffer, size_t len, size_t *count);

/*@
  ensures returns: U16550_OTHER_LAYOUT <= \result <= U16550_OK || \result == U16550_STALLED;
  ensures misuse: \result < U16550_OK ==> uart_was_reached == \old(uart_was_reached);
*/
int (u16550_flush)(struct u16550 *uart);

/*@
  ensures returns: U16550_OTHER_LAYOUT <= \result <= U16550_OK || \result == U16550_STALLED;
  ensures misuse: \result < U16550_OK ==> uart_was_reached == \old(uart_was_reached);
  ensures written: \result == U16550_OK ==> \initialized(ready);
  ensures flag: \result == U16550_OK ==> *ready == 0 || *ready == 1;
*/
int (u16550_read_ready)(struct u16550 *uart, uint8_t *ready);

/*@
  ensures returns: U16550_OTHER_LAYOUT <= \result <= U16550_OK || \result == U16550_STALLED;
  ensures misuse: \result < U16550_OK ==> uart_was_reached == \old(uart_was_reached);
  ensures written: \result == U16550_OK ==> \initialized(ready);
  ensures flag: \result == U16550_OK ==> *ready == 0 || *ready == 1;
*/
int (u16550_write_ready)(struct u16550 *uart, uint8_t *ready);

/*@
  ensures returns: U16550_OTHER_LAYOUT <= \result <= U16550_OK;
  ensures misuse: \result < U16550_OK ==> uart_was_reached == \old(uart_was_reached);
  ensures written: \result == U16550_OK ==> \initialized(idle);
  ensures flag: \result == U16550_OK ==> *idle == 0 || *idle == 1;
*/
int (u16550_is_idle)(struct u16550 *uart, uint8_t *idle);

/*@
  ensures returns: U16550_OTHER_LAYOUT <= \result <= U16550_OK;
  ensures misuse: \result < U16550_OK ==> uart_was_reached == \old(uart_was_reached);
  ensures written: \result == U16550_OK ==> \initialized(gone);
  ensures flag: \result == U16550_OK ==> *gone == 0 || *gone == 1;
*/
int (u16550_is_gone)(struct u16550 *uart, uint8_t *gone);

/*@
  ensures returns: U16550_OTHER_LAYOUT <= \result <= U16550_OK || \result == U16550_STALLED;
  ensures misuse: \result < U16550_OK ==> uart_was_reached == \old(uart_was_reached);
  ensures written: \result >= U16550_OK && done != \null ==> \initialized(done);
*/
int (u16550_write_text)(struct u16550 *uart, const char *text, size_t len, size_t *done);

/*@
  ensures returns: U16550_OTHER_LAYOUT <= \result <= U16550_OK || \result == U16550_STALLED;
  ensures misuse: \result < U16550_OK ==> uart_was_reached == \old(uart_was_reached);
  ensures written: \result >= U16550_OK && done != \null ==> \initialized(done);
*/
int (u16550_write_raw_text)(struct u16550 *uart, const char *text, size_t len, size_t *done);

/*@
  ensures returns: U16550_OTHER_LAYOUT <= \result <= U16550_OK;
  ensures misuse: \result < U16550_OK ==> uart_was_reached == \old(uart_was_reached);
  ensures written: \result == U16550_OK ==> \initialized(value);
*/
int (u16550_ier)(struct u16550 *uart, uint8_t *value);

/*@
  ensures returns: U16550_OTHER_LAYOUT <= \result <= U16550_OK;
  ensures misuse: \result < U16550_OK ==> uart_was_reached == \old(uart_was_reached);
  ensures written: \result == U16550_OK ==> \initialized(value);
*/
int (u16550_isr)(struct u16550 *uart, uint8_t *value);

/*@
  ensures returns: U16550_OTHER_LAYOUT <= \result <= U16550_OK;
  ensures misuse: \result < U16550_OK ==> uart_was_reached == \old(uart_was_reached);
  ensures written: \result == U16550_OK ==> \initialized(value);
*/
int (u16550_lcr)(struct u16550 *uart, uint8_t *value);

/*@
  ensures returns: U16550_OTHER_LAYOUT <= \result <= U16550_OK;
  ensures misuse: \result < U16550_OK ==> uart_was_reached == \old(uart_was_reached);
  ensures written: \result == U16550_OK ==> \initialized(value);
*/
int (u16550_mcr)(struct u16550 *uart, uint8_t *value);

/*@
  ensures returns: U16550_OTHER_LAYOUT <= \result <= U16550_OK;
  ensures misuse: \result < U16550_OK ==> uart_was_reached == \old(uart_was_reached);
  ensures written: \result == U16550_OK ==> \initialized(value);
*/
int (u16550_lsr)(struct u16550 *uart, uint8_t *value);

/*@
  ensures returns: U16550_OTHER_LAYOUT <= \result <= U16550_OK;
  ensures misuse: \result < U16550_OK ==> uart_was_reached == \old(uart_was_reached);
  ensures written: \result == U16550_OK ==> \initialized(value);
*/
int (u16550_msr)(struct u16550 *uart, uint8_t *value);

/*@
  ensures returns: U16550_OTHER_LAYOUT <= \result <= U16550_OK;
  ensures misuse: \result < U16550_OK ==> uart_was_reached == \old(uart_was_reached);
  ensures written: \result == U16550_OK ==> \initialized(value);
*/
int (u16550_spr)(struct u16550 *uart, uint8_t *value);

/*@
  ensures returns: U16550_OTHER_LAYOUT <= \result <= U16550_OK;
  ensures misuse: \result < U16550_OK ==> uart_was_reached == \old(uart_was_reached);
  ensures written: \result == U16550_OK ==> \initialized(dll);
  ensures written: \result == U16550_OK ==> \initialized(dlm);
*/
int (u16550_dll_dlm)(struct u16550 *uart, uint8_t *dll, uint8_t *dlm);

/*@
  ensures returns: U16550_OTHER_LAYOUT <= \result <= U16550_OK;
  ensures misuse: \result < U16550_OK ==> uart_was_reached == \old(uart_was_reached);
  ensures written: \result == U16550_OK ==> \initialized(msr);
*/
int (u16550_peek_modem)(struct u16550 *uart, uint8_t *msr);

/*@
  ensures returns: U16550_OTHER_LAYOUT <= \result <= U16550_OK;
  ensures misuse: \result < U16550_OK ==> uart_was_reached == \old(uart_was_reached);
*/
int (u16550_enable_interrupts)(struct u16550 *uart, uint8_t interrupts);

/*@
  ensures returns: U16550_OTHER_LAYOUT <= \result <= U16550_OK;
  ensures misuse: \result < U16550_OK ==> uart_was_reached == \old(uart_was_reached);
*/
int (u16550_disable_interrupts)(struct u16550 *uart, uint8_t interrupts);

/*@
  ensures returns: U16550_OTHER_LAYOUT <= \result <= U16550_OK;
  ensures misuse: \result < U16550_OK ==> uart_was_reached == \old(uart_was_reached);
*/
int (u16550_retrigger_interrupts)(struct u16550 *uart);

/*@
  ensures returns: U16550_OTHER_LAYOUT <= \result <= U16550_OK;
  ensures misuse: \result < U16550_OK ==> uart_was_reached == \old(uart_was_reached);
*/
int (u16550_config_register_dump)(struct u16550 *uart, struct u16550_dump *dump);

/*@
  ensures returns: U16550_OTHER_LAYOUT <= \result <= U16550_OK;
  ensures misuse: \result < U16550_OK ==> uart_was_reached == \old(uart_was_reached);
  ensures written: \result == U16550_OK ==> \initialized(divisor);
*/
int (u16550_dump_divisor)(const struct u16550_dump *dump, uint16_t *divisor);

/*@
  ensures returns: U16550_OTHER_LAYOUT <= \result <= U16550_OK || \result == U16550_NON_INTEGER_BAUD_RATE;
  ensures misuse: \result < U16550_OK ==> uart_was_reached == \old(uart_was_reached);
  ensures written: \result == U16550_OK ==> \initialized(baud_rate);
*/
int (u16550_dump_baud_rate)(const struct u16550_dump *dump, const struct u16550_config *config,
    uint32_t *baud_rate);

/*@
  ensures returns: U16550_OTHER_LAYOUT <= \result <= U16550_OK;
  ensures misuse: \result < U16550_OK ==> uart_was_reached == \old(uart_was_reached);
  ensures written: \result == U16550_OK ==> \initialized(receiving);
*/
int (u16550_direction_receiving)(const struct u16550_direction *direction, uint8_t outputs,
    uint8_t *receiving);

/*@
  ensures returns: U16550_OTHER_LAYOUT <= \result <= U16550_OK || \result == U16550_BUS_BUSY;
  ensures misuse: \result < U16550_OK ==> uart_was_reached == \old(uart_was_reached);
*/
int (u16550_bus_new)(struct u16550_bus *bus, struct u16550 *uart,
    const struct u16550_direction *direction);

/*@
  ensures returns: U16550_OTHER_LAYOUT <= \result <= U16550_OK;
  ensures misuse: \result < U16550_OK ==> uart_was_reached == \old(uart_was_reached);
*/
int (u16550_bus_end)(struct u16550_bus *bus, struct u16550 *uart);

/*@
  ensures returns: U16550_OTHER_LAYOUT <= \result <= U16550_OK;
  ensures misuse: \result < U16550_OK ==> uart_was_reached == \old(uart_was_reached);
*/
int (u16550_bus_start_sending)(struct u16550_bus *bus);

/*@
  ensures returns: U16550_OTHER_LAYOUT <= \result <= U16550_OK || \result == U16550_BUS_BUSY;
  ensures misuse: \result < U16550_OK ==> uart_was_reached == \old(uart_was_reached);
*/
int (u16550_bus_try_finish)(struct u16550_bus *bus);

/*@
  ensures returns: U16550_OTHER_LAYOUT <= \result <= U16550_OK;
  ensures misuse: \result < U16550_OK ==> uart_was_reached == \old(uart_was_reached);
  ensures written: \result == U16550_OK ==> \initialized(sending);
*/
int (u16550_bus_is_sending)(struct u16550_bus *bus, uint8_t *sending);

/*@
  ensures returns: U16550_OTHER_LAYOUT <= \result <= U16550_OK || \result == U16550_STALLED;
  ensures misuse: \result < U16550_OK ==> uart_was_reached == \old(uart_was_reached);
*/
int (u16550_bus_flush)(struct u16550_bus *bus);

/*@
  ensures returns: U16550_OTHER_LAYOUT <= \result <= U16550_OK;
  ensures misuse: \result < U16550_OK ==> uart_was_reached == \old(uart_was_reached);
  ensures written: \result == U16550_OK ==> \initialized(idle);
*/
int (u16550_bus_is_idle)(struct u16550_bus *bus, uint8_t *idle);

/*@
  ensures returns: U16550_OTHER_LAYOUT <= \result <= U16550_OK || \result == U16550_BUS_NOT_SENDING;
  ensures misuse: \result < U16550_OK ==> uart_was_reached == \old(uart_was_reached);
  ensures written: \result == U16550_OK ==> \initialized(count);
*/
int (u16550_bus_send_bytes)(struct u16550_bus *bus, const uint8_t *buffer, size_t len,
    size_t *count);

/*@
  ensures returns: U16550_OTHER_LAYOUT <= \result <= U16550_OK || \result == U16550_BUS_NOT_SENDING || \result == U16550_STALLED;
  ensures misuse: \result < U16550_OK ==> uart_was_reached == \old(uart_was_reached);
  ensures written: \result >= U16550_OK && done != \null ==> \initialized(done);
*/
int (u16550_bus_send_bytes_exact)(struct u16550_bus *bus, const uint8_t *buffer, size_t len,
    size_t *done);

/*@
  ensures returns: U16550_OTHER_LAYOUT <= \result <= U16550_OK;
  ensures misuse: \result < U16550_OK ==> uart_was_reached == \old(uart_was_reached);
  ensures written: \result == U16550_OK ==> \initialized(count);
*/
int (u16550_bus_receive_bytes)(struct u16550_bus *bus, uint8_t *buffer, size_t len, size_t *count);

/*@
  ensures returns: U16550_OTHER_LAYOUT <= \result <= U16550_OK;
  ensures misuse: \result < U16550_OK ==> uart_was_reached == \old(uart_was_reached);
  ensures written: \result == U16550_OK ==> \initialized(count);
*/
int (u16550_bus_receive_with_errors)(struct u16550_bus *bus, struct u16550_received *received,
    size_t len, size_t *count);

/*@
  ensures returns: U16550_OTHER_LAYOUT <= \result <= U16550_OK;
  ensures misuse: \result < U16550_OK ==> uart_was_reached == \old(uart_was_reached);
  ensures written: \result == U16550_OK ==> \initialized(value);
*/
int (u16550_bus_lsr)(struct u16550_bus *bus, uint8_t *value);

/*@
  ensures returns: U16550_OTHER_LAYOUT <= \result <= U16550_OK || \result == U16550_RING_BAD_CAPACITY
    || \result == U16550_RING_OUT_OF_MEMORY;
  ensures misuse: \result < U16550_OK ==> uart_was_reached == \old(uart_was_reached);
*/
int (u16550_ring_new)(struct u16550 *uart, uint8_t *memory, size_t size, size_t tx_capacity,
    size_t rx_capacity);

/*@
  ensures returns: U16550_OTHER_LAYOUT <= \result <= U16550_OK;
  ensures misuse: \result < U16550_OK ==> uart_was_reached == \old(uart_was_reached);
*/
int (u16550_ring_end)(struct u16550 *uart);

/*@
  ensures returns: U16550_OTHER_LAYOUT <= \result <= U16550_OK;
  ensures misuse: \result < U16550_OK ==> uart_was_reached == \old(uart_was_reached);
  ensures written: \result == U16550_OK ==> \initialized(len);
*/
int (u16550_ring_transmit_len)(struct u16550 *uart, size_t *len);

/*@
  ensures returns: U16550_OTHER_LAYOUT <= \result <= U16550_OK;
  ensures misuse: \result < U16550_OK ==> uart_was_reached == \old(uart_was_reached);
  ensures written: \result == U16550_OK ==> \initialized(len);
*/
int (u16550_ring_receive_len)(struct u16550 *uart, size_t *len);

/*@
  ensures returns: U16550_OTHER_LAYOUT <= \result <= U16550_OK;
  ensures misuse: \result < U16550_OK ==> uart_was_reached == \old(uart_was_reached);
  ensures written: \result == U16550_OK ==> \initialized(paused);
  ensures flag: \result == U16550_OK ==> *paused == 0 || *paused == 1;
*/
int (u16550_ring_is_paused)(struct u16550 *uart, uint8_t *paused);

/*@
  ensures returns: U16550_OTHER_LAYOUT <= \result <= U16550_OK;
  ensures misuse: \result < U16550_OK ==> uart_was_reached == \old(uart_was_reached);
  ensures written: \result == U16550_OK ==> \initialized(count);
*/
int (u16550_ring_queue)(struct u16550 *uart, const uint8_t *buffer, size_t len, size_t *count);

/*@
  ensures returns: U16550_OTHER_LAYOUT <= \result <= U16550_OK;
  ensures misuse: \result < U16550_OK ==> uart_was_reached == \old(uart_was_reached);
  ensures written: \result == U16550_OK ==> \initialized(room);
*/
int (u16550_ring_transmit_room)(struct u16550 *uart, size_t *room);

/*@
  ensures returns: U16550_OTHER_LAYOUT <= \result <= U16550_OK;
  ensures misuse: \result < U16550_OK ==> uart_was_reached == \old(uart_was_reached);
*/
int (u16550_ring_hold_transmit)(struct u16550 *uart);

/*@
  ensures returns: U16550_OTHER_LAYOUT <= \result <= U16550_OK;
  ensures misuse: \result < U16550_OK ==> uart_was_reached == \old(uart_was_reached);
*/
int (u16550_ring_release_transmit)(struct u16550 *uart);

/*@
  ensures returns: U16550_OTHER_LAYOUT <= \result <= U16550_OK;
  ensures misuse: \result < U16550_OK ==> uart_was_reached == \old(uart_was_reached);
  ensures written: \result == U16550_OK ==> \initialized(held);
  ensures flag: \result == U16550_OK ==> *held == 0 || *held == 1;
*/
int (u16550_ring_is_held)(struct u16550 *uart, uint8_t *held);

/*@
  ensures returns: U16550_OTHER_LAYOUT <= \result <= U16550_OK;
  ensures misuse: \result < U16550_OK ==> uart_was_reached == \old(uart_was_reached);
*/
int (u16550_ring_queue_urgent)(struct u16550 *uart, uint8_t byte, struct u16550_urgent *replaced);

/*@
  ensures returns: U16550_OTHER_LAYOUT <= \result <= U16550_OK;
  ensures misuse: \result < U16550_OK ==> uart_was_reached == \old(uart_was_reached);
*/
int (u16550_ring_urgent)(struct u16550 *uart, struct u16550_urgent *urgent);

/*@
  ensures returns: U16550_OTHER_LAYOUT <= \result <= U16550_OK;
  ensures misuse: \result < U16550_OK ==> uart_was_reached == \old(uart_was_reached);
  ensures written: \result == U16550_OK ==> \initialized(count);
*/
int (u16550_ring_clear_transmit)(struct u16550 *uart, size_t *count);

/*@
  ensures returns: U16550_OTHER_LAYOUT <= \result <= U16550_OK;
  ensures misuse: \result < U16550_OK ==> uart_was_reached == \old(uart_was_reached);
  ensures written: \result == U16550_OK ==> \initialized(count);
*/
int (u16550_ring_clear_receive)(struct u16550 *uart, size_t *count);

/*@
  ensures returns: U16550_OTHER_LAYOUT <= \result <= U16550_OK;
  ensures misuse: \result < U16550_OK ==> uart_was_reached == \old(uart_was_reached);
*/
int (u16550_ring_set_low_mark)(struct u16550 *uart, size_t mark);

/*@
  ensures returns: U16550_OTHER_LAYOUT <= \result <= U16550_OK;
  ensures misuse: \result < U16550_OK ==> uart_was_reached == \old(uart_was_reached);
  ensures written: \result == U16550_OK ==> \initialized(low);
  ensures flag: \result == U16550_OK ==> *low == 0 || *low == 1;
*/
int (u16550_ring_take_low)(struct u16550 *uart, uint8_t *low);

/*@
  ensures returns: U16550_OTHER_LAYOUT <= \result <= U16550_OK;
  ensures misuse: \result < U16550_OK ==> uart_was_reached == \old(uart_was_reached);
  ensures written: \result == U16550_OK ==> \initialized(count);
*/
int (u16550_ring_take)(struct u16550 *uart, uint8_t *buffer, size_t len, size_t *count);

/*@
  ensures returns: U16550_OTHER_LAYOUT <= \result <= U16550_OK || \result == U16550_RING_BAD_CAPACITY;
  ensures misuse: \result < U16550_OK ==> uart_was_reached == \old(uart_was_reached);
*/
int (u16550_note_errors)(struct u16550 *uart, struct u16550_notes *notes, uint8_t *memory,
    size_t capacity);

/*@
  ensures returns: U16550_OTHER_LAYOUT <= \result <= U16550_OK;
  ensures misuse: \result < U16550_OK ==> uart_was_reached == \old(uart_was_reached);
*/
int (u16550_end_notes)(struct u16550 *uart);

/*@
  ensures returns: U16550_OTHER_LAYOUT <= \result <= U16550_OK || \result == U16550_RING_UNNOTED;
  ensures misuse: \result < U16550_OK ==> uart_was_reached == \old(uart_was_reached);
  ensures written: \result == U16550_OK ==> \initialized(count);
*/
int (u16550_ring_take_with_errors)(struct u16550 *uart, struct u16550_received *received,
    size_t len, size_t *count);

/*@
  ensures returns: U16550_OTHER_LAYOUT <= \result <= U16550_OK;
  ensures misuse: \result < U16550_OK ==> uart_was_reached == \old(uart_was_reached);
*/
int (u16550_ring_adjust_rts)(struct u16550 *uart, size_t hold, size_t release);

/*@
  ensures returns: U16550_OTHER_LAYOUT <= \result <= U16550_OK;
  ensures misuse: \result < U16550_OK ==> uart_was_reached == \old(uart_was_reached);
*/
int (u16550_ring_adjust_xoff)(struct u16550 *uart, size_t hold, size_t release,
    struct u16550_urgent *told);

/*@
  ensures returns: U16550_OTHER_LAYOUT <= \result <= U16550_OK;
  ensures misuse: \result < U16550_OK ==> uart_was_reached == \old(uart_was_reached);
*/
int (u16550_ring_obey_xoff)(struct u16550 *uart, struct u16550_urgent *told);

/*@
  ensures returns: U16550_OTHER_LAYOUT <= \result <= U16550_OK;
  ensures misuse: \result < U16550_OK ==> uart_was_reached == \old(uart_was_reached);
*/
int (u16550_ring_resume_transmit)(struct u16550 *uart);

/*@
  ensures returns: U16550_OTHER_LAYOUT <= \result <= U16550_OK;
  ensures misuse: \result < U16550_OK ==> uart_was_reached == \old(uart_was_reached);
*/
int (u16550_ring_handle)(struct u16550 *uart, size_t limit, struct u16550_handled *handled);

/*@
  ensures returns: U16550_OTHER_LAYOUT <= \result <= U16550_OK || \result == U16550_RING_STUCK_UNKNOWN
    || \result == U16550_RING_STUCK_PENDING;
  ensures misuse: \result < U16550_OK ==> uart_was_reached == \old(uart_was_reached);
*/
int (u16550_ring_try_handle)(struct u16550 *uart, size_t limit, uint32_t rounds,
    struct u16550_handled *handled);

/*@
  ensures returns: U16550_OTHER_LAYOUT <= \result <= U16550_OK || \result == U16550_RING_STUCK_UNKNOWN
    || \result == U16550_RING_STUCK_PENDING;
  ensures misuse: \result < U16550_OK ==> uart_was_reached == \old(uart_was_reached);
*/
int (u16550_ring_stuck)(struct u16550 *uart, struct u16550_stuck *stuck);

/*@
  ensures returns: U16550_OTHER_LAYOUT <= \result <= U16550_OK;
  ensures misuse: \result < U16550_OK ==> uart_was_reached == \old(uart_was_reached);
*/
int (u16550_ring_restart)(struct u16550 *uart, uint8_t interrupts);

/*@
  ensures returns: U16550_OTHER_LAYOUT <= \result <= U16550_OK;
  ensures misuse: \result < U16550_OK ==> uart_was_reached == \old(uart_was_reached);
*/
int (u16550_ring_retrigger)(struct u16550 *uart);

/*@
  ensures returns: U16550_OTHER_LAYOUT <= \result <= U16550_OK;
  ensures misuse: \result < U16550_OK ==> uart_was_reached == \old(uart_was_reached);
  ensures written: \result == U16550_OK ==> \initialized(count);
*/
int (u16550_ring_service)(struct u16550 *uart, size_t *count);

/*@
  ensures returns: U16550_OTHER_LAYOUT <= \result <= U16550_OK;
  ensures misuse: \result < U16550_OK ==> uart_was_reached == \old(uart_was_reached);
  ensures written: \result == U16550_OK ==> \initialized(served);
*/
int (u16550_line_handle)(struct u16550_line_port *ports, size_t count, size_t limit,
    uint32_t rounds, uint8_t *served);

/*@
  ensures returns: U16550_OTHER_LAYOUT <= \result <= U16550_OK;
  ensures misuse: \result < U16550_OK ==> uart_was_reached == \old(uart_was_reached);
  ensures written: \result == U16550_OK ==> \initialized(lsr);
*/
int (u16550_ring_take_line)(struct u16550 *uart, uint8_t *lsr);

/*@
  ensures returns: U16550_OTHER_LAYOUT <= \result <= U16550_OK;
  ensures misuse: \result < U16550_OK ==> uart_was_reached == \old(uart_was_reached);
  ensures written: \result == U16550_OK ==> \initialized(msr);
*/
int (u16550_ring_take_modem)(struct u16550 *uart, uint8_t *msr);

/*@
  ensures returns: U16550_OTHER_LAYOUT <= \result <= U16550_OK;
  ensures misuse: \result < U16550_OK ==> uart_was_reached == \old(uart_was_reached);
*/
int (u16550_ring_config_register_dump)(struct u16550 *uart, struct u16550_dump *dump);
