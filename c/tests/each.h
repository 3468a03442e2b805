/*
 * Each call over a driver, and each over a configuration alone, with what it takes: those that are no more than a row of the table of the
 * interface. What is in the layer by hand is missing.
 *
 * A test says what each word in capitals stands for, and what is done with a call of the driver, with one of its rings, and with one of a
 * configuration.
 *
 * Made by tools/c/emit. Do not edit.
 */
#define EACH_CALL(PLAIN, RING)                                                                                 \
    PLAIN(u16550_get_config, DRIVER, CONFIG_AT)                                                                \
    PLAIN(u16550_get_state, DRIVER, STATE_AT)                                                                  \
    PLAIN(u16550_fifo_enabled, DRIVER, BYTE_AT)                                                                \
    PLAIN(u16550_spin_limit, DRIVER, NUMBER_AT)                                                                \
    PLAIN(u16550_set_spin_limit, DRIVER, SPIN_LIMIT)                                                           \
    PLAIN(u16550_fifo_size, DRIVER, SHORT_AT)                                                                  \
    PLAIN(u16550_set_fifo_size, DRIVER, FIFO_SIZE)                                                             \
    PLAIN(u16550_check_present, DRIVER, BYTE_AT)                                                               \
    PLAIN(u16550_init, DRIVER, CONFIG)                                                                         \
    PLAIN(u16550_init_with, DRIVER, CONFIG, SETUP)                                                             \
    PLAIN(u16550_find_fifo_size, DRIVER, SHORT_AT)                                                             \
    PLAIN(u16550_enable_64_byte_fifos, DRIVER, BYTE_AT)                                                        \
    PLAIN(u16550_check_connected, DRIVER)                                                                      \
    PLAIN(u16550_set_frame, DRIVER, CONFIG)                                                                    \
    PLAIN(u16550_set_frame_when_idle, DRIVER, CONFIG)                                                          \
    PLAIN(u16550_set_trigger_level, DRIVER, CHARACTERS)                                                        \
    PLAIN(u16550_quiesce, DRIVER, OUTPUTS, FIFOS)                                                              \
    PLAIN(u16550_restore, DRIVER, DUMP)                                                                        \
    PLAIN(u16550_attach, DRIVER, BYTE_AT, OTHER_BYTE_AT)                                                       \
    PLAIN(u16550_set_modem_control, DRIVER, OUTPUTS)                                                           \
    PLAIN(u16550_set_rts, DRIVER, ON)                                                                          \
    PLAIN(u16550_set_dtr, DRIVER, ON)                                                                          \
    PLAIN(u16550_set_break, DRIVER, ON)                                                                        \
    PLAIN(u16550_ready_to_receive, DRIVER)                                                                     \
    PLAIN(u16550_ready_to_send, DRIVER)                                                                        \
    PLAIN(u16550_try_receive_byte, DRIVER, BYTE_AT)                                                            \
    PLAIN(u16550_try_send_byte, DRIVER, BYTE)                                                                  \
    PLAIN(u16550_receive_bytes, DRIVER, BUFFER, LEN, SIZE_AT)                                                  \
    PLAIN(u16550_send_bytes, DRIVER, BUFFER, LEN, SIZE_AT)                                                     \
    PLAIN(u16550_send_burst, DRIVER, BUFFER, LEN, FIFO_SIZE, SIZE_AT)                                          \
    PLAIN(u16550_send_gathered, DRIVER, URGENT, FIRST, FIRST_LEN, SECOND, SECOND_LEN, SIZE_AT)                 \
    PLAIN(u16550_try_receive_with_errors, DRIVER, RECEIVED_AT)                                                 \
    PLAIN(u16550_receive_with_errors, DRIVER, RECEIVED_AT, LEN, SIZE_AT)                                       \
    PLAIN(u16550_receive_bytes_exact, DRIVER, BUFFER, LEN, SIZE_AT)                                            \
    PLAIN(u16550_send_bytes_exact, DRIVER, BUFFER, LEN, SIZE_AT)                                               \
    PLAIN(u16550_receive_bytes_while, DRIVER, BUFFER, LEN, KEEP_WAITING, CONTEXT, SIZE_AT)                     \
    PLAIN(u16550_send_bytes_while, DRIVER, BUFFER, LEN, KEEP_WAITING, CONTEXT, SIZE_AT)                        \
    PLAIN(u16550_flush_while, DRIVER, KEEP_WAITING, CONTEXT)                                                   \
    PLAIN(u16550_read, DRIVER, BUFFER, LEN, SIZE_AT)                                                           \
    PLAIN(u16550_write, DRIVER, BUFFER, LEN, SIZE_AT)                                                          \
    PLAIN(u16550_flush, DRIVER)                                                                                \
    PLAIN(u16550_read_ready, DRIVER, BYTE_AT)                                                                  \
    PLAIN(u16550_write_ready, DRIVER, BYTE_AT)                                                                 \
    PLAIN(u16550_is_idle, DRIVER, BYTE_AT)                                                                     \
    PLAIN(u16550_is_gone, DRIVER, BYTE_AT)                                                                     \
    PLAIN(u16550_ier, DRIVER, BYTE_AT)                                                                         \
    PLAIN(u16550_isr, DRIVER, BYTE_AT)                                                                         \
    PLAIN(u16550_lcr, DRIVER, BYTE_AT)                                                                         \
    PLAIN(u16550_mcr, DRIVER, BYTE_AT)                                                                         \
    PLAIN(u16550_lsr, DRIVER, BYTE_AT)                                                                         \
    PLAIN(u16550_msr, DRIVER, BYTE_AT)                                                                         \
    PLAIN(u16550_spr, DRIVER, BYTE_AT)                                                                         \
    PLAIN(u16550_dll_dlm, DRIVER, BYTE_AT, OTHER_BYTE_AT)                                                      \
    PLAIN(u16550_peek_modem, DRIVER, BYTE_AT)                                                                  \
    PLAIN(u16550_enable_interrupts, DRIVER, INTERRUPTS)                                                        \
    PLAIN(u16550_disable_interrupts, DRIVER, INTERRUPTS)                                                       \
    PLAIN(u16550_retrigger_interrupts, DRIVER)                                                                 \
    PLAIN(u16550_config_register_dump, DRIVER, DUMP_AT)                                                        \
    RING(u16550_ring_transmit_len, DRIVER, SIZE_AT)                                                            \
    RING(u16550_ring_receive_len, DRIVER, SIZE_AT)                                                             \
    RING(u16550_ring_is_paused, DRIVER, BYTE_AT)                                                               \
    RING(u16550_ring_queue, DRIVER, BUFFER, LEN, SIZE_AT)                                                      \
    RING(u16550_ring_transmit_room, DRIVER, SIZE_AT)                                                           \
    RING(u16550_ring_hold_transmit, DRIVER)                                                                    \
    RING(u16550_ring_release_transmit, DRIVER)                                                                 \
    RING(u16550_ring_is_held, DRIVER, BYTE_AT)                                                                 \
    RING(u16550_ring_queue_urgent, DRIVER, BYTE, URGENT_AT)                                                    \
    RING(u16550_ring_urgent, DRIVER, URGENT_AT)                                                                \
    RING(u16550_ring_clear_transmit, DRIVER, SIZE_AT)                                                          \
    RING(u16550_ring_clear_receive, DRIVER, SIZE_AT)                                                           \
    RING(u16550_ring_set_low_mark, DRIVER, MARK)                                                               \
    RING(u16550_ring_take_low, DRIVER, BYTE_AT)                                                                \
    RING(u16550_ring_take, DRIVER, BUFFER, LEN, SIZE_AT)                                                       \
    RING(u16550_ring_adjust_rts, DRIVER, HOLD, RELEASE)                                                        \
    RING(u16550_ring_adjust_xoff, DRIVER, HOLD, RELEASE, URGENT_AT)                                            \
    RING(u16550_ring_obey_xoff, DRIVER, URGENT_AT)                                                             \
    RING(u16550_ring_resume_transmit, DRIVER)                                                                  \
    RING(u16550_ring_handle, DRIVER, LIMIT, HANDLED_AT)                                                        \
    RING(u16550_ring_try_handle, DRIVER, LIMIT, ROUNDS, HANDLED_AT)                                            \
    RING(u16550_ring_restart, DRIVER, INTERRUPTS)                                                              \
    RING(u16550_ring_retrigger, DRIVER)                                                                        \
    RING(u16550_ring_service, DRIVER, SIZE_AT)                                                                 \
    RING(u16550_ring_take_line, DRIVER, BYTE_AT)                                                               \
    RING(u16550_ring_take_modem, DRIVER, BYTE_AT)                                                              \
    RING(u16550_ring_config_register_dump, DRIVER, DUMP_AT)

#define EACH_OF_CONFIG(OF_CONFIG)                                                                              \
    OF_CONFIG(u16550_character_clocks, CONFIG, NUMBER_AT)                                                      \
    OF_CONFIG(u16550_handler_budget, CONFIG, FIFO_SIZE, ACCESS_CLOCKS, BEFORE_CLOCKS, NUMBER_AT)               \
    OF_CONFIG(u16550_characters_in, CONFIG, CLOCKS, NUMBER_AT)                                                 \
    OF_CONFIG(u16550_drain_clocks, CONFIG, FIFO_SIZE, NUMBER_AT)                                               \
    OF_CONFIG(u16550_timeout_clocks, CONFIG, NUMBER_AT)                                                        \
    OF_CONFIG(u16550_spin_limit_for, CONFIG, FIFO_SIZE, ACCESS_CLOCKS, NUMBER_AT)                              \
    OF_CONFIG(u16550_nanoseconds_within, CONFIG, CLOCKS, NUMBER_AT)                                            \
    OF_CONFIG(u16550_nanoseconds_covering, CONFIG, CLOCKS, NUMBER_AT)                                          \
    OF_CONFIG(u16550_clocks_within, CONFIG, NANOSECONDS, NUMBER_AT)                                            \
    OF_CONFIG(u16550_clocks_covering, CONFIG, NANOSECONDS, NUMBER_AT)
