//! Every public call of the crate `uart_16550_chip` once, as a function with a name, over a device
//! whose trigger and output are somewhere else. `panics` compiles it, and follows the calls from here.
#![no_std]
#![allow(missing_docs, clippy::missing_errors_doc)]

use core::fmt::{self, Write as _};
use uart_16550_chip::registers::{LSR, MCR, MSR};
use uart_16550_chip::serial::{BadState, Error, FromStateError, TriggerError};
use uart_16550_chip::{
    Answer, ArrayVec, Character, Chip, ChipData, ChipError, Clock, FifoSize, InputError, LineSettings, LiveChip, LiveChipWith,
    NoEvents, Output, Received, RestoreError, Restored, Serial, SerialState, Todo, Trigger, VirtualPort, VirtualPortWith,
};

unsafe extern "Rust" {
    safe fn device_read(offset: usize) -> u8;
    safe fn device_write(offset: usize, value: u8);
}

/// A line and an output somewhere else.
pub struct Device;

/// Why they fail.
#[derive(Debug)]
pub struct Fault;

impl Trigger for Device {
    type E = Fault;

    fn trigger(&self) -> Result<(), Fault> {
        if device_read(0) == 0 {
            Ok(())
        } else {
            Err(Fault)
        }
    }
}

impl Output for Device {
    type Error = Fault;

    fn write_bytes(&mut self, bytes: &[u8]) -> Result<usize, Fault> {
        bytes.iter().for_each(|byte| device_write(0, *byte));
        if device_read(1) == 0 {
            Ok(device_read(2) as usize)
        } else {
            Err(Fault)
        }
    }
}

type Console = Serial<Device, NoEvents, Device>;
type Failed = Error<Fault, Fault>;

macro_rules! calls {
    ($($name:ident($($arg:ident: $Arg:ty),*) $(-> $Result:ty)? { $call:expr })*) => { $(
        #[unsafe(no_mangle)]
        pub fn $name($($arg: $Arg),*) $(-> $Result)? { $call }
    )* };
}

calls! {
    chip_new(chip: Chip, char_ticks: u16, capacity: usize) -> Result<LiveChip, ChipError> { LiveChip::new(chip, char_ticks, capacity) }
    chip_read(chip: &mut LiveChip, offset: u8) -> u8 { chip.read(offset) }
    chip_write(chip: &mut LiveChip, offset: u8, value: u8) { chip.write(offset, value) }
    chip_sends_at_once(chip: &LiveChip) -> bool { chip.sends_at_once() }
    chip_send_at_once(chip: &mut LiveChip, value: u8) { chip.send_at_once(value) }
    chip_pass_wire(chip: &mut LiveChip) -> bool { chip.pass_wire() }
    chip_raise_thr_empty(chip: &mut LiveChip) { chip.raise_thr_empty() }
    chip_cut(chip: &LiveChip, value: u8) -> u8 { chip.cut(value) }
    chip_read_data(chip: &mut LiveChip) -> u8 { chip.read_data() }
    chip_read_clear_status(chip: &mut LiveChip) -> Option<u8> { chip.read_clear_status() }
    chip_arrive_in_room(chip: &mut LiveChip, byte: u8) -> bool { chip.arrive_in_room(byte) }
    chip_has_interrupts_on(chip: &LiveChip) -> bool { chip.has_interrupts_on() }
    chip_has_input_interrupt_on(chip: &LiveChip) -> bool { chip.has_input_interrupt_on() }
    chip_has_output_interrupt_on(chip: &LiveChip) -> bool { chip.has_output_interrupt_on() }
    chip_interrupts_when_due(chip: &LiveChip, is_thr_pending: bool) -> bool { chip.interrupts_when_due(is_thr_pending) }
    chip_ticks(chip: &mut LiveChip, count: u16) -> usize { chip.ticks(count) }
    chip_arrive(chip: &mut LiveChip, byte: u8, errors: LSR) -> Result<(), InputError> { chip.arrive(byte, errors) }
    chip_arrive_holding_timeout(chip: &mut LiveChip, byte: u8, errors: LSR) -> Result<(), InputError> { chip.arrive_holding_timeout(byte, errors) }
    chip_set_lines(chip: &mut LiveChip, inputs: MSR) -> Result<(), InputError> { chip.set_lines(inputs) }
    chip_is_interrupting(chip: &LiveChip) -> bool { chip.is_interrupting() }
    chip_wire(chip: &LiveChip) -> &[u8] { chip.wire() }
    chip_take_wire(chip: &mut LiveChip, count: usize) { chip.take_wire(count) }
    chip_wire_room(chip: &LiveChip) -> usize { chip.wire_room() }
    chip_receive_room(chip: &LiveChip) -> usize { chip.receive_room() }
    chip_waiting_len(chip: &LiveChip) -> usize { chip.waiting_len() }
    chip_held_len(chip: &LiveChip) -> usize { chip.held_len() }
    chip_is_loopback(chip: &LiveChip) -> bool { chip.is_loopback() }
    chip_is_dlab_set(chip: &LiveChip) -> bool { chip.is_dlab_set() }
    chip_has_fifo_on(chip: &LiveChip) -> bool { chip.has_fifo_on() }
    chip_outputs(chip: &LiveChip) -> MCR { chip.outputs() }
    chip_is_breaking(chip: &LiveChip) -> bool { chip.is_breaking() }
    chip_expire_timeout(chip: &mut LiveChip) { chip.expire_timeout() }
    chip_settle(chip: &mut LiveChip) -> usize { uart_16550_chip::settle(chip) }
    chip_divisor(chip: &LiveChip) -> u16 { chip.divisor() }
    chip_fifo_size(chip: &LiveChipWith<64>) -> FifoSize { chip.fifo_size() }
    chip_overflows(chip: &LiveChip) -> u64 { chip.overflows() }
    chip_data(chip: &LiveChip) -> ChipData { chip.data() }
    chip_from_data(data: &ChipData, wire: &[u8]) -> Result<LiveChip, RestoreError> { LiveChip::from_data(data, wire) }
    character_has_errors(character: &Character) -> bool { character.has_errors() }
    character_error_weight(character: &Character) -> usize { character.error_weight() }
    list_push(list: &mut ArrayVec<u8, 16>, item: u8) { list.push(item) }
    list_as_slice(list: &ArrayVec<u8, 16>) -> &[u8] { list.as_slice() }

    port_new(chip: Chip) -> VirtualPort { VirtualPort::new(chip) }
    port_read(port: &mut VirtualPort, offset: u8) -> Answer { port.read(offset) }
    port_write(port: &mut VirtualPort, offset: u8, value: u8) -> Todo { port.write(offset, value) }
    port_read_clear_status(port: &mut VirtualPort) -> Option<u8> { port.read_clear_status() }
    port_read_polled(port: &mut VirtualPort) -> Option<u8> { port.read_polled() }
    port_passing(port: &VirtualPort, value: u8) -> Option<u8> { port.passing(value) }
    port_pass(port: &mut VirtualPort) -> Option<Todo> { port.pass() }
    port_receive_polled(port: &mut VirtualPort, byte: u8) -> bool { port.receive_polled(byte) }
    port_receive_first(port: &mut VirtualPort, byte: u8) -> Option<Todo> { port.receive_first(byte) }
    port_read_last(port: &mut VirtualPort) -> Option<Answer> { port.read_last() }
    port_read_more(port: &mut VirtualPort) -> Option<Answer> { port.read_more() }
    port_receive(port: &mut VirtualPort, input: &[u8]) -> Received { port.receive(input) }
    port_receive_one(port: &mut VirtualPort, byte: u8, errors: LSR) -> Result<Todo, InputError> { port.receive_one(byte, errors) }
    port_set_lines(port: &mut VirtualPort, inputs: MSR) -> Result<Todo, InputError> { port.set_lines(inputs) }
    port_output(port: &VirtualPort) -> &[u8] { port.output() }
    port_take_output(port: &mut VirtualPort, count: usize) -> Todo { port.take_output(count) }
    port_level(port: &VirtualPort) -> bool { port.level() }
    port_receive_room(port: &VirtualPort) -> usize { port.receive_room() }
    port_chip(port: &VirtualPort) -> &LiveChip { port.chip() }
    port_data(port: &VirtualPort) -> ChipData { port.data() }
    port_try_new(chip: Chip) -> Result<VirtualPortWith<64>, ChipError> { VirtualPortWith::try_new(chip) }
    port_of_64_read(port: &mut VirtualPortWith<64>, offset: u8) -> Answer { port.read(offset) }
    port_of_64_write(port: &mut VirtualPortWith<64>, offset: u8, value: u8) -> Todo { port.write(offset, value) }
    port_of_64_receive(port: &mut VirtualPortWith<64>, input: &[u8]) -> Received { port.receive(input) }
    port_of_64_take_output(port: &mut VirtualPortWith<64>, count: usize) -> Todo { port.take_output(count) }
    port_from_data(data: &ChipData, output: &[u8]) -> Result<Restored, RestoreError> { VirtualPort::from_data(data, output) }
    clock_new() -> Clock { Clock::new() }
    clock_after_read(clock: &mut Clock, offset: u8, todo: &mut Todo) -> bool { clock.after_read(offset, todo) }
    clock_after_write(clock: &mut Clock, offset: u8, todo: &mut Todo) -> bool { clock.after_write(offset, todo) }
    clock_after_host(clock: &mut Clock, todo: Todo) { clock.after_host(todo) }
    clock_pass_time(clock: &mut Clock) -> bool { clock.pass_time() }

    serial_new() -> Console { Serial::new(Device, Device) }
    serial_with_events() -> Console { Serial::with_events(Device, NoEvents, Device) }
    serial_try_with_events() -> Result<Serial<Device, NoEvents, Device, 64>, ChipError> { Serial::try_with_events(Device, NoEvents, Device) }
    serial_is_dlab_set(serial: &Console) -> bool { serial.is_dlab_set() }
    serial_from_state(state: &SerialState) -> Result<Console, FromStateError<Device, NoEvents, Device>> { Serial::from_state(state, Device, NoEvents, Device) }
    serial_state(serial: &Console) -> SerialState { serial.state() }
    serial_default_state() -> SerialState { SerialState::default() }
    state_of_port(port: &VirtualPort) -> SerialState { SerialState::of_port(port) }
    state_of_chip(chip: &LiveChip) -> SerialState { SerialState::of_chip(chip) }
    state_to_bytes(state: &SerialState) -> [u8; SerialState::LEN] { state.to_bytes() }
    state_from_bytes(bytes: &[u8]) -> Result<SerialState, BadState> { SerialState::from_bytes(bytes) }
    serial_into_parts(serial: Console) -> (Device, NoEvents, Device) { serial.into_parts() }
    serial_output(serial: &Console) -> &[u8] { serial.output() }
    serial_level(serial: &Console) -> bool { serial.level() }
    serial_outputs(serial: &Console) -> MCR { serial.outputs() }
    serial_settings(serial: &Console) -> LineSettings { serial.settings() }
    serial_overflows(serial: &Console) -> u64 { serial.overflows() }
    serial_write_output(serial: &mut Console) -> Result<usize, Failed> { serial.write_output() }
    serial_resample(serial: &mut Console) -> Result<(), Failed> { serial.resample() }
    serial_enqueue_with_errors(serial: &mut Console, byte: u8, errors: LSR) -> Result<(), Failed> { serial.enqueue_with_errors(byte, errors) }
    serial_enqueue_break(serial: &mut Console) -> Result<(), Failed> { serial.enqueue_break() }
    serial_interrupt_evt(serial: &Console) -> &Device { serial.interrupt_evt() }
    serial_events(serial: &Console) -> &NoEvents { serial.events() }
    serial_writer(serial: &Console) -> &Device { serial.writer() }
    serial_writer_mut(serial: &mut Console) -> &mut Device { serial.writer_mut() }
    serial_read(serial: &mut Console, offset: u8) -> u8 { serial.read(offset) }
    serial_write(serial: &mut Console, offset: u8, value: u8) -> Result<(), Failed> { serial.write(offset, value) }
    serial_write_bytes(serial: &mut Console, offset: u8, values: &[u8]) -> Result<(), Failed> { serial.write_bytes(offset, values) }
    serial_set_bursts(serial: &mut Console, has_bursts: bool) -> Result<(), Failed> { serial.set_bursts(has_bursts) }
    serial_set_clock(serial: &mut Console, has_clock: bool) -> Result<(), Failed> { serial.set_clock(has_clock) }
    serial_set_handler_drains(serial: &mut Console, drains: bool) -> Result<(), Failed> { serial.set_handler_drains(drains) }
    serial_is_timeout_to_come(serial: &Console) -> bool { serial.is_timeout_to_come() }
    serial_timeout_passed(serial: &mut Console) -> Result<(), Failed> { serial.timeout_passed() }
    serial_fifo_capacity(serial: &Console) -> usize { serial.fifo_capacity() }
    serial_enqueue(serial: &mut Console, input: &[u8]) -> Result<usize, Failed> { serial.enqueue_raw_bytes(input) }
    serial_set_lines(serial: &mut Console, inputs: MSR) -> Result<(), Failed> { serial.set_lines(inputs) }
}

/// Texts are written to something else.
pub struct Text;

impl fmt::Write for Text {
    fn write_str(&mut self, text: &str) -> fmt::Result {
        text.bytes().for_each(|byte| device_write(0, byte));
        Ok(())
    }
}

macro_rules! texts {
    ($($name:ident: $Type:ty;)*) => { $(
        #[unsafe(no_mangle)]
        pub fn $name(value: &$Type) -> fmt::Result { write!(Text, "{value} {value:?}") }
    )* };
}

texts! {
    text_of_chip: ChipError;
    text_of_input: InputError;
    text_of_restore: RestoreError;
    text_of_serial: Error<InputError, InputError>;
    text_of_from_state: FromStateError<Device, NoEvents, Device>;
    text_of_bad_state: BadState;
    text_of_trigger: TriggerError<InputError>;
}
