//! Every public call of the crate once, as a function with a name, over a backend that is somewhere
//! else. `panics` compiles it, and follows the calls from here.
#![no_std]
#![allow(missing_docs, clippy::missing_errors_doc)]

use core::fmt::{self, Write as _};
use core::num::{NonZeroU64, NonZeroUsize};
use core::time::Duration;
use uart_16550::Flags;
use uart_16550::discovery::{self, OptionError, PciError, PortDescription, TableError, TreeError, TreePort, UnknownClockError};
use uart_16550::native::backend::{
    self, Backend, ByteAccess, ByteOrder, InvalidLayoutError, MmioBackend, PioBackend, PortAccess,
    DesignWare, DesignWareFault, DesignWareMemory, DesignWareRegisters, RegisterLayout, RegisterWidth, VolatileMemory, WideMemory,
};
use uart_16550::native::embedded_io::{Read, ReadReady, Write, WriteReady};
use uart_16550::native::{
    AttachError, BaudRate, ByteReceiveError, ByteSendError, Config, ConfigRegisterDump,
    ConfigurationError, FifoAction, FifoSize, FifoSizeError, FifosOffError, FrameError, Setup, DriverState, InitError, InvalidAddressError, InvalidDivisorError, LoopbackError,
    NearestDivisorError, NonIntegerBaudRateError, NonIntegerDivisorError, Received,
    RemoteReadyToReceiveError, StalledError, Uart16550, Uart16550Tty, Uart16550TtyError, WaitEnd, WaitError,
};
use core::task::{Context, Poll};
use uart_16550::emergency::EmergencyConsole;
use uart_16550::ring::{
    ErrorNotes, Global, Handled, LinePort, LinePorts, Lowered, Memory, ReceiveMarks, Refused, RingError, StuckError, Uart16550Ring, UnnotedError,
};
use uart_16550::rs485::{BusyError, Direction, EchoError, HalfDuplex, HalfDuplexRing, NotSendingError, SendError};
use uart_16550::shared::{CriticalSection, PortOfLine, Shared, SharedBus, SharedError, SharedLine, StartError, Unfinished, Wait};
use uart_16550::spec::registers::{
    DLL, DLM, FCR, FifoTriggerLevel, IER, ISR, InterruptType, LCR, LSR, MCR, MSR, PSD, Parity, SPR,
    WordLength,
};

unsafe extern "Rust" {
    safe fn device_read(offset: usize) -> u8;
    safe fn device_write(offset: usize, value: u8);
}

/// A device somewhere else.
pub struct Device;

impl Backend for Device {
    fn read(&mut self, register_offset: u8) -> u8 {
        device_read(register_offset.into())
    }

    fn write(&mut self, register_offset: u8, value: u8) {
        device_write(register_offset.into(), value);
    }
}

/// A section, as that of a kernel whose interrupts are masked already.
pub struct Section;

impl CriticalSection for Section {
    fn run<R>(&self, call: impl FnOnce() -> R) -> R {
        call()
    }
}

type Port = Shared<Section, Device>;
type Bus = SharedBus<Section, Device>;
type Line = SharedLine<Section, Device, 4>;
type OfLine<'a> = PortOfLine<'a, Section, Device, 4>;

/// A line with one port.
pub struct One(LinePort<Device>);

impl LinePorts for One {
    fn number(&self) -> usize {
        1
    }

    fn lower(&mut self, _port: usize, limit: usize, rounds: u32) -> bool {
        self.0.lower(limit, rounds)
    }

    fn raise(&mut self, _port: usize) {
        self.0.raise();
    }
}

/// A thread that does not wait.
struct Once;

impl Wait for Once {
    fn wait(&mut self, _is_there: impl FnMut() -> bool) -> bool {
        false
    }
}

fn take_over(device: Device, patience: NonZeroU64) -> Result<EmergencyConsole<Device>, AttachError> {
    // SAFETY: the device is somewhere else, and nothing else accesses it.
    unsafe { EmergencyConsole::take_over(device, patience) }
}

fn send_queued(console: &mut EmergencyConsole<Device>, port: &Port) -> Result<(), StalledError> {
    // SAFETY: none of this is called.
    unsafe { console.send_queued(port) }
}

impl PortAccess for Device {
    fn port_in(&mut self, port: u16) -> u8 {
        device_read(port.into())
    }

    fn port_out(&mut self, port: u16, value: u8) {
        device_write(port.into(), value);
    }
}

impl ByteAccess for Device {
    fn load(&mut self, address: usize) -> u8 {
        device_read(address)
    }

    fn store(&mut self, address: usize, value: u8) {
        device_write(address, value);
    }
}

type Uart = Uart16550<Device>;
type Tty = Uart16550Tty<Device>;
type Ring = Uart16550Ring<Device>;
type NotingRing = Uart16550Ring<ErrorNotes<Device>>;
type NotingPort = Shared<Section, ErrorNotes<Device>>;

macro_rules! calls {
    ($($name:ident($($arg:ident: $Arg:ty),*) $(-> $Result:ty)? { $call:expr })*) => { $(
        #[unsafe(no_mangle)]
        pub fn $name($($arg: $Arg),*) $(-> $Result)? { $call }
    )* };
}

calls! {
    uart_new_with_backend() -> Uart { Uart::new_with_backend(Device) }
    uart_new_port(base: u16) -> Result<Uart16550<PioBackend<Device>>, InvalidAddressError> { Uart16550::new_port(base, Device) }
    uart_new_mmio(base: NonZeroUsize, stride: u8) -> Result<Uart16550<MmioBackend<Device>>, InvalidAddressError> { Uart16550::new_mmio(base, stride, Device) }
    uart_new_mmio_from_address(base: NonZeroUsize, stride: u8) -> Result<Uart16550<MmioBackend<Device>>, InvalidAddressError> { Uart16550::new_mmio_from_address(base, stride, Device) }
    uart_from_state(state: &DriverState) -> Uart { Uart::from_state(Device, state) }
    state_new() -> DriverState { DriverState::new() }
    uart_backend(uart: &Uart) -> &Device { uart.backend() }
    uart_backend_mut(uart: &mut Uart) -> &mut Device { uart.backend_mut() }
    uart_config(uart: &Uart) -> &Config { uart.config() }
    uart_fifo_enabled(uart: &Uart) -> bool { uart.fifo_enabled() }
    uart_fifo_size(uart: &Uart) -> FifoSize { uart.fifo_size() }
    uart_set_fifo_size(uart: &mut Uart, size: FifoSize) { uart.set_fifo_size(size) }
    uart_spin_limit(uart: &Uart) -> NonZeroU64 { uart.spin_limit() }
    uart_set_spin_limit(uart: &mut Uart, limit: NonZeroU64) { uart.set_spin_limit(limit) }
    size_characters(size: FifoSize) -> usize { size.characters() }
    level_characters(level: FifoTriggerLevel, size: FifoSize) -> usize { level.characters(size) }
    size_largest_up_to(characters: usize) -> Option<FifoSize> { FifoSize::largest_up_to(characters) }
    design_ware_fifo_size_of(cpr: u32) -> Option<FifoSize> { backend::fifo_size_of(cpr) }
    uart_receive_bytes_while(uart: &mut Uart, buffer: &mut [u8]) -> Result<(), WaitError> { uart.receive_bytes_while(buffer, &mut || device_read(8) != 0) }
    uart_flush_while(uart: &mut Uart) -> Result<(), WaitError> { uart.flush_while(&mut || device_read(8) != 0) }
    uart_send_bytes_while(uart: &mut Uart, bytes: &[u8]) -> Result<(), WaitError> { uart.send_bytes_while(bytes, &mut || device_read(8) != 0) }

    io_read(uart: &mut Uart, buffer: &mut [u8]) -> Result<usize, StalledError> { Read::read(uart, buffer) }
    io_write(uart: &mut Uart, buffer: &[u8]) -> Result<usize, StalledError> { Write::write(uart, buffer) }
    io_flush(uart: &mut Uart) -> Result<(), StalledError> { Write::flush(uart) }
    io_read_ready(uart: &mut Uart) -> Result<bool, StalledError> { uart.read_ready() }
    io_write_ready(uart: &mut Uart) -> Result<bool, StalledError> { uart.write_ready() }

    tty_new_with_backend(config: Config) -> Result<Tty, Uart16550TtyError> { Tty::new_with_backend(Device, config) }
    tty_new_port(base: u16, config: Config) -> Result<Uart16550Tty<PioBackend<Device>>, Uart16550TtyError> { Uart16550Tty::new_port(base, Device, config) }
    tty_new_mmio(base: NonZeroUsize, stride: u8, config: Config) -> Result<Uart16550Tty<MmioBackend<Device>>, Uart16550TtyError> { Uart16550Tty::new_mmio(base, stride, Device, config) }
    tty_new_mmio_from_address(base: NonZeroUsize, stride: u8, config: Config) -> Result<Uart16550Tty<MmioBackend<Device>>, Uart16550TtyError> { Uart16550Tty::new_mmio_from_address(base, stride, Device, config) }
    tty_from_inner(uart: Uart) -> Tty { Tty::from_inner(uart) }
    tty_inner(tty: &Tty) -> &Uart { tty.inner() }
    tty_inner_mut(tty: &mut Tty) -> &mut Uart { tty.inner_mut() }
    tty_write_text(tty: &mut Tty, text: &str) -> Result<(), StalledError> { tty.write_text(text) }
    tty_write_raw_text(tty: &mut Tty, text: &[u8]) -> Result<(), StalledError> { tty.write_raw_text(text) }
    tty_write_str(tty: &mut Tty, text: &str) -> fmt::Result { tty.write_str(text) }

    pio_read(backend: &mut PioBackend<Device>, offset: u8) -> u8 { backend.read(offset) }
    pio_write(backend: &mut PioBackend<Device>, offset: u8, value: u8) { backend.write(offset, value) }
    pio_base(backend: &PioBackend<Device>) -> u16 { backend.base() }
    pio_access(backend: &PioBackend<Device>) -> &Device { backend.access() }
    pio_access_mut(backend: &mut PioBackend<Device>) -> &mut Device { backend.access_mut() }
    mmio_read(backend: &mut MmioBackend<Device>, offset: u8) -> u8 { backend.read(offset) }
    mmio_write(backend: &mut MmioBackend<Device>, offset: u8, value: u8) { backend.write(offset, value) }
    mmio_base(backend: &MmioBackend<Device>) -> NonZeroUsize { backend.base() }
    mmio_stride(backend: &MmioBackend<Device>) -> u8 { backend.stride().get() }
    mmio_access(backend: &MmioBackend<Device>) -> &Device { backend.access() }
    mmio_access_mut(backend: &mut MmioBackend<Device>) -> &mut Device { backend.access_mut() }
    // SAFETY: these are only compiled.
    volatile_new(base: core::ptr::NonNull<u8>, stride: u8) -> Result<VolatileMemory, InvalidAddressError> { unsafe { VolatileMemory::new(base, stride) } }
    volatile_from_address(base: NonZeroUsize, stride: u8) -> Result<VolatileMemory, InvalidAddressError> { unsafe { VolatileMemory::from_address(base, stride) } }
    volatile_read(backend: &mut VolatileMemory, offset: u8) -> u8 { backend.read(offset) }
    volatile_write(backend: &mut VolatileMemory, offset: u8, value: u8) { backend.write(offset, value) }
    volatile_base(backend: &VolatileMemory) -> core::ptr::NonNull<u8> { backend.base() }
    volatile_stride(backend: &VolatileMemory) -> u8 { backend.stride().get() }
    volatile_init(uart: &mut Uart16550<VolatileMemory>, config: Config) -> Result<(), InitError> { uart.checked_init(config) }
    volatile_test_loopback(uart: &mut Uart16550<VolatileMemory>) -> Result<(), LoopbackError> { uart.test_loopback() }
    volatile_send_bytes_exact(uart: &mut Uart16550<VolatileMemory>, bytes: &[u8]) -> Result<(), StalledError> { uart.send_bytes_exact(bytes) }
    volatile_receive_bytes_exact(uart: &mut Uart16550<VolatileMemory>, buffer: &mut [u8]) -> Result<(), StalledError> { uart.receive_bytes_exact(buffer) }
    wide_new(base: core::ptr::NonNull<u8>, layout: RegisterLayout) -> Result<WideMemory, InvalidLayoutError> { unsafe { WideMemory::new(base, layout) } }
    wide_from_address(base: NonZeroUsize, layout: RegisterLayout) -> Result<WideMemory, InvalidLayoutError> { unsafe { WideMemory::from_address(base, layout) } }
    design_ware_new(base: core::ptr::NonNull<u8>, layout: RegisterLayout, patience: NonZeroU64) -> Result<DesignWare<DesignWareMemory>, InvalidLayoutError> { Ok(DesignWare::new(unsafe { DesignWareMemory::new(base, layout) }?, patience)) }
    design_ware_from_address(base: NonZeroUsize, layout: RegisterLayout) -> Result<DesignWareMemory, InvalidLayoutError> { unsafe { DesignWareMemory::from_address(base, layout) } }
    design_ware_read(backend: &mut DesignWare<DesignWareMemory>, offset: u8) -> u8 { backend.read(offset) }
    design_ware_write(backend: &mut DesignWare<DesignWareMemory>, offset: u8, value: u8) { backend.write(offset, value) }
    design_ware_read_usr(registers: &mut DesignWareMemory) -> u8 { registers.read_usr() }
    design_ware_fault(backend: &DesignWare<DesignWareMemory>) -> Option<DesignWareFault> { backend.fault() }
    design_ware_registers_mut(backend: &mut DesignWare<DesignWareMemory>) -> &mut DesignWareMemory { backend.registers_mut() }
    design_ware_init(uart: &mut Uart16550<DesignWare<DesignWareMemory>>, config: Config) -> Result<(), InitError> { uart.checked_init(config) }
    direction_receiving(direction: Direction, outputs: MCR) -> MCR { direction.receiving(outputs) }
    half_duplex_new(uart: Uart16550<Device>, direction: Direction) -> Result<HalfDuplex<Device>, Refused<Uart16550<Device>, BusyError>> { HalfDuplex::new(uart, direction) }
    half_duplex_start_sending(bus: &mut HalfDuplex<Device>) { bus.start_sending() }
    half_duplex_try_finish(bus: &mut HalfDuplex<Device>) -> Result<(), BusyError> { bus.try_finish() }
    half_duplex_give_up(bus: HalfDuplex<Device>) -> (Uart16550<Device>, LSR) { bus.give_up() }
    half_duplex_is_idle(bus: &mut HalfDuplex<Device>) -> bool { bus.is_idle() }
    half_duplex_flush(bus: &mut HalfDuplex<Device>) -> Result<(), StalledError> { bus.flush() }
    half_duplex_is_sending(bus: &HalfDuplex<Device>) -> bool { bus.is_sending() }
    half_duplex_direction(bus: &HalfDuplex<Device>) -> Direction { bus.direction() }
    half_duplex_inner(bus: &HalfDuplex<Device>) -> &Uart16550<Device> { bus.inner() }
    half_duplex_into_inner(bus: HalfDuplex<Device>) -> Uart16550<Device> { bus.into_inner() }
    half_duplex_send_bytes(bus: &mut HalfDuplex<Device>, bytes: &[u8]) -> Result<usize, NotSendingError> { bus.send_bytes(bytes) }
    half_duplex_send_bytes_exact(bus: &mut HalfDuplex<Device>, bytes: &[u8]) -> Result<(), SendError> { bus.send_bytes_exact(bytes) }
    half_duplex_receive_bytes(bus: &mut HalfDuplex<Device>, buffer: &mut [u8]) -> usize { bus.receive_bytes(buffer) }
    half_duplex_receive_with_errors(bus: &mut HalfDuplex<Device>, slots: &mut [Received]) -> usize { bus.receive_with_errors(slots) }
    half_duplex_ready_to_receive(bus: &mut HalfDuplex<Device>) -> Result<(), ByteReceiveError> { bus.ready_to_receive() }
    half_duplex_try_receive_byte(bus: &mut HalfDuplex<Device>) -> Result<u8, ByteReceiveError> { bus.try_receive_byte() }
    half_duplex_try_receive_with_errors(bus: &mut HalfDuplex<Device>) -> Result<Received, ByteReceiveError> { bus.try_receive_with_errors() }
    half_duplex_receive_bytes_exact(bus: &mut HalfDuplex<Device>, buffer: &mut [u8]) -> Result<(), StalledError> { bus.receive_bytes_exact(buffer) }
    half_duplex_receive_bytes_while(bus: &mut HalfDuplex<Device>, buffer: &mut [u8]) -> Result<(), WaitError> { bus.receive_bytes_while(buffer, &mut || device_read(8) != 0) }
    half_duplex_receive_echo(bus: &mut HalfDuplex<Device>, sent: &[u8]) -> Result<(), EchoError> { bus.receive_echo(sent) }
    half_duplex_lsr(bus: &mut HalfDuplex<Device>) -> LSR { bus.lsr() }
    half_duplex_ring_new(ring: Ring, direction: Direction) -> Result<HalfDuplexRing<Device>, Refused<Ring, BusyError>> { HalfDuplexRing::new(ring, direction) }
    half_duplex_ring_start_sending(bus: &mut HalfDuplexRing<Device>) { bus.start_sending() }
    half_duplex_ring_try_finish(bus: &mut HalfDuplexRing<Device>) -> Result<(), BusyError> { bus.try_finish() }
    half_duplex_ring_queue(bus: &mut HalfDuplexRing<Device>, bytes: &[u8]) -> Result<usize, NotSendingError> { bus.queue(bytes) }
    half_duplex_ring_handle(bus: &mut HalfDuplexRing<Device>, limit: usize) -> Handled { bus.handle(limit) }
    half_duplex_ring_try_handle(bus: &mut HalfDuplexRing<Device>, limit: usize, rounds: u32) -> Result<Handled, StuckError> { bus.try_handle(limit, rounds) }
    half_duplex_ring_restart(bus: &mut HalfDuplexRing<Device>, interrupts: IER) { bus.restart(interrupts) }
    half_duplex_ring_is_idle(bus: &mut HalfDuplexRing<Device>) -> bool { bus.is_idle() }
    half_duplex_ring_clear_transmit(bus: &mut HalfDuplexRing<Device>) -> usize { bus.clear_transmit() }
    half_duplex_ring_clear_receive(bus: &mut HalfDuplexRing<Device>) -> usize { bus.clear_receive() }
    half_duplex_ring_take_with_errors(bus: &mut HalfDuplexRing<ErrorNotes<Device>>, slots: &mut [Received]) -> Result<usize, UnnotedError> { bus.take_with_errors(slots) }
    half_duplex_ring_give_up(bus: HalfDuplexRing<Device>) -> (Ring, LSR) { bus.give_up() }
    half_duplex_ring_take(bus: &mut HalfDuplexRing<Device>, slots: &mut [u8]) -> usize { bus.take(slots) }
    half_duplex_ring_take_line(bus: &mut HalfDuplexRing<Device>) -> LSR { bus.take_line() }
    half_duplex_ring_is_sending(bus: &HalfDuplexRing<Device>) -> bool { bus.is_sending() }
    half_duplex_ring_inner(bus: &HalfDuplexRing<Device>) -> &Ring { bus.inner() }
    half_duplex_ring_into_inner(bus: HalfDuplexRing<Device>) -> Ring { bus.into_inner() }
    wide_read(backend: &mut WideMemory, offset: u8) -> u8 { backend.read(offset) }
    wide_write(backend: &mut WideMemory, offset: u8, value: u8) { backend.write(offset, value) }
    wide_base(backend: &WideMemory) -> core::ptr::NonNull<u8> { backend.base() }
    wide_layout(backend: &WideMemory) -> RegisterLayout { backend.layout() }
    wide_init(uart: &mut Uart16550<WideMemory>, config: Config) -> Result<(), InitError> { uart.checked_init(config) }
    wide_test_loopback(uart: &mut Uart16550<WideMemory>) -> Result<(), LoopbackError> { uart.test_loopback() }
    wide_send_bytes_exact(uart: &mut Uart16550<WideMemory>, bytes: &[u8]) -> Result<(), StalledError> { uart.send_bytes_exact(bytes) }
    wide_receive_bytes_exact(uart: &mut Uart16550<WideMemory>, buffer: &mut [u8]) -> Result<(), StalledError> { uart.receive_bytes_exact(buffer) }
    load_register(address: *const u8, width: RegisterWidth, byte_order: ByteOrder) -> u8 { unsafe { uart_16550::native::backend::load_register(address, width, byte_order) } }
    store_register(address: *mut u8, width: RegisterWidth, byte_order: ByteOrder, value: u8) { unsafe { uart_16550::native::backend::store_register(address, width, byte_order, value) } }
    width_bytes(width: RegisterWidth) -> u8 { width.bytes() }

    ring_new(memory: Global<'_>, uart: Uart, transmit: usize, receive: usize) -> Result<Ring, Refused<Uart, RingError>> { Ring::new(memory, uart, transmit, receive) }
    ring_memory(bytes: &'static mut [u8]) -> Memory { Memory::new(bytes) }
    ring_global(memory: &Memory) -> Global<'_> { memory.global() }
    ring_into_inner(ring: Ring) -> Uart { ring.into_inner() }
    // panics makes a line of each other call of the driver and the rings here.
    ring_take_with_errors(ring: &mut NotingRing, slots: &mut [Received]) -> Result<usize, UnnotedError> { ring.take_with_errors(slots) }
    ring_copy_with_notes(ring: &Ring, notes: &ErrorNotes<Device>, slots: &mut [Received]) -> Result<usize, UnnotedError> { ring.copy_with_notes(notes, slots) }
    error_notes_new(memory: Global<'_>, backend: Device, capacity: usize) -> Result<ErrorNotes<Device>, Refused<Device, RingError>> { ErrorNotes::new(memory, backend, capacity) }
    error_notes_backend(notes: &ErrorNotes<Device>) -> &Device { notes.backend() }
    error_notes_backend_mut(notes: &mut ErrorNotes<Device>) -> &mut Device { notes.backend_mut() }
    error_notes_read(notes: &mut ErrorNotes<Device>, offset: u8) -> u8 { notes.read(offset) }
    error_notes_write(notes: &mut ErrorNotes<Device>, offset: u8, value: u8) { notes.write(offset, value) }

    line_port_new(ring: Ring) -> LinePort<Device> { LinePort::new(ring) }
    line_port_handled(port: &LinePort<Device>) -> Result<Handled, StuckError> { port.handled() }
    line_port_lower(port: &mut LinePort<Device>, limit: usize, rounds: u32) -> bool { port.lower(limit, rounds) }
    line_port_raise(port: &mut LinePort<Device>) { port.raise() }
    line_handle_line(port: &mut One, limit: usize, rounds: u32) -> bool { uart_16550::ring::handle_line(port, limit, rounds) }
    line_handle_ports(ports: &mut [LinePort<Device>], limit: usize, rounds: u32) -> bool { uart_16550::ring::handle_ports(ports, limit, rounds) }
    line_start(line: &Line, port: usize, memory: Global<'_>, uart: Uart) -> Result<(), Refused<Uart, StartError>> { line.start(port, memory, uart, 64, 64) }
    line_stop(line: &Line, port: usize) -> Result<Ring, SharedError> { line.stop(port) }
    line_handle(line: &Line, limit: usize, rounds: u32) -> Result<bool, SharedError> { line.handle(limit, rounds) }
    line_handled(line: &Line, port: usize) -> Result<Handled, SharedError> { line.handled(port) }
    line_with_port(line: &Line, port: usize) -> Result<usize, SharedError> { line.with_port(port, |ring| ring.transmit_len()) }
    line_port(line: &Line, port: usize) -> OfLine<'_> { line.port(port) }
    port_of_line_with(port: OfLine<'_>) -> Result<usize, SharedError> { port.with(|ring| ring.transmit_len()) }
    port_of_line_poll_read(port: OfLine<'_>, context: &mut Context<'_>, slots: &mut [u8]) -> Poll<Result<usize, SharedError>> { port.poll_read(context, slots) }
    port_of_line_poll_write(port: OfLine<'_>, context: &mut Context<'_>, bytes: &[u8]) -> Poll<Result<usize, SharedError>> { port.poll_write(context, bytes) }
    port_of_line_blocking_read(port: OfLine<'_>, slots: &mut [u8]) -> Result<usize, SharedError> { port.blocking(Once).read(slots) }
    port_of_line_blocking_flush(port: OfLine<'_>) -> Result<(), SharedError> { port.blocking(Once).flush() }

    shared_start(port: &Port, memory: Global<'_>, uart: Uart) -> Result<(), Refused<Uart, StartError>> { port.start(memory, uart, 64, 64) }
    shared_stop(port: &Port) -> Result<Ring, SharedError> { port.stop() }
    shared_try_handle(port: &Port, limit: usize, rounds: u32) -> Result<Handled, SharedError> { port.try_handle(limit, rounds) }
    shared_start_with(port: &Port, rings: Ring) -> Result<(), Refused<Ring, StartError>> { port.start_with(rings) }
    shared_bus_try_handle(bus: &Bus, limit: usize, rounds: u32) -> Result<Handled, SharedError> { bus.try_handle(limit, rounds) }
    shared_bus_with(bus: &Bus) -> Result<usize, SharedError> { bus.with(|bus| bus.inner().transmit_len()) }
    shared_bus_poll_write(bus: &Bus, context: &mut Context<'_>, bytes: &[u8]) -> Poll<Result<usize, SharedError>> { bus.poll_write(context, bytes) }
    shared_with(port: &Port) -> Result<usize, SharedError> { port.with(|ring| ring.transmit_len()) }
    shared_poll_read(port: &Port, context: &mut Context<'_>, slots: &mut [u8]) -> Poll<Result<usize, SharedError>> { port.poll_read(context, slots) }
    shared_poll_write(port: &Port, context: &mut Context<'_>, bytes: &[u8]) -> Poll<Result<usize, SharedError>> { port.poll_write(context, bytes) }
    shared_poll_read_with_errors(port: &NotingPort, context: &mut Context<'_>, slots: &mut [Received]) -> Poll<Result<usize, SharedError>> { port.poll_read_with_errors(context, slots) }
    shared_blocking_read_with_errors(port: &NotingPort, slots: &mut [Received]) -> Result<usize, SharedError> { port.blocking(Once).read_with_errors(slots) }
    shared_blocking_read(port: &Port, slots: &mut [u8]) -> Result<usize, SharedError> { port.blocking(Once).read(slots) }
    shared_blocking_flush(port: &Port) -> Result<(), SharedError> { port.blocking(Once).flush() }
    shared_send_bytes_exact(port: &Port, bytes: &[u8]) -> Result<(), Unfinished> { port.blocking(Once).send_bytes_exact(bytes) }
    shared_receive_bytes_exact(port: &Port, slots: &mut [u8]) -> Result<(), Unfinished> { port.blocking(Once).receive_bytes_exact(slots) }

    emergency_take_over(device: Device, patience: NonZeroU64) -> Result<EmergencyConsole<Device>, AttachError> { take_over(device, patience) }
    emergency_set_frame(console: &mut EmergencyConsole<Device>, config: &Config) -> Result<(), InvalidDivisorError> { console.set_frame(config) }
    emergency_send_bytes(console: &mut EmergencyConsole<Device>, bytes: &[u8]) -> Result<(), StalledError> { console.send_bytes(bytes) }
    emergency_write_raw_text(console: &mut EmergencyConsole<Device>, text: &[u8]) -> Result<(), StalledError> { console.write_raw_text(text) }
    emergency_write_str(console: &mut EmergencyConsole<Device>, text: &str) -> fmt::Result { console.write_str(text) }
    emergency_send_queued(console: &mut EmergencyConsole<Device>, port: &Port) -> Result<(), StalledError> { send_queued(console, port) }
    emergency_flush(console: &mut EmergencyConsole<Device>) -> Result<(), StalledError> { console.flush() }
    emergency_into_inner(console: EmergencyConsole<Device>) -> Uart { console.into_inner() }

    calc_frequency(rate: u32, divisor: u32, factor: Option<u32>) -> u32 { uart_16550::native::spec::calc_frequency(rate, divisor, factor) }
    calc_baud_rate(frequency: u32, divisor: u32, factor: Option<u32>) -> Result<u32, NonIntegerBaudRateError> { uart_16550::native::spec::calc_baud_rate(frequency, divisor, factor) }
    calc_divisor(frequency: u32, rate: u32, factor: Option<u32>) -> Result<u16, InvalidDivisorError> { uart_16550::native::spec::calc_divisor(frequency, rate, factor) }
    checked_frequency(rate: u32, divisor: u32, factor: Option<u32>) -> Option<u32> { uart_16550::native::spec::checked_frequency(rate, divisor, factor) }
    checked_baud_rate(frequency: u32, divisor: u32, factor: Option<u32>) -> Result<u32, NonIntegerBaudRateError> { uart_16550::native::spec::checked_baud_rate(frequency, divisor, factor) }
    checked_divisor(frequency: u32, rate: u32, factor: Option<u32>) -> Result<u16, InvalidDivisorError> { uart_16550::native::spec::checked_divisor(frequency, rate, factor) }
    dump_divisor(dump: &ConfigRegisterDump) -> u16 { dump.divisor() }
    dump_baud_rate(dump: &ConfigRegisterDump, config: &Config) -> Result<BaudRate, NonIntegerBaudRateError> { dump.baud_rate(config) }
    dump_checked_baud_rate(dump: &ConfigRegisterDump, config: &Config) -> Result<BaudRate, NonIntegerBaudRateError> { dump.checked_baud_rate(config) }
    config_is_computable(config: &Config) -> bool { config.is_computable() }
    read_spcr(table: &[u8]) -> Result<PortDescription, TableError> { discovery::read_spcr(table) }
    read_dbg2(table: &[u8]) -> Result<PortDescription, TableError> { discovery::read_dbg2(table) }
    read_earlycon(text: &[u8], native: ByteOrder) -> Result<PortDescription, OptionError> { discovery::read_earlycon(text, native) }
    read_console(text: &[u8], native: ByteOrder) -> Result<PortDescription, OptionError> { discovery::read_console(text, native) }
    read_pci(header: &[u8], port: u8) -> Result<PortDescription, PciError> { discovery::read_pci(header, port) }
    read_device_tree(blob: &[u8], native: ByteOrder) -> Result<PortDescription, TreeError> { discovery::read_device_tree(blob, native) }
    read_tree_node(blob: &[u8], path: &[u8], native: ByteOrder) -> Result<PortDescription, TreeError> { discovery::read_tree_node(blob, path, native) }
    read_tree_port(blob: &[u8], index: usize, native: ByteOrder) -> Result<Option<TreePort>, TreeError> { discovery::read_tree_port(blob, index, native) }
    tree_ports(blob: &[u8], native: ByteOrder) -> usize { discovery::tree_ports(blob, native).count() }
    config_of(port: &PortDescription) -> Result<Config, UnknownClockError> { discovery::config_of(port) }
    keep_settings(uart: &mut Uart, port: &mut PortDescription) -> Result<(), AttachError> { discovery::keep_settings(uart, port) }
    config_character_clocks(config: &Config) -> Result<u64, InvalidDivisorError> { config.character_clocks() }
    config_handler_clocks(config: &Config, size: FifoSize) -> Result<u64, InvalidDivisorError> { config.handler_clocks(size) }
    config_handler_budget(config: &Config, size: FifoSize, access: u64, before: u64) -> Result<Option<u64>, InvalidDivisorError> { config.handler_budget(size, access, before) }
    config_characters_in(config: &Config, clocks: u64) -> Result<u64, InvalidDivisorError> { config.characters_in(clocks) }
    config_drain_clocks(config: &Config, size: FifoSize) -> Result<u64, InvalidDivisorError> { config.drain_clocks(size) }
    config_timeout_clocks(config: &Config) -> Result<u64, InvalidDivisorError> { config.timeout_clocks() }
    config_spin_limit_for(config: &Config, size: FifoSize, access: u64) -> Result<Option<u64>, InvalidDivisorError> { config.spin_limit_for(size, access) }
    config_nanoseconds_within(config: &Config, clocks: u64) -> Option<u64> { config.nanoseconds_within(clocks) }
    config_nanoseconds_covering(config: &Config, clocks: u64) -> Option<u64> { config.nanoseconds_covering(clocks) }
    config_clocks_within(config: &Config, nanoseconds: u64) -> Option<u64> { config.clocks_within(nanoseconds) }
    config_clocks_covering(config: &Config, nanoseconds: u64) -> Option<u64> { config.clocks_covering(nanoseconds) }
    config_duration_within(config: &Config, clocks: u64) -> Option<Duration> { config.duration_within(clocks) }
    config_duration_covering(config: &Config, clocks: u64) -> Option<Duration> { config.duration_covering(clocks) }
    config_clocks_within_duration(config: &Config, duration: Duration) -> Option<u64> { config.clocks_within_duration(duration) }
    config_clocks_covering_duration(config: &Config, duration: Duration) -> Option<u64> { config.clocks_covering_duration(duration) }
    config_nearest(config: Config, per_mille: u32) -> Result<Config, NearestDivisorError> { config.nearest(per_mille) }
    config_checked_nearest(config: Config, per_mille: u32) -> Result<Config, NearestDivisorError> { config.checked_nearest(per_mille) }
    config_cmp(config: &Config, other: &Config) -> core::cmp::Ordering { config.cmp(other) }
    baud_rate_to_integer(rate: BaudRate) -> u32 { rate.to_integer() }
    baud_rate_from_integer(rate: u32) -> BaudRate { BaudRate::from_integer(rate) }
    divisor_number(divisor: uart_16550::spec::registers::Divisor) -> u16 { divisor.number() }
    interrupt_type_priority(interrupt: InterruptType) -> u8 { interrupt.priority() }
    interrupt_type_from_bits(bits: u8) -> Option<InterruptType> { InterruptType::from_bits(bits) }
    interrupt_type_to_bits(interrupt: InterruptType) -> u8 { interrupt.to_bits() }
    isr_interrupt_type(isr: ISR) -> Option<InterruptType> { isr.interrupt_type() }
    isr_has_pending_interrupt(isr: ISR) -> bool { isr.has_pending_interrupt() }
    isr_fifo_enabled(isr: ISR) -> bool { isr.fifo_enabled() }
    fcr_set_fifo_trigger_level(fcr: FCR, level: FifoTriggerLevel) -> FCR { fcr.set_fifo_trigger_level(level) }
    fcr_fifo_trigger_level(fcr: FCR) -> FifoTriggerLevel { fcr.fifo_trigger_level() }
    level_from_raw_bits(bits: u8) -> FifoTriggerLevel { FifoTriggerLevel::from_raw_bits(bits) }
    level_to_raw_bits(level: FifoTriggerLevel) -> u8 { level.to_raw_bits() }
    lcr_word_length(lcr: LCR) -> WordLength { lcr.word_length() }
    lcr_set_word_length(lcr: LCR, length: WordLength) -> LCR { lcr.set_word_length(length) }
    lcr_parity(lcr: LCR) -> Parity { lcr.parity() }
    lcr_set_parity(lcr: LCR, parity: Parity) -> LCR { lcr.set_parity(parity) }
    length_from_integer(bits: u8) -> WordLength { WordLength::from_integer(bits) }
    length_to_integer(length: WordLength) -> u32 { length.to_integer() }
    lsr_has_error(lsr: LSR) -> bool { lsr.has_error() }
    msr_changes_since(msr: MSR, before: MSR) -> MSR { msr.changes_since(before) }
    psd_pdf(psd: PSD) -> u8 { psd.pdf() }
    psd_set_pdf(psd: PSD, factor: u8) -> PSD { psd.set_pdf(factor) }
    psd_checked_set_pdf(psd: PSD, factor: u8) -> Option<PSD> { psd.checked_set_pdf(factor) }

    flags_flag(on: bool, ier: IER) -> IER { uart_16550::spec::registers::flag(on, ier) }
    flags_from_name(name: &str) -> Option<IER> { IER::from_name(name) }
    flags_all() -> IER { <IER as Flags>::all() }
    flags_from_bits(bits: u8) -> Option<IER> { <IER as Flags>::from_bits(bits) }
    flags_complement(ier: IER) -> IER { Flags::complement(ier) }
    flags_truncate(ier: &mut IER) { Flags::truncate(ier) }
    flags_set(ier: &mut IER, other: IER, value: bool) { Flags::set(ier, other, value) }
    flags_iter(ier: IER) -> usize { ier.iter().count() }
    flags_iter_names(ier: IER) -> Option<(&'static str, IER)> { ier.iter_names().last() }
    flags_collect(bits: &[IER]) -> IER { bits.iter().copied().collect() }
}

#[cfg(any(target_arch = "x86", target_arch = "x86_64"))]
mod ports {
    use super::{Backend, Config, InitError, InvalidAddressError, StalledError, Uart16550};
    use uart_16550::native::backend::X86Ports;

    calls! {
        // SAFETY: this is only compiled.
        ports_new(base: u16) -> Result<X86Ports, InvalidAddressError> { unsafe { X86Ports::new(base) } }
        ports_base(backend: &X86Ports) -> u16 { backend.base() }
        ports_read(backend: &mut X86Ports, offset: u8) -> u8 { backend.read(offset) }
        ports_write(backend: &mut X86Ports, offset: u8, value: u8) { backend.write(offset, value) }
        ports_init(uart: &mut Uart16550<X86Ports>, config: Config) -> Result<(), InitError> { uart.checked_init(config) }
        ports_send_bytes_exact(uart: &mut Uart16550<X86Ports>, bytes: &[u8]) -> Result<(), StalledError> { uart.send_bytes_exact(bytes) }
        ports_receive_bytes_exact(uart: &mut Uart16550<X86Ports>, buffer: &mut [u8]) -> Result<(), StalledError> { uart.receive_bytes_exact(buffer) }
    }
}

/// Texts are written to something else.
pub struct Text;

impl fmt::Write for Text {
    fn write_str(&mut self, text: &str) -> fmt::Result {
        text.bytes().for_each(|byte| device_write(0, byte));
        Ok(())
    }
}

macro_rules! texts {
    ($($name:ident: $Type:ty;)*) => { $(
        #[unsafe(no_mangle)]
        pub fn $name(value: &$Type) -> fmt::Result { write!(Text, "{value} {value:?}") }
    )* };
}

texts! {
    text_of_baud_rate: NonIntegerBaudRateError;
    text_of_not_whole: NonIntegerDivisorError;
    text_of_divisor: InvalidDivisorError;
    text_of_address: InvalidAddressError;
    text_of_init: InitError;
    text_of_receive: ByteReceiveError;
    text_of_send: ByteSendError;
    text_of_remote: RemoteReadyToReceiveError;
    text_of_loopback: LoopbackError;
    text_of_stalled: StalledError;
    text_of_wait: WaitError;
    text_of_wait_end: WaitEnd;
    text_of_attach: AttachError;
    text_of_configuration: ConfigurationError;
    text_of_design_ware: DesignWareFault;
    text_of_fifos_off: FifosOffError;
    text_of_frame: FrameError;
    text_of_nearest: NearestDivisorError;
    text_of_tty: Uart16550TtyError;
    text_of_busy: BusyError;
    text_of_not_sending: NotSendingError;
    text_of_at_bus: SendError;
    text_of_echo: EchoError;
    text_of_ring: RingError;
}

macro_rules! debugs {
    ($($name:ident: $Type:ty;)*) => { $(
        #[unsafe(no_mangle)]
        pub fn $name(value: &$Type) -> fmt::Result { write!(Text, "{value:?}") }
    )* };
}

debugs! {
    debug_of_config: Config;
    debug_of_dump: ConfigRegisterDump;
    debug_of_state: DriverState;
    debug_of_uart: Uart16550<VolatileMemory>;
    debug_of_registers: (IER, ISR, FCR, LCR, MCR, LSR, MSR, PSD);
}

/// The signatures of the original.
#[cfg(feature = "compat")]
mod compat {
    use super::{Text, device_read, device_write, fmt};
    use core::fmt::Write as _;
    use core::num::NonZeroUsize;
    use core::ptr::NonNull;
    use uart_16550::compat::backend::{Backend, MmioBackend};
    use uart_16550::compat::spec::{InvalidDivisorError, NonIntegerBaudRateError};
    use uart_16550::compat::{
        BaudRate, Config, ConfigRegisterDump, InitError, InvalidAddressError, LoopbackError,
        Uart16550, Uart16550Tty, Uart16550TtyError,
    };

    pub struct Device;

    impl Backend for Device {
        unsafe fn read(&mut self, register_offset: u8) -> u8 {
            device_read(register_offset.into())
        }

        unsafe fn write(&mut self, register_offset: u8, value: u8) {
            device_write(register_offset.into(), value);
        }
    }

    // SAFETY: all of this is only compiled.
    calls! {
        compat_new_with_backend() -> Uart16550<Device> { unsafe { Uart16550::new_with_backend(Device) } }
        compat_new_mmio(base: NonNull<u8>, stride: u8) -> Result<Uart16550<MmioBackend>, InvalidAddressError> { unsafe { Uart16550::new_mmio(base, stride) } }
        compat_new_mmio_from_address(base: NonZeroUsize, stride: u8) -> Result<Uart16550<MmioBackend>, InvalidAddressError> { unsafe { Uart16550::new_mmio_from_address(base, stride) } }
        compat_init(uart: &mut Uart16550<Device>, config: Config) -> Result<(), InitError> { uart.init(config) }
        compat_test_loopback(uart: &mut Uart16550<Device>) -> Result<(), LoopbackError> { uart.test_loopback() }
        compat_send_bytes_exact(uart: &mut Uart16550<Device>, bytes: &[u8]) { uart.send_bytes_exact(bytes) }
        compat_receive_bytes_exact(uart: &mut Uart16550<Device>, buffer: &mut [u8]) { uart.receive_bytes_exact(buffer) }
        compat_config_register_dump(uart: &mut Uart16550<Device>) -> ConfigRegisterDump { uart.config_register_dump() }
        compat_dump_divisor(dump: &ConfigRegisterDump) -> u16 { dump.divisor() }
        compat_dump_baud_rate(dump: &ConfigRegisterDump, config: &Config) -> BaudRate { dump.baud_rate(config) }
        compat_calc_baud_rate(frequency: u32, divisor: u32, factor: Option<u32>) -> Result<u32, NonIntegerBaudRateError> { uart_16550::compat::spec::calc_baud_rate(frequency, divisor, factor) }
        compat_calc_divisor(frequency: u32, rate: u32, factor: Option<u32>) -> Result<u16, InvalidDivisorError> { uart_16550::compat::spec::calc_divisor(frequency, rate, factor) }
        compat_tty_new_with_backend(config: Config) -> Result<Uart16550Tty<Device>, Uart16550TtyError> { unsafe { Uart16550Tty::new_with_backend(Device, config) } }
        compat_tty_new_mmio(base: NonNull<u8>, stride: u8, config: Config) -> Result<Uart16550Tty<MmioBackend>, Uart16550TtyError> { unsafe { Uart16550Tty::new_mmio(base, stride, config) } }
        compat_tty_from_inner(uart: Uart16550<Device>) -> Uart16550Tty<Device> { Uart16550Tty::from_inner(uart) }
        compat_tty_inner_mut(tty: &mut Uart16550Tty<Device>) -> &mut Uart16550<Device> { tty.inner_mut() }
        compat_tty_write_str(tty: &mut Uart16550Tty<Device>, text: &str) -> fmt::Result { tty.write_str(text) }
        compat_mmio_read(backend: &mut MmioBackend, offset: u8) -> u8 { unsafe { backend.read(offset) } }
        compat_mmio_write(backend: &mut MmioBackend, offset: u8, value: u8) { unsafe { backend.write(offset, value) } }
    }

    texts! {
        compat_text_of_init: InitError;
        compat_text_of_loopback: LoopbackError;
        compat_text_of_tty: Uart16550TtyError;
    }
}
