"""Lines that `planted` plants by name, and what it cannot find. Text of a source stands here once, as it is there."""

SHARED = 'rust/uart_16550/src/shared.rs'
BLOCKING = 'rust/uart_16550/src/shared/blocking.rs'
EXCLUSIVE = 'rust/uart_16550/src/shared/exclusive.rs'
RINGS = 'rust/uart_16550/src/shared/rings.rs'
LINE = 'rust/uart_16550/src/shared/line.rs'
EMERGENCY = 'rust/uart_16550/src/emergency.rs'
ACCESS = 'rust/uart_16550/src/access.rs'
PORTS = 'rust/uart_16550/src/access/ports.rs'
SERIAL = 'rust/uart_16550_chip/src/serial.rs'
BYTES = 'rust/uart_16550_chip/src/serial/bytes.rs'
SERDE = 'rust/uart_16550_chip/src/serial/serde.rs'
EVENTS = 'rust/uart_16550_chip/src/serial/events.rs'
BOTH = 'rust/uart_16550_vmm/src/events.rs'
BUS = 'rust/uart_16550_vmm/src/bus.rs'
COUNTERS = 'rust/uart_16550_vmm/src/counters.rs'
AROUND = 'rust/uart_16550_vmm/src/linux.rs'
INPUT = 'rust/uart_16550_vmm/src/input.rs'
LOSSY = 'rust/uart_16550_vmm/src/lossy.rs'
SUPERIO = 'rust/uart_16550_vmm/src/superio.rs'
KVM = 'rust/geesetrunk/src/import/kvm.rs'
QEMU = 'rust/geesetrunk/src/import/qemu.rs'
STATS = 'rust/geesetrunk/src/stats.rs'

LOAD = '''    barrier();
    // SAFETY: by the promise of the caller.
    let value = unsafe { W::load(address) };
    barrier();
'''
STORE = '''    barrier();
    // SAFETY: by the promise of the caller.
    unsafe { W::store(address, value) }
    barrier();
'''
BARRIER = '    barrier();\n'

NOT_TIMEOUTS = 'if stringify!($event) != "timeout_to_come" { %s }'

# What is wrong, the file, the text, what stands in its place, and what finds it: the packages' tests, the random machines of a monitor
# alone, the thread sanitiser, or a look at the assembly for a target that needs barriers.
NAMED = [
    ('the second of two due tasks is not woken', RINGS, '.zip([due.receive, due.transmit])', '.zip([due.receive, None])', 'tests'),
    ('the mark of a refused handler is not served', SHARED, '                let _handled = entered.value().try_handle(limit, rounds);\n', '', 'tests'),
    ('the mark of a refused handler is not served at a line', LINE, '                handle_line(entered.value(), limit, rounds);\n', '', 'tests'),
    ('a handler leaves no mark', SHARED, 'self.in_turn(true, |port| port.try_handle(', 'self.in_turn(false, |port| port.try_handle(', 'tests'),
    ('the handler of a line leaves no mark', LINE, 'self.in_turn(true, |places| handle_line(', 'self.in_turn(false, |places| handle_line(', 'tests'),
    ('nobody is woken by what a mark brought', SHARED, '                turns.add(entered.value().take_due());\n            }', '            }', 'tests'),
    ('what was done before is not seen in the next call', EXCLUSIVE, 'Ordering::AcqRel', 'Ordering::Release', 'races'),
    ('what is done in a call is not seen after it', EXCLUSIVE, 'Ordering::AcqRel', 'Ordering::Acquire', 'races'),
    ('who is refused frees the rings', EXCLUSIVE, '.then(|| Entered(self))', '.then_some(Entered(self))', 'tests'),
    ('a task whose place is taken is forgotten', RINGS, '            other.waker.wake();\n', '            drop(other);\n', 'tests'),
    ('a task that is polled again wakes itself', RINGS, '.filter(|other| !other.waker.will_wake(context.waker()))', '', 'tests'),
    ('a flush does not wait for the chip', RINGS, 'ring.rings().transmit_len() == 0 && ring.is_idle()', 'ring.rings().transmit_len() == 0', 'tests'),
    ('a flush of a task looks at the chip once', RINGS, 'for _look in 0..limit.get() {', 'for _look in 0..limit.get().min(1) {', 'tests'),
    ('a flush of a thread looks at the chip once', BLOCKING, 'for _look in 0..limit.get() {', 'for _look in 0..limit.get().min(1) {', 'tests'),
    ('after a failed output one byte is taken, and all are told as lost', SERIAL, 'let todo = self.port.take_output(offered);', 'let todo = self.port.take_output(1);', 'tests'),
    ('a failed trigger is not tried again at a read of DATA', SERIAL, 'if !self.is_owed && !self.port.chip().is_dlab_set() {', 'if !self.port.chip().is_dlab_set() {', 'tests'),
    ('a failed trigger is not tried again at a read of LSR', SERIAL, 'if offset == LSR_OFFSET && !self.is_owed {', 'if offset == LSR_OFFSET {', 'tests'),
    ('a failed trigger is not tried again at a write of DATA', SERIAL, 'if offset == DATA && !self.is_owed && !self.options.has_bursts {', 'if offset == DATA && !self.options.has_bursts {', 'tests'),
    ('a failed trigger is not tried again at input', SERIAL, 'if !self.is_owed && self.port.receive_polled(*byte) {', 'if self.port.receive_polled(*byte) {', 'tests'),
    ('a failed trigger is not tried again at a look for output', SERIAL, 'let mut raised = self.tell_owed();', 'let mut raised = Ok(());', 'tests'),
    ('a failed trigger is forgotten', SERIAL, '        self.is_owed = true;\n', '', 'tests'),
    ('what the trigger failed to tell is put off', SERIAL, '            _ if self.is_owed => false,\n', '', 'tests'),
    ('a signal that is put off is given too', SERIAL, '            return Ok(());\n        }\n        let has_risen', '        }\n        let has_risen', 'tests'),
    ('a handler that drains is told each time', SERIAL, 'if self.options.has_clock || self.options.has_draining_handler {', 'if self.options.has_clock {', 'tests'),
    ('a handler that drains waits for what it writes', SERIAL, '            Caller::Writer(_) if !self.options.has_clock => false,\n', '', 'tests'),
    ('a handler that drains starts a timer', SERIAL, '            if self.options.has_clock {\n                self.events.timeout_to_come();\n            }\n', '            self.events.timeout_to_come();\n', 'tests'),
    ('outputs are told though they stay', SERIAL, 'if outputs != self.outputs {', 'if true {', 'tests'),
    ('half a divisor is told', SERIAL, 'if settings != self.settings && !lcr.contains(LCR::DLAB) {', 'if settings != self.settings {', 'tests'),
    ('a process that goes on is not told of its outputs', SERIAL, '        serial.events.out_lines(serial.outputs);\n', '', 'tests'),
    ('a process that goes on is not told of its rate', SERIAL, '        serial.events.out_settings(serial.settings);\n', '', 'tests'),
    ('a state of others has news of its lines', SUPERIO, '        port.read(offsets::MSR as u8);\n', '', 'tests'),
    ('a handler that drains no more is not told', SERIAL, 'if drains || self.options.has_clock {', 'if true {', 'tests'),
    ('a clock puts off nothing after a read', SERIAL, 'Caller::Reader(offset) => self.clock.after_read(offset, &mut todo),', 'Caller::Reader(_) => false,', 'tests'),
    ('a clock puts off nothing after a write', SERIAL, 'Caller::Writer(offset) => self.clock.after_write(offset, &mut todo),', 'Caller::Writer(_) => false,', 'tests'),
    ('what is put off stays when the guest is interrupted', SERIAL, 'self.clock.is_owed &= level && !signal;', 'self.clock.is_owed &= level;', 'tests'),
    ('the first of two is not told that an interrupt is put off', BOTH, 'self.0.$event($($argument)?);', NOT_TIMEOUTS % 'self.0.$event($($argument)?);', 'machines'),
    ('the second of two is not told that an interrupt is put off', BOTH, 'self.1.$event($($argument)?);', NOT_TIMEOUTS % 'self.1.$event($($argument)?);', 'machines'),
    ('what is shared is not told that an interrupt is put off', EVENTS, 'self.as_ref().$event($($argument)?);', NOT_TIMEOUTS % 'self.as_ref().$event($($argument)?);', 'machines'),
    ('what is put off is not counted', COUNTERS, 'timeouts: timeout_to_come() if true;', 'timeouts: timeout_to_come() if false;', 'machines'),
    ('a clock that stops forgets what it put off', SERIAL, 'if has_clock {\n            Ok(())\n        } else {\n            self.timeout_passed()\n        }\n', 'if has_clock {\n            Ok(())\n        } else {\n            Ok(())\n        }\n', 'machines'),
    ('a device begins with the divisor 0', SERIAL, '        (DATA, DIVISOR_OF_9600),\n', '', 'machines'),
    ('more input is read than there is room for', INPUT, 'self.read(&mut bytes[..room])?', 'self.read(&mut bytes)?', 'machines'),
    ('string I/O is written byte by byte', BUS, 'Place::Ports if size == NonZeroUsize::MIN => self.write_register(Some(offset), data),\n', '', 'machines'),
    ('a wide write of the divisor is string I/O', BUS, '(offset != DATA || self.has_latch())', 'offset != DATA', 'machines'),
    ('each byte of a wide write is for the first port', BUS, 'self.write_register(offset.checked_add(index), &[*value]);', 'self.write_register(Some(offset), &[*value]);', 'machines'),
    ('a wait of less than a millisecond is none', AROUND, 'limit.as_nanos().div_ceil(NANOSECONDS_IN_A_MILLISECOND)', '(limit.as_nanos() / NANOSECONDS_IN_A_MILLISECOND)', 'tests'),
    ('Linux may write one event more than there is room for', AROUND, 'events.len() as c_int,', 'events.len() as c_int + 1,', 'tests'),
    ('a program that is started gets the event', AROUND, 'eventfd(0, CLOSE_ON_EXEC | NON_BLOCKING)', 'eventfd(0, NON_BLOCKING)', 'tests'),
    ('a program that is started gets the timer', AROUND, 'timerfd_create(MONOTONIC, CLOSE_ON_EXEC | NON_BLOCKING)', 'timerfd_create(MONOTONIC, NON_BLOCKING)', 'tests'),
    ('a program that is started gets the wait', AROUND, 'epoll_create1(CLOSE_ON_EXEC)', 'epoll_create1(0)', 'tests'),
    ('events do not lie as Linux writes them', AROUND, 'repr(C, packed))]', 'repr(C))]', 'tests'),
    ('a timer goes by the clock that is set', AROUND, 'const MONOTONIC: c_int = 1;', 'const MONOTONIC: c_int = 0;', 'tests'),
    ('a timer is not started', AROUND, '        let _ = self.start();\n', '', 'tests'),
    ('many bytes of one exit are offered one by one', SERIAL, 'if !is_held && self.port.output().len() == WIRE_ROOM {', 'if !is_held && !self.port.output().is_empty() {', 'tests'),
    ('an output that is held is asked for each byte', SERIAL, 'is_held = self.port.output().len() == WIRE_ROOM;', 'is_held = false;', 'tests'),
    ('of many bytes the last are not offered', SERIAL, 'result.and(self.offer_output())\n', 'result\n', 'tests'),
    ('a burst is written byte by byte', SERIAL, 'let is_held = self.options.has_bursts && ready < WIRE_ROOM;', 'let is_held = false;', 'tests'),
    ('a burst has no bound', SERIAL, 'let is_held = self.options.has_bursts && ready < WIRE_ROOM;', 'let is_held = self.options.has_bursts;', 'tests'),
    ('what is held stays when bursts end', SERIAL, '        } else {\n            self.offer_output()\n        }\n', '        } else {\n            Ok(())\n        }\n', 'tests'),
    ('what is held goes behind a break', SERIAL, '                written = self.write_output().map(drop);\n', '', 'tests'),
    ('what is held is lost with the device', SERIAL, '            let _ = self.write_output();\n', '', 'tests'),
    ('a restored device owes nothing', SERIAL, 'is_owed: true,', 'is_owed: false,', 'tests'),
    ('a signal is ignored after a byte that passes', SERIAL, 'Some(todo) if todo.signal => self.obey_passed(todo)', 'Some(todo) if todo.has_room => self.obey_passed(todo)', 'tests'),
    ('a line that moved is ignored', SERIAL, 'if todo.signal || todo.has_moved || self.is_owed {', 'if todo.signal || self.is_owed {', 'tests'),
    ('a flush that fails, but by a broken pipe, is none that failed', SERIAL, 'Err((_, cause)) => Err(cause),', 'Err((ErrorKind::BrokenPipe, cause)) => Err(cause),\n                        Err(_) => Ok(count),', 'tests'),
    ('a flush that a signal interrupts is one that failed', SERIAL, 'ErrorKind::WouldBlock | ErrorKind::Interrupted, _', 'ErrorKind::WouldBlock, _', 'tests'),
    ('a write that a signal interrupts is one that failed', SERIAL, '                Err(cause) if cause.kind() == ErrorKind::Interrupted => {}\n', '', 'tests'),
    ('an output takes more than it was offered', SERIAL, 'Ok(taken) => taken.min(offered),', 'Ok(taken) => taken,', 'tests'),
    ('bytes behind a list are ignored', BYTES, '        self.nothing(room.saturating_sub(len))?;\n', '', 'tests'),
    ('bytes behind the errors are ignored', BYTES, '        self.nothing(FIFO_SIZE.saturating_sub(bytes.len()))?;\n', '', 'tests'),
    ('a part that is needed and not known is skipped', BYTES, '(kind, true) => return Err(BadState::UnknownPart { kind }),', '(_, true) => {}', 'tests'),
    ('a part comes twice', BYTES, 'part.kind <= last', 'part.kind < last', 'tests'),
    ('a break is left set', EMERGENCY, '    if uart.lcr().intersects(NO_TEXT) {', '    if uart.lcr().intersects(LCR::DLAB) {', 'tests'),
    ('a general output is cleared', EMERGENCY, 'MCR::OUT_1.union(MCR::OUT_2_INT_ENABLE)', 'MCR::OUT_2_INT_ENABLE', 'tests'),
    ('interrupts are left enabled', EMERGENCY, '        uart.backend_mut().write(offset_of(offsets::IER), 0);\n', '', 'tests'),
    ('last words are bursts', EMERGENCY, 'fifo_enabled: false', 'fifo_enabled: true', 'tests'),
    ('a stuck chip is waited for again and again', EMERGENCY, '            NonZeroU64::MIN\n', '            self.patience\n', 'tests'),
    ('after a raw text that nobody got the next one waits as long', EMERGENCY, 'let sent = self.terminal.write_raw_text(text);\n        self.be_patient_if(sent.is_ok());', 'let sent = self.terminal.write_raw_text(text);', 'tests'),
    ('one byte is nothing to read', BLOCKING, 'self.rings.with_rings(|ring| ring.rings().receive_len() > 0)', 'self.rings.with_rings(|ring| ring.rings().receive_len() > 1)', 'tests'),
    ('a source that ended has ended for ever', INPUT, 'self.is_at_end = count == 0;', 'self.is_at_end |= count == 0;', 'tests'),
    ('an output that says it took more is believed', LOSSY, '?.min(bytes.len())', '?', 'tests'),
    ('of two failures the first is kept', BUS, 'self.failure = Some(failure);', 'self.failure.get_or_insert(failure);', 'tests'),
    ('nobody waits until a terminal can be written', AROUND, 'events: READABLE | WRITABLE | BY_EDGE,', 'events: READABLE | BY_EDGE,', 'tests'),
    ('what is there is news for ever', AROUND, 'events: READABLE | WRITABLE | BY_EDGE,', 'events: READABLE | WRITABLE,', 'tests'),
    ('the value of an access of QEMU is not cut', QEMU, '{:#04x}", value & 0xff);', '{:#04x}", value);', 'tests'),
    ('the value of a half word is not cut', KVM, 'if size.0 > 1 {', 'if size.0 > 2 {', 'tests'),
    ('the value of a byte is cut', KVM, 'if size.0 > 1 {', 'if size.0 > 0 {', 'tests'),
    ('a string of two accesses is one', KVM, 'if count != 1 {', 'if count > 2 {', 'tests'),
    ('of two waits as long the last is told', STATS, 'if b.nanoseconds > a.nanoseconds {', 'if b.nanoseconds >= a.nanoseconds {', 'tests'),
    ('a register of 32 bits is read by a load of 8', ACCESS, 'u32::from_le(load(address.cast())) as u8,', 'load(address),', 'barriers'),
    ('a barrier is for memory alone', ACCESS, '"fence iorw, iorw"', '"fence rw, rw"', 'barriers'),
    ('a load without its first barrier', ACCESS, LOAD, LOAD.replace(BARRIER, '', 1), 'barriers'),
    ('a load without its last barrier', ACCESS, LOAD, LOAD.removesuffix(BARRIER), 'barriers'),
    ('a store without its first barrier', ACCESS, STORE, STORE.replace(BARRIER, '', 1), 'barriers'),
    ('a store without its last barrier', ACCESS, STORE, STORE.removesuffix(BARRIER), 'barriers'),
]

# Functions that the packages' tests do not run, from a text to the next one, and what looks at them.
ELSEWHERE = [
    # `in` and `out`, which a process may not use: kernels in emulated machines do. Behind them are the barriers, which `accesses` looks
    # at in the assembly: with the lines that have a name above, and for each architecture in `integration/rust`.
    (PORTS, '// Reads the port of a register.', '/// The eight I/O ports of a device'),
    (ACCESS, '// Loads a word of a device.', '// What one access loads or stores'),
    (ACCESS, '#[cfg(all(any(target_arch = "arm", target_arch = "aarch64"), not(miri)))]\nmacro_rules! word', 'word!(u8, "ldrb", "strb");'),
    # The order of the sign: the thread sanitiser sees it, with the lines that have a name above.
    (EXCLUSIVE, 'let changed = self.occupancy.fetch_update(', 'Some(bits_of('),
]

# Lines that no test can find: the file, a part of the line, what stands in its place or None for anything, and why.
KNOWN = [
    (AROUND, 'const CLOSE_ON_EXEC: c_int = if IS_SPARC', '4194305', 'no test runs on SPARC'),
    (AROUND, '    0x4000', '16385', 'no test runs on SPARC'),
    (INPUT, 'let mut bytes = [0; FIFO];', '1', 'bytes are written before they are read'),
    (AROUND, 'const NANOSECONDS_IN_A_MILLISECOND', None, 'a wait takes longer than it is asked for by more than this'),
    (AROUND, 'Duration::from_nanos(1)', '2', 'a timer starts with any time that is not 0'),
    (AROUND, '                seconds: 0,', '1', 'that a timer runs out again after a second is seen by who waits for a second'),
    (AROUND, 'const IS_SPARC', None, 'no test runs on SPARC'),
    (AROUND, 'const IS_MIPS', None, 'no test runs on MIPS'),
    (AROUND, 'const WRITABLE: u32 = 4;', '5', 'whoever asks for this asks for 1 too'),
    (SERDE, 'let mut bytes = [0; ROOM];', '1', 'bytes are written before they are read'),
]
