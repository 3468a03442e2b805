//! What is called of QEMU: its functions, declared by hand.
//!
//! QEMU exports them for its modules, and they are declared as QEMU 7.2 has them. A library that is loaded before QEMU itself
//! (`LD_PRELOAD`) finds them in the program.
//!
//! QEMU calls and is called with one lock held, its own, so what is here is never entered by two threads at once.

use std::alloc::{Layout, alloc_zeroed, handle_alloc_error};
use std::env;
use std::ffi::{CStr, CString, c_char, c_int, c_uint, c_void};
use std::ptr;
use std::sync::Mutex;

/// A structure of QEMU of which nothing is known here but where it is.
#[repr(C)]
#[derive(Debug)]
pub struct Opaque {
    _private: [u8; 0],
}

/// What QEMU calls when the machine is made.
#[repr(C)]
struct Notifier {
    notify: extern "C" fn(*mut Notifier, *mut c_void),
    links: [usize; 2],
}

#[repr(C)]
struct Operations {
    read: extern "C" fn(*mut c_void, u64, c_uint) -> u64,
    write: extern "C" fn(*mut c_void, u64, u64, c_uint),
    with_attributes: [usize; 2],
    endianness: c_int,
    /// What the guest may ask for.
    valid: Sizes<usize>,
    /// What the functions are asked for.
    passed: Sizes<()>,
}

/// Of how many bytes accesses are.
#[repr(C)]
struct Sizes<A> {
    least: c_uint,
    most: c_uint,
    unaligned: bool,
    accepts: A,
}

const LITTLE_ENDIAN: c_int = 2;

unsafe extern "C" {
    fn qemu_add_machine_init_done_notifier(notifier: *mut Notifier);
    fn qemu_add_vm_change_state_handler(
        handler: extern "C" fn(*mut c_void, bool, c_int),
        opaque: *mut c_void,
    ) -> *mut Opaque;
    fn get_system_io() -> *mut Opaque;
    fn memory_region_init_io(
        region: *mut Opaque,
        owner: *mut Opaque,
        operations: *const Operations,
        opaque: *mut c_void,
        name: *const c_char,
        size: u64,
    );
    fn memory_region_add_subregion(region: *mut Opaque, offset: u64, part: *mut Opaque);
    fn object_resolve_path_type(
        path: *const c_char,
        kind: *const c_char,
        is_ambiguous: *mut bool,
    ) -> *mut Opaque;
    fn isa_get_irq(device: *mut Opaque, number: c_uint) -> *mut Opaque;
    fn qemu_set_irq(line: *mut Opaque, level: c_int);
    fn timer_init_full(
        timer: *mut Opaque,
        group: *mut Opaque,
        clock: c_int,
        scale: c_int,
        attributes: c_int,
        callback: extern "C" fn(*mut c_void),
        opaque: *mut c_void,
    );
    fn timer_mod(timer: *mut Opaque, time: i64);
    fn qemu_clock_get_ns(clock: c_int) -> i64;
    fn qemu_system_vmstop_request_prepare();
    fn qemu_system_vmstop_request(state: c_int);
    fn qmp_human_monitor_command(
        line: *const c_char,
        has_processor: bool,
        processor: i64,
        error: *mut *mut Opaque,
    ) -> *mut c_char;
    fn _exit(status: c_int) -> !;
}

/// Ends QEMU at once. It is called in the middle of an access, where QEMU cannot be asked to end in its own way.
pub fn end(is_good: bool) -> ! {
    // SAFETY: it may be called at any time.
    unsafe { _exit(c_int::from(!is_good)) }
}

/// More than a `MemoryRegion` or a `QEMUTimer` takes.
const ROOM: usize = 4096;

/// Room for a structure of QEMU, filled with zeros. It is never freed: QEMU keeps it as long as it runs.
fn room() -> *mut Opaque {
    let layout = Layout::from_size_align(ROOM, 64).expect("the layout is one");
    // SAFETY: the size is not 0.
    let place = unsafe { alloc_zeroed(layout) };
    if place.is_null() {
        handle_alloc_error(layout);
    }
    place.cast()
}

/// The clocks of QEMU.
#[derive(Clone, Copy, Debug, PartialEq, Eq)]
#[repr(i32)]
pub enum Clock {
    /// That of the host.
    Host = 0,
    /// That of the guest, which stands while the machine is stopped.
    Guest = 1,
}

impl Clock {
    /// Returns the time in nanoseconds.
    pub fn now(self) -> i64 {
        // SAFETY: the number is that of a clock.
        unsafe { qemu_clock_get_ns(self as c_int) }
    }
}

/// What QEMU calls as time passes.
pub trait Machine: Send + 'static {
    /// It is a part of QEMU's machine now.
    fn installed(&mut self) {}
    /// The timer of the guest's clock ran out.
    fn guest_time(&mut self);
    /// The timer of the host's clock ran out. What is returned is to be made as a command of QEMU's monitor, and may call the machine.
    fn host_time(&mut self) -> Option<&'static str> {
        None
    }
    /// The machine runs, or stands.
    fn changed(&mut self, runs: bool);
}

/// What QEMU calls when the guest accesses a register of COM1.
pub trait Ports: Machine {
    /// The guest reads a register.
    fn read(&mut self, offset: u8) -> u8;
    /// The guest writes a register.
    fn write(&mut self, offset: u8, value: u8);
}

/// What a machine can do to QEMU.
#[derive(Clone, Copy, Debug)]
pub struct Qemu {
    line: *mut Opaque,
    timers: [*mut Opaque; 2],
}

// SAFETY: the pointers are to structures of QEMU that it never frees, and are used with its lock held.
unsafe impl Send for Qemu {}
// SAFETY: as above.
unsafe impl Sync for Qemu {}

/// QEMU stands since somebody asked for it.
const PAUSED: c_int = 4;

impl Qemu {
    /// Sets the level of the interrupt line.
    pub fn set_level(&self, level: bool) {
        // SAFETY: the line is one of the machine's.
        unsafe { qemu_set_irq(self.line, c_int::from(level)) }
    }

    /// Lets the timer of a clock run out in so many nanoseconds, and not when it would have.
    pub fn wake_in(&self, clock: Clock, nanoseconds: i64) {
        // SAFETY: the timer was made for this clock.
        unsafe { timer_mod(self.timers[clock as usize], clock.now() + nanoseconds) }
    }

    /// Lets the machine stand, after the instruction that it is at.
    pub fn stop(&self) {
        // SAFETY: they may be called by any thread, in this order.
        unsafe {
            qemu_system_vmstop_request_prepare();
            qemu_system_vmstop_request(PAUSED);
        }
    }
}

/// Makes a command of QEMU's monitor, and returns what it prints. The machine must not be locked if the command calls it.
pub fn command(line: &str) -> String {
    let line = CString::new(line).expect("a command has no byte 0");
    // SAFETY: the text ends with 0, and nobody wants to know of errors. What is returned is a text of the C library, or null. It is not
    // freed.
    unsafe {
        let printed = qmp_human_monitor_command(line.as_ptr(), false, 0, ptr::null_mut());
        if printed.is_null() {
            String::new()
        } else {
            CStr::from_ptr(printed).to_string_lossy().into_owned()
        }
    }
}

/// The first port of COM1.
pub(crate) const BASE: u64 = 0x3f8;
const SIZE: u64 = 8;
const LINE: c_uint = 4;

/// A machine that QEMU calls. It is locked by QEMU's lock; the one here shows the compiler so.
#[derive(Debug)]
pub struct Attached<M: 'static>(&'static Mutex<M>);

impl<M> Attached<M> {
    fn new(machine: M) -> Self {
        Attached(Box::leak(Box::new(Mutex::new(machine))))
    }

    fn opaque(&self) -> *mut c_void {
        (&raw const *self.0).cast_mut().cast()
    }
}

fn with<M: Machine, R>(opaque: *mut c_void, work: impl FnOnce(&mut M) -> R) -> R {
    // SAFETY: what is registered below is a machine of this type, which is never freed.
    let machine = unsafe { &*opaque.cast::<Mutex<M>>() };
    let mut machine = machine.lock().expect("no call panics");
    work(&mut machine)
}

extern "C" fn read<M: Ports>(opaque: *mut c_void, offset: u64, _: c_uint) -> u64 {
    with(opaque, |machine: &mut M| machine.read(offset as u8).into())
}

extern "C" fn write<M: Ports>(opaque: *mut c_void, offset: u64, value: u64, _: c_uint) {
    with(opaque, |machine: &mut M| {
        machine.write(offset as u8, value as u8);
    });
}

extern "C" fn guest_time<M: Machine>(opaque: *mut c_void) {
    with(opaque, |machine: &mut M| machine.guest_time());
}

extern "C" fn host_time<M: Machine>(opaque: *mut c_void) {
    if let Some(line) = with(opaque, |machine: &mut M| machine.host_time()) {
        command(line);
    }
}

extern "C" fn changed<M: Machine>(opaque: *mut c_void, runs: bool, _: c_int) {
    with(opaque, |machine: &mut M| machine.changed(runs));
}

/// Has QEMU call a function when it has made its machine. To be called before QEMU begins.
pub fn when_made(call: fn()) {
    // SAFETY: there is no other thread yet. What QEMU calls to write a machine is not QEMU, and could not load this library.
    unsafe { env::remove_var("LD_PRELOAD") };
    #[repr(C)]
    struct Made {
        notifier: Notifier,
        call: fn(),
    }
    extern "C" fn notify(notifier: *mut Notifier, _: *mut c_void) {
        // SAFETY: it is the first field of what was registered below.
        let made = unsafe { &*notifier.cast::<Made>() };
        (made.call)();
    }
    let made = Box::leak(Box::new(Made {
        notifier: Notifier {
            notify,
            links: [0; 2],
        },
        call,
    }));
    // SAFETY: the notifier is never freed. The list of them needs no initialisation.
    unsafe { qemu_add_machine_init_done_notifier(&raw mut made.notifier) }
}

/// Returns the interrupt line of COM1. QEMU has made its machine.
pub(crate) fn interrupt_line() -> *mut Opaque {
    // SAFETY: a PC has one such clock. It is a device of the bus whose lines are asked for.
    unsafe {
        let clock =
            object_resolve_path_type(c"".as_ptr(), c"mc146818rtc".as_ptr(), ptr::null_mut());
        assert!(!clock.is_null(), "the machine of QEMU is no PC");
        isa_get_irq(clock, LINE)
    }
}

/// Makes what QEMU calls as time passes, and returns it as QEMU knows it. QEMU has made its machine.
pub fn attach<M: Machine>(make: impl FnOnce(Qemu) -> M) -> Attached<M> {
    let timers = [room(), room()];
    let line = interrupt_line();
    let machine = Attached::new(make(Qemu { line, timers }));
    // SAFETY: all that is passed is never freed, and the functions get the machine whose type they are made for. A scale of 1 is that of
    // nanoseconds, and there are no attributes.
    unsafe {
        for (clock, callback) in [
            (Clock::Host, host_time::<M> as extern "C" fn(*mut c_void)),
            (Clock::Guest, guest_time::<M>),
        ] {
            let timer = timers[clock as usize];
            timer_init_full(
                timer,
                ptr::null_mut(),
                clock as c_int,
                1,
                0,
                callback,
                machine.opaque(),
            );
        }
        qemu_add_vm_change_state_handler(changed::<M>, machine.opaque());
    }
    with(machine.opaque(), |machine: &mut M| machine.installed());
    machine
}

/// Puts a device into QEMU's machine, at the place of COM1.
pub fn install<M: Ports>(make: impl FnOnce(Qemu) -> M) {
    let machine = attach(make);
    let operations = Box::leak(Box::new(Operations {
        read: read::<M>,
        write: write::<M>,
        with_attributes: [0; 2],
        endianness: LITTLE_ENDIAN,
        valid: Sizes {
            least: 1,
            most: 4,
            unaligned: true,
            accepts: 0,
        },
        passed: Sizes {
            least: 1,
            most: 1,
            unaligned: false,
            accepts: (),
        },
    }));
    let region = room();
    // SAFETY: as above.
    unsafe {
        memory_region_init_io(
            region,
            ptr::null_mut(),
            operations,
            machine.opaque(),
            c"serial device".as_ptr(),
            SIZE,
        );
        memory_region_add_subregion(get_system_io(), BASE, region);
    }
}
