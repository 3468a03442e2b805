//! A virtual machine with one processor, over KVM: memory, an interrupt controller, and accesses to ports.

use std::fs::File;
use std::io;
use std::os::fd::AsRawFd;
use std::sync::Arc;
use std::sync::atomic::Ordering;

use uart_16550_vmm::EventFd;

use crate::linux::Mapping;

mod request;

use request::{Plain, Request, RequestOf};

/// The version of the interface since Linux 2.6.22. No other is to come.
const VERSION: i32 = 12;

const GET_VERSION: Request = Request::of_kvm(0x00);
const CREATE_MACHINE: Request = Request::of_kvm(0x01);
const GET_RUN_SIZE: Request = Request::of_kvm(0x04);
const CREATE_PROCESSOR: Request = Request::of_kvm(0x41);
const SET_MEMORY: RequestOf<MemoryRegion> = RequestOf::to_kernel(0x46);
const SET_TASK_STATE: Request = Request::of_kvm(0x47);
const CREATE_CONTROLLERS: Request = Request::of_kvm(0x60);
const SET_INTERRUPT_EVENT: RequestOf<InterruptEvent> = RequestOf::to_kernel(0x76);
const RUN: Request = Request::of_kvm(0x80);

const GET_REGISTERS: RequestOf<[u8; 144]> = RequestOf::from_kernel(0x81);
const SET_REGISTERS: RequestOf<[u8; 144]> = RequestOf::to_kernel(0x82);
const GET_SYSTEM: RequestOf<[u8; 312]> = RequestOf::from_kernel(0x83);
const SET_SYSTEM: RequestOf<[u8; 312]> = RequestOf::to_kernel(0x84);
const GET_FLOATING: RequestOf<[u8; 416]> = RequestOf::from_kernel(0x8c);
const SET_FLOATING: RequestOf<[u8; 416]> = RequestOf::to_kernel(0x8d);
const GET_LOCAL_CONTROLLER: RequestOf<[u8; 1024]> = RequestOf::from_kernel(0x8e);
const SET_LOCAL_CONTROLLER: RequestOf<[u8; 1024]> = RequestOf::to_kernel(0x8f);
const GET_ACTIVITY: RequestOf<[u8; 4]> = RequestOf::from_kernel(0x98);
const SET_ACTIVITY: RequestOf<[u8; 4]> = RequestOf::to_kernel(0x99);
const GET_PENDING: RequestOf<[u8; 64]> = RequestOf::from_kernel(0x9f);
const SET_PENDING: RequestOf<[u8; 64]> = RequestOf::to_kernel(0xa0);
const GET_CONTROLLER: RequestOf<[u8; 520]> = RequestOf::both_ways(0x62);
const SET_CONTROLLER: RequestOf<[u8; 520]> = RequestOf::from_kernel(0x63);

/// The two 8259 and the I/O APIC.
const CONTROLLERS: [u8; 3] = [0, 1, 2];

#[repr(C)]
struct MemoryRegion {
    slot: u32,
    flags: u32,
    guest_address: u64,
    len: u64,
    address: u64,
}

// SAFETY: integers, and no gap. The memory that a value names is kept mapped by each processor that may access it.
unsafe impl Plain for MemoryRegion {}

#[repr(C)]
struct InterruptEvent {
    event: u32,
    line: u32,
    flags: u32,
    resample_event: u32,
    reserved: [u8; 16],
}

// SAFETY: integers, and no gap.
unsafe impl Plain for InterruptEvent {}

/// The interrupt has a second event, for its end.
const WITH_RESAMPLE: u32 = 2;

/// What a machine keeps: its memory, and what the kernel keeps of its processor and its interrupt controllers, as the kernel gives it.
///
/// Model-specific and debug registers are not among them: the guest of this example uses none.
pub struct Saved {
    memory: Vec<u8>,
    general: [u8; 144],
    system: [u8; 312],
    floating: [u8; 416],
    local_controller: [u8; 1024],
    controllers: [[u8; 520]; 3],
    activity: [u8; 4],
    pending: [u8; 64],
}

/// Where the pages lie that Intel's processors need for real mode. They are above all memory.
const TASK_STATE: usize = 0xfffb_d000;

/// A virtual machine.
pub struct Machine {
    file: File,
    memory: Arc<Mapping>,
}

/// Its processor.
pub struct Processor {
    file: File,
    run: Arc<Mapping>,
    // A processor that runs in its thread may outlive the machine.
    _memory: Arc<Mapping>,
}

/// Asks a processor to stop.
#[derive(Clone)]
pub struct Stop(Arc<Mapping>);

/// Why a processor stopped.
pub enum Exit {
    /// The guest writes to a port.
    Write(Access),
    /// The guest reads a port.
    Read(Access),
    /// It was asked to stop.
    Stopped,
}

/// An access of bytes to a port, of which a guest can make several with one instruction.
#[derive(Clone, Copy)]
pub struct Access {
    pub port: u16,
    count: usize,
    // Where the kernel has the bytes, or looks for them.
    offset: usize,
}

// Where the kernel says why a processor stopped, and is told to stop it.
const STOP_AT_ONCE: usize = 1;
const REASON: usize = 8;
const DIRECTION: usize = 32;
const PORT: usize = 34;
const COUNT: usize = 36;
const OFFSET: usize = 40;

/// The guest accesses a port.
const PORT_ACCESS: u32 = 2;

impl Machine {
    /// Makes a machine with this memory from address 0 on, and its processor, which begins in real mode at this address.
    pub fn new(contents: &[u8], entry: u16) -> io::Result<(Self, Processor)> {
        let (machine, processor) = Self::after_power_on(contents)?;
        let mut general = [0; 144];
        general[128..130].copy_from_slice(&entry.to_le_bytes()); // RIP
        general[136] = 2; // RFLAGS, in which bit 1 is always set
        let mut system = [0; 312];
        GET_SYSTEM.call(&processor.file, &mut system)?;
        system[..8].fill(0); // the base of CS, which is the first segment
        system[12..14].fill(0); // its selector
        SET_SYSTEM.call(&processor.file, &mut system)?;
        SET_REGISTERS.call(&processor.file, &mut general)?;
        Ok((machine, processor))
    }

    fn after_power_on(contents: &[u8]) -> io::Result<(Self, Processor)> {
        let kvm = File::options().read(true).write(true).open("/dev/kvm")?;
        let version = GET_VERSION.call(&kvm, 0)?;
        if version != VERSION {
            return Err(io::Error::other(format!(
                "/dev/kvm has version {version}, and not {VERSION}"
            )));
        }
        let file = CREATE_MACHINE.open(&kvm, 0)?;
        SET_TASK_STATE.call(&file, TASK_STATE)?;
        // Before the processor, which gets its local controller with it.
        CREATE_CONTROLLERS.call(&file, 0)?;
        let memory = Arc::new(Mapping::new(contents.len(), None)?);
        memory.write(0, contents);
        let mut region = MemoryRegion {
            slot: 0,
            flags: 0,
            guest_address: 0,
            len: memory.len() as u64,
            address: memory.address() as u64,
        };
        SET_MEMORY.call(&file, &mut region)?;
        let processor = CREATE_PROCESSOR.open(&file, 0)?;
        let run_size = usize::try_from(GET_RUN_SIZE.call(&kvm, 0)?).unwrap_or(0);
        let run = Mapping::new(run_size, Some(&processor))?;
        let processor = Processor {
            file: processor,
            run: Arc::new(run),
            _memory: Arc::clone(&memory),
        };
        Ok((Machine { file, memory }, processor))
    }

    /// Lets each signal of this event be an edge of an interrupt line. With a second event it takes the line up instead. Then the line
    /// falls when the guest ends the interrupt, and that signals the second event.
    pub fn connect(
        &self,
        line: u32,
        event: &EventFd,
        resample: Option<&EventFd>,
    ) -> io::Result<()> {
        let number = |event: &EventFd| event.as_raw_fd().unsigned_abs();
        let mut interrupt = InterruptEvent {
            event: number(event),
            line,
            flags: resample.map_or(0, |_| WITH_RESAMPLE),
            resample_event: resample.map_or(0, number),
            reserved: [0; 16],
        };
        SET_INTERRUPT_EVENT.call(&self.file, &mut interrupt)
    }

    /// Returns what the machine keeps. Its processor is stopped.
    pub fn save(&self, processor: &Processor) -> io::Result<Saved> {
        let mut memory = vec![0; self.memory.len()];
        self.memory.read(0, &mut memory);
        let mut saved = Saved {
            memory,
            general: [0; 144],
            system: [0; 312],
            floating: [0; 416],
            local_controller: [0; 1024],
            controllers: CONTROLLERS.map(|number| {
                let mut controller = [0; 520];
                controller[0] = number;
                controller
            }),
            activity: [0; 4],
            pending: [0; 64],
        };
        GET_REGISTERS.call(&processor.file, &mut saved.general)?;
        GET_SYSTEM.call(&processor.file, &mut saved.system)?;
        GET_FLOATING.call(&processor.file, &mut saved.floating)?;
        GET_LOCAL_CONTROLLER.call(&processor.file, &mut saved.local_controller)?;
        GET_ACTIVITY.call(&processor.file, &mut saved.activity)?;
        GET_PENDING.call(&processor.file, &mut saved.pending)?;
        for controller in &mut saved.controllers {
            GET_CONTROLLER.call(&self.file, controller)?;
        }
        Ok(saved)
    }

    /// Makes a machine that goes on where another was saved.
    pub fn restore(mut saved: Saved) -> io::Result<(Self, Processor)> {
        let (machine, processor) = Self::after_power_on(&saved.memory)?;
        for controller in &mut saved.controllers {
            SET_CONTROLLER.call(&machine.file, controller)?;
        }
        // The system registers say where the local controller is, and whether it is on.
        SET_SYSTEM.call(&processor.file, &mut saved.system)?;
        SET_LOCAL_CONTROLLER.call(&processor.file, &mut saved.local_controller)?;
        SET_FLOATING.call(&processor.file, &mut saved.floating)?;
        SET_REGISTERS.call(&processor.file, &mut saved.general)?;
        SET_PENDING.call(&processor.file, &mut saved.pending)?;
        SET_ACTIVITY.call(&processor.file, &mut saved.activity)?;
        Ok((machine, processor))
    }
}

impl Processor {
    /// Returns what stops this processor.
    pub fn stop(&self) -> Stop {
        Stop(Arc::clone(&self.run))
    }

    /// Lets the guest run until it accesses a port, or is to stop. What it read last is then made known to it.
    pub fn run(&mut self) -> io::Result<Exit> {
        match RUN.call(&self.file, 0) {
            Err(cause) if cause.kind() == io::ErrorKind::Interrupted => return Ok(Exit::Stopped),
            result => result?,
        };
        let reason = u32::from_le_bytes(self.field(REASON));
        if reason != PORT_ACCESS {
            return Err(io::Error::other(format!(
                "the guest stopped for reason {reason} of KVM"
            )));
        }
        let [direction, width] = self.field(DIRECTION);
        if width != 1 {
            return Err(io::Error::other(format!(
                "the guest accessed a port with {width} bytes at a time"
            )));
        }
        let access = Access {
            port: u16::from_le_bytes(self.field(PORT)),
            count: u32::from_le_bytes(self.field(COUNT)) as usize,
            offset: u64::from_le_bytes(self.field(OFFSET)) as usize,
        };
        Ok(if direction == 0 {
            Exit::Read(access)
        } else {
            Exit::Write(access)
        })
    }

    /// Returns what the guest writes in this access, byte for byte.
    pub fn written(&self, access: Access) -> impl Iterator<Item = u8> {
        (access.offset..access.offset + access.count)
            .map(|offset| u8::from_le_bytes(self.field(offset)))
    }

    /// Answers a read, byte for byte.
    pub fn answer(&mut self, access: Access, mut read: impl FnMut() -> u8) {
        for offset in access.offset..access.offset + access.count {
            self.run.write(offset, &[read()]);
        }
    }

    fn field<const N: usize>(&self, offset: usize) -> [u8; N] {
        let mut bytes = [0; N];
        self.run.read(offset, &mut bytes);
        bytes
    }
}

impl Stop {
    /// Lets the next call of `Processor::run` do no more than complete the last access. One that runs must be interrupted for that.
    pub fn ask(&self) {
        self.0.bytes()[STOP_AT_ONCE].store(1, Ordering::SeqCst);
    }
}
