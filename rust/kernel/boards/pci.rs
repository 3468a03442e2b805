//! The serial chip of a PCI card, on the Arm board `virt`: firmware would give it its place.

use uart_16550::discovery::{PortDescription, read_pci};

// The configuration of each device, and the first address of I/O space, which the board shows in memory from 0x3eff0000 on.
const CONFIGURATION: usize = 0x3f00_0000;
const CONFIGURATION_SIZE: usize = 0x8000;
const DEVICES: usize = 32;
const PLACE: u32 = 0x1000;

// Words of a configuration: its switches, its class, and its first base.
const COMMAND: usize = 1;
const CLASS: usize = 2;
const BASE: usize = 4;

/// Where the board shows I/O space in memory.
pub const IO_SPACE: usize = 0x3eff_0000;

const IS_IN_IO_SPACE: u32 = 1;
const SERIAL: u32 = 0x0700;

/// Puts the serial chip to its place in I/O space.
pub fn place_serial() {
    for device in 0..DEVICES {
        let address = CONFIGURATION + device * CONFIGURATION_SIZE;
        let words = core::ptr::with_exposed_provenance_mut::<u32>(address);
        // SAFETY: the board shows the configuration of its devices there, as ones where there is none.
        unsafe {
            if words.add(CLASS).read_volatile() >> 16 == SERIAL {
                words.add(BASE).write_volatile(PLACE);
                words.add(COMMAND).write_volatile(IS_IN_IO_SPACE);
            }
        }
    }
}

/// Finds the serial chip by the header of each device's configuration.
pub fn find_serial() -> Option<PortDescription> {
    for device in 0..DEVICES {
        let address = CONFIGURATION + device * CONFIGURATION_SIZE;
        let words = core::ptr::with_exposed_provenance::<u32>(address);
        let mut header = [0; 64];
        for (index, bytes) in header.chunks_exact_mut(4).enumerate() {
            // SAFETY: the board shows the configuration of its devices there, as ones where there is none.
            let word = unsafe { words.add(index).read_volatile() };
            bytes.copy_from_slice(&word.to_le_bytes());
        }
        if let Ok(port) = read_pci(&header, 0) {
            return Some(port);
        }
    }
    None
}
