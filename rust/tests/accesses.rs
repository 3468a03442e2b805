//! Accesses to a device in memory. `accesses` compiles them for each target, and looks at the machine
//! code.
#![no_std]
#![allow(missing_docs)]

use core::num::NonZeroUsize;
use uart_16550::native::backend::{
    Backend, ByteOrder, RegisterLayout, RegisterWidth, VolatileMemory, WideMemory,
};

const SWAPPED: ByteOrder = match ByteOrder::NATIVE {
    ByteOrder::Little => ByteOrder::Big,
    ByteOrder::Big => ByteOrder::Little,
};

// Two writes, and a read of the status that shows what came of them.
#[inline(always)]
fn access(registers: Option<impl Backend>, value: u8) -> u8 {
    let Some(mut registers) = registers else {
        return 0;
    };
    registers.write(1, 0);
    registers.write(0, value);
    registers.read(5)
}

#[inline(always)]
fn access_wide(base: NonZeroUsize, width: RegisterWidth, byte_order: ByteOrder, value: u8) -> u8 {
    let layout = RegisterLayout {
        stride: 4,
        width,
        byte_order,
    };
    // SAFETY: nobody calls this.
    access(
        unsafe { WideMemory::from_address(base, layout) }.ok(),
        value,
    )
}

#[unsafe(no_mangle)]
pub fn accesses(base: NonZeroUsize, value: u8) -> u8 {
    // SAFETY: nobody calls this.
    access(unsafe { VolatileMemory::from_address(base, 4) }.ok(), value)
}

// One access alone, as the first one in a lock and the last one: no other access brings a barrier.
#[unsafe(no_mangle)]
pub fn read_alone(base: NonZeroUsize) -> u8 {
    // SAFETY: nobody calls this.
    let registers = unsafe { VolatileMemory::from_address(base, 4) };
    registers.map_or(0, |mut registers| registers.read(5))
}

#[unsafe(no_mangle)]
pub fn write_alone(base: NonZeroUsize, value: u8) {
    // SAFETY: nobody calls this.
    if let Ok(mut registers) = unsafe { VolatileMemory::from_address(base, 4) } {
        registers.write(0, value);
    }
}

#[unsafe(no_mangle)]
pub fn accesses_of_8_bits(base: NonZeroUsize, value: u8) -> u8 {
    access_wide(base, RegisterWidth::Bits8, SWAPPED, value)
}

#[unsafe(no_mangle)]
pub fn accesses_of_16_bits(base: NonZeroUsize, value: u8) -> u8 {
    access_wide(base, RegisterWidth::Bits16, ByteOrder::NATIVE, value)
}

#[unsafe(no_mangle)]
pub fn swapped_accesses_of_16_bits(base: NonZeroUsize, value: u8) -> u8 {
    access_wide(base, RegisterWidth::Bits16, SWAPPED, value)
}

#[unsafe(no_mangle)]
pub fn accesses_of_32_bits(base: NonZeroUsize, value: u8) -> u8 {
    access_wide(base, RegisterWidth::Bits32, ByteOrder::NATIVE, value)
}

#[unsafe(no_mangle)]
pub fn swapped_accesses_of_32_bits(base: NonZeroUsize, value: u8) -> u8 {
    access_wide(base, RegisterWidth::Bits32, SWAPPED, value)
}
