//! The proved chip as C (`c/uart_port.c`), which has FIFOs of each size, and can be copied. Beside `census.rs` the file here with `unsafe`.

use std::ffi::{c_int, c_void};

/// `UART_STATE_MOST` of uart_port.h.
const STATE_MOST: usize = 528;
/// A character takes so many ticks: one in which something else may happen while it goes out, and one in which it comes back.
const CHARACTER_TICKS: u16 = 2;

unsafe extern "C" {
    fn chip_in_c_size() -> usize;
    fn chip_in_c_is_idle(chip: *const c_void) -> u8;
    fn chip_in_c_ending(chip: *const c_void) -> c_int;
    fn chip_in_c_end_sending(chip: *mut c_void);
    fn chip_in_c_receive(chip: *mut c_void, byte: u8);
    fn chip_in_c_forget(chip: *mut c_void);
    fn uart_chip_new_sized(chip: *mut c_void, model: u8, fifo_size: u8, char_ticks: u16, wire_capacity: u8, cuts: u8) -> u32;
    fn uart_chip_read(chip: *mut c_void, offset: u8) -> u8;
    fn uart_chip_write(chip: *mut c_void, offset: u8, value: u8);
    fn uart_chip_ticks(chip: *mut c_void, count: u16);
    fn uart_chip_to_bytes_sized(chip: *const c_void, bytes: *mut u8, room: usize) -> usize;
}

/// Which chip it is.
#[derive(Clone, Copy, Debug, PartialEq, Eq)]
pub struct Kind {
    /// How many characters a FIFO holds: 16, 32, 64 or 128. Without it is a 16450.
    pub fifo: Option<u8>,
    /// Whether a character has as many bits as LCR says, as on a real chip.
    pub cuts: bool,
}

/// All that a chip is, so that two with the same key answer alike.
pub type Key = Vec<u8>;

/// A chip.
#[derive(Clone)]
pub struct ChipInC {
    // Room for a `struct uart_chip`, aligned as its largest field.
    room: Box<[u64]>,
}

// SAFETY of what follows: `room` is as large as the struct, and `new` has made a chip in it, so each function gets what its header asks
// for; none keeps the pointer.
impl ChipInC {
    /// The chip after power-on.
    pub fn new(kind: Kind) -> Self {
        let words = unsafe { chip_in_c_size() }.div_ceil(size_of::<u64>());
        let mut chip = Self { room: vec![0; words].into() };
        let (model, fifo_size) = kind.fifo.map_or((0, 16), |size| (1, size));
        let status = unsafe { uart_chip_new_sized(chip.pointer(), model, fifo_size, CHARACTER_TICKS, 64, kind.cuts.into()) };
        assert_eq!(status, 0, "{kind:?} is no chip");
        chip
    }

    fn pointer(&mut self) -> *mut c_void {
        self.room.as_mut_ptr().cast()
    }

    /// Makes alike what no read tells.
    fn forget(&mut self) {
        unsafe { chip_in_c_forget(self.pointer()) };
    }

    /// Reads a register.
    pub fn read(&mut self, offset: u8) -> u8 {
        let value = unsafe { uart_chip_read(self.pointer(), offset) };
        self.forget();
        value
    }

    /// Writes a register.
    pub fn write(&mut self, offset: u8, value: u8) {
        unsafe { uart_chip_write(self.pointer(), offset, value) };
        self.forget();
    }

    /// Half of the time of a character passes.
    pub fn tick(&mut self) {
        unsafe { uart_chip_ticks(self.pointer(), 1) };
        self.forget();
    }

    /// The character that leaves the shift register with the next tick, in which it is received.
    pub fn ending(&self) -> Option<u8> {
        u8::try_from(unsafe { chip_in_c_ending(self.room.as_ptr().cast()) }).ok()
    }

    /// That tick for the transmitter alone.
    pub fn end_sending(&mut self) {
        unsafe { chip_in_c_end_sending(self.pointer()) };
        self.forget();
    }

    /// That tick for the receiver alone, of this character.
    pub fn receive(&mut self, byte: u8) {
        unsafe { chip_in_c_receive(self.pointer(), byte) };
        self.forget();
    }

    /// Whether nothing is on its way out.
    pub fn is_idle(&self) -> bool {
        unsafe { chip_in_c_is_idle(self.room.as_ptr().cast()) != 0 }
    }

    /// What the chip is.
    pub fn key(&self) -> Key {
        let mut bytes = vec![0; STATE_MOST];
        let len = unsafe { uart_chip_to_bytes_sized(self.room.as_ptr().cast(), bytes.as_mut_ptr(), bytes.len()) };
        bytes.truncate(len);
        bytes
    }
}
