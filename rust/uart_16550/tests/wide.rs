//! Registers of 8, 16 and 32 bits over real arrays, in both byte orders, and the layouts that are refused.

use std::error::Error;
use std::num::NonZeroUsize;
use std::panic::{AssertUnwindSafe, catch_unwind};
use std::ptr::NonNull;
use uart_16550::native::backend::{
    Backend, ByteOrder, DesignWareMemory, DesignWareRegisters, InvalidLayoutError, RegisterLayout,
    RegisterWidth, WideMemory,
};
use uart_16550::native::{BaudRate, Config, InvalidAddressError, Uart16550};
use uart_16550::spec::registers::{LSR, offsets};

use InvalidLayoutError::{InvalidAddress, MisalignedBase, StrideTooSmall};
use RegisterWidth::{Bits8, Bits16, Bits32};

const WIDTHS: [RegisterWidth; 3] = [Bits8, Bits16, Bits32];
const ORDERS: [ByteOrder; 2] = [ByteOrder::Little, ByteOrder::Big];
const SIZE: usize = 8 * 128;

/// Memory that is aligned for each width.
#[repr(align(4))]
struct Cells([u8; SIZE]);

fn layout(stride: u8, width: RegisterWidth, byte_order: ByteOrder) -> RegisterLayout {
    RegisterLayout {
        stride,
        width,
        byte_order,
    }
}

/// Where in a register its lowest byte is.
fn lowest(layout: RegisterLayout) -> usize {
    match layout.byte_order {
        ByteOrder::Little => 0,
        ByteOrder::Big => usize::from(layout.width.bytes()) - 1,
    }
}

/// Every layout that is accepted.
fn layouts() -> impl Iterator<Item = RegisterLayout> {
    let strides = (0..8).map(|shift| 1 << shift);
    let pairs = strides.flat_map(|stride| WIDTHS.map(|width| (stride, width)));
    pairs
        .filter(|(stride, width)| *stride >= width.bytes())
        .flat_map(|(stride, width)| ORDERS.map(|order| layout(stride, width, order)))
}

#[test]
fn a_write_sets_the_lowest_byte_and_clears_the_others_of_its_register() {
    for layout in layouts() {
        let mut cells = Cells([0xee; SIZE]);
        let base = NonNull::from(&mut cells).cast();
        // SAFETY: the registers are in the array, which nothing else accesses in between.
        let mut memory = unsafe { WideMemory::new(base, layout) }.unwrap();
        assert_eq!((memory.base(), memory.layout()), (base, layout));
        for offset in 0..8 {
            memory.write(offset, 0x10 + offset);
            assert_eq!(memory.read(offset), 0x10 + offset);
        }
        let mut expected = [0xee; SIZE];
        for offset in 0..8 {
            let first = offset * usize::from(layout.stride);
            expected[first..first + usize::from(layout.width.bytes())].fill(0);
            expected[first + lowest(layout)] = 0x10 + offset as u8;
        }
        assert_eq!(cells.0, expected, "{layout:?}");
    }
}

#[test]
fn a_read_returns_the_lowest_byte_and_changes_nothing() {
    for layout in layouts() {
        let mut cells = Cells([0xee; SIZE]);
        for offset in 0..8 {
            cells.0[offset * usize::from(layout.stride) + lowest(layout)] = 0x20 + offset as u8;
        }
        let before = cells.0;
        // SAFETY: the registers are in the array, which nothing else accesses in between.
        let mut memory =
            unsafe { WideMemory::new(NonNull::from(&mut cells).cast(), layout) }.unwrap();
        for offset in 0..8 {
            assert_eq!(memory.read(offset), 0x20 + offset, "{layout:?}");
        }
        assert_eq!(cells.0, before);
    }
}

#[test]
fn an_address_is_as_good_as_a_pointer() {
    let mut words = [7_u32; 8];
    let address = NonZeroUsize::new(words.as_mut_ptr().expose_provenance()).unwrap();
    // SAFETY: the words are in the array, which nothing else accesses in between.
    let mut memory = unsafe { WideMemory::from_address(address, RegisterLayout::WORDS) }.unwrap();
    assert_eq!(memory.read(3), 7);
    memory.write(3, 8);
    assert_eq!(words, [7, 7, 7, 8, 7, 7, 7, 7]);
}

#[test]
fn the_driver_over_words_with_a_clock_of_24_mhz() {
    let mut words = [0_u32; 8];
    words[offsets::LSR] = (LSR::THR_EMPTY | LSR::TRANSMITTER_EMPTY).bits().into();
    let base = NonNull::from(&mut words).cast();
    // SAFETY: the words are in the array, which nothing else accesses in between.
    let memory = unsafe { WideMemory::new(base, RegisterLayout::WORDS) }.unwrap();
    let mut uart = Uart16550::new_with_backend(memory);
    let config = Config {
        frequency: 24_000_000,
        baud_rate: BaudRate::Baud115200,
        ..Config::DEFAULT
    };
    assert_eq!(uart.init(config.nearest(20).unwrap()), Ok(()));
    assert_eq!(uart.send_bytes_exact(b"hello"), Ok(()));
    assert_eq!(words[offsets::DATA], u32::from(b'o'));
}

fn refusal(base: usize, layout: RegisterLayout) -> Option<InvalidLayoutError> {
    // SAFETY: no access is made.
    unsafe { WideMemory::from_address(NonZeroUsize::new(base).unwrap(), layout) }.err()
}

#[test]
fn layouts_are_tested() {
    for stride in 0..=u8::MAX {
        for (width, order) in WIDTHS.into_iter().flat_map(|w| ORDERS.map(|o| (w, o))) {
            let expected = if !stride.is_power_of_two() {
                Some(InvalidAddress(InvalidAddressError::InvalidStride(stride)))
            } else if stride < width.bytes() {
                Some(StrideTooSmall { stride, width })
            } else {
                None
            };
            let layout = layout(stride, width, order);
            assert_eq!(refusal(0x1000, layout), expected, "{layout:?}");
        }
    }
}

#[test]
fn bases_are_tested() {
    for layout in layouts() {
        let width = layout.width;
        for base in 0x1000..0x1008 {
            let is_aligned = base % usize::from(width.bytes()) == 0;
            let expected = (!is_aligned).then_some(MisalignedBase { base, width });
            assert_eq!(refusal(base, layout), expected, "{layout:?}");
        }
        // The last base that is aligned and from which all eight registers have addresses.
        let end = usize::MAX - 7 * usize::from(layout.stride);
        let last = end - end % usize::from(width.bytes());
        assert_eq!(refusal(last, layout), None, "{layout:?}");
        let beyond = InvalidAddressError::InvalidBaseAddress(end + 1);
        assert_eq!(refusal(end + 1, layout), Some(InvalidAddress(beyond)));
    }
}

#[test]
fn what_is_tested_first() {
    let beyond = InvalidAddressError::InvalidBaseAddress(usize::MAX);
    let refused = |stride| refusal(usize::MAX, layout(stride, Bits32, ByteOrder::Big));
    let no_power = InvalidAddressError::InvalidStride(3);
    assert_eq!(refused(3), Some(InvalidAddress(no_power)));
    assert_eq!(refused(1), Some(InvalidAddress(beyond)));
    let small = StrideTooSmall {
        stride: 2,
        width: Bits32,
    };
    assert_eq!(refusal(1, layout(2, Bits32, ByteOrder::Big)), Some(small));
}

#[test]
fn other_offsets_are_refused_before_an_access() {
    let mut words = [0_u32; 16];
    let base = NonNull::from(&mut words).cast();
    // SAFETY: the words are in the array, which nothing else accesses in between.
    let mut memory = unsafe { WideMemory::new(base, RegisterLayout::WORDS) }.unwrap();
    for offset in 8..=u8::MAX {
        assert!(catch_unwind(AssertUnwindSafe(|| memory.read(offset))).is_err());
        assert!(catch_unwind(AssertUnwindSafe(|| memory.write(offset, 1))).is_err());
    }
    assert_eq!(words, [0; 16]);
}

#[test]
fn texts_and_causes() {
    let address = InvalidAddressError::InvalidStride(3);
    let rows = [
        (InvalidAddress(address), address.to_string()),
        (
            StrideTooSmall {
                stride: 2,
                width: Bits32,
            },
            "invalid stride 2: registers of 32 bits overlap".to_owned(),
        ),
        (
            MisalignedBase {
                base: 0x1001,
                width: Bits16,
            },
            "invalid register address: 0x1001 is not aligned for 16 bits".to_owned(),
        ),
    ];
    for (error, text) in rows {
        assert_eq!(error.to_string(), text);
        assert!(error.source().is_none());
    }
    assert_eq!(InvalidLayoutError::from(address), InvalidAddress(address));
}

/// USR, the 32nd register, has an address too.
#[test]
fn registers_of_design_ware() {
    let mut words = [0_u32; 32];
    words[31] = 0x1_55;
    let base = NonNull::from(&mut words).cast();
    // SAFETY: the words are there, and nothing else accesses them in between.
    let mut registers = unsafe { DesignWareMemory::new(base, RegisterLayout::WORDS) }.unwrap();
    assert_eq!(registers.read_usr(), 0x55);
    registers.write(offsets::SPR as u8, 0x5a);
    assert_eq!(registers.read(offsets::SPR as u8), 0x5a);
    assert_eq!((words[offsets::SPR], words[31]), (0x5a, 0x155));

    let at = |base: usize, layout| {
        let base = NonZeroUsize::new(base).unwrap();
        // SAFETY: no access is made.
        unsafe { DesignWareMemory::from_address(base, layout) }.map(|_registers| ())
    };
    let last = usize::MAX - 31 * 4 - 3;
    assert_eq!(at(last, RegisterLayout::WORDS), Ok(()));
    let beyond = InvalidAddressError::InvalidBaseAddress(last + 4);
    let refused = Err(InvalidLayoutError::InvalidAddress(beyond));
    assert_eq!(at(last + 4, RegisterLayout::WORDS), refused);
    let misaligned = InvalidLayoutError::MisalignedBase {
        base: 0x1002,
        width: RegisterWidth::Bits32,
    };
    assert_eq!(at(0x1002, RegisterLayout::WORDS), Err(misaligned));
    // SAFETY: no access is made.
    const CONSOLE: Result<DesignWareMemory, InvalidLayoutError> = unsafe {
        let base = NonZeroUsize::new(0xff1a_0000).unwrap();
        DesignWareMemory::from_address(base, RegisterLayout::WORDS)
    };
    const { assert!(CONSOLE.is_ok()) };
}

#[test]
fn the_native_order_moves_no_byte() {
    let native = RegisterLayout::WORDS.byte_order;
    let first = u32::from(0x5a_u8).to_ne_bytes()[0];
    let expected = if first == 0x5a {
        ByteOrder::Little
    } else {
        ByteOrder::Big
    };
    assert_eq!((native, ByteOrder::NATIVE), (expected, expected));
}

/// Is implemented twice, for everything and for what has the trait. So a call of `only_once`
/// compiles only if the type has not the trait.
macro_rules! lacks {
    ($Type:ty, $Trait:path) => {{
        trait Once<Marker> {
            fn only_once() {}
        }
        impl<T: ?Sized> Once<()> for T {}
        struct Again;
        impl<T: ?Sized + $Trait> Once<Again> for T {}
        <$Type as Once<_>>::only_once();
    }};
}

#[test]
fn what_the_access_object_is() {
    fn is_send<T: Send>() {}

    is_send::<Uart16550<WideMemory>>();
    lacks!(WideMemory, Sync);
    lacks!(WideMemory, Clone);
    // SAFETY: no access is made.
    const CONSOLE: Result<WideMemory, InvalidLayoutError> = unsafe {
        WideMemory::from_address(
            NonZeroUsize::new(0xff1a_0000).unwrap(),
            RegisterLayout::WORDS,
        )
    };
    const { assert!(CONSOLE.is_ok()) };
}
