//! How the registers of a device lie: at ports, or in memory, how far apart there, how wide, and in
//! which order their bytes are.

use crate::errors::InvalidAddressError;
use crate::registers::offsets;
use std::fmt;
use std::num::NonZeroU8;

/// How many bits an access to a register has.
#[derive(Clone, Copy, Debug, PartialEq, Eq, Hash)]
pub enum RegisterWidth {
    /// One byte.
    Bits8,
    /// Two bytes.
    Bits16,
    /// Four bytes.
    Bits32,
}

impl RegisterWidth {
    /// Returns how many bytes an access has.
    ///
    /// # Examples
    ///
    /// ```
    /// # use uart_16550::native::backend::*;
    /// assert_eq!(RegisterWidth::Bits16.bytes(), 2);
    /// ```
    ///
    /// # Proved
    ///
    /// - Returns [`bytes_of`](crate::proved::layout#bytes_of) `self`: how many bytes an access of this width has.
    ///
    /// <details><summary>The clauses</summary>
    ///
    /// [How to read them](crate::proved):
    ///
    /// ```text
    /// ensures { result ≡ bytes_of self }
    /// ```
    ///
    /// </details>
    #[must_use]
    pub const fn bytes(self) -> u8 {
        match self {
            RegisterWidth::Bits8 => 1,
            RegisterWidth::Bits16 => 2,
            RegisterWidth::Bits32 => 4,
        }
    }
}

impl fmt::Display for RegisterWidth {
    fn fmt(&self, f: &mut fmt::Formatter<'_>) -> fmt::Result {
        write!(f, "{} bits", 8 * self.bytes())
    }
}

/// Which byte of a register of several bytes is the first in memory. The chip's eight bits are in
/// the lowest byte.
#[derive(Clone, Copy, Debug, PartialEq, Eq, Hash)]
pub enum ByteOrder {
    /// The lowest.
    Little,
    /// The highest.
    Big,
}

/// How the registers of a device lie in memory, from the first one on.
///
/// # Examples
///
/// ```
/// # use uart_16550::native::backend::*;
/// // A device tree says: reg-shift = <2>; reg-io-width = <4>; big-endian;
/// let layout = RegisterLayout {
///     stride: 1 << 2,
///     width: RegisterWidth::Bits32,
///     byte_order: ByteOrder::Big,
/// };
/// assert_eq!(layout.width.bytes(), 4);
/// ```
#[derive(Clone, Copy, Debug, PartialEq, Eq, Hash)]
pub struct RegisterLayout {
    /// The distance between two registers in bytes: a power of two, and at least the width.
    pub stride: u8,
    /// How many bits each access has.
    pub width: RegisterWidth,
    /// The order of the bytes of a register. It means nothing if a register has one byte.
    pub byte_order: ByteOrder,
}

/// Why the registers of a device cannot lie so in memory. What is first in this list is checked
/// first.
#[cfg_attr(not(feature = "exhaustive"), non_exhaustive)]
#[derive(Clone, Debug, PartialEq, Eq, Hash)]
pub enum InvalidLayoutError {
    /// No device can be there, however wide its registers are.
    InvalidAddress(InvalidAddressError),
    /// The registers would overlap: the distance between two of them is less than their width.
    StrideTooSmall {
        /// The distance, in bytes.
        stride: u8,
        /// The width.
        width: RegisterWidth,
    },
    /// The base address is not a multiple of the width, so an access would not be one access.
    MisalignedBase {
        /// The base address.
        base: usize,
        /// The width.
        width: RegisterWidth,
    },
}

#[automatically_derived]
impl std::fmt::Display for InvalidLayoutError {
    fn fmt(&self, f: &mut std::fmt::Formatter<'_>) -> std::fmt::Result {
        match self {
            Self::InvalidAddress(_0) => { ({ (std::fmt::Display::fmt(_0, f)) }) }
            Self::StrideTooSmall { stride, width } => {
                ({
                    (f.write_fmt(format_args!(
                        "invalid stride {stride}: registers of {width} overlap"
                    )))
                })
            }
            Self::MisalignedBase { base, width } => {
                ({
                    (f.write_fmt(format_args!(
                        "invalid register address: {base:#x} is not aligned for {width}"
                    )))
                })
            }
        }
    }
}

#[automatically_derived]
impl std::error::Error for InvalidLayoutError {}

#[automatically_derived]
impl std::convert::From<InvalidAddressError> for InvalidLayoutError {
    fn from(source: InvalidAddressError) -> Self {
        Self::InvalidAddress { 0: source }
    }
}

/// Checks that the eight ports from this one on exist.
///
/// # Errors
///
/// `InvalidBaseAddress`, with the base port, if the last register would be beyond port 65535.
///
/// # Proved
///
/// - *ok*: if it returns `Ok checked`: [`ArePorts`](crate::proved::layout#ArePorts) `base`: the eight ports from this one on exist: there are 65,536.
/// - *same*: if it returns `Err error`: `error` is `InvalidBaseAddress base`.
/// - *beyond*: if it returns `Err error`: `65535 < base + offsets.SPR`.
///
/// <details><summary>The clauses</summary>
///
/// [How to read them](crate::proved):
///
/// ```text
/// ensures ok { IfOk result (λ checked. ArePorts base) }
/// ensures same { IfErr result (λ error. error ≡ InvalidBaseAddress base) }
/// ensures beyond { IfErr result (λ error. 65535 < base + offsets.SPR) }
/// ```
///
/// </details>
pub const fn check_ports(base: u16) -> Result<(), InvalidAddressError> {
    match base.checked_add(offsets::SPR as u16) {
        Some(_) => Ok(()),
        None => Err(InvalidAddressError::InvalidBaseAddress(base as usize)),
    }
}

/// Checks that registers may be so far apart, and that the last one, whose number this is, has an
/// address. Returns the distance.
///
/// # Errors
///
/// - `InvalidStride`, with the stride, if it is zero or not a power of two.
/// - Otherwise `InvalidBaseAddress`, with the base address, if the last register would be beyond
///   the last address.
///
/// # Proved
///
/// - *same*: if it returns `Ok distance`: `non_zero_u8_get distance ≡ stride`.
/// - *ok*: if it returns `Ok distance`: [`IsSpaced`](crate::proved::layout#IsSpaced) `base stride last`: registers are a power of two apart, and the last one, whose number this is, has an address below 2^64.
/// - *err*: if it returns `Err`, for its value [`IsSpacingRefusal`](crate::proved::layout#IsSpacingRefusal) `base stride last`: why registers cannot be so: the distance is checked first.
///
/// <details><summary>The clauses</summary>
///
/// [How to read them](crate::proved):
///
/// ```text
/// ensures same { IfOk result (λ distance. non_zero_u8_get distance ≡ stride) }
/// ensures ok { IfOk result (λ distance. IsSpaced base stride last) }
/// ensures err { IfErr result (IsSpacingRefusal base stride last) }
/// ```
///
/// </details>
pub const fn check_spacing(base: usize, stride: u8, last: u8) -> Result<NonZeroU8, InvalidAddressError> {
    let Some(distance) = NonZeroU8::new(stride) else {
        return Err(InvalidAddressError::InvalidStride(stride));
    };
    if !stride.is_power_of_two() {
        return Err(InvalidAddressError::InvalidStride(stride));
    }
    match base.checked_add(last as usize * stride as usize) {
        Some(_) => Ok(distance),
        None => Err(InvalidAddressError::InvalidBaseAddress(base)),
    }
}

/// Checks that eight registers can lie so from this address on. Returns the distance between two.
///
/// # Errors
///
/// - `InvalidAddress`, with the cause, as [`check_spacing`] says.
/// - Otherwise `StrideTooSmall` if the stride is less than the width.
/// - Otherwise `MisalignedBase` if the base is not a multiple of the width.
///
/// # Proved
///
/// - *same*: if it returns `Ok distance`: `non_zero_u8_get distance ≡ layout.stride`.
/// - *ok*: if it returns `Ok distance`: [`IsLaidOut`](crate::proved::layout#IsLaidOut) `base layout`: eight registers can lie so from this address on: no two overlap, and each is aligned to its width.
/// - *err*: if it returns `Err`, for its value [`IsLayoutRefusal`](crate::proved::layout#IsLayoutRefusal) `base layout`: why they cannot, in the order of the checks.
///
/// <details><summary>The clauses</summary>
///
/// [How to read them](crate::proved):
///
/// ```text
/// ensures same { IfOk result (λ distance. non_zero_u8_get distance ≡ layout.stride) }
/// ensures ok { IfOk result (λ distance. IsLaidOut base layout) }
/// ensures err { IfErr result (IsLayoutRefusal base layout) }
/// ```
///
/// </details>
pub const fn check_layout(base: usize, layout: RegisterLayout) -> Result<NonZeroU8, InvalidLayoutError> {
    let RegisterLayout { stride, width, .. } = layout;
    let distance = match check_spacing(base, stride, offsets::SPR as u8) {
        Ok(distance) => distance,
        Err(cause) => return Err(InvalidLayoutError::InvalidAddress(cause)),
    };
    if stride < width.bytes() {
        return Err(InvalidLayoutError::StrideTooSmall { stride, width });
    }
    let alignment = width.bytes() as usize;
    if base % alignment != 0 {
        return Err(InvalidLayoutError::MisalignedBase { base, width });
    }
    Ok(distance)
}
