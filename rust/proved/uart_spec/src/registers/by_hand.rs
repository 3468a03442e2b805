//! What the eight registers have of their own, under the names of the crate `bitflags`.
//!
//! The methods of the trait `Flags` are generic; these can be used in constants. Where both have a method of the same name, both do
//! the same.

use super::{FCR, IER, ISR, LCR, LSR, MCR, MSR, PSD};
use bitflags::{Flags, Iter, IterNames, Names};
use core::fmt;
use core::ops::{
    BitAnd, BitAndAssign, BitOr, BitOrAssign, BitXor, BitXorAssign, Not, Sub, SubAssign,
};

// The operators of two registers: each is a method that has a name.
macro_rules! operators {
    ($Register:ident: $($(#[$says:meta])* $Operator:ident $operator:ident $method:ident;)+) => { $(
        impl $Operator for $Register {
            type Output = Self;

            $(#[$says])*
            fn $operator(self, other: Self) -> Self {
                self.$method(other)
            }
        }
    )+ };
}

// The same into the first of the two.
macro_rules! assigning_operators {
    ($Register:ident: $($(#[$says:meta])* $Operator:ident $operator:ident $method:ident;)+) => { $(
        impl $Operator for $Register {
            $(#[$says])*
            fn $operator(&mut self, other: Self) {
                *self = self.$method(other);
            }
        }
    )+ };
}

// The formats of a number, which a register has as its byte has them.
macro_rules! formats {
    ($Register:ident: $($Format:ident)+) => { $(
        impl fmt::$Format for $Register {
            fn fmt(&self, f: &mut fmt::Formatter<'_>) -> fmt::Result {
                fmt::$Format::fmt(&self.0, f)
            }
        }
    )+ };
}

macro_rules! registers {
    ($($Register:ident)+) => { $(
        // All eight bits of each register have a name.
        impl $Register {
            /// Returns the register without a bit.
            ///
            /// # Examples
            ///
            /// ```
            /// use uart_16550::spec::registers::LSR;
            ///
            /// assert_eq!(LSR::empty().bits(), 0);
            /// ```
            #[must_use]
            pub const fn empty() -> Self {
                Self(0)
            }

            /// Returns the register with all bits.
            ///
            /// # Examples
            ///
            /// ```
            /// use uart_16550::spec::registers::LSR;
            ///
            /// assert_eq!(LSR::all().bits(), 0xff);
            /// ```
            #[must_use]
            pub const fn all() -> Self {
                Self(u8::MAX)
            }

            /// Returns the byte.
            ///
            /// # Examples
            ///
            /// ```
            /// use uart_16550::spec::registers::LSR;
            ///
            /// assert_eq!(LSR::THR_EMPTY.bits(), 0x20);
            /// ```
            #[must_use]
            pub const fn bits(&self) -> u8 {
                self.0
            }

            /// Returns the register with this byte. It is never `None`, since each bit has a name.
            ///
            /// # Examples
            ///
            /// ```
            /// use uart_16550::spec::registers::LSR;
            ///
            /// assert_eq!(LSR::from_bits(0x20), Some(LSR::THR_EMPTY));
            /// ```
            #[must_use]
            pub const fn from_bits(bits: u8) -> Option<Self> {
                Some(Self(bits))
            }

            /// Returns the register with this byte: each of its bits has a name.
            ///
            /// # Examples
            ///
            /// ```
            /// use uart_16550::spec::registers::LSR;
            ///
            /// assert_eq!(LSR::from_bits_truncate(0x20), LSR::THR_EMPTY);
            /// ```
            #[must_use]
            pub const fn from_bits_truncate(bits: u8) -> Self {
                Self(bits)
            }

            /// Returns the register with this byte.
            ///
            /// # Examples
            ///
            /// ```
            /// use uart_16550::spec::registers::LSR;
            ///
            /// assert_eq!(LSR::from_bits_retain(0x20), LSR::THR_EMPTY);
            /// ```
            #[must_use]
            pub const fn from_bits_retain(bits: u8) -> Self {
                Self(bits)
            }

            /// Returns the bit of this name, or `None` if none has it.
            ///
            /// # Examples
            ///
            /// ```
            /// use uart_16550::spec::registers::LSR;
            ///
            /// assert_eq!(LSR::from_name("THR_EMPTY"), Some(LSR::THR_EMPTY));
            /// assert_eq!(LSR::from_name("no name"), None);
            /// ```
            #[must_use]
            pub fn from_name(name: &str) -> Option<Self> {
                <Self as Flags>::from_name(name)
            }

            /// Returns whether no bit is set.
            ///
            /// # Examples
            ///
            /// ```
            /// use uart_16550::spec::registers::LSR;
            ///
            /// assert!(LSR::empty().is_empty());
            /// ```
            #[must_use]
            pub const fn is_empty(&self) -> bool {
                self.0 == 0
            }

            /// Returns whether all bits are set.
            ///
            /// # Examples
            ///
            /// ```
            /// use uart_16550::spec::registers::LSR;
            ///
            /// assert!(!LSR::THR_EMPTY.is_all());
            /// ```
            #[must_use]
            pub const fn is_all(&self) -> bool {
                self.0 == u8::MAX
            }

            /// Returns whether some bit is set in both.
            ///
            /// # Examples
            ///
            /// ```
            /// use uart_16550::spec::registers::LSR;
            ///
            /// let shown = LSR::DATA_READY | LSR::OVERRUN_ERROR;
            /// assert!(shown.intersects(LSR::ERRORS));
            /// ```
            #[must_use]
            pub const fn intersects(&self, other: Self) -> bool {
                self.0 & other.0 != 0
            }

            /// Returns whether each bit of `other` is set.
            ///
            /// # Examples
            ///
            /// ```
            /// use uart_16550::spec::registers::LSR;
            ///
            /// let shown = LSR::DATA_READY | LSR::THR_EMPTY;
            /// assert!(shown.contains(LSR::THR_EMPTY));
            /// assert!(!shown.contains(LSR::THR_EMPTY | LSR::TRANSMITTER_EMPTY));
            /// ```
            #[must_use]
            pub const fn contains(&self, other: Self) -> bool {
                self.0 & other.0 == other.0
            }

            /// Sets the bits of `other`.
            ///
            /// # Examples
            ///
            /// ```
            /// use uart_16550::spec::registers::LSR;
            ///
            /// let mut seen = LSR::DATA_READY;
            /// seen.insert(LSR::PARITY_ERROR);
            /// assert_eq!(seen, LSR::DATA_READY | LSR::PARITY_ERROR);
            /// ```
            pub const fn insert(&mut self, other: Self) {
                self.0 |= other.0;
            }

            /// Clears the bits of `other`.
            ///
            /// # Examples
            ///
            /// ```
            /// use uart_16550::spec::registers::LSR;
            ///
            /// let mut seen = LSR::DATA_READY | LSR::PARITY_ERROR;
            /// seen.remove(LSR::PARITY_ERROR);
            /// assert_eq!(seen, LSR::DATA_READY);
            /// ```
            pub const fn remove(&mut self, other: Self) {
                self.0 &= !other.0;
            }

            /// Inverts the bits of `other`.
            ///
            /// # Examples
            ///
            /// ```
            /// use uart_16550::spec::registers::LSR;
            ///
            /// let mut seen = LSR::DATA_READY;
            /// seen.toggle(LSR::DATA_READY | LSR::PARITY_ERROR);
            /// assert_eq!(seen, LSR::PARITY_ERROR);
            /// ```
            pub const fn toggle(&mut self, other: Self) {
                self.0 ^= other.0;
            }

            /// Sets the bits of `other` if `value` is true, and clears them if not.
            ///
            /// # Examples
            ///
            /// ```
            /// use uart_16550::spec::registers::LSR;
            ///
            /// let mut seen = LSR::DATA_READY;
            /// seen.set(LSR::DATA_READY, false);
            /// assert!(seen.is_empty());
            /// ```
            pub const fn set(&mut self, other: Self, value: bool) {
                if value {
                    self.insert(other);
                } else {
                    self.remove(other);
                }
            }

            /// Clears all bits.
            ///
            /// # Examples
            ///
            /// ```
            /// use uart_16550::spec::registers::LSR;
            ///
            /// let mut seen = LSR::DATA_READY;
            /// seen.clear();
            /// assert!(seen.is_empty());
            /// ```
            pub const fn clear(&mut self) {
                self.0 = 0;
            }

            /// Returns the bits that are set in both.
            ///
            /// # Examples
            ///
            /// ```
            /// use uart_16550::spec::registers::LSR;
            ///
            /// let shown = LSR::DATA_READY | LSR::THR_EMPTY;
            /// assert_eq!(shown.intersection(LSR::THR_EMPTY), LSR::THR_EMPTY);
            /// ```
            #[must_use]
            pub const fn intersection(self, other: Self) -> Self {
                Self(self.0 & other.0)
            }

            /// Returns the bits that are set in one of the two or in both.
            ///
            /// # Examples
            ///
            /// ```
            /// use uart_16550::spec::registers::LSR;
            ///
            /// assert_eq!(LSR::DATA_READY.union(LSR::THR_EMPTY).bits(), 0x21);
            /// ```
            #[must_use]
            pub const fn union(self, other: Self) -> Self {
                Self(self.0 | other.0)
            }

            /// Returns the bits that are set here and not in `other`.
            ///
            /// # Examples
            ///
            /// ```
            /// use uart_16550::spec::registers::LSR;
            ///
            /// let shown = LSR::DATA_READY | LSR::THR_EMPTY;
            /// assert_eq!(shown.difference(LSR::THR_EMPTY), LSR::DATA_READY);
            /// ```
            #[must_use]
            pub const fn difference(self, other: Self) -> Self {
                Self(self.0 & !other.0)
            }

            /// Returns the bits that are set in one of the two and not in both.
            ///
            /// # Examples
            ///
            /// ```
            /// use uart_16550::spec::registers::LSR;
            ///
            /// let (before, now) = (LSR::DATA_READY | LSR::THR_EMPTY, LSR::THR_EMPTY);
            /// assert_eq!(before.symmetric_difference(now), LSR::DATA_READY);
            /// ```
            #[must_use]
            pub const fn symmetric_difference(self, other: Self) -> Self {
                Self(self.0 ^ other.0)
            }

            /// Returns the bits that are not set.
            ///
            /// # Examples
            ///
            /// ```
            /// use uart_16550::spec::registers::LSR;
            ///
            /// assert!(!LSR::THR_EMPTY.complement().contains(LSR::THR_EMPTY));
            /// ```
            #[must_use]
            pub const fn complement(self) -> Self {
                Self(!self.0)
            }

            /// Returns the bits that are set, one after another.
            ///
            /// # Examples
            ///
            /// ```
            /// use uart_16550::spec::registers::LSR;
            ///
            /// let shown = LSR::DATA_READY | LSR::THR_EMPTY;
            /// assert!(shown.iter().eq([LSR::DATA_READY, LSR::THR_EMPTY]));
            /// ```
            #[must_use]
            pub fn iter(&self) -> Iter<Self> {
                Flags::iter(self)
            }

            /// Returns the bits that are set, one after another, with their names.
            ///
            /// # Examples
            ///
            /// ```
            /// use uart_16550::spec::registers::LSR;
            ///
            /// let shown = LSR::DATA_READY | LSR::THR_EMPTY;
            /// let names: Vec<_> = shown.iter_names().map(|(name, _)| name).collect();
            /// assert_eq!(names, ["DATA_READY", "THR_EMPTY"]);
            /// ```
            #[must_use]
            pub fn iter_names(&self) -> IterNames<Self> {
                Flags::iter_names(self)
            }
        }

        /// Shows the names of the bits that are set, or `0x0`.
        impl fmt::Debug for $Register {
            fn fmt(&self, f: &mut fmt::Formatter<'_>) -> fmt::Result {
                f.debug_tuple(stringify!($Register))
                    .field(&Names(self))
                    .finish()
            }
        }

        operators! { $Register:
            /// Returns the bits that are set in one of the two or in both.
            BitOr bitor union;
            /// Returns the bits that are set in both.
            BitAnd bitand intersection;
            /// Returns the bits that are set in one of the two and not in both.
            BitXor bitxor symmetric_difference;
            /// Returns the bits that are set here and not in `other`.
            Sub sub difference;
        }

        assigning_operators! { $Register:
            /// Sets the bits of `other`.
            BitOrAssign bitor_assign union;
            /// Clears the bits that are not set in `other`.
            BitAndAssign bitand_assign intersection;
            /// Inverts the bits of `other`.
            BitXorAssign bitxor_assign symmetric_difference;
            /// Clears the bits of `other`.
            SubAssign sub_assign difference;
        }

        impl Not for $Register {
            type Output = Self;

            /// Returns the bits that are not set.
            fn not(self) -> Self {
                self.complement()
            }
        }

        impl Extend<$Register> for $Register {
            fn extend<T: IntoIterator<Item = Self>>(&mut self, values: T) {
                for value in values {
                    self.insert(value);
                }
            }
        }

        impl FromIterator<$Register> for $Register {
            fn from_iter<T: IntoIterator<Item = Self>>(values: T) -> Self {
                values.into_iter().fold(Self::empty(), Self::union)
            }
        }

        impl IntoIterator for $Register {
            type Item = Self;
            type IntoIter = Iter<Self>;

            fn into_iter(self) -> Iter<Self> {
                self.iter()
            }
        }

        formats! { $Register: Binary Octal LowerHex UpperHex }
    )+ };
}

registers! { IER ISR FCR LCR MCR LSR MSR PSD }
