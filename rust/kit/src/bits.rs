//! Sets of named bits: the trait [`Flags`], under the names of the crate `bitflags`.

use core::fmt;
use core::ops::{BitAnd, BitOr, BitXor, Not};

/// A bit of a register, or a group of bits, with its name.
#[derive(Clone, Copy, Debug, PartialEq, Eq, Hash)]
pub struct Flag<F> {
    /// The name, as the constant of the register has it.
    pub name: &'static str,
    /// The register in which exactly these bits are set.
    pub value: F,
}

impl<F> Flag<F> {
    /// Returns a flag of this name and value.
    ///
    /// # Examples
    ///
    /// ```
    /// use uart_16550::Flag;
    ///
    /// const READY: Flag<u8> = Flag::new("READY", 0x01);
    /// assert_eq!(READY.name, "READY");
    /// ```
    #[must_use]
    pub const fn new(name: &'static str, value: F) -> Self {
        Flag { name, value }
    }

    /// Returns the name.
    ///
    /// # Examples
    ///
    /// ```
    /// # use uart_16550::Flag;
    /// assert_eq!(Flag::new("READY", 0x01).name(), "READY");
    /// ```
    #[must_use]
    pub const fn name(&self) -> &'static str {
        self.name
    }

    /// Returns the value.
    ///
    /// # Examples
    ///
    /// ```
    /// # use uart_16550::Flag;
    /// assert_eq!(Flag::new("READY", 0x01).value(), &0x01);
    /// ```
    #[must_use]
    pub const fn value(&self) -> &F {
        &self.value
    }
}

/// The number under a set of flags. Implemented for `u8`.
pub trait Bits:
    Copy
    + PartialEq
    + BitAnd<Output = Self>
    + BitOr<Output = Self>
    + BitXor<Output = Self>
    + Not<Output = Self>
{
    /// The number without a bit.
    const EMPTY: Self;
    /// The number with all bits.
    const ALL: Self;
}

impl Bits for u8 {
    const EMPTY: u8 = 0;
    const ALL: u8 = u8::MAX;
}

/// A set of named bits.
///
/// # Examples
///
/// ```
/// use uart_16550::Flags;
/// use uart_16550::spec::registers::LSR;
///
/// fn names<F: Flags>(set: F) -> usize {
///     set.iter_names().count()
/// }
/// assert_eq!(names(LSR::DATA_READY | LSR::THR_EMPTY), 2);
/// ```
pub trait Flags: Sized + 'static {
    /// The number under the set.
    type Bits: Bits;

    /// Returns the bits that have a name, in order.
    ///
    /// # Examples
    ///
    /// ```
    /// use uart_16550::Flags;
    /// use uart_16550::spec::registers::LSR;
    ///
    /// assert!(<LSR as Flags>::flags().iter().any(|flag| flag.name == "THR_EMPTY"));
    /// ```
    fn flags<'a>() -> &'a [Flag<Self>];

    /// Returns the number under the set.
    ///
    /// # Examples
    ///
    /// ```
    /// use uart_16550::Flags;
    /// use uart_16550::spec::registers::LSR;
    ///
    /// assert_eq!(Flags::bits(&LSR::THR_EMPTY), 0x20);
    /// ```
    fn bits(&self) -> Self::Bits;

    /// Returns the set with exactly these bits, also those without a name.
    ///
    /// # Examples
    ///
    /// ```
    /// use uart_16550::Flags;
    /// use uart_16550::spec::registers::LSR;
    ///
    /// assert_eq!(<LSR as Flags>::from_bits_retain(0x20), LSR::THR_EMPTY);
    /// ```
    fn from_bits_retain(bits: Self::Bits) -> Self;

    /// Returns the empty set.
    ///
    /// # Examples
    ///
    /// ```
    /// use uart_16550::Flags;
    /// use uart_16550::spec::registers::LSR;
    ///
    /// assert_eq!(<LSR as Flags>::empty().bits(), 0);
    /// ```
    fn empty() -> Self {
        Self::from_bits_retain(Self::Bits::EMPTY)
    }

    /// Returns the set of all bits that have a name.
    ///
    /// # Examples
    ///
    /// ```
    /// use uart_16550::Flags;
    /// use uart_16550::spec::registers::LSR;
    ///
    /// assert_eq!(<LSR as Flags>::all().bits(), 0xff);
    /// ```
    fn all() -> Self {
        let named = Self::flags().iter();
        Self::from_bits_retain(named.fold(Self::Bits::EMPTY, |bits, flag| bits | flag.value.bits()))
    }

    /// Returns the set with these bits, or `None` if one of them has no name.
    ///
    /// # Examples
    ///
    /// ```
    /// use uart_16550::Flags;
    /// use uart_16550::spec::registers::LSR;
    ///
    /// assert_eq!(<LSR as Flags>::from_bits(0x20), Some(LSR::THR_EMPTY));
    /// ```
    fn from_bits(bits: Self::Bits) -> Option<Self> {
        let known = Self::from_bits_truncate(bits);
        (known.bits() == bits).then_some(known)
    }

    /// Returns the set with those of these bits that have a name.
    ///
    /// # Examples
    ///
    /// ```
    /// use uart_16550::Flags;
    /// use uart_16550::spec::registers::LSR;
    ///
    /// assert_eq!(<LSR as Flags>::from_bits_truncate(0x20), LSR::THR_EMPTY);
    /// ```
    fn from_bits_truncate(bits: Self::Bits) -> Self {
        Self::from_bits_retain(bits & Self::all().bits())
    }

    /// Returns the bit of this name, or `None` if none has it.
    ///
    /// # Examples
    ///
    /// ```
    /// use uart_16550::Flags;
    /// use uart_16550::spec::registers::LSR;
    ///
    /// assert_eq!(<LSR as Flags>::from_name("THR_EMPTY"), Some(LSR::THR_EMPTY));
    /// assert_eq!(<LSR as Flags>::from_name("no name"), None);
    /// ```
    #[must_use]
    fn from_name(name: &str) -> Option<Self> {
        let flag = Self::flags().iter().find(|flag| flag.name == name)?;
        Some(Self::from_bits_retain(flag.value.bits()))
    }

    /// Returns whether a bit without a name is set.
    ///
    /// # Examples
    ///
    /// ```
    /// use uart_16550::Flags;
    /// use uart_16550::spec::registers::LSR;
    ///
    /// // Each bit of this register has a name.
    /// assert!(!Flags::contains_unknown_bits(&LSR::all()));
    /// ```
    fn contains_unknown_bits(&self) -> bool {
        self.bits() & !Self::all().bits() != Self::Bits::EMPTY
    }

    /// Returns whether no bit is set.
    ///
    /// # Examples
    ///
    /// ```
    /// use uart_16550::Flags;
    /// use uart_16550::spec::registers::LSR;
    ///
    /// assert!(Flags::is_empty(&LSR::empty()));
    /// ```
    fn is_empty(&self) -> bool {
        self.bits() == Self::Bits::EMPTY
    }

    /// Returns whether each bit that has a name is set.
    ///
    /// # Examples
    ///
    /// ```
    /// use uart_16550::Flags;
    /// use uart_16550::spec::registers::LSR;
    ///
    /// assert!(!Flags::is_all(&LSR::THR_EMPTY));
    /// ```
    fn is_all(&self) -> bool {
        self.contains(Self::all())
    }

    /// Returns whether some bit is set in both.
    ///
    /// # Examples
    ///
    /// ```
    /// use uart_16550::Flags;
    /// use uart_16550::spec::registers::LSR;
    ///
    /// let shown = LSR::DATA_READY | LSR::OVERRUN_ERROR;
    /// assert!(Flags::intersects(&shown, LSR::ERRORS));
    /// ```
    fn intersects(&self, other: Self) -> bool {
        self.bits() & other.bits() != Self::Bits::EMPTY
    }

    /// Returns whether each bit of `other` is set.
    ///
    /// # Examples
    ///
    /// ```
    /// use uart_16550::Flags;
    /// use uart_16550::spec::registers::LSR;
    ///
    /// let shown = LSR::DATA_READY | LSR::THR_EMPTY;
    /// assert!(Flags::contains(&shown, LSR::THR_EMPTY));
    /// assert!(!Flags::contains(&shown, LSR::THR_EMPTY | LSR::TRANSMITTER_EMPTY));
    /// ```
    fn contains(&self, other: Self) -> bool {
        self.bits() & other.bits() == other.bits()
    }

    /// Sets the bits of `other`.
    ///
    /// # Examples
    ///
    /// ```
    /// use uart_16550::Flags;
    /// use uart_16550::spec::registers::LSR;
    ///
    /// let mut seen = LSR::DATA_READY;
    /// Flags::insert(&mut seen, LSR::PARITY_ERROR);
    /// assert_eq!(seen, LSR::DATA_READY | LSR::PARITY_ERROR);
    /// ```
    fn insert(&mut self, other: Self) {
        *self = Self::from_bits_retain(self.bits() | other.bits());
    }

    /// Clears the bits of `other`.
    ///
    /// # Examples
    ///
    /// ```
    /// use uart_16550::Flags;
    /// use uart_16550::spec::registers::LSR;
    ///
    /// let mut seen = LSR::DATA_READY | LSR::PARITY_ERROR;
    /// Flags::remove(&mut seen, LSR::PARITY_ERROR);
    /// assert_eq!(seen, LSR::DATA_READY);
    /// ```
    fn remove(&mut self, other: Self) {
        *self = Self::from_bits_retain(self.bits() & !other.bits());
    }

    /// Inverts the bits of `other`.
    ///
    /// # Examples
    ///
    /// ```
    /// use uart_16550::Flags;
    /// use uart_16550::spec::registers::LSR;
    ///
    /// let mut seen = LSR::DATA_READY;
    /// Flags::toggle(&mut seen, LSR::DATA_READY | LSR::PARITY_ERROR);
    /// assert_eq!(seen, LSR::PARITY_ERROR);
    /// ```
    fn toggle(&mut self, other: Self) {
        *self = Self::from_bits_retain(self.bits() ^ other.bits());
    }

    /// Sets the bits of `other` if `value` is true, and clears them if not.
    ///
    /// # Examples
    ///
    /// ```
    /// use uart_16550::Flags;
    /// use uart_16550::spec::registers::LSR;
    ///
    /// let mut seen = LSR::DATA_READY;
    /// Flags::set(&mut seen, LSR::DATA_READY, false);
    /// assert!(seen.is_empty());
    /// ```
    fn set(&mut self, other: Self, value: bool) {
        if value {
            self.insert(other);
        } else {
            self.remove(other);
        }
    }

    /// Clears all bits.
    ///
    /// # Examples
    ///
    /// ```
    /// use uart_16550::Flags;
    /// use uart_16550::spec::registers::LSR;
    ///
    /// let mut seen = LSR::DATA_READY;
    /// Flags::clear(&mut seen);
    /// assert!(seen.is_empty());
    /// ```
    fn clear(&mut self) {
        *self = Self::empty();
    }

    /// Clears the bits that have no name.
    ///
    /// # Examples
    ///
    /// ```
    /// use uart_16550::Flags;
    /// use uart_16550::spec::registers::LSR;
    ///
    /// let mut seen = LSR::DATA_READY;
    /// Flags::truncate(&mut seen);
    /// assert_eq!(seen, LSR::DATA_READY);
    /// ```
    fn truncate(&mut self) {
        *self = Self::from_bits_truncate(self.bits());
    }

    /// Returns the bits that are set in both.
    ///
    /// # Examples
    ///
    /// ```
    /// use uart_16550::Flags;
    /// use uart_16550::spec::registers::LSR;
    ///
    /// let shown = LSR::DATA_READY | LSR::THR_EMPTY;
    /// assert_eq!(Flags::intersection(shown, LSR::THR_EMPTY), LSR::THR_EMPTY);
    /// ```
    #[must_use]
    fn intersection(self, other: Self) -> Self {
        Self::from_bits_retain(self.bits() & other.bits())
    }

    /// Returns the bits that are set in one of the two or in both.
    ///
    /// # Examples
    ///
    /// ```
    /// use uart_16550::Flags;
    /// use uart_16550::spec::registers::LSR;
    ///
    /// assert_eq!(Flags::union(LSR::DATA_READY, LSR::THR_EMPTY).bits(), 0x21);
    /// ```
    #[must_use]
    fn union(self, other: Self) -> Self {
        Self::from_bits_retain(self.bits() | other.bits())
    }

    /// Returns the bits that are set here and not in `other`.
    ///
    /// # Examples
    ///
    /// ```
    /// use uart_16550::Flags;
    /// use uart_16550::spec::registers::LSR;
    ///
    /// let shown = LSR::DATA_READY | LSR::THR_EMPTY;
    /// assert_eq!(Flags::difference(shown, LSR::THR_EMPTY), LSR::DATA_READY);
    /// ```
    #[must_use]
    fn difference(self, other: Self) -> Self {
        Self::from_bits_retain(self.bits() & !other.bits())
    }

    /// Returns the bits that are set in one of the two and not in both.
    ///
    /// # Examples
    ///
    /// ```
    /// use uart_16550::Flags;
    /// use uart_16550::spec::registers::LSR;
    ///
    /// let (before, now) = (LSR::DATA_READY | LSR::THR_EMPTY, LSR::THR_EMPTY);
    /// assert_eq!(Flags::symmetric_difference(before, now), LSR::DATA_READY);
    /// ```
    #[must_use]
    fn symmetric_difference(self, other: Self) -> Self {
        Self::from_bits_retain(self.bits() ^ other.bits())
    }

    /// Returns the bits that have a name and are not set.
    ///
    /// # Examples
    ///
    /// ```
    /// use uart_16550::Flags;
    /// use uart_16550::spec::registers::LSR;
    ///
    /// assert!(!Flags::complement(LSR::THR_EMPTY).contains(LSR::THR_EMPTY));
    /// ```
    #[must_use]
    fn complement(self) -> Self {
        Self::from_bits_truncate(!self.bits())
    }

    /// Returns the bits that are set and have a name, one after another.
    ///
    /// # Examples
    ///
    /// ```
    /// use uart_16550::Flags;
    /// use uart_16550::spec::registers::LSR;
    ///
    /// let shown = LSR::DATA_READY | LSR::THR_EMPTY;
    /// assert!(Flags::iter(&shown).eq([LSR::DATA_READY, LSR::THR_EMPTY]));
    /// ```
    fn iter(&self) -> Iter<Self> {
        Iter(self.iter_names())
    }

    /// Returns the bits that are set and have a name, one after another, with their names.
    ///
    /// # Examples
    ///
    /// ```
    /// use uart_16550::Flags;
    /// use uart_16550::spec::registers::LSR;
    ///
    /// let shown = LSR::DATA_READY | LSR::THR_EMPTY;
    /// let names: Vec<_> = Flags::iter_names(&shown).map(|(name, _)| name).collect();
    /// assert_eq!(names, ["DATA_READY", "THR_EMPTY"]);
    /// ```
    fn iter_names(&self) -> IterNames<Self> {
        IterNames {
            flags: Self::flags().iter(),
            set: Self::from_bits_retain(self.bits()),
        }
    }
}

/// The bits of a set, with their names. Made by [`Flags::iter_names`].
pub struct IterNames<F: Flags> {
    flags: core::slice::Iter<'static, Flag<F>>,
    set: F,
}

impl<F: Flags> Iterator for IterNames<F> {
    type Item = (&'static str, F);

    fn next(&mut self) -> Option<Self::Item> {
        loop {
            let flag = self.flags.next()?;
            let bits = flag.value.bits();
            if self.set.bits() & bits == bits {
                return Some((flag.name, F::from_bits_retain(bits)));
            }
        }
    }
}

/// The bits of a set. Made by [`Flags::iter`].
pub struct Iter<F: Flags>(IterNames<F>);

impl<F: Flags> Iterator for Iter<F> {
    type Item = F;

    fn next(&mut self) -> Option<F> {
        Some(self.0.next()?.1)
    }
}

/// The text inside of the parentheses of `IER(DATA_READY | THR_EMPTY)`.
#[doc(hidden)]
pub struct Names<'a, F>(pub &'a F);

impl<F: Flags> fmt::Debug for Names<'_, F> {
    fn fmt(&self, f: &mut fmt::Formatter<'_>) -> fmt::Result {
        if self.0.is_empty() {
            return f.write_str("0x0");
        }
        for (i, (name, _)) in self.0.iter_names().enumerate() {
            if i > 0 {
                f.write_str(" | ")?;
            }
            f.write_str(name)?;
        }
        Ok(())
    }
}
