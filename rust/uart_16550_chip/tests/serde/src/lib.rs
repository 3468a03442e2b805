//! A stand-in for the crate `serde`: as much of its traits as the state of a device and counters need.
#![no_std]

pub use de::{Deserialize, Deserializer};
pub use ser::{Serialize, Serializer};

/// What is written.
pub mod ser {
    /// A value that can be written.
    pub trait Serialize {
        /// Writes the value.
        fn serialize<S: Serializer>(&self, serializer: S) -> Result<S::Ok, S::Error>;
    }

    impl Serialize for u64 {
        fn serialize<S: Serializer>(&self, serializer: S) -> Result<S::Ok, S::Error> {
            serializer.serialize_u64(*self)
        }
    }

    /// A format that can be written.
    pub trait Serializer: Sized {
        /// What writing returns.
        type Ok;
        /// Why it fails.
        type Error;

        /// What writes the fields of a struct.
        type SerializeStruct: SerializeStruct<Ok = Self::Ok, Error = Self::Error>;

        /// Writes bytes.
        fn serialize_bytes(self, bytes: &[u8]) -> Result<Self::Ok, Self::Error>;

        /// Writes a number.
        fn serialize_u64(self, number: u64) -> Result<Self::Ok, Self::Error>;

        /// Writes a struct of this name, with so many fields.
        fn serialize_struct(
            self,
            name: &'static str,
            len: usize,
        ) -> Result<Self::SerializeStruct, Self::Error>;
    }

    /// The fields of a struct that is written.
    pub trait SerializeStruct {
        /// What writing returns.
        type Ok;
        /// Why it fails.
        type Error;

        /// Writes a field.
        fn serialize_field<T: Serialize + ?Sized>(
            &mut self,
            name: &'static str,
            field: &T,
        ) -> Result<(), Self::Error>;

        /// Ends the struct.
        fn end(self) -> Result<Self::Ok, Self::Error>;
    }
}

/// What is read.
pub mod de {
    use core::fmt;

    /// A value that can be read.
    pub trait Deserialize<'de>: Sized {
        /// Reads a value.
        fn deserialize<D: Deserializer<'de>>(deserializer: D) -> Result<Self, D::Error>;
    }

    impl<'de> Deserialize<'de> for u8 {
        fn deserialize<D: Deserializer<'de>>(deserializer: D) -> Result<Self, D::Error> {
            deserializer.deserialize_u8()
        }
    }

    /// A format that can be read. In the crate itself a number is read by a visitor too.
    pub trait Deserializer<'de>: Sized {
        /// Why it fails.
        type Error: Error;

        /// Reads bytes.
        fn deserialize_bytes<V: Visitor<'de>>(self, visitor: V) -> Result<V::Value, Self::Error>;

        /// Reads a number.
        fn deserialize_u8(self) -> Result<u8, Self::Error>;
    }

    /// Takes what is read.
    pub trait Visitor<'de>: Sized {
        /// What becomes of it.
        type Value;

        /// Says what is wanted.
        fn expecting(&self, f: &mut fmt::Formatter<'_>) -> fmt::Result;

        /// Takes bytes.
        fn visit_bytes<E: Error>(self, bytes: &[u8]) -> Result<Self::Value, E>;

        /// Takes a sequence.
        fn visit_seq<A: SeqAccess<'de>>(self, sequence: A) -> Result<Self::Value, A::Error>;
    }

    /// What a visitor wants.
    pub trait Expected {
        /// Says it.
        fn fmt(&self, f: &mut fmt::Formatter<'_>) -> fmt::Result;
    }

    impl<'de, V: Visitor<'de>> Expected for V {
        fn fmt(&self, f: &mut fmt::Formatter<'_>) -> fmt::Result {
            self.expecting(f)
        }
    }

    /// Why something cannot be read.
    pub trait Error: Sized {
        /// For a reason.
        fn custom<T: fmt::Display>(reason: T) -> Self;

        /// For its length.
        fn invalid_length(length: usize, expected: &dyn Expected) -> Self;
    }

    /// A sequence that is read.
    pub trait SeqAccess<'de> {
        /// Why it fails.
        type Error: Error;

        /// Reads the next one.
        fn next_element<T: Deserialize<'de>>(&mut self) -> Result<Option<T>, Self::Error>;
    }
}
