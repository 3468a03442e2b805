//! A state for serde: its bytes.

use super::SerialState;
use core::fmt;
use serde::de::{Error, SeqAccess, Visitor};
use serde::{Deserialize, Deserializer, Serialize, Serializer};

impl Serialize for SerialState {
    fn serialize<S: Serializer>(&self, serializer: S) -> Result<S::Ok, S::Error> {
        serializer.serialize_bytes(&self.to_bytes())
    }
}

impl<'de> Deserialize<'de> for SerialState {
    fn deserialize<D: Deserializer<'de>>(deserializer: D) -> Result<Self, D::Error> {
        deserializer.deserialize_bytes(Bytes)
    }
}

/// Takes the bytes of a state, as bytes or as a sequence of numbers: formats as JSON have no bytes.
struct Bytes;

/// How many numbers of a sequence are taken. A later release may have added parts that are skipped.
const ROOM: usize = 1024;

impl<'de> Visitor<'de> for Bytes {
    type Value = SerialState;

    fn expecting(&self, f: &mut fmt::Formatter<'_>) -> fmt::Result {
        f.write_str("the bytes of a serial device")
    }

    fn visit_bytes<E: Error>(self, bytes: &[u8]) -> Result<SerialState, E> {
        SerialState::from_bytes(bytes).map_err(E::custom)
    }

    fn visit_seq<A: SeqAccess<'de>>(self, mut sequence: A) -> Result<SerialState, A::Error> {
        let mut bytes = [0; ROOM];
        let mut count = 0;
        while let Some(byte) = sequence.next_element()? {
            let place = bytes.get_mut(count);
            *place.ok_or_else(|| A::Error::invalid_length(count + 1, &self))? = byte;
            count += 1;
        }
        self.visit_bytes(bytes.get(..count).unwrap_or_default())
    }
}
