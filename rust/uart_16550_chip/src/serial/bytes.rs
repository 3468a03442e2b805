//! The state of a device as bytes: for files, for formats that know no structs, for C, and for serde. `STATE.md` of the package has the
//! layout, and `uart_port.h` for C has the same.

use super::{BadState, SerialState};
use crate::registers::{FifoTriggerLevel, IER, LCR, LSR, MCR, MSR};
use crate::{
    ArrayVec, Character, Chip, ChipData, Latches, ModemData, Origin, ReceiverData, Shifting,
    TransmitterData, WIRE_ROOM,
};

/// How many characters a queue has room for.
const FIFO_SIZE: usize = 16;

/// With these a state begins.
const MAGIC: [u8; 6] = *b"u16550";
/// With these a state of version 1 begins, which has no magic.
const VERSION_1: [u8; 4] = [1, 0, 0, 0];
/// How many bytes a state of version 1 has.
const LEN_1: usize = 146;

/// How many bytes are before the first part, and before the body of each.
const HEADER: usize = 12;
const PART_HEADER: usize = 4;
/// Where the length of all bytes is.
const LENGTH_OFFSET: usize = 8;

/// The kinds of parts.
const CHIP: u8 = 1;
const OUTPUT: u8 = 2;
/// Of a chip with larger FIFOs, which no `Serial` is.
const REST_OF_FIFOS: u8 = 3;

/// How many bytes a version 1 has of a chip, how many were added to them, and how many the output has.
const REGISTERS_LEN: usize = 77;
const PACE_LEN: usize = 9;
const OUTPUT_LEN: usize = 1 + WIRE_ROOM;

/// The trigger levels, by their number in the bytes.
const LEVELS: [FifoTriggerLevel; 4] = [
    FifoTriggerLevel::One,
    FifoTriggerLevel::Four,
    FifoTriggerLevel::Eight,
    FifoTriggerLevel::Fourteen,
];

/// The models, by their number in the bytes.
const MODELS: [Chip; 2] = [Chip::Uart16450, Chip::Uart16550A];

/// The number of one of these.
#[allow(clippy::cast_possible_truncation, reason = "a list of these has a few")]
fn number_of<T: PartialEq>(items: &[T], wanted: &T) -> u8 {
    let place = items.iter().position(|item| item == wanted);
    place.unwrap_or(0) as u8
}

/// Bytes that are written one after the other.
struct Writer {
    bytes: [u8; SerialState::LEN],
    count: usize,
}

impl Writer {
    fn put(&mut self, bytes: &[u8]) {
        for byte in bytes {
            if let Some(place) = self.bytes.get_mut(self.count) {
                *place = *byte;
            }
            self.count += 1;
        }
    }

    /// A list, with its length in front, in the room that it may take.
    #[allow(
        clippy::cast_possible_truncation,
        reason = "a list has room for at most 64 bytes"
    )]
    fn put_list(&mut self, bytes: &[u8], room: usize) {
        self.put(&[bytes.len() as u8]);
        self.put(bytes);
        (bytes.len()..room).for_each(|_| self.put(&[0]));
    }

    /// What is before the body of a part. A reader that does not know the kind refuses the state.
    #[allow(
        clippy::cast_possible_truncation,
        reason = "a part is shorter than a state"
    )]
    fn put_part(&mut self, kind: u8, len: usize) {
        self.put(&[kind, 1]);
        self.put(&(len as u16).to_le_bytes());
    }

    // Each struct is taken apart with all its fields. So a field that is added to one is not forgotten: rustc refuses that here.

    fn put_chip(&mut self, chip: &ChipData) {
        let ChipData {
            model,
            latches,
            fifo,
            transmitter,
            receiver,
            modem,
            cuts,
        } = chip;
        let Latches {
            ier,
            lcr,
            mcr,
            scr,
            dll,
            dlm,
        } = latches;
        self.put(&[ier.bits(), lcr.bits(), mcr.bits(), *scr, *dll, *dlm]);
        self.put(&[u8::from(*fifo)]);
        self.put_transmitter(transmitter);
        self.put_receiver(receiver);
        let ModemData {
            inputs,
            lines,
            deltas,
        } = modem;
        self.put(&[inputs.bits(), lines.bits(), deltas.bits()]);
        self.put(&[number_of(&MODELS, model), u8::from(*cuts)]);
        self.put_pace(transmitter, receiver);
    }

    fn put_transmitter(&mut self, transmitter: &TransmitterData) {
        // What is left out here is in `put_pace`.
        let TransmitterData {
            queue,
            shift_register,
            wire_capacity: _,
            char_ticks: _,
            overflows,
            is_thr_pending,
        } = transmitter;
        self.put(&[u8::from(*is_thr_pending)]);
        self.put(&overflows.to_le_bytes());
        let byte = shift_register.map(|shifting| shifting.byte);
        self.put(&[u8::from(byte.is_some()), byte.unwrap_or(0)]);
        self.put_list(queue, FIFO_SIZE);
    }

    fn put_receiver(&mut self, receiver: &ReceiverData) {
        // What is left out here is in `put_pace`.
        let ReceiverData {
            queue,
            is_overrun,
            is_front_reported,
            last_byte,
            timeout_ticks: _,
            trigger,
        } = receiver;
        self.put(&[u8::from(*is_overrun), u8::from(*is_front_reported)]);
        self.put(&[*last_byte, number_of(&LEVELS, trigger)]);
        let (mut bytes, mut errors) = ([0; FIFO_SIZE], [0; FIFO_SIZE]);
        let mut looped = 0_u16;
        for (place, character) in queue.iter().enumerate().take(FIFO_SIZE) {
            bytes[place] = character.byte;
            errors[place] = character.errors;
            looped |= u16::from(character.origin == Origin::Looped) << place;
        }
        self.put_list(&bytes[..queue.len().min(FIFO_SIZE)], FIFO_SIZE);
        self.put(&errors);
        self.put(&looped.to_le_bytes());
    }

    /// How time passes, and how much of it has: what is the same in each device.
    fn put_pace(&mut self, transmitter: &TransmitterData, receiver: &ReceiverData) {
        let shifting = transmitter.shift_register;
        let ticks_left = shifting.map_or(0, |shifting| shifting.ticks_left);
        self.put(&transmitter.char_ticks.to_le_bytes());
        self.put(&ticks_left.to_le_bytes());
        self.put(&receiver.timeout_ticks.to_le_bytes());
        // A wire with more room is none of a live chip, and is refused when it is read.
        let room = u8::try_from(transmitter.wire_capacity);
        self.put(&[room.unwrap_or(u8::MAX)]);
    }
}

/// Bytes that are read one after the other.
struct Reader<'a> {
    bytes: &'a [u8],
    offset: usize,
}

/// A part of a state.
struct Part<'a> {
    kind: u8,
    /// Where it begins.
    offset: usize,
    /// A reader that does not know its kind refuses the state.
    is_needed: bool,
    body: Reader<'a>,
}

impl<'a> Reader<'a> {
    /// The next bytes.
    fn slice(&mut self, len: usize) -> Result<&'a [u8], BadState> {
        let rest = self.bytes.get(self.offset..).unwrap_or_default();
        let offset = self.offset;
        let taken = rest.get(..len).ok_or(BadState::Length { offset })?;
        self.offset += len;
        Ok(taken)
    }

    fn take<const N: usize>(&mut self) -> Result<[u8; N], BadState> {
        let offset = self.offset;
        let taken = self.slice(N)?.first_chunk();
        taken.copied().ok_or(BadState::Length { offset })
    }

    fn byte(&mut self) -> Result<u8, BadState> {
        self.take().map(|[byte]| byte)
    }

    fn number(&mut self) -> Result<u16, BadState> {
        self.take().map(u16::from_le_bytes)
    }

    /// How many bytes a list has, or has room for: at most so many.
    fn count(&mut self, most: usize) -> Result<usize, BadState> {
        let offset = self.offset;
        let count = usize::from(self.byte()?);
        if count > most {
            return Err(BadState::Value { offset });
        }
        Ok(count)
    }

    /// A byte that is the number of one of these.
    fn one_of<T: Copy>(&mut self, items: &[T]) -> Result<T, BadState> {
        let offset = self.offset;
        let item = items.get(usize::from(self.byte()?));
        item.copied().ok_or(BadState::Value { offset })
    }

    /// A byte that is 0 or 1.
    fn flag(&mut self) -> Result<bool, BadState> {
        self.one_of(&[false, true])
    }

    /// Bytes that mean nothing, and are 0: a state has one form.
    fn nothing(&mut self, len: usize) -> Result<(), BadState> {
        let start = self.offset;
        match self.slice(len)?.iter().position(|byte| *byte != 0) {
            Some(place) => Err(BadState::Value {
                offset: start + place,
            }),
            None => Ok(()),
        }
    }

    /// A list, of at most as many bytes as there is room for.
    fn list(&mut self, room: usize) -> Result<&'a [u8], BadState> {
        let len = self.count(room)?;
        let list = self.slice(len)?;
        self.nothing(room.saturating_sub(len))?;
        Ok(list)
    }

    /// A list of bytes that has room for `N`.
    fn bytes<const N: usize>(&mut self) -> Result<ArrayVec<u8, N>, BadState> {
        let list = ArrayVec::try_from(self.list(N)?);
        // It has at most so many.
        debug_assert!(list.is_ok());
        Ok(list.unwrap_or_default())
    }

    /// The next part, or `None` at the end.
    fn part(&mut self) -> Result<Option<Part<'a>>, BadState> {
        let offset = self.offset;
        if offset == self.bytes.len() {
            return Ok(None);
        }
        let kind = self.byte()?;
        let is_needed = self.flag()?;
        let length_offset = self.offset;
        let end = usize::from(self.number()?) + offset + PART_HEADER;
        let bytes = self.bytes.get(..end).ok_or(BadState::Length {
            offset: length_offset,
        })?;
        let body = Reader {
            bytes,
            offset: self.offset,
        };
        self.offset = end;
        Ok(Some(Part {
            kind,
            offset,
            is_needed,
            body,
        }))
    }

    /// What version 1 has of a chip. The rest of it stays as it is in each device.
    fn registers(&mut self) -> Result<ChipData, BadState> {
        let mut chip = SerialState::default().chip;
        let [ier, lcr, mcr, scr, dll, dlm] = self.take()?;
        chip.latches.ier = IER::from_bits_retain(ier);
        chip.latches.lcr = LCR::from_bits_retain(lcr);
        chip.latches.mcr = MCR::from_bits_retain(mcr);
        (chip.latches.scr, chip.latches.dll, chip.latches.dlm) = (scr, dll, dlm);
        chip.fifo = self.flag()?;
        self.transmitter(&mut chip.transmitter)?;
        self.receiver(&mut chip.receiver)?;
        let [inputs, lines, deltas] = self.take()?;
        chip.modem.inputs = MSR::from_bits_retain(inputs);
        chip.modem.lines = MSR::from_bits_retain(lines);
        chip.modem.deltas = MSR::from_bits_retain(deltas);
        Ok(chip)
    }

    fn transmitter(&mut self, transmitter: &mut TransmitterData) -> Result<(), BadState> {
        transmitter.is_thr_pending = self.flag()?;
        transmitter.overflows = self.take().map(u64::from_le_bytes)?;
        transmitter.shift_register = if self.flag()? {
            // A character of a device takes one tick, so it has one left.
            self.byte().map(|byte| {
                Some(Shifting {
                    byte,
                    ticks_left: 1,
                })
            })?
        } else {
            self.nothing(1)?;
            None
        };
        transmitter.queue = self.bytes()?;
        Ok(())
    }

    fn receiver(&mut self, receiver: &mut ReceiverData) -> Result<(), BadState> {
        receiver.is_overrun = self.flag()?;
        receiver.is_front_reported = self.flag()?;
        receiver.last_byte = self.byte()?;
        receiver.trigger = self.one_of(&LEVELS)?;
        let bytes = self.list(FIFO_SIZE)?;
        let errors = self.slice(bytes.len())?;
        self.nothing(FIFO_SIZE.saturating_sub(bytes.len()))?;
        let looped_offset = self.offset;
        let looped = self.number()?;
        if u32::from(looped) >> bytes.len() != 0 {
            return Err(BadState::Value {
                offset: looped_offset,
            });
        }
        receiver.queue = ArrayVec::new();
        for (place, (byte, errors)) in bytes.iter().zip(errors).enumerate() {
            let is_looped = looped >> place & 1 != 0;
            let character = Character {
                byte: *byte,
                errors: LSR::from_bits_retain(*errors).bits(),
                origin: if is_looped {
                    Origin::Looped
                } else {
                    Origin::Live
                },
            };
            // A list has at most as many items as there is room for.
            let pushed = receiver.queue.try_push(character);
            debug_assert!(pushed.is_ok());
        }
        Ok(())
    }

    /// What is the same in each device, and differs in other chips.
    fn pace(&mut self, chip: &mut ChipData) -> Result<(), BadState> {
        chip.model = self.one_of(&MODELS)?;
        chip.cuts = self.flag()?;
        chip.transmitter.char_ticks = self.number()?;
        match &mut chip.transmitter.shift_register {
            Some(shifting) => shifting.ticks_left = self.number()?,
            None => self.nothing(2)?,
        }
        chip.receiver.timeout_ticks = self.number()?;
        chip.transmitter.wire_capacity = self.count(WIRE_ROOM)?;
        Ok(())
    }

    fn chip(&mut self) -> Result<ChipData, BadState> {
        let mut chip = self.registers()?;
        self.pace(&mut chip)?;
        Ok(chip)
    }

    /// The state whose parts these are. What is behind the known fields of a part is of a later release, and is skipped.
    fn parts(&mut self) -> Result<SerialState, BadState> {
        let (mut chip, mut output) = (None, None);
        let mut last = 0;
        // Each part takes at least four bytes.
        while let Some(mut part) = self.part()? {
            if part.kind <= last {
                return Err(BadState::Value {
                    offset: part.offset,
                });
            }
            last = part.kind;
            match (part.kind, part.is_needed) {
                (CHIP, true) => chip = Some(part.body.chip()?),
                (OUTPUT, true) => output = Some(part.body.bytes()?),
                (CHIP | OUTPUT | REST_OF_FIFOS, false) => {
                    return Err(BadState::Value {
                        offset: part.offset + 1,
                    });
                }
                (kind, true) => return Err(BadState::UnknownPart { kind }),
                (_, false) => {}
            }
        }
        Ok(SerialState {
            chip: chip.ok_or(BadState::MissingPart { kind: CHIP })?,
            output: output.ok_or(BadState::MissingPart { kind: OUTPUT })?,
        })
    }

    /// A state of version 1: what it has of the chip, and the output.
    fn version_1(&mut self) -> Result<SerialState, BadState> {
        if self.bytes.len() != LEN_1 {
            return Err(BadState::Length { offset: 0 });
        }
        self.offset = VERSION_1.len();
        Ok(SerialState {
            chip: self.registers()?,
            output: self.bytes()?,
        })
    }
}

impl SerialState {
    /// The version of the bytes that this release writes.
    pub const VERSION: u16 = 2;

    /// How many bytes this release writes for a state.
    pub const LEN: usize =
        HEADER + PART_HEADER + REGISTERS_LEN + PACE_LEN + PART_HEADER + OUTPUT_LEN;

    /// Returns the state as bytes. It is to be the state of a device, of a port or of a live chip.
    ///
    /// `STATE.md` of the package has the layout. `uart_port.c` reads and writes the same bytes.
    #[must_use]
    #[allow(clippy::cast_possible_truncation, reason = "a state has 171 bytes")]
    pub fn to_bytes(&self) -> [u8; Self::LEN] {
        let mut to = Writer {
            bytes: [0; Self::LEN],
            count: 0,
        };
        to.put(&MAGIC);
        to.put(&Self::VERSION.to_le_bytes());
        to.put(&(Self::LEN as u32).to_le_bytes());
        to.put_part(CHIP, REGISTERS_LEN + PACE_LEN);
        to.put_chip(&self.chip);
        to.put_part(OUTPUT, OUTPUT_LEN);
        to.put_list(&self.output, WIRE_ROOM);
        debug_assert_eq!(to.count, Self::LEN);
        to.bytes
    }

    /// Returns the state with these bytes: those that [`to_bytes`](Self::to_bytes) wrote in this release, in one before it, or in one
    /// after it that added only what may be skipped.
    ///
    /// Whether a device can have this state is tested when it is restored.
    ///
    /// # Errors
    ///
    /// - `NoState` if they do not begin as a state does.
    /// - `Version` if this release does not know their version.
    /// - `Length` if there are too few of them, or too many.
    /// - `UnknownPart` and `MissingPart` if they have a part that cannot be skipped, or lack one.
    /// - `Value` if a field has a value that it cannot have.
    pub fn from_bytes(bytes: &[u8]) -> Result<Self, BadState> {
        let mut from = Reader { bytes, offset: 0 };
        if bytes.starts_with(&VERSION_1) {
            return from.version_1();
        }
        if !bytes.starts_with(&MAGIC) {
            return Err(BadState::NoState);
        }
        from.offset = MAGIC.len();
        let version = from.number()?;
        if version != Self::VERSION {
            return Err(BadState::Version(version));
        }
        let len = from.take().map(u32::from_le_bytes)?;
        if usize::try_from(len) != Ok(bytes.len()) {
            return Err(BadState::Length {
                offset: LENGTH_OFFSET,
            });
        }
        from.parts()
    }
}
