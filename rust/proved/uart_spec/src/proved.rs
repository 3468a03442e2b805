//! Definitions of `uart_spec`: what needs no access to a chip: its registers, the arithmetic of baud rates, configurations, errors, the trait of a backend.
//!
//! Each is one that a section "Proved" of a call names. The text and the comments are those of `crates/*/specs`, where the contracts are.
//!
//! How is a section read? It has a line for each clause of the call's contract, which the prover has checked against the body of the call. What
//! a section does not say is not promised. A name that is a link is a definition: its page has the definition itself, and the words behind it
//! are the comment there. The clauses stand beneath, word by word.
//!
//! | in a clause | is |
//! |---|---|
//! | `result` | what the call returns |
//! | `x.now` | the value behind a reference |
//! | `x.old`, `x.new` | the values behind a mutable reference, or of `self`, before and after the call |
//! | `≡`, `≢` | equal, not equal |
//! | `×`, `⊎`, `→`, `↔`, `⊥` | and, or, if .. then, exactly if, never |
//! | `λ x. P` | what `P` says of an `x` |
//! | `(x : T) → P` | `P` for each `x` of this type |
//! | `(x : T) × P` | `P` for some `x` of this type |
//! | `IfOk result P`, `IfErr result P` | if the result is `Ok`, or `Err`, `P` of its value |
//! | `[]`, `∷`, `++` | an empty list, an item in front of a list, two lists in a row |
//! | `length`, `take n`, `drop n` | of a list: its length, its first `n` items, all but these |
//!
//! What is trusted beside the prover is said by `docs/RUST.md` of the repository.

/// Registers as sets of bits, and fields of neighbouring bits.
///
/// From `crates/uart_spec/specs/Bits.antt`.
///
/// <span id="has"></span>
///
/// # `has`
///
/// Whether all of these bits are set in the value.
///
/// ```text
/// abbrev pub has : ℕ → ℕ → Bool
/// has value bits = bit_and value bits == bits
/// ```
///
/// <span id="has_any"></span>
///
/// # `has_any`
///
/// The value has at least one of these bits.
///
/// ```text
/// abbrev pub has_any : ℕ → ℕ → Bool
/// has_any value bits = not (bit_and value bits == 0)
/// ```
///
/// <span id="IsWithin"></span>
///
/// # `IsWithin`
///
/// No bit outside of the mask is set.
///
/// ```text
/// abbrev pub IsWithin : ℕ → ℕ → Type 0
/// IsWithin value mask = bit_and value mask ≡ value
/// ```
///
/// <span id="flag"></span>
///
/// # `flag`
///
/// These bits if the flag is set, else no bits.
///
/// ```text
/// abbrev pub flag : Bool → ℕ → ℕ
/// flag on bits = if on then bits else 0
/// ```
///
/// <span id="field"></span>
///
/// # `field`
///
/// The number in a field, which is given by its lowest bit and its width.
///
/// ```text
/// abbrev pub field : (lowest width value : ℕ) → ℕ
/// field lowest width value = value / 2 ^ lowest % 2 ^ width
/// ```
///
/// <span id="SameOutside"></span>
///
/// # `SameOutside`
///
/// The eight bits are the same in both values, except those of a field.
///
/// ```text
/// abbrev pub SameOutside : (lowest width old new : ℕ) → Type 0
/// SameOutside lowest width old new =
///     (place : ℕ) →
///     -- it is one of the eight bits
///     place < 8 →
///     -- it is none of the field
///     (place < lowest) ⊎ (lowest + width ≤ place) → field place 1 new ≡ field place 1 old
/// ```
///
/// It uses [`field`](crate::proved::bits#field).
///
/// <span id="IsOnly"></span>
///
/// # `IsOnly`
///
/// This value and no other has the property.
///
/// ```text
/// abbrev pub IsOnly : {A : Type 0} → (A → Type 0) → A → Type 0
/// IsOnly {A} P x = (y : A) → (x ≡ y) ↔ P y
/// ```
///
/// <span id="IsOnlyIfAny"></span>
///
/// # `IsOnlyIfAny`
///
/// The one value that has the property, or none if no value has it.
///
/// ```text
/// abbrev pub IsOnlyIfAny : {A : Type 0} → (A → Type 0) → Option A → Type 0
/// IsOnlyIfAny {A} P o = (y : A) → (o ≡ Some y) ↔ P y
/// ```
#[doc(alias("has", "has_any", "IsWithin", "flag", "field", "SameOutside", "IsOnly", "IsOnlyIfAny"))]
pub mod bits {}

/// The codes of the fields of FCR, LCR and ISR.
///
/// From `crates/uart_spec/specs/Fields.antt`.
///
/// <span id="trigger_code"></span>
///
/// # `trigger_code`
///
/// The two-bit code of a trigger level.
///
/// ```text
/// abbrev pub trigger_code : FifoTriggerLevel → ℕ
/// trigger_code One = 0
/// trigger_code Four = 1
/// trigger_code Eight = 2
/// trigger_code Fourteen = 3
/// ```
///
/// <span id="word_length_code"></span>
///
/// # `word_length_code`
///
/// The two-bit code of a word length.
///
/// ```text
/// abbrev pub word_length_code : WordLength → ℕ
/// word_length_code FiveBits = 0
/// word_length_code SixBits = 1
/// word_length_code SevenBits = 2
/// word_length_code EightBits = 3
/// ```
///
/// <span id="word_length_bits"></span>
///
/// # `word_length_bits`
///
/// The number of data bits of a word length.
///
/// ```text
/// abbrev pub word_length_bits : (length : WordLength) → ℕ
/// word_length_bits length = 5 + word_length_code length
/// ```
///
/// It uses [`word_length_code`](crate::proved::fields#word_length_code).
///
/// <span id="parity_code"></span>
///
/// # `parity_code`
///
/// The three-bit code of a parity.
///
/// ```text
/// abbrev pub parity_code : (parity : Parity) → ℕ
/// parity_code Disabled = 0
/// parity_code Odd = 1
/// parity_code Even = 3
/// parity_code Forced1 = 5
/// parity_code Forced0 = 7
/// ```
///
/// <span id="HasTrigger"></span>
///
/// # `HasTrigger`
///
/// The two bits from the lowest on are the code of this trigger level.
///
/// ```text
/// abbrev pub HasTrigger : (lowest value : ℕ) → FifoTriggerLevel → Type 0
/// HasTrigger lowest value level = field lowest 2 value ≡ trigger_code level
/// ```
///
/// It uses [`field`](crate::proved::bits#field), [`trigger_code`](crate::proved::fields#trigger_code).
///
/// <span id="HasWordLength"></span>
///
/// # `HasWordLength`
///
/// The two bits from the lowest on are the code of this word length.
///
/// ```text
/// abbrev pub HasWordLength : (lowest value : ℕ) → WordLength → Type 0
/// HasWordLength lowest value length = field lowest 2 value ≡ word_length_code length
/// ```
///
/// It uses [`field`](crate::proved::bits#field), [`word_length_code`](crate::proved::fields#word_length_code).
///
/// <span id="HasParity"></span>
///
/// # `HasParity`
///
/// The three bits from the lowest on are a code of this parity.
///
/// ```text
/// abbrev pub HasParity : (lowest value : ℕ) → Parity → Type 0
/// HasParity lowest value parity = field lowest (parity_places parity) value ≡ parity_code parity
/// ```
///
/// It uses [`field`](crate::proved::bits#field), [`parity_code`](crate::proved::fields#parity_code); `parity_places` of this file.
///
/// <span id="interrupt_code"></span>
///
/// # `interrupt_code`
///
/// The identification code of an interrupt, bits 1 to 3 of ISR.
///
/// ```text
/// abbrev pub interrupt_code : InterruptType → ℕ
/// interrupt_code interrupt = (interrupt_row interrupt).0
/// ```
///
/// It uses `interrupt_row` of this file.
///
/// <span id="priority"></span>
///
/// # `priority`
///
/// The priority of an interrupt; 1 is the highest.
///
/// ```text
/// abbrev pub priority : InterruptType → ℕ
/// priority interrupt = (interrupt_row interrupt).1
/// ```
///
/// It uses `interrupt_row` of this file.
///
/// <span id="Identifies"></span>
///
/// # `Identifies`
///
/// Bit 0 is clear, so an interrupt is pending, and the code is that of this interrupt.
///
/// ```text
/// abbrev pub Identifies : ℕ → InterruptType → Type 0
/// Identifies isr interrupt = (field 0 1 isr ≡ 0) × (field 1 3 isr ≡ interrupt_code interrupt)
/// ```
///
/// It uses [`field`](crate::proved::bits#field), [`interrupt_code`](crate::proved::fields#interrupt_code).
#[doc(alias("trigger_code", "word_length_code", "word_length_bits", "parity_code", "HasTrigger", "HasWordLength", "HasParity", "interrupt_code", "priority", "Identifies"))]
pub mod fields {}

/// The modem lines that MSR shows, and which of them changed.
///
/// From `crates/uart_spec/specs/Lines.antt`.
///
/// <span id="line_changes"></span>
///
/// # `line_changes`
///
/// The changes of the lines between two readings, as their bits in MSR: of RI only its trailing edge.
///
/// ```text
/// abbrev pub line_changes : (before now : ℕ) → ℕ
/// line_changes before now =
///     let cts = flag (is_changed before now MSR.CTS.0) MSR.DELTA_CTS.0 in
///     let dsr = flag (is_changed before now MSR.DSR.0) MSR.DELTA_DSR.0 in
///     let ri = flag (has_any before MSR.RI.0 && not (has_any now MSR.RI.0)) MSR.TRAILING_EDGE_RI.0 in
///     let cd = flag (is_changed before now MSR.CD.0) MSR.DELTA_CD.0 in
///     bit_or (bit_or cts dsr) (bit_or ri cd)
/// ```
///
/// It uses [`flag`](crate::proved::bits#flag), [`has_any`](crate::proved::bits#has_any); `is_changed` of this file.
#[doc(alias("line_changes"))]
pub mod lines {}

/// The arithmetic of the baud rate generator.
///
/// From `crates/uart_spec/specs/Baud.antt`.
///
/// <span id="prescaler"></span>
///
/// # `prescaler`
///
/// The prescaler division factor, 0 if there is none.
///
/// ```text
/// abbrev pub prescaler : Option ℕ → ℕ
/// prescaler factor = unwrap_or factor 0
/// ```
///
/// <span id="frequency_of"></span>
///
/// # `frequency_of`
///
/// The clock frequency at which a divisor gives a baud rate: 16 times the prescaler plus 1, times rate, times divisor.
///
/// ```text
/// abbrev pub frequency_of : (baud_rate divisor : ℕ) → Option ℕ → ℕ
/// frequency_of baud_rate divisor factor = 16 * (prescaler factor + 1) * baud_rate * divisor
/// ```
///
/// It uses [`prescaler`](crate::proved::baud#prescaler).
///
/// <span id="IsBaudRateAnswer"></span>
///
/// # `IsBaudRateAnswer`
///
/// The baud rate that this divisor gives exactly; or an error with the arguments, if it gives no whole one.
///
/// ```text
/// abbrev pub IsBaudRateAnswer : (frequency divisor : ℕ) → Option ℕ → Result ℕ NonIntegerBaudRateError → Type 0
/// IsBaudRateAnswer frequency divisor factor (Ok baud_rate) = frequency_of baud_rate divisor factor ≡ frequency
/// IsBaudRateAnswer frequency divisor factor (Err error) =
///     ((baud_rate : ℕ) → frequency_of baud_rate divisor factor ≢ frequency)
///     × (error ≡ record { frequency = frequency; divisor = divisor; prescaler_division_factor = factor })
/// ```
///
/// It uses [`frequency_of`](crate::proved::baud#frequency_of).
///
/// <span id="IsDivisorAnswer"></span>
///
/// # `IsDivisorAnswer`
///
/// The divisor that gives exactly this baud rate, if it fits into the divisor latch; an error with the divisor if it does not fit; an error with the arguments if no whole divisor does.
///
/// ```text
/// abbrev pub IsDivisorAnswer : (frequency baud_rate : ℕ) → Option ℕ → Result ℕ InvalidDivisorError → Type 0
/// IsDivisorAnswer frequency baud_rate factor (Ok divisor) =
///     (frequency_of baud_rate divisor factor ≡ frequency) × (1 ≤ divisor) × (divisor ≤ 65535)
/// IsDivisorAnswer frequency baud_rate factor (Err (OutOfRange divisor)) =
///     (frequency_of baud_rate divisor factor ≡ frequency) × (65535 < divisor)
/// IsDivisorAnswer frequency baud_rate factor (Err (NonInteger error)) =
///     ((divisor : ℕ) → frequency_of baud_rate divisor factor ≢ frequency)
///     × (error ≡ record { frequency = frequency; baud_rate = baud_rate; prescaler_division_factor = factor })
/// ```
///
/// It uses [`frequency_of`](crate::proved::baud#frequency_of).
#[doc(alias("prescaler", "frequency_of", "IsBaudRateAnswer", "IsDivisorAnswer"))]
pub mod baud {}

/// The divisors of the usual clock that give a whole baud rate.
///
/// From `crates/uart_spec/specs/Divisors.antt`.
///
/// <span id="number"></span>
///
/// # `number`
///
/// A case of `Divisor` as a number.
///
/// ```text
/// abbrev pub number : Divisor → ℕ
/// number Divisor1 = 1
/// number Divisor2 = 2
/// number Divisor3 = 3
/// number Divisor4 = 4
/// number Divisor5 = 5
/// number Divisor6 = 6
/// number Divisor8 = 8
/// number Divisor9 = 9
/// number Divisor10 = 10
/// number Divisor12 = 12
/// number Divisor15 = 15
/// number Divisor16 = 16
/// number Divisor18 = 18
/// number Divisor20 = 20
/// number Divisor24 = 24
/// number Divisor25 = 25
/// number Divisor30 = 30
/// number Divisor32 = 32
/// number Divisor36 = 36
/// number Divisor40 = 40
/// number Divisor45 = 45
/// number Divisor48 = 48
/// number Divisor50 = 50
/// number Divisor60 = 60
/// number Divisor64 = 64
/// number Divisor72 = 72
/// number Divisor75 = 75
/// number Divisor80 = 80
/// number Divisor90 = 90
/// number Divisor96 = 96
/// number Divisor100 = 100
/// number Divisor120 = 120
/// number Divisor128 = 128
/// number Divisor144 = 144
/// number Divisor150 = 150
/// number Divisor160 = 160
/// number Divisor180 = 180
/// number Divisor192 = 192
/// number Divisor200 = 200
/// number Divisor225 = 225
/// number Divisor240 = 240
/// number Divisor256 = 256
/// number Divisor288 = 288
/// number Divisor300 = 300
/// number Divisor320 = 320
/// number Divisor360 = 360
/// number Divisor384 = 384
/// number Divisor400 = 400
/// number Divisor450 = 450
/// number Divisor480 = 480
/// number Divisor512 = 512
/// number Divisor576 = 576
/// number Divisor600 = 600
/// number Divisor640 = 640
/// number Divisor720 = 720
/// number Divisor768 = 768
/// number Divisor800 = 800
/// number Divisor900 = 900
/// number Divisor960 = 960
/// number Divisor1152 = 1152
/// number Divisor1200 = 1200
/// number Divisor1280 = 1280
/// number Divisor1440 = 1440
/// number Divisor1536 = 1536
/// number Divisor1600 = 1600
/// number Divisor1800 = 1800
/// number Divisor1920 = 1920
/// number Divisor2304 = 2304
/// number Divisor2400 = 2400
/// number Divisor2560 = 2560
/// number Divisor2880 = 2880
/// number Divisor3200 = 3200
/// number Divisor3600 = 3600
/// number Divisor3840 = 3840
/// number Divisor4608 = 4608
/// number Divisor4800 = 4800
/// number Divisor5760 = 5760
/// number Divisor6400 = 6400
/// number Divisor7200 = 7200
/// number Divisor7680 = 7680
/// number Divisor9600 = 9600
/// number Divisor11520 = 11520
/// number Divisor12800 = 12800
/// number Divisor14400 = 14400
/// number Divisor19200 = 19200
/// number Divisor23040 = 23040
/// number Divisor28800 = 28800
/// number Divisor38400 = 38400
/// number Divisor57600 = 57600
/// ```
///
/// <span id="IsDivisor"></span>
///
/// # `IsDivisor`
///
/// The number divides 115,200, the baud rate of divisor 1, and fits into the divisor latch.
///
/// ```text
/// abbrev pub IsDivisor : ℕ → Type 0
/// IsDivisor n = (n ≤ 65535) × ((rate : ℕ) × (n * rate ≡ 115200))
/// ```
#[doc(alias("number", "IsDivisor"))]
pub mod divisors {}

/// Baud rates as numbers, and their order.
///
/// From `crates/uart_spec/specs/BaudRate.antt`.
///
/// <span id="to_integer"></span>
///
/// # `to_integer`
///
/// The number of bits per second.
///
/// ```text
/// abbrev pub to_integer : BaudRate → ℕ
/// to_integer (Custom rate) = rate
/// to_integer Baud115200 = 115200
/// to_integer Baud57600 = 57600
/// to_integer Baud38400 = 38400
/// to_integer Baud9600 = 9600
/// to_integer Baud4800 = 4800
/// to_integer Baud2400 = 2400
/// to_integer Baud1200 = 1200
/// to_integer Baud600 = 600
/// to_integer Baud300 = 300
/// to_integer Baud150 = 150
/// to_integer Baud110 = 110
/// ```
///
/// <span id="IsNamed"></span>
///
/// # `IsNamed`
///
/// The case has a name: it is not `Custom`.
///
/// ```text
/// abbrev pub IsNamed : BaudRate → Type 0
/// IsNamed rate = rank rate ≡ 0
/// ```
///
/// It uses `rank` of this file.
#[doc(alias("to_integer", "IsNamed"))]
pub mod baud_rate {}

/// The configurations for which a divisor can be computed.
///
/// From `crates/uart_spec/specs/Config.antt`.
///
/// <span id="IsComputable"></span>
///
/// # `IsComputable`
///
/// Frequency and baud rate are not zero, and the prescaler division factor is absent or at most 15.
///
/// ```text
/// pub record IsComputable (config : Config) : Type 0 where
///   pub frequency : 0 < config.frequency
///   pub baud_rate : 0 < to_integer config.baud_rate
///   pub prescaler_division_factor : prescaler config.prescaler_division_factor ≤ 15
/// ```
///
/// It uses [`to_integer`](crate::proved::baud_rate#to_integer), [`prescaler`](crate::proved::baud#prescaler).
///
/// <span id="IsNearestAnswer"></span>
///
/// # `IsNearestAnswer`
///
/// The configuration with the frequency at which the nearest divisor is exact, so that it is the one that the exact arithmetic computes, and the rate is near enough; or the nearest divisor, which does not fit, or fits and is too far off, as each other divisor then is.
///
/// ```text
/// abbrev pub IsNearestAnswer : Config → (per_mille : ℕ) → Result Config NearestDivisorError → Type 0
/// IsNearestAnswer config per_mille (Ok near) = (divisor : ℕ) × IsNearestFor config divisor
///     × (near ≡ record config { frequency = exact_frequency config divisor })
///     × IsDivisorAnswer near.frequency (to_integer near.baud_rate) near.prescaler_division_factor (Ok divisor)
///     × IsNear config.frequency near.frequency per_mille
/// IsNearestAnswer config per_mille (Err (TooFar divisor)) = IsNearestFor config divisor × Fits config divisor
///     × NoneIsNear config per_mille
/// IsNearestAnswer config per_mille (Err (OutOfRange divisor)) = IsNearestFor config divisor
///     × ((65535 < divisor) ⊎ (2 ^ 32 ≤ exact_frequency config divisor))
/// ```
///
/// It uses [`IsDivisorAnswer`](crate::proved::baud#IsDivisorAnswer), [`to_integer`](crate::proved::baud_rate#to_integer); `IsNearestFor`, `exact_frequency`, `Fits`, `NoneIsNear` of this file; `IsNear` of `crates/uart_spec/specs/Baud.antt`.
#[doc(alias("IsComputable", "IsNearestAnswer"))]
pub mod config {}

/// The divisor and the baud rate of a register dump.
///
/// From `crates/uart_spec/specs/Dump.antt`.
///
/// <span id="divisor_of"></span>
///
/// # `divisor_of`
///
/// The divisor that a dump shows.
///
/// ```text
/// abbrev pub divisor_of : ConfigRegisterDump → ℕ
/// divisor_of dump = 256 * dump.dlm + dump.dll
/// ```
///
/// <span id="IsDumpRate"></span>
///
/// # `IsDumpRate`
///
/// The baud rate that a dump's divisor gives, with its name if it has one; or an error if it is not a whole number.
///
/// ```text
/// abbrev pub IsDumpRate : Config → ConfigRegisterDump → Result BaudRate NonIntegerBaudRateError → Type 0
/// IsDumpRate config dump (Ok rate) =
///     IsBaudRateAnswer config.frequency (divisor_of dump) config.prescaler_division_factor (Ok (to_integer rate))
///     × ((named : BaudRate) → IsNamed named → to_integer named ≡ to_integer rate → rate ≡ named)
/// IsDumpRate config dump (Err e) =
///     IsBaudRateAnswer config.frequency (divisor_of dump) config.prescaler_division_factor (Err e)
/// ```
///
/// It uses [`IsBaudRateAnswer`](crate::proved::baud#IsBaudRateAnswer), [`divisor_of`](crate::proved::dump#divisor_of), [`to_integer`](crate::proved::baud_rate#to_integer), [`IsNamed`](crate::proved::baud_rate#IsNamed).
#[doc(alias("divisor_of", "IsDumpRate"))]
pub mod dump {}

/// The sizes of transmitter FIFOs.
///
/// From `crates/uart_spec/specs/FifoSize.antt`.
///
/// <span id="characters"></span>
///
/// # `characters`
///
/// The number of characters of a FIFO of this size.
///
/// ```text
/// abbrev pub characters : FifoSize → ℕ
/// characters Sixteen = 16
/// characters ThirtyTwo = 32
/// characters SixtyFour = 64
/// characters OneHundredTwentyEight = 128
/// characters TwoHundredFiftySix = 256
/// ```
///
/// <span id="IsLargestUpTo"></span>
///
/// # `IsLargestUpTo`
///
/// The largest size of no more than so many characters; none, if the smallest has more.
///
/// ```text
/// abbrev pub IsLargestUpTo : (count : ℕ) → Option FifoSize → Type 0
/// IsLargestUpTo count None = count < characters Sixteen
/// IsLargestUpTo count (Some size) =
///     (characters size ≤ count) × ((other : FifoSize) → characters other ≤ count → characters other ≤ characters size)
/// ```
///
/// It uses [`characters`](crate::proved::fifo_size#characters).
#[doc(alias("characters", "IsLargestUpTo"))]
pub mod fifo_size {}

/// The arithmetic of the baud rate generator for arguments that it does not have to accept.
///
/// From `crates/uart_spec/specs/Checked.antt`.
///
/// <span id="IsAccepted"></span>
///
/// # `IsAccepted`
///
/// The arithmetic accepts two numbers and a prescaler division factor: no number is zero, and the factor is absent or at most 15.
///
/// ```text
/// pub record IsAccepted (first second : ℕ) (prescaler_division_factor : Option ℕ) : Type 0 where
///   pub one : 0 < first
///   pub other : 0 < second
///   pub factor : prescaler prescaler_division_factor ≤ 15
/// ```
///
/// It uses [`prescaler`](crate::proved::baud#prescaler).
///
/// <span id="IsFrequency"></span>
///
/// # `IsFrequency`
///
/// The frequency at which a divisor gives a baud rate.
///
/// ```text
/// pub record IsFrequency (baud_rate divisor : ℕ) (factor : Option ℕ) (frequency : ℕ) : Type 0 where
///   pub accepted : IsAccepted baud_rate divisor factor
///   pub is : frequency ≡ frequency_of baud_rate divisor factor
/// ```
///
/// It uses [`IsAccepted`](crate::proved::checked#IsAccepted), [`frequency_of`](crate::proved::baud#frequency_of).
///
/// <span id="HasNoFrequency"></span>
///
/// # `HasNoFrequency`
///
/// The arithmetic does not accept these, or the frequency does not fit into 32 bits.
///
/// ```text
/// abbrev pub HasNoFrequency : (baud_rate divisor : ℕ) → Option ℕ → Type 0
/// HasNoFrequency baud_rate divisor factor =
///     IsNotAccepted baud_rate divisor factor ⊎ (2 ^ 32 ≤ frequency_of baud_rate divisor factor)
/// ```
///
/// It uses [`frequency_of`](crate::proved::baud#frequency_of); `IsNotAccepted` of this file.
///
/// <span id="IsCheckedRate"></span>
///
/// # `IsCheckedRate`
///
/// The baud rate of a divisor; or an error with the arguments, if it is no whole one or the arithmetic does not accept them.
///
/// ```text
/// abbrev pub IsCheckedRate : (frequency divisor : ℕ) → Option ℕ → Result ℕ NonIntegerBaudRateError → Type 0
/// IsCheckedRate frequency divisor factor (Ok baud_rate) =
///     IsAccepted frequency divisor factor × IsBaudRateAnswer frequency divisor factor (Ok baud_rate)
/// IsCheckedRate frequency divisor factor (Err error) =
///     (IsNotAccepted frequency divisor factor ⊎ ((baud_rate : ℕ) → frequency_of baud_rate divisor factor ≢ frequency))
///     × (error ≡ record { frequency = frequency; divisor = divisor; prescaler_division_factor = factor })
/// ```
///
/// It uses [`IsAccepted`](crate::proved::checked#IsAccepted), [`IsBaudRateAnswer`](crate::proved::baud#IsBaudRateAnswer), [`frequency_of`](crate::proved::baud#frequency_of); `IsNotAccepted` of this file.
///
/// <span id="IsRefusal"></span>
///
/// # `IsRefusal`
///
/// Why the arithmetic does not accept a frequency and a baud rate: no divisor gives a baud rate of zero, or has a factor above 15; otherwise a frequency of zero has the divisor 0, which does not fit into the divisor latch.
///
/// ```text
/// abbrev pub IsRefusal : (frequency baud_rate : ℕ) → Option ℕ → InvalidDivisorError → Type 0
/// IsRefusal frequency baud_rate factor (NonInteger error) =
///     ((baud_rate ≡ 0) ⊎ (15 < prescaler factor))
///     × (error ≡ record { frequency = frequency; baud_rate = baud_rate; prescaler_division_factor = factor })
/// IsRefusal frequency baud_rate factor (OutOfRange divisor) =
///     (frequency ≡ 0) × (0 < baud_rate) × (prescaler factor ≤ 15) × (divisor ≡ 0)
/// ```
///
/// It uses [`prescaler`](crate::proved::baud#prescaler).
///
/// <span id="IsCheckedDivisor"></span>
///
/// # `IsCheckedDivisor`
///
/// The answer of the arithmetic if it accepts these, and otherwise why it does not.
///
/// ```text
/// abbrev pub IsCheckedDivisor : (frequency baud_rate : ℕ) → Option ℕ → Result ℕ InvalidDivisorError → Type 0
/// IsCheckedDivisor frequency baud_rate factor (Ok divisor) =
///     IsAccepted frequency baud_rate factor × IsDivisorAnswer frequency baud_rate factor (Ok divisor)
/// IsCheckedDivisor frequency baud_rate factor (Err error) =
///     (IsAccepted frequency baud_rate factor × IsDivisorAnswer frequency baud_rate factor (Err error))
///     ⊎ IsRefusal frequency baud_rate factor error
/// ```
///
/// It uses [`IsAccepted`](crate::proved::checked#IsAccepted), [`IsDivisorAnswer`](crate::proved::baud#IsDivisorAnswer), [`IsRefusal`](crate::proved::checked#IsRefusal).
///
/// <span id="IsCheckedNearest"></span>
///
/// # `IsCheckedNearest`
///
/// The answer of `nearest` for a computable configuration, and otherwise an error that has the divisor 0.
///
/// ```text
/// abbrev pub IsCheckedNearest : Config → (per_mille : ℕ) → Result Config NearestDivisorError → Type 0
/// IsCheckedNearest config per_mille result =
///     (IsComputable config × IsNearestAnswer config per_mille result)
///     ⊎ (IsNotAccepted config.frequency (to_integer config.baud_rate) config.prescaler_division_factor
///     × (result ≡ Err (nearest.OutOfRange 0)))
/// ```
///
/// It uses [`IsComputable`](crate::proved::config#IsComputable), [`IsNearestAnswer`](crate::proved::config#IsNearestAnswer), [`to_integer`](crate::proved::baud_rate#to_integer); `IsNotAccepted` of this file.
///
/// <span id="IsCheckedDumpRate"></span>
///
/// # `IsCheckedDumpRate`
///
/// The baud rate of a dump, as `IsCheckedRate` says it of the divisor there, with its name if it has one.
///
/// ```text
/// abbrev pub IsCheckedDumpRate : Config → ConfigRegisterDump → Result BaudRate NonIntegerBaudRateError → Type 0
/// IsCheckedDumpRate config dump (Ok rate) =
///     IsCheckedRate config.frequency (divisor_of dump) config.prescaler_division_factor (Ok (to_integer rate))
///     × ((named : BaudRate) → IsNamed named → to_integer named ≡ to_integer rate → rate ≡ named)
/// IsCheckedDumpRate config dump (Err e) =
///     IsCheckedRate config.frequency (divisor_of dump) config.prescaler_division_factor (Err e)
/// ```
///
/// It uses [`IsCheckedRate`](crate::proved::checked#IsCheckedRate), [`divisor_of`](crate::proved::dump#divisor_of), [`to_integer`](crate::proved::baud_rate#to_integer), [`IsNamed`](crate::proved::baud_rate#IsNamed).
#[doc(alias("IsAccepted", "IsFrequency", "HasNoFrequency", "IsCheckedRate", "IsRefusal", "IsCheckedDivisor", "IsCheckedNearest", "IsCheckedDumpRate"))]
pub mod checked {}

/// How the registers of a device lie at ports and in memory.
///
/// From `crates/uart_spec/specs/Layout.antt`.
///
/// <span id="bytes_of"></span>
///
/// # `bytes_of`
///
/// How many bytes an access of this width has.
///
/// ```text
/// abbrev pub bytes_of : RegisterWidth → ℕ
/// bytes_of Bits8 = 1
/// bytes_of Bits16 = 2
/// bytes_of Bits32 = 4
/// ```
///
/// <span id="ArePorts"></span>
///
/// # `ArePorts`
///
/// The eight ports from this one on exist: there are 65,536.
///
/// ```text
/// abbrev pub ArePorts : (base : ℕ) → Type 0
/// ArePorts base = base + offsets.SPR ≤ 65535
/// ```
///
/// <span id="IsSpaced"></span>
///
/// # `IsSpaced`
///
/// Registers are a power of two apart, and the last one, whose number this is, has an address below 2^64.
///
/// ```text
/// pub record IsSpaced (base stride last : ℕ) : Type 0 where
///   pub power : IsTrue (is_power_of_two stride)
///   pub in_range : base + last * stride < 2 ^ 64
/// ```
///
/// <span id="IsSpacingRefusal"></span>
///
/// # `IsSpacingRefusal`
///
/// Why registers cannot be so: the distance is checked first.
///
/// ```text
/// abbrev pub IsSpacingRefusal : (base stride last : ℕ) → InvalidAddressError → Type 0
/// IsSpacingRefusal base stride last (InvalidStride s) = (s ≡ stride) × (is_power_of_two stride ≡ false)
/// IsSpacingRefusal base stride last (InvalidBaseAddress a) =
///     (a ≡ base) × IsTrue (is_power_of_two stride) × (2 ^ 64 ≤ base + last * stride)
/// ```
///
/// <span id="IsLaidOut"></span>
///
/// # `IsLaidOut`
///
/// Eight registers can lie so from this address on: no two overlap, and each is aligned to its width.
///
/// ```text
/// pub record IsLaidOut (base : ℕ) (layout : RegisterLayout) : Type 0 where
///   pub spaced : IsSpaced base layout.stride offsets.SPR
///   pub apart : bytes_of layout.width ≤ layout.stride
///   pub aligned : base % bytes_of layout.width ≡ 0
/// ```
///
/// It uses [`IsSpaced`](crate::proved::layout#IsSpaced), [`bytes_of`](crate::proved::layout#bytes_of).
///
/// <span id="IsLayoutRefusal"></span>
///
/// # `IsLayoutRefusal`
///
/// Why they cannot, in the order of the checks.
///
/// ```text
/// abbrev pub IsLayoutRefusal : (base : ℕ) → RegisterLayout → InvalidLayoutError → Type 0
/// IsLayoutRefusal base layout (InvalidAddress cause) = IsSpacingRefusal base layout.stride offsets.SPR cause
/// IsLayoutRefusal base layout (StrideTooSmall stride width) =
///     IsSpaced base layout.stride offsets.SPR
///     × (stride ≡ layout.stride) × (width ≡ layout.width) × (stride < bytes_of width)
/// IsLayoutRefusal base layout (MisalignedBase address width) =
///     IsSpaced base layout.stride offsets.SPR × (bytes_of layout.width ≤ layout.stride)
///     × (address ≡ base) × (width ≡ layout.width) × (0 < address % bytes_of width)
/// ```
///
/// It uses [`IsSpacingRefusal`](crate::proved::layout#IsSpacingRefusal), [`IsSpaced`](crate::proved::layout#IsSpaced), [`bytes_of`](crate::proved::layout#bytes_of).
#[doc(alias("bytes_of", "ArePorts", "IsSpaced", "IsSpacingRefusal", "IsLaidOut", "IsLayoutRefusal"))]
pub mod layout {}

/// How long a character takes on the line, and how late a handler may be for which characters wait: in clocks of the chip's input, so that nothing is rounded.
///
/// From `crates/uart_spec/specs/Timing.antt`.
///
/// <span id="IsCharacterAnswer"></span>
///
/// # `IsCharacterAnswer`
///
/// The time of a character, if there is a divisor for the baud rate; otherwise why there is none.
///
/// ```text
/// abbrev pub IsCharacterAnswer : Config → Result ℕ InvalidDivisorError → Type 0
/// IsCharacterAnswer config (Ok clocks) =
///     (divisor : ℕ) × HasDivisor config (Ok divisor) × IsCharacterTime config clocks
/// IsCharacterAnswer config (Err error) = HasDivisor config (Err error)
/// ```
///
/// It uses `HasDivisor`, `IsCharacterTime` of this file.
///
/// <span id="characters_at"></span>
///
/// # `characters_at`
///
/// How many characters wait in a FIFO of this size when its trigger level is reached: the levels have the names that they have for 16; those of larger FIFOs are as the chips have them.
///
/// ```text
/// abbrev pub characters_at : FifoSize → FifoTriggerLevel → ℕ
/// characters_at Sixteen One = 1
/// characters_at Sixteen Four = 4
/// characters_at Sixteen Eight = 8
/// characters_at Sixteen Fourteen = 14
/// characters_at ThirtyTwo One = 8
/// characters_at ThirtyTwo Four = 16
/// characters_at ThirtyTwo Eight = 24
/// characters_at ThirtyTwo Fourteen = 28
/// characters_at SixtyFour One = 1
/// characters_at SixtyFour Four = 16
/// characters_at SixtyFour Eight = 32
/// characters_at SixtyFour Fourteen = 56
/// characters_at OneHundredTwentyEight One = 16
/// characters_at OneHundredTwentyEight Four = 32
/// characters_at OneHundredTwentyEight Eight = 112
/// characters_at OneHundredTwentyEight Fourteen = 120
/// characters_at TwoHundredFiftySix One = 1
/// characters_at TwoHundredFiftySix Four = 64
/// characters_at TwoHundredFiftySix Eight = 128
/// characters_at TwoHundredFiftySix Fourteen = 254
/// ```
///
/// <span id="IsHandlerAnswer"></span>
///
/// # `IsHandlerAnswer`
///
/// One clock less than the time in which the receiver fills up from there, and one more character comes.
///
/// ```text
/// abbrev pub IsHandlerAnswer : Config → FifoSize → Result ℕ InvalidDivisorError → Type 0
/// IsHandlerAnswer config size (Ok clocks) =
///     (character : ℕ) × IsCharacterAnswer config (Ok character)
///     × (clocks + 1 ≡ (spare_at size config.fifo_trigger_level + 1) * character)
/// IsHandlerAnswer config size (Err error) = IsCharacterAnswer config (Err error)
/// ```
///
/// It uses [`IsCharacterAnswer`](crate::proved::timing#IsCharacterAnswer); `spare_at` of this file.
///
/// <span id="IsHandlerBudget"></span>
///
/// # `IsHandlerBudget`
///
/// How late it may begin where an access takes e clocks, and the others at its line are served first: an access reads ISR, and the first byte is read four accesses later if a line error is told before it. It is in time if something is left, and no character comes while another one is read, by two accesses.
///
/// ```text
/// abbrev pub IsHandlerBudget : Config → FifoSize → (e before : ℕ) → Result (Option ℕ) InvalidDivisorError → Type 0
/// IsHandlerBudget config size e before (Ok (Some clocks)) =
///     (character : ℕ) × IsCharacterAnswer config (Ok character) × (2 * e ≤ character)
///     × (clocks + before + 4 * e + 1 ≡ (spare_at size config.fifo_trigger_level + 1) * character)
/// IsHandlerBudget config size e before (Ok None) =
///     (character : ℕ) × IsCharacterAnswer config (Ok character)
///     × ((character < 2 * e) ⊎ ((spare_at size config.fifo_trigger_level + 1) * character < before + 4 * e + 1))
/// IsHandlerBudget config size e before (Err error) = IsCharacterAnswer config (Err error)
/// ```
///
/// It uses [`IsCharacterAnswer`](crate::proved::timing#IsCharacterAnswer); `spare_at` of this file.
///
/// <span id="IsCharactersAnswer"></span>
///
/// # `IsCharactersAnswer`
///
/// The most characters that end within so many clocks: one ends at once, and each other a character's time later.
///
/// ```text
/// abbrev pub IsCharactersAnswer : Config → (clocks : ℕ) → Result ℕ InvalidDivisorError → Type 0
/// IsCharactersAnswer config clocks (Ok count) =
///     (character : ℕ) × IsCharacterAnswer config (Ok character) × (clocks < count * character)
///     × (count * character ≤ clocks + character)
/// IsCharactersAnswer config clocks (Err error) = IsCharacterAnswer config (Err error)
/// ```
///
/// It uses [`IsCharacterAnswer`](crate::proved::timing#IsCharacterAnswer).
///
/// <span id="IsTimeOf"></span>
///
/// # `IsTimeOf`
///
/// The time of so many characters.
///
/// ```text
/// abbrev pub IsTimeOf : Config → (count : ℕ) → Result ℕ InvalidDivisorError → Type 0
/// IsTimeOf config count (Ok clocks) =
///     (character : ℕ) × IsCharacterAnswer config (Ok character) × (clocks ≡ count * character)
/// IsTimeOf config count (Err error) = IsCharacterAnswer config (Err error)
/// ```
///
/// It uses [`IsCharacterAnswer`](crate::proved::timing#IsCharacterAnswer).
///
/// <span id="IsSpinLimit"></span>
///
/// # `IsSpinLimit`
///
/// The limit with which no wait for a full transmitter gives up, of a FIFO and the shift register, if each look takes at least e clocks. A character is so many looks, of which the last may begin before it ends; and one look more finds that the next character has begun.
///
/// ```text
/// abbrev pub IsSpinLimit : Config → FifoSize → (e : ℕ) → Result (Option ℕ) InvalidDivisorError → Type 0
/// IsSpinLimit config size e (Ok (Some limit)) =
///     (character looks : ℕ) × IsCharacterAnswer config (Ok character) × (character ≤ looks * e)
///     × (looks * e < character + e) × (limit ≡ (characters size + 1) * (looks + 1))
/// IsSpinLimit config size e (Ok None) = e ≡ 0
/// IsSpinLimit config size e (Err error) = IsCharacterAnswer config (Err error)
/// ```
///
/// It uses [`IsCharacterAnswer`](crate::proved::timing#IsCharacterAnswer), [`characters`](crate::proved::fifo_size#characters).
///
/// <span id="IsWithin"></span>
///
/// # `IsWithin`
///
/// The whole part of value \* times / per, if there is one that fits into 64 bits.
///
/// ```text
/// abbrev pub IsWithin : (value times per : ℕ) → Option ℕ → Type 0
/// IsWithin value times per (Some whole) = (whole * per ≤ value * times) × (value * times < (whole + 1) * per)
/// IsWithin value times per None = (per ≡ 0) ⊎ (2 ^ 64 * per ≤ value * times)
/// ```
///
/// <span id="IsCovering"></span>
///
/// # `IsCovering`
///
/// The same rounded up.
///
/// ```text
/// abbrev pub IsCovering : (value times per : ℕ) → Option ℕ → Type 0
/// IsCovering value times per (Some whole) = (value * times ≤ whole * per) × (whole * per < value * times + per)
/// IsCovering value times per None = (per ≡ 0) ⊎ ((2 ^ 64 - 1) * per < value * times)
/// ```
#[doc(alias("IsCharacterAnswer", "characters_at", "IsHandlerAnswer", "IsHandlerBudget", "IsCharactersAnswer", "IsTimeOf", "IsSpinLimit", "IsWithin", "IsCovering"))]
pub mod timing {}
