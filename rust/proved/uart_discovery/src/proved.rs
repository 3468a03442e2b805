//! Definitions of `uart_discovery`: where a port is, from the bytes by which firmware tells it.
//!
//! Each is one that a section "Proved" of a call names. How a section is read is said [here](uart_spec::proved).

/// Tables of ACPI, by the offsets of their fields.
///
/// From `crates/uart_discovery/specs/Acpi.antt`.
///
/// <span id="table_of"></span>
///
/// # `table_of`
///
/// The bytes of a table, as many as its length says.
///
/// ```text
/// abbrev pub table_of : List ℕ → List ℕ
/// table_of bytes = take (le32 bytes 4) bytes
/// ```
///
/// It uses `le32` of `crates/uart_discovery/specs/Bytes.antt`.
///
/// <span id="IsTable"></span>
///
/// # `IsTable`
///
/// Bytes begin with a whole table that has this signature, and whose bytes have the sum 0.
///
/// ```text
/// pub record IsTable (signature bytes : List ℕ) : Type 0 where
///   pub signed : take 4 bytes ≡ signature
///   pub whole : le32 bytes 4 ≤ length bytes
///   pub header : 36 ≤ le32 bytes 4
///   pub summed : checksum (table_of bytes) ≡ 0
/// ```
///
/// It uses [`table_of`](crate::proved::acpi#table_of); `le32`, `checksum` of `crates/uart_discovery/specs/Bytes.antt`.
#[doc(alias("table_of", "IsTable"))]
pub mod acpi {}

/// The ACPI table SPCR, by the offsets of its fields.
///
/// From `crates/uart_discovery/specs/Spcr.antt`.
///
/// <span id="SPCR"></span>
///
/// # `SPCR`
///
/// The signature of the table.
///
/// ```text
/// abbrev pub SPCR : List ℕ
/// SPCR = codes "SPCR"
/// ```
///
/// <span id="SaysPort"></span>
///
/// # `SaysPort`
///
/// The table says that there is this port.
///
/// ```text
/// pub record SaysPort (table : List ℕ) (port : PortDescription) : Type 0 where
///   pub interface : IsTrue (is_16550 (slice_index table 36))
///   pub address : SaysAddress table 40 port.space port.base port.layout
///   pub clock : port.clock ≡ clock_of table
///   pub baud_rate : rate_of table ≡ Some port.baud_rate
///   pub frame : port.frame ≡ None
///   pub has_flow_control : port.has_flow_control ≡ has_flow_control table
///   pub interrupt : port.interrupt ≡ interrupt_of table
/// ```
///
/// It uses `is_16550`, `clock_of`, `rate_of`, `has_flow_control`, `interrupt_of` of this file; `SaysAddress` of `crates/uart_discovery/specs/Acpi.antt`.
///
/// <span id="IsFault"></span>
///
/// # `IsFault`
///
/// An error about the table, and about the bytes before it was known to be one.
///
/// ```text
/// abbrev pub IsFault : List ℕ → TableError → Type 0
/// IsFault bytes error =
///     IsHeaderFaultAt SPCR bytes error.offset error.fault ⊎ IsFieldFaultAt (table_of bytes) error.offset error.fault
/// ```
///
/// It uses [`SPCR`](crate::proved::spcr#SPCR), [`table_of`](crate::proved::acpi#table_of); `IsHeaderFaultAt` of `crates/uart_discovery/specs/Acpi.antt`; `IsFieldFaultAt` of this file.
#[doc(alias("SPCR", "SaysPort", "IsFault"))]
pub mod spcr {}

/// What the options `earlycon=` and `console=` of a kernel's command line say. In their text, with `[` and `]` around what may be left out, is: earlycon  NAME,\[ACCESS,\]0xADDRESS\[,OPTIONS\[,CLOCK\]\] console   ttyS0 to ttyS3\[,OPTIONS\], or as earlycon OPTIONS   RATE\[PARITY\[DATA BITS\[r\]\]\]
///
/// From `crates/uart_discovery/specs/CommandLine.antt`.
///
/// <span id="earlycon_of"></span>
///
/// # `earlycon_of`
///
/// The port that the value of `earlycon=` says, or the first part that is wrong.
///
/// ```text
/// unfoldable pub earlycon_of : ByteOrder → List ℕ → Result PortDescription OptionError
/// earlycon_of native text = do
///   named ← name_of (part text 0)
///   behind_name native text
/// ```
///
/// It uses `name_of`, `part`, `behind_name` of this file.
///
/// <span id="console_of"></span>
///
/// # `console_of`
///
/// The port that the value of `console=` says, or the first part that is wrong.
///
/// ```text
/// unfoldable pub console_of : ByteOrder → List ℕ → Result PortDescription OptionError
/// console_of native text = console_at (standard_port (part text 0)) native text
/// ```
///
/// It uses `console_at`, `standard_port`, `part` of this file.
#[doc(alias("earlycon_of", "console_of"))]
pub mod command_line {}

/// The header of the configuration of a PCI function, by the offsets of its fields.
///
/// From `crates/uart_discovery/specs/Pci.antt`.
///
/// <span id="SaysPort"></span>
///
/// # `SaysPort`
///
/// The header says that there is this port.
///
/// ```text
/// pub record SaysPort (header : List ℕ) (port : ℕ) (found : PortDescription) : Type 0 where
///   pub whole : 64 ≤ length header
///   pub device : slice_index header 0x0e % 0x80 ≡ 0
///   pub class_from : 0x07_0002 ≤ class_of header
///   pub class_to : class_of header ≤ 0x07_0006
///   pub numbered : port < (card_in header).ports
///   pub kind : IsKind header found.space
///   pub base : found.base ≡ base_in header found.space + distance header port
///   pub there : 0 < base_in header found.space
///   pub fits : found.base ≤ last_base found.space
///   pub stride : found.layout.stride ≡ 1
///   pub width : found.layout.width ≡ Bits8
///   pub byte_order : found.layout.byte_order ≡ Little
///   pub clock : found.clock ≡ (card_in header).clock
///   pub baud_rate : found.baud_rate ≡ None
///   pub frame : found.frame ≡ None
///   pub has_flow_control : found.has_flow_control ≡ false
///   pub interrupt : found.interrupt ≡ pin_of header
/// ```
///
/// It uses `class_of`, `card_in`, `IsKind`, `base_in`, `distance`, `last_base`, `pin_of` of this file.
///
/// <span id="IsFault"></span>
///
/// # `IsFault`
///
/// What is wrong with the header.
///
/// ```text
/// abbrev pub IsFault : List ℕ → (port : ℕ) → PciError → Type 0
/// IsFault header port wrong.TooShort = length header < 64
/// IsFault header port (wrong.HeaderKind kind) = (kind ≡ slice_index header 0x0e % 0x80) × (0 < kind)
/// IsFault header port (wrong.Class class) =
///     (class ≡ class_of header) × ((class < 0x07_0002) ⊎ (0x07_0006 < class))
/// IsFault header port (wrong.Port number) = (number ≡ port) × ((card_in header).ports ≤ port)
/// IsFault header port (wrong.BeyondAddresses base) =
///     (IsKind header Ports × (base ≡ base_in header Ports) × (last_base Ports < base + distance header port))
///     ⊎ (IsKind header Memory × (base ≡ base_in header Memory) × (last_base Memory < base + distance header port))
/// IsFault header port error = IsBaseFault header error
/// ```
///
/// It uses `class_of`, `card_in`, `IsKind`, `base_in`, `last_base`, `distance`, `IsBaseFault` of this file.
#[doc(alias("SaysPort", "IsFault"))]
pub mod pci {}

/// Device trees.
///
/// From `crates/uart_discovery/specs/Tree.antt`.
///
/// <span id="IsBlob"></span>
///
/// # `IsBlob`
///
/// Bytes are a whole device tree that a reader of version 17 can read.
///
/// ```text
/// pub record IsBlob (bytes : List ℕ) : Type 0 where
///   pub magic : be32 bytes 0 ≡ 0xd00d_feed
///   pub version : be32 bytes 24 ≤ 17
///   pub whole : be32 bytes 4 ≤ length bytes
/// ```
///
/// It uses `be32` of this file.
///
/// <span id="IsInMemory"></span>
///
/// # `IsInMemory`
///
/// A port whose registers are in memory, and a power of two apart.
///
/// ```text
/// abbrev pub IsInMemory : PortDescription → Type 0
/// IsInMemory port = (port.space ≡ Memory) × IsTrue (is_power_of_two port.layout.stride)
/// ```
///
/// <span id="ports_of"></span>
///
/// # `ports_of`
///
/// The same, of the bytes of a tree.
///
/// ```text
/// abbrev pub ports_of : List ℕ → List ℕ
/// ports_of bytes = ports_in (structure_of bytes) (strings_of bytes)
/// ```
///
/// It uses `ports_in`, `structure_of`, `strings_of` of this file.
#[doc(alias("IsBlob", "IsInMemory", "ports_of"))]
pub mod tree {}

/// The ACPI table DBG2, by the offsets of its fields.
///
/// From `crates/uart_discovery/specs/Dbg2.antt`.
///
/// <span id="DBG2"></span>
///
/// # `DBG2`
///
/// The signature of the table.
///
/// ```text
/// abbrev pub DBG2 : List ℕ
/// DBG2 = codes "DBG2"
/// ```
///
/// <span id="SaysPort"></span>
///
/// # `SaysPort`
///
/// A device of the table is this port.
///
/// ```text
/// abbrev pub SaysPort : (table : List ℕ) → PortDescription → Type 0
/// SaysPort table port = (at : ℕ) × SaysDevice table at port
/// ```
///
/// It uses `SaysDevice` of this file.
#[doc(alias("DBG2", "SaysPort"))]
pub mod dbg2 {}
