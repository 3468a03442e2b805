//! Definitions of `uart_16550`: the driver over any backend.
//!
//! Each is one that a section "Proved" of a call names. How a section is read is said [here](uart_spec::proved).

/// Languages of register accesses: the lists that a call may make.
///
/// From `crates/uart_16550/specs/Grammar.antt`.
///
/// <span id="Only"></span>
///
/// # `Only`
///
/// These accesses in this order, and no other.
///
/// ```text
/// pub record Only (list : List Access) (s : Settings) (l : List Access) : Type 0 where
///   pub is : l ≡ list
/// ```
///
/// It uses `Settings` of this file.
#[doc(alias("Only"))]
pub mod grammar {}

/// The lists of the receiving calls.
///
/// From `crates/uart_16550/specs/Receive.antt`.
///
/// <span id="ReadyToReceive"></span>
///
/// # `ReadyToReceive`
///
/// `ready_to_receive`: one read of LSR, which shows a received byte exactly if the result is `Ok`.
///
/// ```text
/// abbrev pub ReadyToReceive : {T E : Type 0} → Result T E → Language
/// ReadyToReceive (Ok x) = Asks offsets.LSR LSR.DATA_READY.0 true
/// ReadyToReceive (Err e) = Miss
/// ```
///
/// It uses `Language`, `Asks` of `crates/uart_16550/specs/Grammar.antt`; `Miss` of this file.
///
/// <span id="TryReceive"></span>
///
/// # `TryReceive`
///
/// `try_receive_byte`: LSR shows a received byte, which is read from DATA and returned; or LSR shows none.
///
/// ```text
/// abbrev pub TryReceive : {E : Type 0} → Result ℕ E → Language
/// TryReceive (Ok byte) = Hit byte
/// TryReceive (Err e) = Miss
/// ```
///
/// It uses `Language` of `crates/uart_16550/specs/Grammar.antt`; `Hit`, `Miss` of this file.
///
/// <span id="Receives"></span>
///
/// # `Receives`
///
/// `receive_bytes`: bytes are read from DATA, each after LSR shows it, until the slots are full, or LSR shows none.
///
/// ```text
/// abbrev pub Receives : ℕ → List ℕ → Language
/// Receives n bytes s l =
///     ((length bytes ≡ n) × InOrder Hit bytes s l) ⊎ ((length bytes < n) × Then (InOrder Hit bytes) Miss s l)
/// ```
///
/// It uses `Language`, `InOrder`, `Then` of `crates/uart_16550/specs/Grammar.antt`; `Hit`, `Miss` of this file.
///
/// <span id="TryReceiveWithErrors"></span>
///
/// # `TryReceiveWithErrors`
///
/// `try_receive_with_errors`: LSR shows a received byte, which is read from DATA and returned with the errors that LSR shows; or LSR shows none.
///
/// ```text
/// abbrev pub TryReceiveWithErrors : {E : Type 0} → Result Received E → Language
/// TryReceiveWithErrors (Ok received) = HitWithErrors received
/// TryReceiveWithErrors (Err e) = Miss
/// ```
///
/// It uses `Language` of `crates/uart_16550/specs/Grammar.antt`; `HitWithErrors`, `Miss` of this file.
///
/// <span id="ReceivesWithErrors"></span>
///
/// # `ReceivesWithErrors`
///
/// `receive_with_errors`: bytes are read from DATA, each after LSR shows it and its errors, until the slots are full, or LSR shows none.
///
/// ```text
/// abbrev pub ReceivesWithErrors : ℕ → List Received → Language
/// ReceivesWithErrors n items s l =
///     ((length items ≡ n) × InOrder HitWithErrors items s l)
///     ⊎ ((length items < n) × Then (InOrder HitWithErrors items) Miss s l)
/// ```
///
/// It uses `Language`, `InOrder`, `Then` of `crates/uart_16550/specs/Grammar.antt`; `HitWithErrors`, `Miss` of this file.
///
/// <span id="filled"></span>
///
/// # `filled`
///
/// The bytes that an exact call put into its slots: all of them, or as many as the stall reports.
///
/// ```text
/// abbrev pub filled : {T : Type 0} → Result T StalledError → List ℕ → List ℕ
/// filled (Ok x) slots = slots
/// filled (Err e) slots = take e.done slots
/// ```
///
/// <span id="ReceivesExact"></span>
///
/// # `ReceivesExact`
///
/// `receive_bytes_exact`: the slots are filled, each after its own wait; or those before the one whose wait reaches the limit, as many as the error reports.
///
/// ```text
/// abbrev pub ReceivesExact : {T : Type 0} → ℕ → List ℕ → Result T StalledError → Language
/// ReceivesExact n bytes (Ok x) s l = (length bytes ≡ n) × InOrder Awaited bytes s l
/// ReceivesExact n bytes (Err e) s l =
///     (length bytes < n) × (e.done ≡ length bytes) × Then (InOrder Awaited bytes) (AllMisses Miss) s l
/// ```
///
/// It uses `Language`, `InOrder`, `Then`, `AllMisses` of `crates/uart_16550/specs/Grammar.antt`; `Awaited`, `Miss` of this file.
#[doc(alias("ReadyToReceive", "TryReceive", "Receives", "TryReceiveWithErrors", "ReceivesWithErrors", "filled", "ReceivesExact"))]
pub mod receive {}

/// The lists of the sending calls.
///
/// From `crates/uart_16550/specs/Transmit.antt`.
///
/// <span id="ReadyToSend"></span>
///
/// # `ReadyToSend`
///
/// `ready_to_send`: one send check: LSR shows THR\_EMPTY and, if CTS is checked, the modem lines allow sending; or the error names which of these is not so.
///
/// ```text
/// abbrev pub ReadyToSend : {T : Type 0} → Result T ByteSendError → Language
/// ReadyToSend (Ok x) = SendHit
/// ReadyToSend (Err e) = SendRefused e
/// ```
///
/// It uses `Language` of `crates/uart_16550/specs/Grammar.antt`; `SendHit`, `SendRefused` of this file.
///
/// <span id="Sends"></span>
///
/// # `Sends`
///
/// `send_bytes`: nothing if there are no bytes; else a send check and, if it succeeds, bytes from the front are written to DATA: as many as a FIFO of the size that is set holds, or one if it is off. The result is how many.
///
/// ```text
/// abbrev pub Sends : List ℕ → ℕ → Language
/// Sends bytes k s l =
///     ((length bytes ≡ 0) × (k ≡ 0) × (l ≡ []))
///     ⊎ ((0 < length bytes) × (k ≡ 0) × SendMiss s l)
///     ⊎ ((0 < length bytes) × (k ≡ burst_size s bytes) × Burst (take k bytes) s l)
/// ```
///
/// It uses `Language` of `crates/uart_16550/specs/Grammar.antt`; `SendMiss`, `burst_size`, `Burst` of this file.
///
/// <span id="SendsExact"></span>
///
/// # `SendsExact`
///
/// `send_bytes_exact`: all bytes, burst by burst, each burst after its own wait; or those before the burst whose wait reaches the limit, as many as the error reports.
///
/// ```text
/// abbrev pub SendsExact : {T : Type 0} → List ℕ → Result T StalledError → Language
/// SendsExact bytes (Ok x) s l = SendsAll bytes s l
/// SendsExact bytes (Err e) s l =
///     (pieces : List (List ℕ)) × (rest : List ℕ) × IsCut s bytes pieces rest × (0 < length rest)
///     × (e.done + length rest ≡ length bytes)
///     × Then (InOrder Round pieces) (AllMisses SendMiss) s l
/// ```
///
/// It uses `Language`, `Then`, `InOrder`, `AllMisses` of `crates/uart_16550/specs/Grammar.antt`; `SendsAll`, `IsCut`, `Round`, `SendMiss` of this file.
///
/// <span id="TrySends"></span>
///
/// # `TrySends`
///
/// `try_send_byte`: the accesses of `send_bytes` for this one byte, which is sent exactly if the result is `Ok`; the only error is `NoCapacity`.
///
/// ```text
/// abbrev pub TrySends : {T : Type 0} → ℕ → Result T ByteSendError → Language
/// TrySends byte (Ok x) = Sends (byte ∷ []) 1
/// TrySends byte (Err NoCapacity) = Sends (byte ∷ []) 0
/// TrySends byte (Err RemoteNotClearToSend) = Never
/// ```
///
/// It uses [`Sends`](crate::proved::transmit#Sends); `Language`, `Never` of `crates/uart_16550/specs/Grammar.antt`.
#[doc(alias("ReadyToSend", "Sends", "SendsExact", "TrySends"))]
pub mod transmit {}

/// Bursts to a transmitter FIFO whose size the caller names.
///
/// From `crates/uart_16550/specs/Bursts.antt`.
///
/// <span id="SendsBurst"></span>
///
/// # `SendsBurst`
///
/// `send_burst`: nothing if there are no bytes; else a send check and, if it succeeds, bytes from the front are written to DATA: as many as a FIFO of this size holds, or one if it is off. The result is how many.
///
/// ```text
/// abbrev pub SendsBurst : FifoSize → List ℕ → ℕ → Language
/// SendsBurst size bytes k s l =
///     ((length bytes ≡ 0) × (k ≡ 0) × (l ≡ []))
///     ⊎ ((0 < length bytes) × (k ≡ 0) × SendMiss s l)
///     ⊎ ((0 < length bytes) × (k ≡ min (length bytes) (burst_limit s.fifo size)) × Burst (take k bytes) s l)
/// ```
///
/// It uses `Language` of `crates/uart_16550/specs/Grammar.antt`; `SendMiss`, `burst_limit`, `Burst` of `crates/uart_16550/specs/Transmit.antt`.
#[doc(alias("SendsBurst"))]
pub mod bursts {}

/// Waits that ask their caller, after each check that fails, whether to keep waiting.
///
/// From `crates/uart_16550/specs/Patience.antt`.
///
/// <span id="SendsWhile"></span>
///
/// # `SendsWhile`
///
/// `send_bytes_while`, with the answers of the caller: all bytes, burst by burst, each burst after its own wait; or those before the burst whose wait ended in vain, as many as the error reports, which tells what ended that wait.
///
/// ```text
/// abbrev pub SendsWhile : {T : Type 0} → List ℕ → List Bool → Result T WaitError → Language
/// SendsWhile bytes said (Ok x) s l =
///     (rounds : List (Awaited (List ℕ))) × IsCut s bytes (items_of rounds) [] × (said ≡ keeps_waiting (misses_of rounds))
///     × InOrder RoundAfter rounds s l
/// SendsWhile bytes said (Err e) s l =
///     (rounds : List (Awaited (List ℕ))) × (last : List Bool) × (rest : List ℕ) × IsCut s bytes (items_of rounds) rest
///     × (0 < length rest) × (e.done + length rest ≡ length bytes)
///     × (said ≡ keeps_waiting (misses_of rounds) ++ last)
///     × Then (InOrder RoundAfter rounds) (InVain SendMiss last e.ended_by) s l
/// ```
///
/// It uses `Language`, `InOrder`, `Then` of `crates/uart_16550/specs/Grammar.antt`; `Awaited`, `items_of`, `keeps_waiting`, `misses_of`, `RoundAfter`, `InVain` of this file; `IsCut`, `SendMiss` of `crates/uart_16550/specs/Transmit.antt`.
///
/// <span id="filled_while"></span>
///
/// # `filled_while`
///
/// The slots that `receive_bytes_while` filled.
///
/// ```text
/// abbrev pub filled_while : {T : Type 0} → Result T WaitError → List ℕ → List ℕ
/// filled_while (Ok x) slots = slots
/// filled_while (Err e) slots = take e.done slots
/// ```
///
/// <span id="ReceivesWhile"></span>
///
/// # `ReceivesWhile`
///
/// `receive_bytes_while`, with the answers of the caller: the slots are filled, each byte after its own wait; or those before the one whose wait ended in vain, as many as the error reports, which tells what ended that wait.
///
/// ```text
/// abbrev pub ReceivesWhile : {T : Type 0} → ℕ → List ℕ → List Bool → Result T WaitError → Language
/// ReceivesWhile n bytes said (Ok x) s l =
///     (received : List (Awaited ℕ)) × (bytes ≡ items_of received) × (length bytes ≡ n)
///     × (said ≡ keeps_waiting (misses_of received)) × InOrder ByteAfter received s l
/// ReceivesWhile n bytes said (Err e) s l =
///     (received : List (Awaited ℕ)) × (last : List Bool) × (bytes ≡ items_of received) × (length bytes < n)
///     × (e.done ≡ length bytes) × (said ≡ keeps_waiting (misses_of received) ++ last)
///     × Then (InOrder ByteAfter received) (InVain Miss last e.ended_by) s l
/// ```
///
/// It uses `Language`, `InOrder`, `Then` of `crates/uart_16550/specs/Grammar.antt`; `Awaited`, `items_of`, `keeps_waiting`, `misses_of`, `ByteAfter`, `InVain` of this file; `Miss` of `crates/uart_16550/specs/Receive.antt`.
///
/// <span id="FlushesWhile"></span>
///
/// # `FlushesWhile`
///
/// `flush_while`, with the answers of the caller: the transmitter was empty after fewer misses in a row than the limit; or the wait was in vain, and the error tells what ended it.
///
/// ```text
/// abbrev pub FlushesWhile : {T : Type 0} → List Bool → Result T WaitError → Language
/// FlushesWhile said (Ok x) s l = (n : ℕ) × (said ≡ keeps_waiting n) × After n (ShowsEmpty false) (ShowsEmpty true) s l
/// FlushesWhile said (Err e) s l = (e.done ≡ 0) × InVain (ShowsEmpty false) said e.ended_by s l
/// ```
///
/// It uses `Language` of `crates/uart_16550/specs/Grammar.antt`; `keeps_waiting`, `After`, `ShowsEmpty`, `InVain` of this file.
///
/// <span id="MadeWhile"></span>
///
/// # `MadeWhile`
///
/// The caller was asked and gave some answers, from the first of its states to the second, and the call made a list of the language that goes with them, as `Made` says.
///
/// ```text
/// pub record MadeWhile {P B : Type 0} (answers : P → Bool → P → Type 0) (step : B → Access → B → Type 0)
///     (L : List Bool → Language) (before after : P) (old new : Uart16550 B) : Type 0 where
///   pub said : List Bool
///   pub asked : FoldsTo answers before said after
///   pub made : Made step (L said) old new
/// ```
///
/// It uses [`Made`](crate::proved::driver#Made); `Language` of `crates/uart_16550/specs/Grammar.antt`.
#[doc(alias("SendsWhile", "filled_while", "ReceivesWhile", "FlushesWhile", "MadeWhile"))]
pub mod patience {}

/// The driver's fields, and what a call does to them and to the backend.
///
/// From `crates/uart_16550/specs/Driver.antt`.
///
/// <span id="backend_of"></span>
///
/// # `backend_of`
///
/// The backend of a driver, which makes its accesses.
///
/// ```text
/// abbrev pub backend_of : {B : Type 0} → Uart16550 B → B
/// backend_of d = d.backend
/// ```
///
/// <span id="fields"></span>
///
/// # `fields`
///
/// What this driver holds beside its backend.
///
/// ```text
/// abbrev pub fields : {B : Type 0} → Uart16550 B → Fields
/// fields d = record {
///   config = d.config;
///   fifo = d.fifo_enabled;
///   size = d.fifo_size;
///   lsr = d.saved_lsr.0;
///   msr = d.saved_msr.0;
///   limit = non_zero_u64_get d.spin_limit;
/// }
/// ```
///
/// It uses `Fields` of this file.
///
/// <span id="IsFresh"></span>
///
/// # `IsFresh`
///
/// A driver over this backend that has made no access: FIFO treated as on, and of 16 characters, nothing saved, limit 1,000,000.
///
/// ```text
/// pub record IsFresh {B : Type 0} (d : Uart16550 B) (given : B) (config : Config) : Type 0 where
///   pub backend : d.backend ≡ given
///   pub begins : fields d ≡ record {
///     config = config;
///     fifo = true;
///     size = Sixteen;
///     lsr = 0;
///     msr = 0;
///     limit = DEFAULT_SPIN_LIMIT;
///   }
/// ```
///
/// It uses [`fields`](crate::proved::driver#fields).
///
/// <span id="Made"></span>
///
/// # `Made`
///
/// The call made a list of the language along a path of the backend's steps, saved what its reads showed, and changed nothing else.
///
/// ```text
/// pub record Made {B : Type 0} (step : B → Access → B → Type 0) (L : Language) (old new : Uart16550 B) : Type 0 where
///   pub list : List Access
///   pub path : Path step old.backend list new.backend
///   pub lsr : new.saved_lsr.0 ≡ bit_or old.saved_lsr.0 (saved_lsr list)
///   pub msr : new.saved_msr.0 ≡ bit_or old.saved_msr.0 (saved_msr list)
///   pub config : new.config ≡ old.config
///   pub fifo : new.fifo_enabled ≡ old.fifo_enabled
///   pub size : new.fifo_size ≡ old.fifo_size
///   pub limit : new.spin_limit ≡ old.spin_limit
///   pub fits : L (settings old) list
/// ```
///
/// It uses `Language` of `crates/uart_16550/specs/Grammar.antt`; `Path`, `saved_lsr`, `saved_msr` of `crates/uart_spec/specs/Access.antt`; `settings` of this file.
///
/// <span id="Did"></span>
///
/// # `Did`
///
/// The call did this, on a path of the backend's steps.
///
/// ```text
/// pub record Did {B : Type 0} (step : B → Access → B → Type 0) (G : Doing) (old new : Uart16550 B) : Type 0 where
///   pub list : List Access
///   pub path : Path step old.backend list new.backend
///   pub does : G (fields old) list (fields new)
/// ```
///
/// It uses [`fields`](crate::proved::driver#fields); `Doing` of this file; `Path` of `crates/uart_spec/specs/Access.antt`.
///
/// <span id="Saving"></span>
///
/// # `Saving`
///
/// A list of the language whose reads are saved.
///
/// ```text
/// abbrev pub Saving : Language → Doing
/// Saving L f l after = L (settings_of f) l × (after ≡ saving f l)
/// ```
///
/// It uses `Language` of `crates/uart_16550/specs/Grammar.antt`; `Doing`, `settings_of`, `saving` of this file.
///
/// <span id="Sets"></span>
///
/// # `Sets`
///
/// No access, and this change to the fields.
///
/// ```text
/// abbrev pub Sets : (Fields → Fields) → Doing
/// Sets change f l after = (l ≡ []) × (after ≡ change f)
/// ```
///
/// It uses `Fields`, `Doing` of this file.
///
/// <span id="with_fifo_size"></span>
///
/// # `with_fifo_size`
///
/// The fields of a driver that takes the FIFO to have this size.
///
/// ```text
/// abbrev pub with_fifo_size : FifoSize → Fields → Fields
/// with_fifo_size size f = record f { size = size }
/// ```
///
/// It uses `Fields` of this file.
///
/// <span id="with_limit"></span>
///
/// # `with_limit`
///
/// The fields with this spin limit.
///
/// ```text
/// abbrev pub with_limit : ℕ → Fields → Fields
/// with_limit limit f = record f { limit = limit }
/// ```
///
/// It uses `Fields` of this file.
#[doc(alias("backend_of", "fields", "IsFresh", "Made", "Did", "Saving", "Sets", "with_fifo_size", "with_limit"))]
pub mod driver {}

/// The state of a driver without its backend, as a value.
///
/// From `crates/uart_16550/specs/State.antt`.
///
/// <span id="fields_of"></span>
///
/// # `fields_of`
///
/// The fields of a driver in this state.
///
/// ```text
/// abbrev pub fields_of : DriverState → Fields
/// fields_of s =
///     record {
///       config = s.config;
///       fifo = s.fifo_enabled;
///       size = s.fifo_size;
///       lsr = s.saved_lsr.0;
///       msr = s.saved_msr.0;
///       limit = non_zero_u64_get s.spin_limit;
///     }
/// ```
///
/// It uses `Fields` of `crates/uart_16550/specs/Driver.antt`.
///
/// <span id="fresh_fields"></span>
///
/// # `fresh_fields`
///
/// The fields of a new driver.
///
/// ```text
/// abbrev pub fresh_fields : Fields
/// fresh_fields =
///     record { config = DEFAULT; fifo = true; size = Sixteen; lsr = 0; msr = 0; limit = DEFAULT_SPIN_LIMIT }
/// ```
///
/// It uses `Fields` of `crates/uart_16550/specs/Driver.antt`.
#[doc(alias("fields_of", "fresh_fields"))]
pub mod state {}

/// The lists of the register calls, and of the register dump.
///
/// From `crates/uart_16550/specs/Status.antt`.
///
/// <span id="TakesLsr"></span>
///
/// # `TakesLsr`
///
/// `lsr`: one read of LSR, which is returned joined with the saved bits, of which none are left.
///
/// ```text
/// abbrev pub TakesLsr : ℕ → Doing
/// TakesLsr result f l after =
///     (status : ℕ) × (l ≡ Read offsets.LSR status ∷ []) × (result ≡ bit_or status f.lsr) × (after ≡ with_saved 0 f.msr f)
/// ```
///
/// It uses `Doing`, `with_saved` of `crates/uart_16550/specs/Driver.antt`.
///
/// <span id="TakesMsr"></span>
///
/// # `TakesMsr`
///
/// `msr`: one read of MSR, which is returned joined with the saved bits, of which none are left.
///
/// ```text
/// abbrev pub TakesMsr : ℕ → Doing
/// TakesMsr result f l after =
///     (status : ℕ) × (l ≡ Read offsets.MSR status ∷ []) × (result ≡ bit_or status f.msr) × (after ≡ with_saved f.lsr 0 f)
/// ```
///
/// It uses `Doing`, `with_saved` of `crates/uart_16550/specs/Driver.antt`.
///
/// <span id="ShowsGone"></span>
///
/// # `ShowsGone`
///
/// `is_gone`: one read of MCR, which shows all bits set, as a bus does that nobody drives, exactly if the result is `true`.
///
/// ```text
/// abbrev pub ShowsGone : Bool → Language
/// ShowsGone gone = Asks offsets.MCR UNDRIVEN gone
/// ```
///
/// It uses `Language`, `Asks` of `crates/uart_16550/specs/Grammar.antt`.
///
/// <span id="Connects"></span>
///
/// # `Connects`
///
/// `check_connected`: one read of MSR, which shows DSR and CTS; or which does not show the one that the error names.
///
/// ```text
/// abbrev pub Connects : {T : Type 0} → Result T RemoteReadyToReceiveError → Language
/// Connects result s l = (status : ℕ) × ShowsConnection result status × (l ≡ Read offsets.MSR status ∷ [])
/// ```
///
/// It uses `Language` of `crates/uart_16550/specs/Grammar.antt`; `ShowsConnection` of this file.
///
/// <span id="ReadsDivisor"></span>
///
/// # `ReadsDivisor`
///
/// `dll_dlm`: LCR is read, and written with DLAB; the divisor latch is read, its low byte first; and LCR is written back.
///
/// ```text
/// abbrev pub ReadsDivisor : (low high : ℕ) → Language
/// ReadsDivisor low high s l = (lcr : ℕ) × (l ≡ divisor_accesses lcr low high)
/// ```
///
/// It uses `Language` of `crates/uart_16550/specs/Grammar.antt`; `divisor_accesses` of this file.
///
/// <span id="Enables"></span>
///
/// # `Enables`
///
/// `enable_interrupts`: IER is read; what it shows, with these bits added, is stored in the configuration and written.
///
/// ```text
/// abbrev pub Enables : ℕ → Doing
/// Enables bits f l after = (ier : ℕ) × (l ≡ Read offsets.IER ier ∷ Write offsets.IER (bit_or ier bits) ∷ [])
///     × (after ≡ with_interrupts (bit_or ier bits) f)
/// ```
///
/// It uses `Doing`, `with_interrupts` of `crates/uart_16550/specs/Driver.antt`.
///
/// <span id="Disables"></span>
///
/// # `Disables`
///
/// `disable_interrupts`: IER is read; what it shows, without these bits, is stored in the configuration and written.
///
/// ```text
/// abbrev pub Disables : ℕ → Doing
/// Disables bits f l after = (ier : ℕ) × (l ≡ Read offsets.IER ier ∷ Write offsets.IER (without 8 ier bits) ∷ [])
///     × (after ≡ with_interrupts (without 8 ier bits) f)
/// ```
///
/// It uses `Doing`, `with_interrupts` of `crates/uart_16550/specs/Driver.antt`.
///
/// <span id="Retriggers"></span>
///
/// # `Retriggers`
///
/// `retrigger_interrupts`: IER is read, then 0 is written to it, and then what was read.
///
/// ```text
/// abbrev pub Retriggers : Language
/// Retriggers s l = (ier : ℕ) × (l ≡ retrigger_accesses ier)
/// ```
///
/// It uses `Language` of `crates/uart_16550/specs/Grammar.antt`; `retrigger_accesses` of this file.
///
/// <span id="Dumps"></span>
///
/// # `Dumps`
///
/// `config_register_dump`: the divisor latch and the seven other registers are read. LSR and MSR are returned joined with the saved bits, and all of these stay saved.
///
/// ```text
/// pub record Dumps (dump : ConfigRegisterDump) (f : Fields) (l : List Access) (after : Fields) : Type 0 where
///   pub lcr : ℕ
///   pub lsr : ℕ
///   pub msr : ℕ
///   pub is : l ≡ divisor_accesses lcr dump.dll dump.dlm ++ dump_reads lsr msr dump
///   pub shows_lsr : dump.lsr.0 ≡ bit_or lsr f.lsr
///   pub shows_msr : dump.msr.0 ≡ bit_or msr f.msr
///   pub keeps : after ≡ saving f l
/// ```
///
/// It uses `Fields`, `saving` of `crates/uart_16550/specs/Driver.antt`; `divisor_accesses`, `dump_reads` of this file.
#[doc(alias("TakesLsr", "TakesMsr", "ShowsGone", "Connects", "ReadsDivisor", "Enables", "Disables", "Retriggers", "Dumps"))]
pub mod status {}

/// The presence check and the initialisation, access by access.
///
/// From `crates/uart_16550/specs/Init.antt`.
///
/// <span id="ChecksPresence"></span>
///
/// # `ChecksPresence`
///
/// `check_present`: the scratch register is read, tested with the patterns, and restored.
///
/// ```text
/// abbrev pub ChecksPresence : Bool → Language
/// ChecksPresence present s l =
///     (old : ℕ) ×
///     Then (Only (Read offsets.SPR old ∷ [])) (Then (KeepsPatterns present) (Only (Write offsets.SPR old ∷ []))) s l
/// ```
///
/// It uses [`Only`](crate::proved::grammar#Only); `Language`, `Then` of `crates/uart_16550/specs/Grammar.antt`; `KeepsPatterns` of this file.
///
/// <span id="Inits"></span>
///
/// # `Inits`
///
/// `init`: the configuration is stored, the scratch register tested, divisor, frame and FIFO are set, the receiver is drained, and MCR is written; after a wait for an empty transmitter the statuses are read, and IER is written. Or nothing is done, if there is no divisor; or all up to the test that fails, or to the wait that reaches the limit.
///
/// ```text
/// abbrev pub Inits : {T : Type 0} → Config → Result T InitError → Doing
/// Inits config (Ok x) f l after = (divisor : ℕ) × (fifo : Bool) × DivisorOf config (Ok divisor) ×
///     Next (Begins config divisor fifo) (Next (Saving (WaitsFor LSR.TRANSMITTER_EMPTY.0 true)) (Ends config)) f l after
/// Inits config (Err (InvalidBaudRate cause)) f l after = DivisorOf config (Err cause) × (l ≡ []) × (after ≡ f)
/// Inits config (Err DeviceNotPresent) f l after = (divisor : ℕ) × DivisorOf config (Ok divisor) ×
///     Next (Sets (with_config config)) (Saving (ChecksPresence false)) f l after
/// Inits config (Err Stalled) f l after = (divisor : ℕ) × (fifo : Bool) × DivisorOf config (Ok divisor) ×
///     Next (Begins config divisor fifo) (Saving (WaitsFor LSR.TRANSMITTER_EMPTY.0 false)) f l after
/// ```
///
/// It uses [`Saving`](crate::proved::driver#Saving), [`Sets`](crate::proved::driver#Sets), [`ChecksPresence`](crate::proved::init#ChecksPresence); `Doing`, `Next`, `with_config` of `crates/uart_16550/specs/Driver.antt`; `DivisorOf`, `Begins`, `Ends` of this file; `WaitsFor` of `crates/uart_16550/specs/Transmit.antt`.
#[doc(alias("ChecksPresence", "Inits"))]
pub mod init {}

/// Calls that take each configuration, and do nothing for one that is not computable.
///
/// From `crates/uart_16550/specs/Checked.antt`.
///
/// <span id="IfComputable"></span>
///
/// # `IfComputable`
///
/// A call does this for a configuration that is computable. For another one it does nothing, and its result tells why there is no divisor.
///
/// ```text
/// abbrev pub IfComputable : {R : Type 0} → Config → (InvalidDivisorError → R) → R → Doing → Doing
/// IfComputable config refused result G f l after =
///     (IsComputable config × G f l after)
///     ⊎ ((cause : InvalidDivisorError) × IsRefusalOf config cause × (result ≡ refused cause) × (l ≡ []) × (after ≡ f))
/// ```
///
/// It uses [`IsComputable`](uart_spec::proved::config#IsComputable); `Doing` of `crates/uart_16550/specs/Driver.antt`; `IsRefusalOf` of this file.
#[doc(alias("IfComputable"))]
pub mod checked {}

/// The lists of the calls that change the frame, or the outputs to the modem, and nothing else.
///
/// From `crates/uart_16550/specs/Frame.antt`.
///
/// <span id="SetsFrame"></span>
///
/// # `SetsFrame`
///
/// `set_frame`: clock, baud rate and frame are stored, and written to the divisor latch and to LCR; or there is no divisor, and nothing is done.
///
/// ```text
/// abbrev pub SetsFrame : {T : Type 0} → Config → Result T InvalidDivisorError → Doing
/// SetsFrame config (Ok x) f l after = (divisor : ℕ) × DivisorOf config (Ok divisor) ×
///     Next (Sets (with_frame config)) (Saving (Only (frame_writes divisor (frame_bits config)))) f l after
/// SetsFrame config (Err cause) f l after = DivisorOf config (Err cause) × (l ≡ []) × (after ≡ f)
/// ```
///
/// It uses [`Sets`](crate::proved::driver#Sets), [`Saving`](crate::proved::driver#Saving), [`Only`](crate::proved::grammar#Only); `Doing`, `Next` of `crates/uart_16550/specs/Driver.antt`; `DivisorOf`, `frame_bits` of `crates/uart_16550/specs/Init.antt`; `with_frame`, `frame_writes` of this file.
///
/// <span id="ShowsIdle"></span>
///
/// # `ShowsIdle`
///
/// `is_idle`: one read of LSR, which shows whether the transmitter is empty.
///
/// ```text
/// abbrev pub ShowsIdle : Bool → Language
/// ShowsIdle idle = Asks offsets.LSR LSR.TRANSMITTER_EMPTY.0 idle
/// ```
///
/// It uses `Language`, `Asks` of `crates/uart_16550/specs/Grammar.antt`.
///
/// <span id="SetsBreak"></span>
///
/// # `SetsBreak`
///
/// `set_break`: LCR is read, and written with the break set or cleared.
///
/// ```text
/// abbrev pub SetsBreak : Bool → Language
/// SetsBreak on = Modifies offsets.LCR (switched on LCR.SET_BREAK.0)
/// ```
///
/// It uses `Language`, `Modifies` of `crates/uart_16550/specs/Grammar.antt`; `switched` of this file.
///
/// <span id="SetsControl"></span>
///
/// # `SetsControl`
///
/// `set_modem_control`: these bits are written to MCR, without loopback.
///
/// ```text
/// abbrev pub SetsControl : ℕ → Language
/// SetsControl bits = Only (Write offsets.MCR (unlooped bits) ∷ [])
/// ```
///
/// It uses [`Only`](crate::proved::grammar#Only); `Language` of `crates/uart_16550/specs/Grammar.antt`; `unlooped` of this file.
///
/// <span id="SetsOutput"></span>
///
/// # `SetsOutput`
///
/// `set_rts`, `set_dtr`: MCR is read, and written with this bit set or cleared, without loopback.
///
/// ```text
/// abbrev pub SetsOutput : (output : ℕ) → Bool → Language
/// SetsOutput output on = Modifies offsets.MCR (λ mcr. unlooped (switched on output mcr))
/// ```
///
/// It uses `Language`, `Modifies` of `crates/uart_16550/specs/Grammar.antt`; `unlooped`, `switched` of this file.
#[doc(alias("SetsFrame", "ShowsIdle", "SetsBreak", "SetsControl", "SetsOutput"))]
pub mod frame {}

/// Taking a port as it was set up.
///
/// From `crates/uart_16550/specs/Attach.antt`.
///
/// <span id="Attaches"></span>
///
/// # `Attaches`
///
/// `attach`: LCR shows that DLAB is off, MCR that loopback is off, the divisor latch a divisor, and ISR whether the FIFOs are on, which the driver takes them to be; or these are read up to the one that the error is about, and the driver stays as it was.
///
/// ```text
/// abbrev pub Attaches : Result (ℕ × ℕ) AttachError → Doing
/// Attaches (Ok latch) f l after = (0 < 256 * latch.1 + latch.0)
///     × (fifo : Bool) × Next (Saving (FindsPort fifo latch.0 latch.1)) (Sets (with_fifo fifo)) f l after
/// Attaches (Err DivisorLatchOpen) f l after = Saving (FindsLatch true) f l after
/// Attaches (Err Loopback) f l after = Saving (FindsLoopback true) f l after
/// Attaches (Err NoDivisor) f l after = Saving (FindsDivisor 0 0) f l after
/// ```
///
/// It uses [`Saving`](crate::proved::driver#Saving), [`Sets`](crate::proved::driver#Sets); `Doing`, `Next`, `with_fifo` of `crates/uart_16550/specs/Driver.antt`; `FindsPort`, `FindsLatch`, `FindsLoopback`, `FindsDivisor` of this file.
#[doc(alias("Attaches"))]
pub mod attach {}

/// Initialisation otherwise than by `init`, and changes of the trigger level and of the frame that lose nothing.
///
/// From `crates/uart_16550/specs/Setup.antt`.
///
/// <span id="SetsTrigger"></span>
///
/// # `SetsTrigger`
///
/// `set_trigger_level`: with the FIFOs on, the level is stored and written to FCR; with them off, nothing is done, and the result is the error.
///
/// ```text
/// abbrev pub SetsTrigger : {T : Type 0} → FifoTriggerLevel → Result T FifosOffError → Doing
/// SetsTrigger level (Ok x) f l after = (f.fifo ≡ true) ×
///     Next (Sets (with_level level)) (Saving (Only (Write offsets.FCR (level_bits level) ∷ []))) f l after
/// SetsTrigger level (Err e) f l after = (f.fifo ≡ false) × (l ≡ []) × (after ≡ f)
/// ```
///
/// It uses [`Sets`](crate::proved::driver#Sets), [`Saving`](crate::proved::driver#Saving), [`Only`](crate::proved::grammar#Only); `Doing`, `Next` of `crates/uart_16550/specs/Driver.antt`; `with_level`, `level_bits` of this file.
///
/// <span id="SetsFrameWhenIdle"></span>
///
/// # `SetsFrameWhenIdle`
///
/// `set_frame_when_idle`: after a wait for an empty transmitter all is as in `set_frame`; or there is no divisor, and nothing is done; or the wait reaches the limit, and nothing is written.
///
/// ```text
/// abbrev pub SetsFrameWhenIdle : {T : Type 0} → Config → Result T FrameError → Doing
/// SetsFrameWhenIdle config (Ok x) f l after = (divisor : ℕ) × DivisorOf config (Ok divisor) ×
///     Next (Saving (WaitsFor LSR.TRANSMITTER_EMPTY.0 true))
///     (Next (Sets (with_frame config)) (Saving (Only (frame_writes divisor (frame_bits config))))) f l after
/// SetsFrameWhenIdle config (Err (frame_error.InvalidBaudRate cause)) f l after =
///     DivisorOf config (Err cause) × (l ≡ []) × (after ≡ f)
/// SetsFrameWhenIdle config (Err frame_error.Stalled) f l after = (divisor : ℕ) × DivisorOf config (Ok divisor) ×
///     Saving (WaitsFor LSR.TRANSMITTER_EMPTY.0 false) f l after
/// ```
///
/// It uses [`Saving`](crate::proved::driver#Saving), [`Sets`](crate::proved::driver#Sets), [`Only`](crate::proved::grammar#Only); `Doing`, `Next` of `crates/uart_16550/specs/Driver.antt`; `DivisorOf`, `frame_bits` of `crates/uart_16550/specs/Init.antt`; `WaitsFor` of `crates/uart_16550/specs/Transmit.antt`; `with_frame`, `frame_writes` of `crates/uart_16550/specs/Frame.antt`.
///
/// <span id="InitsWith"></span>
///
/// # `InitsWith`
///
/// `init_with`: as `init`, with the test, the wait and the outputs of this setup. The configuration is stored; the test and the wait that is to be first are made; divisor, frame and FIFO are set, the receiver is drained, and MCR is written; the wait that is to be last is made; the statuses are read, and IER is written. Or nothing is done, if there is no divisor; or all up to the test that fails, or to the wait that reaches the limit.
///
/// ```text
/// abbrev pub InitsWith : {T : Type 0} → Setup → Config → Result T InitError → Doing
/// InitsWith setup config (Ok x) f l after = (divisor : ℕ) × (fifo : Bool) × DivisorOf config (Ok divisor) ×
///     Next (Sets (with_config config))
///     (Next (Saving (Looks setup true))
///     (Next (SetsUp setup config divisor fifo)
///     (Next (Saving (WaitsIf (is_last setup.wait) true)) (Ends config)))) f l after
/// InitsWith setup config (Err (InvalidBaudRate cause)) f l after = DivisorOf config (Err cause) × (l ≡ []) × (after ≡ f)
/// InitsWith setup config (Err DeviceNotPresent) f l after = (divisor : ℕ) × DivisorOf config (Ok divisor) ×
///     Next (Sets (with_config config)) (Saving (ChecksIf setup.checks_presence false)) f l after
/// InitsWith setup config (Err Stalled) f l after = (divisor : ℕ) × DivisorOf config (Ok divisor) ×
///     (Next (Sets (with_config config)) (Saving (Looks setup false)) f l after
///     ⊎ ((fifo : Bool) × Next (Sets (with_config config))
///     (Next (Saving (Looks setup true))
///     (Next (SetsUp setup config divisor fifo) (Saving (WaitsIf (is_last setup.wait) false)))) f l after))
/// ```
///
/// It uses [`Sets`](crate::proved::driver#Sets), [`Saving`](crate::proved::driver#Saving); `Doing`, `Next`, `with_config` of `crates/uart_16550/specs/Driver.antt`; `DivisorOf`, `Ends` of `crates/uart_16550/specs/Init.antt`; `Looks`, `SetsUp`, `WaitsIf`, `is_last`, `ChecksIf` of this file.
///
/// <span id="Quiesces"></span>
///
/// # `Quiesces`
///
/// `quiesce`: all interrupts are disabled, the outputs are written to MCR, without loopback, and then FCR, if the FIFOs are to be reset or disabled.
///
/// ```text
/// abbrev pub Quiesces : (outputs : ℕ) → FifoAction → Doing
/// Quiesces outputs action f =
///     Next (Sets (with_interrupts 0))
///     (Next (Saving (Only (Write offsets.IER 0 ∷ Write offsets.MCR (unlooped outputs) ∷
///     fifo_writes action f.fifo f.config.fifo_trigger_level)))
///     (Sets (with_fifo (stays_on action f.fifo)))) f
/// ```
///
/// It uses [`Sets`](crate::proved::driver#Sets), [`Saving`](crate::proved::driver#Saving), [`Only`](crate::proved::grammar#Only); `Doing`, `Next`, `with_interrupts`, `with_fifo` of `crates/uart_16550/specs/Driver.antt`; `unlooped` of `crates/uart_16550/specs/Frame.antt`; `fifo_writes`, `stays_on` of this file.
///
/// <span id="Restores"></span>
///
/// # `Restores`
///
/// `restore`: divisor and frame, the FIFOs, and then MCR without loopback, SPR and IER are written as the dump has them. If it has the FIFOs on, ISR shows whether they are.
///
/// ```text
/// abbrev pub Restores : ConfigRegisterDump → Doing
/// Restores dump f l after = (fifo : Bool) ×
///     Next (Sets (with_interrupts dump.ier.0))
///     (Next (Saving (Then (Only (line_writes (divisor_of dump) (without 8 dump.lcr.0 LCR.DLAB.0)))
///     (Then (SetsFifo (dumped_level dump f.config) fifo) (Only (last_writes dump)))))
///     (Sets (with_fifo fifo))) f l after
/// ```
///
/// It uses [`Sets`](crate::proved::driver#Sets), [`Saving`](crate::proved::driver#Saving), [`Only`](crate::proved::grammar#Only), [`divisor_of`](uart_spec::proved::dump#divisor_of); `Doing`, `Next`, `with_interrupts`, `with_fifo` of `crates/uart_16550/specs/Driver.antt`; `Then` of `crates/uart_16550/specs/Grammar.antt`; `line_writes`, `SetsFifo` of `crates/uart_16550/specs/Init.antt`; `dumped_level`, `last_writes` of this file.
#[doc(alias("SetsTrigger", "SetsFrameWhenIdle", "InitsWith", "Quiesces", "Restores"))]
pub mod setup {}

/// Whether the chip shows what was written to it, register by register.
///
/// From `crates/uart_16550/specs/Configured.antt`.
///
/// <span id="ChecksConfigured"></span>
///
/// # `ChecksConfigured`
///
/// `check_configured`: the registers show the configuration and these outputs, without loopback; or one does not, and the error has what was asked for and what it shows; or the configuration has no divisor, and no access was made.
///
/// ```text
/// abbrev pub ChecksConfigured : Config → (outputs : ℕ) → Verdict → Language
/// ChecksConfigured config outputs (Ok x) s l = (divisor : ℕ) × IsDivisorIfAny config (Some divisor)
///     × ShowsAll (frame_bits config) (unlooped outputs) config.interrupts.0 divisor (Ok x) s l
/// ChecksConfigured config outputs (Err e) s l =
///     (IsDivisorIfAny config None × (e ≡ NoDivisor) × (l ≡ []))
///     ⊎ ((divisor : ℕ) × IsDivisorIfAny config (Some divisor)
///     × ShowsAll (frame_bits config) (unlooped outputs) config.interrupts.0 divisor (Err e) s l)
/// ```
///
/// It uses `Verdict`, `IsDivisorIfAny`, `ShowsAll` of this file; `Language` of `crates/uart_16550/specs/Grammar.antt`; `frame_bits` of `crates/uart_16550/specs/Init.antt`; `unlooped` of `crates/uart_16550/specs/Frame.antt`.
#[doc(alias("ChecksConfigured"))]
pub mod configured {}

/// What a terminal sends for a text.
///
/// From `crates/uart_16550/specs/Expansion.antt`.
///
/// <span id="SendsText"></span>
///
/// # `SendsText`
///
/// `write_text`: the expansion of the text, byte by byte, each after its own wait; or a beginning of it, as long as the error reports, at most 2 ^ 64 - 1, and then a wait that reaches the limit.
///
/// ```text
/// abbrev pub SendsText : {T : Type 0} → List ℕ → Result T StalledError → Language
/// SendsText text (Ok x) s l = SendsEach (expansion text) s l
/// SendsText text (Err e) s l = (sent : ℕ) × (e.done ≡ min sent (2 ^ 64 - 1)) × SendsBeginning (expansion text) sent s l
/// ```
///
/// It uses `Language` of `crates/uart_16550/specs/Grammar.antt`; `SendsEach`, `expansion`, `SendsBeginning` of this file.
#[doc(alias("SendsText"))]
pub mod expansion {}

/// Byte readers and writers: what one call does.
///
/// From `crates/uart_16550/specs/Io.antt`.
///
/// <span id="got"></span>
///
/// # `got`
///
/// The bytes that a read put into its slots: as many as it returned, and none if it failed.
///
/// ```text
/// abbrev pub got : {E : Type 0} → Result ℕ E → List ℕ → List ℕ
/// got (Ok count) slots = take count slots
/// got (Err e) slots = []
/// ```
///
/// <span id="Flushes"></span>
///
/// # `Flushes`
///
/// `flush`: a wait for an empty transmitter.
///
/// ```text
/// abbrev pub Flushes : {T : Type 0} → Result T StalledError → Language
/// Flushes (Ok x) s l = WaitsFor LSR.TRANSMITTER_EMPTY.0 true s l
/// Flushes (Err e) s l = (e.done ≡ 0) × WaitsFor LSR.TRANSMITTER_EMPTY.0 false s l
/// ```
///
/// It uses `Language` of `crates/uart_16550/specs/Grammar.antt`; `WaitsFor` of `crates/uart_16550/specs/Transmit.antt`.
#[doc(alias("got", "Flushes"))]
pub mod io {}

/// The driver under a terminal, and how a terminal is set up.
///
/// From `crates/uart_16550/specs/Tty.antt`.
///
/// <span id="inner_of"></span>
///
/// # `inner_of`
///
/// The driver under a terminal.
///
/// ```text
/// abbrev pub inner_of : {B : Type 0} → Uart16550Tty B → Uart16550 B
/// inner_of terminal = terminal.inner
/// ```
///
/// <span id="TerminalMade"></span>
///
/// # `TerminalMade`
///
/// The driver under the terminal made a list of the language.
///
/// ```text
/// abbrev pub TerminalMade : {B : Type 0} → (B → Access → B → Type 0) → Language → Uart16550Tty B → Uart16550Tty B → Type 0
/// TerminalMade step L old new = Made step L old.inner new.inner
/// ```
///
/// It uses [`Made`](crate::proved::driver#Made); `Language` of `crates/uart_16550/specs/Grammar.antt`.
///
/// <span id="BuildsTerminal"></span>
///
/// # `BuildsTerminal`
///
/// A new driver over this backend was started: by `init` and then `test_loopback`, up to the first refusal. If there is none, the terminal has the driver.
///
/// ```text
/// pub record BuildsTerminal {B : Type 0} (step : B → Access → B → Type 0) (backend : B) (config : Config)
///     (result : Result (Uart16550Tty B) Uart16550TtyError) : Type 0 where
///   pub driver : Uart16550 B
///   pub fresh : IsFresh driver backend DEFAULT
///   pub started : IsStarted step config driver result
/// ```
///
/// It uses [`IsFresh`](crate::proved::driver#IsFresh); `IsStarted` of this file.
///
/// <span id="BuildsTerminalAt"></span>
///
/// # `BuildsTerminalAt`
///
/// The address was refused; or a new driver over a backend at this address was started: by `init` and then `test_loopback`, up to the first refusal.
///
/// ```text
/// abbrev pub BuildsTerminalAt : {B : Type 0} → (B → Access → B → Type 0) → (B → Type 0) → (InvalidAddressError → Type 0) →
///     Config → Result (Uart16550Tty B) Uart16550TtyError → Type 0
/// BuildsTerminalAt step Lies Refuses config (Err (AddressError e)) = Refuses e
/// BuildsTerminalAt {B} step Lies Refuses config result =
///     (backend : B) × Lies backend × BuildsTerminal step backend config result
/// ```
///
/// It uses [`BuildsTerminal`](crate::proved::tty#BuildsTerminal).
#[doc(alias("inner_of", "TerminalMade", "BuildsTerminal", "BuildsTerminalAt"))]
pub mod tty {}

/// Registers at I/O ports.
///
/// From `crates/uart_16550/specs/Pio.antt`.
///
/// <span id="IsPortBase"></span>
///
/// # `IsPortBase`
///
/// The port of the last register is one of them.
///
/// ```text
/// abbrev pub IsPortBase : ℕ → Type 0
/// IsPortBase base = base + offsets.SPR ≤ last_port
/// ```
///
/// It uses `last_port` of this file.
///
/// <span id="IsAtPorts"></span>
///
/// # `IsAtPorts`
///
/// The registers are at the ports from this one on, and this object accesses them.
///
/// ```text
/// pub record IsAtPorts {P : Type 0} (ports : Ports P) (port : ℕ) (object : P) : Type 0 where
///   pub base : ports.base ≡ port
///   pub access : ports.access ≡ object
///   pub in_range : IsPortBase port
/// ```
///
/// It uses [`IsPortBase`](crate::proved::pio#IsPortBase); `Ports` of this file.
///
/// <span id="IsPortRefusal"></span>
///
/// # `IsPortRefusal`
///
/// Why no registers can be at the ports from this one on: the last of them would be beyond the last port.
///
/// ```text
/// pub record IsPortRefusal (port : ℕ) (e : InvalidAddressError) : Type 0 where
///   pub is : e ≡ InvalidBaseAddress port
///   pub beyond : last_port < port + offsets.SPR
/// ```
///
/// It uses `last_port` of this file.
///
/// <span id="PortStep"></span>
///
/// # `PortStep`
///
/// The object makes the access at the port base + offset, and the base does not change.
///
/// ```text
/// pub record PortStep {P : Type 0} (step : P → Access → P → Type 0) (old : Ports P) (access : Access)
///     (new : Ports P) : Type 0 where
///   pub made : step old.access (access_at (λ offset. old.base + offset) access) new.access
///   pub base : new.base ≡ old.base
/// ```
///
/// It uses `Ports` of this file; `access_at` of `crates/uart_16550/specs/Backend.antt`.
#[doc(alias("IsPortBase", "IsAtPorts", "IsPortRefusal", "PortStep"))]
pub mod pio {}

/// Registers in memory.
///
/// From `crates/uart_16550/specs/Mmio.antt`.
///
/// <span id="IsMapping"></span>
///
/// # `IsMapping`
///
/// The stride is a power of two, and the address of the last register is below 2^64.
///
/// ```text
/// pub record IsMapping (base stride : ℕ) : Type 0 where
///   pub power : IsTrue (is_power_of_two stride)
///   pub in_range : address_of base stride offsets.SPR < 2 ^ 64
/// ```
///
/// It uses `address_of` of this file.
///
/// <span id="IsInMemory"></span>
///
/// # `IsInMemory`
///
/// The registers are in memory from this address on, with this distance, and this object accesses them.
///
/// ```text
/// pub record IsInMemory {M : Type 0} (mapped : Mapped M) (address : NonZeroUsize) (apart : ℕ) (object : M) : Type 0 where
///   pub base : mapped.base ≡ address
///   pub stride : non_zero_u8_get mapped.stride ≡ apart
///   pub access : mapped.access ≡ object
///   pub mapping : IsMapping (non_zero_usize_get address) apart
/// ```
///
/// It uses [`IsMapping`](crate::proved::mmio#IsMapping); `Mapped` of this file.
///
/// <span id="IsMappingRefusal"></span>
///
/// # `IsMappingRefusal`
///
/// Why no registers can be in memory from this address on: the stride is checked first.
///
/// ```text
/// abbrev pub IsMappingRefusal : (address apart : ℕ) → InvalidAddressError → Type 0
/// IsMappingRefusal address apart (InvalidStride s) = (s ≡ apart) × (is_power_of_two apart ≡ false)
/// IsMappingRefusal address apart (InvalidBaseAddress a) =
///     (a ≡ address) × IsTrue (is_power_of_two apart) × (2 ^ 64 ≤ address_of address apart offsets.SPR)
/// ```
///
/// It uses `address_of` of this file.
///
/// <span id="MemoryStep"></span>
///
/// # `MemoryStep`
///
/// The object makes the access at the address base + offset \* stride, and base and stride do not change.
///
/// ```text
/// pub record MemoryStep {M : Type 0} (step : M → Access → M → Type 0) (old : Mapped M) (access : Access)
///     (new : Mapped M) : Type 0 where
///   pub made : step old.access
///       (access_at (address_of (non_zero_usize_get old.base) (non_zero_u8_get old.stride)) access) new.access
///   pub base : new.base ≡ old.base
///   pub stride : new.stride ≡ old.stride
/// ```
///
/// It uses `Mapped`, `address_of` of this file; `access_at` of `crates/uart_16550/specs/Backend.antt`.
#[doc(alias("IsMapping", "IsInMemory", "IsMappingRefusal", "MemoryStep"))]
pub mod mmio {}

/// The loopback test, access by access.
///
/// From `crates/uart_16550/specs/Loopback.antt`.
///
/// <span id="TestsLoopback"></span>
///
/// # `TestsLoopback`
///
/// `test_loopback`: MCR and IER are read, and there is a wait for an empty transmitter. If it reaches the limit, nothing is written, and the result is a stall; else loopback is entered, bytes are exchanged up to the first error, and MCR and IER are restored.
///
/// ```text
/// abbrev pub TestsLoopback : {T : Type 0} → Result T LoopbackError → Doing
/// TestsLoopback result = FromEmpty (IsStalled result) (λ mcr ier. Tests mcr ier result)
/// ```
///
/// It uses `Doing` of `crates/uart_16550/specs/Driver.antt`; `FromEmpty`, `IsStalled`, `Tests` of this file.
#[doc(alias("TestsLoopback"))]
pub mod loopback {}

/// How the size of the FIFOs is found, and how FIFOs of 64 are turned on, access by access.
///
/// From `crates/uart_16550/specs/Sizing.antt`.
///
/// <span id="FindsFifoSize"></span>
///
/// # `FindsFifoSize`
///
/// `find_fifo_size`: nothing is done if the FIFOs are off. Else MCR and IER are read, and there is a wait for an empty transmitter. If it reaches the limit, nothing is written, and the result is a stall; else loopback is entered, the transmitter is flooded, what comes back is counted, the FIFOs are reset, and MCR and IER are restored. The result is the largest size of no more characters than came back.
///
/// ```text
/// abbrev pub FindsFifoSize : Result FifoSize FifoSizeError → Doing
/// FindsFifoSize result f l after =
///     ((result ≡ Err FifosOff) × (f.fifo ≡ false) × (l ≡ []) × (after ≡ f))
///     ⊎ ((f.fifo ≡ true) × FromEmpty (result ≡ Err Stalled) (SizesInLoopback result) f l after)
/// ```
///
/// It uses `Doing` of `crates/uart_16550/specs/Driver.antt`; `FromEmpty` of `crates/uart_16550/specs/Loopback.antt`; `SizesInLoopback` of this file.
///
/// <span id="Enables64"></span>
///
/// # `Enables64`
///
/// `enable_64_byte_fifos`: nothing is done if the FIFOs are off. Else LCR and IER are read, and there is a wait for an empty transmitter. If it reaches the limit, nothing is written, and the result is a stall; else FIFOs of 64 are asked for, and the result is whether ISR shows them.
///
/// ```text
/// abbrev pub Enables64 : Result Bool FifoSizeError → Doing
/// Enables64 (Ok on) f l after = (f.fifo ≡ true) × (lcr : ℕ) × (ier : ℕ) ×
///     Saving (Then (BeginsEnabling lcr ier true) (Enabling lcr ier (unwrap_or f.config.fifo_trigger_level One) on))
///     f l after
/// Enables64 (Err FifosOff) f l after = (f.fifo ≡ false) × (l ≡ []) × (after ≡ f)
/// Enables64 (Err (TooFew returned)) f l after = ⊥
/// Enables64 (Err Stalled) f l after =
///     (f.fifo ≡ true) × (lcr : ℕ) × (ier : ℕ) × Saving (BeginsEnabling lcr ier false) f l after
/// ```
///
/// It uses [`Saving`](crate::proved::driver#Saving); `Doing` of `crates/uart_16550/specs/Driver.antt`; `Then` of `crates/uart_16550/specs/Grammar.antt`; `BeginsEnabling`, `Enabling` of this file.
#[doc(alias("FindsFifoSize", "Enables64"))]
pub mod sizing {}
