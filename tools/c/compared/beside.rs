
// The side of C: what makes its choices for it, and takes its words. It is put behind run.rs.

static mut SHOWN: Vec<u64> = Vec::new();

/// Returns the words that a function of C shows, which calls what it is compared with.
///
/// # Safety
///
/// It is one that tools/c/beside.py wrote.
pub unsafe fn called(function: unsafe extern "C-unwind" fn()) -> Vec<u64> {
    // SAFETY: one thread runs all, and no case is within another.
    unsafe {
        (*(&raw mut SHOWN)).clear();
        function();
        core::mem::take(&mut *(&raw mut SHOWN))
    }
}

impl Choices {
    /// Returns choices of a value that is known, of which each is made: these, and the first one behind them.
    pub fn known(path: &[u64]) -> Self {
        let mut made = Self::new(Mode::All, 0);
        made.path = path.iter().map(|choice| (*choice, choice + 1)).collect();
        made
    }
}

fn choices_of_case() -> &'static mut Choices {
    // SAFETY: `once` put the choices of the case there, which outlive it.
    unsafe { &mut *CASE.with_borrow(|case| case.choices) }
}

#[unsafe(no_mangle)]
extern "C-unwind" fn beside_byte() -> u8 {
    Value::make(choices_of_case())
}

#[unsafe(no_mangle)]
extern "C-unwind" fn beside_number(bits: u32) -> u64 {
    choices_of_case().number(bits)
}

#[unsafe(no_mangle)]
extern "C-unwind" fn beside_bool() -> bool {
    Value::make(choices_of_case())
}

#[unsafe(no_mangle)]
extern "C-unwind" fn beside_pick(bound: u64) -> u64 {
    choices_of_case().pick(bound)
}

/// Around the items of an array, as `Value` of arrays makes them.
#[unsafe(no_mangle)]
extern "C-unwind" fn beside_array(begins: bool) {
    let choices = choices_of_case();
    choices.is_text = begins && choices.mode != Mode::All && choices.pick(4) == 0;
}

#[unsafe(no_mangle)]
extern "C-unwind" fn beside_length(least: usize) -> usize {
    (choices_of_case().length() as usize).max(least)
}

#[unsafe(no_mangle)]
unsafe extern "C-unwind" fn beside_bytes(least: usize, to: *mut u8) -> usize {
    let bytes = choices_of_case().bytes(least as u64);
    // SAFETY: the C has room for more than there ever are.
    unsafe { core::ptr::copy_nonoverlapping(bytes.as_ptr(), to, bytes.len()) };
    bytes.len()
}

#[unsafe(no_mangle)]
extern "C-unwind" fn beside_memory_of() -> usize {
    memory_of(choices_of_case()) as usize
}

#[unsafe(no_mangle)]
extern "C-unwind" fn beside_memory(count: usize) -> *mut u8 {
    memory(count as u64)
}

#[unsafe(no_mangle)]
unsafe extern "C-unwind" fn beside_queue(capacity: &mut usize, front: &mut usize, count: &mut usize, bytes: *mut u8) {
    let made = queue(choices_of_case());
    (*capacity, *front, *count) = (made.0, made.1, made.2.len());
    // SAFETY: the C has room for as many bytes as a queue has at most.
    unsafe { core::ptr::copy_nonoverlapping(made.2.as_ptr(), bytes, made.2.len()) };
}

#[unsafe(no_mangle)]
extern "C-unwind" fn beside_show(word: u64) {
    // SAFETY: as in `called`.
    unsafe { (*(&raw mut SHOWN)).push(word) };
}

#[unsafe(no_mangle)]
extern "C-unwind" fn beside_read(_: *mut u8, offset: usize) -> u8 {
    read(offset as u64, REGISTERS)
}

#[unsafe(no_mangle)]
extern "C-unwind" fn beside_write(_: *mut u8, offset: usize, value: u8) {
    write(offset as u64, value, REGISTERS);
}

// The ports of a line: how many there are, whether a port served something, and which are raised.

const LINES: u64 = 8;

/// Returns how many ports a line has.
pub fn number_of_ports() -> u64 {
    choices_of_case().pick(6)
}

/// Lowers the interrupts of a port, and returns whether it served something.
pub fn lower(port: u64, limit: u64, rounds: u32) -> bool {
    let is_answered = CASE.with_borrow_mut(|case| {
        case.accesses.extend([LINES << 60 | port, limit, u64::from(rounds)]);
        case.answers = case.answers.checked_sub(1)?;
        Some(())
    });
    if is_answered.is_none() {
        resume_unwind(Box::new(NoAnswer));
    }
    choices_of_case().pick(2) == 1
}

/// Raises the interrupts of a port.
pub fn raise(port: u64) {
    CASE.with_borrow_mut(|case| case.accesses.push((LINES | 1) << 60 | port));
}

#[unsafe(no_mangle)]
extern "C-unwind" fn beside_ports() -> usize {
    number_of_ports() as usize
}

#[unsafe(no_mangle)]
extern "C-unwind" fn beside_lower(port: usize, limit: usize, rounds: u32) -> bool {
    lower(port as u64, limit as u64, rounds)
}

#[unsafe(no_mangle)]
extern "C-unwind" fn beside_raise(port: usize) {
    raise(port as u64);
}
