
// What says where ports are, for `uart_discovery`: bytes that are nearly right, since bytes at random are refused by the first test.

/// Changes some bytes, or cuts some off. Half are left as they are.
fn spoiled(choices: &mut Choices, mut bytes: Vec<u8>) -> Vec<u8> {
    for _ in 0..choices.one_of(&[0, 0, 0, 1, 1, 3]) {
        let at = choices.pick(bytes.len().max(1) as u64) as usize;
        let byte = match choices.pick(3) {
            0 => choices.pick(8) as u8,
            1 => choices.one_of(&NUMBERS) as u8,
            _ => choices.pick(256) as u8,
        };
        if let Some(place) = bytes.get_mut(at) {
            *place = byte;
        }
    }
    if choices.pick(12) == 0 {
        bytes.truncate(choices.pick(bytes.len() as u64 + 1) as usize);
    }
    bytes
}

/// Puts the bytes of a number here, the lowest first.
fn put(bytes: &mut [u8], at: usize, number: u64, count: usize) {
    for (order, place) in bytes[at..at + count].iter_mut().enumerate() {
        *place = (number >> (8 * order)) as u8;
    }
}

/// Puts the address of registers here, as ACPI has it.
fn put_address(choices: &mut Choices, bytes: &mut [u8], at: usize) {
    bytes[at] = choices.one_of(&[0, 0, 1, 1, 2, 0x7f]);
    bytes[at + 1] = 8;
    bytes[at + 2] = choices.one_of(&[0, 0, 0, 0, 0, 4]);
    bytes[at + 3] = choices.pick(6) as u8;
    let base = choices.one_of(&[0, 0x3f8, 0xfff8, 0xfff9, 0x1_0000, 0xfedc_9000, 0x10_fedc_9000]);
    put(bytes, at + 4, base, 8);
}

/// Returns a table of ACPI: the serial port console or debug ports, of most of which length and sum are right.
pub fn table(choices: &mut Choices) -> Vec<u8> {
    let is_console = choices.pick(2) == 0;
    let mut bytes = std::vec![0; choices.one_of(&[80, 83, 84, 90, 110, 140])];
    bytes[..4].copy_from_slice(if is_console { b"SPCR" } else { b"DBG2" });
    bytes[8] = choices.pick(6) as u8;
    if is_console {
        bytes[36] = choices.one_of(&[0, 0, 1, 1, 0x12, 0x12, 3]);
        put_address(choices, &mut bytes, 40);
        bytes[52] = choices.one_of(&[0, 1, 1, 2, 8, 9, 0x20]);
        bytes[53] = choices.pick(16) as u8;
        put(&mut bytes, 54, choices.one_of(&[0, 33, 0x1234_5678]), 4);
        bytes[58] = choices.pick(9) as u8;
        put(&mut bytes, 76, choices.one_of(&[0, 1_843_200, 48_000_000]), 4);
        if bytes.len() >= 84 {
            put(&mut bytes, 80, choices.one_of(&[0, 0, 1_500_000]), 4);
        }
    } else {
        let first = choices.one_of(&[44, 44, 44, 46, 36]);
        put(&mut bytes, 36, first, 4);
        put(&mut bytes, 40, choices.one_of(&[0, 1, 2, 2, 3]), 4);
        for at in [first as usize, first as usize + 34, first as usize + 60] {
            if at + 34 > bytes.len() {
                break;
            }
            put(&mut bytes, at + 1, choices.one_of(&[34, 34, 34, 26, 21, 200]), 2);
            bytes[at + 3] = choices.one_of(&[1, 1, 1, 2, 0]);
            put(&mut bytes, at + 12, choices.one_of(&[0x8000, 0x8000, 0x8001]), 2);
            put(&mut bytes, at + 14, choices.one_of(&[0, 1, 0x12, 0x12, 3]), 2);
            put(&mut bytes, at + 18, choices.one_of(&[22, 22, 22, 100]), 2);
            put_address(choices, &mut bytes, at + 22);
        }
    }
    let length = bytes.len() as u64;
    put(&mut bytes, 4, length, 4);
    let mut bytes = spoiled(choices, bytes);
    if bytes.len() >= 36 && choices.pick(8) != 0 {
        let length = bytes.len() as u64;
        put(&mut bytes, 4, length, 4);
        bytes[9] = 0;
        bytes[9] = bytes.iter().fold(0u8, |sum, byte| sum.wrapping_add(*byte)).wrapping_neg();
    }
    for _ in 0..choices.one_of(&[0, 0, 0, 5]) {
        bytes.push(choices.pick(256) as u8);
    }
    bytes
}

/// Returns a signature of a table.
pub fn signature(choices: &mut Choices) -> Vec<u8> {
    choices.one_of(&[b"SPCR", b"DBG2"]).to_vec()
}

/// Returns where something may begin in so many bytes: half of the time where tables and trees have something, and seldom at the end of all
/// numbers.
pub fn place(choices: &mut Choices, length: usize) -> u64 {
    if choices.pick(40) == 0 {
        return usize::MAX as u64 - choices.pick(8);
    }
    match choices.pick(4) {
        0 => choices.one_of(&[0, 4, 36, 40, 44, 52, 66, 78]),
        1 => choices.pick(length as u64 / 4 + 2) * 4,
        2 => (length as u64 + 2).saturating_sub(choices.pick(30)),
        _ => choices.pick(length as u64 + 2),
    }
}

/// Returns the header of a function of PCI.
pub fn header(choices: &mut Choices) -> Vec<u8> {
    let mut bytes = std::vec![0; 64];
    let (vendor, device) = choices.one_of(&[
        (0x1b36, 2), (0x1b36, 3), (0x1b36, 4), (0x1c00, 0x3250), (0x1c00, 0x3253), (0x1c00, 0x3470), (0x1c00, 3), (0x8086, 0x8811),
    ]);
    put(&mut bytes, 0, vendor, 2);
    put(&mut bytes, 2, device, 2);
    let class = 0x07_0000 + choices.one_of(&[2, 2, 2, 0, 1, 3, 6, 7]);
    put(&mut bytes, 9, class, 3);
    bytes[14] = choices.one_of(&[0, 0, 0x80, 0x80, 1]);
    let address = choices.one_of(&[0, 0xc040, 0xffe0, 0x1_0000, 0x8000_0000, 0xffff_fff0]);
    let base = address | choices.one_of(&[0, 1, 1, 4, 4, 2, 5, 9, 12]);
    put(&mut bytes, 16, base, 4);
    put(&mut bytes, 20, choices.one_of(&[0, 0, 0x12, 0xffff_ffff]), 4);
    bytes[61] = choices.pick(6) as u8;
    let extra = choices.one_of(&[0, 0, 192]);
    bytes.resize(64 + extra, 0);
    spoiled(choices, bytes)
}

/// Words of command lines and of device trees.
const WORDS: [&[u8]; 47] = [
    b"uart8250", b"uart", b"io", b"mmio", b"mmio16", b"mmio32", b"mmio32be", b"ttyS0", b"ttyS1", b"ttyS2", b"ttyS3", b"", b"n8", b"0x",
    b"#address-cells", b"#size-cells", b"ranges", b"reg", b"compatible", b"status", b"big-endian", b"native-endian", b"reg-shift",
    b"reg-io-width", b"reg-offset", b"interrupts", b"clock-frequency", b"current-speed", b"stdout-path", b"linux,stdout-path", b"serial0",
    b"chosen", b"aliases", b"ns16450", b"ns16550", b"ns16550a", b"ns16750", b"ns16850", b"snps,dw-apb-uart", b"intel,xscale-uart",
    b"mrvl,mmp-uart", b"nvidia,tegra20-uart", b"nxp,lpc3220-uart", b"altr,16550-FIFO32", b"altr,16550-FIFO64", b"altr,16550-FIFO128",
    b"mmio32native",
];

fn digits(choices: &mut Choices, of: &[u8], most: u64) -> Vec<u8> {
    (0..choices.pick(most + 1)).map(|_| choices.one_of(of)).collect()
}

/// Returns a word.
pub fn word(choices: &mut Choices) -> Vec<u8> {
    let word = match choices.pick(5) {
        0 => choices.one_of(&WORDS).to_vec(),
        1 => digits(choices, b"0123456789", 11),
        2 => digits(choices, b"0123456789abcdefABCDEF", 18),
        3 => [&b"0x"[..], &digits(choices, b"0123456789abcdef", 17)].concat(),
        _ => [digits(choices, b"0123456789", 9), b"n8"[..choices.pick(3) as usize].to_vec()].concat(),
    };
    spoiled(choices, word)
}

fn joined(choices: &mut Choices, parts: Vec<Vec<u8>>) -> Vec<u8> {
    let mut text = parts.join(&b","[..]);
    if choices.pick(12) == 0 {
        text.extend_from_slice(b",1");
    }
    spoiled(choices, text)
}

/// Returns what stands behind a baud rate.
pub fn letters(choices: &mut Choices) -> Vec<u8> {
    let whole = [choices.one_of(b"noem"), choices.one_of(b"456789"), choices.one_of(b"rrx"), b'r'];
    whole[..choices.pick(5) as usize].to_vec()
}

/// Returns the options of a console.
pub fn options(choices: &mut Choices) -> Vec<u8> {
    let rate = choices.one_of(&[&b"9600"[..], b"115200", b"0", b"999999999", b"1000000000", b""]);
    [rate, &letters(choices)].concat()
}

/// Returns the value of `earlycon=` or of `console=`.
pub fn command_line(choices: &mut Choices) -> Vec<u8> {
    let rate = match choices.pick(3) {
        0 => Vec::new(),
        1 => options(choices),
        _ => word(choices),
    };
    if choices.pick(3) == 0 {
        let name = choices.one_of(&WORDS[7..12]).to_vec();
        return joined(choices, std::vec![name, rate]);
    }
    let name = choices.one_of(&[&b"uart8250"[..], b"uart", b"ns16550a", b"ns16550"]).to_vec();
    let access = choices.one_of(&[&b"io"[..], b"mmio", b"mmio16", b"mmio32", b"mmio32be", b"mmio32native"]).to_vec();
    let base = match choices.pick(3) {
        0 => choices.one_of(&[&b"0x3f8"[..], b"0xfff8", b"0xfff9", b"0x0", b"3f8", b"0xffffffffffffffff"]).to_vec(),
        _ => [&b"0x"[..], &digits(choices, b"0123456789abcdefABCDEF", 16)].concat(),
    };
    let clock = choices.one_of(&[&b"1843200"[..], b"24000000", b"0", b""]).to_vec();
    let count = choices.one_of(&[5, 5, 4, 3]);
    let mut parts: Vec<Vec<u8>> = [name, access, base, rate, clock].into_iter().take(count).collect();
    if choices.pick(3) == 0 {
        // The address alone.
        parts.remove(1);
    }
    joined(choices, parts)
}

/// A device tree that is written token by token.
#[derive(Default)]
struct Written {
    structure: Vec<u8>,
    strings: Vec<u8>,
    lacks_nothing: bool,
}

impl Written {
    fn word(&mut self, word: u64) {
        self.structure.extend((word as u32).to_be_bytes());
    }

    fn text(&mut self, text: &[u8]) {
        self.structure.extend_from_slice(text);
        self.structure.push(0);
        self.structure.resize(self.structure.len().div_ceil(4) * 4, 0);
    }

    fn begin(&mut self, name: &[u8]) {
        self.word(1);
        self.text(name);
    }

    fn property(&mut self, choices: &mut Choices, name: &[u8], value: &[u8]) {
        if choices.pick(8) == 0 {
            self.word(4);
        }
        self.word(3);
        self.word(value.len() as u64);
        self.word(self.strings.len() as u64);
        self.strings.extend_from_slice(name);
        self.strings.push(0);
        self.structure.extend_from_slice(value);
        self.structure.resize(self.structure.len().div_ceil(4) * 4, 0);
    }

    fn cells(&mut self, choices: &mut Choices, name: &[u8], cells: &[u32]) {
        let bytes: Vec<u8> = cells.iter().flat_map(|cell| cell.to_be_bytes()).collect();
        self.property(choices, name, &bytes);
    }

    // A property that one of three nodes lacks, if it may lack some, with one of these as its only cell. Seldom it is no cell.
    fn maybe(&mut self, choices: &mut Choices, name: &[u8], values: &[u32]) {
        if choices.pick(24) == 0 {
            self.property(choices, name, b"\0\x01");
        } else if self.lacks_nothing || choices.pick(3) != 0 {
            let value = choices.one_of(values);
            self.cells(choices, name, &[value]);
        }
    }

    fn bus(&mut self, choices: &mut Choices) {
        self.maybe(choices, b"#address-cells", &[1, 1, 2, 2, 3]);
        self.maybe(choices, b"#size-cells", &[1, 1, 1, 2, 0]);
    }

    // One of four ports has all properties but the last one, in whose place may be what is none.
    fn port(&mut self, choices: &mut Choices) {
        self.lacks_nothing = choices.pick(4) == 0;
        let name = choices.one_of(&WORDS[33..46]);
        let compatible = if choices.pick(3) == 0 { [b"acme,uart\0", name, b"\0"].concat() } else { [name, b"\0"].concat() };
        self.property(choices, b"compatible", &compatible);
        if choices.pick(12) != 0 {
            let last = [u32::MAX; 4];
            let reg = [choices.one_of(&[0, 0x1000, 0x4500]), choices.one_of(&[0x1000, 0x100, 0x4600]), 0x100, 0];
            let count = choices.one_of(&[4, 4, 2, 1]);
            let reg = choices.one_of(&[reg, reg, reg, last]);
            self.cells(choices, b"reg", &reg[..count]);
        }
        self.maybe(choices, b"reg-shift", &[0, 1, 2, 3, 4, 5, 6, 7, 8]);
        self.maybe(choices, b"reg-io-width", &[1, 2, 4, 8]);
        self.maybe(choices, b"reg-offset", &[0, 0x100, u32::MAX]);
        self.maybe(choices, b"clock-frequency", &[0, 1_843_200, 48_000_000]);
        self.maybe(choices, b"current-speed", &[0, 115_200]);
        match choices.pick(4) {
            0 => self.property(choices, b"big-endian", b""),
            1 => self.property(choices, b"native-endian", b""),
            _ => {}
        }
        if self.lacks_nothing || choices.pick(3) == 0 {
            let status = choices.one_of(&[&b"okay\0"[..], b"okay\0", b"ok\0", b"ok\0", b"", b"okay", b"okays", b"disabled\0"]);
            self.property(choices, b"status", status);
        }
        if self.lacks_nothing && choices.pick(2) == 0 {
            [3, 4, u64::from(u32::MAX), 0].into_iter().for_each(|word| self.word(word));
        }
        self.lacks_nothing = false;
        if choices.pick(2) == 0 {
            let count = choices.pick(5) as usize;
            self.cells(choices, b"interrupts", &[7, 42, 2, 9][..count]);
        }
        self.maybe(choices, b"interrupt-parent", &[1, 1, 5]);
        if choices.pick(4) == 0 {
            let count = choices.pick(7) as usize;
            let parent = choices.one_of(&[1, 1, 5]);
            self.cells(choices, b"interrupts-extended", &[parent, 7, 42, 2, 9, 3][..count]);
        }
        if choices.pick(2) == 0 {
            let count = choices.pick(2) as usize;
            let clock = choices.one_of(&[3, 3, 4, 5]);
            self.cells(choices, b"clocks", &[clock][..count]);
        }
    }

    // What other nodes name by a number: a controller of interrupts, and two clocks.
    fn named(&mut self, choices: &mut Choices) {
        let phandle = choices.one_of(&[&b"phandle"[..], b"phandle", b"linux,phandle"]);
        self.begin(b"pic");
        self.cells(choices, phandle, &[1]);
        self.maybe(choices, b"#interrupt-cells", &[1, 2, 3, 5]);
        self.word(2);
        for (number, name) in [(3, &b"fixed-clock\0"[..]), (4, b"acme,clock\0")] {
            self.begin(b"clock");
            self.maybe(choices, phandle, &[number]);
            if choices.pick(8) != 0 {
                self.property(choices, b"compatible", name);
            }
            self.maybe(choices, b"clock-frequency", &[0, 24_000_000]);
            self.word(2);
        }
    }
}

/// Returns the structure and the strings of a device tree with a port on one of two buses, of which some words are wrong.
pub fn tree(choices: &mut Choices) -> (Vec<u8>, Vec<u8>) {
    let mut tree = Written::default();
    tree.begin(b"");
    tree.bus(choices);
    tree.maybe(choices, b"interrupt-parent", &[1]);
    tree.begin(b"aliases");
    let path = choices.one_of(&[&b"/soc/serial@4500\0"[..], b"/soc/bus@1/serial\0", b"/none\0"]);
    let names = [&b"serial0"[..], b"serial0", b"serial12", b"serialx", b"ethernet0"];
    for path in [path, choices.one_of(&[&b"/soc/serial@4500\0"[..], b"/soc/bus/serial\0", b"/\0"])] {
        let name = choices.one_of(&names);
        tree.property(choices, name, path);
    }
    tree.word(2);
    tree.named(choices);
    if choices.pick(8) != 0 {
        tree.begin(b"chosen");
        let serial = b"serial0\0".as_slice();
        let console = choices.one_of(&[serial, b"serial0:115200n8\0", b"/soc/serial:9600\0", b"/soc/bus/serial@4500:x\0", b"/soc\0"]);
        let name = choices.one_of(&[&b"stdout-path"[..], b"stdout-path", b"linux,stdout-path", b"bootargs"]);
        tree.property(choices, name, console);
        tree.word(2);
    }
    tree.begin(b"soc");
    tree.bus(choices);
    ranges(choices, &mut tree);
    if choices.pick(6) == 0 {
        tree.maybe(choices, b"phandle", &[6]);
        tree.cells(choices, b"#interrupt-cells", &[1]);
    }
    if choices.pick(2) == 0 {
        tree.begin(b"bus@1");
        tree.bus(choices);
        ranges(choices, &mut tree);
        tree.begin(b"serial@4500");
        tree.port(choices);
        tree.word(2);
        tree.word(2);
    }
    // more nodes in each other than a path may have
    let deep = choices.one_of(&[0, 0, 0, 0, 0, 0, 0, 16]);
    (0..deep).for_each(|_| tree.begin(b"soc"));
    (0..deep).for_each(|_| tree.word(2));
    tree.begin(b"serial@4500");
    tree.port(choices);
    for _ in 0..3 {
        tree.word(2);
    }
    tree.word(9);
    (spoiled(choices, tree.structure), spoiled(choices, tree.strings))
}

// The rows by which a bus is seen from the one above it, of one cell each or of two.
fn ranges(choices: &mut Choices, tree: &mut Written) {
    let rows = [0, 0xe000_0000, 0x10_0000, 0x4000, 0, 0x2000, 0, 0xe000_0000, 0, 0x10_0000];
    let (from, count) = choices.one_of(&[(0, 0), (0, 3), (0, 3), (3, 3), (0, 6), (4, 6), (4, 5), (0, 2)]);
    match choices.pick(16) {
        0 => {}
        1 => tree.property(choices, b"ranges", b"\0\x01"),
        _ => tree.cells(choices, b"ranges", &rows[from..from + count]),
    }
}

/// Returns the blob of a device tree.
pub fn blob(choices: &mut Choices) -> Vec<u8> {
    let (structure, strings) = tree(choices);
    let (first, second) = (structure.len() as u32, strings.len() as u32);
    let mut blob = Vec::new();
    let version = choices.one_of(&[16, 16, 16, 17, 18]);
    for word in [0xd00d_feed, 40 + first + second, 40, 40 + first, 40, 17, version, 0, second, first] {
        blob.extend(word.to_be_bytes());
    }
    blob.extend(structure);
    blob.extend(strings);
    spoiled(choices, blob)
}

/// Returns the path of a node, or an alias.
pub fn path(choices: &mut Choices) -> Vec<u8> {
    let paths = [&b"/soc/serial"[..], b"/soc/bus/serial@4500", b"/chosen", b"serial0", b"/", b"", b"/soc//serial/", b"/soc/serial/soc/a/b"];
    let path = if choices.pick(12) == 0 { b"/soc".repeat(17) } else { choices.one_of(&paths).to_vec() };
    spoiled(choices, path)
}

/// Returns a name of a property.
pub fn name(choices: &mut Choices) -> Vec<u8> {
    choices.one_of(&WORDS[14..31]).to_vec()
}

/// Returns the nodes on a path, and how many there are.
pub fn nodes(choices: &mut Choices) -> ([u64; 16], u64) {
    (core::array::from_fn(|_| choices.pick(150) * 4), choices.pick(18))
}

/// Returns bytes of a case as long as it lasts.
pub fn kept(bytes: &[u8]) -> &'static [u8] {
    let place = lent(bytes.len() as u64);
    place.copy_from_slice(bytes);
    place
}
