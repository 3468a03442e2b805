// ---- Names of registers and bits, and small helpers

// The bits of each register, from bit 0 on.
const BITS = {
  IER: ["ERBFI", "ETBEI", "ELSI", "EDSSI"],
  LCR: ["WLS0", "WLS1", "STB", "PEN", "EPS", "STICK", "BREAK", "DLAB"],
  MCR: ["DTR", "RTS", "OUT1", "OUT2", "LOOP", "AFE"],
  LSR: ["DR", "OE", "PE", "FE", "BI", "THRE", "TEMT", "FIFOE"],
  MSR: ["ΔCTS", "ΔDSR", "TERI", "ΔCD", "CTS", "DSR", "RI", "CD"],
  FCR: ["FIFO", "RXCLR", "TXCLR", "DMA", "", "FIFO64", "TRIG0", "TRIG1"],
};

const MEANINGS = {
  DR: "a character waits",
  OE: "overrun: a character was lost",
  PE: "parity error",
  FE: "framing error",
  BI: "break",
  THRE: "room to write",
  TEMT: "transmitter empty",
  FIFOE: "an error in the FIFO",
  ERBFI: "received data",
  ETBEI: "room to write",
  ELSI: "line errors",
  EDSSI: "modem lines",
  DLAB: "offsets 0 and 1 are the divisor",
  LOOP: "loopback",
  FIFO: "FIFOs on",
  RXCLR: "empty the receiver",
  TXCLR: "empty the transmitter",
  AFE: "automatic flow control",
  FIFO64: "FIFOs of 64, on a 16750 whose DLAB is set",
  BREAK: "a break is sent",
};

// What the low four bits of ISR say.
const CAUSES = { 1: "none", 6: "line errors", 4: "data", 12: "data, timeout", 2: "THR empty", 0: "modem lines" };

// What became of a character that arrived, by the letter of its mark in docs/SCRIPTS.md.
const MARKS = { r: "read", x: "dropped", w: "waits", d: "discarded", p: "still to come", l: "lost in loopback" };

const READ_NAMES = ["DATA", "IER", "ISR", "LCR", "MCR", "LSR", "MSR", "SPR"];
const WRITE_NAMES = ["DATA", "IER", "FCR", "LCR", "MCR", "LSR", "MSR", "SPR"];

const element = (id) => document.getElementById(id);
const hex = (value) => value.toString(16).padStart(2, "0");
const isPrinted = (byte) => byte > 32 && byte < 127;
const character = (byte) => (isPrinted(byte) ? String.fromCharCode(byte) : byte === 32 ? "␣" : hex(byte));
const literally = (byte) => (isPrinted(byte) ? `${hex(byte)} ‘${String.fromCharCode(byte)}’` : hex(byte));
const counted = (count, noun) => `${count} ${noun}${count === 1 ? "" : "s"}`;
const namesOf = (register, value) => (BITS[register] || []).filter((name, bit) => name && (value >> bit) & 1);

// Makes an element. What is put into it is text or elements, and never markup: a file that is dropped here may have any text.
function make(tag, attributes, ...children) {
  const made = tag === "svg" || make.inSvg.has(tag) ? document.createElementNS("http://www.w3.org/2000/svg", tag) : document.createElement(tag);
  for (const [name, value] of Object.entries(attributes || {})) {
    if (name === "onclick") made.addEventListener("click", value);
    else if (value !== undefined && value !== false) made.setAttribute(name, value === true ? "" : value);
  }
  made.append(...children.filter((child) => child !== undefined && child !== ""));
  return made;
}
make.inSvg = new Set(["rect", "text", "g", "line", "polygon", "title"]);

// Takes the class names that are no empty words.
const classes = (...names) => names.filter(Boolean).join(" ");

// What an object has under a name of its own. An address may have any name, and each object has some that nobody gave it.
const own = (object, name) => (Object.hasOwn(object, name) ? object[name] : undefined);

// After so long without another change the address says what is shown: whoever reloads the page, or opens it later, sees the same.
const ADDRESS_DELAY = 300;

// Says in the address what is shown, if this tab is still shown then.
function remember(tab, fragment) {
  clearTimeout(remember.timer);
  remember.timer = setTimeout(() => {
    if (element(tab).classList.contains("shown")) setAddress("replaceState", fragment());
  }, ADDRESS_DELAY);
}

function setAddress(how, fragment) {
  try {
    history[how](null, "", `${location.href.split("#")[0]}#${fragment}`);
  } catch {
    // A browser takes only so many changes in a time, and so long an address. Then it stays as it was.
  }
}

// The JSON of an element of the page, or nothing.
function data(id) {
  const found = element(id);
  return found && JSON.parse(found.textContent);
}
