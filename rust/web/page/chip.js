// ---- The chip

// Shows a chip: `before` is how it was a step ago, `about` has the ticks of a character, what was sent so far, and the register that is
// accessed.
function showChip(state, before, about) {
  const old = before || state;
  return [
    transmitPath(state, about),
    receivePath(state),
    wirePath(about.sent),
    interruptRow(state),
    ...registers(state, old, about.register),
  ];
}

function cells(count, state, cellOf) {
  const made = [];
  const room = roomOf(state);
  for (let place = 0; place < state.size; place++) {
    const { text = "", kind = "", title } = place < count ? cellOf(place) : {};
    made.push(make("div", { class: classes("cell", kind, place >= room && "none"), title }, text));
  }
  return made;
}

const roomOf = (state) => (state.fifo ? state.size : 1);

// A queue with so many places has small ones.
const cellsOf = (state) => classes("cells", state.size > 64 && "small");

function transmitPath(state, about) {
  const held = state.held.match(/../g) || [];
  const row = cells(held.length, state, (place) => ({ text: character(parseInt(held[place], 16)), kind: "held" }));
  let shifting = make("div", { class: "shifting" }, "shift register empty");
  if (state.shifting) {
    const [byte, left] = state.shifting;
    const done = make("i");
    // A style in an attribute would be refused with a stricter policy, and this one is not.
    done.style.width = `${100 - (100 * left) / about.ticks}%`;
    shifting = make("div", { class: "shifting" }, done, make("span", {}, `${character(byte)} · ${counted(left, "tick")} → wire`));
  }
  const shown = held.map((byte) => character(parseInt(byte, 16))).join(" ");
  const said = `transmit: ${counted(held.length, "character")}${held.length ? `: ${shown}` : ""}`;
  return make("div", { class: "path" }, make("span", {}, "transmit"), make("div", { class: cellsOf(state), role: "img", "aria-label": said }, ...row),
      shifting);
}

function receivePath(state) {
  const row = cells(state.waiting.length, state, (place) => {
    const [byte, errors] = state.waiting[place];
    const withErrors = errors ? ` with ${namesOf("LSR", errors).join(", ")}` : "";
    const kind = classes("waiting", errors && "error", state.fifo && place + 1 === state.trigger && "trigger");
    return { text: character(byte), kind, title: hex(byte) + withErrors };
  });
  if (state.fifo && state.waiting.length < state.trigger) row[state.trigger - 1].classList.add("trigger");
  const room = state.fifo ? `trigger at ${state.trigger}` : "no FIFO: room for 1";
  const waiting = state.waiting.map(([byte, errors]) => character(byte) + (errors ? ` with ${namesOf("LSR", errors).join(", ")}` : ""));
  const said = `receive: ${counted(waiting.length, "character")}${waiting.length ? `: ${waiting.join(" ")}` : ""}`;
  return make("div", { class: "path" }, make("span", {}, "receive"), make("div", { class: cellsOf(state), role: "img", "aria-label": said }, ...row),
      make("span", {}, room));
}

// How many of the bytes that were sent are shown: the last ones.
const SHOWN_OF_WIRE = 40;

function wirePath(sent) {
  const marks = sent.slice(-SHOWN_OF_WIRE).map((byte) => make("span", { class: "mark sent" }, character(byte)));
  const shown = marks.length ? marks : ["nothing is sent so far"];
  return make("div", { class: "path" }, make("span", {}, "wire"), make("div", { class: "wire" }, ...shown));
}

function interruptRow(state) {
  const cause = state.isr & 15;
  const served = cause === 1 ? "nothing to serve" : CAUSES[cause] || "";
  const divisor = 256 * state.dlm + state.dll;
  // The clock of a PC's chip.
  const rate = divisor ? ` = ${Math.round(115200 / divisor)} baud` : "";
  const lost = state.overflows ? make("span", { class: "bad" }, ` · ${counted(state.overflows, "byte")} overwritten`) : "";
  return make(
    "div",
    { class: "row apart" },
    make(
      "span",
      {},
      make("span", { class: classes("lamp", state.irq && "up") }),
      make("b", {}, `interrupt line ${state.irq ? "up" : "down"} `),
      make("span", { class: "label" }, served),
    ),
    make("span", { class: "label" }, flowText(state), `divisor ${divisor}${rate}`, lost),
  );
}

const AUTO_FLOW = 0x20;
const CTS = 0x10;

// What the chip does by itself with RTS and CTS, if MCR says that it may.
function flowText(state) {
  if (!(state.mcr & AUTO_FLOW)) return "";
  const sends = state.msr & CTS ? "CTS on: it sends" : "CTS off: it holds back";
  return `flow control by the chip: RTS ${state.asks ? "on" : "off"}, ${sends} · `;
}

function bitsOf(register, value, old) {
  const made = [];
  for (let bit = 7; bit >= 0; bit--) {
    const name = (BITS[register] || [])[bit];
    const isSet = (value >> bit) & 1;
    const isChanged = ((value ^ old) >> bit) & 1;
    const title = MEANINGS[name] || name;
    made.push(name ? make("span", { class: classes("bit", isSet && "set", isChanged && "changed"), title }, name) : make("span"));
  }
  return made;
}

function interruptBits(value, old) {
  const cause = value & 15;
  const isChanged = (value ^ old) & 15;
  const fifo = (bit) => make("span", { class: classes("bit", (value >> bit) & 1 && "set"), title: "FIFOs on" }, "FIFO");
  const name = cause === 1 ? "no interrupt" : CAUSES[cause] || "?";
  return [
    fifo(7),
    fifo(6),
    (value >> 5) & 1 ? make("span", { class: "bit set", title: "FIFOs of 64" }, "64") : make("span"),
    make("span"),
    make("span", { class: classes("bit wide", cause !== 1 && "set", isChanged && "changed") }, name),
    make("span", { class: classes("bit", value & 1 && "set", (value ^ old) & 1 && "changed"), title: "no interrupt is pending" }, "none"),
  ];
}

function registers(state, old, accessed) {
  return ["LSR", "ISR", "IER", "LCR", "MCR", "MSR"].map((register) => {
    const name = register.toLowerCase();
    const bits = register === "ISR" ? interruptBits(state.isr, old.isr) : bitsOf(register, state[name], old[name]);
    const head = [make("b", {}, register), make("span", {}, hex(state[name]))];
    const names = register === "ISR" ? [CAUSES[state.isr & 15] || ""] : namesOf(register, state[name]);
    const said = `${register} ${hex(state[name])}: ${names.join(", ") || "no bit set"}${register === accessed ? ", accessed" : ""}`;
    return make("div", { class: classes("register", register === accessed && "accessed"), role: "img", "aria-label": said }, ...head, ...bits);
  });
}

// Says what is another one in the chip than a step ago.
function changes(before, now) {
  const said = [];
  for (const register of ["LSR", "MSR", "IER", "LCR", "MCR"]) {
    const name = register.toLowerCase();
    BITS[register].forEach((bit, place) => {
      if (bit && ((before[name] ^ now[name]) >> place) & 1) said.push(`${register}.${bit} ${(now[name] >> place) & 1 ? "set" : "cleared"}`);
    });
  }
  if ((before.isr ^ now.isr) & 15) said.push(`ISR: ${CAUSES[before.isr & 15]} → ${CAUSES[now.isr & 15]}`);
  if (before.irq !== now.irq) said.push(now.irq ? "the interrupt line rises" : "the interrupt line falls");
  if (before.fifo !== now.fifo) said.push(now.fifo ? "FIFOs on" : "FIFOs off");
  if (before.size !== now.size) said.push(`FIFOs of ${now.size}`);
  if (before.asks !== now.asks && now.mcr & before.mcr & AUTO_FLOW) said.push(`the chip turns RTS ${now.asks ? "on" : "off"}`);
  if (before.trigger !== now.trigger) said.push(`trigger level ${now.trigger}`);
  if (before.waiting.length !== now.waiting.length) said.push(`${counted(now.waiting.length, "character")} in the receiver`);
  if (before.dll !== now.dll || before.dlm !== now.dlm) said.push(`divisor ${256 * now.dlm + now.dll}`);
  if (now.overflows > before.overflows) said.push("a byte is lost: there was no room in the transmitter");
  return said;
}

// Says what an access does. `before` is the chip before it.
function accessText([letter, , value, register], before) {
  const bits = namesOf(register, value).map((name) => (MEANINGS[name] ? `${name} (${MEANINGS[name]})` : name));
  const listed = bits.length ? ` = ${bits.join(" | ")}` : "";
  if (letter === "r") return { head: `read ${register} → ${hex(value)}`, rest: `${listed}: ${readText(register, value, before)}` };
  return { head: `write ${register} ← ${hex(value)}`, rest: `${listed}: ${writeText(register, value)}` };
}

function readText(register, value, before) {
  switch (register) {
    case "DATA":
      return before.waiting.length ? `the driver takes ${literally(value)} from the receiver` : "the receiver is empty: the last byte again";
    case "LSR":
      return "the driver looks at the line status. The read clears the errors";
    case "ISR":
      return `the driver asks what interrupts: ${CAUSES[value & 15] || "?"}`;
    case "MSR":
      return "the driver looks at the modem lines. The read clears the changes";
    default:
      return `the driver reads ${register}`;
  }
}

function writeText(register, value) {
  switch (register) {
    case "DATA":
      return `the driver gives ${literally(value)} to the transmitter`;
    case "FCR":
      return "FIFO control";
    case "DLL":
      return "low byte of the divisor";
    case "DLM":
      return "high byte of the divisor";
    case "IER":
      return value ? "these causes may interrupt" : "no cause may interrupt";
    case "LCR":
      return `${5 + (value & 3)} data bits${value & 128 ? ", and the divisor latch is open" : ""}`;
    case "MCR":
      return "modem outputs";
    case "SPR":
      return "the scratch register: is there a chip at all?";
    default:
      return `the driver writes ${register}`;
  }
}
