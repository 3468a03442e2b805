// ---- A live chip

// The ticks of a character, and how often time passes while the clock runs.
const CHARACTER = 16;
const PERIOD = 60;
// How many lines of what happened are kept.
const MOST_HISTORY = 200;

class LiveTab {
  constructor(runner) {
    this.runner = runner;
    this.isDlabSet = false;
    this.before = undefined;
    this.sent = [];
    const buttons = (id, names, act) => names.forEach((name, offset) => {
      element(id).append(make("button", { class: "button", onclick: () => act(offset) }, name));
    });
    buttons("reads", READ_NAMES, (offset) => this.read(offset));
    buttons("writes", WRITE_NAMES, (offset) => this.write(offset, parseInt(element("value").value, 16) || 0));
    element("set-up").onclick = () => this.act("live_start", [], "the driver sets the chip up");
    element("handle").onclick = () => this.act("live_handle", [], "the handler is called");
    element("anew").onclick = () => this.anew();
    element("send-back").onclick = () => this.act("live_send_back", [], "what came is sent back");
    for (const input of document.querySelectorAll(".ring")) input.onchange = () => this.setRings("the rings are set otherwise");
    for (const button of document.querySelectorAll("[data-ticks]")) button.onclick = () => this.act("live_ticks", [Number(button.dataset.ticks)]);
    for (const input of document.querySelectorAll(".input")) {
      input.onchange = () => this.act("live_lines", [checkedBits(".input")], "the modem inputs change");
    }
    element("terminal").onclick = () => element("keyboard").focus();
    element("keyboard").onkeydown = (event) => this.typed(event);
    element("keyboard").oninput = () => this.written();
    setInterval(() => this.passes(), PERIOD);
  }

  async anew() {
    this.sent = [];
    this.before = undefined;
    element("terminal").textContent = "";
    element("history").replaceChildren();
    await this.act("live_new", [Number(element("model").value), CHARACTER], "a new chip");
    return this.setRings();
  }

  // Their room counts when the driver sets the chip up again, and the rest at once.
  setRings(said) {
    const numbers = ["transmit", "receive", "limit", "held-by", "hold", "release"].map((id) => Math.max(0, Number(element(`ring-${id}`).value) || 0));
    return this.act("live_rings", [...numbers, Number(element("ring-echoes").checked)], said);
  }

  // Does something with the chip, and shows what came of it.
  async act(name, numbers, said) {
    const { status, text } = await this.runner.ask(name, undefined, ...numbers);
    const told = JSON.parse(text);
    if (said) this.note(said);
    for (const [letter, offset, value] of told.accesses) {
      this.note(`${letter === "r" ? "read" : "write"} ${this.nameOf(letter, offset)} ${letter === "r" ? "→" : "←"} ${hex(value)}`);
      if (letter === "w" && offset === 3) this.isDlabSet = value > 127;
    }
    for (const byte of told.sent) {
      element("terminal").append(byte === 13 || byte === 10 ? "\n" : character(byte === 32 ? 0x20 : byte).replace("␣", " "));
    }
    if (told.sent.length) element("terminal").scrollTop = element("terminal").scrollHeight;
    this.sent.push(...told.sent);
    this.state = told.state;
    element("ring-state").textContent = ringsText(told.rings);
    this.isDlabSet = told.state.lcr > 127;
    element("live-view").replaceChildren(...showChip(told.state, this.before, { ticks: CHARACTER, sent: this.sent }));
    this.before = told.state;
    return status;
  }

  nameOf(letter, offset) {
    if (this.isDlabSet && offset < 2) return ["DLL", "DLM"][offset];
    return (letter === "r" ? READ_NAMES : WRITE_NAMES)[offset];
  }

  async read(offset) {
    const name = this.nameOf("r", offset);
    this.note(`you read ${name} → ${hex(await this.act("live_read", [offset]))}`);
  }

  async write(offset, value) {
    const name = this.nameOf("w", offset);
    await this.act("live_write", [offset, value & 255], `you write ${name} ← ${hex(value & 255)}`);
  }

  typed(event) {
    const byte = event.key === "Enter" ? 13 : event.key.length === 1 ? event.key.charCodeAt(0) : 0;
    if (event.ctrlKey || event.metaKey || event.altKey || !this.arrives(byte)) return;
    event.preventDefault();
  }

  // The keyboard of a phone tells of no key, and writes into the field.
  written() {
    for (const letter of element("keyboard").value) this.arrives(letter === "\n" ? 13 : letter.charCodeAt(0));
    element("keyboard").value = "";
  }

  arrives(byte) {
    if (!byte || byte > 255) return false;
    this.act("live_arrive", [byte, checkedBits(".error")], `${literally(byte)} arrives`);
    return true;
  }

  // Lets time pass, and the handler come if the interrupt line is up. A slow page has no second one on its way.
  async passes() {
    if (!element("live").classList.contains("shown") || this.isPassing) return;
    this.isPassing = true;
    if (element("clock").checked) await this.act("live_ticks", [CHARACTER]);
    if (element("serves").checked && this.state && this.state.irq) await this.act("live_handle", [], "the interrupt line is up: the handler comes");
    this.isPassing = false;
  }

  note(text) {
    const history = element("history");
    history.prepend(make("div", {}, text));
    while (history.children.length > MOST_HISTORY) history.lastChild.remove();
  }
}

function checkedBits(boxes) {
  return [...document.querySelectorAll(boxes)].reduce((bits, box) => bits | (box.checked ? Number(box.value) : 0), 0);
}

// How full the rings of the driver are.
function ringsText(rings) {
  if (!rings) return "no rings: the driver has not set the chip up";
  const [sending, received] = [rings.transmit, rings.receive].map(([count, room]) => `${count} of ${room}`);
  return `to send ${sending}, received ${received}${rings.paused ? ": full, the receive interrupt is off" : ""}`;
}
