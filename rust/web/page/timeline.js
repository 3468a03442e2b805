// ---- The timeline

// How wide a step is, and the room for the names of the rows.
const STEP = 46;
const NAMES = 58;
// The rows and how high they are.
const ROWS = [["call", 34], ["access", 36], ["arrives", 30], ["waiting", 34], ["held", 34], ["wire", 22], ["tick", 32]];

// Shows the steps around one of them: as many as there is room for. A run may have thousands, and a browser does not draw as many well.
function showTimeline(place, run, current, width, go) {
  const count = Math.max(8, Math.floor((width - NAMES) / STEP));
  const first = Math.max(0, Math.min(current - Math.floor(count / 2), run.steps.length - count));
  const steps = run.steps.slice(first, first + count);
  const height = ROWS.reduce((sum, [, high]) => sum + high, 0);
  const svg = make("svg", { width: NAMES + STEP * steps.length, height, role: "img", "aria-label": "timeline" });
  const at = (index) => NAMES + STEP * index;
  if (current >= first && current < first + steps.length) {
    svg.append(make("rect", { x: at(current - first), y: 34, width: STEP, height: height - 34, fill: "var(--chosen)" }));
  }
  let y = 0;
  for (const [name, high] of ROWS) {
    svg.append(make("text", { x: 4, y: y + high / 2 + 4, class: "dim" }, name));
    if (name === "call") svg.append(...callCells(run, steps, at));
    else steps.forEach((step, index) => svg.append(...cellOf(name, step, at(index), y, run)));
    y += high;
  }
  steps.forEach((step, index) => {
    const hit = make("rect", { x: at(index), y: 0, width: STEP, height, fill: "transparent", onclick: () => go(first + index) });
    hit.append(make("title", {}, `step ${first + index + 1}`));
    svg.append(hit);
  });
  place.replaceChildren(svg);
}

// The letters that have room over so many steps.
const cut = (text, steps) => {
  const letters = Math.floor((STEP * steps - 10) / 6.7);
  return text.length > letters ? `${text.slice(0, Math.max(0, letters - 1))}…` : text;
};

function callCells(run, steps, at) {
  const made = [];
  for (let from = 0; from < steps.length; ) {
    let to = from;
    while (to < steps.length && steps[to].call === steps[from].call) to++;
    const call = run.calls[steps[from].call];
    if (call) {
      const [line, answer] = call;
      const box = { x: at(from) + 1, y: 1, width: STEP * (to - from) - 2, height: 30, rx: 3, fill: "var(--back)", stroke: "var(--line)" };
      made.push(make("rect", box));
      made.push(make("text", { x: at(from) + 6, y: 13 }, cut(line, to - from)));
      made.push(make("text", { x: at(from) + 6, y: 26, class: "dim" }, cut(`= ${answer}`, to - from)));
    }
    from = to;
  }
  return made;
}

function centred(text, x, y, color) {
  return make("text", { x: x + STEP / 2, y, "text-anchor": "middle", ...(color ? { style: `fill: ${color}` } : {}) }, text);
}

function bar(count, most, x, y, color) {
  if (!count) return [];
  const high = Math.max(2, (28 * Math.min(count, most)) / most);
  return [make("rect", { x: x + 1, y: y + 32 - high, width: STEP - 2, height: high, fill: color, opacity: 0.3 }), centred(`${count}`, x, y + 28)];
}

function cellOf(name, step, x, y, run) {
  switch (name) {
    case "access": {
      if (!step.access) return [];
      const [letter, , value, register] = step.access;
      const color = letter === "r" ? "var(--receive)" : "var(--transmit)";
      const times = step.times > 1 ? `${hex(value)}×${short(step.times)}` : hex(value);
      const frame = { x: x + 1, y: y + 1, width: STEP - 2, height: 33, rx: 4, fill: "var(--panel)", stroke: color };
      return [make("rect", frame), centred(`${letter} ${register}`, x, y + 14), centred(times, x, y + 28, color)];
    }
    case "arrives": {
      if (!step.arrived) return [];
      const [byte, letters, mark] = step.arrived;
      const color = mark === "x" ? "var(--alarm)" : "var(--receive)";
      const points = [[x + 17, y + 4], [x + 29, y + 4], [x + 23, y + 11]].map((point) => point.join()).join(" ");
      return [make("polygon", { points, fill: color }), centred(`${hex(byte)}${letters} ${mark}`, x, y + 24, mark === "x" ? color : "")];
    }
    case "waiting":
      return bar(step.state.waiting.length, run.chip === "16450" ? 1 : step.state.size, x, y, "var(--receive)");
    case "held":
      return bar(heldOf(step.state), run.chip === "16450" ? 2 : step.state.size + 1, x, y, "var(--transmit)");
    case "wire":
      return step.sent === undefined ? [] : [centred(character(step.sent), x, y + 15, "var(--transmit)")];
    default:
      return [centred(`${short(step.from)}`, x, y + 12), ...(step.to > step.from ? [centred(`–${short(step.to)}`, x, y + 24)] : [])];
  }
}

// How many characters are in the transmitter.
const heldOf = (state) => state.held.length / 2 + (state.shifting ? 1 : 0);

// A number in few letters.
const short = (number) => (number < 10000 ? `${number}` : number < 1e6 ? `${Math.floor(number / 1000)}k` : `${Math.floor(number / 1e6)}M`);
