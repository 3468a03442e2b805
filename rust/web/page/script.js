// ---- Scripts, step by step

// The run that is shown, or nothing; the step, or -1 before the first; and how the script was that belongs to it.
const shown = { run: undefined, step: -1, lines: [] };

// After so long the page says that something runs.
const PATIENCE = 300;

class ScriptTab {
  constructor(latest, examples) {
    this.latest = latest;
    this.examples = examples;
    for (const name of Object.keys(examples)) element("examples").append(new Option(name, name));
    element("examples").onchange = () => this.takeExample(element("examples").value);
    element("source").oninput = () => {
      element("examples").value = "";
      this.run();
    };
    // The numbers and the answers are where the script is, and the wheel over them moves it.
    element("source").onscroll = () => this.align();
    for (const id of ["numbers", "answers"]) element(id).onwheel = (event) => this.wheeled(event);
    element("stop").onclick = () => this.latest.runner.stop("it was stopped");
    element("scrub").oninput = () => this.go(Number(element("scrub").value) - 1);
    element("share").onclick = () => this.share();
    for (const button of document.querySelectorAll("[data-step]")) button.onclick = () => this.move(button.dataset.step);
    new ResizeObserver(() => this.drawTimeline()).observe(element("timeline"));
  }

  // Takes a script, and shows this step of it, or the first one.
  take(text, step) {
    element("examples").value = "";
    element("source").value = text;
    return this.run(step ?? 0);
  }

  // What an address has to say for what is shown.
  fragment() {
    const example = element("examples").value;
    const step = shown.step > 0 ? `&step=${shown.step + 1}` : "";
    return `${example ? `example=${example}` : `script=${toBase64(element("source").value)}`}${step}`;
  }

  takeExample(name, step) {
    const taken = this.take(this.examples[name], step);
    element("examples").value = name;
    return taken;
  }

  async run(step) {
    const text = element("source").value;
    const waits = setTimeout(() => (element("busy").hidden = false), PATIENCE);
    try {
      const answer = await this.latest.run((runner) => runner.ask("explore", bytesOf(text)));
      // A newer script has its own answer.
      if (answer) this.explored(JSON.parse(answer.text), text, step);
    } catch (cause) {
      this.explored({ line: 0, column: 0, cause: cause.message, wants: "" }, text);
    } finally {
      clearTimeout(waits);
      if (!this.latest.runner.isBusy) element("busy").hidden = true;
    }
  }

  explored(answer, text, step) {
    // A page that the program printed shows one script alone.
    if (this.latest) remember("script", () => this.fragment());
    const isRun = answer.steps !== undefined;
    document.body.classList.toggle("stale", !isRun);
    shown.lines = text.split("\n");
    if (isRun) {
      shown.run = answer;
      element("fault").textContent = faultOfRun(answer);
      this.showEnds();
      this.go(step ?? Math.min(shown.step, answer.steps.length - 1));
    } else {
      const place = answer.line ? `line ${answer.line}, column ${answer.column}: ` : "";
      element("fault").textContent = `${place}${answer.cause}${answer.wants ? `. Expected: ${answer.wants}` : ""}`;
      this.showLines(answer.line);
    }
  }

  showEnds() {
    const rows = shown.run.last.map((line) => {
      const [name, ...rest] = line.split(" ");
      const marks = rest.join(" ");
      const isMarks = name === "marks" && marks !== "-";
      const shownMarks = isMarks ? [...marks].map((mark) => make("span", { class: classes("mark", kindOfMark(mark)), title: MARKS[mark] }, mark))
          : [marks];
      return make("div", {}, make("b", {}, name), ...shownMarks);
    });
    element("ends").replaceChildren(...rows);
  }

  // Shows the numbers of the lines, and beside each call its answer and beside each arrival what became of it.
  showLines(faulty) {
    const { run, lines } = shown;
    const step = run && run.steps[shown.step];
    const callAt = new Map(run && !faulty ? run.lines.map((line, call) => [line, call]) : []);
    const marks = run && !faulty ? marksOf(run) : [];
    let arrivals = 0;
    const numbers = [];
    const answers = [];
    lines.forEach((line, index) => {
      const call = callAt.get(index + 1);
      const isCurrent = step && call === step.call && call !== undefined;
      numbers.push(make("div", { class: classes(isCurrent && "current", faulty === index + 1 && "bad") }, `${index + 1}`));
      let answer = make("div");
      if (faulty === index + 1) answer = make("div", { class: "bad" }, "◀ refused");
      else if (call !== undefined) {
        const text = run.calls[call][1];
        answer = make("div", { class: classes(isCurrent && "current", text.startsWith("ok") && "good"), title: text }, text);
      } else if (line.startsWith("arrive ") && arrivals < marks.length) {
        const mark = marks[arrivals++];
        answer = make("div", {}, make("span", { class: classes("mark", kindOfMark(mark)) }, mark), ` ${MARKS[mark] || ""}`);
      }
      // On a narrow page the answers stand below the script, and say whose they are.
      if (answer.textContent) answer.dataset.line = index + 1;
      answers.push(answer);
    });
    element("numbers").replaceChildren(...numbers);
    element("answers").replaceChildren(...answers);
    const current = element("numbers").querySelector(".current");
    // Whoever types sees the line that is typed.
    if (current && document.activeElement !== element("source")) reveal(element("source"), current);
    this.align();
  }

  // Where the script is at its end, the page goes on.
  wheeled(event) {
    const source = element("source");
    const before = source.scrollTop;
    source.scrollBy(0, event.deltaY);
    if (source.scrollTop !== before) event.preventDefault();
  }

  align() {
    for (const id of ["numbers", "answers"]) element(id).scrollTop = element("source").scrollTop;
  }

  move(where) {
    const { run, step } = shown;
    if (!run) return;
    const last = run.steps.length - 1;
    const next = run.steps.findIndex((one, index) => index > step && one.call !== (run.steps[step] || { call: -1 }).call);
    const target = { first: -1, back: step - 1, on: step + 1, last, call: next < 0 ? last : next }[where];
    this.go(target);
  }

  go(target) {
    const { run } = shown;
    if (!run) return;
    shown.step = Math.max(-1, Math.min(target, run.steps.length - 1));
    if (this.latest) remember("script", () => this.fragment());
    const step = run.steps[shown.step];
    const before = shown.step > 0 ? run.steps[shown.step - 1].state : run.first;
    const place = step ? `· step ${shown.step + 1} of ${run.steps.length}, tick ${step.to}` : "· before the first step";
    element("place").textContent = place;
    element("says").replaceChildren(...(step ? saysOf(run, step, before) : ["The chip after power-on. Go on with the right arrow."]));
    const sent = run.steps.slice(0, shown.step + 1).filter((one) => one.sent !== undefined);
    const about = { ticks: run.ticks, sent: sent.map((one) => one.sent), register: step && step.access && step.access[3] };
    element("view").replaceChildren(...showChip(step ? step.state : run.first, step ? before : undefined, about));
    element("scrub").max = run.steps.length;
    element("scrub").value = shown.step + 1;
    element("extent").textContent = extentOf(run);
    this.drawTimeline();
    this.showLines();
  }

  drawTimeline() {
    const place = element("timeline");
    if (shown.run && place.clientWidth) showTimeline(place, shown.run, shown.step, place.clientWidth, (step) => this.go(step));
  }

  async share() {
    const address = `${location.href.split("#")[0]}#script=${toBase64(element("source").value)}`;
    history.replaceState(null, "", address);
    try {
      await navigator.clipboard.writeText(address);
      element("share").textContent = "Copied";
    } catch {
      // It stands in the address line.
      element("share").textContent = "See the address";
    }
  }
}

// Scrolls a box so far that a line of it is seen.
function reveal(box, line) {
  const top = line.offsetTop - box.offsetTop;
  if (top < box.scrollTop || top + 60 > box.scrollTop + box.clientHeight) box.scrollTop = top - box.clientHeight / 2;
}

const kindOfMark = (mark) => ({ x: "dropped", r: "read" })[mark];
const marksOf = (run) => {
  const line = run.last.find((one) => one.startsWith("marks "));
  const marks = line ? line.slice("marks ".length) : "-";
  return marks === "-" ? [] : [...marks];
};

// A live chip goes beside each run, and answers as the run's does. If not, this page has a fault, and says so.
function faultOfRun(run) {
  return run.stray === null ? "" : `The chip that is shown strays from the one of the run at tick ${run.stray}. Please report this script.`;
}

function extentOf(run) {
  const folded = run.moments > run.steps.length ? `, of ${run.moments} moments` : "";
  const left = run.left ? `; ${run.left} more are not shown` : "";
  return `${run.chip}, ${counted(run.ticks, "tick")} a character · ${counted(run.steps.length, "step")}${folded}${left}`;
}

// What happens in a step, in words.
function saysOf(run, step, before) {
  const call = run.calls[step.call];
  const said = [make("div", { class: "label" }, call ? call[0] : "behind the last call")];
  if (step.sent !== undefined) said.push(make("div", {}, make("b", {}, literally(step.sent)), " leaves the chip."));
  if (step.arrived) said.push(arrivalText(step.arrived));
  if (step.lines !== undefined) said.push(make("div", {}, `The modem inputs are now ${namesOf("MSR", step.lines).join(", ") || "all off"}.`));
  if (step.access) {
    const { head, rest } = accessText(step.access, before);
    said.push(make("div", {}, make("b", {}, head), `${rest}.`));
  }
  if (step.times > 1) {
    const group = { first: "This and what follows it in turn happen", middle: "It happens in turn with others",
        last: "It happens in turn with others" };
    said.push(make("div", {},
        `${group[step.place] || "It happens"} ${step.times} times, from tick ${step.from} to tick ${step.to}. The chip is shown as it is then.`));
  }
  const remembered = rememberedText(call, step);
  if (remembered) said.push(make("div", {}, remembered));
  const changed = changes(before, step.state);
  if (changed.length) said.push(make("ul", {}, ...changed.map((one) => make("li", {}, one))));
  return said;
}

function arrivalText([byte, letters, mark]) {
  const errors = [...letters].map((letter) => ({ p: "a parity error", f: "a framing error", b: "a break" })[letter]);
  const withErrors = errors.length ? ` with ${errors.join(" and ")}` : "";
  const head = make("b", {}, literally(byte));
  if (mark === "x") return make("div", {}, head, ` arrives${withErrors}, and `, make("span", { class: "bad" }, "it or the one before it is dropped"),
      ".");
  return make("div", {}, head, ` arrives${withErrors}. In the end it is: ${MARKS[mark] || "unknown"}.`);
}

// `lsr` also returns errors that an earlier read of the driver has cleared in the chip: it remembers them.
function rememberedText(call, step) {
  if (!call || call[0] !== "lsr" || !step.access || step.access[3] !== "LSR") return "";
  const [, answer] = call[1].split(" ");
  const more = parseInt(answer, 16) & ~step.access[2];
  return more ? `The call returns ${answer}: the driver remembers ${namesOf("LSR", more).join(", ")} from a read before.` : "";
}

const toBase64 = (text) => btoa(String.fromCharCode(...bytesOf(text)));
const fromBase64 = (text) => new TextDecoder().decode(Uint8Array.from(atob(text), (letter) => letter.charCodeAt(0)));
