// ---- Recordings

// How many lines of a file are drawn at a time. All of them are judged, and each can be gone to.
const WINDOW = 1000;

// How the kinds of findings are marked in a line: by a letter too, and not by a colour alone.
const KINDS = { note: "N", undecided: "U", difference: "D", warning: "W" };

class RecordingTab {
  constructor(latest, recordings) {
    this.latest = latest;
    this.recordings = recordings;
    this.name = "";
    for (const name of Object.keys(recordings)) element("recordings").append(new Option(name, name));
    element("recordings").onchange = () => this.take(element("recordings").value);
    element("file").onchange = () => this.takeFile(element("file").files[0]);
    element("options").onchange = () => this.log && this.judge(this.name, this.log);
    for (const id of ["audits", "replays", "notes"]) element(id).onchange = () => this.showFindings();
  }

  // Takes an example, or the wrong driver if none has this name.
  take(name) {
    const known = own(this.recordings, name) === undefined ? "wrong-driver" : name;
    element("recordings").value = known;
    remember("recording", () => `recording=${known}`);
    return this.judge(known, new Blob([this.recordings[known]]));
  }

  async takeFile(file) {
    if (!file) return;
    element("recordings").value = "";
    // No address has a file.
    remember("recording", () => "recording");
    await this.judge(file.name, file);
  }

  // Judges a log. The options stand in front of its bytes, which only the worker has: so a log may be as long as its memory.
  async judge(name, log) {
    Object.assign(this, { name, log });
    element("summary").classList.remove("bad");
    element("summary").textContent = `${name}: it is judged ..`;
    for (const id of ["found", "log"]) element(id).replaceChildren();
    try {
      const judged = await this.latest.run(async (runner) => {
        const options = bytesOf(element("options").value);
        const { lines } = JSON.parse((await runner.load(log, options)).text);
        const ask = async (call, ...numbers) => {
          const told = JSON.parse((await runner.ask(call, undefined, ...numbers, options.length)).text);
          if (told.refused !== undefined) throw new Error(told.refused);
          return told;
        };
        const explained = JSON.parse((await runner.ask("explain")).text);
        return { audit: await ask("judge", 0), replay: await ask("judge", 1), read: await ask("read_log"), explained, lines };
      });
      if (judged) await this.judged(name, judged.lines, judged);
    } catch (cause) {
      element("summary").classList.add("bad");
      element("summary").textContent = `${name}: ${cause.message}`;
    }
  }

  // Shows what was found in a log with so many lines.
  async judged(name, lines, { audit, replay, read, explained }) {
    const of = (judge, found) => found.map(([line, kind, finding, said, times]) => ({ judge, line, kind, name: finding, said, times }));
    this.found = [...of("audit", audit.found), ...of("replay", replay.found)];
    this.explained = explained;
    // Both judges stop at the same fault of a line.
    const stop = audit.stop ?? replay.stop;
    const counts = (kind) => this.found.filter((one) => one.kind === kind).reduce((sum, one) => sum + one.times, 0);
    const left = audit.left + replay.left;
    element("summary").classList.toggle("bad", stop !== null);
    element("summary").textContent =
      stop !== null && !this.found.length
        ? `${name}: ${stop}`
        : `${name}, read as ${read.kind}: ` +
          `${counted(counts("warning"), "warning")} of the driver, ${counted(counts("difference"), "difference")} of the chip, ` +
          `${counts("undecided") ? `${counts("undecided")} undecided, ` : ""}${counted(counts("note"), "note")}` +
          `${left ? `; ${left} more findings are not shown` : ""}${stop ? `. ${stop}` : ""}`;
    this.entryAt = this.words(read, 0);
    Object.assign(this, { lines, kind: read.kind });
    this.showFindings();
    await this.draw(0);
  }

  // What the lines say, by their numbers, if the first of them is behind so many others.
  words(read, before) {
    return new Map((read.entries || []).map(([line, access, bits]) => [line + before, `${access.replace(/ +/g, " ")}  ${bits}`]));
  }

  // The lines from an index to another. A page that the program printed has them itself, and else the worker has.
  async window(first, last) {
    if (this.given) return this.given.slice(first, last);
    const { rows, read } = JSON.parse((await this.latest.runner.lines(first, last - first, this.kind)).text);
    // Of the beginning all is known that is before a line. A log that was refused says nothing here either.
    const words = this.words(read, first);
    for (const [line, text] of words) if (!this.entryAt.has(line)) this.entryAt.set(line, text);
    return rows;
  }

  // Draws the lines from an index on, with buttons to those before and behind. What is drawn later replaces it, also if it is read sooner.
  async draw(from) {
    const { lines } = this;
    const first = Math.max(0, Math.min(Math.floor(from), lines - WINDOW));
    const last = Math.min(first + WINDOW, lines);
    const number = (this.drawn = (this.drawn || 0) + 1);
    // Another log may have replaced this one meanwhile, and then nobody waits for its lines.
    const texts = await this.window(first, last).catch(() => undefined);
    if (number !== this.drawn || !texts) return;
    this.first = first;
    const rows = texts.map((line, index) => {
      const place = first + index + 1;
      const cells = [make("span", {}, `${place}`), make("span", { title: line }, line), make("span", {}, this.entryAt.get(place) || "")];
      return make("div", { "data-line": place }, ...cells);
    });
    const step = (to, text) => make("div", {}, make("span"), make("button", { class: "go", onclick: () => this.move(to) }, text));
    if (first > 0) rows.unshift(step(first - WINDOW, `lines up to ${first}`));
    if (last < lines) rows.push(step(last, `lines from ${last + 1} on, of ${lines}`));
    element("log").replaceChildren(...rows);
    this.markRows();
  }

  async move(first) {
    await this.draw(first);
    element("log").scrollTop = 0;
  }

  wanted() {
    const isWanted = { audit: element("audits").checked, replay: element("replays").checked };
    return (this.found || []).filter((one) => isWanted[one.judge] && (one.kind !== "note" || element("notes").checked));
  }

  // Marks the rows that are drawn.
  markRows() {
    for (const row of element("log").children) {
      row.classList.remove(...Object.keys(KINDS));
      delete row.firstChild.dataset.kind;
    }
    const near = this.wanted().filter((one) => one.line > this.first && one.line <= this.first + WINDOW);
    // The worst comes last, and stays.
    for (const [kind, letter] of Object.entries(KINDS)) {
      for (const one of near.filter((other) => other.kind === kind)) {
        const row = this.row(one.line);
        if (!row) continue;
        row.classList.add(kind);
        row.firstChild.dataset.kind = letter;
      }
    }
  }

  showFindings() {
    const wanted = this.wanted();
    this.markRows();
    const rank = { warning: 0, difference: 1, undecided: 2, note: 3 };
    const kinds = new Map();
    for (const one of wanted) {
      const key = `${one.name} ${one.kind}`;
      kinds.set(key, [...(kinds.get(key) || []), one]);
    }
    const sorted = [...kinds.values()].sort((one, other) => rank[one[0].kind] - rank[other[0].kind] || one[0].line - other[0].line);
    element("found").replaceChildren(...sorted.map((found) => this.finding(found)));
  }

  // A kind of finding: where it was found, what it says, and what that means.
  finding(found) {
    const [first] = found;
    const times = found.reduce((sum, one) => sum + one.times, 0);
    const others = [...new Set(found.slice(1).map((one) => one.line))].slice(0, 12);
    const { what, cost, remedy } = own(this.explained, first.name) || {};
    const meaning = [["what happens", what], ["what it costs", cost], ["what to do", remedy]].filter(([, text]) => text);
    const rows = meaning.flatMap(([head, text]) => [make("dt", {}, head), make("dd", {}, text)]);
    return make(
      "div",
      { class: `finding ${first.kind}` },
      make("small", {}, this.link(first.line, `line ${first.line}`),
          ` · ${first.judge} · ${first.kind} · ${first.name}${times > 1 ? ` · ${times} times` : ""}`),
      make("p", {}, first.said),
      others.length ? make("small", {}, "also at ", ...others.map((line) => this.link(line, `${line}`))) : "",
      make("details", {}, make("summary", {}, "explain"), make("dl", {}, ...rows)),
    );
  }

  row(line) {
    return element("log").querySelector(`[data-line="${line}"]`);
  }

  link(line, text) {
    return make("button", { class: "go", onclick: () => this.show(line) }, text);
  }

  async show(line) {
    for (const row of element("log").querySelectorAll(".current")) row.classList.remove("current");
    if (!this.row(line)) await this.draw(line - WINDOW / 2);
    const row = this.row(line);
    if (!row) return;
    row.classList.add("current");
    row.scrollIntoView({ block: "center" });
  }
}
