// ---- Two chips at a cable

class LinkTab {
  constructor(latest, examples) {
    this.latest = latest;
    this.examples = examples;
    for (const name of Object.keys(examples)) element("links").append(new Option(name, name));
    element("links").onchange = () => this.take(element("links").value);
    for (const id of ["left", "right", "delay"]) {
      element(id).oninput = () => {
        element("links").value = "";
        this.run();
      };
    }
  }

  // Takes an example, or the first one if none has this name.
  take(name) {
    const known = own(this.examples, name) ? name : Object.keys(this.examples)[0];
    const taken = this.takeScripts(...this.examples[known]);
    element("links").value = known;
    return taken;
  }

  takeScripts(left, right, delay) {
    element("links").value = "";
    element("left").value = left;
    element("right").value = right;
    if (delay) element("delay").value = delay;
    return this.run();
  }

  // What an address has to say for what is shown.
  fragment() {
    const example = element("links").value;
    if (example && element("delay").value === "1") return `link=${example}`;
    return `left=${toBase64(element("left").value)}&right=${toBase64(element("right").value)}&delay=${element("delay").value}`;
  }

  async run() {
    remember("link", () => this.fragment());
    const left = bytesOf(element("left").value);
    const right = bytesOf(element("right").value);
    const both = new Uint8Array(left.length + right.length);
    both.set(left);
    both.set(right, left.length);
    const delay = Math.max(1, Math.min(1000000, Number(element("delay").value) || 1));
    try {
      const answer = await this.latest.run((runner) => this.play(runner, [left, right], both, delay));
      if (!answer) return;
      element("linked").classList.toggle("bad", answer.status !== 0);
      element("linked").textContent = answer.text;
      showPicture(element("linked-picture"), answer.picture);
    } catch (cause) {
      element("linked").classList.add("bad");
      element("linked").textContent = cause.message;
    }
  }

  // Plays both scripts. A fault of one is said with its place.
  async play(runner, scripts, both, delay) {
    const linked = await runner.ask("link", both, scripts[0].length, delay, 0);
    if (linked.status === 0) {
      const drawn = await runner.ask("link", both, scripts[0].length, delay, 1);
      return { ...linked, picture: drawn.status === 0 ? drawn.text : "" };
    }
    if (linked.text) return linked;
    for (const [index, script] of scripts.entries()) {
      const { line, column, cause, wants } = JSON.parse((await runner.ask("explore", script)).text);
      if (cause) return { status: 1, text: `${["left", "right"][index]}, line ${line}, column ${column}: ${cause}. Expected: ${wants}` };
    }
    return { status: linked.status, text: "the scripts cannot be played" };
  }
}

// Shows a picture that the module drew. It is read as a picture, in which no script runs.
function showPicture(place, text) {
  if (!text) {
    place.replaceChildren();
    return;
  }
  const read = new DOMParser().parseFromString(text, "image/svg+xml").documentElement;
  place.replaceChildren(document.importNode(read, true));
}
