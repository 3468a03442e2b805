// ---- The worker

// Stands for the worker, which it starts again once it was stopped.
class Runner {
  constructor(module) {
    this.module = module;
    this.number = 0;
    this.waiting = new Map();
    this.start();
  }

  // A worker from a file may not be another file: so it is made of a text in the page.
  start() {
    const text = element("worker").textContent;
    const address = URL.createObjectURL(new Blob([text], { type: "text/javascript" }));
    this.worker = new Worker(address);
    URL.revokeObjectURL(address);
    this.worker.onmessage = ({ data }) => this.answered(data);
    this.worker.onerror = (event) => this.stop(`the module cannot be run: ${event.message}`);
    this.worker.postMessage({ module: this.module });
  }

  answered({ number, error, status, text }) {
    const { resolve, reject } = this.waiting.get(number);
    this.waiting.delete(number);
    if (error === undefined) {
      resolve({ status, text });
      return;
    }
    reject(new Error(error));
    // After a fault nothing is known of its memory.
    this.stop("the worker failed");
  }

  get isBusy() {
    return this.waiting.size > 0;
  }

  // Calls a function of the module.
  ask(name, bytes, ...numbers) {
    return this.post({ name, bytes, numbers });
  }

  // Loads a log behind options, for the calls about it. The file itself is handed over, and none of its bytes.
  load(file, options) {
    return this.post({ name: "load", file, options });
  }

  // The lines of that log from an index on, and what they say as a log of this kind.
  lines(first, count, kind) {
    return this.post({ name: "lines", first, count, kind });
  }

  post(message) {
    const number = this.number++;
    return new Promise((resolve, reject) => {
      this.waiting.set(number, { resolve, reject });
      this.worker.postMessage({ number, ...message });
    });
  }

  // Ends what runs. Whoever waits for it is told why.
  stop(cause) {
    this.worker.terminate();
    for (const { reject } of this.waiting.values()) reject(new Error(cause));
    this.waiting.clear();
    this.start();
  }
}

// What a call says that another one has replaced.
const REPLACED = "replaced";

// Runs one job after the other. A new one ends the one before it, which nobody waits for any more.
class Latest {
  constructor(runner) {
    this.runner = runner;
    this.count = 0;
  }

  async run(job) {
    const count = ++this.count;
    if (this.runner.isBusy) this.runner.stop(REPLACED);
    try {
      const result = await job(this.runner);
      return count === this.count ? result : undefined;
    } catch (cause) {
      if (count !== this.count || cause.message === REPLACED) return undefined;
      throw cause;
    }
  }
}

// The bytes of a text.
const bytesOf = (text) => new TextEncoder().encode(text);

// The module is packed, since the page is to be small.
async function loadModule() {
  const packed = Uint8Array.from(atob(element("module").textContent), (letter) => letter.charCodeAt(0));
  const unpacked = new Blob([packed]).stream().pipeThrough(new DecompressionStream("gzip"));
  return WebAssembly.compile(await new Response(unpacked).arrayBuffer());
}
