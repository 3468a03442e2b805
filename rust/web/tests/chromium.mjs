// Chromium, spoken to over a pipe, as a debugger does.
import { spawn } from "node:child_process";
import { Driver } from "./driver.mjs";

export class Chromium extends Driver {
  constructor(program, profile) {
    super();
    const words = ["--headless", "--no-sandbox", "--disable-gpu", "--hide-scrollbars", "--window-size=1600,1080", "--remote-debugging-pipe",
        `--user-data-dir=${profile}`];
    this.process = spawn(program, words, { stdio: ["ignore", "ignore", "ignore", "pipe", "pipe"] });
    this.number = 0;
    this.waiting = new Map();
    // Exceptions of the page, and what it asked the network for.
    this.errors = [];
    let text = "";
    this.process.stdio[4].on("data", (data) => {
      text += data;
      for (let end; (end = text.indexOf("\0")) >= 0; text = text.slice(end + 1)) this.told(JSON.parse(text.slice(0, end)));
    });
  }

  told(message) {
    const { id, method, params } = message;
    if (method === "Runtime.exceptionThrown") this.errors.push(params.exceptionDetails.exception?.description);
    if (method === "Network.requestWillBeSent" && !/^(file|data|blob|about):/.test(params.request.url)) this.errors.push(
        `asked for ${params.request.url}`);
    this.waiting.get(id)?.(message);
    this.waiting.delete(id);
  }

  send(method, params = {}) {
    const id = ++this.number;
    return new Promise((done) => {
      this.waiting.set(id, (message) => done(message.result ?? message));
      this.process.stdio[3].write(`${JSON.stringify({ id, method, params, sessionId: this.session })}\0`);
    });
  }

  async attach() {
    const { targetId } = await this.send("Target.createTarget", { url: "about:blank" });
    this.session = (await this.send("Target.attachToTarget", { targetId, flatten: true })).sessionId;
    for (const domain of ["Page", "Runtime", "Network"]) await this.send(`${domain}.enable`);
  }

  async value(expression) {
    const { result, exceptionDetails } = await this.send("Runtime.evaluate", { expression, returnByValue: true, awaitPromise: true });
    if (exceptionDetails) this.errors.push(`${expression}: ${exceptionDetails.exception?.description}`);
    return result?.value;
  }

  go(address) {
    return this.send("Page.navigate", { url: address });
  }

  again() {
    return this.send("Page.reload");
  }

  async key(key, text) {
    for (const type of ["keyDown", "keyUp"]) await this.send("Input.dispatchKeyEvent", { type, key, text: type === "keyDown" ? text : undefined });
  }

  // Goes on to what gets the focus next.
  async tab() {
    for (const type of ["rawKeyDown", "keyUp"]) await this.send("Input.dispatchKeyEvent",
        { type, key: "Tab", code: "Tab", windowsVirtualKeyCode: 9 });
  }

  // What a keyboard of glass does: it writes into the field, and tells of no key.
  insert(text) {
    return this.send("Input.insertText", { text });
  }

  resize(width, height, isPhone) {
    return this.send("Emulation.setDeviceMetricsOverride", { width, height, deviceScaleFactor: isPhone ? 2 : 1, mobile: isPhone });
  }

  async dark(act) {
    await this.send("Emulation.setEmulatedMedia", { features: [{ name: "prefers-color-scheme", value: "dark" }] });
    await act();
    await this.send("Emulation.setEmulatedMedia", { features: [] });
  }

  async screenshot() {
    return (await this.send("Page.captureScreenshot")).data;
  }

  close() {
    return this.send("Browser.close");
  }
}
