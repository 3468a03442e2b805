// Firefox, spoken to by WebDriver BiDi. Neither node of Debian nor Firefox needs a package for it: what a WebSocket needs is here.
import { spawn } from "node:child_process";
import { randomBytes } from "node:crypto";
import { writeFileSync } from "node:fs";
import { connect } from "node:net";
import { join } from "node:path";
import { Driver } from "./driver.mjs";

// The names of keys that are no character, as WebDriver has them.
const KEYS = { Tab: "\uE004", Enter: "\uE007", End: "\uE010", Home: "\uE011", ArrowLeft: "\uE012", ArrowUp: "\uE013", ArrowRight: "\uE014",
    ArrowDown: "\uE015" };

// Nothing is asked of the network by the browser itself.
const PREFERENCES = {
  "app.update.enabled": false,
  "browser.shell.checkDefaultBrowser": false,
  "datareporting.policy.dataSubmissionEnabled": false,
  "network.captive-portal-service.enabled": false,
  "network.connectivity-service.enabled": false,
  "toolkit.telemetry.enabled": false,
  "remote.active-protocols": 1,
  // The tab key goes to each control.
  "accessibility.tabfocus": 7,
};

const TEXT = 1;
const CLOSE = 8;

// The client's end of a WebSocket: what is sent is text in one frame, masked, and what comes may be in several.
class Socket {
  constructor(port, told) {
    this.bytes = Buffer.alloc(0);
    this.message = [];
    this.told = told;
    this.isOpen = new Promise((done) => {
      this.socket = connect(port, "127.0.0.1", () => {
        const lines = ["GET /session HTTP/1.1", `Host: 127.0.0.1:${port}`, "Upgrade: websocket", "Connection: Upgrade", "Sec-WebSocket-Version: 13",
            `Sec-WebSocket-Key: ${randomBytes(16).toString("base64")}`];
        this.socket.write(`${lines.join("\r\n")}\r\n\r\n`);
      });
      this.socket.on("error", () => this.socket.destroy());
      this.socket.on("data", (data) => {
        this.bytes = Buffer.concat([this.bytes, data]);
        const end = this.isUpgraded ? -1 : this.bytes.indexOf("\r\n\r\n");
        if (end >= 0) {
          this.isUpgraded = true;
          this.bytes = this.bytes.subarray(end + 4);
          done();
        }
        while (this.isUpgraded && this.takeFrame());
      });
    });
  }

  // Takes a frame from what came. Returns whether there was a whole one.
  takeFrame() {
    const { bytes } = this;
    if (bytes.length < 2) return false;
    const short = bytes[1] & 0x7f;
    const head = short < 126 ? 2 : short === 126 ? 4 : 10;
    if (bytes.length < head) return false;
    const length = short < 126 ? short : short === 126 ? bytes.readUInt16BE(2) : Number(bytes.readBigUInt64BE(2));
    if (bytes.length < head + length) return false;
    this.bytes = bytes.subarray(head + length);
    // A frame that asks whether this end is there, or that closes the connection, has no text of a message.
    if ((bytes[0] & 0x0f) >= CLOSE) return true;
    this.message.push(bytes.subarray(head, head + length));
    if (bytes[0] & 0x80) {
      this.told(JSON.parse(Buffer.concat(this.message).toString()));
      this.message = [];
    }
    return true;
  }

  send(message) {
    const text = Buffer.from(JSON.stringify(message));
    const mask = randomBytes(4);
    this.socket.write(Buffer.concat([headOf(text.length), mask, text.map((byte, index) => byte ^ mask[index % 4])]));
  }
}

// The head of a frame with a text of this length, which is written in as few bytes as it needs.
function headOf(length) {
  const head = Buffer.from([0x80 | TEXT, 0x80 | Math.min(length, 126)]);
  if (length < 126) return head;
  const long = Buffer.alloc(length < 65536 ? 2 : 8);
  if (length < 65536) long.writeUInt16BE(length);
  else long.writeBigUInt64BE(BigInt(length));
  if (length >= 65536) head[1] = 0x80 | 127;
  return Buffer.concat([head, long]);
}

export class Firefox extends Driver {
  constructor(program, profile) {
    super();
    const lines = Object.entries(PREFERENCES).map(([name, value]) => `user_pref(${JSON.stringify(name)}, ${JSON.stringify(value)});`);
    writeFileSync(join(profile, "user.js"), `${lines.join("\n")}\n`);
    const words = ["--headless", "--no-remote", "--profile", profile, "--remote-debugging-port", "0", "--width", "1600", "--height", "1080",
        "about:blank"];
    this.process = spawn(program, words, { stdio: ["ignore", "ignore", "pipe"],
        env: { ...process.env, HOME: profile, MOZ_DISABLE_CONTENT_SANDBOX: "1" } });
    this.number = 0;
    this.waiting = new Map();
    this.errors = [];
    let text = "";
    this.port = new Promise((done) => {
      this.process.stderr.on("data", (data) => {
        text = (text + data).slice(-10000);
        const found = /WebDriver BiDi listening on ws:\/\/127\.0\.0\.1:(\d+)/.exec(text);
        if (found) done(Number(found[1]));
      });
    });
  }

  told(message) {
    const { id, method, params } = message;
    // What the page's policy refuses is an entry too, and one is to be refused.
    const isOfPage = method === "log.entryAdded" && params.level === "error" && !/^Content-Security-Policy/.test(params.text);
    if (isOfPage) this.errors.push(params.text);
    if (method === "network.beforeRequestSent" && !/^(file|data|blob|about):/.test(params.request.url)) this.errors.push(
        `asked for ${params.request.url}`);
    this.waiting.get(id)?.(message);
    this.waiting.delete(id);
  }

  send(method, params = {}) {
    const id = ++this.number;
    return new Promise((done) => {
      this.waiting.set(id, (message) => done(message.result ?? message));
      this.socket.send({ id, method, params });
    });
  }

  async attach() {
    this.socket = new Socket(await this.port, (message) => this.told(message));
    await this.socket.isOpen;
    await this.send("session.new", { capabilities: {} });
    await this.send("session.subscribe", { events: ["log.entryAdded", "network.beforeRequestSent"] });
    // Without a screen the first window never becomes active, and another one does: then what has the focus shows it, and takes keys.
    this.context = (await this.send("browsingContext.create", { type: "window" })).context;
    await this.resize(1600, 1080);
  }

  // What comes back is JSON, since a value has another form for each type here.
  async value(expression) {
    const params = { expression, target: { context: this.context }, awaitPromise: true, serializationOptions: { maxObjectDepth: 5 } };
    const told = await this.send("script.evaluate", params);
    if (told.type === "exception") this.errors.push(`${expression}: ${told.exceptionDetails.text}`);
    return plain(told.result);
  }

  // What is waited for is in the page: what the browser says of it may not come if the page goes on meanwhile.
  go(address) {
    return this.send("browsingContext.navigate", { context: this.context, url: address, wait: "none" });
  }

  again() {
    return this.send("browsingContext.reload", { context: this.context, wait: "none" });
  }

  key(key) {
    const value = KEYS[key] ?? key;
    const actions = [{ type: "keyDown", value }, { type: "keyUp", value }];
    return this.send("input.performActions", { context: this.context, actions: [{ type: "key", id: "keyboard", actions }] });
  }

  tab() {
    return this.key("Tab");
  }

  insert(text) {
    return this.value(`document.execCommand("insertText", false, ${JSON.stringify(text)})`);
  }

  resize(width, height, isPhone) {
    return this.send("browsingContext.setViewport", { context: this.context, viewport: { width, height }, devicePixelRatio: isPhone ? 2 : 1 });
  }

  // Firefox takes the colours of the system, which it does not let anybody change for a page.
  async dark() {}

  async screenshot() {
    return (await this.send("browsingContext.captureScreenshot", { context: this.context })).data;
  }

  close() {
    return this.send("browser.close");
  }
}

// A value as it is in the page, of what WebDriver has for it.
function plain(value) {
  if (!value) return undefined;
  if (value.type === "null") return null;
  // What is deeper than was asked for has no value.
  if (value.type === "array") return value.value?.map(plain);
  if (value.type === "object") return value.value && Object.fromEntries(value.value.map(([name, inner]) => [name, plain(inner)]));
  return value.value;
}
