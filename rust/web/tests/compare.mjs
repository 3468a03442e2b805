// Compares what is in the page with the program: node rust/web/tests/compare.mjs PAGE GEESETRUNK EXAMPLES COUNT [SEED]
//
// The page has the module for 32 bits, and the program is for 64. Both get the examples, and COUNT scripts, recordings and pairs of
// scripts that are made of lines of examples, of which about a third has a fault. So a new word of the language is tried once an example
// has it. The output and the exit status of `play` and `link` have to be the same, and each finding of `audit` and `replay`. And no read of
// the chip that is shown beside a run may return anything else than in the run. The last line is 'N passed, M failed'.
import { spawnSync } from "node:child_process";
import { readFileSync, readdirSync } from "node:fs";
import { join } from "node:path";
import { gunzipSync } from "node:zlib";

const [page, program, examples, count, seed = "1"] = process.argv.slice(2);

class Module {
  constructor(html) {
    const packed = /<script id="module" [^>]*>([^<]*)</.exec(html)[1];
    this.calls = new WebAssembly.Instance(new WebAssembly.Module(gunzipSync(Buffer.from(packed, "base64")))).exports;
  }

  ask(name, bytes, ...numbers) {
    const place = this.calls.room(bytes.length);
    new Uint8Array(this.calls.memory.buffer, place, bytes.length).set(bytes);
    const status = this.calls[name](...numbers);
    return { status, told: Buffer.from(new Uint8Array(this.calls.memory.buffer, this.calls.told(), this.calls.told_len())) };
  }

  json(name, bytes, ...numbers) {
    return JSON.parse(this.ask(name, bytes, ...numbers).told.toString());
  }
}

class Random {
  constructor(state) {
    this.state = BigInt(state);
  }

  below(most) {
    this.state = BigInt.asUintN(64, this.state * 6364136223846793005n + 1442695040888963407n);
    return Number((this.state >> 33n) % BigInt(most));
  }

  pick(among) {
    return among[this.below(among.length)];
  }
}

const counts = { passed: 0, failed: 0 };

// Counts a comparison, and prints the first that fail.
function same(what, input, found, wanted) {
  if (found === wanted) {
    counts.passed++;
    return;
  }
  counts.failed++;
  if (counts.failed <= 5) console.log(
      `${what}: failed, for\n${input}\nthe page has\n${found.slice(0, 1000)}\nand the program\n${wanted.slice(0, 1000)}`);
}

function run(words, input) {
  const { status, stdout, stderr } = spawnSync(program, words, { input, maxBuffer: 1 << 28 });
  return { status, stdout, stderr: stderr.toString() };
}

function filesOf(folder, ending) {
  const names = readdirSync(join(examples, folder)).filter((name) => name.endsWith(ending));
  return names.sort().map((name) => readFileSync(join(examples, folder, name)));
}

const linesOf = (files) => files.flatMap((file) => file.toString("latin1").split("\n")).filter((line) => line !== "");

// Takes a letter out of a text, puts one in, or cuts the text off.
function faulty(text, random) {
  const place = random.below(text.length);
  switch (random.below(3)) {
    case 0:
      return text.slice(0, place) + text.slice(place + 1);
    case 1:
      return text.slice(0, place) + random.pick([" ", "0", "x", "\n", "\t", "ff"]) + text.slice(place);
    default:
      return text.slice(0, place);
  }
}

const maybeFaulty = (text, random) => (random.below(3) ? text : faulty(text, random));

const HEADS = ["chip 16550a 4 64", "chip 16450 4 64", "chip 16550a 1 3", "chip 16550a 9 70 cut", "chip 16450 16 0", "chip 16550a 100 65536",
    "chip 16750 4 64", "chip 16950 2 300", "chip 16550a-256 4 64"];

function anyScript(lines, random) {
  const text = [random.pick(HEADS), `limit ${random.pick([1, 3, 40, 200])}`, "init 14 9600 nocts 0f 8"];
  for (let left = random.below(60); left > 0; left--) text.push(random.pick(lines));
  return `${text.join("\n")}\n`;
}

function anyRecording(lines, random) {
  const text = [];
  // Lines of several logs have several notations, of which a recording has one. A piece of one file has one.
  const start = random.below(lines.length);
  for (let index = 0; index < 1 + random.below(60); index++) text.push(random.below(8) ? lines[(start + index) % lines.length] : random.pick(lines));
  return `${text.join("\n")}\n`;
}

const module = new Module(readFileSync(page, "utf8"));
let refused = 0;
let steps = 0;
let findings = 0;

function compareScript(script) {
  const { status, told } = module.ask("play", script);
  const wanted = run(["play", "-"], script);
  refused += status !== 0;
  same("play", script.toString("latin1"), `${status}\n${told.toString("latin1")}`, `${wanted.status}\n${wanted.stdout.toString("latin1")}`);
  const explored = module.json("explore", script);
  if (explored.steps) {
    steps += explored.steps.length;
    const answers = explored.calls.map(([, answer]) => `${answer}\n`).join("");
    same("the answers beside the lines", script.toString("latin1"), answers + explored.last.join("\n"), wanted.stdout.toString("latin1").trimEnd());
    same("the chip beside the run", script.toString("latin1"), String(explored.stray), "null");
  } else {
    same("a script that is played is shown", script.toString("latin1"), String(status), "1");
    // The program names the file, the line and the column, and then the cause.
    const [place, , caret] = run(["check", "-"], script).stderr.split("\n");
    const where = explored.line ? `-:${explored.line}:${explored.column}: ` : "-: ";
    same("the fault", script.toString("latin1"), `${where}${explored.cause}`, place.slice(0, where.length + explored.cause.length));
    if (explored.line) same("what is expected", script.toString("latin1"), explored.wants, (caret || "").trim().slice(2));
  }
}

function compareLink([left, right], delay) {
  const { status, told } = module.ask("link", Buffer.concat([left, right]), left.length, delay, 0);
  const wanted = spawnSync("bash", ["-c", '"$0" link --delay "$1" <(printf %s "$2") <(printf %s "$3")', program, String(delay),
      left.toString("latin1"), right.toString("latin1")]);
  const shown = status ? String(status) : `0\n${told.toString("latin1")}`;
  same("link", `${left}--\n${right}`, shown, wanted.status ? String(wanted.status) : `0\n${wanted.stdout.toString("latin1")}`);
}

function compareRecording(recording, options = "") {
  const given = Buffer.concat([Buffer.from(options), recording]);
  for (const [index, judge] of ["audit", "replay"].entries()) {
    const { found, stop } = module.json("judge", given, index, options.length);
    const { status, stdout, stderr } = run([judge, "--json", "-", ...options.split(" ").filter(Boolean)], recording);
    const wanted = stdout.toString().split("\n").filter(Boolean).map((line) => JSON.parse(line));
    findings += found.length;
    const said = found.map((one) => one.join("|"));
    if (stop !== null) said.push(stop);
    const expected = wanted.slice(0, 5000).map(({ line, kind, name, text, times }) => [line, kind, name, text, times].join("|"));
    // It has the name of the file in front.
    if (status === 2) expected.push(stderr.trimEnd().replace(/^-/, "log"));
    same(judge, recording.toString("latin1"), said.join("\n"), expected.join("\n"));
  }
}

const random = new Random(seed);
const scripts = filesOf("", ".script");
const recordings = filesOf("recordings", ".recording");
const ends = filesOf("link", ".script");
// Most of what is made of these has no fault.
const played = scripts.filter((script) => module.ask("play", script).status === 0);
const lines = linesOf(played).filter((line) => !/^(chip|limit) /.test(line));
const ofRecordings = linesOf(recordings.filter((recording) => recording.length < 100_000));
const overCables = [...lines, ...linesOf(ends)].filter((line) => !/^(arrive|lines|chip|limit) /.test(line));

scripts.forEach(compareScript);
for (const recording of recordings) {
  compareRecording(recording);
  compareRecording(recording, "--clock 24000000 --divisor 13 --fifo 64");
}
for (let index = 0; index + 1 < ends.length; index += 2) for (const delay of [1, 9]) compareLink([ends[index], ends[index + 1]], delay);
console.log(`examples: ${scripts.length} scripts, ${recordings.length} recordings, ${ends.length / 2} pairs`);
const before = refused;
for (let left = Number(count); left > 0; left--) {
  compareScript(Buffer.from(maybeFaulty(anyScript(lines, random), random), "latin1"));
  compareRecording(Buffer.from(maybeFaulty(anyRecording(ofRecordings, random), random), "latin1"));
  const pair = [0, 1].map(() => Buffer.from(anyScript(overCables, random), "latin1"));
  if (left % 4 === 0) compareLink(pair, random.pick([1, 2, 30]));
}
console.log(`made of their lines: ${count} scripts, of which ${refused - before} are refused, ${count} recordings, ${Math.floor(count / 4)} pairs`);
console.log(`in all ${steps} steps with the chip beside them, and ${findings} findings`);
console.log(`${counts.passed} passed, ${counts.failed} failed`);
process.exit(counts.failed ? 1 : 0);
