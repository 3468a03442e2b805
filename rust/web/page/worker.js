"use strict";
// Runs the module, apart from the page: a script may poll for a long time, and a log may be long, and meanwhile the page answers.
//
// The first message is the module. Each other one is a call: its name, the bytes that it is given, if any, and its numbers. It is answered
// with what the call returned, and with the text that it told. A log is loaded once, and the calls about it are given no bytes.

let module;
let calls;

// What a log is read in at a time: no more of it is copied at once.
const CHUNK = 1 << 22;
// How far apart the lines are whose places in the log are kept.
const STRIDE = 1000;
// The most bytes of a line that are shown. No line of a recording that says something is half as long.
const MOST_OF_LINE = 400;

// The log that was loaded last, and where each line of it begins whose number is a multiple of the stride.
let log;

function told(of) {
  // The memory may have grown, and then its buffer is another one.
  return new TextDecoder().decode(new Uint8Array(of.memory.buffer, of.told(), of.told_len()));
}

function give(to, bytes) {
  const place = to.room(bytes.length);
  new Uint8Array(to.memory.buffer, place, bytes.length).set(bytes);
}

const answers = {
  // Reads a file into the module behind the options, and counts its lines. Nothing else keeps its bytes.
  load({ file, options }) {
    const place = calls.room(options.length + file.size);
    new Uint8Array(calls.memory.buffer, place, options.length).set(options);
    const reader = new FileReaderSync();
    const starts = [0];
    let lines = 1;
    for (let at = 0; at < file.size; at += CHUNK) {
      const chunk = new Uint8Array(reader.readAsArrayBuffer(file.slice(at, at + CHUNK)));
      new Uint8Array(calls.memory.buffer, place + options.length + at, chunk.length).set(chunk);
      for (let end = chunk.indexOf(10); end >= 0; end = chunk.indexOf(10, end + 1)) {
        if (lines++ % STRIDE === 0) starts.push(at + end + 1);
      }
    }
    log = { file, options, starts, lines };
    return { status: 0, text: JSON.stringify({ lines }) };
  },

  // Tells so many lines from an index on, and what they say. They are read by a module of their own, so that the log stays where it is.
  lines({ first, count, kind }) {
    const { file, options, starts } = log;
    const from = Math.floor(first / STRIDE);
    const end = starts[Math.ceil((first + count) / STRIDE)] ?? file.size;
    const bytes = new Uint8Array(new FileReaderSync().readAsArrayBuffer(file.slice(starts[from], end)));
    const rows = [];
    for (let at = 0, index = from * STRIDE; index < first + count && at <= bytes.length; index++) {
      const next = bytes.indexOf(10, at);
      const line = bytes.subarray(at, next < 0 ? bytes.length : next);
      if (index >= first) rows.push(new TextDecoder().decode(line.subarray(0, MOST_OF_LINE)));
      if (next < 0) break;
      at = next + 1;
    }
    const reader = new WebAssembly.Instance(module).exports;
    const said = new TextDecoder().decode(options);
    // What kind of log it is was seen at its beginning.
    const words = said.includes("--format") ? said : `${said} --format ${kind}`;
    give(reader, new TextEncoder().encode(`${words}${rows.join("\n")}\n`));
    reader.read_log(new TextEncoder().encode(words).length);
    return { status: 0, text: JSON.stringify({ rows, read: JSON.parse(told(reader)) }) };
  },
};

function call(data) {
  const { name, bytes, numbers } = data;
  if (answers[name]) return answers[name](data);
  if (bytes) give(calls, bytes);
  const status = calls[name](...numbers);
  return { status, text: told(calls) };
}

self.onmessage = ({ data }) => {
  if (data.module) {
    module = data.module;
    calls = new WebAssembly.Instance(module).exports;
    return;
  }
  try {
    self.postMessage({ number: data.number, ...call(data) });
  } catch (cause) {
    self.postMessage({ number: data.number, error: String(cause) });
  }
};
