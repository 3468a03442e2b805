// axe, which finds what keeps people from a page who do not see it or use no mouse. Chromium brings it along, within its Lighthouse: so no
// package of node is needed.
import { existsSync, readFileSync } from "node:fs";
import { brotliDecompressSync, gunzipSync } from "node:zlib";

// Where Chromium has its resources, in Debian and in other packages of it.
const PACKS = ["/usr/lib/chromium", "/usr/lib/chromium-browser", "/opt/google/chrome", "/opt/chromium.org/chromium"];

// The head of a pack, which is version 5, and of an entry in its table: number and place.
const HEAD = 12;
const ENTRY = 6;

// In front of what is packed by Brotli are two bytes that say so, and six with its length.
const BROTLI = "1e9b";
const BROTLI_HEAD = 8;
const GZIP = "1f8b";

function unpacked(bytes) {
  const mark = bytes.subarray(0, 2).toString("hex");
  if (mark === BROTLI) return brotliDecompressSync(bytes.subarray(BROTLI_HEAD));
  return mark === GZIP ? gunzipSync(bytes) : bytes;
}

function* resourcesOf(pack) {
  if (pack.readUInt32LE(0) !== 5) return;
  const count = pack.readUInt16LE(8);
  const place = (index) => pack.readUInt32LE(HEAD + ENTRY * index + 2);
  for (let index = 0; index < count; index++) yield unpacked(pack.subarray(place(index), place(index + 1)));
}

// Returns the source of axe, or nothing if no browser here has it.
export function axeSource() {
  for (const file of PACKS.map((folder) => `${folder}/resources.pak`).filter(existsSync)) {
    for (const resource of resourcesOf(readFileSync(file))) {
      // It is a text in the source of Lighthouse, between two marks that are not escaped.
      const begin = resource.indexOf("`/*! axe v");
      if (begin < 0) continue;
      const [literal] = /^`(?:[^`\\]|\\[^])*`/.exec(resource.subarray(begin).toString()) ?? [];
      if (literal) return new Function(`return ${literal}`)();
    }
  }
  return undefined;
}
