// The search of the site. All pages stand in a file beside this one, so nothing is asked for in the network, and pages that are opened
// from a disk can be searched too. That file is large: it is read once somebody goes to the field.
"use strict";
const field = document.querySelector(".side input");
const list = document.querySelector(".side ol");
const top_ = document.currentScript.dataset.top;
const MOST = 20;
const BEFORE = 40;
const LONGEST = 160;

field.addEventListener(
  "focus",
  () => {
    const script = document.createElement("script");
    script.src = `${top_}/search-index.js`;
    script.addEventListener("load", search);
    document.head.append(script);
  },
  { once: true },
);
field.addEventListener("input", search);

// How well a section fits: each word has to stand in it, in a heading best. 0 is not at all.
function fit(words, title, heading, text) {
  const [high, middle, low] = [heading, title, text].map((one) => one.toLowerCase());
  const fits = words.map((word) => (high.includes(word) ? 8 : 0) + (middle.includes(word) ? 3 : 0) + (low.includes(word) ? 1 : 0));
  return fits.includes(0) ? 0 : fits.reduce((sum, one) => sum + one, 0);
}

// The text round the first word that is searched for.
function piece(words, text) {
  const at = Math.max(0, text.toLowerCase().indexOf(words[0]) - BEFORE);
  return (at ? "… " : "") + text.slice(at, at + LONGEST);
}

function search() {
  const words = field.value.toLowerCase().split(/\s+/).filter(Boolean);
  list.replaceChildren();
  if (!words.length || !window.SECTIONS) return;
  const found = window.SECTIONS.map((section) => ({ section, fits: fit(words, section[1], section[2], section[3]) }))
    .filter((one) => one.fits)
    .sort((one, other) => other.fits - one.fits)
    .slice(0, MOST);
  for (const { section: [address, title, heading, text] } of found) {
    const link = document.createElement("a");
    link.href = `${top_}/${address}`;
    link.textContent = heading === title ? title : `${title}: ${heading}`;
    const said = document.createElement("small");
    said.textContent = piece(words, text);
    const item = document.createElement("li");
    item.append(link, said);
    list.append(item);
  }
  if (!found.length) list.append("nothing has all of these words");
}
