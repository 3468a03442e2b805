// ---- The page

// What is shown where the address says nothing.
const FIRST = "overrun";

const tabButtons = () => [...document.querySelectorAll("[data-tab]")];

function show(tab) {
  for (const panel of document.querySelectorAll(".tab")) panel.classList.toggle("shown", panel.id === tab);
  for (const button of tabButtons()) {
    const isShown = button.dataset.tab === tab;
    button.setAttribute("aria-selected", isShown);
    // The tab key goes to the tab that is shown, and the arrows from there to the others.
    button.tabIndex = isShown ? 0 : -1;
  }
}

// Goes where an address says: `#example=NAME`, `#script=BASE64`, each with `&step=N`, `#link=NAME`, `#left=BASE64&right=BASE64&delay=N`,
// `#recording=NAME` or `#live`.
async function follow(tabs, address) {
  clearTimeout(remember.timer);
  const words = new Map(address.slice(1).split("&").map((word) => word.split(/=(.*)/s).slice(0, 2)));
  const step = words.has("step") ? Number(words.get("step")) - 1 : undefined;
  if (words.has("link")) {
    show("link");
    await tabs.link.take(words.get("link"));
  } else if (words.has("left")) {
    show("link");
    await tabs.link.takeScripts(scriptIn(words.get("left")), scriptIn(words.get("right")), Number(words.get("delay")));
  } else if (words.has("recording")) {
    show("recording");
    await tabs.recording.take(words.get("recording"));
  } else if (words.has("live")) {
    show("live");
    element("clock").checked = element("serves").checked = true;
    await tabs.live.anew();
    await tabs.live.act("live_start", [], "the driver sets the chip up");
    element("keyboard").focus();
  } else if (words.has("script")) {
    show("script");
    await tabs.script.take(scriptIn(words.get("script")), step);
  } else {
    show("script");
    const name = words.get("example");
    await tabs.script.takeExample(own(tabs.script.examples, name) === undefined ? FIRST : name, step);
  }
}

// The script of an address. One that was cut off on its way is refused as a script, and not as an address.
function scriptIn(text) {
  try {
    return fromBase64(text || "");
  } catch {
    return "# the address has no script in base64";
  }
}

// A file that is dropped is a script if it begins as one.
async function dropped(tabs, file) {
  const text = new TextDecoder().decode(await file.slice(0, 65537).arrayBuffer());
  if (/^(#[^\n]*\n|\s*\n)*chip /.test(text)) {
    show("script");
    await tabs.script.take(text);
  } else {
    show("recording");
    await tabs.recording.takeFile(file);
  }
}

function followKeys(script) {
  document.addEventListener("keydown", (event) => {
    const isOfOther = /^(TEXTAREA|INPUT|SELECT)$/.test(event.target.tagName) || event.target.getAttribute("role") === "tab";
    const isTyped = isOfOther || !element("script").classList.contains("shown");
    const where = { ArrowLeft: "back", ArrowRight: "on", Home: "first", End: "last" }[event.key];
    if (isTyped || !where || event.ctrlKey || event.metaKey || event.altKey) return;
    event.preventDefault();
    script.move(where);
  });
}

// What an address has to say for a tab.
function fragmentOf(tabs, tab) {
  if (tab === "script" || tab === "link") return tabs[tab].fragment();
  const name = tab === "recording" && element("recordings").value;
  return name ? `recording=${name}` : tab;
}

function openTab(tabs, tab) {
  show(tab);
  if (tab === "link" && !element("left").value) tabs.link.take();
  if (tab === "recording" && !tabs.recording.found) tabs.recording.take();
  if (tab === "live" && !tabs.live.state) tabs.live.anew();
  if (tab === "script") tabs.script.drawTimeline();
  clearTimeout(remember.timer);
  setAddress("pushState", fragmentOf(tabs, tab));
}

// The arrows go from tab to tab, as in the pattern of the ARIA guide.
function nextTab(buttons, button, key) {
  const place = buttons.indexOf(button);
  const last = buttons.length - 1;
  return { ArrowRight: place === last ? 0 : place + 1, ArrowLeft: place === 0 ? last : place - 1, Home: 0, End: last }[key];
}

function listen(tabs) {
  const buttons = tabButtons();
  for (const button of buttons) {
    button.onclick = () => openTab(tabs, button.dataset.tab);
    button.onkeydown = (event) => {
      const next = nextTab(buttons, button, event.key);
      if (next === undefined || event.ctrlKey || event.metaKey || event.altKey) return;
      event.preventDefault();
      buttons[next].focus();
      openTab(tabs, buttons[next].dataset.tab);
    };
  }
  followKeys(tabs.script);
  document.addEventListener("dragover", (event) => {
    event.preventDefault();
    document.body.classList.add("dropping");
  });
  document.addEventListener("dragleave", () => document.body.classList.remove("dropping"));
  document.addEventListener("drop", (event) => {
    event.preventDefault();
    document.body.classList.remove("dropping");
    const [file] = event.dataTransfer.files;
    if (file) dropped(tabs, file);
  });
  window.addEventListener("hashchange", () => follow(tabs, location.hash));
}

// Shows what the program put into the page, which has no module then.
function showGiven(given) {
  document.body.classList.add("given");
  document.title = `Geesetrunk: ${given.name}`;
  if (given.run) {
    const script = new ScriptTab(undefined, {});
    element("source").value = given.script;
    element("source").readOnly = true;
    script.explored(given.run, given.script, 0);
    followKeys(script);
  } else {
    show("recording");
    const tab = new RecordingTab(undefined, {});
    tab.given = given.log.split("\n");
    tab.judged(given.name, tab.given.length, given);
  }
}

async function begin() {
  const given = data("given");
  if (given) {
    showGiven(given);
    document.body.dataset.ready = "true";
    return;
  }
  const module = await loadModule();
  // The live chip has a worker of its own, which keeps its state, and so has a recording, which keeps its log: that of the scripts may be
  // stopped at any time.
  const latest = new Latest(new Runner(module));
  const tabs = {
    script: new ScriptTab(latest, data("examples-of-scripts")),
    link: new LinkTab(latest, data("examples-of-links")),
    recording: new RecordingTab(new Latest(new Runner(module)), data("examples-of-recordings")),
    live: new LiveTab(new Runner(module)),
  };
  listen(tabs);
  await follow(tabs, location.hash);
  document.body.dataset.ready = "true";
}

begin().catch((cause) => {
  element("fault").textContent = `This browser cannot run the page: ${cause.message}`;
});
