// Tries the page in a browser, from a file: node rust/web/tests/browser.mjs BROWSER PAGE RUN LOG [FOLDER]
//
// BROWSER is Chromium, or Firefox if its name says so. RUN and LOG are what `geesetrunk` prints for `timeline --html examples/overrun.script`
// and for `audit --html` of the wrong driver. No package of node is needed. Each check is a line 'what: ok' or 'what: failed', and the last
// line is 'N passed, M failed'. With FOLDER it leaves pictures of the page there. MEGABYTES is how long the longest log is, unless it is 200.
import { mkdtempSync, rmSync } from "node:fs";
import { tmpdir } from "node:os";
import { join } from "node:path";
import { axeSource } from "./axe.mjs";
import { Chromium } from "./chromium.mjs";
import { Firefox } from "./firefox.mjs";

const [program, page, printedRun, printedLog, pictures] = process.argv.slice(2);
// A busy machine may take long. This is only there so that a browser which hangs comes to an end.
const LONGEST = 1_200_000;
const MEGABYTES = Number(process.env.MEGABYTES ?? 200);

const counts = { passed: 0, failed: 0 };

function holds(what, found, wanted = true) {
  const isSame = JSON.stringify(found) === JSON.stringify(wanted);
  counts[isSame ? "passed" : "failed"]++;
  console.log(isSame ? `${what}: ok` : `${what}: failed: ${JSON.stringify(found)}, and not ${JSON.stringify(wanted)}`);
}

async function scripts(browser) {
  holds("the page is ready, from a file", await browser.open("#example=overrun"));
  const answers = "[...document.querySelectorAll('#answers div')].map((one) => one.textContent).filter(Boolean)";
  holds("the last answer", await browser.value(`${answers}.pop()`), "ok 62");
  holds("the marks", await browser.value("document.querySelector('#ends').lastChild.textContent"), "marksxr");
  const place = "document.querySelector('#place').textContent";
  await browser.value("document.activeElement.blur()");
  await browser.key("Home");
  for (let step = 0; step < 3; step++) await browser.key("ArrowRight");
  holds("three steps on", await browser.value(`${place}.startsWith('· step 3 of')`));
  await browser.key("ArrowLeft");
  holds("a step back", await browser.value(`${place}.startsWith('· step 2 of')`));
  await browser.key("End");
  holds("the last access", await browser.value("document.querySelector('#says b').textContent"), "read LSR → 60");
  holds("what the driver remembers", await browser.value("/returns 62.*remembers OE/.test(document.querySelector('#says').textContent)"));
  holds("a click in the timeline", await browser.value(`{
    document.querySelector("#timeline svg rect:last-of-type").dispatchEvent(new MouseEvent("click"));
    ${place}.includes("step")
  }`));
  await browser.picture("overrun");

  await browser.value("document.querySelector('#source').focus(), document.querySelector('#source').setSelectionRange(0, 0)");
  await browser.insert("x");
  holds("a fault is said", await browser.until("document.querySelector('#fault').textContent.startsWith('line 1, column 1: ')"));
  await browser.picture("fault");
  await browser.drop("a.script", "chip 16550a 4 64\nlimit 200\ninit 14 9600 nocts 00 8\nsend 4869\nflush\n");
  holds("a script that is dropped is played", await browser.until("document.querySelector('#ends').firstChild.textContent === 'wire4869'"));
  const script = Buffer.from("chip 16450 4 64\nlimit 200\ninit off 9600 nocts 00 8\nsend 41\nflush\n").toString("base64");
  const to64 = Buffer.from("chip 16750 4 64\nlimit 200\ninit 14 9600 nocts 00 8\nset-modem-control 22\nsend 4142\nlsr\n").toString("base64");
  await browser.open(`#script=${to64}`);
  await browser.key("End");
  holds("a chip with larger FIFOs has all their places",
      await browser.value("[...document.querySelectorAll('#view .cells')].map((one) => one.children.length)"), [64, 64]);
  holds("what it does with RTS and CTS",
      await browser.value("/flow control by the chip: RTS on, CTS off: it holds back/.test(document.querySelector('#view').textContent)"));
  await browser.picture("larger");
  await browser.open("#script=%");
  holds("an address without a script", await browser.value("document.querySelector('#source').value.startsWith('# the address has no script')"));
  await browser.open(`#script=${script}`);
  holds("a script in the address is played", await browser.value("document.querySelector('#ends').firstChild.textContent"), "wire41");
}

// A script polls some millions of times. Meanwhile the page answers, and the run is folded.
async function longRuns(browser) {
  const polls = (limit, waits) => `chip 16550a 4 64\nlimit ${limit}\ninit 14 9600 nocts 00 8\n${"receive-exact 1\n".repeat(waits)}`;
  await browser.value(`{
    window.isDone = () => /of 3\\d{6} moments/.test(document.querySelector("#extent").textContent);
    window.answers = 0;
    setInterval(() => (window.answers += !window.isDone()), 5);
    document.querySelector("#source").value = ${JSON.stringify(polls(1000000, 3))};
    document.querySelector("#source").dispatchEvent(new Event("input"));
  }`);
  holds("three million polls are folded", await browser.until("window.isDone()"));
  // Without a worker nothing else would happen until the run is over, however fast the machine is.
  holds("the page answers meanwhile", await browser.value("window.answers > 3"));
  holds("few steps are left of them", await browser.value("shown.run.steps.length < 80"));
  holds("no read of the chip beside the run strays", await browser.value("shown.run.stray"), null);
  await browser.picture("polls");
  await browser.value(`{
    document.querySelector("#source").value = ${JSON.stringify(polls(1000000, 4000))};
    document.querySelector("#source").dispatchEvent(new Event("input"));
  }`);
  holds("a run without end can be stopped", await browser.until("!document.querySelector('#busy').hidden"));
  await browser.value("document.querySelector('#stop').click()");
  holds("and it says so", await browser.until("document.querySelector('#fault').textContent === 'it was stopped'"));
  await browser.value(`{
    document.querySelector("#source").dispatchEvent(new Event("input"));
    document.querySelector("#source").value = "chip 16550a 4 64\\nlsr\\n";
    document.querySelector("#source").dispatchEvent(new Event("input"));
  }`);
  holds("an edit ends what ran", await browser.until("document.querySelector('#fault').textContent === '' && shown.run.calls[0][1] === 'ok 60'"));
}

// The end of a long line can be reached, and the answers stay beside their lines.
async function longLines(browser) {
  const waits = "lsr\\n".repeat(60);
  await browser.open("#example=overrun");
  await browser.value(`{
    element("source").value = "chip 16550a 4 64\\nlimit 200\\ninit 14 9600 nocts 00 8\\n${waits}send-exact ${"41".repeat(64)}\\n";
    element("source").dispatchEvent(new Event("input"));
  }`);
  await browser.until("shown.lines.length === 65 && shown.run.calls.length === 62");
  holds("a long line has more than is seen", await browser.value("element('source').scrollWidth > element('source').clientWidth"));
  await browser.value("element('source').scrollLeft = 1e6, element('source').scrollTop = 1e6");
  const isAtEnd = "element('source').scrollLeft + element('source').clientWidth >= element('source').scrollWidth - 1"
      + " && element('source').scrollLeft > 0 && /auto|scroll/.test(getComputedStyle(element('source')).overflowX)";
  holds("its end can be scrolled to", await browser.until(isAtEnd));
  const places = "['numbers', 'answers'].map((id) => Math.abs(element(id).scrollTop - element('source').scrollTop) < 1)";
  holds("its number and its answer go with it", await browser.until(`${places}.every(Boolean) && element('source').scrollTop > 300`));
  await browser.value("element('source').scrollTop = 0");
  await browser.until("element('answers').scrollTop === 0");
  await browser.value("element('answers').dispatchEvent(new WheelEvent('wheel', { deltaY: 200, cancelable: true }))");
  holds("the wheel over the answers moves the script", await browser.until(`element('source').scrollTop > 100 && ${places}.every(Boolean)`));
}

async function links(browser) {
  await browser.open("#link=hello");
  holds("two chips at a cable", await browser.until("/right \\d+: .* = ok 48656c6c6f/.test(document.querySelector('#linked').textContent)"));
  holds("their picture", await browser.until("document.querySelector('#linked-picture svg') !== null"));
  holds("whole lines of what they returned are shown",
      await browser.value("element('linked').clientHeight % parseFloat(getComputedStyle(element('linked')).lineHeight)"), 0);
  await browser.value(DARKEN);
  holds("in the dark the picture is dark",
      await browser.value("getComputedStyle(document.querySelector('#linked-picture .p')).fill"), "rgb(13, 17, 23)");
  await browser.open("#link=hello");
  await browser.until("document.querySelector('#linked-picture svg') !== null");
  await browser.picture("link");
  await browser.value(
      "document.querySelector('#left').value = 'chip 16550a 4 64\\nsing\\n', document.querySelector('#left').dispatchEvent(new Event('input'))");
  holds("a fault of the left script",
      await browser.until("document.querySelector('#linked').textContent.startsWith('left, line 2, column 1: unknown word')"));
}

async function recordings(browser) {
  await browser.open("#recording=wrong-driver");
  holds("warnings of the wrong driver", await browser.value("document.querySelector('#summary').textContent.includes('4 warnings of the driver')"));
  holds("a finding is explained", await browser.value("/what to do.*wait for LSR bit 5/.test(document.querySelector('.finding').textContent)"));
  await browser.value("document.querySelector('.finding details').open = true, document.querySelector('.finding .go').click()");
  holds("its line is shown", await browser.until("document.querySelector('#log .current')?.dataset.line === '25'"));
  await browser.picture("recording");
  await browser.drop("qemu.log", "serial_write write addr 0x03 val 0x83\nserial_write write addr 0x00 val 0x00\n"
      + "serial_write write addr 0x01 val 0x00\nserial_write write addr 0x03 val 0x03\n");
  holds("a log that is dropped is judged", await browser.until("/divisor-zero/.test(document.querySelector('#found').textContent)"));
  holds("and its line marked", await browser.until("document.querySelectorAll('#log .warning').length === 1"));
  await browser.drop("kvm.log", "  qemu-1 [000] 1.000001: kvm_pio: pio_write at 0x3fb size 1 count 1 val 0x83\n"
      + "  qemu-1 [000] 1.000002: kvm_pio: pio_read at 0x3fd size 1 count 1 val 0x60\n");
  holds("a log of another tool is read", await browser.until("document.querySelector('#summary').textContent.includes('kvm.log, read as kvm')"));
  const options = (text) =>
      browser.value(`element("options").value = ${JSON.stringify(text)}, element("options").dispatchEvent(new Event("change"))`);
  await browser.drop("memory.log", "memory_region_ops_write cpu 0 mr 0x1 addr 0x10000003 value 0x83 size 1 name 'serial'\n"
      + "memory_region_ops_read cpu 0 mr 0x1 addr 0x10000005 value 0x60 size 1 name 'serial'\n");
  await options("--base");
  holds("an option that is refused",
      await browser.until("document.querySelector('#summary').textContent.includes('memory.log: a value is required')"));
  await options("--base 0x10000000");
  holds("options say where the chip is", await browser.until("document.querySelectorAll('#log div')[1]?.textContent.includes('r LSR 60')"));
  await options("");
  await browser.drop("packed.log", "BZh91AY");
  holds("what is no text is named", await browser.until("document.querySelector('#summary').textContent.includes('compressed by bzip2')"));
  await browser.drop("bad.recording", "# <img src=x onerror=window.bad=1>\nr 5 60\nw 3 <b>\n");
  holds("a line that is none is named", await browser.until("document.querySelector('#summary').textContent.includes('log:3:5')"));
  holds("what is dropped is no markup", await browser.value("[typeof window.bad, document.querySelectorAll('#log img, #summary b, #log b').length]"),
      ["undefined", 0]);
}

// Each line of a long log can be gone to, and a name in the address that nothing has is no fault.
async function longRecordings(browser) {
  await browser.open("#recording=wrong-driver");
  const long = `w 2 07\n${"r 5 60\n".repeat(20000)}w 3 83\nw 0 00\nw 1 00\nw 3 03\n`;
  await browser.drop("long.recording", long);
  holds("a warning behind 20,000 lines is found", await browser.until("/divisor-zero/.test(document.querySelector('#found').textContent)"));
  await browser.value("document.querySelector('.finding.warning .go').click()");
  holds("and its line is drawn", await browser.until("document.querySelector('#log .current')?.textContent.includes('w 3 03')"));
  holds("and what it says", await browser.value("document.querySelector('#log .current').lastChild.textContent.startsWith('w LCR 03')"));
  holds("with a letter, and not a colour alone", await browser.value("document.querySelector('#log .current span').dataset.kind"), "W");
  holds("a thousand lines are drawn at most", await browser.value("document.querySelectorAll('#log [data-line]').length"), 1000);
  await browser.value("document.querySelector('#log button').click()");
  holds("and those before them can be gone to", await browser.until("Number(document.querySelector('#log [data-line]').dataset.line) < 19005"));
  for (const name of ["__proto__", "constructor", "nothing"]) {
    holds(`#link=${name} shows an example`, await browser.open(`#link=${name}`)
        && (await browser.value("document.querySelector('#fault').textContent + document.querySelector('#links').value")), "hello");
    await browser.open(`#recording=${name}`);
    holds(`#recording=${name} shows an example`, await browser.until(
        "document.querySelector('#summary').textContent.startsWith('wrong-driver, read as')"));
    holds(`#example=${name} shows an example`, await browser.open(`#example=${name}`)
        && (await browser.value("document.querySelector('#examples').value")), "overrun");
  }
}

// What is shown is in the address, and is there again after a reload.
async function addresses(browser) {
  await browser.open("#example=overrun");
  const script = "chip 16550a 4 64\nlimit 200\ninit 14 9600 nocts 00 8\nsend 4b\n";
  await browser.value(`element("source").value = ${JSON.stringify(script)}, element("source").dispatchEvent(new Event("input"))`);
  holds("what is typed is in the address", await browser.until("location.hash.startsWith('#script=')"));
  await browser.reload();
  holds("and there after a reload",
      await browser.until(`document.body?.dataset.ready === "true" && element("source").value === ${JSON.stringify(script)}`));
  await browser.value("element('tab-link').click()");
  holds("a tab is in the address", await browser.value("location.hash"), "#link=hello");
  await browser.value("element('left').value += '\\nlsr\\n', element('left').dispatchEvent(new Event('input'))");
  holds("and what is typed in it", await browser.until("location.hash.startsWith('#left=')"));
  await browser.reload();
  holds("both ends are there after a reload",
      await browser.until(
          "document.body?.dataset.ready === 'true' && /lsr/.test(element('left').value) && element('link').classList.contains('shown')"));
  await browser.value("element('tab-recording').click()");
  await browser.value("history.back()");
  holds("back is the tab before", await browser.until("element('link').classList.contains('shown')"));
}

// The keyboard alone goes to each tab, and a reader is told what is shown.
async function keyboard(browser) {
  await browser.open("#example=overrun");
  await browser.value("element('tab-script').focus()");
  await browser.key("ArrowRight");
  holds("the right arrow goes to the next tab", await browser.value("[document.activeElement.id, element('link').classList.contains('shown')]"),
      ["tab-link", true]);
  await browser.key("End");
  holds("End goes to the last one",
      await browser.value("[document.activeElement.id, document.querySelectorAll('[role=tab][tabindex=\"0\"]').length]"), ["tab-live", 1]);
  await browser.key("ArrowRight");
  holds("and behind it is the first", await browser.value("document.activeElement.id"), "tab-script");
  holds("each tab names its panel",
      await browser.value(
          "[...document.querySelectorAll('[role=tab]')]"
          + ".every((tab) => element(tab.getAttribute('aria-controls')).getAttribute('role') === 'tabpanel')"));
  holds("the page has one main part", await browser.value("document.querySelectorAll('main').length"), 1);
  holds("a queue is told in words",
      await browser.value("/^receive: \\d+ character/.test(document.querySelectorAll('#view .cells')[1].getAttribute('aria-label'))"));
  await browser.value("element('source').focus()");
  holds("the editor shows that it has the focus", await browser.value("getComputedStyle(document.querySelector('.editor')).outlineStyle"), "solid");
}

// 390 pixels are the width of a phone.
async function phone(browser) {
  await browser.resize(...PHONE, true);
  for (const fragment of TABS) {
    await browser.open(fragment);
    holds(`${fragment} is as wide as a phone`, await browser.value("document.documentElement.scrollWidth <= innerWidth && innerWidth <= 390"));
    const outside = "[...document.querySelectorAll('.tab.shown .panel, .tab.shown input, .tab.shown button, .tab.shown select')]"
      + ".filter((one) => one.id !== 'keyboard' && one.getBoundingClientRect().right > innerWidth).length";
    holds("nothing sticks out", await browser.value(outside), 0);
    await browser.picture(`phone-${fragment.slice(1, 5)}`);
  }
  holds("a cell of a queue is wide enough for its byte", await browser.value(
      "document.querySelector('#live-view .cell').getBoundingClientRect().width > 24"));
  const clipped = "[...document.querySelectorAll('#live-view .bit')].filter((one) => one.scrollWidth > one.clientWidth)"
    + ".map((one) => one.textContent)";
  holds("no name of a bit is cut off", await browser.value(clipped), []);
  // What a keyboard of glass does: it writes into the field, and tells of no key.
  await browser.value("element('terminal').click()");
  await browser.insert("goose");
  holds("what is typed on a phone comes back", await browser.until("element('terminal').textContent === 'goose'"));
  await browser.resize(1600, 1080, false);
}

async function live(browser) {
  await browser.open("#live");
  for (const letter of "geese") await browser.key(letter, letter);
  holds("what is typed comes back, by the driver's rings", await browser.until("document.querySelector('#terminal').textContent === 'geese'"));
  holds("the accesses of the driver are listed", await browser.value("/read ISR → c[4c]/.test(document.querySelector('#history').textContent)"));
  await browser.picture("live");
  await browser.value("document.querySelector('#anew').click()");
  await browser.value("document.querySelectorAll('#reads button')[5].click()");
  holds("a register is read by hand", await browser.until("/you read LSR → 60/.test(document.querySelector('#history').textContent)"));
  const cells = "document.querySelector('#live-view .cells').children.length";
  await browser.value("element('model').value = '7', element('anew').click()");
  holds("a 16750 begins with FIFOs of 16", await browser.until(`${cells} === 16 && /a new chip/.test(element('history').firstChild?.textContent)`));
  await browser.value("element('set-up').click()");
  holds("and the driver switches them to 64", await browser.until(`${cells} === 64 && /FIFOs of 64|64/.test(element('live-view').textContent)`));
}

// The rings of the driver are as large as one says, and hold the other end back.
async function rings(browser) {
  await browser.open("#live");
  await browser.value("element('anew').click()");
  const set = (id, value) => browser.value(`{
    const input = element("ring-${id}");
    input[input.type === "checkbox" ? "checked" : "value"] = ${JSON.stringify(value)};
    input.dispatchEvent(new Event("change"));
  }`);
  for (const [id, value] of [["receive", 8], ["held-by", "1"], ["hold", 4], ["release", 8], ["echoes", false]]) await set(id, value);
  await browser.value("element('set-up').click()");
  const state = "element('ring-state').textContent";
  holds("the rings have the room that is set", await browser.until(`${state} === 'to send 0 of 256, received 0 of 8'`));
  await browser.value("element('clock').checked = element('serves').checked = true");
  await browser.value("element('keyboard').focus()");
  for (const letter of "goose") await browser.key(letter, letter);
  holds("what is typed waits in the receive ring", await browser.until(`${state} === 'to send 0 of 256, received 5 of 8'`));
  const rts = "/MCR .*RTS/.test([...document.querySelectorAll('#live-view .register')].map((one) => one.getAttribute('aria-label')).join('; '))";
  holds("and RTS holds the other end back", await browser.until(`!(${rts})`));
  await browser.picture("rings");
  await browser.value("element('send-back').click()");
  holds("what came is sent back", await browser.until("element('terminal').textContent === 'goose'"));
  holds("and the other end may go on", await browser.until(`${rts} && ${state} === 'to send 0 of 256, received 0 of 8'`));
}

// What the program prints has no module, and shows the same.
async function printed(browser) {
  holds("a run that the program printed", await browser.open("", printedRun));
  holds("its answers", await browser.value("[...document.querySelectorAll('#answers div')].map((one) => one.textContent).filter(Boolean).pop()"),
      "ok 62");
  await browser.key("End");
  holds("its steps", await browser.value("/returns 62.*remembers OE/.test(document.querySelector('#says').textContent)"));
  await browser.picture("printed-run");
  holds("a log that the program judged", await browser.open("", printedLog));
  holds("what was found in it", await browser.value("document.querySelector('#summary').textContent.includes('4 warnings of the driver')"));
  holds("it says who printed it", await browser.value(
      "getComputedStyle(document.querySelector('.printed')).display !== 'none'"
      + " && getComputedStyle(document.querySelector('.runs')).display === 'none'"));
  await browser.picture("printed-log");
}

async function network(browser) {
  holds("the page may ask the network for nothing", await browser.value(`new Promise((done) => {
    document.addEventListener("securitypolicyviolation", (event) => done(event.effectiveDirective));
    fetch("https://geesetrunk.invalid/").then(() => done("it may"), () => setTimeout(() => done("it failed, and was not refused"), 500));
  })`), "connect-src");
  holds("nothing was asked of the network, and nothing failed", browser.errors, []);
}

async function look(browser) {
  await browser.open("#example=overrun-fifo&step=38");
  await browser.picture("overrun-fifo");
  await browser.dark(() => browser.picture("dark"));
  await browser.resize(700, 1200, false);
  holds("a narrow window has no scroll bar", await browser.value("document.documentElement.scrollWidth <= innerWidth"));
  await browser.picture("narrow");
}

// A log of 200 MB is judged while the page answers, and its last line can be gone to. The page itself has none of its bytes.
async function longestRecording(browser) {
  await browser.open("#recording=wrong-driver");
  await browser.value(`{
    window.beats = 0;
    window.isJudged = () => /^longest.recording, read as/.test(element("summary").textContent);
    window.beat = setInterval(() => (window.beats += !window.isJudged()), 20);
    const piece = new Blob(["r 5 60\\nw 0 41\\n".repeat(50000)]);
    window.parts = ["w 2 07\\nw 4 0b\\n", ...Array(Math.ceil((${MEGABYTES} * 1e6) / piece.size)).fill(piece), "w 3 83\\nw 0 00\\nw 1 00\\nw 3 03\\n"];
    0;
  }`);
  await browser.dropParts("longest.recording", "window.parts");
  await browser.until("/longest.recording: it is judged/.test(element('summary').textContent)");
  await browser.value("element('tab-live').click()");
  holds("while it is judged another tab can be used", await browser.until("element('live').classList.contains('shown') && !window.isJudged()"));
  await browser.value("element('tab-recording').click()");
  holds(`a log of ${MEGABYTES} MB is judged`, await browser.until("window.isJudged()", 900));
  holds("and the page has answered meanwhile", await browser.value("clearInterval(window.beat), window.beats > 20"));
  holds("its last finding is there", await browser.until("/divisor-zero/.test(element('found').textContent)"));
  await browser.value(
      "[...document.querySelectorAll('.finding.warning')].find((one) => /divisor-zero/.test(one.textContent)).querySelector('.go').click()");
  holds("and its line is drawn", await browser.until("document.querySelector('#log .current')?.textContent.includes('w 3 03')", 300));
  holds("it is near the last one",
      await browser.value(
          "Number(document.querySelector('#log .current').dataset.line) > 1e6 || document.querySelector('#log .current').nextSibling !== null"));
  holds("the page keeps a thousand lines of it", await browser.value("document.querySelectorAll('#log [data-line]').length"), 1000);
}

// What a screen reader and a keyboard find: each control has a name and can be reached, what has the focus shows it, and texts can be told
// from what is behind them. These are the rules of axe that this page could break.
const FOUND = `(() => {
  const isShown = (one) => one.getClientRects().length > 0 && getComputedStyle(one).visibility !== "hidden";
  const named = (one) =>
    one.getAttribute("aria-label") || [...(one.labels || [])].map((label) => label.textContent.trim()).join("") || one.getAttribute("title")
        || one.textContent.trim();
  const told = (one) => one.tagName.toLowerCase() + (one.id ? "#" + one.id : "." + one.className) + " " + one.textContent.slice(0, 20);
  const controls = [...document.querySelectorAll("button, input, select, textarea, summary, [tabindex]")].filter(isShown);
  const ids = [...document.querySelectorAll("[id]")].map((one) => one.id);
  const bad = (what, all) => all.map((one) => what + ": " + told(one));
  const isFocused = (one) => {
    one.focus({ focusVisible: true });
    const around = [one, one.closest(".editor, .typing") || one].map((other) => getComputedStyle(other));
    return document.activeElement !== one || around.some((style) => style.outlineStyle !== "none" || style.boxShadow !== "none");
  };
  const scrolls = [...document.querySelectorAll("*")].filter(
    (one) => isShown(one) && /auto|scroll/.test(getComputedStyle(one).overflowY) && one.scrollHeight > one.clientHeight + 1
        && one !== document.documentElement,
  );
  return [
    ...bad("no name", controls.filter((one) => !named(one))),
    ...bad("no focus shown", controls.filter((one) => !one.disabled && one.tabIndex >= 0 && !isFocused(one))),
    ...bad("scrolls, and no key gets there", scrolls.filter((one) => one.tabIndex < 0 && !one.querySelector("button, input, a[href], textarea"))),
    ...ids.filter((id, index) => ids.indexOf(id) !== index).map((id) => "twice: " + id),
    ...bad("names nothing", [...document.querySelectorAll("[aria-controls], [aria-labelledby]")].filter(
      (one) => !document.getElementById(one.getAttribute("aria-controls") || one.getAttribute("aria-labelledby")),
    )),
    ...(document.documentElement.lang ? [] : ["no language"]),
  ];
})()`;

// Roles that there are, and headings in their order: a reader goes from one to the next.
const STRUCTURE = `(() => {
  const isShown = (one) => one.getClientRects().length > 0;
  const levels = [...document.querySelectorAll("h1, h2, h3, h4")].filter(isShown).map((one) => Number(one.tagName[1]));
  const roles = new Set(["tablist", "tab", "tabpanel", "img", "status", "log", "region", "alert", "group", "slider", "presentation"]);
  const told = (one) => one.tagName.toLowerCase() + (one.id ? "#" + one.id : "." + one.className);
  const bad = (what, all) => all.map((one) => what + ": " + told(one));
  const panels = [...document.querySelectorAll("section.panel")].filter(isShown);
  return [
    ...(levels[0] === 1 && levels.filter((level) => level === 1).length === 1 ? [] : ["the first heading is " + levels[0]]),
    ...levels.flatMap((level, index) => (index && level > levels[index - 1] + 1 ? ["from heading " + levels[index - 1] + " to " + level] : [])),
    ...bad("no such role", [...document.querySelectorAll("[role]")].filter((one) => !roles.has(one.getAttribute("role")))),
    ...bad("a picture without a name", [...document.querySelectorAll("[role=img], svg, img")].filter(
      (one) => isShown(one) && !one.closest("[aria-hidden]") && !one.getAttribute("aria-label") && !one.querySelector("title"))),
    ...bad("a panel without a heading", panels.filter((one) => !one.querySelector("h2"))),
    ...bad("a tab that does not say whether it is chosen",
        [...document.querySelectorAll("[role=tab]")].filter((one) => !one.hasAttribute("aria-selected"))),
    ...(document.title ? [] : ["no title"]),
    ...(/user-scalable=no|maximum-scale/.test(document.querySelector("meta[name=viewport]")?.content) ? ["it cannot be enlarged"] : []),
  ];
})()`;

// The colours of the dark, whatever the system has: its rules hold for every screen then.
const DARKEN = `{
  const rules = [...document.styleSheets].flatMap((sheet) => [...sheet.cssRules]);
  for (const rule of rules) if (rule instanceof CSSMediaRule && /dark/.test(rule.conditionText)) rule.media.mediaText = "all";
}`;

// Texts that cannot be told from what is behind them, by the least contrast of WCAG: 4.5, and 3 for large letters. Colours are laid over
// one another as the browser does it: from the innermost element outwards, and in a picture from the last shape back.
const CONTRAST = `(() => {
  const canvas = document.createElement("canvas").getContext("2d", { willReadFrequently: true });
  const rgba = (color) => {
    canvas.clearRect(0, 0, 1, 1);
    canvas.fillStyle = color;
    canvas.fillRect(0, 0, 1, 1);
    const [red, green, blue, alpha] = canvas.getImageData(0, 0, 1, 1).data;
    return [red, green, blue, alpha / 255];
  };
  const over = ([r, g, b, a], below) => [r, g, b].map((part, index) => part * a + below[index] * (1 - a));
  const linear = (part) => (part / 255 <= 0.04045 ? part / 255 / 12.92 : ((part / 255 + 0.055) / 1.055) ** 2.4);
  const light = ([r, g, b]) => 0.2126 * linear(r) + 0.7152 * linear(g) + 0.0722 * linear(b);
  const ratio = (one, other) => {
    const [low, high] = [light(one), light(other)].sort((a, b) => a - b);
    return (high + 0.05) / (low + 0.05);
  };
  const behind = (one) => {
    const layers = [];
    for (let at = one; at; at = at.parentElement) layers.push(rgba(getComputedStyle(at).backgroundColor));
    return layers.reverse().reduce((below, layer) => over(layer, below), [255, 255, 255]);
  };
  // What shapes of the picture are under the middle of a text.
  const behindText = (text) => {
    const box = text.getBoundingClientRect();
    const [x, y] = [box.x + box.width / 2, box.y + box.height / 2];
    const shapes = [...text.ownerSVGElement.querySelectorAll("rect")].filter((shape) => {
      const { left, right, top, bottom } = shape.getBoundingClientRect();
      const isBefore = shape.compareDocumentPosition(text) & Node.DOCUMENT_POSITION_FOLLOWING;
      return isBefore && left <= x && x <= right && top <= y && y <= bottom;
    });
    return shapes.reduce((below, shape) => {
      const { fill, opacity } = getComputedStyle(shape);
      const [r, g, b, a] = fill === "none" ? [0, 0, 0, 0] : rgba(fill);
      return over([r, g, b, a * Number(opacity)], below);
    }, behind(text.ownerSVGElement));
  };
  const found = new Set();
  const judge = (one, color, back) => {
    const style = getComputedStyle(one);
    const size = parseFloat(style.fontSize);
    const least = size >= 24 || (size >= 18.66 && Number(style.fontWeight) >= 700) ? 3 : 4.5;
    const contrast = ratio(over(rgba(color), back), back);
    if (contrast < least) {
      found.add(one.tagName.toLowerCase() + "." + (one.getAttribute("class") || one.id || one.parentElement.className) + " " + contrast.toFixed(2));
    }
  };
  const hasText = (one) => [...one.childNodes].some((node) => node.nodeType === Node.TEXT_NODE && node.data.trim());
  // What stands for a place that a chip does not have is faint on purpose.
  const isSeen = (one) => one.getClientRects().length > 0 && !one.closest(".none, title, option, noscript, script, style")
      && Number(getComputedStyle(one).opacity) > 0;
  for (const one of document.querySelectorAll("body *")) {
    if (!isSeen(one)) continue;
    if (one.ownerSVGElement) {
      if (one.tagName === "text") judge(one, getComputedStyle(one).fill, behindText(one));
    } else if (hasText(one) || /^(TEXTAREA|INPUT|SELECT)$/.test(one.tagName)) {
      judge(one, getComputedStyle(one).color, behind(one));
    }
  }
  return [...found];
})()`;

// Each tab with something in it, and how large a phone is.
const TABS = ["#example=overrun-fifo&step=38", "#link=hello", "#recording=wrong-driver", "#live"];
const PHONE = [390, 844];

// Opens a tab, and waits until what it has to show is there.
async function openTab(browser, fragment) {
  await browser.open(fragment);
  await browser.until("![...document.querySelectorAll('.tab.shown [role=status]')].some((one) => /is judged/.test(one.textContent))");
  if (fragment === "#link=hello") await browser.until("document.querySelector('#linked-picture svg') !== null");
}

async function accessible(browser) {
  holds("the window has the focus", await browser.value("document.hasFocus()"));
  for (const fragment of TABS) {
    await openTab(browser, fragment);
    holds(`${fragment}: names, focus and keys`, await browser.value(FOUND), []);
    holds(`${fragment}: roles and headings`, await browser.value(STRUCTURE), []);
    holds(`${fragment}: contrast in the light`, await browser.value(CONTRAST), []);
    await browser.value(DARKEN);
    holds(`${fragment}: contrast in the dark`, await browser.value(CONTRAST), []);
  }
}

// What axe says of each tab, on a screen and on a phone. It may not fetch anything, and needs nothing.
const AXE = `axe.run(document, { resultTypes: ["violations"], preload: false }).then(({ violations }) =>
  violations.map(({ id, nodes }) => id + ": " + nodes.map(({ target }) => target.join(" ")).join(", ")))`;

async function axe(browser) {
  const source = axeSource();
  if (!source) {
    console.log("skipped what axe says of the page: no browser here has it");
    return;
  }
  for (const [width, height] of [[1600, 1080], PHONE]) {
    await browser.resize(width, height, width === PHONE[0]);
    for (const fragment of TABS) {
      await openTab(browser, fragment);
      await browser.value(`{ ${source}; 0; }`);
      holds(`${fragment}, ${width} wide: axe in the light`, await browser.value(AXE), []);
      await browser.value(DARKEN);
      holds(`${fragment}, ${width} wide: axe in the dark`, await browser.value(AXE), []);
    }
  }
  await browser.resize(1600, 1080, false);
}

// From the address to a finding and its line, with keys alone.
async function keysAlone(browser) {
  await browser.open("#recording=wrong-driver");
  await browser.until("document.querySelector('.finding .go') !== null");
  await browser.value("element('tab-recording').focus()");
  const isAt = "document.activeElement.matches('.finding.warning .go')";
  for (let tries = 0; tries < 60 && !(await browser.value(isAt)); tries++) await browser.tab();
  holds("the tab key comes to a finding", await browser.value(isAt));
  await browser.key("Enter", "\r");
  holds("and the enter key shows its line", await browser.until("document.querySelector('#log .current') !== null"));
}

const profile = mkdtempSync(join(tmpdir(), "page-"));
const browser = new (/firefox/i.test(program) ? Firefox : Chromium)(program, profile);
Object.assign(browser, { page, pictures });
const late = setTimeout(() => {
  console.log("the browser does not answer");
  browser.process.kill();
}, LONGEST);
browser.process.on("exit", () => {
  clearTimeout(late);
  rmSync(profile, { recursive: true, force: true, maxRetries: 5 });
  if (!counts.isDone) counts.failed++;
  console.log(`${counts.passed} passed, ${counts.failed} failed`);
  process.exit(counts.failed ? 1 : 0);
});
await browser.attach();
const parts = [scripts, longLines, longRuns, links, recordings, longRecordings, longestRecording, addresses, keyboard, keysAlone, accessible, axe,
    live, rings, look, phone, printed, network];
for (const part of parts) await part(browser);
counts.isDone = true;
browser.close();
