// What is done with a browser, whatever it is spoken to by.
import { writeFileSync } from "node:fs";
import { join, resolve } from "node:path";
import { pathToFileURL } from "node:url";

// Each browser has `attach`, `value` of an expression in the page, `go`, `reload`, `key`, `tab`, `insert`, `resize`, `dark`, `screenshot` and
// `close`, its `process`, and in `errors` the exceptions of the page and what it asked the network for.
export class Driver {
  // Waits until an expression is true. A busy machine may take long: the bound is there so that a page which hangs is told.
  async until(expression, seconds = 300) {
    const end = Date.now() + 1000 * seconds;
    while (Date.now() < end) {
      if (await this.value(expression)) return true;
      await new Promise((done) => setTimeout(done, 50));
    }
    return false;
  }

  // Opens a file anew. Each time it has another address, so that no browser takes it for a place in the one that is shown.
  async open(fragment, file) {
    this.opened = (this.opened ?? 0) + 1;
    await this.go(`${pathToFileURL(resolve(file ?? this.page)).href}?${this.opened}${fragment}`);
    return this.until(`location.search === "?${this.opened}" && document.body?.dataset.ready === "true"`);
  }

  // Opens what is shown once more.
  async reload() {
    await this.value("window.isOld = true");
    await this.again();
    return this.until("!window.isOld && document.body?.dataset.ready === 'true'");
  }

  async picture(name) {
    if (this.pictures) writeFileSync(join(this.pictures, `${name}.png`), Buffer.from(await this.screenshot(), "base64"));
  }

  // Drops a file whose parts are those of an expression.
  dropParts(name, parts) {
    return this.value(`{
      const transfer = new DataTransfer();
      transfer.items.add(new File(${parts}, ${JSON.stringify(name)}));
      document.dispatchEvent(new DragEvent("drop", { dataTransfer: transfer, cancelable: true }));
      0;
    }`);
  }

  drop(name, text) {
    return this.dropParts(name, JSON.stringify([text]));
  }
}
