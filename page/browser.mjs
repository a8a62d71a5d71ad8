// Drives a headless Chromium over a pipe: no package and no port.
import { spawn } from "node:child_process";
import fs from "node:fs";
import os from "node:os";
import path from "node:path";

// A connection for the browser's commands: each is a text in JSON, and ends with an octet 0.
class Wire {
  constructor(to, from) {
    this.to = to;
    this.count = 0;
    this.waiting = new Map();
    this.hearing = [];
    let held = "";
    from.setEncoding("utf8");
    from.on("data", data => {
      const parts = (held + data).split("\0");
      held = parts.pop();
      parts.forEach(part => this.hear(JSON.parse(part)));
    });
  }

  hear(said) {
    const waiting = this.waiting.get(said.id);
    if (!waiting) return this.hearing.forEach(it => it(said));
    this.waiting.delete(said.id);
    if (said.error) waiting.reject(new Error(`${waiting.method}: ${said.error.message}`));
    else waiting.resolve(said.result);
  }

  send(method, params = {}, sessionId = undefined) {
    return new Promise((resolve, reject) => {
      this.waiting.set(++this.count, { resolve, reject, method });
      this.to.write(JSON.stringify({ id: this.count, method, params, sessionId }) + "\0");
    });
  }
}

// A page in a browser of its own.
export class Browser {
  static async start({ width = 1280, height = 900, saved } = {}) {
    const browser = new Browser();
    browser.folder = fs.mkdtempSync(path.join(os.tmpdir(), "page-"));
    browser.child = spawn("chromium", [
      "--headless", "--no-sandbox", "--disable-gpu", "--hide-scrollbars", "--no-first-run",
      `--user-data-dir=${browser.folder}`, `--window-size=${width},${height}`,
      "--remote-debugging-pipe", "about:blank",
    ], { stdio: ["ignore", "ignore", "ignore", "pipe", "pipe"] });
    browser.wire = new Wire(browser.child.stdio[3], browser.child.stdio[4]);
    await browser.open(saved);
    return browser;
  }

  async open(saved) {
    const { targetId } = await this.wire.send("Target.createTarget", { url: "about:blank" });
    const attached = await this.wire.send("Target.attachToTarget", { targetId, flatten: true });
    this.session = attached.sessionId;
    this.requests = [];
    this.said = [];
    this.wire.hearing.push(it => this.note(it));
    for (const domain of ["Page", "Runtime", "DOM", "Network", "Log"]) await this.own(`${domain}.enable`);
    await this.own("Target.setAutoAttach",
      { autoAttach: true, waitForDebuggerOnStart: false, flatten: true });
    if (saved) {
      await this.wire.send("Browser.setDownloadBehavior",
        { behavior: "allow", downloadPath: saved, eventsEnabled: true });
    }
  }

  // Keeps each request, also those of the worker, whether the policy blocked it, and all that is said
  // on the console.
  note({ method, params, sessionId }) {
    if (method === "Target.attachedToTarget") {
      for (const it of ["Network.enable", "Runtime.enable"]) {
        this.wire.send(it, {}, params.sessionId).catch(() => {});
      }
    }
    if (method === "Network.requestWillBeSent") {
      this.requests.push({ id: params.requestId, url: params.request.url, blocked: false });
    }
    if (method === "Network.loadingFailed" && params.blockedReason === "csp") {
      this.requests.filter(it => it.id === params.requestId).forEach(it => { it.blocked = true; });
    }
    if (method === "Runtime.exceptionThrown") {
      this.said.push(params.exceptionDetails.exception?.description ?? params.exceptionDetails.text);
    }
    if (method === "Runtime.consoleAPICalled") {
      this.said.push(params.args.map(it => it.value ?? it.description).join(" "));
    }
    if (method === "Log.entryAdded" && sessionId === this.session) this.said.push(params.entry.text);
  }

  own(method, params) {
    return this.wire.send(method, params, this.session);
  }

  // Waits for an event of the browser.
  event(method) {
    return new Promise(done => {
      this.wire.hearing.push(it => it.method === method && done(it.params));
    });
  }

  // Returns the value of an expression in the page, as if the user had asked for it.
  async value(expression) {
    const { result, exceptionDetails } = await this.own("Runtime.evaluate",
      { expression, awaitPromise: true, returnByValue: true, userGesture: true });
    if (exceptionDetails) throw new Error(exceptionDetails.exception?.description);
    return result.value;
  }

  async go(url) {
    const loaded = this.event("Page.loadEventFired");
    await this.own("Page.navigate", { url });
    await loaded;
  }

  // Chooses files, as who clicks at the chooser does.
  async choose(selector, files) {
    const { root } = await this.own("DOM.getDocument");
    const { nodeId } = await this.own("DOM.querySelector", { nodeId: root.nodeId, selector });
    await this.own("DOM.setFileInputFiles", { nodeId, files });
  }

  // Drops files or folders on an element, as who drags them there does.
  async drop(selector, files) {
    const { x, y } = await this.value(`(() => {
      const element = document.querySelector(${JSON.stringify(selector)});
      element.scrollIntoView({ block: "center" });
      const { left, top, width, height } = element.getBoundingClientRect();
      return { x: left + width / 2, y: Math.max(top, 0) + Math.min(height, innerHeight - top) / 2 };
    })()`);
    const data = { items: [], files, dragOperationsMask: 1 };
    for (const type of ["dragEnter", "dragOver", "drop"]) {
      await this.own("Input.dispatchDragEvent", { type, x, y, data });
    }
  }

  async dark(on) {
    const value = on ? "dark" : "light";
    await this.own("Emulation.setEmulatedMedia",
      { features: [{ name: "prefers-color-scheme", value }] });
  }

  async width(width, height = 900) {
    await this.own("Emulation.setDeviceMetricsOverride",
      { width, height, deviceScaleFactor: 1, mobile: width < 600 });
  }

  async look(file) {
    const { cssContentSize } = await this.own("Page.getLayoutMetrics");
    const clip = { x: 0, y: 0, width: cssContentSize.width, scale: 1 };
    clip.height = Math.min(cssContentSize.height, 4000);
    const { data } = await this.own("Page.captureScreenshot",
      { format: "png", captureBeyondViewport: true, clip });
    fs.writeFileSync(file, Buffer.from(data, "base64"));
  }

  async printed(file) {
    const { data } = await this.own("Page.printToPDF", { printBackground: true });
    fs.writeFileSync(file, Buffer.from(data, "base64"));
  }

  async end() {
    const ended = new Promise(done => this.child.once("exit", done));
    this.wire.send("Browser.close").catch(() => {});
    await Promise.race([ended, new Promise(done => setTimeout(done, 5000))]);
    this.child.kill();
    fs.rmSync(this.folder, { recursive: true, force: true, maxRetries: 5 });
  }
}
