// Chromium without a window, driven over its pipe: pages, what is typed, clicked and dropped in them, and
// what they ask for and complain of.
import { spawn } from "node:child_process";
import fs from "node:fs";
import os from "node:os";
import path from "node:path";

const WORDS = ["--headless=new", "--no-sandbox", "--disable-gpu", "--hide-scrollbars", "--no-first-run",
  "--disable-background-networking", "--disable-component-update", "--disable-sync",
  "--disable-extensions", "--mute-audio", "--remote-debugging-pipe"];

/** How long anything may take here, in milliseconds. */
const PATIENCE = 10000;

export class Browser {
  #profile = fs.mkdtempSync(path.join(os.tmpdir(), "page-"));
  #child;
  #calls = new Map();
  #number = 0;
  #listeners = [];

  constructor() {
    const words = [...WORDS, `--user-data-dir=${this.#profile}`, "about:blank"];
    this.#child = spawn("chromium", words, { stdio: ["ignore", "ignore", "ignore", "pipe", "pipe"] });
    const pieces = [];
    this.#child.stdio[4].on("data", (piece) => {
      const parts = piece.toString("latin1").split("\0");
      while (parts.length > 1) {
        pieces.push(parts.shift());
        this.#take(JSON.parse(Buffer.from(pieces.join(""), "latin1").toString()));
        pieces.length = 0;
      }
      pieces.push(parts[0]);
    });
  }

  #take(message) {
    const call = this.#calls.get(message.id);
    if (call === undefined) {
      for (const listener of this.#listeners) listener(message);
      return;
    }
    this.#calls.delete(message.id);
    if (message.error) call.reject(new Error(`${call.method}: ${message.error.message}`));
    else call.resolve(message.result);
  }

  send(method, params = {}, sessionId = undefined) {
    this.#number += 1;
    const id = this.#number;
    this.#child.stdio[3].write(`${JSON.stringify({ id, method, params, sessionId })}\0`);
    return new Promise((resolve, reject) => this.#calls.set(id, { method, resolve, reject }));
  }

  listen(call) {
    this.#listeners.push(call);
  }

  /** Opens an address in a page of its own. */
  async open(address, prepare = async () => {}) {
    const { targetId } = await this.send("Target.createTarget", { url: "about:blank" });
    const { sessionId } = await this.send("Target.attachToTarget", { targetId, flatten: true });
    const page = new Page(this, sessionId, targetId);
    await page.begin();
    await prepare(page);
    await page.goTo(address);
    return page;
  }

  async end() {
    const ended = new Promise((resolve) => { this.#child.once("exit", resolve); });
    this.send("Browser.close").catch(() => {});
    const late = setTimeout(() => this.#child.kill("SIGKILL"), 5000);
    await ended;
    clearTimeout(late);
    fs.rmSync(this.#profile, { recursive: true, force: true, maxRetries: 5 });
  }
}

const KEYS = { Tab: 9, Enter: 13, Escape: 27, End: 35, Home: 36, ArrowLeft: 37, ArrowUp: 38,
  ArrowRight: 39, ArrowDown: 40, Delete: 46, Backspace: 8 };

class Page {
  #browser;
  #session;
  #target;
  complaints = [];
  asked = [];

  constructor(browser, session, target) {
    this.#browser = browser;
    this.#session = session;
    this.#target = target;
    browser.listen((message) => {
      if (message.sessionId === session) this.#take(message);
    });
  }

  #take({ method, params }) {
    if (method === "Runtime.exceptionThrown") {
      const { text, exception } = params.exceptionDetails;
      this.complaints.push(`${text} ${exception?.description ?? ""}`);
    } else if (method === "Log.entryAdded" && params.entry.level !== "verbose") {
      this.complaints.push(params.entry.text);
    } else if (method === "Runtime.consoleAPICalled") {
      this.complaints.push(params.args.map((it) => it.value ?? it.description).join(" "));
    } else if (method === "Network.requestWillBeSent") {
      this.asked.push(params.request.url);
    }
  }

  send(method, params) {
    return this.#browser.send(method, params, this.#session);
  }

  async begin() {
    for (const domain of ["Page", "Runtime", "Log", "Network", "DOM", "Accessibility"]) {
      await this.send(`${domain}.enable`);
    }
    const origins = ["clipboardReadWrite", "clipboardSanitizedWrite"];
    await this.#browser.send("Browser.grantPermissions", { permissions: origins });
    await this.send("Emulation.setFocusEmulationEnabled", { enabled: true });
  }

  async goTo(address) {
    await this.send("Page.navigate", { url: address });
    await this.until("location.href !== 'about:blank' && document.readyState === 'complete'");
  }

  /** What an expression is in the page. */
  async find(expression) {
    const answer = await this.send("Runtime.evaluate",
      { expression, awaitPromise: true, returnByValue: true, userGesture: true });
    if (answer.exceptionDetails) {
      throw new Error(answer.exceptionDetails.exception?.description ?? answer.exceptionDetails.text);
    }
    return answer.result.value;
  }

  /** Waits until an expression holds; false where it does not. */
  async until(expression, patience = PATIENCE) {
    const end = Date.now() + patience;
    while (Date.now() < end) {
      if (await this.find(`Boolean(${expression})`).catch(() => false)) return true;
      await new Promise((resolve) => { setTimeout(resolve, 15); });
    }
    return false;
  }

  async click(marks) {
    const place = await this.find(`(() => {
      const made = document.querySelector(${JSON.stringify(marks)});
      made.scrollIntoView({ block: "center" });
      const box = made.getBoundingClientRect();
      return { x: box.x + Math.min(box.width, 60) / 2, y: box.y + box.height / 2 };
    })()`);
    for (const type of ["mouseMoved", "mousePressed", "mouseReleased"]) {
      const button = type === "mouseMoved" ? "none" : "left";
      await this.send("Input.dispatchMouseEvent", { type, ...place, button, clickCount: 1 });
    }
  }

  async press(key, modifiers = 0, commands = []) {
    const code = KEYS[key] ?? key.toUpperCase().charCodeAt(0);
    const words = { key, code: key, windowsVirtualKeyCode: code, modifiers, commands };
    const text = key === "Enter" ? "\r" : undefined;
    await this.send("Input.dispatchKeyEvent", { type: text ? "keyDown" : "rawKeyDown", text, ...words });
    await this.send("Input.dispatchKeyEvent", { type: "keyUp", ...words });
  }

  /** Types a text where the keys go. */
  type(text) {
    return this.send("Input.insertText", { text });
  }

  /** Puts the caret into a box, all of it selected. */
  async into(marks) {
    await this.find(`document.querySelector(${JSON.stringify(marks)}).focus()`);
    await this.press("a", 2, ["selectAll"]);
  }

  /** Drops or pastes files, which are pairs of a name and bytes in base64, or a text. */
  give(kind, files, marks = "body") {
    return this.find(`(() => {
      const transfer = new DataTransfer();
      const files = ${JSON.stringify(files)};
      if (typeof files === "string") transfer.setData("text/plain", files);
      else for (const [name, bytes] of files) {
        transfer.items.add(new File([Uint8Array.from(atob(bytes), (it) => it.charCodeAt(0))], name));
      }
      const made = document.querySelector(${JSON.stringify(marks)});
      const words = { bubbles: true, cancelable: true };
      made.dispatchEvent(${JSON.stringify(kind)} === "drop"
        ? new DragEvent("drop", { ...words, dataTransfer: transfer })
        : new ClipboardEvent("paste", { ...words, clipboardData: transfer }));
    })()`);
  }

  /** Makes the window this large, and prefers light or dark. */
  async become(width, height, scheme) {
    const size = { width, height, deviceScaleFactor: 1, mobile: false };
    await this.send("Emulation.setDeviceMetricsOverride", size);
    await this.prefer(scheme);
  }

  prefer(scheme) {
    const features = [{ name: "prefers-color-scheme", value: scheme }];
    return this.send("Emulation.setEmulatedMedia", { features });
  }

  async picture(file, words = {}) {
    const { data } = await this.send("Page.captureScreenshot", { format: "png", ...words });
    fs.writeFileSync(file, Buffer.from(data, "base64"));
  }

  close() {
    return this.#browser.send("Target.closeTarget", { targetId: this.#target });
  }
}
