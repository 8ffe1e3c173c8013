// What `hid page` shows, shown in this page: the blocks of JSON of the document that it wrote, by its own
// script, `showPage`, which is put together of crates/hid_page/page and takes for its document what is
// given to it here.
import { byId, shown } from "./elements.js";

const TITLE = document.title;

const BLOCK = /<script type="application\/json" id="([a-z]+)">([^<]*)<\/script>/g;

/** The blocks of JSON of a document of `hid page`, by their ids; no `<` stands in one. */
export function blocksOf(text) {
  return new Map(Array.from(text.matchAll(BLOCK), ([, id, block]) => [id, block]));
}

/** The part of this page that `hid page`'s script takes for a document. */
class Stage {
  #blocks;
  #signal;
  #places = { head: byId("view-head"), main: byId("view-main") };

  constructor(blocks, signal) {
    this.#blocks = blocks;
    this.#signal = signal;
  }

  getElementById(id) {
    const textContent = this.#blocks.get(id);
    return textContent === undefined ? this.#places[id] : { textContent };
  }

  addEventListener(type, call) {
    byId("view").addEventListener(type, call, { signal: this.#signal });
  }

  querySelectorAll(marks) {
    return byId("view").querySelectorAll(marks);
  }

  createElement(name) {
    return document.createElement(name);
  }

  createElementNS(space, name) {
    return document.createElementNS(space, name);
  }

  createDocumentFragment() {
    return document.createDocumentFragment();
  }
}

/** Shows documents of `hid page`, one after the other, and keeps what is pinned. */
export class View {
  #controller = new AbortController();
  #isQuiet = false;
  #pinned = "";

  get pinned() {
    return this.#pinned;
  }

  /** What the script takes for a window: it scrolls only where a person chose a part. */
  #window(signal) {
    return {
      getSelection: () => (this.#isQuiet ? "" : window.getSelection()),
      matchMedia: (query) => (this.#isQuiet ? { matches: false } : window.matchMedia(query)),
      addEventListener(type, call) {
        if (type === "beforeprint") window.addEventListener(type, call, { signal });
      },
    };
  }

  #history() {
    return {
      replaceState: (state, title, address) => {
        this.#pinned = address.startsWith("#") ? address.slice(1) : "";
      },
    };
  }

  /** Shows nothing. */
  clear() {
    this.#controller.abort();
    this.#pinned = "";
    byId("view").hidden = true;
    document.title = TITLE;
    byId("view-head").replaceChildren(byId("view-name"));
    byId("view-name").textContent = "";
    byId("view-main").replaceChildren();
  }

  /** Shows a document's blocks; `pin` is the key of a part that is brought into sight. */
  show(blocks, pin = "") {
    this.#controller.abort();
    this.#controller = new AbortController();
    const { signal } = this.#controller;
    const [device] = JSON.parse(blocks.get("device"));
    byId("view-name").textContent = shown(device.name ?? device.file, 200);
    document.title = `${byId("view-name").textContent} - ${TITLE}`;
    byId("view-head").replaceChildren(byId("view-name"));
    byId("view-main").replaceChildren();
    byId("view").hidden = false;
    const location = { hash: `#${pin}`, pathname: "", search: "" };
    showPage(new Stage(blocks, signal), this.#window(signal), this.#history(), location);
    if (pin !== "") this.#pinned = pin;
    else this.#pinAgain();
  }

  /** Pins what was pinned before, where it is still there. */
  #pinAgain() {
    this.#isQuiet = true;
    const row = this.#pinned === "" ? null : byId(this.#pinned);
    this.#pinned = "";
    row?.click();
    this.#isQuiet = false;
  }
}
