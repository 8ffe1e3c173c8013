// The program `hid`, which lies in the page packed, and its runs: one behind the other, in a worker.
import { byId } from "./elements.js";

/** How long a run may take, in milliseconds. */
const MOST_TIME = 900;

async function unpacked(text) {
  const packed = Uint8Array.from(atob(text), (letter) => letter.charCodeAt(0));
  const stream = new Blob([packed]).stream().pipeThrough(new DecompressionStream("gzip"));
  return new Response(stream).arrayBuffer();
}

/** The address of the worker's script: the only one that the page's policy lets through. */
function workerAddress() {
  const script = new Blob([byId("worker").textContent], { type: "text/javascript" });
  const address = URL.createObjectURL(script);
  const policy = globalThis.trustedTypes?.createPolicy("hid", { createScriptURL: () => address });
  return policy === undefined ? address : policy.createScriptURL("");
}

/** What is answered for a run that took too long. */
function stopped() {
  const said = `hid: stopped after ${MOST_TIME / 1000} seconds: this input takes too long\n`;
  return { status: null, out: new Uint8Array(0), said };
}

export class Program {
  #address = workerAddress();
  #module;
  #worker = null;
  #last = Promise.resolve();

  constructor() {
    const bytes = unpacked(byId("program").textContent);
    this.#module = bytes.then((it) => WebAssembly.compile(it));
  }

  /** Ends once it can run, or fails where the browser lacks what it needs. */
  async ready() {
    await this.#module;
  }

  async #begun() {
    if (this.#worker === null) {
      const module = await this.#module;
      this.#worker = new Worker(this.#address);
      this.#worker.postMessage({ module });
    }
    return this.#worker;
  }

  /** What the worker answers, or that it was stopped: its time begins once it has begun. */
  async #answer(words, files) {
    const worker = await this.#begun();
    return new Promise((resolve) => {
      let tooLong;
      const stop = () => {
        worker.terminate();
        this.#worker = null;
        resolve(stopped());
      };
      worker.onmessage = ({ data }) => {
        clearTimeout(tooLong);
        if (data === "begun") tooLong = setTimeout(stop, MOST_TIME);
        else resolve(data);
      };
      worker.postMessage({ words, files });
    });
  }

  /** Runs it with words over files, pairs of a path and bytes: `{ status, out, said }`. */
  run(words, files) {
    this.#last = this.#last.then(() => this.#answer(words, files));
    return this.#last;
  }

  /** The same, with what it wrote as a text. */
  async text(words, files) {
    const answer = await this.run(words, files);
    return { ...answer, text: new TextDecoder().decode(answer.out) };
  }

  /** The same, with what it wrote as the objects of its lines of JSON. */
  async objects(words, files) {
    const [command, ...rest] = words;
    const answer = await this.text([command, "--json", ...rest], files);
    const lines = answer.text.split("\n").filter((line) => line !== "");
    return { ...answer, objects: lines.map((line) => JSON.parse(line)) };
  }
}
