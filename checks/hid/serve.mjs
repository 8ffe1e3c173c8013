// Runs `hid` as WebAssembly for each line of standard input, in this process: `serve.mjs MODULE`, where MODULE
// is hid.wasm.gz. A line is JSON, `{ words, given }`, each text in base64; its answer is one, too: `{ status,
// output, errors }`. checks/hid/runs.py asks all stored runs so, for which Node needn't start each time.
import fs from "node:fs";
import readline from "node:readline";
import zlib from "node:zlib";
import { run } from "../../js/src/host.js";
import { NodeFiles } from "../../js/src/node_files.js";

const module = new WebAssembly.Module(zlib.gunzipSync(fs.readFileSync(process.argv[2])));

/** Node's files, with the three standard streams in memory. */
class RunFiles extends NodeFiles {
  written = [[], []];
  #given;

  constructor(given) {
    super();
    this.#given = given;
  }

  read(own, bytes) {
    if (own !== 0) return super.read(own, bytes);
    const count = Math.min(bytes.length, this.#given.length);
    bytes.set(this.#given.subarray(0, count));
    this.#given = this.#given.subarray(count);
    return count;
  }

  write(own, bytes) {
    if (own !== 1 && own !== 2) return super.write(own, bytes);
    this.written[own - 1].push(Buffer.from(bytes));
    return bytes.length;
  }

  isTerminal(own) {
    return own > 2 && super.isTerminal(own);
  }
}

function answerTo({ words, given }) {
  const files = new RunFiles(Buffer.from(given, "base64"));
  const own = words.map((word) => Buffer.from(word, "base64").toString());
  let status;
  try {
    status = run(module, ["hid", ...own], files);
  } catch (trap) {
    status = String(trap);
  }
  const [output, errors] = files.written.map((parts) => Buffer.concat(parts).toString("base64"));
  return { status, output, errors };
}

for await (const line of readline.createInterface({ input: process.stdin })) {
  process.stdout.write(`${JSON.stringify(answerTo(JSON.parse(line)))}\n`);
}
