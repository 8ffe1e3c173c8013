// Runs of the program, each over the files that it is given; this stands behind host.js and
// memory_files.js, in a worker.
import { run } from "../js/src/host.js";
import { MemoryFiles } from "../js/src/memory_files.js";

let module;

/** What a run wrote, and its status: null where the program did not come to its end. */
function answerTo({ words, files }) {
  const system = new MemoryFiles(files);
  let status = null;
  let fault = "";
  try {
    status = run(module, ["hid", ...words], system);
  } catch (error) {
    fault = `hid: ${error.message}\n`;
  }
  const said = new TextDecoder().decode(system.output(2)) + fault;
  return { status, out: system.output(1), said };
}

self.addEventListener("message", ({ data }) => {
  if (data.module) {
    module = data.module;
    return;
  }
  self.postMessage("begun");
  self.postMessage(answerTo(data));
});
