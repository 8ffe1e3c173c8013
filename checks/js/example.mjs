// The page in js/examples, in Chromium with a device that stands for a real one: a mouse sends a report, and
// its values stand there by name.
//   example.mjs FOLDER    the folder with js/ and generated/
import fs from "node:fs";
import http from "node:http";
import path from "node:path";
import { Browser } from "../page/browser.mjs";
import { FAKE_DEVICE } from "../page/fake.mjs";

const folder = path.resolve(process.argv[2]);
const KINDS = { ".html": "text/html", ".js": "text/javascript", ".wasm": "application/wasm" };
const WANTED = "mouse: Button 1 1, Button 2 0, Button 3 0, X 5, Y -5";

const server = http.createServer(({ url }, answer) => {
  const file = path.join(folder, path.normalize(new URL(url, "http://localhost").pathname));
  const isThere = file.startsWith(folder) && fs.existsSync(file);
  answer.writeHead(isThere ? 200 : 404, { "content-type": KINDS[path.extname(file)] ?? "text/plain" });
  answer.end(isThere ? fs.readFileSync(file) : "");
});
await new Promise((resolve) => { server.listen(0, "127.0.0.1", resolve); });
const browser = new Browser();
let seen = "nothing";
try {
  const page = await browser.open(`http://127.0.0.1:${server.address().port}/js/examples/webhid.html`, (it) =>
    it.send("Page.addScriptToEvaluateOnNewDocument", { source: FAKE_DEVICE }));
  await page.until("!document.getElementById('connect').disabled");
  await page.click("#connect");
  await page.until("navigator.hid.isOpen");
  await page.find("navigator.hid.send([1, 5, 0xfb])");
  const rows = await page.find(`Array.from(document.querySelectorAll("tbody tr"),
    (it) => Array.from(it.cells, (cell) => cell.textContent).join(" ")).join(", ")`);
  seen = `mouse: ${rows}`;
} finally {
  await browser.end();
  server.close();
}
if (seen === WANTED) console.log("js: the example reads a device in a browser");
else console.log(`js: the example: wanted ${WANTED}, seen ${seen}`);
process.exitCode = seen === WANTED ? 0 : 1;
