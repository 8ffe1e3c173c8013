// Tries the page of the file that is named in Chromium: every act, and what holds of all of it.
import { pathToFileURL } from "node:url";
import { parseArgs } from "node:util";
import { Browser } from "./browser.mjs";
import { ACTS } from "./acts.mjs";
import { FAKE_DEVICE } from "./fake.mjs";
import { LOOKS } from "./looks.mjs";

// Words behind the file choose the acts whose names they are in; --patience says how long one may take until
// what is wanted is seen, in milliseconds. With TELL set it says what it does, and what that takes.

const { values, positionals: [file, words = ""] } = parseArgs({
  options: { patience: { type: "string", default: "8000" } }, allowPositionals: true });
const faults = [];
let tried = 0;

function told(value) {
  const text = JSON.stringify(value) ?? "nothing";
  return text.length > 500 ? `${text.slice(0, 500)} ..` : text;
}

/** What is seen, by an expression or by a function. */
async function look(page, sees) {
  try {
    return typeof sees === "function" ? await sees(page) : await page.find(sees);
  } catch (error) {
    return String(error);
  }
}

/** Does an act, and looks until what is wanted is seen: in this page, or in one that the act opened. */
async function attempt(page, { act, does, sees, wanted }) {
  tried += 1;
  let seen;
  let other;
  try {
    other = await does(page, browser);
    const end = Date.now() + Number(values.patience);
    do {
      seen = await look(other ?? page, sees);
      if (JSON.stringify(seen) === JSON.stringify(wanted)) return;
      await new Promise((resolve) => { setTimeout(resolve, 20); });
    } while (Date.now() < end);
  } catch (error) {
    seen = error.message;
  } finally {
    faults.push(...other?.complaints ?? []);
    await other?.close();
  }
  faults.push(`${act}: wanted ${told(wanted)}, seen ${told(seen)}`);
}

/** As a page that was just opened: nothing given, the first tab. */
async function anew(page) {
  await page.send("Emulation.clearDeviceMetricsOverride");
  await page.send("Emulation.setEmulatedMedia", { media: "", features: [] });
  await page.click("#tab-given");
  await page.find(`(() => {
    document.getElementById("standard").checked = false;
    document.getElementById("codes").checked = true;
    document.getElementById("clear").click();
  })()`);
  await page.until("document.getElementById('view').hidden");
}

const browser = new Browser();
try {
  const page = await browser.open(String(pathToFileURL(file)), (it) =>
    it.send("Page.addScriptToEvaluateOnNewDocument", { source: FAKE_DEVICE }));
  for (const act of [...ACTS, ...LOOKS].filter((it) => it.act.includes(words))) {
    if (faults.length > 4) break;
    const begun = performance.now();
    await attempt(page, act);
    await anew(page);
    if (process.env.TELL) console.error(`${Math.round(performance.now() - begun)} ms: ${act.act}`);
  }
  const asked = page.asked.filter((it) => !it.startsWith("blob:")).length;
  if (asked !== 1) faults.push(`it asks for ${page.asked.join(", ")}`);
  faults.push(...page.complaints.map((it) => `the browser complains: ${it}`));
} finally {
  if (process.env.TELL) {
    const { processInfo } = await browser.send("SystemInfo.getProcessInfo");
    const seconds = processInfo.reduce((sum, it) => sum + it.cpuTime, 0);
    console.error(`the browser takes ${seconds.toFixed(1)} s of processor time`);
  }
  await browser.end();
}
if (tried === 0) faults.push(`no act has the words ${words}`);
for (const fault of faults) console.log(`page: ${fault}`);
if (faults.length === 0) {
  console.log(`page: ${tried} acts in a browser, each seen to do what is wanted`);
}
process.exitCode = faults.length === 0 ? 0 : 1;
