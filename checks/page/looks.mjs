// What holds of the page as a whole: links, keys, widths, colours, print, names for screen readers, and
// what takes long. Rows as in acts.mjs; `sees` may be asked of the page by a function.
import { MOUSE, choose, drop, mouse, open } from "./acts.mjs";
import { FIELDS, HAS_VIEW, ITEMS, PIN, RESTS, content, said } from "./seen.mjs";
import { asFields, made, sample, stored } from "./stored.mjs";

/** Copies a link to the mouse with an item pinned, and opens that in another page. */
async function follow(page, browser) {
  await drop(page, sample("mouse.hex"));
  await page.until(`${ITEMS}.length === 26`);
  await page.click("#item-36");
  await page.click("#copy-link");
  await page.until(`${content("copy-link")} === "Copied"`);
  return browser.open(await page.find("navigator.clipboard.readText()"));
}

const LINKS = [
  { act: "a link is followed", does: follow, sees: ITEMS, wanted: MOUSE },
  { act: "it has what was pinned", does: follow, sees: PIN, wanted: ["item-36"] },
  { act: "its end is sent to no server", does: follow,
    sees: (page) => page.asked.some((it) => it.includes("#")),
    wanted: false },
  { act: "a link that is spoilt shows nothing", sees: `[${HAS_VIEW}, ${said("given")}.length]`,
    wanted: [false, 0],
    async does(page, browser) {
      const address = await page.find("location.href.split('#')[0]");
      return browser.open(`${address}#descriptor=%%%&at=<b>`);
    } },
];

/** Tries in another page what its policy forbids, which the browser complains of then. */
const forbidden = (act, attempted) => ({ act, wanted: "TypeError", sees: ({ refusal }) => refusal,
  async does(page, browser) {
    const other = await browser.open(await page.find("location.href"));
    other.refusal = await other.find(`(async () => ${attempted})().then(() => "done", (error) => error.name)`);
    other.complaints.length = 0;
    return other;
  } });

const POLICY = [
  { act: "the policy is that of hid page, with the program and its worker",
    sees: `document.querySelector("meta[http-equiv]").content.replace(/'sha256-[^']{44}'/g, "#")`,
    wanted: "default-src 'none'; script-src # 'wasm-unsafe-eval'; style-src #; worker-src blob:; base-uri 'none'; "
      + "form-action 'none'; require-trusted-types-for 'script'; trusted-types hid", does: async () => {} },
  forbidden("a text can't become markup", "{ document.body.innerHTML = '<b>'; }"),
  forbidden("a script can't be another", "{ new Worker('data:text/javascript,'); }"),
  forbidden("nothing can be sent", "fetch('http://127.0.0.1:9/')"),
];

const OLD = [{ act: "a browser that can't run it is told so", sees: content("busy"),
  wanted: "This browser can't run the program: DecompressionStream is not defined",
  async does(page, browser) {
    const source = "delete globalThis.DecompressionStream";
    return browser.open(await page.find("location.href"), (it) =>
      it.send("Page.addScriptToEvaluateOnNewDocument", { source }));
  } }];

/** Presses a key some times from an element on, and tells where the focus went. */
async function focused(page, from, key, count) {
  const ids = [];
  await page.find(`document.getElementById("${from}").focus()`);
  for (let k = 0; k < count; k += 1) {
    await page.press(key);
    ids.push(await page.find("document.activeElement.id || document.activeElement.localName"));
  }
  return ids;
}

const KEYS = [
  { act: "the tab key goes from tool to tool", sees: (page) => focused(page, "tab-given", "Tab", 10),
    wanted: ["given-text", "files", "sample", "copy-link", "clear", "codes", "host", "standard", "item-0", "field-0"],
    async does(page) {
      await mouse(page, "given");
      await page.until(RESTS);
    } },
  { act: "arrows go from tab to tab",
    wanted: ["tab-edit", "tab-convert", "tab-compare", "tab-device", "tab-given"],
    sees: (page) => focused(page, "tab-given", "ArrowRight", 5), does: async () => {} },
  { act: "arrows go from item to item, and over to a field", sees: "document.activeElement.id",
    wanted: "field-4",
    async does(page) {
      await mouse(page, "given");
      await page.until(RESTS);
      await page.find("document.getElementById('item-44').focus()");
      await page.press("ArrowDown");
      await page.press("ArrowRight");
    } },
];

/** What is wider than the page, where that scrolls sideways. */
const TOO_WIDE = `document.documentElement.scrollWidth <= innerWidth ? [] :
  Array.from(document.querySelectorAll("body *"), (it) => [it.localName, it.id, it.getBoundingClientRect().right])
    .filter(([, , right]) => right > innerWidth).slice(0, 5)`;

async function narrow(page, tab, ...files) {
  await page.become(400, 800, "light");
  await drop(page, ...files);
  await page.until(HAS_VIEW);
  await page.until(RESTS);
  await open(tab)(page);
}

const NARROW = [["given", "keyboard.hex"], ["given", "odd.hex"], ["edit", "touchpad.hex"], ["convert", "gamepad.hex"],
  ["compare", "mouse.recording"], ["device", "many.hex"]].map(([tab, name]) => ({
  act: `400 pixels hold ${name}, ${tab}`,
    does: (page) => narrow(page, tab, sample(name), sample("mouse.hex")),
  sees: TOO_WIDE, wanted: [] }));

/** The texts that stand out too little from what is behind them: less than 4.5 to 1. */
const PALE = `(() => {
  const numbers = (color) => color.match(/[\\d.]+/g).map(Number);
  const light = ([r, g, b]) => [r, g, b].map((it) => it / 255)
    .map((it) => (it <= 0.03928 ? it / 12.92 : ((it + 0.055) / 1.055) ** 2.4))
    .reduce((sum, it, k) => sum + it * [0.2126, 0.7152, 0.0722][k], 0);
  const behind = (made) => {
    for (let it = made; it !== null; it = it.parentElement) {
      const color = numbers(getComputedStyle(it).backgroundColor);
      if (color[3] === undefined || color[3] === 1) return color;
    }
    return [255, 255, 255];
  };
  const isText = (node) => node.nodeType === 3 && node.data.trim() !== "";
  const hasText = (it) => Array.from(it.childNodes).some(isText);
  return Array.from(document.querySelectorAll("body *")).filter((it) => hasText(it) && it.checkVisibility()
    && !it.disabled && !it.closest("script, option, .hidden")).map((it) => {
    const lights = [light(numbers(getComputedStyle(it).color)), light(behind(it))].sort((a, b) => b - a);
    return [it.localName, it.className, it.textContent.slice(0, 20), (lights[0] + 0.05) / (lights[1] + 0.05)];
  }).filter((it) => it[3] < 4.5).slice(0, 5);
})()`;

async function coloured(page, scheme, name, tab) {
  await page.prefer(scheme);
  await drop(page, sample(name), sample("mouse_of_four.hex"));
  await page.until(HAS_VIEW);
  await page.until(RESTS);
  await open(tab)(page);
}

const COLOURS = ["light", "dark"].flatMap((scheme) => [["odd.hex", "given"], ["mouse.hex", "compare"],
  ["wheel.hex", "edit"], ["no_usage.hex", "convert"]].map(([name, tab]) => ({
  act: `${scheme}: all texts of ${name}, ${tab}, stand out`,
    does: (page) => coloured(page, scheme, name, tab),
  sees: PALE, wanted: [] }))).concat([{
  act: "dark is dark", does: (page) => coloured(page, "dark", "mouse.hex", "given"),
  sees: "getComputedStyle(document.body).backgroundColor", wanted: "rgb(15, 19, 24)" }]);

const PRINT = [{
  act: "printed is what is shown, without the tools", wanted: [false, false, true, 2],
  sees: `["#tools", ".options", "#view"].map((it) => document.querySelector(it).checkVisibility())
    .concat(document.querySelectorAll("#findings button, #view h2#view-name").length - 3)`,
  async does(page) {
    await drop(page, sample("odd.hex"));
    await page.until(`document.querySelectorAll("#findings button").length === 4`);
    await page.send("Emulation.setEmulatedMedia", { media: "print" });
  } }];

const NAMED = ["button", "checkbox", "combobox", "tab", "tabpanel", "textbox", "slider", "table", "region",
  "tablist"];
const COUNTED = ["tab", "tabpanel", "main", "table", "checkbox", "banner"];

/** What a screen reader comes to: how often each role, and what has no name. */
async function spoken(page) {
  const { nodes } = await page.send("Accessibility.getFullAXTree");
  const seen = nodes.filter((it) => !it.ignored)
    .map((it) => ({ role: it.role.value, name: it.name?.value ?? "" }));
  const counts = COUNTED.map((role) => [role, seen.filter((it) => it.role === role).length]);
  return [seen.filter((it) => NAMED.includes(it.role) && it.name === ""), Object.fromEntries(counts)];
}

const SPOKEN = ["given", "edit", "convert", "compare", "device"].map((tab) => ({
  act: `a screen reader has a name for all, ${tab}`, sees: spoken,
  wanted: [[], { tab: 5, tabpanel: 1, main: 1, table: 3, checkbox: 2, banner: 1 }],
  async does(page) {
    await drop(page, sample("mouse.recording"), sample("axis.bytes"));
    await page.until(HAS_VIEW);
    await page.until(RESTS);
    await open(tab)(page);
  } }));

/** Drops the file that an expression is. */
const dropped = (file) => `(() => {
  const transfer = new DataTransfer();
  transfer.items.add(${file});
  const words = { bubbles: true, cancelable: true, dataTransfer: transfer };
  document.body.dispatchEvent(new DragEvent("drop", words));
})()`;

/** 64 KB of a piece. */
const again = (piece) => Buffer.alloc(65536, Buffer.from(piece));
const SHAPES = {
  "2^32 elements": Buffer.from([5, 1, 9, 0x30, 0x75, 8, 0x97, 255, 255, 255, 255, 0x81, 0]),
  "2^32 fields": Buffer.from([5, 1, 9, 0x30, 0x75, 1, 0x97, 255, 255, 255, 255, 0x81, 2]),
  "131,072 fields": Buffer.from([5, 1, 9, 0x30, 0x75, 1, 0x97, 0, 0, 2, 0, 0x81, 2]),
  "items of a field": again([9, 0x30, 0x75, 1, 0x95, 1, 0x81, 2]), collections: again([0xa1, 1]),
  pushes: again([0xa4, 0xb4]), "items of nothing": again([0x81, 0]), "long items": again([0xfe, 1, 1, 1]),
  hex: again("05 01 "), C: again("0x05, "), letters: again("a"), events: again("E: 0.0 1 00\n"),
  macros: again("HID_USAGE(1),"), words: again("Usage (X)\n"),
};

/** The least of the times until something is shown or said, in seconds, of at most five. */
async function timed(page, bytes) {
  let least = Infinity;
  for (let turn = 0; turn < 5 && least > PATIENCE; turn += 1) {
    await page.find("document.getElementById('clear').click()");
    await page.until(`!(${HAS_VIEW})`);
    await page.find(`globalThis.given = new File([Uint8Array.from(atob("${bytes.toString("base64")}"),
      (it) => it.charCodeAt(0))], "worst")`);
    least = Math.min(least, await page.find(`new Promise((resolve) => {
      const begun = performance.now();
      ${dropped("given")};
      const look = () => {
        if (${HAS_VIEW} || ${said("given")}.length > 0) resolve((performance.now() - begun) / 1000);
        else requestAnimationFrame(look);
      };
      requestAnimationFrame(look);
    })`));
    await page.until(RESTS);
  }
  return least;
}

/** The page stops what takes more than 0.9 seconds; a browser on a busy machine shows it later than an idle one's second. */
const PATIENCE = Number(process.env.SECONDS_TO_SHOW ?? 8);

const WORST = Object.entries(SHAPES).map(([name, bytes]) => ({
  act: `within ${PATIENCE} seconds: ${name}`, does: async () => {}, wanted: true,
  sees: async (page) => await timed(page, bytes) < PATIENCE }));

const LONG = [
  { act: "what is long is cut with a word", sees: content("cut"),
    wanted: "Not shown, so that this is quick: 200 more items. Show all",
    does: (page) => drop(page, made("long", Buffer.alloc(1000, Buffer.from([0xa4, 0xb4])))) },
  { act: "all of it is shown where that is wanted", sees: `${ITEMS}.length`, wanted: 1000,
    async does(page) {
      await drop(page, made("long", Buffer.alloc(1000, Buffer.from([0xa4, 0xb4]))));
      await page.until("document.querySelector('#cut button')");
      await page.click("#cut button");
    } },
  { act: "what takes too long is stopped with a word", sees: said("given"),
    wanted: ["stopped after 0.9 seconds: this input takes too long"],
    does: (page) => page.find(dropped(`new File(["05 01 ".repeat(10000000)], "big.hex")`)) },
  { act: "after that the next is shown", sees: FIELDS,
    wanted: asFields(stored("fields.txt", "fields mouse.hex")),
    does: (page) => drop(page, sample("mouse.hex")) },
];

export const LOOKS = [...LINKS, ...POLICY, ...OLD, ...KEYS, ...NARROW, ...COLOURS, ...PRINT, ...SPOKEN, ...WORST, ...LONG];
export { choose };
