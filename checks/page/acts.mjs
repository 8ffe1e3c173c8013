// What is done in the page, what is then seen, and what is wanted: each row is one act. What is wanted
// comes from the stored runs of `hid` (stored.mjs), or stands here by hand.
import { asFields, asItems, made, sample, stored, textOf } from "./stored.mjs";
import { BITS, CODES, FIELDS, FOUND, FOUND_AT, HAS_VIEW, ITEMS, PIN, RESTS, VALUES, content, marked, said, value }
  from "./seen.mjs";

const MOUSE = asItems(stored("decode.txt", "decode mouse.hex"));
const NAME = "\"><img src=x onerror=alert(1)><b>&amp;</script>.hex";
const RECORDING = `R: 10 05 01 09 30 75 08 95 01 81 06
N: <img src=x onerror=alert(1)>\u202e
I: 3 1 2
E: 1.5 1 07
`;
const open = (name) => (page) => page.click(`#tab-${name}`);

/** Types a text in place of what is in a box. */
async function type(page, box, text) {
  await page.into(`#${box}-text`);
  await page.type(text);
}

/** Chooses a word of a list, or ticks a box, as a person's choice tells it. */
function choose(page, id, chosen) {
  return page.find(`(() => {
    const made = document.getElementById(${JSON.stringify(id)});
    if (made.type === "checkbox") made.checked = ${JSON.stringify(chosen)};
    else made.value = ${JSON.stringify(chosen)};
    made.dispatchEvent(new Event("change", { bubbles: true }));
  })()`);
}

function drop(page, ...files) {
  return page.give("drop", files);
}

/** The words of the mouse's items, indented as `hid decode` indents them, some of them changed. */
function words(...changes) {
  const lines = stored("decode.txt", "decode mouse.hex").map((line) => line.slice(23));
  return `${changes.reduce((text, [from, to]) => text.replace(from, to), lines.join("\n"))}\n`;
}

const WHEEL = ["Usage (Y)", "Usage (Wheel)"];
const NO_WORD = ["Usage (Y)", "Usage (Yy)"];
const FOUR = [["Button 3", "Button 4"], ["Report Count (3)", "Report Count (4)"], ["Size (5)", "Size (4)"]];

const GIVING = [
  { act: "bytes are typed as hex", does: (page) => type(page, "given", textOf("mouse.hex")),
    sees: ITEMS, wanted: MOUSE },
  { act: "a file of hex is dropped", does: (page) => drop(page, sample("keyboard.hex")),
    sees: FIELDS, wanted: asFields(stored("fields.txt", "fields keyboard.hex")) },
  { act: "a file of bytes is dropped", does: (page) => drop(page, sample("axis.bytes")),
    sees: ITEMS, wanted: asItems(stored("decode.txt", "decode axis.bytes")) },
  { act: "a file is pasted", does: (page) => page.give("paste", [sample("touchpad.hex")]),
    sees: FIELDS, wanted: asFields(stored("fields.txt", "fields touchpad.hex")) },
  { act: "a capture is dropped", does: (page) => drop(page, sample("mouse.pcap")),
    sees: FIELDS, wanted: asFields(stored("captures.txt", "fields mouse.pcap")) },
  { act: "a capture says what it is", does: (page) => drop(page, sample("mouse.pcap")),
    sees: said("given"), wanted: ["read as a capture of USB traffic"] },
  { act: "C is typed",
    does: (page) => type(page, "given", stored("writing.txt", "convert --to c mouse.hex").join("\n")),
    sees: ITEMS, wanted: MOUSE },
  { act: "the text of hid decode is typed",
    does: (page) => type(page, "given", stored("decode.txt", "decode mouse.hex").join("\n")),
    sees: ITEMS, wanted: MOUSE },
  { act: "an empty file is said", does: (page) => drop(page, made("none", "")),
    sees: "document.querySelector('.refusal').textContent",
    wanted: "Refused at offset 0: Linux refuses it: no item" },
  { act: "a text is pasted beside the box", does: (page) => page.give("paste", textOf("mouse.hex")),
    sees: ITEMS, wanted: MOUSE },
  { act: "a sample is chosen", does: (page) => choose(page, "sample", "sample-gamepad"),
    sees: FIELDS, wanted: asFields(stored("fields.txt", "fields gamepad.hex")) },
  { act: "a wrong line is typed", does: (page) => type(page, "given", "05 01\n09 30\n09 zz\n81 02\n"),
    sees: said("given"), wanted: ["line 3: zz isn't bytes in hexadecimal digits"] },
  { act: "the wrong line is marked", does: (page) => type(page, "given", "05 01\n09 30\n09 zz\n81 02\n"),
    sees: marked("given"), wanted: 3 },
  { act: "the marked line is gone to", sees: "document.getSelection().toString()", wanted: "09 zz",
    async does(page) {
      await type(page, "given", "05 01\n09 30\n09 zz\n81 02\n");
      await page.until("document.querySelector('#given-said button')");
      await page.click("#given-said button");
    } },
  { act: "a text of no form is typed", does: (page) => type(page, "given", "hello\nworld\n"),
    sees: said("given"),
    wanted: ["line 1: like no form (as bytes: --form or --report-form bytes): hello"] },
  { act: "what was typed is cleared", sees: HAS_VIEW, wanted: false,
    async does(page) {
      await type(page, "given", textOf("mouse.hex"));
      await page.until(HAS_VIEW);
      await page.click("#clear");
    } },
];

const SEVERAL = [
  { act: "a descriptor and a report are dropped",
    does: (page) => drop(page, sample("mouse.hex"), sample("mouse.report")),
    sees: VALUES, wanted: ["1", "0", "0", "", "5", "-5"] },
  { act: "reports that are none are said",
    does: (page) => drop(page, sample("mouse.hex"), made("r", "hello\n")),
    sees: `${said("given")}.at(-1)`,
    wanted: "r: line 1: like no form (as bytes: --form or --report-form bytes): hello" },
  { act: "the descriptor is shown without them",
    does: (page) => drop(page, sample("mouse.hex"), made("r", "hello\n")),
    sees: ITEMS, wanted: MOUSE },
  { act: "so is the first of two devices",
    does: (page) => drop(page, sample("two_devices.recording"), made("r", "hello\n")),
    sees: content("view-name"), wanted: "a mouse" },
  { act: "a recording is dropped", does: (page) => drop(page, sample("mouse.recording")),
    sees: VALUES, wanted: ["1", "0", "0", "", "5", "-5"] },
  { act: "a recording's bits stand in the map", does: (page) => drop(page, sample("mouse.recording")),
    sees: BITS, wanted: ["00000", "0", "0", "1", "00000101", "11111011"] },
  { act: "the recording's last report is gone to", sees: VALUES, wanted: ["0", "0", "0", "", "0", "0"],
    async does(page) {
      await drop(page, sample("mouse.recording"));
      await page.until("document.querySelector('#view input[type=range]')");
      await page.find("document.querySelector('#view input[type=range]').focus()");
      await page.press("End");
    } },
  { act: "two devices are dropped: the first",
    does: (page) => drop(page, sample("two_devices.recording")),
    sees: content("view-name"), wanted: "a mouse" },
  { act: "two devices are dropped: the second", sees: content("view-name"), wanted: "its media keys",
    async does(page) {
      await drop(page, sample("two_devices.recording"));
      await page.until(`${content("view-name")} === "a mouse"`);
      await choose(page, "devices", "1");
    } },
  { act: "two descriptors are dropped and compared",
    sees: `${content("compare-lines")}.trimEnd().split("\\n")`,
    wanted: stored("pictures.txt", "diff mouse.hex mouse_of_four.hex"),
    async does(page) {
      await drop(page, sample("mouse.hex"), sample("mouse_of_four.hex"));
      await open("compare")(page);
    } },
  { act: "the second of them becomes the descriptor", sees: FIELDS,
    wanted: asFields(stored("fields.txt", "fields mouse.hex")),
    async does(page) {
      await drop(page, sample("keyboard.hex"), sample("mouse.hex"));
      await page.until("document.querySelectorAll('#inputs select').length === 2");
      await page.find(`(() => {
        const role = document.querySelectorAll('#inputs select')[1];
        role.value = 'descriptor';
        role.dispatchEvent(new Event('change'));
      })()`);
    } },
];

const FINDING = [
  { act: "what is odd is listed", does: (page) => drop(page, sample("odd.hex")), sees: FOUND,
    wanted: stored("pictures.txt", "check odd.hex").map((line) => line.trim()) },
  { act: "what is odd stands at its items", does: (page) => drop(page, sample("odd.hex")),
    sees: FOUND_AT,
    wanted: stored("pictures.txt", "check odd.hex").map((line) => line.trim().replace(/^(\d+): /, "item-$1 ")) },
  { act: "of no item, it stands in the list alone", does: (page) => drop(page, sample("odder.hex")),
    sees: FOUND,
    wanted: stored("pictures.txt", "check odder.hex").map((line) => line.trim()) },
  { act: "a finding's button goes to its item", sees: "document.activeElement.id", wanted: "item-12",
    async does(page) {
      await drop(page, sample("odd.hex"));
      await page.until("document.querySelectorAll('#findings button').length === 4");
      await page.click("#findings li:nth-child(2) button");
    } },
  { act: "what Linux gives", does: (page) => drop(page, sample("wheel.hex")), sees: CODES,
    wanted: ["8..9 BTN_LEFT", "9..10 BTN_RIGHT", "10..11 BTN_MIDDLE", "11..16 ", "16..24 REL_X", "24..32 REL_Y",
      "32..40 REL_WHEEL_HI_RES REL_WHEEL"] },
  { act: "Linux's codes are hidden", sees: `${CODES}.join("")`,
    wanted: "8..9 9..10 10..11 11..16 16..24 24..32 32..40 ",
    async does(page) {
      await drop(page, sample("wheel.hex"));
      await page.until("document.querySelector('.code')");
      await choose(page, "codes", false);
    } },
  { act: "another driver is named", does: (page) => drop(page, sample("touchpad.hex")),
    sees: content("codes-said"),
    wanted: "hid-multitouch takes such a device: its ids, and the contacts it says it has, may change the codes" },
  { act: "a refused descriptor says where", does: (page) => drop(page, sample("odd.hex")),
    sees: "document.querySelector('.refusal').textContent",
    wanted: "Refused at offset 21: Linux refuses it: a report id that is none" },
  { act: "it is mended, as Linux reads it", does: (page) => drop(page, sample("no_usage.hex")), sees: FIELDS,
    wanted: asFields(stored("fields.txt", "fields no_usage.hex")) },
  { act: "the standard's letter refuses it", sees: "document.querySelector('.refusal').textContent",
    wanted: "Refused at offset 10: Missing Usages for main item",
    async does(page) {
      await drop(page, sample("no_usage.hex"));
      await page.until(`${FIELDS}.length === 1`);
      await choose(page, "standard", true);
    } },
];

/** Drops the mouse, and opens a tab once it is shown. */
async function mouse(page, tab) {
  await drop(page, sample("mouse.hex"));
  await page.until(`${ITEMS}.length === 26`);
  await open(tab)(page);
}

/** The same, and types its items with some changed. */
async function edit(page, ...changes) {
  await mouse(page, "edit");
  await page.until(`${value("edit-text")} !== ""`);
  await type(page, "edit", words(...changes));
}

const EDITING = [
  { act: "the words of the items are shown", does: (page) => mouse(page, "edit"),
    sees: value("edit-text"), wanted: words() },
  { act: "words are changed", does: (page) => edit(page, WHEEL), sees: ITEMS,
    wanted: MOUSE.map((line) => line.replace("36 09 31 Usage (Y)", "36 09 38 Usage (Wheel)")) },
  { act: "a wrong word is said", does: (page) => edit(page, NO_WORD), sees: said("edit"),
    wanted: ["line 19: 'Usage (Yy)' is no item; the nearest is Usage (Y)"] },
  { act: "its line is marked", does: (page) => edit(page, NO_WORD), sees: marked("edit"), wanted: 19 },
  { act: "a wrong text stays while something else is chosen",
    sees: `${value("edit-text")}.includes("(Yy)")`, wanted: true,
    async does(page) {
      await edit(page, NO_WORD);
      await page.until(`${said("edit")}.length === 1`);
      await choose(page, "codes", false);
      await page.until(RESTS);
    } },
  { act: "what is pinned stays pinned as the words are changed", sees: `[${PIN}, ${ITEMS}[18]]`,
    wanted: [["item-24"], "36 09 38 Usage (Wheel)"],
    async does(page) {
      await mouse(page, "given");
      await page.click("#item-24");
      await open("edit")(page);
      await page.until(`${value("edit-text")} !== ""`);
      await type(page, "edit", words(WHEEL));
    } },
  { act: "what was given is taken back", sees: ITEMS, wanted: MOUSE,
    async does(page) {
      await edit(page, WHEEL);
      await page.until(`${ITEMS}.some((it) => it.endsWith("(Wheel)"))`);
      await page.click("#edit-back");
    } },
  { act: "what was edited is compared", sees: `${content("compare-lines")}.trimEnd().split("\\n")`,
    wanted: stored("pictures.txt", "diff mouse.hex mouse_of_four.hex"),
    async does(page) {
      await edit(page, ...FOUR);
      await page.until(`${FIELDS}.some((it) => it.includes("Button 4"))`);
      await open("compare")(page);
    } },
  { act: "a refused descriptor is edited until it is read", wanted: [null, ["10 09 30 Usage (X)"]],
    sees: `[document.querySelector(".refusal"), ${ITEMS}.filter((it) => it.includes("(X)"))]`,
    async does(page) {
      const lines = stored("decode.txt", "decode no_usage.hex");
      await choose(page, "standard", true);
      await drop(page, sample("no_usage.hex"));
      await page.until("document.querySelector('.refusal')");
      await open("edit")(page);
      await page.until(`${value("edit-text")} === ${JSON.stringify(`${lines.join("\n")}\n`)}`);
      await type(page, "edit", lines.flatMap((it) => (it.includes("81 02") ? ["Usage (X)", it] : [it])).join("\n"));
    } },
  { act: "longer items keep their bytes", sees: `${value("edit-text")}.split("\\n")[1]`,
    wanted: "27 ff 00 00 00  Logical Maximum (255)",
    async does(page) {
      await type(page, "given", "05 01 27 ff 00 00 00 09 30 75 08 95 01 81 02");
      await page.until(HAS_VIEW);
      await open("edit")(page);
    } },
];

const CONVERTING = [
  ["hex", "writing.txt", "convert --to hex mouse.hex"], ["c", "writing.txt", "convert --to c mouse.hex"],
  ["recording", "writing.txt", "convert --to recording mouse.hex"],
].map(([form, file, command]) => ({
  act: `converted to ${form}`, sees: `${value("convert-text")}.trimEnd().split("\\n")`,
    wanted: stored(file, command),
  async does(page) {
    await mouse(page, "convert");
    await choose(page, "form", form);
  },
})).concat([
  { act: "a form is copied, and pasted", sees: `${value("compare-text")}.trimEnd().split("\\n")`,
    wanted: stored("writing.txt", "convert --to hex mouse.hex"),
    async does(page) {
      await mouse(page, "convert");
      await choose(page, "form", "hex");
      await page.until(`${value("convert-text")}.startsWith("05 01")`);
      await page.click("#convert-copy");
      await page.until(`${content("convert-copy")} === "Copied"`);
      await open("compare")(page);
      await page.into("#compare-text");
      await page.press("v", 2, ["paste"]);
    } },
  { act: "a page to share is written", wanted: ["<!DOCTYPE html>", "<h1>mouse.hex</h1>"],
    sees: `${value("convert-text")}.split("\\n").filter((it) => /^<!DOCTYPE|^<h1>/.test(it))`,
    async does(page) {
      await mouse(page, "convert");
      await choose(page, "form", "page");
    } },
  { act: "the same is told", sees: said("compare"), wanted: ["The other announces the same reports."],
    async does(page) {
      await mouse(page, "compare");
      await type(page, "compare", textOf("mouse.hex"));
    } },
]);

const HOSTILE = [
  { act: "a name that is markup is text", does: (page) => drop(page, made(NAME, textOf("mouse.hex"))),
    sees: `[${content("view-name")}, document.querySelectorAll("#view img, #inputs img").length]`,
    wanted: [NAME.replace("/", "_"), 0] },
  { act: "so is a recording's name", sees: content("view-name"),
    wanted: "<img src=x onerror=alert(1)>\\u{202e}",
    does: (page) => drop(page, made("r", RECORDING)) },
  { act: "so is a refused line",
    sees: `[${said("given")}.join("").includes("<img"), document.images.length]`, wanted: [true, 0],
    does: (page) => type(page, "given", "05 01\n<img src=x onerror=alert(1)>\n") },
  { act: "a name that is an option is a name",
    does: (page) => drop(page, made("--help", textOf("mouse.hex"))),
    sees: content("view-name"), wanted: "--help" },
];

/** Connects the device that `navigator.hid` has here, and lets it send reports. */
async function connect(page, ...sent) {
  await open("device")(page);
  await page.click("#connect");
  await page.until(HAS_VIEW);
  for (const bytes of sent) await page.find(`navigator.hid.send(${JSON.stringify(bytes)})`);
}

const DEVICE = [
  { act: "a device is connected", does: (page) => connect(page), sees: FIELDS,
    wanted: asFields(stored("fields.txt", "fields mouse.hex")) },
  { act: "its values are shown as they come", does: (page) => connect(page, [0, 0, 0], [1, 5, 0xfb]),
    sees: `${content("live")}.trimEnd().split("\\n")`,
    wanted: ["Input report", "  Button / Button 1: 1 (0 to 1)", "  Button / Button 2: 0 (0 to 1)",
      "  Button / Button 3: 0 (0 to 1)", "  Generic Desktop / X: 5 (-127 to 127)",
      "  Generic Desktop / Y: -5 (-127 to 127)"] },
  { act: "its reports become a recording",
    sees: `[${content("view-name")}, ...${VALUES}, navigator.hid.isOpen]`,
    wanted: ["A mouse <b>", "1", "0", "0", "", "5", "-5", false],
    async does(page) {
      await connect(page, [1, 5, 0xfb], [0, 0, 0]);
      await page.until(`${content("device-said")} === "2 reports came."`);
      await page.click("#stop");
    } },
];

export const ACTS = [...GIVING, ...SEVERAL, ...FINDING, ...EDITING, ...CONVERTING, ...HOSTILE, ...DEVICE];
export { MOUSE, PIN, choose, drop, mouse, open, type };
