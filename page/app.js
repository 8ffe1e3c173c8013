// The page: what is given is read by the program as it changes, and all that is seen is what that writes.
import { Comparer } from "./compare.js";
import { Converter } from "./convert.js";
import { showCodes } from "./codes.js";
import { cutBlocks, sayCut } from "./cut.js";
import { Editor } from "./edit.js";
import { byId, copy, make, settled, shown } from "./elements.js";
import { showFindings } from "./findings.js";
import { Inputs, inputOfText, readFiles } from "./inputs.js";
import { LinedText, lineIn, saidBy } from "./lined.js";
import { linkTo, linked } from "./link.js";
import { Live } from "./live.js";
import { Program } from "./program.js";
import { beginTabs, isOpen } from "./tabs.js";
import { View, blocksOf } from "./view.js";

const program = new Program();
const inputs = new Inputs();
const box = new LinedText("given");
const view = new View();
const editor = new Editor(program, () => show());
const comparer = new Comparer(program, () => showTools());
const converter = new Converter(program, () => readings?.current ?? null);

// What is read: what was given, and what it was edited to, where it was.
let readings = null;
// Which device of several is meant, which round of showing this is, where an older one ends, and whether
// all is shown of what is long.
let device = "";
let round = 0;
let showsAll = false;

/** How descriptors are read: as Linux does, unless the standard's letter is chosen. */
function readAs() {
  return byId("standard").checked ? ["--as", "standard"] : [];
}

function optionsOf() {
  return device === "" ? readAs() : ["--device", device, ...readAs()];
}

/** What the program is given: a path, the options for it, and the files. */
function readingOfInputs() {
  return { path: inputs.pathOf(inputs.descriptor), options: optionsOf(), files: inputs.files };
}

/** A descriptor in hexadecimal digits in another folder, under the name and beside the files of a reading. */
function readingOfHex(folder, hex, { path: before, files }) {
  const path = `./${folder}/${before.split("/").at(-1)}`;
  return { path, options: readAs(), files: [...files, [path, hex]] };
}

function pageOf(reading, reports = []) {
  return program.text(["page", "--verbose", ...reading.options, reading.path, ...reports], reading.files);
}

/** The page of a reading with reports; where these are refused, that is said, and it is shown without. */
async function pageWith(reading, reports) {
  const answer = await pageOf(reading, reports);
  if (answer.text !== "" || answer.status === null || reports.length === 0) return answer;
  const alone = await pageOf(reading);
  return alone.text === "" ? answer : { ...alone, said: answer.said };
}

/** The number of the line that a refusal names. */
function lineRefused(answer) {
  return lineIn(saidBy(answer).at(-1));
}

/** Reads a text that has no form as one of `hid decode`: that reading, or the refusal that says more. */
async function readAsItems(reading, reports, refused) {
  const made = await program.text(["compile", "--to", "hex", reading.path], reading.files);
  if (made.status !== 0) return { answer: lineRefused(made) > lineRefused(refused) ? made : refused };
  const asItems = readingOfHex("c", made.out, reading);
  const answer = await pageWith(asItems, reports);
  return { reading: asItems, answer: { ...answer, said: "hid: read as the items of hid decode\n" } };
}

function reportPaths() {
  return inputs.find("reports").map((input) => inputs.pathOf(input));
}

/** Lists the devices of an input that has several; the first is shown. */
function chooseDevice(count) {
  const numbers = Array.from({ length: count }, (_, k) => make("option", { value: String(k) }, String(k)));
  byId("devices").replaceChildren(...numbers);
  byId("devices-label").hidden = false;
  device = "0";
}

/** The page of the first of several devices, where an answer says that there are. */
async function readFirst(reading, reports, answer) {
  const several = / holds (\d+) devices: /.exec(answer.said);
  if (several === null) return null;
  chooseDevice(Number(several[1]));
  const first = { ...reading, options: optionsOf() };
  return { reading: first, answer: { ...await pageWith(first, reports), said: answer.said } };
}

/** The page of what was given, and its reading. */
async function readGiven() {
  let reading = readingOfInputs();
  const reports = reportPaths();
  const isText = inputs.descriptor.text !== null;
  let answer = await pageWith(reading, reports);
  if (device !== "" && answer.text === "" && answer.status !== null) {
    forgetDevice();
    reading = { ...reading, options: optionsOf() };
    answer = await pageWith(reading, reports);
  }
  if (answer.text !== "" || answer.status === null) return { reading, answer };
  const first = await readFirst(reading, reports, answer);
  return first ?? (isText ? readAsItems(reading, reports, answer) : { answer });
}

function forgetDevice() {
  device = "";
  byId("devices-label").hidden = true;
}

/** The page of what was edited, with the reports that were given. */
async function readEdited(given, blocks) {
  const current = readingOfHex("e", editor.edited, given);
  const hasReports = blocks.has("samples") && JSON.parse(blocks.get("samples")).length > 0;
  const own = hasReports && device === "" && reportPaths().length === 0 ? [given.path] : reportPaths();
  return { current, answer: await pageWith(current, own) };
}

function sayOfGiven({ answer, reading }) {
  const lines = saidBy(answer).map((line) => line.replace(`${inputs.descriptor.name}: `, ""));
  box.say(lines, reading === undefined || answer.status === null);
}

async function showFound(reading, own) {
  const host = byId("host").value;
  const words = [...reading.options, ...(host === "" ? [] : ["--for", host]), reading.path];
  const asShown = byId("standard").checked ? [] : ["--as", "linux"];
  let answer = await program.objects(["check", ...asShown, ...words], reading.files);
  // What Linux refuses stands as it was given.
  if (saidBy(answer).some((line) => line.includes("Linux refuses it")))
    answer = await program.objects(["check", ...words], reading.files);
  if (own === round) showFindings(answer.objects);
}

async function showLinux(reading, own, isRefused) {
  if (!byId("codes").checked || byId("standard").checked || isRefused) return showCodes([], []);
  const words = ["fields", "--linux", ...reading.options, reading.path];
  const answer = await program.objects(words, reading.files);
  const said = saidBy(answer).filter((line) => !/: (read as|[0-9]+ (transfer|report|items?))/.test(line));
  if (own === round) showCodes(answer.objects, said);
}

/** Fills the tools that are open. */
async function showTools() {
  const { given, current } = readings ?? { given: null, current: null };
  if (isOpen("edit") && given !== null) await editor.show(given);
  if (isOpen("convert")) await converter.show(current);
  if (isOpen("compare")) await comparer.show(given, current);
}

/** Shows nothing but the last that could be read, in pale, or nothing at all. */
function showStale() {
  byId("view").classList.toggle("is-stale", !byId("view").hidden);
  return showTools();
}

function clear() {
  readings = null;
  view.clear();
  sayCut({});
  showFindings([]);
  box.say([], false);
  editor.clear();
  return showTools();
}

/** Shows the blocks of a page, all of them or as many as are quick to show. */
function showView(blocks, pin) {
  const { blocks: cut, left } = showsAll ? { blocks, left: {} } : cutBlocks(blocks);
  view.show(cut, pin);
  sayCut(left, () => {
    showsAll = true;
    show();
  });
}

/** Reads what is given and shows it; `pin` is a part that is brought into sight. */
async function show(pin = "") {
  round += 1;
  const own = round;
  byId("view").ariaBusy = "true";
  await showRound(own, pin);
  if (own === round) byId("view").ariaBusy = "false";
}

/** The round of this number, which ends where a later one has begun. */
async function showRound(own, pin) {
  if (inputs.isEmpty) return clear();
  const found = await readGiven();
  if (own !== round) return undefined;
  sayOfGiven(found);
  if (found.reading === undefined || found.answer.text === "") return showStale();
  let { reading: current, answer } = found;
  if (editor.edited !== null) ({ current, answer } = await readEdited(found.reading, blocksOf(answer.text)));
  if (own !== round) return undefined;
  if (answer.text === "") return showStale();
  readings = { given: found.reading, current };
  byId("view").classList.remove("is-stale");
  const blocks = blocksOf(answer.text);
  showView(blocks, pin);
  await showFound(current, own);
  if (own === round) await showLinux(current, own, JSON.parse(blocks.get("device")).length > 1);
  return own === round ? showTools() : undefined;
}

/** What inputs beside the first are: a descriptor is compared, anything else has reports. */
async function findRoles() {
  for (const input of inputs.all.filter((it) => it.role === "")) {
    const answer = await program.run(["fields", inputs.pathOf(input)], inputs.files);
    inputs.assign(input, answer.out.length > 0 && inputs.find("other").length === 0 ? "other" : "reports");
  }
}

/** Takes what was given in place of what is there. */
async function take(list, pin = "") {
  forgetDevice();
  showsAll = false;
  editor.forget();
  inputs.set(list);
  box.text = inputs.descriptor?.text ?? "";
  await findRoles();
  comparer.take(inputs.find("other")[0]);
  listInputs();
  return show(pin);
}

function listInputs() {
  inputs.list(() => {
    comparer.take(inputs.find("other")[0]);
    listInputs();
    box.text = inputs.descriptor.text ?? "";
    editor.forget();
    show();
  });
}

async function takeFiles(files) {
  const { inputs: list, tooLarge } = await readFiles(files);
  byId("busy").textContent = tooLarge.length === 0 ? ""
    : shown(`Not read, being past 64 MiB: ${tooLarge.join(", ")}`);
  if (list.length > 0) await take(list);
}

function takeTyped() {
  editor.forget();
  inputs.type(inputOfText(box.text));
  if (location.hash !== "") history.replaceState(null, "", location.pathname + location.search);
  listInputs();
  return show();
}

function takeLink() {
  const link = linked();
  if (link !== null) take([link.input], link.pin);
}

/** Takes the files of a drop or a paste, or its text where no box takes that. */
function takeTransfer(event) {
  const transfer = event.dataTransfer ?? event.clipboardData;
  const files = Array.from(transfer.files);
  const text = event.target.closest?.("textarea, input") ? "" : transfer.getData("text/plain");
  if (files.length === 0 && text === "") return;
  event.preventDefault();
  if (files.length > 0) takeFiles(files);
  else take([inputOfText(text)]);
}

function beginGiving() {
  box.box.addEventListener("input", settled(takeTyped));
  byId("files").addEventListener("change", ({ target }) => takeFiles(Array.from(target.files)));
  document.addEventListener("dragover", (event) => event.preventDefault());
  for (const kind of ["drop", "paste"]) document.addEventListener(kind, takeTransfer);
  byId("clear").addEventListener("click", () => {
    comparer.clear();
    take([]);
  });
  window.addEventListener("hashchange", takeLink);
}

function beginSamples() {
  for (const sample of document.querySelectorAll("[data-sample]")) {
    byId("sample").append(make("option", { value: sample.id }, sample.dataset.sample));
  }
  byId("sample").addEventListener("change", ({ target }) => {
    const sample = byId(target.value);
    if (sample !== null) take([inputOfText(sample.textContent, sample.dataset.sample)]);
    target.value = "";
  });
}

async function copyLink({ target }) {
  if (readings === null) return;
  const { options, path, files } = readings.current;
  const { out } = await program.run(["convert", "--to", "bytes", ...options, path], files);
  await copy(target, linkTo(out, inputs.descriptor.name, view.pinned));
}

function beginOptions() {
  for (const id of ["codes", "host", "standard"]) byId(id).addEventListener("change", () => show());
  byId("devices").addEventListener("change", ({ target }) => {
    device = target.value;
    editor.forget();
    show();
  });
  byId("copy-link").addEventListener("click", copyLink);
  for (const name of ["edit", "convert", "compare"]) byId(name).addEventListener("opened", showTools);
}

program.ready().catch((fault) => {
  byId("busy").textContent = shown(`This browser can't run the program: ${fault.message}`);
});
new Live(program, (input) => take([input]));
beginTabs();
beginGiving();
beginSamples();
beginOptions();
if (linked() !== null) takeLink();
else if (box.text !== "") takeTyped();
