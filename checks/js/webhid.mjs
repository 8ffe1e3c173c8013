// A device of WebHID by js/, for each descriptor of compare/devices.txt: its collections are what
// `hid convert --to webhid` writes, which a model of Chromium checks (compare/webhid.py). The descriptor
// that js/ makes of them has the same collections again, and announces the fields of the one before; an
// event's values are those that the one before has in these bytes.
//   webhid.mjs JS [EVERY]    JS is the folder of the package; of the devices each so many-th, or all
import fs from "node:fs";
import path from "node:path";
import zlib from "node:zlib";
import { pathToFileURL } from "node:url";

const TOP = new URL("../../", import.meta.url);
const js = pathToFileURL(`${path.resolve(process.argv[2])}/`);
const { HOSTS, HidDevice, Kind, ReportDescriptor, descriptorOf } = await import(new URL("index.js", js));
const { run } = await import(new URL("src/host.js", js));
const { MemoryFiles } = await import(new URL("src/memory_files.js", js));
const packed = fs.readFileSync(new URL("generated/wasm/hid.wasm.gz", TOP));
const module = new WebAssembly.Module(zlib.gunzipSync(packed));
const every = Number(process.argv[3] ?? 1);
const OPTIONS = { ...HOSTS, limit: null };

/** Of these WebHID tells other fields, or not all. */
const TOLD_OTHERWISE = {
  PrimaxKeyboard: "a usage page behind the usages: Chromium takes the one before",
  "hid-holtek-kbd.holtek_kbd_rdesc_fixed": "the same",
  chromium_JabraLink380c: "the same",
  Trs_star_238f_0001: "a collection of two usages: the first is told",
  "Microsoft__Xbox-Elite-2.bpf.rdesc_assign_selection": "no collection, so nothing is told",
  "hid-winwing.original_rdesc_buttons": "the same",
  hidapi_045e_02ff_0005_0001: "a reserved system of units: which is not told",
  CollectionOverflow: "collections that stay open",
};

/** The descriptors of devices, by their names. */
function devices() {
  const lines = fs.readFileSync(new URL("compare/devices.txt", TOP), "utf8").split("\n");
  return lines.filter((line) => /^[^#].*: [0-9a-f]+/.test(line)).map((line) => {
    const [name, digits] = line.split(": ");
    return [name, Buffer.from(digits, "hex")];
  });
}

/** WebHID's collections of a descriptor; null where it is refused. */
function collectionsOf(bytes) {
  const system = new MemoryFiles([["./d", bytes]]);
  const words = ["hid", "convert", "--form", "bytes", "--to", "webhid", "./d"];
  if (run(module, words, system) !== 0) return null;
  return JSON.parse(new TextDecoder().decode(system.output(1)));
}

/** A power of ten, whose four bits have a sign. */
const powerOf = (number) => (number > 7 && number < 16 ? number - 16 : number);

/** What WebHID can tell of a field: no more is compared. */
function toldOf(field) {
  const { kind, bits, valueCount, logicalMinimum, logicalMaximum, reportId, flags } = field;
  if (kind === Kind.CONSTANT) return { kind, bits, reportId };
  return { kind, bits, reportId, valueCount, logicalMinimum, logicalMaximum, flags,
    usages: field.usages.map(Number), physical: [field.physicalMinimum ?? 0, field.physicalMaximum ?? 0],
    unit: [field.unit ?? 0, powerOf(field.unitExponent ?? 0)],
    collections: field.collections.map(({ kind: own, usages }) => [own, usages.map(Number)]) };
}

/** The reports of a descriptor, each direction's by their ids. */
function reportsOf(descriptor) {
  const all = [descriptor.inputReports, descriptor.outputReports, descriptor.featureReports];
  return all.map((reports) => reports.toSorted((one, other) => one.reportId - other.reportId)
    .map(({ fields, sizeInBits, reportId }) => [reportId, sizeInBits, fields.map(toldOf)]));
}

/** The bytes of a report, which look like chance but are the same each time. */
function bytesFor(report) {
  let state = 1 + report.sizeInBits;
  const bytes = report.blank().map(() => {
    state = (state * 1103515245 + 12345) % 0x80000000;
    return state >> 16;
  });
  if (report.reportId !== undefined) bytes[0] = report.reportId;
  return bytes;
}

/** What the descriptor before has in a report: usages and their values, of an array those that are held. */
function valuesIn(report, bytes) {
  const isRead = ({ kind, bits: { start, end } }) => kind !== Kind.CONSTANT
    && (kind === Kind.ARRAY || end - start <= 32);
  return report.fields.filter(isRead).flatMap((field) => {
    const values = field.extract(bytes);
    if (field.kind === Kind.VARIABLE) return [[Number(field.usage), values[0]]];
    const held = values.map((value) => field.usageOf(value)).filter((it) => it !== undefined && it.id !== 0);
    return held.map((usage) => [Number(usage), 1]);
  });
}

/** An event of WebHID, which has the id apart. */
function eventOf(report, bytes) {
  const data = report.reportId === undefined ? bytes : bytes.slice(1);
  return { reportId: report.reportId ?? 0, data: new DataView(data.buffer) };
}

const counts = { alike: 0, otherwise: 0, refused: 0, events: 0 };
const faults = [];

function same(about, wanted, seen) {
  const texts = [JSON.stringify(wanted), JSON.stringify(seen)];
  if (texts[0] === texts[1]) return true;
  const at = Array.from(texts[0]).findIndex((letter, k) => letter !== texts[1][k]);
  faults.push(`${about}: ${texts.map((text) => text.slice(Math.max(at - 60, 0), at + 60)).join(" | ")}`);
  return false;
}

/** Looks at a device that WebHID tells as its descriptor has it. */
function lookAt(name, bytes, collections) {
  const wanted = ReportDescriptor.from(bytes, OPTIONS);
  const device = HidDevice.from({ collections }, OPTIONS);
  if (!same(name, reportsOf(wanted), reportsOf(device.descriptor))) return;
  counts.alike += 1;
  for (const report of wanted.inputReports) {
    const sent = bytesFor(report);
    const values = device.values(eventOf(report, sent)).map(({ usage, value }) => [Number(usage), value]);
    if (same(`${name}: values`, valuesIn(report, sent), values)) counts.events += 1;
  }
}

for (const [name, bytes] of devices().filter((_, k) => k % every === 0)) {
  const collections = collectionsOf(bytes);
  if (collections === null) {
    counts.refused += 1;
    continue;
  }
  if (collections.length > 0) same(`${name}: again`, collections, collectionsOf(descriptorOf(collections)));
  if (name in TOLD_OTHERWISE) counts.otherwise += 1;
  else lookAt(name, bytes, collections);
}
for (const fault of faults.slice(0, 10)) console.log(`js: webhid: ${fault}`);
if (faults.length === 0) {
  console.log(`js: webhid: ${counts.alike} devices have their fields, ${counts.otherwise} others are told`
    + ` otherwise, ${counts.refused} are refused; the values of ${counts.events} events`);
}
process.exitCode = faults.length === 0 ? 0 : 1;
