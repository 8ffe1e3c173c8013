// The questions that C, Rust and Python are asked, too, and the classes above them. Expected values are
// those of c/cases.txt, and of the standard worked by hand.
import assert from "node:assert/strict";
import { readFileSync } from "node:fs";
import { test } from "node:test";

import * as hid from "../index.js";
import { imports } from "../src/host.js";
import { answers, bytesIn } from "./cases.js";

const QUESTIONS = 719;
const MOUSE = bytesIn("05010902a1010901a1000509190129031500250195037501810295017505810105010930"
  + "093115 81257f750895028106c0c0");

test("all questions", () => {
  const lines = readFileSync(new URL("../../c/cases.txt", import.meta.url), "utf8").replace(/\n$/, "").split("\n");
  const questions = lines.filter((line) => !line.startsWith("  "));
  assert.equal(questions.filter((line) => /^[a-z]/.test(line)).length, QUESTIONS);
  const got = answers(questions);
  lines.forEach((line, k) => assert.equal(got[k], line));
  assert.equal(got.length, lines.length);
});

test("another answer is noticed", () => {
  assert.notEqual(answers(["usage-name 00010030"]).at(-1), "  Y");
});

test("fields", () => {
  const device = hid.ReportDescriptor.from(MOUSE);
  const [report] = device.inputReports;
  assert.deepEqual([device.outputReports, device.featureReports], [[], []]);
  assert.deepEqual([report.reportId, report.sizeInBits, report.sizeInBytes], [undefined, 24, 3]);
  const x = report.fieldFor(new hid.Usage(1, 0x30));
  assert.deepEqual([x.id, x.bits, x.kind, x.isSigned],
    [4, { start: 8, end: 16 }, hid.Kind.VARIABLE, true]);
  assert.deepEqual([x.logicalMinimum, x.logicalMaximum, x.unit, x.physicalMinimum],
    [-127, 127, undefined, undefined]);
  assert.deepEqual([x.flags.isRelative, x.flags.wraps], [true, false]);
  assert.deepEqual(x.collections.map((it) => [it.kindName, it.usages[0].name]),
    [["Application", "Mouse"], ["Physical", "Pointer"]]);
  assert.equal(report.fields[3].kind, hid.Kind.CONSTANT);
  assert.deepEqual([report.fields[3].usages, report.fields[3].collections], [[], []]);
  const [twice] = hid.ReportDescriptor.from(bytesIn("0501 0930 0930 7508 9502 8102")).inputReports;
  assert.equal(twice.fieldFor(new hid.Usage(1, 0x30)).id, 0);
  assert.equal(new hid.Usage(9, 0x30).equals(new hid.Usage(1, 0x30)), false);
  const volatile = bytesIn("0501 0930 7508 9501 67000000f0 9182");
  const [{ flags, unit }] = hid.ReportDescriptor.from(volatile).outputReports[0].fields;
  assert.deepEqual([flags.isVolatile, flags.isBufferedBytes, unit], [true, false, 0xf0000000]);
});

test("values", () => {
  const [report] = hid.ReportDescriptor.from(MOUSE).inputReports;
  const data = bytesIn("0505fb");
  assert.deepEqual(report.read(data), [1, 0, 1, 5, -5]);
  assert.deepEqual(report.values(data).map(([field, values]) => [field.id, values]),
    [[0, [1]], [1, [0]], [2, [1]], [4, [5]], [5, [-5]]]);
  assert.deepEqual(report.readAvailable(data.slice(0, 2)), [1, 0, 1, 5]);
  assert.throws(() => report.read(data.slice(0, 2)), hid.OutOfBounds);
  assert.throws(() => report.fields[4].extractOne(data, 1), hid.OutOfBounds);
  report.fields[4].insertOne(data, -128);
  assert.deepEqual(data, bytesIn("0580fb"));
  for (const value of [128, -129, 2n ** 63n, -(2n ** 80n)]) {
    assert.throws(() => report.fields[4].insertOne(data, value), hid.DoesNotFit);
  }
  assert.throws(() => report.write(data, [0, 0, 0, 0]), hid.WrongCount);
  assert.deepEqual(data, bytesIn("0580fb"));
  report.write(data, [0, 1, 0, 1, -1]);
  assert.deepEqual([data, report.blank()], [bytesIn("0201ff"), bytesIn("000000")]);
  assert.throws(() => report.write([2, 1, 255], [0, 0, 0, 0, 0]), TypeError);
  assert.throws(() => report.fields[4].insertOne([2, 1, 255], 1), TypeError);
  assert.throws(() => report.fields[4].insert([2, 1, 255], [1]), TypeError);
  const { numerator, denominator } = report.fields[4].normalized(127);
  assert.equal(numerator, denominator);
});

test("ids and arrays", () => {
  const device = hid.ReportDescriptor.from(bytesIn("0501 7508 9501 8505 0930 8102 8506 0931 8102"));
  assert.deepEqual(device.inputReports.map((it) => it.reportId), [5, 6]);
  assert.deepEqual(device.findInputReport([6, 42]).read([6, 42]), [42]);
  assert.equal(device.findInputReport([7, 42]), undefined);
  assert.equal(device.findInputReport([]), undefined);
  assert.equal(hid.ReportDescriptor.from(MOUSE).findInputReport([]), undefined);
  assert.throws(() => device.inputReports[1].fields[0].extract([5, 42]), hid.MismatchingReportId);
  const [field] = hid.ReportDescriptor.from(bytesIn("0507 1904 2907 1501 2504 7508 9503 8100"))
    .inputReports[0].fields;
  assert.deepEqual(field.extract([1, 4, 0]), [1, 4, 0]);
  assert.deepEqual(field.usageOf(4), new hid.Usage(7, 7));
  assert.equal(field.usageOf(0), undefined);
  assert.equal(field.valueFor(new hid.Usage(7, 4)), 1);
  assert.equal(field.valueFor(new hid.Usage(7, 8)), undefined);
  assert.equal(field.nullValue, 0);
});

test("refusals", () => {
  assert.throws(() => hid.ReportDescriptor.from([5, 1, 0xc0]),
    (error) => error instanceof hid.InvalidData && error.offset === 2
      && error.text === "Too many EndCollection");
  assert.throws(() => hid.ReportDescriptor.from(MOUSE, { limit: 1 }),
    (error) => error instanceof hid.BudgetExceeded && error.offset === 4);
  assert.throws(() => hid.ReportDescriptor.from(MOUSE, { push: 7 }), hid.UnknownOption);
  assert.throws(() => hid.items([5]), hid.InvalidData);
  assert.equal(hid.ReportDescriptor.from(MOUSE, { limit: null }).inputReports.length, 1);
});

test("items, repairs and names", () => {
  assert.deepEqual(hid.items([5, 1, 0xc0]).map((it) => [it.offset, it.name]),
    [[0, "Usage Page"], [2, "End Collection"]]);
  assert.equal(hid.items([0x81, 2])[0].flagWords, "Data,Var,Abs,NoNull");
  assert.deepEqual(hid.frontItems([5, 1, 5]).map((it) => it.offset), [0]);
  assert.deepEqual(hid.rebuild(bytesIn("060100c4")), bytesIn("0501"));
  const { bytes, changes } = hid.repair(bytesIn("750895018300000001"));
  assert.deepEqual(bytes, bytesIn("750895018301000001"));
  assert.deepEqual(changes, [{ offset: 4, stood: 5, stands: 5, reason: hid.Reason.NO_USAGE }]);
  assert.throws(() => hid.repair([0xc0]), hid.InvalidData);
  const cut = { offset: 2, stood: 1, stands: 0, reason: hid.Reason.CUT_SHORT };
  assert.deepEqual(hid.repair([5, 1, 0x26], hid.HOSTS, hid.Mends.CUT_SHORT),
    { bytes: bytesIn("0501"), changes: [cut] });
  const mouse = hid.ReportDescriptor.from(MOUSE);
  assert.equal(mouse.isAlike(hid.ReportDescriptor.from(hid.rebuild(MOUSE))), true);
  assert.equal(mouse.isAlike(hid.ReportDescriptor.from([5, 1])), false);
  assert.deepEqual(hid.Usage.byName("X"), new hid.Usage(1, 0x30));
  assert.deepEqual(hid.Usage.byName("Button 3", 9), new hid.Usage(9, 3));
  assert.equal(hid.Usage.byName("No such name"), undefined);
  assert.deepEqual([hid.pageByName("Button"), hid.pageName(9)], [9, "Button"]);
});

test("memory is given back, and refused in words", async () => {
  const { memory } = await import("../src/library.js");
  for (let k = 0; k < 10; k++) hid.ReportDescriptor.from(MOUSE);
  const before = memory();
  for (let k = 0; k < 10_000; k++) hid.ReportDescriptor.from(MOUSE);
  assert.equal(memory(), before);
  assert.throws(() => hid.ReportDescriptor.from(bytesIn("0501 0930 7508 97ffffff00 8102"), { limit: null }),
    hid.OutOfMemory);
  assert.equal(hid.ReportDescriptor.from(MOUSE).inputReports.length, 1);
});

/** An item as WebHID tells it, of a unit that is none. */
function webHidItem(members) {
  return { isAbsolute: true, isArray: false, isBufferedBytes: false, isConstant: false, isLinear: true,
    isRange: false, isVolatile: false, hasNull: false, hasPreferredState: true, wrap: false, usages: [],
    unitExponent: 0, unitSystem: "none", physicalMinimum: 0, physicalMaximum: 0, logicalMinimum: 0,
    logicalMaximum: 1, reportSize: 1, reportCount: 1, ...members };
}

test("a device of WebHID", () => {
  const buttons = webHidItem({ isRange: true, usageMinimum: 0x90001, usageMaximum: 0x90003, reportCount: 3 });
  const padding = webHidItem({ isConstant: true, reportSize: 5 });
  const wheels = webHidItem({ isAbsolute: false, usages: [0x10030, 0x10031], reportSize: 8, reportCount: 2,
    logicalMinimum: -127, logicalMaximum: 127 });
  const keys = webHidItem({ isArray: true, isRange: true, usageMinimum: 0x70000, usageMaximum: 0x70065,
    reportSize: 8, reportCount: 2, logicalMaximum: 101 });
  const reportOf = (reportId, ...items) => ({ reportId, items });
  const pointer = { usagePage: 1, usage: 1, type: 0, children: [], inputReports: [reportOf(1, buttons, padding, wheels)] };
  const mouse = { ...pointer, usage: 2, type: 1, children: [pointer] };
  const keyboard = { usagePage: 1, usage: 6, type: 1, children: [], inputReports: [reportOf(2, keys)] };
  const listeners = new Set();
  const device = hid.HidDevice.from({ collections: [mouse, keyboard], addEventListener: (type, it) => listeners.add(it),
    removeEventListener: (type, it) => listeners.delete(it) });
  const event = (reportId, ...bytes) => ({ reportId, data: new DataView(Uint8Array.from(bytes).buffer) });
  const said = (values) => values.map(({ name, value }) => [name, value]);
  assert.deepEqual(said(device.values(event(1, 1, 5, 0xfb))),
    [["Button 1", 1], ["Button 2", 0], ["Button 3", 0], ["X", 5], ["Y", -5]]);
  assert.deepEqual(said(device.values(event(2, 4, 0))), [["Keyboard A", 1]]);
  assert.deepEqual(said(device.values(event(1, 1))), [["Button 1", 1], ["Button 2", 0], ["Button 3", 0]]);
  assert.deepEqual(device.values(event(3, 1)), []);
  const kinds = device.descriptor.inputReports[0].fields[0].collections.map((it) => [it.kindName, it.usages[0].name]);
  assert.deepEqual(kinds, [["Application", "Mouse"], ["Physical", "Pointer"]]);
  const heard = [];
  const stop = device.listen((values) => heard.push(said(values)));
  for (const listener of listeners) listener(event(2, 0, 5));
  stop();
  assert.deepEqual(heard, [[["Keyboard B", 1]]]);
  assert.equal(listeners.size, 0);
  assert.throws(() => hid.descriptorOf([{ ...mouse, inputReports: [] }]), TypeError);
  // Of an exponent four bits are read, of which 8 is -8; system 15 of units is the vendors' own.
  const vendors = { unitSystem: "vendor-defined", unitExponent: -8 };
  const measured = webHidItem({ usages: [0x10030], ...vendors });
  const bytes = hid.descriptorOf([{ ...pointer, inputReports: [reportOf(0, measured)] }]);
  const [{ unit, unitExponent }] = hid.ReportDescriptor.from(bytes).inputReports[0].fields;
  assert.deepEqual([unit, unitExponent], [15, 8]);
});

test("what the program is told of", () => {
  const memory = new WebAssembly.Memory({ initial: 1 });
  const told = imports(() => memory, ["hid", "list"], { environment: {} });
  // A word's length where there is room for all of it, -2 where there is less, -1 behind the last.
  assert.deepEqual([4n, 3n].map((room) => told.rattle_arg(1n, 8n, room)), [4n, -2n]);
  assert.equal(told.rattle_arg(2n, 8n, 4n), -1n);
  assert.deepEqual(Buffer.from(memory.buffer, 8, 5).toString(), "list\0");
});
