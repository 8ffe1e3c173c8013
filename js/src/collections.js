// The bytes of a descriptor that announces what WebHID's `HIDDevice.collections` say: a browser tells no
// more of a device's own. The reports are the same, bit for bit; the order of items is not known.

const PAGE = 0x04;
const USAGE = 0x08;
const USAGE_MINIMUM = 0x18;
const USAGE_MAXIMUM = 0x28;
const COLLECTION = 0xa0;
const END_COLLECTION = 0xc0;
const REPORT_ID = 0x84;

/** The lists of a collection's reports, with the main items of theirs. */
const LISTS = { inputReports: 0x80, outputReports: 0x90, featureReports: 0xb0 };

/** The globals of an item that are numbers with a sign, by their tags. */
const BOUNDS = { logicalMinimum: 0x14, logicalMaximum: 0x24, physicalMinimum: 0x34,
  physicalMaximum: 0x44 };

const SYSTEMS = ["none", "si-linear", "si-rotation", "english-linear", "english-rotation", "reserved"];
const VENDORS_SYSTEM = 15;
const FACTORS = ["Length", "Mass", "Time", "Temperature", "Current", "LuminousIntensity"];

/** A short item in as few bytes as hold its number. */
function shortItem(tag, number, isSigned = false) {
  const fits = (bits) => (isSigned ? number >= -(2 ** (bits - 1)) && number < 2 ** (bits - 1)
    : number < 2 ** bits);
  const size = [1, 2, 4].find((bytes) => fits(8 * bytes)) ?? 4;
  const bytes = Array.from({ length: size }, (_, k) => (number >> (8 * k)) & 0xff);
  return [tag | (size === 4 ? 3 : size), ...bytes];
}

/** A usage with its page. */
function wholeUsage(tag, usage) {
  return [tag | 3, ...[0, 8, 16, 24].map((shift) => (usage >>> shift) & 0xff)];
}

function unitOf(item) {
  const system = item.unitSystem === "vendor-defined" ? VENDORS_SYSTEM
    : Math.max(SYSTEMS.indexOf(item.unitSystem), 0);
  return FACTORS.reduce((unit, name, k) =>
    (unit | ((item[`unitFactor${name}Exponent`] & 15) << (4 * (k + 1)))) >>> 0, system);
}

/** A power of ten: four bits with a sign hold most, and past these a byte, behind more than 15. */
function exponentOf({ unitExponent: power }) {
  if (power >= -8 && power <= 7) return power & 15;
  return power < 0 ? power & 0xff : power | 0x100;
}

function flagsOf(item) {
  const flags = [item.isConstant, !item.isArray, !item.isAbsolute, item.wrap, !item.isLinear,
    !item.hasPreferredState, item.hasNull, item.isVolatile, item.isBufferedBytes];
  return flags.reduce((sum, isSet, bit) => sum | (Number(isSet) << bit), 0);
}

/** Whether two items are told alike. */
function isAlike(one, other) {
  return JSON.stringify(one) === JSON.stringify(other);
}

/** Where a list of items begins in another, at a place or behind it: -1 is nowhere. */
function placeIn(all, some, from) {
  for (let place = from; place + some.length <= all.length; place += 1) {
    if (some.every((item, k) => isAlike(item, all[place + k]))) return place;
  }
  return -1;
}

/** A collection's reports, each with the items of it that are not written yet. */
function reportsOf(collection) {
  return Object.keys(LISTS).flatMap((list) => (collection[list] ?? []).map((report) =>
    ({ list, reportId: report.reportId, items: report.items, next: 0 })));
}

class Writer {
  bytes = [];
  #known = new Map();

  /** A global, where another number is in force. */
  #global(tag, number, isSigned = false) {
    if ((this.#known.get(tag) ?? 0) === number) return;
    this.#known.set(tag, number);
    this.bytes.push(...shortItem(tag, number, isSigned));
  }

  /** Usages, each with its tag: short under one page, else each with its own. */
  #usages(usages) {
    const pages = new Set(usages.map(([, usage]) => usage >>> 16));
    if (pages.size === 1) this.#global(PAGE, [...pages][0]);
    for (const [tag, usage] of usages) {
      this.bytes.push(...(pages.size === 1 ? shortItem(tag, usage & 0xffff) : wholeUsage(tag, usage)));
    }
  }

  #item({ list, reportId }, item) {
    this.#global(REPORT_ID, reportId);
    for (const [name, tag] of Object.entries(BOUNDS)) this.#global(tag, item[name], true);
    this.#global(0x54, exponentOf(item));
    this.#global(0x64, unitOf(item));
    this.#global(0x74, item.reportSize);
    this.#global(0x94, item.reportCount);
    const range = [[USAGE_MINIMUM, item.usageMinimum], [USAGE_MAXIMUM, item.usageMaximum]];
    this.#usages([...(item.usages ?? []).map((usage) => [USAGE, usage]), ...(item.isRange ? range : [])]);
    this.bytes.push(...shortItem(LISTS[list], flagsOf(item)));
  }

  /** A report's items up to a place. */
  #itemsUpTo(report, end) {
    while (report.next < end) {
      this.#item(report, report.items[report.next]);
      report.next += 1;
    }
  }

  /** A child, behind the items that stand before it: its own are in its parent's reports, too. */
  #child(child, reports) {
    for (const own of reportsOf(child).filter((it) => it.items.length > 0)) {
      const report = reports.find((it) => it.list === own.list && it.reportId === own.reportId);
      const place = report === undefined ? -1 : placeIn(report.items, own.items, report.next);
      if (place < 0) throw new TypeError("a collection has an item that none around it has");
      this.#itemsUpTo(report, place);
      report.next = place + own.items.length;
    }
    this.collection(child);
  }

  collection(collection) {
    const usage = (collection.usagePage << 16 | collection.usage) >>> 0;
    if (usage !== 0) this.#usages([[USAGE, usage]]);
    this.bytes.push(...shortItem(COLLECTION, collection.type));
    const reports = reportsOf(collection);
    for (const child of collection.children ?? []) this.#child(child, reports);
    for (const report of reports) this.#itemsUpTo(report, report.items.length);
    this.bytes.push(END_COLLECTION);
  }
}

/** The bytes of a descriptor that announces the reports of these collections. */
export function descriptorOf(collections) {
  const writer = new Writer();
  for (const collection of collections) writer.collection(collection);
  return Uint8Array.from(writer.bytes);
}
