import { check } from "./errors.js";
import { Collection, Field, Kind } from "./fields.js";
import { Place, asBytes, bytesAt, bytesOf, listed, numbersOf, optionsOf, struct, text, written }
  from "./library.js";
import { Usage } from "./usages.js";

/** Which way reports go. */
export const Direction = Object.freeze({ INPUT: 0, OUTPUT: 1, FEATURE: 2 });

/** A report that a descriptor announces, with its fields in the order of their bits. */
export class Report {
  #data;
  #fields;

  constructor(view, direction, fields) {
    this.#data = bytesAt(view).slice();
    this.#fields = new Uint8Array(fields.length * 120);
    fields.forEach((field, k) => this.#fields.set(field.data, k * 120));
    this.direction = direction;
    /** Its id, if it has one; its first byte is then that. */
    this.reportId = view.getUint8(24) ? view.getUint8(25) : undefined;
    /** Its size, the byte of the id counted. */
    this.sizeInBits = Number(view.getBigUint64(0, true));
    this.sizeInBytes = Number(view.getBigUint64(8, true));
    this.fields = Object.freeze(fields);
    Object.freeze(this);
  }

  /** Its bytes without values: the id, where it has one, and zeros. */
  blank() {
    const { status, elements } = listed("blank", 1, [new Place(this.#data)], this.sizeInBytes);
    check(status);
    return bytesOf(elements);
  }

  #read(name, report) {
    const { status, elements } = listed(name, 8, [new Place(this.#fields),
      BigInt(this.fields.length), asBytes(report)]);
    check(status);
    return elements.map((it) => Number(it.getBigInt64(0, true)));
  }

  /** The values of all fields in a report's bytes, in order; padding has none. */
  read(report) {
    return this.#read("read", report);
  }

  /** The same up to the first value that isn't there, as of a report that is cut short. */
  readAvailable(report) {
    return this.#read("read_available", report);
  }

  /** Writes the values of all fields, in order, or none where one is refused. */
  write(report, values) {
    const data = numbersOf(values);
    check(written("write", [new Place(this.#fields), BigInt(this.fields.length)], report,
      new Place(data), BigInt(data.length / 8)));
  }

  /** Each field but padding, with its values in a report's bytes. */
  values(report) {
    const numbers = this.read(report);
    let first = 0;
    return this.fields.filter((field) => field.kind !== Kind.CONSTANT).map((field) => {
      first += field.valueCount;
      return [field, numbers.slice(first - field.valueCount, first)];
    });
  }

  /** The first field with this usage. */
  fieldFor(usage) {
    return this.fields.find((field) => field.usages.some((it) => it.equals(usage)));
  }
}

/** The reports that a descriptor announces. */
export class ReportDescriptor {
  #asked;
  #around = new Map();
  #reports;

  /** Reads a descriptor's bytes; `options` may have `limit` (null is none), `push`, `usages`. */
  static from(bytes, options = {}) {
    return new ReportDescriptor(bytes, options);
  }

  constructor(bytes, options = {}) {
    /** The bytes that were read. */
    this.bytes = asBytes(bytes).slice();
    this.options = Object.freeze({ ...options });
    this.#asked = [this.bytes, ...optionsOf(options)];
    this.#reports = Object.values(Direction).map((direction) => this.#read(direction));
  }

  #listed(name, size, ...more) {
    const { status, offset, elements } = listed(name, size, [...this.#asked, ...more]);
    if (status !== 0) check(status, offset, text("message", ...this.#asked));
    return elements;
  }

  #read(direction) {
    const reports = this.#listed("reports", 32, direction);
    if (reports.length === 0) return Object.freeze([]);
    const fields = this.#listed("describe", 120, direction);
    const usages = this.#listed("describe_usages", 4, direction).map((it) => it.getUint32(0, true));
    let field = 0;
    let usage = 0;
    return Object.freeze(reports.map((report) => {
      const own = fields.slice(field, field + Number(report.getBigUint64(16, true)));
      field += own.length;
      return new Report(report, direction, own.map((view) => {
        usage += Number(view.getBigUint64(32, true));
        const named = usages.slice(usage - Number(view.getBigUint64(32, true)), usage);
        return new Field(view, named, () => this.#collections(direction, view));
      }));
    }));
  }

  /** The collections around a field; those around two fields are the same where the innermost is. */
  #collections(direction, view) {
    if (view.getBigUint64(88, true) === 0n) return Object.freeze([]);
    if (!this.#around.has(direction)) this.#around.set(direction, this.#readCollections(direction));
    return this.#around.get(direction).get(view.getUint32(96, true));
  }

  /** The collections around all fields of a direction, by the number of the innermost. */
  #readCollections(direction) {
    const listed = this.#listed("describe_collections", 24, direction);
    const usages = this.#listed("describe_collection_usages", 4, direction);
    const known = new Map();
    const around = new Map();
    let next = 0;
    let usage = 0;
    const collectionOf = (it) => {
      const number = it.getUint32(0, true);
      usage += Number(it.getBigUint64(8, true));
      if (!known.has(number)) {
        const named = usages.slice(usage - Number(it.getBigUint64(8, true)), usage);
        known.set(number, new Collection(number, it.getUint32(4, true),
          named.map((own) => Usage.fromNumber(own.getUint32(0, true)))));
      }
      return known.get(number);
    };
    for (const { data } of this.#reports[direction].flatMap((report) => report.fields)) {
      const count = Number(new DataView(data.buffer).getBigUint64(88, true));
      const own = listed.slice(next, next += count).map(collectionOf);
      if (count > 0 && !around.has(own[count - 1].id)) around.set(own[count - 1].id, Object.freeze(own));
    }
    return around;
  }

  /** The input reports, in the order of their first fields. */
  get inputReports() {
    return this.#reports[Direction.INPUT];
  }

  get outputReports() {
    return this.#reports[Direction.OUTPUT];
  }

  get featureReports() {
    return this.#reports[Direction.FEATURE];
  }

  /** The report of a direction that these bytes are of: the only one without an id, or the one whose
   * id is the first byte. */
  findReport(direction, report) {
    const reports = this.#reports[direction];
    const data = asBytes(report);
    if (data.length === 0 || reports.length === 0) return undefined;
    if (reports[0].reportId === undefined) return reports[0];
    return reports.find((it) => it.reportId === data[0]);
  }

  findInputReport(report) {
    return this.findReport(Direction.INPUT, report);
  }

  findOutputReport(report) {
    return this.findReport(Direction.OUTPUT, report);
  }

  findFeatureReport(report) {
    return this.findReport(Direction.FEATURE, report);
  }

  /** Whether another descriptor, read by the same options, announces the same. */
  isAlike(other) {
    const found = struct("is_alike", this.bytes, other.bytes, ...optionsOf(this.options));
    check(found.getUint32(8, true), Number(found.getBigUint64(0, true)));
    return found.getUint8(13) !== 0;
  }
}
