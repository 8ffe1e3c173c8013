import { check } from "./errors.js";
import { Place, asBytes, bytesAt, listed, number, numbersOf, struct, text, written }
  from "./library.js";
import { Usage } from "./usages.js";

/** What an item's fields are (Section 6.2.2.5). */
export const Kind = Object.freeze({ VARIABLE: 0, ARRAY: 1, CONSTANT: 2 });

const FLAGS = ["isRelative", "wraps", "isNonlinear", "hasNoPreferredState", "hasNullState",
  "isBufferedBytes", "isVolatile"];

/** A collection around a field: its number in the descriptor, its kind and its usages. */
export class Collection {
  constructor(id, kind, usages) {
    Object.assign(this, { id, kind, usages });
    Object.freeze(this);
  }

  /** The standard's name of the kind (Section 6.2.2.6). */
  get kindName() {
    return text("collection_name", this.kind) || undefined;
  }
}

/** A fraction as { numerator, denominator }, not always in its lowest terms. */
function fractionOf(view) {
  if (!view.getUint8(16)) return undefined;
  return { numerator: view.getBigInt64(0, true), denominator: view.getBigInt64(8, true) };
}

function choiceOf(view) {
  return view.getUint8(8) ? Number(view.getBigInt64(0, true)) : undefined;
}

/** A field of a report: a variable, an array or padding. Nothing of it changes. */
export class Field {
  #data;
  #usages;
  #around;

  constructor(view, usages, around) {
    const given = (has, at, signed) => {
      if (!view.getUint8(56 + has)) return undefined;
      return signed ? view.getInt32(56 + at, true) : view.getUint32(56 + at, true);
    };
    this.#data = bytesAt(view).slice();
    this.#usages = new Uint8Array(Uint32Array.from(usages).buffer);
    /** Its number, counted over the descriptor. */
    this.id = view.getUint32(0, true);
    this.kind = view.getUint32(4, true);
    /** Its bits in the report, the byte of the id counted. */
    this.bits = Object.freeze({
      start: Number(view.getBigUint64(8, true)), end: Number(view.getBigUint64(16, true)),
    });
    /** How many values it has: none of padding. */
    this.valueCount = Number(view.getBigUint64(24, true));
    /** One, or those that an array's values choose among. */
    this.usages = Object.freeze(usages.map((it) => Usage.fromNumber(it)));
    this.isUsageRange = view.getUint8(48) !== 0;
    this.logicalMinimum = view.getInt32(56, true);
    this.logicalMaximum = view.getInt32(60, true);
    this.physicalMinimum = given(24, 8, true);
    this.physicalMaximum = given(25, 12, true);
    this.unit = given(26, 16, false);
    this.unitExponent = given(27, 20, true);
    this.flags = Object.freeze(Object.fromEntries(
      FLAGS.map((name, k) => [name, view.getUint8(104 + k) !== 0])));
    /** The id that a report begins with to be read, if any. */
    this.reportId = view.getUint8(111) ? view.getUint8(112) : undefined;
    this.#around = around;
    Object.freeze(this);
  }

  /** The collections it lies in, outermost first; none of padding. */
  get collections() {
    return this.#around();
  }

  /** The bytes of the library's own struct. */
  get data() {
    return this.#data;
  }

  /** A variable field's usage. */
  get usage() {
    return this.kind === Kind.VARIABLE ? this.usages[0] : undefined;
  }

  /** Whether its values have a sign: where the logical minimum is below 0. */
  get isSigned() {
    return this.logicalMinimum < 0;
  }

  /** One of its values in a report's bytes. */
  extractOne(report, index = 0) {
    const found = struct("value", new Place(this.#data), asBytes(report), BigInt(index));
    check(found.getUint32(8, true));
    return Number(found.getBigInt64(0, true));
  }

  /** All its values in a report's bytes, in order. */
  extract(report) {
    const { status, elements } = listed("values", 8, [new Place(this.#data), asBytes(report)]);
    check(status);
    return elements.map((it) => Number(it.getBigInt64(0, true)));
  }

  /** Writes one of its values; no other bit of the report changes. */
  insertOne(report, value, index = 0) {
    const [whole] = new BigInt64Array(numbersOf([value]).buffer);
    check(written("insert", [new Place(this.#data)], report, BigInt(index), whole));
  }

  /** Writes all its values, in order, or none where one is refused. */
  insert(report, values) {
    const data = numbersOf(values);
    check(written("insert_all", [new Place(this.#data)], report, new Place(data),
      BigInt(data.length / 8)));
  }

  /** The usage that a value of an array stands for; none as where no key is held. */
  usageOf(value) {
    const found = BigInt.asUintN(64, number("usage_of", new Place(this.#data), BigInt(value),
      new Place(this.#usages), BigInt(this.usages.length)));
    return found >> 32n & 1n ? Usage.fromNumber(Number(found & 0xffffffffn)) : undefined;
  }

  /** The value of an array that stands for a usage. */
  valueFor(usage) {
    return choiceOf(struct("value_of", new Place(this.#data), usage.valueOf(),
      new Place(this.#usages), BigInt(this.usages.length)));
  }

  /** A value of an array that stands for no usage. */
  get nullValue() {
    return choiceOf(struct("null_value", new Place(this.#data)));
  }

  /** What a value of a variable field stands for, in its unit times ten to its exponent. */
  physical(value) {
    return fractionOf(struct("physical", new Place(this.#data), BigInt(value)));
  }

  /** The same between -1, the logical minimum, and 1, the logical maximum. */
  normalized(value) {
    return fractionOf(struct("normalized", new Place(this.#data), BigInt(value)));
  }
}
