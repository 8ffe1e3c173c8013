import { number, text } from "./library.js";

const encoder = new TextEncoder();

/** A usage: its page and its id. */
export class Usage {
  constructor(page, id) {
    this.page = page;
    this.id = id;
    Object.freeze(this);
  }

  /** The usage with the page in the upper 16 bits. */
  static fromNumber(value) {
    return new Usage(value >>> 16, value & 0xffff);
  }

  /** The usage that has this name, letter for letter, on a page or on the lowest that has it. */
  static byName(name, page = undefined) {
    const data = encoder.encode(name);
    const found = BigInt.asUintN(64, page === undefined
      ? number("usage_by_name", data) : number("usage_on_page", page, data));
    return found >> 32n & 1n ? Usage.fromNumber(Number(found & 0xffffffffn)) : undefined;
  }

  valueOf() {
    return this.page * 0x10000 + this.id;
  }

  equals(other) {
    return this.page === other.page && this.id === other.id;
  }

  /** Its name in the HID Usage Tables. */
  get name() {
    return text("usage_name", this.valueOf()) || undefined;
  }

  /** The name of its page. */
  get pageName() {
    return pageName(this.page);
  }
}

/** The name of a usage page; those of vendors have names by their numbers. */
export function pageName(page) {
  return text("page_name", page) || undefined;
}

/** The usage page that has this name. */
export function pageByName(name) {
  const found = number("page_by_name", encoder.encode(name));
  return found >>> 16 & 1 ? found & 0xffff : undefined;
}
