import { check } from "./errors.js";
import { asBytes, bytesOf, listed, optionsOf, text } from "./library.js";

/** What a Push keeps for its Pop (Section 6.2.2.7). */
export const Push = Object.freeze({ ALL: 0, GLOBALS: 1 });

/** By which rule an item finds its usages (Section 6.2.2.8). */
export const UsagesBy = Object.freeze({ STANDARD: 0, HOSTS: 1, LINUX: 2 });

/** As Linux finds usages and keeps a Push: for a repair, and for reading what it writes. */
export const HOSTS = Object.freeze({ push: Push.GLOBALS, usages: UsagesBy.HOSTS });

/** All as a Linux machine reads it: what it takes is mended first, what it refuses is refused. */
export const LINUX = Object.freeze({ push: Push.GLOBALS, usages: UsagesBy.LINUX });

/** What a repair mends besides: one of these, or the sum. */
export const Mends = Object.freeze({ DEFAULT: 0, CUT_SHORT: 1, UNSIGNED_MAXIMA: 2 });

/** Why a repair changes something. */
export const Reason = Object.freeze({
  NO_DATA: 0, UNKNOWN_MAIN_ITEM: 1, ENDED_LOCAL: 2, NO_USAGE: 3, UNSIGNED_MAXIMUM: 4, CUT_SHORT: 5,
});

/** An item: how many bytes of the descriptor stand before it, and its own. */
export class Item {
  constructor(offset, bytes) {
    Object.assign(this, { offset, bytes });
    Object.freeze(this);
  }

  /** The standard's name of the item. */
  get name() {
    return text("item_name", this.bytes) || undefined;
  }

  /** The flags of an Input, Output or Feature, with a comma between two. */
  get flagWords() {
    return text("flag_words", this.bytes) || undefined;
  }
}

function checked(name, size, data) {
  const { status, offset, elements } = listed(name, size, [data]);
  if (status !== 0) check(status, offset, text("items_message", data));
  return elements;
}

function itemsOf(data, elements) {
  return elements.map((it) => {
    const offset = Number(it.getBigUint64(0, true));
    return new Item(offset, data.slice(offset, offset + Number(it.getBigUint64(8, true))));
  });
}

/** The items of a descriptor, short and long, in order. */
export function items(descriptor) {
  const data = asBytes(descriptor);
  return itemsOf(data, checked("items", 16, data));
}

/** The items before the first that can't be read, or all. */
export function frontItems(descriptor) {
  const data = asBytes(descriptor);
  return itemsOf(data, listed("front_items", 16, [data]).elements);
}

/** The items in their shortest spelling, without long and reserved ones. */
export function rebuild(descriptor) {
  return bytesOf(checked("rebuild", 1, asBytes(descriptor)));
}

/** A descriptor that these options read, and what was changed for it: of one that hosts accept what
 * Linux reads. */
export function repair(descriptor, options = HOSTS, mends = Mends.DEFAULT) {
  const asked = [asBytes(descriptor), ...optionsOf(options), mends];
  const repaired = listed("repair", 1, asked);
  if (repaired.status !== 0) {
    check(repaired.status, repaired.offset, text("repair_message", ...asked));
  }
  const changes = listed("changes", 32, asked);
  check(changes.status, changes.offset);
  return {
    bytes: bytesOf(repaired.elements),
    changes: changes.elements.map((it) => ({
      offset: Number(it.getBigUint64(0, true)), stood: Number(it.getBigUint64(8, true)),
      stands: Number(it.getBigUint64(16, true)), reason: it.getUint32(24, true),
    })),
  };
}
