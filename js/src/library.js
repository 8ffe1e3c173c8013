// The module of WebAssembly: its calls, by the structs of the library's header. What a call is given is
// put into the module's memory and what it lists is copied out of it, so that nothing is kept.
import { OutOfMemory } from "./errors.js";

/** The version whose header this is. */
export const VERSION = 0x0006000a;

async function moduleBytes() {
  const places = ["../hidreport.wasm", "../../generated/wasm/hidreport.wasm"];
  let refusal;
  for (const place of places) {
    const url = new URL(place, import.meta.url);
    try {
      if (url.protocol === "file:") {
        const { readFile } = await import("node:fs/promises");
        return await readFile(url);
      }
      const answer = await fetch(url);
      if (answer.ok) return await answer.arrayBuffer();
      refusal = new Error(`${url}: ${answer.status}`);
    } catch (error) {
      refusal = error;
    }
  }
  throw refusal;
}

const { instance } = await WebAssembly.instantiate(await moduleBytes(), {});
const library = instance.exports;
if (library.hidreport_version() !== VERSION) throw new Error("hidreport: the module has another version");

// Where a struct that is answered goes: 32 bytes of the module's own.
const ANSWER = Number(library.hidreport_answer_room());

function view() {
  return new DataView(library.memory.buffer);
}

/** The memory of one call, given back behind it. */
class Room {
  #starts = [];

  take(size) {
    library.rattle_alloc(BigInt(ANSWER), BigInt(size), 8n);
    const start = view().getBigUint64(ANSWER + 8, true);
    if (view().getBigUint64(ANSWER, true) === 0n) throw new OutOfMemory("memory was refused");
    this.#starts.push(start);
    return Number(start);
  }

  bytes(data) {
    const start = this.take(data.length);
    new Uint8Array(library.memory.buffer).set(data, start);
    return start;
  }

  end() {
    for (const start of this.#starts) library.rattle_dealloc(start);
  }
}

function within(call) {
  const room = new Room();
  try {
    return call(room);
  } finally {
    room.end();
  }
}

/** An argument as the module takes it: bytes with their length, a size, a number of 32 bits. */
function put(room, argument) {
  if (argument instanceof Uint8Array) {
    return [BigInt(room.bytes(argument)), BigInt(argument.length)];
  }
  if (argument instanceof Place) return [BigInt(room.bytes(argument.data))];
  return [argument];
}

/** Bytes of a struct, whose length is not an argument. */
export class Place {
  constructor(data) {
    this.data = data;
  }
}

/** Options as two numbers of 64 bits. */
export function optionsOf({ limit = 65536, push = 0, usages = 0 } = {}) {
  const most = limit === null ? 0xffffffffffffffffn : BigInt(limit);
  return [most, BigInt(push) | (BigInt(usages) << 32n)];
}

/** A call that answers a number. */
export function number(name, ...args) {
  return within((room) => library[`hidreport_${name}`](...args.flatMap((it) => put(room, it))));
}

/** A call that answers a struct of up to 24 bytes: a view of it. */
export function struct(name, ...args) {
  return within((room) => {
    library[`hidreport_${name}`](BigInt(ANSWER), ...args.flatMap((it) => put(room, it)));
    return new DataView(library.memory.buffer.slice(ANSWER, ANSWER + 24));
  });
}

/** A call that writes into these bytes, which are the caller's own: its status. */
export function written(name, before, data, ...args) {
  if (!(data instanceof Uint8Array)) throw new TypeError("a report that is written is a Uint8Array");
  return within((room) => {
    const first = before.flatMap((it) => put(room, it));
    const start = room.bytes(data);
    const status = library[`hidreport_${name}`](
      ...first, BigInt(start), BigInt(data.length), ...args.flatMap((it) => put(room, it)));
    data.set(new Uint8Array(library.memory.buffer, start, data.length));
    return status;
  });
}

/** A call that lists elements of so many bytes: { status, offset, count, elements }, each a view. */
export function listed(name, size, args, most = -1) {
  let room = most < 0 ? 64 : most;
  for (;;) {
    const answer = within((memory) => {
      const first = args.flatMap((it) => put(memory, it));
      const start = memory.take(room * size);
      library[`hidreport_${name}`](BigInt(ANSWER), ...first, BigInt(start), BigInt(room));
      const told = view();
      const count = Number(told.getBigUint64(ANSWER, true));
      const there = Math.min(count, room);
      const copy = library.memory.buffer.slice(start, start + there * size);
      const elements = Array.from({ length: there }, (_, k) => new DataView(copy, k * size, size));
      return {
        count, elements, offset: Number(told.getBigUint64(ANSWER + 8, true)),
        status: told.getUint32(ANSWER + 16, true),
      };
    });
    if (most >= 0 || answer.count <= room) return answer;
    room = answer.count;
  }
}

/** The bytes of elements that were listed by one. */
export function bytesOf(elements) {
  return Uint8Array.from(elements, (it) => it.getUint8(0));
}

/** A text that a call writes; empty where there is none. */
export function text(name, ...args) {
  return new TextDecoder().decode(bytesOf(listed(name, 1, args).elements));
}

/** Bytes, of an array of them or of a view. */
export function asBytes(data) {
  if (data instanceof Uint8Array) return data;
  if (ArrayBuffer.isView(data)) return new Uint8Array(data.buffer, data.byteOffset, data.byteLength);
  return Uint8Array.from(data);
}

/** A view's bytes. */
export function bytesAt(element) {
  return new Uint8Array(element.buffer, element.byteOffset, element.byteLength);
}

/** Numbers of 64 bits side by side, as the library takes values; one that they don't hold fits no
 * field. */
export function numbersOf(values) {
  const most = 2n ** 63n;
  const array = BigInt64Array.from(values, (value) => {
    const whole = BigInt(value);
    return whole >= -most && whole < most ? whole : most - 1n;
  });
  return new Uint8Array(array.buffer);
}

/** How many bytes the module's memory has. */
export function memory() {
  return library.memory.buffer.byteLength;
}
