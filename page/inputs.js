// What was given: texts and files, the first of them the descriptor.
import { byId, counted, make, shown } from "./elements.js";

/** As many bytes as the program reads of a file. */
const MOST_BYTES = 64 * 1024 * 1024;

/** Past this many bytes or lines a text is not put into the box. */
const MOST_TEXT = 1024 * 1024;
const MOST_ROWS = 5000;

const ROLES = { descriptor: "the descriptor", reports: "its reports", other: "compared with it",
  none: "not used" };

/** The text of bytes, where they are one that the box can show. */
function textOf(bytes) {
  if (bytes.length > MOST_TEXT) return null;
  try {
    const text = new TextDecoder("utf-8", { fatal: true, ignoreBOM: true }).decode(bytes);
    const isLong = text.split("\n").length > MOST_ROWS;
    return isLong || /[\0-\x08\x0e-\x1f]/.test(text) ? null : text;
  } catch {
    return null;
  }
}

/** An input of bytes, under a name that a file can have. */
export function inputOf(name, bytes) {
  return { name: name.replace(/[/\0]/g, "_") || "pasted", bytes, text: textOf(bytes), role: "" };
}

export function inputOfText(text, name = "pasted") {
  return { ...inputOf(name, new TextEncoder().encode(text)), text };
}

/** Inputs of files, and the names of those that are too large. */
export async function readFiles(files) {
  const small = files.filter((file) => file.size <= MOST_BYTES);
  const inputs = await Promise.all(small.map(async (file) =>
    inputOf(file.name, new Uint8Array(await file.arrayBuffer()))));
  return { inputs, tooLarge: files.filter((file) => file.size > MOST_BYTES).map((it) => it.name) };
}

export class Inputs {
  #list = [];

  get all() {
    return this.#list;
  }

  /** Whether there is nothing, or nothing is typed. */
  get isEmpty() {
    return this.descriptor === undefined || (this.descriptor.isTyped && this.descriptor.bytes.length === 0);
  }

  /** The first is the descriptor; what the others are is found out, or said. */
  set(list) {
    this.#list = list;
    if (list.length > 0) list[0].role = "descriptor";
  }

  /** Puts what is typed in the descriptor's place. */
  type(input) {
    input.isTyped = true;
    const place = Math.max(this.#list.indexOf(this.descriptor), 0);
    this.#list[place] = input;
    input.role = "descriptor";
  }

  pathOf(input) {
    return `./${this.#list.indexOf(input) + 1}/${input.name}`;
  }

  find(role) {
    return this.#list.filter((input) => input.role === role);
  }

  get descriptor() {
    return this.find("descriptor")[0];
  }

  /** The files that the program is given: pairs of a path and bytes. */
  get files() {
    return this.#list.map((input) => [this.pathOf(input), input.bytes]);
  }

  /** Gives an input another role; there is one descriptor. */
  assign(input, role) {
    if (role === "descriptor") for (const other of this.find(role)) other.role = "none";
    input.role = role;
    if (this.descriptor === undefined) this.#list[0].role = "descriptor";
  }

  #row(input, changed) {
    const name = shown(input.name, 80);
    const role = make("select", { ariaLabel: `What ${name} is` });
    for (const [value, words] of Object.entries(ROLES)) role.append(make("option", { value }, words));
    role.value = input.role || "none";
    role.addEventListener("change", () => {
      this.assign(input, role.value);
      changed();
    });
    const size = make("span", { className: "pale" }, counted(input.bytes.length, "byte"));
    return make("li", {}, make("span", { className: "file" }, name), size, role);
  }

  /** Lists them, where there are several or one that is no text. */
  list(changed) {
    const isPlain = this.#list.length < 2 && this.#list.every((input) => input.text !== null);
    byId("inputs").replaceChildren(...(isPlain ? [] : this.#list.map((it) => this.#row(it, changed))));
  }
}
