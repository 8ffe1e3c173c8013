// The items as a text to edit: `hid compile` makes the descriptor of it as it is changed.
import { byId, copy, settled } from "./elements.js";
import { LinedText, saidBy } from "./lined.js";
import { openTab } from "./tabs.js";

/** The path under which the program finds the text. */
const TEXT_PATH = "./t/text";

function itemLine(item, hasBytes) {
  return "  ".repeat(item.depth) + (hasBytes ? `${item.bytes}  ${item.words}` : item.words);
}

/** The bytes of a text in hexadecimal digits, or null where it is refused. */
async function compiled(program, text) {
  const files = [[TEXT_PATH, new TextEncoder().encode(text)]];
  return program.text(["compile", "--to", "hex", TEXT_PATH], files);
}

/** The items of a descriptor in hexadecimal digits. */
async function itemsOf(program, hex) {
  const { objects } = await program.objects(["decode", TEXT_PATH], [[TEXT_PATH, hex]]);
  return objects.filter((it) => it.item !== undefined);
}

/**
 * The text of a descriptor's items: words where they say its bytes, and bytes before them where these
 * are longer than the words would make them; all of `hid decode`'s text where words alone say no item.
 */
export async function textOfItems(program, reading) {
  const words = [...reading.options, reading.path];
  const { objects } = await program.objects(["decode", ...words], reading.files);
  const items = objects.filter((it) => it.item !== undefined);
  const isWhole = !objects.some((it) => it.fault !== undefined || it.rest !== undefined);
  const text = items.map((item) => itemLine(item, false)).join("\n");
  const made = isWhole ? await compiled(program, text) : { status: 1 };
  if (made.status === 0) {
    const again = await itemsOf(program, made.out);
    return `${items.map((item, k) => itemLine(item, item.bytes !== again[k]?.bytes)).join("\n")}\n`;
  }
  const { text: decoded } = await program.text(["decode", "--color", "never", ...words], reading.files);
  return decoded;
}

export class Editor {
  #program;
  #box = new LinedText("edit");
  #told;
  #edited = null;
  #isTouched = false;

  /** `told` is called where the text made another descriptor, or what was given is shown again. */
  constructor(program, told) {
    this.#program = program;
    this.#told = told;
    const compile = settled(() => this.#compile());
    this.#box.box.addEventListener("input", () => {
      this.#isTouched = true;
      compile();
    });
    byId("edit-copy").addEventListener("click", ({ target }) => copy(target, this.#box.text));
    byId("edit-back").addEventListener("click", () => {
      this.forget();
      openTab("edit");
      this.#told();
    });
  }

  /** The edited descriptor in hexadecimal digits, or null where nothing is edited. */
  get edited() {
    return this.#edited;
  }

  forget() {
    this.#edited = null;
    this.#isTouched = false;
    byId("edit-back").disabled = true;
    this.#box.say([], false);
  }

  /** Shows the items of what was given, unless they are being edited. */
  async show(reading) {
    const text = this.#isTouched ? null : await textOfItems(this.#program, reading);
    if (!this.#isTouched) this.#box.text = text;
  }

  clear() {
    this.forget();
    this.#box.text = "";
  }

  async #compile() {
    const text = this.#box.text;
    const made = await compiled(this.#program, text);
    if (text !== this.#box.text || !this.#isTouched) return;
    byId("edit-back").disabled = false;
    const said = saidBy(made).map((line) => line.replace(/^text: /, ""));
    if (made.status !== 0) {
      this.#box.say(said, true);
      byId("view").classList.add("is-stale");
      return;
    }
    this.#edited = made.out;
    this.#box.say([...said, "The view shows this text."], false);
    this.#told();
  }
}
