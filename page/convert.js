// The descriptor in each form that `hid convert` writes, to copy or to save.
import { byId, copy, make } from "./elements.js";
import { saidBy } from "./lined.js";

/** The forms, with the ends of their files' names. */
const FORMS = {
  hex: ["Hexadecimal digits", "hex"], c: ["C, an array", "h"], kernel: ["C, as in Linux", "h"],
  rust: ["Rust", "rs"], python: ["Python", "py"], zephyr: ["Zephyr's macros", "h"],
  tinyusb: ["TinyUSB's macros", "h"], lufa: ["LUFA's macros (QMK)", "h"],
  "hid-bpf": ["Macros of HID-BPF", "h"], recording: ["hid-recorder's line", "recording"],
  libinput: ["The list of libinput record", "yml"], webhid: ["WebHID's collections", "json"],
  bytes: ["The bytes themselves", "bin"], page: ["A page to share, of hid page", "html"],
};

/** The command that writes a form. */
function commandFor(form) {
  return form === "page" ? ["page"] : ["convert", "--to", form];
}

function save(bytes, name) {
  const address = URL.createObjectURL(new Blob([bytes]));
  make("a", { href: address, download: name }).click();
  setTimeout(() => URL.revokeObjectURL(address), 1000);
}

export class Converter {
  #program;
  #made = new Uint8Array(0);

  constructor(program, reading) {
    this.#program = program;
    for (const [value, [name]] of Object.entries(FORMS)) {
      byId("form").append(make("option", { value }, name));
    }
    byId("form").addEventListener("change", () => this.show(reading()));
    byId("convert-copy").addEventListener("click",
      ({ target }) => copy(target, byId("convert-text").value));
    byId("convert-save").addEventListener("click",
      () => save(this.#made, `descriptor.${FORMS[byId("form").value][1]}`));
  }

  /** Writes what is read in the form that is chosen; null is nothing. */
  async show(reading) {
    const form = byId("form").value;
    const words = [...commandFor(form), ...reading?.options ?? [], reading?.path];
    const made = reading === null ? { status: 0, said: "", text: "", out: new Uint8Array(0) }
      : await this.#program.text(words, reading.files);
    if (form !== byId("form").value) return;
    const isText = form !== "bytes";
    this.#made = made.out;
    byId("convert-text").value = isText ? made.text : "";
    byId("convert-text").hidden = !isText;
    byId("convert-copy").disabled = !isText || made.text === "";
    byId("convert-save").disabled = made.out.length === 0;
    byId("convert-said").textContent = made.status === 0 ? "" : saidBy(made).at(-1);
  }
}
