// What `hid diff` says of two descriptors: what is shown, and another; or what was given, and what it was
// edited to.
import { byId, make, settled, shown } from "./elements.js";
import { inputOfText } from "./inputs.js";
import { LinedText, saidBy } from "./lined.js";

const KINDS = { "+": "added", "-": "removed" };

/** Past this many lines they are cut. */
const MOST_LINES = 2000;

function differenceLine(text) {
  const className = `line ${KINDS[text[0]] ?? ""}`;
  return make("span", { className }, `${shown(text)}\n`);
}

export class Comparer {
  #program;
  #box = new LinedText("compare");
  #other = null;
  #isTyped = false;

  constructor(program, told) {
    this.#program = program;
    this.#box.box.addEventListener("input", settled(() => {
      this.#other = this.#box.text === "" ? null : inputOfText(this.#box.text);
      this.#isTyped = true;
      told();
    }));
  }

  /** Takes an input for the other descriptor; where there is none, what was typed stays. */
  take(input) {
    if (input === undefined && this.#isTyped) return;
    this.#other = input ?? null;
    this.#isTyped = false;
    this.#box.text = input?.text ?? "";
  }

  clear() {
    this.#isTyped = false;
    this.take(undefined);
  }

  #list(lines) {
    const cut = lines.slice(0, MOST_LINES).map(differenceLine);
    if (lines.length > MOST_LINES) cut.push(`${lines.length - MOST_LINES} lines more\n`);
    byId("compare-lines").replaceChildren(...cut);
    byId("compare-lines").hidden = lines.length === 0;
  }

  /** What is compared: the first, the second, and what this is called; null where there is one only. */
  #pair(given, current) {
    if (this.#other !== null) {
      const path = `./o/${this.#other.name}`;
      const files = [...current.files, [path, this.#other.bytes]];
      return { words: [...current.options, current.path, path], files, about: "The other" };
    }
    if (current.path === given.path) return null;
    return { words: [...given.options, given.path, current.path], about: "The edited one",
      files: [...given.files, ...current.files] };
  }

  /** Compares what is shown, `current`, which is what was given where it is not edited. */
  async show(given, current) {
    const pair = given === null ? null : this.#pair(given, current);
    if (pair === null) {
      this.#list([]);
      this.#box.say([], false);
      return;
    }
    const made = await this.#program.text(["diff", ...pair.words], pair.files);
    const lines = made.text.split("\n").filter((line) => line !== "");
    this.#list(lines);
    if (made.status === 0) this.#box.say([`${pair.about} announces the same reports.`], false);
    else if (lines.length > 0) this.#box.say([`${pair.about} announces other reports:`], false);
    else this.#box.say(saidBy(made).slice(-1), true);
  }
}
