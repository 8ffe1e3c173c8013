// A box of text in which a line can be marked as wrong, and what is said of it below.
import { byId, make, shown } from "./elements.js";

/** What the program said, without its own name and the folders that files have here. */
export function saidBy(answer) {
  const lines = answer.said.trim().split("\n").filter((line) => line !== "");
  return lines.map((line) => line.replace(/^hid: /, "").replace(/(^|: )\.\/\w+\//g, "$1"));
}

/** The number of the line that a text of the program names, or 0. */
export function lineIn(text = "") {
  return Number(/(?:^|: )line (\d+): /.exec(text)?.[1] ?? 0);
}

export class LinedText {
  #strip = make("div", { className: "strip", hidden: true });
  #told;

  constructor(name) {
    this.box = byId(`${name}-text`);
    this.#told = byId(`${name}-said`);
    this.#strip.setAttribute("aria-hidden", "true");
    this.box.before(this.#strip);
    this.box.addEventListener("scroll", () => this.#follow());
  }

  get text() {
    return this.box.value;
  }

  set text(text) {
    if (this.box.value !== text) this.box.value = text;
  }

  #follow() {
    this.#strip.style.setProperty("--scrolled", `${this.box.scrollTop}px`);
  }

  /** Says lines below it; where the last names a line of the text, marks that. */
  say(lines, isRefusal) {
    const line = isRefusal ? lineIn(lines.at(-1)) : 0;
    this.box.setAttribute("aria-invalid", String(isRefusal));
    this.#told.classList.toggle("is-refusal", isRefusal);
    this.#told.replaceChildren(...lines.map((words) => make("span", {}, shown(words))));
    this.#strip.hidden = line === 0;
    this.#strip.style.setProperty("--line", String(line));
    this.#follow();
    if (line > 0) this.#told.append(this.#jump(line));
  }

  /** A button that selects a line. */
  #jump(line) {
    const jump = make("button", { type: "button", textContent: `Go to line ${line}` });
    jump.addEventListener("click", () => {
      const before = this.text.split("\n").slice(0, line - 1).join("\n").length + (line > 1 ? 1 : 0);
      const end = this.text.indexOf("\n", before);
      this.box.focus();
      this.box.setSelectionRange(before, end < 0 ? this.text.length : end);
    });
    return jump;
  }
}
