// What `hid check` finds, at its items and in a list above.
import { byId, counted, make, shown } from "./elements.js";

/** How many are listed above; the others stand at their items alone. */
const MOST_LISTED = 20;

/** What is said of a finding, its rule first. */
function wordsOf({ severity, rule, name, odd }) {
  return shown(`${severity} ${rule} ${name}: ${odd}`);
}

function findingRow(finding) {
  const cell = make("td", { className: "finding", colSpan: 2 }, wordsOf(finding));
  return make("tr", { className: "finding" }, make("th", { scope: "row" }), cell);
}

/** Puts rows behind the items' own; several of one item keep their order. */
function putAtItems(findings) {
  const last = new Map();
  for (const finding of findings) {
    const place = last.get(finding.offset) ?? byId(`item-${finding.offset}`);
    if (place === null || finding.offset === null) continue;
    const row = findingRow(finding);
    place.after(row);
    last.set(finding.offset, row);
  }
}

/** A line of the list: a button that goes to the item, where there is one. */
function findingLine(finding) {
  const words = wordsOf(finding);
  const item = finding.offset === null ? null : byId(`item-${finding.offset}`);
  if (item === null) return make("li", {}, words);
  const go = make("button", { type: "button", className: "jump" }, `${finding.offset}: ${words}`);
  go.addEventListener("click", () => {
    item.scrollIntoView({ block: "center" });
    item.focus();
  });
  return make("li", {}, go);
}

/** What the host does with the descriptor, where it was asked for. */
function verdictOf({ is_taken: isTaken, mended }) {
  if (!isTaken) return "; Linux refuses it";
  return mended === 0 ? "; Linux takes it" : `; Linux takes it, with ${counted(mended, "item")} mended`;
}

/** Shows what `hid check` found, and what the host does. */
export function showFindings(objects) {
  const section = byId("findings");
  const findings = objects.filter((it) => it.odd !== undefined);
  const verdicts = objects.filter((it) => it.odd === undefined).map(verdictOf);
  section.hidden = objects.length === 0;
  byId("findings-title").textContent = counted(findings.length, "finding") + verdicts.join("");
  const listed = findings.slice(0, MOST_LISTED).map(findingLine);
  const rest = findings.length - listed.length;
  if (rest > 0) listed.push(make("li", {}, `${rest} more stand at their items`));
  section.querySelector("ol").replaceChildren(...listed);
  putAtItems(findings);
}
