// A descriptor with very many items or fields is cut where it is shown, so that it is shown at once; a
// button shows all that `hid page` has.
import { byId, counted, make } from "./elements.js";

const MOST_ITEMS = 800;
const MOST_FIELDS = 400;

const isField = (line) => line.start !== undefined;

/** The lines of reports up to so many fields; each report keeps its title. */
function cutLines(lines) {
  let fields = 0;
  return lines.filter((line) => {
    if (isField(line)) fields += 1;
    return line.title !== undefined || fields <= MOST_FIELDS;
  });
}

/** The blocks of a page, cut where they are long, and what is left out of them. */
export function cutBlocks(blocks) {
  const items = JSON.parse(blocks.get("items"));
  const lines = JSON.parse(blocks.get("lines"));
  const left = { items: items.length - MOST_ITEMS, fields: lines.filter(isField).length - MOST_FIELDS };
  const cut = new Map(blocks);
  if (left.items > 0) cut.set("items", JSON.stringify(items.slice(0, MOST_ITEMS)));
  if (left.fields > 0) cut.set("lines", JSON.stringify(cutLines(lines)));
  return { blocks: cut, left };
}

/** Says what is left out, beside a button that calls for all of it. */
export function sayCut(left, callForAll) {
  const words = [[left.items, "item"], [left.fields, "field"]].filter(([count]) => count > 0)
    .map(([count, word]) => counted(count, `more ${word}`));
  byId("cut").hidden = words.length === 0;
  byId("cut").replaceChildren();
  if (words.length === 0) return;
  const all = make("button", { type: "button" }, "Show all");
  all.addEventListener("click", callForAll);
  byId("cut").append(`Not shown, so that this is quick: ${words.join(" and ")}. `, all);
}
