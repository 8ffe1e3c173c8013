// Linux's event codes of `hid fields --linux`, at the fields that the view shows.
import { byId, make, shown } from "./elements.js";

/** How many codes of a field, such as an array of keys, are named. */
const MOST_NAMED = 8;

/** The names of a code and of those that come beside it, or its number where it has no name. */
function namesOf(code) {
  const own = code.name ?? `${code.event_type} ${code.code}`;
  return [own, ...code.beside ?? []].join(" ");
}

function chipOf(code) {
  if (code.none !== undefined) return make("span", { className: "no-code" }, shown(`none: ${code.none}`));
  const title = `${code.event_type}, ${code.code}`;
  return make("span", { className: "code", title }, shown(namesOf(code)));
}

/** The codes that are shown: of several the ones that are there. */
function worthShowing(codes) {
  const there = codes.filter((code) => code.none === undefined);
  return there.length > 0 ? there : codes.slice(0, 1);
}

function codesLine(codes) {
  const line = make("div", { className: "codes" }, make("span", { className: "pale" }, "Linux: "));
  line.append(...codes.slice(0, MOST_NAMED).flatMap((code) => [chipOf(code), " "]));
  if (codes.length > MOST_NAMED) line.append(`and ${codes.length - MOST_NAMED} more`);
  return line;
}

/** What is said of usages that no field has, and that take codes nevertheless. */
function saidOfOthers(objects) {
  const names = objects.flatMap((it) => worthShowing(it.linux).map((code) => namesOf(code)));
  if (names.length === 0) return [];
  const more = names.length > MOST_NAMED ? ` and ${names.length - MOST_NAMED} more` : "";
  return [`Usages without a field take ${names.slice(0, MOST_NAMED).join(", ")}${more}.`];
}

/** Puts each field's codes into its row; `said` is why there are none at all, or what is special. */
export function showCodes(objects, said) {
  const fields = objects.filter((it) => it.field !== undefined);
  fields.forEach((field, number) => {
    const row = field.linux.length === 0 ? null : byId(`field-${number}`);
    row?.querySelector(".how").append(codesLine(worthShowing(field.linux)));
  });
  const others = saidOfOthers(objects.filter((it) => it.field === undefined));
  const lines = [...said, ...others].map((line) => shown(line));
  byId("codes-said").hidden = lines.length === 0;
  byId("codes-said").textContent = lines.join(" ");
}
