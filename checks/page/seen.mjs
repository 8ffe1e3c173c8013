// What is seen in the page, as expressions that are asked of it.

const rows = (marks, told) =>
  `Array.from(document.querySelectorAll(${JSON.stringify(marks)}), ${told})`;
const text = "(it) => it.textContent.replace(/\\s+/g, ' ').trim()";

/** The items, as `hid decode` has them. */
export const ITEMS = rows("#view tr.item",
  "(it) => Array.from(it.cells, (cell) => cell.textContent).join(' ')");

/** The fields, as `hid fields` has them. */
export const FIELDS = rows("#view tr.field", `(it) => {
  const how = it.querySelector('.how').cloneNode(true);
  how.querySelector('.codes')?.remove();
  return it.querySelector('.bits').textContent + ' ' + it.querySelector('.name').textContent + ', '
    + how.textContent;
}`);

/** The codes of Linux of each field, by its bits. */
export const CODES = rows("#view tr.field", `(it) => it.querySelector('.bits').textContent + ' '
  + Array.from(it.querySelectorAll('.code, .no-code'), (code) => code.textContent).join(' ')`);

/** What is found, in the list and at the items. */
export const FOUND = rows("#findings li", text);
export const FOUND_AT = rows("#view tr.finding", `(it) => {
  let item = it.previousElementSibling;
  while (!item.id) item = item.previousElementSibling;
  return item.id + ' ' + it.textContent;
}`);

export const VALUES = rows("#view td.value", text);
export const BITS = rows("#view .digits", text);
export const PIN = rows("#view tr[aria-current]", "(it) => it.id");
export const said = (name) => `Array.from(document.querySelectorAll('#${name}-said span'), (it) => it.textContent)`;
export const value = (id) => `document.getElementById(${JSON.stringify(id)}).value`;
export const content = (id) => `document.getElementById(${JSON.stringify(id)}).textContent`;

/** The line that is marked as wrong in a box, by where it is seen. */
export const marked = (name) => `(() => {
  const strip = document.querySelector('#${name} .strip');
  const box = document.getElementById('${name}-text');
  if (strip.hidden) return 0;
  const style = getComputedStyle(box);
  const top = strip.getBoundingClientRect().top - box.getBoundingClientRect().top;
  return Math.round((top + box.scrollTop - parseFloat(style.paddingTop)) / parseFloat(style.lineHeight)) + 1;
})()`;

/** Whether the page has come to rest, with a view or without one. */
export const RESTS = "document.getElementById('view').ariaBusy === 'false'";
export const HAS_VIEW = "!document.getElementById('view').hidden";
