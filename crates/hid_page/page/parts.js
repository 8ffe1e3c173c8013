// Elements, and which of them show an item or a field: these are pointed at, and pinned.

// An element with a class, or none, and what stands in it.
function element(name, className, ...children) {
  const made = document.createElement(name);
  if (className !== '') made.className = className;
  made.append(...children);
  return made;
}

// A text of an input as it is shown: letters that can't be seen, or turn a line, are numbers.
function plain(text) {
  return text.replace(/[\0-\x1f\x7f-\x9f\u061c\u200e\u200f\u2028-\u202e\u2066-\u2069\ufeff]/g,
    (letter) => '\\u{' + letter.charCodeAt(0).toString(16) + '}');
}

// A heading cell of a table.
function heading(scope, className, ...children) {
  const made = element('th', className, ...children);
  made.scope = scope;
  return made;
}

// The row of a table's heads.
function headRow(...names) {
  const row = element('tr', '');
  for (const name of names) row.append(heading('col', 'is-' + name.toLowerCase(), name));
  return element('thead', '', row);
}

// A table that scrolls by itself where it is too wide.
function wide(table) {
  return element('div', 'wide', table);
}

// The elements that show an item or a field, by its key.
const shownBy = new Map();

function shows(made, part) {
  made.dataset.key = part.key;
  if (!shownBy.has(part.key)) shownBy.set(part.key, []);
  shownBy.get(part.key).push(made);
}

// The row in which an item or a field stands by itself: addresses end in its key.
function ownRow(row, part) {
  row.id = part.key;
  shows(row, part);
  return row;
}

let pinned = '';
let marked = [];

function put(part, className) {
  for (const made of shownBy.get(part.key) || []) {
    made.classList.add(className);
    marked.push([made, className]);
  }
}

// Marks a part and its relatives; an empty key marks none.
function mark(key) {
  for (const [made, className] of marked) made.classList.remove(className);
  marked = [];
  const part = entriesByKey.get(key);
  if (part === undefined) return;
  const { near, far } = relatives(part);
  for (const other of far) put(other, 'is-far');
  for (const other of near) put(other, 'is-near');
  put(part, 'is-self');
}

// Keeps a part marked, or none.
function pin(key) {
  for (const made of shownBy.get(pinned) || []) made.removeAttribute('aria-current');
  pinned = entriesByKey.has(key) ? key : '';
  for (const made of shownBy.get(pinned) || []) made.setAttribute('aria-current', 'true');
  mark(pinned);
  bringRelative(pinned);
}

// Pins a part, or lets it go, and puts it into the page's address.
function choose(key) {
  const next = key === pinned ? '' : key;
  history.replaceState(null, '', next === '' ? location.pathname + location.search : '#' + next);
  pin(next);
}

// The row in which a part stands by itself.
function rowOf(key) {
  return (shownBy.get(key) || []).find((made) => made.tagName === 'TR');
}

// Brings the first relative of a part into sight, where it stands beside it.
function bringRelative(key) {
  const part = entriesByKey.get(key);
  if (part === undefined || !window.matchMedia('(min-width: 70rem)').matches) return;
  const { near } = relatives(part);
  const row = near.length === 0 ? undefined : rowOf(near[0].key);
  if (row !== undefined) row.scrollIntoView({ block: 'nearest' });
}

function keyUnder(event) {
  const made = event.target instanceof Element ? event.target.closest('[data-key]') : null;
  return made === null ? '' : made.dataset.key;
}

// Goes to the row of the first relative: from an item to its field, and back.
function goOver(key) {
  const { near } = relatives(entriesByKey.get(key));
  const row = near.length === 0 ? undefined : rowOf(near[0].key);
  if (row !== undefined) row.focus();
}

// The rows of a table by the arrow keys: one of them can be reached by the tab key.
function walkRows(table) {
  const rows = Array.from(table.querySelectorAll('tr[data-key]'));
  rows.forEach((row, place) => { row.tabIndex = place === 0 ? 0 : -1; });
  table.addEventListener('focusin', (event) => {
    const row = event.target.closest('tr[data-key]');
    if (row === null) return;
    for (const other of rows) other.tabIndex = -1;
    row.tabIndex = 0;
  });
  table.addEventListener('keydown', (event) => {
    const place = rows.indexOf(event.target);
    if (place < 0 || event.ctrlKey || event.altKey || event.metaKey) return;
    const places = { ArrowUp: place - 1, ArrowDown: place + 1, Home: 0, End: rows.length - 1 };
    if (event.key in places) {
      const row = rows[places[event.key]];
      if (row !== undefined) row.focus();
    } else if (event.key === 'ArrowLeft' || event.key === 'ArrowRight') {
      goOver(rows[place].dataset.key);
    } else if (event.key === 'Enter' || event.key === ' ') {
      choose(rows[place].dataset.key);
    } else {
      return;
    }
    event.preventDefault();
  });
}
