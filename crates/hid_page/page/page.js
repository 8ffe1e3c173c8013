// The page from its parts, and what it does when it is pointed at.

function counted(count, word) {
  return count + ' ' + word + (count === 1 ? '' : 's');
}

// What is said of the input, a term and its words each. What may be left out is not counted.
function factsOf() {
  const shown = [['Input', plain(device.file) + ', ' + device.form]];
  if (device.ids !== null) shown.push(['Bus, vendor, product', plain(device.ids)]);
  shown.push(['Descriptor', counted(device.bytes, 'byte')]);
  for (const direction of ['input', 'output', 'feature']) {
    const own = reports.filter((report) => report.direction === direction);
    if (own.length === 0) continue;
    const term = direction[0].toUpperCase() + direction.slice(1) + ' reports';
    shown.push([term, own.length === 1 ? '1, of ' + counted(own[0].bytes, 'byte')
      : String(own.length)]);
  }
  return shown;
}

// What has to be known of how the descriptor was read.
function readings() {
  const said = [];
  if (device.by_standard) said.push('Read by the letter of the standard, not as Linux reads it.');
  return said.concat(notes.map((note) => plain(note.note)));
}

function fillHead() {
  const head = document.getElementById('head');
  const list = element('dl', 'facts');
  for (const [term, words] of factsOf()) {
    list.append(element('div', '', element('dt', '', term), element('dd', '', words)));
  }
  head.append(list);
  if (fault !== null) {
    const where = fault.offset === null ? '' : ' at offset ' + fault.offset;
    head.append(element('p', 'refusal', element('strong', '', 'Refused' + where + ': '),
      fault.fault));
  }
  for (const said of readings()) head.append(element('p', 'note', said));
  head.append(element('p', 'hint', 'Point at an item, a field or its bits to see what belongs'
    + ' together; click to keep it in sight.'));
}

function fillMain() {
  shownReports = reports.map(sectionOf);
  const sections = shownReports.map((shown) => shown.section);
  const right = element('section', 'reports', element('h2', '', 'Reports'), ...sections);
  if (reports.length === 0) right.append(element('p', 'note', fault === null
    ? 'The descriptor has no report.' : 'A descriptor that is refused has no reports.'));
  const main = document.getElementById('main');
  if (samples.length > 0) main.append(playerSection());
  main.append(element('div', 'columns', itemsSection(), right));
  if (samples.length > 0) main.append(samplesSection());
}

fillHead();
fillMain();
beginSamples();

document.addEventListener('mouseover', (event) => mark(keyUnder(event) || pinned));
document.addEventListener('focusin', (event) => mark(keyUnder(event) || pinned));
document.addEventListener('focusout', () => mark(pinned));
document.addEventListener('click', (event) => {
  const key = keyUnder(event);
  if (key !== '' && String(window.getSelection()) === '') choose(key);
});
document.addEventListener('keydown', (event) => {
  if (event.key === 'Escape' && pinned !== '') choose(pinned);
});
window.addEventListener('hashchange', () => pin(location.hash.slice(1)));
window.addEventListener('beforeprint', () => {
  fillSamples();
  for (const details of document.querySelectorAll('details')) details.open = true;
});
pin(location.hash.slice(1));
const first = rowOf(pinned);
if (first !== undefined) first.scrollIntoView({ block: 'center' });
