// The samples: which one is shown, and its bits and values in the maps and fields.

let shownReports = [];
let moves = [];
let player = null;
let fillSamples = () => {};

function bytesOf(sample) {
  return sample.bytes === '' ? [] : sample.bytes.split(' ').map((digits) => parseInt(digits, 16));
}

function timeOf(sample) {
  return sample.time === undefined ? '' : plain(sample.time);
}

// The last sample of a report up to a number.
function latest(report, number) {
  let low = 0;
  let high = report.samples.length;
  while (low < high) {
    const middle = (low + high) >> 1;
    if (report.samples[middle].number <= number) low = middle + 1;
    else high = middle;
  }
  return low === 0 ? null : report.samples[low - 1];
}

// What a sample says of a field: what its numbers stand for, or else its number.
function saidOf(sample, field) {
  const values = sample === null ? undefined : sample.values[field.place];
  if (values === undefined) return '';
  const words = sample.words[field.place];
  return words === '' && values.length === 1 ? String(values[0]) : words;
}

// Shows the bits and values of the last sample of a report up to a number.
function showIn(shown, number) {
  const sample = latest(shown.report, number);
  const bytes = sample === null ? [] : bytesOf(sample);
  shown.section.classList.toggle('is-current', sample !== null && sample.number === number);
  for (const place of shown.places.cells) place.digits.textContent = digitsIn(place, bytes);
  for (const { field, value } of shown.places.fields) {
    const said = saidOf(sample, field);
    const before = sample === null || sample.before === null ? said
      : saidOf(sample.before, field);
    value.textContent = said;
    value.classList.toggle('is-changed', said !== before);
  }
}

// Shows a sample, by its number.
function select(number) {
  const sample = samples[number];
  if (sample === undefined) return;
  for (const shown of shownReports) if (shown.report.samples.length > 0) showIn(shown, number);
  for (const move of moves) move(sample);
  player.slider.value = String(number + 1);
  player.slider.setAttribute('aria-valuetext', (number + 1) + ' of ' + samples.length);
  player.number.textContent = (number + 1) + ' of ' + samples.length;
  player.time.textContent = sample.time === undefined ? '' : timeOf(sample) + ' s';
  player.title.textContent = sample.kind.title;
  player.bytes.textContent = sample.bytes;
  player.back.disabled = number === 0;
  player.on.disabled = number + 1 === samples.length;
}

// Shows the sample that stands nearest in a plot.
function selectNearest(x, across) {
  let best = samples[0];
  for (const sample of samples) {
    if (Math.abs(across(sample) - x) < Math.abs(across(best) - x)) best = sample;
  }
  select(best.number);
}

function button(text, label, step) {
  const made = element('button', '', text);
  made.type = 'button';
  made.setAttribute('aria-label', label);
  made.addEventListener('click', () => select(Number(player.slider.value) - 1 + step));
  return made;
}

// What chooses a sample: a slider and what it stands at.
function playerSection() {
  const slider = element('input', '');
  slider.type = 'range';
  slider.min = '1';
  slider.max = String(samples.length);
  slider.setAttribute('aria-label', 'Report');
  slider.addEventListener('input', () => select(Number(slider.value) - 1));
  player = {
    slider,
    back: button('\u25c0', 'The report before', -1),
    on: button('\u25b6', 'The next report', 1),
    number: element('span', 'number'),
    time: element('span', 'time'),
    title: element('span', 'title'),
    bytes: element('code', 'bytes'),
  };
  const said = element('p', 'said', player.number, player.time, player.title, player.bytes);
  const line = element('div', 'line', player.back, slider, player.on);
  return element('section', 'player', element('h2', 'hidden', 'Reports over time'), line, said);
}

function sampleRow(sample) {
  const jump = element('button', 'jump', String(sample.number + 1));
  jump.type = 'button';
  jump.addEventListener('click', () => select(sample.number));
  return element('tr', '', heading('row', '', jump), element('td', 'time', timeOf(sample)),
    element('td', '', sample.kind.title), element('td', 'bytes', sample.bytes));
}

// All samples as a table, which is made when it is opened.
function samplesSection() {
  const details = element('details', '', element('summary', '', 'Table of these '
    + counted(samples.length, 'report')));
  fillSamples = () => {
    if (details.querySelector('table') !== null) return;
    const table = element('table', 'samples', headRow('Number', 'Time', 'Report', 'Bytes'));
    const body = element('tbody', '');
    for (const sample of samples) body.append(sampleRow(sample));
    table.append(body);
    details.append(wide(table));
  };
  details.addEventListener('toggle', fillSamples);
  return element('section', 'all', element('h2', 'hidden', 'Table of reports'), details);
}

// Puts the plots into the fields, and shows the first sample.
function beginSamples() {
  if (samples.length === 0) return;
  const across = scaleOf(samples);
  for (const shown of shownReports) {
    for (const { field, plot } of shown.places.fields) {
      const made = plotOf(field, shown.report, across, moves);
      if (made !== null) plot.append(made);
    }
  }
  select(0);
}
