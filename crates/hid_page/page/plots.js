// A small plot of each value over time.

const SVG = 'http://www.w3.org/2000/svg';
const PLOT_WIDTH = 120;
const PLOT_HEIGHT = 26;
const PLOT_EDGE = 3;
const MOST_POINTS = 480;

function svg(name, attributes) {
  const made = document.createElementNS(SVG, name);
  for (const key of Object.keys(attributes)) made.setAttribute(key, String(attributes[key]));
  return made;
}

// Where a sample stands from left to right: by its time where all have one that doesn't go back,
// else by its number.
function scaleOf(all) {
  const isTimed = all.every((sample, place) => Number.isFinite(sample.seconds)
    && (place === 0 || all[place - 1].seconds <= sample.seconds));
  const at = isTimed ? (sample) => sample.seconds : (sample) => sample.number;
  const first = at(all[0]);
  const span = at(all[all.length - 1]) - first;
  const inner = PLOT_WIDTH - 2 * PLOT_EDGE;
  return (sample) => PLOT_EDGE + (span > 0 ? (at(sample) - first) / span * inner : inner / 2);
}

function valueIn(sample, field) {
  const values = sample.values[field.place];
  return values !== undefined && values.length === 1 ? values[0] : null;
}

// The points of a field: a value holds until the next. Where there are more than can be seen, those
// of a column are its lowest and its highest.
function pointsOf(field, kind, across) {
  let points = [];
  for (const sample of kind.samples) {
    const value = valueIn(sample, field);
    if (value !== null) points.push({ x: across(sample), value });
  }
  if (points.length > MOST_POINTS) {
    const columns = new Map();
    for (const point of points) {
      const column = Math.floor(point.x);
      const kept = columns.get(column);
      if (kept === undefined) columns.set(column, { low: point, high: point });
      else if (point.value < kept.low.value) kept.low = point;
      else if (point.value > kept.high.value) kept.high = point;
    }
    points = [];
    for (const { low, high } of columns.values()) {
      points.push(...(low === high ? [low] : low.x <= high.x ? [low, high] : [high, low]));
    }
  }
  return points;
}

// The plot of a field, or nothing where there is no value or only one sample; the mark in it goes
// to a sample by `moves`.
function plotOf(field, kind, across, moves) {
  const points = kind.samples.length < 2 || field.kind !== 'variable' ? []
    : pointsOf(field, kind, across);
  if (points.length < 2) return null;
  let low = points[0].value;
  let high = low;
  for (const point of points) {
    low = Math.min(low, point.value);
    high = Math.max(high, point.value);
  }
  const inner = PLOT_HEIGHT - 2 * PLOT_EDGE;
  const down = (value) => PLOT_EDGE + (high > low ? (high - value) / (high - low) * inner
    : inner / 2);
  const corners = [];
  points.forEach((point, place) => {
    if (place > 0) corners.push([point.x, down(points[place - 1].value)]);
    corners.push([point.x, down(point.value)]);
  });
  corners.push([PLOT_WIDTH - PLOT_EDGE, corners[corners.length - 1][1]]);
  const drawn = svg('svg', {
    viewBox: '0 0 ' + PLOT_WIDTH + ' ' + PLOT_HEIGHT,
    width: PLOT_WIDTH,
    height: PLOT_HEIGHT,
    role: 'img',
    'aria-label': field.short + ' over time, ' + low + ' to ' + high,
  });
  const line = svg('line', { class: 'now', y1: 0, y2: PLOT_HEIGHT });
  const curve = svg('polyline', {
    class: 'curve',
    points: corners.map(([x, y]) => x.toFixed(1) + ',' + y.toFixed(1)).join(' '),
  });
  drawn.append(line, curve);
  moves.push((sample) => {
    const x = across(sample).toFixed(1);
    line.setAttribute('x1', x);
    line.setAttribute('x2', x);
  });
  drawn.addEventListener('click', (event) => {
    event.stopPropagation();
    const box = drawn.getBoundingClientRect();
    const x = (event.clientX - box.left) / box.width * PLOT_WIDTH;
    selectNearest(x, across);
  });
  const range = high > low ? low + ' to ' + high : 'always ' + low;
  return element('div', 'plotted', drawn, element('span', 'pale range', range));
}
