// The reports with their collections and fields.

function inHex(number) {
  return number.toString(16).padStart(8, '0').replace(/^(....)/, '$1:');
}

// The numbers of a field's usages, page and id.
function usagesOf(field) {
  if (field.usage !== undefined) return inHex(field.usage);
  if (field.usage_range !== undefined) return field.usage_range.map(inHex).join('\u2013\u200b');
  if (field.usages === undefined) return '';
  return field.usages.length === 1 ? inHex(field.usages[0]) : field.usages.length + ' usages';
}

// A field's name, its page in pale letters; a long list of usages is folded.
function nameOf(field) {
  const tail = ' / ' + field.short;
  if (field.kind === 'padding') return element('span', 'pale', 'padding');
  if (field.kind === 'variable' && field.name.endsWith(tail)) {
    const page = field.name.slice(0, -tail.length);
    return element('span', '', element('span', 'pale', page + ' / '), field.short);
  }
  if (field.name.length <= 160) return element('span', '', field.name);
  const summary = element('summary', '', field.name.slice(0, 120) + ' \u2026');
  return element('details', '', summary, field.name);
}

// Gives an element the depth that its text is indented by; behind 16 the depth is a number.
function indent(made, depth) {
  made.style.setProperty('--depth', String(Math.min(depth, 16)));
  if (depth > 16) made.prepend(element('span', 'pale', depth + '> '));
}

function collectionRow(line, columns) {
  const cell = heading('row', 'collection', line.collection);
  cell.colSpan = columns;
  indent(cell, line.depth);
  return element('tr', '', cell);
}

function fieldRow(field, hasSamples, places) {
  const name = heading('row', 'name', nameOf(field));
  indent(name, field.depth);
  const swatch = element('span', field.kind === 'padding' ? 'swatch padding'
    : 'swatch tint-' + field.tint);
  const bits = element('td', 'bits', swatch, field.start + '..' + field.end);
  const row = element('tr', 'field', bits, name, element('td', 'how', field.how));
  if (!hasSamples) {
    row.append(element('td', 'usage', usagesOf(field)));
  } else {
    name.title = usagesOf(field);
    const value = element('td', 'value');
    const plot = element('td', 'plot');
    row.append(value, plot);
    places.push({ field, value, plot });
  }
  return ownRow(row, field);
}

function sizeOf(report) {
  const plural = report.bytes === 1 ? '' : 's';
  return report.bits + ' bits, ' + report.bytes + ' byte' + plural;
}

// A report: its map and its fields, and the places in which a sample is shown.
function sectionOf(report) {
  const places = { cells: [], fields: [] };
  const hasSamples = report.samples.length > 0;
  const names = ['Bits', 'Field', 'Reading'].concat(hasSamples ? ['Value', 'Plot'] : ['Usage']);
  const caption = element('caption', 'hidden', 'Fields of ' + report.title);
  const table = element('table', 'fields', caption, headRow(...names));
  const body = element('tbody', '');
  for (const line of report.lines) {
    body.append(line.collection === undefined ? fieldRow(line, hasSamples, places.fields)
      : collectionRow(line, names.length));
  }
  table.append(body);
  walkRows(table);
  const head = element('h3', '', report.title, ' ', element('span', 'pale', sizeOf(report)));
  const section = element('section', 'report', head, mapOf(report, places.cells), wide(table));
  return { report, section, places };
}
