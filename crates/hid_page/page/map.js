// The bits of a report, a row for each byte, bit 7 on the left; bytes that lie in one field are one
// row.

// The rows of a report: their bytes, and their cells from bit 7 on. A cell has no field where it is
// the report's id or nothing.
function rowsOf(report) {
  const rows = [];
  let cells = [];
  let bits = 0;
  let byte = 0;
  const addBytes = (field, count) => {
    rows.push({ first: byte, last: byte + count - 1, cells: [{ field, bits: 8 }] });
    byte += count;
  };
  const addBits = (field, count) => {
    cells.unshift({ field, bits: count });
    bits += count;
    if (bits < 8) return;
    rows.push({ first: byte, last: byte, cells });
    cells = [];
    bits = 0;
    byte += 1;
  };
  if (report.report !== null) addBytes(null, 1);
  for (const field of report.fields) {
    let left = field.end - field.start;
    const front = bits === 0 ? 0 : Math.min(left, 8 - bits);
    if (front > 0) addBits(field, front);
    left -= front;
    if (left >= 8) addBytes(field, Math.floor(left / 8));
    if (left % 8 > 0) addBits(field, left % 8);
  }
  if (bits > 0) addBits(null, 8 - bits);
  return rows;
}

// What stands in a cell: the field's name without its page.
function cellName(report, row, cell) {
  if (cell.field === null) {
    return report.report !== null && row.first === 0 ? 'report ID' : '';
  }
  if (cell.field.kind === 'padding') return 'padding';
  return cell.bits < 4 ? cell.field.short.replace(/^Keyboard /, '') : cell.field.short;
}

// A text that may be cut between the words that are joined in it.
function breakable(text) {
  const pieces = text.replace(/([a-z])(?=[A-Z0-9])/g, '$1\n').split('\n');
  const made = document.createDocumentFragment();
  pieces.forEach((piece, place) => {
    if (place > 0) made.append(element('wbr', ''));
    made.append(piece);
  });
  return made;
}

function cellOf(report, row, cell) {
  const name = cellName(report, row, cell);
  const kind = cell.field === null ? 'empty' : cell.field.kind;
  const made = element('td', 'cell ' + kind, element('span', 'name', breakable(name)));
  made.colSpan = cell.bits;
  if (cell.field === null) return made;
  if (kind !== 'padding') made.classList.add('tint-' + cell.field.tint);
  made.title = cell.field.name + ', ' + cell.field.how;
  shows(made, cell.field);
  return made;
}

// The map of a report; each cell in which bits are shown is put into `places`.
function mapOf(report, places) {
  const table = element('table', 'map', element('caption', 'hidden', 'Bits of ' + report.title));
  const head = element('tr', '', heading('col', '', 'Byte'));
  for (let bit = 7; bit >= 0; bit -= 1) head.append(heading('col', '', String(bit)));
  const body = element('tbody', '');
  for (const row of rowsOf(report)) {
    const bytes = row.first === row.last ? String(row.first) : row.first + '\u2013' + row.last;
    const made = element('tr', '', heading('row', '', bytes));
    let high = 8;
    for (const cell of row.cells) {
      const shown = cellOf(report, row, cell);
      high -= cell.bits;
      if (report.samples.length > 0) {
        const digits = element('span', 'digits');
        shown.append(digits);
        places.push({ row, low: high, bits: cell.bits, digits });
      }
      made.append(shown);
    }
    body.append(made);
  }
  table.append(element('thead', '', head), body);
  return wide(table);
}

// What the bytes of a sample have in a cell: bits of one byte, or several bytes in digits.
function digitsIn(place, bytes) {
  const { row, low, bits } = place;
  if (row.last > row.first) {
    return bytes.slice(row.first, row.last + 1)
      .map((byte) => byte.toString(16).padStart(2, '0')).join(' ');
  }
  const byte = bytes[row.first];
  if (byte === undefined) return '';
  return ((byte >> low) & ((1 << bits) - 1)).toString(2).padStart(bits, '0');
}
