// The items of the descriptor.

const TYPES = ['main', 'global', 'local', 'reserved'];

function itemRow(item) {
  const words = element('td', 'words ' + TYPES[item.type], item.words);
  indent(words, item.depth);
  const row = element('tr', 'item', heading('row', 'offset', String(item.offset)),
    element('td', item.bytes.length > 14 ? 'bytes long' : 'bytes', item.bytes), words);
  return ownRow(row, item);
}

// The row of what is said of an item, of a fault, or of bytes that are no item.
function otherRow(entry) {
  const offset = entry.offset === null ? '' : String(entry.offset);
  const row = element('tr', '', heading('row', 'offset', offset));
  if (entry.rest !== undefined) {
    const cell = element('td', 'bytes rest', entry.rest);
    cell.colSpan = 2;
    row.append(cell);
    return row;
  }
  const isFault = entry.fault !== undefined;
  const cell = element('td', isFault ? 'fault' : 'remark', isFault ? entry.fault : entry.remark);
  cell.colSpan = 2;
  row.append(cell);
  return row;
}

function itemsSection() {
  const table = element('table', 'items', element('caption', 'hidden', 'Items of the descriptor'),
    headRow('Offset', 'Bytes', 'Item'));
  const body = element('tbody', '');
  for (const entry of items) body.append(entry.key === '' ? otherRow(entry) : itemRow(entry));
  table.append(body);
  walkRows(table);
  const legend = element('span', 'legend');
  for (const type of TYPES.slice(0, 3)) legend.append(element('span', 'words ' + type, type), ' ');
  return element('section', 'items', element('h2', '', 'Items ', legend), wide(table));
}
