'use strict';

// What the blocks of JSON say: the items, the reports with their fields, and the samples, which are
// reports that came.

// The types of an item, by its first byte.
const MAIN = 0;
const GLOBAL = 1;
const LOCAL = 2;

// The kinds that are told apart, by their tags.
const OPENS = 0xa;
const ENDS = 0xc;
const USAGE_PAGE = 0;
const LAST_USAGE = 2;
const PUSH = 0xa;
const POP = 0xb;

// How many letters the digits of an item of four bytes have, as of a usage with its page.
const OWN_PAGE = 14;

// The block with an id.
function block(id) {
  return JSON.parse(document.getElementById(id).textContent);
}

// The entries of the items: items, remarks, the fault, and bytes that are no item.
function readItems() {
  const entries = block('items');
  for (const entry of entries) {
    entry.key = '';
    if (entry.item === undefined) continue;
    const header = parseInt(entry.bytes.slice(0, 2), 16);
    entry.key = 'item-' + entry.offset;
    entry.type = (header >> 2) & 3;
    entry.tag = header >> 4;
    entry.fields = [];
    entry.inForce = [];
    entry.usedBy = [];
  }
  return entries;
}

// The reports, each with its lines; the line of a field has all that is known of it.
function readReports() {
  const objects = block('fields');
  const reports = [];
  let count = 0;
  for (const line of block('lines')) {
    if (line.title !== undefined) {
      reports.push(Object.assign({ lines: [], fields: [], samples: [] }, line));
      continue;
    }
    const report = reports[reports.length - 1];
    if (line.collection !== undefined) {
      report.lines.push(line);
      continue;
    }
    const field = Object.assign({ short: line.name, how: line.how, depth: line.depth },
      objects[count]);
    field.key = 'field-' + count;
    field.tint = count % 8;
    field.place = report.fields.length;
    field.maker = null;
    report.lines.push(field);
    report.fields.push(field);
    count += 1;
  }
  return reports;
}

// The samples, each with its number, its time and the one of the same report before it.
function readSamples(reports) {
  const samples = block('samples');
  samples.forEach((sample, number) => {
    const own = reports[sample.report].samples;
    sample.number = number;
    sample.kind = reports[sample.report];
    sample.before = own.length === 0 ? null : own[own.length - 1];
    sample.seconds = sample.time === undefined ? NaN : Number(sample.time);
    own.push(sample);
  });
  return samples;
}

const facts = block('device');
const device = facts[0];
const fault = facts.length > 1 ? facts[1] : null;
const notes = block('notes');
const items = readItems();
const reports = readReports();
const samples = readSamples(reports);
const entriesByKey = new Map();
