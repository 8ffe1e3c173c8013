// Which items made which fields, and which were in force for them.

// Gives each main item the fields that it made: those in its bits.
function linkMade() {
  const byOffset = new Map();
  for (const item of items) if (item.key !== '') byOffset.set(item.offset, item);
  for (const made of block('made')) {
    const item = byOffset.get(made.offset);
    const report = reports.find((it) => it.direction === made.direction
      && it.report === made.report);
    if (item === undefined || report === undefined) continue;
    item.fields = report.fields.filter((field) => made.start <= field.start
      && field.end <= made.end);
    for (const field of item.fields) field.maker = item;
  }
}

// Goes over the items as a host does, and keeps which are in force: the last global of each tag,
// the locals since the last main item, and the open collections.
function linkInForce() {
  const state = { globals: new Map(), locals: [], pushed: [], open: [] };
  for (const item of items) {
    if (item.key === '') continue;
    if (item.type === LOCAL) passLocal(state, item);
    if (item.type === GLOBAL) passGlobal(state, item);
    if (item.type === MAIN) passMain(state, item);
  }
}

// A usage without a page of its own keeps, as hosts read, the page that it stands under in force.
function passLocal(state, item) {
  state.locals.push(item);
  const page = state.globals.get(USAGE_PAGE);
  const isUsage = item.tag <= LAST_USAGE && item.bytes.length < OWN_PAGE;
  if (page !== undefined && isUsage && !device.by_standard) state.locals.push(page);
}

function passGlobal(state, item) {
  if (item.tag === PUSH) {
    state.pushed.push({ globals: new Map(state.globals), locals: state.locals.slice() });
  } else if (item.tag === POP) {
    const kept = state.pushed.pop();
    if (kept === undefined) return;
    state.globals = kept.globals;
    if (device.by_standard) state.locals = kept.locals;
  } else {
    state.globals.set(item.tag, item);
  }
}

// A list with each thing once.
function each(list) {
  return Array.from(new Set(list));
}

function passMain(state, item) {
  if (item.tag === OPENS) {
    item.inForce = each(state.locals.concat(state.globals.get(USAGE_PAGE) || []));
    state.open.push(item);
  } else if (item.tag === ENDS) {
    const opened = state.open.pop();
    if (opened !== undefined) {
      item.inForce = [opened];
      item.fields = opened.fields;
    }
  } else {
    item.inForce = each(Array.from(state.globals.values()).concat(state.locals));
    for (const opened of state.open) opened.fields.push(...item.fields);
  }
  for (const other of item.inForce) other.usedBy.push(item);
  state.locals = [];
}

// What is shown with a part: its nearest relatives, and those further off.
function relatives(part) {
  if (part.maker === null) return { near: [], far: [] };
  if (part.maker !== undefined) return { near: [part.maker], far: part.maker.inForce };
  if (part.type === MAIN) return { near: part.fields, far: part.inForce.concat(part.usedBy) };
  const fields = [];
  for (const user of part.usedBy) if (user.tag !== OPENS) fields.push(...user.fields);
  return { near: fields, far: part.usedBy };
}

linkMade();
linkInForce();
for (const item of items) if (item.key !== '') entriesByKey.set(item.key, item);
for (const report of reports) {
  for (const field of report.fields) entriesByKey.set(field.key, field);
}
