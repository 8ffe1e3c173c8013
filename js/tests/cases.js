// Answers the questions of c/cases.txt from JavaScript, as c/cases.c does.
import { Place, VERSION, bytesAt, bytesOf, listed, number, numbersOf, optionsOf, struct, text, written }
  from "../src/library.js";

const ROOM = 256;
const STATUSES = ["accepted", "invalid-data", "out-of-bounds", "mismatching-report-id",
  "out-of-memory", "budget-exceeded", "unknown-option", "does-not-fit", "wrong-count"];
const KINDS = ["variable", "array", "constant"];
const COLLECTIONS = ["physical", "application", "logical", "report", "named-array", "usage-switch",
  "usage-modifier"];
const REASONS = ["no data", "unknown main item", "local of an unknown main item", "no usage",
  "unsigned maximum", "cut short"];
const DIRECTIONS = { input: 0, output: 1, feature: 2 };
const MENDS = { default: 0, "cut-short": 1, "unsigned-maxima": 2, both: 3 };
// How many words each kind has before its bytes; others have none.
const WORDS = Object.fromEntries([
  ...["options", "collection-usages", "repair", "changes", "value", "usage", "report", "field-for",
    "value-of", "physical", "normalized", "insert", "insert-all", "group-usage", "group-field",
    "usage-on-page"].map((kind) => [kind, 2]),
  ...["usages-by", "reports", "describe", "find", "usages", "collections", "repair-message", "values",
    "blank", "field", "null-value", "write", "front-items", "groups", "describe-usages",
    "describe-collections", "describe-collection-usages",
    "find-usages", "read", "read-available", "usage-name", "usage-by-name", "page-name",
    "page-by-name", "collection-name"].map((kind) => [kind, 1]),
]);

/** Bytes are hexadecimal, `-` is none, `9*a4` is one of them nine times. */
export function bytesIn(text) {
  return Uint8Array.from([...text.matchAll(/(?:(\d+)\*)?([0-9a-f]{2})/g)].flatMap(
    ([, times, digits]) => Array(Number(times ?? 1)).fill(parseInt(digits, 16))));
}

const hex = (data) => Array.from(data, (it) => it.toString(16).padStart(2, "0")).join("");
const hex8 = (value) => value.toString(16).padStart(8, "0");
const numberIn = (word) => Number(word.match(/^\d+/)?.[0] ?? 0);
const roomIn = (word) => (word === "enough" ? ROOM : Math.min(Number(word), ROOM));
const bigs = (word) => (word === "-" ? [] : word.split(",").map(BigInt));
const underscored = (kind) => kind.replaceAll("-", "_");

function measures(view, at, flagsAt) {
  const i32 = (k) => view.getInt32(at + k, true);
  const has = (k) => view.getUint8(at + k);
  const flags = Array.from({ length: 7 }, (_, k) => view.getUint8(flagsAt + k)).join("");
  return `  logical ${i32(0)}..${i32(4)} physical ${has(24)} ${i32(8)}..${has(25)} ${i32(12)} unit `
    + `${has(26)} ${hex8(view.getUint32(at + 16, true))} exponent ${has(27)} ${i32(20)} flags ${flags}`;
}

function around(view, at, idAt) {
  return `collections ${view.getBigUint64(at, true)} ${view.getUint32(at + 8, true)} report `
    + `${view.getUint8(idAt)} ${view.getUint8(idAt + 1)}`;
}

function fieldLines(v) {
  const u32 = (at) => v.getUint32(at, true);
  const u64 = (at) => v.getBigUint64(at, true);
  return [`#${u32(0)} ${KINDS[u32(4)]} bits ${u64(8)}..${u64(16)} values ${u64(24)} usages ${u64(32)} `
    + `${hex8(u32(40))}..${hex8(u32(44))} ${v.getUint8(48)} ${around(v, 88, 111)}`,
    measures(v, 56, 104)];
}

function groupLines(v) {
  const u64 = (at) => v.getBigUint64(at, true);
  return [`${KINDS[v.getUint32(0, true)]} bits ${u64(8)}, ${u64(16)} each elements ${u64(24)} fields `
    + `${u64(32)} usage ${hex8(v.getUint32(40, true))} ${around(v, 72, 95)}`, measures(v, 44, 88)];
}

function reportLines(v) {
  const u64 = (at) => v.getBigUint64(at, true);
  return [`id ${v.getUint8(24)} ${v.getUint8(25)} bits ${u64(0)} bytes ${u64(8)} fields ${u64(16)}`];
}

const usageLine = (found) => [`usage ${hex8(Number(found & 0xffffffffn))} ${found >> 32n & 1n}`];

/** What the last questions gave, and how the next are answered. */
class Asked {
  options = { limit: 65536, push: 0, usages: 0 };
  fields = [];
  usages = [];
  report = new DataView(new ArrayBuffer(32));

  list(show, size, name, args, room = ROOM) {
    const answer = listed(name, size, args, room);
    this.found = answer.elements;
    return [`count ${answer.count} offset ${answer.offset} ${STATUSES[answer.status]}`,
      ...answer.elements.flatMap(show)];
  }

  text(name, args, form = "text", room = ROOM) {
    const [line] = this.list(() => [], 1, name, args, room);
    const data = bytesOf(this.found);
    return [line, form === "text" ? new TextDecoder().decode(data) : hex(data)];
  }

  ofFields(name, args) {
    const lines = this.list(fieldLines, 120, name, args);
    this.fields = this.found;
    return lines;
  }

  ofUsages(name, args) {
    const lines = this.list((it) => [hex8(it.getUint32(0, true))], 4, name, args);
    this.usages = this.found;
    return lines;
  }

  answer(kind, first, second, data, report) {
    const of = [data, ...optionsOf(this.options)];
    const way = DIRECTIONS[first] ?? numberIn(first);
    const pair = second.split("=");
    const id = pair[0] === "-" ? [0, 0] : [1, Number(pair[0])];
    const places = pair.map((it) => BigInt(numberIn(it)));
    switch (kind) {
      case "version": return [number("version") === VERSION ? "as here" : "not as here"];
      case "options":
      case "usages-by": return this.choose(kind, first, second);
      case "reports": return this.list(reportLines, 32, "reports", [...of, way]);
      case "report": {
        const lines = this.list(reportLines, 32, "report_with", [...of, way, ...id], 1);
        this.report = this.found[0] ?? new DataView(new ArrayBuffer(32));
        return lines;
      }
      case "blank": return this.text("blank", [new Place(bytesAt(this.report))], "hex", roomIn(first));
      case "describe": return this.ofFields("describe", [...of, way]);
      case "find": return this.ofFields("find", [...of, way, report]);
      case "field": return this.ofFields("field_numbered", [...of, way]);
      case "field-for":
        return this.ofFields("field_for", [...of, way, ...id, parseInt(pair[1], 16)]);
      case "group-field": return this.ofFields("group_field", [...of, way, ...places]);
      case "usages": return this.ofUsages("usages", [...of, way]);
      case "describe-usages": return this.ofUsages("describe_usages", [...of, way]);
      case "find-usages": return this.ofUsages("find_usages", [...of, way, report]);
      case "describe-collection-usages":
        return this.ofUsages("describe_collection_usages", [...of, way]);
      case "collection-usages": return this.ofUsages("collection_usages", [...of, way, places[0]]);
      case "group-usage": return this.ofUsages("group_usage", [...of, way, ...places]);
      case "groups": return this.list(groupLines, 104, "groups", [...of, way]);
      case "collections":
      case "describe-collections":
        return this.list((v) => {
          const kindOf = v.getUint32(4, true);
          return [`#${v.getUint32(0, true)} ${COLLECTIONS[kindOf] ?? kindOf} usages `
            + `${v.getBigUint64(8, true)} ${hex8(v.getUint32(16, true))}`];
        }, 24, kind.replace("-", "_"), [...of, way]);
      default: return this.answerMore(kind, first, second, data, report);
    }
  }

  choose(kind, first, second) {
    if (kind === "usages-by") {
      this.options.usages = { standard: 0, hosts: 1, linux: 2 }[first] ?? numberIn(first);
      return [];
    }
    this.options = {
      limit: first === "none" ? null : first === "default" ? 65536 : numberIn(first),
      push: { default: 0, all: 0, globals: 1 }[second] ?? numberIn(second),
      usages: 0,
    };
    return [];
  }

  /** Of bytes alone, of items, of names. */
  answerMore(kind, first, second, data, report) {
    const of = [data, ...optionsOf(this.options)];
    const mends = MENDS[first] ?? numberIn(first);
    const name = new TextEncoder().encode((second || first).replaceAll("_", " "));
    switch (kind) {
      case "alike": {
        const v = struct("is_alike", data, report, ...optionsOf(this.options));
        return [`offset ${v.getBigUint64(0, true)} ${STATUSES[v.getUint32(8, true)]} of `
          + `${v.getUint8(12)} alike ${v.getUint8(13)}`];
      }
      case "message": return this.text("message", of);
      case "refusal": {
        const answer = listed("describe", 120, [...of, 0], 0);
        return [`${STATUSES[answer.status]} at ${answer.offset}: ${text("message", ...of)}`];
      }
      case "items":
      case "front-items":
        return this.list((v) => [`offset ${v.getBigUint64(0, true)} size ${v.getBigUint64(8, true)}`],
          16, underscored(kind), [data], first ? roomIn(first) : ROOM);
      case "items-message":
      case "item-name":
      case "flag-words": return this.text(underscored(kind), [data]);
      case "rebuild": return this.text("rebuild", [data], "hex");
      case "repair": return this.text("repair", [...of, mends], "hex", roomIn(second));
      case "repair-message": return this.text("repair_message", [...of, mends]);
      case "changes":
        return this.list((v) => [`offset ${v.getBigUint64(0, true)} stood ${v.getBigUint64(8, true)} `
          + `stands ${v.getBigUint64(16, true)} ${REASONS[v.getUint32(24, true)]}`],
        32, "changes", [...of, mends], roomIn(second));
      case "usage-name":
      case "page-name": return this.text(underscored(kind), [parseInt(first, 16)]);
      case "collection-name": return this.text("collection_name", [Number(first)]);
      case "usage-by-name": return usageLine(BigInt.asUintN(64, number("usage_by_name", name)));
      case "usage-on-page":
        return usageLine(BigInt.asUintN(64, number("usage_on_page", parseInt(first, 16), name)));
      case "page-by-name": {
        const found = number("page_by_name", name);
        return [`page ${(found & 0xffff).toString(16).padStart(4, "0")} ${found >>> 16 & 1}`];
      }
      default: return this.values(kind, first, second, report);
    }
  }

  /** Of the fields that were listed last. */
  values(kind, first, second, report) {
    const fields = new Uint8Array(this.fields.length * 120);
    this.fields.forEach((it, k) => fields.set(bytesAt(it), k * 120));
    const all = [new Place(fields), BigInt(this.fields.length)];
    const own = this.fields[Number(first)];
    const field = own && new Place(bytesAt(own));
    const usages = new Uint8Array(Uint32Array.from(this.usages, (it) => it.getUint32(0, true)).buffer);
    const known = [new Place(usages), BigInt(this.usages.length)];
    const value = (v) => [`value ${v.getBigInt64(0, true)} ${v.getUint8(8)}`];
    const shown = (v) => [String(v.getBigInt64(0, true))];
    const inserted = (status) => [STATUSES[status], hex(report)];
    const many = (word) => [new Place(numbersOf(bigs(word))), BigInt(bigs(word).length)];
    switch (kind) {
      case "read":
      case "read-available":
        return this.list(shown, 8, underscored(kind), [...all, report], roomIn(first));
      case "values": return this.list(shown, 8, "values", [field, report]);
      case "value": {
        const v = struct("value", field, report, BigInt(second));
        return [`number ${v.getBigInt64(0, true)} ${STATUSES[v.getUint32(8, true)]}`];
      }
      case "usage":
        return usageLine(BigInt.asUintN(64, number("usage_of", field, BigInt(second), ...known)));
      case "value-of": return value(struct("value_of", field, parseInt(second, 16), ...known));
      case "null-value": return value(struct("null_value", field));
      case "physical":
      case "normalized": {
        const v = struct(kind, field, BigInt(second));
        return [`fraction ${v.getBigInt64(0, true)} ${v.getBigInt64(8, true)} ${v.getUint8(16)}`];
      }
      case "insert": {
        const [index, whole] = second.split("=").map(BigInt);
        return inserted(written("insert", [field], report, index, whole));
      }
      case "insert-all": return inserted(written("insert_all", [field], report, ...many(second)));
      case "write": return inserted(written("write", all, report, ...many(first)));
      default: throw new Error(`no question: ${kind}`);
    }
  }
}

/** Each question with its answer below it, two spaces in. */
export function answers(lines) {
  const asked = new Asked();
  return lines.flatMap((line) => {
    if (line === "" || line.startsWith("#")) return [line];
    const words = line.split(" ");
    const count = WORDS[words[0]] ?? 0;
    const [data, report = ""] = words.slice(1 + count).join(" ").split("/");
    const answer = asked.answer(words[0], count > 0 ? words[1] : "", count > 1 ? words[2] : "",
      bytesIn(data), bytesIn(report));
    return [line, ...answer.map((it) => `  ${it}`)];
  });
}
