// Each export of js/ as a program uses it, which `tsc --strict` takes.
import {
  BudgetExceeded, Collection, Direction, DoesNotFit, Field, HOSTS, HidDevice, HidReportError, InvalidData,
  Item, Kind, LINUX, Mends, MismatchingReportId, OutOfBounds, OutOfMemory, Push, Reason, Report,
  ReportDescriptor, UnknownOption, Usage, UsagesBy, WrongCount, descriptorOf, frontItems, items, pageByName,
  pageName, rebuild, repair,
} from "hidreport";
import type {
  Bytes, Change, Flags, Fraction, HidCollection, HidInput, HidSource, HidValue, ParseOptions,
} from "hidreport";

const options: ParseOptions = { ...HOSTS, limit: null, push: Push.GLOBALS, usages: UsagesBy.STANDARD };
const asLinux: ParseOptions = { ...LINUX, usages: UsagesBy.LINUX };
const given: Bytes = [5, 1, 9, 48, 117, 8, 149, 1, 129, 6];
const { bytes, changes }: { bytes: Uint8Array; changes: Change[] } = repair(given, HOSTS, Mends.CUT_SHORT);
const whys: boolean[] = changes.map(({ offset, stood, stands, reason }) =>
  reason === Reason.NO_DATA && offset + stood + stands > 0);
const descriptor: ReportDescriptor = ReportDescriptor.from(bytes, options);
const reports: readonly Report[] = [
  ...descriptor.inputReports, ...descriptor.outputReports, ...descriptor.featureReports];
const same: boolean = descriptor.isAlike(new ReportDescriptor(descriptor.bytes, descriptor.options));
const found: (Report | undefined)[] = [
  descriptor.findInputReport(given), descriptor.findOutputReport(given),
  descriptor.findFeatureReport(given), descriptor.findReport(Direction.INPUT, given)];

function look(report: Report): [number, string | undefined][] {
  const made: Uint8Array = report.blank();
  report.write(made, report.read(made));
  const some: number[] = report.readAvailable(made);
  const id: number | undefined = report.reportId;
  const size: number = report.sizeInBits + report.sizeInBytes + report.direction + some.length + (id ?? 0);
  return report.values(made).map(([field, values]) => [values[0] ?? size, nameOf(field)]);
}

function nameOf(field: Field): string | undefined {
  const usage: Usage | undefined = field.usage ?? field.usages[0];
  const around: readonly Collection[] = field.collections;
  const kinds: (string | undefined)[] = around.map((it) => it.kindName ?? String(it.kind + it.id));
  return usage?.name ?? usage?.pageName ?? kinds[0] ?? around[0]?.usages[0]?.name;
}

function write(field: Field, report: Uint8Array): (number | bigint | Fraction | undefined)[] {
  field.insert(report, field.extract(report));
  field.insertOne(report, 1n, 0);
  const flags: Flags = field.flags;
  const isSet: boolean = flags.isRelative || flags.wraps || flags.isNonlinear || flags.hasNoPreferredState
    || flags.hasNullState || flags.isBufferedBytes || flags.isVolatile || field.isUsageRange || field.isSigned;
  const usage: Usage | undefined = field.usageOf(field.extractOne(report, 0));
  return [
    isSet ? field.id : field.kind, field.bits.start, field.bits.end, field.valueCount, field.logicalMinimum,
    field.logicalMaximum, field.physicalMinimum, field.physicalMaximum, field.unit, field.unitExponent,
    field.reportId, field.nullValue, field.physical(1), field.normalized(1)?.numerator,
    usage === undefined ? Kind.CONSTANT : field.valueFor(usage)];
}

function refusal(error: unknown): string {
  if (error instanceof InvalidData) return `${error.offset}: ${error.text}`;
  if (error instanceof BudgetExceeded) return String(error.offset);
  const others = [OutOfBounds, MismatchingReportId, OutOfMemory, UnknownOption, DoesNotFit, WrongCount];
  return others.some((it) => error instanceof it) || error instanceof HidReportError ? "refused" : "another";
}

const listed: Item[] = [...items(given), ...frontItems(given)];
const words: (string | undefined)[] = listed.flatMap((it) => [it.name, it.flagWords, String(it.offset + it.bytes[0]!)]);
const short: Uint8Array = rebuild(given);
const page: number | undefined = pageByName("Button");
const named: Usage | undefined = Usage.byName("X", page);
const equal: boolean = new Usage(1, 48).equals(Usage.fromNumber(0x10030)) && named?.valueOf() === 0x10030;
const called: string | undefined = pageName(named?.page ?? 1 + (named?.id ?? 0));

const collections: HidCollection[] = [{ usagePage: 1, usage: 2, type: 1, children: [], inputReports: [
  { reportId: 0, items: [{ isRange: true, usageMinimum: 0x90001, usageMaximum: 0x90003, reportSize: 1 }] }] }];
const source: HidSource = { collections, addEventListener() {}, removeEventListener() {} };
const device: HidDevice = HidDevice.from(source, HOSTS);
const event: HidInput = { reportId: 0, data: new DataView(new ArrayBuffer(3)) };
const values: HidValue[] = device.values(event);
const stop: () => void = new HidDevice(device.device).listen((came, { reportId }) => {
  console.log(reportId, came.map(({ name, value, usage, field }) => [name, value, usage.id, field.id]));
});
stop();
console.log(whys, asLinux, reports.map(look), same, found, write, refusal, words, short, equal, called, values,
  descriptorOf(collections).length, device.descriptor.inputReports.length);
