export class HidReportError extends Error {}
export class InvalidData extends HidReportError {
  readonly offset: number;
  readonly text: string;
}
export class OutOfBounds extends HidReportError {}
export class MismatchingReportId extends HidReportError {}
export class OutOfMemory extends HidReportError {}
export class BudgetExceeded extends HidReportError {
  readonly offset: number;
}
export class UnknownOption extends HidReportError {}
export class DoesNotFit extends HidReportError {}
export class WrongCount extends HidReportError {}

export type Bytes = Uint8Array | ArrayBufferView | ArrayLike<number>;

export class Usage {
  constructor(page: number, id: number);
  static fromNumber(value: number): Usage;
  static byName(name: string, page?: number): Usage | undefined;
  readonly page: number;
  readonly id: number;
  readonly name: string | undefined;
  readonly pageName: string | undefined;
  equals(other: Usage): boolean;
  valueOf(): number;
}
export function pageName(page: number): string | undefined;
export function pageByName(name: string): number | undefined;

export const Kind: { readonly VARIABLE: 0; readonly ARRAY: 1; readonly CONSTANT: 2 };
export const Direction: { readonly INPUT: 0; readonly OUTPUT: 1; readonly FEATURE: 2 };
export const Push: { readonly ALL: 0; readonly GLOBALS: 1 };
export const UsagesBy: { readonly STANDARD: 0; readonly HOSTS: 1; readonly LINUX: 2 };
export const Mends: {
  readonly DEFAULT: 0; readonly CUT_SHORT: 1; readonly UNSIGNED_MAXIMA: 2;
};
export const Reason: {
  readonly NO_DATA: 0; readonly UNKNOWN_MAIN_ITEM: 1; readonly ENDED_LOCAL: 2;
  readonly NO_USAGE: 3; readonly UNSIGNED_MAXIMUM: 4; readonly CUT_SHORT: 5;
};

export interface ParseOptions {
  /** How much may be listed: 65,536 where nothing is said, and none where it is null. */
  readonly limit?: number | null;
  readonly push?: number;
  readonly usages?: number;
}
export const HOSTS: ParseOptions;
export const LINUX: ParseOptions;

export interface Flags {
  readonly isRelative: boolean;
  readonly wraps: boolean;
  readonly isNonlinear: boolean;
  readonly hasNoPreferredState: boolean;
  readonly hasNullState: boolean;
  readonly isBufferedBytes: boolean;
  readonly isVolatile: boolean;
}
export interface Fraction {
  readonly numerator: bigint;
  readonly denominator: bigint;
}
export class Collection {
  readonly id: number;
  readonly kind: number;
  readonly usages: readonly Usage[];
  readonly kindName: string | undefined;
}
export class Field {
  readonly id: number;
  readonly kind: number;
  readonly bits: { readonly start: number; readonly end: number };
  readonly valueCount: number;
  readonly usages: readonly Usage[];
  readonly usage: Usage | undefined;
  readonly isUsageRange: boolean;
  readonly isSigned: boolean;
  readonly logicalMinimum: number;
  readonly logicalMaximum: number;
  readonly physicalMinimum: number | undefined;
  readonly physicalMaximum: number | undefined;
  readonly unit: number | undefined;
  readonly unitExponent: number | undefined;
  readonly flags: Flags;
  readonly reportId: number | undefined;
  readonly collections: readonly Collection[];
  readonly nullValue: number | undefined;
  extract(report: Bytes): number[];
  extractOne(report: Bytes, index?: number): number;
  insert(report: Uint8Array, values: Iterable<number | bigint>): void;
  insertOne(report: Uint8Array, value: number | bigint, index?: number): void;
  usageOf(value: number | bigint): Usage | undefined;
  valueFor(usage: Usage): number | undefined;
  physical(value: number | bigint): Fraction | undefined;
  normalized(value: number | bigint): Fraction | undefined;
}
export class Report {
  readonly direction: number;
  readonly reportId: number | undefined;
  readonly sizeInBits: number;
  readonly sizeInBytes: number;
  readonly fields: readonly Field[];
  blank(): Uint8Array;
  read(report: Bytes): number[];
  readAvailable(report: Bytes): number[];
  write(report: Uint8Array, values: Iterable<number | bigint>): void;
  values(report: Bytes): [Field, number[]][];
  fieldFor(usage: Usage): Field | undefined;
}
export class ReportDescriptor {
  constructor(bytes: Bytes, options?: ParseOptions);
  static from(bytes: Bytes, options?: ParseOptions): ReportDescriptor;
  readonly bytes: Uint8Array;
  readonly options: ParseOptions;
  readonly inputReports: readonly Report[];
  readonly outputReports: readonly Report[];
  readonly featureReports: readonly Report[];
  findReport(direction: number, report: Bytes): Report | undefined;
  findInputReport(report: Bytes): Report | undefined;
  findOutputReport(report: Bytes): Report | undefined;
  findFeatureReport(report: Bytes): Report | undefined;
  isAlike(other: ReportDescriptor): boolean;
}

export class Item {
  readonly offset: number;
  readonly bytes: Uint8Array;
  readonly name: string | undefined;
  readonly flagWords: string | undefined;
}
export interface Change {
  readonly offset: number;
  readonly stood: number;
  readonly stands: number;
  readonly reason: number;
}
export function items(descriptor: Bytes): Item[];
export function frontItems(descriptor: Bytes): Item[];
export function rebuild(descriptor: Bytes): Uint8Array;
export function repair(
  descriptor: Bytes, options?: ParseOptions, mends?: number,
): { bytes: Uint8Array; changes: Change[] };

/** An item of a report, as WebHID tells it: the members that a descriptor is made of. */
export interface HidItem {
  readonly isAbsolute?: boolean;
  readonly isArray?: boolean;
  readonly isBufferedBytes?: boolean;
  readonly isConstant?: boolean;
  readonly isLinear?: boolean;
  readonly isRange?: boolean;
  readonly isVolatile?: boolean;
  readonly hasNull?: boolean;
  readonly hasPreferredState?: boolean;
  readonly wrap?: boolean;
  readonly usages?: readonly number[];
  readonly usageMinimum?: number;
  readonly usageMaximum?: number;
  readonly reportSize?: number;
  readonly reportCount?: number;
  readonly unitExponent?: number;
  readonly unitSystem?: string;
  readonly logicalMinimum?: number;
  readonly logicalMaximum?: number;
  readonly physicalMinimum?: number;
  readonly physicalMaximum?: number;
}
export interface HidReport {
  readonly reportId?: number;
  readonly items?: readonly HidItem[];
}
/** A collection of `HIDDevice.collections`. */
export interface HidCollection {
  readonly usagePage?: number;
  readonly usage?: number;
  readonly type?: number;
  readonly children?: readonly HidCollection[];
  readonly inputReports?: readonly HidReport[];
  readonly outputReports?: readonly HidReport[];
  readonly featureReports?: readonly HidReport[];
}
/** What an `inputreport` event has. */
export interface HidInput {
  readonly reportId: number;
  readonly data: DataView;
}
/** What is asked of a `HIDDevice`. */
export interface HidSource {
  readonly collections: readonly HidCollection[];
  addEventListener(type: "inputreport", listener: (event: HidInput) => void): void;
  removeEventListener(type: "inputreport", listener: (event: HidInput) => void): void;
}
/** A value of an event, by the name of its usage; of an array one for each usage that is held. */
export interface HidValue {
  readonly name: string;
  readonly value: number;
  readonly usage: Usage;
  readonly field: Field;
}
export class HidDevice {
  constructor(device: HidSource, options?: ParseOptions);
  static from(device: HidSource, options?: ParseOptions): HidDevice;
  readonly device: HidSource;
  readonly descriptor: ReportDescriptor;
  values(event: HidInput): HidValue[];
  listen(call: (values: HidValue[], event: HidInput) => void): () => void;
}
export function descriptorOf(collections: readonly HidCollection[]): Uint8Array;
