// A device of WebHID: what its collections announce, and the values of the reports that it sends.
import { descriptorOf } from "./collections.js";
import { ReportDescriptor } from "./descriptor.js";
import { OutOfBounds } from "./errors.js";
import { Kind } from "./fields.js";
import { HOSTS } from "./items.js";

/** A usage's name, or its page and id in digits. */
function nameOf(usage) {
  const digits = (number) => number.toString(16).padStart(4, "0");
  return usage.name ?? `${digits(usage.page)}:${digits(usage.id)}`;
}

/** The values of a variable field, which has one usage; of an array the usages that its values choose. */
function valuesOf(field, numbers) {
  const entryOf = (usage, value) => ({ name: nameOf(usage), value, usage, field });
  if (field.kind === Kind.VARIABLE) return numbers.map((value) => entryOf(field.usage, value));
  const chosen = numbers.map((value) => field.usageOf(value)).filter((usage) => usage !== undefined);
  return chosen.filter((usage) => usage.id !== 0).map((usage) => entryOf(usage, 1));
}

/** A field's numbers in a report's bytes, where they are there. */
function numbersIn(field, bytes) {
  try {
    return field.extract(bytes);
  } catch (refusal) {
    if (refusal instanceof OutOfBounds) return [];
    throw refusal;
  }
}

export class HidDevice {
  /** Of a `HIDDevice`, which need not be open; `options` are those of a descriptor. */
  static from(device, options = HOSTS) {
    return new HidDevice(device, options);
  }

  constructor(device, options = HOSTS) {
    /** What it was made of. */
    this.device = device;
    this.descriptor = ReportDescriptor.from(descriptorOf(device.collections), options);
    Object.freeze(this);
  }

  /** The input report that an event of its brings, if the descriptor has it, and its bytes, the id first. */
  #reportOf({ reportId, data }) {
    const sent = new Uint8Array(data.buffer, data.byteOffset, data.byteLength);
    const bytes = reportId === 0 ? sent : Uint8Array.of(reportId, ...sent);
    return { report: this.descriptor.findInputReport(bytes), bytes };
  }

  /**
   * The values of an `inputreport` event, in the order of its fields: `{ name, value, usage, field }`, of
   * an array one for each usage that is held. A field that did not come whole has none, nor has one of
   * more than 32 bits.
   */
  values(event) {
    const { report, bytes } = this.#reportOf(event);
    return (report?.fields ?? []).filter((field) => field.kind !== Kind.CONSTANT)
      .flatMap((field) => valuesOf(field, numbersIn(field, bytes)));
  }

  /** Calls with the values of each report that it sends, until what is answered is called. */
  listen(call) {
    const told = (event) => call(this.values(event), event);
    this.device.addEventListener("inputreport", told);
    return () => this.device.removeEventListener("inputreport", told);
  }
}
