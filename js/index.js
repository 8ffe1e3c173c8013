// HID report descriptors read, values taken from reports and written to them (USB HID 1.11).
export { BudgetExceeded, DoesNotFit, HidReportError, InvalidData, MismatchingReportId, OutOfBounds,
  OutOfMemory, UnknownOption, WrongCount } from "./src/errors.js";
export { Collection, Field, Kind } from "./src/fields.js";
export { Direction, Report, ReportDescriptor } from "./src/descriptor.js";
export { HOSTS, Item, LINUX, Mends, Push, Reason, UsagesBy, frontItems, items, rebuild, repair }
  from "./src/items.js";
export { Usage, pageByName, pageName } from "./src/usages.js";
export { descriptorOf } from "./src/collections.js";
export { HidDevice } from "./src/webhid.js";
