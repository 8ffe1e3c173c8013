// Wrong uses of js/: `tsc` has to refuse the line below each mark, or it refuses the mark.
import { Direction, HidDevice, ReportDescriptor, Usage, descriptorOf, repair } from "hidreport";

const descriptor = ReportDescriptor.from([5, 1]);
// @ts-expect-error: bytes are no text.
ReportDescriptor.from("05 01");
// @ts-expect-error: an option that isn't there.
ReportDescriptor.from([5, 1], { limits: 1 });
// @ts-expect-error: nothing of a descriptor is put in its place.
descriptor.inputReports = [];
// @ts-expect-error: a report may have no id.
const id: number = descriptor.inputReports[0]!.reportId;
// @ts-expect-error: a report that is written is the caller's own bytes.
descriptor.inputReports[0]!.write([0, 0], [1]);
// @ts-expect-error: a usage may have no name.
const name: string = new Usage(1, 2).name;
// @ts-expect-error: directions are constants.
Direction.INPUT = 1;
// @ts-expect-error: what is repaired is bytes with changes, no bytes alone.
const bytes: Uint8Array = repair([5, 1]);
// @ts-expect-error: a device has collections.
HidDevice.from({});
// @ts-expect-error: an event's bytes are a view.
HidDevice.from({ collections: [], addEventListener() {}, removeEventListener() {} }).values({ reportId: 0, data: [1] });
// @ts-expect-error: collections are a list.
descriptorOf({ usagePage: 1 });
console.log(id, name, bytes);
