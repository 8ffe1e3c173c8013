// What stands for a device in a browser: WebHID's collections of the mouse, as `hid convert --to webhid`
// writes them, which compare/webhid.py checks. `send` stands for what a person does with it.
import { execFileSync } from "node:child_process";
import { fileURLToPath } from "node:url";
import { DATA, TOP } from "./stored.mjs";

const words = [new URL("js/bin/hid.js", TOP), "convert", "--to", "webhid", new URL("mouse.hex", DATA)];
const COLLECTIONS = execFileSync("node", words.map((it) => (it instanceof URL ? fileURLToPath(it) : it)),
  { stdio: ["ignore", "pipe", "ignore"] });

/** A script that gives a page `navigator.hid` with one device. */
export const FAKE_DEVICE = `
const listeners = new Set();
const device = { collections: ${COLLECTIONS}, productName: "A mouse <b>", vendorId: 0x46d, productId: 0xc077,
  oninputreport: null, async open() { hid.isOpen = true; }, async close() { hid.isOpen = false; },
  addEventListener: (type, call) => listeners.add(call),
  removeEventListener: (type, call) => listeners.delete(call) };
const hid = { isOpen: false, requestDevice: async () => [device], send(bytes) {
  const event = { reportId: 0, data: new DataView(Uint8Array.from(bytes).buffer) };
  device.oninputreport?.(event);
  for (const call of listeners) call(event);
} };
Object.defineProperty(navigator, "hid", { value: hid });
`;
