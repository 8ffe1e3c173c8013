// A real device by WebHID: its collections become a descriptor, its reports a recording as hid-recorder
// has them; the program says the values of the last reports as they come.
import { descriptorOf } from "../js/src/collections.js";
import { byId, counted, shown } from "./elements.js";
import { inputOfText } from "./inputs.js";
import { saidBy } from "./lined.js";

/** As many reports as `hid page` shows are kept. */
const MOST_KEPT = 4000;

/** How often values are said, in milliseconds. */
const PAUSE = 100;

const digitsOf = (number, length) => number.toString(16).padStart(length, "0");
const listed = (bytes) => `${bytes.length} ${Array.from(bytes, (byte) => digitsOf(byte, 2)).join(" ")}`;

/** What a recording says of a device before its reports. */
function headOf(device, number) {
  const name = device.productName.replace(/[\r\n]/g, " ");
  return `D: ${number}\nR: ${listed(descriptorOf(device.collections))}\nN: ${name}\n`
    + `I: 3 ${digitsOf(device.vendorId, 4)} ${digitsOf(device.productId, 4)}\n`;
}

/** A report as a line of a recording: WebHID has its id apart. */
function lineOfReport({ reportId, data }, seconds) {
  const sent = new Uint8Array(data.buffer, data.byteOffset, data.byteLength);
  return `E: ${seconds.toFixed(6).padStart(13, "0")} ${listed(reportId === 0 ? sent : [reportId, ...sent])}`;
}

export class Live {
  #program;
  #take;
  #devices = [];
  #head = "";
  #reports = [];
  #last = new Map();
  #count = 0;
  #timer = null;

  /** `take` is called with an input: the device, and at the end its recording. */
  constructor(program, take) {
    this.#program = program;
    this.#take = take;
    byId("tab-device").hidden = navigator.hid === undefined;
    byId("connect").addEventListener("click", () => this.#connect());
    byId("stop").addEventListener("click", () => this.#stop());
  }

  #say(words) {
    byId("device-said").textContent = shown(words);
  }

  async #connect() {
    try {
      const chosen = await navigator.hid.requestDevice({ filters: [] });
      this.#devices = chosen.filter((device) => device.collections.length > 0);
      if (this.#devices.length === 0) {
        return this.#say("No device was chosen, or the browser tells nothing of it.");
      }
      this.#head = this.#devices.map(headOf).join("");
      for (const device of this.#devices) await device.open();
    } catch (refusal) {
      return this.#say(`The browser refuses: ${refusal.message}`);
    }
    this.#reports = [];
    this.#last.clear();
    this.#count = 0;
    this.#devices.forEach((device, number) => {
      device.oninputreport = (event) => this.#keep(event, number);
    });
    byId("stop").disabled = false;
    this.#say("Connected. Its values stand here as it sends them.");
    return this.#take(this.#recording([]));
  }

  /** The devices with reports, each behind the number of its own. */
  #recording(reports) {
    const lines = reports.map(({ number, line }) => `D: ${number}\n${line}\n`).join("");
    return inputOfText(this.#head + lines, "device.recording");
  }

  #keep(event, number) {
    const report = { number, line: lineOfReport(event, performance.now() / 1000) };
    this.#count += 1;
    this.#reports.push(report);
    if (this.#reports.length > MOST_KEPT) this.#reports.shift();
    this.#last.set(`${number} ${event.reportId}`, report);
    this.#timer ??= setTimeout(() => this.#sayValues(), PAUSE);
  }

  /** Shows what the program says of the last report of each kind. */
  async #sayValues() {
    const { bytes } = this.#recording([...this.#last.values()]);
    const answer = await this.#program.text(["values", "./l/last"], [["./l/last", bytes]]);
    this.#timer = null;
    byId("live").textContent = shown(answer.status === 0 ? answer.text : saidBy(answer).at(-1), 20000);
    if (!byId("stop").disabled) this.#say(`${counted(this.#count, "report")} came.`);
  }

  async #stop() {
    byId("stop").disabled = true;
    for (const device of this.#devices) {
      device.oninputreport = null;
      await device.close();
    }
    this.#say(`Stopped: ${counted(this.#reports.length, "report")} in the recording.`);
    return this.#take(this.#recording(this.#reports));
  }
}
