// Reads a device of WebHID: its values by the names of their usages. A server shows it, for instance
// `python3 -m http.server` in the folder above js/, in a browser that has WebHID (Chromium).
import { HidDevice } from "../index.js";

const said = document.getElementById("said");
const table = document.getElementById("values");

function rowOf({ name, value }) {
  const row = document.createElement("tr");
  for (const text of [name, String(value)]) row.insertCell().textContent = text;
  return row;
}

const connect = document.getElementById("connect");
connect.disabled = navigator.hid === undefined;
connect.addEventListener("click", async () => {
  const [chosen] = await navigator.hid.requestDevice({ filters: [] });
  if (chosen === undefined) return;
  const device = HidDevice.from(chosen);
  const fields = device.descriptor.inputReports.flatMap((report) => report.fields);
  said.textContent = `${chosen.productName}: ${fields.length} fields`;
  device.listen((values) => table.replaceChildren(...values.map(rowOf)));
  await chosen.open();
});
