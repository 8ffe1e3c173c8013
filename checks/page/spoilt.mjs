// Spoils the page in each way that spoilt.txt has, and sees that the act which is named there fails then: some
// minutes, by hand and before a version gets its number.
//   spoilt.mjs [WORDS]    those rows that have these words
import { spawnSync } from "node:child_process";
import fs from "node:fs";
import os from "node:os";
import path from "node:path";
import { fileURLToPath } from "node:url";

const TOP = fileURLToPath(new URL("../../", import.meta.url));
const PARTS = ["Makefile", "page", "tools", "js", "include", "c", "rust", "generated/wasm", "crates/hid_page/page",
  "crates/hid/data", "crates/hid/src"];
const folder = fs.mkdtempSync(path.join(os.tmpdir(), "spoilt-"));
for (const part of PARTS) fs.cpSync(path.join(TOP, part), path.join(folder, part), { recursive: true });

const rows = fs.readFileSync(new URL("spoilt.txt", import.meta.url), "utf8").split("\n")
  .filter((line) => line !== "" && !line.startsWith("#") && line.includes(process.argv[2] ?? ""));

/** What is wrong with a row, or nothing where its act notices it. */
function faultOf([file, old, spoilt, act]) {
  const place = path.join(folder, file);
  const text = fs.readFileSync(place, "utf8");
  if (text.split(old).length !== 2) return "the text does not stand there once";
  fs.writeFileSync(place, text.replace(old, () => spoilt));
  const made = spawnSync("make", ["-s", "-B", "page"], { cwd: folder });
  const words = [path.join(TOP, "checks/page/run.mjs"), "--patience", "3000", path.join(folder, "build/hid.html"), act];
  const done = spawnSync("node", words, { encoding: "utf8" });
  fs.writeFileSync(place, text);
  if (made.status !== 0) return `make page fails: ${made.stderr}`;
  if (done.status === 0) return `is not noticed: ${done.stdout.trim()}`;
  return done.stdout.startsWith("page: ") ? "" : `the acts do not run: ${done.stderr}`;
}

let faults = 0;
for (const row of rows) {
  const fault = faultOf(row.split("|").map((it) => it.trim()));
  if (fault !== "") console.log(`page: ${row}: ${fault}`);
  faults += Number(fault !== "");
}
fs.rmSync(folder, { recursive: true });
if (faults === 0) console.log(`page: ${rows.length} spoilt pages, each noticed by its act`);
process.exitCode = faults === 0 ? 0 : 1;
