// What the page is compared with: the stored runs of `hid` in crates/hid/data, which its proved program
// makes on the command line, and the samples there.
import fs from "node:fs";

export const TOP = new URL("../../", import.meta.url);
export const DATA = new URL("crates/hid/data/", TOP);

/** What a stored run writes: the lines behind `| `. */
export function stored(file, command) {
  const lines = fs.readFileSync(new URL(file, DATA), "utf8").split("\n");
  const begin = lines.indexOf(`$ ${command}`);
  if (begin < 0) throw new Error(`${file} has no run of ${command}`);
  const rest = lines.slice(begin + 1);
  const end = rest.findIndex((line) => line.startsWith("$ ") || line === "");
  return rest.slice(0, end < 0 ? rest.length : end).filter((line) => line.startsWith("| "))
    .map((line) => line.slice(2));
}

/** A sample as a file that is dropped: its name and its bytes in base64. */
export function sample(name) {
  return [name, fs.readFileSync(new URL(name, DATA)).toString("base64")];
}

export function textOf(name) {
  return fs.readFileSync(new URL(name, DATA), "utf8");
}

/** A file of a name with bytes or a text. */
export function made(name, bytes) {
  return [name, Buffer.from(bytes).toString("base64")];
}

/** The lines of `hid decode` as the view shows them: offset, bytes and words with one space between. */
export function asItems(lines) {
  return lines.map((line) => line.trim().replace(/^(\d+): /, "$1 ").replace(/ {2,}/g, " "));
}

/** The lines of `hid fields` that are fields: bits, the name and how it is read. */
export function asFields(lines) {
  return lines.filter((line) => /^ +\d+\.\.\d+ /.test(line)).map((line) => line.trim().replace(/ {2,}/g, " "));
}
