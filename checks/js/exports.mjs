// Whether the names that js/ exports are those that its types declare, and that the use of them has.
//   exports.mjs JS USES    the folder of the package, and a file that imports all
import fs from "node:fs";
import path from "node:path";
import { pathToFileURL } from "node:url";

const [js, uses] = process.argv.slice(2).map((it) => path.resolve(it));
const exported = Object.keys(await import(pathToFileURL(`${js}/index.js`))).sort();
const types = fs.readFileSync(`${js}/index.d.ts`, "utf8");
const declared = Array.from(types.matchAll(/^export (?:class|const|function) (\w+)/gm), ([, it]) => it).sort();
const [, list] = /^import \{([^}]*)\} from "hidreport"/m.exec(fs.readFileSync(uses, "utf8"));
const used = list.split(",").map((it) => it.trim()).filter((it) => it !== "").sort();
for (const [what, names] of [["types declare", declared], ["use imports", used]]) {
  if (String(names) === String(exported)) continue;
  console.log(`js: the ${what} ${names}, and js/ exports ${exported}`);
  process.exitCode = 1;
}
if (!process.exitCode) console.log(`js: types of ${exported.length} exports`);
