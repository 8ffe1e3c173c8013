#!/usr/bin/env node
// The program `hid`, as WebAssembly, over Node's files and streams: on Linux, Windows and macOS.
import fs from "node:fs";
import zlib from "node:zlib";
import { run } from "../src/host.js";
import { NodeFiles } from "../src/node_files.js";

const places = ["../hid.wasm.gz", "../../generated/wasm/hid.wasm.gz"].map((it) => new URL(it, import.meta.url));
const packed = fs.readFileSync(places.find((it) => fs.existsSync(it)) ?? places[0]);
const module = new WebAssembly.Module(zlib.gunzipSync(packed));

// `npx hidreport hid WORDS` is `hid WORDS`.
const words = process.argv.slice(2);
if (words[0] === "hid") words.shift();

process.exitCode = run(module, ["hid", ...words], new NodeFiles());
