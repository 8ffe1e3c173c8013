// Node's files and streams, as host.js asks for them, whatever system Node runs on.
import fs from "node:fs";
import path from "node:path";
import tty from "node:tty";
import { Failure } from "./host.js";

// Of `open`, as Linux has them on every processor but for folders and links, which it isn't asked for.
const FLAGS = { 0o100: "O_CREAT", 0o200: "O_EXCL", 0o1000: "O_TRUNC", 0o2000: "O_APPEND",
  0o4000: "O_NONBLOCK" };
const HERE = -100;
const OF_FILE = 0x1000;

// What Node asks of an entry of a folder, and what it is then.
const KINDS = { isFIFO: "fifo", isCharacterDevice: "characters", isDirectory: "folder",
  isBlockDevice: "blocks", isFile: "file", isSymbolicLink: "link", isSocket: "socket" };

function pause() {
  Atomics.wait(new Int32Array(new SharedArrayBuffer(4)), 0, 0, 5);
}

/** The files that are open: what Node calls them, their paths, and of a folder what is left to list. */
export class NodeFiles {
  #open = new Map([[0, { number: 0 }], [1, { number: 1 }], [2, { number: 2 }]]);

  /** The environment, with COLUMNS only where standard output is a terminal: a number, else its own. */
  get environment() {
    const { COLUMNS: said, ...others } = process.env;
    const columns = /^[0-9]+$/.test(said ?? "") ? said : process.stdout.columns;
    return tty.isatty(1) && columns ? { ...others, COLUMNS: String(columns) } : others;
  }

  #add(file) {
    let own = 3;
    while (this.#open.has(own)) own += 1;
    this.#open.set(own, file);
    return own;
  }

  #get(own) {
    const file = this.#open.get(own);
    if (!file) throw new Failure("EBADF");
    return file;
  }

  close(own) {
    const file = this.#get(own);
    this.#open.delete(own);
    if (file.number !== undefined) fs.closeSync(file.number);
  }

  open(name, flags) {
    const place = Buffer.from(name);
    let asked = flags & 3;
    for (const [bit, called] of Object.entries(FLAGS)) {
      if (flags & Number(bit)) asked |= fs.constants[called] ?? 0;
    }
    if ((flags & 3) === 0 && fs.statSync(place).isDirectory()) return this.#add({ folder: place });
    const number = fs.openSync(place, asked, 0o666);
    const isSeekable = fs.fstatSync(number).isFile() && (flags & 3) === 0;
    return this.#add({ number, place, position: isSeekable ? 0 : null });
  }

  read(own, bytes) {
    const file = this.#get(own);
    if (file.folder !== undefined) throw new Failure("EISDIR");
    for (;;) {
      try {
        const count = fs.readSync(file.number, bytes, 0, bytes.length, file.position);
        if (file.position !== null && file.position !== undefined) file.position += count;
        return count;
      } catch (refusal) {
        if (refusal.code === "EOF") return 0;
        if (refusal.code !== "EAGAIN") throw refusal;
        pause();
      }
    }
  }

  write(own, bytes) {
    const file = this.#get(own);
    for (;;) {
      try {
        return fs.writeSync(file.number, bytes);
      } catch (refusal) {
        if (refusal.code === "EPIPE" && own <= 2) process.exit(141);
        if (refusal.code !== "EAGAIN") throw refusal;
        pause();
      }
    }
  }

  seek(own, offset, from) {
    const file = this.#get(own);
    if (file.position === null || file.position === undefined) throw new Failure("ESPIPE");
    const base = [0, file.position, from === 2 ? fs.fstatSync(file.number).size : 0][from];
    if (base === undefined || base + offset < 0) throw new Failure("EINVAL");
    file.position = base + offset;
    return file.position;
  }

  isTerminal(own) {
    return tty.isatty(this.#get(own).number ?? -1);
  }

  #placeOf(folder, name) {
    if (folder === HERE || path.isAbsolute(name.toString())) return name;
    return Buffer.concat([Buffer.from(this.#get(folder).folder), Buffer.from("/"), name]);
  }

  /** What is told of a file, or of a link itself where links are not followed. */
  told(folder, bytes, flags, follows) {
    const name = Buffer.from(bytes);
    const asBig = { bigint: true };
    if (name.length === 0 && flags & OF_FILE) {
      const file = this.#get(folder);
      return file.folder !== undefined ? fs.statSync(file.folder, asBig)
        : fs.fstatSync(file.number, asBig);
    }
    const place = this.#placeOf(folder, name);
    return follows ? fs.statSync(place, asBig) : fs.lstatSync(place, asBig);
  }

  /** What is left to list of a folder, from which the caller takes. */
  entries(own) {
    const file = this.#get(own);
    if (file.folder === undefined) throw new Failure("ENOTDIR");
    file.left ??= fs.readdirSync(file.folder, { withFileTypes: true, encoding: "buffer" })
      .map((entry) => {
        const is = Object.keys(KINDS).find((each) => entry[each]());
        return { kind: KINDS[is], name: entry.name };
      });
    return file.left;
  }

  openFolder(folder, name) {
    const place = this.#placeOf(folder, Buffer.from(name));
    const stats = place.toString().endsWith("/") ? fs.statSync(place) : fs.lstatSync(place);
    if (!stats.isDirectory()) throw new Failure(stats.isSymbolicLink() ? "ELOOP" : "ENOTDIR");
    return this.#add({ folder: place });
  }

  nanoseconds() {
    return process.hrtime.bigint();
  }
}
