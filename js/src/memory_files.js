// Files that lie in memory, as host.js asks for them: those that are given can be read, and what the
// program writes to its outputs is kept.
import { Failure } from "./host.js";

const OUTPUTS = [1, 2];
const IS_FILE = 0o100644n;

/** Pieces of bytes as one. */
function joined(pieces) {
  const all = new Uint8Array(pieces.reduce((sum, piece) => sum + piece.length, 0));
  let at = 0;
  for (const piece of pieces) {
    all.set(piece, at);
    at += piece.length;
  }
  return all;
}

export class MemoryFiles {
  #files;
  #open = new Map();
  #written = new Map(OUTPUTS.map((own) => [own, []]));
  environment = {};

  /** Of pairs of a path and bytes. */
  constructor(files) {
    this.#files = new Map(files);
  }

  /** What was written to an output: 1, or 2 for what is said of errors. */
  output(own) {
    return joined(this.#written.get(own));
  }

  #get(own) {
    const file = this.#open.get(own);
    if (!file) throw new Failure("EBADF");
    return file;
  }

  #find(name) {
    const bytes = this.#files.get(new TextDecoder().decode(name));
    if (bytes === undefined) throw new Failure("ENOENT");
    return bytes;
  }

  open(name, flags) {
    if ((flags & 3) !== 0) throw new Failure("EROFS");
    const own = 3 + this.#open.size;
    this.#open.set(own, { bytes: this.#find(name), position: 0 });
    return own;
  }

  close(own) {
    this.#get(own).bytes = new Uint8Array(0);
  }

  read(own, room) {
    if (own === 0) return 0;
    const file = this.#get(own);
    const piece = file.bytes.subarray(file.position, file.position + room.length);
    room.set(piece);
    file.position += piece.length;
    return piece.length;
  }

  write(own, bytes) {
    if (!this.#written.has(own)) throw new Failure("EBADF");
    this.#written.get(own).push(bytes.slice());
    return bytes.length;
  }

  seek(own, offset, from) {
    const file = this.#get(own);
    const base = [0, file.position, file.bytes.length][from];
    if (base === undefined || base + offset < 0) throw new Failure("EINVAL");
    file.position = base + offset;
    return file.position;
  }

  isTerminal() {
    return false;
  }

  told(own, name) {
    const { length } = name.length === 0 ? this.#get(own).bytes : this.#find(name);
    return { mode: IS_FILE, size: BigInt(length), nlink: 1n, uid: 0n, gid: 0n, ino: 1n, rdev: 0n,
      dev: 0n, atimeNs: 0n, birthtimeNs: 0n, ctimeNs: 0n, mtimeNs: 0n };
  }

  entries() {
    throw new Failure("ENOTDIR");
  }

  openFolder() {
    throw new Failure("ENOENT");
  }

  nanoseconds() {
    return BigInt(Math.round(performance.now() * 1000)) * 1000n;
  }
}
