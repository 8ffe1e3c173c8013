// What the program `hid` asks of a system, as its module of WebAssembly imports it: numbers, flags and
// errors are Linux's, since it was proved for that. Which files there are, a system says: Node's
// (node_files.js), or some that lie in memory (memory_files.js).

/** The numbers of errors, and what they are called. */
const ERRORS = {
  EPERM: [1, "Operation not permitted"], ENOENT: [2, "No such file or directory"],
  EINTR: [4, "Interrupted system call"], EIO: [5, "Input/output error"],
  ENXIO: [6, "No such device or address"], EBADF: [9, "Bad file descriptor"],
  EAGAIN: [11, "Resource temporarily unavailable"], ENOMEM: [12, "Cannot allocate memory"],
  EACCES: [13, "Permission denied"], EBUSY: [16, "Device or resource busy"],
  EEXIST: [17, "File exists"], ENODEV: [19, "No such device"], ENOTDIR: [20, "Not a directory"],
  EISDIR: [21, "Is a directory"], EINVAL: [22, "Invalid argument"],
  EMFILE: [24, "Too many open files"], EFBIG: [27, "File too large"],
  ENOSPC: [28, "No space left on device"], ESPIPE: [29, "Illegal seek"],
  EROFS: [30, "Read-only file system"], EPIPE: [32, "Broken pipe"],
  ENAMETOOLONG: [36, "File name too long"], ENOSYS: [38, "Function not implemented"],
  ELOOP: [40, "Too many levels of symbolic links"],
};

/** A call that the system refuses, by the code of its error. */
export class Failure extends Error {
  constructor(code) {
    super(code);
    this.code = code;
  }
}

const NO_LINKS = 0x100;

// What an entry of a folder is, as Linux numbers it.
const KINDS = { fifo: 1, characters: 2, folder: 4, blocks: 6, file: 8, link: 10, socket: 12 };

/** Linux's `struct statx`, of what Node's `Stats` have as BigInts. */
function statxOf(stats) {
  const made = new DataView(new ArrayBuffer(256));
  made.setUint32(0, 0x7ff, true);
  made.setUint32(4, Number(stats.blksize ?? 4096n), true);
  made.setUint32(16, Number(stats.nlink), true);
  made.setUint32(20, Number(stats.uid), true);
  made.setUint32(24, Number(stats.gid), true);
  made.setUint16(28, Number(stats.mode), true);
  made.setBigUint64(32, stats.ino, true);
  made.setBigUint64(40, stats.size, true);
  made.setBigUint64(48, stats.blocks ?? 0n, true);
  [stats.atimeNs, stats.birthtimeNs, stats.ctimeNs, stats.mtimeNs].forEach((time, k) => {
    made.setBigInt64(64 + 16 * k, time / 1000000000n, true);
    made.setUint32(72 + 16 * k, Number(time % 1000000000n), true);
  });
  [stats.rdev, stats.dev].forEach((device, k) => {
    const major = (device >> 8n & 0xfffn) | (device >> 32n & ~0xfffn);
    const minor = (device & 0xffn) | (device >> 12n & ~0xffn);
    made.setUint32(128 + 8 * k, Number(major), true);
    made.setUint32(132 + 8 * k, Number(minor), true);
  });
  return new Uint8Array(made.buffer);
}

/** An entry of a folder, `{ kind, name }`, as Linux's `struct linux_dirent64`. */
function entryOf({ kind, name }) {
  const length = 19 + name.length + 1 + 7 & ~7;
  const made = new DataView(new ArrayBuffer(length));
  made.setBigUint64(0, 1n, true);
  made.setUint16(16, length, true);
  made.setUint8(18, KINDS[kind] ?? 0);
  const bytes = new Uint8Array(made.buffer);
  bytes.set(name, 19);
  return bytes;
}

/** The module's memory, as its calls name places in it. */
class Memory {
  #memory;

  constructor(memory) {
    this.#memory = memory;
  }

  bytes(start, size) {
    return new Uint8Array(this.#memory().buffer, Number(start), Number(size));
  }

  /** The bytes up to a zero. */
  textAt(start) {
    const all = new Uint8Array(this.#memory().buffer, Number(start));
    return all.slice(0, all.indexOf(0));
  }

  /** Puts bytes at a place: their length; -1 where there are none, -2 where the room is too little. */
  put(data, start, room) {
    if (data === undefined) return -1n;
    this.bytes(start, Math.min(data.length, Number(room))).set(data.subarray(0, Number(room)));
    return data.length <= Number(room) ? BigInt(data.length) : -2n;
  }

  putTime(start, time) {
    const view = new DataView(this.#memory().buffer);
    view.setBigInt64(Number(start), time / 1000000000n, true);
    view.setBigInt64(Number(start) + 8, time % 1000000000n, true);
  }
}

function bytesOf(text) {
  return text === undefined ? undefined : new TextEncoder().encode(text);
}

/** What the module is told of: its words and the environment. */
function tellings(room, words, environment) {
  return {
    rattle_arg: (index, start, size) => room.put(bytesOf(words[Number(index)]), start, size),
    rattle_env(name, start, size) {
      const value = environment[new TextDecoder().decode(room.textAt(name))];
      return room.put(bytesOf(value), start, size);
    },
    rattle_env_at(index, start, size) {
      const entry = Object.entries(environment)[Number(index)];
      return room.put(entry && bytesOf(entry.join("=")), start, size);
    },
  };
}

/** The calls on files: `tried` answers what one answers, or -1 where it is refused. */
function callsOnFiles(room, system, tried) {
  /** The next entries of a folder, as many as there is room for. */
  function list(own, start, size) {
    const left = system.entries(own);
    let used = 0;
    while (left.length > 0) {
      const entry = entryOf(left[0]);
      if (used + entry.length > Number(size)) break;
      room.put(entry, Number(start) + used, entry.length);
      used += entry.length;
      left.shift();
    }
    return used;
  }

  function putTold(folder, name, flags, start) {
    const stats = system.told(folder, room.textAt(name), flags, (flags & NO_LINKS) === 0);
    room.put(statxOf(stats), start, 256);
    return 0;
  }

  return {
    rattle_open_dir_at: (folder, name) => tried(() => system.openFolder(folder, room.textAt(name))),
    open: (name, flags) => tried(() => system.open(room.textAt(name), flags)),
    close: (own) => tried(() => system.close(own) ?? 0),
    read: (own, start, size) => BigInt(tried(() => system.read(own, room.bytes(start, size)))),
    write: (own, start, size) => BigInt(tried(() => system.write(own, room.bytes(start, size)))),
    lseek: (own, offset, from) => BigInt(tried(() => system.seek(own, Number(offset), from))),
    isatty: (own) => Number(tried(() => system.isTerminal(own)) === true),
    statx: (folder, name, flags, mask, start) => tried(() => putTold(folder, name, flags, start)),
    getdents64: (own, start, size) => BigInt(tried(() => list(own, start, size))),
  };
}

/** The functions that the module imports; `memory` answers its memory, `words` are the program's. */
export function imports(memory, words, system) {
  const room = new Memory(memory);
  let error = 0;

  function tried(call) {
    try {
      return call();
    } catch (refusal) {
      if (!refusal.code) throw refusal;
      error = (ERRORS[refusal.code] ?? ERRORS.EIO)[0];
      return -1;
    }
  }

  return {
    ...tellings(room, words, system.environment),
    ...callsOnFiles(room, system, tried),
    rattle_errno: () => error,
    rattle_set_errno(number) {
      error = number;
    },
    clock_gettime(clock, start) {
      room.putTime(start, clock === 0 ? BigInt(Date.now()) * 1000000n : system.nanoseconds());
      return 0;
    },
    __xpg_strerror_r(number, start, size) {
      const [, text] = Object.values(ERRORS).find(([own]) => own === number)
        ?? [number, `Unknown error ${number}`];
      room.put(bytesOf(`${text}\0`), start, size);
      return 0;
    },
    __sysv_signal: () => 0n,
  };
}

/** Runs the module with these words over a system: its status. */
export function run(module, words, system) {
  let memory;
  const { exports } = new WebAssembly.Instance(module, { env: imports(() => memory, words, system) });
  memory = exports.memory;
  return exports.main(0, 0n);
}
