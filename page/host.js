"use strict";
// The module with what it asks of an operating system: words, files by their names, standard streams. For the page's workers and for Node.

const MISSING = 2, BROKEN = 5, NO_FILE = 9, NO_SEEK = 29;
const NO_WORD = -1n, NO_ROOM = -2n;

/** A file whose bytes are here. */
function sourceOf(bytes) {
  let at = 0;
  return {
    read(room) {
      const part = bytes.subarray(at, at + room.length);
      room.set(part);
      at += part.length;
      return part.length;
    },
  };
}

/** The functions that the module imports, over a world: open(name) gives a source or null, input is one, write(file, bytes) tells how many it took. */
function importsOf(words, world, memory) {
  const files = new Map([[0, world.input]]);
  const bytes = (at, size) => new Uint8Array(memory().buffer, Number(at), Number(size));
  let error = 0, next = 3;
  const fails = (number) => ((error = number), -1);
  const write = (file, at, size) => {
    const taken = world.write(file, bytes(at, size));
    return BigInt(taken < 0 ? fails(BROKEN) : taken);
  };
  return {
    open(at) {
      const rest = bytes(at, memory().buffer.byteLength - Number(at));
      const source = world.open(rest.slice(0, rest.indexOf(0)));
      if (!source) return fails(MISSING);
      files.set(next, source);
      return next++;
    },
    close: (file) => (files.delete(file) ? 0 : fails(NO_FILE)),
    lseek: () => BigInt(fails(NO_SEEK)),
    read(file, at, size) {
      const taken = files.has(file) ? files.get(file).read(bytes(at, size)) : -1;
      return BigInt(taken < 0 ? fails(BROKEN) : taken);
    },
    write,
    __write: write,
    rattle_arg(index, at, room) {
      const word = words[Number(index)];
      if (!word) return NO_WORD;
      if (word.length > Number(room)) return NO_ROOM;
      bytes(at, room).set(word);
      return BigInt(word.length);
    },
    rattle_errno: () => error,
    rattle_set_errno: (number) => void (error = number),
    __sysv_signal: () => 0n,
  };
}

/** Runs the program once, in a memory of its own, and returns its exit status. Words are bytes; the first is the command. */
function runProgram(module, words, world) {
  const name = new TextEncoder().encode("j39plan");
  let instance = null;
  const memory = () => instance.exports.memory;
  instance = new WebAssembly.Instance(module, { env: importsOf([name, ...words], world, memory) });
  // C gives main two numbers, which the program looks at by rattle_arg alone
  return instance.exports.main(0, 0n);
}
