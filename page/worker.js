"use strict";
// A worker of the page: runs the program over files that are here or on the disk, and keeps what it wrote of a log. It sends nothing anywhere.

const SLICE = 4 << 20, PROGRESS_MS = 100;
const encoder = new TextEncoder(), decoder = new TextDecoder();
let program = null, store = null;

/** A file of the disk, read slice by slice; a read of one that has gone fails. */
function sourceOnDisk(file, tell) {
  const reader = new FileReaderSync();
  let at = 0, begun = 0, slice = new Uint8Array(0);
  const next = () => {
    begun = at;
    slice = new Uint8Array(reader.readAsArrayBuffer(file.slice(at, at + SLICE)));
    tell(at + slice.length, file.size);
  };
  return {
    read(room) {
      try {
        if (at - begun >= slice.length && at < file.size) next();
      } catch {
        return -1;
      }
      const part = slice.subarray(at - begun, at - begun + room.length);
      room.set(part);
      at += part.length;
      return part.length;
    },
  };
}

/** The file of a name, or of its last part: a page isn't told folders. */
const named = (files, name) => files[name] ?? files[name.split("/").pop()];

/** Runs an order; what it writes goes to `put`, what it complains of is returned with its status. */
function run({ words, files }, put, tell = () => {}) {
  let complaint = "";
  const world = {
    input: sourceOf(new Uint8Array(0)),
    open(name) {
      const file = named(files, decoder.decode(name));
      if (file === undefined) return null;
      return file instanceof Blob ? sourceOnDisk(file, tell) : sourceOf(typeof file === "string" ? encoder.encode(file) : file);
    },
    write(stream, bytes) {
      if (stream === 1) put(bytes);
      else complaint += decoder.decode(bytes);
      return bytes.length;
    },
  };
  const status = runProgram(program, words.map((word) => encoder.encode(word)), world);
  return { status, complaint };
}

/** Tells how much of a file was read, now and then. */
function teller(id) {
  let last = 0;
  return (done, size) => {
    const now = performance.now();
    if (now - last < PROGRESS_MS && done < size) return;
    last = now;
    postMessage({ id, progress: { done, size } });
  };
}

const orders = {
  start({ code }) {
    program = new WebAssembly.Module(code);
    return {};
  },
  run(order, tell) {
    let text = "";
    const parts = new TextDecoder();
    const ended = run(order, (bytes) => (text += parts.decode(bytes, { stream: true })), tell);
    return { ...ended, text: text + parts.decode() };
  },
  follow(order, tell) {
    store = new LogStore();
    const ended = run(order, (bytes) => store.take(bytes), tell);
    return { ...ended, ...store.summary() };
  },
  rows: ({ filter, from, count }) => store.page(filter, from, count),
  curves: ({ picks, filter }) => picks.map((pick) => store.curve(pick, filter)),
  claims: () => store.claims(),
};

onmessage = ({ data }) => {
  try {
    postMessage({ id: data.id, answer: orders[data.order](data, teller(data.id)) });
  } catch (fault) {
    postMessage({ id: data.id, fault: fault instanceof RangeError ? "there isn't memory enough in this page" : `the module stopped: ${fault.message}` });
  }
};
