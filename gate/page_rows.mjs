// Runs the stored rows on the page's module, in Node: page_rows.mjs MODULE ROWS. ROWS is a file of gate/page.py; each row that ends otherwise is named.
import fs from "node:fs";
import path from "node:path";
import { fileURLToPath } from "node:url";
import vm from "node:vm";

const [moduleFile, rowsFile] = process.argv.slice(2);
vm.runInThisContext(fs.readFileSync(fileURLToPath(new URL("../page/host.js", import.meta.url)), "utf8"));
const module = new WebAssembly.Module(fs.readFileSync(moduleFile));
const bytesOf = (text) => Buffer.from(text, "base64");

/** A file of the disk as a source; reads that fail, as of a folder, tell so. */
function opened(name) {
  try {
    return globalThis.sourceOf(fs.readFileSync(name));
  } catch (fault) {
    return fault.code === "EISDIR" ? { read: () => -1 } : null;
  }
}

/** What the row's run has of the world: the files of its folder, standard input, and the room of standard output. */
function worldOf(row, said) {
  const input = globalThis.sourceOf(bytesOf(row.input));
  let left = row.room ?? Infinity;
  return {
    input,
    open(name) {
      const text = Buffer.from(name).toString();
      return text === "/dev/stdin" ? input : opened(path.resolve(row.folder, text));
    },
    write(file, bytes) {
      const taken = file === 1 ? Math.min(bytes.length, left) : bytes.length;
      if (bytes.length && !taken) return -1;
      if (file === 1) left -= taken;
      said[file].push(Buffer.from(bytes.subarray(0, taken)));
      return taken;
    },
  };
}

/** How a run differs from its row, "" where it doesn't. */
function faultOf(row) {
  const said = { 1: [], 2: [] };
  const status = globalThis.runProgram(module, row.words.map(bytesOf), worldOf(row, said));
  if (status !== row.status) return `status ${status}, not ${row.status}`;
  const isSame = bytesOf(row.output).equals(Buffer.concat(said[1])) && bytesOf(row.complaints).equals(Buffer.concat(said[2]));
  return isSame ? "" : "other text";
}

let passed = 0, failed = 0;
for (const row of JSON.parse(fs.readFileSync(rowsFile, "utf8"))) {
  let fault;
  try {
    fault = faultOf(row);
  } catch (stopped) {
    fault = `the module stopped: ${stopped.message}`;
  }
  if (fault) console.log(`${row.name}: ${fault}`);
  fault ? failed++ : passed++;
}
console.log(`${passed} passed, ${failed} failed`);
process.exit(failed ? 1 : 0);
