"use strict";
// Runs commands on the module, each on an instance and a memory of its own: nothing is left of a call.

let compiled, mostPages;
const bytesOf = new Map(); // of long files, by their keys
const encoder = new TextEncoder();
const LONG_FILE = 1 << 20;

// What a429_command answers.
const GIVEN = 0, NO_MEMORY = 1, TOO_MUCH = 2;

class OutOfMemory extends Error {}

// The bytes of a file. A long one is read once, until the page forgets it; `tell` is told how many bytes are read.
async function read(file, tell) {
  if (file.blob.size < LONG_FILE) return new Uint8Array(await file.blob.arrayBuffer());
  if (!bytesOf.has(file.key)) {
    const bytes = new Uint8Array(file.blob.size), reader = file.blob.stream().getReader();
    let at = 0;
    for (let next = await reader.read(); !next.done; next = await reader.read()) {
      bytes.set(next.value, at);
      at += next.value.length;
      tell(at);
    }
    bytesOf.set(file.key, bytes);
  }
  return bytesOf.get(file.key);
}

// A call: an instance, and its memory.
class Call {
  constructor() {
    this.memory = new WebAssembly.Memory({ address: "i64", initial: 256n, maximum: BigInt(mostPages) });
    this.exports = new WebAssembly.Instance(compiled, { env: { memory: this.memory } }).exports;
  }

  room(size) {
    const at = this.exports.a429_room(BigInt(size));
    if (at === 0n) throw new OutOfMemory();
    return at;
  }

  bytes(at, size) {
    return new Uint8Array(this.memory.buffer, Number(at), size);
  }

  // Puts parts one after another into the memory.
  put(parts) {
    const at = this.room(parts.reduce((sum, part) => sum + part.length, 0));
    let next = Number(at);
    for (const part of parts) {
      this.bytes(next, part.length).set(part);
      next += part.length;
    }
    return at;
  }

  // Does the command of these arguments over these files, which are pairs of a name and bytes.
  command(words, files) {
    const parts = [...[...words, ...files.map(([name]) => name)].map((text) => encoder.encode(text)), ...files.map(([, bytes]) => bytes)];
    const sizes = this.put([new Uint8Array(new BigUint64Array(parts.map((part) => BigInt(part.length))).buffer)]);
    const bytes = this.put(parts), length = parts.reduce((sum, part) => sum + part.length, 0), answer = this.room(24);
    for (let size = 1 << 16; ;) {
      const room = this.room(size);
      const code = this.exports.a429_command(sizes, BigInt(parts.length), bytes, BigInt(length), BigInt(words.length), room, BigInt(size),
        answer);
      if (code === NO_MEMORY) throw new OutOfMemory();
      const [status, out, err] = Array.from(new BigUint64Array(this.memory.buffer, Number(answer), 3), Number);
      if (code === GIVEN) {
        const at = Number(room);
        return { status, out: this.bytes(at, out).slice(), err: this.bytes(at + out, err).slice() };
      }
      if (code !== TOO_MUCH) throw new Error("the module did not understand the call");
      this.exports.a429_give_back(room);
      size = out + err;
    }
  }
}

async function run({ id, words, files }) {
  const given = [];
  for (const file of files) {
    const tell = (done) => postMessage({ id, name: file.name, done, size: file.blob.size });
    given.push([file.name, await read(file, tell)]);
  }
  postMessage({ id, begun: true });
  const began = performance.now();
  let call;
  try {
    call = new Call();
    const answer = call.command(words, given);
    return { ...answer, milliseconds: performance.now() - began, memory: call.memory.buffer.byteLength };
  } catch (error) {
    // the program writes this line too, if it can
    if (!(error instanceof OutOfMemory || error instanceof RangeError)) throw error;
    const out = encoder.encode("refused memory\n");
    return { status: 1, out, err: new Uint8Array(), milliseconds: performance.now() - began, memory: call?.memory.buffer.byteLength ?? 0 };
  }
}

let last = Promise.resolve();
onmessage = ({ data }) => {
  if (data.forget) return void bytesOf.delete(data.forget);
  last = last.then(async () => {
    try {
      if (data.module) {
        compiled = await WebAssembly.compile(data.module);
        mostPages = data.mostPages;
        postMessage({ id: data.id, answer: true });
      } else {
        postMessage({ id: data.id, answer: await run(data) });
      }
    } catch (error) {
      postMessage({ id: data.id, failed: String(error?.message ?? error), isTrap: error instanceof WebAssembly.RuntimeError });
    }
  });
};
