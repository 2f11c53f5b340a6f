// The module, in a worker: the page stays usable during a run, and a run can be stopped.

const NEEDED = "This page needs WebAssembly with 64-bit memory. Chromium, Chrome and Edge have it from version 133 on, Firefox from 134 on.";
let mostPages = 65536; // of 64 KiB: 4 GiB, as many as the module takes
let worker, ready, lastId = 0, lastKey = 0;
let waiting = new Map();
let commandsRun = [];

class Stopped extends Error {}

// What a command wrote, and its status.
class Answer {
  constructor(words, { status, out, err, milliseconds, memory }) {
    Object.assign(this, { words, status, out, err, milliseconds, memory });
  }

  get text() { return decoder.decode(this.out); }
  get hints() { return decoder.decode(this.err); }
  get rows() { return JSON.parse(this.text); }
}

// A file as commands get it: a name and bytes.
function fileOf(name, content) {
  return { name, blob: content instanceof Blob ? content : new Blob([content]), key: ++lastKey };
}

async function moduleBytes() {
  const packed = Uint8Array.from(atob(byId("module").textContent.trim()), (c) => c.charCodeAt(0));
  return new Uint8Array(await new Response(new Blob([packed]).stream().pipeThrough(new DecompressionStream("gzip"))).arrayBuffer());
}

function hasLongMemory() {
  try {
    return new WebAssembly.Memory({ address: "i64", initial: 0n, maximum: 1n }).grow(0n) === 0n;
  } catch {
    return false;
  }
}

function take({ data }) {
  const asked = waiting.get(data.id);
  if (!asked) return;
  if (data.name) asked.tell(`Reading ${data.name}: ${sizeText(data.done)} of ${sizeText(data.size)}`, data.done / data.size);
  else if (data.begun) asked.tell(asked.doing);
  else {
    waiting.delete(data.id);
    if (!data.failed) return asked.resolve(data.answer);
    if (data.isTrap) startWorker();
    asked.reject(new Error(data.failed));
  }
}

// Starts a worker. One that runs is stopped first, with all that it does.
function startWorker() {
  worker?.terminate();
  for (const { reject } of waiting.values()) reject(new Stopped("stopped"));
  waiting = new Map();
  worker = new Worker(URL.createObjectURL(new Blob([byId("worker").textContent], { type: "text/javascript" })));
  worker.onmessage = take;
  worker.onerror = (event) => {
    for (const { reject } of waiting.values()) reject(new Error(event.message ?? "the worker ended"));
    waiting = new Map();
  };
  ready = hasLongMemory() ? moduleBytes().then((module) => ask({ module, mostPages }, "Preparing the commands"))
    : Promise.reject(new Error("no 64-bit memory"));
  ready.catch((error) => {
    if (!(error instanceof Stopped)) setVerdict("bad", element("b", {}, "This browser cannot run the commands. "), NEEDED, ` (${error.message})`);
  });
}

function ask(message, doing) {
  const id = ++lastId;
  return new Promise((resolve, reject) => {
    waiting.set(id, { resolve, reject, doing, tell: tellProgress });
    worker.postMessage({ id, ...message });
  });
}

// Runs a command over files.
async function run(words, files = []) {
  await ready;
  showWorking();
  try {
    const sizes = files.reduce((sum, file) => sum + file.blob.size, 0);
    const answer = new Answer(words, await ask({ words, files }, `${words[0]} over ${sizeText(sizes)}`));
    commandsRun.push(answer);
    return answer;
  } finally {
    if (!waiting.size) byId("working").hidden = true;
  }
}

// ---- What is shown during a run

let began = 0, doing = "";

function tellProgress(text, share) {
  const progress = document.querySelector("#working progress");
  doing = text;
  if (share === undefined) progress.removeAttribute("value");
  else progress.value = share;
  showDoing();
}

function showDoing() {
  const seconds = Math.floor((performance.now() - began) / 1000);
  byId("doing").textContent = seconds ? `${doing}, ${count(seconds, "second")}` : doing;
}

// A short run shows nothing.
function showWorking() {
  if (waiting.size) return;
  const mine = began = performance.now();
  setTimeout(() => { if (began === mine && waiting.size) byId("working").hidden = false; }, 300);
}

setInterval(() => { if (!byId("working").hidden) showDoing(); }, 500);
