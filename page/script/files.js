// The files that were dropped or chosen, and what each of them is.

const ROLES = {
  sheet: "spreadsheet", table: "equipment table", otherSheet: "other spreadsheet", otherTable: "other table", came: "what came in",
  sent: "what was sent", both: "both, in one file", unused: "not used",
};
const LARGEST_TABLE = 16 * 1024 * 1024, LARGEST_LOG = 1024 * 1024 * 1024;
const isTable = (file) => file.role === "table" || file.role === "sheet";
const isOther = (file) => file.role === "otherTable" || file.role === "otherSheet";
const isLog = (file) => ["came", "sent", "both"].includes(file.role);

let files = [];
let spreadsheets = new Map(); // by the files that they are of

function message(text) {
  byId("messages").append(note("bad", text));
}

// Why a file cannot be used; nothing if it can.
async function troubleOf(file) {
  const first = new Uint8Array(await file.slice(0, 8).arrayBuffer());
  const begins = (...bytes) => bytes.every((byte, i) => first[i] === byte);
  if (begins(0x50, 0x4b, 3, 4) || begins(0xd0, 0xcf, 0x11, 0xe0)) {
    return `${file.name} is a workbook. Save its sheet as comma-separated values (CSV), and drop that file.`;
  }
  if (file.size > LARGEST_LOG) return `${file.name} has ${sizeText(file.size)}. A recording may have 1 GiB: cut it into pieces.`;
  return undefined;
}

// The files of a drop, without folders.
function droppedFiles(transfer) {
  const entries = [...transfer.items].filter((item) => item.kind === "file").map((item) => [item.webkitGetAsEntry?.(), item.getAsFile()]);
  for (const [entry] of entries.filter(([entry]) => entry?.isDirectory)) message(`${entry.name} is a folder. Drop the files that are in it.`);
  return entries.filter(([entry, file]) => file && !entry?.isDirectory).map(([, file]) => file);
}

async function takeFiles(list) {
  byId("messages").replaceChildren();
  await addFiles(list);
}

async function addFiles(list) {
  let isChanged = false;
  setBusy(true);
  for (const file of list) {
    const trouble = await troubleOf(file).catch(() => `${file.name} cannot be read. If it is a folder, drop the files that are in it.`);
    if (trouble) {
      message(trouble);
      continue;
    }
    files = files.filter((other) => other.name !== file.name);
    const taken = Object.assign(fileOf(file.name, file), { size: file.size, role: "unused" });
    await guessRole(taken);
    if (!isLog(taken) && taken.role !== "unused" && taken.size > LARGEST_TABLE) {
      message(`${taken.name} has ${sizeText(taken.size)}. A spreadsheet or a table may have 16 MiB.`);
      taken.role = "unused";
    }
    files.push(taken);
    isChanged = true;
  }
  listFiles();
  if (isChanged) await analyse();
  else setBusy(false);
}

// Guesses what a file is by its first lines. The second table is compared with the first one.
async function guessRole(file) {
  const start = decoder.decode(new Uint8Array(await file.blob.slice(0, 65536).arrayBuffer()));
  const text = file.size > 65536 ? start.slice(0, start.lastIndexOf("\n") + 1) : start;
  const asTable = /^\s*(\[\[?\s*(receiver|source|group)|version\s*=|rate\s*=)/m.test(text);
  if (!asTable) await guessLog(file, text);
  if (file.role === "unused") {
    const another = files.some(isTable);
    file.role = asTable ? another ? "otherTable" : "table" : another ? "otherSheet" : "sheet";
  }
}

// A recording is one that `survey` can read, in one of the units of time.
async function guessLog(file, text) {
  for (const unit of ["us", "s", "ms"]) {
    const head = fileOf(file.name, text), answer = await run(["survey", head.name, "--time", unit, "--json"], [head]);
    if (answer.status !== 0) continue;
    const rows = answer.rows;
    if (!rows.length) return;
    file.unit = unit;
    file.names = [...new Set(rows.map((row) => row.name))];
    file.role = /sent|out|tx|record/i.test(file.name) && !/receiv/i.test(file.name) ? "sent" : "came";
    file.isGuessed = true;
    return;
  }
}

// If the table is known, the names in a recording say whether it came in or was sent.
function guessDirections(receivers, groups) {
  for (const file of files.filter((file) => isLog(file) && file.isGuessed)) {
    const isGroup = (name) => groups.has(name.replace(/\.\d+$/, ""));
    if (file.names.every((name) => receivers.has(name))) file.role = "came";
    else if (file.names.every(isGroup)) file.role = "sent";
    else if (file.names.some((name) => receivers.has(name)) && file.names.some(isGroup)) file.role = "both";
    file.isGuessed = false;
  }
  listFiles();
}

async function spreadsheetOf(file) {
  if (!spreadsheets.has(file)) spreadsheets.set(file, new Spreadsheet(file, new Uint8Array(await file.blob.arrayBuffer())));
  return spreadsheets.get(file);
}

// Gives a file another role. A table takes the place of the one that was planned before.
function setRole(file, role) {
  file.role = role;
  file.isGuessed = false;
  for (const other of files.filter((other) => other !== file)) {
    if (isTable(file) && isTable(other)) other.role = other.role === "table" ? "otherTable" : "otherSheet";
    if (isOther(file) && isOther(other)) other.role = "unused";
  }
  listFiles();
  analyse();
}

function removeFile(file) {
  files = files.filter((other) => other !== file);
  spreadsheets.delete(file);
  worker.postMessage({ forget: file.key });
  listFiles();
  analyse();
  byId("pick").focus();
}

function listFiles() {
  byId("files").replaceChildren(...files.map((file) => element("li", { class: file.role },
    element("b", {}, file.name), element("small", {}, sizeText(file.size)),
    element("select", { "aria-label": `What ${file.name} is`, onchange: (event) => setRole(file, event.target.value) },
      choices(Object.entries(ROLES), file.role)),
    element("button", { type: "button", "aria-label": `Remove ${file.name}`, title: "Remove", onclick: () => removeFile(file) }, "×"))));
}
