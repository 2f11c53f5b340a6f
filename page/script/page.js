// The page: its tabs, and what is done when a file comes or goes.

const TABS = [["plan", "Plan"], ["picture", "Picture"], ["icd", "ICD"], ["loads", "Loads"], ["slots", "Slots"], ["changes", "Changes"],
  ["judge", "Judge"], ["words", "Words"]];
const NO_FILE = "Drop a spreadsheet of labels or an equipment table to see its plan.";
let analysis = 0; // the number of the last one

// A name for the table that no other file has: hints and buttons show it.
const TABLE_NAME = "table.toml";

class Outdated extends Error {}

// ---- Tabs

function makeTabs() {
  for (const [name, title] of TABS) {
    byId("tabs").append(element("button", { type: "button", role: "tab", id: `tab-${name}`, "aria-controls": name,
      onclick: () => openTab(name) }, title, element("span", { class: "count", hidden: true })));
    byId("panels").append(element("section", { role: "tabpanel", id: name, "aria-labelledby": `tab-${name}`, hidden: true }));
  }
  byId("tabs").addEventListener("keydown", (event) => {
    const at = TABS.findIndex(([name]) => `tab-${name}` === document.activeElement.id);
    const to = { ArrowRight: at + 1, ArrowLeft: at - 1, Home: 0, End: TABS.length - 1 }[event.key];
    if (to === undefined || at < 0) return;
    event.preventDefault();
    openTab(TABS[(to + TABS.length) % TABS.length][0]);
    document.querySelector("[aria-selected=true]").focus();
  });
}

function openTab(name) {
  for (const [other] of TABS) {
    byId(`tab-${other}`).setAttribute("aria-selected", String(other === name));
    byId(`tab-${other}`).tabIndex = other === name ? 0 : -1;
    byId(other).hidden = other !== name;
  }
}

// What a tab shows.
function panel(name, ...content) {
  byId(name).replaceChildren(...content.flat().filter(Boolean));
}

// A number next to the title of a tab.
function setCount(name, number, kind = "") {
  const place = byId(`tab-${name}`).querySelector(".count");
  place.hidden = number === "";
  place.textContent = number;
  place.className = `count ${kind}`;
}

// A further sentence of the verdict, which leads to a tab.
function addVerdict(tab, text, isBad) {
  if (isBad) byId("verdict").className = "note bad";
  byId("verdict").append(" ", element("a", { href: `#${tab}`, onclick: (event) => { event.preventDefault(); openTab(tab); } }, text));
}

// Whether results are still to come, for screen readers.
function setBusy(isBusy) {
  document.querySelector("main").setAttribute("aria-busy", String(isBusy));
}

// ---- From files to results

// The table of a spreadsheet or of a file, and what is needed to show a refusal of it. Undefined if the spreadsheet is refused.
async function tableOf(given) {
  if (given.role === "table") {
    const lines = tableLines(new Uint8Array(await given.blob.arrayBuffer()));
    return { table: fileOf(TABLE_NAME, given.blob), lines, texts: new Map(), warnings: [], isImported: false };
  }
  const spreadsheet = await spreadsheetOf(given);
  byId("columns").replaceChildren(columnForm(spreadsheet, () => analyse()));
  const imported = await run(spreadsheet.words(), [spreadsheet.input()]), lines = spreadsheetLines(spreadsheet);
  if (imported.status !== 0) {
    setVerdict("bad", element("b", {}, `${given.name} cannot be read. `), "The row at fault is below, with what is wrong in it.");
    panel("plan", refusal(imported, given.name, lines));
    return undefined;
  }
  return { table: fileOf(TABLE_NAME, imported.out), lines, texts: spreadsheet.texts(imported.text), warnings: hintsOf(imported, given.name), isImported: true };
}

async function showUnplanned({ table, lines, isImported }, given, plan) {
  setVerdict("bad", element("b", {}, "There is no plan. "), plan.text.startsWith("refused table")
    ? "The table has a fault." : "Some outputs cannot be planned as they are.");
  const lint = await run(["lint", table.name, "--json"], [table]);
  panel("plan", refusal(plan, table.name, lines), isImported ? bar(saveButton("table.toml", table.blob)) : null,
    lint.status < 2 ? findings(lint, lines, table.name) : null);
}

async function showTable(given, look) {
  const read = await tableOf(given);
  look();
  if (!read) return undefined;
  const { table } = read, ask = async (...words) => {
    const answer = await run(words, [table]);
    look();
    return answer;
  };
  const plan = await ask("plan", table.name);
  if (plan.status !== 0) {
    await showUnplanned(read, given, plan);
    return undefined;
  }
  const icd = (await ask("icd", table.name, "--json")).rows, lint = await ask("lint", table.name, "--json"), groups = groupsOf(plan.text, icd);
  const planned = { ...read, given, plan, icd, lint, groups, margin: (await ask("margin", table.name, "--json")).rows };
  const buses = groups.reduce((sum, group) => sum + group.buses, 0);
  setVerdict("good", element("b", {}, `${given.name}: ${count(buses, "bus", "buses")} `),
    `for ${count(icd.length, "output")} in ${count(groups.length, "group")}. For these periods fewer buses are not enough.`);
  showPlan(planned);
  setCount("plan", lint.rows.length || "", "warn");
  await showPicture(planned);
  showIcd(planned);
  await showLoads(planned);
  await showSlots(planned);
  await showChanges(planned);
  look();
  guessDirections(new Set(icd.map((row) => row.receiver)), new Set(groups.map((group) => group.name)));
  return planned;
}

function clear() {
  for (const [name, title] of TABS) {
    if (name === "words") continue;
    panel(name, element("p", { class: "dim" }, name === "plan" ? "" : `${title}: ${NO_FILE}`));
    setCount(name, "");
  }
  byId("columns").replaceChildren();
  commandsRun = [];
}

// Does all again with the files as they are. Of two at a time only the later one shows something.
async function analyse() {
  const mine = ++analysis, look = () => { if (mine !== analysis) throw new Outdated(); };
  const given = files.find(isTable);
  setBusy(true);
  clear();
  setVerdict("", given ? `Planning ${given.name}` : NO_FILE);
  try {
    const planned = given ? await showTable(given, look) : undefined;
    look();
    await showJudge(planned);
  } catch (error) {
    if (error instanceof Outdated || mine !== analysis) return;
    if (error instanceof Stopped) setVerdict("bad", "The run was stopped. Change a file or an option to run again.");
    else setVerdict("bad", element("b", {}, "The run broke off. "), `${error.message}. The page is ready again: a smaller file may do.`);
  }
  if (mine !== analysis) return;
  listCommands();
  setBusy(false);
}

function listCommands() {
  const rows = commandsRun.map((answer) => ({ command: ["a429", ...answer.words].join(" "), status: answer.status,
    ms: Math.round(answer.milliseconds * 10) / 10, MiB: Math.round(answer.memory / 104857.6) / 10 }));
  byId("runs").querySelector("div").replaceChildren(sheet(rows, { name: "commands", caption: "Commands that ran, with their time and memory" }));
}

const EXAMPLE = `group,rate,source,receiver,label,sdi,min_us,max_us,remark
displays,12500,altitude,adc,203,any,31250,62500,"left and right, 1013 hPa"
displays,12500,airspeed,adc,206,any,62500,125000,
recorder,12500,altitude,adc,203,any,62500,125000,
recorder,12500,pitch,irs,324,any,20000,40000,
recorder,12500,roll,irs,325,any,20000,40000,
`;

// ---- What people do

byId("pick").addEventListener("change", (event) => { takeFiles([...event.target.files]); event.target.value = ""; });
byId("example").addEventListener("click", () => takeFiles([new File([EXAMPLE], "example.csv")]));
byId("stop").addEventListener("click", () => { startWorker(); byId("working").hidden = true; });
for (const type of ["dragenter", "dragover"]) {
  addEventListener(type, (event) => { event.preventDefault(); document.body.classList.add("drag"); });
}
addEventListener("dragleave", (event) => { if (!event.relatedTarget) document.body.classList.remove("drag"); });
addEventListener("drop", (event) => {
  event.preventDefault();
  document.body.classList.remove("drag");
  byId("messages").replaceChildren();
  addFiles(droppedFiles(event.dataTransfer));
});

makeTabs();
openTab("plan");
startWorker();
showWords();
analyse();
