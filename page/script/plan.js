// The tabs Plan, Picture, ICD and Slots.

// The groups of a plan, by the lines of `plan`.
function groupsOf(planText, icd) {
  const groups = [];
  for (const line of planText.split("\n")) {
    const words = line.split(" "), after = (name) => Number(words[words.indexOf(name) + 1]);
    if (words[0] === "group") {
      const rows = icd.filter((row) => row.group === words[1]);
      groups.push({ name: words[1], rate: after("rate"), frame: after("frame"), buses: after("buses"), rows });
    } else if (words[0] === "bound") Object.assign(groups.at(-1), { cells: Number(words[1]), fewer: Number(words[3]) });
  }
  return groups;
}

// Why fewer buses are not enough.
function proofOf({ cells, fewer, frame, buses }) {
  if (!buses) return "The group has no outputs, and needs no bus.";
  if (!fewer) {
    return `The outputs fill ${cells.toLocaleString("en")} of the ${count(frame, "cell")} of a frame. One bus is enough, and without a bus `
      + "nothing is sent.";
  }
  const room = (fewer * frame).toLocaleString("en");
  return `The outputs fill ${cells.toLocaleString("en")} cells of a frame. ${count(fewer, "bus", "buses")} of ${frame.toLocaleString("en")} slots `
    + `${fewer === 1 ? "has" : "have"} only ${room} cells, so ${buses} are the fewest for these periods.`;
}

const slotMilliseconds = (group) => milliseconds(36e6 * group.frame / group.rate);

function groupTitle(group) {
  return element("h2", {}, group.name, element("small", {}, `${group.rate.toLocaleString("en")} bit/s · ${count(group.buses, "bus", "buses")} · `
    + `frame of ${count(group.frame, "slot")}, ${slotMilliseconds(group)} ms`));
}

const PLAN_TITLES = { offset: "first slot", period_slots: "period, slots", every: "every, ms", min: "min, ms", max: "max, ms", latency: "latency, ms" };

// The outputs of a group. `texts` has what the spreadsheet calls a source.
function outputsSheet(group, texts) {
  const rows = group.rows.map((row) => ({ ...row, parameter: texts.get(row.source) ?? "", every: row.period_us / 1000, min: row.min_us / 1000,
    max: row.max_us / 1000, latency: row.latency_us / 1000 })).sort((a, b) => a.bus - b.bus || a.offset - b.offset);
  const columns = ["bus", "offset", "label", "sdi", "source", ...hasTexts(texts) ? ["parameter"] : [], "receiver", "period_slots", "every", "min",
    "max", "latency", "hold"];
  const times = new Set(["every", "min", "max", "latency"]);
  return sheet(rows, { name: `plan-${group.name}`, caption: `Outputs of ${group.name}`, columns, titles: PLAN_TITLES,
    cell: (row, column) => times.has(column) ? milliseconds(row[column] * 1000) : undefined, mark: (row) => "band" + row.bus % 2 });
}

// Whether the spreadsheet says more of a source than its name.
const hasTexts = (texts) => [...texts].some(([name, text]) => text && text !== name);

// What `lint` finds, each with what to do about it.
function findings(lint, lines, name) {
  if (lint.status > 1) return refusal(lint, name, lines);
  const rows = lint.rows;
  if (!rows.length) return element("p", { class: "dim" }, "lint finds no likely mistake.");
  return element("details", { class: "warn", open: rows.length < 6 }, element("summary", {}, `${count(rows.length, "likely mistake")} (lint)`),
    element("ul", {}, hintsOf(lint, name).map((hint) => element("li", {}, hint.text))), sheet(rows, { name: "lint", caption: "Likely mistakes" }));
}

function showPlan({ table, plan, icd, lint, groups, texts, lines, isImported, warnings }) {
  const header = saveCommandButton("slots.h", ["slots", table.name, "--c"], [table], "text/x-c");
  panel("plan", warnings.length ? note("warn", element("ul", {}, warnings.map((hint) => element("li", {}, hint.text)))) : null,
    bar(saveButton("table.plan", plan.out), isImported ? saveButton("table.toml", table.blob) : null, header,
      lint.rows.length ? element("a", { href: "#findings" }, `${count(lint.rows.length, "likely mistake")}, below`) : null),
    groups.flatMap((group) => [groupTitle(group), element("p", { class: "proof" }, proofOf(group)), outputsSheet(group, texts)]),
    element("div", { id: "findings" }, findings(lint, lines, table.name)));
}

// ---- Picture

// A choice of a group. It is called with the options of a command.
function groupChoice(groups, all, changed) {
  const options = [["", all], ...groups.map((group) => [group.name, group.name])];
  return element("label", {}, "Group", element("select", { onchange: (event) => changed(event.target.value) }, choices(options, "")));
}

function showPicture({ table, groups }) {
  const place = element("div");
  let chosen = [], width = [];
  const draw = async () => {
    const answer = await run(["draw", table.name, ...chosen, ...width], [table]);
    if (answer.status !== 0) return place.replaceChildren(refusal(answer, table.name));
    const svg = new DOMParser().parseFromString(answer.text, "image/svg+xml").documentElement;
    place.replaceChildren(element("div", { class: "picture scroll", role: "region", tabindex: "0", "aria-label": "Picture of the slot tables" },
      document.importNode(svg, true)), bar(saveButton("slots.svg", answer.out, "image/svg+xml")));
  };
  const widths = element("label", {}, "Slots in a row", element("select", { onchange: (event) => {
    width = ["--width", event.target.value];
    draw();
  } }, choices([["64", "64"], ["128", "128"], ["256", "256"]], "64")));
  panel("picture", element("p", { class: "dim" }, "A row is a bus, a column is a slot. A coloured cell sends the label that is written in it; "
    + "point at it to see its source."),
    bar(groupChoice(groups, "all groups", (name) => { chosen = name ? ["--group", name] : []; draw(); }), widths,
      saveCommandButton("review.html", ["draw", table.name, "--html"], [table], "text/html")), place);
  return draw();
}

// ---- ICD

function showIcd({ table, icd, texts }) {
  const rows = hasTexts(texts)
    ? icd.map(({ group, rate, source, ...rest }) => ({ group, rate, source, parameter: texts.get(source) ?? "", ...rest })) : icd;
  panel("icd", element("p", { class: "dim" }, "The data of each output for an interface control document. latency_us counts from the "
    + "acceptance of a word to the end of the slot that sends it, or a newer one."),
    bar(saveCommandButton("icd.csv", ["icd", table.name, "--csv", "--text"], [table], "text/csv"),
      saveCommandButton("icd.json", ["icd", table.name, "--json"], [table], "application/json"),
      saveCommandButton("buses.csv", ["buses", table.name, "--csv"], [table], "text/csv")),
    sheet(rows, { caption: "icd" }));
}

// ---- Slots

async function showSlots({ table, groups }) {
  const place = element("div");
  let chosen = groups[0] ? ["--group", groups[0].name] : [], all = [];
  const show = async () => {
    const answer = await run(["slots", table.name, ...chosen, ...all, "--json"], [table]);
    if (answer.status !== 0) return place.replaceChildren(refusal(answer, table.name));
    const rows = answer.rows;
    place.replaceChildren(bar(saveCommandButton("slots.csv", ["slots", table.name, ...chosen, ...all, "--csv"], [table], "text/csv"),
      saveCommandButton("slots.h", ["slots", table.name, ...chosen, "--c"], [table], "text/x-c")),
    rows.length ? sheet(rows, { caption: "Cells in the order in which they are sent", titles: { time_us: "time, µs", period_slots: "period, slots" },
      mark: (row) => row.source == null ? "dim" : null }) : element("p", { class: "dim" }, "The group has no cells."));
  };
  const group = element("label", {}, "Group", element("select", { onchange: (event) => {
    chosen = event.target.value ? ["--group", event.target.value] : [];
    show();
  } }, choices([...groups.map((g) => [g.name, g.name]), ["", "all groups"]], groups[0]?.name ?? "")));
  const empty = element("label", {}, element("input", { type: "checkbox", onchange: (event) => {
    all = event.target.checked ? ["--all"] : [];
    show();
  } }), "empty cells too");
  panel("slots", bar(group, empty), place);
  await show();
}
