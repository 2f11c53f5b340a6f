// The tab Judge: recordings.

// What each finding of `judge` means.
const FINDINGS = {
  wrong: "no equal word had come in by then",
  stale: "a later word had come in long before",
  soon: "it came sooner after the send before than the minimum interval",
  late: "it came later after the send before than the maximum interval",
  again: "the word was sent more often than its hold allows",
  silent: "nothing was sent after it, although the recordings go on",
  missed: "neither this word nor a later one was sent in time",
  foreign: "no output of the group sends such a word on this bus",
};
const VERDICTS = { "not-sent": "not sent", "too-short": "too short to say", alike: "not judged: two outputs look alike" };

const recordings = { tolerance: "", isFromFirst: false, channels: new Map() };

// The options by which recordings are read.
function logOptions() {
  const unit = files.find(isLog)?.unit ?? "us";
  return [...unit === "us" ? [] : ["--time", unit], ...recordings.isFromFirst ? ["--from", "first"] : [],
    ...[...recordings.channels].filter(([, to]) => to).flatMap(([from, to]) => ["--channel", `${from}=${to}`])];
}

// The names in recordings that are none of the table, with what each may be: pairs of a name and its choices.
function unknownNames(icd, groups) {
  const receivers = [...new Set(icd.map((row) => row.receiver))];
  const buses = groups.flatMap((group) => [group.name, ...Array.from({ length: group.buses }, (_, bus) => `${group.name}.${bus}`)]);
  return files.filter(isLog).flatMap((file) => {
    const known = { came: receivers, sent: buses, both: [...receivers, ...buses] }[file.role];
    return file.names.filter((name) => !known.includes(name)).map((name) => [name, known]);
  });
}

// The options for recordings, next to the files.
function logForm(unknown) {
  const logs = files.filter(isLog);
  if (!logs.length) return byId("logs").replaceChildren();
  const row = (name, control) => element("label", {}, element("span", {}, name), control);
  const unit = element("select", { onchange: (event) => {
    for (const file of logs) file.unit = event.target.value;
    analyse();
  } }, choices([["us", "µs"], ["ms", "ms"], ["s", "s"]], logs[0].unit));
  const tolerance = element("input", { type: "text", placeholder: "automatic", size: "9", value: recordings.tolerance, onchange: (event) => {
    recordings.tolerance = event.target.value.trim();
    analyse();
  } });
  const first = element("input", { type: "checkbox", checked: recordings.isFromFirst, onchange: (event) => {
    recordings.isFromFirst = event.target.checked;
    analyse();
  } });
  const channel = ([name, known]) => row(name, element("select", { onchange: (event) => {
    recordings.channels.set(name, event.target.value);
    analyse();
  } }, choices([["", "– not in the table –"], ...known.map((to) => [to, to])], recordings.channels.get(name) ?? "")));
  return byId("logs").replaceChildren(element("fieldset", {}, element("legend", {}, "Recordings"), row("times in", unit),
    row("tolerance, µs", tolerance), row("from first word", first), unknown.map(channel)));
}

// The lines of a recording around a fault, if it is not too long to show.
async function logLines(answer) {
  const file = files.filter(isLog).find((log) => answer.hints.includes(log.name));
  if (!file || file.size > LARGEST_TABLE) return { name: file?.name };
  return { name: file.name, lines: new Lines(textLines(await file.blob.text()), { isCode: true }) };
}

async function logRefusal(answer) {
  const { name, lines } = await logLines(answer);
  const fault = /line (\d+)/.exec(answer.text);
  const shown = refusal(answer, name, lines);
  if (fault && lines && !shown.querySelector("tr")) shown.append(rowsAtFault(lines, [{ line: Number(fault[1]), text: "this line" }]));
  return shown;
}

const JUDGE_TITLES = { least_us: "least, µs", greatest_us: "greatest, µs", late_us: "latest, µs", tolerance_us: "tolerance, µs" };
const SURVEY_TITLES = { ...JUDGE_TITLES, mean_us: "mean, µs", first_us: "first, µs", last_us: "last, µs", load: "load, %" };

function judgedSheet(rows, name, caption) {
  const mark = (row) => row.verdict === "bad" ? "fault" : row.verdict === "ok" ? null : "dim";
  return sheet(rows, { name, caption, titles: JUDGE_TITLES, mark,
    cell: (row, column) => FINDINGS[column] && row[column] > 0 ? element("b", {}, String(row[column]))
      : column === "verdict" ? VERDICTS[row.verdict] ?? row.verdict : undefined });
}

function showJudged(judged, events) {
  const bad = judged.filter((row) => row.verdict === "bad"), rest = judged.filter((row) => row.verdict !== "bad");
  const kinds = Object.keys(FINDINGS).map((kind) => [kind, events.filter((event) => event.finding === kind).length])
    .filter(([, number]) => number);
  const meaning = ([kind, number]) => element("li", {}, element("b", {}, `${number} ${kind}`), `: ${FINDINGS[kind]}`);
  const parts = [note(bad.length ? "bad" : "good", element("b", {}, bad.length
    ? `${count(events.length, "finding")} in ${bad.length} of ${count(judged.length, "row")}.` : "Nothing is wrong in what was sent."),
  ...kinds.length ? [element("ul", {}, kinds.map(meaning))] : [])];
  if (bad.length) parts.push(judgedSheet(bad, "judge-bad", "Rows with a finding"));
  if (events.length) {
    const found = events.map((event) => ({ moment: momentText(event.time_us), ...event, means: FINDINGS[event.finding] }));
    parts.push(element("h2", {}, "When to look"), sheet(found, { name: "findings", caption: "Each finding, with its time in the recordings",
      titles: { moment: "min:s", time_us: "time, µs", means: "what it means" } }));
  }
  if (rest.length) {
    const table = judgedSheet(rest, "judge", "Rows without a finding");
    parts.push(bad.length ? element("details", {}, element("summary", {}, `${count(rest.length, "row")} without a finding`), table) : table);
  }
  return parts;
}

async function judge({ table }, came, sent) {
  const all = [table, ...came, ...sent];
  const words = ["judge", table.name, came[0].name, ...sent.map((file) => file.name), ...came.slice(1).flatMap((file) => ["--in", file.name]),
    ...logOptions(), ...recordings.tolerance ? ["--tolerance", recordings.tolerance] : []];
  const judged = await run([...words, "--json"], all);
  if (judged.status > 1) {
    setCount("judge", "!");
    return [note("bad", "The recordings cannot be judged."), await logRefusal(judged)];
  }
  const events = (await run([...words, "--events", "--json"], all)).rows, bad = judged.rows.filter((row) => row.verdict === "bad").length;
  setCount("judge", bad || "");
  addVerdict("judge", bad ? `The recordings have ${count(events.length, "finding")}.` : "The recordings have no finding.", bad > 0);
  return showJudged(judged.rows, events);
}

// What a concentrator with this plan would send for what came in.
async function simulated({ table }, came) {
  const words = ["simulate", table.name, ...came.map((file) => file.name), ...logOptions()], all = [table, ...came];
  const answer = await run([...words, "--summary", "--json"], all);
  if (answer.status !== 0) return [note("bad", "The recording cannot be simulated."), await logRefusal(answer)];
  return [element("p", {}, "This is what a concentrator with this plan sends for what came in. To judge a box, drop a recording of what it "
    + "sent, on the same clock."),
  bar(saveCommandButton("sent.log", [...words, "--sent"], all), saveCommandButton("simulated.csv", [...words, "--csv"], all, "text/csv")),
  sheet(answer.rows, { name: "simulated", caption: "Words that are sent, by output", titles: { ...JUDGE_TITLES, bound_us: "bound, µs" },
    mark: (row) => row.late_us > row.bound_us ? "fault" : null })];
}

async function surveyed(file) {
  const words = ["survey", file.name, ...logOptions()], answer = await run([...words, "--json"], [file]);
  if (answer.status !== 0) return element("div", {}, element("h2", {}, file.name), await logRefusal(answer));
  return element("details", { open: files.filter(isLog).length < 2 }, element("summary", {}, `What is on ${file.name} (survey)`),
    sheet(answer.rows, { name: "survey", caption: file.name, titles: SURVEY_TITLES }),
    bar(saveCommandButton("rows.csv", [...words, "--rows"], [file], "text/csv")));
}

// Judges what was sent, or simulates what came in. Without a plan there is only the survey.
async function showJudge(planned) {
  const [came, sent, both] = ["came", "sent", "both"].map((role) => files.filter((file) => file.role === role)), parts = [];
  setCount("judge", "");
  logForm(planned ? unknownNames(planned.icd, planned.groups) : []);
  if (!files.some(isLog)) {
    return panel("judge", element("p", { class: "dim" }, "Drop a recording of what came in, and one of what your box sent. Both need one "
      + "clock. A line is a time, a name and a word: 47000 adc e4b100c1. Files of bus analysers with a heading are taken too."));
  }
  if (planned && both.length) parts.push(...await judge(planned, both, []));
  else if (planned && came.length && sent.length) parts.push(...await judge(planned, came, sent));
  else if (planned && came.length) parts.push(...await simulated(planned, came));
  else {
    parts.push(element("p", { class: "dim" }, planned ? "Drop a recording of what came in, too."
      : "Drop a spreadsheet or a table to judge the recordings."));
  }
  for (const file of [...came, ...sent, ...both]) parts.push(await surveyed(file));
  return panel("judge", ...parts);
}
