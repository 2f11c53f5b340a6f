// Refusals: each hint next to the row or the line that it is about.

// A hint `a429: FILE, line N, column C: TEXT` and the like, in its parts.
function hintOf(line, name) {
  const rest = line.replace(/^a429: /, "").replace(name, "").replace(/^[,:] */, "");
  const inToml = /at line (\d+), column \d+$/.exec(rest);
  if (inToml) return { line: Number(inToml[1]), text: rest };
  const at = /^line (\d+)(?:, column ([^:]+))?: /.exec(rest);
  if (at) return { line: Number(at[1]), column: at[2], text: rest.slice(at[0].length) };
  const output = /^group ([^,: ]+)(?:, output of source ([^,: ]+))?: /.exec(rest);
  if (output) return { group: output[1], source: output[2], text: rest.slice(output[0].length) };
  return { place: /^(?:receiver|source|group|output) \d+(?: \d+)?/.exec(rest)?.[0], text: rest };
}

function hintsOf(answer, name) {
  return answer.hints.split("\n").filter(Boolean).map((line) => hintOf(line, name));
}

// What a refusal is shown in: lines of a file, each with its cells, and where things are in it.
class Lines {
  constructor(rows, { heading, isCode = false, findOutput = () => undefined, findPlace = () => undefined } = {}) {
    Object.assign(this, { rows, heading, isCode, findOutput, findPlace });
  }

  // The number of the line that a hint is about.
  lineOf(hint) {
    if (hint.line != null) return hint.line;
    return hint.group ? this.findOutput(hint.group, hint.source) : this.findPlace(hint.place);
  }
}

function textLines(text) {
  return text.split("\n").map((line, i) => ({ line: i + 1, cells: [line] }));
}

// The lines of an equipment table, with the lines on which its rows begin: `source 0`, `output 0 1`, and by names `displays/altitude`.
function tableLines(bytes) {
  const rows = textLines(decoder.decode(bytes)), places = new Map(), counts = { receiver: 0, source: 0, group: 0, output: 0 };
  let group = "", kind = "";
  for (const { line, cells: [text] } of rows) {
    const begin = /^\s*\[\[\s*(receiver|source|group)(\s*\.\s*output)?\s*\]\]/.exec(text);
    const named = /^\s*(name|source)\s*=\s*"([^"]*)"/.exec(text), inline = /^\s*\{.*\bsource\s*=\s*"([^"]*)"/.exec(text);
    if (begin) {
      kind = begin[2] ? "output" : begin[1];
      if (kind === "group") counts.output = 0;
      places.set(kind === "output" ? `output ${counts.group - 1} ${counts.output++}` : `${kind} ${counts[kind]++}`, line);
    } else if (inline && kind === "group") {
      places.set(`output ${counts.group - 1} ${counts.output++}`, line).set(`${group}/${inline[1]}`, line);
    } else if (named && kind === "group" && named[1] === "name") {
      group = named[2];
      places.set(group, line);
    } else if (named && kind === "output" && named[1] === "source") places.set(`${group}/${named[2]}`, line);
  }
  return new Lines(rows, { isCode: true, findPlace: (place) => places.get(place),
    findOutput: (name, source) => places.get(source ? `${name}/${source}` : name) });
}

// The rows of a spreadsheet.
function spreadsheetLines(spreadsheet) {
  // a source has the name of its text, or that of its receiver and label
  const isOf = (row, source) => [nameOf(spreadsheet.cell(row, "source")), spreadsheet.sourceName(row)].includes(source);
  const findOutput = (group, source) => spreadsheet.dataRows().find((row) => nameOf(spreadsheet.cell(row, "group")) === group
    && (!source || isOf(row, source)))?.line;
  return new Lines(spreadsheet.rows, { heading: spreadsheet.heading, findOutput });
}

// The rows around those at fault, with a hint below each of these.
function rowsAtFault({ rows, heading, isCode }, hints) {
  const body = element("tbody"), faulty = [...new Set(hints.map((hint) => hint.line))];
  const columnAt = (name) => heading?.cells.findIndex((text) => plainHeading(text) === plainHeading(name ?? "")) ?? -1;
  let before;
  rows.forEach((row, i) => {
    const next = rows[i + 1]?.line ?? Infinity, here = hints.filter((hint) => hint.line >= row.line && hint.line < next);
    if (row !== heading && !faulty.some((line) => Math.abs(line - row.line) <= 3)) return;
    if (before !== undefined && i > before + 1) {
      body.append(element("tr", { class: "left-out" }, element("td", { colspan: row.cells.length + 1 }, "⋯")));
    }
    before = i;
    const at = new Set(here.map((hint) => columnAt(hint.column)));
    body.append(element("tr", { class: row === heading ? "heading" : here.length ? "fault" : null },
      element("td", { class: "number dim" }, String(row.line)),
      row.cells.map((cell, k) => element("td", { class: isCode ? "code" : at.has(k) && "at" }, cell))));
    for (const hint of here) {
      body.append(element("tr", { class: "hint" }, element("td"), element("td", { colspan: Math.max(row.cells.length, 1) }, "▲ ",
        hint.column ? element("b", {}, hint.column + ": ") : null, hint.text)));
    }
  });
  return element("div", { class: "scroll", role: "region", tabindex: "0", "aria-label": "Rows at fault" }, element("table", {}, body));
}

// What a command refused. `lines` are those of the file that it refused, which has this name.
function refusal(answer, name = "", lines = undefined) {
  const hints = hintsOf(answer, name);
  hints.forEach((hint, i) => {
    hint.line = lines?.lineOf(hint);
    // A hint without a place goes on from the one before.
    if (hint.line == null && i && !hint.group && !hint.place) hint.line = hints[i - 1].line;
  });
  const placed = hints.filter((hint) => hint.line != null), loose = hints.filter((hint) => hint.line == null);
  const place = (hint) => hint.group ? `${hint.group}${hint.source ? ", " + hint.source : ""}: ` : "";
  return element("div", { class: "refusal", role: "group", "aria-label": "Refusal" },
    element("p", { class: "line" }, answer.text.trim() || "the arguments are refused"),
    lines && placed.length ? rowsAtFault(lines, placed) : null,
    loose.length ? element("ul", {}, loose.map((hint) => element("li", {}, place(hint), hint.text))) : null);
}
