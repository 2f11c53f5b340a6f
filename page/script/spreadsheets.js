// A spreadsheet as text: its rows and its columns. Only to show them and to choose columns: the command `import` reads the file itself.

// What headings mean which column.
const HEADINGS = {
  group: /^(group|dest|destination|to|lru|consumer|target|receiving lru)/,
  rate: /^(rate|bus|speed|bus speed|bit ?rate|baud)/,
  source: /^(source|parameter|signal|name|label name|description)/,
  receiver: /^(receiver|equipment|lru|source|from|transmitter|input|producer)/,
  label: /^(label|octal)/,
  sdi: /^sdi/,
  rate_hz: /^(rate|interval).*hz/,
  max_hz: /^max.*hz/,
  min_hz: /^min.*hz/,
  interval_ms: /^interval.*ms/,
  interval_us: /^interval/,
  min_ms: /^min.*ms/,
  max_ms: /^max.*ms/,
  min_us: /^min/,
  max_us: /^max/,
};
// The columns that a limit of the interval can be in, with their units. Those of both limits come first.
const BOTH = { rate_hz: "both, Hz", interval_ms: "both, ms", interval_us: "both, µs" };
const LIMITS = { min: { max_hz: "Hz", min_ms: "ms", min_us: "µs" }, max: { min_hz: "Hz", max_ms: "ms", max_us: "µs" } };
const limitsOf = (kind) => ({ ...BOTH, ...LIMITS[kind] });
const COLUMNS = ["group", "rate", "source", "receiver", "label", "sdi", "min", "max"];
const NO_HEADING = -1, MADE = -2, MADE_HEADING = "made source";

function spreadsheetText(bytes) {
  if (bytes[0] === 0xff && bytes[1] === 0xfe) return new TextDecoder("utf-16le").decode(bytes);
  if (bytes[0] === 0xfe && bytes[1] === 0xff) return new TextDecoder("utf-16be").decode(bytes);
  try {
    return new TextDecoder("utf-8", { fatal: true }).decode(bytes);
  } catch {
    return new TextDecoder("windows-1252").decode(bytes);
  }
}

// The rows that are not empty, each with the line on which it begins.
function spreadsheetRows(text) {
  const begin = text.slice(0, 4000);
  const separator = [",", ";", "\t"].reduce((best, s) => begin.split(s).length > begin.split(best).length ? s : best);
  const rows = [];
  let cells = [], cell = "", isQuoted = false, line = 1, first = 1;
  const endRow = () => {
    cells.push(cell);
    if (cells.some((t) => t !== "")) rows.push({ line: first, cells });
    cells = [];
    cell = "";
  };
  for (let i = 0; i < text.length; i++) {
    const c = text[i];
    if (isQuoted && c === '"' && text[i + 1] === '"') { cell += '"'; i++; }
    else if (isQuoted && c === '"') isQuoted = false;
    else if (isQuoted) { cell += c; line += c === "\n"; }
    else if (c === '"' && cell === "") isQuoted = true;
    else if (c === separator) { cells.push(cell); cell = ""; }
    else if (c === "\n" || c === "\r") {
      if (c === "\r" && text[i + 1] === "\n") i++;
      endRow();
      first = ++line;
    } else cell += c;
  }
  endRow();
  return rows;
}

const plainHeading = (text) => text.trim().toLowerCase().replace(/_/g, " ");
const isColumn = (column, heading) => plainHeading(heading) === column.replace("_", " ");

// The row that has the most headings, among the first eleven.
function headingOf(rows) {
  const known = (row) => row.cells.filter((text) => Object.values(HEADINGS).some((form) => form.test(plainHeading(text)))).length;
  return rows.slice(0, 11).reduce((best, row) => known(row) > known(best) ? row : best, rows[0] ?? { line: 1, cells: [] });
}

// Which heading is which column, at most one each: columns by their names first, then those with the fewest headings that fit.
function guessColumns(headings) {
  const found = new Map(), taken = new Set();
  const fitting = (column) => headings.map((_, i) => i).filter((i) => !taken.has(i) && HEADINGS[column].test(plainHeading(headings[i])));
  const give = (column, i) => { if (i >= 0) { found.set(column, i); taken.add(i); } };
  // Sheets of equipment often name the LRU "Source" and the label "Parameter".
  const sender = headings.findIndex((h) => isColumn("source", h));
  const parameter = headings.findIndex((h) => /^(parameter|signal)/.test(plainHeading(h)));
  if (!headings.some((h) => isColumn("receiver", h)) && sender >= 0 && parameter >= 0) {
    give("source", parameter);
    give("receiver", sender);
  }
  for (const column of Object.keys(HEADINGS)) {
    if (!found.has(column)) give(column, headings.findIndex((h, i) => !taken.has(i) && isColumn(column, h)));
  }
  for (const kind of ["min", "max"]) {
    const columns = Object.keys(limitsOf(kind));
    if (columns.some((column) => found.has(column))) continue;
    const column = columns.find((c) => fitting(c).length) ?? kind + "_us";
    give(column, fitting(column)[0] ?? NO_HEADING);
  }
  const rest = ["label", "sdi", "rate", "group", "source", "receiver"].filter((column) => !found.has(column));
  while (rest.length) {
    rest.sort((a, b) => fitting(a).length - fitting(b).length);
    const column = rest.shift();
    give(column, fitting(column)[0] ?? NO_HEADING);
  }
  return found;
}

// A spreadsheet that was dropped: its rows, its heading, and the heading of each column.
class Spreadsheet {
  constructor(file, bytes) {
    this.file = file;
    this.rows = spreadsheetRows(spreadsheetText(bytes));
    this.heading = headingOf(this.rows);
    this.columns = guessColumns(this.heading.cells);
    this.named = this.columns.get("source") ?? NO_HEADING; // the texts that sources are named for
  }

  get isMade() { return this.columns.get("source") === MADE; }

  cell(row, column) { return row.cells[this.columns.get(column)] ?? ""; }

  // A name for a row's source, of its receiver and label.
  sourceName(row) {
    const label = this.cell(row, "label").replace(/[^0-7]/g, "").padStart(3, "0"), sdi = nameOf(this.cell(row, "sdi"));
    return `${nameOf(this.cell(row, "receiver")).slice(0, 10)}-${label}${/^([0-3]|[01][01])$/.test(sdi) ? "-" + sdi : ""}`;
  }

  dataRows() { return this.rows.filter((row) => row.line > this.heading.line); }

  // What a source is called in the sheet, by its name in this table.
  texts(table) {
    return this.isMade ? new Map(this.dataRows().map((row) => [this.sourceName(row), row.cells[this.named]?.trim() ?? ""])) : commentsOf(table);
  }

  // The file for `import`. If sources are named for their receiver and label, it has one more column; each row keeps its line.
  input() {
    if (!this.isMade) return this.file;
    const quoted = (text) => `"${text.replace(/"/g, '""').replace(/[\r\n]/g, " ")}"`;
    let text = "", line = 1;
    for (const row of this.rows) {
      const more = row === this.heading ? MADE_HEADING : row.line < this.heading.line ? "" : this.sourceName(row);
      text += "\n".repeat(row.line - line) + [...row.cells, more].map(quoted).join(",");
      line = row.line;
    }
    return fileOf(this.file.name, text + "\n");
  }

  words() {
    const headings = this.isMade ? [...this.heading.cells, MADE_HEADING] : this.heading.cells;
    const place = (i) => i === MADE ? headings.length - 1 : i;
    const maps = [...this.columns].map(([column, i]) => [column, headings[place(i)]])
      .filter(([column, heading]) => heading !== undefined && !isColumn(column, heading));
    return ["import", this.file.name, "--names", ...maps.flatMap(([column, heading]) => ["--map", `${heading.trim()}=${column}`])];
  }
}

// The text of each source by its name: `import --names` writes it as a comment above the source.
function commentsOf(table) {
  const texts = new Map();
  let comment, kind;
  for (const line of table.split("\n")) {
    const name = /^name = "(.*)"$/.exec(line);
    if (line.startsWith("# ")) comment = line.slice(2);
    else if (line.startsWith("[[")) kind = line;
    else if (name) {
      if (kind === "[[source]]" && comment !== undefined) texts.set(name[1], comment);
      comment = undefined;
    }
  }
  return texts;
}

// The name that `import --names` makes of a text alone.
function nameOf(text) {
  if (/^[a-z0-9_-]{1,16}$/.test(text)) return text;
  return text.toLowerCase().replace(/[^a-z0-9_]+/g, "-").replace(/^-|-$/g, "").slice(0, 16).replace(/-$/, "");
}

// A choice of the heading for each column.
function columnForm(spreadsheet, changed) {
  const headings = spreadsheet.heading.cells, columns = spreadsheet.columns;
  const row = (column) => {
    const isTime = column === "min" || column === "max";
    const key = isTime ? Object.keys(limitsOf(column)).find((c) => columns.has(c)) ?? column + "_us" : column;
    const chosen = columns.get(key) ?? NO_HEADING;
    const made = column === "source" ? [[MADE, "(receiver)-(label)"]] : [];
    const options = [[NO_HEADING, "– choose –"], ...made, ...headings.map((h, i) => [i, h.trim()])];
    const heading = element("select", { onchange: (event) => {
      columns.set(key, Number(event.target.value));
      changed();
    } }, choices(options, chosen));
    const unit = isTime && element("select", { "aria-label": `Unit of ${column}`, onchange: (event) => {
      columns.delete(key);
      columns.set(event.target.value, chosen);
      changed();
    } }, choices(Object.entries(limitsOf(column)), key));
    return element("label", { class: chosen === NO_HEADING && "lacks" }, element("span", {}, column), heading, unit || null);
  };
  return element("fieldset", {}, element("legend", {}, "Columns"), COLUMNS.map(row));
}
