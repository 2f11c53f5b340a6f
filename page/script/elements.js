"use strict";
// Elements of the page, tables that can be saved, and texts for people.

const byId = (id) => document.getElementById(id);
const decoder = new TextDecoder("utf-8", { ignoreBOM: true }), encoder = new TextEncoder();

// An element. An attribute `onNAME` is a listener; null and false leave an attribute out.
function element(name, attributes = {}, ...children) {
  const made = document.createElement(name);
  for (const [key, value] of Object.entries(attributes)) {
    if (key.startsWith("on")) made.addEventListener(key.slice(2), value);
    else if (value != null && value !== false) made.setAttribute(key, value === true ? "" : value);
  }
  made.append(...children.flat().filter((child) => child != null));
  return made;
}

function choices(options, chosen) {
  return options.map(([value, text]) => element("option", { value, selected: value === chosen }, text));
}

const count = (number, name, names = name + "s") => `${number.toLocaleString("en")} ${number === 1 ? name : names}`;
const milliseconds = (us) => us == null ? "–"
  : (us / 1000).toLocaleString("en", { maximumFractionDigits: 3, minimumFractionDigits: 2 });
const sizeText = (bytes) => bytes < 10000 ? `${bytes} B` : bytes < 1e7 ? `${Math.round(bytes / 1000)} kB` : `${Math.round(bytes / 1e6)} MB`;

// A time of a recording, as minutes, seconds and microseconds.
function momentText(us) {
  const seconds = Math.floor(us / 1e6), rest = String(us % 1e6).padStart(6, "0");
  return `${Math.floor(seconds / 60)}:${String(seconds % 60).padStart(2, "0")}.${rest.slice(0, 3)} ${rest.slice(3)}`;
}

// ---- Files to save

function saveButton(name, bytes, type = "text/plain") {
  return element("button", { type: "button", onclick: () => {
    const url = URL.createObjectURL(new Blob([typeof bytes === "function" ? bytes() : bytes], { type }));
    element("a", { href: url, download: name }).click();
    setTimeout(() => URL.revokeObjectURL(url), 60000);
  } }, "Save " + name);
}

// A button that runs a command when it is pressed, and saves what the command prints.
function saveCommandButton(name, words, files, type) {
  return element("button", { type: "button", onclick: async () => {
    const answer = await run(words, files);
    saveButton(name, answer.out, type).click();
  } }, "Save " + name);
}

function bar(...children) {
  return element("div", { class: "bar-of-buttons" }, ...children.filter(Boolean));
}

function csvText(rows, columns, text) {
  const field = (value) => /[",\r\n]/.test(value) ? `"${value.replace(/"/g, '""')}"` : value;
  const line = (values) => values.map((value) => field(String(value ?? ""))).join(",") + "\n";
  return line(columns) + rows.map((row) => line(columns.map((column) => row[column] ?? text?.(row, column)))).join("");
}

// ---- Tables

function cellText(row, column) {
  const value = row[column];
  return value == null ? "–" : typeof value === "number" ? value.toLocaleString("en", { maximumFractionDigits: 1 }) : String(value);
}

// A table of objects, with its caption and a button that saves it. `titles` are texts for columns, `cell` gives what a cell shows if it
// is not just its value, and `mark` the class of a row. Of more than `most` rows the first ones are shown.
function sheet(rows, { name, caption, columns, titles = {}, cell, mark, most = 400, text } = {}) {
  const shown = columns ?? Object.keys(rows[0] ?? {});
  const numeric = new Set(shown.filter((c) => rows.some((row) => typeof row[c] === "number")));
  const title = (c) => element("th", { scope: "col", class: numeric.has(c) && "number" }, titles[c] ?? c.replace(/_/g, " "));
  const head = element("tr", {}, shown.map(title));
  const line = (row) => element("tr", { class: mark?.(row) }, shown.map((c) => {
    const content = cell?.(row, c) ?? cellText(row, c);
    return element("td", { class: numeric.has(c) && "number" }, content);
  }));
  const body = element("tbody", {}, rows.slice(0, most).map(line));
  const table = element("table", {}, element("caption", {}, caption ?? ""), element("thead", {}, head), body);
  const box = element("div", { class: rows.length > 25 ? "scroll tall" : "scroll", role: "region", tabindex: "0",
    "aria-label": caption ?? name }, table);
  const save = name && saveButton(name + ".csv", () => csvText(rows, shown, text), "text/csv");
  const more = rows.length > most && element("button", { type: "button", onclick: (event) => {
    body.append(...rows.slice(most).map(line));
    event.target.remove();
  } }, `Show all ${rows.length.toLocaleString("en")} rows`);
  return element("div", { class: "sheet" }, box, save || more ? bar(...[save, more].filter(Boolean)) : null);
}

function note(kind, ...content) {
  return element("div", { class: "note " + kind }, ...content);
}

function setVerdict(kind, ...content) {
  byId("verdict").className = "note " + kind;
  byId("verdict").replaceChildren(...content);
}
