// The tab Changes: two tables.

const CHANGE_TITLES = { kind: "what", change: "change: now -> then", gap_slots: "interval across the change, slots", gap_us: "µs",
  over_max: "above the maximum" };

// The table of the other file, as commands take it. Undefined if it cannot be imported: then the tab says why.
async function otherTable(other) {
  if (other.role === "otherTable") return fileOf("other.toml", other.blob);
  const spreadsheet = await spreadsheetOf(other), imported = await run(spreadsheet.words(), [spreadsheet.input()]);
  if (imported.status === 0) return fileOf("other.toml", imported.out);
  panel("changes", element("p", {}, `${other.name} cannot be read.`), refusal(imported, other.name, spreadsheetLines(spreadsheet)));
  return undefined;
}

async function showChanges({ table, given }) {
  const other = files.find(isOther);
  if (!other) {
    return panel("changes", element("p", { class: "dim" }, "Drop a second spreadsheet or table to see what changes when it replaces the first one. "
      + "Both are in the list of files, and can change places there."));
  }
  const second = await otherTable(other);
  if (!second) return undefined;
  const place = element("div");
  let all = [];
  const show = async () => {
    const answer = await run(["diff", table.name, second.name, ...all, "--json"], [table, second]);
    if (answer.status > 1) {
      const lines = answer.hints.includes(second.name) ? tableLines(new Uint8Array(await second.blob.arrayBuffer())) : undefined;
      return place.replaceChildren(refusal(answer, second.name, lines));
    }
    const rows = answer.rows, isOtherStation = rows.some((row) => row.kind === "station");
    place.replaceChildren(note(rows.length ? "warn" : "good", !rows.length ? "Nothing changes: both have the same plan."
      : isOtherStation ? `${given.name} and ${other.name} are of two stations: the second cannot replace the first while that runs.`
        : `${other.name} can replace ${given.name} while the station runs. ${count(rows.length, "change")}.`),
    rows.length ? sheet(rows, { name: "changes", caption: `From ${given.name} to ${other.name}`,
      titles: CHANGE_TITLES, mark: (row) => row.over_max === "yes" ? "fault" : null }) : "");
  };
  panel("changes", bar(element("label", {}, element("input", { type: "checkbox", onchange: (event) => {
    all = event.target.checked ? ["--all"] : [];
    show();
  } }), "each output whose slots change"), saveCommandButton("diff.csv", ["diff", table.name, second.name, "--csv"], [table, second], "text/csv")), place);
  return show();
}
