// The tab Loads.

let loadLimit = 80;

// A bar with the load of a bus, and a mark at the limit.
function loadBar(percent) {
  const filled = element("i"), mark = element("b");
  filled.style.width = `${Math.min(percent, 100)}%`;
  mark.style.left = `${loadLimit}%`;
  return element("div", { class: percent > loadLimit ? "load above" : "load", role: "img", "aria-label": `${percent} per cent, limit ${loadLimit}` },
    filled, loadLimit ? mark : null);
}

function roomList(rooms) {
  return element("span", { class: "rooms" }, rooms.map(({ period_slots, room }) => element("span", { class: room ? null : "none" },
    element("i", {}, `P${period_slots} `), room.toLocaleString("en"))));
}

// The buses of a group, and how many more outputs each takes, by their period in slots.
function busesSheet(group, rows, rooms) {
  const roomsOf = (row) => rooms.filter((room) => room.bus === row.bus);
  return sheet(rows, { name: `load-${group}`, caption: `Buses of ${group}`, columns: ["bus", "percent", "load", "cells", "free", "words_s", "room"],
    titles: { percent: "load, %", load: "", words_s: "words/s", room: "room for more outputs with period P (slots)" },
    text: (row, column) => column === "room" ? roomsOf(row).map(({ period_slots, room }) => `${period_slots}=${room}`).join(" ") : "",
    cell: (row, column) => ({ percent: () => row.percent.toFixed(1), load: () => loadBar(row.percent), room: () => roomList(roomsOf(row)) })[column]?.() });
}

// What saves a bus: the outputs whose maximum interval would have to be longer.
function savingsOf(group, margin) {
  const whole = margin.find((row) => row.group === group && row.source == null);
  const choices = margin.filter((row) => row.group === group && row.source != null), chosen = choices.filter((row) => row.choose === "yes");
  if (chosen.length) {
    const rows = chosen.map(({ source, period_slots, next_slots, less, max_us }) => ({ source, period_slots, next_slots, less, max_us }));
    return element("details", {}, element("summary", {}, `To save a bus, free ${count(whole.excess, "cell")}: `
      + `lengthen the maximum interval of ${count(chosen.length, "output")}`),
    sheet(rows, { name: `margin-${group}`, caption: "Outputs that would be sent half as often",
      titles: { period_slots: "period, slots", next_slots: "next period, slots", less: "cells less", max_us: "max, µs" } }));
  }
  if (whole.choose !== "no") return null;
  const fewer = `The intervals could do with ${count(whole.bound, "bus", "buses")}, but not with periods that are powers of two.`;
  return element("p", { class: "dim" }, "No longer period of an output saves a bus. ", whole.bound < whole.buses ? fewer : "");
}

async function showLoads({ table, margin }) {
  const place = element("div");
  const show = async () => {
    const answer = await run(["load", table.name, "--json", ...loadLimit ? ["--limit", String(loadLimit)] : []], [table]);
    if (answer.status > 1) return place.replaceChildren(refusal(answer, table.name));
    const rows = answer.rows;
    place.replaceChildren(...[...new Set(rows.map((row) => row.group))].flatMap((group) => {
      const own = rows.filter((row) => row.group === group), rooms = own.filter((row) => row.period_slots != null);
      const loads = own.filter((row) => row.period_slots == null), whole = loads.find((row) => row.bus == null);
      const buses = loads.filter((row) => row.bus != null);
      const needed = whole.needed == null ? null : element("p", { class: "bad-text" }, whole.needed === 0
        ? `One output alone takes more than ${loadLimit} per cent of a bus.`
        : `A bus is above ${loadLimit} per cent. ${count(whole.needed, "bus", "buses")} can keep to it, if outputs are spread evenly.`);
      return [element("h2", {}, group, element("small", {}, `${whole.percent} % of ${count(buses.length, "bus", "buses")} · `
        + `${whole.free.toLocaleString("en")} of ${(whole.cells + whole.free).toLocaleString("en")} cells free`)),
      needed, busesSheet(group, buses, rooms), savingsOf(group, margin)].filter(Boolean);
    }));
  };
  const limit = element("input", { type: "text", inputmode: "numeric", size: "4", value: loadLimit || "", onchange: (event) => {
    const wanted = Number(event.target.value);
    loadLimit = Number.isInteger(wanted) && wanted >= 1 && wanted <= 100 ? wanted : 0;
    event.target.value = loadLimit || "";
    show();
  } });
  panel("loads", bar(element("label", {}, "Limit, per cent (1 to 100)", limit),
    saveCommandButton("load.csv", ["load", table.name, "--csv"], [table], "text/csv"),
    saveCommandButton("margin.csv", ["margin", table.name, "--csv"], [table], "text/csv")), place);
  await show();
}
