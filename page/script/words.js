// The tab Words: a word by hand.

// The word that the command prints, its fields, or why there is none.
async function showWord(place, hex) {
  const answer = await run(["word", hex]);
  if (answer.status !== 0) return place.replaceChildren(refusal(answer));
  const rows = answer.text.trim().split("\n").map((line) => line.split(" "));
  const [, label, , sdi, , ssm, , data] = rows[0], [, bnr, ...bnrText] = rows[1], [, bcd, ...bcdText] = rows[2];
  return place.replaceChildren(sheet([
    { field: "label", value: label, means: "octal, most significant bit first" }, { field: "SDI", value: sdi, means: "" },
    { field: "data", value: data, means: "19 bits, hexadecimal" }, { field: "as BNR", value: bnr, means: bnrText.join(" ") },
    { field: "as BCD", value: bcd, means: bcdText.join(" ") }, { field: "SSM", value: ssm, means: "bits 31 and 30" },
  ], { name: `word-${hex}`, caption: `Fields of ${hex}` }));
}

function field(name, control) {
  control.id = `field-${name.replace(/\W+/g, "-")}`;
  return [element("label", { for: control.id }, name), control];
}

function textField(value, size, listen) {
  return element("input", { type: "text", value, size: String(size), spellcheck: "false", oninput: listen });
}

function decodePart() {
  const place = element("div", { "aria-live": "polite" });
  const hex = textField("e48d14c1", 12, () => /^(0x)?[0-9a-f]{8}$/i.test(hex.value.trim()) && look());
  const look = () => showWord(place, hex.value.trim().replace(/^0x/i, ""));
  const form = element("form", { onsubmit: (event) => { event.preventDefault(); look(); } },
    element("div", { class: "fields" }, field("word, hexadecimal", hex)), element("button", { type: "submit", class: "first" }, "Read the word"));
  ready.then(look, () => {});
  return element("section", {}, element("h2", {}, "What does this word say?"), form, place);
}

function encodePart() {
  const place = element("div", { "aria-live": "polite" }), label = textField("203", 5), value = textField("5000", 12), bits = textField("", 4);
  const kind = element("select", {}, choices([["bnr", "BNR, a whole number"], ["bcd", "BCD, five digits"], ["data", "19 bits, hexadecimal"]], "bnr"));
  const sdi = element("select", {}, choices(["0", "1", "2", "3"].map((n) => [n, n]), "0"));
  const ssm = element("select", {}, choices([["", "as usual"], ...["0", "1", "2", "3"].map((n) => [n, n])], ""));
  const options = () => [...kind.value === "bnr" && bits.value.trim() ? ["--bits", bits.value.trim()] : [], "--sdi", sdi.value,
    ...ssm.value ? ["--ssm", ssm.value] : []];
  const words = () => ["encode", label.value.trim(), `--${kind.value}=${value.value.trim()}`, ...options()];
  const make = async () => {
    const answer = await run(words());
    if (answer.status !== 0) return place.replaceChildren(refusal(answer));
    const fields = element("div");
    place.replaceChildren(element("p", {}, "The word is ", element("output", { class: "word" }, answer.text.trim()), "."), fields);
    return showWord(fields, answer.text.trim());
  };
  const form = element("form", { onsubmit: (event) => { event.preventDefault(); make(); } },
    element("div", { class: "fields" }, field("label, octal", label), field("data as", kind), field("value", value),
      field("bits of BNR below the sign", bits), field("SDI", sdi), field("SSM", ssm)),
    element("button", { type: "submit", class: "first" }, "Make the word"));
  ready.then(make, () => {});
  return element("section", {}, element("h2", {}, "Which word has these fields?"), form, place);
}

function showWords() {
  panel("words", element("div", { class: "columns-of-two" }, decodePart(), encodePart()));
}
