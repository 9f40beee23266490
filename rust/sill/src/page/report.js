
// The page of sill report: totals, filters, a table of files of which only the rows in sight are there, and what is known of each.
const VERDICTS = [
  { kind: "accepted", word: "accepted" },
  { kind: "no-place", word: "NO PLACE" },
  { kind: "not-whole", word: "NOT WHOLE" },
  { kind: "refused", word: "refused" },
  { kind: "trouble", word: "trouble" },
];
const ACCEPTED = 0;
const WORST_FIRST = [4, 3, 2, 1, 0];

const folderOf = (file) => data.folders[file.folder];

// What all folders begin with is not said in every row.
const common = data.folders.map((folder) => folder.split("/")).reduce((one, other) => {
  const apart = one.findIndex((name, at) => name !== other[at]);
  return apart < 0 ? one : one.slice(0, apart);
}, (data.folders[0] ?? "").split("/"));
const isLong = data.folders.length > 1 && common.length > 1;
const shortFolder = (file) => (isLong ? folderOf(file).split("/").slice(common.length).join("/") || "." : folderOf(file));
const damaged = data.damaged.map((file, turn) => ({ ...file, turn, refusals: file.refusals ?? [] }));
const sound = data.sound.map(([folder, name, values, codes, instructions, unsure, note], turn) =>
  ({ folder, name, verdict: ACCEPTED, refusals: [], turn, numbers: [values, codes, instructions, unsure], text: note ?? "" }));

// ---- Filters

const wanted = { text: "", verdict: null, refusal: "", folder: "" };

// What a file is found by: its path, what was found, and the names and files of its code objects.
const objectWords = (object) => [object.name, object.file, ...object.found];
const words = (file) =>
  (file.words ??= [`${folderOf(file)}/${file.name}`, file.text, ...(file.objects ?? []).flatMap(objectWords)].join("\n").toLowerCase());

const matches = (file) =>
  (wanted.verdict === null || file.verdict === wanted.verdict) &&
  (wanted.refusal === "" || file.refusals.includes(Number(wanted.refusal))) &&
  (wanted.folder === "" || folderOf(file).toLowerCase().includes(wanted.folder)) &&
  (wanted.text === "" || words(file).includes(wanted.text));

// ---- Columns

const cell = (kind, ...children) => make("td", { class: kind }, ...children);
const foreignCell = (kind, text) => make("td", { class: `${kind} foreign`, dir: "ltr", title: text }, text);
const refusalWord = (number) => `${number} ${data.refusals[number]}`;

const verdictCell = (file, files) => {
  const { kind, word } = VERDICTS[file.verdict];
  const [expanded, label] = [String(files.opened.has(file)), `${word}: ${folderOf(file)}/${file.name}`];
  return cell("verdict", make("button", { type: "button", class: "open", "aria-expanded": expanded, "aria-label": label }, swatch(kind), word));
};

const refusalCell = ({ refusals }) =>
  cell("refusal", refusals.length === 0 ? "" : refusalWord(refusals[0]) + (refusals.length > 1 ? ` +${refusals.length - 1}` : ""));

const COLUMNS = [
  { word: "Verdict", width: "wide-verdict", key: (file) => -file.verdict, cell: verdictCell },
  { word: "Refusal", width: "wide-refusal", key: (file) => file.refusals[0] ?? Infinity, cell: refusalCell },
  { word: "Folder", width: "wide-folder", key: folderOf, cell: (file) => foreignCell("folder", shortFolder(file)) },
  { word: "File", width: "wide-name", key: (file) => file.name, cell: (file) => foreignCell("name", file.name) },
  { word: "What was found", width: "", key: (file) => file.text, cell: (file) => foreignCell("text", file.text) },
];

const numberColumn = (word, at) => ({
  word, width: "wide-number", key: (file) => file.numbers[at],
  cell: (file) => make("td", { class: "number", "data-word": word }, shown(file.numbers[at])),
});

const SOUND_COLUMNS = [
  { word: "Folder", width: "", key: folderOf, cell: (file) => foreignCell("folder", shortFolder(file)) },
  { word: "File", width: "", key: (file) => file.name, cell: (file) => foreignCell("name", file.text ? `${file.name} (${file.text})` : file.name) },
  ...["Values", "Code objects", "Instructions", "Unsure rows"].map(numberColumn),
];

// ---- The page

const files = new Files({ label: "Files that are not accepted", kind: "damaged", columns: COLUMNS, items: damaged, detail });
const counts = new Files({ label: "Accepted files", kind: "counts", columns: SOUND_COLUMNS, items: sound });
files.order = { by: 0, turned: false };
files.tellOrder();
counts.heads.slice(2).forEach((head) => head.classList.add("number"));

const total = (verdict) => data.totals[VERDICTS[verdict].kind];
const pressed = [];
const choose = (verdict) => {
  wanted.verdict = wanted.verdict === verdict ? null : verdict;
  if (wanted.verdict === ACCEPTED) soundFold.open = true;
  update();
};

const bar = make("div", { class: "bar", "aria-hidden": "true" }, ...WORST_FIRST.filter((verdict) => total(verdict) > 0).map((verdict) => {
  const { kind, word } = VERDICTS[verdict];
  const title = `${word}: ${shown(total(verdict))}`;
  const piece = make("button", { type: "button", class: kind, tabindex: -1, title, click: () => choose(verdict) });
  piece.style.flexGrow = total(verdict);
  return piece;
}));

const verdictWords = make("ul", { class: "words", "aria-label": "Totals by verdict" }, ...WORST_FIRST.map((verdict) => {
  const { kind, word } = VERDICTS[verdict];
  pressed[verdict] = make("button", { type: "button", "aria-pressed": "false", "data-verdict": kind, click: () => choose(verdict) },
    swatch(kind), word, make("b", {}, shown(total(verdict))));
  return make("li", {}, pressed[verdict]);
}));

const refusalsMet = [...new Set(damaged.flatMap((file) => file.refusals))].sort((one, other) => one - other);
const foldersMet = [...new Set(damaged.map(folderOf))].sort();
const field = (label, element, kind = "") => make("div", { class: kind }, make("label", { for: element.id }, label), element);
const changed = (name, lower) => (event) => {
  wanted[name] = lower ? event.target.value.toLowerCase() : event.target.value;
  update();
};
const search = (id, more) => make("input", { id, type: "search", autocomplete: "off", spellcheck: "false", input: changed(id, true), ...more });
const textField = search("text");
const verdictChanged = ({ target }) => {
  wanted.verdict = target.value === "" ? null : Number(target.value);
  update();
};
const verdictField = make("select", { id: "verdict", change: verdictChanged },
  make("option", { value: "" }, "all"), ...WORST_FIRST.map((verdict) => make("option", { value: verdict }, VERDICTS[verdict].word)));
const refusalField = make("select", { id: "refusal", change: changed("refusal") },
  make("option", { value: "" }, "all"), ...refusalsMet.map((number) => make("option", { value: number }, refusalWord(number))));
const folderField = search("folder", { list: "folders" });
const reset = make("button", { type: "button", id: "reset", click: () => {
  Object.assign(wanted, { text: "", verdict: null, refusal: "", folder: "" });
  for (const field of [textField, refusalField, folderField]) field.value = "";
  update();
} }, "Show all");
const filters = make("div", { class: "filters", role: "search", "aria-label": "Filter the files" },
  field("Text (path, code object, what was found)", textField, "wide"), field("Verdict", verdictField), field("Refusal", refusalField),
  field("Folder", folderField), reset, make("datalist", { id: "folders" }, ...foldersMet.map((folder) => make("option", { value: folder }))));

const status = make("p", { id: "count", role: "status" });
const soundWord = make("span");
const soundFold = make("details", { id: "sound", toggle: () => counts.filter() }, make("summary", {}, soundWord), counts.element);

// The filters in words, which paper needs.
const wantedWords = () => [
  wanted.text && `text ${textField.value}`,
  wanted.verdict !== null && `verdict ${VERDICTS[wanted.verdict].word}`,
  wanted.refusal && `refusal ${refusalWord(wanted.refusal)}`,
  wanted.folder && `folder ${folderField.value}`,
].filter(Boolean);

const update = () => {
  files.filter();
  counts.filter();
  pressed.forEach((button, verdict) => button.setAttribute("aria-pressed", wanted.verdict === verdict));
  verdictField.value = wanted.verdict ?? "";
  const all = `${shown(files.shown.length)} of ${counted(damaged.length, "file")} that ${damaged.length === 1 ? "is" : "are"} not accepted`;
  status.textContent = [all, ...wantedWords()].join("; ");
  const some = counts.shown.length === sound.length ? "" : `, ${shown(counts.shown.length)} of them match`;
  soundWord.textContent = `${counted(sound.length, "accepted file")}${some}`;
};

const morePaths = data.more_paths > 0 ? `, and ${shown(data.more_paths)} more` : "";
const about = [`made ${data.made} by sill ${data.version}`, `of ${data.paths.join(", ")}${morePaths}`];
if (isLong && !data.paths.includes(common.join("/"))) about.push(`folders below ${common.join("/")}`);
if (data.strict) about.push("strict");
if (data.prefix) about.push(`only code objects whose names begin with ${data.prefix}`);
if (data.undrawn > 0) about.push(`${counted(data.undrawn, "damaged code object")} told and not drawn`);
document.getElementById("made").append(foreign(about.join("; ")));
document.body.prepend(make("a", { class: "skip", href: "#files" }, "To the table of files"));
document.getElementById("main").append(bar, verdictWords, filters, status, make("div", { id: "files" }, files.element), soundFold);
document.body.append(footer(["/"], " to the text filter, ", ["\u2191"], " ", ["\u2193"], " from file to file, ", ["Enter"], " opens one, ",
  ["Esc"], " in a filter empties it."));
update();

addEventListener("keydown", (event) => {
  if (event.key === "/" && !event.target.matches("input, select")) {
    event.preventDefault();
    textField.focus();
  }
});
const print = (all) => () => {
  for (const table of [files, counts]) {
    table.all = all;
    table.draw();
  }
};
addEventListener("beforeprint", print(true));
addEventListener("afterprint", print(false));
