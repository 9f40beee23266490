
// What is known of a file that is not accepted: its refusals, and its damaged code objects with strip, rows, handlers and repair.
const strip = (object) => {
  const pieces = [];
  let at = 0;
  for (let turn = 0; turn < object.strip.length; turn += 2) {
    const [count, origin] = [object.strip[turn], object.strip[turn + 1]];
    const title = `${count === 1 ? "instruction" : "instructions"} ${spread(at, at + count - 1)}: ${data.origins[origin]}`;
    const piece = make("span", { class: `o${origin}`, title });
    piece.style.flexGrow = count;
    pieces.push(piece);
    at += count;
  }
  const told = object.counts.flatMap((count, origin) => (count > 0 ? [`${shown(count)} ${data.origins[origin]}`] : []));
  return make("div", { class: "strip", role: "img", "aria-label": `${counted(object.instructions, "instruction")}: ${told.join(", ")}` }, ...pieces);
};

const legend = (object) => {
  const items = object.counts.map((count, origin) => ({ count, origin, word: data.origins[origin] })).filter(({ count }) => count > 0);
  return make("ul", { class: "legend" }, ...items.map(({ count, origin, word }) =>
    make("li", { "data-origin": word }, swatch(`o${origin}`), make("b", {}, shown(count)), word)));
};

const rowsTable = (object) => {
  const rows = [];
  let [at, broken] = [0, false];
  for (let turn = 0; turn < object.rows.length; turn += 6) {
    const [count, origin, line, column, lines, endColumn] = object.rows.slice(turn, turn + 6);
    const from = make("td", { class: "number" }, spread(at, at + count - 1));
    const cells = origin < data.origins.length
      ? [make("td", { class: "code" }, placeWords(origin, line, column, line + lines, endColumn)),
         make("td", {}, swatch(`o${origin}`), " ", data.origins[origin])]
      : [make("td", { colspan: 2, class: "quiet" }, `${counted(line, "row")} left out; sill lines has them`)];
    const breaks = !broken && origin >= CUT && origin < data.origins.length;
    broken ||= breaks;
    rows.push(make("tr", { class: breaks ? "marked" : "" }, from, ...cells));
    at += count;
  }
  return scrolled("rows", small("Rows", ["Instructions", "Row", "From"], rows));
};

const handlers = (object) => {
  if (object.handlers === null) return make("p", {}, "The exception table is refused: no handlers are known.");
  if (object.handlers.length === 0) return quiet("It has no handlers.");
  const rows = object.handlers.map(([start, length, target, depth, pushed, first, last]) => make("tr", {},
    make("td", { class: "number" }, length === 0 ? "none" : spread(start, start + length - 1)),
    make("td", { class: "number" }, first === null ? "-" : spread(first, last)),
    make("td", { class: "number" }, shown(target)),
    make("td", { class: "number" }, shown(depth)),
    make("td", {}, pushed ? "pushed" : "")));
  const more = object.more_handlers ? [quiet(`and ${counted(object.more_handlers, "handler")} more; sill lines has them`)] : [];
  return make("div", {}, scrolled("handlers", small("Handlers", ["Guards", "Sure rows", "Handler at", "Depth", "Last instruction"], rows)), ...more);
};

const repairWords = (object) => {
  if (object.no_repair) return `sill repair writes nothing of this file: ${object.no_repair}`;
  const repair = object.repair;
  if (!repair) return "sill repair leaves its line table as it is: it is whole.";
  if (!repair.mended) return `sill repair leaves its line table as it is: ${repair.reason}.`;
  const { kept, dropped, shortened, covered, first_without_line: first, last_row: last } = repair;
  const from = first === null ? "" : `, from instruction ${shown(first)} on,`;
  return `sill repair would keep ${counted(kept, "entry", "entries")}, drop ${counted(dropped, "byte")}, shorten ${shortened ? "one" : "none"}, ` +
    `and cover ${counted(covered, "instruction")}${from} with entries that say they have no place. ` +
    (last === null ? "No row is placed." : `The last row placed is ${shown(last)}.`);
};

const drawing = (object) => [
  make("p", { class: "repair foreign", dir: "ltr" }, repairWords(object)),
  make("div", { class: "pair" },
    make("div", {}, make("h4", {}, "Rows"), rowsTable(object)),
    make("div", {}, make("h4", {}, "Handlers"), handlers(object))),
];

const codeObject = (object, open) => {
  const title = make("h3", {}, make("span", { class: "foreign", dir: "ltr" }, `code object ${object.name}`),
    make("span", { class: "quiet foreign", dir: "ltr" },
      `${object.file}, first line ${object.first_line}, ${counted(object.instructions, "instruction")}`));
  const section = make("section", { class: "card object", "data-byte": object.byte }, title,
    ...object.found.map((found) => make("p", { class: "foreign found", dir: "ltr" }, found)),
    facts(["Way to it", foreign(object.way, "code")], ["Place", `byte ${shown(object.byte)}`],
      ["Its bytes", bytes(...object.bytes)], ["Its line table's", bytes(...object.table_bytes)],
      ["Last row placed", object.last_row === null ? "none" : shown(object.last_row)]));
  if (object.strip) {
    const instructions = counted(object.each ?? 0, "instruction");
    const each = object.each ? [quiet(`Each piece stands for ${instructions}, and is coloured by the worst of them.`)] : [];
    section.append(strip(object), legend(object), ...each, folded("Rows, handlers and repair", () => drawing(object), open));
  } else {
    section.append(quiet("Not drawn: the page has room for no more. sill lines draws it."));
  }
  section.append(...object.refused.map((refused) => refusal(refused, "")));
  return section;
};

const detail = (file) => {
  const path = make("p", {}, foreign(`${folderOf(file)}/${file.name}`, "code"), file.path_bytes ? ` (bytes ${file.path_bytes})` : "");
  const held = file.counts?.[0] > 0 ? file.counts : null;
  const things = held && ["whole value", "code object", "instruction"].map((thing, at) => counted(held[at], thing)).join(", ");
  const counts = held && quiet(`${things}, ${shown(held[3])} of them without a sure row`);
  const objects = file.objects ?? [];
  const more = (file.damaged ?? 0) - objects.length;
  return make("div", { class: "known" }, path, counts ?? "",
    file.value ? refusal(file.value, "where a value is read") : "",
    ...objects.map((object) => codeObject(object, objects.length === 1)),
    file.counts ? "" : make("p", { class: "foreign", dir: "ltr" }, file.text),
    more > 0 ? make("p", { class: "more" }, `and ${counted(more, "damaged code object")} more; sill check --all names each.`) : "");
};
