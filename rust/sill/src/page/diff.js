
// The page of sill diff --html: of each pair of values that differ one tree with both sides, what is the same folded.
const [SAME, BELOW_HERE, DIFFERS, ONLY_LEFT, ONLY_RIGHT, AS_ABOVE, LEFT_OUT] = [0, 1, 2, 3, 4, 5, 6];
const WORDS = ["the same", "differs below", "different", "only in A", "only in B", "as above", ""];
const SIDES = ["A", "B"];

const parse = ([depth, state, step, ...rest]) => {
  const side = (at) => ({ text: rest[at], from: rest[at + 1], behind: rest[at + 2] });
  return { depth, state, step, sides: [side(0), side(3)], more: rest[6] ?? {}, open: state === BELOW_HERE || state === DIFFERS };
};

// ---- Cells

const sideCell = (line, at) => {
  const { text, from, behind } = line.sides[at];
  const told = line.state === SAME && at === 1 ? line.sides[0].text : text;
  if (behind === 0) return make("td", { role: "gridcell", "data-word": SIDES[at] }, at === 0 ? line.more.held ?? "" : "");
  return make("td", { role: "gridcell", "data-word": SIDES[at] }, foreign(told), " ", make("span", { class: "quiet span" }, bytes(from, behind)));
};

const stateMark = (state) => make("span", { class: `state state-${state}` }, WORDS[state]);

const moreWords = ({ more }) => [
  ...(more.numbers ?? []).map(([name, one, other]) => `${name} ${one} / ${other}`),
  ...(more.from !== undefined && !more.rows ? [`contents differ from their byte ${shown(more.from)} on`] : []),
];

const rowWords = (numbers) => {
  const [origin, line, column, lines, endColumn] = numbers;
  return origin < 0 ? ["no instruction"] : [swatch(`o${origin}`), " ", placeWords(origin, line, column, line + lines, endColumn), " ",
    make("span", { class: "quiet" }, data.origins[origin])];
};

// Rows beside rows; those that differ say so.
const rowsBeside = (rows) => {
  const made = [];
  let [at, marked] = [0, false];
  for (let turn = 0; turn < rows.length; turn += 12) {
    const [count, kind, hidden] = rows.slice(turn, turn + 3);
    const from = make("td", { class: "number" }, spread(at, at + count - 1));
    const cells = kind === 2
      ? [make("td", { colspan: 3, class: "quiet" }, `${counted(hidden, "row")} left out; sill lines has them`)]
      : [make("td", { class: "code" }, ...rowWords(rows.slice(turn + 2, turn + 7))),
         make("td", { class: "code" }, ...rowWords(rows.slice(turn + 7, turn + 12))),
         make("td", {}, kind === 1 ? "different" : "")];
    made.push(make("tr", { class: kind !== 1 ? "" : marked ? "changed" : "changed marked" }, from, ...cells));
    marked ||= kind === 1;
    at += count;
  }
  return scrolled("rows of both", small("Rows of both", ["Instructions", "Row in A", "Row in B", ""], made));
};

// ---- Trees

const treeHead = (word) => make("th", { scope: "col", role: "columnheader" }, word);

class Tree {
  constructor(value) {
    this.lines = value.lines.map(parse);
    this.lines.forEach((line, at) => {
      line.at = at;
      line.parent = at === 0 ? null : this.above(at);
      line.inner = (this.lines[at + 1]?.depth ?? 0) > line.depth;
    });
    this.body = make("tbody", { role: "rowgroup", keydown: (event) => this.key(event), click: (event) => this.click(event) });
    this.table = make("table", { class: "tree", role: "treegrid", "aria-label": value.title },
      make("thead", { role: "rowgroup" }, make("tr", { role: "row" }, ...["Where", ...SIDES].map(treeHead))),
      this.body);
    this.insert(this.visible(0, this.lines.length), null);
    this.lines[0].row.tabIndex = 0;
  }

  above(at) {
    let above = this.lines[at - 1];
    while (above && above.depth >= this.lines[at].depth) above = above.parent;
    return above ?? null;
  }

  // The lines from one on, before another, that no closed line hides.
  visible(from, to) {
    const lines = [];
    let hidden = Infinity;
    for (let at = from; at < to; at += 1) {
      const line = this.lines[at];
      if (line.depth > hidden) continue;
      hidden = line.open ? Infinity : line.depth;
      lines.push(line);
    }
    return lines;
  }

  end(line) {
    let at = line.at + 1;
    while (at < this.lines.length && this.lines[at].depth > line.depth) at += 1;
    return at;
  }

  insert(lines, before) {
    for (const line of lines) {
      line.row ??= this.row(line);
      this.body.insertBefore(line.row, before);
      if (line.under) this.body.insertBefore(line.under, before);
    }
  }

  row(line) {
    const { depth, state, step } = line;
    const first = make("td", { role: "gridcell", class: "where" });
    first.style.paddingInlineStart = `${0.5 + 1.1 * Math.min(depth, 24)}rem`;
    const expanded = line.inner ? String(line.open) : null;
    const attributes = { class: `line line-${state}`, role: "row", tabindex: -1, "aria-level": depth + 1, "aria-expanded": expanded };
    if (state === LEFT_OUT) {
      first.append(make("span", { class: "quiet" }, step));
      first.setAttribute("colspan", 3);
      return Object.assign(make("tr", attributes, first), { line });
    }
    first.append(make("span", { class: "twist", "aria-hidden": "true" }), foreign(step || "the value itself", "code"), " ", stateMark(state),
      ...moreWords(line).map((words) => make("div", { class: "foreign", dir: "ltr" }, words)));
    if (line.more.rows) {
      line.under = make("tr", { class: "under", role: "row" }, make("td", { colspan: 3, role: "gridcell" }, rowsBeside(line.more.rows)));
    }
    return Object.assign(make("tr", attributes, first, sideCell(line, 0), sideCell(line, 1)), { line });
  }

  set(line, open) {
    if (!line.inner || line.open === open) return;
    const end = this.end(line);
    if (open) {
      line.open = true;
      this.insert(this.visible(line.at + 1, end), (line.under ?? line.row).nextSibling);
    } else {
      for (const inner of this.visible(line.at + 1, end)) {
        inner.row.remove();
        inner.under?.remove();
      }
      line.open = false;
    }
    line.row.setAttribute("aria-expanded", String(open));
  }

  reach(line) {
    if (!line) return;
    for (const { row } of this.lines) if (row) row.tabIndex = -1;
    line.row.tabIndex = 0;
    line.row.focus();
    line.row.scrollIntoView({ block: "nearest" });
  }

  // A difference may stand in what was closed.
  show(line) {
    for (let above = line.parent; above; above = above.parent) above.open || this.set(above, true);
    this.reach(line);
  }

  click(event) {
    const row = event.target.closest("tr.line");
    if (!row || String(getSelection()) !== "") return;
    this.set(row.line, !row.line.open);
    this.reach(row.line);
  }

  key(event) {
    const row = event.target.closest("tr.line");
    if (!row || event.altKey || event.ctrlKey || event.metaKey) return;
    const line = row.line;
    const rows = [...this.body.querySelectorAll("tr.line")];
    const at = rows.indexOf(row);
    const steps = {
      ArrowDown: () => this.reach(rows[at + 1]?.line),
      ArrowUp: () => this.reach(rows[at - 1]?.line),
      Home: () => this.reach(rows[0].line),
      End: () => this.reach(rows.at(-1).line),
      ArrowRight: () => (line.inner && !line.open ? this.set(line, true) : this.reach(rows[at + 1]?.line)),
      ArrowLeft: () => (line.inner && line.open ? this.set(line, false) : this.reach(line.parent)),
      Enter: () => this.set(line, !line.open),
      " ": () => this.set(line, !line.open),
    };
    if (!(event.key in steps)) return;
    event.preventDefault();
    steps[event.key]();
  }
}

// ---- The page

const trees = [];
const valueSection = (value) => {
  const [one, other] = value.spans;
  const where = make("span", { class: "quiet" }, ` A ${bytes(...one)}, B ${bytes(...other)}`);
  if (value.same) return make("section", { class: "value" }, make("h2", {}, `${value.title}: the same`, where));
  const section = make("section", { class: "value" }, make("h2", {}, `${value.title}: ${counted(value.differences, "difference")}`, where));
  if (value.note) section.append(make("p", { class: "foreign", dir: "ltr" }, `Compared part by part, not by its written bytes: ${value.note}.`));
  if (value.differences === 0 && value.written !== undefined) {
    section.append(make("p", {}, `Different: written, from byte ${shown(value.written)} on.`));
  }
  const tree = new Tree(value);
  trees.push(tree);
  section.append(tree.table);
  return section;
};

const sections = data.values.map(valueSection);
const isDifference = (line) => [DIFFERS, ONLY_LEFT, ONLY_RIGHT].includes(line.state);
const differences = trees.flatMap((tree) => tree.lines.filter(isDifference).map((line) => ({ tree, line })));
let current = -1;
const position = make("span", { role: "status", id: "position" });
const lead = (step) => {
  if (differences.length === 0) return;
  current = (current + step + differences.length) % differences.length;
  const { tree, line } = differences[current];
  tree.show(line);
  position.textContent = `${shown(current + 1)} of ${counted(differences.length, "line")} that differ`;
};

document.getElementById("verdict").append(data.differences > 0 ? `: ${counted(data.differences, "difference")}` : "");
document.getElementById("made").append(`made ${data.made} by sill ${data.version}`);
const sideFacts = facts(...data.paths.map((path, at) => [SIDES[at], foreign(path, "code")]));
const main = document.getElementById("main");
main.append(make("div", { class: "card" }, sideFacts));
if (differences.length > 0) {
  main.append(make("p", { class: "screen lead" }, make("button", { type: "button", id: "next", click: () => lead(1) }, "Next difference"), " ",
    make("button", { type: "button", id: "previous", click: () => lead(-1) }, "Previous"), " ", position));
}
main.append(...sections);
for (const refused of data.refused) main.append(refusal(refused, `${SIDES[refused.side]} is refused`));
if (data.longer) main.append(make("p", { class: "foreign", dir: "ltr" }, data.longer));
if (data.more > 0) main.append(make("p", {}, `and ${counted(data.more, "value")} more that differ; sill diff --all tells every difference`));
document.body.append(footer(["n"], " and ", ["p"], " lead to the next and the previous difference, ", ["\u2191"], " ", ["\u2193"],
  " from line to line, ", ["\u2192"], " opens one, ", ["\u2190"], " closes it."));

addEventListener("keydown", (event) => {
  if (event.altKey || event.ctrlKey || event.metaKey) return;
  if (event.key === "n") lead(1);
  if (event.key === "p") lead(-1);
});
