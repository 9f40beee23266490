
// A table of files. Rows have one height, and only those in sight are made, so that ten thousand files are there at once; what is known of
// a file stands below its row where it is open.
const PAPER = 2000; // the most rows that are printed
const BEYOND = 600; // how far beyond the window rows are made, in pixels

class Files {
  constructor({ label, kind, columns, items, detail }) {
    Object.assign(this, { columns, items, detail, order: null, opened: new Map(), made: new Map(), all: false, current: 0 });
    this.heads = columns.map((column, at) => make("th", { scope: "col", role: "columnheader" },
      make("button", { type: "button", click: () => this.sort(at) }, column.word)));
    this.before = this.space();
    this.behind = this.space();
    const heard = { keydown: (event) => this.key(event), click: (event) => this.click(event) };
    this.body = make("tbody", { role: "rowgroup", ...heard }, this.before, this.behind);
    this.table = make("table", { class: `files ${kind}`, role: "table" },
      make("caption", { class: "unseen" }, label),
      make("colgroup", {}, ...columns.map((column) => make("col", { class: column.width }))),
      make("thead", { role: "rowgroup" }, make("tr", { role: "row" }, ...this.heads)),
      this.body);
    this.nothing = make("p", { class: "nothing" }, "No file here matches.");
    this.rest = make("p", { class: "nothing", hidden: true });
    this.element = make("div", {}, this.table, this.nothing, this.rest);
    this.sizes = new ResizeObserver((changes) => this.resized(changes));
    addEventListener("scroll", () => this.draw(), { passive: true });
    addEventListener("resize", () => this.remeasure());
  }

  space() {
    return make("tr", { class: "space", "aria-hidden": "true", role: "presentation" }, make("td", { colspan: this.columns.length }));
  }

  // ---- Which files, in which order

  filter() {
    this.shown = this.items.filter(matches);
    if (this.order) {
      const { by, turned } = this.order;
      const key = new Map(this.shown.map((item) => [item, this.columns[by].key(item)]));
      const compare = (one, other) => (key.get(one) < key.get(other) ? -1 : key.get(one) > key.get(other) ? 1 : 0);
      this.shown.sort((one, other) => (turned ? -1 : 1) * compare(one, other) || one.turn - other.turn);
    }
    this.place = new Map(this.shown.map((item, at) => [item, at]));
    this.current = 0;
    this.begin();
  }

  sort(by) {
    this.order = { by, turned: this.order?.by === by && !this.order.turned };
    this.tellOrder();
    this.filter();
  }

  tellOrder() {
    const { by } = this.order;
    this.heads.forEach((head, at) => {
      if (at === by) head.setAttribute("aria-sort", this.order.turned ? "descending" : "ascending");
      else head.removeAttribute("aria-sort");
    });
  }

  // ---- Rows

  begin() {
    for (const item of [...this.made.keys()]) this.remove(item);
    this.table.setAttribute("aria-rowcount", this.shown.length + 1);
    this.table.hidden = this.shown.length === 0;
    this.nothing.hidden = this.shown.length > 0;
    this.draw();
  }

  row(item, at) {
    const cells = this.columns.map((column) => {
      const cell = column.cell(item, this);
      cell.setAttribute("role", "cell");
      return cell;
    });
    return make("tr", { class: "file", role: "row", "aria-rowindex": at + 2 }, ...cells);
  }

  insert(item, at, next) {
    const row = this.row(item, at);
    row.file = item;
    this.body.insertBefore(row, next);
    const made = { row };
    if (this.opened.has(item)) made.under = this.insertDetail(item, row);
    this.made.set(item, made);
  }

  insertDetail(item, row) {
    item.known ??= this.detail(item); // it is kept as the reader left it while its row is out of sight
    const cell = make("td", { colspan: this.columns.length, role: "cell" }, item.known);
    const under = make("tr", { class: "detail", role: "row" }, cell);
    under.file = item;
    row.after(under);
    this.sizes.observe(under);
    return under;
  }

  remove(item) {
    const { row, under } = this.made.get(item);
    if (under) this.sizes.unobserve(under);
    under?.remove();
    row.remove();
    this.made.delete(item);
  }

  // The height of a row, all of which are alike.
  get height() {
    if (!this.measured) {
      const first = this.made.values().next().value;
      this.measured = first?.row.getBoundingClientRect().height;
    }
    return this.measured || 37;
  }

  remeasure() {
    this.measured = 0;
    this.draw();
  }

  // Where each opened row stands, and how much is under the rows up to there.
  offsets() {
    const opened = [...this.opened].filter(([item]) => this.place.has(item));
    const under = opened.map(([item, height]) => ({ at: this.place.get(item), height })).sort((one, other) => one.at - other.at);
    let sum = 0;
    return under.map(({ at, height }) => ({ at, sum: (sum += height) }));
  }

  top(at, offsets) {
    let [low, high] = [0, offsets.length];
    while (low < high) {
      const middle = (low + high) >> 1;
      if (offsets[middle].at < at) low = middle + 1;
      else high = middle;
    }
    return at * this.height + (low > 0 ? offsets[low - 1].sum : 0);
  }

  // The first row whose end is behind a height.
  at(height, offsets) {
    let [low, high] = [0, this.shown.length];
    while (low < high) {
      const middle = (low + high) >> 1;
      if (this.top(middle + 1, offsets) <= height) low = middle + 1;
      else high = middle;
    }
    return low;
  }

  draw() {
    if (!this.table.checkVisibility()) return;
    const offsets = this.offsets();
    const above = -this.body.getBoundingClientRect().top;
    let first = this.at(above - BEYOND, offsets);
    let last = Math.min(this.shown.length, this.at(above + innerHeight + BEYOND, offsets) + 1);
    if (this.all) [first, last] = [0, Math.min(PAPER, this.shown.length)];
    this.rest.hidden = !this.all || last === this.shown.length;
    this.rest.textContent = `and ${counted(this.shown.length - last, "file")} more, on the screen alone`;
    for (const item of [...this.made.keys()]) {
      const at = this.place.get(item);
      if (at === undefined || at < first || at >= last) this.remove(item);
    }
    let next = this.before.nextSibling;
    for (let at = first; at < last; at += 1) {
      const item = this.shown[at];
      if (!this.made.has(item)) this.insert(item, at, next);
      const { row, under } = this.made.get(item);
      next = (under ?? row).nextSibling;
    }
    const end = this.all ? 0 : this.top(this.shown.length, offsets) - this.top(last, offsets);
    this.before.firstChild.style.height = `${this.all ? 0 : this.top(first, offsets)}px`;
    this.behind.firstChild.style.height = `${end}px`;
    this.rove();
  }

  resized(changes) {
    for (const { target } of changes) {
      const height = target.getBoundingClientRect().height;
      if (height > 0 && this.opened.has(target.file)) this.opened.set(target.file, height);
    }
    this.draw();
  }

  // ---- Opening, and the keyboard

  toggle(item) {
    const { row, under } = this.made.get(item);
    const open = !this.opened.has(item);
    if (open) {
      this.opened.set(item, 0);
      this.made.get(item).under = this.insertDetail(item, row);
    } else {
      this.opened.delete(item);
      delete item.known;
      this.sizes.unobserve(under);
      under.remove();
      delete this.made.get(item).under;
    }
    row.querySelector(".open").setAttribute("aria-expanded", open);
    this.draw();
  }

  click(event) {
    const row = event.target.closest("tr.file");
    if (!row || !this.detail || String(getSelection()) !== "") return;
    this.current = this.place.get(row.file);
    this.toggle(row.file);
  }

  // One row at a time is reached by Tab; arrows lead to the others.
  rove() {
    const reached = this.made.get(this.shown[this.current]) ?? this.made.values().next().value;
    for (const { row } of this.made.values()) {
      row.querySelector(".open")?.setAttribute("tabindex", row === reached?.row ? 0 : -1);
    }
  }

  key(event) {
    const row = event.target.closest("tr.file");
    if (!row || event.altKey || event.ctrlKey || event.metaKey) return;
    const at = this.place.get(row.file);
    const page = Math.max(1, Math.floor(innerHeight / this.height) - 2);
    const led = { ArrowDown: at + 1, ArrowUp: at - 1, PageDown: at + page, PageUp: at - page, Home: 0, End: this.shown.length - 1 };
    if (!(event.key in led)) return;
    event.preventDefault();
    this.reach(Math.min(this.shown.length - 1, Math.max(0, led[event.key])));
  }

  reach(at) {
    this.current = at;
    const offsets = this.offsets();
    const start = this.body.getBoundingClientRect().top + scrollY + this.top(at, offsets);
    const room = innerHeight - 3 * this.height;
    if (start < scrollY + 2 * this.height) scrollTo({ top: start - 2 * this.height });
    else if (start > scrollY + room) scrollTo({ top: start - room });
    this.draw();
    this.made.get(this.shown[at])?.row.querySelector(".open")?.focus({ preventScroll: true });
  }
}
