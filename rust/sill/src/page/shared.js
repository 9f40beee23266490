
"use strict";
// What both pages use: the data, elements, numbers, and rows of line tables. Text from files is only ever put as text.
const data = JSON.parse(document.getElementById("data").textContent);

const make = (name, attributes = {}, ...children) => {
  const element = document.createElement(name);
  for (const [key, value] of Object.entries(attributes)) {
    if (typeof value === "function") element.addEventListener(key, value);
    else if (value !== false && value !== null) element.setAttribute(key, value === true ? "" : value);
  }
  element.append(...children);
  return element;
};

const shown = new Intl.NumberFormat("en").format;
const bytes = (from, behind) => (behind - from === 1 ? `byte ${shown(from)}` : `bytes ${shown(from)} to ${shown(behind - 1)}`);
const counted = (count, thing, things = thing + "s") => `${shown(count)} ${count === 1 ? thing : things}`;
const foreign = (text, kind = "span") => make(kind, { class: "foreign", dir: "ltr" }, text);

const quiet = (text) => make("p", { class: "quiet" }, text);

// The last line: text, and keys, each in brackets of its own.
const footer = (...parts) =>
  make("footer", {}, make("p", {}, ...parts.map((part) => (Array.isArray(part) ? make("kbd", {}, ...part) : part)), " Places count bytes from a file's start."));

const facts = (...pairs) =>
  make("dl", {}, ...pairs.filter(Boolean).flatMap(([word, fact]) => [make("dt", {}, word), make("dd", {}, fact)]));

const small = (caption, heads, rows) =>
  make("table", { class: "small" },
    make("caption", { class: "unseen" }, caption),
    make("thead", {}, make("tr", {}, ...heads.map((head) => make("th", { scope: "col" }, head)))),
    make("tbody", {}, ...rows));

// A part that scrolls by itself; once it is seen it shows its first marked row.
const scrolled = (label, table) => {
  const part = make("div", { class: "scroll", tabindex: 0, role: "region", "aria-label": label }, table);
  requestAnimationFrame(() => {
    const marked = part.querySelector("tr.marked");
    if (marked) part.scrollTop = marked.offsetTop - part.clientHeight / 3;
  });
  return part;
};

const spread = (first, last) => (first === last ? shown(first) : `${shown(first)} to ${shown(last)}`);

// What is folded is made where it is asked for.
const folded = (summary, fill, open = false) => {
  const body = make("div");
  const fold = make("details", { toggle: () => { if (fold.open && !body.hasChildNodes()) body.append(...fill()); } },
    make("summary", {}, summary), body);
  fold.open = open;
  return fold;
};

const swatch = (kind) => make("span", { class: `swatch ${kind}`, "aria-hidden": "true" });

const [SURE, LINE_ALONE, BELOW, , CUT, , BEHIND] = data.origins.keys();

// An instruction's row as it is known, and what document 01 shows where it is not.
const placeWords = (origin, line, column, end, endColumn) => {
  if (origin === SURE) return `${line}:${column} to ${end}:${endColumn}`;
  if (origin === LINE_ALONE) return line === end ? `${line}` : `${line} to ${end}`;
  if (origin === BEHIND) return "-";
  return origin === BELOW && line < 1 ? `- (line ${line}, shown as 1)` : `- (shown as ${Math.max(1, line)})`;
};

// Sixteen bytes a line, each also as a letter; the byte of the refusal stands in brackets, also where the file ends before it.
const hexadecimal = ({ byte, bytes, from }) => {
  const line = (at) => {
    const [hex, letters] = [[], []];
    for (let place = at; place < at + 16; place += 1) {
      const pair = bytes.slice(2 * (place - from), 2 * (place - from) + 2).padEnd(2);
      const code = parseInt(pair, 16);
      const letter = pair === "  " ? " " : code > 31 && code < 127 ? String.fromCharCode(code) : "\u00b7";
      const between = place === byte + 1 && place > at ? "" : " ";
      hex.push(place === byte ? make("mark", {}, `[${pair}]`) : between + pair);
      letters.push(place === byte ? make("mark", {}, letter) : letter);
    }
    return [String(at).padStart(9), " ", ...hex, byte === at + 15 ? "" : " ", " ", ...letters, "\n"];
  };
  const lines = [];
  for (let at = from; at < Math.max(from + bytes.length / 2, byte + 1); at += 16) lines.push(...line(at));
  return make("pre", { class: "bytes", tabindex: 0, "aria-label": `bytes about byte ${byte}` }, ...lines);
};

const refusal = (refused, title) =>
  make("section", { class: "card refusal" },
    make("h3", {}, make("span", {}, `${refused.number} ${refused.name}`), make("span", { class: "quiet" }, title ?? "")),
    make("p", {}, refused.meaning),
    facts(
      ["Place", `byte ${shown(refused.byte)} of ${shown(refused.length)}`],
      ["Way to it", foreign(refused.way, "code")],
      refused.hint && ["Hint", refused.hint]),
    hexadecimal(refused));
