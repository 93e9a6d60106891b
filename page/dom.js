// Nodes made by code. Strings become text nodes, so nothing that the desk answers is ever read as markup.

const SVG = "http://www.w3.org/2000/svg", STEP = 200, MARKS = { good: "✓ ", warn: "! ", bad: "✕ ", plain: "" };

/** Functions are for events. True is an attribute without a value; false and null are left out, children too. */
function filled(node, attributes, children) {
  for (const [key, value] of Object.entries(attributes)) {
    if (typeof value === "function") node.addEventListener(key, value);
    else if (value !== false && value != null) node.setAttribute(key, value === true ? "" : value);
  }
  node.append(...children.flat(9).filter(child => child != null && child !== false));
  return node;
}

/** @param {string} name @param {Object} attributes @param {any[]} children @returns {any} */
export const el = (name, attributes = {}, ...children) => filled(document.createElement(name), attributes, children);
/** The same of SVG. @type {typeof el} */
export const svg = (name, attributes = {}, ...children) => filled(document.createElementNS(SVG, name), attributes, children);

export const count = number => number.toLocaleString("en");
export const several = (number, one, many = one + "s") => `${count(number)} ${number === 1 ? one : many}`;
/** Tells a text in the status line. */
export function say(text) { document.getElementById("said").textContent = text; }

/** A field for one word.
 * @param {string} label @param {Object} attributes */
export const field = (label, attributes = {}) =>
  el("label", {}, label, el("input", { autocomplete: "off", spellcheck: "false", required: true, ...attributes }));

/** A button.
 * @param {string} text @param {() => void} click @param {string} [kind] */
export const act = (text, click, kind) => el("button", { type: "button", class: kind, click }, text);

/** A form that hands over what stands in its fields.
 * @param {(words: string[]) => void} done @param {any[]} children */
export const form = (done, ...children) => el("form", { submit: event => {
  event.preventDefault();
  done([...event.target.querySelectorAll("input, select")].map(one => one.value.trim()));
} }, children);

/** A box. Its first sign tells its kind, not its colour alone.
 * @param {string} kind one of `MARKS` @param {string} title @param {any[]} lines */
export const note = (kind, title, ...lines) => el("div", { class: `note ${kind}`, role: kind === "bad" ? "alert" : null },
  el("b", {}, MARKS[kind] + title), lines.flat().filter(Boolean).map(line => typeof line === "string" ? el("p", {}, line) : line));

/** What scrolls by itself, also by the keyboard. */
export const scrolling = (name, inside, kind = "") => el("div", { class: `scroll ${kind}`, tabindex: "0", role: "region", "aria-label": name }, inside);

/**
 * A table that shows some rows at first, and more where that is asked for.
 * @param {string} caption @param {string[]} columns their heads, with # before one of numbers, ~ before one of names
 * @param {number} length @param {(at: number) => any[]} rowAt the cells of a row
 */
export function table(caption, columns, length, rowAt, step = STEP) {
  const body = el("tbody"), told = el("caption"), more = act("", () => { grow(); say(told.textContent); });
  const kindOf = head => ({ "#": "number", "~": "name" })[head[0]];
  const cell = (inside, at) => inside instanceof HTMLTableCellElement ? inside
    : el("td", { class: kindOf(columns[at]) }, typeof inside === "number" ? count(inside) : inside);
  let shown = 0;
  function grow() {
    for (const until = Math.min(length, shown + step); shown < until; shown++) body.append(el("tr", {}, rowAt(shown).map(cell)));
    told.textContent = shown < length ? `${caption}: the first ${count(shown)} of ${count(length)}` : `${caption}: ${count(length)}`;
    more.textContent = `Show ${count(Math.min(step, length - shown))} more`;
    more.hidden = shown === length;
  }
  grow();
  const heads = columns.map(head => el("th", { scope: "col", class: kindOf(head) }, head.replace(/^[#~]/, "")));
  return el("div", {}, scrolling(caption, el("table", {}, told, el("thead", {}, el("tr", {}, heads)), body)), more);
}

/** @param {string} name @param {string} text */
export function download(name, text) {
  const link = el("a", { href: URL.createObjectURL(new Blob([text], { type: "text/csv" })), download: name });
  link.click();
  setTimeout(() => URL.revokeObjectURL(link.href), 10000);
}

const dialog = /** @type {HTMLDialogElement} */ (document.getElementById("sure"));
/** What is being asked is answered with no. */
export function dismiss() { if (dialog.open) dialog.close(""); }

/** Asks whether something is to be done; no is focused first.
 * @param {string} title @param {string[]} lines @param {string} verb */
export function sure(title, lines, verb) {
  dialog.returnValue = "";
  dialog.replaceChildren(el("h2", { id: "sure-title" }, title), el("ul", {}, lines.map(line => el("li", {}, line))),
    el("div", { class: "row" }, act("Cancel", dismiss), act(verb, () => dialog.close("yes"), "grave")));
  dialog.showModal();
  return new Promise(done => dialog.addEventListener("close", () => done(dialog.returnValue === "yes"), { once: true }));
}
