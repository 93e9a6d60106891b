// Paths as a picture: hosts, initiators, fabrics, targets, volumes. Told by dash, sign and word, and not by colour alone.
import { count, several, svg } from "./dom.js";
import { shapeOf } from "./shape.js";

const COLUMNS = [
  { head: "Hosts", one: "host", x: 6, width: 146, letters: 18 },
  { head: "Initiators", one: "initiator", x: 206, width: 180, letters: 24 },
  { head: "Fabric", one: "fabric", x: 440, width: 146, letters: 18 },
  { head: "Targets", one: "target", x: 640, width: 180, letters: 24 },
  { head: "Volumes", one: "volume", x: 874, width: 146, letters: 18 },
];
const WIDTH = 1026, TOP = 34, STEP = 44, TALL = 34, APART = 7, MOST_SIGNS = 8, MOST_NAMES = 20, KINDS = ["kept", "lost", "gained"];
let pictures = 0;

function label({ ids, isRest }, { one, letters }) {
  if (ids.length > 1) return several(ids.length, isRest ? `other ${one}` : one);
  const bare = one === "fabric" ? `Fabric ${ids[0]}` : ids[0].replace(/^[AB] /, "");
  return bare.length > letters ? `${bare.slice(0, letters - 3)}…` : bare;
}

const lost = number => `−${count(number)}`, gained = number => `+${count(number)}`;
/** Hosts that are not known may have other paths: nothing of theirs is said to be lost, or new. */
const kindOf = ([kept, gone, come, unknown]) => unknown || kept || gone && come ? "" : gone ? "gone" : "new";

function counts(sum) {
  const [kept, gone, come, unknown] = sum, signs = [gone && lost(gone), come && gained(come)].filter(Boolean).join(" ");
  if (kindOf(sum)) return `${gone ? "✕ lost" : "new"}: ${signs}`;
  return signs ? `${unknown ? "?" : count(kept + come)} ${signs}` : several(kept, "path");
}

/** A node: its name, and how many paths it has, loses and gains. */
function box(shown, y, column) {
  const { x, width } = column, text = counts(shown.sum), isLong = text.length > 19 && width < 170;
  const names = shown.ids.slice(0, MOST_NAMES).join(" ") + (shown.ids.length > MOST_NAMES ? " .." : "");
  return svg("g", { class: kindOf(shown.sum) }, svg("title", {}, names), svg("rect", { x, y: y - TALL / 2, width, height: TALL, rx: 4 }),
    svg("text", { x: x + 7, y: y - 2 }, label(shown, column)),
    svg("text", { x: x + 7, y: y + 12, class: "count", textLength: isLong ? width - 14 : null, lengthAdjust: "spacingAndGlyphs" }, text));
}

/** Up to three lines between two nodes, for what is kept, lost and gained, and their signs. */
function strand({ column, sum }, y1, y2, hasSigns) {
  const x1 = COLUMNS[column].x + COLUMNS[column].width, x2 = COLUMNS[column + 1].x, middle = (x1 + x2) / 2;
  const there = [0, 1, 2].filter(at => sum[at]), isPair = sum[1] && sum[2], lines = [], texts = [];
  there.forEach((at, order) => {
    const shift = (order - (there.length - 1) / 2) * APART, from = y1 + shift, to = y2 + shift;
    const width = 1.2 + Math.log10(sum[at]) * .6 + (at ? .8 : 0), y = (from + to) / 2 + 4 + (isPair ? at === 1 ? -8 : 9 : 0);
    lines.push(svg("path", { class: KINDS[at], "stroke-width": width.toFixed(1), d: `M${x1} ${from}C${middle} ${from} ${middle} ${to} ${x2} ${to}` }));
    if (at && hasSigns) texts.push(svg("text", { class: `sign ${KINDS[at]}`, x: middle, y, "text-anchor": "middle" }, (at === 1 ? lost : gained)(sum[at])));
  });
  return { lines, texts };
}

/** `title` and `words` say the same for those who do not see it.
 * @param {import("./paths.js").Marked[]} marked @param {string} title @param {string} words */
export function picture(marked, title, words) {
  const { columns, strands } = shapeOf(marked), high = Math.max(...columns.map(all => all.length)) * STEP, id = `picture${++pictures}`;
  const places = new Map(columns.flatMap(all => all.map((one, row) => [one, TOP + (row + .5) * high / all.length])));
  // Where many strands change, or cross, the boxes alone tell the numbers.
  const changed = [0, 0, 0, columns[3].length * columns[4].length < 4 ? 0 : Infinity];
  for (const { column, sum } of strands) changed[column] += Number(sum[1] > 0) + Number(sum[2] > 0);
  const drawn = strands.map(one => strand(one, places.get(one.from), places.get(one.to), changed[one.column] <= MOST_SIGNS));
  return svg("svg", { class: "paths", viewBox: `0 0 ${WIDTH} ${high + TOP + 6}`, role: "img", "aria-labelledby": `${id}t`, "aria-describedby": `${id}d` },
    svg("title", { id: `${id}t` }, title), svg("desc", { id: `${id}d` }, words),
    COLUMNS.map(({ head, x }) => svg("text", { class: "head", x, y: 18 }, head)), drawn.map(one => one.lines),
    columns.flatMap((all, at) => all.map(one => box(one, places.get(one), COLUMNS[at]))), drawn.map(one => one.texts));
}
