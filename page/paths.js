// Lists of paths: which are lost, gained and kept, and what that means for whom.

/** @typedef {import("./desk.js").Path} Path */
/** @typedef {Path & { host?: string, change: string }} Marked "=" kept, "-" lost, "+" gained; `host` where it is known */
/**
 * A host (an initiator, where the host is not known) and a volume, or all its volumes: paths over A and over B.
 * @typedef {{ host?: string, initiator: string, volume: string, lun: number, before: number[], after: number[],
 *   moved: number, rank: number, kind: string, words: string, volumes?: number, changed?: number }} Row
 */

export const FABRICS = ["A", "B"];
const keyOf = path => `${path.fabric} ${path.initiator} ${path.target} ${path.volume} ${path.lun}`;
export const byName = new Intl.Collator("en", { numeric: true }).compare;

const textOf = ({ gained, lost }) => JSON.stringify([gained, lost]);
/** Whether the same paths move. The desk gives each list in order. */
export const isSame = (one, other) => textOf(one) === textOf(other);

/**
 * Puts what moves over the paths that hosts have `now`; `holders` has the host of each initiator. `isWhole` is false where
 * the two do not fit: each lost path has to be among those of its host, and no gained one may be.
 * @param {{ gained: Path[], lost: Path[] }} moved @param {Map<string, string>} holders @param {Map<string, Path[]>} now
 */
export function overlay(moved, holders, now) {
  const lost = new Set(moved.lost.map(keyOf)), gained = new Set(moved.gained.map(keyOf)), marked = [];
  let isWhole = true, found = 0, awaited = 0;
  for (const [host, paths] of now) for (const path of paths) {
    const key = keyOf(path);
    if (gained.has(key)) isWhole = false;
    if (lost.has(key)) found++; else marked.push({ ...path, host, change: "=" });
  }
  const add = change => path => {
    const held = holders.get(path.initiator), host = now.has(held) ? held : undefined;
    if (host != null && change === "-") awaited++;
    marked.push({ ...path, host, change });
  };
  moved.lost.forEach(add("-"));
  moved.gained.forEach(add("+"));
  return { marked, isWhole: isWhole && found === awaited };
}

/** @param {number[]} paths over A and over B */
export const state = ([a, b]) => a && b ? "both fabrics" : a ? "fabric A alone" : b ? "fabric B alone" : "no path";
const isOne = text => text.endsWith("alone");

/** The rank, kind and words of a row; the least rank is the worst.
 * @param {Row} row @returns {[number, string, string]} */
function meaning({ host, before, after, moved }) {
  if (host == null) return [2, "warn", "! the host is not known: only the change is"];
  if (!moved) return [9, "", "as before"];
  const was = state(before), will = state(after), all = paths => paths[0] + paths[1];
  if (will === "no path") return [0, "lost", "✕ LOST: no path any more"];
  if (isOne(will) && was === "both fabrics") return [1, "lost", `✕ LEFT on ${will}`];
  if (isOne(will)) return [3, "warn", was === "no path" ? `! new, over ${will}` : was === will ? `! still ${will}, other paths` : `! moved to ${will}`];
  if (was !== "both fabrics") return [6, "gained", was === "no path" ? "+ new, over both fabrics" : "+ now over both fabrics"];
  const more = all(after) - all(before);
  return [5, "", `both fabrics, ${more === moved ? "more" : more === -moved ? "fewer" : "other"} paths`];
}

/** What changes for each host and volume, the worst first.
 * @param {Marked[]} marked */
export function effects(marked) {
  /** @type {Map<string, Row>} */
  const rows = new Map();
  for (const { host, initiator, volume, lun, fabric, change } of marked) {
    const key = `${host ?? initiator} ${volume} ${lun}`, at = FABRICS.indexOf(fabric);
    let row = rows.get(key);
    if (!row) rows.set(key, row = { host, initiator, volume, lun, before: [0, 0], after: [0, 0], moved: 0, rank: 9, kind: "", words: "" });
    if (change !== "+") row.before[at]++;
    if (change !== "-") row.after[at]++;
    if (change !== "=") row.moved++;
  }
  for (const row of rows.values()) [row.rank, row.kind, row.words] = meaning(row);
  return [...rows.values()].sort((one, other) => one.rank - other.rank
    || byName(one.host ?? "~" + one.initiator, other.host ?? "~" + other.initiator) || byName(one.volume, other.volume));
}

/** The rows of each host as one: sums, and what is said of the volumes that change.
 * @param {Row[]} rows @returns {Row[]} */
export function byHost(rows) {
  const found = new Map();
  for (const row of rows) {
    const key = row.host ?? row.initiator;
    found.set(key, found.get(key) ?? []).get(key).push(row);
  }
  return [...found.values()].map(all => {
    const changed = all.filter(row => row.moved), words = new Map(), sum = key => [0, 1].map(at => all.reduce((whole, row) => whole + row[key][at], 0));
    for (const row of changed) words.set(row.words, (words.get(row.words) ?? 0) + 1);
    const told = [...words].map(([text, number]) => number === changed.length ? text : `${number} of ${changed.length}: ${text}`).join("; ");
    return { ...all[0], before: sum("before"), after: sum("after"), volumes: all.length, changed: changed.length, words: told };
  });
}

/** Names of hosts that are left without a path, on one fabric, or on one as before.
 * @param {Row[]} hosts */
export function left(hosts) {
  const those = wanted => hosts.filter(one => one.host != null && one.changed && wanted(state(one.after), state(one.before)))
    .map(one => one.host).sort(byName);
  return {
    none: those((will, was) => will === "no path" && was !== "no path"),
    one: those((will, was) => isOne(will) && !isOne(was)),
    still: those((will, was) => isOne(will) && isOne(was)),
  };
}

const HEAD = "fabric,host,initiator,target,volume,lun";
const line = (path, host) => [path.fabric, host, path.initiator, path.target, path.volume, path.lun].join(",");
/** The list of `sandesk paths`. No field needs a quote.
 * @param {string} host @param {Path[]} paths */
export const csvOf = (host, paths) => [HEAD, ...paths.map(path => line(path, host)), ""].join("\n");
/** The same of what changes, with how in front.
 * @param {Marked[]} marked */
export const csvOfChange = marked => [`change,${HEAD}`, ...marked.filter(path => path.change !== "=")
  .map(path => `${path.change === "-" ? "lost" : "gained"},${line(path, path.host ?? "")}`), ""].join("\n");
