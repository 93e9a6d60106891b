// What a picture of paths shows: nodes in five columns, and strands between them. What is alike becomes one node.
import { byName } from "./paths.js";

/**
 * Things that are drawn as one. Sums are of paths that are kept, lost, gained, and that move for hosts that are not known.
 * @typedef {{ ids: string[], sum: number[], isRest: boolean }} Shown
 */

const MOST = 16, SUMS = [0, 1, 2, 3], CHANGES = ["=", "-", "+"];

function add(map, key, sum) {
  const whole = map.get(key);
  if (whole) for (const at of SUMS) whole[at] += sum[at]; else map.set(key, [...sum]);
}
const sumOf = all => SUMS.map(at => all.reduce((whole, one) => whole + one.sum[at], 0));

/** The things of each column, and the pairs of neighbours, each with its sum. */
function layers(marked) {
  const nodes = Array.from({ length: 5 }, () => new Map()), edges = Array.from({ length: 4 }, () => new Map());
  for (const { host, fabric, initiator, target, volume, change } of marked) {
    const sum = [...CHANGES.map(one => Number(one === change)), Number(host == null)];
    const ids = [host ?? "(not known)", `${fabric} ${initiator}`, fabric, `${fabric} ${target}`, volume];
    nodes.forEach((map, column) => add(map, ids[column], sum));
    edges.forEach((map, column) => add(map, `${ids[column]}|${ids[column + 1]}`, sum));
  }
  return { nodes, edges };
}

/** How many paths each thing of a column has with its neighbours, and, of fabrics and targets, with which. */
function neighbours(edges, column) {
  const found = new Map(), tell = (id, text) => found.set(id, found.get(id) ?? []).get(id).push(text);
  for (const [key, sum] of edges[column - 1] ?? []) { const [from, to] = key.split("|"); tell(to, `<${column > 2 ? from : ""} ${sum}`); }
  for (const [key, sum] of edges[column] ?? []) { const [from, to] = key.split("|"); tell(from, `>${column === 1 ? to : ""} ${sum}`); }
  return found;
}

/** Things with equal neighbours and sums as one, and past so many kinds the least changed as one. */
function grouped(map, edges, column) {
  const near = neighbours(edges, column), groups = new Map(), moved = one => one.sum[1] + one.sum[2];
  for (const [id, sum] of map) {
    const alike = `${column === 1 || column === 3 ? id[0] : ""} ${sum} ${near.get(id).sort().join()}`;
    groups.set(alike, groups.get(alike) ?? []).get(alike).push({ id, sum });
  }
  const shown = [...groups.values()].map(all => ({ ids: all.map(one => one.id), sum: sumOf(all), isRest: false }));
  if (shown.length <= MOST) return shown;
  const rest = shown.sort((one, other) => moved(other) - moved(one)).splice(MOST - 1);
  return [...shown, { ids: rest.flatMap(one => one.ids), sum: sumOf(rest), isRest: true }];
}

/** The columns of a picture, and the strands between them.
 * @param {import("./paths.js").Marked[]} marked */
export function shapeOf(marked) {
  const { nodes, edges } = layers(marked), single = map => [...map].map(([id, sum]) => ({ ids: [id], sum, isRest: false }));
  const inOrder = (one, other) => Number(one.isRest) - Number(other.isRest) || byName(one.ids[0], other.ids[0]);
  /** @type {Shown[][]} */
  const columns = nodes.map((map, column) => (map.size > MOST ? grouped(map, edges, column) : single(map)).sort(inOrder));
  const stands = columns.map(all => new Map(all.flatMap((one, at) => one.ids.map(id => [id, at]))));
  const strands = edges.flatMap((map, column) => {
    const sums = new Map();
    for (const [key, sum] of map) add(sums, key.split("|").map((id, side) => stands[column + side].get(id)).join(), sum);
    return [...sums].map(([ends, sum]) => {
      const [from, to] = ends.split(",").map((at, side) => columns[column + side][at]);
      return { column, from, to, sum };
    });
  });
  return { columns, strands };
}
