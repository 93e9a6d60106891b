// What a host sees, over both fabrics.
import * as desk from "./desk.js";
import { act, download, el, field, form, note, say, scrolling, several, table } from "./dom.js";
import { FABRICS, byName, csvOf, effects, state } from "./paths.js";
import { picture } from "./picture.js";
import { go, run } from "./shell.js";
import { why } from "./why.js";

const MOST_VOLUMES = 64, MOST_TOLD = 12, MOST_HOSTS = 64, GIB = 2 ** 30;
/** The hosts that were looked at last: their names help a plan to be told in hosts. They are kept in memory alone. */
let looked = [];
export const known = () => looked;
export function forget() { looked = []; }

/** @param {Element} main @param {string} [name] */
export async function host(main, name) {
  const place = el("div"), view = el("div");
  main.append(el("h2", {}, name && desk.fits("name", name) ? `Host ${name}` : "Host"),
    form(words => go("host", ...words), field("Name of the host", { value: name, list: "known" }),
      el("datalist", { id: "known" }, looked.map(value => el("option", { value }))), el("button", { class: "main" }, "Show")), place, view);
  if (!name) return main.querySelector("input").focus();
  say(`Reading ${name} ..`);
  await run(place, async () => {
    /** @type {[desk.Holder, { paths: desk.Path[] }]} */
    const [is, { paths }] = await Promise.all([desk.read("hosts", name), desk.read("paths", name)]);
    const ports = await desk.each(is.ports, port => desk.read("ports", port)), marked = paths.map(path => ({ ...path, host: name, change: "=" }));
    looked = [name, ...looked.filter(other => other !== name)].slice(0, MOST_HOSTS);
    const rows = effects(marked).sort((one, other) => one.lun - other.lun || byName(one.volume, other.volume)), words = sentence(rows, paths.length);
    view.append(verdict(is, ports, rows, words));
    if (rows.length) view.append(scrolling("Picture of the paths", picture(marked, `What ${name} sees`, words), "picture"), ...tables(name, rows, paths));
    say(`${name}: ${several(paths.length, "path")}.`);
    why(view, is, ports);
  });
}

const isOne = row => state(row.after) !== "both fabrics";

function sentence(rows, paths) {
  const one = rows.filter(isOne), names = one.slice(0, MOST_TOLD).map(row => `${row.volume} (${row.after[0] ? "A" : "B"})`).join(", ");
  return `${several(rows.length, "volume")} over ${several(paths, "path")}: ${several(rows.length - one.length, "volume")} over both fabrics`
    + (one.length ? `, ${several(one.length, "volume")} over one alone: ${names}${one.length > MOST_TOLD ? " .." : ""}.` : ".");
}

function verdict(is, ports, rows, words) {
  const [a, b] = FABRICS.map(letter => ports.filter(port => port.at?.fabric === letter).length);
  const away = ports.filter(port => !port.at).map(port => port.port_name), hasOne = rows.some(isOne);
  return note(!rows.length ? "bad" : hasOne || away.length ? "warn" : "good",
    !rows.length ? "This host sees no volume" : `${hasOne ? "Not every" : "Every"} volume is there over both fabrics`,
    rows.length > 0 && words, `${is.name} (tenant ${is.tenant}) has ${several(ports.length, "port")}: ${a} logged in at fabric A, ${b} at fabric B.`,
    away.length > 0 && `Logged in nowhere: ${away.join(", ")}.`);
}

const tables = (name, rows, paths) => [el("h3", {}, "Volumes"), volumes(rows), el("h3", {}, "Paths"),
  act("Download the paths (CSV)", () => download(`${name}-paths.csv`, csvOf(name, paths))),
  table("Paths", ["Fabric", "~Initiator", "~Target", "~Volume", "#Unit"], paths.length,
    at => { const { fabric, initiator, target, volume, lun } = paths[at]; return [fabric, initiator, target, volume, lun]; })];

/** The volumes; their arrays and sizes come in behind, of the first ones. */
function volumes(rows) {
  const arrays = rows.map(() => el("td", { class: "name" })), sizes = rows.map(() => el("td", { class: "number" }));
  desk.each(rows.slice(0, MOST_VOLUMES).entries(), async ([at, row]) => {
    const found = await desk.find("volumes", row.volume), gib = found && found.bytes / GIB;
    arrays[at].textContent = found ? found.array : "not yours";
    sizes[at].textContent = !found ? "" : gib < .1 ? "< 0.1" : gib.toLocaleString("en", { maximumFractionDigits: 1 });
  }).catch(fault => { if (fault.name !== "AbortError") say("The arrays and sizes of the volumes could not all be read."); });
  return table("Volumes", ["~Volume", "#Unit", "~Array", "#GiB", "#Paths over A", "#Paths over B", "State"], rows.length, at => {
    const row = rows[at], is = state(row.after);
    return [row.volume, row.lun, arrays[at], sizes[at], ...row.after, isOne(row) ? el("td", { class: "warn" }, `! ${is}`) : is];
  });
}
