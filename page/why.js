// Why a host sees the volumes of a storage group, or does not: the ports of both sides, pair by pair.
import * as desk from "./desk.js";
import { count, el, field, form, note, several, table } from "./dom.js";
import { FABRICS } from "./paths.js";
import { run } from "./shell.js";

const MOST_PAIRS = 256, MOST_UNITS = 8, HEADS = ["Fabric", "~Initiator", "~Target", "May communicate"];

/** @param {Element} view @param {desk.Holder} is @param {desk.Port[]} ports */
export function why(view, is, ports) {
  const place = el("div"), button = el("button", {}, "Explain");
  view.append(el("h3", {}, "Why does it not see a volume?"),
    el("p", {}, "Give the name of the storage group that should offer it: the desk does not tell which groups have a host."),
    form(([name]) => run(place, () => explained(place, is, ports, name), { buttons: [button] }), field("Name of the storage group"), button), place);
}

async function explained(place, is, ports, name) {
  const group = await desk.read("groups", name);
  const inside = (await desk.each(group.host_groups, one => desk.find("hostgroups", one))).find(one => one?.hosts.includes(is.name));
  const targets = await desk.each(group.targets, port => desk.read("ports", port));
  const all = ports.flatMap(port => targets.filter(to => port.at && port.at.fabric === to.at?.fabric).map(to => [port, to]));
  const pairs = await desk.each(all.slice(0, MOST_PAIRS), async ([{ port_name: from, at }, { port_name: to }]) =>
    ({ fabric: at.fabric, from, to, ...await desk.read("joined", from, to) }));
  place.replaceChildren(answer(is, name, group, inside, pairs, all.length));
  if (pairs.length) place.append(table("Pairs of ports", HEADS, pairs.length, at => {
    const { fabric, from, to, joined, zone } = pairs[at];
    return [fabric, from, to, el("td", { class: joined ? "gained" : "lost" }, !joined ? "✕ no common zone" : zone ? `✓ zone ${zone}` : "✓ default zone")];
  }));
}

const line = (isGood, yes, no = yes) => isGood ? `✓ ${yes}` : `✕ ${no}`;

function answer(is, name, { exposed, units }, inside, pairs, all) {
  const some = units.slice(0, MOST_UNITS).map(unit => `${unit.volume} at unit ${unit.lun}`).join(", ");
  const joined = FABRICS.map(letter => pairs.some(pair => pair.fabric === letter && pair.joined));
  const isOpen = exposed && inside && units.length && joined.some(Boolean);
  return note(!isOpen ? "bad" : joined.every(Boolean) ? "good" : "warn", `${is.name} and the storage group ${name}`,
    line(exposed, "It is exposed.", "It is hidden, and gives no path."),
    line(inside, `Its host group ${inside?.name} has ${is.name}.`, `None of its host groups that you may see has ${is.name}.`),
    line(units.length, `It has ${several(units.length, "volume")}: ${some}${units.length > MOST_UNITS ? " .." : ""}.`, "It has no volume."),
    FABRICS.map(letter => fabric(letter, pairs.filter(pair => pair.fabric === letter))),
    all > pairs.length && `! Only the first ${count(pairs.length)} of ${count(all)} pairs were asked about.`);
}

function fabric(letter, pairs) {
  const well = pairs.filter(pair => pair.joined).length;
  return line(well, pairs.length ? `Fabric ${letter}: ${well || "none"} of ${several(pairs.length, "pair")} of ports may communicate.`
    : `Fabric ${letter}: no port of the host and target of the group are logged in there both.`);
}
