// Which hosts hold the initiators of a dry run. The desk does not tell: names are collected.
import * as desk from "./desk.js";
import { el, field, form, note, several } from "./dom.js";
import { known } from "./host.js";
import { FABRICS } from "./paths.js";
import { go } from "./shell.js";

const MOST_PORTS = 64, MOST_ZONES = 4;

/** What a plan text names: hosts, and groups through which there may be more.
 * @param {string} text */
function namedIn(text) {
  const hosts = new Set(), hostgroups = new Set(), groups = new Set();
  for (const [step, name, ...rest] of text.split("\n").map(line => line.split(" "))) {
    if (step === "hg.put") rest.slice(1).forEach(host => hosts.add(host));
    if (step.startsWith("hg.")) hostgroups.add(name);
    if (step.startsWith("sg.")) groups.add(name);
    if (step === "sg.host" || step === "sg.unhost") hostgroups.add(rest[0]);
  }
  return { hosts, hostgroups, groups };
}

const there = (kind, names) => desk.each(names, name => desk.find(kind, name));

/** The host of each initiator that can be known, and the asked hosts that are not there.
 * @param {string} text @param {string[]} asked */
export async function holdersOf(text, asked) {
  const { hosts, hostgroups, groups } = namedIn(text);
  for (const group of await there("groups", groups)) group?.host_groups.forEach(one => hostgroups.add(one));
  for (const group of await there("hostgroups", hostgroups)) group?.hosts.forEach(one => hosts.add(one));
  for (const one of [...asked, ...known()]) hosts.add(one);
  /** @type {Map<string, string>} */
  const holders = new Map();
  const found = (await there("hosts", [...hosts].filter(one => desk.fits("name", one)))).filter(Boolean);
  for (const is of found) for (const port of is.ports) holders.set(port, is.name);
  return { holders, missing: asked.filter(one => !found.some(is => is.name === one)) };
}

/** Initiators whose host is not known, with the active zones that have them, and a field to name hosts. */
export async function strangers(name, ports, asked) {
  const zones = (await desk.each(FABRICS, letter => desk.read("active", letter))).flatMap(active => active.zones);
  const zonesOf = port => zones.filter(zone => zone.members.includes(`wwpn=${port}`)).slice(0, MOST_ZONES).map(zone => zone.name).join(", ");
  return note("warn", `${several(ports.length, "initiator belongs", "initiators belong")} to hosts that the page does not know`,
    "The plan does not name them, and the desk does not tell who holds a port. Name the hosts, and what they had before is shown too.",
    el("ul", {}, ports.slice(0, MOST_PORTS).map(port => el("li", { class: "mono" }, `${port} in ${zonesOf(port) || "no active zone by its port name"}`)),
      ports.length > MOST_PORTS && el("li", {}, `and ${ports.length - MOST_PORTS} more`)),
    form(([hosts]) => go("plan", name, hosts.split(/[ ,]+/).join(",")), field("Names of hosts", { value: asked.join(", ") }), el("button", {}, "Show with these hosts")));
}
