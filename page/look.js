// One thing of the records, by its name. What it names is a link.
import * as desk from "./desk.js";
import { el, field, form, note } from "./dom.js";
import { FABRICS } from "./paths.js";
import { go, run } from "./shell.js";

const NAME = ["Name"], ZONING = ["Fabric", "Name"];
/** What can be looked up, in words, and the fields that ask for it. */
const KINDS = new Map([["groups", ["storage group", NAME]], ["hostgroups", ["host group", NAME]], ["volumes", ["volume", NAME]], ["arrays", ["array", NAME]],
  ["hosts", ["host", NAME]], ["ports", ["port", ["N_Port_Name"]]], ["zones", ["zone", ZONING]], ["aliases", ["alias", ZONING]], ["sets", ["zone set", ZONING]],
  ["active", ["active zones", ["Fabric"]]], ["joined", ["two ports", ["One port", "The other"]]]]);
/** The view of what stands under a key of an answer. */
const LINKS = new Map([["host_groups", "look/hostgroups"], ["hosts", "host"], ["volume", "look/volumes"], ["array", "look/arrays"],
  ["targets", "look/ports"], ["ports", "look/ports"]]);

/** @param {Element} main @param {string} kind @param {string[]} words */
export async function look(main, kind = "groups", ...words) {
  const [text, fields] = /** @type {any[]} */ (KINDS.get(kind) ?? ["nothing of this kind"]), place = el("div"), view = el("div");
  // Links, and no list to choose from: a choice that changes the view at once is a trap for the keyboard.
  main.append(el("h2", {}, `Look up: ${text}`), el("nav", { "aria-label": "What is looked up" },
    [...KINDS].map(([value, [words]]) => el("a", { href: `#look/${value}`, "aria-current": value === kind ? "page" : null }, words))));
  if (!fields) return;
  main.append(form(given => go("look", kind, ...given), fields.map((label, at) => label === "Fabric" ? letters(words[at]) : field(label, { value: words[at] })),
    el("button", { class: "main" }, "Show")), place, view);
  if (words.length >= fields.length) await run(place, async () => {
    const found = await desk.read(kind, ...words);
    view.append(kind === "joined" ? together(found) : list(found, words[0]));
  });
}

const letters = chosen => el("label", {}, "Fabric", el("select", {}, FABRICS.map(letter => el("option", { selected: letter === chosen }, letter))));

const together = is => note(is.joined ? "good" : "warn", `They may ${is.joined ? "" : "not "}communicate`,
  is.zone ? `The first zone that has both: ${is.zone}.` : is.joined && "Both are in the default zone, which permits.");

const link = (view, text) => el("a", { href: `#${view}/${text}` }, text);
const linked = (key, text) => LINKS.has(key) ? link(LINKS.get(key), text) : String(text);

/** An answer as a list of its keys. */
function list(is, fabric) {
  const one = (key, value) => key === "zones" ? [link(`look/zones/${fabric}`, value.name ?? value), value.members && `: ${value.members.join(" ")}`]
    : key === "units" ? [`${value.lun}: `, linked("volume", value.volume)] : linked(key, value);
  const shown = (key, value) => {
    if (value === null || Array.isArray(value) && !value.length) return "none";
    if (Array.isArray(value)) return value.map(part => el("div", {}, one(key, part)));
    return value instanceof Object ? Object.entries(value).map(pair => pair.join(" ")).join(", ") : linked(key, value);
  };
  return el("dl", {}, Object.entries(is).map(([key, value]) => [el("dt", {}, key.replace("_", " ")), el("dd", {}, shown(key, value))]));
}
