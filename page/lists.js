// What a plan's lists replace: a step that puts a list puts the whole of it, and what it forgets is taken out.
import * as desk from "./desk.js";
import { el, table } from "./dom.js";

/** Where the list of a step is read, and under which key it stands. */
const PUTS = new Map([["alias", ["aliases", "members"]], ["zone", ["zones", "members"]], ["set", ["sets", "zones"]], ["hg", ["hostgroups", "hosts"]]]);

function stepsOf(text) {
  return text.split("\n").map((line, at) => {
    const [step, ...words] = line.split(" "), [kind, does] = step.split("."), isGroup = kind === "hg";
    const parts = words.slice(0, isGroup ? 1 : 2);
    return { at: at + 1, kind, does, parts, name: [step, ...parts].join(" "), key: [kind, ...parts].join(" "), tenant: isGroup ? words[1] : "", will: words.slice(2) };
  }).filter(({ kind }) => PUTS.has(kind));
}

/** What a step does to the list before it: null where there is none, or none that may be seen. */
function change(was, { kind, tenant, will }) {
  if (!was) return { isGone: false, words: kind === "hg" ? "is made, or is not yours to see" : "is made" };
  const added = [...new Set(will)].filter(one => !was.list.includes(one)), gone = was.list.filter(one => !will.includes(one));
  const words = [gone.length && `takes out ${gone.join(" ")}`, added.length && `adds ${added.join(" ")}`,
    tenant !== was.tenant && `from the tenant ${was.tenant} to ${tenant}`].filter(Boolean);
  return { isGone: gone.length > 0, words: words.join("; ") || "stays as it is" };
}

/** Shows what the lists of a plan do to those that are there; its earlier lines count.
 * @param {Element} place @param {string} text */
export async function compared(place, text) {
  const steps = stepsOf(text), now = new Map();
  await desk.each(new Map(steps.map(one => [one.key, one])).values(), async ({ key, kind, parts }) => {
    const [path, list] = PUTS.get(kind), found = await desk.find(/** @type {any} */ (path), ...parts);
    now.set(key, found && { list: found[list], tenant: found.tenant ?? "" });
  });
  const told = steps.flatMap(step => {
    const was = now.get(step.key);
    now.set(step.key, step.does === "put" ? { list: step.will, tenant: step.tenant } : null);
    return step.does === "put" ? [{ ...step, ...change(was, step) }] : [];
  });
  if (told.length) place.replaceChildren(el("h3", {}, "What its lists replace"),
    table("Lists that the plan puts whole", ["#Line", "~List", "Against what is there"], told.length, at => {
      const { at: line, name, words, isGone } = told[at];
      return [line, name, el("td", { class: isGone ? "warn wide" : "wide" }, (isGone ? "! " : "") + words)];
    }));
}
