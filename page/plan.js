// A plan: written and staged under a free name, or shown with what it does.
import * as desk from "./desk.js";
import { act, el, field, form, note, say } from "./dom.js";
import { editor } from "./editor.js";
import { compared } from "./lists.js";
import { activate, approve, attempt, rollback, withdraw } from "./orders.js";
import { go, run } from "./shell.js";
import { told } from "./words.js";

const MOST_TRIES = 100, MOST_STEM = 60;
/** Texts that are not staged, by plan; `from` is the plan that a text replaces, or "". */
const drafts = new Map();
export const hasDraft = () => drafts.size > 0;
/** What the next view of a plan tells first. */
let notice = null;

/** @param {Element} main @param {string} [name] @param {string} hosts their names, with commas */
export async function plan(main, name, hosts = "") {
  const place = el("div"), view = el("div");
  main.append(el("h2", {}, name && desk.fits("name", name) ? `Plan ${name}` : "Plan"),
    form(words => go("plan", ...words), field("Name of the plan", { value: name }), el("button", { class: "main" }, "Open")), place, view);
  if (!name) {
    view.append(el("p", {}, "The desk does not list plans: open one by its name, or by a link that you were sent. A name that is free can be written and staged."));
    return main.querySelector("input").focus();
  }
  say(`Reading ${name} ..`);
  await run(place, async () => {
    const is = await desk.find("plans", name);
    say("");
    if (is) opened(view, is, hosts.split(/[ ,]+/).filter(Boolean)); else written(view, name);
  });
}

/** The text of a plan that is not there yet. */
function written(view, name) {
  const { text, from } = drafts.get(name) ?? { text: "", from: "" }, place = el("div"), old = el("input", { type: "checkbox", checked: true });
  const edit = editor(text, now => { if (now.trim()) drafts.set(name, { text: now, from }); else drafts.delete(name); });
  const button = act(`Stage ${name}`, async () => {
    const given = edit.area.value, is = await run(place, () => sent(place, name, given, old.checked ? from : ""), { text: given, buttons: [button] });
    if (is) edit.mark(is.line, is.words);
  }, "main");
  view.append(note("plain", `There is no plan ${name} yet`,
    "Once it is staged the name is taken for good, and the text cannot be changed: a better text needs another name."), edit.node,
  el("div", { class: "row" }, button, from && el("label", { class: "inline" }, old, `and withdraw ${from}`)), place);
  edit.area.focus();
}

/** Stages a text, withdraws the plan that it replaces, and goes to the new one. */
async function sent(place, name, text, old) {
  const view = desk.viewing(), isHere = await isStaged(name, text);
  if (!isHere) return place.replaceChildren(note("bad", "Not staged", `The answer was cut off. There is no plan ${name}: ask again.`));
  drafts.delete(name);
  if (isHere === "perhaps") notice = note("warn", "The answer was cut off", `A plan ${name} is there now: see that its author and its text are yours.`);
  else if (old) notice = await desk.withdraw(old).then(() => note("good", `${old} is withdrawn`), fault => note("bad", `${old} was not withdrawn`, told(fault).words));
  if (view.aborted) say(`${name} is staged.`); else go("plan", name);
}

/** Whether the desk has it: "perhaps" where the answer was cut off and such a plan is there. */
async function isStaged(name, text) {
  try { return await desk.stage(name, text); } catch (fault) {
    if (!desk.isLost(fault)) throw fault;
    return await desk.find("plans", name) && "perhaps";
  }
}

/** Opens the text under the next free name: CHG9 becomes CHG9-2, and CHG9-2 becomes CHG9-3. */
async function another({ plan: name, text, state }) {
  const [, stem, number] = /^(.*?)(?:-(\d{1,3}))?$/.exec(name), first = Number(number ?? 1) + 1;
  for (let at = first; at < first + MOST_TRIES; at++) {
    const next = `${stem.slice(0, MOST_STEM)}-${at}`;
    if (drafts.has(next) || await desk.find("plans", next)) continue;
    drafts.set(next, { text, from: state === "staged" ? name : "" });
    return go("plan", next);
  }
}

/** A plan that is there.
 * @param {Element} view @param {desk.Plan} is @param {string[]} asked */
function opened(view, is, asked) {
  const facts = el("div"), row = el("div", { class: "row" }), place = el("div"), effect = el("div"), lists = el("div"), edit = editor(is.text.replace(/\n$/, ""));
  /** @type {import("./orders.js").Open} */
  const it = { is, asked, seen: null, words: [], isHidden: false, effect, place, view: desk.viewing(), redraw };
  const may = (text, work, kind) => row.append(act(text, async () => {
    const fault = await run(place, () => work(it), { text: is.text, buttons: row.children });
    if (fault?.line) edit.mark(fault.line, fault.words);
  }, kind));
  function redraw() {
    facts.replaceChildren(factsOf(it.is));
    row.replaceChildren();
    if (it.is.state === "staged") {
      may("Try it again", attempt);
      may("Approve", approve, "main");
      may("Activate …", activate, "grave");
      may("Withdraw …", withdraw);
    }
    if (it.is.state === "active") may("Roll back …", rollback, "grave");
    may("Write another plan from it", () => another(it.is));
  }
  view.append(facts, row, place, effect, lists, edit.node);
  redraw();
  if (is.state === "staged") tried(it, row, lists, edit.mark);
  if (notice) place.replaceChildren(notice);
  notice = null;
}

function factsOf({ state, author, approvals }) {
  const given = approvals.map(({ caller, revision }) => `${caller} at revision ${revision}${revision < desk.latest() ? " (stale: a change came after it)" : ""}`);
  const fact = (term, text) => [el("dt", {}, term), el("dd", {}, text)];
  return el("dl", {}, fact("State", state), fact("Author", author), fact("Approved by", given.join(", ") || "nobody"));
}

/** The dry run of a staged plan, without being asked for, and what its lists replace. */
async function tried(it, row, lists, mark) {
  run(lists, () => compared(lists, it.is.text));
  const fault = await run(it.effect, () => attempt(it), { text: it.is.text, buttons: row.children });
  if (it.isHidden) it.effect.replaceChildren(note("warn", "What it does cannot be shown to you", fault?.words,
    "Ask for the action “dryrun” in the policy: who approves should see what is approved."));
  else if (fault?.line) mark(fault.line, fault.words);
}
