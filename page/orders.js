// What may be done with a plan that is staged or active. What is approved or activated is what is shown.
import * as desk from "./desk.js";
import { count, el, note, say, several, sure } from "./dom.js";
import { shown } from "./effect.js";
import { isSame } from "./paths.js";

/**
 * A plan that is shown, the dry run that is seen, its sentences, and whether the policy hides it.
 * @typedef {{ is: desk.Plan, asked: string[], seen: desk.Moved | null, words: string[], isHidden: boolean,
 *   effect: Element, place: Element, view: AbortSignal, redraw: () => void }} Open
 */

/** Reads the dry run and shows it. True where it is just what is shown already.
 * @param {Open} it */
export async function attempt(it) {
  const name = it.is.plan;
  say(`Trying ${name} ..`);
  const moved = await desk.dryrun(name).catch(fault => {
    if (fault.is) { it.seen = null; it.effect.replaceChildren(); }
    it.isHidden = fault.is?.code === 8;
    throw fault;
  });
  const isShown = it.seen !== null && isSame(it.seen, moved);
  it.isHidden = false;
  if (!isShown) {
    it.seen = null;
    const now = await shown(it.effect, it.is, moved, it.asked);
    [it.seen, it.words] = [now.moved, now.words];
  }
  say(`${name} gains ${several(moved.gained.length, "path")} and loses ${count(moved.lost.length)}.`);
  return isShown;
}

/** Tells what came of an order, what it moved, and the plan as it is now.
 * @param {Open} it @param {HTMLElement} box @param {desk.Moved} [done] */
async function tell(it, box, done) {
  if (it.view.aborted) return say(`${it.is.plan}: ${box.textContent}`);
  box.tabIndex = -1;
  it.place.replaceChildren(box);
  box.focus();
  try {
    it.is = await desk.read("plans", it.is.plan);
    it.redraw();
    if (done) await shown(it.effect, it.is, done, it.asked, true);
  } catch (fault) {
    if (!(fault instanceof desk.Cut)) throw fault;
    box.append(el("p", {}, "What there is now could not be read: open the plan anew."));
  }
}

const counts = ({ gained, lost }) => `Gained ${several(gained.length, "path")}, lost ${count(lost.length)}`;

/** Is what is shown still so? Who may not try plans has seen nothing, and is asked.
 * @param {Open} it */
async function stands(it, word) {
  const name = it.is.plan, before = it.seen;
  if (it.isHidden) return sure(`${word} ${name} unseen?`, ["What it does could not be shown to you; see above.", "Only its text is known."], `${word} unseen`);
  if (await attempt(it)) return true;
  it.place.replaceChildren(before ? note("warn", "It would do something else now",
    "The records have changed since it was shown. What is shown now is new: look at it, and ask again.")
    : note("warn", "It had not been shown yet", "It is shown now: look at it, and ask again."));
  return false;
}

/** @param {Open} it */
export async function approve(it) {
  if (!await stands(it, "Approve")) return;
  const isSeen = !it.isHidden, given = await desk.approve(it.is.plan).catch(fault => { if (!desk.isLost(fault)) throw fault; });
  if (!given) return tell(it, note("warn", "The answer did not come", "Whether your approval was taken shows in “Approved by”: the desk does not tell who you are. "
    + "Asked for again, it is given anew."));
  const isStill = !isSeen || !it.view.aborted && await attempt(it).catch(() => false);
  await tell(it, note(isStill ? "good" : "warn", `Approved at revision ${given.revision}`,
    `${several(given.approvals, "caller has", "callers have")} approved it. Whether that is enough is said when it is activated.`,
    !isStill && "But a change came in between, or it could not be read again: what is shown now is not what you saw when you approved. "
      + "Look at it, and approve again, or have it withdrawn."));
}

/** @param {Open} it */
export async function activate(it) {
  const name = it.is.plan;
  if (!await stands(it, "Activate")) return;
  // The dialog may stay open for long: so what is shown is compared once more behind it.
  if (!it.isHidden && !(await sure(`Activate ${name}?`, it.words, "Activate") && await stands(it, "Activate"))) return;
  const seen = it.seen, done = await certain(it, () => desk.order(name, "activate"), "active");
  if (!done) return;
  const isShown = !seen || isSame(seen, done);
  await tell(it, note(isShown ? "good" : "warn", `Active since revision ${done.revision}`,
    counts(done) + (!seen ? "." : isShown ? ", just as it was shown." : ", which is NOT what was shown: a change came in between.")), done);
}

/** @param {Open} it */
export async function rollback(it) {
  const name = it.is.plan;
  if (!await sure(`Roll back ${name}?`, ["Zoning and mapping become what they were just before it. Imports, hosts, arrays and volumes stay.",
    "The desk cannot try a rollback: which paths come and go is told afterwards.",
    "It cannot be undone: the plan would have to be staged under a new name."], "Roll back")) return;
  const done = await certain(it, () => desk.order(name, "rollback"), "rolled-back");
  if (done) await tell(it, note("good", `Rolled back at revision ${done.revision}`, `${counts(done)}.`), done);
}

/** @param {Open} it */
export async function withdraw(it) {
  const name = it.is.plan;
  if (!await sure(`Withdraw ${name}?`, ["It can never be activated then. Its text stays to be read."], "Withdraw")) return;
  if (await certain(it, () => desk.withdraw(name), "withdrawn")) await tell(it, note("good", "Withdrawn"));
}

/**
 * An order whose answer may be cut off, or that the browser may send twice: then the state of the plan tells what came of
 * it. The policy is asked before the state, so the second of two may be denied.
 * @param {Open} it @param {() => Promise<any>} ask @param {string} after
 */
async function certain(it, ask, after) {
  try { return await ask(); } catch (fault) {
    if (!desk.isLost(fault) && ![8, 16].includes(fault.is?.code)) throw fault;
    const { state } = await desk.read("plans", it.is.plan).catch(() => { throw fault; });
    if (!desk.isLost(fault) && state !== after) throw fault;
    if (state === after) it.effect.querySelector("h3")?.replaceChildren("What was shown before");
    await tell(it, state === after ? note("warn", `The plan is ${after}`,
      "The answer did not come, or it was carried out before. The paths that it moved are not told again: look at the hosts.")
      : note("bad", "Not carried out", `The answer was cut off. The plan is ${state}: ask again.`));
  }
}
