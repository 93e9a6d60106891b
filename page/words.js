// What is said of a fault: one sentence for each code of the desk's refusals.
import { Cut, Refusal, Unfit } from "./desk.js";

/** @typedef {{ title: string, words: string, line: number, isCut: boolean }} Told `line`: of the plan's text, or 0 */

const NEEDS = Object.entries({
  role: "it asks for a role that you do not have",
  scope: "it lets you touch your own tenants alone, and this touches another one",
  window: "its window is closed now. The desk does not tell when it opens: ask who keeps the policy",
  approvals: "it asks for more approvals than there are that count. One by the author never counts, and one that was given "
    + "before the last change may not count: it has to be given again",
  tenants: "somebody who lists the tenant has to approve it, for each tenant that it touches. Of one nobody has, or not since the last change",
});
const LIMITS = Object.entries({
  paths: "65,536 paths in all", plans: "100,000 plans", changes: "1,000,000,000 changes", active: "65,536 active rows in a fabric",
  aliases: "2,048 aliases in a fabric", zones: "2,048 zones in a fabric", sets: "64 zone sets in a fabric",
  "host-groups": "2,048 host groups", groups: "2,048 storage groups",
  parts: "64 host groups, 32 targets and 256 units in a storage group",
});
const wordsOf = (all, key, other) => all.find(([one]) => one === key)?.[1] ?? other;

const SENTENCES = {
  1: () => "Nobody has this token.",
  2: () => "The desk could not read the request.",
  3: () => "The desk has no such path: the page is not of its version.",
  4: () => "The desk does not take this: the page is not of its version.",
  5: () => "The request came without its length.",
  6: () => "The text is longer than the desk takes.",
  7: is => is.line > 200 ? "A plan has at most 200 lines. The text was not staged."
    : "The text is no plan: it is empty, or longer than 65,536 bytes, or was cut off. It was not staged.",
  8: is => is.need === "rule" ? "The policy has no rule that allows this action to anybody."
    : `The policy does not allow it: rule ${is.rule}, “${is.rule_name}”: ${wordsOf(NEEDS, is.need, `its need “${is.need}” is not met`)}.`,
  9: () => "There is no such thing, or it is not for you: the desk does not tell which.",
  10: is => `The name “${is.name}” is taken.`,
  11: is => `“${is.name}” is in use by “${is.by}”.`,
  12: is => `There is no “${is.name}”, or not there.`,
  13: is => `“${is.name}” is not on the storage group's array.`,
  14: is => is.group ? `Another volume is at unit ${is.lun} of the storage group “${is.group}”.`
    : `After the last line the host “${is.host}” would see two volumes at unit ${is.lun} of the target ${is.target}.`,
  15: is => `There would be too many: at most ${wordsOf(LIMITS, is.limit, `the limit “${is.limit}” allows`)}.`,
  16: is => `The plan is ${is.state} now, and that does not allow it.`,
  17: is => `“${is.last}” was activated later and is still in force: it has to be rolled back first.`,
  18: is => `“${is.name}”, which the earlier configuration names, is not there any more. Put it back, and roll back again.`,
  19: () => "You are the author of this plan, and your own approval would never count.",
  20: is => `Two records of the port ${is.port} differ.`,
  21: () => "The desk had no memory for it. Nothing was changed: ask again later.",
  22: () => "The database refused. Whether a change was made is known once the desk has opened it again.",
  23: () => "The desk is halted: its database can not be opened. Nothing was changed.",
};

const STEPS = new Set(("alias.put alias.drop zone.put zone.drop set.put set.drop activate deactivate default hg.put hg.drop "
  + "sg.new sg.drop sg.host sg.unhost sg.target sg.untarget sg.map sg.unmap sg.expose sg.hide").split(" "));

/** What may be wrong with a line that the desk did not take. */
function guess(line) {
  if (line === "") return "it is empty";
  if (/^\s*#/.test(line)) return "a plan has no comments";
  if (line.includes("\t")) return "it has a tab";
  if (/ {2}|^ | $/.test(line)) return "words have just one space between them, and none at an end";
  const [first, second] = line.split(" ");
  if (!STEPS.has(first)) return `“${first}” is no step`;
  if (/^(alias|zone|set)\.|^(de)?activate$|^default$/.test(first) && !/^[AB]$/.test(second ?? "")) return "the second word has to be A or B";
  return "it has too few or too many words, or one that has not its form";
}

function refused(is, lines) {
  if (is.code === 7 && is.line > 0 && is.line <= 200) {
    return { words: `Line ${is.line} is no line of a plan: ${guess(lines[is.line - 1] ?? "")}. The text was not staged.`, line: is.line };
  }
  const words = SENTENCES[is.code]?.(is) ?? `The desk refused: ${is.error}.`;
  return { words: is.step ? `Line ${is.step}: ${words}` : words, line: is.step ?? is.line ?? 0 };
}

/** What is said of a fault; `text` is the plan's, where it is about one.
 * @returns {Told} */
export function told(fault, text = "") {
  if (fault instanceof Refusal) return { title: "Refused", ...refused(fault.is, text.split("\n")), isCut: fault.is.code === 22 };
  if (fault instanceof Unfit) return { title: "Not asked", words: fault.message, line: 0, isCut: false };
  if (fault instanceof Cut) return { title: "No answer", words: `No answer of the desk came (${fault.message}).`, line: 0, isCut: fault.isChange };
  console.error(fault);
  return { title: "The page has a fault", words: `It could not go on: ${fault}.`, line: 0, isCut: true };
}
