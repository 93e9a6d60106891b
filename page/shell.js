// What every view needs: going to another one, and doing work whose fault is told in one place.
import * as desk from "./desk.js";
import { note, say } from "./dom.js";
import { told } from "./words.js";

const UNKNOWN = "Nobody has this token any more: sign in again.";
let shows, signsOut;

/** The page says what shows a view, and what signs out.
 * @param {() => void} show @param {(words: string) => void} out */
export function begin(show, out) { shows = show; signsOut = out; }

/** Goes to a view, also where it is shown already. */
export function go(...words) {
  const hash = "#" + words.filter(Boolean).map(encodeURIComponent).join("/");
  if (location.hash === hash) shows(); else location.hash = hash;
}

/**
 * Does what is asked for. The buttons wait meanwhile, so nothing is sent twice. A fault is told at `place`, and given.
 * @param {Element} place @param {() => Promise<any>} work @param {{ text?: string, buttons?: Iterable<Element> }} more
 */
export async function run(place, work, { text, buttons = [] } = {}) {
  const view = desk.viewing(), all = [...buttons];
  if (all.some(one => one.ariaDisabled === "true")) return null;
  // Not `disabled`: that would take the focus away, and a dialog could not give it back.
  for (const one of all) one.ariaDisabled = "true";
  place.replaceChildren();
  try {
    await work();
  } catch (fault) {
    if (fault.name === "AbortError") return null;
    if (fault.is?.code === 1 && desk.isSignedIn()) { signsOut(UNKNOWN); return null; }
    const is = told(fault, text);
    say(view.aborted ? is.words : "");
    place.replaceChildren(note("bad", is.title, is.words,
      is.isCut && "A change that was asked for may have been made, or not: read what there is before you ask again."));
    return is;
  } finally {
    for (const one of all) one.ariaDisabled = "false";
  }
  return null;
}
