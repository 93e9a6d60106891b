// Calls of the desk. The token is known to this module alone, and goes out in one header line.

/** @typedef {{ fabric: string, initiator: string, target: string, volume: string, lun: number }} Path */
/** @typedef {{ gained: Path[], lost: Path[], revision?: number }} Moved */
/** @typedef {{ approvals: { caller: string, revision: number }[], author: string, plan: string, state: string, text: string }} Plan */
/** @typedef {{ name: string, ports: string[], tenant: string }} Holder */
/** @typedef {{ port_name: string, at: null | { fabric: string } }} Port */

/** The desk said no: `is` is the body of its answer. */
export class Refusal extends Error {
  constructor(is) { super(is.error); this.is = is; }
}
/** No whole answer of the desk came: a change may have been made, or not. */
export class Cut extends Error {
  constructor(why, isChange) { super(why); this.isChange = isChange; }
}
/** What was typed has not its form: nothing was sent. */
export class Unfit extends Error {}

const HOME = new URL("desk/", document.baseURI), KEPT = "sandesk-token", MOST_TEXT = 65536, MOVED = "gained lost";
const FORMS = {
  name: /^[A-Za-z][A-Za-z0-9_\-$^]{0,63}$/,
  fabric: /^[AB]$/,
  port: /^(?:(?:0x)?[0-9a-fA-F]{16}|(?:[0-9a-fA-F]{2}:){7}[0-9a-fA-F]{2})$/,
  token: /^[A-Za-z0-9\-._~+/=]{1,128}$/,
};
/** What can be read: the forms of the parts of its path, and the keys that an answer has to have. */
const READS = {
  active: ["fabric", "zones"],
  aliases: ["fabric name", "members"],
  arrays: ["name", "ports"],
  groups: ["name", "host_groups targets units"],
  hostgroups: ["name", "hosts"],
  hosts: ["name", "ports"],
  joined: ["port port", "joined"],
  paths: ["name", "paths"],
  plans: ["name", "approvals state text"],
  ports: ["port", "at port_name"],
  sets: ["fabric name", "zones"],
  volumes: ["name", "array bytes"],
  zones: ["fabric name", "members"],
};

let token = sessionStorage.getItem(KEPT) ?? "", reads = new AbortController(), changes = 0, newest = 0;

export const fits = (form, text) => FORMS[form].test(text);
export const isSignedIn = () => token !== "";
export const isChanging = () => changes > 0;
/** The latest revision that an answer told: the desk is at it or at a later one. */
export const latest = () => newest;
/** Aborted once this view is left. */
export const viewing = () => reads.signal;
/** The view is left: its reads are given up. A change is never given up. */
export function leave() {
  reads.abort();
  reads = new AbortController();
}
export function signOut() {
  token = "";
  newest = 0;
  sessionStorage.removeItem(KEPT);
  leave();
}

/** Takes the token where the desk knows it.
 * @param {string} text @param {boolean} isKept in this tab */
export async function signIn(text, isKept) {
  if (!fits("token", text)) throw new Unfit("A token has 1 to 128 letters, digits and -._~+/= and nothing else.");
  await ask("GET", ["active", "A"], "zones", { bearer: text });
  token = text;
  if (isKept) sessionStorage.setItem(KEPT, text);
}

function parsed(text) {
  try { return JSON.parse(text); } catch { return undefined; }
}

/** One request. An answer counts only where it is the desk's: JSON with the keys that it has to have.
 * @returns {Promise<any>} */
async function ask(method, words, keys, { body = undefined, bearer = token } = {}) {
  const isChange = method !== "GET", url = new URL(words.map(encodeURIComponent).join("/"), HOME);
  if (isChange) changes++;
  try {
    const answer = await fetch(url, {
      method, body, headers: { Authorization: `Bearer ${bearer}` }, cache: "no-store", credentials: "omit",
      redirect: "error", referrerPolicy: "no-referrer", signal: isChange ? null : reads.signal,
    });
    const told = parsed(await answer.text()), has = key => told instanceof Object && Object.hasOwn(told, key);
    if (!answer.ok && has("code") && has("error")) throw new Refusal(told);
    if (!answer.ok || !keys.split(" ").every(has)) throw new Cut(`status ${answer.status}, and not from the desk`, isChange);
    for (const one of [told, ...Array.isArray(told.approvals) ? told.approvals : []]) newest = Math.max(newest, one.revision ?? 0);
    return told;
  } catch (fault) {
    if (fault instanceof TypeError) throw new Cut("the connection was cut, or nobody listens", isChange);
    throw fault;
  } finally {
    if (isChange) changes--;
  }
}

/** A part of a path is looked at before it is sent: `..` or `a/b` would be another path. */
function part(form, text) {
  if (fits(form, text)) return text;
  throw new Unfit(form === "fabric" ? "A fabric is A or B."
    : form === "port" ? `“${text}” is no port name: 16 hexadecimal digits, plain or as eight pairs with “:”.`
    : `“${text}” is no name: 1 to 64 characters, a letter first, then letters, digits, _ - $ ^ (no dot, no space).`);
}

/** @param {string} kind @param {string[]} parts @returns {Promise<any>} */
export async function read(kind, ...parts) {
  const [forms, keys] = READS[kind];
  return ask("GET", [kind, ...forms.split(" ").map((form, at) => part(form, parts[at] ?? ""))], keys);
}
const ofPlan = async (method, name, words, keys, more) => ask(method, ["plans", part("name", name), ...words], keys, more);
/** @param {string} name @returns {Promise<Moved>} */
export const dryrun = name => ofPlan("GET", name, ["dryrun"], MOVED);
/** @param {string} name @returns {Promise<{ approvals: number, revision: number }>} */
export const approve = name => ofPlan("POST", name, ["approve"], "approvals revision");
/** @param {string} name @param {string} word @returns {Promise<Moved>} */
export const order = (name, word) => ofPlan("POST", name, [word], `${MOVED} revision`);
export const withdraw = name => ofPlan("DELETE", name, [], "state");
/** @param {string} name @param {string} text */
export async function stage(name, text) {
  if (new Blob([text]).size > MOST_TEXT) throw new Unfit("A plan has at most 65,536 bytes.");
  return ofPlan("PUT", name, [], "steps", { body: text });
}

/** The same, or null where nothing is there, or nothing for this caller.
 * @param {string} kind @param {string[]} parts */
export const find = (kind, ...parts) => read(kind, ...parts).catch(fault => {
  if (fault.is?.code === 9) return null;
  throw fault;
});
/** Whether it is not known what came of a change. */
export const isLost = fault => fault instanceof Cut || fault.is?.code === 22;

/** What `work` gives of each thing, in their order; few at once, since the desk serves one after the other.
 * @param {Iterable<any>} things */
export async function each(things, work, most = 4) {
  const all = [...things], found = [];
  let next = 0;
  const turn = async () => {
    while (next < all.length) {
      const at = next++;
      try { found[at] = await work(all[at]); } catch (fault) { next = all.length; throw fault; }
    }
  };
  await Promise.all(Array.from({ length: most }, turn));
  return found;
}
