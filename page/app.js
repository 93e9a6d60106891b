// The page: signing in and out, and which view is shown. `#host/db1`, `#plan/CHG7`, `#look/groups/g1` are links to send.
import * as desk from "./desk.js";
import { dismiss, el, field, say } from "./dom.js";
import { forget, host } from "./host.js";
import { look } from "./look.js";
import { hasDraft, plan } from "./plan.js";
import { begin, run } from "./shell.js";

const VIEWS = new Map(Object.entries({ host, plan, look })), IDLE = 15 * 60000, EACH = 5000;
const main = document.getElementById("main"), nav = document.querySelector("nav"), out = document.getElementById("out");
let last = Date.now();

function signOut(words) {
  desk.signOut();
  forget();
  dismiss();
  signIn();
  say(words);
}

function signIn() {
  document.title = "sandesk: sign in";
  nav.hidden = out.hidden = true;
  const place = el("div"), button = el("button", { class: "main" }, "Sign in"), keep = el("input", { type: "checkbox", id: "keep" });
  const label = field("Token", { type: "password", id: "token" }), token = label.lastElementChild;
  // No field has a name, and the method is post: where this code does not run, the token is sent nowhere.
  main.replaceChildren(el("h2", {}, "Sign in"), el("form", { method: "post", submit: async event => {
    event.preventDefault();
    if (await run(place, () => desk.signIn(token.value.trim(), keep.checked), { buttons: [button] })) token.focus();
    else if (desk.isSignedIn()) show();
  } }, label, el("label", { class: "inline" }, keep, "Keep it in this tab until it is closed"), button), place,
  el("p", {}, "Your token is kept in memory alone, and is gone when the page is closed or loaded again. After 15 minutes in which you do nothing you are signed out."));
  token.focus();
}

function decoded(word) {
  try { return decodeURIComponent(word); } catch { return "%"; }
}

function show() {
  busy();
  desk.leave();
  dismiss();
  if (!desk.isSignedIn()) return signIn();
  const [kind = "", ...words] = location.hash.slice(1).split("/").map(decoded), view = VIEWS.has(kind) ? kind : "plan";
  say("");
  nav.hidden = out.hidden = false;
  for (const link of nav.querySelectorAll("a")) link.ariaCurrent = link.hash === `#${view}` ? "page" : null;
  document.title = ["sandesk", view, ...kind === view ? words : []].join(" ");
  main.replaceChildren();
  VIEWS.get(view)(main, ...kind === view ? words : []);
  const title = main.querySelector("h2");
  title.tabIndex = -1;
  if (!main.contains(document.activeElement) || document.activeElement === main) title.focus();
}

/** Who has done nothing for so long is signed out, but not in the middle of a change. */
function watch() {
  if (desk.isSignedIn() && !desk.isChanging() && Date.now() - last >= IDLE) signOut("You did nothing for 15 minutes, and are signed out.");
}
/** Something is done. It does not count where the time was over before. */
function busy() {
  watch();
  last = Date.now();
}

begin(show, signOut);
for (const kind of ["keydown", "pointerdown", "wheel", "input"]) addEventListener(kind, busy, { capture: true, passive: true });
document.addEventListener("visibilitychange", watch);
setInterval(watch, EACH);
document.querySelector(".skip").addEventListener("click", event => { event.preventDefault(); main.focus(); main.scrollIntoView(); });
out.addEventListener("click", () => signOut("You are signed out."));
addEventListener("hashchange", show);
addEventListener("beforeunload", event => { if (desk.isChanging() || hasDraft()) event.preventDefault(); });
show();
