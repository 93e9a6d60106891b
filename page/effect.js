// What a plan does to the paths of hosts: the worst in one sentence, a picture, and tables.
import * as desk from "./desk.js";
import { act, count, download, el, note, scrolling, several, table } from "./dom.js";
import { holdersOf, strangers } from "./holders.js";
import { FABRICS, byHost, csvOfChange, effects, left, overlay } from "./paths.js";
import { picture } from "./picture.js";

const MOST_HOSTS = 256, MOST_NAMES = 12, MOST_OPEN = 24, STEP = 100, TURNED = { "=": "=", "-": "+", "+": "-" };

/** What moves, over the paths that the hosts have. What is done already is put over them the other way round. */
async function seen(text, moved, asked, isDone) {
  const { holders, missing } = await holdersOf(text, asked), now = new Map();
  const touched = [...new Set([...moved.lost, ...moved.gained].map(path => holders.get(path.initiator)).filter(Boolean))];
  await desk.each(touched.slice(0, MOST_HOSTS), async host => {
    const found = await desk.find("paths", host);
    if (found) now.set(host, found.paths);
  });
  const over = overlay(isDone ? { gained: moved.lost, lost: moved.gained } : moved, holders, now);
  if (isDone) for (const path of over.marked) path.change = TURNED[path.change];
  return { ...over, missing, unread: Math.max(0, touched.length - MOST_HOSTS) };
}

/** Shows what a plan does, or did, and gives it with its sentences. What does not fit what the hosts have is read once more.
 * @param {Element} place @param {desk.Plan} is @param {desk.Moved} moved @param {string[]} asked */
export async function shown(place, is, moved, asked, isDone = false) {
  let all = await seen(is.text, moved, asked, isDone);
  if (!all.isWhole && !isDone) {
    moved = await desk.dryrun(is.plan);
    all = await seen(is.text, moved, asked, false);
  }
  const rows = effects(all.marked), hosts = byHost(rows), changed = rows.filter(row => row.moved);
  const unknown = [...new Set(changed.filter(row => row.host == null).map(row => row.initiator))];
  const { kind, title, words } = verdict({ ...all, ...moved, ...left(hosts) }, changed, unknown.length, isDone);
  place.replaceChildren(el("h3", {}, isDone ? "What it did" : "What it does"), note(kind, title, words));
  if (unknown.length) place.append(await strangers(is.plan, unknown, asked));
  if (changed.length) place.append(...drawn(`What ${is.plan} ${isDone ? "did" : "does"}`, words, all.marked, changed, hosts.filter(one => one.changed)),
    act("Download the change (CSV)", () => download(`${is.plan}-change.csv`, csvOfChange(all.marked))));
  return { moved, words };
}

const per = paths => `${several(paths.length, "path")} (${FABRICS.map(letter => `${letter} ${count(paths.filter(path => path.fabric === letter).length)}`).join(", ")})`;
const some = names => !names.length ? "none"
  : names.slice(0, MOST_NAMES).join(", ") + (names.length > MOST_NAMES ? ` and ${names.length - MOST_NAMES} more` : "");

function verdict({ gained, lost, isWhole, missing, unread, none, one, still }, changed, unknown, isDone) {
  const isKnown = isWhole && !unknown, more = isKnown ? "" : " (of the hosts that the page knows)";
  const isBad = none.length || one.length || changed.some(row => row.rank < 2), [loses, gains] = isDone ? ["Lost", "gained"] : ["Loses", "gains"];
  const words = [`${loses} ${per(lost)}, ${gains} ${per(gained)}.`, `Hosts left without a path: ${some(none)}${more}.`, `Hosts left on one fabric: ${some(one)}${more}.`,
    still.length && `Hosts on one fabric as before: ${some(still)}.`, unread && `${several(unread, "host")} more are not compared.`,
    missing.length && `No such hosts, or not yours: ${some(missing)}.`,
    !isWhole && (isDone ? "The records have changed since: before and after do not fit each other." : "The records changed while they were read: try it again.")];
  return {
    kind: isBad ? "bad" : isKnown && !still.length ? "good" : "warn",
    title: none.length ? `${several(none.length, "host loses its", "hosts lose their")} last path`
      : one.length ? `${several(one.length, "host is", "hosts are")} left on one fabric`
      : isBad ? "Volumes are taken away, or left on one fabric"
      : !isKnown ? "Who is left on one fabric is not known"
      : lost.length + gained.length ? "No host is left on one fabric" : "No path changes",
    words: words.filter(Boolean),
  };
}

const drawn = (title, words, marked, changed, hosts) => [
  scrolling("Picture of the change", picture(marked, title, words.join(" ")), "picture"),
  el("p", {}, "Red, dashed, with −: lost. Green, with +: gained. Grey: stays. The first number in a box is that of the paths afterwards, of these hosts."),
  changes("Hosts that change", "#Volumes", hosts, row => row.changed === row.volumes ? row.volumes : `${count(row.changed)} of ${count(row.volumes)}`),
  el("details", { open: changed.length <= MOST_OPEN }, el("summary", {}, `By volume: ${several(changed.length, "row")}`),
    changes("Hosts and volumes that change", "~Volume", changed, row => `${row.volume} (unit ${row.lun})`)),
];

function changes(caption, head, rows, what) {
  const columns = ["~Host", head, "#A before", "#A after", "#B before", "#B after", "What it means"];
  return table(caption, columns, rows.length, at => {
    const row = rows[at], { host, before, after } = row;
    const numbers = [0, 1].flatMap(fabric => host == null ? ["?", signed(before[fabric], after[fabric])] : [before[fabric], after[fabric]]);
    return [host == null ? `? ${row.initiator}` : el("a", { href: `#host/${host}` }, host), what(row), ...numbers,
      el("td", { class: row.kind }, row.words)];
  }, STEP);
}

/** What changes over a fabric for a host that is not known. */
const signed = (lost, gained) => [lost && `−${count(lost)}`, gained && `+${count(gained)}`].filter(Boolean).join(" ") || "0";
