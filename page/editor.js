// The text of a plan with numbered lines. The line that a refusal is about is marked, selected, and told.
import { el } from "./dom.js";

const MOST_NUMBERS = 999, ABOVE = 3;

/** `input` is told of each change; without it the text is only read.
 * @param {string} text @param {(text: string) => void} [input] */
export function editor(text, input) {
  const numbers = el("pre", { "aria-hidden": "true" }), band = el("div", { class: "band", hidden: true }), fault = el("p", { id: "fault", class: "unseen" });
  const area = el("textarea", { id: "text", wrap: "off", spellcheck: "false", autocomplete: "off", readonly: !input, "aria-describedby": "fault", scroll: place,
    input: () => { mark(0, ""); input?.(area.value); } });
  let marked = 0;
  area.value = text;
  function place() {
    const style = getComputedStyle(area), top = parseFloat(style.paddingTop) + (marked - 1) * parseFloat(style.lineHeight);
    numbers.scrollTop = area.scrollTop;
    band.style.top = `${top - area.scrollTop}px`;
  }
  /** Marks a line, from 1, or none. */
  function mark(line, words) {
    const lines = area.value.split("\n");
    marked = line > lines.length ? 0 : line;
    numbers.replaceChildren(...lines.slice(0, MOST_NUMBERS).flatMap((_, at) => [at + 1 === marked ? el("b", {}, `▶${at + 1}`) : String(at + 1), "\n"]));
    band.hidden = !marked;
    fault.textContent = marked ? `${words} It reads: ${lines[marked - 1] || "(empty)"}` : "";
    area.toggleAttribute("aria-invalid", false);
    if (marked) select(lines);
    place();
  }
  function select(lines) {
    const start = lines.slice(0, marked - 1).join("\n").length + (marked > 1 ? 1 : 0);
    area.setAttribute("aria-invalid", "true");
    area.focus({ preventScroll: true });
    area.setSelectionRange(start, start + lines[marked - 1].length);
    area.scrollTop = Math.max(0, (marked - 1 - ABOVE) * parseFloat(getComputedStyle(area).lineHeight));
    area.scrollIntoView({ block: "nearest" });
  }
  mark(0, "");
  const label = input ? "Text of the plan, one step a line" : "Text of the plan (it cannot be changed any more)";
  return { area, mark, node: el("div", { class: "text" }, el("label", { for: "text" }, label), el("div", { class: "editor" }, band, numbers, area), fault) };
}
