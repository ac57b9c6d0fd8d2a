// Items by a part of their name, below a field: what is typed shows up to six, and a touch, or Enter for the first, takes one.
import { button, tag } from "./dom.js";
import { itemsNamed } from "./names.js";
import { say } from "./say.js";

const isName = text => /[a-z]/i.test(text) && text.length > 1;

/** `take(gtin, name)` has the one that was chosen. The list lies over what is below, so nothing moves. */
export function hits(field, take) {
  const node = tag("ul", { class: "hits", hidden: true, "aria-label": say`Items of that name` });
  let first = null, late = 0;
  const hide = () => { clearTimeout(late); first = null; node.hidden = true; };
  const choose = it => { hide(); take(it.gtin, it.name); };
  async function show() {
    const text = field.value.trim();
    if (!isName(text)) return;                                     // a label was scanned there, and its item stands in its place
    const found = await itemsNamed(text).catch(() => []);
    if (field.value.trim() !== text) return;
    first = found[0] ?? null;
    node.replaceChildren(...found.slice(0, 6).map(it => tag("li", {}, button([tag("b", {}, it.name), tag("small", {}, it.gtin)], () => choose(it)))),
      found.length > 6 && tag("li", {}, tag("small", {}, say`${found.length - 6} more: type more of the name`)) || "");
    node.hidden = !found.length;
  }
  field.addEventListener("input", () => {
    hide();
    if (isName(field.value.trim())) late = setTimeout(show, 200);  // a scan is over before
  });
  field.addEventListener("blur", () => setTimeout(() => { if (!node.contains(document.activeElement)) hide(); }, 200));
  return { node, hide,
    /** Takes the first one that is shown. Gives whether there was one. */
    enter() { const it = first; if (it) choose(it); return it !== null; } };
}
