// Count sheets: what lies in bins by the books, with a field to write into for each lot, for a count by hand.
import { button, tag } from "../dom.js";
import { form } from "../form.js";
import { orNone } from "../ask.js";
import { inBin, read } from "../lists.js";
import { say } from "../say.js";
import { refuse } from "../told.js";
import { binsOf, NO_BINS, path } from "./bin.js";

const PARTS = 10, MOST = 100;                   // of a hundred lots; bins on one sheet

/** The bin of a sheet: its lots without the units, so that they are counted and not copied, and two empty lines for what is there besides. */
function sheetOf(bin, lots) {
  const row = cells => tag("tr", {}, cells.map(it => tag("td", {}, it)), tag("td", { class: "blank" }));
  return tag("section", { class: "counted" }, tag("h2", {}, bin), tag("table", {},
    tag("thead", {}, tag("tr", {}, [say`Item`, say`Lot`, say`Expires`, say`Units found`].map(it => tag("th", { scope: "col" }, it)))),
    tag("tbody", {}, lots.map(it => row([it.name, it.lot, it.expiry])), [0, 1].map(() => row([" ", "", ""])))));
}

export function sheets(first = "", last = first) {
  const bins = first ? binsOf(`${first} ${last}`) ?? [] : [], list = tag("div", {});
  const it = form({ names: ["bins"], isAside: bins.length > 0, button: say`Show the sheets`, done({ bins }) {
    const found = binsOf(bins);
    if (!found || found.length > MOST) return refuse(...NO_BINS);
    location.hash = path("sheets", found[0], found.at(-1));
  } });
  async function refresh() {
    const found = [];
    for (const bin of bins) found.push([bin, await orNone(read(inBin(bin), PARTS))]);
    list.replaceChildren(...found.filter(([, read]) => read).map(([bin, { lots }]) => sheetOf(bin, lots)));
    if (bins.length && !list.children.length) list.replaceChildren(tag("p", { class: "none" }, say`This bin is not known`));
  }
  const print = button(say`Print`, () => window.print());
  return { title: say`Count sheets`, refresh, node: tag("div", {}, it.node, bins.length > 0 && tag("div", { class: "pair" }, print),
    tag("p", { class: "paper" }, say`Counted by: ______________________    Day: ______________________`), list) };
}
