// An item: its lots in stock, its shortages, and how many days its lots must have left.
import { button, isMeant, tag } from "../dom.js";
import { act } from "../outbox.js";
import { form } from "../form.js";
import { shortages, stock } from "../ask.js";
import { known, learn, leastOf } from "../names.js";
import { isStore } from "../lists.js";
import { binBars, chip, expiryBar, sum, told } from "../draw.js";
import { counted, grouped, say } from "../say.js";
import { download } from "../csv.js";

/** What may still be promised: units of free lots in bins to sell from that no order has. */
async function unpromised(lots) {
  const free = lots.filter(it => it.status === "FREE"), bins = new Set(free.flatMap(it => it.bins.map(({ bin }) => bin)));
  const stores = new Map(await Promise.all([...bins].map(async bin => [bin, await isStore(bin)])));
  return free.reduce((total, it) => total + sum(it.bins.filter(({ bin }) => stores.get(bin))) - it.reserved, 0);
}

export function item(gtin) {
  const view = tag("section"), list = tag("ul", { class: "lines flat" }), shorts = tag("section"), holds = tag("p", { class: "holds" });
  let there = [], held = null;                  // the days that hold now, once they are known
  const name = () => known(gtin) || gtin;
  const least = form({ names: ["days"], button: say`Set the days`, isAside: true, more: holds, async done({ days }) {
    const before = held === null ? [] : [tag("p", {}, say`Now: ${grouped(held)}`)];
    if (!await isMeant(say`From now on a lot of ${name()} must have ${grouped(days)} days left. Orders get no lot with fewer, and what is picked of one goes to RETURNS. Set it?`, say`Set it`, ...before)) return;
    const id = await act("leasts", { gtin, days }, say`Lots of ${name()} must have ${grouped(days)} days left`);
    held = null;
    least.clear("days");
    return id;
  } });
  const card = most => it => tag("li", { class: it.status === "FREE" ? "" : "blocked" },
    tag("h3", {}, tag("a", { href: `#/lot/${gtin}/${encodeURIComponent(it.lot)}` }, tag("code", {}, it.lot)), chip(it.status)),
    expiryBar(it.expiry, it.status), binBars(it.bins, most), tag("p", { class: "legend" }, told([["promised", it.reserved], ["staged", it.staged]])));
  const short = it => tag("li", {}, tag("a", { href: `#/order/${it.order}` }, it.order), tag("span", {}, it.customer), tag("b", {}, grouped(it.qty)));
  const save = button(say`As a file (CSV)`, () => download(`item-${gtin}`, ["gtin", "name", "lot", "expiry", "status", "bin", "units"],
    there.flatMap(it => it.bins.map(({ bin, qty }) => [gtin, name(), it.lot, it.expiry, it.status, bin, qty]))), { class: "desk" });

  async function refresh() {
    const [all, wanted] = await Promise.all([stock(gtin), shortages(gtin)]);
    learn([{ gtin, name: all.name }]);
    there = all.lots.filter(it => it.bins.length || it.staged);
    const gone = all.lots.length - there.length, most = Math.max(1, ...there.flatMap(it => it.bins).map(it => it.qty)), total = sum(there, "staged") + sum(there.flatMap(it => it.bins));
    const free = await unpromised(there);
    view.replaceChildren(tag("h2", {}, all.name, " ", tag("small", {}, gtin)),
      tag("p", { class: "promise" }, tag("b", {}, grouped(free)), " ", say`may still be promised`),
      tag("p", {}, say`${counted(total, "unit")} in ${counted(there.length, "lot")}`, gone > 0 && `; ${say`${counted(gone, "lot")} gone`}`));
    list.replaceChildren(...there.map(card(most)));
    shorts.replaceChildren(tag("h2", {}, wanted.total ? say`Short ${grouped(wanted.total)}` : say`Nothing is short`),
      tag("ul", { class: "plain" }, wanted.shorts.map(short)));
    if (held === null) {
      held = await leastOf(gtin);
      holds.textContent = held ? say`Now: a lot must have ${counted(held, "day")}` : say`Now: any lot that has not expired`;
    }
  }
  return { title: say`An item`, form: least, refresh, follows: true, node: tag("div", { class: "item" }, tag("div", {}, view, save), list, tag("div", { class: "side" }, shorts, least.node)) };
}
