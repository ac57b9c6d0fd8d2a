// Picking: what to take from where, by a scan of the lot, a scan of the bin and a number; putting back; shipping. Several orders
// may be picked in one walk through the bins: each act is still one order's.
import { button, isMeant, tag } from "../dom.js";
import { act } from "../outbox.js";
import { form } from "../form.js";
import { order, picks } from "../ask.js";
import { known, learn, lotWords } from "../names.js";
import { bar, expiryBar, legend, orderHead, sum } from "../draw.js";
import { grouped, say } from "../say.js";
import { symbol } from "../code39.js";
import { refuse } from "../told.js";
import { asBin } from "./bin.js";

const byBin = (a, b) => (a.from[0]?.bin ?? "~").localeCompare(b.from[0]?.bin ?? "~", "en") || a.lot.localeCompare(b.lot, "en");

export function pick(...ids) {
  const [id] = ids, isOne = ids.length === 1;
  let isBack = false, isStaged = false, takes = [], staged = [], chosen = null, shown = 0;
  const head = tag("section", { class: "about" }), first = tag("section"), list = tag("section", { class: "takes" });
  const it = form({
    names: ["lot", "bin", "qty"], button: say`Pick`,
    label: (text, found) => (found.lot ? choose(found.lot, found.gtin) : refuse(found.doubt || say`This label has no item and lot`)),
    warn: (name, value) => (name === "bin" && !isBack && chosen?.from.every(({ bin }) => bin !== value)
      ? [say`${value} had none of this lot to sell`, say`It lies in ${chosen.from.map(({ bin }) => bin).join(", ")}. Scan ${value} once more if you mean it`] : null),
    async done({ lot, bin, qty }) {
      if (chosen?.lot !== lot) choose(lot);
      if (!chosen) return;
      const what = lotWords(lot, chosen.gtin), whose = chosen.order;
      const words = isBack ? say`Put back ${grouped(qty)} of ${what} into ${bin} for ${whose}` : say`Picked ${grouped(qty)} of ${what} from ${bin} for ${whose}`;
      const entry = await act(isBack ? "unpicks" : "picks", { order: whose, gtin: chosen.gtin, lot, bin, qty }, words);
      chosen = null;
      it.clear("lot", "bin", "qty");
      return entry;
    },
  });
  it.rows.lot.field.addEventListener("change", ({ target: { value } }) => { if (value && value !== chosen?.lot) choose(value, undefined, false); });
  /** The lots that are picked for the order: they are read where something is put back. */
  const readStaged = async () => { staged = (await order(id)).lines.flatMap(line => line.staged.map(lot => ({ ...lot, gtin: line.gtin, order: id }))); };
  const turn = button(say`Put back`, async () => {
    isBack = !isBack;
    if (isBack) await readStaged().catch(fault => refuse(fault.message));
    it.node.hidden = false;
    [it.go.textContent, turn.textContent] = isBack ? [say`Put back`, say`Pick again`] : [say`Pick`, say`Put back`];
    chosen = null;
    draw();
    it.clear("lot", "bin", "qty");
  });
  const ship = button(say`Ship`, async () => {
    if (await isMeant(say`Ship ${id}: ${grouped(shown)} units that are picked?`, say`Ship`)) await act("shipments", { order: id }, say`Shipped ${id}`);
  });

  /** Once an order is out of the way the next one is scanned here. */
  const next = form({ names: ["order"], button: say`Pick the next order`, done: ({ order }) => { location.hash = "#/pick/" + order; } });
  next.node.hidden = true;

  function choose(lot, gtin, isMoving = true) {
    const fit = (isBack ? staged : takes).filter(each => each.lot === lot && (!gtin || each.gtin === gtin)), isClear = new Set(fit.map(each => each.gtin)).size === 1;
    chosen = isClear ? fit[0] : null;
    draw();
    if (!chosen) {
      it.clear("lot");
      const none = isBack ? say`${lot} is not picked for ${id}` : say`${lot} is not on this list. Leave it, take another`;
      return refuse(fit.length ? say`Two items have this lot: scan the label` : none);
    }
    it.set({ lot, qty: String(Math.min(chosen.qty, chosen.from?.[0]?.qty ?? chosen.qty)) });
    if (isMoving) it.next();
  }

  function draw() {
    const all = isBack ? staged : takes, top = chosen ?? all[0];
    const from = ({ bin, qty }) => tag("span", {}, tag("code", {}, bin), tag("small", {}, " ", say`has ${grouped(qty)}`));
    const card = take => button([
      tag("div", { class: "where" }, isBack ? say`picked` : take.from.map(from), tag("b", {}, grouped(take.qty))),
      tag("div", {}, tag("strong", {}, known(take.gtin) || take.gtin), " ", tag("code", {}, take.lot)),
      !isOne && tag("div", { class: "whose" }, tag("span", { class: "chip" }, take.order), " ", take.customer),
      take.expiry && expiryBar(take.expiry, "FREE", take.least),
    ], () => { chosen = take; choose(take.lot, take.gtin); if (!isOne) { chosen = take; draw(); } }, { class: "take", "aria-pressed": String(take === chosen) });
    first.classList.toggle("first", Boolean(top));
    first.replaceChildren(top ? card(top) : tag("p", { class: "none" }, isBack ? say`Nothing is picked` : isStaged ? say`All of it is picked` : say`Nothing to take`));
    list.replaceChildren(...all.filter(take => take !== top).map(card));
  }

  async function refresh() {
    const read = await Promise.all(ids.map(picks)), lines = read.flatMap(whole => whole.lines), [whole] = read;
    learn(lines);
    takes = read.flatMap(({ order, customer, lines }) => lines.flatMap(({ gtin, least, take }) => take.map(({ bins, ...rest }) => ({ ...rest, from: bins, gtin, least, order, customer })))).sort(byBin);
    shown = sum(lines, "staged");
    isStaged = shown > 0;
    if (isBack) await readStaged();
    if (chosen) chosen = (isBack ? staged : takes).find(each => each.lot === chosen.lot && each.gtin === chosen.gtin && each.order === chosen.order) ?? null;
    const pairs = [["shipped", sum(lines, "shipped")], ["staged", sum(lines, "staged")], ["reserved", sum(takes)], ["short", sum(lines, "short")]];
    ship.disabled = !isStaged;
    ship.classList.toggle("go", isStaged && !takes.length);      // the next thing to do
    it.node.hidden = read.every(({ state }) => state !== "OPEN") || (!takes.length && !isBack);
    next.node.hidden = !it.node.hidden || isStaged || !isOne;
    if (!next.node.hidden) next.rows.order.field.focus();
    const heads = isOne ? orderHead(whole) : tag("ul", { class: "plain" }, read.map(({ order, customer }) => {
      const left = sum(takes.filter(take => take.order === order));
      return tag("li", {}, tag("a", { href: `#/pick/${order}` }, order), tag("span", {}, customer), tag("b", {}, left ? grouped(left) : "✓"));
    }));
    head.replaceChildren(heads, bar(pairs, sum(lines, "ordered")), legend(pairs), isOne && tag("div", { class: "paper" }, symbol(id)) || "");
    draw();
  }
  const print = button(say`Print`, () => window.print(), { class: "desk" }), buttons = tag("div", { class: "pair" }, isOne && [turn, ship], print);
  return { title: isOne ? say`Pick ${id}` : say`Pick ${ids.length} orders`, form: it, refresh, other: asBin(id),
    node: tag("div", { class: "two" }, tag("div", {}, isOne && head, first, it.node, buttons, isOne ? next.node : head), list) };
}
