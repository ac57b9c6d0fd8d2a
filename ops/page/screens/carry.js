// A bin, or a pallet, moved whole: one move for each lot in it, kept together and sent in turn.
import { isMeant, tag } from "../dom.js";
import { form } from "../form.js";
import { actAll } from "../outbox.js";
import { inBin, read } from "../lists.js";
import { lotWords } from "../names.js";
import { sum } from "../draw.js";
import { counted, grouped, say } from "../say.js";
import { refuse } from "../told.js";

const PARTS = 10;                               // of a hundred lots

export function carry(from) {
  const head = tag("h2", {});
  const it = form({ names: ["to"], button: say`Move all of it`, async done({ to }) {
    const { lots, more } = await read(inBin(from), PARTS).catch(fault => { refuse(fault.message); return { lots: null }; });
    if (!lots) return;
    if (to === from) return refuse(say`From and to are the same bin`);
    if (more || !lots.length) return refuse(more ? say`There are too many lots in ${from}` : say`${from} is empty`);
    if (!await isMeant(say`Move ${counted(sum(lots), "unit")} of ${counted(lots.length, "lot")} from ${from} to ${to}?`, say`Move all of it`)) return;
    await actAll(lots.map(({ gtin, lot, qty }) => ["moves", { gtin, lot, from, to, qty }, say`Moved ${grouped(qty)} of ${lotWords(lot, gtin)} from ${from} to ${to}`]));
    location.hash = "#/bin/" + encodeURIComponent(to);
  } });
  async function refresh() {
    const { lots, more } = await read(inBin(from), 1), some = more ? "+" : "";
    head.textContent = say`${counted(sum(lots), "unit", some)} of ${counted(lots.length, "lot", some)}`;
  }
  return { title: say`Move all of ${from}`, refresh, node: tag("div", {}, head, it.node) };
}
