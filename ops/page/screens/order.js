// Orders, for the desk.
import { button, isMeant, tag } from "../dom.js";
import { act, outbox } from "../outbox.js";
import { form } from "../form.js";
import { order as asked } from "../ask.js";
import { known, nameOf, namesOf } from "../names.js";
import { bar, legend, orderHead, sum } from "../draw.js";
import { counted, grouped, say } from "../say.js";
import { download } from "../csv.js";
import { set, setting } from "../kept.js";
import { refuse } from "../told.js";
import { asBin } from "./bin.js";

const lots = (word, list) => list.length > 0 && tag("p", {}, word, " ", list.map(it => tag("span", { class: "lotted" }, tag("code", {}, it.lot), ` ${grouped(it.qty)}`)));

function lineOf(line) {
  const pairs = [["shipped", line.shipped], ["staged", sum(line.staged)], ["reserved", sum(line.reserved)], ["short", line.short]];
  return tag("li", {}, tag("h3", {}, tag("a", { href: `#/item/${line.gtin}` }, known(line.gtin) || line.gtin), tag("b", {}, say`ordered ${grouped(line.ordered)}`)),
    bar(pairs, line.ordered), legend(pairs), lots(say`to pick:`, line.reserved), lots(say`picked:`, line.staged));
}

export function order(id) {
  const view = tag("section");
  let shown = null;
  const save = button(say`As a file (CSV)`, () => download(`order-${id}`, ["order", "customer", "gtin", "name", "ordered", "shipped", "picked", "to pick", "short"],
    shown.lines.map(it => [id, shown.customer, it.gtin, known(it.gtin), it.ordered, it.shipped, sum(it.staged), sum(it.reserved), it.short])), { class: "desk", disabled: true });
  const acts = tag("div", { class: "pair" }, tag("a", { class: "button", href: `#/pick/${id}` }, say`Pick`), button(say`Cancel the order`, async () => {
    if (await isMeant(say`Cancel the order ${id}?`, say`Cancel the order`)) await act("cancels", { order: id }, say`Cancelled ${id}`);
  }, { class: "danger" }), save);
  async function refresh() {
    shown = await asked(id);
    await namesOf(shown.lines.map(line => line.gtin));
    save.disabled = false;
    view.replaceChildren(orderHead(shown), tag("ul", { class: "lines" }, shown.lines.map(lineOf)));
  }
  return { title: say`Order ${id}`, refresh, other: asBin(id), node: tag("div", {}, acts, view) };
}

const empty = () => ({ order: "", customer: "", isUrgent: false, lines: [] });
const draft = () => ({ ...empty(), ...JSON.parse(setting("draft", "{}")) });
const keep = it => set("draft", JSON.stringify(it));

/** An order that was refused is a draft again, unless another one was begun. */
outbox.addEventListener("final", ({ detail: { state, path, body } }) => {
  if (state !== "refused" || !["/orders", "/urgents"].includes(path) || draft().lines.length) return;
  const { order, customer, lines } = JSON.parse(body);
  keep({ order, customer, isUrgent: path === "/urgents", lines: lines.map(line => ({ ...line, name: known(line.gtin) || line.gtin })) });
  if (location.hash === "#/order/" + order) location.hash = "#/new";
});

export function newOrder() {
  const { lines, order, customer, isUrgent } = draft();
  const list = tag("ul", { class: "lines" }), head = tag("h2", {}), urgent = tag("input", { type: "checkbox", id: "urgent", checked: isUrgent });
  let isSent = false;
  const save = () => isSent || keep({ order: whole.rows.order.field.value, customer: whole.rows.customer.field.value, isUrgent: urgent.checked, lines });
  const draw = () => {
    save();                                     // another screen and back: all is there
    head.textContent = counted(lines.length, "line");
    list.replaceChildren(...lines.map(({ name, qty }, at) => tag("li", {}, tag("h3", {}, tag("span", {}, name), tag("b", {}, grouped(qty)),
      button("✕", () => { lines.splice(at, 1); draw(); }, { "aria-label": say`Take out ${name}` })))));
  };
  const add = form({ names: ["gtin", "qty"], button: say`Add the line`, async done({ gtin, qty }) {
    if (lines.some(line => line.gtin === gtin)) return refuse(say`The item is in the order already`);
    if (lines.length === 200) return refuse(say`An order has at most 200 lines`);
    lines.push({ gtin, qty, name: await nameOf(gtin) || gtin });
    draw();
    add.clear("gtin", "qty");
  } });
  const whole = form({ names: ["order", "customer"], preset: { order, customer }, button: say`Send the order`,
    more: tag("label", { class: "check", for: "urgent" }, urgent, say`Urgent: served before all others`),
    async done({ order, customer }) {
      if (!lines.length) return refuse(say`The order has no line yet`);
      const words = urgent.checked ? say`Urgent order ${order} for ${customer}` : say`Order ${order} for ${customer}`;
      await act(urgent.checked ? "urgents" : "orders", { order, customer, lines: lines.map(({ gtin, qty }) => ({ gtin, qty })) }, words);
      isSent = true;
      keep(empty());
      location.hash = "#/order/" + order;
    } });
  draw();
  whole.node.addEventListener("change", save);
  return { title: say`New order`, node: tag("div", { class: "two" }, tag("div", {}, add.node, head, list), whole.node) };
}
