// How the house stands: the server, the business day, what waits, the last copy; and who works here.
import { tag } from "../dom.js";
import { form } from "../form.js";
import { entries } from "../outbox.js";
import { NoAnswer, told } from "../ask.js";
import { books } from "../lists.js";
import { today, told as business } from "../day.js";
import { setting, signOn } from "../kept.js";
import { grouped, say } from "../say.js";

const STALE = 36 * 3600 * 1000, SELDOM = 300000;        // ms after which a copy of each night is late; for which home goes by what it read
const at = text => new Date(text).toLocaleString("sv").slice(0, 16), clock = text => at(text).slice(11);

/** The business day, and what lotd-day and lotd-backup left for the proxy to hand out, each as [kind, words]. */
function dayOf(it) {
  const isMine = it?.status === 200 && it.day === business.day;
  const opened = isMine ? `, ${say`opened at ${clock(it.at)}`}${it.answer.returned > 0 ? `, ${say`${grouped(it.answer.returned)} units went to RETURNS`}` : ""}` : "";
  if (!business.day) return ["some", it ? say`${it.day}, as lotd-day left it` : say`not known`];
  if (business.day === today()) return ["good", business.day + opened];
  return ["bad", `${business.day}: ${business.day < today() ? say`today is not open` : say`this is after today`}${it ? "" : `; ${say`lotd-day is not set up on the server`}`}`];
}
function copyOf(it) {
  if (!it) return ["some", say`Nothing is known of it: lotd-backup is not set up on the server`];
  if (!it.sound) return ["bad", say`The copy of ${at(it.at)} failed: ${it.told}`];
  return [Date.now() - new Date(it.at) > STALE ? "bad" : "good", say`${at(it.at)}, ${it.told}, ${it.kept} kept`];
}

/** Whether lotd answers, and how fast. */
async function server() {
  const began = performance.now(), { act } = await books();
  return ["good", say`answers, in ${Math.max(1, Math.round(performance.now() - began))} ms; ${grouped(act)} acts`];
}

const read = new Map();                         // what the timers left, and when it was read
/** What a timer left, as it was read, or anew. */
async function left(name) {
  const last = read.get(name);
  if (last && Date.now() - last.at < SELDOM) return last.it;
  const it = await told(name);
  read.set(name, { it, at: Date.now() });
  return it;
}

export function facts() {
  const view = tag("dl", { class: "facts" });
  const fact = (name, [kind, words]) => [tag("dt", {}, name), tag("dd", { class: kind }, words)];
  async function refresh() {
    let fault = null;
    const away = it => { fault = it; return ["bad", it.message]; };
    const up = await server().catch(away), [day, copy] = await Promise.all([left("day").then(dayOf, away), left("copy").then(copyOf, away)]);
    const waiting = entries.filter(it => it.state === "waiting").length;
    view.replaceChildren(...fact(say`Server`, up), ...fact(say`Business day`, day), ...fact(say`Last copy`, copy),
      ...fact(say`Not answered yet`, waiting ? ["some", say`${waiting}, kept on this device and tried again`] : ["good", say`nothing`]));
    if (fault instanceof NoAnswer) throw fault;
  }
  return { view, refresh };
}

export function state() {
  read.clear();
  const { view, refresh } = facts();
  return { title: say`State`, refresh, readsBooks: true, node: tag("section", { class: "about" }, view) };
}

/** Asks who works here. `then` is called once it is known. */
export function sign(then) {
  const it = form({ names: ["sign"], preset: { sign: setting("sign") }, button: say`Begin`, done({ sign }) { signOn(sign); then(); } });
  return { title: say`Who works here?`, node: tag("div", {}, it.node,
    tag("p", {}, say`Your initials, two to five letters and digits. The history tells by them who picked, counted or held. They are no password.`)) };
}
