// Requests that are meant. An entry is kept before it is sent, sent again as the same bytes until lotd has answered it, and
// kept then until the person has seen it. Entries go one at a time, in the order in which they were made.
import * as kept from "./kept.js";
import { card, Refused, request } from "./ask.js";
import { delay } from "./words.js";

export const outbox = new EventTarget();       // "change": entries changed; "final": detail is an entry that has its answer
export let entries = [];
const others = new BroadcastChannel("lot-stock");
const REMEMBERED = 30;                         // entries that have ended and are still listed
const LONGEST = 15000;                         // ms between two tries
const tries = new Map();                       // of an entry, by this tab: how often, and what came of the last

const random = count =>
  Array.from(crypto.getRandomValues(new Uint8Array(count)), byte => "ABCDEFGHIJKLMNOPQRSTUVWXYZ234567"[byte % 32]).join("");

/** A key that nobody used: the sign of who works here and 65 random bits. */
function newKey() {
  kept.signOn(kept.setting("sign") || "PAGE");
  return `${kept.setting("sign")}-${random(13)}`;
}

/** Keeps a request and begins to send it. `body` is a text or a file's bytes; `line` is that of a receipt: { gtin, lot, line }.
 *  Gives the number of its entry. */
export async function send(path, body, words, line) {
  const id = await kept.keep({ path, body, words, line, made: Date.now(), state: "waiting" });
  await reread();
  sendAll();
  return id;
}

/** Keeps many acts at once, and sends them in their order: each as [route, values, words]. */
export async function actAll(acts) {
  for (const [route, values, words] of acts) await kept.keep({ path: "/" + route, body: JSON.stringify({ key: newKey(), ...values }), words, made: Date.now(), state: "waiting" });
  await reread();
  sendAll();
}

/** Sends an act under a new key. */
export const act = (route, values, words) => send("/" + route, JSON.stringify({ key: newKey(), ...values }), words);

/** An answer is lotd's if it reads as one. The proxy's own (401, 502, an HTML page with 200, ..) says nothing of the act. */
function finalOf(status, text) {
  let answer;
  try { answer = JSON.parse(text) ?? {}; } catch { return null; }
  if (status === 200 && (Number.isInteger(answer.act) || Number.isInteger(answer.accepted))) return { state: "done", answer };
  if (status >= 400 && status < 500 && typeof answer.code === "string") return { state: "refused", answer };
  return null;
}

/** A receipt whose line is on the lot's card before it is sent: lotd would answer as it did then, and receive nothing more.
 *  Behind the first try the line may be this one's own. */
async function cameBefore(entry) {
  const { line: { gtin, lot, line } = {}, isSent } = entry;
  if (!line || isSent) return null;
  const { moves } = await card(gtin, lot).catch(fault => { if (fault instanceof Refused) return { moves: [] }; throw fault; });
  const came = moves.find(it => it.kind === "RECEIPT" && it.note === line);
  if (came) return { state: "refused", answer: { code: "AGAIN", act: came.act } };
  entry.isSent = true;
  await kept.keep(entry);
  return null;
}

/** Sends an entry once. Gives whether it is answered. */
async function isAnswered(entry) {
  const type = typeof entry.body === "string" ? "application/json" : "text/csv";
  let final = null, came = "";
  try {
    final = await cameBefore(entry);
    if (!final) {
      const { status, text } = await request(entry.path, { method: "POST", body: entry.body, headers: { "content-type": type } });
      final = finalOf(status, text);
      came = delay(status, text);
    }
  } catch (fault) { came = fault.message; }
  tries.set(entry.id, { count: (lastTry(entry)?.count ?? 0) + 1, came });
  if (!final) return false;
  await kept.keep({ ...entry, ...final, ended: Date.now() });
  tries.delete(entry.id);
  return true;
}

let wake = () => {};
const pause = count => new Promise(resolve => { wake = resolve; setTimeout(resolve, Math.min(LONGEST, 500 * 2 ** count)); });

async function sendWaiting() {
  for (let entry; (entry = (await kept.all()).find(it => it.state === "waiting")); ) {
    const isFinal = await isAnswered(entry);
    await reread();
    if (!isFinal) await pause(lastTry(entry).count);
  }
}

let isSending = false, isAgain = false;
/** Sends what waits, in one tab alone. */
export async function sendAll() {
  isAgain = true;
  wake();
  others.postMessage("try");
  if (isSending) return;
  isSending = true;
  while (isAgain) {
    isAgain = false;
    await navigator.locks.request("lot-stock", sendWaiting).catch(fault => console.error(fault));
  }
  isSending = false;
}

/** Reads what is kept, and tells the page and the other tabs: which of them sent it is one. */
async function reread(isOwn = true) {
  const found = await kept.all(), waited = new Set(entries.filter(it => it.state === "waiting").map(it => it.id));
  entries = found;
  const ended = entries.filter(it => it.state === "done" || it.state === "seen");
  for (const old of ended.slice(0, Math.max(0, ended.length - REMEMBERED))) await kept.drop(old.id);
  outbox.dispatchEvent(new Event("change"));
  for (const entry of entries)
    if (waited.has(entry.id) && entry.state !== "waiting") outbox.dispatchEvent(new CustomEvent("final", { detail: entry }));
  if (isOwn) others.postMessage("change");
}

export const lastTry = entry => tries.get(entry.id);
export async function seen(entry) { await kept.keep({ ...entry, state: "seen" }); await reread(); }
export async function allSeen() {
  for (const entry of entries.filter(it => it.state === "refused")) await kept.keep({ ...entry, state: "seen" });
  await reread();
}
export async function giveUp(entry) { await kept.drop(entry.id); await reread(); wake(); }

export async function begin() {
  others.onmessage = ({ data }) => (data === "try" ? wake() : reread(false));
  addEventListener("online", sendAll);
  document.addEventListener("visibilitychange", () => { if (!document.hidden) sendAll(); });
  navigator.storage?.persist?.();
  await reread();
  sendAll();
}
