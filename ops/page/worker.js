// A service worker: it keeps the page's own files on the device, so that the page opens where neither proxy nor network is there. It
// asks the network first, so a new page is taken at the next start. What lotd and the proxy say it neither sees nor keeps.
const KEPT = "lot-stock", COMING = "lot-stock coming", LATE = 5000;      // ms after which what is kept opens
const IN = "?in";                              // a start that is left to the browser alone, which can ask for the password
let isAway = false;                            // whether the page that was opened last is the kept one

addEventListener("install", () => skipWaiting());
addEventListener("activate", event => event.waitUntil(clients.claim()));

async function fromNetwork(request) {
  const answer = await fetch(request);
  if (answer.status >= 500) throw new TypeError(`status ${answer.status}`);
  if (answer.ok && !answer.redirected) await (await caches.open(COMING)).put(request.url, answer.clone());
  return answer;
}
const fromDevice = async request => (await caches.open(KEPT)).match(request.url, { ignoreSearch: true });
const late = () => new Promise((_, reject) => setTimeout(() => reject(new TypeError("late")), LATE));

/** The page itself: of the network, or else the kept one. A password is asked for by the browser alone. */
async function start(request) {
  const kept = await fromDevice(request);
  try {
    const answer = await (kept ? Promise.race([fromNetwork(request), late()]) : fromNetwork(request));
    isAway = false;
    return answer.status === 401 ? Response.redirect(registration.scope + IN) : answer;
  } catch (fault) {
    if (!kept) throw fault;
    isAway = true;
    return kept;
  }
}

/** A file of the page, from where the page came: files of two pages do not fit together. */
async function file(request) {
  const kept = await fromDevice(request);
  return isAway && kept ? kept : fromNetwork(request).catch(fault => { if (kept) return kept; throw fault; });
}

addEventListener("fetch", event => {
  const { request } = event, url = new URL(request.url);
  if (request.method !== "GET" || !request.url.startsWith(registration.scope) || url.search === IN) return;
  event.respondWith(request.mode === "navigate" ? start(request) : file(request));
});

/** The page tells that it runs: so all of its files have come, and take the place of the ones before. */
addEventListener("message", event => event.waitUntil((async () => {
  const [coming, kept] = await Promise.all([COMING, KEPT].map(name => caches.open(name)));
  for (const request of await coming.keys()) await kept.put(request, await coming.match(request));
  await caches.delete(COMING);
})()));
