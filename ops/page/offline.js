// The page where no network is: the service worker keeps its files. The proxy's policy names the one script that may be a worker.

const WORKER = "worker.js", KEPT = "lot-stock";

/** Files that came before there was a worker: they are asked for once more, and kept. */
async function keepFirst() {
  const own = new URL("./", location.href).href, kept = await caches.open(KEPT);
  const files = new Set([own, ...performance.getEntriesByType("resource").map(({ name }) => name).filter(name => name.startsWith(own))]);
  await Promise.all([...files].map(async file => { const answer = await fetch(file); if (answer.ok) await kept.put(file, answer); }));
}

export async function begin() {
  if (location.search === "?in") history.replaceState(null, "", location.pathname + location.hash);
  if (!navigator.serviceWorker) return;
  const address = window.trustedTypes?.createPolicy("lot-worker", { createScriptURL: text => { if (text !== WORKER) throw new TypeError(text); return text; } }).createScriptURL(WORKER) ?? WORKER;
  const { controller } = navigator.serviceWorker;
  await navigator.serviceWorker.register(address);
  if (controller) controller.postMessage("runs"); else await keepFirst();
}
