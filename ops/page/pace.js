// How often a screen that is looked at asks by itself: at most 900 requests an hour, whatever goes on elsewhere.

const MOST = 40, EACH = 0.235 / 1000;          // requests that may be saved up; what comes for each ms: 846 an hour
const SLOW = 20000;                            // ms between two looks where little is left

/** A purse of requests. All times are ms. */
export function purse(began) {
  let left = MOST, at = began, looked = -SLOW;
  const fill = now => { left = Math.min(MOST, left + (now - at) * EACH); at = now; };
  return {
    /** Whether it may be asked now if acts came: often while much is left, else each 20 seconds. */
    mayLook(now) { fill(now); return left >= 1 && (left > MOST / 2 || now - looked >= SLOW); },
    looks(now) { looked = now; left -= 1; },
    /** Whether all may be read anew, for so many requests; what costs more than is ever there waits for all of it. */
    mayRead(now, cost) { fill(now); return left >= Math.min(cost, MOST - 1); },
    reads(cost) { left -= cost; },
  };
}
