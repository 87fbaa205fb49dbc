// What can wait is done in moments in which the page has nothing else to do.

const LEFT = 2; // milliseconds of such a moment that are left to the page

/**
 * Does something for each of many.
 * @template T
 * @param {T[]} all
 * @param {(one: T) => void} does
 */
export function inIdleMoments(all, does) {
  let at = 0;
  /** @param {IdleDeadline} moment */
  const go = (moment) => {
    while (at < all.length && moment.timeRemaining() > LEFT) {
      does(all[at]);
      at += 1;
    }
    if (at < all.length) requestIdleCallback(go);
  };
  if (all.length > 0) requestIdleCallback(go);
}
