// What the server tells: the whole worksheet first, then each change.

/** @typedef {import("./types").Message} Message */

/**
 * @typedef {object} Hearer
 * @property {(message: Message, isFirst: boolean) => void} hear
 * @property {(isThere: boolean) => void} connect
 * @property {() => void} end the worksheet was closed, and isn't looked for any more
 */

const AGAIN_AFTER = 1_000; // milliseconds; a browser gives up by itself where a server refuses once

/**
 * Listens, as long as the page is seen: a browser has six connections to a server, and each page that listens has one. A page that is seen
 * again gets all again, and so does one whose server was started again: it is looked for until it answers.
 * @type {(hearer: Hearer) => void}
 */
export function listen(hearer) {
  /** @type {EventSource | undefined} */
  let source;
  /** @type {ReturnType<typeof setTimeout> | undefined} */
  let again;
  const open = () => {
    clearTimeout(again);
    source?.close();
    source = undefined;
    if (document.hidden) return;
    let isFirst = true;
    source = new EventSource("events");
    source.addEventListener("error", () => {
      source?.close();
      hearer.connect(false);
      clearTimeout(again);
      again = setTimeout(open, AGAIN_AFTER);
    });
    source.addEventListener("over", () => {
      source?.close();
      hearer.connect(false);
      hearer.end();
    });
    source.addEventListener("message", (event) => {
      hearer.hear(JSON.parse(event.data), isFirst);
      if (isFirst) hearer.connect(true); // what the file has is known before what was typed meanwhile is saved
      isFirst = false;
    });
  };
  document.addEventListener("visibilitychange", open);
  addEventListener("pagehide", () => source?.close());
  addEventListener("pageshow", (event) => event.persisted && open());
  open();
}
