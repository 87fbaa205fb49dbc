"use strict";
// The process in which markdown-it runs: `reader.js MARKDOWN-IT`. It takes one text of prose after another, and its parent ends it where one
// takes too long.

/**
 * @typedef {import("../../notebook/page/types").Tree} Tree
 * @typedef {{text: string, longest: number}} Prose `longest`: characters that its trees may have, as JSON
 * @typedef {{trees: Tree[]} | {reason: string}} Read
 */

const HEADINGS_DOWN = 1; // the page has a heading of its own

/** @type {(tex: string, isDisplay: boolean) => Tree[]} */
const formula = (tex, isDisplay) => [["tex", { display: String(isDisplay) }, [tex]]];

/** @type {(read: (text: string) => Tree[], prose: Prose) => Read} */
function readProse(read, { text, longest }) {
  try {
    const trees = read(text);
    return JSON.stringify(trees).length <= longest ? { trees } : { reason: "too long" };
  } catch (error) {
    return { reason: error instanceof Error ? error.message : "an error" };
  }
}

async function main() {
  const markdownit = require(process.argv[2]);
  const { readerOf } = await import("../../notebook/page/markdown.js"); // the notebook's own, so that both read alike
  const read = readerOf(markdownit, HEADINGS_DOWN, formula);
  process.on("message", (prose) => process.send?.(readProse(read, /** @type {Prose} */ (prose))));
  process.send?.("ready");
}

main();
