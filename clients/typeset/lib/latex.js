"use strict";
// What a block `latex` says, as the notebook reads it, whose source this takes: what that can't read is refused here, with the reason.

const { Refused } = require("./refused.js");
const { NotStarted } = require("./setter.js");

/** @typedef {import("../../notebook/page/latex.js").Part} Part */

const LONGEST = 50_000; // characters of a block

/** @type {typeof import("../../notebook/page/latex.js")} */
let notebook;

/**
 * Loads the notebook's source. It is a module for browsers, which this kind of source can only wait for: all else here wants that this was awaited.
 * @type {() => Promise<void>}
 */
async function load() {
  try {
    notebook = await import("../../notebook/page/latex.js");
  } catch (error) {
    throw new NotStarted(`clients/notebook has to be beside clients/typeset: ${error instanceof Error ? error.message : "its source can't be loaded"}`);
  }
}

/** @type {(text: string) => boolean} */
function isSeen(text) {
  return notebook.isSeen(text);
}

/**
 * The words and formulas of a block.
 * @type {(text: string) => Part[]}
 */
function partsOf(text) {
  if (text.length > LONGEST) throw new Refused(`more than ${LONGEST} characters`);
  const block = notebook.blockOf(text);
  if ("reason" in block) throw new Refused(block.reason);
  return block.parts;
}

/**
 * A formula in words that KaTeX knows.
 * @type {(tex: string) => string}
 */
function wordsOfKatex(tex) {
  const words = notebook.wordsOfKatex(tex);
  if (words === null) throw new Refused("it defines words");
  return words;
}

/**
 * A formula in pieces that are set one after the other, of which each has so many characters at least; null where it can't be cut.
 * @type {(tex: string, isDisplay: boolean, least: number) => string[] | null}
 */
function piecesOf(tex, isDisplay, least) {
  return notebook.piecesOf(tex, isDisplay, least);
}

module.exports = { load, partsOf, wordsOfKatex, piecesOf, isSeen };
