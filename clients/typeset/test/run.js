"use strict";
// Runs the command over a page, and tells what it made of each span.

const assert = require("node:assert/strict");
const { spawnSync } = require("node:child_process");
const path = require("node:path");
const { STYLE } = require("../lib/page.js");

const COMMAND = path.join(__dirname, "../tmhost-typeset");
const SPAN = /<span class="tex">([^<]*)<\/span>/g;

/** @typedef {{status: number | null, page: Buffer, reported: string, seconds: number}} Ran */

/** @type {(input: string | Buffer, ...words: string[]) => Ran} */
function run(input, ...words) {
  const start = Date.now();
  const { status, stdout, stderr } = spawnSync(process.execPath, [COMMAND, ...words], { input, maxBuffer: 1 << 30 });
  return { status, page: stdout, reported: stderr.toString(), seconds: (Date.now() - start) / 1000 };
}

/**
 * What stands in the innermost spans of a page after the run, in their order. All else of the page has to be as it was, byte for byte,
 * but for one style at the end of the head.
 * @type {(before: string, after: Buffer) => string[]}
 */
function contentsOf(before, after) {
  const text = after.toString("latin1");
  const pieces = Buffer.from(before).toString("latin1").split(SPAN).filter((_, index) => index % 2 === 0);
  const isSet = text.includes("<math");
  const rest = isSet ? text.replace(`${STYLE}</head>`, "</head>") : text;
  assert.equal(rest.length, text.length - (isSet ? STYLE.length : 0), "one style, at the end of the head");
  const contents = [];
  let at = 0;
  for (const [index, piece] of pieces.entries()) {
    const [start, end] = [index > 0 ? "</span>" : "", index < pieces.length - 1 ? '<span class="tex">' : ""];
    const whole = start + piece + end;
    assert.equal(rest.slice(at, at + whole.length), whole, `piece ${index} of the page`);
    at += whole.length;
    if (end) {
      const to = rest.indexOf("</span>", at);
      contents.push(Buffer.from(rest.slice(at, to), "latin1").toString("utf8"));
      at = to;
    }
  }
  assert.equal(at, rest.length, "the page's end");
  return contents;
}

module.exports = { run, contentsOf, COMMAND };
