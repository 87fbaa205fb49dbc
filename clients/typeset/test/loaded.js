"use strict";
// A test of what `lib/latex.js` has, which reads by a source that has to be loaded first.

const { test: plain } = require("node:test");
const { load } = require("../lib/latex.js");

/** @type {(name: string, body: () => void) => void} */
function test(name, body) {
  plain(name, async () => {
    await load();
    body();
  });
}

module.exports = { test };
