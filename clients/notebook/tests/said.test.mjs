// What a cell says of an answer that is lost.

import assert from "node:assert/strict";
import { test } from "node:test";

import { answerState } from "../page/said.js";

const KNOWN = { isThere: true, asked: undefined, isStale: false, hasEnded: false };

/** @type {(reason: string, wrote: string | null) => string} */
const said = (reason, wrote) => answerState({ state: "lost", reason, wrote }, KNOWN)[1];

test("a cell that is lost says what its interpreter had written before its end", () => {
  assert.equal(said("Ended", null), "lost: Ended (its interpreter ended)");
  assert.equal(said("Ended", "no licence"), "lost: Ended (its interpreter ended); it had written: no licence");
  assert.equal(said("Ended", "usage: gp\ngp: error: --bad"), "lost: Ended (its interpreter ended); it had written: usage: gp / gp: error: --bad");
});

test("what can't be seen of it is written out", () => {
  assert.equal(said("TooLong", "a\u202eb"), "lost: TooLong (its interpreter wrote too long a block); it had written: a\\u202eb");
});
