// What a cell says of itself, in words.

import { visible } from "./dom.js";

/** @typedef {import("./types").Cell} Cell */

/** @type {Record<string, string>} */
export const REASONS = {
  StartRefused: "its interpreter can't be started",
  Ended: "its interpreter ended",
  ReadFault: "its interpreter can't be read",
  SendFault: "its interpreter can't be sent the line",
  Stalled: "its interpreter stalled",
  BadTag: "its interpreter wrote a broken block",
  TooDeep: "its interpreter wrote blocks too deep",
  TooLong: "its interpreter wrote too long a block",
  Stopped: "its interpreter was stopped",
};

/** @type {(milliseconds: number) => string} */
function lasting(milliseconds) {
  const seconds = Math.max(0, Math.floor(milliseconds / 1000));
  if (seconds < 60) return `${seconds} s`;
  return seconds < 3600 ? `${Math.floor(seconds / 60)} min ${seconds % 60} s` : `${Math.floor(seconds / 3600)} h ${Math.floor(seconds / 60) % 60} min`;
}

/**
 * Which answer of its interpreter it is, and how long that worked for it.
 * @type {(cell: Cell) => string}
 */
export function took({ took: time, count }) {
  if (time === null || count === null) return "";
  return `answer ${count}, ${time < 59_950 ? `${(time / 1000).toFixed(time < 9_995 ? 2 : 1)} s` : lasting(time)}`;
}

/** @type {(since: number) => string} */
export function running(since) {
  const clock = new Date(since).toLocaleTimeString([], { hour: "2-digit", minute: "2-digit", second: "2-digit", hour12: false });
  return `running since ${clock} (${lasting(Date.now() - since)})`;
}

/**
 * What is known of a cell's answer; `asked` is what was asked of it and isn't known to be done.
 * @typedef {{isThere: boolean, asked: string | undefined, isStale: boolean, hasEnded: boolean}} Known
 */

/**
 * The state of a cell's answer, as a class and in words.
 * @type {(cell: Cell, known: Known) => [string, string]}
 */
export function answerState(cell, { isThere, asked, isStale, hasEnded }) {
  if (!isThere && (cell.state === "running" || cell.state === "queued")) return ["queued", "no connection: it was to be evaluated"];
  if (asked !== undefined) return ["queued", asked];
  if (cell.state === "doubtful") return ["lost", "in doubt: this answer may no longer be in the file"];
  if (cell.state === "running") return ["running", running(cell.since ?? Date.now())];
  if (cell.state === "queued") return ["queued", "waits for its turn"];
  if (cell.state === "lost") return ["lost", `lost: ${cell.reason} (${REASONS[cell.reason ?? ""] ?? "no answer"})${wrote(cell)}`];
  if (cell.state === "empty") return cell.output ? ["stale", "stale: an earlier answer, no longer in the file"] : ["", ""];
  if (isStale) return ["stale", "stale: a cell above it was changed since"];
  if (hasEnded) return ["ended", "its interpreter has ended: variables are gone"];
  return cell.output?.length === 0 ? ["done", "evaluated: it has no output"] : ["", ""];
}

/**
 * What the interpreter had written before its end, which may be why.
 * @type {(cell: Cell) => string}
 */
function wrote({ wrote: text }) {
  return text ? `; it had written: ${text.split("\n").map(visible).join(" / ")}` : "";
}

const KEPT = "draft: kept, not yet the cell's text";

/**
 * The state of a cell's text.
 * @typedef {{isDraft: boolean, isKept: boolean, isSaving: boolean, isElsewhere: boolean, isThere: boolean, trouble: string}} Text
 * @type {(text: Text) => [string, string]}
 */
export function textState(text) {
  if (!text.isDraft) return ["saved", "saved"];
  if (text.isSaving) return ["saving", "saving"];
  if (text.isKept && text.isElsewhere) return ["kept", `${KEPT}, which was changed elsewhere`];
  if (text.isKept) return ["kept", text.trouble ? `${KEPT}: ${text.trouble}` : KEPT];
  if (text.isElsewhere) return ["unsaved", "not saved: it was changed elsewhere"];
  if (!text.isThere) return ["unsaved", "not saved: no connection"];
  return ["unsaved", text.trouble ? `not saved: ${text.trouble}` : "not saved yet"];
}
