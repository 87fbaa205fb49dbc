// What keys do within a text.

import { languageNamed } from "./languages.js";

/** @typedef {import("./cell").CellView} CellView */

export const INDENT = "    ";

/**
 * Puts a text in the place of what is chosen, as a key does: the browser can undo it.
 * @type {(view: CellView, text: string) => void}
 */
export function insert(view, text) {
  if (document.execCommand(text ? "insertText" : "delete", false, text)) return;
  view.text.setRangeText(text, view.text.selectionStart, view.text.selectionEnd, "end");
  view.typed();
}

/**
 * A new line begins below the first letter of the one before, and deeper where that opens something. One that has blanks alone loses them.
 * @type {(view: CellView) => boolean}
 */
export function newLine(view) {
  const { value, selectionStart } = view.text;
  const line = value.slice(0, selectionStart).split("\n").at(-1) ?? "";
  const isOpen = !view.isProse && languageNamed(view.language).opens.test(line);
  const blanks = (/^[ \t]*/.exec(line)?.[0] ?? "") + (isOpen ? INDENT : "");
  if (!blanks) return false;
  if (!line.trim()) view.text.setSelectionRange(selectionStart - line.length, view.text.selectionEnd);
  insert(view, `\n${blanks}`);
  return true;
}

/**
 * Changes each line that is chosen, or that with the cursor: one step for the browser's undo. What is chosen stays so.
 * @type {(view: CellView, change: (lines: string[]) => string[]) => void}
 */
function changeLines(view, change) {
  const { value, selectionStart: start, selectionEnd: end, selectionDirection } = view.text;
  const last = end > start && value[end - 1] === "\n" ? end - 1 : end; // of the line after that nothing is chosen
  const from = value.slice(0, start).lastIndexOf("\n") + 1;
  const to = last + value.slice(last).split("\n", 1)[0].length;
  const lines = value.slice(from, to).split("\n");
  const changed = change(lines);
  const text = changed.join("\n");
  if (text === value.slice(from, to)) return;
  view.text.setSelectionRange(from, to);
  insert(view, text);
  const [first, rest] = [changed[0].length - lines[0].length, text.length - (to - from)];
  const lastLine = from + text.length - (changed.at(-1) ?? "").length;
  const newStart = start === from && end > start ? from : Math.max(from, start + first); // whole lines stay whole
  view.text.setSelectionRange(newStart, Math.max(newStart, lastLine, end + rest), selectionDirection);
}

/**
 * Puts four blanks before each line that is chosen, or takes them away.
 * @type {(view: CellView, isBack: boolean) => void}
 */
export function indent(view, isBack) {
  changeLines(view, (lines) => lines.map((line) => (isBack ? line.replace(/^(?:\t| {1,4})/, "") : INDENT + line)));
}

/**
 * Makes comments of the lines that are chosen, or takes that back where they all are.
 * @type {(view: CellView) => void}
 */
export function comment(view) {
  if (view.isProse) return;
  const [mark, end] = languageNamed(view.language).comment === "/* " ? ["/* ", " */"] : [languageNamed(view.language).comment, ""];
  const bare = mark.trimEnd();
  /** @type {(line: string) => boolean} */
  const isComment = (line) => line.trimStart().startsWith(bare) && (!end || line.trimEnd().endsWith("*/"));
  changeLines(view, (lines) => {
    const full = lines.filter((line) => line.trim());
    const isOff = full.length > 0 && full.every(isComment);
    const depth = Math.min(...full.map((line) => line.length - line.trimStart().length));
    return lines.map((line) => {
      if (!line.trim()) return line;
      if (!isOff) return line.slice(0, depth) + mark + line.slice(depth) + end;
      const at = line.indexOf(bare);
      const rest = line.slice(at + bare.length).replace(/^ /, "");
      return line.slice(0, at) + (end ? rest.replace(/ ?\*\/\s*$/, "") : rest);
    });
  });
}
