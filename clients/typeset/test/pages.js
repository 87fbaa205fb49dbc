"use strict";
// Pages in the form of `crates/sheet_export/specs/Html.antt`, made of the fixed parts that stand in `Parts.antt`.

const fs = require("node:fs");
const path = require("node:path");

const PARTS = path.join(__dirname, "../../../crates/sheet_export/specs/Parts.antt");

/**
 * `output` is HTML: texts and spans. null is a field without an answer, for the reason `lost` where there is one.
 * @typedef {{session?: string, prompt?: string, input?: string, output: string | null, lost?: string}} Field
 */

/** @type {() => Record<string, string>} */
function readParts() {
  const written = fs.readFileSync(PARTS, "utf8").matchAll(/^(\w+) = codes (".*")$/gm);
  return Object.fromEntries(Array.from(written, ([, name, text]) => [name, JSON.parse(text)]));
}

const parts = readParts();

/**
 * A text as a page has it.
 * @type {(text: string) => string}
 */
function escaped(text) {
  return text.replaceAll("&", "&amp;").replaceAll("<", "&lt;").replaceAll(">", "&gt;").replaceAll('"', "&quot;").replaceAll("'", "&#39;");
}

/**
 * A block `latex` that holds a text.
 * @type {(text: string) => string}
 */
function span(text) {
  return parts.tex_start + escaped(text) + parts.tex_end;
}

/** @type {(output: string | null, lost: string | undefined) => string} */
function answerHtml(output, lost) {
  if (output !== null) return parts.output_start + output + parts.output_end;
  return lost === undefined ? parts.no_answer : parts.lost_start + lost + parts.lost_end;
}

/** @type {(field: Field, index: number) => string} */
function fieldHtml({ session = "session", prompt = "> ", input = "", output, lost }, index) {
  const id = String(index + 1);
  const head = parts.field_start + id + parts.anchor_end + id + parts.link_end + id + parts.number_end + escaped(session) + parts.session_end;
  const asked = parts.input_start + escaped(prompt) + parts.prompt_end + escaped(input) + parts.input_end;
  return head + asked + answerHtml(output, lost) + parts.field_end;
}

/** @type {(title: string, fields: Field[]) => string} */
function pageOf(title, fields) {
  const head = parts.meta + escaped(title) + parts.title_end + parts.style + parts.style_end + escaped(title) + parts.heading_end;
  return head + fields.map(fieldHtml).join("") + parts.page_end;
}

module.exports = { pageOf, span, escaped, parts };
