"use strict";
// The formulas and the fields of prose of a page that `tmhost export html` wrote, and the same page with them set.
//
// In an output of such a page each `<` begins `<span class="tex">`, `<span class="error">`, the `</span>` of one, or a picture, whatever an interpreter
// wrote, and no other text has one.
// So the end of a span and of a field needs no guess. All of this works on bytes: what is neither is copied as it is.

const OUTPUT_START = Buffer.from('<pre class="out"');
const OUTPUT_END = Buffer.from("</pre>");
const SPAN_START = Buffer.from('<span class="tex">');
const ERROR_START = Buffer.from('<span class="error">');
const SPAN_END = Buffer.from("</span>");
const HEAD_END = Buffer.from("</head>");
const MARK = 60; // <
const LINE_FEED = 10;
const BLANKS = [32, 9];
const MOST_SPANS = 100; // a browser cuts a tree at a depth of some 512 elements; MathML may have 200 of them
const MOST_STEPS = 1000; // bytes and tags beside a span that are looked at
const FIELD_START = Buffer.from('<section id="field-');
const FIELD_END = Buffer.from("</section>\n");
const LONGEST_FIELD = 50_000; // bytes of one that is prose: each of an input's 4,095 may be a reference
// A field without an answer, whose session and input are found.
const FIELD = new RegExp('^<section id="(field-[0-9]+)">\n<header><a href="#\\1">#[0-9]+</a> <bdi>([^<]*)</bdi></header>\n'
  + '<pre class="in" dir="ltr"><bdi>[^<]*</bdi><code dir="ltr">([^<]*)</code></pre>\n<p class="none">no answer[^<]*</p>\n</section>\n$');

const ESCAPES = new Map([["&", "&amp;"], ["<", "&lt;"], [">", "&gt;"], ['"', "&quot;"], ["'", "&#39;"]]); // as an export has them
// What is read: the references that programs write which escape a text. Python has `&#x27;`, others `&#039;`, `&apos;` or `&#34;`.
const NAMED = new Map([["&amp;", "&"], ["&lt;", "<"], ["&gt;", ">"], ["&quot;", '"'], ["&apos;", "'"]]);
const NUMBERED = /^&#(?:([0-9]+)|[xX]([0-9a-fA-F]+));$/;
const REFERENCE = /&[^&;]*;?/g;

// Fonts that have a table for mathematics, of those that are installed; and what MathML Core leaves to styles. The page breaks long words of
// its outputs, and a number in a cell of a table that was broken so would lose its last digits.
const STYLE = `<style>
math{font-family:"Latin Modern Math","STIX Two Math","Libertinus Math","DejaVu Math TeX Gyre","Cambria Math",math;font-size:1.1em;white-space:nowrap;overflow-wrap:normal}
mtext[mathvariant="monospace"]{font-family:ui-monospace,Consolas,monospace}
mtext[mathvariant*="sans-serif"]{font-family:system-ui,sans-serif}
mtext[mathvariant*="bold"]{font-weight:bold}
mtext[mathvariant*="italic"]{font-style:italic}
mtd[columnalign="left"]{text-align:left}
mtd[columnalign="right"]{text-align:right;text-align:-webkit-right}
.tex-over{border-top:.06em solid;padding-top:.12em}
.tex-under{border-bottom:.06em solid;padding-bottom:.12em}
</style>
`;

// Prose: no card, but room for each of its parts.
const PROSE_STYLE = `<style>
.prose{padding:.3rem .9rem;border-color:transparent;background:none;overflow-wrap:anywhere;overflow-x:auto}
.prose>:first-child{margin-top:0}
.prose>:last-child{margin-bottom:0}
.prose :is(p,ul,ol,pre,table,blockquote){margin:.6rem 0}
.prose :is(h2,h3,h4,h5,h6){margin:1.1rem 0 .4rem;line-height:1.25;font-weight:650}
.prose h2{font-size:1.35rem}
.prose h3{font-size:1.15rem}
.prose :is(h4,h5,h6){font-size:1rem}
.prose code{font:.9em ui-monospace,Consolas,monospace}
.prose pre{border:1px solid var(--line);border-radius:.4rem;background:var(--card)}
.prose pre code{font:inherit}
.prose blockquote{padding-left:.9rem;border-left:3px solid var(--line);color:var(--dim)}
.prose table{border-collapse:collapse}
.prose :is(th,td){padding:.15rem .6rem;border:1px solid var(--line);text-align:start}
.prose :is(h2,h3,h4,h5,h6,p,li,th,td){unicode-bidi:plaintext}
.prose .center{text-align:center}
.prose .right{text-align:right}
.prose a{color:var(--mark)}
.prose :is(a,code){unicode-bidi:isolate}
.prose .display{display:block;padding:.5rem 0;overflow-x:auto;overflow-y:hidden;text-align:center}
@media print{.prose{break-inside:auto}.prose :is(h2,h3,h4,h5,h6),.prose:has(>:is(h2,h3,h4,h5,h6):last-child){break-after:avoid}}
</style>
`;

/**
 * A field of prose: its bytes are `start` up to `end` of the page, without what has its number. Of `source`, which stands there, `text` is what it says.
 * @typedef {{start: number, end: number, session: string, text: string | null, source: string}} Prose
 */

/**
 * What stands in an innermost span: its bytes are `start` up to `end` of the page.
 * @typedef {{start: number, end: number, depth: number, alone: boolean}} Span
 */

/** @type {(page: Buffer, at: number, word: Buffer) => boolean} */
function standsAt(page, at, word) {
  return at >= 0 && word.equals(page.subarray(at, at + word.length));
}

/**
 * The innermost spans of one output, which is the whole buffer.
 * @type {(output: Buffer) => Omit<Span, "alone">[]}
 */
function spansWithin(output) {
  const spans = [];
  let depth = 0;
  let start = -1;
  for (let at = output.indexOf(MARK); at >= 0; at = output.indexOf(MARK, at + 1)) {
    if (standsAt(output, at, SPAN_START)) {
      depth += 1;
      start = at + SPAN_START.length;
    } else {
      if (standsAt(output, at, SPAN_END)) {
        if (start >= 0) spans.push({ start, end: at, depth });
        depth -= 1;
      } else if (standsAt(output, at, ERROR_START)) {
        depth += 1;
      }
      start = -1;
    }
  }
  return spans;
}

/**
 * Whether only blanks and tags of spans stand between a place and the beginning of its line.
 * @type {(output: Buffer, at: number) => boolean}
 */
function isFirst(output, at) {
  for (let steps = 0; steps < MOST_STEPS; steps += 1) {
    if (at === 0 || output[at - 1] === LINE_FEED) return true;
    const tag = [SPAN_START, ERROR_START, SPAN_END].find((word) => standsAt(output, at - word.length, word));
    if (tag) at -= tag.length;
    else if (BLANKS.includes(output[at - 1])) at -= 1;
    else return false;
  }
  return false;
}

/**
 * Whether only blanks and tags of spans stand between a place and the end of its line.
 * @type {(output: Buffer, at: number) => boolean}
 */
function isLast(output, at) {
  for (let steps = 0; steps < MOST_STEPS; steps += 1) {
    if (at >= output.length || output[at] === LINE_FEED) return true;
    const tag = [SPAN_START, ERROR_START, SPAN_END].find((word) => standsAt(output, at, word));
    if (tag) at += tag.length;
    else if (BLANKS.includes(output[at])) at += 1;
    else return false;
  }
  return false;
}

/**
 * The innermost spans of all outputs of a page, in their order.
 * @type {(page: Buffer) => Span[]}
 */
function spansOf(page) {
  /** @type {Span[]} */
  const spans = [];
  for (let at = page.indexOf(OUTPUT_START); at >= 0; at = page.indexOf(OUTPUT_START, at)) {
    const from = page.indexOf(">", at) + 1;
    const to = page.indexOf(OUTPUT_END, at);
    if (from === 0 || to < from) break;
    const output = page.subarray(from, to);
    for (const { start, end, depth } of spansWithin(output)) {
      const alone = isFirst(output, start) && isLast(output, end);
      if (depth <= MOST_SPANS) spans.push({ start: from + start, end: from + end, depth, alone });
    }
    at = to;
  }
  return spans;
}

/**
 * The character that a reference stands for; null where none does, or where browsers read another one.
 * @type {(reference: string) => string | null}
 */
function characterOf(reference) {
  const found = NUMBERED.exec(reference);
  if (!found) return NAMED.get(reference) ?? null;
  const code = found[1] ? parseInt(found[1], 10) : parseInt(found[2], 16);
  const isOther = code === 0 || (code >= 0x80 && code <= 0x9f) || (code >= 0xd800 && code <= 0xdfff) || code > 0x10ffff;
  return isOther ? null : String.fromCodePoint(code);
}

/**
 * The text that stands in bytes of a page; null where they are no text that was escaped.
 * @type {(bytes: Buffer) => string | null}
 */
function textOf(bytes) {
  let escaped;
  try {
    escaped = new TextDecoder("utf-8", { fatal: true, ignoreBOM: true }).decode(bytes);
  } catch {
    return null;
  }
  if (/[<>"']/.test(escaped) || (escaped.match(REFERENCE) ?? []).some((reference) => characterOf(reference) === null)) return null;
  return escaped.replace(REFERENCE, (reference) => characterOf(reference) ?? reference);
}

/**
 * A text as a page has it.
 * @type {(text: string) => string}
 */
function escapedText(text) {
  return text.replace(/[&<>"']/g, (character) => ESCAPES.get(character) ?? character);
}

/**
 * The field without an answer that begins at a place, where it has a session of prose.
 * @type {(page: Buffer, start: number, isProse: (session: string) => boolean) => Prose | null}
 */
function proseAt(page, start, isProse) {
  const end = page.indexOf(FIELD_END, start) + FIELD_END.length;
  if (end < FIELD_END.length || end - start > LONGEST_FIELD) return null;
  const found = FIELD.exec(page.toString("latin1", start, end));
  if (!found) return null;
  const [session, text] = found.slice(2).map((part) => textOf(Buffer.from(part, "latin1")));
  if (session === null || !isProse(session)) return null;
  return { start: start + FIELD_START.length + found[1].length - "field-".length, end, session, text, source: Buffer.from(found[3], "latin1").toString() };
}

/**
 * The fields of prose of a page, in their order: those without an answer whose session is one of prose.
 * @type {(page: Buffer, isProse: (session: string) => boolean) => Prose[]}
 */
function proseOf(page, isProse) {
  const all = [];
  for (let at = page.indexOf(FIELD_START); at >= 0; at = page.indexOf(FIELD_START, at + 1)) {
    const found = proseAt(page, at, isProse);
    if (found) all.push(found);
  }
  return all;
}

/**
 * The section of a field of prose, from where its number ends.
 * @type {(html: string) => string}
 */
function proseSection(html) {
  return `" class="prose" dir="auto">\n${html}\n</section>\n`;
}

/**
 * The page with something else in some places, which stand in their order, and with styles in its head.
 * @type {(page: Buffer, made: {start: number, end: number, html: string}[], styles: string) => Buffer}
 */
function pageWith(page, made, styles) {
  const head = page.indexOf(HEAD_END);
  const pieces = [];
  let at = 0;
  if (styles && head >= 0) {
    pieces.push(page.subarray(0, head), Buffer.from(styles));
    at = head;
  }
  for (const { start, end, html } of made) {
    pieces.push(page.subarray(at, start), Buffer.from(html));
    at = end;
  }
  pieces.push(page.subarray(at));
  return Buffer.concat(pieces);
}

module.exports = { spansOf, proseOf, proseSection, textOf, escapedText, pageWith, STYLE, PROSE_STYLE };
