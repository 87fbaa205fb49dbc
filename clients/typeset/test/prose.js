"use strict";
// A reader of what prose may become in a page, written apart from the program: it throws at whatever else there is.

const { readContent, textOf } = require("./tree.js");

const LINK = /^(?:https?:\/\/|mailto:)[^\s"<>]+$/i;
/** @type {Record<string, Record<string, RegExp>>} */
const MAY_STAND = {
  p: {}, h2: {}, h3: {}, h4: {}, h5: {}, h6: {}, em: {}, strong: {}, s: {}, code: {}, pre: {}, blockquote: {}, ul: {}, li: {}, table: {}, thead: {},
  tbody: {}, tr: {}, hr: {}, br: {}, ol: { start: /^\d{1,9}$/ }, th: { class: /^(?:left|center|right)$/ }, td: { class: /^(?:left|center|right)$/ },
  a: { href: LINK, rel: /^noopener noreferrer$/ }, span: { class: /^display$/ },
};
const EMPTY = ["br", "hr"];
const PIECE = /(<math [^<>]*>[^]*?<\/math>)|<(\/?)([a-z][a-z0-9]*)((?: [a-z]+="[^"]*")*)>|([^<>]+)/y;

/** @type {(name: string, written: string) => void} */
function checkTag(name, written) {
  if (!Object.hasOwn(MAY_STAND, name)) throw new Error(`<${name}>`);
  for (const [, key, value] of written.matchAll(/ ([a-z]+)="([^"]*)"/g)) {
    if (!Object.hasOwn(MAY_STAND[name], key) || !MAY_STAND[name][key].test(value)) throw new Error(`${name} has ${key}="${value}"`);
  }
}

/** @type {(name: string, closing: string, open: string[]) => void} */
function nest(name, closing, open) {
  if (closing && open.pop() !== name) throw new Error(`</${name}> without its beginning`);
  if (!closing && name === "a" && open.includes("a")) throw new Error("a link in a link");
  if (!closing && !EMPTY.includes(name)) open.push(name);
}

/**
 * The text that the HTML of a field of prose shows.
 * @type {(html: string) => string}
 */
function shownBy(html) {
  /** @type {string[]} */
  const open = [];
  let shown = "";
  for (PIECE.lastIndex = 0; PIECE.lastIndex < html.length;) {
    const at = PIECE.lastIndex;
    const found = PIECE.exec(html);
    if (!found) throw new Error(`no markup of ours: ${html.slice(at, at + 50)}`);
    const [, math, closing, name, written, text] = found;
    if (name) {
      checkTag(name, written);
      nest(name, closing, open);
    } else {
      shown += math ? readContent(math).map(textOf).join("") : plain(text);
    }
  }
  if (open.length > 0) throw new Error(`${open} without an end`);
  return shown;
}

/** @type {(text: string) => string} */
function plain(text) {
  if (/&(?!(?:amp|lt|gt|quot|#39);)/.test(text) || /["']/.test(text)) throw new Error(`a text that is not escaped: ${text}`);
  return text.replaceAll("&lt;", "<").replaceAll("&gt;", ">").replaceAll("&quot;", '"').replaceAll("&#39;", "'").replaceAll("&amp;", "&");
}

const SECTION = /<section id="field-(\d+)" class="prose" dir="auto">\n([^]*?)\n<\/section>\n/g;

/**
 * The HTML of each field of prose that a page has, by its number.
 * @type {(page: Buffer) => Map<number, string>}
 */
function proseOf(page) {
  return new Map(Array.from(page.toString().matchAll(SECTION), ([, number, html]) => [Number(number), html]));
}

/**
 * The page as it was in front of the run, where nothing but its fields of prose and its styles has changed: `before` has the fields.
 * @type {(page: Buffer, before: string) => string}
 */
function withoutProse(page, before) {
  const fields = new Map(Array.from(before.matchAll(/<section id="field-(\d+)">[^]*?<\/section>\n/g), ([field, number]) => [number, field]));
  return page.toString().replace(/(<\/style>\n)<style>[^]*<\/style>\n<\/head>/, "$1</head>").replace(SECTION, (_, number) => fields.get(number) ?? "");
}

module.exports = { shownBy, proseOf, withoutProse };
