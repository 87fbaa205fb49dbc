"use strict";
// Reads the markup that KaTeX writes, and no other: elements with attributes in quotes, and text with five references.

const { Refused } = require("./refused.js");

/** @typedef {{name: string, attributes: Map<string, string>, children: (Element | string)[]}} Element */

const DEEPEST = 200; // elements within each other
const TAG = /<(\/?)([a-z]+)((?: [a-z]+="[^"<>]*")*)(\/?)>/y;
const ATTRIBUTE = / ([a-z]+)="([^"<>]*)"/g;
const TEXT = /[^<>]+/y;
const REFERENCES = new Map([["&amp;", "&"], ["&lt;", "<"], ["&gt;", ">"], ["&quot;", '"'], ["&#x27;", "'"]]);

/** @type {(name: string, attributes?: [string, string][], children?: (Element | string)[]) => Element} */
function element(name, attributes = [], children = []) {
  return { name, attributes: new Map(attributes), children };
}

/** @type {(escaped: string) => string} */
function plain(escaped) {
  return escaped.replace(/&[^;]*;?/g, (reference) => {
    const character = REFERENCES.get(reference);
    if (character === undefined) throw new Refused("a reference that is unknown");
    return character;
  });
}

/** @type {(written: string) => Map<string, string>} */
function attributesOf(written) {
  const attributes = new Map();
  for (const [, name, value] of written.matchAll(ATTRIBUTE)) {
    if (attributes.has(name)) throw new Refused("an attribute twice");
    attributes.set(name, plain(value));
  }
  return attributes;
}

/**
 * Takes a tag: an element begins, or the innermost one ends.
 * @type {(tag: RegExpExecArray, open: Element[]) => void}
 */
function takeTag([, closing, name, written, empty], open) {
  const inner = open[open.length - 1];
  if (closing) {
    if (inner.name !== name || written || empty || open.length === 1) throw new Refused("an end without its beginning");
    open.pop();
    return;
  }
  const made = { name, attributes: attributesOf(written), children: [] };
  inner.children.push(made);
  if (!empty) open.push(made);
  if (open.length > DEEPEST) throw new Refused("too deep");
}

/**
 * The elements of a markup.
 * @type {(markup: string) => (Element | string)[]}
 */
function read(markup) {
  const open = [element("")];
  let at = 0;
  while (at < markup.length) {
    const form = markup[at] === "<" ? TAG : TEXT;
    form.lastIndex = at;
    const found = form.exec(markup);
    if (!found) throw new Refused("markup that can't be read");
    if (form === TAG) takeTag(found, open);
    else open[open.length - 1].children.push(plain(found[0]));
    at += found[0].length;
  }
  if (open.length > 1) throw new Refused("an element without its end");
  return open[0].children;
}

module.exports = { read, element };
