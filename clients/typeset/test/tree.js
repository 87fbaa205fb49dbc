"use strict";
// A reader of what may stand in a span of a typeset page, written apart from the program: it throws at whatever else there is.

/** @typedef {{name: string, attributes: Record<string, string>, children: (Tree | string)[]}} Tree */

const LENGTH = /^(?:0px|-?\d{1,2}(?:\.\d{1,4})?em)$/;
const FLAG = /^(?:true|false)$/;
const VARIANT = /^(?:bold|italic|bold-italic|monospace|sans-serif|bold-sans-serif|sans-serif-italic|sans-serif-bold-italic)$/;
const ANY = /^[^\0-\x08\x0b-\x1f<>"]*$/;

/** @type {Record<string, Record<string, RegExp>>} */
const MAY_STAND = {
  math: { displaystyle: FLAG, alttext: ANY },
  mrow: { class: /^tex-(?:over|under)$/ },
  mi: { mathvariant: /^normal$/ },
  mn: {},
  mo: { fence: FLAG, separator: FLAG, stretchy: FLAG, largeop: FLAG, lspace: LENGTH, rspace: LENGTH, minsize: LENGTH, maxsize: LENGTH },
  mtext: { mathvariant: VARIANT },
  mspace: { width: LENGTH, height: LENGTH, depth: LENGTH },
  mstyle: { displaystyle: FLAG, scriptlevel: /^[012]$/ },
  mpadded: { width: LENGTH, height: LENGTH, depth: LENGTH, lspace: LENGTH, voffset: LENGTH },
  mphantom: {},
  mfrac: { linethickness: LENGTH },
  msqrt: {}, mroot: {}, msub: {}, msup: {}, msubsup: {},
  munder: { accentunder: FLAG }, mover: { accent: FLAG }, munderover: { accent: FLAG, accentunder: FLAG },
  mtable: {}, mtr: {},
  mtd: { columnalign: /^(?:left|right)$/ },
};
/** @type {Record<string, number>} */
const PARTS = { mfrac: 2, mroot: 2, msub: 2, msup: 2, munder: 2, mover: 2, msubsup: 3, munderover: 3, mspace: 0 };
const TOKENS = ["mi", "mn", "mo", "mtext"];
const PIECE = /<(\/?)([a-z]+)((?: [a-z]+="[^"]*")*)>|([^<>]+)/y;
const BAD_CHARACTER = /[\0-\x08\x0b-\x1f\x7f-\x9f\u00ad\u061c\u200b-\u200f\u2028-\u202e\u2060\u2062-\u206f\ufeff\ufff0-\uffff\ue000-\uf8ff]/;

/** @type {(text: string) => string} */
function plain(text) {
  if (/&(?!(?:amp|lt|gt|quot|#39);)/.test(text) || /["']/.test(text)) throw new Error(`a text that is not escaped: ${text}`);
  return text.replaceAll("&lt;", "<").replaceAll("&gt;", ">").replaceAll("&quot;", '"').replaceAll("&#39;", "'").replaceAll("&amp;", "&");
}

/** @type {(name: string, written: string) => Record<string, string>} */
function attributesOf(name, written) {
  /** @type {Record<string, string>} */
  const attributes = {};
  for (const [, key, value] of written.matchAll(/ ([a-z]+)="([^"]*)"/g)) {
    if (!Object.hasOwn(MAY_STAND[name], key) || !MAY_STAND[name][key].test(value)) throw new Error(`${name} has ${key}="${value}"`);
    if (Object.hasOwn(attributes, key)) throw new Error(`${name} has ${key} twice`);
    attributes[key] = plain(value);
  }
  return attributes;
}

/** @type {(tree: Tree) => void} */
function checkParts({ name, children }) {
  const isToken = TOKENS.includes(name);
  if (children.some((child) => (typeof child === "string") !== isToken)) throw new Error(`${name} has text and elements`);
  if (Object.hasOwn(PARTS, name) && children.length !== PARTS[name]) throw new Error(`${name} has ${children.length} parts`);
  for (const child of children) {
    const within = typeof child === "string" ? "" : child.name;
    if ((within === "mtr") !== (name === "mtable") || (within === "mtd") !== (name === "mtr") || within === "math") {
      throw new Error(`${within} in ${name}`);
    }
  }
}

/** @type {(text: string) => string} */
function seen(text) {
  const reported = plain(text);
  if (BAD_CHARACTER.test(reported)) throw new Error(`a character that is not seen: ${JSON.stringify(reported)}`);
  return reported;
}

/**
 * What stands in a span: words, and trees of MathML.
 * @type {(content: string) => (Tree | string)[]}
 */
function readContent(content) {
  /** @type {Tree} */
  const root = { name: "", attributes: {}, children: [] };
  const open = [root];
  for (PIECE.lastIndex = 0; PIECE.lastIndex < content.length;) {
    const at = PIECE.lastIndex;
    const found = PIECE.exec(content);
    if (!found) throw new Error(`no markup of ours: ${content.slice(at, at + 50)}`);
    takePiece(found, open);
  }
  if (open.length !== 1) throw new Error("an element without its end");
  return root.children;
}

/** @type {(found: RegExpExecArray, open: Tree[]) => void} */
function takePiece([, closing, name, written, text], open) {
  const inner = open[open.length - 1];
  if (text !== undefined) {
    inner.children.push(seen(text));
  } else if (closing) {
    if (inner.name !== name || written) throw new Error(`</${name}> in ${inner.name}`);
    checkParts(inner);
    open.pop();
  } else {
    if (!Object.hasOwn(MAY_STAND, name) || (name === "math") !== (open.length === 1)) throw new Error(`<${name}> in ${inner.name}`);
    const made = { name, attributes: attributesOf(name, written), children: [] };
    inner.children.push(made);
    open.push(made);
  }
}

/**
 * All text of a tree, without blanks and U+2061.
 * @type {(node: Tree | string) => string}
 */
function textOf(node) {
  if (typeof node === "string") return node.replace(/[\s\u2061]/g, "");
  return node.children.map(textOf).join("");
}

/**
 * The elements of a name in a tree, the outer ones first.
 * @type {(node: Tree | string, name: string) => Tree[]}
 */
function allOf(node, name) {
  if (typeof node === "string") return [];
  return [...(node.name === name ? [node] : []), ...node.children.flatMap((child) => allOf(child, name))];
}

module.exports = { readContent, textOf, allOf };
