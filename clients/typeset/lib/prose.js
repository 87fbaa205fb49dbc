"use strict";
// The last gate of prose: writes trees of elements from the list below, node by node, or nothing. Formulas stay apart, to be set afterwards.

const { Refused } = require("./refused.js");
const { escapedText } = require("./page.js");

/**
 * @typedef {import("../../notebook/page/types").Tree} Tree
 * @typedef {(value: string) => boolean} Form
 * @typedef {{tex: string, display: boolean}} Formula
 * @typedef {string | Formula} Piece HTML, or a formula
 * @typedef {{holds: string[], attributes: Record<string, Form>}} Rule `holds` has "" where there may be text
 */

const DEEPEST = 90; // elements within each other; markdown-it drops what is deeper than 100
const FORMULA = "tex";
const PHRASES = ["", FORMULA, "em", "strong", "s", "code", "a", "br"];
const BLOCKS = ["p", "h2", "h3", "h4", "h5", "h6", "pre", "blockquote", "ul", "ol", "hr", "table"];
const EMPTY = ["br", "hr"];

/** @type {Form} */
const isLink = (value) => /^(?:https?:\/\/|mailto:)[^\s\p{C}]{1,2000}$/iu.test(value);
/** @type {Form} */
const isSide = (value) => ["left", "center", "right"].includes(value);
/** @type {Form} */
const isNumber = (value) => /^\d{1,9}$/.test(value);

/** @type {(names: string[], holds: string[], attributes?: Record<string, Form>) => [string, Rule][]} */
const group = (names, holds, attributes = {}) => names.map((name) => [name, { holds, attributes }]);

const ALLOWED = new Map([
  ...group(["p", "h2", "h3", "h4", "h5", "h6", "em", "strong", "s"], PHRASES),
  ...group(["a"], PHRASES.filter((name) => name !== "a"), { href: isLink }),
  ...group(["pre"], ["code"]),
  ...group(["code"], [""]),
  ...group(EMPTY, []),
  ...group(["blockquote"], BLOCKS),
  ...group(["ul"], ["li"]),
  ...group(["ol"], ["li"], { start: isNumber }),
  ...group(["li"], [...PHRASES, ...BLOCKS]),
  ...group(["table"], ["thead", "tbody"]),
  ...group(["thead", "tbody"], ["tr"]),
  ...group(["tr"], ["th", "td"]),
  ...group(["th", "td"], PHRASES, { class: isSide }),
]);

/** @type {(name: string, given: Record<string, string>, form: Record<string, Form>) => string} */
function writtenAttributes(name, given, form) {
  return Object.entries(given).map(([key, value]) => {
    if (!Object.hasOwn(form, key) || typeof value !== "string" || !form[key](value)) throw new Refused(`the attribute ${key} of ${name}`);
    return ` ${key}="${escapedText(value)}"`;
  }).join("");
}

/** @type {(given: Record<string, string>, within: Tree[]) => Formula} */
function formulaOf({ display }, within) {
  const [tex] = Array.isArray(within) ? within : [];
  if (typeof tex !== "string") throw new Refused("a formula without its text");
  return { tex, display: display === "true" };
}

/**
 * What stands in an element that holds these. A link is in none, however deep.
 * @type {(trees: Tree[], holds: string[], depth: number, isLinked: boolean) => Piece[]}
 */
function written(trees, holds, depth, isLinked) {
  if (!Array.isArray(trees) || depth > DEEPEST) throw new Refused(depth > DEEPEST ? "too deep" : "no trees");
  return trees.flatMap((tree) => {
    if (typeof tree !== "string") return element(tree, holds, depth, isLinked);
    if (!holds.includes("") && tree.trim()) throw new Refused("the place of a text");
    return [escapedText(tree)];
  });
}

/** @type {(tree: [string, Record<string, string>, Tree[]], holds: string[], depth: number, isLinked: boolean) => Piece[]} */
function element(tree, holds, depth, isLinked) {
  const [name, attributes, within] = Array.isArray(tree) ? tree : ["", {}, []];
  const given = attributes ?? {};
  const isLink = name === "a";
  if (!name || !holds.includes(name) || (isLink && isLinked)) throw new Refused(`the place of ${name}`);
  if (name === FORMULA) return [formulaOf(given, within)];
  const rule = ALLOWED.get(name);
  if (!rule) throw new Refused(`the element ${name}`);
  const inner = written(within, rule.holds, depth + 1, isLinked || isLink);
  const begin = `<${name}${writtenAttributes(name, given, rule.attributes)}${isLink ? ' rel="noopener noreferrer"' : ""}>`;
  return EMPTY.includes(name) ? [begin] : [begin, ...inner, `</${name}>`];
}

/**
 * The HTML of prose, in pieces, with its formulas between them. Throws `Refused` where a tree has what is not allowed.
 * @type {(trees: Tree[]) => Piece[]}
 */
function piecesOf(trees) {
  return written(trees, BLOCKS, 0, false);
}

module.exports = { piecesOf };
