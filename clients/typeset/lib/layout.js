"use strict";
// Makes of KaTeX's MathML what browsers draw: KaTeX writes MathML 3, and with it for readers of screens; browsers draw MathML Core.

const { element } = require("./markup.js");
const { Refused } = require("./refused.js");
const { alphabetOf, inAlphabet } = require("./letters.js");

/** @typedef {import("./markup.js").Element} Element */

const APPLICATION = "\u2061";
const TOKENS = ["mi", "mn", "mo", "mtext"];
const ROWS = ["mrow", "mstyle", "mtd", "msqrt", "mpadded", "mphantom"];
const SCRIPTED = ["msub", "msup", "msubsup", "munder", "mover", "munderover"];
const NO_OPERANDS = ["mo", "mspace"];
const LINE = "\u203e";
const PRIME = "\u2032";
// Signs that KaTeX writes and no font stretches, and those that fonts do.
const STRETCHED = new Map([["\u2223", "|"], ["\u2225", "\u2016"], ["^", "\u0302"], ["~", "\u0303"]]);
/** @type {[string, string][]} */
const OF_A_FENCE = [["stretchy", "true"], ["lspace", "0em"], ["rspace", "0em"]];

/** @type {(node: Element | string | undefined) => node is Element} */
function isElement(node) {
  return typeof node === "object";
}

/** @type {(node: Element) => string} */
function textIn(node) {
  return node.children.length === 1 && typeof node.children[0] === "string" ? node.children[0] : "";
}

/** @type {(node: Element, ...names: string[]) => [string, string][]} */
function attributesWithout({ attributes }, ...names) {
  return [...attributes].filter(([key]) => !names.includes(key));
}

/**
 * A sign or a letter around which KaTeX put others: a row, with the spaces that it would have.
 * @type {(node: Element) => Element}
 */
function tokenAsRow(node) {
  const [before, after] = ["lspace", "rspace"].map((key) => {
    const width = node.attributes.get(key);
    return width === undefined ? [] : [element("mspace", [["width", width]])];
  });
  return element("mrow", attributesWithout(node, "lspace", "rspace"), [...before, ...node.children, ...after]);
}

/**
 * A token in letters of its variant. Texts keep theirs, for the page's style; signs have none.
 * @type {(node: Element) => Element}
 */
function inLetters(node) {
  const variant = node.attributes.get("mathvariant");
  const isNormal = variant === "normal";
  if (variant === undefined || (node.name === "mtext" && !isNormal) || (node.name === "mi" && isNormal)) return node;
  const rest = attributesWithout(node, "mathvariant");
  if (node.name === "mo" || isNormal) return element(node.name, rest, node.children);
  const alphabet = alphabetOf(variant);
  if (!alphabet) throw new Refused("a variant that is unknown");
  return element(node.name, rest, node.children.map((child) => (isElement(child) ? child : inAlphabet(child, alphabet))));
}

/**
 * A sign: one that is stretched by another that fonts stretch, and a fence stretched, without the space of a relation.
 * @type {(node: Element) => Element}
 */
function sign({ name, attributes, children }) {
  const made = attributes.get("fence") === "true" ? new Map([...OF_A_FENCE, ...attributes]) : attributes;
  const text = children.join("");
  return { name, attributes: made, children: [made.get("stretchy") === "true" ? STRETCHED.get(text) ?? text : text] };
}

/**
 * A token: KaTeX writes a negative space as a space and U+2063, which browsers draw as a space.
 * @type {(node: Element) => Element}
 */
function token(node) {
  if (node.children.some(isElement)) return tokenAsRow(node);
  if (node.name === "mtext" && textIn(node).endsWith("\u2063")) return element("mspace");
  return node.name === "mo" ? sign(inLetters(node)) : inLetters(node);
}

/**
 * A table whose cells say how they stand in their column. Lines between them would not be drawn.
 * @type {(node: Element) => Element}
 */
function table(node) {
  const columns = (node.attributes.get("columnalign") ?? "").split(" ");
  const lines = `${node.attributes.get("columnlines") ?? ""} ${node.attributes.get("rowlines") ?? ""}`;
  if (/solid|dashed/.test(lines)) throw new Refused("lines in a table");
  const rest = attributesWithout(node, "columnalign", "columnlines", "rowlines", "columnspacing", "rowspacing");
  return element(node.name, rest, node.children.map((row) => (isElement(row) ? aligned(row, columns) : row)));
}

/** @type {(row: Element, columns: string[]) => Element} */
function aligned({ name, attributes, children }, columns) {
  const cells = children.map((cell, index) => {
    const side = columns[index] || "center";
    if (!isElement(cell) || side === "center") return cell;
    return { ...cell, attributes: new Map([...cell.attributes, ["columnalign", side]]) };
  });
  return { name, attributes, children: cells };
}

/**
 * The room around what stands over an arrow, which MathML Core doesn't know, as spaces.
 * @type {(node: Element) => Element}
 */
function padded(node) {
  if (node.attributes.get("width") !== "+0.6em" || node.attributes.get("lspace") !== "0.3em") return node;
  const room = element("mspace", [["width", "0.3em"]]);
  return element("mrow", [], [room, ...node.children, room]);
}

/** @type {(node: Element | string) => boolean} */
function isPrimes(node) {
  if (!isElement(node)) return false;
  return node.name === "mo" ? textIn(node) === PRIME : node.name === "mrow" && node.children.length > 0 && node.children.every(isPrimes);
}

/**
 * A line over or under a formula, which few fonts stretch, as a border; primes beside their letter, since their sign is raised by itself.
 * @type {(node: Element) => Element}
 */
function scripted(node) {
  const [base, script] = node.children;
  if (!isElement(script) || node.children.length !== 2) return node;
  const isLine = textIn(script) === LINE && script.attributes.get("stretchy") === "true";
  if (isLine && node.name === "mover") return element("mrow", [["class", "tex-over"]], [base]);
  if (isLine && node.name === "munder") return element("mrow", [["class", "tex-under"]], [base]);
  return node.name === "msup" && isPrimes(script) ? element("mrow", [], node.children) : node;
}

/**
 * A black rule without width, which holds its line apart from others, as a space.
 * @type {(node: Element) => Element}
 */
function space(node) {
  if (node.attributes.get("mathbackground") !== "black" || node.attributes.get("width") !== "0em") return node;
  return element("mspace", attributesWithout(node, "mathbackground"), node.children);
}

/** @type {(node: Element | string | undefined) => boolean} */
function isApplication(node) {
  return isElement(node) && node.name === "mo" && textIn(node) === APPLICATION;
}

/**
 * Whether a function's name ends here, with scripts or without.
 * @type {(node: Element | string | undefined) => boolean}
 */
function endsFunction(node) {
  if (!isElement(node) || !SCRIPTED.includes(node.name)) return isApplication(node);
  const [base] = node.children;
  return isElement(base) && base.name === "mrow" && endsFunction(base.children[base.children.length - 1]);
}

/** @type {(node: Element | string | undefined) => boolean} */
function isOperand(node) {
  if (!isElement(node) || NO_OPERANDS.includes(node.name)) return false;
  return node.name !== "mtext" || /\S/.test(textIn(node));
}

/**
 * Children of a row with TeX's thin space on both sides of a function's name, where an operand stands there.
 * @type {(children: (Element | string)[]) => (Element | string)[]}
 */
function withSpaces(children) {
  const thin = element("mspace", [["width", "0.1667em"]]);
  return children.flatMap((child, index) => {
    const [last, next] = [children[index - 1], children[index + 1]];
    const begins = isApplication(next) || (endsFunction(child) && !isApplication(child));
    return [...(begins && isOperand(last) ? [thin] : []), child, ...(endsFunction(child) && isOperand(next) ? [thin] : [])];
  });
}

/** @type {Map<string, (node: Element) => Element>} */
const OTHERS = new Map([["mtable", table], ["mpadded", padded], ["mspace", space]]);

/**
 * An element as browsers draw it.
 * @type {(node: Element) => Element}
 */
function laidOut({ name, attributes, children }) {
  const made = children.map((child) => (isElement(child) ? laidOut(child) : child));
  const node = { name, attributes, children: ROWS.includes(name) ? withSpaces(made) : made };
  if (TOKENS.includes(name)) return token(node);
  if (SCRIPTED.includes(name)) return scripted(node);
  return (OTHERS.get(name) ?? ((other) => other))(node);
}

module.exports = { laidOut };
