"use strict";
// The last gate: writes an element of MathML from the list below, node by node, or nothing.

const { read, element } = require("./markup.js");
const { Refused } = require("./refused.js");
const { laidOut } = require("./layout.js");
const { isSeen } = require("./latex.js");
const { escapedText } = require("./page.js");

/** @typedef {import("./markup.js").Element} Element */
/** @typedef {(value: string) => boolean} Form */

const APPLICATION = "\u2061";
const WIDEST = 50; // em, of a length
const MOST_BACK = 2; // em, of a negative one

/** @type {Form} */
const isLength = (value) => {
  const found = /^(-?\d{1,4}(?:\.\d{1,6})?)em$/.exec(value);
  return value === "0px" || (found !== null && Number(found[1]) <= WIDEST && Number(found[1]) >= -MOST_BACK);
};
/** @type {Form} */
const isFlag = (value) => value === "true" || value === "false";
/** @type {(...values: string[]) => Form} */
const isOneOf = (...values) => (value) => values.includes(value);

/**
 * What an element has within: text; nothing; elements, as many as there are; so many; or rows, or cells.
 * @typedef {"text" | "nothing" | "elements" | "rows" | "cells" | number} Content
 */

/** @type {Record<string, {content: Content, attributes: Record<string, Form>}>} */
const ALLOWED = {
  math: { content: "elements", attributes: { displaystyle: isFlag, alttext: isSeen } },
  mrow: { content: "elements", attributes: { class: isOneOf("tex-over", "tex-under") } },
  mi: { content: "text", attributes: { mathvariant: isOneOf("normal") } },
  mn: { content: "text", attributes: {} },
  mo: {
    content: "text",
    attributes: {
      fence: isFlag, separator: isFlag, stretchy: isFlag, largeop: isFlag,
      lspace: isLength, rspace: isLength, minsize: isLength, maxsize: isLength,
    },
  },
  mtext: {
    content: "text",
    attributes: {
      mathvariant: isOneOf("bold", "italic", "bold-italic", "monospace", "sans-serif", "bold-sans-serif",
        "sans-serif-italic", "sans-serif-bold-italic"),
    },
  },
  mspace: { content: "nothing", attributes: { width: isLength, height: isLength, depth: isLength } },
  mstyle: { content: "elements", attributes: { displaystyle: isFlag, scriptlevel: isOneOf("0", "1", "2") } },
  mpadded: {
    content: "elements",
    attributes: { width: isLength, height: isLength, depth: isLength, lspace: isLength, voffset: isLength },
  },
  mphantom: { content: "elements", attributes: {} },
  mfrac: { content: 2, attributes: { linethickness: isLength } },
  msqrt: { content: "elements", attributes: {} },
  mroot: { content: 2, attributes: {} },
  msub: { content: 2, attributes: {} },
  msup: { content: 2, attributes: {} },
  msubsup: { content: 3, attributes: {} },
  munder: { content: 2, attributes: { accentunder: isFlag } },
  mover: { content: 2, attributes: { accent: isFlag } },
  munderover: { content: 3, attributes: { accent: isFlag, accentunder: isFlag } },
  mtable: { content: "rows", attributes: {} },
  mtr: { content: "cells", attributes: {} },
  mtd: { content: "elements", attributes: { columnalign: isOneOf("left", "right") } },
};

/** @type {(within: string, content: Content) => boolean} */
function mayStandIn(within, content) {
  if (content === "rows") return within === "mtr";
  if (content === "cells") return within === "mtd";
  return !["math", "mtr", "mtd"].includes(within);
}

/** @type {(node: Element, form: Record<string, Form>) => string} */
function writtenAttributes({ name, attributes }, form) {
  return [...attributes].map(([key, value]) => {
    if (!Object.hasOwn(form, key) || !form[key](value)) throw new Refused(`the attribute ${key} of ${name}`);
    return ` ${key}="${escapedText(value)}"`;
  }).join("");
}

/** @type {(child: Element | string, content: Content) => string} */
function writtenChild(child, content) {
  if (typeof child === "string") {
    if (content !== "text" || !(isSeen(child) || child === APPLICATION)) throw new Refused("a text");
    return escapedText(child);
  }
  const holdsElements = content !== "text" && content !== "nothing";
  if (!holdsElements || !mayStandIn(child.name, content)) throw new Refused(`the place of ${child.name}`);
  return written(child);
}

/**
 * An element as the page gets it.
 * @type {(node: Element) => string}
 */
function written(node) {
  if (!Object.hasOwn(ALLOWED, node.name)) throw new Refused(`the element ${node.name}`);
  const { content, attributes } = ALLOWED[node.name];
  if (typeof content === "number" && node.children.length !== content) throw new Refused(`the parts of ${node.name}`);
  const within = node.children.map((child) => writtenChild(child, content)).join("");
  return `<${node.name}${writtenAttributes(node, attributes)}>${within}</${node.name}>`;
}

/**
 * The one child of this name in a list of one or more.
 * @type {(nodes: (Element | string)[], name: string) => Element}
 */
function firstOf(nodes, name) {
  const [node] = nodes;
  if (typeof node !== "object" || node.name !== name) throw new Refused(`no ${name}`);
  return node;
}

/**
 * The formula that KaTeX reported, as the page gets it. Throws `Refused` where it has what is not allowed.
 * @type {(markup: string, tex: string, display: boolean) => string}
 */
function mathOf(markup, tex, display) {
  const reported = firstOf(firstOf(read(markup), "span").children, "math");
  const [formula] = firstOf(reported.children, "semantics").children;
  if (typeof formula !== "object") throw new Refused("no formula");
  /** @type {[string, string][]} */
  const attributes = display ? [["displaystyle", "true"], ["alttext", tex]] : [["alttext", tex]];
  return written(element("math", attributes, [laidOut(formula)]));
}

module.exports = { mathOf, ALLOWED };
