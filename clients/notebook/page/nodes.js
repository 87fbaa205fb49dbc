// Makes nodes of a tree from this list alone: what is not in it is refused, whoever made the tree.

/** @typedef {import("./types").Tree} Tree */
/** @typedef {(value: string) => boolean} Form */

const MATHML = "http://www.w3.org/1998/Math/MathML";
const SVG = "http://www.w3.org/2000/svg";
const DEEPEST = 200;
const MOST_NODES = 20_000;
const MOST_LONG_NODES = 150_000; // of a long sum

/** @type {(form: RegExp) => Form} */
const like = (form) => (value) => form.test(value);
const isLength = like(/^[+-]?\d{0,5}(\.\d{1,12})?(em|ex|px|%|mu)?$/);
const isName = like(/^[a-z]{0,20}$/);
const isFlag = like(/^(true|false)$/);
const isClass = like(/^[A-Za-z0-9 _-]{0,200}$/);
const isNumbers = like(/^[\d\s.eE-]{1,100}$/);
const isColour = like(/^(#[0-9a-fA-F]{3,8}|[a-zA-Z]{1,30})$/);
const isPath = like(/^[MLHVCSQTAZmlhvcsqtaz\d\s.,eE+-]{1,20000}$/);
const isLink = like(/^(?:(https?:\/\/|mailto:)[^\s\u0000-\u001f]{1,2000}|#cell-\d{1,10}|\.\.\/[^/\\\s\u0000-\u001f]{1,1000}\/)$/i);
const isShort = (/** @type {string} */ value) => value.length <= 4_095;

/** @type {Record<string, Form>} */
const IN_MATHML = {
  mathvariant: like(/^[a-z-]{1,30}$/), stretchy: isFlag, fence: isFlag, separator: isFlag, largeop: isFlag, symmetric: isFlag,
  movablelimits: isFlag,
  accent: isFlag, accentunder: isFlag, displaystyle: isFlag, scriptlevel: like(/^[+-]?\d$/), lspace: isLength, rspace: isLength,
  minsize: isLength, maxsize: isLength, width: isLength, height: isLength, depth: isLength, voffset: isLength, linethickness: isLength,
  columnalign: like(/^[a-z ]{1,4000}$/), rowspacing: like(/^[\d.em ]{1,8000}$/), columnspacing: like(/^[\d.em ]{1,8000}$/),
  columnlines: like(/^[a-z ]{1,200}$/), rowlines: like(/^[a-z ]{1,200}$/), mathcolor: isColour, display: like(/^(block|inline)$/),
  notation: like(/^[a-z ]{1,60}$/), mathsize: isLength, mathbackground: isColour, side: like(/^[a-z]{1,10}$/),
};

/** @type {(namespace: string, names: string, attributes: Record<string, Form>) => [string, {namespace: string, attributes: Record<string, Form>}][]} */
const group = (namespace, names, attributes) => names.split(" ").map((name) => [name, { namespace, attributes }]);

const ALLOWED = new Map([
  ...group(MATHML, "math semantics mrow mi mn mo ms mtext mspace mstyle mpadded mphantom mfrac msqrt mroot msub msup msubsup munder mover munderover "
    + "mmultiscripts mtable mtr mtd mlabeledtr menclose mglyph", IN_MATHML),
  ...group(SVG, "svg", { width: isLength, height: isLength, viewBox: isNumbers, preserveAspectRatio: like(/^[A-Za-z ]{1,30}$/) }),
  ...group(SVG, "path", { d: isPath }),
  ...group(SVG, "line", { x1: isLength, x2: isLength, y1: isLength, y2: isLength, "stroke-width": isLength }),
  ...group("", "span", { class: isClass, "aria-hidden": isFlag, "data-picture": isShort, "data-text": isShort }), // the server looks at a picture
  ...group("", "p h3 h4 h5 h6 em strong s code pre blockquote ul li hr br table thead tbody tr", {}),
  ...group("", "th td", { class: like(/^(left|center|right)$/) }),
  ...group("", "ol", { start: like(/^\d{1,9}$/) }),
  ...group("", "a", { href: isLink, title: (value) => value.length < 500 }),
]);

// Styles that KaTeX gives its boxes.
/** @type {Record<string, Form>} */
const STYLES = {
  height: isLength, width: isLength, minWidth: isLength, top: isLength, bottom: isLength, left: isLength, right: isLength, verticalAlign: isLength,
  marginLeft: isLength, marginRight: isLength, marginTop: isLength, marginBottom: isLength, paddingLeft: isLength, paddingRight: isLength,
  borderBottomWidth: isLength, borderTopWidth: isLength, borderRightWidth: isLength, borderLeftWidth: isLength, borderWidth: isLength,
  borderRightStyle: isName, borderLeftStyle: isName, borderTopStyle: isName, borderBottomStyle: isName, borderStyle: isName,
  borderColor: isColour, color: isColour, backgroundColor: isColour, position: like(/^relative$/), fontSize: isLength,
  textShadow: like(/^0\.02em 0\.01em 0\.04px$/),
};

/** A tree has what may not be in the page. */
export class NotAllowed extends Error {}

/** @type {(node: HTMLElement | SVGElement | MathMLElement, key: string, value: string) => void} */
function setStyle(node, key, value) {
  if (!Object.hasOwn(STYLES, key) || !STYLES[key](value)) throw new NotAllowed(`style ${key}`);
  /** @type {any} */ (node.style)[key] = value;
}

/**
 * An element without its children. A style is an attribute `style.NAME`.
 * @type {(name: string, attributes: Record<string, string>) => HTMLElement | SVGElement | MathMLElement}
 */
function elementOf(name, attributes) {
  const found = ALLOWED.get(name);
  if (!found) throw new NotAllowed(`element ${name}`);
  const node = /** @type {HTMLElement} */ (found.namespace ? document.createElementNS(found.namespace, name) : document.createElement(name));
  for (const [key, value] of Object.entries(attributes)) {
    if (key.startsWith("style.")) setStyle(node, key.slice(6), value);
    else if (Object.hasOwn(found.attributes, key) && found.attributes[key](value)) node.setAttribute(key, value);
    else throw new NotAllowed(`${key} of ${name}`);
  }
  if (name === "a" && !attributes.href?.startsWith("#")) {
    node.setAttribute("rel", "noopener noreferrer");
    node.setAttribute("target", "_blank");
  }
  return node;
}

/**
 * The nodes of trees.
 * @type {(trees: Tree[], isLong?: boolean) => DocumentFragment}
 */
export function nodesOf(trees, isLong = false) {
  let count = 0;
  /** @type {(into: Node, children: Tree[], depth: number) => void} */
  const fill = (into, children, depth) => {
    if (depth > DEEPEST) throw new NotAllowed("too deep");
    for (const child of children) {
      count += 1;
      if (count > (isLong ? MOST_LONG_NODES : MOST_NODES)) throw new NotAllowed("too much");
      if (typeof child === "string") {
        into.appendChild(document.createTextNode(child));
      } else {
        const node = elementOf(child[0], child[1]);
        fill(node, child[2], depth + 1);
        into.appendChild(node);
      }
    }
  };
  const all = document.createDocumentFragment();
  fill(all, trees, 0);
  return all;
}
