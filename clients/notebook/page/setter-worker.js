// Sets formulas and Markdown, away from the page: what takes too long is ended without the page standing still. It tells trees, of which the
// page makes nodes by its own list.

import { LONG, partsOf, piecesOf, wordsOfKatex } from "./latex.js";
import { linkElsewhere, readerOf } from "./markdown.js";

/** @typedef {import("./types").Tree} Tree */
/** @typedef {{number: number, kind: "tex" | "markdown", text: string}} Job */

const OPTIONS = { throwOnError: true, trust: false, strict: "ignore", maxSize: 20, maxExpand: 20_000 }; // of its own words: `\\,` takes several
const LONGEST_PROSE = 100_000;
const PIECE = 1_000; // characters of a long formula that are set at once
const HEADINGS_DOWN = 2; // the page has a heading, and each of its cells

// Both are scripts that put themselves onto `self`; where they aren't installed the server gives empty ones.
const here = /** @type {any} */ (self);
const libraries = Promise.allSettled([import(/** @type {any} */ ("./katex/katex.min.js")), import(/** @type {any} */ ("./markdown-it.js"))]);

/** @type {(style: Record<string, unknown> | undefined) => Record<string, string>} */
function stylesOf(style) {
  const set = Object.entries(style ?? {}).filter(([, value]) => value !== undefined && value !== "");
  return Object.fromEntries(set.map(([key, value]) => [`style.${key}`, String(value)]));
}

/** @type {(classes: string[] | undefined) => Record<string, string>} */
function classOf(classes) {
  const names = (classes ?? []).filter(Boolean).join(" ");
  return names ? { class: names } : {};
}

/** @type {(attributes: Record<string, unknown> | undefined) => Record<string, string>} */
function attributesOf(attributes) {
  const kept = Object.entries(attributes ?? {}).filter(([key]) => !["style", "xmlns", "encoding"].includes(key));
  return Object.fromEntries(kept.map(([key, value]) => [key, String(value)]));
}

/** @type {(node: any) => Tree[]} */
const childrenOf = (node) => (node.children ?? []).flatMap(treesOf);

/**
 * The trees of one of KaTeX's nodes, whose kind is known by its members.
 * @type {(node: any) => Tree[]}
 */
function treesOf(node) {
  if ("pathName" in node) return [["path", { d: / d=['"]([^'"]*)['"]/.exec(node.toMarkup())?.[1] ?? "" }, []]];
  if ("skew" in node) return [symbolOf(node)];
  if ("type" in node) return node.type === "annotation" ? [] : [mathOf(node)];
  if ("text" in node) return [node.text];
  if ("character" in node) return [node.character ?? ["mspace", { width: `${node.width}em` }, []]];
  if (!("attributes" in node)) return childrenOf(node);
  if (!("children" in node)) return [["line", attributesOf(node.attributes), []]];
  if (!("classes" in node)) return [["svg", attributesOf(node.attributes), childrenOf(node)]];
  return [["span", { ...classOf(node.classes), ...attributesOf(node.attributes), ...stylesOf(node.style) }, childrenOf(node)]];
}

/** @type {(node: any) => Tree} */
const mathOf = (node) => [node.type, attributesOf(node.attributes), childrenOf(node)];

/** @type {(node: any) => Tree} */
function symbolOf(node) {
  /** @type {Record<string, string>} */
  const slant = node.italic > 0 ? { "style.marginRight": `${Math.round(node.italic * 1e4) / 1e4}em` } : {};
  return ["span", { ...classOf(node.classes), ...stylesOf(node.style), ...slant }, [node.text]];
}

/**
 * Of a long formula each piece is set without what is for readers of screens, which would double it: the page says its source there.
 * @type {(tex: string, displayMode: boolean) => Tree[]}
 */
function formula(tex, displayMode) {
  const words = wordsOfKatex(tex), pieces = words === null ? null : piecesOf(words, displayMode, PIECE);
  if (words === null || !pieces || !here.katex) throw new Error("it can't be set");
  const isLong = words.length > LONG;
  const options = { ...OPTIONS, displayMode: displayMode && !isLong, output: isLong ? "html" : "htmlAndMathml" };
  return pieces.flatMap((piece) => {
    const macros = { "\\pmatrix": "\\begin{pmatrix}#1\\end{pmatrix}" }; // as gp writes it; again each time, since KaTeX may change it
    return treesOf(here.katex.__renderToDomTree(piece, { ...options, macros }));
  });
}

/** @type {(text: string) => Tree[] | null} */
function block(text) {
  const parts = partsOf(text);
  if (!parts) return null;
  const isAlone = parts.length === 1;
  return parts.flatMap((part) => (part.kind === "words" ? [part.text] : formula(part.tex, part.display || isAlone)));
}

// ---- Markdown

const OF_FOLDER = /\/sheet\/[^/]+\/[^/]*$/.test(self.location.pathname); // other worksheets have their pages beside this one
const LONGEST_ADDRESS = 4_095;

/**
 * A link may also lead to a cell of the page, and to another worksheet of the folder.
 * @type {(address: string) => string | null}
 */
function link(address) {
  if (/^#cell-\d{1,10}$/.test(address)) return address;
  return OF_FOLDER && /^[^/\\:?#.][^/\\:?#]{0,300}$/.test(address) ? `../${address}/` : linkElsewhere(address);
}

/**
 * The page asks for a picture of the worksheet's folder, or with all of its bytes in its address. One elsewhere is a link, so nothing is loaded until that
 * is pressed.
 * @type {(address: string, text: string) => Tree}
 */
function picture(address, text) {
  if (/^https?:\/\/[^\s]{1,2000}$/i.test(address)) return ["a", { href: address }, [`[${text || "a picture"}, elsewhere]`]];
  const isHere = /^data:image\//i.test(address) || !/^(?:[a-z][a-z\d+.-]*:|[/\\])/i.test(address);
  return isHere && address.length <= LONGEST_ADDRESS ? ["span", { "data-picture": address, "data-text": text }, [`[${text}]`]] : `[${text}]`;
}

/** @type {((text: string) => Tree[]) | undefined} */
let reader;

/** @type {(text: string) => Tree[] | null} */
function markdown(text) {
  if (!here.markdownit || text.length > LONGEST_PROSE) return null;
  reader ??= readerOf(here.markdownit, HEADINGS_DOWN, formula, { link, picture });
  return reader(text);
}

/** @type {(job: Job) => Tree[] | null} */
function setOf(job) {
  try {
    return job.kind === "tex" ? block(job.text) : markdown(job.text);
  } catch {
    return null;
  }
}

self.addEventListener("message", async ({ data }) => {
  await libraries;
  postMessage({ number: data.number, trees: setOf(data) });
});
libraries.then(() => postMessage({ number: 0, trees: null }));
