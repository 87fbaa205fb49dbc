// What a block `latex` says, read as LaTeX reads it: words, and formulas between dollars and their like. clients/typeset reads by this file, too.

/**
 * @typedef {{kind: "words", text: string} | {kind: "formula", tex: string, display: boolean}} Part
 * @typedef {{parts: Part[]} | {reason: string}} Block what is in it, or why it is no text with formulas
 */

const ENVIRONMENTS = ["equation", "equation*", "align", "align*", "alignat", "alignat*", "gather", "gather*"];

/** @type {{begin: string, end: string, display: boolean, keep: boolean}[]} */
const DELIMITERS = [
  { begin: "$$", end: "$$", display: true, keep: false },
  { begin: "$", end: "$", display: false, keep: false },
  { begin: "\\[", end: "\\]", display: true, keep: false },
  { begin: "\\(", end: "\\)", display: false, keep: false },
  ...ENVIRONMENTS.map((name) => ({ begin: `\\begin{${name}}`, end: `\\end{${name}}`, display: true, keep: true })),
];

// Words: what has no meaning of its own in LaTeX, such characters after a backslash, and the colours that gp's own mode begins with.
const WORDS = /(?:[^\\{}$~^_&#%]|\\[%$#&_{}]|\\(?:magenta|blue)(?![A-Za-z])\s*)+/y;

// What no text of a formula needs, and what would be unseen or turn the direction of others: control and format characters (but
// tabs and line feeds), those that are drawn as nothing, unassigned and private ones, halves of pairs.
const UNSEEN = /[^\P{Cc}\t\n]|[\p{Cf}\p{Cn}\p{Co}\p{Cs}\p{Zl}\p{Zp}\p{Default_Ignorable_Code_Point}]/u;

// Maxima writes a matrix so that TeX and LaTeX take it.
const MAXIMA = [
  ["\\ifx\\endpmatrix\\undefined\\pmatrix{\\else\\begin{pmatrix}\\fi", "\\begin{pmatrix}"],
  ["\\ifx\\endpmatrix\\undefined}\\else\\end{pmatrix}\\fi", "\\end{pmatrix}"],
];

// Words of interpreters that KaTeX doesn't know: of gp its colours and the sign where a product may be broken, of Maxima its boxes.
const KNOWN_AS = new Map([["blue", ""], ["magenta", ""], ["*", "\\,"], ["mbox", "\\text"]]);

// A formula that defines words can grow without end, and no interpreter has need of it.
const DEFINING = new Set([
  "def", "gdef", "edef", "xdef", "let", "futurelet", "global", "long", "newcommand", "renewcommand", "providecommand",
]);

const WORD = /\\([A-Za-z]+|[^]?)/g;

/** @type {(text: string) => boolean} */
export function isSeen(text) {
  return !UNSEEN.test(text);
}

/**
 * Where the end of a formula stands: outside of braces, and not after a backslash. -1 if nowhere.
 * @type {(text: string, from: number, end: string) => number}
 */
function endOf(text, from, end) {
  let depth = 0;
  for (let at = from; at < text.length; at += 1) {
    if (depth === 0 && text.startsWith(end, at)) return at;
    const character = text[at];
    if (character === "\\") at += 1;
    else if (character === "{") depth += 1;
    else if (character === "}") depth -= 1;
  }
  return -1;
}

/**
 * The formula that begins at a place, and where it ends.
 * @type {(text: string, at: number) => {part: Part, end: number} | null}
 */
function formulaAt(text, at) {
  const found = DELIMITERS.find(({ begin }) => text.startsWith(begin, at));
  if (!found) return null;
  const from = at + found.begin.length;
  const to = endOf(text, from, found.end);
  if (to < 0) return null;
  const end = to + found.end.length;
  const tex = found.keep ? text.slice(at, end) : text.slice(from, to);
  return { part: { kind: "formula", tex, display: found.display }, end };
}

/**
 * The words that begin at a place, and where they end.
 * @type {(text: string, at: number) => {part: Part, end: number} | null}
 */
function wordsAt(text, at) {
  WORDS.lastIndex = at;
  const found = WORDS.exec(text);
  if (!found) return null;
  const words = found[0].replace(/\\(?:([%$#&_{}])|[a-z]+\s*)/g, (_, character) => character ?? "");
  return { part: { kind: "words", text: words }, end: at + found[0].length };
}

/**
 * The words and formulas of a block.
 * @type {(text: string) => Block}
 */
export function blockOf(text) {
  if (!isSeen(text)) return { reason: "a character that is not seen" };
  /** @type {Part[]} */
  const parts = [];
  let at = 0;
  while (at < text.length) {
    const found = formulaAt(text, at) ?? wordsAt(text, at);
    if (!found) return { reason: `what stands at character ${at + 1} is no word, or a formula without its end` };
    parts.push(found.part);
    at = found.end;
  }
  return parts.some(({ kind }) => kind === "formula") ? { parts } : { reason: "no formula between dollars" };
}

/**
 * The words and formulas of a block; null where it is no text with formulas.
 * @type {(text: string) => Part[] | null}
 */
export function partsOf(text) {
  const block = blockOf(text);
  return "parts" in block ? block.parts : null;
}

/**
 * A formula in words that KaTeX knows; null where it defines words.
 * @type {(tex: string) => string | null}
 */
export function wordsOfKatex(tex) {
  const plain = MAXIMA.reduce((now, [from, to]) => now.replaceAll(from, to), tex);
  const words = plain.matchAll(WORD);
  if ([...words].some(([, name]) => DEFINING.has(name))) return null;
  return plain.replace(WORD, (word, name) => KNOWN_AS.get(name) ?? word);
}

// ---- long sums

export const LONG = 5_000; // characters of a formula that is set in one piece

const TOKEN = /\\(?:[A-Za-z]+|[^]?)|[^]/gu;
const BLANK = new Set([" ", "\t", "\n", "~", "\\,", "\\:", "\\;", "\\>", "\\!", "\\ ", "\\quad", "\\qquad"]);
const OPENING = new Set(["(", "[", "\\{"]);
const CLOSING = new Set([")", "]", "\\}"]);

// A sign after one of these is that of a number.
const OPERATORS = new Set([..."=<>*/,:;", ...("cdot times div pm mp ast star circ bullet wedge vee cap cup oplus otimes le leq ge geq ne neq lt gt in ni notin subset supset to "
  + "rightarrow leftarrow Rightarrow mapsto equiv sim simeq approx cong propto mid ll gg sum prod int oint lim max min sup inf det gcd sin cos tan cot sec csc sinh cosh tanh coth "
  + "arcsin arccos arctan exp log ln lg arg deg dim hom ker Pr kern mkern hskip mskip limits nolimits not").split(" ").map((name) => `\\${name}`)]);

// These are about all that stands before or after them.
const OF_THE_WHOLE = new Set(["&", "\\\\", ...("over atop above choose brace brack color tag label verb char cr newline rm bf it sf tt cal mit textstyle scriptstyle scriptscriptstyle tiny small "
  + "normalsize large Large LARGE huge Huge").split(" ").map((name) => `\\${name}`)]);

/** @type {[string, string][]} */
const PAIRS = [["{", "}"], ["\\left", "\\right"], ["\\begin", "\\end"]];
const ENDS = new Map(PAIRS);
const BEGINS = new Map(PAIRS.map(([begin, end]) => [end, begin]));

/**
 * The places after the signs between terms, outside of braces, fences and environments, and in how many brackets each is. null where one of those has
 * no end, or no beginning, and where a word is about the whole.
 * @type {(tex: string) => {at: number, brackets: number}[] | null}
 */
function signsOf(tex) {
  /** @type {{at: number, brackets: number}[]} */
  const signs = [];
  /** @type {string[]} */
  const open = [];
  let brackets = 0, isAfterTerm = false, isScript = false, isFence = false;
  for (const { 0: token, index } of tex.matchAll(TOKEN)) {
    if (BLANK.has(token)) continue;
    if (token === "%" || (open.length === 0 && OF_THE_WHOLE.has(token))) return null;
    const begin = BEGINS.get(token);
    /** @type {boolean} */
    const isTaken = isFence || isScript;
    if (!isFence && begin !== undefined && open.pop() !== begin) return null;
    if (!isFence && ENDS.has(token)) open.push(token);
    if (open.length === 0 && !isTaken) {
      if (OPENING.has(token)) brackets += 1;
      else if (CLOSING.has(token)) brackets = Math.max(0, brackets - 1);
      else if ((token === "+" || token === "-") && isAfterTerm) signs.push({ at: (index ?? 0) + 1, brackets });
    }
    isFence = token === "\\left" || token === "\\right" || token === "\\middle";
    isScript = !isTaken && (token === "^" || token === "_");
    isAfterTerm = isTaken || !(isScript || token === "+" || token === "-" || OPENING.has(token) || OPERATORS.has(token) || ENDS.has(token));
  }
  return open.length === 0 ? signs : null;
}

/**
 * A formula in pieces that are set one after the other, each but the last with the sign at its end: so a line ends where it would end anyway, between
 * two terms. A piece ends at the first sign after so many characters, `least`. One piece where it is no long formula; null where there is no sign for that.
 * @type {(tex: string, isDisplay: boolean, least: number) => string[] | null}
 */
export function piecesOf(tex, isDisplay, least) {
  if (tex.length <= LONG) return [tex];
  const rest = tex.replace(/^(?:\s|\\displaystyle(?![A-Za-z]))+/, "");
  const signs = signsOf(rest), front = isDisplay || rest.length < tex.trimStart().length ? "\\displaystyle " : "";
  if (!signs) return null;
  /** @type {string[]} */
  const pieces = [];
  let start = 0, last = 0;
  const end = (/** @type {number} */ at) => {
    pieces.push(`${front}${rest.slice(start, at)}${at < rest.length ? "{}" : ""}`);
    start = at;
  };
  for (const { at, brackets } of [...signs, { at: rest.length, brackets: 0 }]) {
    if (at - start > LONG && last > start) end(last); // within the brackets of a long term
    if (at - start > LONG) return null;
    if (at === rest.length || (brackets === 0 && at - start >= least)) end(at);
    last = at;
  }
  return pieces;
}
