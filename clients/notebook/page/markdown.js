// Reads prose: Markdown with formulas between dollars, as trees of elements. clients/typeset reads with this, too, so it needs no page.

/** @typedef {import("./types").Tree} Tree */

/**
 * What becomes of a formula: its TeX, and whether it stands between two dollars on each side. Where it throws, the formula stays as it is written.
 * @typedef {(tex: string, isDisplay: boolean) => Tree[]} Formula
 */

/**
 * What becomes of addresses: that of a link, null where there is to be none; and a picture with what stands for it.
 * @typedef {{link: (address: string) => string | null, picture: (address: string, text: string) => Tree}} Addresses
 */

const LOWEST = 6; // heading of HTML

const FORMULAS = [
  /^(\$\$)((?:[^$\\]|\\[^])+?)\$\$/, // as in notebooks: also on lines of its own
  /^(\$)(?!\s)((?:[^$\\]|\\[^])+?)(?<!\s)\$(?!\d)/, // no blank within beside the dollars, and no digit after
];
const WHOLE = /^\$\$((?:[^$\\]|\\[^])+)\$\$$/;
const LONGEST_FORMULA = 2_000; // characters
const CODE = 4; // columns in front of it

/**
 * A formula between dollars.
 * @type {(state: any, silent: boolean) => boolean}
 */
function dollars(state, silent) {
  if (state.src[state.pos] !== "$") return false;
  const text = state.src.slice(state.pos, state.pos + LONGEST_FORMULA);
  const found = FORMULAS.map((form) => form.exec(text)).find(Boolean);
  if (!found) return false;
  if (!silent) Object.assign(state.push("tex", "", 0), { content: found[2], markup: found[1] });
  state.pos += found[0].length;
  return true;
}

/**
 * The formula that begins in a line with two dollars, and the line after it. No line of it is a list or a heading, whatever it begins with.
 * @type {(state: any, start: number, end: number) => {content: string, line: number} | null}
 */
function displayed(state, start, end) {
  for (let line = start; line < end && !state.isEmpty(line) && state.sCount[line] >= state.blkIndent; line += 1) {
    const text = state.getLines(start, line + 1, state.blkIndent, false).trim();
    if (text.length > LONGEST_FORMULA) return null;
    const found = WHOLE.exec(text);
    if (found) return { content: found[1], line: line + 1 };
    if (text.includes("$$", 2)) return null;
  }
  return null;
}

/** @type {(state: any, start: number, end: number, silent: boolean) => boolean} */
function doubleDollars(state, start, end, silent) {
  const isCode = state.sCount[start] - state.blkIndent >= CODE;
  if (isCode || !state.src.startsWith("$$", state.bMarks[start] + state.tShift[start])) return false;
  const found = displayed(state, start, end);
  if (!found) return false;
  if (!silent) {
    state.line = found.line;
    Object.assign(state.push("tex", "", 0), { content: found.content, markup: "$$", block: true, map: [start, found.line] });
  }
  return true;
}

/** @type {(address: string) => string | null} */
export const linkElsewhere = (address) => (/^(https?:\/\/|mailto:)/i.test(address) ? address : null);

/** @type {Addresses} */
const ELSEWHERE_ALONE = { link: linkElsewhere, picture: (_, text) => `[${text}]` };

/** @type {(token: any, addresses: Addresses) => Record<string, string>} */
function kept(token, addresses) {
  const given = Object.fromEntries(token.attrs ?? []);
  if (token.tag === "a") {
    const href = addresses.link(given.href);
    return href === null ? {} : { href };
  }
  if (token.tag === "ol" && given.start) return { start: String(given.start) };
  const side = /^text-align:(left|center|right)$/.exec(given.style ?? "");
  return side ? { class: side[1] } : {};
}

/**
 * What reads Markdown by markdown-it, whose function this is. Its headings begin `down` levels below the first one, which the page itself has.
 * @type {(markdownit: any, down: number, formula: Formula, addresses?: Addresses) => (text: string) => Tree[]}
 */
export function readerOf(markdownit, down, formula, addresses = ELSEWHERE_ALONE) {
  const parser = markdownit({ html: false, linkify: false, typographer: false });
  parser.inline.ruler.before("escape", "dollars", dollars);
  parser.block.ruler.before("fence", "dollars", doubleDollars, { alt: ["paragraph", "blockquote", "list"] });

  /** @type {(tag: string) => string} */
  const nameOf = (tag) => tag.replace(/^h([1-6])$/, (_, level) => `h${Math.min(LOWEST, Number(level) + down)}`);

  /** @type {(token: any) => Tree[]} */
  const mathIn = (token) => {
    try {
      return formula(token.content, token.markup === "$$");
    } catch {
      return [token.markup + token.content + token.markup];
    }
  };

  /**
   * A token that opens nothing.
   * @type {(token: any) => Tree[]}
   */
  const leaf = (token) => {
    switch (token.type) {
      case "inline": return nested(token.children);
      case "fence": case "code_block": return [["pre", {}, [["code", {}, [token.content]]]]];
      case "code_inline": return [["code", {}, [token.content]]];
      case "softbreak": return ["\n"];
      case "hardbreak": case "hr": return [[token.tag, {}, []]];
      case "image": return [addresses.picture(String(Object.fromEntries(token.attrs).src), token.content)];
      case "tex": return token.block ? [["p", {}, mathIn(token)]] : mathIn(token);
      default: return [token.content];
    }
  };

  /** @type {(tokens: any[]) => Tree[]} */
  const nested = (tokens) => {
    /** @type {Tree[][]} */
    const open = [[]];
    for (const token of tokens) {
      const into = open[open.length - 1];
      if (token.nesting === 1 && !token.hidden) {
        /** @type {Tree[]} */
        const within = [];
        into.push([nameOf(token.tag), kept(token, addresses), within]);
        open.push(within);
      } else if (token.nesting === -1 && !token.hidden) {
        open.pop();
      } else if (token.nesting === 0) {
        into.push(...leaf(token));
      }
    }
    return open[0];
  };

  return (text) => nested(parser.parse(text, {}));
}
