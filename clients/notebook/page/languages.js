// The languages of cells: which one a session has by its words, and the tokens of a text. A token is a comment, a string, a number, a keyword, the name of
// a function that is called, a bracket, or of prose a heading, code, a formula and the like; all else is no token.

/** @typedef {{kind: string, start: number, end: number}} Token */
/** @typedef {{form: RegExp, keywords: Set<string>, comment: string, opens: RegExp}} Language */

const NUMBER = String.raw`(?<number>(?<![\w.])(?:0[xX][\da-fA-F]+|0[bB][01]+|\d[\d_]*(?:\.(?!\.)\d*)?(?:[eE][+-]?\d+)?|\.\d+(?:[eE][+-]?\d+)?)[jilL]?)`;
const NAME = String.raw`(?<name>[A-Za-z_%$][\w.]*)`;
const BRACKET = String.raw`(?<bracket>[()[\]{}])`;
const DOUBLE = String.raw`"(?:[^"\\]|\\[^])*"?`;

/**
 * A language by the forms of its comments and strings. `comment` is what makes a comment of a line, and after `opens` the next line stands deeper.
 * @type {(comments: string, strings: string, keywords: string, comment: string, opens?: RegExp, name?: string) => Language}
 */
function language(comments, strings, keywords, comment, opens = /[([{]\s*$/, name = NAME) {
  const form = new RegExp([`(?<comment>${comments})`, `(?<string>${strings})`, NUMBER, name, BRACKET].join("|"), "g");
  return { form, keywords: new Set(keywords.split(" ")), comment, opens };
}

/** @type {Record<string, Language>} */
const LANGUAGES = {
  gp: language(String.raw`\\\\[^\n]*|\/\*[^]*?(?:\*\/|$)`, DOUBLE,
    "if for while until return break next my local forprime fordiv forstep forvec forsubgroup forell forpart iferr error print print1 global", "\\\\ ",
    /[([{]\s*$/, String.raw`(?<name>[A-Za-z]\w*)`),
  python: language("#[^\\n]*", String.raw`(?<!\w)[rRbBfFuU]{0,2}(?:"""[^]*?(?:"""|$)|'''[^]*?(?:'''|$)|"(?:[^"\\\n]|\\[^])*"?|'(?:[^'\\\n]|\\[^])*'?)`,
    "False None True and as assert async await break class continue def del elif else except finally for from global if import in is lambda nonlocal not or pass "
    + "raise return try while with yield match case", "# ", /[([{:]\s*(?:#.*)?$/, String.raw`(?<name>@?[^\W\d]\w*)`),
  maxima: language(String.raw`\/\*[^]*?(?:\*\/|$)`, DOUBLE,
    "if then else elseif for thru do while unless from step in next and or not block lambda return true false go", "/* ", /(?:[([{,]|\b(?:do|then|else))\s*$/),
  r: language("#[^\\n]*", String.raw`${DOUBLE}|'(?:[^'\\]|\\[^])*'?|${"`[^`\\n]*`?"}`,
    "if else repeat while function for next break in TRUE FALSE NULL Inf NaN NA NA_integer_ NA_real_ NA_character_ library", "# "),
  octave: language(String.raw`%\{[^]*?(?:%\}|$)|[%#][^\n]*`, String.raw`"(?:[^"\\\n]|\\[^])*"?|(?<![\w)\]}'.])'(?:[^'\n]|'')*'?`,
    "if else elseif end endif for endfor while endwhile do until switch case otherwise endswitch function endfunction return break continue try catch "
    + "end_try_catch unwind_protect unwind_protect_cleanup end_unwind_protect global persistent", "% ",
    /^\s*(?:if|else|elseif|for|while|do|switch|case|otherwise|function|try|catch|unwind_protect)\b(?!.*\bend)[^;]*$|[([{]\s*$/),
  lua: language(String.raw`--\[\[[^]*?(?:\]\]|$)|--[^\n]*`, String.raw`${DOUBLE}|'(?:[^'\\\n]|\\[^])*'?|\[\[[^]*?(?:\]\]|$)`,
    "and break do else elseif end false for function goto if in local nil not or repeat return then true until while", "-- ",
    /(?:[([{]|\b(?:do|then|else|repeat)|\bfunction\b[^()]*\([^()]*\))\s*$/),
  javascript: language(String.raw`\/\/[^\n]*|\/\*[^]*?(?:\*\/|$)`, String.raw`${DOUBLE}|'(?:[^'\\\n]|\\[^])*'?|${"`(?:[^`\\\\]|\\\\[^])*`?"}`,
    "async await break case catch class const continue default delete do else extends false finally for function if in instanceof let new null of return super switch this "
    + "throw true try typeof undefined var void while with yield", "// "),
  sql: language(String.raw`--[^\n]*|\/\*[^]*?(?:\*\/|$)`, String.raw`'[^']*'?|"[^"]*"?`,
    ["select from where group by having order limit insert into values update set delete create table index view trigger drop alter join left inner outer on as and or not "
    + "null is in like between case when then else end union all distinct primary key with begin commit rollback"].flatMap((words) => [words, words.toUpperCase()]).join(" "), "-- "),
  lisp: language(String.raw`;[^\n]*|#\|[^]*?(?:\|#|$)`, DOUBLE, "define lambda let if cond else begin do quote and or not defun defmacro setq", "; "),
  plain: language("(?!)", String.raw`"(?:[^"\\\n]|\\[^])*"`, "", "# "),
};
const PROSE = new RegExp([
  "(?<heading>^#{1,6} [^\\n]*)", "(?<code>^```[^]*?(?:^```|$(?![^])))|(?<inline>`[^`\\n]+`)", "(?<formula>\\$\\$[^$]+\\$\\$|\\$(?!\\s)[^$\\n]+\\$)",
  "(?<mark>^[ \\t]*(?:[-*+]|\\d+[.)])(?= )|^>+)", "(?<strong>\\*\\*[^*\\n]+\\*\\*|__[^_\\n]+__)", "(?<emphasis>(?<![\\w*])\\*[^*\\s][^*\\n]*\\*|(?<![\\w_])_[^_\\s][^_\\n]*_)",
  "(?<link>\\[[^\\]\\n]*\\]\\([^)\\n]*\\))",
].join("|"), "gm");

const NAMES = [
  [/^(?:gp|raw_gp|pari_jupyter)$/, "gp"], [/^(?:python3?|ipython3?|sagemath|sage)$/, "python"], [/^maxima$/, "maxima"], [/^(?:R|r|ir)$/, "r"], [/^octave$/, "octave"],
  [/^lua[\d.]*$/, "lua"], [/^node$/, "javascript"], [/^sqlite3$/, "sql"], [/^(?:guile|sbcl)$/, "lisp"],
];

/**
 * The name of the language of a session, by the words that start it: those of an adapter, of its command, or of an interpreter.
 * @type {(words: string) => string}
 */
export function languageOf(words) {
  const names = words.split(" ").filter((word) => !word.startsWith("-")).map((word) => word.replace(/^.*\//, "").replace(/^tmhost-/, "").replace(/\.py$/, ""));
  const own = names.length > 1 && /^(?:env|python[\d.]*)$/.test(names[0]) ? names.slice(1) : names; // what starts a script isn't its language
  const found = own.flatMap((name) => NAMES.filter(([form]) => /** @type {RegExp} */ (form).test(name)));
  return String(found[0]?.[1] ?? "plain");
}

/** @type {(name: string) => Language} */
export const languageNamed = (name) => LANGUAGES[name] ?? LANGUAGES.plain;

/**
 * The tokens of a text, in their order.
 * @type {(name: string, text: string) => Token[]}
 */
export function tokensOf(name, text) {
  const { form, keywords } = name === "prose" ? { form: PROSE, keywords: new Set() } : languageNamed(name);
  const tokens = [];
  for (const found of text.matchAll(form)) {
    const kind = kindOf(found, keywords);
    if (kind !== undefined && found[0]) tokens.push({ kind, start: found.index ?? 0, end: (found.index ?? 0) + found[0].length });
  }
  return tokens;
}

/** @type {(found: RegExpMatchArray, keywords: Set<string>) => string | undefined} */
function kindOf(found, keywords) {
  const [kind, part] = Object.entries(found.groups ?? {}).find(([, one]) => one !== undefined) ?? [];
  if (kind !== "name" || part === undefined) return kind === "inline" ? "code" : kind;
  if (keywords.has(part)) return "keyword";
  return part.startsWith("@") ? "keyword" : isCalled(found) ? "call" : undefined;
}

/** @type {(found: RegExpMatchArray) => boolean} */
const isCalled = (found) => /^\s*\(/.test((found.input ?? "").slice((found.index ?? 0) + found[0].length, (found.index ?? 0) + found[0].length + 8));

const PAIRS = { "(": ")", "[": "]", "{": "}" };

/**
 * The bracket beside a cursor and the one that belongs to it, by their places; one alone where it has none.
 * @type {(text: string, tokens: Token[], cursor: number) => number[]}
 */
export function bracketsAt(text, tokens, cursor) {
  const places = tokens.filter(({ kind }) => kind === "bracket").map(({ start }) => start);
  const at = [cursor - 1, cursor].find((place) => places.includes(place));
  if (at === undefined) return [];
  const isOpen = Object.hasOwn(PAIRS, text[at]);
  const row = isOpen ? places.filter((place) => place >= at) : places.filter((place) => place <= at).reverse();
  /** @type {string[]} */
  const open = [];
  for (const place of row) {
    if (Object.hasOwn(PAIRS, text[place]) === isOpen) {
      open.push(text[place]);
    } else {
      const last = open.pop() ?? "";
      const isPair = isOpen ? PAIRS[/** @type {keyof typeof PAIRS} */ (last)] === text[place] : PAIRS[/** @type {keyof typeof PAIRS} */ (text[place])] === last;
      if (!isPair) return [at];
      if (open.length === 0) return [at, place];
    }
  }
  return [at];
}
