"use strict";
// The command: its words, its streams, its status.

const fs = require("node:fs");
const path = require("node:path");
const { parseArgs } = require("node:util");
const { typeset } = require("./typeset.js");
const { NotStarted } = require("./setter.js");

const HELP = `usage: tmhost-typeset [OPTIONS] [PAGE]

Reads a page that \`tmhost export html\` wrote, from PAGE or from standard input, and writes it with its formulas set as MathML
and its prose as what Markdown says. What can't be set stays as its TeX, and all else as it is.

  --title TEXT        the page's title, in place of the worksheet's name
  --prose NAME        the fields of session NAME that have no answer are prose (prose, and prose-2 and so on); may stand more than once
  --no-prose          no field is
  --report            say of each formula and each field of prose that stays as it is why it does, on standard error
  --seconds N         set what can be set within N seconds (60)
  --katex FILE        KaTeX itself (katex.js of Debian's package katex)
  --markdown-it FILE  markdown-it itself (markdown-it.js of Debian's package libjs-markdown-it)
  --help              show this

status: 0, also where formulas stay as their TeX; 1 where something can't be read, written or started; 2 where these words are refused.
Where KaTeX or markdown-it can't be started the page is written all the same, as it was.
`;
const USAGE = HELP.split("\n")[0];
const KATEX = ["/usr/share/nodejs/katex/dist/katex.js", "/usr/share/javascript/katex/katex.js"];
const MARKDOWN = ["/usr/share/javascript/markdown-it/markdown-it.js", "/usr/share/nodejs/markdown-it/dist/markdown-it.js"];
const LEAST = 10_000; // bytes of a library; a shorter file only names another, which isn't there, as Debian 12's node-markdown-it has it
const PROSE = /^prose(-\d{1,6})?$/; // as tmhost-notebook and tmhost-import name its sessions
const SECONDS = "60";
const SHOWN = 60; // characters of a formula in a report

const TITLES = [/(<title>)[^<]*(<\/title>)/, /(<h1 dir="ltr">)[^<]*(<\/h1>)/]; // where a page has its title, in which no text has a mark
/** @type {Record<string, string>} */
const REFERENCES = { "&": "&amp;", "<": "&lt;", ">": "&gt;", '"': "&quot;", "'": "&#39;" };

/** @typedef {{report: boolean, help: boolean, seconds: number, means: import("./typeset.js").Means, page: string | null, title: string | null}} Words */

/** The command ends with a status, and says why. */
class Fault extends Error {
  /**
   * @param {number} status
   * @param {string} message
   */
  constructor(status, message) {
    super(message);
    this.status = status;
  }
}

/** @type {(words: string[]) => Words} */
function readWords(words) {
  /** @type {import("node:util").ParseArgsConfig["options"]} */
  const options = {
    report: { type: "boolean" }, help: { type: "boolean" }, seconds: { type: "string" }, katex: { type: "string" }, title: { type: "string" },
    "markdown-it": { type: "string" }, prose: { type: "string", multiple: true }, "no-prose": { type: "boolean" },
  };
  let read;
  try {
    read = parseArgs({ args: words, options, allowPositionals: true });
  } catch (error) {
    throw new Fault(2, error instanceof Error ? error.message : "words that are refused");
  }
  const { values, positionals } = read;
  const { report, help, seconds = SECONDS, title = null } = /** @type {Record<string, any>} */ (values);
  if (title !== null && /[\0-\x1f\x7f]/.test(title)) throw new Fault(2, "a title with a control character");
  if (!/^[0-9]{1,6}$/.test(seconds)) throw new Fault(2, `no number of seconds: ${seconds}`);
  if (positionals.length > 1) throw new Fault(2, "more than one page");
  return { report: report === true, help: help === true, seconds: Number(seconds), means: meansOf(values), page: positionals[0] ?? null, title };
}

/** @type {(values: Record<string, any>) => import("./typeset.js").Means} */
function meansOf({ katex, "markdown-it": markdown, prose, "no-prose": isNone }) {
  if (prose && isNone) throw new Fault(2, "--prose and --no-prose");
  /** @type {(session: string) => boolean} */
  const isProse = (session) => !isNone && (prose ? prose.includes(session) : PROSE.test(session));
  return { katex: fileOf(katex, KATEX), markdown: fileOf(markdown, MARKDOWN), isProse };
}

/**
 * The file that is given, or the first that is there of these.
 * @type {(given: string | undefined, files: string[]) => string}
 */
function fileOf(given, files) {
  return path.resolve(given ?? files.find((name) => fs.existsSync(name) && fs.statSync(name).size >= LEAST) ?? files[0]);
}

/** @type {(file: string | null) => Promise<Buffer>} */
async function readPage(file) {
  try {
    const pieces = [];
    for await (const piece of file === null ? process.stdin : fs.createReadStream(file)) pieces.push(piece);
    return Buffer.concat(pieces);
  } catch (error) {
    throw new Fault(1, `the page can't be read: ${error instanceof Error ? error.message : ""}`);
  }
}

/** @type {(bytes: Buffer | string) => Promise<void>} */
function write(bytes) {
  return new Promise((resolve, reject) => {
    process.stdout.once("error", () => {}); // the call below gets it
    process.stdout.write(bytes, (error) => (error ? reject(new Fault(1, `the page can't be written: ${error.message}`)) : resolve()));
  });
}

/**
 * A text of an interpreter on one line that a terminal may show.
 * @type {(text: string) => string}
 */
function shown(text) {
  const short = text.length > SHOWN ? `${text.slice(0, SHOWN)}..` : text;
  return JSON.stringify(short).replace(/[^ -~]/gu, (character) => `\\u{${(character.codePointAt(0) ?? 0).toString(16)}}`);
}

/**
 * What stays as it is, and of how many.
 * @type {(left: import("./typeset.js").Left[], of: {formulas: number, prose: number}, report: boolean) => void}
 */
function tell(left, { formulas, prose }, report) {
  const lines = report ? left.map(({ kind, text, reason }) => `left ${kind === "prose" ? "prose " : ""}${shown(text)}: ${shown(reason)}\n`) : [];
  const [tex, code] = ["formula", "prose"].map((kind) => left.filter((one) => one.kind === kind).length);
  if (tex > 0) lines.push(`tmhost-typeset: ${tex} of ${formulas} formulas stay as their TeX\n`);
  if (code > 0) lines.push(`tmhost-typeset: ${code} of ${prose} fields of prose stay as they are\n`);
  process.stderr.write(lines.join(""));
}

/**
 * The page with another title, whose letters are bytes here.
 * @type {(page: Buffer, title: string) => Buffer}
 */
function titled(page, title) {
  const escaped = title.replace(/[&<>"']/g, (mark) => REFERENCES[mark]);
  const bytes = Buffer.from(escaped).toString("latin1");
  let text = page.toString("latin1");
  for (const place of TITLES) text = text.replace(place, (_, before, after) => before + bytes + after);
  return Buffer.from(text, "latin1");
}

/** @type {(words: string[]) => Promise<void>} */
async function run(words) {
  const { report, help, seconds, means, page, title } = readWords(words);
  if (help) return write(HELP);
  const before = await readPage(page);
  /** @type {(page: Buffer) => Promise<void>} */
  const writeTitled = (after) => write(title === null ? after : titled(after, title));
  const made = await orUnset(typeset(before, means, Date.now() + 1000 * seconds), () => writeTitled(before));
  await writeTitled(made.page);
  tell(made.left, made, report);
}

/**
 * What comes of a task. Where KaTeX or markdown-it can't be started, the page is written without them, so that nobody finds an empty file.
 * @template T
 * @type {(task: Promise<T>, writeUnset: () => Promise<void>) => Promise<T>}
 */
async function orUnset(task, writeUnset) {
  try {
    return await task;
  } catch (error) {
    if (!(error instanceof NotStarted)) throw error;
    await writeUnset();
    throw new Fault(1, `${error.message}. The page has its formulas and prose as they were`);
  }
}

/** @type {(words: string[]) => Promise<void>} */
async function main(words) {
  try {
    await run(words);
  } catch (error) {
    if (!(error instanceof Fault)) throw error;
    process.stderr.write(`tmhost-typeset: ${error.message}\n${error.status === 2 ? USAGE + "\n" : ""}`);
    process.exitCode = error.status;
  }
}

module.exports = { main };
