"use strict";
// The command's words, streams and statuses.

const assert = require("node:assert/strict");
const { spawnSync, spawn } = require("node:child_process");
const fs = require("node:fs");
const os = require("node:os");
const path = require("node:path");
const { test, after } = require("node:test");
const { pageOf, span, parts } = require("./pages.js");
const { run, contentsOf, COMMAND } = require("./run.js");

const folder = fs.mkdtempSync(path.join(os.tmpdir(), "typeset-"));
after(() => fs.rmSync(folder, { recursive: true }));
const page = pageOf("page", [{ output: span("$x$") }, { output: span("$\\nonsense$") }]);

test("a file and standard input give the same", () => {
  const file = path.join(folder, "page.html");
  fs.writeFileSync(file, page);
  const [fromInput, fromFile] = [run(page), run("", file)];
  assert.equal(fromInput.status, 0);
  assert.deepEqual(fromFile.page, fromInput.page);
  assert.equal(contentsOf(page, fromInput.page)[1], "$\\nonsense$");
  assert.equal(fromInput.reported, "tmhost-typeset: 1 of 2 formulas stay as their TeX\n");
});

test("--report says why, on one line that a terminal may show", () => {
  const { reported } = run(pageOf("page", [{ output: span("$\\nonsense \u009b\n\u202e$") }]), "--report");
  assert.equal(reported, 'left "$\\\\nonsense \\u{9b}\\n\\u{202e}$": "a character that is not seen"\ntmhost-typeset: 1 of 1 formulas stay as their TeX\n');
});

test("a page without formulas stays, byte for byte", () => {
  for (const same of ["", "x", "\0\xff", pageOf("empty", []), pageOf("x", [{ output: "<" }]), '<pre class="out"', '<pre class="out">\n<span class="tex">']) {
    const bytes = Buffer.from(same, "latin1");
    const made = run(bytes);
    assert.deepEqual([made.page, made.status, made.reported], [bytes, 0, ""]);
  }
});

test("bytes that are no UTF-8 stay, beside formulas and in them", () => {
  const before = pageOf("\u00e9\u0080", [{ output: `\u00ff${span("$x$")}\u00fe` }, { output: parts.tex_start + "$\u00ff$" + parts.tex_end }]);
  const bytes = Buffer.from(before, "latin1");
  const made = run(bytes).page.toString("latin1");
  assert.ok(made.includes(`\u00ff${parts.tex_start}<math `) && made.includes(`</math>${parts.tex_end}\u00fe`));
  assert.ok(made.includes(`${parts.tex_start}$\u00ff$${parts.tex_end}`));
  assert.ok(made.includes("<title>\u00e9\u0080</title>"));
});

test("another title", () => {
  const before = pageOf("course.sheet", [{ output: span("$x$") }, { output: "&lt;title&gt;course.sheet" }]);
  const made = run(before, "--title", 'Sums <& "\u00e9">').page.toString();
  const wanted = "Sums &lt;&amp; &quot;\u00e9&quot;&gt;";
  assert.equal(made, run(before).page.toString().replace("<title>course.sheet<", `<title>${wanted}<`).replace('<h1 dir="ltr">course.sheet<', `<h1 dir="ltr">${wanted}<`));
  assert.equal(made.split(wanted).length, 3);
  assert.equal(run("no page", "--title", "x").page.toString(), "no page");
  assert.equal(run(before, "--title", "a\nb").status, 2);
});

test("formulas as other programs escape them", () => {
  /** @type {[string, string[]][]} */
  const forms = [
    ["&", ["&amp;", "&#38;", "&#x26;"]], ["<", ["&lt;", "&#60;", "&#x3C;"]], [">", ["&gt;", "&#62;", "&#x3e;"]],
    ['"', ["&quot;", "&#34;", "&#x22;"]], ["'", ["&#39;", "&#x27;", "&#039;", "&#X27;", "&apos;"]], ["/", ["&#47;", "&#x2F;"]], ["=", ["&#61;", "&#x3D;"]],
  ];
  const written = forms.flatMap(([mark, references]) => references.map((reference) => [mark, reference].map((one) => `$f'x \\text{${mark === "&" ? "\\" : ""}${one}}$`)));
  const before = pageOf("page", written.map(([, tex]) => ({ output: parts.tex_start + tex.replace("'", "&#x27;") + parts.tex_end })));
  const wanted = pageOf("page", written.map(([tex]) => ({ output: span(tex) })));
  const made = run(before, "--report");
  assert.deepEqual([made.status, made.reported], [0, ""]);
  assert.deepEqual(contentsOf(before, made.page), contentsOf(wanted, run(wanted).page));
});

test("a formula that is no text is named as the page has it", () => {
  const { reported } = run(pageOf("page", [{ output: `${parts.tex_start}$a&nbsp;b$${parts.tex_end}` }]), "--report");
  assert.equal(reported, 'left "$a&nbsp;b$": "no text of an export"\ntmhost-typeset: 1 of 1 formulas stay as their TeX\n');
});

test("formulas outside of outputs are none", () => {
  const before = pageOf("$x$", [{ session: "$x$", prompt: "$x$", input: '<span class="tex">$x$</span>', output: "$x$" }]);
  assert.equal(run(before).page.toString(), before);
});

test("a page twice is a page once", () => {
  const once = run(page).page;
  const twice = run(once);
  assert.deepEqual(twice.page, once);
  assert.equal(twice.reported, "tmhost-typeset: 1 of 1 formulas stay as their TeX\n");
});

test("without time all stays", () => {
  assert.equal(run(page, "--seconds", "0").page.toString(), page);
});

test("faults", () => {
  assert.deepEqual([run(page, "--katex", "/nowhere.js").status, run(page, "--katex", "/nowhere.js").page.toString()], [1, page]);
  assert.equal(run(page, "--katex", "/nowhere.js", "--title", "Sums").page.toString(), page.replace("<title>page<", "<title>Sums<").replace('<h1 dir="ltr">page<', '<h1 dir="ltr">Sums<'));
  assert.match(run(page, "--katex", "/nowhere.js").reported, /KaTeX can't be started from \/nowhere.js/);
  assert.match(run("", "/nowhere.html").reported, /the page can't be read/);
  assert.equal(run("", "/nowhere.html").status, 1);
});

test("words that are refused", () => {
  for (const words of [["--nonsense"], ["a", "b"], ["--seconds", "x"], ["--seconds", "-1"], ["--katex"], ["--report=1"]]) {
    const { status, page: written, reported } = run(page, ...words);
    assert.deepEqual([status, written.length], [2, 0], words.join(" "));
    assert.match(reported, /^tmhost-typeset: .*\nusage: /s);
  }
});

test("--help", () => {
  const { status, page: written, reported } = run("", "--help");
  assert.deepEqual([status, reported], [0, ""]);
  assert.match(written.toString(), /^usage: tmhost-typeset /);
});

test("through a link, as it is installed", () => {
  const link = path.join(folder, "tmhost-typeset");
  fs.symlinkSync(COMMAND, link);
  assert.deepEqual(spawnSync(process.execPath, [link], { input: page }).stdout, run(page).page);
});

test("without the notebook beside it", () => {
  const alone = path.join(folder, "clients", "typeset");
  fs.cpSync(path.dirname(COMMAND), alone, { recursive: true });
  const { status, stdout, stderr } = spawnSync(process.execPath, [path.join(alone, "tmhost-typeset")], { input: page });
  assert.deepEqual([status, stdout.toString()], [1, page]);
  assert.match(stderr.toString(), /^tmhost-typeset: clients\/notebook has to be beside clients\/typeset: [^\n]+\n$/);
});

test("a reader that goes away", async () => {
  const large = pageOf("large", [{ output: "x".repeat(1 << 22) }]);
  const child = spawn(process.execPath, [COMMAND], { stdio: ["pipe", "pipe", "pipe"] });
  child.stdin.on("error", () => {}).end(large);
  child.stdout.once("data", () => child.stdout.destroy());
  const status = await new Promise((resolve) => child.once("exit", resolve));
  assert.equal(status, 1);
});

test("a large page", () => {
  const fields = Array.from({ length: 20_000 }, (_, index) => ({ output: index % 20 === 0 ? span(`$x_{${index}}$`) : "text\n".repeat(10) }));
  const before = pageOf("large", fields);
  const { page: made, seconds } = run(before);
  assert.ok(contentsOf(before, made).every((content) => content.startsWith("<math")));
  assert.ok(seconds < 60, `${seconds} seconds`);
});
