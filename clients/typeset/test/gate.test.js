"use strict";
// A KaTeX that means harm, or that breaks: whatever it tells, nothing but the list comes out, and the other formulas are set.

const assert = require("node:assert/strict");
const fs = require("node:fs");
const os = require("node:os");
const path = require("node:path");
const { test, after } = require("node:test");
const { pageOf, span, escaped } = require("./pages.js");
const { run, contentsOf } = require("./run.js");
const { readContent, textOf } = require("./tree.js");

const folder = fs.mkdtempSync(path.join(os.tmpdir(), "typeset-"));
after(() => fs.rmSync(folder, { recursive: true }));

/**
 * The file of a KaTeX that tells this for a formula, as JavaScript of `tex`.
 * @type {(name: string, body: string) => string}
 */
function fake(name, body) {
  const file = path.join(folder, `${name}.js`);
  fs.writeFileSync(file, `exports.renderToString = (tex) => { ${body} };\n`);
  return file;
}

/** @type {(formula: string) => string} */
function whole(formula) {
  return `<span class="katex"><math xmlns="x"><semantics>${formula}<annotation encoding="application/x-tex">x</annotation></semantics></math></span>`;
}

const REFUSED = [
  "<script>alert(1)</script>", "<mrow><script>alert(1)</script></mrow>", "<mtext><script>alert(1)</script></mtext>",
  "<mi><img src=\"x\" onerror=\"alert(1)\"/></mi>", "<mtext><img src=\"x\"/></mtext>", "<mtext><style>*{display:none}</style></mtext>",
  "<style>*{display:none}</style>", "<mi onclick=\"alert(1)\">x</mi>", "<mi href=\"javascript:alert(1)\">x</mi>",
  "<mrow href=\"https://example.org\"><mi>x</mi></mrow>", "<mi style=\"color:red\">x</mi>", "<mrow class=\"out\"><mi>x</mi></mrow>",
  "<mi class=\"tex-over\">x</mi>", "<mi id=\"field-1\">x</mi>", "<mrow id=\"field-1\"></mrow>", "<a href=\"x\"><mi>x</mi></a>",
  "<maction actiontype=\"statusline\"><mi>x</mi></maction>", "<mglyph src=\"x\"/>", "<mtext><mglyph src=\"x\"/></mtext>",
  "<annotation-xml encoding=\"text/html\"><b>x</b></annotation-xml>", "<annotation>x</annotation>", "<semantics><mi>x</mi></semantics>",
  "<mtext><malignmark/></mtext>", "<svg><mi>x</mi></svg>", "<math><mi>x</mi></math>", "<mrow><math><mi>x</mi></math></mrow>",
  "<mi mathcolor=\"red\">x</mi>", "<mrow mathbackground=\"url(x)\"><mi>x</mi></mrow>", "<mi mathvariant=\"owned\">x</mi>",
  "<mi mathsize=\"9999em\">x</mi>", "<mspace width=\"51em\"/>", "<mspace width=\"-3em\"/>", "<mspace width=\"1e9em\"/>", "<mspace width=\"calc(1em)\"/>",
  "<mspace width=\"100%\"/>", "<mspace linebreak=\"newline\"/>", "<mspace>x</mspace>", "<mspace><mi>x</mi></mspace>",
  "<mfrac><mi>x</mi></mfrac>", "<mfrac><mi>x</mi><mi>y</mi><mi>z</mi></mfrac>", "<msub><mi>x</mi></msub>", "<msubsup><mi>x</mi><mi>y</mi></msubsup>",
  "<mfrac bevelled=\"true\"><mi>x</mi><mi>y</mi></mfrac>", "<mrow>x</mrow>", "<mrow><mi>x</mi>y</mrow>", "<mi>x<mn>1</mn></mi>",
  "<mtr><mtd></mtd></mtr>", "<mtd></mtd>", "<mtable><mtd></mtd></mtable>", "<mtable><mi>x</mi></mtable>", "<mtr><mi>x</mi></mtr>",
  "<mtable width=\"100%\"></mtable>", "<mtable><mtr><mtd rowspan=\"9\"></mtd></mtr></mtable>", "<menclose notation=\"box\"><mi>x</mi></menclose>",
  "<mstyle scriptlevel=\"-9\"><mi>x</mi></mstyle>", "<mstyle displaystyle=\"yes\"></mstyle>", "<mstyle scriptminsize=\"1px\"></mstyle>",
  "<mo form=\"prefix\">x</mo>", "<mi>\0</mi>", "<mi>\u202e</mi>", "<mi>\u200b</mi>", "<mi>\ud800</mi>", "<mi>\ue000</mi>", "<mi>\u2062</mi>",
  "<mi>&#x202e;</mi>", "<mi>&nbsp;</mi>", "<mi>&#60;</mi>", "<mi>&</mi>", "<mi>&lt</mi>", "<MI>x</MI>", "<mi >x</mi>", "<mi>x</mi >", "<mi\n>x</mi>",
  "<mi mathvariant='normal'>x</mi>", "<mi mathvariant=normal>x</mi>", "<mi mathvariant=\"normal\" mathvariant=\"normal\">x</mi>",
  "<mi mathvariant=\"a>b\">x</mi>", "<mi>x</mi", "<mi>x", "</mi>", "<mrow><mi>x</mrow></mi>", "<!-- x --><mi>x</mi>", "<![CDATA[x]]>", "<?xml?><mi>x</mi>",
  "<mi>x > y</mi>", "x", "", "<foreignObject></foreignObject>", "<constructor></constructor>", "<mi constructor=\"x\">x</mi>", "<tostring></tostring>",
  "<mrow>".repeat(300) + "</mrow>".repeat(300),
];

test("markup that is not of the list", () => {
  const file = fake("hostile", `return ${JSON.stringify(REFUSED.map(whole))}[Number(tex)];`);
  const formulas = REFUSED.map((_, index) => `$${String(index).padStart(50, "0")}$`);
  const before = pageOf("gate", formulas.map((tex) => ({ output: span(tex) })));
  const { status, page, reported } = run(before, "--report", "--katex", file);
  assert.equal(status, 0);
  assert.ok(REFUSED.length >= 60);
  assert.deepEqual(contentsOf(before, page), formulas);
  assert.equal(page.toString(), before, "and no style");
  assert.match(reported, new RegExp(`${REFUSED.length} of ${REFUSED.length} formulas stay`));
});

test("a formula that is too long when it is laid out", () => {
  const file = fake("long", `return ${JSON.stringify(whole(`<mrow>${'<mo fence="true">(</mo>'.repeat(60)}</mrow>`))};`);
  const before = pageOf("long", [{ output: span("$1$") }, { output: span(`$${"1".repeat(50)}$`) }]);
  const [short, long] = contentsOf(before, run(before, "--katex", file).page);
  assert.equal(short, "$1$");
  assert.equal(readContent(long).map(textOf).join(""), "(".repeat(60));
});

test("what stands around a formula", () => {
  const good = whole("<mi>x</mi>");
  const reported = [
    "", "x", "<b></b>", "<math></math>", '<span class="katex"></span>', good.replace("<semantics>", "<b>"), `${good}</span>`, good.slice(0, -"</span>".length),
    `${good}<b>`, `x${good}`, good.replace("katex", "kat\"ex"),
  ];
  const file = fake("around", `return ${JSON.stringify(reported)}[Number(tex)];`);
  const before = pageOf("around", reported.map((_, index) => ({ output: span(`$${index}$`) })));
  assert.equal(run(before, "--katex", file).page.toString(), before);
});

test("what it says of its own around the formula is not taken", () => {
  const file = fake("loud", `return ${JSON.stringify(`${whole("<mi>x</mi>").replace("<math ", '<math onclick="alert(1)" ')}<script>alert(1)</script>`)};`);
  const before = pageOf("loud", [{ output: span("$1$") }]);
  assert.deepEqual(contentsOf(before, run(before, "--katex", file).page), ['<math displaystyle="true" alttext="1"><mi>x</mi></math>']);
});

const BROKEN = [
  { name: "it never ends", body: "for (;;) {}", reason: "it takes too long" },
  { name: "it ends its process", body: "process.exit(0);", reason: "KaTeX broke off" },
  { name: "it is killed", body: 'process.kill(process.pid, "SIGKILL");', reason: "KaTeX broke off" },
  { name: "it takes all memory", body: "const all = []; for (;;) all.push(new Array(1e5).fill(0));", reason: "KaTeX broke off" },
  { name: "it throws no error", body: "throw null;", reason: "an error" },
  { name: "it tells no text", body: "return { length: 1 };", reason: "no text" },
  { name: "it tells too much", body: 'return "x".repeat(1e8);', reason: "too long" },
  { name: "it recurses", body: "const again = () => again() + 1; again();", reason: "Maximum call stack size exceeded" },
];

for (const { name, body, reason } of BROKEN) {
  test(`the others are set where ${name}`, () => {
    const file = fake(name.replaceAll(" ", "-"), `if (tex === "bad") { ${body} } return ${JSON.stringify(whole("<mi>y</mi>"))};`);
    const before = pageOf("broken", [{ output: span("$x$") }, { output: span("$bad$") }, { output: span("$longer$") }]);
    const { status, page, seconds, reported } = run(before, "--katex", file, "--report");
    const [first, bad, last] = contentsOf(before, page);
    assert.equal(status, 0);
    assert.ok(seconds < 40, `${seconds} seconds`);
    assert.deepEqual([first, last].map((content) => readContent(content).map(textOf).join("")), ["y", "y"]);
    assert.equal(bad, escaped("$bad$"));
    assert.equal(reported, `left "$bad$": "${reason}"\ntmhost-typeset: 1 of 3 formulas stay as their TeX\n`);
  });
}

test("a KaTeX that starts once, and no more: the page is written with what was set", () => {
  const flag = path.join(folder, "flag");
  const file = path.join(folder, "once.js");
  const starts = `const fs = require("node:fs"); if (fs.existsSync(${JSON.stringify(flag)})) process.exit(1); fs.writeFileSync(${JSON.stringify(flag)}, "");`;
  fs.writeFileSync(file, `${starts} exports.renderToString = (tex) => (tex === "bad" ? process.exit(1) : ${JSON.stringify(whole("<mi>y</mi>"))});`);
  const before = pageOf("once", [{ output: span("$longer$") }, { output: span("$bad$") }, { output: span("$x$") }]);
  const { status, page } = run(before, "--katex", file);
  const [longer, bad, first] = contentsOf(before, page);
  assert.deepEqual([status, longer, bad], [0, "$longer$", "$bad$"]);
  assert.equal(readContent(first).map(textOf).join(""), "y");
});
