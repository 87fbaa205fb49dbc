"use strict";
// Typeset pages in a headless Chromium: nothing runs, nothing is loaded, and formulas are drawn as formulas.

const assert = require("node:assert/strict");
const fs = require("node:fs");
const { test, before, after } = require("node:test");
const { Browser, CHROMIUM } = require("./browser.js");
const { FORMULAS } = require("./formulas.js");
const { HOSTILE, HOSTILE_PROSE } = require("./hostile.js");
const { pageOf, span } = require("./pages.js");
const { run } = require("./run.js");

const options = { skip: fs.existsSync(CHROMIUM) ? false : "there is no Chromium (Debian's package chromium)" };
const browser = options.skip ? null : new Browser();
before(() => browser?.start());
after(() => browser?.stop());

/** @type {() => Browser} */
const open = () => /** @type {Browser} */ (browser);

// Runs in the page: what of its outputs is neither text, a span of the export nor MathML.
const STRANGERS = `[...document.querySelectorAll(".out *")].filter((one) => {
  const isSpan = one.localName === "span" && one.namespaceURI.endsWith("/xhtml") && one.attributes.length === 1 && one.className === "tex";
  const isMath = one.namespaceURI.endsWith("/MathML") && !/^(annotation|maction|semantics|mglyph)/.test(one.localName);
  return !(isSpan || (isMath && [...one.attributes].every(({ name }) => !/^(on|href|src|style|id|xlink)/.test(name))));
}).map((one) => one.outerHTML)`;

// Runs in the page: all of it but its outputs and styles.
const AROUND = `(() => {
  const copy = document.documentElement.cloneNode(true);
  copy.querySelectorAll(".out, style").forEach((one) => one.replaceChildren());
  copy.querySelectorAll("style + style").forEach((one) => one.remove());
  return copy.outerHTML.replace(/\\s+/g, " ");
})()`;

// Runs in the page: parts of formulas that don't stand as they should.
const MISPLACED = `(() => {
  const box = (node) => node.getBoundingClientRect();
  const middle = (node) => (box(node).top + box(node).bottom) / 2;
  const rules = {
    mfrac: ([over, under]) => box(over).bottom <= box(under).top + 1,
    msup: ([base, script]) => middle(script) < middle(base),
    msub: ([base, script]) => middle(script) > middle(base),
    msubsup: ([base, sub, sup]) => middle(sup) < middle(base) && middle(base) < middle(sub),
    munderover: ([base, under, over]) => box(over).bottom <= box(base).top + 3 && box(base).bottom <= box(under).top + 3,
    munder: ([base, under]) => middle(base) < middle(under),
    mover: ([base, over]) => middle(over) < middle(base),
    mtable: (rows) => rows.every((row, index) => index === 0 || middle(rows[index - 1]) < middle(row)),
    mtr: (cells) => cells.every((cell, index) => index === 0 || box(cells[index - 1]).right <= box(cell).left + 1),
    math: (parts) => parts.every((part) => box(part).width > 0 && box(part).height > 0),
  };
  return Object.entries(rules).flatMap(([name, stands]) => [...document.querySelectorAll(name)].filter((node) => !stands([...node.children])))
    .map((node) => node.outerHTML);
})()`;

test("a long sum has lines, of which none is wider than the page", options, async () => {
  const tex = Array.from({ length: 500 }, (_, at) => `\\frac{${at}}{${at + 1}}x^{${at}}`).join(" + ");
  await open().load(run(pageOf("long", [{ output: span(`$${tex}$`) }])).page);
  const lines = await open().value(`(() => {
    const [out] = document.querySelectorAll(".out"), all = [...out.querySelectorAll("math")];
    const tops = new Set(all.map((one) => Math.round(one.getBoundingClientRect().bottom / 8)));
    return [all.length, tops.size, out.scrollWidth <= out.clientWidth];
  })()`);
  assert.deepEqual([lines[0], lines[1] > 20, lines[2]], [500, true, true], lines.join(" "));
});

test("formulas are drawn as formulas", options, async () => {
  const page = run(pageOf("formulas", FORMULAS.map(({ from, tex }) => ({ session: from, input: tex, output: span(tex) })))).page;
  await open().load(page);
  assert.equal(open().requests.length, 1, open().requests.join(" "));
  assert.equal(await open().value("document.scripts.length"), 0);
  assert.ok(await open().value("document.querySelectorAll('math').length") >= FORMULAS.length);
  assert.deepEqual(await open().value(STRANGERS), []);
  assert.deepEqual(await open().value(MISPLACED), []);
});

test("a function's name stands apart, letters have their alphabets, fences are as high as what they hold", options, async () => {
  const page = run(pageOf("x", ["$\\sin x$", "$\\left|\\frac{a}{b}\\right|$", "$\\overline{a+b}$"].map((tex) => ({ output: span(tex) })))).page;
  await open().load(page);
  const [gap, fence, line] = await open().value(`(() => {
    const box = (name, index = 0) => document.querySelectorAll(name)[index].getBoundingClientRect();
    const [sin, x] = [box("mi", 0), box("mi", 1)];
    const bars = [...document.querySelectorAll("mo")].filter((one) => one.textContent === "|").map((one) => one.getBoundingClientRect().height);
    const over = document.querySelector(".tex-over");
    return [x.left - sin.right, Math.min(...bars) / box("mfrac").height, getComputedStyle(over).borderTopStyle];
  })()`);
  assert.ok(gap > 1, `${gap} pixels`);
  assert.ok(fence > 0.9, `${fence} of the height`);
  assert.equal(line, "solid");
});

for (const width of [900, 360]) {
  test(`a wide formula scrolls in its output, in a window of ${width} pixels`, options, async () => {
    const wide = `$${Array.from({ length: 80 }, (_, index) => `\\frac{x^{${index}}}{${index}!}`).join("+")}$`;
    await open().load(run(pageOf("wide", [{ output: span(wide) }, { output: `%1 = ${span(wide)}` }, { output: span("$x$") }])).page, width);
    const [scrolls, page, seen, others] = await open().value(`(() => {
      const outputs = [...document.querySelectorAll(".out")];
      const scrolls = outputs.map((output) => output.scrollWidth > output.clientWidth);
      const page = document.documentElement.scrollWidth - innerWidth;
      const seen = outputs.slice(0, 2).map((output) => {
        output.scrollLeft = 1e6;
        return output.querySelector("math").lastElementChild.getBoundingClientRect().right - output.getBoundingClientRect().right;
      });
      return [scrolls, page, Math.max(...seen), document.querySelectorAll("mfrac").length];
    })()`);
    assert.deepEqual(scrolls, [true, true, false]);
    assert.ok(page <= 0, `the page is ${page} pixels wider than the window`);
    assert.ok(seen <= 0, `${seen} pixels of it can't be reached`);
    assert.equal(others, 160);
  });
}

test("numbers in a table that is wider than the window are whole", options, async () => {
  const rows = Array.from({ length: 6 }, (_, row) => Array.from({ length: 14 }, (_, column) => (row + 1) ** (column + 1)).join("&"));
  const wide = `$\\%1 = \\begin{pmatrix}${rows.join("\\\\ ")}\\end{pmatrix}$`;
  await open().load(run(pageOf("wide", [{ output: span(wide) }, { output: `hi\n${span(wide)}` }])).page, 500);
  const [broken, count, scrolls] = await open().value(`(() => {
    const width = (node) => node.getBoundingClientRect().width;
    const numbers = [...document.querySelectorAll("mn")];
    const first = document.querySelector("math");
    const free = first.parentNode.appendChild(first.cloneNode());
    free.style = "position:absolute;white-space:nowrap;overflow-wrap:normal";
    const alone = numbers.map((one) => width(free.appendChild(one.cloneNode(true))));
    return [numbers.filter((one, index) => width(one) < alone[index] - 1).map((one) => one.textContent), numbers.length,
      [...document.querySelectorAll(".out")].map((output) => output.scrollWidth > output.clientWidth)];
  })()`);
  assert.deepEqual(broken, []);
  assert.equal(count, 2 * (6 * 14 + 1));
  assert.deepEqual(scrolls, [true, true]);
});

test("hostile formulas: nothing runs, nothing is loaded, all around them stays", options, async () => {
  const given = pageOf("hostile </title>", HOSTILE.map(({ name, tex }) => ({ session: name, input: tex.slice(0, 100), output: span(tex) })));
  await open().load(given);
  const around = await open().value(AROUND);
  await open().load(run(given).page);
  assert.equal(open().requests.length, 1, open().requests.join(" "));
  assert.equal(await open().value("document.scripts.length"), 0);
  assert.equal(await open().value("document.title"), "hostile </title>");
  assert.equal(await open().value("document.querySelectorAll('section').length"), HOSTILE.length);
  assert.deepEqual(await open().value(STRANGERS), []);
  assert.equal(await open().value(AROUND), around);
  const [count, set] = [await open().value("document.querySelectorAll('math').length"), HOSTILE.filter(({ shows }) => shows !== undefined)];
  assert.ok(count <= set.length && count >= set.filter(({ slow }) => !slow).length, `${count} are set`);
});

// Runs in the page: what of its prose is no element of the list, or has another attribute.
const STRANGERS_OF_PROSE = `[...document.querySelectorAll(".prose *")].filter((one) => {
  if (one.namespaceURI.endsWith("/MathML")) return ![...one.attributes].every(({ name }) => !/^(on|href|src|style|id|xlink)/.test(name));
  const isOne = /^(p|h[2-6]|em|strong|s|code|pre|blockquote|[uo]l|li|hr|br|table|thead|tbody|t[rhd]|a|span)$/.test(one.localName);
  const allowed = { a: "href rel", ol: "start", th: "class", td: "class", span: "class" }[one.localName] ?? "";
  return !isOne || ![...one.attributes].every(({ name }) => allowed.split(" ").includes(name));
}).map((one) => one.outerHTML)`;

test("hostile prose: nothing runs, nothing is loaded, and the other fields stay where they are", options, async () => {
  const fields = HOSTILE_PROSE.flatMap((input) => [{ session: "prose", input, output: null }, { session: "py", input: "1", output: "out" }]);
  await open().load(run(pageOf("prose", fields)).page);
  assert.equal(open().requests.length, 1, open().requests.join(" "));
  assert.equal(await open().value("document.scripts.length"), 0);
  assert.deepEqual(await open().value(STRANGERS_OF_PROSE), []);
  const [sections, outputs, within, links] = await open().value(`[
    document.querySelectorAll("main > section").length, [...document.querySelectorAll(".out")].filter((one) => one.textContent === "out").length,
    document.querySelectorAll(".prose section, .prose .out").length,
    [...document.querySelectorAll(".prose a[href]")].map((one) => new URL(one.href).protocol),
  ]`);
  assert.deepEqual([sections, outputs, within], [fields.length, HOSTILE_PROSE.length, 0]);
  assert.ok(links.length >= 5 && links.every((/** @type {string} */ link) => /^(?:https?|mailto):$/.test(link)), links.join(" "));
});

for (const width of [900, 360]) {
  test(`prose is read as prose in a window of ${width} pixels`, options, async () => {
    const wide = `$$${Array.from({ length: 60 }, (_, index) => `x^{${index}}`).join("+")}$$`;
    const texts = ["# Heading\n\n- one\n- two\n\n`code` and $\\frac12$", wide, `|${"column|".repeat(40)}\n|${"-|".repeat(40)}\n|${"1|".repeat(40)}`, "x".repeat(500)];
    await open().load(run(pageOf("page", [...texts.map((input) => ({ session: "prose", input, output: null })), { output: "out" }])).page, width);
    const [page, sizes, shown, target] = await open().value(`(() => {
      const size = (name) => parseFloat(getComputedStyle(document.querySelector(name)).fontSize);
      location.hash = "#field-4";
      return [document.documentElement.scrollWidth - innerWidth, [size("h1"), size(".prose h2"), size(".prose p")],
        document.querySelectorAll("h2, ul > li, p > code, p > math > mrow > mfrac").length, document.querySelector(":target").className];
    })()`);
    assert.ok(page <= 0, `the page is ${page} pixels wider than the window`);
    assert.ok(sizes[0] > sizes[1] && sizes[1] > sizes[2], sizes.join(" "));
    assert.deepEqual([shown, target], [5, "prose"]);
  });
}

test("a formula with a line for itself has no scroll bar at its side, and isn't cut off", options, async () => {
  const tall = ["\\sum_{k=1}^{n} \\frac{k^2}{1+\\frac{1}{k}}", "\\sqrt{\\frac{a^{b^c}}{b_{c_{d_e}}}}", "y_{y_{y_y}}", "\\begin{pmatrix} a \\\\ b \\\\ c\\end{pmatrix}", "x"];
  const texts = [...tall.map((tex) => `$$${tex}$$`), "$\\frac{1}{2_{3_4}}$"];
  const outputs = tall.map((tex) => ({ output: span(`$${tex}$`) }));
  await open().load(run(pageOf("tall", [...texts.map((input) => ({ session: "prose", input, output: null })), ...outputs])).page);
  const [count, scrolled, cut] = await open().value(`(() => {
    const boxes = [...document.querySelectorAll(".prose .display, .prose, .out")];
    const beyond = (box) => [...box.querySelectorAll("math, math *")].some((one) => {
      const [inner, outer] = [one.getBoundingClientRect(), box.getBoundingClientRect()];
      return inner.height > 0 && (inner.top < outer.top || inner.bottom > outer.bottom);
    });
    const scrolls = (box) => box.scrollHeight > box.clientHeight && box.className !== "prose";
    return [boxes.length, boxes.filter(scrolls).map((box) => box.textContent), boxes.filter(beyond).map((box) => box.textContent)];
  })()`);
  assert.deepEqual([count, scrolled, cut], [16, [], []]);
});
