"use strict";
// What an interpreter that means harm may write in a block `latex`. `shows` is the text that is drawn, without blanks, where it may be set;
// all others stay as their TeX. `slow`: KaTeX takes seconds for it, so that it depends on the machine whether it is set.

/** @typedef {{name: string, tex: string, shows?: string, slow?: boolean}} Hostile */

/** @type {(count: number, text: string) => string} */
const times = (count, text) => text.repeat(count);

/** @type {Hostile[]} */
const LINKS = [
  { name: "a link with a script", tex: "$\\href{javascript:alert(1)}{x}$" },
  { name: "a link to a page", tex: "$\\href{https://example.org/}{x}$" },
  { name: "a link in text", tex: "$\\text{\\href{javascript:alert(1)}{x}}$" },
  { name: "an address", tex: "$\\url{http://example.org}$" },
  { name: "an address of data", tex: "$\\url{data:text/html,<script>alert(1)</script>}$" },
  { name: "a picture", tex: "$\\includegraphics{http://127.0.0.1:1/x.png}$" },
  { name: "a picture with sizes", tex: "$\\includegraphics[height=9em,alt=x]{file:///etc/passwd}$" },
  { name: "a picture with a handler", tex: "$\\includegraphics[alt=\"x\" onerror=\"alert(1)]{x}$" },
  { name: "a class", tex: "$\\htmlClass{out}{x}$" },
  { name: "an identity", tex: "$\\htmlId{field-1}{x}$" },
  { name: "a style", tex: "$\\htmlStyle{position:fixed;inset:0;background:url(http://127.0.0.1:1)}{x}$" },
  { name: "data", tex: "$\\htmlData{foo=bar, onclick=alert(1)}{x}$" },
  { name: "raw HTML for MathML", tex: "$\\html@mathml{<b>}{<script>}$", shows: "<script>" },
  { name: "a class of MathJax", tex: "$\\class{out}{x}$" },
  { name: "a style of MathJax", tex: "$\\style{position:fixed;top:0}{x}$" },
  { name: "an identity of MathJax", tex: "$\\cssId{x}{y}$" },
  { name: "a character of MathJax", tex: "$\\unicode{x202e}abc$" },
  { name: "a package", tex: "$\\require{html}\\href{javascript:alert(1)}{x}$" },
  { name: "a label", tex: "$\\label{x}\\ref{x}$" },
];

/** @type {Hostile[]} */
const FILES = [
  { name: "a file read", tex: "$\\input{/etc/passwd}$" },
  { name: "a file included", tex: "$\\include{/etc/passwd}$" },
  { name: "a command run", tex: "$\\immediate\\write18{touch owned}$" },
  { name: "a file opened", tex: "$\\openin5=/etc/passwd$" },
  { name: "a special", tex: "$\\special{html:<script>alert(1)</script>}$" },
  { name: "a category changed", tex: "$\\catcode`\\<=13 <$" },
];

/** @type {Hostile[]} */
const MACROS = [
  { name: "a macro without end", tex: "$\\def\\a{\\a}\\a$" },
  { name: "a macro that doubles", tex: "$\\def\\a{\\a\\a}\\a$" },
  { name: "a macro whose argument doubles", tex: "$\\def\\a#1{\\a{#1#1}}\\a x$" },
  { name: "expanded definitions", tex: `$\\edef\\a{x}${times(30, "\\edef\\a{\\a\\a}")}\\a$` },
  { name: "a definition for all formulas", tex: "$\\gdef\\frac#1#2{owned}\\frac12$" },
  { name: "a global word", tex: "$\\global\\let\\sqrt\\alpha x$" },
  { name: "a new command", tex: "$\\newcommand{\\x}{\\x\\x}\\x$" },
  { name: "a definition after a comment", tex: "$%\n\\def\\a{\\a\\a}\\a$" },
  { name: "a word put together", tex: "$\\csname def\\endcsname\\a{\\a\\a}\\a$" },
  { name: "a number of the wrong base", tex: "$\\char'999999999999$" },
  { name: "a character beyond Unicode", tex: '$\\char"110000$' },
  { name: "half of a character", tex: '$\\char"D800$' },
  { name: "a control character by its number", tex: '$\\char"1B$' },
  { name: "a turn of direction by its number", tex: '$\\char"202E abc$' },
  { name: "a private character by its number", tex: '$\\char"E000$' },
  { name: "names of JavaScript", tex: "$\\begin{constructor}x\\end{constructor}$" },
  { name: "a prototype", tex: "$\\begin{__proto__}x\\end{__proto__}\\constructor\\hasOwnProperty$" },
];

/** @type {Hostile[]} */
const SHAPES = [
  { name: "an open brace", tex: "$\\frac{a}{$" },
  { name: "a closing brace", tex: "$}$" },
  { name: "braces the wrong way", tex: "$}{$" },
  { name: "20,000 open braces", tex: `$${times(19_990, "{")}$` },
  { name: "10,000 pairs of braces", tex: `$${times(9_990, "{")}${times(9_990, "}")}$` },
  { name: "a megabyte of braces", tex: `$${times(500_000, "{")}${times(500_000, "}")}$` },
  { name: "a megabyte of letters", tex: `$${times(1_000_000, "x")}$` },
  { name: "a thousand roots", tex: `$${times(1_000, "\\sqrt{")}x${times(1_000, "}")}$` },
  { name: "150 roots", tex: `$${times(150, "\\sqrt{")}x${times(150, "}")}$`, shows: "x" },
  { name: "a thousand fences", tex: `$${times(1_000, "\\left(")}x${times(1_000, "\\right)")}$` },
  { name: "a length of 19,000 digits", tex: `$\\kern${times(19_000, "1")}em x$`, shows: "x", slow: true },
  { name: "a colour of 19,000 letters", tex: `$\\color{${times(19_000, "a")}}x$` },
  { name: "15,000 columns", tex: `$\\begin{array}{${times(15_000, "c")}}1\\end{array}$`, shows: "1" },
  { name: "9,000 rows", tex: `$\\begin{array}{c}${times(9_000, "\\\\")}\\end{array}$`, shows: "" },
  { name: "19,000 cells", tex: `$\\begin{matrix}${times(19_000, "&")}\\end{matrix}$`, shows: "" },
  { name: "no end of a fence", tex: "$\\left( x$" },
  { name: "no end of an environment", tex: "$\\begin{matrix} 1 & 2$" },
  { name: "no end of a dollar", tex: "$x" },
  { name: "a single dollar", tex: "$" },
  { name: "nothing", tex: "" },
  { name: "an empty formula", tex: "$$" },
];

/** @type {Hostile[]} */
const LOOKS = [
  { name: "far to the left", tex: "$\\kern-9999em x$" },
  { name: "far to the right", tex: "$\\hspace{9999em}x$", shows: "x" },
  { name: "high above", tex: "$\\raisebox{9999em}{x}$" },
  { name: "far below", tex: "$\\raisebox{-9999em}{x}$" },
  { name: "a black page", tex: "$\\rule{9999em}{9999em}$" },
  { name: "a colour", tex: "$\\color{white}x$" },
  { name: "a colour with a style", tex: "$\\textcolor{red;background:url(x)}{x}$" },
  { name: "a box of a colour", tex: "$\\colorbox{white}{x}$" },
  { name: "huge letters", tex: "$\\Huge\\Huge x$" },
  { name: "over the text before", tex: "$\\llap{no }x$" },
  { name: "a shadow", tex: "$\\pmb{x}$" },
  { name: "a mark at the page's side", tex: "$x\\tag{1}$" },
  { name: "a lost line", tex: "$1\\\\2$" },
  { name: "lines that no browser draws", tex: "$\\begin{array}{c|c}1&2\\end{array}$" },
  { name: "a strike that no browser draws", tex: "$\\cancel{x}$" },
];

/** @type {Hostile[]} */
const MARKS = [
  { name: "the end of a span", tex: "$x</span><script>alert(1)</script>$", shows: "x</span><script>alert(1)</script>" },
  { name: "the end of all", tex: "$x</math></span></pre><img src=x onerror=alert(1)>$", shows: "x</math></span></pre><imgsrc=xonerror=alert(1)>" },
  { name: "marks as text", tex: "$\\text{</mtext></math><script>document.title=1</script>}$", shows: "</mtext></math><script>document.title=1</script>" },
  { name: "marks as typed", tex: "$\\texttt{<img src=x onerror='alert(1)'>}$", shows: "<imgsrc=xonerror=’alert(1)’>" },
  { name: "marks word by word", tex: "$\\verb|<script>alert(1)</script>|$", shows: "<script>alert(1)</script>" },
  { name: "references", tex: "$\\text{\\&lt;script\\&gt;}$", shows: "&lt;script&gt;" },
  { name: "a reference by its number", tex: "$\\text{\\&\\#60;script\\&\\#62;}$", shows: "&#60;script&#62;" },
  { name: "quotes for an attribute", tex: '$x" onmouseover="alert(1)$', shows: 'x"onmouseover="alert(1)' },
  { name: "a comment", tex: "$<!-- x -->$", shows: "<!−−x−−>" },
  { name: "the end of a section", tex: "$<![CDATA[ x ]]>$", shows: "<![CDATA[x]]>" },
  { name: "an annotation", tex: "$\\text{<annotation-xml encoding=\"text/html\"><b>}$", shows: '<annotation-xmlencoding="text/html"><b>' },
  { name: "NUL as the page has it", tex: "$x\\x00y$" },
  { name: "an escape as the page has it", tex: "$\\x1b]0;owned\\x07$" },
  { name: "a turn of direction", tex: "$a\u202eb$" },
  { name: "isolates without end", tex: "$\\text{\u2066\u2067\u2068}x$" },
  { name: "unseen characters", tex: "$x\u200b\u2060\ufeffy$" },
  { name: "a comment that hides", tex: "$x % \u202e\n y$" },
  { name: "tags of Unicode", tex: "$x\u{e0041}y$" },
  { name: "words that turn", tex: "\u202ewords $x$" },
  { name: "words with a command", tex: "\\href{javascript:alert(1)}{x} $x$" },
  { name: "words in an environment", tex: "\\begin{verbatim}<script>\\end{verbatim} $x$" },
  { name: "a formula and an open dollar", tex: "$x$ costs 5$" },
];

// What may be written in a field of prose: Markdown, HTML and formulas.
const HOSTILE_PROSE = [
  "<script>alert(1)</script>", "<img src=x onerror=alert(1)>", "<b onclick=alert(1)>x</b>", "<style>*{display:none}</style>", "</section></main>", "<!-- ", "<svg><script>",
  "[x](javascript:alert(1))", "[x](JaVaScRiPt:alert(1))", "[x](java\tscript:alert(1))", "[x](&#106;avascript:alert(1))", "[x](data:text/html,<script>alert(1)</script>)",
  "[x](vbscript:x)", "[x](file:///etc/passwd)", "[x](//example.org)", "[x](/etc)", "[x](#field-1)", "[x](x)", "[x](ftp://x)", "[x](http:x)", "[x](\\/\\/x)",
  '[x](http://x"onmouseover="alert(1))', "[x](http://x 'onmouseover=alert(1)')", '[x](http://x "><script>alert(1)</script>")', "[x](http://x/<b>)", "<http://x/\"onclick=\"y>",
  "[x](http://x\u202ey)", "[x](http://\u200bx)", "[x]: javascript:alert(1)\n\n[x]", "[<img src=x>](http://x)", "[![y](javascript:1)](http://x)", "![x](http://127.0.0.1:1/x.png)",
  "![x](data:image/png;base64,AAAA)", "![x][y]\n\n[y]: http://127.0.0.1:1/x.png", "[[x](http://y)](http://z)", "<javascript:alert(1)>", "&lt;script&gt;", "&#60;script&#62;", "&#0; &#x202e;",
  "```x\" onclick=\"alert(1)\n```", "```<script>\n</code></pre><script>alert(1)</script>\n```", "`</code><script>`", "|<script>|\n|-|\n|</table>|", "# </h2><script>", "{onclick=alert(1)}",
  "$\\href{javascript:alert(1)}{x}$", "$\\includegraphics{http://127.0.0.1:1}$", "$</math><script>alert(1)</script>$", "$\\text{</math><script>}$", "$\\htmlStyle{color:red}{x}$",
  "$\\def\\a{\\a\\a}\\a$", "$\\char\"202E$", "$\u202ex$", `$${"{".repeat(900)}$`, "$$\n".repeat(500), "$`$`$", "$x$".repeat(1000), "\u202ereversed", "a\u0085b", "\u2029", "\\<script\\>",
  "> ".repeat(1500) + "x", "- ".repeat(1500) + "x", "1. ".repeat(1000), "[".repeat(3000), "![".repeat(1500), "](".repeat(1500), "``` ".repeat(800), "*a ".repeat(1300), "_".repeat(4000),
  "**".repeat(2000), "<a ".repeat(1300), "&".repeat(1000), "|".repeat(4000), `${"|a".repeat(600)}\n${"|-".repeat(600)}\n${"|\n".repeat(700)}`, "<".repeat(1000), "\\".repeat(4000), "[a]: b\n".repeat(500),
  "~".repeat(4000), "a\n=\n".repeat(900), "#".repeat(4000), "constructor", "__proto__", "[constructor]\n\n[__proto__]: http://x", "[__proto__]\n\n[__proto__]: javascript:x",
];

module.exports = { HOSTILE: [...LINKS, ...FILES, ...MACROS, ...SHAPES, ...LOOKS, ...MARKS], HOSTILE_PROSE };
