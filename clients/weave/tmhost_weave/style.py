"""How a page looks, and what stands around its text. It loads nothing, and no script runs in it."""

HEAD = """<!doctype html>
<html lang="{language}">
<head>
<meta charset="utf-8">
<meta name="viewport" content="width=device-width, initial-scale=1">
<meta name="color-scheme" content="light dark">
<meta name="generator" content="tmhost-weave">
<meta http-equiv="Content-Security-Policy" content="default-src 'none'; style-src 'unsafe-inline'; img-src data:; form-action 'none'; base-uri 'none'">
<title>{title}</title>
{styles}</head>
<body>
<main>
"""
FOOT = "</main>\n</body>\n</html>\n"
STYLE = """<style>
:root{color-scheme:light dark;--ink:#1c2733;--dim:#66727f;--page:#fff;--card:#f6f7f9;--line:#dfe4ea;--mark:#0b62c4;--warn:#a15c00;--error:#b3261e}
@media (prefers-color-scheme:dark){:root{--ink:#dce3ea;--dim:#93a0ad;--page:#11161c;--card:#19212a;--line:#2c3844;--mark:#6db3ff;--warn:#e5b567;--error:#ff8a80}}
*{box-sizing:border-box}
body{margin:0 auto;padding:2rem 1rem 4rem;max-width:46rem;background:var(--page);color:var(--ink);font:16px/1.6 system-ui,sans-serif;overflow-wrap:anywhere}
h1,h2,h3,h4,h5,h6{margin:1.8rem 0 .6rem;line-height:1.25;font-weight:650}
h1{font-size:1.7rem}
h2{font-size:1.35rem}
h3{font-size:1.15rem}
h4,h5,h6{font-size:1rem}
.title{margin-bottom:1.8rem}
.title h1{margin:0;font-size:2rem}
.title p{margin:.3rem 0 0;color:var(--dim)}
.title .subtitle{font-size:1.15rem}
a{color:var(--mark)}
img{max-width:100%;height:auto}
code{font:.9em ui-monospace,Consolas,monospace}
pre{margin:.8rem 0;padding:.6rem .9rem;font:.9rem/1.5 ui-monospace,Consolas,monospace;white-space:pre-wrap;tab-size:4;border:1px solid var(--line);border-radius:.4rem}
pre code{font:inherit}
pre.in,pre.text{background:var(--card)}
.cell{margin:1rem 0}
.cell>*{margin:0 0 .3rem}
pre.out{border-left:.2rem solid var(--line)}
pre.error{color:var(--error);border-left:.2rem solid var(--error)}
div.out{padding:.5rem .9rem;overflow-x:auto;overflow-y:hidden}
div.out img{display:block;background:#fff}
.none{color:var(--warn);font-style:italic}
.tex.display{display:block;margin:0;padding:.5rem 0;overflow-x:auto;overflow-y:hidden;text-align:center}
blockquote{margin:.8rem 0;padding-left:.9rem;border-left:3px solid var(--line);color:var(--dim)}
figure{margin:1rem 0}
figcaption{color:var(--dim);font-size:.9rem}
table{margin:.8rem 0;border-collapse:collapse}
th,td{padding:.2rem .7rem;border:1px solid var(--line);text-align:start}
summary{cursor:pointer;color:var(--dim);font-size:.9rem}
@media print{:root{--ink:#000;--dim:#444;--page:#fff;--card:#fff;--line:#999;--mark:#000;--warn:#000;--error:#000}body{max-width:none;padding:0}pre,img,.out{break-inside:avoid}h1,h2,h3,h4,h5,h6{break-after:avoid}}
</style>
"""
