# Exports: worksheets as the lines that make them again, as Markdown, as pages and as notebooks, by `export` and by lines of `live`.

header='TMWSHEET\001A'

# How many bytes a format of printf gives, as a format of two bytes, in `length`: its characters are of ASCII, and each escape and each
# pair of percent signs is one.
measure() {
    rest=$1 size=0
    while :; do
        case $rest in
        *[\\%]*)
            plain=${rest%%[\\%]*}
            size=$((size + ${#plain} + 1))
            rest=${rest#"$plain"}
            case $rest in
            \\[0-7]*) rest=${rest#????} ;;
            *) rest=${rest#??} ;;
            esac
            ;;
        *) break ;;
        esac
    done
    size=$((size + ${#rest}))
    length="\\$((size / 16384))$((size / 2048 % 8))$((size / 256 % 8))\\$((size / 64 % 4))$((size / 8 % 8))$((size % 8))"
}

# Begins the file `area`: a session `a` of the words `sh` and `w`, without completions. Then records follow, whose payloads are typed in, and
# a closed gate.
begin() {
    [ ! -e area.alt ] || rm area.alt
    printf "$header" >area
    put '\001\001a\000\002\000\002sh\000\001w'
}
put() {
    measure "$1"
    printf "R\\000\\000$length$1" >>area
}
finish() {
    printf '\000' >>area
}

# The file `area` with one field, whose input, prompt and block of an answer are typed in.
answered() {
    begin
    measure "$1"
    put "\\002\\000\\000\\000\\000\\001a$length$1"
    measure "$2"
    put "\\007\\000\\000\\000\\001$length$2\\002$3\\005"
    finish
}

# The page of the file `area`, after its head.
fields_of() {
    "$tmhost" export html area 2>errors >text </dev/null
    status=$?
    sed '1,/^<main>$/d' text
    text_of errors
    echo "status $status"
}

# What stands of a field on a page: NUMBER PROMPT INPUT, and then its output, or what stands in the place of one.
field() {
    printf '<section id="field-%s">\n<header><a href="#field-%s">#%s</a> <bdi>a</bdi></header>\n' "$1" "$1" "$1"
    printf '<pre class="in" dir="ltr"><bdi>%s</bdi><code dir="ltr">%s</code></pre>\n' "$2" "$3"
}
page_end='</main>\n</body>\n</html>\nstatus 0\n'

# A case of a page: NAME INPUT PROMPT BLOCK, and their texts on the page.
page() {
    answered "$2" "$3" "$4"
    compare "$1" "$(fields_of)" "$(field 1 "$6" "$5"; printf "<pre class=\"out\" dir=\"ltr\">\n$7</pre>\n</section>\n$page_end")"
}

# The same of an output alone: NAME BLOCK TEXT.
shown() {
    page "$1" x '> ' "$2" x '&gt; ' "$3"
}

# A whole page.
answered '1<2' '> ' 'verbatim:true & so'
mv area 'a&b.tm'
mkdir -p 'far <away>'
mv 'a&b.tm' 'far <away>'
compare 'a whole page' "$(answer export html 'far <away>/a&b.tm' </dev/null)" '<!doctype html>
<html lang="en">
<head>
<meta charset="utf-8">
<meta name="viewport" content="width=device-width, initial-scale=1">
<meta name="color-scheme" content="light dark">
<meta http-equiv="Content-Security-Policy" content="default-src '\''none'\''; style-src '\''unsafe-inline'\''; img-src data:">
<title>a&amp;b.tm</title>
<style>
:root{color-scheme:light dark;--ink:#1c2733;--dim:#66727f;--page:#f6f7f9;--card:#fff;--line:#dfe4ea;--mark:#0b62c4;--warn:#a15c00;--error:#b3261e}
@media (prefers-color-scheme:dark){:root{--ink:#dce3ea;--dim:#93a0ad;--page:#11161c;--card:#19212a;--line:#2c3844;--mark:#6db3ff;--warn:#e5b567;--error:#ff8a80}}
*{box-sizing:border-box}
body{margin:0 auto;padding:2rem 1rem 4rem;max-width:52rem;background:var(--page);color:var(--ink);font:16px/1.5 system-ui,sans-serif}
h1{margin:0 0 1.5rem;font-size:1.6rem;font-weight:650;overflow-wrap:anywhere}
section{margin:0 0 1rem;border:1px solid var(--line);border-radius:.6rem;background:var(--card);overflow:hidden}
section:target{border-color:var(--mark);box-shadow:0 0 0 1px var(--mark)}
header{display:flex;gap:.6rem;padding:.35rem .9rem;border-bottom:1px solid var(--line);color:var(--dim);font-size:.8rem}
header a{color:var(--mark);text-decoration:none}
pre{margin:0;padding:.6rem .9rem;font:.9rem/1.5 ui-monospace,Consolas,monospace;white-space:pre-wrap;overflow-wrap:anywhere;tab-size:4}
.in bdi{color:var(--dim);user-select:none}
.in code{font:inherit;font-weight:600}
.out{border-top:1px dashed var(--line);overflow-x:auto}
.out img{display:block;max-width:100%;height:auto;margin:.4rem 0;background:#fff}
.error{color:var(--error);border-left:.2rem solid var(--error);padding-left:.5rem}
.none{margin:0;padding:.6rem .9rem;border-top:1px dashed var(--line);color:var(--warn);font-size:.85rem;font-style:italic}
@media print{:root{--ink:#000;--dim:#444;--page:#fff;--card:#fff;--line:#999;--mark:#000;--warn:#000;--error:#000}body{max-width:none;padding:0}section{break-inside:avoid}}
</style>
</head>
<body>
<h1 dir="ltr">a&amp;b.tm</h1>
<main>
<section id="field-1">
<header><a href="#field-1">#1</a> <bdi>a</bdi></header>
<pre class="in" dir="ltr"><bdi>&gt; </bdi><code dir="ltr">1&lt;2</code></pre>
<pre class="out" dir="ltr">
true &amp; so</pre>
</section>
</main>
</body>
</html>
status 0'
compare 'its script' "$(answer export script 'far <away>/a&b.tm' </dev/null)" 'session a plain sh w
new 0 a 1<2
status 0'

# Outputs that could be markup.
shown 'an element' 'verbatim:<script>alert(1)</script>' '&lt;script&gt;alert(1)&lt;/script&gt;'
shown 'the end of the output' 'verbatim:</pre></section></main><img src=x onerror=alert(1)>' '&lt;/pre&gt;&lt;/section&gt;&lt;/main&gt;&lt;img src=x onerror=alert(1)&gt;'
shown 'quotes' 'verbatim:"a" '"'b'" '&quot;a&quot; &#39;b&#39;'
shown 'a reference' 'verbatim:&lt;b&gt; &amp;#60;' '&amp;lt;b&amp;gt; &amp;amp;#60;'
shown 'the end of a section of marked text' 'verbatim:]]>' ']]&gt;'
shown 'a remark' 'verbatim:<!-- -->' '&lt;!-- --&gt;'
shown 'a block of HTML' 'html:<b>bold</b>' '{html:&lt;b&gt;bold&lt;/b&gt;}'
shown 'a formula' 'latex:$x<y$' '<span class="tex">$x&lt;y$</span>'
shown 'a matrix' 'latex:$\\begin{pmatrix}1&2\\\\3&4\\end{pmatrix}$' '<span class="tex">$\\begin{pmatrix}1&amp;2\\\\3&amp;4\\end{pmatrix}$</span>'
shown 'the end of a span in a formula' 'latex:$x$</span><img src=x>' '<span class="tex">$x$&lt;/span&gt;&lt;img src=x&gt;</span>'
shown 'the end of a span' 'verbatim:</span>\002latex:x\005<span class="tex">' '&lt;/span&gt;<span class="tex">x</span>&lt;span class=&quot;tex&quot;&gt;'
shown 'a formula in a formula' 'latex:a\002latex:b\005c' '<span class="tex">a<span class="tex">b</span>c</span>'
shown 'an answer of gp' 'verbatim:\002latex:\\magenta\\%%1 = $\\blue 2$\005' '<span class="tex">\\magenta\\%%1 = $\\blue 2$</span>'
shown 'a line and a formula' 'verbatim:one\n\002latex:$x$\005' 'one\n<span class="tex">$x$</span>'
shown 'a channel latex on a page' 'output#\002latex#x\005' '{latex#x}'
shown 'blocks in a block' 'verbatim:one \002latex:x\005 two \002html:<i>\005' 'one <span class="tex">x</span> two {html:&lt;i&gt;}'
shown 'a channel' 'output#<i>' '&lt;i&gt;'
shown 'a tag that is markup' '<b>:x' '{&lt;b&gt;:x}'
shown 'lines' 'verbatim:one\ntwo\n' 'one\ntwo\n'
shown 'a line feed at the beginning' 'verbatim:\n\nx' '\n\nx'
shown 'a tab' 'verbatim:a\tb' 'a\tb'
shown 'byte 0' 'verbatim:a\000b' 'a\\x00b'
shown 'control bytes' 'verbatim:\001\010\013\014\016\037\177' '\\x01\\x08\\x0b\\x0c\\x0e\\x1f\\x7f'
shown 'a carriage return' 'verbatim:a\r\nb' 'a\\x0d\nb'
shown 'an escape of a terminal' 'verbatim:\033\033[31mred' '\\x1b[31mred'

# Pictures: what stands in an address is base64 alone.
png=iVBORw0KGgoAAAANSUhEUgAAAAEAAAABCAYAAAAfFcSJAAAADUlEQVR42mNk+M9QDwADhgGAWjR9awAAAABJRU5ErkJggg==
drawn() {
    printf '%s' "<img alt=\"A picture ($1)\" src=\"data:image/$2;base64,$3\">"
}
undrawn() {
    shown "$1" "$2" "{${2%%:*}: not drawn}"
}
shown 'a PNG' "image/png;base64:$png" "$(drawn PNG png $png)"
shown 'a PNG between texts' "verbatim:one\n\002image/png;base64:$png\005two" "one\n$(drawn PNG png $png)two"
shown 'a PNG in a formula' "latex:x\002image/png;base64:$png\005" "<span class=\"tex\">x$(drawn PNG png $png)</span>"
shown 'a JPEG' 'image/jpeg;base64:/9j/4AAQ' "$(drawn JPEG jpeg /9j/4AAQ)"
shown 'an SVG of six bytes' 'image/svg+xml:<svg/>' "$(drawn SVG svg+xml PHN2Zy8+)"
shown 'an SVG of eleven bytes' 'image/svg+xml:<svg></svg>' "$(drawn SVG svg+xml PHN2Zz48L3N2Zz4=)"
shown 'an SVG with scripts' 'image/svg+xml:<svg onload='\''alert(1)'\''><script>alert(1)</script></svg>' "$(drawn SVG svg+xml PHN2ZyBvbmxvYWQ9J2FsZXJ0KDEpJz48c2NyaXB0PmFsZXJ0KDEpPC9zY3JpcHQ+PC9zdmc+)"
shown 'an SVG with an entity' 'image/svg+xml:<?xml version="1.0"?><!DOCTYPE svg [<!ENTITY a "b">]><svg>&a;</svg>' "$(drawn SVG svg+xml PD94bWwgdmVyc2lvbj0iMS4wIj8+PCFET0NUWVBFIHN2ZyBbPCFFTlRJVFkgYSAiYiI+XT48c3ZnPiZhOzwvc3ZnPg==)"
undrawn 'an SVG that is none' 'image/svg+xml:<script>alert(1)</script>'
undrawn 'an SVG behind a space' 'image/svg+xml: <svg/>'
undrawn 'a GIF' 'image/gif;base64:R0lGODlh'
undrawn 'a GIF as a PNG' 'image/png;base64:R0lGODlh'
undrawn 'a PNG as a JPEG' "image/jpeg;base64:$png"
undrawn 'an SVG as a PNG' 'image/png;base64:<svg/>'
shown 'no bytes of a PNG' 'image/png;base64:' '{image/png;base64:}'
undrawn 'a quote in a PNG' 'image/png;base64:iVBORw0KGgoAAAANSUhEU"><i>'
undrawn 'an element in a PNG' 'image/png;base64:iVBORw0KGgoAAAANSUhEUAAA<b>AAAAA'
undrawn 'a line feed in a PNG' 'image/png;base64:iVBORw0KGgoAAAANSUhEUAAA\nAAAA'
undrawn 'a stray byte in a PNG' 'image/png;base64:iVBORw0KGgoAAAANSUhEUAAA\377AAA'
undrawn 'a PNG that is cut' 'image/png;base64:iVBORw0KGgoAAAANSUhEUgA'
undrawn 'pads within a PNG' 'image/png;base64:iVBORw0KGgoAAAANSUhEUgA=AAAA'
undrawn 'a pad in front of a symbol' 'image/png;base64:iVBORw0KGgoAAAANSUhEUg=A'
undrawn 'three pads' 'image/png;base64:iVBORw0KGgoAAAANSUhEUgAAA==='
shown 'a picture with a block in it' 'image/png;base64:\002verbatim:x\005' '{image/png;base64:x}'
shown 'a channel of a picture' "image/png;base64#$png" "{image/png;base64#$png}"

# Errors: a block of the channel `error`, or of `output` in one of `output`.
shown 'an error' 'output#\002output#division by zero\005' '<span class="error">division by zero</span>'
shown 'a text and an error' 'output#one\n\002output#<b>\005two' 'one\n<span class="error">&lt;b&gt;</span>two'
shown 'a channel error' 'error#</span>' '<span class="error">&lt;/span&gt;</span>'
shown 'a channel error in a text' 'verbatim:one\n\002error#two\005' 'one\n<span class="error">two</span>'
shown 'a format error' 'error:x' '{error:x}'
shown 'an output in a text' 'verbatim:\002output#x\005' 'x'
shown 'a formula in an error' 'output#\002output#in \002latex:x\005\005' '<span class="error">in <span class="tex">x</span></span>'
shown 'the word error' 'verbatim:<span class="error">' '&lt;span class=&quot;error&quot;&gt;'

# UTF-8, and what is none.
shown 'two bytes' 'verbatim:gr\303\274n' 'gr\303\274n'
shown 'three bytes' 'verbatim:\342\202\254' '\342\202\254'
shown 'four bytes' 'verbatim:\360\237\230\200' '\360\237\230\200'
shown 'the first and last of each length' 'verbatim:\302\200\337\277\340\240\200\357\277\277\360\220\200\200\364\217\277\277' '\302\200\337\277\340\240\200\357\277\277\360\220\200\200\364\217\277\277'
shown 'a byte that begins none' 'verbatim:\377a\376' '\\xffa\\xfe'
shown 'a byte that continues none' 'verbatim:\200<' '\\x80&lt;'
shown 'one that is cut off by markup' 'verbatim:\342\202<b>' '\\xe2\\x82&lt;b&gt;'
shown 'one that is cut off at the end' 'verbatim:x\360\237\230' 'x\\xf0\\x9f\\x98'
shown 'one that is cut off by another' 'verbatim:\342\202\303\274' '\\xe2\\x82\303\274'
shown 'one that is longer than it must be' 'verbatim:\300\274\340\200\274' '\\xc0\\xbc\\xe0\\x80\\xbc'
shown 'a half of a pair' 'verbatim:\355\240\200\355\277\277' '\\xed\\xa0\\x80\\xed\\xbf\\xbf'
shown 'one above the last' 'verbatim:\364\220\200\200' '\\xf4\\x90\\x80\\x80'
shown 'one byte too many' 'verbatim:\303\274\274' '\303\274\\xbc'
shown 'right to left' 'verbatim:\342\200\256evil\342\200\254' '\342\200\256evil\342\200\254'

# Prompts and inputs stand on one line.
page 'a prompt that is markup' x '<b>"&' 'verbatim:A' x '&lt;b&gt;&quot;&amp;' A
page 'a prompt with control bytes' x '\011\012\033[0m' 'verbatim:A' x '\x09\x0a\x1b[0m' A
page 'a prompt that is cut off' x '\342\202' 'verbatim:A' x '\xe2\x82' A
page 'no prompt' x '' 'verbatim:A' x '' A
page 'an input that is markup' '</code><script>' '> ' 'verbatim:A' '&lt;/code&gt;&lt;script&gt;' '&gt; ' A
page 'an input with a tab' 'a\011b' '> ' 'verbatim:A' 'a\x09b' '&gt; ' A
page 'an input from right to left' '\342\200\256x' '> ' 'verbatim:A' "$(printf '\342\200\256x')" '&gt; ' A
page 'no input' '' '> ' 'verbatim:A' '' '&gt; ' A

# U+2028 ends a line of an input, and no other character does.
page 'an input of two lines' 'a\342\200\250  b' '> ' 'verbatim:A' 'a
  b' '&gt; ' A
page 'an input that begins and ends with ends of lines' '\342\200\250a\342\200\250\342\200\250' '> ' 'verbatim:A' '
a

' '&gt; ' A
page 'lines of an input that are markup' '</code>\342\200\250<b>' '> ' 'verbatim:A' '&lt;/code&gt;
&lt;b&gt;' '&gt; ' A
page 'characters beside U+2028' 'a\342\200\251b\342\200\247c\302\205d' '> ' 'verbatim:A' "$(printf 'a\342\200\251b\342\200\247c\302\205d')" '&gt; ' A
page 'U+2028 in a prompt and an output' x 'a\342\200\250' 'verbatim:b\342\200\250c' x "$(printf 'a\342\200\250')" 'b\342\200\250c'

# Markdown: NAME INPUT BLOCK TEXT, of one field.
marked() {
    answered "$2" '> ' "$3"
    compare "$1" "$(answer export markdown area </dev/null)" "$(ending "$4" 0)"
}

# The same of an output as code, after an input `x`: NAME BLOCK FENCE TEXT.
coded() {
    marked "$1" x "$2" "\`\`\`a\nx\n\`\`\`\n\n$3\n$4\n$3\n"
}

# The same of an output that is a formula: NAME FORMULA.
formula() {
    marked "$1" x "latex:$2" "\`\`\`a\nx\n\`\`\`\n\n$2\n"
}

# The same of one that is none: NAME TEXT FENCE.
no_formula() {
    coded "$1" "latex:$2" "${3-\`\`\`}" "{latex:$2}"
}

marked 'Markdown' '1<2' 'verbatim:true & so' '```a\n1<2\n```\n\n```\ntrue & so\n```\n'
marked 'an input with a fence' 'a```' 'verbatim:A' '````a\na```\n````\n\n```\nA\n```\n'
marked 'an input of backquotes' '`````' 'verbatim:A' '``````a\n`````\n``````\n\n```\nA\n```\n'
marked 'an input with two runs' '``` ````x``' 'verbatim:A' '`````a\n``` ````x``\n`````\n\n```\nA\n```\n'
marked 'no input in Markdown' '' 'verbatim:A' '```a\n\n```\n\n```\nA\n```\n'
marked 'an input with a tab in Markdown' 'a\011b' 'verbatim:A' '```a\na\\x09b\n```\n\n```\nA\n```\n'
marked 'an input of two lines in Markdown' 'a\342\200\250b\011c' 'verbatim:A' '```a\na\nb\\x09c\n```\n\n```\nA\n```\n'
marked 'a fence in a line of an input' 'a\342\200\250```\342\200\250b' 'verbatim:A' '````a\na\n```\nb\n````\n\n```\nA\n```\n'
marked 'backquotes on two lines of an input' '``\342\200\250``' 'verbatim:A' '```a\n``\n``\n```\n\n```\nA\n```\n'
coded 'an output with a fence' 'verbatim:```\n</pre>' '````' '```\n</pre>'
coded 'an output that closes a longer fence' 'verbatim:x\n````\n# y' '`````' 'x\n````\n# y'
coded 'two backquotes' 'verbatim:``' '```' '``'
coded 'backquotes on two lines' 'verbatim:``\n``' '```' '``\n``'
coded 'a run through two blocks' 'verbatim:``\002verbatim:``\005`' '``````' '`````'
coded 'a run that a brace cuts' 'verbatim:``\002latex:``\005``' '```' '``{latex:``}``'
coded 'a run behind a tag' 'verbatim:\002html:```\005' '````' '{html:```}'
coded 'a run in a tag' '```:x' '````' '{```:x}'
coded 'a run that a control byte cuts' 'verbatim:``\001``' '```' '``\\x01``'
coded 'a hundred backquotes' "verbatim:$(repeated 100 '`')" "$(repeated 101 '`')" "$(repeated 100 '`')"
coded 'tildes' 'verbatim:~~~\n~~~' '```' '~~~\n~~~'
coded 'a channel in Markdown' 'output#x' '```' 'x'
coded 'control bytes and a stray byte in Markdown' 'verbatim:a\000\r\177\377b' '```' 'a\\x00\\x0d\\x7f\377b'
marked 'a line feed at the end' x 'verbatim:a\n' '```a\nx\n```\n\n```\na\n```\n'
formula 'a formula in Markdown' '$x^2$'
formula 'a formula on its own' '$$\\frac{1}{2}$$'
formula 'a formula of characters' '$x\316\261>0$'
formula 'characters at the ends of a formula on its own' '$$\316\261>\316\262$$'
formula 'blanks at the ends of a formula on its own' '$$ x $$'
formula 'a matrix in Markdown' '$\\begin{pmatrix}1&2\\\\3&4\\end{pmatrix}$'
formula 'a reference in a formula' '$x&lt;$'
formula 'references that could be markup' '$&#91;x&#93;(y)&#60;b&#62;$'
formula 'less than' '$x < y$'
formula 'braces in a formula' '$\\frac{1}{\\sqrt[3]{x}}\\{$'
no_formula 'no dollars' 'x'
no_formula 'a dollar in front' '$x'
no_formula 'a dollar behind' 'x$'
no_formula 'one dollar' '$'
no_formula 'two dollars' '$$'
no_formula 'three dollars' '$$$'
no_formula 'four dollars' '$$$$'
no_formula 'two dollars and one' '$$x$'
no_formula 'one dollar and two' '$x$$'
no_formula 'three dollars at each end' '$$$x$$$'
no_formula 'two formulas' '$x$ and $y$'
no_formula 'a formula with text behind it' '$x$ y'
no_formula 'an element in a formula' '$x<b$'
no_formula 'an end in a formula' '$x</b$'
no_formula 'an address in a formula' '$x<1@a.example>$'
no_formula 'less than at the end of a formula' '$x <$'
no_formula 'a brace that stays open in a formula' '$[x]{onclick=alert(1)}{$'
no_formula 'a brace that closes none in a formula' '$}{$'
no_formula 'a brace that is none in a formula' '$\\{}$'
no_formula 'a blank at the beginning of a formula' '$ [x]{onclick=alert(1)}$'
no_formula 'a blank at the end of a formula' '$[x]{onclick=alert(1)} $'
no_formula 'a blank of two bytes at the beginning of a formula' '$\302\240[x]{onclick=alert(1)}$'
no_formula 'a character at the beginning of a formula' '$\316\261>0$'
no_formula 'a character at the end of a formula' '$x>\316\261$'
no_formula 'a backquote in a formula' '$x`$'
no_formula 'a fence in a formula' '$```$' '````'
no_formula 'a backslash at the end of a formula' '$x\\$'
no_formula 'a line feed in a formula' '$x\ny$'
no_formula 'a link behind a space in a formula' '$[x] (javascript:alert(1))$'
no_formula 'an image behind spaces in a formula' '$![x]  (http://a.example/b)$'
formula 'a bracket with no parenthesis behind its spaces' '$[x] y$'
no_formula 'attributes in a formula' '$*x*{:onclick=alert(1)}$'
no_formula 'two backslashes in front of a brace that closes' '$\\text{\\\\}$'
no_formula 'two backslashes in front of a brace that opens' '$\\\\{x}$'
no_formula 'an image in a formula' '$![x](http://a.example/b)$'
coded 'a tab in a formula' 'latex:$x\ty$' '```' '{latex:$x\ty$}'
coded 'a control byte in a formula' 'latex:$x\001$' '```' '{latex:$x\\x01$}'
coded 'a formula in a block' 'verbatim:\002latex:$x$\005' '```' '{latex:$x$}'
coded 'a block in a formula' 'latex:$\002verbatim:x\005$' '```' '{latex:$x$}'
coded 'a formula and a block' 'latex:$x$\002verbatim:y\005' '```' '{latex:$x$y}'
coded 'a channel latex' 'latex#$x$' '```' '{latex#$x$}'
coded 'a formula that is no latex' 'html:$x$' '```' '{html:$x$}'

# A formula behind a text that was printed: NAME BLOCK FENCE TEXT FORMULA.
behind() {
    marked "$1" x "$2" "\`\`\`a\nx\n\`\`\`\n\n$3\n$4\n$3\n\n$5\n"
}
behind 'a text and a formula' 'verbatim:one\ntwo\n\002latex:$x$\005' '```' 'one\ntwo' '$x$'
behind 'a text on the line of a formula' 'verbatim:is \002latex:$x$\005' '```' 'is ' '$x$'
behind 'a text and a formula in a channel' 'output#one\n\002latex:$$x$$\005' '```' 'one' '$$x$$'
behind 'a text with a fence and a formula' 'verbatim:```\n$y$\n\002latex:$x$\005' '````' '```\n$y$' '$x$'
behind 'a text with control bytes and a formula' 'verbatim:a\000\tb\n\n\002latex:$x$\005' '```' 'a\\x00\tb\n' '$x$'
coded 'a text and what is no formula' 'verbatim:one\n\002latex:$x<b$\005' '```' 'one\n{latex:$x<b$}'
coded 'a text and two formulas' 'verbatim:one\n\002latex:$x$\005\002latex:$y$\005' '```' 'one\n{latex:$x$}{latex:$y$}'
coded 'a text, a formula and a text' 'verbatim:one\n\002latex:$x$\005two' '```' 'one\n{latex:$x$}two'
coded 'a text and a formula in a tag' 'html:one\n\002latex:$x$\005' '```' '{html:one\n{latex:$x$}}'
coded 'a text and a formula in a block' 'verbatim:one\n\002verbatim:\002latex:$x$\005\005' '```' 'one\n{latex:$x$}'
coded 'a text and a channel latex' 'verbatim:one\n\002latex#$x$\005' '```' 'one\n{latex#$x$}'

# A cell of a notebook: NUMBER SOURCE OUTPUTS.
cell() {
    printf '%s' '{"cell_type":"code","execution_count":null,"id":"field-'"$1"'","metadata":{"tmhost":{"session":"a"}},"outputs":['"$3"'],"source":"'"$2"'"}'
}

# What stands after the cells of a notebook, and its status.
cells_end='],"metadata":{},"nbformat":4,"nbformat_minor":5}status 0'

# A case of a notebook of one field: NAME INPUT BLOCK, the source and the outputs in JSON.
noted_as() {
    answered "$2" '> ' "$3"
    compare "$1" "$(answer export notebook area </dev/null)" '{"cells":['"$(cell 1 "$4" "$5")$cells_end"
}

# What was answered, what was shown, what was printed and what is an error, in JSON.
result_json() {
    printf '%s' '{"data":{'"$1"'},"execution_count":null,"metadata":{},"output_type":"execute_result"}'
}
formula_json() {
    result_json '"text/latex":"'"$1"'","text/plain":"'"$1"'"'
}
picture_json() {
    printf '%s' '{"data":{"'"$2"'":"'"$3"'","text/plain":"A picture ('"$1"')"},"metadata":{},"output_type":"display_data"}'
}
stream_json() {
    printf '%s' '{"name":"stdout","output_type":"stream","text":"'"$1"'"}'
}
error_json() {
    printf '%s' '{"ename":"Error","evalue":"'"$1"'","output_type":"error","traceback":["'"$1"'"]}'
}

# A case of one whose output is an answer: NAME INPUT BLOCK, the source and the texts of the output in JSON.
noted() {
    noted_as "$1" "$2" "$3" "$4" "$(result_json "$5")"
}

# A case of these outputs: NAME BLOCK OUTPUTS.
outputs() {
    noted_as "$1" x "$2" x "$3"
}

noted 'a notebook' '1<2' 'verbatim:true & so' '1<2' '"text/plain":"true & so"'
noted 'no input in a notebook' '' 'verbatim:A' '' '"text/plain":"A"'
noted 'an input with a tab in a notebook' 'a\011b' 'verbatim:A' 'a\tb' '"text/plain":"A"'
noted 'quotes in a notebook' '"a"' 'verbatim:"\\b"' '\"a\"' '"text/plain":"\"\\b\""'
noted 'lines in a notebook' x 'verbatim:one\n\ttwo\n' x '"text/plain":"one\n\ttwo\n"'
noted 'control bytes in a notebook' x 'verbatim:a\000\r\033\033\177b' x '"text/plain":"a\\x00\\x0d\\x1b\\x7fb"'
noted 'stray bytes in a notebook' x 'verbatim:\377a\342\202b\355\240\200' x '"text/plain":"\\xffa\\xe2\\x82b\\xed\\xa0\\x80"'
noted 'a character that is cut off in a notebook' x 'verbatim:x\360\237\230' x '"text/plain":"x\\xf0\\x9f\\x98"'
noted 'characters in a notebook' 'gr\303\274n' 'verbatim:\342\202\254\360\237\230\200' "$(printf 'gr\303\274n')" "$(printf '"text/plain":"\342\202\254\360\237\230\200"')"
outputs 'a formula in a notebook' 'latex:$x^2$' "$(formula_json '$x^2$')"
outputs 'a formula on its own in a notebook' 'latex:$$\\frac{1}{2}$$' "$(formula_json '$$\\frac{1}{2}$$')"
outputs 'a stray byte in a formula' 'latex:$x\377y$' "$(formula_json '$x\\xffy$')"
outputs 'a matrix in a notebook' 'latex:$\\begin{pmatrix}1&2\\end{pmatrix}$' "$(formula_json '$\\begin{pmatrix}1&2\\end{pmatrix}$')"
outputs 'less than in a notebook' 'latex:$x < y$' "$(formula_json '$x < y$')"
noted 'an element in a formula in a notebook' x 'latex:$x<b$' x '"text/plain":"{latex:$x<b$}"'
noted 'a formula that is none behind a text in a notebook' x 'verbatim:is \002latex:$x<b$\005' x '"text/plain":"is {latex:$x<b$}"'
# Outputs of their own, where one of them is more than text.
outputs 'a text and a formula in a notebook' 'verbatim:one\n\ttwo\n\002latex:$x^2$\005' "$(stream_json 'one\n\ttwo\n'),$(formula_json '$x^2$')"
outputs 'a text on the line of a formula in a notebook' 'verbatim:is \002latex:$x$\005' "$(stream_json 'is '),$(formula_json '$x$')"
outputs 'stray and control bytes in front of a formula in a notebook' 'verbatim:\377\001\n\002latex:$x\377y$\005' "$(stream_json '\\xff\\x01\n'),$(formula_json '$x\\xffy$')"
outputs 'a formula in front of a text in a notebook' 'verbatim:\002latex:$x$\005 it is' "$(formula_json '$x$'),$(stream_json ' it is')"
outputs 'two formulas in a notebook' 'output#\002latex:$x$\005\002latex:$y$\005' "$(formula_json '$x$'),$(formula_json '$y$')"
outputs 'a formula behind one that is none in a notebook' 'output#\002latex:$x<b$\005\002latex:$y$\005' "$(stream_json '{latex:$x<b$}'),$(formula_json '$y$')"
outputs 'a PNG in a notebook' "image/png;base64:$png" "$(picture_json PNG image/png $png)"
outputs 'a JPEG in a notebook' 'image/jpeg;base64:/9j/4AAQ' "$(picture_json JPEG image/jpeg /9j/4AAQ)"
outputs 'an SVG in a notebook' 'image/svg+xml:<svg a="b">\n</svg>' "$(picture_json SVG image/svg+xml '<svg a=\"b\">\n</svg>')"
outputs 'a PNG between texts in a notebook' "output#one\n\002image/png;base64:$png\005two" "$(stream_json 'one\n'),$(picture_json PNG image/png $png),$(stream_json two)"
outputs 'a PNG beside HTML in a notebook' "output#\002html:<b>\005\002image/png;base64:$png\005" "$(stream_json '{html:<b>}'),$(picture_json PNG image/png $png)"
outputs 'a GIF in a notebook' 'image/gif;base64:R0lGODlh' "$(stream_json '{image/gif;base64: not drawn}')"
outputs 'a PNG that is cut in a notebook' 'verbatim:\002image/png;base64:iVBORw0KGgoAAAANSUhEUgA\005' "$(stream_json '{image/png;base64: not drawn}')"
outputs 'a stray byte in a format in a notebook' 'image/"\377":x' "$(stream_json '{image/\"\\xff\": not drawn}')"
outputs 'an error in a notebook' 'output#\002output#division by "zero"\005' "$(error_json 'division by \"zero\"')"
outputs 'a text and an error in a notebook' 'output#one\n\002output#two\005three' "$(stream_json 'one\n'),$(error_json two),$(stream_json three)"
outputs 'a channel error in a notebook' 'error#x' "$(error_json x)"
outputs 'a channel error in a text in a notebook' 'verbatim:one\n\002error#two\005' "$(stream_json 'one\n'),$(error_json two)"
outputs 'blocks in an error in a notebook' 'output#\002output#in \002html:<b>\005 and \002latex:$x$\005\005' "$(error_json 'in {html:<b>} and {latex:$x$}')"
# A block of the channel of answers in another block, as adapters write it, is as many outputs as it has items.
outputs 'an error in an answer in a text in a notebook' 'verbatim:\002output#\002output#division by zero\005\005' "$(error_json 'division by zero')"
outputs 'a text in front of such an error in a notebook' 'verbatim:one\n\002output#\002output#two\005\005' "$(stream_json 'one\n'),$(error_json two)"
outputs 'texts around an error in such an answer in a notebook' 'verbatim:one\n\002output#two\n\002output#three\005four\005' "$(stream_json 'one\n'),$(stream_json 'two\n'),$(error_json three),$(stream_json four)"
outputs 'a formula in such an answer in a notebook' 'verbatim:one\n\002output#\002latex:$x$\005\005' "$(stream_json 'one\n'),$(formula_json '$x$')"
outputs 'a PNG in front of an answer that is text in a notebook' "verbatim:\002image/png;base64:$png\005\002output#one\005" "$(picture_json PNG image/png $png),$(stream_json one)"
outputs 'an empty answer behind a formula in a notebook' 'verbatim:\002latex:$x$\005\002output#\005' "$(formula_json '$x$')"
outputs 'an error within one in a notebook' 'verbatim:\002output#\002output#one \002output#two\005\005\005' "$(error_json 'one two')"
noted 'an error two blocks deeper in a notebook' x 'verbatim:\002verbatim:\002output#\002output#x\005\005\005' x '"text/plain":"x"'
noted 'an output in a text in a notebook' x 'verbatim:\002output#x\005' x '"text/plain":"x"'
noted 'a PNG in a tag in a notebook' x "html:\002image/png;base64:$png\005" x '"text/plain":"{html:{image/png;base64:'"$png"'}}"'
noted 'a PNG in a text in a text in a notebook' x "verbatim:\002verbatim:\002image/png;base64:$png\005\005" x '"text/plain":"{image/png;base64:'"$png"'}"'

noted 'an input of lines in a notebook' 'a\342\200\250\011b\342\200\250' 'verbatim:A\342\200\250B' 'a\n\tb\n' "$(printf '"text/plain":"A\342\200\250B"')"
noted 'a block of HTML in a notebook' x 'html:<b>bold</b>' x '"text/plain":"{html:<b>bold</b>}"'
noted 'a tag that is markup in a notebook' x '<b>:x' x '"text/plain":"{<b>:x}"'

# Answers that show nothing have no output in any format: NAME BLOCK.
unseen() {
    answered x '> ' "$2"
    compare "$1 on a page" "$(fields_of)" "$(field 1 '&gt; ' x; printf "</section>\n$page_end")"
    compare "$1 in Markdown" "$(answer export markdown area </dev/null)" "$(ending '```a\nx\n```\n' 0)"
    compare "$1 in a notebook" "$(answer export notebook area </dev/null)" '{"cells":['"$(cell 1 x '')$cells_end"
}

# Those that show a byte have one: NAME BLOCK, and the texts on a page, in Markdown and in a notebook.
seen() {
    shown "$1 on a page" "$2" "$3"
    coded "$1 in Markdown" "$2" '```' "$4"
    noted "$1 in a notebook" x "$2" x '"text/plain":"'"$5"'"'
}
unseen 'no output' 'verbatim:'
unseen 'an empty channel' 'output#'
unseen 'empty blocks in a block' 'verbatim:\002output#\002verbatim:\005\005\002verbatim:\005'
unseen 'an empty error' 'output#\002output#\005'
seen 'a space' 'verbatim: ' ' ' ' ' ' '
seen 'a tab' 'output#\t' '\t' '\t' '\t'
seen 'byte 0 alone' 'verbatim:\000' '\\x00' '\\x00' '\\x00'
seen 'a text in the last of empty blocks' 'verbatim:\002verbatim:\005\002output#\002verbatim:x\005\005' x x x
seen 'an empty block of HTML' 'html:' '{html:}' '{html:}' '{html:}'
seen 'an empty block of HTML in an empty block' 'verbatim:\002html:\005' '{html:}' '{html:}' '{html:}'
seen 'an empty formula' 'latex:' '<span class="tex"></span>' '{latex:}' '{latex:}'
shown 'a line feed alone on a page' 'verbatim:\n' '\n'
marked 'a line feed alone in Markdown' x 'verbatim:\n' '```a\nx\n```\n\n```\n\n```\n'
noted 'a line feed alone in a notebook' x 'verbatim:\n' x '"text/plain":"\n"'

# A field whose answer shows nothing, in front of one whose answer does.
begin
put '\002\000\000\000\000\001a\000\001x'
put '\002\000\000\000\001\001a\000\001y'
put '\007\000\000\000\001\000\002> \002verbatim:\005'
put '\007\000\000\000\002\000\002> \002verbatim:B\005'
finish
compare 'nothing in front of an output' "$(fields_of)" "$(field 1 '&gt; ' x; echo '</section>'; field 2 '&gt; ' y; printf '<pre class="out" dir="ltr">\nB</pre>\n</section>\n'"$page_end")"
compare 'its Markdown' "$(answer export markdown area </dev/null)" '```a
x
```

```a
y
```

```
B
```
status 0'
compare 'its notebook' "$(answer export notebook area </dev/null)" '{"cells":['"$(cell 1 x ''),$(cell 2 y "$(result_json '"text/plain":"B"')")$cells_end"

# Fields without an answer, in their order.
begin
put '\002\000\000\000\000\001a\000\001x'
put '\002\000\000\000\000\001a\000\001y'
put '\010\000\000\000\002\002'
finish
compare 'fields without an answer' "$(fields_of)" "$(field 2 '&gt; ' y; echo '<p class="none">no answer: Ended</p>'; echo '</section>'; field 1 '&gt; ' x; echo '<p class="none">no answer</p>'; echo '</section>'; printf "$page_end")"
compare 'their Markdown' "$(answer export markdown area </dev/null)" '```a
y
```

*no answer: Ended*

```a
x
```

*no answer*
status 0'
compare 'their script' "$(answer export script area </dev/null)" 'session a plain sh w
new 0 a y
new 1 a x
status 0'
compare 'their notebook' "$(answer export notebook area </dev/null)" '{"cells":['"$(cell 2 y ''),$(cell 1 x '')$cells_end"

# Scripts: NAME SCRIPT TEXT. A worksheet that is made by the script is exported as the text; run over an empty worksheet, the text makes
# one with the same script.
scripted() {
    rm -f other other.alt
    fresh
    "$tmhost" create other
    printf "$2" >given
    "$tmhost" run sheet <given >/dev/null
    compare "$1" "$(answer export script sheet </dev/null)" "$(ending "$3" 0)"
    "$tmhost" export script sheet >given
    "$tmhost" run other <given >/dev/null
    compare "$1, run" "$(answer export script other </dev/null)" "$(ending "$3" 0)"
}
scripted 'an empty worksheet' '' ''
scripted 'sessions' 'session a plain sh\nsession b tab sh -c x\nsession a2_-Z plain gr\303\274n\n' 'session a plain sh\nsession b tab sh -c x\nsession a2_-Z plain gr\303\274n\n'
scripted 'fields that were moved' 'session a plain sh\nnew 0 a 1\nnew 1 a 2\nnew 2 a 3\nmove 3 0\n' 'session a plain sh\nnew 0 a 3\nnew 1 a 1\nnew 2 a 2\n'
scripted 'fields that went' 'session a plain sh\nnew 0 a 1\nnew 1 a 2\nnew 2 a 3\nremove 2\nremove 1\n' 'session a plain sh\nnew 0 a 3\n'
scripted 'inputs with spaces' 'session a plain sh\nnew 0 a  x \nnew 1 a\nnew 2 a  \nnew 3 a #y\n' 'session a plain sh\nnew 0 a  x \nnew 1 a \nnew 2 a  \nnew 3 a #y\n'
scripted 'inputs with a tab and characters' 'session a plain sh\nnew 0 a a\tb\nnew 1 a \342\202\254\n' 'session a plain sh\nnew 0 a a\tb\nnew 1 a \342\202\254\n'
scripted 'inputs of several lines' 'session a plain sh\nnew 0 a a\342\200\250b\342\200\250\342\200\250\nnew 1 a \342\200\250\n' 'session a plain sh\nnew 0 a a\342\200\250b\342\200\250\342\200\250\nnew 1 a \342\200\250\n'
scripted 'fields of two sessions' 'session a plain sh\nsession b plain sh\nnew 0 b x\nnew 0 a y\n' 'session a plain sh\nsession b plain sh\nnew 0 a y\nnew 1 b x\n'

# A word with a space, which only journals of other callers can have.
begin
put '\001\001b\000\002\000\002sh\000\003a b'
finish
compare 'a word with a space' "$(answer export script area </dev/null)" "$(ending 'fault 36 NoScript\n' 1)"
compare 'its page' "$(fields_of)" "$(printf "$page_end")"
compare 'its Markdown' "$(answer export markdown area </dev/null)" 'status 0'
compare 'its notebook' "$(answer export notebook area </dev/null)" '{"cells":['"$cells_end"

# A line of `live` exports too: NAME LINES TEXT, over the file `area`.
live_exports() {
    printf "$2" >given
    compare "$1" "$(answer live area <given)" "$(ending "$3" 0)"
}

# The same in JSON, where the text that is wanted is the input here: TASK NAME LINES. The style of a page is left out.
json_exports() {
    want=$(cat; echo 'status 0')
    printf "$3" >given
    answer "$1" --json area <given >text
    compare "$2" "$(sed 's/<style>.*<\/style>/<style>/' text)" "$want"
}
live_exports 'no script by live' 'export script\nexport markdown\nprint\n' 'no script\n'
json_exports live 'no script by live, in JSON' 'export script\nexport markdown\n' <<'END_OF_JSON'
{"format":1,"program":"tmhost","protocol":2,"type":"hello","version":"0.1.0"}
{"format":"script","line":1,"text":null,"type":"exported"}
{"format":"markdown","line":2,"text":"","type":"exported"}
{"type":"end"}
END_OF_JSON
answered x '> ' 'verbatim:A'
live_exports 'exports by live' 'export script\n# x\nexport markdown\nexport notebook\nexport json\nexport pdf\n' 'session a plain sh w\nnew 0 a x\n```a\nx\n```\n\n```\nA\n```\nexport notebook needs --json\nexport json needs --json\nbad line 6\n'
echo 'export html' >given
answer live area <given >text
compare 'a page by live' "$(sed '/^<style>$/,/^<\/style>$/d' text)" '<!doctype html>
<html lang="en">
<head>
<meta charset="utf-8">
<meta name="viewport" content="width=device-width, initial-scale=1">
<meta name="color-scheme" content="light dark">
<meta http-equiv="Content-Security-Policy" content="default-src '\''none'\''; style-src '\''unsafe-inline'\''; img-src data:">
<title>worksheet</title>
</head>
<body>
<h1 dir="ltr">worksheet</h1>
<main>
<section id="field-1">
<header><a href="#field-1">#1</a> <bdi>a</bdi></header>
<pre class="in" dir="ltr"><bdi>&gt; </bdi><code dir="ltr">x</code></pre>
<pre class="out" dir="ltr">
A</pre>
</section>
</main>
</body>
</html>
status 0'
for task in live run; do
    json_exports $task "exports by $task, in JSON" 'export script\nexport markdown\nexport html\nexport notebook\nexport json\nexport pdf\n' <<'END_OF_JSON'
{"format":1,"program":"tmhost","protocol":2,"type":"hello","version":"0.1.0"}
{"format":"script","line":1,"text":"session a plain sh w\nnew 0 a x\n","type":"exported"}
{"format":"markdown","line":2,"text":"```a\nx\n```\n\n```\nA\n```\n","type":"exported"}
{"format":"html","line":3,"text":"<!doctype html>\n<html lang=\"en\">\n<head>\n<meta charset=\"utf-8\">\n<meta name=\"viewport\" content=\"width=device-width, initial-scale=1\">\n<meta name=\"color-scheme\" content=\"light dark\">\n<meta http-equiv=\"Content-Security-Policy\" content=\"default-src 'none'; style-src 'unsafe-inline'; img-src data:\">\n<title>worksheet</title>\n<style>\n</head>\n<body>\n<h1 dir=\"ltr\">worksheet</h1>\n<main>\n<section id=\"field-1\">\n<header><a href=\"#field-1\">#1</a> <bdi>a</bdi></header>\n<pre class=\"in\" dir=\"ltr\"><bdi>&gt; </bdi><code dir=\"ltr\">x</code></pre>\n<pre class=\"out\" dir=\"ltr\">\nA</pre>\n</section>\n</main>\n</body>\n</html>\n","type":"exported"}
{"format":"notebook","line":4,"text":"{\"cells\":[{\"cell_type\":\"code\",\"execution_count\":null,\"id\":\"field-1\",\"metadata\":{\"tmhost\":{\"session\":\"a\"}},\"outputs\":[{\"data\":{\"text/plain\":\"A\"},\"execution_count\":null,\"metadata\":{},\"output_type\":\"execute_result\"}],\"source\":\"x\"}],\"metadata\":{},\"nbformat\":4,\"nbformat_minor\":5}","type":"exported"}
{"format":"json","line":5,"text":"{\"format\":1,\"program\":\"tmhost\",\"protocol\":2,\"type\":\"hello\",\"version\":\"0.1.0\"}\n{\"field\":{\"id\":1,\"input\":\"x\",\"output\":{\"items\":[\"A\"],\"kind\":\"format\",\"tag\":\"verbatim\"},\"prompt\":\"> \",\"session\":\"a\",\"shown\":\"A\",\"state\":\"answered\"},\"type\":\"field\"}\n{\"fields\":[1],\"next\":2,\"sessions\":[{\"life\":null,\"name\":\"a\",\"tab\":false,\"waiting\":0,\"words\":[\"sh\",\"w\"]}],\"type\":\"sheet\"}\n{\"type\":\"end\"}\n","type":"exported"}
{"line":6,"type":"bad"}
{"type":"end"}
END_OF_JSON
done
echo 'export script' >given
compare 'an export by run' "$(answer run area <given)" "$(ending 'session a plain sh w\nnew 0 a x\n' 0)"
answered x '> ' 'verbatim:\351'
json_exports live 'an export that is not UTF-8' 'export markdown\nexport html\n' <<'END_OF_JSON'
{"format":1,"program":"tmhost","protocol":2,"type":"hello","version":"0.1.0"}
{"format":"markdown","line":1,"text":{"base64":"YGBgYQp4CmBgYAoKYGBgCukKYGBgCg=="},"type":"exported"}
{"format":"html","line":2,"text":"<!doctype html>\n<html lang=\"en\">\n<head>\n<meta charset=\"utf-8\">\n<meta name=\"viewport\" content=\"width=device-width, initial-scale=1\">\n<meta name=\"color-scheme\" content=\"light dark\">\n<meta http-equiv=\"Content-Security-Policy\" content=\"default-src 'none'; style-src 'unsafe-inline'; img-src data:\">\n<title>worksheet</title>\n<style>\n</head>\n<body>\n<h1 dir=\"ltr\">worksheet</h1>\n<main>\n<section id=\"field-1\">\n<header><a href=\"#field-1\">#1</a> <bdi>a</bdi></header>\n<pre class=\"in\" dir=\"ltr\"><bdi>&gt; </bdi><code dir=\"ltr\">x</code></pre>\n<pre class=\"out\" dir=\"ltr\">\n\\xe9</pre>\n</section>\n</main>\n</body>\n</html>\n","type":"exported"}
{"type":"end"}
END_OF_JSON

# Faults: nothing is written.
for format in script markdown html notebook; do
    words "$format of a file that is missing" 1 'fault 32 Disk\n' export $format nowhere.tm
    printf 'x' >area
    rm -f area.alt
    words "$format of what is no worksheet" 1 'fault 31 NotASheet\n' export $format area
    printf "$header"'R\000\000\000\001x\000' >area
    words "$format of a damaged worksheet" 1 'fault 30 Damaged 10\n' export $format area
done
words 'a format that there is none of' 2 "error: there is no such format: FORMAT is script, markdown, html, notebook or json\n\nFor more information, try 'tmhost export --help'.\n" export HTML area
words 'no format' 2 "error: there is no such format: FORMAT is script, markdown, html, notebook or json\n\nFor more information, try 'tmhost export --help'.\n" export '' area

# A worksheet that another has, and outputs that can't be written.
talk
say 'session a plain sh\nnew 0 a x\n# held\nprint 1\nexport script\n'
hears 'a worksheet in use, held' 'ok\nfield 1\n#1 a\n> x\n?\nsession a plain sh\nnew 0 a x\n'
for format in script markdown html notebook; do
    words "$format of a worksheet in use" 1 'fault 35 InUse\n' export $format sheet
done
hang_up 'a worksheet in use' '' '#1 a\n> x\n?\n'
for format in script markdown html notebook; do
    "$tmhost" export $format sheet >/dev/full 2>errors
    compare "$format on a full output" "$? $(text_of errors)" '1 fault 42 Output'
done
counted exports
