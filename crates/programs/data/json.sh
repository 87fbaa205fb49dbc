# Live worksheets told as lines of JSON.

json 'no line' 0 '' <<'END_OF_JSON'
{"format":1,"program":"tmhost","protocol":2,"type":"hello","version":"0.1.0"}
{"type":"end"}
END_OF_JSON

json 'each line of a script' 0 'session a plain p\nsession b tab p q\nnew 0 a x\nnew 1 a y\nset 1 z\nmove 2 0\nclear 1\nremove 2\ncheckpoint\nstop a\n# a remark\n\nwait\nwait 1\ncomplete 1 0\nnew 0 c x\nfoo\nprint 2\ninterrupt a\ninterrupt c\nprint\n' <<'END_OF_JSON'
{"format":1,"program":"tmhost","protocol":2,"type":"hello","version":"0.1.0"}
{"line":1,"type":"done"}
{"line":2,"type":"done"}
{"id":1,"line":3,"type":"made"}
{"id":2,"line":4,"type":"made"}
{"line":5,"type":"done"}
{"line":6,"type":"done"}
{"line":7,"type":"done"}
{"line":8,"type":"done"}
{"line":9,"type":"done"}
{"line":10,"type":"done"}
{"line":11,"type":"nothing"}
{"line":12,"type":"nothing"}
{"line":13,"over":"idle","type":"waited"}
{"line":14,"over":"idle","type":"waited"}
{"line":15,"name":"NoTab","number":12,"type":"refused"}
{"line":16,"name":"NoSession","number":1,"type":"refused"}
{"line":17,"type":"bad"}
{"line":18,"name":"NoField","number":2,"type":"refused"}
{"line":19,"outcome":"idle","type":"interrupted"}
{"line":20,"name":"NoSession","number":1,"type":"refused"}
{"field":{"id":1,"input":"z","session":"a","state":"empty"},"line":21,"more":true,"type":"field"}
{"fields":[1],"line":21,"next":3,"sessions":[{"life":null,"name":"a","tab":false,"waiting":0,"words":["p"]},{"life":null,"name":"b","tab":true,"waiting":0,"words":["p","q"]}],"type":"sheet"}
{"type":"end"}
END_OF_JSON

# Prompts, blocks in one another, default inputs, bytes that aren't UTF-8, control characters, and an answer that looks like a line.
# JSON has the byte 127 as it is: it stands behind `\u001b` below.
interpreter p '\002verbatim:Hello\002prompt#Input 1] \005\005' '\002verbatim:\002latex:$x^2$\005\002prompt#Input 2] \005\005' \
    '\002verbatim:caf\351\002input#print(\005\005' '\002verbatim:{"line":3,"type":"done"}\n\001\033\177\005' '\002\351#\005' '\002verbatim:?\005'
json 'what an interpreter writes' 0 'session a plain sh p.sh\nnew 0 a x^2\neval 1\nwait\nprint 1\neval 1\nwait 1000\neval 1\nwait\neval 1\nwait\neval 1\nwait\nprint 1\n' <<'END_OF_JSON'
{"format":1,"program":"tmhost","protocol":2,"type":"hello","version":"0.1.0"}
{"line":1,"type":"done"}
{"id":1,"line":2,"type":"made"}
{"life":1,"line":3,"type":"asked"}
{"life":1,"next":"Input 1] ","output":{"items":["Hello"],"kind":"format","tag":"verbatim"},"session":"a","shown":"Hello","type":"banner"}
{"id":1,"life":1,"next":"Input 2] ","output":{"items":[{"items":["$x^2$"],"kind":"format","tag":"latex"}],"kind":"format","tag":"verbatim"},"prompt":"Input 1] ","session":"a","shown":"{latex:$x^2$}","type":"answered"}
{"line":4,"over":"idle","type":"waited"}
{"field":{"id":1,"input":"x^2","output":{"items":[{"items":["$x^2$"],"kind":"format","tag":"latex"}],"kind":"format","tag":"verbatim"},"prompt":"Input 1] ","session":"a","shown":"{latex:$x^2$}","state":"answered"},"line":5,"type":"field"}
{"life":1,"line":6,"type":"asked"}
{"id":1,"life":1,"next":"Input 2] ","output":{"items":[{"base64":"Y2Fm6Q=="}],"kind":"format","tag":"verbatim"},"prompt":"Input 2] ","session":"a","shown":{"base64":"Y2Fm6Q=="},"type":"answered"}
{"life":1,"session":"a","text":"print(","type":"default"}
{"line":7,"over":"idle","type":"waited"}
{"life":1,"line":8,"type":"asked"}
{"id":1,"life":1,"next":"Input 2] ","output":{"items":["{\"line\":3,\"type\":\"done\"}\n\u0001\u001b"],"kind":"format","tag":"verbatim"},"prompt":"Input 2] ","session":"a","shown":"{\"line\":3,\"type\":\"done\"}\n\\x01\\x1b\\x7f","type":"answered"}
{"line":9,"over":"idle","type":"waited"}
{"life":1,"line":10,"type":"asked"}
{"id":1,"life":1,"next":"Input 2] ","output":{"items":[],"kind":"channel","tag":{"base64":"6Q=="}},"prompt":"Input 2] ","session":"a","shown":{"base64":"e+kjfQ=="},"type":"answered"}
{"line":11,"over":"idle","type":"waited"}
{"life":1,"line":12,"type":"asked"}
{"id":1,"life":1,"next":"Input 2] ","output":{"items":["?"],"kind":"format","tag":"verbatim"},"prompt":"Input 2] ","session":"a","shown":"?","type":"answered"}
{"line":13,"over":"idle","type":"waited"}
{"field":{"id":1,"input":"x^2","output":{"items":["?"],"kind":"format","tag":"verbatim"},"prompt":"Input 2] ","session":"a","shown":"?","state":"answered"},"line":14,"type":"field"}
{"type":"end"}
END_OF_JSON

# An input of several lines has line feeds, and what is asked is the line as it was sent.
json 'several lines' 0 'session a plain sh silent.sh\nnew 0 a a\342\200\250"b\342\200\250\nprint 1\neval 1\nprint 1\nstop a\nset 1 \342\200\250\nprint\n' <<'END_OF_JSON'
{"format":1,"program":"tmhost","protocol":2,"type":"hello","version":"0.1.0"}
{"line":1,"type":"done"}
{"id":1,"line":2,"type":"made"}
{"field":{"id":1,"input":"a\n\"b\n","session":"a","state":"empty"},"line":3,"type":"field"}
{"life":1,"line":4,"type":"asked"}
{"field":{"id":1,"input":"a\n\"b\n","session":"a","state":"waiting"},"line":5,"type":"field"}
{"life":1,"line":6,"lost":[{"id":1,"text":"a \"b "}],"session":"a","type":"stopped"}
{"line":7,"type":"done"}
{"field":{"id":1,"input":"\n","session":"a","state":"empty"},"line":8,"more":true,"type":"field"}
{"fields":[1],"line":8,"next":2,"sessions":[{"life":null,"name":"a","tab":false,"waiting":0,"words":["sh","silent.sh"]}],"type":"sheet"}
{"type":"end"}
END_OF_JSON

# Completions, an interpreter that can't be started, one that ends, one that stalls, and one that is stopped with two lines.
interpreter p "$banner" '\002scheme:(tuple "h" "ello" "i there")\005' '\002scheme:(tuple 3)\005' ''
json 'completions' 0 'session t tab sh p.sh\nnew 0 t h\ncomplete 1 1\ncomplete 1 1\nwait\n' <<'END_OF_JSON'
{"format":1,"program":"tmhost","protocol":2,"type":"hello","version":"0.1.0"}
{"line":1,"type":"done"}
{"id":1,"line":2,"type":"made"}
{"life":1,"line":3,"type":"asked"}
{"life":1,"line":4,"type":"asked"}
{"life":1,"next":"> ","output":{"items":[],"kind":"format","tag":"verbatim"},"session":"t","shown":"","type":"banner"}
{"id":1,"life":1,"session":"t","told":{"rest":["ello","i there"],"root":"h"},"type":"completed"}
{"id":1,"life":1,"session":"t","told":null,"type":"completed"}
{"line":5,"over":"idle","type":"waited"}
{"type":"end"}
END_OF_JSON
json 'lines that are lost' 0 'session a plain sh silent.sh\nsession b plain /nonexistent/p\nsession t tab sh silent.sh\nnew 0 a x\nnew 1 a y\nnew 2 b z\nnew 3 t h\neval 3\neval 1\neval 2\nwait 1\neval 1\neval 2\nprint 1\nstop a\neval 4\ncomplete 4 1\nstop t\nstop t\nprint 2\n' <<'END_OF_JSON'
{"format":1,"program":"tmhost","protocol":2,"type":"hello","version":"0.1.0"}
{"line":1,"type":"done"}
{"line":2,"type":"done"}
{"line":3,"type":"done"}
{"id":1,"line":4,"type":"made"}
{"id":2,"line":5,"type":"made"}
{"id":3,"line":6,"type":"made"}
{"id":4,"line":7,"type":"made"}
{"life":1,"line":8,"type":"asked"}
{"life":2,"line":9,"type":"asked"}
{"life":2,"line":10,"type":"asked"}
{"life":1,"lost":[{"id":3,"text":"z"}],"reason":"StartRefused","session":"b","type":"ended"}
{"life":2,"lost":[{"id":1,"text":"x"},{"id":2,"text":"y"}],"reason":"Stalled","session":"a","type":"ended"}
{"line":11,"over":"time","type":"waited"}
{"life":3,"line":12,"type":"asked"}
{"life":3,"line":13,"type":"asked"}
{"field":{"id":1,"input":"x","session":"a","state":"waiting"},"line":14,"type":"field"}
{"life":3,"line":15,"lost":[{"id":1,"text":"x"},{"id":2,"text":"y"}],"session":"a","type":"stopped"}
{"life":4,"line":16,"type":"asked"}
{"life":4,"line":17,"type":"asked"}
{"life":4,"line":18,"lost":[{"id":4,"text":"h"},{"cursor":1,"id":4,"text":"h"}],"session":"t","type":"stopped"}
{"line":19,"type":"done"}
{"field":{"id":2,"input":"y","session":"a","state":"empty"},"line":20,"type":"field"}
{"type":"end"}
END_OF_JSON

# The same of scripts that are run: NAME STATUS LINES. What an interpreter writes is taken in waits alone, so no object of it stands
# between those of lines.
run_json() {
    told_in_json run "$@"
}
run_json 'a script without lines' 0 '' <<'END_OF_JSON'
{"format":1,"program":"tmhost","protocol":2,"type":"hello","version":"0.1.0"}
{"type":"end"}
END_OF_JSON
interpreter p "$banner" '\002verbatim:A\005' '\002verbatim:B\005'
block='{"items":["A"],"kind":"format","tag":"verbatim"}'
cat >wanted <<END_OF_JSON
{"format":1,"program":"tmhost","protocol":2,"type":"hello","version":"0.1.0"}
{"line":1,"type":"done"}
{"id":1,"line":2,"type":"made"}
{"id":2,"line":3,"type":"made"}
{"life":1,"line":4,"type":"asked"}
{"line":5,"type":"bad"}
{"line":6,"name":"NoSession","number":1,"type":"refused"}
{"line":7,"type":"nothing"}
{"line":8,"name":"InFlight","number":3,"type":"refused"}
{"field":{"id":1,"input":"x","session":"a","state":"waiting"},"line":9,"type":"field"}
{"life":1,"next":"> ","output":{"items":[],"kind":"format","tag":"verbatim"},"session":"a","shown":"","type":"banner"}
{"id":1,"life":1,"next":"> ","output":$block,"prompt":"> ","session":"a","shown":"A","type":"answered"}
{"line":10,"over":"idle","type":"waited"}
{"line":11,"over":"idle","type":"waited"}
{"line":12,"outcome":"idle","type":"interrupted"}
{"life":1,"line":13,"type":"asked"}
{"line":14,"type":"done"}
{"field":{"id":1,"input":"x","output":$block,"prompt":"> ","session":"a","shown":"A","state":"answered"},"line":15,"type":"field"}
{"type":"end"}
status 0
END_OF_JSON
printf 'session a plain sh p.sh\nnew 0 a x\nnew 1 a y\neval 1\n' >given
printf 'foo\nnew 0 b z\n# a remark\nset 1 z\nprint 1\nwait\nwait 10\ninterrupt a\neval 2\nmove 2 0\nprint 1' >rest
fresh
compare 'lines before what an interpreter wrote long ago' "$( (cat given; sleep 1; cat rest) | answer run --json sheet)" "$(cat wanted)"
cat rest >>given
fresh
compare 'the same lines at once' "$(answer run --json sheet <given)" "$(cat wanted)"
rm rest
run_json 'a script with a wait whose time is over' 0 'session a plain sh silent.sh\nnew 0 a x\neval 1\nwait 1\nprint 1\n' <<'END_OF_JSON'
{"format":1,"program":"tmhost","protocol":2,"type":"hello","version":"0.1.0"}
{"line":1,"type":"done"}
{"id":1,"line":2,"type":"made"}
{"life":1,"line":3,"type":"asked"}
{"life":1,"lost":[{"id":1,"text":"x"}],"reason":"Stalled","session":"a","type":"ended"}
{"line":4,"over":"time","type":"waited"}
{"field":{"id":1,"input":"x","reason":"Stalled","session":"a","state":"lost"},"line":5,"type":"field"}
{"type":"end"}
END_OF_JSON
run_json 'a script with a line that is too long' 0 "#$(repeated 65535 x)\n#$(repeated 65536 x)\n" <<'END_OF_JSON'
{"format":1,"program":"tmhost","protocol":2,"type":"hello","version":"0.1.0"}
{"line":1,"type":"nothing"}
{"line":2,"type":"bad"}
{"type":"end"}
END_OF_JSON

# Limits of time of a run. Three are beside the others: one that hears no interrupt, and two that take longer than the least limit, a
# second, since it is one of each line.
turns='session a plain env --default-signal=INT sh turns.sh\n'
for name in deaf slow loops sheet; do
    rm -f "$name" "$name.alt"
    "$tmhost" create "$name"
done
printf "$turns"'new 0 a deaf\neval 1\nwait\nprint 1\n' >given.deaf
{ "$tmhost" run --json --timeout 1 deaf <given.deaf 2>&1; echo "status $?"; } >deaf.told &
printf "$turns"'new 0 a slow\nnew 1 a slow\nnew 2 a slow\nnew 3 a slow\neval 1\neval 2\neval 3\neval 4\nwait\n' >given.slow
{ "$tmhost" run --timeout 1 slow <given.slow 2>&1; echo "status $?"; } >slow.told &
printf "$turns"'new 0 a loop\nnew 1 a loop\neval 1\neval 2\nwait\n' >given.loops
{ "$tmhost" run --timeout 1 loops <given.loops 2>&1; echo "status $?"; } >loops.told &
printf "$turns"'new 0 a loop\nnew 1 a y\neval 1\nwait\neval 2\nwait\n' >given
compare 'a wait that takes too long has its interpreter interrupted' "$(answer run --timeout 1 sheet <given)" \
    "$(ending 'ok\nfield 1\nfield 2\nasked\nbanner a\ninterrupted a\nanswered 1\nasked\nanswered 2\n' 0)"
compare 'a wait that takes too long, shown' "$(answer show sheet </dev/null)" "$(ending '#1 a\n> loop\ninterrupted\n#2 a\n> y\ny\n' 0)"
printf 'eval 2\nwait\n' >given
compare 'a wait within its time' "$(answer run --timeout 1000000 sheet <given)" "$(ending 'asked\nbanner a\nanswered 2\n' 0)"
printf 'session b plain sh silent.sh\nnew 2 b z\neval 3\nwait 1\n' >given
compare 'a wait with seconds of its own' "$(answer run --timeout 1000000 sheet <given)" "$(ending 'ok\nfield 3\nasked\nended b Stalled lost 1\n' 0)"
cat >wanted <<'END_OF_JSON'
{"format":1,"program":"tmhost","protocol":2,"type":"hello","version":"0.1.0"}
{"line":1,"type":"done"}
{"id":1,"line":2,"type":"made"}
{"life":1,"line":3,"type":"asked"}
{"life":1,"next":"> ","output":{"items":[],"kind":"format","tag":"verbatim"},"session":"a","shown":"","type":"banner"}
{"life":1,"outcome":"sent","session":"a","type":"interrupted"}
{"life":1,"lost":[{"id":1,"text":"deaf"}],"reason":"Stalled","session":"a","type":"ended"}
{"line":4,"over":"time","type":"waited"}
{"field":{"id":1,"input":"deaf","reason":"Stalled","session":"a","state":"lost"},"line":5,"type":"field"}
{"type":"end"}
status 0
END_OF_JSON
wait
compare 'one that hears no interrupt stalls' "$(cat deaf.told)" "$(cat wanted)"
compare 'lines that together take longer than one may' "$(cat slow.told)" \
    "$(ending 'ok\nfield 1\nfield 2\nfield 3\nfield 4\nasked\nasked\nasked\nasked\nbanner a\nanswered 1\nanswered 2\nanswered 3\nanswered 4\n' 0)"
compare 'a line after one that was interrupted has a time of its own' "$(cat loops.told)" \
    "$(ending 'ok\nfield 1\nfield 2\nasked\nasked\nbanner a\ninterrupted a\nanswered 1\ninterrupted a\nanswered 2\n' 0)"
for seconds in 0 1000001 x ''; do
    words "no time of a run: $seconds" 2 "error: this is no time: SECONDS is a number from 1 to 1000000\n\nFor more information, try 'tmhost run --help'.\n" run --timeout "$seconds" sheet
done

# Each object is there before the next line is written.
interpreter p "$banner" '\002verbatim:A\005'
block='{"items":["A"],"kind":"format","tag":"verbatim"}'
talk --json
hears 'the first object' '{"format":1,"program":"tmhost","protocol":2,"type":"hello","version":"0.1.0"}\n'
say 'session a plain sh p.sh\n'
hears 'an object of a reply' '{"line":1,"type":"done"}\n'
say 'new 0 a x\n'
hears 'an object of a number' '{"id":1,"line":2,"type":"made"}\n'
say 'eval 1\n'
hears 'objects of an answer without a wait' '{"life":1,"line":3,"type":"asked"}\n{"life":1,"next":"> ","output":{"items":[],"kind":"format","tag":"verbatim"},"session":"a","shown":"","type":"banner"}\n{"id":1,"life":1,"next":"> ","output":'"$block"',"prompt":"> ","session":"a","shown":"A","type":"answered"}\n'
say 'print 1\n'
hears 'an object of a field' '{"field":{"id":1,"input":"x","output":'"$block"',"prompt":"> ","session":"a","shown":"A","state":"answered"},"line":4,"type":"field"}\n'
say 'foo\n'
hears 'an object of a bad line' '{"line":5,"type":"bad"}\n'
say 'wait\n'
hears 'an object of a wait' '{"line":6,"over":"idle","type":"waited"}\n'
say 'print\n'
hears 'objects of a worksheet' '{"field":{"id":1,"input":"x","output":'"$block"',"prompt":"> ","session":"a","shown":"A","state":"answered"},"line":7,"more":true,"type":"field"}\n{"fields":[1],"line":7,"next":2,"sessions":[{"life":1,"name":"a","tab":false,"waiting":0,"words":["sh","p.sh"]}],"type":"sheet"}\n'
say 'interrupt a\n'
hears 'an object of an interrupt' '{"line":8,"outcome":"idle","type":"interrupted"}\n'
say 'new 1 a y\nset 2 z\n'
hears 'objects of lines that come together' '{"id":2,"line":9,"type":"made"}\n{"line":10,"type":"done"}\n'
say 'export script\n'
hears 'an object of an export' '{"format":"script","line":11,"text":"session a plain sh p.sh\\nnew 0 a x\\nnew 1 a z\\n","type":"exported"}\n'
hang_up 'a talk in JSON' '{"type":"end"}\n' '#1 a\n> x\nA\n#2 a\n> z\n?\n'

# A worksheet of 3,000 fields is printed.
{
    echo 'session a plain p'
    seq 0 2999 | awk '{ print "new " $1 " a x" $1 + 1 }'
} >given
fresh
"$tmhost" run sheet <given >text
echo print >given
compare '3,000 fields are printed in JSON' "$({ answer live --json sheet <given; } | cksum)" "$({
    printf '{"format":1,"program":"tmhost","protocol":2,"type":"hello","version":"0.1.0"}\n'
    seq 3000 | sed 's/.*/{"field":{"id":&,"input":"x&","session":"a","state":"empty"},"line":1,"more":true,"type":"field"}/'
    printf '{"fields":[1'
    seq 2 3000 | sed 's/^/,/' | tr -d '\n'
    printf '],"line":1,"next":3001,"sessions":[{"life":null,"name":"a","tab":false,"waiting":0,"words":["p"]}],"type":"sheet"}\n{"type":"end"}\nstatus 0\n'
} | cksum)"

# Faults: before the worksheet is open it is the only object, and then the last one.
faulty() {
    cat >wanted
    shift
    compare "$name" "$(answer live --json "$@" </dev/null)" "$(cat wanted; echo 'status 1')"
}
name='a missing path' faulty - nowhere/sheet <<'END_OF_JSON'
{"name":"Disk","number":32,"type":"fault"}
fault 32 Disk
END_OF_JSON
name='what is no worksheet' faulty - hello.txt <<'END_OF_JSON'
{"format":1,"program":"tmhost","protocol":2,"type":"hello","version":"0.1.0"}
{"name":"NotASheet","number":31,"type":"fault"}
fault 31 NotASheet
END_OF_JSON
compare 'a missing path of a script' "$(answer run --json nowhere/sheet </dev/null)" "$(printf '{"name":"Disk","number":32,"type":"fault"}\nfault 32 Disk\nstatus 1')"
printf 'TMWSHEET\001AR\000\000\000\011abc' >damaged
name='a damaged worksheet' faulty - damaged <<'END_OF_JSON'
{"format":1,"program":"tmhost","protocol":2,"type":"hello","version":"0.1.0"}
{"name":"Damaged","number":30,"offset":10,"type":"fault"}
fault 30 Damaged 10
END_OF_JSON
fresh
cat >wanted <<'END_OF_JSON'
{"format":1,"program":"tmhost","protocol":2,"type":"hello","version":"0.1.0"}
{"name":"Input","number":40,"type":"fault"}
fault 40 Input
status 1
END_OF_JSON
compare 'an input that is a folder' "$(answer live --json sheet </)" "$(cat wanted)"
"$tmhost" live --json sheet </dev/null >/dev/full 2>errors
compare 'a full output' "$? $(text_of errors)" '1 fault 42 Output'
"$tmhost" live --json sheet </dev/null 2>errors >&-
compare 'a closed output' "$? $(text_of errors)" '1 fault 42 Output'

# The words of `live` and its JSON leave the same worksheet.
interpreter p "$banner" '\002verbatim:A\005' '\002verbatim:B\005'
printf 'session a plain sh p.sh\nnew 0 a x\nnew 1 a y\neval 1\neval 2\nwait\nset 1 z\n' >given
for form in '' --json; do
    fresh
    "$tmhost" live $form sheet <given >/dev/null
    mv sheet "sheet$form.kept"
done
compare 'both forms leave one worksheet' "$(cmp sheet.kept sheet--json.kept && echo same)" same
mv sheet--json.kept sheet
compare 'show --json is export json' "$(answer show --json sheet </dev/null)" "$(answer export json sheet </dev/null)"
cat >wanted <<'END_OF_JSON'
{"format":1,"program":"tmhost","protocol":2,"type":"hello","version":"0.1.0"}
{"field":{"id":1,"input":"z","session":"a","state":"empty"},"type":"field"}
{"field":{"id":2,"input":"y","output":{"items":["B"],"kind":"format","tag":"verbatim"},"prompt":"> ","session":"a","shown":"B","state":"answered"},"type":"field"}
{"fields":[1,2],"next":3,"sessions":[{"life":null,"name":"a","tab":false,"waiting":0,"words":["sh","p.sh"]}],"type":"sheet"}
{"type":"end"}
status 0
END_OF_JSON
compare 'a worksheet as JSON' "$(answer export json sheet </dev/null)" "$(cat wanted)"

# What comes of a block before its end, of an interpreter that ends it once that was written, or at once.
cat >slow.sh <<'END'
printf '\002verbatim:\005'
while IFS= read -r l; do
    printf '\002verbatim:%b' "$l"
    until [ "$l" = 'at once' ] || grep -q '"type":"partial"' text; do sleep 0.01; done
    printf ' done\005'
done
END

# A case of it: NAME FLAGS LINE.
partial() {
    cat >wanted
    fresh
    printf 'session a plain sh slow.sh\nnew 0 a %s\neval 1\nwait\n' "$3" >given
    "$tmhost" live $2 sheet <given >text 2>errors
    compare "$1" "status $? $(text_of text; text_of errors)" "status 0 $(cat wanted)"
}

for flags in '--json --partial' --partial; do
    partial "a block that isn't complete, by $flags" "$flags" x <<'END_OF_JSON'
{"format":1,"program":"tmhost","protocol":2,"type":"hello","version":"0.1.0"}
{"line":1,"type":"done"}
{"id":1,"line":2,"type":"made"}
{"life":1,"line":3,"type":"asked"}
{"life":1,"next":"> ","output":{"items":[],"kind":"format","tag":"verbatim"},"session":"a","shown":"","type":"banner"}
{"bytes":"\u0002verbatim:x","life":1,"session":"a","type":"partial"}
{"id":1,"life":1,"next":"> ","output":{"items":["x done"],"kind":"format","tag":"verbatim"},"prompt":"> ","session":"a","shown":"x done","type":"answered"}
{"line":4,"over":"idle","type":"waited"}
{"type":"end"}
END_OF_JSON
done

partial "one that isn't UTF-8" --partial '\0377' <<'END_OF_JSON'
{"format":1,"program":"tmhost","protocol":2,"type":"hello","version":"0.1.0"}
{"line":1,"type":"done"}
{"id":1,"line":2,"type":"made"}
{"life":1,"line":3,"type":"asked"}
{"life":1,"next":"> ","output":{"items":[],"kind":"format","tag":"verbatim"},"session":"a","shown":"","type":"banner"}
{"bytes":{"base64":"AnZlcmJhdGltOv8="},"life":1,"session":"a","type":"partial"}
{"id":1,"life":1,"next":"> ","output":{"items":[{"base64":"/yBkb25l"}],"kind":"format","tag":"verbatim"},"prompt":"> ","session":"a","shown":{"base64":"/yBkb25l"},"type":"answered"}
{"line":4,"over":"idle","type":"waited"}
{"type":"end"}
END_OF_JSON

partial "one that isn't complete, unasked" --json 'at once' <<'END_OF_JSON'
{"format":1,"program":"tmhost","protocol":2,"type":"hello","version":"0.1.0"}
{"line":1,"type":"done"}
{"id":1,"line":2,"type":"made"}
{"life":1,"line":3,"type":"asked"}
{"life":1,"next":"> ","output":{"items":[],"kind":"format","tag":"verbatim"},"session":"a","shown":"","type":"banner"}
{"id":1,"life":1,"next":"> ","output":{"items":["at once done"],"kind":"format","tag":"verbatim"},"prompt":"> ","session":"a","shown":"at once done","type":"answered"}
{"line":4,"over":"idle","type":"waited"}
{"type":"end"}
END_OF_JSON

# The prompt of the next line, told with a banner and with an answer: the one that the interpreter sent last, which the next answer has as its own.
interpreter p '\002verbatim:\002prompt#In [1]: \005\005' '\002verbatim:A\002prompt#In [2]: \005\005' '\002verbatim:B\002prompt#In [3]: \005\005'
for task in live run; do
    told_in_json $task "a prompt that changes, by $task" 0 'session a plain sh p.sh\nnew 0 a x\nnew 1 a y\neval 1\neval 2\nwait\nprint 2\n' <<'END_OF_JSON'
{"format":1,"program":"tmhost","protocol":2,"type":"hello","version":"0.1.0"}
{"line":1,"type":"done"}
{"id":1,"line":2,"type":"made"}
{"id":2,"line":3,"type":"made"}
{"life":1,"line":4,"type":"asked"}
{"life":1,"line":5,"type":"asked"}
{"life":1,"next":"In [1]: ","output":{"items":[],"kind":"format","tag":"verbatim"},"session":"a","shown":"","type":"banner"}
{"id":1,"life":1,"next":"In [2]: ","output":{"items":["A"],"kind":"format","tag":"verbatim"},"prompt":"In [1]: ","session":"a","shown":"A","type":"answered"}
{"id":2,"life":1,"next":"In [3]: ","output":{"items":["B"],"kind":"format","tag":"verbatim"},"prompt":"In [2]: ","session":"a","shown":"B","type":"answered"}
{"line":6,"over":"idle","type":"waited"}
{"field":{"id":2,"input":"y","output":{"items":["B"],"kind":"format","tag":"verbatim"},"prompt":"In [2]: ","session":"a","shown":"B","state":"answered"},"line":7,"type":"field"}
{"type":"end"}
END_OF_JSON
done
interpreter p '\002verbatim:\002prompt#\377> \005\005' '\002verbatim:A\002prompt#\303\251> \005\005' '\002verbatim:B\002prompt#\005\005'
json 'a prompt that is not UTF-8, one that is, and an empty one' 0 'session a plain sh p.sh\nnew 0 a x\neval 1\nwait\neval 1\nwait\n' <<'END_OF_JSON'
{"format":1,"program":"tmhost","protocol":2,"type":"hello","version":"0.1.0"}
{"line":1,"type":"done"}
{"id":1,"line":2,"type":"made"}
{"life":1,"line":3,"type":"asked"}
{"life":1,"next":{"base64":"/z4g"},"output":{"items":[],"kind":"format","tag":"verbatim"},"session":"a","shown":"","type":"banner"}
{"id":1,"life":1,"next":"é> ","output":{"items":["A"],"kind":"format","tag":"verbatim"},"prompt":{"base64":"/z4g"},"session":"a","shown":"A","type":"answered"}
{"line":4,"over":"idle","type":"waited"}
{"life":1,"line":5,"type":"asked"}
{"id":1,"life":1,"next":"","output":{"items":["B"],"kind":"format","tag":"verbatim"},"prompt":"é> ","session":"a","shown":"B","type":"answered"}
{"line":6,"over":"idle","type":"waited"}
{"type":"end"}
END_OF_JSON
interpreter p "$banner" '\002verbatim:A\005' '\002scheme:(tuple "h" "i")\005' '\002verbatim:B\005'
json 'an interpreter that never sends a prompt' 0 'session t tab sh p.sh\nnew 0 t h\neval 1\nwait\ncomplete 1 1\nwait\neval 1\nwait\n' <<'END_OF_JSON'
{"format":1,"program":"tmhost","protocol":2,"type":"hello","version":"0.1.0"}
{"line":1,"type":"done"}
{"id":1,"line":2,"type":"made"}
{"life":1,"line":3,"type":"asked"}
{"life":1,"next":"> ","output":{"items":[],"kind":"format","tag":"verbatim"},"session":"t","shown":"","type":"banner"}
{"id":1,"life":1,"next":"> ","output":{"items":["A"],"kind":"format","tag":"verbatim"},"prompt":"> ","session":"t","shown":"A","type":"answered"}
{"line":4,"over":"idle","type":"waited"}
{"life":1,"line":5,"type":"asked"}
{"id":1,"life":1,"session":"t","told":{"rest":["i"],"root":"h"},"type":"completed"}
{"line":6,"over":"idle","type":"waited"}
{"life":1,"line":7,"type":"asked"}
{"id":1,"life":1,"next":"> ","output":{"items":["B"],"kind":"format","tag":"verbatim"},"prompt":"> ","session":"t","shown":"B","type":"answered"}
{"line":8,"over":"idle","type":"waited"}
{"type":"end"}
END_OF_JSON
interpreter p '\002verbatim:\002prompt#a> \005\005' '\002verbatim:A\005' '\002scheme:(tuple "h" "i")\002prompt#b> \005\005' '\002verbatim:B\005'
json 'a prompt that comes with completions' 0 'session t tab sh p.sh\nnew 0 t h\neval 1\nwait\ncomplete 1 1\nwait\neval 1\nwait\n' <<'END_OF_JSON'
{"format":1,"program":"tmhost","protocol":2,"type":"hello","version":"0.1.0"}
{"line":1,"type":"done"}
{"id":1,"line":2,"type":"made"}
{"life":1,"line":3,"type":"asked"}
{"life":1,"next":"a> ","output":{"items":[],"kind":"format","tag":"verbatim"},"session":"t","shown":"","type":"banner"}
{"id":1,"life":1,"next":"a> ","output":{"items":["A"],"kind":"format","tag":"verbatim"},"prompt":"a> ","session":"t","shown":"A","type":"answered"}
{"line":4,"over":"idle","type":"waited"}
{"life":1,"line":5,"type":"asked"}
{"id":1,"life":1,"session":"t","told":{"rest":["i"],"root":"h"},"type":"completed"}
{"line":6,"over":"idle","type":"waited"}
{"life":1,"line":7,"type":"asked"}
{"id":1,"life":1,"next":"b> ","output":{"items":["B"],"kind":"format","tag":"verbatim"},"prompt":"b> ","session":"t","shown":"B","type":"answered"}
{"line":8,"over":"idle","type":"waited"}
{"type":"end"}
END_OF_JSON

# What one reading of an interpreter brings is one event (docs/dev/EDGE.md): a fault behind an answer ends the life with it, so there is no next
# prompt. The end of the output is a reading of its own, which comes after: the answer before it still has one.
interpreter p '\002verbatim:\002prompt#1> \005\005' '\002verbatim:A\002prompt#2> \005\005\002verb\002'
for task in live run; do
    told_in_json $task "an answer and a fault in one reading, by $task" 0 'session a plain sh p.sh\nnew 0 a x\nnew 1 a y\neval 1\neval 2\nwait\neval 2\nstop a\n' <<'END_OF_JSON'
{"format":1,"program":"tmhost","protocol":2,"type":"hello","version":"0.1.0"}
{"line":1,"type":"done"}
{"id":1,"line":2,"type":"made"}
{"id":2,"line":3,"type":"made"}
{"life":1,"line":4,"type":"asked"}
{"life":1,"line":5,"type":"asked"}
{"life":1,"next":"1> ","output":{"items":[],"kind":"format","tag":"verbatim"},"session":"a","shown":"","type":"banner"}
{"id":1,"life":1,"next":null,"output":{"items":["A"],"kind":"format","tag":"verbatim"},"prompt":"1> ","session":"a","shown":"A","type":"answered"}
{"life":1,"lost":[{"id":2,"text":"y"}],"reason":"BadTag","session":"a","type":"ended"}
{"line":6,"over":"idle","type":"waited"}
{"life":2,"line":7,"type":"asked"}
{"life":2,"line":8,"lost":[{"id":2,"text":"y"}],"session":"a","type":"stopped"}
{"type":"end"}
END_OF_JSON
done
interpreter p '\002verbatim:Hi\002prompt#1> \005\005\002verb\002'
json 'a banner and a fault in one reading' 0 'session a plain sh p.sh\nnew 0 a x\neval 1\nwait\n' <<'END_OF_JSON'
{"format":1,"program":"tmhost","protocol":2,"type":"hello","version":"0.1.0"}
{"line":1,"type":"done"}
{"id":1,"line":2,"type":"made"}
{"life":1,"line":3,"type":"asked"}
{"life":1,"next":null,"output":{"items":["Hi"],"kind":"format","tag":"verbatim"},"session":"a","shown":"Hi","type":"banner"}
{"life":1,"lost":[{"id":1,"text":"x"}],"reason":"BadTag","session":"a","type":"ended"}
{"line":4,"over":"idle","type":"waited"}
{"type":"end"}
END_OF_JSON
then=exit
interpreter p '\002verbatim:\002prompt#1> \005\005' '\002verbatim:A\002prompt#2> \005\005'
then='read -r line'
talk --json
say 'session a plain sh p.sh\nnew 0 a x\n'
hears 'before an answer and an end' '{"format":1,"program":"tmhost","protocol":2,"type":"hello","version":"0.1.0"}\n{"line":1,"type":"done"}\n{"id":1,"line":2,"type":"made"}\n'
say 'eval 1\n'
hears 'an answer and an end' '{"life":1,"line":3,"type":"asked"}\n{"life":1,"next":"1> ","output":{"items":[],"kind":"format","tag":"verbatim"},"session":"a","shown":"","type":"banner"}\n{"id":1,"life":1,"next":"2> ","output":'"$block"',"prompt":"1> ","session":"a","shown":"A","type":"answered"}\n{"life":1,"lost":[],"reason":"Ended","session":"a","type":"ended"}\n'
hang_up 'an answer and an end' '{"type":"end"}\n' '#1 a\n1> x\nA\n'

# A banner whose interpreter has closed its input: the line that is sent then finds nobody, which is told in the same turn, so there is no next prompt.
cat >closes.sh <<'END_OF_CHILD'
exec <&-
printf '\002verbatim:\002prompt#1> \005\005'
sleep 5
END_OF_CHILD
json 'a banner whose line is not taken' 0 'session a plain sh closes.sh\nnew 0 a x\neval 1\nwait\n' <<'END_OF_JSON'
{"format":1,"program":"tmhost","protocol":2,"type":"hello","version":"0.1.0"}
{"line":1,"type":"done"}
{"id":1,"line":2,"type":"made"}
{"life":1,"line":3,"type":"asked"}
{"life":1,"next":null,"output":{"items":[],"kind":"format","tag":"verbatim"},"session":"a","shown":"","type":"banner"}
{"life":1,"lost":[{"id":1,"text":"x"}],"reason":"SendFault","session":"a","type":"ended"}
{"line":4,"over":"idle","type":"waited"}
{"type":"end"}
END_OF_JSON

# Two sessions in one group: both answer while the host stands still, `b` with a fault behind its answer. Each has a next prompt of its own, or none.
cat >both.sh <<'END_OF_CHILD'
printf '\002verbatim:\002prompt#%s 1> \005\005' "$1"
IFS= read -r l
echo "$l" >>got
until [ -e go ]; do sleep 0.05; done
case $1 in b) fault='\002verb\002' ;; esac
printf "\002verbatim:%s\002prompt#%s 2> \005\005$fault" "$l" "$1"
echo "$l" >>answered
IFS= read -r l
END_OF_CHILD
rm -f sheet sheet.alt go got answered talk.in
mkfifo talk.in
"$tmhost" create sheet
"$tmhost" live --json sheet <talk.in >text 2>&1 &
host=$!
exec 3>talk.in
say 'session a plain sh both.sh a\nsession b plain sh both.sh b\nnew 0 a x\nnew 1 b y\neval 1\neval 2\n'
until [ "$(cat got 2>/dev/null | wc -l)" = 2 ]; do sleep 0.05; done
sleep 0.1
kill -STOP "$host"
until [ "$(cut -d ' ' -f 3 "/proc/$host/stat")" = T ]; do sleep 0.01; done
: >go
until [ "$(cat answered 2>/dev/null | wc -l)" = 2 ]; do sleep 0.05; done
kill -CONT "$host"
say 'wait\n'
exec 3>&-
wait "$host"
cat >wanted <<'END_OF_JSON'
{"format":1,"program":"tmhost","protocol":2,"type":"hello","version":"0.1.0"}
{"id":1,"life":1,"next":"a 2> ","output":{"items":["x"],"kind":"format","tag":"verbatim"},"prompt":"a 1> ","session":"a","shown":"x","type":"answered"}
{"id":1,"line":3,"type":"made"}
{"id":2,"life":2,"next":null,"output":{"items":["y"],"kind":"format","tag":"verbatim"},"prompt":"b 1> ","session":"b","shown":"y","type":"answered"}
{"id":2,"line":4,"type":"made"}
{"life":1,"line":5,"type":"asked"}
{"life":1,"next":"a 1> ","output":{"items":[],"kind":"format","tag":"verbatim"},"session":"a","shown":"","type":"banner"}
{"life":2,"line":6,"type":"asked"}
{"life":2,"lost":[],"reason":"BadTag","session":"b","type":"ended"}
{"life":2,"next":"b 1> ","output":{"items":[],"kind":"format","tag":"verbatim"},"session":"b","shown":"","type":"banner"}
{"line":1,"type":"done"}
{"line":2,"type":"done"}
{"line":7,"over":"idle","type":"waited"}
{"type":"end"}
END_OF_JSON
compare 'two answers that came together, in JSON' "$(LC_ALL=C sort text)" "$(LC_ALL=C sort wanted)"

counted json
