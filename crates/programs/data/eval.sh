# Evaluations of a worksheet: `eval` does the script that has an `eval` and a `wait` for each field, and counts the answers at the end.

# A case of `eval`: NAME STATUS TEXT SHEET WORDS. Over the worksheet as it stands it writes the text, its errors behind it, and then the
# worksheet is shown so.
evaluates() {
    name=$1 want=$(ending "$3" "$2") shown=$(ending "$4" 0)
    shift 4
    compare "$name" "$(answer eval sheet "$@" </dev/null)" "$want"
    compare "$name, shown" "$(answer show sheet </dev/null)" "$shown"
}

# A new worksheet by a script that is typed in.
made() {
    fresh
    printf "$1" >given
    "$tmhost" run sheet <given >text
}

# An interpreter that answers each line with the line and how many it was asked, and that ends at the line `end`.
cat >count.sh <<'END'
printf '\002verbatim:\005'
n=0
while IFS= read -r l; do
    [ "$l" != end ] || exit
    n=$((n + 1))
    printf '\002verbatim:%s %s\005' "$l" "$n"
done
END

# A file that may be executed, and that the system can't start.
printf 'no program\n' >broken
chmod +x broken

# Beside all that comes: a start and an answer of three seconds each, which together take longer than the limit, and neither does.
cat >slowly.sh <<'END'
sleep 3
printf '\002verbatim:\005'
read -r l
sleep 3
printf '\002verbatim:%s\005' "$l"
END
"$tmhost" create slow
printf 'session a plain sh slowly.sh\nnew 0 a x\n' >given
"$tmhost" run slow <given >text
{ "$tmhost" eval --timeout 5 slow </dev/null 2>&1; echo "status $?"; } >slow.told &

made ''
evaluates 'a worksheet without fields' 0 'answered 0 unanswered 0\n' ''
made 'session a plain sh count.sh\nsession b plain sh count.sh\nnew 0 a x\nnew 1 b y\nnew 2 a z\nmove 3 0\n'
for name in 'all fields in their order, each session with one interpreter' 'again: no variable is kept'; do
    evaluates "$name" 0 \
        'asked\nbanner a\nanswered 3\nasked\nanswered 1\nasked\nbanner b\nanswered 2\nanswered 3 unanswered 0\n' \
        '#3 a\n> z\nz 1\n#1 a\n> x\nx 2\n#2 b\n> y\ny 1\n' --jobs 1
done
evaluates 'none is unanswered' 0 'answered 3 unanswered 0\n' '#3 a\n> z\nz 1\n#1 a\n> x\nx 2\n#2 b\n> y\ny 1\n' --unanswered
printf 'set 1 w\nnew 2 b v\n' >given
"$tmhost" run sheet <given >text
evaluates 'those without an answer' 0 'asked\nbanner a\nanswered 1\nasked\nbanner b\nanswered 4\nanswered 4 unanswered 0\n' \
    '#3 a\n> z\nz 1\n#1 a\n> w\nw 1\n#2 b\n> y\ny 1\n#4 b\n> v\nv 1\n' --unanswered --jobs 1

# Prose: a session whose program is `true` alone. It is passed over and not counted, but where its number is named.
made 'session prose plain true\nsession a plain sh count.sh\nnew 0 prose Title\nnew 1 a x\nnew 2 prose text\nnew 3 a y\n'
for word in '' --unanswered; do
    evaluates "prose among code $word" 0 'asked\nbanner a\nanswered 2\nasked\nanswered 4\nanswered 2 unanswered 0\n' \
        '#1 prose\n> Title\n?\n#2 a\n> x\nx 1\n#3 prose\n> text\n?\n#4 a\n> y\ny 2\n' $word
    printf 'clear 2\nclear 4\n' >given
    "$tmhost" run sheet <given >text
done
evaluates 'prose, and code from there on' 1 'asked\nbanner a\nanswered 4\nanswered 1 unanswered 1\n' \
    '#1 prose\n> Title\n?\n#2 a\n> x\n?\n#3 prose\n> text\n?\n#4 a\n> y\ny 1\n' --from 3
evaluates 'prose that is named' 1 'asked\nended prose Ended lost 1\nanswered 1 unanswered 1\n' \
    '#1 prose\n> Title\n? Ended\n#2 a\n> x\n?\n#3 prose\n> text\n?\n#4 a\n> y\ny 1\n' 1
made 'session a plain true x\nsession b plain /usr/bin/true\nnew 0 a x\nnew 1 b y\n'
evaluates 'no prose: another word, or a path' 1 'asked\nended a Ended lost 1\nasked\nended b Ended lost 1\nanswered 0 unanswered 2\n' \
    '#1 a\n> x\n? Ended\n#2 b\n> y\n? Ended\n' --jobs 1
made 'session prose plain true\nnew 0 prose Title\n'
evaluates 'prose alone' 0 'answered 0 unanswered 0\n' '#1 prose\n> Title\n?\n'

# Some of the fields: those that are named, and one with those after it. The worksheet has them in the order 3, 1, 2, 4.
made 'session a plain sh count.sh\nsession b plain sh count.sh\nnew 0 a x\nnew 1 b y\nnew 0 a z\nnew 2 b w\neval 1\nwait\n'
evaluates 'the fields that are named, in the order of the worksheet and each once' 1 \
    'asked\nbanner a\nanswered 3\nasked\nbanner b\nanswered 4\nanswered 3 unanswered 1\n' \
    '#3 a\n> z\nz 1\n#1 a\n> x\nx 1\n#2 b\n> y\n?\n#4 b\n> w\nw 1\n' --jobs 1 4 3 4
evaluates 'a field and those after it' 0 \
    'asked\nbanner a\nanswered 1\nasked\nbanner b\nanswered 2\nasked\nanswered 4\nanswered 4 unanswered 0\n' \
    '#3 a\n> z\nz 1\n#1 a\n> x\nx 1\n#2 b\n> y\ny 1\n#4 b\n> w\nw 2\n' --jobs 1 --from 1
evaluates 'the last field' 0 'asked\nbanner b\nanswered 4\nanswered 4 unanswered 0\n' \
    '#3 a\n> z\nz 1\n#1 a\n> x\nx 1\n#2 b\n> y\ny 1\n#4 b\n> w\nw 1\n' --from 4
printf 'set 1 v\nset 4 u\n' >given
"$tmhost" run sheet <given >text
evaluates 'of those that are named the ones without an answer' 1 'asked\nbanner a\nanswered 1\nanswered 3 unanswered 1\n' \
    '#3 a\n> z\nz 1\n#1 a\n> v\nv 1\n#2 b\n> y\ny 1\n#4 b\n> u\n?\n' --unanswered 3 1 2
evaluates 'of a field and those after it the ones without an answer' 0 'asked\nbanner b\nanswered 4\nanswered 4 unanswered 0\n' \
    '#3 a\n> z\nz 1\n#1 a\n> v\nv 1\n#2 b\n> y\ny 1\n#4 b\n> u\nu 1\n' --unanswered --from 2
evaluates 'one that is named and shows an answer' 0 'answered 4 unanswered 0\n' \
    '#3 a\n> z\nz 1\n#1 a\n> v\nv 1\n#2 b\n> y\ny 1\n#4 b\n> u\nu 1\n' --unanswered 3

# Numbers that no field has: nothing is evaluated, and not a byte is written.
printf 'remove 2\n' >given
"$tmhost" run sheet <given >text
before=$(sums sheet)
for id in 2 9 0 4294967295; do
    evaluates "no field has the number $id" 1 "fault 37 NoField $id\n" '#3 a\n> z\nz 1\n#1 a\n> v\nv 1\n#4 b\n> u\nu 1\n' 3 "$id" 1 8
    evaluates "none to begin with has the number $id" 1 "fault 37 NoField $id\n" '#3 a\n> z\nz 1\n#1 a\n> v\nv 1\n#4 b\n> u\nu 1\n' --from "$id"
done
compare 'the bytes are the same' "$(sums sheet)" "$before"
for id in x '' 3,1 03 1-3 4294967296; do
    words "no number: $id" 2 "error: this is no field: ID is a number, as 3\n\nFor more information, try 'tmhost eval --help'.\n" eval sheet 3 "$id"
    words "no number to begin with: $id" 2 "error: this is no field: ID is a number, as 3\n\nFor more information, try 'tmhost eval --help'.\n" eval --from "$id" sheet
done
words 'fields and one to begin with' 2 "error: --from goes with no ID after PATH\n\nFor more information, try 'tmhost eval --help'.\n" eval --from 1 sheet 3

# Programs that aren't there: nothing is evaluated, no answer is taken away, and not a byte is written.
mkdir -p folder
printf 'exit\n' >plain
chmod -x plain
for program in ./nothing nothing-of-this-name ./folder ./plain folder/sh ./count.sh/sh; do
    made "session a plain sh count.sh\nsession b plain $program one two\nsession c plain ./nothing\nnew 0 a x\nnew 1 b y\nnew 2 a z\neval 1\neval 3\nwait\n"
    before=$(sums sheet)
    for options in '' '--jobs 1' '--jobs 64' --strict '--timeout 60' --unanswered '--from 1' '3 2'; do
        evaluates "no program $program $options" 1 'fault 44 NoProgram b\n' '#1 a\n> x\nx 1\n#2 b\n> y\n?\n#3 a\n> z\nz 2\n' $options
    done
    compare "the bytes are the same, $program" "$(sums sheet)" "$before"
done
evaluates 'a number that no field has is told first' 1 'fault 37 NoField 9\n' '#1 a\n> x\nx 1\n#2 b\n> y\n?\n#3 a\n> z\nz 2\n' 2 9
compare 'as JSON, a program that is not there' "$(answer eval --json sheet 2 </dev/null)" \
    "$(printf '{"format":1,"program":"tmhost","protocol":2,"type":"hello","version":"0.1.0"}\n{"name":"NoProgram","number":44,"session":"b","type":"fault"}\nfault 44 NoProgram b\nstatus 1')"
evaluates 'where no field of it is evaluated its program is not wanted' 1 'asked\nbanner a\nanswered 1\nasked\nanswered 3\nanswered 2 unanswered 1\n' \
    '#1 a\n> x\nx 1\n#2 b\n> y\n?\n#3 a\n> z\nz 2\n' 1 3
compare 'nor is one where all show an answer' "$(answer eval --unanswered sheet 1 3 </dev/null)" "$(ending 'answered 2 unanswered 1\n' 1)"
made 'session a plain sh count.sh\nnew 0 a x\neval 1\nwait\n'
compare 'no folder of PATH has it' "$(env "PATH=/nowhere:$PWD/folder" "$tmhost" eval sheet 2>&1 </dev/null; echo "status $?")" "$(ending 'fault 44 NoProgram a\n' 1)"
compare 'a later folder of PATH has it' "$(env "PATH=/nowhere:$PATH" "$tmhost" eval sheet 2>&1 </dev/null; echo "status $?")" "$(ending 'asked\nbanner a\nanswered 1\nanswered 1 unanswered 0\n' 0)"
made 'session a plain mine\nnew 0 a x\n'
printf '#!/bin/sh\nexec sh count.sh\n' >mine
chmod +x mine
compare 'an empty folder of PATH is the current one' "$(env "PATH=:$PATH" "$tmhost" eval sheet 2>&1 </dev/null; echo "status $?")" "$(ending 'asked\nbanner a\nanswered 1\nanswered 1 unanswered 0\n' 0)"
compare 'without one it is not looked for there' "$(answer eval sheet </dev/null)" "$(ending 'fault 44 NoProgram a\n' 1)"

# Fields that are lost.
made 'session a plain sh count.sh\nsession b plain ./broken\nnew 0 a x\nnew 1 a end\nnew 2 a z\nnew 3 b y\n'
evaluates 'an end goes on with another interpreter' 1 \
    'asked\nbanner a\nanswered 1\nasked\nended a Ended lost 1\nasked\nbanner a\nanswered 3\nasked\nended b StartRefused lost 1\nanswered 2 unanswered 2\n' \
    '#1 a\n> x\nx 1\n#2 a\n> end\n? Ended\n#3 a\n> z\nz 1\n#4 b\n> y\n? StartRefused\n' --jobs 1 --keep-going
evaluates 'the fields after an end are passed over' 1 \
    'asked\nbanner a\nanswered 1\nasked\nended a Ended lost 1\nasked\nended b StartRefused lost 1\nanswered 2 unanswered 2\nover 0 passed 1\n' \
    '#1 a\n> x\nx 1\n#2 a\n> end\n? Ended\n#3 a\n> z\nz 1\n#4 b\n> y\n? StartRefused\n' --jobs 1
evaluates 'strictly: it stops behind the first one, and the fields behind keep what they show' 3 \
    'asked\nbanner a\nanswered 1\nasked\nended a Ended lost 1\nanswered 2 unanswered 2\nstopped at field 2\n' \
    '#1 a\n> x\nx 1\n#2 a\n> end\n? Ended\n#3 a\n> z\nz 1\n#4 b\n> y\n? StartRefused\n' --strict
evaluates 'strictly, those that were lost' 3 'asked\nbanner a\nended a Ended lost 1\nanswered 2 unanswered 2\nstopped at field 2\n' \
    '#1 a\n> x\nx 1\n#2 a\n> end\n? Ended\n#3 a\n> z\nz 1\n#4 b\n> y\n? StartRefused\n' --strict --unanswered
compare 'strictly, with both streams in one' "$("$tmhost" eval --strict --unanswered sheet 2>&1 </dev/null)" \
    "$(printf 'asked\nbanner a\nended a Ended lost 1\nanswered 2 unanswered 2\nstopped at field 2')"
evaluates 'strictly, a field that is named' 3 'asked\nbanner a\nended a Ended lost 1\nanswered 2 unanswered 2\nstopped at field 2\n' \
    '#1 a\n> x\nx 1\n#2 a\n> end\n? Ended\n#3 a\n> z\nz 1\n#4 b\n> y\n? StartRefused\n' --strict 3 2
evaluates 'one that is named is passed over after one that is lost' 1 \
    'asked\nbanner a\nended a Ended lost 1\nanswered 2 unanswered 2\nover 0 passed 1\n' \
    '#1 a\n> x\nx 1\n#2 a\n> end\n? Ended\n#3 a\n> z\nz 1\n#4 b\n> y\n? StartRefused\n' --timeout 60 2 3
printf 'remove 2\nremove 4\n' >given
"$tmhost" run sheet <given >text
evaluates 'strictly, where none is lost' 0 'asked\nbanner a\nanswered 1\nasked\nanswered 3\nanswered 2 unanswered 0\n' '#1 a\n> x\nx 1\n#3 a\n> z\nz 2\n' --strict

# It writes what `run` writes of that script, and the counts.
printf 'eval 1\nwait\neval 3\nwait\n' >given
"$tmhost" run sheet <given >text
echo 'answered 2 unanswered 0' >>text
compare 'the text of the run' "$("$tmhost" eval sheet </dev/null)" "$(cat text)"

# The input isn't read, and another program keeps the worksheet.
printf 'new 0 a no\n' >given
compare 'the input is not read' "$(answer eval sheet <given)" "$(ending 'asked\nbanner a\nanswered 1\nasked\nanswered 3\nanswered 2 unanswered 0\n' 0)"
cp sheet damaged
printf 'x' | dd of=damaged bs=1 seek=0 conv=notrunc 2>errors
compare 'a damaged worksheet' "$(answer eval damaged </dev/null)" "$(ending 'fault 31 NotASheet\n' 1)"
words 'no worksheet' 1 'fault 32 Disk\n' eval missing

# A session that doesn't start any more: its first field loses its answer, and the later ones keep theirs.
cp count.sh there.sh
made 'session a plain sh there.sh\nsession b plain sh count.sh\nnew 0 a x\nnew 1 a y\nnew 2 b v\nnew 3 a z\n'
"$tmhost" eval sheet >text </dev/null
printf 'exit 1\n' >there.sh
evaluates 'a session that does not start' 1 'asked\nended a Ended lost 1\nasked\nbanner b\nanswered 3\nanswered 3 unanswered 1\nover 0 passed 2\n' \
    '#1 a\n> x\n? Ended\n#2 a\n> y\ny 2\n#3 b\n> v\nv 1\n#4 a\n> z\nz 3\n' --jobs 1
evaluates 'each field of it' 1 'asked\nended a Ended lost 1\nasked\nended a Ended lost 1\nasked\nbanner b\nanswered 3\nasked\nended a Ended lost 1\nanswered 1 unanswered 3\n' \
    '#1 a\n> x\n? Ended\n#2 a\n> y\n? Ended\n#3 b\n> v\nv 1\n#4 a\n> z\n? Ended\n' --jobs 1 --keep-going

# Limits of time.
# They go side by side, each over a copy of the worksheet: `beside COPY WORDS` begins one, and `ended_so COPY NAME STATUS TEXT SHEET` looks at it.
beside() {
    copy=$1
    shift
    cp sheet "$copy"
    cp sheet.alt "$copy.alt"
    { "$tmhost" eval "$@" "$copy" </dev/null 2>&1; echo "status $?"; } >"$copy.told" &
}
ended_so() {
    compare "$2" "$(cat "$1.told")" "$(ending "$4" "$3")"
    compare "$2, shown" "$(answer show "$1" </dev/null)" "$(ending "$5" 0)"
}

made 'session a plain env --default-signal=INT sh turns.sh\nsession b plain sh count.sh\nnew 0 a x\nnew 1 a loop\nnew 2 a y\nnew 3 b z\n'
beside looping --timeout 2
printf 'remove 2\n' >given
"$tmhost" run sheet <given >text
evaluates 'none is over' 0 'asked\nbanner a\nanswered 1\nasked\nanswered 3\nasked\nbanner b\nanswered 4\nanswered 3 unanswered 0\nover 0 passed 0\n' \
    '#1 a\n> x\nx\n#3 a\n> y\ny\n#4 b\n> z\nz 1\n' --timeout 60
printf 'new 1 a deaf\n' >given
"$tmhost" run sheet <given >text

# Beside them, too: a limit is kept while the clock passes a moment at which a count of milliseconds may begin anew, one of 32 bits, or of a million or 20
# bits. `passes COPY SECONDS` begins an evaluation whose clock has SECONDS half a second later; where the system gives none of its own, it has that of all.
passes() {
    cp sheet "$1"
    cp sheet.alt "$1.alt"
    {
        begun=$(python3 -I -S -c 'import time; time.sleep(1.5 - time.monotonic() % 1); print(int(time.monotonic()))')
        clock="unshare -U -T --monotonic $(($2 - 1 - begun))"
        $clock true 2>/dev/null || clock=
        $clock timeout 30 "$tmhost" eval --timeout 1 "$1" 5
        echo "status $?"
    } </dev/null >"$1.told" 2>&1 &
}
passes clock32 4294967
passes clock20 16384000
beside deaf --timeout 2
beside going --timeout 2 --keep-going
beside strictly --timeout 2 --strict
beside as_json --timeout 2 --json
wait
for clock in clock32 clock20; do
    ended_so $clock "a limit beside a turn of the clock, $clock" 1 'asked\nbanner a\nover 5\nended a Stalled lost 1\nanswered 3 unanswered 1\nover 1 passed 0\n' \
        '#1 a\n> x\nx\n#5 a\n> deaf\n? Stalled\n#3 a\n> y\ny\n#4 b\n> z\nz 1\n'
done
ended_so looping 'a loop is interrupted, and the fields after it are asked' 1 \
    'asked\nbanner a\nanswered 1\nasked\nover 2\nanswered 2\nasked\nanswered 3\nasked\nbanner b\nanswered 4\nanswered 4 unanswered 0\nover 1 passed 0\n' \
    '#1 a\n> x\nx\n#2 a\n> loop\ninterrupted\n#3 a\n> y\ny\n#4 b\n> z\nz 1\n'
ended_so slow 'a slow start takes none of the time that its field has' 0 'asked\nbanner a\nanswered 1\nanswered 1 unanswered 0\nover 0 passed 0\n' '#1 a\n> x\nx\n'
ended_so deaf 'one that hears no interrupt stalls, and the fields after it keep what they show' 1 \
    'asked\nbanner a\nanswered 1\nasked\nover 5\nended a Stalled lost 1\nasked\nbanner b\nanswered 4\nanswered 3 unanswered 1\nover 1 passed 1\n' \
    '#1 a\n> x\nx\n#5 a\n> deaf\n? Stalled\n#3 a\n> y\ny\n#4 b\n> z\nz 1\n'
ended_so going 'they go to another interpreter' 1 \
    'asked\nbanner a\nanswered 1\nasked\nover 5\nended a Stalled lost 1\nasked\nbanner a\nanswered 3\nasked\nbanner b\nanswered 4\nanswered 3 unanswered 1\nover 1 passed 0\n' \
    '#1 a\n> x\nx\n#5 a\n> deaf\n? Stalled\n#3 a\n> y\ny\n#4 b\n> z\nz 1\n'
ended_so strictly 'strictly' 3 'asked\nbanner a\nanswered 1\nasked\nover 5\nended a Stalled lost 1\nanswered 3 unanswered 1\nover 1 passed 2\nstopped at field 5\n' \
    '#1 a\n> x\nx\n#5 a\n> deaf\n? Stalled\n#3 a\n> y\ny\n#4 b\n> z\nz 1\n'

cat >wanted <<'END'
{"format":1,"program":"tmhost","protocol":2,"type":"hello","version":"0.1.0"}
{"life":1,"line":1,"type":"asked"}
{"life":1,"next":"> ","output":{"items":[],"kind":"format","tag":"verbatim"},"session":"a","shown":"","type":"banner"}
{"id":1,"life":1,"next":"> ","output":{"items":["x"],"kind":"format","tag":"verbatim"},"prompt":"> ","session":"a","shown":"x","type":"answered"}
{"life":1,"line":3,"type":"asked"}
{"id":5,"outcome":"sent","type":"over"}
{"life":1,"lost":[{"id":5,"text":"deaf"}],"reason":"Stalled","session":"a","type":"ended"}
{"life":2,"line":7,"type":"asked"}
{"life":2,"next":"> ","output":{"items":[],"kind":"format","tag":"verbatim"},"session":"b","shown":"","type":"banner"}
{"id":4,"life":2,"next":"> ","output":{"items":["z 1"],"kind":"format","tag":"verbatim"},"prompt":"> ","session":"b","shown":"z 1","type":"answered"}
{"answered":3,"errors":0,"over":1,"passed":1,"type":"counted","unanswered":1}
{"type":"end"}
status 1
END
compare 'a time that is over, as JSON' "$(cat as_json.told)" "$(cat wanted)"

# That a time is over is there at once: this interpreter answers when it has read it, and stalls else.
cat >tells.sh <<'END'
trap 'over=1' INT
printf '\002verbatim:\005'
read -r l
while [ -z "$over" ]; do sleep 0.05; done
until grep -q '^over 1$' text; do sleep 0.05; done
printf '\002verbatim:%s\005' "$l"
read -r l
END
made 'session a plain env --default-signal=INT sh tells.sh\nnew 0 a x\n'
: >text
"$tmhost" eval --timeout 1 sheet >text 2>errors </dev/null
compare 'a time that is over is told at once' "$? $(text_of text; text_of errors)" "$(printf '1 asked\nbanner a\nover 1\nanswered 1\nanswered 1 unanswered 0\nover 1 passed 0')"
# Each wait of the system has the limit that was given: none of these ends sooner, and each sleeps that long where nothing comes.
python3 -I -S calls.py list polls true
listing=$?
limits_of() {
    if [ $listing != 0 ]; then echo 'some 600 s, 0 others' && return; fi
    python3 -I -S calls.py list polls "$tmhost" "$@" <given >text 2>errors
    awk '$1 == "poll" && $2 > 570000 && $2 <= 600000 { some = "some 600 s" } $1 == "poll" && $2 > 0 && ($2 <= 570000 || $2 > 600000) { others++ }
        END { print some ", " others + 0 " others" }' list
    cat list >>polls
}
rm -f polls
# It is ready some time after it was started, so what is left of the limit then is no count of whole seconds.
printf 'sleep 0.05\nexec sh count.sh\n' >late.sh
made 'session a plain sh late.sh\nnew 0 a x\n'
printf 'eval 1\nwait 600\n' >given
compare 'the limits of live' "$(limits_of live sheet)" 'some 600 s, 0 others'
printf 'eval 1\nwait\n' >given
for program in 'run --timeout 600' 'eval --timeout 600' 'check --timeout 600'; do
    compare "the limits of $program" "$(limits_of $program sheet)" 'some 600 s, 0 others'
done
[ $listing = 0 ] || echo 'poll 1' >polls
compare 'a clock of milliseconds' "$(awk '$1 == "poll" && $2 % 1000 > 0 { finer = "finer" } END { print finer }' polls)" finer
for seconds in 0 1000001 x '' 1.5; do
    words "no time: $seconds" 2 "error: this is no time: SECONDS is a number from 1 to 1000000\n\nFor more information, try 'tmhost eval --help'.\n" eval --timeout "$seconds" sheet
done

# Sessions side by side. An interpreter that answers a line when that of another session has its line of the same name too: each makes a
# file of it, and waits for the other's.
cat >meets.sh <<'END'
printf '\002verbatim:\005'
while IFS= read -r l; do
    : >"met.$1.$l"
    until [ -e "met.$2.$l" ]; do sleep 0.02; done
    printf '\002verbatim:%s\005' "$l"
done
END
# What is written of these words, but for the order of what comes of interpreters: the first lines, and all of them sorted.
sorted() {
    first=$1
    shift
    rm -f met.*
    "$tmhost" eval "$@" sheet >text 2>errors </dev/null
    echo "status $?"
    head -n "$first" text
    echo --
    LC_ALL=C sort text
    cat errors
}
made 'session a plain env --default-signal=INT sh meets.sh a b\nsession b plain env --default-signal=INT sh meets.sh b a\nnew 0 a x\nnew 1 a y\nnew 2 b x\nnew 3 b y\n'
for jobs in '' '--jobs 2' '--jobs 64'; do
    compare "two sessions side by side, $jobs" "$(sorted 2 $jobs)" \
        "$(printf 'status 0\nasked\nasked\n--\nanswered 1\nanswered 2\nanswered 3\nanswered 4\nanswered 4 unanswered 0\nasked\nasked\nasked\nasked\nbanner a\nbanner b')"
    compare "two sessions side by side, $jobs, shown" "$(answer show sheet </dev/null)" \
        "$(ending '#1 a\n> x\nx\n#2 a\n> y\ny\n#3 b\n> x\nx\n#4 b\n> y\ny\n' 0)"
done
# One after another each waits in vain, for a second. Both go in folders of their own beside what comes next.
in_folder() {
    folder=$1
    shift
    mkdir "$folder"
    cp sheet sheet.alt meets.sh "$folder"
    (cd "$folder" && sorted 1 "$@" --timeout 1 >told) &
}
in_folder after_another
in_folder with_one_job --jobs 1
made 'session a plain sh count.sh\nsession b plain env --default-signal=INT sh meets.sh b c\nsession c plain env --default-signal=INT sh meets.sh c b\nnew 0 a x\nnew 1 b z\nnew 2 c z\n'
compare 'a slow one holds no other session back' "$(sorted 2 --jobs 2 --timeout 60)" \
    "$(printf 'status 0\nasked\nasked\n--\nanswered 1\nanswered 2\nanswered 3\nanswered 3 unanswered 0\nasked\nasked\nasked\nbanner a\nbanner b\nbanner c\nover 0 passed 0')"
compare 'the third is asked when one of two has answered' "$(grep -v '^banner' text | grep -A 1 '^answered 1$')" "$(printf 'answered 1\nasked')"
made 'session a plain sh count.sh\nsession b plain sh count.sh\nnew 0 a x\nnew 1 a y\nnew 2 b z\n'
"$tmhost" eval --jobs 4 sheet >text 2>errors </dev/null
# The answer of the other session may be taken together with the first one's.
compare 'a field waits for the one before it in its session' "$(sed -n 1,2p text; sed '1,/^answered 1$/d' text | grep -c '^asked$'; LC_ALL=C sort text; cat errors)" \
    "$(printf 'asked\nasked\n1\nanswered 1\nanswered 2\nanswered 3\nanswered 3 unanswered 0\nasked\nasked\nasked\nbanner a\nbanner b')"
for words in '--jobs 1' --strict; do
    printf 'clear 1\nclear 2\nclear 3\n' >given
    "$tmhost" run sheet <given >text
    evaluates "one at a time in the order of the worksheet, $words" 0 'asked\nbanner a\nanswered 1\nasked\nanswered 2\nasked\nbanner b\nanswered 3\nanswered 3 unanswered 0\n' \
        '#1 a\n> x\nx 1\n#2 a\n> y\ny 2\n#3 b\n> z\nz 1\n' $words
done
printf 'set 3 w\n' >given
"$tmhost" run sheet <given >text
evaluates 'one session alone' 1 'asked\nbanner a\nanswered 1\nasked\nanswered 2\nanswered 2 unanswered 1\n' \
    '#1 a\n> x\nx 1\n#2 a\n> y\ny 2\n#3 b\n> w\n?\n' --jobs 4 1 2
made 'session a plain sh count.sh\nsession b plain sh count.sh\nsession c plain sh count.sh\nnew 0 c x\nnew 1 b x\nnew 2 a x\nnew 3 a y\nnew 4 c y\n'
compare 'a field is not passed over while the one before it waits' "$("$tmhost" eval --jobs 2 --timeout 60 sheet </dev/null | tail -n 2)" "$(printf 'answered 5 unanswered 0\nover 0 passed 0')"
made 'session a plain sh count.sh\nsession b plain ./broken\nsession c plain sh count.sh\nnew 0 a x\nnew 1 b y\nnew 2 c z\n'
compare 'one that is lost at once leaves its place' "$(sorted 4 --jobs 2)" \
    "$(printf 'status 1\nasked\nasked\nended b StartRefused lost 1\nasked\n--\nanswered 1\nanswered 2 unanswered 1\nanswered 3\nasked\nasked\nasked\nbanner a\nbanner c\nended b StartRefused lost 1')"
made 'session a plain env --default-signal=INT sh turns.sh\nsession b plain env --default-signal=INT sh turns.sh\nnew 0 a loop\nnew 1 b loop\n'
compare 'the time of both is over' "$(sorted 2 --jobs 2 --timeout 1)" \
    "$(printf 'status 1\nasked\nasked\n--\nanswered 1\nanswered 2\nanswered 2 unanswered 0\nasked\nasked\nbanner a\nbanner b\nover 1\nover 2\nover 2 passed 0')"
compare 'both are interrupted before anything else is taken' "$(grep -A 1 '^over 1$' text)" "$(printf 'over 1\nover 2')"

wait
for folder in after_another with_one_job; do
    compare "one after another they wait for each other, $folder" "$(cat "$folder/told")" \
        "$(printf 'status 1\nasked\n--\nanswered 2 unanswered 2\nanswered 3\nasked\nasked\nasked\nbanner a\nbanner b\nended a Ended lost 1\nended b Ended lost 1\nover 1\nover 2 passed 1\nover 4')"
done

# Each of the most interpreters that there may be is heard.
{
    seq 64 | sed 's/.*/session s& plain sh echo.sh/'
    seq 64 | sed 's/.*/new 0 s& x&/'
} >given
fresh
"$tmhost" run sheet <given >text
compare '64 sessions side by side' "$(timeout 60 "$tmhost" eval --jobs 64 sheet </dev/null 2>&1 | LC_ALL=C sort)" \
    "$({ echo 'answered 64 unanswered 0'; seq 64 | sed 's/.*/asked/'; seq 64 | sed 's/.*/banner s&/'; seq 64 | sed 's/.*/answered &/'; } | LC_ALL=C sort)"
compare '64 sessions side by side, shown' "$(answer show sheet </dev/null)" "$(ending "$(seq 64 -1 1 | sed 's/.*/#& s&\\n> x&\\nx&\\n/' | tr -d '\n')" 0)"

for jobs in 0 65 x '' 1.5; do
    words "no number of jobs: $jobs" 2 "error: this is no number of jobs: N is a number from 1 to 64\n\nFor more information, try 'tmhost eval --help'.\n" eval --jobs "$jobs" sheet
done
words 'side by side, and strictly' 2 "error: --jobs goes with no --strict and no --stop-at-error\n\nFor more information, try 'tmhost eval --help'.\n" eval --strict --jobs 2 sheet
words 'side by side, up to an error' 2 "error: --jobs goes with no --strict and no --stop-at-error\n\nFor more information, try 'tmhost eval --help'.\n" eval --stop-at-error --jobs 2 sheet

# In lines of JSON.
made 'session a plain sh count.sh\nnew 0 a x\n'
cat >wanted <<'END'
{"format":1,"program":"tmhost","protocol":2,"type":"hello","version":"0.1.0"}
{"life":1,"line":1,"type":"asked"}
{"life":1,"next":"> ","output":{"items":[],"kind":"format","tag":"verbatim"},"session":"a","shown":"","type":"banner"}
{"id":1,"life":1,"next":"> ","output":{"items":["x 1"],"kind":"format","tag":"verbatim"},"prompt":"> ","session":"a","shown":"x 1","type":"answered"}
{"answered":1,"errors":0,"type":"counted","unanswered":0}
{"type":"end"}
status 0
END
compare 'as JSON' "$(answer eval --json sheet </dev/null)" "$(cat wanted)"
sed 's/"errors":0,/"errors":0,"over":0,"passed":0,/' wanted >wanted.time
compare 'as JSON, with a limit' "$(answer eval --json --timeout 60 sheet </dev/null)" "$(cat wanted.time)"
compare 'as JSON, a number that no field has' "$(answer eval --json sheet 9 </dev/null)" "$(head -n 1 wanted; printf '{"id":9,"name":"NoField","number":37,"type":"fault"}\nfault 37 NoField 9\nstatus 1')"
compare 'as JSON, no worksheet' "$(answer eval --json missing </dev/null)" "$(printf '{"name":"Disk","number":32,"type":"fault"}\nfault 32 Disk\nstatus 1')"

# The prompt of the next line, told with a banner and with an answer; none where a fault comes with the answer.
cat >prompts.sh <<'END'
printf '\002verbatim:\002prompt#In [1]: \005\005'
IFS= read -r l
printf '\002verbatim:%s\002prompt#In [2]: \005\005' "$l"
IFS= read -r l
printf '\002verbatim:%s\002prompt#In [3]: \005\005\002verb\002' "$l"
IFS= read -r l
END
made 'session a plain sh prompts.sh\nnew 0 a x\nnew 1 a y\nnew 2 a z\n'
cat >wanted <<'END'
{"format":1,"program":"tmhost","protocol":2,"type":"hello","version":"0.1.0"}
{"life":1,"line":1,"type":"asked"}
{"life":1,"next":"In [1]: ","output":{"items":[],"kind":"format","tag":"verbatim"},"session":"a","shown":"","type":"banner"}
{"id":1,"life":1,"next":"In [2]: ","output":{"items":["x"],"kind":"format","tag":"verbatim"},"prompt":"In [1]: ","session":"a","shown":"x","type":"answered"}
{"life":1,"line":3,"type":"asked"}
{"id":2,"life":1,"next":null,"output":{"items":["y"],"kind":"format","tag":"verbatim"},"prompt":"In [2]: ","session":"a","shown":"y","type":"answered"}
{"life":1,"lost":[],"reason":"BadTag","session":"a","type":"ended"}
{"life":2,"line":5,"type":"asked"}
{"life":2,"next":"In [1]: ","output":{"items":[],"kind":"format","tag":"verbatim"},"session":"a","shown":"","type":"banner"}
{"id":3,"life":2,"next":"In [2]: ","output":{"items":["z"],"kind":"format","tag":"verbatim"},"prompt":"In [1]: ","session":"a","shown":"z","type":"answered"}
{"answered":3,"errors":0,"type":"counted","unanswered":0}
{"type":"end"}
status 0
END
compare 'the prompt of the next line, as JSON' "$(answer eval --json sheet </dev/null)" "$(cat wanted)"

# Many fields.
fresh
{
    echo 'session a plain sh count.sh'
    yes 'new 0 a x' | head -n 50
} >given
"$tmhost" run sheet <given >text
"$tmhost" eval sheet </dev/null >text
compare 'fifty fields' "$(tail -n 1 text; grep -c '^answered [0-9]*$' text)" "$(printf 'answered 50 unanswered 0\n50\n')"

# Answers that are errors: blocks of the channel `output` in another one, and of the channel `error`. They stop an evaluation only where that is
# asked for, each by itself, and whatever was shown before; a text with such a word is none.
cat >wrong.sh <<'END'
printf '\002verbatim:\005'
while IFS= read -r l; do
    case $l in
    bad) printf '\002output#\002output#oops\005\005' ;;
    deep) printf '\002output#1\002verbatim:\002error#oops\005\005\005' ;;
    *) printf '\002output#error %s\005' "$l" ;;
    esac
done
END
made 'session a plain sh wrong.sh\nnew 0 a x\nnew 1 a bad\nnew 2 a y\nnew 3 a deep\n'
wrong='#1 a\n> x\nerror x\n#2 a\n> bad\noops\n#3 a\n> y\n'
evaluates 'it stops at an answer that is an error' 3 'asked\nbanner a\nanswered 1\nasked\nanswered 2\nanswered 2 unanswered 2\nerrors 1\nstopped at field 2\n' \
    "$wrong"'?\n#4 a\n> deep\n?\n' --stop-at-error
evaluates 'and at one in which there is an error' 3 'asked\nbanner a\nanswered 3\nasked\nanswered 4\nanswered 4 unanswered 0\nerrors 2\nstopped at field 4\n' \
    "$wrong"'error y\n#4 a\n> deep\n1{error#oops}\n' --stop-at-error 3 4
evaluates 'strictly it is an answer' 0 'asked\nbanner a\nanswered 1\nasked\nanswered 2\nasked\nanswered 3\nasked\nanswered 4\nanswered 4 unanswered 0\nerrors 2\n' \
    "$wrong"'error y\n#4 a\n> deep\n1{error#oops}\n' --strict
evaluates 'where none is one it goes on' 0 'asked\nbanner a\nanswered 1\nasked\nanswered 3\nanswered 4 unanswered 0\nerrors 2\n' \
    "$wrong"'error y\n#4 a\n> deep\n1{error#oops}\n' --stop-at-error 1 3

# Errors are counted over the whole worksheet, between the answers and what a limit of time came to; the status is that of answers.
evaluates 'errors, and a limit of time' 0 'asked\nbanner a\nanswered 1\nanswered 4 unanswered 0\nerrors 2\nover 0 passed 0\n' \
    "$wrong"'error y\n#4 a\n> deep\n1{error#oops}\n' --timeout 60 1
compare 'errors, as JSON' "$(answer eval --json sheet 1 </dev/null | tail -n 3)" \
    "$(printf '{"answered":4,"errors":2,"type":"counted","unanswered":0}\n{"type":"end"}\nstatus 0')"
compare 'errors, as JSON, with a limit' "$(answer eval --json --timeout 60 sheet 1 </dev/null | tail -n 3)" \
    "$(printf '{"answered":4,"errors":2,"over":0,"passed":0,"type":"counted","unanswered":0}\n{"type":"end"}\nstatus 0')"
evaluates 'errors are counted where nothing is evaluated, too' 0 'answered 4 unanswered 0\nerrors 2\n' "$wrong"'error y\n#4 a\n> deep\n1{error#oops}\n' --unanswered
printf 'set 2 z\nset 4 v\neval 2\neval 4\nwait\n' >given
"$tmhost" run sheet <given >text
evaluates 'errors that are mended' 0 'answered 4 unanswered 0\n' '#1 a\n> x\nerror x\n#2 a\n> z\nerror z\n#3 a\n> y\nerror y\n#4 a\n> v\nerror v\n' --unanswered

# What a change needs: all fields of each session in which one shows no answer, from an empty interpreter on. The others keep what they show,
# and their interpreters aren't started.
made 'session a plain sh count.sh\nsession b plain sh count.sh\nnew 0 a x\nnew 1 b y\nnew 2 a z\nnew 3 b w\neval 1\neval 2\neval 3\neval 4\nwait\n'
sheet='#1 a\n> x\nx 1\n#2 b\n> y\ny 1\n#3 a\n> z\nz 2\n#4 b\n> w\nw 2\n'
evaluates 'nothing was changed' 0 'answered 4 unanswered 0\n' "$sheet" --changed
printf 'set 3 v\n' >given
"$tmhost" run sheet <given >text
evaluates 'a field in the middle was changed' 0 'asked\nbanner a\nanswered 1\nasked\nanswered 3\nanswered 4 unanswered 0\n' \
    '#1 a\n> x\nx 1\n#2 b\n> y\ny 1\n#3 a\n> v\nv 2\n#4 b\n> w\nw 2\n' --changed
evaluates 'and nothing since then' 0 'answered 4 unanswered 0\n' '#1 a\n> x\nx 1\n#2 b\n> y\ny 1\n#3 a\n> v\nv 2\n#4 b\n> w\nw 2\n' --changed
# The program of a session that isn't evaluated isn't looked for.
{ echo '#!/bin/sh' && cat count.sh; } >goes.sh
chmod +x goes.sh
made 'session a plain sh count.sh\nsession b plain ./goes.sh\nnew 0 a x\nnew 1 b y\nnew 2 a z\nnew 3 a u\nnew 4 b w\neval 1\neval 2\neval 3\neval 4\neval 5\nwait\nset 1 v\n'
mv goes.sh away.sh
evaluates 'the first field of a session' 0 'asked\nbanner a\nanswered 1\nasked\nanswered 3\nasked\nanswered 4\nanswered 5 unanswered 0\n' \
    '#1 a\n> v\nv 1\n#2 b\n> y\ny 1\n#3 a\n> z\nz 2\n#4 a\n> u\nu 3\n#5 b\n> w\nw 2\n' --changed --jobs 1
mv away.sh goes.sh
printf 'clear 2\nnew 5 a t\n' >given
"$tmhost" run sheet <given >text
evaluates 'a field that was cleared, and one that is new' 0 \
    'asked\nbanner a\nanswered 1\nasked\nbanner b\nanswered 2\nasked\nanswered 3\nasked\nanswered 4\nasked\nanswered 5\nasked\nanswered 6\nanswered 6 unanswered 0\n' \
    '#1 a\n> v\nv 1\n#2 b\n> y\ny 1\n#3 a\n> z\nz 2\n#4 a\n> u\nu 3\n#5 b\n> w\nw 2\n#6 a\n> t\nt 4\n' --changed --jobs 1
printf 'remove 3\nmove 4 0\n' >given
"$tmhost" run sheet <given >text
evaluates 'a field that was removed and one that was moved leave no trace' 0 'answered 5 unanswered 0\n' \
    '#4 a\n> u\nu 3\n#1 a\n> v\nv 1\n#2 b\n> y\ny 1\n#5 b\n> w\nw 2\n#6 a\n> t\nt 4\n' --changed

# A field whose line was lost shows no answer. Prose shows none, and that is no change.
made 'session a plain sh count.sh\nsession prose plain true\nnew 0 prose Title\nnew 1 a x\nnew 2 a end\nnew 3 a y\nnew 4 prose text\neval 2\neval 3\nwait\neval 4\nwait\n'
evaluates 'a field whose line was lost' 1 'asked\nbanner a\nanswered 2\nasked\nended a Ended lost 1\nanswered 2 unanswered 1\nover 0 passed 1\n' \
    '#1 prose\n> Title\n?\n#2 a\n> x\nx 1\n#3 a\n> end\n? Ended\n#4 a\n> y\ny 1\n#5 prose\n> text\n?\n' --changed
printf 'remove 3\n' >given
"$tmhost" run sheet <given >text
evaluates 'prose is no change' 0 'answered 2 unanswered 0\n' '#1 prose\n> Title\n?\n#2 a\n> x\nx 1\n#4 a\n> y\ny 1\n#5 prose\n> text\n?\n' --changed
for other in '--unanswered sheet' '--from 1 sheet' 'sheet 1' '--from x sheet y'; do
    words "changed, with $other" 2 "error: --changed goes with no ID after PATH, no --from and no --unanswered\n\nFor more information, try 'tmhost eval --help'.\n" eval --changed $other
done

counted evaluations
