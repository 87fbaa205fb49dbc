# Checks of sessions side by side, and of several worksheets.
. ./checks_desk.sh

# Sessions side by side: the same report, in each format, of the same fields, but for what each took.
made "$a"'session b plain sh suite.sh b\nnew 0 a x\nnew 1 b differs\nnew 2 a hangs\nnew 3 a tags\nnew 4 b tagged\nnew 5 b not evaluated\neval 1\neval 2\neval 3\neval 4\neval 5\nwait\n'
for flags in '' '--format tap' '--format junit' '--json' '--only b' '--leave-out 2,4' '--timeout 60' '--only nothing' --all '--all --format tap' '--all --json'; do
    want=$(answer check --jobs 1 $flags sheet </dev/null | untimed)
    for jobs in '' '--jobs 4'; do compare "side by side as one after another, $jobs $flags" "$(answer check $jobs $flags sheet </dev/null | untimed)" "$want"; done
done
nothing_sent
reports 'side by side' 1 '#2 b\nb] differs\n- differs\n+ another\n#3 a\na] hangs\n- hangs\n+ ? Ended\n#4 a\na] tags\n- tags\n+ </failure><b a="&">\n#5 b\nb] tagged\n- tagged\n+ {latex:$x$}\nsame 1 differ 3 unanswered 1\n' --jobs 2
compare 'side by side, no field that shows none' "$(grep -c 'not evaluated' sent)" 0
ended 'side by side' 3
made "$a"'session b plain ./nothing\nnew 0 a x\nnew 1 a differs\neval 1\neval 2\nwait\n'
reports 'side by side, one session alone' 1 '#2 a\na] differs\n- differs\n+ another\nsame 1 differ 1 unanswered 0\n' --jobs 64

# An interpreter that answers a line once that of the other session has its line of the same name too.
cat >meets.sh <<'END_OF_CHILD'
printf '\002verbatim:\005'
while IFS= read -r line; do
    : >"met.$1.$line"
    until [ -e "met.$2.$line" ]; do sleep 0.02; done
    printf '\002verbatim:%s\005' "$line"
done
END_OF_CHILD
rm -f met.*
made 'session a plain env --default-signal=INT sh meets.sh a b\nsession b plain env --default-signal=INT sh meets.sh b a\nnew 0 b x\nnew 1 a x\nnew 2 a y\nnew 3 b y\neval 1\neval 2\neval 3\neval 4\nwait\n'
for jobs in '' '--jobs 2'; do
    rm -f met.*
    reports "two that wait for each other, $jobs" 0 'same 4 differ 0 unanswered 0\n' $jobs
    rm -f met.*
    words "two that wait for each other, twice, $jobs" 0 'worksheet sheet\nsame 4 differ 0 unanswered 0\nworksheet sheet\nsame 4 differ 0 unanswered 0\ntotal of 2 worksheets: same 8 differ 0 unanswered 0\n' check $jobs sheet sheet
done
# One after another each waits in vain, for a second: both go beside what comes next.
rm -f met.*
beside after_another --timeout 1
beside with_one_job --jobs 1 --timeout 1

# What came after its time is none, and the fields after it are checked.
made "$l"'session k plain env --default-signal=INT sh loops.sh\nnew 0 l x\nnew 1 l loop\nnew 2 k late\nnew 3 l y\nnew 4 k differs\neval 1\neval 2\neval 3\neval 4\neval 5\nwait\n'
reports 'side by side, an answer after its time is none' 1 '#2 l\n> loop\n- loop\n+ ?\n#3 k\n> late\n- late\n+ ?\n#5 k\n> differs\n- differs\n+ another\nsame 2 differ 1 unanswered 2\n' --jobs 2 --timeout 1
wait
told='#1 b\n> x\n- x\n+ ? Ended\n#3 a\n> y\n- y\n+ ? Ended\nsame 2 differ 0 unanswered 2\n'
came 'two that wait for each other, one after another, ' after_another "$(ending "$told" 1)"
came 'two that wait for each other, one after another, --jobs 1' with_one_job "$(ending "$told" 1)"

# Nothing is written before the last answer came.
made "$a"'session b plain sh suite.sh b\nnew 0 a differs\nnew 1 b kills\neval 1\neval 2\nwait\n'
(exec "$tmhost" check --format tap sheet >text 2>errors) 2>/dev/null
compare 'side by side, a check that is killed' "$? $(text_of text; text_of errors)" '137 '

# A report that is cut off has no plan, and isn't well-formed.
made "$a"'new 0 a x\nnew 1 a kills\neval 1\neval 2\nwait\n'
(exec "$tmhost" check --format tap sheet >text 2>errors) 2>/dev/null
compare 'a report that is cut off' "$? $(timed <text; cat errors)" "$(printf "137 TAP version 13\nok 1 - field 1 of a\n$starts")"
(exec "$tmhost" check --format junit sheet >text 2>errors) 2>/dev/null
compare 'cases that are cut off' "$? $(timed <text; cat errors)" "$(printf '137 %b<testcase classname="a" name="field 1: x" time="N"></testcase>' "$head")"
made "$a"'new 0 a x\neval 1\nwait\n'
"$tmhost" check --format tap sheet >/dev/full 2>errors
compare 'a report on a full output' "$? $(text_of errors)" '1 fault 42 Output'
sent 'a report on a full output' ''
made "$a"'new 0 a opens\neval 1\nwait\n'
timeout 10 "$tmhost" check --format tap sheet >text 2>errors
compare 'the front of a report that is read at once' "$? $(timed <text; cat errors)" "$(printf "0 TAP version 13\nok 1 - field 1 of a\n${starts}1..1")"

# Several worksheets: each below a line with its path, and the total at the end.
line_feed='
'
made_at one "$a"'new 0 a x\nnew 1 a y\neval 1\neval 2\nwait\n'
made_at two "$a"'session b plain sh suite.sh b\nnew 0 a z\nnew 1 b not evaluated\neval 1\nwait\n'
made_at bad "$a"'new 0 a x\nnew 1 a differs\nnew 2 a hangs\neval 1\neval 2\neval 3\nwait\n'
made_at three "$a"'new 0 a heads\neval 1\nwait\n'
made_at deadly "$a"'new 0 a x\nnew 1 a kills\neval 1\neval 2\nwait\n'
made_at "a${line_feed}worksheet b" "$a"'new 0 a x\neval 1\nwait\n'
before=$(sums one two bad)
differ='worksheet bad\n#2 a\na] differs\n- differs\n+ another\n#3 a\na] hangs\n- hangs\n+ ? Ended\nsame 1 differ 1 unanswered 1\n'
words 'two worksheets' 0 'worksheet one\nsame 2 differ 0 unanswered 0\nworksheet two\nsame 1 differ 0 unanswered 0\ntotal of 2 worksheets: same 3 differ 0 unanswered 0\n' check one two
sent 'two worksheets' 'start a\nsend a x\nsend a y\nstart a\nsend a z'
ended 'two worksheets' 2
words 'one that differs, and another' 1 "$differ"'worksheet one\nsame 2 differ 0 unanswered 0\ntotal of 2 worksheets: same 3 differ 1 unanswered 1\n' check bad one
words 'another, and one that differs' 1 'worksheet one\nsame 2 differ 0 unanswered 0\n'"$differ"'total of 2 worksheets: same 3 differ 1 unanswered 1\n' check one bad
words 'one worksheet twice' 0 'worksheet one\nsame 2 differ 0 unanswered 0\nworksheet one\nsame 2 differ 0 unanswered 0\ntotal of 2 worksheets: same 4 differ 0 unanswered 0\n' check one one
words 'one of three that is not there' 1 'worksheet one\nsame 2 differ 0 unanswered 0\nworksheet nowhere\nworksheet two\nsame 1 differ 0 unanswered 0\ntotal of 3 worksheets: same 3 differ 0 unanswered 0 faults 1\nfault 32 Disk\n' check one nowhere two
words 'two that are none' 1 'worksheet nowhere\nworksheet suite.sh\ntotal of 2 worksheets: same 0 differ 0 unanswered 0 faults 2\nfault 32 Disk\nfault 31 NotASheet\n' check nowhere suite.sh
words 'a hundred worksheets' 1 "$(repeated 100 'worksheet nowhere\n')total of 100 worksheets: same 0 differ 0 unanswered 0 faults 100\n$(repeated 100 'fault 32 Disk\n')" check $(repeated 100 'nowhere ')
words 'a path of two lines' 0 'worksheet a\\x0aworksheet b\nsame 1 differ 0 unanswered 0\nworksheet one\nsame 2 differ 0 unanswered 0\ntotal of 2 worksheets: same 3 differ 0 unanswered 0\n' check "a${line_feed}worksheet b" one
talk_over live two
say '# held\nprint 1\n'
hears 'one of two that is in use, held' '#1 a\na] z\nz\n'
words 'one of two that is in use' 1 'worksheet two\nworksheet one\nsame 2 differ 0 unanswered 0\ntotal of 2 worksheets: same 2 differ 0 unanswered 0 faults 1\nfault 35 InUse\n' check two one
exec 3>&-
wait "$host"
exec 4<&-
words 'a session of both' 0 'worksheet one\nsame 2 differ 0 unanswered 0\nworksheet two\nsame 1 differ 0 unanswered 0\ntotal of 2 worksheets: same 3 differ 0 unanswered 0\n' check --only a one two
made_at four 'session b plain sh suite.sh b\nnew 0 b x\neval 1\nwait\n'
words 'a session of one of two' 1 'worksheet one\nsame 0 differ 0 unanswered 0\nworksheet four\nsame 1 differ 0 unanswered 0\ntotal of 2 worksheets: same 1 differ 0 unanswered 0\n' check --only b one four
words 'two worksheets, whole' 1 "$differ"'worksheet one\nsame 2 differ 0 unanswered 0\ntotal of 2 worksheets: same 3 differ 1 unanswered 1\n' check --whole bad one
words 'two worksheets, by the name of the format' 0 'worksheet one\nsame 2 differ 0 unanswered 0\nworksheet four\nsame 1 differ 0 unanswered 0\ntotal of 2 worksheets: same 3 differ 0 unanswered 0\n' check --format text one four
for flags in '--jobs 4' '--timeout 60' '--jobs 4 --timeout 60'; do
    compare "several worksheets, $flags" "$(answer check $flags one bad nowhere four </dev/null)" "$(answer check one bad nowhere four </dev/null)"
done

# Several are checked in words alone.
nothing_sent
for flags in '--format tap' '--format junit' '--format json' '--json'; do
    words "several worksheets, $flags" 2 "error: several PATHs go with no FORMAT but text$help" check $flags one two
done
words 'several that are accepted' 2 "error: --accept goes with one PATH alone$help" check --accept bad one
words 'fields of several that are left out' 2 "error: --leave-out goes with one PATH alone$help" check --leave-out 2 bad one
words 'fields of several that are compared' 2 "error: --compare goes with one PATH alone$help" check --compare 2 bad one
words 'several side by side, and accepted' 2 "error: --jobs goes with no --accept$help" check --jobs 2 --accept bad one
compare 'several worksheets that are not checked' "$(text_of sent)" ''

# The line with a path is there before its report; and a check that is killed at the second worksheet, and one whose output is full.
rm -f text
: >text
timeout 10 "$tmhost" check one three >text 2>errors
compare 'a line that is read at once' "$? $(text_of text; text_of errors)" "$(printf '0 worksheet one\nsame 2 differ 0 unanswered 0\nworksheet three\nsame 1 differ 0 unanswered 0\ntotal of 2 worksheets: same 3 differ 0 unanswered 0')"
(exec "$tmhost" check one deadly two >text 2>errors) 2>/dev/null
compare 'several that are killed' "$? $(text_of text; text_of errors)" "$(printf '137 worksheet one\nsame 2 differ 0 unanswered 0\nworksheet deadly')"
nothing_sent
"$tmhost" check one two >/dev/full 2>errors
compare 'several on a full output' "$? $(text_of errors)" '1 fault 42 Output'
sent 'several on a full output' ''
compare 'several worksheets, kept' "$(sums one two bad)" "$before"
rm -f one one.alt two two.alt bad bad.alt three three.alt deadly deadly.alt four four.alt "a${line_feed}worksheet b" "a${line_feed}worksheet b.alt"
rm -f again sent lives met.*

counted 'checks side by side'
