# Checks: worksheets as test suites, what `check` writes of each, and that the worksheet stays as it was, byte by byte.
. ./checks_desk.sh

# What is evaluated, and in which order.
checked 'an empty worksheet' '' 0 'same 0 differ 0 unanswered 0\n'
checked 'fields without an answer' "$a"'new 0 a x\nnew 1 a y\n' 0 'same 0 differ 0 unanswered 0\n'
sent 'fields without an answer' ''
checked 'one field' "$a"'new 0 a x\neval 1\nwait\n' 0 'same 1 differ 0 unanswered 0\n'
sent 'one field' 'start a\nsend a x'
ended 'one field' 1
checked 'fields of two sessions' "$a"'session b plain sh suite.sh b\nnew 0 a x\nnew 1 b y\nnew 2 a z\nnew 3 b \neval 3\neval 2\neval 1\nwait\n' 0 \
    'same 3 differ 0 unanswered 0\n' --jobs 1
sent 'fields of two sessions' 'start a\nsend a x\nstart b\nsend b y\nsend a z'
ended 'fields of two sessions' 2
checked 'an input that was set behind its answer' "$a"'new 0 a x\nnew 1 a y\neval 1\neval 2\nwait\nset 1 z\n' 0 'same 1 differ 0 unanswered 0\n'
sent 'an input that was set behind its answer' 'start a\nsend a y'
checked 'a field whose line was lost' "$a"'session b plain true\nnew 0 a x\nnew 1 b y\neval 1\neval 2\nwait\n' 0 'same 1 differ 0 unanswered 0\n'
made 'session c plain sh count.sh\nnew 0 c x\nnew 1 c y\nnew 2 c z\neval 3\neval 2\neval 1\nwait\n'
checks 'the order of the worksheet, and not that of the evaluations' 1 \
    '#1 c\n> x\n- 3\n+ 1\n#3 c\n> z\n- 1\n+ 3\nsame 1 differ 2 unanswered 0\n'
made 'session c plain sh count.sh\nnew 0 c x\nnew 1 c y\neval 2\neval 1\nwait\nmove 2 0\ncheckpoint\n'
checks 'fields that were moved' 0 'same 2 differ 0 unanswered 0\n'
made 'session c plain sh count.sh\nnew 0 c x\neval 1\nwait\neval 1\nwait\n'
checks 'an interpreter of its own' 1 '#1 c\n> x\n- 2\n+ 1\nsame 0 differ 1 unanswered 0\n'

# What differs.
checked 'a suite of five' \
    "$a"'session b plain sh gone.sh b\nnew 0 a one\nnew 1 a differs\nnew 2 a hangs\nnew 3 b four\nnew 4 a five\nnew 5 a not evaluated\neval 1\neval 2\neval 3\neval 5\nwait\n' 1 \
    '#2 a\na] differs\n- differs\n+ another\n#3 a\na] hangs\n- hangs\n+ ? Ended\nsame 2 differ 1 unanswered 1\n'
sent 'a suite of five' 'start a\nsend a one\nsend a differs\nsend a hangs\nstart a\nsend a five'
ended 'a suite of five' 2
cp suite.sh gone.sh
made "$a"'session b plain ./gone.sh b\nnew 0 a one\nnew 1 b two\nnew 2 a three\neval 1\neval 3\nwait\n'
chmod 755 gone.sh
sed -i '1i #!/bin/sh' gone.sh
rm -f again
printf 'eval 2\nwait\n' | "$tmhost" run sheet >/dev/null
rm -f gone.sh
checks 'a program that is gone' 1 '#2 b\nb] two\n- two\n+ ? StartRefused\nsame 2 differ 0 unanswered 1\n'
checked 'all that differs' "$a"'new 0 a differs\nnew 1 a hangs\nnew 2 a differs\nnew 3 a hangs\neval 1\neval 2\neval 3\neval 4\nwait\n' 1 \
    '#1 a\na] differs\n- differs\n+ another\n#2 a\na] hangs\n- hangs\n+ ? Ended\n#3 a\na] differs\n- differs\n+ another\n#4 a\na] hangs\n- hangs\n+ ? Ended\nsame 0 differ 2 unanswered 2\n'
sent 'all that differs' 'start a\nsend a differs\nsend a hangs\nstart a\nsend a differs\nsend a hangs'
checks 'the same again' 1 \
    '#1 a\na] differs\n- differs\n+ another\n#2 a\na] hangs\n- hangs\n+ ? Ended\n#3 a\na] differs\n- differs\n+ another\n#4 a\na] hangs\n- hangs\n+ ? Ended\nsame 0 differ 2 unanswered 2\n'
checked 'prompts that differ' "$a"'new 0 a prompts\nnew 1 a y\nnew 2 a inputs\neval 1\neval 2\neval 3\nwait\n' 0 'same 3 differ 0 unanswered 0\n'
checked 'an output of more lines' "$a"'new 0 a longer\neval 1\nwait\n' 1 '#1 a\na] longer\n  one\n  two\n+ three\nsame 0 differ 1 unanswered 0\n'
checks 'an output of more lines, whole' 1 '#1 a\na] longer\n- one\n- two\n+ one\n+ two\n+ three\nsame 0 differ 1 unanswered 0\n' --whole
checked 'an output without a byte' "$a"'new 0 a shorter\neval 1\nwait\n' 1 '#1 a\na] shorter\n- shorter\n+ \nsame 0 differ 1 unanswered 0\n'
checked 'an output with a tag' "$a"'new 0 a tagged\neval 1\nwait\n' 1 '#1 a\na] tagged\n- tagged\n+ {latex:$x$}\nsame 0 differ 1 unanswered 0\n'
checked 'an output that differs in what is not shown' "$a"'new 0 a nested\neval 1\nwait\n' 1 '#1 a\na] nested\n= the same in print\nsame 0 differ 1 unanswered 0\n'
checks 'an output that differs in what is not shown, whole' 1 '#1 a\na] nested\n- nested\n+ nested\nsame 0 differ 1 unanswered 0\n' --whole
checked 'bytes that are not plain' "$a"'new 0 a bytes\neval 1\nwait\n' 1 '#1 a\na] bytes\n- bytes\n+ \\x01\\x0d\303\251\\x7f\nsame 0 differ 1 unanswered 0\n'
# Hunks: what both outputs begin with and end with is left out but for three lines on either side.
hunk='@@ -2,7 +2,8 @@\n  2\n  3\n  4\n- 5\n+ five\n+ more\n  6\n  7\n  8\n'
checked 'lines that differ in the middle' "$a"'new 0 a middle\neval 1\nwait\n' 1 "#1 a\na] middle\n${hunk}same 0 differ 1 unanswered 0\n"
checks 'lines that differ in the middle, whole' 1 \
    "#1 a\na] middle\n$(seq 9 | sed 's/^/- /; s/$/\\n/' | tr -d '\n')$(printf '%s\n' 1 2 3 4 five more 6 7 8 9 | sed 's/^/+ /; s/$/\\n/' | tr -d '\n')same 0 differ 1 unanswered 0\n" --whole
checks 'lines that differ in the middle, as TAP' 1 \
    "TAP version 13\nnot ok 1 - field 1 of a\n$starts"'# #1 a\n# a] middle\n# @@ -2,7 +2,8 @@\n#   2\n#   3\n#   4\n# - 5\n# + five\n# + more\n#   6\n#   7\n#   8\n1..1\n' --format tap
checked 'a first line that is gone' "$a"'new 0 a begins\neval 1\nwait\n' 1 '#1 a\na] begins\n@@ -1,4 +1,3 @@\n- 1\n  2\n  3\n  4\nsame 0 differ 1 unanswered 0\n'
checked 'a last line that is new' "$a"'new 0 a ends\neval 1\nwait\n' 1 '#1 a\na] ends\n@@ -7,3 +7,4 @@\n  7\n  8\n  9\n+ 10\nsame 0 differ 1 unanswered 0\n'
checked 'lines that came twice' "$a"'new 0 a twice\neval 1\nwait\n' 1 '#1 a\na] twice\n@@ -2,6 +2,9 @@\n  2\n  3\n  4\n+ 2\n+ 3\n+ 4\n  5\n  6\n  7\nsame 0 differ 1 unanswered 0\n'
checked 'one line of two thousand' "$a"'new 0 a large\neval 1\nwait\n' 1 \
    '#1 a\na] large\n@@ -997,7 +997,7 @@\n  997\n  998\n  999\n- 1000\n+ another\n  1001\n  1002\n  1003\nsame 0 differ 1 unanswered 0\n'
checked 'the output of a question mark' "$a"'new 0 a ?\neval 1\nwait\n' 0 'same 1 differ 0 unanswered 0\n'

# Each difference is written when it is known, where fields of one session are checked, or one after another: the next field of session a
# is answered once the first one's text is there.
read_at_once() {
    : >text
    timeout 10 "$tmhost" check $2 sheet >text 2>errors
    compare "a difference that is read at once, $1, $2" "$? $(text_of text; text_of errors)" "$(printf '1 #1 a\na] differs\n- differs\n+ another\nsame %s differ 1 unanswered 0' "$3")"
}
made "$a"'session b plain sh suite.sh b\nnew 0 a differs\nnew 1 b not evaluated\nnew 2 a looks\neval 1\neval 3\nwait\n'
for words in '' '--jobs 8' '--timeout 60' --whole; do read_at_once 'one session' "$words" 1; done
made "$a"'session b plain sh suite.sh b\nnew 0 a differs\nnew 1 b x\nnew 2 a looks\neval 1\neval 2\neval 3\nwait\n'
read_at_once 'one of two sessions' '--only a' 1
for words in '--jobs 1' '--timeout 60'; do read_at_once 'two sessions' "$words" 2; done

# A check that is killed.
made "$a"'new 0 a differs\nnew 1 a kills\neval 1\neval 2\nwait\n'
before=$(sums sheet sheet.alt)
(exec "$tmhost" check sheet >text 2>errors) 2>/dev/null
compare 'a check that is killed' "$? $(text_of text; text_of errors)" "$(printf '137 #1 a\na] differs\n- differs\n+ another')"
compare 'a check that is killed, kept' "$(sums sheet sheet.alt)" "$before"
compare 'a check that is killed, shown' "$(answer show sheet)" "$(printf '#1 a\na] differs\ndiffers\n#2 a\na] kills\nkills\nstatus 0')"

# Files: a worksheet in use, beside another check, without a second file, one that can only be read, and none.
made "$a"'new 0 a x\neval 1\nwait\n'
talk_over live sheet
say '# held\nprint 1\n'
hears 'a worksheet in use, held' '#1 a\na] x\nx\n'
checks 'a worksheet in use' 1 'fault 35 InUse\n'
exec 3>&-
wait "$host"
exec 4<&-
checks 'a worksheet that was in use' 0 'same 1 differ 0 unanswered 0\n'
made "$a"'new 0 a looks\neval 1\nwait\n'
rm -f text
: >text
timeout 10 "$tmhost" check sheet >other 2>&1 &
host=$!
until [ -s sent ]; do sleep 0.01; done
compare 'a show beside a check' "$(answer show sheet)" "$(printf '#1 a\na] looks\nlooks\nstatus 0')"
compare 'a run beside a check' "$(printf 'remove 1\n' | answer run sheet)" "$(printf 'fault 35 InUse\nstatus 1')"
echo '+ another' >text
wait "$host"
compare 'a check beside others' "$? $(cat other)" '0 same 1 differ 0 unanswered 0'
made "$a"'new 0 a x\neval 1\nwait\n'
rm -f sheet.alt
chmod 400 sheet
compare 'a file that can only be read' "$(answer check sheet)" "$(printf 'same 1 differ 0 unanswered 0\nstatus 0')"
compare 'a file that can only be read, made' "$(ls sheet.alt 2>/dev/null)" ''
chmod 600 sheet
words 'a path without a file' 1 'fault 32 Disk\n' check nowhere
words 'an empty path is not checked' 1 'fault 32 Disk\n' check ''
words 'no worksheet' 1 'fault 31 NotASheet\n' check suite.sh
printf 'TMWSHEET\001ARR' >sheet
rm -f sheet.alt
checks 'a damaged worksheet' 1 'fault 30 Damaged 10\n'

# Outputs that can't be written: of the last line alone, and of a difference, behind which nothing is evaluated.
made "$a"'new 0 a x\neval 1\nwait\n'
"$tmhost" check sheet >/dev/full 2>errors
compare 'a full output' "$? $(text_of errors)" '1 fault 42 Output'
made "$a"'new 0 a differs\nnew 1 a y\neval 1\neval 2\nwait\n'
"$tmhost" check sheet >/dev/full 2>errors
compare 'a difference on a full output' "$? $(text_of errors)" '1 fault 42 Output'
sent 'a difference on a full output' 'start a\nsend a differs'
ended 'a difference on a full output' 1

# As TAP: outputs that look like points, plans and directives are comments.
made "$a"
reports 'no point' 0 'TAP version 13\n1..0\n' --format tap
made "$a"'new 0 a x\nnew 1 a y\nnew 2 a not evaluated\neval 1\neval 2\nwait\n'
reports 'points that are passed' 0 "TAP version 13\nok 1 - field 1 of a\n${starts}ok 2 - field 2 of a\n${goes_on}1..2\n" --format tap
reports 'in words, by the name of the format' 0 'same 2 differ 0 unanswered 0\n' --format text
made "$a"'session b plain sh suite.sh b\nnew 0 a # SKIP\nnew 1 a taps\nnew 2 b hangs\nnew 3 b five\neval 1\neval 2\neval 3\neval 4\nwait\n'
tap="TAP version 13\nok 1 - field 1 of a\n${starts}not ok 2 - field 2 of a\n$goes_on"'# #2 a\n# a] taps\n# - taps\n# + not ok 7\n# + 1..0 # SKIP all\n# + \n# + Bail out!\nnot ok 3 - field 3 of b\n'"$starts"'# #3 b\n# b] hangs\n# - hangs\n# + ? Ended\nok 4 - field 4 of b\n'"${starts}1..4\n"
reports 'points that are not' 1 "$tap" --format tap --jobs 1
sent 'points that are not' 'start a\nsend a # SKIP\nsend a taps\nstart b\nsend b hangs\nstart b\nsend b five'
ended 'points that are not' 3

# Some of the fields: those of a session, and those that are compared. What is left out is evaluated.
nothing_sent
reports 'one session' 1 '#3 b\nb] hangs\n- hangs\n+ ? Ended\nsame 1 differ 0 unanswered 1\n' --only b
sent 'one session' 'start b\nsend b hangs\nstart b\nsend b five'
nothing_sent
reports 'one session, of which what differs is left out' 0 "TAP version 13\nok 1 - field 1 of a\n${starts}ok 2 - field 2 of a # SKIP left out\n${goes_on}1..2\n" --format tap --only a --leave-out 2
sent 'one session, of which what differs is left out' 'start a\nsend a # SKIP\nsend a taps'
reports 'a session that is not there' 1 'same 0 differ 0 unanswered 0\n' --only c
reports 'fields that are left out' 0 'same 2 differ 0 unanswered 0 left out 2\n' --leave-out 2-3
reports 'all fields left out' 0 'same 0 differ 0 unanswered 0 left out 4\n' --leave-out 1,2,3-4
reports 'one that is compared' 1 '#3 b\nb] hangs\n- hangs\n+ ? Ended\nsame 1 differ 0 unanswered 1 left out 2\n' --compare 3-4
reports 'one that is compared, and left out' 0 'same 1 differ 0 unanswered 0 left out 3\n' --compare 3-4 --leave-out 3
reports 'none that is compared' 0 "TAP version 13\nok 1 - field 1 of a # SKIP left out\n${starts}ok 2 - field 2 of a # SKIP left out\n${goes_on}1..2\n" --format tap --only a --compare 3-4
reports 'one that is not left out' 1 '#3 b\nb] hangs\n- hangs\n+ ? Ended\nsame 2 differ 0 unanswered 1 left out 1\n' --leave-out 2,2

# A number that no field has: nothing is evaluated, and nothing written. Of a range its first and its last are looked for.
nothing_sent
reports 'a number that no field has' 1 'fault 37 NoField 7\n' --leave-out 2-3,7,4294967295
reports 'a range that ends after the fields' 1 'fault 37 NoField 5\n' --leave-out 1,4-5
reports 'a range that begins before them' 1 'fault 37 NoField 0\n' --leave-out 0-4
reports 'a range of none' 1 'fault 37 NoField 8\n' --compare 1,8-9
reports 'one to compare that no field has' 1 'fault 37 NoField 9\n' --compare 9 --format junit
reports 'one to leave out, and one to compare' 1 'fault 37 NoField 6\n' --compare 5 --leave-out 6 --jobs 1
reports 'an object of a number that no field has' 1 '{"id":7,"name":"NoField","number":37,"type":"fault"}\nfault 37 NoField 7\n' --json --leave-out 7
reports 'one of accepted ones that no field has' 1 'fault 37 NoField 7\n' --accept --compare 7
reports 'a number that no field has, side by side' 1 'fault 37 NoField 7\n' --jobs 2 --leave-out 7
compare 'numbers that no field has' "$(text_of sent)" ''
reports 'a field of another session' 0 'same 1 differ 0 unanswered 0 left out 1\n' --only a --leave-out 2-3
"$tmhost" run sheet <<'END_OF_SCRIPT' >/dev/null
remove 2
END_OF_SCRIPT
nothing_sent
reports 'a range around a field that is gone' 0 'same 1 differ 0 unanswered 0 left out 2\n' --leave-out 1-3
reports 'one that is gone' 1 'fault 37 NoField 2\n' --leave-out 2-3

# Words that ask for no check.
nothing_sent
reports 'another format' 2 "error: there is no such format: FORMAT is text, tap, junit or json$help" --format xml
reports 'the name of no session' 2 "error: no session can have this name: NAME is 1 to 32 letters, digits, \`_\` and \`-\`$help" --only 'a b'
reports 'lines of JSON and a format' 2 "error: --json goes with no --format$help" --json --format tap
reports 'lines of JSON, by the name too' 2 "error: --json goes with no --format$help" --format json --json
for words in '--accept' '--format tap' '--format junit' '--json'; do
    reports "whole outputs, $words" 2 "error: --whole goes with no FORMAT but text, and with no --accept$help" --whole $words
done
reports 'lines of JSON that are accepted' 2 "error: --accept goes with no FORMAT but text$help" --json --accept
for ids in '' , 1, 1,,2 x 3-1 1- -1 01 1-2-3 4294967296 '1, 2'; do
    reports "no fields to compare: $ids" 2 "error: these are no fields: IDS are numbers and ranges of them, as 3,7-9$help" "--compare=$ids"
    reports "no fields: $ids" 2 "error: these are no fields: IDS are numbers and ranges of them, as 3,7-9$help" "--leave-out=$ids"
done
for seconds in 0 1000001 x '' 1.5; do
    reports "no time: $seconds" 2 "error: this is no time: SECONDS is a number from 1 to 1000000$help" --timeout "$seconds"
done
for jobs in 0 65 x '' 1.5; do
    reports "no number of jobs: $jobs" 2 "error: this is no number of jobs: N is a number from 1 to 64$help" --jobs "$jobs"
done
reports 'side by side, and accepted' 2 "error: --jobs goes with no --accept$help" --jobs 2 --accept
compare 'words that ask for no check' "$(text_of sent)" ''

# In JUnit's XML: outputs that look like tags are texts, and what XML can't have is replaced.
made "$a"
reports 'no case' 0 "$head$tail" --format junit
made "$a"'new 0 a x\nnew 1 a tags\nnew 2 a odd\nnew 3 a hangs\nnew 4 a differs\neval 1\neval 2\neval 3\neval 4\neval 5\nwait\n'
reports 'cases' 1 "$head"'<testcase classname="a" name="field 1: x" time="N"></testcase>\n<testcase classname="a" name="field 2: tags" time="N"><failure message="differs">#2 a\na] tags\n- tags\n+ &lt;/failure&gt;&lt;b a=&quot;&amp;&quot;&gt;\n</failure></testcase>\n<testcase classname="a" name="field 3: odd" time="N"><failure message="differs">#3 a\na] odd\n- odd\n+ \357\277\275\303\251\357\277\275\357\277\275\357\277\275\n</failure></testcase>\n<testcase classname="a" name="field 4: hangs" time="N"><error message="unanswered">#4 a\na] hangs\n- hangs\n+ ? Ended\n</error></testcase>\n<testcase classname="a" name="field 5: differs" time="N"><skipped message="left out"></skipped></testcase>\n'"$tail" --format junit --leave-out 5
"$tmhost" check --format junit --leave-out 5 sheet >report 2>errors
compare 'cases, read' "$(python3 -I -S cases.py report 2>&1; cat errors)" "$(cat <<'END_OF_CASES'
('a', 'field 1: x', [])
('a', 'field 2: tags', [('failure', 'differs', '#2 a\na] tags\n- tags\n+ </failure><b a="&">\n')])
('a', 'field 3: odd', [('failure', 'differs', '#3 a\na] odd\n- odd\n+ \ufffd\xe9\ufffd\ufffd\ufffd\n')])
('a', 'field 4: hangs', [('error', 'unanswered', '#4 a\na] hangs\n- hangs\n+ ? Ended\n')])
('a', 'field 5: differs', [('skipped', 'left out', None)])
END_OF_CASES
)"

made "$a"'new 0 a <b a="&">\neval 1\nwait\n'
reports 'an input that looks like a tag' 0 "$head"'<testcase classname="a" name="field 1: &lt;b a=&quot;&amp;&quot;&gt;" time="N"></testcase>\n'"$tail" --format junit

made "$a"
objects 'no object' 0 <<'END_OF_JSON'
{"format":1,"program":"tmhost","protocol":2,"type":"hello","version":"0.1.0"}
{"differ":0,"errors":0,"left_out":0,"new":0,"same":0,"type":"compared","unanswered":0}
{"type":"end"}
END_OF_JSON
made "$a"'new 0 a x\nnew 1 a differs\nnew 2 a tagged\nnew 3 a odd\nnew 4 a hangs\nnew 5 a prompts\nnew 6 a shorter\nnew 7 a not evaluated\neval 1\neval 2\neval 3\neval 4\neval 5\neval 6\neval 7\nwait\n'
objects 'an object for each field' 1 --leave-out 7 <<'END_OF_JSON'
{"format":1,"program":"tmhost","protocol":2,"type":"hello","version":"0.1.0"}
{"id":1,"session":"a","took":{"millis":N,"started":true},"type":"checked","verdict":"same"}
{"came":{"output":{"items":["another"],"kind":"format","tag":"verbatim"},"prompt":"a] ","shown":"another"},"id":2,"input":"differs","session":"a","shows":{"output":{"items":["differs"],"kind":"format","tag":"verbatim"},"prompt":"a] ","shown":"differs"},"took":{"millis":N,"started":false},"type":"checked","verdict":"differs"}
{"came":{"output":{"items":["$x$"],"kind":"format","tag":"latex"},"prompt":"a] ","shown":"{latex:$x$}"},"id":3,"input":"tagged","session":"a","shows":{"output":{"items":["tagged"],"kind":"format","tag":"verbatim"},"prompt":"a] ","shown":"tagged"},"took":{"millis":N,"started":false},"type":"checked","verdict":"differs"}
{"came":{"output":{"items":[{"base64":"/8Op77++"}],"kind":"format","tag":"verbatim"},"prompt":"a] ","shown":{"base64":"/8Op77++"}},"id":4,"input":"odd","session":"a","shows":{"output":{"items":["odd"],"kind":"format","tag":"verbatim"},"prompt":"a] ","shown":"odd"},"took":{"millis":N,"started":false},"type":"checked","verdict":"differs"}
{"id":5,"input":"hangs","reason":"Ended","session":"a","shows":{"output":{"items":["hangs"],"kind":"format","tag":"verbatim"},"prompt":"a] ","shown":"hangs"},"took":{"millis":N,"started":false},"type":"checked","verdict":"unanswered"}
{"id":6,"session":"a","took":{"millis":N,"started":true},"type":"checked","verdict":"same"}
{"id":7,"session":"a","took":{"millis":N,"started":false},"type":"checked","verdict":"left_out"}
{"differ":3,"errors":0,"left_out":1,"new":0,"same":2,"type":"compared","unanswered":1}
{"type":"end"}
END_OF_JSON
compare 'by the name of the format' "$(report --format json --leave-out 7)" "$want"
made 'session c plain sh count.sh\nnew 0 c a\342\200\250b\neval 1\nwait\neval 1\nwait\n'
objects 'an input of two lines' 1 --only c <<'END_OF_JSON'
{"format":1,"program":"tmhost","protocol":2,"type":"hello","version":"0.1.0"}
{"came":{"output":{"items":["1"],"kind":"format","tag":"verbatim"},"prompt":"> ","shown":"1"},"id":1,"input":"a\nb","session":"c","shows":{"output":{"items":["2"],"kind":"format","tag":"verbatim"},"prompt":"> ","shown":"2"},"took":{"millis":N,"started":true},"type":"checked","verdict":"differs"}
{"differ":1,"errors":0,"left_out":0,"new":0,"same":0,"type":"compared","unanswered":0}
{"type":"end"}
END_OF_JSON
objects 'a session without a field' 1 --only b <<'END_OF_JSON'
{"format":1,"program":"tmhost","protocol":2,"type":"hello","version":"0.1.0"}
{"differ":0,"errors":0,"left_out":0,"new":0,"same":0,"type":"compared","unanswered":0}
{"type":"end"}
END_OF_JSON
cp suite.sh gone.sh
sed -i '1i #!/bin/sh' gone.sh
chmod 755 gone.sh
made 'session b plain ./gone.sh b\nnew 0 b x\neval 1\nwait\n'
rm -f gone.sh
objects 'an interpreter that is gone' 1 <<'END_OF_JSON'
{"format":1,"program":"tmhost","protocol":2,"type":"hello","version":"0.1.0"}
{"id":1,"input":"x","reason":"StartRefused","session":"b","shows":{"output":{"items":["x"],"kind":"format","tag":"verbatim"},"prompt":"b] ","shown":"x"},"took":{"millis":N,"started":true},"type":"checked","verdict":"unanswered"}
{"differ":0,"errors":0,"left_out":0,"new":0,"same":0,"type":"compared","unanswered":1}
{"type":"end"}
END_OF_JSON
made "$a"'new 0 a x\nnew 1 a kills\neval 1\neval 2\nwait\n'
(exec "$tmhost" check --json sheet >text 2>errors) 2>/dev/null
compare 'objects that are cut off' "$? $(timed <text; cat errors)" "$(printf '137 %s\n%s' '{"format":1,"program":"tmhost","protocol":2,"type":"hello","version":"0.1.0"}' '{"id":1,"session":"a","took":{"millis":N,"started":true},"type":"checked","verdict":"same"}')"
"$tmhost" check --json sheet >/dev/full 2>errors
compare 'objects on a full output' "$? $(text_of errors)" '1 fault 42 Output'
words 'objects without a worksheet' 1 '{"name":"Disk","number":32,"type":"fault"}\nfault 32 Disk\n' check --json nowhere
words 'objects of what is no worksheet' 1 '{"name":"NotASheet","number":31,"type":"fault"}\nfault 31 NotASheet\n' check --format json suite.sh
printf 'TMWSHEET\001ARR' >sheet
rm -f sheet.alt
words 'objects of a damaged worksheet' 1 '{"name":"Damaged","number":30,"offset":10,"type":"fault"}\nfault 30 Damaged 10\n' check --json sheet

# An output of 2,000,000 bytes where there was one of one byte, in each format.
cat >grows.sh <<'END_OF_CHILD'
printf '\002verbatim:\005'
while IFS= read -r line; do
    printf '\002verbatim:'
    if [ -e again ]; then head -c 2000000 /dev/zero | tr '\0' a; else printf '%s' "$line"; fi
    printf '\005'
done
END_OF_CHILD
long() { head -c 2000000 /dev/zero | tr '\0' a; }
grown() {
    compare "an output that grew, $1" "$({ "$tmhost" check --format "$1" sheet 2>&1; echo "status $?"; } </dev/null | timed | cksum)" \
        "$({ printf "$2"; long; printf "$3"; echo 'status 1'; } | cksum)"
}
made 'session g plain sh grows.sh\nnew 0 g x\neval 1\nwait\n'
grown text '#1 g\n> x\n- x\n+ ' '\nsame 0 differ 1 unanswered 0\n'
grown tap "TAP version 13\nnot ok 1 - field 1 of g\n$starts# #1 g\n# > x\n# - x\n# + " '\n1..1\n'
grown junit "$head"'<testcase classname="g" name="field 1: x" time="N"><failure message="differs">#1 g\n&gt; x\n- x\n+ ' '\n</failure></testcase>\n'"$tail"
compare 'an output that grew, json' "$({ "$tmhost" check --json sheet 2>&1; echo "status $?"; } </dev/null | timed | cksum)" "$({
    printf '{"format":1,"program":"tmhost","protocol":2,"type":"hello","version":"0.1.0"}\n{"came":{"output":{"items":["'
    long
    printf '"],"kind":"format","tag":"verbatim"},"prompt":"> ","shown":"'
    long
    printf '"},"id":1,"input":"x","session":"g","shows":{"output":{"items":["x"],"kind":"format","tag":"verbatim"},"prompt":"> ","shown":"x"},"took":{"millis":N,"started":true},"type":"checked","verdict":"differs"}\n'
    printf '{"differ":1,"errors":0,"left_out":0,"new":0,"same":0,"type":"compared","unanswered":0}\n{"type":"end"}\nstatus 1\n'
} | cksum)"

# Answers that are errors are counted beside what they came to: blocks of the channel `output` in another one, and of the channel `error`. They are those that
# came, not those that fields show, and an unanswered field has none.
checked 'errors that are the same' "$e"'new 0 e x\nnew 1 e bad\nnew 2 e deep\neval 1\neval 2\neval 3\nwait\n' 0 'same 3 differ 0 unanswered 0 errors 2\n'
checks 'errors that are left out' 0 'same 1 differ 0 unanswered 0 left out 2 errors 2\n' --leave-out 2-3
checks 'no error of those of a session' 1 'same 0 differ 0 unanswered 0\n' --only f
checked 'one that came, and one that is gone' "$e"'new 0 e fails\nnew 1 e mended\neval 1\neval 2\nwait\n' 1 \
    '#1 e\n> fails\n- error fails\n+ oops\n#2 e\n> mended\n- mended\n+ fine\nsame 0 differ 2 unanswered 0 errors 1\n'
checks 'the same as TAP' 1 \
    "TAP version 13\nnot ok 1 - field 1 of e\n$starts# #1 e\n# > fails\n# - error fails\n# + oops\nnot ok 2 - field 2 of e\n$goes_on# #2 e\n# > mended\n# - mended\n# + fine\n1..2\n" --format tap
checks 'the same, whole' 1 '#1 e\n> fails\n- error fails\n+ oops\n#2 e\n> mended\n- mended\n+ fine\nsame 0 differ 2 unanswered 0 errors 1\n' --whole
checked 'an error that no field shows' "$e"'new 0 e fails\neval 1\nwait\n' 0 'same 0 differ 0 unanswered 0 left out 1 errors 1\n' --leave-out 1
checked 'an error of an unanswered field' "$e"'new 0 e ends\nnew 1 e bad\neval 1\neval 2\nwait\n' 1 '#1 e\n> ends\n- ends\n+ ? Ended\nsame 1 differ 0 unanswered 1 errors 1\n'
objects 'objects of errors' 1 --leave-out 2 <<'END_OF_JSON'
{"format":1,"program":"tmhost","protocol":2,"type":"hello","version":"0.1.0"}
{"id":1,"input":"ends","reason":"Ended","session":"e","shows":{"output":{"items":[{"items":["ends"],"kind":"channel","tag":"output"}],"kind":"channel","tag":"output"},"prompt":"> ","shown":"ends"},"took":{"millis":N,"started":true},"type":"checked","verdict":"unanswered"}
{"id":2,"session":"e","took":{"millis":N,"started":true},"type":"checked","verdict":"left_out"}
{"differ":0,"errors":1,"left_out":1,"new":0,"same":0,"type":"compared","unanswered":1}
{"type":"end"}
END_OF_JSON
checked 'errors of two sessions, side by side' "$e"'session f plain sh erring.sh\nnew 0 e bad\nnew 1 f deep\nnew 2 f x\neval 1\neval 2\neval 3\nwait\n' 0 \
    'same 3 differ 0 unanswered 0 errors 2\n' --jobs 2
checks 'the same one after another' 0 'same 3 differ 0 unanswered 0 errors 2\n' --jobs 1
words 'errors of two worksheets' 1 'worksheet sheet\nsame 3 differ 0 unanswered 0 errors 2\nworksheet nowhere\nworksheet sheet\nsame 3 differ 0 unanswered 0 errors 2\ntotal of 3 worksheets: same 6 differ 0 unanswered 0 errors 4 faults 1\nfault 32 Disk\n' \
    check sheet nowhere sheet

# A thousand fields, of which the last but one differs.
{
    printf "$a"
    for id in $(seq 1000); do
        if [ "$id" = 999 ]; then echo "new $((id - 1)) a differs"; else echo "new $((id - 1)) a $id"; fi
        echo "eval $id"
    done
    echo wait
} >many
rm -f again
fresh
"$tmhost" run sheet <many >/dev/null
touch again
checks 'a thousand fields' 1 '#999 a\na] differs\n- differs\n+ another\nsame 999 differ 1 unanswered 0\n'
# Pictures: a report has one line for each, with its format, how many bytes its text has, and the first eight digits of the text's SHA-256. `show`
# and lines of JSON have the text itself.
cat >draws.sh <<'END_OF_CHILD'
printf '\002verbatim:\005'
png=iVBORw0KGgo= svg='<svg/>' said=one
[ ! -e again ] || png=iVBORw0KGgoA svg='<svg>\n</svg>' said=two
while IFS= read -r line; do
    case $line in
        png) printf '\002image/png;base64:%s\005' $png ;;
        svg) printf "\\002verbatim:a line\n\\002image/svg+xml:$svg\\005\\005" ;;
        text) printf '\002verbatim:%s\n\002image/png;base64:iVBORw0KGgo=\005\005' $said ;;
        long) printf '\002image/jpeg;base64:%s\005' "$(head -c 1000000 /dev/zero | tr '\0' A)$png" ;;
        channel) printf '\002image/png;base64#%s\005' $png ;;
        holds) printf '\002image/png;base64:\002verbatim:%s\005\005' $png ;;
        ends) [ ! -e again ] || exit; printf '\002image/png;base64:%s\005' $png ;;
        none) printf '\002image/png;base64:%s\005' "$([ -e again ] || echo $png)" ;;
        same) printf '\002verbatim:same\005' ;;
        latex) printf '\002latex:%s\005' $png ;;
    esac
done
END_OF_CHILD
d='session d plain sh draws.sh\n'
pngs='- {image/png;base64: 12 bytes, sum 929e08d5}\n+ {image/png;base64: 12 bytes, sum 3765c2fa}\n'
checked 'a picture that differs' "$d"'new 0 d png\neval 1\nwait\n' 1 "#1 d\n> png\n${pngs}same 0 differ 1 unanswered 0\n"
checks 'the same, whole' 1 "#1 d\n> png\n${pngs}same 0 differ 1 unanswered 0\n" --whole
words 'the same worksheet, shown' 0 '#1 d\n> png\n{image/png;base64:iVBORw0KGgo=}\n' show sheet
# Beside a field of another session, so that it isn't known what each took.
checked 'a picture that differs, as TAP' "$d"'session e plain sh draws.sh\nnew 0 d png\nnew 1 e same\neval 1\neval 2\nwait\n' 1 \
    'TAP version 13\nnot ok 1 - field 1 of d\n# #1 d\n# > png\n# - {image/png;base64: 12 bytes, sum 929e08d5}\n# + {image/png;base64: 12 bytes, sum 3765c2fa}\nok 2 - field 2 of e\n1..2\n' --format tap
objects 'objects of the same' 1 <<'END_OF_JSON'
{"format":1,"program":"tmhost","protocol":2,"type":"hello","version":"0.1.0"}
{"came":{"output":{"items":["iVBORw0KGgoA"],"kind":"format","tag":"image/png;base64"},"prompt":"> ","shown":"{image/png;base64:iVBORw0KGgoA}"},"id":1,"input":"png","session":"d","shows":{"output":{"items":["iVBORw0KGgo="],"kind":"format","tag":"image/png;base64"},"prompt":"> ","shown":"{image/png;base64:iVBORw0KGgo=}"},"took":null,"type":"checked","verdict":"differs"}
{"id":2,"session":"e","took":null,"type":"checked","verdict":"same"}
{"differ":1,"errors":0,"left_out":0,"new":0,"same":1,"type":"compared","unanswered":0}
{"type":"end"}
END_OF_JSON
checks 'the same, as JUnit' 1 "$head"'<testcase classname="d" name="field 1: png"><failure message="differs">#1 d\n&gt; png\n- {image/png;base64: 12 bytes, sum 929e08d5}\n+ {image/png;base64: 12 bytes, sum 3765c2fa}\n</failure></testcase>\n<testcase classname="e" name="field 2: same"></testcase>\n'"$tail" --format junit
checked 'an SVG that differs' "$d"'new 0 d svg\neval 1\nwait\n' 1 '#1 d\n> svg\n  a line\n- {image/svg+xml: 6 bytes, sum d4dc5666}\n+ {image/svg+xml: 12 bytes, sum 04cc5fa4}\nsame 0 differ 1 unanswered 0\n'
checked 'a text that differs beside a picture that does not' "$d"'new 0 d text\neval 1\nwait\n' 1 '#1 d\n> text\n- one\n+ two\n  {image/png;base64: 12 bytes, sum 929e08d5}\nsame 0 differ 1 unanswered 0\n'
checked 'a long picture' "$d"'new 0 d long\neval 1\nwait\n' 1 '#1 d\n> long\n- {image/jpeg;base64: 1000012 bytes, sum 3640e0d1}\n+ {image/jpeg;base64: 1000012 bytes, sum e65d7178}\nsame 0 differ 1 unanswered 0\n'
checked 'a picture to which no answer came' "$d"'new 0 d ends\neval 1\nwait\n' 1 '#1 d\n> ends\n- {image/png;base64: 12 bytes, sum 929e08d5}\n+ ? Ended\nsame 0 differ 0 unanswered 1\n'
checked 'a picture that came to a field without an answer' "$d"'new 0 d png\n' 0 '#1 d\n> png\n+ {image/png;base64: 12 bytes, sum 3765c2fa}\nsame 0 differ 0 unanswered 0 new 1\n' --all
checked 'what is no picture' "$d"'new 0 d channel\nnew 1 d holds\nnew 2 d none\nnew 3 d latex\neval 1\neval 2\neval 3\neval 4\nwait\n' 1 \
    '#1 d\n> channel\n- {image/png;base64#iVBORw0KGgo=}\n+ {image/png;base64#iVBORw0KGgoA}\n#2 d\n> holds\n- {image/png;base64:iVBORw0KGgo=}\n+ {image/png;base64:iVBORw0KGgoA}\n#3 d\n> none\n- {image/png;base64: 12 bytes, sum 929e08d5}\n+ {image/png;base64:}\n#4 d\n> latex\n- {latex:iVBORw0KGgo=}\n+ {latex:iVBORw0KGgoA}\nsame 0 differ 4 unanswered 0\n'
rm -f again sent lives many other report cases.py

counted checks
