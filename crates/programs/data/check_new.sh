# Checks of fields that show no answer, by --all.
. ./checks_desk.sh

# With --all fields that show no answer are evaluated too, each in its place. What comes to one is new, and no failure.
checked 'all of an empty worksheet' '' 0 'same 0 differ 0 unanswered 0\n' --all
checked 'all that show an answer' "$a"'new 0 a x\nnew 1 a differs\neval 1\neval 2\nwait\n' 1 '#2 a\na] differs\n- differs\n+ another\nsame 1 differ 1 unanswered 0\n' --all
checked 'all that were never evaluated' "$a"'new 0 a x\nnew 1 a longer\nnew 2 a shorter\nnew 3 a bytes\nnew 4 a prompts\nnew 5 a z\n' 0 \
    '#1 a\n> x\n+ x\n#2 a\n> longer\n+ one\n+ two\n+ three\n#3 a\n> shorter\n+ \n#4 a\n> bytes\n+ \\x01\\x0d\303\251\\x7f\n#5 a\n> prompts\n+ prompts\n#6 a\n> z\n+ z\nsame 0 differ 0 unanswered 0 new 6\n' --all
sent 'all that were never evaluated' 'start a\nsend a x\nsend a longer\nsend a shorter\nsend a bytes\nsend a prompts\nsend a z'
ended 'all that were never evaluated' 1
made "$a"'new 0 a x\nnew 1 a y\nnew 2 a differs\nnew 3 a z\nnew 4 a w\neval 1\neval 3\neval 5\nwait\nset 5 v\n'
told='#2 a\n> y\n+ y\n#3 a\na] differs\n- differs\n+ another\n#4 a\n> z\n+ z\n#5 a\n> v\n+ v\nsame 1 differ 1 unanswered 0 new 3\n'
checks 'new ones in their places' 1 "$told" --all
sent 'new ones in their places' 'start a\nsend a x\nsend a y\nsend a differs\nsend a z\nsend a v'
checks 'new ones, whole' 1 "$told" --all --whole
checks 'new ones, within their time' 1 "$told" --all --timeout 60
checks 'new ones that are not asked for' 1 '#3 a\na] differs\n- differs\n+ another\nsame 1 differ 1 unanswered 0\n'
checks 'new ones as TAP' 1 "TAP version 13\nok 1 - field 1 of a\n${starts}ok 2 - field 2 of a # SKIP new\n$goes_on# #2 a\n# > y\n# + y\nnot ok 3 - field 3 of a\n$goes_on# #3 a\n# a] differs\n# - differs\n# + another\nok 4 - field 4 of a # SKIP left out\n${goes_on}ok 5 - field 5 of a # SKIP new\n$goes_on# #5 a\n# > v\n# + v\n1..5\n" \
    --all --leave-out 4 --format tap
checks 'new ones as cases' 1 "$head"'<testcase classname="a" name="field 1: x" time="N"></testcase>\n<testcase classname="a" name="field 2: y" time="N"><skipped message="new">#2 a\n&gt; y\n+ y\n</skipped></testcase>\n<testcase classname="a" name="field 3: differs" time="N"><failure message="differs">#3 a\na] differs\n- differs\n+ another\n</failure></testcase>\n<testcase classname="a" name="field 4: z" time="N"><skipped message="left out"></skipped></testcase>\n<testcase classname="a" name="field 5: v" time="N"><skipped message="new">#5 a\n&gt; v\n+ v\n</skipped></testcase>\n'"$tail" \
    --all --leave-out 4 --format junit
"$tmhost" check --all --leave-out 4 --format junit sheet >report 2>errors
compare 'new ones as cases, read' "$(python3 -I -S cases.py report 2>&1; cat errors)" "$(cat <<'END_OF_CASES'
('a', 'field 1: x', [])
('a', 'field 2: y', [('skipped', 'new', '#2 a\n> y\n+ y\n')])
('a', 'field 3: differs', [('failure', 'differs', '#3 a\na] differs\n- differs\n+ another\n')])
('a', 'field 4: z', [('skipped', 'left out', None)])
('a', 'field 5: v', [('skipped', 'new', '#5 a\n> v\n+ v\n')])
END_OF_CASES
)"
objects 'new ones as objects' 1 --all --leave-out 4 <<'END_OF_JSON'
{"format":1,"program":"tmhost","protocol":2,"type":"hello","version":"0.1.0"}
{"id":1,"session":"a","took":{"millis":N,"started":true},"type":"checked","verdict":"same"}
{"came":{"output":{"items":["y"],"kind":"format","tag":"verbatim"},"prompt":"a] ","shown":"y"},"id":2,"input":"y","session":"a","took":{"millis":N,"started":false},"type":"checked","verdict":"new"}
{"came":{"output":{"items":["another"],"kind":"format","tag":"verbatim"},"prompt":"a] ","shown":"another"},"id":3,"input":"differs","session":"a","shows":{"output":{"items":["differs"],"kind":"format","tag":"verbatim"},"prompt":"a] ","shown":"differs"},"took":{"millis":N,"started":false},"type":"checked","verdict":"differs"}
{"id":4,"session":"a","took":{"millis":N,"started":false},"type":"checked","verdict":"left_out"}
{"came":{"output":{"items":["v"],"kind":"format","tag":"verbatim"},"prompt":"a] ","shown":"v"},"id":5,"input":"v","session":"a","took":{"millis":N,"started":false},"type":"checked","verdict":"new"}
{"differ":1,"errors":0,"left_out":1,"new":2,"same":1,"type":"compared","unanswered":0}
{"type":"end"}
END_OF_JSON
made 'session c plain sh count.sh\nnew 0 c x\342\200\250y\n'
objects 'a new one of two lines' 0 --all <<'END_OF_JSON'
{"format":1,"program":"tmhost","protocol":2,"type":"hello","version":"0.1.0"}
{"came":{"output":{"items":["1"],"kind":"format","tag":"verbatim"},"prompt":"> ","shown":"1"},"id":1,"input":"x\ny","session":"c","took":{"millis":N,"started":true},"type":"checked","verdict":"new"}
{"differ":0,"errors":0,"left_out":0,"new":1,"same":0,"type":"compared","unanswered":0}
{"type":"end"}
END_OF_JSON
checked 'new ones that are errors' "$e"'new 0 e fails\nnew 1 e bad\nnew 2 e x\neval 2\nwait\n' 0 '#1 e\n> fails\n+ oops\n#3 e\n> x\n+ error x\nsame 1 differ 0 unanswered 0 errors 2 new 2\n' --all

# To a field that shows no answer none may come either, as where its interpreter hangs up. The next one starts another.
made "$a"'new 0 a x\nnew 1 a hangs\nnew 2 a y\nnew 3 a z\neval 1\nwait\n'
told='#2 a\n> hangs\n- ?\n+ ? Ended\n#3 a\n> y\n+ y\n#4 a\n> z\n+ z\nsame 1 differ 0 unanswered 1 new 2\n'
checks 'one that shows no answer, and gets none' 1 "$told" --all
sent 'one that shows no answer, and gets none' 'start a\nsend a x\nsend a hangs\nstart a\nsend a y\nsend a z'
checks 'one that shows no answer, and gets none, whole' 1 "$told" --all --whole
checks 'one that shows no answer, and gets none, left out' 0 '#3 a\n> y\n+ y\n#4 a\n> z\n+ z\nsame 1 differ 0 unanswered 0 left out 1 new 2\n' --all --leave-out 2
checks 'one that shows no answer, and gets none, as TAP' 1 "TAP version 13\nok 1 - field 1 of a\n${starts}not ok 2 - field 2 of a\n$goes_on# #2 a\n# > hangs\n# - ?\n# + ? Ended\nok 3 - field 3 of a # SKIP new\n$starts# #3 a\n# > y\n# + y\nok 4 - field 4 of a # SKIP new\n$goes_on# #4 a\n# > z\n# + z\n1..4\n" \
    --all --format tap
objects 'one that shows no answer, and gets none, as an object' 1 --all <<'END_OF_JSON'
{"format":1,"program":"tmhost","protocol":2,"type":"hello","version":"0.1.0"}
{"id":1,"session":"a","took":{"millis":N,"started":true},"type":"checked","verdict":"same"}
{"id":2,"input":"hangs","reason":"Ended","session":"a","shows":null,"took":{"millis":N,"started":false},"type":"checked","verdict":"unanswered"}
{"came":{"output":{"items":["y"],"kind":"format","tag":"verbatim"},"prompt":"a] ","shown":"y"},"id":3,"input":"y","session":"a","took":{"millis":N,"started":true},"type":"checked","verdict":"new"}
{"came":{"output":{"items":["z"],"kind":"format","tag":"verbatim"},"prompt":"a] ","shown":"z"},"id":4,"input":"z","session":"a","took":{"millis":N,"started":false},"type":"checked","verdict":"new"}
{"differ":0,"errors":0,"left_out":0,"new":2,"same":1,"type":"compared","unanswered":1}
{"type":"end"}
END_OF_JSON
checked 'one whose line was lost, again' "$a"'session b plain true\nnew 0 a x\nnew 1 b y\neval 1\neval 2\nwait\n' 1 '#2 b\n> y\n- ? Ended\n+ ? Ended\nsame 1 differ 0 unanswered 1\n' --all

# All fields of a session, and those of them that are compared.
made "$a"'session b plain sh suite.sh b\nnew 0 a x\nnew 1 b y\nnew 2 a z\nnew 3 b w\neval 1\nwait\n'
checks 'all of one session' 0 '#2 b\n> y\n+ y\n#4 b\n> w\n+ w\nsame 0 differ 0 unanswered 0 new 2\n' --all --only b
sent 'all of one session' 'start b\nsend b y\nsend b w'
checks 'a session whose fields show no answer' 1 'same 0 differ 0 unanswered 0\n' --only b
checks 'all of a session that is not there' 1 'same 0 differ 0 unanswered 0\n' --all --only c
checks 'new ones that are left out' 0 '#2 b\n> y\n+ y\nsame 1 differ 0 unanswered 0 left out 2 new 1\n' --all --leave-out 3-4
checks 'a new one that is compared' 0 '#3 a\n> z\n+ z\nsame 0 differ 0 unanswered 0 left out 3 new 1\n' --all --compare 3
checks 'all, and a number that no field has' 1 'fault 37 NoField 5\n' --all --leave-out 5

# Side by side it isn't known what each took; one after another it is.
made "$a"'session b plain sh suite.sh b\nnew 0 a x\nnew 1 b y\nnew 2 a hangs\nnew 3 a z\neval 1\neval 2\nwait\n'
for words in '' '--jobs 1' '--jobs 2' '--timeout 60'; do
    checks "new ones of two sessions, $words" 1 '#3 a\n> hangs\n- ?\n+ ? Ended\n#4 a\n> z\n+ z\nsame 2 differ 0 unanswered 1 new 1\n' --all $words
done
side_by_side() {
    checks "points of sessions side by side, $1" 1 'TAP version 13\nok 1 - field 1 of a\nok 2 - field 2 of b\nnot ok 3 - field 3 of a\n# #3 a\n# > hangs\n# - ?\n# + ? Ended\nok 4 - field 4 of a # SKIP new\n# #4 a\n# > z\n# + z\n1..4\n' \
        --all --format tap $1
    checks "cases of sessions side by side, $1" 1 "$head"'<testcase classname="a" name="field 1: x"></testcase>\n<testcase classname="b" name="field 2: y"></testcase>\n<testcase classname="a" name="field 3: hangs"><error message="unanswered">#3 a\n&gt; hangs\n- ?\n+ ? Ended\n</error></testcase>\n<testcase classname="a" name="field 4: z"><skipped message="new">#4 a\n&gt; z\n+ z\n</skipped></testcase>\n'"$tail" \
        --all --format junit $1
    objects "objects of sessions side by side, $1" 1 --all $1 <<'END_OF_JSON'
{"format":1,"program":"tmhost","protocol":2,"type":"hello","version":"0.1.0"}
{"id":1,"session":"a","took":null,"type":"checked","verdict":"same"}
{"id":2,"session":"b","took":null,"type":"checked","verdict":"same"}
{"id":3,"input":"hangs","reason":"Ended","session":"a","shows":null,"took":null,"type":"checked","verdict":"unanswered"}
{"came":{"output":{"items":["z"],"kind":"format","tag":"verbatim"},"prompt":"a] ","shown":"z"},"id":4,"input":"z","session":"a","took":null,"type":"checked","verdict":"new"}
{"differ":0,"errors":0,"left_out":0,"new":1,"same":2,"type":"compared","unanswered":1}
{"type":"end"}
END_OF_JSON
}
for words in '' '--jobs 2' '--jobs 64 --timeout 60'; do side_by_side "$words"; done
for words in '--jobs 1' '--timeout 60'; do
    checks "points of sessions one after another, $words" 1 "TAP version 13\nok 1 - field 1 of a\n${starts}ok 2 - field 2 of b\n${starts}not ok 3 - field 3 of a\n$goes_on# #3 a\n# > hangs\n# - ?\n# + ? Ended\nok 4 - field 4 of a # SKIP new\n$starts# #4 a\n# > z\n# + z\n1..4\n" \
        --all --format tap $words
    objects "objects of sessions one after another, $words" 1 --all $words <<'END_OF_JSON'
{"format":1,"program":"tmhost","protocol":2,"type":"hello","version":"0.1.0"}
{"id":1,"session":"a","took":{"millis":N,"started":true},"type":"checked","verdict":"same"}
{"id":2,"session":"b","took":{"millis":N,"started":true},"type":"checked","verdict":"same"}
{"id":3,"input":"hangs","reason":"Ended","session":"a","shows":null,"took":{"millis":N,"started":false},"type":"checked","verdict":"unanswered"}
{"came":{"output":{"items":["z"],"kind":"format","tag":"verbatim"},"prompt":"a] ","shown":"z"},"id":4,"input":"z","session":"a","took":{"millis":N,"started":true},"type":"checked","verdict":"new"}
{"differ":0,"errors":0,"left_out":0,"new":1,"same":2,"type":"compared","unanswered":1}
{"type":"end"}
END_OF_JSON
done
objects 'one of two sessions, with jobs' 0 --all --only a --jobs 2 --leave-out 3-4 <<'END_OF_JSON'
{"format":1,"program":"tmhost","protocol":2,"type":"hello","version":"0.1.0"}
{"id":1,"session":"a","took":{"millis":N,"started":true},"type":"checked","verdict":"same"}
{"id":3,"session":"a","took":{"millis":N,"started":false},"type":"checked","verdict":"left_out"}
{"id":4,"session":"a","took":{"millis":N,"started":true},"type":"checked","verdict":"left_out"}
{"differ":0,"errors":0,"left_out":2,"new":0,"same":1,"type":"compared","unanswered":0}
{"type":"end"}
END_OF_JSON

# By --all fields are of several sessions where those that show an answer are of one: then nothing is written before the last answer came.
made "$a"'session b plain sh suite.sh b\nnew 0 a differs\nnew 1 b kills\neval 1\nwait\n'
checks 'one session that shows answers' 1 '#1 a\na] differs\n- differs\n+ another\nsame 0 differ 1 unanswered 0\n'
(exec "$tmhost" check --all sheet >text 2>errors) 2>/dev/null
compare 'two sessions of which one shows none' "$? $(text_of text; text_of errors)" '137 '
(exec "$tmhost" check --all --jobs 1 sheet >text 2>errors) 2>/dev/null
compare 'two sessions of which one shows none, one after another' "$? $(text_of text; text_of errors)" "$(printf '137 #1 a\na] differs\n- differs\n+ another')"

# Each new one is written when it is known: the next field is answered once its text is there.
made "$a"'new 0 a another\nnew 1 a looks\n'
: >text
timeout 10 "$tmhost" check --all sheet >text 2>errors
compare 'a new one that is read at once' "$? $(text_of text; text_of errors)" "$(printf '0 #1 a\n> another\n+ another\n#2 a\n> looks\n+ looks\nsame 0 differ 0 unanswered 0 new 2')"

# New ones of several worksheets are counted in their total.
made_at one "$a"'new 0 a x\nnew 1 a y\neval 1\nwait\n'
made_at two "$e"'new 0 e bad\nnew 1 e x\neval 2\nwait\n'
made_at bad "$a"'new 0 a hangs\nnew 1 a differs\neval 2\nwait\n'
before=$(sums one two bad)
told_one='worksheet one\n#2 a\n> y\n+ y\nsame 1 differ 0 unanswered 0 new 1\n'
told_two='worksheet two\n#1 e\n> bad\n+ bad\nsame 1 differ 0 unanswered 0 errors 1 new 1\n'
words 'new ones of two worksheets' 0 "$told_one${told_two}total of 2 worksheets: same 2 differ 0 unanswered 0 errors 1 new 2\n" check --all one two
words 'new ones of one worksheet twice' 0 "$told_one${told_one}total of 2 worksheets: same 2 differ 0 unanswered 0 new 2\n" check --all one one
words 'new ones of three worksheets, of which one is not there' 1 \
    "$told_one${told_two}worksheet nowhere\ntotal of 3 worksheets: same 2 differ 0 unanswered 0 errors 1 new 2 faults 1\nfault 32 Disk\n" check --all one two nowhere
words 'all of two worksheets, of which one differs' 1 \
    "${told_one}worksheet bad\n#1 a\n> hangs\n- ?\n+ ? Ended\n#2 a\na] differs\n- differs\n+ another\nsame 0 differ 1 unanswered 1\ntotal of 2 worksheets: same 1 differ 1 unanswered 1 new 1\n" check --all one bad
words 'new ones of two worksheets that are not asked for' 0 \
    'worksheet one\nsame 1 differ 0 unanswered 0\nworksheet two\nsame 1 differ 0 unanswered 0\ntotal of 2 worksheets: same 2 differ 0 unanswered 0\n' check one two
words 'new ones of several, and a format' 2 "error: several PATHs go with no FORMAT but text$help" check --all --json one two
compare 'new ones of several worksheets, kept' "$(sums one two bad)" "$before"
rm -f one one.alt two two.alt bad bad.alt
rm -f again sent lives report cases.py

counted 'checks of new fields'
