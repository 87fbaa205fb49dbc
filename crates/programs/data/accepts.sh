# Checks that accept what differs: what `check --accept` writes, and the worksheet that it leaves. The interpreters and `made` are those of
# checks.
. ./checks_desk.sh

# A case of `check --accept` over the worksheet as it stands: NAME STATUS TEXT SHEET WORDS. Then it is shown so.
accepts() {
    name=$1 want=$(ending "$3" "$2") shown=$(ending "$4" 0)
    shift 4
    compare "$name" "$(answer check --accept "$@" sheet </dev/null)" "$want"
    compare "$name, shown" "$(answer show sheet </dev/null)" "$shown"
}

# The same, and the files stay as they were.
accepts_none() {
    before=$(sums sheet sheet.alt)
    accepts "$@"
    compare "$1, kept" "$(sums sheet sheet.alt)" "$before"
}

# How many changes stand in the worksheet.
changes() {
    rm -f saved saved.alt
    "$tmhost" rescue sheet saved
}

made "$a"'new 0 a x\nnew 1 a not evaluated\neval 1\nwait\n'
accepts_none 'nothing that differs' 0 'same 1 accepted 0 unanswered 0\n' '#1 a\na] x\nx\n#2 a\n> not evaluated\n?\n'

# One that differs is accepted, and one that gets no answer isn't.
made "$a"'new 0 a one\nnew 1 a differs\nnew 2 a hangs\nnew 3 a four\neval 1\neval 2\neval 3\neval 4\nwait\n'
was=$(changes)
accepts 'one of four' 1 '#2 a\na] differs\n- differs\n+ another\naccepted 2\n#3 a\na] hangs\n- hangs\n+ ? Ended\nsame 2 accepted 1 unanswered 1\n' \
    '#1 a\na] one\none\n#2 a\na] differs\nanother\n#3 a\na] hangs\nhangs\n#4 a\na] four\nfour\n'
sent 'one of four' 'start a\nsend a one\nsend a differs\nsend a hangs\nstart a\nsend a four'
ended 'one of four' 2
compare 'one of four, one change' "$was $(changes)" "$(printf 'kept 13, whole kept 14, whole')"
accepts_none 'one of four, again' 1 '#3 a\na] hangs\n- hangs\n+ ? Ended\nsame 3 accepted 0 unanswered 1\n' \
    '#1 a\na] one\none\n#2 a\na] differs\nanother\n#3 a\na] hangs\nhangs\n#4 a\na] four\nfour\n'

# All that differ, in the order of the worksheet; then nothing differs any more.
made "$a"'new 0 a differs\nnew 1 a longer\nnew 2 a tagged\nnew 3 a shorter\nmove 4 0\neval 1\neval 2\neval 3\neval 4\nwait\n'
accepts 'four of four' 0 '#4 a\na] shorter\n- shorter\n+ \naccepted 4\n#1 a\na] differs\n- differs\n+ another\naccepted 1\n#2 a\na] longer\n  one\n  two\n+ three\naccepted 2\n#3 a\na] tagged\n- tagged\n+ {latex:$x$}\naccepted 3\nsame 0 accepted 4 unanswered 0\n' \
    '#4 a\na] shorter\n\n#1 a\na] differs\nanother\n#2 a\na] longer\none\ntwo\nthree\n#3 a\na] tagged\n{latex:$x$}\n'
checks 'four that were accepted' 0 'same 4 differ 0 unanswered 0\n'

# The prompt comes with the answer, and a prompt alone is no difference.
made "$a"'new 0 a prompts\nnew 1 a y\nnew 2 a differs\neval 1\neval 2\neval 3\nwait\n'
accepts 'a prompt with its answer' 0 '#3 a\na] differs\n- differs\n+ another\naccepted 3\nsame 2 accepted 1 unanswered 0\n' \
    '#1 a\na] prompts\nprompts\n#2 a\na] y\ny\n#3 a\nnew> differs\nanother\n'

# Answers that are errors, by the interpreter of check.sh that has some.
made "$e"'new 0 e fails\nnew 1 e mended\nnew 2 e bad\neval 1\neval 2\neval 3\nwait\n'
accepts 'errors' 0 '#1 e\n> fails\n- error fails\n+ oops\naccepted 1\n#2 e\n> mended\n- mended\n+ fine\naccepted 2\nsame 1 accepted 2 unanswered 0 errors 2\n' \
    '#1 e\n> fails\noops\n#2 e\n> mended\nfine\n#3 e\n> bad\nbad\n'
checks 'errors that were accepted' 0 'same 3 differ 0 unanswered 0 errors 2\n'

# Some of the fields.
made "$a"'session b plain sh suite.sh b\nnew 0 a differs\nnew 1 b differs\neval 1\neval 2\nwait\n'
accepts_none 'one that is left out' 0 'same 0 accepted 0 unanswered 0 left out 2\n' '#1 a\na] differs\ndiffers\n#2 b\nb] differs\ndiffers\n' --leave-out 1-2
accepts 'one session' 0 '#2 b\nb] differs\n- differs\n+ another\naccepted 2\nsame 0 accepted 1 unanswered 0\n' '#1 a\na] differs\ndiffers\n#2 b\nb] differs\nanother\n' --only b --format text
accepts_none 'a session that is not there' 1 'same 0 accepted 0 unanswered 0\n' '#1 a\na] differs\ndiffers\n#2 b\nb] differs\nanother\n' --only c
made "$a"'new 0 a differs\nnew 1 a differs\nnew 2 a differs\neval 1\neval 2\neval 3\nwait\n'
accepts 'one of three that is compared' 0 '#2 a\na] differs\n- differs\n+ another\naccepted 2\nsame 0 accepted 1 unanswered 0 left out 2\n' \
    '#1 a\na] differs\ndiffers\n#2 a\na] differs\nanother\n#3 a\na] differs\ndiffers\n' --compare 2
made "$a"'session b plain sh suite.sh b\nnew 0 a differs\nnew 1 b differs\neval 1\neval 2\nwait\n'
accepts 'one session again' 0 '#2 b\nb] differs\n- differs\n+ another\naccepted 2\nsame 0 accepted 1 unanswered 0\n' '#1 a\na] differs\ndiffers\n#2 b\nb] differs\nanother\n' --only b
nothing_sent
for format in tap junit; do
    accepts_none "as $format" 2 "error: --accept goes with no FORMAT but text\n\nFor more information, try 'tmhost check --help'.\n" '#1 a\na] differs\ndiffers\n#2 b\nb] differs\nanother\n' --format "$format"
done
compare 'words that accept nothing' "$(text_of sent)" ''

# New ones, by --all: fields that show no answer, or whose line was lost, show what came.
made "$a"'new 0 a x\nnew 1 a longer\nnew 2 a differs\nnew 3 a prompts\nnew 4 a z\neval 1\neval 3\nwait\n'
was=$(changes)
accepts 'new ones' 0 '#2 a\n> longer\n+ one\n+ two\n+ three\naccepted 2\n#3 a\na] differs\n- differs\n+ another\naccepted 3\n#4 a\n> prompts\n+ prompts\naccepted 4\n#5 a\n> z\n+ z\naccepted 5\nsame 1 accepted 1 unanswered 0 new 3\n' \
    '#1 a\na] x\nx\n#2 a\na] longer\none\ntwo\nthree\n#3 a\na] differs\nanother\n#4 a\na] prompts\nprompts\n#5 a\nnew> z\nz\n' --all
sent 'new ones' 'start a\nsend a x\nsend a longer\nsend a differs\nsend a prompts\nsend a z'
compare 'new ones, four changes' "$was $(changes)" "$(printf 'kept 10, whole kept 14, whole')"
checks 'new ones that were accepted' 0 'same 5 differ 0 unanswered 0\n' --all
accepts_none 'new ones, again' 0 'same 5 accepted 0 unanswered 0\n' \
    '#1 a\na] x\nx\n#2 a\na] longer\none\ntwo\nthree\n#3 a\na] differs\nanother\n#4 a\na] prompts\nprompts\n#5 a\nnew> z\nz\n' --all
made "$a"'new 0 a hangs\nnew 1 a y\n'
accepts_none 'new ones that are not asked for' 0 'same 0 accepted 0 unanswered 0\n' '#1 a\n> hangs\n?\n#2 a\n> y\n?\n'
accepts 'a new one beside one that gets no answer' 1 '#1 a\n> hangs\n- ?\n+ ? Ended\n#2 a\n> y\n+ y\naccepted 2\nsame 0 accepted 0 unanswered 1 new 1\n' '#1 a\n> hangs\n?\n#2 a\na] y\ny\n' --all
accepts_none 'one that gets no answer, again' 1 '#1 a\n> hangs\n- ?\n+ ? Ended\nsame 1 accepted 0 unanswered 1\n' '#1 a\n> hangs\n?\n#2 a\na] y\ny\n' --all
rm -f gone.sh
made 'session b plain ./gone.sh b\nnew 0 b x\neval 1\nwait\n'
cp suite.sh gone.sh
sed -i '1i #!/bin/sh' gone.sh
chmod 755 gone.sh
accepts 'one whose line was lost' 0 '#1 b\n> x\n+ x\naccepted 1\nsame 0 accepted 0 unanswered 0 new 1\n' '#1 b\nb] x\nx\n' --all
rm -f gone.sh
made "$a"'session b plain sh suite.sh b\nnew 0 a x\nnew 1 b y\nnew 2 b z\n'
accepts_none 'new ones that are left out' 0 'same 0 accepted 0 unanswered 0 left out 3\n' '#1 a\n> x\n?\n#2 b\n> y\n?\n#3 b\n> z\n?\n' --all --leave-out 1-3
accepts 'a new one that is compared' 0 '#2 b\n> y\n+ y\naccepted 2\nsame 0 accepted 0 unanswered 0 left out 2 new 1\n' '#1 a\n> x\n?\n#2 b\nb] y\ny\n#3 b\n> z\n?\n' --all --compare 2
accepts 'a new one of a session' 0 '#3 b\n> z\n+ z\naccepted 3\nsame 1 accepted 0 unanswered 0 new 1\n' '#1 a\n> x\n?\n#2 b\nb] y\ny\n#3 b\nb] z\nz\n' --all --only b
made "$a"'new 0 a x\nnew 1 a kills\n'
(exec "$tmhost" check --accept --all sheet >text 2>errors) 2>/dev/null
compare 'new ones, killed' "$? $(text_of text; text_of errors)" "$(printf '137 #1 a\n> x\n+ x\naccepted 1')"
compare 'new ones, killed, shown' "$(answer show sheet)" "$(printf '#1 a\na] x\nx\n#2 a\n> kills\n?\nstatus 0')"
made "$a"'new 0 a x\nnew 1 a y\n'
"$tmhost" check --accept --all sheet >/dev/full 2>errors
compare 'new ones on a full output' "$? $(text_of errors)" '1 fault 42 Output'
compare 'new ones on a full output, shown' "$(answer show sheet)" "$(printf '#1 a\na] x\nx\n#2 a\n> y\n?\nstatus 0')"
made 'session g plain sh grows.sh\nnew 0 g x\n'
compare 'a new one on a full disk' "$(limited 1 check --accept --all sheet </dev/null)" "$(ending 'fault 21 Disk\n' 1)"
compare 'a new one on a full disk, shown' "$(answer show sheet </dev/null)" "$(ending '#1 g\n> x\n?\n' 0)"

# An answer that came after its time is none, and isn't accepted.
made "$l"'new 0 l differs\nnew 1 l late\nnew 2 l y\neval 1\neval 2\neval 3\nwait\n'
accepts 'one that was over' 1 '#1 l\n> differs\n- differs\n+ another\naccepted 1\n#2 l\n> late\n- late\n+ ?\nsame 1 accepted 1 unanswered 1\n' \
    '#1 l\n> differs\nanother\n#2 l\n> late\nlate\n#3 l\n> y\ny\n' --timeout 2
made "$l"'new 0 l late\nnew 1 l y\n'
accepts 'a new one that was over' 1 '#1 l\n> late\n- ?\n+ ?\n#2 l\n> y\n+ y\naccepted 2\nsame 0 accepted 0 unanswered 1 new 1\n' '#1 l\n> late\n?\n#2 l\n> y\ny\n' --all --timeout 2

# What was told is on the disk, also where it is killed; where the output can't be written, one more.
made "$a"'new 0 a differs\nnew 1 a kills\neval 1\neval 2\nwait\n'
(exec "$tmhost" check --accept sheet >text 2>errors) 2>/dev/null
compare 'one that is killed' "$? $(text_of text; text_of errors)" "$(printf '137 #1 a\na] differs\n- differs\n+ another\naccepted 1')"
compare 'one that is killed, shown' "$(answer show sheet)" "$(printf '#1 a\na] differs\nanother\n#2 a\na] kills\nkills\nstatus 0')"
made "$a"'new 0 a differs\nnew 1 a differs\neval 1\neval 2\nwait\n'
"$tmhost" check --accept sheet >/dev/full 2>errors
compare 'a full output' "$? $(text_of errors)" '1 fault 42 Output'
compare 'a full output, shown' "$(answer show sheet)" "$(printf '#1 a\na] differs\nanother\n#2 a\na] differs\ndiffers\nstatus 0')"

# An answer of 2,000,000 bytes: on a disk that takes no more it isn't there, and nothing of it is told.
made 'session g plain sh grows.sh\nnew 0 g x\neval 1\nwait\n'
compare 'a full disk' "$(limited 1 check --accept sheet </dev/null)" "$(ending 'fault 21 Disk\n' 1)"
compare 'a full disk, shown' "$(answer show sheet </dev/null)" "$(ending '#1 g\n> x\nx\n' 0)"
compare 'a large answer' "$("$tmhost" check --accept sheet </dev/null 2>&1 | cksum)" \
    "$({ printf '#1 g\n> x\n- x\n+ '; head -c 2000000 /dev/zero | tr '\0' a; printf '\naccepted 1\nsame 0 accepted 1 unanswered 0\n'; } | cksum)"
compare 'a large answer, shown' "$("$tmhost" show sheet </dev/null | cksum)" "$({ printf '#1 g\n> x\n'; head -c 2000000 /dev/zero | tr '\0' a; echo; } | cksum)"

# Files: a worksheet in use, one that is used beside, and none.
made "$a"'new 0 a differs\neval 1\nwait\n'
talk_over live sheet
say '# held\nprint 1\n'
hears 'a worksheet in use, held' '#1 a\na] differs\ndiffers\n'
compare 'a worksheet in use' "$(answer check --accept sheet)" "$(printf 'fault 35 InUse\nstatus 1')"
exec 3>&-
wait "$host"
exec 4<&-
made "$a"'new 0 a looks\neval 1\nwait\n'
rm -f text
: >text
timeout 10 "$tmhost" check --accept sheet >other 2>&1 &
host=$!
until [ -s sent ]; do sleep 0.01; done
compare 'a show beside it' "$(answer show sheet)" "$(printf 'fault 35 InUse\nstatus 1')"
echo '+ another' >text
wait "$host"
compare 'one beside others' "$? $(cat other)" '0 same 1 accepted 0 unanswered 0'
words 'a path without a file' 1 'fault 32 Disk\n' check --accept nowhere
printf 'TMWSHEET\001ARR' >sheet
rm -f sheet.alt
compare 'a damaged worksheet' "$(answer check --accept sheet) $(bytes sheet)" "$(printf 'fault 30 Damaged 10\nstatus 1') $(printf 'TMWSHEET\001ARR' >other; bytes other)"
rm -f again sent lives other saved saved.alt

counted acceptances
