# What the files of checks share, beside desk.sh: check.sh, check_new.sh, check_times.sh, check_together.sh, accepts.sh and progress.sh.

# An interpreter that answers each line with it while there is no file `again`. Then the line tells what it does: it answers another
# output, hangs up, or answers under another prompt. Its lives stand in the file `lives`, and what it was sent in the file `sent`.
cat >suite.sh <<'END_OF_CHILD'
echo $$ >>lives
echo "start $1" >>sent
printf '\002verbatim:banner\002prompt#%s] \005\005' "$1"
while IFS= read -r line; do
    echo "send $1 $line" >>sent
    if [ -e again ]; then
        case $line in
            differs) printf '\002verbatim:another\005'; continue ;;
            hangs) exit ;;
            kills) kill -9 $PPID; exit ;;
            prompts) printf '\002verbatim:%s\002prompt#new> \005\005' "$line"; continue ;;
            inputs) printf '\002verbatim:%s\002input#y\005\005' "$line"; continue ;;
            longer) printf '\002verbatim:one\ntwo\nthree\n\005'; continue ;;
            middle) printf '\002verbatim:%s\005' "$(printf '%s\n' 1 2 3 4 five more 6 7 8 9)"; continue ;;
            begins) printf '\002verbatim:%s\005' "$(seq 2 9)"; continue ;;
            ends) printf '\002verbatim:%s\005' "$(seq 10)"; continue ;;
            twice) printf '\002verbatim:%s\005' "$(seq 4; seq 2 9)"; continue ;;
            large) printf '\002verbatim:%s\005' "$(seq 999; echo another; seq 1001 2000)"; continue ;;
            shorter) printf '\002verbatim:\005'; continue ;;
            tagged) printf '\002latex:$x$\005'; continue ;;
            nested) printf '\002verbatim:\002verbatim:nested\005\005'; continue ;;
            bytes) printf '\002verbatim:\001\r\303\251\177\005'; continue ;;
            taps) printf '\002verbatim:not ok 7\n1..0 # SKIP all\n\nBail out!\005'; continue ;;
            tags) printf '\002verbatim:</failure><b a="&">\005'; continue ;;
            odd) printf '\002verbatim:\377\303\251\357\277\276\005'; continue ;;
            looks) until grep -q '^+ another$' text; do sleep 0.01; done ;;
            heads) until grep -q '^worksheet three$' text; do sleep 0.01; done ;;
            opens) until grep -q '^TAP version 13$' text; do sleep 0.01; done ;;
            slow) sleep 0.3 ;;
        esac
    fi
    case $line in
        longer) printf '\002verbatim:one\ntwo\005' ;;
        middle | begins | ends | twice) printf '\002verbatim:%s\005' "$(seq 9)" ;;
        large) printf '\002verbatim:%s\005' "$(seq 2000)" ;;
        *) printf '\002verbatim:%s\005' "$line" ;;
    esac
done
END_OF_CHILD
cat >count.sh <<'END_OF_CHILD'
printf '\002verbatim:\005'
count=0
while IFS= read -r line; do
    count=$((count + 1))
    printf '\002verbatim:%s\005' "$count"
done
END_OF_CHILD

# A new worksheet, which this script made. From then on the file `again` is there.
made() {
    rm -f again
    fresh
    printf "$1" >given
    "$tmhost" run sheet <given >/dev/null
    : >again
    nothing_sent
}

# From here on nothing was sent, and no interpreter was started.
nothing_sent() {
    : >sent
    : >lives
}

# A report with N in the place of how long each evaluation took, which differs in each run: as TAP, in JUnit's XML, and as JSON. Where no
# number stands there it stays as it is.
timed() {
    sed -E 's/^(  duration_ms: )[0-9]+$/\1N/; s/^(<testcase [^>]* time=")[0-9]+\.[0-9]{3}">/\1N">/; s/("took":\{"millis":)[0-9]+,/\1N,/'
}

# A report with nothing of what evaluations took.
untimed() {
    sed -E '/^  ---$/,/^  \.\.\.$/d; s/^(<testcase [^>]*) time="[0-9]+\.[0-9]{3}">/\1>/; s/"took":(null|\{"millis":[0-9]+,"started":(true|false)\}),//'
}

# What evaluations took, as TAP: where an interpreter was started for it, and where there was one.
starts='  ---\n  duration_ms: N\n  started: true\n  ...\n' goes_on='  ---\n  duration_ms: N\n  started: false\n  ...\n'

# What `check` writes with these words, timed where there is a time in it.
report() {
    told=$(answer check "$@" sheet </dev/null)
    case $told in
        *duration_ms* | *' time="'* | *'"took"'*) printf '%s\n' "$told" | timed ;;
        *) printf '%s\n' "$told" ;;
    esac
}

# A case of `check` over that worksheet: NAME STATUS TEXT WORDS. It stays as it was. How long an evaluation took is N.
checks() {
    name=$1 want=$(ending "$3" "$2") before=$(sums sheet sheet.alt)
    shift 3
    compare "$name" "$(report "$@")" "$want"
    compare "$name, kept" "$(sums sheet sheet.alt)" "$before"
}

# The same of a worksheet that is made first: NAME SCRIPT STATUS TEXT WORDS.
checked() {
    title=$1
    made "$2"
    shift 2
    checks "$title" "$@"
}

a='session a plain sh suite.sh a\n'

# A talk over the worksheet as it stands, by these words.
talk_over() {
    rm -f talk.in talk.out
    mkfifo talk.in talk.out
    timeout 10 "$tmhost" "$@" <talk.in >talk.out 2>talk.errors &
    host=$!
    exec 3>talk.in 4<talk.out
}

# Reports that programs read, in the same form.
reports() {
    checks "$@"
}

# What Python's reader of XML finds in a report: the class, the name and the result of each case, with its text.
cat >cases.py <<'END_OF_READER'
import sys
import xml.etree.ElementTree

for case in xml.etree.ElementTree.parse(sys.argv[1]).getroot().iter("testcase"):
    results = [(result.tag, result.get("message"), result.text) for result in case]
    print(ascii((case.get("classname"), case.get("name"), results)))
END_OF_READER

# As lines of JSON: NAME STATUS WORDS, where the lines that are wanted are the input here. The worksheet stays as it was.
objects() {
    name=$1 want=$(cat; echo "status $2") before=$(sums sheet sheet.alt)
    shift 2
    compare "$name" "$(report --json "$@")" "$want"
    compare "$name, kept" "$(sums sheet sheet.alt)" "$before"
}

# The last lines of a refusal of words, and the ends of a report in JUnit's XML.
help="\n\nFor more information, try 'tmhost check --help'.\n"
head='<?xml version="1.0" encoding="UTF-8"?>\n<testsuites>\n<testsuite name="tmhost check">\n' tail='</testsuite>\n</testsuites>\n'

# An interpreter that answers each line with it while there is no file `again`. Then it loops at `loop` and `late` until
# it is interrupted (`env`: also where this script was started with the signal ignored), and answers the first as ever; at `deaf` it loops
# for ever.
cat >loops.sh <<'END_OF_CHILD'
trap 'over=1' INT
echo $$ >>lives
echo start >>sent
printf '\002verbatim:\005'
while IFS= read -r line; do
    echo "send $line" >>sent
    over=
    if [ -e again ]; then
        case $line in
            loop) while [ -z "$over" ]; do sleep 0.05; done ;;
            late) while [ -z "$over" ]; do sleep 0.05; done; line=interrupted ;;
            deaf) trap '' INT; while :; do sleep 0.05; done ;;
            differs) line=another ;;
        esac
    fi
    printf '\002verbatim:%s\005' "$line"
done
END_OF_CHILD
l='session l plain env --default-signal=INT sh loops.sh\n'

# One whose answer has 2,000,000 bytes where there is a file `again`, and that of one byte is its line else.
cat >grows.sh <<'END_OF_CHILD'
printf '\002verbatim:\005'
while IFS= read -r line; do
    printf '\002verbatim:'
    if [ -e again ]; then head -c 2000000 /dev/zero | tr '\0' a; else printf '%s' "$line"; fi
    printf '\005'
done
END_OF_CHILD

# One whose answers are errors, or hold some.
cat >erring.sh <<'END_OF_CHILD'
printf '\002verbatim:\005'
while IFS= read -r line; do
    if [ -e again ]; then
        case $line in
            fails) printf '\002output#\002output#oops\005\005'; continue ;;
            mended) printf '\002output#fine\005'; continue ;;
            ends) exit ;;
        esac
    fi
    case $line in
        bad | mended | ends) printf '\002output#\002output#%s\005\005' "$line" ;;
        deep) printf '\002output#1\002verbatim:\002error#oops\005\005\005' ;;
        *) printf '\002output#error %s\005' "$line" ;;
    esac
done
END_OF_CHILD
e='session e plain sh erring.sh\n'

# A worksheet at another path: PATH SCRIPT.
made_at() {
    made "$2"
    mv sheet "$1"
    mv sheet.alt "$1.alt"
}

# A check beside what comes next, over a copy of the worksheet and in a folder of its own: FOLDER WORDS. A case of it, once all of them were
# waited for, is `came NAME FOLDER TEXT`, where the text has the status.
beside() {
    folder=$1
    shift
    mkdir "$folder"
    cp sheet sheet.alt again ./*.sh "$folder"
    sums sheet sheet.alt >"$folder/before"
    (cd "$folder" && answer check "$@" sheet </dev/null | timed >told) &
}
came() {
    compare "$1" "$(cat "$2/told")" "$3"
    compare "$1, kept" "$(cd "$2" && sums sheet sheet.alt)" "$(cat "$2/before")"
}
