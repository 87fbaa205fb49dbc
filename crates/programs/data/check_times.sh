# Checks within a limit of time, and how long evaluations took.
. ./checks_desk.sh

made "$l"'new 0 l x\nnew 1 l loop\nnew 2 l y\neval 1\neval 2\neval 3\nwait\n'
# Each takes two seconds or four, so they go side by side.
beside as_tap --timeout 2 --format tap
beside left_out --timeout 2 --leave-out 2
beside as_json --timeout 2 --json
reports 'an answer after its time is none' 1 '#2 l\n> loop\n- loop\n+ ?\nsame 2 differ 0 unanswered 1\n' --timeout 2
sent 'an answer after its time is none' 'start\nsend x\nsend loop\nsend y'
made "$l"'session a plain sh suite.sh a\nnew 0 l deaf\nnew 1 l y\nnew 2 a differs\neval 1\neval 2\neval 3\nwait\n'
beside stalls --timeout 2 --json --only l
reports 'one that hears no interrupt' 1 '#1 l\n> deaf\n- deaf\n+ ? Stalled\n#3 a\na] differs\n- differs\n+ another\nsame 1 differ 1 unanswered 1\n' --timeout 2
sent 'one that hears no interrupt' 'start\nsend deaf\nstart\nsend y\nstart a\nsend a differs'
ended 'one that hears no interrupt' 3
wait
came 'the same as TAP' as_tap \
    "$(ending "TAP version 13\nok 1 - field 1 of l\n${starts}not ok 2 - field 2 of l\n$goes_on# #2 l\n# > loop\n# - loop\n# + ?\nok 3 - field 3 of l\n${goes_on}1..3\n" 1)"
came 'the same left out' left_out "$(ending 'same 2 differ 0 unanswered 0 left out 1\n' 0)"
came 'the same as JSON' as_json "$(cat <<'END_OF_JSON'
{"format":1,"program":"tmhost","protocol":2,"type":"hello","version":"0.1.0"}
{"id":1,"session":"l","took":{"millis":N,"started":true},"type":"checked","verdict":"same"}
{"id":2,"input":"loop","reason":null,"session":"l","shows":{"output":{"items":["loop"],"kind":"format","tag":"verbatim"},"prompt":"> ","shown":"loop"},"took":{"millis":N,"started":false},"type":"checked","verdict":"unanswered"}
{"id":3,"session":"l","took":{"millis":N,"started":false},"type":"checked","verdict":"same"}
{"differ":0,"errors":0,"left_out":0,"new":0,"same":2,"type":"compared","unanswered":1}
{"type":"end"}
status 1
END_OF_JSON
)"
came 'the same that stalls, as JSON' stalls "$(cat <<'END_OF_JSON'
{"format":1,"program":"tmhost","protocol":2,"type":"hello","version":"0.1.0"}
{"id":1,"input":"deaf","reason":"Stalled","session":"l","shows":{"output":{"items":["deaf"],"kind":"format","tag":"verbatim"},"prompt":"> ","shown":"deaf"},"took":{"millis":N,"started":true},"type":"checked","verdict":"unanswered"}
{"id":2,"session":"l","took":{"millis":N,"started":true},"type":"checked","verdict":"same"}
{"differ":0,"errors":0,"left_out":0,"new":0,"same":1,"type":"compared","unanswered":1}
{"type":"end"}
status 1
END_OF_JSON
)"
reports 'one session within its time' 1 '#3 a\na] differs\n- differs\n+ another\nsame 0 differ 1 unanswered 0\n' --timeout 1000000 --only a

# How long each took, of a slow field and ten quick ones. The milliseconds of a report: FORMAT WORDS.
millis() {
    format=$1
    shift
    "$tmhost" check --format "$format" "$@" sheet >report 2>errors
    case $format in
        json) sed -nE 's/.*"took":\{"millis":([0-9]+),.*/\1/p' report ;;
        tap) sed -nE 's/^  duration_ms: ([0-9]+)$/\1/p' report ;;
        junit) sed -nE 's/.* time="([0-9]+)\.([0-9]{3})">.*/\1\2/p' report | sed -E 's/^0+(.)/\1/' ;;
    esac
}
# Whether a number is at least one, and below another: NUMBER LEAST BELOW.
lies() { if [ "$1" -ge "$2" ] && [ "$1" -lt "$3" ]; then echo between; else echo "$1"; fi; }
made "$a$(printf 'new 0 a slow\\n'; for id in $(seq 10); do printf "new $id a quick\\\\n"; done)"
for format in json tap junit; do
    begun=$(date +%s%3N)
    millis "$format" --all >took
    lasted=$(($(date +%s%3N) - begun))
    compare "how long a field took, as $format" "$(wc -l <took) $(lies "$(head -n 1 took)" 300 30000)" '11 between'
    # No moment is of two fields. Of each reading of the clock a part of a millisecond is cut off.
    compare "how long all took, as $format" "$(lies "$(paste -sd + took | { read -r sum; echo $(($sum)); })" 300 $((lasted + 11)))" between
done
made "$l"'new 0 l x\nnew 1 l loop\neval 1\neval 2\nwait\n'
millis json --timeout 1 >took
compare 'how long one took whose time was over' "$(lies "$(sed -n 2p took)" 1000 30000)" between
rm -f again sent lives report took

counted 'checks within a time'
