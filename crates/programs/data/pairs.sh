# Worksheets as pairs of files: what each program does at the path of the second one, alone and beside another that has the worksheet; a
# second file that somebody else has, and one that is too long.

second='fault 38 SecondFile\n'
programs='create run:--strict run:--timeout:5 run live eval eval:--timeout:5 show check check:--accept check:--jobs:2 export:html export:script'

# A program as words: its parts stand between colons.
parts() {
    rest=$1
    while [ "$rest" != "${rest#*:}" ]; do
        echo "${rest%%:*}"
        rest=${rest#*:}
    done
    echo "$rest"
}

# A worksheet of two fields in its first file, whose second file has a worksheet of an earlier day: NAME.
laid() {
    rm -f w w.alt w.alt.alt saved saved.alt
    "$tmhost" create w
    printf 'session a plain true\nnew 0 a one\ncheckpoint\ncheckpoint\nnew 1 a two\n' >given
    "$tmhost" run w <given >text
    laid=$(sums w w.alt)
}
as_laid() {
    compare "$1, its files" "$(sums w w.alt; there w.alt.alt saved saved.alt)" "$laid"
}

# Alone.
laid
for program in $programs; do
    words "$program at a second file" 1 "$second" $(parts $program) w.alt
    as_laid "$program at a second file"
done
words 'rescue of a second file' 1 "$second" rescue w.alt saved
as_laid 'rescue of a second file'
words 'rescue to a second file' 1 "$second" rescue w w.alt
as_laid 'rescue to a second file'
for program in live:--json run:--json eval:--json; do
    words "$program at a second file" 1 '{"name":"SecondFile","number":38,"type":"fault"}\n'"$second" $(parts $program) w.alt
done
words 'a check of both files' 1 'worksheet w.alt\nworksheet w\nsame 0 differ 0 unanswered 0\ntotal of 2 worksheets: same 0 differ 0 unanswered 0 faults 1\nfault 38 SecondFile\n' check w.alt w

# By other names.
ln -s w.alt by_link
words 'a link to a second file' 1 "$second" show by_link
words 'a whole path' 1 "$second" run "$PWD/w.alt"
words 'a path with a dot' 1 "$second" run ./w.alt
rm by_link
words 'the second file of a second file' 1 "$second" create w.alt.alt

# One that is missing isn't made by that name.
rm w.alt
for program in create run live show; do
    words "$program at a second file that is missing" 1 "$second" $(parts $program) w.alt
done
words 'rescue to a second file that is missing' 1 "$second" rescue w w.alt
compare 'it is still missing' "$(there w.alt w.alt.alt)" ''
words 'the worksheet itself' 0 '#1 a\n> one\n?\n#2 a\n> two\n?\n' show w

# What stands at the path without the ending is no first file: NAME, after it was made at `other`.
is_none() {
    rm -f other.alt other.alt.alt
    words "$1" 0 '' create other.alt
    words "$1, written" 0 '' run other.alt
    words "$1, shown" 0 '' show other.alt
    rm -rf other other.alt other.alt.alt
}
rm -rf other other.alt other.alt.alt
is_none 'nothing beside it'
mkdir other
is_none 'a folder beside it'
mkfifo other
is_none 'a pipe beside it'
: >other
is_none 'an empty file beside it'
echo a text that is longer than a header >other
is_none 'a text beside it'
printf TMWSHEET >other
is_none 'a header that is cut'
printf 'TMWSHEET\002A\000' >other
is_none 'another version'
ln -s w other
is_none 'a link to a worksheet'
ln -s nowhere other
is_none 'a link that leads nowhere'

# And it is one: by the nine bytes that each begins with, whatever stands after them.
for bytes in 'TMWSHEET\001' 'TMWSHEET\001A' 'TMWSHEET\001B\000' 'TMWSHEET\001?R\377'; do
    printf "$bytes" >other
    words "create beside $bytes" 1 "$second" create other.alt
done
rm other
cp w other
chmod 200 other
words 'create beside a file that may not be read' 1 'fault 32 Disk\n' create other.alt
chmod 600 other
words 'create beside it when it may be read' 1 "$second" create other.alt
rm other
compare 'none was made' "$(there other.alt other.alt.alt)" ''

# Begins a talk with a `live` that has this worksheet.
has() {
    rm -f talk.in talk.out
    mkfifo talk.in talk.out
    timeout 60 "$tmhost" live "$1" <talk.in >talk.out 2>talk.errors &
    host=$!
    exec 3>talk.in 4<talk.out
}

# Ends it, and the worksheet is shown so: NAME SHEET TEXT.
had() {
    exec 3>&-
    rest=$(cat <&4)
    exec 4<&-
    wait $host
    status=$?
    compare "$1, at the end" "$rest$(text_of talk.errors; echo "status $status")" 'status 0'
    words "$1, shown" 0 "$3" show "$2"
}

# One has the worksheet, and the others come to both paths.
laid
has w
say 'set 1 uno\n'
hears 'one that has the worksheet' 'ok\n'
for program in $programs; do
    words "$program at the second file meanwhile" 1 "$second" $(parts $program) w.alt
done
for program in run live eval show check export:html; do
    words "$program at the first file meanwhile" 1 'fault 35 InUse\n' $(parts $program) w
done
say 'checkpoint\nnew 2 a three\n'
hears 'it goes on' 'ok\nfield 3\n'
words 'run at the second file in which the worksheet lies' 1 "$second" run w.alt
say 'new 3 a four\n'
hears 'it goes on again' 'field 4\n'
had 'one that has the worksheet' w '#1 a\n> uno\n?\n#2 a\n> two\n?\n#3 a\n> three\n?\n#4 a\n> four\n?\n'

# The other order: somebody has a worksheet of that name, and then a first file comes beside it.
rm -f other other.alt other.alt.alt
"$tmhost" create other.alt
has other.alt
say 'session a plain true\n'
hears 'one that has a worksheet of that name' 'ok\n'
words 'create beside it' 1 'fault 34 NotEmpty\n' create other
cp w other
for program in run live eval show check export:html; do
    words "$program at the first file of what another has" 1 'fault 35 InUse\n' $(parts $program) other
done
rm other
say 'new 0 a one\n'
hears 'it goes on' 'field 1\n'
had 'one that has a worksheet of that name' other.alt '#1 a\n> one\n?\n'
rm other.alt other.alt.alt

# Somebody else has a lock on the second file, which others may have too (SH) or not (EX): LOCK WORDS.
cat >lock.py <<'END_OF_LOCK'
import fcntl, os, sys
with open("w.alt", "r+b") as file:
    fcntl.flock(file, getattr(fcntl, "LOCK_" + sys.argv[1]) | fcntl.LOCK_NB)
    sys.exit(os.spawnvp(os.P_WAIT, sys.argv[2], sys.argv[2:]))
END_OF_LOCK
locked() {
    name=$1 lock=$2 want=$(ending "$4" "$3")
    shift 4
    compare "$name" "$(python3 -I -S lock.py "$lock" "$tmhost" "$@" 2>&1 </dev/null; echo "status $?")" "$want"
}
laid
for program in run live eval check:--accept; do
    locked "$program of a second file that others read" SH 1 'fault 35 InUse\n' $(parts $program) w
    locked "$program of a second file that another writes" EX 1 'fault 35 InUse\n' $(parts $program) w
done
locked 'show of a second file that others read' SH 0 '#1 a\n> one\n?\n#2 a\n> two\n?\n' show w
locked 'check of a second file that others read' SH 0 'same 0 differ 0 unanswered 0\n' check w
for program in show check export:html; do
    locked "$program of a second file that another writes" EX 1 'fault 35 InUse\n' $(parts $program) w
done
as_laid 'a second file that another has'
has w
say 'set 1 uno\n'
hears 'one whose second file is tried' 'ok\n'
compare 'the second file of one that has the worksheet' "$(python3 -I -S lock.py SH true 2>&1 | grep -c BlockingIOError)" 1
had 'one whose second file is tried' w '#1 a\n> uno\n?\n#2 a\n> two\n?\n'
compare 'the second file when nobody has it' "$(python3 -I -S lock.py EX true; echo "status $?")" 'status 0'

# A second file that is too long: what opens a worksheet to write refuses it, so nothing is acknowledged that can't be opened; others read
# the first one.
laid
truncate -s 2147483649 w.alt
for program in run run:--strict live eval check:--accept; do
    words "$program, a second file that is too long" 1 'fault 32 Disk\n' $(parts $program) w
done
words 'show, a second file that is too long' 0 '#1 a\n> one\n?\n#2 a\n> two\n?\n' show w
truncate -s 2147483648 w.alt
printf 'checkpoint\nnew 2 a three\n' >given
compare 'a second file that is as long as it may be' "$(answer run w <given)" "$(ending 'ok\nfield 3\n' 0)"
words 'it is shown' 0 '#1 a\n> one\n?\n#2 a\n> two\n?\n#3 a\n> three\n?\n' show w
rm -f w w.alt saved saved.alt lock.py

counted pairs
