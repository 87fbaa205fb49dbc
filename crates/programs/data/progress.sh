# The line of progress: what `check` shows on standard error where that is a terminal, and that nothing else shows it. The worksheets are
# made as those of checks.
. ./checks_desk.sh

# A case of what a terminal is sent that is standard error of the program: NAME STATUS TEXT WORDS. A terminal has a carriage return before
# each end of a line.
sends() {
    name=$1 want=$(printf "$3"; echo "status $2")
    shift 3
    compare "$name" "$(python3 -I -S screen.py sent text "$tmhost" "$@"; echo "status $?")" "$want"
}

# Five fields: one is answered as before, one differs, one's interpreter hangs up, the next one's is gone, and the last is as before.
cp suite.sh gone.sh
chmod 755 gone.sh
sed -i '1i #!/bin/sh' gone.sh
made "$a"'session b plain ./gone.sh b\nnew 0 a one\nnew 1 a differs\nnew 2 a hangs\nnew 3 b four\nnew 4 a five\nnew 5 a not evaluated\neval 1\neval 2\neval 3\neval 4\neval 5\nwait\n'
rm -f gone.sh
told='#2 a\na] differs\n- differs\n+ another\n#3 a\na] hangs\n- hangs\n+ ? Ended\n#4 b\nb] four\n- four\n+ ? StartRefused\nsame 2 differ 1 unanswered 2\n'
for jobs in '' '--jobs 1'; do
    sends "a suite on a terminal, $jobs" 1 \
        '\r1 of 5\033[K\r\033[K\r2 of 5, 1 differs\033[K\r\033[K\r3 of 5, 1 differs, 1 unanswered\033[K\r\033[K\r4 of 5, 1 differs, 2 unanswered\033[K\r5 of 5, 1 differs, 2 unanswered\033[K\r\033[K' \
        check $jobs sheet
done
compare 'a suite on a terminal, told' "$(cat text)" "$(printf "$told")"
compare 'a suite and its progress on one terminal' "$(python3 -I -S screen.py left - "$tmhost" check sheet; echo "status $?")" "$(ending "$told" 1)"
"$tmhost" check sheet >text 2>errors
compare 'no progress in a file' "$? $(wc -c <errors) $(cat text)" "$(printf "1 0 $told")"
compare 'no progress in a pipe' "$({ "$tmhost" check sheet 2>&1 >text; } | wc -c) $(cat text)" "$(printf "0 $told")"
compare 'no progress where the output alone is a terminal' "$(python3 -I -S screen.py sent - sh -c '"$0" check sheet 2>errors' "$tmhost" | tr -d '\r'; wc -c <errors)" \
    "$(printf "$told"; echo 0)"

# Fields that differ more than once, and lines that are longer than the next.
checked 'two that differ' "$a"'new 0 a differs\nnew 1 a differs\neval 1\neval 2\nwait\n' 1 \
    '#1 a\na] differs\n- differs\n+ another\n#2 a\na] differs\n- differs\n+ another\nsame 0 differ 2 unanswered 0\n'
differs='\r\033[K\r1 of 2, 1 differs\033[K\r\033[K\r2 of 2, 2 differ\033[K\r\033[K'
sends 'two that differ, on a terminal' 1 "$differs" check sheet
sends 'two that differ, twice, on a terminal' 1 "$differs$differs" check sheet sheet

# An acceptance is written in the place of the line.
compare 'acceptances and their progress on one terminal' "$(python3 -I -S screen.py left - "$tmhost" check --accept sheet; echo "status $?")" \
    "$(ending '#1 a\na] differs\n- differs\n+ another\naccepted 1\n#2 a\na] differs\n- differs\n+ another\naccepted 2\nsame 0 accepted 2 unanswered 0\n' 0)"

# By --all those that show no answer are counted too, and a new one is written in the place of the line.
made "$a"'new 0 a one\nnew 1 a two\nnew 2 a differs\neval 1\neval 3\nwait\n'
sends 'a new one, on a terminal' 1 '\r1 of 3\033[K\r\033[K\r2 of 3\033[K\r\033[K\r3 of 3, 1 differs\033[K\r\033[K' check --all sheet
compare 'a new one and its progress on one terminal' "$(python3 -I -S screen.py left - "$tmhost" check --all sheet; echo "status $?")" \
    "$(ending '#2 a\n> two\n+ two\n#3 a\na] differs\n- differs\n+ another\nsame 1 differ 1 unanswered 0 new 1\n' 1)"

# Where no field shows an answer, and at faults: the output can't be written, and there is no worksheet.
made ''
sends 'an empty worksheet on a terminal' 0 '\r\033[K' check sheet
made "$a"'new 0 a one\nnew 1 a differs\neval 1\neval 2\nwait\n'
compare 'a fault on a terminal' "$(python3 -I -S screen.py sent /dev/full "$tmhost" check sheet; echo "status $?")" \
    "$(printf '\r1 of 2\033[K\r\033[K\r\033[Kfault 42 Output\r\n'; echo 'status 1')"
compare 'a fault on a screen' "$(python3 -I -S screen.py left /dev/full "$tmhost" check sheet; echo "status $?")" "$(printf 'fault 42 Output\n'; echo 'status 1')"
sends 'no worksheet, on a terminal' 1 'fault 32 Disk\r\ntmhost: nowhere: No such file or directory (os error 2)\r\n' check nowhere
sends 'two that are none among several, on a terminal' 1 \
    'fault 32 Disk\r\n\r1 of 2\033[K\r\033[K\r2 of 2, 1 differs\033[K\r\033[Kfault 32 Disk\r\ntmhost: nowhere: No such file or directory (os error 2)\r\ntmhost: .: it is no plain file\r\n' check nowhere sheet .

# No other program shows it.
sends 'show on a terminal' 0 '' show sheet
sends 'run on a terminal' 0 '' run sheet
sends 'live on a terminal' 0 '' live sheet

# Why a file can't be had stands behind the fault, and what a program waits for is said where a person has to type it.
compare 'no worksheet, into a pipe' "$("$tmhost" show nowhere 2>&1; echo "status $?")" "$(ending 'fault 32 Disk\n' 1)"
compare 'no worksheet, into a pipe that asks why' "$(TMHOST_EXPLAIN=1 "$tmhost" show nowhere 2>&1; echo "status $?")" \
    "$(ending 'fault 32 Disk\ntmhost: nowhere: No such file or directory (os error 2)\n' 1)"
compare 'no worksheet, into a pipe that does not ask' "$(TMHOST_EXPLAIN=0 "$tmhost" show nowhere 2>&1; echo "status $?")" "$(ending 'fault 32 Disk\n' 1)"
sends 'no worksheet to show' 1 'fault 32 Disk\r\ntmhost: no/where: No such file or directory (os error 2)\r\n' show no/where
sends 'a folder' 1 'fault 32 Disk\r\ntmhost: .: it is no plain file\r\n' live .
sends 'a name that is taken' 1 'fault 34 NotEmpty\r\ntmhost: sheet: it exists\r\ntmhost: sheet.alt: it exists\r\n' create sheet
sends 'a folder that is not there' 1 'fault 32 Disk\r\ntmhost: no: No such file or directory (os error 2)\r\n' create no/where
sends 'two paths' 1 'fault 32 Disk\r\ntmhost: nowhere: No such file or directory (os error 2)\r\ntmhost: sheet: it exists\r\ntmhost: sheet.alt: it exists\r\n' \
    rescue nowhere sheet
types() {
    name=$1 want=$2
    shift 2
    compare "$name" "$(python3 -I -S screen.py typed text "$tmhost" "$@"; echo "status $?")" "$(printf "$want"; echo 'status 0')"
}
end="from this terminal, to its end (Control-D); 'tmhost --help' says what else there is\r\n"
types 'blocks at a terminal' "tmhost: reading what an interpreter wrote $end"
types 'a script at a terminal' "tmhost: reading a script $end" run sheet
types 'lines at a terminal' '' live sheet
rm -f again sent lives text

counted progress
