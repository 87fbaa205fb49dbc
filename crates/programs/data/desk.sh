# What the files of cases share. A case is one line or two: a name, what is given, and the text that is wanted, typed in. One that is as
# wanted is counted; of one that isn't both texts are printed. Texts and bytes are formats of printf: \n, \\, and \ooo for a byte by its
# value in octal digits. None of them has a percent sign. What a case reads comes from a file, never from a pipe: a shell counts in vain
# after one.
#
# A process that is started costs about as much as a whole run of the program, and there are thousands of cases. So what the shell can do by
# itself it does: it reads short files, it counts, and it types a new worksheet.

cases=0
differing=0

# Compares a text that was got with the one that is wanted.
compare() {
    if [ "$2" = "$3" ]; then
        cases=$((cases + 1))
    else
        differing=$((differing + 1))
        printf 'DIFFERS: %s\n-- wanted\n%s\n-- got\n%s\n' "$1" "$3" "$2"
    fi
}

# Says how many cases of this matter were as wanted, since the last time.
counted() {
    echo "$1: $cases as wanted, $differing not"
    cases=0
    differing=0
}

# A text with `status N` after it.
ending() {
    printf "$1"
    echo "status $2"
}

# The bytes of a short text in a file, or none where there is no such file: as `cat`, and without a process.
text_of() {
    [ -e "$1" ] || return 0
    while IFS= read -r line_of_text; do printf '%s\n' "$line_of_text"; done <"$1"
    printf '%s' "$line_of_text"
}

# What the program writes of the input here, on its output and then on its errors, and its status.
answer() {
    "$tmhost" "$@" 2>errors
    status=$?
    text_of errors
    echo "status $status"
}

# A new worksheet `sheet`, byte by byte as `create` makes one: steps.sh compares them.
fresh() {
    printf 'TMWSHEET\001A\000' >sheet
    : >sheet.alt
}

# The same where no file may be longer than so many blocks of 512 bytes: BLOCKS WORDS.
limited() (
    blocks=$1
    shift
    trap '' XFSZ
    ulimit -f "$blocks"
    "$tmhost" "$@" 2>&1
    echo "status $?"
)

# A case of words alone: NAME STATUS TEXT WORDS.
words() {
    name=$1 want=$(ending "$3" "$2")
    shift 3
    compare "$name" "$(answer "$@" </dev/null)" "$want"
}

# A case of `show`: NAME STATUS TEXT, over the bytes in the file `area` as the first file of a worksheet, which has no second one.
shows() {
    [ ! -e area.alt ] || rm area.alt
    compare "$1" "$(answer show area)" "$(ending "$3" "$2")"
}

# The same of bytes that are typed in: NAME BYTES STATUS TEXT.
area() {
    printf "$2" >area
    shows "$1" "$3" "$4"
}

# A case of `blocks`: NAME STATUS TEXT, of the bytes here.
prints() {
    compare "$1" "$(answer blocks)" "$(ending "$3" "$2")"
}

# The same of bytes that are typed in: NAME BYTES STATUS TEXT.
stream() {
    printf "$2" >given
    prints "$1" "$3" "$4" <given
}

# A case of `run`: NAME TEXT SHEET. A script, which is the input here, over a new worksheet writes the text, and then the worksheet is
# shown so. Both have status 0.
runs() {
    fresh
    compare "$1" "$(answer run sheet)" "$(ending "$2" 0)"
    compare "$1, shown" "$(answer show sheet </dev/null)" "$(ending "$3" 0)"
}

# The same of a script that is typed in: NAME SCRIPT TEXT SHEET.
script() {
    printf "$2" >given
    runs "$1" "$3" "$4" <given
}

# The same over the worksheet that the case before it left.
then_runs() {
    compare "$1" "$(printf "$2" | answer run sheet)" "$(ending "$3" 0)"
    compare "$1, shown" "$(answer show sheet </dev/null)" "$(ending "$4" 0)"
}

# A case of `live`: NAME TEXT SHEET. The lines of the input here give the text over a new worksheet, and then the worksheet is shown so.
# Both have status 0.
lives() {
    fresh
    compare "$1" "$(answer live sheet)" "$(ending "$2" 0)"
    compare "$1, shown" "$(answer show sheet </dev/null)" "$(ending "$3" 0)"
}

# The same of lines that are typed in: NAME LINES TEXT SHEET.
live() {
    printf "$2" >given
    lives "$1" "$3" "$4" <given
}

# Begins a talk with `live` and these words over a new worksheet, which ten seconds cut off: bytes are written by `say TEXT`, and what they
# give is read before more are written by `hears NAME TEXT`.
launcher=
talk() {
    rm -f talk.in talk.out
    mkfifo talk.in talk.out
    fresh
    timeout 10 $launcher "$tmhost" live "$@" sheet <talk.in >talk.out 2>talk.errors &
    host=$!
    exec 3>talk.in 4<talk.out
}

# Writes bytes to the one who listens. Where nobody does, the shell inside ends alone.
say() {
    (printf "$1" >&3)
}

# As many lines as are wanted, which stand in the file `due`, and no byte after them.
heard() {
    while IFS= read -r line; do
        IFS= read -r line <&4 || break
        printf '%s\n' "$line"
    done <due
}
hears() {
    printf "$2" >due
    compare "$1" "$(heard)" "$(text_of due)"
}

# Ends the input: NAME TEXT SHEET. The text is what is reported then; the status is 0, and the worksheet is shown so.
hang_up() {
    exec 3>&-
    rest=$(cat <&4)
    exec 4<&-
    wait "$host"
    status=$?
    compare "$1, at the end" "$(printf '%s\n' "$rest"; text_of talk.errors; echo "status $status")" "$(printf '%s\n' "$(printf "$2")"; echo 'status 0')"
    compare "$1, shown" "$(answer show sheet </dev/null)" "$(ending "$3" 0)"
}

# What was sent to interpreters that write it into the file `sent`, a line each.
sent() {
    compare "$1, sent" "$(text_of sent)" "$(printf "$2")"
}

# None of the processes is left that wrote their numbers into the file `lives`.
ended() {
    left=0 begun=0
    for life in $(text_of lives); do
        begun=$((begun + 1))
        if kill -0 "$life" 2>/dev/null; then left=$((left + 1)); fi
    done
    compare "$1, ended" "$left of $begun" "0 of $2"
}

# A case of a script over a worksheet in memory, without interpreters: NAME TEXT, of the script here.
remembers() {
    compare "$1" "$(answer in memory)" "$(ending "$2" 0)"
}

# The same of a script that is typed in: NAME SCRIPT TEXT.
memory() {
    printf "$2" >given
    remembers "$1" "$3" <given
}

# So many times a text: 1, 2, 4 of it and so on, of which those are taken whose sum is the number.
repeated() {
    left=$1 piece=$2 pieces=
    while [ "$left" -gt 0 ]; do
        if [ $((left % 2)) = 1 ]; then pieces=$pieces$piece; fi
        left=$((left / 2))
        piece=$piece$piece
    done
    printf '%s' "$pieces"
}

# The bytes of a file in hexadecimal digits.
bytes() {
    od -An -v -tx1 "$1" | tr -d ' \n'
}

# What tells whether these files stay as they are, of which some may be missing.
sums() {
    cksum "$@" 2>/dev/null
}

# Those of these files that are there.
there() {
    for file in "$@"; do
        if [ -e "$file" ] || [ -L "$file" ]; then echo "$file"; fi
    done
}

# A case of `run --strict`: NAME STATUS TEXT SHEET. A script, which is the input here, over a new worksheet writes the text, its errors
# after it, and then the worksheet is shown so.
strictly() {
    fresh
    compare "$1" "$(answer run --strict sheet)" "$(ending "$3" "$2")"
    compare "$1, shown" "$(answer show sheet </dev/null)" "$(ending "$4" 0)"
}

# The same of a script that is typed in: NAME SCRIPT STATUS TEXT SHEET.
strict() {
    printf "$2" >given
    strictly "$1" "$3" "$4" "$5" <given
}

# The same lines over files and over memory: NAME SCRIPT TEXT SHEET.
both() {
    script "$1" "$2" "$3" "$4"
    memory "$1 in memory" "$2" "$3"
}

# A case of lines of JSON: TASK NAME STATUS LINES, where the text that is wanted is the input here. The lines are taken over a new worksheet.
told_in_json() {
    want=$(cat; echo "status $3")
    fresh
    printf "$4" >given
    compare "$2" "$(answer "$1" --json sheet <given)" "$want"
}

# The same of `live`: NAME STATUS LINES.
json() {
    told_in_json live "$@"
}

# An interpreter in the file NAME.sh: it writes the first text, and the next one for each line that it is sent. Each is one write. Which
# words it was started with and what it was sent stands in the file `sent`, a line each, and its process in the file `lives`. After its
# last text it does what `then` says.
then='read -r line'
interpreter() {
    name=$1 first=$2
    shift 2
    {
        printf '%s\n' "echo \"start \$*\" >>sent" 'echo $$ >>lives' "printf '$first'"
        for text in "$@"; do
            printf '%s\n' 'IFS= read -r line || exit' "printf 'send %s\\n' \"\$line\" >>sent" "printf '$text'"
        done
        printf '%s\n' "$then"
    } >"$name.sh"
    : >sent
    : >lives
}

banner='\002verbatim:\005'
one='session a plain sh p.sh one\nnew 0 a x\neval 1\nwait\n'
two='session a plain sh p.sh\nnew 0 a x\nnew 1 a y\neval 1\neval 2\nwait\n'

# One that never says anything.
cat >silent.sh <<'END_OF_CHILD'
echo $$ >>lives
exec sleep 20
END_OF_CHILD

# An interpreter that answers each line with it but `loop`, at which it loops until it is interrupted (in `env --default-signal=INT`: also
# where this script was started with the signal ignored), and `deaf`, at which it loops for ever. At `slow` it takes 0.4 seconds.
cat >turns.sh <<'END'
trap 'over=1' INT
printf '\002verbatim:\005'
while IFS= read -r l; do
    over=
    case $l in
    loop) while [ -z "$over" ]; do sleep 0.05; done; l=interrupted ;;
    deaf) trap '' INT; while :; do sleep 0.05; done ;;
    slow) sleep 0.4 ;;
    esac
    printf '\002verbatim:%s\005' "$l"
done
END
