# What is asked of real files, call by call: which are opened and locked, in which order, what is brought onto the disk before it is told, and
# what comes of each call that fails. calls.py lists the calls. Then sizes: long sessions, paths and records.

# They lie in memory, where a folder does: so a session of 50,000 calls takes some seconds.
here=$PWD
room=$here
if [ -d /dev/shm ] && [ -w /dev/shm ]; then room=$(mktemp -d /dev/shm/files.XXXXXX); fi
cd "$room" || exit

# One Python runs all programs whose calls are listed, since its own start takes longer than theirs. The program, with its FAILS and WORDS,
# reads the file `given` and writes `said`; `status` is then its status.
: >given
mkfifo calls.in calls.out
python3 -I -S "$here/calls.py" list <calls.in >calls.out &
lister=$!
exec 5>calls.in 6<calls.out
lists() {
    fails=$1
    shift
    echo "$fails" "$@" >&5
    read -r status <&6
}
lists - true
listing=$status
# NAME STATUS TEXT LIST FAILS WORDS, of the input in the file given. Where the system has no filter of calls the case counts as it is.
asks() {
    name=$1 want=$(ending "$3" "$2"; printf "$4") fails=$5
    shift 5
    if [ "$listing" = 0 ]; then
        lists "$fails" "$tmhost" "$@"
        got=$(text_of said; echo "status $status"; cat list)
    else
        got=$want
    fi
    compare "$name" "$got" "$want"
}

created='lock EX rw w\nlock EX rw w.alt\nfsync w\nfsync w.alt\nfsync .\nwrite w\nfdatasync w\n'
written='lock EX rw w\nlock EX rw w.alt\nfsync .\nfdatasync w\nwrite w\nfdatasync w\nwrite w\nfdatasync w\n'
shown='lock SH r w\nlock SH r w.alt\nfdatasync w\ntold\n'
: >given
rm -f w w.alt
asks 'the calls of create' 0 '' "$created" - create w
printf 'session a plain true\nnew 0 a x\n' >given
asks 'the calls of run' 0 'ok\nfield 1\n' "${written}told\n" - run w
: >given
asks 'the calls of show' 0 '#1 a\n> x\n?\n' "$shown" - show w
printf 'set 1 y\n' >given
for program in live 'run --strict'; do
    asks "the calls of $program" 0 'ok\n' "${written}told\n" - $program w
done

# Whose the new files may be is the umask's matter.
for mask in 022 027 077; do
    (umask $mask && "$tmhost" create "made.$mask" && "$tmhost" rescue "made.$mask" "saved.$mask" >text)
done
compare 'the permissions of new files' "$(stat -c '%n %a' made.* saved.* | sort | tr '\n' ' ')" \
    'made.022 644 made.022.alt 644 made.027 640 made.027.alt 640 made.077 600 made.077.alt 600 saved.022 644 saved.022.alt 644 saved.027 640 saved.027.alt 640 saved.077 600 saved.077.alt 600 '
rm -f made.* saved.*

# A second file that is missing is made to write, and not to read.
rm w.alt
: >given
asks 'the calls of show without a second file' 0 '#1 a\n> y\n?\n' 'lock SH r w\nfdatasync w\ntold\n' - show w
asks 'the calls of a run that makes the second file' 0 '' 'lock EX rw w\nlock EX rw w.alt\nfsync .\nfdatasync w\n' - run w
compare 'both are there' "$(ls w w.alt)" "$(printf 'w\nw.alt')"

# A journal that is written anew lies in the second file: it is on the disk before the first one names it. Both are read at the next opening.
echo checkpoint >given
asks 'the calls of a checkpoint' 0 'ok\n' 'lock EX rw w\nlock EX rw w.alt\nfsync .\nfdatasync w\nwrite w.alt\nwrite w.alt\nfdatasync w.alt\nwrite w\nfdatasync w\ntold\n' - run w
printf 'set 1 z\n' >given
asks 'the calls of a run in the second file' 0 'ok\n' \
    'lock EX rw w\nlock EX rw w.alt\nfsync .\nfdatasync w\nfdatasync w.alt\nwrite w.alt\nfdatasync w.alt\nwrite w.alt\nfdatasync w.alt\ntold\n' - run w

# What is rescued is on the disk before it is reported, and so is what is accepted; a check and an export write nothing.
printf '\002verbatim:\005' >banner
cat >p.sh <<'END_OF_CHILD'
cat banner
read -r line
cat answer
read -r line
END_OF_CHILD
rm -f w w.alt saved saved.alt
"$tmhost" create w
printf 'session a plain sh p.sh\nnew 0 a x\neval 1\nwait\n' >given
printf '\002verbatim:A\005' >answer
"$tmhost" run w <given >text
: >given
asks 'the calls of a rescue' 0 'kept 4, whole\n' \
    'lock SH r w\nlock SH r w.alt\nfdatasync w\nlock EX rw saved\nlock EX rw saved.alt\nfsync saved\nfsync saved.alt\nfsync .\nwrite saved\nfdatasync saved\nwrite saved.alt\nwrite saved.alt\nfdatasync saved.alt\nwrite saved\nfdatasync saved\ntold\n' \
    - rescue w saved
asks 'the calls of a check' 0 'same 1 differ 0 unanswered 0\n' 'lock SH r w\nlock SH r w.alt\nfdatasync w\nkill 9\ntold\n' - check w
printf '\002verbatim:B\005' >answer
asks 'the calls of what is accepted' 0 '#1 a\n> x\n- A\n+ B\naccepted 1\nsame 0 accepted 1 unanswered 0\n' "${written}told\nkill 9\ntold\n" - check --accept w
asks 'the calls of an export' 0 'session a plain sh p.sh\nnew 0 a x\n' "$shown" - export script w
rm -f w w.alt saved saved.alt banner answer

# Each kind of command by itself: what it gives is on the disk before it is told, and nothing is told before. Behind a checkpoint all lies in the
# second file.
cat >p.sh <<'END_OF_CHILD'
printf '\002verbatim:\005'
while IFS= read -r line; do printf '\002verbatim:A\005'; done
END_OF_CHILD
for line in 'session a plain sh p.sh' 'new 0 a x' 'new 1 a y' 'set 1 z' 'move 1 2' 'eval 1' 'clear 1' 'remove 1' checkpoint 'new 0 a w' 'stop a'; do
    printf '%s\nwait\n' "$line"
done >given
change='write w\nfdatasync w\nwrite w\nfdatasync w\ntold\n'
alone="lock EX rw w\nlock EX rw w.alt\nfsync .\nfdatasync w\n$change$change$change$change$change${change}told\n$change$change$change"
alone="${alone}write w.alt\nwrite w.alt\nfdatasync w.alt\nwrite w\nfdatasync w\ntold\n"
alone="${alone}write w.alt\nfdatasync w.alt\nwrite w.alt\nfdatasync w.alt\ntold\nkill 9\ntold\n"
for program in run 'run --strict' live; do
    rm -f w w.alt
    "$tmhost" create w
    asks "each command alone, $program" 0 'ok\nfield 1\nfield 2\nok\nok\nasked\nbanner a\nanswered 1\nok\nok\nok\nfield 3\nended a Stopped lost 0\n' "$alone" - $program w
done
rm -f w w.alt
# By a link, and from another folder: the second file is the one beside what the link leads to, and its folder is brought onto the disk.
rm -rf far near
mkdir far
"$tmhost" create far/w
ln -s far/w near
printf 'session a plain true\n' >given
asks 'the calls by a link' 0 'ok\n' \
    'lock EX rw far/w\nlock EX rw far/w.alt\nfsync far\nfdatasync far/w\nwrite far/w\nfdatasync far/w\nwrite far/w\nfdatasync far/w\ntold\n' - run near
compare 'no file beside the link' "$(ls near near.alt 2>/dev/null; ls far)" "$(printf 'near\nw\nw.alt')"
rm -rf far near

# Each of these calls fails, once and alone, and the next ones don't: none of them is made any more, and what comes is told. WORDS, LINES of
# the list, the FAULT for each line, and of each what is shown then.
fails_at_each() {
    rest=$2 upto= calls= wants=$4
    for fault in $3; do
        line=${rest%%\\n*}
        rest=${rest#*\\n}
        upto=$upto$line
        call=${line%% *}
        count=1
        for made in $calls; do
            if [ "$made" = "$call" ]; then count=$((count + 1)); fi
        done
        calls="$calls $call"
        printf 'set 1 new\n' >given
        if [ "${1%% *}" = create ]; then
            rm -f made made.alt
        else
            cp kept made
            : >made.alt
        fi
        asks "$1, $line fails" 1 "fault ${fault%_*} ${fault#*_}\n" "$upto EIO\n" "$call:$count:EIO" $1
        upto=$upto'\n'
        if [ -n "$4" ]; then
            compare "$1, $line fails, shown" "$(answer show made </dev/null)" "$(ending "#1 a\n> ${wants%% *}\n?\n" 0)"
            wants=${wants#* }
        fi
    done
}
rm -f made made.alt
"$tmhost" create made
printf 'session a plain true\nnew 0 a old\n' >given
"$tmhost" run made <given >text
cp made kept
of_made() {
    printf "$1" | sed 's/ w$/ made/; s/ w\.alt$/ made.alt/; s/$/\\n/' | tr -d '\n'
}
fails_at_each 'create made' "$(of_made "$created")" '32_Disk 32_Disk 32_Disk 32_Disk 32_Disk 32_Disk 32_Disk' ''
for program in run live 'run --strict'; do
    fails_at_each "$program made" "$(of_made "$written")" '32_Disk 32_Disk 32_Disk 32_Disk 21_Disk 21_Disk 21_Disk 21_Disk' 'old old old old old old old new'
done
fails_at_each 'show made' "$(of_made "$shown" | sed 's/told\\n$//')" '32_Disk 32_Disk 32_Disk' 'old old old'
rm -f made made.alt kept

# A write that fails in the middle of a session, on a device that is full then: all that was told is there, and no more is told.
changes() {
    printf 'session a plain true\nnew 0 a x\n'
    seq "$1" | sed 's/.*/set 1 &\nprint 1/'
}
told_of() {
    printf 'ok\\nfield 1\\n'
    seq "$1" | sed 's/.*/ok\\n#1 a\\n> &\\n?\\n/' | tr -d '\n'
}
rm -f w w.alt
"$tmhost" create w
changes 60 >given
: >list
got=$(ending "$(told_of 50)fault 21 Disk\n" 1)
if [ "$listing" = 0 ]; then
    lists write:101:ENOSPC "$tmhost" run w
    got=$(cat said; echo "status $status")
fi
compare 'a write that fails behind fifty changes' "$got" "$(ending "$(told_of 50)fault 21 Disk\n" 1)"
if [ "$listing" = 0 ]; then compare 'that one, shown' "$(answer show w </dev/null)" "$(ending '#1 a\n> 50\n?\n' 0)"; else cases=$((cases + 1)); fi

# A session of 50,000 calls: nothing is told of bytes that were written and are not on the disk, and the worksheet opens then.
rm -f w w.alt
"$tmhost" create w
changes 12500 >given
before_its_time() {
    awk '$1 == "write" { dirty[$2] = 1 } $1 == "fdatasync" { dirty[$2] = 0 }
        $1 == "told" { for (file in dirty) if (dirty[file]) early++ } { made[$1]++ }
        END { print made["write"], made["fdatasync"], made["told"], early + 0 }' list
}
if [ "$listing" = 0 ]; then
    lists - "$tmhost" run w
    compare 'a session of 50,000 calls' "$status $(cksum <said)" "0 $(printf "$(told_of 12500)" | cksum)"
    compare 'writes, syncs, what was told, and how often too early' "$(before_its_time)" '25000 25001 25000 0'
else
    "$tmhost" run w <given >text
    compare 'a session of 50,000 calls' "$? $(cksum <text)" "0 $(printf "$(told_of 12500)" | cksum)"
    cases=$((cases + 1))
fi
compare 'a session of 50,000 calls, shown' "$(answer show w </dev/null)" "$(ending '#1 a\n> 12500\n?\n' 0)"
rm -f w w.alt list

# A record of nine million bytes is in the file as it came.
cat >p.sh <<'END_OF_CHILD'
printf '\002verbatim:\005'
read -r line
printf '\002verbatim:'
head -c 9000000 /dev/zero | tr '\0' a
printf '\005'
read -r line
END_OF_CHILD
"$tmhost" create w
printf 'session a plain sh p.sh\nnew 0 a x\neval 1\nwait\n' >given
compare 'a record over 8 MiB' "$(answer run w <given)" "$(ending 'ok\nfield 1\nasked\nbanner a\nanswered 1\n' 0)"
compare 'a record over 8 MiB, shown' "$("$tmhost" show w </dev/null | cksum)" "$({ printf '#1 a\n> x\n'; head -c 9000000 /dev/zero | tr '\0' a; echo; } | cksum)"
rm -f w w.alt

# 3,001 fields of two sessions are checked side by side.
cat >p.sh <<'END_OF_CHILD'
printf '\002verbatim:\005'
while IFS= read -r line; do printf '\002verbatim:A\005'; done
END_OF_CHILD
{
    printf 'session a plain sh p.sh\nsession b plain sh p.sh\n'
    seq 0 3000 | awk '{ print "new " $1 " " ($1 % 2 ? "a" : "b") " x" }'
} >given
"$tmhost" create w
"$tmhost" run w <given >text
"$tmhost" eval w </dev/null >text
compare 'an evaluation of 3,001 fields' "$(tail -n 1 text)" 'answered 3001 unanswered 0'
words 'a check of 3,001 fields' 0 'same 3001 differ 0 unanswered 0\n' check w
rm -f w w.alt

# A path of 300 bytes, of which another worksheet has the first 200.
folder=$(repeated 150 d)
mkdir "$folder"
path=$folder/$(repeated 149 f)
"$tmhost" create "$folder/$(repeated 49 f)"
words 'create at a path of 300 bytes' 0 '' create "$path"
printf 'session a plain true\nnew 0 a x\n' >given
compare 'run at a path of 300 bytes' "$(answer run "$path" <given)" "$(ending 'ok\nfield 1\n' 0)"
words 'show at a path of 300 bytes' 0 '#1 a\n> x\n?\n' show "$path"
words 'show at the first 200 bytes of it' 0 '' show "$folder/$(repeated 49 f)"
compare 'the files there' "$(ls "$folder" | awk '{ print length($0) }' | sort -n | tr '\n' ' ')" '49 53 149 153 '
rm -r "$folder"

exec 5>&- 6<&-
wait "$lister"
rm calls.in calls.out said
cd "$here" || exit
if [ "$room" != "$here" ]; then rm -r "$room"; fi
counted files
