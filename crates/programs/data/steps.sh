# Steps of the program as its users take them, over real files, streams and interpreters. Its first word is the program's path. What
# is printed here is compared with the file stdout beside this folder. A line `-- WORDS` names the step, and one `status N` its status
# where that isn't 0. They are taken by a user who isn't root, who may read and write everything.
#
# At the end stand the cases, by matter: each of the files that are read there has some hundred of them, and prints how many are as
# wanted. Who adds a case writes it into the file of its matter, with the text that is wanted (desk.sh has the forms), and counts it in
# the last lines of the file stdout. Nothing is to be proved for it.
tmhost=$1

step() {
    printf -- '-- %s\n' "$*"
}

# Runs the program with these words; what it says on standard error follows what it printed.
run() {
    "$tmhost" "$@" 2>errors
    status=$?
    [ ! -s errors ] || cat errors
    [ $status = 0 ] || echo "status $status"
}

# The same, where the text of a refusal is clap's own.
refused() {
    "$tmhost" "$@" >text 2>errors
    echo "status $?, $([ -s text ] && echo a text || echo no text), $([ -s errors ] && echo errors || echo no errors)"
}

# The names of the worksheet's files, and their lengths.
files() {
    for file in "$@"; do
        if [ -e "$file" ]; then echo "$file $(wc -c <"$file")"; else echo "$file is missing"; fi
    done
}

# An interpreter that answers each line with it.
cat >echo.sh <<'END'
printf '\002verbatim:\005'
while IFS= read -r l; do printf '\002verbatim:%s\005' "$l"; done
END

# The same, which kills its host at the line `kill`, once the file text says that this line was asked as well.
cat >kills.sh <<'END'
printf '\002verbatim:\005'
while IFS= read -r l; do
    if [ "$l" = kill ]; then
        until [ "$(grep -c '^asked$' text)" = 2 ]; do sleep 0.01; done
        kill -9 $PPID
        exit
    fi
    printf '\002verbatim:%s\005' "$l"
done
END

step blocks
printf 'noise\002verbatim:Hi there!\005\n' | run
printf '\002verbatim:x' | run blocks
printf 'ab\002verb\002' | run blocks

step create
run create sheet
files sheet sheet.alt
run create sheet
run create missing/sheet
ln -s nowhere link
run create link
mkdir folder
run create folder
files nowhere link.alt folder.alt

step an empty worksheet
run show sheet
files sheet sheet.alt

step run
cat >script <<'END'
session a plain sh echo.sh
session b plain sh echo.sh
new 0 a one
new 1 b two
foo
remove 7
eval 1
eval 2
wait
print
END
run run sheet <script
step show
run show sheet
step a worksheet goes on
printf 'new 2 a three\neval 3\nwait\n' | run run sheet
run show sheet

step a kill behind the first answer
run create killed
printf 'session a plain sh kills.sh\nnew 0 a first\nnew 1 a kill\neval 1\nwait\neval 2\nwait\nprint\n' >script
"$tmhost" run killed <script >text 2>/dev/null
cat text
run show killed

step an interpreter that ends
run create ended
printf 'session a plain true\nnew 0 a x\neval 1\nwait\n' | run run ended
run show ended

step a reason stays until its field is changed
printf 'set 1 y\n' | run run ended
run show ended

step completions
cat >tab.sh <<'END'
printf '\002verbatim:\005'
while IFS= read -r l; do
    case $l in
    *'(complete "h" 1)') printf '\002scheme:(tuple "h" "ello" "i there")\005' ;;
    *) printf '\002verbatim:%s\005' "$l" ;;
    esac
done
END
run create names
printf 'session t tab sh tab.sh\nnew 0 t h\ncomplete 1 1\ncomplete 1 2\neval 1\nwait\nprint\n' | run run names

step the bytes of a worksheet
run create bytes
printf 'session a plain sh\nnew 0 a x\n' | run run bytes
od -An -v -tx1 bytes

# Its parts: a session and a field, the clearing of an evaluation, then an answer, or the reason why there is none.
step worksheets by their bytes
front='TMWSHEET\001AR\000\000\000\011\001\001a\000\001\000\002shR\000\000\000\012\002\000\000\000\000\001a\000\001xR\000\000\000\005\006\000\000\000\001'
printf "$front"'R\000\000\000\025\007\000\000\000\001\000\002> \002verbatim:A\005\000' >answered
printf "$front"'R\000\000\000\006\010\000\000\000\001\002\000' >lost
printf "$front"'R\000\000\000\006\010\000\000\000\001\012\000' >reason
files answered lost
run show answered
run show lost
run show reason

step a worksheet in its second file
printf 'TMWSHEET\001B\000' >second
printf 'TMWSHEET\001\000R\000\000\000\010\001\001a\000\001\000\001pR\000\000\000\005\011\000\000\000\002R\000\000\000\012\002\000\000\000\000\001a\000\001y\000' >second.alt
run show second
printf 'set 2 z\n' | run run second
files second second.alt
printf 'new 0 a w\nprint\n' | run run second
printf 'TMWSHEET\001' >second.alt
run show second
rm second.alt
run show second
run run second </dev/null
files second.alt
head -c 10 second >short
run run short </dev/null
files short.alt
printf 'TMWSHEET\001C\000' >other
run show other
files other.alt

step a journal that is written anew
run create anew
printf 'session a plain p\nnew 0 a x\nremove 1\nnew 0 a y\n' | run run anew
files anew anew.alt
echo checkpoint | run run anew
od -An -v -tx1 -j9 -N1 anew
od -An -v -tx1 anew.alt
cp anew before
echo 'set 2 z' | run run anew
files anew anew.alt
cmp anew before && echo unchanged
echo checkpoint | run run anew
files anew
od -An -v -tx1 -j9 -N1 anew
od -An -v -tx1 -j48 -N1 anew
echo 'new 0 a w' | run run anew
run show anew

step a line that waits while the journal is written anew
run create waits
cat >script <<'END'
session a plain sh echo.sh
new 0 a x
eval 1
checkpoint
set 1 z
wait
checkpoint
print
END
run run waits <script
run show waits
files waits waits.alt

step what is no worksheet
run run missing </dev/null
files missing missing.alt
echo hello >hello.txt
run show hello.txt
files hello.txt.alt
run run hello.txt </dev/null
printf 'TMWSHEET\001AR\000\000\000\011abc' >cut
run show cut
run show folder
run show ''

step a second file that is missing
rm killed.alt
run show killed
files killed.alt
printf 'print\n' | run run killed
files killed.alt

# An interpreter that says when it has its line, and answers it once it may.
cat >waits.sh <<'END'
printf '\002verbatim:\005'
while IFS= read -r l; do
    echo >"$l.asked"
    until [ -e go ]; do sleep 0.1; done
    printf '\002verbatim:%s\005' "$l"
done
END

# What a refused run hasn't read of its script is printed by `cat`.
step a worksheet that is in use
run create used
ln -s used used.link
printf 'session a plain sh waits.sh\nnew 0 a first\neval 1\nwait\n' | "$tmhost" run used >told 2>&1 &
host=$!
until [ -e first.asked ]; do sleep 0.1; done
printf 'new 0 a second\n' | { run run used; cat; }
printf 'new 0 a third\n' | { run run used.link; cat; }
run show used
run rescue used saved
files saved saved.alt
run create used
echo >go
wait $host
echo "status $?"
cat told
run show used
printf 'new 1 a fourth\n' | run run used

# An interpreter that kills its host, and goes on until it may end.
cat >stays.sh <<'END'
printf '\002verbatim:\005'
echo $$ >stays.pid
kill -9 $PPID
until [ -e gone ]; do sleep 0.1; done
END

step an interpreter that outlives its host has no lock
run create stays
printf 'session a plain sh stays.sh\nnew 0 a x\neval 1\nwait\n' >script
"$tmhost" run stays <script >text 2>/dev/null
run show stays
printf 'new 1 a y\n' | run run stays
kill -0 "$(cat stays.pid)" && echo it goes on
echo >gone

step a link to a worksheet in another folder
mkdir far
run create far/sheet
ln -s far/sheet near
printf 'session a plain sh\nnew 0 a x\n' | run run near
files near.alt far/sheet.alt
rm far/sheet.alt
run show near
files near.alt far/sheet.alt
printf 'set 1 y\n' | run run near
run show far/sheet
files near.alt far/sheet.alt

step files that are shared
run create named
ln named name
run show named
run run name </dev/null
files name.alt
rm name
printf 'session a plain sh\nnew 0 a x\n' | run run named
rm named.alt
ln named named.alt
run show named
run run named </dev/null
rm named.alt
ln -s far/sheet.alt named.alt
run show named
run run named </dev/null
rm named.alt
run show named

step what is no plain file
mkfifo pipe
run show pipe
run run pipe </dev/null
files pipe.alt
mkfifo named.alt
run show named
run run named </dev/null
rm named.alt
run show /dev/null
run run . </dev/null

step what may not be written
chmod 400 named
run show named
printf 'set 1 y\n' | run run named
chmod 500 far
run show far/sheet
run create far/new
chmod 700 far
rm far/sheet.alt
chmod 500 far
run show far/sheet
printf 'set 1 z\n' | run run far/sheet
files named.alt far/sheet.alt far/new
chmod 600 named
chmod 700 far

step words
refused create
refused create one two
refused run
refused live
refused show
refused check
refused rescue sheet
refused export
refused export html
refused faults
refused paint sheet
refused --version
refused --help
refused run --help
refused live --help
refused --  run

step a full device
"$tmhost" show sheet >/dev/full 2>errors
echo "status $?"
cat errors
"$tmhost" --help >/dev/full 2>errors
echo "status $?"
cat errors
printf 'new 0 a four\n' | "$tmhost" run sheet >/dev/full 2>errors
echo "status $?"
cat errors

step closed streams
"$tmhost" run sheet <&- 2>errors
echo "status $?"
cat errors
printf 'new 0 a five\nwait\nnew 0 a six\n' | "$tmhost" run sheet 2>errors >&-
echo "status $?"
cat errors
"$tmhost" show sheet 2>&- >text
echo "status $?"
"$tmhost" show hello.txt 2>&-
echo "status $?"
printf 'remove 99\n' | "$tmhost" run sheet >/dev/full 2>&-
echo "status $?"
run show sheet
files sheet.alt

sh journals.sh "$tmhost"

step cases
. ./desk.sh
# New worksheets of cases are typed in: they are as `create` makes them.
mkdir typed
(cd typed && fresh)
run create made
cmp made typed/sheet
cmp made.alt typed/sheet.alt
rm -r typed made made.alt
compare 'a case that must differ' yes no
counted 'cases that must differ'
# The steps above go over the disk. The cases go over memory, where there is room for them and programs can be started from there: a disk that
# is busy takes longer for what they write than they do.
room=$PWD
if memory=$(mktemp -d /dev/shm/cases.XXXXXX 2>/dev/null); then
    trap 'rm -rf "$memory"' EXIT
    printf '#!/bin/sh\n' >"$memory/starts"
    chmod 700 "$memory/starts"
    if "$memory/starts" 2>/dev/null && [ "$(df -Pk "$memory" | awk 'END { print $4 }')" -gt 1000000 ]; then room=$memory; fi
fi

# Matters whose cases share files are in one chain. A chain has a copy of this folder for itself and goes beside the others, since many cases
# wait for a second or two. What it prints is printed behind what those before it here printed, and stands in its folder's files `told` and
# `failed` until then: no case writes files of these names.
chain() {
    folder=$room/chain.$1
    mkdir "$folder"
    find . -mindepth 1 -maxdepth 1 ! -name 'chain.*' -exec cp -a -t "$folder" {} +
    (
        cd "$folder" || exit
        for matter in "$@"; do
            . "./$matter.sh"
        done
    ) >"$folder/told" 2>"$folder/failed" &
}

case $tmhost in /*) ;; *) tmhost=$PWD/$tmhost ;; esac
chain eval
chain check_times
chain check_together
chain strict live
chain accepts progress
chain children completions
chain json together
chain check
chain check_new
chain replies limits
chain files
chain areas blocks rescues
chain past exports
chain command_lines pairs
wait
for first in areas past command_lines children replies strict json eval check check_new check_times check_together accepts files; do
    cat "$room/chain.$first/told"
done
cat "$room"/chain.*/failed >&2
