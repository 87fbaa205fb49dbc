# Scripts at each limit and one past it, long scripts, and worksheets of many fields.

new='session a plain p\nnew 0 a '
long() {
    repeated "$1" x
}
both 'an input of 4,095 bytes' "$new$(long 4095)" 'ok\nfield 1\n' "#1 a\n> $(long 4095)\n?\n"
both 'an input of 4,096 bytes' "$new$(long 4096)" 'ok\nrefused 7 BadInput\n' ''
both 'an input of 5,000 bytes' "$new$(long 5000)" 'ok\nrefused 7 BadInput\n' ''
both 'an input of 100,000 bytes' "$new$(long 100000)" 'ok\nrefused 7 BadInput\n' ''
both 'another input of 4,095 bytes' "$new"'\n'"set 1 $(long 4095)" 'ok\nfield 1\nok\n' "#1 a\n> $(long 4095)\n?\n"
both 'another input of 4,096 bytes' "$new"'\n'"set 1 $(long 4096)" 'ok\nfield 1\nrefused 7 BadInput\n' '#1 a\n> \n?\n'
both 'a name of 32 bytes' "session $(long 32) plain p" 'ok\n' ''
both 'a name of 33 bytes' "session $(long 33) plain p" 'refused 5 BadName\n' ''
both 'a name of 300 bytes' "session $(long 300) plain p" 'refused 5 BadName\n' ''
script 'a stop of a name of 17 bytes' "session $(long 17) plain p\nstop $(long 17)\nstop $(long 16)" 'ok\nok\nrefused 1 NoSession\n' ''
script 'a stop of a name of 32 bytes' "session $(long 32) plain p\nstop $(long 32)\nstop $(long 31)" 'ok\nok\nrefused 1 NoSession\n' ''
script 'a stop of a name of 300 bytes' "session $(long 32) plain p\nstop $(long 300)" 'ok\nrefused 1 NoSession\n' ''
both '16 words' "session a plain$(repeated 16 ' p')" 'ok\n' ''
both '17 words' "session a plain$(repeated 17 ' p')" 'refused 6 BadWords\n' ''
both '300 words' "session a plain$(repeated 300 ' p')" 'refused 6 BadWords\n' ''
both 'a word of 1,024 bytes' "session a plain p $(long 1024)" 'ok\n' ''
both 'a word of 1,025 bytes' "session a plain p $(long 1025)" 'refused 6 BadWords\n' ''
both 'a word of 20,000 bytes' "session a plain p $(long 20000)" 'refused 6 BadWords\n' ''

seq 0 64 | sed 's/.*/session s& plain p/' >given
runs '65 sessions' "$(repeated 64 'ok\n')"'refused 9 TooManySessions\n' '' <given
remembers '65 sessions in memory' "$(repeated 64 'ok\n')"'refused 9 TooManySessions\n' <given

# A script of a session and so many fields, each after the one before it.
fields() {
    echo 'session a plain p'
    seq 0 $(($1 - 1)) | awk '{ print "new " $1 " a x" $1 + 1 }'
}
{
    fields 3000
    echo print
} >given
remembers '3,000 fields are printed' "ok\n$(seq 3000 | sed 's/.*/field &\\n/' | tr -d '\n')$(seq 3000 | sed 's/.*/#& a\\n> x&\\n?\\n/' | tr -d '\n')" <given
fields 10001 >given
remembers '10,001 fields' "ok\n$(seq 10000 | sed 's/.*/field &\\n/' | tr -d '\n')refused 10 TooManyFields\n" <given

# 100,000 lines, of which 50,000 are reported.
awk 'BEGIN { for (i = 0; i < 25000; i++) printf "# a remark\nremove 1\n\nwait\n" }' >given
remembers '100,000 lines' "$(awk 'BEGIN { for (i = 1; i <= 25000; i++) printf "refused 2 NoField\\nbad line %d\\n", 4 * i }')" <given
awk 'BEGIN { for (i = 0; i < 100000; i++) print "remove 1" }' >given
runs '100,000 refused lines over files' "$(awk 'BEGIN { for (i = 0; i < 100000; i++) printf "refused 2 NoField\\n" }')" '' <given

# Scripts about as long as a part of a read: a remark, and a line at the end.
for length in 65535 65536 65537 131072; do
    {
        repeated $((length - 9)) '#'
        printf '\nremove 1'
    } >given
    runs "a script of $length bytes" 'refused 2 NoField\n' '' <given
    remembers "a script of $length bytes in memory" 'refused 2 NoField\n' <given
done
head -c 67108864 /dev/zero >given
runs 'the longest script' 'bad line 1\n' '' <given
printf '\000' >>given
compare 'a script of one byte too many' "$(answer run sheet <given)" "$(ending 'fault 41 InputTooLong\n' 1)"
rm given

# A script over a file without a byte.
printf 'print\n' >given
: >empty
compare 'a file without a byte' "$(answer run empty <given)" "$(ending 'fault 31 NotASheet\n' 1)"
compare 'it is left so' "$([ -s empty ] || echo empty)" empty

# What can't be opened, and why, by each program: damage, what is no worksheet, and a disk that fails, since a file is longer than it may be.
printf 'TMWSHEET\001AR\000\000\000\011abc' >damaged
truncate -s 2147483649 too_long
for program in run 'run --strict' live eval show check 'check --accept' 'check --jobs 1' 'export html'; do
    words "$program, damage" 1 'fault 30 Damaged 10\n' $program damaged
    words "$program, no worksheet" 1 'fault 31 NotASheet\n' $program hello.txt
    words "$program, a disk that fails" 1 'fault 32 Disk\n' $program too_long
done
words 'rescue, a disk that fails' 1 'fault 32 Disk\n' rescue too_long saved
rm -f damaged damaged.alt too_long too_long.alt

# A disk that takes no more while a worksheet is changed: what was reported is there, and the change in hand isn't, or none of those that
# were taken together. FORM TEXT INPUT BETWEEN, of a worksheet whose files may have 512 bytes; BETWEEN is a line before the change that
# is too long.
filled() {
    fresh
    printf 'session a plain sh p.sh\nnew 0 a x\n' >given
    "$tmhost" run sheet <given >text
    printf "set 1 y\n$4set 1 $(long 1000)\nset 1 z\n" >given
    compare "$1 on a full disk" "$(limited 1 $1 sheet <given)" "$(ending "$2" 1)"
    compare "$1 on a full disk, shown" "$(answer show sheet </dev/null)" "$(ending "#1 a\n> $3\n?\n" 0)"
}
hello='{"format":1,"program":"tmhost","protocol":2,"type":"hello","version":"0.1.0"}\n'
filled run 'fault 21 Disk\n' x ''
filled 'run --strict' 'fault 21 Disk\n' x ''
filled live 'fault 21 Disk\n' x ''
filled 'live --json' "$hello"'{"name":"Disk","number":21,"type":"fault"}\nfault 21 Disk\n' x ''
filled live 'ok\nfault 21 Disk\n' y '\n'
filled 'live --json' "$hello"'{"line":1,"type":"done"}\n{"line":2,"type":"nothing"}\n{"name":"Disk","number":21,"type":"fault"}\nfault 21 Disk\n' y '\n'
interpreter p "$banner" "\\002verbatim:$(long 1000)\\005"
compare 'eval on a full disk' "$(limited 1 eval sheet </dev/null)" "$(ending 'asked\nbanner a\nfault 21 Disk\n' 1)"
compare 'eval on a full disk, shown' "$(answer show sheet </dev/null)" "$(ending '#1 a\n> y\n?\n' 0)"
printf 'eval 1\nwait\nprint 1\n' >given
for program in run 'run --strict'; do
    compare "a wait of $program on a full disk" "$(limited 1 $program sheet <given)" "$(ending 'asked\nbanner a\nfault 21 Disk\n' 1)"
    compare "a wait of $program on a full disk, shown" "$(answer show sheet </dev/null)" "$(ending '#1 a\n> y\n?\n' 0)"
done
printf 'eval 1\nwait\nset 1 y\n' >given
compare 'a wait of a script on a full disk' "$(limited 1 run sheet <given)" "$(ending 'asked\nbanner a\nfault 21 Disk\n' 1)"
printf "set 1 $(long 1000)\n" >given
compare 'a disk that is full no more' "$(answer run sheet <given)" "$(ending 'ok\n' 0)"
echo checkpoint >given
compare 'a checkpoint on a full disk' "$(limited 1 run sheet <given)" "$(ending 'fault 21 Disk\n' 1)"
compare 'a checkpoint on a full disk, shown' "$(answer show sheet </dev/null)" "$(ending "#1 a\n> $(long 1000)\n?\n" 0)"
compare 'create on a full disk' "$(limited 0 create full)" "$(ending 'fault 32 Disk\n' 1)"
rm -f full full.alt

# A worksheet of 8,193 fields, made of its bytes, of which those of the first ones stand in the file `many`. The last one stands in front of
# the others, and has another number and an answer of 2,000,000 bytes.
head -c 2000000 /dev/zero | tr '\0' a >long
answer_of_many() {
    cat long
}
lay_many() {
    {
        printf 'TMWSHEET\001AR\000\000\000\011\001\001a\000\001\000\002sh'
        cat many
        printf 'R\000\000\000\005\011\000\000\165\060R\000\000\000\012\002\000\000\000\000\001a\000\001y'
        printf 'R\000\036\204\224\007\000\000\165\060\000\002> \002verbatim:'
        answer_of_many
        printf '\005\000'
    } >big
    rm -f big.alt saved saved.alt
}

# Each of the first ones stands in front of those before it. To put it there takes the longer the more they are.
printf 'R\000\000\000\012\002\000\000\000\000\001a\000\001x' >many
for count in $(seq 13); do
    cat many many >more
    mv more many
done
lay_many
sum=$("$tmhost" show big </dev/null | cksum)
compare 'many fields are shown' "$sum" \
    "$({ printf '#30000 a\n> y\n'; answer_of_many; echo; seq 8192 -1 1 | awk '{ print "#" $1 " a\n> x\n?" }'; } | cksum)"
compare 'many fields are rescued' "$(answer rescue big saved </dev/null)" "$(ending 'kept 8196, whole\n' 0)"
compare 'many fields that were rescued' "$("$tmhost" show saved </dev/null | cksum)" "$sum"

# What is exported has each of the first ones behind those before it.
printf "$(seq 0 8191 | awk '{ printf "R\\000\\000\\000\\012\\002\\000\\000\\%03o\\%03o\\001a\\000\\001x", int($1 / 256), $1 % 256 }')" >many
lay_many
compare 'many fields as a script' "$("$tmhost" export script big </dev/null | cksum)" \
    "$({ printf 'session a plain sh\nnew 0 a y\n'; seq 8192 | sed 's/.*/new & a x/'; } | cksum)"
compare 'many fields as Markdown' "$("$tmhost" export markdown big </dev/null | cksum)" \
    "$({ printf '```a\ny\n```\n\n```\n'; answer_of_many; printf '\n```\n'; seq 8192 | awk '{ print "\n```a\nx\n```\n\n*no answer*" }'; } | cksum)"
cat >page.awk <<'END_OF_PAGE'
{
    print "<section id=\"field-" $1 "\">\n<header><a href=\"#field-" $1 "\">#" $1 "</a> <bdi>a</bdi></header>"
    print "<pre class=\"in\" dir=\"ltr\"><bdi>&gt; </bdi><code dir=\"ltr\">" $2 "</code></pre>"
    if ($2 == "x") print "<p class=\"none\">no answer</p>\n</section>"
}
END_OF_PAGE
compare 'many fields as a page' "$("$tmhost" export html big </dev/null | sed '1,/^<main>$/d' | cksum)" \
    "$({
        echo 30000 y | awk -f page.awk
        printf '<pre class="out" dir="ltr">\n'
        answer_of_many
        printf '</pre>\n</section>\n'
        seq 8192 | sed 's/$/ x/' | awk -f page.awk
        printf '</main>\n</body>\n</html>\n'
    } | cksum)"
compare 'many fields as a notebook' "$("$tmhost" export notebook big </dev/null | cksum)" \
    "$({
        printf '{"cells":[{"cell_type":"code","execution_count":null,"id":"field-30000","metadata":{"tmhost":{"session":"a"}},"outputs":[{"data":{"text/plain":"'
        answer_of_many
        printf '"},"execution_count":null,"metadata":{},"output_type":"execute_result"}],"source":"y"}'
        seq 8192 | sed 's/.*/,{"cell_type":"code","execution_count":null,"id":"field-&","metadata":{"tmhost":{"session":"a"}},"outputs":[],"source":"x"}/' | tr -d '\n'
        printf '],"metadata":{},"nbformat":4,"nbformat_minor":5}'
    } | cksum)"
compare 'many fields as JSON' "$("$tmhost" export json big </dev/null | cksum)" \
    "$({
        printf '{"format":1,"program":"tmhost","protocol":2,"type":"hello","version":"0.1.0"}\n{"field":{"id":30000,"input":"y","output":{"items":["'
        answer_of_many
        printf '"],"kind":"format","tag":"verbatim"},"prompt":"> ","session":"a","shown":"'
        answer_of_many
        printf '","state":"answered"},"type":"field"}\n'
        seq 8192 | sed 's/.*/{"field":{"id":&,"input":"x","session":"a","state":"empty"},"type":"field"}/'
        printf '{"fields":[30000'
        seq 8192 | sed 's/^/,/' | tr -d '\n'
        printf '],"next":30001,"sessions":[{"life":null,"name":"a","tab":false,"waiting":0,"words":["sh"]}],"type":"sheet"}\n{"type":"end"}\n'
    } | cksum)"

# The same answer alone, and a little less memory, in units of 1,024 bytes, than these words take: NAME TEXT WORDS. That is reported.
rm -f big.alt
{
    printf 'TMWSHEET\001AR\000\000\000\011\001\001a\000\001\000\002shR\000\000\000\012\002\000\000\000\000\001a\000\001y'
    printf 'R\000\036\204\224\007\000\000\000\001\000\002> \002verbatim:'
    answer_of_many
    printf '\005\000'
} >big
fits() {
    limit=$1
    shift
    (ulimit -v "$limit" && exec "$tmhost" "$@") </dev/null >text 2>errors
}
without_memory() {
    name=$1 text=$2 low=0 high=16384
    shift 2
    until fits $high "$@"; do low=$high high=$((2 * high)); done
    while [ $((high - low)) -gt 256 ]; do
        middle=$(((low + high) / 2))
        if fits $middle "$@"; then high=$middle; else low=$middle; fi
    done
    compare "$name without memory" "$(ulimit -v $low && answer "$@" </dev/null)" "$(ending "$text" 1)"
}
without_memory 'a notebook' 'fault 43 OutOfMemory\n' export notebook big
for program in show 'export html' live run 'run --strict'; do
    without_memory "$program" 'fault 33 OutOfMemory\n' $program big
done
# Streams that don't block, as one may be that another program has too: they are waited for. in SCRIPT WORDS: the script comes a line at a
# time over such an input. out SCRIPT WORDS: the output is such a one, and is read late. full SCRIPT WORDS: so it is, and it has no room
# until then.
cat >patient.py <<'END_OF_PATIENT'
import os, sys, time

way, script, *words = sys.argv[1:]
given, kept = os.pipe()
taken, put = os.pipe()
os.set_blocking(given if way == "in" else put, False)
held = 0
if way == "full":
    try:
        while True:
            held += os.write(put, b"x" * 512)
    except BlockingIOError:
        pass
streams = [(os.POSIX_SPAWN_DUP2, given, 0), (os.POSIX_SPAWN_DUP2, put, 1), (os.POSIX_SPAWN_DUP2, put, 2)]
child = os.posix_spawnp(words[0], words, os.environ, file_actions=streams)
os.close(given)
os.close(put)
with open(script, "rb") as lines:
    for line in lines:
        time.sleep(0.2 if way == "in" else 0)
        os.write(kept, line)
os.close(kept)
time.sleep(0 if way == "in" else 0.5)
with open(taken, "rb") as text:
    sys.stdout.buffer.write(text.read()[held:])
sys.stdout.buffer.write(b"status %d\n" % os.waitstatus_to_exitcode(os.waitpid(child, 0)[1]))
END_OF_PATIENT
# They go side by side, each over files of its own, since each takes half a second. What one tells stands in the file `NAME.patient`.
patient() {
    told=$1
    shift
    python3 -I -S patient.py "$@" >"$told.patient" &
}
count=0
printf 'session b plain true\nnew 0 b y\nremove 1\n' >given.in
for program in run 'run --strict' 'run --timeout 5' live; do
    count=$((count + 1))
    "$tmhost" create "in$count"
    patient "in$count" in given.in "$tmhost" $program "in$count"
done
printf '\002verbatim:A\005\nnoise\n\002verbatim:B\005' >given.blocks
patient blocks in given.blocks "$tmhost" blocks
printf 'print\n' >given
for program in show 'export html' 'export json' run live 'live --json'; do
    count=$((count + 1))
    cp big "out$count"
    patient "out$count" out given "$tmhost" $program "out$count"
done
patient full full given "$tmhost" show nothing
wait
count=0
for program in run 'run --strict' 'run --timeout 5' live; do
    count=$((count + 1))
    compare "$program of an input that doesn't block" "$(cat "in$count.patient")" "$(ending 'ok\nfield 1\nok\n' 0)"
done
compare "blocks of an input that doesn't block" "$(cat blocks.patient)" "$(answer blocks <given.blocks)"
for program in show 'export html' 'export json' run live 'live --json'; do
    count=$((count + 1))
    compare "$program into an output that doesn't block" "$(cksum <"out$count.patient")" \
        "$({ "$tmhost" $program "out$count" <given; echo 'status 0'; } | cksum)"
done
compare "errors that don't block, without room" "$(cat full.patient)" "$(answer show nothing)"
rm -f in[1-4] in[1-4].alt out* *.patient given.in given.blocks
rm -f big big.alt saved saved.alt many long page.awk patient.py

# Calls on real files that fail each time: NAME CALL ERROR STATUS TEXT WORDS. Where the system has no filter of calls the case counts so.
python3 -I -S failing.py fsync EIO true
filtered=$?
failing() {
    name=$1 call=$2 error=$3 want=$(ending "$5" "$4")
    shift 5
    if [ $filtered = 0 ]; then got=$(python3 -I -S failing.py "$call" "$error" "$tmhost" "$@" 2>&1; echo "status $?"); else got=$want; fi
    compare "$name" "$got" "$want"
}
rm -f made made.alt
fresh
printf 'session a plain p\nnew 0 a x\n' >given
"$tmhost" run sheet <given >text
printf 'set 1 y\n' >given
failing 'a sync of data that fails' fdatasync EIO 1 'fault 32 Disk\n' run sheet <given
failing 'a sync of data that fails while a worksheet is made' fdatasync EIO 1 'fault 32 Disk\n' create made
failing 'a read that fails' pread64 EIO 1 'fault 32 Disk\n' show sheet
failing 'a lock that fails' flock EIO 1 'fault 32 Disk\n' show sheet
failing 'a lock that is not lent' flock ENOLCK 1 'fault 32 Disk\n' show sheet
failing 'a file system without locks' flock EOPNOTSUPP 0 '#1 a\n> x\n?\n' show sheet
rm -f made made.alt

# Programs whose own output goes to a file of the worksheet: it isn't opened, and nothing is written to it.
was=$(sums sheet sheet.alt)
own() {
    compare "$1" "$2 $(sums sheet sheet.alt)" "fault 32 Disk
status 1 $was"
}
own 'output to its first file' "$(echo 'set 1 y' | "$tmhost" run sheet 2>&1 >>sheet; echo "status $?")"
own 'output to its second file' "$(echo 'set 1 y' | "$tmhost" run sheet 2>&1 >>sheet.alt; echo "status $?")"
own 'output from its first byte on' "$(echo 'set 1 y' | "$tmhost" run sheet 2>&1 1<>sheet; echo "status $?")"
own 'output of a program that reads' "$("$tmhost" show sheet 2>&1 >>sheet; echo "status $?")"

# Inputs and outputs that fail.
compare 'a script that is a folder' "$(answer run sheet </)" "$(ending 'fault 40 Input\n' 1)"
compare 'a script that is a folder, in memory' "$(answer in memory </)" "$(ending 'fault 40 Input\n' 1)"
printf 'remove 1\n' >given
"$tmhost" in memory <given >/dev/full 2>errors
compare 'a script in memory over a full output' "$? $(text_of errors)" '1 fault 42 Output'
interpreter p "$banner" '\002verbatim:A\005'
printf 'session b plain sh p.sh\nnew 0 b y\neval 1\n' >given
"$tmhost" run sheet <given >/dev/full 2>errors
compare 'a script with an evaluation over a full output' "$? $(text_of errors)" '1 fault 42 Output'

counted limits
