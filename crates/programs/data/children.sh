# Interpreters, and what comes of them: answers by ask points, prompts, ends and faults of lives, lines that are lost.

# Beside the other cases: fifteen lines stay in the pipe of an interpreter, which has room for 4,096 bytes more. A request has more, and its rest waits for
# room: until this interpreter reads, or for a second where it never does.
cat >fills.py <<'END_OF_CHILD'
import fcntl, os, sys, termios, time


def filled(count):
    while int.from_bytes(fcntl.ioctl(0, termios.FIONREAD, bytes(4)), sys.byteorder) < count:
        time.sleep(0.001)


os.write(1, b"\2verbatim:\5")
for line in range(1, 16):
    filled(4096 * line)
    os.write(1, b"\2verbatim:A\5")
filled(65536)
time.sleep(0.05)
while sys.argv[1] == "full_reads" and not os.read(0, 65536).endswith(b" 1)\n"):
    pass
if sys.argv[1] == "full_reads":
    os.write(1, b'\2scheme:(tuple "x" "y")\5')
time.sleep(20)
END_OF_CHILD
fills() {
    "$tmhost" create "$1"
    {
        printf 'session t tab python3 -I -S fills.py %s\nnew 0 t %s\n' "$1" "$(repeated 4095 x)"
        seq 15 | sed 's/.*/eval 1\nwait/'
        printf 'complete 1 1 %s\nwait 30\n' "$(repeated 4095 x)"
    } >"given.$1"
    { timeout 30 "$tmhost" run "$1" <"given.$1" 2>&1; echo "status $?"; } >"$1.told" &
}
fills full_reads
fills full_never

# Which block answers which line.
interpreter p '\002verbatim:Hello\002prompt#Input 1] \005\005' '\002verbatim:\002latex:$x^2$\005\002prompt#Input 2] \005\005'
script 'prompts in the blocks' 'session a plain sh p.sh one two\nnew 0 a x^2\neval 1\nwait\nprint\n' \
    'ok\nfield 1\nasked\nbanner a\nanswered 1\n#1 a\nInput 1] x^2\n{latex:$x^2$}\n' '#1 a\nInput 1] x^2\n{latex:$x^2$}\n'
sent 'prompts in the blocks' 'start one two\nsend x^2'
ended 'prompts in the blocks' 1
interpreter p '\002verbatim:Hello\002prompt#Input 1] \005\005' '\002verbatim:\002latex:$x^2$\005\002prompt#Input 2] \005\005' '\002verbatim:B\005'
script 'the prompt of the next line' 'session a plain sh p.sh\nnew 0 a x^2\neval 1\nwait\neval 1\nwait\n' \
    'ok\nfield 1\nasked\nbanner a\nanswered 1\nasked\nanswered 1\n' '#1 a\nInput 2] x^2\nB\n'
cat >p.sh <<'END_OF_CHILD'
printf '\002verbatim:Hello\002prompt#Input 1] \005\005' | dd bs=1 2>/dev/null
read -r line
printf '\002verbatim:\002latex:$x^2$\005\002prompt#Input 2] \005\005' | dd bs=1 2>/dev/null
read -r line
END_OF_CHILD
script 'the same byte by byte' 'session a plain sh p.sh\nnew 0 a x^2\neval 1\nwait\n' \
    'ok\nfield 1\nasked\nbanner a\nanswered 1\n' '#1 a\nInput 1] x^2\n{latex:$x^2$}\n'

interpreter p "$banner" '\002verbatim:A\005\002verbatim:B\005' '\002verbatim:C\005'
script 'two answers in one piece' "$two" 'ok\nfield 1\nfield 2\nasked\nasked\nbanner a\nanswered 1\nanswered 2\n' \
    '#1 a\n> x\nA\n#2 a\n> y\nC\n'
sent 'two answers in one piece' 'start \nsend x\nsend y'

interpreter p "$banner" '\002verbatim:A\005' '\002verbatim:B\005'
script 'cut between two answers' "$two" 'ok\nfield 1\nfield 2\nasked\nasked\nbanner a\nanswered 1\nanswered 2\n' \
    '#1 a\n> x\nA\n#2 a\n> y\nB\n'
sent 'cut between two answers' 'start \nsend x\nsend y'

interpreter p "$banner" '\002verbatim:A\005\002verb' 'atim:B\005\002verbatim:C\005'
script 'cut inside the second answer' "$two" 'ok\nfield 1\nfield 2\nasked\nasked\nbanner a\nanswered 1\nanswered 2\n' \
    '#1 a\n> x\nA\n#2 a\n> y\nC\n'
sent 'cut inside the second answer' 'start \nsend x\nsend y'

interpreter p "$banner" '\002prompt#a\005' '\002verbatim:A\005'
script 'a prompt as an answer' "$one" 'ok\nfield 1\nasked\nbanner a\nanswered 1\n' '#1 a\n> x\n\n'
script 'its prompt is that of the next line' "$one"'eval 1\nwait\n' 'ok\nfield 1\nasked\nbanner a\nanswered 1\nasked\nanswered 1\n' \
    '#1 a\nax\nA\n'

interpreter p "$banner" '\002verbatim:A\002input#y\005\005'
script 'a default input with the answer' "$one" 'ok\nfield 1\nasked\nbanner a\nanswered 1\ndefault a y\n' '#1 a\n> x\nA\n'

interpreter p '\002verbatim:\002input#a\tb\005\005' '\002verbatim:A\005'
script 'a default input in the banner' "$one" 'ok\nfield 1\nasked\nbanner a\ndefault a a\\x09b\nanswered 1\n' '#1 a\n> x\nA\n'

interpreter p "$banner" '\002verbatim:A\005'
script 'an empty input' 'session a plain sh p.sh\nnew 0 a\neval 1\nwait\n' 'ok\nfield 1\nasked\nbanner a\nanswered 1\n' '#1 a\n> \nA\n'
sent 'an empty input' 'start \nsend '

# A thousand blocks in one piece: the first one answers, and the others are of no line.
interpreter p "$banner" '\002verbatim:A\005'"$(repeated 999 '\002a:\005')" '\002verbatim:B\005'
script 'a thousand blocks in one piece' "$two" 'ok\nfield 1\nfield 2\nasked\nasked\nbanner a\nanswered 1\nanswered 2\n' \
    '#1 a\n> x\nA\n#2 a\n> y\nB\n'
sent 'a thousand blocks in one piece' 'start \nsend x\nsend y'

for length in 1024 1025 3000 100000; do
    interpreter p "$banner" '\002verbatim:A\002input#'"$(repeated $length y)"'\005\005'
    script "a default input of $length bytes" "$one" "ok\nfield 1\nasked\nbanner a\nanswered 1\ndefault a $(repeated $length y)\n" '#1 a\n> x\nA\n'
done

# Prompts are cut to their first 1,024 bytes.
for length in 1023 1024 1025; do
    kept=$length
    if [ $length = 1025 ]; then kept=1024; fi
    interpreter p '\002verbatim:\002prompt#'"$(repeated $length p)"'\005\005' '\002verbatim:A\005'
    script "a prompt of $length bytes" "$one" 'ok\nfield 1\nasked\nbanner a\nanswered 1\n' "#1 a\n$(repeated $kept p)x\nA\n"
done

# Blocks of 32 levels in one another, and then one of 33.
levels=$(repeated 32 '\002a:')$(repeated 32 '\005')
interpreter p "$levels" "$levels" "$(repeated 33 '\002a:')"
script 'blocks of 32 levels and more' "$two" 'ok\nfield 1\nfield 2\nasked\nasked\nbanner a\nanswered 1\nended a TooDeep lost 1\n' \
    "#1 a\n> x\n$(repeated 32 '{a:')$(repeated 32 '}')\n#2 a\n> y\n? TooDeep\n"

# An answer of 16,777,216 bytes, which is the longest, and one of a byte more.
answers_of() {
    {
        printf '%s\n' "printf '$banner'" 'read -r line' "printf '\\002verbatim:'"
        printf '%s\n' "head -c $1 /dev/zero | tr '\\0' a" "printf '\\005'" 'read -r line' "printf '$banner'" 'read -r line'
    } >p.sh
    fresh
    printf "$two" >given
}
answers_of 16777205
compare 'the longest answer' "$(answer run sheet <given)" \
    "$(ending 'ok\nfield 1\nfield 2\nasked\nasked\nbanner a\nanswered 1\nanswered 2\n' 0)"
compare 'the longest answer, shown' "$("$tmhost" show sheet | cksum)" \
    "$({ printf '#1 a\n> x\n'; head -c 16777205 /dev/zero | tr '\0' a; printf '\n#2 a\n> y\n\n'; } | cksum)"
answers_of 16777206
compare 'an answer that is too long' "$(answer run sheet <given)" \
    "$(ending 'ok\nfield 1\nfield 2\nasked\nasked\nbanner a\nended a TooLong lost 2\n' 0)"
compare 'an answer that is too long, shown' "$(answer show sheet)" "$(ending '#1 a\n> x\n? TooLong\n#2 a\n> y\n?\n' 0)"

# 1,024 lines wait in a session, and no more.
printf 'read -r line\n' >p.sh
{
    echo 'session a plain sh p.sh'
    seq 0 1024 | sed 's/.*/new & a x/'
    seq 1025 | sed 's/.*/eval &/'
} >given
runs 'so many lines wait and no more' \
    "$(printf 'ok\\n'; seq 1025 | sed 's/.*/field &\\n/' | tr -d '\n'; repeated 1024 'asked\n')"'refused 14 QueueFull\n' \
    "$(seq 1025 | sed 's/.*/#& a\\n> x\\n?\\n/' | tr -d '\n')" <given

# Fields whose line waits, and lines that are evaluated again.
interpreter p "$banner" '\002verbatim:A\005'
script 'a field in flight' 'session a plain sh p.sh\nnew 0 a x\neval 1\nnew 1 a y\nset 1 z\nremove 1\nclear 1\neval 1\nmove 1 0\nmove 1 2\nwait\n' \
    'ok\nfield 1\nasked\nfield 2\nrefused 3 InFlight\nrefused 3 InFlight\nrefused 3 InFlight\nrefused 3 InFlight\nrefused 8 SamePlace\nok\nbanner a\nanswered 1\n' \
    '#2 a\n> y\n?\n#1 a\n> x\nA\n'
script 'an evaluation takes the answer away' "$one"'eval 1\n' 'ok\nfield 1\nasked\nbanner a\nanswered 1\nasked\n' '#1 a\n> x\n?\n'
ended 'an evaluation takes the answer away' 2

# Ends and faults of lives. Of the lines that are lost the first keeps the reason.
three='session a plain sh p.sh\nnew 0 a x\nnew 1 a y\nnew 2 a z\neval 1\neval 2\neval 3\nwait\n'
then=exit
interpreter p "$banner" '\002verbatim:hal'
script 'half an answer and the end' "$three" 'ok\nfield 1\nfield 2\nfield 3\nasked\nasked\nasked\nbanner a\nended a Ended lost 3\n' \
    '#1 a\n> x\n? Ended\n#2 a\n> y\n?\n#3 a\n> z\n?\n'
sent 'half an answer and the end' 'start \nsend x'
interpreter p "$banner"'\002verb' ''
script 'the end inside a tag' "$one" 'ok\nfield 1\nasked\nbanner a\nended a Ended lost 1\n' '#1 a\n> x\n? Ended\n'
interpreter p "$banner"'\002verbatim:x\033' ''
script 'the end behind an escape' "$one" 'ok\nfield 1\nasked\nbanner a\nended a Ended lost 1\n' '#1 a\n> x\n? Ended\n'
interpreter p 'x'
script 'noise and the end' "$one" 'ok\nfield 1\nasked\nended a Ended lost 1\n' '#1 a\n> x\n? Ended\n'
then='read -r line'

interpreter p "$banner" '\002verbatim:A\005\002:'
script 'a fault behind the first answer' "$two" 'ok\nfield 1\nfield 2\nasked\nasked\nbanner a\nanswered 1\nended a BadTag lost 1\n' \
    '#1 a\n> x\nA\n#2 a\n> y\n?\n'
sent 'a fault behind the first answer' 'start \nsend x'
ended 'a fault behind the first answer' 1
interpreter p "$banner"'\002:'
script 'a fault behind the banner' "$one" 'ok\nfield 1\nasked\nbanner a\nended a BadTag lost 1\n' '#1 a\n> x\n? BadTag\n'
sent 'a fault behind the banner' 'start one'
ended 'a fault behind the banner' 1
interpreter p "$banner$(repeated 33 '\002a:')"
script 'a block of 33 levels' "$one" 'ok\nfield 1\nasked\nbanner a\nended a TooDeep lost 1\n' '#1 a\n> x\n? TooDeep\n'
ended 'a block of 33 levels' 1

# An input that is closed before the line is sent.
cat >p.sh <<'END_OF_CHILD'
exec <&-
printf '\002verbatim:\005'
exec sleep 10
END_OF_CHILD
script 'a line that is not taken' "$one" 'ok\nfield 1\nasked\nbanner a\nended a SendFault lost 1\n' '#1 a\n> x\n? SendFault\n'

# A session that gives noise without end is stalled after 100,000 pieces.
cat >p.sh <<'END_OF_CHILD'
echo $$ >lives
while :; do printf .; done
END_OF_CHILD
script 'a session that stalls' "$one" 'ok\nfield 1\nasked\nended a Stalled lost 1\n' '#1 a\n> x\n? Stalled\n'
ended 'a session that stalls' 1

# Programs that are no interpreters.
script 'a program that is not there' 'session a plain /nonexistent/p\nnew 0 a x\neval 1\nwait\n' \
    'ok\nfield 1\nasked\nended a StartRefused lost 1\n' '#1 a\n> x\n? StartRefused\n'
script 'a program that ends at once' 'session a plain echo x\nnew 0 a x\neval 1\nwait\n' \
    'ok\nfield 1\nasked\nended a Ended lost 1\n' '#1 a\n> x\n? Ended\n'
script 'programs that are none' \
    'session a plain sh no_such_file\nsession b plain echo no_such_file\nsession c plain /nonexistent/p no_such_file\nnew 0 a x\nnew 0 b x\nnew 0 c x\neval 1\neval 2\neval 3\nwait\nstop a\nstop b\nstop c\n' \
    'ok\nok\nok\nfield 1\nfield 2\nfield 3\nasked\nasked\nasked\nended c StartRefused lost 1\nended a Ended lost 1\nended b Ended lost 1\nok\nok\nok\n' \
    '#3 c\n> x\n? StartRefused\n#2 b\n> x\n? Ended\n#1 a\n> x\n? Ended\n'
script 'programs that are none, without a wait between' \
    'session a plain /nonexistent/p\nsession b plain true\nnew 0 a x\nnew 1 b y\neval 1\neval 2\nwait\nprint\n' \
    'ok\nok\nfield 1\nfield 2\nasked\nended a StartRefused lost 1\nasked\nended b Ended lost 1\n#1 a\n> x\n? StartRefused\n#2 b\n> y\n? Ended\n' \
    '#1 a\n> x\n? StartRefused\n#2 b\n> y\n? Ended\n'

# A program that is there when its line is evaluated once more: the interpreter of session b makes it.
cat >p.sh <<'END_OF_CHILD'
printf '\002verbatim:\005'
read -r line
printf '#!/bin/sh\nprintf "\\002verbatim:\\005"\nread -r line\nprintf "\\002verbatim:A\\005"\nread -r line\n' >later
chmod +x later
printf '\002verbatim:made\005'
read -r line
END_OF_CHILD
rm -f later
script 'a start that is refused and then the next life' \
    'session a plain ./later\nsession b plain sh p.sh\nnew 0 a x\nnew 1 b y\neval 1\neval 2\nwait\neval 1\nwait\n' \
    'ok\nok\nfield 1\nfield 2\nasked\nended a StartRefused lost 1\nasked\nbanner b\nanswered 2\nasked\nbanner a\nanswered 1\n' \
    '#1 a\n> x\nA\n#2 b\n> y\nmade\n'

# Stops.
interpreter p "$banner" '' ''
script 'a stopped session' 'session a plain sh p.sh\nnew 0 a x\nnew 1 a y\neval 1\neval 2\nstop a\nstop a\nstop b\n' \
    'ok\nfield 1\nfield 2\nasked\nasked\nended a Stopped lost 2\nok\nrefused 1 NoSession\n' '#1 a\n> x\n? Stopped\n#2 a\n> y\n?\n'
interpreter p "$banner" '\002verbatim:A\005' ''
script 'a line that is asked behind an answer is stopped' "$one"'eval 1\nstop a\n' \
    'ok\nfield 1\nasked\nbanner a\nanswered 1\nasked\nended a Stopped lost 1\n' '#1 a\n> x\n? Stopped\n'
ended 'a line that is asked behind an answer is stopped' 1
interpreter p "$banner" '\002verbatim:A\005' ''
script 'lives that go on are stopped at the end' "$one"'eval 1\n' 'ok\nfield 1\nasked\nbanner a\nanswered 1\nasked\n' '#1 a\n> x\n?\n'
ended 'lives that go on are stopped at the end' 1

# An interpreter that has begun another program, which outlives it and holds its output: a stop doesn't wait for that one.
cat >p.sh <<'END_OF_CHILD'
echo $$ >>lives
sleep 15 &
echo $! >begun
printf '\002verbatim:\005'
read -r line
printf '\002verbatim:A\005'
read -r line
END_OF_CHILD
rm -f lives
fresh
printf "$one"'stop a\nset 1 y\n' >given
compare 'a stop beside what an interpreter began' "$(timeout 10 "$tmhost" run sheet <given; kill -0 "$(cat begun)" && echo 'that goes on')" \
    "$(printf 'ok\nfield 1\nasked\nbanner a\nanswered 1\nended a Stopped lost 0\nok\nthat goes on')"
kill "$(cat begun)"
ended 'a stop beside what an interpreter began' 1

# What takes a reason away.
then=exit
interpreter p "$banner" '\002verbatim:hal'
script 'a reason' "$one" 'ok\nfield 1\nasked\nbanner a\nended a Ended lost 1\n' '#1 a\n> x\n? Ended\n'
then_runs 'another input takes the reason away' 'set 1 z\n' 'ok\n' '#1 a\n> z\n?\n'
script 'a reason once more' "$one" 'ok\nfield 1\nasked\nbanner a\nended a Ended lost 1\n' '#1 a\n> x\n? Ended\n'
then_runs 'a clear takes the reason away' 'clear 1\n' 'ok\n' '#1 a\n> x\n?\n'
then='read -r line'

# A checkpoint keeps a reason, in the second file.
script 'a reason behind a checkpoint' 'session a plain true\nnew 0 a x\nremove 1\nnew 0 a y\neval 2\nwait\ncheckpoint\n' \
    'ok\nfield 1\nok\nfield 2\nasked\nended a Ended lost 1\nok\n' '#2 a\n> y\n? Ended\n'
compare 'its selector' "$(head -c 10 sheet | tail -c 1)" B
compare 'its records' "$(bytes sheet.alt)" \
    544d5753484545540100520000000b010161000100047472756552000000050900000002520000000a02000000000161000179520000000608000000020200

# Two interpreters at a time. Which of them is heard first is not said.
cat >p.sh <<'END_OF_CHILD'
printf '\002verbatim:\005'
while IFS= read -r line; do printf '\002verbatim:%s\005' "$line"; done
END_OF_CHILD
fresh
printf 'session a plain sh p.sh\nsession b plain sh p.sh\nnew 0 a one\nnew 0 b two\neval 1\neval 2\nwait\nstop a\nstop b\n' >given
compare 'two interpreters' "$("$tmhost" run sheet <given | sort)" \
    "$(printf 'ok\nok\nfield 1\nfield 2\nasked\nasked\nbanner a\nbanner b\nanswered 1\nanswered 2\nended a Stopped lost 0\nended b Stopped lost 0\n' | sort)"
compare 'two interpreters, shown' "$(answer show sheet)" "$(ending '#2 b\n> two\ntwo\n#1 a\n> one\none\n' 0)"

# 64 interpreters at a time: each gets its line once all have theirs.
{
    seq 64 | sed 's/.*/session s& plain sh p.sh/'
    seq 64 | sed 's/.*/new 0 s& x&/'
    seq 64 | sed 's/.*/eval &/'
    echo wait
    seq 64 | sed 's/.*/eval &/'
    echo wait
} >given
fresh
compare '64 interpreters' "$("$tmhost" run sheet <given | sort)" \
    "$({ seq 64 | sed 's/.*/ok/'; seq 64 | sed 's/.*/field &/'; seq 128 | sed 's/.*/asked/'; seq 64 | sed 's/.*/banner s&/'; seq 64 | sed 's/.*/answered &/'; seq 64 | sed 's/.*/answered &/'; } | sort)"
compare '64 interpreters, shown' "$(answer show sheet)" "$(ending "$(seq 64 -1 1 | sed 's/.*/#& s&\\n> x&\\nx&\\n/' | tr -d '\n')" 0)"

# A session whose banner comes late: another one is answered meanwhile.
cat >late.sh <<'END_OF_CHILD'
until [ -e answered ]; do printf .; sleep 0.01; done
printf '\002verbatim:\005'
while IFS= read -r line; do printf '\002verbatim:A\005'; done
END_OF_CHILD
cat >p.sh <<'END_OF_CHILD'
printf '\002verbatim:\005'
read -r line
printf '\002verbatim:B\005'
echo >answered
read -r line
END_OF_CHILD
rm -f answered
fresh
printf 'session a plain sh late.sh\nsession b plain sh p.sh\nnew 0 a x\nnew 1 b y\neval 1\neval 2\nwait\n' >given
compare 'the first session waits for the second' "$("$tmhost" run sheet <given | sort)" \
    "$(printf 'ok\nok\nfield 1\nfield 2\nasked\nasked\nbanner b\nbanner a\nanswered 2\nanswered 1\n' | sort)"
compare 'the first session waits for the second, shown' "$(answer show sheet)" "$(ending '#1 a\n> x\nA\n#2 b\n> y\nB\n' 0)"

# A line of the greatest length is sent once and whole, by `run` and by `live`; so is the next one.
cat >p.sh <<'END_OF_CHILD'
printf '\002verbatim:\005'
while IFS= read -r line; do
    echo "${#line} bytes" >>sent
    printf '\002verbatim:%s\005' "${#line}"
done
END_OF_CHILD
long=$(repeated 4095 x)
for program in script live; do
    rm -f sent
    $program "a long line, $program" "session a plain sh p.sh\nnew 0 a $long\nnew 1 a y\neval 1\neval 2\nwait\n" \
        'ok\nfield 1\nfield 2\nasked\nasked\nbanner a\nanswered 1\nanswered 2\n' "#1 a\n> $long\n4095\n#2 a\n> y\n1\n"
    sent "a long line, $program" '4095 bytes\n1 bytes'
done

# A stop is of the life of its session: the interpreter of the other one goes on to count.
cat >p.sh <<'END_OF_CHILD'
echo $$ >>lives
printf '\002verbatim:\005'
count=0
while IFS= read -r line; do
    count=$((count + 1))
    printf '\002verbatim:%s\005' $count
done
END_OF_CHILD
for stopped in a b; do
    for program in script live; do
        rm -f lives
        if [ $stopped = a ]; then field=2; else field=1; fi
        if [ $stopped = a ]; then shown='#1 a\n> x\n1\n#2 b\n> y\n2\n'; else shown='#1 a\n> x\n2\n#2 b\n> y\n1\n'; fi
        $program "a stop of $stopped, $program" \
            "session a plain sh p.sh\nsession b plain sh p.sh\nnew 0 a x\nnew 1 b y\neval 1\nwait\neval 2\nwait\nstop $stopped\neval $field\nwait\n" \
            "ok\nok\nfield 1\nfield 2\nasked\nbanner a\nanswered 1\nasked\nbanner b\nanswered 2\nended $stopped Stopped lost 0\nasked\nanswered $field\n" \
            "$shown"
        ended "a stop of $stopped, $program" 2
    done
done

# A copy of the worksheet that is made while a line is evaluated shows the line without an answer.
cat >p.sh <<'END_OF_CHILD'
printf '\002verbatim:\005'
IFS= read -r line
cat "$line" >copied
printf '\002verbatim:%s\005' "$line"
read -r line
END_OF_CHILD
rm -f copied.alt
script 'a copy while a line is evaluated' 'session a plain sh p.sh\nnew 0 a sheet\neval 1\nwait\n' \
    'ok\nfield 1\nasked\nbanner a\nanswered 1\n' '#1 a\n> sheet\nsheet\n'
compare 'the copy' "$(answer show copied)" "$(ending '#1 a\n> sheet\n?\n' 0)"

# A child's stream of errors is discarded.
printf '[ /proc/self/fd/2 -ef /dev/null ] && printf "\\002verbatim:\\005"\nread -r line\nprintf "\\002verbatim:null\\005"\nread -r line\n' >p.sh
script 'the errors of a child' "$one" 'ok\nfield 1\nasked\nbanner a\nanswered 1\n' '#1 a\n> x\nnull\n'

# It has the environment of its host.
printf 'printf "\\002verbatim:\\005"\nread -r line\nprintf "\\002verbatim:%%s\\005" "$SAID_BY_A_CASE"\nread -r line\n' >p.sh
export SAID_BY_A_CASE='so it is'
script 'the environment of a child' "$one" 'ok\nfield 1\nasked\nbanner a\nanswered 1\n' '#1 a\n> x\nso it is\n'
unset SAID_BY_A_CASE

# Lines of `live` in a script.
script 'fields that are printed' 'session a plain p\nnew 0 a x\nnew 1 a y\nprint 2\nprint 3\nprint 0\nprint\nprint 1' \
    'ok\nfield 1\nfield 2\n#2 a\n> y\n?\nrefused 2 NoField\nrefused 2 NoField\n#1 a\n> x\n?\n#2 a\n> y\n?\n#1 a\n> x\n?\n' '#1 a\n> x\n?\n#2 a\n> y\n?\n'
script 'bad lines beside a field that is printed' 'session a plain p\r\nnew 0 a x\r\n\r\nfoo\r\nprint 1\r\nprint 01\n# x\nwait 0\nremove 2\n' \
    'ok\nfield 1\nbad line 4\n#1 a\n> x\n?\nbad line 6\nbad line 8\nrefused 2 NoField\n' '#1 a\n> x\n?\n'
script 'lines that are nearly of live' 'print 01\nprint 1 \nwait 0\nwait 1000001\nwait x\ninterrupt\ninterrupt \ninterrupt a/b\nexport pdf\nexport\n' "$(printf 'bad line %s\\n' $(seq 10))" ''
interpreter p '\002verbatim:Hello\002prompt#Input 1] \005\005' '\002verbatim:\002latex:$x^2$\005\002prompt#Input 2] \005\005'
script 'a field that is printed with its answer' 'session a plain sh p.sh\nnew 0 a x^2\neval 1\nwait\nprint 1\n' \
    'ok\nfield 1\nasked\nbanner a\nanswered 1\n#1 a\nInput 1] x^2\n{latex:$x^2$}\n' '#1 a\nInput 1] x^2\n{latex:$x^2$}\n'
interpreter p "$banner" '\002verbatim:A\005' '\002verbatim:B\005'
script 'a wait of seconds that ends with the answers' 'session a plain sh p.sh\nnew 0 a x\nnew 1 a y\nwait 1\neval 1\neval 2\nwait 1000000\nprint\n' \
    'ok\nfield 1\nfield 2\nasked\nasked\nbanner a\nanswered 1\nanswered 2\n#1 a\n> x\nA\n#2 a\n> y\nB\n' '#1 a\n> x\nA\n#2 a\n> y\nB\n'
interpreter p "$banner" '' ''
script 'a wait of seconds whose time is over' 'session a plain sh p.sh\nsession b plain sh echo.sh\nnew 0 a x\nnew 1 b y\neval 1\nwait 1\neval 2\nwait\nprint 1\nstop a\nstop b\n' \
    'ok\nok\nfield 1\nfield 2\nasked\nbanner a\nended a Stalled lost 1\nasked\nbanner b\nanswered 2\n#1 a\n> x\n? Stalled\nok\nended b Stopped lost 0\n' '#1 a\n> x\n? Stalled\n#2 b\n> y\ny\n'
ended 'a wait of seconds whose time is over' 1
interpreter p "$banner" '\002verbatim:A\005'
script 'nothing is taken of an interpreter but in a wait' "$one"'eval 1\nprint 1\nexport pdf\n' \
    'ok\nfield 1\nasked\nbanner a\nanswered 1\nasked\n#1 a\n> x\n?\nbad line 7\n' '#1 a\n> x\n?\n'

# One that an interrupt reaches before a line that loops or at it.
cat >flags.py <<'END_OF_CHILD'
import signal, sys, time

over = False


def interrupted(number, frame):
    global over
    over = True


def answer(text):
    sys.stdout.write("\2verbatim:" + text + "\5")
    sys.stdout.flush()


signal.signal(signal.SIGINT, interrupted)
answer("")
for line in sys.stdin:
    patience = time.monotonic() + 10
    while line == "loop\n" and not over and time.monotonic() < patience:
        time.sleep(0.01)
    text = "interrupted" if over else line[:-1]
    # The next interrupt may come as soon as the answer is there.
    over = False
    answer(text)
END_OF_CHILD
script 'interrupts' 'session a plain python3 -I -S flags.py\nnew 0 a x\nnew 1 a loop\ninterrupt b\ninterrupt a\neval 1\nwait\ninterrupt a\neval 2\ninterrupt a\nwait\neval 1\nwait 60\n' \
    'ok\nfield 1\nfield 2\nrefused 1 NoSession\nidle a\nasked\nbanner a\nanswered 1\nidle a\nasked\ninterrupted a\nanswered 2\nasked\nanswered 1\n' \
    '#1 a\n> x\nx\n#2 a\n> loop\ninterrupted\n'
script 'exports of a script' 'session a plain sh w\nnew 0 a x\nexport script\nexport json\nset 1 y\nexport markdown\n' \
    'ok\nfield 1\nsession a plain sh w\nnew 0 a x\nexport json needs --json\nok\n```a\ny\n```\n\n*no answer*\n' '#1 a\n> y\n?\n'

# A line of `live` makes each line as long as those of `live` may be.
{
    printf '#'
    repeated 65536 x
    printf '\nremove 1\n'
} >given
runs 'a long line' 'refused 2 NoField\n' '' <given
echo 'print 1' >>given
runs 'a long line, and a line of live' 'bad line 1\nrefused 2 NoField\nrefused 2 NoField\n' '' <given

# Many commands, which are taken in groups as ever.
{
    echo 'session a plain p'
    seq 3000 | awk '{ print "new " $1 - 1 " a x" $1 }'
    echo 'print 3000'
} >given
runs '3,000 fields and a line of live' "$(printf 'ok\\n'; seq 3000 | sed 's/.*/field &\\n/' | tr -d '\n')"'#3000 a\n> x3000\n?\n' \
    "$(seq 3000 | sed 's/.*/#& a\\n> x&\\n?\\n/' | tr -d '\n')" <given

# Each word of a command reaches its interpreter, up to the greatest number.
interpreter p "$banner" '\002verbatim:A\005'
fourteen='w1 w2 w3 w4 w5 w6 w7 w8 w9 w10 w11 w12 w13 w14'
script 'sixteen words that are started' "session a plain sh p.sh $fourteen\nnew 0 a x\neval 1\nwait\n" \
    'ok\nfield 1\nasked\nbanner a\nanswered 1\n' '#1 a\n> x\nA\n'
sent 'sixteen words that are started' "start $fourteen\nsend x"

# An interpreter that goes on for ever, whatever it is told and whatever is closed: a stop ends it, and so does the end of the run.
cat >p.sh <<'END_OF_CHILD'
trap '' INT TERM HUP PIPE
echo $$ >>lives
printf '\002verbatim:\005'
read -r line
printf '\002verbatim:A\005'
while :; do sleep 0.1; done
END_OF_CHILD
for last in 'stop a\n' ''; do
    rm -f lives
    fresh
    printf "session a plain sh p.sh\nnew 0 a x\neval 1\nwait\neval 1\n$last" >given
    told=$(timeout 10 "$tmhost" run sheet <given; echo "status $?")
    compare "an interpreter that goes on for ever, '$last'" "$told" "$(printf 'ok\nfield 1\nasked\nbanner a\nanswered 1\nasked\n'; [ -z "$last" ] || echo 'ended a Stopped lost 1'; echo 'status 0')"
    ended "an interpreter that goes on for ever, '$last'" 1
    kill -9 $(cat lives) 2>/dev/null
done

# An interrupt is one SIGINT, to the interpreter of that session and to nobody else: each says how many came. At `one` it waits for the first, and
# then for half a second.
cat >counts.py <<'END_OF_CHILD'
import signal, sys, time

count = 0


def counted(number, frame):
    global count
    count += 1


def answer(text):
    sys.stdout.write("\2verbatim:" + text + "\5")
    sys.stdout.flush()


signal.signal(signal.SIGINT, counted)
answer("")
for line in sys.stdin:
    patience = time.monotonic() + 5
    while line == "one\n" and not count and time.monotonic() < patience:
        time.sleep(0.01)
    if line == "one\n":
        patience = time.monotonic() + 0.5
        while time.monotonic() < patience:
            time.sleep(0.01)
    answer(str(count))
END_OF_CHILD
script 'an interrupt is one signal' 'session a plain python3 -I -S counts.py\nsession b plain python3 -I -S counts.py\nnew 0 a x\nnew 1 b x\nnew 2 a one\neval 1\nwait\neval 2\nwait\neval 3\ninterrupt a\nwait\neval 2\nwait\n' \
    'ok\nok\nfield 1\nfield 2\nfield 3\nasked\nbanner a\nanswered 1\nasked\nbanner b\nanswered 2\nasked\ninterrupted a\nanswered 3\nasked\nanswered 2\n' \
    '#1 a\n> x\n0\n#2 b\n> x\n0\n#3 a\n> one\n1\n'

# These are its signals, and those of the two ends: two that come together are one to whoever counts them.
python3 -I -S calls.py list - true
if [ $? = 0 ]; then
    fresh
    python3 -I -S calls.py list - "$tmhost" run sheet <given >text
    compare 'the signals of one interrupt and two ends' "$(grep '^kill' list)" "$(printf 'kill 2\nkill 9\nkill 9')"
else
    cases=$((cases + 1))
fi

# An interpreter that answers lines which it doesn't read, and never ends: sixteen lines of the greatest length fill its pipe, and the next one isn't
# waited with.
cat >p.sh <<'END_OF_CHILD'
echo $$ >>lives
printf '\002verbatim:\005'
while :; do
    sleep 0.05
    printf '\002verbatim:A\005'
done
END_OF_CHILD
rm -f lives
fresh
{
    printf 'session a plain sh p.sh\nnew 0 a %s\n' "$(repeated 4095 x)"
    seq 17 | sed 's/.*/eval 1\nwait/'
} >given
compare 'one that never reads' "$(timeout 10 "$tmhost" run sheet <given; echo "status $?")" \
    "$(printf 'ok\nfield 1\nasked\nbanner a\nanswered 1\n'; seq 15 | sed 's/.*/asked\nanswered 1/'; printf 'asked\nended a SendFault lost 1\nstatus 0')"
ended 'one that never reads' 1
kill -9 $(cat lives) 2>/dev/null

wait
compare 'a long request waits for room' "$(tail -n 3 full_reads.told)" "$(printf 'asked\ncompleted 1 "x" "y"\nstatus 0')"
compare 'a long request to one that never reads' "$(tail -n 3 full_never.told)" "$(printf 'asked\nended t SendFault lost 1\nstatus 0')"

counted children
