# Live worksheets: lines that are taken while interpreters work, and what these say in between. Where an order is wanted, each line is
# written when the reply to the one before it is read, or a `wait` stands behind the one evaluation.

# Lines of no form. Each has a number of its own.
cat >given <<'END_OF_LINES'
foo
 print
print 
print  
print x
print 01
print +1
print -1
print 1 
print  1
print 1 2
print 4294967296
print 10000000000
prints 1
wait 
wait  
wait 0
wait 01
wait 1000001
wait 4294967295
wait 4294967296
wait x
wait +1
wait -1
wait 1 
wait  1
wait 1 1
wait 1s
waits 1
wait1
interrupt
interrupt 
interrupt a/b
interrupt  a
interrupts a
checkpoint 
checkpoint 1
session
session 
session a
session a tabs p
new 0
new x a
set
set x y
remove
remove 01
move 1
move 1  2
clear -1
eval 1 2
complete 1
complete 1  1
stop
END_OF_LINES
printf 'wait\r\r\nwait 1\r\r\nprint 1\r\r\n\r\r\n\357\273\277print\nprint 1\r' >>given
lives 'lines of no form' "$(printf 'bad line %s\\n' $(seq 60))" '' <given

live 'formats of exports that there are none of' 'export\nexport \nexport pdf\nexport HTML\nexport html \nexport  html\nexports html\nexport html script\n' \
    "$(printf 'bad line %s\\n' $(seq 8))" ''

# Lines of scripts, in the words of `run`.
live 'each line of a script' \
    'session a plain p\nsession b tab p q\nnew 0 a x\nnew 1 a y\nnew 0 b\nset 1 z\nmove 2 0\nclear 1\nremove 3\ncheckpoint\nstop a\n# a remark\n\nwait\ncomplete 1 0\nprint\n' \
    'ok\nok\nfield 1\nfield 2\nfield 3\nok\nok\nok\nok\nok\nok\nrefused 12 NoTab\n#2 a\n> y\n?\n#1 a\n> z\n?\n' '#2 a\n> y\n?\n#1 a\n> z\n?\n'
live 'empty names and texts' \
    'new 0 \nnew 0  x\nsession a tab\nsession a tab \nsession  tab p\nsession a tab pq  r\nsession a tab p\nnew 0 a\nnew 0 a \nnew 0 a  x\nnew 0 a  x \377\nstop \nset 1\nset 1 \nremove 0\neval 4294967295\ncomplete 0 4294967295\ncomplete 1 0\n# x\n\nprint' \
    'refused 1 NoSession\nrefused 1 NoSession\nrefused 6 BadWords\nrefused 6 BadWords\nrefused 5 BadName\nrefused 6 BadWords\nok\nfield 1\nfield 2\nfield 3\nrefused 7 BadInput\nrefused 1 NoSession\nok\nok\nrefused 2 NoField\nrefused 2 NoField\nrefused 2 NoField\nasked\nended a StartRefused lost 1\n#3 a\n>  x\n?\n#2 a\n> \n?\n#1 a\n> \n?\n' \
    '#3 a\n>  x\n?\n#2 a\n> \n?\n#1 a\n> \n?\n'
live 'a removed number is not given out again' 'session a plain p\nnew 0 a x\nremove 1\nnew 0 a y\nmove 2 2\nnew 1 a z\n' \
    'ok\nfield 1\nok\nfield 2\nrefused 8 SamePlace\nrefused 2 NoField\n' '#2 a\n> y\n?\n'
live 'bad lines by number' 'foo\n\n# x\nremove 01\nsession a/b plain p\nsession a plain' \
    'bad line 1\nbad line 4\nrefused 5 BadName\nrefused 6 BadWords\n' ''
live 'carriage returns before line feeds go' 'session a plain p\r\n\r\nnew 0 a x\r\nnew 0 a y\r\r\nsession b plain p\r\r\nwait\r\nwait 1\r\nprint 1\r\nprint\r' \
    'ok\nfield 1\nrefused 7 BadInput\nrefused 6 BadWords\n#1 a\n> x\n?\nbad line 9\n' '#1 a\n> x\n?\n'
live 'a last line without a line feed' 'remove 1\nremove 1' 'refused 2 NoField\nrefused 2 NoField\n' ''
live 'no line' '' '' ''
live 'a line feed alone' '\n' '' ''

# One field in print.
live 'one field' 'session a plain p\nnew 0 a x\nnew 1 a y\nprint 2\nprint 1\nprint 3\nprint 0\nprint 4294967295\nremove 1\nprint 1\nprint\n' \
    'ok\nfield 1\nfield 2\n#2 a\n> y\n?\n#1 a\n> x\n?\nrefused 2 NoField\nrefused 2 NoField\nrefused 2 NoField\nok\nrefused 2 NoField\n#2 a\n> y\n?\n' '#2 a\n> y\n?\n'
interpreter p '\002verbatim:Hello\002prompt#Input 1] \005\005' '\002verbatim:\002latex:$x^2$\005\002prompt#Input 2] \005\005'
live 'one field with its prompt and its output' 'session a plain sh p.sh\nnew 0 a x^2\neval 1\nwait\nprint 1\n' \
    'ok\nfield 1\nasked\nbanner a\nanswered 1\n#1 a\nInput 1] x^2\n{latex:$x^2$}\n' '#1 a\nInput 1] x^2\n{latex:$x^2$}\n'

# Lengths of lines.
{
    printf '#'
    repeated 65535 x
    printf '\nremove 1\n#'
    repeated 65536 x
    printf '\nremove 1\n#'
    repeated 65535 x
    printf '\r\n#'
    repeated 65535 x
    printf '\r\r\n'
    repeated 200000 x
    printf '\nremove 1\n#'
    repeated 65536 x
} >given
lives 'lines of 65,536 bytes, and longer ones' 'refused 2 NoField\nbad line 3\nrefused 2 NoField\nbad line 6\nbad line 7\nrefused 2 NoField\nbad line 9\n' '' <given
{
    printf 'session a plain p\nnew 0 a '
    repeated 4096 x
    printf '\nnew 0 a '
    repeated 4095 x
} >given
lives 'the longest input' 'ok\nrefused 7 BadInput\nfield 1\n' "#1 a\n> $(repeated 4095 x)\n?\n" <given
{
    head -c 67108865 /dev/zero
    printf '\nremove 1\n'
} >given
lives 'more bytes than a script may have' 'bad line 1\nrefused 2 NoField\n' '' <given
rm given

# Waits.
live 'waits where no item waits' 'wait\nwait 1\nwait 1000000\nremove 1\n' 'refused 2 NoField\n' ''
interpreter p "$banner" '\002verbatim:A\005' '\002verbatim:B\005' '\002verbatim:C\005'
live 'waits that end with the answer' 'session a plain sh p.sh\nnew 0 a x\neval 1\nwait\nprint 1\neval 1\nwait 1000000\nprint 1\neval 1\nwait\n' \
    'ok\nfield 1\nasked\nbanner a\nanswered 1\n#1 a\n> x\nA\nasked\nanswered 1\n#1 a\n> x\nB\nasked\nanswered 1\n' '#1 a\n> x\nC\n'
live 'a wait of two sessions of which one is not started' 'session a plain sh p.sh\nsession b plain /nonexistent/p\nnew 0 a x\nnew 1 b y\neval 2\neval 1\nwait\n' \
    'ok\nok\nfield 1\nfield 2\nasked\nasked\nended b StartRefused lost 1\nbanner a\nanswered 1\n' '#1 a\n> x\nA\n#2 b\n> y\n? StartRefused\n'
interpreter p "$banner" '' ''
live 'a wait whose time is over' 'session a plain sh p.sh\nnew 0 a x\neval 1\nwait 1\nprint 1\nstop a\n' \
    'ok\nfield 1\nasked\nbanner a\nended a Stalled lost 1\n#1 a\n> x\n? Stalled\nok\n' '#1 a\n> x\n? Stalled\n'
ended 'a wait whose time is over' 1
live 'completions' 'session t tab sh tab.sh\nnew 0 t h\ncomplete 1 1\nwait\n' 'ok\nfield 1\nasked\nbanner t\ncompleted 1 "h" "ello" "i there"\n' '#1 t\n> h\n?\n'

# Paths, inputs and outputs.
words 'live over a missing path' 1 'fault 32 Disk\n' live nowhere/sheet
words 'live over what is no worksheet' 1 'fault 31 NotASheet\n' live hello.txt
words 'live over an empty path' 1 'fault 32 Disk\n' live ''
printf 'TMWSHEET\001AR\000\000\000\011abc' >damaged
words 'live over a damaged worksheet' 1 'fault 30 Damaged 10\n' live damaged
compare 'an input that is a folder' "$(answer live sheet </)" "$(ending 'fault 40 Input\n' 1)"
"$tmhost" live sheet <&- 2>errors
compare 'a closed input' "$? $(text_of errors)" '1 fault 40 Input'
printf 'remove 1\n' >given
"$tmhost" live sheet <given >/dev/full 2>errors
compare 'a full output' "$? $(text_of errors)" '1 fault 42 Output'
"$tmhost" live sheet <given 2>errors >&-
compare 'a closed output' "$? $(text_of errors)" '1 fault 42 Output'

# A line is written when the reply to the one before it is read. Beside it the worksheet is in use.
interpreter p "$banner" '\002verbatim:A\005' '\002verbatim:B\005'
talk
say 'session a plain sh p.sh\n'
hears 'the reply to the first line' 'ok\n'
say 'new 0 a x\n'
hears 'the reply to the second line' 'field 1\n'
say 'eval 1\n'
hears 'the answer without a wait' 'asked\nbanner a\nanswered 1\n'
say 'print 1\n'
hears 'its field' '#1 a\n> x\nA\n'
say '# nothing\n\nfoo\n'
hears 'a bad line behind two that give nothing' 'bad line 7\n'
say 'new 1 a'
say ' y\r\nremo'
hears 'a line that comes in parts' 'field 2\n'
say 've 3'
say '\nprint 2\nremove 3\n'
hears 'its rest, and two lines at once' 'refused 2 NoField\n#2 a\n> y\n?\nrefused 2 NoField\n'
compare 'run beside it' "$(printf 'new 0 a z\n' | answer run sheet)" "$(ending 'fault 35 InUse\n' 1)"
compare 'live beside it' "$(printf 'new 0 a z\n' | answer live sheet)" "$(ending 'fault 35 InUse\n' 1)"
compare 'show beside it' "$(answer show sheet </dev/null)" "$(ending 'fault 35 InUse\n' 1)"
say 'export script\n'
hears 'an export' 'session a plain sh p.sh\nnew 0 a x\nnew 1 a y\n'
say 'eval 2\n'
hears 'the next answer' 'asked\nanswered 2\n'
say 'remove 1'
hang_up 'a talk' 'ok\n' '#2 a\n> y\nB\n'
ended 'a talk' 1
sent 'a talk' 'start \nsend x\nsend y'

# Three interpreters: one never says anything, one is slow, one is quick.
cat >slow.sh <<'END_OF_CHILD'
echo $$ >>lives
until [ -e go ]; do sleep 0.05; done
printf '\002verbatim:\005'
while IFS= read -r l; do sleep 0.3; printf '\002verbatim:%s\005' "$l"; done
END_OF_CHILD
rm -f go lives
talk
say 'session a plain sh silent.sh\nsession b plain sh slow.sh\nsession c plain sh echo.sh\nnew 0 a x\nnew 1 b y\nnew 2 c z\n'
hears 'three sessions' 'ok\nok\nok\nfield 1\nfield 2\nfield 3\n'
say 'eval 1\n'
hears 'a line to the silent one' 'asked\n'
say 'eval 2\n'
hears 'a line to the slow one' 'asked\n'
say 'eval 3\n'
hears 'the answer of the quick one' 'asked\nbanner c\nanswered 3\n'
say 'set 3 one more\n'
hears 'its field is changed' 'ok\n'
say 'set 2 y\n'
hears 'a field that waits is not' 'refused 3 InFlight\n'
say 'eval 3\n'
hears 'its next answer' 'asked\nanswered 3\n'
say 'eval 3\n'
hears 'and its third one' 'asked\nanswered 3\n'
say 'stop a\n'
hears 'the silent one is stopped' 'ended a Stopped lost 1\n'
say 'print\n'
hears 'what stands then' '#1 a\n> x\n? Stopped\n#2 b\n> y\n?\n#3 c\n> one more\none more\n'
say 'eval 1\n'
hears 'the silent one begins anew' 'asked\n'
: >go
hears 'the slow one' 'banner b\nanswered 2\n'
say 'eval 3\n'
hears 'the quick one once more' 'asked\nanswered 3\n'
say 'wait 1\nprint 1\n'
hears 'the silent one stalls' 'ended a Stalled lost 1\n#1 a\n> x\n? Stalled\n'
say 'eval 1\nstop a\n'
hears 'it is stopped once more' 'asked\nended a Stopped lost 1\n'
hang_up 'three interpreters' '' '#1 a\n> x\n? Stopped\n#2 b\n> y\ny\n#3 c\n> one more\none more\n'
compare 'three interpreters, ended' "$(for life in $(cat lives); do kill -0 "$life" 2>/dev/null && echo "$life"; done)" ''

# A wait holds back the lines behind it.
rm -f go
talk
say 'session b plain sh slow.sh\nnew 0 b x\nnew 0 b y\neval 1\nwait\neval 2\nwait 1000\nremove 7\n'
hears 'lines up to a wait' 'ok\nfield 1\nfield 2\nasked\n'
sleep 0.2
: >go
hears 'the lines behind it' 'banner b\nanswered 1\nasked\nanswered 2\nrefused 2 NoField\n'
hang_up 'waits' '' '#2 b\n> y\ny\n#1 b\n> x\nx\n'

# An interpreter that dies idle is told then, without a line; and the next line starts the next one.
cat >p.sh <<'END_OF_CHILD'
printf '\002verbatim:\005'
IFS= read -r l
printf '\002verbatim:%s\005' "$l"
until [ -e gone ]; do sleep 0.05; done
END_OF_CHILD
rm -f gone
talk
say 'session a plain sh p.sh\nnew 0 a x\neval 1\n'
hears 'an answer' 'ok\nfield 1\nasked\nbanner a\nanswered 1\n'
: >gone
hears 'a death while idle' 'ended a Ended lost 0\n'
say 'eval 1\n'
hears 'the next life, and its death' 'asked\nbanner a\nanswered 1\nended a Ended lost 0\n'
say 'stop a\n'
hears 'there is nothing to stop' 'ok\n'
hang_up 'a death while idle' '' '#1 a\n> x\nx\n'

# One that closes its input, one that closes its output, and one that floods while idle: another one is answered beside them.
printf 'exec <&-\nprintf "\\002verbatim:\\005"\nexec sleep 20\n' >closes.sh
printf 'printf "\\002verbatim:\\005"\nread -r l\nexec >&-\nexec sleep 20\n' >ends.sh
printf 'printf "\\002verbatim:\\005"\nread -r l\nprintf "\\002verbatim:A\\005"\nwhile :; do printf "some noise, over and over"; done\n' >floods.sh
talk
say 'session a plain sh closes.sh\nsession b plain sh ends.sh\nsession c plain sh floods.sh\nsession d plain sh echo.sh\nnew 0 a w\nnew 1 b x\nnew 2 c y\nnew 3 d z\n'
hears 'four sessions' 'ok\nok\nok\nok\nfield 1\nfield 2\nfield 3\nfield 4\n'
say 'eval 1\n'
hears 'a closed input of a child' 'asked\nbanner a\nended a SendFault lost 1\n'
say 'eval 2\n'
hears 'a closed output of a child' 'asked\nbanner b\nended b Ended lost 1\n'
say 'eval 3\n'
hears 'the answer of the one that floods' 'asked\nbanner c\nanswered 3\n'
say 'eval 4\n'
hears 'an answer beside the flood' 'asked\nbanner d\nanswered 4\n'
say 'wait\neval 4\n'
hears 'a wait beside the flood' 'asked\nanswered 4\n'
say 'eval 3\n'
hears 'a line to the one that floods' 'asked\n'
say 'wait 1\n'
hears 'it stalls' 'ended c Stalled lost 1\n'
hang_up 'a flood' '' '#1 a\n> w\n? SendFault\n#2 b\n> x\n? Ended\n#3 c\n> y\n? Stalled\n#4 d\n> z\nz\n'

# One that answers and never reads: once its pipe is full a line is lost, and those behind it are taken.
printf 'printf "\\002verbatim:\\005"\nwhile sleep 0.01; do printf "\\002verbatim:A\\005"; done\n' >deaf.sh
{
    printf 'session a plain sh deaf.sh\nnew 0 a %4095s\n' x
    yes 'eval 1
wait' | head -n 40
    printf 'stop a\nnew 1 a y\n'
} >given
fresh
"$tmhost" live sheet <given >replies 2>&1
compare 'one that never reads' "$(sort -u replies)" \
    "$(printf 'answered 1\nasked\nbanner a\nended a SendFault lost 1\nended a Stopped lost 0\nfield 1\nfield 2\nok')"
compare 'one that never reads, at the end' "$(tail -n 1 replies)" 'field 2'

# Several lines that wait in one session.
interpreter p "$banner" '' ''
talk
say 'session a plain sh p.sh\nnew 0 a x\nnew 1 a y\neval 1\n'
hears 'the first of two lines' 'ok\nfield 1\nfield 2\nasked\nbanner a\n'
say 'eval 2\n'
hears 'the second of two lines' 'asked\n'
say 'wait 1\n'
hears 'two lines that stall' 'ended a Stalled lost 2\n'
hang_up 'two lines that stall' '' '#1 a\n> x\n? Stalled\n#2 a\n> y\n?\n'
sent 'two lines that stall' 'start \nsend x'

# What two interpreters wrote while the host stood still is one group: on a disk that has room for one answer, neither is told or kept.
cat >waits_and_answers.sh <<'END_OF_CHILD'
printf '\002verbatim:\005'
IFS= read -r l
echo "$l" >>got
until [ -e go ]; do sleep 0.05; done
printf '\002verbatim:%250s\005' "$l"
echo "$l" >>answered
IFS= read -r l
END_OF_CHILD
answers_together() {
    rm -f sheet sheet.alt go got answered talk.in
    mkfifo talk.in
    "$tmhost" create sheet
    printf 'session a plain sh waits_and_answers.sh\nsession b plain sh waits_and_answers.sh\nnew 0 a x\nnew 1 b y\n' >given
    "$tmhost" run sheet <given >text
    (
        trap '' XFSZ
        ulimit -f "$1"
        exec "$tmhost" live sheet <talk.in >text 2>&1
    ) &
    host=$!
    exec 3>talk.in
    say 'eval 1\neval 2\n'
    until [ "$(cat got 2>/dev/null | wc -l)" = 2 ]; do sleep 0.05; done
    sleep 0.1
    kill -STOP "$host"
    # It stands still a moment after the signal: a poll that had ended would name one of the two alone.
    until [ "$(cut -d ' ' -f 3 "/proc/$host/stat")" = T ]; do sleep 0.01; done
    : >go
    until [ "$(cat answered 2>/dev/null | wc -l)" = 2 ]; do sleep 0.05; done
    kill -CONT "$host"
    # What it tells is there while its input is open.
    for _ in $(seq 200); do
        [ "$(wc -l <text)" -lt "$2" ] || break
        sleep 0.05
    done
    heard=$(wc -l <text)
    exec 3>&-
    wait "$host"
}
answers_together 2 6
compare 'answers that came together are told before the next line' "$heard" 6
compare 'answers that came together' "$(sort text)" "$(printf 'answered 1\nanswered 2\nasked\nasked\nbanner a\nbanner b')"
answers_together 1 5
compare 'answers that came together, on a full disk' "$(sort text)" "$(printf 'asked\nasked\nbanner a\nbanner b\nfault 21 Disk')"
compare 'answers that came together, on a full disk, shown' "$(answer show sheet </dev/null)" "$(ending '#1 a\n> x\n?\n#2 b\n> y\n?\n' 0)"

# 64 sessions that stall at the end of one wait.
{
    seq 64 | sed 's/.*/session s& plain sh silent.sh/'
    seq 64 | sed 's/.*/new 0 s& x/'
    seq 64 | sed 's/.*/eval &/'
    echo 'wait 1'
} >given
rm -f lives
fresh
compare '64 sessions that stall' "$("$tmhost" live sheet <given 2>&1 | sort)" \
    "$({ seq 64 | sed 's/.*/ok/'; seq 64 | sed 's/.*/field &/'; seq 64 | sed 's/.*/asked/'; seq 64 | sed 's/.*/ended s& Stalled lost 1/'; } | sort)"
compare '64 sessions that stall, shown' "$(answer show sheet </dev/null)" "$(ending "$(seq 64 -1 1 | sed 's/.*/#& s&\\n> x\\n? Stalled\\n/' | tr -d '\n')" 0)"
ended '64 sessions that stall' 64

# An interrupt goes to the interpreter of its session where a line waits in it, and to no other. One that is made for it answers and
# keeps what it has; another ends.
cat >loops.py <<'END_OF_CHILD'
import signal, sys, time


def answer(text):
    sys.stdout.write("\2verbatim:" + text + "\5")
    sys.stdout.flush()


def interrupted(number, frame):
    raise KeyboardInterrupt


signal.signal(signal.SIGINT, interrupted if sys.argv[1] == "keeps" else signal.SIG_DFL)
lines = 0
answer("")
for line in sys.stdin:
    lines += 1
    if line == "loop\n":
        try:
            open("looping", "w").close()
            time.sleep(20)
        except KeyboardInterrupt:
            answer("interrupted")
            continue
    answer(f"line {lines}")
END_OF_CHILD
looping() {
    for n in $(seq 100); do [ -e looping ] && break; sleep 0.05; done
    rm -f looping
}
interrupts() {
    rm -f looping
    talk
    say 'session a plain python3 -I -S loops.py keeps\nsession b plain python3 -I -S loops.py ends\nnew 0 a loop\nnew 1 b loop\nnew 2 a x\ninterrupt a\ninterrupt c\n'
    hears "nothing to interrupt$1" 'ok\nok\nfield 1\nfield 2\nfield 3\nidle a\nrefused 1 NoSession\n'
    say 'eval 1\n'
    hears "a line that loops$1" 'asked\nbanner a\n'
    looping
    say 'interrupt b\ninterrupt a\n'
    hears "an interrupt$1" 'idle b\ninterrupted a\nanswered 1\n'
    say 'eval 3\n'
    hears "the line after it$1" 'asked\nanswered 3\n'
    say 'interrupt a\neval 2\n'
    hears "a line of another session$1" 'idle a\nasked\nbanner b\n'
    looping
    say 'interrupt b\n'
    hears "an interrupt that ends$1" 'interrupted b\nended b Ended lost 1\n'
    hang_up "interrupts$1" '' '#1 a\n> loop\ninterrupted\n#2 b\n> loop\n? Ended\n#3 a\n> x\nline 2\n'
}
interrupts ''
# The system keeps no status of a child where whoever starts the program ignores SIGCHLD.
launcher='env --ignore-signal=CHLD'
interrupts ', where SIGCHLD is ignored'
launcher=

# The end of the input while a line is evaluated.
interpreter p "$banner" '' ''
talk
say 'session a plain sh p.sh\nnew 0 a x\neval 1\n'
hears 'a line that is evaluated' 'ok\nfield 1\nasked\nbanner a\n'
hang_up 'the end while a line is evaluated' '' '#1 a\n> x\n?\n'
ended 'the end while a line is evaluated' 1

# Where nothing comes, `live` waits for it in one call of the system: it takes no time of a processor, and counts nothing that may come to an end.
interpreter p "$banner" '\002verbatim:A\005'
sleeps_of() {
    sleep "$1"
    sed -n 's/^voluntary_ctxt_switches:[^0-9]*//p' "/proc/$(cat "/proc/$host/task/$host/children" | tr -d ' ')/status"
}
talk
say 'session a plain sh p.sh\nnew 0 a x\neval 1\n'
hears 'before nothing comes' 'ok\nfield 1\nasked\nbanner a\nanswered 1\n'
before=$(sleeps_of 0.1)
after=$(sleeps_of 0.4)
compare 'nothing comes' "$([ $((after - before)) -le 1 ] && echo 'one sleep' || echo "$((after - before)) sleeps")" 'one sleep'
say 'print 1\n'
hears 'a line after nothing came' '#1 a\n> x\nA\n'
hang_up 'nothing comes' '' '#1 a\n> x\nA\n'

# What a wait of a script tells of its first session is there before its second one answers: that one answers once the first reply was
# seen, or says that it came late.
cat >sees.sh <<'END_OF_CHILD'
printf '\002verbatim:\005'
IFS= read -r l
for n in $(seq 100); do [ -e seen ] && break; sleep 0.05; done
if [ -e seen ]; then printf '\002verbatim:seen\005'; else printf '\002verbatim:late\005'; fi
read -r l
END_OF_CHILD
rm -f seen
fresh
printf 'session a plain sh echo.sh\nsession b plain sh sees.sh\nnew 0 a x\nnew 1 b y\neval 1\neval 2\nwait\n' >given
timeout 10 "$tmhost" run sheet <given >talk.told 2>errors &
host=$!
for n in $(seq 60); do
    grep -q '^answered 1$' talk.told && break
    sleep 0.05
done
grep -q '^answered 1$' talk.told && : >seen
wait $host
compare 'a run tells of the first session at once' "$? $(tail -n 2 talk.told | tr '\n' ' ')$(text_of errors)" '0 answered 1 answered 2 '
compare 'a run tells of the first session at once, shown' "$(answer show sheet </dev/null)" "$(ending '#1 a\n> x\nx\n#2 b\n> y\nseen\n' 0)"

# What lines that are taken together give is there before the next line is taken: this interpreter begins when it has read it.
cat >reads.sh <<'END_OF_CHILD'
said=late
for n in $(seq 100); do
    if grep -q '^field 3$' talk.told; then said=seen && break; fi
    sleep 0.05
done
printf '\002verbatim:\005'
IFS= read -r l
printf '\002verbatim:%s\005' "$said"
read -r l
END_OF_CHILD
for form in '' --strict; do
    fresh
    printf 'session a plain sh reads.sh\nnew 0 a x\neval 1\nnew 1 a y\nnew 2 a z\nwait\n' >given
    timeout 10 "$tmhost" run $form sheet <given >talk.told 2>errors
    compare "a run tells of lines that are taken together at once $form" "$? $(cat talk.told errors)" \
        "$(printf '0 ok\nfield 1\nasked\nfield 2\nfield 3\nbanner a\nanswered 1')"
    compare "a run tells of lines that are taken together at once $form, shown" "$(answer show sheet </dev/null)" \
        "$(ending '#1 a\n> x\nseen\n#2 a\n> y\n?\n#3 a\n> z\n?\n' 0)"
done

counted live
