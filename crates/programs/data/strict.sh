# Strict runs: `run --strict` stops after the first line that is bad or refused, or by which lines or requests were lost.

# No line goes wrong: the text is that of `run`.
strict 'an empty script' '' 0 '' ''
strict 'lines that say nothing' '# a remark\n\n\r\nprint\n' 0 '' ''
script 'each line right, not strict' 'session a plain sh p.sh\nnew 0 a x\nprint\nset 1 y\n' 'ok\nfield 1\n#1 a\n> x\n?\nok\n' '#1 a\n> y\n?\n'
strict 'each line right' 'session a plain sh p.sh\nnew 0 a x\nprint\nset 1 y\n' 0 'ok\nfield 1\n#1 a\n> x\n?\nok\n' '#1 a\n> y\n?\n'
interpreter p "$banner" '\002verbatim:A\005' '\002verbatim:B\005'
strict 'two answers' "$two"'print\n' 0 'ok\nfield 1\nfield 2\nasked\nasked\nbanner a\nanswered 1\nanswered 2\n#1 a\n> x\nA\n#2 a\n> y\nB\n' '#1 a\n> x\nA\n#2 a\n> y\nB\n'
ended 'two answers' 1
then=''
interpreter p "$banner" '\002verbatim:A\005'
then='read -r line'
strict 'an interpreter that ends behind its answer' "$one"'wait\nset 1 y\n' 0 'ok\nfield 1\nasked\nbanner a\nanswered 1\nok\n' '#1 a\n> y\n?\n'
interpreter p "$banner" '\002verbatim:A\005'
strict 'a stop by which nothing is lost' "$one"'stop a\nset 1 y\n' 0 'ok\nfield 1\nasked\nbanner a\nanswered 1\nended a Stopped lost 0\nok\n' '#1 a\n> y\n?\n'
interpreter p "$banner" '\002verbatim:A\005'
strict 'a line that waits at the end' 'session a plain sh p.sh\nnew 0 a x\neval 1\n' 0 'ok\nfield 1\nasked\n' '#1 a\n> x\n?\n'
interpreter p "$banner" '\002verbatim:A\005'
strict 'an answer without completions' 'session a tab sh p.sh\nnew 0 a x\ncomplete 1 1\nwait\nset 1 y\n' 0 'ok\nfield 1\nasked\nbanner a\ncompleted 1 bad\nok\n' '#1 a\n> y\n?\n'

# A bad line.
strict 'a bad line' 'session a plain p\nfoo\nnew 0 a x\n' 3 'ok\nbad line 2\nstopped at line 2\n' ''
strict 'a bad line at the beginning' 'set\nsession a plain p\n' 3 'bad line 1\nstopped at line 1\n' ''
strict 'a bad line at the end' 'session a plain p\nnew 0 a x\nremove 1 ' 3 'ok\nfield 1\nbad line 3\nstopped at line 3\n' '#1 a\n> x\n?\n'
strict 'a bad line behind remarks' '#\n\n#\nwait 0\nprint\n' 3 'bad line 4\nstopped at line 4\n' ''
script 'the same, not strict' '#\n\n#\nwait 0\nprint\n' 'bad line 4\n' ''

{
    yes '#' | head -n 100000
    printf 'foo\nsession a plain p\n'
} >given
strictly 'a bad line behind 100,000 lines' 3 'bad line 100001\nstopped at line 100001\n' '' <given

# A command that is refused.
strict 'a refusal' 'session a plain p\nnew 0 a x\nremove 7\nremove 1\n' 3 'ok\nfield 1\nrefused 2 NoField\nstopped at line 3\n' '#1 a\n> x\n?\n'
script 'the same refusal, not strict' 'session a plain p\nnew 0 a x\nremove 7\nremove 1\n' 'ok\nfield 1\nrefused 2 NoField\nok\n' ''
strict 'a session that is there' 'session a plain p\nsession a plain p\nnew 0 a x\n' 3 'ok\nrefused 4 SessionExists\nstopped at line 2\n' ''
strict 'an eval of no field' 'eval 1\nwait\n' 3 'refused 2 NoField\nstopped at line 1\n' ''
interpreter p "$banner" '\002verbatim:A\005'
strict 'a refusal while a line waits' 'session a plain sh p.sh\nnew 0 a x\neval 1\neval 1\nwait\n' 3 'ok\nfield 1\nasked\nrefused 3 InFlight\nstopped at line 4\n' '#1 a\n> x\n?\n'

# Lines that were lost.
interpreter p "$banner"
strict 'an interpreter that ends' "$one"'set 1 y\n' 3 'ok\nfield 1\nasked\nbanner a\nended a Ended lost 1\nstopped at line 4\n' '#1 a\n> x\n? Ended\n'
interpreter p "$banner"
script 'the same end, not strict' "$one"'set 1 y\n' 'ok\nfield 1\nasked\nbanner a\nended a Ended lost 1\nok\n' '#1 a\n> y\n?\n'
strict 'an interpreter that cannot be started' 'session a plain ./nothing\nnew 0 a x\neval 1\nset 1 y\n' 3 'ok\nfield 1\nasked\nended a StartRefused lost 1\nstopped at line 3\n' '#1 a\n> x\n? StartRefused\n'
interpreter p "$banner" '\002verbatim:A\005'
strict 'a stop by which a line is lost' 'session a plain sh p.sh\nnew 0 a x\neval 1\nstop a\nset 1 y\n' 3 'ok\nfield 1\nasked\nended a Stopped lost 1\nstopped at line 4\n' '#1 a\n> x\n? Stopped\n'
interpreter p "$banner" '\002verbatim:A\005\002x'
strict 'a line that is lost behind an answer' "$two"'set 1 z\n' 3 'ok\nfield 1\nfield 2\nasked\nasked\nbanner a\nanswered 1\nended a Ended lost 1\nstopped at line 6\n' \
    '#1 a\n> x\nA\n#2 a\n> y\n? Ended\n'
interpreter p "$banner"
cat >q.sh <<'END_OF_CHILD'
printf '\002verbatim:\005'
read -r line
sleep 0.3
printf '\002verbatim:B\005'
END_OF_CHILD
strict 'the other session is waited for' 'session a plain sh p.sh\nsession b plain sh q.sh\nnew 0 a x\nnew 1 b y\neval 1\neval 2\nwait\nset 1 z\n' 3 \
    "$(printf 'ok\nok\nfield 1\nfield 2\nasked\nasked\nbanner a\nbanner b\nended a Ended lost 1\nanswered 2\nstopped at line 7\\n')" '#1 a\n> x\n? Ended\n#2 b\n> y\nB\n'
interpreter p "$banner"
strict 'a request that is lost' 'session a tab sh p.sh\nnew 0 a x\ncomplete 1 1\nwait\nset 1 y\n' 3 'ok\nfield 1\nasked\nbanner a\nended a Ended lost 1\nstopped at line 4\n' '#1 a\n> x\n?\n'

# The same within a limit of time, whose lines are those of `live`: NAME SCRIPT STATUS TEXT SHEET.
by_lines() {
    printf "$2" >given
    fresh
    compare "$1, within a time" "$(answer run --strict --timeout 60 sheet <given)" "$(ending "$4" "$3")"
    compare "$1, within a time, shown" "$(answer show sheet </dev/null)" "$(ending "$5" 0)"
}
by_lines 'each line right' 'session a plain p\nnew 0 a x\nprint\nwait 1\nset 1 y\n' 0 'ok\nfield 1\n#1 a\n> x\n?\nok\n' '#1 a\n> y\n?\n'
by_lines 'a bad line' 'session a plain p\nfoo\nnew 0 a x\n' 3 'ok\nbad line 2\nstopped at line 2\n' ''
by_lines 'a refusal' 'session a plain p\nnew 0 a x\nremove 7\nremove 1\n' 3 'ok\nfield 1\nrefused 2 NoField\nstopped at line 3\n' '#1 a\n> x\n?\n'
by_lines 'a print of no field' 'session a plain p\nnew 0 a x\nprint 1\nprint 2\nset 1 y\n' 3 'ok\nfield 1\n#1 a\n> x\n?\nrefused 2 NoField\nstopped at line 4\n' '#1 a\n> x\n?\n'
by_lines 'an interrupt of no session' 'interrupt b\nsession b plain p\n' 3 'refused 1 NoSession\nstopped at line 1\n' ''
interpreter p "$banner"
by_lines 'an interpreter that ends' "$one"'set 1 y\n' 3 'ok\nfield 1\nasked\nbanner a\nended a Ended lost 1\nstopped at line 4\n' '#1 a\n> x\n? Ended\n'
interpreter p "$banner" '\002verbatim:A\005'
by_lines 'a stop by which a line is lost' 'session a plain sh p.sh\nnew 0 a x\neval 1\nstop a\nset 1 y\n' 3 'ok\nfield 1\nasked\nended a Stopped lost 1\nstopped at line 4\n' '#1 a\n> x\n? Stopped\n'

# Scripts with lines of `live`, which are taken so without a limit, too.
strict 'a print of a field, and of none' 'session a plain p\nnew 0 a x\nprint 1\nprint 2\nset 1 y\n' 3 'ok\nfield 1\n#1 a\n> x\n?\nrefused 2 NoField\nstopped at line 4\n' '#1 a\n> x\n?\n'
strict 'a script that interrupts no session' 'session b plain p\ninterrupt b\ninterrupt a\nprint\n' 3 'ok\nidle b\nrefused 1 NoSession\nstopped at line 3\n' ''
strict 'a bad line before a line of live' 'session a plain p\nfoo\nprint 1\n' 3 'ok\nbad line 2\nstopped at line 2\n' ''
strict 'a refusal before a line of live' 'session a plain p\nnew 0 a x\nremove 7\nremove 1\nprint 1\n' 3 'ok\nfield 1\nrefused 2 NoField\nstopped at line 3\n' '#1 a\n> x\n?\n'
interpreter p "$banner" '\002verbatim:A\005'
strict 'a wait of seconds that ends with the answer' 'session a plain sh p.sh\nnew 0 a x\neval 1\nwait 1000000\nset 1 y\n' 0 'ok\nfield 1\nasked\nbanner a\nanswered 1\nok\n' '#1 a\n> y\n?\n'
interpreter p "$banner" '' ''
strict 'a wait of seconds whose time is over' 'session a plain sh p.sh\nnew 0 a x\neval 1\nwait 1\nset 1 y\n' 3 'ok\nfield 1\nasked\nbanner a\nended a Stalled lost 1\nstopped at line 4\n' '#1 a\n> x\n? Stalled\n'
ended 'a wait of seconds whose time is over' 1

# A time that is over is wrong. It takes a second, the shortest time.
cat >q.sh <<'END_OF_CHILD'
printf '\002verbatim:\005'
read -r line
exec sleep 60
END_OF_CHILD
fresh
printf 'session a plain sh q.sh\nnew 0 a x\neval 1\nwait\nset 1 y\n' >given
compare 'a time that is over' "$(answer run --strict --timeout 1 sheet <given)" \
    "$(ending 'ok\nfield 1\nasked\nbanner a\ninterrupted a\nstopped at line 4\n' 3)"
fresh
printf 'session a plain p\nfoo\nnew 0 a x\n' >given
cat >wanted <<'END_OF_JSON'
{"format":1,"program":"tmhost","protocol":2,"type":"hello","version":"0.1.0"}
{"line":1,"type":"done"}
{"line":2,"type":"bad"}
{"type":"end"}
stopped at line 2
status 3
END_OF_JSON
compare 'a bad line, as JSON' "$(answer run --strict --json sheet <given)" "$(cat wanted)"

# Words, faults, and what is reported where standard error takes nothing.
fresh
printf 'foo\n' >given
compare 'the flag behind the path' "$(answer run sheet --strict <given)" "$(printf 'bad line 1\nstopped at line 1\nstatus 3')"
"$tmhost" run --strict sheet <given >text 2>/dev/full
compare 'errors that are full' "$? $(cat text)" '3 bad line 1'
"$tmhost" run --strict sheet <given >/dev/full 2>errors
compare 'an output that is full' "$? $(text_of errors)" '1 fault 42 Output'
words 'no worksheet to run strictly' 1 'fault 32 Disk\n' run --strict nowhere
"$tmhost" run --strict sheet <&- >text 2>errors
compare 'no input' "$? $(text_of text; text_of errors)" '1 fault 40 Input'
rm -f given q.sh sent lives

counted strict
