# Commands that go together: the lines between `begin` and `end`, which are all taken or none.

# Transactions that are taken.
live 'a transaction of each command' 'begin\nsession a plain p\nnew 0 a x\nnew 1 a y\nset 1 z\nmove 2 0\nclear 1\nremove 1\nend\nprint\n' \
    'ok\nfield 1\nfield 2\nok\nok\nok\nok\n#2 a\n> y\n?\n' '#2 a\n> y\n?\n'
live 'a transaction of one command' 'begin\nsession a plain p\nend\nnew 0 a x\n' 'ok\nfield 1\n' '#1 a\n> x\n?\n'
live 'transactions one after another' 'begin\nsession a plain p\nend\nbegin\nnew 0 a x\nnew 1 a y\nend\n# a remark\nbegin\nset 2 z\nend' 'ok\nfield 1\nfield 2\nok\n' '#1 a\n> x\n?\n#2 a\n> z\n?\n'
live 'a field that the transaction makes' 'session a plain p\nbegin\nnew 0 a x\nset 1 y\nnew 1 a z\nmove 1 2\nend\nprint 1\n' 'ok\nfield 1\nok\nfield 2\nok\n#1 a\n> y\n?\n' '#2 a\n> z\n?\n#1 a\n> y\n?\n'
live 'carriage returns in a transaction' 'begin\r\nsession a plain p\r\nend\r\nprint\r\n' 'ok\n' ''
live 'transactions without a command' 'begin\nend\nbegin\nend\nprint' '' ''
script 'a transaction of a script' 'session a plain p\nbegin\nnew 0 a x\nnew 1 a y\nend\nprint 2\n' 'ok\nfield 1\nfield 2\n#2 a\n> y\n?\n' '#1 a\n> x\n?\n#2 a\n> y\n?\n'
{
    printf 'session a plain p\nbegin\n'
    for id in $(seq 0 1023); do echo "new $id a x"; done
    printf 'end\nremove 1025\n'
} >given
"$tmhost" create longest
compare 'a transaction of 1,024 commands' "$(answer live longest <given)" "$(echo ok; for id in $(seq 1024); do echo "field $id"; done; ending 'refused 2 NoField\n' 0)"
compare 'a transaction of 1,024 commands, shown' "$("$tmhost" show longest | grep -c '^> x$')" 1024

# One is refused: none is done.
live 'a refusal in a transaction' 'session a plain p\nnew 0 a x\nbegin\nset 1 y\nset 2 z\nremove 1\nset 3 z\nend\nprint\n' 'ok\nfield 1\nrefused 2 NoField\nundone 3 8\n#1 a\n> x\n?\n' '#1 a\n> x\n?\n'
live 'a refusal at the beginning of a transaction' 'begin\nnew 0 a x\nsession a plain p\nnew 0 a x\nend\n' 'refused 1 NoSession\nundone 1 5\n' ''
live 'a refusal at the end of a transaction' 'begin\nsession a plain p\nnew 0 a x\nnew 1 a \377\nend\nsession a plain q\n' 'refused 7 BadInput\nundone 1 5\nok\n' ''
live 'numbers that a transaction would have given' 'session a plain p\nbegin\nnew 0 a x\nnew 1 a y\nremove 7\nend\nnew 0 a z\n' 'ok\nrefused 2 NoField\nundone 2 6\nfield 1\n' '#1 a\n> z\n?\n'
live 'a field that a transaction removes' 'session a plain p\nnew 0 a x\nbegin\nremove 1\nset 1 y\nend\nset 1 z\n' 'ok\nfield 1\nrefused 2 NoField\nundone 3 6\nok\n' '#1 a\n> z\n?\n'
live 'a refusal, and a transaction after it' 'session a plain p\nbegin\nnew 1 a x\nend\nbegin\nnew 0 a x\nend\n' 'ok\nrefused 2 NoField\nundone 2 4\nfield 1\n' '#1 a\n> x\n?\n'
script 'a refusal in a transaction of a script' 'session a plain p\nbegin\nnew 0 a x\nset 7 y\nend\nprint\n' 'ok\nrefused 2 NoField\nundone 2 5\n' ''

# Lines that can't stand in a transaction.
live 'bad lines in a transaction' 'session a plain p\nbegin\nnew 0 a x\nfoo\nnew 0 a y\nbar\nset 7 z\nend\nnew 0 a z\n' 'ok\nbad line 4\nundone 2 8\nfield 1\n' '#1 a\n> z\n?\n'
for line in 'eval 1' 'complete 1 0' 'complete 1 0 x' 'stop a' checkpoint wait 'wait 1' print 'print 1' 'interrupt a' 'export script' begin 'begin ' 'end ' '# a remark' '' ' '; do
    live "in a transaction: $line" "session a plain p\\nbegin\\nnew 0 a x\\n$line\\nnew 1 a y\\nend\\nprint\\n" 'ok\nbad line 4\nundone 2 6\n' ''
done
live 'a transaction with a bad line alone' 'begin\nfoo\nend\nend\n' 'bad line 2\nundone 1 3\nbad line 4\n' ''
live 'a transaction after a bad one' 'begin\nbegin\nend\nbegin\nsession a plain p\nend\nnew 0 a x\n' 'bad line 2\nundone 1 3\nok\nfield 1\n' '#1 a\n> x\n?\n'
{
    printf 'begin\nsession a plain p\n#'
    repeated 65536 x
    printf '\nend\nsession a plain p\n'
} >given
lives 'a line in a transaction that is too long' 'bad line 3\nundone 1 4\nok\n' '' <given
{
    printf 'begin\nsession a plain p\n'
    for id in $(seq 0 1023); do echo "new $id a x"; done
    printf 'end\nsession a plain p\n'
} >given
lives 'a transaction of 1,025 commands' 'bad line 1026\nundone 1 1027\nok\n' '' <given
rm given longest longest.alt

# Ends.
live 'an end without a transaction' 'end\nbegin\nend\nend\n' 'bad line 1\nbad line 4\n' ''
live 'lines that are like these' 'begin \nbegin 1\nend \nend 1\nBegin\nEND\nbegins\nends\n begin\n' "$(printf 'bad line %s\\n' $(seq 9))" ''
live 'an input that ends in a transaction' 'session a plain p\nbegin\nnew 0 a x\n' 'ok\nundone 2 3\n' ''
live 'an input that ends in a line of a transaction' 'session a plain p\nbegin\nnew 0 a x\nnew 1 a y' 'ok\nundone 2 4\n' ''
live 'an input that ends behind begin' 'begin' 'undone 1 1\n' ''
live 'an input that ends in a transaction with a bad line' 'begin\nfoo\nsession a plain p\n' 'bad line 2\nundone 1 3\n' ''
script 'a script that ends in a transaction' 'session a plain p\nbegin\nnew 0 a x\n' 'ok\nundone 2 3\n' ''
script 'a script with an end alone' 'session a plain p\nend\nprint\n' 'ok\nbad line 2\n' ''

# Strict.
strict 'a transaction, strictly' 'session a plain p\nbegin\nnew 0 a x\nnew 1 a y\nend\nbegin\nend\nprint 2\n' 0 'ok\nfield 1\nfield 2\n#2 a\n> y\n?\n' '#1 a\n> x\n?\n#2 a\n> y\n?\n'
strict 'a bad line in a transaction, strictly' 'session a plain p\nbegin\nnew 0 a x\nfoo\nend\nnew 0 a y\n' 3 'ok\nbad line 4\nstopped at line 4\n' ''
strict 'a refusal in a transaction, strictly' 'session a plain p\nbegin\nnew 0 a x\nset 7 y\nremove 1\nend\nnew 0 a z\n' 3 'ok\nrefused 2 NoField\nundone 2 6\nstopped at line 6\n' ''
strict 'a script that ends in a transaction, strictly' 'session a plain p\nbegin\nnew 0 a x\n' 3 'ok\nundone 2 3\nstopped at line 3\n' ''
strict 'an end alone, strictly' 'session a plain p\nend\nnew 0 a x\n' 3 'ok\nbad line 2\nstopped at line 2\n' ''

# An interpreter is heard between the lines of a transaction.
cat >p.sh <<'END_OF_CHILD'
until [ -e go ]; do sleep 0.05; done
printf '\002verbatim:\005'
while IFS= read -r l; do printf '\002verbatim:%s\005' "$l"; done
END_OF_CHILD
rm -f go
talk
say 'session a plain sh p.sh\nnew 0 a x\neval 1\n'
hears 'a line that waits' 'ok\nfield 1\nasked\n'
say 'begin\nset 1 y\nend\n'
hears 'a field in a transaction that waits' 'refused 3 InFlight\nundone 4 6\n'
say 'begin\nnew 1 a y\n'
sleep 0.2
: >go
hears 'an answer in a transaction' 'banner a\nanswered 1\n'
say 'set 1 z\n'
say 'move 1 2\nend\n'
hears 'the transaction' 'field 2\nok\nok\n'
say 'eval 2\n'
hears 'a line behind it' 'asked\nanswered 2\n'
say 'begin\nclear 2\n'
hang_up 'a transaction beside an interpreter' 'undone 13 14\n' '#2 a\n> y\ny\n#1 a\n> z\n?\n'

# A wait before a transaction holds it back.
rm -f go
talk
say 'session a plain sh p.sh\nnew 0 a x\neval 1\nwait\nbegin\nset 1 y\nend\nprint\n'
hears 'a transaction behind a wait' 'ok\nfield 1\nasked\n'
sleep 0.2
: >go
hears 'the transaction after the wait' 'banner a\nanswered 1\nok\n#1 a\n> y\n?\n'
hang_up 'a transaction behind a wait' '' '#1 a\n> y\n?\n'

# The host is killed in a transaction, and behind one: NAME LINES TEXT SHEET, behind a session and a field.
killed() {
    rm -f sheet sheet.alt talk.in talk.out
    mkfifo talk.in talk.out
    "$tmhost" create sheet
    "$tmhost" live sheet <talk.in >talk.out 2>talk.errors &
    host=$!
    exec 3>talk.in 4<talk.out
    say 'session a plain p\nnew 0 a x\n'
    hears "before $1" 'ok\nfield 1\n'
    say "$2"
    hears "$1" "$3"
    sleep 0.2
    { kill -9 "$host"; wait "$host"; } 2>/dev/null
    exec 3>&- 4<&-
    compare "$1, shown" "$(answer show sheet </dev/null)" "$(ending "$4" 0)"
}
killed 'a kill in a transaction' 'begin\nset 1 y\nnew 1 a z\n' '' '#1 a\n> x\n?\n'
killed 'a kill behind a transaction' 'begin\nset 1 y\nnew 1 a z\nend\n' 'ok\nfield 2\n' '#1 a\n> y\n?\n#2 a\n> z\n?\n'
killed 'a kill behind a transaction that is undone' 'begin\nset 1 y\nremove 2\nend\n' 'refused 2 NoField\nundone 3 6\n' '#1 a\n> x\n?\n'

# In JSON.
json 'transactions' 0 'begin\nsession a plain p\nnew 0 a x\nset 1 y\nend\nbegin\nset 1 z\nset 7 z\nset 1 w\nend\nbegin\nset 1 z\nfoo\nset 1 w\nend\nend\nbegin\nend\nprint 1\nbegin\nset 1 v' <<'END_OF_JSON'
{"format":1,"program":"tmhost","protocol":2,"type":"hello","version":"0.1.0"}
{"line":1,"type":"nothing"}
{"line":2,"type":"done"}
{"id":1,"line":3,"type":"made"}
{"line":4,"type":"done"}
{"line":5,"type":"nothing"}
{"line":6,"type":"nothing"}
{"line":8,"name":"NoField","number":2,"type":"refused"}
{"from":6,"line":10,"type":"undone"}
{"line":11,"type":"nothing"}
{"line":13,"type":"bad"}
{"from":11,"line":15,"type":"undone"}
{"line":16,"type":"bad"}
{"line":17,"type":"nothing"}
{"line":18,"type":"nothing"}
{"field":{"id":1,"input":"y","session":"a","state":"empty"},"line":19,"type":"field"}
{"line":20,"type":"nothing"}
{"from":20,"line":21,"type":"undone"}
{"type":"end"}
END_OF_JSON
json 'an input that ends behind begin' 0 'begin' <<'END_OF_JSON'
{"format":1,"program":"tmhost","protocol":2,"type":"hello","version":"0.1.0"}
{"line":1,"type":"nothing"}
{"from":1,"line":1,"type":"undone"}
{"type":"end"}
END_OF_JSON
told_in_json run 'transactions of run' 0 'begin\nsession a plain p\nnew 0 a x\nend\nbegin\nset 7 x\nend\n' <<'END_OF_JSON'
{"format":1,"program":"tmhost","protocol":2,"type":"hello","version":"0.1.0"}
{"line":1,"type":"nothing"}
{"line":2,"type":"done"}
{"id":1,"line":3,"type":"made"}
{"line":4,"type":"nothing"}
{"line":5,"type":"nothing"}
{"line":6,"name":"NoField","number":2,"type":"refused"}
{"from":5,"line":7,"type":"undone"}
{"type":"end"}
END_OF_JSON

counted 'commands that go together'
