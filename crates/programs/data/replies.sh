# Lines of scripts and what they give, and worksheets in print: over files, and over a worksheet in memory (`in memory`).

# Lines of no form. Each has a number of its own.
cat >given <<'END_OF_LINES'
foo
 print
print 
wait 
checkpoint 
checkpoint 1
session
session 
session a
session a 
session a tabs p
new 0
new x a
set
set 
set x y
remove
remove 
remove 1 
remove 01
remove +1
remove 4294967296
remove 10000000000
move 1
move 1  2
move 1 2 
clear -1
eval 1 2
complete
complete 1
complete 1 
complete x 1
complete 1 x
complete 1  1
complete 1 01 x
complete 1 01
complete 1 4294967296
stop
END_OF_LINES
printf 'wait\r\r\n\r\r\n\357\273\277print\n' >>given
runs 'lines of no form' "$(printf 'bad line %s\\n' $(seq 41))" '' <given
remembers 'lines of no form in memory' "$(printf 'bad line %s\\n' $(seq 41))" <given
script 'a carriage return at the end of the script' '\r' 'bad line 1\n' ''

# Names and texts may be empty.
script 'empty names and texts' \
    'new 0 \nnew 0  x\nsession a tab\nsession a tab \nsession  tab p\nsession a tab pq  r\nsession a tab p\nnew 0 a\nnew 0 a \nnew 0 a  x\nnew 0 a  x \377\nstop \nset 1\nset 1 \nremove 0\neval 4294967295\ncomplete 0 4294967295\ncomplete 1 0\n# x\n\nprint' \
    'refused 1 NoSession\nrefused 1 NoSession\nrefused 6 BadWords\nrefused 6 BadWords\nrefused 5 BadName\nrefused 6 BadWords\nok\nfield 1\nfield 2\nfield 3\nrefused 7 BadInput\nrefused 1 NoSession\nok\nok\nrefused 2 NoField\nrefused 2 NoField\nrefused 2 NoField\nasked\nended a StartRefused lost 1\n#3 a\n>  x\n?\n#2 a\n> \n?\n#1 a\n> \n?\n' \
    '#3 a\n>  x\n?\n#2 a\n> \n?\n#1 a\n> \n?\n'

both 'a removed number is not given out again' 'session a plain p\nnew 0 a x\nremove 1\nnew 0 a y\nmove 2 2\nnew 1 a z\n' \
    'ok\nfield 1\nok\nfield 2\nrefused 8 SamePlace\nrefused 2 NoField\n' '#2 a\n> y\n?\n'
both 'bad lines by number' 'foo\n\n# x\nremove 01\nsession a/b plain p\nsession a plain' \
    'bad line 1\nbad line 4\nrefused 5 BadName\nrefused 6 BadWords\n' ''
both 'fields move and lose their input' \
    'print\nsession a plain p\nnew 0 a x\nnew 1 a y\nnew 2 a z\nmove 3 0\nmove 3 0\nset 1\nclear 2\nprint\n' \
    'ok\nfield 1\nfield 2\nfield 3\nok\nrefused 8 SamePlace\nok\nok\n#3 a\n> z\n?\n#1 a\n> \n?\n#2 a\n> y\n?\n' \
    '#3 a\n> z\n?\n#1 a\n> \n?\n#2 a\n> y\n?\n'
both 'carriage returns before line feeds go' \
    'session a plain p\r\n\r\nnew 0 a x\r\nnew 0 a y\r\r\nsession b plain p\r\r\nprint\r' \
    'ok\nfield 1\nrefused 7 BadInput\nrefused 6 BadWords\nbad line 6\n' '#1 a\n> x\n?\n'
both 'inputs and names are refused in order' \
    'session a plain p\nnew 0 a \020\nnew 0 a \377\nnew 9 a \020\nnew 9 b x\nnew 0 \nsession a plain \nremove 0\nset 1 \020\nclear 4294967295\nnew 0 a \t\nprint\n' \
    'ok\nrefused 7 BadInput\nrefused 7 BadInput\nrefused 2 NoField\nrefused 1 NoSession\nrefused 1 NoSession\nrefused 4 SessionExists\nrefused 2 NoField\nrefused 2 NoField\nrefused 2 NoField\nfield 1\n#1 a\n> \\x09\n?\n' \
    '#1 a\n> \\x09\n?\n'
memory 'what wants an interpreter or a disk, in memory' 'wait\nstop a\neval 1\ncomplete 1 1\ncomplete 1 1 x\ncheckpoint\n' 'bad line 1\nbad line 2\nbad line 3\nbad line 4\nbad line 5\nbad line 6\n'
memory 'a carriage return at the end in memory' '\r' 'bad line 1\n'

# How long the file is after each op: 11, and 5 and the payload's length for each.
script 'ops and their lengths' 'session a plain sh\nnew 0 a x\n' 'ok\nfield 1\n' '#1 a\n> x\n?\n'
compare 'a session and a field' "$(wc -c <sheet)" 40
compare 'their bytes' "$(bytes sheet)" 544d57534845455401415200000009010161000100027368520000000a0200000000016100017800
then_runs 'a clearing' 'clear 1\n' 'ok\n' '#1 a\n> x\n?\n'
compare 'its length' "$(wc -c <sheet)" 50
then_runs 'a second field' 'new 0 a y\n' 'field 2\n' '#2 a\n> y\n?\n#1 a\n> x\n?\n'
compare 'its length' "$(wc -c <sheet)" 65
then_runs 'a move' 'move 1 0\n' 'ok\n' '#1 a\n> x\n?\n#2 a\n> y\n?\n'
compare 'its length' "$(wc -c <sheet)" 79
then_runs 'an input' 'set 2 z\n' 'ok\n' '#1 a\n> x\n?\n#2 a\n> z\n?\n'
compare 'its length' "$(wc -c <sheet)" 92
then_runs 'a removal' 'remove 2\n' 'ok\n' '#1 a\n> x\n?\n'
compare 'its length' "$(wc -c <sheet)" 102
compare 'the second file' "$(wc -c <sheet.alt)" 0

# The worked example of docs/trust/FORMAT.md, by its events. Its interpreter is called `sh`, so one of that name is found first.
printf '#!/bin/sh\nexec /bin/sh p.sh\n' >sh
chmod +x sh
path=$PATH
PATH=.:$PATH
worked='session a plain sh\nnew 0 a x\neval 1\nwait\n'
front=544d57534845455401415200000009010161000100027368520000000a0200000000016100017852000000050600000001
interpreter p "$banner" '\002verbatim:A\005'
script 'the worked example' "$worked" 'ok\nfield 1\nasked\nbanner a\nanswered 1\n' '#1 a\n> x\nA\n'
compare 'its bytes' "$(bytes sheet)" "$front"'5200000015070000000100023e2002766572626174696d3a410500'
interpreter p "$banner" '\002verbatim:\033\002\033\005\033\033\033[\005'
script 'an output with escapes' "$worked" 'ok\nfield 1\nasked\nbanner a\nanswered 1\n' '#1 a\n> x\n\\x02\\x05\\x1b\\x1b[\n'
compare 'its canonical spelling' "$(bytes sheet)" \
    "$front"'520000001d070000000100023e2002766572626174696d3a1b021b051b1b1b1b5b0500'
then=exit
interpreter p "$banner" '\002verbatim:hal'
script 'a lost line' "$worked" 'ok\nfield 1\nasked\nbanner a\nended a Ended lost 1\n' '#1 a\n> x\n? Ended\n'
compare 'its reason' "$(bytes sheet)" "$front"'520000000608000000010200'
then='read -r line'
PATH=$path
rm sh
script 'a start that is refused' 'session a plain ./no\nnew 0 a x\neval 1\n' 'ok\nfield 1\nasked\nended a StartRefused lost 1\n' \
    '#1 a\n> x\n? StartRefused\n'
compare 'its length' "$(wc -c <sheet)" 63

# Worksheets in print: prompts, outputs and the ends of lines. A record of an answer: NUMBER, length of the payload, prompt with its
# length before it, and output.
sheet_front='TMWSHEET\001AR\000\000\000\010\001\001a\000\001\000\001p'
field() {
    printf 'R\\000\\000\\000\\012\\002\\000\\000\\000\\%03o\\001a\\000\\001%s' "$1" "$2"
}
fields=$(field 0 x)$(field 1 y)$(field 2 z)
first='R\000\000\000\023\007\000\000\000\001\000\001a\002verbatim:\005'
second='R\000\000\000\026\007\000\000\000\002\000\000\002verbatim:1\n2\n\005'
third='R\000\000\000\027\007\000\000\000\003\000\003\t> \002verbatim:\r3\005'
area 'outputs end their lines' "$sheet_front$fields$first$second$third"'\000' 0 '#1 a\nax\n\n#2 a\ny\n1\n2\n#3 a\n\\x09> z\n\\x0d3\n'
answered='R\000\000\000\025\007\000\000\000\001\000\002> \002verbatim:A\005'
moved='R\000\000\000\011\005\000\000\000\003\000\000\000\000'
area 'a moved field is printed first' "$sheet_front$fields$answered$moved"'\000' 0 '#3 a\n> z\n?\n#1 a\n> x\nA\n#2 a\n> y\n?\n'
area 'an input that is empty' "$sheet_front$fields$answered$moved"'R\000\000\000\007\003\000\000\000\001\000\000\000' 0 \
    '#3 a\n> z\n?\n#1 a\n> \n?\n#2 a\n> y\n?\n'
block='R\000\000\000\043\007\000\000\000\001\000\002> \002verbatim:\002prompt#a\tb\177\n\005"\005'
area 'a block in an output' "$sheet_front$fields$block"'\000' 0 '#1 a\n> x\n{prompt#a\tb\\x7f\n}"\n#2 a\n> y\n?\n#3 a\n> z\n?\n'
{
    printf "$sheet_front$fields"'R\000\000\074\074\007\000\000\000\001\000\002> \002verbatim:'
    for i in $(seq 700); do printf 'a\n\002latex:b\002prompt#c\005d\005'; done
    printf '\005\000'
} >area
shows 'an output of 1,400 texts and blocks' 0 "#1 a\n> x\n$(for i in $(seq 700); do printf '%s' 'a\n{latex:b{prompt#c}d}'; done)\n#2 a\n> y\n?\n#3 a\n> z\n?\n"

counted replies
