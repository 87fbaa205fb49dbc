# Requests of completions, what is sent for them, and what is reported of their answers.

tab='session t tab sh p.sh\nnew 0 t h\n'
interpreter p "$banner" '\002scheme:(tuple "h" "ello" "i there" "ola" "opsakee")\005' '\002scheme:""\005' '\002scheme:\005' \
    '\002scheme:(tuple)\005' '\002scheme:(tuple 3)\005'
script 'a request and its answers' "$tab"'complete 1 1\ncomplete 1 1\ncomplete 1 1\ncomplete 1 1\ncomplete 1 1\nwait\nprint\n' \
    'ok\nfield 1\nasked\nasked\nasked\nasked\nasked\nbanner t\ncompleted 1 "h" "ello" "i there" "ola" "opsakee"\ncompleted 1 ""\ncompleted 1 ""\ncompleted 1 ""\ncompleted 1 bad\n#1 t\n> h\n?\n' \
    '#1 t\n> h\n?\n'
sent 'a request and its answers' \
    'start \nsend \020(complete "h" 1)\nsend \020(complete "h" 1)\nsend \020(complete "h" 1)\nsend \020(complete "h" 1)\nsend \020(complete "h" 1)'

interpreter p "$banner" '\002scheme:(tuple "a\\"b\\\\c\n\177" "" "\\\\\\"\t")\005'
script 'completions stand between quotes' "$tab"'complete 1 1\nwait\n' \
    'ok\nfield 1\nasked\nbanner t\ncompleted 1 "a\\"b\\\\c\\x0a\\x7f" "" "\\\\\\"\\x09"\n' '#1 t\n> h\n?\n'

# Many completions, and long ones.
interpreter p "$banner" '\002scheme:(tuple "h"'"$(seq 10000 | sed 's/.*/ "e&"/' | tr -d '\n')"')\005' \
    '\002scheme:(tuple "h" "'"$(repeated 100000 e)"'")\005'
script '10,000 completions, and one of 100,000 bytes' "$tab"'complete 1 1\ncomplete 1 1\nwait\n' \
    'ok\nfield 1\nasked\nasked\nbanner t\ncompleted 1 "h"'"$(seq 10000 | sed 's/.*/ "e&"/' | tr -d '\n')"'\ncompleted 1 "h" "'"$(repeated 100000 e)"'"\n' \
    '#1 t\n> h\n?\n'

script 'requests that are refused' \
    'session a plain sh p.sh\nsession t tab sh p.sh\nnew 0 a h\nnew 0 t \303\251\ncomplete 1 1\ncomplete 1 9\ncomplete 3 0\ncomplete 2 1\ncomplete 2 3\ncomplete 2 4294967295\ncomplete 2\ncomplete 2 2\ncomplete 2 0\n' \
    'ok\nok\nfield 1\nfield 2\nrefused 12 NoTab\nrefused 12 NoTab\nrefused 2 NoField\nrefused 13 BadCursor\nrefused 13 BadCursor\nrefused 13 BadCursor\nbad line 11\nasked\nasked\n' \
    '#2 t\n> \303\251\n?\n#1 a\n> h\n?\n'

interpreter p "$banner" '\002scheme:""\005'
script 'a request keeps its text' "$tab"'complete 1 1\nset 1 other\nremove 1\nwait\n' 'ok\nfield 1\nasked\nok\nok\nbanner t\ncompleted 1 ""\n' ''
sent 'a request keeps its text' 'start \nsend \020(complete "h" 1)'

# A text in the place of the input, which stays.
interpreter p "$banner" '\002scheme:(tuple "hel" "lo")\005' '\002scheme:""\005' '\002scheme:""\005' '\002scheme:""\005'
script 'a text in the place of the input' "$tab"'complete 1 3 hel\ncomplete 1 0 \ncomplete 1 5 \303\251 "x\ncomplete 1 1\nwait\n' \
    'ok\nfield 1\nasked\nasked\nasked\nasked\nbanner t\ncompleted 1 "hel" "lo"\ncompleted 1 ""\ncompleted 1 ""\ncompleted 1 ""\n' '#1 t\n> h\n?\n'
sent 'a text in the place of the input' \
    'start \nsend \020(complete "hel" 3)\nsend \020(complete "" 0)\nsend \020(complete "\303\251 \\"x" 5)\nsend \020(complete "h" 1)'

script 'texts that are refused' \
    'session a plain sh p.sh\nsession t tab sh p.sh\nnew 0 a h\nnew 0 t hello\ncomplete 1 9 \020\ncomplete 3 0 x\ncomplete 2 9 \020\ncomplete 2 0 \377\ncomplete 2 1 \303\251\ncomplete 2 1 \ncomplete 2 3 h\ncomplete 2  1 x\ncomplete 2 x y\ncomplete 2 2 \303\251\n' \
    'ok\nok\nfield 1\nfield 2\nrefused 12 NoTab\nrefused 2 NoField\nrefused 7 BadInput\nrefused 7 BadInput\nrefused 13 BadCursor\nrefused 13 BadCursor\nrefused 13 BadCursor\nbad line 12\nbad line 13\nasked\n' \
    '#2 t\n> hello\n?\n#1 a\n> h\n?\n'

{
    printf "$tab"'complete 1 4095 '
    repeated 4095 x
    printf '\ncomplete 1 4096 '
    repeated 4096 x
} >given
runs 'a text of 4,095 bytes and one of 4,096' 'ok\nfield 1\nasked\nrefused 7 BadInput\n' '#1 t\n> h\n?\n' <given

interpreter p "$banner" '\002scheme:(tuple "h""i")\002prompt#: \005\005' '\002verbatim:A\005' '\002scheme:""\005'
script 'a line behind a request waits for its answer' "$tab"'complete 1 1\neval 1\nset 1 y\nwait\ncomplete 1 0\nwait\n' \
    'ok\nfield 1\nasked\nasked\nrefused 3 InFlight\nbanner t\ncompleted 1 "h" "i"\nanswered 1\nasked\ncompleted 1 ""\n' '#1 t\n: h\nA\n'
sent 'a line behind a request waits for its answer' 'start \nsend \020(complete "h" 1)\nsend h\nsend \020(complete "h" 0)'

# Where a request is lost first, the line after it keeps no reason.
then=exit
interpreter p ''
script 'a line behind a request' "$tab"'complete 1 1\neval 1\nwait\n' 'ok\nfield 1\nasked\nasked\nended t Ended lost 2\n' '#1 t\n> h\n?\n'
then='read -r line'
interpreter p "$banner" '\002scheme:""\005\002:'
script 'a fault behind a request' "$tab"'complete 1 1\neval 1\nwait\n' \
    'ok\nfield 1\nasked\nasked\nbanner t\ncompleted 1 ""\nended t BadTag lost 1\n' '#1 t\n> h\n?\n'

# 1,024 requests wait in a session, and no more.
printf 'read -r line\n' >p.sh
{
    printf "$tab"
    repeated 1025 'complete 1 1
'
} >given
runs 'so many requests wait and no more' "$(printf 'ok\\nfield 1\\n'; repeated 1024 'asked\n')"'refused 14 QueueFull\n' '#1 t\n> h\n?\n' <given

counted completions
