# Streams and their blocks: what `blocks` prints, and which faults it tells.

stream 'nothing' '' 0 ''
stream 'noise and a block' 'noise\002verbatim:Hi there!\005\n' 0 '5 25 {verbatim:Hi there!}\n'
stream 'escapes' '\002verbatim:\033\002\033\005\033\033\033[\005' 0 '0 19 {verbatim:\\x02\\x05\\x1b\\x1b[}\n'
stream 'a block in a block' '\002verbatim:4\002prompt#In 2] \005\005' 0 '0 27 {verbatim:4{prompt#In 2] }}\n'
stream 'a tab, a line feed and a quote' '\002verbatim:\002prompt#a\tb\177\n\005"\005' 0 '0 26 {verbatim:{prompt#a\\x09b\\x7f\\x0a}"}\n'
stream 'a block without a text' '\002a:\005' 0 '0 4 {a:}\n'

# Tags.
stream 'no tag' '\002:x\005' 1 'fault 1 BadTag 1\n'
stream 'a colon alone' '\002:' 1 'fault 1 BadTag 1\n'
stream 'a block inside a tag' 'ab\002verb\002' 1 'fault 1 BadTag 7\n'
stream 'a tag of 64 bytes' "\002$(repeated 64 a):\005" 0 "0 67 {$(repeated 64 a):}\n"
stream 'a tag of 65 bytes' "\002$(repeated 65 a)" 1 'fault 1 BadTag 65\n'

# Blocks that are open at the end.
stream 'an open block' '\002verbatim:x' 1 'unfinished 0\n'
stream 'an open block behind another' '\002a:\005\n\002verbatim:\033' 1 '0 4 {a:}\nunfinished 5\n'
stream 'a tag that is open' '\002a' 1 'unfinished 0\n'

# Levels.
opened() {
    repeated "$1" '\002a:'
}
stream '32 levels' "$(opened 32)$(repeated 32 '\005')" 0 "0 128 $(repeated 32 '{a:')$(repeated 32 '}')\n"
stream '33 levels' "$(opened 33)" 1 'fault 2 TooDeep 96\n'

# The longest block, one byte more, and the longest stream.
zeros() {
    head -c "$1" /dev/zero
}
verbatim() {
    printf '\002verbatim:'
    zeros "$1" | tr '\000' x
    printf '\005'
}
verbatim 16777205 >given
compare 'a block of 16,777,216 bytes' "$("$tmhost" <given | tr -d x; echo "$("$tmhost" <given | wc -c)")" \
    "$(printf '0 16777216 {verbatim:}\n%s' $((16777205 + 23)))"
verbatim 16777206 >given
prints 'a block of one byte more' 1 'fault 3 TooLong 16777215\n' <given
for length in 65535 65536 65537 131072 67108864; do
    zeros "$length" >given
    prints "$length bytes of noise" 0 '' <given
done
zeros 67108865 >given
prints 'one byte too many' 1 'fault 41 InputTooLong\n' <given
{
    printf '\002verbatim:'
    for i in $(seq 700); do printf 'a\n\002latex:b\002prompt#c\005d\005'; done
    printf '\005'
} >given
prints '1,400 texts and blocks' 0 "0 15411 {verbatim:$(for i in $(seq 700); do printf '%s' 'a\\x0a{latex:b{prompt#c}d}'; done)}\n" <given
rm given

# An output that takes nothing, with errors that do and with some that don't.
printf '\002a:\005' >given
"$tmhost" blocks <given >/dev/full 2>errors
compare 'blocks over a full output' "$? $(text_of errors)" '1 fault 42 Output'
"$tmhost" blocks <given >/dev/full 2>/dev/full
compare 'blocks over a full output and full errors' "$?" 1
"$tmhost" blocks </ >text 2>errors
compare 'an input that is a folder' "$? $(wc -c <text) $(text_of errors)" '1 0 fault 40 Input'

# The same as lines of JSON: NAME INPUT STATUS, where the lines between the first and the last are the input here. Where the first fault is
# one of the stream, it is the last object.
hello='{"format":1,"program":"tmhost","protocol":2,"type":"hello","version":"0.1.0"}'
objects() {
    want=$(echo "$hello"; cat; echo "status $3")
    printf "$2" >given
    compare "$1 as JSON" "$(answer blocks --json <given)" "$want"
}
objects 'noise' 'noise\n' 0 <<'END_OF_JSON'
{"type":"end"}
END_OF_JSON
objects 'noise and a block' 'noise\002verbatim:Hi there!\005\n' 0 <<'END_OF_JSON'
{"block":{"items":["Hi there!"],"kind":"format","tag":"verbatim"},"default":null,"output":{"items":["Hi there!"],"kind":"format","tag":"verbatim"},"prompt":null,"shown":"Hi there!","start":5,"stop":25,"type":"block"}
{"type":"end"}
END_OF_JSON
objects 'two prompts, a default input, and a block without a text' '\002verbatim:4\002prompt#In 1] \005\002latex:x\002prompt#In 2] \005\005\002input#y\005\005\n\002a#\005' 0 <<'END_OF_JSON'
{"block":{"items":["4",{"items":["In 1] "],"kind":"channel","tag":"prompt"},{"items":["x",{"items":["In 2] "],"kind":"channel","tag":"prompt"}],"kind":"format","tag":"latex"},{"items":["y"],"kind":"channel","tag":"input"}],"kind":"format","tag":"verbatim"},"default":"y","output":{"items":["4",{"items":["x"],"kind":"format","tag":"latex"}],"kind":"format","tag":"verbatim"},"prompt":"In 2] ","shown":"4{latex:x}","start":0,"stop":60,"type":"block"}
{"block":{"items":[],"kind":"channel","tag":"a"},"default":null,"output":{"items":[],"kind":"channel","tag":"a"},"prompt":null,"shown":"{a#}","start":61,"stop":65,"type":"block"}
{"type":"end"}
END_OF_JSON
objects 'a prompt alone' '\002prompt#a\005' 0 <<'END_OF_JSON'
{"block":{"items":["a"],"kind":"channel","tag":"prompt"},"default":null,"output":{"items":[],"kind":"format","tag":"verbatim"},"prompt":"a","shown":"","start":0,"stop":10,"type":"block"}
{"type":"end"}
END_OF_JSON
# JSON has the byte 127 as it is, and what isn't UTF-8 as base64.
objects 'bytes of all kinds' '\002verbatim:{"type":"end"}\n\001\033\002\033\177\\\005\002verbatim:caf\351\002prompt#\377\005\005' 0 <<'END_OF_JSON'
{"block":{"items":["{\"type\":\"end\"}\n\u0001\u0002\u001b\\"],"kind":"format","tag":"verbatim"},"default":null,"output":{"items":["{\"type\":\"end\"}\n\u0001\u0002\u001b\\"],"kind":"format","tag":"verbatim"},"prompt":null,"shown":"{\"type\":\"end\"}\n\\x01\\x02\\x1b\\x7f\\","start":0,"stop":32,"type":"block"}
{"block":{"items":[{"base64":"Y2Fm6Q=="},{"items":[{"base64":"/w=="}],"kind":"channel","tag":"prompt"}],"kind":"format","tag":"verbatim"},"default":null,"output":{"items":[{"base64":"Y2Fm6Q=="}],"kind":"format","tag":"verbatim"},"prompt":{"base64":"/w=="},"shown":{"base64":"Y2Fm6Q=="},"start":32,"stop":57,"type":"block"}
{"type":"end"}
END_OF_JSON
objects 'an open block behind another' '\002a:\005\n\002verbatim:\033' 1 <<'END_OF_JSON'
{"block":{"items":[],"kind":"format","tag":"a"},"default":null,"output":{"items":[],"kind":"format","tag":"a"},"prompt":null,"shown":"{a:}","start":0,"stop":4,"type":"block"}
{"start":5,"type":"unfinished"}
{"type":"end"}
END_OF_JSON
objects 'a block, and a tag that is none' '\002a:\005\002verb\002' 1 <<'END_OF_JSON'
{"block":{"items":[],"kind":"format","tag":"a"},"default":null,"output":{"items":[],"kind":"format","tag":"a"},"prompt":null,"shown":"{a:}","start":0,"stop":4,"type":"block"}
{"name":"BadTag","number":1,"offset":9,"type":"fault"}
END_OF_JSON
objects '33 levels' "$(opened 33)" 1 <<'END_OF_JSON'
{"name":"TooDeep","number":2,"offset":96,"type":"fault"}
END_OF_JSON
verbatim 16777206 >given
compare 'a block of one byte more as JSON' "$(answer blocks --json <given)" "$(printf '%s\n{"name":"TooLong","number":3,"offset":16777215,"type":"fault"}\nstatus 1' "$hello")"
zeros 67108865 >given
compare 'one byte too many as JSON' "$(answer blocks --json <given)" "$(printf '{"name":"InputTooLong","number":41,"type":"fault"}\nfault 41 InputTooLong\nstatus 1')"
compare 'a folder as JSON' "$(answer blocks --json </)" "$(printf '{"name":"Input","number":40,"type":"fault"}\nfault 40 Input\nstatus 1')"
printf '\002a:\005' >given
"$tmhost" blocks --json <given >/dev/full 2>errors
compare 'objects over a full output' "$? $(text_of errors)" '1 fault 42 Output'
rm given

counted blocks
