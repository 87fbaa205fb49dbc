# Files of bytes as worksheets: what `show` tells of the first area of a journal, by its gates, lengths and payloads.

header='TMWSHEET\001A'

# Records: an open gate, the length and the payload. The closed gate after the last one is added where it stands.
session='R\000\000\000\011\001\001a\000\001\000\002sh'
new='R\000\000\000\012\002\000\000\000\000\001a\000\001x'
clear='R\000\000\000\005\006\000\000\000\001'
answered='R\000\000\000\025\007\000\000\000\001\000\002> \002verbatim:A\005'
front=$header$session$new$clear

# The worked example of docs/trust/FORMAT.md and each of its fronts. Its gates are at 10, 24, 39, 49 and 75.
area 'the worked example' "$front$answered"'\000' 0 '#1 a\n> x\nA\n'
area 'the worked example without its answer' "$front"'\000' 0 '#1 a\n> x\n?\n'
area 'the worked example without its clearing' "$header$session$new"'\000' 0 '#1 a\n> x\n?\n'
printf "$front$answered"'\000' >example
for length in $(seq 0 75); do
    if [ "$length" -le 10 ]; then
        fault='31 NotASheet'
    elif [ "$length" -le 24 ]; then
        fault='30 Damaged 10'
    elif [ "$length" -le 39 ]; then
        fault='30 Damaged 24'
    elif [ "$length" -le 49 ]; then
        fault='30 Damaged 39'
    else
        fault='30 Damaged 49'
    fi
    head -c "$length" example >area
    shows "the first $length bytes of the example" 1 "fault $fault\n"
done

# `show` changes no byte, and makes no file.
printf "$front$answered"'\000' >kept
rm -f kept.alt
compare 'a worksheet that is kept' "$(answer show kept)" "$(ending '#1 a\n> x\nA\n' 0)"
compare 'its first file' "$(bytes kept)" "$(bytes example)"
compare 'its second file' "$([ -e kept.alt ] || echo missing)" 'missing'

# Inputs of several lines.
several='R\000\000\000\021\002\000\000\000\000\001a\000\010a\342\200\250\342\200\250b'
area 'an input of three lines' "$header$session$several"'\000' 0 '#1 a\n> a\n. \n. b\n?\n'
area 'its answer' "$header$session$several"'R\000\000\000\025\007\000\000\000\001\000\002> \002verbatim:A\005\000' 0 '#1 a\n> a\n. \n. b\nA\n'
area 'an input that is an end of a line' "$header$session"'R\000\000\000\014\002\000\000\000\000\001a\000\003\342\200\250\000' 0 '#1 a\n> \n. \n?\n'
area 'a character beside U+2028' "$header$session"'R\000\000\000\014\002\000\000\000\000\001a\000\003\342\200\251\000' 0 '#1 a\n> \342\200\251\n?\n'

# Headers.
area 'no header' '0123456789' 1 'fault 31 NotASheet\n'
area 'no header, with a gate behind it' '0123456789\000' 1 'fault 31 NotASheet\n'
area 'no first gate' 'TMWSHEET\001A' 1 'fault 31 NotASheet\n'
area 'another version' 'TMWSHEET\002A\000' 1 'fault 31 NotASheet\n'
area 'a second file that is missing' 'TMWSHEET\001B\000' 1 'fault 32 Disk\n'
area 'another selector' 'TMWSHEET\001C\000' 0 ''

# Gates and lengths.
area 'a record that is cut off' "$header"'R\000\000\000\011abc' 1 'fault 30 Damaged 10\n'
area 'no gate behind the second record' "$header"'R\000\000\000\001aR\000\000\000\001b' 1 'fault 30 Damaged 16\n'
area 'a payload without a byte' "$header"'R\000\000\000\000\000' 1 'fault 30 Damaged 10\n'
area 'a gate that is another byte' "$header$session"'r' 0 ''
area 'bytes behind a closed gate' "$header$session"'\000RRRR' 0 ''

# Ops that the worksheet refuses. Damage of the gates is reported first, also where it stands after such an op.
remove='R\000\000\000\005\004\000\000\000\001'
area 'a field that there is none of' "$header$session$remove"'\000' 1 'fault 30 Damaged 24\n'
area 'a refused op and then damage' "$header$remove"'R' 1 'fault 30 Damaged 20\n'
area 'a refused op' "$header$remove"'\000' 1 'fault 30 Damaged 10\n'

# Reasons of a lost line, by number. The record stands after gate 49.
reason() {
    area "the reason $1" "$front"'R\000\000\000\006\010\000\000\000\001\'"$1"'\000' "$2" "$3"
}
reason 000 1 'fault 30 Damaged 49\n'
reason 001 0 '#1 a\n> x\n? StartRefused\n'
reason 002 0 '#1 a\n> x\n? Ended\n'
reason 003 0 '#1 a\n> x\n? ReadFault\n'
reason 004 0 '#1 a\n> x\n? SendFault\n'
reason 005 0 '#1 a\n> x\n? Stalled\n'
reason 006 0 '#1 a\n> x\n? BadTag\n'
reason 007 0 '#1 a\n> x\n? TooDeep\n'
reason 010 0 '#1 a\n> x\n? TooLong\n'
reason 011 0 '#1 a\n> x\n? Stopped\n'
reason 012 1 'fault 30 Damaged 49\n'
reason 377 1 'fault 30 Damaged 49\n'
area 'no reason' "$front"'R\000\000\000\005\010\000\000\000\001\000' 1 'fault 30 Damaged 49\n'
area 'a byte behind the reason' "$front"'R\000\000\000\007\010\000\000\000\001\002\000\000' 1 'fault 30 Damaged 49\n'

# First bytes of payloads, and the flag of a session.
for kind in 000 012 377; do
    area "the first byte $kind" "$front"'R\000\000\000\005\'"$kind"'\000\000\000\001\000' 1 'fault 30 Damaged 49\n'
done
flagged() {
    area "a session with the flag $1" "$header"'R\000\000\000\011\001\001a\'"$1"'\001\000\002sh\000' "$2" "$3"
}
flagged 000 0 ''
flagged 001 0 ''
flagged 002 1 'fault 30 Damaged 10\n'
flagged 377 1 'fault 30 Damaged 10\n'

# Outputs. One is kept in its canonical spelling, and no other is read.
output() {
    area "$1" "$front"'R\000\000\000\'"$2"'\007\000\000\000\001\000\002> '"$3"'\000' "$4" "$5"
}
output 'escapes, each written' 035 '\002verbatim:\033\002\033\005\033\033\033\033[\005' 0 '#1 a\n> x\n\\x02\\x05\\x1b\\x1b[\n'
output 'an escape that stands for itself' 034 '\002verbatim:\033\002\033\005\033\033\033[\005' 1 'fault 30 Damaged 49\n'
output 'a byte behind an output' 026 '\002verbatim:A\005x' 1 'fault 30 Damaged 49\n'
output 'an output that is no block' 012 'A' 1 'fault 30 Damaged 49\n'

# Each op, and each of its payload's fronts: NAME GATE FRONT TEXT and the payload, byte by byte in octal digits.
payload() {
    name=$1 gate=$2 before=$3 text=$4
    shift 4
    bytes=
    count=0
    for byte in "$@"; do
        if [ $count -gt 0 ]; then
            area "$name, $count bytes of it" "$before"'R\000\000\000\'"$(printf %03o $count)$bytes"'\000' 1 "fault 30 Damaged $gate\n"
        fi
        bytes=$bytes'\'$byte
        count=$((count + 1))
    done
    area "$name, whole" "$before"'R\000\000\000\'"$(printf %03o $count)$bytes"'\000' 0 "$text"
}
two=$header$session$new'R\000\000\000\012\002\000\000\000\000\001a\000\001y'
payload 'a session' 10 "$header" '' 001 001 141 000 001 000 002 163 150
payload 'a field' 24 "$header$session" '#1 a\n> x\n?\n' 002 000 000 000 000 001 141 000 001 170
payload 'an input' 39 "$header$session$new" '#1 a\n> z\n?\n' 003 000 000 000 001 000 001 172
payload 'a removal' 39 "$header$session$new" '' 004 000 000 000 001
payload 'a move' 54 "$two" '#1 a\n> x\n?\n#2 a\n> y\n?\n' 005 000 000 000 001 000 000 000 000
payload 'a clearing' 39 "$header$session$new" '#1 a\n> x\n?\n' 006 000 000 000 001
payload 'an answer' 49 "$front" '#1 a\n> x\nA\n' 007 000 000 000 001 000 002 076 040 002 166 145 162 142 141 164 151 155 072 101 005
payload 'a reason' 49 "$front" '#1 a\n> x\n? Ended\n' 010 000 000 000 001 002
payload 'the next number' 24 "$header$session" '' 011 000 000 000 005

# The second area is the active one where the selector names it: a checkpoint of one field with the number 2.
anew='TMWSHEET\001\000R\000\000\000\010\001\001a\000\001\000\001pR\000\000\000\005\011\000\000\000\002R\000\000\000\012\002\000\000\000\000\001a\000\001y\000'
second() {
    printf 'TMWSHEET\001B\000' >area
    printf "$2" >area.alt
    compare "$1" "$(answer show area)" "$(ending "$4" "$3")"
}
second 'a checkpoint' "$anew" 0 '#2 a\n> y\n?\n'
second 'a checkpoint without its last byte' "${anew%'\000'}" 1 'fault 30 Damaged 33\n'
second 'an older record behind the last gate' "$anew"'R\000\000\000\012\002\000\000\000\000\001a\000\001z\000' 0 '#2 a\n> y\n?\n'

# A selector that a crash has torn, into each of its values: area Second is the active one at `B` alone, the byte 66, and area First at
# any other, so that each of them opens to a worksheet.
for value in $(seq 0 255); do
    case $value in
    66) sheet='#2 a\n> y\n?\n' ;;
    *) sheet='#1 a\n> x\nA\n' ;;
    esac
    {
        printf 'TMWSHEET\001'
        printf "\\$((value / 64))$((value / 8 % 8))$((value % 8))"
        printf "$session$new$clear$answered"'\000'
    } >area
    printf "$anew" >area.alt
    compare "the selector $value" "$(answer show area)" "$(ending "$sheet" 0)"
done

counted areas
