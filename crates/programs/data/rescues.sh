# Rescues: files of bytes as worksheets, what `rescue` tells of each, and the new worksheet that it makes.

header='TMWSHEET\001A'
session='R\000\000\000\011\001\001a\000\001\000\002sh'
new='R\000\000\000\012\002\000\000\000\000\001a\000\001x'
clear='R\000\000\000\005\006\000\000\000\001'
answered='R\000\000\000\025\007\000\000\000\001\000\002> \002verbatim:A\005'
remove='R\000\000\000\005\004\000\000\000\001'
front=$header$session$new$clear

# A case of `rescue`: NAME LINE SHEET, over the file `area`. It tells this line, and the new worksheet is shown so; the old one keeps its
# bytes, and gets no second file.
rescues() {
    rm -f area.alt saved saved.alt
    before=$(sums area)
    compare "$1" "$(answer rescue area saved </dev/null)" "$(ending "$2" 0)"
    compare "$1, shown" "$(answer show saved </dev/null)" "$(ending "$3" 0)"
    compare "$1, kept" "$(sums area area.alt)" "$before"
}

# The same of bytes that are typed in: NAME BYTES LINE SHEET.
rescued() {
    printf "$2" >area
    rescues "$1" "$3" "$4"
}

# A case of `rescue` that makes nothing: NAME LINE, over the file `area`.
lost() {
    rm -f area.alt saved saved.alt
    compare "$1" "$(answer rescue area saved </dev/null)" "$(ending "$2" 1)"
    compare "$1, made" "$(there saved saved.alt)" ''
}

# The worked example of docs/trust/FORMAT.md, and each of its fronts. Its gates are at 10, 24, 39, 49 and 75.
rescued 'the worked example' "$front$answered"'\000' 'kept 4, whole\n' '#1 a\n> x\nA\n'
compare 'its first file' "$(bytes saved)" 544d575348454554014200
compare 'its second file' "$(bytes saved.alt)" 544d57534845455401005200000009010161000100027368520000000a020000000001610001785200000015070000000100023e2002766572626174696d3a410500
printf "$front$answered"'\000' >example
for length in $(seq 0 75); do
    head -c "$length" example >area
    if [ "$length" -le 10 ]; then
        lost "the first $length bytes of the example" 'fault 31 NotASheet\n'
    elif [ "$length" -le 24 ]; then
        rescues "the first $length bytes of the example" 'kept 0, damaged at 10\n' ''
    elif [ "$length" -le 39 ]; then
        rescues "the first $length bytes of the example" 'kept 1, damaged at 24\n' ''
    elif [ "$length" -le 49 ]; then
        rescues "the first $length bytes of the example" 'kept 2, damaged at 39\n' '#1 a\n> x\n?\n'
    else
        rescues "the first $length bytes of the example" 'kept 3, damaged at 49\n' '#1 a\n> x\n?\n'
    fi
done

# Gates and lengths.
rescued 'an empty worksheet' "$header"'\000' 'kept 0, whole\n' ''
rescued 'bytes behind a closed gate' "$header$session"'\000RRRR' 'kept 1, whole\n' ''
rescued 'a payload without a byte' "$header$session"'R\000\000\000\000\000' 'kept 1, damaged at 24\n' ''
rescued 'a length that is too large' "$header$session"'R\002\000\000\001\000' 'kept 1, damaged at 24\n' ''
rescued 'no gate behind the last record' "$header$session$new" 'kept 1, damaged at 24\n' ''
rescued 'a record behind a damaged one' "$header$session"'R\000\000\000\000'"$new"'\000' 'kept 1, damaged at 24\n' ''

# Payloads that are no op's, and ops that the worksheet refuses. `show` tells damage of the gates first, `rescue` stops at what comes first.
rescued 'a payload of no op' "$header$session"'R\000\000\000\001\012'"$new"'\000' 'kept 1, damaged at 24\n' ''
rescued 'an op with a byte left over' "$header$session$new"'R\000\000\000\006\006\000\000\000\001\000\000' 'kept 2, damaged at 39\n' '#1 a\n> x\n?\n'
rescued 'a field that there is none of' "$header$session$remove$new"'\000' 'kept 1, damaged at 24\n' ''
rescued 'a refused op and then damage' "$header$remove"'R' 'kept 0, damaged at 10\n' ''
compare 'what show tells of it' "$(answer show area </dev/null)" "$(ending 'fault 30 Damaged 20\n' 1)"
rescued 'a field without its session' "$header$new"'\000' 'kept 0, damaged at 10\n' ''

# The number of the next field is kept, and the new worksheet goes on.
rescued 'a field that was removed' "$header$session$new$remove"'R' 'kept 3, damaged at 49\n' ''
compare 'a field behind it' "$(printf 'new 0 a y\n' | answer run saved)" "$(ending 'field 2\n' 0)"
compare 'a checkpoint behind it' "$(printf 'checkpoint\n' | answer run saved)" "$(ending 'ok\n' 0)"
compare 'the worksheet behind it' "$(answer show saved </dev/null)" "$(ending '#2 a\n> y\n?\n' 0)"
rescued 'fields that were moved' "$header$session$new"'R\000\000\000\012\002\000\000\000\001\001a\000\001yR\000\000\000\011\005\000\000\000\002\000\000\000\000\000' 'kept 4, whole\n' '#2 a\n> y\n?\n#1 a\n> x\n?\n'
rescued 'a line that was lost' "$front"'R\000\000\000\006\010\000\000\000\001\002R' 'kept 4, damaged at 60\n' '#1 a\n> x\n? Ended\n'

# A journal in the second file, and damage there.
rm -f area area.alt saved saved.alt
printf 'TMWSHEET\001B\000' >area
printf 'TMWSHEET\001\000'"$session$new"'R\000\000' >area.alt
before=$(sums area.alt)
compare 'damage in the second file' "$(answer rescue area saved </dev/null)" "$(ending 'kept 2, damaged at 39\n' 0)"
compare 'what is kept of it' "$(answer show saved </dev/null)" "$(ending '#1 a\n> x\n?\n' 0)"
compare 'the second file itself' "$(sums area.alt)" "$before"
rm area.alt saved saved.alt
compare 'a second file that is missing' "$(answer rescue area saved </dev/null)" "$(ending 'fault 32 Disk\n' 1)"
printf 'TMWSHEET' >area.alt
compare 'a second file without a header' "$(answer rescue area saved </dev/null)" "$(ending 'fault 31 NotASheet\n' 1)"
compare 'what is made of them' "$(there saved saved.alt)" ''

# What is no worksheet, and what stands where the new one should.
printf 'hello, world' >area
lost 'no header' 'fault 31 NotASheet\n'
printf '' >area
lost 'an empty file' 'fault 31 NotASheet\n'
printf 'TMWSHEET\002A\000' >area
lost 'another version' 'fault 31 NotASheet\n'
rm -f area
words 'a file that is missing' 1 'fault 32 Disk\n' rescue area saved
compare 'what is made of it' "$(there area area.alt saved saved.alt)" ''
printf "$header$session"'\000' >area
echo here >saved
words 'a new one that is there' 1 'fault 34 NotEmpty\n' rescue area saved
compare 'what it is then' "$(text_of saved)$(there saved.alt)" 'here'
rm saved
echo here >saved.alt
words 'a second file of it that is there' 1 'fault 34 NotEmpty\n' rescue area saved
compare 'what that is then' "$(text_of saved.alt)$(there saved)" 'here'
rm saved.alt
words 'the worksheet itself' 1 'fault 34 NotEmpty\n' rescue area area
words 'a new one in a folder that is missing' 1 'fault 32 Disk\n' rescue area missing/saved
"$tmhost" rescue area saved >/dev/full 2>errors
compare 'a full output' "$? $(text_of errors)" '1 fault 42 Output'
compare 'what is written all the same' "$(answer show saved </dev/null)" "$(ending '' 0)"
rm -f saved saved.alt
compare 'a new one on a full disk' "$(limited 0 rescue area saved </dev/null)" "$(ending 'fault 32 Disk\n' 1)"
chmod 400 area
rm -f saved saved.alt
words 'a worksheet that may not be written' 0 'kept 1, whole\n' rescue area saved
rm -f area saved saved.alt

counted 'rescues'
