# What a worksheet was: `history`, `show --at`, `export --at` and `restore`, over journals whose bytes are typed in and over those that
# scripts leave.

header='TMWSHEET\001A'
session='R\000\000\000\011\001\001a\000\001\000\002sh'
new='R\000\000\000\012\002\000\000\000\000\001a\000\001x'
set='R\000\000\000\010\003\000\000\000\001\000\001y'
remove='R\000\000\000\005\004\000\000\000\001'
move='R\000\000\000\011\005\000\000\000\001\000\000\000\000'
clear='R\000\000\000\005\006\000\000\000\001'
answered='R\000\000\000\025\007\000\000\000\001\000\002> \002verbatim:A\005'
lost='R\000\000\000\006\010\000\000\000\001\002'
ids='R\000\000\000\005\011\000\000\000\007'

# Bytes as the file of a worksheet without a second one.
lay() {
    rm -f area area.alt saved saved.alt
    printf "$1" >area
}

# A case over that file, after which its bytes are as before: NAME STATUS TEXT WORDS.
past() {
    before=$(sums area)
    words "$@"
    compare "$1, kept" "$(sums area area.alt)" "$before"
}

# The worksheet after so many changes, shown, and in a new worksheet: NAME N SHEET.
after() {
    past "$1, shown" 0 "$3" show --at "$2" area
    rm -f saved saved.alt
    past "$1, restored" 0 "kept $2, whole\n" restore area "$2" saved
    words "$1, what that is" 0 "$3" show saved
}

# There is no such worksheet: NAME N FAULT.
none() {
    rm -f saved saved.alt
    past "$1, shown" 1 "$3" show --at "$2" area
    past "$1, exported" 1 "$3" export html --at "$2" area
    past "$1, restored" 1 "$3" restore area "$2" saved
    compare "$1, made" "$(there saved saved.alt)" ''
}

# Each kind of change once, with its number.
lay "$header$session$new$set$clear$answered$lost$new$move$remove$ids\000"
past 'each kind' 0 '1 session a\n2 new 1 a\n3 set 1\n4 eval 1\n5 answered 1\n6 lost 1 Ended\n7 new 2 a\n8 move 1 0\n9 remove 1\n10 ids 7\n' history area
after 'no change' 0 ''
after 'a session' 1 ''
after 'a field' 2 '#1 a\n> x\n?\n'
after 'its next input' 3 '#1 a\n> y\n?\n'
after 'before its answer' 4 '#1 a\n> y\n?\n'
after 'its answer' 5 '#1 a\n> y\nA\n'
after 'its loss' 6 '#1 a\n> y\n? Ended\n'
after 'two fields' 7 '#2 a\n> x\n?\n#1 a\n> y\n? Ended\n'
after 'moved' 8 '#1 a\n> y\n? Ended\n#2 a\n> x\n?\n'
after 'removed' 9 '#2 a\n> x\n?\n'
after 'all' 10 '#2 a\n> x\n?\n'
compare 'all, as it is now' "$(answer show --at 10 area)" "$(answer show area)"
none 'one too many' 11 'fault 39 NoChange 11\n'
none 'far too many' 4294967295 'fault 39 NoChange 4294967295\n'
past 'as JSON' 0 "$("$tmhost" restore area 5 saved >/dev/null; "$tmhost" show --json saved)\n" show --json --at 5 area
rm -f saved saved.alt
"$tmhost" restore area 5 area.old >text
for format in script markdown notebook json; do
    compare "exported as $format" "$(answer export "$format" --at 5 area)" "$(answer export "$format" area.old)"
done
"$tmhost" export html --at 5 area >text
"$tmhost" export html area.old >same
compare 'exported as a page' "$(sed 's/area/SHEET/' text | sha256sum)" "$(sed 's/area\.old/SHEET/' same | sha256sum)"
compare 'the next number of what was restored' "$("$tmhost" restore area 10 saved >/dev/null; "$tmhost" history saved | tail -n 1)" '4 ids 7'
rm -f saved saved.alt area.old area.old.alt

# Nothing, damages, and what is no worksheet.
lay "$header\000"
past 'an empty worksheet' 0 '' history area
after 'an empty worksheet' 0 ''
none 'an empty worksheet, and one change' 1 'fault 39 NoChange 1\n'
lay "$header$session$new$clear"'R\000\000\000\005\004\000'
past 'a damaged gate' 1 '1 session a\n2 new 1 a\n3 eval 1\nfault 30 Damaged 49\n' history area
after 'before a damage' 2 '#1 a\n> x\n?\n'
after 'up to a damage' 3 '#1 a\n> x\n?\n'
none 'after a damage' 4 'fault 30 Damaged 49\n'
lay "$header$session$session\000"
past 'a change that is refused' 1 '1 session a\nfault 30 Damaged 24\n' history area
none 'a change that is refused' 2 'fault 30 Damaged 24\n'
lay "$header${session}R\000\000\000\001\012\000"
past 'a change that is none' 1 '1 session a\nfault 30 Damaged 24\n' history area
printf 'no worksheet' >area
past 'no worksheet' 1 'fault 31 NotASheet\n' history area
none 'no worksheet' 0 'fault 31 NotASheet\n'
rm area
words 'a missing one' 1 'fault 32 Disk\n' history area
words 'a missing one, shown' 1 'fault 32 Disk\n' show --at 0 area
words 'a missing one, restored' 1 'fault 32 Disk\n' restore area 0 saved
compare 'a missing one, made' "$(there saved saved.alt)" ''

# Words that name no number.
lay "$header$session\000"
no_number="error: this is no number of changes: N is a number, as \`tmhost history\` lists them\n\nFor more information, try 'tmhost history --help'.\n"
for number in -1 01 x '' 4294967296; do
    past "the number '$number', shown" 2 "$no_number" show "--at=$number" area
    past "the number '$number', as JSON" 2 "$no_number" show --json "--at=$number" area
    past "the number '$number', exported" 2 "$no_number" export json "--at=$number" area
    past "the number '$number', restored" 2 "$no_number" restore area -- "$number" saved
done
past 'a format that there is not' 2 "error: there is no such format: FORMAT is script, markdown, html, notebook or json\n\nFor more information, try 'tmhost export --help'.\n" export pdf --at 1 area
echo here >saved
past 'a new one that is there' 1 'fault 34 NotEmpty\n' restore area 1 saved
compare 'what it is then' "$(cat saved)" here
rm saved
"$tmhost" history area >/dev/full 2>errors
compare 'a full output' "$? $(text_of errors)" '1 fault 42 Output'

# What a run leaves, and after it a checkpoint: the past begins with what makes the worksheet again.
script 'a run' 'session a plain sh echo.sh\nnew 0 a one\neval 1\nwait\nset 1 two\neval 1\nwait\nnew 1 a three\nremove 2\n' \
    'ok\nfield 1\nasked\nbanner a\nanswered 1\nok\nasked\nanswered 1\nfield 2\nok\n' '#1 a\n> two\ntwo\n'
words 'its history' 0 '1 session a\n2 new 1 a\n3 eval 1\n4 answered 1\n5 set 1\n6 eval 1\n7 answered 1\n8 new 2 a\n9 remove 2\n' history sheet
words 'its first answer' 0 '#1 a\n> one\none\n' show --at 4 sheet
words 'its input without one' 0 '#1 a\n> two\n?\n' show --at 5 sheet
then_runs 'a checkpoint' 'checkpoint\n' 'ok\n' '#1 a\n> two\ntwo\n'
words 'the history after it' 0 '1 session a\n2 new 1 a\n3 answered 1\n4 ids 3\n' history sheet
rm -f area area.alt saved saved.alt

counted 'past'
