# Command lines: paths, words that ask for nothing, and helps. The texts are those of clap.

# Paths with blanks, that are named like a task, and that begin with a dash.
mkdir -p 'a b'
words 'a path with a blank' 0 '' create 'a b/c'
compare 'its first file' "$(bytes 'a b/c')" 544d575348454554014100
words 'a path that is a task' 0 '' create create
words 'that is shown' 0 '' show create
words 'that is run' 0 '' run create
words 'a path with a dash' 0 '' create -- -w
words 'that is run with a dash' 0 '' run -- -w
words 'that is shown with a dash' 0 '' show -- -w
words 'an empty path is not shown' 1 'fault 32 Disk\n' show ''
words 'an empty path is not created' 1 'fault 32 Disk\n' create ''
words 'no word' 0 ''
words 'the word blocks' 0 '' blocks
words 'blocks as JSON' 0 '{"format":1,"program":"tmhost","protocol":2,"type":"hello","version":"0.1.0"}\n{"type":"end"}\n' blocks --json
words 'two dashes alone' 0 '' --

# Words that ask for nothing: NAME WORDS and the first line of the text, which stands on the errors.
told() {
    name=$1 line=$2
    shift 2
    "$tmhost" "$@" >text 2>errors </dev/null
    compare "$name" "$? $(wc -c <text) $(head -n 1 errors)" "2 0 $line"
}
for task in create run live eval show check; do
    told "$task without a path" 'error: the following required arguments were not provided:' "$task"
    [ "$task" = eval ] || [ "$task" = check ] || told "$task with two paths" "error: unexpected argument 'b' found" "$task" a b
    told "$task with a flag" "error: unexpected argument '-w' found" "$task" -w
done
told 'eval with two paths' 'error: this is no field: ID is a number, as 3' eval a b
told 'run with a flag alone' 'error: the following required arguments were not provided:' run --strict
told 'run with a flag twice' "error: the argument '--strict' cannot be used multiple times" run --strict --strict a
told 'run with a flag that has a value' "error: unexpected value 'yes' for '--strict' found; no more were expected" run --strict=yes a
told 'eval with a flag alone' 'error: the following required arguments were not provided:' eval --unanswered
told 'run with the flag of eval' "error: unexpected argument '--unanswered' found" run --unanswered a
told 'check with a flag of eval' "error: unexpected argument '--changed' found" check --changed a
told 'show with the flag of run' "error: unexpected argument '--strict' found" show --strict a
told 'rescue without a path' 'error: the following required arguments were not provided:' rescue
told 'rescue with one path' 'error: the following required arguments were not provided:' rescue a
told 'rescue with three paths' "error: unexpected argument 'c' found" rescue a b c
told 'rescue with a flag' "error: unexpected argument '-w' found" rescue -w
told 'export without a format' 'error: the following required arguments were not provided:' export
told 'export without a path' 'error: the following required arguments were not provided:' export html
told 'export with two paths' "error: unexpected argument 'c' found" export html a c
told 'a word behind faults' "error: unexpected argument 'x' found" faults x
told 'another topic' "error: unrecognized subcommand 'fault'" help fault
told 'another task' "error: unrecognized subcommand 'remove'" remove a
told 'one word' "error: unrecognized subcommand 'foo'" foo
told 'a word behind blocks and a flag' "error: unexpected argument 'x' found" blocks --json x
told 'JSON without blocks' "error: unexpected argument '--json' found" --json
told 'a word behind blocks' "error: unexpected argument 'x' found" blocks x
told 'the version of a task' "error: unexpected argument '--version' found" run --version
told 'a task behind dashes' "error: unexpected argument 'blocks' found" -- blocks
set --
for count in $(seq 40); do
    set -- "$@" x
    told "$count words behind blocks" "error: unexpected argument 'x' found" blocks "$@"
done
"$tmhost" "$(printf '\377')" >text 2>errors
compare 'a word that is no text' "$? $(wc -c <text) $(wc -c <errors)" '2 0 0'

# Helps: NAME, its first line, its usage and its last line. They have the paths and the states of all that they tell.
helps() {
    "$tmhost" $1 --help >text 2>errors
    compare "the help of $1" "$? $(wc -c <errors) $(head -n 1 text)|$(grep '^Usage' text)|$(grep -c 'Status: 0 ' text)|$(tail -n 1 text)" "0 0 $2|$3|1|$4"
    compare "the paths of $1" "$(grep -c 'PATH\.alt' text)" "$5"
}
helps blocks 'Write the blocks of the stream on standard input, a line each' "Usage: ${tmhost##*/} blocks [OPTIONS]" "Example: printf '\\002verbatim:Hi\\005' | tmhost blocks" 0
helps create 'Make an empty worksheet' "Usage: ${tmhost##*/} create <PATH>" 'Example: tmhost create sheet' 3
helps run 'Run the script on standard input over a worksheet' "Usage: ${tmhost##*/} run [OPTIONS] <PATH>" 'Example: tmhost run sheet <script.txt' 1
helps live 'Hold a worksheet open for lines that come on standard input' "Usage: ${tmhost##*/} live [OPTIONS] <PATH>" "Example: printf 'print\\n' | tmhost live sheet" 1
helps eval 'Evaluate the fields of a worksheet' "Usage: ${tmhost##*/} eval [OPTIONS] <PATH> [ID]..." 'Example: tmhost eval --timeout 10 sheet 3 7' 1
helps show 'Write a worksheet' "Usage: ${tmhost##*/} show [OPTIONS] <PATH>" 'Example: tmhost show sheet' 1
helps check 'Evaluate a worksheet again, and write what differs' "Usage: ${tmhost##*/} check [OPTIONS] <PATH>..." 'Example: tmhost check --format junit sheet >report.xml' 1
helps rescue 'Write what stands before a damage to a new worksheet' "Usage: ${tmhost##*/} rescue <PATH> <NEW>" 'Example: tmhost rescue sheet new' 1

helps export 'Write a worksheet as a script, Markdown, a page, a notebook or JSON' "Usage: ${tmhost##*/} export [OPTIONS] <FORMAT> <PATH>" 'Example: tmhost export html sheet >sheet.html' 1
helps history "List the changes that stand in a worksheet's file" "Usage: ${tmhost##*/} history <PATH>" 'Example: tmhost history sheet' 1
helps restore 'Write a worksheet as it was to a new worksheet' "Usage: ${tmhost##*/} restore <PATH> <N> <NEW>" 'Example: tmhost restore sheet 12 sheet.before' 1

# Each help whole, as the file `help_texts` has it: NAME WORDS.
whole_help() {
    name=$1
    shift
    compare "the whole help of $name" "$("$tmhost" "$@" --help 2>&1 | sed "s/^Usage: ${tmhost##*/}/Usage: tmhost/")" \
        "$(sed -n "/^== $name\$/,/^== /p" help_texts | sed '/^== /d')"
}
whole_help 'the program'
for task in blocks create run live eval show check rescue export history restore faults; do
    whole_help "$task" "$task"
done

# The version: the name of the program, a number, the journals' format, which each header has, the kit, and what built it. That is the prover, but where
# BUILT has the words of another build.
"$tmhost" --version >text 2>errors
compare 'the version' "$? $(wc -c <errors) $(bytes text)" "0 0 $(printf 'tmhost 0.1.0 (journal format 1, rattle-kit-13f, %s)\n' "${BUILT:-proved}" >wanted; bytes wanted)"
"$tmhost" create versioned
compare 'the format that it names' "$(od -An -tu1 -j8 -N1 versioned | tr -d ' ')" "$(sed 's/.*journal format \([0-9]*\),.*/\1/' text)"
"$tmhost" -V >same 2>errors
compare 'the version by a letter' "$? $(wc -c <errors) $(bytes same)" "0 0 $(bytes text)"
"$tmhost" --version >/dev/full 2>errors
compare 'a version over a full output' "$? $(text_of errors)" '1 fault 42 Output'

# What `help faults` has of each fault that a program tells: its number and its name.
"$tmhost" help faults >text 2>errors
compare 'the help of faults' "$? $(wc -c <errors) $(head -n 1 text)|$(grep '^Usage' text)" "0 0 What each fault means|Usage: ${tmhost##*/} faults"
compare 'the faults' "$(grep -o '^[0-9][0-9] [A-Za-z]*' text | tr '\n' ' ')" '21 Disk 22 OutOfMemory 23 JournalFull 30 Damaged 31 NotASheet 32 Disk 33 OutOfMemory 34 NotEmpty 35 InUse 36 NoScript 37 NoField 38 SecondFile 39 NoChange 40 Input 41 InputTooLong 42 Output 43 OutOfMemory 44 NoProgram '
"$tmhost" faults --help >same 2>errors
compare 'the same by a flag' "$? $(wc -c <errors) $(bytes same)" "0 0 $(bytes text)"
"$tmhost" faults >same 2>errors
compare 'the same alone, which is a refusal' "$? $(wc -c <same) $(bytes errors)" "2 0 $(bytes text)"

"$tmhost" --help >text 2>errors
compare 'the help of all' "$? $(wc -c <errors) $(head -c 16 text)" '0 0 A worksheet host'
"$tmhost" --help >/dev/full 2>errors
compare 'a help over a full output' "$? $(text_of errors)" '1 fault 42 Output'
"$tmhost" foo 2>/dev/full >text
compare 'a refusal over full errors' "$? $(wc -c <text)" '2 0'

counted 'command lines'
