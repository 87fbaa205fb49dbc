# Each journal of the file `journals` is shown by the program, whose path is the first word. A worksheet of more than 1,000 bytes is
# known by its checksum and its length, of others each byte that is no ASCII as `cat -v` prints it. The files aren't changed by it.
tmhost=$1

grep -v '^#' journals | while read -r first name; do
    if [ "$first" = journal ]; then
        journal=journal_$name
        : >"$journal.base64"
        echo "$name" >>journal_names
    else
        echo "$first" >>"$journal.base64"
    fi
done

while read -r name; do
    echo "-- the journal $name"
    base64 -d <"journal_$name.base64" | gzip -dc >"journal_$name"
    cp "journal_$name" before
    "$tmhost" show "journal_$name" >text 2>errors
    status=$?
    if [ "$(wc -c <text)" -gt 1000 ]; then cksum <text; else cat -v text; fi
    cat errors
    [ $status = 0 ] || echo "status $status"
    cmp "journal_$name" before
done <journal_names
