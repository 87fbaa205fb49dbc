# What `tmhost`, `install/checked` and `install/proved` share: they read this file, whose folder is in the folder `root`.
root=$(dirname "$(dirname "$(readlink -f "${BASH_SOURCE[0]}")")")

# The crates that a crate stands on, the lowest first and itself last, as crates.txt says.
used() {
    awk -F: -v top="$1" '
        !/^#/ && NF > 1 { split($1, name, " "); uses[name[1]] = $2 }
        function visit(crate, names, i, n) {
            if (!(crate in uses) || crate in seen) return
            seen[crate]
            n = split(uses[crate], names, " ")
            for (i = 1; i <= n; i++) visit(names[i])
            print crate
        }
        END { visit(top) }' "$root/crates.txt"
}

# Whether a file is newer than the first word, a file, or that isn't there: crates.txt, and what is in these folders (src, say) of these crates.
# FILE FOLDER .. -- CRATE ..
is_older() {
    local file=$1 name folders=() places=("$root/crates.txt")
    shift
    [ -e "$file" ] || return 0
    while [ "$1" != -- ]; do folders+=("$1") && shift; done
    shift
    for name in "$@"; do places+=("${folders[@]/#/$root/crates/$name/}"); done
    [ -n "$(find "${places[@]}" -newer "$file" -print -quit 2>/dev/null)" ]
}

need_the_kit() {
    command -v rt >/dev/null || { echo "tmhost: $1the command 'rt' of the Rattle kit is not on PATH" >&2; exit 1; }
    grep -qF "$(rt version)" "$root/README.md" || echo "tmhost: README.md names another kit than '$(rt version)'" >&2
}

# Ends where what started this script has ended. A client that is killed tells a build nothing, since that reads no input.
end_with_the_starter() {
    local of_this parent
    read -r of_this </proc/$$/stat
    read -r _ parent _ <<<"${of_this##*) }"
    [ "$parent" = "$PPID" ] || { echo "tmhost: what started the build has ended, and so does the build" >&2; exit 1; }
}

# Says how far a build is, and how long it has taken: on a terminal on a line that is written over, else where it has changed, and each minute.
said=
said_at=0
every=60
say_progress() {
    local line="tmhost: $1" taken="($((SECONDS / 60)) min $((SECONDS % 60)) s)"
    if [ -t 2 ]; then
        printf '\r\033[K%.*s' $((${COLUMNS:-80} - 1)) "$line $taken" >&2
    elif [ "$line" != "$said" ] || [ $((SECONDS - said_at)) -ge $every ]; then
        echo "$line $taken" >&2
        said_at=$SECONDS
    fi
    said=$line
}

fail_by_the_log() {
    echo "tmhost: the build failed; the end of $log says why:" >&2
    tail -n 30 "$log" >&2
    exit 1
}

# Runs a command, whose output goes to the end of the file `log`. Until it ends the function TELL is called again and again with its number:
# TELL COMMAND ..
#
# The command has a process group of its own, all of which ends with this script, however that ends. A watcher in that group reads from a
# pipe that this script alone holds open, so that it hears even of a kill -9. It then removes the folder `room`, too, where there is one.
run_and_tell() {
    local tell=$1 pipe held watched builder status=0
    shift
    pipe=$(mktemp -u)
    mkfifo -m 600 "$pipe"
    exec {held}<>"$pipe" {watched}<"$pipe"
    rm "$pipe"
    set -m
    (
        exec {held}>&-
        (trap '' TERM; read -r -u "$watched" _ || kill -TERM 0; sleep 2; rm -rf "${room:-}"; kill -KILL 0) </dev/null >/dev/null 2>&1 &
        exec "$@" {watched}<&- </dev/null >>"$log" 2>&1
    ) &
    builder=$!
    set +m
    exec {watched}<&-
    while kill -0 "$builder" 2>/dev/null; do
        end_with_the_starter
        "$tell" "$builder"
        # Nothing is ever written there: it waits, without a process that does.
        read -r -t 0.5 -u "$held" _ || true
    done
    [ ! -t 2 ] || printf '\r\033[K' >&2
    wait "$builder" || status=$?
    kill -KILL -- "-$builder" 2>/dev/null || true
    exec {held}>&-
    [ "$status" = 0 ] || fail_by_the_log
}
