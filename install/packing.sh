# What `install/dist` and `install/deb` share, which read this file: they pack the proved program as `make install` installs it.
root=$(dirname "$(dirname "$(readlink -f "${BASH_SOURCE[0]}")")")
program=$root/crates/tmhost/out/tmhost
room=$(mktemp -d)
trap 'rm -rf "$room"' EXIT

# The commit, and whether the sources are as it has them.
commit() {
    git -C "$root" rev-parse HEAD 2>/dev/null || { echo 'no commit: the sources are in no repository'; return; }
    [ -z "$(git -C "$root" status --porcelain)" ] || echo 'and changes that are in no commit'
}

# What `.ci/run` or `install/proved` kept of the check, where it is about this program.
line_of_check() {
    local check=$root/crates/tmhost/out/check
    if [ "$(tail -n 1 "$check" 2>/dev/null)" = "$(sha256sum <"$program")" ]; then head -n 1 "$check"; else echo 'not kept'; fi
}

# Installs to a prefix below the room: PREFIX.
install_to() {
    make -s -C "$root" install PROGRAM="$program" PAGES="$room/pages" DESTDIR="$room/packed" PREFIX="$1"
}

# What the program was built of, and the line of its check.
origin() {
    echo "$version"
    echo "bin/tmhost by sha256sum: $(sha256sum <"$program" | cut -d' ' -f1)"
    echo "built of: $(commit | paste -sd' ')"
    echo "by the kit: $(rt version 2>/dev/null || echo unknown)"
    echo "the line of its check: $(line_of_check)"
}

version=$("$program" --version)
case $version in *', proved)') ;; *) echo "tmhost: $program says that it is '$version'" >&2; exit 1 ;; esac
read -r _ number _ <<<"$version"
