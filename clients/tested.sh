# What the commands `test` of clients share, which read it in the client's folder by `. ../tested.sh` and end with `exit $status`. The tests run over the
# program that found.py finds. TMHOST_KILLS says how many kills of each kind they make. What is left out is reported by lines that begin with "skipped: ".
status=0

# types PATH FILE ..: checks the types of these, with these folders in which modules are looked for.
types() {
    if ! command -v mypy >/dev/null; then
        echo 'skipped: the types, since there is no mypy'
        return
    fi
    modules=$1
    shift
    MYPYPATH=..:$modules mypy --strict --python-version "${version:-3.9}" --cache-dir /dev/null "$@" || { status=1; echo 'failed: the types'; }
}

# tests NEEDED WHY FOLDER ..: runs the tests of a folder by the first Python that can run the line NEEDED, where one can. Debian's has Debian's packages,
# whatever `python3` is here.
tests() {
    needed=$1 why=$2
    shift 2
    for python in ${pythons:-python3 /usr/bin/python3}; do
        if "$python" -c "$needed" 2>/dev/null; then
            "$python" -B ../unit_tests.py "$@" || status=1
            return
        fi
    done
    echo "skipped: all tests, since $why"
}
