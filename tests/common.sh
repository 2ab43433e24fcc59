# What the tests share: each of them reads this file in first.
# A test's first argument is the program to run; without one it is the program that ./amo runs, which is built if need be.
set -eu

caller=$PWD
cd -- "$(dirname -- "$(readlink -f -- "$0")")/.."
case ${1:-} in
'')
    program=$(scripts/built)
    ;;
/*) program=$1 ;;
*) program=$caller/$1 ;;
esac
if [ ! -x "$program" ]; then
    echo "there is no program $program" >&2
    exit 1
fi

room=$(mktemp -d)
trap 'rm -rf "$room"' EXIT
tried=0
failed=0

# Runs the program with these arguments. What it wrote lies in `out` and `err` of the room, and its status in `status`.
run() {
    status=0
    "$program" "$@" >"$room/out" 2>"$room/err" </dev/null || status=$?
}

# Counts the test $1 as one that passed, or as one that failed where there is a reason $2.
judge() {
    tried=$((tried + 1))
    if [ -z "$2" ]; then
        echo "$1: ok"
    else
        failed=$((failed + 1))
        echo "$1: FAILED, $2"
    fi
}

# Tells in one line what $1, $2 or $3 of the last run is other than it: the status, and the files that are to be its
# standard output and standard error. Nothing where all are as they are to be.
difference() {
    if [ "$status" -ne "$1" ]; then
        echo "status $status, standard error: $(head -n 1 "$room/err")"
    elif ! cmp -s "$2" "$room/out"; then
        echo "standard output differs: $(diff "$2" "$room/out" | sed -n '2{p;q;}' | cut -c 1-70)"
    elif ! cmp -s "$3" "$room/err"; then
        echo "standard error differs: $(diff "$3" "$room/err" | sed -n '2{p;q;}' | cut -c 1-70)"
    fi
}

# Says that the test $1 is left out, for the reason $2; ./check tells of it again at its end.
skip() {
    echo "$1: SKIPPED, $2"
    [ -z "${SKIPPED:-}" ] || echo "$(basename -- "$0"), $1: $2" >>"$SKIPPED"
}

# Prints how many $1 there were, and fails where one failed or where there was none.
sum_up() {
    echo "$tried $1, $failed failed"
    [ "$tried" -gt 0 ] && [ "$failed" -eq 0 ]
}
