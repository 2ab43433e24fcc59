# What the tests of allocations share, after common.sh: runs with the library of allocations.c loaded.

if ! command -v "${CC:-cc}" >/dev/null; then
    skip 'all of it' 'no C compiler'
    exit 0
fi
"${CC:-cc}" -O1 -Wall -Wextra -shared -fPIC -o "$room/allocations.so" tests/allocations.c

# Runs the program with the arguments from $2 on, for at most a minute, with allocation $1 refused, or none if that is 0.
run_counted() {
    refused=$1
    shift
    status=0
    timeout 60 env REFUSED_ALLOCATION="$refused" ALLOCATION_COUNTS="$room/counts" LD_PRELOAD="$room/allocations.so" \
        "$program" "$@" >"$room/out" 2>"$room/err" </dev/null || status=$?
}

# A count of the last run: asked, bytes, peak or refused.
count() {
    od -An -v -t u8 -w32 "$room/counts" | {
        read -r asked bytes peak refused
        eval "echo \$$1"
    }
}

# From here on the allocator of a program with checks at run time is counted and refused.
count_checked() {
    ALLOC_AT=$(nm "$program" | sed -n 's/ T rattle_alloc$//p')
    REALLOC_AT=$(nm "$program" | sed -n 's/ T rattle_realloc$//p')
    export ALLOC_AT REALLOC_AT
}
