# What ./amo and the scripts beside it share. Whoever reads this file in has set `root`, the repository's root, and `who`, its own name.

# The two builds of the program: the proved one, and the quick one, of which nothing is proved.
proved=$root/crates/amo_tool/out/amo_tool
quick=$root/crates/amo_tool/out/unproved/amo_tool

say() {
    printf '%s: %s\n' "$who" "$1" >&2
}

# Whether nothing at or below the paths $2, $3, .. was changed after the file $1.
# It starts no other program, which would take longer than all the rest; -nt is no part of POSIX, but dash, bash and busybox have it.
is_newest() {
    than=$1
    shift
    for path; do
        [ ! "$path" -nt "$than" ] || return 1
        [ ! -d "$path" ] || is_newest "$than" "$path"/* || return 1
    done
}

# Whether the program $1 is there, and no source was changed since its build began.
# Proofs do not count: a program is what its sources say, and these were proved when it was built.
is_current() {
    [ -x "$1" ] && is_newest "$1" "$root/crates.txt" "$root"/crates/*/src "$root"/crates/*/specs
}

# Ends unless rt is on the PATH.
need_rt() {
    command -v rt >/dev/null && return
    say "to build it the toolchain rattle-kit-13 is needed, and no rt is on the PATH; README.md, 'The toolchain', tells how to get it"
    exit 127
}

# Ends because the build failed, with the end of its log $1.
fail_to_build() {
    tail -n 20 "$1" >&2
    say "the build failed, and nothing was run; log: $1"
    exit 126
}
