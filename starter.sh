# What the starter scripts have in common: `start WORD..` runs a program, which is built first, with the library that it
# stands on, if that was not done or if something that it is made of has changed. It is sourced by ./cube and ./demo, which
# say in `name` which program they start, and in `top` where the repository is.

program=$top/crates/$name/out/$name
log=$top/target/$name.log

# Ends the script with a sentence on standard error, and with the status that says that the program could not run.
give_up() {
    echo "$name: $1" >&2
    exit 2
}

# The crates that the program is made of, from the bottom up, itself the last. What crates/ does not have is the kit's.
crates_of_program() {
    local crate
    for crate in $(sed -n "s/^$name: *//p" "$top/crates.txt") "$name"; do
        [ ! -d "$top/crates/$crate" ] || echo "$crate"
    done
}

# Whether the program is there, and nothing that it is made of is newer.
is_built() {
    local crate part parts=("$top/crates.txt")
    [ -x "$program" ] || return 1
    for crate in $(crates_of_program); do
        for part in src specs proofs; do
            [ ! -d "$top/crates/$crate/$part" ] || parts+=("$top/crates/$crate/$part")
        done
    done
    [ -z "$(find "${parts[@]}" -newer "$program" -print -quit)" ]
}

# Proves and builds a crate; of the program's own, runs it on an empty input.
build_crate() {
    local task=lib
    [ "$1" != "$name" ] || task=run
    (cd "$top/crates/$1" && rt "$task") </dev/null >>"$log" 2>&1
}

# Proves and builds the program, and says at each crate which it is.
build() {
    local crate crates index=0
    command -v rt >/dev/null || give_up "the Rattle kit's command rt is not on the PATH"
    { mkdir -p "$top/target" && : >"$log"; } 2>/dev/null || give_up "the log of the build, $log, cannot be written"
    read -ra crates < <(crates_of_program | xargs)
    echo "$name: ${#crates[@]} crates are proved and built first, which takes a few minutes; later runs start at once" >&2
    echo "$name: what that says is in $log" >&2
    for crate in "${crates[@]}"; do
        index=$((index + 1))
        echo "$name: $index of ${#crates[@]}, $crate" >&2
        build_crate "$crate" || {
            tail -n 20 "$log" >&2
            give_up "$crate was not proved and built; more is in $log"
        }
    done
    [ -x "$program" ] || give_up "the build has made no program; more is in $log"
    touch "$program"
}

# Runs the program in place of the script.
start() {
    is_built || build
    # Under `set -e` the script would end with 1 at an `exec` that fails.
    set +e
    shopt -s execfail
    exec "$program" "$@"
    give_up "$program cannot be run"
}
