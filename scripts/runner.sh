# Sourced by the scripts that run a proved program or build the archive, at the top of the checkout. What rt makes of a crate lies in its out/.

# newest FILE: whether the file is there, and nothing that a check reads was changed since it was made, nor the toolchain. A folder counts
# too, since it is changed when one of its files goes.
newest() {
    [ -e "$1" ] && [ -z "$(find "$(realpath "$(command -v rt || echo crates.txt)")" crates.txt crates/*/src crates/*/specs crates/*/proofs -newer "$1" -print -quit)" ]
}

# proving WHAT: says that this is done now, which may take long, or that it cannot be done here.
proving() {
    if ! command -v rt > /dev/null; then
        echo "$0: the Rattle toolchain's rt is not on the path" >&2
        return 2
    fi
    echo "proving and building $1; the first time this takes long" >&2
}

# runner NAME: sets `program` to the program of the crate NAME. `rt ci` leaves one for each program that it proves; where that is missing or
# older than the sources, `rt run` proves and builds it. It also runs what it builds: over an empty input, which each program here answers.
runner() {
    local log
    program=crates/$1/out/$1
    newest "$program" && return
    proving "$1" || return
    if ! log=$(cd "crates/$1" && rt run "$1" 2>&1 > /dev/null < /dev/null); then
        printf '%s\n' "$log" >&2
        return 1
    fi
    # rt goes by what the sources hold: where that is the same as before, it leaves the program as it is.
    touch "$program"
}
