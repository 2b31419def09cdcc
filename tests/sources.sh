# What a built program was built from, told by sums, so that no clock can mislead. ./ragansils, ./test and the tests that need a program
# source this, with
#   here   the top folder of the repository
# and have then
#   built_program NAME     the program of a crate, where 'rt' builds it
#   sum_of_sources         the sum of all sources
#   note_built NAME SUM    keeps that the program of a crate was built from the sources of that sum
#   is_fresh NAME          tells whether a program is the one that was last built, and its sources are what they were
#   proved_program NAME    builds it where it is not
# 'rt' builds the program, too, where it is called by hand, so a program is told by its own sum as well.

newline='
'
kept=$here/target/ragansils

built_program() { # NAME
    printf '%s\n' "$here/crates/$1/out/$1"
}

# over the names and contents of all sources: a file that changes, comes or goes changes the sum, whatever the clock says. What 'rt' makes
# is in the folder 'out' of each crate
sum_of_sources() {
    # a name is a line, whatever else stands in it
    # shellcheck disable=SC2046
    (cd "$here" && set -f && IFS=$newline && cksum $(find crates crates.txt -path 'crates/*/out' -prune -o -type f -print | LC_ALL=C sort) </dev/null) | cksum
}

note_built() { # NAME SUM-OF-SOURCES
    echo "$2 $(sum_of_program "$1")" >"$kept/built-$1"
}

sum_of_program() { # NAME
    cksum <"$here/crates/$1/out/$1"
}

is_fresh() { # NAME
    [ -x "$here/crates/$1/out/$1" ] && [ -f "$kept/built-$1" ] && [ "$(cat "$kept/built-$1")" = "$(sum_of_sources) $(sum_of_program "$1")" ]
}

# proves and builds a program where it is not fresh, which takes minutes. It answers the input of its crate, which is not looked at here
proved_program() { # NAME
    is_fresh "$1" && return
    mkdir -p "$kept" && of_sources=$(sum_of_sources) && (cd "$here/crates/$1" && rt run <stdin >/dev/null) && note_built "$1" "$of_sources"
}
