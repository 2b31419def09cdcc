# What the tests that build programs share, with what tests/processor.sh has; each sources it in the top folder of the repository, with
#   test_name   the name that its complaints begin with
#   work        the folder for its files

fail() {
    printf '%s: %s\n' "$test_name" "$*"
    exit 1
}

here=$PWD
. tests/processor.sh
. tests/sources.sh

# looks for a header of C or C++, and installs it
need_header() { # HEADER PACKAGES WHAT-IT-IS-FOR
    has_header "$1" && return
    install_packages "$2" "$3"
    has_header "$1" || fail "the C++ compiler finds no <$1>. It is for $3; install Debian's $2, or the like from elsewhere."
}
has_header() {
    echo "#include <$1>" | c++ -std=c++17 -E -x c++ - >/dev/null 2>&1
}

# runs a command and shows what it writes only where it fails
quietly() {
    "$@" >"$work/log" 2>&1 || { cat "$work/log"; fail "$*"; }
}

same() { # WHAT FILE FILE
    diff "$2" "$3" || fail "$1 differ: $2 <, $3 >"
}

# the refusals and their numbers, as the crate 'numbering' has them
refusal_numbers() {
    sed -n 's/^ *Refusal::\([A-Za-z]*\) => \([0-9]*\),$/\1 \2/p' crates/numbering/src/lib.rt
}

library=crates/collector/out/libcollector.a

# finds what runs a program that is linked with the library; proves and builds the library where it is missing or older than its
# sources, which takes minutes; and lets cargo find it and keep its files in target/
proved_library() {
    need_runner
    if [ ! -f "$library" ] || [ -n "$(find crates crates.txt -path 'crates/*/out' -prune -o -newer "$library" -type f -print | head -n 1)" ]; then
        quietly build_library .
    fi
    export CARGO_TARGET_DIR="$PWD/target/cargo" RAGANSILS_LIB="$PWD/crates/collector/out"
}

# proves and builds the library of a folder with such a repository, or of a part of one
build_library() ( # FOLDER
    cd "$1/crates/collector" && rt lib
)

# where cargo puts a program; it keeps those for another processor apart
cargo_program() { # NAME [PROFILE]
    echo "$CARGO_TARGET_DIR/${CARGO_BUILD_TARGET:+$CARGO_BUILD_TARGET/}${2:-release}/$1"
}

# runs the tests of a package, doc tests among them, which are not counted: not every cargo runs them
own_tests() { # PACKAGE LEAST
    quietly cargo test --offline --locked --release -p "$1"
    passed=$(awk '/^ *Doc-tests / { exit } /^test result: ok/ { tests += $4 } END { print tests + 0 }' "$work/log")
    [ "$passed" -ge "$2" ] || fail "only $passed tests of $1 were run, and not $2"
    echo "$passed tests of its own passed: $1"
}

mkdir -p "$work" || fail "no folder $work"
