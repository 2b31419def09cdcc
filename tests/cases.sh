# What the tests of programs that answer text share: cases of a file, one to a row. A test sources this in the top folder of the
# repository, with
#   test_name   the name that its complaints begin with
#   program     the program that is tried
# and has then 'work', a folder for its files, which is removed at the end. It counts in 'seen' and 'bad'.

fail() {
    printf '%s: %s\n' "$test_name" "$*"
    exit 1
}
here=$PWD
. tests/processor.sh
[ -x "$program" ] || fail "there is no $program"
need_runner
work=$(mktemp -d) || fail "no folder for temporary files"
trap 'rm -rf "$work"' EXIT
trap 'exit 1' HUP INT TERM
seen=0
bad=0

# lines joined by commas, as text
spread() { # LINES
    case $1 in
    '') ;;
    *'~') printf '%b' "${1%?}" | tr ',' '\n' ;;
    *) printf '%b\n' "$1" | tr ',' '\n' ;;
    esac
}

# what the program wrote to $work/answered is what stands in $work/expected
answers() { # NAME
    seen=$((seen + 1))
    cmp -s "$work/expected" "$work/answered" && return
    echo "$1: expected"
    head -n 40 "$work/expected"
    echo "but it answered"
    head -n 40 "$work/answered"
    bad=$((bad + 1))
}

# a program that answers ends with status 0 and says nothing on standard error
quiet() { # NAME
    [ ! -s "$work/said" ] && return
    echo "$1: on standard error"
    head -n 5 "$work/said"
    bad=$((bad + 1))
}

# A row is a name, a colon, the lines of the input, an arrow, the lines of the answer. Lines are joined by commas, as in document 01, and
# each is ended by a newline, but for an input that ends in '~': its last line is torn. '\r' is a carriage return.
try_cases() { # FILE LEAST EDITS-OF-SED: what a row's short words stand for
    while IFS= read -r row; do
        case $row in '' | '#'*) continue ;; esac
        name=${row%%: *}
        rest=${row#"$name":}
        lines=${rest%-> *}
        lines=${lines# }
        lines=$(printf '%s\n' "${lines% }" | sed "$3")
        spread "$lines" >"$work/input"
        spread "$(printf '%s\n' "${rest#*-> }" | sed "$3")" >"$work/expected"
        run "$program" <"$work/input" >"$work/answered" 2>"$work/said" || echo "it ended with status $?" >>"$work/said"
        quiet "$name"
        answers "$name"
    done <"$1"
    [ "$seen" -ge "$2" ] || fail "$1 has only $seen cases"
}

# a file is answered alike where a pipe brings it in pieces
try_pieces() { # NAME FILE
    {
        head -c 7 "$2"
        sleep 0.1
        tail -c +8 "$2" | head -c 40
        sleep 0.1
        tail -c +48 "$2"
    } | run "$program" >"$work/answered"
    answers "$1, in pieces"
}

# seconds within which a program has to do what it does at once, also under an emulator on a busy machine
limit=20

# what is known does not wait for the end of the input
stops() { # NAME ANSWER LINES: which come before lines without end of the fourth argument
    echo "$2" >"$work/expected"
    { spread "$3"; yes "$4"; } | run_within "$limit" "$program" >"$work/answered"
    answers "$1"
}

told() { # NAME
    seen=$((seen + 1))
    [ -s "$work/said" ] && return
    echo "$1 is not told on standard error"
    bad=$((bad + 1))
}

# a read or a write that fails is told
try_failures() { # FILE
    : >"$work/expected"
    run_within "$limit" "$program" </ >"$work/answered" 2>"$work/said"
    answers 'a directory is not answered'
    told 'a directory'
    run_within "$limit" "$program" <"$1" >/dev/full 2>"$work/said"
    told 'a full device'
    # another program may not see it: Rust opens what is closed
    case $program in crates/*/out/*) ;; *) return ;; esac
    run_within "$limit" "$program" <"$1" >&- 2>"$work/said"
    told 'no standard output'
}
