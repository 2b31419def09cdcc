# The one place that knows which processor this machine has.
# What the toolchain of Rattle builds is for x86-64, on every machine. On x86-64 nothing here adds anything. On another processor, such
# as Arm (aarch64), C and Rust are compiled for x86-64 too, and what was built runs under an emulator.
# A script that compiles, or starts what was built, sources this file. Before that it sets 'here' to the top folder of the repository
# and defines 'fail MESSAGE', which ends the script. Afterwards it has:
#   need COMMAND ..         looks for a command, and installs it; one that makes code then makes it for x86-64
#   need_runner             looks for what runs a built program, and installs it; comes before the next three
#   run PROGRAM ..          runs a built program
#   run_within SECONDS ..   the same, for so long at most
#   run_instead PROGRAM ..  runs it in place of the script
#   emulated                tells whether an emulator runs it
# Rust programs that start built programs read the emulator from the variable that cargo itself reads (compare/src/runner.rs).

processor=$(uname -m)
rust_target=x86_64-unknown-linux-gnu
stand_ins=$(cd "$here" && pwd -P)/target/for-x86-64
runner=

emulated() {
    [ "$processor" != x86_64 ]
}

run() { # PROGRAM ARGUMENT..
    can_run "$1" || return 127
    $runner "$@"
}

# the same for so many seconds at most; then the status is 124
run_within() { # SECONDS PROGRAM ARGUMENT..
    seconds=$1
    shift
    can_run "$1" || return 127
    timeout "$seconds" $runner "$@"
}

run_instead() { # PROGRAM ARGUMENT..
    can_run "$1" || exit 127
    exec $runner "$@"
}

# an emulator says nothing of a program that is not there; a shell does
can_run() { # PROGRAM
    if emulated && [ ! -x "$1" ]; then
        echo "$1: not found" >&2
        return 1
    fi
}

need() { # COMMAND PACKAGES WHAT-IT-DOES
    case $(emulated && echo "$1") in
        cc) need_for_x86_64 cc x86_64-linux-gnu-gcc 'gcc-x86-64-linux-gnu libc6-dev-amd64-cross' "$3" ;;
        c++) need_for_x86_64 c++ x86_64-linux-gnu-g++ 'g++-x86-64-linux-gnu libc6-dev-amd64-cross libstdc++6:amd64' "$3" ;;
        ar | nm) need_for_x86_64 "$1" "x86_64-linux-gnu-$1" binutils-x86-64-linux-gnu "$3" ;;
        cargo) need_rust_for_x86_64 "$3" ;;
        *) need_command "$@" ;;
    esac
}

need_command() { # COMMAND PACKAGES WHAT-IT-DOES
    command -v "$1" >/dev/null 2>&1 && return
    install_packages "$2" "a command that $3"
    command -v "$1" >/dev/null 2>&1 || fail "the command '$1' is not on the PATH. It $3; install Debian's $2, or the like from elsewhere."
}

# installs packages where this runs as root and apt-get is there, and says so on standard error: standard output is for answers
install_packages() { # PACKAGES WHAT-FOR
    [ "$(id -u)" = 0 ] && command -v apt-get >/dev/null 2>&1 || return 0
    case $1 in *:amd64*) take_x86_64_packages || return 0 ;; esac
    echo "installing $1, for $2" >&2
    # Recommended packages are left out: one of them registers the emulator with the kernel. No input: it may be a script to replay.
    # shellcheck disable=SC2086 # several packages are several words
    { apt-get update && DEBIAN_FRONTEND=noninteractive apt-get install -y --no-install-recommends $1; } </dev/null >/dev/null ||
        fail "apt-get could not install $1"
}

# ---- only where an emulator runs what is built ----

# Debian has the packages of all its processors in one place; where another system has not, apt-get would fail from then on
take_x86_64_packages() {
    is_debian && dpkg --add-architecture amd64
}

is_debian() {
    grep -qx 'ID=debian' /etc/os-release 2>/dev/null
}

need_runner() {
    emulated || return 0
    has_runner || install_packages 'qemu-user libc6:amd64' "running programs for x86-64 on this processor, $processor"
    has_runner || fail "what is built here is for x86-64, and this processor is $processor. An emulator and a C library for x86-64 are" \
        "needed to run it. On Debian, as root: 'dpkg --add-architecture amd64', 'apt-get update'," \
        "'apt-get install --no-install-recommends qemu-user libc6:amd64'."
    runner=qemu-x86_64
    export CARGO_TARGET_X86_64_UNKNOWN_LINUX_GNU_RUNNER=$runner
}

# the emulator, and the loader that every built program asks for
has_runner() {
    command -v qemu-x86_64 >/dev/null 2>&1 && [ -e /lib64/ld-linux-x86-64.so.2 ]
}

# makes a command mean another: a folder with nothing but that command comes first on the PATH. It is a link and no script where it can
# be: a shell hands no variable on whose name has a dash, and cargo gives such ones to rustc
stand_in() { # COMMAND PROGRAM [OPTION]
    folder=$stand_ins/$1
    file=$folder/$1
    mkdir -p "$folder" && rm -f "$file" || fail "$folder could not be written"
    if [ $# = 2 ]; then
        ln -s "$2" "$file"
    else
        printf '#!/bin/sh\nexec "%s" %s "$@"\n' "$2" "$3" >"$file" && chmod +x "$file"
    fi || fail "$file could not be written"
    PATH=$folder:$PATH
    export PATH
}

# the folders of the PATH, a line each, but for those of stand-ins: this script or one that called it may have put them there
own_path() {
    printf '%s\n' "$PATH" | tr ':' '\n' | grep -v '/target/for-x86-64/'
}

need_for_x86_64() { # COMMAND ITS-NAME-HERE PACKAGES WHAT-IT-DOES
    works_for_x86_64 "$1" "$2" || install_packages "$3" "a command that $4, for x86-64"
    works_for_x86_64 "$1" "$2" || fail "there is no '$2' that works. It $4, for x86-64; install Debian's $3, or the like from elsewhere."
    stand_in "$1" "$(command -v "$2")"
    # clang compiles for every processor, and tests try it where it is there; it takes headers and libraries of the cross compiler
    for clang in clang clang++; do
        if own=$(PATH=$(own_path | paste -s -d : -) && command -v "$clang"); then stand_in "$clang" "$own" --target=x86_64-linux-gnu; fi
    done
}

# a cross compiler may be there without the libraries that a program is linked with, or needs to run, which are packages of their own
works_for_x86_64() { # COMMAND ITS-NAME-HERE
    case $1 in
        cc) links_a_program "$2" c ;;
        c++) links_a_program "$2" c++ && [ -e /usr/lib/x86_64-linux-gnu/libstdc++.so.6 ] ;;
        *) command -v "$2" >/dev/null 2>&1 ;;
    esac
}

links_a_program() { # COMPILER LANGUAGE
    linked=$(mktemp) || fail "no temporary file"
    printf '#include <stdio.h>\nint main(void) { return 0; }\n' | "$1" -x "$2" -o "$linked" - >/dev/null 2>&1
    set -- $?
    rm -f "$linked"
    return "$1"
}

need_rust_for_x86_64() { # WHAT-IT-DOES
    rust=$(rust_for_x86_64)
    if [ -z "$rust" ]; then
        install_packages 'cargo rustc libstd-rust-dev:amd64' "a command that $1, for x86-64"
        rust=$(rust_for_x86_64)
    fi
    [ -n "$rust" ] || fail "no cargo on the PATH compiles for $rust_target. It $1; on Debian, after 'dpkg --add-architecture amd64'" \
        "and 'apt-get update', install cargo, rustc and libstd-rust-dev:amd64, or let rustup add the target."
    for tool in cargo rustc rustdoc; do stand_in "$tool" "$rust/$tool"; done
    # Build scripts call 'cc' and 'ar', which make code for x86-64 then; what runs while cargo builds is linked for this processor.
    need cc '' "links what cargo builds"
    need ar '' "archives what cargo builds"
    need gcc 'gcc libc6-dev' "links what cargo runs while it builds"
    native=$("$rust/rustc" -vV | sed -n 's/^host: //p' | tr 'a-z-' 'A-Z_')
    export "CARGO_TARGET_${native}_LINKER=gcc" CARGO_TARGET_X86_64_UNKNOWN_LINUX_GNU_LINKER=x86_64-linux-gnu-gcc
    export CARGO_BUILD_TARGET=$rust_target
}

# the first folder of the PATH whose Rust has a standard library for x86-64
rust_for_x86_64() {
    own_path | while IFS= read -r folder; do
        [ -x "$folder/cargo" ] && library=$("$folder/rustc" --print target-libdir --target "$rust_target" 2>/dev/null) || continue
        if ls "$library"/libstd-*.rlib >/dev/null 2>&1; then
            echo "$folder"
            break
        fi
    done
}
