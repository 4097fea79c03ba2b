#!/bin/sh
# The program boardchange on typed lines, right and wrong, against a reading of the words in C and the model.
#
#   tests/typed/run.sh sample      some seconds: for the gate
#   tests/typed/run.sh full        over 800,000 lines, two or three minutes: by hand
#
# PROGRAM=FILE   the program (default crates/boardchange/out/boardchange)
# SEED=N         of what is drawn (default 1)
# BUILD=DIR      for what is built, and for the board that is changed (default target/tests/typed)
set -eu

here=$(cd "$(dirname "$0")" && pwd -P)
tests=$(dirname "$here")
root=$(dirname "$tests")
build=${BUILD:-$root/target/tests/typed}
program=${PROGRAM:-$root/crates/boardchange/out/boardchange}
seed=${SEED:-1}
machine=$(uname -m)

say() { printf 'typed: %s\n' "$*"; }
die() { printf 'typed: %s\n' "$*" >&2; exit 2; }

# The test is for this machine; only the program may have to be emulated.
tools() {
    mkdir -p "$build/work"
    BUILD=$root/target/tests SUBJECT=plain "$tests/run.sh" tools >/dev/null # sees to gcc
    rt=$(command -v rt) || die "rt is not on the path, so the kit's C library can't be found"
    kit=${RATTLE_HOME:-$(dirname "$(dirname "$(readlink -f "$rt")")")}
    loader=$kit/toolchain/lib/ld-linux-x86-64.so.2
    emulator='' where=$machine
    [ "$machine" = x86_64 ] || emulator=$(command -v qemu-x86_64) || die "qemu-x86_64 is missing"
    [ -z "$emulator" ] || where="x86-64 emulated on $where"
    gcc -std=gnu11 -O2 -Wall -Wextra -I "$root/host" -I "$tests" -o "$build/typed" \
        "$here"/*.c "$tests"/model/*.c "$tests/compare/chance.c" "$tests/compare/draw.c"
}

typed() { # TEXTS SINGLE LEAST [-f]
    [ -x "$program" ] || die "there is no program at $program: make it with './start --build boardchange'"
    "$build/typed" -s "$seed" -t "$1" -a "$2" -l "$3" ${4:+"$4"} -w "$build/work" -b "$root/boards" -- \
        ${emulator:+"$emulator"} "$loader" --library-path "${loader%/*}" "$program"
}

case ${1:-} in
sample)
    tools
    say "sample, $where, SEED=$seed"
    typed 250 150 1
    ;;
full)
    tools
    say "full run, $where, SEED=$seed"
    typed 16000 8000 40 -f
    ;;
*)
    sed -n '2,/^set/s/^# \{0,1\}//p' "$0"
    exit 2
    ;;
esac
