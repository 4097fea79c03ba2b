#!/bin/sh
# The program boardchange by many at once. See README.md.
#
#   tests/race/run.sh sample      some of each, half a minute: for the gate
#   tests/race/run.sh full        200 rounds of 64 processes, each story 1,000 times, every kill: by hand
#   tests/race/run.sh rounds | mixed | story | killed | third | disk [ROUNDS]       one of them
#   tests/race/run.sh broken      the protocol broken on purpose (broken/*.patch): the tests must notice each
#   tests/race/run.sh times       how many changes a second one file takes
#
# PROGRAM=FILE   the program (default crates/boardchange/out/boardchange)
# CHANGE=FILE    the script (default ./change), which starts that program
# SEED=N         of what is drawn (default 1)
# BUILD=DIR      for what is built, and for the boards that are changed (default target/tests/race)
set -eu

here=$(cd "$(dirname "$0")" && pwd -P)
tests=$(dirname "$here")
root=$(dirname "$tests")
build=${BUILD:-$root/target/tests/race}
built=crates/boardchange/out/boardchange
program=${PROGRAM:-$root/$built}
change=${CHANGE:-$root/change}
seed=${SEED:-1}
machine=$(uname -m)

say() { printf 'race: %s\n' "$*"; }
die() { printf 'race: %s\n' "$*" >&2; exit 2; }

# ---- building: the tests for this machine; only the program may have to be emulated

tools() {
    mkdir -p "$build"
    rm -rf "$build/logs"
    BUILD=$root/target/tests SUBJECT=plain "$tests/run.sh" tools >/dev/null # sees to gcc
    rt=$(command -v rt) || die "rt is not on the path, so the kit's C library can't be found"
    kit=${RATTLE_HOME:-$(dirname "$(dirname "$(readlink -f "$rt")")")}
    loader=$kit/toolchain/lib/ld-linux-x86-64.so.2
    emulator='' where="$machine, $(nproc) cores"
    [ "$machine" = x86_64 ] || emulator=$(command -v qemu-x86_64) || die "qemu-x86_64 is missing"
    [ -z "$emulator" ] || where="x86-64 emulated on $where"
    gcc -std=gnu11 -O2 -Wall -Wextra -I "$root/host" -I "$tests" -o "$build/race" \
        "$here"/*.c "$tests"/model/*.c "$tests/compare/chance.c"
}

# ---- running

# What a killed ./change leaves in the folder for temporary files stays below ours.
race() { # TEST ROUNDS
    [ -x "$program" ] || die "there is no program at $program: make it with './start --build boardchange'"
    script=''
    [ ! -x "$change" ] || [ "$program" != "$root/$built" ] || script=$change
    rm -rf "$build/tmp" "$build/work"
    mkdir -p "$build/tmp" "$build/work" "$build/logs"
    TMPDIR=$build/tmp "$build/race" "$1" -s "$seed" -n "$2" -w "$build/work" -l "$build/logs" ${script:+-c "$script"} -- \
        ${emulator:+"$emulator"} "$loader" --library-path "${loader%/*}" "$program"
}

each() { # ROUNDS STORIES MIXED THIRDS
    [ -x "$change" ] || die "there is no script at $change"
    fit
    failed=0
    race rounds "$1" || failed=1
    race story "$2" || failed=1
    race killed 1 || failed=1
    race mixed "$3" || failed=1
    race third "$4" || failed=1
    race disk 1 || failed=1
    [ "$failed" -eq 0 ] || { say "SEED=$seed: something disagrees"; exit 1; }
    say "all agree"
}

# ---- the protocol broken on purpose

# A patch that doesn't fit breaks nothing, and then nobody knows whether the tests would notice.
fit() {
    command -v patch >/dev/null || die "patch is missing"
    for patch in "$here"/broken/*.patch; do
        (cd "$root" && patch -p1 -s -F0 --dry-run <"$patch") || die "${patch##*/} doesn't fit crates/boardchange/src/protocol.rt any more"
    done
}

# A copy of the repository with the libraries that are built already, so that only the one crate is built anew. It stands elsewhere, since
# rt ci refuses a repository with crates of another in it.
copy_repository() {
    copy=$(mktemp -d)
    trap 'rm -rf "$copy"' EXIT
    (cd "$root" && tar -cf - --exclude='crates/*/out/incremental' crates crates.txt) | tar -xf - -C "$copy"
}

break_it() { # PATCH
    rm -rf "$copy/crates/boardchange"
    cp -a "$root/crates/boardchange" "$copy/crates"
    program=$copy/$built
    rm -f "$program"
    (cd "$copy" && patch -p1 -s <"$1")
    (cd "$copy/crates/boardchange" && rt run) >"$build/broken.log" 2>&1 </dev/null || : # it runs too, without words
    [ -x "$program" ] || die "${1##*/}: the broken program can't be built; $build/broken.log says why"
}

# Where one round doesn't notice it others may: that is chance. How many disagreements each test has.
notice() { # PATCH
    noticed=''
    for test in 'rounds 3' 'story 200' 'killed 1'; do
        race ${test% *} "${test#* }" >"$build/said" 2>&1 || [ $? -eq 1 ] || { cat "$build/said"; die "${test% *} doesn't end as it should"; }
        noticed="$noticed ${test% *} $(grep -c '^DISAGREEMENT' "$build/said" || :),"
    done
    sed -n "s/^# //p" "$1" | head -n 1
    printf '    disagreements:%s\n' "${noticed%,}"
    case $noticed in *' '[1-9]*) ;; *) missed=1 ;; esac
}

broken() {
    missed=0
    fit
    copy_repository
    for patch in "$here"/broken/*.patch; do
        break_it "$patch"
        notice "$patch"
    done
    [ "$missed" -eq 0 ] || { say "something broken was not noticed"; exit 1; }
    say "each was noticed"
}

# ---- what to do

case ${1:-} in
sample)
    tools
    say "sample, $where, SEED=$seed"
    each 5 30 2 2
    ;;
full)
    tools
    say "full run, $where, SEED=$seed"
    each 200 1000 30 20
    ;;
rounds | mixed | story | killed | third | disk)
    tools
    race "$1" "${2:-10}"
    ;;
broken)
    tools
    broken
    ;;
times)
    tools
    say "times, $where"
    race times "${2:-80}"
    ;;
*)
    sed -n '2,/^set/s/^# \{0,1\}//p' "$0"
    exit 2
    ;;
esac
