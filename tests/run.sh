#!/bin/sh
# The tests from outside. See README.md.
#
#   tests/run.sh sample | full       the records' layout, then the model against the library
#   tests/run.sh seeds [N]           the model against the library as in sample, for the seeds 1 to N (default 40)
#   tests/run.sh layout              the records' layout alone
#   tests/run.sh replay FILE         the case lines that a disagreement printed ("-": standard input)
#   tests/run.sh history N           one of the job list's histories again, by its number
#   tests/run.sh mutations           the broken models of mutations.txt: the comparison must notice each
#   tests/run.sh bench               what a call costs in time
#   tests/run.sh stack               and in stack: at most, by the machine code, and painted; held to docs/PERFORMANCE.md
#   tests/run.sh instructions        and in instructions, as the emulator runs it: it counts them one by one
#   tests/run.sh boards              makes the files of boards/ anew by the library's writer
#   tests/run.sh tools               only see to the compiler and the emulator
#
# LIBHOST=FILE   the library (default crates/host/out/libhost.a)
# SUBJECT=plain  the plain C in the library's place, compiled for this machine
# SUBJECT=cross  the same, compiled and run as the library is
# SEED=N         of the comparison (default 1)
# FROM=N         in mutations: only those from this number on
# PLAIN=walks    in bench: the plain C by a walk from each role, another algorithm
# BUILD=DIR      for what is built (default target/tests)
set -eu

here=$(cd "$(dirname "$0")" && pwd -P)
root=$(dirname "$here")
build=${BUILD:-$root/target/tests}
library=${LIBHOST:-$root/crates/host/out/libhost.a}
subject=${SUBJECT:-library}
seed=${SEED:-1}
machine=$(uname -m)

say() { printf 'tests: %s\n' "$*"; }
die() { printf 'tests: %s\n' "$*" >&2; exit 2; }

# ---- the compiler, and what runs x86-64 programs where the machine doesn't

packages() { DEBIAN_FRONTEND=noninteractive apt-get install -y --no-install-recommends "$@"; }

need() { # COMMAND PACKAGE...
    command -v "$1" >/dev/null && return
    wanted=$1
    shift
    say "$wanted is missing: installing $*"
    command -v apt-get >/dev/null || die "there is no apt-get to install $* with"
    { packages "$@" || { apt-get update && packages "$@"; }; } >"$build/apt.log" 2>&1 ||
        die "apt-get can't install $* ($build/apt.log says why)"
}

find_emulator() {
    need qemu-x86_64 qemu-user
    emulator=$(command -v qemu-x86_64)
    for word in $(env | sed -n 's/^\(QEMU_[A-Za-z0-9_]*\)=.*/\1/p'); do unset "$word"; done
}

tools() {
    mkdir -p "$build"
    emulator='' static='' cc=gcc where=$machine
    if [ "$machine" = x86_64 ] || [ "$subject" = plain ]; then
        need gcc gcc libc6-dev
    else
        cc=x86_64-linux-gnu-gcc static=-static where="x86-64 emulated on $machine"
        need "$cc" gcc-x86-64-linux-gnu libc6-dev-amd64-cross
        find_emulator
    fi
}

# ---- building

header=$root/host

case $subject in
library) library_words=$library subject_words='' plain='' ;;
plain | cross) library_words='' subject_words=-DSUBJECT_PLAIN plain=$here/plain/plain.c ;;
*) die "SUBJECT is library, plain or cross" ;;
esac

compile() { # WORDS...
    "$cc" -std=gnu11 -O2 -Wall -Wextra $subject_words -I "$header" -I "$here" "$@"
}

program() { # OUT WORDS...
    [ "$subject" != library ] || [ -f "$library" ] ||
        die "there is no library at $library: make it with 'rt lib' in crates/host, or name it with LIBHOST"
    out=$1
    shift
    compile $static -o "$out" "$@" ${library_words:+"$library_words"}
}

build_compare() { # OUT
    program "$1" "$here"/model/*.c "$here"/compare/*.c ${plain:+"$plain"}
}

run() { ${emulator:+"$emulator"} "$@"; }

layout() {
    program "$build/layout" "$here/layout.c" ${plain:+"$plain"}
    run "$build/layout"
}

# ---- the sample for many seeds: a drawing that fills every class for one may leave a class wanting for another

seeds() { # N
    tried=0 failed=0
    while [ "$tried" -lt "$1" ]; do
        tried=$((tried + 1)) status=0
        run "$build/compare" --sample --no-examples --seed "$tried" >"$build/said" 2>&1 || status=$?
        [ "$status" -ne 0 ] || continue
        failed=$((failed + 1))
        say "seed $tried: status $status"
        grep -E "^(NOT FILLED|CAN'T BE|DISAGREEMENT)" "$build/said" || :
    done
    if [ "$failed" -gt 0 ]; then say "seeds 1 to $1: $failed fail"; else say "seeds 1 to $1: all pass"; fi
    [ "$failed" -eq 0 ]
}

# ---- instructions: of some calls less those of fewer, so that starting the program doesn't count

executed() { "$emulator" "$singly" -d exec,nochain -D /dev/stdout "$build/once" "$@" 2>"$build/said" | grep -c '^Trace'; }

counted() { # BOARD DEED TIMES FEWER_TIMES
    mine=$(executed "$1" "$2" 0 "$3") other=$(executed "$1" "$2" 1 "$3")
    IFS='|' read -r calls name what <"$build/said"
    mine=$((mine - $(executed "$1" "$2" 0 "$4"))) other=$((other - $(executed "$1" "$2" 1 "$4")))
    IFS='|' read -r fewer name what <"$build/said"
    awk -v m="$mine" -v o="$other" -v c="$((calls - fewer))" -v n="$name" -v w="$what" \
        'BEGIN { printf "| %-22s | %-16s | %9d | %9d | %5.2f |\n", n, w, m / c, o / c, m / o }'
}

instructions_heading() { # TITLE
    printf '\n%s\n\n| %-22s | %-16s | %9s | %9s | %5s |\n|---|---|---:|---:|---:|\n' "$1" board call "$subject" 'plain C' ratio
}

# ---- mutations

# Copies the model and changes the one line that is `old`, apart from its indent, into `new`.
mutate() { # FILE OLD NEW FOLDER
    rm -rf "$4"
    mkdir -p "$4"
    cp "$here"/model/* "$4"
    OLD=$2 NEW=$3 awk '
        { text = $0; sub(/^ +/, "", text) }
        text == ENVIRON["OLD"] { print ENVIRON["NEW"]; found++; next }
        { print }
        END { exit found == 1 ? 0 : 1 }' "$here/model/$1" >"$4/$1"
}

# All but the file that is changed is compiled once.
build_mutant() { # FOLDER FILE
    others=$build/mutation/others
    [ -n "${whole:-}" ] || {
        whole=yes
        mkdir -p "$others"
        for source in "$here"/model/*.c; do compile -c -o "$others/${source##*/}.o" "$source"; done
        compile -r -nostdlib -o "$others/rest.o" "$here"/compare/*.c ${plain:+"$plain"}
    }
    compile -c -o "$1/changed.o" "$1/$2"
    set -- "$1/changed.o" "$2"
    for object in "$others"/*.o; do [ "$object" = "$others/$2.o" ] || set -- "$@" "$object"; done
    changed=$1
    shift 2
    program "$build/mutation/compare" "$changed" "$@"
}

try_mutation() { # NUMBER WHAT FILE OLD NEW
    folder=$build/mutation/model
    mutate "$3" "$4" "$5" "$folder" || die "mutation $1 ($2): its line is not in $3 just once: $4"
    build_mutant "$folder" "$3"
    examples='examples fail'
    if run "$build/mutation/compare" --examples >/dev/null 2>&1; then examples='examples pass'; fi
    status=0
    run "$build/mutation/compare" --sample --no-examples --seed "$seed" >"$build/mutation/said" 2>&1 || status=$?
    if [ "$status" -eq 1 ] && grep -q '^DISAGREEMENT' "$build/mutation/said"; then
        noticed="noticed at $(sed -n 's/^DISAGREEMENT at \(call [0-9]* ([a-z]*)\): .*/\1/p' "$build/mutation/said")"
        caught=$((caught + 1))
    else
        noticed='NOT NOTICED'
    fi
    printf '%2d  %-66s %-30s %s\n' "$1" "$2" "$noticed" "$examples"
}

mutations() {
    count=0 tried=0 caught=0 from=${FROM:-1} what='' file='' old=''
    while IFS= read -r line; do
        case $line in
        'what: '*) what=${line#what: } ;;
        'file: '*) file=${line#file: } ;;
        'old: '*) old=${line#old: } ;;
        'new: '*)
            count=$((count + 1))
            [ "$count" -ge "$from" ] || continue
            tried=$((tried + 1))
            try_mutation "$count" "$what" "$file" "$old" "${line#new: }"
            ;;
        esac
    done <"$here/mutations.txt"
    say "$caught of $tried mutations noticed"
    [ "$tried" -gt 0 ] && [ "$caught" -eq "$tried" ]
}

# ---- what to do

case ${1:-} in
sample | full)
    tools
    say "$1 comparison, $subject, $where"
    layout
    build_compare "$build/compare"
    run "$build/compare" "--$1" --seed "$seed"
    ;;
seeds)
    [ "${2:-40}" -gt 0 ] 2>/dev/null || die "usage: tests/run.sh seeds [N]"
    tools
    build_compare "$build/compare"
    seeds "${2:-40}"
    ;;
layout)
    tools
    layout
    ;;
replay)
    [ $# -eq 2 ] || die "usage: tests/run.sh replay FILE"
    tools
    build_compare "$build/compare"
    run "$build/compare" --replay "$2"
    ;;
history)
    [ $# -eq 2 ] || die "usage: tests/run.sh history N"
    tools
    build_compare "$build/compare"
    run "$build/compare" --history "$2" --seed "$seed"
    ;;
mutations)
    tools
    mkdir -p "$build/mutation"
    mutations
    ;;
bench)
    tools
    walks=''
    [ "${PLAIN:-}" != walks ] || walks=-DPLAIN_BY_WALKS
    program "$build/bench" -O3 $walks "$here/bench/bench.c" "$here/bench/boards.c" "$here/plain/plain.c"
    run "$build/bench" "$where${walks:+, plain C by walks}"
    ;;
stack)
    tools
    . "$here/stack/run.sh"
    stack
    ;;
instructions)
    tools
    [ -n "$emulator" ] || find_emulator
    singly=-one-insn-per-tb
    "$emulator" -help | grep -q -e "$singly" || singly=-singlestep # the flag's older name
    program "$build/once" -O3 "$here/bench/once.c" "$here/bench/boards.c" "$here/plain/plain.c"
    run "$build/once" >"$build/list"
    while read -r board what; do
        if [ "$board" = table ]; then instructions_heading "$what"; else counted "$board" $what </dev/null; fi
    done <"$build/list"
    ;;
boards)
    tools
    program "$build/boards" "$root/boards/make.c"
    cd "$root/boards"
    run "$build/boards"
    ;;
tools)
    tools
    say "$cc for $where"
    ;;
*)
    sed -n '2,/^set/s/^# \{0,1\}//p' "$0"
    exit 2
    ;;
esac
