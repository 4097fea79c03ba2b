# How much stack each exported function and each program takes: at most, by its machine code, and what was painted. Sourced by
# tests/run.sh, for its mode `stack`: what it uses and doesn't have stands there.

# Of the compiler that makes x86-64 code.
binary() { # objdump|nm WORDS...
    tool=${cc%gcc}$1
    shift
    LC_ALL=C "$tool" "$@"
}

# ---- the bounds, by bound.awk

# A program has its jump tables as bytes, an object as relocations.
describe() { # library|program FILE
    binary objdump -dr --no-show-raw-insn "$2"
    case $1 in
    program) binary objdump -s "$2" ;;
    library) binary objdump -r "$2" && binary nm "$2" ;;
    esac
}

bounds() { # library|program FILE NAMES
    describe "$1" "$2" >"$build/described"
    awk -v kind="$1" -v roots="$3" -f "$here/stack/bound.awk" "$build/described" || true # a refusal has its line
}

exported() { binary nm -g --defined-only "$library" | awk '$2 == "T" { print $3 }' | sort | tr '\n' ' '; }

# The first call of a function of the C library must not run the loader, which would be on the same stack.
binds_at_start() { binary objdump -p "$1" | grep -Eq '^ *FLAGS +0x[0-9a-f]*[89a-f]$'; }

program_bounds() { # FILE
    if binds_at_start "$1"; then bounds program "$1" main; else echo 'main refused binds names while it runs'; fi |
        sed "s/^main /${1##*/} /"
}

# ---- the reader itself: what it says of code whose stack is known by counting

holds() { # library|program FILE SOURCE
    sed -n 's/^#= //p' "$here/stack/$3" >"$build/wanted"
    bounds "$1" "$build/$2" "$(sed '/^undefined /d; /^weak /d; s/ .*//' "$build/wanted" | tr '\n' ' ')" >"$build/read"
    [ -s "$build/wanted" ] && diff "$build/wanted" "$build/read" >&2 || die "the reader of stack is wrong about $3, as a $1"
    count=$(grep -c . "$build/wanted")
}

test_reader() {
    for file in known broken; do "$cc" -c -o "$build/$file.o" "$here/stack/$file.s"; done
    "$cc" -Wl,-z,now -o "$build/known" "$build/known.o"
    holds library known.o known.s
    holds program known known.s
    known=$count
    holds library broken.o broken.s
    say "the reader of stack: right on $known cases known by counting, as object and as program, and refuses $count as it should"
}

# ---- what is printed

paint() {
    wraps=$(sed -n 's/^ *painted \([a-z_]*\)$/-Wl,--wrap=\1/p' "$here/stack/painted.S")
    program "$build/stack" -O3 -Wl,-z,now $wraps "$here/bench/stack.c" "$here/bench/boards.c" "$here/plain/plain.c" \
        "$here/stack/painted.S"
    run "$build/stack" >"$build/painted"
}

compare_with_figures() {
    functions=$(exported) programs=''
    bounds library "$library" "$functions" >"$build/bounds"
    for source in "$root"/crates/*/src/main.rt; do
        crate=${source%/src/main.rt}
        file=$crate/out/${crate##*/}
        [ -f "$file" ] || continue
        programs="$programs ${file##*/}"
        program_bounds "$file" >>"$build/bounds"
    done
    awk -v functions="$functions" -v programs="$programs" -f "$here/stack/report.awk" \
        "$root/docs/PERFORMANCE.md" "$build/painted" "$build/bounds"
}

stack() {
    [ "$machine" = x86_64 ] || [ "$subject" != plain ] ||
        die "stack is read and painted in x86-64 code, which SUBJECT=plain is not on $machine: take SUBJECT=cross"
    test_reader
    paint
    printf 'bytes of stack, from the caller'\''s stack pointer just before the call; %s\n\n' "$where"
    wrong=0
    [ "$subject" != library ] || compare_with_figures || wrong=1
    printf 'Painted for each call, the most over its boards\n\n'
    grep -v '^mark ' "$build/painted"
    return "$wrong"
}
