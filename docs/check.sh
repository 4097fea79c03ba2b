#!/bin/sh
# Every public function has its line in CONTRACTS.md, under its crate's heading and with its module and type before its name, and each line
# there its function; none has a `requires`, each has an `ensures`, and no `ensures` has a premise: the only arrows in it are those of "for every x".
set -eu
cd "$(dirname "$0")/.."
status=0

# The public functions of a file, as CONTRACTS.md names them: module::Type::name, without the module in lib.rt.
public() { # FILE
    module=$(basename "$1" .rt)
    [ "$module" != lib ] || module=''
    awk -v before="${module:+$module::}" '
        /^impl / { type = $2 "::" }
        /^}/ { type = "" }
        match($0, /^ *pub (extern "C" )?fn [a-z_0-9]+/) { name = substr($0, RSTART, RLENGTH); sub(/.* /, "", name); print before type name }' "$1"
}

# The functions that have a line under a crate's heading.
written() { # CRATE
    awk -v crate="$1" '/^## / { on = ($2 == crate) } on && match($0, /^\| `[A-Za-z_0-9:]+\(/) { print substr($0, 4, RLENGTH - 4) }' docs/CONTRACTS.md
}

# What the first list has more often than the second.
beyond() { # LIST LIST
    { printf '%s\n' "$2"; echo; printf '%s\n' "$1"; } | awk '/^$/ { now = 1; next } !now { have[$0]++ } now && have[$0]-- <= 0'
}

for crate in crates/*/; do
    name=$(basename "$crate")
    [ -f "$crate/src/lib.rt" ] || continue
    functions=$(for file in "$crate"src/*.rt; do public "$file"; done)
    lines=$(written "$name")
    for function in $(beyond "$functions" "$lines"); do
        echo "docs/CONTRACTS.md has no line for $name: $function" >&2
        status=1
    done
    for function in $(beyond "$lines" "$functions"); do
        echo "docs/CONTRACTS.md has a line for $name: $function, which is no public function, or has a line already" >&2
        status=1
    done
    awk -v name="$name" '
        function done() {
            if (fn == "") return
            while (sub(/\([^():]+ : ℕ\) →/, "", promise)) {}
            if (requires) wrong("has a requires")
            if (promise == "") wrong("has no ensures")
            if (promise ~ /→/) wrong("has a premise in its ensures")
            fn = ""
        }
        function wrong(what) { print name ": " fn " " what; bad = 1 }
        /^ *pub (extern "C" )?fn / { done(); fn = $0; promise = ""; requires = promising = 0 }
        fn != "" && /^ *requires/ { requires = 1; promising = 0 }
        fn != "" && /^ *ensures/ { promising = 1 }
        fn != "" && /^ *\{ *$/ { done() }
        fn != "" && promising { promise = promise $0 }
        END { done(); exit bad }' "$crate"src/*.rt >&2 || status=1
done
exit $status
