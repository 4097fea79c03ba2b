#!/bin/sh
# Counts the places of docs/DESIGN-PASS.md: a row for each crate, a column for each of its points.
#
#   tools/places.sh [TREE]              the counts, in a checkout of this repository (default: the one that this script stands in)
#   tools/places.sh lines POINT [TREE]  the places of one point, line by line
#
# A pattern finds some lines that are no place, and a name is only found where it is listed here: the page says what was found by reading.
set -eu

# Each function on one line: where it begins, and its head up to its clauses or its body.
heads() { # FILE...
    awk '/^ *(pub(\([a-z]+\))? )?(extern "C" )?fn / { head = ""; on = 1; at = FNR }
        on && /^ *(requires|ensures)|^ *\{/ { print FILENAME ":" at ":" head; on = 0 }
        on { gsub(/^ +/, " "); head = head $0; if (/\{ *\}?$/) { print FILENAME ":" at ":" head; on = 0 } }' "$@"
}

# 1: enums of two variants of which one at least has a value; structs with a number or a flag beside what it speaks of; functions that answer
# a number or a flag in place of a refusal or of nothing; comparisons with a number that stands for a code, a kind, a cause or a refusal.
types() {
    awk '/^(pub(\([a-z]+\))? )?(enum|struct) / { name = $0; kind = / enum |^enum /; bare = valued = flag = 0; on = 1; at = FNR }
        on && kind && /^    [A-Z][A-Za-z]*,/ { bare++ }
        on && kind && /^    [A-Z][A-Za-z]*( \{|\()/ { valued++ }
        on && !kind && /^ *(pub(\([a-z]+\))? )?(number|fine|yes|wrong|cause): / { flag = 1 }
        on && /^}/ { if (kind ? bare + valued == 2 && valued : flag) print FILENAME ":" at ":" name; on = 0 }' "$@"
}
one() {
    types "$@"
    heads "$@" | grep -E -- '-> (io::)?(Result<)?u8\b' || :
    heads "$@" | grep -E 'fn (place_in|code|kind|set_name|right|grown|role|name|first|unmanaged|standing|kind_of|put_argument|folder|fault|place_of|steps)\(.*-> (u32|u64|usize)\b' || :
    heads "$@" | grep -E 'fn (edges|holdings|held)\(.*-> bool' || :
    grep -nHE '\b(code|kind|number|cause|refusal|found|trouble|late|early|named|wrong)\b *(==|!=|<=|<|>=|>) *[0-9]|[0-9]+ *(<|<=) *[a-z.]*(code|kind|number|cause|named)\b' "$@" || :
}

# 2: of functions that do the same for another type or size, with another constant, or handed over another way, all but one. Each line has a
# crate, the function, and the one that it repeats.
twins='
board        sound_of            sound
boardchange  read_whole          boardlist read_full
boardchange  change_by_copy      change_file
boardchange  put_byte            put
boardchange  put_line_form       put_line
boardchange  standing            writer kind
boardchange  held_by_any         refusals held_among
boardchange  asked               refusals asked
boardfile    read_into           read
boardfile    stretch_number      bounds
boardlist    read_input          boardchange load_from
boardlist    say                 examples text
boardlist    number              examples number
commands     apply               decide
commands     apply_in_place      decide
commands     step                decide
examples     applied             commands apply
examples     on_edge_lent        on_edge
examples     add_role            on_edge
examples     add_between         on_edge
examples     remove_role         on_edge
examples     on_rights           on_edge
examples     on_code             on_edge
examples     kind_of             writer kind
hierarchy    clear               blank
hierarchy    whole_row           whole
host         read_packed         board_read
host         write_packed        board_write
host         commanded           board_command
jobexamples  text                examples text
jobexamples  number              examples number
jobexamples  add_under           exampleboards add_role
jobexamples  add_role            exampleboards add_role
jobexamples  command             exampleboards command
jobexamples  remove_role         exampleboards remove_role
jobexamples  w                   exampleboards w
jobs         claim_of            claim
jobs         release_of          release
questions    derives_of          derives
questions    scope_of            scope
refusals     held_among          hierarchy rows
runs         run_by_value        run
runs         blank               hierarchy blank
scopes       related             in_scope
scopes       scope_of            scope
scopes       bar_of              bars
wording      kind                code
wording      set_name            code
wording      right               code
writer       write_of            write
writer       put_rights          put_roles
'
two() {
    crate=${1#crates/}
    names=$(printf '%s' "$twins" | awk -v crate="${crate%%/*}" '$1 == crate { printf "%s%s", (n++ ? "|" : ""), $2 }')
    [ -z "$names" ] || heads "$@" | grep -E "fn ($names)(<[^>]*>)?\\(" || :
}

# 3: loops that go on by hand.
three() { grep -nHE '^ *(loop \{|while )' "$@" || :; }

# 4: comparisons, copies, conversions written out; and text that is printed or put piece by piece.
four() {
    heads "$@" | grep -E 'fn (same|same_rows|wide|copy|chosen|either|least|fault|place_of|place_number|one_if|one_if_held|member_or_0|manager_value|third|shown|number|text|say|line_end|yes_or_no|plain|nothing|blank)(<[^>]*>)?\(' || :
    grep -nHE '\b(text|number|say|listed|roles|reason|bytes)\(&?rt, |\bput(_[a-z]+)?\((&mut )?out,|\bput(_[a-z]+)?\($' "$@" || :
}

# 5: functions to which two rows of a board or more are handed by themselves; demands that stand three times or more in a crate.
five() {
    heads "$@" | grep -E "(: (&('[a-z]+ )?(mut )?)?\[u(64|8); (64|Board::ROLES)\].*){2}" || :
    grep -hE '^ *requires ' "$@" | sort | uniq -c | awk '$1 > 2 { n = $1; $1 = ""; for (; n; n--) print "requires, again:" $0 }'
}

# 6: buffers with a place or a length beside; rows that lie side by side.
six() {
    heads "$@" | grep -E '\[u8\].*\b(at|n): usize|\bat: usize.*\[u8\]|\bmarks: &' || :
    grep -nHE '^ *let mut [a-z_]+ = (\[0(u64|u8|u32)?; (64|1024)\]|\*(i|a|derives|derivers|manager|down|up|rights));' "$@" || :
}

# 7: functions that are told by a flag what to do.
seven() { heads "$@" | grep -E '[(,] *(mut )?[a-z_]+: bool\b' || :; }

# 8: lines of proofs.
eight() { cat /dev/null $(find "${1%/src/*}/proofs" -name '*.antt' 2>/dev/null); }

point() { # POINT FILE...
    point=$1
    shift
    case $point in
    1) one "$@" ;; 2) two "$@" ;; 3) three "$@" ;; 4) four "$@" ;; 5) five "$@" ;; 6) six "$@" ;; 7) seven "$@" ;; 8) eight "$@" ;;
    esac
}

here=$(cd "$(dirname "$0")/.." && pwd -P)
if [ "${1:-}" = lines ]; then
    cd "${3:-$here}"
    for crate in crates/*/; do point "$2" "$crate"src/*.rt; done
    exit
fi
cd "${1:-$here}"
row='%-14s %6s %6s %6s %6s %6s %6s %6s %8s\n'
printf "$row" crate 1 2 3 4 5 6 7 8
for crate in crates/*/; do
    set -- "$(basename "$crate")"
    for n in 1 2 3 4 5 6 7 8; do set -- "$@" "$(point "$n" "$crate"src/*.rt | wc -l)"; done
    printf "$row" "$@"
done | awk -v row="$row" '{ print; for (k = 2; k <= 9; k++) sum[k] += $k }
    END { printf row, "all", sum[2], sum[3], sum[4], sum[5], sum[6], sum[7], sum[8], sum[9] }'
