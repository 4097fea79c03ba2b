#!/bin/sh
# What the program boardlist writes for files that are refused, each number, HH and HR, and for some that are not.
set -eu
top=$(cd "$(dirname "$0")/.." && pwd -P)
work=$(mktemp -d)
trap 'rm -rf "$work"' EXIT
wrong=0 count=0

# The bytes in $work/file are to be listed so.
listed() { # NAME WANTED
    printf '%s\n' "$2" >"$work/wanted"
    "$top/list" "$work/file" >"$work/listed" || echo "list ended with status $?" >>"$work/listed"
    cmp -s "$work/wanted" "$work/listed" || {
        echo "tests: boardlist on $1 wrote '$(cat "$work/listed")' and not '$2'" >&2
        wrong=1
    }
    count=$((count + 1))
}

bytes() { # NAME OCTAL WANTED
    printf "$2" >"$work/file"
    listed "$1" "$3"
}

bytes 'an empty file' '' 'refused 10'
bytes 'a file of five bytes' '\0\0\001\0\110' 'refused 10'
bytes 'another mark' '\0\0\0\001\0\110\111' 'refused 10'
bytes 'a first role that is not 0' '\001\0\0\001\0\110\110' 'refused 11'
bytes 'an edge from a role to itself' '\0\001\001\001\001\003\0\005\0\110\110' 'refused 11'
bytes 'a loop' '\0\001\0\001\001\001\0\001\006\0\010\0\110\110' 'refused 7'
bytes 'a role without an administrator' '\0\001\0\0\002\0\110\110' 'refused 9'
bytes 'HR with the rights that HH means' '\0\037\001\0\0\0\002\0\110\122' 'refused 11'
bytes 'a rights byte of 32' '\0\040\001\0\0\0\002\0\110\122' 'refused 11'
bytes 'HR without a rights distance' '\0\037\0\0\0\0\002\0\110\122' 'refused 10'
bytes 'HH closed by HR' '\0\0\0\001\0\110\122' 'refused 10'
head -c 6185 /dev/zero >"$work/file"
listed 'a byte more than the longest file' 'refused 10'
head -c 40000 /dev/zero | cat - "$top/boards/full.board" >"$work/file"
listed 'a board file behind 40,000 bytes' 'refused 10'
{ cat "$top/boards/full.board"; printf 'H'; } >"$work/file"
listed 'a byte behind the longest HH file' 'refused 10'
bytes 'the board of the scope document' '\0\001\002\0\001\001\001\002\002\006\0\011\0\110\110' 'roles 3 edges 2
0 - 0
1 0 1
2 1 2'
bytes 'role 0 without rights' '\0\0\001\0\0\0\002\0\110\122' 'roles 1 edges 0
0 - 0'
cp "$top/boards/p.board" "$work/file"
listed 'board P, with rights' 'roles 4 edges 3
0 - 0
1 0 1
2 1 2
3 1 2'
each=$(awk 'BEGIN { print "roles 64 edges 2016\n0 - 0"; for (r = 1; r < 64; r++) print r, r - 1, r }')
cp "$top/boards/full.board" "$work/file"
listed 'the longest HH file' "$each"
cp "$top/boards/longest.board" "$work/file"
listed 'the longest HR file' "$each"
[ "$wrong" -eq 0 ] && echo "tests: boardlist wrote what it should for $count files"
