#!/bin/sh
# What ./change and the program boardchange do from the shell: answers, exit statuses, troubles of the system, and what is left in the folder.
# Many at once are the matter of tests/race.
set -eu
top=$(cd "$(dirname "$0")/.." && pwd -P)
work=$(mktemp -d)
trap 'rm -rf "$work"' EXIT
cd "$work"
wrong=0 count=0

# Runs the words after --; the status, standard output and whether standard error says this (a pattern) are to be so. No lock may be left, and
# nothing temporary.
expect() { # NAME STATUS SAID TROUBLE -- WORDS..
    name=$1 status=$2 said=$3 trouble=$4
    shift 5
    got=0
    "$@" >said 2>trouble </dev/null || got=$?
    judge
}

typed() { # NAME STATUS SAID TROUBLE -- WORDS..: the same, with the file `input` on standard input
    name=$1 status=$2 said=$3 trouble=$4
    shift 5
    got=0
    "$@" >said 2>trouble <input || got=$?
    judge
}

judge() {
    count=$((count + 1))
    left=$(find . -name '*.lock' -o -name 'tmp.*' -o -name '.board-queue.??????')
    [ "$got" -eq "$status" ] && [ "$(cat said)" = "$said" ] && [ -z "$left" ] &&
        if [ -n "$trouble" ]; then grep -q -- "$trouble" trouble; else [ ! -s trouble ]; fi && return
    echo "tests: $name: status $got (wanted $status), said '$(cat said)' (wanted '$said'), trouble '$(cat trouble)' (wanted '$trouble'), left '$left'" >&2
    wrong=1
}

export TMPDIR="$work/tmp"
mkdir tmp
change=$top/change
role="a role, 0 to 63"

expect 'no such file' 2 '' 'my.board: No such file' -- "$change" my.board 0 remove-role 1
expect 'found' 0 'done' '' -- "$change" my.board found
expect 'found twice' 2 '' 'there is such a file already' -- "$change" my.board found
expect 'a first role' 0 'done' '' -- "$change" my.board 0 add-role 1 i-seniors 0
expect 'the same again' 1 'refused 4: role 1 is on the board already' '' -- "$change" my.board 0 add-role 1 i-seniors 0
expect 'sets in any order' 0 'done' '' -- "$change" my.board 0 add-role 2 i-seniors 0,1 a-seniors 1
cp my.board before

# words
expect 'role 64' 1 "refused 2: '64': it should be $role" '' -- "$change" my.board 64 remove-role 1
expect 'a number that no type holds' 1 "refused 2: '18446744073709551617': it should be $role" '' -- "$change" my.board 0 remove-role 18446744073709551617
expect 'a number with a sign' 1 "refused 2: '-1': it should be $role" '' -- "$change" my.board 0 remove-role -1
expect 'a set with an empty place' 1 "refused 2: '1,': it should be roles, 0 to 63, with commas and no blanks between: 1,2,5" '' -- "$change" my.board 0 add-role 5 i-seniors 1,
expect 'a set named twice' 1 "refused 2: 'i-seniors': it should be a-seniors, i-seniors, a-juniors or i-juniors, each once" '' -- "$change" my.board 0 add-role 5 i-seniors 1 i-seniors 2
expect 'a set without roles' 1 "refused 2: a word is missing at the end: it should be roles, 0 to 63, with commas and no blanks between: 1,2,5" '' -- "$change" my.board 0 add-role 5 i-seniors
expect 'the right of a right' 1 "refused 2: 'give-rights': it should be all, or some of add-role,remove-role,add-edge,remove-edge,change-edge with commas and no blanks between" '' -- "$change" my.board 0 give-rights 1 give-rights
expect 'a name with a capital' 1 "refused 2: 'Remove-role': it should be add-role, remove-role, add-edge, remove-edge, change-edge, give-rights or take-rights" '' -- "$change" my.board 0 Remove-role 1
expect 'two words in one' 1 "refused 2: '2 a-juniors 1' can't be taken: no word is empty or has a blank in it, and all have at most 4095 bytes" '' -- "$change" my.board 0 add-role '2 a-juniors 1'
expect 'an empty word' 1 "refused 2: '' can't be taken: no word is empty or has a blank in it, and all have at most 4095 bytes" '' -- "$change" my.board 0 remove-role ''
expect 'a line end in a word' 1 "refused 2: '1?done': it should be $role" '' -- "$change" my.board 0 remove-role '1
done'
expect 'a comment as a command' 1 "refused 2: '#': it should be $role" '' -- "$change" my.board '#' hello
long=$(head -c 5000 /dev/zero | tr '\0' 1)
expect 'a word longer than its buffer' 1 "refused 2: '1111111111111111111111111111111111111111..' can't be taken: no word is empty or has a blank in it, and all have at most 4095 bytes" '' -- "$change" my.board 0 remove-role "$long"
cmp -s before my.board || { echo "tests: a refused command changed the file" >&2; wrong=1; }

# lines
printf '' >input
typed 'no line at all' 0 '' '' -- "$change" my.board
printf '# nothing\n\n  \t\n   # still nothing' >input
typed 'no command' 0 '' '' -- "$change" my.board
printf '0 add-role 3 i-seniors 1\r\n0\tadd-role  4   i-seniors 3\n9 add-role 5 i-seniors 1\n\n0 take-rights 3 all' >input
typed 'lines that end in several ways' 1 '1: done
2: done
3: refused 3: role 9 isn'"'"'t live: no such role is on the board
5: done' '' -- "$change" my.board
printf '0 remove-role 4\0\n' >input
typed 'a byte of 0' 1 "1: refused 2: '4?': it should be $role" '' -- "$change" my.board
{ head -c 59984 /dev/zero | tr '\0' '\n'; printf '0 remove-role 4\n'; } >input
typed 'an input of 60000 bytes' 0 '59985: done' '' -- "$change" my.board
printf '\n' >>input
cp my.board before
typed 'an input of 60001 bytes' 1 'refused 2: the input has more than 60000 bytes; nothing of it was tried' '' -- "$change" my.board
head -c 200000 /dev/zero | tr '\0' ',' >input
typed 'an input of 200000 commas' 1 'refused 2: the input has more than 60000 bytes; nothing of it was tried' '' -- "$change" my.board
head -c 60000 /dev/zero | tr '\0' ',' >input
typed 'a line of 60000 commas' 1 "1: refused 2: ',,,,,,,,,,,,,,,,,,,,,,,,,,,,,,,,,,,,,,,,..': it should be $role" '' -- "$change" my.board
cmp -s before my.board || { echo "tests: a refused input changed the file" >&2; wrong=1; }
awk 'BEGIN { for (k = 0; k < 3500; k++) print "0 remove-role 64" }' >input
typed 'an evening of 3500 lines' 1 "$(awk -v q="'" 'BEGIN { for (k = 1; k <= 3500; k++) printf "%d: refused 2: %s64%s: it should be a role, 0 to 63\n", k, q, q }')" '' -- "$change" my.board

# files
for fault in '10:HH:this is no board file, or it was cut or damaged' '11:\001\0\0\001\0\110\110:the board file is damaged: it has a bad record' \
    '7:\0\001\0\001\001\001\0\001\006\0\010\0\110\110:in the board file some role reaches itself' \
    '9:\0\001\0\0\002\0\110\110:in the board file some role has no administrator'; do
    bytes=${fault#*:}
    printf "${bytes%%:*}" >my.board
    cp my.board before
    expect "a file that is refused with ${fault%%:*}" 1 "refused ${fault%%:*}: ${bytes#*:}" '' -- "$change" my.board 0 remove-role 1
    cmp -s before my.board || { echo "tests: a refused file was changed" >&2; wrong=1; }
done
cp "$top/boards/longest.board" my.board
expect 'the longest file' 0 'done' '' -- "$change" my.board 0 take-rights 0 remove-edge
{ cat "$top/boards/longest.board"; printf R; } >my.board
expect 'a byte more than the longest file' 1 'refused 10: this is no board file, or it was cut or damaged' '' -- "$change" my.board 0 take-rights 0 remove-edge

# names, and what the system refuses
cp "$top/boards/p.board" my.board
ln -s my.board link.board
expect 'a symbolic link' 2 '' 'link.board: a symbolic link' -- "$change" link.board 0 remove-role 1
mkdir folder
expect 'a folder' 2 '' 'folder: Is a directory' -- "$change" folder 0 remove-role 1
expect 'no folder' 2 '' 'no folder ./none' -- "$change" none/my.board 0 remove-role 1
expect 'the name of a lock' 2 '' "my.board.lock: so a board's lock is called" -- "$change" my.board.lock found
ln my.board second.board
expect 'a second name' 2 '' 'my.board: it has another name' -- "$change" my.board 0 remove-role 1
rm second.board
mkfifo pipe.board
expect 'a pipe' 2 '' 'pipe.board: no regular file' -- "$change" pipe.board 0 remove-role 1
expect 'a founding on a pipe' 2 '' 'pipe.board: there is such a file already' -- "$change" pipe.board found
ln -s "$top/change" by-another-name
expect 'called by a link' 1 'refused 7: role 1 would reach itself: the edges would close a loop' '' -- ./by-another-name my.board 0 add-edge 1 0 I
mkdir -- -x
cp my.board ./-x/
expect 'a folder with a hyphen' 1 'refused 7: role 1 would reach itself: the edges would close a loop' '' -- "$change" -x/my.board 0 add-edge 1 0 I
expect 'no name' 2 '' 'FILE: it has no name' -- "$change" '' 0 remove-role 1
expect 'a name that is too long' 2 '' 'name too long' -- "$change" "$(head -c 300 /dev/zero | tr '\0' n)" found
cp my.board -- -n.board
expect 'a name with a hyphen' 0 'done' '' -- "$change" -n.board 1 remove-role 2
expect 'no words' 2 '' 'usage: ' -- "$change"
expect 'standard output closed' 0 '' 'a standard stream is closed' -- sh -c "exec '$top/start' boardchange my.board 1 remove-role 2 >&-"
chmod 640 my.board
expect 'a change' 0 'done' '' -- "$change" my.board 1 remove-role 2
[ "$(stat -c %a my.board)" = 640 ] || { echo "tests: the file's mode was lost" >&2; wrong=1; }
touch my.board.lock
expect 'a lock that a dead change left' 0 'done' '' -- "$change" my.board 1 add-role 2 i-seniors 1
touch my.board.lock
exec 8<my.board.lock
expect 'a lock that a dead change left, and that somebody reads' 0 'done' '' -- "$change" my.board 1 add-role 5 i-seniors 1
exec 8<&-
cp my.board 'my own.board'
exec 8>'my own.board.lock'
got=0
"$change" 'my own.board' 1 remove-role 2 >said 2>trouble 8>&- || got=$?
[ "$got" -eq 75 ] && [ ! -s said ] && grep -q '^busy: ' trouble && [ -e 'my own.board.lock' ] ||
    { echo "tests: a lock that is held: status $got, said '$(cat said)', trouble '$(cat trouble)'" >&2; wrong=1; }
exec 8>&-
rm 'my own.board.lock'
got=0
"$change" my.board 1 remove-role 2 >/dev/full 2>trouble || got=$?
[ "$got" -eq 74 ] && [ ! -e my.board.lock ] || { echo "tests: answers that can't be written: status $got, trouble '$(cat trouble)'" >&2; wrong=1; }

# the queue
hold() { # USER NAME: a lock on what is called so, by the user whom these words make, until let_go
    $1 sh -c 'exec 9<"$0" && flock 9 && echo held && exec sleep 30 >/dev/null' "$2" >ready &
    holder=$!
    read -r held <ready || { echo "tests: nobody could hold $2" >&2; wrong=1; }
}

let_go() {
    kill "$holder" || :
    wait "$holder" 2>/dev/null || :
}

fits() { # FOLDER MODE OWNER:GROUP: those of its queue
    is=$(stat -c '%a %u:%g' "$1/.board-queue" || :)
    [ "$is" = "$2 $3" ] || { echo "tests: the queue in $1 is $is (wanted $2 $3)" >&2; wrong=1; }
}

mkfifo ready
mkdir piped unlinked without-links
chmod 755 unlinked
mkfifo piped/.board-queue
expect 'a queue that is a pipe' 2 '' 'piped/.board-queue is no regular file' -- timeout 9 "$change" piped/my.board found
printf '#!/bin/sh\nexit 1\n' >without-links/ln
chmod +x without-links/ln
expect 'no hard links' 0 'done' '' -- env PATH="$work/without-links:$PATH" "$change" unlinked/my.board found
fits unlinked 600 "$(stat -c %u:%g unlinked)"

# Who waits by a queue that is taken away may not go on beside those who wait by the next.
hold '' unlinked/.board-queue
"$change" unlinked/my.board 0 add-role 1 i-seniors 0 >said 2>trouble </dev/null &
waits=$! tenths=0
until [ "/proc/$waits/fd/9" -ef unlinked/.board-queue ] || [ "$tenths" -ge 50 ]; do
    sleep 0.1
    tenths=$((tenths + 1))
done
rm -f unlinked/.board-queue
let_go
name='a queue that is removed' status=75 said='' trouble='busy: somebody removed ./unlinked/.board-queue' got=0
wait "$waits" || got=$?
judge

# Users of one folder, by numbers: two of its group, and one who may only read it.
first='setpriv --reuid 20001 --regid 20001 --groups 30000 --inh-caps=-all'
second='setpriv --reuid 20002 --regid 20002 --groups 30000 --inh-caps=-all'
outsider='setpriv --reuid 20003 --regid 20003 --clear-groups --inh-caps=-all'

lay() { # FOLDER MODE OWNER: a folder of that group, with a board that the group may change
    mkdir "$1"
    cp "$top/boards/p.board" "$1/my.board"
    chown "$3:30000" "$1" "$1/my.board"
    chmod "$2" "$1"
    chmod 664 "$1/my.board"
}

by_two() { # FOLDER MODE OWNER USER NUMBER OTHER: the queue is made by the user of that number and serves the other too
    lay "$1" "$2" "$3"
    expect "the first one in $1" 0 'done' '' -- $4 "$change" "$1/my.board" 1 remove-role 2
    expect "the second one in $1" 0 'done' '' -- $6 "$change" "$1/my.board" 1 add-role 2 i-seniors 1
    fits "$1" 660 "$5:30000"
}

by_several() {
    by_two handed-on 2775 0 "$first" 20001 "$second"
    by_two handed-on-too 2775 0 "$second" 20002 "$first"
    by_two given 775 20001 "$first" 20001 "$second"
    by_two given-too 775 20001 "$second" 20002 "$first"

    expect 'who may only read the folder' 2 '' 'change: this user may not write to the folder ./given' -- $outsider "$change" given/my.board 1 remove-role 2
    expect 'the queue, opened by who may only read the folder' 1 '' . -- $outsider cat given/.board-queue
    hold "$outsider" given
    expect 'a reader who holds the folder' 0 'done' '' -- env CHANGE_PATIENCE=1 $first "$change" given/my.board 1 remove-role 2
    let_go
    hold "$second" given/.board-queue
    expect 'one of the group who holds the queue' 75 '' '^busy: ' -- env CHANGE_PATIENCE=1 $first "$change" given/my.board 1 add-role 2 i-seniors 1
    let_go

    # an owner who isn't in the folder's group
    lay ungiven 775 20003
    expect 'a group that cannot be given' 2 '' "change: ./ungiven/.board-queue needs the folder's group" -- $outsider "$change" ungiven/my.board 1 remove-role 2
    [ ! -e ungiven/.board-queue ] || { echo "tests: there is a queue without its group" >&2; wrong=1; }
    expect 'root, who can give it' 0 'done' '' -- "$change" ungiven/my.board 1 remove-role 2
    fits ungiven 660 20003:30000
    expect 'the owner after root' 0 'done' '' -- $outsider "$change" ungiven/other.board found
    expect 'one of the group after root' 0 'done' '' -- $first "$change" ungiven/my.board 1 add-role 2 i-seniors 1
    lay shut 2775 20003
    expect 'one of the group before the owner' 0 'done' '' -- $first "$change" shut/my.board 1 remove-role 2
    expect 'the owner after one of the group' 2 '' "change: this user may write to ./shut but can't open ./shut/.board-queue" -- $outsider "$change" shut/other.board found
    lay open 2775 20003
    expect 'the owner before one of the group' 0 'done' '' -- $outsider "$change" open/other.board found
    expect 'one of the group after the owner' 0 'done' '' -- $first "$change" open/my.board 1 remove-role 2

    # a folder of all, and one of one user's where root comes first
    mkdir everybodys
    chmod 1777 everybodys
    expect 'one in a folder of all' 0 'done' '' -- $first "$change" everybodys/my.board found
    fits everybodys 666 20001:20001
    expect 'another in a folder of all' 0 'done' '' -- $outsider "$change" everybodys/other.board found
    lay own 755 20001
    expect "root in another's folder" 0 'done' '' -- "$change" own/other.board found
    fits own 600 20001:30000
    expect "its owner after root" 0 'done' '' -- $first "$change" own/my.board 1 remove-role 2
    expect 'the group of a folder that only its owner may write to' 2 '' 'may not write to the folder ./own' -- $second "$change" own/my.board 1 remove-role 2
}

if [ "$(id -u)" -ne 0 ] || ! command -v setpriv >/dev/null; then
    echo "tests: several users in one folder: skipped, since this takes root, and setpriv, of util-linux"
elif ! { chmod 755 . && chmod 1777 tmp && $first sh -c 'cd "$1" && [ -x "$0/crates/boardchange/out/boardchange" ] && "$0/start" boardchange' "$top" "$work"; } >/dev/null 2>&1; then
    echo "tests: several users in one folder: skipped, since another user can't run $top/start in $work"
else
    by_several
fi

# The order in which a change goes to the disk, which no crash of ours can show: the lock (L), the old board (R), the new one written (W) and
# synced (S), the rename (M), the folder synced (S), and only then the answer (A).
if command -v strace >/dev/null && [ "$(uname -m)" = x86_64 ]; then
    cp "$top/boards/p.board" my.board
    strace -f -o trace "$top/start" boardchange my.board 1 remove-role 2 >said
    order=$(sed -nE 's/^[0-9]+ +//; /my\.board\.lock".*O_EXCL/s/.*/L/p; /open.*"my\.board", O_RDWR/s/.*/R/p; /^write\([3-9]/s/.*/W/p; /^fsync\(.*= 0/s/.*/S/p;
        /^rename.*= 0/s/.*/M/p; /^write\(1, "done/s/.*/A/p' trace | tr -d '\n')
    [ "$order" = LRWSMSA ] || { echo "tests: a change goes to the disk in the order $order" >&2; wrong=1; }
fi
[ "$wrong" -eq 0 ] && echo "tests: boardchange did what it should $count times"
