# Sets beside each other, for each exported function and each program, the bound, what was painted, and the figure that the
# document states. Each thing that is wrong has a line, and then the status is 1.
#
#   awk -v functions='NAME...' -v programs='NAME...' -f report.awk PERFORMANCE.md PAINTED BOUNDS

BEGIN {
    function_count = split(functions, function_name, " ")
    program_count = split(programs, program_name, " ")
}

FILENAME == ARGV[1] && /^## / { in_section = $0 == "## Stack" }
FILENAME == ARGV[1] && in_section && /^\| `[^`]+` \| [0-9,]+ \|$/ { # | `board_apply` | 3,240 |
    split($0, part, /[`|]/)
    gsub(/[ ,]/, "", part[5])
    if (part[3] in stated) wrong(part[3] " has two figures in the document")
    stated[part[3]] = part[5] + 0
}
FILENAME == ARGV[2] && $1 == "mark" { painted[$2] = $3 + 0 }
FILENAME == ARGV[3] {
    rest = $0
    sub(/^[^ ]+ [^ ]+ /, "", rest)
    if ($2 == "refused") {
        refused[$1]
        wrong($1 ": " rest)
    } else {
        bound[$1] = $2 + 0
        chain[$1] = rest
    }
}

function wrong(what) { wrongs[++wrong_count] = what }

function shown(table, name) { return name in table ? table[name] : "-" }

function check_figure(name) {
    present[name]
    if (!(name in bound) && !(name in refused)) wrong(name " has no bound")
    if (!(name in stated)) wrong(name " has no figure in the document")
    else if (name in bound && bound[name] > stated[name])
        wrong(name " takes up to " bound[name] " bytes, and the document says at most " stated[name])
}

function check_mark(name) {
    if (!(name in painted)) wrong(name " was not painted")
    else if (name in bound && painted[name] > bound[name])
        wrong(name " was seen to take " painted[name] " bytes, above its bound of " bound[name])
}

END {
    print "| function | bound | painted | deepest chain: each with its return address and its frame |\n|---|---:|---:|---|"
    for (k = 1; k <= function_count; k++) {
        n = function_name[k]
        printf "| %-17s | %7s | %7s | %s |\n", n, shown(bound, n), shown(painted, n), shown(chain, n)
        check_figure(n)
        check_mark(n)
    }
    print "\n| program, from main on; what starts main isn't counted | bound | deepest chain |\n|---|---:|---|"
    for (k = 1; k <= program_count; k++) {
        n = program_name[k]
        printf "| %-17s | %7s | %s |\n", n, shown(bound, n), shown(chain, n)
        check_figure(n)
    }
    print ""
    for (n in stated)
        if (!(n in present)) wrong("the document has a figure for " n ", no exported function and no program that is built")
    if (function_count == 0) wrong("the library exports nothing")
    for (k = 1; k <= wrong_count; k++) print "tests: stack: " wrongs[k] | "cat 1>&2"
    close("cat 1>&2")
    exit (wrong_count > 0)
}
