# How much stack functions take at most, read from their machine code.
#
#   awk -v kind=library|program -v roots='NAME NAME...' -f bound.awk FILE
#
# FILE has what objdump -dr --no-show-raw-insn, objdump -r and objdump -s say of one object or program, one after the other,
# and of a library also what nm -u says. For each root there is a line, and the status is 1 when one is refused:
#
#   NAME BYTES CHAIN       at most so many, from the caller's stack pointer just before the call on; and the chain of calls that
#                          comes to it, each with its share: its return address, and what it had on the stack at the next call
#   NAME refused REASON    there is something that can't be followed
#
# Each function is followed from its entry, instruction by instruction, with the height of the stack: how many bytes lie on it
# since the entry. What can't be told is refused. It believes the compiler in this: a called function puts %rbx, %rbp and %r12 to
# %r15 back, nobody writes over a return address, an index of a table is below what was compared with it, a table ends where an entry
# leads nowhere, or where something else begins whose address the code takes, and below the stack pointer nothing is used but by an
# operand from %rsp or %rbp, or by an address taken from there that lies below it itself (with an index, or by such an address: the
# whole red zone; gcc was seen to go below from %rsp in another register too, by up to these 128 bytes, LLVM was not). Signal handlers
# aren't counted.

BEGIN {
    # Functions that have no body here, and what they take below their return address. Painted on x86-64 with glibc 2.36 and 2.39,
    # memcpy, memmove and memset took none, nor with the newer instructions of the processor masked; the system calls up to 104 (open),
    # __sysv_signal 664, strerror_r up to 2,224.
    allow("library program", 64, "memcpy memset")
    allow("program", 1024, "close fchmod fchown fdatasync flock fstat fsync ftruncate memmove nanosleep open read readlink rename statx unlink write")
    allow("program", 1024, "__errno_location __sysv_signal __write __x86_get_cpuid_feature_leaf")
    allow("program", 4096, "__xpg_strerror_r")

    RED_ZONE = 128 # that much below the stack pointer a function may use by the x86-64 convention
    WRITES_LAST = "^(mov[a-z]*|lea|add|sub|and|or|xor|adc|sbb|shl|shr|sar|imul|bt[rsc]?|cmov[a-z]+)$"
    PLAIN = "^(mov[a-z]*|lea|add|sub|and|or|xor|shl|shr|inc|dec|cmp[bwlq]?|test[bwlq]?|set[a-z]+|cmov[a-z]+|nop[wl]?|j[a-z]+)$"
    PREFIX = "^(data16|addr32|cs|ds|es|fs|gs|ss|rep|repz|repnz|lock|bnd|notrack|xacquire|xrelease|rex[.A-Z]*) +"
    NOT_FOLLOWED = "^(int[0-9]*|hlt|sys[a-z]+|.*iret.*|lret.*|retw|lcall.*|ljmp.*|callw|jmpw|enter.*|leavew|loop.*|xbegin|xabort|" \
        "push.+|pop.+)$"
    for (k = 0; k < 16; k++) digit[substr("0123456789abcdef", k + 1, 1)] = k
    name_registers()
}

function allow(kinds, bytes, names,    k, word) {
    if (index(kinds, kind) == 0) return
    split(names, word, " ")
    for (k in word) allowance[word[k]] = bytes
}

# All names of a register lead to the widest.
function name_registers(    k, word) {
    split("a b c d", word, " ")
    for (k in word) alias("r" word[k] "x", "e" word[k] "x " word[k] "x " word[k] "l " word[k] "h")
    split("si di bp sp", word, " ")
    for (k in word) alias("r" word[k], "e" word[k] " " word[k] " " word[k] "l")
    for (k = 8; k < 16; k++) alias("r" k, "r" k "d r" k "w r" k "b")
}

function alias(wide, others,    k, word) {
    split(wide " " others, word, " ")
    for (k in word) register["%" word[k]] = wide
}

# ---- reading what objdump says

function hex(s,    v, k, negative) {
    sub(/^0x/, "", s)
    negative = length(s) == 16 && s ~ /^[89a-f]/ # by its complement: the number itself would lose its last bits
    for (k = 1; k <= length(s); k++) v = v * 16 + (negative ? 15 - digit[substr(s, k, 1)] : digit[substr(s, k, 1)])
    return negative ? -v - 1 : v + 0
}

function number(s) { return s ~ /^-/ ? -hex(substr(s, 2)) : hex(s) }

function heading(before) {
    section = substr($0, length(before) + 1)
    sub(/\]?:$/, "", section)
}

/^Disassembly of section / { heading("Disassembly of section "); part = "code"; begin_section(); next }
/^RELOCATION RECORDS FOR / { heading("RELOCATION RECORDS FOR ["); part = "relocations"; see_once(section " "); next }
/^Contents of section / { heading("Contents of section "); part = "bytes"; next }
/^ +U [^ ]+$/ { undefined[$2]; if (!($2 in allowance)) unknown = unknown " " $2; next }
/^[0-9a-f]+ [WVuwv] [^ ]+$/ { yielding = yielding " " $3; next }
part == "code" && /^[0-9a-f]+ <.*>:$/ { begin_function(); next }
part == "code" && /^ *[0-9a-f]+:\t/ { add_instruction(); next }
part == "code" && /^\t+[0-9a-f]+: R_X86_64_/ { relocation[instructions] = $3; next }
part == "code" && /^[ \t]+\.\.\.$/ { gap = 1; next }
part == "relocations" && /^[0-9a-f]+ R_X86_64_/ { entry[section, hex($1)] = $3; next }
part == "bytes" && section ~ /^\.rodata/ && kind == "program" && /^ [0-9a-f]+ / { add_bytes($1) }

function see_once(what) {
    if (what in sections) twice = what
    sections[what]
}

# In a program addresses tell places apart, in an object sections and the offsets within.
function begin_section() {
    see_once(section)
    space = kind == "program" ? "" : section
}

function begin_function(    s) {
    s = $0
    sub(/^[0-9a-f]+ </, "", s)
    sub(/>:$/, "", s)
    name[++functions] = s
    if (s in named) named[s] = 0
    else named[s] = functions
    first[functions] = instructions + 1
    gap = 1
}

function add_instruction(    n, text) {
    n = ++instructions
    text = substr($0, index($0, "\t") + 1)
    if (match(text, /# [0-9a-f]+/)) points_at[n] = hex(substr(text, RSTART + 2, RLENGTH - 2))
    sub(/ *[#<].*/, "", text)
    sub(/[ \t]+$/, "", text)
    while (text ~ PREFIX) sub(PREFIX, "", text)
    gsub(/[ \t]+/, " ", text)
    said[n] = text
    gsub(/%[cds]s:/, "", text)
    op[n] = text
    sub(/[ ,].*/, "", op[n])
    if (op[n] ~ /^(call|ret|leave|push|pop|jmp)q$/) sub(/q$/, "", op[n])
    if (op[n] ~ /^popcnt/) op[n] = "bit" op[n] # no pop
    args[n] = index(text, " ") ? substr(text, index(text, " ") + 1) : ""
    at[n] = hex(substr($1, 1, length($1) - 1))
    of[n] = functions
    after_gap[n] = gap
    gap = 0
    if ((space, at[n]) in where) twice = space == "" ? $1 : space
    where[space, at[n]] = n
    space_of[n] = space
}

function add_bytes(address,    text, k) {
    text = substr($0, length(address) + 3, 35)
    gsub(/ /, "", text)
    for (k = 0; k * 2 < length(text); k++) byte[hex(address) + k] = hex(substr(text, k * 2 + 1, 2))
}

# ---- operands

# Splits at the commas outside of brackets. Returns how many there are.
function operands(i, o,    k, c, depth_in, m) {
    m = 1
    o[1] = o[2] = o[3] = o[4] = ""
    for (k = 1; k <= length(args[i]); k++) {
        c = substr(args[i], k, 1)
        depth_in += c == "(" ? 1 : c == ")" ? -1 : 0
        if (c == "," && depth_in == 0) o[++m] = ""
        else o[m] = o[m] c
    }
    return args[i] == "" ? 0 : m
}

function is(operand, wide) { return operand in register && register[operand] == wide }

# Whether the instruction may write the register: it names it as an operand, and isn't one of those known to read it there.
function may_write(i, wide,    o, m, k) {
    m = operands(i, o)
    if (op[i] ~ /^(push|cmp|test)[bwlq]?$/) return 0
    if (m == 2 && op[i] ~ WRITES_LAST) return is(o[2], wide)
    for (k = 1; k <= m; k++)
        if (is(o[k], wide)) return 1
    return 0
}

function immediate(operand) { return operand ~ /^\$0x[0-9a-f]+$/ }

# D of D(%base), and no index; "" for every other operand.
function displacement(operand, base,    d) {
    d = operand
    if (!sub("\\(%" base "\\)$", "", d)) return ""
    return d ~ /^(-?0x[0-9a-f]+)?$/ ? number(d) : ""
}

# ---- where a call or a jump leads: to an instruction, `target`, or to a function that has no body here, `outside`

function resolve(i) {
    target = 0
    outside = ""
    if (i in relocation) place(relocation[i], 4)
    else if ((space_of[i], hex(args[i])) in where) target = where[space_of[i], hex(args[i])]
    if (target && name[of[target]] ~ /@plt$/ && first[of[target]] == target) {
        outside = name[of[target]]
        sub(/@plt$/, "", outside)
        target = 0
    }
}

# A relocation's NAME+OFFSET. `more` makes up for what counts from the end of a field in the code, or from the start of a table.
function place(text, more,    symbol, offset) {
    symbol = text
    if (match(text, /[+-]0x[0-9a-f]+$/)) {
        symbol = substr(text, 1, RSTART - 1)
        offset = substr(text, RSTART)
        sub(/^\+/, "", offset)
    }
    offset = number(offset) + more
    place_section = symbol
    place_offset = offset
    if (symbol in named && named[symbol]) {
        place_section = space_of[first[named[symbol]]]
        place_offset += at[first[named[symbol]]]
    }
    if ((place_section, place_offset) in where) target = where[place_section, place_offset]
    else if (!(symbol in sections) && !(symbol in named) && offset == 0) outside = symbol
}

# ---- following a function. Where it stands: H, the height; LOOSE, whether the height was rounded up, so that it is at most H;
# COPY, the heights that %rbp and %r11 hold as copies of the stack pointer, or ""; HELD, which registers hold which address of a
# table, as " r9=ADDRESS rbx=ADDRESS "

function refuse(f, why) {
    if (!(f in problem)) problem[f] = "in " name[f] ": " why
}

function sink(f, h) {
    if (h > own[f]) own[f] = h
    if (h < 0) refuse(f, "takes more off the stack than it put there")
}

function reach(f, i) {
    if (i > instructions || of[i] != f) return refuse(f, "runs off its end")
    if (!(i in height)) {
        height[i] = H
        loose[i] = LOOSE
        rbp[i] = COPY["rbp"]
        r11[i] = COPY["r11"]
        held[i] = HELD
        todo[++waiting] = i
    } else if (height[i] != H || loose[i] != LOOSE) {
        refuse(f, "comes to '" said[i] "' at two heights, " height[i] " and " H)
    } else if (forget(i)) todo[++waiting] = i
}

# What only one of two ways knows isn't known where they meet. Returns whether that was something.
function forget(i,    less, both) {
    if (rbp[i] != "" && rbp[i] != COPY["rbp"]) {
        rbp[i] = ""
        less = 1
    }
    if (r11[i] != "" && r11[i] != COPY["r11"]) {
        r11[i] = ""
        less = 1
    }
    both = common(held[i], HELD)
    if (both != held[i]) less = 1
    held[i] = both
    return less
}

function common(those, others,    k, n, word, both) {
    n = split(those, word, " ")
    both = " "
    for (k = 1; k <= n; k++)
        if (index(others, " " word[k] " ")) both = both word[k] " "
    return both
}

function follow(f,    k) {
    waiting = H = LOOSE = own[f] = calls[f] = tables = 0
    COPY["rbp"] = COPY["r11"] = ""
    HELD = " "
    reach(f, first[f])
    while (waiting > 0 && !(f in problem)) step(f, todo[waiting--])
    for (k = 1; k <= tables && !(f in problem); k++) # a table found later may lead into the middle of one found before
        if (!find_table(f, table_jump[k]) || table_length != length_then[table_jump[k]])
            refuse(f, "jumps by '" said[table_jump[k]] "', which isn't seen to be a table")
    if (f in unsaid && !(f in problem)) see_all(f)
}

# Where a table's length isn't known, each instruction must be come to all the same: an entry that was not read would show by what
# only it leads to.
function see_all(f,    i) {
    for (i = first[f]; i <= instructions && of[i] == f; i++)
        if (!(i in height) && !passed[i] && op[i] !~ /^(nop[wl]?|int3|ud2)$/ && said[i] != "xchg %ax,%ax")
            return refuse(f, "jumps by a table of no known length, and doesn't come to '" said[i] "'")
}

function step(f, i) {
    H = height[i]
    LOOSE = loose[i]
    COPY["rbp"] = rbp[i]
    COPY["r11"] = r11[i]
    HELD = held[i]
    NEXT = i + 1
    if (op[i] == "ud2") return
    if (op[i] == "ret") return give_back(f, i, "returns")
    if (is_jump(i)) jump(f, i)
    else if (op[i] == "call") call(f, i)
    else work(f, i)
    if (op[i] == "jmp" || f in problem) return
    if (after_gap[NEXT]) return refuse(f, "runs off its end")
    reach(f, NEXT)
}

function is_jump(i) { return op[i] ~ /^j[a-z]+$/ && op[i] != "jmpw" }

function give_back(f, i, how) {
    if (args[i] != "" && op[i] == "ret") refuse(f, "can't follow '" said[i] "'")
    if (LOOSE) refuse(f, how " while the stack is rounded to a multiple")
    if (H != 0) refuse(f, how " with " H " bytes on the stack")
}

function jump(f, i) {
    if (args[i] ~ /^\*/) return jump_by_table(f, i)
    resolve(i)
    if (target && of[target] == f) return reach(f, target)
    give_back(f, i, "jumps to another function")
    enter(f, i, 0)
}

function call(f, i) {
    if (args[i] ~ /^\*/) return refuse(f, "calls by '" said[i] "', so it can't be told what")
    resolve(i)
    enter(f, i, 8)
    COPY["r11"] = ""
    let_go("rax rcx rdx rsi rdi r8 r9 r10 r11") # the others a called function puts back
}

# Another function begins, with so many bytes more on the stack.
function enter(f, i, more,    k) {
    if (outside != "" && kind == "library" && !(outside in undefined))
        return refuse(f, "calls " outside ", by a name that its code doesn't show")
    if (outside != "" && !(outside in allowance)) return refuse(f, "calls " outside ", which has no body here and no allowance")
    if (outside == "" && (!target || first[of[target]] != target))
        return refuse(f, "can't follow '" said[i] "' to a function's start")
    k = ++calls[f]
    callee[f, k] = outside == "" ? of[target] : 0
    callee_outside[f, k] = outside
    callee_from[f, k] = H + more
    is_tail[f, k] = more == 0
    sink(f, H + more)
}

# ---- instructions that neither call nor jump

function work(f, i,    o, m) {
    if (op[i] !~ /^[a-z][a-z0-9]*$/ || op[i] ~ NOT_FOLLOWED) return refuse(f, "can't follow '" said[i] "'")
    m = operands(i, o)
    look_below(f, i, o, m)
    if (op[i] == "mov" && o[1] == "%rsp") make_room(f, i, o[2])
    if (op[i] ~ /^(push|pop)$/ && o[1] in register && o[1] != "%" register[o[1]]) refuse(f, "can't follow '" said[i] "'")
    else if (op[i] == "push") sink(f, H += 8)
    else if (op[i] == "pop" && !is(o[1], "rsp")) sink(f, H -= 8)
    else if (op[i] == "leave") restore(f, i, -8)
    else if (may_write(i, "rsp")) set_stack(f, i, o)
    copy(i, o, "rbp")
    copy(i, o, "r11")
    hold(i, o, m)
}

# Operands below the stack pointer, which is how a function that calls no other may use the stack without moving it.
function look_below(f, i, o, m,    k, d) {
    for (k = 1; k <= m; k++) {
        d = displacement(o[k], "rsp")
        if (d != "" && d < 0) sink(f, H - d)
        if (o[k] ~ /\(%rsp,/ || COPY["rbp"] != "" && o[k] ~ /\(%rbp,|,%rbp[,)]/) sink(f, H + RED_ZONE)
        d = COPY["rbp"] == "" ? "" : displacement(o[k], "rbp")
        if (d != "" && d < 0) sink(f, COPY["rbp"] - d)
    }
    if (op[i] == "lea") take_address(f, o)
}

# An address below the stack pointer that goes to a register may be gone on from there. (%r11 is where a frame that is taken step by
# step ends, which lies far below.)
function take_address(f, o,    d, from) {
    if (o[2] == "%rsp" || o[2] == "%r11") return
    d = displacement(o[1], "rsp")
    from = H
    if (d == "" && COPY["rbp"] != "") {
        d = displacement(o[1], "rbp")
        from = COPY["rbp"]
    }
    if (d != "" && from - d > H) sink(f, H + RED_ZONE)
}

# The stack is where the frame pointer says, `more` bytes below.
function restore(f, i, more) {
    if (COPY["rbp"] == "") return refuse(f, "can't follow '" said[i] "': %rbp isn't known there")
    sink(f, H = COPY["rbp"] + more)
    LOOSE = 0
}

function set_stack(f, i, o,    d) {
    if (!(o[2] == "%rsp" && o[3] == "")) d = ""
    else if (op[i] == "sub" && immediate(o[1])) return grow(f, i, hex(substr(o[1], 2)))
    else if (op[i] == "add" && immediate(o[1])) return sink(f, H -= hex(substr(o[1], 2)))
    else if (op[i] == "and" && immediate(o[1])) return round_down(f, i, -hex(substr(o[1], 2)))
    else if (op[i] == "mov" && o[1] == "%rbp") return restore(f, i, 0)
    else if (op[i] == "lea" && (d = displacement(o[1], "rsp")) != "") return sink(f, H -= d)
    else if (op[i] == "lea" && (d = displacement(o[1], "rbp")) != "") return restore(f, i, -d)
    refuse(f, "can't follow '" said[i] "', which sets the stack pointer")
}

function round_down(f, i, multiple,    m) {
    for (m = multiple; m > 1 && m % 2 == 0; m /= 2) continue
    if (m != 1) return refuse(f, "can't follow '" said[i] "', which sets the stack pointer")
    sink(f, H += multiple - 1)
    LOOSE = 1
}

# A frame larger than a page is taken step by step, each page touched: one after the other, or by a loop of four instructions
# until the stack pointer is what %r11 holds.
function grow(f, i, bytes) {
    if (is_stepping(i)) {
        if (LOOSE || COPY["r11"] == "" || bytes <= 0 || COPY["r11"] <= H || (COPY["r11"] - H) % bytes != 0)
            return refuse(f, "takes stack in a loop whose end isn't known")
        H = COPY["r11"]
        NEXT = i + 4
        passed[i + 1] = passed[i + 2] = passed[i + 3] = 1
    } else H += bytes
    sink(f, H)
}

function is_stepping(i) {
    if (op[i + 3] != "jne" || op[i + 2] != "cmp" || args[i + 2] != "%r11,%rsp") return 0
    if (op[i + 1] !~ /^(mov|or)q$/ || args[i + 1] != "$0x0,(%rsp)") return 0
    resolve(i + 3)
    return target == i
}

# Room of a length that is known, taken step by step towards an end in another register:
#   mov %rsp,%end ; sub $N,%end ; cmp %rsp,%end ; jge DONE ; AGAIN: xorq $0x0,(%rsp) ; sub $STEP,%rsp ; cmp %rsp,%end ; jl AGAIN ;
#   DONE: mov %end,%rsp
# The last step may go past the end. Whatever leads in between comes to the last of these alone, which can't be followed.
function make_room(f, i, end,    bytes, by) {
    if (!(end in register) || end != "%" register[end] || end ~ /^%(rsp|rbp|r11)$/) return
    if (said[i + 2] != "cmp %rsp," end || said[i + 6] != said[i + 2] || said[i + 8] != "mov " end ",%rsp") return
    if (op[i + 3] != "jge" || op[i + 7] != "jl" || said[i + 4] !~ /^(mov|x?or)q \$0x0,\(%rsp\)$/) return
    if (!(bytes = taken_off(i + 1, end)) || !(by = taken_off(i + 5, "%rsp"))) return
    resolve(i + 3)
    if (target != i + 8) return
    resolve(i + 7)
    if (target != i + 4) return
    sink(f, H + int((bytes + by - 1) / by) * by)
    H += bytes
    for (NEXT = i + 1; NEXT < i + 9; NEXT++) passed[NEXT] = 1
}

# How much `sub` takes off that register; 0 where that isn't what the instruction does.
function taken_off(i, operand,    o) {
    operands(i, o)
    if (op[i] != "sub" || !immediate(o[1]) || o[2] != operand || o[3] != "") return 0
    return hex(substr(o[1], 2)) > 0 ? hex(substr(o[1], 2)) : 0
}

# Whether the register still holds a copy of the stack pointer.
function copy(i, o, wide,    d) {
    if (!may_write(i, wide) && !(op[i] == "leave" && wide == "rbp")) return
    if (op[i] == "mov" && o[1] == "%rsp" && o[2] == "%" wide) d = 0
    else if (op[i] == "lea" && o[2] == "%" wide) d = displacement(o[1], "rsp")
    if (d != "" && LOOSE) refuse(of[i], "can't follow '" said[i] "' while the stack is rounded to a multiple")
    if (d != "") COPY[wide] = LOOSE ? "" : H - d
    else if (op[i] == "sub" && immediate(o[1]) && o[2] == "%" wide && COPY[wide] != "") COPY[wide] += hex(substr(o[1], 2))
    else COPY[wide] = ""
}

# ---- jump tables: lea TABLE(%rip),%base ; movslq (%base,%index,4),%to ; add %base,%to ; jmp *%to, with others between that leave
# these registers alone; the first may lie far before, outside of a loop

function hold(i, o, m,    k) {
    if (!is_plain(i)) let_go("rax rbx rcx rdx rsi rdi rbp r11") # an instruction may write these and not name them
    for (k = 1; k <= m; k++)
        if (o[k] in register && may_write(i, register[o[k]])) let_go(register[o[k]])
    if (op[i] == "lea" && o[1] ~ /^(-?0x[0-9a-f]+)?\(%rip\)$/ && o[2] == "%" register[o[2]])
        HELD = HELD register[o[2]] "=" (kind == "program" ? points_at[i] : relocation[i]) " "
}

function let_go(wides,    k, word) {
    split(wides, word, " ")
    for (k in word) sub(" " word[k] "=[^ ]* ", " ", HELD)
}

function held_address(all, wide) {
    if (!match(all, " " wide "=[^ ]+ ")) return ""
    return substr(all, RSTART + length(wide) + 2, RLENGTH - length(wide) - 3)
}

function jump_by_table(f, i,    k) {
    if (!find_table(f, i)) return refuse(f, "jumps by '" said[i] "', which isn't seen to be a table")
    table_jump[++tables] = i
    length_then[i] = table_length
    if (table_length < 0) unsaid[f] = 1
    for (k = 0; table_length < 0 || k < table_length; k++) {
        if (table_length < 0 && k > 0 && begins(table_start + 4 * k)) break
        target = 0
        if (kind == "program") read_entry(k)
        else if ((table_section, table_start + 4 * k) in entry) place(entry[table_section, table_start + 4 * k], -4 * k)
        if (!target) break
        if (of[target] != f) return refuse(f, "jumps by a table whose entry " k " leads out of it")
        is_target[target] = 1
        reach(f, target)
    }
    if (k < table_length || k == 0) refuse(f, "jumps by a table whose entry " k " leads nowhere")
}

# In a program an entry has four bytes, the lowest first: how far from the table's start.
function read_entry(k,    b, v) {
    b = table_start + 4 * k
    if (!((b + 3) in byte)) return
    v = byte[b] + 256 * (byte[b + 1] + 256 * (byte[b + 2] + 256 * byte[b + 3]))
    if (v >= 2147483648) v -= 4294967296
    if (("", table_start + v) in where) target = where["", table_start + v]
}

# Where the table stands, and how many entries it has; -1 where nothing says it, and it is read as far as it leads anywhere.
function find_table(f, i,    o, to, base, sum, load, k) {
    if (!(substr(args[i], 2) in register)) return 0
    to = register[substr(args[i], 2)]
    sum = setter(f, i, to)
    if (!sum || op[sum] != "add") return 0
    operands(sum, o)
    if (!(o[1] in register) || o[1] != "%" register[o[1]] || o[2] != "%" to) return 0
    base = register[o[1]]
    load = setter(f, sum, to)
    if (!load || op[load] != "movslq") return 0
    for (k = load; k < sum; k++)
        if (may_write(k, base)) return 0
    operands(load, o)
    if (o[1] !~ ("^\\(%" base ",%[a-z0-9]+,4\\)$")) return 0
    sub(/^\(%[a-z0-9]+,/, "", o[1])
    sub(/,4\)$/, "", o[1])
    table_length = length_of(f, load, register[o[1]])
    return table_at(held_address(held[load], base))
}

function table_at(address) {
    if (address == "") return 0
    table_section = ""
    if (kind == "program") table_start = address + 0
    else {
        place(address, 4)
        table_section = place_section
        table_start = place_offset
    }
    return 1
}

# Instructions of which all that they write is among their operands.
function is_plain(i) {
    return op[i] ~ PLAIN && op[i] != "jmp" && args[i] !~ /%es:/
}

# The instruction before i that set the register, if nothing leads in between from elsewhere; or 0.
function setter(f, i, wide,    k) {
    for (k = i - 1; k >= first[f] && is_plain(k); k--) {
        if (is_target[k + 1]) return 0
        if (may_write(k, wide)) return k
    }
    return 0
}

# By the check before it: cmp $N,%index ; ja, or jae. The index may be a copy of what was compared, made before that or behind it.
function length_of(f, load, index_register,    k, o) {
    for (k = load - 1; k > first[f] && is_plain(k) && !is_target[k + 1]; k--) {
        if (op[k] != "ja" && op[k] != "jae") {
            operands(k, o)
            if (!may_write(k, index_register) || op[k] ~ /^movz/ && is(o[1], index_register) && o[1] !~ /h$/) continue
            if (!copies(k, o)) return -1
            index_register = register[o[1]]
            continue
        }
        operands(k - 1, o)
        if (is_target[k] || op[k - 1] !~ /^cmp[bwlq]?$/ || !immediate(o[1]) || !(o[2] in register)) return -1
        if (!is(o[2], index_register) && !is_copy(f, k - 1, index_register, register[o[2]])) return -1
        return hex(substr(o[1], 2)) + (op[k] == "ja")
    }
    return -1
}

# Whether the instruction copies one register to another, all of it or its lower half, the rest of which becomes 0.
function copies(i, o) {
    return op[i] == "mov" && o[1] in register && o[2] in register && (o[2] == "%" register[o[2]] || o[2] ~ /^%(e|r[0-9]+d)/)
}

# Whether one register was copied from the other before the instruction i, and neither was written since, if nothing leads in between.
function is_copy(f, i, wide, other,    k, o) {
    for (k = i - 1; k >= first[f] && is_plain(k) && !is_target[k + 1]; k--) {
        operands(k, o)
        if (copies(k, o) && is(o[1], other) && is(o[2], wide)) return 1
        if (may_write(k, wide) || may_write(k, other)) return 0
    }
    return 0
}

# Where something begins whose address the code takes.
function mark_beginnings(    i) {
    for (i = 1; i <= instructions; i++) {
        if (i in points_at) begun["", points_at[i]]
        if (kind == "program" || op[i] != "lea" || !(i in relocation)) continue
        place(relocation[i], 4)
        begun[place_section, place_offset]
    }
}

# Whether such a place is among the four bytes of an entry.
function begins(from,    k) {
    for (k = from; k < from + 4; k++)
        if ((table_section, k) in begun) return 1
    return 0
}

function mark_targets(    i) {
    for (i = 1; i <= instructions; i++) {
        if (!is_jump(i) || args[i] ~ /^\*/) continue
        resolve(i)
        if (target) is_target[target] = 1
    }
}

# ---- the calls

function measure(f,    k, d) {
    follow(f)
    depth[f] = own[f]
    on_path[f] = ++path
    path_name[path] = name[f]
    for (k = 1; k <= calls[f] && !(f in problem); k++) {
        d = callee_from[f, k] + below(f, callee[f, k], callee_outside[f, k])
        if (d >= depth[f]) {
            depth[f] = d
            deepest[f] = k
        }
    }
    path--
    delete on_path[f]
}

function below(f, g, other) {
    if (other != "") return allowance[other]
    if (g in on_path) return refuse(f, "calls itself: " cycle(on_path[g]) name[g])
    if (!(g in depth)) measure(g)
    if (g in problem && !(f in problem)) problem[f] = problem[g]
    return depth[g]
}

function cycle(from,    k, text) {
    for (k = from; k <= path; k++) text = text path_name[k] " > "
    return text
}

# `before`: the bytes of the return address, 8, or 0 behind a jump, which takes none.
function chain(f, before,    k, tail) {
    if (!(f in deepest)) return name[f] " " before + own[f]
    k = deepest[f]
    tail = is_tail[f, k] ? 0 : 8
    return name[f] " " before + callee_from[f, k] - tail " > " \
        (callee[f, k] ? chain(callee[f, k], tail) : callee_outside[f, k] " " tail + allowance[callee_outside[f, k]])
}

function report(root,    f, reason) {
    f = named[root]
    if (twice != "") reason = "stands beside two of the name " twice
    else if (!f) reason = "isn't there, or twice"
    else {
        if (!(f in depth)) measure(f)
        if (f in problem) reason = problem[f]
    }
    if (reason == "") return root " " 8 + depth[f] " " chain(f, 8)
    refused = 1
    return root " refused " reason
}

END {
    mark_targets()
    mark_beginnings()
    count = split(roots, root, " ")
    for (k = 1; k <= count; k++) print report(root[k])
    if (unknown != "") print "undefined refused" unknown " has no body here and no allowance"
    if (yielding != "") print "weak refused" yielding " may have another body elsewhere"
    exit refused || unknown != "" || yielding != "" || count == 0
}
