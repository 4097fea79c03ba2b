# Functions that bound.awk must refuse, each for the reason that stands behind "#=".

        .text
#= itself refused in itself: calls itself: itself > itself
itself: sub     $0x8, %rsp
        call    itself
        add     $0x8, %rsp
        ret

#= there refused in back: calls itself: there > back > there
there:  push    %rbx
        call    back
        pop     %rbx
        ret
back:   push    %rbx
        call    there
        pop     %rbx
        ret

# No stack is taken by that, but the reader doesn't go round.
#= round_by_jumps refused in and_round: calls itself: round_by_jumps > and_round > round_by_jumps
round_by_jumps:
        jmp     and_round
and_round:
        jmp     round_by_jumps

#= by_register refused in by_register: calls by 'call *%rax', so it can't be told what
by_register:
        sub     $0x8, %rsp
        call    *%rax
        add     $0x8, %rsp
        ret

#= by_memory refused in by_memory: calls by 'call *0x8(%rdi)', so it can't be told what
by_memory:
        call    *0x8(%rdi)
        ret

#= jump_by_register refused in jump_by_register: jumps by 'jmp *%rax', which isn't seen to be a table
jump_by_register:
        mov     (%rdi), %rax
        jmp     *%rax

#= jump_by_memory refused in jump_by_memory: jumps by 'jmp *(%rdi)', which isn't seen to be a table
jump_by_memory:
        jmp     *(%rdi)

# Looks like a table, but there is another way to the jump.
#= into_a_table refused in into_a_table: jumps by 'jmp *%rax', which isn't seen to be a table
into_a_table:
        mov     %rdi, %rax
        test    %rsi, %rsi
        je      .Linto
        lea     .Ltable(%rip), %rcx
        movslq  (%rcx,%rdi,4), %rax
        add     %rcx, %rax
.Linto: jmp     *%rax
.Lin:   ret

# The table is another's.
#= not_its_table refused in not_its_table: jumps by a table whose entry 0 leads out of it
not_its_table:
        cmp     $0x0, %edi
        ja      .Lnot
        lea     .Ltable(%rip), %rcx
        movslq  (%rcx,%rdi,4), %rax
        add     %rcx, %rax
        jmp     *%rax
.Lnot:  ret

# An entry leads to the jump itself, which then goes anywhere.
#= table_into_itself refused in table_into_itself: jumps by 'jmp *%rax', which isn't seen to be a table
table_into_itself:
        cmp     $0x0, %edi
        ja      .Litself_not
        lea     .Litself_table(%rip), %rcx
        movslq  (%rcx,%rdi,4), %rax
        add     %rcx, %rax
.Litself:
        jmp     *%rax
.Litself_not:
        ret

#= late_table refused in late_table: jumps by 'jmp *%rax', which isn't seen to be a table
late_table:
        movslq  (%rcx,%rdi,4), %rax
        lea     .Llate_table(%rip), %rcx
        add     %rcx, %rax
        jmp     *%rax
.Llate: ret

#= two_tables refused in two_tables: jumps by 'jmp *%rax', which isn't seen to be a table
two_tables:
        lea     .Llate_table(%rip), %rcx
        movslq  (%rdx,%rdi,4), %rax
        add     %rcx, %rax
        jmp     *%rax

#= other_entries refused in other_entries: jumps by 'jmp *%rax', which isn't seen to be a table
other_entries:
        lea     .Llate_table(%rip), %rcx
        mov     (%rcx,%rdi,4), %rax
        add     %rcx, %rax
        jmp     *%rax

# The check lets more through than the table has.
#= short_table refused in short_table: jumps by a table whose entry 1 leads nowhere
short_table:
        cmp     $0x1, %rdi
        ja      .Lshort
        lea     .Lshort_table(%rip), %rcx
        movslq  (%rcx,%rdi,4), %rax
        add     %rcx, %rax
        jmp     *%rax
.Lshort:
        ret

# Nothing says how long the table is, and an entry that leads nowhere ends the reading before all is seen.
#= cut_table refused in cut_table: jumps by a table of no known length, and doesn't come to 'push %rbx'
cut_table:
        lea     .Lcut_table(%rip), %rcx
        movslq  (%rcx,%rdi,4), %rax
        add     %rcx, %rax
        jmp     *%rax
.Lcut0: ret
.Lcut2: push    %rbx
        pop     %rbx
        ret

# An entry leads to another function, as where a compiler puts a case that is rare elsewhere.
#= table_out refused in table_out: jumps by a table whose entry 1 leads out of it
table_out:
        lea     .Lout_table(%rip), %rcx
        movslq  (%rcx,%rdi,4), %rax
        add     %rcx, %rax
        jmp     *%rax
.Lout0: ret

# That many the copy's check lets through, and no more stand there.
#= short_table_by_copy refused in short_table_by_copy: jumps by a table whose entry 1 leads nowhere
short_table_by_copy:
        mov     %edi, %edx
        cmp     $0x1, %edi
        ja      .Lshort_by_copy
        lea     .Lshort_by_copy_table(%rip), %rcx
        movslq  (%rcx,%rdx,4), %rax
        add     %rcx, %rax
        jmp     *%rax
.Lshort_by_copy:
        ret

# An address within the table ends the reading before all is seen.
#= table_cut_in_two refused in table_cut_in_two: jumps by a table of no known length, and doesn't come to 'push %rbx'
table_cut_in_two:
        lea     .Lin_two_table(%rip), %rcx
        movslq  (%rcx,%rdi,4), %rax
        add     %rcx, %rax
        lea     .Lsecond_half(%rip), %rdx
        jmp     *%rax
.Lin_two0:
        ret
.Lin_two1:
        push    %rbx
        pop     %rbx
        ret

# The second table leads past the check of the first.
#= past_by_table refused in past_by_table: jumps by 'jmp *%rax', which isn't seen to be a table
past_by_table:
        cmp     $0x0, %edi
        ja      .Lpast_by2
.Lpast_by1:
        lea     .Lpast_by_table(%rip), %rcx
        movslq  (%rcx,%rdi,4), %rax
        add     %rcx, %rax
        jmp     *%rax
.Lpast_by2:
        cmp     $0x1, %esi
        ja      .Lpast_by3
        lea     .Lpast_by_table(%rip), %rcx
        movslq  (%rcx,%rsi,4), %rax
        add     %rcx, %rax
        jmp     *%rax
.Lpast_by3:
        ret

# A called function need not put that register back.
#= lost_table refused in lost_table: jumps by 'jmp *%rax', which isn't seen to be a table
lost_table:
        lea     .Ltable(%rip), %rcx
        call    nothing
        movslq  (%rcx,%rdi,4), %rax
        add     %rcx, %rax
        jmp     *%rax

# Another way there has another table.
#= either_table refused in either_table: jumps by 'jmp *%rax', which isn't seen to be a table
either_table:
        lea     .Llate_table(%rip), %rcx
        test    %rsi, %rsi
        je      .Leither
        lea     .Lshort_table(%rip), %rcx
.Leither:
        cmp     $0x0, %rdi
        ja      .Leither0
        movslq  (%rcx,%rdi,4), %rax
        add     %rcx, %rax
        jmp     *%rax
.Leither0:
        ret

nothing:
        ret

# As alloca and arrays of a length that is found out when it runs.
#= by_length refused in by_length: can't follow 'sub %rdi,%rsp', which sets the stack pointer
by_length:
        push    %rbp
        mov     %rsp, %rbp
        sub     %rdi, %rsp
        leave
        ret

#= exchanged refused in exchanged: can't follow 'xchg %rax,%rsp', which sets the stack pointer
exchanged:
        xchg    %rax, %rsp
        ret

#= loaded refused in loaded: can't follow 'mov (%rdi),%rsp', which sets the stack pointer
loaded: mov     (%rdi), %rsp
        ret

#= one_pop_too_many refused in one_pop_too_many: takes more off the stack than it put there
one_pop_too_many:
        push    %rbx
        pop     %rbx
        pop     %rbx
        ret

#= one_pop_too_few refused in one_pop_too_few: returns with 8 bytes on the stack
one_pop_too_few:
        push    %rbx
        push    %rbx
        pop     %rbx
        ret

#= jump_too_early refused in jump_too_early: jumps to another function with 8 bytes on the stack
jump_too_early:
        push    %rbx
        jmp     itself

#= two_heights refused in two_heights: comes to 'xor %eax,%eax' at two heights, 8 and 16
two_heights:
        push    %rbx
        test    %rdi, %rdi
        je      .Lmeet
        push    %rbx
.Lmeet: xor     %eax, %eax
        pop     %rbx
        ret

#= two_heights_deeper_first refused in two_heights_deeper_first: comes to 'xor %eax,%eax' at two heights, 16 and 8
two_heights_deeper_first:
        push    %rbx
        push    %rbx
        test    %rdi, %rdi
        je      .Lother
        pop     %rbx
.Lother:
        xor     %eax, %eax
        pop     %rbx
        pop     %rbx
        ret

#= pushes_in_a_loop refused in pushes_in_a_loop: comes to 'push %rdi' at two heights, 0 and 8
pushes_in_a_loop:
        push    %rdi
        dec     %rdi
        jne     pushes_in_a_loop
        ret

#= steps_without_end refused in steps_without_end: takes stack in a loop whose end isn't known
steps_without_end:
        mov     %rdi, %r11
.Lstep: sub     $0x1000, %rsp
        movq    $0x0, (%rsp)
        cmp     %r11, %rsp
        jne     .Lstep
        add     $0x1000, %rsp
        ret

#= steps_past_its_end refused in steps_past_its_end: takes stack in a loop whose end isn't known
steps_past_its_end:
        lea     -0x1800(%rsp), %r11
.Lpast: sub     $0x1000, %rsp
        movq    $0x0, (%rsp)
        cmp     %r11, %rsp
        jne     .Lpast
        add     $0x1800, %rsp
        ret

#= steps_from_its_end refused in steps_from_its_end: takes stack in a loop whose end isn't known
steps_from_its_end:
        mov     %rsp, %r11
.Lfrom: sub     $0x1000, %rsp
        movq    $0x0, (%rsp)
        cmp     %r11, %rsp
        jne     .Lfrom
        ret

# A called function may leave anything in %r11.
#= end_lost refused in end_lost: takes stack in a loop whose end isn't known
end_lost:
        lea     -0x2000(%rsp), %r11
        call    leaf
.Llost: sub     $0x1000, %rsp
        movq    $0x0, (%rsp)
        cmp     %r11, %rsp
        jne     .Llost
        add     $0x2000, %rsp
        ret
leaf:   ret

# Room that is taken towards an end in another register, of a length that isn't known; towards an end that isn't the copy; in a loop that
# isn't the one; and entered in the middle.
#= room_by_length refused in room_by_length: can't follow 'mov %rsi,%rsp', which sets the stack pointer
room_by_length:
        push    %rbp
        mov     %rsp, %rbp
        mov     %rsp, %rsi
        sub     %rdi, %rsi
        cmp     %rsp, %rsi
        jge     .Lby_length
        ud2
.Lby_length:
        mov     %rsi, %rsp
        leave
        ret

#= room_to_elsewhere refused in room_to_elsewhere: comes to 'xorq $0x0,(%rsp)' at two heights, 8 and 3080
room_to_elsewhere:
        push    %rbp
        mov     %rsp, %rbp
        mov     %rsp, %rsi
        sub     $0x90, %rdi
        cmp     %rsp, %rsi
        jge     .Lelsewhere
.Lto_elsewhere:
        xorq    $0x0, (%rsp)
        sub     $0xc00, %rsp
        cmp     %rsp, %rsi
        jl      .Lto_elsewhere
.Lelsewhere:
        mov     %rsi, %rsp
        leave
        ret

#= room_without_end refused in room_without_end: comes to 'xorq $0x0,(%rsp)' at two heights, 8 and 3080
room_without_end:
        push    %rbp
        mov     %rsp, %rbp
        mov     %rsp, %rsi
        sub     $0x90, %rsi
        cmp     %rsp, %rsi
        jge     .Lwithout_end
.Lno_end:
        xorq    $0x0, (%rsp)
        sub     $0xc00, %rsp
        cmp     %rsp, %rdi
        jl      .Lno_end
.Lwithout_end:
        mov     %rsi, %rsp
        leave
        ret

#= room_elsewhere refused in room_elsewhere: can't follow 'mov %rsi,%rsp', which sets the stack pointer
room_elsewhere:
        push    %rbp
        mov     %rsp, %rbp
        test    %rdx, %rdx
        je      .Lroom_elsewhere
        mov     %rsp, %rsi
        sub     $0x90, %rsi
        cmp     %rsp, %rsi
        jge     .Lroom_elsewhere
.Lmore: xorq    $0x0, (%rsp)
        sub     $0xc00, %rsp
        cmp     %rsp, %rsi
        jl      .Lmore
.Lroom_elsewhere:
        mov     %rsi, %rsp
        leave
        ret

#= rounded_for_good refused in rounded_for_good: returns while the stack is rounded to a multiple
rounded_for_good:
        and     $-0x10, %rsp
        add     $0xf, %rsp
        ret

#= rounded_to_none refused in rounded_to_none: can't follow 'and $0xffffffffffffffe8,%rsp', which sets the stack pointer
rounded_to_none:
        and     $-0x18, %rsp
        ret

#= frame_lost refused in frame_lost: can't follow 'leave': %rbp isn't known there
frame_lost:
        push    %rbp
        mov     %rsp, %rbp
        test    %rdi, %rdi
        je      .Lkept
        mov     %rdi, %rbp
.Lkept: leave
        ret

#= leaves_twice refused in leaves_twice: can't follow 'leave': %rbp isn't known there
leaves_twice:
        push    %rbp
        mov     %rsp, %rbp
        leave
        leave
        ret

#= unknown refused in unknown: calls elsewhere, which has no body here and no allowance
unknown:
        call    elsewhere
        ret

#= into_the_middle refused in into_the_middle: can't follow 'call 4' to a function's start
into_the_middle:
        call    itself + 4
        ret

#= calls_a_broken_one refused in unknown: calls elsewhere, which has no body here and no allowance
calls_a_broken_one:
        call    unknown
        ret

#= gone refused isn't there, or twice

#= off_its_end refused in off_its_end: runs off its end
off_its_end:
        push    %rbx
        pop     %rbx

#= zeros refused in zeros: runs off its end
zeros:  push    %rbx
        .zero   64
        pop     %rbx
        ret

#= copies_rounded refused in copies_rounded: can't follow 'mov %rsp,%rbp' while the stack is rounded to a multiple
copies_rounded:
        push    %rbp
        and     $-0x20, %rsp
        mov     %rsp, %rbp
        mov     %rdi, -0x60(%rbp)
        ud2

# Whatever its name says, the code that is called stands here.
#= called_by_an_alias refused in called_by_an_alias: calls memcpy, by a name that its code doesn't show
called_by_an_alias:
        call    memcpy
        ret
        .globl  copy_it, memcpy
copy_it:
memcpy: push    %rbx
        pop     %rbx
        ret

        .weak   yielding
yielding:
        ret

#= traps refused in traps: can't follow 'int3'
traps:  int3

# What the object asks for from outside, called or not, needs an allowance as well.
#= undefined refused elsewhere has no body here and no allowance
#= weak refused yielding may have another body elsewhere

        .section .rodata
        .balign 4
.Lshort_table:
        .long   .Lshort - .Lshort_table
.Lshort_by_copy_table:
        .long   .Lshort_by_copy - .Lshort_by_copy_table
.Lin_two_table:
        .long   .Lin_two0 - .Lin_two_table
.Lsecond_half:
        .long   .Lin_two1 - .Lin_two_table
.Lcut_table:
        .long   .Lcut0 - .Lcut_table, 0, .Lcut2 - .Lcut_table
.Lout_table:
        .long   .Lout0 - .Lout_table, nothing - .Lout_table
.Lpast_by_table:
        .long   .Lpast_by3 - .Lpast_by_table, .Lpast_by1 - .Lpast_by_table
.Litself_table:
        .long   .Litself - .Litself_table
.Llate_table:
        .long   .Llate - .Llate_table
.Ltable:
        .long   .Lin - .Ltable

        .section .note.GNU-stack, "", @progbits
