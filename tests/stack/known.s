# Functions whose stack is known by counting. bound.awk must print the lines behind "#=" of them, to the byte: of this object,
# with its relocations, and of the program it is linked to, with addresses in their place. Sums begin with the return address, 8.

        .section .text.pushes, "ax", @progbits # called from another section, so by a relocation
#= pushes 56 pushes 56
        .globl  pushes
pushes: push    %rbx
        push    %r12
        sub     $0x20, %rsp
        mov     %rdi, (%rsp)
        add     $0x20, %rsp
        pop     %r12
        pop     %rbx
        ret

        .text
#= nothing 8 nothing 8
nothing:
        ret

#= calls 96 calls 40 > pushes 56
calls:  sub     $0x8, %rsp
        call    nothing
        lea     -0x18(%rsp), %rsp
        call    pushes
        add     $0x20, %rsp
        ret

# Arguments on the stack are the caller's.
#= hands 112 hands 56 > pushes 56
hands:  sub     $0x8, %rsp
        push    $0x1
        push    0x8(%rdi)
        push    %rsp
        push    %rdi
        sub     $0x8, %rsp
        call    pushes
        sub     $-0x30, %rsp
        ret

# Two ways that meet at one height. The deeper one returns by itself.
#= ways 144 ways 144
ways:   push    %rbx
        test    %rdi, %rdi
        je      .Lshallow
        sub     $0x10, %rsp
        add     $0x10, %rsp
        jmp     .Lmeet
.Lshallow:
        push    %rdi
        pop     %rdi
.Lmeet: test    %rsi, %rsi
        jne     .Ldeep
        pop     %rbx
        ret
.Ldeep: add     $-0x80, %rsp
        sub     $-0x80, %rsp
        pop     %rbx
        ret

# A jump to another function takes no return address of its own; one is within a condition.
#= tail 96 tail 8 > calls 32 > pushes 56
tail:   push    %rbx
        pop     %rbx
        test    %rdi, %rdi
        je      nothing
        jmp     calls

#= turns 16 turns 16
turns:  push    %rdi
        pop     %rdi
        dec     %rdi
        jne     turns
        ret

#= steps 8712 steps 8712
steps:  sub     $0x1000, %rsp
        movq    $0x0, (%rsp)
        sub     $0x1000, %rsp
        movq    $0x0, (%rsp)
        sub     $0x200, %rsp
        add     $0x2200, %rsp
        ret

#= stepping 73216 stepping 73160 > pushes 56
stepping:
        push    %rbx
        mov     %rsp, %r11
        sub     $0x11000, %r11
.Lstep: sub     $0x1000, %rsp
        movq    $0x0, (%rsp)
        cmp     %r11, %rsp
        jne     .Lstep
        sub     $0xdb8, %rsp
        call    pushes
        add     $0x11db8, %rsp
        pop     %rbx
        ret

#= stepping_by_lea 8208 stepping_by_lea 8208
stepping_by_lea:
        push    %rbx
        lea     -0x2000(%rsp), %r11
.Lor:   sub     $0x1000, %rsp
        orq     $0x0, (%rsp)
        cmp     %r11, %rsp
        jne     .Lor
        add     $0x2000, %rsp
        pop     %rbx
        ret

# Only by its table it comes to the call.
#= table 72 table 16 > pushes 56
table:  push    %rbx
        dec     %edi
        cmp     $0x2, %edi
        ja      .Lcase0
        mov     0x8(%rsi), %edx
        lea     .Ltable(%rip), %rcx
        movslq  (%rcx,%rdi,4), %rax
        add     %rcx, %rax
        mov     %rsi, %rcx
        jmp     *%rax
.Lcase1:
        call    pushes
        pop     %rbx
        ret
.Lcase2:
        mov     %edx, %eax
.Lcase0:
        pop     %rbx
        ret

# What is looked up isn't what was checked, so the check says nothing of the table's length.
#= moved_table 64 moved_table 8 > pushes 56
moved_table:
        cmp     $0x0, %edi
        ja      .Lmoved0
        inc     %edi
        lea     .Lmoved_table(%rip), %rcx
        movslq  (%rcx,%rdi,4), %rax
        add     %rcx, %rax
        jmp     *%rax
.Lmoved0:
        ret
.Lmoved1:
        call    pushes
        ret

# Nor does it where there is a way past the check, or past what it compares.
#= past_the_check 64 past_the_check 8 > pushes 56
past_the_check:
        test    %rsi, %rsi
        je      .Lpast
        cmp     $0x0, %edi
        ja      .Lpast0
.Lpast: lea     .Lpast_table(%rip), %rcx
        movslq  (%rcx,%rdi,4), %rax
        add     %rcx, %rax
        jmp     *%rax
.Lpast0:
        ret
.Lpast1:
        call    pushes
        ret

#= past_the_comparison 64 past_the_comparison 8 > pushes 56
past_the_comparison:
        test    %rsi, %rsi
        je      .Lcompared
        cmp     $0x0, %edi
.Lcompared:
        ja      .Lcompared0
        lea     .Lcompared_table(%rip), %rcx
        movslq  (%rcx,%rdi,4), %rax
        add     %rcx, %rax
        jmp     *%rax
.Lcompared0:
        ret
.Lcompared1:
        call    pushes
        ret

# No check before it: the table is read as far as it leads into the function.
#= whole_table 24 whole_table 24
whole_table:
        lea     .Lwhole_table(%rip), %rsi
        movslq  (%rsi,%rdi,4), %r8
        add     %rsi, %r8
        jmp     *%r8
.Lwhole0:
        ret
.Lwhole1:
        push    %rbx
        pop     %rbx
        ret
.Lwhole2:
        push    %rbx
        push    %rbx
        pop     %rbx
        pop     %rbx
        ret

# Nor here, but the table ends where the next begins, whose entries, counted from the first, would lead out.
#= next_table 24 next_table 24
next_table:
        lea     .Lnext_table(%rip), %rsi
        movslq  (%rsi,%rdi,4), %r8
        add     %rsi, %r8
        jmp     *%r8
.Lnext0:
        lea     .Lsecond_table(%rip), %rcx
        movslq  (%rcx,%rdi,4), %rax
        add     %rcx, %rax
        jmp     *%rax
.Lnext1:
        push    %rbx
        pop     %rbx
        ret
.Lsecond0:
        push    %rbx
        push    %rbx
        pop     %rbx
        pop     %rbx
        ret

# What is looked up is a copy of what was checked, made before that or behind it, and its lower half at that. The entry behind would lead
# out.
#= copied_before 64 copied_before 8 > pushes 56
copied_before:
        mov     %edi, %r8d
        cmp     $0x1, %edi
        ja      .Lcopied_before0
        lea     .Lcopied_before_table(%rip), %rcx
        movslq  (%rcx,%r8,4), %rax
        add     %rcx, %rax
        jmp     *%rax
.Lcopied_before0:
        ret
.Lcopied_before1:
        call    pushes
        ret

#= copied_behind 64 copied_behind 8 > pushes 56
copied_behind:
        cmp     $0x1, %edi
        ja      .Lcopied_behind0
        mov     %rdi, %rax
        mov     %eax, %eax
        lea     .Lcopied_behind_table(%rip), %rcx
        movslq  (%rcx,%rax,4), %rax
        add     %rcx, %rax
        jmp     *%rax
.Lcopied_behind0:
        ret
.Lcopied_behind1:
        call    pushes
        ret

# A copy that was changed, a copy of something else, and what was copied only on one way: the check says nothing.
#= changed_copy 64 changed_copy 8 > pushes 56
changed_copy:
        mov     %edi, %r8d
        inc     %r8d
        cmp     $0x0, %edi
        ja      .Lchanged0
        lea     .Lchanged_table(%rip), %rcx
        movslq  (%rcx,%r8,4), %rax
        add     %rcx, %rax
        jmp     *%rax
.Lchanged0:
        ret
.Lchanged1:
        call    pushes
        ret

#= changed_behind 64 changed_behind 8 > pushes 56
changed_behind:
        cmp     $0x0, %edi
        ja      .Lchanged_behind0
        inc     %edi
        mov     %edi, %eax
        lea     .Lchanged_behind_table(%rip), %rcx
        movslq  (%rcx,%rax,4), %rax
        add     %rcx, %rax
        jmp     *%rax
.Lchanged_behind0:
        ret
.Lchanged_behind1:
        call    pushes
        ret

#= another_copy 64 another_copy 8 > pushes 56
another_copy:
        mov     %esi, %r8d
        cmp     $0x0, %edi
        ja      .Lanother0
        lea     .Lanother_table(%rip), %rcx
        movslq  (%rcx,%r8,4), %rax
        add     %rcx, %rax
        jmp     *%rax
.Lanother0:
        ret
.Lanother1:
        call    pushes
        ret

#= past_the_copy 64 past_the_copy 8 > pushes 56
past_the_copy:
        test    %rsi, %rsi
        je      .Lpast_copy
        mov     %edi, %r8d
.Lpast_copy:
        cmp     $0x0, %edi
        ja      .Lpast_copy0
        lea     .Lpast_copy_table(%rip), %rcx
        movslq  (%rcx,%r8,4), %rax
        add     %rcx, %rax
        jmp     *%rax
.Lpast_copy0:
        ret
.Lpast_copy1:
        call    pushes
        ret

# The lowest byte alone: the rest is what it was.
#= a_part_copied 64 a_part_copied 8 > pushes 56
a_part_copied:
        cmp     $0x0, %edi
        ja      .Lpart0
        mov     %dil, %al
        lea     .Lpart_table(%rip), %rcx
        movslq  (%rcx,%rax,4), %rax
        add     %rcx, %rax
        jmp     *%rax
.Lpart0:
        ret
.Lpart1:
        call    pushes
        ret

# The table's address is taken before the loop that jumps by it, and outlives a call.
#= hoisted_table 80 hoisted_table 24 > pushes 56
hoisted_table:
        push    %rbx
        push    %r12
        lea     .Lhoisted_table(%rip), %rbx
.Lhoisted_again:
        test    %rsi, %rsi
        je      .Lhoisted0
        call    pushes
        cmp     $0x1, %rax
        ja      .Lhoisted0
        movslq  (%rbx,%rax,4), %rcx
        add     %rbx, %rcx
        jmp     *%rcx
.Lhoisted1:
        dec     %rsi
        jmp     .Lhoisted_again
.Lhoisted0:
        pop     %r12
        pop     %rbx
        ret

#= frame 136 frame 80 > pushes 56
frame:  push    %rbp
        mov     %rsp, %rbp
        sub     $0x40, %rsp
        call    pushes
        test    %rax, %rax
        je      .Lplain
        leave
        ret
.Lplain:
        mov     %rbp, %rsp
        pop     %rbp
        ret

# Rounded down to a multiple of 64: up to 63 bytes more.
#= rounded 279 rounded 223 > pushes 56
rounded:
        push    %rbp
        mov     %rsp, %rbp
        push    %rbx
        push    %r12
        and     $-0x40, %rsp
        sub     $0x80, %rsp
        call    pushes
        lea     -0x10(%rbp), %rsp
        pop     %r12
        pop     %rbx
        pop     %rbp
        ret

# Room of a known length, towards an end in another register. The last step goes past it, and what is called begins at the end.
#= room 3104 room 3104
room:   push    %rbp
        mov     %rsp, %rbp
        push    %rbx
        push    %rax
        mov     %rsp, %rsi
        sub     $0x90, %rsi
        cmp     %rsp, %rsi
        jge     .Lroom
.Lmore: xorq    $0x0, (%rsp)
        sub     $0xc00, %rsp
        cmp     %rsp, %rsi
        jl      .Lmore
.Lroom: mov     %rsi, %rsp
        mov     %rdi, (%rsi)
        call    pushes
        lea     -0x10(%rbp), %rsp
        pop     %rax
        pop     %rbx
        pop     %rbp
        ret

#= room_in_steps 8264 room_in_steps 8208 > pushes 56
room_in_steps:
        push    %rbp
        mov     %rsp, %rbp
        mov     %rsp, %r9
        sub     $0x2000, %r9
        cmp     %rsp, %r9
        jge     .Lin_steps
.Lsteps:
        orq     $0x0, (%rsp)
        sub     $0x1000, %rsp
        cmp     %rsp, %r9
        jl      .Lsteps
.Lin_steps:
        mov     %r9, %rsp
        call    pushes
        mov     %rbp, %rsp
        pop     %rbp
        ret

# Below the stack pointer, without moving it.
#= red_zone 48 red_zone 48
red_zone:
        mov     %rdi, -0x28(%rsp)
        mov     -0x8(%rsp), %rax
        ret

#= red_zone_by_index 144 red_zone_by_index 144
red_zone_by_index:
        push    %rbx
        mov     %al, -0x1(%rsp,%rdi,1)
        pop     %rbx
        ret

#= red_zone_by_frame 64 red_zone_by_frame 64
red_zone_by_frame:
        push    %rbp
        mov     %rsp, %rbp
        mov     %rdi, -0x30(%rbp)
        pop     %rbp
        ret

#= outside 88 outside 16 > memcpy 72
outside:
        sub     $0x8, %rsp
        call    memcpy@PLT
        add     $0x8, %rsp
        ret

#= outside_by_jump 72 outside_by_jump 8 > memset 64
outside_by_jump:
        jmp     memset@PLT

#= ends 16 ends 16
ends:   push    %rbx
        ud2

# Below the stack pointer by an index, or by an address that was taken below it: up to the whole red zone.
#= red_zone_upwards 136 red_zone_upwards 136
red_zone_upwards:
        mov     %rdi, (%rsp,%rax,8)
        ret

#= red_zone_by_frame_and_index 144 red_zone_by_frame_and_index 144
red_zone_by_frame_and_index:
        push    %rbp
        mov     %rsp, %rbp
        mov     %cl, 0x0(%rbp,%rdx,1)
        pop     %rbp
        ret

#= red_zone_by_address 136 red_zone_by_address 136
red_zone_by_address:
        lea     -0x14(%rsp), %r8
        mov     %cl, (%r8,%rax,1)
        ret

# What a program is followed from.
#= main 80 main 24 > pushes 56
        .globl  main
main:   sub     $0x10, %rsp
        call    pushes
        add     $0x10, %rsp
        xor     %eax, %eax
        ret

        .section .rodata
        .balign 4
.Ltable:
        .long   .Lcase0 - .Ltable, .Lcase1 - .Ltable, .Lcase2 - .Ltable
.Lhoisted_table:
        .long   .Lhoisted0 - .Lhoisted_table, .Lhoisted1 - .Lhoisted_table
.Lmoved_table:
        .long   .Lmoved0 - .Lmoved_table, .Lmoved1 - .Lmoved_table
.Lpast_table:
        .long   .Lpast0 - .Lpast_table, .Lpast1 - .Lpast_table
.Lcompared_table:
        .long   .Lcompared0 - .Lcompared_table, .Lcompared1 - .Lcompared_table
.Lnext_table:
        .long   .Lnext0 - .Lnext_table, .Lnext1 - .Lnext_table
.Lsecond_table:
        .long   .Lsecond0 - .Lsecond_table, 0x7fffffff
.Lcopied_before_table:
        .long   .Lcopied_before0 - .Lcopied_before_table, .Lcopied_before1 - .Lcopied_before_table, pushes - .Lcopied_before_table
.Lcopied_behind_table:
        .long   .Lcopied_behind0 - .Lcopied_behind_table, .Lcopied_behind1 - .Lcopied_behind_table, pushes - .Lcopied_behind_table
.Lchanged_table:
        .long   .Lchanged0 - .Lchanged_table, .Lchanged1 - .Lchanged_table
.Lchanged_behind_table:
        .long   .Lchanged_behind0 - .Lchanged_behind_table, .Lchanged_behind1 - .Lchanged_behind_table
.Lanother_table:
        .long   .Lanother0 - .Lanother_table, .Lanother1 - .Lanother_table
.Lpast_copy_table:
        .long   .Lpast_copy0 - .Lpast_copy_table, .Lpast_copy1 - .Lpast_copy_table
.Lpart_table:
        .long   .Lpart0 - .Lpart_table, .Lpart1 - .Lpart_table
.Lwhole_table:
        .long   .Lwhole0 - .Lwhole_table, .Lwhole1 - .Lwhole_table, .Lwhole2 - .Lwhole_table
        .long   0x7fffffff

        .section .note.GNU-stack, "", @progbits
