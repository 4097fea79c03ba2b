/* How deep each call of the functions named below goes. They are linked with --wrap, so that a call comes here first: the stack
 * below the caller is painted, the function runs, and the lowest byte that changed tells how far down it wrote. Counted from the
 * caller's stack pointer just before its call instruction, so the return address is in it. Arguments on the stack are the
 * caller's, above that, and stand where the function looks for them. One call at a time: no function here calls another. */
#include "painted.h"

        .macro  painted name
        .text
        .globl  __wrap_\name
__wrap_\name:
        lea     mark_\name(%rip), %r11
        jmp     begin_call
        .section .rodata
name_\name:
        .asciz  "\name"
        .section .data.marks, "aw"
mark_\name:                                     /* a struct mark */
        .quad   __real_\name, name_\name, 0
        .endm

        .section .data.marks, "aw"
        .balign 8
        .globl  painted_marks, painted_end
painted_marks:
#ifndef SUBJECT_PLAIN
        painted board_found
        painted board_read
        painted board_write
        painted board_apply
        painted board_run
        painted board_command
        painted board_check
        painted board_derives
        painted board_scope
        painted board_manager
        painted board_steps
        painted board_stretch
        painted jobs_start_rows
        painted jobs_claim_rows
        painted jobs_release_rows
        painted jobs_job_rows
#endif
        painted plain_found
        painted plain_read
        painted plain_write
        painted plain_apply
        painted plain_run
        painted plain_command
        painted plain_check
        painted plain_derives
        painted plain_scope
        painted plain_manager
        painted plain_steps
        painted plain_stretch
        painted plain_jobs_start
        painted plain_jobs_claim
        painted plain_jobs_release
        painted plain_jobs_job
painted_end:

        .bss
        .balign 8
        .globl  painted_last
painted_last: .zero 8                           /* the mark of the last call */
from:   .zero   8
back:   .zero   8
rax:    .zero   8
rcx:    .zero   8
rdi:    .zero   8

        .text
begin_call:                                     /* r11: the mark; the arguments stay as they are */
        mov     %r11, painted_last(%rip)
        mov     %rax, rax(%rip)
        mov     %rcx, rcx(%rip)
        mov     %rdi, rdi(%rip)
        pop     back(%rip)
        mov     %rsp, from(%rip)
        lea     -PAINTED(%rsp), %rdi
        mov     $PAINTED, %ecx
        mov     $PAINT, %al
        rep     stosb
        lea     end_call(%rip), %rax
        push    %rax
        mov     rax(%rip), %rax
        mov     rcx(%rip), %rcx
        mov     rdi(%rip), %rdi
        jmp     *(%r11)

        .balign 16                              /* so that no byte of this address has the paint's colour */
end_call:                                       /* the function has returned, with its answer in rax */
        mov     %rax, rax(%rip)
        lea     -PAINTED(%rsp), %rdi
        mov     $PAINTED, %ecx
        mov     $PAINT, %al
        repe    scasb                           /* to behind the lowest byte that changed */
        mov     from(%rip), %rcx
        sub     %rdi, %rcx
        inc     %rcx
        mov     painted_last(%rip), %r11
        cmp     %rcx, MARK_MOST(%r11)
        jae     1f
        mov     %rcx, MARK_MOST(%r11)
1:      mov     rax(%rip), %rax
        jmp     *back(%rip)

        .section .note.GNU-stack, "", @progbits
