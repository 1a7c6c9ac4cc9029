/* entry.S: the way into an interrupt's C code and back, as a board's vectors have it.
 *
 * The archive changes general registers and xmm0 to xmm15, as any C function may. An interrupt comes between two instructions of a task that
 * knows nothing of it, so the entry saves both kinds: a handler that saved the general ones alone would lose the task's xmm registers.
 * Registers that a C function leaves as they came (rbx, rbp, r12 to r15) are saved by the C code itself. */

        .macro entry name, handler
        .globl \name
        .type \name, @function
\name:
        push %rax
        push %rcx
        push %rdx
        push %rsi
        push %rdi
        push %r8
        push %r9
        push %r10
        push %r11
        push %rbp
        mov %rsp, %rbp
        sub $512, %rsp
        and $-16, %rsp          /* for fxsave, and for the call: the archive stores to the stack by 16 aligned bytes */
        fxsave64 (%rsp)         /* xmm0 to xmm15, mxcsr, x87 */
        cld
        call \handler
        fxrstor64 (%rsp)
        mov %rbp, %rsp
        pop %rbp
        pop %r11
        pop %r10
        pop %r9
        pop %r8
        pop %rdi
        pop %rsi
        pop %rdx
        pop %rcx
        pop %rax
        iretq
        .size \name, . - \name
        .endm

        .text
        entry clock_entry, clock_interrupt
        entry card_entry, card_interrupt

/* void interrupted(struct registers *r, void (*entry)(void)): a task that has r in its registers is interrupted. The stack gets what the
 * processor pushes, the entry is gone to, and what the registers hold on return is written to r. */
        .globl interrupted
        .type interrupted, @function
interrupted:
        push %rbx
        push %rbp
        push %r12
        push %r13
        push %r14
        push %r15
        push %rdi
        mov %rsi, vector(%rip)

        mov %rsp, %rax
        and $-16, %rsp
        mov %ss, %ecx
        push %rcx
        push %rax
        pushfq
        mov %cs, %ecx
        push %rcx
        lea 1f(%rip), %rcx
        push %rcx

        .irp n, 0, 1, 2, 3, 4, 5, 6, 7, 8, 9, 10, 11, 12, 13, 14, 15
        movups 16 * \n(%rdi), %xmm\n
        .endr
        mov 256(%rdi), %rax
        mov 264(%rdi), %rbx
        mov 272(%rdi), %rcx
        mov 280(%rdi), %rdx
        mov 288(%rdi), %rsi
        mov 296(%rdi), %rbp
        .irp n, 8, 9, 10, 11, 12, 13, 14, 15
        mov 304 + 8 * (\n - 8)(%rdi), %r\n
        .endr
        mov 368(%rdi), %rdi
        jmp *vector(%rip)

1:      xchg %rax, (%rsp)       /* rax: r; its own value waits on the stack */
        .irp n, 0, 1, 2, 3, 4, 5, 6, 7, 8, 9, 10, 11, 12, 13, 14, 15
        movups %xmm\n, 16 * \n(%rax)
        .endr
        mov %rbx, 264(%rax)
        mov %rcx, 272(%rax)
        mov %rdx, 280(%rax)
        mov %rsi, 288(%rax)
        mov %rbp, 296(%rax)
        .irp n, 8, 9, 10, 11, 12, 13, 14, 15
        mov %r\n, 304 + 8 * (\n - 8)(%rax)
        .endr
        mov %rdi, 368(%rax)
        pop %rcx
        mov %rcx, 256(%rax)
        pop %r15
        pop %r14
        pop %r13
        pop %r12
        pop %rbp
        pop %rbx
        ret
        .size interrupted, . - interrupted

        .local vector
        .comm vector, 8, 8
        .section .note.GNU-stack, "", @progbits
