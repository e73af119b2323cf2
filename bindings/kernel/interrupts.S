/* The entry of each interrupt, and the switch from one thread to another. x86-64.
 *
 * An interrupt comes on a stack of its core. Its frame is copied to the stack of the interrupted thread, so the thread
 * can be switched away from in the handler, and returns by iretq. With PLAIN, for an archive that isn't made for a
 * kernel, the frame is put below the red zone, and the SSE registers are saved. */
        .text
        .global vectors
        .align 16
vectors:
        .set    v, 0
        .rept   256
        .align  16
        .if (v == 8) || (v >= 10 && v <= 14) || (v == 17) || (v == 21) || (v == 29) || (v == 30)
        .else
        push    $0
        .endif
        push    $v
        jmp     interrupted
        .set    v, v + 1
        .endr

#ifdef PLAIN
        .set    RED_ZONE, 128
        .set    SSE_REGISTERS, 512
#else
        .set    RED_ZONE, 0
#endif
interrupted:
        push    %rax
        mov     48(%rsp), %rax          /* the thread's stack, at a multiple of 16 */
        sub     $RED_ZONE, %rax
        and     $-16, %rax
        xchg    %rax, %rsp
        .irp    at, 56, 48, 40, 32, 24, 16, 8, 0
        push    \at(%rax)
        .endr
        .irp    register, rbx, rcx, rdx, rsi, rdi, rbp, r8, r9, r10, r11, r12, r13, r14, r15
        push    %\register
        .endr
        mov     %rsp, %rdi
        mov     %rsp, %rbx
        cld
#ifdef PLAIN
        sub     $SSE_REGISTERS, %rsp    /* the archive may use them, and a handler may call it */
        fxsave64 (%rsp)
        call    interrupt
        fxrstor64 (%rsp)
#else
        call    interrupt
#endif
        mov     %rbx, %rsp
        .irp    register, r15, r14, r13, r12, r11, r10, r9, r8, rbp, rdi, rsi, rdx, rcx, rbx, rax
        pop     %\register
        .endr
        add     $16, %rsp               /* vector and error */
        iretq

/* switch_stacks(void **from, void *to): puts the registers that a call keeps on the stack, stores the stack at `from`,
 * and continues with the stack `to`. */
        .global switch_stacks, thread_begins
switch_stacks:
        .irp    register, rbx, rbp, r12, r13, r14, r15
        push    %\register
        .endr
        mov     %rsp, (%rdi)
        mov     %rsi, %rsp
        .irp    register, r15, r14, r13, r12, rbp, rbx
        pop     %\register
        .endr
        ret
thread_begins:
        call    run_thread

#ifdef PLAIN
/* bool keep_registers(uint64_t value, uint64_t rounds): puts `value` into both halves of xmm0 to xmm15, and compares
 * them `rounds` times. Returns false if a register has another value. */
        .global keep_registers
keep_registers:
        movq    %rdi, %xmm0
        punpcklqdq %xmm0, %xmm0
        .irp    n, 1, 2, 3, 4, 5, 6, 7, 8, 9, 10, 11, 12, 13, 14, 15
        movdqa  %xmm0, %xmm\n
        .endr
7:      .irp    n, 0, 1, 2, 3, 4, 5, 6, 7, 8, 9, 10, 11, 12, 13, 14, 15
        movdqu  %xmm\n, -24(%rsp)
        cmp     %rdi, -24(%rsp)
        jne     8f
        cmp     %rdi, -16(%rsp)
        jne     8f
        .endr
        dec     %rsi
        jnz     7b
        mov     $1, %eax
        ret
8:      xor     %eax, %eax
        ret
#endif
        .section .note.GNU-stack, "", @progbits
