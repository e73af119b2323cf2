/* From the loader (multiboot 1: QEMU's -kernel, GRUB) to C on each core. x86-64. The image is flat: its header has
 * its addresses. */
        .set MAGIC, 0x1badb002
        .set FLAGS, 0x00010002          /* the loader passes the size of memory; the addresses are in this header */
        .set CODE32, 0x08
        .set DATA, 0x10
        .set CODE64, 0x18
        .set TRAMPOLINE, 0x8000
        .set STACK, 16384

        .section .boot, "ax"
        .code32
        .align 4
header: .long MAGIC, FLAGS, -(MAGIC + FLAGS)
        .long header, image, loaded, ended, start
        .global start
start:  cli
        cld
        mov     8(%ebx), %eax
        mov     %eax, memory_kb         /* memory from 1 MB on */
        lgdt    gdt_at
        ljmp    $CODE32, $1f
1:      mov     $DATA, %eax
        mov     %ax, %ds
        mov     %ax, %es
        mov     %ax, %ss
        /* maps the first 4 GB to themselves, in pages of 2 MB; from 3 GB on, where the devices are, uncached */
        movl    $tables + 0x1003, tables
        xor     %ecx, %ecx
2:      mov     %ecx, %eax
        shl     $12, %eax
        add     $tables + 0x2003, %eax
        mov     %eax, tables + 0x1000(, %ecx, 8)
        inc     %ecx
        cmp     $4, %ecx
        jb      2b
        xor     %ecx, %ecx
3:      mov     %ecx, %eax
        shl     $21, %eax
        or      $0x83, %eax
        cmp     $1536, %ecx
        jb      4f
        or      $0x18, %eax
4:      mov     %eax, tables + 0x2000(, %ecx, 8)
        inc     %ecx
        cmp     $2048, %ecx
        jb      3b

to_64_bits:
        .set    PAE, 0x20
#ifdef PLAIN
        .set    SSE, 0x600              /* OSFXSR and OSXMMEXCPT: the archive uses SSE registers */
        .set    FPU, 0x02               /* on */
#else
        .set    SSE, 0                  /* an SSE instruction raises exception 6 */
        .set    FPU, 0x04               /* off: an instruction of the floating point unit raises exception 7 */
#endif
        mov     $PAE | SSE, %eax
        mov     %eax, %cr4
        mov     $tables, %eax
        mov     %eax, %cr3
        mov     $0xc0000080, %ecx       /* EFER: long mode */
        rdmsr
        or      $0x100, %eax
        wrmsr
        mov     $0x80010031 | FPU, %eax /* paging, write protection, and the floating point unit */
        mov     %eax, %cr0
        ljmp    $CODE64, $in_64_bits
        .code64
in_64_bits:
        mov     $1, %eax
        lock xadd %eax, cores_started
        mov     %eax, %edi
        cmp     $CORES, %eax
        jae     5f
        inc     %eax
        imul    $STACK, %rax, %rax
        lea     first_stacks(%rax), %rsp
        xor     %ebp, %ebp
        call    start_core
5:      cli
        hlt
        jmp     5b

/* The other cores start here, in real mode, in a copy at TRAMPOLINE. */
        .code16
        .global trampoline, trampoline_end
trampoline:
        cli
        xor     %ax, %ax
        mov     %ax, %ds
        lgdtl   TRAMPOLINE + gdt_at - trampoline
        mov     %cr0, %eax
        or      $1, %al
        mov     %eax, %cr0
        ljmpl   $CODE32, $6f
        .align 4
gdt_at: .word   gdt_end - gdt - 1
        .long   gdt
trampoline_end:
        .code32
6:      mov     $DATA, %eax
        mov     %ax, %ds
        mov     %ax, %es
        mov     %ax, %ss
        jmp     to_64_bits

        .data
        .align 16
        .global gdt
gdt:    .quad   0, 0x00cf9a000000ffff, 0x00cf92000000ffff, 0x00af9a000000ffff
        .fill   2 * CORES, 8, 0         /* the task state of each core */
gdt_end:

        .bss
        .align 4096
tables: .skip   6 * 4096
        .global first_stacks, memory_kb, cores_started
first_stacks: .skip CORES * STACK
memory_kb: .long 0
cores_started: .long 0
        .section .note.GNU-stack, "", @progbits
