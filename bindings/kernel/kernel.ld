OUTPUT_FORMAT(elf64-x86-64)
ENTRY(start)
SECTIONS {
    . = 0x100000;
    image = .;
    .text : { *(.boot) *(.text*) }
    .rodata : { *(.rodata*) }
    .data : { *(.data*) *(.got*) }
    loaded = .;
    .bss : { *(.bss*) *(COMMON) }
    . = ALIGN(4096);
    ended = .;
    /DISCARD/ : { *(.eh_frame*) *(.comment) *(.note*) }
}
