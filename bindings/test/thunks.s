# What a program needs beside the archive of x86_64-linux-module, which returns by this thunk of Linux's kernel.
    .globl __x86_return_thunk
    .type __x86_return_thunk, @function
__x86_return_thunk:
    ret
    .section .note.GNU-stack
