/* Stops before each atomic instruction inside the archive too, so that a step isn't one act. x86-64 alone.
 *
 * The archive's machine code stays, but for one byte of each such instruction: a trap, whose handler goes to a copy of
 * the instruction, behind a call of the scheduler. The file of sites (build_c.sh) has their addresses and lengths. */
#define _GNU_SOURCE
#include "world.h"
#include <signal.h>
#include <stdio.h>
#include <stdlib.h>
#include <string.h>
#include <sys/mman.h>
#include <ucontext.h>

enum { SITES = 64, STUB = 192 };
static struct { uintptr_t at, stub; } site[SITES];
static int sites;

/* Goes on with the copy of the instruction. */
static void traps(int number, siginfo_t *info, void *context) {
    (void)number, (void)info;
    greg_t *registers = ((ucontext_t *)context)->uc_mcontext.gregs;
    for (int i = 0; i < sites; i++)
        if (site[i].at + 1 == (uintptr_t)registers[REG_RIP]) {
            registers[REG_RIP] = (greg_t)site[i].stub;
            return;
        }
    abort();
}
/* Saves what the archive may still need (128 bytes below the stack, flags, registers), and calls x_fine_stop. */
static const unsigned char before[] = {
    0x48, 0x8d, 0x64, 0x24, 0x80, 0x9c, 0x50, 0x51, 0x52, 0x56, 0x57, 0x41, 0x50, 0x41, 0x51, 0x41, 0x52, 0x41, 0x53,
    0x53, 0x48, 0x89, 0xe3, 0x48, 0x83, 0xec, 0x10, 0x48, 0x83, 0xe4, 0xf0, 0x0f, 0x11, 0x04, 0x24, 0xff, 0x15};
static const unsigned char after[] = {
    0x0f, 0x10, 0x04, 0x24, 0x48, 0x89, 0xdc, 0x5b, 0x41, 0x5b, 0x41, 0x5a, 0x41, 0x59, 0x41, 0x58, 0x5f, 0x5e, 0x5a,
    0x59, 0x58, 0x9d, 0x48, 0x8d, 0xa4, 0x24, 0x80, 0x00, 0x00, 0x00};
bool x_fine(const char *file) {
    static char stack[65536];
    FILE *f = fopen(file, "r");
    unsigned long at, bytes;
    int all = PROT_READ | PROT_WRITE | PROT_EXEC;
    unsigned char *code = mmap(NULL, SITES * STUB, all, MAP_PRIVATE | MAP_ANONYMOUS, -1, 0);
    if (!f || code == MAP_FAILED) return false;
    while (fscanf(f, "%lx %lu", &at, &bytes) == 2 && sites < SITES) {
        unsigned char *p = code + sites * STUB, *q = p;
        void (*called)(void) = x_fine_stop;
        uintptr_t back = at + bytes;
        memcpy(q, before, sizeof before), q += sizeof before;
        int32_t far = (int32_t)(p + STUB - 16 - (q + 4));
        memcpy(q, &far, 4), q += 4;
        memcpy(q, after, sizeof after), q += sizeof after;
        memcpy(q, (void *)at, bytes), q += bytes;
        memcpy(q, "\xff\x25", 2), q += 2; /* jumps back */
        far = (int32_t)(p + STUB - 8 - (q + 4));
        memcpy(q, &far, 4);
        memcpy(p + STUB - 16, &called, 8), memcpy(p + STUB - 8, &back, 8);
        site[sites].at = at, site[sites++].stub = (uintptr_t)p;
        if (mprotect((void *)(at & ~4095ul), 8192, all)) return false;
        *(unsigned char *)at = 0xcc;
    }
    fclose(f);
    stack_t other = {.ss_sp = stack, .ss_size = sizeof stack};
    struct sigaction action = {.sa_sigaction = traps, .sa_flags = SA_SIGINFO | SA_ONSTACK | SA_NODEFER};
    return sites && !sigaltstack(&other, NULL) && !sigaction(SIGTRAP, &action, NULL);
}
