/* Counts allocations, and refuses the one that the environment names by REFUSED. At the end it prints the count on standard
 * error. The library is loaded before the C library. */
#include <stddef.h>
#include <stdio.h>
#include <stdlib.h>
#include <sys/syscall.h>
#include <unistd.h>

void *__libc_malloc(size_t size);
void *__libc_realloc(void *block, size_t size);

static unsigned long asked, refused;

__attribute__((constructor)) static void begin(void) {
    const char *which = getenv("REFUSED");
    refused = which ? strtoul(which, NULL, 10) : 0;
}

void _exit(int status) {
    dprintf(2, "%lu\n", asked);
    syscall(SYS_exit_group, status);
    __builtin_unreachable();
}

void *malloc(size_t size) { return ++asked == refused ? NULL : __libc_malloc(size); }

void *realloc(void *block, size_t size) { return ++asked == refused ? NULL : __libc_realloc(block, size); }
