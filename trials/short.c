/* Reads and writes at an offset that move one byte each. The library is loaded before the C library. */
#define _GNU_SOURCE
#include <dlfcn.h>
#include <sys/types.h>

typedef ssize_t reads(int file, void *room, size_t count, off_t at);
typedef ssize_t writes(int file, const void *piece, size_t count, off_t at);

static size_t few(size_t count) { return count > 1 ? 1 : count; }

ssize_t pread(int file, void *room, size_t count, off_t at) {
    return ((reads *)dlsym(RTLD_NEXT, "pread"))(file, room, few(count), at);
}

ssize_t pread64(int file, void *room, size_t count, off_t at) { return pread(file, room, count, at); }

ssize_t pwrite(int file, const void *piece, size_t count, off_t at) {
    return ((writes *)dlsym(RTLD_NEXT, "pwrite"))(file, piece, few(count), at);
}

ssize_t pwrite64(int file, const void *piece, size_t count, off_t at) { return pwrite(file, piece, count, at); }
