/* Loaded before the C library, by LD_PRELOAD: refuses requests for memory and fails reads and writes, as the environment says.
   bench/hostile and bench/refusals compile it and say what the variables mean. A byte is written to descriptor TOLD_FD at each
   request that is refused and each call that fails so, whatever becomes of the program then. */
#define _GNU_SOURCE
#include <errno.h>
#include <stdatomic.h>
#include <stddef.h>
#include <stdlib.h>
#include <sys/syscall.h>
#include <unistd.h>

/* the C library's own, by the names under which it has them beside the public ones */
extern void *__libc_malloc(size_t), *__libc_realloc(void *, size_t), *__libc_calloc(size_t, size_t);

static long number(const char *name, long otherwise) {
    const char *value = getenv(name);
    return value ? atol(value) : otherwise;
}

static long memory_from, memory_to, read_from, read_to, read_error, write_from, write_to, write_error, piece, told_fd;
static atomic_long memory_count, read_count, write_count;

/* calls are numbered from 1, those of the loader before this left out; those from FROM to TO fail */
__attribute__((constructor)) static void begin(void) {
    memory_from = number("MEMORY_FROM", 0), memory_to = number("MEMORY_TO", memory_from);
    read_from = number("READ_FROM", 0), read_to = number("READ_TO", read_from), read_error = number("READ_ERROR", EIO);
    write_from = number("WRITE_FROM", 0), write_to = number("WRITE_TO", write_from), write_error = number("WRITE_ERROR", ENOSPC);
    piece = number("PIECE", 0), told_fd = number("TOLD_FD", -1);
    memory_count = read_count = write_count = 0;
}

static int fails(atomic_long *count, long from, long to, long error) {
    long at = atomic_fetch_add(count, 1) + 1;
    if (!from || at < from || at > to) return 0;
    if (told_fd >= 0) syscall(SYS_write, told_fd, "x", 1);
    errno = error;
    return 1;
}

static int is_refused(void) { return fails(&memory_count, memory_from, memory_to, ENOMEM); }

static size_t at_most(size_t size) { return piece && size > (size_t)piece ? (size_t)piece : size; }

void *malloc(size_t size) { return is_refused() ? NULL : __libc_malloc(size); }

void *realloc(void *old, size_t size) { return is_refused() ? NULL : __libc_realloc(old, size); }

void *calloc(size_t count, size_t size) { return is_refused() ? NULL : __libc_calloc(count, size); }

ssize_t read(int from, void *buffer, size_t size) {
    if (fails(&read_count, read_from, read_to, read_error)) return -1;
    return syscall(SYS_read, from, buffer, at_most(size));
}

/* an error of 0 is a write that takes nothing */
ssize_t write(int to, const void *buffer, size_t size) {
    if (fails(&write_count, write_from, write_to, write_error)) return write_error ? -1 : 0;
    return syscall(SYS_write, to, buffer, at_most(size));
}
