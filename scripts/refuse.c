/* Loaded before the C library: one call of a kind is refused, or moves one byte alone.
 *
 * REFUSE=KIND:N names the kind, `alloc`, `read`, `write`, `short-read` or `short-write`, and the call, counted from 1. Of the short
 * ones those of two bytes and more are counted. REFUSE_MET names a file that is made at that call: a line `main` or `thread`, and
 * the path that was read or written.
 */
#define _GNU_SOURCE
#include <errno.h>
#include <fcntl.h>
#include <stdatomic.h>
#include <stdio.h>
#include <stdlib.h>
#include <string.h>
#include <sys/syscall.h>
#include <unistd.h>

extern void *__libc_malloc(size_t);
extern void *__libc_realloc(void *, size_t);

enum kind { NONE, ALLOC, READ, WRITE, SHORT_READ, SHORT_WRITE };

static const char *const NAMES[] = {"", "alloc", "read", "write", "short-read", "short-write"};
static enum kind refused = NONE;
static long wanted = 0;
static atomic_long calls = 0;
static const char *met = NULL;

__attribute__((constructor)) static void begin(void) {
    const char *order = getenv("REFUSE");
    const char *number = order ? strchr(order, ':') : NULL;
    met = getenv("REFUSE_MET");
    for (int kind = ALLOC; number && kind <= SHORT_WRITE; kind++) {
        size_t length = strlen(NAMES[kind]);
        if ((size_t)(number - order) == length && !strncmp(order, NAMES[kind], length)) {
            wanted = atol(number + 1);
            refused = kind;
        }
    }
}

/* Makes the file that tells of the call, in which thread and of which stream it was. */
static void tell(int stream) {
    char link[64], path[4096];
    ssize_t length = 0;
    int file = met ? open(met, O_CREAT | O_WRONLY, 0600) : -1;
    const char *thread = syscall(SYS_gettid) == getpid() ? "main\n" : "thread\n";
    if (file < 0) return;
    syscall(SYS_write, file, thread, strlen(thread));
    if (stream >= 0) {
        snprintf(link, sizeof link, "/proc/self/fd/%d", stream);
        length = readlink(link, path, sizeof path);
    }
    if (length > 0) syscall(SYS_write, file, path, (size_t)length);
    close(file);
}

/* Whether this call of that kind is the one. */
static int is_wanted(enum kind kind, int stream) {
    if (refused != kind || atomic_fetch_add(&calls, 1) + 1 != wanted) return 0;
    tell(stream);
    return 1;
}

void *malloc(size_t size) {
    if (is_wanted(ALLOC, -1)) {
        errno = ENOMEM;
        return NULL;
    }
    return __libc_malloc(size);
}

void *realloc(void *old, size_t size) {
    if (is_wanted(ALLOC, -1)) {
        errno = ENOMEM;
        return NULL;
    }
    return __libc_realloc(old, size);
}

ssize_t read(int stream, void *bytes, size_t count) {
    if (is_wanted(READ, stream)) {
        errno = EIO;
        return -1;
    }
    if (count > 1 && is_wanted(SHORT_READ, stream)) count = 1;
    return syscall(SYS_read, stream, bytes, count);
}

ssize_t write(int stream, const void *bytes, size_t count) {
    if (is_wanted(WRITE, stream)) {
        errno = EIO;
        return -1;
    }
    if (count > 1 && is_wanted(SHORT_WRITE, stream)) count = 1;
    return syscall(SYS_write, stream, bytes, count);
}
