// Makes one call of the C library fail or fall short in a process into which this is preloaded. FAULT is KIND:N: the Nth call of that kind since the start of
// main is affected. `growth` refuses memory, `hunger` all memory from there on; `open`, `read` and `write` fail; `short_read` and `short_write` move one byte;
// `no_write` writes nothing. The file named by FAULT_MARK is created once the call has occurred. Standard error is never affected.
#define _GNU_SOURCE
#include <errno.h>
#include <fcntl.h>
#include <stdarg.h>
#include <stdlib.h>
#include <string.h>
#include <sys/syscall.h>
#include <unistd.h>

void *__libc_malloc(size_t);
void *__libc_calloc(size_t, size_t);
void *__libc_realloc(void *, size_t);
void *__libc_memalign(size_t, size_t);

static const char *kind = "";
static long left = 0;
static const char *mark = NULL;

__attribute__((constructor)) static void begin(void) {
    const char *fault = getenv("FAULT");
    const char *colon = fault ? strchr(fault, ':') : NULL;
    static char name[16];
    if (!colon || colon - fault >= (long)sizeof name)
        return;
    memcpy(name, fault, colon - fault);
    kind = name;
    mark = getenv("FAULT_MARK");
    left = atol(colon + 1);
}

// Whether this call of a kind is the affected one.
static int is_hit(const char *of) {
    if (left == 0 || strcmp(kind, of) != 0 || --left != 0)
        return 0;
    int kept = errno;
    if (mark)
        syscall(SYS_close, syscall(SYS_openat, AT_FDCWD, mark, O_WRONLY | O_CREAT, 0600));
    errno = kept;
    return 1;
}

static int refuses(void) {
    static int is_over = 0;
    is_over |= is_hit("hunger");
    if (!is_over && !is_hit("growth"))
        return 0;
    errno = ENOMEM;
    return 1;
}

void *malloc(size_t size) { return refuses() ? NULL : __libc_malloc(size); }

void *calloc(size_t count, size_t size) { return refuses() ? NULL : __libc_calloc(count, size); }

void *realloc(void *old, size_t size) { return refuses() ? NULL : __libc_realloc(old, size); }

void *memalign(size_t align, size_t size) { return refuses() ? NULL : __libc_memalign(align, size); }

void *aligned_alloc(size_t align, size_t size) { return memalign(align, size); }

int posix_memalign(void **into, size_t align, size_t size) {
    void *made = memalign(align, size);
    if (!made)
        return ENOMEM;
    *into = made;
    return 0;
}

static int opened(int at, const char *path, int flags, mode_t mode) {
    if (is_hit("open")) {
        errno = EMFILE;
        return -1;
    }
    return syscall(SYS_openat, at, path, flags, mode);
}

#define MODE_OF(flags, mode) \
    mode_t mode = 0; \
    va_list rest; \
    va_start(rest, flags); \
    if (flags & O_CREAT) \
        mode = va_arg(rest, mode_t); \
    va_end(rest);

int open(const char *path, int flags, ...) {
    MODE_OF(flags, mode)
    return opened(AT_FDCWD, path, flags, mode);
}

int open64(const char *path, int flags, ...) {
    MODE_OF(flags, mode)
    return opened(AT_FDCWD, path, flags | O_LARGEFILE, mode);
}

int openat(int at, const char *path, int flags, ...) {
    MODE_OF(flags, mode)
    return opened(at, path, flags, mode);
}

int openat64(int at, const char *path, int flags, ...) {
    MODE_OF(flags, mode)
    return opened(at, path, flags | O_LARGEFILE, mode);
}

ssize_t read(int from, void *into, size_t size) {
    if (is_hit("read")) {
        errno = EIO;
        return -1;
    }
    return syscall(SYS_read, from, into, size > 1 && is_hit("short_read") ? 1 : size);
}

ssize_t write(int to, const void *bytes, size_t size) {
    if (to != STDERR_FILENO && is_hit("write")) {
        errno = ENOSPC;
        return -1;
    }
    if (to != STDERR_FILENO && is_hit("no_write"))
        return 0;
    return syscall(SYS_write, to, bytes, to != STDERR_FILENO && size > 1 && is_hit("short_write") ? 1 : size);
}
