// Stands before the C library by LD_PRELOAD: counts the program's calls of one kind, and fails the one that is wanted.
// The variables SHIM_* say which; shim.py sets them.
#define _GNU_SOURCE
#include <errno.h>
#include <fcntl.h>
#include <stdarg.h>
#include <stdlib.h>
#include <string.h>
#include <sys/mman.h>
#include <sys/stat.h>
#include <sys/syscall.h>
#include <unistd.h>

extern void *__libc_malloc(size_t);
extern void *__libc_calloc(size_t, size_t);
extern void *__libc_realloc(void *, size_t);
extern void *__libc_memalign(size_t, size_t);

// What an entry of a folder takes, if its name is as long as may be.
#define LARGEST_ENTRY 280

static unsigned long long nowhere[2], *counts = nowhere;  // calls of the kind, and failures among them
static const char *kind = "", *path;
static unsigned long long at;
static int onward, number, one_byte;
static long length;

static long number_in(const char *name) {
    const char *text = getenv(name);
    return text ? atol(text) : 0;
}

__attribute__((constructor)) static void begin(void) {
    int file = open(getenv("SHIM_COUNTS"), O_RDWR);
    void *there = mmap(NULL, sizeof nowhere, PROT_READ | PROT_WRITE, MAP_SHARED, file, 0);
    syscall(SYS_close, file);
    if (there == MAP_FAILED) abort();
    counts = there;
    at = number_in("SHIM_AT");
    onward = number_in("SHIM_ONWARD");
    number = number_in("SHIM_ERRNO");
    one_byte = number_in("SHIM_ONE_BYTE");
    path = getenv("SHIM_PATH");
    length = number_in("SHIM_LENGTH");
    kind = getenv("SHIM_KIND");
}

// Whether this call is the wanted one. If a path is set, the file there gets another length instead of a failure.
static int fails(const char *call) {
    if (strcmp(kind, call) != 0) return 0;
    counts[0] += 1;
    if (at == 0 || (onward ? counts[0] < at : counts[0] != at)) return 0;
    counts[1] += 1;
    if (path) return truncate(path, length) == 0 ? 0 : (abort(), 0);
    errno = number;
    return 1;
}

void *malloc(size_t size) { return fails("growth") ? NULL : __libc_malloc(size); }
void *calloc(size_t count, size_t size) { return fails("growth") ? NULL : __libc_calloc(count, size); }
void *realloc(void *old, size_t size) { return fails("growth") ? NULL : __libc_realloc(old, size); }
void *memalign(size_t align, size_t size) { return fails("growth") ? NULL : __libc_memalign(align, size); }
void *aligned_alloc(size_t align, size_t size) { return memalign(align, size); }
int posix_memalign(void **found, size_t align, size_t size) {
    return (*found = memalign(align, size)) ? 0 : ENOMEM;
}

ssize_t read(int file, void *buffer, size_t size) {
    return fails("read") ? -1 : syscall(SYS_read, file, buffer, one_byte && size ? 1 : size);
}
ssize_t write(int file, const void *buffer, size_t size) {
    return fails(file == 2 ? "error" : "write") ? -1 : syscall(SYS_write, file, buffer, one_byte && size ? 1 : size);
}
ssize_t __write(int file, const void *buffer, size_t size) { return write(file, buffer, size); }

int open(const char *name, int flags, ...) {
    va_list more;
    va_start(more, flags);
    int mode = flags & O_CREAT ? va_arg(more, int) : 0;
    va_end(more);
    return fails("open") ? -1 : (int)syscall(SYS_openat, AT_FDCWD, name, flags, mode);
}
int openat(int folder, const char *name, int flags, ...) {
    va_list more;
    va_start(more, flags);
    int mode = flags & O_CREAT ? va_arg(more, int) : 0;
    va_end(more);
    return fails("openat") ? -1 : (int)syscall(SYS_openat, folder, name, flags, mode);
}
off64_t lseek64(int file, off64_t offset, int whence) {
    return fails("seek") ? -1 : syscall(SYS_lseek, file, offset, whence);
}
off_t lseek(int file, off_t offset, int whence) { return lseek64(file, offset, whence); }
ssize_t getdents64(int folder, void *entries, size_t size) {
    if (one_byte && size > LARGEST_ENTRY) size = LARGEST_ENTRY;
    return fails("list") ? -1 : syscall(SYS_getdents64, folder, entries, size);
}
int close(int file) {
    long result = syscall(SYS_close, file);
    return fails("close") ? -1 : (int)result;
}
int statx(int folder, const char *name, int flags, unsigned mask, struct statx *found) {
    return fails("stat") ? -1 : (int)syscall(SYS_statx, folder, name, flags, mask, found);
}
