// Put before the C library by LD_PRELOAD: the call for memory whose number is in FAIL_MALLOC, from 1, finds none. So a
// program that is run once for each number shows what it answers at each place where memory can run out. Where that call
// is reached the file that FAIL_MALLOC_MARK names is made, so that a caller sees which number is past the last one.
#define _GNU_SOURCE
#include <errno.h>
#include <fcntl.h>
#include <stddef.h>
#include <stdlib.h>
#include <sys/syscall.h>
#include <unistd.h>

extern void *__libc_malloc(size_t);
extern void *__libc_calloc(size_t, size_t);
extern void *__libc_realloc(void *, size_t);
extern void *__libc_memalign(size_t, size_t);

// by calls of the system alone, which take no memory
static void mark(void) {
    const char *name = getenv("FAIL_MALLOC_MARK");
    long file = name ? syscall(SYS_openat, AT_FDCWD, name, O_WRONLY | O_CREAT | O_CLOEXEC, 0600) : -1;
    if (file >= 0) syscall(SYS_close, file);
}

static int fails(void) {
    static long wanted = -1, calls = 0;
    if (wanted < 0) {
        const char *number = getenv("FAIL_MALLOC");
        wanted = number ? atol(number) : 0;
    }
    calls += 1;
    if (calls != wanted) return 0;
    mark();
    errno = ENOMEM;
    return 1;
}

void *malloc(size_t size) { return fails() ? NULL : __libc_malloc(size); }
void *calloc(size_t count, size_t size) { return fails() ? NULL : __libc_calloc(count, size); }
void *realloc(void *old, size_t size) { return fails() ? NULL : __libc_realloc(old, size); }
void *memalign(size_t step, size_t size) { return fails() ? NULL : __libc_memalign(step, size); }
void *aligned_alloc(size_t step, size_t size) { return memalign(step, size); }

int posix_memalign(void **into, size_t step, size_t size) {
    void *made = memalign(step, size);
    if (made) *into = made;
    return made ? 0 : ENOMEM;
}
