// Put before the C library by LD_PRELOAD. Each call that makes, changes, locks or syncs a file or a folder is noted as one
// line in the file that LOG names, behind a first line `loaded`, and then made.
//
// FAIL: the noted call of this number, from 1, is not made, and fails by the errno in ERRNO, else by EIO.
// STOP: at the noted call of this number the process is killed before the call is made.
// WAIT: at the noted call of this number the process waits until there is the file that GO names.
// INTERRUPT: so many reads fail at first, as where a signal interrupts them.
// NO_SEED: the system gives no random bytes.
// PIECES: the size of each write to the standard output is a line of this file.
#define _GNU_SOURCE
#include <errno.h>
#include <fcntl.h>
#include <limits.h>
#include <signal.h>
#include <stdarg.h>
#include <stdio.h>
#include <stdlib.h>
#include <string.h>
#include <sys/file.h>
#include <sys/stat.h>
#include <sys/syscall.h>
#include <unistd.h>

static long number_of(const char *name) {
    const char *text = getenv(name);
    return text ? atol(text) : 0;
}

static void append(const char *format, va_list values) {
    const char *name = getenv("LOG");
    int log = name ? open(name, O_WRONLY | O_APPEND | O_CLOEXEC) : -1;
    if (log < 0) return;
    vdprintf(log, format, values);
    close(log);
}

static void line(const char *format, ...) {
    va_list values;
    va_start(values, format);
    append(format, values);
    va_end(values);
}

// Notes the call; where it is to fail says so, with its errno set.
static int fails(const char *format, ...) {
    static long calls = 0;
    int before = errno;
    va_list values;
    va_start(values, format);
    append(format, values);
    va_end(values);
    calls += 1;
    if (calls == number_of("STOP")) kill(getpid(), SIGKILL);
    if (calls == number_of("WAIT"))
        while (access(getenv("GO"), F_OK) != 0) usleep(10000);
    errno = before;
    if (calls != number_of("FAIL")) return 0;
    errno = getenv("ERRNO") ? (int)number_of("ERRNO") : EIO;
    return 1;
}

__attribute__((constructor)) static void loaded(void) { line("loaded\n"); }

static const char *base(const char *path) {
    const char *slash = strrchr(path, '/');
    return slash && slash[1] ? slash + 1 : path;
}

// the kind and the name of an open file, in a room that the next call takes again
static const char *named(int file) {
    static char text[PATH_MAX + 16];
    char link[32], path[PATH_MAX];
    struct stat found;
    snprintf(link, sizeof link, "/proc/self/fd/%d", file);
    ssize_t size = readlink(link, path, sizeof path - 1);
    path[size < 0 ? 0 : size] = 0;
    int is_folder = fstat(file, &found) == 0 && S_ISDIR(found.st_mode);
    snprintf(text, sizeof text, "%s%s", is_folder ? "folder " : "", base(path));
    return text;
}

int open(const char *path, int flags, ...) {
    mode_t mode = 0;
    if (flags & O_CREAT) {
        va_list values;
        va_start(values, flags);
        mode = va_arg(values, mode_t);
        va_end(values);
        if (fails("make %s\n", base(path))) return -1;
    }
    return syscall(SYS_openat, AT_FDCWD, path, flags, mode);
}

int open64(const char *path, int flags, ...) {
    mode_t mode = 0;
    if (flags & O_CREAT) {
        va_list values;
        va_start(values, flags);
        mode = va_arg(values, mode_t);
        va_end(values);
    }
    return open(path, flags, mode);
}

int mkdir(const char *path, mode_t mode) {
    if (fails("make folder %s\n", base(path))) return -1;
    return syscall(SYS_mkdirat, AT_FDCWD, path, mode);
}

ssize_t pwrite(int file, const void *bytes, size_t size, off_t at) {
    if (fails("write %zu at %ld\n", size, (long)at)) return -1;
    return syscall(SYS_pwrite64, file, bytes, size, at);
}

ssize_t pwrite64(int file, const void *bytes, size_t size, off64_t at) { return pwrite(file, bytes, size, at); }

int ftruncate(int file, off_t size) {
    if (fails("cut to %ld\n", (long)size)) return -1;
    return syscall(SYS_ftruncate, file, size);
}

int ftruncate64(int file, off64_t size) { return ftruncate(file, size); }

int fsync(int file) {
    if (fails("sync %s\n", named(file))) return -1;
    return syscall(SYS_fsync, file);
}

int fdatasync(int file) {
    if (fails("sync data of %s\n", named(file))) return -1;
    return syscall(SYS_fdatasync, file);
}

int flock(int file, int how) {
    if (fails("%s %s\n", how & LOCK_EX ? "lock" : "other lock of", named(file))) return -1;
    return syscall(SYS_flock, file, how);
}

ssize_t read(int file, void *into, size_t size) {
    static long reads = 0;
    if (reads < number_of("INTERRUPT")) {
        reads += 1;
        errno = EINTR;
        return -1;
    }
    return syscall(SYS_read, file, into, size);
}

ssize_t write(int file, const void *from, size_t size) {
    const char *name = file == STDOUT_FILENO ? getenv("PIECES") : NULL;
    if (name) {
        int pieces = open(name, O_WRONLY | O_APPEND | O_CLOEXEC);
        if (pieces >= 0) {
            dprintf(pieces, "%zu\n", size);
            close(pieces);
        }
    }
    return syscall(SYS_write, file, from, size);
}

int getentropy(void *into, size_t size) {
    if (getenv("NO_SEED")) {
        errno = ENOSYS;
        return -1;
    }
    return syscall(SYS_getrandom, into, size, 0) == (long)size ? 0 : -1;
}
