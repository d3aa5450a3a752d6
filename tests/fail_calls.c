/* Preloaded before a program, lets one of its calls of the system end otherwise. The environment says which:
   FAIL_CALL   open, read, write, seek, rename, close or thread, which is the start of one; calls that write
               to standard error aren't meant, and none that closes a standard descriptor
   FAIL_AT     the number of that call, from 1; 0 for each of them
   FAIL_HOW    fail: it ends with an error; one: it takes or gives one byte; signal: it is interrupted;
               full: writes take this many bytes in all, and then there is no space; FAIL_AT is that number;
               most: each read gives at most FAIL_AT bytes, after three million of them what it asks for;
               slow: each read waits for FAIL_AT milliseconds;
               disks: all files have the number 1, each on a disk of its own
   FAIL_FILE   a file's name without its folder. FAIL_HOW cut: its reads end after FAIL_AT bytes;
               missing: it can't be opened; denied: it may not be opened
   FAIL_MARK   a file that is left if a call meets this for the first time. It has the path of that call's
               file: as it was given if it was to be opened, as the system names it if it is open,
               and none for the start of a thread */
#define _GNU_SOURCE
#include <dlfcn.h>
#include <errno.h>
#include <fcntl.h>
#include <limits.h>
#include <pthread.h>
#include <stdarg.h>
#include <stdatomic.h>
#include <stdio.h>
#include <stdlib.h>
#include <string.h>
#include <sys/stat.h>
#include <sys/syscall.h>
#include <unistd.h>

/* How many reads are cut at most: a long input takes too long byte by byte. */
enum { CUT_READS = 3000000 };

static atomic_long calls, bytes;
static atomic_int is_marked;
static int cut_file = -1;

static const char *said(const char *name) {
    const char *value = getenv(name);
    return value ? value : "";
}

/* Leaves the mark of a path, or of an open file if there is no path. */
static void leave_mark(const char *path, int file) {
    char link[32], found[PATH_MAX];
    if (atomic_exchange(&is_marked, 1))
        return;
    long size = path ? (long)strlen(path) : 0, mark;
    if (!path) {
        snprintf(link, sizeof link, "/proc/self/fd/%d", file);
        size = syscall(SYS_readlinkat, AT_FDCWD, link, found, sizeof found);
    }
    mark = syscall(SYS_openat, AT_FDCWD, said("FAIL_MARK"), O_CREAT | O_WRONLY, 0600);
    if (mark >= 0) {
        syscall(SYS_write, mark, path ? path : found, size > 0 ? size : 0);
        syscall(SYS_close, mark);
    }
}

static int is_how(const char *how) {
    return !strcmp(said("FAIL_HOW"), how);
}

/* Counts a call of this name for a path or an open file, and returns whether it is the one that is meant. */
static int is_met(const char *call, const char *path, int file) {
    long at = atol(said("FAIL_AT"));
    if (strcmp(said("FAIL_CALL"), call) || is_how("full") || is_how("cut") || is_how("most"))
        return 0;
    if (atomic_fetch_add(&calls, 1) + 1 != at && at != 0)
        return 0;
    leave_mark(path, file);
    errno = is_how("signal") ? EINTR : EIO;
    return 1;
}

int open(const char *path, int flags, ...) {
    va_list rest;
    va_start(rest, flags);
    int mode = flags & O_CREAT ? va_arg(rest, int) : 0;
    va_end(rest);
    if (is_met("open", path, -1))
        return -1;
    const char *name = strrchr(path, '/');
    int is_named = !strcmp(name ? name + 1 : path, said("FAIL_FILE"));
    if (is_named && (is_how("missing") || is_how("denied"))) {
        errno = is_how("missing") ? ENOENT : EACCES;
        return -1;
    }
    int file = (int)syscall(SYS_openat, AT_FDCWD, path, flags, mode);
    if (is_named) {
        cut_file = file;
        atomic_store(&bytes, 0);
    } else if (file == cut_file) {
        cut_file = -1;
    }
    return file;
}

/* A folder is opened by this call. */
int openat(int folder, const char *path, int flags, ...) {
    va_list rest;
    va_start(rest, flags);
    int mode = flags & O_CREAT ? va_arg(rest, int) : 0;
    va_end(rest);
    if (is_met("open", path, -1))
        return -1;
    return (int)syscall(SYS_openat, folder, path, flags, mode);
}

/* The names in a folder are read by this call, each of them whole. */
ssize_t getdents64(int file, void *into, size_t size) {
    if (is_met("read", NULL, file) && !is_how("one"))
        return -1;
    return syscall(SYS_getdents64, file, into, size);
}

ssize_t read(int file, void *into, size_t size) {
    if (is_how("slow"))
        usleep(1000 * (useconds_t)atol(said("FAIL_AT")));
    if (is_how("cut") && file == cut_file) {
        long left = atol(said("FAIL_AT")) - atomic_load(&bytes);
        ssize_t taken = syscall(SYS_read, file, into, (long)size < left ? (long)size : left);
        atomic_fetch_add(&bytes, taken > 0 ? taken : 0);
        return taken;
    }
    if (is_how("most") && (long)size > atol(said("FAIL_AT")) && atomic_fetch_add(&calls, 1) < CUT_READS) {
        leave_mark(NULL, file);
        size = atol(said("FAIL_AT"));
    }
    if (size > 0 && is_met("read", NULL, file)) {
        if (!is_how("one"))
            return -1;
        size = 1;
    }
    return syscall(SYS_read, file, into, size);
}

off_t lseek(int file, off_t to, int whence) {
    return is_met("seek", NULL, file) ? -1 : syscall(SYS_lseek, file, to, whence);
}

ssize_t write(int file, const void *from, size_t size) {
    if (file != 2 && is_how("full")) {
        long left = atol(said("FAIL_AT")) - atomic_load(&bytes);
        if (left < (long)size)
            leave_mark(NULL, file);
        if (size > 0 && left <= 0) {
            errno = ENOSPC;
            return -1;
        }
        ssize_t taken = syscall(SYS_write, file, from, (long)size < left ? (long)size : left);
        atomic_fetch_add(&bytes, taken > 0 ? taken : 0);
        return taken;
    }
    if (file != 2 && size > 0 && is_met("write", NULL, file)) {
        if (!is_how("one"))
            return -1;
        size = 1;
    }
    return syscall(SYS_write, file, from, size);
}

ssize_t __write(int file, const void *from, size_t size) {
    return write(file, from, size);
}

int rename(const char *from, const char *to) {
    if (is_met("rename", from, -1))
        return -1;
    return (int)syscall(SYS_renameat2, AT_FDCWD, from, AT_FDCWD, to, 0);
}

/* The file is closed even if the call ends with an error, as Linux does it. */
int close(int file) {
    int is_failed = file > 2 && is_met("close", NULL, file), error = errno;
    int status = (int)syscall(SYS_close, file);
    if (!is_failed)
        return status;
    errno = error;
    return -1;
}

int statx(int folder, const char *path, int flags, unsigned wanted, struct statx *found) {
    int status = (int)syscall(SYS_statx, folder, path, flags, wanted, found);
    if (status == 0 && is_how("disks")) {
        leave_mark(path, -1);
        found->stx_dev_minor = (unsigned)found->stx_ino;
        found->stx_ino = 1;
    }
    return status;
}

int pthread_create(pthread_t *thread, const pthread_attr_t *attributes, void *(*start)(void *), void *given) {
    int (*real)(pthread_t *, const pthread_attr_t *, void *(*)(void *), void *) = dlsym(RTLD_NEXT, "pthread_create");
    return is_met("thread", "", -1) ? EAGAIN : real(thread, attributes, start, given);
}
