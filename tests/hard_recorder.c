/* Records what a program does to files. `tests/hard` compiles it as a library that is loaded before the C library.
 *
 * Each call that changes a file, changes a name, syncs, or prints text appends one record to the file RECORD, with all its bytes:
 *
 *     W ino at n   n bytes were written at this offset         w   this write failed and changed nothing
 *     C ino at 0   the file's length was set to `at`           c   this failed
 *     S ino 0 0    the file or folder was synced               s   this failed
 *     N ino 0 n    a file was made, its path follows           D   a folder was made
 *     R ino 0 n    a name was changed: old path, byte 10, new  L   a second name was made, with the same two paths
 *     U ino 0 n    a name was removed                          T   text was printed to stream `ino`
 *
 * Nothing is really synced, since no test needs it and it takes long.
 *
 * FAULT makes one of these calls go wrong, counted from 1: `kill N` kills the process just before its call N, `fail N` makes call N
 * fail (a sync with EIO, a write with ENOSPC), and `full N` also each later write and sync of the same file. BAD_READ names a file
 * whose reads fail, from byte BAD_FROM on if that is set.
 */
#define _GNU_SOURCE
#include <errno.h>
#include <fcntl.h>
#include <signal.h>
#include <stdarg.h>
#include <stdio.h>
#include <stdlib.h>
#include <string.h>
#include <sys/stat.h>
#include <sys/syscall.h>
#include <sys/uio.h>
#include <unistd.h>

static int record = -1;
static long calls, kill_at, fail_at;
static int stays_full;
static unsigned long full_ino, bad_ino;
static off_t bad_from;

static unsigned long ino_of(int fd) {
    struct stat about;
    return fstat(fd, &about) ? 0 : about.st_ino;
}

static unsigned long ino_at(int folder, const char *path) {
    struct stat about;
    return fstatat(folder, path, &about, AT_SYMLINK_NOFOLLOW) ? 0 : about.st_ino;
}

__attribute__((constructor)) static void begin(void) {
    const char *to = getenv("RECORD"), *fault = getenv("FAULT"), *bad = getenv("BAD_READ");
    struct stat about;
    if (to) {
        int fd = syscall(SYS_openat, AT_FDCWD, to, O_WRONLY | O_APPEND | O_CREAT, 0666);
        record = fcntl(fd, F_DUPFD_CLOEXEC, 200);
        close(fd);
    }
    if (fault && !strncmp(fault, "kill ", 5)) kill_at = atol(fault + 5);
    if (fault && !strncmp(fault, "fail ", 5)) fail_at = atol(fault + 5);
    if (fault && !strncmp(fault, "full ", 5)) fail_at = atol(fault + 5), stays_full = 1;
    if (bad && !stat(bad, &about)) bad_ino = about.st_ino;
    if (getenv("BAD_FROM")) bad_from = atol(getenv("BAD_FROM"));
}

static void note(char what, unsigned long ino, off_t at, const void *bytes, size_t n) {
    char line[80];
    if (record < 0) return;
    struct iovec parts[2] = {{line, snprintf(line, sizeof line, "%c %lu %ld %zu\n", what, ino, (long)at, n)}, {(void *)bytes, n}};
    if (syscall(SYS_writev, record, parts, 2) != (long)(parts[0].iov_len + n)) _exit(98);
}

static void note_paths(char what, unsigned long ino, const char *one, const char *other) {
    char both[8192];
    int n = snprintf(both, sizeof both, other ? "%s\n%s" : "%s", one, other);
    note(what, ino, 0, both, n);
}

/* Counts a call that is recorded. Whether it has to fail; only writes, changes of a length and syncs do. */
static int fails(unsigned long ino) {
    if (++calls == kill_at) {
        kill(getpid(), SIGKILL);
        for (;;) pause();
    }
    if (calls == fail_at && stays_full) full_ino = ino;
    return calls == fail_at || (full_ino && ino == full_ino);
}

ssize_t pwrite64(int fd, const void *bytes, size_t n, off_t at) {
    unsigned long ino = ino_of(fd);
    if (fails(ino)) {
        note('w', ino, at, bytes, n);
        errno = ENOSPC;
        return -1;
    }
    ssize_t done = syscall(SYS_pwrite64, fd, bytes, n, at);
    if (done > 0) note('W', ino, at, bytes, done);
    return done;
}

ssize_t pwrite(int fd, const void *bytes, size_t n, off_t at) { return pwrite64(fd, bytes, n, at); }

ssize_t pread64(int fd, void *into, size_t n, off_t at) {
    if (bad_ino && at + (off_t)n > bad_from && ino_of(fd) == bad_ino) {
        if (at >= bad_from) {
            errno = EIO;
            return -1;
        }
        n = bad_from - at;
    }
    return syscall(SYS_pread64, fd, into, n, at);
}

ssize_t pread(int fd, void *into, size_t n, off_t at) { return pread64(fd, into, n, at); }

ssize_t write(int fd, const void *bytes, size_t n) {
    if (fd != 1 && fd != 2) return syscall(SYS_write, fd, bytes, n);
    fails(0);
    ssize_t done = syscall(SYS_write, fd, bytes, n);
    if (done > 0) note('T', fd, 0, bytes, done);
    return done;
}

int ftruncate64(int fd, off_t length) {
    unsigned long ino = ino_of(fd);
    if (fails(ino)) {
        note('c', ino, length, "", 0);
        errno = ENOSPC;
        return -1;
    }
    int done = syscall(SYS_ftruncate, fd, length);
    if (!done) note('C', ino, length, "", 0);
    return done;
}

int ftruncate(int fd, off_t length) { return ftruncate64(fd, length); }

int fsync(int fd) {
    unsigned long ino = ino_of(fd);
    if (fails(ino)) {
        note('s', ino, 0, "", 0);
        errno = EIO;
        return -1;
    }
    note('S', ino, 0, "", 0);
    return 0;
}

int fdatasync(int fd) { return fsync(fd); }

static int open_by(int folder, const char *path, int how, mode_t mode) {
    unsigned long ino = how & (O_CREAT | O_TRUNC) ? ino_at(folder, path) : 1;
    int is_new = (how & O_CREAT) && !ino, is_emptied = (how & O_TRUNC) && ino;
    if (is_new || is_emptied) fails(ino);
    int fd = syscall(SYS_openat, folder, path, how, mode);
    if (fd >= 0 && is_new) note_paths('N', ino_of(fd), path, NULL);
    if (fd >= 0 && is_emptied) note('C', ino_of(fd), 0, "", 0);
    return fd;
}

static mode_t mode_in(int how, va_list more) { return how & (O_CREAT | O_TMPFILE) ? va_arg(more, mode_t) : 0; }

#define OPENING(name, arguments, folder)            \
    int name arguments {                            \
        va_list more;                               \
        va_start(more, how);                        \
        mode_t mode = mode_in(how, more);           \
        va_end(more);                               \
        return open_by(folder, path, how, mode);    \
    }
OPENING(openat, (int folder, const char *path, int how, ...), folder)
OPENING(openat64, (int folder, const char *path, int how, ...), folder)
OPENING(open, (const char *path, int how, ...), AT_FDCWD)
OPENING(open64, (const char *path, int how, ...), AT_FDCWD)

int mkdirat(int folder, const char *path, mode_t mode) {
    fails(0);
    int done = syscall(SYS_mkdirat, folder, path, mode);
    if (!done) note_paths('D', ino_at(folder, path), path, NULL);
    return done;
}

int mkdir(const char *path, mode_t mode) { return mkdirat(AT_FDCWD, path, mode); }

int renameat2(int from_folder, const char *from, int to_folder, const char *to, unsigned how) {
    fails(0);
    int done = syscall(SYS_renameat2, from_folder, from, to_folder, to, how);
    if (!done) note_paths('R', ino_at(to_folder, to), from, to);
    return done;
}

int renameat(int from_folder, const char *from, int to_folder, const char *to) { return renameat2(from_folder, from, to_folder, to, 0); }
int rename(const char *from, const char *to) { return renameat2(AT_FDCWD, from, AT_FDCWD, to, 0); }

int linkat(int from_folder, const char *from, int to_folder, const char *to, int how) {
    fails(0);
    int done = syscall(SYS_linkat, from_folder, from, to_folder, to, how);
    if (!done) note_paths('L', ino_at(to_folder, to), from, to);
    return done;
}

int link(const char *from, const char *to) { return linkat(AT_FDCWD, from, AT_FDCWD, to, 0); }

int unlinkat(int folder, const char *path, int how) {
    unsigned long ino = ino_at(folder, path);
    fails(0);
    int done = syscall(SYS_unlinkat, folder, path, how);
    if (!done) note_paths('U', ino, path, NULL);
    return done;
}

int unlink(const char *path) { return unlinkat(AT_FDCWD, path, 0); }
int rmdir(const char *path) { return unlinkat(AT_FDCWD, path, AT_REMOVEDIR); }
