// Stands between a program that is run with this library before the others (LD_PRELOAD) and the system.
//
// It notes the program's calls in the file $CALLS, a letter each: i, some input was read; e, its end; o, output was written;
// and of the file pol.journal: r, read; w, written; s, synced; d, the kernel's copies dropped. And it makes the $AT-th call of a
// kind, counted from 1, go wrong, as $FAULT says: "write" or "sync" fails with EIO, a "read" is interrupted (EINTR), a "short"
// write takes half of its piece, and in a "full" one the rest of the piece fails with ENOSPC.
#define _GNU_SOURCE
#include <errno.h>
#include <stdlib.h>
#include <unistd.h>

#include "../journal.h"

static int calls = -1, is_full;

__attribute__((constructor)) static void begin(void) {
    const char *path = getenv("CALLS");
    int file = path ? REAL(open64)(path, O_WRONLY | O_CREAT | O_TRUNC | O_APPEND, 0600) : -1;
    // Far above the numbers that the program gets.
    if (file >= 0) calls = fcntl(file, F_DUPFD_CLOEXEC, 500), close(file);
}

static void note(char call) {
    if (calls >= 0 && REAL(write)(calls, &call, 1) != 1) abort();
}

// Whether this call is the one that goes wrong, where it would be one of this kind.
static int goes_wrong(const char *kind) {
    static long count;
    const char *fault = getenv("FAULT");
    return fault && !strcmp(fault, kind) && ++count == atol(getenv("AT"));
}

static int fails(int error) {
    errno = error;
    return -1;
}

ssize_t read(int file, void *into, size_t size) {
    ssize_t count = REAL(read)(file, into, size);
    if (file == STDIN_FILENO) note(count > 0 ? 'i' : 'e');
    return count;
}

ssize_t write(int file, const void *bytes, size_t size) {
    if (file == STDOUT_FILENO) note('o');
    return REAL(write)(file, bytes, size);
}

static ssize_t taken(int file, void *into, size_t size, off_t at) {
    if (of_journal(file)) note('r');
    if (of_journal(file) && goes_wrong("read")) return fails(EINTR);
    return REAL(pread64)(file, into, size, at);
}
ssize_t pread(int file, void *into, size_t size, off_t at) { return taken(file, into, size, at); }
ssize_t pread64(int file, void *into, size_t size, off_t at) { return taken(file, into, size, at); }

static ssize_t written(int file, const void *bytes, size_t size, off_t at) {
    if (!of_journal(file)) return REAL(pwrite64)(file, bytes, size, at);
    note('w');
    if (goes_wrong("write")) return fails(EIO);
    if (is_full) return fails(ENOSPC);
    is_full = goes_wrong("full");
    int is_short = is_full || goes_wrong("short");
    if (is_short && size < 2) return is_full ? fails(ENOSPC) : REAL(pwrite64)(file, bytes, size, at);
    return REAL(pwrite64)(file, bytes, is_short ? size / 2 : size, at);
}
ssize_t pwrite(int file, const void *bytes, size_t size, off_t at) { return written(file, bytes, size, at); }
ssize_t pwrite64(int file, const void *bytes, size_t size, off_t at) { return written(file, bytes, size, at); }

static int synced(int file, int (*sync)(int)) {
    if (of_journal(file)) note('s');
    return of_journal(file) && goes_wrong("sync") ? fails(EIO) : sync(file);
}
int fdatasync(int file) { return synced(file, REAL(fdatasync)); }
int fsync(int file) { return synced(file, REAL(fsync)); }

static int advised(int file, int advice) {
    if (of_journal(file) && advice == POSIX_FADV_DONTNEED) note('d');
    return 0;
}
int posix_fadvise(int file, off_t at, off_t size, int advice) {
    return advised(file, advice) ? -1 : REAL(posix_fadvise)(file, at, size, advice);
}
int posix_fadvise64(int file, off_t at, off_t size, int advice) { return posix_fadvise(file, at, size, advice); }
