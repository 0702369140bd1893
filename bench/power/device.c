// A device beneath the file pol.journal or pol.plant of a program that is run with this library before the others
// (LD_PRELOAD).
//
// The file itself is what reads give, as the kernel's copies of it do. The file $DEVICE is what the device has: what is left
// when the power goes. A write reaches the kernel's copies alone, and leaves their pages dirty. A sync carries the dirty pages
// to the device. The $FAIL_SYNC-th sync of a run, counted from 1, fails with EIO: its pages are clean then and keep their new
// bytes, as ext4 and XFS leave them, so that no later sync carries them. posix_fadvise drops the copies that are clean: reads
// of them give what the device has. Where $KEEP_COPIES is set it drops none. Which pages are dirty outlives a run, in
// $DEVICE.dirty; how many syncs it made stands in $DEVICE.syncs.
#define _GNU_SOURCE
#include <errno.h>
#include <limits.h>
#include <stdio.h>
#include <stdlib.h>
#include <sys/stat.h>
#include <unistd.h>

#include "../journal.h"

enum { PAGE = 4096, PAGES = 1 << 16 };

static long syncs;
static unsigned char dirty[PAGES];

static void or_stop(int good) {
    if (!good) abort();
}

// Opens $DEVICE, or the file beside it with this ending.
static int open_beside(const char *ending) {
    char path[PATH_MAX];
    snprintf(path, sizeof path, "%s%s", getenv("DEVICE"), ending);
    int file = REAL(open64)(path, O_RDWR | O_CREAT, 0600);
    or_stop(file >= 0);
    return file;
}

static void save(const char *ending, const void *bytes, size_t size) {
    int file = open_beside(ending);
    or_stop(REAL(pwrite64)(file, bytes, size, 0) == (ssize_t)size);
    close(file);
}

static void load(const char *ending, void *bytes, size_t size) {
    int file = open_beside(ending);
    or_stop(REAL(pread64)(file, bytes, size, 0) >= 0);
    close(file);
}

__attribute__((constructor)) static void begin(void) { load(".dirty", dirty, sizeof dirty); }

static ssize_t written(int file, const void *bytes, size_t size, off_t at) {
    ssize_t done = REAL(pwrite64)(file, bytes, size, at);
    if (!of_journal(file) || done <= 0) return done;
    for (off_t page = at / PAGE; page <= (at + done - 1) / PAGE; page++) or_stop(page < PAGES), dirty[page] = 1;
    save(".dirty", dirty, sizeof dirty);
    return done;
}
ssize_t pwrite(int file, const void *bytes, size_t size, off_t at) { return written(file, bytes, size, at); }
ssize_t pwrite64(int file, const void *bytes, size_t size, off_t at) { return written(file, bytes, size, at); }

// Carries the dirty pages to the device.
static void carry(int file) {
    unsigned char bytes[PAGE];
    int device = open_beside("");
    for (off_t page = 0; page < PAGES; page++) {
        ssize_t size = dirty[page] ? REAL(pread64)(file, bytes, PAGE, page * PAGE) : 0;
        or_stop(size >= 0 && REAL(pwrite64)(device, bytes, (size_t)size, page * PAGE) == size);
    }
    close(device);
}

static int synced(int file) {
    if (!of_journal(file)) return 0;
    const char *failing = getenv("FAIL_SYNC");
    int fails = failing && atol(failing) == ++syncs;
    if (!failing) syncs++;
    if (!fails) carry(file);
    memset(dirty, 0, sizeof dirty);
    save(".dirty", dirty, sizeof dirty);
    save(".syncs", &syncs, sizeof syncs);
    if (fails) errno = EIO;
    return fails ? -1 : 0;
}
int fdatasync(int file) { return synced(file); }
int fsync(int file) { return synced(file); }

// Drops the clean copies: reads give there what the device has, and zeros behind its end. The length stays.
static int dropped(int file, int advice) {
    if (!of_journal(file) || advice != POSIX_FADV_DONTNEED || getenv("KEEP_COPIES")) return 0;
    struct stat64 seen;
    or_stop(!fstat64(file, &seen));
    int device = open_beside("");
    for (off_t at = 0; at < seen.st_size; at += PAGE) {
        unsigned char bytes[PAGE] = {0};
        size_t size = seen.st_size - at < PAGE ? (size_t)(seen.st_size - at) : PAGE;
        if (dirty[at / PAGE]) continue;
        or_stop(REAL(pread64)(device, bytes, size, at) >= 0 && REAL(pwrite64)(file, bytes, size, at) == (ssize_t)size);
    }
    close(device);
    return 0;
}
int posix_fadvise(int file, off_t at, off_t size, int advice) { (void)at, (void)size; return dropped(file, advice); }
int posix_fadvise64(int file, off_t at, off_t size, int advice) { (void)at, (void)size; return dropped(file, advice); }
