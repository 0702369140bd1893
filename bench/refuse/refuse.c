// Refuses the FAIL_AT-th of a program's requests of one kind, and counts in the file COUNT_TO, which it maps, how many of these
// it makes; so the count stands however the program ends. The kind is in REFUSE: "memory" (a growth by at least LEAST bytes,
// with ENOMEM), "input" (a read of standard input), "output" (a write to standard output), "disk" (a read, a write, a sync
// or another look at an open file), these with EIO; or "interrupt" (a read or write of these, and the seven behind it, with
// EINTR).
#define _GNU_SOURCE
#include <dlfcn.h>
#include <errno.h>
#include <fcntl.h>
#include <stddef.h>
#include <stdlib.h>
#include <string.h>
#include <sys/mman.h>
#include <sys/stat.h>
#include <unistd.h>

extern void *__libc_malloc(size_t);
extern void *__libc_calloc(size_t, size_t);
extern void *__libc_realloc(void *, size_t);
extern void *__libc_memalign(size_t, size_t);

enum kind { MEMORY, INPUT, OUTPUT, DISK, INTERRUPT };

enum { INTERRUPTIONS = 8 };

static long unmapped;
static long *asked = &unmapped;
static long refused = -1;
static size_t least;
static enum kind kind = MEMORY;

static int refuses(enum kind which, int error) {
    if (which != kind) return 0;
    if (__atomic_add_fetch(asked, 1, __ATOMIC_SEQ_CST) != refused) return 0;
    errno = error;
    return 1;
}

static int refuses_memory(size_t size) { return size >= least && refuses(MEMORY, ENOMEM); }

static int interrupts(void) {
    long number = __atomic_add_fetch(asked, 1, __ATOMIC_SEQ_CST);
    if (refused < 0 || number < refused || number >= refused + INTERRUPTIONS) return 0;
    errno = EINTR;
    return 1;
}

static int refuses_file(int file) {
    if (file == 2) return 0;
    if (kind == INTERRUPT) return interrupts();
    return refuses(file == 0 ? INPUT : file == 1 ? OUTPUT : DISK, EIO);
}

__attribute__((constructor)) static void begin(void) {
    const char *path = getenv("COUNT_TO");
    int file = path ? open(path, O_RDWR | O_CREAT | O_TRUNC, 0600) : -1;
    if (file >= 0 && ftruncate(file, sizeof *asked) == 0) {
        void *count = mmap(NULL, sizeof *asked, PROT_READ | PROT_WRITE, MAP_SHARED, file, 0);
        if (count != MAP_FAILED) asked = count;
    }
    if (file >= 0) close(file);
    const char *number = getenv("FAIL_AT");
    const char *bytes = getenv("LEAST");
    const char *word = getenv("REFUSE");
    if (bytes) least = (size_t)atol(bytes);
    if (word && !strcmp(word, "input")) kind = INPUT;
    if (word && !strcmp(word, "output")) kind = OUTPUT;
    if (word && !strcmp(word, "disk")) kind = DISK;
    if (word && !strcmp(word, "interrupt")) kind = INTERRUPT;
    *asked = 0;
    if (number) refused = atol(number);
}

void *malloc(size_t size) { return refuses_memory(size) ? NULL : __libc_malloc(size); }
void *calloc(size_t count, size_t size) { return refuses_memory(count * size) ? NULL : __libc_calloc(count, size); }
void *realloc(void *old, size_t size) { return refuses_memory(size) ? NULL : __libc_realloc(old, size); }
void *memalign(size_t align, size_t size) { return refuses_memory(size) ? NULL : __libc_memalign(align, size); }
void *aligned_alloc(size_t align, size_t size) { return memalign(align, size); }
int posix_memalign(void **place, size_t align, size_t size) {
    void *made = memalign(align, size);
    if (!made) return ENOMEM;
    *place = made;
    return 0;
}

#define LIBC(name) ((__typeof__(&name))dlsym(RTLD_NEXT, #name))

ssize_t read(int file, void *into, size_t size) { return refuses_file(file) ? -1 : LIBC(read)(file, into, size); }
ssize_t write(int file, const void *from, size_t size) { return refuses_file(file) ? -1 : LIBC(write)(file, from, size); }
ssize_t pread(int file, void *into, size_t size, off_t at) { return refuses_file(file) ? -1 : LIBC(pread)(file, into, size, at); }
ssize_t pread64(int file, void *into, size_t size, off64_t at) { return refuses_file(file) ? -1 : LIBC(pread64)(file, into, size, at); }
ssize_t pwrite(int file, const void *from, size_t size, off_t at) { return refuses_file(file) ? -1 : LIBC(pwrite)(file, from, size, at); }
ssize_t pwrite64(int file, const void *from, size_t size, off64_t at) { return refuses_file(file) ? -1 : LIBC(pwrite64)(file, from, size, at); }
static int refuses_look(int file) { return kind != INTERRUPT && refuses_file(file); }

int fsync(int file) { return refuses_look(file) ? -1 : LIBC(fsync)(file); }
int fdatasync(int file) { return refuses_look(file) ? -1 : LIBC(fdatasync)(file); }
int fstat(int file, struct stat *into) { return refuses_look(file) ? -1 : LIBC(fstat)(file, into); }
int fstat64(int file, struct stat64 *into) { return refuses_look(file) ? -1 : LIBC(fstat64)(file, into); }
