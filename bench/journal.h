// What the libraries share that stand between a program and the system (LD_PRELOAD): which numbers the program has for its file
// pol.journal or pol.plant. It is opened more than once, and a number that is free again is given to another file.
#include <dlfcn.h>
#include <fcntl.h>
#include <stdarg.h>
#include <string.h>

#define REAL(name) ((__typeof__(&name))dlsym(RTLD_NEXT, #name))

enum { MOST_FILES = 1024 };

static char is_journal[MOST_FILES];

static int opened(int file, const char *path) {
    const char *slash = strrchr(path, '/'), *name = slash ? slash + 1 : path;
    if (file >= 0 && file < MOST_FILES) is_journal[file] = !strcmp(name, "pol.journal") || !strcmp(name, "pol.plant");
    return file;
}

static int of_journal(int file) {
    return file >= 0 && file < MOST_FILES && is_journal[file];
}

#define OPENS(name)                                              \
    int name(const char *path, int flags, ...) {                 \
        va_list more;                                            \
        va_start(more, flags);                                   \
        int mode = va_arg(more, int);                            \
        va_end(more);                                            \
        return opened(REAL(name)(path, flags, mode), path);      \
    }
OPENS(open)
OPENS(open64)
