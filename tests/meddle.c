/* Stands before the C library (LD_PRELOAD), and does what another program could do meanwhile. The environment says
   what, by the ends of paths:
   SWAPPED=NAME TARGET=PATH  as soon as a folder of this name is made, or a file of it has been written, that is
                             renamed to NAME.away, and a link to PATH stands in its place;
   ENTERED=NAME TARGET=PATH  the same, just before a folder of this name becomes the working directory;
   MADE=NAME COMMAND=TEXT    as soon as a file of this name is made, sh does this;
   FULL=NAME                 each write to a file of this name fails with ENOSPC;
   DENIED=NAME               each try to make a file or a folder of this name fails with EACCES. */
#define _GNU_SOURCE
#include <dlfcn.h>
#include <errno.h>
#include <fcntl.h>
#include <stdarg.h>
#include <stdio.h>
#include <stdlib.h>
#include <string.h>
#include <sys/stat.h>
#include <unistd.h>

#define REAL(call) static __typeof__(&call) real; if (!real) real = (__typeof__(&call))dlsym(RTLD_NEXT, #call)

static int is_of(const char *variable, const char *path) {
    const char *name = getenv(variable), *last = strrchr(path, '/');
    return name && !strcmp(name, last ? last + 1 : path);
}

static void swap(const char *path) {
    char away[5000];
    snprintf(away, sizeof away, "%s.away", path);
    if (rename(path, away) || symlink(getenv("TARGET"), path)) perror("meddle");
}

static void run(void) {
    char *command = strdup(getenv("COMMAND"));
    unsetenv("LD_PRELOAD"), unsetenv("MADE");
    if (system(command)) abort();
    free(command);
}

int chdir(const char *path) {
    REAL(chdir);
    if (is_of("ENTERED", path)) swap(path), unsetenv("ENTERED");
    return real(path);
}

int mkdir(const char *path, mode_t mode) {
    REAL(mkdir);
    if (is_of("DENIED", path)) return errno = EACCES, -1;
    int made = real(path, mode);
    if (!made && is_of("SWAPPED", path)) swap(path);
    return made;
}

int open(const char *path, int flags, ...) {
    REAL(open);
    va_list more;
    va_start(more, flags);
    mode_t mode = flags & O_CREAT ? va_arg(more, mode_t) : 0;
    va_end(more);
    if (flags & O_CREAT && is_of("DENIED", path)) return errno = EACCES, -1;
    int file = real(path, flags, mode);
    if (flags & O_CREAT && file >= 0 && is_of("MADE", path)) run();
    return file;
}

ssize_t write(int file, const void *bytes, size_t count) {
    REAL(write);
    char name[64], path[4096];
    snprintf(name, sizeof name, "/proc/self/fd/%d", file);
    ssize_t length = readlink(name, path, sizeof path - 1);
    path[length < 0 ? 0 : length] = 0;
    if (is_of("FULL", path)) return errno = ENOSPC, -1;
    ssize_t wrote = real(file, bytes, count);
    if (is_of("SWAPPED", path)) swap(path);
    return wrote;
}
