/* Stands before the C library (LD_PRELOAD), and does something while a program reads files. The environment says what:
   FIRST=NAME and COMMAND=TEXT    at the first read of a file whose path ends in NAME, sh does this;
   ENTERED=NAME and COMMAND=TEXT  just before a folder whose path ends in NAME becomes the working directory, sh does this;
   BROKEN=NAME                    each read but the first of a file whose path ends in NAME fails with EIO.
   A file's path is the one that the system tells. Where there is no /proc, it is the one by which the file was opened. */
#define _GNU_SOURCE
#include <dlfcn.h>
#include <errno.h>
#include <fcntl.h>
#include <stdarg.h>
#include <stdio.h>
#include <stdlib.h>
#include <string.h>
#include <sys/syscall.h>
#include <unistd.h>

#define REAL(call) static __typeof__(&call) real; if (!real) real = (__typeof__(&call))dlsym(RTLD_NEXT, #call)

/* The paths by which files were opened. */
static char opened[64][4096];

/* Whether a path ends in what the environment has under a name. */
static int ends(const char *path, const char *variable) {
    const char *end = getenv(variable);
    return end && strlen(path) >= strlen(end) && !strcmp(path + strlen(path) - strlen(end), end);
}

/* Whether an open file's path does. */
static int is_of(int file, const char *variable) {
    char name[64], path[4096];
    snprintf(name, sizeof name, "/proc/self/fd/%d", file);
    ssize_t n = syscall(SYS_readlinkat, AT_FDCWD, name, path, sizeof path - 1);
    if (n < 0) return file >= 0 && file < 64 && ends(opened[file], variable);
    path[n] = 0;
    return ends(path, variable);
}

static void run(void) {
    char *command = strdup(getenv("COMMAND"));
    unsetenv("LD_PRELOAD"), unsetenv("FIRST"), unsetenv("ENTERED");
    if (system(command)) abort();
    free(command);
}

int open(const char *path, int flags, ...) {
    REAL(open);
    va_list more;
    va_start(more, flags);
    mode_t mode = flags & O_CREAT ? va_arg(more, mode_t) : 0;
    va_end(more);
    int file = real(path, flags, mode);
    if (file >= 0 && file < 64) snprintf(opened[file], sizeof opened[file], "%s", path);
    return file;
}

int chdir(const char *path) {
    REAL(chdir);
    if (ends(path, "ENTERED")) run();
    return real(path);
}

ssize_t read(int file, void *to, size_t count) {
    REAL(read);
    static int broken;
    if (is_of(file, "FIRST")) run();
    if (is_of(file, "BROKEN") && broken++) return errno = EIO, -1;
    return real(file, to, count);
}
