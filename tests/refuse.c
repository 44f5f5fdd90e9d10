/* Stands before the C library (LD_PRELOAD), and lets one call of a program fail. The environment names it by its number:
   REFUSED=N    the Nth request for memory gets none;
   FAILED=N     the Nth call that opens, locks, reads, writes, seeks, stores, links, renames, removes, gives a
                length, an owner, a mode or a time, or asks what stands at a path, fails with EIO;
   SHORTENED=N  the Nth read or write of more than one byte is of one byte alone.
   Descriptor 9 is told which call it was, and of what. The calls of several threads aren't counted apart. */
#define _GNU_SOURCE
#include <dlfcn.h>
#include <errno.h>
#include <fcntl.h>
#include <stdarg.h>
#include <stdio.h>
#include <stdlib.h>
#include <string.h>
#include <sys/file.h>
#include <sys/stat.h>
#include <sys/syscall.h>
#include <unistd.h>

struct turn { const char *name; long number, seen; };
static struct turn refused = {"REFUSED", -1, 0}, failed = {"FAILED", -1, 0}, shortened = {"SHORTENED", -1, 0};

static void tell(const char *text) { (void)!syscall(SYS_write, 9, text, strlen(text)); }

static int comes(struct turn *turn, const char *call, const char *of) {
    if (turn->number < 0) turn->number = getenv(turn->name) ? atol(getenv(turn->name)) : 0;
    if (turn->number == 0 || ++turn->seen != turn->number) return 0;
    tell(call), tell(" "), tell(of), tell("\n");
    errno = EIO;
    return 1;
}

/* What a descriptor stands for: a standard stream's number, or a path. */
static const char *of(int file) {
    static char name[64], path[4096];
    snprintf(name, sizeof name, file < 3 ? "%d" : "/proc/self/fd/%d", file);
    ssize_t n = file < 3 ? -1 : syscall(SYS_readlinkat, AT_FDCWD, name, path, sizeof path - 1);
    return n < 0 ? name : (path[n] = 0, path);
}

#define REAL(call) static __typeof__(&call) real; if (!real) real = (__typeof__(&call))dlsym(RTLD_NEXT, #call)
#define FAILS(call, of) (comes(&failed, #call, of))
#define SHORT(call, file, n) ((n) > 1 && comes(&shortened, #call, of(file)) ? 1 : (n))

void *malloc(size_t n) { REAL(malloc); return comes(&refused, "malloc", "") ? 0 : real(n); }
void *calloc(size_t n, size_t m) { REAL(calloc); return comes(&refused, "calloc", "") ? 0 : real(n, m); }
void *realloc(void *p, size_t n) { REAL(realloc); return comes(&refused, "realloc", "") ? 0 : real(p, n); }

int open(const char *path, int flags, ...) {
    REAL(open);
    va_list more;
    va_start(more, flags);
    mode_t mode = flags & O_CREAT ? va_arg(more, mode_t) : 0;
    va_end(more);
    return FAILS(open, path) ? -1 : real(path, flags, mode);
}
ssize_t read(int f, void *p, size_t n) { REAL(read); return FAILS(read, of(f)) ? -1 : real(f, p, SHORT(read, f, n)); }
ssize_t write(int f, const void *p, size_t n) { REAL(write); return FAILS(write, of(f)) ? -1 : real(f, p, SHORT(write, f, n)); }
int flock(int f, int how) { REAL(flock); return FAILS(flock, of(f)) ? -1 : real(f, how); }
off_t lseek(int f, off_t at, int from) { REAL(lseek); return FAILS(lseek, of(f)) ? -1 : real(f, at, from); }
int ftruncate(int f, off_t n) { REAL(ftruncate); return FAILS(ftruncate, of(f)) ? -1 : real(f, n); }
int fsync(int f) { REAL(fsync); return FAILS(fsync, of(f)) ? -1 : real(f); }
int fchmod(int f, mode_t mode) { REAL(fchmod); return FAILS(fchmod, of(f)) ? -1 : real(f, mode); }
int fchown(int f, uid_t u, gid_t g) { REAL(fchown); return FAILS(fchown, of(f)) ? -1 : real(f, u, g); }
int lchown(const char *p, uid_t u, gid_t g) { REAL(lchown); return FAILS(lchown, p) ? -1 : real(p, u, g); }
int futimens(int f, const struct timespec t[2]) { REAL(futimens); return FAILS(futimens, of(f)) ? -1 : real(f, t); }
int symlink(const char *a, const char *b) { REAL(symlink); return FAILS(symlink, b) ? -1 : real(a, b); }
int link(const char *a, const char *b) { REAL(link); return FAILS(link, b) ? -1 : real(a, b); }
int unlink(const char *path) { REAL(unlink); return FAILS(unlink, path) ? -1 : real(path); }
int rename(const char *a, const char *b) { REAL(rename); return FAILS(rename, b) ? -1 : real(a, b); }
ssize_t readlink(const char *path, char *to, size_t n) {
    REAL(readlink);
    return FAILS(readlink, path) ? -1 : real(path, to, n);
}

/* Asks of a path, where its links lead to or of itself, or of an open file, whose path is empty then. */
int statx(int file, const char *path, int flags, unsigned wanted, struct statx *found) {
    REAL(statx);
    const char *name = flags & AT_SYMLINK_NOFOLLOW ? "lstat" : *path ? "stat" : "fstat";
    int fails = comes(&failed, name, *path ? path : of(file));
    return fails ? -1 : real(file, path, flags, wanted, found);
}
