/* How a mount ends for who waits for it. `nlfuse -u DIR` asks the mount which process and image it has, says
 * that it waits, unmounts DIR, and waits for the line that the process leaves beside the image. */
#include "nlfuse.h"

#include <errno.h>
#include <fcntl.h>
#include <limits.h>
#include <poll.h>
#include <signal.h>
#include <stdio.h>
#include <stdlib.h>
#include <string.h>
#include <sys/syscall.h>
#include <sys/wait.h>
#include <sys/xattr.h>
#include <unistd.h>

/* How long is waited between two looks, in milliseconds. */
enum { BETWEEN = 20 };

/* ---- the mount */

static bool has_waiter;

int tell_mount(char *value, size_t size) {
    char text[PATH_MAX + 32];
    int length = snprintf(text, sizeof text, "%ld %s", (long)getpid(), nlfuse.image);
    if (!size) return length;
    if (size < (size_t)length) return -ERANGE;
    memcpy(value, text, (size_t)length);
    return length;
}

void note_waiter(void) { has_waiter = true; }

void leave_status(int status) {
    char path[PATH_MAX + 300], line[sizeof nlfuse.said + 64];
    struct stat st;
    if (!has_waiter) return;
    path_beside(path, sizeof path, nlfuse.image, "status");
    if (!lstat(path, &st) && S_ISREG(st.st_mode)) unlink(path);
    int file = open(path, O_WRONLY | O_CREAT | O_EXCL | O_NOFOLLOW | O_CLOEXEC, 0600);
    if (file < 0) {
        say("its status can't be left", errno);
        return;
    }
    const char *why = status ? nlfuse.said : "saved";
    int length = snprintf(line, sizeof line, "%ld %d %s\n", (long)getpid(), status, why);
    if (write(file, line, (size_t)length) != length) say("its status can't be left", errno);
    close(file);
}

/* ---- who waits */

/* Reads the line that a process has left, and takes it away. False: none is there yet, or it is another's. */
static bool take_line(const char *path, long process, int *status) {
    char line[sizeof nlfuse.said + 64];
    int behind = 0;
    long whose;
    int file = open(path, O_RDONLY | O_NOFOLLOW | O_CLOEXEC);
    ssize_t count = file < 0 ? -1 : read(file, line, sizeof line - 1);
    if (file >= 0) close(file);
    if (count <= 0 || line[count - 1] != '\n') return false;
    line[count] = 0;
    if (sscanf(line, "%ld %d %n", &whose, status, &behind) != 2 || whose != process || !behind) return false;
    unlink(path);
    if (*status) fprintf(stderr, "nlfuse: %s", line + behind);
    return true;
}

static bool run_fusermount(const char *directory) {
    int status = 0;
    pid_t child = fork();
    if (!child) {
        execlp("fusermount3", "fusermount3", "-u", "--", directory, (char *)NULL);
        fprintf(stderr, "nlfuse: fusermount3: %s\n", strerror(errno));
        _exit(127);
    }
    return child > 0 && waitpid(child, &status, 0) == child && WIFEXITED(status) && !WEXITSTATUS(status);
}

/* Waits a little for the end of a process; where the system gives no handle of one, by its number. */
static bool has_ended(int handle, long process) {
    struct pollfd ends = {handle, POLLIN, 0};
    bool is_seen = poll(&ends, 1, BETWEEN) == 1;
    return handle < 0 ? kill((pid_t)process, 0) && errno == ESRCH : is_seen;
}

/* A process that was killed leaves nothing. */
static int wait_for(const char *path, int handle, long process) {
    int status;
    bool is_there = true;
    while (is_there) {
        is_there = !has_ended(handle, process);
        if (take_line(path, process, &status)) return status ? 1 : 0;
    }
    fprintf(stderr, "nlfuse: the mount ended and left no status: its image may not be saved\n");
    return 1;
}

int unmount_and_wait(const char *directory) {
    char told[PATH_MAX + 32], path[PATH_MAX + 300], *image;
    ssize_t length = getxattr(directory, MOUNT_ATTRIBUTE, told, sizeof told - 1);
    if (length < 0) return fprintf(stderr, "nlfuse: %s: nlfuse has nothing mounted there\n", directory), 2;
    told[length] = 0;
    long process = strtol(told, &image, 10);
    if (*image++ != ' ' || process < 1 || *image != '/')
        return fprintf(stderr, "nlfuse: %s: it is no mount of nlfuse\n", directory), 2;
    if (setxattr(directory, MOUNT_ATTRIBUTE, "wait", 4, 0))
        return fprintf(stderr, "nlfuse: %s: %s\n", directory, strerror(errno)), 1;
    path_beside(path, sizeof path, image, "status");
    int handle = (int)syscall(SYS_pidfd_open, (pid_t)process, 0);
    return run_fusermount(directory) ? wait_for(path, handle, process) : 1;
}
