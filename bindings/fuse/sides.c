/* The files beside the image: a new image before it takes the image's place, and one that is kept, since it
 * could not take it. Their names are those of nlvol and nlkeep. */
#include "nlfuse.h"

#include <errno.h>
#include <fcntl.h>
#include <limits.h>
#include <stdio.h>
#include <stdlib.h>
#include <string.h>
#include <sys/file.h>
#include <unistd.h>

/* How many names a new image may have, and how long the image's own name is in it at most. */
enum { SIDES = 100, MOST_BYTES = 240 };

/* ---- names */

void path_beside(char *path, size_t room, const char *image, const char *what) {
    const char *name = strrchr(image, '/') + 1;
    size_t length = strlen(name);
    if (length > MOST_BYTES) length = MOST_BYTES;
    /* (a letter of several bytes is not cut) */
    while (name[length] && ((uint8_t)name[length] & 0xc0) == 0x80) length--;
    snprintf(path, room, "%.*s.%.*s.nlvol-%s", (int)(name - image), image, (int)length, name, what);
}

static void beside(char *side, size_t room, const char *form, unsigned number) {
    char what[32];
    snprintf(what, sizeof what, "%s-%u", form, number);
    path_beside(side, room, nlfuse.image, what);
}

static bool leads_to(const char *path, int file) {
    struct stat there, own;
    if (lstat(path, &there) || fstat(file, &own)) return false;
    return there.st_dev == own.st_dev && there.st_ino == own.st_ino;
}

void store_folder(void) {
    char *folder = strdup(nlfuse.image);
    if (!folder) return;
    strrchr(folder, '/')[1] = 0;
    int file = open(folder, O_RDONLY | O_DIRECTORY | O_CLOEXEC);
    if (file >= 0) {
        fsync(file); /* some file systems don't store folders by themselves */
        close(file);
    }
    free(folder);
}

bool give_name(const char *side, const char *name) {
    if (!link(side, name)) return unlink(side), true;
    if (errno == EEXIST) return false;
    /* where there are no hard links */
    return !renameat2(AT_FDCWD, side, AT_FDCWD, name, RENAME_NOREPLACE);
}

/* Gives a new image the first free name that says it is kept. False: that can't be. */
static bool name_kept(const char *side, char *kept, size_t room) {
    unsigned number = 0;
    do {
        beside(kept, room, "kept", number++);
        if (give_name(side, kept)) return true;
    } while (errno == EEXIST && number);
    return false;
}

void keep_side(const char *side, bool is_kept) {
    char kept[PATH_MAX + 300], text[PATH_MAX + 400];
    bool is_named = !is_kept && name_kept(side, kept, sizeof kept);
    store_folder();
    snprintf(text, sizeof text, "what could not be saved is kept in %s", is_named ? kept : side);
    say(text, 0);
}

/* ---- a new image */

/* Locks a file that was just made. False: another program was faster, and takes it for one that was left. */
static bool lock_side(const char *side, int file) {
    static bool is_said;
    if (flock(file, LOCK_EX | LOCK_NB)) {
        if (errno == EWOULDBLOCK) return false;
        if (!is_said) say("the new image can't be locked", errno);
        is_said = true;
    }
    return leads_to(side, file);
}

int make_side(char *side, size_t room) {
    for (unsigned number = 0; number < SIDES; number++) {
        beside(side, room, "save", number);
        int file = open(side, O_RDWR | O_CREAT | O_EXCL | O_CLOEXEC, 0600);
        if (file < 0 && errno != EEXIST) return -1;
        if (file >= 0 && lock_side(side, file)) return file;
        if (file >= 0) close(file);
    }
    errno = EEXIST;
    return -1;
}

int make_kept(const char *image, char *kept, size_t room) {
    char what[32];
    unsigned number = 0;
    int file;
    do {
        snprintf(what, sizeof what, "kept-%u", number++);
        path_beside(kept, room, image, what);
        file = open(kept, O_RDWR | O_CREAT | O_EXCL | O_CLOEXEC, 0600);
    } while (file < 0 && errno == EEXIST && number);
    if (file >= 0) lock_side(kept, file);
    return file;
}

/* ---- what was left */

static bool is_own(const struct stat *st) {
    return S_ISREG(st->st_mode) && st->st_nlink == 1 && st->st_uid == geteuid();
}

/* Whether the bytes of a file surely are no image. */
static bool is_no_image(int file) {
    uint8_t first[1024];
    struct stat st;
    nl_volume tried = {0};
    if (fstat(file, &st)) return false;
    ssize_t count = pread(file, first, sizeof first, 0);
    if (count < 0) return false;
    if (count < (ssize_t)sizeof first || due_length(first) != (uint64_t)st.st_size) return true;
    uint8_t *bytes = malloc((size_t)st.st_size);
    ssize_t got = bytes ? pread(file, bytes, (size_t)st.st_size, 0) : -1;
    uint32_t status = got == st.st_size ? nl_open(&tried, bytes, (size_t)got) : NL_NO_MEMORY;
    nl_close(&tried);
    free(bytes);
    return nl_refusal(status) == NL_BAD_IMAGE;
}

/* Takes away a file that is locked, and still there under its name. Each is told once. */
static void clear_side(const char *side, int file, unsigned number) {
    static bool is_said[SIDES];
    char text[PATH_MAX + 400];
    struct stat st;
    if (fstat(file, &st) || !is_own(&st) || !leads_to(side, file)) return;
    bool is_gone = is_no_image(file) && !unlink(side);
    if (is_gone) snprintf(text, sizeof text, "removed, since a save was cut off: %s", side);
    else snprintf(text, sizeof text, "left, since it is an image: %s", side);
    if (!is_gone && is_said[number]) return;
    is_said[number] = !is_gone;
    say(text, 0);
}

void clear_sides(void) {
    char side[PATH_MAX + 300];
    struct stat st;
    if (strlen(strrchr(nlfuse.image, '/') + 1) > MOST_BYTES) return;
    for (unsigned number = 0; number < SIDES; number++) {
        beside(side, sizeof side, "save", number);
        if (lstat(side, &st) || !is_own(&st)) continue;
        int file = open(side, O_RDWR | O_NOFOLLOW | O_NONBLOCK | O_CLOEXEC);
        if (file >= 0 && !flock(file, LOCK_EX | LOCK_NB)) clear_side(side, file, number);
        if (file >= 0) close(file);
    }
}
