/* The image's file: its lock from the mount's start to its end, and how it is replaced, whole or not at all.
 * The names of files beside it, and the lock, are those of nlvol and nlkeep. */
#include "nlfuse.h"

#include <errno.h>
#include <fcntl.h>
#include <limits.h>
#include <stdio.h>
#include <stdlib.h>
#include <string.h>
#include <sys/file.h>
#include <syslog.h>
#include <unistd.h>

/* What stood at the image's path when it was read, or written last. */
static struct stat found;

/* On standard error, and in the system's log, since nobody reads the first of a mount in the background. */
void say(const char *what, int error) {
    const char *why = error ? strerror(error) : "";
    snprintf(nlfuse.said, sizeof nlfuse.said, "%s: %s%s%s", nlfuse.image, what, error ? ": " : "", why);
    fprintf(stderr, "nlfuse: %s\n", nlfuse.said);
    syslog(LOG_USER | LOG_ERR, "%s", nlfuse.said);
}

static bool is_same(const struct stat *a, const struct stat *b) {
    return a->st_dev == b->st_dev && a->st_ino == b->st_ino && a->st_size == b->st_size &&
           a->st_mtim.tv_sec == b->st_mtim.tv_sec && a->st_mtim.tv_nsec == b->st_mtim.tv_nsec;
}

/* ---- the start */

/* Opens the file and takes its lock. Another program may put a new one there meanwhile: then once more. */
static bool lock_image(void) {
    for (int turn = 0; turn < 100; turn++) {
        struct stat now;
        int file = open(nlfuse.image, O_RDWR | O_CLOEXEC);
        if (file < 0) return say("can't be opened", errno), false;
        if (flock(file, LOCK_EX | LOCK_NB)) {
            int error = errno;
            close(file);
            return say("another program has it in use", error == EWOULDBLOCK ? 0 : error), false;
        }
        if (!fstat(file, &found) && !stat(nlfuse.image, &now) && is_same(&found, &now)) {
            if (!S_ISREG(found.st_mode)) return close(file), say("is no regular file", 0), false;
            nlfuse.file = file;
            return true;
        }
        close(file);
    }
    return say("other programs replace it time and again", 0), false;
}

static uint64_t number_in(const uint8_t *bytes, int count) {
    uint64_t number = 0;
    while (count--) number = number << 8 | bytes[count];
    return number;
}

/* (docs/SPECIFICATION.md says how long an image is) */
uint64_t due_length(const uint8_t *first) {
    uint64_t segments = number_in(first + 8, 4), blocks = number_in(first + 12, 4), kept = number_in(first + 16, 8);
    if (segments > 4096 || blocks > 2048 || kept > INT64_MAX / 256) return 0;
    uint64_t tables = 1024 + 16 * segments + 24 * segments * blocks + 160 * kept;
    return (tables + 1023) / 1024 * 1024 + 1024 * segments * blocks;
}

/* How much of the file is read: of one that hasn't the length of an image its first block, which is refused alike. */
static size_t bytes_read(void) {
    uint8_t first[1024];
    bool has_block = pread(nlfuse.file, first, sizeof first, 0) == (ssize_t)sizeof first;
    return has_block && due_length(first) != (uint64_t)found.st_size ? sizeof first : (size_t)found.st_size;
}

static uint8_t *read_image(size_t *size) {
    size_t count = 0, room = bytes_read();
    uint8_t *bytes = malloc(room + 1);
    while (bytes && count < room) {
        ssize_t more = pread(nlfuse.file, bytes + count, room - count, (off_t)count);
        if (more <= 0) {
            free(bytes);
            say("can't be read", more ? errno : 0);
            return NULL;
        }
        count += (size_t)more;
    }
    *size = count;
    return bytes;
}

static bool open_volume(void) {
    size_t size = 0;
    uint8_t *bytes = read_image(&size);
    if (!bytes) return false;
    uint32_t status = nl_open(&nlfuse.volume, bytes, size);
    free(bytes);
    if (status == NL_DONE) return true;
    fprintf(stderr, "nlfuse: %s: no image: refused by %u, condition %u\n", nlfuse.image, nl_refusal(status),
            nl_condition(status));
    return false;
}

/* The path of what is there, with its links followed; or that of a file that is to be made. */
static char *real_path(const char *path) {
    char *real = realpath(path, NULL), *whole = NULL, folder[PATH_MAX];
    if (real || errno != ENOENT) return real;
    if (path[0] == '/') return strdup(path);
    if (!getcwd(folder, sizeof folder) || asprintf(&whole, "%s/%s", folder, path) < 0) return NULL;
    return whole;
}

/* ---- the end */

static bool all_zero(const uint8_t *bytes, size_t count) {
    return !count || (!bytes[0] && !memcmp(bytes, bytes + 1, count - 1));
}

/* Writes a part of the image; zeros become a hole. */
static bool write_part(int file, const uint8_t *bytes, size_t count, off_t at) {
    if (all_zero(bytes, count)) return true;
    while (count) {
        ssize_t more = pwrite(file, bytes, count, at);
        if (more < 0 && errno == EINTR) continue;
        if (more <= 0) return false;
        bytes += more;
        at += more;
        count -= (size_t)more;
    }
    return true;
}

static bool write_image(int file, uint64_t size) {
    static uint8_t part[1 << 16];
    for (uint64_t at = 0, count = 0; at < size; at += count) {
        if (nl_image_read(&nlfuse.volume, at, part, sizeof part, &count) != NL_DONE || !count) return false;
        if (!write_part(file, part, count, (off_t)at)) return false;
    }
    return !ftruncate(file, (off_t)size);
}

/* Gives the new file the owner, the group and the mode of the old one, as far as the system lets it. */
static bool give_mode(int file) {
    struct stat now;
    if (fchown(file, found.st_uid, (gid_t)-1)) errno = 0;
    if (fchown(file, (uid_t)-1, found.st_gid)) errno = 0;
    if (fstat(file, &now)) return false;
    mode_t bits = 07777;
    if (now.st_uid != found.st_uid) bits &= 03777;
    if (now.st_gid != found.st_gid) bits &= 05707;
    return !fchmod(file, found.st_mode & bits);
}

/* Puts the new file in the place of the old one, if that is still there as it was. */
static bool put_side(const char *side) {
    struct stat now;
    if (nlfuse.file < 0) return give_name(side, nlfuse.image);
    if (stat(nlfuse.image, &now)) return false;
    if (!is_same(&found, &now)) return errno = ESTALE, false;
    return !rename(side, nlfuse.image);
}

/* From now on the new file is the image, and holds the lock. */
static void keep_side_open(int file) {
    if (nlfuse.file >= 0) close(nlfuse.file);
    nlfuse.file = file;
    fstat(file, &found);
    store_folder();
}

/* At the end of a mount an image for which its own folder has no place is kept where files for a while are. */
static void keep_elsewhere(uint64_t size) {
    char image[PATH_MAX], kept[PATH_MAX + 300];
    const char *folder = getenv("TMPDIR");
    if (!folder || folder[0] != '/') folder = "/var/tmp";
    snprintf(image, sizeof image, "%s%s", folder, strrchr(nlfuse.image, '/'));
    int file = make_kept(image, kept, sizeof kept);
    if (file < 0) return;
    if (write_image(file, size) && !fsync(file)) keep_side(kept, true);
    else unlink(kept);
    close(file);
}

/* At the end of a mount a new file that can't take the image's place is kept beside it. */
static int fill_and_put(uint64_t size, bool is_last) {
    char side[PATH_MAX + 300];
    if (nlfuse.file >= 0) clear_sides();
    int file = make_side(side, sizeof side);
    bool is_kept = file < 0 && errno == EEXIST && is_last;
    if (is_kept) file = make_kept(nlfuse.image, side, sizeof side);
    int error = file < 0 ? errno : 0;
    if (error) {
        say("not saved", error);
        if (is_last) keep_elsewhere(size);
        return -error;
    }
    errno = EIO;
    bool is_written = write_image(file, size) && (nlfuse.file < 0 || give_mode(file)) && !fsync(file);
    if (is_written && put_side(side)) {
        keep_side_open(file);
        return 0;
    }
    error = errno;
    say("not saved", error);
    if (is_written && is_last) fchmod(file, 0600), keep_side(side, is_kept);
    else unlink(side);
    close(file);
    if (!is_written && is_last) keep_elsewhere(size);
    return -error;
}

static int save_image(bool is_last) {
    uint64_t size;
    if (!nlfuse.is_unsaved) return 0;
    uint32_t status = nl_image(&nlfuse.volume, &size);
    int error = told(status);
    if (error) say("not saved", -error);
    else error = fill_and_put(size, is_last);
    nl_release(&nlfuse.volume);
    if (!error) nlfuse.is_unsaved = false;
    return error;
}

/* Makes a plain checkpoint where something has changed since the latest one. */
static int settle(void) {
    nl_info_told info;
    uint64_t number;
    settle_attributes();
    uint32_t status = nl_info(&nlfuse.volume, &info);
    if (status == NL_DONE && info.dirty) status = make_checkpoint(NL_PLAIN, &number);
    return told(status);
}

/* ---- a new image */

/* It is there, and locked, before anything is mounted, so that of two mounts the second one is refused. */
static bool make_image(void) {
    uint32_t status = nl_format(&nlfuse.volume, 64, 64, (uint64_t)time(NULL));
    if (status != NL_DONE) return say("no volume was made", told(status) ? -told(status) : EIO), false;
    nlfuse.is_unsaved = true;
    nlfuse.is_new = !save_image(false);
    return nlfuse.is_new;
}

/* Nobody has seen it. */
static void remove_image(void) {
    struct stat now;
    if (!lstat(nlfuse.image, &now) && is_same(&found, &now) && !unlink(nlfuse.image)) store_folder();
}

bool open_image(const char *path) {
    nlfuse.file = -1;
    nlfuse.image = real_path(path);
    if (!nlfuse.image) {
        fprintf(stderr, "nlfuse: %s: %s\n", path, strerror(errno));
        return false;
    }
    if (nlfuse.makes_image && access(nlfuse.image, F_OK)) return make_image();
    return lock_image() && open_volume();
}

/* ---- when it is saved */

static pthread_t saver;
static pthread_cond_t changed = PTHREAD_COND_INITIALIZER;
static time_t due;
static bool ends;

/* An image has what the latest checkpoint has, so one is made of what was written since the sync. */
static int settle_and_save(void) {
    int error = settle();
    return error ? error : save_image(false);
}

/* Saves when it is due, with the lock, which it gives back while it waits. */
static void *save_in_time(void *nothing) {
    pthread_mutex_lock(&nlfuse.lock);
    while (!ends) {
        struct timespec until = {due, 0};
        if (!due) pthread_cond_wait(&changed, &nlfuse.lock);
        else if (time(NULL) < due) pthread_cond_timedwait(&changed, &nlfuse.lock, &until);
        else if (!settle_and_save()) due = 0;
        else due = time(NULL) + nlfuse.save_after + 1;
    }
    pthread_mutex_unlock(&nlfuse.lock);
    return nothing;
}

void start_saving(void) {
    if (nlfuse.save_after >= 0 && pthread_create(&saver, NULL, save_in_time, NULL)) nlfuse.save_after = -1;
}

void end_saving(void) {
    if (nlfuse.save_after < 0) return;
    pthread_mutex_lock(&nlfuse.lock);
    ends = true;
    pthread_cond_signal(&changed);
    pthread_mutex_unlock(&nlfuse.lock);
    pthread_join(saver, NULL);
}

int sync_volume(void) {
    int error = settle();
    if (error || !nlfuse.is_unsaved) return error;
    if (nlfuse.save_after < 0) return save_image(false);
    if (!due) due = time(NULL) + nlfuse.save_after;
    pthread_cond_signal(&changed);
    return 0;
}

/* At the end the volume may grow past what the mount was told. */
static int settle_at_last(void) {
    int error = settle();
    if (error == -ENOSPC) {
        nlfuse.most_blocks = MOST_BLOCKS;
        error = settle();
    }
    return error;
}

int close_image(void) {
    int error = settle_at_last(), other = save_image(true);
    if (error) say("what changed since the latest checkpoint is lost", -error);
    nl_close(&nlfuse.volume);
    if (nlfuse.is_new && !nlfuse.is_mounted) remove_image();
    if (nlfuse.file >= 0) close(nlfuse.file);
    return error ? error : other;
}
