/* Modes, times, owners and symbolic links: nlkeep's manifests, the file .nlkeep of each directory. They are
 * read and printed by the library, and those of the current tree are kept here between two checkpoints. */
#include "nlfuse.h"

#include <errno.h>
#include <stdio.h>
#include <stdlib.h>
#include <string.h>

#define MANIFEST ".nlkeep"

/* A file or a link in a directory; of a file there is no target. */
struct line {
    char *name;
    char *target;
    struct attributes attributes;
};

/* What the manifest of a directory says. */
struct folder {
    uint64_t at;
    char *path;
    bool is_told;    /* it has a manifest, or will have one */
    bool is_changed; /* since the manifest was written */
    bool is_shown;   /* its .nlkeep is no manifest, but an ordinary file or a directory */
    bool is_said;    /* that its attributes are left out */
    uint64_t turn;   /* in which it was counted last */
    struct attributes own;
    struct line *lines; /* ascending by name */
    size_t count, room;
    struct folder *next;
};

enum { BUCKETS = 4096, MOST_OLD = 4096 };

static struct folder *buckets[BUCKETS];
static size_t old_count; /* of those of kept checkpoints */

/* ---- small things */

static struct attributes usual(bool is_dir) {
    return (struct attributes){is_dir ? 0755 : 0644, nlfuse.owner, nlfuse.group, nlfuse.began};
}

static bool is_below(const char *path, const char *above) {
    size_t length = strlen(above);
    return !strncmp(path, above, length) && (!path[length] || path[length] == '/');
}

/* The directory of a path, which the caller frees, and the name in it. */
static char *above(const char *path, const char **name) {
    const char *end = strrchr(path, '/');
    *name = end + 1;
    return end == path ? strdup("/") : strndup(path, (size_t)(end - path));
}

static char *manifest_path(const char *path) {
    char *whole = NULL;
    return asprintf(&whole, "%s/" MANIFEST, path[1] ? path : "") < 0 ? NULL : whole;
}

bool is_manifest_name(const char *path) { return !strcmp(strrchr(path, '/') + 1, MANIFEST); }

/* ---- lines */

/* The place of a name, or of the first one behind it. */
static size_t place_in(const struct folder *folder, const char *name) {
    size_t low = 0, high = folder->count;
    while (low < high) {
        size_t middle = (low + high) / 2;
        if (strcmp(folder->lines[middle].name, name) < 0) low = middle + 1;
        else high = middle;
    }
    return low;
}

static struct line *line_in(const struct folder *folder, const char *name) {
    size_t place = place_in(folder, name);
    bool is_there = place < folder->count && !strcmp(folder->lines[place].name, name);
    return is_there ? &folder->lines[place] : NULL;
}

static void free_line(struct line *line) {
    free(line->name);
    free(line->target);
}

static void remove_line(struct folder *folder, const char *name) {
    struct line *line = line_in(folder, name);
    if (!line) return;
    free_line(line);
    size_t behind = (size_t)(folder->lines + folder->count - (line + 1));
    memmove(line, line + 1, behind * sizeof *line);
    folder->count--;
    folder->is_changed = folder->is_told = true;
}

/* Takes the target over. */
static int put_line(struct folder *folder, const char *name, char *target,
                    const struct attributes *attributes) {
    remove_line(folder, name);
    if (folder->count == folder->room) {
        size_t room = folder->room * 2 + 8;
        struct line *lines = realloc(folder->lines, room * sizeof *lines);
        if (!lines) return -ENOMEM;
        folder->lines = lines;
        folder->room = room;
    }
    char *copy = strdup(name);
    if (!copy) return -ENOMEM;
    struct line *line = folder->lines + place_in(folder, name);
    memmove(line + 1, line, (size_t)(folder->lines + folder->count - line) * sizeof *line);
    *line = (struct line){copy, target, *attributes};
    folder->count++;
    folder->is_changed = folder->is_told = true;
    return 0;
}

/* ---- the library's manifests */

static struct attributes attributes_in(const nl_attributes *told) {
    int64_t seconds = (int64_t)told->seconds;
    struct timespec time = {told->is_negative ? -seconds : seconds, (long)told->nanoseconds};
    return (struct attributes){(mode_t)told->mode, (uid_t)told->owner, (gid_t)told->group, time};
}

/* The nanoseconds of the host count forwards, as those of a manifest do. */
static nl_attributes attributes_of(const struct attributes *from) {
    bool is_negative = from->time.tv_sec < 0;
    uint64_t seconds = is_negative ? -(uint64_t)from->time.tv_sec : (uint64_t)from->time.tv_sec;
    return (nl_attributes){from->mode & 07777, from->owner, from->group,
                           is_negative,        seconds,     (uint64_t)from->time.tv_nsec};
}

static bool read_lines(struct folder *folder, uint64_t count) {
    static char name[256], target[1 << 16];
    nl_line line;
    for (uint64_t i = 0; i < count; i++) {
        if (nl_manifest_line(&nlfuse.volume, i, name, 255, target, sizeof target - 1, &line) != NL_DONE)
            return false;
        if (line.name_size > 255 || line.target_size >= sizeof target) continue;
        name[line.name_size] = target[line.target_size] = 0;
        struct attributes attributes = attributes_in(&line.attributes);
        if (put_line(folder, name, line.target_size ? strdup(target) : NULL, &attributes)) return false;
    }
    return true;
}

/* Reads the manifest of a directory, if there is one. */
static void read_manifest(struct folder *folder) {
    char *path = manifest_path(folder->path), *bytes = NULL;
    nl_object object;
    nl_attributes own;
    uint64_t count = 0;
    if (!path || nl_stat(&nlfuse.volume, folder->at, path, strlen(path), &object) != NL_DONE) goto end;
    if (object.kind != NL_FILE) {
        folder->is_shown = true;
        goto end;
    }
    bytes = malloc(object.size + 1);
    if (!bytes ||
        nl_read(&nlfuse.volume, folder->at, path, strlen(path), 0, bytes, object.size, &count) != NL_DONE)
        goto end;
    folder->is_shown = true;
    if (nl_manifest_read(&nlfuse.volume, bytes, count, &own, &count) == NL_DONE &&
        read_lines(folder, count)) {
        folder->is_shown = false;
        folder->is_told = true;
        folder->own = attributes_in(&own);
    }
    nl_release(&nlfuse.volume);
end:
    folder->is_changed = false;
    free(path);
    free(bytes);
}

/* ---- directories */

static struct folder **bucket_of(uint64_t at, const char *path) {
    uint64_t hash = at ^ 14695981039346656037u;
    for (; *path; path++) hash = (hash ^ (uint8_t)*path) * 1099511628211u;
    return &buckets[(hash ^ hash >> 32) % BUCKETS];
}

static void free_folder(struct folder *folder) {
    for (size_t i = 0; i < folder->count; i++) free_line(&folder->lines[i]);
    if (folder->at) old_count--;
    free(folder->lines);
    free(folder->path);
    free(folder);
}

/* Takes out each that is to go: those of checkpoints, or those of the current tree at a path and below it. */
static struct folder *taken(bool is_old, const char *path) {
    struct folder *all = NULL;
    for (size_t i = 0; i < BUCKETS; i++)
        for (struct folder **place = &buckets[i]; *place;) {
            struct folder *folder = *place;
            if (is_old ? !folder->at : folder->at || !is_below(folder->path, path)) {
                place = &folder->next;
                continue;
            }
            *place = folder->next;
            folder->next = all;
            all = folder;
        }
    return all;
}

static void drop_all(struct folder *all) {
    while (all) {
        struct folder *next = all->next;
        free_folder(all);
        all = next;
    }
}

/* What the manifest of a directory says; NULL where there is no memory. */
static struct folder *folder_at(uint64_t at, const char *path) {
    struct folder **bucket = bucket_of(at, path), *folder;
    for (folder = *bucket; folder; folder = folder->next)
        if (folder->at == at && !strcmp(folder->path, path)) return folder;
    if (at && old_count >= MOST_OLD) drop_all(taken(true, NULL));
    folder = calloc(1, sizeof *folder);
    if (!folder || !(folder->path = strdup(path))) return free(folder), NULL;
    folder->at = at;
    if (at) old_count++;
    folder->own = usual(true);
    folder->next = *bucket;
    *bucket = folder;
    read_manifest(folder);
    return folder;
}

static struct folder *folder_above(uint64_t at, const char *path, const char **name) {
    char *folder = above(path, name);
    struct folder *found = folder ? folder_at(at, folder) : NULL;
    free(folder);
    return found;
}

/* ---- what is told */

struct attributes attributes_at(uint64_t at, const char *path, bool is_dir) {
    const char *name;
    struct folder *folder = is_dir ? folder_at(at, path) : folder_above(at, path, &name);
    if (!folder || !folder->is_told) return usual(is_dir);
    if (is_dir) return folder->own;
    struct line *line = line_in(folder, name);
    return line ? line->attributes : usual(false);
}

const char *target_at(uint64_t at, const char *path) {
    const char *name;
    if (!path[1]) return NULL;
    struct folder *folder = folder_above(at, path, &name);
    struct line *line = folder ? line_in(folder, name) : NULL;
    nl_object object;
    if (!line || !line->target) return NULL;
    /* a file of the name stands there, and the line is of none */
    if (nl_stat(&nlfuse.volume, at, path, strlen(path), &object) == NL_DONE) return NULL;
    return line->target;
}

void each_link(uint64_t at, const char *path, void (*take)(const char *name, void *with), void *with) {
    struct folder *folder = folder_at(at, path);
    for (size_t i = 0; folder && i < folder->count; i++)
        if (folder->lines[i].target) take(folder->lines[i].name, with);
}

bool has_links(const char *path) {
    struct folder *folder = folder_at(0, path);
    for (size_t i = 0; folder && i < folder->count; i++)
        if (folder->lines[i].target) return true;
    return false;
}

bool shows_manifest(uint64_t at, const char *path) {
    struct folder *folder = folder_at(at, path);
    return folder && folder->is_shown;
}

/* ---- what changes */

int set_attributes(const char *path, bool is_dir, const struct attributes *attributes) {
    const char *name;
    struct folder *folder = is_dir ? folder_at(0, path) : folder_above(0, path, &name);
    if (!folder) return -ENOMEM;
    if (!is_dir) {
        struct line *line = line_in(folder, name);
        if (!line) return put_line(folder, name, NULL, attributes);
        line->attributes = *attributes;
    } else {
        folder->own = *attributes;
    }
    folder->is_changed = folder->is_told = true;
    return 0;
}

int set_link(const char *path, const char *target) {
    const char *name;
    struct folder *folder = folder_above(0, path, &name);
    struct attributes attributes = usual(false);
    attributes.mode = 0777;
    clock_gettime(CLOCK_REALTIME, &attributes.time);
    char *copy = strdup(target);
    int error = folder && copy ? put_line(folder, name, copy, &attributes) : -ENOMEM;
    if (error) free(copy);
    return error;
}

int touch(const char *path, bool is_dir) {
    struct attributes attributes = attributes_at(0, path, is_dir);
    clock_gettime(CLOCK_REALTIME, &attributes.time);
    return set_attributes(path, is_dir, &attributes);
}

void manifest_gone(const char *path) {
    const char *name;
    struct folder *folder = is_manifest_name(path) ? folder_above(0, path, &name) : NULL;
    if (folder) folder->is_shown = false;
}

void forget(const char *path, bool is_dir) {
    const char *name;
    struct folder *folder = is_dir ? NULL : folder_above(0, path, &name);
    if (is_dir) drop_all(taken(false, path));
    if (folder) remove_line(folder, name);
}

/* Puts the directories of a tree under its new path. */
static int move_folders(const char *from, const char *to) {
    struct folder *all = taken(false, from);
    size_t length = strlen(from);
    int error = 0;
    while (all) {
        struct folder *folder = all;
        char *path = NULL;
        all = folder->next;
        if (asprintf(&path, "%s%s", to, folder->path + length) < 0) {
            error = -ENOMEM;
            free_folder(folder);
            continue;
        }
        free(folder->path);
        folder->path = path;
        struct folder **bucket = bucket_of(0, path);
        folder->next = *bucket;
        *bucket = folder;
    }
    return error;
}

int move_attributes(const char *from, const char *to, bool is_dir) {
    const char *name, *new_name;
    if (!strcmp(from, to)) return 0;
    if (is_dir) {
        forget(to, true);
        return move_folders(from, to);
    }
    struct folder *folder = folder_above(0, from, &name), *new_folder = folder_above(0, to, &new_name);
    if (!folder || !new_folder) return -ENOMEM;
    struct line *line = line_in(folder, name);
    struct attributes attributes = line ? line->attributes : usual(false);
    char *target = line && line->target ? strdup(line->target) : NULL;
    remove_line(folder, name);
    return put_line(new_folder, new_name, target, &attributes);
}

/* ---- what is written */

static uint64_t bytes_of(const struct folder *folder) {
    uint64_t bytes = 120;
    for (size_t i = 0; i < folder->count; i++) {
        const struct line *line = &folder->lines[i];
        bytes += 120 + 4 * (strlen(line->name) + (line->target ? strlen(line->target) : 0));
    }
    return bytes;
}

uint64_t blocks_above(const char *path) {
    const char *name;
    nl_object object;
    struct folder *folder = folder_above(0, path, &name);
    if (!folder) return 0;
    if (folder->turn == room_turn()) return 4;
    if (nl_stat(&nlfuse.volume, 0, folder->path, strlen(folder->path), &object) != NL_DONE) return 0;
    return blocks_of(272 * object.size) + blocks_of(bytes_of(folder)) + 24;
}

void note_above(const char *path) {
    const char *name;
    struct folder *folder = folder_above(0, path, &name);
    if (folder) folder->turn = room_turn();
}

/* Leaves the bytes of a manifest for nl_image_read. */
static uint32_t print_manifest(const struct folder *folder, uint64_t *size) {
    nl_attributes own = attributes_of(&folder->own);
    uint32_t status = nl_manifest_begin(&nlfuse.volume, &own);
    for (size_t i = 0; status == NL_DONE && i < folder->count; i++) {
        const struct line *line = &folder->lines[i];
        nl_attributes attributes = attributes_of(&line->attributes);
        size_t length = line->target ? strlen(line->target) : 0;
        status = nl_manifest_add(&nlfuse.volume, line->name, strlen(line->name), line->target, length,
                                 &attributes);
    }
    return status == NL_DONE ? nl_manifest_bytes(&nlfuse.volume, size) : status;
}

/* Writes what differs from the bytes that are there; if nothing does, nothing is dirty by it. */
static uint32_t put_bytes(const char *path, const char *bytes, uint64_t size) {
    size_t length = strlen(path);
    uint64_t count = 0, same = 0;
    nl_object object = {NL_FILE, 0};
    uint32_t status = nl_stat(&nlfuse.volume, 0, path, length, &object);
    bool is_new = nl_refusal(status) == NL_NOT_FOUND;
    if (is_new) status = nl_create(&nlfuse.volume, path, length);
    char *old = malloc(size + 1);
    if (old && nl_read(&nlfuse.volume, 0, path, length, 0, old, size, &count) == NL_DONE)
        while (same < count && old[same] == bytes[same]) same++;
    free(old);
    if (status == NL_DONE && same < size)
        status = nl_write(&nlfuse.volume, path, length, same, bytes + same, size - same);
    if (status != NL_DONE && is_new) nl_unlink(&nlfuse.volume, path, length);
    return status == NL_DONE && object.size > size ? nl_truncate(&nlfuse.volume, path, length, size) : status;
}

static int write_manifest(struct folder *folder) {
    uint64_t size = 0, count = 0;
    char *path = manifest_path(folder->path), *bytes = NULL;
    uint32_t status = path ? print_manifest(folder, &size) : NL_NO_MEMORY;
    if (status == NL_DONE && !(bytes = malloc(size + 1))) status = NL_NO_MEMORY;
    if (status == NL_DONE) status = nl_image_read(&nlfuse.volume, 0, bytes, size, &count);
    nl_release(&nlfuse.volume);
    if (status == NL_DONE) status = put_bytes(path, bytes, count);
    free(bytes);
    free(path);
    if (status == NL_DONE) folder->is_changed = false;
    return told(status);
}

static void settle_folder(struct folder *folder) {
    char text[4300];
    int error = folder->is_shown ? -EEXIST : write_manifest(folder);
    if (error && !folder->is_said) {
        snprintf(text, sizeof text, "modes, times, owners and links of %s are left out", folder->path);
        say(text, -error);
    }
    folder->is_said = error;
}

void settle_attributes(void) {
    for (size_t i = 0; i < BUCKETS; i++)
        for (struct folder *folder = buckets[i]; folder; folder = folder->next)
            if (!folder->at && folder->is_changed) settle_folder(folder);
}
