/* The calls of FUSE. Each takes the lock, since the library lets one call at a time use a volume, and the
 * reads too are such calls. */
#include "nlfuse.h"

#include <errno.h>
#include <fcntl.h>
#include <stdio.h>
#include <stdlib.h>
#include <string.h>
#include <sys/statvfs.h>
#include <sys/xattr.h>
#include <unistd.h>

#define MODE_ATTRIBUTE "user.nlvol.mode"

enum { BLOCK = 1024, MOST_NAME = 255 };

/* What stands at a place: `kind` is NL_FILE or NL_DIRECTORY, or 2 for a symbolic link. */
enum { LINK = 2 };

static int enter(const char *path, struct place *place) {
    pthread_mutex_lock(&nlfuse.lock);
    return place_of(path, place);
}

static int leave(int result) {
    pthread_mutex_unlock(&nlfuse.lock);
    return result;
}

/* Whether a path is that of a manifest, which the mount hides. */
static bool is_hidden(const struct place *place) {
    if (!place->path[1] || !is_manifest_name(place->path)) return false;
    char *folder = strndup(place->path, (size_t)(strrchr(place->path, '/') - place->path));
    bool is_shown = folder && shows_manifest(place->at, folder[0] ? folder : "/");
    free(folder);
    return !is_shown;
}

/* The same for what changes the current tree. Nothing of checkpoints can be changed so, and no manifest. */
static int enter_to_change(const char *path, struct place *place) {
    int error = enter(path, place);
    if (error) return error;
    if (place->kind != IN_TREE || place->at) return -EROFS;
    return is_hidden(place) ? -EPERM : 0;
}

static int find_object(const struct place *place, nl_object *object) {
    const char *target = target_at(place->at, place->path);
    if (target) {
        *object = (nl_object){LINK, strlen(target)};
        return 0;
    }
    return told(nl_stat(&nlfuse.volume, place->at, place->path, strlen(place->path), object));
}

static void touch_above(const char *path) {
    char *folder = strdup(path);
    if (!folder) return;
    char *end = strrchr(folder, '/');
    end[end == folder] = 0;
    touch(folder, true);
    free(folder);
}

/* ---- looks */

static void fill_stat(const struct place *place, const nl_object *object, struct stat *st) {
    struct attributes attributes = attributes_at(place->at, place->path, object->kind == NL_DIRECTORY);
    mode_t kinds[] = {S_IFREG, S_IFDIR, S_IFLNK};
    st->st_mode = kinds[object->kind] | attributes.mode;
    st->st_uid = attributes.owner;
    st->st_gid = attributes.group;
    st->st_mtim = st->st_ctim = st->st_atim = attributes.time;
    st->st_nlink = object->kind == NL_DIRECTORY ? 2 : 1;
    st->st_blksize = 4096;
    if (object->kind == NL_DIRECTORY) return;
    st->st_size = (off_t)object->size;
    st->st_blocks = (blkcnt_t)((object->size + 511) / 512);
}

/* What tells of checkpoints is of the mount itself. */
static void fill_own(const struct place *place, struct stat *st) {
    nl_checkpoint row = {0};
    st->st_mode = place->kind == DATE ? S_IFLNK | 0777 : S_IFDIR | 0755;
    st->st_uid = nlfuse.owner;
    st->st_gid = nlfuse.group;
    st->st_nlink = 1;
    st->st_mtim = st->st_ctim = st->st_atim = nlfuse.began;
    if (place->kind == DATE && row_of(place->at, &row)) st->st_mtim.tv_sec = (time_t)row.stamp;
}

/* Whether .checkpoints/now is there: for the look that mkdir takes, and no longer. */
static bool is_now_made;

static int take_stat(const char *path, struct stat *st, struct fuse_file_info *info) {
    struct place place;
    nl_object object;
    int error = enter(path, &place);
    (void)info;
    if (error) return leave(error);
    if (place.kind == NOW && !is_now_made) return leave(-ENOENT);
    is_now_made = is_now_made && place.kind != NOW;
    if (place.kind != IN_TREE) return fill_own(&place, st), leave(0);
    error = is_hidden(&place) ? -ENOENT : find_object(&place, &object);
    if (!error) fill_stat(&place, &object, st);
    return leave(error);
}

static int read_link(const char *path, char *into, size_t room) {
    struct place place;
    int error = enter(path, &place);
    if (error) return leave(error);
    if (place.kind == DATE) return snprintf(into, room, "../%llu", (unsigned long long)place.at), leave(0);
    const char *target = place.kind == IN_TREE ? target_at(place.at, place.path) : NULL;
    if (!target) return leave(-EINVAL);
    snprintf(into, room, "%s", target);
    return leave(0);
}

static int read_bytes(const char *path, char *into, size_t room, off_t offset, struct fuse_file_info *info) {
    struct place place;
    uint64_t count = 0;
    int error = enter(path, &place);
    (void)info;
    if (error) return leave(error);
    if (place.kind != IN_TREE) return leave(-EISDIR);
    uint32_t status = nl_read(&nlfuse.volume, place.at, place.path, strlen(place.path), (uint64_t)offset,
                              into, room, &count);
    return leave(status == NL_DONE ? (int)count : told(status));
}

/* ---- listings */

struct listing {
    void *buffer;
    fuse_fill_dir_t fill;
    bool by_date;
};

static void fill_name(const struct listing *listing, const char *name, mode_t kind) {
    struct stat st = {.st_mode = kind};
    listing->fill(listing->buffer, name, &st, 0, 0);
}

static void take_checkpoint(const nl_checkpoint *row, void *with) {
    const struct listing *listing = with;
    char name[64];
    if (listing->by_date) date_name(row, name);
    else snprintf(name, sizeof name, "%llu", (unsigned long long)row->number);
    fill_name(listing, name, listing->by_date ? S_IFLNK : S_IFDIR);
}

static void take_link(const char *name, void *with) { fill_name(with, name, S_IFLNK); }

static int list_names(const struct place *place, struct listing *listing) {
    char name[MOST_NAME + 1];
    nl_object object;
    uint64_t count = 0;
    bool shows = shows_manifest(place->at, place->path);
    uint32_t status = nl_list(&nlfuse.volume, place->at, place->path, strlen(place->path), &count);
    for (uint64_t i = 0; status == NL_DONE && i < count; i++) {
        status = nl_name(&nlfuse.volume, i, name, MOST_NAME, &object);
        if (status != NL_DONE || object.size > MOST_NAME) continue;
        name[object.size] = 0;
        if (shows || strcmp(name, ".nlkeep"))
            fill_name(listing, name, object.kind == NL_DIRECTORY ? S_IFDIR : S_IFREG);
    }
    nl_release(&nlfuse.volume);
    if (status == NL_DONE) each_link(place->at, place->path, take_link, listing);
    return told(status);
}

static int read_folder(const char *path, void *buffer, fuse_fill_dir_t fill, off_t offset,
                       struct fuse_file_info *info, enum fuse_readdir_flags flags) {
    struct place place;
    struct listing listing = {buffer, fill, false};
    int error = enter(path, &place);
    (void)offset, (void)info, (void)flags;
    if (error) return leave(error);
    fill_name(&listing, ".", S_IFDIR);
    fill_name(&listing, "..", S_IFDIR);
    if (place.kind == IN_TREE) return leave(list_names(&place, &listing));
    listing.by_date = place.kind == BY_DATE;
    if (place.kind == CHECKPOINTS) fill_name(&listing, "by-date", S_IFDIR);
    each_checkpoint(take_checkpoint, &listing);
    return leave(0);
}

static int tell_room(const char *path, struct statvfs *room) {
    nl_info_told info;
    (void)path;
    pthread_mutex_lock(&nlfuse.lock);
    uint32_t status = nl_info(&nlfuse.volume, &info);
    if (status != NL_DONE) return leave(told(status));
    uint64_t most = most_segments(info.blocks);
    if (most < info.segments) most = info.segments;
    room->f_bsize = room->f_frsize = BLOCK;
    room->f_blocks = most * info.blocks;
    room->f_bfree = room->f_bavail = blocks_left();
    room->f_files = room->f_ffree = 524288;
    room->f_namemax = MOST_NAME;
    return leave(0);
}

/* ---- files are changed */

static int take_room_above(const char *path) { return take_room(&(struct change){.path = path}); }

static int take_room_in(const char *path, uint64_t bytes) {
    return take_room(&(struct change){.path = path, .bytes = bytes, .is_in_file = true});
}

/* A target may take four bytes for each of its own. */
static int take_room_for_link(const char *path, const char *other, uint64_t size) {
    return take_room(&(struct change){.path = path, .other = other, .bytes = 4 * size});
}

static int open_file(const char *path, struct fuse_file_info *info) {
    struct place place;
    int error = enter(path, &place);
    if (error) return leave(error);
    if (place.kind != IN_TREE) return leave(-EISDIR);
    if (place.at) {
        info->keep_cache = 1;
        return leave((info->flags & O_ACCMODE) == O_RDONLY ? 0 : -EROFS);
    }
    if (!(info->flags & O_TRUNC)) return leave(0);
    error = take_room_above(path);
    if (!error) error = told(nl_truncate(&nlfuse.volume, path, strlen(path), 0));
    if (!error) error = touch(path, false);
    return leave(error);
}

static int write_bytes(const char *path, const char *bytes, size_t count, off_t offset,
                       struct fuse_file_info *info) {
    struct place place;
    int error = enter_to_change(path, &place);
    (void)info;
    if (!error) error = take_room_in(path, count);
    if (!error) error = told(nl_write(&nlfuse.volume, path, strlen(path), (uint64_t)offset, bytes, count));
    if (!error) error = touch(path, false);
    return leave(error ? error : (int)count);
}

static int set_size(const char *path, off_t size, struct fuse_file_info *info) {
    struct place place;
    int error = enter_to_change(path, &place);
    (void)info;
    if (!error) error = take_room_in(path, BLOCK);
    if (!error) error = told(nl_truncate(&nlfuse.volume, path, strlen(path), (uint64_t)size));
    if (!error) error = touch(path, false);
    return leave(error);
}

/* ---- names are made and taken away */

static int made(const char *path, bool is_dir, mode_t mode) {
    struct attributes attributes = {mode & 07777, fuse_get_context()->uid, fuse_get_context()->gid, {0, 0}};
    clock_gettime(CLOCK_REALTIME, &attributes.time);
    touch_above(path);
    return set_attributes(path, is_dir, &attributes);
}

static int create_file(const char *path, mode_t mode, struct fuse_file_info *info) {
    struct place place;
    int error = enter_to_change(path, &place);
    (void)info;
    if (!error && target_at(0, path)) error = -EEXIST;
    if (!error) error = take_room_in(path, 0);
    if (!error) error = told(nl_create(&nlfuse.volume, path, strlen(path)));
    return leave(error ? error : made(path, false, mode));
}

static int make_node(const char *path, mode_t mode, dev_t device) {
    (void)device;
    return S_ISREG(mode) ? create_file(path, mode, NULL) : -EPERM;
}

static int make_snapshot(void) {
    uint64_t number;
    settle_attributes();
    int error = told(make_checkpoint(NL_SNAPSHOT, &number));
    is_now_made = !error;
    return error;
}

static int make_folder(const char *path, mode_t mode) {
    struct place place;
    int error = enter(path, &place);
    if (!error && place.kind == NOW) return leave(make_snapshot());
    if (!error && (place.kind != IN_TREE || place.at)) error = -EROFS;
    if (!error && is_hidden(&place)) error = -EPERM;
    if (!error && target_at(0, path)) error = -EEXIST;
    if (!error) error = take_room_in(path, 0);
    if (!error) error = told(nl_mkdir(&nlfuse.volume, path, strlen(path)));
    return leave(error ? error : made(path, true, mode));
}

static int make_link(const char *target, const char *path) {
    struct place place;
    nl_object object;
    int error = enter_to_change(path, &place);
    if (!error && !find_object(&place, &object)) error = -EEXIST;
    if (!error) error = take_room_for_link(path, NULL, strlen(target));
    if (!error) error = set_link(path, target);
    if (!error) touch_above(path);
    return leave(error);
}

static int remove_file(const char *path) {
    struct place place;
    int error = enter_to_change(path, &place);
    bool is_link = !error && target_at(0, path);
    if (!error) error = take_room_above(path);
    if (!error && !is_link) error = told(nl_unlink(&nlfuse.volume, path, strlen(path)));
    if (error) return leave(error);
    forget(path, false);
    manifest_gone(path);
    touch_above(path);
    return leave(0);
}

/* Takes the manifest of a directory away that has nothing else in it. */
static int empty_folder(const char *path) {
    char manifest[4200];
    nl_object object;
    if (has_links(path)) return -ENOTEMPTY;
    int error = told(nl_stat(&nlfuse.volume, 0, path, strlen(path), &object));
    if (error || object.kind != NL_DIRECTORY) return error ? error : -ENOTDIR;
    if (object.size != 1 || shows_manifest(0, path)) return object.size ? -ENOTEMPTY : 0;
    snprintf(manifest, sizeof manifest, "%s/.nlkeep", path);
    error = told(nl_unlink(&nlfuse.volume, manifest, strlen(manifest)));
    return error == -ENOENT ? -ENOTEMPTY : error;
}

static int remove_folder(const char *path) {
    struct place place;
    int error = enter(path, &place);
    if (!error && place.kind == IN_TREE && place.at && !place.path[1]) {
        nlfuse.is_unsaved = true;
        checkpoints_changed();
        return leave(told(nl_rmcp(&nlfuse.volume, place.at)));
    }
    if (!error && (place.kind != IN_TREE || place.at)) error = -EROFS;
    if (!error) error = take_room_above(path);
    if (!error) error = empty_folder(path);
    if (!error) error = told(nl_rmdir(&nlfuse.volume, path, strlen(path)));
    if (error) return leave(error);
    forget(path, true);
    manifest_gone(path);
    touch_above(path);
    return leave(0);
}

/* ---- names are given anew */

/* What stands at the new path gives way, as rename(2) has it. */
static int give_way(const char *path, const nl_object *moved, const nl_object *old) {
    if (moved->kind == NL_DIRECTORY && old->kind != NL_DIRECTORY) return -ENOTDIR;
    if (moved->kind != NL_DIRECTORY && old->kind == NL_DIRECTORY) return -EISDIR;
    if (old->kind == NL_DIRECTORY) return empty_folder(path);
    if (old->kind == NL_FILE && moved->kind == LINK)
        return told(nl_unlink(&nlfuse.volume, path, strlen(path)));
    return 0;
}

static int move_path(const char *from, const char *to, unsigned flags) {
    struct place place = {IN_TREE, 0, from}, new_place = {IN_TREE, 0, to};
    nl_object moved, old;
    int error = find_object(&place, &moved);
    bool is_there = !error && !find_object(&new_place, &old);
    if (error) return error;
    if (is_there && (flags & RENAME_NOREPLACE)) return -EEXIST;
    if (!strcmp(from, to)) return 0;
    error = take_room_for_link(from, to, moved.kind == LINK ? moved.size : 0);
    if (error) return error;
    if (is_there && (error = give_way(to, &moved, &old))) return error;
    if (moved.kind != LINK) error = told(nl_rename(&nlfuse.volume, from, strlen(from), to, strlen(to)));
    if (!error) error = move_attributes(from, to, moved.kind == NL_DIRECTORY);
    if (error) return error;
    manifest_gone(from);
    touch_above(from);
    touch_above(to);
    return 0;
}

static int rename_path(const char *from, const char *to, unsigned flags) {
    struct place place, new_place;
    if (flags & ~(unsigned)RENAME_NOREPLACE) return -EINVAL;
    int error = enter_to_change(from, &place);
    if (!error) error = place_of(to, &new_place);
    if (!error && (new_place.kind != IN_TREE || new_place.at)) error = -EROFS;
    if (!error && is_manifest_name(to)) error = -EPERM;
    return leave(error ? error : move_path(from, to, flags));
}

/* ---- modes, times and owners */

/* What the current tree tells of a path, to be changed. */
static int enter_attributes(const char *path, struct attributes *attributes, bool *is_dir) {
    struct place place;
    nl_object object;
    int error = enter_to_change(path, &place);
    if (!error) error = find_object(&place, &object);
    if (!error) error = take_room_above(path[1] ? path : "/.");
    if (error) return error;
    *is_dir = object.kind == NL_DIRECTORY;
    *attributes = attributes_at(0, path, *is_dir);
    return 0;
}

/* A link stays one: its target stands beside its attributes. */
static int change_mode(const char *path, mode_t mode, struct fuse_file_info *info) {
    struct attributes attributes;
    bool is_dir;
    int error = enter_attributes(path, &attributes, &is_dir);
    (void)info;
    attributes.mode = mode & 07777;
    return leave(error ? error : set_attributes(path, is_dir, &attributes));
}

static int change_owner(const char *path, uid_t owner, gid_t group, struct fuse_file_info *info) {
    struct attributes attributes;
    bool is_dir;
    int error = enter_attributes(path, &attributes, &is_dir);
    (void)info;
    if (owner != (uid_t)-1) attributes.owner = owner;
    if (group != (gid_t)-1) attributes.group = group;
    return leave(error ? error : set_attributes(path, is_dir, &attributes));
}

static int change_times(const char *path, const struct timespec times[2], struct fuse_file_info *info) {
    struct attributes attributes;
    bool is_dir;
    int error = enter_attributes(path, &attributes, &is_dir);
    (void)info;
    if (!times || times[1].tv_nsec == UTIME_NOW) clock_gettime(CLOCK_REALTIME, &attributes.time);
    else if (times[1].tv_nsec != UTIME_OMIT) attributes.time = times[1];
    return leave(error ? error : set_attributes(path, is_dir, &attributes));
}

/* ---- the mode of a checkpoint */

static int set_mode(const char *path, const char *name, const char *value, size_t size, int flags) {
    struct place place;
    (void)flags;
    if (!strcmp(name, MOUNT_ATTRIBUTE) && !path[1]) return note_waiter(), 0;
    if (strcmp(name, MODE_ATTRIBUTE)) return -ENOTSUP;
    int error = enter(path, &place);
    if (error) return leave(error);
    if (place.kind != IN_TREE || !place.at || place.path[1]) return leave(-ENOTSUP);
    bool is_snapshot = size == 2 && !memcmp(value, "ss", 2);
    if (!is_snapshot && (size != 2 || memcmp(value, "cp", 2))) return leave(-EINVAL);
    nlfuse.is_unsaved = true;
    return leave(told(nl_chcp(&nlfuse.volume, place.at, is_snapshot ? NL_SNAPSHOT : NL_PLAIN)));
}

static int get_mode(const char *path, const char *name, char *value, size_t size) {
    struct place place;
    nl_checkpoint row;
    if (!strcmp(name, MOUNT_ATTRIBUTE) && !path[1]) return tell_mount(value, size);
    if (strcmp(name, MODE_ATTRIBUTE)) return -ENODATA;
    int error = enter(path, &place);
    if (error) return leave(error);
    if (place.kind != IN_TREE || !place.at || place.path[1] || !row_of(place.at, &row))
        return leave(-ENODATA);
    if (size == 0) return leave(2);
    if (size < 2) return leave(-ERANGE);
    memcpy(value, row.flags & NL_SNAPSHOT ? "ss" : "cp", 2);
    return leave(2);
}

/* ---- saving */

static int sync_file(const char *path, int is_data, struct fuse_file_info *info) {
    (void)path, (void)is_data, (void)info;
    pthread_mutex_lock(&nlfuse.lock);
    return leave(sync_volume());
}

/* A name of a checkpoint may be gone, or another one be there, at the next look. */
static void *begin(struct fuse_conn_info *connection, struct fuse_config *config) {
    (void)connection;
    config->entry_timeout = config->negative_timeout = 0;
    config->attr_timeout = 1;
    nlfuse.is_mounted = true;
    start_saving();
    return NULL;
}

static void end(void *nothing) {
    (void)nothing;
    end_saving();
}

const struct fuse_operations operations = {
    .init = begin,
    .destroy = end,
    .getattr = take_stat,
    .readlink = read_link,
    .read = read_bytes,
    .readdir = read_folder,
    .statfs = tell_room,
    .open = open_file,
    .write = write_bytes,
    .truncate = set_size,
    .create = create_file,
    .mknod = make_node,
    .mkdir = make_folder,
    .symlink = make_link,
    .unlink = remove_file,
    .rmdir = remove_folder,
    .rename = rename_path,
    .chmod = change_mode,
    .chown = change_owner,
    .utimens = change_times,
    .setxattr = set_mode,
    .getxattr = get_mode,
    .fsync = sync_file,
    .fsyncdir = sync_file,
};
