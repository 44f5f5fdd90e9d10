/* nlvol for C: a file system with continuous snapshots, in memory, opened from and saved as bytes.
 *
 * Link with out/libnlvol.a or out/libnlvol.so (bin/library builds both). docs/LIBRARY.md has an example.
 *
 * What you keep to. A handle is an nl_volume that begins with all bytes zero, as in `nl_volume v = {0}`;
 * change nothing in it, don't copy it to use both, and close it in the end. It may move to another thread,
 * but only one call at a time may use it: hold a lock of your own. Each pointer that is not NULL leads to as
 * many bytes or rows as the length beside it says, no two of them overlap, and none leads into the handle.
 * malloc and free are those of one allocator, and no call comes from a signal handler. The calls keep to the
 * rest: whatever the bytes and numbers are, none aborts, and each ends.
 *
 * What you get. Each call but nl_version, nl_close and nl_release answers a status: NL_DONE, or why it is
 * refused. Where it is refused, the volume and what your pointers lead to are as they were, but for the line
 * that nl_config tells. NULL may stand
 * for no bytes; where its length is above 0, the call is refused by NL_WRONG_ARGUMENT, and where the place of
 * a result is NULL as well. Paths are bytes with a length: they begin with '/', and have no '.' and '..'.
 * Moments are whole seconds. `at` is 0 for the current tree, or the number of a kept checkpoint. */
#ifndef NLVOL_H
#define NLVOL_H

#include <stddef.h>
#include <stdint.h>

#ifdef __cplusplus
extern "C" {
#endif

/* ---- what is told */

/* A status of 27 and less is the number of a refusal. NL_BAD_IMAGE has 256 times the condition above it. */
enum {
    NL_DONE = 0,
    NL_NOT_FOUND = 1, /* there is nothing at this path */
    NL_NOT_DIRECTORY = 2,
    NL_IS_DIRECTORY = 3,
    NL_EXISTS = 4,         /* there is something at this path */
    NL_NOT_EMPTY = 5,      /* the directory has names */
    NL_BAD_NAME = 6,       /* a part of the path is no name */
    NL_BAD_PATH = 7,       /* this is no path, or not one that the call takes */
    NL_INTO_ITSELF = 8,    /* a directory can't go below itself */
    NL_TOO_BIG = 9,        /* a limit on sizes would be passed */
    NL_NO_CHECKPOINT = 10, /* this checkpoint is not kept */
    NL_IS_SNAPSHOT = 11,
    NL_NOT_SNAPSHOT = 12,
    NL_MOUNTED = 13,
    NL_LATEST = 14,    /* the latest checkpoint stays */
    NL_BAD_RANGE = 15, /* a number is out of range */
    NL_NO_SPACE = 16,
    NL_FAULT = 17, /* the device failed; one in memory never does */
    NL_NO_MEMORY = 18,
    NL_BAD_MOUNT = 19,
    NL_SEGMENT_ACTIVE = 20, /* the segment is being written */
    NL_SEGMENT_CLEAN = 21,
    NL_STILL_NEEDED = 22, /* the segment holds a needed block */
    NL_SEGMENT_ERROR = 23,
    NL_BAD_IMAGE = 24, /* the bytes are no image: nl_condition says which condition they fail first */
    NL_NUMBERS_SPENT = 25,
    NL_BAD_GEOMETRY = 26, /* no volume has this geometry */
    NL_BAD_CONFIG = 27,
    NL_CLOSED = 64,         /* the handle is closed */
    NL_WRONG_ARGUMENT = 65, /* a flag or an index is none, or a pointer is NULL */
    NL_UNSETTLED = 66       /* the current tree may differ from the latest checkpoint */
};

static inline uint32_t nl_refusal(uint32_t status) { return status & 255; }
static inline uint32_t nl_condition(uint32_t status) { return status >> 8; }

typedef struct {
    void *at;
    uint8_t is_open;
} nl_volume;

enum { NL_FILE = 0, NL_DIRECTORY = 1 };

/* The size of a file in bytes, or how many names a directory has; of nl_name, the length of the name. */
typedef struct {
    uint64_t kind;
    uint64_t size;
} nl_object;

enum { NL_PLAIN = 0, NL_SNAPSHOT = 1, NL_MINOR = 2 };

/* `flags` has NL_SNAPSHOT, and NL_MINOR for a checkpoint that the volume made by itself. */
typedef struct {
    uint64_t number;
    uint64_t stamp;
    uint64_t inodes;
    uint64_t flags;
} nl_checkpoint;

typedef struct {
    uint64_t removed;
    uint64_t stayed;
} nl_range;

typedef struct {
    uint64_t segments;
    uint64_t blocks; /* of a segment, 1024 bytes each */
    uint64_t clean;
    uint64_t checkpoints;
    uint64_t snapshots;
    uint64_t latest;
    uint64_t dirty; /* 1 where the current tree may differ from the latest checkpoint */
} nl_info_told;

enum { NL_CLEAN = 0, NL_DIRTY = 1, NL_ACTIVE = 2, NL_ERROR = 3 };

typedef struct {
    uint64_t state;
    uint64_t stamp;
    uint64_t used;
    uint64_t needed;
} nl_segment_told;

typedef struct {
    uint64_t moved;
    uint64_t left;
} nl_move_told;

/* How many blocks a checkpoint writes, and how many it has room for. */
typedef struct {
    uint64_t blocks;
    uint64_t free;
} nl_room_told;

/* So many segments or blocks; or where `is_percent` is 1, so many hundredths of them. */
typedef struct {
    uint64_t number;
    uint64_t is_percent;
} nl_amount;

/* What a configuration of cleaning sets, under the names of nilfs_cleanerd.conf(5). The period is in seconds.
 */
typedef struct {
    uint64_t protection_period;
    nl_amount min_clean_segments;
    nl_amount max_clean_segments;
    uint64_t nsegments_per_clean;
    uint64_t mc_nsegments_per_clean;
    nl_amount min_reclaimable_blocks;
    nl_amount mc_min_reclaimable_blocks;
} nl_config_told;

/* The twelve bits of chmod(2), the owners, and the time of the last change: seconds that count from 1970, or
 * back from it where `is_negative` is 1, and what comes to them. */
typedef struct {
    uint64_t mode;
    uint64_t owner;
    uint64_t group;
    uint64_t is_negative;
    uint64_t seconds;
    uint64_t nanoseconds;
} nl_attributes;

/* A file has a target of 0 bytes, and a symbolic link one of some. */
typedef struct {
    uint64_t name_size;
    uint64_t target_size;
    nl_attributes attributes;
} nl_line;

/* ---- what the library exports. It trusts its pointers: the calls below look at them first. */

uint32_t nlvol_version(void);
uint32_t nlvol_format(nl_volume *, uint32_t segments, uint32_t blocks, uint64_t moment);
uint32_t nlvol_open(nl_volume *, const uint8_t *image, size_t length);
void nlvol_close(nl_volume *);
uint32_t nlvol_image(nl_volume *, uint64_t *size);
uint32_t nlvol_image_read(nl_volume *, uint64_t offset, uint8_t *into, size_t room, uint64_t *count);
void nlvol_release(nl_volume *);
uint32_t nlvol_create(nl_volume *, const uint8_t *path, size_t length);
uint32_t nlvol_mkdir(nl_volume *, const uint8_t *path, size_t length);
uint32_t nlvol_unlink(nl_volume *, const uint8_t *path, size_t length);
uint32_t nlvol_rmdir(nl_volume *, const uint8_t *path, size_t length);
uint32_t nlvol_rename(nl_volume *, const uint8_t *from, size_t from_length, const uint8_t *to,
                      size_t to_length);
uint32_t nlvol_truncate(nl_volume *, const uint8_t *path, size_t length, uint64_t size);
uint32_t nlvol_write(nl_volume *, const uint8_t *path, size_t length, uint64_t offset, const uint8_t *bytes,
                     size_t count);
uint32_t nlvol_read(nl_volume *, uint64_t at, const uint8_t *path, size_t length, uint64_t offset,
                    uint8_t *into, size_t room, uint64_t *count);
uint32_t nlvol_stat(nl_volume *, uint64_t at, const uint8_t *path, size_t length, nl_object *object);
uint32_t nlvol_list(nl_volume *, uint64_t at, const uint8_t *path, size_t length, uint64_t *count);
uint32_t nlvol_name(nl_volume *, uint64_t index, uint8_t *into, size_t room, nl_object *object);
uint32_t nlvol_mkcp(nl_volume *, uint32_t flags, uint64_t moment, uint64_t *number);
uint32_t nlvol_sync(nl_volume *, uint64_t moment, uint64_t *number);
uint32_t nlvol_chcp(nl_volume *, uint64_t number, uint32_t flags);
uint32_t nlvol_rmcp(nl_volume *, uint64_t number);
uint32_t nlvol_rmcp_range(nl_volume *, uint64_t first, uint64_t last, nl_range *range);
uint32_t nlvol_expire(nl_volume *, uint64_t moment, uint64_t period, uint64_t *count);
uint32_t nlvol_lscp(nl_volume *, uint32_t flags, uint64_t from, nl_checkpoint *rows, size_t room,
                    uint64_t *count);
uint32_t nlvol_info(nl_volume *, nl_info_told *info);
uint32_t nlvol_segment(nl_volume *, uint32_t segment, nl_segment_told *told);
uint32_t nlvol_resize(nl_volume *, uint32_t segments);
uint32_t nlvol_move(nl_volume *, uint32_t segment, uint32_t limit, uint64_t moment, nl_move_told *told);
uint32_t nlvol_retire(nl_volume *, uint32_t segment);
uint32_t nlvol_room(nl_volume *, nl_room_told *room);
uint32_t nlvol_room_bound(nl_volume *, nl_room_told *room);
uint32_t nlvol_config(const uint8_t *text, size_t length, nl_config_told *config, uint64_t *line);
uint32_t nlvol_manifest_read(nl_volume *, const uint8_t *bytes, size_t length, nl_attributes *own,
                             uint64_t *count);
uint32_t nlvol_manifest_line(nl_volume *, uint64_t index, uint8_t *name, size_t name_room, uint8_t *target,
                             size_t target_room, nl_line *line);
uint32_t nlvol_manifest_begin(nl_volume *, const nl_attributes *own);
uint32_t nlvol_manifest_add(nl_volume *, const uint8_t *name, size_t length, const uint8_t *target,
                            size_t target_length, const nl_attributes *attributes);
uint32_t nlvol_manifest_bytes(nl_volume *, uint64_t *size);

/* ---- what is looked at before that */

static inline const uint8_t *nl_bytes(const void *bytes) {
    return bytes ? (const uint8_t *)bytes : (const uint8_t *)"";
}

#define NL_REFUSE_CLOSED(v)                                                                                  \
    if (!(v)) return NL_CLOSED
#define NL_REFUSE_NULL(pointer)                                                                              \
    if (!(pointer)) return NL_WRONG_ARGUMENT
#define NL_REFUSE_MISSING(bytes, length)                                                                     \
    if (!(bytes) && (length) > 0) return NL_WRONG_ARGUMENT

/* ---- a handle and its volume */

/* 65536 times the first number of the version, 256 times the second, and the third. */
static inline uint32_t nl_version(void) { return nlvol_version(); }

/* A new volume of 8 to 4096 segments with 4 to 2048 blocks of 1024 bytes each, 262144 in all, and checkpoint
 * 1 of the root alone. What the handle led to before is closed. */
static inline uint32_t nl_format(nl_volume *v, uint32_t segments, uint32_t blocks, uint64_t moment) {
    NL_REFUSE_CLOSED(v);
    return nlvol_format(v, segments, blocks, moment);
}

/* The volume of an image. What the handle led to before is closed. */
static inline uint32_t nl_open(nl_volume *v, const void *image, size_t length) {
    NL_REFUSE_CLOSED(v);
    NL_REFUSE_MISSING(image, length);
    return nlvol_open(v, nl_bytes(image), length);
}

/* Frees the volume. A closed handle stays closed. */
static inline void nl_close(nl_volume *v) {
    if (v) nlvol_close(v);
}

/* Leaves the image for nl_image_read, and tells its size. The volume stays as it is. By NL_UNSETTLED: call
 * nl_sync first. */
static inline uint32_t nl_image(nl_volume *v, uint64_t *size) {
    NL_REFUSE_CLOSED(v);
    NL_REFUSE_NULL(size);
    return nlvol_image(v, size);
}

/* Bytes of the last image, or manifest, from an offset on: as many as there are and as there is room for. */
static inline uint32_t nl_image_read(nl_volume *v, uint64_t offset, void *into, size_t room,
                                     uint64_t *count) {
    NL_REFUSE_CLOSED(v);
    NL_REFUSE_MISSING(into, room);
    NL_REFUSE_NULL(count);
    uint8_t none;
    return nlvol_image_read(v, offset, into ? (uint8_t *)into : &none, room, count);
}

/* Frees what nl_image, nl_list and the calls on manifests left. */
static inline void nl_release(nl_volume *v) {
    if (v) nlvol_release(v);
}

/* ---- the current tree is changed */

static inline uint32_t nl_create(nl_volume *v, const void *path, size_t length) {
    NL_REFUSE_CLOSED(v);
    NL_REFUSE_MISSING(path, length);
    return nlvol_create(v, nl_bytes(path), length);
}

static inline uint32_t nl_mkdir(nl_volume *v, const void *path, size_t length) {
    NL_REFUSE_CLOSED(v);
    NL_REFUSE_MISSING(path, length);
    return nlvol_mkdir(v, nl_bytes(path), length);
}

/* A file. */
static inline uint32_t nl_unlink(nl_volume *v, const void *path, size_t length) {
    NL_REFUSE_CLOSED(v);
    NL_REFUSE_MISSING(path, length);
    return nlvol_unlink(v, nl_bytes(path), length);
}

/* An empty directory. */
static inline uint32_t nl_rmdir(nl_volume *v, const void *path, size_t length) {
    NL_REFUSE_CLOSED(v);
    NL_REFUSE_MISSING(path, length);
    return nlvol_rmdir(v, nl_bytes(path), length);
}

/* As POSIX's rename: a file takes the place of a file, a directory that of an empty one. */
static inline uint32_t nl_rename(nl_volume *v, const void *from, size_t from_length, const void *to,
                                 size_t to_length) {
    NL_REFUSE_CLOSED(v);
    NL_REFUSE_MISSING(from, from_length);
    NL_REFUSE_MISSING(to, to_length);
    return nlvol_rename(v, nl_bytes(from), from_length, nl_bytes(to), to_length);
}

/* Where the size is past the end, zeros stand between. A file has at most 67108864 bytes. */
static inline uint32_t nl_truncate(nl_volume *v, const void *path, size_t length, uint64_t size) {
    NL_REFUSE_CLOSED(v);
    NL_REFUSE_MISSING(path, length);
    return nlvol_truncate(v, nl_bytes(path), length, size);
}

/* All bytes are written, or none. */
static inline uint32_t nl_write(nl_volume *v, const void *path, size_t length, uint64_t offset,
                                const void *bytes, size_t count) {
    NL_REFUSE_CLOSED(v);
    NL_REFUSE_MISSING(path, length);
    NL_REFUSE_MISSING(bytes, count);
    return nlvol_write(v, nl_bytes(path), length, offset, nl_bytes(bytes), count);
}

/* ---- a tree is read: the current one at 0, else that of a kept checkpoint */

/* As many bytes as there are and as there is room for. */
static inline uint32_t nl_read(nl_volume *v, uint64_t at, const void *path, size_t length, uint64_t offset,
                               void *into, size_t room, uint64_t *count) {
    NL_REFUSE_CLOSED(v);
    NL_REFUSE_MISSING(path, length);
    NL_REFUSE_MISSING(into, room);
    NL_REFUSE_NULL(count);
    uint8_t none;
    return nlvol_read(v, at, nl_bytes(path), length, offset, into ? (uint8_t *)into : &none, room, count);
}

static inline uint32_t nl_stat(nl_volume *v, uint64_t at, const void *path, size_t length, nl_object *object) {
    NL_REFUSE_CLOSED(v);
    NL_REFUSE_MISSING(path, length);
    NL_REFUSE_NULL(object);
    return nlvol_stat(v, at, nl_bytes(path), length, object);
}

/* Leaves the names of a directory for nl_name, ascending by bytes, and tells how many. */
static inline uint32_t nl_list(nl_volume *v, uint64_t at, const void *path, size_t length, uint64_t *count) {
    NL_REFUSE_CLOSED(v);
    NL_REFUSE_MISSING(path, length);
    NL_REFUSE_NULL(count);
    return nlvol_list(v, at, nl_bytes(path), length, count);
}

/* A name of the last list, from 0, with no zero behind it. It has at most 255 bytes. */
static inline uint32_t nl_name(nl_volume *v, uint64_t index, void *into, size_t room, nl_object *object) {
    NL_REFUSE_CLOSED(v);
    NL_REFUSE_MISSING(into, room);
    NL_REFUSE_NULL(object);
    uint8_t none;
    return nlvol_name(v, index, into ? (uint8_t *)into : &none, room, object);
}

/* ---- checkpoints */

/* By NL_PLAIN or NL_SNAPSHOT, be something changed or not. Tells its number. */
static inline uint32_t nl_mkcp(nl_volume *v, uint32_t flags, uint64_t moment, uint64_t *number) {
    NL_REFUSE_CLOSED(v);
    NL_REFUSE_NULL(number);
    return nlvol_mkcp(v, flags, moment, number);
}

/* A plain one where the current tree may differ from the latest one. Tells the latest one's number. */
static inline uint32_t nl_sync(nl_volume *v, uint64_t moment, uint64_t *number) {
    NL_REFUSE_CLOSED(v);
    NL_REFUSE_NULL(number);
    return nlvol_sync(v, moment, number);
}

/* Gives a checkpoint a mode: NL_PLAIN or NL_SNAPSHOT. */
static inline uint32_t nl_chcp(nl_volume *v, uint64_t number, uint32_t flags) {
    NL_REFUSE_CLOSED(v);
    return nlvol_chcp(v, number, flags);
}

/* A plain checkpoint that is not the latest one. */
static inline uint32_t nl_rmcp(nl_volume *v, uint64_t number) {
    NL_REFUSE_CLOSED(v);
    return nlvol_rmcp(v, number);
}

/* From a first number to a last one; snapshots and the latest checkpoint stay. */
static inline uint32_t nl_rmcp_range(nl_volume *v, uint64_t first, uint64_t last, nl_range *range) {
    NL_REFUSE_CLOSED(v);
    NL_REFUSE_NULL(range);
    return nlvol_rmcp_range(v, first, last, range);
}

/* The plain checkpoints that a period before the moment no longer protects. Tells how many are removed. */
static inline uint32_t nl_expire(nl_volume *v, uint64_t moment, uint64_t period, uint64_t *count) {
    NL_REFUSE_CLOSED(v);
    NL_REFUSE_NULL(count);
    return nlvol_expire(v, moment, period, count);
}

/* Kept checkpoints from a number on, ascending: as many as there are and as there is room for. NL_SNAPSHOT
 * shows snapshots alone, NL_MINOR those too that the volume made by itself. */
static inline uint32_t nl_lscp(nl_volume *v, uint32_t flags, uint64_t from, nl_checkpoint *rows, size_t room,
                               uint64_t *count) {
    NL_REFUSE_CLOSED(v);
    NL_REFUSE_MISSING(rows, room);
    NL_REFUSE_NULL(count);
    nl_checkpoint none;
    return nlvol_lscp(v, flags, from, rows ? rows : &none, room, count);
}

/* ---- segments */

static inline uint32_t nl_info(nl_volume *v, nl_info_told *info) {
    NL_REFUSE_CLOSED(v);
    NL_REFUSE_NULL(info);
    return nlvol_info(v, info);
}

static inline uint32_t nl_segment(nl_volume *v, uint32_t segment, nl_segment_told *told) {
    NL_REFUSE_CLOSED(v);
    NL_REFUSE_NULL(told);
    return nlvol_segment(v, segment, told);
}

/* Makes the volume one of so many segments. It never shrinks. */
static inline uint32_t nl_resize(nl_volume *v, uint32_t segments) {
    NL_REFUSE_CLOSED(v);
    return nlvol_resize(v, segments);
}

/* Moves the first so many needed blocks of a segment elsewhere. Where there are any, the latest checkpoint is
 * kept once more, as a minor one. */
static inline uint32_t nl_move(nl_volume *v, uint32_t segment, uint32_t limit, uint64_t moment,
                               nl_move_told *told) {
    NL_REFUSE_CLOSED(v);
    NL_REFUSE_NULL(told);
    return nlvol_move(v, segment, limit, moment, told);
}

/* Leaves a segment clean in which no block is needed. */
static inline uint32_t nl_retire(nl_volume *v, uint32_t segment) {
    NL_REFUSE_CLOSED(v);
    return nlvol_retire(v, segment);
}

/* ---- room */

/* How many blocks the next checkpoint writes, and how many it has room for: where these are fewer, and only
 * there, it is refused by NL_NO_SPACE. This takes as long as the checkpoint without its writes. */
static inline uint32_t nl_room(nl_volume *v, nl_room_told *room) {
    NL_REFUSE_CLOSED(v);
    NL_REFUSE_NULL(room);
    return nlvol_room(v, room);
}

/* As many blocks as it writes, or more, which takes no memory and hardly any time: so ask nl_room only where
 * these are more than there is room for. */
static inline uint32_t nl_room_bound(nl_volume *v, nl_room_told *room) {
    NL_REFUSE_CLOSED(v);
    NL_REFUSE_NULL(room);
    return nlvol_room_bound(v, room);
}

/* ---- configurations of cleaning */

/* Reads one, in the language of nilfs_cleanerd.conf(5), which `nlvol --conf` reads too. By NL_BAD_CONFIG:
 * then `line` alone is told, the number of the first line that can't be read, from 1. Else it is 0. */
static inline uint32_t nl_config(const void *text, size_t length, nl_config_told *config, uint64_t *line) {
    NL_REFUSE_MISSING(text, length);
    NL_REFUSE_NULL(config);
    NL_REFUSE_NULL(line);
    return nlvol_config(nl_bytes(text), length, config, line);
}

/* ---- manifests: the modes, times, owners and symbolic links of a directory, which nlkeep keeps in its file
 * .nlkeep. One is in the handle: the one that was read last, or that is being made. The volume isn't asked.
 */

/* Reads one, and tells the attributes of the directory and how many lines there are. By NL_WRONG_ARGUMENT: it
 * is none. */
static inline uint32_t nl_manifest_read(nl_volume *v, const void *bytes, size_t length, nl_attributes *own,
                                        uint64_t *count) {
    NL_REFUSE_CLOSED(v);
    NL_REFUSE_MISSING(bytes, length);
    NL_REFUSE_NULL(own);
    NL_REFUSE_NULL(count);
    return nlvol_manifest_read(v, nl_bytes(bytes), length, own, count);
}

/* The line at a place, from 0: as many bytes of the name and of the target as there is room for. */
static inline uint32_t nl_manifest_line(nl_volume *v, uint64_t index, void *name, size_t name_room,
                                        void *target, size_t target_room, nl_line *line) {
    NL_REFUSE_CLOSED(v);
    NL_REFUSE_MISSING(name, name_room);
    NL_REFUSE_MISSING(target, target_room);
    NL_REFUSE_NULL(line);
    uint8_t none[2];
    return nlvol_manifest_line(v, index, name ? (uint8_t *)name : none, name_room,
                               target ? (uint8_t *)target : none + 1, target_room, line);
}

/* Begins one, of a directory with these attributes. */
static inline uint32_t nl_manifest_begin(nl_volume *v, const nl_attributes *own) {
    NL_REFUSE_CLOSED(v);
    NL_REFUSE_NULL(own);
    return nlvol_manifest_begin(v, own);
}

/* Adds a file, or a link if there is a target. The names ascend by bytes. */
static inline uint32_t nl_manifest_add(nl_volume *v, const void *name, size_t length, const void *target,
                                       size_t target_length, const nl_attributes *attributes) {
    NL_REFUSE_CLOSED(v);
    NL_REFUSE_MISSING(name, length);
    NL_REFUSE_MISSING(target, target_length);
    NL_REFUSE_NULL(attributes);
    return nlvol_manifest_add(v, nl_bytes(name), length, nl_bytes(target), target_length, attributes);
}

/* Leaves its bytes for nl_image_read, and tells how many. By NL_WRONG_ARGUMENT: its names don't ascend, or a
 * name or a target can't be one. */
static inline uint32_t nl_manifest_bytes(nl_volume *v, uint64_t *size) {
    NL_REFUSE_CLOSED(v);
    NL_REFUSE_NULL(size);
    return nlvol_manifest_bytes(v, size);
}

#undef NL_REFUSE_CLOSED
#undef NL_REFUSE_NULL
#undef NL_REFUSE_MISSING

#ifdef __cplusplus
}
#endif
#endif
