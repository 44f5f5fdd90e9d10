/* What the parts of nlfuse share. All of them run under one lock, which files.c takes. */
#ifndef NLFUSE_H
#define NLFUSE_H

#define _GNU_SOURCE
#define FUSE_USE_VERSION 314

#include "nlvol.h"

#include <fuse.h>
#include <pthread.h>
#include <stdbool.h>
#include <sys/stat.h>
#include <time.h>

/* How many blocks a volume has at most. */
enum { MOST_BLOCKS = 262144 };

/* ---- the volume, and what the mount was told at its start */

struct nlfuse {
    nl_volume volume;
    pthread_mutex_t lock;
    /* The image: where it stands, and the file that holds its lock, or -1 where it is to be a new one. */
    char *image;
    int file;
    /* With `-o save=SECONDS`: how long a save may wait. -1: not at all. */
    int save_after;
    /* With `-o conf=FILE`: by what a round of cleaning lets plain checkpoints go. Else it lets none go. */
    bool is_configured;
    nl_config_told configuration;
    bool makes_image;
    /* With `-o max=MEGABYTES`: how many blocks the volume has at most. */
    uint64_t most_blocks;
    /* Whether the volume differs from the image in the file. */
    bool is_unsaved;
    /* Whether the image was made at the start, and whether the mount came to be. */
    bool is_new, is_mounted;
    /* What was said last: in the end that is why the image was not saved. */
    char said[4400];
    /* Who the files belong to of which no manifest tells, and when they were changed. */
    uid_t owner;
    gid_t group;
    struct timespec began;
};

extern struct nlfuse nlfuse;

/* The errno of POSIX that is like a refusal, negated as FUSE has it. */
int told(uint32_t status);

/* ---- saving.c */

/* Says something of the image, on standard error and in the system's log; with an errno, or 0. */
void say(const char *what, int error);
/* Opens the image and takes its lock, or makes a new one. False: it can't be, and that is told. */
bool open_image(const char *path);
/* Saves what is not saved, gives the lock back, and closes the volume. 0, or an errno, negated. A new image
 * is taken away again where nothing was mounted. */
int close_image(void);
/* How long an image of the counts in its first block is. 0: these are of none. */
uint64_t due_length(const uint8_t *first);
/* Makes a checkpoint of what has changed, and saves it: at once, or in so many seconds. */
int sync_volume(void);
void start_saving(void);
void end_saving(void);

/* ---- sides.c */

/* The path of a file beside an image, by what it is. */
void path_beside(char *path, size_t room, const char *image, const char *what);
/* Makes a new file beside the image, for its owner alone, with the lock where the system has locks. Its path
 * is told. -1: it can't be, and errno says why. */
int make_side(char *side, size_t room);
/* The same under the first free name that says it is kept, beside the path of an image. */
int make_kept(const char *image, char *kept, size_t room);
/* Takes away what saves that were cut off have left, while the image's lock is held. */
void clear_sides(void);
/* Gives a file another name, if nothing stands there. */
bool give_name(const char *side, const char *name);
/* Gives a new image a name that says it is kept, if it has none yet, and says so. */
void keep_side(const char *side, bool is_kept);
/* Stores the folder of the image, so that names that were given there outlast a power cut. */
void store_folder(void);

/* ---- ending.c */

/* What the mount tells of itself: its process and its image. */
#define MOUNT_ATTRIBUTE "user.nlvol.mount"
int tell_mount(char *value, size_t size);
/* Somebody waits for the end of the mount, and how that went is to be left for them. */
void note_waiter(void);
/* Leaves it, once the image's lock is given back. */
void leave_status(int status);
/* Unmounts a directory and waits until its image is saved: nlfuse -u. The exit status. */
int unmount_and_wait(const char *directory);

/* ---- room.c */

/* A change of the current tree: the path by which a name is made, changed or taken away, and of a rename the
 * other one; and how many bytes are written, into the file at the path or into the manifest above it. */
struct change {
    const char *path, *other;
    uint64_t bytes;
    bool is_in_file;
};

/* Counts a change to the next checkpoint, and makes room for it. 0, or an errno, negated: -ENOSPC. */
int take_room(const struct change *change);
/* How many blocks may be written still. */
uint64_t blocks_left(void);
/* How many segments of so many blocks the volume has at most. */
uint64_t most_segments(uint64_t blocks);
/* How many blocks so many bytes take at most that are written anew: of each its own, and of some their node;
 * the inode and the nodes above. */
uint64_t blocks_of(uint64_t bytes);
/* A number that changes where all is to be counted anew. */
uint64_t room_turn(void);
/* Makes a checkpoint. */
uint32_t make_checkpoint(uint32_t flags, uint64_t *number);

/* ---- places.c */

enum kind { IN_TREE, CHECKPOINTS, BY_DATE, DATE, NOW };

/* Where a path of the mount leads: into a tree, 0 for the current one, or to what tells of checkpoints. */
struct place {
    enum kind kind;
    uint64_t at;
    const char *path;
};

int place_of(const char *path, struct place *place);
bool row_of(uint64_t number, nl_checkpoint *row);
/* Gives each kept checkpoint to a function, but for minor ones. */
void each_checkpoint(void (*take)(const nl_checkpoint *row, void *with), void *with);
/* Says that there may be others. */
void checkpoints_changed(void);
/* The name of one that was given so, in by-date. */
void date_name(const nl_checkpoint *row, char name[64]);

/* ---- attributes.c */

struct attributes {
    mode_t mode;
    uid_t owner;
    gid_t group;
    struct timespec time;
};

/* What a tree tells of a path, or what is told where it tells nothing. */
struct attributes attributes_at(uint64_t at, const char *path, bool is_dir);
/* The target of a symbolic link, or NULL where none stands there. */
const char *target_at(uint64_t at, const char *path);
/* Gives each link right in a directory to a function. */
void each_link(uint64_t at, const char *path, void (*take)(const char *name, void *with), void *with);
bool has_links(const char *path);
/* Whether the file .nlkeep of a directory is no manifest, and so is shown. */
bool shows_manifest(uint64_t at, const char *path);
/* Changes what the current tree tells. Each answers 0, or an errno, negated. */
int set_attributes(const char *path, bool is_dir, const struct attributes *attributes);
int set_link(const char *path, const char *target);
int touch(const char *path, bool is_dir);
void forget(const char *path, bool is_dir);
int move_attributes(const char *from, const char *to, bool is_dir);
/* Writes the manifests that have changed into the volume. What one that can't be written tells is left out,
 * and that is said. */
void settle_attributes(void);
/* Notes that the file or directory .nlkeep at a path, which was no manifest, is there no more. */
void manifest_gone(const char *path);
/* How many blocks a change of a name adds at most in the directory above it and in that one's manifest, and
 * that they are counted. */
uint64_t blocks_above(const char *path);
void note_above(const char *path);
/* Whether a name is that of manifests, which the mount doesn't show. */
bool is_manifest_name(const char *path);

/* ---- files.c */

extern const struct fuse_operations operations;

#endif
