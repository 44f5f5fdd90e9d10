/* Room for what the next checkpoint will write. The volume says that it has none only when the checkpoint is
 * made; here it is said at the write. What a change adds is counted from above, on top of what the library
 * told last. Where that is more than there is room for, the library is asked anew: first for as many blocks
 * or more, which takes hardly any time, then exactly, which takes as long as a checkpoint. Where room lacks,
 * the volume grows, and then segments are cleaned. So most writes ask nothing. */
#include "nlfuse.h"

#include <errno.h>
#include <stdlib.h>
#include <string.h>

enum {
    MOST_SEGMENTS = 4096,
    /* How often it is asked exactly between two checkpoints, once the volume can't grow. Then one is made, so
     * that the next answers come fast. */
    MOST_ASKED = 32
};

/* What the library told, with what was counted since. Nothing is known before the first look, and after a
 * checkpoint. */
static nl_room_told room;
/* The number of the look, behind which all is to be counted once more. */
static uint64_t turn = 1;
static int asked;

/* ---- what a change adds */

uint64_t room_turn(void) { return turn; }

uint64_t blocks_of(uint64_t bytes) { return bytes / 1024 + bytes / 65536 + 18; }

/* The file that was written last, and the look behind which that was. */
static char *last;
static uint64_t last_turn;

/* Of a file that is written on, the inode and the nodes at the top are counted once for each look. Of data, of
 * the nodes above and of those above them a write changes two at most beside what it fills. */
static uint64_t blocks_in(const char *path, uint64_t bytes) {
    bool is_counted = last && last_turn == turn && !strcmp(last, path);
    return is_counted ? bytes / 1024 + bytes / 65536 + 6 : blocks_of(bytes) + 6;
}

static uint64_t blocks_of_change(const struct change *change) {
    uint64_t blocks = blocks_above(change->path);
    if (change->other) blocks += blocks_above(change->other);
    if (change->is_in_file) return blocks + blocks_in(change->path, change->bytes);
    return change->bytes ? blocks + blocks_of(change->bytes) : blocks;
}

static void note(const struct change *change) {
    note_above(change->path);
    if (change->other) note_above(change->other);
    if (!change->is_in_file || (last && last_turn == turn && !strcmp(last, change->path))) return;
    free(last);
    last = strdup(change->path);
    last_turn = turn;
}

/* Counts a change, where it leaves so many blocks. */
static bool take(const struct change *change, uint64_t spare) {
    uint64_t blocks = blocks_of_change(change);
    if (room.blocks + blocks + spare > room.free) return false;
    room.blocks += blocks;
    note(change);
    return true;
}

/* Asks the library, which has to know of the manifests that changed. */
static int look(bool is_exact) {
    uint32_t (*ask)(nl_volume *, nl_room_told *) = is_exact ? nl_room : nl_room_bound;
    settle_attributes();
    turn++;
    return told(ask(&nlfuse.volume, &room));
}

/* ---- how room is made */

uint64_t most_segments(uint64_t blocks) {
    uint64_t most = nlfuse.most_blocks / blocks;
    return most < MOST_SEGMENTS ? most : MOST_SEGMENTS;
}

/* How many segments the volume has after it grows once more. */
static uint64_t next_size(void) {
    nl_info_told info;
    if (nl_info(&nlfuse.volume, &info) != NL_DONE) return 0;
    uint64_t most = most_segments(info.blocks), next = info.segments * 2;
    if (next > most) next = most;
    return next > info.segments ? next : 0;
}

static bool grow(void) {
    uint64_t next = next_size();
    if (!next) return false;
    nlfuse.is_unsaved = true;
    return nl_resize(&nlfuse.volume, (uint32_t)next) == NL_DONE;
}

/* Leaves a segment clean, after its needed blocks were moved. Only where that wins half a segment it is done.
 */
static bool clean_segment(uint32_t segment, uint64_t blocks, uint64_t now) {
    nl_segment_told told;
    nl_move_told moved;
    if (nl_segment(&nlfuse.volume, segment, &told) != NL_DONE || told.state != NL_DIRTY) return false;
    if (told.needed > blocks / 2) return false;
    if (told.needed &&
        (nl_move(&nlfuse.volume, segment, (uint32_t)told.needed, now, &moved) != NL_DONE || moved.left))
        return false;
    return nl_retire(&nlfuse.volume, segment) == NL_DONE;
}

/* A round over all segments. It lets checkpoints go only by a configuration. */
static bool clean(void) {
    nl_info_told info;
    uint64_t now = (uint64_t)time(NULL), gone;
    bool is_any = false;
    checkpoints_changed();
    if (nlfuse.is_configured)
        nl_expire(&nlfuse.volume, now, nlfuse.configuration.protection_period, &gone);
    if (nl_info(&nlfuse.volume, &info) != NL_DONE) return false;
    nlfuse.is_unsaved = true;
    for (uint64_t segment = 0; segment < info.segments; segment++)
        if (clean_segment((uint32_t)segment, info.blocks, now)) is_any = true;
    return is_any;
}

/* ---- checkpoints */

uint32_t make_checkpoint(uint32_t flags, uint64_t *number) {
    uint32_t status;
    nlfuse.is_unsaved = true;
    checkpoints_changed();
    do status = nl_mkcp(&nlfuse.volume, flags, (uint64_t)time(NULL), number);
    while (status == NL_NO_SPACE && grow());
    if (status == NL_NO_SPACE && clean())
        status = nl_mkcp(&nlfuse.volume, flags, (uint64_t)time(NULL), number);
    if (status != NL_DONE) return status;
    room = (nl_room_told){0, 0};
    asked = 0;
    turn++;
    return status;
}

/* ---- what is counted */

/* Takes the room of a volume that can't grow. What a configuration lets go is older than a checkpoint that is
 * made now. */
static int take_last_room(const struct change *change) {
    nl_info_told info;
    uint64_t number;
    if (nl_info(&nlfuse.volume, &info) == NL_DONE && info.dirty) make_checkpoint(NL_PLAIN, &number);
    int error = look(true);
    if (error || take(change, 0)) return error;
    if (!clean()) return -ENOSPC;
    error = look(true);
    if (error) return error;
    return take(change, 0) ? 0 : -ENOSPC;
}

int take_room(const struct change *change) {
    if (take(change, 0)) return 0;
    do {
        int error = look(false);
        if (error || take(change, 0)) return error;
        error = look(true);
        if (error) return error;
        /* A volume that can grow does so while a part of its room is left: then the next answer is not asked
         * for before that is used up. */
        if (next_size() ? take(change, room.free / 16) : asked++ < MOST_ASKED && take(change, 0)) return 0;
    } while (grow());
    return take_last_room(change);
}

uint64_t blocks_left(void) {
    nl_room_told now;
    nl_info_told info;
    if (nl_room_bound(&nlfuse.volume, &now) != NL_DONE || nl_info(&nlfuse.volume, &info) != NL_DONE) return 0;
    uint64_t most = most_segments(info.blocks);
    uint64_t more = most > info.segments ? (most - info.segments) * (info.blocks - 1) : 0;
    return more + (now.blocks < now.free ? now.free - now.blocks : 0);
}
