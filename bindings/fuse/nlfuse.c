/* nlfuse IMAGE DIR: mounts the volume of an image at a directory. Its current tree is there, read and
 * written, and below .checkpoints the trees of its kept checkpoints. */
#include "nlfuse.h"

#include <errno.h>
#include <fcntl.h>
#include <fuse_opt.h>
#include <stddef.h>
#include <stdio.h>
#include <stdlib.h>
#include <string.h>
#include <unistd.h>

struct nlfuse nlfuse = {.lock = PTHREAD_MUTEX_INITIALIZER, .file = -1, .save_after = -1};

int told(uint32_t status) {
    static const int errors[] = {
        [NL_NOT_FOUND] = ENOENT,      [NL_NOT_DIRECTORY] = ENOTDIR, [NL_IS_DIRECTORY] = EISDIR,
        [NL_EXISTS] = EEXIST,         [NL_NOT_EMPTY] = ENOTEMPTY,   [NL_BAD_NAME] = ENAMETOOLONG,
        [NL_BAD_PATH] = ENAMETOOLONG, [NL_INTO_ITSELF] = EINVAL,    [NL_TOO_BIG] = EFBIG,
        [NL_NO_CHECKPOINT] = ENOENT,  [NL_IS_SNAPSHOT] = EBUSY,     [NL_LATEST] = EBUSY,
        [NL_NO_SPACE] = ENOSPC,       [NL_NO_MEMORY] = ENOMEM,      [NL_NUMBERS_SPENT] = ENOSPC,
    };
    uint32_t refusal = nl_refusal(status);
    if (refusal == NL_DONE) return 0;
    if (refusal >= sizeof errors / sizeof *errors || !errors[refusal]) return -EIO;
    return -errors[refusal];
}

struct words {
    char *image, *conf;
    int save, max, init, help, unmount;
};

static const struct fuse_opt options[] = {
    {"save=%d", offsetof(struct words, save), 0},
    {"conf=%s", offsetof(struct words, conf), 0},
    {"max=%d", offsetof(struct words, max), 0},
    {"init", offsetof(struct words, init), 1},
    {"-h", offsetof(struct words, help), 1},
    {"--help", offsetof(struct words, help), 1},
    {"-u", offsetof(struct words, unmount), 1},
    FUSE_OPT_END,
};

static const char help[] =
    "usage: nlfuse IMAGE DIR [-o OPTION..]\n"
    "       nlfuse -u DIR\n"
    "\n"
    "Mounts the volume of IMAGE at DIR: its current tree, and below DIR/.checkpoints the kept ones, by their\n"
    "numbers and, in by-date, by their moments. `mkdir DIR/.checkpoints/now` makes a snapshot, and\n"
    "`rmdir DIR/.checkpoints/N` removes a plain checkpoint; the attribute user.nlvol.mode of one is ss or cp,\n"
    "and can be set.\n"
    "\n"
    "IMAGE is saved by an fsync, and at the end, and by nothing else: `sync` saves nothing. `nlfuse -u DIR`\n"
    "unmounts DIR, and waits until IMAGE is saved; its status is 1 where that failed, and it says why.\n"
    "`fusermount3 -u DIR` doesn't wait. IMAGE is locked until the end. A full volume may refuse `rm` too.\n"
    "\n"
    "    -o init              makes IMAGE where there is none, for you alone\n"
    "    -o save=SECONDS      fsync returns at the checkpoint, and the image is saved within so many seconds:\n"
    "                         what was synced in these is lost if the machine stops. Else fsync saves it\n"
    "    -o conf=FILE         where room lacks, plain checkpoints are let go that are older than the\n"
    "                         protection_period of this configuration, which is one of nlvol. Else none is\n"
    "    -o max=MEGABYTES     how large the volume grows at most, 256 if it isn't told\n"
    "    -f                   stays in the foreground\n"
    "\n"
    "and the options of mount.fuse3(8).\n";

/* The first word that is no option is the image; the second one is for FUSE. */
static int take_word(void *data, const char *word, int key, struct fuse_args *left) {
    struct words *words = data;
    (void)left;
    if (key != FUSE_OPT_KEY_NONOPT || words->image) return 1;
    words->image = strdup(word);
    return 0;
}

/* ---- the configuration of cleaning */

/* All bytes of a file, which the caller frees. NULL: it can't be read. */
static char *bytes_in(const char *path, size_t *size) {
    char *bytes = NULL, *more;
    size_t count = 0, room = 0;
    FILE *file = fopen(path, "rb");
    while (file && (more = realloc(bytes, room + 4096))) {
        bytes = more;
        room += 4096;
        count += fread(bytes + count, 1, room - count, file);
        if (count < room) break;
    }
    bool is_whole = file && feof(file) && !ferror(file);
    if (file) fclose(file);
    if (!is_whole) free(bytes), bytes = NULL;
    *size = count;
    return bytes;
}

static bool read_configuration(const char *path) {
    size_t size;
    uint64_t line = 0;
    char *bytes = bytes_in(path, &size);
    if (!bytes) return fprintf(stderr, "nlfuse: %s: cannot be read\n", path), false;
    uint32_t status = nl_config(bytes, size, &nlfuse.configuration, &line);
    free(bytes);
    nlfuse.is_configured = status == NL_DONE;
    if (status == NL_BAD_CONFIG)
        fprintf(stderr, "nlfuse: %s: line %llu is none of a configuration\n", path, (unsigned long long)line);
    else if (status != NL_DONE) fprintf(stderr, "nlfuse: %s: %s\n", path, strerror(ENOMEM));
    return nlfuse.is_configured;
}

/* Opens /dev/null in the place of each standard stream that is closed: else the image would get its number, and what
 * is printed. */
static bool take_streams(void) {
    int file;
    do file = open("/dev/null", O_RDWR);
    while (file >= 0 && file <= STDERR_FILENO);
    if (file >= 0) close(file);
    return file >= 0;
}

int main(int argc, char **argv) {
    if (!take_streams()) return perror("nlfuse: /dev/null"), 1;
    struct fuse_args args = FUSE_ARGS_INIT(argc, argv);
    struct words words = {.save = -1, .max = 256};
    if (fuse_opt_parse(&args, &words, options, take_word)) return 2;
    if (words.help || !words.image) {
        fputs(help, words.help ? stdout : stderr);
        return words.help ? 0 : 2;
    }
    if (words.unmount) return unmount_and_wait(words.image);
    nlfuse.save_after = words.save;
    nlfuse.makes_image = words.init;
    nlfuse.most_blocks = words.max > 0 && words.max < 256 ? (uint64_t)words.max * 1024 : MOST_BLOCKS;
    nlfuse.owner = getuid();
    nlfuse.group = getgid();
    clock_gettime(CLOCK_REALTIME, &nlfuse.began);
    if (words.conf && !read_configuration(words.conf)) return 1;
    if (!open_image(words.image)) return 1;
    fuse_opt_add_arg(&args, "-odefault_permissions,fsname=nlvol,subtype=nlfuse");
    int status = fuse_main(args.argc, args.argv, &operations, NULL);
    int error = close_image();
    status = status ? status : error ? 1 : 0;
    leave_status(status);
    return status;
}
