/* Where the paths of the mount lead: into the current tree, or below .checkpoints into those of checkpoints.
 */
#include "nlfuse.h"

#include <errno.h>
#include <stdio.h>
#include <stdlib.h>
#include <string.h>

#define HIDDEN "/.checkpoints"
#define DATES "/by-date"

/* ---- checkpoints */

bool row_of(uint64_t number, nl_checkpoint *row) {
    uint64_t count = 0;
    uint32_t status = nl_lscp(&nlfuse.volume, NL_MINOR, number, row, 1, &count);
    return status == NL_DONE && count == 1 && row->number == number;
}

/* The kept checkpoints but for minor ones, ascending by number, and so by moment too: looked up once, and
 * again where they may have changed. */
static nl_checkpoint *rows;
static size_t row_count, row_room;
static bool rows_known;

void checkpoints_changed(void) { rows_known = false; }

static bool make_room_for_rows(void) {
    if (row_room - row_count >= 64) return true;
    nl_checkpoint *more = realloc(rows, (row_room * 2 + 64) * sizeof *rows);
    if (!more) return false;
    rows = more;
    row_room = row_room * 2 + 64;
    return true;
}

static void look_up_rows(void) {
    uint64_t count = 64, from = 0;
    if (rows_known) return;
    row_count = 0;
    while (count == 64 && make_room_for_rows()) {
        if (nl_lscp(&nlfuse.volume, NL_PLAIN, from, rows + row_count, 64, &count) != NL_DONE) return;
        row_count += count;
        if (count) from = rows[row_count - 1].number + 1;
    }
    rows_known = count < 64;
}

void each_checkpoint(void (*take)(const nl_checkpoint *row, void *with), void *with) {
    look_up_rows();
    for (size_t i = 0; i < row_count; i++) take(&rows[i], with);
}

/* ---- dates */

/* The last checkpoint of a moment has its date alone; behind that of an earlier one stands its number. */
static bool is_last(size_t i) { return i + 1 == row_count || rows[i + 1].stamp != rows[i].stamp; }

void date_name(const nl_checkpoint *row, char name[64]) {
    time_t at = (time_t)row->stamp;
    struct tm day;
    char date[32];
    if (!gmtime_r(&at, &day) || !strftime(date, sizeof date, "%Y-%m-%dT%H:%M:%SZ", &day)) *date = 0;
    if (is_last((size_t)(row - rows))) snprintf(name, 64, "%s", date);
    else snprintf(name, 64, "%s.%llu", date, (unsigned long long)row->number);
}

/* The moment is read first, so that few names are spelled out. */
static uint64_t number_of_date(const char *name) {
    struct tm day = {0};
    char spelled[64];
    look_up_rows();
    if (!strptime(name, "%Y-%m-%dT%H:%M:%SZ", &day)) return 0;
    uint64_t moment = (uint64_t)timegm(&day);
    for (size_t i = row_count; i-- > 0 && rows[i].stamp >= moment;) {
        if (rows[i].stamp != moment) continue;
        date_name(&rows[i], spelled);
        if (!strcmp(name, spelled)) return rows[i].number;
    }
    return 0;
}

/* ---- paths */

/* The number that is spelled here, with no zeros before it; 0 where there is none. */
static uint64_t spelled_number(const char *text, const char **end) {
    char *behind;
    if (*text < '1' || *text > '9') return 0;
    errno = 0;
    unsigned long long number = strtoull(text, &behind, 10);
    if (errno || (*behind && *behind != '/')) return 0;
    *end = behind;
    return number;
}

static int place_of_date(const char *name, struct place *place) {
    uint64_t number = number_of_date(name);
    if (!number) return -ENOENT;
    *place = (struct place){DATE, number, name};
    return 0;
}

/* What stands below the directory of checkpoints. */
static int place_below(const char *rest, struct place *place) {
    size_t dates = strlen(DATES);
    if (!strcmp(rest, DATES)) {
        *place = (struct place){BY_DATE, 0, rest};
        return 0;
    }
    if (!strncmp(rest, DATES, dates) && rest[dates] == '/' && !strchr(rest + dates + 1, '/'))
        return place_of_date(rest + dates + 1, place);
    if (!strcmp(rest, "/now")) {
        *place = (struct place){NOW, 0, rest};
        return 0;
    }
    const char *end = rest;
    uint64_t number = spelled_number(rest + 1, &end);
    nl_checkpoint row;
    if (!number || !row_of(number, &row)) return -ENOENT;
    *place = (struct place){IN_TREE, number, *end ? end : "/"};
    return 0;
}

int place_of(const char *path, struct place *place) {
    size_t hidden = strlen(HIDDEN);
    if (strncmp(path, HIDDEN, hidden) || (path[hidden] && path[hidden] != '/')) {
        *place = (struct place){IN_TREE, 0, path};
        return 0;
    }
    if (path[hidden]) return place_below(path + hidden, place);
    *place = (struct place){CHECKPOINTS, 0, path};
    return 0;
}
