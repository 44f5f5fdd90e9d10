/* A file, a snapshot, a change, and both texts; then the image is taken, and opened again. */
#include "nlvol.h"

#include <stdio.h>
#include <stdlib.h>
#include <string.h>

static void must(uint32_t status, const char *call) {
    if (status != NL_DONE) {
        fprintf(stderr, "%s: refused by %u\n", call, status);
        exit(1);
    }
}

static void show(nl_volume *v, uint64_t at, const char *path) {
    char text[100];
    uint64_t count;
    must(nl_read(v, at, path, strlen(path), 0, text, sizeof text, &count), "nl_read");
    printf("%llu: %.*s\n", (unsigned long long)at, (int)count, text);
}

int main(void) {
    nl_volume v = {0};
    uint64_t first, latest, size, count;
    must(nl_format(&v, 64, 64, 0), "nl_format");
    must(nl_create(&v, "/notes", 6), "nl_create");
    must(nl_write(&v, "/notes", 6, 0, "first draft", 11), "nl_write");
    must(nl_mkcp(&v, NL_SNAPSHOT, 60, &first), "nl_mkcp");
    must(nl_truncate(&v, "/notes", 6, 0), "nl_truncate");
    must(nl_write(&v, "/notes", 6, 0, "final", 5), "nl_write");
    show(&v, first, "/notes");
    show(&v, 0, "/notes");

    must(nl_sync(&v, 120, &latest), "nl_sync");
    must(nl_image(&v, &size), "nl_image");
    char *image = malloc(size);
    must(nl_image_read(&v, 0, image, size, &count), "nl_image_read"); /* refused where there was no memory */
    nl_close(&v);

    must(nl_open(&v, image, count), "nl_open");
    free(image);
    show(&v, 0, "/notes");
    nl_checkpoint rows[10];
    must(nl_lscp(&v, NL_PLAIN, 0, rows, 10, &count), "nl_lscp");
    for (uint64_t i = 0; i < count; i++)
        printf("checkpoint %llu of %llu%s\n", (unsigned long long)rows[i].number,
               (unsigned long long)rows[i].stamp, rows[i].flags & NL_SNAPSHOT ? ", a snapshot" : "");
    nl_close(&v);
    return 0;
}
