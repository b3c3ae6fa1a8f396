/* A resident host in C: one pair of buffers, lent for every request and never cleared.
 *
 *     tools/build library
 *     cc -O2 -std=c11 -Wall -Iinclude examples/host.c target/staticlib/libchecker.a -o target/host
 *     (cat examples/zcb.txt; echo make,0) > target/zcb.request
 *     target/host target/zcb.request target/zcb.request
 *
 * Each argument names a file that holds one request.
 */
#include <stdio.h>

#include "hurkoxel.h"

/* One byte more than a request may have, so that one that is too long is seen to be so. */
static uint8_t request[HURKOXEL_REQUEST_BYTES + 1];
static hurkoxel_row rows[HURKOXEL_ALL_ROWS];
static uint8_t text[HURKOXEL_TEXT_BYTES];

/* The count of bytes that the file holds, or that there is room for; -1 if it cannot be read. */
static long load(const char *name)
{
    FILE *file = fopen(name, "rb");
    if (file == NULL)
        return -1;
    size_t length = fread(request, 1, sizeof request, file);
    int failed = ferror(file);
    fclose(file);
    return failed ? -1 : (long)length;
}

/* The rows of each participant for whom `makeall` found some; those of `make` and `check` stand from 0 on. */
static void report_rows(void)
{
    for (size_t first = 0; first < HURKOXEL_ALL_ROWS; first += HURKOXEL_ROWS) {
        /* A rank is at least 1, so the first row of zeros ends the rows. */
        size_t count = 0;
        while (count < HURKOXEL_ROWS && rows[first + count].rank != 0)
            count++;
        if (count > 0) {
            hurkoxel_row last = rows[first + count - 1];
            printf("rows from %zu on: %zu, the last is %zu,%zu,%zu\n", first, count,
                   last.node, last.branch, last.rank);
        }
    }
}

static void answer(const char *name, size_t length)
{
    hurkoxel_reply reply = hurkoxel_judge(request, length, rows, HURKOXEL_ALL_ROWS, text, sizeof text);
    if (reply.length == 0) {
        /* The lent text is all zero now; the line is written to a small buffer of its own. */
        uint8_t line[HURKOXEL_LINE_BYTES];
        size_t written = hurkoxel_refused_line(reply.number, reply.line, reply.field, line, sizeof line);
        printf("%s: %.*s", name, (int)written, (const char *)line);
        return;
    }
    printf("%s: %zu bytes\n", name, reply.length);
    fwrite(text, 1, reply.length, stdout);
    report_rows();
}

int main(int argc, char **argv)
{
    int status = 0;
    for (int i = 1; i < argc; i++) {
        long length = load(argv[i]);
        if (length < 0) {
            perror(argv[i]);
            status = 1;
        } else {
            answer(argv[i], (size_t)length);
        }
    }
    return status;
}
