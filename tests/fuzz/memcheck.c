/* Runs each sheet named on the command line with a sheet and a buffer of just its length, and once with a buffer one byte short, so that
   memcheck sees every byte touched outside them. The answers go to standard output, where memcheck sees that each was written. */
#include "../../hosts/c/sigvort.h"

#include <stdio.h>
#include <stdlib.h>

struct bytes {
    uint8_t *at;
    size_t len;
};

static struct bytes make(size_t len)
{
    struct bytes made = {malloc(len), len};
    if (made.at == NULL) {
        perror("malloc");
        exit(2);
    }
    return made;
}

/* A file's bytes. */
static struct bytes contents(const char *path)
{
    FILE *file = fopen(path, "rb");
    if (file == NULL || fseek(file, 0, SEEK_END) != 0) {
        perror(path);
        exit(2);
    }
    struct bytes read = make((size_t)ftell(file));
    rewind(file);
    if (fread(read.at, 1, read.len, file) != read.len) {
        perror(path);
        exit(2);
    }
    fclose(file);
    return read;
}

static size_t room_for(struct bytes sheet)
{
    size_t newlines = 0;
    for (size_t i = 0; i < sheet.len; i++)
        newlines += sheet.at[i] == '\n';
    return SIGVORT_ANSWER_ROOM * newlines;
}

/* Runs a sheet with a buffer of a length, and prints its answers. */
static uint32_t run(struct bytes sheet, size_t room)
{
    struct bytes answers = make(room);
    uint32_t written = sigvort_run(sheet.at, sheet.len, answers.at, answers.len);
    if (written <= room)
        fwrite(answers.at, 1, written, stdout);
    free(answers.at);
    return written;
}

int main(int argc, char **argv)
{
    for (int i = 1; i < argc; i++) {
        struct bytes sheet = contents(argv[i]);
        size_t room = room_for(sheet);
        uint32_t expected = sheet.len > SIGVORT_MAX_SHEET ? SIGVORT_SHEET_TOO_LONG : SIGVORT_BUFFER_TOO_SHORT;
        run(sheet, room);
        if (room > 0 && run(sheet, room - 1) != expected) {
            fprintf(stderr, "%s: a short buffer was not refused\n", argv[i]);
            return 1;
        }
        free(sheet.at);
    }
    return 0;
}
