/* Runs the sheet in the file named on the command line and prints its answers, or the number of the refusal alone on a line. */
#include "sigvort.h"

#include <stdio.h>

/* One byte more than a sheet may have, so that a longer one is seen to be longer. */
static uint8_t sheet[SIGVORT_MAX_SHEET + 1];
/* Room for the answers to 2,730 lines, as the chooser's own program has it. */
static uint8_t answers[65536];

/* Prints what a run returned. */
static int print(uint32_t written)
{
    if (written == SIGVORT_SHEET_TOO_LONG || written == SIGVORT_BUFFER_TOO_SHORT)
        return printf("%u\n", UINT32_MAX - written) > 0;
    return fwrite(answers, 1, written, stdout) == written;
}

int main(int argc, char **argv)
{
    if (argc != 2) {
        fprintf(stderr, "usage: %s SHEET\n", argv[0]);
        return 2;
    }
    FILE *file = fopen(argv[1], "rb");
    if (file == NULL) {
        perror(argv[1]);
        return 1;
    }
    size_t len = fread(sheet, 1, sizeof sheet, file);
    int failed = ferror(file);
    fclose(file);
    if (failed) {
        fprintf(stderr, "%s: could not be read\n", argv[1]);
        return 1;
    }
    if (!print(sigvort_run(sheet, len, answers, sizeof answers)) || fflush(stdout) != 0) {
        perror("standard output");
        return 1;
    }
    return 0;
}
