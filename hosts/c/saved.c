/* A session in heap mode that is saved in the file named on the command line, read back from there and carried on. */
#include "sigvort.h"

#include <inttypes.h>
#include <stdio.h>
#include <stdlib.h>

/* One byte more than a text may have, so that a longer one is seen to be longer. */
static uint8_t text[SIGVORT_MAX_SAVED + 1];

/* Ends the program where a file or memory cannot be had. */
static void must(int had, const char *what)
{
    if (had)
        return;
    perror(what);
    exit(1);
}

static void *memory(size_t bytes)
{
    void *block = malloc(bytes > 0 ? bytes : 1);
    must(block != NULL, "malloc");
    return block;
}

/* Writes the text to a file aside and renames that, so that the file holds a whole text at any time. */
static void write_file(const char *path, size_t len)
{
    char aside[FILENAME_MAX];
    const int name = snprintf(aside, sizeof aside, "%s.new", path);
    must(name > 0 && (size_t)name < sizeof aside, path);
    FILE *file = fopen(aside, "wb");
    must(file != NULL, aside);
    const size_t written = fwrite(text, 1, len, file);
    must(fclose(file) == 0 && written == len, aside);
    must(rename(aside, path) == 0, path);
}

/* Reads the text from a file and returns its length. */
static size_t read_file(const char *path)
{
    FILE *file = fopen(path, "rb");
    must(file != NULL, path);
    const size_t len = fread(text, 1, sizeof text, file);
    must(!ferror(file), path);
    fclose(file);
    return len;
}

/* Prints where the session stands: the level and the codes on the trail. */
static void print_trail(const char *what, const struct sigvort_heap *session)
{
    printf("%s: level %" PRIu32 ", trail", what, session->level);
    for (uint32_t i = 0; i < session->len; i++)
        printf(" %" PRIu32, session->trail[i]);
    printf("\n");
}

/* Opens a session of three variables with the clause "0 or 1", decides twice, and saves it. */
static uint32_t morning(const char *path)
{
    static const uint32_t lits[] = {1, 3}, ends[] = {2};
    struct sigvort_heap session;
    uint32_t variable, len, status;
    void *block = memory(sigvort_heap_bytes(3));
    sigvort_heap_place(&session, 3, block);
    session.lits = lits;
    session.literals = 2;
    session.ends = ends;
    session.clauses = 1;
    if ((status = sigvort_heap_open(&session)) == 0 && (status = sigvort_heap_bump(&session, 2)) == 0 &&
        (status = sigvort_heap_decide(&session, 1, &variable)) == 0 && (status = sigvort_heap_decide(&session, 0, &variable)) == 0 &&
        (status = sigvort_heap_to_text(&session, text, sizeof text, &len)) == 0) {
        write_file(path, len);
        print_trail("saved", &session);
    }
    free(block);
    return status;
}

/* Reads the session back, goes back to level 1 and decides. The text says how much memory it takes. */
static uint32_t afternoon(const char *path)
{
    struct sigvort_heap session;
    struct sigvort_counts counts;
    const size_t len = read_file(path);
    uint32_t undone, variable, status = sigvort_counts_of(&counts, text, len);
    if (status != 0)
        return status;
    void *block = memory(sigvort_heap_bytes(counts.n));
    uint32_t *lits = memory(counts.literals * sizeof *lits), *ends = memory(counts.clauses * sizeof *ends);
    sigvort_heap_place(&session, counts.n, block);
    if ((status = sigvort_heap_from_text(&session, text, len, lits, counts.literals, ends, counts.clauses)) == 0) {
        print_trail("read back", &session);
        if ((status = sigvort_heap_go_back(&session, 1, &undone)) == 0 && (status = sigvort_heap_decide(&session, 0, &variable)) == 0)
            print_trail("carried on", &session);
    }
    free(ends);
    free(lits);
    free(block);
    return status;
}

int main(int argc, char **argv)
{
    if (argc != 2) {
        fprintf(stderr, "usage: %s FILE\n", argv[0]);
        return 2;
    }
    uint32_t status = morning(argv[1]);
    if (status == 0)
        status = afternoon(argv[1]);
    if (status != 0)
        fprintf(stderr, "refused: %" PRIu32 "\n", status);
    return status != 0;
}
