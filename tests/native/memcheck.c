/* Makes sessions in memory that is not set, each slice allocated at just its length, and does lists of calls on them, so that memcheck sees every word
   touched outside a slice and every word read before it was written. Answers and memory go to standard output, where memcheck sees that each was written.
   The declarations are this program's own reading of the description. */
#include <inttypes.h>
#include <stdint.h>
#include <stdio.h>
#include <stdlib.h>

#define NONE 4294967295u
#define MAX_CALLS 60u

#define CLAUSES uint32_t n, uint32_t literals, uint32_t clauses, const uint32_t *lits, size_t lits_len, const uint32_t *ends, size_t ends_len
#define TRAIL                                                                                                                                        \
    uint8_t *values, size_t values_len, uint32_t *levels, size_t levels_len, uint32_t *reasons, size_t reasons_len, uint32_t *trail,                 \
        size_t trail_len, uint32_t *opened, size_t opened_len
#define HEAP                                                                                                                                         \
    double *activity, size_t activity_len, uint32_t *heap, size_t heap_len, uint32_t *indices, size_t indices_len, uint8_t *decision,                \
        size_t decision_len, uint32_t *len, uint32_t *level, uint32_t *curr_i, uint32_t *members, double *inc, double *decay
#define LIST                                                                                                                                         \
    uint32_t *next, size_t next_len, uint32_t *prev, size_t prev_len, uint64_t *ts, size_t ts_len, uint32_t *len, uint32_t *level,                   \
        uint32_t *curr_i, uint32_t *start, uint32_t *search, uint64_t *timestamp
#define CALLS const uint32_t *vars, size_t vars_len, const uint32_t *calls, size_t calls_len, uint32_t *answers, size_t answers_len

uint32_t sigvort_heap_fresh(CLAUSES, TRAIL, HEAP);
uint32_t sigvort_heap_calls(CLAUSES, TRAIL, HEAP, CALLS);
uint32_t sigvort_list_fresh(CLAUSES, TRAIL, LIST);
uint32_t sigvort_list_calls(CLAUSES, TRAIL, LIST, CALLS);

static void *take(size_t count, size_t size)
{
    void *taken = malloc(count * size);
    if (taken == NULL && count > 0) {
        perror("malloc");
        exit(2);
    }
    return taken;
}

/* A small generator of numbers. */
static uint32_t below(uint32_t bound)
{
    static uint64_t state = 1;
    state = state * 6364136223846793005u + 1442695040888963407u;
    return bound == 0 ? 0 : (uint32_t)(state >> 33) % bound;
}

/* A session in either mode: the slices of both, of which one mode has none. */
struct session {
    int is_heap;
    uint32_t n, clauses;
    uint32_t *lits, *ends;
    uint8_t *values, *decision;
    uint32_t *levels, *reasons, *trail, *opened, *heap, *indices, *next, *prev;
    double *activity;
    uint64_t *ts;
    uint32_t *len, *level, *curr_i, *members, *start, *search;
    double *inc, *decay;
    uint64_t *timestamp;
};

/* Takes memory for a session with clauses of three literals; only the clauses are set. */
static struct session make(int is_heap, uint32_t n)
{
    uint32_t clauses = n == 0 ? 0 : n % 100 + 1;
    struct session s = {.is_heap = is_heap, .n = n, .clauses = clauses};
    s.lits = take(3 * clauses, sizeof *s.lits), s.ends = take(clauses, sizeof *s.ends);
    for (uint32_t i = 0; i < 3 * clauses; i++)
        s.lits[i] = below(2 * n);
    for (uint32_t i = 0; i < clauses; i++)
        s.ends[i] = 3 * (i + 1);
    s.values = take(n, 1), s.decision = take(n, 1), s.activity = take(n, sizeof *s.activity), s.ts = take(n, sizeof *s.ts);
    s.levels = take(n, 4), s.reasons = take(n, 4), s.trail = take(n, 4), s.opened = take(n, 4);
    s.heap = take(n, 4), s.indices = take(n, 4), s.next = take(n, 4), s.prev = take(n, 4);
    s.len = take(1, 4), s.level = take(1, 4), s.curr_i = take(1, 4), s.members = take(1, 4), s.start = take(1, 4), s.search = take(1, 4);
    s.inc = take(1, sizeof *s.inc), s.decay = take(1, sizeof *s.decay), s.timestamp = take(1, sizeof *s.timestamp);
    return s;
}

static void drop(struct session s)
{
    void *all[] = {s.lits, s.ends, s.values, s.decision, s.activity, s.ts, s.levels, s.reasons, s.trail, s.opened, s.heap, s.indices,
                   s.next, s.prev, s.len, s.level, s.curr_i, s.members, s.start, s.search, s.inc, s.decay, s.timestamp};
    for (size_t i = 0; i < sizeof all / sizeof *all; i++)
        free(all[i]);
}

#define COMMON s.n, 3 * s.clauses, s.clauses, s.lits, 3 * s.clauses, s.ends, s.clauses, s.values, n, s.levels, n, s.reasons, n, s.trail, n, s.opened, n
#define OF_HEAP s.activity, n, s.heap, n, s.indices, n, s.decision, n, s.len, s.level, s.curr_i, s.members, s.inc, s.decay
#define OF_LIST s.next, n, s.prev, n, s.ts, n, s.len, s.level, s.curr_i, s.start, s.search, s.timestamp

/* Makes the session fresh; n is the length of its slices. */
static uint32_t fresh(struct session s, size_t n)
{
    return s.is_heap ? sigvort_heap_fresh(COMMON, OF_HEAP) : sigvort_list_fresh(COMMON, OF_LIST);
}

/* Does a list of random calls with answers that are not set, and prints them; says the status. */
static uint32_t calls(struct session s, size_t n, uint32_t count, uint32_t vars_len)
{
    static const char letters[] = "bywiogeukrfgge";
    uint32_t *words = take(3 * count, 4), *answers = take(2 * count, 4), *vars = take(vars_len, 4);
    for (uint32_t i = 0; i < vars_len; i++)
        vars[i] = below(s.n);
    for (uint32_t i = 0; i < count; i++) {
        uint32_t letter = (unsigned char)letters[below(sizeof letters - 1)], first = below(s.n), second = 0;
        if (letter == 'y')
            first = 0;
        else if (letter == 'w')
            first = 0x3fe80000u;
        else if (letter == 'g')
            first = below(2);
        else if (letter == 'e' || letter == 'u')
            first = below(2 * s.n + 2), second = letter == 'u' ? 0 : below(3) == 0 ? NONE : below(s.clauses);
        else if (letter == 'f')
            first = below(vars_len + 1), second = vars_len - first + (below(9) == 0);
        words[3 * i] = letter, words[3 * i + 1] = first, words[3 * i + 2] = second;
    }
    uint32_t status = s.is_heap ? sigvort_heap_calls(COMMON, OF_HEAP, vars, vars_len, words, 3 * count, answers, 2 * count)
                                : sigvort_list_calls(COMMON, OF_LIST, vars, vars_len, words, 3 * count, answers, 2 * count);
    for (uint32_t i = 0; status == 0 && i < count; i++)
        printf("%c %" PRIu32 " %" PRIu32 "\n", (char)words[3 * i], answers[2 * i], answers[2 * i + 1]);
    free(words), free(answers), free(vars);
    return status;
}

/* Prints all memory of the session. */
static void print(struct session s)
{
    for (uint32_t i = 0; i < s.n; i++) {
        printf("# %d %" PRIu32 " %" PRIu32 " %" PRIu32 " %" PRIu32, s.values[i], s.levels[i], s.reasons[i], s.trail[i], s.opened[i]);
        if (s.is_heap)
            printf(" %g %" PRIu32 " %" PRIu32 " %d\n", s.activity[i], s.heap[i], s.indices[i], s.decision[i]);
        else
            printf(" %" PRIu32 " %" PRIu32 " %" PRIu64 "\n", s.next[i], s.prev[i], s.ts[i]);
    }
    printf("# %" PRIu32 " %" PRIu32 " %" PRIu32, *s.len, *s.level, *s.curr_i);
    if (s.is_heap)
        printf(" %" PRIu32 " %g %g\n", *s.members, *s.inc, *s.decay);
    else
        printf(" %" PRIu32 " %" PRIu32 " %" PRIu64 "\n", *s.start, *s.search, *s.timestamp);
}

static void must(uint32_t status, uint32_t due, const char *what)
{
    if (status != due) {
        fprintf(stderr, "%s: status %" PRIu32 ", and %" PRIu32 " is due\n", what, status, due);
        exit(1);
    }
}

int main(void)
{
    static const uint32_t sizes[] = {0, 1, 2, 3, 9, 64, 129, 400, 1500, 2048};
    for (size_t i = 0; i < 2 * sizeof sizes / sizeof *sizes; i++) {
        struct session s = make(i % 2 == 0, sizes[i / 2]);
        /* refused, so that memory stays not set */
        struct session many = s;
        many.n = 2049;
        must(fresh(many, s.n), 4, "2,049 variables");
        if (s.n > 0) {
            must(fresh(s, s.n - 1), 5, "shorter slices");
            must(calls(s, s.n - 1, 1, 0), 5, "shorter slices in a list");
        }
        must(fresh(s, s.n), 0, "creation");
        print(s);
        for (uint32_t list = 0; list < 6; list++)
            must(calls(s, s.n, list * below(MAX_CALLS), list == 5 ? 2049 : below(20)), 0, "a list");
        print(s);
        *s.curr_i = *s.len + 1;
        must(calls(s, s.n, 2, 0), 7, "a bad state");
        drop(s);
    }
    return 0;
}
