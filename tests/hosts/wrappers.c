/* Holds each function of sigvort.h that takes a session's struct to what it says, in both modes: where a block's arrays lie, with no variables and at the
   limit; each call by itself; refusals of a list and of a call; saving and reading back; null for slices without places. Then the entries for sheets that
   are carried on. Compiles as C and as C++. Prints what is wrong and where. */
#include "sigvort.h"

#include <stdio.h>
#include <stdlib.h>

static int failed = 0;

/* Counts a line whose numbers differ. */
static void expect(int line, uint64_t found, uint64_t expected)
{
    if (found == expected)
        return;
    printf("wrappers.c, line %d: %llu where %llu is expected\n", line, (unsigned long long)found, (unsigned long long)expected);
    failed = 1;
}

#define EXPECT(found, expected) expect(__LINE__, found, expected)

/* An array of a session: where it lies, and the bytes of a place. */
struct array {
    const void *from;
    size_t place;
};

/* Whether the arrays of n places are aligned, lie in the block and fill it without overlap. */
static int laid_out(const struct array *arrays, size_t count, size_t places, const void *block, size_t bytes)
{
    size_t total = 0;
    for (size_t i = 0; i < count; i++) {
        const uintptr_t from = (uintptr_t)arrays[i].from, to = from + places * arrays[i].place;
        if (from % arrays[i].place != 0 || from < (uintptr_t)block || to > (uintptr_t)block + bytes)
            return 0;
        for (size_t j = 0; j < i; j++) {
            const uintptr_t other = (uintptr_t)arrays[j].from;
            if (from < other + places * arrays[j].place && other < to)
                return 0;
        }
        total += to - from;
    }
    return total == bytes || places == 0;
}

/* A block for a session. */
static void *block_of(size_t bytes)
{
    void *block = malloc(bytes);
    if (block == NULL) {
        perror("malloc");
        exit(1);
    }
    return block;
}

/* A heap session of n variables in a block that the caller frees, and the status with which it opened. */
static uint32_t heap(struct sigvort_heap *s, uint32_t n, void **block)
{
    *block = block_of(sigvort_heap_bytes(n));
    sigvort_heap_place(s, n, *block);
    const struct array arrays[] = {
        {s->values, 1}, {s->levels, 4}, {s->reasons, 4}, {s->trail, 4}, {s->opened, 4},
        {s->activity, 8}, {s->heap, 4}, {s->indices, 4}, {s->decision, 1},
    };
    EXPECT(laid_out(arrays, sizeof arrays / sizeof arrays[0], sigvort_places(n), *block, sigvort_heap_bytes(n)), 1);
    return sigvort_heap_open(s);
}

/* The same in list mode. */
static uint32_t list(struct sigvort_list *s, uint32_t n, void **block)
{
    *block = block_of(sigvort_list_bytes(n));
    sigvort_list_place(s, n, *block);
    const struct array arrays[] = {
        {s->values, 1}, {s->levels, 4}, {s->reasons, 4}, {s->trail, 4}, {s->opened, 4}, {s->next, 4}, {s->prev, 4}, {s->ts, 8},
    };
    EXPECT(laid_out(arrays, sizeof arrays / sizeof arrays[0], sigvort_places(n), *block, sigvort_list_bytes(n)), 1);
    return sigvort_list_open(s);
}

/* Blocks of many sizes; what is opened in them holds a good session, which an empty list checks. */
static void sizes(void)
{
    static const uint32_t accepted[] = {0, 1, 2, 3, 7, 64, 2047, SIGVORT_MAX_VARIABLES}, refused[] = {SIGVORT_MAX_VARIABLES + 1, UINT32_MAX};
    uint32_t none[1] = {0}, variable;
    struct sigvort_heap h;
    struct sigvort_list l;
    void *block;
    for (size_t i = 0; i < sizeof accepted / sizeof accepted[0]; i++) {
        EXPECT(heap(&h, accepted[i], &block), 0);
        EXPECT(sigvort_heap_do(&h, none, 0, none, 0, none, 0), 0);
        EXPECT(sigvort_heap_decide(&h, 1, &variable), 0);
        EXPECT(variable, accepted[i] > 0 ? 0 : SIGVORT_NONE);
        free(block);
        EXPECT(list(&l, accepted[i], &block), 0);
        EXPECT(sigvort_list_do(&l, none, 0, none, 0, none, 0), 0);
        EXPECT(sigvort_list_decide(&l, 1, &variable), 0);
        EXPECT(variable, accepted[i] > 0 ? 0 : SIGVORT_NONE);
        free(block);
    }
    for (size_t i = 0; i < sizeof refused / sizeof refused[0]; i++) {
        EXPECT(heap(&h, refused[i], &block), SIGVORT_TOO_MANY_VARIABLES);
        free(block);
        EXPECT(list(&l, refused[i], &block), SIGVORT_TOO_MANY_VARIABLES);
        free(block);
    }
}

/* Each call in heap mode. */
static void heap_calls(void)
{
    static const uint32_t lits[] = {1, 2, 6}, ends[] = {3}, group[] = {2, 1}, call[] = {SIGVORT_GROUP, 0, 2};
    struct sigvort_heap s;
    void *block;
    uint32_t reply, answer[SIGVORT_ANSWER_WORDS];
    EXPECT(heap(&s, 4, &block), 0);
    s.lits = lits;
    s.ends = ends;
    s.literals = 3;
    s.clauses = 1;

    EXPECT(sigvort_heap_bump(&s, 3), 0);
    EXPECT(s.activity[3] == 1, 1);
    EXPECT(sigvort_heap_bump(&s, 4), SIGVORT_NO_VARIABLE);
    EXPECT(sigvort_heap_set_decay(&s, 0.25), SIGVORT_BAD_DECAY);
    EXPECT(sigvort_heap_set_decay(&s, 0.5), 0);
    EXPECT(sigvort_heap_decay(&s), 0);
    EXPECT(s.decay == 0.5 && s.inc == 2, 1);
    EXPECT(sigvort_heap_switch_off(&s, 2), 0);
    EXPECT(s.decision[2], 0);
    EXPECT(sigvort_heap_insert(&s, 2), 0);
    EXPECT(sigvort_heap_decide(&s, 2, &reply), SIGVORT_BAD_POLARITY);
    EXPECT(reply, SIGVORT_NONE);
    EXPECT(sigvort_heap_decide(&s, 1, &reply), 0);
    EXPECT(reply, 3);
    EXPECT(sigvort_heap_enqueue(&s, sigvort_code(0, 1), 1), SIGVORT_NO_REASON);
    EXPECT(sigvort_heap_enqueue(&s, sigvort_code(0, 1), 0), 0);
    EXPECT(s.values[0] == 1 && s.levels[0] == 1 && s.reasons[0] == 0, 1);
    EXPECT(sigvort_heap_bump_reason(&s, 0), 0);
    EXPECT(s.activity[1] == 2 && s.activity[3] == 3, 1);
    EXPECT(sigvort_heap_enqueue(&s, sigvort_code(0, 0), SIGVORT_NONE), SIGVORT_ASSIGNED);
    s.curr_i = 1;
    EXPECT(sigvort_heap_go_back(&s, 1, &reply), 0);
    EXPECT(reply == 0 && s.curr_i == 1, 1);
    EXPECT(sigvort_heap_go_back(&s, 0, &reply), 0);
    EXPECT(reply == 2 && s.curr_i == 0, 1);
    EXPECT(sigvort_heap_learn_unit(&s, sigvort_code(1, 0)), 0);
    EXPECT(s.len == 1 && s.trail[0] == 2 && s.curr_i == 0, 1);
    EXPECT(sigvort_heap_bump_reason(&s, 1), 0);
    EXPECT(s.activity[1] == 2, 1);
    EXPECT(sigvort_heap_enqueue(&s, sigvort_code(2147483648u, 0), SIGVORT_NONE), SIGVORT_NO_VARIABLE);
    EXPECT(sigvort_heap_enqueue(&s, sigvort_code(UINT32_MAX, 1), SIGVORT_NONE), SIGVORT_NO_VARIABLE);
    EXPECT(sigvort_heap_one(&s, SIGVORT_GROUP, 0, 0, &reply), 0);
    EXPECT(sigvort_heap_one(&s, SIGVORT_GROUP, 0, 1, &reply), SIGVORT_BAD_FORM);
    EXPECT(sigvort_heap_one(&s, SIGVORT_GROUP, 1, 0, &reply), SIGVORT_BAD_FORM);
    EXPECT(sigvort_heap_do(&s, group, 2, call, SIGVORT_CALL_WORDS, answer, SIGVORT_ANSWER_WORDS), 0);
    EXPECT(answer[0] == 0 && answer[1] == SIGVORT_NONE, 1);
    EXPECT(sigvort_heap_one(&s, SIGVORT_DECAY, 0, 1, &reply), SIGVORT_BAD_FORM);

    s.literals = 2;
    EXPECT(sigvort_heap_decay(&s), SIGVORT_BAD_CLAUSES);
    s.literals = 3;
    s.decision[0] = 2;
    EXPECT(sigvort_heap_go_back(&s, 0, &reply), SIGVORT_BAD_STATE);
    EXPECT(reply, SIGVORT_NONE);
    free(block);
}

/* Each call in list mode. */
static void list_calls(void)
{
    static const uint32_t group[] = {2, 1}, strange[] = {4};
    struct sigvort_list s;
    void *block;
    uint32_t reply;
    EXPECT(list(&s, 4, &block), 0);
    EXPECT(sigvort_list_group(&s, group, 2), 0);
    EXPECT(s.start == 1 && s.next[1] == 2 && s.next[2] == 0 && s.next[0] == 3, 1);
    EXPECT(sigvort_list_group(&s, strange, 1), SIGVORT_NO_VARIABLE);
    EXPECT(sigvort_list_decide(&s, 0, &reply), 0);
    EXPECT(reply, 0);
    EXPECT(sigvort_list_enqueue(&s, sigvort_code(3, 1), SIGVORT_NONE), 0);
    EXPECT(s.values[3], 1);
    EXPECT(sigvort_list_decide(&s, 0, &reply), SIGVORT_STUCK);
    s.search = s.start;
    EXPECT(sigvort_list_decide(&s, 0, &reply), 0);
    EXPECT(reply == 1 && s.search == 2, 1);
    EXPECT(sigvort_list_go_back(&s, 0, &reply), 0);
    EXPECT(reply == 3 && s.search == 2, 1);
    EXPECT(sigvort_list_learn_unit(&s, sigvort_code(3, 0)), 0);
    EXPECT(sigvort_list_learn_unit(&s, sigvort_code(3, 0)), SIGVORT_ASSIGNED);
    EXPECT(sigvort_list_one(&s, SIGVORT_BUMP, 0, 0, &reply), 0);
    s.timestamp = 0;
    EXPECT(sigvort_list_group(&s, group, 2), SIGVORT_BAD_STATE);
    free(block);
}

/* Lists whose lengths do not fit each other; and answers by place. */
static void lists(void)
{
    static const uint32_t calls[] = {SIGVORT_DECIDE, 1, 0, 0, 0, 0, SIGVORT_GO_BACK, 0, 0};
    uint32_t answers[7] = {9, 9, 9, 9, 9, 9, 9};
    struct sigvort_heap s;
    void *block;
    EXPECT(heap(&s, 2, &block), 0);
    EXPECT(sigvort_heap_do(&s, calls, 0, calls, 8, answers, 6), SIGVORT_BAD_LENGTH);
    EXPECT(sigvort_heap_do(&s, calls, 0, calls, 9, answers, 7), SIGVORT_BAD_LENGTH);
    EXPECT(answers[0], 9);
    EXPECT(sigvort_heap_do(&s, calls, 0, calls, 9, answers, 6), 0);
    EXPECT(answers[0] == 0 && answers[1] == 0, 1);
    EXPECT(answers[2] == SIGVORT_BAD_FORM && answers[3] == SIGVORT_NONE, 1);
    EXPECT(answers[4] == 0 && answers[5] == 1 && answers[6] == 9, 1);
    free(block);
}

/* No variables, no clauses, no group and no call: every slice is null. */
static void nulls(void)
{
    struct sigvort_heap h;
    struct sigvort_list l;
    uint32_t variable;
    memset(&h, 0, sizeof h);
    memset(&l, 0, sizeof l);
    EXPECT(sigvort_heap_open(&h), 0);
    EXPECT(sigvort_heap_do(&h, NULL, 0, NULL, 0, NULL, 0), 0);
    EXPECT(sigvort_heap_decide(&h, 1, &variable), 0);
    EXPECT(variable, SIGVORT_NONE);
    EXPECT(sigvort_list_open(&l), 0);
    EXPECT(sigvort_list_do(&l, NULL, 0, NULL, 0, NULL, 0), 0);
    EXPECT(sigvort_list_group(&l, NULL, 0), 0);
    EXPECT(sigvort_list_decide(&l, 1, &variable), 0);
    EXPECT(variable, SIGVORT_NONE);
}

/* A buffer for any text, and one byte more. */
static uint8_t text[SIGVORT_MAX_SAVED + 1];

/* A heap session of three variables with two clauses, saved and read into other memory. */
static void heap_saved(void)
{
    static const uint32_t lits[] = {1, 3, 4}, ends[] = {2, 3};
    uint32_t read_lits[3] = {9, 9, 9}, read_ends[2] = {9, 9}, reply, len = 77;
    struct sigvort_heap s, read;
    struct sigvort_counts counts = {7, 7, 7, 7};
    void *block, *other;
    EXPECT(heap(&s, 3, &block), 0);
    EXPECT(heap(&read, 3, &other), 0);
    s.lits = lits;
    s.ends = ends;
    s.literals = 3;
    s.clauses = 2;
    EXPECT(sigvort_heap_bump(&s, 1), 0);
    EXPECT(sigvort_heap_decide(&s, 0, &reply), 0);
    EXPECT(sigvort_heap_enqueue(&s, 4, 1), 0);
    EXPECT(sigvort_heap_switch_off(&s, 0), 0);
    s.curr_i = 1;
    memset(text, '?', sizeof text);
    EXPECT(sigvort_heap_to_text(&s, text, sizeof text, &len), 0);
    EXPECT(len < SIGVORT_SAVED_ROOM(3, 2, 3) && text[len - 1] == '\n' && text[len] == '?', 1);

    EXPECT(sigvort_counts_of(&counts, text, len - 1), SIGVORT_BAD_SAVED);
    EXPECT(counts.list == 7 && counts.n == 7 && counts.literals == 7 && counts.clauses == 7, 1);
    EXPECT(sigvort_counts_of(&counts, text, len), 0);
    EXPECT(counts.list == 0 && counts.n == 3 && counts.literals == 3 && counts.clauses == 2, 1);

    /* what is refused leaves the session as it was */
    EXPECT(sigvort_heap_from_text(&read, text, len - 1, read_lits, 3, read_ends, 2), SIGVORT_BAD_SAVED);
    EXPECT(sigvort_heap_from_text(&read, text, len, read_lits, 2, read_ends, 2), SIGVORT_BAD_LENGTH);
    read.n = 2;
    EXPECT(sigvort_heap_from_text(&read, text, len, read_lits, 3, read_ends, 2), SIGVORT_BAD_LENGTH);
    read.n = 3;
    EXPECT(read.level == 0 && read.len == 0 && read.clauses == 0 && read_lits[0] == 9 && read_ends[0] == 9, 1);
    EXPECT(sigvort_heap_decay(&read), 0);

    EXPECT(sigvort_heap_from_text(&read, text, len, read_lits, 3, read_ends, 2), 0);
    EXPECT(read.lits == read_lits && read.literals == 3 && read.ends == read_ends && read.clauses == 2, 1);
    EXPECT(memcmp(read_lits, lits, sizeof lits) == 0 && memcmp(read_ends, ends, sizeof ends) == 0, 1);
    EXPECT(read.level == 1 && read.len == 2 && read.curr_i == 1 && read.trail[0] == 2 && read.trail[1] == 4 && read.trail[2] == SIGVORT_NONE, 1);
    EXPECT(read.levels[2] == 1 && read.levels[0] == SIGVORT_NONE && read.reasons[2] == 1 && read.opened[0] == 0, 1);
    EXPECT(read.activity[1] == 1 && read.decision[0] == 0 && read.inc == 1 && read.decay == 0.95 && read.members == s.members, 1);
    EXPECT(sigvort_heap_go_back(&read, 0, &reply), 0);
    EXPECT(reply, 2);

    /* in saving 2 comes last, and nothing is written */
    memset(text, '?', sizeof text);
    EXPECT(sigvort_heap_to_text(&s, text, len - 1, &reply), SIGVORT_NO_ROOM);
    EXPECT(sigvort_heap_to_text(&s, NULL, 0, &reply), SIGVORT_NO_ROOM);
    s.clauses = 1;
    EXPECT(sigvort_heap_to_text(&s, text, 0, &reply), SIGVORT_BAD_CLAUSES);
    s.clauses = s.literals = 0;
    EXPECT(sigvort_heap_to_text(&s, text, 0, &reply), SIGVORT_BAD_STATE);
    EXPECT(reply == 2 && text[0] == '?', 1);
    EXPECT(sigvort_heap_to_text(&s, text, sizeof text, &reply), SIGVORT_BAD_STATE);
    free(block);
    free(other);
}

/* The same in list mode, of four variables with two clauses, one of them empty. */
static void list_saved(void)
{
    static const uint32_t group[] = {3, 1}, lits[] = {6}, ends[] = {0, 1};
    uint32_t read_lits[1] = {9}, read_ends[2] = {9, 9}, reply, len = 77, again;
    struct sigvort_list s, read;
    struct sigvort_heap other_mode;
    struct sigvort_counts counts;
    void *block, *other, *heap_block;
    EXPECT(list(&s, 4, &block), 0);
    EXPECT(list(&read, 4, &other), 0);
    EXPECT(heap(&other_mode, 4, &heap_block), 0);
    s.lits = lits;
    s.ends = ends;
    s.literals = 1;
    s.clauses = 2;
    EXPECT(sigvort_list_group(&s, group, 2), 0);
    EXPECT(sigvort_list_decide(&s, 1, &reply), 0);
    EXPECT(sigvort_list_to_text(&s, text, 0, &len), SIGVORT_NO_ROOM);
    EXPECT(len, 77);
    EXPECT(sigvort_list_to_text(&s, text, SIGVORT_SAVED_ROOM(4, 2, 1), &len), 0);
    EXPECT(sigvort_counts_of(&counts, text, len), 0);
    EXPECT(counts.list == 1 && counts.n == 4 && counts.literals == 1 && counts.clauses == 2, 1);
    EXPECT(sigvort_heap_from_text(&other_mode, text, len, read_lits, 1, read_ends, 2), SIGVORT_BAD_SAVED);
    EXPECT(sigvort_list_from_text(&read, text, len, read_lits, 1, read_ends, 1), SIGVORT_BAD_LENGTH);
    EXPECT(read.level == 0 && read.clauses == 0 && read_lits[0] == 9 && read_ends[0] == 9, 1);

    EXPECT(sigvort_list_from_text(&read, text, len, read_lits, 1, read_ends, 2), 0);
    EXPECT(read.lits == read_lits && read.literals == 1 && read.ends == read_ends && read.clauses == 2, 1);
    EXPECT(read_lits[0] == 6 && read_ends[0] == 0 && read_ends[1] == 1, 1);
    EXPECT(read.level == 1 && read.trail[0] == 1 && read.start == s.start && read.search == s.search && read.timestamp == s.timestamp, 1);
    EXPECT(memcmp(read.next, s.next, 4 * sizeof *s.next) == 0 && memcmp(read.prev, s.prev, 4 * sizeof *s.prev) == 0, 1);
    EXPECT(memcmp(read.ts, s.ts, 4 * sizeof *s.ts) == 0 && read.levels[0] == 1 && read.levels[3] == SIGVORT_NONE, 1);
    EXPECT(sigvort_list_to_text(&read, text, len, &again), 0);
    EXPECT(again, len);
    EXPECT(sigvort_list_decide(&read, 1, &reply), 0);
    EXPECT(reply, 2);

    s.timestamp = 0;
    EXPECT(sigvort_list_to_text(&s, text, sizeof text, &len), SIGVORT_BAD_STATE);
    free(block);
    free(other);
    free(heap_block);
}

/* The least and the greatest number of variables, saved and read back in either mode; n is set by what is read; and texts of none into null. */
static void saved_sizes(void)
{
    static const uint32_t sizes[] = {0, 1, SIGVORT_MAX_VARIABLES};
    struct sigvort_heap h;
    struct sigvort_list l;
    uint32_t len, again;
    void *block;
    for (size_t i = 0; i < sizeof sizes / sizeof sizes[0]; i++) {
        EXPECT(heap(&h, sizes[i], &block), 0);
        EXPECT(sigvort_heap_to_text(&h, text, SIGVORT_SAVED_ROOM(sizes[i], 0, 0), &len), 0);
        EXPECT(sigvort_heap_from_text(&h, text, len, NULL, 0, NULL, 0), 0);
        EXPECT(sigvort_heap_to_text(&h, text, len, &again), 0);
        EXPECT(again, len);
        free(block);
        EXPECT(list(&l, sizes[i], &block), 0);
        EXPECT(sigvort_list_to_text(&l, text, SIGVORT_SAVED_ROOM(sizes[i], 0, 0), &len), 0);
        EXPECT(sigvort_list_from_text(&l, text, len, NULL, 0, NULL, 0), 0);
        EXPECT(sigvort_list_to_text(&l, text, len, &again), 0);
        EXPECT(again, len);
        free(block);
    }
    EXPECT(SIGVORT_MAX_SAVED, 129104);
    EXPECT(heap(&h, SIGVORT_MAX_VARIABLES, &block), 0);
    EXPECT(sigvort_heap_to_text(&h, text, sizeof text, &len), 0);
    h.n = SIGVORT_MAX_VARIABLES + 1;
    EXPECT(sigvort_heap_to_text(&h, text, sizeof text, &again), SIGVORT_TOO_MANY_VARIABLES);
    EXPECT(sigvort_heap_from_text(&h, text, len, NULL, 0, NULL, 0), 0);
    EXPECT(h.n, SIGVORT_MAX_VARIABLES);
    free(block);
    EXPECT(list(&l, SIGVORT_MAX_VARIABLES, &block), 0);
    EXPECT(sigvort_list_to_text(&l, text, sizeof text, &len), 0);
    l.n = SIGVORT_MAX_VARIABLES + 1;
    EXPECT(sigvort_list_to_text(&l, text, sizeof text, &again), SIGVORT_TOO_MANY_VARIABLES);
    EXPECT(sigvort_list_from_text(&l, text, len, NULL, 0, NULL, 0), 0);
    EXPECT(l.n, SIGVORT_MAX_VARIABLES);
    free(block);
    memset(&h, 0, sizeof h);
    memset(&l, 0, sizeof l);
    EXPECT(sigvort_heap_open(&h), 0);
    EXPECT(sigvort_heap_to_text(&h, text, sizeof text, &len), 0);
    EXPECT(sigvort_heap_from_text(&h, text, len, NULL, 0, NULL, 0), 0);
    EXPECT(sigvort_heap_from_text(&h, NULL, 0, NULL, 0, NULL, 0), SIGVORT_BAD_SAVED);
    EXPECT(sigvort_list_open(&l), 0);
    EXPECT(sigvort_list_to_text(&l, text, sizeof text, &len), 0);
    EXPECT(sigvort_list_from_text(&l, text, len, NULL, 0, NULL, 0), 0);
    EXPECT(sigvort_list_from_text(&l, NULL, 0, NULL, 0, NULL, 0), SIGVORT_BAD_SAVED);
}

/* Whether so many bytes are this string. */
static int is(const uint8_t *bytes, size_t len, const char *string)
{
    return len == strlen(string) && memcmp(bytes, string, len) == 0;
}

/* The bytes of a sheet, as two arguments. */
#define SHEET(string) (const uint8_t *)(string), strlen(string)

/* A sheet, one that goes on with its session, and what is refused. */
static void sheets(void)
{
    static uint8_t later[SIGVORT_MAX_SAVED];
    uint8_t answers[4 * SIGVORT_ANSWER_ROOM];
    uint32_t len = 77, later_len = 77;
    const size_t room = SIGVORT_SAVED_ROOM(2, 1, 2);
    uint32_t count = sigvort_run_new(SHEET("n\t2\tvsids\nc\t1\t3\ng\t1\n"), answers, sizeof answers, text, room, &len);
    EXPECT(sigvort_refused(count), 0);
    EXPECT(is(answers, count, "1\t0\t-\n2\t0\t-\n3\t0\t0\n"), 1);
    count = sigvort_run_on(text, len, SHEET("g\t0\nc\t1\nk\t0\n"), answers, sizeof answers, later, room, &later_len);
    EXPECT(sigvort_refused(count), 0);
    EXPECT(is(answers, count, "1\t0\t1\n2\t3\t-\n3\t0\t2\n"), 1);
    EXPECT(later_len > 0 && later_len != len, 1);
    count = sigvort_run_on(later, later_len, SHEET(""), answers, 0, text, room, &len);
    EXPECT(count == 0 && len == later_len && memcmp(text, later, len) == 0, 1);

    len = 77;
    EXPECT(sigvort_refused(sigvort_run_new(SHEET("n\t2\tvsids\n"), answers, SIGVORT_ANSWER_ROOM - 1, text, sizeof text, &len)), SIGVORT_NO_ROOM);
    EXPECT(sigvort_refused(sigvort_run_new(SHEET("n\t2\tvsids\n"), answers, sizeof answers, text, SIGVORT_SAVED_ROOM(2, 0, 0) - 1, &len)), SIGVORT_NO_ROOM);
    EXPECT(sigvort_refused(sigvort_run_on(later, later_len, SHEET("y\n"), answers, sizeof answers, text, room - 1, &len)), SIGVORT_NO_ROOM);
    EXPECT(sigvort_refused(sigvort_run_on(later, later_len - 1, SHEET("y\n"), answers, sizeof answers, text, sizeof text, &len)), SIGVORT_BAD_SAVED);
    EXPECT(len, 77);
    EXPECT(sigvort_run_new(SHEET("x\n"), answers, sizeof answers, text, 0, &len), strlen("1\t3\t-\n"));
    EXPECT(len, 0);
    EXPECT(sigvort_refused(SIGVORT_SHEET_TOO_LONG), 1);
    EXPECT(sigvort_refused(SIGVORT_MAX_SHEET * SIGVORT_ANSWER_ROOM), 0);
}

int main(void)
{
    sizes();
    heap_calls();
    list_calls();
    lists();
    nulls();
    heap_saved();
    list_saved();
    saved_sizes();
    sheets();
    return failed;
}
