/* A session in heap mode: three variables and the clause "0 or 1". A list of calls, then two calls by themselves. */
#include "sigvort.h"

#include <inttypes.h>
#include <stdio.h>
#include <stdlib.h>

#define VARIABLES 3
#define CALLS 5

/* Prints the answer to each call of a list: its letter, the status, and the reply or a dash. */
static void print_answers(const uint32_t *calls, const uint32_t *answers)
{
    for (size_t i = 0; i < CALLS; i++) {
        const uint32_t status = answers[SIGVORT_ANSWER_WORDS * i], reply = answers[SIGVORT_ANSWER_WORDS * i + 1];
        printf("%c\t%" PRIu32 "\t", (int)calls[SIGVORT_CALL_WORDS * i], status);
        if (reply == SIGVORT_NONE)
            printf("-\n");
        else
            printf("%" PRIu32 "\n", reply);
    }
}

/* Prints the level and the codes on the trail. */
static void print_trail(const struct sigvort_heap *session)
{
    printf("level %" PRIu32 ", trail", session->level);
    for (uint32_t i = 0; i < session->len; i++)
        printf(" %" PRIu32, session->trail[i]);
    printf("\n");
}

/* Decides, enqueues and goes back; returns 0, or the first refusal that was not meant. */
static uint32_t play(struct sigvort_heap *session)
{
    static const uint32_t calls[SIGVORT_CALL_WORDS * CALLS] = {
        SIGVORT_BUMP,    2, 0, /* variable 2 is to come first */
        SIGVORT_DECIDE,  1, 0, /* true */
        SIGVORT_DECIDE,  0, 0, /* false */
        SIGVORT_ENQUEUE, 3, 0, /* variable 1, true, for clause 0 */
        SIGVORT_BUMP,    3, 0, /* there is no variable 3: refused with 8, and nothing changes */
    };
    uint32_t answers[SIGVORT_ANSWER_WORDS * CALLS], undone, variable;
    /* no group, so none of the variables of groups */
    uint32_t status = sigvort_heap_do(session, calls, 0, calls, SIGVORT_CALL_WORDS * CALLS, answers, SIGVORT_ANSWER_WORDS * CALLS);
    if (status != 0)
        return status;
    print_answers(calls, answers);
    print_trail(session);

    if ((status = sigvort_heap_go_back(session, 1, &undone)) != 0 || (status = sigvort_heap_decide(session, 0, &variable)) != 0)
        return status;
    printf("undone %" PRIu32 ", decided %" PRIu32 "\n", undone, variable);
    print_trail(session);
    return 0;
}

int main(void)
{
    static const uint32_t lits[] = {1, 3}, ends[] = {2};
    void *block = malloc(sigvort_heap_bytes(VARIABLES));
    if (block == NULL) {
        perror("malloc");
        return 1;
    }
    struct sigvort_heap session;
    sigvort_heap_place(&session, VARIABLES, block);
    session.lits = lits;
    session.literals = 2;
    session.ends = ends;
    session.clauses = 1;
    uint32_t status = sigvort_heap_open(&session);
    if (status == 0)
        status = play(&session);
    free(block);
    if (status != 0)
        fprintf(stderr, "refused: %" PRIu32 "\n", status);
    return status != 0;
}
