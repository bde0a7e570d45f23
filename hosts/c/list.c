/* A session in list mode: variables 2 and 0 of three move to the front, then two decisions. */
#include "sigvort.h"

#include <inttypes.h>
#include <stdio.h>
#include <stdlib.h>

int main(void)
{
    static const uint32_t vars[] = {2, 0}, calls[] = {SIGVORT_GROUP, 0, 2, SIGVORT_DECIDE, 1, 0, SIGVORT_DECIDE, 1, 0};
    uint32_t answers[6];
    struct sigvort_list session;
    void *block = malloc(sigvort_list_bytes(3));
    if (block == NULL)
        return 1;
    sigvort_list_place(&session, 3, block);
    uint32_t status = sigvort_list_open(&session);
    if (status == 0)
        status = sigvort_list_do(&session, vars, 2, calls, 9, answers, 6);
    if (status == 0)
        printf("decided %" PRIu32 ", then %" PRIu32 "\n", answers[3], answers[5]);
    free(block);
    return status != 0;
}
