/* The proved option chooser, as a C program calls it. Link with libsigvort.a, which `hosts/library` writes for x86-64 Linux; it needs memset and
   memcpy, and nothing else.

   Two ways in. sigvort_run takes a call sheet as text and answers it as text. The entries sigvort_heap_* and sigvort_list_* take lists of calls as
   numbers, on memory that the caller lends: a session. Most callers need only the small functions below the entries, which take a struct for that
   memory. Either way a session can be saved as text and carried on later. docs/NATIVE.md is the guide, docs/SHEET.md has an example of each call,
   docs/SAVED.md has the text of a saved session.

   Of every function here: nothing is kept between calls and nothing is allocated, so calls on different memory may run at the same time. A pointer
   is aligned, good for its whole length, and not null, even for a length of 0; only the functions that take a struct allow null for a slice without
   places. What is written overlaps nothing else that is lent. The floating-point environment is the default one, rounding to nearest with subnormals, so
   no part of the program is built with -ffast-math. C99, C11 and C++. */
#ifndef SIGVORT_H
#define SIGVORT_H

#include <stddef.h>
#include <stdint.h>
#include <string.h>

#ifdef __cplusplus
extern "C" {
#endif

/* ---- Call sheets ---- */

/* The longest sheet, in bytes. */
#define SIGVORT_MAX_SHEET 32768u

/* The bytes of the answer buffer that each newline of a sheet needs. */
#define SIGVORT_ANSWER_ROOM 24u

/* What sigvort_run returns for a sheet that it does not run: 4294967295 less the number of the refusal. */
#define SIGVORT_SHEET_TOO_LONG 4294967294u   /* refusal 1: more than SIGVORT_MAX_SHEET bytes */
#define SIGVORT_BUFFER_TOO_SHORT 4294967293u /* refusal 2: fewer than SIGVORT_ANSWER_ROOM bytes for each newline */

/* Runs a call sheet and writes an answer line for each of its lines.

   sheet       the sheet's bytes; only read
   answers     the answer buffer; the answers go to its front, the bytes behind them stay as they were
   returns     the number of bytes written, or one of the two refusals above; then the buffer is unchanged

   Bytes behind the sheet's last newline are ignored. A first line that is refused gets its answer and ends the run.
   A call takes some 160 KB of stack. */
uint32_t sigvort_run(const uint8_t *sheet, size_t sheet_len, uint8_t *answers, size_t answers_len);

/* Runs a call sheet as sigvort_run does, and saves its session as it is at the end.

   sheet       the sheet's bytes; only read
   answers     the answer buffer, as of sigvort_run
   text        the buffer for the session's text, which goes to its front; the bytes behind it stay as they were. It has SIGVORT_SAVED_ROOM bytes for the
               session, or more; SIGVORT_MAX_SAVED are enough for any
   written     the text's length. Where there is no session there is no text, and it is 0: the sheet has no line, or its first one is refused
   returns     the number of bytes of the answers, or 4294967295 less the first refusal of these that fits; then nothing is changed, written neither: 1;
               2 for the answer buffer; 2 for the text's, where it is shorter than the session's room

   A call takes some 175 KB of stack. */
uint32_t sigvort_run_new(
    const uint8_t *sheet, size_t sheet_len, uint8_t *answers, size_t answers_len, uint8_t *text, size_t text_len, uint32_t *written);

/* Goes on with the session of a text: does the calls of a sheet that has nothing but calls, and saves the session as it is at the end. The sheet's lines are
   numbered from 1; lines n and c are refused with 3.

   old         the text of a saved session; only read
   sheet, answers, text, written  as of sigvort_run_new; there is always a text
   returns     the number of bytes of the answers, or 4294967295 less the first refusal of these that fits; then nothing is changed, written neither: 1;
               2 for the answer buffer; 15, 4, 6, 7 for the old text; 2 for the new text's buffer, where it is shorter than the session's room

   A call takes some 205 KB of stack. */
uint32_t sigvort_run_on(
    const uint8_t *old, size_t old_len, const uint8_t *sheet, size_t sheet_len,
    uint8_t *answers, size_t answers_len, uint8_t *text, size_t text_len, uint32_t *written);

/* The refusal in what one of the three returned: its number, see enum sigvort_refusal and 1 above, or 0 where the sheet was run. */
static inline uint32_t sigvort_refused(uint32_t returned)
{
    return returned > SIGVORT_MAX_SHEET * SIGVORT_ANSWER_ROOM ? UINT32_MAX - returned : 0;
}

/* ---- Sessions: numbers ---- */

/* The limits of a session. */
#define SIGVORT_MAX_VARIABLES 2048u /* variables */
#define SIGVORT_MAX_CLAUSES 2048u   /* clauses */
#define SIGVORT_MAX_LITERALS 8192u  /* literals of all clauses */
#define SIGVORT_MAX_GROUP 2048u     /* variables of a group */

/* The most bytes that the text of a session of n variables has, with so many clauses and so many literals in all of them; and any session's. */
#define SIGVORT_SAVED_ROOM(n, clauses, literals) ((size_t)80 + (size_t)41 * (n) + (size_t)2 * (clauses) + (size_t)5 * (literals))
#define SIGVORT_MAX_SAVED SIGVORT_SAVED_ROOM(SIGVORT_MAX_VARIABLES, SIGVORT_MAX_CLAUSES, SIGVORT_MAX_LITERALS)

/* No reason, no reply, no level, no variable, a place that is not in use. */
#define SIGVORT_NONE 4294967295u

/* The value of a variable that is not assigned; 0 is false and 1 is true. */
#define SIGVORT_UNASSIGNED 2u

/* The words of a call, and of an answer. */
#define SIGVORT_CALL_WORDS 3u
#define SIGVORT_ANSWER_WORDS 2u

/* The first word of a call: the letter that it has on a sheet. The second and third word stand behind it; one that is not named is 0. */
enum sigvort_letter {
    SIGVORT_BUMP = 98,         /* b: variable */
    SIGVORT_ENQUEUE = 101,     /* e: code; reason, a clause number or SIGVORT_NONE */
    SIGVORT_GROUP = 102,       /* f: first place in vars; count */
    SIGVORT_DECIDE = 103,      /* g: polarity, 0 or 1 */
    SIGVORT_INSERT = 105,      /* i: variable */
    SIGVORT_GO_BACK = 107,     /* k: level */
    SIGVORT_SWITCH_OFF = 111,  /* o: variable */
    SIGVORT_BUMP_REASON = 114, /* r: variable */
    SIGVORT_LEARN_UNIT = 117,  /* u: code */
    SIGVORT_SET_DECAY = 119,   /* w: high half of the double's bits; low half */
    SIGVORT_DECAY = 121        /* y: no argument */
};

/* A status that is not 0. Checked are first 4 to 7, which refuse a whole list, then of each call 3 and 8 to 14; of a text that is read first 15, then 4 to 7;
   in saving 4 to 7, then 2. The first that fits is given. */
enum sigvort_refusal {
    SIGVORT_NO_ROOM = 2,            /* in saving, the text is longer than the buffer; of a sheet, one of its buffers is too short */
    SIGVORT_BAD_FORM = 3,           /* the three words have not the form of a call, or the group does not lie in vars or is too long */
    SIGVORT_TOO_MANY_VARIABLES = 4, /* n is above SIGVORT_MAX_VARIABLES */
    SIGVORT_BAD_LENGTH = 5,         /* a length is not n, or not the stated count or the text's, or calls and answers do not fit each other */
    SIGVORT_BAD_CLAUSES = 6,        /* the clause list is not good */
    SIGVORT_BAD_STATE = 7,          /* the memory, or the text, holds no good session */
    SIGVORT_NO_VARIABLE = 8,        /* a variable, or a literal's variable, is n or more */
    SIGVORT_BAD_POLARITY = 9,       /* the polarity is neither 0 nor 1 */
    SIGVORT_NO_REASON = 10,         /* the reason is neither SIGVORT_NONE nor a clause number */
    SIGVORT_ASSIGNED = 11,          /* the variable is assigned; for a unit, at level 0 */
    SIGVORT_BAD_DECAY = 12,         /* the decay is NaN, below 0.5 or above 1 */
    SIGVORT_LARGE_STEP = 13,        /* the step would be above 1e200; heap mode only */
    SIGVORT_STUCK = 14,             /* nothing from search on is unassigned, yet some variable is; list mode only */
    SIGVORT_BAD_SAVED = 15          /* a line of a text is missing, out of its place or not of its form, or the text is of the other mode */
};

/* The code of a literal: twice the variable, plus 1 when it is positive. A variable above 2147483647 has none and gets the code of that one, which no
   session has, so that it is refused. */
static inline uint32_t sigvort_code(uint32_t variable, int positive)
{
    const uint32_t last = UINT32_MAX / 2;
    return 2 * (variable < last ? variable : last) + (positive ? 1u : 0u);
}

/* ---- Sessions: the entries ----

   Slices go as pointer and length, the small states as pointers to single numbers. These are the same in all entries of sessions:

   n           the number of variables, N
   literals    the stated length of lits
   clauses     the stated length of ends, the number of clauses
   lits        the codes of all clauses, one clause behind the other; written in reading a text, else only read
   ends        for each clause the place in lits behind its last code; likewise
   values      N bytes: 0, 1 or SIGVORT_UNASSIGNED
   levels      N words: the level of each assigned variable
   reasons     N words: a clause number, or SIGVORT_NONE
   trail       N words: the codes made true, in their order
   opened      N words: for each level the trail's length before its decision
   len         how much of trail is in use
   level       how much of opened is in use: the present level
   curr_i      the place from which a solver propagates, at most len. Going back, a learnt unit's too, sets it to the trail's length where it undoes
               something. No other call changes it: the solver moves it on, and may set it to anything up to len between lists

   These are of heap mode:

   activity    N doubles: the activity of each variable
   heap        N words: the members, in heap order
   indices     N words: the place of each variable in heap, or SIGVORT_NONE
   decision    N bytes: 1 where the variable is switched on, 0 where it is off
   members     how much of heap is in use
   inc, decay  the step that a bump adds, and what it decays by

   And these of list mode:

   next, prev  N words each: the variable behind, and the one before, or SIGVORT_NONE
   ts          N stamps of 64 bits, falling from the front of the list
   start       the front of the list, or SIGVORT_NONE
   search      where the search for an open variable begins, or SIGVORT_NONE
   timestamp   the next stamp

   A list of calls goes in and its answers come out in three slices:

   vars        the variables of all groups of the list; only read
   calls       three words for each call, see enum sigvort_letter; only read
   answers     two words for each call: status, 0 or a refusal; and reply. The reply is the variable decided, or the number undone by going back, and
               SIGVORT_NONE for other calls, for a decide that finds nothing open, and for refusals. Call i has the words 3i to 3i + 2 of calls, its
               answer the words 2i and 2i + 1

   Each entry returns 0, or the first refusal that fits. Then nothing at all is changed: neither memory nor small states nor clause list nor answers nor text
   nor written nor counts. */

/* Opens a session in heap mode: all variables unassigned, members and on, activities 0, step 1, decay 0.95.

   reads       n, the counts and the clause list; not what the memory holds, which may be anything
   writes      all N places of the nine arrays, and the six small states
   returns     0, or 4, 5, 6

   A call takes less than 1 KB of stack. */
uint32_t sigvort_heap_fresh(
    uint32_t n, uint32_t literals, uint32_t clauses,
    const uint32_t *lits, size_t lits_len, const uint32_t *ends, size_t ends_len,
    uint8_t *values, size_t values_len, uint32_t *levels, size_t levels_len, uint32_t *reasons, size_t reasons_len,
    uint32_t *trail, size_t trail_len, uint32_t *opened, size_t opened_len,
    double *activity, size_t activity_len, uint32_t *heap, size_t heap_len, uint32_t *indices, size_t indices_len,
    uint8_t *decision, size_t decision_len,
    uint32_t *len, uint32_t *level, uint32_t *curr_i, uint32_t *members, double *inc, double *decay);

/* Does a list of calls in heap mode. Clauses and memory are checked once, before the first call; then each call is done or refused by itself, and a
   refused one changes nothing. An empty list is accepted: it only checks.

   reads       everything lent, vars only where a group names them
   writes      the nine arrays, the six small states, and all of answers
   returns     0, or 4, 5, 6, 7; 5 also where calls_len is no multiple of 3, or answers_len is not two for each three of calls_len

   A call takes some 3 KB of stack. */
uint32_t sigvort_heap_calls(
    uint32_t n, uint32_t literals, uint32_t clauses,
    const uint32_t *lits, size_t lits_len, const uint32_t *ends, size_t ends_len,
    uint8_t *values, size_t values_len, uint32_t *levels, size_t levels_len, uint32_t *reasons, size_t reasons_len,
    uint32_t *trail, size_t trail_len, uint32_t *opened, size_t opened_len,
    double *activity, size_t activity_len, uint32_t *heap, size_t heap_len, uint32_t *indices, size_t indices_len,
    uint8_t *decision, size_t decision_len,
    uint32_t *len, uint32_t *level, uint32_t *curr_i, uint32_t *members, double *inc, double *decay,
    const uint32_t *vars, size_t vars_len, const uint32_t *calls, size_t calls_len, uint32_t *answers, size_t answers_len);

/* Opens a session in list mode: all variables unassigned, those that occur most in the clauses first, stamps N down to 1, search at the front.

   reads       n, the counts and the clause list; not what the memory holds, which may be anything
   writes      all N places of the eight arrays, and the six small states
   returns     0, or 4, 5, 6

   A call takes less than 1 KB of stack. */
uint32_t sigvort_list_fresh(
    uint32_t n, uint32_t literals, uint32_t clauses,
    const uint32_t *lits, size_t lits_len, const uint32_t *ends, size_t ends_len,
    uint8_t *values, size_t values_len, uint32_t *levels, size_t levels_len, uint32_t *reasons, size_t reasons_len,
    uint32_t *trail, size_t trail_len, uint32_t *opened, size_t opened_len,
    uint32_t *next, size_t next_len, uint32_t *prev, size_t prev_len, uint64_t *ts, size_t ts_len,
    uint32_t *len, uint32_t *level, uint32_t *curr_i, uint32_t *start, uint32_t *search, uint64_t *timestamp);

/* Does a list of calls in list mode, as sigvort_heap_calls does in heap mode.

   reads       everything lent, vars only where a group names them
   writes      the eight arrays, the six small states, and all of answers
   returns     0, or 4, 5, 6, 7; 5 also where calls_len is no multiple of 3, or answers_len is not two for each three of calls_len

   A call takes some 32 KB of stack. */
uint32_t sigvort_list_calls(
    uint32_t n, uint32_t literals, uint32_t clauses,
    const uint32_t *lits, size_t lits_len, const uint32_t *ends, size_t ends_len,
    uint8_t *values, size_t values_len, uint32_t *levels, size_t levels_len, uint32_t *reasons, size_t reasons_len,
    uint32_t *trail, size_t trail_len, uint32_t *opened, size_t opened_len,
    uint32_t *next, size_t next_len, uint32_t *prev, size_t prev_len, uint64_t *ts, size_t ts_len,
    uint32_t *len, uint32_t *level, uint32_t *curr_i, uint32_t *start, uint32_t *search, uint64_t *timestamp,
    const uint32_t *vars, size_t vars_len, const uint32_t *calls, size_t calls_len, uint32_t *answers, size_t answers_len);

/* ---- Saved sessions: the entries ----

   docs/SAVED.md has the text of a session. A session that is read gives the answers that the written one would have given. In saving the memory is only read,
   and the small states go by value; in reading memory, small states and clause list are written, from the text alone. */

/* Tells how much memory a text's session takes. This looks at the text's lines and their forms, not at limits nor at the state.

   text        a text; only read
   list        0 for a session in heap mode, 1 in list mode
   n           the number of variables
   literals, clauses  the lengths of lits and ends
   returns     0, or 15; then nothing is written

   A call takes less than 1 KB of stack. */
uint32_t sigvort_saved_counts(const uint8_t *text, size_t text_len, uint32_t *list, uint32_t *n, uint64_t *literals, uint64_t *clauses);

/* Saves a session in heap mode. Clauses and memory are checked as for a list of calls.

   reads       everything lent
   writes      text, the buffer: the text goes to its front, the bytes behind it stay as they were; and written, the text's length
   returns     0, or 4, 5, 6, 7, 2; 2 where the text is longer than the buffer, never where that has SIGVORT_SAVED_ROOM bytes

   A call takes some 28 KB of stack. */
uint32_t sigvort_heap_save(
    uint32_t n, uint32_t literals, uint32_t clauses,
    const uint32_t *lits, size_t lits_len, const uint32_t *ends, size_t ends_len,
    const uint8_t *values, size_t values_len, const uint32_t *levels, size_t levels_len, const uint32_t *reasons, size_t reasons_len,
    const uint32_t *trail, size_t trail_len, const uint32_t *opened, size_t opened_len,
    const double *activity, size_t activity_len, const uint32_t *heap, size_t heap_len, const uint32_t *indices, size_t indices_len,
    const uint8_t *decision, size_t decision_len,
    uint32_t len, uint32_t level, uint32_t curr_i, uint32_t members, double inc, double decay,
    uint8_t *text, size_t text_len, uint32_t *written);

/* Reads a session in heap mode. N is the length of each of the nine arrays.

   reads       text, a saved session; not what the memory holds, which may be anything
   writes      all places of lits, ends and the nine arrays, and the six small states. The level of a variable that is not assigned is SIGVORT_NONE
   returns     0, or 15, 4, 5, 6, 7; 15 also for a text in list mode, 5 where a length is not the text's count

   A call takes some 160 KB of stack. */
uint32_t sigvort_heap_read(
    const uint8_t *text, size_t text_len,
    uint32_t *lits, size_t lits_len, uint32_t *ends, size_t ends_len,
    uint8_t *values, size_t values_len, uint32_t *levels, size_t levels_len, uint32_t *reasons, size_t reasons_len,
    uint32_t *trail, size_t trail_len, uint32_t *opened, size_t opened_len,
    double *activity, size_t activity_len, uint32_t *heap, size_t heap_len, uint32_t *indices, size_t indices_len,
    uint8_t *decision, size_t decision_len,
    uint32_t *len, uint32_t *level, uint32_t *curr_i, uint32_t *members, double *inc, double *decay);

/* Saves a session in list mode, as sigvort_heap_save does in heap mode. A call takes some 28 KB of stack. */
uint32_t sigvort_list_save(
    uint32_t n, uint32_t literals, uint32_t clauses,
    const uint32_t *lits, size_t lits_len, const uint32_t *ends, size_t ends_len,
    const uint8_t *values, size_t values_len, const uint32_t *levels, size_t levels_len, const uint32_t *reasons, size_t reasons_len,
    const uint32_t *trail, size_t trail_len, const uint32_t *opened, size_t opened_len,
    const uint32_t *next, size_t next_len, const uint32_t *prev, size_t prev_len, const uint64_t *ts, size_t ts_len,
    uint32_t len, uint32_t level, uint32_t curr_i, uint32_t start, uint32_t search, uint64_t timestamp,
    uint8_t *text, size_t text_len, uint32_t *written);

/* Reads a session in list mode, as sigvort_heap_read does in heap mode: a text in heap mode gets 15, and N is the length of each of the eight arrays.
   A call takes some 160 KB of stack. */
uint32_t sigvort_list_read(
    const uint8_t *text, size_t text_len,
    uint32_t *lits, size_t lits_len, uint32_t *ends, size_t ends_len,
    uint8_t *values, size_t values_len, uint32_t *levels, size_t levels_len, uint32_t *reasons, size_t reasons_len,
    uint32_t *trail, size_t trail_len, uint32_t *opened, size_t opened_len,
    uint32_t *next, size_t next_len, uint32_t *prev, size_t prev_len, uint64_t *ts, size_t ts_len,
    uint32_t *len, uint32_t *level, uint32_t *curr_i, uint32_t *start, uint32_t *search, uint64_t *timestamp);

/* ---- The memory of a session ----

   Arrays of sigvort_places(n) places each and the small states, named as the entries name them. A caller may set the pointers itself, or have one block
   laid out by sigvort_heap_place and sigvort_list_place. The clause list may be changed between lists of calls: a solver that learns lends longer ones,
   in which the clauses that are reasons keep their numbers. */

/* A session in heap mode. */
struct sigvort_heap {
    uint32_t n;
    /* the clause list, only read */
    const uint32_t *lits, *ends;
    uint32_t literals, clauses;
    /* the trail */
    uint8_t *values;
    uint32_t *levels, *reasons, *trail, *opened;
    uint32_t len, level, curr_i;
    /* the heap */
    double *activity;
    uint32_t *heap, *indices;
    uint8_t *decision;
    uint32_t members;
    double inc, decay;
};

/* A session in list mode. */
struct sigvort_list {
    uint32_t n;
    /* the clause list, only read */
    const uint32_t *lits, *ends;
    uint32_t literals, clauses;
    /* the trail */
    uint8_t *values;
    uint32_t *levels, *reasons, *trail, *opened;
    uint32_t len, level, curr_i;
    /* the list */
    uint32_t *next, *prev;
    uint64_t *ts;
    uint32_t start, search;
    uint64_t timestamp;
};

/* What a text says of its size. */
struct sigvort_counts {
    uint32_t list; /* 0 for a session in heap mode, 1 in list mode */
    uint32_t n;
    uint64_t literals, clauses;
};

/* The places of each array: n, and no more than the limit. With more variables a session is refused, whatever its arrays. */
static inline size_t sigvort_places(uint32_t n)
{
    return n < SIGVORT_MAX_VARIABLES ? n : SIGVORT_MAX_VARIABLES;
}

/* The bytes of a block for a session of n variables in heap mode. Never 0, so that malloc gives a pointer for n = 0 too. */
static inline size_t sigvort_heap_bytes(uint32_t n)
{
    const size_t bytes = sigvort_places(n) * (sizeof(double) + 6 * sizeof(uint32_t) + 2);
    return bytes > 0 ? bytes : 1;
}

/* Lays the arrays out in a block of sigvort_heap_bytes(n) bytes, which is aligned as malloc aligns. The clause list is empty. */
static inline void sigvort_heap_place(struct sigvort_heap *s, uint32_t n, void *block)
{
    const size_t places = sigvort_places(n);
    double *const doubles = (double *)block;
    uint32_t *const words = (uint32_t *)(void *)(doubles + places);
    uint8_t *const bytes = (uint8_t *)(void *)(words + 6 * places);
    s->n = n;
    s->lits = s->ends = words;
    s->literals = s->clauses = 0;
    s->values = bytes;
    s->levels = words;
    s->reasons = words + places;
    s->trail = words + 2 * places;
    s->opened = words + 3 * places;
    s->len = s->level = s->curr_i = 0;
    s->activity = doubles;
    s->heap = words + 4 * places;
    s->indices = words + 5 * places;
    s->decision = bytes + places;
    s->members = 0;
    s->inc = s->decay = 0;
}

/* The bytes of a block for a session of n variables in list mode. Never 0, so that malloc gives a pointer for n = 0 too. */
static inline size_t sigvort_list_bytes(uint32_t n)
{
    const size_t bytes = sigvort_places(n) * (sizeof(uint64_t) + 6 * sizeof(uint32_t) + 1);
    return bytes > 0 ? bytes : 1;
}

/* Lays the arrays out in a block of sigvort_list_bytes(n) bytes, which is aligned as malloc aligns. The clause list is empty. */
static inline void sigvort_list_place(struct sigvort_list *s, uint32_t n, void *block)
{
    const size_t places = sigvort_places(n);
    uint64_t *const stamps = (uint64_t *)block;
    uint32_t *const words = (uint32_t *)(void *)(stamps + places);
    s->n = n;
    s->lits = s->ends = words;
    s->literals = s->clauses = 0;
    s->values = (uint8_t *)(void *)(words + 6 * places);
    s->levels = words;
    s->reasons = words + places;
    s->trail = words + 2 * places;
    s->opened = words + 3 * places;
    s->len = s->level = s->curr_i = 0;
    s->next = words + 4 * places;
    s->prev = words + 5 * places;
    s->ts = stamps;
    s->start = s->search = SIGVORT_NONE;
    s->timestamp = 0;
}

/* ---- The entries on a struct ----

   A slice without places may be null here, as the data() of an empty std::vector is. The entries get another pointer for it. */

/* What that pointer points to. */
union sigvort_nothing {
    uint64_t stamp;
    double number;
    uint32_t word;
    uint8_t byte;
};

/* A slice as two arguments: pointer, of one of these kinds, and length. */
#define SIGVORT_SLICE(kind, pointer, places) ((places) > 0 ? (pointer) : &none.kind), (places)

/* Opens a session in the memory of s: sigvort_heap_fresh. */
static inline uint32_t sigvort_heap_open(struct sigvort_heap *s)
{
    const size_t places = sigvort_places(s->n);
    union sigvort_nothing none = {0};
    return sigvort_heap_fresh(
        s->n, s->literals, s->clauses, SIGVORT_SLICE(word, s->lits, s->literals), SIGVORT_SLICE(word, s->ends, s->clauses),
        SIGVORT_SLICE(byte, s->values, places), SIGVORT_SLICE(word, s->levels, places), SIGVORT_SLICE(word, s->reasons, places),
        SIGVORT_SLICE(word, s->trail, places), SIGVORT_SLICE(word, s->opened, places),
        SIGVORT_SLICE(number, s->activity, places), SIGVORT_SLICE(word, s->heap, places), SIGVORT_SLICE(word, s->indices, places),
        SIGVORT_SLICE(byte, s->decision, places),
        &s->len, &s->level, &s->curr_i, &s->members, &s->inc, &s->decay);
}

/* Does a list of calls on s: sigvort_heap_calls. */
static inline uint32_t sigvort_heap_do(
    struct sigvort_heap *s, const uint32_t *vars, size_t vars_len,
    const uint32_t *calls, size_t calls_len, uint32_t *answers, size_t answers_len)
{
    const size_t places = sigvort_places(s->n);
    union sigvort_nothing none = {0};
    return sigvort_heap_calls(
        s->n, s->literals, s->clauses, SIGVORT_SLICE(word, s->lits, s->literals), SIGVORT_SLICE(word, s->ends, s->clauses),
        SIGVORT_SLICE(byte, s->values, places), SIGVORT_SLICE(word, s->levels, places), SIGVORT_SLICE(word, s->reasons, places),
        SIGVORT_SLICE(word, s->trail, places), SIGVORT_SLICE(word, s->opened, places),
        SIGVORT_SLICE(number, s->activity, places), SIGVORT_SLICE(word, s->heap, places), SIGVORT_SLICE(word, s->indices, places),
        SIGVORT_SLICE(byte, s->decision, places),
        &s->len, &s->level, &s->curr_i, &s->members, &s->inc, &s->decay,
        SIGVORT_SLICE(word, vars, vars_len), SIGVORT_SLICE(word, calls, calls_len), SIGVORT_SLICE(word, answers, answers_len));
}

/* Opens a session in the memory of s: sigvort_list_fresh. */
static inline uint32_t sigvort_list_open(struct sigvort_list *s)
{
    const size_t places = sigvort_places(s->n);
    union sigvort_nothing none = {0};
    return sigvort_list_fresh(
        s->n, s->literals, s->clauses, SIGVORT_SLICE(word, s->lits, s->literals), SIGVORT_SLICE(word, s->ends, s->clauses),
        SIGVORT_SLICE(byte, s->values, places), SIGVORT_SLICE(word, s->levels, places), SIGVORT_SLICE(word, s->reasons, places),
        SIGVORT_SLICE(word, s->trail, places), SIGVORT_SLICE(word, s->opened, places),
        SIGVORT_SLICE(word, s->next, places), SIGVORT_SLICE(word, s->prev, places), SIGVORT_SLICE(stamp, s->ts, places),
        &s->len, &s->level, &s->curr_i, &s->start, &s->search, &s->timestamp);
}

/* Does a list of calls on s: sigvort_list_calls. */
static inline uint32_t sigvort_list_do(
    struct sigvort_list *s, const uint32_t *vars, size_t vars_len,
    const uint32_t *calls, size_t calls_len, uint32_t *answers, size_t answers_len)
{
    const size_t places = sigvort_places(s->n);
    union sigvort_nothing none = {0};
    return sigvort_list_calls(
        s->n, s->literals, s->clauses, SIGVORT_SLICE(word, s->lits, s->literals), SIGVORT_SLICE(word, s->ends, s->clauses),
        SIGVORT_SLICE(byte, s->values, places), SIGVORT_SLICE(word, s->levels, places), SIGVORT_SLICE(word, s->reasons, places),
        SIGVORT_SLICE(word, s->trail, places), SIGVORT_SLICE(word, s->opened, places),
        SIGVORT_SLICE(word, s->next, places), SIGVORT_SLICE(word, s->prev, places), SIGVORT_SLICE(stamp, s->ts, places),
        &s->len, &s->level, &s->curr_i, &s->start, &s->search, &s->timestamp,
        SIGVORT_SLICE(word, vars, vars_len), SIGVORT_SLICE(word, calls, calls_len), SIGVORT_SLICE(word, answers, answers_len));
}

/* Tells what a text says of its size: sigvort_saved_counts. Where it is refused, c stays as it was. */
static inline uint32_t sigvort_counts_of(struct sigvort_counts *c, const uint8_t *text, size_t text_len)
{
    union sigvort_nothing none = {0};
    return sigvort_saved_counts(SIGVORT_SLICE(byte, text, text_len), &c->list, &c->n, &c->literals, &c->clauses);
}

/* Saves the session in the memory of s to the front of text, and tells how many bytes that are: sigvort_heap_save. Where it is refused, text and written stay
   as they were. */
static inline uint32_t sigvort_heap_to_text(const struct sigvort_heap *s, uint8_t *text, size_t text_len, uint32_t *written)
{
    const size_t places = sigvort_places(s->n);
    union sigvort_nothing none = {0};
    return sigvort_heap_save(
        s->n, s->literals, s->clauses, SIGVORT_SLICE(word, s->lits, s->literals), SIGVORT_SLICE(word, s->ends, s->clauses),
        SIGVORT_SLICE(byte, s->values, places), SIGVORT_SLICE(word, s->levels, places), SIGVORT_SLICE(word, s->reasons, places),
        SIGVORT_SLICE(word, s->trail, places), SIGVORT_SLICE(word, s->opened, places),
        SIGVORT_SLICE(number, s->activity, places), SIGVORT_SLICE(word, s->heap, places), SIGVORT_SLICE(word, s->indices, places),
        SIGVORT_SLICE(byte, s->decision, places),
        s->len, s->level, s->curr_i, s->members, s->inc, s->decay,
        SIGVORT_SLICE(byte, text, text_len), written);
}

/* Reads a session into the memory of s, and its clauses into lits and ends, which s lends from then on: sigvort_heap_read. The text's counts are s->n,
   literals and clauses; an s->n above 2,048 counts as 2,048, and s->n is what was read. Where the text is refused, s stays as it was. */
static inline uint32_t sigvort_heap_from_text(
    struct sigvort_heap *s, const uint8_t *text, size_t text_len, uint32_t *lits, size_t literals, uint32_t *ends, size_t clauses)
{
    const size_t places = sigvort_places(s->n);
    union sigvort_nothing none = {0};
    const uint32_t status = sigvort_heap_read(
        SIGVORT_SLICE(byte, text, text_len), SIGVORT_SLICE(word, lits, literals), SIGVORT_SLICE(word, ends, clauses),
        SIGVORT_SLICE(byte, s->values, places), SIGVORT_SLICE(word, s->levels, places), SIGVORT_SLICE(word, s->reasons, places),
        SIGVORT_SLICE(word, s->trail, places), SIGVORT_SLICE(word, s->opened, places),
        SIGVORT_SLICE(number, s->activity, places), SIGVORT_SLICE(word, s->heap, places), SIGVORT_SLICE(word, s->indices, places),
        SIGVORT_SLICE(byte, s->decision, places),
        &s->len, &s->level, &s->curr_i, &s->members, &s->inc, &s->decay);
    if (status != 0)
        return status;
    s->n = (uint32_t)places;
    s->lits = lits;
    s->literals = (uint32_t)literals;
    s->ends = ends;
    s->clauses = (uint32_t)clauses;
    return 0;
}

/* Saves the session in the memory of s to the front of text, and tells how many bytes that are: sigvort_list_save. Where it is refused, text and written stay
   as they were. */
static inline uint32_t sigvort_list_to_text(const struct sigvort_list *s, uint8_t *text, size_t text_len, uint32_t *written)
{
    const size_t places = sigvort_places(s->n);
    union sigvort_nothing none = {0};
    return sigvort_list_save(
        s->n, s->literals, s->clauses, SIGVORT_SLICE(word, s->lits, s->literals), SIGVORT_SLICE(word, s->ends, s->clauses),
        SIGVORT_SLICE(byte, s->values, places), SIGVORT_SLICE(word, s->levels, places), SIGVORT_SLICE(word, s->reasons, places),
        SIGVORT_SLICE(word, s->trail, places), SIGVORT_SLICE(word, s->opened, places),
        SIGVORT_SLICE(word, s->next, places), SIGVORT_SLICE(word, s->prev, places), SIGVORT_SLICE(stamp, s->ts, places),
        s->len, s->level, s->curr_i, s->start, s->search, s->timestamp,
        SIGVORT_SLICE(byte, text, text_len), written);
}

/* Reads a session into the memory of s, and its clauses into lits and ends, which s lends from then on: sigvort_list_read. The text's counts are s->n,
   literals and clauses; an s->n above 2,048 counts as 2,048, and s->n is what was read. Where the text is refused, s stays as it was. */
static inline uint32_t sigvort_list_from_text(
    struct sigvort_list *s, const uint8_t *text, size_t text_len, uint32_t *lits, size_t literals, uint32_t *ends, size_t clauses)
{
    const size_t places = sigvort_places(s->n);
    union sigvort_nothing none = {0};
    const uint32_t status = sigvort_list_read(
        SIGVORT_SLICE(byte, text, text_len), SIGVORT_SLICE(word, lits, literals), SIGVORT_SLICE(word, ends, clauses),
        SIGVORT_SLICE(byte, s->values, places), SIGVORT_SLICE(word, s->levels, places), SIGVORT_SLICE(word, s->reasons, places),
        SIGVORT_SLICE(word, s->trail, places), SIGVORT_SLICE(word, s->opened, places),
        SIGVORT_SLICE(word, s->next, places), SIGVORT_SLICE(word, s->prev, places), SIGVORT_SLICE(stamp, s->ts, places),
        &s->len, &s->level, &s->curr_i, &s->start, &s->search, &s->timestamp);
    if (status != 0)
        return status;
    s->n = (uint32_t)places;
    s->lits = lits;
    s->literals = (uint32_t)literals;
    s->ends = ends;
    s->clauses = (uint32_t)clauses;
    return 0;
}

#undef SIGVORT_SLICE

/* ---- One call at a time ----

   A list of one call: all of the memory is checked for it, so a solver hands over lists where it can. Each function returns 0 or the refusal, be it of
   the list or of the call. Those with a pointer for the reply write it in any case, SIGVORT_NONE where there is none.
   Calls that change nothing in a mode have no function of their own; sigvort_heap_one and sigvort_list_one take them by their letter, and sigvort_heap_do
   a group that names variables. */

/* Any call but a group that names variables, by its three words. */
static inline uint32_t sigvort_heap_one(struct sigvort_heap *s, uint32_t letter, uint32_t first, uint32_t second, uint32_t *reply)
{
    const uint32_t call[SIGVORT_CALL_WORDS] = {letter, first, second};
    uint32_t answer[SIGVORT_ANSWER_WORDS] = {0, SIGVORT_NONE};
    const uint32_t status = sigvort_heap_do(s, call, 0, call, SIGVORT_CALL_WORDS, answer, SIGVORT_ANSWER_WORDS);
    *reply = answer[1];
    return status != 0 ? status : answer[0];
}

/* Adds the step to the variable's activity. */
static inline uint32_t sigvort_heap_bump(struct sigvort_heap *s, uint32_t variable)
{
    uint32_t reply;
    return sigvort_heap_one(s, SIGVORT_BUMP, variable, 0, &reply);
}

/* Multiplies the step by 1 / decay. */
static inline uint32_t sigvort_heap_decay(struct sigvort_heap *s)
{
    uint32_t reply;
    return sigvort_heap_one(s, SIGVORT_DECAY, 0, 0, &reply);
}

/* Sets the decay, 0.5 to 1. */
static inline uint32_t sigvort_heap_set_decay(struct sigvort_heap *s, double decay)
{
    uint32_t reply;
    uint64_t bits;
    memcpy(&bits, &decay, sizeof bits);
    return sigvort_heap_one(s, SIGVORT_SET_DECAY, (uint32_t)(bits >> 32), (uint32_t)bits, &reply);
}

/* Puts the variable into the heap, if it is on and no member. */
static inline uint32_t sigvort_heap_insert(struct sigvort_heap *s, uint32_t variable)
{
    uint32_t reply;
    return sigvort_heap_one(s, SIGVORT_INSERT, variable, 0, &reply);
}

/* Switches the variable off: it is not decided any more. */
static inline uint32_t sigvort_heap_switch_off(struct sigvort_heap *s, uint32_t variable)
{
    uint32_t reply;
    return sigvort_heap_one(s, SIGVORT_SWITCH_OFF, variable, 0, &reply);
}

/* Chooses an open variable, opens a level and gives it the polarity, 0 or 1. The variable is SIGVORT_NONE if nothing is open. */
static inline uint32_t sigvort_heap_decide(struct sigvort_heap *s, uint32_t polarity, uint32_t *variable)
{
    return sigvort_heap_one(s, SIGVORT_DECIDE, polarity, 0, variable);
}

/* Makes the literal true at the present level, for a clause or for SIGVORT_NONE. */
static inline uint32_t sigvort_heap_enqueue(struct sigvort_heap *s, uint32_t code, uint32_t reason)
{
    uint32_t reply;
    return sigvort_heap_one(s, SIGVORT_ENQUEUE, code, reason, &reply);
}

/* Goes back to level 0 and makes the literal true there. */
static inline uint32_t sigvort_heap_learn_unit(struct sigvort_heap *s, uint32_t code)
{
    uint32_t reply;
    return sigvort_heap_one(s, SIGVORT_LEARN_UNIT, code, 0, &reply);
}

/* Goes back to the level; tells how many variables were undone. */
static inline uint32_t sigvort_heap_go_back(struct sigvort_heap *s, uint32_t level, uint32_t *undone)
{
    return sigvort_heap_one(s, SIGVORT_GO_BACK, level, 0, undone);
}

/* Bumps each variable of the variable's reason clause except the first; without a reason none. */
static inline uint32_t sigvort_heap_bump_reason(struct sigvort_heap *s, uint32_t variable)
{
    uint32_t reply;
    return sigvort_heap_one(s, SIGVORT_BUMP_REASON, variable, 0, &reply);
}

/* Any call but a group that names variables, by its three words. */
static inline uint32_t sigvort_list_one(struct sigvort_list *s, uint32_t letter, uint32_t first, uint32_t second, uint32_t *reply)
{
    const uint32_t call[SIGVORT_CALL_WORDS] = {letter, first, second};
    uint32_t answer[SIGVORT_ANSWER_WORDS] = {0, SIGVORT_NONE};
    const uint32_t status = sigvort_list_do(s, call, 0, call, SIGVORT_CALL_WORDS, answer, SIGVORT_ANSWER_WORDS);
    *reply = answer[1];
    return status != 0 ? status : answer[0];
}

/* Chooses an open variable, opens a level and gives it the polarity, 0 or 1. The variable is SIGVORT_NONE if nothing is open. After SIGVORT_STUCK the caller
   may set search to start and decide again; docs/NATIVE.md says what is proved then. */
static inline uint32_t sigvort_list_decide(struct sigvort_list *s, uint32_t polarity, uint32_t *variable)
{
    return sigvort_list_one(s, SIGVORT_DECIDE, polarity, 0, variable);
}

/* Makes the literal true at the present level, for a clause or for SIGVORT_NONE. */
static inline uint32_t sigvort_list_enqueue(struct sigvort_list *s, uint32_t code, uint32_t reason)
{
    uint32_t reply;
    return sigvort_list_one(s, SIGVORT_ENQUEUE, code, reason, &reply);
}

/* Goes back to level 0 and makes the literal true there. */
static inline uint32_t sigvort_list_learn_unit(struct sigvort_list *s, uint32_t code)
{
    uint32_t reply;
    return sigvort_list_one(s, SIGVORT_LEARN_UNIT, code, 0, &reply);
}

/* Goes back to the level; tells how many variables were undone. */
static inline uint32_t sigvort_list_go_back(struct sigvort_list *s, uint32_t level, uint32_t *undone)
{
    return sigvort_list_one(s, SIGVORT_GO_BACK, level, 0, undone);
}

/* Moves the variables to the front of the list, where they keep their order among themselves. */
static inline uint32_t sigvort_list_group(struct sigvort_list *s, const uint32_t *vars, uint32_t count)
{
    const uint32_t call[SIGVORT_CALL_WORDS] = {SIGVORT_GROUP, 0, count};
    uint32_t answer[SIGVORT_ANSWER_WORDS] = {0, SIGVORT_NONE};
    const uint32_t status = sigvort_list_do(s, vars, count, call, SIGVORT_CALL_WORDS, answer, SIGVORT_ANSWER_WORDS);
    return status != 0 ? status : answer[0];
}

#ifdef __cplusplus
}
#endif

#endif
