/* The order engine's calls for C. The library is target/staticlib/liborder_ffi.a, for x86-64 Linux.
 *
 * A slice is passed as a pointer and a number of elements. A call reads and writes no byte outside
 * the slices that it is lent, and writes only the report, the page, the drawn schedule and the route; it
 * keeps no pointer and has no state, so that calls may run in several threads at once. Where the number is
 * 0, the pointer may be null. Otherwise it points at so many elements and is aligned for their type. A
 * slice that is written shares no byte with another.
 *
 * In every answer but that of order_remainder, which refuses nothing, `refusal` is 0 where the call
 * accepted, otherwise the number of the refusal, and `position` is its position; the other fields are
 * then 0. A call that refuses changes nothing that it was lent. docs/FORMAT.md says what the bytes of a
 * table, of a report and of a page are.
 */
#ifndef ORDER_H
#define ORDER_H

#include <stddef.h>
#include <stdint.h>

#ifdef __cplusplus
extern "C" {
#endif

/* Why a call refuses: what `refusal` is in every answer. */
enum OrderRefusal {
    ORDER_ACCEPTED = 0,

    /* The table, in this order; position 0. */
    ORDER_REFUSED_SHORT_TABLE = 1, /* it has under 4 bytes */
    ORDER_REFUSED_EDITION = 2,     /* its edition is not 1 */
    ORDER_REFUSED_COUNT = 3,       /* the number of actors, mailboxes or mutexes is out of its range */
    ORDER_REFUSED_DIRECTORY = 4,   /* the directory is cut short, or an entry has a wrong offset or over 32 actions */
    ORDER_REFUSED_TABLE_END = 5,   /* it does not end with the last actor's last action */

    /* Each action of the table in turn, in this order; position its offset. */
    ORDER_REFUSED_KIND = 6,   /* the kind is over 11 */
    ORDER_REFUSED_RANGE = 7,  /* a cell, mailbox, mutex, list length or listed mutex is out of range */
    ORDER_REFUSED_LISTED = 8, /* a listed action is not a lower Send or Receive of its actor */
    ORDER_REFUSED_UNUSED = 9, /* a byte without a use is not 0 */

    /* The report buffer; position 0. */
    ORDER_REFUSED_REPORT_ROOM = 10, /* it has under ORDER_REPORT_ROOM bytes */

    /* An entry of the schedule, or of the first of two; position its index. */
    ORDER_REFUSED_NO_ACTOR = 11,  /* it names no actor */
    ORDER_REFUSED_FINISHED = 12,  /* its actor is finished */
    ORDER_REFUSED_NOT_READY = 13, /* its actor is not ready: it waits */

    /* An entry of the second schedule; position its index. */
    ORDER_REFUSED_SECOND_NO_ACTOR = 14,  /* it names no actor */
    ORDER_REFUSED_SECOND_FINISHED = 15,  /* its actor is finished */
    ORDER_REFUSED_SECOND_NOT_READY = 16, /* its actor is not ready: it waits */

    /* The names of two steps; position 0. */
    ORDER_REFUSED_NO_STEP = 17, /* one of them, or both, is not in the table */

    /* The route; position 0. */
    ORDER_REFUSED_ROUTE_ROOM = 18, /* its buffer has under ORDER_ROUTE_ROOM(m) entries, m the schedules' length */
    ORDER_REFUSED_DIFFERENT = 19,  /* the schedules are different: there is none */

    /* The page buffer; position 0. */
    ORDER_REFUSED_PAGE_ROOM = 20, /* it has under ORDER_PAGE_ROOM bytes */

    /* An entry, in the place of 13 and of 16 where its actor's next step is an Add whose sum would pass
     * 4,294,967,295, so that it is never ready; position its index.
     */
    ORDER_REFUSED_OVER = 21,        /* of the schedule, or of the first of two */
    ORDER_REFUSED_SECOND_OVER = 22, /* of the second schedule */

    /* The buffer for a schedule that is made; position 0. */
    ORDER_REFUSED_SCHEDULE_ROOM = 23 /* it has under ORDER_SCHEDULE_MOST bytes */
};

/* The longest table has so many bytes, and the longest accepted schedule so many entries. */
#define ORDER_TABLE_MOST 2084
#define ORDER_SCHEDULE_MOST 256

/* Whether a file is a task table. */
typedef struct {
    uint32_t refusal;
    uint32_t position;
} OrderCheck;

/* Reads `length` bytes at `table`, of any length, as a task table. Refusals: 1 to 9. */
OrderCheck order_check(const uint8_t *table, size_t length);

/* The bytes that order_run wants lent. No report is longer. */
#define ORDER_REPORT_ROOM 4514

/* What a run answers: the length of the report that was written. */
typedef struct {
    uint32_t refusal;
    uint32_t position;
    uint32_t length;
} OrderRun;

/* Runs a schedule, one byte for each entry, from a fresh site and writes the state report of its end into
 * the first bytes of `report`: the actors, their actions, the mailboxes, the mutexes, each with the number of actors
 * queued for it and two bytes for each of them, its number and its depth, and, last, the journal, the number of its
 * entries in 16 bits and six bytes for each. The bytes after it stay as they were. Refusals, in this order: 10;
 * 1 to 9; 11 to 13 and 21.
 */
OrderRun order_run(const uint8_t *table, size_t table_length, const uint8_t *schedule, size_t schedule_length,
                   uint8_t *report, size_t report_length);

/* How a state stands. */
enum OrderEnding {
    ORDER_FINISHED = 0, /* every actor is finished */
    ORDER_STUCK = 1,    /* not every actor is finished, and none is ready: all that are left wait or run over */
    ORDER_GOING = 2     /* some actor is ready */
};

/* The ready answer: bit i of `mask`, from the lowest, is actor i's, `count` is how many are ready, `ending` is
 * an OrderEnding.
 */
typedef struct {
    uint32_t refusal;
    uint32_t position;
    uint32_t mask;
    uint32_t count;
    uint32_t ending;
} OrderReady;

/* Which actors are ready at the end of a schedule from a fresh site. Refusals, in this order: 1 to 9; 11 to 13
 * and 21.
 */
OrderReady order_ready(const uint8_t *table, size_t table_length, const uint8_t *schedule, size_t schedule_length);

/* The bytes that order_page wants lent. No page is longer. */
#define ORDER_PAGE_ROOM 816

/* What a page call answers: the number of bytes that were laid out. */
typedef struct {
    uint32_t refusal;
    uint32_t position;
    uint32_t length;
} OrderPage;

/* Runs a schedule from a fresh site and lays its end state out as a text in the first bytes of `page`: for each
 * actor a line of 101 characters and a line feed, with its number, position, status (`ready`, `waits`, `over` or
 * `finished`) and cells. No 0 follows it, and the bytes after it stay as they were. Refusals, in this order: 20;
 * 1 to 9; 11 to 13 and 21.
 */
OrderPage order_page(const uint8_t *table, size_t table_length, const uint8_t *schedule, size_t schedule_length,
                     uint8_t *page, size_t page_length);

/* What a draw answers: the number of entries that were written. */
typedef struct {
    uint32_t refusal;
    uint32_t position;
    uint32_t length;
} OrderDraw;

/* Makes the schedule that a seed determines and writes it into the first bytes of `schedule`, which wants
 * ORDER_SCHEDULE_MOST bytes whatever the table: one byte for each entry, as order_run takes it. x begins as the seed.
 * Before each step x becomes 1664525 x + 1013904223 modulo 2^32, and of the ready actors, in ascending order, the one
 * with the rank (x div 65536) modulo their number is stepped, counted from 0; also where there is one alone. It ends
 * when nobody is ready, finished or stuck. The bytes after the entries stay as they were. Refusals, in this order: 23;
 * 1 to 9.
 */
OrderDraw order_draw(const uint8_t *table, size_t table_length, uint32_t seed, uint8_t *schedule,
                     size_t schedule_length);

/* What order_pair says of two steps. */
enum OrderPairVerdict {
    ORDER_INDEPENDENT = 0, /* they may trade places where they are neighbours */
    ORDER_DEPENDENT = 1    /* their order matters */
};

/* The pair verdict: `verdict` is an OrderPairVerdict. */
typedef struct {
    uint32_t refusal;
    uint32_t position;
    uint32_t verdict;
} OrderPair;

/* Whether two steps, each named by its actor and action, are dependent, judged from the table alone. Two steps of one
 * actor are; those of two actors in the five cases that docs/FORMAT.md has. Refusals, in this order: 1 to 9; 17.
 */
OrderPair order_pair(const uint8_t *table, size_t table_length, uint8_t first_actor, uint8_t first_action,
                     uint8_t second_actor, uint8_t second_action);

/* What order_same says of two schedules. */
enum OrderSameVerdict {
    ORDER_DIFFERENT = 0, /* no exchanges turn the first into the second */
    ORDER_SAME = 1       /* some do: the two are one run */
};

/* The same verdict: `verdict` is an OrderSameVerdict, `pairs` how many pairs of entries were compared.
 *
 * Pairs of entries i < j of the first schedule, counted from 0, are compared by rising j, then rising i, and the search
 * ends with the first dependent pair that the second runs in the opposite order. `pairs` is
 *   m (m - 1) / 2, all of them, where the verdict is ORDER_SAME, m being the number of entries;
 *   0 where the lengths differ or the two did not run the same steps: nothing was compared;
 *   otherwise j (j - 1) / 2 + i + 1, the pair that ended the search included; each number tells one pair.
 */
typedef struct {
    uint32_t refusal;
    uint32_t position;
    uint32_t verdict;
    uint32_t pairs;
} OrderSame;

/* Whether exchanges of independent neighbours turn the first schedule into the second, and how many pairs were
 * compared. Schedules of different lengths are different. Refusals, in this order: 1 to 9; 11 to 13 and 21; 14 to 16
 * and 22.
 */
OrderSame order_same(const uint8_t *table, size_t table_length, const uint8_t *first, size_t first_length,
                     const uint8_t *second, size_t second_length);

/* The same verdict on two recordings as far as both go: the longer is held to the length of the shorter, and
 * entries after that are not stepped. `verdict` and `pairs` are of these parts. Refusals of them, in this order:
 * 1 to 9; 11 to 13 and 21; 14 to 16 and 22.
 */
OrderSame order_prefix(const uint8_t *table, size_t table_length, const uint8_t *first, size_t first_length,
                       const uint8_t *second, size_t second_length);

/* Which of two recordings. */
enum OrderRecording {
    ORDER_FIRST = 1,
    ORDER_SECOND = 2
};

/* A remainder: the last `length` entries of `recording`, an OrderRecording, from index `from` on. */
typedef struct {
    uint32_t recording;
    size_t from;
    size_t length;
} OrderRemainder;

/* The remainder of the longer recording after the length of the shorter; with equal lengths the empty end of the
 * first. It looks at the two lengths only and refuses nothing.
 */
OrderRemainder order_remainder(const uint8_t *first, size_t first_length, const uint8_t *second,
                               size_t second_length);

/* The entries that order_route wants lent for schedules of m entries: m (m - 1) / 2. A constant where m is one;
 * m is evaluated twice.
 */
#define ORDER_ROUTE_ROOM(m) ((size_t)(m) * ((size_t)(m) - 1) / 2)

/* What a route answers: the number of positions that were written. */
typedef struct {
    uint32_t refusal;
    uint32_t position;
    uint32_t length;
} OrderRoute;

/* Writes a route from the first schedule to the second into the first entries of `route`: positions k,
 * each exchanging entries k and k + 1 of what the ones before it left. The entries after it stay as they
 * were. `route_length` counts entries, not bytes. Refusals, in this order: 1 to 9; 11 to 13 and 21; 14 to 16 and 22;
 * 19; 18.
 */
OrderRoute order_route(const uint8_t *table, size_t table_length, const uint8_t *first, size_t first_length,
                       const uint8_t *second, size_t second_length, uint16_t *route, size_t route_length);

#ifdef __cplusplus
}
#endif

#endif
