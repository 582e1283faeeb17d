/* What the parts of the test of the calls from C share: checks that are counted, what a call is lent, and
 * calls accepted and refused.
 */
#ifndef CHECKS_H
#define CHECKS_H

#include "order.h"

enum {
    TABLE_A = 44, /* the bytes of table A */
    ENTRIES = 4,  /* the longest schedule of table A */
    ROUTE = ORDER_ROUTE_ROOM(ENTRIES)
};

/* The specification's table A, as main read it. */
extern uint8_t table_a[TABLE_A];

/* How many checks failed. A failed one prints a line. */
extern int failures;

void expect(int holds, const char *call, const char *what);
void expect_number(size_t is, size_t wanted, const char *call, const char *what);

/* What a call is lent, with copies to compare with. */
typedef struct {
    uint8_t table[ORDER_TABLE_MOST], table_before[ORDER_TABLE_MOST];
    size_t table_length;
    uint8_t first[ENTRIES + 4], first_before[ENTRIES + 4];
    size_t first_length;
    uint8_t second[ENTRIES + 4], second_before[ENTRIES + 4];
    size_t second_length;
    uint8_t bytes[ORDER_REPORT_ROOM + 8], bytes_before[ORDER_REPORT_ROOM + 8]; /* for a report, a page or a drawn schedule */
    size_t bytes_length;
    uint16_t route[ROUTE + 2], route_before[ROUTE + 2];
    size_t route_length;
} Lent;

/* A table and two schedules, with room enough, in buffers full of a pattern. */
Lent lend(const uint8_t *table, size_t table_length, const uint8_t *first, size_t first_length,
          const uint8_t *second, size_t second_length);

/* The same, of table A. */
Lent with(const uint8_t *first, size_t first_length, const uint8_t *second, size_t second_length);

/* Nothing changed but the first of the lent bytes and the first entries of the route. */
void expect_kept(const Lent *lent, size_t bytes, size_t route, const char *call);

/* An answer refused, with every other field 0. */
void expect_check_refused(OrderCheck answer, uint32_t number, uint32_t position);
void expect_run_refused(OrderRun answer, uint32_t number, uint32_t position);
void expect_ready_refused(OrderReady answer, uint32_t number, uint32_t position);
void expect_page_refused(OrderPage answer, uint32_t number, uint32_t position);
void expect_draw_refused(OrderDraw answer, uint32_t number, uint32_t position);
void expect_pair_refused(OrderPair answer, uint32_t number, uint32_t position);
void expect_same_refused(OrderSame answer, uint32_t number, uint32_t position);
void expect_route_refused(OrderRoute answer, uint32_t number, uint32_t position);

/* A call refused, and what it was lent as it was. */
void check_refused(Lent lent, uint32_t number, uint32_t position);
void run_refused(Lent lent, uint32_t number, uint32_t position);
void ready_refused(Lent lent, uint32_t number, uint32_t position);
void page_refused(Lent lent, uint32_t number, uint32_t position);
void draw_refused(Lent lent, uint32_t number, uint32_t position);
void pair_refused(Lent lent, const uint8_t steps[4], uint32_t number, uint32_t position);
void same_refused(Lent lent, uint32_t number, uint32_t position);
void prefix_refused(Lent lent, uint32_t number, uint32_t position);
void route_refused(Lent lent, uint32_t number, uint32_t position);

/* An entry of a schedule of this table refused, by every call: `number` in the only schedule or the first of two,
 * `second` in the second.
 */
void entry_refused(const uint8_t *table, size_t table_length, const uint8_t *schedule, size_t length, uint32_t number,
                   uint32_t second, uint32_t position);

/* A call accepted with this answer, and the rest of what it was lent as it was. */
void ready_is(Lent lent, uint32_t mask, uint32_t count, uint32_t ending);
void page_is(Lent lent, const char *page);
void draw_is(Lent lent, uint32_t seed, const uint8_t *schedule, size_t length, uint32_t ending);

/* Cells of a page that hold 0. */
#define ZERO "          0"
#define FOUR ZERO ZERO ZERO ZERO

/* The parts. */
void tables(void);
void stepping(void);
void lines(void);
void sums(void);
void draws(void);
void verdicts(void);
void recordings(void);
void compared(void);
void journal(void);
void locks(void);
void empty_slices(void);

#endif
