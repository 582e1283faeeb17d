/* order_run and order_ready, and the refusals of a schedule's entry but for those of a total. */
#include "checks.h"

#include <string.h>

static void runs(void)
{
    static const uint8_t whole[] = {0, 1, 0, 1};
    Lent lent = with(whole, 4, whole, 0);
    OrderRun answer = order_run(lent.table, lent.table_length, lent.first, lent.first_length, lent.bytes,
                                lent.bytes_length);
    /* (a) */
    static const uint8_t cells[8] = {149, 0, 0, 0, 1, 0, 0, 0};
    expect_number(answer.refusal, ORDER_ACCEPTED, "order_run", "the refusal");
    expect_number(answer.position, 0, "order_run", "the position");
    expect_number(answer.length, 102, "order_run", "the report's length");
    expect(memcmp(lent.bytes + 42, cells, 8) == 0, "order_run", "actor 1's cells 2 and 3 are not 149 and 1");
    expect(lent.bytes[100] == 0 && lent.bytes[101] == 0, "order_run", "the journal is not empty");
    expect_kept(&lent, 102, 0, "order_run");

    lent = with(whole, 4, whole, 0);
    lent.bytes_length = ORDER_REPORT_ROOM - 1;
    run_refused(lent, ORDER_REFUSED_REPORT_ROOM, 0);
    /* It comes before all else. */
    lent.table_length = 0;
    run_refused(lent, ORDER_REFUSED_REPORT_ROOM, 0);
}

void stepping(void)
{
    static const uint8_t one[] = {1, 1};
    static const uint8_t done[] = {0, 0, 0};
    static const uint8_t absent[] = {2};
    static const uint8_t whole[] = {0, 1, 0, 1};
    static const uint8_t waits[] = {
        1, 1, 0, 1, 8, 0, 1, 0, 10, 0, 0, 1, 0, 0, 0, 0, /* one actor that waits for a mutex */
    };
    runs();
    /* (b), (c), (d) */
    entry_refused(table_a, TABLE_A, one, 2, ORDER_REFUSED_NOT_READY, ORDER_REFUSED_SECOND_NOT_READY, 1);
    entry_refused(table_a, TABLE_A, done, 3, ORDER_REFUSED_FINISHED, ORDER_REFUSED_SECOND_FINISHED, 2);
    entry_refused(table_a, TABLE_A, absent, 1, ORDER_REFUSED_NO_ACTOR, ORDER_REFUSED_SECOND_NO_ACTOR, 0);
    /* (e), (f) */
    ready_is(with(one, 0, one, 0), 3, 2, ORDER_GOING);
    ready_is(with(one, 1, one, 0), 1, 1, ORDER_GOING);
    ready_is(with(whole, 4, whole, 0), 0, 0, ORDER_FINISHED);
    ready_is(lend(waits, sizeof waits, waits, 0, waits, 0), 0, 0, ORDER_STUCK);
}
