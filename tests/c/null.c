/* `NULL, 0` for every slice of every call: each alone, and all together. What is still lent is compared.
 * order_remainder's are in recordings.c.
 */
#include "checks.h"

static const uint8_t first[] = {0, 0, 1, 1}, second[] = {1, 0, 0, 1};

static Lent both(void)
{
    return with(first, sizeof first, second, sizeof second);
}

static void checks_and_pairs(void)
{
    expect_check_refused(order_check(NULL, 0), ORDER_REFUSED_SHORT_TABLE, 0);
    expect_pair_refused(order_pair(NULL, 0, 0, 1, 1, 0), ORDER_REFUSED_SHORT_TABLE, 0);
}

static void runs(void)
{
    Lent lent = both();
    OrderRun answer = order_run(NULL, 0, lent.first, lent.first_length, lent.bytes, lent.bytes_length);
    expect_run_refused(answer, ORDER_REFUSED_SHORT_TABLE, 0);
    expect_kept(&lent, 0, 0, "order_run without a table");

    answer = order_run(lent.table, lent.table_length, lent.first, lent.first_length, NULL, 0);
    expect_run_refused(answer, ORDER_REFUSED_REPORT_ROOM, 0);
    expect_kept(&lent, 0, 0, "order_run without a buffer");

    answer = order_run(NULL, 0, NULL, 0, NULL, 0);
    expect_run_refused(answer, ORDER_REFUSED_REPORT_ROOM, 0);

    /* A fresh site. */
    answer = order_run(lent.table, lent.table_length, NULL, 0, lent.bytes, lent.bytes_length);
    expect_number(answer.refusal, ORDER_ACCEPTED, "order_run without a schedule", "the refusal");
    expect_number(answer.length, 102, "order_run without a schedule", "the report's length");
    for (size_t i = 0; i < 102; i++) {
        expect_number(lent.bytes[i], 0, "order_run without a schedule", "a byte of the report");
    }
    expect_kept(&lent, 102, 0, "order_run without a schedule");
}

static void readies(void)
{
    Lent lent = both();
    expect_ready_refused(order_ready(NULL, 0, lent.first, lent.first_length), ORDER_REFUSED_SHORT_TABLE, 0);
    expect_ready_refused(order_ready(NULL, 0, NULL, 0), ORDER_REFUSED_SHORT_TABLE, 0);

    OrderReady answer = order_ready(lent.table, lent.table_length, NULL, 0);
    expect_number(answer.refusal, ORDER_ACCEPTED, "order_ready without a schedule", "the refusal");
    expect_number(answer.mask, 3, "order_ready without a schedule", "the mask");
    expect_number(answer.count, 2, "order_ready without a schedule", "the count");
    expect_number(answer.ending, ORDER_GOING, "order_ready without a schedule", "the ending");
    expect_kept(&lent, 0, 0, "order_ready");
}

static void pages(void)
{
    Lent lent = both();
    OrderPage answer = order_page(NULL, 0, lent.first, lent.first_length, lent.bytes, lent.bytes_length);
    expect_page_refused(answer, ORDER_REFUSED_SHORT_TABLE, 0);
    answer = order_page(lent.table, lent.table_length, lent.first, lent.first_length, NULL, 0);
    expect_page_refused(answer, ORDER_REFUSED_PAGE_ROOM, 0);
    expect_page_refused(order_page(NULL, 0, NULL, 0, NULL, 0), ORDER_REFUSED_PAGE_ROOM, 0);
    expect_kept(&lent, 0, 0, "order_page without a table or a buffer");

    answer = order_page(lent.table, lent.table_length, NULL, 0, lent.bytes, lent.bytes_length);
    expect_number(answer.refusal, ORDER_ACCEPTED, "order_page without a schedule", "the refusal");
    expect_number(answer.length, 204, "order_page without a schedule", "the page's length");
    expect_kept(&lent, 204, 0, "order_page without a schedule");
}

static void drawing(void)
{
    Lent lent = both();
    OrderDraw answer = order_draw(NULL, 0, 1, lent.bytes, lent.bytes_length);
    expect_draw_refused(answer, ORDER_REFUSED_SHORT_TABLE, 0);
    answer = order_draw(lent.table, lent.table_length, 1, NULL, 0);
    expect_draw_refused(answer, ORDER_REFUSED_SCHEDULE_ROOM, 0);
    expect_draw_refused(order_draw(NULL, 0, 1, NULL, 0), ORDER_REFUSED_SCHEDULE_ROOM, 0);
    expect_kept(&lent, 0, 0, "order_draw without a table or a buffer");
}

static void expect_verdict(OrderSame answer, uint32_t verdict)
{
    expect_number(answer.refusal, ORDER_ACCEPTED, "a verdict without a schedule", "the refusal");
    expect_number(answer.verdict, verdict, "a verdict without a schedule", "the verdict");
    expect_number(answer.pairs, 0, "a verdict without a schedule", "the pairs compared");
}

/* order_same or order_prefix, with its verdict on a schedule against none. */
static void judged(OrderSame call(const uint8_t *, size_t, const uint8_t *, size_t, const uint8_t *, size_t),
                   const char *name, uint32_t against_none)
{
    Lent lent = both();
    OrderSame answer = call(NULL, 0, lent.first, lent.first_length, lent.second, lent.second_length);
    expect_same_refused(answer, ORDER_REFUSED_SHORT_TABLE, 0);
    expect_same_refused(call(NULL, 0, NULL, 0, NULL, 0), ORDER_REFUSED_SHORT_TABLE, 0);

    answer = call(lent.table, lent.table_length, NULL, 0, lent.second, lent.second_length);
    expect_verdict(answer, against_none);
    answer = call(lent.table, lent.table_length, lent.first, lent.first_length, NULL, 0);
    expect_verdict(answer, against_none);
    expect_verdict(call(lent.table, lent.table_length, NULL, 0, NULL, 0), ORDER_SAME);
    expect_kept(&lent, 0, 0, name);
}

static void expect_no_exchange(OrderRoute answer)
{
    expect_number(answer.refusal, ORDER_ACCEPTED, "order_route of two empty schedules", "the refusal");
    expect_number(answer.length, 0, "order_route of two empty schedules", "the length");
}

static void routes(void)
{
    Lent lent = both();
    OrderRoute answer = order_route(NULL, 0, lent.first, lent.first_length, lent.second, lent.second_length,
                                    lent.route, lent.route_length);
    expect_route_refused(answer, ORDER_REFUSED_SHORT_TABLE, 0);
    answer = order_route(lent.table, lent.table_length, NULL, 0, lent.second, lent.second_length, lent.route,
                         lent.route_length);
    expect_route_refused(answer, ORDER_REFUSED_DIFFERENT, 0);
    answer = order_route(lent.table, lent.table_length, lent.first, lent.first_length, NULL, 0, lent.route,
                         lent.route_length);
    expect_route_refused(answer, ORDER_REFUSED_DIFFERENT, 0);
    answer = order_route(lent.table, lent.table_length, lent.first, lent.first_length, lent.second,
                         lent.second_length, NULL, 0);
    expect_route_refused(answer, ORDER_REFUSED_ROUTE_ROOM, 0);
    expect_route_refused(order_route(NULL, 0, NULL, 0, NULL, 0, NULL, 0), ORDER_REFUSED_SHORT_TABLE, 0);

    expect_no_exchange(order_route(lent.table, lent.table_length, NULL, 0, NULL, 0, NULL, 0));
    answer = order_route(lent.table, lent.table_length, NULL, 0, NULL, 0, lent.route, lent.route_length);
    expect_no_exchange(answer);
    answer = order_route(lent.table, lent.table_length, lent.first, 1, lent.first, 1, NULL, 0);
    expect_no_exchange(answer);
    expect_kept(&lent, 0, 0, "order_route");
}

void empty_slices(void)
{
    checks_and_pairs();
    runs();
    readies();
    pages();
    drawing();
    judged(order_same, "order_same", ORDER_DIFFERENT);
    judged(order_prefix, "order_prefix", ORDER_SAME);
    routes();
}
