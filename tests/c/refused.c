/* Each call refused: the number and the position, every other field 0, and what was lent as it was. */
#include "checks.h"

static void expect_refusal(uint32_t refusal, uint32_t is, uint32_t number, uint32_t position, const char *call)
{
    expect_number(refusal, number, call, "the refusal");
    expect_number(is, position, call, "the position");
}

void expect_check_refused(OrderCheck answer, uint32_t number, uint32_t position)
{
    expect_refusal(answer.refusal, answer.position, number, position, "order_check");
}

void expect_run_refused(OrderRun answer, uint32_t number, uint32_t position)
{
    expect_refusal(answer.refusal, answer.position, number, position, "order_run");
    expect_number(answer.length, 0, "order_run", "the length at a refusal");
}

void expect_ready_refused(OrderReady answer, uint32_t number, uint32_t position)
{
    expect_refusal(answer.refusal, answer.position, number, position, "order_ready");
    expect_number(answer.mask, 0, "order_ready", "the mask at a refusal");
    expect_number(answer.count, 0, "order_ready", "the count at a refusal");
    expect_number(answer.ending, 0, "order_ready", "the ending at a refusal");
}

void expect_page_refused(OrderPage answer, uint32_t number, uint32_t position)
{
    expect_refusal(answer.refusal, answer.position, number, position, "order_page");
    expect_number(answer.length, 0, "order_page", "the length at a refusal");
}

void expect_draw_refused(OrderDraw answer, uint32_t number, uint32_t position)
{
    expect_refusal(answer.refusal, answer.position, number, position, "order_draw");
    expect_number(answer.length, 0, "order_draw", "the length at a refusal");
}

void expect_pair_refused(OrderPair answer, uint32_t number, uint32_t position)
{
    expect_refusal(answer.refusal, answer.position, number, position, "order_pair");
    expect_number(answer.verdict, 0, "order_pair", "the verdict at a refusal");
}

void expect_same_refused(OrderSame answer, uint32_t number, uint32_t position)
{
    expect_refusal(answer.refusal, answer.position, number, position, "order_same");
    expect_number(answer.verdict, 0, "order_same", "the verdict at a refusal");
    expect_number(answer.pairs, 0, "order_same", "the pairs compared at a refusal");
}

void expect_route_refused(OrderRoute answer, uint32_t number, uint32_t position)
{
    expect_refusal(answer.refusal, answer.position, number, position, "order_route");
    expect_number(answer.length, 0, "order_route", "the length at a refusal");
}

void check_refused(Lent lent, uint32_t number, uint32_t position)
{
    expect_check_refused(order_check(lent.table, lent.table_length), number, position);
    expect_kept(&lent, 0, 0, "order_check");
}

void run_refused(Lent lent, uint32_t number, uint32_t position)
{
    OrderRun answer = order_run(lent.table, lent.table_length, lent.first, lent.first_length, lent.bytes,
                                lent.bytes_length);
    expect_run_refused(answer, number, position);
    expect_kept(&lent, 0, 0, "order_run");
}

void ready_refused(Lent lent, uint32_t number, uint32_t position)
{
    OrderReady answer = order_ready(lent.table, lent.table_length, lent.first, lent.first_length);
    expect_ready_refused(answer, number, position);
    expect_kept(&lent, 0, 0, "order_ready");
}

void page_refused(Lent lent, uint32_t number, uint32_t position)
{
    OrderPage answer = order_page(lent.table, lent.table_length, lent.first, lent.first_length, lent.bytes,
                                  lent.bytes_length);
    expect_page_refused(answer, number, position);
    expect_kept(&lent, 0, 0, "order_page");
}

void draw_refused(Lent lent, uint32_t number, uint32_t position)
{
    OrderDraw answer = order_draw(lent.table, lent.table_length, 1, lent.bytes, lent.bytes_length);
    expect_draw_refused(answer, number, position);
    expect_kept(&lent, 0, 0, "order_draw");
}

void pair_refused(Lent lent, const uint8_t steps[4], uint32_t number, uint32_t position)
{
    OrderPair answer = order_pair(lent.table, lent.table_length, steps[0], steps[1], steps[2], steps[3]);
    expect_pair_refused(answer, number, position);
    expect_kept(&lent, 0, 0, "order_pair");
}

void same_refused(Lent lent, uint32_t number, uint32_t position)
{
    OrderSame answer = order_same(lent.table, lent.table_length, lent.first, lent.first_length, lent.second,
                                  lent.second_length);
    expect_same_refused(answer, number, position);
    expect_kept(&lent, 0, 0, "order_same");
}

void prefix_refused(Lent lent, uint32_t number, uint32_t position)
{
    OrderSame answer = order_prefix(lent.table, lent.table_length, lent.first, lent.first_length, lent.second,
                                    lent.second_length);
    expect_same_refused(answer, number, position);
    expect_kept(&lent, 0, 0, "order_prefix");
}

void route_refused(Lent lent, uint32_t number, uint32_t position)
{
    OrderRoute answer = order_route(lent.table, lent.table_length, lent.first, lent.first_length, lent.second,
                                    lent.second_length, lent.route, lent.route_length);
    expect_route_refused(answer, number, position);
    expect_kept(&lent, 0, 0, "order_route");
}

void entry_refused(const uint8_t *table, size_t table_length, const uint8_t *schedule, size_t length, uint32_t number,
                   uint32_t second, uint32_t position)
{
    Lent lent = lend(table, table_length, schedule, length, schedule, 0);
    run_refused(lent, number, position);
    ready_refused(lent, number, position);
    page_refused(lent, number, position);
    /* The first schedule's refusal comes before the second's. */
    static const uint8_t absent[] = {7};
    lent = lend(table, table_length, schedule, length, absent, 1);
    same_refused(lent, number, position);
    route_refused(lent, number, position);
    prefix_refused(lend(table, table_length, schedule, length, schedule, length), number, position);
    lent = lend(table, table_length, schedule, 0, schedule, length);
    same_refused(lent, second, position);
    route_refused(lent, second, position);
}
