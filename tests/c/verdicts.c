/* order_pair, order_same and order_route. */
#include "checks.h"

#include <string.h>

static void pairs(const uint8_t steps[4], uint32_t verdict)
{
    Lent lent = with(table_a, 0, table_a, 0);
    OrderPair answer = order_pair(lent.table, lent.table_length, steps[0], steps[1], steps[2], steps[3]);
    expect_number(answer.refusal, ORDER_ACCEPTED, "order_pair", "the refusal");
    expect_number(answer.position, 0, "order_pair", "the position");
    expect_number(answer.verdict, verdict, "order_pair", "the verdict");
    expect_kept(&lent, 0, 0, "order_pair");
}

static void sames(Lent lent, uint32_t verdict, uint32_t compared)
{
    OrderSame answer = order_same(lent.table, lent.table_length, lent.first, lent.first_length, lent.second,
                                  lent.second_length);
    expect_number(answer.refusal, ORDER_ACCEPTED, "order_same", "the refusal");
    expect_number(answer.position, 0, "order_same", "the position");
    expect_number(answer.verdict, verdict, "order_same", "the verdict");
    expect_number(answer.pairs, compared, "order_same", "the pairs compared");
    expect_kept(&lent, 0, 0, "order_same");
}

/* The first schedule with the route's exchanges made. */
static void replay(const Lent *lent, size_t length, uint8_t schedule[ENTRIES])
{
    memcpy(schedule, lent->first, ENTRIES);
    for (size_t i = 0; i < length; i++) {
        size_t k = lent->route[i];
        expect(k + 1 < lent->first_length, "order_route", "a position has no neighbour");
        if (k + 1 < lent->first_length) {
            uint8_t entry = schedule[k];
            schedule[k] = schedule[k + 1];
            schedule[k + 1] = entry;
        }
    }
}

static void routes(Lent lent)
{
    OrderRoute answer = order_route(lent.table, lent.table_length, lent.first, lent.first_length, lent.second,
                                    lent.second_length, lent.route, lent.route_length);
    expect_number(answer.refusal, ORDER_ACCEPTED, "order_route", "the refusal");
    expect_number(answer.position, 0, "order_route", "the position");
    size_t most = ORDER_ROUTE_ROOM(lent.first_length);
    expect(answer.length <= most, "order_route", "the route is too long");
    if (answer.length > most) {
        return;
    }
    uint8_t schedule[ENTRIES];
    replay(&lent, answer.length, schedule);
    expect(memcmp(schedule, lent.second, lent.second_length) == 0, "order_route",
           "the route does not lead to the second schedule");
    expect_kept(&lent, 0, answer.length, "order_route");
}

void verdicts(void)
{
    /* (g) */
    static const uint8_t apart[4] = {0, 1, 1, 0}, bound[4] = {0, 1, 1, 1}, own[4] = {1, 0, 1, 1};
    static const uint8_t no_actor[4] = {2, 0, 0, 0}, no_action[4] = {0, 0, 1, 2};
    pairs(apart, ORDER_INDEPENDENT);
    pairs(bound, ORDER_DEPENDENT);
    pairs(own, ORDER_DEPENDENT);
    pair_refused(with(apart, 0, apart, 0), no_actor, ORDER_REFUSED_NO_STEP, 0);
    pair_refused(with(apart, 0, apart, 0), no_action, ORDER_REFUSED_NO_STEP, 0);
    /* (h) */
    static const uint8_t first[] = {0, 0, 1, 1}, second[] = {1, 0, 0, 1};
    sames(with(first, 4, second, 4), ORDER_SAME, 6);
    sames(with(first, 4, first, 4), ORDER_SAME, 6);
    sames(with(first, 4, first, 3), ORDER_DIFFERENT, 0);
    sames(with(first, 2, second, 2), ORDER_DIFFERENT, 0);
    routes(with(first, 4, second, 4));
    routes(with(second, 4, first, 4));
    routes(with(first, 4, first, 4));
    /* 19 comes before 18; one entry or none wants no room. */
    Lent lent = with(first, 4, second, 3);
    lent.route_length = 0;
    route_refused(lent, ORDER_REFUSED_DIFFERENT, 0);
    lent = with(first, 4, second, 4);
    lent.route_length = ROUTE - 1;
    route_refused(lent, ORDER_REFUSED_ROUTE_ROOM, 0);
    lent = with(first, 1, first, 1);
    lent.route_length = ORDER_ROUTE_ROOM(1);
    routes(lent);
    lent = with(first, 0, first, 0);
    lent.route_length = ORDER_ROUTE_ROOM(0);
    routes(lent);
}
