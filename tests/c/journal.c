/* Notes: the journal at the report's end to the byte, the largest report, what a Note is refused for, and which steps
 * may trade places with it.
 */
#include "checks.h"

#include <string.h>

/* Actor 0 sends, locks and notes; actor 1 sets a cell, notes it, clears it and notes it again. */
static const uint8_t noting[] = {
    1, 2, 1, 1, 12, 0, 3, 0, 36, 0, 4, 0, /* two actors, with three and four actions; a mailbox and a mutex */
    3, 0, 0, 0, 0, 0, 0, 0,               /* 0.0 Send to mailbox 0 */
    7, 0, 0, 0, 0, 0, 0, 0,               /* 0.1 Lock mutex 0 */
    11, 7, 0, 0, 0, 0, 0, 0,              /* 0.2 Note cell 7 */
    0, 2, 0, 0, 1, 2, 3, 4,               /* 1.0 Set cell 2 */
    11, 2, 0, 0, 0, 0, 0, 0,              /* 1.1 Note cell 2 */
    0, 2, 0, 0, 0, 0, 0, 0,               /* 1.2 Set cell 2 to 0 */
    11, 2, 0, 0, 0, 0, 0, 0,              /* 1.3 Note cell 2 */
};
enum { QUEUES = 2 * 33 + 7 * 8 }; /* where the mailbox begins */

static Lent after(const uint8_t *schedule, size_t length, const uint8_t *second, size_t second_length)
{
    return lend(noting, sizeof noting, schedule, length, second, second_length);
}

/* The report's bytes from the mailbox on, with so many bytes lent. */
static void ends(Lent lent, size_t room, const uint8_t *end, size_t length)
{
    lent.bytes_length = room;
    OrderRun answer = order_run(lent.table, lent.table_length, lent.first, lent.first_length, lent.bytes,
                                lent.bytes_length);
    expect_number(answer.refusal, ORDER_ACCEPTED, "order_run of Notes", "the refusal");
    expect_number(answer.position, 0, "order_run of Notes", "the position");
    expect_number(answer.length, (uint32_t)(QUEUES + length), "order_run of Notes", "the report's length");
    expect(memcmp(lent.bytes + QUEUES, end, length) == 0, "order_run of Notes", "the report ends otherwise");
    expect_kept(&lent, QUEUES + length, 0, "order_run of Notes");
}

static void entries(void)
{
    static const uint8_t whole[] = {0, 1, 1, 0, 0, 1, 1}, other[] = {0, 0, 0, 1, 1, 1, 1};
    static const uint8_t fresh[] = {0, 0, 0, 0, 0};
    static const uint8_t one[] = {1, 0, 0, 0, 0, /* the Send waits, the mutex is free */
                                  1, 0, 1, 1, 1, 2, 3, 4};
    static const uint8_t all[] = {1, 0, 0, 0, 1, 0, 1, /* the Send waits, actor 0 owns the mutex with depth 1 */
                                  3, 0, 1, 1, 1, 2, 3, 4, 0, 2, 0, 0, 0, 0, 1, 3, 0, 0, 0, 0};
    static const uint8_t first[] = {1, 0, 0, 0, 1, 0, 1, 3, 0, 0, 2, 0, 0, 0, 0, 1, 1, 1, 2, 3, 4, 1, 3, 0, 0, 0, 0};
    static const size_t rooms[] = {ORDER_REPORT_ROOM, ORDER_REPORT_ROOM + 1};
    for (size_t i = 0; i < 2; i++) {
        ends(after(whole, 0, whole, 0), rooms[i], fresh, sizeof fresh);
        ends(after(whole, 3, whole, 0), rooms[i], one, sizeof one);
        ends(after(whole, 7, whole, 0), rooms[i], all, sizeof all);
        ends(after(other, 7, other, 0), rooms[i], first, sizeof first);
    }
    Lent lent = after(whole, 7, whole, 0);
    lent.bytes_length = 2912;
    run_refused(lent, ORDER_REFUSED_REPORT_ROOM, 0);
    ready_is(after(whole, 1, whole, 0), 3, 2, ORDER_GOING);
    ready_is(after(whole, 7, whole, 0), 0, 0, ORDER_FINISHED);
    page_is(after(whole, 4, whole, 0),
            "0  2 ready   " FOUR FOUR "\n"
            "1  2 ready   " ZERO ZERO "   67305985" ZERO FOUR "\n");
}

/* Eight actors with 32 Notes each, eight mailboxes and eight mutexes: the longest report, and nothing after it. */
static void longest(void)
{
    enum { LONGEST = 3874, JOURNAL = LONGEST - 6 * ORDER_SCHEDULE_MOST };
    uint8_t table[ORDER_TABLE_MOST] = {1, 8, 8, 8}, schedule[ORDER_SCHEDULE_MOST], report[ORDER_REPORT_ROOM];
    for (size_t actor = 0; actor < 8; actor++) {
        size_t offset = 36 + 256 * actor;
        table[4 + 4 * actor] = (uint8_t)(offset & 0xff);
        table[5 + 4 * actor] = (uint8_t)(offset >> 8);
        table[6 + 4 * actor] = 32;
    }
    for (size_t i = 0; i < ORDER_SCHEDULE_MOST; i++) {
        table[36 + 8 * i] = 11;
        schedule[i] = (uint8_t)(7 - i % 8);
    }
    memset(report, 0xa5, sizeof report);
    OrderRun answer = order_run(table, sizeof table, schedule, sizeof schedule, report, sizeof report);
    expect_number(answer.length, LONGEST, "order_run", "the longest report's length");
    expect(report[JOURNAL - 2] == 0 && report[JOURNAL - 1] == 1, "order_run", "the number of entries is not 256");
    for (size_t i = 0; i < ORDER_SCHEDULE_MOST; i++) {
        const uint8_t entry[6] = {schedule[i], (uint8_t)(i / 8), 0, 0, 0, 0};
        expect(memcmp(report + JOURNAL + 6 * i, entry, 6) == 0, "order_run", "an entry of the longest report");
    }
    for (size_t i = LONGEST; i < sizeof report; i++) {
        expect_number(report[i], 0xa5, "order_run", "a byte after the longest report");
    }
}

/* One actor with a Note of which a byte is replaced. */
static void note_with(size_t at, uint8_t byte, uint32_t number)
{
    uint8_t table[] = {1, 1, 0, 0, 8, 0, 1, 0, 11, 7, 0, 0, 0, 0, 0, 0};
    table[8 + at] = byte;
    Lent lent = lend(table, sizeof table, table, 0, table, 0);
    check_refused(lent, number, number == ORDER_ACCEPTED ? 0 : 8);
    if (number != ORDER_ACCEPTED) {
        run_refused(lent, number, 8);
        draw_refused(lent, number, 8);
    }
}

static void refused(void)
{
    note_with(0, 11, ORDER_ACCEPTED);
    note_with(0, 12, ORDER_REFUSED_KIND);
    note_with(0, 255, ORDER_REFUSED_KIND);
    note_with(1, 8, ORDER_REFUSED_RANGE);
    note_with(1, 255, ORDER_REFUSED_RANGE);
    for (size_t at = 2; at < 8; at++) {
        note_with(at, 1, ORDER_REFUSED_UNUSED);
        note_with(at, 128, ORDER_REFUSED_UNUSED);
    }
    static const uint8_t listed[] = {
        1, 1, 0, 0, 8, 0, 2, 0, 11, 0, 0, 0, 0, 0, 0, 0, 5, 0, 0, 1, 0, 0, 0, 0, /* a Test that lists a Note */
    };
    check_refused(lend(listed, sizeof listed, listed, 0, listed, 0), ORDER_REFUSED_LISTED, 16);
}

static void paired(uint8_t a, uint8_t k, uint8_t b, uint8_t l, uint32_t verdict)
{
    OrderPair answer = order_pair(noting, sizeof noting, a, k, b, l);
    OrderPair back = order_pair(noting, sizeof noting, b, l, a, k);
    expect_number(answer.refusal, ORDER_ACCEPTED, "order_pair of a Note", "the refusal");
    expect_number(answer.verdict, verdict, "order_pair of a Note", "the verdict");
    expect_number(back.verdict, verdict, "order_pair of a Note", "the verdict the other way round");
}

static void judged(Lent lent, uint32_t verdict, uint32_t compared)
{
    OrderSame answer = order_same(lent.table, lent.table_length, lent.first, lent.first_length, lent.second,
                                  lent.second_length);
    expect_number(answer.refusal, ORDER_ACCEPTED, "order_same of Notes", "the refusal");
    expect_number(answer.verdict, verdict, "order_same of Notes", "the verdict");
    expect_number(answer.pairs, compared, "order_same of Notes", "the pairs compared");
    answer = order_prefix(lent.table, lent.table_length, lent.first, lent.first_length, lent.second,
                          lent.second_length);
    expect_number(answer.verdict, verdict, "order_prefix of Notes", "the verdict");
    expect_number(answer.pairs, compared, "order_prefix of Notes", "the pairs compared");
    expect_kept(&lent, 0, 0, "order_same of Notes");
}

static void verdict(void)
{
    paired(0, 2, 1, 1, ORDER_DEPENDENT);
    paired(0, 2, 1, 3, ORDER_DEPENDENT);
    paired(1, 1, 1, 3, ORDER_DEPENDENT);
    paired(1, 1, 1, 2, ORDER_DEPENDENT);
    paired(0, 2, 1, 0, ORDER_INDEPENDENT);
    paired(0, 0, 1, 1, ORDER_INDEPENDENT);
    paired(0, 1, 1, 3, ORDER_INDEPENDENT);
    static const uint8_t first[] = {0, 0, 1, 0, 1}, notes[] = {0, 0, 1, 1, 0}, apart[] = {0, 1, 0, 0, 1};
    judged(after(first, 5, notes, 5), ORDER_DIFFERENT, 10);
    judged(after(first, 5, apart, 5), ORDER_SAME, 10);
    Lent lent = after(first, 5, notes, 5);
    route_refused(lent, ORDER_REFUSED_DIFFERENT, 0);
    /* A Send and the other actor's Note trade places. */
    static const uint8_t sent[] = {1, 0, 1}, noted[] = {1, 1, 0};
    lent = after(sent, 3, noted, 3);
    judged(lent, ORDER_SAME, 3);
    OrderRoute route = order_route(lent.table, lent.table_length, lent.first, 3, lent.second, 3, lent.route,
                                   lent.route_length);
    expect_number(route.length, 1, "order_route across a Note", "the length");
    expect_number(lent.route[0], 1, "order_route across a Note", "the exchange");
    expect_kept(&lent, 0, 1, "order_route across a Note");
}

void journal(void)
{
    entries();
    longest();
    refused();
    verdict();
}
