/* Locks taken twice: who is queued and how deep, to the byte; who owns a mutex between two Unlocks; every depth; the
 * room; and what may trade places.
 */
#include "checks.h"

#include <string.h>

enum { MOST_ACTORS = 8, MOST_ACTIONS = 32 };

/* A table with one mutex. */
typedef struct {
    uint8_t bytes[ORDER_TABLE_MOST];
    size_t length, queue; /* queue: where the mutex begins in a report */
} Site;

/* An actor for each text, a letter for each of its actions, all on mutex 0: L Lock, U Unlock, T MutexTest with the
 * result in cell 0, W MutexWait with the result in cell 1.
 */
static Site site(size_t actors, const char *const scripts[])
{
    Site made = {{1, (uint8_t)actors, 0, 1}, 4 + 4 * actors, 33 * actors};
    for (size_t actor = 0; actor < actors; actor++) {
        size_t count = strlen(scripts[actor]);
        uint8_t *entry = made.bytes + 4 + 4 * actor;
        entry[0] = (uint8_t)(made.length & 0xff);
        entry[1] = (uint8_t)(made.length >> 8);
        entry[2] = (uint8_t)count;
        for (size_t i = 0; i < count; i++) {
            uint8_t *action = made.bytes + made.length;
            switch (scripts[actor][i]) {
            case 'L': action[0] = 7; break;
            case 'U': action[0] = 8; break;
            case 'T': action[0] = 9; action[3] = 1; break;
            default: action[0] = 10; action[1] = 1; action[3] = 1; break;
            }
            made.length += 8;
            made.queue += 8;
        }
    }
    return made;
}

/* The entries of a schedule written as digits; how many they are. */
static size_t entries(const char *digits, uint8_t schedule[ORDER_SCHEDULE_MOST])
{
    size_t length = strlen(digits);
    for (size_t i = 0; i < length; i++) {
        schedule[i] = (uint8_t)(digits[i] - '0');
    }
    return length;
}

/* The mutex after a schedule, with so many bytes lent: an actor and a depth for each that is queued, as digits. */
static void queue_with(size_t room, const Site *made, const char *digits, const char *queue)
{
    uint8_t schedule[ORDER_SCHEDULE_MOST], report[ORDER_REPORT_ROOM + 8];
    size_t length = entries(digits, schedule), queued = strlen(queue);
    memset(report, 0xa5, sizeof report);
    OrderRun answer = order_run(made->bytes, made->length, schedule, length, report, room);
    expect_number(answer.refusal, ORDER_ACCEPTED, digits, "the refusal");
    expect_number(answer.position, 0, digits, "the position");
    expect_number(answer.length, (uint32_t)(made->queue + 1 + queued + 2), digits, "the report's length");
    const uint8_t *section = report + made->queue;
    expect_number(section[0], (uint32_t)(queued / 2), digits, "the number of actors queued");
    for (size_t i = 0; i < queued; i++) {
        expect_number(section[1 + i], (uint32_t)(queue[i] - '0'), digits,
                      i % 2 == 0 ? "an actor queued" : "a depth");
    }
    expect(section[1 + queued] == 0 && section[2 + queued] == 0, digits, "the journal is not empty");
    for (size_t i = answer.length; i < sizeof report; i++) {
        expect_number(report[i], 0xa5, digits, "a byte after the report");
    }
}

static void queue_is(const Site *made, const char *digits, const char *queue)
{
    queue_with(ORDER_REPORT_ROOM, made, digits, queue);
    queue_with(ORDER_REPORT_ROOM + 1, made, digits, queue);
}

static void queues(void)
{
    static const char *const deepen[] = {"LLL", "LLL", "LLL"}, *const count[] = {"LLUUUL", "LLUUUL", "LLUUUL"};
    Site three = site(3, deepen);
    queue_is(&three, "", "");
    queue_is(&three, "102", "110121");
    queue_is(&three, "1021", "120121"); /* a second Lock by the owner, by one in the middle, by the last */
    queue_is(&three, "1020", "110221");
    queue_is(&three, "10222", "110123");
    three = site(3, count);
    queue_is(&three, "0011220", "011222"); /* an Unlock at depth 2: the place stays */
    queue_is(&three, "0011221", "021122");
    queue_is(&three, "0011222", "021221");
    queue_is(&three, "00112200", "1222"); /* the second: it leaves, and the others' depths stay */
    queue_is(&three, "001122112", "0221");
    queue_is(&three, "00112222", "0212");
    queue_is(&three, "001122000", "1222"); /* one that is absent */
    queue_is(&three, "0011220000", "122201"); /* then the end of the queue again, with depth 1 */
    queue_is(&three, "001122111100", "2211");
    queue_is(&three, "001122000111222", "");
    static const char *const absent[] = {"UL", "L"};
    Site two = site(2, absent);
    queue_is(&two, "0", "");
    queue_is(&two, "100", "1101");
}

/* Eight actors, each with one more Lock than the one before it: a queue of eight with eight depths. */
static void eight(void)
{
    static const char *const scripts[] = {"L", "LL", "LLL", "LLLL", "LLLLL", "LLLLLL", "LLLLLLL", "LLLLLLLL"};
    Site all = site(MOST_ACTORS, scripts);
    queue_is(&all, "765432107654321765432765437654765767", "7867564534231201");
}

/* Every actor as deep as can be. */
static void deepest_of_all(const char *locks)
{
    const char *scripts[MOST_ACTORS];
    char digits[ORDER_SCHEDULE_MOST + 1] = {0}, queue[2 * MOST_ACTORS + 1] = {0};
    for (size_t actor = 0; actor < MOST_ACTORS; actor++) {
        scripts[actor] = locks;
        memset(digits + MOST_ACTIONS * actor, (int)('0' + actor), MOST_ACTIONS);
        queue[2 * actor] = (char)('0' + actor);
        queue[2 * actor + 1] = '0' + MOST_ACTIONS;
    }
    Site all = site(MOST_ACTORS, scripts);
    queue_is(&all, digits, queue);
}

static void every_depth(void)
{
    char locks[MOST_ACTIONS + 1], digits[2 * MOST_ACTIONS + 1];
    memset(locks, 'L', MOST_ACTIONS);
    locks[MOST_ACTIONS] = 0;
    deepest_of_all(locks);
    const char *const deepest[] = {locks, locks};
    Site two = site(2, deepest);
    memset(digits, '1', MOST_ACTIONS);
    for (size_t depth = 1; depth <= MOST_ACTIONS; depth++) {
        memset(digits + MOST_ACTIONS, '0', depth);
        digits[MOST_ACTIONS + depth] = 0;
        const char queue[] = {'1', '0' + MOST_ACTIONS, '0', (char)('0' + depth), 0};
        queue_is(&two, digits, queue);
    }
    memset(locks + MOST_ACTIONS / 2, 'U', MOST_ACTIONS / 2);
    Site one = site(1, deepest);
    memset(digits, '0', MOST_ACTIONS);
    for (size_t left = 0; left <= MOST_ACTIONS / 2; left++) {
        digits[MOST_ACTIONS - left] = 0;
        const char queue[] = {'0', (char)('0' + left), 0};
        queue_is(&one, digits, left == 0 ? "" : queue);
    }
}

static void ready_at(const Site *made, const char *digits, uint32_t mask, uint32_t count, uint32_t ending)
{
    uint8_t schedule[ORDER_SCHEDULE_MOST];
    size_t length = entries(digits, schedule);
    OrderReady answer = order_ready(made->bytes, made->length, schedule, length);
    expect_number(answer.refusal, ORDER_ACCEPTED, digits, "the refusal");
    expect_number(answer.mask, mask, digits, "the mask");
    expect_number(answer.count, count, digits, "the count");
    expect_number(answer.ending, ending, digits, "the ending");
}

/* The page after a schedule: of each actor a text of its line's first 35 columns, up to cell 1. */
static void page_begins(const Site *made, const char *digits, const char *const lines[2])
{
    uint8_t schedule[ORDER_SCHEDULE_MOST], page[ORDER_PAGE_ROOM];
    size_t length = entries(digits, schedule);
    OrderPage answer = order_page(made->bytes, made->length, schedule, length, page, sizeof page);
    expect_number(answer.length, 2 * 102, digits, "the page's length");
    for (size_t actor = 0; actor < 2; actor++) {
        expect(memcmp(page + 102 * actor, lines[actor], 35) == 0, digits, "a line of the page");
    }
}

#define ONE "          1"

static void owners(void)
{
    static const char *const between[] = {"LLUTUT", "LLTW"};
    Site two = site(2, between);
    static const char *const before[] = {"0  3 ready   " ZERO ZERO, "1  2 ready   " ZERO ZERO};
    static const char *const once[] = {"0  4 ready   " ONE ZERO, "1  3 waits   " ZERO ZERO};
    static const char *const twice[] = {"0  6 finished" ZERO ZERO, "1  4 finished" ZERO ONE};
    page_begins(&two, "00110", before);
    /* Between the two: the owner's test finds it, the other's does not, and its wait is not ready. */
    ready_at(&two, "0011001", 1, 1, ORDER_GOING);
    page_begins(&two, "0011001", once);
    /* The second hands it on. */
    ready_at(&two, "00110010", 3, 2, ORDER_GOING);
    page_begins(&two, "0011001001", twice);
    queue_is(&two, "0011001001", "12");
    uint8_t schedule[ORDER_SCHEDULE_MOST];
    size_t length = entries("00110011", schedule);
    expect_ready_refused(order_ready(two.bytes, two.length, schedule, length), ORDER_REFUSED_NOT_READY, 7);
    static const char *const missing[] = {"LWLWU", "LWU"}; /* an Unlock too few */
    two = site(2, missing);
    ready_at(&two, "010000", 0, 0, ORDER_STUCK);
}

static void rooms(void)
{
    static const char *const twice[] = {"LL"};
    static const uint8_t schedule[] = {0, 0};
    static const size_t few[] = {0, 2912, 2914, 4450, 4513};
    Site one = site(1, twice);
    for (size_t i = 0; i < sizeof few / sizeof few[0]; i++) {
        Lent lent = lend(one.bytes, one.length, schedule, 2, schedule, 0);
        lent.bytes_length = few[i];
        run_refused(lent, ORDER_REFUSED_REPORT_ROOM, 0);
    }
    queue_with(4514, &one, "00", "02");
}

/* Two schedules, and what is said of them; whether their reports are equal, which they are. */
static void judged(const Site *made, const char *one, const char *other, uint32_t verdict, uint32_t pairs)
{
    uint8_t first[ORDER_SCHEDULE_MOST], second[ORDER_SCHEDULE_MOST], ends[2][ORDER_REPORT_ROOM];
    size_t length = entries(one, first);
    expect_number((uint32_t)entries(other, second), (uint32_t)length, other, "the length");
    OrderSame answer = order_same(made->bytes, made->length, first, length, second, length);
    expect_number(answer.refusal, ORDER_ACCEPTED, other, "the refusal");
    expect_number(answer.verdict, verdict, other, "the verdict");
    expect_number(answer.pairs, pairs, other, "the pairs compared");
    memset(ends, 0xa5, sizeof ends);
    order_run(made->bytes, made->length, first, length, ends[0], ORDER_REPORT_ROOM);
    order_run(made->bytes, made->length, second, length, ends[1], ORDER_REPORT_ROOM);
    expect(memcmp(ends[0], ends[1], ORDER_REPORT_ROOM) == 0, other, "the two ends differ");
}

static void paired(const Site *made, uint8_t k, uint8_t l, uint32_t verdict)
{
    OrderPair answer = order_pair(made->bytes, made->length, 0, k, 1, l);
    OrderPair back = order_pair(made->bytes, made->length, 1, l, 0, k);
    expect_number(answer.verdict, verdict, "order_pair around a mutex", "the verdict");
    expect_number(back.verdict, verdict, "order_pair around a mutex", "the verdict the other way round");
}

static void exchanges(void)
{
    static const char *const both[] = {"LLUT", "LLUT"};
    Site two = site(2, both);
    paired(&two, 1, 2, ORDER_INDEPENDENT);
    judged(&two, "00101", "00110", ORDER_SAME, 10); /* an Unlock at depth 2 and a Lock to depth 2 */
    paired(&two, 2, 2, ORDER_INDEPENDENT);
    judged(&two, "001101", "001110", ORDER_SAME, 15); /* two Unlocks at depth 2 */
    paired(&two, 3, 1, ORDER_INDEPENDENT);
    judged(&two, "000101", "000110", ORDER_SAME, 15); /* a test and a Lock to depth 2 */
    paired(&two, 1, 1, ORDER_DEPENDENT);
    judged(&two, "0101", "0110", ORDER_DIFFERENT, 6); /* two Locks to depth 2: dependent, though the end is the same */
    paired(&two, 3, 2, ORDER_DEPENDENT);
}

void locks(void)
{
    queues();
    eight();
    every_depth();
    owners();
    rooms();
    exchanges();
}
