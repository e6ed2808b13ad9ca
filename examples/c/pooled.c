/*
 * Document 01's worked example, from C. Site 0 reads a number and shares it with site 1, and it is revealed to site 0.
 * The program is checked and run both ways, the records are walked and printed in plain words, and the two runs' records are compared.
 */
#include <stdio.h>
#include <string.h>

#include "threadmolar.h"

enum { PARTIES = 2, ROOM = 64 };

static const uint8_t program[] = {
    0x00, 0x02,                         /*    PARTIES 2 */
    0x05,                               /* 0  READ */
    0x0c, 0x01, 0x00, 0x00, 0x00,       /* 1  PAR {0}: node 0 */
    0x08, 0x00, 0x02, 0x00, 0x00,       /* 2  SHARE of site 0's name 0 with {1} */
    0x09, 0x01, 0x00, 0x01,             /* 3  REVEAL of name 1 to {0} */
    0x0a, 0x01, 0x02, 0x00, 0x03, 0x00, /* 4  LET name 1 be node 2 in node 3 */
    0x0a, 0x00, 0x01, 0x00, 0x04, 0x00, /* 5  LET name 0 be node 1 in node 4; the last node is the root */
};
static const size_t counts[PARTIES] = {1, 0};
static const int32_t inputs[] = {7};
static const uint8_t turns[] = {0, 0, 0, 0, 0, 1, 1, 1, 1, 0};

/* What a run is lent, and leaves: party P's record is the first lengths[P] bytes from P * ROOM on. */
struct left {
    uint8_t records[PARTIES * ROOM];
    size_t lengths[PARTIES];
    uint32_t number;
    uint32_t count;
};

/* An event of a record, as a walk finds it. */
struct event {
    size_t next;
    uint8_t kind, detail;
    int32_t integer;
    uint16_t set, holders, node;
};

static uint8_t work[PARTIES * THREADMOLAR_AREA];

static const uint8_t *record_of(const struct left *run, size_t party)
{
    return run->records + party * ROOM;
}

static void run_single(struct left *run, uint32_t budget)
{
    memset(run, 0, sizeof *run);
    run->number = threadmolar_single(
        program, sizeof program, counts, PARTIES, inputs, 1, budget,
        run->records, sizeof run->records, run->lengths, PARTIES, work, sizeof work, &run->count);
}

static void run_joint(struct left *run, size_t turn_count)
{
    memset(run, 0, sizeof *run);
    run->number = threadmolar_joint(
        program, sizeof program, counts, PARTIES, inputs, 1, turns, turn_count,
        run->records, sizeof run->records, run->lengths, PARTIES, work, sizeof work, &run->count);
}

static void print_set(uint16_t set)
{
    const char *before = "{";
    unsigned party;

    for (party = 0; party < THREADMOLAR_MAX_PARTIES; party++) {
        if (set >> party & 1) {
            printf("%s%u", before, party);
            before = ",";
        }
    }
    printf("%s}", set == 0 ? "{" : "");
}

static void print_finished(const struct event *e)
{
    if (e->detail == THREADMOLAR_NOTHING) {
        printf("finished with nothing");
    } else if (e->detail == THREADMOLAR_CLEAR) {
        printf("finished with %ld, clear at ", (long)e->integer);
        print_set(e->set);
    } else {
        printf("finished with a share at ");
        print_set(e->set);
        printf(", held by ");
        print_set(e->holders);
    }
}

static void print_event(const struct event *e)
{
    switch (e->kind) {
    case THREADMOLAR_READ:
        printf("read %ld", (long)e->integer);
        break;
    case THREADMOLAR_WROTE:
        printf("wrote %ld", (long)e->integer);
        break;
    case THREADMOLAR_SHARED:
        printf("site %u shared a number with ", (unsigned)e->detail);
        print_set(e->set);
        break;
    case THREADMOLAR_OPENED:
        printf("%ld was revealed to ", (long)e->integer);
        print_set(e->set);
        break;
    case THREADMOLAR_PASSED:
        printf("a number was revealed to ");
        print_set(e->set);
        break;
    case THREADMOLAR_FINISHED:
        print_finished(e);
        break;
    case THREADMOLAR_STOPPED:
        printf("stopped with %u at node %u", (unsigned)e->detail, (unsigned)e->node);
        break;
    }
}

static uint32_t event_at(const uint8_t *record, size_t length, size_t at, struct event *e)
{
    return threadmolar_walk(
        record, length, at, &e->next, &e->kind, &e->detail, &e->integer, &e->set, &e->holders, &e->node);
}

/* The events from the byte `at` of a record on, a line for each. */
static void print_events(const uint8_t *record, size_t length, size_t at)
{
    struct event e;
    uint32_t number = event_at(record, length, at, &e);

    while (number == THREADMOLAR_EVENT) {
        printf("    ");
        print_event(&e);
        printf("\n");
        at = e.next;
        number = event_at(record, length, at, &e);
    }
    if (number == THREADMOLAR_NOT_AN_EVENT)
        printf("    no event at byte %lu\n", (unsigned long)at);
}

static void print_records(const struct left *run)
{
    size_t party;

    for (party = 0; party < PARTIES; party++) {
        printf("  site %lu, %lu bytes:\n", (unsigned long)party, (unsigned long)run->lengths[party]);
        print_events(record_of(run, party), run->lengths[party], 0);
    }
}

static void check_programs(void)
{
    uint8_t parties = 0;
    size_t nodes = 0;
    uint32_t number = threadmolar_check(program, sizeof program, &parties, &nodes);

    if (number == THREADMOLAR_GOOD)
        printf("the program is good: %u parties, %lu nodes\n", (unsigned)parties, (unsigned long)nodes);
    number = threadmolar_check(program, sizeof program - 1, &parties, &nodes);
    printf("without its last byte it is refused: %lu at byte %lu\n",
        (unsigned long)THREADMOLAR_ANSWER(number), (unsigned long)THREADMOLAR_PLACE(number));
}

static const char *order_in_words(uint32_t number)
{
    switch (number) {
    case THREADMOLAR_FIRST_LONGER:
        return "the first is longer";
    case THREADMOLAR_SECOND_LONGER:
        return "the second is longer";
    case THREADMOLAR_EQUAL:
        return "equal";
    default:
        return "neither begins the other";
    }
}

int main(void)
{
    static struct left single, joint, half;
    size_t party, start, length;
    uint32_t number;

    check_programs();

    run_single(&single, 100);
    if (single.number != THREADMOLAR_ENDED)
        return 1;
    printf("single run: ended after %lu steps\n", (unsigned long)single.count);
    print_records(&single);

    run_joint(&joint, sizeof turns);
    if (joint.number != THREADMOLAR_COMPLETE)
        return 1;
    printf("joint run: complete, %lu turns of %lu were taken\n", (unsigned long)joint.count, (unsigned long)sizeof turns);
    for (party = 0; party < PARTIES; party++) {
        number = threadmolar_order(
            record_of(&single, party), single.lengths[party], record_of(&joint, party), joint.lengths[party]);
        printf("  site %lu, the records of both runs: %s\n", (unsigned long)party, order_in_words(number));
    }

    run_joint(&half, 5);
    if (half.number != THREADMOLAR_OPEN)
        return 1;
    printf("joint run, the first 5 turns: open, %lu were taken\n", (unsigned long)half.count);
    number = threadmolar_continuation(
        record_of(&half, 0), half.lengths[0], record_of(&joint, 0), joint.lengths[0], &start, &length);
    printf("  site 0, the records after 5 and after all turns: %s, by %lu bytes from byte %lu on:\n",
        order_in_words(number), (unsigned long)length, (unsigned long)start);
    print_events(record_of(&joint, 0), joint.lengths[0], start);
    return 0;
}
