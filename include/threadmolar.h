/*
 * Threadmolar: the check of programs, the single run, the joint run, the walk of a record and the comparison of two records.
 *
 * Link target/staticlib/libthreadmolar.a, which `bin/staticlib` writes (x86-64 Linux). Every function is proved against its contract
 * in crates/threadmolar.
 *
 * Every function answers one number: an answer in its low byte and, above it, a place. THREADMOLAR_ANSWER and THREADMOLAR_PLACE take it apart.
 *   An answer below 64 is the number of a refusal. 1 to 4 refuse the call: nothing lent is changed, and the place is the refusal's.
 *   5 to 10 stop the single run: the place is the node. Any other answer has the place 0.
 *
 * What the caller owes: a slice is a pointer and then a length, in elements. No pointer is null, also where the length is 0, and each is aligned for
 * its type. What a function may write (a parameter without const) overlaps nothing else that is lent to the same call, and nobody else uses it
 * meanwhile. A call keeps nothing that was lent: it uses no memory of its own beyond the stack, and two calls never share anything.
 */
#ifndef THREADMOLAR_H
#define THREADMOLAR_H

#include <stddef.h>
#include <stdint.h>

#ifdef __cplusplus
extern "C" {
#endif

/* ---- the number that a call answers */

#define THREADMOLAR_ANSWER(number) ((uint32_t)(number) & 0xffu)
#define THREADMOLAR_PLACE(number) ((uint32_t)(number) >> 8)

/* Refusals, in the order tried. 1 to 4 refuse a call; 5 to 10 stop the single run or, with 11, one site; 12 is of the walk only. */
#define THREADMOLAR_BAD_PROGRAM 1u     /* the place is the byte where the first bad record starts */
#define THREADMOLAR_BAD_COUNTS 2u      /* the counts are not one for each party, or don't sum to the number of inputs */
#define THREADMOLAR_BAD_TURN 3u        /* a turn of no party, or past the 65,535th; the place is the first such index */
#define THREADMOLAR_TOO_LITTLE_LENT 4u /* too little room for the records, too few lengths, or too small a working area */
#define THREADMOLAR_NAME_UNBOUND 5u
#define THREADMOLAR_WRONG_VALUE 6u     /* a value of the wrong sort or at the wrong set */
#define THREADMOLAR_WRONG_MODE 7u
#define THREADMOLAR_NO_INPUT 8u        /* that party's input is used up */
#define THREADMOLAR_NO_ROOM 9u         /* no record room for a member's event */
#define THREADMOLAR_TOO_DEEP 10u       /* a LET with 64 frames down already */
#define THREADMOLAR_DISAGREEMENT 11u   /* holders disagree at a joint step; in records only */
#define THREADMOLAR_NOT_AN_EVENT 12u

/* All other answers. */
#define THREADMOLAR_GOOD 64u
#define THREADMOLAR_ENDED 65u
#define THREADMOLAR_BUDGET 66u
#define THREADMOLAR_COMPLETE 67u
#define THREADMOLAR_OPEN 68u
#define THREADMOLAR_EVENT 69u
#define THREADMOLAR_END 70u
#define THREADMOLAR_FIRST_LONGER 71u
#define THREADMOLAR_SECOND_LONGER 72u
#define THREADMOLAR_EQUAL 73u
#define THREADMOLAR_NEITHER 74u

/* ---- limits */

#define THREADMOLAR_MAX_PARTIES 16u
#define THREADMOLAR_MAX_NODES 1024u
#define THREADMOLAR_MAX_TURNS 65535u
#define THREADMOLAR_AREA 16384u   /* working bytes: for each party in the joint run, in all in the single run */
#define THREADMOLAR_HELD_BACK 10u /* bytes of each record's room that are kept for its last event, so the least room */

/* ---- the kinds of a record's events, and the tags of kind 6 */

#define THREADMOLAR_READ 1u
#define THREADMOLAR_WROTE 2u
#define THREADMOLAR_SHARED 3u   /* at every site of the mode */
#define THREADMOLAR_OPENED 4u   /* a reveal, at a site in the set */
#define THREADMOLAR_PASSED 5u   /* a reveal, at a site outside the set */
#define THREADMOLAR_FINISHED 6u
#define THREADMOLAR_STOPPED 7u  /* joint run only */

#define THREADMOLAR_NOTHING 0u
#define THREADMOLAR_CLEAR 1u
#define THREADMOLAR_SHARE 2u    /* its integer is not shown: 0 */

/* ---- the calls */

/*
 * Checks a program.
 *   GOOD: the number of parties, 1 to 16, and of nodes, 1 to 1,024, are written.
 *   BAD_PROGRAM: nothing is written. The place is the byte where the first bad record starts, at most 6,146.
 */
uint32_t threadmolar_check(const uint8_t *program, size_t program_length, uint8_t *parties, size_t *nodes);

/*
 * Runs a program by the single run, at most `budget` steps.
 * Lent to be read: the program; a count for each party, and the inputs of all parties, party 0's first. Lent to be written: the records, of which each
 * of the n parties has an equal part, R = records_length / n bytes from P * R on, R at least THREADMOLAR_HELD_BACK; at least n lengths;
 * a working area of at least THREADMOLAR_AREA bytes.
 *   ENDED, BUDGET, or 5 to 10 with the node where the run stopped: `steps` is the number of steps taken, the first n lengths are the lengths of
 *   the parties' records, and all of the working area is zero. Record bytes past each length, and other lengths, are as they were.
 *   BAD_PROGRAM, BAD_COUNTS, TOO_LITTLE_LENT, tried in this order: nothing is written.
 */
uint32_t threadmolar_single(
    const uint8_t *program, size_t program_length,
    const size_t *counts, size_t counts_length,
    const int32_t *inputs, size_t inputs_length,
    uint32_t budget,
    uint8_t *records, size_t records_length,
    size_t *lengths, size_t lengths_length,
    uint8_t *work, size_t work_length,
    uint32_t *steps);

/*
 * Runs a program by the joint run over a turn list, a party's number for each turn.
 * Lent as for the single run, but a working area of THREADMOLAR_AREA bytes for each party.
 *   COMPLETE where all sites have finished, else OPEN: `taken` is the number of turns at which a site stepped or stopped; what else is written is
 *   as for the single run. Why a site stopped is in its own record (THREADMOLAR_STOPPED).
 *   BAD_PROGRAM, BAD_COUNTS, BAD_TURN, TOO_LITTLE_LENT, tried in this order: nothing is written.
 */
uint32_t threadmolar_joint(
    const uint8_t *program, size_t program_length,
    const size_t *counts, size_t counts_length,
    const int32_t *inputs, size_t inputs_length,
    const uint8_t *turns, size_t turns_length,
    uint8_t *records, size_t records_length,
    size_t *lengths, size_t lengths_length,
    uint8_t *work, size_t work_length,
    uint32_t *taken);

/*
 * Looks at the event of a record that starts at the byte `at`. A walk begins at 0 and goes on at `next`.
 *   EVENT: `next` is where the next event starts, `kind` is 1 to 7, and the event's fields are written:
 *     detail   the party that shares (SHARED), the tag (FINISHED), the refusal (STOPPED)
 *     integer  READ, WROTE, OPENED, FINISHED
 *     set      the set q (SHARED, OPENED, PASSED), the set l of the value (FINISHED): bit i for party i
 *     holders  the holders h of a share (FINISHED)
 *     node     STOPPED
 *   What a kind does not have is 0.
 *   END, at or past the record's end: nothing is written.
 *   NOT_AN_EVENT, where the event at `at` is cut or of no kind: nothing is written, and the number has no place (`at` is it).
 */
uint32_t threadmolar_walk(
    const uint8_t *record, size_t record_length, size_t at,
    size_t *next, uint8_t *kind, uint8_t *detail, int32_t *integer, uint16_t *set, uint16_t *holders, uint16_t *node);

/*
 * Compares two records of one site: FIRST_LONGER or SECOND_LONGER where that one is the other and something more, EQUAL, or NEITHER where
 * neither begins the other. Nothing is written.
 */
uint32_t threadmolar_order(const uint8_t *first, size_t first_length, const uint8_t *second, size_t second_length);

/*
 * The same answer, with the part that the longer record has beyond the shorter: `start` and `length` are written, within the first record where
 * the answer is FIRST_LONGER, else within the second. The part reaches to that record's end; for EQUAL and NEITHER it is empty there.
 */
uint32_t threadmolar_continuation(
    const uint8_t *first, size_t first_length,
    const uint8_t *second, size_t second_length,
    size_t *start, size_t *length);

#ifdef __cplusplus
}
#endif

#endif
