/* Loop schedules: records read, judged, fitted, rotated, listed and run. Link librsk_c.a (tools/archive.py). */
#ifndef RSK_H
#define RSK_H

#include <stddef.h>
#include <stdint.h>

#ifdef __cplusplus
extern "C" {
#endif

/*
 * Every function takes a record first, as a pointer and its number of bytes, and the caller's answer
 * last, RSK_ANSWER words, all of which it fills. Buffers lie between, each a pointer and its number of
 * places. No pointer is null, also where there are no places, and no buffer lies over another.
 * It returns the refusal's number, 0 where it answers. A refusal other than RSK_EARLY and RSK_BUSY
 * leaves every buffer as it was.
 */

/* Places of an answer. */
enum {
    RSK_REFUSAL = 0,      /* the refusal's number, 0 where the function answers */
    RSK_FIRST = 1,        /* the first number of the answer, or the first detail of the refusal, else 0 */
    RSK_SECOND = 2,       /* the second number or detail, else 0 */
    RSK_THIRD = 3,        /* the third number or detail, else 0 */
    RSK_CYCLE_LENGTH = 4, /* the number of edges of the cycle handed over, 0 if there is none */
    RSK_CYCLE = 5,        /* the first of those edges, head to tail; places after the last hold 0 */
    RSK_ANSWER = 69       /* the number of places: a cycle has at most 64 edges */
};

/* Refusals, with their details. */
enum {
    RSK_SHORT = 1,       /* a field is incomplete: its offset */
    RSK_MARK = 2,        /* the mark is not "RSK": its offset */
    RSK_VERSION = 3,     /* the version is not 1: its offset */
    RSK_COUNT = 4,       /* classes, nodes, edges or length out of range: its offset */
    RSK_MACHINE = 5,     /* a class's latency, units or flag out of range: its offset */
    RSK_NODE = 6,        /* a node's class or operation out of range: its offset */
    RSK_EDGE = 7,        /* an edge's nodes or delays out of range: its offset */
    RSK_START = 8,       /* a start is 0 or its operation ends past the length: its offset */
    RSK_RETIMING = 9,    /* a retiming is above 63: its offset; or none is 0: that of node 0's */
    RSK_TAIL = 10,       /* bytes are left: the offset of the first */
    RSK_BARE = 11,       /* the record has no schedule */
    RSK_KNOT = 12,       /* a cycle of edges without delays: the cycle */
    RSK_DEPENDENCE = 13, /* an edge comes too early: the lowest such edge */
    RSK_NO_RETIMING = 14, /* no retiming fits the starts: a cycle that shows it */
    RSK_UNITS = 15,      /* more operations than units: the lowest such step, then class */
    RSK_SIZE = 16,       /* a rotation by no steps, or by as many as the length or more: the steps */
    RSK_LONG = 17,       /* a rotation would be longer than 512 */
    RSK_ROOM = 18,       /* a buffer is too short: the first such, from 0 in the order of the parameters */
    RSK_EARLY = 19,      /* an operand is not there: run step, node, edge */
    RSK_BUSY = 20        /* no unit is free: run step, node, class */
};

/* Parts of a floor, the second number of rsk_floor's answer. */
enum {
    RSK_BY_LATENCY = 1, /* the longest operation */
    RSK_BY_CLASS = 2,   /* the units of the class that is the third number */
    RSK_BY_CYCLE = 3    /* the cycle that is handed over */
};

/* Reads the record and writes it again. Answers its size. */
uint32_t rsk_rewrite(const uint8_t *record, size_t record_size, uint8_t *out, size_t out_size, uint32_t *answer);

/* Judges the record's schedule. Answers no number. */
uint32_t rsk_judge(const uint8_t *record, size_t record_size, uint32_t *answer);

/* Writes the record with the retiming of least depth that fits its starts. Answers its size. */
uint32_t rsk_fit(const uint8_t *record, size_t record_size, uint8_t *out, size_t out_size, uint32_t *answer);

/* Writes the record with its loop's first schedule. Answers its size. */
uint32_t rsk_first(const uint8_t *record, size_t record_size, uint8_t *out, size_t out_size, uint32_t *answer);

/* Writes the record with its schedule rotated by z steps. Answers its size. */
uint32_t rsk_rotate(const uint8_t *record, size_t record_size, uint16_t z, uint8_t *out, size_t out_size,
                    uint32_t *answer);

/* Writes the record with the shortest schedule met in up to count rotations. Answers its size and the rotations. */
uint32_t rsk_search(const uint8_t *record, size_t record_size, uint16_t count, uint16_t size, uint8_t *out,
                    size_t out_size, uint32_t *answer);

/* Works out a length that no schedule of the loop is below. Answers the floor, its part and the class. */
uint32_t rsk_floor(const uint8_t *record, size_t record_size, uint32_t *answer);

/* Writes the record's listing as text, whatever the record. Answers its size; the only refusal is RSK_ROOM. */
uint32_t rsk_list(const uint8_t *record, size_t record_size, uint8_t *out, size_t out_size, uint32_t *answer);

/* Runs k iterations of the schedule: starts has 15 places for each node, values and finish k. Answers the run steps. */
uint32_t rsk_run(const uint8_t *record, size_t record_size, uint16_t k, const uint32_t *starts, size_t starts_count,
                 uint32_t *values, size_t values_count, uint32_t *finish, size_t finish_count, uint32_t *answer);

/* Runs k iterations of the loop without a schedule, with the same places. Answers no number. */
uint32_t rsk_plain(const uint8_t *record, size_t record_size, uint16_t k, const uint32_t *starts, size_t starts_count,
                   uint32_t *values, size_t values_count, uint32_t *answer);

#ifdef __cplusplus
}
#endif

#endif
