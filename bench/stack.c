/* The most stack that each call takes, all its frames together: each is run on a thread whose stack is painted first.
   Records of 64 nodes and 256 edges: one that the judge accepts, one with a knot, one that no retiming fits. */
#define _GNU_SOURCE
#include <pthread.h>
#include <stdint.h>
#include <stdio.h>
#include <stdlib.h>
#include <string.h>
#include "rsk.h"

enum { NODES = 64, EDGES = 256, STACK = 1 << 20, PAINT = 0xa5, ITERATIONS = 100 };

static uint8_t record[1400], out[4096];
static size_t size;
static uint32_t starts[15 * NODES], values[NODES * ITERATIONS], finish[NODES * ITERATIONS], answer[69];

static void put(unsigned value, int bytes)
{
    for (; bytes > 0; bytes--, value /= 256)
        record[size++] = value % 256;
}

/* Ring edges and others. `still`: the ring has delays 0. `late`: one edge of it has a delay, and all nodes start at once. */
static void make(int still, int late)
{
    size = 0;
    memcpy(record, "RSK", 3);
    size = 3;
    put(1, 2), put(4, 1), put(NODES, 1), put(EDGES, 2), put(late ? 2 : 4, 2);
    for (int c = 0; c < 4; c++)
        put(2, 1), put(8, 1), put(0, 1);
    for (int v = 0; v < NODES; v++)
        put(v % 4, 1), put(v % 3, 1), put(v, 4);
    for (int e = 0; e < EDGES; e++) {
        int ring = e < NODES;
        put(e % NODES, 1), put(ring ? (e + 1) % NODES : (e * 7 + 3) % NODES, 1);
        put(ring && (still || (late && e > 0)) ? 0 : late && ring ? 1 : 15, 1);
    }
    for (int v = 0; v < NODES; v++)
        put(late ? 1 : 1 + 2 * (v / 32), 2), put(0, 1);
}

static void *nothing(void *unused) { return unused; }
static void *rewrite(void *unused) { return rsk_rewrite(record, size, out, sizeof out, answer), unused; }
static void *judge(void *unused) { return rsk_judge(record, size, answer), unused; }
static void *fit(void *unused) { return rsk_fit(record, size, out, sizeof out, answer), unused; }
static void *first(void *unused) { return rsk_first(record, size, out, sizeof out, answer), unused; }
static void *rotate(void *unused) { return rsk_rotate(record, size, 1, out, sizeof out, answer), unused; }
static void *search(void *unused) { return rsk_search(record, size, 10, 3, out, sizeof out, answer), unused; }
static void *floored(void *unused) { return rsk_floor(record, size, answer), unused; }
static void *list(void *unused) { return rsk_list(record, size, out, sizeof out, answer), unused; }
static void *run(void *unused)
{
    return rsk_run(record, size, ITERATIONS, starts, 15 * NODES, values, NODES * ITERATIONS, finish, NODES * ITERATIONS, answer), unused;
}
static void *plain(void *unused)
{
    return rsk_plain(record, size, ITERATIONS, starts, 15 * NODES, values, NODES * ITERATIONS, answer), unused;
}

/* How deep the paint is gone after the call. */
static size_t depth(void *(*call)(void *))
{
    pthread_attr_t attributes;
    pthread_t thread;
    uint8_t *stack = aligned_alloc(4096, STACK);
    size_t untouched = 0;
    memset(stack, PAINT, STACK);
    pthread_attr_init(&attributes);
    pthread_attr_setstack(&attributes, stack, STACK);
    if (pthread_create(&thread, &attributes, call, NULL) != 0)
        exit(1);
    pthread_join(thread, NULL);
    while (untouched < STACK && stack[untouched] == PAINT)
        untouched++;
    free(stack);
    return STACK - untouched;
}

static void tell(const char *name, void *(*call)(void *))
{
    size_t empty = depth(nothing);
    size_t used = depth(call);
    printf("| %-8s | %7u | %6zu |\n", name, (unsigned)answer[0], used - empty);
}

int main(void)
{
    printf("| Call     | Answer  | Bytes  |\n|----------|--------:|-------:|\n");
    make(0, 0);
    tell("rewrite", rewrite), tell("judge", judge), tell("fit", fit), tell("first", first), tell("rotate", rotate);
    tell("search", search), tell("floor", floored), tell("list", list), tell("run", run), tell("plain", plain);
    make(1, 0);
    tell("judge", judge), tell("fit", fit);
    make(0, 1);
    tell("judge", judge), tell("fit", fit);
    return 0;
}
