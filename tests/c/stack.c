/* How much stack judging the longest table takes: run on a painted stack, less what an empty thread takes. It is to be within
   what the header says. */
#define _XOPEN_SOURCE 700
#include "magsurinda.h"
#include "draft.h"
#include <pthread.h>
#include <stdio.h>
#include <stdlib.h>

enum { STACK = 1 << 20, PAINT = 0xAA, WIRES = 64, CHANNELS = 128, HOPS = 8 };

static uint8_t sheet[MAGSURINDA_SHEET_LONGEST];

static void longest_table(void) {
    draft_begin();
    put(24, 12500000), put(7, WIRES), put(8, CHANNELS);
    for (unsigned w = 0; w < WIRES; w++)
        put(2, 2), put(10, 0), put(24, 0xFFFFFF);
    for (unsigned k = 0; k < CHANNELS; k++) {
        put(1, 0), put(16, 1), put(24, 12500000), put(24, 0xFFFFFF), put(4, HOPS);
        for (unsigned i = 0; i < HOPS; i++)
            put(6, k % (WIRES - HOPS + 1) + i);
    }
}

static void *nothing(void *reply) { return reply; }

static void *judging(void *reply) {
    *(uint64_t *)reply = magsurinda_judge(draft, draft_bytes(), sheet, sizeof sheet);
    return reply;
}

static size_t used(void *(*work)(void *), uint64_t *reply) {
    unsigned char *stack = aligned_alloc(4096, STACK);
    pthread_attr_t how;
    pthread_t thread;
    memset(stack, PAINT, STACK);
    pthread_attr_init(&how);
    pthread_attr_setstack(&how, stack, STACK);
    if (pthread_create(&thread, &how, work, reply) != 0)
        exit(2);
    pthread_join(thread, NULL);
    size_t untouched = 0;
    while (untouched < STACK && stack[untouched] == PAINT)
        untouched++;
    free(stack);
    return STACK - untouched;
}

int main(void) {
    uint64_t reply = 0;
    longest_table();
    size_t empty = used(nothing, &reply), judged = used(judging, &reply);
    printf("judging the longest table, reply %llx: %zu bytes of stack\n", (unsigned long long)reply, judged - empty);
    if (draft_bytes() != MAGSURINDA_TABLE_LONGEST || magsurinda_number(reply) != MAGSURINDA_GRANTED) {
        puts("the longest table: FAILED");
        return 1;
    }
    if (judged - empty > MAGSURINDA_STACK) {
        puts("MAGSURINDA_STACK: FAILED");
        return 1;
    }
    return 0;
}
