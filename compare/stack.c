/* How much stack the library takes on a maximal log: a thread's stack is painted, and what was written is counted. compare/stack builds
   and runs it. The very first call is counted by itself: in a program that is bound lazily it has the loader's work for memset and memcpy
   on top, which is none of the library's. */
#include <pthread.h>
#include <stdint.h>
#include <stdio.h>
#include <stdlib.h>
#include <string.h>

uint64_t skelfora_mine(const uint8_t *log, uint64_t log_length, uint8_t profile, uint8_t *file, uint64_t room);
uint64_t skelfora_listing(const uint8_t *log, uint64_t log_length, uint8_t profile, uint8_t *out, uint64_t room);
uint64_t skelfora_summary(const uint8_t *log, uint64_t log_length, uint8_t profile, uint8_t *out, uint64_t room);

enum { FULL, LIGHT };
enum { TRACES = 1024, LENGTH = 32, STACK = 4 << 20, PAINT = 0xA5 };

static uint8_t log_bytes[6 + 4 * TRACES + TRACES * LENGTH];
static uint8_t out[1 << 20];

/* Any of so many activities at each place; more than 64 have edition 2. */
static void fill(uint8_t activities) {
    uint8_t *at = log_bytes;
    const uint8_t head[6] = {66, 76, activities > 64 ? 2 : 1, activities, TRACES % 256, TRACES / 256};
    memcpy(at, head, 6);
    at += 6;
    for (int k = 0; k < TRACES; k++) {
        *at++ = k * LENGTH % 256;
        *at++ = k * LENGTH / 256;
        *at++ = LENGTH;
        *at++ = 0;
    }
    uint64_t x = 88172645463325252u;
    for (int i = 0; i < TRACES * LENGTH; i++) {
        x ^= x << 13;
        x ^= x >> 7;
        x ^= x << 17;
        *at++ = x % activities;
    }
}

typedef uint64_t (*Call)(const uint8_t *, uint64_t, uint8_t, uint8_t *, uint64_t);

struct work {
    const char *name;
    Call call;
    uint8_t profile;
};

static const struct work works[] = {
    {"skelfora_mine, full", skelfora_mine, FULL},          {"skelfora_mine, light", skelfora_mine, LIGHT},
    {"skelfora_listing, full", skelfora_listing, FULL},    {"skelfora_listing, light", skelfora_listing, LIGHT},
    {"skelfora_summary, full", skelfora_summary, FULL},    {"skelfora_summary, light", skelfora_summary, LIGHT},
};

static void *rest(void *work) { return work; }

static void *run(void *given) {
    const struct work *work = given;
    if (work->call(log_bytes, sizeof log_bytes, work->profile, out, sizeof out) % 256 != 0) {
        fprintf(stderr, "stack: %s refused the log\n", work->name);
        exit(1);
    }
    return given;
}

static size_t used(void *(*job)(void *), const struct work *work) {
    uint8_t *stack = aligned_alloc(65536, STACK);
    memset(stack, PAINT, STACK);
    pthread_attr_t how;
    pthread_attr_init(&how);
    pthread_attr_setstack(&how, stack, STACK);
    pthread_t thread;
    pthread_create(&thread, &how, job, (void *)work);
    pthread_join(thread, NULL);
    size_t free_bytes = 0;
    while (stack[free_bytes] == PAINT) free_bytes++;
    free(stack);
    return STACK - free_bytes;
}

int main(void) {
    fill(64);
    size_t alone = used(rest, NULL);
    size_t first = used(run, &works[0]) - alone;
    for (uint8_t activities = 64; activities <= 128; activities += 64) {
        fill(activities);
        for (size_t i = 0; i < sizeof works / sizeof works[0]; i++)
            printf("%s, %d activities: %zu bytes of stack\n", works[i].name, activities, used(run, &works[i]) - alone);
    }
    printf("the very first call, %s: %zu\n", works[0].name, first);
    return 0;
}
