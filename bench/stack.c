/* Measures how much stack the host call takes: it paints a thread's stack, makes the call there, and looks how far down the paint
   is gone. bench/stack builds and runs it. */
#define _XOPEN_SOURCE 700
#include <pthread.h>
#include <stdint.h>
#include <stdio.h>
#include <stdlib.h>
#include <string.h>

#include "fare.h"

enum { STACK = 1 << 20, PAINT = 0xA5, MOST_FILE_BYTES = 47110 };

static _Alignas(4096) uint8_t stack[STACK];

struct call {
    const char *name;
    uint8_t file[MOST_FILE_BYTES];
    size_t file_len;
    uint8_t facts[FARE_MOST_FACTS_BYTES];
    size_t facts_len;
    size_t out_len;
    uint32_t answer;
    uint8_t *top; /* where the stack stood before the call */
};

static void put(struct call *c, unsigned n)
{
    for (; n >= 0x80; n >>= 7)
        c->file[c->file_len++] = (uint8_t)(0x80 | (n & 0x7F));
    c->file[c->file_len++] = (uint8_t)n;
}

static void put_counts(struct call *c, unsigned width, unsigned fares, unsigned terms)
{
    put(c, width);
    put(c, fares);
    put(c, terms);
}

/* A list of so many marks from `first` on, every fifth. */
static void put_list(struct call *c, unsigned count, unsigned first)
{
    put(c, count);
    for (unsigned i = 0; i < count; i++)
        put(c, first + 5 * i);
}

static void *make_call(void *given)
{
    static uint8_t out[FARE_MOST_MARKS];
    struct call *c = given;
    c->top = __builtin_frame_address(0);
    c->answer = fare_settle(c->file, c->file_len, c->facts, c->facts_len, out, c->out_len);
    return NULL;
}

/* Makes the call on a painted stack and prints how many bytes of it were used. */
static void measure(struct call *c)
{
    pthread_attr_t attr;
    pthread_t thread;
    memset(stack, PAINT, STACK);
    if (pthread_attr_init(&attr) != 0 || pthread_attr_setstack(&attr, stack, STACK) != 0
        || pthread_create(&thread, &attr, make_call, c) != 0 || pthread_join(thread, NULL) != 0) {
        fprintf(stderr, "no thread\n");
        exit(1);
    }
    size_t lowest = 0;
    while (stack[lowest] == PAINT)
        lowest++;
    printf("%-32s answer %3u: %td bytes\n", c->name, (unsigned)c->answer, c->top - (stack + lowest));
}

/* The sample tariff with a facts string. */
static void sample(const char *name, const char *facts, size_t facts_len, size_t out_len)
{
    static const uint8_t file[21] = {5, 2, 2, 1, 1, 3, 1, 2, 4, 1, 3, 1, 1, 1, 2, 1, 0, 2, 2, 1, 2};
    static struct call c;
    c = (struct call){.name = name, .file_len = sizeof file, .facts_len = facts_len, .out_len = out_len};
    memcpy(c.file, file, sizeof file);
    memcpy(c.facts, facts, facts_len);
    measure(&c);
}

/* The longest file there is: its lines have eight marks in each list, all of two bytes. */
static void largest(void)
{
    static struct call c = {.name = "largest file", .facts_len = 1, .out_len = FARE_MOST_MARKS};
    put_counts(&c, 512, 1024, 512);
    for (unsigned i = 0; i < 1024; i++) {
        put(&c, 128 + i % 384);
        put_list(&c, 8, 128 + i % 300);
        put_list(&c, 8, 128 + i * 7 % 300);
    }
    for (unsigned i = 0; i < 512; i++) {
        put(&c, 1);
        put(&c, 128 + i * 7 % 384);
        put_list(&c, 8, 128 + i % 300);
    }
    measure(&c);
}

/* Each mark gives the next, in the worst order; or each holds unless the one before it does. */
static void chain(const char *name, int unless)
{
    static struct call c;
    c = (struct call){.name = name, .facts = {1, 0}, .facts_len = 2, .out_len = FARE_MOST_MARKS};
    put_counts(&c, 512, 511, 0);
    for (unsigned m = 511; m > 0; m--) {
        put(&c, m);
        put_list(&c, !unless, m - 1);
        put_list(&c, unless, m - 1);
    }
    measure(&c);
}

/* Width 4: 1 unless 2, 2 unless 3, 3 unless 2, and 0 with 1 is denied. */
static void suspect(void)
{
    static const uint8_t file[] = {4, 3, 1, 1, 0, 1, 2, 2, 0, 1, 3, 3, 0, 1, 2, 2, 2, 0, 1};
    static struct call c = {.name = "suspect", .file_len = sizeof file, .facts = {1, 0}, .facts_len = 2, .out_len = 4};
    memcpy(c.file, file, sizeof file);
    measure(&c);
}

int main(void)
{
    sample("no facts", "\0", 1, 5);
    sample("clear", "\2\0\3", 3, 5);
    sample("broken", "\2\0\1", 3, 5);
    sample("facts malformed", "\200\0", 2, 5);
    sample("output short", "\0", 1, 4);
    suspect();
    chain("chain of 511 lines", 0);
    chain("each unless the one before", 1);
    largest();
    return 0;
}
