/* What the exports of tirnouch_c take: a read of 8 bytes from its submission to its bytes, and a session made of a text.
 *
 *     bin/bench_core [ROUNDS]     nanoseconds, the least of so many rounds of 4,000 reads
 */
#include "tirnouch_core.h"

#include <inttypes.h>
#include <malloc.h>
#include <stdio.h>
#include <stdlib.h>
#include <string.h>
#include <time.h>

#define ANSWERS 4000
#define RUNS 5

static const char device[] = "device 0 0902190001010080320904000001ff00000007058102080000\n";

static struct tirnouch_slot slot;
static struct tirnouch_complaint complaint;
static struct tirnouch_reply reply;
static struct tirnouch_progress progress;
static struct tirnouch_result result;

/* Memory of no bytes, which has an address too. */
static uint8_t nowhere[1];

static double now(void)
{
    struct timespec at;
    clock_gettime(CLOCK_MONOTONIC, &at);
    return (double)at.tv_sec * 1e9 + (double)at.tv_nsec;
}

/* A device with an endpoint for IN that answers 8 bytes each time. */
static char *text_of(size_t answers)
{
    char *text = malloc(sizeof device + 16 + answers * 19);
    char *at = text + sprintf(text, "%sscript 0 81", device);
    for (size_t i = 0; i < answers; i++)
        at += sprintf(at, " d:0102030405060708");
    *at++ = '\n';
    *at = 0;
    return text;
}

static void must(int32_t answer, const char *what)
{
    if (answer < 0) {
        fprintf(stderr, "%s: %" PRId32 ", line %" PRIu64 "\n", what, answer, complaint.line);
        exit(1);
    }
}

static void begin(const char *text)
{
    must(tirnouch_create(&slot, (const uint8_t *)text, strlen(text), &complaint), "create");
    must(tirnouch_call(&slot, TIRNOUCH_OPEN, 1, 0, 0, &reply), "open");
    must(tirnouch_call(&slot, TIRNOUCH_CLAIM, 1, 0, 0, &reply), "claim");
}

/* One read, whose bytes are fetched; what came out. */
static uint64_t read_8(uint64_t payload)
{
    uint8_t data[8];
    struct tirnouch_memory back = { .at = nowhere };
    must(tirnouch_submit(&slot, 1, 0x81, 2, 0, 0, 8, (const uint8_t *)"", 0, payload, &reply), "submit");
    must(tirnouch_serve(&slot, 0, 0x81, 4, &reply), "serve");
    must(tirnouch_settle(&slot, 0, 16, &progress), "settle");
    must(tirnouch_take(&slot, &back, &result), "take");
    must(tirnouch_fetch(&slot, data, sizeof data), "fetch");
    return result.payload + result.actual_length + data[7];
}

/* The same in two calls, straight into memory that is lent. */
static uint64_t read_8_in_turns(uint64_t payload)
{
    uint8_t data[8];
    struct tirnouch_memory memory = { .at = data, .len = sizeof data }, back = { .at = nowhere };
    must(tirnouch_submit_in(&slot, 1, 0x81, 2, 0, 0, &memory, payload, &reply), "submit");
    must(tirnouch_turn(&slot, 0, 0x81, 4, 16, &back, &result), "turn");
    return result.payload + result.actual_length + data[7];
}

/* The least of `rounds` rounds, in each of which the device gives all its answers; that they are made new isn't measured. */
static double transfers(const char *text, size_t rounds, uint64_t (*read)(uint64_t))
{
    double least = 1e18;
    begin(text);
    for (size_t round = 0; round < rounds; round++) {
        uint64_t sum = 0;
        double start = now();
        for (size_t i = 0; i < ANSWERS; i++)
            sum += read(i);
        double took = now() - start;
        if (sum != (uint64_t)ANSWERS * 16 + (uint64_t)ANSWERS * (ANSWERS - 1) / 2)
            must(-1, "sum");
        least = took < least ? took : least;
        must(tirnouch_call(&slot, TIRNOUCH_RESET, 1, 0, 0, &reply), "reset");
    }
    tirnouch_destroy(&slot);
    return least / ANSWERS;
}

static double creation(const char *text)
{
    double start = now();
    must(tirnouch_create(&slot, (const uint8_t *)text, strlen(text), &complaint), "create");
    double took = now() - start;
    return took;
}

int main(int count, char **words)
{
    size_t rounds = count > 1 ? strtoul(words[1], NULL, 10) : 200;
    char *text = text_of(ANSWERS), *small = text_of(4);
    double made = 1e18;
    double read = transfers(text, rounds, read_8), turns = transfers(text, rounds, read_8_in_turns);
    size_t before = mallinfo2().uordblks, memory = 0;
    for (int run = 0; run < RUNS; run++) {
        double took = creation(small);
        made = took < made ? took : made;
        memory = mallinfo2().uordblks - before;
        tirnouch_destroy(&slot);
    }
    printf("a read of 8 bytes by the exports: %.0f ns\n", read);
    printf("the same into memory that is lent, with tirnouch_turn: %.0f ns\n", turns);
    printf("a session of one device: %.0f us, %zu bytes\n", made / 1000, memory);
    free(text);
    free(small);
    return 0;
}
