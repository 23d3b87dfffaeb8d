/* Settles one trip: meter TARIFF-FILE [FACT]...  The facts are marks, as numbers, in ascending order. */
#include <errno.h>
#include <stdio.h>
#include <stdlib.h>

#include "fare.h"

/* No lawful tariff file is longer than 47,110 bytes; one byte more shows that a file is. */
enum { MOST_FILE_BYTES = 47111 };

static const char *const ANSWERS[] = {"not", "holds", "open", "both"};
static const char *const VERDICTS[] = {"clear", "suspect", "broken"};

static const char *refusal_text(uint32_t refusal)
{
    switch (refusal) {
    case FARE_BYTES_END: return "the bytes end too early";
    case FARE_MALFORMED: return "a number is malformed";
    case FARE_OUTSIDE_LIMIT: return "a number is outside its limit";
    case FARE_NOT_ASCENDING: return "the marks of a list do not ascend";
    case FARE_BYTES_REMAIN: return "bytes remain at the end";
    case FARE_OUTPUT_SHORT: return "the output is too short";
    default: return "refused";
    }
}

/* Writes a number up to 16,383 in groups of seven bits, lowest first; returns how many bytes it took. */
static size_t put_number(uint8_t *to, unsigned n)
{
    if (n < 0x80) {
        to[0] = (uint8_t)n;
        return 1;
    }
    to[0] = (uint8_t)(0x80 | (n & 0x7F));
    to[1] = (uint8_t)(n >> 7);
    return 2;
}

/* Reads a mark; returns 0 if the text is not a number from 0 to 511. */
static int parse_mark(const char *text, unsigned *mark)
{
    char *end;
    errno = 0;
    unsigned long n = strtoul(text, &end, 10);
    if (errno != 0 || end == text || *end != '\0' || n >= FARE_MOST_MARKS)
        return 0;
    *mark = (unsigned)n;
    return 1;
}

/* Writes the facts string of the marks; returns its length, or 0 if a text is not a mark. The module tests the rest. */
static size_t put_facts(uint8_t *to, char *const *texts, int count)
{
    size_t len = put_number(to, (unsigned)count);
    for (int i = 0; i < count; i++) {
        unsigned mark;
        if (!parse_mark(texts[i], &mark))
            return 0;
        len += put_number(to + len, mark);
    }
    return len;
}

/* Reads the file; returns 0 if it cannot be read. */
static int read_file(const char *path, uint8_t *to, size_t *len)
{
    FILE *f = fopen(path, "rb");
    if (f == NULL)
        return 0;
    *len = fread(to, 1, MOST_FILE_BYTES, f);
    int right = !ferror(f);
    fclose(f);
    return right;
}

int main(int argc, char **argv)
{
    static uint8_t file[MOST_FILE_BYTES];
    static uint8_t facts[FARE_MOST_FACTS_BYTES];
    static uint8_t out[FARE_MOST_MARKS];
    size_t file_len;

    if (argc < 2 || argc - 2 > FARE_MOST_MARKS) {
        fprintf(stderr, "usage: %s TARIFF-FILE [FACT]...\n", argv[0]);
        return 2;
    }
    if (!read_file(argv[1], file, &file_len)) {
        fprintf(stderr, "%s: cannot be read\n", argv[1]);
        return 2;
    }
    size_t facts_len = put_facts(facts, argv + 2, argc - 2);
    if (facts_len == 0) {
        fprintf(stderr, "a fact is a mark, a number from 0 to %d\n", FARE_MOST_MARKS - 1);
        return 2;
    }

    /* The marks that the tariff does not have keep this value, which is no answer. */
    for (size_t m = 0; m < sizeof out; m++)
        out[m] = 0xFF;
    uint32_t answer = fare_settle(file, file_len, facts, facts_len, out, sizeof out);
    if (answer >= FARE_REFUSED) {
        uint32_t refusal = answer - FARE_REFUSED;
        fprintf(stderr, "refused, %u: %s\n", (unsigned)refusal, refusal_text(refusal));
        return 1;
    }
    for (size_t m = 0; m < sizeof out && out[m] != 0xFF; m++)
        printf("%zu %s\n", m, ANSWERS[out[m]]);
    printf("%s\n", VERDICTS[answer]);
    return 0;
}
