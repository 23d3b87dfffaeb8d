/* The fare module: settles a trip by a tariff, in one call from bytes to bytes. */
#ifndef FARE_H
#define FARE_H

#include <stddef.h>
#include <stdint.h>

#ifdef __cplusplus
extern "C" {
#endif

/* A tariff has 1 to 512 marks, numbered from 0: statements about a trip. */
#define FARE_MOST_MARKS 512

/* Room for any facts string: a count, and 512 marks of at most two bytes each. */
#define FARE_MOST_FACTS_BYTES 1026

/* What the output says of a mark. */
enum fare_answer {
    FARE_NOT = 0,   /* certainly not so */
    FARE_HOLDS = 1, /* certainly so */
    FARE_OPEN = 2,  /* neither is certain */
    FARE_BOTH = 3   /* so and not so: facts and tariff contradict each other */
};

/* What the call answers. */
enum fare_verdict {
    FARE_CLEAR = 0,   /* neither of the others; it promises no sound reading */
    FARE_SUSPECT = 1, /* at what holds, the terms hold back a line that would add something; a sound reading may exist */
    FARE_BROKEN = 2   /* facts and tariff contradict each other, no sound reading exists; the output is written all the same */
};

/* A refused call answers FARE_REFUSED plus one of these. A fault 1 to 4 or 6 is of the file or, if the file is right,
   of the facts string. */
#define FARE_REFUSED 100
enum fare_refusal {
    FARE_BYTES_END = 1,     /* the bytes end where a number must start, or inside one */
    FARE_MALFORMED = 2,     /* a number has more than three bytes, is not in its shortest form, or exceeds 65,535 */
    FARE_OUTSIDE_LIMIT = 3, /* a number lies outside the limit for its place */
    FARE_NOT_ASCENDING = 4, /* the marks of a list do not ascend strictly */
    FARE_BYTES_REMAIN = 6,  /* bytes remain behind the last number */
    FARE_OUTPUT_SHORT = 13  /* the output has fewer bytes than the tariff has marks */
};

/* Settles the facts by the tariff file, and writes the answer for each mark into the output, mark 0 first: one byte a
   mark, an enum fare_answer. Output bytes behind them stay as they were. Returns an enum fare_verdict.

   The file, the facts string and the output are tested in this order; the first fault decides, the call returns
   FARE_REFUSED plus its number, and no byte of the output is changed. docs/FORMAT.md has both formats.

   All of this is proved of the bytes that the call is handed. That C hands over the right ones is not, and is up to
   the caller:
   - each length is the true one: so many bytes may be read there or, at the output, written;
   - no pointer is null, not even where its length is 0;
   - the output overlaps neither the file nor the facts string.

   The call keeps nothing, uses no heap, and may be made from several threads at once. docs/HOST.md says how much
   stack it takes. */
uint32_t fare_settle(const uint8_t *file, size_t file_len,
                     const uint8_t *facts, size_t facts_len,
                     uint8_t *out, size_t out_len);

#ifdef __cplusplus
}
#endif

#endif
