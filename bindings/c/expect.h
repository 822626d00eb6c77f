/* What the test programs share: the keys, the message and the tags of annex A, the fields of a slip, the count of tests, and small
 * comparisons. */
#ifndef EXPECT_H
#define EXPECT_H

#include <stdio.h>
#include <string.h>

#include "slipseal.h"

static const uint8_t key[16] = {0x01, 0x23, 0x45, 0x67, 0x89, 0xAB, 0xCD, 0xEF, 0xFE, 0xDC, 0xBA, 0x98, 0x76, 0x54, 0x32, 0x10};
static const uint8_t message[] = "This is the test message for mac";

/* K' of annex A; K is the key above. */
static const uint8_t second[16] = {0x41, 0x49, 0xD2, 0xAD, 0xED, 0x94, 0x56, 0x68, 0x1E, 0xC8, 0xB5, 0x11, 0xD9, 0xE7, 0xEE, 0x04};

/* Annex A.6, algorithm 5, padding 4, 64 bits. */
static const uint8_t printed[8] = {0x69, 0x2C, 0x43, 0x71, 0x00, 0xF3, 0xB5, 0xEE};

/* The first three fields of the slips of R6. */
static const uint8_t fields[23] = {0x01, 0x00, 0x08, '2', '0', '2', '6', '1', '1', '0', '4', 0x02,
                                   0x00, 0x02, 'A', '7', 0x03, 0x00, 0x04, 0x00, 0x00, 0x01, 0xF4};

/* A closed record. */
static const slipseal_session zeros = {0};

static int tests, failures;

static inline void expect(int holds, const char *what)
{
    tests++;
    if (!holds) {
        failures++;
        printf("failed: %s\n", what);
    }
}

/* The last line of a program, and its status. */
static inline int told_all(const char *name)
{
    printf("%s: %d tests, %d failed\n", name, tests, failures);
    return failures != 0;
}

static inline int is(slipseal_answer a, uint64_t number, uint64_t yes, uint64_t calls)
{
    return a.number == number && a.yes == yes && a.calls == calls;
}

static inline slipseal_agreement agreed(uint64_t algorithm, uint64_t padding, uint64_t m)
{
    slipseal_agreement agreement;
    agreement.algorithm = algorithm;
    agreement.padding = padding;
    agreement.m = m;
    agreement.master = 0;
    return agreement;
}

static inline int filled(const uint8_t *bytes, size_t length, uint8_t byte)
{
    size_t i;
    for (i = 0; i < length; i++) {
        if (bytes[i] != byte) {
            return 0;
        }
    }
    return 1;
}

static inline int same(const slipseal_session *a, const slipseal_session *b)
{
    return memcmp(a, b, sizeof *a) == 0;
}

/* Whether a step has this answer and this very record. */
static inline int gave(slipseal_step step, uint64_t number, uint64_t yes, uint64_t calls, slipseal_session record)
{
    return is(step.answer, number, yes, calls) && same(&step.session, &record);
}

/* A record for making a tag that holds the byte 61, with a chain value, a second key and an expected tag from nowhere. */
static inline slipseal_session record_of(slipseal_agreement agreement, uint64_t declared, uint64_t total)
{
    slipseal_session record;
    memset(&record, 0, sizeof record);
    record.phase = 1;
    record.agreement = agreement;
    record.declared = declared;
    record.total = total;
    memcpy(record.keys, key, 16);
    memset(record.keys + 16, 0xC3, 16);
    memset(record.chain, 0x5A, 16);
    record.held[0] = 'a';
    memset(record.expected, 0x77, 16);
    return record;
}

/* A line of annex_a.txt, which lies in the folder that the program is started in. The message is the first len bytes of the one
 * above. */
typedef struct vector {
    unsigned algorithm, padding;
    size_t keys_len, len;
    uint8_t keys[40], tag[40], g[40];
} vector;

static inline size_t unhex(const char *digits, uint8_t *bytes)
{
    size_t count = 0;
    unsigned byte;
    while (sscanf(digits + 2 * count, "%2x", &byte) == 1) {
        bytes[count++] = (uint8_t)byte;
    }
    return count;
}

/* Whether there was one more. */
static inline int next_vector(FILE *file, vector *v)
{
    char line[256], digits[3][80];
    unsigned data;
    while (file != NULL && fgets(line, sizeof line, file) != NULL) {
        if (sscanf(line, "%u %u %u %79s %79s %79s", &v->algorithm, &v->padding, &data, digits[0], digits[1], digits[2]) != 6) {
            continue; /* words about the file */
        }
        v->len = data == 1 ? 32 : 25;
        v->keys_len = unhex(digits[0], v->keys);
        unhex(digits[1], v->tag);
        unhex(digits[2], v->g);
        return 1;
    }
    return 0;
}

#endif
