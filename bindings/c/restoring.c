/* Tests of lost blocks against the library: every block of annex A's data and of messages of every length to four blocks, the
 * longest message, each refusal and their order, the bytes in the message and around it that must stay, and what a restored block
 * is worth. annex_a.txt is read as in checking.c. */
#include "expect.h"

/* The message lies in these bytes, from 16 on; those around it are AA. */
#define MOST ((size_t)1 << 20)
static uint8_t around[16 + MOST + 1 + 16];
static uint8_t *const lent = around + 16;

/* K and K' of annex A. */
static uint8_t keys[32];

/* The bytes of the keys. */
static size_t keys_for(uint64_t algorithm)
{
    return algorithm == 2 || algorithm == 3 || algorithm == 4 || algorithm == 6 ? 32 : 16;
}

/* Each algorithm that has tags of 128 bits, with each of its paddings. */
static const slipseal_agreement full[] = {
    {1, 1, 128, 0}, {1, 2, 128, 0}, {1, 3, 128, 0}, {2, 1, 128, 0}, {2, 2, 128, 0}, {2, 3, 128, 0},
    {3, 1, 128, 0}, {3, 2, 128, 0}, {3, 3, 128, 0}, {4, 1, 128, 0}, {4, 2, 128, 0}, {4, 3, 128, 0},
    {5, 4, 128, 0}, {6, 1, 128, 0}, {6, 2, 128, 0}, {6, 3, 128, 0}, {8, 4, 128, 0}};

#define FULL (sizeof full / sizeof full[0])

/* Puts these bytes into the message, and AA around it. */
static void lend(const uint8_t *bytes, size_t len)
{
    memset(around, 0xAA, 16);
    memcpy(lent, bytes, len);
    memset(lent + len, 0xAA, 16);
}

/* Whether the message has these bytes, and AA around it. */
static int stands(const uint8_t *bytes, size_t len)
{
    return filled(around, 16, 0xAA) && memcmp(lent, bytes, len) == 0 && filled(lent + len, 16, 0xAA);
}

/* Loses a block of these bytes, restores it under the tag, and tells whether all of them stand there again. */
static int comes_back(slipseal_agreement a, const uint8_t *k, const uint8_t *bytes, size_t bits, size_t block, const uint8_t *tag,
                      uint8_t junk)
{
    const size_t len = (bits + 7) / 8, k_len = keys_for(a.algorithm);
    lend(bytes, len);
    memset(lent + 16 * block, junk, 16);
    return slipseal_restore(a, k, k_len, lent, len, bits, block, tag, 16) == 0 && stands(bytes, len) &&
           slipseal_check(a, k, k_len, lent, len, bits, tag, 16).yes == 1;
}

/* Whether a call is refused with this number and leaves these bytes. */
static int refused_with(uint64_t number, slipseal_agreement a, const uint8_t *k, size_t k_len, const uint8_t *bytes, size_t len,
                        size_t bits, size_t block, const uint8_t *tag, size_t tag_len)
{
    lend(bytes, len);
    return slipseal_restore(a, k, k_len, lent, len, bits, block, tag, tag_len) == number && stands(bytes, len);
}

/* Each block under each G; 41 for the number after the last whole one, the part block of data 2 too; 3 for algorithm 7 and for tags
 * of 64 bits. */
static void annex_a(void)
{
    FILE *const file = fopen("annex_a.txt", "r");
    vector v;
    int vectors = 0;
    while (next_vector(file, &v)) {
        const slipseal_agreement a = {v.algorithm, v.padding, 128, 0};
        const size_t whole = v.len / 16, bits = 8 * v.len;
        size_t block;
        vectors++;
        if (v.algorithm == 7) {
            expect(refused_with(3, a, v.keys, 16, message, v.len, bits, 0, v.g, 16), "128 bits of algorithm 7");
            expect(refused_with(3, agreed(7, 4, 63), v.keys, 16, message, v.len, bits, 0, v.tag, 8), "63 bits of algorithm 7");
            continue;
        }
        for (block = 0; block < whole; block++) {
            expect(comes_back(a, v.keys, message, bits, block, v.g, 0x00), "a block of annex A, zeros in its place");
            expect(comes_back(a, v.keys, message, bits, block, v.g, 0xFF), "a block of annex A, ones in its place");
        }
        expect(refused_with(41, a, v.keys, v.keys_len, message, v.len, bits, whole, v.g, 16), "no such block of annex A");
        expect(refused_with(3, agreed(v.algorithm, v.padding, 64), v.keys, v.keys_len, message, v.len, bits, 0, v.tag, 8),
               "a printed tag of 64 bits");
    }
    expect(vectors == 36, "annex_a.txt has 36 tags");
    if (file != NULL) {
        fclose(file);
    }
}

/* From no bits to four blocks: each whole block comes back, spare bits of the last byte stay, and there is no block after these. */
static void every_length(void)
{
    uint8_t bytes[64], tag[16] = {0};
    size_t i, bits, block;
    for (i = 0; i < sizeof bytes; i++) {
        bytes[i] = (uint8_t)(i * i * 37 / 11 + 91);
    }
    for (i = 0; i < FULL; i++) {
        const slipseal_agreement a = full[i];
        const size_t k_len = keys_for(a.algorithm);
        int all = 1;
        for (bits = 0; bits <= 512; bits++) {
            const size_t len = (bits + 7) / 8;
            if (slipseal_make(a, keys, k_len, bytes, len, bits, tag, 16).number == 9) {
                all &= refused_with(9, a, keys, k_len, bytes, len, bits, 0, tag, 16);
                continue;
            }
            for (block = 0; block < bits / 128; block++) {
                all &= comes_back(a, keys, bytes, bits, block, tag, (uint8_t)bits);
            }
            all &= refused_with(41, a, keys, k_len, bytes, len, bits, bits / 128, tag, 16);
            all &= refused_with(41, a, keys, k_len, bytes, len, bits, SIZE_MAX, tag, 16);
        }
        expect(all, "every whole block of every length");
    }
}

static void longest(void)
{
    static uint8_t bytes[MOST];
    const size_t lost[] = {0, 32768, 65535}, none[] = {65536, 65537, (size_t)1 << 57, SIZE_MAX};
    uint8_t tag[16];
    size_t i, j;
    for (i = 0; i < MOST; i++) {
        bytes[i] = (uint8_t)(i * i / 251);
    }
    for (i = 0; i < FULL; i++) {
        const slipseal_agreement a = full[i];
        const size_t k_len = keys_for(a.algorithm);
        expect(slipseal_make(a, keys, k_len, bytes, MOST, 8 * MOST, tag, 16).yes == 1, "the tag of the longest message");
        for (j = 0; j < sizeof lost / sizeof lost[0]; j++) {
            expect(comes_back(a, keys, bytes, 8 * MOST, lost[j], tag, 0), "a block of the longest message");
        }
        for (j = 0; j < sizeof none / sizeof none[0]; j++) {
            expect(refused_with(41, a, keys, k_len, bytes, MOST, 8 * MOST, none[j], tag, 16), "none of the longest message");
        }
    }
}

/* A call that is refused: with which number, what is agreed, the bytes of the keys, of the message and its bits, the number of the
 * block, and the bytes of the tag. */
typedef struct restoring {
    uint64_t number;
    slipseal_agreement agreement;
    size_t keys_len, len, bits, block, tag_len;
} restoring;

/* Each with every later fault that can be had beside it, and some alone. The keys are one key twice: good to byte 16. */
static void refusals(void)
{
    const uint64_t far = (uint64_t)1 << 32;
    const restoring refused[] = {
        {1, {9, 9, 999, 0}, 3, 16, 256, SIZE_MAX, 17},
        {1, {far + 1, 1, 128, 0}, 16, 16, 128, 0, 16},
        {2, {4, 9, 999, 0}, 3, 16, 256, SIZE_MAX, 17},
        {2, {7, 1, 128, 0}, 3, 16, 256, SIZE_MAX, 17},
        {2, {1, far + 1, 128, 0}, 16, 16, 128, 0, 16},
        {3, {4, 1, 999, 0}, 3, 16, 256, SIZE_MAX, 17},
        {3, {4, 1, 64, 0}, 3, 16, 256, SIZE_MAX, 17},
        {3, {7, 4, 63, 0}, 3, 16, 256, SIZE_MAX, 17},
        {3, {1, 1, 127, 0}, 16, 16, 128, 0, 16},
        {3, {1, 1, 129, 0}, 16, 16, 128, 0, 16},
        {3, {1, 1, far + 128, 0}, 16, 16, 128, 0, 16},
        {4, {4, 1, 128, 0}, 3, 16, 256, SIZE_MAX, 17},
        {4, {1, 1, 128, 0}, 32, 16, 128, 0, 16},
        {5, {4, 1, 128, 0}, 32, 16, 256, SIZE_MAX, 17},
        {7, {3, 1, 128, 0}, 32, 16, 256, SIZE_MAX, 17},
        {7, {1, 1, 128, 0}, 16, 0, SIZE_MAX, 0, 16},
        {8, {3, 1, 128, 0}, 32, MOST + 1, 8 * MOST + 1, SIZE_MAX, 17},
        {10, {3, 1, 128, 0}, 32, 16, 128, SIZE_MAX, 17},
        {10, {3, 1, 128, 0}, 32, 16, 128, 0, 17},
        {10, {3, 1, 128, 0}, 32, 16, 128, 0, 15},
        {10, {3, 1, 128, 0}, 32, 0, 0, 0, 0},
        {41, {3, 1, 128, 0}, 32, 16, 128, SIZE_MAX, 16},
        {41, {3, 1, 128, 0}, 32, 16, 128, 1, 16},
        {41, {1, 3, 128, 0}, 16, 16, 128, 1, 16},
        {41, {1, 3, 128, 0}, 16, 0, 0, 0, 16},
        {41, {5, 4, 128, 0}, 16, 16, 127, 0, 16},
        {41, {8, 4, 128, 0}, 16, 0, 0, 0, 16}};
    static uint8_t bytes[MOST + 1];
    uint8_t twice[32], tag[17];
    size_t i;
    memcpy(twice, key, 16);
    memcpy(twice + 16, key, 16);
    memset(bytes, 0x5C, sizeof bytes);
    memset(tag, 0xB7, sizeof tag);
    for (i = 0; i < sizeof refused / sizeof refused[0]; i++) {
        const restoring r = refused[i];
        expect(refused_with(r.number, r.agreement, twice, r.keys_len, bytes, r.len, r.bits, r.block, tag, r.tag_len),
               "the first fault of a restoration");
    }
    expect(refused_with(9, agreed(4, 1, 128), keys, 32, bytes, 16, 128, SIZE_MAX, tag, 17), "one block of algorithm 4");
    expect(refused_with(9, agreed(4, 1, 128), keys, 32, bytes, 16, 128, 0, tag, 16), "which is a whole one");
}

/* Among them those that a product with 128 or with 16 would turn into that of a block. */
static void far_numbers(void)
{
    const size_t far[] = {(size_t)1 << 16, (size_t)1 << 32, (size_t)1 << 57, (size_t)1 << 60, (size_t)1 << 61, (size_t)1 << 63,
                          SIZE_MAX / 128, SIZE_MAX / 16, SIZE_MAX - 1};
    const uint8_t tag[16] = {0};
    size_t i, near;
    for (i = 0; i < sizeof far / sizeof far[0]; i++) {
        for (near = 0; near < 2; near++) {
            expect(refused_with(41, agreed(1, 1, 128), key, 16, message, 32, 256, far[i] + near, tag, 16), "a far number");
        }
    }
}

/* A false tag, or a bit altered in the other block, restores to some block too, and a check says yes to it. */
static void worth(void)
{
    size_t i, block, place;
    for (i = 0; i < FULL; i++) {
        const slipseal_agreement a = full[i];
        const size_t k_len = keys_for(a.algorithm);
        uint8_t tag[16];
        int all = slipseal_make(a, keys, k_len, message, 32, 256, tag, 16).yes == 1;
        for (block = 0; block < 2; block++) {
            uint8_t *const lost = lent + 16 * block, *const other = lent + 16 * (1 - block);
            for (place = 0; place < 128; place++) {
                const uint8_t bit = (uint8_t)(0x80 >> place % 8);
                lend(message, 32);
                tag[place / 8] ^= bit;
                all &= slipseal_restore(a, keys, k_len, lent, 32, 256, block, tag, 16) == 0;
                all &= memcmp(lost, message + 16 * block, 16) != 0 && memcmp(other, message + 16 * (1 - block), 16) == 0;
                all &= slipseal_check(a, keys, k_len, lent, 32, 256, tag, 16).yes == 1;
                tag[place / 8] ^= bit;

                lend(message, 32);
                other[place / 8] ^= bit;
                all &= slipseal_restore(a, keys, k_len, lent, 32, 256, block, tag, 16) == 0;
                all &= memcmp(lost, message + 16 * block, 16) != 0;
                all &= slipseal_check(a, keys, k_len, lent, 32, 256, tag, 16).yes == 1;
            }
        }
        expect(all, "a false tag or an altered bit, restored and checked");
    }
}

/* Where a length is 0, any address but null does. */
static void no_bytes(void)
{
    uint8_t *const nowhere = (uint8_t *)1;
    const uint8_t tag[16] = {0};
    const slipseal_agreement a = {1, 1, 128, 0};
    lend(message, 32);
    expect(slipseal_restore(a, nowhere, 0, lent, 32, 256, 0, tag, 16) == 4, "a restoration with no keys");
    expect(slipseal_restore(a, key, 16, nowhere, 0, 0, 0, tag, 16) == 41, "a restoration in no message");
    expect(slipseal_restore(a, key, 16, lent, 32, 256, 0, nowhere, 0) == 10, "a restoration from no tag");
    expect(stands(message, 32), "a refusal writes nothing");
}

int main(void)
{
    memcpy(keys, key, 16);
    memcpy(keys + 16, second, 16);
    annex_a();
    every_length();
    longest();
    refusals();
    far_numbers();
    worth();
    no_bytes();
    return told_all("c, lost blocks");
}
