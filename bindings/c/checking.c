/* Tests of checks in a session against the library: start, pieces and finish accepted and refused, with the whole struct that comes
 * back; the finish of the other purpose; records that no call handed out; and annex A, from annex_a.txt of the folder above this
 * one, in which the program is started. */
#include "expect.h"

static const slipseal_agreement five = {5, 4, 64, 0};

/* Annex A's message under algorithm 5, fed in two pieces to a session that checks this tag. */
static slipseal_session fed(const uint8_t *tag)
{
    slipseal_step step = slipseal_start_check(five, key, 16, 0, tag, 8);
    step = slipseal_piece(step.session, message, 20, 160);
    return slipseal_piece(step.session, message + 20, 12, 96).session;
}

static void started(void)
{
    const slipseal_session making = slipseal_start(five, key, 16, 0).session;
    slipseal_session expected = making;
    slipseal_step step;
    expect(making.phase == 1 && making.purpose == 0 && filled(making.expected, 16, 0), "a start for making");
    expected.purpose = 1;
    memcpy(expected.expected, printed, 8);
    step = slipseal_start_check(five, key, 16, 0, printed, 8);
    expect(gave(step, 0, 0, 0, expected), "a start of a check has the purpose and the tag beside it");
    step = slipseal_piece(step.session, message, 20, 160);
    expect(is(step.answer, 0, 0, 0) && step.session.total == 160, "a piece of a check");
    expect(step.session.purpose == 1 && memcmp(step.session.expected, expected.expected, 16) == 0, "it keeps purpose and tag");
    step = slipseal_piece(making, message, 20, 160);
    expect(step.session.purpose == 0 && filled(step.session.expected, 16, 0), "and so does one of a session for making");
}

/* Yes and no close alike, and a closed session is refused everything. */
static void yes_and_no(void)
{
    uint8_t tag[8];
    size_t place;
    slipseal_answer whole = slipseal_check(five, key, 16, message, 32, 256, printed, 8);
    expect(is(whole, 0, 1, 3) && gave(slipseal_finish_check(fed(printed)), 0, 1, 3, zeros), "yes");
    for (place = 0; place < 64; place++) {
        memcpy(tag, printed, 8);
        tag[place / 8] ^= (uint8_t)(0x80 >> place % 8);
        whole = slipseal_check(five, key, 16, message, 32, 256, tag, 8);
        expect(is(whole, 0, 0, 3) && gave(slipseal_finish_check(fed(tag)), 0, 0, 3, zeros), "no");
    }
    expect(gave(slipseal_piece(zeros, message, 0, 0), 11, 0, 0, zeros), "a piece after the end");
    expect(gave(slipseal_finish_check(zeros), 11, 0, 0, zeros), "a finish after the end");
}

/* A start of a check: the refusal that it gets, what is agreed, and three lengths. */
typedef struct starting {
    uint64_t number;
    slipseal_agreement agreement;
    size_t keys_len, declared, tag_len;
} starting;

/* Each with every later fault that can be had beside it, and some alone. The keys are one key twice: good to byte 16. */
static void refused_starts(void)
{
    const uint64_t far = (uint64_t)1 << 32;
    const starting refused[] = {
        {1, {9, 9, 999, 0}, 3, SIZE_MAX, 17},
        {1, {far + 5, 4, 64, 0}, 16, 0, 8},
        {2, {4, 9, 999, 0}, 3, SIZE_MAX, 17},
        {2, {5, far + 4, 64, 0}, 16, 0, 8},
        {3, {4, 3, 999, 0}, 3, SIZE_MAX, 17},
        {3, {5, 4, far + 64, 0}, 16, 0, 8},
        {4, {4, 3, 64, 0}, 3, SIZE_MAX, 17},
        {5, {4, 3, 64, 0}, 32, SIZE_MAX, 17},
        {8, {3, 3, 64, 0}, 32, SIZE_MAX, 17},
        {8, {3, 3, 64, 0}, 32, 8388609, 7},
        {8, {3, 3, 64, 0}, 32, 8388609, 8},
        {10, {3, 3, 64, 0}, 32, 8388608, 7},
        {10, {5, 4, 64, 0}, 16, SIZE_MAX, 0},
        {10, {5, 4, 64, 0}, 16, SIZE_MAX, 7},
        {10, {5, 4, 64, 0}, 16, SIZE_MAX, 9},
        {10, {5, 4, 64, 0}, 16, SIZE_MAX, 16},
        {10, {5, 4, 128, 0}, 16, 0, 17},
        {10, {5, 4, 65, 0}, 16, 0, 8},
        {10, {5, 4, 1, 0}, 16, 0, 0}};
    const starting taken[] = {
        {0, {3, 3, 64, 0}, 32, 8388608, 8},
        {0, {5, 4, 64, 0}, 16, SIZE_MAX, 8},
        {0, {5, 4, 65, 0}, 16, 0, 9},
        {0, {5, 4, 128, 0}, 16, 0, 16},
        {0, {5, 4, 1, 0}, 16, 0, 1}};
    uint8_t keys[32], tag[17];
    size_t i;
    memcpy(keys, key, 16);
    memcpy(keys + 16, key, 16);
    memset(tag, 0xB7, sizeof tag);
    for (i = 0; i < sizeof refused / sizeof refused[0]; i++) {
        const starting r = refused[i];
        expect(gave(slipseal_start_check(r.agreement, keys, r.keys_len, r.declared, tag, r.tag_len), r.number, 0, 0, zeros),
               "a refused start of a check");
    }
    for (i = 0; i < sizeof taken / sizeof taken[0]; i++) {
        const starting r = taken[i];
        slipseal_step step = slipseal_start_check(r.agreement, keys, r.keys_len, r.declared, tag, r.tag_len);
        expect(is(step.answer, 0, 0, 0) && step.session.phase == 1 && step.session.purpose == 1, "a start of a check");
        expect(filled(step.session.expected, r.tag_len, 0xB7) && filled(step.session.expected + r.tag_len, 16 - r.tag_len, 0),
               "the tag, then zeros");
    }
}

/* Each finish, tried on a session of the other purpose: 11 and the very struct, also with 12, 9 and 10 beside it. */
static void other_purpose(void)
{
    const slipseal_agreement short_of_bits = {4, 3, 64, 0}, one_block = {4, 1, 64, 0};
    const slipseal_session checks[] = {
        slipseal_start_check(five, key, 16, 0, printed, 8).session, fed(printed), record_of(short_of_bits, 9, 8),
        record_of(one_block, 0, 8)};
    slipseal_session making = slipseal_start(five, key, 16, 0).session;
    uint8_t tag[16];
    size_t i;
    memset(tag, 0xAA, sizeof tag);
    for (i = 0; i < sizeof checks / sizeof checks[0]; i++) {
        slipseal_session checking = checks[i];
        checking.purpose = 1;
        expect(gave(slipseal_finish(checking, tag, 16), 11, 0, 0, checking), "a finish for making, of a check");
        expect(gave(slipseal_finish(checking, tag, 0), 11, 0, 0, checking), "and without room");
        checking.purpose = 0;
        expect(gave(slipseal_finish_check(checking), 11, 0, 0, checking), "a finish of a check, of a session for making");
    }
    expect(filled(tag, 16, 0xAA), "a refusal writes nothing");

    /* The session goes on as it was. */
    expect(gave(slipseal_finish_check(slipseal_finish(fed(printed), tag, 16).session), 0, 1, 3, zeros), "then the right finish");
    making = slipseal_finish_check(making).session;
    making = slipseal_piece(making, message, 32, 256).session;
    making = slipseal_finish_check(making).session;
    expect(gave(slipseal_finish(making, tag, 16), 0, 1, 3, zeros), "then the right finish, for making");
    expect(memcmp(tag, printed, 8) == 0 && filled(tag + 8, 8, 0xAA), "the printed tag and no more");
}

/* A purpose that is neither 0 nor 1 closes a session that is open under both, and the struct comes back as it came. */
static void odd_purposes(void)
{
    const uint64_t odd[] = {2, 3, 255, 256, 257, (uint64_t)1 << 32, ((uint64_t)1 << 32) + 1, (uint64_t)1 << 63, UINT64_MAX};
    uint8_t tag[16];
    size_t i;
    memset(tag, 0xAA, sizeof tag);
    for (i = 0; i < sizeof odd / sizeof odd[0]; i++) {
        slipseal_session record = fed(printed);
        record.purpose = odd[i];
        expect(gave(slipseal_piece(record, message, 0, 0), 11, 0, 0, record), "a piece under an odd purpose");
        expect(gave(slipseal_piece(record, message, 2, 8), 11, 0, 0, record), "with a wrong length beside it");
        expect(gave(slipseal_finish(record, tag, 16), 11, 0, 0, record), "a finish under an odd purpose");
        expect(gave(slipseal_finish_check(record), 11, 0, 0, record), "a finish of a check under an odd purpose");
        record.purpose = 1;
        expect(gave(slipseal_piece(record, message, 0, 0), 0, 0, 0, record), "open where it is 1");
        record.purpose = 0;
        expect(gave(slipseal_piece(record, message, 0, 0), 0, 0, 0, record), "open where it is 0");
    }
    expect(filled(tag, 16, 0xAA), "a refusal writes nothing");
}

/* Every refusal hands back the record byte for byte, with whatever stands in what is not read; more bits may follow. */
static void handed_back(void)
{
    const uint64_t any = UINT64_MAX;
    slipseal_session record = record_of(agreed(any, any, any), any, 8);
    uint8_t keys[32];
    memcpy(keys, key, 16);
    memset(keys + 16, 0x5C, 16);
    record.purpose = 1;
    expect(gave(slipseal_finish_check(record), 11, 0, 0, record), "a closed record");
    memset(&record, 0xA5, sizeof record);
    expect(gave(slipseal_finish_check(record), 11, 0, 0, record), "a record of one byte");
    record = record_of(agreed(1, 1, 64), any, 8);
    record.purpose = 1;
    expect(gave(slipseal_piece(record, message, 2, 8), 7, 0, 0, record), "a piece with a wrong length");
    record.total = 8388600;
    expect(gave(slipseal_piece(record, message, 2, 9), 8, 0, 0, record), "a piece that is too long");
    record = record_of(agreed(4, 3, 64), 15, 8);
    record.purpose = 1;
    expect(gave(slipseal_piece(record, message, 1, 8), 12, 0, 0, record), "a piece that passes the declared length");
    expect(gave(slipseal_finish_check(record), 12, 0, 0, record), "a finish short of the declared length");
    record = slipseal_start_check(agreed(4, 1, 64), keys, 32, 0, printed, 8).session;
    record = slipseal_piece(record, message, 16, 128).session;
    expect(gave(slipseal_finish_check(record), 9, 0, 0, record), "a finish of one block");
    record = slipseal_piece(record, message + 16, 16, 128).session;
    expect(gave(slipseal_finish_check(record), 0, 0, 4, zeros), "and after a second one");
}

/* What stands past the tag's bytes is not read, and in a session for making nothing of the expected tag is. */
static void not_read(void)
{
    slipseal_session record = fed(printed);
    uint8_t tag[8] = {0};
    memset(record.expected + 8, 0xE7, 8);
    expect(gave(slipseal_piece(record, message, 0, 0), 0, 0, 0, record), "a piece keeps it");
    expect(gave(slipseal_finish_check(record), 0, 1, 3, zeros), "yes, with bytes past the tag");
    record.expected[7] ^= 1;
    expect(gave(slipseal_finish_check(record), 0, 0, 3, zeros), "no for the tag's last bit");
    record.purpose = 0;
    expect(gave(slipseal_finish(record, tag, 8), 0, 1, 3, zeros) && memcmp(tag, printed, 8) == 0, "a tag made beside it");
}

/* The slip's fields of R6 under algorithm 1, padding 1, 12 bits, whose tag is A33: four spare bits, and each makes a no. */
static void spare_bits(void)
{
    int spare;
    for (spare = 0; spare < 16; spare++) {
        const uint8_t tag[2] = {0xA3, (uint8_t)(0x30 | spare)};
        slipseal_step step = slipseal_start_check(agreed(1, 1, 12), key, 16, 0, tag, 2);
        expect(memcmp(step.session.expected, tag, 2) == 0, "spare bits are kept as given");
        step = slipseal_piece(step.session, fields, 23, 184);
        expect(gave(slipseal_finish_check(step.session), 0, spare == 0, 2, zeros), "yes without spare bits, else no");
    }
}

/* A message that ends within a byte is checked as in one call, and takes no bits after it. */
static void part_byte(void)
{
    const slipseal_agreement a = {1, 2, 64, 0};
    uint8_t tag[8];
    slipseal_step step;
    expect(is(slipseal_make(a, key, 16, message, 6, 43, tag, 8), 0, 1, 1), "the tag of 43 bits");
    step = slipseal_start_check(a, key, 16, 0, tag, 8);
    step = slipseal_piece(step.session, message, 2, 16);
    step = slipseal_piece(step.session, message + 2, 4, 27);
    expect(step.session.phase == 2 && step.session.part == 3, "three bits of a byte");
    expect(gave(slipseal_piece(step.session, message, 1, 8), 11, 0, 0, step.session), "no bits after a part byte");
    expect(gave(slipseal_finish_check(step.session), 0, 1, 1, zeros), "yes for 43 bits");
}

/* ---- annex A */

/* Byte by byte, the tag given at the start. */
static slipseal_step checked(slipseal_agreement a, const uint8_t *keys, size_t keys_len, size_t len, const uint8_t *tag)
{
    slipseal_step step = slipseal_start_check(a, keys, keys_len, 8 * len, tag, (a.m + 7) / 8);
    size_t i;
    for (i = 0; i < len; i++) {
        step = slipseal_piece(step.session, message + i, 1, 8);
    }
    return slipseal_finish_check(step.session);
}

/* The tag gets yes, and with any one bit turned no, with the calls by document 01's table. */
static void annex_tag(slipseal_agreement a, const uint8_t *keys, size_t keys_len, size_t len, uint8_t *tag)
{
    const size_t more[8] = {0, 1, 2, 2, 1, 0, 0, 1}, blocks[4] = {2, len / 16 + 1, 3, 2};
    const uint64_t calls = blocks[a.padding - 1] + more[a.algorithm - 1];
    size_t place;
    expect(gave(checked(a, keys, keys_len, len, tag), 0, 1, calls, zeros), "a tag of annex A, byte by byte");
    for (place = 0; place < 8 * ((a.m + 7) / 8); place++) {
        tag[place / 8] ^= (uint8_t)(0x80 >> place % 8);
        expect(gave(checked(a, keys, keys_len, len, tag), 0, 0, calls, zeros), "with one bit turned");
        tag[place / 8] ^= (uint8_t)(0x80 >> place % 8);
    }
}

/* The printed tags, and the printed G as tags of 128 bits. Of algorithm 7, 63 of the 64 printed bits. */
static void annex_a(void)
{
    FILE *const file = fopen("annex_a.txt", "r");
    vector v;
    int vectors = 0;
    while (next_vector(file, &v)) {
        size_t i;
        vectors++;
        if (v.algorithm != 7) {
            annex_tag(agreed(v.algorithm, v.padding, 64), v.keys, v.keys_len, v.len, v.tag);
            annex_tag(agreed(v.algorithm, v.padding, 128), v.keys, v.keys_len, v.len, v.g);
            continue;
        }
        for (i = 0; i < 8 && v.len == 25; i++) {
            v.tag[i] = (uint8_t)(v.tag[i] << 1 | (i < 7 ? v.tag[i + 1] >> 7 : 0)); /* the last 63 bits */
        }
        v.tag[7] &= 0xFE;
        annex_tag(agreed(7, v.padding, 63), v.keys, v.keys_len, v.len, v.tag);
    }
    expect(vectors == 36, "annex_a.txt has 36 tags");
    if (file != NULL) {
        fclose(file);
    }
}

/* Where a length is 0, any address but null does. */
static void no_bytes(void)
{
    const uint8_t *const nowhere = (const uint8_t *)1;
    expect(gave(slipseal_start_check(five, nowhere, 0, 0, printed, 8), 4, 0, 0, zeros), "a start of a check with no keys");
    expect(gave(slipseal_start_check(five, key, 16, 0, nowhere, 0), 10, 0, 0, zeros), "a start of a check with no tag");
}

int main(void)
{
    started();
    yes_and_no();
    refused_starts();
    other_purpose();
    odd_purposes();
    handed_back();
    not_read();
    spare_bits();
    part_byte();
    annex_a();
    no_bytes();
    return told_all("c, checks in a session");
}
