/* Tests of masters against the library: A.7 under its master, with the printed tags and 2 calls more, and R8 with algorithm 4; the
 * numbers that stand for yes; the refusals of keys, and their order; sessions for making and for checking, and records that no call
 * handed out; slips, also read with the master told wrongly; and lost blocks. annex_a.txt is read as in checking.c. */
#include "expect.h"

/* The keys derived from the key of expect.h: K and K' of A.7. */
static const uint8_t derived[2][16] = {
    {0x4E, 0x59, 0x5B, 0xF0, 0x3F, 0x23, 0xBD, 0x10, 0x32, 0x9B, 0xAF, 0x56, 0x98, 0xE8, 0x98, 0xEC},
    {0xB3, 0x13, 0x6C, 0x04, 0x4E, 0x95, 0x48, 0x2D, 0x4F, 0x65, 0x2E, 0x69, 0x4F, 0x27, 0x41, 0xCD}};

/* R8, algorithm 4, padding 1, data 1: K is the key, and K' of annex A the master. The first 8 bytes are the tag of R8. */
static const uint8_t fourth[16] = {0xDD, 0x64, 0x87, 0x3E, 0xEB, 0x7C, 0x96, 0x05, 0xB8, 0x0D, 0x0A, 0xF0, 0x97, 0xA3, 0xB5, 0x54};

/* Numbers that stand for yes in an agreement; in a record the first alone does. */
static const uint64_t yes[] = {
    1, 2, 3, 255, 256, 257, (uint64_t)1 << 32, ((uint64_t)1 << 32) + 1, (uint64_t)1 << 63, UINT64_MAX};

#define YES (sizeof yes / sizeof yes[0])

/* Two keys, one after the other. */
static uint8_t pair[32];

static const uint8_t *joined(const uint8_t *first, const uint8_t *other)
{
    memcpy(pair, first, 16);
    memcpy(pair + 16, other, 16);
    return pair;
}

static slipseal_agreement mastered(uint64_t algorithm, uint64_t padding, uint64_t m)
{
    slipseal_agreement agreement = agreed(algorithm, padding, m);
    agreement.master = 1;
    return agreement;
}

/* A session fed byte by byte. */
static slipseal_session fed(slipseal_step begun, size_t len)
{
    size_t i;
    for (i = 0; i < len; i++) {
        begun = slipseal_piece(begun.session, message + i, 1, 8);
    }
    return begun.session;
}

/* ---- tags */

/* This tag and these calls: made and checked, in one call and in a session; and no for every turned bit. */
static void has_tag(slipseal_agreement a, const uint8_t *keys, size_t keys_len, size_t len, const uint8_t *tag, uint64_t calls)
{
    const size_t size = (a.m + 7) / 8;
    uint8_t room[20], other[16];
    size_t place;
    memset(room, 0xAA, sizeof room);
    expect(is(slipseal_make(a, keys, keys_len, message, len, 8 * len, room, 20), 0, 1, calls), "made under a master");
    expect(memcmp(room, tag, size) == 0 && filled(room + size, 20 - size, 0xAA), "the tag and no more");
    expect(is(slipseal_check(a, keys, keys_len, message, len, 8 * len, tag, size), 0, 1, calls), "checked under a master");
    memset(room, 0xAA, sizeof room);
    expect(gave(slipseal_finish(fed(slipseal_start(a, keys, keys_len, 8 * len), len), room, 20), 0, 1, calls, zeros),
           "made in a session under a master");
    expect(memcmp(room, tag, size) == 0 && filled(room + size, 20 - size, 0xAA), "the same tag and no more");
    expect(gave(slipseal_finish_check(fed(slipseal_start_check(a, keys, keys_len, 8 * len, tag, size), len)), 0, 1, calls, zeros),
           "checked in a session under a master");
    for (place = 0; place < 8 * size; place++) {
        memcpy(other, tag, size);
        other[place / 8] ^= (uint8_t)(0x80 >> place % 8);
        expect(is(slipseal_check(a, keys, keys_len, message, len, 8 * len, other, size), 0, 0, calls), "one bit turned");
        expect(gave(slipseal_finish_check(fed(slipseal_start_check(a, keys, keys_len, 8 * len, other, size), len)), 0, 0, calls,
                    zeros),
               "one bit turned, in a session");
    }
}

/* The six tags of A.7, and of algorithm 2 what the derived keys make that are handed in. */
static void annex_a_7(void)
{
    const uint64_t calls[6] = {4, 5, 5, 4, 4, 5};
    FILE *const file = fopen("annex_a.txt", "r");
    vector v;
    int vectors = 0;
    while (next_vector(file, &v)) {
        uint8_t tag[16];
        slipseal_answer made;
        if (v.algorithm != 6) {
            continue;
        }
        expect(memcmp(v.keys, derived[0], 16) == 0 && memcmp(v.keys + 16, derived[1], 16) == 0, "K and K' of A.7");
        expect(vectors < 6, "six tags");
        has_tag(mastered(6, v.padding, 64), key, 16, v.len, v.tag, calls[vectors % 6]);
        has_tag(mastered(6, v.padding, 128), key, 16, v.len, v.g, calls[vectors % 6]);
        made = slipseal_make(agreed(2, v.padding, 128), v.keys, 32, message, v.len, 8 * v.len, tag, 16);
        expect(is(made, 0, 1, calls[vectors % 6] - 1), "algorithm 2 under the derived keys");
        has_tag(mastered(2, v.padding, 128), key, 16, v.len, tag, made.calls + 2);
        vectors++;
    }
    expect(vectors == 6, "annex_a.txt has six tags of A.7");
    if (file != NULL) {
        fclose(file);
    }
}

static void r8(void)
{
    has_tag(mastered(4, 1, 64), joined(key, second), 32, 32, fourth, 6);
    has_tag(mastered(4, 1, 128), joined(key, second), 32, 32, fourth, 6);
}

/* Each function takes each number for yes, and a session's record has 1 for it. */
static void every_yes(void)
{
    const slipseal_session begun = slipseal_start(mastered(6, 1, 128), key, 16, 0).session;
    const slipseal_session checks = slipseal_start_check(mastered(6, 1, 128), key, 16, 0, fourth, 16).session;
    uint8_t whole[16], slip[75], lost[32];
    size_t i;
    slipseal_make(mastered(6, 1, 128), key, 16, message, 32, 256, whole, 16);
    for (i = 0; i < YES; i++) {
        slipseal_agreement a = mastered(6, 1, 128);
        slipseal_gathered gathered = {0};
        uint8_t tag[16] = {0};
        a.master = yes[i];
        expect(is(slipseal_make(a, key, 16, message, 32, 256, tag, 16), 0, 1, 4) && memcmp(tag, whole, 16) == 0, "make");
        expect(is(slipseal_check(a, key, 16, message, 32, 256, whole, 16), 0, 1, 4), "check");
        expect(gave(slipseal_start(a, key, 16, 0), 0, 0, 0, begun), "start");
        expect(gave(slipseal_start_check(a, key, 16, 0, fourth, 16), 0, 0, 0, checks), "start of a check");
        expect(slipseal_write(a, key, 16, 2026, 11, 4, message, 1, 500, slip, 75).calls == 4, "write");
        expect(slipseal_read(a, key, 16, slip, 44).calls == 4, "read");
        gathered = slipseal_gather(gathered, slip, 44);
        expect(slipseal_read_gathered(a, key, 16, gathered).calls == 4, "read of a gathered slip");
        memcpy(lost, message, 32);
        memset(lost, 0, 16);
        expect(slipseal_restore(a, key, 16, lost, 32, 256, 0, whole, 16) == 0 && memcmp(lost, message, 32) == 0, "restore");
    }
    expect(begun.agreement.master == 1 && checks.agreement.master == 1, "a record has 1 for yes");
    expect(slipseal_start(agreed(5, 4, 64), key, 16, 0).session.agreement.master == 0, "and 0 for no");
}

/* ---- refusals */

/* The number that an agreement and keys get, 0 where they are taken; it must be the same of all functions. */
static uint64_t judged(slipseal_agreement a, const uint8_t *keys, size_t keys_len)
{
    uint8_t tag[17], slip[37], lost[32];
    slipseal_step step;
    uint64_t number, written, read;
    memset(tag, 0xAA, sizeof tag);
    memcpy(lost, message, 32);
    number = slipseal_make(a, keys, keys_len, message, 32, 256, tag, 16).number;
    expect(number == 0 || filled(tag, 17, 0xAA), "a refusal writes nothing");
    expect(slipseal_check(a, keys, keys_len, message, 32, 256, tag, (a.m + 7) / 8).number == number, "check alike");
    step = slipseal_start(a, keys, keys_len, 0);
    expect(step.answer.number == number && (number == 0 || same(&step.session, &zeros)), "start alike");
    step = slipseal_start_check(a, keys, keys_len, 0, tag, (a.m + 7) / 8);
    expect(step.answer.number == number && (number == 0 || same(&step.session, &zeros)), "start of a check alike");
    memset(slip, 0xAA, sizeof slip);
    written = slipseal_write(a, keys, keys_len, 2026, 11, 4, message, 1, 500, slip, 36).number;
    expect(written == number && (number == 0 || filled(slip, 36, 0xAA)), "write alike");
    memcpy(slip, fields, 23);
    memcpy(slip + 23, "\x7F\x00\x0B", 3);
    slip[26] = (uint8_t)a.algorithm;
    slip[27] = (uint8_t)a.padding;
    slip[28] = (uint8_t)a.m;
    memset(slip + 29, 0xAA, 8);
    read = slipseal_read(a, keys, keys_len, slip, 37).number;
    expect(number == 0 ? read == 30 : read == number, "read alike");
    a.m = number == 3 ? a.m : 128;
    expect(slipseal_restore(a, keys, keys_len, lost, 32, 256, 0, tag, 16) == number, "restore alike");
    expect(number == 0 || memcmp(lost, message, 32) == 0, "a refusal writes nothing");
    return number;
}

/* Under a master 2 and 6 take 16 bytes, 4 takes 32, and no other takes any. */
static void lengths(void)
{
    uint8_t keys[64];
    uint64_t algorithm;
    size_t len;
    for (len = 0; len < sizeof keys; len++) {
        keys[len] = (uint8_t)(7 * len);
    }
    for (algorithm = 1; algorithm <= 8; algorithm++) {
        const uint64_t padding = algorithm == 5 || algorithm > 6 ? 4 : 1, m = algorithm == 7 ? 63 : 64;
        const size_t right = algorithm == 2 || algorithm == 6 ? 16 : algorithm == 4 ? 32 : SIZE_MAX;
        const slipseal_agreement a = mastered(algorithm, padding, m);
        if (algorithm == 7) { /* restore has 3 for it, before 4 */
            for (len = 0; len <= sizeof keys; len++) {
                expect(slipseal_start(a, keys, len, 0).answer.number == 4, "algorithm 7 under a master");
            }
            continue;
        }
        for (len = 0; len <= sizeof keys; len++) {
            expect(judged(a, keys, len) == (len == right ? 0 : 4), "bytes of keys under a master");
        }
    }
}

/* 1 to 5, then 7, 9 and 10, each with every later one that can be had beside it; and which keys must differ: those in use. */
static void order(void)
{
    uint8_t keys[33], turned[16];
    size_t i;
    memcpy(keys, joined(derived[0], key), 32);
    keys[32] = 0;
    for (i = 0; i < 16; i++) {
        turned[i] = key[i] ^ 0xF0;
    }
    expect(judged(mastered(9, 4, 129), keys, 33) == 1, "1 under a master");
    expect(judged(mastered(3, 4, 129), keys, 33) == 2, "2 under a master");
    expect(judged(mastered(3, 1, 129), keys, 33) == 3, "3 before 4, no algorithm for a master");
    expect(judged(mastered(4, 1, 129), keys, 33) == 3, "3 before 4, a wrong length");
    expect(judged(mastered(4, 1, 129), keys, 32) == 3, "3 before 5");
    expect(judged(mastered(4, 1, 64), keys, 33) == 4, "4 before 5");
    expect(judged(mastered(3, 1, 64), joined(key, key), 32) == 4, "4 for algorithm 3 with two keys");
    expect(judged(mastered(4, 1, 64), keys, 32) == 5, "5 for K that is the first derived key");
    expect(judged(mastered(4, 1, 64), joined(derived[1], key), 32) == 5, "5 for K that is the second");
    expect(judged(mastered(4, 1, 64), joined(key, key), 32) == 0, "K may be the master");
    expect(judged(mastered(4, 1, 64), joined(turned, key), 32) == 0, "or its complement");
    expect(judged(agreed(4, 1, 64), joined(key, key), 32) == 5, "without a master K = K' is 5");
    expect(judged(agreed(4, 1, 64), joined(turned, key), 32) == 5, "and K = K''");
    expect(judged(agreed(4, 1, 64), keys, 32) == 0, "and nothing is derived");
    expect(judged(agreed(6, 1, 64), key, 16) == 4, "without a master 16 bytes are 4");
    expect(is(slipseal_make(mastered(4, 1, 64), keys, 32, message, 1, 256, turned, 0), 5, 0, 0), "5 before 7");
    expect(is(slipseal_make(mastered(4, 1, 64), joined(key, second), 32, message, 1, 256, turned, 0), 7, 0, 0), "7 after it");
    expect(is(slipseal_make(mastered(4, 1, 64), joined(key, second), 32, message, 16, 128, turned, 0), 9, 0, 0), "9 too");
    expect(is(slipseal_make(mastered(2, 1, 64), key, 16, message, 16, 128, turned, 7), 10, 0, 0), "10 too");
}

/* ---- records */

/* A start keeps the keys as they were given; where they are 16 bytes, what stands after them is not read. */
static void kept(void)
{
    const uint64_t algorithms[2] = {2, 6};
    slipseal_session record = slipseal_start(mastered(4, 1, 128), joined(key, second), 32, 0).session;
    uint8_t room[16], tag[16];
    size_t i;
    expect(memcmp(record.keys, joined(key, second), 32) == 0 && record.agreement.master == 1, "K and the master in a record");
    for (i = 0; i < 2; i++) {
        const slipseal_agreement a = mastered(algorithms[i], 1, 128);
        record = slipseal_start(a, key, 16, 0).session;
        expect(memcmp(record.keys, key, 16) == 0 && filled(record.keys + 16, 16, 0), "the master in a record, then zeros");
        memset(record.keys + 16, 0xC3, 16);
        record = slipseal_piece(record, message, 32, 256).session;
        expect(filled(record.keys + 16, 16, 0xC3) && record.agreement.master == 1, "a piece keeps them");
        slipseal_make(a, key, 16, message, 32, 256, tag, 16);
        expect(is(slipseal_finish(record, room, 16).answer, 0, 1, 4 + (i == 0)) && memcmp(room, tag, 16) == 0, "not read");
    }
}

/* All calls are refused with 11 and hand the record back as it came. */
static void closed(slipseal_session record, const char *what)
{
    uint8_t room[16];
    memset(room, 0xAA, sizeof room);
    expect(gave(slipseal_piece(record, message, 0, 0), 11, 0, 0, record), what);
    expect(gave(slipseal_piece(record, message, 2, 8), 11, 0, 0, record), what);
    expect(gave(slipseal_finish(record, room, 16), 11, 0, 0, record), what);
    expect(gave(slipseal_finish_check(record), 11, 0, 0, record), what);
    expect(filled(room, 16, 0xAA), what);
}

static int is_open(slipseal_session record)
{
    return gave(slipseal_piece(record, message, 0, 0), 0, 0, 0, record);
}

static void forged(void)
{
    const slipseal_agreement none[] = {{1, 1, 64, 1}, {3, 1, 64, 1}, {5, 4, 64, 1}, {7, 4, 63, 1}, {8, 4, 64, 1}};
    size_t i, purpose;
    for (purpose = 0; purpose < 2; purpose++) {
        slipseal_session record = record_of(mastered(6, 1, 64), 0, 8);
        record.purpose = purpose;
        expect(is_open(record), "an open record under a master");
        for (i = 1; i < YES; i++) {
            record.agreement.master = yes[i];
            closed(record, "a master that is neither 0 nor 1");
        }
        record.agreement.master = 0;
        expect(is_open(record), "open without a master too");
        for (i = 0; i < sizeof none / sizeof none[0]; i++) {
            record.agreement = none[i];
            closed(record, "a master with an algorithm that takes none");
            record.agreement.master = 0;
            expect(is_open(record), "the same without a master");
        }
        record.agreement = mastered(4, 1, 64);
        memcpy(record.keys, joined(key, key), 32);
        expect(is_open(record), "K may be the master");
        memcpy(record.keys, joined(derived[purpose], key), 32);
        closed(record, "K that is a derived key");
        record.agreement.master = 0;
        expect(is_open(record), "the same bytes without a master");
    }
}

/* ---- slips */

/* The slip of R6's fields under this agreement and this tag: written, and read back. */
static void has_seal(slipseal_agreement a, const uint8_t *keys, size_t keys_len, const uint8_t *tag, uint64_t calls, uint8_t *slip)
{
    const uint8_t named[6] = {0x7F, 0x00, 0x0B, (uint8_t)a.algorithm, (uint8_t)a.padding, 64};
    const slipseal_slip expected = {0, 2026, 11, 4, 500, calls, 14, 2};
    slipseal_gathered gathered = {0};
    slipseal_written written = slipseal_write(a, keys, keys_len, 2026, 11, 4, (const uint8_t *)"A7", 2, 500, slip, 37);
    slipseal_slip read = slipseal_read(a, keys, keys_len, slip, 37);
    expect(written.number == 0 && written.length == 37 && written.calls == calls, "written under a master");
    expect(memcmp(slip, fields, 23) == 0 && memcmp(slip + 23, named, 6) == 0 && memcmp(slip + 29, tag, 8) == 0, "its bytes");
    expect(memcmp(&read, &expected, sizeof read) == 0, "read under a master");
    gathered = slipseal_gather(slipseal_gather(gathered, slip, 20), slip + 20, 17);
    read = slipseal_read_gathered(a, keys, keys_len, gathered);
    expect(memcmp(&read, &expected, sizeof read) == 0, "gathered, and read under a master");
}

static uint64_t read_as(slipseal_agreement a, const uint8_t *keys, size_t keys_len, const uint8_t *slip)
{
    return slipseal_read(a, keys, keys_len, slip, 37).number;
}

static void slips(void)
{
    const uint8_t six[8] = {0x46, 0xCC, 0x7A, 0xF8, 0x60, 0x72, 0x3D, 0xB2};
    const uint8_t four[8] = {0xF1, 0xC3, 0x8C, 0x26, 0x44, 0xB3, 0x1A, 0xA7};
    uint8_t slip[37];
    has_seal(mastered(6, 1, 64), key, 16, six, 4, slip);
    expect(slipseal_read(agreed(6, 1, 64), joined(derived[0], derived[1]), 32, slip, 37).calls == 2, "under the derived keys");
    expect(read_as(agreed(6, 1, 64), joined(key, second), 32, slip) == 30, "under other keys");
    expect(read_as(agreed(6, 1, 64), key, 16, slip) == 4, "without the master");
    expect(read_as(mastered(6, 1, 64), second, 16, slip) == 30, "under another master");
    expect(read_as(mastered(6, 1, 63), key, 16, slip) == 25, "another m under a master");
    expect(read_as(mastered(3, 1, 64), key, 16, slip) == 25, "25 before 4");

    has_seal(mastered(4, 1, 64), joined(key, second), 32, four, 6, slip);
    expect(read_as(agreed(4, 1, 64), joined(key, second), 32, slip) == 30, "the master not told of");
    slipseal_write(agreed(4, 1, 64), joined(key, second), 32, 2026, 11, 4, (const uint8_t *)"A7", 2, 500, slip, 37);
    expect(read_as(agreed(4, 1, 64), joined(key, second), 32, slip) == 0, "a slip without a master");
    expect(read_as(mastered(4, 1, 64), joined(key, second), 32, slip) == 30, "told to have one");
}

/* ---- lost blocks */

static void comes_back(slipseal_agreement a, const uint8_t *keys, size_t keys_len, const uint8_t *tag, uint64_t calls)
{
    uint8_t lost[32];
    size_t block;
    for (block = 0; block < 2; block++) {
        memcpy(lost, message, 32);
        memset(lost + 16 * block, '?', 16);
        expect(slipseal_restore(a, keys, keys_len, lost, 32, 256, block, tag, 16) == 0, "restored under a master");
        expect(memcmp(lost, message, 32) == 0, "the block that was lost");
        expect(is(slipseal_check(a, keys, keys_len, lost, 32, 256, tag, 16), 0, 1, calls), "which a check says yes to");
    }
    expect(slipseal_restore(a, keys, keys_len, lost, 32, 256, 2, tag, 16) == 41, "no such block under a master");
    a.m = 64;
    expect(slipseal_restore(a, keys, keys_len, lost, 32, 256, 0, tag, 8) == 3, "a short tag under a master");
}

static void lost_blocks(void)
{
    uint8_t tag[16];
    slipseal_make(agreed(6, 1, 128), joined(derived[0], derived[1]), 32, message, 32, 256, tag, 16);
    comes_back(mastered(6, 1, 128), key, 16, tag, 4);
    slipseal_make(agreed(2, 1, 128), joined(derived[0], derived[1]), 32, message, 32, 256, tag, 16);
    comes_back(mastered(2, 1, 128), key, 16, tag, 5);
    comes_back(mastered(4, 1, 128), joined(key, second), 32, fourth, 6);
}

int main(void)
{
    annex_a_7();
    r8();
    every_yes();
    lengths();
    order();
    kept();
    forged();
    slips();
    lost_blocks();
    return told_all("c, masters");
}
