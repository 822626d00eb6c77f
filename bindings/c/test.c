/* Tests of the header against the library: the layout of the structs, and each function accepted and refused, with all that it
 * hands back. Checks in a session are in checking.c, lost blocks in restoring.c, masters in master.c. The many inputs are tried by
 * the Rust and Python tests. */
#include "expect.h"

/* 4 November 2026, lot A7, 500 microlitres, under algorithm 5, padding 4, 64 bits. */
static const uint8_t example[37] = {
    0x01, 0x00, 0x08, '2', '0', '2', '6', '1', '1', '0', '4',
    0x02, 0x00, 0x02, 'A', '7',
    0x03, 0x00, 0x04, 0x00, 0x00, 0x01, 0xF4,
    0x7F, 0x00, 0x0B, 5, 4, 64, 0xA4, 0x7A, 0x92, 0x99, 0xC7, 0xB8, 0x45, 0x6C};
static const slipseal_agreement example_agreed = {5, 4, 64, 0};
static const slipseal_slip example_read = {0, 2026, 11, 4, 500, 3, 14, 2};

static void layout(void)
{
    expect(sizeof(slipseal_answer) == 24, "size of an answer");
    expect(sizeof(slipseal_agreement) == 32, "size of an agreement");
    expect(offsetof(slipseal_agreement, padding) == 8 && offsetof(slipseal_agreement, m) == 16, "order in an agreement");
    expect(offsetof(slipseal_agreement, master) == 24, "place of the master");
    expect(sizeof(slipseal_session) == 152, "size of a session");
    expect(offsetof(slipseal_session, purpose) == 16, "place of the purpose");
    expect(offsetof(slipseal_session, agreement) == 24, "place of the agreement");
    expect(offsetof(slipseal_session, declared) == 56, "place of the declared length");
    expect(offsetof(slipseal_session, keys) == 72, "place of the keys");
    expect(offsetof(slipseal_session, held) == 120, "place of the waiting block");
    expect(offsetof(slipseal_session, expected) == 136, "place of the expected tag");
    expect(sizeof(slipseal_step) == 176, "size of a step");
    expect(sizeof(slipseal_slip) == 64, "size of a slip");
    expect(sizeof(slipseal_gathered) == 88, "size of a gathered slip");
    expect(offsetof(slipseal_gathered, count) == 0 && offsetof(slipseal_gathered, bytes) == 8, "order in a gathered slip");
    expect(sizeof(slipseal_written) == 24, "size of what is told of a written slip");
    expect(offsetof(slipseal_written, length) == 8 && offsetof(slipseal_written, calls) == 16, "order in it");
}

static void one_call(void)
{
    uint8_t tag[20];
    memset(tag, 0xAA, sizeof tag);
    expect(is(slipseal_make(agreed(7, 4, 64), key, 16, message, 32, 256, tag, 20), 3, 0, 0), "make refused");
    expect(filled(tag, 20, 0xAA), "a refusal writes nothing");
    expect(is(slipseal_make(agreed(5, 4, 64), key, 16, message, 32, 256, tag, 20), 0, 1, 3), "make accepted");
    expect(memcmp(tag, printed, 8) == 0, "the printed tag");
    expect(filled(tag + 8, 12, 0xAA), "bytes past the tag stay");
    expect(is(slipseal_check(agreed(5, 4, 64), key, 16, message, 32, 256, tag, 8), 0, 1, 3), "check says yes");
    expect(is(slipseal_check(agreed(5, 4, 64), key, 16, message, 32, 255, tag, 8), 0, 0, 3), "check says no");
    expect(is(slipseal_check(agreed(5, 4, 64), key, 16, message, 32, 256, tag, 20), 10, 0, 0), "check refused");
    expect(is(slipseal_make(agreed(1, 1, 1), key, 16, message, 0, 0, tag, 0), 10, 0, 0), "empty message, empty room");
}

/* Algorithm, padding and m arrive whole and in their places: what a narrower type would cut to a good one is refused. */
static void agreement(void)
{
    const uint64_t far = (uint64_t)1 << 32;
    const slipseal_agreement wrong[3] = {agreed(far + 5, 4, 64), agreed(5, far + 4, 64), agreed(5, 4, far + 64)};
    uint8_t tag[16] = {0};
    int i;
    for (i = 0; i < 3; i++) {
        expect(is(slipseal_make(wrong[i], key, 16, message, 32, 256, tag, 16), i + 1, 0, 0), "make of a far number");
        expect(is(slipseal_check(wrong[i], key, 16, message, 32, 256, tag, 8), i + 1, 0, 0), "check of a far number");
        expect(is(slipseal_start(wrong[i], key, 16, 0).answer, i + 1, 0, 0), "start of a far number");
        expect(slipseal_write(wrong[i], key, 16, 2026, 11, 4, message, 2, 500, tag, 16).number == (uint64_t)i + 1,
               "write of a far number");
    }
    expect(filled(tag, 16, 0), "a refusal writes nothing");
}

static void session(void)
{
    uint8_t tag[20];
    slipseal_step step, next;
    memset(tag, 0xAA, sizeof tag);

    step = slipseal_start(agreed(5, 4, 129), key, 16, 0);
    expect(is(step.answer, 3, 0, 0) && same(&step.session, &zeros), "a refused start hands back a closed record of zeros");
    step = slipseal_start(agreed(5, 4, 64), key, 16, 0);
    expect(is(step.answer, 0, 0, 0) && step.session.phase == 1, "start accepted");
    expect(memcmp(step.session.keys, key, 16) == 0 && filled(step.session.keys + 16, 16, 0), "the record's keys");
    expect(step.session.agreement.algorithm == 5 && step.session.agreement.padding == 4 && step.session.agreement.m == 64,
           "the record's agreement");
    step = slipseal_piece(step.session, message, 20, 160);
    expect(is(step.answer, 0, 0, 0) && step.session.total == 160, "piece accepted");
    next = slipseal_piece(step.session, message, 20, 1);
    expect(is(next.answer, 7, 0, 0) && same(&next.session, &step.session), "a refused piece hands back the record");
    step = slipseal_piece(step.session, message + 20, 12, 96);
    next = slipseal_finish(step.session, tag, 7);
    expect(is(next.answer, 10, 0, 0) && same(&next.session, &step.session), "a refused finish hands back the record");
    expect(filled(tag, 20, 0xAA), "a refusal writes nothing");
    step = slipseal_finish(step.session, tag, 20);
    expect(is(step.answer, 0, 1, 3) && same(&step.session, &zeros), "a good finish closes and clears");
    expect(memcmp(tag, printed, 8) == 0 && filled(tag + 8, 12, 0xAA), "the printed tag and no more");
    step = slipseal_piece(zeros, message, 0, 0);
    expect(is(step.answer, 11, 0, 0) && same(&step.session, &zeros), "a closed session is refused");
}

static void part_byte(void)
{
    slipseal_step step = slipseal_start(agreed(1, 2, 64), key, 16, 0), next;
    step = slipseal_piece(step.session, (const uint8_t *)"\xFF", 1, 3);
    expect(step.session.phase == 2 && step.session.part == 3 && step.session.held[0] == 0xE0, "three bits wait");
    next = slipseal_piece(step.session, message, 1, 8);
    expect(is(next.answer, 11, 0, 0) && same(&next.session, &step.session), "no bits after a part byte");
}

/* A record of nothing but one byte counts as closed and comes back untouched. */
static void forged(void)
{
    slipseal_session record;
    slipseal_step step;
    uint8_t tag[16] = {0};
    memset(&record, 0xA5, sizeof record);
    step = slipseal_piece(record, message, 1, 8);
    expect(is(step.answer, 11, 0, 0) && same(&step.session, &record), "a forged record in a piece");
    step = slipseal_finish(record, tag, 16);
    expect(is(step.answer, 11, 0, 0) && same(&step.session, &record) && filled(tag, 16, 0), "a forged record in a finish");
}

static void piece_hands_back(slipseal_session record, size_t bytes, size_t bits, uint64_t number)
{
    slipseal_step step = slipseal_piece(record, message, bytes, bits);
    expect(is(step.answer, number, 0, 0) && same(&step.session, &record), "a refused piece hands back the very record");
}

static void finish_hands_back(slipseal_session record, size_t room, uint64_t number)
{
    uint8_t tag[8] = {0};
    slipseal_step step = slipseal_finish(record, tag, room);
    expect(is(step.answer, number, 0, 0) && same(&step.session, &record), "a refused finish hands back the very record");
    expect(filled(tag, 8, 0), "a refusal writes nothing");
}

/* Every refusal hands back the record byte for byte, with whatever stands in what is not read. */
static void handed_back(void)
{
    const uint64_t any = UINT64_MAX;
    piece_hands_back(record_of(agreed(1, 1, 64), any, 8), 2, 8, 7);
    piece_hands_back(record_of(agreed(1, 1, 64), any, 8388600), 2, 9, 8);
    piece_hands_back(record_of(agreed(any, any, any), any, 8), 1, 8, 11);
    piece_hands_back(record_of(agreed(1, 3, 64), 15, 8), 1, 8, 12);
    finish_hands_back(record_of(agreed(4, 1, 64), any, 8), 8, 9);
    finish_hands_back(record_of(agreed(1, 1, 64), any, 8), 7, 10);
    finish_hands_back(record_of(agreed(any, any, any), any, 8), 8, 11);
    finish_hands_back(record_of(agreed(1, 3, 64), 9, 8), 8, 12);
}

static int same_read(slipseal_slip a, slipseal_slip b)
{
    return memcmp(&a, &b, sizeof a) == 0;
}

/* Whether a slip was refused with this number, and has zeros beside it. */
static int refused_with(slipseal_slip read, uint64_t number)
{
    slipseal_slip expected;
    memset(&expected, 0, sizeof expected);
    expected.number = number;
    return same_read(read, expected);
}

static void slip(void)
{
    expect(refused_with(slipseal_read(example_agreed, key, 16, message, 32), 21), "a refused slip has its number and zeros");
}

/* The example's fields under three seals (R6): what was agreed, the bytes of the keys, the calls, and the seal. */
typedef struct sealed {
    slipseal_agreement agreement;
    size_t keys_len;
    uint64_t calls;
    size_t seal_len;
    uint8_t seal[14];
} sealed;

static const sealed seals[3] = {
    {{5, 4, 64, 0}, 16, 3, 14, {0x7F, 0x00, 0x0B, 5, 4, 64, 0xA4, 0x7A, 0x92, 0x99, 0xC7, 0xB8, 0x45, 0x6C}},
    {{2, 2, 64, 0}, 32, 3, 14, {0x7F, 0x00, 0x0B, 2, 2, 64, 0x25, 0xBE, 0x21, 0xF5, 0xFD, 0xEE, 0x57, 0xF4}},
    {{1, 1, 12, 0}, 16, 2, 8, {0x7F, 0x00, 0x05, 1, 1, 12, 0xA3, 0x30}}};

static slipseal_slip read_sealed(slipseal_agreement agreement, size_t keys_len, const uint8_t *seal, size_t seal_len)
{
    uint8_t keys[32], slip[75];
    memcpy(keys, key, 16);
    memcpy(keys + 16, second, 16);
    memcpy(slip, example, 23);
    memcpy(slip + 23, seal, seal_len);
    return slipseal_read(agreement, keys, keys_len, slip, 23 + seal_len);
}

/* Any other agreement gets 25, also where the tag is wrong or the keys are a byte short. */
static void other_agreement(sealed s, slipseal_agreement other)
{
    expect(refused_with(read_sealed(other, s.keys_len, s.seal, s.seal_len), 25), "another agreement");
    expect(refused_with(read_sealed(other, 15, s.seal, s.seal_len), 25), "another agreement, keys of 15 bytes");
    s.seal[s.seal_len - 1] ^= 1;
    expect(refused_with(read_sealed(other, s.keys_len, s.seal, s.seal_len), 25), "another agreement, a wrong tag");
}

/* The three numbers are compared whole: another one is off by one, or equal in its low 8, 16 or 32 bits, or far beyond. */
static void agreements_of_slips(void)
{
    const uint64_t off[] = {1, (uint64_t)-1, (uint64_t)1 << 8, (uint64_t)1 << 16, (uint64_t)1 << 32, (uint64_t)1 << 63};
    size_t i, j;
    for (i = 0; i < 3; i++) {
        const sealed s = seals[i];
        const slipseal_agreement a = s.agreement;
        slipseal_slip expected = example_read;
        expected.calls = s.calls;
        expect(same_read(read_sealed(a, s.keys_len, s.seal, s.seal_len), expected), "a slip under its agreement");
        for (j = 0; j < sizeof off / sizeof off[0]; j++) {
            other_agreement(s, agreed(a.algorithm + off[j], a.padding, a.m));
            other_agreement(s, agreed(a.algorithm, a.padding + off[j], a.m));
            other_agreement(s, agreed(a.algorithm, a.padding, a.m + off[j]));
        }
        other_agreement(s, seals[(i + 1) % 3].agreement);
    }
}

/* A seal of one bit is right for one of two tags, and refused with 25 for both where 64 bits were agreed. */
static void one_bit(void)
{
    uint8_t seal[7] = {0x7F, 0x00, 0x04, 5, 4, 1, 0x00};
    expect(refused_with(read_sealed(example_agreed, 16, seal, 7), 25), "one bit, 0");
    expect(refused_with(read_sealed(agreed(5, 4, 1), 16, seal, 7), 30), "one bit, 0, as agreed");
    seal[6] = 0x80;
    expect(refused_with(read_sealed(example_agreed, 16, seal, 7), 25), "one bit, 1");
    expect(read_sealed(agreed(5, 4, 1), 16, seal, 7).number == 0, "one bit, 1, as agreed");
}

/* A slip of the example's fields and tag: the refusal that it gets, what was agreed, the bytes of the keys, what the seal names,
 * how many bytes its tag has and how many follow it; those past the example's are zero. */
typedef struct reading {
    uint64_t number;
    slipseal_agreement agreement;
    size_t keys_len;
    uint8_t named[3];
    size_t tag_len, after;
} reading;

/* The keys are one key twice, as in written(). */
static slipseal_slip read_of(reading r)
{
    uint8_t keys[32], slip[75] = {0};
    memcpy(keys, key, 16);
    memcpy(keys + 16, key, 16);
    memcpy(slip, example, 37);
    slip[25] = (uint8_t)(3 + r.tag_len);
    memcpy(slip + 26, r.named, 3);
    return slipseal_read(r.agreement, keys, r.keys_len, slip, 29 + r.tag_len + r.after);
}

/* Each with every later fault that can be had beside it. */
static void order_of_reads(void)
{
    const reading refused[] = {
        {24, {9, 9, 999, 0}, 3, {5, 4, 64}, 8, 1},
        {25, {9, 9, 999, 0}, 3, {5, 4, 64}, 9, 0},
        {25, {9, 4, 64, 0}, 3, {5, 4, 64}, 9, 0},
        {25, {5, 4, 64, 0}, 3, {9, 4, 64}, 9, 0},
        {1, {9, 9, 255, 0}, 3, {9, 9, 255}, 9, 0},
        {25, {5, 9, 64, 0}, 3, {5, 4, 64}, 9, 0},
        {25, {5, 4, 64, 0}, 3, {5, 9, 64}, 9, 0},
        {2, {5, 9, 255, 0}, 3, {5, 9, 255}, 9, 0},
        {25, {5, 4, 255, 0}, 3, {5, 4, 64}, 9, 0},
        {25, {5, 4, 64, 0}, 3, {5, 4, 255}, 9, 0},
        {3, {5, 4, 255, 0}, 3, {5, 4, 255}, 9, 0},
        {25, {5, 4, 64, 0}, 3, {5, 4, 63}, 9, 0},
        {4, {5, 4, 64, 0}, 3, {5, 4, 64}, 9, 0},
        {25, {2, 2, 64, 0}, 32, {2, 1, 64}, 9, 0},
        {5, {2, 2, 64, 0}, 32, {2, 2, 64}, 9, 0},
        {25, {5, 4, 72, 0}, 16, {5, 4, 64}, 9, 0},
        {10, {5, 4, 64, 0}, 16, {5, 4, 64}, 9, 0},
        {25, {5, 4, 64, 0}, 16, {8, 4, 64}, 8, 0},
        {30, {8, 4, 64, 0}, 16, {8, 4, 64}, 8, 0}};
    uint8_t unreal[37];
    size_t i;
    for (i = 0; i < sizeof refused / sizeof refused[0]; i++) {
        expect(refused_with(read_of(refused[i]), refused[i].number), "the first fault of a slip");
    }
    expect(refused_with(slipseal_read(agreed(9, 9, 999), key, 3, example, 36), 20), "cut short, under another agreement");
    memcpy(unreal, example, 37);
    unreal[3] = '1';
    expect(refused_with(slipseal_read(agreed(9, 9, 999), key, 3, unreal, 37), 23), "no real date, under another agreement");
}

/* A record of zeros: nothing has come yet. */
static const slipseal_gathered nothing = {0};

/* More bytes than any slip has. */
static const uint8_t many[100000] = {0};

/* A gathered slip read under the agreement and the keys of a seal. */
static slipseal_slip read_under(sealed s, slipseal_gathered gathered)
{
    uint8_t keys[32];
    memcpy(keys, key, 16);
    memcpy(keys + 16, second, 16);
    return slipseal_read_gathered(s.agreement, keys, s.keys_len, gathered);
}

static slipseal_gathered one_by_one(slipseal_gathered gathered, const uint8_t *bytes, size_t len)
{
    size_t i;
    for (i = 0; i < len; i++) {
        gathered = slipseal_gather(slipseal_gather(gathered, bytes, 0), bytes + i, 1);
    }
    return gathered;
}

/* The slips of R6: cut at every place, in single bytes with reads of none between, cut off, and with more bytes. */
static void gathered_slips(void)
{
    size_t i, cut;
    for (i = 0; i < 3; i++) {
        const sealed s = seals[i];
        const size_t len = 23 + s.seal_len;
        slipseal_slip expected = example_read;
        slipseal_gathered begun, whole;
        uint8_t bytes[37];
        expected.calls = s.calls;
        memcpy(bytes, example, 23);
        memcpy(bytes + 23, s.seal, s.seal_len);
        for (cut = 0; cut < len; cut++) {
            begun = slipseal_gather(nothing, bytes, cut);
            expect(refused_with(read_under(s, begun), 20), "the beginning of a slip");
            expect(same_read(read_under(s, slipseal_gather(begun, bytes + cut, len - cut)), expected), "a slip in two reads");
        }
        whole = slipseal_gather(nothing, bytes, len);
        expect(same_read(read_under(s, whole), expected), "a slip in one read");
        expect(same_read(read_under(s, one_by_one(nothing, bytes, len)), expected), "a slip byte by byte");
        expect(refused_with(read_under(s, slipseal_gather(whole, many, 1)), 24), "a slip and one byte more");
        expect(refused_with(read_under(s, slipseal_gather(whole, many, 40)), 24), "a slip and 40 bytes more");
        expect(refused_with(read_under(s, slipseal_gather(whole, many, sizeof many)), 24), "a slip and 100000 bytes more");
    }
}

/* An old reader compared only the seal bytes that the first read had brought, often none, and a rewritten slip passed. */
static void the_users_own_morning(void)
{
    uint8_t rewritten[37];
    size_t cut;
    memcpy(rewritten, example, 37);
    memcpy(rewritten + 3, "20260411", 8);
    for (cut = 0; cut <= 37; cut++) {
        const slipseal_gathered brought = slipseal_gather(nothing, rewritten, cut);
        expect(refused_with(read_under(seals[0], brought), cut < 37 ? 20 : 30), "what the first read brought");
        expect(refused_with(read_under(seals[0], slipseal_gather(brought, rewritten + cut, 37 - cut)), 30), "and the rest");
    }
}

/* Whether a record has the first 76 of these bytes, their count, and zeros after them. */
static int holds(slipseal_gathered gathered, const uint8_t *bytes, size_t len)
{
    const size_t kept = len < 76 ? len : 76;
    return gathered.count == kept && memcmp(gathered.bytes, bytes, kept) == 0 && filled(gathered.bytes + kept, 80 - kept, 0);
}

/* However bytes are cut, they give one record. */
static void one_record(void)
{
    const size_t lens[] = {0, 37, 75, 76, 77, 80, 81, 200};
    uint8_t bytes[200];
    size_t i, cut;
    for (i = 0; i < sizeof bytes; i++) {
        bytes[i] = (uint8_t)(i + 1);
    }
    for (i = 0; i < sizeof lens / sizeof lens[0]; i++) {
        int all = 1;
        for (cut = 0; cut <= lens[i]; cut++) {
            all &= holds(slipseal_gather(slipseal_gather(nothing, bytes, cut), bytes + cut, lens[i] - cut), bytes, lens[i]);
        }
        expect(all, "the record of two reads");
        expect(holds(one_by_one(nothing, bytes, lens[i]), bytes, lens[i]), "the record of single bytes");
    }
}

/* Any count, with the example and junk after it: a count over 76 is read as 76, and nothing past it is read or handed back. */
static void forged_gathered(void)
{
    const uint64_t counts[] = {0, 37, 75, 76, 77, 80, 81, ((uint64_t)1 << 32) + 37, UINT64_MAX};
    const size_t more[] = {0, 1, 39, 80};
    size_t i, j;
    for (i = 0; i < sizeof counts / sizeof counts[0]; i++) {
        const size_t held = counts[i] < 76 ? counts[i] : 76;
        slipseal_gathered record;
        slipseal_slip read;
        uint8_t joined[160] = {0};
        record.count = counts[i];
        memset(record.bytes, 0xA5, 80);
        memcpy(record.bytes, example, 37);
        memcpy(joined, record.bytes, held);
        read = read_under(seals[0], record);
        expect(same_read(read, slipseal_read(example_agreed, key, 16, record.bytes, held)), "a forged count as the bytes it holds");
        expect(held == 37 ? same_read(read, example_read) : refused_with(read, held == 0 ? 20 : 24), "a forged count");
        for (j = 0; j < sizeof more / sizeof more[0]; j++) {
            expect(holds(slipseal_gather(record, many, more[j]), joined, held + more[j]), "a forged record with more bytes");
        }
    }
}

/* A call that writes a slip: the refusal that it gets or 0, then what goes in, and the bytes of room. */
typedef struct writing {
    uint64_t number;
    slipseal_agreement agreement;
    size_t keys_len, year, month, day;
    const char *lot;
    size_t lot_len, amount, room_len;
} writing;

/* The room lies in these bytes, from 8 on. */
static uint8_t around[96];

/* The keys are one key twice: good to byte 16, and refused with 5 where two must differ. */
static slipseal_written written(writing w)
{
    uint8_t keys[32];
    memcpy(keys, key, 16);
    memcpy(keys + 16, key, 16);
    memset(around, 0xAA, sizeof around);
    return slipseal_write(w.agreement, keys, w.keys_len, w.year, w.month, w.day, (const uint8_t *)w.lot, w.lot_len, w.amount,
                          around + 8, w.room_len);
}

static int told(slipseal_written done, uint64_t number, uint64_t length, uint64_t calls)
{
    return done.number == number && done.length == length && done.calls == calls;
}

static int slip_alone(const uint8_t *slip, size_t length)
{
    return filled(around, 8, 0xAA) && memcmp(around + 8, slip, length) == 0 && filled(around + 8 + length, 88 - length, 0xAA);
}

static void written_and_read(void)
{
    const writing w = {0, {5, 4, 64, 0}, 16, 2026, 11, 4, "A7", 2, 500, 80};
    slipseal_slip read;
    expect(told(written(w), 0, 37, 3), "write accepted");
    expect(slip_alone(example, 37), "the example's bytes and no more");
    expect(same_read(slipseal_read(w.agreement, key, 16, around + 8, 37), example_read), "a written slip read");

    read = slipseal_read(example_agreed, key, 16, example, 37);
    memset(around, 0xAA, sizeof around);
    expect(told(slipseal_write(example_agreed, key, 16, read.year, read.month, read.day, example + read.lot_at, read.lot_len,
                               read.amount, around + 8, 80),
                0, 37, read.calls),
           "write of what was read");
    expect(slip_alone(example, 37), "the slip that was read");
}

/* One byte more than a lot may have. */
static const char long_lot[] = "0123456789ABCDEF!~abcdefghijklmno";

static void refused_writes(void)
{
    const size_t far = (size_t)1 << 32;
    const writing wrong[] = {
        /* each alone */
        {22, {5, 4, 64, 0}, 16, 2026, 11, 4, "A7", 0, 500, 80},
        {22, {5, 4, 64, 0}, 16, 2026, 11, 4, long_lot, 33, 500, 80},
        {22, {5, 4, 64, 0}, 16, 2026, 11, 4, "A 7", 3, 500, 80},
        {22, {5, 4, 64, 0}, 16, 2026, 11, 4, "A\x7F", 2, 500, 80},
        {22, {5, 4, 64, 0}, 16, 2026, 11, 4, "A7", 2, 0, 80},
        {22, {5, 4, 64, 0}, 16, 2026, 11, 4, "A7", 2, 1000001, 80},
        {22, {5, 4, 64, 0}, 16, 2026, 11, 4, "A7", 2, far + 500, 80},
        {23, {5, 4, 64, 0}, 16, 1999, 11, 4, "A7", 2, 500, 80},
        {23, {5, 4, 64, 0}, 16, 2100, 11, 4, "A7", 2, 500, 80},
        {23, {5, 4, 64, 0}, 16, 2026, 0, 4, "A7", 2, 500, 80},
        {23, {5, 4, 64, 0}, 16, 2026, 13, 4, "A7", 2, 500, 80},
        {23, {5, 4, 64, 0}, 16, 2026, 11, 0, "A7", 2, 500, 80},
        {23, {5, 4, 64, 0}, 16, 2026, 11, 31, "A7", 2, 500, 80},
        {23, {5, 4, 64, 0}, 16, 2023, 2, 29, "A7", 2, 500, 80},
        {23, {5, 4, 64, 0}, 16, far + 2026, 11, 4, "A7", 2, 500, 80},
        {23, {5, 4, 64, 0}, 16, 2026, far + 11, 4, "A7", 2, 500, 80},
        {23, {5, 4, 64, 0}, 16, 2026, 11, far + 4, "A7", 2, 500, 80},
        /* with each later one */
        {22, {9, 9, 999, 0}, 3, 2026, 13, 4, "", 0, 500, 0},
        {22, {9, 9, 999, 0}, 3, 2026, 13, 4, "A7", 2, 0, 0},
        {23, {9, 9, 999, 0}, 3, 2026, 13, 4, "A7", 2, 500, 0},
        {1, {9, 9, 999, 0}, 3, 2026, 11, 4, "A7", 2, 500, 0},
        {2, {4, 9, 999, 0}, 3, 2026, 11, 4, "A7", 2, 500, 0},
        {3, {4, 1, 999, 0}, 3, 2026, 11, 4, "A7", 2, 500, 0},
        {4, {4, 1, 64, 0}, 3, 2026, 11, 4, "A7", 2, 500, 0},
        {5, {4, 1, 64, 0}, 32, 2026, 11, 4, "A7", 2, 500, 0},
        {10, {3, 1, 64, 0}, 32, 2026, 11, 4, "A7", 2, 500, 0}};
    size_t i;
    for (i = 0; i < sizeof wrong / sizeof wrong[0]; i++) {
        expect(told(written(wrong[i]), wrong[i].number, 0, 0), "a refused write has its number and zeros");
        expect(filled(around, 96, 0xAA), "a refusal writes nothing");
    }
}

static int refused_short(writing w, size_t length)
{
    for (w.room_len = 0; w.room_len < length; w.room_len++) {
        if (!told(written(w), 10, 0, 0) || !filled(around, 96, 0xAA)) {
            return 0;
        }
    }
    return 1;
}

/* The example, the shortest slip and the longest, each in a room that just fits. */
static void rooms(void)
{
    const writing fits[] = {
        {0, {5, 4, 64, 0}, 16, 2026, 11, 4, "A7", 2, 500, 37},
        {0, {1, 1, 1, 0}, 16, 2000, 1, 1, "!", 1, 1, 29},
        {0, {1, 1, 128, 0}, 16, 2096, 2, 29, long_lot, 32, 1000000, 75}};
    size_t i;
    for (i = 0; i < sizeof fits / sizeof fits[0]; i++) {
        const writing w = fits[i];
        const slipseal_written done = written(w);
        const slipseal_slip read = slipseal_read(w.agreement, key, 16, around + 8, w.room_len);
        expect(told(done, 0, w.room_len, read.calls) && read.number == 0, "a room that just fits");
        expect(filled(around, 8, 0xAA) && filled(around + 8 + w.room_len, 88 - w.room_len, 0xAA), "bytes around the slip stay");
        expect(read.year == w.year && read.month == w.month && read.day == w.day && read.amount == w.amount, "date and amount");
        expect(read.lot_len == w.lot_len && memcmp(around + 8 + read.lot_at, w.lot, w.lot_len) == 0, "lot");
        expect(refused_short(w, w.room_len), "every room that is short");
    }
}

/* Where a length is 0, any address but null does. */
static void no_bytes(void)
{
    uint8_t *const nowhere = (uint8_t *)1;
    const slipseal_agreement a = example_agreed;
    expect(refused_with(slipseal_read(a, nowhere, 0, example, 37), 4), "read with no keys");
    expect(refused_with(slipseal_read(a, key, 16, nowhere, 0), 20), "read of no slip");
    expect(holds(slipseal_gather(nothing, nowhere, 0), message, 0), "gather of no bytes");
    expect(refused_with(slipseal_read_gathered(a, nowhere, 0, slipseal_gather(nothing, example, 37)), 4), "gathered, no keys");
    expect(told(slipseal_write(a, nowhere, 0, 2026, 11, 4, message, 2, 500, around, 96), 4, 0, 0), "no keys");
    expect(told(slipseal_write(a, key, 16, 2026, 11, 4, nowhere, 0, 500, around, 96), 22, 0, 0), "no lot");
    expect(told(slipseal_write(a, key, 16, 2026, 11, 4, message, 2, 500, nowhere, 0), 10, 0, 0), "no room");
}

int main(void)
{
    layout();
    one_call();
    agreement();
    session();
    part_byte();
    forged();
    handed_back();
    slip();
    agreements_of_slips();
    one_bit();
    order_of_reads();
    gathered_slips();
    the_users_own_morning();
    one_record();
    forged_gathered();
    written_and_read();
    refused_writes();
    rooms();
    no_bytes();
    return told_all("c");
}
