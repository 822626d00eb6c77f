/* slipseal: message authentication codes of GB/T 15852.1 over SM4, and sealed lot slips. Each function answers every input with
 * numbers; there is no state, no allocation and no input or output behind it. The library is written and proved in Rattle; this
 * header is not part of the proof and repeats crates/slipseal/src/lib.rt by hand.
 *
 * Link libslipseal.a or libslipseal.so (bindings/build makes both). Of the C library only memcpy and memset are used.
 *
 * Pointers. No pointer may be null, not even where its length is 0; any other address does there. A pointer must be valid for its
 * length, for writing too where it is not const, and nothing else may write to those bytes during the call. A buffer that is
 * written must overlap none of the others. Nothing is kept between calls, so they may run in several threads at once.
 *
 * Messages. A message is bytes and a count of bits, the highest bit of a byte first; the bytes are exactly as many as hold the
 * bits, and spare bits of the last byte have no influence. A tag is m bits in (m + 7) / 8 bytes, filled from the left, with zeros
 * in the spare bits.
 *
 * Agreements. What was agreed is one struct: the algorithm, the padding, m, the tag's number of bits, and whether a master is in
 * use. It comes from the caller's own records and never from what is checked under it. Any numbers may stand in it; all but those
 * of this table are refused.
 *
 *   algorithm     padding   key bytes       under a master          m
 *   1             1 to 3    16              refused                 1 to 128
 *   2, 6          1 to 3    32, K then K'   16, the master          1 to 128
 *   3             1 to 3    32, K then K'   refused                 1 to 128
 *   4             1 to 3    32, K then K'   32, K then the master   1 to 128
 *   5, 8          4         16              refused                 1 to 128
 *   7             4         16              refused                 1 to 63
 *
 * Masters. A supplier may send one key, the master, of which two are derived by key derivation method 1 of the standard (6.2.2):
 * the first is the number 1 and the second the number 2, each written as a block of 128 bits and enciphered under the master. They
 * serve as K and K' in algorithms 2 and 6, and as K' and K'' in algorithm 4. Each call derives them anew. The number of calls that
 * is reported for a tag or a slip is 2 larger under a master, in a session too.
 *
 * Paddings: 1 is zeros; 2 is a one, then zeros; 3 is zeros, with the length in a block before the message; 4 is nothing for a
 * message of one or more whole blocks, else as 2.
 *
 * Refusals. The first fault in the order told at each function is the one that is answered. A refusal writes nothing and reports
 * no cipher calls.
 *
 *    1  the algorithm is not one of 1 to 8
 *    2  the padding does not belong to the algorithm
 *    3  the tag's number of bits is not allowed for the algorithm
 *    4  the keys have the wrong length for the algorithm, or it takes no master
 *    5  the first key is the same as another and must differ
 *    7  the message has the wrong number of bytes for its bits
 *    8  the message has more than 8388608 bits
 *    9  the message is too short for the algorithm
 *   10  the tag or the room for it has the wrong number of bytes
 *   11  the session is closed or for the other purpose, or its last piece ended within a byte
 *   12  the message is not as long as was declared
 *   20  the slip is cut short
 *   21  a field is missing or out of order
 *   22  a field's length or value is not allowed
 *   23  the expiry is not a real date from 2000 to 2099
 *   24  there are bytes after the seal
 *   25  the slip names another algorithm, padding or m than agreed
 *   30  the seal is wrong
 *   41  no such whole block
 *
 * When a slip is written, 22 and 23 speak of the lot, the amount and the date handed in, and 10 of the room for the whole slip.
 * When a block is restored, 3 speaks of every m but 128. Under a master, 4 speaks also of every algorithm but 2, 4 and 6, whatever
 * the length of the keys; and 5 of the keys in use: in algorithm 4, K must be neither of the derived keys, but may be the master.
 * 6 is retired: no call answers it, and no other refusal will get this number.
 *
 * Keys stay where the caller put them, and a session's record holds a copy. Copies that a call made on the stack, and the keys that
 * it derived there, are not wiped, and nothing is promised about how long a call takes. */
#ifndef SLIPSEAL_H
#define SLIPSEAL_H

#if !defined(__x86_64__) || !defined(__LP64__) || !defined(__linux__)
#error "slipseal is built for x86-64 Linux only"
#endif

#include <stddef.h>
#include <stdint.h>

#ifdef __cplusplus
extern "C" {
#endif

/* What a call answers. number: 0, or the refusal's. yes: 1 for a tag made and for a tag checked to be right, in one call or at the
 * end of a session; else 0. calls: the cipher calls of the whole message, under a master 2 more; 0 for a refusal, a start and a
 * piece.
 * A checked tag is right where yes is 1. Number 0 alone does not say so: a wrong tag gives number 0 and yes 0. */
typedef struct slipseal_answer {
    uint64_t number;
    uint64_t yes;
    uint64_t calls;
} slipseal_answer;

/* What was agreed. It goes by value, before the keys. */
typedef struct slipseal_agreement {
    uint64_t algorithm; /* 1 to 8 */
    uint64_t padding;   /* 1 to 4 */
    uint64_t m;         /* the tag's number of bits, 1 to 128 */
    uint64_t master;    /* whether a master is in use: 0 no, any other number yes; in a session's record 0 or 1 */
} slipseal_agreement;

/* A session's record. It goes into each call by value and the next one comes back; hand it on unaltered. Any content is answered.
 * A record counts as closed where
 *   - its purpose or its agreement's master is neither 0 nor 1;
 *   - it is neither in phase 1 with part 0 and total % 8 = 0, nor in phase 2 with part 1 to 7 and total % 8 = part;
 *   - a start would refuse its agreement or keys, a master with an algorithm that takes none among them;
 *   - its total is over 8388608, or under padding 3 its declared length is, or its total is over its declared length;
 *   - a bit of held past the bits that wait there is set. */
typedef struct slipseal_session {
    uint64_t phase;               /* 0 closed, 1 open at a byte edge, 2 open after a part byte */
    uint64_t part;                /* the bits of the part byte, 1 to 7, in phase 2; else 0 */
    uint64_t purpose;             /* 0 making a tag, 1 checking one */
    slipseal_agreement agreement; /* as it was given to the start, with 1 for a master in use */
    uint64_t declared;            /* under padding 3 the declared number of bits; else 0 after a start, and not read */
    uint64_t total;               /* the bits so far */
    uint8_t keys[32];             /* as they were given to the start, a master too; where these are 16 bytes, the others are zeros
                                   * after a start, and not read */
    uint8_t chain[16];            /* the chain value */
    uint8_t held[16];             /* the waiting block; no bits while total is 0, else (total - 1) % 128 + 1 */
    uint8_t expected[16];         /* the tag to be checked, (m + 7) / 8 bytes as they were given; the others, and all where a tag
                                   * is made, are zeros after a start, and not read */
} slipseal_session;

/* What a session's call answers, and the record for the next call. */
typedef struct slipseal_step {
    slipseal_answer answer;
    slipseal_session session;
} slipseal_step;

/* What is read from a slip. A refusal has its number and zeros. */
typedef struct slipseal_slip {
    uint64_t number;  /* 0 for an accepted slip, else the refusal's */
    uint64_t year;    /* the expiry: 2000 to 2099, 1 to 12, 1 to 31 */
    uint64_t month;
    uint64_t day;
    uint64_t amount;  /* microlitres, 1 to 1000000 */
    uint64_t calls;   /* the cipher calls of the seal's check, under a master 2 more */
    uint64_t lot_at;  /* the lot is the lot_len bytes of the slip from lot_at on, 1 to 32 of them, each 21 to 7E */
    uint64_t lot_len;
} slipseal_slip;

/* A slip that comes in odd lengths, gathered: the bytes that came so far, and their count. It goes into each call by value and the
 * next one comes back; a record of zeros is the empty one. A slip has 75 bytes at most, so only the first 76 that come can matter,
 * and no more are kept: the 76th tells that there are too many. Any content is answered; a count over 76 is read as 76. */
typedef struct slipseal_gathered {
    uint64_t count;    /* 0 to 76 */
    uint8_t bytes[80]; /* the bytes, then zeros; the last four are no part of the slip, stay zero and are not read */
} slipseal_gathered;

/* What is told of a slip that was written. A refusal has its number and zeros. */
typedef struct slipseal_written {
    uint64_t number; /* 0 for a written slip, else the refusal's */
    uint64_t length; /* the slip's number of bytes, 29 to 75 */
    uint64_t calls;  /* the cipher calls of the seal, under a master 2 more */
} slipseal_written;

/* Makes the tag of a message. Refusals: 1 to 5 and 7 to 10, rising; 10 where tag_len is under (m + 7) / 8, with the agreement's m.
 * Otherwise the tag is written into the first (m + 7) / 8 bytes at tag, the others stay, and the answer has number 0, yes 1 and
 * the calls. */
slipseal_answer slipseal_make(slipseal_agreement agreement, const uint8_t *keys, size_t keys_len, const uint8_t *message,
                              size_t message_len, size_t bits, uint8_t *tag, size_t tag_len);

/* Checks the tag of a message. Refusals: 1 to 5 and 7 to 10, rising; 10 where tag_len is not (m + 7) / 8. Otherwise number is 0,
 * yes is 1 where the tag is the message's and 0 where it is not (a set spare bit too), and either way the calls are reported. */
slipseal_answer slipseal_check(slipseal_agreement agreement, const uint8_t *keys, size_t keys_len, const uint8_t *message,
                               size_t message_len, size_t bits, const uint8_t *tag, size_t tag_len);

/* Works a lost block of a message out of the other bits and the full tag, and writes it where it was. Blocks are whole ones of 128
 * bits, counted from 0 in the message's bits; the block with the length, of padding 3, is not counted. Refusals: 1 to 5 and 7 to
 * 10, rising, as by slipseal_check, 3 also where m is not 128 (algorithm 7 always gets it); then 41 where there is no such whole
 * block, that is, where block is not under bits / 128. The answer is the refusal's number, and the message then stays as it was.
 * Otherwise it is 0, and the sixteen bytes at message + 16 * block are written. What they held has no influence, and no other byte
 * is touched. They are the only filling that the tag fits; slipseal_check says yes with the same inputs. Cipher calls are not
 * reported.
 * What a restored block is worth: no more than the tag and the rest of the message. Every tag has exactly one filling. A false
 * tag, or an altered byte elsewhere in the message, restores to some block too, and slipseal_check says yes to that as well. After
 * a restoration its yes is no evidence for any byte of the message. */
uint64_t slipseal_restore(slipseal_agreement agreement, const uint8_t *keys, size_t keys_len, uint8_t *message,
                          size_t message_len, size_t bits, size_t block, const uint8_t *tag, size_t tag_len);

/* Starts a session that makes a tag. declared is the message's number of bits; it is read under padding 3 only. Refusals: 1 to 5,
 * rising, then 8 where the declared length is over 8388608. A refused start hands back a closed record of zeros. Otherwise the
 * answer is all zeros and the record is open. */
slipseal_step slipseal_start(slipseal_agreement agreement, const uint8_t *keys, size_t keys_len, size_t declared);

/* Starts a session that checks a tag, for a message that comes in pieces after its tag. declared is as for slipseal_start.
 * Refusals: 1 to 5, rising, then 8 where the declared length is over 8388608, and last 10 where tag_len is not (m + 7) / 8. A
 * refused start hands back a closed record of zeros. Otherwise the answer is all zeros and the record is open. It holds the tag's
 * bytes as they were given, spare bits too; nothing is said of them before slipseal_finish_check. */
slipseal_step slipseal_start_check(slipseal_agreement agreement, const uint8_t *keys, size_t keys_len, size_t declared,
                                   const uint8_t *tag, size_t tag_len);

/* Gives a session of either purpose the next bits of the message; no bits are allowed. Only the last bits given may end within a
 * byte. Refusals, in this order: 11 where the session is closed, or bits are given after a part byte; 7; 8 where the message would
 * pass 8388608 bits; 12 where under padding 3 it would pass the declared length. A refusal hands back the very record that came.
 * Otherwise the answer is all zeros and the record is open, its purpose and expected tag as before. */
slipseal_step slipseal_piece(slipseal_session session, const uint8_t *bytes, size_t bytes_len, size_t bits);

/* Ends a session that makes a tag. Refusals, in this order: 11 where the session is closed, or checks a tag; 12 where under
 * padding 3 fewer bits came than declared; 9; 10 where tag_len is under (m + 7) / 8. A refusal hands back the very record that
 * came, so that more bits or more room may follow; a session that checks stays open. Otherwise the tag is written as by
 * slipseal_make, the answer has number 0, yes 1 and all calls since the start, and the record is closed and zero throughout. */
slipseal_step slipseal_finish(slipseal_session session, uint8_t *tag, size_t tag_len);

/* Ends a session that checks a tag. Refusals, in this order: 11 where the session is closed, or makes a tag; 12 where under
 * padding 3 fewer bits came than declared; 9. A refusal hands back the very record that came, so that more bits may follow; a
 * session that makes a tag stays open. Otherwise the answer is that of slipseal_check for the whole message: number 0, yes 1 where
 * the tag that the start was given is the message's and 0 where it is not (a set spare bit too), and either way all the calls
 * since the start. Nothing is written. A no closes the session as a yes does: the record is zero throughout, the expected tag too.
 * The caller goes by yes and compares nothing itself. bindings/c/example.c checks a certificate that comes in reads. */
slipseal_step slipseal_finish_check(slipseal_session session);

/* Reads a lot slip under keys and what was agreed with its supplier. The agreement is handed in and never taken from the slip, and
 * the seal is checked under it. Do not copy the three values that a slip names into the agreement: whoever makes the slip would
 * choose how it is checked, and a slip that names m = 1 passes with one of two tags.
 * The bytes are the whole slip. Where it comes in several reads, gather them first, with slipseal_gather.
 * Refusals, in this order: at each of the fields 01, 02, 03 and 7F, 20 for under 3 bytes left, 21 for another tag, 22 for a length
 * that is not allowed, 20 for a value cut short, 22 for a wrong value, 23 for no real date of 2000 to 2099; then 24 for bytes after
 * the seal; 25 where the seal names another algorithm, padding or m than agreed, however well its tag fits; 1 to 5 for the
 * agreement and the keys; 10 where the seal's tag is not (m + 7) / 8 bytes long; 30 for a wrong seal.
 * A slip does not name the master, and 25 does not look at it: whether one is in use is the agreement's alone to say. Where
 * it says so wrongly, the slip is judged under other keys, and as a rule gets 4 or 30.
 * An accepted slip names exactly the agreement's algorithm, padding and m. Its tag covers all bytes before field 7F, and under one
 * agreement and keys two accepted slips with the same bytes before field 7F are one slip. */
slipseal_slip slipseal_read(slipseal_agreement agreement, const uint8_t *keys, size_t keys_len, const uint8_t *slip,
                            size_t slip_len);

/* Gives a gathered slip its next bytes, those of one read, of any length, none included. Nothing is refused here: the slip is
 * judged once, when it is read. What comes back has a count of at most 76 and zeros past it, whatever stood there in the record
 * that came in. */
slipseal_gathered slipseal_gather(slipseal_gathered gathered, const uint8_t *bytes, size_t len);

/* Reads a gathered slip under keys and what was agreed with its supplier. It answers as slipseal_read does for all bytes that came,
 * joined, in every field and however they were cut; the lot is the lot_len bytes at gathered.bytes + lot_at.
 * Ask once, at the end of input. Until then nothing tells whether more bytes will come: a proper beginning of an accepted slip gets
 * 20, bytes after an accepted slip turn the yes into 24, and other bytes get their own refusal. A scanner's driver would write:
 *
 *     slipseal_gathered gathered = {0};
 *     uint8_t bytes[64];
 *     ssize_t count;
 *     while ((count = read(scanner, bytes, sizeof bytes)) != 0) {
 *         if (count > 0) {
 *             gathered = slipseal_gather(gathered, bytes, (size_t)count);
 *         } else if (errno != EINTR) {
 *             return -1;
 *         }
 *     }
 *     *slip = slipseal_read_gathered(agreement, keys, keys_len, gathered);
 *     return 0;
 *
 * A count of 0 alone is the end of input. A count of -1 is an error that the caller handles: here EINTR is tried again, and after
 * any other the slip is not asked for, so that nothing is believed of the bottle. */
slipseal_slip slipseal_read_gathered(slipseal_agreement agreement, const uint8_t *keys, size_t keys_len,
                                     slipseal_gathered gathered);

/* Writes a lot slip: the fields 01, 02, 03 and 7F one after the other, 27 + lot_len + (m + 7) / 8 bytes in all. Room of 75 bytes is
 * enough for any slip; the lot must not lie in it. Refusals, in this order: 22 where the lot is not 1 to 32 bytes, each 21 to 7E, or
 * the amount is not 1 to 1000000 microlitres; 23 where year, month and day are no real date of 2000 to 2099; 1 to 5; 10 where
 * room_len is short of the whole slip. Otherwise the slip is written into the first bytes at room, the others stay, and the answer
 * has number 0, the slip's length and the calls.
 * slipseal_read accepts the slip under the same agreement and keys and gives date, lot, amount and calls back. An accepted slip,
 * written again under the same agreement and keys from what was read, comes out the same byte for byte. */
slipseal_written slipseal_write(slipseal_agreement agreement, const uint8_t *keys, size_t keys_len, size_t year, size_t month,
                                size_t day, const uint8_t *lot, size_t lot_len, size_t amount, uint8_t *room, size_t room_len);

#ifdef __cplusplus
}
#endif

#endif
