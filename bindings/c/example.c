/* Writes one lot slip, reads it back as a scanner delivers it, in odd lengths, and says what it is. Then a slip comes in one read
 * whose tag fits, but over one bit, which was not agreed; and one of a supplier who sends a single master key. Last a certificate
 * comes, its tag first and then its text in reads, and is checked as it comes; and once more with one letter changed. The first slip
 * and the key are those of the documents' example: 4 November 2026, lot A7, 500 microlitres. */
#define _POSIX_C_SOURCE 200809L
#include <errno.h>
#include <inttypes.h>
#include <stdio.h>
#include <unistd.h>

#include "slipseal.h"

static const uint8_t key[16] = {0x01, 0x23, 0x45, 0x67, 0x89, 0xAB, 0xCD, 0xEF, 0xFE, 0xDC, 0xBA, 0x98, 0x76, 0x54, 0x32, 0x10};
static const uint8_t lot[2] = {'A', '7'};

/* Algorithm, padding, m and no master, as agreed with the supplier: from the program's own records, never from a slip. */
static const slipseal_agreement agreement = {5, 4, 64, 0};

/* With another supplier: algorithm 6, whose two keys are derived from one of 16 bytes, the master. */
static const slipseal_agreement under_master = {6, 1, 64, 1};

/* The tag of a certificate, 8 bytes, and its text. */
static uint8_t certificate[] = "\x69\x2C\x43\x71\x00\xF3\xB5\xEE" "This is the test message for mac";

static uint64_t refused(uint64_t number)
{
    printf("refused %" PRIu64 "\n", number);
    return number;
}

/* Says what was read from these bytes; its refusal, or 0. */
static uint64_t say(slipseal_slip read, const uint8_t *bytes)
{
    if (read.number != 0) {
        return refused(read.number);
    }
    printf("accepted: expiry %04" PRIu64 "-%02" PRIu64 "-%02" PRIu64 ", lot %.*s, %" PRIu64 " microlitres, %" PRIu64 " calls\n",
           read.year, read.month, read.day, (int)read.lot_len, (const char *)bytes + read.lot_at, read.amount, read.calls);
    return 0;
}

/* A pipe stands for the line of the scanner. Its end to read from, with these bytes in it; -1 for an error. */
static int scan(const uint8_t *bytes, size_t length)
{
    int line[2];
    if (pipe(line) != 0 || write(line[1], bytes, length) != (ssize_t)length || close(line[1]) != 0) {
        return -1;
    }
    return line[0];
}

/* The next read of the scanner. 0 alone is the end of input; -1 for an error. */
static ssize_t next(int scanner, uint8_t *bytes, size_t length)
{
    ssize_t count;
    do {
        count = read(scanner, bytes, length);
    } while (count < 0 && errno == EINTR);
    return count;
}

/* The driver's loop: all reads of the scanner to its end of input. -1 for an error. */
static int gather(int scanner, slipseal_gathered *gathered)
{
    uint8_t bytes[20];
    ssize_t count;
    while ((count = next(scanner, bytes, sizeof bytes)) > 0) {
        *gathered = slipseal_gather(*gathered, bytes, (size_t)count);
    }
    return (int)count;
}

/* Checks a certificate as it comes: the tag, which may take several reads too, then the text to the end of input. The answer is
 * that of the first refusal, or the finish's yes or no. -1 for an error. */
static int check(int scanner, slipseal_answer *answer)
{
    uint8_t tag[8], bytes[20];
    size_t length = 0;
    ssize_t count = 1;
    slipseal_step step;
    while (length < sizeof tag && (count = next(scanner, tag + length, sizeof tag - length)) > 0) {
        length += (size_t)count;
    }
    if (count < 0) {
        return -1;
    }
    step = slipseal_start_check(agreement, key, sizeof key, 0, tag, length);
    while (step.answer.number == 0 && (count = next(scanner, bytes, sizeof bytes)) > 0) {
        step = slipseal_piece(step.session, bytes, (size_t)count, 8 * (size_t)count);
    }
    if (count < 0) {
        return -1;
    }
    *answer = step.answer.number == 0 ? slipseal_finish_check(step.session).answer : step.answer;
    return 0;
}

/* Says what the check of the certificate answers: 1 yes, 0 no, -1 where there is no answer. */
static int say_certificate(void)
{
    slipseal_answer answer;
    const int scanner = scan(certificate, sizeof certificate - 1);
    if (scanner < 0 || check(scanner, &answer) != 0) {
        perror("scanner");
        return -1;
    }
    close(scanner);
    if (answer.number != 0) {
        refused(answer.number);
        return -1;
    }
    printf("certificate: %s, %" PRIu64 " calls\n", answer.yes == 1 ? "yes" : "no", answer.calls);
    return answer.yes == 1;
}

int main(void)
{
    const slipseal_agreement one_bit = {5, 4, 1, 0};
    slipseal_written written;
    slipseal_gathered gathered = {0};
    uint8_t slip[75]; /* the longest there is */
    int scanner;

    written = slipseal_write(agreement, key, sizeof key, 2026, 11, 4, lot, sizeof lot, 500, slip, sizeof slip);
    if (written.number != 0) {
        refused(written.number);
        return 1;
    }
    printf("written: %" PRIu64 " bytes, %" PRIu64 " calls\n", written.length, written.calls);

    scanner = scan(slip, written.length);
    if (scanner < 0 || gather(scanner, &gathered) != 0) {
        perror("scanner");
        return 1;
    }
    close(scanner);
    if (say(slipseal_read_gathered(agreement, key, sizeof key, gathered), gathered.bytes) != 0) {
        return 1;
    }

    written = slipseal_write(one_bit, key, sizeof key, 2026, 11, 4, lot, sizeof lot, 500, slip, sizeof slip);
    if (say(slipseal_read(agreement, key, sizeof key, slip, written.length), slip) != 25) {
        return 1;
    }

    written = slipseal_write(under_master, key, sizeof key, 2026, 11, 4, lot, sizeof lot, 500, slip, sizeof slip);
    if (say(slipseal_read(under_master, key, sizeof key, slip, written.length), slip) != 0) {
        return 1;
    }

    if (say_certificate() != 1) {
        return 1;
    }
    certificate[8 + 17]++;
    return say_certificate() == 0 ? 0 : 1;
}
