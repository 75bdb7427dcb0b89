/* Times the proved calls beside their C baselines, and prints a line for each.
 *
 * A call to time is a function from a buffer to a number, so that its answer is used and both sides can
 * be compared. To add one, write it for both sides and give it a line in `rows`.
 */
#include <inttypes.h>
#include <stdio.h>
#include <stdlib.h>
#include <string.h>
#include <time.h>

#include "baseline.h"

/* crates/export */
uint64_t dlt_crc64(const uint8_t *bytes, size_t length);
uint16_t dlt_edc(const uint8_t *bytes, size_t length);
uint8_t dlt_seal_data(uint8_t *block, size_t length, const struct data_fields *fields);
uint8_t dlt_is_sound(const uint8_t *block, size_t length);

#define ROUNDS 31         /* the best of so many rounds counts */
#define ROUND_BYTES 32000000u /* so many bytes go through one round */

typedef uint64_t (*call)(uint8_t *buffer, size_t length);

static uint64_t proved_crc(uint8_t *buffer, size_t length) { return dlt_crc64(buffer, length); }
static uint64_t c_crc(uint8_t *buffer, size_t length) { return baseline_crc64(buffer, length); }

static uint64_t proved_edc(uint8_t *buffer, size_t length) { return dlt_edc(buffer, length); }
static uint64_t c_edc(uint8_t *buffer, size_t length) { return baseline_edc(buffer, length); }

static const struct data_fields fields = {
    .object = 1, .back = 0xFFFFFF, .first = 1, .place = 0x1234, .tag = 1, .envelope = 1,
    .entities = 1, .offset = 1, .blocks = 6, .entity = 1, .starts = true,
};

/* The 48 bytes behind the Data Field as one number, so that a wrong one shows. */
static uint64_t sealed(const uint8_t *block) {
    uint64_t sum = 0;
    for (size_t at = FIELD_LEN; at < BLOCK_LEN; at += 8) {
        uint64_t word;
        memcpy(&word, block + at, 8);
        sum = sum * 31 + word;
    }
    return sum;
}

static uint64_t proved_seal(uint8_t *buffer, size_t length) {
    return dlt_seal_data(buffer, length, &fields) + sealed(buffer);
}

static uint64_t c_seal(uint8_t *buffer, size_t length) {
    return baseline_seal_data(buffer, length, &fields) + sealed(buffer);
}

/* A sound block, so that all of the judging is done. */
static uint8_t sound[BLOCK_LEN];

static uint64_t proved_judge(uint8_t *buffer, size_t length) {
    (void)buffer;
    return dlt_is_sound(sound, length);
}

static uint64_t c_judge(uint8_t *buffer, size_t length) {
    (void)buffer;
    return baseline_is_sound(sound, length);
}

struct row {
    const char *name;
    size_t length;
    call proved;
    call c;
};

static const struct row rows[] = {
    {"CRC of a block", 8248, proved_crc, c_crc},
    {"CRC of 1 MiB", 1048576, proved_crc, c_crc},
    {"CRC of 61 bytes", 61, proved_crc, c_crc},
    {"EDC of a field", FIELD_LEN, proved_edc, c_edc},
    {"seal a block", BLOCK_LEN, proved_seal, c_seal},
    {"judge a block", BLOCK_LEN, proved_judge, c_judge},
};

static double seconds(void) {
    struct timespec now;
    clock_gettime(CLOCK_MONOTONIC, &now);
    return (double)now.tv_sec + 1e-9 * (double)now.tv_nsec;
}

/* One round: the buffer changes from call to call, and every answer goes into the sum. */
static double round_of(call f, uint8_t *buffer, size_t length, size_t calls, uint64_t *sum) {
    uint64_t all = 0;
    double start = seconds();
    for (size_t i = 0; i < calls; i++) {
        buffer[0] = (uint8_t)i;
        buffer[length - 1] = (uint8_t)(i >> 8);
        all = all * 3 + f(buffer, length);
    }
    *sum = all;
    return seconds() - start;
}

static int time_row(const struct row *row) {
    uint8_t *buffer = malloc(row->length);
    if (buffer == NULL) {
        return 1;
    }
    size_t calls = ROUND_BYTES / row->length;
    double proved = 1e9;
    double c = 1e9;
    uint64_t proved_sum = 0;
    uint64_t c_sum = 0;
    int differ = 0;
    for (size_t i = 0; i < row->length; i++) {
        buffer[i] = (uint8_t)(i * 7 + i / 251);
    }
    /* by turns, so that whatever else runs on the machine meets both alike */
    for (int i = 0; i < ROUNDS; i++) {
        double t = round_of(row->proved, buffer, row->length, calls, &proved_sum);
        proved = t < proved ? t : proved;
        t = round_of(row->c, buffer, row->length, calls, &c_sum);
        c = t < c ? t : c;
        differ |= proved_sum != c_sum;
    }
    double bytes = (double)calls * (double)row->length;
    printf("%-18s %9.2f %9.2f %7.2f%s\n", row->name, bytes / proved / 1e9, bytes / c / 1e9, c / proved,
           differ ? "  ANSWERS DIFFER" : "");
    free(buffer);
    return differ;
}

int main(void) {
    int failed = 0;
    baseline_start();
    for (size_t i = 0; i < FIELD_LEN; i++) {
        sound[i] = (uint8_t)(i * 7 + i / 251);
    }
    failed |= baseline_seal_data(sound, BLOCK_LEN, &fields) != 0 || c_judge(sound, BLOCK_LEN) != 1;
    printf("%-18s %9s %9s %7s\n", "GB/s", "proved", "C", "ratio");
    for (size_t i = 0; i < sizeof rows / sizeof rows[0]; i++) {
        failed |= time_row(&rows[i]);
    }
    return failed;
}
