/* CRC-64 in C, eight bytes at a time by tables; EDC, sealing and judging of a block. */
#include "baseline.h"

#include <string.h>

#define POLYNOMIAL 0x42F0E1EBA9EA3693u
#define TABLES 8

static uint64_t tables[TABLES][256];

void baseline_start(void) {
    for (int byte = 0; byte < 256; byte++) {
        uint64_t c = (uint64_t)byte << 56;
        for (int zeros = 0; zeros < TABLES; zeros++) {
            for (int bit = 0; bit < 8; bit++) {
                c = (c << 1) ^ ((c >> 63) ? POLYNOMIAL : 0);
            }
            tables[zeros][byte] = c;
        }
    }
}

uint64_t baseline_crc64(const uint8_t *bytes, size_t length) {
    uint64_t c = 0;
    while (length >= 8) {
        uint64_t word;
        memcpy(&word, bytes, 8);
        c ^= __builtin_bswap64(word);
        c = tables[7][c >> 56] ^ tables[6][(c >> 48) & 255] ^ tables[5][(c >> 40) & 255] ^
            tables[4][(c >> 32) & 255] ^ tables[3][(c >> 24) & 255] ^ tables[2][(c >> 16) & 255] ^
            tables[1][(c >> 8) & 255] ^ tables[0][c & 255];
        bytes += 8;
        length -= 8;
    }
    while (length-- > 0) {
        c = (c << 8) ^ tables[0][(c >> 56) ^ *bytes++];
    }
    return c;
}

uint16_t baseline_edc(const uint8_t *bytes, size_t length) {
    uint16_t sum = 0x45;
    size_t i = 0;
    for (; i + 2 <= length; i += 2) {
        uint16_t word;
        memcpy(&word, bytes + i, 2);
        sum ^= word;
        sum = (uint16_t)(sum << 1 | sum >> 15);
    }
    if (i < length) {
        sum ^= bytes[i];
        sum = (uint16_t)(sum << 1 | sum >> 15);
    }
    return sum;
}

/* The low bytes of a number, the high one first. */
static void put(uint8_t *at, uint64_t value, int bytes) {
    for (int i = 0; i < bytes; i++) {
        at[i] = (uint8_t)(value >> (8 * (bytes - 1 - i)));
    }
}

static uint64_t get(const uint8_t *at) {
    uint64_t value;
    memcpy(&value, at, 8);
    return __builtin_bswap64(value);
}

enum { EDC_AT = 8208, CONTROL1_AT = 8212, KIND_AT = 8228, CONTROL2_AT = 8232, CRC_AT = 8248 };
enum { DATA_BLOCK = 1, END_BLOCK = 4, CHECK_BLOCK = 5, FORMAT = 5 };

static void put_control1(uint8_t *at, const struct data_fields *f) {
    put(at, FORMAT, 4);
    put(at + 4, f->mark, 3);
    at[7] = 0;
    put(at + 8, f->object, 4);
    put(at + 12, f->sequence, 2);
    put(at + 14, 0, 2);
    at[16] = (uint8_t)(DATA_BLOCK << 5 | (f->entities & 15));
    put(at + 17, f->back, 3);
}

static void put_control2(uint8_t *at, const struct data_fields *f) {
    unsigned __int128 head = f->offset & 31;
    head = head << 32 | f->first;
    head = head << 24 | (f->place & 0xFFFFFF);
    head = head << 5 | (f->blocks & 31);
    head = head << 1 | f->starts;
    at[0] = (uint8_t)(head >> 64);
    put(at + 1, (uint64_t)head, 8);
    at[9] = f->entity;
    put(at + 10, f->envelope, 2);
    put(at + 12, f->tag, 3);
    at[15] = 0;
}

uint8_t baseline_seal_data(uint8_t *block, size_t length, const struct data_fields *fields) {
    if (length != BLOCK_LEN) {
        return 1;
    }
    uint16_t edc = baseline_edc(block, FIELD_LEN);
    block[EDC_AT] = (uint8_t)edc;
    block[EDC_AT + 1] = (uint8_t)(edc >> 8);
    put(block + EDC_AT + 2, 0, 2);
    put_control1(block + CONTROL1_AT, fields);
    put_control2(block + CONTROL2_AT, fields);
    put(block + CRC_AT, baseline_crc64(block, CRC_AT), 8);
    return 0;
}

uint8_t baseline_is_sound(const uint8_t *block, size_t length) {
    if (length != BLOCK_LEN) {
        return 2;
    }
    if (baseline_crc64(block, CRC_AT) != get(block + CRC_AT)) {
        return 0;
    }
    int kind = block[KIND_AT] >> 5;
    if (kind == CHECK_BLOCK) {
        return 1;
    }
    uint16_t edc = (uint16_t)(block[EDC_AT] | block[EDC_AT + 1] << 8);
    return (kind == DATA_BLOCK || kind == END_BLOCK) && baseline_edc(block, FIELD_LEN) == edc;
}
