/* The same calls in C, as a C programmer would write them for speed: what the proved ones are timed against. */
#ifndef BASELINE_H
#define BASELINE_H

#include <stdbool.h>
#include <stddef.h>
#include <stdint.h>

#define BLOCK_LEN 8256
#define FIELD_LEN 8208

/* What a data block says of itself; crates/export has the same struct. */
struct data_fields {
    uint32_t mark;
    uint32_t object;
    uint32_t back;
    uint32_t first;
    uint32_t place;
    uint32_t tag;
    uint16_t sequence;
    uint16_t envelope;
    uint8_t entities;
    uint8_t offset;
    uint8_t blocks;
    uint8_t entity;
    bool starts;
};

/* Fills the tables; to be called once before the others. */
void baseline_start(void);

uint64_t baseline_crc64(const uint8_t *bytes, size_t length);
uint16_t baseline_edc(const uint8_t *bytes, size_t length);

/* 0, or 1 if the length is not that of a block. */
uint8_t baseline_seal_data(uint8_t *block, size_t length, const struct data_fields *fields);

/* 1 for a sound block, 0 for an unsound one, 2 if the length is not that of a block. */
uint8_t baseline_is_sound(const uint8_t *block, size_t length);

#endif
