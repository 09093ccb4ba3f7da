/* A block as twenty numbers of eight octets each: its CRC-4 and its service channel. */
#ifndef BENCH_BLOCK_H
#define BENCH_BLOCK_H

#include "../rules/reading.h"
#include "eight.h"

enum { EIGHTS = DELAMPUK_OCTETS_LINE / 8, FRAME_EIGHTS = EIGHTS / 2 };

#define WITHOUT_C_BITS 0xFFFFFFFFFEFEFEFEu

/* x times X^s. X^15 is 1, so X^64 is X^4. */
FORCED uint64_t times(uint64_t x, unsigned s) { return x << s ^ x >> (64 - s) << 4; }

/* Five numbers as one. */
FORCED uint64_t fold(const uint64_t *n) { return times(times(times(times(n[0], 4) ^ n[1], 4) ^ n[2], 4) ^ n[3], 4) ^ n[4]; }

/* The remainder of x times X^4: fifteen bits stand for all, and each constant has the remainders of a nibble's sixteen values. */
FORCED uint8_t finish(uint64_t x) {
    x = (x & 0x0FFFFFFFFFFFFFFFu) ^ x >> 60;
    x = (x & 0x3FFFFFFFu) ^ x >> 30;
    x = (x & 0x7FFFu) ^ x >> 15;
    uint64_t rest = 0x2147ED8B9AFC5630u >> (x << 2 & 60) ^ 0x63C914BE8D27FA50u >> (x >> 2 & 60) ^ 0xA5783CE1B4692DF0u >> (x >> 6 & 60) ^
                    0xDF9B5713ECA86420u >> (x >> 10 & 60);
    return rest & 15;
}

/* The remainder of a block whose C bits are 0. Fifteen numbers further X^(64 times 15) is 1: the first five fall on the last five. */
FORCED uint8_t crc4(const uint64_t *n) {
    uint64_t last[5] = {n[0] ^ n[15], n[1] ^ n[16], n[2] ^ n[17], n[3] ^ n[18], n[4] ^ n[19]};
    return finish(times(fold(n + 5), 10) ^ times(fold(n + 10), 5) ^ fold(last));
}

/* Loads a block and answers its service channel. */
FORCED struct service load_block(uint64_t *block, const uint8_t *line) {
    for (unsigned i = 0; i < EIGHTS; i++)
        block[i] = load_eight(line + 8 * i);
    struct service service = {gather_bits(block[0]), gather_bits(block[FRAME_EIGHTS]), gather_bits(block[1]),
                              gather_bits(block[FRAME_EIGHTS + 1]), 0};
    block[FRAME_EIGHTS] &= WITHOUT_C_BITS;
    service.remainder = crc4(block);
    return service;
}

#endif
