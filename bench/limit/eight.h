/* Eight octets at a time in a number of 64 bits, the first octet highest. A field is a row of n bits, the same n in each of the eight octets;
 * eight fields packed are n octets of a stream. Every n is a constant where these are used, so that each step is a shift and two masks. */
#ifndef BENCH_EIGHT_H
#define BENCH_EIGHT_H

#include <stdint.h>
#include <string.h>

#define FORCED static inline __attribute__((always_inline))

#define LAST_BITS 0x0101010101010101u

FORCED uint64_t first_highest(uint64_t number) {
#if __BYTE_ORDER__ == __ORDER_LITTLE_ENDIAN__
    return __builtin_bswap64(number);
#else
    return number;
#endif
}

FORCED uint64_t load_eight(const uint8_t *octets) {
    uint64_t number;
    memcpy(&number, octets, 8);
    return first_highest(number);
}

FORCED void store_eight(uint8_t *octets, uint64_t number) {
    number = first_highest(number);
    memcpy(octets, &number, 8);
}

/* Ones in the lowest n bits of each octet. */
FORCED uint64_t fields(unsigned n) { return LAST_BITS * (0xFFu >> (8 - n)); }

/* The bits of one octet as the last bits of eight. The highest goes apart, for its product would carry into another's. */
FORCED uint64_t spread_bits(uint64_t octet) {
    return ((octet & 0x7F) * 0x0002040810204081u & LAST_BITS) | (octet & 0x80) << 49;
}

/* The last bits of eight octets as one octet. */
FORCED uint8_t gather_bits(uint64_t eight) { return (uint8_t)((eight & LAST_BITS) * 0x0102040810204080u >> 56); }

/* The lowest `bits` bits of each part of `part` bits. */
FORCED uint64_t low_of_each(unsigned bits, unsigned part) {
    uint64_t each = part == 8 ? LAST_BITS : part == 16 ? 0x0001000100010001u : part == 32 ? 0x0000000100000001u : 1;
    return each * (((uint64_t)1 << bits) - 1);
}

/* Parts of `part` bits whose lowest 2k bits are used: the upper k of them move to the upper half of the part, and back. */
FORCED uint64_t part_halves(uint64_t x, unsigned k, unsigned part) {
    uint64_t low = low_of_each(k, part);
    return (x & low) | (x & low << k) << (part / 2 - k);
}

FORCED uint64_t join_halves(uint64_t x, unsigned k, unsigned part) {
    uint64_t low = low_of_each(k, part);
    return (x & low) | (x >> (part / 2 - k) & low << k);
}

/* n octets of a stream, highest in a number, as eight fields in the lowest bits of each octet. */
FORCED uint64_t spread(uint64_t x, unsigned n) {
    if (n == 8)
        return x;
    x >>= 64 - 8 * n;
    if (n == 1)
        return spread_bits(x);
    return part_halves(part_halves(part_halves(x, 4 * n, 64), 2 * n, 32), n, 16);
}

/* The other way; the fields are clean. */
FORCED uint64_t join(uint64_t x, unsigned n) {
    if (n == 8)
        return x;
    return join_halves(join_halves(join_halves(x, n, 16), 2 * n, 32), 4 * n, 64) << (64 - 8 * n);
}

#endif
