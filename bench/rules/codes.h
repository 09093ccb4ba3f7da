/* Codes and the bit places that they hold (01, "Codes and bit places"). These headers have the rules that touch no bit of a block. Structs and
 * numbers are those of the library's header; the rules are written from 01. */
#ifndef BENCH_CODES_H
#define BENCH_CODES_H

#include "delampuk.h"

#include <stdbool.h>
#include <string.h>

enum { AUDIO = 0, DATA = 3, ESCAPE = 7 };
enum { AUDIO_OFF = 31, DATA_OFF = 0, NOT_LISTED = 0xFF };

/* Voice bits of an octet, by audio value. */
static const uint8_t voice_bits[32] = {
    [0] = NOT_LISTED,  [1] = NOT_LISTED,  [2] = NOT_LISTED,  [3] = NOT_LISTED,  [4] = NOT_LISTED,  [5] = NOT_LISTED,
    [6] = NOT_LISTED,  [7] = NOT_LISTED,  [8] = NOT_LISTED,  [9] = NOT_LISTED,  [10] = NOT_LISTED, [11] = 1,
    [12] = NOT_LISTED, [13] = NOT_LISTED, [14] = NOT_LISTED, [15] = NOT_LISTED, [16] = NOT_LISTED, [17] = NOT_LISTED,
    [18] = 7,          [19] = 7,          [20] = 6,          [21] = 6,          [22] = NOT_LISTED, [23] = NOT_LISTED,
    [24] = 7,          [25] = 6,          [26] = NOT_LISTED, [27] = 4,          [28] = 3,          [29] = 2,
    [30] = NOT_LISTED, [31] = 0};

/* Data bits of an octet up to bit 7, by data value. */
enum { DATA_VALUES = 15 };
static const uint8_t data_bits[DATA_VALUES] = {0, 0, 0, 0, 0, 1, 1, 1, 2, 3, 4, 5, 6, 7, 7};

static inline uint8_t attribute_of(uint8_t code) { return code >> 5; }
static inline uint8_t value_of(uint8_t code) { return code & 31; }

static inline bool held_audio(uint8_t audio) { return audio < 32 && voice_bits[audio] != NOT_LISTED; }

/* Voice holds the first bits of seven and data the last ones. Neutral holds nothing. */
static inline bool overlap(uint8_t audio, uint8_t lsd) { return audio != 0 && voice_bits[audio] + data_bits[lsd] > 7; }

static inline bool mode_in_range(uint8_t audio, uint8_t lsd) {
    return held_audio(audio) && lsd < DATA_VALUES && !overlap(audio, lsd);
}

static inline bool carried(uint8_t code) {
    uint8_t value = value_of(code);
    switch (attribute_of(code)) {
    case AUDIO:
        return value == 0 || held_audio(value);
    case 1:
        return value == 0;
    case DATA:
        return value < DATA_VALUES;
    case 4:
    case 5:
    case 6:
        return true;
    case ESCAPE:
        return (value >= 15 && value <= 20) || value == 24;
    default:
        return false;
    }
}

#endif
