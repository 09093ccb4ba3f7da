/* The search for alignment, 128 octets at a time in rows of sixteen lanes. Every loop over lanes does the same to each of sixteen octets, so
 * that a compiler makes it one step over all of them.
 *
 * Bit 7 - k of lane l of a row is the SC bit of octet 16 k + l of its 128 octets. The SC some octets further is then so many lanes further,
 * and past the last lane the same lanes one bit further, which stand beside them; sixteen octets further it is the next bit of a lane. */
#include "rules/searching.h"

enum { LANES = 16, ROW = 8 * LANES, ROWS = 8, AHEAD = 3 };

/* ROWS rows are searched at a time; those ahead are for what must follow a place. */
struct rows {
    uint8_t channel[ROWS + AHEAD][2 * LANES];
    uint8_t words[ROWS + AHEAD][LANES];
    uint8_t places[ROWS][LANES];
};

static void gather_row(uint8_t *row, const uint8_t *octets) {
    for (unsigned l = 0; l < LANES; l++)
        row[l] = (uint8_t)((octets[l] & 1) << 7 | (octets[l + 16] & 1) << 6 | (octets[l + 32] & 1) << 5 | (octets[l + 48] & 1) << 4 |
                           (octets[l + 64] & 1) << 3 | (octets[l + 80] & 1) << 2 | (octets[l + 96] & 1) << 1 | (octets[l + 112] & 1));
}

/* Zeros stand past the end: a place whose last bits would lie there is not found. */
static void gather_end(uint8_t *row, const uint8_t *part, size_t length, size_t octet) {
    uint8_t last[ROW] = {0};
    if (octet < length)
        memcpy(last, part + octet, length - octet < ROW ? length - octet : ROW);
    gather_row(row, last);
}

static void gather_rows(struct rows *rows, unsigned first, unsigned end, const uint8_t *part, size_t length, size_t octet) {
    for (unsigned r = first; r < end; r++, octet += ROW) {
        if (octet + ROW <= length)
            gather_row(rows->channel[r], part + octet);
        else
            gather_end(rows->channel[r], part, length, octet);
    }
}

/* The lanes that stand beside a row: its own, one bit further. */
static void lay_beside(uint8_t *row, const uint8_t *next) {
    for (unsigned l = 0; l < LANES; l++)
        row[LANES + l] = (uint8_t)(row[l] << 1 | next[l] >> 7);
}

/* The places that 0011011 follows. */
static void find_words(uint8_t *words, const uint8_t *row) {
    for (unsigned l = 0; l < LANES; l++)
        words[l] = (uint8_t)(~(row[l + 1] | row[l + 2] | row[l + 5]) & row[l + 3] & row[l + 4] & row[l + 6] & row[l + 7]);
}

/* Of these, the ones with 1 after 81 octets, five times 16 and one, and with the word again after 160. */
static void find_places(struct rows *rows, unsigned r, uint8_t *any) {
    for (unsigned l = 0; l < LANES; l++) {
        unsigned one = rows->channel[r][l + 1] << 5 | rows->channel[r + 1][l + 1] >> 3;
        unsigned word = rows->words[r + 1][l] << 2 | rows->words[r + 2][l] >> 6;
        rows->places[r][l] = (uint8_t)(rows->words[r][l] & one & word);
        any[l] |= rows->places[r][l];
    }
}

/* What the search asks of rows, each with the next one gathered. */
static void prepare_rows(struct rows *rows, unsigned first, unsigned end) {
    for (unsigned r = first; r < end; r++)
        lay_beside(rows->channel[r], rows->channel[r + 1]);
    for (unsigned r = first; r < end; r++)
        find_words(rows->words[r], rows->channel[r]);
}

/* The rows ahead become the first ones. */
static void move_rows(struct rows *rows) {
    memcpy(rows->channel, rows->channel + ROWS, AHEAD * sizeof *rows->channel);
    memcpy(rows->words, rows->words + ROWS, (AHEAD - 1) * sizeof *rows->words);
}

/* Whether there is a place. */
static int search_rows(struct rows *rows) {
    static const uint8_t none[LANES] = {0};
    uint8_t any[LANES] = {0};
    for (unsigned r = 0; r < ROWS; r++)
        find_places(rows, r, any);
    return memcmp(any, none, LANES) != 0;
}

/* The octet of the first place. */
static size_t first_place(const struct rows *rows) {
    size_t octet = 0;
    while (!(rows->places[octet / ROW][octet % LANES] >> (7 - octet / LANES % 8) & 1))
        octet++;
    return octet;
}

struct delampuk_search_answer limit_search(const uint8_t *recording, size_t length, size_t start) {
    if (search_refused(length, start))
        return (struct delampuk_search_answer){.number = DELAMPUK_REFUSAL_RECORDING};
    const uint8_t *part = recording + start;
    length -= start;
    struct rows rows;
    gather_rows(&rows, ROWS, ROWS + AHEAD, part, length, 0);
    prepare_rows(&rows, ROWS, ROWS + AHEAD - 1);
    for (size_t octet = 0; octet + SEARCH_SEEN <= length; octet += ROWS * ROW) {
        move_rows(&rows);
        gather_rows(&rows, AHEAD, ROWS + AHEAD, part, length, octet + AHEAD * ROW);
        prepare_rows(&rows, AHEAD - 1, ROWS + AHEAD - 1);
        if (search_rows(&rows))
            return (struct delampuk_search_answer){.place = start + octet + first_place(&rows)};
    }
    return (struct delampuk_search_answer){.number = DELAMPUK_REFUSAL_NO_PLACE};
}
