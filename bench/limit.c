/* Document 01 tuned by hand: a block is twenty numbers of eight octets each. Eight octets take as many octets of a stream as it has bits in
 * each, so that every stream begins at a whole octet with every eight. */
#include "limit/block.h"
#include "limit/words.h"
#include "rules/sending.h"

/* Every width and every data value has code of its own. Data: the value and its bits of the SC in a frame, where they are few; else its bits up
 * to bit 7, and from which eight of a frame to which it has the SC too. */
#define EACH_WIDTH(X) X(1) X(2) X(3) X(4) X(6) X(7)
#define EACH_DATA(FEW, RUNS) \
    FEW(1, 3) FEW(2, 12) RUNS(3, 0, 4, 10) RUNS(4, 0, 2, 10) RUNS(5, 1, 0, 0) RUNS(6, 1, 3, 5) RUNS(7, 1, 2, 10) RUNS(8, 2, 0, 0) \
    RUNS(9, 3, 0, 0) RUNS(10, 4, 0, 0) RUNS(11, 5, 0, 0) RUNS(12, 6, 0, 0) RUNS(13, 7, 0, 0) RUNS(14, 7, 2, 10)

/* ---- Streams, n octets for each eight of a block ---- */

/* Reading and spreading are loops of their own, and so are joining and writing: a compiler can then spread several numbers at once. */
FORCED void load_stream(uint64_t *raw, unsigned count, const uint8_t *stream, unsigned n) {
    for (unsigned i = 0; i < count; i++)
        memcpy(raw + i, stream + i * n, 8);
}

/* Each number is stored whole: what is too much is written over by the next, and at last by zeros. */
FORCED void store_stream(uint8_t *stream, const uint64_t *raw, unsigned count, unsigned n) {
    for (unsigned i = 0; i < count; i++)
        memcpy(stream + i * n, raw + i, 8);
}

/* ---- Sending ---- */

/* Voice of w bits in each octet, ones in the rest. Of the last eight no more than their own octets are read: there the buffer may end. */
FORCED void put_voice(uint64_t *block, const uint8_t *voice, unsigned w) {
    uint64_t raw[EIGHTS];
    load_stream(raw, EIGHTS - 1, voice, w);
    raw[EIGHTS - 1] = 0;
    memcpy(raw + EIGHTS - 1, voice + (EIGHTS - 1) * w, w);
    for (unsigned i = 0; i < EIGHTS; i++)
        block[i] = spread(first_highest(raw[i]), w) << (8 - w) | fields(8 - w);
}

static void fill_voice(uint64_t *block, const uint8_t *voice, unsigned w) {
#define CASE(width) \
    case width: \
        put_voice(block, voice, width); \
        break;
    switch (w) {
        EACH_WIDTH(CASE)
    default:
        memset(block, 0xFF, 8 * EIGHTS);
    }
#undef CASE
}

/* Data of n bits in each octet, `shift` bits above the last one, into places that hold ones. */
FORCED const uint8_t *put_run(uint64_t *block, unsigned count, const uint8_t *lsd, unsigned n, unsigned shift) {
    uint64_t raw[EIGHTS];
    if (n == 0)
        return lsd;
    load_stream(raw, count, lsd, n);
    for (unsigned i = 0; i < count; i++)
        block[i] &= spread(first_highest(raw[i]), n) << shift | ~(fields(n) << shift);
    return lsd + count * n;
}

/* Data of d bits up to bit 7, and of the SC too from one eight of a frame to another. */
FORCED void put_data(uint64_t *block, const uint8_t *lsd, unsigned d, unsigned first, unsigned end) {
    for (unsigned frame = 0; frame < EIGHTS; frame += FRAME_EIGHTS) {
        lsd = put_run(block + frame, first, lsd, d, 1);
        lsd = put_run(block + frame + first, end - first, lsd, d + 1, 0);
        lsd = put_run(block + frame + end, FRAME_EIGHTS - end, lsd, d, 1);
    }
}

/* Data values 1 and 2, which end with octet 40: so many bits of the SC in each frame. */
FORCED void put_few(uint64_t *block, const uint8_t *lsd, unsigned bits) {
    uint64_t stream = load_eight(lsd), ones = ~(uint64_t)0 << bits;
    for (unsigned frame = 0; frame < EIGHTS; frame += FRAME_EIGHTS, stream <<= bits) {
        uint64_t channel = stream >> (64 - bits) | ones;
        block[frame + 3] &= spread_bits(channel >> 8 & 0xFF) | ~LAST_BITS;
        block[frame + 4] &= spread_bits(channel & 0xFF) | ~LAST_BITS;
    }
}

static void fill_data(uint64_t *block, const uint8_t *lsd, uint8_t value) {
#define FEW(value, bits) \
    case value: \
        put_few(block, lsd, bits); \
        break;
#define RUNS(value, d, first, end) \
    case value: \
        put_data(block, lsd, d, first, end); \
        break;
    switch (value) {
        EACH_DATA(FEW, RUNS)
    default:
        break;
    }
#undef FEW
#undef RUNS
}

FORCED void put_service(uint64_t *block, uint8_t service, uint8_t word) {
    block[0] &= spread_bits(service) | ~LAST_BITS;
    block[1] &= spread_bits(word) | ~LAST_BITS;
}

struct delampuk_send_answer limit_send(struct delampuk_sender *state, uint8_t mute, uint8_t code, uint8_t a, uint8_t e, uint8_t t,
                                       const uint8_t *voice, size_t voice_length, const uint8_t *lsd, size_t lsd_length, uint8_t *line,
                                       size_t line_length) {
    enum turn turn = turn_of(state, mute != 0);
    uint8_t number = refusal_of_send(state, mute != 0, code, turn, voice_length, lsd_length, line_length);
    if (number != 0)
        return (struct delampuk_send_answer){DELAMPUK_SEND_REFUSED, number};
    uint8_t goes = code_that_goes(state, code, turn);
    uint64_t block[EIGHTS];
    fill_voice(block, voice, mute ? 0 : voice_bits[state->mode.audio]);
    fill_data(block, lsd, state->mode.lsd);
    put_service(block, even_service(state, t != 0), word_of[goes] >> 8);
    put_service(block + FRAME_EIGHTS, odd_service(state, a != 0, e != 0), word_of[goes] & 0xFF);
    uint8_t remainder = crc4(block);
    block[FRAME_EIGHTS] |= spread_bits(state->remainder);
    for (unsigned i = 0; i < EIGHTS; i++)
        store_eight(line + 8 * i, block[i]);
    advance_sender(state, turn, goes, remainder);
    return send_answer(turn);
}

/* ---- Reading ---- */

FORCED void take_voice(const uint64_t *block, uint8_t *voice, unsigned w) {
    uint64_t raw[EIGHTS];
    for (unsigned i = 0; i < EIGHTS; i++)
        raw[i] = first_highest(join(block[i] >> (8 - w) & fields(w), w));
    store_stream(voice, raw, EIGHTS - 1, w);
    memcpy(voice + (EIGHTS - 1) * w, raw + EIGHTS - 1, w);
    memset(voice + EIGHTS * w, 0, DELAMPUK_OCTETS_VOICE - EIGHTS * w);
}

static void sort_voice(const uint64_t *block, uint8_t *voice, unsigned w) {
#define CASE(width) \
    case width: \
        take_voice(block, voice, width); \
        break;
    switch (w) {
        EACH_WIDTH(CASE)
    default:
        memset(voice, 0, DELAMPUK_OCTETS_VOICE);
    }
#undef CASE
}

FORCED uint8_t *take_run(const uint64_t *block, unsigned count, uint8_t *lsd, unsigned n, unsigned shift) {
    uint64_t raw[EIGHTS];
    if (n == 0)
        return lsd;
    for (unsigned i = 0; i < count; i++)
        raw[i] = first_highest(join(block[i] >> shift & fields(n), n));
    store_stream(lsd, raw, count, n);
    return lsd + count * n;
}

FORCED void take_data(const uint64_t *block, uint8_t *lsd, unsigned d, unsigned first, unsigned end) {
    uint8_t *place = lsd;
    for (unsigned frame = 0; frame < EIGHTS; frame += FRAME_EIGHTS) {
        place = take_run(block + frame, first, place, d, 1);
        place = take_run(block + frame + first, end - first, place, d + 1, 0);
        place = take_run(block + frame + end, FRAME_EIGHTS - end, place, d, 1);
    }
    size_t used = EIGHTS * d + 2 * (end - first);
    memset(lsd + used, 0, DELAMPUK_OCTETS_LSD - used);
}

FORCED void take_few(const uint64_t *block, uint8_t *lsd, unsigned bits) {
    uint64_t stream = 0;
    for (unsigned frame = 0; frame < EIGHTS; frame += FRAME_EIGHTS) {
        uint64_t channel = (uint64_t)gather_bits(block[frame + 3]) << 8 | gather_bits(block[frame + 4]);
        stream = stream << bits | (channel & (((uint64_t)1 << bits) - 1));
    }
    memset(lsd, 0, DELAMPUK_OCTETS_LSD);
    store_eight(lsd, stream << (64 - 2 * bits));
}

static void sort_data(const uint64_t *block, uint8_t *lsd, uint8_t value) {
#define FEW(value, bits) \
    case value: \
        take_few(block, lsd, bits); \
        break;
#define RUNS(value, d, first, end) \
    case value: \
        take_data(block, lsd, d, first, end); \
        break;
    switch (value) {
        EACH_DATA(FEW, RUNS)
    default:
        memset(lsd, 0, DELAMPUK_OCTETS_LSD);
    }
#undef FEW
#undef RUNS
}

struct delampuk_read_answer limit_read(struct delampuk_reader *state, const uint8_t *line, size_t line_length, uint8_t *voice,
                                       size_t voice_length, uint8_t *lsd, size_t lsd_length) {
    uint8_t number = refusal_of_read(state, line_length, voice_length, lsd_length);
    if (number != 0)
        return read_refused(number);
    uint64_t block[EIGHTS];
    struct service service = load_block(block, line);
    struct delampuk_mode mode = state->mode;
    struct delampuk_block_answer answer = advance_reader(state, &service, read_word(service.even_word, service.odd_word));
    if (answer.standing == DELAMPUK_STANDING_READ) {
        sort_voice(block, voice, voice_bits[mode.audio]);
        sort_data(block, lsd, mode.lsd);
    } else {
        memset(voice, 0, DELAMPUK_OCTETS_VOICE);
        memset(lsd, 0, DELAMPUK_OCTETS_LSD);
    }
    return (struct delampuk_read_answer){DELAMPUK_READ_BLOCK, 0, answer};
}
