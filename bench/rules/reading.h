/* What a reader makes of a block's service channel (01, "Reading a block" and "Slots"). */
#ifndef BENCH_READING_H
#define BENCH_READING_H

#include "codes.h"

/* A block's service channel, as it is gathered: service bits and BAS word of both frames, and the remainder of the block. */
struct service {
    uint8_t even, odd, even_word, odd_word, remainder;
};

enum { UNREADABLE = -1 };

static inline bool reader_in_range(const struct delampuk_reader *state) {
    return mode_in_range(state->mode.audio, state->mode.lsd) && mode_in_range(state->kept.audio, state->kept.lsd) && state->wrong <= 2 &&
           state->misses <= 2 && state->block <= 8 && state->remainder <= 15;
}

static inline uint8_t refusal_of_read(const struct delampuk_reader *state, size_t line_length, size_t voice_length, size_t lsd_length) {
    if (!reader_in_range(state))
        return DELAMPUK_REFUSAL_STATE;
    if (line_length != DELAMPUK_OCTETS_LINE)
        return DELAMPUK_REFUSAL_LINE;
    if (voice_length != DELAMPUK_OCTETS_VOICE)
        return DELAMPUK_REFUSAL_VOICE;
    return lsd_length != DELAMPUK_OCTETS_LSD ? DELAMPUK_REFUSAL_LSD : 0;
}

static inline int bits_set(uint8_t octet) {
    octet = (uint8_t)(octet - (octet >> 1 & 0x55));
    octet = (uint8_t)((octet & 0x33) + (octet >> 2 & 0x33));
    return (octet + (octet >> 4)) & 0x0F;
}

static inline int wrong_bits_of(const struct service *service) {
    return bits_set((service->even ^ 0x1B) & 0x7F) + !(service->odd & 0x40);
}

static inline struct delampuk_slot message_of(uint8_t words) {
    return (struct delampuk_slot){words == 0 ? 0 : 3, words};
}

/* The one form of a slot that a block leaves. */
static inline struct delampuk_slot tidy_slot(struct delampuk_slot slot) {
    return slot.kind > 2 ? message_of(slot.words) : (struct delampuk_slot){slot.kind, 0};
}

/* A followed command; the stream that it overlaps goes off. */
static inline void follow(struct delampuk_mode *mode, uint8_t code) {
    uint8_t value = value_of(code);
    if (attribute_of(code) == AUDIO) {
        mode->audio = value == 0 ? AUDIO_OFF : value;
        if (value == 0 || overlap(value, mode->lsd))
            mode->lsd = DATA_OFF;
    } else if (attribute_of(code) == DATA) {
        mode->lsd = value;
        if (overlap(mode->audio, value))
            mode->audio = AUDIO_OFF;
    }
}

static inline uint8_t take_plain(struct delampuk_reader *state, uint8_t code) {
    uint8_t value = value_of(code);
    if (attribute_of(code) == ESCAPE)
        state->slot.kind = value < 24 ? 1 : value > 24 ? 2 : 0;
    else if (attribute_of(code) <= DATA && !carried(code))
        return DELAMPUK_WORD_NOT_FOLLOWED;
    else
        follow(&state->mode, code);
    return DELAMPUK_WORD_MENDED;
}

/* A word in its slot, which is tidy: its reading. */
static inline uint8_t take_word(struct delampuk_reader *state, int code) {
    struct delampuk_slot slot = state->slot;
    state->slot = (struct delampuk_slot){0, 0};
    if (slot.kind == 2)
        state->slot = message_of(code == UNREADABLE ? 255 : (uint8_t)code);
    else if (slot.kind == 3)
        state->slot = message_of((uint8_t)(slot.words - 1));
    if (code == UNREADABLE)
        return DELAMPUK_WORD_UNREADABLE;
    if (slot.kind == 0)
        return take_plain(state, (uint8_t)code);
    if (slot.kind > 1)
        return DELAMPUK_WORD_MESSAGE;
    return attribute_of((uint8_t)code) == ESCAPE ? DELAMPUK_WORD_FORBIDDEN : DELAMPUK_WORD_ITEM;
}

static inline void compare_pattern(struct delampuk_reader *state, bool right) {
    state->block = 7;
    state->misses = right ? 0 : (uint8_t)(state->misses + 1);
    if (state->misses == 3) {
        state->misses = state->block = 0;
        state->slot = (struct delampuk_slot){0, 0};
    }
}

static inline void follow_multiframe(struct delampuk_reader *state, uint8_t first_bit) {
    state->firsts = (uint8_t)(state->firsts << 1 | first_bit) & 0x3F;
    bool right = state->firsts == 0x0B;
    if (state->block == 0)
        state->block = right ? 7 : 0;
    else if (state->block == 6)
        compare_pattern(state, right);
    else
        state->block = state->block % 8 + 1;
}

static inline struct delampuk_reader fresh_reader_with(struct delampuk_mode mode) {
    return (struct delampuk_reader){mode, mode, 0, 0, 0x3F, 0, {0, 0}, 0, 0};
}

/* Step 1; true where alignment is lost. */
static inline bool count_wrong_words(struct delampuk_reader *state, int wrong_bits) {
    if (state->wrong == 0)
        state->kept = state->mode;
    state->wrong = wrong_bits == 0 ? 0 : (uint8_t)(state->wrong + 1);
    if (state->wrong < 3)
        return false;
    *state = fresh_reader_with(state->kept);
    return true;
}

/* Steps 1 to 4 for what a contestant gathered; `code` is the word's, read by the contestant's own means. */
static inline struct delampuk_block_answer advance_reader(struct delampuk_reader *state, const struct service *service, int code) {
    int wrong_bits = wrong_bits_of(service);
    if (count_wrong_words(state, wrong_bits))
        return (struct delampuk_block_answer){DELAMPUK_STANDING_LOST, DELAMPUK_VERDICT_NONE, DELAMPUK_WORD_NOT_READ, 0};
    struct delampuk_block_answer answer = {DELAMPUK_STANDING_WAITING, DELAMPUK_VERDICT_NONE, DELAMPUK_WORD_NOT_READ, 0};
    if (state->before != 0)
        answer.verdict = (service->odd & 15) == state->remainder ? DELAMPUK_VERDICT_GOOD : DELAMPUK_VERDICT_BAD;
    state->before = 1;
    state->remainder = service->remainder;
    state->slot = tidy_slot(state->slot);
    if (state->block != 0) {
        if (wrong_bits > 2)
            code = UNREADABLE;
        answer.standing = DELAMPUK_STANDING_READ;
        answer.reading = take_word(state, code);
        answer.code = code == UNREADABLE ? 0 : (uint8_t)code;
    }
    follow_multiframe(state, service->odd >> 7);
    if (state->wrong == 0)
        state->kept = state->mode;
    return answer;
}

static inline struct delampuk_read_answer read_refused(uint8_t number) {
    struct delampuk_block_answer none = {DELAMPUK_STANDING_WAITING, DELAMPUK_VERDICT_NONE, DELAMPUK_WORD_NOT_READ, 0};
    return (struct delampuk_read_answer){DELAMPUK_READ_REFUSED, number, none};
}

#endif
