/* Which word goes, what is refused, and the state after it (01, "Sending a block"). */
#ifndef BENCH_SENDING_H
#define BENCH_SENDING_H

#include "codes.h"

enum turn { TURN_ITEM, TURN_MUTE_OFF, TURN_RELEASE, TURN_OFFERED };

static inline enum turn turn_of(const struct delampuk_sender *state, bool mute) {
    bool open = state->mode.audio != AUDIO_OFF;
    if (state->due != 0)
        return TURN_ITEM;
    if (mute && open)
        return TURN_MUTE_OFF;
    if (!mute && !open && state->chosen != AUDIO_OFF)
        return TURN_RELEASE;
    return TURN_OFFERED;
}

static inline bool sender_in_range(const struct delampuk_sender *state) {
    return mode_in_range(state->chosen, state->mode.lsd) &&
           (state->mode.audio == AUDIO_OFF || state->mode.audio == state->chosen) && state->block >= 1 && state->block <= 8 &&
           state->remainder <= 15;
}

/* Rows 5 to 8, or 0. */
static inline uint8_t refusal_of_code(const struct delampuk_sender *state, bool mute, uint8_t code, enum turn turn) {
    uint8_t attribute = attribute_of(code);
    if (turn == TURN_ITEM)
        return attribute == ESCAPE ? DELAMPUK_REFUSAL_ITEM : 0;
    if (turn != TURN_OFFERED)
        return 0;
    if (!carried(code))
        return DELAMPUK_REFUSAL_NOT_CARRIED;
    if (attribute == AUDIO && mute)
        return DELAMPUK_REFUSAL_MUTED;
    if (attribute == AUDIO && overlap(value_of(code), state->mode.lsd))
        return DELAMPUK_REFUSAL_OVERLAP;
    if (attribute == DATA && overlap(state->chosen, value_of(code)))
        return DELAMPUK_REFUSAL_OVERLAP;
    return 0;
}

static inline uint8_t refusal_of_send(const struct delampuk_sender *state, bool mute, uint8_t code, enum turn turn, size_t voice_length,
                                      size_t lsd_length, size_t line_length) {
    if (!sender_in_range(state))
        return DELAMPUK_REFUSAL_STATE;
    if (line_length != DELAMPUK_OCTETS_LINE)
        return DELAMPUK_REFUSAL_LINE;
    if (voice_length != DELAMPUK_OCTETS_VOICE)
        return DELAMPUK_REFUSAL_VOICE;
    if (lsd_length != DELAMPUK_OCTETS_LSD)
        return DELAMPUK_REFUSAL_LSD;
    return refusal_of_code(state, mute, code, turn);
}

static inline uint8_t code_that_goes(const struct delampuk_sender *state, uint8_t code, enum turn turn) {
    return turn == TURN_MUTE_OFF ? AUDIO_OFF : turn == TURN_RELEASE ? state->chosen : code;
}

/* The state after an offered code, but for block number and remainder. */
static inline void act_on(struct delampuk_sender *state, uint8_t code) {
    uint8_t value = value_of(code);
    switch (attribute_of(code)) {
    case AUDIO:
        state->chosen = state->mode.audio = value == 0 ? AUDIO_OFF : value;
        if (value == 0)
            state->mode.lsd = DATA_OFF;
        break;
    case DATA:
        state->mode.lsd = value;
        break;
    case ESCAPE:
        state->due = value < 24;
        break;
    default:
        break;
    }
}

static inline void advance_sender(struct delampuk_sender *state, enum turn turn, uint8_t code, uint8_t remainder) {
    state->due = 0;
    if (turn == TURN_MUTE_OFF)
        state->mode.audio = AUDIO_OFF;
    else if (turn == TURN_RELEASE)
        state->mode.audio = state->chosen;
    else if (turn == TURN_OFFERED)
        act_on(state, code);
    state->block = state->block % 8 + 1;
    state->remainder = remainder;
}

static inline struct delampuk_send_answer send_answer(enum turn turn) {
    bool held = turn == TURN_MUTE_OFF || turn == TURN_RELEASE;
    return (struct delampuk_send_answer){held ? DELAMPUK_SEND_HELD : DELAMPUK_SEND_SENT, 0};
}

/* First bits of the even and odd frames of blocks 1 to 8; block 8's even one is T. */
static const uint8_t even_firsts[8] = {0, 0, 0, 0, 0, 1, 0, 0};
static const uint8_t odd_firsts[8] = {0, 0, 1, 0, 1, 1, 0, 0};

static inline uint8_t even_service(const struct delampuk_sender *state, bool t) {
    bool first = even_firsts[state->block - 1] || (state->block == 8 && t);
    return (uint8_t)(first << 7 | 0x1B);
}

/* C1 to C4 are left 0: they are not in the sum. */
static inline uint8_t odd_service(const struct delampuk_sender *state, bool a, bool e) {
    return (uint8_t)(odd_firsts[state->block - 1] << 7 | 0x40 | a << 5 | e << 4);
}

#endif
