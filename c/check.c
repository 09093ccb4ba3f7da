/* Every call of include/delampuk.h: each answer and each refusal number, the state advanced or untouched, lent octets written or not.
 * The file is C and C++ at once. */
#include "delampuk.h"

#include <stdio.h>
#include <string.h>

static int passed, failed;

#define CHECK(holds)                                      \
    do {                                                  \
        if (holds) {                                      \
            passed++;                                     \
        } else {                                          \
            failed++;                                     \
            printf("line %d: not %s\n", __LINE__, #holds); \
        }                                                 \
    } while (0)

/* Whether two structs have the same octets; none has padding. */
#define SAME(one, other) (memcmp(&(one), &(other), sizeof(one)) == 0)

/* The buffers of a call, and a copy of them to compare with. */
struct buffers {
    uint8_t voice[DELAMPUK_OCTETS_VOICE];
    uint8_t lsd[DELAMPUK_OCTETS_LSD];
    uint8_t line[DELAMPUK_OCTETS_LINE];
};

static struct buffers lent, before;

static void fill(void) {
    for (int i = 0; i < DELAMPUK_OCTETS_VOICE; i++)
        lent.voice[i] = (uint8_t)(i * 29 + 3);
    for (int i = 0; i < DELAMPUK_OCTETS_LSD; i++)
        lent.lsd[i] = (uint8_t)(i * 31 + 5);
    memset(lent.line, 0x5A, sizeof lent.line);
    before = lent;
}

static int untouched(void) { return SAME(lent, before); }

static int all(const uint8_t *octets, size_t length, uint8_t octet) {
    for (size_t i = 0; i < length; i++)
        if (octets[i] != octet)
            return 0;
    return 1;
}

/* Bit 8 of so many octets, first highest: the service channel. */
static unsigned service(const uint8_t *line, int first, int count) {
    unsigned word = 0;
    for (int i = 0; i < count; i++)
        word = word * 2 + line[first + i] % 2;
    return word;
}

/* States from the calls that start them, over octets that they have to overwrite. */
static struct delampuk_sender fresh_sender(void) {
    struct delampuk_sender state;
    memset(&state, 0xEE, sizeof state);
    delampuk_start_sender(&state);
    return state;
}

static struct delampuk_reader fresh_reader(void) {
    struct delampuk_reader state;
    memset(&state, 0xEE, sizeof state);
    delampuk_start_reader(&state);
    return state;
}

static struct delampuk_walk fresh_walk(size_t place) {
    struct delampuk_walk state;
    memset(&state, 0xEE, sizeof state);
    delampuk_start_walk(&state, place);
    return state;
}

/* ---- the library ---- */

static void library(void) {
    struct delampuk_library told = delampuk_about();
    CHECK(told.version == DELAMPUK_VERSION);
    CHECK(told.sender == sizeof(struct delampuk_sender) && told.reader == sizeof(struct delampuk_reader));
    CHECK(told.walk == sizeof(struct delampuk_walk) && told.reserved == 0);
    CHECK(delampuk_fits(DELAMPUK_VERSION) == 1);
    CHECK(delampuk_fits(DELAMPUK_VERSION - 1) == 0 && delampuk_fits(DELAMPUK_VERSION + 1) == 0);
    CHECK(delampuk_fits(DELAMPUK_VERSION + 0x10000) == 0 && delampuk_fits(0) == 0 && delampuk_fits(0xFFFFFFFF) == 0);
}

/* ---- sending ---- */

static struct delampuk_send_answer send_with(struct delampuk_sender *state, uint8_t mute, uint8_t code) {
    return delampuk_send(state, mute, code, 0, 0, 0, lent.voice, DELAMPUK_OCTETS_VOICE, lent.lsd, DELAMPUK_OCTETS_LSD, lent.line,
                         DELAMPUK_OCTETS_LINE);
}

/* A state that some accepted calls leave, each with the code of an octet. */
static struct delampuk_sender after(const char *codes) {
    struct delampuk_sender state = fresh_sender();
    for (; *codes != 0; codes++)
        CHECK(send_with(&state, 0, (uint8_t)*codes).kind == DELAMPUK_SEND_SENT);
    return state;
}

static void refused_sending(struct delampuk_sender state, uint8_t mute, uint8_t code, int number) {
    struct delampuk_sender given = state;
    fill();
    struct delampuk_send_answer answer = send_with(&state, mute, code);
    CHECK(answer.kind == DELAMPUK_SEND_REFUSED);
    CHECK(answer.number == number);
    CHECK(SAME(state, given));
    CHECK(untouched());
}

static void refused_lengths_of_sending(size_t line, size_t voice, size_t lsd, int number) {
    struct delampuk_sender state = fresh_sender(), given = state;
    fill();
    struct delampuk_send_answer answer = delampuk_send(&state, 0, 0x1F, 0, 0, 0, lent.voice, voice, lent.lsd, lsd, lent.line, line);
    CHECK(answer.kind == DELAMPUK_SEND_REFUSED);
    CHECK(answer.number == number);
    CHECK(SAME(state, given));
    CHECK(untouched());
}

static void bad_senders(void) {
    struct delampuk_sender fresh = fresh_sender(), bad;
    bad = fresh, bad.chosen = 0, refused_sending(bad, 0, 0x1F, DELAMPUK_REFUSAL_STATE);
    bad = fresh, bad.chosen = 1, refused_sending(bad, 0, 0x1F, DELAMPUK_REFUSAL_STATE);
    bad = fresh, bad.mode.audio = 25, refused_sending(bad, 0, 0x1F, DELAMPUK_REFUSAL_STATE);
    bad = fresh, bad.mode.lsd = 15, refused_sending(bad, 0, 0x1F, DELAMPUK_REFUSAL_STATE);
    bad = fresh, bad.chosen = 24, bad.mode.lsd = 5, refused_sending(bad, 0, 0x1F, DELAMPUK_REFUSAL_STATE);
    bad = fresh, bad.block = 0, refused_sending(bad, 0, 0x1F, DELAMPUK_REFUSAL_STATE);
    bad = fresh, bad.block = 9, refused_sending(bad, 0, 0x1F, DELAMPUK_REFUSAL_STATE);
    bad = fresh, bad.remainder = 16, refused_sending(bad, 0, 0x1F, DELAMPUK_REFUSAL_STATE);
    memset(&bad, 0xFF, sizeof bad), refused_sending(bad, 0, 0x40, DELAMPUK_REFUSAL_STATE);
}

static void refusals_of_sending(void) {
    struct delampuk_sender fresh = fresh_sender();
    bad_senders();
    refused_lengths_of_sending(159, 140, 156, DELAMPUK_REFUSAL_LINE);
    refused_lengths_of_sending(0, 139, 155, DELAMPUK_REFUSAL_LINE);
    refused_lengths_of_sending(160, 139, 155, DELAMPUK_REFUSAL_VOICE);
    refused_lengths_of_sending(160, 0, 156, DELAMPUK_REFUSAL_VOICE);
    refused_lengths_of_sending(160, 140, 155, DELAMPUK_REFUSAL_LSD);
    refused_sending(fresh, 0, 0x40, DELAMPUK_REFUSAL_NOT_CARRIED);
    refused_sending(fresh, 1, 0x01, DELAMPUK_REFUSAL_NOT_CARRIED);
    refused_sending(after("\xF0"), 0, 0xF8, DELAMPUK_REFUSAL_ITEM);
    refused_sending(fresh, 1, 0x18, DELAMPUK_REFUSAL_MUTED);
    refused_sending(fresh, 255, 0x1F, DELAMPUK_REFUSAL_MUTED);
    refused_sending(after("\x65"), 0, 0x18, DELAMPUK_REFUSAL_OVERLAP);
    refused_sending(after("\x18"), 0, 0x65, DELAMPUK_REFUSAL_OVERLAP);
}

/* The first block of a session with 1F, as document 01 spells it on the line. */
static void first_block(void) {
    struct delampuk_sender state = fresh_sender();
    CHECK(state.chosen == 31 && state.mode.audio == 31 && state.mode.lsd == 0 && state.block == 1);
    CHECK(state.due == 0 && state.remainder == 0);
    fill();
    struct delampuk_send_answer answer = send_with(&state, 0, 0x1F);
    CHECK(answer.kind == DELAMPUK_SEND_SENT && answer.number == 0);
    CHECK(service(lent.line, 0, 8) == 0x1B);
    CHECK(service(lent.line, 8, 8) == 0x4F);
    CHECK(service(lent.line, 80, 8) == 0x40);
    CHECK(service(lent.line, 88, 8) == 0x11);
    CHECK(lent.line[20] == 0xFF && lent.line[159] == 0xFF);
    CHECK(state.block == 2 && state.remainder <= 15 && state.mode.audio == 31);
    CHECK(SAME(lent.voice, before.voice) && SAME(lent.lsd, before.lsd));
}

/* A switch is no only where it is 0. */
static void switches(void) {
    struct delampuk_sender start = after("\x19"), one = start, other = start, none = start;
    struct buffers with;
    fill();
    CHECK(delampuk_send(&one, 1, 0x65, 1, 1, 1, lent.voice, 140, lent.lsd, 156, lent.line, 160).kind == DELAMPUK_SEND_HELD);
    with = lent;
    CHECK(service(lent.line, 82, 2) == 3);
    CHECK(delampuk_send(&other, 255, 0x65, 128, 2, 64, lent.voice, 140, lent.lsd, 156, lent.line, 160).kind == DELAMPUK_SEND_HELD);
    CHECK(SAME(with, lent));
    CHECK(SAME(one, other));
    CHECK(send_with(&none, 0, 0x65).kind == DELAMPUK_SEND_SENT);
    CHECK(service(lent.line, 82, 2) == 0);
    CHECK(!SAME(with, lent));
}

/* A and E stand in the odd frame's bits 3 and 4, and T in bit 1 of frame 14, which block 8 begins. */
static void alarms(void) {
    for (int given = 0; given < 8; given++) {
        struct delampuk_sender state = fresh_sender();
        state.block = 8;
        fill();
        delampuk_send(&state, 0, 0x80, (uint8_t)(given >> 2), given >> 1 & 1, given & 1, lent.voice, 140, lent.lsd, 156, lent.line, 160);
        CHECK(service(lent.line, 82, 2) == (unsigned)given >> 1);
        CHECK(service(lent.line, 0, 1) == (unsigned)(given & 1));
    }
}

/* An item goes before mute's "audio off"; released, the chosen audio comes back. Both hold the offered code. */
static void mute_on_an_escape(void) {
    struct delampuk_sender state = after("\x19\xF0");
    CHECK(state.due != 0 && state.block == 3);
    CHECK(send_with(&state, 1, 0x12).kind == DELAMPUK_SEND_SENT);
    CHECK(state.due == 0 && state.mode.audio == 25 && state.block == 4);
    CHECK(send_with(&state, 1, 0x40).kind == DELAMPUK_SEND_HELD);
    CHECK(state.mode.audio == 31 && state.chosen == 25 && state.block == 5);
    CHECK(send_with(&state, 1, 0x65).kind == DELAMPUK_SEND_SENT);
    CHECK(state.mode.lsd == 5 && state.block == 6);
    CHECK(send_with(&state, 0, 0x40).kind == DELAMPUK_SEND_HELD);
    CHECK(state.mode.audio == 25 && state.block == 7);
}

/* ---- presets ---- */

static void writes(struct delampuk_sender state, int bits, int number) {
    struct delampuk_sender given = state;
    struct delampuk_preset_bits written = delampuk_write_preset(&state);
    CHECK(written.bits == bits && written.number == number && written.reserved == 0);
    CHECK(SAME(state, given));
}

static void refused_preset(uint16_t bits) {
    struct delampuk_sender state = after("\x19\xF0"), given = state;
    struct delampuk_preset_answer read = delampuk_read_preset(&state, bits);
    CHECK(read.number == DELAMPUK_REFUSAL_PRESET && read.offer == 0x60);
    CHECK(SAME(state, given));
}

static void presets(void) {
    struct delampuk_sender state, wanted = fresh_sender();
    memset(&state, 0xEE, sizeof state);
    struct delampuk_preset_answer read = delampuk_read_preset(&state, 25 * 2048 + 5 * 64);
    CHECK(read.number == 0 && read.offer == 0x65);
    wanted.chosen = 25;
    CHECK(SAME(state, wanted));
    writes(after("\x19\x65"), 25 * 2048 + 5 * 64, 0);
    writes(fresh_sender(), 31 * 2048, 0);
    wanted.block = 9;
    writes(wanted, 0, DELAMPUK_REFUSAL_STATE);

    static const uint16_t bad[] = {0, 25 * 2048 + 5 * 64 + 1, 25 * 2048 + 5 * 64 + 32, 24 * 2048 + 5 * 64, 31 * 2048 + 15 * 64, 65535};
    for (size_t i = 0; i < sizeof bad / sizeof *bad; i++)
        refused_preset(bad[i]);
}

/* ---- reading ---- */

static struct delampuk_read_answer read_with(struct delampuk_reader *state) {
    return delampuk_read(state, lent.line, DELAMPUK_OCTETS_LINE, lent.voice, DELAMPUK_OCTETS_VOICE, lent.lsd, DELAMPUK_OCTETS_LSD);
}

static int nothing_read(struct delampuk_block_answer told) {
    return told.standing == DELAMPUK_STANDING_WAITING && told.verdict == DELAMPUK_VERDICT_NONE && told.reading == DELAMPUK_WORD_NOT_READ &&
           told.code == 0;
}

/* A reader that knows its place. */
static struct delampuk_reader placed(void) {
    struct delampuk_reader state = fresh_reader();
    state.block = 1;
    return state;
}

static void refused_reading(struct delampuk_reader state, size_t line, size_t voice, size_t lsd, int number) {
    struct delampuk_reader given = state;
    fill();
    struct delampuk_read_answer answer = delampuk_read(&state, lent.line, line, lent.voice, voice, lent.lsd, lsd);
    CHECK(answer.kind == DELAMPUK_READ_REFUSED);
    CHECK(answer.number == number);
    CHECK(nothing_read(answer.block));
    CHECK(SAME(state, given));
    CHECK(untouched());
}

static void refusals_of_reading(void) {
    struct delampuk_reader fresh = fresh_reader(), bad;
    bad = fresh, bad.mode.audio = 0, refused_reading(bad, 160, 140, 156, DELAMPUK_REFUSAL_STATE);
    bad = fresh, bad.kept.lsd = 15, refused_reading(bad, 159, 140, 156, DELAMPUK_REFUSAL_STATE);
    bad = fresh, bad.wrong = 3, refused_reading(bad, 160, 140, 156, DELAMPUK_REFUSAL_STATE);
    bad = fresh, bad.block = 9, refused_reading(bad, 160, 140, 156, DELAMPUK_REFUSAL_STATE);
    bad = fresh, bad.misses = 3, refused_reading(bad, 160, 140, 156, DELAMPUK_REFUSAL_STATE);
    bad = fresh, bad.remainder = 16, refused_reading(bad, 160, 140, 156, DELAMPUK_REFUSAL_STATE);
    refused_reading(fresh, 159, 139, 156, DELAMPUK_REFUSAL_LINE);
    refused_reading(fresh, 0, 140, 156, DELAMPUK_REFUSAL_LINE);
    refused_reading(fresh, 160, 139, 155, DELAMPUK_REFUSAL_VOICE);
    refused_reading(fresh, 160, 140, 0, DELAMPUK_REFUSAL_LSD);
}

/* A line block that carries a code: as an item where the sender refuses it as a plain word. */
static void line_with(uint8_t code) {
    struct delampuk_sender state = fresh_sender();
    fill();
    if (send_with(&state, 0, code).kind == DELAMPUK_SEND_REFUSED) {
        state.due = 1;
        CHECK(send_with(&state, 0, code).kind == DELAMPUK_SEND_SENT);
    }
}

/* Reads the line and answers the state after it. */
static struct delampuk_reader reads_as(struct delampuk_reader state, int reading, int code) {
    struct delampuk_read_answer answer = read_with(&state);
    CHECK(answer.kind == DELAMPUK_READ_BLOCK && answer.number == 0);
    CHECK(answer.block.standing == DELAMPUK_STANDING_READ);
    CHECK(answer.block.reading == reading);
    CHECK(answer.block.code == code);
    CHECK(state.block == 2 && state.before != 0);
    return state;
}

static void readings(void) {
    struct delampuk_reader state = placed();
    line_with(0x19);
    CHECK(reads_as(state, DELAMPUK_WORD_MENDED, 0x19).mode.audio == 25);
    state.slot.kind = 1;
    CHECK(reads_as(state, DELAMPUK_WORD_ITEM, 0x19).mode.audio == 31);
    state.slot.kind = 2;
    struct delampuk_slot slot = reads_as(state, DELAMPUK_WORD_MESSAGE, 0x19).slot;
    CHECK(slot.kind == 3 && slot.words == 0x19);
    state.slot.kind = 200, state.slot.words = 2;
    CHECK(reads_as(state, DELAMPUK_WORD_MESSAGE, 0x19).slot.words == 1);
    line_with(0xF0);
    CHECK(reads_as(placed(), DELAMPUK_WORD_MENDED, 0xF0).slot.kind == 1);
    state.slot.kind = 1;
    reads_as(state, DELAMPUK_WORD_FORBIDDEN, 0xF0);
    line_with(0x40);
    reads_as(placed(), DELAMPUK_WORD_NOT_FOLLOWED, 0x40);
    lent.line[8] ^= 1, lent.line[90] ^= 1;
    reads_as(placed(), DELAMPUK_WORD_NOT_FOLLOWED, 0x40);
    for (int i = 1; i < 4; i++)
        lent.line[i] ^= 1;
    reads_as(placed(), DELAMPUK_WORD_UNREADABLE, 0);
}

/* Voice and data by the mode at entry; zeros past what counts. */
static void streams(void) {
    struct delampuk_sender out = after("\x19\x65");
    struct delampuk_reader in = placed();
    in.mode.audio = in.kept.audio = 25;
    in.mode.lsd = in.kept.lsd = 5;
    fill();
    CHECK(send_with(&out, 0, 0x65).kind == DELAMPUK_SEND_SENT);
    memset(lent.voice, 0xEE, sizeof lent.voice);
    memset(lent.lsd, 0xEE, sizeof lent.lsd);
    CHECK(read_with(&in).kind == DELAMPUK_READ_BLOCK);
    CHECK(memcmp(lent.voice, before.voice, 120) == 0 && all(lent.voice + 120, 20, 0));
    CHECK(memcmp(lent.lsd, before.lsd, 20) == 0 && all(lent.lsd + 20, 136, 0));
}

static void waiting_and_verdicts(void) {
    struct delampuk_reader state = fresh_reader(), next;
    line_with(0x1F);
    struct delampuk_read_answer answer = read_with(&state);
    CHECK(nothing_read(answer.block) && answer.kind == DELAMPUK_READ_BLOCK);
    CHECK(all(lent.voice, 140, 0) && all(lent.lsd, 156, 0));
    CHECK(state.before != 0 && state.block == 0);
    /* the same block again: its C bits are 0000, and so they are not the remainder of the one before, unless that is 0 */
    next = state, next.remainder = 0;
    CHECK(read_with(&next).block.verdict == DELAMPUK_VERDICT_GOOD);
    next = state, next.remainder = 7;
    CHECK(read_with(&next).block.verdict == DELAMPUK_VERDICT_BAD);
}

static void loss(void) {
    struct delampuk_reader state = placed(), fresh = fresh_reader();
    line_with(0x1F);
    lent.line[1] ^= 1;
    for (int wrong = 1; wrong < 3; wrong++) {
        CHECK(read_with(&state).block.standing == DELAMPUK_STANDING_READ);
        CHECK(state.wrong == wrong);
    }
    memset(lent.voice, 0xEE, sizeof lent.voice);
    memset(lent.lsd, 0xEE, sizeof lent.lsd);
    struct delampuk_block_answer told = read_with(&state).block;
    CHECK(told.standing == DELAMPUK_STANDING_LOST && told.verdict == DELAMPUK_VERDICT_NONE);
    CHECK(told.reading == DELAMPUK_WORD_NOT_READ && told.code == 0);
    CHECK(all(lent.voice, 140, 0) && all(lent.lsd, 156, 0));
    CHECK(SAME(state, fresh));
}

/* ---- recordings ---- */

enum { NOISE = 5, BLOCKS = 4, LENGTH = NOISE + BLOCKS * DELAMPUK_OCTETS_LINE + 3 };

static uint8_t recording[DELAMPUK_OCTETS_RECORDING + 1];

/* Some noise, four blocks of a session, and three octets more. */
static void record(void) {
    struct delampuk_sender state = fresh_sender();
    memset(recording, 0, sizeof recording);
    fill();
    for (int i = 0; i < BLOCKS; i++) {
        CHECK(send_with(&state, 0, 0x1F).kind == DELAMPUK_SEND_SENT);
        memcpy(recording + NOISE + i * DELAMPUK_OCTETS_LINE, lent.line, DELAMPUK_OCTETS_LINE);
    }
    fill();
}

static void searches(size_t length, size_t start, int number, size_t place) {
    struct delampuk_search_answer found = delampuk_search(recording, length, start);
    CHECK(found.number == number);
    CHECK(found.place == place);
    CHECK(all(found.reserved, sizeof found.reserved, 0));
}

static void searching(void) {
    record();
    searches(LENGTH, 0, 0, NOISE);
    searches(LENGTH, NOISE, 0, NOISE);
    searches(LENGTH, NOISE + 1, 0, NOISE + 160);
    searches(LENGTH, LENGTH - 167, DELAMPUK_REFUSAL_RECORDING, 0);
    searches(LENGTH, LENGTH + 1, DELAMPUK_REFUSAL_RECORDING, 0);
    searches(LENGTH, (size_t)-1, DELAMPUK_REFUSAL_RECORDING, 0);
    searches(0, 0, DELAMPUK_REFUSAL_RECORDING, 0);
    searches(DELAMPUK_OCTETS_RECORDING, 0, 0, NOISE);
    searches(DELAMPUK_OCTETS_RECORDING + 1, 0, DELAMPUK_REFUSAL_RECORDING, 0);
    memset(recording, 0, 168);
    searches(167, 0, DELAMPUK_REFUSAL_RECORDING, 0);
    searches(168, 0, DELAMPUK_REFUSAL_NO_PLACE, 0);
}

/* A walk at a place whose reserved octets are other than 0, to see that a step leaves them. */
static struct delampuk_walk marked(size_t place, uint8_t lost) {
    struct delampuk_walk state = fresh_walk(place);
    struct delampuk_reader fresh = fresh_reader();
    CHECK(state.place == place && SAME(state.reader, fresh) && state.lost == 0 && all(state.reserved, 3, 0));
    state.lost = lost;
    state.reserved[0] = 1, state.reserved[1] = 0x80, state.reserved[2] = 0xFF;
    return state;
}

static int still_marked(const struct delampuk_walk *state) {
    return state->reserved[0] == 1 && state->reserved[1] == 0x80 && state->reserved[2] == 0xFF;
}

static struct delampuk_step_answer step_with(struct delampuk_walk *state, size_t length) {
    return delampuk_step(state, recording, length, lent.voice, DELAMPUK_OCTETS_VOICE, lent.lsd, DELAMPUK_OCTETS_LSD);
}

static void answers_no_block(struct delampuk_step_answer answer, int kind, int number, size_t value) {
    CHECK(answer.kind == kind && answer.number == number);
    CHECK(answer.value == value);
    CHECK(nothing_read(answer.block) && all(answer.reserved, 2, 0));
    CHECK(untouched());
}

static void refused_step(struct delampuk_walk state, size_t length, size_t voice, size_t lsd, int number) {
    struct delampuk_walk given = state;
    fill();
    answers_no_block(delampuk_step(&state, recording, length, lent.voice, voice, lent.lsd, lsd), DELAMPUK_STEP_REFUSED, number, 0);
    CHECK(SAME(state, given));
}

static void refusals_of_steps(void) {
    struct delampuk_walk bad = marked(LENGTH + 1, 0);
    bad.reader.misses = 3;
    refused_step(bad, LENGTH, 139, 156, DELAMPUK_REFUSAL_STATE);
    refused_step(marked(NOISE, 7), LENGTH, 139, 155, DELAMPUK_REFUSAL_VOICE);
    refused_step(marked(NOISE, 1), LENGTH, 140, 157, DELAMPUK_REFUSAL_LSD);
    refused_step(marked(LENGTH + 1, 0), LENGTH, 140, 156, DELAMPUK_REFUSAL_RECORDING);
    refused_step(marked((size_t)-1, 255), LENGTH, 140, 156, DELAMPUK_REFUSAL_RECORDING);
    refused_step(marked(0, 0), DELAMPUK_OCTETS_RECORDING + 1, 140, 156, DELAMPUK_REFUSAL_RECORDING);
}

static void ends(size_t place, uint8_t lost, size_t left) {
    struct delampuk_walk state = marked(place, lost), given = state;
    fill();
    answers_no_block(step_with(&state, LENGTH), DELAMPUK_STEP_END, 0, left);
    CHECK(SAME(state, given));
}

static void steps_to_an_end(void) {
    record();
    refusals_of_steps();
    ends(LENGTH, 0, 0);
    ends(LENGTH - 3, 0, 3);
    ends(LENGTH - 159, 0, 159);
    ends(LENGTH - 167, 9, 167);
    struct delampuk_walk state = marked(NOISE + 1, 9), there = marked(NOISE + 160, 0);
    fill();
    answers_no_block(step_with(&state, LENGTH), DELAMPUK_STEP_PLACE, 0, NOISE + 160);
    CHECK(SAME(state, there));
}

/* Three wrong blocks, and the step after them finds the fourth. Its place needs eight octets of a fifth. */
static void walk_over_a_loss(void) {
    struct delampuk_walk state = marked(NOISE, 0);
    struct delampuk_step_answer answer;
    size_t length = NOISE + (BLOCKS + 1) * DELAMPUK_OCTETS_LINE;
    record();
    memcpy(recording + NOISE + BLOCKS * DELAMPUK_OCTETS_LINE, recording + NOISE, DELAMPUK_OCTETS_LINE);
    for (int i = 0; i < 3; i++) {
        recording[NOISE + i * DELAMPUK_OCTETS_LINE + 1] ^= 1;
        answer = step_with(&state, length);
        CHECK(answer.kind == DELAMPUK_STEP_BLOCK && answer.value == 0 && all(answer.reserved, 2, 0));
        CHECK(answer.block.standing == (i < 2 ? DELAMPUK_STANDING_WAITING : DELAMPUK_STANDING_LOST));
        CHECK(state.lost == (i < 2 ? 0 : 1) && still_marked(&state));
        CHECK(state.place == (size_t)(NOISE + (i + 1) * DELAMPUK_OCTETS_LINE));
        CHECK(all(lent.voice, 140, 0) && all(lent.lsd, 156, 0));
    }
    answer = step_with(&state, length);
    CHECK(answer.kind == DELAMPUK_STEP_PLACE && answer.value == NOISE + 3 * DELAMPUK_OCTETS_LINE && state.lost == 0);
    answer = step_with(&state, length);
    CHECK(answer.kind == DELAMPUK_STEP_BLOCK && answer.block.standing == DELAMPUK_STANDING_WAITING && state.reader.before != 0);
    CHECK(still_marked(&state));
}

/* ---- the listing ---- */

static uint8_t text[DELAMPUK_OCTETS_LISTING + 1];

/* The listing of the recording's first octets is these words, written into so many octets of text, and the octet after them stays. */
static void lists(size_t length, const char *words, size_t room) {
    size_t whole = strlen(words);
    memset(text, 0x5A, sizeof text);
    size_t answer = delampuk_list(recording, length, text, room);
    CHECK(answer == (whole <= room ? whole : room + 1));
    CHECK(memcmp(text, words, whole <= room ? whole : room) == 0);
    CHECK(text[whole <= room ? whole : room] == 0x5A);
}

static void listings(void) {
    record();
    lists(0, "none 9\n", DELAMPUK_OCTETS_LISTING);
    lists(NOISE + 168, "found 5\n0 waiting none --\nleft 8\n", DELAMPUK_OCTETS_LISTING);
    lists(NOISE + 168, "found 5\n0 waiting none --\nleft 8\n", 13);
    lists(NOISE + 168, "found 5\n0 waiting none --\nleft 8\n", 0);
    for (int i = 0; i < 3; i++)
        recording[NOISE + i * DELAMPUK_OCTETS_LINE + 1] ^= 1;
    lists(NOISE + 2 * DELAMPUK_OCTETS_LINE + 8, "none 10\n", DELAMPUK_OCTETS_LISTING);
}

/* ---- saved forms ---- */

/* Stored octets of each form of docs/SAVED.md. The sender's and the reader's are the structs of version 0.1.0, as that version left
 * them after `stored_session`. The walk has that reader with other marks, and a place that tells the order of its octets. */
static const uint8_t saved_sender[DELAMPUK_OCTETS_SAVED_SENDER] = {25, 25, 5, 4, 1, 5};
static const uint8_t saved_reader[DELAMPUK_OCTETS_SAVED_READER] = {25, 5, 25, 5, 0, 4, 57, 0, 3, 23, 1, 5};
static const uint8_t saved_walk[DELAMPUK_OCTETS_SAVED_WALK] = {25, 5,  31,  0,    2,    4,    57,   1, 3,  23, 1,
                                                               5,  200, 0x21, 0x43, 0x65, 0x87, 9, 10, 11, 12};

/* The calls that save and load one kind of state, and its stored octets. */
struct form {
    uint8_t (*save)(const void *state, uint8_t *saved, size_t length);
    uint8_t (*load)(void *state, const uint8_t *saved, size_t length);
    size_t state;
    const uint8_t *octets;
    size_t length;
};

#define FORM(kind)                                                                               \
    static uint8_t save_##kind(const void *state, uint8_t *saved, size_t length) {               \
        return delampuk_save_##kind((const struct delampuk_##kind *)state, saved, length);       \
    }                                                                                            \
    static uint8_t load_##kind(void *state, const uint8_t *saved, size_t length) {               \
        return delampuk_load_##kind((struct delampuk_##kind *)state, saved, length);             \
    }                                                                                            \
    static const struct form kind##_form = {save_##kind, load_##kind, sizeof(struct delampuk_##kind), saved_##kind, sizeof saved_##kind}

FORM(sender);
FORM(reader);
FORM(walk);

/* Room for more than the longest form, and for every state as octets that are aligned for each. */
enum { ROOM = 64 };

union room {
    uint8_t octets[ROOM];
    struct delampuk_walk aligned;
};

/* Saved into so many octets, a state stays as it is and is written whole, or not at all. */
static void saves(const struct form *form, const void *given, size_t length) {
    union room state, saved;
    size_t written = length == form->length ? length : 0;
    memcpy(state.octets, given, form->state);
    memset(saved.octets, 0x5A, ROOM);
    CHECK(form->save(state.octets, saved.octets, length) == (written ? DELAMPUK_SAVE_SAVED : DELAMPUK_SAVE_NO_ROOM));
    CHECK(memcmp(saved.octets, form->octets, written) == 0 && all(saved.octets + written, ROOM - written, 0x5A));
    CHECK(memcmp(state.octets, given, form->state) == 0);
}

/* Loaded from so many octets, it is the state that was saved, or stays as it is. */
static void loads(const struct form *form, const void *given, size_t length) {
    union room state, saved;
    size_t filled = length == form->length ? form->state : 0;
    memset(state.octets, 0xEE, ROOM);
    memset(saved.octets, 0x5A, ROOM);
    memcpy(saved.octets, form->octets, form->length);
    CHECK(form->load(state.octets, saved.octets, length) == (filled ? DELAMPUK_LOAD_LOADED : DELAMPUK_LOAD_NO_FORM));
    CHECK(memcmp(state.octets, given, filled) == 0 && all(state.octets + filled, ROOM - filled, 0xEE));
}

static void saved_as(const struct form *form, const void *state) {
    for (size_t length = 0; length <= ROOM; length++) {
        saves(form, state, length);
        loads(form, state, length);
    }
}

/* Calls with 19, 65 and F0, and a reader that takes these words for a message. */
static void stored_session(struct delampuk_sender *sender, struct delampuk_reader *reader) {
    static const uint8_t offered[] = {0x19, 0x65, 0xF0};
    *sender = fresh_sender();
    *reader = placed();
    reader->mode.audio = reader->kept.audio = 25;
    reader->mode.lsd = reader->kept.lsd = 5;
    reader->slot.kind = 2;
    for (int i = 0; i < 3; i++) {
        fill();
        CHECK(send_with(sender, 0, offered[i]).kind == DELAMPUK_SEND_SENT);
        CHECK(read_with(reader).block.reading == DELAMPUK_WORD_MESSAGE);
    }
}

static void saved_forms(void) {
    struct delampuk_sender sender;
    struct delampuk_reader reader;
    struct delampuk_walk walk = fresh_walk(0x0C0B0A0987654321);
    stored_session(&sender, &reader);
    saved_as(&sender_form, &sender);
    saved_as(&reader_form, &reader);
    walk.reader = reader;
    walk.reader.kept.audio = 31, walk.reader.kept.lsd = 0, walk.reader.wrong = 2, walk.reader.misses = 1, walk.lost = 200;
    saved_as(&walk_form, &walk);
    uint8_t room[DELAMPUK_OCTETS_SAVED_WALK];
    walk.reserved[1] = 9;
    CHECK(delampuk_save_walk(&walk, room, sizeof room) == DELAMPUK_SAVE_SAVED && SAME(room, saved_walk));
}

/* A loaded state goes on where the saved one stood; and octets of no state at all load too, and are refused when used. */
static void loaded_states(void) {
    uint8_t octets[DELAMPUK_OCTETS_SAVED_WALK];
    struct delampuk_sender sender;
    struct delampuk_reader reader;
    struct delampuk_walk walk;
    CHECK(delampuk_load_sender(&sender, saved_sender, sizeof saved_sender) == DELAMPUK_LOAD_LOADED);
    CHECK(send_with(&sender, 1, 0x12).kind == DELAMPUK_SEND_SENT && sender.block == 5 && sender.due == 0);
    line_with(0x19);
    CHECK(delampuk_load_reader(&reader, saved_reader, sizeof saved_reader) == DELAMPUK_LOAD_LOADED);
    CHECK(read_with(&reader).block.reading == DELAMPUK_WORD_MESSAGE && reader.slot.words == 22 && reader.block == 5);
    memset(octets, 0xFF, sizeof octets);
    CHECK(delampuk_load_sender(&sender, octets, sizeof saved_sender) == DELAMPUK_LOAD_LOADED);
    refused_sending(sender, 0, 0x1F, DELAMPUK_REFUSAL_STATE);
    CHECK(delampuk_load_reader(&reader, octets, sizeof saved_reader) == DELAMPUK_LOAD_LOADED);
    refused_reading(reader, 160, 140, 156, DELAMPUK_REFUSAL_STATE);
    CHECK(delampuk_load_walk(&walk, octets, sizeof saved_walk) == DELAMPUK_LOAD_LOADED && all(walk.reserved, 3, 0));
    refused_step(walk, LENGTH, 140, 156, DELAMPUK_REFUSAL_STATE);
}

/* ---- what can be asked ---- */

static void told_of_senders(void) {
    for (int due = 0; due < 256; due++) {
        struct delampuk_sender state = after("\x19\x65"), given;
        state.chosen = 200, state.mode.audio = 31, state.due = (uint8_t)due;
        given = state;
        struct delampuk_sender_told told = delampuk_tell_sender(&state);
        CHECK(told.mode.audio == 31 && told.mode.lsd == 5 && told.chosen == 200);
        CHECK(told.due == (due == 0 ? DELAMPUK_DUE_PLAIN : DELAMPUK_DUE_ITEM));
        CHECK(SAME(state, given));
    }
}

/* Which word is due by a slot. */
static int due_by(int kind, int words) {
    if (kind < 3)
        return kind;
    return words == 0 ? DELAMPUK_DUE_PLAIN : DELAMPUK_DUE_MESSAGE;
}

static int told_of_slot(int kind, int words) {
    struct delampuk_reader state = fresh_reader(), given;
    state.mode.lsd = 5, state.block = (uint8_t)kind, state.mode.audio = (uint8_t)words;
    state.slot.kind = (uint8_t)kind, state.slot.words = (uint8_t)words;
    given = state;
    struct delampuk_reader_told told = delampuk_tell_reader(&state);
    return told.mode.audio == words && told.mode.lsd == 5 && told.block == kind && told.due == due_by(kind, words) &&
           told.words == (told.due == DELAMPUK_DUE_MESSAGE ? words : 0) && SAME(state, given);
}

static void told_of_readers(void) {
    for (int kind = 0; kind < 256; kind++) {
        int right = 0;
        for (int words = 0; words < 256; words++)
            right += told_of_slot(kind, words);
        CHECK(right == 256);
    }
}

/* Document 01's table: the audio values with their width, and of each data value the octet bits from so many on to 7 and the SC octets. */
static const uint8_t audios[][2] = {{11, 1}, {29, 2}, {28, 3}, {27, 4}, {20, 6}, {21, 6}, {25, 6}, {18, 7}, {19, 7}, {24, 7}, {31, 0}};
static const uint8_t lsds[][3] = {{8, 17, 16}, {8, 38, 40}, {8, 29, 40}, {8, 33, 80}, {8, 17, 80}, {7, 17, 16}, {7, 25, 40}, {7, 17, 80},
                                  {6, 17, 16}, {5, 17, 16}, {4, 17, 16}, {3, 17, 16}, {2, 17, 16}, {1, 17, 16}, {1, 17, 80}};
enum { AUDIOS = sizeof audios / sizeof *audios, LSDS = sizeof lsds / sizeof *lsds };

/* The width of an audio value, or -1 where it is not listed. */
static int width_of(int audio) {
    for (int i = 0; i < AUDIOS; i++)
        if (audios[i][0] == audio)
            return audios[i][1];
    return -1;
}

static int counts_right(int audio, int lsd) {
    struct delampuk_mode mode;
    int width = width_of(audio);
    mode.audio = (uint8_t)audio, mode.lsd = (uint8_t)lsd;
    struct delampuk_counts counts = delampuk_count(mode);
    return counts.voice == (width > 0 ? 20 * width : 0) &&
           counts.lsd == (lsd < LSDS ? 2 * (80 * (8 - lsds[lsd][0]) + lsds[lsd][2] - lsds[lsd][1] + 1) : 0);
}

static void counts(void) {
    for (int audio = 0; audio < 256; audio++) {
        int right = 0;
        for (int lsd = 0; lsd < 256; lsd++)
            right += counts_right(audio, lsd);
        CHECK(right == 256);
    }
}

static int kind_of(int attribute, int value) {
    switch (attribute) {
    case 0:
        return value == 0 ? DELAMPUK_CODE_NEUTRAL : width_of(value) < 0 ? DELAMPUK_CODE_OTHER : DELAMPUK_CODE_AUDIO;
    case 3:
        return value < LSDS ? DELAMPUK_CODE_LSD : DELAMPUK_CODE_OTHER;
    case 7:
        return value < 24 ? DELAMPUK_CODE_ESCAPE : value == 24 ? DELAMPUK_CODE_OTHER : DELAMPUK_CODE_MESSAGE;
    default:
        return DELAMPUK_CODE_OTHER;
    }
}

static int holds(struct delampuk_code told, int first_bit, int last_bit, int first_sc, int last_sc) {
    return told.first_bit == first_bit && told.last_bit == last_bit && told.first_sc == first_sc && told.last_sc == last_sc;
}

static int places_right(struct delampuk_code told, int value) {
    switch (told.kind) {
    case DELAMPUK_CODE_AUDIO:
        return holds(told, 1, width_of(value), 17, 16);
    case DELAMPUK_CODE_LSD:
        return holds(told, lsds[value][0], 7, lsds[value][1], lsds[value][2]);
    default:
        return holds(told, 1, 0, 17, 16);
    }
}

/* What a reader does with a plain word of a kind: an escape makes an item due, a command sets the mode, and no other code does either. */
static void followed(struct delampuk_code told, int code) {
    struct delampuk_reader state = placed();
    line_with((uint8_t)code);
    read_with(&state);
    struct delampuk_reader_told after_it = delampuk_tell_reader(&state);
    CHECK(after_it.due == (told.kind == DELAMPUK_CODE_ESCAPE ? DELAMPUK_DUE_ITEM : DELAMPUK_DUE_PLAIN));
    CHECK(after_it.mode.audio == (told.kind == DELAMPUK_CODE_AUDIO ? code & 31 : 31));
    CHECK(after_it.mode.lsd == (told.kind == DELAMPUK_CODE_LSD ? code & 31 : 0));
}

/* What is told of each code: its kind and places by the table, and that it is carried by what a sender answers. */
static void codes(void) {
    for (int code = 0; code < 256; code++) {
        struct delampuk_code told = delampuk_explain((uint8_t)code);
        struct delampuk_sender state = fresh_sender();
        CHECK(told.kind == kind_of(code >> 5, code & 31));
        CHECK(places_right(told, code & 31));
        CHECK(told.carried == (send_with(&state, 0, (uint8_t)code).number == DELAMPUK_REFUSAL_NOT_CARRIED ? 0 : 1));
        if (told.carried)
            followed(told, code);
    }
}

int main(void) {
    library();
    first_block();
    switches();
    alarms();
    mute_on_an_escape();
    refusals_of_sending();
    presets();
    refusals_of_reading();
    readings();
    streams();
    waiting_and_verdicts();
    loss();
    searching();
    steps_to_an_end();
    walk_over_a_loss();
    listings();
    saved_forms();
    loaded_states();
    told_of_senders();
    told_of_readers();
    counts();
    codes();
    printf("%d passed, %d failed\n", passed, failed);
    return failed != 0;
}
