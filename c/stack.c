/* Measures how much stack each call of include/delampuk.h needs, and prints the octets and the call. A call runs on a stack of its own
 * that is painted before; what is not painted afterwards was used, but for what a function uses that does nothing. Each runs under every
 * mode and over a recording with a loss, and the most is told. tools/stack builds and runs it. */
#define _XOPEN_SOURCE 700
#include "delampuk.h"

#include <stdio.h>
#include <string.h>
#include <ucontext.h>

enum { STACK = 1 << 13, PAINT = 0xA7, BLOCKS = 40, HARMED = 10, WRONG = 18, LENGTH = BLOCKS * DELAMPUK_OCTETS_LINE };

static uint8_t stack[STACK], voice[DELAMPUK_OCTETS_VOICE], lsd[DELAMPUK_OCTETS_LSD], line[DELAMPUK_OCTETS_LINE], recording[LENGTH];
static uint8_t text[DELAMPUK_OCTETS_LISTING], saved[DELAMPUK_OCTETS_SAVED_WALK], mute, code;

/* The states of a session, and others that calls may fill. */
static struct delampuk_sender sender, other_sender;
static struct delampuk_reader reader, other_reader;
static struct delampuk_walk walk, other_walk;

#define CALLS(CALL)                                                                                                               \
    CALL(about, delampuk_about())                                                                                                 \
    CALL(fits, delampuk_fits(DELAMPUK_VERSION))                                                                                   \
    CALL(start_sender, delampuk_start_sender(&other_sender))                                                                      \
    CALL(send, delampuk_send(&sender, mute, code, 0, 0, 0, voice, sizeof voice, lsd, sizeof lsd, line, sizeof line))              \
    CALL(tell_sender, delampuk_tell_sender(&sender))                                                                              \
    CALL(save_sender, delampuk_save_sender(&sender, saved, DELAMPUK_OCTETS_SAVED_SENDER))                                         \
    CALL(load_sender, delampuk_load_sender(&other_sender, saved, DELAMPUK_OCTETS_SAVED_SENDER))                                   \
    CALL(read_preset, delampuk_read_preset(&other_sender, 25 * 2048 + 5 * 64))                                                    \
    CALL(write_preset, delampuk_write_preset(&sender))                                                                            \
    CALL(start_reader, delampuk_start_reader(&other_reader))                                                                      \
    CALL(read, delampuk_read(&reader, line, sizeof line, voice, sizeof voice, lsd, sizeof lsd))                                   \
    CALL(tell_reader, delampuk_tell_reader(&reader))                                                                              \
    CALL(save_reader, delampuk_save_reader(&reader, saved, DELAMPUK_OCTETS_SAVED_READER))                                         \
    CALL(load_reader, delampuk_load_reader(&other_reader, saved, DELAMPUK_OCTETS_SAVED_READER))                                   \
    CALL(search, delampuk_search(recording, sizeof recording, walk.place))                                                        \
    CALL(start_walk, delampuk_start_walk(&other_walk, 0))                                                                         \
    CALL(step, delampuk_step(&walk, recording, sizeof recording, voice, sizeof voice, lsd, sizeof lsd))                           \
    CALL(save_walk, delampuk_save_walk(&walk, saved, DELAMPUK_OCTETS_SAVED_WALK))                                                 \
    CALL(load_walk, delampuk_load_walk(&other_walk, saved, DELAMPUK_OCTETS_SAVED_WALK))                                           \
    CALL(list, delampuk_list(recording, sizeof recording, text, sizeof text))                                                     \
    CALL(count, delampuk_count(sender.mode))                                                                                      \
    CALL(explain, delampuk_explain(code))

#define FUNCTION(name, call) \
    static void call_##name(void) { call; }
CALLS(FUNCTION)

#define ROW(name, call) {#name, call_##name, 0},
static struct {
    const char *name;
    void (*call)(void);
    size_t most;
} calls[] = {CALLS(ROW)};
enum { COUNT = sizeof calls / sizeof *calls };

static void nothing(void) {}

/* The octets of stack that a function used. */
static size_t used_by(void (*function)(void)) {
    static ucontext_t here, there;
    size_t painted = 0;
    memset(stack, PAINT, STACK);
    getcontext(&there);
    there.uc_stack.ss_sp = stack;
    there.uc_stack.ss_size = STACK;
    there.uc_link = &here;
    makecontext(&there, function, 0);
    swapcontext(&here, &there);
    while (painted < STACK && stack[painted] == PAINT)
        painted++;
    return STACK - painted;
}

static void measure_all(void) {
    for (int i = 0; i < COUNT; i++) {
        size_t used = used_by(calls[i].call);
        if (used > calls[i].most)
            calls[i].most = used;
    }
}

/* Blocks of a session, of which so many in a row have a wrong alignment word that the search after the loss passes 2,048 places at once. */
static void record(void) {
    struct delampuk_sender state;
    delampuk_start_sender(&state);
    for (int i = 0; i < BLOCKS; i++) {
        uint8_t *block = recording + i * DELAMPUK_OCTETS_LINE;
        delampuk_send(&state, 0, 0x80, 0, 0, 0, voice, sizeof voice, lsd, sizeof lsd, block, DELAMPUK_OCTETS_LINE);
        block[1] ^= i >= HARMED && i < HARMED + WRONG;
    }
}

/* Sessions under a mode, sent, read and walked through, with mute and without. */
static void measure_under(struct delampuk_mode mode) {
    for (mute = 0; mute < 2; mute++) {
        delampuk_start_sender(&sender);
        delampuk_start_walk(&walk, 0);
        sender.chosen = mode.audio;
        sender.mode = walk.reader.mode = walk.reader.kept = mode;
        reader = walk.reader;
        reader.block = walk.reader.block = 1;
        for (int i = 0; i < BLOCKS; i++) {
            code = i % 3 == 0 ? 0xF0 : 0x80;
            measure_all();
        }
    }
}

/* All modes of listed values. Those in which audio and data hold the same bits are refused, and that is measured too. */
static void measure_modes(void) {
    for (uint8_t audio = 0; audio < 32; audio++)
        for (uint8_t data = 0; data < 15; data++)
            if (delampuk_explain(audio).kind == DELAMPUK_CODE_AUDIO)
                measure_under((struct delampuk_mode){audio, data});
}

int main(void) {
    record();
    measure_modes();
    size_t least = used_by(nothing);
    /* a stack grows by sixteen octets, of which some may not be written */
    for (int i = 0; i < COUNT; i++)
        printf("%6u  delampuk_%s\n", (unsigned)((calls[i].most - least + 15) / 16 * 16), calls[i].name);
    return 0;
}
