/* Serves the calls of include/delampuk.h over standard input and output, so that a program that cannot link the archive can try it.
 *
 * A request is one octet that names the call, then its fields; an answer is fields alone, flushed before the next request is read.
 * Numbers are little-endian: u16, u32, u64. c/codec.h says how a struct crosses: field by field, numbers of eight octets last, without
 * its reserved octets. So a sender is 6 octets, a reader 12, and a walk its reader, its mark and its place. `n x` stands for n octets;
 * lengths are u32.
 *
 *   request                                                                answer
 *   'V'                                                                    library
 *   'F'                                                                    sender, reader: the fresh ones
 *   'S' sender, mute, code, a, e, t, lengths v d n,                        send_answer, sender, kept, n line
 *       v voice, d lsd, n line
 *   'R' reader, lengths n v d, n line, v voice, d lsd                      reader, read_answer, kept, v voice, d lsd
 *   'L' u64 start, length n, n recording                                   search_answer, kept
 *   'W' walk, lengths n v d, n recording, v voice, d lsd                   walk, step_answer, kept, v voice, d lsd
 *   'T' lengths n m, n recording, m text                                   u64 length, kept, m text
 *   'G' sender, u16 bits                                                   sender, preset_answer
 *   'P' sender                                                             preset_bits
 *   'N' sender                                                             sender_told
 *   'O' reader                                                             reader_told
 *   'C' mode                                                               counts
 *   'E' code                                                               code
 *   'A' 's', 'r' or 'w', that state, length n, n saved                     answer, kept, n saved
 *   'D' 's', 'r' or 'w', that state, length n, n saved                     answer, that state
 *
 * `kept` is 1 where the call changed nothing that is const, no octet around any buffer, and no reserved octet of a walk. The end of
 * the input ends the program with 0; any other request, or one cut short, with 1. */
#include "codec.h"

#include <stdio.h>
#include <string.h>

/* Buffers lie in one room with a fence around each; a copy of the room tells what a call changed. */
enum { ROOM = 1 << 20, FENCE = 61, FENCE_OCTET = 0xC3 };

static uint8_t room[ROOM], copy[ROOM];
static size_t used;

static int cut_short;

static void take(void *at, size_t length) {
    if (length > 0 && fread(at, 1, length, stdin) != length)
        cut_short = 1;
}

static uint8_t take_octet(void) {
    uint8_t octet = 0;
    take(&octet, 1);
    return octet;
}

static size_t take_number(int octets) {
    size_t number = 0;
    for (int i = 0; i < octets; i++)
        number |= (size_t)take_octet() << (8 * i);
    return number;
}

/* A request that is cut short has no answer. */
static void give(const void *from, size_t length) {
    if (!cut_short)
        fwrite(from, 1, length, stdout);
}

static void give_octet(uint8_t octet) { give(&octet, 1); }

static void give_number(size_t number, int octets) {
    for (int i = 0; i < octets; i++)
        give_octet((uint8_t)(number >> (8 * i)));
}

static void fence(void) {
    memset(room + used, FENCE_OCTET, FENCE);
    used += FENCE;
}

static void clear_room(void) {
    used = 0;
    fence();
}

/* A lent buffer with the octets that come next; even an empty one has a pointer. */
static uint8_t *lend(size_t length) {
    uint8_t *at = room + used;
    if (cut_short || length > ROOM - FENCE - used) {
        cut_short = 1;
        return at;
    }
    take(at, length);
    used += length;
    fence();
    return at;
}

static void before_call(void) { memcpy(copy, room, used); }

/* What a call may write is not held against it. */
static void may_change(const uint8_t *at, size_t length) { memcpy(copy + (at - room), at, length); }

/* Whether the call kept what it may not change: the room's octets, and what else the caller looked at. */
static void give_kept(int rest) { give_octet(rest && memcmp(copy, room, used) == 0); }

static void serve_library(void) {
    struct delampuk_library told = delampuk_about();
    give_library(&told);
}

static void serve_fresh(void) {
    struct delampuk_sender sender;
    struct delampuk_reader reader;
    delampuk_start_sender(&sender);
    delampuk_start_reader(&reader);
    give_sender(&sender);
    give_reader(&reader);
}

static void serve_send(void) {
    struct delampuk_sender state;
    uint8_t switches[5];
    take_sender(&state);
    take(switches, sizeof switches);
    size_t voices = take_number(4), lsds = take_number(4), lines = take_number(4);
    const uint8_t *voice = lend(voices), *lsd = lend(lsds);
    uint8_t *line = lend(lines);
    if (cut_short)
        return;
    before_call();
    struct delampuk_send_answer answer = delampuk_send(&state, switches[0], switches[1], switches[2], switches[3], switches[4], voice,
                                                       voices, lsd, lsds, line, lines);
    give_send_answer(&answer);
    give_sender(&state);
    may_change(line, lines);
    give_kept(1);
    give(line, lines);
}

static void serve_read(void) {
    struct delampuk_reader state;
    take_reader(&state);
    size_t lines = take_number(4), voices = take_number(4), lsds = take_number(4);
    const uint8_t *line = lend(lines);
    uint8_t *voice = lend(voices), *lsd = lend(lsds);
    if (cut_short)
        return;
    before_call();
    struct delampuk_read_answer answer = delampuk_read(&state, line, lines, voice, voices, lsd, lsds);
    give_reader(&state);
    give_read_answer(&answer);
    may_change(voice, voices);
    may_change(lsd, lsds);
    give_kept(1);
    give(voice, voices);
    give(lsd, lsds);
}

static void serve_search(void) {
    size_t start = take_number(8), length = take_number(4);
    const uint8_t *recording = lend(length);
    if (cut_short)
        return;
    before_call();
    struct delampuk_search_answer answer = delampuk_search(recording, length, start);
    give_search_answer(&answer);
    give_kept(1);
}

static void serve_step(void) {
    struct delampuk_walk state;
    uint8_t reserved[sizeof state.reserved];
    take_walk(&state);
    memset(reserved, FENCE_OCTET, sizeof reserved);
    memcpy(state.reserved, reserved, sizeof reserved);
    size_t length = take_number(4), voices = take_number(4), lsds = take_number(4);
    const uint8_t *recording = lend(length);
    uint8_t *voice = lend(voices), *lsd = lend(lsds);
    if (cut_short)
        return;
    before_call();
    struct delampuk_step_answer answer = delampuk_step(&state, recording, length, voice, voices, lsd, lsds);
    give_walk(&state);
    give_step_answer(&answer);
    may_change(voice, voices);
    may_change(lsd, lsds);
    give_kept(memcmp(state.reserved, reserved, sizeof reserved) == 0);
    give(voice, voices);
    give(lsd, lsds);
}

static void serve_listing(void) {
    size_t length = take_number(4), texts = take_number(4);
    const uint8_t *recording = lend(length);
    uint8_t *text = lend(texts);
    if (cut_short)
        return;
    before_call();
    give_number(delampuk_list(recording, length, text, texts), 8);
    may_change(text, texts);
    give_kept(1);
    give(text, texts);
}

static void serve_read_preset(void) {
    struct delampuk_sender state;
    take_sender(&state);
    struct delampuk_preset_answer answer = delampuk_read_preset(&state, (uint16_t)take_number(2));
    give_sender(&state);
    give_preset_answer(&answer);
}

static void serve_write_preset(void) {
    struct delampuk_sender state;
    take_sender(&state);
    struct delampuk_preset_bits answer = delampuk_write_preset(&state);
    give_preset_bits(&answer);
}

static void serve_tell_sender(void) {
    struct delampuk_sender state;
    take_sender(&state);
    struct delampuk_sender_told told = delampuk_tell_sender(&state);
    give_sender_told(&told);
}

static void serve_tell_reader(void) {
    struct delampuk_reader state;
    take_reader(&state);
    struct delampuk_reader_told told = delampuk_tell_reader(&state);
    give_reader_told(&told);
}

static void serve_count(void) {
    struct delampuk_mode mode;
    take_mode(&mode);
    struct delampuk_counts told = delampuk_count(mode);
    give_counts(&told);
}

static void serve_explain(void) {
    struct delampuk_code told = delampuk_explain(take_octet());
    give_code(&told);
}

/* A state of any kind: 's' is a sender, 'r' a reader, 'w' a walk. Octets past the state are 0. */
union state {
    struct delampuk_sender sender;
    struct delampuk_reader reader;
    struct delampuk_walk walk;
};

static void take_state(uint8_t kind, union state *at) {
    memset(at, 0, sizeof *at);
    switch (kind) {
    case 's':
        take_sender(&at->sender);
        break;
    case 'r':
        take_reader(&at->reader);
        break;
    case 'w':
        take_walk(&at->walk);
        break;
    default:
        cut_short = 1;
    }
}

static void give_state(uint8_t kind, const union state *at) {
    if (kind == 's')
        give_sender(&at->sender);
    else if (kind == 'r')
        give_reader(&at->reader);
    else
        give_walk(&at->walk);
}

static uint8_t save(uint8_t kind, const union state *from, uint8_t *saved, size_t length) {
    if (kind == 's')
        return delampuk_save_sender(&from->sender, saved, length);
    if (kind == 'r')
        return delampuk_save_reader(&from->reader, saved, length);
    return delampuk_save_walk(&from->walk, saved, length);
}

static uint8_t load(uint8_t kind, union state *to, const uint8_t *saved, size_t length) {
    if (kind == 's')
        return delampuk_load_sender(&to->sender, saved, length);
    if (kind == 'r')
        return delampuk_load_reader(&to->reader, saved, length);
    return delampuk_load_walk(&to->walk, saved, length);
}

static void serve_save(void) {
    uint8_t kind = take_octet();
    union state state, given;
    take_state(kind, &state);
    given = state;
    size_t length = take_number(4);
    uint8_t *saved = lend(length);
    if (cut_short)
        return;
    before_call();
    give_octet(save(kind, &state, saved, length));
    may_change(saved, length);
    give_kept(memcmp(&state, &given, sizeof state) == 0);
    give(saved, length);
}

static void serve_load(void) {
    uint8_t kind = take_octet();
    union state state;
    take_state(kind, &state);
    size_t length = take_number(4);
    const uint8_t *saved = lend(length);
    if (cut_short)
        return;
    give_octet(load(kind, &state, saved, length));
    give_state(kind, &state);
}

static const struct {
    uint8_t name;
    void (*serve)(void);
} requests[] = {
    {'V', serve_library},     {'F', serve_fresh},   {'S', serve_send},        {'R', serve_read},         {'L', serve_search},
    {'W', serve_step},        {'T', serve_listing}, {'G', serve_read_preset}, {'P', serve_write_preset}, {'N', serve_tell_sender},
    {'O', serve_tell_reader}, {'C', serve_count},   {'E', serve_explain},     {'A', serve_save},         {'D', serve_load},
};

/* Whether the request was one, and whole. */
static int serve(uint8_t name) {
    clear_room();
    for (size_t i = 0; i < sizeof requests / sizeof *requests; i++) {
        if (requests[i].name != name)
            continue;
        requests[i].serve();
        return !cut_short && fflush(stdout) == 0;
    }
    return 0;
}

int main(void) {
    uint8_t name;
    while (fread(&name, 1, 1, stdin) == 1)
        if (!serve(name))
            return 1;
    return 0;
}
