/* A lesson in C: it is framed block by block into a recording, with mute pressed on an escape, and then found, read back and checked.
 * The old card let the microphone through here: its "audio off" followed an escape word and was taken as an item. */
#include "delampuk.h"

#include <stdio.h>
#include <string.h>

enum { AUDIO_OFF = 0x1F, SPEECH = 0x19, CUES = 0x65, ESCAPE = 0xF0, TABLE_ITEM = 0x12 };
enum { SPEECH_OCTETS = 120, CUE_OCTETS = 20, NOISE = 11, BLOCKS = 20 };

/* What the far end is to hear: zeros while there is no audio, ones while muted, or the microphone. */
enum hears { NOTHING, ONES, MICROPHONE };

/* One block of the lesson: what the driver offers, and what must come of it. */
struct block {
    uint8_t mute;
    uint8_t code;
    uint8_t kind;    /* the sender's answer */
    uint8_t reading; /* the reader's, with the code that it reads */
    uint8_t word;
    enum hears hears;
    const char *tells;
};

/* A reader finds its place in the sixth block of a multiframe, so what is commanded before the seventh block is not read. */
static const struct block lesson[BLOCKS] = {
    {0, AUDIO_OFF, DELAMPUK_SEND_SENT, DELAMPUK_WORD_NOT_READ, 0, NOTHING, "the reader waits"},
    {0, AUDIO_OFF, DELAMPUK_SEND_SENT, DELAMPUK_WORD_NOT_READ, 0, NOTHING, "the reader waits"},
    {0, AUDIO_OFF, DELAMPUK_SEND_SENT, DELAMPUK_WORD_NOT_READ, 0, NOTHING, "the reader waits"},
    {0, AUDIO_OFF, DELAMPUK_SEND_SENT, DELAMPUK_WORD_NOT_READ, 0, NOTHING, "the reader waits"},
    {0, AUDIO_OFF, DELAMPUK_SEND_SENT, DELAMPUK_WORD_NOT_READ, 0, NOTHING, "the reader waits"},
    {0, AUDIO_OFF, DELAMPUK_SEND_SENT, DELAMPUK_WORD_NOT_READ, 0, NOTHING, "here it finds its place"},
    {0, AUDIO_OFF, DELAMPUK_SEND_SENT, DELAMPUK_WORD_MENDED, AUDIO_OFF, NOTHING, "first block read"},
    {0, AUDIO_OFF, DELAMPUK_SEND_SENT, DELAMPUK_WORD_MENDED, AUDIO_OFF, NOTHING, "silence"},
    {0, SPEECH, DELAMPUK_SEND_SENT, DELAMPUK_WORD_MENDED, SPEECH, NOTHING, "audio is commanded for the next block"},
    {0, CUES, DELAMPUK_SEND_SENT, DELAMPUK_WORD_MENDED, CUES, MICROPHONE, "so are page cues"},
    {0, CUES, DELAMPUK_SEND_SENT, DELAMPUK_WORD_MENDED, CUES, MICROPHONE, "the lesson is heard"},
    {0, ESCAPE, DELAMPUK_SEND_SENT, DELAMPUK_WORD_MENDED, ESCAPE, MICROPHONE, "an escape: the next word is an item"},
    {1, TABLE_ITEM, DELAMPUK_SEND_SENT, DELAMPUK_WORD_ITEM, TABLE_ITEM, ONES, "MUTE PRESSED: the item goes, the voice does not"},
    {1, CUES, DELAMPUK_SEND_HELD, DELAMPUK_WORD_MENDED, AUDIO_OFF, ONES, "mute's audio off, as a command; the code is held"},
    {1, CUES, DELAMPUK_SEND_SENT, DELAMPUK_WORD_MENDED, CUES, NOTHING, "muted, audio off at the far end"},
    {1, CUES, DELAMPUK_SEND_SENT, DELAMPUK_WORD_MENDED, CUES, NOTHING, "muted"},
    {0, CUES, DELAMPUK_SEND_HELD, DELAMPUK_WORD_MENDED, SPEECH, NOTHING, "mute released: the chosen audio is commanded"},
    {0, CUES, DELAMPUK_SEND_SENT, DELAMPUK_WORD_MENDED, CUES, MICROPHONE, "the lesson goes on"},
    {0, CUES, DELAMPUK_SEND_SENT, DELAMPUK_WORD_MENDED, CUES, MICROPHONE, "the lesson goes on"},
    {0, AUDIO_OFF, DELAMPUK_SEND_SENT, DELAMPUK_WORD_MENDED, AUDIO_OFF, MICROPHONE, "the end is commanded"},
};

static const char *const kinds[] = {"sent", "held", "refused"};
static const char *const readings[] = {"code", "item", "message", "forbidden", "not followed", "unreadable", "--"};
static const char *const hearings[] = {"nothing", "ones", "voice"};

static uint8_t recording[NOISE + BLOCKS * DELAMPUK_OCTETS_LINE];
static int passed, failed;

static void expect(int holds, const char *what, int block) {
    passed += holds != 0;
    failed += holds == 0;
    if (!holds)
        printf("block %d: %s is wrong\n", block, what);
}

/* What the microphone and the page cues say in a block: other octets for each. */
static void speak(uint8_t *voice, uint8_t *lsd, int block) {
    for (int i = 0; i < DELAMPUK_OCTETS_VOICE; i++)
        voice[i] = (uint8_t)(block * 37 + i * 11);
    for (int i = 0; i < DELAMPUK_OCTETS_LSD; i++)
        lsd[i] = (uint8_t)(block * 53 + i * 7);
}

static void frame_lesson(void) {
    uint8_t voice[DELAMPUK_OCTETS_VOICE], lsd[DELAMPUK_OCTETS_LSD];
    struct delampuk_sender state;
    delampuk_start_sender(&state);
    for (int i = 0; i < BLOCKS; i++) {
        speak(voice, lsd, i);
        struct delampuk_send_answer answer =
            delampuk_send(&state, lesson[i].mute, lesson[i].code, 0, 0, 0, voice, sizeof voice, lsd, sizeof lsd,
                          recording + NOISE + i * DELAMPUK_OCTETS_LINE, DELAMPUK_OCTETS_LINE);
        expect(answer.kind == lesson[i].kind && answer.number == 0, "the sender's answer", i);
    }
}

/* Whether voice is what is to be heard of a block, with zeros past what counts. */
static int heard(const uint8_t *voice, const uint8_t *said, enum hears hears) {
    uint8_t wanted[DELAMPUK_OCTETS_VOICE] = {0};
    if (hears == ONES)
        memset(wanted, 0xFF, SPEECH_OCTETS);
    if (hears == MICROPHONE)
        memcpy(wanted, said, SPEECH_OCTETS);
    return memcmp(voice, wanted, sizeof wanted) == 0;
}

/* Page cues go from the block after their command, muted or not. */
static int cued(const uint8_t *lsd, const uint8_t *said, int block) {
    uint8_t wanted[DELAMPUK_OCTETS_LSD] = {0};
    if (block > 9)
        memcpy(wanted, said, CUE_OCTETS);
    return memcmp(lsd, wanted, sizeof wanted) == 0;
}

static void check_block(const struct delampuk_block_answer *told, const uint8_t *voice, const uint8_t *lsd, int i) {
    uint8_t said[DELAMPUK_OCTETS_VOICE], given[DELAMPUK_OCTETS_LSD];
    speak(said, given, i);
    expect(told->standing == (i < 6 ? DELAMPUK_STANDING_WAITING : DELAMPUK_STANDING_READ), "the standing", i);
    expect(told->verdict == (i == 0 ? DELAMPUK_VERDICT_NONE : DELAMPUK_VERDICT_GOOD), "the verdict", i);
    expect(told->reading == lesson[i].reading && told->code == lesson[i].word, "the word", i);
    expect(heard(voice, said, lesson[i].hears), "what is heard", i);
    expect(cued(lsd, given, i), "the page cue", i);
    printf("%2d  %s  %-4s %02X  %-4s %02X  hears %-7s  %s\n", i, lesson[i].mute ? "mute" : "    ", kinds[lesson[i].kind],
           lesson[i].code, readings[told->reading], told->code, hearings[lesson[i].hears], lesson[i].tells);
}

static void read_lesson(void) {
    uint8_t voice[DELAMPUK_OCTETS_VOICE], lsd[DELAMPUK_OCTETS_LSD];
    struct delampuk_search_answer found = delampuk_search(recording, sizeof recording, 0);
    struct delampuk_step_answer answer;
    struct delampuk_walk walk;
    delampuk_start_walk(&walk, found.place);
    expect(found.number == 0 && found.place == NOISE, "the place found", 0);
    printf("found %u\n", (unsigned)found.place);
    for (int i = 0; i < BLOCKS; i++) {
        answer = delampuk_step(&walk, recording, sizeof recording, voice, sizeof voice, lsd, sizeof lsd);
        expect(answer.kind == DELAMPUK_STEP_BLOCK, "the step", i);
        check_block(&answer.block, voice, lsd, i);
    }
    answer = delampuk_step(&walk, recording, sizeof recording, voice, sizeof voice, lsd, sizeof lsd);
    expect(answer.kind == DELAMPUK_STEP_END && answer.value == 0, "the end", BLOCKS);
}

int main(void) {
    if (!delampuk_fits(DELAMPUK_VERSION)) {
        printf("the library is of another version than " DELAMPUK_VERSION_TEXT "\n");
        return 1;
    }
    memset(recording, 0xA5, NOISE);
    frame_lesson();
    read_lesson();
    printf("%d passed, %d failed\n", passed, failed);
    return failed != 0;
}
