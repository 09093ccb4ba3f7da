/* Writes a recording that is too long for a walk, to try c/stream.c: `long recording`; or what a reader of it has to tell, worked out
 * from what was sent and not by reading it: `long listing`. The recording has noise, a session in which three alignment words are wrong
 * and some octets come in after them, and a few octets more. */
#include "delampuk.h"

#include <stdio.h>
#include <string.h>

enum { NOISE = 11, BLOCKS = 900, HARMED = 600, AGAIN = HARMED + 3, COME_IN = 37, LEFT = 5 };

/* A code that no reader follows: one of attributes 100 to 110. */
static uint8_t code_of(int block) { return (uint8_t)(0x80 + block % 0x60); }

static void write_octets(uint8_t octet, int count) {
    for (int i = 0; i < count; i++)
        putchar(octet);
}

static void write_recording(void) {
    static const uint8_t voice[DELAMPUK_OCTETS_VOICE], lsd[DELAMPUK_OCTETS_LSD];
    uint8_t line[DELAMPUK_OCTETS_LINE];
    struct delampuk_sender state;
    delampuk_start_sender(&state);
    write_octets(0xA5, NOISE);
    for (int i = 0; i < BLOCKS; i++) {
        delampuk_send(&state, 0, code_of(i), 0, 0, 0, voice, sizeof voice, lsd, sizeof lsd, line, sizeof line);
        if (i >= HARMED && i < AGAIN)
            line[1] ^= 1;
        if (i == AGAIN)
            write_octets(0, COME_IN);
        fwrite(line, 1, sizeof line, stdout);
    }
    write_octets(0xA5, LEFT);
}

/* Blocks from a place that was found: a reader waits until the sixth block of a multiframe, of which it has heard six, and then reads. */
static void list_blocks(int first, int end) {
    int waits = 1;
    for (int i = first; i < end; i++) {
        printf("%d %s %s ", i, waits ? "waiting" : "read", i == first ? "none" : "good");
        if (waits)
            printf("--\n");
        else
            printf("%02X\n", code_of(i));
        if (i % 8 == 5 && i >= first + 5)
            waits = 0;
    }
}

/* Of the three blocks with a wrong word two are read. The CRC tells of the block before, and so the second is the first to be told bad. */
static void list_recording(void) {
    printf("found %d\n", NOISE);
    list_blocks(0, HARMED + 1);
    printf("%d read bad %02X\n", HARMED + 1, code_of(HARMED + 1));
    printf("%d lost none --\n", HARMED + 2);
    printf("found %d\n", NOISE + AGAIN * DELAMPUK_OCTETS_LINE + COME_IN);
    list_blocks(AGAIN, BLOCKS);
    printf("left %d\n", LEFT);
}

int main(int count, char **words) {
    if (count == 2 && strcmp(words[1], "recording") == 0)
        write_recording();
    else if (count == 2 && strcmp(words[1], "listing") == 0)
        list_recording();
    else
        return 1;
    return 0;
}
