/* Reads a stream of the line of any length from standard input and lists it as the program `listing` lists a recording, which has at most
 * 65,536 octets. It searches for alignment in a window of the stream, reads on block by block, and searches on after a loss. */
#include "delampuk.h"

#include <stdio.h>
#include <string.h>

/* What a search looks at from a place on. A place that is nearer to the window's end is found when the window has moved on. */
enum { SEEN = DELAMPUK_OCTETS_LINE + 8 };

/* The octets of the stream that are at hand, and how many came before them. */
struct window {
    uint8_t octets[4096];
    size_t length;
    unsigned long long before;
};

static const char *const standings[] = {"waiting", "read", "lost"};
static const char *const verdicts[] = {"none", "good", "bad"};

/* Reads until so many octets are at hand, or the stream ends; the answer is how many there are. */
static size_t get(struct window *window, size_t wanted) {
    if (window->length < wanted)
        window->length += fread(window->octets + window->length, 1, wanted - window->length, stdin);
    return window->length;
}

/* The first octets are done with. */
static void drop(struct window *window, size_t octets) {
    window->length -= octets;
    window->before += octets;
    memmove(window->octets, window->octets + octets, window->length);
}

/* Moves on to the next place where alignment stands. */
static int find(struct window *window) {
    while (get(window, sizeof window->octets) >= SEEN) {
        struct delampuk_search_answer found = delampuk_search(window->octets, window->length, 0);
        drop(window, found.number == 0 ? found.place : window->length - SEEN + 1);
        if (found.number == 0) {
            printf("found %llu\n", window->before);
            return 1;
        }
    }
    return 0;
}

static void tell(unsigned long long count, struct delampuk_block_answer told) {
    printf("%llu %s %s ", count, standings[told.standing], verdicts[told.verdict]);
    if (told.reading < DELAMPUK_WORD_UNREADABLE)
        printf("%02X\n", told.code);
    else
        printf("--\n");
}

/* Reads block after block, from a place to the end; the answer is where the last one ended. A driver would play voice and show lsd here:
 * delampuk_count says how much of them counts under the mode that delampuk_tell_reader told before the block. */
static unsigned long long read_blocks(struct window *window) {
    uint8_t voice[DELAMPUK_OCTETS_VOICE], lsd[DELAMPUK_OCTETS_LSD];
    struct delampuk_reader reader;
    unsigned long long count = 0, place = window->before;
    delampuk_start_reader(&reader);
    while (get(window, DELAMPUK_OCTETS_LINE) >= DELAMPUK_OCTETS_LINE) {
        struct delampuk_block_answer told =
            delampuk_read(&reader, window->octets, DELAMPUK_OCTETS_LINE, voice, sizeof voice, lsd, sizeof lsd).block;
        tell(count++, told);
        drop(window, DELAMPUK_OCTETS_LINE);
        place = window->before;
        if (told.standing == DELAMPUK_STANDING_LOST && !find(window))
            break;
    }
    return place;
}

int main(void) {
    static struct window window;
    if (!delampuk_fits(DELAMPUK_VERSION)) {
        fprintf(stderr, "stream: the library is of another version than " DELAMPUK_VERSION_TEXT "\n");
        return 1;
    }
    if (!find(&window)) {
        printf("none %d\n", window.before == 0 && window.length < SEEN ? DELAMPUK_REFUSAL_RECORDING : DELAMPUK_REFUSAL_NO_PLACE);
        return 0;
    }
    unsigned long long place = read_blocks(&window);
    printf("left %llu\n", window.before + window.length - place);
    return 0;
}
