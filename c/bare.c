/* A driver without a C library or an operating system, which sends one block again and again. memset and memcpy are all that the archive needs
 * beside itself. tools/ctest links it with nothing else, and tools/stack measures what of the library it links. */
#include "delampuk.h"

void *memset(void *at, int octet, size_t length) {
    /* volatile, so that no compiler takes the loop for a memset */
    volatile uint8_t *octets = (volatile uint8_t *)at;
    for (size_t i = 0; i < length; i++)
        octets[i] = (uint8_t)octet;
    return at;
}

void *memcpy(void *restrict to, const void *restrict from, size_t length) {
    volatile uint8_t *octets = (volatile uint8_t *)to;
    for (size_t i = 0; i < length; i++)
        octets[i] = ((const uint8_t *)from)[i];
    return to;
}

/* The line unit's registers. */
static uint8_t voice[DELAMPUK_OCTETS_VOICE], lsd[DELAMPUK_OCTETS_LSD], line[DELAMPUK_OCTETS_LINE];
static volatile uint8_t mute;

void _start(void);

void _start(void) {
    struct delampuk_sender state;
    delampuk_start_sender(&state);
    for (;;)
        delampuk_send(&state, mute, 0x19, 0, 0, 0, voice, sizeof voice, lsd, sizeof lsd, line, sizeof line);
}
