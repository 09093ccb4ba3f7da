/* The listing of a recording, over limit_search.c: the service channel and the CRC of each block, and lines put together by hand. */
#include "limit/block.h"
#include "limit/words.h"

struct delampuk_search_answer limit_search(const uint8_t *recording, size_t length, size_t start);

/* The longest line, "65536 waiting good 00", with room for names that are copied eight octets at a time. */
enum { LINE_ROOM = 48 };

/* A text that is written to; a line that does not fit is left out. */
struct text {
    uint8_t *place, *end;
};

static uint8_t *put_number(uint8_t *to, size_t number) {
    uint8_t digits[20], *first = digits + sizeof digits;
    do {
        *--first = (uint8_t)('0' + number % 10);
        number /= 10;
    } while (number != 0);
    size_t count = (size_t)(digits + sizeof digits - first);
    memcpy(to, first, count);
    return to + count;
}

static void put_line(struct text *text, const uint8_t *line, const uint8_t *end) {
    size_t length = (size_t)(end - line);
    if (length > (size_t)(text->end - text->place))
        return;
    memcpy(text->place, line, length);
    text->place += length;
}

static void put_value(struct text *text, const char *name, size_t value) {
    uint8_t line[LINE_ROOM];
    size_t name_length = strlen(name);
    memcpy(line, name, name_length);
    uint8_t *end = put_number(line + name_length, value);
    *end++ = '\n';
    put_line(text, line, end);
}

struct name {
    char octets[10];
    uint8_t length;
};

FORCED uint8_t *put_name(uint8_t *to, const struct name *name) {
    memcpy(to, name->octets, 10);
    return to + name->length;
}

static void put_block(struct text *text, size_t count, struct delampuk_block_answer block) {
    static const struct name standings[3] = {{" waiting ", 9}, {" read ", 6}, {" lost ", 6}};
    static const struct name verdicts[3] = {{"none ", 5}, {"good ", 5}, {"bad ", 4}};
    static const char digits[] = "0123456789ABCDEF";
    bool read = block.reading < DELAMPUK_WORD_UNREADABLE;
    uint8_t line[LINE_ROOM];
    uint8_t *end = put_name(put_name(put_number(line, count), &standings[block.standing]), &verdicts[block.verdict]);
    end[0] = (uint8_t)(read ? digits[block.code >> 4] : '-');
    end[1] = (uint8_t)(read ? digits[block.code & 15] : '-');
    end[2] = '\n';
    put_line(text, line, end + 3);
}

/* The blocks from a place on; the answer is the place of the end. The streams are not asked for, and not sorted out. */
static size_t put_walk(struct text *text, const uint8_t *recording, size_t length, size_t place) {
    struct delampuk_reader state = fresh_reader_with((struct delampuk_mode){AUDIO_OFF, DATA_OFF});
    for (size_t count = 0; length - place >= DELAMPUK_OCTETS_LINE; count++) {
        uint64_t block[EIGHTS];
        struct service service = load_block(block, recording + place);
        struct delampuk_block_answer answer = advance_reader(&state, &service, read_word(service.even_word, service.odd_word));
        place += DELAMPUK_OCTETS_LINE;
        put_block(text, count, answer);
        if (answer.standing != DELAMPUK_STANDING_LOST)
            continue;
        struct delampuk_search_answer found = limit_search(recording, length, place);
        if (found.number != 0)
            break;
        place = found.place;
        put_value(text, "found ", place);
    }
    return place;
}

size_t limit_list(const uint8_t *recording, size_t length, uint8_t *octets, size_t octets_length) {
    struct text text = {octets, octets + octets_length};
    struct delampuk_search_answer found = limit_search(recording, length, 0);
    if (found.number != 0) {
        put_value(&text, "none ", found.number);
    } else {
        put_value(&text, "found ", found.place);
        size_t end = put_walk(&text, recording, length, found.place);
        put_value(&text, "left ", length - end);
    }
    return (size_t)(text.place - octets);
}
