/* What include/delampuk.h declared before version 0.2.0 of the calls that are timed. */
struct delampuk_mode {
    uint8_t audio;
    uint8_t lsd;
};

struct delampuk_sender {
    uint8_t chosen;
    struct delampuk_mode mode;
    uint8_t block;
    uint8_t due;
    uint8_t remainder;
};

struct delampuk_send_answer {
    uint8_t kind;
    uint8_t number;
};

struct delampuk_send_answer delampuk_send(struct delampuk_sender *state, uint8_t mute, uint8_t code, uint8_t a, uint8_t e, uint8_t t,
                                          const uint8_t *voice, size_t voice_length, const uint8_t *lsd, size_t lsd_length,
                                          uint8_t *line, size_t line_length);

struct delampuk_slot {
    uint8_t kind;
    uint8_t words;
};

struct delampuk_reader {
    struct delampuk_mode mode;
    struct delampuk_mode kept;
    uint8_t wrong;
    uint8_t block;
    uint8_t firsts;
    uint8_t misses;
    struct delampuk_slot slot;
    uint8_t before;
    uint8_t remainder;
};

struct delampuk_block_answer {
    uint8_t standing;
    uint8_t verdict;
    uint8_t reading;
    uint8_t code;
};

struct delampuk_read_answer {
    uint8_t kind;
    uint8_t number;
    struct delampuk_block_answer block;
};

struct delampuk_read_outcome {
    struct delampuk_reader state;
    struct delampuk_read_answer answer;
};

struct delampuk_read_outcome delampuk_read(struct delampuk_reader state, const uint8_t *line, size_t line_length, uint8_t *voice,
                                           size_t voice_length, uint8_t *lsd, size_t lsd_length);

struct delampuk_search_answer {
    uint8_t number;
    size_t place;
};

struct delampuk_search_answer delampuk_search(const uint8_t *recording, size_t length, size_t start);

size_t delampuk_list(const uint8_t *recording, size_t length, uint8_t *text, size_t text_length);
