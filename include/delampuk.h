/* Delampuk for a card driver in C or C++: one 64 kbit/s channel framed by ITU-T H.221, sent, read and searched for.
 *
 * This file is written by tools/gen_boundary.py, out of tools/boundary.desc and tools/delampuk.h.in: a change belongs there.
 *
 * Compile as C11 or C++11 and link libdelampuk.a, which `sh tools/native` writes: target/staticlib/libdelampuk.a for x86-64, and
 * target/native/libdelampuk.a for this machine's processor. The library allocates nothing, has no global data, keeps no pointer after a
 * call and never stops the program: every number and every length has an answer, and a call that cannot be done is refused with a
 * number. Calls on states and buffers that are not shared may run at the same time. Beside itself the archive needs two functions,
 * memset and memcpy as C has them, and no operating system.
 *
 * A driver asks first whether it was compiled with the header of the archive that it is linked with; another archive may have other
 * structs:
 *
 *     if (!delampuk_fits(DELAMPUK_VERSION))
 *         stop("libdelampuk.a is of another version than " DELAMPUK_VERSION_TEXT);
 *
 * What the caller owes, for each call:
 *   - No pointer is null, not even that of a buffer whose length is 0.
 *   - A buffer is a pointer and a length in octets, and that many octets behind the pointer are there for the whole call. They are
 *     lent: the caller owns them before and after. A state is lent by a pointer to its struct, as the compiler aligns it.
 *   - What a call may write (a state or a buffer that is not const) overlaps nothing else that the call is given, and nobody else reads
 *     or writes it during the call. What is const may overlap what is const, and may be read by others meanwhile.
 *   - A state is filled in before it is lent to another call than delampuk_start_.., _load_.. or delampuk_read_preset. Its octets may
 *     be any; one out of range is refused with 1. A refused call may store the state's own octets again, so a state that is not const
 *     lies in memory that can be written.
 *
 * A refusal changes nothing: the state is as it was, and no lent octet changes. Where several numbers hold, the smallest is given.
 *
 * No struct has padding, and a call sets every octet of what it answers, so that structs can be compared, copied and kept as octets.
 * For a state that is kept beyond the run of a program there are saved forms (docs/SAVED.md), which later versions load too.
 *
 * Bits are packed most significant first. Of a voice buffer the first 20w octets count, w being the bits of an octet that the audio in
 * force holds; of a data buffer the bits that the data in force holds in a block: delampuk_count tells both. A code is an octet: its
 * attribute, three bits, and its value, five; (000)[24] is 0x18. The table below tells what each of them is, and delampuk_explain tells
 * it to a program. */
#ifndef DELAMPUK_H
#define DELAMPUK_H

#include <stddef.h>
#include <stdint.h>

#ifdef __cplusplus
extern "C" {
#endif

/* The version of this header: 10000 major + 100 minor + patch. */
#define DELAMPUK_VERSION 200
#define DELAMPUK_VERSION_TEXT "0.2.0"

/* The length of each buffer in octets; of a recording and of a listing the most. */
enum {
    DELAMPUK_OCTETS_LINE = 160,        /* a block on the line */
    DELAMPUK_OCTETS_VOICE = 140,       /* a voice buffer */
    DELAMPUK_OCTETS_LSD = 156,         /* a buffer of data, H.221's low-speed data */
    DELAMPUK_OCTETS_RECORDING = 65536, /* the most that a recording may have */
    DELAMPUK_OCTETS_LISTING = 16384,   /* the most that a listing has */
    DELAMPUK_OCTETS_SAVED_SENDER = 6,  /* a saved sender */
    DELAMPUK_OCTETS_SAVED_READER = 12, /* a saved reader */
    DELAMPUK_OCTETS_SAVED_WALK = 21    /* a saved walk */
};

/* Why a call is refused. */
enum {
    DELAMPUK_REFUSAL_STATE = 1,       /* the state is out of range */
    DELAMPUK_REFUSAL_LINE = 2,        /* line is not 160 octets */
    DELAMPUK_REFUSAL_VOICE = 3,       /* voice is not 140 octets */
    DELAMPUK_REFUSAL_LSD = 4,         /* lsd is not 156 octets */
    DELAMPUK_REFUSAL_NOT_CARRIED = 5, /* the offered code is not carried as a plain word */
    DELAMPUK_REFUSAL_ITEM = 6,        /* an item is due, and the offered code has attribute 111 */
    DELAMPUK_REFUSAL_MUTED = 7,       /* an audio command is offered while mute is set */
    DELAMPUK_REFUSAL_OVERLAP = 8,     /* audio and data would hold the same bits */
    DELAMPUK_REFUSAL_RECORDING = 9,   /* over 65,536 octets; in a search under 168 from the start on; in a step a place past the end */
    DELAMPUK_REFUSAL_NO_PLACE = 10,   /* alignment stands nowhere from the start on */
    DELAMPUK_REFUSAL_PRESET = 11      /* the sixteen bits are no preset */
};

/* ---- The library --------------------------------------------------------------------------------------------------------------- */

/* What an archive says of itself. */
struct delampuk_library {
    uint32_t version;  /* 10000 major + 100 minor + patch */
    uint16_t sender;   /* the octets of a struct delampuk_sender */
    uint16_t reader;   /* of a struct delampuk_reader */
    uint16_t walk;     /* of a struct delampuk_walk */
    uint16_t reserved; /* 0 */
};

/* Answers the version of the archive, and how long its states are. */
struct delampuk_library delampuk_about(void);

/* Answers whether a program that was compiled with the header of a version may use the archive. The answer is 1 for the archive's own
 * version and 0 for every other number. */
uint8_t delampuk_fits(uint32_t version);

/* ---- Sending ------------------------------------------------------------------------------------------------------------------- */

/* What is in force. */
struct delampuk_mode {
    uint8_t audio; /* an audio value of (000), 31 being off */
    uint8_t lsd;   /* a data value of (011), 0 being off */
};

/* What a sender keeps between blocks. */
struct delampuk_sender {
    uint8_t chosen;            /* the chosen audio, which may be muted; 31 is off */
    struct delampuk_mode mode; /* what is in force */
    uint8_t block;             /* the next block's number, 1 to 8 */
    uint8_t due;               /* 0, or another number where the next word is an item */
    uint8_t remainder;         /* the remainder (CRC-4) of the block before, at most 15 */
};

/* What a sending call answers. */
enum { DELAMPUK_SEND_SENT = 0, DELAMPUK_SEND_HELD = 1, DELAMPUK_SEND_REFUSED = 2 };

/* A sending call's answer. */
struct delampuk_send_answer {
    uint8_t kind;   /* DELAMPUK_SEND_SENT, _HELD or _REFUSED */
    uint8_t number; /* the refusal's, 1 to 8, or 0 */
};

/* Fills *state with the state that a session starts in: audio and data off, block 1 of 8 next, nothing due. */
void delampuk_start_sender(struct delampuk_sender *state);

/* Sends one block into line and advances *state. The code is the BAS code to offer. The switches mute, a, e and t are octets: 0 is no,
 * every other number yes. All 160 octets of line are written, unless the call is refused.
 *   sent     the code went out
 *   held     a word of the library's own went in its place, "audio off" for mute or the chosen audio after it: offer the code again
 *   refused  1 to 8, and *state and line are as they were
 * With mute set nothing of voice goes into this block. A code takes hold in the block after the one that carries it. */
struct delampuk_send_answer delampuk_send(struct delampuk_sender *state, uint8_t mute, uint8_t code, uint8_t a, uint8_t e, uint8_t t,
                                          const uint8_t *voice, size_t voice_length, const uint8_t *lsd, size_t lsd_length, uint8_t *line,
                                          size_t line_length);

/* Which word is due. */
enum {
    DELAMPUK_DUE_PLAIN = 0,  /* a plain word */
    DELAMPUK_DUE_ITEM = 1,   /* an item */
    DELAMPUK_DUE_LENGTH = 2, /* the length of a message */
    DELAMPUK_DUE_MESSAGE = 3 /* words of a message */
};

/* What a sender's state tells. */
struct delampuk_sender_told {
    struct delampuk_mode mode; /* what is in force in the next block */
    uint8_t chosen;            /* the chosen audio, which may be muted */
    uint8_t due;               /* which word is due: DELAMPUK_DUE_PLAIN or _ITEM */
};

/* Tells what is in force, what audio is chosen and which word is due. It answers for any octets, also for a state out of range. */
struct delampuk_sender_told delampuk_tell_sender(const struct delampuk_sender *state);

/* What a saving call answers. */
enum {
    DELAMPUK_SAVE_NO_ROOM = 0, /* the buffer has another length; it is as it was */
    DELAMPUK_SAVE_SAVED = 1
};

/* What a loading call answers. */
enum {
    DELAMPUK_LOAD_NO_FORM = 0, /* no saved form has this length; the state is as it was */
    DELAMPUK_LOAD_LOADED = 1
};

/* Writes *state into saved, DELAMPUK_OCTETS_SAVED_SENDER octets, in a form that this and every later version loads. Where saved has any
 * other length the answer is DELAMPUK_SAVE_NO_ROOM, and saved is as it was. Any octets are saved, also a state out of range. */
uint8_t delampuk_save_sender(const struct delampuk_sender *state, uint8_t *saved, size_t saved_length);

/* Fills *state from a saved form, which is known by its length. Where no form of a sender has this length the answer is
 * DELAMPUK_LOAD_NO_FORM, and *state is as it was. Any octets load; a state out of range is refused with 1 by the calls that use it. */
uint8_t delampuk_load_sender(struct delampuk_sender *state, const uint8_t *saved, size_t saved_length);

/* What the reading of a preset answers. */
struct delampuk_preset_answer {
    uint8_t offer;  /* the data code to offer until it is sent */
    uint8_t number; /* 11 or 0 */
};

/* Fills *state from a preset: fresh, with its chosen audio. The answer has the data code to offer. Where bits are no preset the number
 * is 11, *state is as it was, and the code is 0x60, "data off". */
struct delampuk_preset_answer delampuk_read_preset(struct delampuk_sender *state, uint16_t bits);

/* A preset. */
struct delampuk_preset_bits {
    uint16_t bits;    /* audio value (5 bits), data value (5), six zeros; 0 where it is refused */
    uint8_t number;   /* 1 or 0 */
    uint8_t reserved; /* 0 */
};

/* Answers the chosen audio and the data in force of *state, as a preset. A state out of range is refused with 1. */
struct delampuk_preset_bits delampuk_write_preset(const struct delampuk_sender *state);

/* ---- Reading ------------------------------------------------------------------------------------------------------------------- */

/* What a reader takes the next word for. */
struct delampuk_slot {
    uint8_t kind;  /* 0 a plain word, 1 an item, 2 the length of a message, and every other number a message */
    uint8_t words; /* how many words of the message are left */
};

/* What a reader keeps between blocks. */
struct delampuk_reader {
    struct delampuk_mode mode; /* what is in force */
    struct delampuk_mode kept; /* the mode to go back to where alignment is lost */
    uint8_t wrong;             /* the run of wrong alignment words, at most 2 */
    uint8_t block;             /* the next block's number, 1 to 8, or 0 while it is unknown */
    uint8_t firsts;            /* the last first bits of odd frames */
    uint8_t misses;            /* the run of wrong patterns, at most 2 */
    struct delampuk_slot slot; /* what is due */
    uint8_t before;            /* 0, or another number where there is a block before */
    uint8_t remainder;         /* its remainder (CRC-4), at most 15 */
};

/* What a reading call answers. */
enum { DELAMPUK_READ_BLOCK = 0, DELAMPUK_READ_REFUSED = 1 };

/* How a block was taken. */
enum { DELAMPUK_STANDING_WAITING = 0, DELAMPUK_STANDING_READ = 1, DELAMPUK_STANDING_LOST = 2 };

/* What the CRC says. */
enum { DELAMPUK_VERDICT_NONE = 0, DELAMPUK_VERDICT_GOOD = 1, DELAMPUK_VERDICT_BAD = 2 };

/* The reading of a BAS word. */
enum {
    DELAMPUK_WORD_MENDED = 0,    /* a plain word */
    DELAMPUK_WORD_ITEM = 1,
    DELAMPUK_WORD_MESSAGE = 2,
    DELAMPUK_WORD_FORBIDDEN = 3, /* an item with attribute 111 */
    DELAMPUK_WORD_NOT_FOLLOWED = 4,
    DELAMPUK_WORD_UNREADABLE = 5,
    DELAMPUK_WORD_NOT_READ = 6
};

/* What is told of a block. Where there is no block to speak of it says waiting, no verdict, not read. */
struct delampuk_block_answer {
    uint8_t standing; /* DELAMPUK_STANDING_WAITING, _READ or _LOST */
    uint8_t verdict;  /* DELAMPUK_VERDICT_NONE, _GOOD or _BAD */
    uint8_t reading;  /* of the BAS word: DELAMPUK_WORD_MENDED to _NOT_READ */
    uint8_t code;     /* the word's code, 0 where it is unreadable or not read */
};

/* A reading call's answer. */
struct delampuk_read_answer {
    uint8_t kind;                       /* DELAMPUK_READ_BLOCK or _REFUSED */
    uint8_t number;                     /* the refusal's, 1 to 4, or 0 */
    struct delampuk_block_answer block; /* what is told of the block */
};

/* Fills *state with the state that a reader starts in: audio and data off, place unknown, no block before. */
void delampuk_start_reader(struct delampuk_reader *state);

/* Reads one block of 160 octets and advances *state. Voice and lsd are written whole: the streams by the mode where the block is read,
 * zeros past what counts, and zeros alone where the reader waits or has lost alignment. Refusals 1 to 4 leave *state, voice and lsd as
 * they were. */
struct delampuk_read_answer delampuk_read(struct delampuk_reader *state, const uint8_t *line, size_t line_length, uint8_t *voice,
                                          size_t voice_length, uint8_t *lsd, size_t lsd_length);

/* What a reader's state tells. */
struct delampuk_reader_told {
    struct delampuk_mode mode; /* what is in force in the next block */
    uint8_t block;             /* the next block's number, 0 while it is unknown */
    uint8_t due;               /* which word is due: DELAMPUK_DUE_PLAIN to _MESSAGE */
    uint8_t words;             /* how many words of a message are left, 0 where none is due */
};

/* Tells what is in force, the next block's number, and which word is due. A message with no words left is a plain word. The call
 * answers for any octets, also for a state out of range. */
struct delampuk_reader_told delampuk_tell_reader(const struct delampuk_reader *state);

/* Writes *state into saved, DELAMPUK_OCTETS_SAVED_READER octets; as delampuk_save_sender. */
uint8_t delampuk_save_reader(const struct delampuk_reader *state, uint8_t *saved, size_t saved_length);

/* Fills *state from a saved form of a reader; as delampuk_load_sender. */
uint8_t delampuk_load_reader(struct delampuk_reader *state, const uint8_t *saved, size_t saved_length);

/* ---- Recordings ---------------------------------------------------------------------------------------------------------------- */

/* What a search answers. */
struct delampuk_search_answer {
    size_t place;        /* the smallest place from the start on, an octet of the whole recording; 0 where it is refused */
    uint8_t number;      /* 9, 10, or 0 where a place was found */
    uint8_t reserved[7]; /* 0 */
};

/* Searches a recording, from octet start on, for the smallest place where alignment stands. It is refused with 9 where the recording
 * has over 65,536 octets or fewer than 168 from the start on, and with 10 where there is no such place. */
struct delampuk_search_answer delampuk_search(const uint8_t *recording, size_t recording_length, size_t start);

/* What a walk over a recording keeps between steps. */
struct delampuk_walk {
    size_t place;                  /* the octet of the recording where the walk stands */
    struct delampuk_reader reader; /* what its reader keeps */
    uint8_t lost;                  /* 0, or another number where the block before was lost */
    uint8_t reserved[3];           /* 0 from start and load; a step leaves them as they are */
};

/* What a step of a walk answers. */
enum { DELAMPUK_STEP_BLOCK = 0, DELAMPUK_STEP_PLACE = 1, DELAMPUK_STEP_END = 2, DELAMPUK_STEP_REFUSED = 3 };

/* A step's answer. */
struct delampuk_step_answer {
    size_t value;                       /* the place found, or the octets left at the end; 0 for the other two */
    uint8_t kind;                       /* DELAMPUK_STEP_BLOCK, _PLACE, _END or _REFUSED */
    uint8_t number;                     /* the refusal's, 1, 3, 4 or 9, or 0 */
    struct delampuk_block_answer block; /* what is told of the block */
    uint8_t reserved[2];                /* 0 */
};

/* Fills *state with a walk that starts at a place, such as delampuk_search has found: a fresh reader, no block lost. */
void delampuk_start_walk(struct delampuk_walk *state, size_t place);

/* Goes one step of a walk over a recording. It reads the block at the walk's place and moves on by 160 octets; after a lost block it
 * searches for the next place and moves there; or it answers the end, and the octets left. All but a block leave the reader, voice and
 * lsd as they were, and the end moves nothing. Refusals 1, 3, 4 and 9 leave *state as it was too. A recording has at most 65,536
 * octets; c/stream.c reads a stream of any length. */
struct delampuk_step_answer delampuk_step(struct delampuk_walk *state, const uint8_t *recording, size_t recording_length, uint8_t *voice,
                                          size_t voice_length, uint8_t *lsd, size_t lsd_length);

/* Writes *state into saved, DELAMPUK_OCTETS_SAVED_WALK octets; as delampuk_save_sender. The recording is not saved. */
uint8_t delampuk_save_walk(const struct delampuk_walk *state, uint8_t *saved, size_t saved_length);

/* Fills *state from a saved form of a walk; as delampuk_load_sender. */
uint8_t delampuk_load_walk(struct delampuk_walk *state, const uint8_t *saved, size_t saved_length);

/* Writes the listing of a recording into text, octet for octet what the program `listing` writes. It is a line of ASCII for each place
 * found, each block and the octets left, each with a newline, and no zero at the end. The answer is the length, 16,384 at most; where
 * text is too short, text_length + 1, and then text holds what fits. Nothing is refused: the listing itself tells a refused search. */
size_t delampuk_list(const uint8_t *recording, size_t recording_length, uint8_t *text, size_t text_length);

/* ---- Codes and modes ----------------------------------------------------------------------------------------------------------- */

/* How much of a block's buffers counts. */
struct delampuk_counts {
    uint16_t voice; /* octets of the voice buffer */
    uint16_t lsd;   /* bits of the data buffer */
};

/* Tells how many octets of voice and how many bits of data a block has under a mode. The rest of a buffer is not looked at in sending
 * and zero after reading. A value that is not listed counts 0. */
struct delampuk_counts delampuk_count(struct delampuk_mode mode);

/* What a code is. */
enum {
    DELAMPUK_CODE_OTHER = 0,   /* none of these */
    DELAMPUK_CODE_NEUTRAL = 1, /* audio and data off */
    DELAMPUK_CODE_AUDIO = 2,   /* an audio command */
    DELAMPUK_CODE_LSD = 3,     /* a data command */
    DELAMPUK_CODE_ESCAPE = 4,  /* makes the next word an item */
    DELAMPUK_CODE_MESSAGE = 5  /* opens a message */
};

/* What a code is. An audio or data command holds the octet bits first_bit to last_bit of every octet of a frame, bit 1 being the first
 * of an octet, and bit 8 of the octets first_sc to last_sc (SC). A range that ends before it begins is empty. */
struct delampuk_code {
    uint8_t kind;      /* DELAMPUK_CODE_OTHER to _MESSAGE */
    uint8_t carried;   /* 1 where a sender carries it as a plain word, else 0 */
    uint8_t first_bit; /* of the octet bits that it holds, the first */
    uint8_t last_bit;  /* the last; for none 1 to 0, and for a data command 8 to 7 */
    uint8_t first_sc;  /* of the octets whose bit 8 it holds, the first */
    uint8_t last_sc;   /* the last; for none 17 to 16 */
};

/* Tells what a code is: every code has an answer. */
struct delampuk_code delampuk_explain(uint8_t code);

/* Every code, as delampuk_explain tells it:
 *
 *            values                    codes                    kind     carried  octet bits  SC octets
 *     (000)  0                         00                       neutral  yes      -           -
 *     (000)  1-10 12-17 22-23 26 30    01-0A 0C-11 16-17 1A 1E  other    no       -           -
 *     (000)  11                        0B                       audio    yes      1           -
 *     (000)  18-19 24                  12-13 18                 audio    yes      1-7         -
 *     (000)  20-21 25                  14-15 19                 audio    yes      1-6         -
 *     (000)  27                        1B                       audio    yes      1-4         -
 *     (000)  28                        1C                       audio    yes      1-3         -
 *     (000)  29                        1D                       audio    yes      1-2         -
 *     (000)  31                        1F                       audio    yes      -           -
 *     (001)  0                         20                       other    yes      -           -
 *     (001)  1-31                      21-3F                    other    no       -           -
 *     (010)  0-31                      40-5F                    other    no       -           -
 *     (011)  0                         60                       data     yes      -           -
 *     (011)  1                         61                       data     yes      -           38-40
 *     (011)  2                         62                       data     yes      -           29-40
 *     (011)  3                         63                       data     yes      -           33-80
 *     (011)  4                         64                       data     yes      -           17-80
 *     (011)  5                         65                       data     yes      7           -
 *     (011)  6                         66                       data     yes      7           25-40
 *     (011)  7                         67                       data     yes      7           17-80
 *     (011)  8                         68                       data     yes      6-7         -
 *     (011)  9                         69                       data     yes      5-7         -
 *     (011)  10                        6A                       data     yes      4-7         -
 *     (011)  11                        6B                       data     yes      3-7         -
 *     (011)  12                        6C                       data     yes      2-7         -
 *     (011)  13                        6D                       data     yes      1-7         -
 *     (011)  14                        6E                       data     yes      1-7         17-80
 *     (011)  15-31                     6F-7F                    other    no       -           -
 *     (100)  0-31                      80-9F                    other    yes      -           -
 *     (101)  0-31                      A0-BF                    other    yes      -           -
 *     (110)  0-31                      C0-DF                    other    yes      -           -
 *     (111)  0-14 21-23                E0-EE F5-F7              escape   no       -           -
 *     (111)  15-20                     EF-F4                    escape   yes      -           -
 *     (111)  24                        F8                       other    yes      -           -
 *     (111)  25-31                     F9-FF                    message  no       -           -
 */

/* ---- Example: one block out, and the same block in --------------------------------------------------------------------------------
 *
 *     uint8_t voice[DELAMPUK_OCTETS_VOICE] = {0}, lsd[DELAMPUK_OCTETS_LSD] = {0}, line[DELAMPUK_OCTETS_LINE];
 *     struct delampuk_sender out;
 *     struct delampuk_reader in;
 *     delampuk_start_sender(&out);
 *     delampuk_start_reader(&in);
 *     struct delampuk_send_answer sent =
 *         delampuk_send(&out, muted, 0x19, 0, 0, 0, voice, sizeof voice, lsd, sizeof lsd, line, sizeof line);
 *     if (sent.kind == DELAMPUK_SEND_REFUSED)
 *         complain(sent.number);
 *     struct delampuk_read_answer got = delampuk_read(&in, line, sizeof line, voice, sizeof voice, lsd, sizeof lsd);
 *
 * c/lesson.c frames a whole lesson and reads it back, and c/stream.c reads a stream of any length. */

/* ---- The layout that the library was compiled for --------------------------------------------------------------------------------- */
#ifdef __cplusplus
#define DELAMPUK_ASSERT(holds, what) static_assert(holds, what)
#else
#define DELAMPUK_ASSERT(holds, what) _Static_assert(holds, what)
#endif
DELAMPUK_ASSERT(sizeof(size_t) == 8, "size_t");
DELAMPUK_ASSERT(sizeof(struct delampuk_mode) == 2, "mode");
DELAMPUK_ASSERT(offsetof(struct delampuk_mode, audio) == 0, "mode.audio");
DELAMPUK_ASSERT(offsetof(struct delampuk_mode, lsd) == 1, "mode.lsd");
DELAMPUK_ASSERT(sizeof(struct delampuk_sender) == 6, "sender");
DELAMPUK_ASSERT(offsetof(struct delampuk_sender, chosen) == 0, "sender.chosen");
DELAMPUK_ASSERT(offsetof(struct delampuk_sender, mode) == 1, "sender.mode");
DELAMPUK_ASSERT(offsetof(struct delampuk_sender, block) == 3, "sender.block");
DELAMPUK_ASSERT(offsetof(struct delampuk_sender, due) == 4, "sender.due");
DELAMPUK_ASSERT(offsetof(struct delampuk_sender, remainder) == 5, "sender.remainder");
DELAMPUK_ASSERT(sizeof(struct delampuk_send_answer) == 2, "send_answer");
DELAMPUK_ASSERT(offsetof(struct delampuk_send_answer, kind) == 0, "send_answer.kind");
DELAMPUK_ASSERT(offsetof(struct delampuk_send_answer, number) == 1, "send_answer.number");
DELAMPUK_ASSERT(sizeof(struct delampuk_sender_told) == 4, "sender_told");
DELAMPUK_ASSERT(offsetof(struct delampuk_sender_told, mode) == 0, "sender_told.mode");
DELAMPUK_ASSERT(offsetof(struct delampuk_sender_told, chosen) == 2, "sender_told.chosen");
DELAMPUK_ASSERT(offsetof(struct delampuk_sender_told, due) == 3, "sender_told.due");
DELAMPUK_ASSERT(sizeof(struct delampuk_preset_answer) == 2, "preset_answer");
DELAMPUK_ASSERT(offsetof(struct delampuk_preset_answer, offer) == 0, "preset_answer.offer");
DELAMPUK_ASSERT(offsetof(struct delampuk_preset_answer, number) == 1, "preset_answer.number");
DELAMPUK_ASSERT(sizeof(struct delampuk_preset_bits) == 4, "preset_bits");
DELAMPUK_ASSERT(offsetof(struct delampuk_preset_bits, bits) == 0, "preset_bits.bits");
DELAMPUK_ASSERT(offsetof(struct delampuk_preset_bits, number) == 2, "preset_bits.number");
DELAMPUK_ASSERT(offsetof(struct delampuk_preset_bits, reserved) == 3, "preset_bits.reserved");
DELAMPUK_ASSERT(sizeof(struct delampuk_slot) == 2, "slot");
DELAMPUK_ASSERT(offsetof(struct delampuk_slot, kind) == 0, "slot.kind");
DELAMPUK_ASSERT(offsetof(struct delampuk_slot, words) == 1, "slot.words");
DELAMPUK_ASSERT(sizeof(struct delampuk_reader) == 12, "reader");
DELAMPUK_ASSERT(offsetof(struct delampuk_reader, mode) == 0, "reader.mode");
DELAMPUK_ASSERT(offsetof(struct delampuk_reader, kept) == 2, "reader.kept");
DELAMPUK_ASSERT(offsetof(struct delampuk_reader, wrong) == 4, "reader.wrong");
DELAMPUK_ASSERT(offsetof(struct delampuk_reader, block) == 5, "reader.block");
DELAMPUK_ASSERT(offsetof(struct delampuk_reader, firsts) == 6, "reader.firsts");
DELAMPUK_ASSERT(offsetof(struct delampuk_reader, misses) == 7, "reader.misses");
DELAMPUK_ASSERT(offsetof(struct delampuk_reader, slot) == 8, "reader.slot");
DELAMPUK_ASSERT(offsetof(struct delampuk_reader, before) == 10, "reader.before");
DELAMPUK_ASSERT(offsetof(struct delampuk_reader, remainder) == 11, "reader.remainder");
DELAMPUK_ASSERT(sizeof(struct delampuk_block_answer) == 4, "block_answer");
DELAMPUK_ASSERT(offsetof(struct delampuk_block_answer, standing) == 0, "block_answer.standing");
DELAMPUK_ASSERT(offsetof(struct delampuk_block_answer, verdict) == 1, "block_answer.verdict");
DELAMPUK_ASSERT(offsetof(struct delampuk_block_answer, reading) == 2, "block_answer.reading");
DELAMPUK_ASSERT(offsetof(struct delampuk_block_answer, code) == 3, "block_answer.code");
DELAMPUK_ASSERT(sizeof(struct delampuk_read_answer) == 6, "read_answer");
DELAMPUK_ASSERT(offsetof(struct delampuk_read_answer, kind) == 0, "read_answer.kind");
DELAMPUK_ASSERT(offsetof(struct delampuk_read_answer, number) == 1, "read_answer.number");
DELAMPUK_ASSERT(offsetof(struct delampuk_read_answer, block) == 2, "read_answer.block");
DELAMPUK_ASSERT(sizeof(struct delampuk_reader_told) == 5, "reader_told");
DELAMPUK_ASSERT(offsetof(struct delampuk_reader_told, mode) == 0, "reader_told.mode");
DELAMPUK_ASSERT(offsetof(struct delampuk_reader_told, block) == 2, "reader_told.block");
DELAMPUK_ASSERT(offsetof(struct delampuk_reader_told, due) == 3, "reader_told.due");
DELAMPUK_ASSERT(offsetof(struct delampuk_reader_told, words) == 4, "reader_told.words");
DELAMPUK_ASSERT(sizeof(struct delampuk_search_answer) == 16, "search_answer");
DELAMPUK_ASSERT(offsetof(struct delampuk_search_answer, place) == 0, "search_answer.place");
DELAMPUK_ASSERT(offsetof(struct delampuk_search_answer, number) == 8, "search_answer.number");
DELAMPUK_ASSERT(offsetof(struct delampuk_search_answer, reserved) == 9, "search_answer.reserved");
DELAMPUK_ASSERT(sizeof(struct delampuk_walk) == 24, "walk");
DELAMPUK_ASSERT(offsetof(struct delampuk_walk, place) == 0, "walk.place");
DELAMPUK_ASSERT(offsetof(struct delampuk_walk, reader) == 8, "walk.reader");
DELAMPUK_ASSERT(offsetof(struct delampuk_walk, lost) == 20, "walk.lost");
DELAMPUK_ASSERT(offsetof(struct delampuk_walk, reserved) == 21, "walk.reserved");
DELAMPUK_ASSERT(sizeof(struct delampuk_step_answer) == 16, "step_answer");
DELAMPUK_ASSERT(offsetof(struct delampuk_step_answer, value) == 0, "step_answer.value");
DELAMPUK_ASSERT(offsetof(struct delampuk_step_answer, kind) == 8, "step_answer.kind");
DELAMPUK_ASSERT(offsetof(struct delampuk_step_answer, number) == 9, "step_answer.number");
DELAMPUK_ASSERT(offsetof(struct delampuk_step_answer, block) == 10, "step_answer.block");
DELAMPUK_ASSERT(offsetof(struct delampuk_step_answer, reserved) == 14, "step_answer.reserved");
DELAMPUK_ASSERT(sizeof(struct delampuk_counts) == 4, "counts");
DELAMPUK_ASSERT(offsetof(struct delampuk_counts, voice) == 0, "counts.voice");
DELAMPUK_ASSERT(offsetof(struct delampuk_counts, lsd) == 2, "counts.lsd");
DELAMPUK_ASSERT(sizeof(struct delampuk_code) == 6, "code");
DELAMPUK_ASSERT(offsetof(struct delampuk_code, kind) == 0, "code.kind");
DELAMPUK_ASSERT(offsetof(struct delampuk_code, carried) == 1, "code.carried");
DELAMPUK_ASSERT(offsetof(struct delampuk_code, first_bit) == 2, "code.first_bit");
DELAMPUK_ASSERT(offsetof(struct delampuk_code, last_bit) == 3, "code.last_bit");
DELAMPUK_ASSERT(offsetof(struct delampuk_code, first_sc) == 4, "code.first_sc");
DELAMPUK_ASSERT(offsetof(struct delampuk_code, last_sc) == 5, "code.last_sc");
DELAMPUK_ASSERT(sizeof(struct delampuk_library) == 12, "library");
DELAMPUK_ASSERT(offsetof(struct delampuk_library, version) == 0, "library.version");
DELAMPUK_ASSERT(offsetof(struct delampuk_library, sender) == 4, "library.sender");
DELAMPUK_ASSERT(offsetof(struct delampuk_library, reader) == 6, "library.reader");
DELAMPUK_ASSERT(offsetof(struct delampuk_library, walk) == 8, "library.walk");
DELAMPUK_ASSERT(offsetof(struct delampuk_library, reserved) == 10, "library.reserved");
#undef DELAMPUK_ASSERT

#ifdef __cplusplus
}
#endif

#endif
