/* turftangle.h: Turftangle for C and C++. Reads PSID/RSID tunes, Sidplayer MUS songs and Atari SAP
 * songs.
 *
 * Link with target/staticlib/libturftangle.a, which `tools/archive` makes.
 * docs/INTERFACE.md says more, with programs that use each call.
 *
 * Lists. A list is a pointer and then its length in elements. A pointer is never NULL, not even
 * for a list of no elements. A list that is written to may not overlap with any other list of the
 * call. Nothing else is asked of a caller: every file of every length and every number gets an
 * answer.
 *
 * Answers. Each call answers one number of 64 bits. Its upper half is 0 where the call succeeded,
 * and the lower half is then the value; else the upper half is the refusal's number and the lower
 * half its place: for 27 to 33 in a MUS file the file offset of the pair (for 32 and 33 of the
 * voice's first pair), else 0. tt_number, tt_value and tt_place take an answer apart.
 *
 * A refusal leaves every list as it was. Cells that a call does not fill keep what they held. A
 * call that hands out a fixed set of numbers, or a phrase, answers how many there are, also where
 * fewer fit. tt_mus_list, which is asked for a window, answers how many cells are filled.
 *
 * Names. A cell of a list is named by its call: TT_FIELD_.. of tt_sid_fields, TT_ACCEPT_.. of
 * tt_mus_accept, TT_LENGTH_.. of tt_mus_length, TT_VOICES_.. of tt_mus_voices, TT_LINE_.. of
 * tt_mus_line, TT_SAP_.. of tt_sap_fields, TT_BLOCK_.. of tt_sap_block; after them .._GROUP is how
 * many a voice has and .._CELLS how many there are. A value is named by what it is a value of:
 * TT_REFUSED_.., TT_KIND_.., TT_CLOCK_.., TT_MODEL_.., TT_SPEED_.., TT_TYPE_.., TT_TIME_... A later
 * release adds names and moves none.
 */
#ifndef TURFTANGLE_H
#define TURFTANGLE_H

#include <stddef.h>
#include <stdint.h>

#ifdef __cplusplus
extern "C" {
#endif

/* The refusal's number, 0 where there is none. */
static inline uint32_t tt_number(uint64_t answer) { return (uint32_t)(answer >> 32); }

/* The value, where tt_number is 0. */
static inline uint32_t tt_value(uint64_t answer) { return (uint32_t)answer; }

/* The refusal's place, where tt_number is not 0. */
static inline uint32_t tt_place(uint64_t answer) { return (uint32_t)answer; }

/* ---- Refusals ---- */

/* The numbers of the refusals. The comment before each is its phrase, as tt_reason gives it. */
enum {
    /* too short for a PSID or RSID header */
    TT_REFUSED_TOO_SHORT = 1,
    /* it begins neither with PSID nor with RSID */
    TT_REFUSED_MAGIC = 2,
    /* its version is not one that we read (PSID 1 and 2, RSID 2) */
    TT_REFUSED_VERSION = 3,
    /* its data offset is not that of its version */
    TT_REFUSED_DATA_OFFSET = 4,
    /* an RSID whose load, play or speed field is not 0 */
    TT_REFUSED_RSID_RESERVED = 5,
    /* no song, more than 256 songs, or a start song past the last */
    TT_REFUSED_SONGS = 6,
    /* reserved flag bits or the reserved word are set */
    TT_REFUSED_RESERVED_BITS = 7,
    /* it is marked as a MUS song that needs a player: use the MUS file itself */
    TT_REFUSED_MUS_PAYLOAD = 8,
    /* there is no byte to load after the header */
    TT_REFUSED_NO_PAYLOAD = 9,
    /* the payload runs past the end of memory, $FFFF */
    TT_REFUSED_PAST_MEMORY = 10,
    /* an RSID that loads below $07E8 */
    TT_REFUSED_RSID_LOAD = 11,
    /* an RSID whose init address is not allowed */
    TT_REFUSED_RSID_INIT = 12,
    /* the free pages that it states cannot be free */
    TT_REFUSED_FREE_PAGES = 13,
    /* under 8 bytes, too short for a MUS song */
    TT_REFUSED_MUS_SHORT = 21,
    /* too long for a MUS song: over 65,536 bytes, or past the end of memory, $FFFF */
    TT_REFUSED_MUS_PAST_MEMORY = 22,
    /* a voice's length is 0 or odd */
    TT_REFUSED_VOICE_LENGTH = 23,
    /* the voices run past the end of the file: is it cut off? */
    TT_REFUSED_VOICES_PAST_FILE = 24,
    /* its text is not five lines of at most 32 letters and an end mark */
    TT_REFUSED_TEXT_LINES = 25,
    /* bytes follow the end of the text */
    TT_REFUSED_BYTES_AFTER_TEXT = 26,
    /* no command has these two bytes */
    TT_REFUSED_UNASSIGNED_PAIR = 27,
    /* a command's value is out of its range */
    TT_REFUSED_VALUE_RANGE = 28,
    /* HLT must be the last pair of a voice and stand nowhere else */
    TT_REFUSED_HLT_MISPLACED = 29,
    /* repeats (HED, TAL) or phrases (DEF, END, CAL) do not fit together */
    TT_REFUSED_STRUCTURE = 30,
    /* a repeat of 0 passes (HED 0) */
    TT_REFUSED_HED_ZERO = 31,
    /* repeats and calls are nested more than 16 deep */
    TT_REFUSED_TOO_DEEP = 32,
    /* the voice is too long when played: over 1,048,576 pairs */
    TT_REFUSED_TOO_LONG = 33,
    /* the memory to load into has not 65,536 bytes */
    TT_REFUSED_MEMORY_SIZE = 40,
    /* the voice is not 1, 2 or 3 */
    TT_REFUSED_VOICE_NUMBER = 41,
    /* the two lists have unequal lengths */
    TT_REFUSED_LIST_LENGTHS = 42,
    /* no pair of bytes has this meaning */
    TT_REFUSED_NO_PAIR = 43,
    /* the file has no song of this number */
    TT_REFUSED_NO_SUCH_SONG = 44,
    /* its first line is not SAP */
    TT_REFUSED_SAP_FIRST_LINE = 51,
    /* a line of its header is bad or stands twice, or no FF FF follows it */
    TT_REFUSED_SAP_LINE = 52,
    /* its tags do not fit its type or its number of songs */
    TT_REFUSED_SAP_TAGS = 53,
    /* a block is bad, cut off or missing */
    TT_REFUSED_SAP_BLOCK = 54
};

/* No phrase has more bytes than this. */
enum { TT_PHRASE_MOST = 80 };

/* The phrase of a refusal's number, in words for a person: printable ASCII, with no line feed. No
 * NUL stands in it or is put after it.
 * Value: its whole length in bytes, 0 for a number that has none. Refusals: none.
 * out: as much of the phrase as fits. */
uint64_t tt_reason(uint32_t number, uint8_t *out, size_t out_n);

/* ---- Any file ---- */

/* The values of tt_kind. A later release may add kinds. */
enum {
    TT_KIND_NEITHER = 0,
    TT_KIND_PSID = 1,
    TT_KIND_RSID = 2,
    TT_KIND_MUS = 3,
    TT_KIND_SAP = 4
};

/* What a file is. Value: PSID or RSID where it begins with these letters, accepted or not; SAP where
 * its first five bytes are SAP CR LF, but MUS where it is no accepted SAP file and an accepted MUS
 * song; else neither where one of 21 to 24 applies to it, else MUS. Refusals: none. */
uint64_t tt_kind(const uint8_t *file, size_t file_n);

/* The length of a memory, for tt_sid_load and tt_sap_load. */
enum { TT_MEMORY_SIZE = 65536 };

/* ---- PSID and RSID files ---- */

/* The cells of tt_sid_fields. A part of the file is the offset of its first byte and, in the next
 * cell, its length. A later release adds fields after the last one. */
enum {
    TT_FIELD_RSID = 0,        /* 0 for PSID, 1 for RSID */
    TT_FIELD_VERSION = 1,
    TT_FIELD_LOAD = 2,        /* the effective load address */
    TT_FIELD_INIT = 3,        /* the effective init address */
    TT_FIELD_PLAY = 4,
    TT_FIELD_SONGS = 5,
    TT_FIELD_START = 6,       /* start song; 1 where the file has 0 */
    TT_FIELD_SPEED = 7,       /* the speed field; tt_sid_speed gives a song's bit of it */
    TT_FIELD_BASIC = 8,       /* flag bit 1: BASIC in an RSID, PlaySID-specific in a PSID */
    TT_FIELD_CLOCK = 9,       /* flag bits 2-3: TT_CLOCK_.. */
    TT_FIELD_MODEL = 10,      /* flag bits 4-5: TT_MODEL_.. */
    TT_FIELD_START_PAGE = 11,
    TT_FIELD_PAGE_LENGTH = 12,
    TT_FIELD_TITLE = 13,
    TT_FIELD_TITLE_LENGTH = 14,
    TT_FIELD_AUTHOR = 15,
    TT_FIELD_AUTHOR_LENGTH = 16,
    TT_FIELD_RELEASED = 17,
    TT_FIELD_RELEASED_LENGTH = 18,
    TT_FIELD_PAYLOAD = 19,    /* after the two address bytes, where the data has them */
    TT_FIELD_PAYLOAD_LENGTH = 20,
    TT_FIELD_CELLS = 21
};

/* The values of cell TT_FIELD_CLOCK. */
enum { TT_CLOCK_UNKNOWN = 0, TT_CLOCK_PAL = 1, TT_CLOCK_NTSC = 2, TT_CLOCK_BOTH = 3 };

/* The values of cell TT_FIELD_MODEL. */
enum { TT_MODEL_UNKNOWN = 0, TT_MODEL_MOS6581 = 1, TT_MODEL_MOS8580 = 2, TT_MODEL_BOTH = 3 };

/* The values of tt_sid_speed: the vertical blank interrupt, or the timer of CIA 1. */
enum { TT_SPEED_VERTICAL_BLANK = 0, TT_SPEED_CIA = 1 };

/* Reads a PSID or RSID file. Value: 0. Refusals: 1 to 13. */
uint64_t tt_sid_read(const uint8_t *file, size_t file_n);

/* Reads the file's fields. Value: how many there are, TT_FIELD_CELLS. Refusals: 1 to 13.
 * out: as many of the fields as fit, from cell 0 on. */
uint64_t tt_sid_fields(const uint8_t *file, size_t file_n, uint32_t *out, size_t out_n);

/* Loads the file into memory. Value: 0. Refusals: 40 where memory_n is not TT_MEMORY_SIZE, then 1
 * to 13.
 * memory: the payload, from the effective load address on; every other cell keeps what it held. */
uint64_t tt_sid_load(const uint8_t *file, size_t file_n, uint8_t *memory, size_t memory_n);

/* The speed of a song; songs run from 1. Value: the song's bit of the speed field, TT_SPEED_..;
 * above song 32 that of song 32. Refusals: 1 to 13, then 44. */
uint64_t tt_sid_speed(const uint8_t *file, size_t file_n, uint32_t song);

/* ---- MUS files ---- */

/* The cells of tt_mus_accept: TT_ACCEPT_GROUP of them for voice 1, then for 2, then for 3. So the
 * events of voice v stand in cell TT_ACCEPT_GROUP * (v - 1) + TT_ACCEPT_EVENTS. */
enum {
    TT_ACCEPT_OFFSET = 0,     /* the file offset of the voice's first pair */
    TT_ACCEPT_PAIRS = 1,      /* its stored pairs */
    TT_ACCEPT_EVENTS = 2,     /* its events when played */
    TT_ACCEPT_WALKED = 3,     /* its pairs walked when played */
    TT_ACCEPT_GROUP = 4,
    TT_ACCEPT_CELLS = 12
};

/* The cell of tt_mus_length. It has 64 bits. */
enum {
    TT_LENGTH_TIME = 0,       /* the exact time of the voice's HLT, in 384ths of a jiffy */
    TT_LENGTH_CELLS = 1
};

/* The cells of tt_mus_voices, by voice in the same way, TT_VOICES_GROUP for each. */
enum {
    TT_VOICES_OFFSET = 0,     /* the file offset of the voice's first pair */
    TT_VOICES_PAIRS = 1,      /* its stored pairs */
    TT_VOICES_GROUP = 2,
    TT_VOICES_CELLS = 6
};

/* The cells of tt_mus_line. */
enum {
    TT_LINE_OFFSET = 0,       /* the file offset of the line's first byte */
    TT_LINE_LENGTH = 1,       /* without the $0D that closes it */
    TT_LINE_CELLS = 2
};

/* Accepts or refuses a MUS file. Value: TT_ACCEPT_CELLS. Refusals: 21 to 33.
 * out: as many of the voices' numbers as fit. */
uint64_t tt_mus_accept(const uint8_t *file, size_t file_n, uint32_t *out, size_t out_n);

/* Lists the events of a voice (1 to 3) in played order, from event number `first` on; events are
 * numbered from 0. Value: how many cells of each list are filled, 0 past the voice's end.
 * Refusals: 41, 42 where the lists' lengths differ, then 21 to 33.
 * offsets, jiffies: cell i is the file offset and the jiffy of event first + i. */
uint64_t tt_mus_list(const uint8_t *file, size_t file_n, uint32_t voice, uint64_t first,
                     uint32_t *offsets, size_t offsets_n, uint32_t *jiffies, size_t jiffies_n);

/* How long a voice (1 to 3) is when it is played: the exact time of its last event, HLT, in 384ths
 * of a jiffy. Divided by 384 and rounded down it is the jiffy that tt_mus_list has for HLT. Value:
 * TT_LENGTH_CELLS. Refusals: 41, then 21 to 33.
 * out: the time, where there is a cell for it. */
uint64_t tt_mus_length(const uint8_t *file, size_t file_n, uint32_t voice, uint64_t *out,
                       size_t out_n);

/* The load address. Value: the address. Refusals: 21 to 33. */
uint64_t tt_mus_load(const uint8_t *file, size_t file_n);

/* Where a text line lies; lines run from 1 to 5. Value: TT_LINE_CELLS, or 0 for a line of any
 * other number. Refusals: 21 to 33.
 * out: as many of the two numbers as fit; nothing for a line of another number. */
uint64_t tt_mus_line(const uint8_t *file, size_t file_n, uint32_t line, uint32_t *out,
                     size_t out_n);

/* Where the three voices lie, also in a file that 25 to 33 refuse: so the place of 27 to 33 can be
 * named by voice and pair. Value: TT_VOICES_CELLS. Refusals: 21 to 24.
 * out: as many of the voices' numbers as fit. */
uint64_t tt_mus_voices(const uint8_t *file, size_t file_n, uint32_t *out, size_t out_n);

/* ---- Pairs of a MUS voice ---- */

/* Reads a pair of a MUS voice. Value: the code of what it means, a number of 32 bits to be read as
 * eight hex digits (docs/INTERFACE.md). Refusals: 27, 28. */
uint64_t tt_pair_read(uint8_t first, uint8_t second);

/* Writes a meaning, given by its code. Value: first byte x 256 + second byte of the pair that the
 * writer uses for it. Refusals: 43, for every number that is not the code of some pair's
 * meaning. */
uint64_t tt_pair_write(uint32_t code);

/* The half-step of a note, given by its code; absolute pitch is a note too. Value: the half-step + 1,
 * 0 to 97, since a half-step is -1 to 96. Refusals: 43, for every code that tt_pair_write refuses,
 * and for a command or a rest. */
uint64_t tt_half_step(uint32_t code);

/* ---- SAP files ---- */

/* The cells of tt_sap_fields. A text is the offset of its first byte and, in the next cell, its
 * length, both without the quotes; offset 0 where the file has no such text. A later release adds
 * fields after the last one. */
enum {
    TT_SAP_TYPE = 0,          /* TT_TYPE_.. */
    TT_SAP_SONGS = 1,         /* 1 to 32 */
    TT_SAP_DEFAULT_SONG = 2,  /* counted from 0 */
    TT_SAP_STEREO = 3,        /* 0 or 1, as the next two */
    TT_SAP_NTSC = 4,
    TT_SAP_COVOX = 5,
    TT_SAP_FASTPLAY = 6,      /* in scanlines: as stated, else 78 for type S, 262 with NTSC, 312 */
    TT_SAP_FASTPLAY_STATED = 7,
    TT_SAP_INIT = 8,          /* 0 where the type has none, as the next two */
    TT_SAP_MUSIC = 9,
    TT_SAP_PLAYER = 10,
    TT_SAP_PLAYER_THERE = 11, /* 0 or 1: whether there is a player */
    TT_SAP_AUTHOR = 12,
    TT_SAP_AUTHOR_LENGTH = 13,
    TT_SAP_NAME = 14,
    TT_SAP_NAME_LENGTH = 15,
    TT_SAP_DATE = 16,
    TT_SAP_DATE_LENGTH = 17,
    TT_SAP_TIMES = 18,        /* how many times are stated */
    TT_SAP_BLOCKS = 19,       /* how many blocks there are; 4,294,967,295 where they are more */
    TT_SAP_DATA = 20,         /* the file offset of the first FF FF */
    TT_SAP_CELLS = 21
};

/* The values of cell TT_SAP_TYPE: the type's letter in ASCII. */
enum { TT_TYPE_B = 66, TT_TYPE_C = 67, TT_TYPE_D = 68, TT_TYPE_S = 83 };

/* The cells of tt_sap_block. */
enum {
    TT_BLOCK_START = 0,       /* the address of its first byte */
    TT_BLOCK_END = 1,         /* the address of its last byte */
    TT_BLOCK_OFFSET = 2,      /* the file offset of its first byte; 4,294,967,295 where it is past that */
    TT_BLOCK_CELLS = 3
};

/* A value of tt_sap_time: the file does not state the song's time. */
#define TT_TIME_UNSTATED 4294967295u

/* Reads a SAP file of type B, C, D or S. Value: 0. Refusals: 51 to 54. */
uint64_t tt_sap_read(const uint8_t *file, size_t file_n);

/* Reads the file's fields. Value: how many there are, TT_SAP_CELLS. Refusals: 51 to 54.
 * out: as many of the fields as fit, from cell 0 on. */
uint64_t tt_sap_fields(const uint8_t *file, size_t file_n, uint32_t *out, size_t out_n);

/* Loads the file into memory. Value: 0. Refusals: 40 where memory_n is not TT_MEMORY_SIZE, then 51
 * to 54.
 * memory: the blocks one after the other, a later byte in place of an earlier one; every other cell
 * keeps what it held. */
uint64_t tt_sap_load(const uint8_t *file, size_t file_n, uint8_t *memory, size_t memory_n);

/* The time of a song; songs run from 0. Value: 2 x milliseconds, plus 1 where the song loops from
 * there on; TT_TIME_UNSTATED where the file does not state it. Refusals: 51 to 54, then 44. */
uint64_t tt_sap_time(const uint8_t *file, size_t file_n, uint32_t song);

/* Where a block lies and what it is loaded to; blocks run from 0. Value: TT_BLOCK_CELLS, or 0 where
 * there is no such block. Refusals: 51 to 54.
 * out: as many of the three numbers as fit; nothing where there is no such block. */
uint64_t tt_sap_block(const uint8_t *file, size_t file_n, uint32_t n, uint32_t *out, size_t out_n);

#ifdef __cplusplus
}
#endif

#endif
