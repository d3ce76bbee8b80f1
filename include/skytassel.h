/* Skytassel: reads, writes and reversibly renames RTLIL netlists. The calls of target/staticlib/libskytassel.a, which include/library.sh writes; link it statically.
 * For C99 and C++11 or later. Below the calls stand inline functions of at most four arguments over each, with all memory of a design in one struct.
 *
 * Every call is proved to answer for any bytes and any lengths, and to end. It relies on C for what C alone can promise: no pointer is null, each length is
 * that of its part, and no two parts overlap where one of them is changed. As measured, the fill takes less than 900 KB of stack, the check and the calls on one
 * wire of a file, which have tables of their own, less than 1,250 KB, the others less than 100. Nothing is kept between calls.
 */
#ifndef SKYTASSEL_H
#define SKYTASSEL_H

#include <stddef.h>
#include <stdint.h>
#include <string.h>

#ifdef __cplusplus
extern "C" {
#endif

enum { SKYTASSEL_NAMES = 16384, SKYTASSEL_STRINGS = 8192, SKYTASSEL_BITS = 16384, SKYTASSEL_WIRES = 8 * 512, SKYTASSEL_ROWS = 8 * 6945, SKYTASSEL_TEXT = 32768,
    SKYTASSEL_NAME = 255, SKYTASSEL_PLAIN_FORM = 763, SKYTASSEL_LISTING = 4 * 16384 + 4 * 8192 + 2 * 512 };

/* The number of an answer: none, or why the call is refused. */
enum skytassel_number {
    SKYTASSEL_NONE = 0,
    SKYTASSEL_WRONG_LENGTH = 1,     /* a lent table hasn't its exact length */
    SKYTASSEL_FILE_TOO_LONG = 2,    /* over 32,768 bytes */
    SKYTASSEL_DAMAGED_MEMORY = 3,   /* memory that no text and no accepted renames after it leave */
    SKYTASSEL_BAD_TOKEN = 4,        /* or an ill-formed new name */
    SKYTASSEL_BAD_SHAPE = 5,        /* no permitted shape, a missing line end or end */
    SKYTASSEL_PORT_RENAME = 6,      /* rename of a port wire */
    SKYTASSEL_BAD_NUMBER = 7,       /* number or option rule broken */
    SKYTASSEL_NOT_THERE = 8,        /* no such module or wire */
    SKYTASSEL_NAME_TAKEN = 9,
    SKYTASSEL_BAD_WIDTH = 10,       /* slice or width rule broken, index past the wire */
    SKYTASSEL_SIZE_EXCEEDED = 11,
    SKYTASSEL_TEXT_TOO_LONG = 12,   /* text over 32,768 bytes, or an answer over the room lent */
    SKYTASSEL_NOTHING_TO_UNDO = 13,
    SKYTASSEL_NO_PLAIN_FORM = 14    /* bytes that are no legal name's plain form */
};

/* A number in words. */
static inline const char *skytassel_words(uint32_t number)
{
    switch (number) {
    case SKYTASSEL_NONE: return "not refused";
    case SKYTASSEL_WRONG_LENGTH: return "a lent table hasn't its exact length";
    case SKYTASSEL_FILE_TOO_LONG: return "the file is over 32,768 bytes";
    case SKYTASSEL_DAMAGED_MEMORY: return "the memory holds no design";
    case SKYTASSEL_BAD_TOKEN: return "bad token or ill-formed name";
    case SKYTASSEL_BAD_SHAPE: return "no permitted shape";
    case SKYTASSEL_PORT_RENAME: return "the rename of a port wire";
    case SKYTASSEL_BAD_NUMBER: return "a number or option rule is broken";
    case SKYTASSEL_NOT_THERE: return "module or wire not there";
    case SKYTASSEL_NAME_TAKEN: return "name taken";
    case SKYTASSEL_BAD_WIDTH: return "a slice or width rule is broken";
    case SKYTASSEL_SIZE_EXCEEDED: return "a size is exceeded";
    case SKYTASSEL_TEXT_TOO_LONG: return "the text is too long";
    case SKYTASSEL_NOTHING_TO_UNDO: return "nothing to undo";
    case SKYTASSEL_NO_PLAIN_FORM: return "no name's plain form";
    default: return "a number that no call gives";
    }
}

/* The session card: renames standing, name room used. A refusal's place is 0, but from number 4 on where a file is read: for 4 the first byte of the line's leftmost bad
 * token, else the refused line's first byte that is neither space nor tab, or the file's length. Look-up, index, show, measure, write, listing, plain form and the
 * way back give no place, since it would always be 0; refused, they give 0 beside their number. */
struct skytassel_card { uint32_t renames, room; };
struct skytassel_answer { uint32_t number, place; };
struct skytassel_wire_answer { uint32_t number, wire; };
struct skytassel_index_answer { uint32_t number; int64_t index; };
struct skytassel_length_answer { uint32_t number, length; };
/* Asked of a file alone, which may be refused at a place. */
struct skytassel_width_of_answer { uint32_t number, place, width; };
struct skytassel_index_of_answer { uint32_t number, place; int64_t index; };
/* A part of table 1, the names, or 2, the strings; a refusal has table 0. */
struct skytassel_part_answer { uint32_t number, table; size_t start, length; };

/* The library is compiled for this layout, that of x86-64 Linux: elsewhere nothing that includes this compiles. */
#if defined __cplusplus
#define SKYTASSEL_HOLDS(fact) static_assert(fact, #fact)
#elif defined __STDC_VERSION__ && __STDC_VERSION__ >= 201112L
#define SKYTASSEL_HOLDS(fact) _Static_assert(fact, #fact)
#else
#define SKYTASSEL_HOLDS(fact) extern char skytassel_holds[(fact) ? 1 : -1]
#endif
#define SKYTASSEL_LAYOUT(type, size, field, at) \
    SKYTASSEL_HOLDS(sizeof(struct skytassel_##type) == (size) && offsetof(struct skytassel_##type, field) == (at))
SKYTASSEL_LAYOUT(card, 8, room, 4);
SKYTASSEL_LAYOUT(answer, 8, place, 4);
SKYTASSEL_LAYOUT(wire_answer, 8, wire, 4);
SKYTASSEL_LAYOUT(index_answer, 16, index, 8);
SKYTASSEL_LAYOUT(length_answer, 8, length, 4);
SKYTASSEL_LAYOUT(width_of_answer, 12, place, 4);
SKYTASSEL_LAYOUT(width_of_answer, 12, width, 8);
SKYTASSEL_LAYOUT(index_of_answer, 16, place, 4);
SKYTASSEL_LAYOUT(index_of_answer, 16, index, 8);
SKYTASSEL_LAYOUT(part_answer, 24, table, 4);
SKYTASSEL_LAYOUT(part_answer, 24, start, 8);
SKYTASSEL_LAYOUT(part_answer, 24, length, 16);
#undef SKYTASSEL_LAYOUT
#undef SKYTASSEL_HOLDS

/* The five tables lent, each with its length, for a call that only asks of them; and the card's two counts. */
#define SKYTASSEL_VIEW \
    const uint8_t *names, size_t names_length, const uint8_t *strings, size_t strings_length, const uint32_t *bits, size_t bits_length, \
    const uint32_t *wires, size_t wires_length, const uint32_t *rows, size_t rows_length, uint32_t renames, uint32_t room

/* Reading, in two halves. The check is lent only the file and gives the number and place of the fill, 1 apart. The fill judges the file itself, whatever was
 * checked before and whatever the tables and the card held. On 1, which goes first, nothing is touched; on any other refusal tables and card are zero. */
struct skytassel_answer skytassel_check(const uint8_t *file, size_t file_length);
struct skytassel_answer skytassel_fill(const uint8_t *file, size_t file_length,
    uint8_t *names, size_t names_length, uint8_t *strings, size_t strings_length, uint32_t *bits, size_t bits_length,
    uint32_t *wires, size_t wires_length, uint32_t *rows, size_t rows_length, struct skytassel_card *card);

/* How wide the wire with these bytes as its name in this module is, and the author's index of a bit of it, from the file alone: it is read as far as the line that
 * declares the wire. Refused as the check is up to that line, with 8 where the module ends without the wire or the file has no such module, and last, for the index
 * only, with 10 for a bit past the wire; 8 and 10 have place 0. */
struct skytassel_width_of_answer skytassel_width_of(const uint8_t *file, size_t file_length, uint32_t module, const uint8_t *name, size_t name_length);
struct skytassel_index_of_answer skytassel_index_of(const uint8_t *file, size_t file_length, uint32_t module, const uint8_t *name, size_t name_length, uint32_t bit);

/* Gives a wire a new name, any bytes: 1, 3, 4, 6, 8, 9, 11. Undo takes the youngest rename off: 1, 3, 13. A refusal changes nothing. */
struct skytassel_answer skytassel_rename(uint8_t *names, size_t names_length, const uint8_t *strings, size_t strings_length, const uint32_t *bits, size_t bits_length,
    const uint32_t *wires, size_t wires_length, uint32_t *rows, size_t rows_length, struct skytassel_card *card,
    uint32_t module, uint32_t wire, const uint8_t *name, size_t name_length);
struct skytassel_answer skytassel_undo(uint8_t *names, size_t names_length, const uint8_t *strings, size_t strings_length, const uint32_t *bits, size_t bits_length,
    const uint32_t *wires, size_t wires_length, uint32_t *rows, size_t rows_length, struct skytassel_card *card);

/* The wire that has these bytes as its name now: 1, 3, 8. The author's index of a bit: 1, 3, 8, 10. Where the name to show lies: 1, 3, 8. */
struct skytassel_wire_answer skytassel_look_up(SKYTASSEL_VIEW, uint32_t module, const uint8_t *name, size_t name_length);
struct skytassel_index_answer skytassel_index(SKYTASSEL_VIEW, uint32_t module, uint32_t wire, uint32_t bit);
struct skytassel_part_answer skytassel_show(SKYTASSEL_VIEW, uint32_t module, uint32_t wire);

/* The one written text, at the start of `out`, and its length: 1, 3, 12. A refusal leaves `out` as it was. */
struct skytassel_length_answer skytassel_measure(SKYTASSEL_VIEW);
struct skytassel_length_answer skytassel_write(SKYTASSEL_VIEW, uint8_t *out, size_t out_length);

/* The plain form of a name, at most SKYTASSEL_PLAIN_FORM bytes: 4, 12. The name that has a plain form: 14, 12. The wires of a module in order, one line each, line
 * end 10: the plain form of the name now, a space, the name to show, its bytes below 32 escaped as in a written string: 1, 3, 8, 12; no listing is longer than
 * SKYTASSEL_LISTING. Each stands at the start of `out`, and its length is given; 12 is for the room alone. A refusal leaves `out` as it was. */
struct skytassel_length_answer skytassel_plain_form(const uint8_t *name, size_t name_length, uint8_t *out, size_t out_length);
struct skytassel_length_answer skytassel_name_of(const uint8_t *form, size_t form_length, uint8_t *out, size_t out_length);
struct skytassel_length_answer skytassel_listing(SKYTASSEL_VIEW, uint32_t module, uint8_t *out, size_t out_length);

/* The same calls with few arguments. A file, a name or a plain form is bytes: where they start and how many they are. */
struct skytassel_bytes { const uint8_t *start; size_t length; };

/* A null pointer, as an empty vector of C++ may have, makes no bytes. */
static inline struct skytassel_bytes skytassel_bytes_at(const void *start, size_t length)
{
    struct skytassel_bytes bytes;
    bytes.start = (const uint8_t *)(start ? start : "");
    bytes.length = start ? length : 0;
    return bytes;
}

/* The bytes of a string, without the 0 behind them. Every legal name can be said so. */
static inline struct skytassel_bytes skytassel_bytes_of(const char *string)
{
    return skytassel_bytes_at(string, strlen(string));
}

/* All memory of a design, 328,744 bytes: static or from the heap rather than on the stack. It is filled first. */
struct skytassel_design {
    uint8_t names[SKYTASSEL_NAMES], strings[SKYTASSEL_STRINGS];
    uint32_t bits[SKYTASSEL_BITS], wires[SKYTASSEL_WIRES], rows[SKYTASSEL_ROWS];
    struct skytassel_card card;
};

/* The name to show: a part of the design's memory, as it stands until the next rename, undo or fill. */
struct skytassel_shown { uint32_t number; struct skytassel_bytes name; };

#define SKYTASSEL_TABLES(design) (design)->names, SKYTASSEL_NAMES, (design)->strings, SKYTASSEL_STRINGS, \
    (design)->bits, SKYTASSEL_BITS, (design)->wires, SKYTASSEL_WIRES, (design)->rows, SKYTASSEL_ROWS
#define SKYTASSEL_ASKED(design) SKYTASSEL_TABLES(design), (design)->card.renames, (design)->card.room

static inline struct skytassel_answer skytassel_bytes_check(struct skytassel_bytes file)
{
    return skytassel_check(file.start, file.length);
}

static inline struct skytassel_width_of_answer skytassel_bytes_width_of(struct skytassel_bytes file, uint32_t module, struct skytassel_bytes name)
{
    return skytassel_width_of(file.start, file.length, module, name.start, name.length);
}

static inline struct skytassel_index_of_answer skytassel_bytes_index_of(struct skytassel_bytes file, uint32_t module, struct skytassel_bytes name, uint32_t bit)
{
    return skytassel_index_of(file.start, file.length, module, name.start, name.length, bit);
}

static inline struct skytassel_length_answer skytassel_bytes_plain_form(struct skytassel_bytes name, uint8_t *out, size_t out_length)
{
    return skytassel_plain_form(name.start, name.length, out, out_length);
}

static inline struct skytassel_length_answer skytassel_bytes_name_of(struct skytassel_bytes form, uint8_t *out, size_t out_length)
{
    return skytassel_name_of(form.start, form.length, out, out_length);
}

static inline struct skytassel_answer skytassel_design_fill(struct skytassel_design *design, struct skytassel_bytes file)
{
    return skytassel_fill(file.start, file.length, SKYTASSEL_TABLES(design), &design->card);
}

static inline struct skytassel_answer skytassel_design_rename(struct skytassel_design *design, uint32_t module, uint32_t wire, struct skytassel_bytes name)
{
    return skytassel_rename(SKYTASSEL_TABLES(design), &design->card, module, wire, name.start, name.length);
}

static inline struct skytassel_answer skytassel_design_undo(struct skytassel_design *design)
{
    return skytassel_undo(SKYTASSEL_TABLES(design), &design->card);
}

static inline struct skytassel_wire_answer skytassel_design_look_up(const struct skytassel_design *design, uint32_t module, struct skytassel_bytes name)
{
    return skytassel_look_up(SKYTASSEL_ASKED(design), module, name.start, name.length);
}

static inline struct skytassel_index_answer skytassel_design_index(const struct skytassel_design *design, uint32_t module, uint32_t wire, uint32_t bit)
{
    return skytassel_index(SKYTASSEL_ASKED(design), module, wire, bit);
}

static inline struct skytassel_shown skytassel_design_show(const struct skytassel_design *design, uint32_t module, uint32_t wire)
{
    const struct skytassel_part_answer part = skytassel_show(SKYTASSEL_ASKED(design), module, wire);
    struct skytassel_shown shown;
    shown.number = part.number;
    shown.name = skytassel_bytes_at((part.table == 1 ? design->names : design->strings) + part.start, part.length);
    return shown;
}

static inline struct skytassel_length_answer skytassel_design_measure(const struct skytassel_design *design)
{
    return skytassel_measure(SKYTASSEL_ASKED(design));
}

static inline struct skytassel_length_answer skytassel_design_write(const struct skytassel_design *design, uint8_t *out, size_t out_length)
{
    return skytassel_write(SKYTASSEL_ASKED(design), out, out_length);
}

static inline struct skytassel_length_answer skytassel_design_listing(const struct skytassel_design *design, uint32_t module, uint8_t *out, size_t out_length)
{
    return skytassel_listing(SKYTASSEL_ASKED(design), module, out, out_length);
}

#undef SKYTASSEL_TABLES
#undef SKYTASSEL_ASKED

#ifdef __cplusplus
}
#endif
#endif
