/*
 * wurzsige.h: the row cache behind a review desk, for programs in C.
 *
 * Everything a desk keeps lies in one struct that the caller lends; the library has no heap, no globals and no threads of its own. A design is opened from
 * the bytes of its script, and every operation is a step of a script: the bytes of one command, or of many, and the place of the next. wurzsige/commands.h
 * writes the bytes of each command, wurzsige/reading.h reads what a desk has, and wurzsige/slices.h says what a part of a larger database still lacks.
 *
 *     static struct wurzsige desk;
 *     struct wurzsige_answer answer;
 *     uint8_t command[WURZSIGE_MOST_COMMAND];
 *     wurzsige_open(&desk, design, length, &answer);          // answer.word is WURZSIGE_DESIGN or WURZSIGE_REFUSED
 *     if (answer.word == WURZSIGE_DESIGN)                     // refer the value 3 of filling 0
 *         wurzsige_step_trusted(&desk, command, wurzsige_refer(command, 0, wurzsige_plain(3)), 0, NULL, 0, NULL, 0, &answer);
 *
 * Desk: the struct is called a desk here, all of it. The four desks that share its places for held values (0 to 3, WURZSIGE_COMMAND_DESK) are parts of it.
 *
 * Plain names can be called with anything: they refuse a desk that no run of these functions leaves (cause 12) and buffers that are too short (cause 7),
 * and a refused call leaves the desk and all lent buffers as they were. The names that end in _trusted skip these tests. They are for a desk that
 * wurzsige_open accepted, or on which wurzsige_step took a step that was not refused, and that only functions of this header have written since, or for a
 * copy of one; with any other desk they may read and write out of bounds.
 *
 * Nobody else may write any of the memory during a call, not even of a plain one: what was tested is read again by the work. Memory that another thread or
 * process may write meanwhile is to be copied first, and the copy lent.
 *
 * Alignment: a struct wurzsige is aligned as C aligns it (8 bytes). Aliasing: the desk, the script, the words, the text, the written bytes and the answer
 * of one call must not overlap. Threads: a desk belongs to one thread at a time; calls on different desks are independent. Stack: docs/BENCHMARKS.md has the
 * figures, and 1 MB is meant to be enough for every call.
 *
 * Null pointers: for the functions on a desk (wurzsige_open to wurzsige_sizes) a null pointer counts as a buffer of no bytes, for the script, the words, the
 * text and the written bytes. The desk and the answer are never null, and nothing is where the rule isn't said: wurzsige_parts_* take no null pointer at all.
 *
 * Version: this header and the library have to be of the same version. wurzsige_open, wurzsige_step, wurzsige_write, wurzsige_sizes, wurzsige_missing and
 * wurzsige_verdicts look first, and refuse with WURZSIGE_CAUSE_OTHER_VERSION, having touched nothing, if they aren't.
 */
#ifndef WURZSIGE_H
#define WURZSIGE_H

#include "wurzsige/commands.h"

#include <stddef.h>
#include <stdint.h>

#ifdef __cplusplus
extern "C" {
#endif

/* Of this header: 65,536 times the first number of the version, 256 times the second, and the third; 512 is 0.2.0. */
#define WURZSIGE_VERSION 512

enum {
    WURZSIGE_TABLES = 8,          /* the most tables of a design, constraints and fillings */
    WURZSIGE_CONSTRAINTS = 16,
    WURZSIGE_FILLINGS = 8,
    WURZSIGE_DESKS = 4,           /* desks that share a cache, and the most values and ranges that each of them holds */
    WURZSIGE_VALUES = 16,
    WURZSIGE_RANGES = 8,
    WURZSIGE_FREE = 255,          /* the row table of a number without a row */
    WURZSIGE_ROWS = 512,          /* numbers of rows */
    WURZSIGE_CELLS = 4096,        /* cells, eight to a row */
    WURZSIGE_DESIGN_WORDS = 115,  /* words of a design */
    WURZSIGE_HELD_WORDS = 358,    /* words of what is held */
    WURZSIGE_CATALOG = 16449,     /* the catalog's two arrays */
    WURZSIGE_KEYS = 4096,
    WURZSIGE_WORKING = 5120,      /* the working memory of a query: two entries for each row at each of five positions */
    WURZSIGE_NUMBERS = 16,        /* numbers that an answer can have */
    WURZSIGE_MOST_SCRIPT = 65536, /* bytes of a script */
    WURZSIGE_MOST_DESIGN = 21697, /* bytes that a written design can have */
    WURZSIGE_MOST_TEXT = 16384,   /* bytes of text that always suffice for a reason */
    WURZSIGE_FETCH_WORDS = 5,     /* words of a fetch */
    WURZSIGE_VERDICT_WORDS = 64   /* words of the verdicts on a design's columns: column c of table t has word 8 t + c */
};

/*
 * All that a desk keeps. Treat it as opaque: only the functions below write it. Its size is sizeof(struct wurzsige), a constant of this header.
 *
 * design: three counts (tables, constraints, fillings), then 8 tables (columns, unique columns), 16 constraints (source table, source column, target table,
 *     target column) and 8 fillings (table, column, low, high); unused places are 0.
 * held: the named desk, the count of held values, 64 values (desk, filling, number, issue), then for each of four desks the count of its ranges and 8 of
 *     them (filling, low, high); unused places are 0. A word that stands for a byte is below 256.
 * cells, issues, tables, marks: the rows; row r has cells and issues 8 r to 8 r + 7. A number without a row has table 255 and all else 0.
 * catalog, keys: the catalog of the rows, which follows from the design and the rows.
 * counts, places: the working memory of a query. What stands there means nothing between two calls; only the _trusted functions write it.
 */
struct wurzsige {
    uint64_t keys[WURZSIGE_KEYS];
    uint64_t counts[WURZSIGE_WORKING];
    uint32_t cells[WURZSIGE_CELLS];
    uint32_t design[WURZSIGE_DESIGN_WORDS];
    uint32_t held[WURZSIGE_HELD_WORDS];
    uint16_t catalog[WURZSIGE_CATALOG];
    uint16_t places[WURZSIGE_WORKING];
    uint8_t issues[WURZSIGE_CELLS];
    uint8_t tables[WURZSIGE_ROWS];
    uint8_t marks[WURZSIGE_ROWS];
};

/* The word of an answer, as the desk's report prints it, and the numbers behind it. */
enum wurzsige_word {
    WURZSIGE_LOADED = 0,        /* rows, later rounds */
    WURZSIGE_HELD = 1,
    WURZSIGE_NO_CANDIDATE = 2,
    WURZSIGE_DROPPED = 3,       /* rows */
    WURZSIGE_GROUND = 4,        /* ground, cached rows with the value */
    WURZSIGE_SENT = 5,
    WURZSIGE_LISTS = 6,         /* lists; their row numbers are in the lent words, one list behind the other */
    WURZSIGE_REFUSED = 7,       /* cause */
    WURZSIGE_EVEN = 8,
    WURZSIGE_UNEVEN = 9,        /* constraint i, constraint j */
    WURZSIGE_TOTAL = 10,        /* total */
    WURZSIGE_KNOT = 11,         /* constraints, rising; answer.count of them */
    WURZSIGE_DESK = 12,         /* desk */
    WURZSIGE_OPEN = 13,
    WURZSIGE_OPENER = 14,       /* filling, number, issue */
    WURZSIGE_NO_OPENER = 15,
    WURZSIGE_ABSENT = 16,
    WURZSIGE_REASON = 17,       /* bytes; the sentence is in the lent text */
    WURZSIGE_CHANGED = 18,      /* rows that came, rows that went */
    WURZSIGE_DESIGN = 19        /* tables, constraints, fillings, rows: a design was opened */
};

/* The cause of a refusal, which stands behind WURZSIGE_REFUSED. */
enum wurzsige_cause {
    WURZSIGE_CAUSE_TOO_FEW_BYTES = 1,    /* for a command, or no END */
    WURZSIGE_CAUSE_UNKNOWN_COMMAND = 2,
    WURZSIGE_CAUSE_OUT_OF_ORDER = 3,
    WURZSIGE_CAUSE_TOO_MANY = 4,         /* script bytes, tables, constraints, fillings or rows */
    WURZSIGE_CAUSE_WRONG_OPERAND = 5,
    WURZSIGE_CAUSE_VALUE_TWICE = 6,      /* in a unique column */
    WURZSIGE_CAUSE_TOO_SHORT = 7,        /* lent memory, or the room for the written design */
    WURZSIGE_CAUSE_NO_PLACE_FREE = 8,    /* for one value or range more */
    WURZSIGE_CAUSE_VALUE_ZERO = 9,
    WURZSIGE_CAUSE_NOT_HELD = 10,        /* what is dropped */
    WURZSIGE_CAUSE_ANSWER_TOO_LONG = 11, /* for the words or the text that are lent */
    WURZSIGE_CAUSE_UNLAWFUL = 12,        /* the lent desk */
    WURZSIGE_CAUSE_TOTAL_TOO_LARGE = 13,
    WURZSIGE_CAUSE_OTHER_VERSION = 255   /* of the library than of this header; its version is the answer's second number. No cause of the desk itself */
};

/* What a call tells. */
struct wurzsige_answer {
    uint64_t numbers[WURZSIGE_NUMBERS]; /* the numbers behind the word, 0 behind the last of them */
    size_t place;                       /* of a refusal: where the faulty command begins; 0 with any other answer */
    size_t next;                        /* the place after the command; after a refusal that stops, the place that was given: 0 for an opening */
    uint8_t word;                       /* one of enum wurzsige_word */
    uint8_t count;                      /* how many numbers there are */
    uint8_t more;                       /* 1 if reading goes on at next, 0 if it stops: after a refused opening, after causes 1, 2, 7 and 12, and after 4
                                           for the script's length */
};

/* How much is to be lent: what wurzsige_sizes tells. */
struct wurzsige_room {
    uint64_t bytes; /* that the written design has */
    uint64_t words; /* that the step's lists have; 0 if it answers none */
    uint64_t text;  /* bytes that the step's reason has; 0 if it gives none */
};

/* ---- the proved functions, which take each part of a desk by itself: a buffer as a pointer and a length, an array of a fixed length as a pointer ---- */

/* The library's version, as WURZSIGE_VERSION has it. */
uint32_t wurzsige_version(void);

uint8_t wurzsige_parts_open(const uint8_t *script, size_t script_length, uint32_t *cells, size_t cells_length, uint8_t *issues, size_t issues_length,
    uint8_t *tables, size_t tables_length, uint16_t *catalog, uint64_t *keys, uint8_t *marks, size_t marks_length, uint32_t *design,
    size_t design_length, uint32_t *held, size_t held_length, uint64_t *numbers, uint8_t *count, size_t *place, size_t *after, uint8_t *more);

uint8_t wurzsige_parts_step(const uint8_t *script, size_t script_length, size_t at, uint32_t *cells, size_t cells_length, uint8_t *issues,
    size_t issues_length, uint8_t *tables, size_t tables_length, uint16_t *catalog, uint64_t *keys, uint8_t *marks, size_t marks_length,
    const uint32_t *design, size_t design_length, uint32_t *held, size_t held_length, uint32_t *words, size_t words_length, uint8_t *text,
    size_t text_length, uint64_t *numbers, uint8_t *count, size_t *place, size_t *after, uint8_t *more);

uint8_t wurzsige_parts_step_trusted(const uint8_t *script, size_t script_length, size_t at, uint32_t *cells, size_t cells_length, uint8_t *issues,
    size_t issues_length, uint8_t *tables, size_t tables_length, uint16_t *catalog, uint64_t *keys, uint8_t *marks, size_t marks_length,
    const uint32_t *design, size_t design_length, uint32_t *held, uint32_t *words, size_t words_length, uint8_t *text, size_t text_length,
    uint64_t *counts, uint16_t *places, uint64_t *numbers, uint8_t *count, size_t *place, size_t *after, uint8_t *more);

void wurzsige_parts_run_trusted(const uint8_t *script, size_t script_length, size_t at, uint32_t *cells, size_t cells_length, uint8_t *issues,
    size_t issues_length, uint8_t *tables, size_t tables_length, uint16_t *catalog, uint64_t *keys, uint8_t *marks, size_t marks_length,
    const uint32_t *design, size_t design_length, uint32_t *held, uint32_t *words, size_t words_length, uint8_t *text, size_t text_length,
    uint64_t *counts, uint16_t *places);

uint8_t wurzsige_parts_write(const uint32_t *cells, size_t cells_length, const uint8_t *issues, size_t issues_length, const uint8_t *tables,
    size_t tables_length, const uint8_t *marks, size_t marks_length, const uint32_t *design, size_t design_length, const uint32_t *held,
    size_t held_length, uint8_t *out, size_t out_length, size_t *written);

uint8_t wurzsige_parts_sizes(const uint8_t *script, size_t script_length, size_t at, const uint32_t *cells, size_t cells_length,
    const uint8_t *issues, size_t issues_length, const uint8_t *tables, size_t tables_length, const uint8_t *marks, size_t marks_length,
    const uint32_t *design, size_t design_length, const uint32_t *held, size_t held_length, uint64_t *sizes);

uint8_t wurzsige_parts_missing(const uint32_t *cells, size_t cells_length, const uint8_t *issues, size_t issues_length, const uint8_t *tables,
    size_t tables_length, const uint8_t *marks, size_t marks_length, const uint32_t *design, size_t design_length, const uint32_t *held,
    size_t held_length, const uint32_t *fetches, size_t fetches_length, size_t count, uint32_t *fetch);

uint8_t wurzsige_parts_missing_trusted(const uint32_t *cells, size_t cells_length, const uint8_t *issues, size_t issues_length, const uint8_t *tables,
    size_t tables_length, const uint16_t *catalog, const uint64_t *keys, const uint8_t *marks, size_t marks_length, const uint32_t *design,
    size_t design_length, const uint32_t *held, const uint32_t *fetches, size_t fetches_length, size_t count, uint32_t *fetch);

uint8_t wurzsige_parts_verdicts(const uint32_t *design, size_t design_length, uint32_t *verdicts);

/* ---- the same on a desk; for the last three in wurzsige/slices.h ---- */

/* What is told if the library is of another version than this header. */
static inline void wurzsige_tell_other_version(size_t at, struct wurzsige_answer *answer) {
    size_t i;
    for (i = 0; i < WURZSIGE_NUMBERS; i++) {
        answer->numbers[i] = 0;
    }
    answer->numbers[0] = WURZSIGE_CAUSE_OTHER_VERSION;
    answer->numbers[1] = wurzsige_version();
    answer->place = 0;
    answer->next = at;
    answer->word = WURZSIGE_REFUSED;
    answer->count = 2;
    answer->more = 0;
}

/*
 * Opens the design that stands at the start of a script: WURZSIGE_DESIGN, or WURZSIGE_REFUSED with a cause of the design, which leaves the desk as it was.
 * What the desk held before is free. answer->next is the place behind END, where the operations begin; after a refusal next and more are 0.
 */
static inline void wurzsige_open(struct wurzsige *desk, const uint8_t *script, size_t length, struct wurzsige_answer *answer) {
    static const uint8_t nothing = 0;
    if (wurzsige_version() != WURZSIGE_VERSION) {
        wurzsige_tell_other_version(0, answer);
        return;
    }
    answer->word = wurzsige_parts_open(script ? script : &nothing, script ? length : 0, desk->cells, WURZSIGE_CELLS, desk->issues, WURZSIGE_CELLS,
        desk->tables, WURZSIGE_ROWS, desk->catalog, desk->keys, desk->marks, WURZSIGE_ROWS, desk->design, WURZSIGE_DESIGN_WORDS, desk->held,
        WURZSIGE_HELD_WORDS, answer->numbers, &answer->count, &answer->place, &answer->next, &answer->more);
}

/*
 * Takes the step at place `at` of a script on whatever desk is lent: causes 7 and 12 first, which cost a look at every row and a load of everything held.
 * A refusal, whatever its cause, leaves everything as it was, the catalog's arrays included, which may hold anything before the call.
 * A desk whose step is not refused can be used with the _trusted functions afterwards.
 */
static inline void wurzsige_step(struct wurzsige *desk, const uint8_t *script, size_t length, size_t at, uint32_t *words, size_t words_length,
    uint8_t *text, size_t text_length, struct wurzsige_answer *answer) {
    static const uint8_t nothing = 0;
    uint32_t no_word = 0;
    uint8_t no_text = 0;
    if (wurzsige_version() != WURZSIGE_VERSION) {
        wurzsige_tell_other_version(at, answer);
        return;
    }
    answer->word = wurzsige_parts_step(script ? script : &nothing, script ? length : 0, at, desk->cells, WURZSIGE_CELLS, desk->issues, WURZSIGE_CELLS,
        desk->tables, WURZSIGE_ROWS, desk->catalog, desk->keys, desk->marks, WURZSIGE_ROWS, desk->design, WURZSIGE_DESIGN_WORDS, desk->held,
        WURZSIGE_HELD_WORDS, words ? words : &no_word, words ? words_length : 0, text ? text : &no_text, text ? text_length : 0, answer->numbers,
        &answer->count, &answer->place, &answer->next, &answer->more);
}

/* The same without the tests for causes 7 and 12, for a desk that only functions of this header have written: the cost of the operation alone. */
static inline void wurzsige_step_trusted(struct wurzsige *desk, const uint8_t *script, size_t length, size_t at, uint32_t *words, size_t words_length,
    uint8_t *text, size_t text_length, struct wurzsige_answer *answer) {
    static const uint8_t nothing = 0;
    uint32_t no_word = 0;
    uint8_t no_text = 0;
    answer->word = wurzsige_parts_step_trusted(script ? script : &nothing, script ? length : 0, at, desk->cells, WURZSIGE_CELLS, desk->issues,
        WURZSIGE_CELLS, desk->tables, WURZSIGE_ROWS, desk->catalog, desk->keys, desk->marks, WURZSIGE_ROWS, desk->design, WURZSIGE_DESIGN_WORDS,
        desk->held, words ? words : &no_word, words ? words_length : 0, text ? text : &no_text, text ? text_length : 0, desk->counts, desk->places,
        answer->numbers, &answer->count, &answer->place, &answer->next, &answer->more);
}

/*
 * Takes all steps from place `at` on, until the script ends or a step stops, and tells no answers: the words are the last query's, the text is the last
 * reason's. For a desk that only functions of this header have written.
 */
static inline void wurzsige_run_trusted(struct wurzsige *desk, const uint8_t *script, size_t length, size_t at, uint32_t *words, size_t words_length,
    uint8_t *text, size_t text_length) {
    static const uint8_t nothing = 0;
    uint32_t no_word = 0;
    uint8_t no_text = 0;
    wurzsige_parts_run_trusted(script ? script : &nothing, script ? length : 0, at, desk->cells, WURZSIGE_CELLS, desk->issues, WURZSIGE_CELLS,
        desk->tables, WURZSIGE_ROWS, desk->catalog, desk->keys, desk->marks, WURZSIGE_ROWS, desk->design, WURZSIGE_DESIGN_WORDS, desk->held,
        words ? words : &no_word, words ? words_length : 0, text ? text : &no_text, text ? text_length : 0, desk->counts, desk->places);
}

/*
 * Writes the design with its rows from out[0] on, as a script that reads as it: 0 and *written bytes, or the cause of a refusal, which leaves out and
 * *written as they were: 7 or 12 for the desk, then 7 if it has more bytes than `room`.
 */
static inline uint8_t wurzsige_write(const struct wurzsige *desk, uint8_t *out, size_t room, size_t *written) {
    uint8_t no_byte = 0;
    if (wurzsige_version() != WURZSIGE_VERSION) {
        return WURZSIGE_CAUSE_OTHER_VERSION;
    }
    return wurzsige_parts_write(desk->cells, WURZSIGE_CELLS, desk->issues, WURZSIGE_CELLS, desk->tables, WURZSIGE_ROWS, desk->marks, WURZSIGE_ROWS,
        desk->design, WURZSIGE_DESIGN_WORDS, desk->held, WURZSIGE_HELD_WORDS, out ? out : &no_byte, out ? room : 0, written);
}

/*
 * Tells how many bytes the written design has, and how many words and bytes of text the step at place `at` would write if they were lent: none for what is
 * no operation, is sent, is refused for another cause than 11, or stands in a script of over 65,536 bytes. It changes nothing. 0, or cause 7 or 12, which
 * leaves *sizes as it was.
 */
static inline uint8_t wurzsige_sizes(const struct wurzsige *desk, const uint8_t *script, size_t length, size_t at, struct wurzsige_room *sizes) {
    static const uint8_t nothing = 0;
    uint64_t told[3] = {0, 0, 0};
    uint8_t cause;
    if (wurzsige_version() != WURZSIGE_VERSION) {
        return WURZSIGE_CAUSE_OTHER_VERSION;
    }
    cause = wurzsige_parts_sizes(script ? script : &nothing, script ? length : 0, at, desk->cells, WURZSIGE_CELLS, desk->issues, WURZSIGE_CELLS,
        desk->tables, WURZSIGE_ROWS, desk->marks, WURZSIGE_ROWS, desk->design, WURZSIGE_DESIGN_WORDS, desk->held, WURZSIGE_HELD_WORDS, told);
    if (cause == 0) {
        sizes->bytes = told[0];
        sizes->words = told[1];
        sizes->text = told[2];
    }
    return cause;
}

#ifdef __cplusplus
}
#endif

#include "wurzsige/reading.h"
#include "wurzsige/slices.h"

#endif
