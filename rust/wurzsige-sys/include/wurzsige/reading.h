/*
 * wurzsige/reading.h: what a desk has: its design, its rows, and what is held. wurzsige.h includes it.
 *
 * These functions read a desk, which is never null, and change nothing. A number that names nothing gives 0, blank or WURZSIGE_FREE, as the places that nothing
 * uses have it. Of memory that is no desk they read what stands there, and nothing else.
 *
 *     for (row = 0; row < WURZSIGE_ROWS; row++)
 *         if (wurzsige_is_cached(&desk, row))
 *             show(wurzsige_table_of(&desk, row), wurzsige_value_at(&desk, row, 0));
 */
#ifndef WURZSIGE_READING_H
#define WURZSIGE_READING_H

#include "../wurzsige.h"

static inline uint32_t wurzsige_design_word(const struct wurzsige *desk, size_t place) {
    return place < WURZSIGE_DESIGN_WORDS ? desk->design[place] : 0;
}

static inline uint32_t wurzsige_held_word(const struct wurzsige *desk, size_t place) {
    return place < WURZSIGE_HELD_WORDS ? desk->held[place] : 0;
}

/* The design: its counts, a table's columns, a constraint's ends, a filling's column and candidates. */
static inline size_t wurzsige_count_tables(const struct wurzsige *desk) {
    return desk->design[0];
}

static inline size_t wurzsige_count_constraints(const struct wurzsige *desk) {
    return desk->design[1];
}

static inline size_t wurzsige_count_fillings(const struct wurzsige *desk) {
    return desk->design[2];
}

static inline size_t wurzsige_count_columns(const struct wurzsige *desk, uint8_t table) {
    return table < WURZSIGE_TABLES ? desk->design[3 + 2 * table] : 0;
}

static inline int wurzsige_is_unique(const struct wurzsige *desk, struct wurzsige_column column) {
    return column.table < WURZSIGE_TABLES && column.column < WURZSIGE_COLUMNS && (desk->design[4 + 2 * column.table] >> column.column & 1) == 1;
}

static inline struct wurzsige_column wurzsige_column_in(const struct wurzsige *desk, size_t place) {
    return wurzsige_column_at((uint8_t)wurzsige_design_word(desk, place), (uint8_t)wurzsige_design_word(desk, place + 1));
}

static inline struct wurzsige_column wurzsige_source_of(const struct wurzsige *desk, uint8_t constraint) {
    return constraint < WURZSIGE_CONSTRAINTS ? wurzsige_column_in(desk, 19 + 4 * (size_t)constraint) : wurzsige_column_at(0, 0);
}

static inline struct wurzsige_column wurzsige_target_of(const struct wurzsige *desk, uint8_t constraint) {
    return constraint < WURZSIGE_CONSTRAINTS ? wurzsige_column_in(desk, 21 + 4 * (size_t)constraint) : wurzsige_column_at(0, 0);
}

static inline struct wurzsige_column wurzsige_column_of(const struct wurzsige *desk, uint8_t filling) {
    return wurzsige_column_in(desk, 83 + 4 * (size_t)filling);
}

static inline struct wurzsige_range wurzsige_candidates_of(const struct wurzsige *desk, uint8_t filling) {
    struct wurzsige_range range;
    range.filling = filling;
    range.low = wurzsige_design_word(desk, 85 + 4 * (size_t)filling);
    range.high = wurzsige_design_word(desk, 86 + 4 * (size_t)filling);
    return range;
}

/* The rows: a row's table, or WURZSIGE_FREE, a cell, whether it is cached; how many there are, and how many are cached. */
static inline uint8_t wurzsige_table_of(const struct wurzsige *desk, uint16_t row) {
    return row < WURZSIGE_ROWS ? desk->tables[row] : (uint8_t)WURZSIGE_FREE;
}

static inline struct wurzsige_value wurzsige_value_at(const struct wurzsige *desk, uint16_t row, uint8_t column) {
    size_t place = WURZSIGE_COLUMNS * (size_t)row + column;
    return row < WURZSIGE_ROWS && column < WURZSIGE_COLUMNS ? wurzsige_issued(desk->cells[place], desk->issues[place]) : wurzsige_plain(0);
}

static inline int wurzsige_is_cached(const struct wurzsige *desk, uint16_t row) {
    return row < WURZSIGE_ROWS && desk->marks[row] == 1;
}

static inline size_t wurzsige_count_rows(const struct wurzsige *desk) {
    size_t count = 0;
    uint16_t row;
    for (row = 0; row < WURZSIGE_ROWS; row++) {
        count += wurzsige_table_of(desk, row) != WURZSIGE_FREE;
    }
    return count;
}

static inline size_t wurzsige_count_cached(const struct wurzsige *desk) {
    size_t count = 0;
    uint16_t row;
    for (row = 0; row < WURZSIGE_ROWS; row++) {
        count += wurzsige_is_cached(desk, row) != 0;
    }
    return count;
}

/* What is held: the named desk; the values of all desks in order of reference; the ranges of one desk, rising. */
static inline uint8_t wurzsige_named_desk(const struct wurzsige *desk) {
    return (uint8_t)desk->held[0];
}

static inline size_t wurzsige_count_held(const struct wurzsige *desk) {
    return desk->held[1];
}

static inline struct wurzsige_holding wurzsige_held_at(const struct wurzsige *desk, size_t place) {
    size_t at = place < WURZSIGE_DESKS * WURZSIGE_VALUES ? 2 + 4 * place : (size_t)WURZSIGE_HELD_WORDS;
    struct wurzsige_holding holding;
    holding.desk = (uint8_t)wurzsige_held_word(desk, at);
    holding.filling = (uint8_t)wurzsige_held_word(desk, at + 1);
    holding.value = wurzsige_issued(wurzsige_held_word(desk, at + 2), (uint8_t)wurzsige_held_word(desk, at + 3));
    return holding;
}

static inline size_t wurzsige_count_ranges(const struct wurzsige *desk, uint8_t of) {
    return of < WURZSIGE_DESKS ? desk->held[258 + 25 * of] : 0;
}

static inline struct wurzsige_range wurzsige_range_at(const struct wurzsige *desk, uint8_t of, size_t place) {
    size_t at = of < WURZSIGE_DESKS && place < WURZSIGE_RANGES ? 259 + 25 * (size_t)of + 3 * place : (size_t)WURZSIGE_HELD_WORDS;
    struct wurzsige_range range;
    range.filling = (uint8_t)wurzsige_held_word(desk, at);
    range.low = wurzsige_held_word(desk, at + 1);
    range.high = wurzsige_held_word(desk, at + 2);
    return range;
}

#endif
