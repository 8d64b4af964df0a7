/*
 * wurzsige/commands.h: what designs and operations are about, and the bytes of each command. wurzsige.h includes it.
 *
 * Each function from wurzsige_add_table on writes a command from buffer[0] on and gives the number of its bytes, WURZSIGE_MOST_COMMAND at most. None looks at
 * the operands: whether they name something is for the desk to say. A value with an issue goes across by the command that has a place for it. A buffer is never
 * null; values and joins may be where their count is 0.
 *
 *     uint8_t command[WURZSIGE_MOST_COMMAND];
 *     size_t length = wurzsige_refer(command, 0, wurzsige_plain(3));   // the value 3 of filling 0: 10 00 03 00 00 00
 */
#ifndef WURZSIGE_COMMANDS_H
#define WURZSIGE_COMMANDS_H

#include <stddef.h>
#include <stdint.h>

enum {
    WURZSIGE_COLUMNS = 8,      /* cells of a row, and the most columns of a table */
    WURZSIGE_JOINS = 4,        /* the most joins of a query */
    WURZSIGE_MOST_COMMAND = 44 /* bytes of the longest command */
};

/* The byte that begins a command. */
enum wurzsige_command {
    WURZSIGE_COMMAND_TABLE = 0x01,
    WURZSIGE_COMMAND_CONSTRAINT = 0x02,
    WURZSIGE_COMMAND_FILLING = 0x03,
    WURZSIGE_COMMAND_ROW = 0x04,
    WURZSIGE_COMMAND_END = 0x05,
    WURZSIGE_COMMAND_ROW_ISSUED = 0x07, /* with eight issues behind the cells */
    WURZSIGE_COMMAND_REFER = 0x10,
    WURZSIGE_COMMAND_DROP = 0x11,
    WURZSIGE_COMMAND_PROBE = 0x12,
    WURZSIGE_COMMAND_QUERY = 0x13,
    WURZSIGE_COMMAND_EVEN = 0x14,
    WURZSIGE_COMMAND_TOTAL = 0x15,
    WURZSIGE_COMMAND_DESK = 0x17,
    WURZSIGE_COMMAND_REASON = 0x18,
    WURZSIGE_COMMAND_OPENER = 0x19,
    WURZSIGE_COMMAND_HOLD = 0x1a,
    WURZSIGE_COMMAND_RELEASE = 0x1b,
    WURZSIGE_COMMAND_KNOT = 0x1c,
    WURZSIGE_COMMAND_PUT = 0x1d,
    WURZSIGE_COMMAND_REMOVE = 0x1e,
    WURZSIGE_COMMAND_REFER_ISSUED = 0x20, /* these with the issue of the value behind the operands */
    WURZSIGE_COMMAND_DROP_ISSUED = 0x21,
    WURZSIGE_COMMAND_PROBE_ISSUED = 0x22,
    WURZSIGE_COMMAND_QUERY_ISSUED = 0x23,
    WURZSIGE_COMMAND_TOTAL_ISSUED = 0x25
};

/* A cell, or what is looked for in cells: a number and its issue. Blank is number 0 with issue 0. */
struct wurzsige_value {
    uint32_t number;
    uint8_t issue;
};

/* A column of a table, both by number from 0. */
struct wurzsige_column {
    uint8_t table;
    uint8_t column;
};

/* One more position of a query: what a constraint demands of the row at an earlier position. */
struct wurzsige_join {
    uint8_t position;
    uint8_t constraint;
};

/* A range of a filling's numbers, both ends counted. */
struct wurzsige_range {
    uint8_t filling;
    uint32_t low;
    uint32_t high;
};

/* A value that a desk holds. */
struct wurzsige_holding {
    uint8_t desk;
    uint8_t filling;
    struct wurzsige_value value;
};

/* The number at an issue, and at issue 0. */
static inline struct wurzsige_value wurzsige_issued(uint32_t number, uint8_t issue) {
    struct wurzsige_value value;
    value.number = number;
    value.issue = issue;
    return value;
}

static inline struct wurzsige_value wurzsige_plain(uint32_t number) {
    return wurzsige_issued(number, 0);
}

/* A column of a table. */
static inline struct wurzsige_column wurzsige_column_at(uint8_t table, uint8_t column) {
    struct wurzsige_column at;
    at.table = table;
    at.column = column;
    return at;
}

/* ---- parts of commands ---- */

static inline size_t wurzsige_pack(uint8_t *buffer, size_t at, uint32_t number, size_t width) {
    size_t i;
    for (i = 0; i < width; i++) {
        buffer[at + i] = (uint8_t)(number >> (8 * i) & 255);
    }
    return at + width;
}

static inline size_t wurzsige_pack_column(uint8_t *buffer, size_t at, struct wurzsige_column column) {
    return wurzsige_pack(buffer, wurzsige_pack(buffer, at, column.table, 1), column.column, 1);
}

static inline size_t wurzsige_pack_range(uint8_t *buffer, size_t at, uint8_t filling, uint32_t low, uint32_t high) {
    return wurzsige_pack(buffer, wurzsige_pack(buffer, wurzsige_pack(buffer, at, filling, 1), low, 4), high, 4);
}

/* The byte of a command on a value, and its end: an issue byte if there is an issue. */
static inline size_t wurzsige_pack_command(uint8_t *buffer, uint8_t command, struct wurzsige_value value) {
    return wurzsige_pack(buffer, 0, value.issue ? command + 0x10u : command, 1);
}

static inline size_t wurzsige_pack_issue(uint8_t *buffer, size_t at, struct wurzsige_value value) {
    return value.issue ? wurzsige_pack(buffer, at, value.issue, 1) : at;
}

/* Eight cells, of which the first `count` are given and the others blank. */
static inline size_t wurzsige_pack_cells(uint8_t *buffer, size_t at, const struct wurzsige_value *values, size_t count) {
    size_t i;
    for (i = 0; i < WURZSIGE_COLUMNS; i++) {
        at = wurzsige_pack(buffer, at, i < count ? values[i].number : 0, 4);
    }
    return at;
}

static inline size_t wurzsige_pack_issues(uint8_t *buffer, size_t at, const struct wurzsige_value *values, size_t count) {
    size_t i;
    for (i = 0; i < WURZSIGE_COLUMNS; i++) {
        at = wurzsige_pack(buffer, at, i < count ? values[i].issue : 0, 1);
    }
    return at;
}

/* A query's operands. Of more than four joins only the count goes across, for which the query is refused. */
static inline size_t wurzsige_pack_query(uint8_t *buffer, uint8_t command, struct wurzsige_column column, struct wurzsige_value value,
    const struct wurzsige_join *joins, size_t count) {
    size_t at = wurzsige_pack_column(buffer, wurzsige_pack_command(buffer, command, value), column);
    size_t i;
    at = wurzsige_pack(buffer, at, value.number, 4);
    at = wurzsige_pack(buffer, at, count < 255 ? (uint32_t)count : 255, 1);
    for (i = 0; i < WURZSIGE_JOINS; i++) {
        at = wurzsige_pack(buffer, at, i < count ? joins[i].position : 0, 1);
        at = wurzsige_pack(buffer, at, i < count ? joins[i].constraint : 0, 1);
    }
    return at;
}

/* ---- a design: all tables, then constraints, fillings, rows, then the end ---- */

/* A table with so many columns; bit i of `unique` is for column i. */
static inline size_t wurzsige_add_table(uint8_t *buffer, uint8_t columns, uint8_t unique) {
    return wurzsige_pack(buffer, wurzsige_pack(buffer, wurzsige_pack(buffer, 0, WURZSIGE_COMMAND_TABLE, 1), columns, 1), unique, 1);
}

static inline size_t wurzsige_add_constraint(uint8_t *buffer, struct wurzsige_column source, struct wurzsige_column target) {
    return wurzsige_pack_column(buffer, wurzsige_pack_column(buffer, wurzsige_pack(buffer, 0, WURZSIGE_COMMAND_CONSTRAINT, 1), source), target);
}

static inline size_t wurzsige_add_filling(uint8_t *buffer, struct wurzsige_column column, uint32_t low, uint32_t high) {
    size_t at = wurzsige_pack_column(buffer, wurzsige_pack(buffer, 0, WURZSIGE_COMMAND_FILLING, 1), column);
    return wurzsige_pack(buffer, wurzsige_pack(buffer, at, low, 4), high, 4);
}

/* A row whose cells past the given ones are blank. 0, and nothing is written, if over eight are given. */
static inline size_t wurzsige_add_row(uint8_t *buffer, uint8_t table, const struct wurzsige_value *values, size_t count) {
    uint8_t command = WURZSIGE_COMMAND_ROW;
    size_t at;
    size_t i;
    if (count > WURZSIGE_COLUMNS) {
        return 0;
    }
    for (i = 0; i < count; i++) {
        if (values[i].issue) {
            command = WURZSIGE_COMMAND_ROW_ISSUED;
        }
    }
    at = wurzsige_pack(buffer, wurzsige_pack(buffer, 0, command, 1), table, 1);
    at = wurzsige_pack_cells(buffer, at, values, count);
    return command == WURZSIGE_COMMAND_ROW ? at : wurzsige_pack_issues(buffer, at, values, count);
}

static inline size_t wurzsige_end(uint8_t *buffer) {
    return wurzsige_pack(buffer, 0, WURZSIGE_COMMAND_END, 1);
}

/* ---- operations ---- */

static inline size_t wurzsige_refer(uint8_t *buffer, uint8_t filling, struct wurzsige_value value) {
    size_t at = wurzsige_pack(buffer, wurzsige_pack_command(buffer, WURZSIGE_COMMAND_REFER, value), filling, 1);
    return wurzsige_pack_issue(buffer, wurzsige_pack(buffer, at, value.number, 4), value);
}

static inline size_t wurzsige_drop(uint8_t *buffer, uint8_t filling, struct wurzsige_value value) {
    size_t at = wurzsige_pack(buffer, wurzsige_pack_command(buffer, WURZSIGE_COMMAND_DROP, value), filling, 1);
    return wurzsige_pack_issue(buffer, wurzsige_pack(buffer, at, value.number, 4), value);
}

static inline size_t wurzsige_probe(uint8_t *buffer, struct wurzsige_column column, struct wurzsige_value value) {
    size_t at = wurzsige_pack_column(buffer, wurzsige_pack_command(buffer, WURZSIGE_COMMAND_PROBE, value), column);
    return wurzsige_pack_issue(buffer, wurzsige_pack(buffer, at, value.number, 4), value);
}

static inline size_t wurzsige_query(uint8_t *buffer, struct wurzsige_column column, struct wurzsige_value value, const struct wurzsige_join *joins,
    size_t count) {
    return wurzsige_pack_issue(buffer, wurzsige_pack_query(buffer, WURZSIGE_COMMAND_QUERY, column, value, joins, count), value);
}

/* Of the cell in column `cell` of the row at a position. */
static inline size_t wurzsige_total(uint8_t *buffer, struct wurzsige_column column, struct wurzsige_value value, const struct wurzsige_join *joins,
    size_t count, uint8_t position, uint8_t cell) {
    size_t at = wurzsige_pack_query(buffer, WURZSIGE_COMMAND_TOTAL, column, value, joins, count);
    return wurzsige_pack_issue(buffer, wurzsige_pack(buffer, wurzsige_pack(buffer, at, position, 1), cell, 1), value);
}

static inline size_t wurzsige_even(uint8_t *buffer) {
    return wurzsige_pack(buffer, 0, WURZSIGE_COMMAND_EVEN, 1);
}

static inline size_t wurzsige_knot(uint8_t *buffer) {
    return wurzsige_pack(buffer, 0, WURZSIGE_COMMAND_KNOT, 1);
}

static inline size_t wurzsige_name_desk(uint8_t *buffer, uint8_t desk) {
    return wurzsige_pack(buffer, wurzsige_pack(buffer, 0, WURZSIGE_COMMAND_DESK, 1), desk, 1);
}

static inline size_t wurzsige_reason(uint8_t *buffer, uint16_t row) {
    return wurzsige_pack(buffer, wurzsige_pack(buffer, 0, WURZSIGE_COMMAND_REASON, 1), row, 2);
}

static inline size_t wurzsige_opener(uint8_t *buffer, struct wurzsige_column column, struct wurzsige_value value) {
    size_t at = wurzsige_pack_column(buffer, wurzsige_pack(buffer, 0, WURZSIGE_COMMAND_OPENER, 1), column);
    return wurzsige_pack(buffer, wurzsige_pack(buffer, at, value.number, 4), value.issue, 1);
}

static inline size_t wurzsige_hold(uint8_t *buffer, uint8_t filling, uint32_t low, uint32_t high) {
    return wurzsige_pack_range(buffer, wurzsige_pack(buffer, 0, WURZSIGE_COMMAND_HOLD, 1), filling, low, high);
}

static inline size_t wurzsige_release(uint8_t *buffer, uint8_t filling, uint32_t low, uint32_t high) {
    return wurzsige_pack_range(buffer, wurzsige_pack(buffer, 0, WURZSIGE_COMMAND_RELEASE, 1), filling, low, high);
}

/* A row at a number, as wurzsige_add_row has it. */
static inline size_t wurzsige_put_row(uint8_t *buffer, uint16_t row, uint8_t table, const struct wurzsige_value *values, size_t count) {
    size_t at;
    if (count > WURZSIGE_COLUMNS) {
        return 0;
    }
    at = wurzsige_pack(buffer, wurzsige_pack(buffer, wurzsige_pack(buffer, 0, WURZSIGE_COMMAND_PUT, 1), row, 2), table, 1);
    return wurzsige_pack_issues(buffer, wurzsige_pack_cells(buffer, at, values, count), values, count);
}

static inline size_t wurzsige_remove_row(uint8_t *buffer, uint16_t row) {
    return wurzsige_pack(buffer, wurzsige_pack(buffer, 0, WURZSIGE_COMMAND_REMOVE, 1), row, 2);
}

#endif
