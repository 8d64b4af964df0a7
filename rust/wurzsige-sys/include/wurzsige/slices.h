/*
 * wurzsige/slices.h: a desk over a slice of a larger database: what must still be fetched, the list of what was, and what a design decides of each column.
 * wurzsige.h includes it. docs/SLICES.md says how a desk is fed with it.
 *
 * A fetch is WURZSIGE_FETCH_WORDS words: 0 for a value or 1 for a span; table; column; then the value's number and issue, or the span's lowest and highest
 * number, which are at issue 0. The fetches that were made stand one behind the other in rising order: values before spans, then by table, column, number and
 * issue; the spans of a column don't overlap. wurzsige_note_fetch keeps them so.
 *
 *     static uint32_t fetches[WURZSIGE_FETCH_WORDS * 1000];
 *     size_t count = 0;
 *     uint32_t fetch[WURZSIGE_FETCH_WORDS];
 *     while (wurzsige_missing(&desk, fetches, count, fetch) == 1) {
 *         put_in_all_rows_of(fetch);                                // from the database, whole
 *         wurzsige_note_fetch(fetches, 1000, &count, fetch);
 *     }
 */
#ifndef WURZSIGE_SLICES_H
#define WURZSIGE_SLICES_H

#include "../wurzsige.h"

/* Parts of a verdict's word, which is 0 where there is no column. */
enum wurzsige_verdict {
    WURZSIGE_VERDICT_FETCHES = 1,     /* a load can be asked for the column's values */
    WURZSIGE_VERDICT_ONCE_LINKED = 2, /* a value is complete once a cached row has it where a constraint to the column starts */
    WURZSIGE_VERDICT_ONCE_UNIQUE = 4, /* a value is complete once a cached row has it in the column, which is unique */
    WURZSIGE_VERDICT_NEVER = 8,       /* every probe is sent */
    WURZSIGE_VERDICT_SEEING = 16      /* every value that a cached row has in the column is complete */
};

/*
 * Tells what must be fetched next for whatever desk is lent, of which `count` fetches were made: 0 for nothing; 1, and the fetch is in fetch[0] to fetch[4];
 * or a cause, 7 or 12 for the desk, 7 for a null list of more than none, 5 for words that are no fetch of this design or don't rise. With 0 and with a cause
 * `fetch` is as it was. It changes nothing else.
 */
static inline uint8_t wurzsige_missing(const struct wurzsige *desk, const uint32_t *fetches, size_t count, uint32_t *fetch) {
    static const uint32_t nothing = 0;
    if (wurzsige_version() != WURZSIGE_VERSION) {
        return WURZSIGE_CAUSE_OTHER_VERSION;
    }
    return wurzsige_parts_missing(desk->cells, WURZSIGE_CELLS, desk->issues, WURZSIGE_CELLS, desk->tables, WURZSIGE_ROWS, desk->marks, WURZSIGE_ROWS,
        desk->design, WURZSIGE_DESIGN_WORDS, desk->held, WURZSIGE_HELD_WORDS, fetches ? fetches : &nothing, fetches ? WURZSIGE_FETCH_WORDS * count : 0,
        count, fetch);
}

/* The same without the tests of the desk, for one that only functions of wurzsige.h have written. */
static inline uint8_t wurzsige_missing_trusted(const struct wurzsige *desk, const uint32_t *fetches, size_t count, uint32_t *fetch) {
    static const uint32_t nothing = 0;
    return wurzsige_parts_missing_trusted(desk->cells, WURZSIGE_CELLS, desk->issues, WURZSIGE_CELLS, desk->tables, WURZSIGE_ROWS, desk->catalog,
        desk->keys, desk->marks, WURZSIGE_ROWS, desk->design, WURZSIGE_DESIGN_WORDS, desk->held, fetches ? fetches : &nothing,
        fetches ? WURZSIGE_FETCH_WORDS * count : 0, count, fetch);
}

/* Whether two fetches are of one kind and column, and the same value, or spans that overlap or touch. */
static inline int wurzsige_fetches_meet(const uint32_t *one, const uint32_t *other) {
    if (one[0] != other[0] || one[1] != other[1] || one[2] != other[2]) {
        return 0;
    }
    if (one[0] == 0) {
        return one[3] == other[3] && one[4] == other[4];
    }
    return one[3] <= (uint64_t)other[4] + 1 && other[3] <= (uint64_t)one[4] + 1;
}

/* Whether a fetch stands before another one in the list. */
static inline int wurzsige_fetch_is_before(const uint32_t *one, const uint32_t *other) {
    size_t word = 0;
    while (word + 1 < WURZSIGE_FETCH_WORDS && one[word] == other[word]) {
        word++;
    }
    return one[word] < other[word];
}

static inline void wurzsige_copy_fetch(uint32_t *to, const uint32_t *from) {
    size_t word;
    for (word = 0; word < WURZSIGE_FETCH_WORDS; word++) {
        to[word] = from[word];
    }
}

/*
 * Notes a fetch in a list of *count fetches, for which there is room for `room`: 1, or 0 if there is no room for it, which leaves the list as it was. A fetch
 * that is there already is noted once. Spans of a column that overlap or touch become one. A value 0 and an empty span ask for no row and aren't noted.
 */
static inline int wurzsige_note_fetch(uint32_t *fetches, size_t room, size_t *count, const uint32_t *fetch) {
    uint32_t noted[WURZSIGE_FETCH_WORDS];
    size_t left = 0;
    size_t i;
    wurzsige_copy_fetch(noted, fetch);
    if (noted[0] == 1 && noted[3] == 0) {
        noted[3] = 1;
    }
    if (noted[3] == 0 || (noted[0] == 1 && noted[3] > noted[4])) {
        return 1;
    }
    for (i = 0; i < *count; i++) {
        const uint32_t *other = fetches + WURZSIGE_FETCH_WORDS * i;
        if (wurzsige_fetches_meet(other, noted)) {
            noted[3] = other[3] < noted[3] ? other[3] : noted[3];
            noted[4] = other[4] > noted[4] ? other[4] : noted[4];
        } else {
            wurzsige_copy_fetch(fetches + WURZSIGE_FETCH_WORDS * left, other);
            left++;
        }
    }
    *count = left;
    if (left == room) {
        return 0;
    }
    for (i = left; i > 0 && wurzsige_fetch_is_before(noted, fetches + WURZSIGE_FETCH_WORDS * (i - 1)); i--) {
        wurzsige_copy_fetch(fetches + WURZSIGE_FETCH_WORDS * i, fetches + WURZSIGE_FETCH_WORDS * (i - 1));
    }
    wurzsige_copy_fetch(fetches + WURZSIGE_FETCH_WORDS * i, noted);
    *count = left + 1;
    return 1;
}

/* Whether a fetch had all rows with a value in a column. */
static inline int wurzsige_fetch_covers(const uint32_t *fetch, struct wurzsige_column column, struct wurzsige_value value) {
    if (fetch[1] != column.table || fetch[2] != column.column) {
        return 0;
    }
    if (fetch[0] == 0) {
        return fetch[3] == value.number && fetch[4] == value.issue;
    }
    return value.issue == 0 && fetch[3] <= value.number && value.number <= fetch[4];
}

/*
 * Tells what the design of a desk decides of each column, in WURZSIGE_VERDICT_WORDS words, whatever its rows are: 0, or cause 12, which leaves them as they
 * were. wurzsige_verdict_at reads them.
 */
static inline uint8_t wurzsige_verdicts(const struct wurzsige *desk, uint32_t *verdicts) {
    if (wurzsige_version() != WURZSIGE_VERSION) {
        return WURZSIGE_CAUSE_OTHER_VERSION;
    }
    return wurzsige_parts_verdicts(desk->design, WURZSIGE_DESIGN_WORDS, verdicts);
}

/* The word of a column: the sum of parts of enum wurzsige_verdict, and 256 times a constraint; 0 if there is no such column. */
static inline uint32_t wurzsige_verdict_at(const uint32_t *verdicts, struct wurzsige_column column) {
    size_t place = WURZSIGE_COLUMNS * (size_t)column.table + column.column;
    return column.table < WURZSIGE_TABLES && column.column < WURZSIGE_COLUMNS ? verdicts[place] : 0;
}

static inline int wurzsige_verdict_has(uint32_t word, enum wurzsige_verdict part) {
    return (word & (uint32_t)part) != 0;
}

/* The lowest constraint by which the column is once linked, where it is. */
static inline uint8_t wurzsige_verdict_link(uint32_t word) {
    return (uint8_t)(word / 256);
}

#endif
