/*
 * A review desk in C: opens a design, carries out operations and prints what they are answered, asks for lists and for the reason for a row, shows what the
 * desk has, writes the design out, and shows that a desk which somebody else has written into is refused and left alone.
 *
 *     review            the design and operations below
 *     review SCRIPT     those of a file, as the notation's assembler writes it
 *
 * examples/c/run compiles, links and runs it.
 */
#include <stdio.h>
#include <stdlib.h>
#include <string.h>
#include <wurzsige.h>

/* What the library keeps and writes. A desk is too large for some stacks, so it is static here. */
static struct wurzsige desk;
static uint32_t words[4096];
static uint8_t text[WURZSIGE_MOST_TEXT];

/* Case A: subjects (number, ward), recordings (number, subject) and events (recording, kind); a subject brings its recordings, a recording its events. */
static size_t write_case_a(uint8_t *script) {
    static const uint8_t unique[] = {1, 1, 0}; /* bit 0: column 0 */
    static const struct {
        uint8_t table;
        struct wurzsige_value cells[2];
    } rows[] = {
        {0, {{7, 0}, {3, 0}}}, {0, {{8, 0}, {3, 0}}}, {0, {{9, 0}, {4, 0}}}, {1, {{20, 0}, {7, 0}}},
        {1, {{21, 0}, {9, 0}}}, {2, {{20, 0}, {5, 0}}}, {2, {{20, 0}, {6, 0}}}, {2, {{21, 0}, {5, 0}}},
    };
    static const struct wurzsige_join joins[] = {{0, 0}, {1, 1}};
    const struct wurzsige_column ward = wurzsige_column_at(0, 1), subject = wurzsige_column_at(1, 1);
    size_t n = 0;
    for (size_t table = 0; table < 3; table++) {
        n += wurzsige_add_table(script + n, 2, unique[table]);
    }
    n += wurzsige_add_constraint(script + n, wurzsige_column_at(0, 0), subject);
    n += wurzsige_add_constraint(script + n, wurzsige_column_at(1, 0), wurzsige_column_at(2, 0));
    n += wurzsige_add_filling(script + n, ward, 1, 99);
    for (size_t row = 0; row < sizeof rows / sizeof *rows; row++) {
        n += wurzsige_add_row(script + n, rows[row].table, rows[row].cells, 2);
    }
    n += wurzsige_end(script + n);
    n += wurzsige_refer(script + n, 0, wurzsige_plain(3));
    n += wurzsige_probe(script + n, subject, wurzsige_plain(8)); /* no recording of subject 8, and that is certain */
    n += wurzsige_probe(script + n, subject, wurzsige_plain(9)); /* nothing is known of subject 9 */
    n += wurzsige_query(script + n, ward, wurzsige_plain(3), joins, 2);
    n += wurzsige_reason(script + n, 5);
    n += wurzsige_drop(script + n, 0, wurzsige_plain(4)); /* ward 4 isn't held */
    n += wurzsige_name_desk(script + n, 2);
    n += wurzsige_hold(script + n, 0, 50, 59);
    return n;
}

static const char *const words_of_answers[] = {
    "loaded", "held", "no candidate", "dropped", "ground", "sent", "answer", "refused", "even", "uneven",
    "total", "knot", "desk", "open", "opener", "none", "absent", "reason", "rows", "design",
};

static void print_answer(const struct wurzsige_answer *answer, const uint8_t *command) {
    printf("%s", words_of_answers[answer->word]);
    for (size_t i = 0; i < answer->count; i++) {
        printf(" %llu", (unsigned long long)answer->numbers[i]);
    }
    if (answer->word == WURZSIGE_REFUSED) {
        printf(" at %zu", answer->place);
    }
    if (answer->word == WURZSIGE_REASON) {
        printf(": %.*s", (int)answer->numbers[0], (const char *)text);
    }
    printf("\n");
    if (answer->word == WURZSIGE_LISTS) {
        size_t positions = (size_t)command[7] + 1; /* a query's eighth byte is its number of joins */
        for (size_t list = 0; list < (size_t)answer->numbers[0]; list++) {
            for (size_t position = 0; position < positions; position++) {
                printf("%s%u", position == 0 ? "  rows " : ", ", (unsigned)words[list * positions + position]);
            }
            printf("\n");
        }
    }
}

/* Takes a step, and lends more words if the lists need them and they are no more than a million. */
static void take_step(const uint8_t *script, size_t length, size_t at, struct wurzsige_answer *answer) {
    struct wurzsige_room sizes;
    wurzsige_step_trusted(&desk, script, length, at, words, 4096, text, sizeof text, answer);
    if (answer->word != WURZSIGE_REFUSED || answer->numbers[0] != WURZSIGE_CAUSE_ANSWER_TOO_LONG) {
        print_answer(answer, script + at);
        return;
    }
    if (wurzsige_sizes(&desk, script, length, at, &sizes) != 0 || sizes.words > 1000000) {
        print_answer(answer, script + at);
        return;
    }
    uint32_t *more = (uint32_t *)malloc((size_t)sizes.words * sizeof *more);
    if (more != NULL) {
        wurzsige_step_trusted(&desk, script, length, at, more, (size_t)sizes.words, text, sizeof text, answer);
        printf("answer %llu in %llu words\n", (unsigned long long)answer->numbers[0], (unsigned long long)sizes.words);
    }
    free(more);
}

/* What the desk has, read off it: the design, the rows, and what is held. */
static void print_desk(void) {
    for (uint8_t i = 0; i < wurzsige_count_tables(&desk); i++) {
        int unique = wurzsige_is_unique(&desk, wurzsige_column_at(i, 0));
        printf("table %u: %zu columns%s\n", (unsigned)i, wurzsige_count_columns(&desk, i), unique ? ", the first unique" : "");
    }
    for (uint8_t i = 0; i < wurzsige_count_constraints(&desk); i++) {
        struct wurzsige_column from = wurzsige_source_of(&desk, i), to = wurzsige_target_of(&desk, i);
        printf("constraint %u: %u.%u -> %u.%u\n", (unsigned)i, (unsigned)from.table, (unsigned)from.column, (unsigned)to.table, (unsigned)to.column);
    }
    for (uint8_t i = 0; i < wurzsige_count_fillings(&desk); i++) {
        struct wurzsige_column of = wurzsige_column_of(&desk, i);
        struct wurzsige_range range = wurzsige_candidates_of(&desk, i);
        printf("filling %u: %u.%u, %lu to %lu\n", (unsigned)i, (unsigned)of.table, (unsigned)of.column, (unsigned long)range.low, (unsigned long)range.high);
    }
    printf("%zu rows, %zu cached:\n", wurzsige_count_rows(&desk), wurzsige_count_cached(&desk));
    for (uint16_t row = 0; row < WURZSIGE_ROWS; row++) {
        if (wurzsige_is_cached(&desk, row)) {
            struct wurzsige_value first = wurzsige_value_at(&desk, row, 0), second = wurzsige_value_at(&desk, row, 1);
            printf("  row %u of table %u: ", (unsigned)row, (unsigned)wurzsige_table_of(&desk, row));
            printf("%lu, %lu\n", (unsigned long)first.number, (unsigned long)second.number);
        }
    }
    for (size_t i = 0; i < wurzsige_count_held(&desk); i++) {
        struct wurzsige_holding holding = wurzsige_held_at(&desk, i);
        printf("desk %u holds %lu of filling %u\n", (unsigned)holding.desk, (unsigned long)holding.value.number, (unsigned)holding.filling);
    }
    for (uint8_t of = 0; of < WURZSIGE_DESKS; of++) {
        for (size_t i = 0; i < wurzsige_count_ranges(&desk, of); i++) {
            struct wurzsige_range range = wurzsige_range_at(&desk, of, i);
            printf("desk %u holds %lu to %lu of filling %u\n", (unsigned)of, (unsigned long)range.low, (unsigned long)range.high, (unsigned)range.filling);
        }
    }
    printf("desk %u is named\n", (unsigned)wurzsige_named_desk(&desk));
}

/* Writes the design out, with as much room as it needs, and reads it again. */
static int write_design(void) {
    static struct wurzsige copy;
    struct wurzsige_answer answer;
    struct wurzsige_room sizes;
    size_t written = 0;
    if (wurzsige_sizes(&desk, NULL, 0, 0, &sizes) != 0) {
        return 1;
    }
    uint8_t *out = (uint8_t *)malloc((size_t)sizes.bytes);
    if (out == NULL) {
        return 1;
    }
    printf("a byte short: cause %u\n", (unsigned)wurzsige_write(&desk, out, (size_t)sizes.bytes - 1, &written));
    printf("with %llu bytes: cause %u", (unsigned long long)sizes.bytes, (unsigned)wurzsige_write(&desk, out, (size_t)sizes.bytes, &written));
    printf(", %zu written\n", written);
    wurzsige_open(&copy, out, written, &answer);
    printf("read again: ");
    print_answer(&answer, out);
    free(out);
    return 0;
}

/* Somebody else writes into the desk: plain names refuse it, and leave it and what is lent as they were. */
static void show_damage(const char *what, uint32_t word) {
    static struct wurzsige before;
    static const uint8_t even[] = {WURZSIGE_COMMAND_EVEN};
    struct wurzsige_answer answer;
    uint32_t kept = desk.design[3];
    size_t written = 77;
    desk.design[3] = word;
    memcpy(&before, &desk, sizeof desk);
    wurzsige_step(&desk, even, sizeof even, 0, words, 4096, text, sizeof text, &answer);
    printf("%s: ", what);
    print_answer(&answer, even);
    printf("  writing it: cause %u", (unsigned)wurzsige_write(&desk, text, sizeof text, &written));
    printf(", the desk is %s\n", memcmp(&before, &desk, sizeof desk) == 0 && written == 77 ? "as it was" : "changed");
    desk.design[3] = kept;
}

static size_t read_script(const char *path, uint8_t *script, size_t room) {
    FILE *file = fopen(path, "rb");
    if (file == NULL) {
        perror(path);
        exit(1);
    }
    size_t length = fread(script, 1, room, file);
    fclose(file);
    return length;
}

int main(int count, char **arguments) {
    static uint8_t lent[WURZSIGE_MOST_SCRIPT + 1]; /* a byte more, so that a longer file is seen */
    const uint8_t *script = lent;
    size_t length = count > 1 ? read_script(arguments[1], lent, sizeof lent) : write_case_a(lent);
    struct wurzsige_answer answer;
    printf("a desk has %zu bytes\n", sizeof desk);
    wurzsige_open(&desk, script, length, &answer);
    print_answer(&answer, script);
    if (answer.word == WURZSIGE_REFUSED) {
        return 1;
    }
    while (answer.more && answer.next < length) {
        take_step(script, length, answer.next, &answer);
    }
    print_desk();
    if (write_design() != 0) {
        return 1;
    }
    show_damage("a table of 200 columns", 200);
    show_damage("a word 256 too high", desk.design[3] + 256);
    uint8_t reason[WURZSIGE_MOST_COMMAND];
    wurzsige_step(&desk, reason, wurzsige_reason(reason, 0), 0, words, 4096, text, sizeof text, &answer);
    printf("mended: ");
    print_answer(&answer, reason);
    return 0;
}
