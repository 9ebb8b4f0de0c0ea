/* The calls of an open docket as tests make them, the answers as they are read from their lines, and the example's texts. */
#ifndef TEST_CALLS_H
#define TEST_CALLS_H

#include "test.h"

/* the texts of examples/example.txt and a dearer schedule, the lines of their answers, and reports */
#define PROBLEM                                                                                                                  \
    "kind=problem\nperiods=2\nunits=2\ndemand=60,100\nspare=10,10\n"                                                             \
    "unit=100,10,0,20,80,2,2,3,30,30,50,90,1,5,60\nunit=40,14,0,10,50,1,1,-2,50,50,20,60,0,0,0\nend=problem\n"
#define SCHEDULE "kind=schedule\nwriter=7\nrun=60,80\nrun=0,20\nend=schedule\n"
#define TREE "kind=tree\nwriter=3\nsplit=2,2\nshort=2\nprice=10,14\nreserve=0,0\nend=tree\n"
#define PROBLEM_HELD "answer=held\n"
#define SCHEDULE_HELD "answer=held,1980\n"
#define TREE_HELD "answer=held,1980,1,2\n"
#define DEARER "kind=schedule\nwriter=1\nrun=50,80\nrun=10,20\nend=schedule\n"
#define DEARER_HELD "answer=held,2060\n"
#define NONE_HELD "kind=report\ncost=none\ncostwriter=none\nbound=none\nboundwriter=none\ngap=none\nend=report\n"
#define ONLY_DEARER_HELD "kind=report\ncost=2060\ncostwriter=1\nbound=none\nboundwriter=none\ngap=none\nend=report\n"
#define ALL_HELD "kind=report\ncost=1980\ncostwriter=7\nbound=1980\nboundwriter=3\ngap=0\nend=report\n"

/* the outputs of the example's schedule, and of the dearer one */
static const uint16_t example_outputs[] = {60, 80, 0, 20};
static const uint16_t dearer_outputs[] = {50, 80, 10, 20};

/* questions about the example's problem, whose units give 80 and 50 where 70 and 110 are needed, and what they are told */
static const struct told {
    size_t period, most;
    uint8_t fixed[4];
    uint64_t taken[DOCKET_TAKEN];
} example_told[] = {{1, 0, {0, 0, 0, 0}, {0, 1}}, {2, 0, {0, 0, 0, 0}, {0, 2}}, {2, 0, {2, 2, 2, 2}, {0, 2}},
                    {2, 0, {0, 0, 0, 1}, {1, 1}}, {1, 0, {1, 0, 0, 0}, {1, 1}}, {1, 0, {0, 1, 0, 1}, {0, 1}},
                    {2, 0, {0, 1, 0, 1}, {1, 0}}, {2, 1, {0, 0, 0, 0}, {1, 0}}, {2, 2, {0, 0, 0, 0}, {1, 1}},
                    {1, 2, {1, 0, 0, 0}, {1, 1}}, {1, 2, {0, 0, 0, 0}, {0, 1}}, {1, 2, {2, 2, 2, 2}, {0, 1}}};
#define EXAMPLE_TOLD (sizeof example_told / sizeof *example_told)

/* price leaves under the example's problem, and their runs; the last two leave unit 1, whose TD is 2, no run: off in period 1 and
 * on in 2. In the fourth unit 1 is worth 300 - 200 - 240 and 900 - 1120, and unit 2, with its start, 60 + 180 - 100 - 150. */
static const struct priced {
    uint64_t q[2], s[2];
    uint8_t fixed[4];
    size_t answer;
    uint64_t runs[4], shortfalls[2];
    int64_t value;
} example_priced[] = {{{10, 14}, {0, 0}, {0, 0, 0, 0}, DOCKET_RUNS_FOUND, {20, 80, 0, 0}, {40, 20}, 1880},
                      {{10, 14}, {0, 0}, {0, 0, 0, 2}, DOCKET_RUNS_FOUND, {20, 80, 0, 10}, {40, 10}, 1980},
                      {{12, 18}, {0, 0}, {0, 0, 0, 0}, DOCKET_RUNS_FOUND, {80, 80, 0, 50}, {0, 0}, 1820},
                      {{10, 14}, {3, 0}, {0, 0, 0, 0}, DOCKET_RUNS_FOUND, {20, 80, 10, 0}, {30, 20}, 1840},
                      {{10, 14}, {0, 0}, {1, 2, 0, 0}, DOCKET_RUNS_STUCK + 1, {0}, {0}, 0},
                      {{0, 0}, {9, 9}, {1, 2, 2, 1}, DOCKET_RUNS_STUCK + 1, {0}, {0}, 0}};
#define EXAMPLE_PRICED (sizeof example_priced / sizeof *example_priced)

/* The same leaves and one with all off, and what each unit is worth with a status forced: in period 1 off, on, in period 2 off, on.
 * At prices 10 and 14 unit 1 is worth 100 where it is on in period 1 and -220 in 2, and its stop costs 5; unit 2 is worth 80 and
 * 40, and its start costs 60. At 12 and 18 the four are -60, -540, 60 and -160, with the reserve 3 -140, -220, -70 and 40; at no
 * price and the reserve 9 unit 2 is worth -270 in period 1. */
static const struct forced {
    uint64_t q[2], s[2];
    uint8_t fixed[4];
    int64_t values[8];
    uint8_t stuck[8];
} example_forced[] = {{{10, 14}, {0, 0}, {0, 0, 0, 0}, {5, -120, 5, -120, 0, 140, 0, 100}, {0}},
                      {{10, 14}, {0, 0}, {0, 0, 0, 2}, {5, -120, 5, -120, 100, 180, 0, 100}, {0, 0, 0, 0, 0, 0, 1, 0}},
                      {{12, 18}, {0, 0}, {0, 0, 0, 0}, {5, -600, -55, -600, -100, -40, 0, -100}, {0}},
                      {{10, 14}, {3, 0}, {0, 0, 0, 0}, {5, -360, -135, -360, 0, -10, -10, 30}, {0}},
                      {{10, 14}, {0, 0}, {1, 2, 0, 0}, {0, 0, 0, 0, 0, 140, 0, 100}, {1, 1, 1, 1, 0, 0, 0, 0}},
                      {{0, 0}, {9, 9}, {1, 2, 2, 1}, {0, 0, 0, 0, 0, -210, -210, 0}, {1, 1, 1, 1, 1, 0, 0, 1}},
                      {{10, 14}, {0, 0}, {1, 1, 1, 1}, {5, 0, 5, 0, 0, 0, 0, 0}, {0, 1, 0, 1, 0, 1, 0, 1}}};
#define EXAMPLE_FORCED (sizeof example_forced / sizeof *example_forced)

/* The number at the place, which moves behind it; 0 where no digit stands there. */
static inline uint64_t read_number(const char **place) {
    uint64_t number = 0;
    for (; **place >= '0' && **place <= '9'; ++*place) {
        number = number * 10 + (uint64_t)(**place - '0');
    }
    return number;
}

/* Whether the word stands at the place, which then moves behind it. */
static inline int read_word(const char **place, const char *word) {
    size_t length = strlen(word);
    int there = strncmp(*place, word, length) == 0;
    *place += there ? length : 0;
    return there;
}

/* The answer as numbers, read from its line; whether the line is that of an answer. */
static inline int read_answer(const uint8_t *line, size_t length, uint64_t values[DOCKET_VALUES]) {
    char words[DOCKET_LINE_BYTES + 1] = {0};
    const char *place = words;
    memset(values, 0, DOCKET_VALUES * sizeof *values);
    if (length > DOCKET_LINE_BYTES) {
        return 0;
    }
    memcpy(words, line, length);
    int is_answer = read_word(&place, "answer=");
    int refused = read_word(&place, "refused"), held = read_word(&place, "held"), is_passed = read_word(&place, "passed");
    values[DOCKET_ANSWER] = refused ? DOCKET_REFUSED : held ? DOCKET_HELD : DOCKET_PASSED;
    int never = 0, minus = 0;
    size_t count = 0;
    for (; count < 4 && read_word(&place, ","); count++) {
        never = read_word(&place, "never") || never;
        minus = read_word(&place, "-") || minus;
        values[2 + count] = read_number(&place);
    }
    enum docket_figure bound = never ? DOCKET_NEVER : minus ? DOCKET_A_BOUND_BELOW_0 : DOCKET_A_BOUND;
    values[DOCKET_FIGURE] = refused || count == 0 ? DOCKET_NOTHING : count == 1 ? DOCKET_A_COST : bound;
    int due = refused ? count == 4 : count == 0 || count == 1 || count == 3;
    return is_answer && due && refused + held + is_passed == 1 && read_word(&place, "\n") && place == words + length;
}

/* A docket that is lent: both stretches, and how many numbers and rows of each. */
struct docket {
    uint64_t *numbers;
    size_t numbers_length;
    uint16_t *rows;
    size_t rows_length;
};

/* Stretches of the least lengths, each before a page that may not be touched, of a docket that holds nothing. */
static inline struct docket fresh_docket(void) {
    struct docket d = {NULL, docket_numbers(), NULL, docket_rows()};
    d.numbers = room(d.numbers_length * sizeof *d.numbers);
    d.rows = room(d.rows_length * sizeof *d.rows);
    memset(d.numbers, PAINT, d.numbers_length * sizeof *d.numbers);
    memset(d.rows, PAINT, d.rows_length * sizeof *d.rows);
    need(docket_fresh(d.numbers, d.numbers_length, d.rows, d.rows_length) == 0, "docket_fresh");
    return d;
}

/* Whether two dockets of the same lengths are the same bytes. */
static inline int same_docket(const struct docket *d, const struct docket *e) {
    return memcmp(d->numbers, e->numbers, d->numbers_length * sizeof *d->numbers) == 0 &&
           memcmp(d->rows, e->rows, d->rows_length * sizeof *d->rows) == 0;
}

/* Makes the one docket a copy of the other. */
static inline void copy_docket(struct docket *to, const struct docket *from) {
    memcpy(to->numbers, from->numbers, from->numbers_length * sizeof *from->numbers);
    memcpy(to->rows, from->rows, from->rows_length * sizeof *from->rows);
}

/* What docket_lodge returns for the text, with a line and values of the least lengths. */
static inline size_t lodge(struct docket *d, const uint8_t *text, size_t length, uint8_t *line, uint64_t *values) {
    return docket_lodge(d->numbers, d->numbers_length, d->rows, d->rows_length, text, length, line, DOCKET_LINE_BYTES, values,
                        DOCKET_VALUES);
}

/* What the calls write, each before a page that may not be touched. */
struct written {
    uint8_t *line, *buffer;
    uint64_t *values, *taken;
    uint16_t *outputs;
};

static inline struct written room_to_write(void) {
    return (struct written){room(DOCKET_LINE_BYTES), room(DOCKET_REPORT_BYTES), room(DOCKET_VALUES * sizeof(uint64_t)),
                            room(DOCKET_TAKEN * sizeof(uint64_t)), room(DOCKET_OUTPUTS * sizeof(uint16_t))};
}

static inline void paint(const struct written *w) {
    memset(w->line, PAINT, DOCKET_LINE_BYTES);
    memset(w->buffer, PAINT, DOCKET_REPORT_BYTES);
    memset(w->values, PAINT, DOCKET_VALUES * sizeof *w->values);
    memset(w->taken, PAINT, DOCKET_TAKEN * sizeof *w->taken);
    memset(w->outputs, PAINT, DOCKET_OUTPUTS * sizeof *w->outputs);
}

/* Whether nothing is written. */
static inline int is_unwritten(const struct written *w) {
    return painted(w->line, DOCKET_LINE_BYTES) && painted(w->buffer, DOCKET_REPORT_BYTES) &&
           painted(w->values, DOCKET_VALUES * sizeof *w->values) && painted(w->taken, DOCKET_TAKEN * sizeof *w->taken) &&
           painted(w->outputs, DOCKET_OUTPUTS * sizeof *w->outputs);
}

/* What docket_report returns, at the buffer's start. */
static inline size_t report(const struct docket *d, uint8_t *buffer) {
    return docket_report(d->numbers, d->numbers_length, d->rows, d->rows_length, buffer, DOCKET_REPORT_BYTES, 0);
}

/* What docket_outputs returns. */
static inline size_t copy_outputs(const struct docket *d, uint16_t *outputs) {
    return docket_outputs(d->numbers, d->numbers_length, d->rows, d->rows_length, outputs, DOCKET_OUTPUTS);
}

/* What docket_units_taken returns. */
static inline size_t take_units(const struct docket *d, size_t period, size_t most, const uint8_t *fixed, size_t fixed_length,
                                uint64_t *taken) {
    return docket_units_taken(d->numbers, d->numbers_length, d->rows, d->rows_length, period, most, fixed, fixed_length, taken,
                              DOCKET_TAKEN);
}

/* Lodges the text of a string; whether the line of its answer is the one given. */
static inline int lodges(struct docket *d, const char *text, const char *wanted) {
    uint8_t line[DOCKET_LINE_BYTES];
    uint64_t values[DOCKET_VALUES];
    size_t length = lodge(d, (const uint8_t *)text, strlen(text), line, values);
    return length == strlen(wanted) && memcmp(line, wanted, length) == 0;
}

/* Whether the docket's report is the one given. */
static inline int reports(const struct docket *d, const char *wanted) {
    uint8_t buffer[DOCKET_REPORT_BYTES];
    size_t length = report(d, buffer);
    return length <= sizeof buffer && length == strlen(wanted) && memcmp(buffer, wanted, length) == 0;
}

/* Whether the outputs of the docket's schedule are so many, and those given. */
static inline int gives(const struct docket *d, const uint16_t *wanted, size_t wanted_length) {
    uint16_t outputs[DOCKET_OUTPUTS];
    size_t length = copy_outputs(d, outputs);
    return length == wanted_length && memcmp(outputs, wanted, length * sizeof *outputs) == 0;
}

/* Whether the docket returns this to a question about the example's problem, and tells what is told where it tells. */
static inline int answers_told(const struct docket *d, const struct told *told, size_t wanted) {
    uint64_t taken[DOCKET_TAKEN];
    memset(taken, PAINT, sizeof taken);
    return take_units(d, told->period, told->most, told->fixed, sizeof told->fixed, taken) == wanted &&
           (wanted == DOCKET_TAKEN_TOLD ? memcmp(taken, told->taken, sizeof taken) == 0 : painted(taken, sizeof taken));
}

/* Whether it does so to each of them. */
static inline int answers_example(const struct docket *d, size_t wanted) {
    int good = 1;
    for (size_t k = 0; k < EXAMPLE_TOLD; k++) {
        good = answers_told(d, &example_told[k], wanted) && good;
    }
    return good;
}

/* Whether the docket returns this to a price leaf under the example's problem; or, where this is that runs are found, what is due
 * to the leaf. Nothing is written unless runs are found. */
static inline int answers_priced(const struct docket *d, const struct priced *priced, size_t wanted) {
    uint64_t runs[4], shortfalls[2];
    int64_t value;
    memset(runs, PAINT, sizeof runs);
    memset(shortfalls, PAINT, sizeof shortfalls);
    memset(&value, PAINT, sizeof value);
    size_t due = wanted == DOCKET_RUNS_FOUND ? priced->answer : wanted;
    size_t answer = docket_cheapest_runs(d->numbers, d->numbers_length, d->rows, d->rows_length, priced->q, 2, priced->s, 2,
                                         priced->fixed, 4, runs, 4, shortfalls, 2, &value, 1);
    if (due != DOCKET_RUNS_FOUND) {
        return answer == due && painted(runs, sizeof runs) && painted(shortfalls, sizeof shortfalls) &&
               painted(&value, sizeof value);
    }
    return answer == due && memcmp(runs, priced->runs, sizeof runs) == 0 &&
           memcmp(shortfalls, priced->shortfalls, sizeof shortfalls) == 0 && value == priced->value;
}

/* Whether it does so to each of them. */
static inline int prices_example(const struct docket *d, size_t wanted) {
    int good = 1;
    for (size_t k = 0; k < EXAMPLE_PRICED; k++) {
        good = answers_priced(d, &example_priced[k], wanted) && good;
    }
    return good;
}

/* Whether the docket returns this to a question about forced statuses of the example's problem, and writes what is due where it
 * finds it, and else nothing. */
static inline int answers_forced(const struct docket *d, const struct forced *forced, size_t wanted) {
    int64_t values[8];
    uint8_t stuck[8];
    memset(values, PAINT, sizeof values);
    memset(stuck, PAINT, sizeof stuck);
    size_t answer = docket_forced_statuses(d->numbers, d->numbers_length, d->rows, d->rows_length, forced->q, 2, forced->s, 2,
                                           forced->fixed, 4, values, 8, stuck, 8);
    if (wanted != DOCKET_FORCED_FOUND) {
        return answer == wanted && painted(values, sizeof values) && painted(stuck, sizeof stuck);
    }
    return answer == wanted && memcmp(values, forced->values, sizeof values) == 0 &&
           memcmp(stuck, forced->stuck, sizeof stuck) == 0;
}

/* Whether it does so to each of them. */
static inline int forces_example(const struct docket *d, size_t wanted) {
    int good = 1;
    for (size_t k = 0; k < EXAMPLE_FORCED; k++) {
        good = answers_forced(d, &example_forced[k], wanted) && good;
    }
    return good;
}

/* Whether the example's texts, lodged in a docket that holds nothing, are held. */
static inline int lodges_example(struct docket *d) {
    return lodges(d, PROBLEM, PROBLEM_HELD) && lodges(d, SCHEDULE, SCHEDULE_HELD) && lodges(d, TREE, TREE_HELD);
}

/* Whether the docket holds what the example's texts gave it. */
static inline int holds_example(const struct docket *d) {
    return reports(d, ALL_HELD) && gives(d, example_outputs, 4) && answers_example(d, DOCKET_TAKEN_TOLD) &&
           prices_example(d, DOCKET_RUNS_FOUND) && forces_example(d, DOCKET_FORCED_FOUND);
}

/* Whether the texts of the input, lodged in turn in the docket, begun anew, give the answers of its listing, then the report. */
static inline int lists(struct docket *d, const struct input *input) {
    uint8_t line[DOCKET_LINE_BYTES];
    uint64_t values[DOCKET_VALUES];
    const uint8_t *text = input->text.start;
    size_t written = 0, all = input->listing.length;
    int good = docket_fresh(d->numbers, d->numbers_length, d->rows, d->rows_length) == 0;
    for (size_t at = 0, length; good && at < input->text.length; at += length) {
        length = first_text(text + at, input->text.length - at);
        size_t answer = lodge(d, text + at, length, line, values);
        good = answer <= sizeof line && answer <= all - written && memcmp(line, input->listing.start + written, answer) == 0;
        written += good ? answer : 0;
    }
    return good && reports(d, (const char *)input->listing.start + written);
}

#endif
