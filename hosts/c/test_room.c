/* Tests of too little room: every call, lent too little of each slice. The last line is 'N passed, M failed'. */
#include "test_calls.h"

enum slice { NUMBERS, ROWS, LINE, VALUES, BUFFER, OUTPUTS, TAKEN, SLICES };

static const char *const names[SLICES] = {"numbers", "rows", "line", "values", "buffer", "outputs", "taken"};
static const size_t widths[SLICES] = {
    sizeof(uint64_t), sizeof(uint16_t), 1, sizeof(uint64_t), 1, sizeof(uint16_t), sizeof(uint64_t)};

#define LONGEST_BUFFER ((size_t)300)

static size_t asked[SLICES];  /* how many are asked for; of the buffer, the report's length */
static size_t lent[SLICES];   /* how many are lent */
static uint8_t *ends[SLICES]; /* where each ends: a page that may not be touched */
static const char *text;      /* lodged */
static size_t at;             /* the report's place */
static struct docket state;   /* before each call */

static void *slice(enum slice s) { return ends[s] - lent[s] * widths[s]; }

static size_t call_fresh(void) { return docket_fresh(slice(NUMBERS), lent[NUMBERS], slice(ROWS), lent[ROWS]); }

static size_t call_lodge(void) {
    return docket_lodge(slice(NUMBERS), lent[NUMBERS], slice(ROWS), lent[ROWS], (const uint8_t *)text, strlen(text), slice(LINE),
                        lent[LINE], slice(VALUES), lent[VALUES]);
}

static size_t call_report(void) {
    return docket_report(slice(NUMBERS), lent[NUMBERS], slice(ROWS), lent[ROWS], slice(BUFFER), lent[BUFFER], at);
}

static size_t call_outputs(void) {
    return docket_outputs(slice(NUMBERS), lent[NUMBERS], slice(ROWS), lent[ROWS], slice(OUTPUTS), lent[OUTPUTS]);
}

/* Too little room is told before all else, also where the question does not fit. */
static size_t call_units_taken(void) {
    static const uint8_t fixed[4];
    static size_t period;
    period = period % 3 + 1;
    return docket_units_taken(slice(NUMBERS), lent[NUMBERS], slice(ROWS), lent[ROWS], period, 0, fixed, sizeof fixed,
                              slice(TAKEN), lent[TAKEN]);
}

/* The same of runs. Of what is lent besides the state too little is not looked for: it does not fit, as too much does not. */
static size_t call_cheapest_runs(void) {
    static const uint64_t q[2], s[2];
    static const uint8_t fixed[4];
    static uint64_t runs[4], shortfalls[2];
    static int64_t value[1];
    static size_t length;
    length = length % 3 + 1;
    return docket_cheapest_runs(slice(NUMBERS), lent[NUMBERS], slice(ROWS), lent[ROWS], q, 2, s, 2, fixed, length + 1, runs, 4,
                                shortfalls, 2, value, 1);
}

/* The same of forced statuses. */
static size_t call_forced_statuses(void) {
    static const uint64_t q[2], s[2];
    static const uint8_t fixed[4];
    static int64_t values[8];
    static uint8_t stuck[9];
    static size_t length;
    length = length % 3 + 1;
    return docket_forced_statuses(slice(NUMBERS), lent[NUMBERS], slice(ROWS), lent[ROWS], q, 2, s, 2, fixed, 4, values, 8, stuck,
                                  length + 6);
}

/* The calls, and which slices each is lent. */
static const struct call {
    const char *name;
    size_t (*call)(void);
    int takes[SLICES];
} calls[] = {{"docket_fresh", call_fresh, {1, 1, 0, 0, 0, 0, 0}},
             {"docket_lodge", call_lodge, {1, 1, 1, 1, 0, 0, 0}},
             {"docket_report", call_report, {1, 1, 0, 0, 1, 0, 0}},
             {"docket_outputs", call_outputs, {1, 1, 0, 0, 0, 1, 0}},
             {"docket_units_taken", call_units_taken, {1, 1, 0, 0, 0, 0, 1}},
             {"docket_cheapest_runs", call_cheapest_runs, {1, 1, 0, 0, 0, 0, 0}},
             {"docket_forced_statuses", call_forced_statuses, {1, 1, 0, 0, 0, 0, 0}}};

/* What a slice holds before each call: as much of the state as is lent of it; paint in the others. */
static const void *content(enum slice s) {
    const void *contents[SLICES] = {[NUMBERS] = state.numbers, [ROWS] = state.rows};
    return contents[s];
}

/* What the call answers, all slices filled anew; whether they are as they were is left in `same`. */
static size_t ask(size_t (*call)(void), int *same) {
    for (int s = 0; s < SLICES; s++) {
        if (content(s) == NULL) {
            memset(slice(s), PAINT, lent[s] * widths[s]);
        } else {
            memcpy(slice(s), content(s), lent[s] * widths[s]);
        }
    }
    size_t answer = call();
    *same = 1;
    for (int s = 0; s < SLICES; s++) {
        size_t bytes = lent[s] * widths[s];
        *same = *same && (content(s) == NULL ? painted(slice(s), bytes) : memcmp(slice(s), content(s), bytes) == 0);
    }
    return answer;
}

static void lend_all(void) { memcpy(lent, asked, sizeof lent); }

/* Each slice of each call shorter than it must be, by every length. */
static void test_short(const char *held) {
    for (size_t k = 0; k < sizeof calls / sizeof *calls; k++) {
        int same;
        for (int s = 0; s < SLICES; s++) {
            if (!calls[k].takes[s]) {
                continue;
            }
            int good = asked[s] > 0;
            lend_all();
            for (lent[s] = 0; lent[s] < asked[s]; lent[s]++) {
                good = ask(calls[k].call, &same) == DOCKET_TOO_SMALL && same && good;
            }
            count(good, "%s with too few %s, %s", calls[k].name, names[s], held);
        }
        lend_all();
        size_t answer = ask(calls[k].call, &same);
        count(answer < DOCKET_NO_DOCKET, "%s with room enough, %s", calls[k].name, held);
    }
}

/* Two slices of a call too short at once, and a state that is none with a slice too short: nothing is done, and too little room
 * is told; but a buffer's room is looked at only where there is a docket to report. */
static void test_both(const char *held) {
    uint64_t mark = state.numbers[0];
    for (size_t k = 0; k < sizeof calls / sizeof *calls; k++) {
        int same, good = 1;
        for (int s = 0; s < SLICES * SLICES; s++) {
            int one = s / SLICES, other = s % SLICES;
            if (!calls[k].takes[one] || !calls[k].takes[other]) {
                continue;
            }
            lend_all();
            lent[one] = asked[one] - 1;
            lent[other] = asked[other] / 2;
            good = ask(calls[k].call, &same) == DOCKET_TOO_SMALL && same && good;
            state.numbers[0] = 0;
            size_t told = one == BUFFER && other == BUFFER ? DOCKET_NO_DOCKET : DOCKET_TOO_SMALL;
            good = ask(calls[k].call, &same) == told && same && good;
            state.numbers[0] = mark;
        }
        count(good, "%s with too little twice, %s", calls[k].name, held);
    }
}

/* Whether the report is written at the place exactly where enough bytes follow, and nothing else is written. */
static int places_report(size_t place, const char *report) {
    size_t length = strlen(report);
    int same, fits = place <= lent[BUFFER] && lent[BUFFER] - place >= length;
    at = place;
    size_t answer = ask(call_report, &same);
    if (!fits) {
        return answer == DOCKET_TOO_SMALL && same;
    }
    const uint8_t *buffer = slice(BUFFER);
    return answer == length && memcmp(buffer + place, report, length) == 0 && painted(buffer, place) &&
           painted(buffer + place + length, lent[BUFFER] - place - length) &&
           memcmp(slice(NUMBERS), state.numbers, lent[NUMBERS] * widths[NUMBERS]) == 0 &&
           memcmp(slice(ROWS), state.rows, lent[ROWS] * widths[ROWS]) == 0;
}

/* Every place of buffers of every length, places beyond their ends, and the last places that a number can name. */
static void test_places(const char *report, const char *held) {
    int good = 1;
    lend_all();
    for (lent[BUFFER] = 0; lent[BUFFER] <= LONGEST_BUFFER; lent[BUFFER] += 1 + lent[BUFFER] / 100 * 6) {
        for (size_t place = 0; place <= lent[BUFFER] + 10; place++) {
            good = places_report(place, report) && good;
            good = places_report(SIZE_MAX - place, report) && good;
            good = places_report(SIZE_MAX / 2 + 1 - place, report) && good;
        }
    }
    at = 0;
    count(good, "docket_report at every place, %s", held);
}

static void test_state(const char *next, const char *report, const char *held) {
    text = next;
    asked[BUFFER] = strlen(report);
    test_short(held);
    test_both(held);
    test_places(report, held);
}

int main(void) {
    const size_t least[SLICES] = {docket_numbers(), docket_rows(),  DOCKET_LINE_BYTES,
                                  DOCKET_VALUES,    LONGEST_BUFFER, DOCKET_OUTPUTS,
                                  DOCKET_TAKEN};
    for (int s = 0; s < SLICES; s++) {
        asked[s] = least[s];
        ends[s] = (uint8_t *)room(least[s] * widths[s]) + least[s] * widths[s];
    }
    state = fresh_docket();
    test_state(PROBLEM, NONE_HELD, "nothing held");
    count(lodges(&state, PROBLEM, PROBLEM_HELD), "the problem");
    test_state(SCHEDULE, NONE_HELD, "a problem held");
    count(lodges(&state, SCHEDULE, SCHEDULE_HELD) && lodges(&state, TREE, TREE_HELD), "the schedule and the tree");
    test_state("nonsense", ALL_HELD, "all held");
    return finish();
}
