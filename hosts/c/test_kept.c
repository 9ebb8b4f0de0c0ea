/* Tests of the states kept in tests/states: ./test_kept FOLDER. The last line is 'N passed, M failed'. */
#include "test_calls.h"

#include <glob.h>

/* the kept state of the present layout; every other one is no docket */
#define PRESENT "layout-2.state"

/* The docket whose bytes are those of a kept state, as far as there are so many, and zeros after them. */
static struct docket open_state(const struct bytes *state) {
    struct docket d = fresh_docket();
    uint8_t all[16384] = {0};
    size_t numbers = d.numbers_length * sizeof *d.numbers;
    need(numbers + d.rows_length * sizeof *d.rows <= sizeof all, "room for a state");
    memcpy(all, state->start, state->length < sizeof all ? state->length : sizeof all);
    memcpy(d.numbers, all, numbers);
    memcpy(d.rows, all + numbers, d.rows_length * sizeof *d.rows);
    return d;
}

/* Whether every call says that it is no docket, and leaves all as it was. */
static int is_no_docket(struct docket d) {
    struct docket kept = fresh_docket();
    struct written w = room_to_write();
    copy_docket(&kept, &d);
    paint(&w);
    return lodge(&d, (const uint8_t *)SCHEDULE, strlen(SCHEDULE), w.line, w.values) == DOCKET_NO_DOCKET &&
           report(&d, w.buffer) == DOCKET_NO_DOCKET && copy_outputs(&d, w.outputs) == DOCKET_NO_DOCKET &&
           answers_example(&d, DOCKET_NO_DOCKET) && prices_example(&d, DOCKET_NO_DOCKET) &&
           forces_example(&d, DOCKET_NO_DOCKET) && same_docket(&d, &kept) && is_unwritten(&w);
}

/* Whether a state of fewer numbers, lent as it was kept, is told to be too small, and all is left as it was. */
static int is_too_small(const struct bytes *state, const struct docket *present) {
    struct docket d = open_state(state);
    struct written w = room_to_write();
    size_t kept = (state->length - present->rows_length * sizeof *present->rows) / sizeof *d.numbers;
    paint(&w);
    d.numbers_length = kept;
    memcpy(d.rows, state->start + kept * sizeof *d.numbers, d.rows_length * sizeof *d.rows);
    return kept < present->numbers_length && lodge(&d, (const uint8_t *)SCHEDULE, strlen(SCHEDULE), w.line, w.values) == DOCKET_TOO_SMALL &&
           report(&d, w.buffer) == DOCKET_TOO_SMALL && copy_outputs(&d, w.outputs) == DOCKET_TOO_SMALL &&
           answers_example(&d, DOCKET_TOO_SMALL) && prices_example(&d, DOCKET_TOO_SMALL) &&
           forces_example(&d, DOCKET_TOO_SMALL) &&
           memcmp(d.numbers, state->start, kept * sizeof *d.numbers) == 0 && is_unwritten(&w);
}

static void test_present(const struct bytes *state) {
    struct docket d = open_state(state), made = open_state(&(struct bytes){(uint8_t *)"", 0});
    size_t length = d.numbers_length * sizeof *d.numbers + d.rows_length * sizeof *d.rows;
    count(state->length == length, "%s has the bytes of a state", PRESENT);
    count(holds_example(&d), "%s holds what the example's texts give", PRESENT);
    int lodged = docket_fresh(made.numbers, made.numbers_length, made.rows, made.rows_length) == 0 && lodges_example(&made);
    count(lodged && same_docket(&made, &d), "%s is the state after the example's texts", PRESENT);
    int good = 1;
    for (uint64_t layout = 0; layout < 256; layout++) {
        struct docket other = open_state(state);
        other.numbers[0] = other.numbers[0] / 256 * 256 + layout;
        good = (layout == d.numbers[0] % 256 || is_no_docket(other)) && good;
    }
    count(good, "%s with another layout's number in its mark is no docket", PRESENT);
    count(lodges(&d, SCHEDULE, "answer=passed,1980\n") && holds_example(&d), "%s is lodged in", PRESENT);
}

int main(int argc, char **argv) {
    char pattern[4096];
    glob_t found;
    int presents = 0;
    need(argc == 2, "one folder");
    snprintf(pattern, sizeof pattern, "%s/*.state", argv[1]);
    need(glob(pattern, 0, NULL, &found) == 0, pattern);
    for (size_t k = 0; k < found.gl_pathc; k++) {
        struct bytes state = read_file(found.gl_pathv[k], "");
        if (strcmp(strrchr(found.gl_pathv[k], '/') + 1, PRESENT) == 0) {
            presents++;
            test_present(&state);
        } else {
            struct docket present = fresh_docket();
            count(is_no_docket(open_state(&state)), "%s is no docket", found.gl_pathv[k]);
            count(is_too_small(&state, &present), "%s, lent as it was kept, is too small", found.gl_pathv[k]);
        }
        free(state.start);
    }
    count(presents == 1, "%s is kept", PRESENT);
    globfree(&found);
    return finish();
}
