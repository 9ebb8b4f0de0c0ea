/* Times the calls of an open docket: ./calls FOLDER, the folder that bench/calls_inputs.py writes. Prints a row of a table for
 * each text, and for each call that takes none: its name, bytes, and the microseconds of the best of many runs, where the text is
 * held and where it is passed or refused. */
#define _POSIX_C_SOURCE 199309L
#include "../hosts/c/docket.h"

#include <stdio.h>
#include <stdlib.h>
#include <string.h>
#include <time.h>

#define NUMBERS ((size_t)618)
#define ROWS ((size_t)1536)

/* A row is timed for so long, and so often at least. */
#define SECONDS 0.4
#define RUNS 20

/* Calls that take less than a tenth of a millisecond are timed so many at once, each on a docket of its own. */
#define AT_ONCE 16

struct docket {
    uint64_t numbers[NUMBERS];
    uint16_t rows[ROWS];
};

/* What is lent to every call, and the docket before it. */
static uint8_t text[DOCKET_MOST_TEXT], line[DOCKET_LINE_BYTES], buffer[DOCKET_REPORT_BYTES];
static size_t text_length;
static uint64_t values[DOCKET_VALUES];
static uint16_t outputs[DOCKET_OUTPUTS];
static struct docket before;

/* Seconds of processor time. */
static double now(void) {
    struct timespec t;
    clock_gettime(CLOCK_PROCESS_CPUTIME_ID, &t);
    return (double)t.tv_sec + (double)t.tv_nsec * 1e-9;
}

/* Ends the process where something is wrong. */
static void need(int good, const char *what) {
    if (!good) {
        fprintf(stderr, "calls: %s\n", what);
        exit(1);
    }
}

/* Reads the file FOLDER/NAME.END into `text`. */
static void read_text(const char *folder, const char *name, const char *end) {
    char path[4096];
    snprintf(path, sizeof path, "%s/%s.%s", folder, name, end);
    FILE *file = fopen(path, "rb");
    need(file != NULL, path);
    text_length = fread(text, 1, sizeof text, file);
    need(text_length > 0 && !ferror(file), path);
    fclose(file);
}

static void lodge(struct docket *d) {
    size_t length = docket_lodge(d->numbers, NUMBERS, d->rows, ROWS, text, text_length, line, sizeof line, values, DOCKET_VALUES);
    need(length < DOCKET_NO_DOCKET, "docket_lodge");
}

static void report(struct docket *d) {
    size_t length = docket_report(d->numbers, NUMBERS, d->rows, ROWS, buffer, sizeof buffer, 0);
    need(length < DOCKET_NO_DOCKET, "docket_report");
}

static void copy_outputs(struct docket *d) {
    size_t length = docket_outputs(d->numbers, NUMBERS, d->rows, ROWS, outputs, DOCKET_OUTPUTS);
    need(length < DOCKET_NO_DOCKET, "docket_outputs");
}

/* A price leaf with nothing fixed, at a price and a reserve price in every period. */
static size_t periods, units;
static uint64_t q[48], s[48];
static uint8_t fixed[DOCKET_OUTPUTS];

static void make_leaf(size_t many, size_t long_) {
    units = many;
    periods = long_;
    for (size_t t = 0; t < periods; t++) {
        q[t] = 2200 + 10 * t;
        s[t] = 5;
    }
}

/* Its runs. */
static void draft(struct docket *d) {
    static uint64_t runs[DOCKET_OUTPUTS], shortfalls[48];
    int64_t value;
    size_t places = units * periods;
    size_t answer = docket_cheapest_runs(d->numbers, NUMBERS, d->rows, ROWS, q, periods, s, periods, fixed, places, runs, places,
                                         shortfalls, periods, &value, 1);
    need(answer == DOCKET_RUNS_FOUND, "docket_cheapest_runs");
}

/* What its units are worth with a status forced. */
static void force(struct docket *d) {
    static int64_t entries[2 * DOCKET_OUTPUTS];
    static uint8_t stuck[2 * DOCKET_OUTPUTS];
    size_t places = units * periods;
    size_t answer = docket_forced_statuses(d->numbers, NUMBERS, d->rows, ROWS, q, periods, s, periods, fixed, places, entries,
                                           2 * places, stuck, 2 * places);
    need(answer == DOCKET_FORCED_FOUND, "docket_forced_statuses");
}

static void fresh(struct docket *d) { need(docket_fresh(d->numbers, NUMBERS, d->rows, ROWS) == 0, "docket_fresh"); }

/* Microseconds of the best run of a call, each time on a copy of the docket `before`. */
static double best(void (*call)(struct docket *)) {
    static struct docket dockets[AT_ONCE];
    double least = 1e9, begin = now();
    int many = 1;
    for (int run = 0; run < RUNS || now() - begin < SECONDS; run++) {
        for (int k = 0; k < many; k++) {
            dockets[k] = before;
        }
        double start = now();
        for (int k = 0; k < many; k++) {
            call(&dockets[k]);
        }
        double took = (now() - start) / many;
        least = took < least ? took : least;
        many = least < 1e-4 ? AT_ONCE : 1;
    }
    return least * 1e6;
}

/* Lodges the text in the docket `before`; the answer. */
static uint64_t lodge_before(void) {
    lodge(&before);
    return values[DOCKET_ANSWER];
}

/* Makes of `before` a docket that holds the problem of the name; its text is then in `text`. */
static void begin(const char *folder, const char *name) {
    fresh(&before);
    read_text(folder, name, "problem.txt");
    need(lodge_before() == DOCKET_HELD, name);
    read_text(folder, name, "text.txt");
}

/* The rows of a draft and of forced statuses under the problem of the name. */
static void time_leaf(const char *folder, const char *name, size_t many, size_t long_) {
    begin(folder, name);
    make_leaf(many, long_);
    printf("| draft, %s | | %.1f | |\n", name, best(draft));
    printf("| forced statuses, %s | | %.1f | |\n", name, best(force));
}

/* The row of a text: lodged in a docket that holds its problem alone, then in one that holds the text too. */
static void time_text(const char *folder, const char *name) {
    begin(folder, name);
    double first = best(lodge);
    uint64_t answer = lodge_before();
    double again = best(lodge);
    need(answer == DOCKET_REFUSED || (answer == DOCKET_HELD && values[DOCKET_ANSWER] == DOCKET_PASSED), name);
    if (answer == DOCKET_REFUSED) {
        printf("| %s | %zu | | %.1f |\n", name, text_length, again);
    } else {
        printf("| %s | %zu | %.1f | %.1f |\n", name, text_length, first, again);
    }
}

int main(int argc, char **argv) {
    static const char *const names[] = {"small", "ten-by-24", "32-by-48", "forty-leaves", "megabyte-tree", "refused"};
    need(docket_numbers() == NUMBERS && docket_rows() == ROWS, "another layout");
    need(argc == 2, "usage: calls FOLDER");
    for (size_t k = 0; k < sizeof names / sizeof *names; k++) {
        time_text(argv[1], names[k]);
    }
    begin(argv[1], "32-by-48");
    need(lodge_before() == DOCKET_HELD, "32-by-48");
    printf("| report | | %.2f | |\n| outputs | | %.2f | |\n", best(report), best(copy_outputs));
    printf("| fresh | | %.2f | |\n", best(fresh));
    time_leaf(argv[1], "small", 2, 2);
    time_leaf(argv[1], "ten-by-24", 10, 24);
    time_leaf(argv[1], "32-by-48", 32, 48);
    return 0;
}
