/* Lodges each file as one text in one docket, prints the answers and the report, and tells on stderr how many texts were held:
 * ./lodge_files FILE.. */
#include "docket.h"

#include <errno.h>
#include <stdio.h>
#include <stdlib.h>
#include <string.h>

/* one byte more than a text may have tells that there is too much of it */
static uint8_t text[DOCKET_MOST_TEXT + 1];

/* How many bytes of the file, one more than a text may have at most, are now in `text`; SIZE_MAX where it cannot be read. */
static size_t read_text(const char *path) {
    FILE *file = fopen(path, "rb");
    size_t length = file == NULL ? 0 : fread(text, 1, sizeof text, file);
    if (file == NULL || ferror(file)) {
        fprintf(stderr, "%s cannot be read: %s.\n", path, strerror(errno));
        length = SIZE_MAX;
    }
    if (file != NULL) {
        fclose(file);
    }
    return length;
}

/* Lodges the files and prints; the exit status. */
static int lodge_files(char **paths, uint64_t *numbers, uint16_t *rows) {
    size_t numbers_length = docket_numbers(), rows_length = docket_rows(), answers[3] = {0, 0, 0};
    uint8_t line[DOCKET_LINE_BYTES], report[DOCKET_REPORT_BYTES];
    uint64_t values[DOCKET_VALUES];
    docket_fresh(numbers, numbers_length, rows, rows_length);
    for (; *paths != NULL; paths++) {
        size_t length = read_text(*paths);
        if (length == SIZE_MAX) {
            return 1;
        }
        size_t written =
            docket_lodge(numbers, numbers_length, rows, rows_length, text, length, line, sizeof line, values, DOCKET_VALUES);
        fwrite(line, 1, written, stdout);
        answers[values[DOCKET_ANSWER]]++;
    }
    size_t written = docket_report(numbers, numbers_length, rows, rows_length, report, sizeof report, 0);
    fwrite(report, 1, written, stdout);
    if (fflush(stdout) != 0) {
        fprintf(stderr, "The answers cannot be written: %s.\n", strerror(errno));
        return 1;
    }
    fprintf(stderr, "%zu held, %zu passed, %zu refused\n", answers[DOCKET_HELD], answers[DOCKET_PASSED], answers[DOCKET_REFUSED]);
    return 0;
}

int main(int argc, char **argv) {
    if (argc < 2) {
        fprintf(stderr, "usage: %s FILE..\n", argv[0]);
        return 2;
    }
    uint64_t *numbers = malloc(docket_numbers() * sizeof *numbers);
    uint16_t *rows = malloc(docket_rows() * sizeof *rows);
    int status = 1;
    if (numbers == NULL || rows == NULL) {
        fputs("There is no memory for a docket.\n", stderr);
    } else {
        status = lodge_files(argv + 1, numbers, rows);
    }
    free(numbers);
    free(rows);
    return status;
}
