/* Prints the listing of a file: ./list_file FILE */
#include "docket.h"

#include <stdio.h>

/* one byte more than is lodged tells that there is too much input */
static uint8_t input[DOCKET_MOST_INPUT + 1];
static uint8_t output[DOCKET_OUTPUT_BYTES];

int main(int argc, char **argv) {
    if (argc != 2) {
        fprintf(stderr, "usage: %s FILE\n", argv[0]);
        return 2;
    }
    FILE *file = fopen(argv[1], "rb");
    if (file == NULL) {
        perror(argv[1]);
        return 1;
    }
    size_t length = fread(input, 1, sizeof input, file);
    if (ferror(file)) {
        perror(argv[1]);
        return 1;
    }
    fclose(file);
    size_t written = docket_listing(input, length, output, sizeof output);
    if (written == DOCKET_OUTPUT_TOO_SMALL) {
        fputs("the output is too small\n", stderr);
        return 1;
    }
    return fwrite(output, 1, written, stdout) == written && fflush(stdout) == 0 ? 0 : 1;
}
