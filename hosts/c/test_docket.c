/* Tests of the listing: ./test_docket FILE.. lists each FILE.txt between pages that may not be touched, on a stack that shows how
 * far it was used, and compares with FILE.out. The last line is 'N passed, M failed'. */
#include "test.h"

/* the longest input that is tried */
#define MOST (DOCKET_MOST_INPUT + 2 * PAGE)

struct call {
    const uint8_t *input;
    size_t input_length;
    uint8_t *output;
    size_t output_length;
    size_t answer;
};

static void *run(void *given) {
    struct call *c = given;
    c->answer = docket_listing(c->input, c->input_length, c->output, c->output_length);
    return NULL;
}

/* Lists the file and compares; how many bytes of stack were used. */
static size_t test_file(const char *name, uint8_t *inputs, uint8_t *output) {
    struct input file = read_input(name);
    size_t length = file.text.length, listing = file.listing.length;
    need(length <= MOST && listing <= DOCKET_OUTPUT_BYTES, name);
    uint8_t *input = inputs + MOST - length;
    memcpy(input, file.text.start, length);
    memset(output, PAINT, DOCKET_OUTPUT_BYTES);
    struct call c = {input, length, output, DOCKET_OUTPUT_BYTES, 0};
    size_t used = run_painted(run, &c);
    int same =
        c.answer == listing && memcmp(output, file.listing.start, listing) == 0 && memcmp(input, file.text.start, length) == 0;
    count(same && painted(output + listing, DOCKET_OUTPUT_BYTES - listing), "%s", name);
    free_input(&file);
    return used;
}

static void test_small(uint8_t *output) {
    const uint8_t text[] = "kind=problem\n";
    memset(output, PAINT, DOCKET_OUTPUT_BYTES);
    int same = 1;
    for (size_t length = 0; length < DOCKET_OUTPUT_BYTES; length = 2 * length + 1) {
        same = same && docket_listing(text, sizeof text - 1, output, length) == DOCKET_OUTPUT_TOO_SMALL;
    }
    count(same && painted(output, DOCKET_OUTPUT_BYTES), "an output that is too small");
    count(docket_listing(room(0), 0, output, DOCKET_OUTPUT_BYTES) == 86 && memcmp(output, "kind=report\ncost=none\n", 22) == 0,
          "no input");
}

int main(int argc, char **argv) {
    uint8_t *inputs = room(MOST);
    uint8_t *output = room(DOCKET_OUTPUT_BYTES);
    size_t most = 0;
    test_small(output);
    for (int i = 1; i < argc; i++) {
        size_t used = test_file(argv[i], inputs, output);
        most = used > most ? used : most;
    }
    printf("stack used by a listing: at most %zu bytes, the thread's own among them\n", most);
    count(most > 0 && most <= DOCKET_STACK_BYTES, "the stack named in docket.h");
    return finish();
}
