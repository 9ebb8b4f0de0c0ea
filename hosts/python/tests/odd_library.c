/* A library with the calls of docket.h that answers as ODD says: 1 too little room, 2 no docket, 3 an answer, 4 figures
 * and 5 a report that nobody knows, 6 answers about units taken, runs and forced statuses that nobody knows, 7 and 8
 * others about the latter two. With 0 it lacks a call. */
#include <stdint.h>
#include <string.h>

size_t docket_rules(void) { return 1; }
size_t docket_numbers(void) { return 4; }
size_t docket_rows(void) { return 4; }
size_t docket_fresh(uint64_t *numbers, size_t n, uint16_t *rows, size_t r) {
    (void)numbers, (void)n, (void)rows, (void)r;
    return 0;
}
size_t docket_lodge(uint64_t *numbers, size_t n, uint16_t *rows, size_t r, const uint8_t *text, size_t t, uint8_t *line,
                    size_t l, uint64_t *values, size_t v) {
    (void)numbers, (void)n, (void)rows, (void)r, (void)text, (void)t, (void)l, (void)v;
    memcpy(line, "answer=odd\n", 11);
    values[0] = ODD == 3 ? 9 : 1;
    values[1] = ODD == 4 ? 9 : 0;
    return ODD == 1 ? SIZE_MAX : ODD == 2 ? SIZE_MAX - 1 : 11;
}
size_t docket_report(const uint64_t *numbers, size_t n, const uint16_t *rows, size_t r, uint8_t *buffer, size_t b,
                     size_t at) {
    (void)numbers, (void)n, (void)rows, (void)r, (void)b, (void)at;
    memcpy(buffer, "kind=odd\n", 9);
    return 9;
}
#if ODD
size_t docket_outputs(const uint64_t *numbers, size_t n, const uint16_t *rows, size_t r, uint16_t *outputs, size_t o) {
    (void)numbers, (void)n, (void)rows, (void)r, (void)outputs, (void)o;
    return 0;
}
#endif
size_t docket_units_taken(const uint64_t *numbers, size_t n, const uint16_t *rows, size_t r, size_t period, size_t most,
                          const uint8_t *fixed, size_t f, uint64_t *taken, size_t t) {
    (void)numbers, (void)n, (void)rows, (void)r, (void)period, (void)most, (void)fixed, (void)f, (void)taken, (void)t;
    return ODD == 1 ? SIZE_MAX : ODD == 2 ? SIZE_MAX - 1 : ODD == 6 ? 9 : 0;
}
size_t docket_cheapest_runs(const uint64_t *numbers, size_t n, const uint16_t *rows, size_t r, const uint64_t *q,
                            size_t a, const uint64_t *s, size_t b, const uint8_t *fixed, size_t c, uint64_t *runs,
                            size_t d, uint64_t *shortfalls, size_t e, int64_t *value, size_t v) {
    (void)numbers, (void)n, (void)rows, (void)r, (void)q, (void)a, (void)s, (void)b, (void)fixed, (void)c, (void)runs;
    (void)d, (void)shortfalls, (void)e, (void)value, (void)v;
    return ODD == 1 ? SIZE_MAX : ODD == 2 ? SIZE_MAX - 1 : ODD == 6 ? 9 : ODD == 7 ? 100 : ODD == 8 ? 133 : 1;
}
size_t docket_forced_statuses(const uint64_t *numbers, size_t n, const uint16_t *rows, size_t r, const uint64_t *q,
                              size_t a, const uint64_t *s, size_t b, const uint8_t *fixed, size_t c, int64_t *values,
                              size_t d, uint8_t *stuck, size_t e) {
    (void)numbers, (void)n, (void)rows, (void)r, (void)q, (void)a, (void)s, (void)b, (void)fixed, (void)c, (void)values;
    (void)d, (void)stuck, (void)e;
    return ODD == 1 ? SIZE_MAX : ODD == 2 ? SIZE_MAX - 1 : ODD == 6 ? 9 : ODD == 7 ? 3 : ODD == 8 ? 101 : 1;
}
size_t docket_listing(const uint8_t *input, size_t i, uint8_t *output, size_t o) {
    (void)input, (void)i, (void)output, (void)o;
    return SIZE_MAX;
}
