/* The layout of a state, written apart from the archive: what stands where, which numbers a docket can have, and the report of
 * them. */
#ifndef TEST_LAYOUT_H
#define TEST_LAYOUT_H

#include <inttypes.h>
#include <stdint.h>
#include <stdio.h>
#include <string.h>

/* the bytes DOCKET and the layout's number */
#define LAYOUT 2
#define MARK ((uint64_t)0x444F434B4554 << 8 | LAYOUT)

#define NUMBERS 618
#define ROWS 1536
#define UNIT_NUMBERS 16
#define MOST_PERIODS 48
#define MOST_UNITS 32
#define MOST_DEMAND 320000
#define MOST_FIGURE (((uint64_t)1 << 61) - 1)

/* the places of `numbers`; a cost is a tag, the cost and the writer, a bound a tag, its size and the writer */
enum place {
    AT_MARK = 0,
    AT_KNOWN = 1,
    AT_COST = 2,
    AT_BOUND = 5,
    AT_PERIODS = 8,
    AT_COUNT = 9,
    AT_DEMAND = 10,
    AT_SPARE = 58,
    AT_UNITS = 106
};

/* the places of a unit's numbers */
enum unit_place { A, B, C, PL, PU, TU, TD, ON, SINCE, DR, UR, HSC, CSC, TCOLD, DC, P0 };

static const struct range {
    uint64_t least, most;
} unit_ranges[UNIT_NUMBERS] = {
    [A] = {0, 1000000000}, [B] = {0, 10000000},     [C] = {0, 10000},        [PL] = {1, 10000},   [PU] = {1, 10000},
    [TU] = {1, 48},        [TD] = {1, 48},          [ON] = {0, 1},           [SINCE] = {1, 1000}, [DR] = {1, 10000},
    [UR] = {1, 10000},     [HSC] = {0, 1000000000}, [CSC] = {0, 1000000000}, [TCOLD] = {0, 48},   [DC] = {0, 1000000000},
    [P0] = {0, 10000}};

/* Whether a unit's p0 is from pL to pU where it was on before period 1, and 0 where it was off. */
static inline int is_midnight_sound(const uint64_t *unit) {
    return unit[ON] ? unit[PL] <= unit[P0] && unit[P0] <= unit[PU] : unit[P0] == 0;
}

/* Whether a problem's numbers are in their ranges. */
static inline int is_problem_sound(const uint64_t *numbers) {
    uint64_t periods = numbers[AT_PERIODS], units = numbers[AT_COUNT];
    if (periods < 1 || periods > MOST_PERIODS || units < 1 || units > MOST_UNITS) {
        return 0;
    }
    int sound = 1;
    for (uint64_t t = 0; t < periods; t++) {
        sound = sound && numbers[AT_DEMAND + t] <= MOST_DEMAND && numbers[AT_SPARE + t] <= MOST_DEMAND;
    }
    for (uint64_t u = 0; u < units; u++) {
        const uint64_t *unit = numbers + AT_UNITS + u * UNIT_NUMBERS;
        for (int k = 0; k < UNIT_NUMBERS; k++) {
            sound = sound && unit[k] >= unit_ranges[k].least && unit[k] <= unit_ranges[k].most;
        }
        sound = sound && unit[PL] <= unit[PU] && unit[HSC] <= unit[CSC] && is_midnight_sound(unit);
    }
    return sound;
}

/* Whether two states have the same problem. */
static inline int same_problem(const uint64_t *numbers, const uint64_t *others) {
    size_t size = sizeof *numbers, periods = numbers[AT_PERIODS] * size, units = numbers[AT_COUNT] * UNIT_NUMBERS * size;
    return memcmp(numbers + AT_PERIODS, others + AT_PERIODS, 2 * size) == 0 &&
           memcmp(numbers + AT_DEMAND, others + AT_DEMAND, periods) == 0 &&
           memcmp(numbers + AT_SPARE, others + AT_SPARE, periods) == 0 &&
           memcmp(numbers + AT_UNITS, others + AT_UNITS, units) == 0;
}

/* Whether the held figures are those that a docket can have. */
static inline int are_figures_sound(const uint64_t *cost, const uint64_t *bound) {
    uint64_t most = MOST_FIGURE + (bound[0] == 2);
    return cost[0] <= 1 && (cost[0] == 0 || cost[1] <= MOST_FIGURE) && bound[0] <= 3 && (bound[0] % 3 == 0 || bound[1] <= most);
}

/* Whether a docket can be it. Writers, rows and what the problem does not use may be any numbers. */
static inline int is_sound(const uint64_t *numbers) {
    if (numbers[AT_MARK] != MARK || numbers[AT_KNOWN] > 1) {
        return 0;
    }
    if (numbers[AT_KNOWN] == 0) {
        return numbers[AT_COST] == 0 && numbers[AT_BOUND] == 0;
    }
    return is_problem_sound(numbers) && are_figures_sound(numbers + AT_COST, numbers + AT_BOUND);
}

/* A line of the report: a number, or `none`. */
static inline int write_line(char *to, size_t most, const char *key, int there, int64_t number) {
    return there ? snprintf(to, most, "%s=%" PRId64 "\n", key, number) : snprintf(to, most, "%s=none\n", key);
}

/* The report of a sound state. */
static inline void write_report(const uint64_t *numbers, char *to, size_t most) {
    const uint64_t *cost = numbers + AT_COST, *bound = numbers + AT_BOUND;
    int64_t size = bound[0] == 2 ? -(int64_t)bound[1] : (int64_t)bound[1];
    int is_number = bound[0] == 1 || bound[0] == 2;
    size_t at = (size_t)snprintf(to, most, "kind=report\n");
    at += (size_t)write_line(to + at, most - at, "cost", cost[0] == 1, (int64_t)cost[1]);
    at += (size_t)write_line(to + at, most - at, "costwriter", cost[0] == 1, (int64_t)cost[2]);
    if (bound[0] == 3) {
        at += (size_t)snprintf(to + at, most - at, "bound=never\n");
    } else {
        at += (size_t)write_line(to + at, most - at, "bound", is_number, size);
    }
    at += (size_t)write_line(to + at, most - at, "boundwriter", bound[0] != 0, (int64_t)bound[2]);
    at += (size_t)write_line(to + at, most - at, "gap", cost[0] == 1 && is_number, (int64_t)cost[1] - size);
    snprintf(to + at, most - at, "end=report\n");
}

#endif
