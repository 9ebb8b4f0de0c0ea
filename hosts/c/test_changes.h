/* Changes of a state: of each kind that makes it no docket, and such that leave it one. */
#ifndef TEST_CHANGES_H
#define TEST_CHANGES_H

#include "test_layout.h"
#include "test_random.h"

/* Makes the mark another one. */
static inline void change_mark(uint64_t *numbers) {
    uint64_t layout = between(0, 256);
    switch (between(0, 3)) {
    case 0: numbers[AT_MARK] ^= (uint64_t)1 << between(0, 63); break;
    case 1: numbers[AT_MARK] = numbers[AT_MARK] / 256 * 256 + layout + (layout == numbers[AT_MARK] % 256); break;
    case 2: numbers[AT_MARK] = next_random(); break;
    default: numbers[AT_MARK] = 0; break;
    }
}

/* Puts a unit's p0 where its Tini does not allow it, within its own range too. */
static inline void change_midnight(uint64_t *unit) {
    if (unit[ON]) {
        unit[P0] = between(0, 1) == 0 ? between(0, unit[PL] - 1) : between(unit[PU] + 1, unit[PU] + 9);
    } else {
        unit[P0] = between(1, unit[PU]);
    }
}

/* Puts one number of the problem out of its range, not one that only says yes or no. */
static inline void change_problem(uint64_t *numbers) {
    uint64_t t = between(0, numbers[AT_PERIODS] - 1), which = (ON + between(1, UNIT_NUMBERS - 1)) % UNIT_NUMBERS;
    const struct range *range = &unit_ranges[which];
    uint64_t *unit = numbers + AT_UNITS + between(0, numbers[AT_COUNT] - 1) * UNIT_NUMBERS;
    switch (between(0, 8)) {
    case 0: numbers[AT_PERIODS] = between(0, 2) == 0 ? 0 : above(MOST_PERIODS); break;
    case 1: numbers[AT_COUNT] = between(0, 2) == 0 ? 0 : above(MOST_UNITS); break;
    case 2: numbers[AT_DEMAND + t] = above(MOST_DEMAND); break;
    case 3: numbers[AT_SPARE + t] = above(MOST_DEMAND); break;
    case 4: unit[PL] = between(unit[PU] + 1, unit[PU] + 9); break;
    case 5: unit[HSC] = between(unit[CSC] + 1, unit[CSC] + 9); break;
    case 6: change_midnight(unit); break;
    default: unit[which] = range->least > 0 && between(0, 1) == 0 ? range->least - 1 : above(range->most);
    }
}

/* Makes the cost or the bound too large, or gives it a tag that is none. */
static inline void change_figures(uint64_t *numbers) {
    uint64_t minus = between(0, 1);
    switch (between(0, 3)) {
    case 0: numbers[AT_COST] = 1, numbers[AT_COST + 1] = above(MOST_FIGURE), numbers[AT_COST + 2] = 7; break;
    case 1: numbers[AT_COST] = above(1); break;
    case 2: numbers[AT_BOUND] = above(3); break;
    default: numbers[AT_BOUND] = 1 + minus, numbers[AT_BOUND + 1] = above(MOST_FIGURE + minus), numbers[AT_BOUND + 2] = 3;
    }
}

/* A docket that knows no problem and holds something. */
static inline void hold_without_problem(uint64_t *numbers) {
    uint64_t which = between(1, 3);
    numbers[AT_KNOWN] = 0;
    numbers[AT_COST] = which & 1;
    numbers[AT_BOUND] = (which >> 1) * between(1, 3);
}

/* A number of the range where the problem uses the place, any number elsewhere. */
static inline uint64_t within(int used, uint64_t least, uint64_t most) { return used ? between(least, most) : next_random(); }

/* Makes a unit's p0 one that its Tini allows, the nearest. */
static inline void mend_midnight(uint64_t *unit) {
    uint64_t least = unit[ON] ? unit[PL] : 0, most = unit[ON] ? unit[PU] : 0;
    unit[P0] = unit[P0] < least ? least : unit[P0] > most ? most : unit[P0];
}

/* Changes a number of the problem so that it stays one, or one that it does not use. */
static inline void change_problem_within(uint64_t *numbers) {
    uint64_t t = between(0, MOST_PERIODS - 1), u = between(0, MOST_UNITS - 1), which = between(0, UNIT_NUMBERS - 1);
    uint64_t *unit = numbers + AT_UNITS + u * UNIT_NUMBERS;
    int period_used = numbers[AT_KNOWN] && t < numbers[AT_PERIODS], unit_used = numbers[AT_KNOWN] && u < numbers[AT_COUNT];
    switch (between(0, 3)) {
    case 0: numbers[AT_DEMAND + t] = within(period_used, 0, MOST_DEMAND); break;
    case 1: numbers[AT_SPARE + t] = within(period_used, 0, MOST_DEMAND); break;
    case 2: numbers[AT_PERIODS] = within(numbers[AT_KNOWN] != 0, 1, numbers[AT_PERIODS]); break;
    default:
        unit[which] = within(unit_used, unit_ranges[which].least, unit_ranges[which].most);
        unit[PU] = unit[PU] < unit[PL] ? unit[PL] : unit[PU];
        unit[CSC] = unit[CSC] < unit[HSC] ? unit[HSC] : unit[CSC];
        mend_midnight(unit);
    }
}

/* Changes what is held, where a problem is known, to what a docket can hold. */
static inline void change_figures_within(uint64_t *numbers) {
    uint64_t known = numbers[AT_KNOWN], tag = known * between(0, 3);
    if (between(0, 1) == 0) {
        numbers[AT_COST] = known;
        numbers[AT_COST + 1] = known * (between(0, 3) == 0 ? MOST_FIGURE : between(0, MOST_FIGURE));
        numbers[AT_COST + 2] = known * between(1, 65535);
    } else {
        numbers[AT_BOUND] = tag;
        numbers[AT_BOUND + 1] = tag % 3 == 0 ? 0 : between(0, 3) == 0 ? MOST_FIGURE + (tag == 2) : between(1, MOST_FIGURE);
        numbers[AT_BOUND + 2] = tag == 0 ? 0 : between(1, 65535);
    }
}

/* Changes a state so that it stays sound. */
static inline void change_within(uint64_t *numbers, uint16_t *rows) {
    switch (between(0, 2)) {
    case 0: change_problem_within(numbers); break;
    case 1: change_figures_within(numbers); break;
    default: rows[between(0, ROWS - 1)] = (uint16_t)next_random();
    }
}

#endif
