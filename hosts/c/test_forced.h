/* Price leaves for docket_forced_statuses, and what they must be answered, found apart from the archive. */
#ifndef TEST_FORCED_H
#define TEST_FORCED_H

#include "test_drafts.h"

/* what is lent besides the state, behind prices, reserves and statuses, and how wide a number of each part is */
enum forced_part { ENTRIES = STATUSES + 1, MARKS, FORCED_PARTS };
static const size_t forced_widths[FORCED_PARTS] = {8, 8, 1, 8, 1};

/* The answer, and the entries where there are some. */
struct entries {
    size_t answer;
    int64_t values[2 * DOCKET_OUTPUTS];
    uint8_t stuck[2 * DOCKET_OUTPUTS];
};

/* The lengths that fit a problem. */
static inline void fit_entries(const struct plant *of, size_t lengths[FORCED_PARTS]) {
    size_t all = of->units * of->periods;
    const size_t fit[FORCED_PARTS] = {of->periods, of->periods, all, 2 * all, 2 * all};
    memcpy(lengths, fit, sizeof fit);
}

/* what stands for no run: more than any is worth, and three of them are a number too */
#define NO_RUN (INT64_MAX / 4)

static inline int64_t lesser(int64_t one, int64_t other) { return one < other ? one : other; }

/* What is asked of one unit: what is fixed, and what a period on is worth. */
struct course {
    const struct unit *unit;
    size_t periods;
    const uint8_t *fixed;
    int64_t on_worth[48];
};

/* What a stretch of one status is worth, from a period's start to another's or to the end, with the start or stop that ends it;
 * NO_RUN where it is not permitted. The one that the unit is in before period 1 goes on from the start of period 1. */
static inline int64_t stretch_worth(const struct course *c, int on, size_t from, size_t to) {
    const struct unit *unit = c->unit;
    int64_t before = on == (unit->tini > 0) && from == 0 ? llabs(unit->tini) : 0, spent = before + (int64_t)(to - from), sum = 0;
    for (size_t t = from; t < to; t++) {
        if (c->fixed[t] == (on ? DOCKET_FIXED_OFF : DOCKET_FIXED_ON)) {
            return NO_RUN;
        }
        sum += on ? c->on_worth[t] : 0;
    }
    if (to == c->periods) {
        return sum;
    }
    if (spent < (on ? unit->tu : unit->td)) {
        return NO_RUN;
    }
    return sum + (on ? unit->dc : spent <= unit->td + unit->tcold ? unit->hsc : unit->csc);
}

/* The least that the periods before each are worth, where a stretch of the status begins with it. */
static inline void find_before(const struct course *c, int64_t before[2][48]) {
    int was = c->unit->tini > 0;
    before[was][0] = 0;
    before[!was][0] = stretch_worth(c, was, 0, 0);
    for (size_t to = 1; to < c->periods; to++) {
        for (int on = 0; on < 2; on++) {
            before[on][to] = NO_RUN;
            for (size_t from = 0; from < to; from++) {
                before[on][to] = lesser(before[on][to], before[!on][from] + stretch_worth(c, !on, from, to));
            }
        }
    }
}

/* The least that each period but the first and those behind it are worth, where a stretch of the status begins with it. */
static inline void find_behind(const struct course *c, int64_t behind[2][49]) {
    behind[0][c->periods] = behind[1][c->periods] = 0;
    for (size_t from = c->periods - 1; from > 0; from--) {
        for (int on = 0; on < 2; on++) {
            behind[on][from] = NO_RUN;
            for (size_t to = from + 1; to <= c->periods; to++) {
                behind[on][from] = lesser(behind[on][from], stretch_worth(c, on, from, to) + behind[!on][to]);
            }
        }
    }
}

/* The entries of a unit: of every stretch of a status what the run around it is worth counts in each of its periods. */
static inline void find_unit_entries(const struct course *c, int64_t *entries) {
    int64_t before[2][48], behind[2][49];
    find_before(c, before);
    find_behind(c, behind);
    for (size_t k = 0; k < 2 * c->periods; k++) {
        entries[k] = NO_RUN;
    }
    for (int on = 0; on < 2; on++) {
        for (size_t from = 0; from < c->periods; from++) {
            for (size_t to = from + 1; to <= c->periods; to++) {
                int64_t run = before[on][from] + stretch_worth(c, on, from, to) + behind[!on][to];
                for (size_t t = from; t < to; t++) {
                    entries[2 * t + (size_t)on] = lesser(entries[2 * t + (size_t)on], run);
                }
            }
        }
    }
}

/* What is due to a leaf. */
static inline void find_entries(const struct plant *of, const struct leaf *leaf, struct entries *due) {
    size_t fit[FORCED_PARTS];
    fit_entries(of, fit);
    due->answer = of->periods == 0 ? DOCKET_FORCED_NO_PROBLEM : DOCKET_FORCED_UNFIT;
    if (of->periods == 0 || !is_leaf_fit(of, leaf, fit, FORCED_PARTS)) {
        return;
    }
    due->answer = DOCKET_FORCED_FOUND;
    for (size_t u = 0; u < of->units; u++) {
        const struct unit *unit = &of->all[u];
        struct course c = {unit, of->periods, leaf->fixed + u * of->periods, {0}};
        for (size_t t = 0; t < of->periods; t++) {
            c.on_worth[t] = worth(unit, leaf->q[t], leaf->s[t], cheapest_output(unit, leaf->q[t]));
        }
        find_unit_entries(&c, due->values + 2 * u * of->periods);
    }
    for (size_t k = 0; k < fit[ENTRIES]; k++) {
        due->stuck[k] = due->values[k] > NO_RUN / 2;
        due->values[k] = due->stuck[k] ? 0 : due->values[k];
    }
}

/* Whether the docket answers the leaf as is due, writes the entries where there are some and nothing else, and leaves what it
 * reads of the leaf. */
static inline int answers_entries(const struct docket *d, const struct leaf *leaf, const struct leaf_room *room,
                                  const struct entries *due) {
    const void *found[FORCED_PARTS] = {[ENTRIES] = due->values, [MARKS] = due->stuck}, *nothing[FORCED_PARTS] = {0};
    const size_t *lengths = leaf->lengths;
    void *lent[FORCED_PARTS];
    lend_parts(room, leaf, FORCED_PARTS, forced_widths, lent);
    size_t answer = docket_forced_statuses(d->numbers, d->numbers_length, d->rows, d->rows_length, lent[PRICES], lengths[PRICES],
                                           lent[RESERVES], lengths[RESERVES], lent[STATUSES], lengths[STATUSES], lent[ENTRIES],
                                           lengths[ENTRIES], lent[MARKS], lengths[MARKS]);
    const void *const *written = due->answer == DOCKET_FORCED_FOUND ? found : nothing;
    return answer == due->answer && are_written(leaf, FORCED_PARTS, forced_widths, lent, written);
}

/* Whether what is fixed leaves a unit no run: the entries of its first period both say stuck. */
static inline int has_stuck_unit(const struct plant *of, const struct entries *found) {
    int has = 0;
    for (size_t u = 0; u < of->units; u++) {
        const uint8_t *stuck = found->stuck + 2 * u * of->periods;
        has = has || (stuck[0] && stuck[1]);
    }
    return has;
}

/* how often an answer came, as tests count them: entries of units that have runs, entries and a stuck unit, no problem, unfit */
enum entered { ALL_RUN, ONE_STUCK, NO_ENTRIES, UNFIT_ENTRIES, ENTERED };
static size_t entered[ENTERED];

/* Whether a docket that knows the problem answers the leaf as it must. */
static inline int forces_rightly(const struct docket *d, const struct plant *of, const struct leaf *leaf,
                                 const struct leaf_room *room) {
    static struct entries due;
    find_entries(of, leaf, &due);
    switch (due.answer) {
    case DOCKET_FORCED_FOUND: entered[has_stuck_unit(of, &due) ? ONE_STUCK : ALL_RUN]++; break;
    case DOCKET_FORCED_NO_PROBLEM: entered[NO_ENTRIES]++; break;
    default: entered[UNFIT_ENTRIES]++;
    }
    return answers_entries(d, leaf, room, &due);
}

/* Counts a test for each kind of answer: it came so often. */
static inline void count_entries(size_t least) {
    static const char *const names[ENTERED] = {"every unit has a run", "a stuck unit", "no problem", "unfit"};
    for (int k = 0; k < ENTERED; k++) {
        printf("%6zu leaves with a status forced: %s\n", entered[k], names[k]);
        count(entered[k] >= least, "fewer than %zu leaves with a status forced: %s", least, names[k]);
    }
}

/* Makes a leaf for docket_forced_statuses, one in four of them unfit for the problem. */
static inline void make_forced(const struct plant *of, struct leaf *leaf) {
    const struct plant *plant = plant_or_other(of);
    make_prices(plant, leaf);
    fit_entries(plant, leaf->lengths);
    spoil_some(plant, leaf, FORCED_PARTS);
}

#endif
