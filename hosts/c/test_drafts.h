/* Price leaves, and what docket_cheapest_runs must answer to them, found apart from the archive. */
#ifndef TEST_DRAFTS_H
#define TEST_DRAFTS_H

#include "test_calls.h"
#include "test_random.h"

#include <inttypes.h>

#define MOST_MULTIPLIER ((uint64_t)1000000000)

/* What a question reads of a unit and of a problem. With no periods no problem is known. */
struct unit {
    int64_t a, b, c, pl, pu, tu, td, tini, hsc, csc, tcold, dc;
};

struct plant {
    size_t periods, units;
    int64_t demand[48], spare[48];
    struct unit all[32];
};

/* what is lent besides the state, how wide a number of it is, and how many there may be: more than a problem asks for; the first
 * three parts are only read */
enum leaf_part { PRICES, RESERVES, STATUSES, RUNS, SHORTFALLS, VALUE, LEAF_PARTS };
static const size_t part_widths[LEAF_PARTS] = {8, 8, 1, 8, 8, 8};
#define READ_PARTS 3
#define LONGEST_PART ((size_t)2048)

/* A leaf, and how many numbers of each part are lent. */
struct leaf {
    uint64_t q[LONGEST_PART], s[LONGEST_PART];
    uint8_t fixed[LONGEST_PART];
    size_t lengths[LEAF_PARTS];
};

/* The answer, and the draft where there is one. */
struct draft {
    size_t answer;
    uint64_t runs[DOCKET_OUTPUTS], shortfalls[48];
    int64_t value;
};

/* The lengths that fit a problem. */
static inline void fit_lengths(const struct plant *of, size_t lengths[LEAF_PARTS]) {
    size_t all = of->units * of->periods;
    const size_t fit[LEAF_PARTS] = {of->periods, of->periods, all, all, of->periods, 1};
    memcpy(lengths, fit, sizeof fit);
}

/* Whether the leaf fits the problem, and its first parts have the lengths that fit. */
static inline int is_leaf_fit(const struct plant *of, const struct leaf *leaf, const size_t *fit, size_t parts) {
    int good = memcmp(leaf->lengths, fit, parts * sizeof *fit) == 0;
    for (size_t t = 0; t < of->periods; t++) {
        good = good && leaf->q[t] <= MOST_MULTIPLIER && leaf->s[t] <= MOST_MULTIPLIER;
    }
    for (size_t k = 0; k < of->units * of->periods; k++) {
        good = good && leaf->fixed[k] <= DOCKET_FIXED_ON;
    }
    return good;
}

/* What a period on with this output is worth. */
static inline int64_t worth(const struct unit *unit, uint64_t q, uint64_t s, int64_t output) {
    return unit->a + unit->b * output + unit->c * output * output - (int64_t)q * output - (int64_t)s * unit->pu;
}

/* The smallest of the cheapest outputs: the first after which the next is not cheaper, since c is not below 0. */
static inline int64_t cheapest_output(const struct unit *unit, uint64_t q) {
    int64_t least = unit->pl, most = unit->pu;
    while (least < most) {
        int64_t middle = (least + most) / 2;
        if (worth(unit, q, 0, middle + 1) < worth(unit, q, 0, middle)) {
            least = middle + 1;
        } else {
            most = middle;
        }
    }
    return least;
}

/* The cheapest way to a status and the periods spent in it: what it is worth, and a bit for each period on, the highest for the
 * first, so that of equal ways the one with the smaller number is off first. */
struct way {
    int there;
    int64_t value;
    uint64_t on;
};

/* as many periods as can make a difference: TU on, TD + Tcold + 1 off */
#define MOST_SPENT 98

static inline int64_t counted(const struct unit *unit, int on, int64_t spent) {
    int64_t most = on ? unit->tu : unit->td + unit->tcold + 1;
    return spent < most ? spent : most;
}

static inline void take_way(struct way *to, struct way next) {
    if (!to->there || next.value < to->value || (next.value == to->value && next.on < to->on)) {
        *to = next;
    }
}

/* The way on from a period's start with the status `on` in it, if that is permitted. */
static inline void go_on(const struct unit *unit, int was, int64_t spent, int on, int64_t on_worth, const struct way *way,
                         struct way next[2][MOST_SPENT]) {
    if (!way->there || (on != was && spent < (was ? unit->tu : unit->td))) {
        return;
    }
    struct way longer = {1, way->value, way->on << 1 | (uint64_t)on};
    if (on != was) {
        longer.value += was ? unit->dc : spent <= unit->td + unit->tcold ? unit->hsc : unit->csc;
    }
    longer.value += on ? on_worth : 0;
    take_way(&next[on][counted(unit, on, on == was ? spent + 1 : 1)], longer);
}

/* The cheapest way through all periods of a unit with these statuses fixed; none where it is stuck. */
static inline struct way cheapest_way(const struct unit *unit, size_t periods, const struct leaf *leaf, const uint8_t *fixed) {
    struct way ways[2][MOST_SPENT] = {0}, best = {0};
    int on = unit->tini > 0;
    ways[on][counted(unit, on, on ? unit->tini : -unit->tini)] = (struct way){1, 0, 0};
    for (size_t t = 0; t < periods; t++) {
        struct way next[2][MOST_SPENT] = {0};
        int64_t on_worth = worth(unit, leaf->q[t], leaf->s[t], cheapest_output(unit, leaf->q[t]));
        for (int was = 0; was < 2; was++) {
            for (int64_t spent = 1; spent < MOST_SPENT; spent++) {
                for (on = fixed[t] == DOCKET_FIXED_ON; on <= (fixed[t] != DOCKET_FIXED_OFF); on++) {
                    go_on(unit, was, spent, on, on_worth, &ways[was][spent], next);
                }
            }
        }
        memcpy(ways, next, sizeof ways);
    }
    for (int was = 0; was < 2; was++) {
        for (int spent = 1; spent < MOST_SPENT; spent++) {
            if (ways[was][spent].there) {
                take_way(&best, ways[was][spent]);
            }
        }
    }
    return best;
}

/* What is due to a leaf. */
static inline void find_draft(const struct plant *of, const struct leaf *leaf, struct draft *due) {
    size_t fit[LEAF_PARTS];
    fit_lengths(of, fit);
    due->answer = of->periods == 0 ? DOCKET_RUNS_NO_PROBLEM : DOCKET_RUNS_UNFIT;
    if (of->periods == 0 || !is_leaf_fit(of, leaf, fit, LEAF_PARTS)) {
        return;
    }
    due->value = 0;
    for (size_t t = 0; t < of->periods; t++) {
        int64_t q = (int64_t)leaf->q[t], s = (int64_t)leaf->s[t];
        due->shortfalls[t] = (uint64_t)of->demand[t];
        due->value += q * of->demand[t] + s * (of->demand[t] + of->spare[t]);
    }
    for (size_t u = 0; u < of->units; u++) {
        struct way way = cheapest_way(&of->all[u], of->periods, leaf, leaf->fixed + u * of->periods);
        if (!way.there) {
            due->answer = DOCKET_RUNS_STUCK + u + 1;
            return;
        }
        due->value += way.value;
        for (size_t t = 0; t < of->periods; t++) {
            int on = way.on >> (of->periods - 1 - t) & 1;
            uint64_t output = on ? (uint64_t)cheapest_output(&of->all[u], leaf->q[t]) : 0;
            due->runs[u * of->periods + t] = output;
            due->shortfalls[t] -= output < due->shortfalls[t] ? output : due->shortfalls[t];
        }
    }
    due->answer = DOCKET_RUNS_FOUND;
}

/* What a call is lent for a leaf, up to pages that may not be touched, or from such pages on. */
struct leaf_room {
    uint8_t *starts[LEAF_PARTS];
    int from;
};

/* for each part: more than twice as many numbers as a problem has statuses */
#define PART_BYTES (2 * LONGEST_PART * sizeof(uint64_t))

static inline struct leaf_room room_for_leaf(int from) {
    struct leaf_room room = {.from = from};
    for (int part = 0; part < LEAF_PARTS; part++) {
        room.starts[part] = pages(pages_for(PART_BYTES));
    }
    return room;
}

/* Lends a leaf's parts, whose numbers are so wide: those that are only read as they are, the others painted. */
static inline void lend_parts(const struct leaf_room *room, const struct leaf *leaf, size_t parts, const size_t *widths,
                              void **lent) {
    const void *read[READ_PARTS] = {leaf->q, leaf->s, leaf->fixed};
    for (size_t part = 0; part < parts; part++) {
        size_t bytes = leaf->lengths[part] * widths[part];
        lent[part] = room->from ? room->starts[part] : room->starts[part] + PART_BYTES - bytes;
        if (part < READ_PARTS) {
            memcpy(lent[part], read[part], bytes);
        } else {
            memset(lent[part], PAINT, bytes);
        }
    }
}

/* Whether what is only read of the lent parts is as it was, and the others have what is written; where that is none, nothing is. */
static inline int are_written(const struct leaf *leaf, size_t parts, const size_t *widths, void *const *lent,
                              const void *const *written) {
    const void *read[READ_PARTS] = {leaf->q, leaf->s, leaf->fixed};
    int good = 1;
    for (size_t part = 0; part < parts; part++) {
        size_t bytes = leaf->lengths[part] * widths[part];
        const void *due = part < READ_PARTS ? read[part] : written[part];
        good = good && (due == NULL ? painted(lent[part], bytes) : memcmp(lent[part], due, bytes) == 0);
    }
    return good;
}

/* Whether the docket answers the leaf as is due, writes the draft where there is one and nothing else, and leaves what it reads
 * of the leaf. */
static inline int answers_leaf(const struct docket *d, const struct leaf *leaf, const struct leaf_room *room,
                               const struct draft *due) {
    const void *found[LEAF_PARTS] = {[RUNS] = due->runs, [SHORTFALLS] = due->shortfalls, [VALUE] = &due->value};
    const void *nothing[LEAF_PARTS] = {0};
    const size_t *lengths = leaf->lengths;
    void *lent[LEAF_PARTS];
    lend_parts(room, leaf, LEAF_PARTS, part_widths, lent);
    size_t answer = docket_cheapest_runs(d->numbers, d->numbers_length, d->rows, d->rows_length, lent[PRICES], lengths[PRICES],
                                         lent[RESERVES], lengths[RESERVES], lent[STATUSES], lengths[STATUSES], lent[RUNS],
                                         lengths[RUNS], lent[SHORTFALLS], lengths[SHORTFALLS], lent[VALUE], lengths[VALUE]);
    const void *const *written = due->answer == DOCKET_RUNS_FOUND ? found : nothing;
    return answer == due->answer && are_written(leaf, LEAF_PARTS, part_widths, lent, written);
}

/* how often an answer came, as tests count them: runs, a stuck unit, no problem, unfit */
enum drafted { DRAFTED, STUCK, NO_PLANT, UNFIT_LEAF, DRAFTS };
static size_t drafted[DRAFTS];

/* Whether a docket that knows the problem answers the leaf as it must. */
static inline int drafts_rightly(const struct docket *d, const struct plant *of, const struct leaf *leaf,
                                 const struct leaf_room *room) {
    static struct draft due;
    find_draft(of, leaf, &due);
    switch (due.answer) {
    case DOCKET_RUNS_FOUND: drafted[DRAFTED]++; break;
    case DOCKET_RUNS_NO_PROBLEM: drafted[NO_PLANT]++; break;
    case DOCKET_RUNS_UNFIT: drafted[UNFIT_LEAF]++; break;
    default: drafted[STUCK]++;
    }
    return answers_leaf(d, leaf, room, &due);
}

/* Counts a test for each kind of answer: it came so often. */
static inline void count_drafts(size_t least) {
    static const char *const names[DRAFTS] = {"runs", "a stuck unit", "no problem", "unfit"};
    for (int k = 0; k < DRAFTS; k++) {
        printf("%6zu price leaves: %s\n", drafted[k], names[k]);
        count(drafted[k] >= least, "fewer than %zu price leaves: %s", least, names[k]);
    }
}

/* A multiplier; mostly a price at which outputs of the unit, or on and off, are worth the same. */
static inline uint64_t make_price(const struct unit *unit) {
    int64_t output = (int64_t)between((uint64_t)unit->pl, (uint64_t)unit->pu), price;
    switch (between(0, 7)) {
    case 0: price = 0; break;
    case 1: price = (int64_t)between(0, 9); break;
    case 2: price = worth(unit, 0, 0, output) / output; break;
    case 3: price = between(0, 9) == 0 ? (int64_t)between(0, MOST_MULTIPLIER) : unit->b + 1; break;
    default: price = unit->b + unit->c * (2 * output + 1) + (between(0, 3) == 0);
    }
    return price < (int64_t)MOST_MULTIPLIER ? (uint64_t)price : MOST_MULTIPLIER;
}

/* A problem to make leaves for, where none is known. */
static inline const struct plant *plant_or_other(const struct plant *of) {
    static const struct plant other = {.periods = 3, .units = 2, .all = {{.pl = 1, .pu = 9}, {.pl = 2, .pu = 2}}};
    return of->periods > 0 ? of : &other;
}

/* Makes the multipliers and statuses of a leaf. */
static inline void make_prices(const struct plant *plant, struct leaf *leaf) {
    uint64_t reserves = between(0, 3), often = between(0, 2);
    size_t all = plant->units * plant->periods;
    memset(leaf, 0, sizeof *leaf);
    for (size_t t = 0; t < plant->periods; t++) {
        leaf->q[t] = make_price(&plant->all[between(0, plant->units - 1)]);
        leaf->s[t] = reserves < 2 ? 0 : between(0, 19) == 0 ? between(0, MOST_MULTIPLIER) : between(0, 3);
    }
    for (uint64_t times = often == 0 ? 0 : between(1, often == 1 ? 4 : 4 + all / 8); times > 0; times--) {
        leaf->fixed[between(0, all - 1)] = (uint8_t)between(DOCKET_FIXED_OFF, DOCKET_FIXED_ON);
    }
}

/* Makes a leaf with so many parts, one in four, unfit for the problem in one way or two. */
static inline void spoil_some(const struct plant *plant, struct leaf *leaf, size_t parts) {
    uint64_t chance = between(0, 8);
    size_t all = plant->units * plant->periods;
    for (uint64_t ways = chance / 7 + chance / 8; ways > 0; ways--) {
        size_t part = between(0, parts - 1), length = leaf->lengths[part], t = between(0, plant->periods - 1);
        switch (between(0, 5)) {
        case 0: leaf->q[t] = above(MOST_MULTIPLIER); break;
        case 1: leaf->s[t] = above(MOST_MULTIPLIER); break;
        case 2: leaf->fixed[between(0, all - 1)] = (uint8_t)between(3, 255); break;
        case 3: leaf->lengths[part] = between(0, LONGEST_PART); break;
        default: leaf->lengths[part] = length == 0 || between(0, 1) == 0 ? length + 1 : length - 1;
        }
    }
}

/* Makes a leaf for docket_cheapest_runs, one in four of them unfit for the problem. */
static inline void make_leaf(const struct plant *of, struct leaf *leaf) {
    const struct plant *plant = plant_or_other(of);
    make_prices(plant, leaf);
    fit_lengths(plant, leaf->lengths);
    spoil_some(plant, leaf, LEAF_PARTS);
}

/* A number, which may have a minus. */
static inline int64_t read_signed(const char **place) {
    int minus = read_word(place, "-");
    int64_t number = (int64_t)read_number(place);
    return minus ? -number : number;
}

/* The numbers at the place, with commas between them; how many they are. */
static inline size_t read_numbers(const char **place, int64_t *numbers) {
    size_t length = 0;
    do {
        numbers[length++] = read_signed(place);
    } while (read_word(place, ","));
    return length;
}

/* Reads the problem in a text that is held. */
static inline void read_plant(const uint8_t *text, size_t length, struct plant *read) {
    memset(read, 0, sizeof *read);
    for (size_t at = 0; at < length; at = (size_t)((const uint8_t *)memchr(text + at, '\n', length - at) - text) + 1) {
        const char *place = (const char *)text + at;
        int64_t n[15];
        if (read_word(&place, "demand=")) {
            read->periods = read_numbers(&place, read->demand);
        } else if (read_word(&place, "spare=")) {
            read_numbers(&place, read->spare);
        } else if (read_word(&place, "unit=")) {
            read_numbers(&place, n);
            read->all[read->units++] = (struct unit){.a = n[0], .b = n[1], .c = n[2], .pl = n[3], .pu = n[4], .tu = n[5],
                .td = n[6], .tini = n[7], .hsc = n[10], .csc = n[11], .tcold = n[12], .dc = n[13]};
        }
    }
}

#endif
