/* Tests of docket_cheapest_runs: what document 02 and the decided points say of it, worked out by hand, questions that do not
 * fit, and 2,000 price leaves of problems of every size. SEED repeats those of a printed seed. The last line is 'N passed, M
 * failed'. */
#include "test_plants.h"

#define PROBLEMS 400
#define LEAVES 5

/* What is asked, where all else is lent, and the state before. */
static struct docket asked, kept;
static struct leaf_room lent;

/* The docket, begun anew, after a problem's text, or with none. */
static void know(const char *text) {
    need(docket_fresh(asked.numbers, asked.numbers_length, asked.rows, asked.rows_length) == 0, "docket_fresh");
    need(text == NULL || lodges(&asked, text, PROBLEM_HELD), "a problem");
    copy_docket(&kept, &asked);
}

/* Whether the leaf is answered as is due, and the state stays. */
static int asks(const struct leaf *leaf, const struct draft *due) {
    return answers_leaf(&asked, leaf, &lent, due) && same_docket(&asked, &kept);
}

/* Leaves of small problems, and what each is answered. */
static const struct example {
    const char *text;
    uint64_t q[3], s[3];
    uint8_t fixed[4];
    size_t answer;
    uint64_t runs[4], shortfalls[3];
    int64_t value;
} examples[] = {
    /* document 01's problem: unit 1 loses 100 in period 1 at any output and gains 220 in 2, unit 2 gains in none */
    {PROBLEM, {10, 14}, {0}, {0}, DOCKET_RUNS_FOUND, {20, 80, 0, 0}, {40, 20}, 1880},
    {PROBLEM, {10, 14}, {0}, {0, 0, 0, 2}, DOCKET_RUNS_FOUND, {20, 80, 0, 10}, {40, 10}, 1980},
    {PROBLEM, {12, 18}, {0}, {0}, DOCKET_RUNS_FOUND, {80, 80, 0, 50}, {0, 0}, 1820},
    /* a reserve pays for pU whatever the output: 240 to unit 1, and 150 to unit 2 for 60 + 180 - 100 */
    {PROBLEM, {10, 14}, {3, 0}, {0}, DOCKET_RUNS_FOUND, {20, 80, 10, 0}, {30, 20}, 1840},
    /* both off: unit 1 stops */
    {PROBLEM, {10, 14}, {0}, {1, 1, 1, 1}, DOCKET_RUNS_FOUND, {0, 0, 0, 0}, {60, 100}, 2005},
    /* off where on is worth as much, but not where a start or a stop is saved */
    {ONE_FREE("0,5,0,2,4,1,1,1,10,10,0,0,0,0,2"), {5, 7, 5}, {0}, {0}, DOCKET_RUNS_FOUND, {0, 4, 0}, {0}, -8},
    {ONE_FREE("0,5,0,2,4,1,1,1,10,10,3,3,0,0,2"), {5, 7, 5}, {0}, {0}, DOCKET_RUNS_FOUND, {2, 4, 0}, {0}, -8},
    {ONE_FREE("0,5,0,2,4,1,1,1,10,10,0,0,0,1,2"), {5, 5, 5}, {0}, {0}, DOCKET_RUNS_FOUND, {2, 2, 2}, {0}, 0},
    /* the demand counts in the value, and the spare where there is a reserve: 3 * 17 + 2 * 4 */
    {ONE("3", "3,3,3", "1,1,1", "0,5,0,2,4,1,1,1,10,10,0,0,0,0,2"), {5, 7, 5}, {0}, {0}, DOCKET_RUNS_FOUND, {0, 4, 0}, {3, 0, 3},
     43},
    {ONE("3", "3,3,3", "1,1,1", "0,5,0,2,4,1,1,1,10,10,0,0,0,0,2"), {5, 7, 5}, {0, 0, 2}, {0, 0, 1}, DOCKET_RUNS_FOUND, {0, 4, 0},
     {3, 0, 3}, 51},
    /* 2 * 3 + 9 - 27 = 2 * 4 + 16 - 36: the smaller of two cheapest outputs */
    {ONE("1", "0", "0", "0,2,1,2,6,1,1,-1,10,10,0,0,0,0,0"), {9}, {0}, {2}, DOCKET_RUNS_FOUND, {3}, {0}, -12},
    /* on in period 1 alone or in period 3 alone gains 5; for both it is off for too short a time */
    {ONE_FREE("10,0,0,1,1,1,2,1,10,10,0,0,0,0,1"), {15, 1, 15}, {0}, {0}, DOCKET_RUNS_FOUND, {0, 0, 1}, {0}, -5},
    {ONE_FREE("10,0,0,1,1,1,2,1,10,10,0,0,0,0,1"), {15, 1, 15}, {0}, {2, 0, 0}, DOCKET_RUNS_FOUND, {1, 0, 0}, {0}, -5},
    {ONE_FREE("10,0,0,1,1,1,2,1,10,10,0,0,0,0,1"), {15, 1, 15}, {0}, {2, 1, 2}, DOCKET_RUNS_STUCK + 1, {0}, {0}, 0},
    /* the lowest unit that is stuck */
    {ALIKE, {10, 14}, {0}, {0, 0, 1, 2}, DOCKET_RUNS_STUCK + 2, {0}, {0}, 0},
    {ALIKE, {10, 14}, {0}, {1, 2, 0, 0}, DOCKET_RUNS_STUCK + 1, {0}, {0}, 0},
    {ALIKE, {10, 14}, {0}, {1, 2, 1, 2}, DOCKET_RUNS_STUCK + 1, {0}, {0}, 0},
    /* and none where the one stays on, for 100 and 900 - 1120, and the other stops for 5 */
    {ALIKE, {10, 14}, {0}, {2, 2, 1, 1}, DOCKET_RUNS_FOUND, {20, 80, 0, 0}, {40, 20}, 1885},
};

static void test_examples(void) {
    static struct leaf leaf;
    static struct draft due, found;
    for (size_t k = 0; k < sizeof examples / sizeof *examples; k++) {
        const struct example *e = &examples[k];
        struct plant of;
        read_plant((const uint8_t *)e->text, strlen(e->text), &of);
        memcpy(leaf.q, e->q, sizeof e->q);
        memcpy(leaf.s, e->s, sizeof e->s);
        memcpy(leaf.fixed, e->fixed, sizeof e->fixed);
        fit_lengths(&of, leaf.lengths);
        due = (struct draft){.answer = e->answer, .value = e->value};
        memcpy(due.runs, e->runs, sizeof e->runs);
        memcpy(due.shortfalls, e->shortfalls, sizeof e->shortfalls);
        know(e->text);
        count(asks(&leaf, &due), "example %zu", k + 1);
        found = (struct draft){0};
        find_draft(&of, &leaf, &found);
        int same = found.answer == due.answer && (due.answer != DOCKET_RUNS_FOUND || memcmp(&found, &due, sizeof due) == 0);
        count(same, "example %zu, found apart from the archive", k + 1);
    }
}

/* The first leaf of the example's problem, of which one thing is then changed. */
static void make_fit(struct leaf *leaf, struct draft *due) {
    struct plant of;
    read_plant((const uint8_t *)PROBLEM, strlen(PROBLEM), &of);
    const struct priced *first = &example_priced[0];
    memset(leaf, 0, sizeof *leaf);
    memcpy(leaf->q, first->q, sizeof first->q);
    fit_lengths(&of, leaf->lengths);
    *due = (struct draft){.answer = first->answer, .value = first->value};
    memcpy(due->runs, first->runs, sizeof first->runs);
    memcpy(due->shortfalls, first->shortfalls, sizeof first->shortfalls);
}

/* Each part of each length but the one that fits, all else as it must be, and each two parts one off each way. */
static void test_lengths(const char *text, size_t unfit, const char *held) {
    static const char *const names[LEAF_PARTS] = {"q", "s", "fixed", "runs", "shortfalls", "value"};
    static struct leaf leaf;
    static struct draft due;
    know(text);
    for (int part = 0; part < LEAF_PARTS; part++) {
        int good = 1, both = 1;
        make_fit(&leaf, &due);
        size_t fit = leaf.lengths[part];
        for (size_t length = 0; length <= LONGEST_PART; length++) {
            due.answer = length == fit && text != NULL ? DOCKET_RUNS_FOUND : unfit;
            leaf.lengths[part] = length;
            good = asks(&leaf, &due) && good;
        }
        due.answer = unfit;
        for (int other = 0; other < LEAF_PARTS; other++) {
            for (int way = 0; way < 4 && other != part; way++) {
                make_fit(&leaf, &due);
                due.answer = unfit;
                leaf.lengths[part] += way % 2 == 0 ? 1 : SIZE_MAX;
                leaf.lengths[other] += way < 2 ? 1 : SIZE_MAX;
                both = asks(&leaf, &due) && both;
            }
        }
        count(good, "%s of every length, %s", names[part], held);
        count(both, "%s and another one off, %s", names[part], held);
    }
}

/* Every byte for every status, and multipliers at and beyond the largest. */
static void test_numbers(void) {
    static struct leaf leaf;
    static struct draft due, found;
    struct plant of;
    read_plant((const uint8_t *)PROBLEM, strlen(PROBLEM), &of);
    int bytes = 1, multipliers = 1;
    know(PROBLEM);
    for (size_t at = 0; at < 4; at++) {
        for (int byte = 0; byte < 256; byte++) {
            make_fit(&leaf, &due);
            leaf.fixed[at] = (uint8_t)byte;
            find_draft(&of, &leaf, &found);
            bytes = (found.answer == DOCKET_RUNS_UNFIT) == (byte > 2) && asks(&leaf, &found) && bytes;
        }
    }
    count(bytes, "every byte for every status");
    for (int at = 0; at < 4; at++) {
        for (int power = 0; power < 64; power++) {
            for (uint64_t more = 0; more < 3; more++) {
                make_fit(&leaf, &due);
                uint64_t *multiplier = at < 2 ? &leaf.q[at] : &leaf.s[at - 2];
                *multiplier = power == 0 ? MOST_MULTIPLIER + more - 1 : ((uint64_t)1 << power) + more - 1;
                find_draft(&of, &leaf, &found);
                int good = (found.answer == DOCKET_RUNS_UNFIT) == (*multiplier > 1000000000) && asks(&leaf, &found);
                multipliers = good && multipliers;
            }
        }
    }
    count(multipliers, "every size of every multiplier");
}

/* Where several answers are due: a state that is too short, then no docket, then no problem, then unfit, then a stuck unit. */
static void test_order(void) {
    static struct leaf stuck, unfit;
    static struct draft due;
    make_fit(&stuck, &due);
    stuck.fixed[0] = DOCKET_FIXED_OFF;
    stuck.fixed[1] = DOCKET_FIXED_ON;
    unfit = stuck;
    unfit.q[1] = unfit.s[0] = MOST_MULTIPLIER + 1;
    unfit.fixed[3] = 3;
    unfit.lengths[VALUE] = 0;
    unfit.lengths[RUNS]++;
    for (int known = 0; known < 2; known++) {
        know(known ? PROBLEM : NULL);
        due.answer = known ? DOCKET_RUNS_STUCK + 1 : DOCKET_RUNS_NO_PROBLEM;
        count(asks(&stuck, &due), "a stuck unit, %d problems known", known);
        due.answer = known ? DOCKET_RUNS_UNFIT : DOCKET_RUNS_NO_PROBLEM;
        count(asks(&unfit, &due), "all is unfit, %d problems known", known);
        asked.numbers[0]++;
        kept.numbers[0]++;
        due.answer = DOCKET_NO_DOCKET;
        count(asks(&stuck, &due) && asks(&unfit, &due), "no docket before that, %d problems known", known);
        due.answer = DOCKET_TOO_SMALL;
        int good = 1;
        for (int short_rows = 0; short_rows < 2; short_rows++) {
            for (size_t fewer = 1; fewer <= 2; fewer++) {
                struct docket whole = asked;
                *(short_rows ? &asked.rows_length : &asked.numbers_length) -= fewer;
                good = asks(&stuck, &due) && asks(&unfit, &due) && good;
                asked = whole;
            }
        }
        count(good, "a state that is too short before that, %d problems known", known);
    }
}

static void test_random(void) {
    static struct leaf leaf;
    int good = 1;
    printf("seed %" PRIu64 ", %d price leaves\n", begin_random(), PROBLEMS * LEAVES);
    memset(drafted, 0, sizeof drafted);
    for (int k = 0; k < PROBLEMS; k++) {
        struct plant of = k % 10 == 0 ? (struct plant){0} : any_plant();
        know(of.periods == 0 ? NULL : write_plant(&of));
        for (int times = 0; times < LEAVES; times++) {
            make_leaf(&of, &leaf);
            lent.from = (int)between(0, 1);
            good = drafts_rightly(&asked, &of, &leaf, &lent) && same_docket(&asked, &kept) && good;
        }
    }
    count(good, "random price leaves");
    count_drafts(PROBLEMS * LEAVES / 20);
}

int main(void) {
    asked = fresh_docket();
    kept = fresh_docket();
    for (int from = 0; from < 2; from++) {
        lent = room_for_leaf(from);
        test_examples();
    }
    test_lengths(PROBLEM, DOCKET_RUNS_UNFIT, "a problem known");
    test_lengths(NULL, DOCKET_RUNS_NO_PROBLEM, "no problem known");
    test_numbers();
    test_order();
    test_random();
    return finish();
}
