/* Tests of docket_forced_statuses: what document 02 and the decided points say of it, worked out by hand, questions that do not
 * fit, and 2,000 price leaves of problems of every size. SEED repeats those of a printed seed. The last line is 'N passed, M
 * failed'. */
#include "test_forced.h"
#include "test_plants.h"

#define PROBLEMS 400
#define LEAVES 5

/* What is asked, where all else is lent, and the state before. */
static struct docket asked, kept;
static struct leaf_room lent;

/* The docket, begun anew, after a problem's text, or with none. */
static void know(const char *text) {
    need(docket_fresh(asked.numbers, asked.numbers_length, asked.rows, asked.rows_length) == 0, "docket_fresh");
    need(text == NULL || lodges(&asked, text, PROBLEM_HELD), "a problem");
    copy_docket(&kept, &asked);
}

/* Whether the leaf is answered as is due, and the state stays. */
static int asks(const struct leaf *leaf, const struct entries *due) {
    return answers_entries(&asked, leaf, &lent, due) && same_docket(&asked, &kept);
}

/* in the examples: an entry that says stuck */
#define NONE INT64_MIN

/* Leaves of small problems, and their entries: by unit and period off, on. */
static const struct example {
    const char *text;
    uint64_t q[3], s[3];
    uint8_t fixed[4];
    int64_t entries[8];
} examples[] = {
    /* document 01's problem: unit 1 loses 100 in period 1, gains 220 in 2, stops for 5, and cannot be off and then on; unit 2
     * loses 80 and 40, and starts for 60 */
    {PROBLEM, {10, 14}, {0}, {0}, {5, -120, 5, -120, 0, 140, 0, 100}},
    {PROBLEM, {10, 14}, {0}, {0, 0, 0, 2}, {5, -120, 5, -120, 100, 180, NONE, 100}},
    {PROBLEM, {10, 14}, {0}, {0, 1, 0, 0}, {5, 105, 5, NONE, 0, 140, 0, 100}},
    /* what is fixed already is forced once more */
    {PROBLEM, {10, 14}, {0}, {2, 2, 1, 1}, {NONE, -120, NONE, -120, 0, NONE, 0, NONE}},
    /* a free period has one status left */
    {PROBLEM, {10, 14}, {0}, {1, 0, 0, 0}, {5, NONE, 5, NONE, 0, 140, 0, 100}},
    /* a reserve pays for pU whatever the output: 240 to unit 1, and 150 to unit 2 */
    {PROBLEM, {10, 14}, {3, 0}, {0}, {5, -360, -135, -360, 0, -10, -10, 30}},
    /* 8 gained in period 2 alone, where starts and stops are free, where a start costs 3, and nothing but 1 for a stop */
    {ONE_FREE("0,5,0,2,4,1,1,1,10,10,0,0,0,0,2"), {5, 7, 5}, {0}, {0}, {-8, -8, 0, -8, -8, -8}},
    {ONE_FREE("0,5,0,2,4,1,1,1,10,10,3,3,0,0,2"), {5, 7, 5}, {0}, {0}, {-5, -8, 0, -8, -8, -8}},
    {ONE_FREE("0,5,0,2,4,1,1,1,10,10,0,0,0,1,2"), {5, 5, 5}, {0}, {0}, {1, 0, 1, 0, 1, 0}},
    /* a hot start for 1 after one period off, a cold one for 10 after two; 8 gained in period 3 */
    {ONE_FREE("0,5,0,2,4,1,1,1,10,10,1,10,0,0,2"), {5, 5, 7}, {0}, {0}, {-7, -8, -7, -8, 0, -8}},
    {ONE_FREE("0,5,0,2,4,1,1,1,10,10,1,10,0,0,2"), {5, 5, 7}, {0}, {1, 1, 0}, {0, NONE, 0, NONE, 0, 2}},
    /* 5 gained in period 1 or 3, 9 lost in 2; one period off is too short a time */
    {ONE_FREE("10,0,0,1,1,1,2,1,10,10,0,0,0,0,1"), {15, 1, 15}, {0}, {0}, {-5, -5, -5, -1, -5, -5}},
    {ONE_FREE("10,0,0,1,1,1,2,1,10,10,0,0,0,0,1"), {15, 1, 15}, {0}, {2, 0, 0}, {NONE, -5, -5, -1, -5, -1}},
    {ONE_FREE("10,0,0,1,1,1,2,1,10,10,0,0,0,0,1"), {15, 1, 15}, {0}, {2, 1, 0}, {NONE, -5, -5, NONE, -5, NONE}},
    {ONE_FREE("10,0,0,1,1,1,2,1,10,10,0,0,0,0,1"), {15, 1, 15}, {0}, {2, 1, 2}, {NONE, NONE, NONE, NONE, NONE, NONE}},
    /* demand and spare have no part in it: 2 * 3 + 9 - 27 */
    {ONE("1", "7", "9", "0,2,1,2,6,1,1,-1,10,10,0,0,0,0,0"), {9}, {0}, {0}, {0, -12}},
    {ONE("1", "7", "9", "0,2,1,2,6,1,1,-1,10,10,0,0,0,0,0"), {9}, {2}, {0}, {0, -24}},
    /* a stuck unit before another, behind it, and two of them */
    {ALIKE, {10, 14}, {0}, {1, 2, 0, 0}, {NONE, NONE, NONE, NONE, 5, -120, 5, -120}},
    {ALIKE, {10, 14}, {0}, {0, 0, 1, 2}, {5, -120, 5, -120, NONE, NONE, NONE, NONE}},
    {ALIKE, {10, 14}, {0}, {1, 2, 1, 2}, {NONE, NONE, NONE, NONE, NONE, NONE, NONE, NONE}},
};

static void test_examples(void) {
    static struct leaf leaf;
    static struct entries due, found;
    for (size_t k = 0; k < sizeof examples / sizeof *examples; k++) {
        const struct example *e = &examples[k];
        struct plant of;
        read_plant((const uint8_t *)e->text, strlen(e->text), &of);
        memcpy(leaf.q, e->q, sizeof e->q);
        memcpy(leaf.s, e->s, sizeof e->s);
        memcpy(leaf.fixed, e->fixed, sizeof e->fixed);
        fit_entries(&of, leaf.lengths);
        due = (struct entries){.answer = DOCKET_FORCED_FOUND};
        for (size_t at = 0; at < leaf.lengths[ENTRIES]; at++) {
            due.stuck[at] = e->entries[at] == NONE;
            due.values[at] = due.stuck[at] ? 0 : e->entries[at];
        }
        know(e->text);
        count(asks(&leaf, &due), "example %zu", k + 1);
        found = (struct entries){0};
        find_entries(&of, &leaf, &found);
        count(memcmp(&found, &due, sizeof due) == 0, "example %zu, found apart from the archive", k + 1);
    }
}

/* The first leaf of the example's problem, of which one thing is then changed. */
static void make_fit(struct leaf *leaf, struct entries *due) {
    struct plant of;
    read_plant((const uint8_t *)PROBLEM, strlen(PROBLEM), &of);
    const struct forced *first = &example_forced[0];
    memset(leaf, 0, sizeof *leaf);
    memcpy(leaf->q, first->q, sizeof first->q);
    fit_entries(&of, leaf->lengths);
    due->answer = DOCKET_FORCED_FOUND;
    memcpy(due->values, first->values, sizeof first->values);
    memcpy(due->stuck, first->stuck, sizeof first->stuck);
}

/* Each part of each length but the one that fits, all else as it must be, and each two parts one off each way. */
static void test_lengths(const char *text, size_t unfit, const char *held) {
    static const char *const names[FORCED_PARTS] = {"q", "s", "fixed", "values", "stuck"};
    static struct leaf leaf;
    static struct entries due;
    know(text);
    for (int part = 0; part < FORCED_PARTS; part++) {
        int good = 1, both = 1;
        make_fit(&leaf, &due);
        size_t fit = leaf.lengths[part];
        for (size_t length = 0; length <= LONGEST_PART; length++) {
            due.answer = length == fit && text != NULL ? DOCKET_FORCED_FOUND : unfit;
            leaf.lengths[part] = length;
            good = asks(&leaf, &due) && good;
        }
        for (int other = 0; other < FORCED_PARTS; other++) {
            for (int way = 0; way < 4 && other != part; way++) {
                make_fit(&leaf, &due);
                due.answer = unfit;
                leaf.lengths[part] += way % 2 == 0 ? 1 : SIZE_MAX;
                leaf.lengths[other] += way < 2 ? 1 : SIZE_MAX;
                both = asks(&leaf, &due) && both;
            }
        }
        count(good, "%s of every length, %s", names[part], held);
        count(both, "%s and another one off, %s", names[part], held);
    }
}

/* Every byte for every status, and multipliers at and beyond the largest. */
static void test_numbers(void) {
    static struct leaf leaf;
    static struct entries found;
    struct plant of;
    read_plant((const uint8_t *)PROBLEM, strlen(PROBLEM), &of);
    int bytes = 1, multipliers = 1;
    know(PROBLEM);
    for (size_t at = 0; at < 4; at++) {
        for (int byte = 0; byte < 256; byte++) {
            make_fit(&leaf, &found);
            leaf.fixed[at] = (uint8_t)byte;
            find_entries(&of, &leaf, &found);
            bytes = (found.answer == DOCKET_FORCED_UNFIT) == (byte > 2) && asks(&leaf, &found) && bytes;
        }
    }
    count(bytes, "every byte for every status");
    for (int at = 0; at < 4; at++) {
        for (int power = 0; power < 64; power++) {
            for (uint64_t more = 0; more < 3; more++) {
                make_fit(&leaf, &found);
                uint64_t *multiplier = at < 2 ? &leaf.q[at] : &leaf.s[at - 2];
                *multiplier = power == 0 ? MOST_MULTIPLIER + more - 1 : ((uint64_t)1 << power) + more - 1;
                find_entries(&of, &leaf, &found);
                int good = (found.answer == DOCKET_FORCED_UNFIT) == (*multiplier > 1000000000) && asks(&leaf, &found);
                multipliers = good && multipliers;
            }
        }
    }
    count(multipliers, "every size of every multiplier");
}

/* Where several answers are due: a state that is too short, then no docket, then no problem, then unfit; a stuck unit is none. */
static void test_order(void) {
    static struct leaf stuck, unfit;
    static struct entries due;
    const struct forced *first_stuck = &example_forced[4];
    make_fit(&stuck, &due);
    memcpy(stuck.fixed, first_stuck->fixed, sizeof first_stuck->fixed);
    memcpy(due.values, first_stuck->values, sizeof first_stuck->values);
    memcpy(due.stuck, first_stuck->stuck, sizeof first_stuck->stuck);
    unfit = stuck;
    unfit.q[1] = unfit.s[0] = MOST_MULTIPLIER + 1;
    unfit.fixed[3] = 3;
    unfit.lengths[ENTRIES]++;
    unfit.lengths[MARKS] = 0;
    for (int known = 0; known < 2; known++) {
        know(known ? PROBLEM : NULL);
        due.answer = known ? DOCKET_FORCED_FOUND : DOCKET_FORCED_NO_PROBLEM;
        count(asks(&stuck, &due), "a stuck unit, %d problems known", known);
        due.answer = known ? DOCKET_FORCED_UNFIT : DOCKET_FORCED_NO_PROBLEM;
        count(asks(&unfit, &due), "all is unfit, %d problems known", known);
        asked.numbers[0]++;
        kept.numbers[0]++;
        due.answer = DOCKET_NO_DOCKET;
        count(asks(&stuck, &due) && asks(&unfit, &due), "no docket before that, %d problems known", known);
        due.answer = DOCKET_TOO_SMALL;
        int good = 1;
        for (size_t fewer = 0; fewer < 4; fewer++) {
            struct docket whole = asked;
            *(fewer % 2 ? &asked.rows_length : &asked.numbers_length) -= fewer / 2 + 1;
            good = asks(&stuck, &due) && asks(&unfit, &due) && good;
            asked = whole;
        }
        count(good, "a state that is too short before that, %d problems known", known);
    }
}

static void test_random(void) {
    static struct leaf leaf;
    int good = 1;
    printf("seed %" PRIu64 ", %d price leaves\n", begin_random(), PROBLEMS * LEAVES);
    memset(entered, 0, sizeof entered);
    for (int k = 0; k < PROBLEMS; k++) {
        struct plant of = k % 10 == 0 ? (struct plant){0} : any_plant();
        know(of.periods == 0 ? NULL : write_plant(&of));
        for (int times = 0; times < LEAVES; times++) {
            make_forced(&of, &leaf);
            lent.from = (int)between(0, 1);
            good = forces_rightly(&asked, &of, &leaf, &lent) && same_docket(&asked, &kept) && good;
        }
    }
    count(good, "random price leaves with a status forced");
    count_entries(PROBLEMS * LEAVES / 20);
}

int main(void) {
    asked = fresh_docket();
    kept = fresh_docket();
    for (int from = 0; from < 2; from++) {
        lent = room_for_leaf(from);
        test_examples();
    }
    test_lengths(PROBLEM, DOCKET_FORCED_UNFIT, "a problem known");
    test_lengths(NULL, DOCKET_FORCED_NO_PROBLEM, "no problem known");
    test_numbers();
    test_order();
    test_random();
    return finish();
}
