/* Tests of docket_units_taken: what document 02 and the decided points say of it, questions that do not fit, and 20,000 questions
 * about problems of every size. SEED repeats those of a printed seed. The last line is 'N passed, M failed'. */
#include "test_questions.h"

#define PROBLEMS 1000
#define QUESTIONS 20

/* The text of a problem with these capacities, whose units may be on or off at will. */
static const char *problem(const struct capacities *of) {
    static char text[4096];
    size_t at = (size_t)snprintf(text, sizeof text, "kind=problem\nperiods=%zu\nunits=%zu\n", of->periods, of->units);
    for (int spare = 0; spare < 2; spare++) {
        at += (size_t)snprintf(text + at, sizeof text - at, spare ? "spare=" : "demand=");
        for (size_t t = 0; t < of->periods; t++) {
            uint64_t part = spare ? of->needed[t] / 2 : of->needed[t] - of->needed[t] / 2;
            at += (size_t)snprintf(text + at, sizeof text - at, "%" PRIu64 "%s", part, t + 1 < of->periods ? "," : "\n");
        }
    }
    for (size_t u = 0; u < of->units; u++) {
        at += (size_t)snprintf(text + at, sizeof text - at, "unit=0,0,0,1,%" PRIu64 ",1,1,-1,1,1,0,0,0,0,0\n", of->most[u]);
    }
    at += (size_t)snprintf(text + at, sizeof text - at, "end=problem\n");
    need(at < sizeof text, "room for a problem");
    return text;
}

/* The docket, begun anew, that knows this problem. */
static void know(struct docket *d, const struct capacities *of) {
    need(docket_fresh(d->numbers, d->numbers_length, d->rows, d->rows_length) == 0, "docket_fresh");
    need(of->periods == 0 || lodges(d, problem(of), PROBLEM_HELD), "a problem");
}

/* Units of one period, what is needed there, the upper count or -1, the statuses, and what is told. */
static const struct example {
    size_t units;
    uint64_t most[4], needed;
    int count;
    uint8_t fixed[4];
    uint64_t is_short, taken;
} examples[] = {
    {3, {80, 50, 30}, 120, -1, {0, 0, 0}, 0, 2},   {3, {80, 50, 30}, 120, 2, {0, 0, 0}, 0, 2},
    {3, {80, 50, 30}, 120, 1, {0, 0, 0}, 1, 1},    {3, {80, 50, 30}, 120, -1, {1, 0, 0}, 1, 2},
    {3, {80, 50, 30}, 120, -1, {2, 2, 2}, 0, 2},   {3, {80, 50, 30}, 120, 1, {2, 2, 2}, 1, 1},
    {3, {30, 50, 80}, 100, -1, {0, 0, 0}, 0, 3},   {3, {30, 50, 80}, 100, 2, {0, 0, 0}, 0, 2},
    {3, {30, 50, 80}, 80, -1, {0, 0, 0}, 0, 2},    {3, {30, 50, 80}, 80, 2, {0, 0, 0}, 0, 1},
    {3, {30, 50, 80}, 81, -1, {0, 0, 0}, 0, 3},    {3, {30, 50, 80}, 81, 1, {0, 0, 0}, 1, 1},
    {3, {30, 50, 80}, 100, -1, {0, 1, 0}, 0, 2},   {3, {30, 50, 80}, 80, 2, {0, 0, 1}, 0, 2},
    {3, {30, 50, 80}, 160, -1, {0, 0, 0}, 0, 3},   {3, {30, 50, 80}, 161, -1, {0, 0, 0}, 1, 3},
    {3, {30, 50, 80}, 130, 2, {0, 0, 0}, 0, 2},    {3, {30, 50, 80}, 131, 2, {0, 0, 0}, 1, 2},
    {3, {80, 50, 30}, 0, -1, {0, 0, 0}, 0, 0},     {3, {80, 50, 30}, 0, 0, {0, 0, 0}, 0, 0},
    {3, {80, 50, 30}, 0, -1, {1, 1, 1}, 0, 0},     {3, {80, 50, 30}, 1, -1, {1, 1, 1}, 1, 0},
    {3, {80, 50, 30}, 1, 0, {0, 0, 0}, 1, 0},      {3, {80, 50, 30}, 1, 0, {2, 2, 2}, 1, 0},
    {4, {40, 40, 40, 40}, 81, -1, {0, 0, 0, 0}, 0, 3}, {4, {40, 40, 40, 40}, 81, 3, {1, 0, 0, 0}, 0, 3},
    {4, {40, 40, 40, 40}, 81, 2, {0, 0, 0, 0}, 1, 2},  {4, {30, 50, 80, 20}, 111, 3, {0, 1, 0, 1}, 1, 2},
};

static void test_examples(void) {
    struct docket d = fresh_docket();
    struct written w = room_to_write();
    for (size_t k = 0; k < sizeof examples / sizeof *examples; k++) {
        const struct example *e = &examples[k];
        struct capacities of = {.periods = 1, .units = e->units, .needed = {e->needed}};
        memcpy(of.most, e->most, sizeof e->most);
        know(&d, &of);
        size_t answer = take_units(&d, 1, (size_t)(e->count + 1), e->fixed, e->units, w.taken);
        uint64_t is_short = w.taken[DOCKET_TAKEN_SHORT], units = w.taken[DOCKET_TAKEN_UNITS];
        count(answer == DOCKET_TAKEN_TOLD && is_short == e->is_short && units == e->taken,
              "example %zu: %" PRIu64 ", %" PRIu64, k + 1, is_short, units);
    }
}

/* three periods, two units */
static const struct capacities small = {.periods = 3, .units = 2, .needed = {60, 90, 0}, .most = {70, 50}};

/* What is asked, where statuses and answers are lent, and the state before. */
static struct docket asked, kept;
static uint8_t *fixed_room;
static uint64_t *taken_room;

/* Whether the question is answered as it must be, with so many numbers lent for the answer, and the state stays. */
static int asks(const struct capacities *of, const struct question *q, size_t taken_length) {
    return answers_rightly(&asked, of, q, fixed_room + LONGEST_FIXED - q->length, taken_room + 16 - taken_length, taken_length) &&
           same_docket(&asked, &kept);
}

/* Each question of one number, status or length that does not fit, of a docket with the problem, or with none. */
static void test_unfit(const struct capacities *of, const char *held) {
    static struct question q;
    const struct question fit = {.period = 2, .most = 1, .length = small.periods * small.units};
    int periods = 1, mosts = 1, lengths = 1, bytes = 1;
    know(&asked, of);
    copy_docket(&kept, &asked);
    for (int power = 0; power < 64; power++) {
        for (size_t more = 0; more < 5; more++) {
            q = fit;
            q.period = ((size_t)1 << power) + more - 1;
            periods = asks(of, &q, DOCKET_TAKEN) && periods;
            q.period = SIZE_MAX - q.period;
            periods = asks(of, &q, DOCKET_TAKEN) && periods;
            q = fit;
            q.most = ((size_t)1 << power) + more - 1;
            mosts = asks(of, &q, DOCKET_TAKEN) && mosts;
            q.most = SIZE_MAX - q.most;
            mosts = asks(of, &q, DOCKET_TAKEN) && mosts;
        }
    }
    q = fit;
    for (q.length = 0; q.length <= LONGEST_FIXED; q.length++) {
        lengths = asks(of, &q, DOCKET_TAKEN) && lengths;
    }
    for (size_t at = 0; at < fit.length; at++) {
        for (int byte = 0; byte < 256; byte++) {
            q = fit;
            q.fixed[at] = (uint8_t)byte;
            bytes = asks(of, &q, 2 + (size_t)byte % 15) && bytes;
        }
    }
    count(periods, "every period, %s", held);
    count(mosts, "every upper count, %s", held);
    count(lengths, "statuses of every length, %s", held);
    count(bytes, "every byte for every status, %s", held);
}

/* Where several answers are due: too little room, then no docket, then no problem, then unfit. */
static void test_order(void) {
    uint8_t fixed[7] = {9, 9, 9, 9, 9, 9, 9};
    for (int known = 0; known < 2; known++) {
        know(&asked, known ? &small : &(struct capacities){0});
        copy_docket(&kept, &asked);
        memset(taken_room, PAINT, 16 * sizeof *taken_room);
        size_t due = known ? DOCKET_TAKEN_UNFIT : DOCKET_TAKEN_NO_PROBLEM;
        count(take_units(&asked, 0, SIZE_MAX, fixed, sizeof fixed, taken_room) == due, "all is unfit, %d problems known", known);
        asked.numbers[0]++;
        count(take_units(&asked, 0, SIZE_MAX, fixed, sizeof fixed, taken_room) == DOCKET_NO_DOCKET, "no docket before that");
        int small_room = 1;
        for (size_t lent = 0; lent < DOCKET_TAKEN; lent++) {
            size_t answer = docket_units_taken(asked.numbers, asked.numbers_length, asked.rows, asked.rows_length, 0, SIZE_MAX,
                                               fixed, sizeof fixed, taken_room + 16 - lent, lent);
            small_room = answer == DOCKET_TOO_SMALL && small_room;
        }
        count(small_room, "too little room before that");
        asked.numbers[0]--;
        count(same_docket(&asked, &kept) && painted(taken_room, 16 * sizeof *taken_room), "and all is as it was");
    }
}

/* Capacities of a problem of any size, in which sums are often just enough or just not. */
static struct capacities any_capacities(void) {
    uint64_t step = between(0, 1) ? 1 : between(1, 100), size = between(0, 9);
    struct capacities of = {.periods = size == 0 ? 48 : between(1, 48), .units = size < 2 ? 32 : between(1, 32)};
    uint64_t largest = between(1, 10000 / step), most = of.units * largest * step;
    for (size_t u = 0; u < of.units; u++) {
        of.most[u] = step * between(1, largest);
    }
    for (size_t t = 0; t < of.periods; t++) {
        uint64_t needed = between(0, 5) == 0 ? 0 : step * between(0, most / step / between(1, 4));
        of.needed[t] = needed + (between(0, 3) == 0);
    }
    return of;
}

static void test_random(void) {
    static struct question q;
    int good = 1;
    printf("seed %" PRIu64 ", %d questions\n", begin_random(), PROBLEMS * QUESTIONS);
    memset(answered, 0, sizeof answered);
    for (int k = 0; k < PROBLEMS; k++) {
        struct capacities of = k % 10 == 0 ? (struct capacities){0} : any_capacities();
        know(&asked, &of);
        copy_docket(&kept, &asked);
        for (int times = 0; times < QUESTIONS; times++) {
            make_question(&of, &q);
            good = asks(&of, &q, between(2, 16)) && good;
        }
    }
    count(good, "random questions");
    count_answers(PROBLEMS * QUESTIONS / 20);
}

int main(void) {
    asked = fresh_docket();
    kept = fresh_docket();
    fixed_room = room(LONGEST_FIXED);
    taken_room = room(16 * sizeof *taken_room);
    test_examples();
    test_unfit(&small, "a problem known");
    test_unfit(&(struct capacities){0}, "no problem known");
    test_order();
    test_random();
    return finish();
}
