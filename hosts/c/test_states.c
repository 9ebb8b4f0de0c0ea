/* Tests of changed states: ./test_states FILE.. changes the states of a docket after the texts of each FILE.txt, and asks every
 * call. SEED repeats the changes of a printed seed. The last line is 'N passed, M failed'. */
#include "test_calls.h"
#include "test_changes.h"
#include "test_forced.h"
#include "test_questions.h"

#define STATES 100000

/* of how many states that are sound one is asked for runs, and one for entries with a status forced, which take longer */
#define UNTIL_RUNS 4

enum kind { MARK_CHANGED, PROBLEM_OUT_OF_RANGE, FIGURE_TOO_LARGE, HELD_WITHOUT_PROBLEM, STILL_SOUND, KINDS };

static const char *const kind_names[KINDS] = {"the mark changed", "a problem's number out of range", "a figure too large",
                                              "something held without a problem", "still sound"};

/* A state to begin from, and the texts of its input. */
struct base {
    uint64_t numbers[NUMBERS];
    uint16_t rows[ROWS];
    const struct input *input;
};

static struct base *bases;
static size_t bases_count;

/* The changed state as it is lent to a call, and as it was before. */
static struct docket changed, before;

static struct written w;

/* Keeps the docket's state as one to begin from. */
static void keep_base(const struct docket *d, const struct input *input) {
    bases = realloc(bases, (bases_count + 1) * sizeof *bases);
    need(bases != NULL, "realloc");
    memcpy(bases[bases_count].numbers, d->numbers, sizeof bases->numbers);
    memcpy(bases[bases_count].rows, d->rows, sizeof bases->rows);
    bases[bases_count++].input = input;
}

/* The states of a docket before the input's texts and after each that is held. */
static void keep_bases(const struct input *input) {
    struct docket d = fresh_docket();
    keep_base(&d, input);
    for (size_t at = 0, length; at < input->text.length; at += length) {
        length = first_text(input->text.start + at, input->text.length - at);
        size_t answer = lodge(&d, input->text.start + at, length, w.line, w.values);
        need(answer <= DOCKET_LINE_BYTES, "docket_lodge");
        if (w.values[DOCKET_ANSWER] == DOCKET_HELD) {
            keep_base(&d, input);
        }
    }
}

/* Lays a changed state out in `changed` and `before`; the input whose texts belong to it. */
static const struct input *make_state(enum kind kind) {
    const struct base *base;
    do {
        base = &bases[between(0, bases_count - 1)];
    } while ((kind == PROBLEM_OUT_OF_RANGE || kind == FIGURE_TOO_LARGE) && !base->numbers[AT_KNOWN]);
    memcpy(before.numbers, base->numbers, sizeof base->numbers);
    memcpy(before.rows, base->rows, sizeof base->rows);
    switch (kind) {
    case MARK_CHANGED: change_mark(before.numbers); break;
    case PROBLEM_OUT_OF_RANGE: change_problem(before.numbers); break;
    case FIGURE_TOO_LARGE: change_figures(before.numbers); break;
    case HELD_WITHOUT_PROBLEM: hold_without_problem(before.numbers); break;
    default:
        for (uint64_t times = between(1, 8); times > 0; times--) {
            change_within(before.numbers, before.rows);
        }
    }
    copy_docket(&changed, &before);
    return base->input;
}

/* Whether the call did nothing, and answered so. */
static int did_nothing(size_t answer) { return answer == DOCKET_NO_DOCKET && same_docket(&changed, &before) && is_unwritten(&w); }

/* Whether the docket after a held text is sound, and its problem the one that was known. */
static int holds_rightly(void) {
    int known = is_sound(changed.numbers) && changed.numbers[AT_KNOWN];
    return known && (!before.numbers[AT_KNOWN] || same_problem(changed.numbers, before.numbers));
}

/* Whether a docket's answer has a line and its values, is one to such a text, and changed nothing unless it is held. */
static int answers(const uint8_t *text, size_t length, size_t answer) {
    uint64_t wanted[DOCKET_VALUES];
    if (answer > DOCKET_LINE_BYTES || !read_answer(w.line, answer, wanted) || memcmp(w.values, wanted, sizeof wanted) != 0) {
        return 0;
    }
    const char *start = (const char *)text;
    int is_problem = length > 12 && memcmp(text, "kind=problem", 12) == 0, is_other = !read_word(&start, "kind=");
    uint64_t due = is_other ? 12 : before.numbers[AT_KNOWN] ? 41 : 42;
    int refused = wanted[DOCKET_ANSWER] == DOCKET_REFUSED, first = is_other || is_problem == (int)before.numbers[AT_KNOWN];
    if (first && !(refused && wanted[DOCKET_REFUSAL_NUMBER] == due)) {
        return 0;
    }
    return wanted[DOCKET_ANSWER] == DOCKET_HELD ? holds_rightly() : same_docket(&changed, &before);
}

/* Whether the report and the outputs are those that the numbers say. */
static int tells(size_t bytes, size_t held) {
    char wanted[DOCKET_REPORT_BYTES];
    write_report(before.numbers, wanted, sizeof wanted);
    size_t due = before.numbers[AT_COST] ? before.numbers[AT_PERIODS] * before.numbers[AT_COUNT] : 0;
    return bytes == strlen(wanted) && memcmp(w.buffer, wanted, bytes) == 0 && held == due &&
           memcmp(w.outputs, before.rows, due * sizeof *w.outputs) == 0 && same_docket(&changed, &before);
}

/* The capacities of a sound state; none where no problem is known. */
static struct capacities known_capacities(const uint64_t *numbers) {
    struct capacities known = {0};
    if (numbers[AT_KNOWN]) {
        known.periods = numbers[AT_PERIODS];
        known.units = numbers[AT_COUNT];
    }
    for (size_t t = 0; t < known.periods; t++) {
        known.needed[t] = numbers[AT_DEMAND + t] + numbers[AT_SPARE + t];
    }
    for (size_t u = 0; u < known.units; u++) {
        known.most[u] = numbers[AT_UNITS + u * UNIT_NUMBERS + PU];
    }
    return known;
}

/* Asks the changed state how many units are taken; whether that is answered as it must be. */
static int answers_question(int sound) {
    static struct question q;
    static uint8_t *fixed;
    fixed = fixed == NULL ? room(LONGEST_FIXED) : fixed;
    struct capacities known = sound ? known_capacities(before.numbers) : (struct capacities){0};
    make_question(&known, &q);
    uint8_t *last = fixed + LONGEST_FIXED - q.length;
    if (sound) {
        return answers_rightly(&changed, &known, &q, last, w.taken, DOCKET_TAKEN) && same_docket(&changed, &before);
    }
    memcpy(last, q.fixed, q.length);
    return did_nothing(take_units(&changed, q.period, q.most, last, q.length, w.taken));
}

/* The problem of a sound state; none where it is not known. */
static struct plant known_plant(const uint64_t *numbers) {
    struct plant known = {0};
    if (numbers[AT_KNOWN]) {
        known.periods = numbers[AT_PERIODS];
        known.units = numbers[AT_COUNT];
    }
    for (size_t t = 0; t < known.periods; t++) {
        known.demand[t] = (int64_t)numbers[AT_DEMAND + t];
        known.spare[t] = (int64_t)numbers[AT_SPARE + t];
    }
    for (size_t u = 0; u < known.units; u++) {
        int64_t n[UNIT_NUMBERS];
        memcpy(n, numbers + AT_UNITS + u * UNIT_NUMBERS, sizeof n);
        known.all[u] = (struct unit){n[A], n[B], n[C], n[PL], n[PU], n[TU], n[TD], n[ON] ? n[SINCE] : -n[SINCE], n[HSC], n[CSC],
                                     n[TCOLD], n[DC]};
    }
    return known;
}

/* Asks the changed state for the runs of a price leaf; whether that is answered as it must be. */
static int answers_price_leaf(int sound) {
    static struct leaf leaf;
    static struct leaf_room room;
    static const struct draft none = {.answer = DOCKET_NO_DOCKET};
    if (sound && between(1, UNTIL_RUNS) > 1) {
        return 1;
    }
    room = room.starts[0] == NULL ? room_for_leaf(0) : room;
    struct plant known = sound ? known_plant(before.numbers) : (struct plant){0};
    make_leaf(&known, &leaf);
    int good = sound ? drafts_rightly(&changed, &known, &leaf, &room) : answers_leaf(&changed, &leaf, &room, &none);
    return good && same_docket(&changed, &before);
}

/* The same of the entries of a price leaf with a status forced. */
static int answers_forced_leaf(int sound) {
    static struct leaf leaf;
    static struct leaf_room room;
    static const struct entries none = {.answer = DOCKET_NO_DOCKET};
    if (sound && between(1, UNTIL_RUNS) > 1) {
        return 1;
    }
    room = room.starts[0] == NULL ? room_for_leaf(0) : room;
    struct plant known = sound ? known_plant(before.numbers) : (struct plant){0};
    make_forced(&known, &leaf);
    int good = sound ? forces_rightly(&changed, &known, &leaf, &room) : answers_entries(&changed, &leaf, &room, &none);
    return good && same_docket(&changed, &before);
}

/* Lodges a text in the changed state, which is then laid out again; whether that is answered as it must be. */
static int lodges_rightly(const uint8_t *text, size_t length, int sound) {
    size_t answer = lodge(&changed, text, length, w.line, w.values);
    int good = sound ? answers(text, length, answer) : did_nothing(answer);
    copy_docket(&changed, &before);
    return good;
}

/* Asks every call of a changed state; whether all answer as they must. */
static int ask_all(const struct input *input, int sound) {
    static const char *const texts[] = {"nonsense\n", PROBLEM, SCHEDULE, TREE};
    int good = 1;
    paint(&w);
    for (int k = 0; k < 4; k++) {
        good = lodges_rightly((const uint8_t *)texts[k], strlen(texts[k]), sound) && good;
    }
    for (size_t at = 0, length; at < input->text.length; at += length) {
        length = first_text(input->text.start + at, input->text.length - at);
        good = lodges_rightly(input->text.start + at, length, sound) && good;
    }
    size_t bytes = report(&changed, w.buffer);
    good = good && (sound || did_nothing(bytes));
    size_t held = copy_outputs(&changed, w.outputs);
    good = good && (sound ? tells(bytes, held) : did_nothing(held));
    return answers_question(sound) && answers_question(sound) && answers_price_leaf(sound) && answers_forced_leaf(sound) && good;
}

int main(int argc, char **argv) {
    size_t made[KINDS] = {0}, wrong[KINDS] = {0}, inputs_count = (size_t)(argc - 1);
    struct input *inputs = malloc((inputs_count + 1) * sizeof *inputs);
    need(inputs != NULL, "malloc");
    changed = fresh_docket();
    before = fresh_docket();
    w = room_to_write();
    for (size_t k = 0; k < inputs_count; k++) {
        inputs[k] = read_input(argv[k + 1]);
        keep_bases(&inputs[k]);
    }
    printf("seed %" PRIu64 ", %d states from %zu of dockets\n", begin_random(), STATES, bases_count);
    for (int i = 0; i < STATES; i++) {
        enum kind kind = (enum kind)between(0, KINDS - 1);
        const struct input *input = make_state(kind);
        int sound = is_sound(before.numbers), good = sound == (kind == STILL_SOUND) && ask_all(input, sound);
        made[kind]++;
        wrong[kind] += !good;
    }
    for (int kind = 0; kind < KINDS; kind++) {
        printf("%6zu states: %s\n", made[kind], kind_names[kind]);
        count(wrong[kind] == 0, "%zu states are not answered rightly: %s", wrong[kind], kind_names[kind]);
        count(made[kind] >= STATES / 10, "fewer than a tenth: %s", kind_names[kind]);
    }
    count_answers(STATES / 200);
    count_drafts(STATES / 2000);
    count_entries(STATES / 2000);
    for (size_t k = 0; k < inputs_count; k++) {
        free_input(&inputs[k]);
    }
    free(inputs);
    free(bases);
    return finish();
}
