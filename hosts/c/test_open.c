/* Tests of the open docket: ./test_open FILE.. lodges the texts of each FILE.txt in turn, the memory lent between pages that may
 * not be touched, on a stack that shows how far it was used, and compares with FILE.out; after each text it asks how many units
 * are taken, and for the runs of price leaves and the entries with a status forced. An input that is too long for a listing is
 * left out. SEED repeats the questions of a printed seed. The last line is 'N passed, M failed'. */
#include "test_forced.h"
#include "test_questions.h"

/* how many questions about units taken, and about price leaves, their runs and their entries, are asked after each text */
#define QUESTIONS 4
#define LEAVES 3
#define FORCED_LEAVES 2

/* A stretch of memory that is lent: how many bytes the call asks for, how many are lent, and how many there are up to a page that
 * may not be touched. */
struct stretch {
    uint8_t *start;
    size_t asked, lent, all;
};

/* How memory is lent: up to such a page, from such a page on, or more of it than is asked for. */
enum lending { UP_TO, FROM, LONGER, LENDINGS };

/* what a call is lent besides a text */
enum part { NUMBERS, ROWS, LINE, VALUES, BUFFER, OUTPUTS, TAKEN, PARTS };

struct lent {
    struct stretch parts[PARTS];
    uint8_t *texts; /* as many bytes as a listing takes, between such pages */
    struct leaf_room leaf;
    enum lending how;
};

/* What the docket holds, read from the texts: the outputs of the schedule that was held last, and the problem. */
struct held {
    uint16_t all[DOCKET_OUTPUTS];
    size_t count;
    struct capacities known;
    struct plant plant;
};

/* An input whose texts are lodged, and whether all is as it must be. */
struct job {
    struct lent *lent;
    const struct input *input;
    int good;
};

static struct stretch stretch(enum lending how, size_t asked, size_t more) {
    size_t all = pages_for(asked) * PAGE;
    if (how == FROM) {
        return (struct stretch){pages(all / PAGE), asked, asked, all};
    }
    size_t lent = asked + (how == LONGER ? more : 0);
    return (struct stretch){room(lent), asked, lent, lent};
}

static struct lent lend(enum lending how) {
    struct lent lent = {.texts = pages(pages_for(DOCKET_MOST_INPUT)), .leaf = room_for_leaf(how == FROM), .how = how};
    lent.parts[NUMBERS] = stretch(how, docket_numbers() * sizeof(uint64_t), 7 * sizeof(uint64_t));
    lent.parts[ROWS] = stretch(how, docket_rows() * sizeof(uint16_t), 9 * sizeof(uint16_t));
    lent.parts[LINE] = stretch(how, DOCKET_LINE_BYTES, 72);
    lent.parts[VALUES] = stretch(how, DOCKET_VALUES * sizeof(uint64_t), 4 * sizeof(uint64_t));
    lent.parts[BUFFER] = stretch(how, DOCKET_REPORT_BYTES, 50);
    lent.parts[OUTPUTS] = stretch(how, DOCKET_OUTPUTS * sizeof(uint16_t), 5 * sizeof(uint16_t));
    lent.parts[TAKEN] = stretch(how, DOCKET_TAKEN * sizeof(uint64_t), 3 * sizeof(uint64_t));
    return lent;
}

/* The docket that is lent. */
static struct docket docket(const struct lent *lent) {
    const struct stretch *numbers = &lent->parts[NUMBERS], *rows = &lent->parts[ROWS];
    return (struct docket){(uint64_t *)(void *)numbers->start, numbers->lent / sizeof(uint64_t), (uint16_t *)(void *)rows->start,
                           rows->lent / sizeof(uint16_t)};
}

/* Whether what follows the bytes that are asked for is as it was. */
static int rest_is_left(const struct lent *lent) {
    int left = 1;
    for (int part = 0; part < PARTS; part++) {
        const struct stretch *s = &lent->parts[part];
        left = left && painted(s->start + s->asked, s->all - s->asked);
    }
    return left;
}

/* The outputs in the `run=` lines of a schedule's text. */
static void read_outputs(const uint8_t *text, size_t length, struct held *held) {
    held->count = 0;
    for (size_t at = 0; at < length; at = (size_t)((const uint8_t *)memchr(text + at, '\n', length - at) - text) + 1) {
        const char *place = (const char *)text + at;
        for (int more = read_word(&place, "run="); more; more = read_word(&place, ",")) {
            held->all[held->count++] = (uint16_t)read_number(&place);
        }
    }
}

/* Whether docket_outputs gives the outputs of the schedule held. */
static int gives_outputs(const struct lent *lent, const struct held *held) {
    struct docket d = docket(lent);
    const struct stretch *s = &lent->parts[OUTPUTS];
    uint16_t *outputs = (uint16_t *)(void *)s->start;
    size_t answer = docket_outputs(d.numbers, d.numbers_length, d.rows, d.rows_length, outputs, s->lent / sizeof(uint16_t));
    return answer == held->count && memcmp(outputs, held->all, answer * sizeof(uint16_t)) == 0;
}

/* Where so many bytes are lent, which end where such a page begins, or begin where one ends. */
static uint8_t *place_for(const struct lent *lent, size_t length) {
    return lent->how == FROM ? lent->texts : lent->texts + DOCKET_MOST_INPUT - length;
}

/* Whether questions about the units taken are answered as they must be, and the docket stays. */
static int answers_questions(const struct lent *lent, const struct capacities *known, const struct docket *before) {
    static struct question q;
    struct docket d = docket(lent);
    const struct stretch *s = &lent->parts[TAKEN];
    int good = 1;
    for (int k = 0; k < QUESTIONS; k++) {
        make_question(known, &q);
        uint8_t *fixed = place_for(lent, q.length);
        good = answers_rightly(&d, known, &q, fixed, (uint64_t *)(void *)s->start, s->lent / sizeof(uint64_t)) && good;
    }
    return good && same_docket(&d, before);
}

/* Whether price leaves are answered as they must be, and the docket stays. */
static int answers_leaves(const struct lent *lent, const struct plant *known, const struct docket *before) {
    static struct leaf leaf;
    struct docket d = docket(lent);
    int good = 1;
    for (int k = 0; k < LEAVES; k++) {
        make_leaf(known, &leaf);
        good = drafts_rightly(&d, known, &leaf, &lent->leaf) && good;
    }
    for (int k = 0; k < FORCED_LEAVES; k++) {
        make_forced(known, &leaf);
        good = forces_rightly(&d, known, &leaf, &lent->leaf) && good;
    }
    return good && same_docket(&d, before);
}

/* Whether the report, asked for at the last place where it fits, is the one given, and no other byte of the buffer is written. */
static int gives_report(const struct lent *lent, const uint8_t *wanted, size_t length) {
    struct docket d = docket(lent);
    const struct stretch *s = &lent->parts[BUFFER];
    size_t at = s->lent - length;
    memset(s->start, PAINT, s->all);
    size_t answer = docket_report(d.numbers, d.numbers_length, d.rows, d.rows_length, s->start, s->lent, at);
    int good = answer == length && memcmp(s->start + at, wanted, length) == 0 && painted(s->start, at) &&
               painted(s->start + s->lent, s->all - s->lent);
    memset(s->start, PAINT, s->all);
    return good;
}

/* Lodges a text; whether its answer's line is the next of what is wanted, its values are those of the line, and nothing else is
 * written. The place moves behind the line. */
static int lodge_text(struct job *job, const uint8_t *text, size_t length, size_t *at, struct held *held) {
    static uint64_t numbers[1024];
    static uint16_t rows[2048];
    struct docket d = docket(job->lent), before = {numbers, d.numbers_length, rows, d.rows_length};
    const struct stretch *line = &job->lent->parts[LINE], *values = &job->lent->parts[VALUES];
    uint64_t wanted[DOCKET_VALUES];
    uint8_t *lodged = place_for(job->lent, length);
    memcpy(lodged, text, length);
    copy_docket(&before, &d);
    size_t written = docket_lodge(d.numbers, d.numbers_length, d.rows, d.rows_length, lodged, length, line->start, line->lent,
                                  (uint64_t *)(void *)values->start, values->lent / sizeof(uint64_t));
    const struct bytes *listing = &job->input->listing;
    if (written > line->lent || written > listing->length - *at || memcmp(line->start, listing->start + *at, written) != 0) {
        return 0;
    }
    *at += written;
    int good = read_answer(line->start, written, wanted) && memcmp(values->start, wanted, sizeof wanted) == 0;
    good = good && memcmp(lodged, text, length) == 0 && rest_is_left(job->lent);
    if (wanted[DOCKET_ANSWER] != DOCKET_HELD) {
        good = good && same_docket(&d, &before);
    } else if (wanted[DOCKET_FIGURE] == DOCKET_A_COST) {
        read_outputs(text, length, held);
    } else if (wanted[DOCKET_FIGURE] == DOCKET_NOTHING) {
        held->known = read_capacities(text, length);
        read_plant(text, length, &held->plant);
    }
    copy_docket(&before, &d);
    good = good && gives_outputs(job->lent, held) && answers_questions(job->lent, &held->known, &before);
    good = good && answers_leaves(job->lent, &held->plant, &before);
    return good && rest_is_left(job->lent);
}

/* Lodges the texts of an input in a docket begun over paint, and asks for its report. */
static void *lodge_input(void *given) {
    static struct held held;
    struct job *job = given;
    for (int part = 0; part < PARTS; part++) {
        memset(job->lent->parts[part].start, PAINT, job->lent->parts[part].all);
    }
    struct docket d = docket(job->lent);
    held = (struct held){.count = 0};
    job->good = docket_fresh(d.numbers, d.numbers_length, d.rows, d.rows_length) == 0 && rest_is_left(job->lent);
    job->good = job->good && gives_outputs(job->lent, &held);
    const struct bytes *text = &job->input->text, *listing = &job->input->listing;
    size_t written = 0;
    for (size_t at = 0, length; job->good && at < text->length; at += length) {
        length = first_text(text->start + at, text->length - at);
        job->good = lodge_text(job, text->start + at, length, &written, &held);
    }
    size_t report = listing->length - written;
    job->good = job->good && report <= DOCKET_REPORT_BYTES && gives_report(job->lent, listing->start + written, report) &&
                rest_is_left(job->lent);
    return NULL;
}

/* Lodges the texts of a file, lent each way; how many bytes of stack were used at most. */
static size_t test_file(const char *name, struct lent *lents) {
    static const char *const words[LENDINGS] = {"up to a page", "from a page on", "more than is asked for"};
    struct input input = read_input(name);
    size_t most = 0;
    for (int how = 0; how < LENDINGS && input.text.length <= DOCKET_MOST_INPUT; how++) {
        struct job job = {&lents[how], &input, 0};
        size_t used = run_painted(lodge_input, &job);
        most = used > most ? used : most;
        count(job.good, "%s, lent %s", name, words[how]);
    }
    free_input(&input);
    return most;
}

static void *nothing(void *given) { return given; }

int main(int argc, char **argv) {
    struct lent lents[LENDINGS];
    for (int how = 0; how < LENDINGS; how++) {
        lents[how] = lend(how);
    }
    printf("seed %" PRIu64 "\n", begin_random());
    size_t most = 0;
    const char *deepest = "no input";
    for (int i = 1; i < argc; i++) {
        size_t used = test_file(argv[i], lents);
        deepest = used > most ? argv[i] : deepest;
        most = used > most ? used : most;
    }
    count_answers(20);
    count_drafts(5);
    count_entries(5);
    size_t own = run_painted(nothing, NULL);
    printf("stack used by the calls: at most %zu bytes, %zu of them the thread's own, by %s\n", most, own, deepest);
    count(most > 0 && most <= DOCKET_STACK_BYTES, "the stack named in docket.h");
    return finish();
}
