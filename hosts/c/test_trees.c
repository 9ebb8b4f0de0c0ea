/* Tests of the longest and the deepest trees: ./test_trees FILE.. lodges the texts of each FILE.txt on a thread with the stack
 * named in docket.h, and compares with FILE.out. The last line is 'N passed, M failed'. */
#include "test_calls.h"

#define PERIODS 48
#define DEPTH 11
#define LEAVES ((size_t)1 << DEPTH)
#define MULTIPLIERS (LEAVES * 2 * PERIODS)

/* A tree as it is written: where the next byte stands, how many multipliers were written, and how many digits they have in all
 * besides one each. */
struct tree {
    uint8_t *start;
    size_t length, multipliers, digits;
};

static void write_words(struct tree *tree, const char *words) {
    size_t length = strlen(words);
    memcpy(tree->start + tree->length, words, length);
    tree->length += length;
}

/* A line of multipliers; the digits are shared out evenly. */
static void write_multipliers(struct tree *tree, const char *key) {
    write_words(tree, key);
    for (int t = 0; t < PERIODS; t++) {
        size_t more = tree->digits / MULTIPLIERS + (tree->multipliers++ < tree->digits % MULTIPLIERS);
        write_words(tree, t == 0 ? "1" : ",1");
        memset(tree->start + tree->length, '0', more);
        tree->length += more;
    }
    write_words(tree, "\n");
}

/* A tree in which the unit is split in each of the first DEPTH periods, with a price leaf for each way. */
static void write_tree(struct tree *tree, int depth) {
    if (depth == DEPTH) {
        write_multipliers(tree, "price=");
        write_multipliers(tree, "reserve=");
        return;
    }
    char split[32];
    snprintf(split, sizeof split, "split=1,%d\n", depth + 1);
    write_words(tree, split);
    write_tree(tree, depth + 1);
    write_tree(tree, depth + 1);
}

/* How many bytes the text has, written with so many digits besides one for each multiplier. */
static size_t write_text(struct tree *tree, size_t digits) {
    tree->length = tree->multipliers = 0;
    tree->digits = digits;
    write_words(tree, "kind=tree\nwriter=5\n");
    write_tree(tree, 0);
    write_words(tree, "end=tree\n");
    return tree->length;
}

/* A problem of one unit, no demand and 48 periods, in which it costs nothing to be off and at least 100,000,000 to be on. A
 * multiplier has five digits at most, so that the unit's least value is 0 where it may be off, and above 0 elsewhere. */
static const char *problem(void) {
    static char text[1024];
    char zeros[2 * PERIODS];
    for (int t = 0; t < PERIODS; t++) {
        memcpy(zeros + 2 * t, t + 1 < PERIODS ? "0," : "0", 2);
    }
    snprintf(text, sizeof text, "kind=problem\nperiods=%d\nunits=1\ndemand=%s\nspare=%s\n%s\nend=problem\n", PERIODS, zeros,
             zeros, "unit=0,10000000,0,10,10,1,1,1,10,10,0,0,0,0,10");
    return text;
}

/* What is lodged on a thread, and its answer. */
struct job {
    struct docket d;
    const uint8_t *text;
    size_t text_length, length;
    uint8_t line[DOCKET_LINE_BYTES];
    uint64_t values[DOCKET_VALUES];
};

static void *lodge_job(void *given) {
    struct job *job = given;
    job->length = lodge(&job->d, job->text, job->text_length, job->line, job->values);
    return NULL;
}

/* Lodges a tree of so many bytes; whether its answer is the one given. */
static int lodges_long(struct docket d, size_t bytes, const char *wanted) {
    struct tree tree = {malloc(DOCKET_MOST_TEXT + PAGE), 0, 0, 0};
    need(tree.start != NULL, "malloc");
    size_t base = write_text(&tree, 0);
    need(write_text(&tree, bytes - base) == bytes, "a tree of the length");
    struct job job = {.d = d, .text = room(bytes), .text_length = bytes};
    memcpy((uint8_t *)job.text, tree.start, bytes);
    size_t used = run_painted(lodge_job, &job);
    printf("a tree of %zu bytes: %zu bytes of stack, the thread's own among them, %.*s", bytes, used, (int)job.length, job.line);
    int good = job.length == strlen(wanted) && memcmp(job.line, wanted, job.length) == 0;
    good = good && memcmp(job.text, tree.start, bytes) == 0;
    free(tree.start);
    return good && used <= DOCKET_STACK_BYTES;
}

static void test_longest(void) {
    struct docket d = fresh_docket(), kept = fresh_docket();
    count(lodges(&d, problem(), PROBLEM_HELD), "the problem of the longest tree");
    copy_docket(&kept, &d);
    int refused = lodges_long(d, DOCKET_MOST_TEXT + 1, "answer=refused,11,0,0,0\n");
    count(refused && same_docket(&d, &kept), "a tree of 1,048,577 bytes is refused by 11");
    count(lodges_long(d, DOCKET_MOST_TEXT, "answer=held,0,2047,2048\n"), "a tree of 1,048,576 bytes is accepted");
}

/* The texts of an input, and whether they are listed rightly. */
struct deep {
    struct docket d;
    struct input input;
    int good;
};

static void *list_deep(void *given) {
    struct deep *deep = given;
    deep->good = lists(&deep->d, &deep->input);
    return NULL;
}

/* Lodges the texts of a file; how many bytes of stack were used. */
static size_t test_deep(const char *name) {
    pthread_t thread;
    pthread_attr_t attributes;
    struct deep deep = {fresh_docket(), read_input(name), 0};
    pthread_attr_init(&attributes);
    need(pthread_attr_setstacksize(&attributes, DOCKET_STACK_BYTES) == 0, "a stack");
    need(pthread_create(&thread, &attributes, list_deep, &deep) == 0, "a thread");
    pthread_join(thread, NULL);
    count(deep.good, "%s on a stack of %zu bytes", name, DOCKET_STACK_BYTES);
    size_t used = run_painted(list_deep, &deep);
    count(deep.good && used <= DOCKET_STACK_BYTES, "%s on a painted stack", name);
    free_input(&deep.input);
    return used;
}

int main(int argc, char **argv) {
    test_longest();
    size_t most = 0;
    for (int i = 1; i < argc; i++) {
        size_t used = test_deep(argv[i]);
        most = used > most ? used : most;
    }
    printf("the deepest trees: at most %zu bytes of stack, the thread's own among them\n", most);
    count(most > 0, "a deep tree");
    return finish();
}
