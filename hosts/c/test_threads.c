/* Tests of threads: ./test_threads FILE.. lodges the texts of all FILE.txt on eight threads at once, each with a docket of its
 * own, and compares with FILE.out; then eight threads ask one docket. An input that is too long for a listing is left out. The
 * last line is 'N passed, M failed'. */
#include "test_calls.h"

#define THREADS 8
#define TIMES 50000

/* how often a thread asks until it asks for runs and for forced statuses, which take longer */
#define UNTIL_RUNS 20

/* where the threads wait for one another before they begin */
static pthread_barrier_t begin;

/* What a thread does: with which docket, which inputs it lodges from which on, or what it must be told, how often it asks and
 * from which question on; and how often that went wrong. */
struct work {
    struct docket d;
    const struct input *inputs;
    const char *report;
    const uint16_t *outputs;
    size_t count, first, wrong;
};

static void *list_all(void *given) {
    struct work *w = given;
    pthread_barrier_wait(&begin);
    for (size_t k = 0; k < w->count; k++) {
        const struct input *input = &w->inputs[(w->first + k) % w->count];
        w->wrong += input->text.length <= DOCKET_MOST_INPUT && !lists(&w->d, input);
    }
    return NULL;
}

static void *ask(void *given) {
    struct work *w = given;
    pthread_barrier_wait(&begin);
    for (size_t k = 0; k < w->count; k++) {
        const struct told *told = &example_told[(w->first + k) % EXAMPLE_TOLD];
        int good = reports(&w->d, w->report) && gives(&w->d, w->outputs, 4) && answers_told(&w->d, told, DOCKET_TAKEN_TOLD);
        if (k % UNTIL_RUNS == 0) {
            const struct priced *priced = &example_priced[(w->first + k / UNTIL_RUNS) % EXAMPLE_PRICED];
            const struct forced *forced = &example_forced[(w->first + k / UNTIL_RUNS) % EXAMPLE_FORCED];
            good = answers_priced(&w->d, priced, DOCKET_RUNS_FOUND) && answers_forced(&w->d, forced, DOCKET_FORCED_FOUND) && good;
        }
        w->wrong += !good;
    }
    return NULL;
}

/* Runs the work of all threads at once. */
static void test_work(void *(*run)(void *), struct work *all, const char *what) {
    pthread_t threads[THREADS];
    for (size_t k = 0; k < THREADS; k++) {
        need(pthread_create(&threads[k], NULL, run, &all[k]) == 0, "a thread");
    }
    for (size_t k = 0; k < THREADS; k++) {
        pthread_join(threads[k], NULL);
        count(all[k].count > 0 && all[k].wrong == 0, "thread %zu of eight %s", k + 1, what);
    }
}

static void test_lodging(size_t inputs_count, char **names) {
    struct work all[THREADS];
    struct input *inputs = malloc((inputs_count + 1) * sizeof *inputs);
    need(inputs != NULL, "malloc");
    for (size_t k = 0; k < inputs_count; k++) {
        inputs[k] = read_input(names[k]);
    }
    for (size_t k = 0; k < THREADS; k++) {
        all[k] = (struct work){.d = fresh_docket(), .inputs = inputs, .count = inputs_count, .first = k * inputs_count / THREADS};
    }
    test_work(list_all, all, "with dockets of their own");
    for (size_t k = 0; k < inputs_count; k++) {
        free_input(&inputs[k]);
    }
    free(inputs);
}

static void test_asking(void) {
    struct work all[THREADS];
    struct docket one = fresh_docket(), other = fresh_docket(), kept = fresh_docket();
    count(lodges_example(&one), "the example");
    count(lodges(&other, PROBLEM, PROBLEM_HELD) && lodges(&other, DEARER, DEARER_HELD), "another docket");
    copy_docket(&kept, &one);
    for (size_t k = 0; k < THREADS; k++) {
        all[k] = (struct work){.d = one, .report = ALL_HELD, .outputs = example_outputs, .count = TIMES, .first = k};
    }
    test_work(ask, all, "that ask one docket");
    count(same_docket(&one, &kept), "the docket that is asked stays as it was");
    for (size_t k = 0; k < THREADS; k += 2) {
        all[k] = (struct work){.d = other, .report = ONLY_DEARER_HELD, .outputs = dearer_outputs, .count = TIMES, .first = k};
    }
    test_work(ask, all, "that ask two dockets");
}

int main(int argc, char **argv) {
    need(pthread_barrier_init(&begin, NULL, THREADS) == 0, "a barrier");
    test_lodging((size_t)(argc - 1), argv + 1);
    test_asking();
    return finish();
}
