/* Tests of what an open docket keeps. The last line is 'N passed, M failed'. */
#include "test_calls.h"

static void test_sizes(void) {
    count(docket_rules() == 4, "the rules have number 4");
    count(docket_numbers() == 618, "618 numbers");
    count(docket_rows() == 1536, "1536 rows");
}

static void test_example(void) {
    struct docket d = fresh_docket();
    count(reports(&d, NONE_HELD) && gives(&d, example_outputs, 0), "a fresh docket holds nothing");
    count(answers_example(&d, DOCKET_TAKEN_NO_PROBLEM) && prices_example(&d, DOCKET_RUNS_NO_PROBLEM), "and knows no problem");
    count(lodges(&d, SCHEDULE, "answer=refused,42,0,0,0\n"), "no problem is held yet");
    count(lodges(&d, PROBLEM, PROBLEM_HELD), "the problem");
    count(reports(&d, NONE_HELD) && gives(&d, example_outputs, 0), "no outputs before a schedule");
    count(answers_example(&d, DOCKET_TAKEN_TOLD), "units taken as soon as there is a problem");
    count(prices_example(&d, DOCKET_RUNS_FOUND), "and runs");
    count(lodges(&d, "", "answer=refused,12,1,0,0\n"), "a text of no bytes");
    count(lodges(&d, PROBLEM, "answer=refused,41,0,0,0\n"), "a second problem");
    count(lodges(&d, TREE, TREE_HELD) && gives(&d, example_outputs, 0), "no outputs after a tree");
    count(lodges(&d, SCHEDULE, SCHEDULE_HELD) && gives(&d, example_outputs, 4), "the outputs of the schedule");
    count(reports(&d, ALL_HELD), "the report");
    count(answers_example(&d, DOCKET_TAKEN_TOLD), "the units taken do not depend on what is held");
    count(prices_example(&d, DOCKET_RUNS_FOUND), "nor do the runs");
    count(lodges(&d, SCHEDULE, "answer=passed,1980\n"), "the schedule again");
    count(lodges(&d, DEARER, "answer=passed,2060\n") && gives(&d, example_outputs, 4),
          "the outputs after a schedule that is passed");
    count(lodges(&d, TREE, "answer=passed,1980,1,2\n") && reports(&d, ALL_HELD), "the tree again");
}

/* A ramp leaf below splits that leave unit 1, whose TD is 2, no run: off in period 1 and on in 2; and one that gives a bound. */
static void test_ramp_leaf(void) {
    struct docket d = fresh_docket();
    uint8_t line[DOCKET_LINE_BYTES];
    uint64_t values[DOCKET_VALUES];
    const char *stuck = "kind=tree\nwriter=5\nsplit=1,1\nsplit=1,2\nshort=2\nrampprice=10,14\nreserve=0,0\n"
                        "up=0\ndown=0\nup=0\ndown=0\nend=tree\n";
    const char *ramp = "kind=tree\nwriter=5\nrampprice=10,14\nreserve=0,2\nup=3\ndown=0\nup=1\ndown=2\nend=tree\n";
    count(lodges(&d, PROBLEM, PROBLEM_HELD), "the problem of a ramp leaf");
    count(lodges(&d, stuck, "answer=refused,35,11,0,0\n") && reports(&d, NONE_HELD), "35 at the last line of a ramp leaf");
    lodge(&d, (const uint8_t *)ramp, strlen(ramp), line, values);
    count(values[DOCKET_ANSWER] == DOCKET_HELD && values[DOCKET_FIGURE] == DOCKET_A_BOUND, "a ramp leaf gives a bound");
    count(values[DOCKET_BOUND_SIZE] == 1700 && values[DOCKET_SPLITS] == 0 && values[DOCKET_LEAVES] == 1, "its figures");
    count(lodges(&d, ramp, "answer=passed,1700,0,1\n") && lodges(&d, TREE, TREE_HELD), "a higher bound takes its place");
}

static void test_copy(void) {
    struct docket d = fresh_docket(), copy = fresh_docket(), kept = fresh_docket();
    int lodged = lodges(&d, PROBLEM, PROBLEM_HELD);
    copy_docket(&copy, &d);
    copy_docket(&kept, &d);
    lodged = lodged && lodges(&copy, SCHEDULE, SCHEDULE_HELD) && lodges(&copy, TREE, TREE_HELD);
    count(lodged && holds_example(&copy), "a copy is a docket");
    count(same_docket(&d, &kept) && reports(&d, NONE_HELD), "a copy goes its own way");
    copy_docket(&kept, &copy);
    count(lodges(&d, DEARER, DEARER_HELD) && gives(&d, dearer_outputs, 4), "and so does the docket");
    count(same_docket(&copy, &kept) && holds_example(&copy), "which changes no copy");
}

/* docket_fresh, over each byte and over a docket that holds all. */
static void test_fresh(void) {
    struct docket d = fresh_docket();
    int good = 1;
    for (int byte = 0; byte < 256; byte++) {
        memset(d.numbers, byte, d.numbers_length * sizeof *d.numbers);
        memset(d.rows, byte, d.rows_length * sizeof *d.rows);
        good = good && docket_fresh(d.numbers, d.numbers_length, d.rows, d.rows_length) == 0 && reports(&d, NONE_HELD);
        good = good && gives(&d, example_outputs, 0) && lodges(&d, SCHEDULE, "answer=refused,42,0,0,0\n");
        good = good && answers_example(&d, DOCKET_TAKEN_NO_PROBLEM) && prices_example(&d, DOCKET_RUNS_NO_PROBLEM);
        good = good && lodges(&d, PROBLEM, PROBLEM_HELD) && reports(&d, NONE_HELD) && gives(&d, example_outputs, 0);
        good = good && lodges(&d, SCHEDULE, SCHEDULE_HELD) && lodges(&d, TREE, TREE_HELD) && reports(&d, ALL_HELD);
    }
    count(good, "a docket begun over any byte holds nothing");
    good = docket_fresh(d.numbers, d.numbers_length, d.rows, d.rows_length) == 0 && reports(&d, NONE_HELD) &&
           gives(&d, example_outputs, 0) && answers_example(&d, DOCKET_TAKEN_NO_PROBLEM) &&
           prices_example(&d, DOCKET_RUNS_NO_PROBLEM);
    good = good && lodges(&d, PROBLEM, PROBLEM_HELD) && lodges(&d, DEARER, DEARER_HELD);
    count(good, "and so does one begun over a docket");
}

int main(void) {
    test_sizes();
    test_example();
    test_ramp_leaf();
    test_copy();
    test_fresh();
    return finish();
}
