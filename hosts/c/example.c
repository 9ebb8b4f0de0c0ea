/* Lodges a problem and a schedule of it, and prints what the schedule costs. README.md shows it. */
#include "docket.h"
#include <stdio.h>

int main(void) {
    const uint8_t problem[] = "kind=problem\nperiods=1\nunits=1\ndemand=50\nspare=0\n"
                              "unit=100,10,0,20,80,1,1,3,80,80,0,0,0,0,50\nend=problem\n";
    const uint8_t schedule[] = "kind=schedule\nwriter=7\nrun=50\nend=schedule\n";
    size_t n = docket_numbers(), r = docket_rows();
    uint64_t numbers[n], values[DOCKET_VALUES];
    uint16_t rows[r];
    uint8_t line[DOCKET_LINE_BYTES];
    docket_fresh(numbers, n, rows, r);
    docket_lodge(numbers, n, rows, r, problem, sizeof problem - 1, line, sizeof line, values, DOCKET_VALUES);
    size_t length = docket_lodge(numbers, n, rows, r, schedule, sizeof schedule - 1, line, sizeof line, values, DOCKET_VALUES);
    if (values[DOCKET_ANSWER] == DOCKET_HELD && values[DOCKET_FIGURE] == DOCKET_A_COST) {
        printf("a schedule that costs %llu\n", (unsigned long long)values[DOCKET_COST]);
    } else {
        fwrite(line, 1, length, stdout);
    }
    return 0;
}
