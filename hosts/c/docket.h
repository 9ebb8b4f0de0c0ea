/* The unit commitment docket for C, in the archive libdocket_host.a that `tools/archive` writes. x86-64 Linux. Of the
 * C library the archive needs memcpy and memset alone. What texts, answers and reports are and what the number of a refusal
 * means is in the repository's README.md.
 *
 * A docket that stays open is two stretches of memory that the caller owns: `numbers`, of docket_numbers() numbers of 64 bits,
 * and `rows`, of docket_rows() numbers of 16 bits. docket_fresh makes a docket of them, docket_lodge lodges a text in it,
 * docket_report and docket_outputs tell what it holds, docket_units_taken how many units `short` takes in a period of its
 * problem, docket_cheapest_runs the runs behind a price leaf's value, and docket_forced_statuses what each unit is worth there
 * with a status forced. A copy of both stretches is a docket of its own. No call ends a docket: its memory is the caller's.
 *
 * What every call here does, for every input, is proved: crates/docket_host/proofs/HostPromises.antt, Contracts.antt.
 *
 * What the caller owes, of every call:
 * - No pointer is null, also where no bytes or numbers are lent; each points to as many as its length says.
 * - The stretches lent to one call do not overlap. `numbers`, `values`, `taken`, `q`, `s`, `runs` and `shortfalls` are aligned
 *   for uint64_t, `value` and the `values` of docket_forced_statuses for int64_t, `rows` and `outputs` for uint16_t.
 * - Nobody writes meanwhile to what a call reads, or touches what it writes. So threads may call at once, each with a docket of
 *   its own, and may at once ask one docket for reports, outputs, units taken, runs and forced statuses, each with buffers of
 *   its own.
 * - DOCKET_STACK_BYTES of stack are free.
 *
 * Nothing is allocated, nothing is kept between calls, no file is touched, and every call returns. A text, and the multipliers
 * and statuses of a question, are only read, and are the caller's again when the call returns. */
#ifndef DOCKET_H
#define DOCKET_H

#include <stddef.h>
#include <stdint.h>

#ifdef __cplusplus
extern "C" {
#endif

/* ---- what a call answers where it does nothing: all that was lent is as it was. No other answer is as large. A caller who lends
 * what is asked for, in a state that docket_fresh began and that these calls alone wrote, gets neither. */

/* Too little room: fewer numbers, rows, bytes or values are lent than the call asks for. This is looked at first, whatever the
 * state is; but how much room a report needs is asked of a docket, and how many statuses a question has is part of it, as is
 * all that docket_cheapest_runs and docket_forced_statuses are lent besides the state. */
#define DOCKET_TOO_SMALL SIZE_MAX

/* No docket: what is lent as its state was never begun, is that of another layout, or was changed so that its problem or its
 * figures are out of range. Begin it anew and lodge the texts again, changed where docket_rules has gone up (docs/changes). */
#define DOCKET_NO_DOCKET (SIZE_MAX - 1)

/* ---- what to lend; more may be lent. What a call does not name as written stays as it was, within the asked-for part too.
 * Exact, so that more does not fit either, are the length of `fixed` and all that docket_cheapest_runs and
 * docket_forced_statuses are lent besides the state. */

/* for the line of an answer: docket_lodge asks for so many bytes, whatever the answer */
#define DOCKET_LINE_BYTES ((size_t)128)

/* for an answer as numbers: docket_lodge asks for so many, whatever the answer */
#define DOCKET_VALUES ((size_t)16)

/* for a report: every report fits so many bytes */
#define DOCKET_REPORT_BYTES ((size_t)256)

/* for the outputs of the held schedule: docket_outputs asks for so many, whatever is held */
#define DOCKET_OUTPUTS ((size_t)1536)

/* for entries with a status forced: docket_forced_statuses takes twice units times T, at most so many */
#define DOCKET_ENTRIES (2 * DOCKET_OUTPUTS)

/* for what `short` takes: docket_units_taken asks for so many numbers */
#define DOCKET_TAKEN ((size_t)2)

/* Stack enough for a call. A tree of the greatest depth uses less than 400,000 bytes of it, measured; no proof covers the stack.
 * On a thread with less the process ends at the stack's guard page. */
#define DOCKET_STACK_BYTES ((size_t)1048576)

/* A text of more bytes is refused by 11. */
#define DOCKET_MOST_TEXT ((size_t)1048576)

/* ---- an open docket */

/* The number of the rules by which texts are judged: a version in which some text gets another answer has a higher one. Who keeps
 * a state beyond a program's end keeps this number with it, for a state made under other rules is not told apart. */
size_t docket_rules(void);

/* How many numbers a state has, of 64 bits in `numbers` and of 16 in `rows`. */
size_t docket_numbers(void);
size_t docket_rows(void);

/* Begins a docket that holds nothing, whatever the two stretches held.
 * Returned: 0; or DOCKET_TOO_SMALL, where fewer numbers or rows than a state has are lent. */
size_t docket_fresh(uint64_t *numbers, size_t numbers_length, uint16_t *rows, size_t rows_length);

/* The places of an answer in `values`. Look at the first two: they say what the others are. */
enum docket_value {
    DOCKET_ANSWER = 0, /* DOCKET_REFUSED, DOCKET_HELD or DOCKET_PASSED */
    DOCKET_FIGURE = 1, /* what follows: one of enum docket_figure */
    /* of a refusal: lines, units and periods are counted from 1, and what does not apply is 0 */
    DOCKET_REFUSAL_NUMBER = 2,
    DOCKET_REFUSAL_LINE = 3,
    DOCKET_REFUSAL_UNIT = 4,
    DOCKET_REFUSAL_PERIOD = 5,
    /* of a schedule */
    DOCKET_COST = 2,
    /* of a tree */
    DOCKET_BOUND_SIZE = 2,
    DOCKET_SPLITS = 3,
    DOCKET_LEAVES = 4
};

/* values[DOCKET_ANSWER] */
enum docket_answer { DOCKET_REFUSED = 0, DOCKET_HELD = 1, DOCKET_PASSED = 2 };

/* values[DOCKET_FIGURE]: nothing (a refusal, whose four numbers follow, or an accepted problem); a schedule's cost; a tree's
 * bound, which is the size, or the size behind a minus, or never, with size 0: no schedule meets the rules. */
enum docket_figure { DOCKET_NOTHING = 0, DOCKET_A_COST = 1, DOCKET_A_BOUND = 2, DOCKET_A_BOUND_BELOW_0 = 3, DOCKET_NEVER = 4 };

/* Lodges a text, any bytes.
 *
 * Returned: how many bytes of `line` now hold the line of the answer, byte 10 being the last; no byte 0 follows it, and the
 * others are as they were. `values` then begins with the answer as DOCKET_VALUES numbers: the two above, then the figures or the
 * refusal's four numbers in order, zeros after. A later version may give figures in places that are zeros now. The state is
 * written only where the answer is `held`; then it is that of the docket after the text. Or DOCKET_TOO_SMALL or
 * DOCKET_NO_DOCKET.
 *
 * A state that was changed by hand and is still in range is believed: the call cannot tell. What must be kept for good are the
 * texts that were lodged, for they decide everything. */
size_t docket_lodge(uint64_t *numbers, size_t numbers_length, uint16_t *rows, size_t rows_length, const uint8_t *text,
                    size_t text_length, uint8_t *line, size_t line_length, uint64_t *values, size_t values_length);

/* Writes the report into the buffer, from the place `at` on, which is 0 for the buffer's start: the lines kind=report, cost=,
 * costwriter=, bound=, boundwriter=, gap=, end=report, each ended by byte 10. What is not held is `none`, a bound may be `never`,
 * and the gap is `none` unless cost and bound are numbers.
 *
 * Returned: how many bytes from there on are the report; the others are as they were. Or DOCKET_TOO_SMALL, where the report
 * does not fit from its place on (43), or the state is too short; or DOCKET_NO_DOCKET. */
size_t docket_report(const uint64_t *numbers, size_t numbers_length, const uint16_t *rows, size_t rows_length, uint8_t *buffer,
                     size_t buffer_length, size_t at);

/* Copies the outputs of the held schedule: that of unit u in period t, both counted from 0, to outputs[u * T + t], T being the
 * periods of the problem, which its text says. (The unit of a refusal is counted from 1.)
 *
 * Returned: how many there are, units times periods; 0 where no schedule is held. The others are as they were. Or
 * DOCKET_TOO_SMALL or DOCKET_NO_DOCKET. */
size_t docket_outputs(const uint64_t *numbers, size_t numbers_length, const uint16_t *rows, size_t rows_length, uint16_t *outputs,
                      size_t outputs_length);

/* A status in `fixed`: free, or fixed off or on. */
enum docket_fixed { DOCKET_FREE = 0, DOCKET_FIXED_OFF = 1, DOCKET_FIXED_ON = 2 };

/* What docket_units_taken returns where there is a docket: `taken` is written; the docket knows no problem; the question does not
 * fit the problem. */
enum docket_taken_answer { DOCKET_TAKEN_TOLD = 0, DOCKET_TAKEN_NO_PROBLEM = 1, DOCKET_TAKEN_UNFIT = 2 };

/* The places of `taken`. */
enum docket_taken {
    DOCKET_TAKEN_SHORT = 0, /* 1 where `short` holds, else 0 */
    DOCKET_TAKEN_UNITS = 1  /* how many units it took */
};

/* Tells whether `short` holds in a period, and how many units it takes to find out. It takes the units that are not fixed off
 * there by number, or, where an upper count stands, the largest pU first and no more units than the count, and ends as soon as
 * what it took reaches D + R. So they are the fewest, in that order, that reach D + R; or, where all that it may take do not,
 * all of these, and then `short` holds.
 *
 * The period is counted from 1. `most` is 0 where no upper count stands, else one more than the count. `fixed` has a byte for
 * each status, one of enum docket_fixed: that of unit u in period t, both counted from 0, at fixed[u * T + t], T being the
 * periods of the problem. More units may be fixed on than the count: that is answered as any other question.
 *
 * Returned: DOCKET_TAKEN_TOLD, and the first two of `taken` are written. Or, with `taken` as it was and in this order:
 * DOCKET_TOO_SMALL; DOCKET_NO_DOCKET; DOCKET_TAKEN_NO_PROBLEM; DOCKET_TAKEN_UNFIT, where the period is not from 1 to T, `most`
 * is above the number of units, `fixed` has not units times periods bytes, or one of them is above 2. What follows the first
 * two of `taken` is as it was in any case. The state is only read. */
size_t docket_units_taken(const uint64_t *numbers, size_t numbers_length, const uint16_t *rows, size_t rows_length, size_t period,
                          size_t most, const uint8_t *fixed, size_t fixed_length, uint64_t *taken, size_t taken_length);

/* What docket_cheapest_runs returns where there is a docket: `runs`, `shortfalls` and `value` are written; the docket knows no
 * problem; the question does not fit the problem; or DOCKET_RUNS_STUCK + u, so 101 to 132: unit u is stuck. */
enum docket_runs_answer { DOCKET_RUNS_FOUND = 0, DOCKET_RUNS_NO_PROBLEM = 1, DOCKET_RUNS_UNFIT = 2, DOCKET_RUNS_STUCK = 100 };

/* Finds the runs behind the value of a price leaf, and how far they fall short of the demand.
 *
 * The leaf has a price multiplier in `q` and a reserve multiplier in `s` for each of the T periods of the problem, each from 0 to
 * 1,000,000,000, and in `fixed` the statuses that the splits above it fix, as docket_units_taken has them. A unit's run is T
 * outputs, each 0 for off or from pL to pU, that keep the up and down times and agree with what is fixed. What it is worth is its
 * cost less q * p + s * pU for each period on with output p. The cheapest run counts; of equal ones the one that is off where
 * another is on, in the first period in which they differ in this, and then the one with the smallest outputs. The leaf's value
 * is what these runs are worth and, over the periods, q * D + s * (D + R). They keep no ramps, and together they need not reach
 * D or D + R: they are a draft of a schedule.
 *
 * The lengths are exact: T for `q`, `s` and `shortfalls`, units times T for `fixed` and `runs`, 1 for `value`. T is at most 48, and
 * units times T at most DOCKET_OUTPUTS. A multiplier is in the problem's money for a unit of output.
 *
 * Returned: DOCKET_RUNS_FOUND, and all three are written: to runs[u * T + t] the output of unit u in period t, both counted from
 * 0; to shortfalls[t] how far the outputs in period t together fall short of D, 0 where they do not; to value[0] the leaf's
 * value. Or, with all three as they were and in this order: DOCKET_TOO_SMALL, where the state is too short; DOCKET_NO_DOCKET;
 * DOCKET_RUNS_NO_PROBLEM; DOCKET_RUNS_UNFIT, where a length is another one, a multiplier is above 1,000,000,000 or a byte of
 * `fixed` above 2; DOCKET_RUNS_STUCK + u, where unit u, counted from 1, is the lowest to which what is fixed leaves no run. The
 * state is only read. */
size_t docket_cheapest_runs(const uint64_t *numbers, size_t numbers_length, const uint16_t *rows, size_t rows_length,
                            const uint64_t *q, size_t q_length, const uint64_t *s, size_t s_length, const uint8_t *fixed,
                            size_t fixed_length, uint64_t *runs, size_t runs_length, uint64_t *shortfalls,
                            size_t shortfalls_length, int64_t *value, size_t value_length);

/* What docket_forced_statuses returns where there is a docket: `values` and `stuck` are written; the docket knows no problem; the
 * question does not fit the problem. */
enum docket_forced_answer { DOCKET_FORCED_FOUND = 0, DOCKET_FORCED_NO_PROBLEM = 1, DOCKET_FORCED_UNFIT = 2 };

/* Finds what each unit is worth at a price leaf with a status forced, for every period and either status.
 *
 * The leaf is `q`, `s` and `fixed`, as docket_cheapest_runs has them. An entry is the least that a run of the unit is worth, of
 * those that agree with what is fixed and have the forced status in its period. It is the unit's own: the leaf's part for D and
 * R is not in it. Where there is no such run the entry says stuck; so it does where the period is fixed the other way, for forcing
 * does not undo what is fixed, and so does every entry of a unit to which what is fixed leaves no run. That is no error: the
 * other units' entries are given. The lesser of a period's two entries is what the unit's cheapest run is worth, and how far the
 * other is above it is what it costs to force that status; where one says stuck, its 0 in `values` means nothing, and the other is
 * what the run is worth.
 *
 * The lengths are exact: T for `q` and `s`, units times T for `fixed`, and twice units times T for `values` and `stuck`, however much
 * room there is: DOCKET_ENTRIES is enough for every problem.
 *
 * Returned: DOCKET_FORCED_FOUND, and both are written: for unit u and period t, both counted from 0, with off forced at the place
 * 2 * (u * T + t), with on forced at the one after it. An entry that says stuck is 1 in `stuck` and 0 in `values`; any other is 0
 * in `stuck`, and its value, which may be below 0, in `values`. Or, with both as they were and in this order: DOCKET_TOO_SMALL,
 * where the state is too short; DOCKET_NO_DOCKET; DOCKET_FORCED_NO_PROBLEM; DOCKET_FORCED_UNFIT, where a length is another one, a
 * multiplier is above 1,000,000,000 or a byte of `fixed` above 2. The state is only read. */
size_t docket_forced_statuses(const uint64_t *numbers, size_t numbers_length, const uint16_t *rows, size_t rows_length,
                              const uint64_t *q, size_t q_length, const uint64_t *s, size_t s_length, const uint8_t *fixed,
                              size_t fixed_length, int64_t *values, size_t values_length, uint8_t *stuck, size_t stuck_length);

/* ---- a whole listing at once */

/* Texts are lodged from an input of at most so many bytes; a longer one gets the one answer 11. */
#define DOCKET_MOST_INPUT ((size_t)65536)

/* The output must have so many bytes or more: every listing fits. */
#define DOCKET_OUTPUT_BYTES ((size_t)1048576)

/* The answer to an output of fewer bytes. */
#define DOCKET_OUTPUT_TOO_SMALL DOCKET_TOO_SMALL

/* Cuts the input into texts, lodges them in turn in one fresh docket and writes the listing into the output: a line for each
 * answer, then the report.
 *
 * Returned: how many bytes, from the output's start, are the listing. It has no byte 0 after it, and the bytes after it are as
 * they were. Or DOCKET_OUTPUT_TOO_SMALL, with the output as it was. The input is only read. */
size_t docket_listing(const uint8_t *input, size_t input_length, uint8_t *output, size_t output_length);

#ifdef __cplusplus
}
#endif

#endif
