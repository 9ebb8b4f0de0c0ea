/* Problems for price leaves: small ones, and any. */
#ifndef TEST_PLANTS_H
#define TEST_PLANTS_H

#include "test_drafts.h"

/* a problem of one unit, with the numerals of the periods, and of demand and spare */
#define ONE(periods, demand, spare, unit)                                                                                        \
    "kind=problem\nperiods=" periods "\nunits=1\ndemand=" demand "\nspare=" spare "\nunit=" unit "\nend=problem\n"
#define ONE_FREE(unit) ONE("3", "0,0,0", "0,0,0", unit)

/* two units that are alike, on before and with TD 2 */
#define STEADY "unit=100,10,0,20,80,2,2,3,30,30,50,90,1,5,60\n"
#define ALIKE "kind=problem\nperiods=2\nunits=2\ndemand=60,100\nspare=10,10\n" STEADY STEADY "end=problem\n"

/* A unit whose figures are small, so that much is worth the same, or of any size. */
static inline struct unit any_unit(void) {
    int64_t size = between(0, 2) == 0 ? 1000 : 1, longest = (int64_t)(between(0, 2) == 0 ? 48 : between(1, 6));
    struct unit unit = {.a = size * (int64_t)between(0, 4),
                        .b = size * (int64_t)between(0, 6),
                        .c = (int64_t)between(0, 2) / 2 * size,
                        .pl = (int64_t)between(1, 3),
                        .tu = (int64_t)between(1, (uint64_t)longest),
                        .td = (int64_t)between(1, (uint64_t)longest),
                        .tini = (int64_t)between(1, between(0, 9) == 0 ? 1000 : 6) * (between(0, 1) == 0 ? -1 : 1),
                        .hsc = size * (int64_t)between(0, 3),
                        .tcold = (int64_t)between(0, (uint64_t)longest),
                        .dc = size * (int64_t)between(0, 2)};
    unit.pu = unit.pl + (int64_t)between(0, size == 1 ? 9 : 9990);
    unit.csc = unit.hsc + size * (int64_t)between(0, 2);
    return unit;
}

static inline struct plant any_plant(void) {
    uint64_t size = between(0, 19);
    struct plant of = {.periods = size == 0 ? 48 : between(1, 12), .units = size < 2 ? 32 : between(1, 6)};
    for (size_t u = 0; u < of.units; u++) {
        of.all[u] = any_unit();
    }
    for (size_t t = 0; t < of.periods; t++) {
        of.demand[t] = (int64_t)between(0, between(0, 3) == 0 ? 320000 : 9 * of.units);
        of.spare[t] = (int64_t)between(0, between(0, 3) == 0 ? 320000 : 3);
    }
    return of;
}

/* The text of a problem. */
static inline const char *write_plant(const struct plant *of) {
    static char text[8192];
    size_t at = (size_t)snprintf(text, sizeof text, "kind=problem\nperiods=%zu\nunits=%zu\n", of->periods, of->units);
    for (int spare = 0; spare < 2; spare++) {
        at += (size_t)snprintf(text + at, sizeof text - at, spare ? "spare=" : "demand=");
        for (size_t t = 0; t < of->periods; t++) {
            int64_t number = spare ? of->spare[t] : of->demand[t];
            at += (size_t)snprintf(text + at, sizeof text - at, "%" PRId64 "%s", number, t + 1 < of->periods ? "," : "\n");
        }
    }
    for (size_t u = 0; u < of->units; u++) {
        const struct unit *unit = &of->all[u];
        int64_t p0 = unit->tini > 0 ? unit->pl : 0;
        const int64_t numbers[15] = {unit->a, unit->b, unit->c,   unit->pl,  unit->pu,    unit->tu, unit->td, unit->tini,
                                     1,       1,       unit->hsc, unit->csc, unit->tcold, unit->dc, p0};
        for (int k = 0; k < 15; k++) {
            at += (size_t)snprintf(text + at, sizeof text - at, "%s%" PRId64, k == 0 ? "unit=" : ",", numbers[k]);
        }
        at += (size_t)snprintf(text + at, sizeof text - at, "\n");
    }
    at += (size_t)snprintf(text + at, sizeof text - at, "end=problem\n");
    need(at < sizeof text, "room for a problem");
    return text;
}

#endif
