/* Plans the four circuits of samples/listing from C, adds circuits twice, and checks the plan after each step. */
#include "fibre_plan.h"

#include <stdio.h>

enum { LINKS = 5, WAVELENGTHS = 2, CIRCUITS = 8 };

/* 10 on links 1 to 3, 20 on 2 to 5, 30 on 1 to 2, 40 on 4 to 5; then 50 on 4 to 5, 15 on 3 to 5, 60 on 1; then 70 on 1. */
static const uint8_t circuits[8 * CIRCUITS] = {
    10, 0, 0, 0, 1, 0, 3, 0,
    20, 0, 0, 0, 2, 0, 5, 0,
    30, 0, 0, 0, 1, 0, 2, 0,
    40, 0, 0, 0, 4, 0, 5, 0,
    50, 0, 0, 0, 4, 0, 5, 0,
    15, 0, 0, 0, 3, 0, 5, 0,
    60, 0, 0, 0, 1, 0, 1, 0,
    70, 0, 0, 0, 1, 0, 1, 0,
};

static uint8_t fibres[FIBRE_PLAN_FIBRE_BYTES(CIRCUITS)];
static uint8_t assignments[FIBRE_PLAN_ASSIGNMENT_BYTES(CIRCUITS)];
static uint8_t work[FIBRE_PLAN_WORK_BYTES(LINKS, CIRCUITS)];

/* Checks so many fibres and assignments, and prints what was found. */
static void check(size_t fibre_count, size_t count) {
    fibre_check_answer answer = fibre_check(LINKS, WAVELENGTHS, FIBRE_PLAN_GRID_100_GHZ,
                                            circuits, 8 * count, fibres, 8 * fibre_count,
                                            assignments, 8 * count);
    if (answer.refusal != 0)
        printf("R %u %u %u\n", (unsigned)answer.refusal, (unsigned)answer.place, (unsigned)answer.end);
    else if (answer.rule != 0)
        printf("N %u %u\n", (unsigned)answer.rule, (unsigned)answer.place);
    else
        printf("Y %zu %zu\n", answer.length, answer.floor);
}

/* Adds the circuits from one place to another to a plan of those before them. */
static fibre_plan_answer add(size_t old_fibres, size_t from, size_t to) {
    return fibre_add(LINKS, WAVELENGTHS, FIBRE_PLAN_GRID_100_GHZ,
                     circuits, 8 * from, circuits + 8 * from, 8 * (to - from),
                     old_fibres, from, fibres, sizeof fibres,
                     assignments, sizeof assignments, work, sizeof work);
}

int main(void) {
    fibre_plan_answer answer = fibre_plan(LINKS, WAVELENGTHS, FIBRE_PLAN_GRID_100_GHZ,
                                          circuits, 8 * 4, fibres, sizeof fibres,
                                          assignments, sizeof assignments, work, sizeof work);
    if (answer.refusal != 0) return 1;
    check(answer.fibres, 4);
    /* Circuits 15 and 50 find places; 60 gets a new fibre. */
    answer = add(answer.fibres, 4, 7);
    if (answer.refusal != 0) return 1;
    check(answer.fibres, 7);
    /* Circuit 70 finds a place on it. */
    answer = add(answer.fibres, 7, 8);
    if (answer.refusal != 0) return 1;
    check(answer.fibres, 8);
    return 0;
}
