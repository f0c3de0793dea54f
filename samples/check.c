/* Plans the four circuits of samples/listing from C, checks the plan, spoils it, and checks it again. */
#include "fibre_plan.h"

#include <stdio.h>

enum { LINKS = 5, WAVELENGTHS = 2, CIRCUITS = 4 };

/* 10 on links 1 to 3, 20 on 2 to 5, 30 on 1 to 2, 40 on 4 to 5. */
static const uint8_t circuits[8 * CIRCUITS] = {
    10, 0, 0, 0, 1, 0, 3, 0,
    20, 0, 0, 0, 2, 0, 5, 0,
    30, 0, 0, 0, 1, 0, 2, 0,
    40, 0, 0, 0, 4, 0, 5, 0,
};

static uint8_t fibres[FIBRE_PLAN_FIBRE_BYTES(CIRCUITS)];
static uint8_t assignments[FIBRE_PLAN_ASSIGNMENT_BYTES(CIRCUITS)];
static uint8_t work[FIBRE_PLAN_WORK_BYTES(LINKS, CIRCUITS)];

/* Checks so many fibres and all assignments, and prints what was found. */
static void check(size_t fibre_count) {
    fibre_check_answer answer = fibre_check(LINKS, WAVELENGTHS, FIBRE_PLAN_GRID_100_GHZ,
                                            circuits, sizeof circuits, fibres, 8 * fibre_count,
                                            assignments, sizeof assignments);
    if (answer.refusal != 0)
        printf("R %u %u %u\n", (unsigned)answer.refusal, (unsigned)answer.place, (unsigned)answer.end);
    else if (answer.rule != 0)
        printf("N %u %u\n", (unsigned)answer.rule, (unsigned)answer.place);
    else
        printf("Y %zu %zu\n", answer.length, answer.floor);
}

int main(void) {
    fibre_plan_answer answer = fibre_plan(LINKS, WAVELENGTHS, FIBRE_PLAN_GRID_100_GHZ,
                                          circuits, sizeof circuits, fibres, sizeof fibres,
                                          assignments, sizeof assignments, work, sizeof work);
    if (answer.refusal != 0) return 1;
    check(answer.fibres);
    /* Circuit 20, the second, moves to fibre 1, where circuit 30, the third, has its wavelength: they meet on link 2. */
    assignments[8 + 4] = 1;
    check(answer.fibres);
    return 0;
}
