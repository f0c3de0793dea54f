/* Plans the four circuits of samples/listing from C, damages the register, mends it, prints the report, and checks the plan. */
#include "fibre_plan.h"

#include <stdio.h>
#include <string.h>

enum { LINKS = 5, WAVELENGTHS = 2, CIRCUITS = 4 };

/* 10 on links 1 to 3, 20 on 2 to 5, 30 on 1 to 2, 40 on 4 to 5. */
static const uint8_t circuits[8 * CIRCUITS] = {
    10, 0, 0, 0, 1, 0, 3, 0,
    20, 0, 0, 0, 2, 0, 5, 0,
    30, 0, 0, 0, 1, 0, 2, 0,
    40, 0, 0, 0, 4, 0, 5, 0,
};

/* Room for as many old fibres as there are circuits, and as many more. */
static uint8_t fibres[FIBRE_PLAN_FIBRE_BYTES(2 * CIRCUITS)];
static uint8_t assignments[FIBRE_PLAN_ASSIGNMENT_BYTES(CIRCUITS)];
static uint8_t report[FIBRE_PLAN_REPORT_BYTES(CIRCUITS)];
static uint8_t work[FIBRE_PLAN_WORK_BYTES(LINKS, CIRCUITS)];

/* Mends the register, which has so many fibres, and prints the report. */
static fibre_mend_answer mend(size_t old_fibres) {
    fibre_mend_answer answer = fibre_mend(LINKS, WAVELENGTHS, FIBRE_PLAN_GRID_100_GHZ,
                                          circuits, sizeof circuits, old_fibres,
                                          fibres, sizeof fibres, assignments, sizeof assignments,
                                          report, sizeof report, work, sizeof work);
    for (size_t i = 0; i < answer.lines; i++) {
        const uint8_t *line = report + 12 * i;
        unsigned long circuit = line[0] | line[1] << 8 | line[2] << 16 | (unsigned long)line[3] << 24;
        printf("%lu: %d %d, %d %d\n", circuit, line[4] | line[5] << 8, line[6] | line[7] << 8,
               line[8] | line[9] << 8, line[10] | line[11] << 8);
    }
    return answer;
}

int main(void) {
    fibre_plan_answer plan = fibre_plan(LINKS, WAVELENGTHS, FIBRE_PLAN_GRID_100_GHZ,
                                        circuits, sizeof circuits, fibres, sizeof fibres,
                                        assignments, sizeof assignments, work, sizeof work);
    if (plan.refusal != 0) return 1;
    /* Circuit 10 now has the place of 30, and the record of 40 is lost. */
    assignments[6] = 1;
    memset(assignments + 8 * 3, 0, 8);
    fibre_mend_answer mended = mend(plan.fibres);
    if (mended.refusal != 0 || mended.lines != 2) return 1;
    fibre_check_answer found = fibre_check(LINKS, WAVELENGTHS, FIBRE_PLAN_GRID_100_GHZ,
                                           circuits, sizeof circuits, fibres, 8 * mended.fibres,
                                           assignments, sizeof assignments);
    if (found.refusal != 0 || found.rule != 0) return 1;
    printf("Y %zu %zu\n", found.length, found.floor);
    /* Nothing is left to be mended. */
    mended = mend(mended.fibres);
    return mended.refusal != 0 || mended.lines != 0;
}
