/* Plans the four circuits of samples/listing from C, and prints the sheet. */
#include "fibre_plan.h"

#include <stdio.h>

enum { LINKS = 5, WAVELENGTHS = 2, CIRCUITS = 4 };

/* 10 on links 1 to 3, 20 on 2 to 5, 30 on 1 to 2, 40 on 4 to 5. */
static const uint8_t circuits[8 * CIRCUITS] = {
    10, 0, 0, 0, 1, 0, 3, 0,
    20, 0, 0, 0, 2, 0, 5, 0,
    30, 0, 0, 0, 1, 0, 2, 0,
    40, 0, 0, 0, 4, 0, 5, 0,
};

static uint8_t fibres[FIBRE_PLAN_FIBRE_BYTES(CIRCUITS)];
static uint8_t assignments[FIBRE_PLAN_ASSIGNMENT_BYTES(CIRCUITS)];
static uint8_t work[FIBRE_PLAN_WORK_BYTES(LINKS, CIRCUITS)];

static unsigned two(const uint8_t *at) { return at[0] + 256u * at[1]; }

static unsigned long four(const uint8_t *at) { return two(at) + 65536ul * two(at + 2); }

static void print_fibre(const uint8_t *at) {
    printf("F %u %u %u %u\n", two(at), two(at + 2), two(at + 4), two(at + 6));
}

static void print_assignment(const uint8_t *at) {
    unsigned wavelength = two(at + 6);
    printf("C %lu %u %u %u\n", four(at), two(at + 4), wavelength, 192000 + 100 * wavelength);
}

int main(void) {
    fibre_plan_answer answer = fibre_plan(LINKS, WAVELENGTHS, FIBRE_PLAN_GRID_100_GHZ,
                                          circuits, sizeof circuits, fibres, sizeof fibres,
                                          assignments, sizeof assignments, work, sizeof work);
    if (answer.refusal != 0) {
        printf("R %u %u %u\n", (unsigned)answer.refusal, (unsigned)answer.place, (unsigned)answer.end);
        return 1;
    }
    for (size_t i = 0; i < answer.fibres; i++) print_fibre(fibres + 8 * i);
    for (size_t j = 0; j < CIRCUITS; j++) print_assignment(assignments + 8 * j);
    printf("T %zu %zu %zu\n", answer.fibres, answer.total, answer.floor);
    return 0;
}
