/* A fibre planner that is proved: every circuit of a line gets a fibre and a wavelength. Circuits can be added to a plan, and none is
 * moved. A damaged register can be mended. And a check of any plan, whoever made it.
 *
 * Build the archive with `scripts/archive`, and link target/staticlib/libexports.a (x86-64 Linux).
 * The functions keep nothing between calls and allocate nothing; fibre_plan uses less than 48 KB of stack, fibre_check less than 64 KB,
 * fibre_add and fibre_mend less than 96 KB. Several threads may call them at the same time, each with areas of its own to be written.
 *
 * All records have 8 bytes; all numbers are unsigned and stand low byte first.
 *
 *   circuit      number (4 bytes, from 1, no two alike), first link (2), last link (2)
 *   fibre        number (2 bytes, from 1), first link (2), last link (2), layer (2, from 1; a layer may have no fibre)
 *   assignment   circuit number (4 bytes), fibre number (2), wavelength (2, from 1)
 *
 * A grid (of ITU-T G.694.1) says how many wavelengths a fibre may carry, and their frequencies; the plan
 * does not depend on it otherwise. Grid 1 has 40 wavelengths 100 GHz apart: wavelength 1 is 192,100 GHz,
 * 11 is 193,100 GHz, 40 is 196,000 GHz. Grid 2 has 80 wavelengths 50 GHz apart: wavelength 1 is
 * 192,100 GHz, 21 is 193,100 GHz, 80 is 196,050 GHz.
 */
#ifndef FIBRE_PLAN_H
#define FIBRE_PLAN_H

#include <stddef.h>
#include <stdint.h>

#ifdef __cplusplus
extern "C" {
#endif

/* The largest values that are accepted. */
#define FIBRE_PLAN_MAX_LINKS 512
#define FIBRE_PLAN_MAX_CIRCUITS 2048   /* old and new ones together */
#define FIBRE_PLAN_MAX_FIBRES 4096     /* of a plan that is checked */
#define FIBRE_PLAN_MAX_OLD_FIBRES 2048 /* of a plan that circuits are added to, or of a register that is mended */

/* The grids, and the most wavelengths of each. */
#define FIBRE_PLAN_GRID_100_GHZ 1
#define FIBRE_PLAN_GRID_50_GHZ 2
#define FIBRE_PLAN_MAX_WAVELENGTHS_100_GHZ 40
#define FIBRE_PLAN_MAX_WAVELENGTHS_50_GHZ 80

/* What is wrong with the ends of a circuit that refusal 6 is about, in the order of the tests. */
#define FIBRE_PLAN_END_FIRST_ZERO 1      /* the first link is 0 */
#define FIBRE_PLAN_END_FIRST_PAST_LAST 2 /* the first link is past the last */
#define FIBRE_PLAN_END_LAST_PAST_LINE 3  /* the last link is past the line */

/* The bytes that each area must have, for so many circuits and links. There is at most one fibre a circuit. Where circuits are added,
 * the fibre list asks for FIBRE_PLAN_FIBRE_BYTES(old fibres + new circuits), the others count the circuits of both files. Where a
 * register is mended, the fibre list asks for FIBRE_PLAN_FIBRE_BYTES(old fibres + circuits). */
#define FIBRE_PLAN_FIBRE_BYTES(circuits) (8 * (size_t)(circuits))
#define FIBRE_PLAN_ASSIGNMENT_BYTES(circuits) (8 * (size_t)(circuits))
#define FIBRE_PLAN_WORK_BYTES(links, circuits) (4 * (size_t)(links) + 4 * (size_t)(circuits))
#define FIBRE_PLAN_REPORT_BYTES(circuits) (12 * (size_t)(circuits)) /* of fibre_mend: 12 bytes a line */

/* What fibre_plan and fibre_add answer. Where they refuse, the last three are 0. For fibre_add see there.
 *
 * The tests of fibre_plan run in this order, each over the whole input; the first refusal that applies is given,
 * and none otherwise. Places are circuit records, counted from 1. The end is one of FIBRE_PLAN_END_..:
 * the first of the three, in their order, that is wrong in the record of the place.
 *
 *   refusal  given when                                                   place                   end
 *      0     planned                                                      0                       0
 *      1     the circuit bytes are not a multiple of 8                    0                       0
 *      2     there are more than 2,048 circuits                           0                       0
 *      3     links is not 1 to 512                                        0                       0
 *     12     grid is neither 1 nor 2                                      0                       0
 *      4     wavelengths is not 1 to 40 (grid 1) or 1 to 80 (grid 2)      0                       0
 *      5     a circuit number is 0                                        the first such record   0
 *      6     a first link is 0, or past the last, or the last past links  the first such record   1, 2 or 3
 *      7     a circuit number stands twice                                the first that repeats  0
 *      8     fibres has fewer than 8 bytes a circuit                      0                       0
 *      9     assignments has fewer than 8 bytes a circuit                 0                       0
 *     10     work has fewer than 4 bytes a link and 4 bytes a circuit     0                       0
 */
typedef struct fibre_plan_answer {
    uint32_t refusal; /* 0: planned */
    uint32_t place;
    uint32_t end;     /* 0, but for refusal 6 */
    size_t fibres;    /* how many fibres the plan has; fibre_plan writes at most one a circuit */
    size_t total;     /* the sum over the fibres of the links that they span */
    size_t floor;     /* a length that no valid plan can be shorter than; for fibre_plan total is at most twice that */
} fibre_plan_answer;

/* Plans the circuits of a line. No fibre is dark, not even on one of its links: each link of a fibre is
 * used by a circuit that the fibre carries.
 *
 *   links, wavelengths   of the line, and of each fibre; any value is taken
 *   grid                 FIBRE_PLAN_GRID_100_GHZ or FIBRE_PLAN_GRID_50_GHZ; any value is taken
 *   circuits             circuits_len bytes of circuit records, in any order; only read
 *   fibres               fibres_len bytes; the fibre records are written to its start
 *   assignments          assignments_len bytes; an assignment for each circuit is written to its
 *                        start, in the order of the circuits
 *   work                 work_len bytes to work in; after a plan its first
 *                        FIBRE_PLAN_WORK_BYTES(links, circuits) bytes are zero
 *
 * What stood in the three areas before does not matter. Every byte behind what is named here is
 * left as it was, and a refusal changes no byte.
 *
 * The caller sees to it that each pointer is to so many bytes (and is not NULL, not even where the
 * length is 0, as malloc(0) or the data() of an empty std::vector may be), that the four areas do not overlap, and that nobody else uses the three that are
 * written, or writes to the circuits, during the call. */
fibre_plan_answer fibre_plan(size_t links, size_t wavelengths, size_t grid,
                             const uint8_t *circuits, size_t circuits_len,
                             uint8_t *fibres, size_t fibres_len,
                             uint8_t *assignments, size_t assignments_len,
                             uint8_t *work, size_t work_len);

/* Adds circuits to a plan, ours or another's, and moves none. The new circuits take their turns by rising number: each gets the
 * lowest-numbered old fibre that spans it and has a wavelength free there, and the lowest such wavelength. Those that fit nowhere are
 * planned together, as fibre_plan plans them; their fibres follow the old ones, numbered on from them, with layers counted from 1.
 *
 *   links, wavelengths   of the line, and of each fibre; any value is taken, also others than the plan was made with
 *   grid                 FIBRE_PLAN_GRID_100_GHZ or FIBRE_PLAN_GRID_50_GHZ; any value is taken
 *   circuits             circuits_len bytes of circuit records, the old ones, in the order of their assignments; only read
 *   added                added_len bytes of circuit records, the new ones, in any order; only read
 *   old_fibres           how many old records fibres begins with; any value is taken
 *   old_assignments      how many old records assignments begins with; any value is taken
 *   fibres               fibres_len bytes; the fibre records that are added are written behind the old ones
 *   assignments          assignments_len bytes; an assignment for each new circuit is written behind the old ones, in the order of
 *                        the new circuits
 *   work                 work_len bytes to work in; after an addition its first FIBRE_PLAN_WORK_BYTES(links, circuits of both
 *                        files) bytes are zero
 *
 * The three numbers are those of the whole plan, and the floor is that of the circuits of both files. No old record changes a byte;
 * what stood behind the old records and in work does not matter. Every byte behind what is named here is left as it was, and a refusal
 * changes no byte. After k additions to a plan of fibre_plan there are over each link at most 2k fibres more than twice as many as
 * its circuits need, with the least number of wavelengths that was given.
 *
 * The tests run in this order, each over the whole input; the first refusal that applies is given, and none otherwise. Places are
 * circuit records, counted from 1; those of the new file count on from those of the old one. The end is as in fibre_plan_answer.
 *
 *   refusal  given when                                                          place                        end
 *      0     added                                                               0                            0
 *      1     the bytes of the old file, or of the new, are not a multiple of 8   0                            0
 *      2     there are more than 2,048 circuits in both files together           0                            0
 *      3     links is not 1 to 512                                               0                            0
 *     12     grid is neither 1 nor 2                                             0                            0
 *      4     wavelengths is not 1 to 40 (grid 1) or 1 to 80 (grid 2)             0                            0
 *      5     a circuit number is 0, in the old file or the new                   the first such record        0
 *      6     a first link is 0, or past the last, or the last past links,        the first such record        1, 2 or 3
 *            in the old file or the new
 *      7     a circuit number stands twice in the old file, or else in the new   the first that repeats       0
 *      8     fibres has fewer than 8 bytes for each of old_fibres and for        0                            0
 *            each new circuit
 *      9     assignments has fewer than 8 bytes for each of old_assignments      0                            0
 *            and for each new circuit
 *     10     work has fewer than 4 bytes a link and 4 bytes a circuit of both    0                            0
 *     13     the old plan breaks a rule of fibre_check on this line, or has      0                            0
 *            more than 2,048 fibres
 *     14     the old file has the number of a new circuit                        the first such new record    0
 *
 * The caller sees to it that each pointer is to so many bytes (and is not NULL, not even where the length is 0), that the five areas
 * do not overlap, and that nobody else uses the three that are written, or writes to the circuits, during the call. */
fibre_plan_answer fibre_add(size_t links, size_t wavelengths, size_t grid,
                            const uint8_t *circuits, size_t circuits_len,
                            const uint8_t *added, size_t added_len,
                            size_t old_fibres, size_t old_assignments,
                            uint8_t *fibres, size_t fibres_len,
                            uint8_t *assignments, size_t assignments_len,
                            uint8_t *work, size_t work_len);

/* What fibre_mend answers. Where it refuses, the last four are 0.
 *
 * The tests run in this order, each over the whole input; the first refusal that applies is given, and none otherwise. Places are
 * circuit records but for refusals 16 and 20, counted from 1. The end is as in fibre_plan_answer.
 *
 *   refusal  given when                                                     place                   end
 *      0     mended                                                         0                       0
 *      1     the circuit bytes are not a multiple of 8                      0                       0
 *      2     there are more than 2,048 circuits                             0                       0
 *      3     links is not 1 to 512                                          0                       0
 *     12     grid is neither 1 nor 2                                        0                       0
 *      4     wavelengths is not 1 to 40 (grid 1) or 1 to 80 (grid 2)        0                       0
 *      5     a circuit number is 0                                          the first such record   0
 *      6     a first link is 0, or past the last, or the last past links    the first such record   1, 2 or 3
 *      7     a circuit number stands twice                                  the first that repeats  0
 *      8     fibres has fewer than 8 bytes for each of old_fibres and for   0                       0
 *            each circuit
 *     10     work has fewer than 4 bytes a link and 4 bytes a circuit       0                       0
 *     16     assignments has not exactly 8 bytes a circuit                  2                       0
 *     20     old_fibres is over 2,048                                       0                       0
 *     20     an old fibre breaks rule 1 or 2 of fibre_check                 the first such fibre    0
 *     23     report has fewer than 12 bytes a circuit                       0                       0
 */
typedef struct fibre_mend_answer {
    uint32_t refusal; /* 0: mended */
    uint32_t place;
    uint32_t end;     /* 0, but for refusal 6 */
    size_t fibres;    /* how many fibres the plan has, old and added ones */
    size_t total;     /* the sum over the fibres of the links that they span */
    size_t floor;     /* a length that no valid plan can be shorter than */
    size_t lines;     /* how many lines the report has: the circuits that were not kept */
} fibre_mend_answer;

/* Mends a register: circuits, fibres, and a damaged list of assignments. By rising circuit number, an assignment is kept if it breaks
 * none of the rules 4 to 7 of fibre_check and clashes with none that was kept before. When it is known who is kept, the others take
 * their turns by rising number, as in fibre_add: each gets the lowest-numbered old fibre that spans it and has a wavelength free there,
 * and the lowest such wavelength. Those that fit nowhere are planned together, as fibre_plan plans them; their fibres follow the old
 * ones, numbered on from them, with layers counted from 1.
 *
 *   links, wavelengths   of the line, and of each fibre; any value is taken, also others than the plan was made with
 *   grid                 FIBRE_PLAN_GRID_100_GHZ or FIBRE_PLAN_GRID_50_GHZ; any value is taken
 *   circuits             circuits_len bytes of circuit records, in the order of their assignments; only read
 *   old_fibres           how many old records fibres begins with; any value is taken
 *   fibres               fibres_len bytes; the fibre records that are added are written behind the old ones
 *   assignments          assignments_len bytes, exactly one record for each circuit, in the order of the circuits, with any bytes in
 *                        them; the assignment of each circuit that is not kept is written to its own record
 *   report               report_len bytes; a line of 12 bytes for each circuit that is not kept is written to its start, by rising
 *                        circuit number
 *   work                 work_len bytes to work in; after a mending its first FIBRE_PLAN_WORK_BYTES(links, circuits) bytes are zero
 *
 *   line of the report   circuit number (4 bytes), fibre (2) and wavelength (2) found, fibre (2) and wavelength (2) given
 *
 * What is found is what stands in the record at the circuit's place, even if that names another circuit; what is given may be the same.
 * The three numbers are those of the whole plan. No old fibre and no assignment that is kept changes a byte, so a register without
 * faults stays as it is. What stood behind the old fibres, in report and in work does not matter. Every byte behind what is named here
 * is left as it was, and a refusal changes no byte.
 *
 * The caller sees to it that each pointer is to so many bytes (and is not NULL, not even where the length is 0), that the five areas
 * do not overlap, and that nobody else uses the four that are written, or writes to the circuits, during the call. */
fibre_mend_answer fibre_mend(size_t links, size_t wavelengths, size_t grid,
                             const uint8_t *circuits, size_t circuits_len,
                             size_t old_fibres,
                             uint8_t *fibres, size_t fibres_len,
                             uint8_t *assignments, size_t assignments_len,
                             uint8_t *report, size_t report_len,
                             uint8_t *work, size_t work_len);

/* The rules of a valid plan, by how they are broken. */
#define FIBRE_PLAN_RULE_FIBRE_NUMBER 1
#define FIBRE_PLAN_RULE_FIBRE_SPAN 2
#define FIBRE_PLAN_RULE_ASSIGNMENT_COUNT 3
#define FIBRE_PLAN_RULE_CIRCUIT_NUMBER 4
#define FIBRE_PLAN_RULE_NO_SUCH_FIBRE 5
#define FIBRE_PLAN_RULE_NOT_SPANNED 6
#define FIBRE_PLAN_RULE_WAVELENGTH 7
#define FIBRE_PLAN_RULE_CLASH 8

/* What fibre_check answers. Yes: refusal and rule are 0, and there are a length and a floor. No: the rule is not 0. Refused: the
 * refusal is not 0. What is not named for an answer is 0.
 *
 * Of the rules, the first that is broken is given: fibres come first, the first faulty one and its lowest rule; then rule 3; then
 * assignments, the first faulty one and its lowest rule. Places are counted from 1.
 *
 *   rule  broken when                                                                   place
 *     1   a fibre's number is not its place in the list                                 that fibre
 *     2   its first link is 0, or past its last, or its last past links                 that fibre
 *     3   there are not as many assignments as circuits                                 0
 *     4   an assignment does not have the number of the circuit at its place            that assignment
 *     5   there is no fibre of the number that it has                                   that assignment
 *     6   its fibre does not span the circuit                                           that assignment
 *     7   its wavelength is not 1 to wavelengths                                        that assignment
 *     8   an earlier one has its fibre and wavelength, and their circuits share a link  that assignment, the later one
 *
 * The refusals come before all rules. The tests run in this order, each over the whole input; the first that applies is given,
 * and none otherwise. Places are circuit records but for refusal 16; the end is as in fibre_plan_answer.
 *
 *   refusal  given when                                                   place                   end
 *      0     checked                                                      see the rules           0
 *      1     the circuit bytes are not a multiple of 8                    0                       0
 *      2     there are more than 2,048 circuits                           0                       0
 *      3     links is not 1 to 512                                        0                       0
 *     12     grid is neither 1 nor 2                                      0                       0
 *      4     wavelengths is not 1 to 40 (grid 1) or 1 to 80 (grid 2)      0                       0
 *      5     a circuit number is 0                                        the first such record   0
 *      6     a first link is 0, or past the last, or the last past links  the first such record   1, 2 or 3
 *      7     a circuit number stands twice                                the first that repeats  0
 *     16     fibres is not a multiple of 8 bytes, or over 4,096 records   1                       0
 *     16     assignments is not a multiple of 8 bytes, or over 2,048      2                       0
 */
typedef struct fibre_check_answer {
    uint32_t refusal; /* 0: checked */
    uint32_t place;
    uint32_t end;     /* 0, but for refusal 6 */
    uint32_t rule;    /* 0: none is broken, or refused */
    size_t length;    /* the sum over the fibres of the links that they span */
    size_t floor;     /* a length that no valid plan can be shorter than */
} fibre_check_answer;

/* Checks a plan of the circuits of a line, whoever made it: yes exactly if it breaks no rule. Every plan that fibre_plan,
 * fibre_add or fibre_mend writes gets a yes, with its total and its floor.
 *
 *   links, wavelengths   of the line, and of each fibre; any value is taken
 *   grid                 FIBRE_PLAN_GRID_100_GHZ or FIBRE_PLAN_GRID_50_GHZ; any value is taken
 *   circuits             circuits_len bytes of circuit records, in any order
 *   fibres               fibres_len bytes of fibre records, for a plan of ours 8 bytes for each of its fibres; their layers do not matter
 *   assignments          assignments_len bytes of assignment records, in the order of the circuits
 *
 * All three are only read. The caller sees to it that each pointer is to so many bytes (and is not NULL, not even where the
 * length is 0), and that nobody writes to them during the call; they may overlap. */
fibre_check_answer fibre_check(size_t links, size_t wavelengths, size_t grid,
                               const uint8_t *circuits, size_t circuits_len,
                               const uint8_t *fibres, size_t fibres_len,
                               const uint8_t *assignments, size_t assignments_len);

#ifdef __cplusplus
}
#endif

#endif
