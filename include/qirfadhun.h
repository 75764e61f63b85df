/*
 * Qirfadhun from C, or from any language that calls C: judges airspace sector plans, and reads and writes the sheets that they
 * are stored in. `example.c` and `example.py` beside this file judge a plan with it.
 *
 * The functions are in `target/staticlib/libscreen.a`, which `tools/build` proves and writes, for x86-64 on Linux:
 *
 *     cc -Iinclude include/example.c target/staticlib/libscreen.a -o example
 *     cc -shared -Wl,--whole-archive target/staticlib/libscreen.a -Wl,--no-whole-archive -o libscreen.so
 *
 * The second line is for a language that loads a shared object. All that the archive wants of a C library is `memcpy` and
 * `memset`. Header and archive belong together: no linker notices that a call has a list more than its declaration.
 *
 * Lists. A list is a pointer to its first item and a length, which counts items, not bytes. What each list holds stands below.
 * - A list of length 0 may have any pointer; it is never followed. NULL was tried, for each list of sctr_call, sctr_write and
 *   sctr_write_second by itself, and in every other call for some.
 * - Any other list has to be there in its whole length, aligned as C has it for its items. No call looks beyond it.
 * - A list that is written, the one with no `const`, must not overlap any other list of the same call. Lists that are only read
 *   may overlap each other.
 * There is no other rule: whatever numbers are handed over, a call ends, and answers or refuses.
 *
 * Refusals. Code 0 means that nothing was refused; then the place is 0 too. With any other code, all numbers of the answer but code
 * and place are 0, and no list is changed. The place is that of the first offending item, from 1, where the code names one, else 0;
 * for the codes 32 to 36 the number of the block, from 0, and for 37 the code of the rule that the sheet is against.
 * `docs/CODES.md` has every code.
 *
 * Memory. Nothing is kept between calls and nothing is allocated. Calls may run in several threads at once, as long as no list
 * that one of them writes is lent to another. The stack that a call takes is at most
 *
 *     200 KiB    sctr_call, sctr_call_records
 *      96 KiB    sctr_read, sctr_to_second, sctr_to_first
 *     104 KiB    sctr_salvage
 *       4 KiB    sctr_write, sctr_write_records, sctr_write_second
 *     300 KiB    sctr_code, sctr_place, sctr_total, sctr_constraints, sctr_holds, sctr_violation
 *
 * as measured on an archive of an older kit; the Rust tests hold each archive to it. It is not proved. With less, the process ends.
 */
#ifndef QIRFADHUN_H
#define QIRFADHUN_H

#include <stddef.h>
#include <stdint.h>

#ifdef __cplusplus
extern "C" {
#endif

/* The most that a plan can have. Regions, sectors and constraints are at least 1, and so are an area of an edge, the visits of a
 * flight, the seconds of a visit and a weight. */
#define SCTR_MOST_REGIONS 512
#define SCTR_MOST_SECTORS 64
#define SCTR_MOST_WORKLOAD 1000000
#define SCTR_MOST_EDGES 2048
#define SCTR_MOST_AREA 1000000
#define SCTR_MOST_FLIGHTS 64
#define SCTR_MOST_VISITS 32 /* of one flight */
#define SCTR_MOST_VISITS_IN_ALL (SCTR_MOST_FLIGHTS * SCTR_MOST_VISITS)
#define SCTR_MOST_DWELL 86400 /* seconds of one visit */
#define SCTR_MOST_CONSTRAINTS 16
#define SCTR_MOST_LIMIT UINT64_C(100000000000)
#define SCTR_MOST_WEIGHT 1000
#define SCTR_MOST_MOVES 4096

/* How many numbers of a list an item takes. */
#define SCTR_EDGE_LENGTH 3
#define SCTR_VISIT_LENGTH 2
#define SCTR_CONSTRAINT_LENGTH 4
#define SCTR_MOVE_LENGTH 3
#define SCTR_ROW_LENGTH 4
#define SCTR_VERDICT_LENGTH 2

/* How many numbers of work memory a call asks for. */
#define SCTR_WORK_LENGTH(regions, sectors) ((regions) + 2 * (sectors) + 1)

/* The bytes of a block, and the most that a first sheet and a second sheet have. */
#define SCTR_BLOCK_BYTES 512
#define SCTR_MOST_BYTES (43 * SCTR_BLOCK_BYTES)
#define SCTR_MOST_SECOND_BYTES (74 * SCTR_BLOCK_BYTES)

/* The kinds of constraints. SCTR_BORDER and SCTR_BALANCED take the relation SCTR_AT_MOST only. */
#define SCTR_CONNECTED 1
#define SCTR_BORDER 2
#define SCTR_BALANCED 3
#define SCTR_BOUNDED 4
#define SCTR_DWELL 5

/* The relations. */
#define SCTR_AT_MOST 1
#define SCTR_BELOW 2
#define SCTR_EQUAL 3
#define SCTR_NOT_EQUAL 4
#define SCTR_ABOVE 5
#define SCTR_AT_LEAST 6

/* The kinds of moves: give a region to a sector, exchange the sectors of two regions, ask for a region's violation. A probe changes
 * nothing. */
#define SCTR_PROBE_RECOLOUR 1 /* region, sector */
#define SCTR_MAKE_RECOLOUR 2 /* region, sector */
#define SCTR_PROBE_EXCHANGE 3 /* region, region */
#define SCTR_MAKE_EXCHANGE 4 /* region, region */
#define SCTR_ASK 5 /* region, 0 */

/* The status of a move that is refused. */
#define SCTR_NO_KIND 21
#define SCTR_NO_REGION 22
#define SCTR_NO_SECOND 23

/* A constraint as a record; a list of numbers has them in the same order. */
typedef struct sctr_constraint {
    uint64_t kind;
    uint64_t relation;
    uint64_t limit;
    uint64_t weight;
} sctr_constraint;

/* What a call with moves answers: the total before the moves, and the total after them. */
typedef struct sctr_call_answer {
    uint64_t code;
    uint64_t place;
    uint64_t first;
    uint64_t last;
} sctr_call_answer;

/* What reading a sheet answers: how many of each it has. A first sheet has no flights and no visits. */
typedef struct sctr_read_answer {
    uint64_t code;
    uint64_t place;
    uint64_t regions;
    uint64_t sectors;
    uint64_t edges;
    uint64_t constraints;
    uint64_t flights;
    uint64_t visits;
} sctr_read_answer;

/* What writing or converting a sheet answers: how many bytes the written sheet has. */
typedef struct sctr_write_answer {
    uint64_t code;
    uint64_t place;
    uint64_t bytes;
} sctr_write_answer;

/* What salvaging a sheet answers: how many regions are lost. */
typedef struct sctr_salvage_answer {
    uint64_t code;
    uint64_t place;
    uint64_t lost;
} sctr_salvage_answer;

/*
 * Judges a colouring of a plan, takes the moves in turn, and judges the last colouring.
 *
 * Read, each exactly as long as said:
 *     workloads      R numbers: each region's workload
 *     outside        R numbers: the area of each region's face to the outside, 0 where it has none
 *     edges          3 numbers an edge: a, b, area, with 1 <= a < b <= R; strictly increasing by a, then b. It may be empty
 *     counts         a number a flight: how many visits it has. It may be empty
 *     visits         2 numbers a visit: region, seconds; one flight after the other, as many as the counts add up to
 *     constraints    4 numbers a constraint: kind, relation, limit, weight
 *     moves          3 numbers a move. It may be empty
 * Read and written:
 *     colouring      R numbers: each region's sector; then the last colouring
 * Written, at least as long as said. What lies beyond stays as it was:
 *     rows           4 signed numbers a move: status, 0 when accepted; delta, or the violation asked for; total after it; regions
 *                    with a new label
 *     verdicts       2 numbers a constraint, in their order: 1 if it holds or else 0; violation
 *     work           R + 2 S + 1 numbers: R labels, S component counts, S workload sums, T
 *
 * A move that is refused has its status in its row, SCTR_NO_KIND, SCTR_NO_REGION or SCTR_NO_SECOND, and the list goes on. A call's
 * start costs more than a probe: moves belong together in one call.
 */
sctr_call_answer sctr_call(
    uint64_t regions,
    uint64_t sectors,
    const uint64_t *workloads, size_t workloads_len,
    const uint64_t *outside, size_t outside_len,
    const uint64_t *edges, size_t edges_len,
    const uint64_t *counts, size_t counts_len,
    const uint64_t *visits, size_t visits_len,
    const uint64_t *constraints, size_t constraints_len,
    uint64_t *colouring, size_t colouring_len,
    const uint64_t *moves, size_t moves_len,
    int64_t *rows, size_t rows_len,
    uint64_t *verdicts, size_t verdicts_len,
    uint64_t *work, size_t work_len);

/* sctr_call, with the constraints as records: the length is how many there are. The same in all else. */
sctr_call_answer sctr_call_records(
    uint64_t regions,
    uint64_t sectors,
    const uint64_t *workloads, size_t workloads_len,
    const uint64_t *outside, size_t outside_len,
    const uint64_t *edges, size_t edges_len,
    const uint64_t *counts, size_t counts_len,
    const uint64_t *visits, size_t visits_len,
    const sctr_constraint *constraints, size_t constraints_len,
    uint64_t *colouring, size_t colouring_len,
    const uint64_t *moves, size_t moves_len,
    int64_t *rows, size_t rows_len,
    uint64_t *verdicts, size_t verdicts_len,
    uint64_t *work, size_t work_len);

/*
 * Reads either sheet, by its letters: from their starts the lists hold what sctr_call takes. What lies beyond stays as it was. Each
 * list has to be as long as what the sheet holds, with R outside areas also for a first sheet, which has zeros there; else it is
 * refused by code 39. Room for the most that there can be is always enough:
 *     workloads, outside, colouring    SCTR_MOST_REGIONS
 *     edges                            SCTR_EDGE_LENGTH * SCTR_MOST_EDGES
 *     counts                           SCTR_MOST_FLIGHTS
 *     visits                           SCTR_VISIT_LENGTH * SCTR_MOST_VISITS_IN_ALL
 *     constraints                      SCTR_CONSTRAINT_LENGTH * SCTR_MOST_CONSTRAINTS
 * To lend just enough, read with room for the most; the answer counts items.
 */
sctr_read_answer sctr_read(
    const uint8_t *sheet, size_t sheet_len,
    uint64_t *workloads, size_t workloads_len,
    uint64_t *outside, size_t outside_len,
    uint64_t *edges, size_t edges_len,
    uint64_t *counts, size_t counts_len,
    uint64_t *visits, size_t visits_len,
    uint64_t *constraints, size_t constraints_len,
    uint64_t *colouring, size_t colouring_len);

/* Writes a plan and its colouring as a first sheet, at the start of the lent bytes. It has no outside areas and no flights, and
 * takes the kinds 1 to 4 only. SCTR_MOST_BYTES are always enough; with fewer than the sheet has, it is refused by code 40. */
sctr_write_answer sctr_write(
    uint64_t regions,
    uint64_t sectors,
    const uint64_t *workloads, size_t workloads_len,
    const uint64_t *edges, size_t edges_len,
    const uint64_t *constraints, size_t constraints_len,
    const uint64_t *colouring, size_t colouring_len,
    uint8_t *sheet, size_t sheet_len);

/* sctr_write, with the constraints as records. The same in all else. */
sctr_write_answer sctr_write_records(
    uint64_t regions,
    uint64_t sectors,
    const uint64_t *workloads, size_t workloads_len,
    const uint64_t *edges, size_t edges_len,
    const sctr_constraint *constraints, size_t constraints_len,
    const uint64_t *colouring, size_t colouring_len,
    uint8_t *sheet, size_t sheet_len);

/* Writes a plan and its colouring as a second sheet, with outside areas, flights and constraints of any kind.
 * SCTR_MOST_SECOND_BYTES are always enough. In all else as sctr_write. */
sctr_write_answer sctr_write_second(
    uint64_t regions,
    uint64_t sectors,
    const uint64_t *workloads, size_t workloads_len,
    const uint64_t *outside, size_t outside_len,
    const uint64_t *edges, size_t edges_len,
    const uint64_t *counts, size_t counts_len,
    const uint64_t *visits, size_t visits_len,
    const uint64_t *constraints, size_t constraints_len,
    const uint64_t *colouring, size_t colouring_len,
    uint8_t *sheet, size_t sheet_len);

/* Converts a first sheet into a second one, with zeros as outside areas and no flights. A second sheet is refused by code 32. */
sctr_write_answer sctr_to_second(const uint8_t *sheet, size_t sheet_len, uint8_t *converted, size_t converted_len);

/* Converts a second sheet back into a first one. A first sheet is refused by code 32, and by code 41 a plan that a first sheet
 * can't carry. */
sctr_write_answer sctr_to_first(const uint8_t *sheet, size_t sheet_len, uint8_t *converted, size_t converted_len);

/*
 * Writes a sound sheet from either sheet, where no block but the colouring's is refused, and lists the regions that are lost: those
 * whose block fails by any of 32 to 36, or whose sector is not in 1..S. Each is given the sector of its lowest-numbered neighbour, by
 * the edges, whose sector survived, or sector 1 where there is none: a guess, not what was drawn. sctr_read of the salvaged sheet
 * says which. Nothing else changes, and a sheet that sctr_read takes comes out byte for byte.
 *
 * Written, at least as long as said. What lies beyond stays as it was:
 *     salvaged    as many bytes as the sheet has, else it is refused by code 40
 *     list        one number a lost region, in increasing order, else it is refused by code 17, and how many there are is not
 *                 answered. SCTR_MOST_REGIONS are always enough
 *
 * Any other fault of the sheet is refused as sctr_read refuses it.
 */
sctr_salvage_answer sctr_salvage(
    const uint8_t *sheet, size_t sheet_len,
    uint8_t *salvaged, size_t salvaged_len,
    uint64_t *list, size_t list_len);

/*
 * The calls on the bytes of either sheet, each of which answers one number. Each reads and judges the sheet anew; to ask for all
 * verdicts at once, use sctr_read and then sctr_call. Of a refused sheet all but sctr_code and sctr_place answer 0.
 */

/* The code that the sheet is refused with, or 0. */
uint64_t sctr_code(const uint8_t *sheet, size_t sheet_len);

/* The place that goes with the code, or 0. */
uint64_t sctr_place(const uint8_t *sheet, size_t sheet_len);

/* The sum of weight times violation over all constraints. */
uint64_t sctr_total(const uint8_t *sheet, size_t sheet_len);

/* How many constraints the sheet has. */
uint64_t sctr_constraints(const uint8_t *sheet, size_t sheet_len);

/* 1 if the constraint at this place holds, else 0. Places count from 1. For a place outside the list it is 0, as for a constraint
 * that is broken: go from 1 to sctr_constraints. */
uint64_t sctr_holds(const uint8_t *sheet, size_t sheet_len, uint64_t place);

/* The violation of the constraint at this place, from 1. For a place outside the list it is 0, as for a constraint that holds. */
uint64_t sctr_violation(const uint8_t *sheet, size_t sheet_len, uint64_t place);

#ifdef __cplusplus
}
#endif

#endif
