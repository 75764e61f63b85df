/*
 * Judges sheet A, first by its numbers and then by the bytes of its sheet, and holds what is answered to document 01.
 *
 *     cc -Iinclude include/example.c target/staticlib/libscreen.a -o example && ./example sheets/a.sheet
 */
#include "qirfadhun.h"

#include <stdio.h>
#include <string.h>

#define LENGTH(list) (sizeof(list) / sizeof(*(list)))
#define REGIONS 5
#define SECTORS 2

static const uint64_t workloads[REGIONS] = {10, 20, 30, 25, 15};
static const uint64_t outside[REGIONS] = {0, 0, 0, 0, 0}; /* no face to the outside */
static const uint64_t edges[] = {1, 2, 4, 2, 3, 6, 3, 4, 2, 4, 5, 3}; /* a, b, area */
static const uint64_t colouring[REGIONS] = {1, 1, 1, 2, 2};
static const sctr_constraint constraints[] = {
    {SCTR_CONNECTED, SCTR_EQUAL, 2, 100},
    {SCTR_BORDER, SCTR_AT_MOST, 5, 1},
    {SCTR_BALANCED, SCTR_AT_MOST, 40, 2},
    {SCTR_BOUNDED, SCTR_AT_MOST, 55, 3},
};

static int differences = 0;

/* Tells where two lists of numbers, found and due, differ. */
static void hold(const char *name, const void *found, const void *due, size_t bytes) {
    if (memcmp(found, due, bytes) != 0) {
        printf("%s: not as document 01 has it\n", name);
        differences++;
    }
}

static void hold_number(const char *name, uint64_t found, uint64_t due) {
    hold(name, &found, &due, sizeof due);
}

/* Judges sheet A and takes one move on it. The row is the one that is due. */
static void hold_move(
    uint64_t kind, uint64_t first, uint64_t second, int64_t status, int64_t delta, int64_t total, int64_t relabelled) {
    uint64_t moves[SCTR_MOVE_LENGTH], last[REGIONS], verdicts[SCTR_VERDICT_LENGTH * LENGTH(constraints)];
    uint64_t work[SCTR_WORK_LENGTH(REGIONS, SECTORS)];
    int64_t row[SCTR_ROW_LENGTH], due[SCTR_ROW_LENGTH];
    sctr_call_answer answer;

    moves[0] = kind, moves[1] = first, moves[2] = second;
    due[0] = status, due[1] = delta, due[2] = total, due[3] = relabelled;
    memcpy(last, colouring, sizeof last);
    answer = sctr_call_records(
        REGIONS, SECTORS, workloads, REGIONS, outside, REGIONS, edges, LENGTH(edges), NULL, 0, NULL, 0, constraints,
        LENGTH(constraints), last, REGIONS, moves, LENGTH(moves), row, LENGTH(row), verdicts, LENGTH(verdicts), work, LENGTH(work));
    hold_number("code", answer.code, 0);
    hold_number("first total", answer.first, 15);
    hold_number("last total", answer.last, (uint64_t)total);
    hold("row", row, due, sizeof due);
}

/* The numbers of sheet A, with no moves and no flights. */
static void hold_judgement(void) {
    static const uint64_t verdicts_due[] = {1, 0, 1, 0, 1, 0, 0, 5}; /* holds, violation */
    static const uint64_t work_due[] = {1, 1, 1, 4, 4, 1, 1, 60, 40, 2}; /* labels, component counts, workload sums, T */
    uint64_t last[REGIONS], verdicts[LENGTH(verdicts_due)], work[LENGTH(work_due)];
    sctr_call_answer answer;

    memcpy(last, colouring, sizeof last);
    answer = sctr_call_records(
        REGIONS, SECTORS, workloads, REGIONS, outside, REGIONS, edges, LENGTH(edges), NULL, 0, NULL, 0, constraints,
        LENGTH(constraints), last, REGIONS, NULL, 0, NULL, 0, verdicts, LENGTH(verdicts), work, LENGTH(work));
    hold_number("code", answer.code, 0);
    hold_number("first total", answer.first, 15);
    hold_number("last total", answer.last, 15);
    hold("verdicts", verdicts, verdicts_due, sizeof verdicts_due);
    hold("work", work, work_due, sizeof work_due);
    hold("colouring", last, colouring, sizeof colouring);
}

/* One region of a workload, 64 sectors, and the constraint that each has a workload of at least 1, as a list of numbers. */
static void hold_one_region(uint64_t workload, uint64_t code, uint64_t place, uint64_t violation) {
    static const uint64_t no_outside[] = {0}, at_least[] = {SCTR_BOUNDED, SCTR_AT_LEAST, 1, 1};
    uint64_t sector[] = {1}, verdict[SCTR_VERDICT_LENGTH] = {0, 0}, work[SCTR_WORK_LENGTH(1, 64)];
    sctr_call_answer answer = sctr_call(
        1, 64, &workload, 1, no_outside, 1, NULL, 0, NULL, 0, NULL, 0, at_least, LENGTH(at_least), sector, 1, NULL, 0, NULL, 0,
        verdict, LENGTH(verdict), work, LENGTH(work));
    hold_number("code", answer.code, code);
    hold_number("place", answer.place, place);
    hold_number("total", answer.last, violation);
    hold_number("violation", verdict[1], violation);
}

/* The verdicts of the sheet, each with its place, which counts from 1. */
static void print_verdicts(const uint8_t *sheet, size_t bytes) {
    uint64_t place;

    for (place = 1; place <= sctr_constraints(sheet, bytes); place++) {
        const char *verdict = sctr_holds(sheet, bytes, place) ? "holds" : "broken";
        unsigned long violation = (unsigned long)sctr_violation(sheet, bytes, place);
        printf("constraint %lu: %s, violation %lu\n", (unsigned long)place, verdict, violation);
    }
    printf("total %lu\n", (unsigned long)sctr_total(sheet, bytes));
}

/* The bytes of the sheet, damaged in its colouring's only block: each region is lost, and is in sector 1 now. */
static void hold_salvage(uint8_t *sheet, size_t bytes) {
    static const uint64_t due[REGIONS] = {1, 2, 3, 4, 5};
    static uint8_t salvaged[SCTR_MOST_SECOND_BYTES];
    uint64_t list[SCTR_MOST_REGIONS];
    sctr_salvage_answer answer;

    answer = sctr_salvage(sheet, bytes, salvaged, LENGTH(salvaged), NULL, 0);
    hold_number("lost regions of a sound sheet", answer.lost, 0);
    hold("salvaged sheet", salvaged, sheet, bytes);
    sheet[4 * SCTR_BLOCK_BYTES + 10] = 9;
    answer = sctr_salvage(sheet, bytes, salvaged, LENGTH(salvaged), list, LENGTH(list));
    hold_number("code of the salvage", answer.code, 0);
    hold_number("lost regions", answer.lost, REGIONS);
    hold("list of lost regions", list, due, sizeof due);
    hold_number("code of the damaged sheet", sctr_code(sheet, bytes), 33);
    hold_number("total of the salvaged sheet", sctr_total(salvaged, bytes), 555);
    hold_number("code without a list", sctr_salvage(sheet, bytes, salvaged, LENGTH(salvaged), NULL, 0).code, 17);
    sheet[4 * SCTR_BLOCK_BYTES + 10] = 1;
}

/* The bytes of the sheet: asked, read, written again, converted and converted back; then damaged. */
static void hold_sheet(uint8_t *sheet, size_t bytes) {
    static const uint64_t due[] = {0, 0, 0, 0, 5, 0}; /* violations of the places 0 to 5; there are no constraints 0 and 5 */
    static uint64_t read_workloads[SCTR_MOST_REGIONS], read_outside[SCTR_MOST_REGIONS], read_colouring[SCTR_MOST_REGIONS];
    static uint64_t read_edges[SCTR_EDGE_LENGTH * SCTR_MOST_EDGES], read_counts[SCTR_MOST_FLIGHTS];
    static uint64_t read_visits[SCTR_VISIT_LENGTH * SCTR_MOST_VISITS_IN_ALL];
    static uint64_t read_constraints[SCTR_CONSTRAINT_LENGTH * SCTR_MOST_CONSTRAINTS];
    static uint8_t written[SCTR_MOST_BYTES], second[SCTR_MOST_SECOND_BYTES];
    sctr_read_answer read;
    uint64_t place;

    hold_number("code of the sheet", sctr_code(sheet, bytes), 0);
    hold_number("total of the sheet", sctr_total(sheet, bytes), 15);
    hold_number("constraints of the sheet", sctr_constraints(sheet, bytes), 4);
    for (place = 0; place <= 5; place++) {
        hold_number("holds", sctr_holds(sheet, bytes, place), 1 <= place && place <= 3);
        hold_number("violation", sctr_violation(sheet, bytes, place), due[place]);
    }

    read = sctr_read(
        sheet, bytes, read_workloads, LENGTH(read_workloads), read_outside, LENGTH(read_outside), read_edges, LENGTH(read_edges),
        read_counts, LENGTH(read_counts), read_visits, LENGTH(read_visits), read_constraints, LENGTH(read_constraints),
        read_colouring, LENGTH(read_colouring));
    hold_number("edges read", read.edges, 4);
    hold_number("constraints read", read.constraints, LENGTH(constraints));
    hold("workloads read", read_workloads, workloads, sizeof workloads);
    hold("outside areas read", read_outside, outside, sizeof outside);
    hold("edges read", read_edges, edges, sizeof edges);
    hold("constraints read", read_constraints, constraints, sizeof constraints);
    hold("colouring read", read_colouring, colouring, sizeof colouring);

    hold_number("bytes written", sctr_write(
        REGIONS, SECTORS, workloads, REGIONS, edges, LENGTH(edges), read_constraints, SCTR_CONSTRAINT_LENGTH * read.constraints,
        colouring, REGIONS, written, LENGTH(written)).bytes, bytes);
    hold("sheet written", written, sheet, bytes);
    hold_number("bytes of the second sheet", sctr_to_second(sheet, bytes, second, LENGTH(second)).bytes, bytes + SCTR_BLOCK_BYTES);
    hold_number("total of the second sheet", sctr_total(second, bytes + SCTR_BLOCK_BYTES), 15);
    memset(written, 0, sizeof written);
    hold_number("bytes back", sctr_to_first(second, bytes + SCTR_BLOCK_BYTES, written, LENGTH(written)).bytes, bytes);
    hold("sheet back", written, sheet, bytes);

    sheet[2 * SCTR_BLOCK_BYTES + 6] = 9;
    hold_number("code of a damaged sheet", sctr_code(sheet, bytes), 33);
    hold_number("place of a damaged sheet", sctr_place(sheet, bytes), 2);
    hold_number("total of a damaged sheet", sctr_total(sheet, bytes), 0);
    hold_number("code of no sheet", sctr_code(NULL, 0), 31);
}

int main(int count, char **arguments) {
    static uint8_t sheet[SCTR_MOST_SECOND_BYTES + 1];
    FILE *file = count == 2 ? fopen(arguments[1], "rb") : NULL;
    size_t bytes;

    if (file == NULL) {
        fprintf(stderr, "usage: example sheets/a.sheet\n");
        return 2;
    }
    bytes = fread(sheet, 1, sizeof sheet, file);
    fclose(file);

    hold_judgement();
    hold_move(SCTR_PROBE_RECOLOUR, 2, 2, 0, 307, 15, 0);
    hold_move(SCTR_MAKE_RECOLOUR, 2, 2, 0, 307, 322, 2);
    hold_move(SCTR_MAKE_RECOLOUR, 3, 2, 0, 111, 126, 3);
    hold_move(SCTR_MAKE_EXCHANGE, 3, 4, 0, 291, 306, 2);
    hold_move(SCTR_ASK, 3, 0, 0, 57, 15, 0);
    hold_move(SCTR_ASK, 4, 0, 0, 42, 15, 0);
    hold_move(SCTR_ASK, 5, 0, 0, 40, 15, 0);
    hold_move(SCTR_PROBE_RECOLOUR, 6, 1, SCTR_NO_REGION, 0, 15, 0);
    hold_move(SCTR_PROBE_RECOLOUR, 5, 3, SCTR_NO_SECOND, 0, 15, 0);
    hold_move(9, 0, 0, SCTR_NO_KIND, 0, 15, 0);
    hold_one_region(0, 0, 0, 64);
    hold_one_region(1, 0, 0, 63);
    hold_one_region(SCTR_MOST_WORKLOAD, 0, 0, 63);
    hold_one_region(SCTR_MOST_WORKLOAD + 1, 3, 1, 0);
    print_verdicts(sheet, bytes);
    hold_salvage(sheet, bytes);
    hold_sheet(sheet, bytes);
    printf("%d differences from document 01\n", differences);
    return differences != 0;
}
