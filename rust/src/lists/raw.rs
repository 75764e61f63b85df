//! The functions of `libscreen.a` as they are called: a slice is a pointer and a length.

use super::Constraint;

/// What a call with moves answers.
#[repr(C)]
pub struct CallAnswer {
    pub code: u64,
    pub place: u64,
    pub first: u64,
    pub last: u64,
}

/// What reading a sheet answers.
#[repr(C)]
pub struct ReadAnswer {
    pub code: u64,
    pub place: u64,
    pub regions: u64,
    pub sectors: u64,
    pub edges: u64,
    pub constraints: u64,
    pub flights: u64,
    pub visits: u64,
}

/// What writing or converting a sheet answers.
#[repr(C)]
pub struct WriteAnswer {
    pub code: u64,
    pub place: u64,
    pub bytes: u64,
}

/// What salvaging a sheet answers.
#[repr(C)]
pub struct SalvageAnswer {
    pub code: u64,
    pub place: u64,
    pub lost: u64,
}

extern "C" {
    pub fn sctr_call(
        regions: u64,
        sectors: u64,
        workloads: *const u64,
        workloads_len: usize,
        outside: *const u64,
        outside_len: usize,
        edges: *const u64,
        edges_len: usize,
        counts: *const u64,
        counts_len: usize,
        visits: *const u64,
        visits_len: usize,
        constraints: *const u64,
        constraints_len: usize,
        colouring: *mut u64,
        colouring_len: usize,
        moves: *const u64,
        moves_len: usize,
        rows: *mut i64,
        rows_len: usize,
        verdicts: *mut u64,
        verdicts_len: usize,
        work: *mut u64,
        work_len: usize,
    ) -> CallAnswer;

    pub fn sctr_call_records(
        regions: u64,
        sectors: u64,
        workloads: *const u64,
        workloads_len: usize,
        outside: *const u64,
        outside_len: usize,
        edges: *const u64,
        edges_len: usize,
        counts: *const u64,
        counts_len: usize,
        visits: *const u64,
        visits_len: usize,
        constraints: *const Constraint,
        constraints_len: usize,
        colouring: *mut u64,
        colouring_len: usize,
        moves: *const u64,
        moves_len: usize,
        rows: *mut i64,
        rows_len: usize,
        verdicts: *mut u64,
        verdicts_len: usize,
        work: *mut u64,
        work_len: usize,
    ) -> CallAnswer;

    pub fn sctr_read(
        sheet: *const u8,
        sheet_len: usize,
        workloads: *mut u64,
        workloads_len: usize,
        outside: *mut u64,
        outside_len: usize,
        edges: *mut u64,
        edges_len: usize,
        counts: *mut u64,
        counts_len: usize,
        visits: *mut u64,
        visits_len: usize,
        constraints: *mut u64,
        constraints_len: usize,
        colouring: *mut u64,
        colouring_len: usize,
    ) -> ReadAnswer;

    pub fn sctr_write(
        regions: u64,
        sectors: u64,
        workloads: *const u64,
        workloads_len: usize,
        edges: *const u64,
        edges_len: usize,
        constraints: *const u64,
        constraints_len: usize,
        colouring: *const u64,
        colouring_len: usize,
        sheet: *mut u8,
        sheet_len: usize,
    ) -> WriteAnswer;

    pub fn sctr_write_records(
        regions: u64,
        sectors: u64,
        workloads: *const u64,
        workloads_len: usize,
        edges: *const u64,
        edges_len: usize,
        constraints: *const Constraint,
        constraints_len: usize,
        colouring: *const u64,
        colouring_len: usize,
        sheet: *mut u8,
        sheet_len: usize,
    ) -> WriteAnswer;

    pub fn sctr_write_second(
        regions: u64,
        sectors: u64,
        workloads: *const u64,
        workloads_len: usize,
        outside: *const u64,
        outside_len: usize,
        edges: *const u64,
        edges_len: usize,
        counts: *const u64,
        counts_len: usize,
        visits: *const u64,
        visits_len: usize,
        constraints: *const u64,
        constraints_len: usize,
        colouring: *const u64,
        colouring_len: usize,
        sheet: *mut u8,
        sheet_len: usize,
    ) -> WriteAnswer;

    pub fn sctr_to_second(sheet: *const u8, sheet_len: usize, converted: *mut u8, converted_len: usize) -> WriteAnswer;
    pub fn sctr_to_first(sheet: *const u8, sheet_len: usize, converted: *mut u8, converted_len: usize) -> WriteAnswer;

    pub fn sctr_salvage(
        sheet: *const u8,
        sheet_len: usize,
        salvaged: *mut u8,
        salvaged_len: usize,
        list: *mut u64,
        list_len: usize,
    ) -> SalvageAnswer;

    pub fn sctr_code(sheet: *const u8, sheet_len: usize) -> u64;
    pub fn sctr_place(sheet: *const u8, sheet_len: usize) -> u64;
    pub fn sctr_total(sheet: *const u8, sheet_len: usize) -> u64;
    pub fn sctr_constraints(sheet: *const u8, sheet_len: usize) -> u64;
    pub fn sctr_holds(sheet: *const u8, sheet_len: usize, place: u64) -> u64;
    pub fn sctr_violation(sheet: *const u8, sheet_len: usize, place: u64) -> u64;
}
