//! The C interface, as include/sitgurp.h has it.

/// `number` is 0 where the call is accepted, and `value` its answer; otherwise a refusal's number and place.
#[repr(C)]
#[derive(Clone, Copy)]
pub struct Answer {
    pub number: usize,
    pub value: usize,
}

/// As [`Answer`], with the layers of the net that was written; 0 where the call is refused.
#[repr(C)]
#[derive(Clone, Copy)]
pub struct Shallow {
    pub number: usize,
    pub value: usize,
    pub layers: usize,
}

/// `which` is 1 for the first sheet, 2 for the second, 0 for an empty part of the first, and `length` is that part's.
#[repr(C)]
#[derive(Clone, Copy)]
pub struct Which {
    pub which: usize,
    pub length: usize,
}

/// `kind` is 0 for agreement, 1 where `value` is the lowest index that differs, 2 for a refusal with `number` at place
/// `value` that names the net sheet (1), the table sheet (2) or neither (0).
#[repr(C)]
#[derive(Clone, Copy)]
pub struct Verdict {
    pub kind: usize,
    pub named: usize,
    pub number: usize,
    pub value: usize,
}

/// `kind` is 0 where none is left, 1 for a line of `second` bytes from `first` on, 2 for a refusal with number `first` at place
/// `second`.
#[repr(C)]
#[derive(Clone, Copy)]
pub struct Turn {
    pub kind: usize,
    pub first: usize,
    pub second: usize,
}

/// `kind` is 0 where none is left, 1 for a line of `length` bytes from `start` on; `next` is the position of the next line.
#[repr(C)]
#[derive(Clone, Copy)]
pub struct Line {
    pub kind: usize,
    pub start: usize,
    pub length: usize,
    pub next: usize,
}

/// `number` is 0 where the call is accepted, and the output settles between `earliest` and `latest`; otherwise a refusal's number and place, of the
/// net sheet (`named` 1) or of the arrival sheet (2), and both times are 0.
#[repr(C)]
#[derive(Clone, Copy)]
pub struct ArrivalTimes {
    pub named: usize,
    pub number: usize,
    pub place: usize,
    pub earliest: f64,
    pub latest: f64,
}

/// `kind` is 0 if `value` is the group's mark, 1 if the group is not reached, otherwise a refusal's number, 11, at place `value`.
#[repr(C)]
#[derive(Clone, Copy)]
pub struct Mark {
    pub kind: usize,
    pub value: usize,
}

/// `number` is 0 where the call is accepted, `value` is the sheet's length and `changed` the set of the gates that changed; otherwise a refusal's number and
/// place,
/// that names the net sheet (`named` 1), the table sheet (2) or neither (0), and `changed` is 0.
#[repr(C)]
#[derive(Clone, Copy)]
pub struct Kept {
    pub named: usize,
    pub number: usize,
    pub value: usize,
    pub changed: usize,
}

/// Settling and making: a sheet, then the cells, the marks and the output lent.
pub type SheetCall<A> = unsafe extern "C" fn(
    sheet: *const u8,
    sheet_length: usize,
    cells: *mut u8,
    cells_length: usize,
    marks: *mut u8,
    marks_length: usize,
    output: *mut u8,
    output_length: usize,
) -> A;

extern "C" {
    pub fn sitgurp_version() -> u32;
    pub fn sitgurp_multiplicity(
        m: usize,
        n: usize,
        cells: *const u8,
        cells_length: usize,
        group: usize,
    ) -> Answer;
    pub fn sitgurp_marking(
        m: usize,
        n: usize,
        cells: *const u8,
        cells_length: usize,
        marks: *mut u8,
        marks_length: usize,
    ) -> Answer;
    pub fn sitgurp_settle(
        sheet: *const u8,
        sheet_length: usize,
        cells: *mut u8,
        cells_length: usize,
        marks: *mut u8,
        marks_length: usize,
        output: *mut u8,
        output_length: usize,
    ) -> Answer;
    pub fn sitgurp_make(
        sheet: *const u8,
        sheet_length: usize,
        cells: *mut u8,
        cells_length: usize,
        marks: *mut u8,
        marks_length: usize,
        output: *mut u8,
        output_length: usize,
    ) -> Answer;
    pub fn sitgurp_settle_shallow(
        sheet: *const u8,
        sheet_length: usize,
        cells: *mut u8,
        cells_length: usize,
        marks: *mut u8,
        marks_length: usize,
        output: *mut u8,
        output_length: usize,
    ) -> Shallow;
    pub fn sitgurp_make_shallow(
        sheet: *const u8,
        sheet_length: usize,
        cells: *mut u8,
        cells_length: usize,
        marks: *mut u8,
        marks_length: usize,
        output: *mut u8,
        output_length: usize,
    ) -> Shallow;
    pub fn sitgurp_family_count(
        sheet: *const u8,
        sheet_length: usize,
        cells: *mut u8,
        cells_length: usize,
        marks: *mut u8,
        marks_length: usize,
    ) -> Answer;
    pub fn sitgurp_family_tree(
        sheet: *const u8,
        sheet_length: usize,
        number: u64,
        cells: *mut u8,
        cells_length: usize,
        marks: *mut u8,
        marks_length: usize,
        output: *mut u8,
        output_length: usize,
    ) -> Answer;
    pub fn sitgurp_shallower(
        first: *const u8,
        first_length: usize,
        second: *const u8,
        second_length: usize,
    ) -> Which;
    pub fn sitgurp_check(
        net_sheet: *const u8,
        net_sheet_length: usize,
        table_sheet: *const u8,
        table_sheet_length: usize,
        cells: *mut u8,
        cells_length: usize,
    ) -> Verdict;
    pub fn sitgurp_keep(
        net_sheet: *const u8,
        net_sheet_length: usize,
        table_sheet: *const u8,
        table_sheet_length: usize,
        cells: *mut u8,
        cells_length: usize,
        output: *mut u8,
        output_length: usize,
    ) -> Kept;
    pub fn sitgurp_write_table(
        sheet: *const u8,
        sheet_length: usize,
        output: *mut u8,
        output_length: usize,
    ) -> Answer;
    pub fn sitgurp_tidy(
        sheet: *const u8,
        sheet_length: usize,
        cells: *mut u8,
        cells_length: usize,
        output: *mut u8,
        output_length: usize,
    ) -> Answer;
    pub fn sitgurp_lister_open(sheet: *const u8, sheet_length: usize) -> Answer;
    pub fn sitgurp_lister_next(sheet: *const u8, sheet_length: usize, at: usize) -> Line;
    pub fn sitgurp_gate_line(sheet: *const u8, sheet_length: usize, k: usize) -> Turn;
    pub fn sitgurp_arrivals(
        net_sheet: *const u8,
        net_sheet_length: usize,
        arrival_sheet: *const u8,
        arrival_sheet_length: usize,
        delay: u8,
    ) -> ArrivalTimes;
    pub fn sitgurp_glyph(
        net_sheet: *const u8,
        net_sheet_length: usize,
        width: usize,
        height: usize,
        picture: *const u8,
        picture_length: usize,
        offsets: *const i8,
        offsets_length: usize,
        output: *mut u8,
        output_length: usize,
    ) -> Answer;
    pub fn sitgurp_job_open_parts(
        sheet: *const u8,
        sheet_length: usize,
        lines: *mut u8,
        cells: *mut u8,
        marks: *mut u8,
        passed: *mut usize,
    ) -> Answer;
    pub fn sitgurp_job_step_parts(
        lines: *const u8,
        cells: *const u8,
        marks: *mut u8,
        passed: *mut usize,
    ) -> Answer;
    pub fn sitgurp_job_mark_parts(
        lines: *const u8,
        marks: *const u8,
        passed: usize,
        group: usize,
    ) -> Mark;
    pub fn sitgurp_job_finish_parts(
        lines: *const u8,
        own: *const u8,
        passed: usize,
        cells: *mut u8,
        cells_length: usize,
        marks: *mut u8,
        marks_length: usize,
        output: *mut u8,
        output_length: usize,
    ) -> Answer;
}
