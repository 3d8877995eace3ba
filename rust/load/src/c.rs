//! The calls of include/sitgurp.h as C sees them: every answer as plain words, bit for bit.

/// The fields of an answer. Every field has 64 bits; floats are kept as their bits.
#[repr(C)]
#[derive(Clone, Copy)]
pub struct Words<const COUNT: usize>(pub [u64; COUNT]);

/// Bytes that a call reads.
pub type Read = *const u8;
/// Bytes that a call may write.
pub type Write = *mut u8;

#[rustfmt::skip]
extern "C" {
    pub fn sitgurp_multiplicity(m: u64, n: u64, cells: Read, cells_length: u64, group: u64) -> Words<2>;
    pub fn sitgurp_marking(m: u64, n: u64, cells: Read, cells_length: u64, marks: Write, marks_length: u64) -> Words<2>;
    pub fn sitgurp_settle(sheet: Read, length: u64, cells: Write, cells_length: u64, marks: Write, marks_length: u64, output: Write, output_length: u64)
        -> Words<2>;
    pub fn sitgurp_make(sheet: Read, length: u64, cells: Write, cells_length: u64, marks: Write, marks_length: u64, output: Write, output_length: u64)
        -> Words<2>;
    pub fn sitgurp_settle_shallow(sheet: Read, length: u64, cells: Write, cells_length: u64, marks: Write, marks_length: u64, output: Write,
        output_length: u64) -> Words<3>;
    pub fn sitgurp_make_shallow(sheet: Read, length: u64, cells: Write, cells_length: u64, marks: Write, marks_length: u64, output: Write,
        output_length: u64) -> Words<3>;
    pub fn sitgurp_family_count(sheet: Read, length: u64, cells: Write, cells_length: u64, marks: Write, marks_length: u64) -> Words<2>;
    pub fn sitgurp_family_tree(sheet: Read, length: u64, number: u64, cells: Write, cells_length: u64, marks: Write, marks_length: u64, output: Write,
        output_length: u64) -> Words<2>;
    pub fn sitgurp_shallower(first: Read, first_length: u64, second: Read, second_length: u64) -> Words<2>;
    pub fn sitgurp_check(net: Read, net_length: u64, table: Read, table_length: u64, cells: Write, cells_length: u64) -> Words<4>;
    pub fn sitgurp_keep(net: Read, net_length: u64, table: Read, table_length: u64, cells: Write, cells_length: u64, output: Write, output_length: u64)
        -> Words<4>;
    pub fn sitgurp_write_table(sheet: Read, length: u64, output: Write, output_length: u64) -> Words<2>;
    pub fn sitgurp_tidy(sheet: Read, length: u64, cells: Write, cells_length: u64, output: Write, output_length: u64) -> Words<2>;
    pub fn sitgurp_gate_line(sheet: Read, length: u64, k: u64) -> Words<3>;
    pub fn sitgurp_lister_open(sheet: Read, length: u64) -> Words<2>;
    pub fn sitgurp_lister_next(sheet: Read, length: u64, at: u64) -> Words<4>;
    pub fn sitgurp_arrivals(net: Read, net_length: u64, sheet: Read, length: u64, delay: u8) -> Words<5>;
    pub fn sitgurp_job_open_parts(sheet: Read, length: u64, lines: Write, cells: Write, marks: Write, passed: Write) -> Words<2>;
    pub fn sitgurp_job_step_parts(lines: Read, cells: Read, marks: Write, passed: Write) -> Words<2>;
    pub fn sitgurp_job_mark_parts(lines: Read, marks: Read, passed: u64, group: u64) -> Words<2>;
    pub fn sitgurp_job_finish_parts(lines: Read, own: Read, passed: u64, cells: Write, cells_length: u64, marks: Write, marks_length: u64, output: Write,
        output_length: u64) -> Words<2>;
    pub fn sitgurp_glyph(net: Read, net_length: u64, width: u64, height: u64, picture: Read, picture_length: u64, offsets: Read, offsets_length: u64,
        output: Write, output_length: u64) -> Words<2>;
}
