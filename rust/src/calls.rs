//! The C functions of the static library, as `include/rozsvelen.h` has them. A slice is a pointer and how many elements it has.
/// The ways of a part, and those that a rule looks: of one that looks both, their sum.
pub const AHEAD: u32 = 1;
pub const BACK: u32 = 2;

extern "C" {
    pub fn rozsvelen_read_sheet(text: *const u8, text_len: usize, table: *mut u16, table_len: usize) -> u64;
    pub fn rozsvelen_read_formula(text: *const u8, text_len: usize, table: *mut u16, table_len: usize) -> u64;
    pub fn rozsvelen_profile(table: *const u16, table_len: usize, out: *mut u16, out_len: usize) -> u64;
    pub fn rozsvelen_in_profile(table: *const u16, table_len: usize) -> u64;
    pub fn rozsvelen_rule_looks(table: *const u16, table_len: usize) -> u64;
    pub fn rozsvelen_read_log(text: *const u8, text_len: usize, words: *mut u32, words_len: usize) -> u64;
    pub fn rozsvelen_read_counted(text: *const u8, text_len: usize, words: *mut u32, words_len: usize) -> u64;
    pub fn rozsvelen_steps_between(earlier: u16, later: u16) -> u64;
    pub fn rozsvelen_entry_bearing(first: u16, entries: usize, counter: u16) -> u64;
    pub fn rozsvelen_judge(table: *const u16, table_len: usize, log: *const u32, log_len: usize, verdicts: *mut u64, verdicts_len: usize) -> u64;
    pub fn rozsvelen_judge_logs(
        table: *const u16,
        table_len: usize,
        words: *const u32,
        words_len: usize,
        lengths: *const u16,
        lengths_len: usize,
        verdicts: *mut u64,
        verdicts_len: usize,
        held: *mut u16,
        held_len: usize,
    ) -> u64;
    pub fn rozsvelen_plain_row(table: *const u16, table_len: usize, row: *mut u16, row_len: usize) -> u64;
    pub fn rozsvelen_judge_part(
        table: *const u16,
        table_len: usize,
        way: u32,
        row: *mut u16,
        row_len: usize,
        words: *const u32,
        words_len: usize,
        verdicts: *mut u64,
        verdicts_len: usize,
    ) -> u64;
    pub fn rozsvelen_walk(
        table: *const u16,
        table_len: usize,
        log: *const u32,
        log_len: usize,
        node: u32,
        entry: u32,
        edges: *mut u16,
        edges_len: usize,
    ) -> u64;
    pub fn rozsvelen_print_rule(table: *const u16, table_len: usize, text: *mut u8, text_len: usize) -> u64;
    pub fn rozsvelen_page(rules: *const u8, rules_len: usize, steps: *const u8, steps_len: usize, page: *mut u8, page_len: usize) -> u64;
}
