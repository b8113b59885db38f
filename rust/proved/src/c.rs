//! The functions of the archive, as `include/scene_log.h` has them; an answer is its number here.

extern "C" {
    pub fn scene_log_rule_from_text(text: *const u8, text_length: usize, rule: *mut u8, rule_length: usize) -> u32;
    pub fn scene_log_text_from_rule(rule: *const u8, rule_length: usize, text: *mut u8, text_length: usize) -> u32;
    pub fn scene_log_report(
        layout: u32,
        mode: u32,
        rule: *const u8,
        rule_length: usize,
        log: *const u8,
        log_length: usize,
        work: *mut u8,
        work_length: usize,
        verdicts: *mut u8,
        verdicts_length: usize,
        text: *mut u8,
        text_length: usize,
    ) -> u32;
    pub fn scene_log_check_log(
        layout: u32,
        mode: u32,
        rule: *const u8,
        rule_length: usize,
        log: *const u8,
        log_length: usize,
        work: *mut u8,
        work_length: usize,
        verdicts: *mut u8,
        verdicts_length: usize,
    ) -> u32;
    pub fn scene_log_check_log_record(
        layout: u32,
        mode: u32,
        rule: *const u8,
        rule_length: usize,
        log: *const u8,
        log_length: usize,
        record: *mut u8,
        record_length: usize,
        work: *mut u8,
        work_length: usize,
        verdicts: *mut u8,
        verdicts_length: usize,
    ) -> u32;
    pub fn scene_log_start(
        layout: u32,
        record: *mut u8,
        record_length: usize,
        work: *mut u8,
        work_length: usize,
    ) -> u32;
    pub fn scene_log_check_line(
        layout: u32,
        rule: *const u8,
        rule_length: usize,
        record: *mut u8,
        record_length: usize,
        work: *mut u8,
        work_length: usize,
        line: *const u8,
        line_length: usize,
    ) -> u32;
    pub fn scene_log_check_line_tallied(
        layout: u32,
        rule: *const u8,
        rule_length: usize,
        record: *mut u8,
        record_length: usize,
        tally: *mut u32,
        tally_length: usize,
        work: *mut u8,
        work_length: usize,
        line: *const u8,
        line_length: usize,
    ) -> u32;
    pub fn scene_log_relate(record: *const u8, record_length: usize, first: u32, second: u32) -> u32;
    pub fn scene_log_first_slip(
        rule: *const u8,
        rule_length: usize,
        record: *const u8,
        record_length: usize,
        slip: *mut u8,
        slip_length: usize,
    ) -> u32;
    pub fn scene_log_slip_passes(
        rule: *const u8,
        rule_length: usize,
        record: *const u8,
        record_length: usize,
        slip: *const u8,
        slip_length: usize,
    ) -> u32;
    pub fn scene_log_label_text(
        book: *const u8,
        book_length: usize,
        log: *const u8,
        log_length: usize,
        place: usize,
        length: usize,
        start: *mut usize,
        size: *mut usize,
    ) -> u32;
    pub fn scene_log_compose(first: u32, second: u32) -> u32;
    pub fn scene_log_converse(set: u32) -> u32;
    pub fn scene_log_fnv1a(bytes: *const u8, length: usize) -> u32;
}
