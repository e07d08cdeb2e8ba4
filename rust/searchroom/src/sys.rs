//! The archive's functions, declared as `include/searchroom.h` declares them.

unsafe extern "C" {
    pub fn searchroom_check_catalogue(catalogue: *const u8, catalogue_len: usize) -> u64;

    pub fn searchroom_check_question(
        catalogue: *const u8,
        catalogue_len: usize,
        question: *const u8,
        question_len: usize,
    ) -> u64;

    pub fn searchroom_outcome(
        catalogue: *const u8,
        catalogue_len: usize,
        question: *const u8,
        question_len: usize,
        entry: u64,
        condition: u64,
    ) -> u64;

    pub fn searchroom_run(
        catalogue: *const u8,
        catalogue_len: usize,
        question: *const u8,
        question_len: usize,
        order: *const u8,
        order_len: usize,
        reader: u64,
        listed: *mut u8,
        listed_len: usize,
        looks: *mut u8,
        looks_len: usize,
        tally: *mut u8,
        tally_len: usize,
    ) -> u64;

    pub fn searchroom_copy(
        catalogue: *const u8,
        catalogue_len: usize,
        question: *const u8,
        question_len: usize,
        order: *const u8,
        order_len: usize,
        output: *mut u8,
        output_len: usize,
    ) -> u64;

    pub fn searchroom_typed(
        catalogue: *const u8,
        catalogue_len: usize,
        text: *const u8,
        text_len: usize,
        output: *mut u8,
        output_len: usize,
    ) -> u64;
}
