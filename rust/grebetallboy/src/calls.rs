//! The calls themselves, as `include/grebetallboy.h` declares them: for who sees to pointers and stack.

extern "C" {
    pub fn grebetallboy_read(
        text: *const u8, text_len: usize, items: *mut u32, items_len: usize, names: *mut u8, names_len: usize, counts: *mut u64,
        counts_len: usize,
    ) -> u32;
    pub fn grebetallboy_expand(
        items: *const u32, items_len: usize, fuel: u32, work: *mut u32, work_len: usize, core: *mut u32, core_len: usize, counts: *mut u64,
        counts_len: usize,
    ) -> u32;
    pub fn grebetallboy_write(
        words: *const u32, words_len: usize, operations: u32, names: *const u8, names_len: usize, out: *mut u8, out_len: usize,
        counts: *mut u64, counts_len: usize,
    ) -> u32;
    pub fn grebetallboy_compare(
        items: *const u32, items_len: usize, names: *const u8, names_len: usize, words: *const u32, words_len: usize, text: *const u8,
        text_len: usize, text_items: *mut u32, text_items_len: usize, text_names: *mut u8, text_names_len: usize, counts: *mut u64,
        counts_len: usize,
    ) -> u32;
    pub fn grebetallboy_run(
        words: *const u32, words_len: usize, budget: u32, table: *mut u32, table_len: usize, counts: *mut u64, counts_len: usize,
    ) -> u32;
    pub fn grebetallboy_run_recipe(
        items: *const u32, items_len: usize, fuel: u32, work: *mut u32, work_len: usize, core: *mut u32, core_len: usize, budget: u32,
        table: *mut u32, table_len: usize, counts: *mut u64, counts_len: usize,
    ) -> u32;
}
