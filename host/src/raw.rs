//! The calls of the C layer, as `include/varnucht.h` declares them. A slice is a pointer and a number of bytes; a slice that
//! a call may change overlaps no other. Every call answers refusal + 256 × slot + 2^24 × value + 2^48 × free.

// The header's lengths have 64 bits, also where a `usize` has 32.
const _: () = assert!(usize::BITS == 64, "on this machine a length must be declared as a u64");

unsafe extern "C" {
    pub fn varnucht_check(image: *const u8, image_len: usize) -> u64;
    pub fn varnucht_check_release(image: *const u8, image_len: usize) -> u64;
    pub fn varnucht_list(image: *const u8, image_len: usize, out: *mut u8, out_len: usize) -> u64;
    pub fn varnucht_read(
        image: *const u8,
        image_len: usize,
        name: *const u8,
        name_len: usize,
        out: *mut u8,
        out_len: usize,
    ) -> u64;
    pub fn varnucht_open(image: *const u8, image_len: usize, name: *const u8, name_len: usize) -> u64;
    pub fn varnucht_next(
        image: *const u8,
        image_len: usize,
        sector: u32,
        offset: u32,
        left: u32,
        out: *mut u8,
        out_len: usize,
    ) -> u64;
    pub fn varnucht_tree(
        image: *const u8,
        image_len: usize,
        name: *const u8,
        name_len: usize,
        slots: *mut u8,
        slots_len: usize,
    ) -> u64;
    pub fn varnucht_start(image: *const u8, image_len: usize, name: *const u8, name_len: usize) -> u64;
    pub fn varnucht_sector(
        one: *const u8,
        one_len: usize,
        two: *const u8,
        two_len: usize,
        drive: u32,
        track: u32,
        sector: u32,
    ) -> u64;
    pub fn varnucht_report_add(image: *const u8, image_len: usize, report: *mut u8, report_len: usize) -> u64;
    pub fn varnucht_report_join(report: *mut u8, report_len: usize, other: *const u8, other_len: usize) -> u64;
    pub fn varnucht_save(
        image: *mut u8,
        image_len: usize,
        kind: u32,
        name: *const u8,
        name_len: usize,
        page: u32,
        offset: u32,
        exec: *const u8,
        exec_len: usize,
        info: *const u8,
        info_len: usize,
        body: *const u8,
        body_len: usize,
        list: *mut u8,
        list_len: usize,
    ) -> u64;
    pub fn varnucht_erase(
        image: *mut u8,
        image_len: usize,
        name: *const u8,
        name_len: usize,
        list: *mut u8,
        list_len: usize,
    ) -> u64;
    pub fn varnucht_erase_many(
        image: *mut u8,
        image_len: usize,
        names: *const u8,
        names_len: usize,
        answers: *mut u8,
        answers_len: usize,
        list: *mut u8,
        list_len: usize,
    ) -> u64;
    pub fn varnucht_rename(
        image: *mut u8,
        image_len: usize,
        name: *const u8,
        name_len: usize,
        new: *const u8,
        new_len: usize,
        list: *mut u8,
        list_len: usize,
    ) -> u64;
    pub fn varnucht_hide(
        image: *mut u8,
        image_len: usize,
        name: *const u8,
        name_len: usize,
        list: *mut u8,
        list_len: usize,
    ) -> u64;
    pub fn varnucht_show(
        image: *mut u8,
        image_len: usize,
        name: *const u8,
        name_len: usize,
        list: *mut u8,
        list_len: usize,
    ) -> u64;
    pub fn varnucht_protect(
        image: *mut u8,
        image_len: usize,
        name: *const u8,
        name_len: usize,
        list: *mut u8,
        list_len: usize,
    ) -> u64;
    pub fn varnucht_release(
        image: *mut u8,
        image_len: usize,
        name: *const u8,
        name_len: usize,
        list: *mut u8,
        list_len: usize,
    ) -> u64;
    pub fn varnucht_gather(
        image: *mut u8,
        image_len: usize,
        name: *const u8,
        name_len: usize,
        list: *mut u8,
        list_len: usize,
    ) -> u64;
    pub fn varnucht_record_open(
        image: *const u8,
        image_len: usize,
        kind: u32,
        name: *const u8,
        name_len: usize,
        page: u32,
        offset: u32,
        exec: *const u8,
        exec_len: usize,
        info: *const u8,
        info_len: usize,
        record: *mut u8,
        record_len: usize,
    ) -> u64;
    pub fn varnucht_record_add(
        image: *mut u8,
        image_len: usize,
        piece: *const u8,
        piece_len: usize,
        record: *mut u8,
        record_len: usize,
        list: *mut u8,
        list_len: usize,
    ) -> u64;
    pub fn varnucht_record_close(
        image: *mut u8,
        image_len: usize,
        record: *const u8,
        record_len: usize,
        list: *mut u8,
        list_len: usize,
    ) -> u64;
}
