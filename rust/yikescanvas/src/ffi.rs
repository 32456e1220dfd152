//! The functions of include/yikescanvas.h; tests/bindings.sh compares both with the exported calls.
use core::ffi::c_uchar;

extern "C" {
    pub fn yikes_add(
        k: u64, d: usize, n: usize, t: usize,
        a: *const u64, a_length: usize, b: *const u64, b_length: usize, out: *mut u64, out_length: usize,
    ) -> c_uchar;
    pub fn yikes_scale(
        k: u64, d: usize, n: usize, t: usize,
        a: *const u64, a_length: usize, b: *const u64, b_length: usize, out: *mut u64, out_length: usize,
    ) -> c_uchar;
    pub fn yikes_invert(
        k: u64, d: usize, n: usize, t: usize, a: *const u64, a_length: usize, out: *mut u64, out_length: usize,
    ) -> c_uchar;
    pub fn yikes_deal(
        k: u64, d: usize, n: usize, t: usize,
        job: *const u64, job_length: usize, coefficients: *const u64, coefficients_length: usize, out: *mut u64, out_length: usize,
    ) -> c_uchar;
    pub fn yikes_open(
        k: u64, d: usize, n: usize, t: usize,
        holders: *const u64, holders_length: usize, shares: *const u64, shares_length: usize, e: u64,
        out: *mut u64, out_length: usize, wrong: *mut u64, wrong_length: usize, lowest: *mut u8, lowest_length: usize,
    ) -> c_uchar;
    pub fn yikes_signed(k: u64, w: u64, out: *mut u64, out_length: usize) -> c_uchar;
    pub fn yikes_write_file(
        k: u64, d: usize, n: usize, t: usize, holder: usize, archive: u64,
        numbers: *const u64, numbers_length: usize, words: *const u64, words_length: usize, out: *mut u8, out_length: usize,
    ) -> c_uchar;
    pub fn yikes_write_order(e: u8, out: *mut u8, out_length: usize) -> c_uchar;
    pub fn yikes_write_bundle(e: u8, files: *const u8, files_length: usize, out: *mut u8, out_length: usize) -> c_uchar;
    pub fn yikes_check_file(file: *const u8, file_length: usize) -> c_uchar;
    pub fn yikes_read(bytes: *const u8, bytes_length: usize, cursor: usize, step: *mut u64, step_length: usize) -> c_uchar;
    pub fn yikes_text_size(
        k: u64, d: usize, n: usize, t: usize, number: u64, words: *const u64, words_length: usize, size: *mut u64, size_length: usize,
    ) -> c_uchar;
    pub fn yikes_write_text(
        k: u64, d: usize, n: usize, t: usize, number: u64, words: *const u64, words_length: usize, out: *mut u8, out_length: usize,
    ) -> c_uchar;
    pub fn yikes_read_text(
        k: u64, d: usize, n: usize, t: usize,
        text: *const u8, text_length: usize, number: *mut u64, number_length: usize, words: *mut u64, words_length: usize,
    ) -> c_uchar;
    pub fn yikes_accept(bundle: *const u8, bundle_length: usize) -> c_uchar;
    pub fn yikes_describe(bundle: *const u8, bundle_length: usize, about: *mut u64, about_length: usize) -> c_uchar;
    pub fn yikes_job_number(
        bundle: *const u8, bundle_length: usize, place: usize, number: *mut u64, number_length: usize,
    ) -> c_uchar;
    pub fn yikes_file(bundle: *const u8, bundle_length: usize, index: usize, part: *mut u64, part_length: usize) -> c_uchar;
    pub fn yikes_open_place(
        bundle: *const u8, bundle_length: usize, place: usize,
        out: *mut u64, out_length: usize, wrong: *mut u64, wrong_length: usize, lowest: *mut u8, lowest_length: usize,
    ) -> c_uchar;
    pub fn yikes_total(
        bundle: *const u8, bundle_length: usize, holder: usize, a: usize, b: usize, out: *mut u64, out_length: usize,
    ) -> c_uchar;
    pub fn yikes_add_total(
        bundle: *const u8, bundle_length: usize, holder: usize, a: usize, b: usize, running: *mut u64, running_length: usize,
    ) -> c_uchar;
    pub fn yikes_open_run(
        bundle: *const u8, bundle_length: usize, a: usize, b: usize,
        out: *mut u64, out_length: usize, wrong: *mut u64, wrong_length: usize, lowest: *mut u8, lowest_length: usize,
    ) -> c_uchar;
    pub fn yikes_fetch_body(
        bundle: *const u8, bundle_length: usize, holder: usize, place: usize, part: *mut u64, part_length: usize,
    ) -> c_uchar;
    pub fn yikes_fetch_fault(bundle: *const u8, bundle_length: usize, holder: usize, place: usize) -> c_uchar;
    pub fn yikes_list_line(
        bundle: *const u8, bundle_length: usize, place: usize, line: *mut u8, line_length: usize, length: *mut u64, length_length: usize,
    ) -> c_uchar;
    pub fn yikes_mend(bundle: *const u8, bundle_length: usize, out: *mut u8, out_length: usize) -> c_uchar;
    pub fn yikes_desk_start(desk: *mut u64, desk_length: usize, q: u64) -> c_uchar;
    pub fn yikes_desk_open(
        desk: *mut u64, desk_length: usize, bundle: *const u8, bundle_length: usize, place: usize,
        out: *mut u64, out_length: usize, wrong: *mut u64, wrong_length: usize, lowest: *mut u8, lowest_length: usize,
    ) -> c_uchar;
}
