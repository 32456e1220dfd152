//! The library's functions on slices, as the header has them: numbers as they are, and outputs of any length. The safe wrapper gives its own outputs their
//! right lengths, so that comparing through it would leave the wrong ones untried.

use second::Params;
use yikescanvas::ffi::*;

// SAFETY, of every call below: each pointer comes with the length of the slice that it is of, and the library keeps none of them.

pub fn deal(p: Params, job: &[u64], coefficients: &[u64], out: &mut [u64]) -> u8 {
    unsafe {
        yikes_deal(p.k, p.d, p.n, p.t, job.as_ptr(), job.len(), coefficients.as_ptr(), coefficients.len(), out.as_mut_ptr(), out.len())
    }
}

#[rustfmt::skip]
pub fn open(p: Params, holders: &[u64], shares: &[u64], e: u64, out: &mut [u64], wrong: &mut [u64], lowest: &mut [u8]) -> u8 {
    unsafe {
        yikes_open(p.k, p.d, p.n, p.t, holders.as_ptr(), holders.len(), shares.as_ptr(), shares.len(), e,
            out.as_mut_ptr(), out.len(), wrong.as_mut_ptr(), wrong.len(), lowest.as_mut_ptr(), lowest.len())
    }
}

pub fn add(p: Params, a: &[u64], b: &[u64], out: &mut [u64]) -> u8 {
    unsafe { yikes_add(p.k, p.d, p.n, p.t, a.as_ptr(), a.len(), b.as_ptr(), b.len(), out.as_mut_ptr(), out.len()) }
}

pub fn scale(p: Params, a: &[u64], b: &[u64], out: &mut [u64]) -> u8 {
    unsafe { yikes_scale(p.k, p.d, p.n, p.t, a.as_ptr(), a.len(), b.as_ptr(), b.len(), out.as_mut_ptr(), out.len()) }
}

pub fn invert(p: Params, a: &[u64], out: &mut [u64]) -> u8 {
    unsafe { yikes_invert(p.k, p.d, p.n, p.t, a.as_ptr(), a.len(), out.as_mut_ptr(), out.len()) }
}

#[rustfmt::skip]
pub fn write_file(p: Params, holder: usize, archive: u64, numbers: &[u64], words: &[u64], out: &mut [u8]) -> u8 {
    unsafe {
        yikes_write_file(p.k, p.d, p.n, p.t, holder, archive, numbers.as_ptr(), numbers.len(), words.as_ptr(), words.len(),
            out.as_mut_ptr(), out.len())
    }
}

pub fn write_order(e: u8, out: &mut [u8]) -> u8 {
    unsafe { yikes_write_order(e, out.as_mut_ptr(), out.len()) }
}

pub fn write_bundle(e: u8, files: &[u8], out: &mut [u8]) -> u8 {
    unsafe { yikes_write_bundle(e, files.as_ptr(), files.len(), out.as_mut_ptr(), out.len()) }
}

pub fn check_file(file: &[u8]) -> u8 {
    unsafe { yikes_check_file(file.as_ptr(), file.len()) }
}

pub fn read(bytes: &[u8], cursor: usize, step: &mut [u64]) -> u8 {
    unsafe { yikes_read(bytes.as_ptr(), bytes.len(), cursor, step.as_mut_ptr(), step.len()) }
}

pub fn accept(bundle: &[u8]) -> u8 {
    unsafe { yikes_accept(bundle.as_ptr(), bundle.len()) }
}

pub fn describe(bundle: &[u8], about: &mut [u64]) -> u8 {
    unsafe { yikes_describe(bundle.as_ptr(), bundle.len(), about.as_mut_ptr(), about.len()) }
}

pub fn job_number(bundle: &[u8], place: usize, number: &mut [u64]) -> u8 {
    unsafe { yikes_job_number(bundle.as_ptr(), bundle.len(), place, number.as_mut_ptr(), number.len()) }
}

pub fn file(bundle: &[u8], index: usize, part: &mut [u64]) -> u8 {
    unsafe { yikes_file(bundle.as_ptr(), bundle.len(), index, part.as_mut_ptr(), part.len()) }
}

#[rustfmt::skip]
pub fn open_place(bundle: &[u8], place: usize, out: &mut [u64], wrong: &mut [u64], lowest: &mut [u8]) -> u8 {
    unsafe {
        yikes_open_place(bundle.as_ptr(), bundle.len(), place,
            out.as_mut_ptr(), out.len(), wrong.as_mut_ptr(), wrong.len(), lowest.as_mut_ptr(), lowest.len())
    }
}

pub fn desk_start(desk: &mut [u64], q: u64) -> u8 {
    unsafe { yikes_desk_start(desk.as_mut_ptr(), desk.len(), q) }
}

#[rustfmt::skip]
pub fn desk_open(desk: &mut [u64], bundle: &[u8], place: usize, out: &mut [u64], wrong: &mut [u64], lowest: &mut [u8]) -> u8 {
    unsafe {
        yikes_desk_open(desk.as_mut_ptr(), desk.len(), bundle.as_ptr(), bundle.len(), place,
            out.as_mut_ptr(), out.len(), wrong.as_mut_ptr(), wrong.len(), lowest.as_mut_ptr(), lowest.len())
    }
}

pub fn total(bundle: &[u8], holder: usize, a: usize, b: usize, out: &mut [u64]) -> u8 {
    unsafe { yikes_total(bundle.as_ptr(), bundle.len(), holder, a, b, out.as_mut_ptr(), out.len()) }
}

pub fn add_total(bundle: &[u8], holder: usize, a: usize, b: usize, running: &mut [u64]) -> u8 {
    unsafe { yikes_add_total(bundle.as_ptr(), bundle.len(), holder, a, b, running.as_mut_ptr(), running.len()) }
}

#[rustfmt::skip]
pub fn open_run(bundle: &[u8], a: usize, b: usize, out: &mut [u64], wrong: &mut [u64], lowest: &mut [u8]) -> u8 {
    unsafe {
        yikes_open_run(bundle.as_ptr(), bundle.len(), a, b,
            out.as_mut_ptr(), out.len(), wrong.as_mut_ptr(), wrong.len(), lowest.as_mut_ptr(), lowest.len())
    }
}

pub fn fetch_body(bundle: &[u8], holder: usize, place: usize, part: &mut [u64]) -> u8 {
    unsafe { yikes_fetch_body(bundle.as_ptr(), bundle.len(), holder, place, part.as_mut_ptr(), part.len()) }
}

pub fn fetch_fault(bundle: &[u8], holder: usize, place: usize) -> u8 {
    unsafe { yikes_fetch_fault(bundle.as_ptr(), bundle.len(), holder, place) }
}

#[rustfmt::skip]
pub fn list_line(bundle: &[u8], place: usize, line: &mut [u8], length: &mut [u64]) -> u8 {
    unsafe {
        yikes_list_line(bundle.as_ptr(), bundle.len(), place, line.as_mut_ptr(), line.len(), length.as_mut_ptr(), length.len())
    }
}

pub fn mend(bundle: &[u8], out: &mut [u8]) -> u8 {
    unsafe { yikes_mend(bundle.as_ptr(), bundle.len(), out.as_mut_ptr(), out.len()) }
}

pub fn text_size(p: Params, number: u64, words: &[u64], size: &mut [u64]) -> u8 {
    unsafe { yikes_text_size(p.k, p.d, p.n, p.t, number, words.as_ptr(), words.len(), size.as_mut_ptr(), size.len()) }
}

pub fn write_text(p: Params, number: u64, words: &[u64], out: &mut [u8]) -> u8 {
    unsafe { yikes_write_text(p.k, p.d, p.n, p.t, number, words.as_ptr(), words.len(), out.as_mut_ptr(), out.len()) }
}

#[rustfmt::skip]
pub fn read_text(p: Params, text: &[u8], number: &mut [u64], words: &mut [u64]) -> u8 {
    unsafe {
        yikes_read_text(p.k, p.d, p.n, p.t, text.as_ptr(), text.len(),
            number.as_mut_ptr(), number.len(), words.as_mut_ptr(), words.len())
    }
}

pub fn signed(k: u64, w: u64, out: &mut [u64]) -> u8 {
    unsafe { yikes_signed(k, w, out.as_mut_ptr(), out.len()) }
}
