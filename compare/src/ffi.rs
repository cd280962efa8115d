//! The library's C functions, each behind a wrapper on slices.
//!
//! All unsafe code of the package stands here. The wrappers hand over a
//! pointer and a length; what the library does with them is what the package
//! compares.

#![allow(unsafe_code)]

use reference::{Checked, Filled, Reading};

#[repr(C)]
struct CChecked {
    number: u32,
    rule: u32,
}

#[repr(C)]
struct CFilled {
    number: u32,
    length: u32,
}

#[repr(C)]
struct CReading {
    number: u32,
    page: u32,
    start: u32,
    end: u32,
    transfer: u32,
    length: u32,
}

extern "C" {
    fn tandos_check(image: *const u8, image_len: usize, sectors: u32, arrangement: u32)
        -> CChecked;
    fn tandos_list(
        image: *const u8,
        image_len: usize,
        sectors: u32,
        arrangement: u32,
        buffer: *mut u8,
        buffer_len: usize,
    ) -> CFilled;
    fn tandos_read(
        image: *const u8,
        image_len: usize,
        sectors: u32,
        arrangement: u32,
        name: *const u8,
        name_len: usize,
        buffer: *mut u8,
        buffer_len: usize,
    ) -> CReading;
    fn tandos_save(
        image: *mut u8,
        image_len: usize,
        sectors: u32,
        arrangement: u32,
        name: *const u8,
        name_len: usize,
        page: u32,
        start: u16,
        transfer: u16,
        sheet: *const u8,
        sheet_len: usize,
        writes: *mut u8,
        writes_len: usize,
    ) -> CFilled;
    fn tandos_delete(
        image: *mut u8,
        image_len: usize,
        sectors: u32,
        arrangement: u32,
        name: *const u8,
        name_len: usize,
        writes: *mut u8,
        writes_len: usize,
    ) -> CFilled;
    fn tandos_rename(
        image: *mut u8,
        image_len: usize,
        sectors: u32,
        arrangement: u32,
        old_name: *const u8,
        old_len: usize,
        new_name: *const u8,
        new_len: usize,
        writes: *mut u8,
        writes_len: usize,
    ) -> CFilled;
    fn tandos_protect(
        image: *mut u8,
        image_len: usize,
        sectors: u32,
        arrangement: u32,
        name: *const u8,
        name_len: usize,
        on: u32,
        writes: *mut u8,
        writes_len: usize,
    ) -> CFilled;
    fn tandos_replay(
        image: *mut u8,
        image_len: usize,
        sectors: u32,
        arrangement: u32,
        writes: *const u8,
        writes_len: usize,
    ) -> u32;
    fn tandos_repair(image: *mut u8, image_len: usize, sectors: u32, arrangement: u32) -> u32;
    fn tandos_blank(
        image: *mut u8,
        image_len: usize,
        sectors: u32,
        arrangement: u32,
        name: *const u8,
        name_len: usize,
    ) -> u32;
    fn tandos_view_number(
        image: *const u8,
        image_len: usize,
        sectors: u32,
        arrangement: u32,
        track: u32,
        sector: u32,
    ) -> u32;
    fn tandos_view_start(
        image: *const u8,
        image_len: usize,
        sectors: u32,
        arrangement: u32,
        track: u32,
        sector: u32,
    ) -> u32;
    fn tandos_add_sheet(
        totals: *mut u32,
        totals_count: usize,
        sheet: *const u8,
        sheet_len: usize,
    ) -> u32;
}

pub fn check(image: &[u8], sectors: u32, arrangement: u32) -> Checked {
    let answer = unsafe { tandos_check(image.as_ptr(), image.len(), sectors, arrangement) };
    Checked {
        number: answer.number,
        rule: answer.rule,
    }
}

pub fn list(image: &[u8], sectors: u32, arrangement: u32, buffer: &mut [u8]) -> Filled {
    let (lent, lent_len) = (buffer.as_mut_ptr(), buffer.len());
    let answer = unsafe {
        tandos_list(
            image.as_ptr(),
            image.len(),
            sectors,
            arrangement,
            lent,
            lent_len,
        )
    };
    filled(answer)
}

fn filled(answer: CFilled) -> Filled {
    Filled {
        number: answer.number,
        length: answer.length,
    }
}

pub fn read(
    image: &[u8],
    sectors: u32,
    arrangement: u32,
    name: &[u8],
    buffer: &mut [u8],
) -> Reading {
    let answer = unsafe {
        tandos_read(
            image.as_ptr(),
            image.len(),
            sectors,
            arrangement,
            name.as_ptr(),
            name.len(),
            buffer.as_mut_ptr(),
            buffer.len(),
        )
    };
    Reading {
        number: answer.number,
        page: answer.page,
        start: answer.start,
        end: answer.end,
        transfer: answer.transfer,
        length: answer.length,
    }
}

#[allow(clippy::too_many_arguments)]
pub fn save(
    image: &mut [u8],
    sectors: u32,
    arrangement: u32,
    name: &[u8],
    page: u32,
    start: u16,
    transfer: u16,
    sheet: &[u8],
    writes: &mut [u8],
) -> Filled {
    filled(unsafe {
        tandos_save(
            image.as_mut_ptr(),
            image.len(),
            sectors,
            arrangement,
            name.as_ptr(),
            name.len(),
            page,
            start,
            transfer,
            sheet.as_ptr(),
            sheet.len(),
            writes.as_mut_ptr(),
            writes.len(),
        )
    })
}

pub fn delete(
    image: &mut [u8],
    sectors: u32,
    arrangement: u32,
    name: &[u8],
    writes: &mut [u8],
) -> Filled {
    filled(unsafe {
        tandos_delete(
            image.as_mut_ptr(),
            image.len(),
            sectors,
            arrangement,
            name.as_ptr(),
            name.len(),
            writes.as_mut_ptr(),
            writes.len(),
        )
    })
}

pub fn rename(
    image: &mut [u8],
    sectors: u32,
    arrangement: u32,
    old: &[u8],
    new: &[u8],
    writes: &mut [u8],
) -> Filled {
    filled(unsafe {
        tandos_rename(
            image.as_mut_ptr(),
            image.len(),
            sectors,
            arrangement,
            old.as_ptr(),
            old.len(),
            new.as_ptr(),
            new.len(),
            writes.as_mut_ptr(),
            writes.len(),
        )
    })
}

pub fn protect(
    image: &mut [u8],
    sectors: u32,
    arrangement: u32,
    name: &[u8],
    on: u32,
    writes: &mut [u8],
) -> Filled {
    filled(unsafe {
        tandos_protect(
            image.as_mut_ptr(),
            image.len(),
            sectors,
            arrangement,
            name.as_ptr(),
            name.len(),
            on,
            writes.as_mut_ptr(),
            writes.len(),
        )
    })
}

pub fn replay(image: &mut [u8], sectors: u32, arrangement: u32, writes: &[u8]) -> u32 {
    unsafe {
        tandos_replay(
            image.as_mut_ptr(),
            image.len(),
            sectors,
            arrangement,
            writes.as_ptr(),
            writes.len(),
        )
    }
}

pub fn repair(image: &mut [u8], sectors: u32, arrangement: u32) -> u32 {
    unsafe { tandos_repair(image.as_mut_ptr(), image.len(), sectors, arrangement) }
}

pub fn blank(image: &mut [u8], sectors: u32, arrangement: u32, name: &[u8]) -> u32 {
    unsafe {
        tandos_blank(
            image.as_mut_ptr(),
            image.len(),
            sectors,
            arrangement,
            name.as_ptr(),
            name.len(),
        )
    }
}

pub fn view_number(image: &[u8], sectors: u32, arrangement: u32, track: u32, sector: u32) -> u32 {
    unsafe {
        tandos_view_number(
            image.as_ptr(),
            image.len(),
            sectors,
            arrangement,
            track,
            sector,
        )
    }
}

pub fn view_start(image: &[u8], sectors: u32, arrangement: u32, track: u32, sector: u32) -> u32 {
    unsafe {
        tandos_view_start(
            image.as_ptr(),
            image.len(),
            sectors,
            arrangement,
            track,
            sector,
        )
    }
}

pub fn add_sheet(totals: &mut [u32], sheet: &[u8]) -> u32 {
    unsafe {
        tandos_add_sheet(
            totals.as_mut_ptr(),
            totals.len(),
            sheet.as_ptr(),
            sheet.len(),
        )
    }
}
